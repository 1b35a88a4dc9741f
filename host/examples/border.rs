//! Looks at every place of the border to Rust, as border.c at that to C: each field of the options and of an answer, and each argument.
//! All have values of their own, so that two that are exchanged, in the module or in the library, are seen. What is expected was worked out
//! without the library: the search by the oracle, the runs and the scores by tools/model.py, and by hand which round a line was born in.

#[allow(dead_code)]
#[path = "../rust/tavvinur.rs"]
mod tavvinur;

mod scale;
#[allow(dead_code)]
mod servings;
mod slip;

use std::{convert::TryInto, mem::swap};
use tavvinur::{
    go_on, inputs, new_executor, row_born, row_marks, row_words, run, run_program, score,
    score_by_table, search, search_by_table, table_length, Answer, Options, Printed, Program,
    Refused, ARITHMETIC, HARMONIC,
};

const MEMORY: u64 = 1024;
const LOG: u64 = 24;
const STATES: u64 = 7;
const STEP: u32 = 25;
const TAPE: usize = 500;
const WORDS: usize = 38 + 128 + 24;
const MARKS: usize = 32 + 128;
const ROWS: usize = 3;
const TABLE: usize = 256 * (128 + 320);

/// Places in a row.
const LIMIT: usize = 3;
const BORN: usize = 5;
const MEMORY_WORDS: usize = 6 + 32;

/// What a caller may choose to have in a row's word born.
const CHOSEN: u64 = u64::MAX;

/// What stands in a table before a call.
const DIRT: u32 = 0xa5a5_a5a5;

const PROGRAM: Program = Program {
    code_address: 0x40,
    code: &scale::SCALE_CODE,
    data_address: 0x300,
    data: &scale::SCALE_DATA,
};

const SLIP: Program = Program {
    code_address: 0x40,
    code: &slip::SLIP_CODE,
    data_address: 0x300,
    data: &slip::SLIP_DATA,
};

/// xorshift64*
fn tape() -> Vec<u64> {
    let mut x: u64 = 0x9e37_79b9_7f4a_7c15;
    let mut word = || {
        x ^= x >> 12;
        x ^= x << 25;
        x ^= x >> 27;
        x.wrapping_mul(0x2545_f491_4f6c_dd1d)
    };
    (0..TAPE).map(|_| word()).collect()
}

fn parts(answer: Answer) -> [u64; 5] {
    [
        answer.number,
        answer.row,
        answer.pc,
        answer.value,
        answer.used,
    ]
}

fn look_at_defaults() {
    let options = Options::default();
    assert_eq!(options.memory_size, 1_048_576);
    assert_eq!(options.amount_of_states, 400);
    assert_eq!(options.step_size, 1000);
    assert_eq!(options.selection, 50);
    assert_eq!(options.iterations, 20);
    assert_eq!(options.mean, HARMONIC);
    assert_eq!(options.copy_init_ratio, 0.6);
}

const ASKED: Options = Options {
    memory_size: MEMORY,
    amount_of_states: STATES,
    step_size: STEP,
    selection: 2,
    iterations: 9,
    mean: HARMONIC,
    copy_init_ratio: 0.75,
};

const FOUND: [u64; 5] = [45, 3, 124, 41, 104];

/// Every two fields of the same type exchanged.
fn exchanged() -> [Options; 7] {
    let mut all = [ASKED; 7];
    let [a, b, c, d, e, f, g] = &mut all;
    swap(&mut a.step_size, &mut a.selection);
    swap(&mut b.step_size, &mut b.iterations);
    swap(&mut c.step_size, &mut c.mean);
    swap(&mut d.selection, &mut d.iterations);
    swap(&mut e.selection, &mut e.mean);
    swap(&mut f.iterations, &mut f.mean);
    swap(&mut g.memory_size, &mut g.amount_of_states);
    all
}

fn look_at_lengths() {
    assert_eq!((row_words(MEMORY, LOG), row_marks(MEMORY)), (WORDS, MARKS));
    assert_eq!(table_length(MEMORY), TABLE);
}

/// A search with a dirty table, which it leaves zero unless it is refused.
fn search_in_table(
    words: &mut [u64],
    marks: &mut [u8],
    options: &Options,
    log: u64,
    program: &Program,
    tape: &[u64],
) -> Answer {
    let mut table = vec![DIRT; table_length(options.memory_size)];
    let answer = search_by_table(words, marks, &mut table, options, log, program, tape);
    let refused = matches!(answer.number, 1..=7 | 53);
    let left = if refused { DIRT } else { 0 };
    assert!(table.iter().all(|counter| *counter == left));
    answer
}

type Search = fn(&mut [u64], &mut [u8], &Options, u64, &Program, &[u64]) -> Answer;

fn look_at_search(search: Search, tape: &[u64]) {
    let mut words = vec![0; STATES as usize * WORDS];
    let mut marks = vec![0; STATES as usize * MARKS];
    let mut answer = |options: Options| {
        let (words, marks) = (&mut words, &mut marks);
        parts(search(words, marks, &options, LOG, &PROGRAM, tape))
    };
    for options in exchanged() {
        assert_ne!(answer(options), FOUND, "{:?} is told apart", options);
    }
    assert_eq!(answer(ASKED), FOUND);
    // the log of the row that met the bug: weights whose sum is the value
    let log = inputs(&words, MEMORY, LOG, FOUND[1]);
    assert_eq!(log.len(), 11);
    assert_eq!(log.iter().map(|input| input % 10).sum::<u64>(), FOUND[3]);
    // the row is a copy made in round 4, where the search ends, and its limit says that its line has run in five rounds, 0 to 4
    let limit = words[FOUND[1] as usize * WORDS + LIMIT];
    assert_eq!(limit, 5 * u64::from(STEP));
    assert_eq!(row_born(&words, MEMORY, LOG, FOUND[1]), 0);
}

const LINE_MEMORY: u64 = 2048;
const LINE_LOG: u64 = 3;
const LINE_ROWS: u64 = 3;

/// A printer without servings, where print divides by zero. A new executor leaves with 0 after 23 instructions, so that its row is
/// removed in its first round, or asks for a second key in its second.
const NO_SERVINGS: Program = Program {
    code_address: 0,
    code: &servings::SERVINGS_CODE,
    data_address: 0x300,
    data: &[0; 8],
};

const PRINT: u64 = 3;
const LEAVE: u64 = 4;
const PASS: u64 = 5;

/// For a copy, where one row goes on.
const ONLY_PARENT: u64 = 0;

#[rustfmt::skip]
const LINE_TAPE: [u64; 11] = [
    // round 0: no row goes on
    LEAVE, LEAVE, LEAVE,
    // round 1: all rows are new, and the second goes on
    LEAVE, PASS, LEAVE,
    // round 2: that row, with two keys, then a copy of it, which prints, and a new row
    ONLY_PARENT, PASS, PASS, PRINT, PASS,
];

/// The copy has its parent's round, not its own.
fn look_at_births(search: Search) {
    let options = Options {
        memory_size: LINE_MEMORY,
        amount_of_states: LINE_ROWS,
        step_size: 24,
        selection: 1,
        iterations: 3,
        mean: HARMONIC,
        copy_init_ratio: 0.5,
    };
    let mut words = vec![CHOSEN; LINE_ROWS as usize * row_words(LINE_MEMORY, LINE_LOG)];
    let mut marks = vec![0; LINE_ROWS as usize * row_marks(LINE_MEMORY)];
    let answer = search(
        &mut words,
        &mut marks,
        &options,
        LINE_LOG,
        &NO_SERVINGS,
        &LINE_TAPE,
    );
    assert_eq!(parts(answer), [41, 1, 128, 0, LINE_TAPE.len() as u64]);
    let log = inputs(&words, LINE_MEMORY, LINE_LOG, answer.row);
    assert_eq!(log, [PASS, PRINT]);
    let born = [0, 1, 2].map(|row| row_born(&words, LINE_MEMORY, LINE_LOG, row));
    assert_eq!(born, [1, 1, 2]);
}

/// Rows without the word born, of 37 + W + log words, are refused, and left as they are.
fn look_at_shorter_rows(tape: &[u64]) {
    let mut words = vec![CHOSEN; STATES as usize * (WORDS - 1)];
    let mut marks = vec![1; STATES as usize * MARKS];
    let mut scores = [0.0; STATES as usize];
    let scored = score(&words, &marks, MEMORY, LOG, STATES, HARMONIC, &mut scores);
    assert_eq!(scored, Err(Refused(5)));
    let refused = [5, 0, 0, 0, 0];
    let answer = search(&mut words, &mut marks, &ASKED, LOG, &PROGRAM, tape);
    assert_eq!(parts(answer), refused);
    let (row, marks) = (&mut words[..WORDS - 1], &mut marks[..MARKS]);
    let answer = run(row, marks, MEMORY, LOG, STEP, tape);
    assert_eq!(parts(answer), refused);
    assert!(words.iter().all(|word| *word == CHOSEN));
}

fn words_of(bytes: &[u8]) -> Vec<u64> {
    let word = |eight: &[u8]| u64::from_le_bytes(eight.try_into().expect("eight bytes"));
    bytes.chunks(8).map(word).collect()
}

fn look_at_creation(words: &mut [u64], marks: &mut [u8]) {
    words[BORN] = CHOSEN;
    assert_eq!(new_executor(words, marks, MEMORY, LOG, &PROGRAM), Ok(()));
    let end = PROGRAM.data_address + PROGRAM.data.len() as u64;
    assert_eq!((words[0], words[1]), (PROGRAM.code_address, end));
    let (code, data) = (words_of(PROGRAM.code), words_of(PROGRAM.data));
    assert_eq!(row_born(words, MEMORY, LOG, 0), 0);
    let memory = &words[MEMORY_WORDS..];
    assert_eq!(memory[0x40 / 8..][..code.len()], code[..]);
    assert_eq!(memory[0x300 / 8..][..data.len()], data[..]);
    // x0, sp and the word that sp points to, beside code and data
    let concrete = marks.iter().filter(|mark| **mark == 1).count();
    assert_eq!(concrete, 3 + code.len() + data.len());
}

/// One row runs to its bug in two calls, one until its tape of one word is empty, one to its limit. Each keeps the word born that was chosen
/// for it; the scores after that are the same with any.
fn look_at_runs(words: &mut [u64], marks: &mut [u8], tape: &[u64]) {
    let chosen = [CHOSEN, CHOSEN - 1, CHOSEN - 2];
    for (row, born) in words.chunks_mut(WORDS).zip(chosen) {
        row[BORN] = born;
    }
    let mut ran = |row: usize, step, tape| {
        let words = &mut words[row * WORDS..][..WORDS];
        let marks = &mut marks[row * MARKS..][..MARKS];
        parts(run(words, marks, MEMORY, LOG, step, tape))
    };
    assert_eq!(ran(0, STEP, tape), [22, 0, 84, 0, 2]);
    assert_eq!(ran(0, 1000, &tape[2..]), [45, 0, 124, 43, 8]);
    assert_eq!(ran(1, STEP, &tape[20..21]), [24, 0, 92, 0, 1]);
    assert_eq!(ran(2, 10, &tape[20..]), [22, 0, 104, 0, 1]);
    assert_eq!(inputs(words, MEMORY, LOG, 0), &tape[..10]);
    let born = [0, 1, 2].map(|row| row_born(words, MEMORY, LOG, row));
    assert_eq!(born, chosen);
}

fn look_at_scores(words: &[u64], marks: &[u8]) {
    let scored = |mean| {
        let mut scores = [0.0; ROWS];
        let rows = ROWS as u64;
        score(words, marks, MEMORY, LOG, rows, mean, &mut scores).expect("the rows are scored");
        let (mut table, mut by_table) = (vec![DIRT; TABLE], [0.0; ROWS]);
        let increments = score_by_table(
            words,
            marks,
            MEMORY,
            LOG,
            rows,
            mean,
            &mut table,
            &mut by_table,
        );
        assert_eq!(increments, Ok(568));
        assert!(table.iter().all(|counter| *counter == 0));
        assert_eq!(by_table.map(f64::to_bits), scores.map(f64::to_bits));
        scores.map(f64::to_bits)
    };
    // 4.12, 4.17, 4.30
    let arithmetic = [0x40107aaaaaaaaaab, 0x4010aaaaaaaaaaab, 0x4011321642c8590b];
    // 3.03, 3.26, 3.43
    let harmonic = [0x400835066f9f2bd8, 0x400a0e0fb7362d6f, 0x400b7712899c25b6];
    assert_eq!(scored(ARITHMETIC), arithmetic);
    assert_eq!(scored(HARMONIC), harmonic);
}

const SLIP_LIMIT: u32 = 100;
const UNTOUCHED: u8 = 0xa5;

/// One row and an output, which is longer than the slip.
#[derive(Clone)]
struct Lent {
    words: Vec<u64>,
    marks: Vec<u8>,
    output: [u8; 20],
}

impl Lent {
    fn new() -> Lent {
        Lent {
            words: vec![0; WORDS],
            marks: vec![0; MARKS],
            output: [UNTOUCHED; 20],
        }
    }

    fn start(&mut self, program: &Program, step: u32, input: &[u64]) -> [u64; 5] {
        let (words, marks, output) = (&mut self.words, &mut self.marks, &mut self.output);
        printed_parts(run_program(
            words, marks, MEMORY, LOG, step, program, input, output,
        ))
    }

    fn go_on(&mut self, step: u32, input: &[u64]) -> [u64; 5] {
        let (words, marks, output) = (&mut self.words, &mut self.marks, &mut self.output);
        printed_parts(go_on(words, marks, MEMORY, LOG, step, input, output))
    }
}

fn printed_parts(printed: Printed) -> [u64; 5] {
    [
        printed.number,
        printed.pc,
        printed.value,
        printed.used,
        printed.written,
    ]
}

/// The slip of two weights out of three.
const WHOLE_SLIP: [u64; 5] = [45, 112, 9, 2, 13];

fn look_at_slip(lent: &Lent, tape: &[u64]) {
    let weights: Vec<u8> = tape.iter().flat_map(|word| word.to_le_bytes()).collect();
    assert_eq!(lent.output[..13], weights[3..16]);
    assert_eq!(lent.output[13..], [UNTOUCHED; 7]);
    // depth and limit
    assert_eq!(lent.words[2..4], [13, u64::from(SLIP_LIMIT)]);
    assert_eq!(inputs(&lent.words, MEMORY, LOG, 0), &tape[..2]);
}

fn look_at_program(tape: &[u64]) -> Lent {
    let mut lent = Lent::new();
    lent.words[BORN] = CHOSEN;
    assert_eq!(lent.start(&SLIP, SLIP_LIMIT, &tape[..3]), WHOLE_SLIP);
    look_at_slip(&lent, tape);
    assert_eq!(row_born(&lent.words, MEMORY, LOG, 0), 0);
    lent
}

/// The slip in two calls, of which the second reads and prints: row, label and counts are those of one call. So is the row of a run that
/// goes on, which prints nothing.
fn look_at_going_on(tape: &[u64], one: &Lent) {
    let first = 3;
    let second = SLIP_LIMIT - first;
    let mut lent = Lent::new();
    let pc = SLIP.code_address + 4 * u64::from(first);
    assert_eq!(lent.start(&SLIP, first, &tape[..3]), [22, pc, 0, 0, 0]);
    let mut row = lent.clone();
    let answer = run(
        &mut row.words,
        &mut row.marks,
        MEMORY,
        LOG,
        second,
        &tape[..3],
    );
    assert_eq!(parts(answer), [45, 0, 112, 9, 2]);
    assert_eq!(lent.go_on(second, &tape[..3]), WHOLE_SLIP);
    look_at_slip(&lent, tape);
    for left in [&lent, &row] {
        assert!(left.words == one.words && left.marks == one.marks);
    }
}

/// Weights in two calls, the second on what is left of the tape; the word born that was chosen between them stays.
fn look_at_the_rest(tape: &[u64]) {
    let mut lent = Lent::new();
    assert_eq!(lent.start(&PROGRAM, STEP, tape), [22, 84, 0, 2, 0]);
    lent.words[BORN] = CHOSEN;
    assert_eq!(lent.go_on(1000, &tape[2..]), [45, 124, 43, 8, 0]);
    assert_eq!(lent.output, [UNTOUCHED; 20]);
    assert_eq!(lent.words[LIMIT], u64::from(STEP) + 1000);
    assert_eq!(row_born(&lent.words, MEMORY, LOG, 0), CHOSEN);
    assert_eq!(inputs(&lent.words, MEMORY, LOG, 0), &tape[..10]);
}

fn main() {
    let tape = tape();
    look_at_defaults();
    look_at_lengths();
    look_at_search(search, &tape);
    look_at_search(search_in_table, &tape);
    look_at_births(search);
    look_at_births(search_in_table);
    look_at_shorter_rows(&tape);
    let mut words = vec![0; ROWS * WORDS];
    let mut marks = vec![0; ROWS * MARKS];
    for (w, m) in words.chunks_mut(WORDS).zip(marks.chunks_mut(MARKS)) {
        look_at_creation(w, m);
    }
    look_at_runs(&mut words, &mut marks, &tape);
    look_at_scores(&words, &marks);
    let slip = look_at_program(&tape);
    look_at_going_on(&tape, &slip);
    look_at_the_rest(&tape);
    println!("border: every field and argument is where the module says");
}
