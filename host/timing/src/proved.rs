//! Tavvinur's side of the timings.

use crate::{
    clock,
    tavvinur::{go_on, new_executor, row_marks, row_words, run as run_row, run_program},
    tavvinur::{score, score_by_table, search as search_rows, search_by_table, table_length},
    tavvinur::{Answer, Program, HARMONIC},
    Case, ENDING, GOING_ON, KEYS,
};
use std::time::Duration;

/// A lent store whose pages have been touched.
struct Store {
    words: Vec<u64>,
    marks: Vec<u8>,
}

/// A lent table whose pages have been touched.
fn table(memory: u64) -> Vec<u32> {
    vec![1; table_length(memory)]
}

fn look_at_table(table: &[u32]) {
    assert!(table.iter().all(|counter| *counter == 0));
}

impl Store {
    fn new(rows: u64, memory: u64, log: u64) -> Store {
        Store {
            words: vec![1; rows as usize * row_words(memory, log)],
            marks: vec![1; rows as usize * row_marks(memory)],
        }
    }
}

/// An executor of a program, which each call runs on.
pub fn run(program: &Program, memory: u64) -> impl FnMut(u32) -> Duration {
    let Store {
        mut words,
        mut marks,
    } = Store::new(1, memory, 0);
    new_executor(&mut words, &mut marks, memory, 0, program).expect("the program is accepted");
    let mut run_on = move |instructions| {
        let started = clock::now();
        let answer = run_row(&mut words, &mut marks, memory, 0, instructions, &[]);
        let time = clock::now() - started;
        assert_eq!(answer.number, 22);
        time
    };
    run_on(1000);
    run_on
}

/// A program at the counter, which each call loads and runs. The output's pages have been touched, and it is longer than what is written.
pub fn print(program: &'static Program, memory: u64) -> impl FnMut(u32) -> Duration {
    let Store {
        mut words,
        mut marks,
    } = Store::new(1, memory, 0);
    let mut output = Vec::new();
    move |instructions| {
        output.resize(instructions as usize / 8, 1);
        let started = clock::now();
        let printed = run_program(
            &mut words,
            &mut marks,
            memory,
            0,
            instructions,
            program,
            &[],
            &mut output,
        );
        let time = clock::now() - started;
        assert_eq!(printed.number, 22);
        assert!(
            printed.written >= u64::from(instructions) / 100 * 8 - 8,
            "eight bytes in every hundred instructions"
        );
        time
    }
}

/// The same in parts of so many instructions, each of which goes on from the last.
pub fn print_in_parts(
    program: &'static Program,
    memory: u64,
    every: u32,
) -> impl FnMut(u32) -> Duration {
    let Store {
        mut words,
        mut marks,
    } = Store::new(1, memory, 0);
    let mut output = Vec::new();
    move |instructions| {
        output.resize(instructions as usize / 8, 1);
        let (words, marks) = (&mut words[..], &mut marks[..]);
        let started = clock::now();
        let mut printed = run_program(words, marks, memory, 0, every, program, &[], &mut output);
        let mut written = printed.written;
        for _ in 1..instructions / every {
            let rest = &mut output[written as usize..];
            printed = go_on(words, marks, memory, 0, every, &[], rest);
            written += printed.written;
        }
        let time = clock::now() - started;
        assert_eq!(printed.number, 22);
        assert!(written >= u64::from(instructions) / 100 * 8 - 8);
        time
    }
}

fn search_for(
    program: &Program,
    store: &mut Store,
    table: &mut [u32],
    case: Case,
    tape: &[u64],
) -> Answer {
    search_by_table(
        &mut store.words,
        &mut store.marks,
        table,
        &case.options(),
        case.log(),
        program,
        tape,
    )
}

fn search_in(store: &mut Store, table: &mut [u32], case: Case, tape: &[u64]) -> Answer {
    search_for(&KEYS, store, table, case, tape)
}

/// What scoring adds to a search of one round: the time of one that keeps no state, less that of the same whose states have all ended
/// before they would be scored.
pub fn scoring(case: Case, tape: &[u64]) -> impl FnMut() -> [Duration; 2] + '_ {
    let mut store = Store::new(case.states, case.memory, case.log());
    let mut table = table(case.memory);
    move || {
        [&GOING_ON, &ENDING].map(|program| {
            let started = clock::now();
            let answer = search_for(program, &mut store, &mut table, case, tape);
            let time = clock::now() - started;
            assert_eq!(answer.number, 0);
            time
        })
    }
}

/// A search by table.
pub fn search(case: Case, tape: &[u64]) -> Duration {
    let mut store = Store::new(case.states, case.memory, case.log());
    let mut table = table(case.memory);
    let started = clock::now();
    search_in(&mut store, &mut table, case, tape);
    let time = clock::now() - started;
    look_at_table(&table);
    time
}

/// The number of the answer and the tape words taken, by table.
pub fn answer(case: Case, tape: &[u64]) -> (u64, u64) {
    let mut store = Store::new(case.states, case.memory, case.log());
    let answer = search_in(&mut store, &mut table(case.memory), case, tape);
    (answer.number, answer.used)
}

/// The same without a table.
pub fn answer_without(case: Case, tape: &[u64]) -> (u64, u64) {
    let Store {
        mut words,
        mut marks,
    } = Store::new(case.states, case.memory, case.log());
    let options = case.options();
    let answer = search_rows(&mut words, &mut marks, &options, case.log(), &KEYS, tape);
    (answer.number, answer.used)
}

/// The rows of one round from nothing.
struct Round {
    case: Case,
    store: Store,
}

impl Round {
    /// New executors and their runs by single calls, each with its time.
    fn new(case: Case, tape: &[u64]) -> (Round, [Duration; 2]) {
        let (memory, log) = (case.memory, case.log());
        let mut store = Store::new(case.states, memory, log);
        let (words, marks) = (row_words(memory, log), row_marks(memory));
        let started = clock::now();
        for (w, m) in (store.words.chunks_mut(words)).zip(store.marks.chunks_mut(marks)) {
            new_executor(w, m, memory, log, &KEYS).expect("the program is accepted");
        }
        let filled = clock::now();
        let mut used = 0;
        for (w, m) in (store.words.chunks_mut(words)).zip(store.marks.chunks_mut(marks)) {
            let answer = run_row(w, m, memory, log, case.options().step_size, &tape[used..]);
            used += answer.used as usize;
        }
        let ran = clock::now();
        (Round { case, store }, [filled - started, ran - filled])
    }

    /// Scores by table, with their time and the number of increments.
    fn score_by_table(&self, table: &mut [u32]) -> (Duration, u64, Vec<f64>) {
        let Round { case, store } = self;
        let mut scores = vec![0.0; case.states as usize];
        let started = clock::now();
        let increments = score_by_table(
            &store.words,
            &store.marks,
            case.memory,
            case.log(),
            case.states,
            HARMONIC,
            table,
            &mut scores,
        );
        let time = clock::now() - started;
        look_at_table(table);
        (time, increments.expect("the rows are scored"), scores)
    }

    /// Scores without a table, with their time.
    fn score(&self) -> (Duration, Vec<f64>) {
        let Round { case, store } = self;
        let mut scores = vec![0.0; case.states as usize];
        let started = clock::now();
        score(
            &store.words,
            &store.marks,
            case.memory,
            case.log(),
            case.states,
            HARMONIC,
            &mut scores,
        )
        .expect("the rows are scored");
        (clock::now() - started, scores)
    }
}

/// One round from nothing by single calls: new executors, their runs, their scores by table.
pub fn phases(case: Case, tape: &[u64]) -> [Duration; 3] {
    let (round, [filling, running]) = Round::new(case, tape);
    let (scoring, ..) = round.score_by_table(&mut table(case.memory));
    [filling, running, scoring]
}

/// Scoring a round again and again, in a table that the first time finds dirty.
pub struct Scoring {
    round: Round,
    table: Vec<u32>,
}

impl Scoring {
    pub fn new(case: Case, tape: &[u64]) -> Scoring {
        Scoring {
            round: Round::new(case, tape).0,
            table: table(case.memory),
        }
    }

    pub fn increments(&mut self) -> u64 {
        self.round.score_by_table(&mut self.table).1
    }

    pub fn scores(&mut self) -> Vec<f64> {
        self.round.score_by_table(&mut self.table).2
    }

    pub fn time(&mut self) -> Duration {
        self.round.score_by_table(&mut self.table).0
    }

    pub fn scores_without(&self) -> Vec<f64> {
        self.round.score().1
    }

    pub fn time_without(&self) -> Duration {
        self.round.score().0
    }
}
