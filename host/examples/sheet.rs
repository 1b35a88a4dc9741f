//! A sheet of any size: reads one from standard input, searches with the library, which counts in a table, and prints what the bench program
//! prints for a sheet within its limits. With --store, digests of the store that the search leaves follow, unless the sheet is refused.
//!
//! With --order, the sheet's program is run at the counter instead, on its tape as the order and for at most its step, with its memory and
//! its log; states, selection, rounds and ratio have no part in that. The answer is printed, with the input words taken and the bytes
//! written, and digests of the row and of the output, unless the sheet is refused. With --order --every N it is run N instructions at a
//! time, and the lines are the same: a run that ends in one of its parts leaves a lower limit than one run does, and that word alone is made
//! the one run's.
//!
//! The digest of words leaves out the word born of each row, which the Rust does not have. Those words have a digest of their own.
//!
//! What a sheet is, and its refusals 51 to 54, is in docs/SHEETS.md; here none of the bench program's limits hold. All other refusals
//! are the library's.

#[allow(dead_code)]
#[path = "../rust/tavvinur.rs"]
mod tavvinur;

use std::{
    convert::TryInto,
    fmt::Write as _,
    io::{self, Read, Write},
    process::exit,
};
use tavvinur::{
    go_on, inputs, row_born, row_marks, row_words, run_program, search_by_table, table_length,
    Answer, Options, Printed, Program,
};

const FIELD_BYTES: usize = 128;
const MOST_STATES: u64 = 4096;
const MOST_MEMORY: u64 = 1 << 20;
const MOST_LOG: u64 = 65_536;

/// Places in a row.
const LIMIT: usize = 3;
const BORN: usize = 5;

/// The number of a run that stopped at its limit.
const LIMIT_REACHED: u64 = 22;

/// The output of an order, and what stands in it before.
const OUTPUT_BYTES: usize = 1024;
const UNTOUCHED: u8 = 0xee;

/// Refusals of a sheet.
const TOO_SHORT: u64 = 51;
const PART_PAST_END: u64 = 52;
const MEAN_ABOVE: u64 = 53;
const COUNT_ABOVE: u64 = 54;

struct Sheet<'a> {
    options: Options,
    log: u64,
    program: Program<'a>,
    tape: Vec<u64>,
}

fn word(bytes: &[u8]) -> u64 {
    u64::from_le_bytes(bytes.try_into().expect("eight bytes"))
}

/// So many elements of this size at an offset.
fn part(sheet: &[u8], offset: u64, count: u64, size: usize) -> Result<&[u8], u64> {
    let within = || {
        let start = usize::try_from(offset).ok()?;
        let length = usize::try_from(count).ok()?.checked_mul(size)?;
        sheet.get(start..start.checked_add(length)?)
    };
    within().ok_or(PART_PAST_END)
}

fn count(given: u64) -> Result<u32, u64> {
    given.try_into().map_err(|_| COUNT_ABOVE)
}

fn read(sheet: &[u8]) -> Result<Sheet<'_>, u64> {
    if sheet.len() < FIELD_BYTES {
        return Err(TOO_SHORT);
    }
    let field = |n: usize| word(&sheet[8 * n..][..8]);
    // all ones ask for the default
    let or = |n: usize, default: u64| match field(n) {
        u64::MAX => default,
        given => given,
    };
    let default = Options::default();
    let code = part(sheet, field(9), field(10), 1)?;
    let data = part(sheet, field(12), field(13), 1)?;
    let tape = part(sheet, field(14), field(15), 8)?;
    let mean = match or(5, default.mean.into()).try_into() {
        Ok(mean @ (tavvinur::ARITHMETIC | tavvinur::HARMONIC)) => mean,
        _ => return Err(MEAN_ABOVE),
    };
    Ok(Sheet {
        options: Options {
            amount_of_states: or(0, default.amount_of_states),
            step_size: count(or(1, default.step_size.into()))?,
            selection: count(or(2, default.selection.into()))?,
            iterations: count(or(3, default.iterations.into()))?,
            copy_init_ratio: f64::from_bits(or(4, default.copy_init_ratio.to_bits())),
            mean,
            memory_size: or(6, default.memory_size),
        },
        log: field(7),
        program: Program {
            code_address: field(8),
            code,
            data_address: field(11),
            data,
        },
        tape: tape.chunks(8).map(word).collect(),
    })
}

/// The words and marks that these options ask for; none where the library refuses the options anyway.
fn store(options: &Options, log: u64) -> (Vec<u64>, Vec<u8>) {
    let (states, memory) = (options.amount_of_states, options.memory_size);
    if states > MOST_STATES || memory > MOST_MEMORY || log > MOST_LOG {
        return (Vec::new(), Vec::new());
    }
    let states = states as usize;
    (
        vec![0; states * row_words(memory, log)],
        vec![0; states * row_marks(memory)],
    )
}

/// The table that these options ask for; none where the library refuses them anyway.
fn table(options: &Options) -> Vec<u32> {
    match options.memory_size {
        memory if memory > MOST_MEMORY => Vec::new(),
        memory => vec![0; table_length(memory)],
    }
}

/// What stands between the answer's line and the used count.
fn found(born: u64, inputs: &[u64]) -> String {
    let mut text = format!("born {}\n", born);
    for input in inputs {
        writeln!(text, "input {}", input).expect("a string takes any line");
    }
    text
}

fn lines(answer: &Answer, found: &str) -> String {
    format!(
        "answer {} row {} pc {} value {}\n{}used {}\n",
        answer.number, answer.row, answer.pc, answer.value, found, answer.used
    )
}

/// FNV-1a, 64 bits.
fn digest(bytes: impl Iterator<Item = u8>) -> u64 {
    bytes.fold(0xcbf2_9ce4_8422_2325, |hash, byte| {
        (hash ^ u64::from(byte)).wrapping_mul(0x0000_0100_0000_01b3)
    })
}

fn digest_of_words<'a>(words: impl Iterator<Item = &'a u64>) -> u64 {
    digest(words.flat_map(|word| word.to_le_bytes()))
}

/// Of rows with so many words.
fn digests(words: &[u64], row: usize, marks: &[u8]) -> String {
    let others = words
        .chunks(row)
        .flat_map(|row| row[..BORN].iter().chain(&row[BORN + 1..]));
    let borns = words.iter().skip(BORN).step_by(row);
    format!(
        "words {:016x}\nmarks {:016x}\nborns {:016x}\n",
        digest_of_words(others),
        digest(marks.iter().copied()),
        digest_of_words(borns)
    )
}

fn refused(number: u64) -> String {
    let (row, pc, value, used) = (0, 0, 0, 0);
    lines(
        &Answer {
            number,
            row,
            pc,
            value,
            used,
        },
        "",
    )
}

fn searched(sheet: &Sheet, with_store: bool) -> String {
    let Sheet {
        options,
        log,
        program,
        tape,
    } = sheet;
    let (mut words, mut marks) = store(options, *log);
    let mut table = table(options);
    let answer = search_by_table(
        &mut words, &mut marks, &mut table, options, *log, program, tape,
    );
    let is_zero = table.iter().all(|counter| *counter == 0);
    assert!(is_zero, "the library leaves the table zero");
    if (1..=7).contains(&answer.number) {
        return refused(answer.number);
    }
    let (memory, row) = (options.memory_size, answer.row);
    let found = match answer.is_bug() {
        true => found(
            row_born(&words, memory, *log, row),
            inputs(&words, memory, *log, row),
        ),
        false => String::new(),
    };
    let mut text = lines(&answer, &found);
    if with_store {
        text += &digests(&words, row_words(memory, *log), &marks);
    }
    text
}

fn order_lines(printed: &Printed) -> String {
    format!(
        "answer {} pc {} value {}\nused {}\nwritten {}\n",
        printed.number, printed.pc, printed.value, printed.used, printed.written
    )
}

fn refused_order(number: u64) -> String {
    let (pc, value, used, written) = (0, 0, 0, 0);
    order_lines(&Printed {
        number,
        pc,
        value,
        used,
        written,
    })
}

/// What is lent for an order: a row and an output.
struct Lent {
    words: Vec<u64>,
    marks: Vec<u8>,
    output: Vec<u8>,
}

impl Lent {
    fn to(sheet: &Sheet) -> Lent {
        let one = Options {
            amount_of_states: 1,
            ..sheet.options
        };
        let (words, marks) = store(&one, sheet.log);
        Lent {
            words,
            marks,
            output: vec![UNTOUCHED; OUTPUT_BYTES],
        }
    }

    fn start(&mut self, sheet: &Sheet, step: u32) -> Printed {
        run_program(
            &mut self.words,
            &mut self.marks,
            sheet.options.memory_size,
            sheet.log,
            step,
            &sheet.program,
            &sheet.tape,
            &mut self.output,
        )
    }

    /// Goes on behind what the runs before took and wrote, and gives what all of them come to.
    fn go_on(&mut self, sheet: &Sheet, step: u32, before: Printed) -> Printed {
        let printed = go_on(
            &mut self.words,
            &mut self.marks,
            sheet.options.memory_size,
            sheet.log,
            step,
            &sheet.tape[before.used as usize..],
            &mut self.output[before.written as usize..],
        );
        Printed {
            used: before.used + printed.used,
            written: before.written + printed.written,
            ..printed
        }
    }
}

/// Runs an order in one part, or in parts of so many instructions.
fn ran(sheet: &Sheet, every: u32) -> String {
    let mut lent = Lent::to(sheet);
    let mut step = every.min(sheet.options.step_size);
    let mut left = sheet.options.step_size - step;
    let mut printed = lent.start(sheet, step);
    while printed.number == LIMIT_REACHED && left > 0 {
        step = every.min(left);
        left -= step;
        printed = lent.go_on(sheet, step, printed);
    }
    let mut text = order_lines(&printed);
    if !(1..=7).contains(&printed.number) {
        lent.words[LIMIT] += u64::from(left);
        text += &digests(&lent.words, lent.words.len(), &lent.marks);
        text += &format!("output {:016x}\n", digest(lent.output.into_iter()));
    }
    text
}

/// What is asked for.
enum Task {
    Search { with_store: bool },
    Order { every: u32 },
}

fn task(arguments: &[&str]) -> Option<Task> {
    match arguments {
        [] => Some(Task::Search { with_store: false }),
        ["--store"] => Some(Task::Search { with_store: true }),
        ["--order"] => Some(Task::Order { every: u32::MAX }),
        ["--order", "--every", number] => match number.parse() {
            Ok(every @ 1..) => Some(Task::Order { every }),
            _ => None,
        },
        _ => None,
    }
}

fn main() -> io::Result<()> {
    let arguments = std::env::args().skip(1).collect::<Vec<_>>();
    let arguments = arguments.iter().map(String::as_str).collect::<Vec<_>>();
    let Some(task) = task(&arguments) else {
        eprintln!("usage: sheet [--store | --order [--every N]] < SHEET");
        exit(2);
    };
    let mut bytes = Vec::new();
    io::stdin().lock().read_to_end(&mut bytes)?;
    let text = match (read(&bytes), task) {
        (Err(number), Task::Search { .. }) => refused(number),
        (Err(number), Task::Order { .. }) => refused_order(number),
        (Ok(sheet), Task::Search { with_store }) => searched(&sheet, with_store),
        (Ok(sheet), Task::Order { every }) => ran(&sheet, every),
    };
    io::stdout().lock().write_all(text.as_bytes())
}
