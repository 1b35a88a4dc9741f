//! Tavvinur for Rust: safe functions over `libtavvinur.a`, without outside crates. Take the file in as a module
//! (`#[path = ".."] mod tavvinur;`) and link the archive (`-l static=tavvinur`).
//!
//! Lengths, numbers and rows may be any: the library checks them, refuses by number and then changes nothing. What it asks of its
//! caller, that slices are what they say, references give by themselves. `docs/HOSTS.md` has the numbers and the layout of a row.
//!
//! One thing references do not give: the calling thread computes with doubles as a Rust program does from its start. It rounds to
//! nearest, and MXCSR has neither denormals-are-zero set nor an exception unmasked. Rust itself takes that for granted; only foreign code
//! that has changed it can break it. Rounding otherwise gives other scores, so that a search may keep other rows.

use std::ops::Range;

/// The options of a search. `Default` gives 400 states of 1 MiB, 1000 instructions, 50 kept, 20 rounds, ratio 0.6, harmonic: those of
/// the original's command line, but for the number of states, which is 3000 there.
#[repr(C)]
#[derive(Debug, Clone, Copy, PartialEq)]
pub struct Options {
    /// Bytes of a state's memory.
    pub memory_size: u64,
    /// Rows of the store.
    pub amount_of_states: u64,
    /// Instructions that each state runs in a round.
    pub step_size: u32,
    /// How many of the rarest states are kept after a round.
    pub selection: u32,
    /// Rounds.
    pub iterations: u32,
    /// [`ARITHMETIC`] or [`HARMONIC`].
    pub mean: u32,
    /// The part of the missing states that is copied from kept ones, the others being new.
    pub copy_init_ratio: f64,
}

pub const ARITHMETIC: u32 = 0;
pub const HARMONIC: u32 = 1;

impl Default for Options {
    fn default() -> Options {
        // no pointer crosses
        unsafe { tavvinur_default_options() }
    }
}

/// What a run or a search answers; what has no use is 0.
#[repr(C)]
#[derive(Debug, Clone, Copy, PartialEq, Eq)]
pub struct Answer {
    pub number: u64,
    /// Of a bug or an error; 0 from a run.
    pub row: u64,
    /// Before the instruction.
    pub pc: u64,
    pub value: u64,
    /// Tape words taken.
    pub used: u64,
}

impl Answer {
    /// Whether a bug was found: 41 to 45.
    pub fn is_bug(&self) -> bool {
        (41..=45).contains(&self.number)
    }
}

/// What a program answers that was run at the counter, or went on there; what has no use is 0.
#[repr(C)]
#[derive(Debug, Clone, Copy, PartialEq, Eq)]
pub struct Printed {
    pub number: u64,
    /// Before the instruction.
    pub pc: u64,
    pub value: u64,
    /// Input words taken.
    pub used: u64,
    /// Bytes at the front of the output.
    pub written: u64,
}

/// What a scoring in a table answers.
#[repr(C)]
struct Scored {
    number: u64,
    increments: u64,
}

/// The number by which a call was refused, or 31 from a scoring.
#[derive(Debug, Clone, Copy, PartialEq, Eq)]
pub struct Refused(pub u64);

/// A program: code and data with the addresses that they come to.
#[derive(Debug, Clone, Copy, PartialEq, Eq)]
pub struct Program<'a> {
    pub code_address: u64,
    pub code: &'a [u8],
    pub data_address: u64,
    pub data: &'a [u8],
}

/// The words of a row with so many bytes of memory and so many log words.
pub fn row_words(memory: u64, log: u64) -> usize {
    (38 + memory / 8 + log) as usize
}

/// The marks of a row with so many bytes of memory.
pub fn row_marks(memory: u64) -> usize {
    (32 + memory / 8) as usize
}

/// The counters of a table to count in, for rows with so many bytes of memory. A call that is not refused leaves all of a table 0; one that is
/// refused leaves it as it was. What is 0 is not written: of a table fresh from the system (`vec![0; ..]`) the pages in which nothing is counted
/// stay unmapped, and take no memory.
pub fn table_length(memory: u64) -> usize {
    (256 * (memory / 8 + 320)) as usize
}

/// What the row of a store has read, in order; for rows that the library left.
pub fn inputs(words: &[u64], memory: u64, log: u64, row: u64) -> &[u64] {
    let row = row_of(words, memory, log, row);
    &row[log_part(memory, row[4])]
}

/// How old the line of a store's row is: the round, counted from 0, in which its first ancestor was created anew. A copy has its parent's,
/// an executor created outside a search 0. In a row lent to a run or a scoring it may be any number, which is left as it was.
pub fn row_born(words: &[u64], memory: u64, log: u64, row: u64) -> u64 {
    row_of(words, memory, log, row)[5]
}

fn row_of(words: &[u64], memory: u64, log: u64, row: u64) -> &[u64] {
    let length = row_words(memory, log);
    &words[row as usize * length..][..length]
}

fn log_part(memory: u64, count: u64) -> Range<usize> {
    let start = row_words(memory, 0);
    start..start + count as usize
}

/// Makes a new executor in a lent row.
pub fn new_executor(
    words: &mut [u64],
    marks: &mut [u8],
    memory: u64,
    log: u64,
    program: &Program,
) -> Result<(), Refused> {
    // each pointer is that of the slice whose length follows; the borrows last until the call returns
    told(unsafe {
        tavvinur_new_executor(
            words.as_mut_ptr(),
            words.len(),
            marks.as_mut_ptr(),
            marks.len(),
            memory,
            log,
            program.code_address,
            program.code.as_ptr(),
            program.code.len(),
            program.data_address,
            program.data.as_ptr(),
            program.data.len(),
        )
    })
}

/// Runs a lent row for at most `step` instructions more, on a tape from its front.
pub fn run(
    words: &mut [u64],
    marks: &mut [u8],
    memory: u64,
    log: u64,
    step: u32,
    tape: &[u64],
) -> Answer {
    // as in `new_executor`
    unsafe {
        tavvinur_run(
            words.as_mut_ptr(),
            words.len(),
            marks.as_mut_ptr(),
            marks.len(),
            memory,
            log,
            step,
            tape.as_ptr(),
            tape.len(),
        )
    }
}

/// Loads a label program into a lent row and runs it for at most `step` instructions, one input word to each draw. What it writes
/// goes to the front of the output; the other bytes of the output are untouched.
#[allow(clippy::too_many_arguments)]
pub fn run_program(
    words: &mut [u64],
    marks: &mut [u8],
    memory: u64,
    log: u64,
    step: u32,
    program: &Program,
    input: &[u64],
    output: &mut [u8],
) -> Printed {
    // as in `new_executor`
    unsafe {
        tavvinur_run_program(
            words.as_mut_ptr(),
            words.len(),
            marks.as_mut_ptr(),
            marks.len(),
            memory,
            log,
            step,
            program.code_address,
            program.code.as_ptr(),
            program.code.len(),
            program.data_address,
            program.data.as_ptr(),
            program.data.len(),
            input.as_ptr(),
            input.len(),
            output.as_mut_ptr(),
            output.len(),
        )
    }
}

/// Goes on with a row that [`run_program`], or a call of this function, has left with 22, for at most `step` instructions more. The input is
/// what the call before left of the input (`&input[used..]`), the output what it left of the output (`&mut output[written..]`).
///
/// With `used` and `written` added, the two calls are one call of all their instructions, where these are below 2^32. Any other answer, 71
/// too, is that of the one call, and nothing goes on after it. The same is so of [`run`] on the rest of the tape.
pub fn go_on(
    words: &mut [u64],
    marks: &mut [u8],
    memory: u64,
    log: u64,
    step: u32,
    input: &[u64],
    output: &mut [u8],
) -> Printed {
    // as in `new_executor`
    unsafe {
        tavvinur_go_on(
            words.as_mut_ptr(),
            words.len(),
            marks.as_mut_ptr(),
            marks.len(),
            memory,
            log,
            step,
            input.as_ptr(),
            input.len(),
            output.as_mut_ptr(),
            output.len(),
        )
    }
}

/// Scores the rows of a store among themselves, one score a row; the scores are written only where this is `Ok`.
pub fn score(
    words: &[u64],
    marks: &[u8],
    memory: u64,
    log: u64,
    rows: u64,
    mean: u32,
    scores: &mut [f64],
) -> Result<(), Refused> {
    // as in `new_executor`
    told(unsafe {
        tavvinur_score(
            words.as_ptr(),
            words.len(),
            marks.as_ptr(),
            marks.len(),
            memory,
            log,
            rows,
            mean,
            scores.as_mut_ptr(),
            scores.len(),
        )
    })
}

/// The same scores, counted in a lent table of [`table_length`] counters, whatever they were. Gives the number of increments: 8 for each
/// marked word and each pc of the rows.
#[allow(clippy::too_many_arguments)]
pub fn score_by_table(
    words: &[u64],
    marks: &[u8],
    memory: u64,
    log: u64,
    rows: u64,
    mean: u32,
    table: &mut [u32],
    scores: &mut [f64],
) -> Result<u64, Refused> {
    // as in `new_executor`
    let scored = unsafe {
        tavvinur_score_by_table(
            words.as_ptr(),
            words.len(),
            marks.as_ptr(),
            marks.len(),
            memory,
            log,
            rows,
            mean,
            table.as_mut_ptr(),
            table.len(),
            scores.as_mut_ptr(),
            scores.len(),
        )
    };
    told(scored.number).map(|()| scored.increments)
}

/// Searches a program for bugs in a lent store, which an accepted call zeroes first.
pub fn search(
    words: &mut [u64],
    marks: &mut [u8],
    options: &Options,
    log: u64,
    program: &Program,
    tape: &[u64],
) -> Answer {
    // as in `new_executor`
    unsafe {
        tavvinur_search(
            words.as_mut_ptr(),
            words.len(),
            marks.as_mut_ptr(),
            marks.len(),
            *options,
            log,
            program.code_address,
            program.code.as_ptr(),
            program.code.len(),
            program.data_address,
            program.data.as_ptr(),
            program.data.len(),
            tape.as_ptr(),
            tape.len(),
        )
    }
}

/// The same search, which counts in a lent table of [`table_length`] counters, whatever they were.
pub fn search_by_table(
    words: &mut [u64],
    marks: &mut [u8],
    table: &mut [u32],
    options: &Options,
    log: u64,
    program: &Program,
    tape: &[u64],
) -> Answer {
    // as in `new_executor`
    unsafe {
        tavvinur_search_by_table(
            words.as_mut_ptr(),
            words.len(),
            marks.as_mut_ptr(),
            marks.len(),
            table.as_mut_ptr(),
            table.len(),
            *options,
            log,
            program.code_address,
            program.code.as_ptr(),
            program.code.len(),
            program.data_address,
            program.data.as_ptr(),
            program.data.len(),
            tape.as_ptr(),
            tape.len(),
        )
    }
}

fn told(number: u64) -> Result<(), Refused> {
    match number {
        0 => Ok(()),
        number => Err(Refused(number)),
    }
}

extern "C" {
    fn tavvinur_default_options() -> Options;

    fn tavvinur_new_executor(
        words: *mut u64,
        words_length: usize,
        marks: *mut u8,
        marks_length: usize,
        memory: u64,
        log: u64,
        code_address: u64,
        code: *const u8,
        code_length: usize,
        data_address: u64,
        data: *const u8,
        data_length: usize,
    ) -> u64;

    fn tavvinur_run(
        words: *mut u64,
        words_length: usize,
        marks: *mut u8,
        marks_length: usize,
        memory: u64,
        log: u64,
        step: u32,
        tape: *const u64,
        tape_length: usize,
    ) -> Answer;

    fn tavvinur_run_program(
        words: *mut u64,
        words_length: usize,
        marks: *mut u8,
        marks_length: usize,
        memory: u64,
        log: u64,
        step: u32,
        code_address: u64,
        code: *const u8,
        code_length: usize,
        data_address: u64,
        data: *const u8,
        data_length: usize,
        input: *const u64,
        input_length: usize,
        output: *mut u8,
        output_length: usize,
    ) -> Printed;

    fn tavvinur_go_on(
        words: *mut u64,
        words_length: usize,
        marks: *mut u8,
        marks_length: usize,
        memory: u64,
        log: u64,
        step: u32,
        input: *const u64,
        input_length: usize,
        output: *mut u8,
        output_length: usize,
    ) -> Printed;

    fn tavvinur_score(
        words: *const u64,
        words_length: usize,
        marks: *const u8,
        marks_length: usize,
        memory: u64,
        log: u64,
        rows: u64,
        mean: u32,
        scores: *mut f64,
        scores_length: usize,
    ) -> u64;

    fn tavvinur_score_by_table(
        words: *const u64,
        words_length: usize,
        marks: *const u8,
        marks_length: usize,
        memory: u64,
        log: u64,
        rows: u64,
        mean: u32,
        table: *mut u32,
        table_length: usize,
        scores: *mut f64,
        scores_length: usize,
    ) -> Scored;

    fn tavvinur_search(
        words: *mut u64,
        words_length: usize,
        marks: *mut u8,
        marks_length: usize,
        options: Options,
        log: u64,
        code_address: u64,
        code: *const u8,
        code_length: usize,
        data_address: u64,
        data: *const u8,
        data_length: usize,
        tape: *const u64,
        tape_length: usize,
    ) -> Answer;

    fn tavvinur_search_by_table(
        words: *mut u64,
        words_length: usize,
        marks: *mut u8,
        marks_length: usize,
        table: *mut u32,
        table_length: usize,
        options: Options,
        log: u64,
        code_address: u64,
        code: *const u8,
        code_length: usize,
        data_address: u64,
        data: *const u8,
        data_length: usize,
        tape: *const u64,
        tape_length: usize,
    ) -> Answer;
}
