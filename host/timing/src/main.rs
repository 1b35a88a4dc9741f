//! Times libtavvinur.a against the Rust, on the same inputs. `host/timing/run` builds and runs it.
//!
//! The Rust is here twice, copied by `run`: as the oracle has it, whose scoring walks over every word of memory, and with the original's own walk,
//! which passes over what was never written. The hooks (`view.rs`) are empty in both, since the original has none. What is lent to Tavvinur, store and
//! table, is touched before a clock starts; the Rust allocates its states and its counters while the clock runs, since its search does.
//! Times are processor time; but for runs, of which the median counts, the best of several.

// the copied files keep parts that only the original program uses
#![allow(dead_code)]

#[macro_use]
#[path = "../../../oracle/src/timing.rs"]
mod timing;

mod clock;
mod ending;
mod keys;
mod label;
mod mixed;
mod pairs;
mod plain;
mod proved;
mod straight;

/// The Rust with the oracle's walk over memory.
mod oracle {
    mod engine;
    #[path = "../rust.rs"]
    mod rust;
    pub use rust::*;
}

/// The Rust with the original's.
mod original {
    mod engine;
    #[path = "../rust.rs"]
    mod rust;
    pub use rust::*;
}

#[path = "../../rust/tavvinur.rs"]
mod tavvinur;

use pairs::{Pairs, PAIRS, RUN_INSTRUCTIONS};
use std::time::Duration;
use tavvinur::{Options, Program};

/// What a search is timed on.
#[derive(Clone, Copy)]
pub struct Case {
    pub states: u64,
    pub memory: u64,
    pub rounds: u32,
    pub selection: u32,
}

impl Case {
    /// A quarter of the states is kept.
    fn new(states: u64, memory: u64, rounds: u32) -> Case {
        Case {
            states,
            memory,
            rounds,
            selection: states as u32 / 4,
        }
    }

    fn with_selection(self, selection: u32) -> Case {
        Case { selection, ..self }
    }

    /// What a search is by default.
    fn default_size() -> Case {
        let options = Options::default();
        Case {
            states: options.amount_of_states,
            memory: options.memory_size,
            rounds: options.iterations,
            selection: options.selection,
        }
    }

    fn with_rounds(self, rounds: u32) -> Case {
        Case { rounds, ..self }
    }

    pub fn options(self) -> Options {
        Options {
            memory_size: self.memory,
            amount_of_states: self.states,
            selection: self.selection,
            iterations: self.rounds,
            ..Options::default()
        }
    }

    /// Log words of a row: more than the keys that its rounds of 1000 instructions read.
    pub fn log(self) -> u64 {
        512.max(128 * u64::from(self.rounds))
    }
}

/// More than the keys and copies of a search of the default size.
const TAPE_WORDS: usize = 1 << 20;

pub const KEYS: Program = Program {
    code_address: 0,
    code: &keys::KEYS_CODE,
    data_address: 0x200,
    data: &[],
};

/// Reads keys for ever (0), or exits with 0 at the end of a round, after 996 instructions.
pub const GOING_ON: Program = reading(&[0; 8]);
pub const ENDING: Program = reading(&[76, 0, 0, 0, 0, 0, 0, 0]);

const fn reading(keys: &'static [u8]) -> Program<'static> {
    Program {
        code_address: 0,
        code: &ending::ENDING_CODE,
        data_address: 0x180,
        data: keys,
    }
}

pub const LABEL: Program = Program {
    code_address: 0,
    code: &label::LABEL_CODE,
    data_address: 0x200,
    data: &[],
};

pub const MIXED: Program = Program {
    code_address: 0,
    code: &mixed::MIXED_CODE,
    data_address: 0x200,
    data: &[],
};

pub const PLAIN: Program = Program {
    code_address: 0,
    code: &plain::PLAIN_CODE,
    data_address: 0x200,
    data: &[],
};

pub const STRAIGHT: Program = Program {
    code_address: 0,
    code: &straight::STRAIGHT_CODE,
    data_address: 0x200,
    data: &[],
};

/// xorshift64*
fn tape() -> Vec<u64> {
    let mut x: u64 = 0x9e37_79b9_7f4a_7c15;
    let mut word = || {
        x ^= x >> 12;
        x ^= x << 25;
        x ^= x >> 27;
        x.wrapping_mul(0x2545_f491_4f6c_dd1d)
    };
    (0..TAPE_WORDS).map(|_| word()).collect()
}

/// The best of each of up to five times that are taken together; those after the first second are left out.
fn best_of_each<const N: usize>(mut times: impl FnMut() -> [Duration; N]) -> [Duration; N] {
    let started = clock::now();
    let mut best = times();
    for _ in 1..5 {
        if (clock::now() - started) > Duration::from_secs(1) {
            break;
        }
        for (best, time) in best.iter_mut().zip(times()) {
            *best = time.min(*best);
        }
    }
    best
}

fn best(mut time: impl FnMut() -> Duration) -> Duration {
    best_of_each(|| [time()])[0]
}

/// Times in ms, and how many times as long as the last the others took.
fn columns(times: &[Duration]) -> String {
    let (last, others) = times.split_last().expect("there are times");
    let all = times
        .iter()
        .map(|time| format!("{:.3}", milliseconds(*time)));
    let ratios = others
        .iter()
        .map(|time| format!("{:.2}", ratio(*time, *last)));
    all.chain(ratios).collect::<Vec<_>>().join(" | ")
}

fn ratio(original: Duration, proved: Duration) -> f64 {
    original.as_secs_f64() / proved.as_secs_f64()
}

fn milliseconds(time: Duration) -> f64 {
    time.as_secs_f64() * 1e3
}

const RUN_MEMORY: u64 = 65_536;

/// A line of medians: the Rust's runs of a program, and Tavvinur's of the same.
fn compare_runs(
    name: &str,
    original: impl FnMut(u32) -> Duration,
    proved: impl FnMut(u32) -> Duration,
) {
    let pairs = Pairs::taken(original, proved);
    let [original, proved] = pairs.speeds();
    let [low, median, high] = pairs.ratios();
    println!(
        "| {} | {:.1} | {:.1} | {:.2} | {:.2} to {:.2} |",
        name, original, proved, median, low, high
    );
}

fn runs() {
    println!("runs: one executor of 64 KiB; printed at the counter: the Rust without an output");
    println!(
        "medians of {} pairs of {} instructions; the last column has eight pairs in ten",
        PAIRS, RUN_INSTRUCTIONS
    );
    println!("| loop | Rust, million/s | Tavvinur, million/s | ratio | in most pairs |");
    println!("|---|---|---|---|---|");
    for (name, program) in [
        ("mixed", &MIXED),
        ("plain", &PLAIN),
        ("label", &LABEL),
        ("straight", &STRAIGHT),
    ] {
        compare_runs(
            name,
            oracle::run(program, RUN_MEMORY),
            proved::run(program, RUN_MEMORY),
        );
    }
    for (name, program) in [
        ("label, printed at the counter", &LABEL),
        ("straight, printed at the counter", &STRAIGHT),
    ] {
        compare_runs(
            name,
            oracle::run(program, RUN_MEMORY),
            proved::print(program, RUN_MEMORY),
        );
    }
}

/// A line for a label printed in one call, and in parts: what a part more costs.
fn compare_parts(memory: u64, every: u32) {
    let one = proved::print(&LABEL, memory);
    let pairs = Pairs::taken(one, proved::print_in_parts(&LABEL, memory, every));
    let [one, parts] = pairs.speeds();
    let more = f64::from(RUN_INSTRUCTIONS) * (1.0 / parts - 1.0 / one);
    let hand_overs = RUN_INSTRUCTIONS / every - 1;
    println!(
        "| {} | {} | {:.1} | {:.1} | {:.2} |",
        memory,
        every,
        one,
        parts,
        more / f64::from(hand_overs)
    );
}

fn parts() {
    println!("parts: label printed at the counter, in one call and in parts");
    println!(
        "medians of {} pairs of {} instructions",
        PAIRS, RUN_INSTRUCTIONS
    );
    println!("| memory | instructions a part | one call, million/s | parts, million/s | a part more, microseconds |");
    println!("|---|---|---|---|---|");
    for memory in [2048, 65_536, 1_048_576] {
        for every in [1000, 10_000] {
            compare_parts(memory, every);
        }
    }
}

fn bits(scores: &[f64]) -> Vec<u64> {
    scores.iter().map(|score| score.to_bits()).collect()
}

/// How long searches are timed in pairs, to tell what scoring adds to them.
const PAIRING: Duration = Duration::from_secs(6);

/// What scoring takes in a round: the median of what it adds to a search.
fn in_a_round(case: Case, tape: &[u64]) -> Duration {
    let mut searches = proved::scoring(case.with_selection(0), tape);
    let mut added = Vec::new();
    let started = clock::now();
    while clock::now() - started < PAIRING {
        let [scored, ended] = searches();
        added.push(scored.saturating_sub(ended));
    }
    added.sort();
    added[added.len() / 2]
}

/// A line for the scoring of one round: both ways of Tavvinur's come to the oracle's scores, to the last bit.
fn compare_scoring(case: Case, tape: &[u64]) {
    let mut scoring = proved::Scoring::new(case, tape);
    let scores = bits(&scoring.scores());
    assert_eq!(bits(&oracle::scores(case, tape)), scores);
    let mut without = String::from("-");
    // above, scoring without a table takes too long to be timed
    if case.states <= 400 && case.memory <= 65_536 {
        assert_eq!(bits(&scoring.scores_without()), scores);
        without = format!("{:.3}", milliseconds(best(|| scoring.time_without())));
    }
    let times = [
        best(|| oracle::phases(case, tape)[2]),
        best(|| original::phases(case, tape)[2]),
        in_a_round(case, tape),
    ];
    println!(
        "| {} | {} | {} | {} | {:.3} | {} |",
        case.memory,
        case.states,
        scoring.increments(),
        columns(&times),
        milliseconds(best(|| scoring.time())),
        without
    );
}

fn scoring() {
    let tape = tape();
    println!("scoring: one round from nothing, harmonic; Tavvinur's in a search (the median of what it adds in {} s),", PAIRING.as_secs());
    println!("and as a call, with its check of every row (9) and, by table, the zeroing of the table");
    println!("| memory | states | touched bytes | oracle, ms | original, ms | Tavvinur, ms | oracle's ratio | original's ratio | the call, ms | without a table, ms |");
    println!("|---|---|---|---|---|---|---|---|---|---|");
    for memory in [1024, 65_536, 1_048_576] {
        compare_scoring(Case::new(400, memory, 1), &tape);
    }
    for states in [100, 200, 400, 800] {
        compare_scoring(Case::new(states, 65_536, 1), &tape);
    }
}

fn cases(rounds: u32) -> Vec<Case> {
    let mut cases = Vec::new();
    for memory in [1024, 16_384, 65_536] {
        for states in [8, 32, 128, Options::default().amount_of_states] {
            cases.push(Case::new(states, memory, rounds));
        }
    }
    cases
}

/// A line for a whole search: all come to the same answer and take as many words.
fn compare_search(case: Case, tape: &[u64]) {
    let answer = proved::answer(case, tape);
    assert_eq!(oracle::answer(case, tape), answer);
    assert_eq!(original::answer(case, tape), answer);
    if case.states <= 32 {
        assert_eq!(proved::answer_without(case, tape), answer);
    }
    let times = [
        best(|| oracle::search(case, tape)),
        best(|| original::search(case, tape)),
        best(|| proved::search(case, tape)),
    ];
    println!(
        "| {} | {} | {} | {} |",
        case.rounds,
        case.memory,
        case.states,
        columns(&times)
    );
}

fn searches() {
    let tape = tape();
    println!("searches: whole calls, by table, 1000 instructions a round, a quarter kept; last one of the default size");
    println!("| rounds | memory | states | oracle, ms | original, ms | Tavvinur, ms | oracle's ratio | original's ratio |");
    println!("|---|---|---|---|---|---|---|---|");
    for case in cases(1).into_iter().chain(cases(4)) {
        compare_search(case, &tape);
    }
    compare_search(Case::default_size(), &tape);
}

/// A line for one round by its parts.
fn compare_phases(case: Case, tape: &[u64]) {
    let oracle = best_of_each(|| oracle::phases(case, tape));
    let original = best_of_each(|| original::phases(case, tape));
    let proved = best_of_each(|| proved::phases(case, tape));
    let all = |i: usize| {
        let [a, b, c] = [oracle[i], original[i], proved[i]].map(milliseconds);
        format!("{:.3} / {:.3} / {:.3}", a, b, c)
    };
    println!(
        "| {} | {} | {} | {} | {} | {:.3} |",
        case.memory,
        case.states,
        all(0),
        all(1),
        all(2),
        milliseconds(oracle[3])
    );
}

fn phases() {
    let tape = tape();
    println!("phases of one round from nothing, by table, ms: oracle / original / Tavvinur");
    println!("| memory | states | filling | running | scoring | selecting (oracle only) |");
    println!("|---|---|---|---|---|---|");
    for case in cases(1) {
        compare_phases(case, &tape);
    }
    compare_phases(Case::default_size().with_rounds(1), &tape);
}

fn main() {
    let all: [(&str, fn()); 5] = [
        ("runs", runs),
        ("parts", parts),
        ("scoring", scoring),
        ("searches", searches),
        ("phases", phases),
    ];
    let named: Vec<String> = std::env::args().skip(1).collect();
    for name in &named {
        assert!(all.iter().any(|(part, _)| part == name), "no part {}", name);
    }
    for (part, run) in &all {
        if named.is_empty() || named.iter().any(|name| name == part) {
            run();
            println!();
        }
    }
}
