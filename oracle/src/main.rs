//! The oracle: reads a sheet from standard input, lets the Rust search, prints the answer.
//! README.md says what is the Rust's own text, what stands in, and what is outside.

// the copied files keep parts that only the original program uses
#![allow(dead_code)]

#[macro_use]
mod timing;

mod answer;
mod engine;
mod sheet;

use answer::Answer;
use engine::{
    rarity_simulation::{view, RaritySimulation},
    BugFinder,
};
use sheet::{Limits, Sheet};
use std::{
    any::Any,
    fmt::Write as _,
    io::{self, Read, Write},
    panic,
    process::exit,
};

const USAGE: &str = "usage: oracle [--host] [--store] [--dump] < SHEET";

/// The exit status for a sheet outside the comparison.
const OUTSIDE: i32 = 3;
/// The exit status for a panic that is none of the known ones: a mistake in the oracle.
const MISTAKE: i32 = 4;

struct Arguments {
    limits: Limits,
    digests: bool,
    dump: bool,
}

fn main() {
    let arguments = arguments();

    let mut bytes = Vec::new();
    if let Err(e) = io::stdin().lock().read_to_end(&mut bytes) {
        eprintln!("standard input: {}", e);
        exit(2);
    }

    let text = match sheet::read(&bytes, arguments.limits) {
        Err(number) => lines(&Answer::refused(number), 0),
        Ok(sheet) => search(sheet, &arguments),
    };

    let mut out = io::stdout();
    if let Err(e) = out.write_all(text.as_bytes()).and_then(|_| out.flush()) {
        eprintln!("standard output: {}", e);
        exit(2);
    }
}

fn arguments() -> Arguments {
    let mut arguments = Arguments {
        limits: Limits::Bench,
        digests: false,
        dump: false,
    };
    for argument in std::env::args().skip(1) {
        match argument.as_str() {
            "--host" => arguments.limits = Limits::Host,
            "--store" => arguments.digests = true,
            "--dump" => arguments.dump = true,
            _ => {
                eprintln!("{}", USAGE);
                exit(2);
            }
        }
    }
    arguments
}

fn search(sheet: Sheet, arguments: &Arguments) -> String {
    let Sheet {
        options,
        program,
        log_words,
        tape,
    } = sheet;
    let memory_words = options.memory_size.as_u64() as usize / 8;

    view::prepare(view::Sizes {
        states: options.amount_of_states,
        memory_words,
        log_words,
        store_wanted: arguments.digests || arguments.dump,
    });
    rand::tape::lend(tape);

    // panics are told below, from their payload
    panic::set_hook(Box::new(|_| ()));
    let result = panic::catch_unwind(move || {
        let result = RaritySimulation::new(&options).search_for_bugs(&program);
        answer::of(result, view::place())
    });

    let answer = match result {
        Ok(answer) => answer,
        Err(payload) => match outside(&*payload, memory_words) {
            Ok(reason) => {
                eprintln!("outside: {}", reason);
                exit(OUTSIDE);
            }
            Err(message) => {
                eprintln!("mistake: {}", message);
                exit(MISTAKE);
            }
        },
    };

    let mut text = lines(&answer, rand::tape::used());
    if arguments.digests || arguments.dump {
        let store = view::take_store().expect("the search leaves a store");
        if arguments.digests {
            store_lines(&mut text, &store);
        }
        if arguments.dump {
            dump_lines(&mut text, &store);
        }
    }
    text
}

/// Why a panic is outside the comparison, or the message of one that is a mistake.
fn outside(payload: &(dyn Any + Send), memory_words: usize) -> Result<String, String> {
    let latest = view::latest();
    let place = match latest {
        Some(p) => format!("row {} pc {}", p.row, p.pc),
        None => String::from("no row"),
    };

    if payload.is::<rand::TapeRanOut>() {
        return Ok(format!("24 tape empty, {}", place));
    }
    if let Some(outside) = payload.downcast_ref::<view::Outside>() {
        return Ok(match outside {
            view::Outside::Copies { to_copy, left } => {
                format!("8 copies {} tape words left {}", to_copy, left)
            }
            view::Outside::LogFull { row, pc } => format!("25 log full, row {} pc {}", row, pc),
            view::Outside::EndsWithMemory { row, pc } => {
                format!("44 buffer ends with memory, row {} pc {}", row, pc)
            }
        });
    }

    let message = if let Some(s) = payload.downcast_ref::<String>() {
        s.as_str()
    } else if let Some(s) = payload.downcast_ref::<&str>() {
        s
    } else {
        "a panic without a message"
    };

    if let Some(p) = latest {
        if p.pc / 8 >= memory_words as u64 && message.starts_with("index out of bounds") {
            return Ok(format!("23 pc past memory, {}", place));
        }
        if message == "attempt to add with overflow" {
            return Ok(format!("44 buffer + size past 2^64 - 1, {}", place));
        }
    }
    Err(format!("{}, {}", message, place))
}

fn lines(answer: &Answer, used: usize) -> String {
    let mut text = format!(
        "answer {} row {} pc {} value {}\n",
        answer.number, answer.row, answer.pc, answer.value
    );
    for input in &answer.inputs {
        line(&mut text, format_args!("input {}", input));
    }
    line(&mut text, format_args!("used {}", used));
    text
}

fn store_lines(text: &mut String, store: &view::Store) {
    let words = fnv1a(store.words.iter().flat_map(|w| w.to_le_bytes().to_vec()));
    let marks = fnv1a(store.marks.iter().copied());
    line(text, format_args!("words {:016x}", words));
    line(text, format_args!("marks {:016x}", marks));
}

fn dump_lines(text: &mut String, store: &view::Store) {
    for (index, word) in store.words.iter().enumerate().filter(|(_, w)| **w != 0) {
        line(text, format_args!("word {} {}", index, word));
    }
    for (index, mark) in store.marks.iter().enumerate().filter(|(_, m)| **m != 0) {
        line(text, format_args!("mark {} {}", index, mark));
    }
}

fn line(text: &mut String, arguments: std::fmt::Arguments) {
    writeln!(text, "{}", arguments).expect("a string takes any line");
}

fn fnv1a(bytes: impl Iterator<Item = u8>) -> u64 {
    bytes.fold(0xcbf2_9ce4_8422_2325, |hash, byte| {
        (hash ^ u64::from(byte)).wrapping_mul(0x0000_0100_0000_01b3)
    })
}
