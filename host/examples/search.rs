//! The search of search.c, from Rust: the printer's program in 300 states of 64 KiB, by searches of growing rounds on one tape.

#[allow(dead_code)]
#[path = "../rust/tavvinur.rs"]
mod tavvinur;

mod servings;

use std::process::exit;
use tavvinur::{inputs, row_born, row_marks, row_words, search_by_table, table_length};
use tavvinur::{Answer, Options, Program};

const MEMORY: u64 = 65_536;
const STATES: u64 = 300;
const LOG: u64 = 256;
const TAPE: usize = 1 << 16;
const MOST_ROUNDS: u32 = 16;

const PROGRAM: Program = Program {
    code_address: 0,
    code: &servings::SERVINGS_CODE,
    data_address: 0x300,
    data: &servings::SERVINGS_DATA,
};

/// xorshift64*; any source of words does.
fn tape(length: usize) -> Vec<u64> {
    let mut x: u64 = 0x9e37_79b9_7f4a_7c15;
    let mut word = || {
        x ^= x >> 12;
        x ^= x << 25;
        x ^= x >> 27;
        x.wrapping_mul(0x2545_f491_4f6c_dd1d)
    };
    (0..length).map(|_| word()).collect()
}

fn print(answer: &Answer, words: &[u64]) {
    println!(
        "answer {} row {} pc {} value {}",
        answer.number, answer.row, answer.pc, answer.value
    );
    if answer.is_bug() {
        println!("born {}", row_born(words, MEMORY, LOG, answer.row));
        for input in inputs(words, MEMORY, LOG, answer.row) {
            println!("input {} (key {})", input, input % 8);
        }
    }
    println!("used {}", answer.used);
}

fn main() {
    let mut words = vec![0; STATES as usize * row_words(MEMORY, LOG)];
    let mut marks = vec![0; STATES as usize * row_marks(MEMORY)];
    let mut table = vec![0; table_length(MEMORY)];
    let tape = tape(TAPE);

    let mut options = Options {
        memory_size: MEMORY,
        amount_of_states: STATES,
        step_size: 60,
        selection: 30,
        iterations: 1,
        ..Options::default()
    };

    let answer = loop {
        let answer = search_by_table(
            &mut words, &mut marks, &mut table, &options, LOG, &PROGRAM, &tape,
        );
        println!(
            "rounds {}: answer {}, {} words used",
            options.iterations, answer.number, answer.used
        );
        if answer.number != 0 || options.iterations == MOST_ROUNDS {
            break answer;
        }
        options.iterations *= 2;
    };
    print(&answer, &words);
    if answer.number != 41 {
        exit(1);
    }
}
