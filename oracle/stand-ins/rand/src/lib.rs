//! Stand-in for the crate rand (stand-in 1 of the oracle): `random` takes the next word of a lent
//! tape.

use std::cell::RefCell;

/// The panic payload of a draw from an empty tape.
pub struct TapeRanOut;

pub trait FromWord {
    fn from_word(word: u64) -> Self;
}

impl FromWord for u64 {
    fn from_word(word: u64) -> u64 {
        word
    }
}

impl FromWord for usize {
    fn from_word(word: u64) -> usize {
        // no information is lost on the 64-bit hosts that the oracle is built for
        word as usize
    }
}

pub fn random<T: FromWord>() -> T {
    match tape::take() {
        Some(word) => T::from_word(word),
        None => std::panic::panic_any(TapeRanOut),
    }
}

pub mod tape {
    use super::*;

    struct Tape {
        words: Vec<u64>,
        used: usize,
    }

    thread_local! {
        static TAPE: RefCell<Tape> = RefCell::new(Tape { words: Vec::new(), used: 0 });
    }

    /// Puts a new tape in; nothing of it is used yet.
    pub fn lend(words: Vec<u64>) {
        TAPE.with(|t| *t.borrow_mut() = Tape { words, used: 0 });
    }

    pub fn used() -> usize {
        TAPE.with(|t| t.borrow().used)
    }

    pub fn left() -> usize {
        TAPE.with(|t| t.borrow().words.len() - t.borrow().used)
    }

    pub(crate) fn take() -> Option<u64> {
        TAPE.with(|t| {
            let mut tape = t.borrow_mut();
            let word = tape.words.get(tape.used).copied();
            if word.is_some() {
                tape.used += 1;
            }
            word
        })
    }
}
