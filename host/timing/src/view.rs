//! The Rust's hooks. They are empty here, so that the Rust is timed without them, unless the feature `hooks` asks for the oracle as
//! it stands. And a round with a clock between its parts.

use super::{
    create_missing_executors, filter_successfully_exited, run_all, score_with_mean, select_rarest,
    Bug, Executor, ExecutorResult, RaritySimulationError, RaritySimulationOptions,
};
#[cfg(feature = "hooks")]
use super::{RarityBugInfo, Value};
use crate::clock;
use riscu::Program;
use std::time::Duration;

#[cfg(feature = "hooks")]
#[path = "../../../../../../oracle/src/engine/rarity_simulation/view.rs"]
mod hooks;

/// One round from nothing: filling, running, scoring and selecting, each with its time; and the scores.
pub fn round(options: &RaritySimulationOptions, program: &Program) -> ([Duration; 4], Vec<f64>) {
    let mut executors = Vec::new();
    let started = clock::now();
    create_missing_executors(
        &mut executors,
        options.amount_of_states,
        options.copy_init_ratio,
        options.memory_size,
        program,
    );
    let filled = clock::now();
    let (_, results) = run_all(&mut executors, options.step_size).expect("no error");
    let ran = clock::now();
    let running = filter_successfully_exited(executors, results);
    let states: Vec<_> = running.iter().map(|e| e.state()).collect();
    let scores = score_with_mean(&states[..], options.mean);
    let scored = clock::now();
    let given = scores.clone();
    let selecting = clock::now();
    let kept = select_rarest(running, options.selection, scores);
    let selected = clock::now();
    drop(kept);
    let times = [
        filled - started,
        ran - filled,
        scored - ran,
        selected - selecting,
    ];
    (times, given)
}

/// Tells the oracle's hooks how many log words a row has.
pub fn prepare(_log_words: u64) {
    #[cfg(feature = "hooks")]
    hooks::prepare(hooks::Sizes {
        log_words: _log_words as usize,
        ..hooks::Sizes::default()
    });
}

/// A hook that does nothing, or what the oracle's does.
macro_rules! hook {
    ($name:ident, $($argument:ident: $type:ty),*) => {
        #[inline(always)]
        pub(super) fn $name($($argument: $type),*) {
            #[cfg(feature = "hooks")]
            hooks::$name($($argument),*);
        }
    };
}

hook!(before_copies, _to_copy: usize);
hook!(before_draw, _logged: usize);
hook!(before_range_check, _address: u64, _size: u64);
hook!(runs_begin,);
hook!(run_begins,);
hook!(step_begins, _pc: u64);
hook!(bug_chosen, _executors: &[Box<Executor>], _results: &[ExecutorResult], _bug: &Bug);
hook!(error_chosen, _executors: &[Box<Executor>], _results: &[ExecutorResult], _error: &RaritySimulationError);
hook!(rows_left, _executors: &[Box<Executor>]);
