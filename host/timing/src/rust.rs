//! The Rust's side of the timings, for either walk over memory.

use super::engine::{
    rarity_simulation::{
        view, Executor, MeanType, RaritySimulation, RaritySimulationError, RaritySimulationOptions,
    },
    BugFinder,
};
use crate::{
    clock,
    tavvinur::{self, HARMONIC},
    Case, KEYS,
};
use bytesize::ByteSize;
use riscu::{Program, ProgramSegment};
use std::time::Duration;

fn program(program: &tavvinur::Program) -> Program {
    let segment = |address: u64, content: &[u8]| ProgramSegment {
        address,
        content: content.to_vec(),
    };
    Program {
        code: segment(program.code_address, program.code),
        data: segment(program.data_address, program.data),
    }
}

fn options(case: Case) -> RaritySimulationOptions {
    let options = case.options();
    assert_eq!(options.mean, HARMONIC);
    RaritySimulationOptions {
        memory_size: ByteSize(options.memory_size),
        amount_of_states: options.amount_of_states as usize,
        step_size: u64::from(options.step_size),
        selection: options.selection as usize,
        iterations: u64::from(options.iterations),
        copy_init_ratio: options.copy_init_ratio,
        mean: MeanType::Harmonic,
    }
}

/// An executor of a program, which each call runs on. What its loop uses has been touched.
pub fn run(code: &tavvinur::Program, memory: u64) -> impl FnMut(u32) -> Duration {
    let mut executor = Executor::new(&program(code), ByteSize(memory));
    let mut run_on = move |instructions| {
        let started = clock::now();
        let result = executor.run(u64::from(instructions));
        let time = clock::now() - started;
        assert!(matches!(
            result,
            Err(RaritySimulationError::ExecutionDepthReached(_))
        ));
        time
    };
    run_on(1000);
    run_on
}

pub fn search(case: Case, tape: &[u64]) -> Duration {
    let (program, options) = (program(&KEYS), options(case));
    view::prepare(case.log());
    rand::tape::lend(tape.to_vec());
    let started = clock::now();
    let result = RaritySimulation::new(&options).search_for_bugs(&program);
    let time = clock::now() - started;
    assert!(matches!(result, Ok(None)));
    time
}

/// The number of the answer, which has to be 0, and the tape words taken.
pub fn answer(case: Case, tape: &[u64]) -> (u64, u64) {
    search(case, tape);
    (0, rand::tape::used() as u64)
}

fn round(case: Case, tape: &[u64]) -> ([Duration; 4], Vec<f64>) {
    search(case, tape);
    rand::tape::lend(tape.to_vec());
    view::round(&options(case), &program(&KEYS))
}

pub fn phases(case: Case, tape: &[u64]) -> [Duration; 4] {
    round(case, tape).0
}

/// The scores of one round from nothing.
pub fn scores(case: Case, tape: &[u64]) -> Vec<f64> {
    round(case, tape).1
}
