//! From the Rust's bugs and errors to the scope paper's numbers.

use crate::engine::{
    rarity_simulation::{view, RaritySimulationBug, RaritySimulationError},
    Bug, UninitializedMemoryAccessReason,
};

/// The texts of the Rust's `NotSupported`, in the order of the reasons 1 to 13 of number 20.
const REASONS: [&str; 13] = [
    "tried to fetch none concrete instruction",
    "can not handle symbolic or uninitialized program break",
    "can not handle other fd than stdin in read syscall",
    "can not handle symbolic or uninitialized buffer address in read syscall",
    "can not handle symbolic or uinitialized size in read syscall",
    "can not handle other fd than stdout in write syscall",
    "can not handle symbolic or uninitialized buffer address in write syscall",
    "can not handle symbolic or uinitialized size in write syscall",
    "exit only implemented for symbolic exit codes",
    "syscall with id (", // begins so; the id follows
    "can not handle symbolic addresses in LD",
    "can not handle uninitialized addresses in SD",
    "can only handle concrete addresses in JALR",
];

const REASON_WITH_ID: usize = 10;

/// What the bench program prints, but for the used count.
#[derive(Debug, Default)]
pub struct Answer {
    pub number: u64,
    pub row: u64,
    pub pc: u64,
    pub value: u64,
    pub inputs: Vec<u64>,
}

impl Answer {
    pub fn refused(number: u64) -> Answer {
        Answer {
            number,
            ..Answer::default()
        }
    }
}

/// The answer for what the search gave; `place` is what the hooks noted.
pub fn of(
    result: Result<Option<RaritySimulationBug>, RaritySimulationError>,
    place: Option<view::Place>,
) -> Answer {
    match result {
        Ok(None) => Answer::default(),
        Ok(Some(bug)) => of_bug(bug, place.expect("a bug has a place")),
        Err(error) => of_error(error, place.expect("an error has a place")),
    }
}

fn of_bug(bug: RaritySimulationBug, place: view::Place) -> Answer {
    let (number, info, value) = match bug {
        Bug::DivisionByZero { info } => (41, info, 0),
        Bug::AccessToUnitializedMemory { info, reason } => {
            let value = match reason {
                UninitializedMemoryAccessReason::InstructionWithUninitializedOperand { .. } => 1,
                UninitializedMemoryAccessReason::ReadUnintializedMemoryAddress { .. } => 2,
            };
            (42, info, value)
        }
        Bug::AccessToUnalignedAddress { info, address } => (43, info, address),
        Bug::AccessToOutOfRangeAddress { info } => (44, info, 0),
        Bug::ExitCodeGreaterZero {
            info, exit_code, ..
        } => (45, info, exit_code),
    };

    // the Rust's own pc is printed; the hook's pc before the instruction has to be the same
    assert_eq!(view::pc(&info), place.pc, "the pc of a bug");

    Answer {
        number,
        row: place.row as u64,
        pc: view::pc(&info),
        value,
        inputs: view::inputs(&info).to_vec(),
    }
}

fn of_error(error: RaritySimulationError, place: view::Place) -> Answer {
    let (number, value) = match error {
        RaritySimulationError::NotSupported(text) => (20, reason(&text)),
        RaritySimulationError::InvalidInstructionEncoding(pc, _) => {
            assert_eq!(pc, place.pc, "the pc of a decoding error");
            (21, 0)
        }
        other => panic!("the search never gives {:?}", other),
    };

    Answer {
        number,
        row: place.row as u64,
        pc: place.pc,
        value,
        inputs: Vec::new(),
    }
}

fn reason(text: &str) -> u64 {
    let fits = |i: usize| {
        if i + 1 == REASON_WITH_ID {
            text.starts_with(REASONS[i])
        } else {
            text == REASONS[i]
        }
    };
    let index = (0..REASONS.len())
        .find(|i| fits(*i))
        .unwrap_or_else(|| panic!("no reason for {:?}", text));
    index as u64 + 1
}
