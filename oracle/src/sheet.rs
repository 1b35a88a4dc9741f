//! The sheet: sixteen little-endian 64-bit fields, then the parts that they name; its refusals 51
//! to 54 and those of the search entry, 1 to 7, in their order (5 cannot come up here).

use crate::engine::rarity_simulation::{defaults, MeanType, RaritySimulationOptions};
use bytesize::ByteSize;
use riscu::{Program, ProgramSegment};
use std::convert::TryInto;

const FIELDS_BYTES: usize = 128;
const PROGRAM_SHEET_BYTES: usize = 61_440;
const ALL_ONES: u64 = u64::MAX;

/// What all ones in field 0 stand for: since change 2 of the requests not the Rust's own
/// `defaults::AMOUNT_OF_STATES`, which is 3000. Such a sheet is compared with the Rust given 400.
const DEFAULT_STATES: u64 = 400;

/// Whose limits hold: the bench program's smaller ones, or only the library's.
#[derive(Debug, Clone, Copy, PartialEq, Eq)]
pub enum Limits {
    Bench,
    Host,
}

/// A sheet that no check refused.
pub struct Sheet {
    pub options: RaritySimulationOptions,
    pub program: Program,
    pub log_words: usize,
    pub tape: Vec<u64>,
}

/// Gives the sheet, or the number that refuses it.
pub fn read(bytes: &[u8], limits: Limits) -> Result<Sheet, u64> {
    if bytes.len() < FIELDS_BYTES {
        return Err(51);
    }
    if limits == Limits::Bench && bytes.len() > PROGRAM_SHEET_BYTES {
        return Err(51);
    }

    let field = |i: usize| word(&bytes[8 * i..]);
    let or_default = |i: usize, default: u64| match field(i) {
        ALL_ONES => default,
        given => given,
    };

    let states = or_default(0, DEFAULT_STATES);
    let step = or_default(1, defaults::STEP_SIZE);
    let selection = or_default(2, defaults::SELECTION as u64);
    let rounds = or_default(3, defaults::ITERATIONS);
    let ratio = f64::from_bits(or_default(4, defaults::COPY_INIT_RATIO.to_bits()));
    let mean = or_default(
        5,
        match defaults::MEAN_TYPE {
            MeanType::Arithmetic => 0,
            MeanType::Harmonic => 1,
        },
    );
    let memory = or_default(6, defaults::MEMORY_SIZE.as_u64());
    let log_words = field(7);
    let (code_address, code_offset, code_length) = (field(8), field(9), field(10));
    let (data_address, data_offset, data_length) = (field(11), field(12), field(13));
    let (tape_offset, tape_count) = (field(14), field(15));

    // the sheet
    let code = part(bytes, code_offset, code_length, 1).ok_or(52_u64)?;
    let data = part(bytes, data_offset, data_length, 1).ok_or(52_u64)?;
    let tape = part(bytes, tape_offset, tape_count, 8).ok_or(52_u64)?;

    let mean = match mean {
        0 => MeanType::Arithmetic,
        1 => MeanType::Harmonic,
        _ => return Err(53),
    };

    let most = u64::from(u32::MAX);
    if step > most || selection > most || rounds > most {
        return Err(54);
    }
    if limits == Limits::Bench && (states > 8 || memory > 1024 || log_words > 64) {
        return Err(54);
    }

    // the search entry
    if memory % 1024 != 0 || memory < 1024 || memory > 1_048_576 {
        return Err(1);
    }
    if states < 1 || states > 4096 {
        return Err(2);
    }
    if !(ratio >= 0.0 && ratio <= 1.0) {
        return Err(3);
    }
    if log_words > 65_536 {
        return Err(4);
    }
    if code_length % 8 != 0 || data_length % 8 != 0 {
        return Err(6);
    }
    let ends_past_memory =
        |address: u64, length: u64| length != 0 && address / 8 + length / 8 > memory / 8;
    if ends_past_memory(code_address, code_length) || ends_past_memory(data_address, data_length) {
        return Err(7);
    }

    Ok(Sheet {
        options: RaritySimulationOptions {
            memory_size: ByteSize(memory),
            amount_of_states: states as usize,
            step_size: step,
            selection: selection as usize,
            iterations: rounds,
            copy_init_ratio: ratio,
            mean,
        },
        program: Program {
            code: ProgramSegment {
                address: code_address,
                content: code.to_vec(),
            },
            data: ProgramSegment {
                address: data_address,
                content: data.to_vec(),
            },
        },
        log_words: log_words as usize,
        tape: tape.chunks(8).map(word).collect(),
    })
}

fn word(bytes: &[u8]) -> u64 {
    u64::from_le_bytes(bytes[..8].try_into().expect("eight bytes"))
}

/// The part at an offset, or none if it reaches past the sheet, even when it is empty.
fn part(bytes: &[u8], offset: u64, count: u64, size: u128) -> Option<&[u8]> {
    let start = u128::from(offset);
    let end = start + u128::from(count) * size;
    if end > bytes.len() as u128 {
        return None;
    }
    Some(&bytes[start as usize..end as usize])
}
