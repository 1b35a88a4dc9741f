//! Stand-in for the crate riscu (stand-in 4 of the oracle): the fourteen instructions, decoded by
//! the RISC-V unprivileged manual as the scope paper's table says.

pub mod types;

use types::*;

pub const INSTRUCTION_SIZE: usize = 4;

#[derive(Debug, Clone)]
pub struct ProgramSegment<T> {
    pub address: u64,
    pub content: Vec<T>,
}

#[derive(Debug, Clone)]
pub struct Program {
    pub code: ProgramSegment<u8>,
    pub data: ProgramSegment<u8>,
}

#[derive(Debug, Clone, Copy, PartialEq, Eq)]
pub enum Register {
    Zero,
    Ra,
    Sp,
    Gp,
    Tp,
    T0,
    T1,
    T2,
    S0,
    S1,
    A0,
    A1,
    A2,
    A3,
    A4,
    A5,
    A6,
    A7,
    S2,
    S3,
    S4,
    S5,
    S6,
    S7,
    S8,
    S9,
    S10,
    S11,
    T3,
    T4,
    T5,
    T6,
}

const REGISTERS: [Register; 32] = [
    Register::Zero,
    Register::Ra,
    Register::Sp,
    Register::Gp,
    Register::Tp,
    Register::T0,
    Register::T1,
    Register::T2,
    Register::S0,
    Register::S1,
    Register::A0,
    Register::A1,
    Register::A2,
    Register::A3,
    Register::A4,
    Register::A5,
    Register::A6,
    Register::A7,
    Register::S2,
    Register::S3,
    Register::S4,
    Register::S5,
    Register::S6,
    Register::S7,
    Register::S8,
    Register::S9,
    Register::S10,
    Register::S11,
    Register::T3,
    Register::T4,
    Register::T5,
    Register::T6,
];

impl Register {
    /// The register whose number is in the low five bits.
    fn from_bits(bits: u32) -> Register {
        REGISTERS[(bits & 0x1f) as usize]
    }
}

#[derive(Debug, Clone, Copy, PartialEq, Eq)]
pub enum DecodingError {
    NoTableLineFits,
}

#[derive(Debug, Clone, Copy, PartialEq, Eq)]
pub enum Instruction {
    Lui(UType),
    Jal(JType),
    Jalr(IType),
    Beq(BType),
    Ld(IType),
    Sd(SType),
    Addi(IType),
    Add(RType),
    Sub(RType),
    Sltu(RType),
    Mul(RType),
    Divu(RType),
    Remu(RType),
    Ecall(IType),
}

pub fn decode(raw: u32) -> Result<Instruction, DecodingError> {
    let opcode = raw & 0x7f;
    let funct3 = (raw >> 12) & 0x7;
    let funct7 = raw >> 25;

    match (opcode, funct3, funct7) {
        (0x37, _, _) => Ok(Instruction::Lui(UType(raw))),
        (0x6f, _, _) => Ok(Instruction::Jal(JType(raw))),
        (0x67, 0, _) => Ok(Instruction::Jalr(IType(raw))),
        (0x63, 0, _) => Ok(Instruction::Beq(BType(raw))),
        (0x13, 0, _) => Ok(Instruction::Addi(IType(raw))),
        (0x03, 3, _) => Ok(Instruction::Ld(IType(raw))),
        (0x23, 3, _) => Ok(Instruction::Sd(SType(raw))),
        (0x33, 0, 0x00) => Ok(Instruction::Add(RType(raw))),
        (0x33, 0, 0x20) => Ok(Instruction::Sub(RType(raw))),
        (0x33, 0, 0x01) => Ok(Instruction::Mul(RType(raw))),
        (0x33, 3, 0x00) => Ok(Instruction::Sltu(RType(raw))),
        (0x33, 5, 0x01) => Ok(Instruction::Divu(RType(raw))),
        (0x33, 7, 0x01) => Ok(Instruction::Remu(RType(raw))),
        (0x73, _, _) if raw == 0x0000_0073 => Ok(Instruction::Ecall(IType(raw))),
        _ => Err(DecodingError::NoTableLineFits),
    }
}
