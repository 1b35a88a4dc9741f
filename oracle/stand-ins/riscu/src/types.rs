//! The manual's six formats. Immediates are sign-extended, but lui's is its bare 20 bits.

use crate::Register;

macro_rules! format_of {
    ($name:ident: $($field:ident at $shift:literal),*) => {
        #[derive(Debug, Clone, Copy, PartialEq, Eq)]
        pub struct $name(pub u32);

        impl $name {
            $(pub fn $field(&self) -> Register {
                Register::from_bits(self.0 >> $shift)
            })*
        }
    };
}

format_of!(RType: rd at 7, rs1 at 15, rs2 at 20);
format_of!(IType: rd at 7, rs1 at 15);
format_of!(SType: rs1 at 15, rs2 at 20);
format_of!(BType: rs1 at 15, rs2 at 20);
format_of!(UType: rd at 7);
format_of!(JType: rd at 7);

/// The bits from `high` down to `low`, moved to the bottom.
fn bits(raw: u32, high: u32, low: u32) -> u32 {
    (raw >> low) & ((1 << (high - low + 1)) - 1)
}

/// Bit 31 of the instruction, repeated from bit `from` upwards.
fn sign(raw: u32, from: u32) -> u32 {
    if raw >> 31 == 1 {
        u32::MAX << from
    } else {
        0
    }
}

impl IType {
    pub fn imm(&self) -> i32 {
        (sign(self.0, 12) | bits(self.0, 31, 20)) as i32
    }
}

impl SType {
    pub fn imm(&self) -> i32 {
        (sign(self.0, 12) | bits(self.0, 31, 25) << 5 | bits(self.0, 11, 7)) as i32
    }
}

impl BType {
    pub fn imm(&self) -> i32 {
        (sign(self.0, 12)
            | bits(self.0, 7, 7) << 11
            | bits(self.0, 30, 25) << 5
            | bits(self.0, 11, 8) << 1) as i32
    }
}

impl UType {
    pub fn imm(&self) -> u32 {
        bits(self.0, 31, 12)
    }
}

impl JType {
    pub fn imm(&self) -> i32 {
        (sign(self.0, 20)
            | bits(self.0, 19, 12) << 12
            | bits(self.0, 20, 20) << 11
            | bits(self.0, 30, 21) << 1) as i32
    }
}
