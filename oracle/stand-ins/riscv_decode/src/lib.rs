//! Stands in for riscv_decode, from the ISA manual: loads and stores by name,
//! every other 32-bit word of a listed opcode as `Other`, and an error for the
//! rest. Which other words the crate itself knows is not at hand.

pub mod types;

use types::{IType, SType};

/// A decoded instruction.
#[derive(Clone, Copy, Debug, PartialEq, Eq)]
pub enum Instruction {
    Lb(IType),
    Lh(IType),
    Lw(IType),
    Ld(IType),
    Lbu(IType),
    Lhu(IType),
    Lwu(IType),
    Sb(SType),
    Sh(SType),
    Sw(SType),
    Sd(SType),
    Other(u32),
}

/// The word is no instruction known here.
#[derive(Clone, Copy, Debug, PartialEq, Eq)]
pub struct DecodingError;

/// The length in bytes that an instruction's first half-word gives it (ISA,
/// 'Expanded Instruction-Length Encoding'); 0 for lengths past 8.
pub fn instruction_length(first: u16) -> usize {
    if first & 0b11 != 0b11 {
        2
    } else if first & 0b1_1100 != 0b1_1100 {
        4
    } else if first & 0b11_1111 == 0b01_1111 {
        6
    } else if first & 0b111_1111 == 0b011_1111 {
        8
    } else {
        0
    }
}

pub fn decode(word: u32) -> Result<Instruction, DecodingError> {
    let i = IType(word);
    let s = SType(word);
    match (word & 0x7f, (word >> 12) & 7) {
        (0x03, 0) => Ok(Instruction::Lb(i)),
        (0x03, 1) => Ok(Instruction::Lh(i)),
        (0x03, 2) => Ok(Instruction::Lw(i)),
        (0x03, 3) => Ok(Instruction::Ld(i)),
        (0x03, 4) => Ok(Instruction::Lbu(i)),
        (0x03, 5) => Ok(Instruction::Lhu(i)),
        (0x03, 6) => Ok(Instruction::Lwu(i)),
        (0x23, 0) => Ok(Instruction::Sb(s)),
        (0x23, 1) => Ok(Instruction::Sh(s)),
        (0x23, 2) => Ok(Instruction::Sw(s)),
        (0x23, 3) => Ok(Instruction::Sd(s)),
        (0x07 | 0x0f | 0x13 | 0x17 | 0x1b | 0x27 | 0x2f | 0x33 | 0x37 | 0x3b, _)
        | (0x53 | 0x63 | 0x67 | 0x6f | 0x73, _) => Ok(Instruction::Other(word)),
        _ => {
            scripted::note_undecoded(word);
            Err(DecodingError)
        }
    }
}
