//! The load and store decoder: 32-bit ISA forms.

use crate::Width;

/// A decoded word.
#[derive(Clone, Copy, Debug, PartialEq, Eq)]
pub enum Decoded {
    Load { rd: u64, width: Width, signed: bool },
    Store { rs2: u8, width: Width },
    Other,
}

pub fn decode(word: u32) -> Decoded {
    const LOAD: u32 = 0x03;
    const STORE: u32 = 0x23;
    let rd = ((word >> 7) & 31) as u64;
    let rs2 = ((word >> 20) & 31) as u8;
    match (word & 0x7f, (word >> 12) & 7) {
        (LOAD, 0) => Decoded::Load { rd, width: Width::One, signed: true },
        (LOAD, 1) => Decoded::Load { rd, width: Width::Two, signed: true },
        (LOAD, 2) => Decoded::Load { rd, width: Width::Four, signed: true },
        // Eight bytes fill the register: no sign is left to extend, and the
        // ISA names LD without U.
        (LOAD, 3) => Decoded::Load { rd, width: Width::Eight, signed: true },
        (LOAD, 4) => Decoded::Load { rd, width: Width::One, signed: false },
        (LOAD, 5) => Decoded::Load { rd, width: Width::Two, signed: false },
        (LOAD, 6) => Decoded::Load { rd, width: Width::Four, signed: false },
        (STORE, 0) => Decoded::Store { rs2, width: Width::One },
        (STORE, 1) => Decoded::Store { rs2, width: Width::Two },
        (STORE, 2) => Decoded::Store { rs2, width: Width::Four },
        (STORE, 3) => Decoded::Store { rs2, width: Width::Eight },
        _ => Decoded::Other,
    }
}
