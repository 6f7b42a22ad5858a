//! Which instruction word a trap comes to, by 01's rules for stval, htinst
//! and fetches, and whether its fetch ends in a fault that is injected. The
//! switches decide by it.

use scripted::Fetched;

use crate::expand;
use crate::input::Input;

/// Whether the word is a write or read of stimecmp, its opcode left aside.
pub fn is_stimecmp(word: u32) -> bool {
    let funct3 = word >> 12 & 7;
    word >> 20 == 0x14d && funct3 != 0 && funct3 != 4
}

/// Whether an access to stimecmp writes it.
pub fn writes_stimecmp(word: u32) -> bool {
    is_stimecmp(word) && (word >> 12 & 3 == 1 || word >> 15 & 31 != 0)
}

/// A virtual instruction's word, and whether it was fetched.
pub fn virtual_word(input: &Input) -> Option<(u32, bool)> {
    if input.trap.scause != 22 {
        return None;
    }
    let word = input.trap.stval as u32;
    if word & 0x7f == 0x73 {
        return Some((word, false));
    }
    match input.script.fetch {
        Fetched::Word(word) => Some((word, true)),
        _ => None,
    }
}

/// Whether the trap fetches its word and gets a fault that 01 injects: page,
/// access or misaligned. A word that stval or htinst has is not fetched.
pub fn injects(input: &Input) -> bool {
    use Fetched::*;
    let fetches = match input.trap.scause {
        22 => input.trap.stval & 0x7f != 0x73,
        21 | 23 => input.trap.htinst == 0,
        _ => false,
    };
    fetches && matches!(input.script.fetch, Page(_) | Access(_) | Misaligned(_))
}

/// What a guest page fault's word is.
#[derive(Clone, Copy, Debug, PartialEq, Eq)]
pub enum FaultWord {
    Load,
    Store,
    Other,
}

/// A fetched 16-bit word that is a load under 21 or a store under 23, as
/// htinst has it.
pub fn compressed(input: &Input) -> Option<u32> {
    let write = match input.trap.scause {
        21 => false,
        23 => true,
        _ => return None,
    };
    if input.trap.htinst != 0 {
        return None;
    }
    let Fetched::Word(word) = input.script.fetch else {
        return None;
    };
    expand::htinst(word as u16).filter(|&htinst| expand::is_store(htinst) == write)
}

/// A guest page fault's word where the length rule lets it through, as the
/// decoder is given it. A compressed access has none here: it has a switch of
/// its own.
pub fn fault_word(input: &Input) -> Option<(FaultWord, u32)> {
    if input.trap.scause != 21 && input.trap.scause != 23 || compressed(input).is_some() {
        return None;
    }
    let word = if input.trap.htinst == 0 {
        let Fetched::Word(word) = input.script.fetch else {
            return None;
        };
        match word & 0x1f {
            0x1f => return None,
            low if low & 3 == 3 => word,
            _ => word & 0xffff,
        }
    } else {
        let word = input.trap.htinst as u32;
        if word == 0x3000 || word == 0x3020 || word & 1 == 0 {
            return None;
        }
        word | 2
    };
    let kind = match (word & 0x7f, word >> 12 & 7) {
        (0x03, 0..=6) => FaultWord::Load,
        (0x23, 0..=3) => FaultWord::Store,
        _ => FaultWord::Other,
    };
    Some((kind, word))
}

/// The address of a guest page fault.
pub fn fault_addr(input: &Input) -> u64 {
    input.trap.htval << 2 | input.trap.stval & 3
}
