//! The record of 58 words and what waits in it.

use crate::reply::*;

pub const SEPC: usize = 32;
pub const SSTATUS: usize = 33;
pub const HSTATUS: usize = 34;
pub const VSSTATUS: usize = 35;
pub const VSTVEC: usize = 36;
pub const VSEPC: usize = 37;
pub const VSCAUSE: usize = 38;
pub const VSTVAL: usize = 39;
pub const VSTIMECMP: usize = 40;
pub const HIE: usize = 41;
pub const HVIP: usize = 42;
pub const HGEIE: usize = 43;
pub const HGATP: usize = 44;
/// Event 1; events 2 to 9 follow.
pub const EVENTS: usize = 45;
/// The kind of what waits; its three numbers follow.
pub const WAITS: usize = 54;

/// Registers by their names in the calling convention.
pub const A0: u64 = 10;
pub const A1: u64 = 11;
pub const A2: u64 = 12;
pub const A3: u64 = 13;
pub const A4: u64 = 14;
pub const A5: u64 = 15;
pub const A6: u64 = 16;
pub const A7: u64 = 17;

pub struct Record<'a>(pub &'a mut [u64; 58]);

impl Record<'_> {
    pub fn get(&self, word: usize) -> u64 {
        self.0.get(word).copied().unwrap_or(0)
    }

    pub fn set(&mut self, word: usize, number: u64) {
        if let Some(place) = self.0.get_mut(word) {
            *place = number;
        }
    }

    /// "slot 0 reads 0".
    pub fn x(&self, index: u64) -> u64 {
        match index {
            1..=31 => self.get(index as usize),
            _ => 0,
        }
    }

    /// Slot 0 "is never written". A waiting load's rd above 31 writes no
    /// register (words).
    pub fn set_x(&mut self, index: u64, number: u64) {
        if let 1..=31 = index {
            self.set(index as usize, number);
        }
    }

    /// "nine event counts modulo 2^64": events 1 to 9.
    pub fn count(&mut self, event: usize) {
        let word = EVENTS.wrapping_add(event).wrapping_sub(1);
        self.set(word, self.get(word).wrapping_add(1));
    }

    /// "sepc moves on by 4 modulo 2^64", or by a decoded word's length.
    pub fn move_on(&mut self, length: u64) {
        self.set(SEPC, self.get(SEPC).wrapping_add(length));
    }

    /// hstatus bit 8, as 0 or 1: the trap came from supervisor mode.
    pub fn supervisor(&self) -> u64 {
        (self.get(HSTATUS) >> 8) & 1
    }

    /// "the one waiting ask or load with what its trap still needs".
    /// Every pattern of words has a meaning (words).
    pub fn waits(&self) -> Waits {
        let (first, second, third) = (
            self.get(WAITS + 1),
            self.get(WAITS + 2),
            self.get(WAITS + 3),
        );
        match self.get(WAITS) {
            1 => Waits::Load {
                rd: first,
                // A byte number other than 1, 2, 4 is 8 (words).
                bytes: match second {
                    1 | 2 | 4 => second,
                    _ => 8,
                },
                signed: third != 0,
            },
            2 => Waits::FetchVirtual,
            3 => Waits::FetchGuestPage {
                address: first,
                // An access other than 1 and 2 is EXECUTE (words).
                access: match second {
                    1 => Access::Read,
                    2 => Access::Write,
                    _ => Access::Execute,
                },
            },
            4 => Waits::IpiMask,
            5 => Waits::CopyIn { n: first },
            6 => Waits::Print { n: first },
            7 => Waits::ConsoleRead {
                n: first,
                address: second,
            },
            8 => Waits::CopyOut { v: first },
            9 => Waits::PutCharacter,
            10 => Waits::WriteByte,
            11 => Waits::GetCharacter,
            12 => Waits::Forward,
            // An unknown kind is nothing waiting (words).
            _ => Waits::Nothing,
        }
    }

    /// The kind and the numbers that it carries are written; the others of
    /// the four words stay (words).
    pub fn wait_for(&mut self, waits: Waits) {
        let (kind, numbers): (u64, &[u64]) = match &waits {
            Waits::Nothing => (0, &[]),
            Waits::Load { rd, bytes, signed } => (1, &[*rd, *bytes, *signed as u64]),
            Waits::FetchVirtual => (2, &[]),
            Waits::FetchGuestPage { address, access } => (3, &[*address, access.number()]),
            Waits::IpiMask => (4, &[]),
            Waits::CopyIn { n } => (5, &[*n]),
            Waits::Print { n } => (6, &[*n]),
            Waits::ConsoleRead { n, address } => (7, &[*n, *address]),
            Waits::CopyOut { v } => (8, &[*v]),
            Waits::PutCharacter => (9, &[]),
            Waits::WriteByte => (10, &[]),
            Waits::GetCharacter => (11, &[]),
            Waits::Forward => (12, &[]),
        };
        self.set(WAITS, kind);
        for (word, number) in (WAITS + 1..).zip(numbers) {
            self.set(word, *number);
        }
    }
}

/// READ, WRITE, EXECUTE are 1, 2, 4 (reading).
#[derive(Clone, Copy, PartialEq, Eq)]
pub enum Access {
    Read,
    Write,
    Execute,
}

impl Access {
    pub fn number(self) -> u64 {
        match self {
            Access::Read => 1,
            Access::Write => 2,
            Access::Execute => 4,
        }
    }
}

/// What waits; it keeps the least (reading).
#[derive(Clone, Copy, PartialEq, Eq)]
pub enum Waits {
    Nothing,
    Load { rd: u64, bytes: u64, signed: bool },
    FetchVirtual,
    FetchGuestPage { address: u64, access: Access },
    IpiMask,
    CopyIn { n: u64 },
    Print { n: u64 },
    ConsoleRead { n: u64, address: u64 },
    CopyOut { v: u64 },
    PutCharacter,
    WriteByte,
    GetCharacter,
    Forward,
}

impl Waits {
    /// "An answer carries its ask's number, and that is its kind."
    /// A waiting load is no ask.
    pub fn ask_number(self) -> Option<u64> {
        match self {
            Waits::Nothing | Waits::Load { .. } => None,
            Waits::FetchVirtual | Waits::FetchGuestPage { .. } => Some(ASK_FETCH),
            Waits::IpiMask => Some(ASK_COPY_8),
            Waits::CopyIn { .. } => Some(ASK_COPY_IN),
            Waits::Print { .. } => Some(ASK_PRINT),
            Waits::ConsoleRead { .. } => Some(ASK_CONSOLE_READ),
            Waits::CopyOut { .. } => Some(ASK_COPY_OUT),
            Waits::PutCharacter | Waits::WriteByte => Some(ASK_EMIT),
            Waits::GetCharacter => Some(ASK_GET_CHARACTER),
            Waits::Forward => Some(ASK_FORWARD),
        }
    }
}
