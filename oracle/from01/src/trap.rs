//! One trap: its start and its answers.

use crate::record::*;
use crate::reply::*;
use crate::{ecall, fault};

/// "the host starts a trap with scause, stval, htval, htinst and console room
/// (above 4,096 counts as 4,096)".
pub fn start(r: &mut Record, scause: u64, stval: u64, htval: u64, htinst: u64, room: u64) -> Reply {
    // "BadState: a start while a load waits"; an ask is refused already. It
    // goes before scause is looked at (reading).
    if let Waits::Load { .. } = r.waits() {
        return error(BAD_STATE);
    }
    // The start is taken: what waits after it is written below (words).
    r.wait_for(Waits::Nothing);
    let room = room.min(4096);

    if scause >> 63 == 1 {
        // The interrupt code is the low 63 bits, whole (reading).
        return match scause & (u64::MAX >> 1) {
            // "Interrupt 1, 5, 9: exit ExternalInterrupt with vector 2^63
            // plus the code, record unchanged."
            1 | 5 | 9 => exit(EXTERNAL_INTERRUPT, &[scause]),
            // "Interrupt codes 0 to 12 otherwise: error 3."
            0..=12 => error(UNSUPPORTED),
            // "All else: error 4."
            _ => error(INVALID_TRAP),
        };
    }
    match scause {
        // "Exceptions 10 (ecall), 22 (virtual instruction), 21 and 23 (guest
        // page fault) are handled."
        10 => ecall::start(r, room),
        22 => fault::start_virtual(r, stval),
        21 => fault::start_guest_page(r, Access::Read, stval, htval, htinst),
        23 => fault::start_guest_page(r, Access::Write, stval, htval, htinst),
        // "Other codes in consts.rs (0 to 9, 11, 12, 13, 15, 20): error 3."
        0..=9 | 11 | 12 | 13 | 15 | 20 => error(UNSUPPORTED),
        // "All else: error 4."
        _ => error(INVALID_TRAP),
    }
}

/// An answer: its number, and its two numbers as word and more. An answer of
/// the right kind is never refused for its data (reading).
pub fn answer(r: &mut Record, number: u64, word: u64, more: u64) -> Reply {
    let waits = r.waits();
    // "WrongAnswer: no ask waits, or the answer is of another ask's kind".
    // A waiting load is no ask (reading).
    if waits.ask_number() != Some(number) {
        return error(WRONG_ANSWER);
    }
    // The answer is taken: what waits after it is written below (words).
    r.wait_for(Waits::Nothing);

    match waits {
        Waits::FetchVirtual => fault::fetched_virtual(r, word, more),
        Waits::FetchGuestPage { address, access } => {
            fault::fetched_guest_page(r, address, access, word, more)
        }
        ecall_waits => ecall::answer(r, ecall_waits, word, more),
    }
}
