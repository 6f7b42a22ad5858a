//! "Ecalls".

use crate::record::*;
use crate::reply::*;

const TIME: u64 = 0x5449_4D45;
const SPI: u64 = 0x73_5049;
const HSM: u64 = 0x48_534D;
/// "EID_HVC (number in src/lib.rs)".
const HVC: u64 = 0x48_5643;
const SRST: u64 = 0x5352_5354;
const DBCN: u64 = 0x4442_434E;
const RFNC: u64 = 0x5246_4E43;

const LEGACY: u64 = 0;
const V02: u64 = 1;

/// "'Return e, v' sets a0 = e, a1 = v; sepc moves on by 4 modulo 2^64; exit
/// Nothing."
fn returns(r: &mut Record, e: u64, v: u64) -> Reply {
    r.set_x(A0, e);
    r.set_x(A1, v);
    r.move_on(4);
    exit(NOTHING, &[])
}

/// Moves on by 4; exit Nothing.
fn moves_on(r: &mut Record) -> Reply {
    r.move_on(4);
    exit(NOTHING, &[])
}

/// Asks this and waits. While the ask waits the record differs from the start
/// only in the waiting part and RFNC's event (reading).
fn asks(r: &mut Record, waits: Waits, number: u64, carried: &[u64]) -> Reply {
    r.wait_for(waits);
    ask(number, carried)
}

/// What legacy 0 and TIME 0 share.
fn set_timer(r: &mut Record) {
    // "event 1, vstimecmp = a0".
    r.count(1);
    r.set(VSTIMECMP, r.x(A0));
    // "Legacy 0 and TIME fid 0 shall clear hvip bit 6 as well as set
    // vstimecmp" (W1): whatever a0 is (reading).
    clear_hvip(r, 6);
}

/// Clears this bit of hvip and no other, also where it was not set (reading).
fn clear_hvip(r: &mut Record, bit: u32) {
    r.set(HVIP, r.get(HVIP) & !(1 << bit));
}

/// "eid is a7, fid a6." Both are compared on all 64 bits (reading).
pub fn start(r: &mut Record, room: u64) -> Reply {
    let (eid, fid) = (r.x(A7), r.x(A6));
    match (eid, fid) {
        // Legacy 0 to 8 whatever a6 holds (reading).
        (0..=8, _) => legacy(r, eid),
        // "TIME 0x54494D45, fid 0: event 1, vstimecmp = a0, return 0, 0."
        (TIME, 0) => {
            set_timer(r);
            returns(r, 0, 0)
        }
        // "sPI 0x735049, fid 0: move on, SendIpi(a0, a1, v0.2)."
        (SPI, 0) => {
            r.move_on(4);
            exit(SEND_IPI, &[r.x(A0), r.x(A1), V02])
        }
        // "HSM 0x48534D: fid 0 moves on, CpuUp(a0, a1, a2);
        (HSM, 0) => {
            r.move_on(4);
            exit(CPU_UP, &[r.x(A0), r.x(A1), r.x(A2)])
        }
        // 1 CpuDown(0) and 3 Halt, sepc unmoved."
        (HSM, 1) => exit(CPU_DOWN, &[0]),
        (HSM, 3) => exit(HALT, &[]),
        // "EID_HVC: move on, Hypercall(a6; a0 to a5)." "Hypercall's array
        // stands beside the exit".
        (HVC, _) => {
            r.move_on(4);
            Reply {
                args: [A0, A1, A2, A3, A4, A5].map(|index| r.x(index)),
                ..exit(HYPERCALL, &[fid])
            }
        }
        // "SRST 0x53525354, fid 0 with a0 = 0: SystemDown, sepc unmoved;
        // other a0: return NOT_SUPPORTED, 0."
        (SRST, 0) => match r.x(A0) {
            0 => exit(SYSTEM_DOWN, &[]),
            _ => returns(r, NOT_SUPPORTED, 0),
        },
        (DBCN, 0 | 1) => console(r, fid, room),
        // "fid 2: ask 7 with a0 mod 256, return 0, 0."
        (DBCN, 2) => {
            let byte = r.x(A0) % 256;
            asks(r, Waits::WriteByte, ASK_EMIT, &[byte])
        }
        // "Other fids of TIME, sPI, HSM, SRST, DBCN: return NOT_SUPPORTED, 0."
        (TIME | SPI | HSM | SRST | DBCN, _) => returns(r, NOT_SUPPORTED, 0),
        // "RFNC 0x52464E43: fids 0 to 6 count events 3 to 9 in order (fence.i,
        // sfence.vma, with ASID, hfence.gvma with VMID, hfence.gvma,
        // hfence.vvma with ASID, hfence.vvma); then, with any fid, ask 9."
        (RFNC, _) => {
            match fid {
                0 => r.count(3), // fence.i
                1 => r.count(4), // sfence.vma
                2 => r.count(5), // sfence.vma with ASID
                3 => r.count(6), // hfence.gvma with VMID
                4 => r.count(7), // hfence.gvma
                5 => r.count(8), // hfence.vvma with ASID
                6 => r.count(9), // hfence.vvma
                _ => {}
            }
            forward(r, eid, fid)
        }
        // "PMU 0x504D55 and all other eids: ask 9."
        _ => forward(r, eid, fid),
    }
}

/// "9 forward eid, fid, a0 to a5".
fn forward(r: &mut Record, eid: u64, fid: u64) -> Reply {
    let [a0, a1, a2, a3, a4, a5] = [A0, A1, A2, A3, A4, A5].map(|index| r.x(index));
    asks(
        r,
        Waits::Forward,
        ASK_FORWARD,
        &[eid, fid, a0, a1, a2, a3, a4, a5],
    )
}

/// "All others [than 8] move on by 4, once; exit Nothing unless named."
fn legacy(r: &mut Record, eid: u64) -> Reply {
    let a0 = r.x(A0);
    match eid {
        // "Legacy 0: event 1, vstimecmp = a0, then a0 = 0."
        0 => {
            set_timer(r);
            r.set_x(A0, 0);
            moves_on(r)
        }
        // "1: ask 7 with a0": all of a0 (reading).
        1 => asks(r, Waits::PutCharacter, ASK_EMIT, &[a0]),
        // "2: ask 8 into a0."
        2 => asks(r, Waits::GetCharacter, ASK_GET_CHARACTER, &[]),
        // "3: clear hvip bit 2, a0 = 0."
        3 => {
            clear_hvip(r, 2);
            r.set_x(A0, 0);
            moves_on(r)
        }
        // "4: ask 2 at a0".
        4 => asks(r, Waits::IpiMask, ASK_COPY_8, &[a0]),
        // "8: exit SystemDown, sepc unmoved."
        8 => exit(SYSTEM_DOWN, &[]),
        // "5, 6, 7: no register written."
        _ => moves_on(r),
    }
}

/// DBCN fid 0 and fid 1 ("same checks").
fn console(r: &mut Record, fid: u64, room: u64) -> Reply {
    let (a0, a1, a2) = (r.x(A0), r.x(A1), r.x(A2));
    // "a0 = 0 returns 0, 0 and asks nothing;
    if a0 == 0 {
        return returns(r, 0, 0);
    }
    // then a2 not 0 returns INVALID_PARAM, 0;
    if a2 != 0 {
        return returns(r, INVALID_PARAM, 0);
    }
    // n is the lesser of a0 and room, n = 0 returns 0, 0."
    let n = a0.min(room);
    if n == 0 {
        return returns(r, 0, 0);
    }
    match fid {
        // "Ask 3 at a1".
        0 => asks(r, Waits::CopyIn { n }, ASK_COPY_IN, &[a1, n]),
        // "fid 1: same checks, ask 5".
        _ => asks(
            r,
            Waits::ConsoleRead { n, address: a1 },
            ASK_CONSOLE_READ,
            &[n],
        ),
    }
}

/// The answers to an ecall's asks: "a waiting ecall's answers read no
/// register". sepc, a0 and a1 change at the last answer (reading).
pub fn answer(r: &mut Record, waits: Waits, word: u64, more: u64) -> Reply {
    match waits {
        // Legacy 4: "count 8 gives exit SendIpi(mask, base 0, legacy), any
        // other count returns FAILED, 0."
        Waits::IpiMask => match word {
            8 => {
                r.move_on(4);
                exit(SEND_IPI, &[more, 0, LEGACY])
            }
            _ => returns(r, FAILED, 0),
        },
        // DBCN 0: "count n leads to ask 4, whose pair is returned; else
        // FAILED, 0." Ask 4 has ask 3's n (reading).
        Waits::CopyIn { n } if word == n => asks(r, Waits::Print { n }, ASK_PRINT, &[n]),
        Waits::CopyIn { .. } => returns(r, FAILED, 0),
        Waits::Print { .. } => returns(r, word, more),
        // DBCN 1: "error 0 and value v from 1 to n leads to ask 6, [...] every
        // other pair is returned as given."
        Waits::ConsoleRead { n, address } => match (word, more) {
            (0, v) if 1 <= v && v <= n => {
                asks(r, Waits::CopyOut { v }, ASK_COPY_OUT, &[address, v])
            }
            (e, v) => returns(r, e, v),
        },
        // "count v returns 0, v, other counts FAILED, 0".
        Waits::CopyOut { v } if word == v => returns(r, 0, v),
        Waits::CopyOut { .. } => returns(r, FAILED, 0),
        // Legacy 1: "no register written."
        Waits::PutCharacter => moves_on(r),
        // DBCN 2: "return 0, 0."
        Waits::WriteByte => returns(r, 0, 0),
        // Legacy 2: "into a0": all of the number, and a1 is left (reading).
        Waits::GetCharacter => {
            r.set_x(A0, word);
            moves_on(r)
        }
        // "The pair is returned."
        Waits::Forward => returns(r, word, more),
        // No ask of an ecall: such an answer is refused before this.
        Waits::Nothing
        | Waits::Load { .. }
        | Waits::FetchVirtual
        | Waits::FetchGuestPage { .. } => error(WRONG_ANSWER),
    }
}
