#![doc = include_str!("../README.md")]
//!
//! ## The source
//!
//! It is written to be read beside 01 and the requests of 02 that have landed:
//! each rule stands under the sentence that it follows. Quotes are 01's; one
//! from a request has the request's name behind it: "(W1)", "(W2)", "(W4)",
//! "(W5)". "(reading)" marks a point that they leave open and a recorded reading
//! settles, "(words)" one of the layout as words. Where they name a form of the
//! ISA, its fields are the ISA's.

#![forbid(unsafe_code)]

mod compressed;
mod ecall;
mod fault;
#[cfg(test)]
mod injection_tests;
mod posts;
#[cfg(test)]
mod posts_tests;
mod record;
mod reply;
#[cfg(test)]
mod tests;
mod trap;

pub use posts::{post, Post, Posted};
use record::*;
pub use reply::Reply;
use reply::*;

/// Makes the call of this kind with these numbers on a record of 58 words.
pub fn call(record: &mut [u64; 58], kind: u64, numbers: [u64; 5]) -> Reply {
    let [a, b, c, d, e] = numbers;
    let mut r = Record(record);

    // "BadState: any changing call but an answer while an ask waits", and
    // "2 goes before 1". It goes by the call and not by its effect (reading).
    // Register read changes nothing, nor does the part to print; `new` is
    // never refused (words).
    let changes = matches!(kind, 1 | 2 | 4..=10 | 12);
    if changes && r.waits().ask_number().is_some() {
        return error(BAD_STATE);
    }

    match kind {
        1 => setup(&mut r),
        // Set entry: sepc as given (reading).
        2 => {
            r.set(SEPC, a);
            done()
        }
        3 => register_read(&r, a),
        4 => register_write(&mut r, a, b),
        // Set return value: a0 (reading); sepc stays (words).
        5 => {
            r.set_x(A0, a);
            done()
        }
        6 => page_table(&mut r, a, b, c),
        7 => interrupt_pending(&mut r, a, b != 0),
        // "Latching ORs a number into hvip": all 64 bits (reading).
        8 => {
            r.set(HVIP, r.get(HVIP) | a);
            done()
        }
        9 => ipi_completion(&mut r, a == 0, b),
        10 => trap::start(&mut r, a, b, c, d, e),
        11 => trap::answer(&mut r, a, b, c),
        12 => load_completion(&mut r, a),
        13 => bytes_to_print(&r, a),
        14 => new(&mut r, a, b),
        // No call: refusal 1 (words).
        _ => error(INVALID_INPUT),
    }
}

/// "Setup: sstatus 0x2100, hstatus 0x200000180, hie 0x444, vstimecmp
/// 2^64 - 1, hvip and hgeie 0; the rest stays."
fn setup(r: &mut Record) -> Reply {
    r.set(SSTATUS, 0x2100);
    r.set(HSTATUS, 0x2_0000_0180);
    r.set(HIE, 0x444);
    r.set(VSTIMECMP, u64::MAX);
    r.set(HVIP, 0);
    r.set(HGEIE, 0);
    done()
}

/// "Register read (never refusal 2) and write: index above 31 is refusal 1."
fn register_read(r: &Record, index: u64) -> Reply {
    if index > 31 {
        return error(INVALID_INPUT);
    }
    value(r.x(index))
}

fn register_write(r: &mut Record, index: u64, number: u64) -> Reply {
    if index > 31 {
        return error(INVALID_INPUT);
    }
    r.set_x(index, number);
    done()
}

/// "Page table: levels 3 need mode 8, levels 4 mode 9, and root & 0x3fff must
/// be 0. hgatp is mode in bits 63..60, root >> 12 cut to 44 bits, VMID 0."
fn page_table(r: &mut Record, levels: u64, mode: u64, root: u64) -> Reply {
    if !matches!((levels, mode), (3, 8) | (4, 9)) || root & 0x3fff != 0 {
        return error(INVALID_INPUT);
    }
    r.set(HGATP, (mode << 60) | ((root >> 12) & 0xfff_ffff_ffff));
    done()
}

/// "Interrupt pending, set or cleared: 2^63+1 is hvip bit 2, 2^63+5 bit 6,
/// 9 and 2^63+9 bit 10."
fn interrupt_pending(r: &mut Record, vector: u64, set: bool) -> Reply {
    let bit = match vector {
        0x8000_0000_0000_0001 => 1 << 2,
        0x8000_0000_0000_0005 => 1 << 6,
        9 | 0x8000_0000_0000_0009 => 1 << 10,
        // "interrupt vector not allowed".
        _ => return error(INVALID_INPUT),
    };
    let hvip = r.get(HVIP);
    r.set(HVIP, if set { hvip | bit } else { hvip & !bit });
    done()
}

/// "IPI completion (0, -3, -1): legacy writes a0; v0.2 writes a0 and a1 = 0.
/// sepc stays."
fn ipi_completion(r: &mut Record, legacy: bool, result: u64) -> Reply {
    // Any other number is taken for -1 (words).
    let result = match result {
        0 => 0,
        INVALID_PARAM => INVALID_PARAM,
        _ => FAILED,
    };
    r.set_x(A0, result);
    if !legacy {
        r.set_x(A1, 0);
    }
    done()
}

/// "A decoded load waits; its completion cuts the number to the width, extends
/// it and writes rd." It changes rd and the waiting part alone (reading).
fn load_completion(r: &mut Record, number: u64) -> Reply {
    // "BadState: a load completion with none waiting".
    let Waits::Load { rd, bytes, signed } = r.waits() else {
        return error(BAD_STATE);
    };
    r.wait_for(Waits::Nothing);
    r.set_x(rd, fault::extend(number, bytes, signed));
    done()
}

/// "The bytes to print are a part of the lent console buffer: its first n
/// under ask 4 if it has n, otherwise the empty part."
fn bytes_to_print(r: &Record, length: u64) -> Reply {
    match r.waits() {
        Waits::Print { n } if n <= length => value(n),
        _ => value(0),
    }
}

/// New: a0 = hart id, a1 = device tree, on a zero record (reading).
fn new(r: &mut Record, hart: u64, device_tree: u64) -> Reply {
    r.0.fill(0);
    r.set_x(A0, hart);
    r.set_x(A1, device_tree);
    done()
}
