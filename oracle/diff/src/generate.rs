//! Random inputs by class. A class says what kind of trap is made; the
//! numbers that it leaves open are random.

use model::*;
use scripted::{Fetched, Script};

use crate::input::Input;
use crate::instructions::*;
use crate::random::Random;

/// The classes, by the names that `--only` takes. A new one stands last: the
/// stored captures of those before it then stay as they are.
pub const CLASSES: [&str; 64] = [
    "interrupt-handled",
    "interrupt-known",
    "interrupt-unknown",
    "exception-known",
    "exception-unknown",
    "legacy-0",
    "legacy-1",
    "legacy-2",
    "legacy-3",
    "legacy-4",
    "legacy-5",
    "legacy-6",
    "legacy-7",
    "legacy-8",
    "time-0",
    "time-other",
    "ipi-0",
    "ipi-other",
    "hsm-0",
    "hsm-1",
    "hsm-2",
    "hsm-3",
    "hsm-other",
    "hvc",
    "srst-0-shutdown",
    "srst-0-other",
    "srst-other",
    "dbcn-0",
    "dbcn-1",
    "dbcn-2",
    "dbcn-other",
    "rfnc-0",
    "rfnc-1",
    "rfnc-2",
    "rfnc-3",
    "rfnc-4",
    "rfnc-5",
    "rfnc-6",
    "rfnc-other",
    "pmu",
    "base",
    "forwarded",
    "stimecmp-stval",
    "stimecmp-fetch",
    "virtual-other-stval",
    "virtual-other-fetch",
    "virtual-fetch-fault",
    "load-htinst",
    "store-htinst",
    "other-htinst",
    "pseudo-htinst",
    "length-htinst",
    "load-fetch",
    "store-fetch",
    "other-fetch",
    "compressed-fetch",
    "long-fetch",
    "page-fault-fetch-fault",
    "wild-ecall",
    "wild-fault",
    "wild",
    "compressed-load-fetch",
    "compressed-store-fetch",
    "compressed-other-fetch",
];

/// A record with every number random and nothing waiting.
pub fn record(r: &mut Random) -> Vcpu {
    let mut v = Vcpu::zero();
    for x in &mut v.x {
        *x = r.edgy();
    }
    for count in &mut v.counts {
        *count = r.edgy();
    }
    v.sepc = r.edgy();
    v.sstatus = r.edgy();
    v.hstatus = r.number();
    v.vsstatus = r.number();
    v.vstvec = r.edgy();
    v.vsepc = r.edgy();
    v.vscause = r.edgy();
    v.vstval = r.edgy();
    v.vstimecmp = r.edgy();
    v.hie = r.edgy();
    v.hvip = r.number();
    v.hgeie = r.edgy();
    v.hgatp = r.edgy();
    v
}

/// An input of class number `class` on a record, whose argument registers it
/// sets.
pub fn input(r: &mut Random, class: usize, mut record: Vcpu) -> Input {
    let mut trap = Trap {
        scause: 10,
        stval: r.edgy(),
        htval: r.edgy(),
        htinst: r.edgy(),
        room: room(r),
    };
    let mut fetch = fetched(r);
    let x = &mut record.x;
    let name = CLASSES[class];
    let (family, rest) = name.split_once('-').unwrap_or((name, ""));
    match family {
        "interrupt" | "exception" => trap.scause = unhandled(r, name),
        "virtual" | "stimecmp" => virtual_instruction(r, name, &mut trap, &mut fetch),
        "load" | "store" | "other" | "pseudo" | "length" | "compressed" | "long" | "page" => {
            page_fault(r, name, &mut trap, &mut fetch)
        }
        "wild" => wild(r, rest, &mut trap, x),
        _ => ecall(r, family, rest, trap.room, x),
    }
    // Answers that fit a console call's length, or nearly.
    let n = x[A0].min(trap.room).min(4096);
    let script = script(r, n, fetch);
    let stale = if r.once_in(8) { Some(r.edgy()) } else { None };
    Input { record, trap, script, bound: r.coin(), stale }
}

fn room(r: &mut Random) -> u64 {
    match r.below(16) {
        0 => 0,
        1 => r.edgy(),
        2 => r.pick(&[4095, 4096, 4097, u64::MAX]),
        _ => r.below(64),
    }
}

/// Answers for a console call of length n; other asks get any answer.
pub fn script(r: &mut Random, n: u64, fetch: Fetched) -> Script {
    let read = match r.below(8) {
        0 => (0, 0),
        1 => (r.edgy(), r.edgy()),
        2 => (0, r.around(n)),
        3 => (r.pick(&[FAILED, NOT_SUPPORTED, 1]), r.below(n + 1)),
        _ => (0, r.below(n + 1)),
    };
    Script {
        fetch,
        mask: (r.around(8), r.number()),
        copy_in: r.around(n),
        print: (if r.coin() { 0 } else { r.edgy() }, r.around(n)),
        read,
        copy_out: r.around(read.1),
        character: r.edgy(),
        forward: (r.edgy(), r.edgy()),
        fill: r.number(),
    }
}

/// Traps that end at their code.
fn unhandled(r: &mut Random, name: &str) -> u64 {
    match name {
        "interrupt-handled" => INTERRUPT + r.pick(&[1, 5, 9]),
        "interrupt-known" => INTERRUPT + r.pick(&[0, 2, 3, 4, 6, 7, 8, 10, 11, 12]),
        "interrupt-unknown" => match r.below(3) {
            0 => INTERRUPT + 13 + r.below(64),
            1 => INTERRUPT | r.pick(&[1, 5, 9, 0, 12]) | 1 << (4 + r.below(59)),
            _ => INTERRUPT | r.number(),
        },
        "exception-known" => r.pick(&[0, 1, 2, 3, 4, 5, 6, 7, 8, 9, 11, 12, 13, 15, 20]),
        _ => match r.below(3) {
            0 => r.pick(&[14, 16, 17, 18, 19, 24, 25, 31, 32, 63]),
            1 => r.pick(&[10, 21, 22, 23, 0, 12]) | 1 << (5 + r.below(58)),
            _ => r.number() >> 1 | 1 << 40,
        },
    }
}

fn ecall(r: &mut Random, family: &str, rest: &str, room: u64, x: &mut [u64; 32]) {
    let fid: Option<u64> = rest.split('-').next().and_then(|digits| digits.parse().ok());
    x[A7] = match family {
        // a6 stays as it is: no legacy call reads it.
        "legacy" => {
            x[A7] = fid.expect("a legacy class has its number");
            return;
        }
        "time" => EID_TIME,
        "ipi" => EID_SPI,
        "hsm" => EID_HSM,
        "hvc" => EID_HVC,
        "srst" => EID_SRST,
        "dbcn" => EID_DBCN,
        "rfnc" => EID_RFNC,
        "pmu" => EID_PMU,
        "base" => 0x10,
        _ => odd_eid(r),
    };
    match fid {
        Some(fid) => x[A6] = fid,
        // A fid that is none of the extension's, or any.
        None => {
            x[A6] = match r.below(4) {
                0 => r.below(12),
                1 => r.below(8) | 1 << (8 + r.below(56)),
                _ => r.edgy(),
            }
        }
    }
    match (family, rest) {
        ("srst", "0-shutdown") => x[A0] = 0,
        ("srst", "0-other") => {
            x[A0] = match r.below(3) {
                0 => 1 + r.below(4),
                1 => 1 << r.below(64),
                _ => r.number() | 1,
            }
        }
        ("dbcn", "0" | "1") => {
            x[A0] = match r.below(8) {
                0 => r.edgy(),
                1 => r.around(room),
                2 => r.below(8),
                _ => r.below(room.min(4096) + 1),
            };
            if !r.once_in(8) {
                x[A2] = 0;
            }
        }
        _ => {}
    }
}

/// An eid near a known one, a small one, or any.
fn odd_eid(r: &mut Random) -> u64 {
    let known = r.pick(&[
        EID_TIME, EID_SPI, EID_HSM, EID_HVC, EID_SRST, EID_DBCN, EID_RFNC, EID_PMU, 0, 8,
    ]);
    match r.below(5) {
        0 => known ^ 1 << r.below(64),
        1 => known.wrapping_add(1),
        2 => known.wrapping_sub(1),
        3 => r.below(32),
        _ => r.edgy(),
    }
}

fn virtual_instruction(r: &mut Random, name: &str, trap: &mut Trap, fetch: &mut Fetched) {
    trap.scause = 22;
    trap.stval = not_system(r);
    match name {
        "stimecmp-stval" => trap.stval = r.number() << 32 | stimecmp(r) as u64,
        "stimecmp-fetch" => *fetch = Fetched::Word(stimecmp(r)),
        "virtual-other-stval" => {
            trap.stval = r.number() << 32 | almost_stimecmp(r) as u64 & !0x7f | 0x73;
        }
        "virtual-other-fetch" => *fetch = Fetched::Word(almost_stimecmp(r)),
        _ => *fetch = fetch_fault(r),
    }
}

fn page_fault(r: &mut Random, name: &str, trap: &mut Trap, fetch: &mut Fetched) {
    // The direction fits the word more often than not.
    let (fits, odd) = if name.contains("store") { (23, 21) } else { (21, 23) };
    trap.scause = if r.once_in(4) { odd } else { fits };
    if !name.ends_with("htinst") {
        trap.htinst = 0;
    }
    match name {
        "load-htinst" => {
            let word = load(r);
            trap.htinst = htinst(r, word);
        }
        "store-htinst" => {
            let word = store(r);
            trap.htinst = htinst(r, word);
        }
        "other-htinst" => {
            let word = other(r);
            trap.htinst = htinst(r, word);
        }
        "pseudo-htinst" => {
            let high = if r.coin() { 0 } else { r.number() << 32 };
            trap.htinst = high | r.pick(&[0x3000, 0x3020]);
        }
        "length-htinst" => {
            trap.htinst = match r.below(4) {
                0 => 1 << (1 + r.below(63)),
                1 => r.pick(&[0x3000, 0x3020, 0x2000, 0x2020]) ^ 1 << (1 + r.below(31)),
                _ => r.number() & !1 | 2,
            };
        }
        "load-fetch" => *fetch = Fetched::Word(load(r)),
        "store-fetch" => *fetch = Fetched::Word(store(r)),
        "other-fetch" => *fetch = Fetched::Word(other(r)),
        "compressed-load-fetch" => *fetch = Fetched::Word(compressed_load(r)),
        "compressed-store-fetch" => *fetch = Fetched::Word(compressed_store(r)),
        "compressed-other-fetch" => *fetch = Fetched::Word(compressed_other(r)),
        // 32-bit forms but for their low bits, and any 16-bit words.
        "compressed-fetch" => {
            let words = [r.number() as u32, load(r), store(r), 0x3000, 0x3020];
            *fetch = Fetched::Word(r.pick(&words) & !3 | r.below(3) as u32);
        }
        "long-fetch" => *fetch = Fetched::Word(r.number() as u32 | 0x1f),
        _ => *fetch = fetch_fault(r),
    }
}

fn wild(r: &mut Random, rest: &str, trap: &mut Trap, x: &mut [u64; 32]) {
    match rest {
        "ecall" => {
            x[A7] = r.pick(&[EID_TIME, EID_SPI, EID_HSM, EID_HVC, EID_SRST, EID_RFNC, 0, 3, 8]);
            x[A6] = r.below(8);
        }
        "fault" => trap.scause = r.pick(&[21, 22, 23]),
        _ => trap.scause = r.below(26) | r.pick(&[0, INTERRUPT]),
    }
}
