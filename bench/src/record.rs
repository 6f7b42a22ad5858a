//! The record as the library's words and as plain Rust's.

use crate::traps::Record;

/// Plain Rust's record from the library's words. Nothing waits in it.
pub fn from_words(r: &Record) -> plain::Vcpu {
    plain::Vcpu {
        x: std::array::from_fn(|i| r[i]),
        sepc: r[32],
        sstatus: r[33],
        hstatus: r[34],
        vsstatus: r[35],
        vstvec: r[36],
        vsepc: r[37],
        vscause: r[38],
        vstval: r[39],
        vstimecmp: r[40],
        hie: r[41],
        hvip: r[42],
        hgeie: r[43],
        hgatp: r[44],
        counts: std::array::from_fn(|i| r[45 + i]),
        waiting: plain::Waiting::Idle,
    }
}

/// And back, with a 1 where anything waits.
pub fn to_words(v: &plain::Vcpu) -> Record {
    let mut r = [0; 58];
    r[..32].copy_from_slice(&v.x);
    let numbers =
        [v.sepc, v.sstatus, v.hstatus, v.vsstatus, v.vstvec, v.vsepc, v.vscause, v.vstval, v.vstimecmp, v.hie, v.hvip, v.hgeie, v.hgatp];
    r[32..45].copy_from_slice(&numbers);
    r[45..54].copy_from_slice(&v.counts);
    r[54] = (v.waiting != plain::Waiting::Idle) as u64;
    r
}

/// What the entry over words gives.
#[repr(C)]
pub struct ReplyWords {
    pub kind: u64,
    pub number: u64,
    pub values: [u64; 8],
    pub args: [u64; 6],
}
