//! Calls on a record as words: made up from a seed, made on the library, on the safe interface and on oracle/from01, a plain Rust
//! program of documents 01 and 02 over words. host/c/calls.h makes the same calls from the same seed.
#![allow(dead_code)]

use curbizzolu as api;

pub type Record = [u64; 58];
/// A call: its kind and five numbers. 0 is no call and writes a word of the record; 1 to 14 are from01's kinds, and 15 is a row of posts
/// (`row_of`).
pub type Call = [u64; 6];

/// What a call gives: the returned number and the words of `out`.
#[derive(Clone, Copy, Debug, PartialEq, Eq)]
pub struct Reply {
    pub code: u64,
    pub out: [u64; 8],
}

/// Random numbers from a seed, with a taste for edges.
pub struct Random(pub u64);

impl Random {
    /// SplitMix64.
    pub fn number(&mut self) -> u64 {
        self.0 = self.0.wrapping_add(0x9E37_79B9_7F4A_7C15);
        let mut z = self.0;
        z = (z ^ (z >> 30)).wrapping_mul(0xBF58_476D_1CE4_E5B9);
        z = (z ^ (z >> 27)).wrapping_mul(0x94D0_49BB_1331_11EB);
        z ^ (z >> 31)
    }

    pub fn below(&mut self, bound: u64) -> u64 {
        ((self.number() as u128 * bound as u128) >> 64) as u64
    }

    fn pick(&mut self, from: &[u64]) -> u64 {
        from[self.below(from.len() as u64) as usize]
    }

    pub fn edgy(&mut self) -> u64 {
        match self.below(12) {
            0 => 0,
            1 => 1,
            2 => u64::MAX,
            3 => self.below(16),
            4 => self.below(5000),
            5 => self.below(16).wrapping_neg(),
            6 => 1 << self.below(64),
            7 => (1u64 << self.below(64)).wrapping_sub(1),
            8 => self.number() as u32 as u64,
            _ => self.number(),
        }
    }

    /// An instruction: a load, a store, a write to stimecmp, or any word; sometimes with a bit turned.
    fn instruction(&mut self) -> u64 {
        let any = self.number();
        let f3 = self.below(8) << 12;
        let word = match self.below(8) {
            0..=2 => (any & 0xffff_8f80) | f3 | 0x03,
            3..=5 => (any & 0xffff_8f80) | f3 | 0x23,
            6 => (any & 0x000f_8f80) | f3 | 0x14d0_0073,
            _ => any & 0xffff_ffff,
        };
        match self.below(8) {
            0 => word ^ (1 << self.below(32)),
            _ => word,
        }
    }

    fn room(&mut self) -> u64 {
        match self.below(8) {
            0 => 0,
            1 => self.edgy(),
            2 => 4095 + self.below(3),
            _ => self.below(64),
        }
    }
}

/// Numbers that are no ask's.
const NO_ASKS: [u64; 3] = [0, 10, u64::MAX];

/// The results of an IPI: success, invalid parameter, failed.
pub const COMPLETIONS: [u64; 3] = [0, -3_i64 as u64, -1_i64 as u64];

const EIDS: [u64; 20] = [
    0, 1, 2, 3, 4, 5, 6, 7, 8, 0x5449_4D45, 0x73_5049, 0x48_534D, 0x48_5643, 0x5352_5354, 0x4442_434E, 0x4442_434E, 0x4442_434E,
    0x5246_4E43, 0x50_4D55, 0x10,
];

/// The ask that waits, by the kind of the waiting part; 0 where none does.
const ASKS: [u64; 13] = [0, 0, 1, 1, 2, 3, 4, 5, 6, 7, 7, 8, 9];

pub fn ask_that_waits(record: &Record) -> u64 {
    ASKS.get(record[54] as usize).copied().unwrap_or(0)
}

/// Sometimes writes words of the record, and gives the next call.
pub fn next_call(r: &mut Random, record: &mut Record) -> Call {
    match r.below(16) {
        0 => {
            let i = r.below(58);
            record[i as usize] = r.edgy();
        }
        1 => {
            record[54] = r.below(15);
            record[55] = if r.below(2) == 0 { r.below(40) } else { r.edgy() };
            record[56] = if r.below(2) == 0 { 1 << r.below(4) } else { r.edgy() };
            record[57] = r.below(3);
        }
        2 => {
            record[33] = r.number();
            record[34] = r.number();
            record[35] = r.number();
        }
        _ => {}
    }
    if record[54] == 6 && r.below(4) == 0 {
        return [13, length(r, record[55]), 0, 0, 0, 0];
    }
    let ask = ask_that_waits(record);
    if ask != 0 && r.below(8) != 0 {
        return answer(r, record, ask);
    }
    if record[54] == 1 && r.below(4) != 0 {
        return [12, r.edgy(), 0, 0, 0, 0];
    }
    match r.below(64) {
        0 => [1, 0, 0, 0, 0, 0],
        1 => [2, r.edgy(), 0, 0, 0, 0],
        2 => [3, r.below(34), 0, 0, 0, 0],
        3 => [3, r.edgy(), 0, 0, 0, 0],
        4 => [4, r.below(34), r.edgy(), 0, 0, 0],
        5 => [4, r.edgy(), r.edgy(), 0, 0, 0],
        6 => [5, r.edgy(), 0, 0, 0, 0],
        7 | 8 => {
            let levels = 2 + r.below(4);
            let mode = if r.below(4) == 0 { r.edgy() } else { levels + 5 };
            let root = r.edgy();
            let root = if r.below(4) == 0 { root } else { root << 14 };
            [6, levels, mode, root, 0, 0]
        }
        9 | 10 => {
            let code = r.below(12);
            let vector = if r.below(2) == 0 { code } else { code + (1 << 63) };
            [7, vector, r.below(3), 0, 0, 0]
        }
        11 => [7, r.edgy(), r.edgy(), 0, 0, 0],
        12 => [8, r.edgy(), 0, 0, 0, 0],
        13 => {
            let abi = r.below(3);
            let completion = match r.below(8) {
                0 => r.below(4),
                1 => r.edgy(),
                _ => r.pick(&COMPLETIONS),
            };
            [9, abi, completion, 0, 0, 0]
        }
        14 => {
            let number = if r.below(2) == 0 { r.below(12) } else { r.pick(&NO_ASKS) };
            [11, number, r.edgy(), r.edgy(), 0, 0]
        }
        15 => [12, r.edgy(), 0, 0, 0, 0],
        16 | 17 => [13, length(r, record[55]), 0, 0, 0, 0],
        18 => [14, r.edgy(), r.edgy(), 0, 0, 0],
        19 => row(r),
        _ => start(r, record),
    }
}

/// A row of posts. Three in four of its words hold allowed vectors alone, so that long rows are not all stopped early.
fn row(r: &mut Random) -> Call {
    let count = match r.below(4) {
        0 => r.below(3),
        1 => r.edgy(),
        _ => r.below(65),
    };
    let mut call = [15, count, 0, 0, 0, 0];
    for word in &mut call[2..] {
        *word = r.number();
        if r.below(4) != 0 {
            *word &= 0xbbbb_bbbb_bbbb_bbbb;
        }
    }
    call
}

/// The vectors that a row's posts choose from: the four that are allowed, and four that are not.
pub const VECTORS: [u64; 8] = [1 << 63 | 1, 1 << 63 | 5, 9, 1 << 63 | 9, 5, 1 << 63 | 2, 0, u64::MAX];

/// The posts that a call of kind 15 stands for, a vector and a level each: so many, 64 at most, four bits a post from the lowest on, and
/// sixteen in each of the four words behind the count.
pub fn row_of(call: &Call) -> Vec<[u64; 2]> {
    let post = |i: usize| call[2 + i / 16] >> (4 * (i % 16)) & 15;
    (0..call[1].min(64) as usize).map(|i| [VECTORS[post(i) as usize & 7], post(i) >> 3 << 63]).collect()
}

/// What a row gives, as a reply: the refusal in the returned number, how many were applied in the first word.
fn rowed(applied: u64, refusal: u64) -> Reply {
    Reply { code: if refusal == 0 { 0x40 } else { 0x100 + refusal }, out: [applied, 0, 0, 0, 0, 0, 0, 0] }
}

fn start(r: &mut Random, record: &mut Record) -> Call {
    let room = r.room();
    match r.below(16) {
        0..=7 => {
            let eid = r.pick(&EIDS);
            record[17] = if r.below(16) == 0 { r.edgy() } else { eid };
            record[16] = if r.below(8) == 0 { r.edgy() } else { r.below(8) };
            record[10] = if r.below(2) == 0 { r.below(64) } else { r.edgy() };
            record[11] = r.edgy();
            record[12] = if r.below(8) == 0 { r.edgy() } else { 0 };
            [10, 10, r.edgy(), r.edgy(), r.edgy(), room]
        }
        8 | 9 => {
            let word = r.instruction();
            let stval = match r.below(4) {
                0 => r.edgy(),
                1 => (r.number() << 32) | word,
                _ => (r.number() << 32) | (word & 0x000f_ff80) | 0x14d0_0073,
            };
            [10, 22, stval, r.edgy(), r.edgy(), room]
        }
        10..=13 => {
            let word = r.instruction();
            let htinst = match r.below(8) {
                0 | 1 => 0,
                2 => word & !2,
                3 => r.pick(&[0x3000, 0x3020, 0x2000, 0x1_0000_0000, 0x1_0000_3000]),
                4 => (r.number() << 32) | word,
                _ => word,
            };
            let scause = if word & 0x7f == 0x23 { 23 } else { 21 };
            let scause = if r.below(8) == 0 { 44 - scause } else { scause };
            [10, scause, r.edgy(), r.edgy(), htinst, room]
        }
        14 => {
            let code = r.below(28);
            let scause = if r.below(2) == 0 { code } else { code + (1 << 63) };
            [10, scause, r.edgy(), r.edgy(), r.edgy(), room]
        }
        _ => [10, r.edgy(), r.edgy(), r.edgy(), r.edgy(), room],
    }
}

/// The length of a buffer to print n bytes of: that has them, or just not.
fn length(r: &mut Random, n: u64) -> u64 {
    match r.below(6) {
        0 => 0,
        1 => r.below(64),
        2 => n.wrapping_sub(1),
        3 => n,
        4 => n.wrapping_add(1),
        _ => r.edgy(),
    }
}

/// An answer to the ask that waits, that fits its count more often than not; sometimes its number is no ask's.
fn answer(r: &mut Random, record: &Record, ask: u64) -> Call {
    let n = record[55];
    let number = if r.below(16) == 0 { r.pick(&NO_ASKS) } else { ask };
    let (a, b) = match ask {
        1 => {
            let fault = if r.below(2) == 0 { 0 } else { r.below(7) };
            let word = r.instruction();
            (if fault == 0 { word } else { r.edgy() }, fault)
        }
        2 => (if r.below(4) == 0 { r.edgy() } else { 8 }, r.number()),
        3 | 6 => (if r.below(4) == 0 { r.edgy() } else { n }, r.edgy()),
        5 => {
            let error = if r.below(4) == 0 { r.edgy() } else { 0 };
            let value = if r.below(4) == 0 { r.edgy() } else { r.below(n.min(5000) + 2) };
            (error, value)
        }
        _ => (r.edgy(), r.edgy()),
    };
    [11, number, a, b, 0, 0]
}

/// A sum that every word goes into.
pub fn sum_word(sum: u64, word: u64) -> u64 {
    let z = (sum.rotate_left(7) ^ word).wrapping_add(0x9E37_79B9_7F4A_7C15);
    z ^ (z >> 29)
}

/// The sum of what a call gave and of the record after it.
pub fn sum_given(sum: u64, record: &Record, reply: &Reply) -> u64 {
    reply.out.iter().chain(record).fold(sum, |sum, word| sum_word(sum, *word))
}

/// The same, with the returned number before it.
pub fn sum_call(sum: u64, record: &Record, reply: &Reply) -> u64 {
    sum_given(sum_word(sum, reply.code), record, reply)
}

// ---- the library

extern "C" {
    fn vcpu_new(record: *mut Record, hart_id: u64, dtb_addr: u64) -> u64;
    fn vcpu_setup(record: *mut Record) -> u64;
    fn vcpu_set_entry(record: *mut Record, entry: u64) -> u64;
    fn vcpu_get_gpr(record: *const Record, index: u64, out: *mut [u64; 8]) -> u64;
    fn vcpu_set_gpr(record: *mut Record, index: u64, value: u64) -> u64;
    fn vcpu_set_return_value(record: *mut Record, value: u64) -> u64;
    fn vcpu_set_nested_page_table(record: *mut Record, levels: u64, mode: u64, root: u64) -> u64;
    fn vcpu_set_pending(record: *mut Record, vector: u64, level: u64) -> u64;
    fn vcpu_latch_hvip(record: *mut Record, bits: u64) -> u64;
    fn vcpu_complete_ipi(record: *mut Record, abi: u64, completion: u64) -> u64;
    fn vcpu_start(record: *mut Record, trap: *const [u64; 5], out: *mut [u64; 8]) -> u64;
    fn vcpu_answer(record: *mut Record, answer: *const [u64; 3], out: *mut [u64; 8]) -> u64;
    fn vcpu_complete_load(record: *mut Record, number: u64) -> u64;
    fn vcpu_to_print(record: *const Record, length: u64) -> u64;
    fn vcpu_post_row(record: *mut Record, posts: *const [u64; 2], count: usize) -> PostedWords;
}

#[repr(C)]
struct PostedWords {
    applied: u64,
    refusal: u64,
}

/// Makes the call on the library. Where it takes an `out`, each of its words is `fill` before; where it takes none, 0.
pub fn by_library(record: &mut Record, call: &Call, fill: u64) -> Reply {
    let [kind, a, b, c, d, e] = *call;
    let mut out = [if matches!(kind, 3 | 10 | 11) { fill } else { 0 }; 8];
    let r: *mut Record = record;
    if kind == 15 {
        let posts = row_of(call);
        // SAFETY: as below
        let given = unsafe { vcpu_post_row(r, posts.as_ptr(), posts.len()) };
        return rowed(given.applied, given.refusal);
    }
    // SAFETY: the words are ours and do not overlap; every pattern is allowed.
    let code = unsafe {
        match kind {
            1 => vcpu_setup(r),
            2 => vcpu_set_entry(r, a),
            3 => vcpu_get_gpr(r, a, &mut out),
            4 => vcpu_set_gpr(r, a, b),
            5 => vcpu_set_return_value(r, a),
            6 => vcpu_set_nested_page_table(r, a, b, c),
            7 => vcpu_set_pending(r, a, b),
            8 => vcpu_latch_hvip(r, a),
            9 => vcpu_complete_ipi(r, a, b),
            10 => vcpu_start(r, &[a, b, c, d, e], &mut out),
            11 => vcpu_answer(r, &[a, b, c], &mut out),
            12 => vcpu_complete_load(r, a),
            13 => {
                out[0] = vcpu_to_print(r, a);
                0x41
            }
            14 => vcpu_new(r, a, b),
            _ => unreachable!(),
        }
    };
    Reply { code, out }
}

// ---- the safe interface

/// Makes the call on the safe interface, where its types can say it.
pub fn by_interface(vcpu: &mut api::Vcpu, call: &Call) -> Option<Reply> {
    let [kind, a, b, c, d, e] = *call;
    let mut out = [0; 8];
    let done = |result: Result<(), api::Refusal>| match result {
        Ok(()) => 0x40,
        Err(refusal) => 0x100 + refusal.number(),
    };
    let code = match kind {
        1 => done(vcpu.setup()),
        2 => done(vcpu.set_entry(api::GuestPhysAddr(a))),
        3 => match vcpu.get_gpr(a as usize) {
            Ok(value) => {
                out[0] = value;
                0x41
            }
            Err(refusal) => 0x100 + refusal.number(),
        },
        4 => done(vcpu.set_gpr(a as usize, b)),
        5 => done(vcpu.set_return_value(a)),
        6 => done(vcpu.set_nested_page_table(api::NestedPagingConfig {
            levels: a,
            mode: b,
            root_paddr: api::HostPhysAddr(c),
        })),
        7 => match (a, b) {
            (9, _) => done(vcpu.set_vseip_level(b != 0)),
            (_, 1) => done(vcpu.inject_interrupt(a)),
            _ => done(vcpu.set_virtual_interrupt_pending(a, b != 0)),
        },
        8 => done(vcpu.latch_hvip(a)),
        9 => {
            let abi = match a {
                0 => api::IpiAbi::Legacy,
                1 => api::IpiAbi::SbiV02,
                _ => return None,
            };
            let completion = match COMPLETIONS.iter().position(|number| *number == b)? {
                0 => api::IpiCompletion::Success,
                1 => api::IpiCompletion::InvalidParameter,
                _ => api::IpiCompletion::Failed,
            };
            let request = api::IpiRequest { hart_mask: 0, hart_mask_base: 0, abi };
            done(vcpu.complete_ipi(request, completion))
        }
        10 => {
            let trap = api::Trap { scause: a, stval: b, htval: c, htinst: d, room: e };
            step(vcpu.start(&trap), &mut out)
        }
        11 => {
            let answer = match a {
                1 => api::Answer::Fetched(match c {
                    0 => api::Fetch::Word(u32::try_from(b).ok()?),
                    1 => api::Fetch::Page(api::GuestVirtAddr(b)),
                    2 => api::Fetch::Access(api::GuestVirtAddr(b)),
                    3 => api::Fetch::Misaligned(api::GuestVirtAddr(b)),
                    4 => api::Fetch::GuestPage(api::GuestPhysAddr(b)),
                    5 => api::Fetch::Unhandled,
                    _ => return None,
                }),
                2 => api::Answer::MaskCopied { count: b, bytes: c },
                3 => api::Answer::CopiedIn { count: b },
                4 => api::Answer::Printed { error: b, value: c },
                5 => api::Answer::ConsoleRead { error: b, value: c },
                6 => api::Answer::CopiedOut { count: b },
                7 => api::Answer::Emitted,
                8 => api::Answer::Char { number: b },
                9 => api::Answer::Forwarded { error: b, value: c },
                _ => return None,
            };
            step(vcpu.answer(&answer), &mut out)
        }
        12 => done(vcpu.complete_load(a)),
        13 => {
            static BUFFER: [u8; 8192] = [7; 8192];
            let lent = BUFFER.get(..usize::try_from(a).ok()?)?;
            let part = vcpu.to_print(lent);
            // the part is the buffer's own
            assert!(part.is_empty() || part.as_ptr() == lent.as_ptr());
            out[0] = part.len() as u64;
            0x41
        }
        14 => {
            *vcpu = api::Vcpu::new(a, b);
            0x40
        }
        15 => {
            let posts: Vec<_> = row_of(call).into_iter().map(|[vector, level]| api::Post { vector, level }).collect();
            let api::Posted { applied, refusal } = vcpu.post(&posts);
            return Some(rowed(applied as u64, refusal.map_or(0, api::Refusal::number)));
        }
        _ => unreachable!(),
    };
    Some(Reply { code, out })
}

fn step(result: Result<api::Step, api::Error>, out: &mut [u64; 8]) -> u64 {
    use api::{Ask, Exit, Step};
    let mut carry = |words: &[u64]| out[..words.len()].copy_from_slice(words);
    let abi = |request: &api::IpiRequest| match request.abi {
        api::IpiAbi::Legacy => 0,
        api::IpiAbi::SbiV02 => 1,
    };
    match result {
        Err(api::Error::Refused(refusal)) => 0x100 + refusal.number(),
        Err(api::Error::Trap(error)) => 0x100 + error.number(),
        Ok(Step::Exit(exit)) => match exit {
            Exit::Nothing => 0,
            Exit::ExternalInterrupt { vector } => {
                carry(&[vector]);
                1
            }
            Exit::SendIpi(request) => {
                carry(&[request.hart_mask, request.hart_mask_base, abi(&request)]);
                2
            }
            Exit::CpuUp { target_cpu, entry_point, arg } => {
                carry(&[target_cpu, entry_point.0, arg]);
                3
            }
            Exit::CpuDown { state } => {
                carry(&[state]);
                4
            }
            Exit::Halt => 5,
            Exit::Hypercall { nr, args } => {
                carry(&[nr]);
                out[2..].copy_from_slice(&args);
                6
            }
            Exit::SystemDown => 7,
            Exit::NestedPageFault { addr, access_flags } => {
                carry(&[addr.0, access_flags.bits()]);
                8
            }
            Exit::MmioRead { addr, width } => {
                carry(&[addr.0, width.bytes()]);
                9
            }
            Exit::MmioWrite { addr, width, data } => {
                carry(&[addr.0, width.bytes(), data]);
                10
            }
        },
        Ok(Step::Ask(ask)) => {
            match ask {
                Ask::Fetch { at, supervisor } => carry(&[at.0, supervisor as u64]),
                Ask::CopyMask { at } => carry(&[at.0]),
                Ask::CopyIn { at, count } | Ask::CopyOut { at, count } => carry(&[at.0, count]),
                Ask::Print { count } | Ask::ReadConsole { count } => carry(&[count]),
                Ask::Emit { number } => carry(&[number]),
                Ask::GetChar => {}
                Ask::Forward { eid, fid, args } => {
                    carry(&[eid, fid]);
                    out[2..].copy_from_slice(&args);
                }
            }
            0x20 + ask.number()
        }
    }
}

// ---- the plain Rust program of documents 01 and 02

/// Makes the call on from01. The reply in the words of the library: a hypercall's array stands from word 2 of `out` on.
pub fn by_from01(record: &mut Record, call: &Call) -> Reply {
    let [kind, numbers @ ..] = *call;
    if kind == 15 {
        let given = from01::post(record, &row_of(call));
        return rowed(given.applied, given.refusal);
    }
    let reply = from01::call(record, kind, numbers);
    let mut out = reply.values;
    if (reply.kind, reply.number) == (0, 6) {
        out[2..].copy_from_slice(&reply.args);
    }
    // an exit, an ask, done, a value, an error
    Reply { code: [0, 0x20, 0x40, 0x41, 0x100][reply.kind as usize] + reply.number, out }
}
