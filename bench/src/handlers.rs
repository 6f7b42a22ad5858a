//! Every handler behind one trait. Each program here has its own copy, compiled with its own SEE, so that what is timed has no code
//! for looking at replies. `set` and `trap` are always inlined: a trap that passes through memory between two functions of the driver
//! is stored in words and loaded in pairs, and that costs more than some handlers.

use crate::record::{from_words, to_words, ReplyWords};
use crate::traps::{Record, Work};
use crate::SEE;
use plain::{enums, words, Forms};
use std::hint::black_box;
use std::marker::PhantomData;
use std::mem::MaybeUninit;

#[repr(C)]
struct CallWords {
    kind: u64,
    numbers: [u64; 5],
}

extern "C" {
    fn vcpu_start(record: *mut Record, trap: *const [u64; 5], out: *mut [u64; 8]) -> u64;
    fn vcpu_answer(record: *mut Record, answer: *const [u64; 3], out: *mut [u64; 8]) -> u64;
    fn vcpu_complete_load(record: *mut Record, number: u64) -> u64;
    fn vcpu_call_at(reply: *mut ReplyWords, record: *mut Record, call: *const CallWords) -> *mut ReplyWords;
}

pub trait Handler {
    fn new(record: &Record) -> Self;
    fn set(&mut self, work: &Work);
    /// One trap to its end, and a number from all that came of it, so that no handler is spared what a host would look at. Where SEE, `seen` gets each reply as the library's words.
    fn trap(&mut self, work: &Work, seen: &mut Vec<Reply>) -> u64;
    /// The record as the library's words.
    fn record(&self) -> Record;
}

/// A call's reply: the number that the library returns for it, and the words that it carries.
pub type Reply = (u64, [u64; 8]);

/// The words that a reply carries, with zeros for those that it leaves as they were. The traps of the bench get no other replies.
#[inline]
fn reply(code: u64, out: &[u64; 8]) -> Reply {
    let carried = match code {
        0 | 0x40 => 0,
        0x27 => 1,
        9 | 0x21 => 2,
        10 => 3,
        _ => 8,
    };
    (code, std::array::from_fn(|i| if i < carried { out[i] } else { 0 }))
}

/// The same of a `Step`, whose names are the same in the host's interface and in plain Rust.
macro_rules! reply_of_step {
    ($step:expr, $physical:expr, $virtual:expr) => {{
        let mut out = [0; 8];
        let code = match $step {
            Step::Exit(Exit::Nothing) => 0,
            Step::Exit(Exit::MmioRead { addr, width }) => {
                (out[0], out[1]) = ($physical(addr), width.bytes());
                9
            }
            Step::Exit(Exit::MmioWrite { addr, width, data }) => {
                (out[0], out[1], out[2]) = ($physical(addr), width.bytes(), data);
                10
            }
            Step::Ask(Ask::Fetch { at, supervisor }) => {
                (out[0], out[1]) = ($virtual(at), supervisor as u64);
                0x21
            }
            Step::Ask(Ask::Emit { number }) => {
                out[0] = number;
                0x27
            }
            Step::Ask(Ask::Forward { eid, fid, args }) => {
                (out[0], out[1]) = (eid, fid);
                out[2..].copy_from_slice(&args);
                0x29
            }
            _ => 0x1ff,
        };
        reply(code, &out)
    }};
}

/// The words of a record, with nothing in those of what waits where nothing does.
fn meant(mut r: Record) -> Record {
    if r[54] == 0 {
        r[55..].fill(0);
    }
    r
}

/// No handler: what the traps cost to make.
pub struct Nothing(Record);

impl Handler for Nothing {
    fn new(record: &Record) -> Self {
        Nothing(*record)
    }
    #[inline(always)]
    fn set(&mut self, work: &Work) {
        set_words(&mut self.0, work);
    }
    #[inline(always)]
    fn trap(&mut self, work: &Work, _: &mut Vec<Reply>) -> u64 {
        black_box(&mut self.0);
        black_box(&work.trap);
        work.given[0] ^ work.given[1]
    }
    fn record(&self) -> Record {
        self.0
    }
}

/// The registers that a trap reads, in a record of words.
#[inline]
fn set_words(r: &mut Record, work: &Work) {
    (r[10], r[16], r[17]) = (work.a0, work.a6, work.a7);
}

/// The entry that hosts are told to call.
pub struct InPlace(Record);

impl Handler for InPlace {
    fn new(record: &Record) -> Self {
        InPlace(*record)
    }
    #[inline(always)]
    fn set(&mut self, work: &Work) {
        set_words(&mut self.0, work);
    }
    #[inline(always)]
    fn trap(&mut self, work: &Work, seen: &mut Vec<Reply>) -> u64 {
        let mut out = MaybeUninit::<[u64; 8]>::uninit();
        let mut answer = [0, work.given[0], work.given[1]];
        // SAFETY: our own words, which do not overlap; the call sets all eight of `out`.
        let mut code = unsafe { vcpu_start(&mut self.0, &work.trap, out.as_mut_ptr()) };
        let out = unsafe { out.assume_init_mut() };
        if SEE {
            seen.push(reply(code, out));
        }
        let mut asked = 0;
        while code > 0x20 && code < 0x40 {
            asked ^= out[0] ^ out[1] ^ out[2];
            answer[0] = code - 0x20;
            code = unsafe { vcpu_answer(&mut self.0, &answer, out) };
            if SEE {
                seen.push(reply(code, out));
            }
        }
        if code == 9 {
            let code = unsafe { vcpu_complete_load(&mut self.0, work.device) };
            if SEE {
                seen.push(reply(code, &[0; 8]));
            }
        }
        asked ^ code ^ out[0] ^ out[1] ^ out[2]
    }
    fn record(&self) -> Record {
        meant(self.0)
    }
}

/// The same through the host's Rust interface.
pub struct Interface(curbizzolu::Vcpu);

impl Handler for Interface {
    fn new(record: &Record) -> Self {
        Interface(curbizzolu::Vcpu::from_words(*record))
    }
    #[inline(always)]
    fn set(&mut self, work: &Work) {
        (self.0.x[10], self.0.x[16], self.0.x[17]) = (work.a0, work.a6, work.a7);
    }
    #[inline(always)]
    fn trap(&mut self, work: &Work, seen: &mut Vec<Reply>) -> u64 {
        use curbizzolu::{Answer, Ask, Exit, Fetch, GuestVirtAddr, Step, Trap};
        let [error, value] = work.given;
        let [scause, stval, htval, htinst, room] = work.trap;
        let mut step = self.0.start(&Trap { scause, stval, htval, htinst, room });
        let words = |step: &Result<Step, curbizzolu::Error>| match step {
            Ok(step) => reply_of_step!(*step, |addr: curbizzolu::GuestPhysAddr| addr.0, |at: GuestVirtAddr| at.0),
            Err(_) => reply(0x1ff, &[0; 8]),
        };
        if SEE {
            seen.push(words(&step));
        }
        let mut asked = 0;
        while let Ok(Step::Ask(ask)) = step {
            let answer = match ask {
                Ask::Forward { eid, fid, args } => {
                    asked ^= eid ^ fid ^ args[0];
                    Answer::Forwarded { error, value }
                }
                Ask::Emit { number } => {
                    asked ^= number;
                    Answer::Emitted
                }
                Ask::Fetch { at, supervisor } => {
                    asked ^= at.0 ^ supervisor as u64;
                    Answer::Fetched(if value == 0 { Fetch::Word(error as u32) } else { Fetch::Page(GuestVirtAddr(error)) })
                }
                _ => Answer::Emitted,
            };
            step = self.0.answer(&answer);
            if SEE {
                seen.push(words(&step));
            }
        }
        match step {
            Ok(Step::Exit(Exit::MmioRead { addr, width })) => {
                let done = self.0.complete_load(work.device);
                if SEE {
                    seen.push(reply(done.map_or_else(|refusal| 0x100 + refusal.number(), |()| 0x40), &[0; 8]));
                }
                asked ^ 9 ^ addr.0 ^ width.bytes()
            }
            Ok(Step::Exit(Exit::MmioWrite { addr, width, data })) => asked ^ 10 ^ addr.0 ^ width.bytes() ^ data,
            Ok(Step::Exit(Exit::Nothing)) => asked,
            _ => 1,
        }
    }
    fn record(&self) -> Record {
        meant(self.0.to_words())
    }
}

/// Document 01's thin entry, which calls the step by value.
pub struct Thin(Record);

impl Thin {
    #[inline(always)]
    fn call(&mut self, kind: u64, numbers: [u64; 5]) -> ReplyWords {
        let mut reply = std::mem::MaybeUninit::uninit();
        // SAFETY: the library writes the whole reply.
        unsafe {
            vcpu_call_at(reply.as_mut_ptr(), &mut self.0, &CallWords { kind, numbers });
            reply.assume_init()
        }
    }
}

impl Handler for Thin {
    fn new(record: &Record) -> Self {
        Thin(*record)
    }
    #[inline(always)]
    fn set(&mut self, work: &Work) {
        set_words(&mut self.0, work);
    }
    #[inline(always)]
    fn trap(&mut self, work: &Work, seen: &mut Vec<Reply>) -> u64 {
        // an exit, an ask, done, a value, an error
        let words = |r: &ReplyWords| reply([0, 0x20, 0x40, 0x41, 0x100][(r.kind % 5) as usize] + r.number, &r.values);
        let mut given = self.call(10, work.trap);
        if SEE {
            seen.push(words(&given));
        }
        let mut asked = 0;
        while given.kind == 1 {
            asked ^= given.values[0] ^ given.values[1] ^ given.values[2];
            given = self.call(11, [given.number, work.given[0], work.given[1], 0, 0]);
            if SEE {
                seen.push(words(&given));
            }
        }
        if given.kind == 0 && given.number == 9 {
            let done = self.call(12, [work.device, 0, 0, 0, 0]);
            if SEE {
                seen.push(words(&done));
            }
        }
        asked ^ given.number ^ given.values[0] ^ given.values[1] ^ given.values[2] ^ given.args[0]
    }
    fn record(&self) -> Record {
        meant(self.0)
    }
}

/// Plain Rust behind the same boundary.
pub struct PlainWords<F>(plain::Vcpu, PhantomData<F>);

impl<F: Forms> Handler for PlainWords<F> {
    fn new(record: &Record) -> Self {
        PlainWords(from_words(record), PhantomData)
    }
    #[inline(always)]
    fn set(&mut self, work: &Work) {
        (self.0.x[10], self.0.x[16], self.0.x[17]) = (work.a0, work.a6, work.a7);
    }
    #[inline(always)]
    fn trap(&mut self, work: &Work, seen: &mut Vec<Reply>) -> u64 {
        let mut out = [0; 8];
        let mut answer = [0, work.given[0], work.given[1]];
        let mut code = words::start::<F>(&mut self.0, &work.trap, &mut out);
        if SEE {
            seen.push(reply(code, &out));
        }
        let mut asked = 0;
        while code > 0x20 && code < 0x40 {
            asked ^= out[0] ^ out[1] ^ out[2];
            answer[0] = code - 0x20;
            code = words::answer::<F>(&mut self.0, &answer, &mut out);
            if SEE {
                seen.push(reply(code, &out));
            }
        }
        if code == 9 {
            let code = words::complete_load::<F>(&mut self.0, work.device);
            if SEE {
                seen.push(reply(code, &[0; 8]));
            }
        }
        asked ^ code ^ out[0] ^ out[1] ^ out[2]
    }
    fn record(&self) -> Record {
        to_words(&self.0)
    }
}

/// Plain Rust that returns its enum.
pub struct PlainEnums<F>(plain::Vcpu, PhantomData<F>);

impl<F: Forms> Handler for PlainEnums<F> {
    fn new(record: &Record) -> Self {
        PlainEnums(from_words(record), PhantomData)
    }
    #[inline(always)]
    fn set(&mut self, work: &Work) {
        (self.0.x[10], self.0.x[16], self.0.x[17]) = (work.a0, work.a6, work.a7);
    }
    #[inline(always)]
    fn trap(&mut self, work: &Work, seen: &mut Vec<Reply>) -> u64 {
        use plain::{Answer, Ask, Exit, Fetch, Step, Trap};
        // made before the first call, as the words of the others are: an answer that is read right after it was stored in parts is late
        let [error, value] = work.given;
        let (forwarded, fetched) = (Answer::Forwarded { error, value }, Answer::Fetched(Fetch::Word(error as u32)));
        let [scause, stval, htval, htinst, room] = work.trap;
        let mut step = enums::start::<F>(&mut self.0, &Trap { scause, stval, htval, htinst, room });
        let words = |step: &Step| reply_of_step!(*step, |addr: u64| addr, |at: u64| at);
        if SEE {
            seen.push(words(&step));
        }
        let mut asked = 0;
        while let Step::Ask(ask) = step {
            let faulted;
            let answer = match ask {
                Ask::Forward { eid, fid, args } => {
                    asked ^= eid ^ fid ^ args[0];
                    &forwarded
                }
                Ask::Emit { number } => {
                    asked ^= number;
                    &Answer::Emitted
                }
                Ask::Fetch { at, supervisor } => {
                    asked ^= at ^ supervisor as u64;
                    if value == 0 {
                        &fetched
                    } else {
                        faulted = Answer::Fetched(Fetch::Page(error));
                        &faulted
                    }
                }
                _ => &Answer::Emitted,
            };
            step = enums::answer::<F>(&mut self.0, answer);
            if SEE {
                seen.push(words(&step));
            }
        }
        match step {
            Step::Exit(Exit::MmioRead { addr, width }) => {
                let done = enums::complete_load::<F>(&mut self.0, work.device);
                if SEE {
                    seen.push(reply(if done { 0x40 } else { 0x102 }, &[0; 8]));
                }
                asked ^ 9 ^ addr ^ width.bytes()
            }
            Step::Exit(Exit::MmioWrite { addr, width, data }) => asked ^ 10 ^ addr ^ width.bytes() ^ data,
            Step::Exit(Exit::Nothing) => asked,
            _ => 1,
        }
    }
    fn record(&self) -> Record {
        to_words(&self.0)
    }
}

pub const NAMES: [&str; 8] =
    ["generator", "straight-enums", "straight-words", "first-enums", "first-words", "in-place", "interface", "thin"];
