//! The scripted host. One trap asks each kind of thing at most once, so a
//! script has one answer for each kind.

use std::cell::RefCell;

/// A fetch's scripted answer.
#[derive(Clone, Copy, Debug, PartialEq, Eq)]
pub enum Fetched {
    Word(u32),
    Page(u64),
    Access(u64),
    Misaligned(u64),
    GuestPage(u64),
    Unhandled,
}

/// The answers to a trap's requests.
#[derive(Clone, Copy, Debug, PartialEq, Eq)]
pub struct Script {
    pub fetch: Fetched,
    pub mask: (u64, u64),
    pub copy_in: u64,
    pub print: (u64, u64),
    pub read: (u64, u64),
    pub copy_out: u64,
    pub character: u64,
    pub forward: (u64, u64),
    /// Names the bytes that the host puts into a console buffer.
    pub fill: u64,
}

impl Script {
    pub const ZERO: Script = Script {
        fetch: Fetched::Unhandled,
        mask: (0, 0),
        copy_in: 0,
        print: (0, 0),
        read: (0, 0),
        copy_out: 0,
        character: 0,
        forward: (0, 0),
        fill: 0,
    };
}

/// A request with its data, as the host sees it.
#[derive(Clone, Copy, Debug, PartialEq, Eq)]
pub enum Request {
    Fetch { at: u64, supervisor: bool },
    /// `supervisor` is the flag that the published text passes with the copy.
    Mask { at: u64, n: u64, supervisor: bool },
    CopyIn { n: u64, at: u64 },
    Print { n: u64, digest: u64 },
    Read { n: u64 },
    CopyOut { n: u64, at: u64, digest: u64 },
    Emit { number: u64 },
    GetChar,
    Forward { eid: u64, fid: u64, args: [u64; 6] },
    /// A request that document 01 has no ask for.
    Unknown { what: &'static str, number: u64 },
}

struct Host {
    script: Script,
    requests: Vec<Request>,
    counts: [u64; 9],
    /// Decoded loads and stores: 01 has no count for them.
    accesses: [u64; 2],
    undecoded: Option<u32>,
}

thread_local! {
    static HOST: RefCell<Host> = const {
        RefCell::new(Host {
            script: Script::ZERO,
            requests: Vec::new(),
            counts: [0; 9],
            accesses: [0; 2],
            undecoded: None,
        })
    };
}

/// Sets the script and the counts, and empties the list of requests.
pub fn begin(script: &Script, counts: [u64; 9]) {
    HOST.with(|host| {
        let mut host = host.borrow_mut();
        host.script = *script;
        host.requests.clear();
        host.counts = counts;
        host.accesses = [0; 2];
        host.undecoded = None;
    })
}

/// Notes a request and gives the script, for the stand-in to take its answer.
pub fn ask(request: Request) -> Script {
    HOST.with(|host| {
        let mut host = host.borrow_mut();
        host.requests.push(request);
        host.script
    })
}

/// Counts event `number`, 1 to 9.
pub fn count(number: usize) {
    HOST.with(|host| {
        let counts = &mut host.borrow_mut().counts;
        counts[number - 1] = counts[number - 1].wrapping_add(1);
    })
}

/// Counts a decoded load (0) or store (1).
pub fn count_access(which: usize) {
    HOST.with(|host| host.borrow_mut().accesses[which] += 1)
}

/// Notes the word that the decoder refused.
pub fn note_undecoded(word: u32) {
    HOST.with(|host| host.borrow_mut().undecoded = Some(word))
}

/// What came about since `begin`.
pub struct Noted {
    pub requests: Vec<Request>,
    pub counts: [u64; 9],
    pub accesses: [u64; 2],
    pub undecoded: Option<u32>,
}

pub fn end() -> Noted {
    HOST.with(|host| {
        let mut host = host.borrow_mut();
        Noted {
            requests: std::mem::take(&mut host.requests),
            counts: host.counts,
            accesses: host.accesses,
            undecoded: host.undecoded,
        }
    })
}
