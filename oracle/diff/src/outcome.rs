//! What one trap or call came to, in numbers that every side can give.

use model::{Exit, IpiAbi, Posted, Reply, Vcpu};
use scripted::Request;

/// The exit's number, 0x100 and an error's number, or one of the others below.
#[derive(Clone, Copy, PartialEq, Eq)]
pub struct Ending {
    pub kind: u64,
    pub data: [u64; 7],
}

/// A call's ending without a number.
pub const DONE: u64 = 0x200;
/// A call's ending with a number.
pub const VALUE: u64 = 0x201;
/// The ending of a row of posts.
pub const POSTED: u64 = 0x202;
/// The published Rust panicked.
pub const PANIC: u64 = 0x300;
/// The published Rust was not run: it would ask for too much memory.
pub const NOT_RUN: u64 = 0x301;
/// An ask, where an ending was due.
pub const ASK: u64 = 0x302;

/// The exits by their numbers.
pub const EXITS: [&str; 11] = [
    "Nothing",
    "ExternalInterrupt",
    "SendIpi",
    "CpuUp",
    "CpuDown",
    "Halt",
    "Hypercall",
    "SystemDown",
    "NestedPageFault",
    "MmioRead",
    "MmioWrite",
];

pub const NESTED_PAGE_FAULT: u64 = 8;
pub const MMIO_READ: u64 = 9;
pub const MMIO_WRITE: u64 = 10;

impl Ending {
    pub const NOTHING: Ending = Ending { kind: 0, data: [0; 7] };

    pub fn new(kind: u64, data: &[u64]) -> Ending {
        let mut all = [0; 7];
        all[..data.len()].copy_from_slice(data);
        Ending { kind, data: all }
    }

    pub fn error(number: u64) -> Ending {
        Ending::new(0x100 + number, &[])
    }

    pub fn of(reply: &Reply) -> Ending {
        match *reply {
            Reply::Exit(exit) => Ending::of_exit(&exit),
            Reply::Error(error) => Ending::error(error.number()),
            Reply::Done => Ending::new(DONE, &[]),
            Reply::Value(number) => Ending::new(VALUE, &[number]),
            Reply::Ask(ask) => Ending::new(ASK, &[ask.number()]),
        }
    }

    pub fn of_row(posted: &Posted) -> Ending {
        let stopped = posted.refusal.map(|error| Ending::error(error.number()));
        Ending::row(posted.applied, stopped)
    }

    /// The ending of a row that applied so many posts, the next of which ended
    /// otherwise than done.
    pub fn row(applied: u64, stopped: Option<Ending>) -> Ending {
        // No call ends with kind 0, an exit's.
        Ending::new(POSTED, &[applied, stopped.map_or(0, |ending| ending.kind)])
    }

    fn of_exit(exit: &Exit) -> Ending {
        let kind = exit.number();
        match *exit {
            Exit::Nothing | Exit::Halt | Exit::SystemDown => Ending::new(kind, &[]),
            Exit::ExternalInterrupt { vector } => Ending::new(kind, &[vector]),
            Exit::SendIpi { mask, base, abi } => {
                Ending::new(kind, &[mask, base, (abi == IpiAbi::SbiV02) as u64])
            }
            Exit::CpuUp { target, entry, arg } => Ending::new(kind, &[target, entry.0, arg]),
            Exit::CpuDown { state } => Ending::new(kind, &[state]),
            Exit::Hypercall { number, args: [a, b, c, d, e, f] } => {
                Ending::new(kind, &[number, a, b, c, d, e, f])
            }
            Exit::NestedPageFault { addr, access } => Ending::new(kind, &[addr.0, access.bits()]),
            Exit::MmioRead { addr, width } => Ending::new(kind, &[addr.0, width.bytes()]),
            Exit::MmioWrite { addr, width, data } => {
                Ending::new(kind, &[addr.0, width.bytes(), data])
            }
        }
    }
}

impl std::fmt::Debug for Ending {
    fn fmt(&self, f: &mut std::fmt::Formatter) -> std::fmt::Result {
        match self.kind {
            DONE => write!(f, "done"),
            VALUE => write!(f, "value {:#x}", self.data[0]),
            POSTED => match self.data {
                [applied, 0, ..] => write!(f, "{applied} posts applied"),
                [applied, kind, ..] => {
                    write!(f, "{applied} posts applied, then {:?}", Ending::new(kind, &[]))
                }
            },
            PANIC => write!(f, "panic"),
            NOT_RUN => write!(f, "not run: allocates too much"),
            ASK => write!(f, "ask {}", self.data[0]),
            0..=10 => write!(f, "{} {:x?}", EXITS[self.kind as usize], self.data),
            kind => write!(f, "error {}", kind - 0x100),
        }
    }
}

/// An ending, the requests before it, and the whole later record.
#[derive(Clone, Debug, PartialEq, Eq)]
pub struct Outcome {
    pub ending: Ending,
    pub requests: Vec<Request>,
    pub record: Vcpu,
    /// Loads and stores that the Rust's PMU counts and 01 doesn't.
    pub accesses: [u64; 2],
    /// The word that the Rust's decoder refused.
    pub undecoded: Option<u32>,
    /// Names of CSRs outside 01's record that changed, of live CSRs that
    /// disagree with the saved ones, and of differences that do not show.
    pub strays: Vec<&'static str>,
}

impl Outcome {
    /// An outcome with nothing beside its ending and record.
    pub fn new(ending: Ending, record: Vcpu) -> Outcome {
        Outcome {
            ending,
            requests: Vec::new(),
            record,
            accesses: [0; 2],
            undecoded: None,
            strays: Vec::new(),
        }
    }

    /// The differing parts of two outcomes, one on each line.
    pub fn differences(&self, other: &Outcome, names: (&str, &str)) -> String {
        let mut text = String::new();
        let mut line = |what: &str, a: String, b: String| {
            if a != b {
                text += &format!("  {what}: {} {a}; {} {b}\n", names.0, names.1);
            }
        };
        let both = |f: &dyn Fn(&Outcome) -> String| (f(self), f(other));
        let (a, b) = both(&|o| format!("{:?}", o.ending));
        line("ending", a, b);
        let (a, b) = both(&|o| format!("{:x?}", o.requests));
        line("requests", a, b);
        let (a, b) = both(&|o| format!("{:?}", o.accesses));
        line("counted accesses", a, b);
        let (a, b) = both(&|o| format!("{:x?}", o.undecoded));
        line("refused by the decoder", a, b);
        let (a, b) = both(&|o| format!("{:?}", o.strays));
        line("outside the record, or not shown", a, b);
        let fields = |o: &Outcome| {
            let r = &o.record;
            let mut all: Vec<(String, String)> = Vec::new();
            for (i, x) in r.x.iter().enumerate() {
                all.push((format!("x{i}"), format!("{x:#x}")));
            }
            for (i, c) in r.counts.iter().enumerate() {
                all.push((format!("count {}", i + 1), format!("{c:#x}")));
            }
            for (name, number) in [
                ("sepc", r.sepc),
                ("sstatus", r.sstatus),
                ("hstatus", r.hstatus),
                ("vsstatus", r.vsstatus),
                ("vstvec", r.vstvec),
                ("vsepc", r.vsepc),
                ("vscause", r.vscause),
                ("vstval", r.vstval),
                ("vstimecmp", r.vstimecmp),
                ("hie", r.hie),
                ("hvip", r.hvip),
                ("hgeie", r.hgeie),
                ("hgatp", r.hgatp),
            ] {
                all.push((name.into(), format!("{number:#x}")));
            }
            all.push(("waiting".into(), format!("{:x?}", r.waiting)));
            all
        };
        for ((name, a), (_, b)) in fields(self).into_iter().zip(fields(other)) {
            line(&name, a, b);
        }
        text
    }
}
