//! A fixed list of the Rust's answers: for each class a capture that 01's
//! replay program reads, with the output that the published Rust gives,
//! adjusted by the switches. Whoever has a replay program can be held against
//! them with no Rust at hand.

use std::fs;
use std::io;
use std::path::Path;

use model::{Call, Trap, Vcpu, Waiting, A0};
use scripted::{Fetched, Request, Script};

use crate::compare::run_both;
use crate::generate::{self, CLASSES};
use crate::input::Input;
use crate::outcome::Outcome;
use crate::random::Random;
use crate::rust_side::RustSide;
use crate::subject::Subject;
use crate::switches::Board;
use crate::tally::Tally;

/// Traps of its class in a capture.
const TRAPS: usize = 40;
/// LD with rd 0; the room for rd is bits 11..7.
const LD: u64 = 0x3003;

/// What the list reaches.
pub struct Reached {
    pub tally: Tally,
    /// Loads between the traps, each to set a register.
    pub loads: u64,
    /// Fetch answers: a word, and the five faults in order.
    pub fetches: [u64; 6],
}

/// Writes the list; what it reaches, or the class that parted.
pub fn write(
    folder: &Path,
    r: &mut Random,
    board: &mut Board,
    rust: &mut RustSide,
    subject: &mut dyn Subject,
) -> io::Result<Reached> {
    fs::create_dir_all(folder)?;
    let mut reached = Reached { tally: Tally::new(), loads: 0, fetches: [0; 6] };
    for (class, name) in CLASSES.iter().enumerate() {
        let mut pen = Pen { r, board, rust, subject, reached: &mut reached, texts: Default::default() };
        if pen.one(class).is_none() {
            return Err(io::Error::other(format!("a mismatch in class {name}")));
        }
        let (capture, output) = pen.texts;
        fs::write(folder.join(format!("{name}.capture")), capture)?;
        fs::write(folder.join(format!("{name}.replay")), output)?;
    }
    Ok(reached)
}

/// Writes one capture.
struct Pen<'a> {
    r: &'a mut Random,
    board: &'a mut Board,
    rust: &'a mut RustSide,
    subject: &'a mut dyn Subject,
    reached: &'a mut Reached,
    /// The capture and its output.
    texts: (String, String),
}

impl Pen<'_> {
    /// A capture of traps of one class; none where the two sides part.
    fn one(&mut self, class: usize) -> Option<()> {
        let mut start = generate::record(self.r);
        start.x[0] = 0;
        let mut record = Vcpu::zero();
        record.setup();
        let input = generate::input(self.r, class, start);
        record.x = input.record.x;
        record.sepc = input.record.sepc;
        record.vstimecmp = input.record.vstimecmp;
        self.texts.0 = header(&record);
        record = self.of_class(class, input, record)?;
        for _ in 1..TRAPS {
            let mut other = record.clone();
            for x in &mut other.x[A0..A0 + 3] {
                if self.r.once_in(4) {
                    *x = self.r.edgy();
                }
            }
            let input = generate::input(self.r, class, other);
            // The guest's own instructions are not in a capture: a load sets
            // each register that is to change before an ecall.
            for index in 1..32 {
                if input.trap.scause == 10 && input.record.x[index] != record.x[index] {
                    record = self.set(index, input.record.x[index], record)?;
                }
            }
            record = self.of_class(class, input, record)?;
        }
        Some(())
    }

    /// A trap of the class on the record; the later one.
    fn of_class(&mut self, class: usize, mut input: Input, record: Vcpu) -> Option<Vcpu> {
        let n = record.x[A0].min(4096);
        input.script = generate::script(self.r, n, input.script.fetch);
        let completion = self.r.edgy();
        let (outcome, record) = self.trap(input, record, completion)?;
        self.reached.tally.trap(class, &outcome);
        Some(record)
    }

    /// A load that sets a register; the later record.
    fn set(&mut self, index: usize, number: u64, record: Vcpu) -> Option<Vcpu> {
        let trap = Trap {
            scause: 21,
            stval: self.r.edgy(),
            htval: self.r.edgy(),
            htinst: LD | (index as u64) << 7,
            room: 4096,
        };
        let script = Script::ZERO;
        let input = Input { record: record.clone(), trap, script, bound: false, stale: None };
        let (_, record) = self.trap(input, record, number)?;
        self.reached.loads += 1;
        Some(record)
    }

    /// One trap on both sides, its answers and its load's completion.
    fn trap(&mut self, mut input: Input, record: Vcpu, number: u64) -> Option<(Outcome, Vcpu)> {
        input.record = record;
        input.trap.room = 4096;
        input.stale = None;
        let pair = run_both(self.board, self.rust, self.subject, &input, false);
        if !pair.agree() {
            return None;
        }
        let (capture, output) = &mut self.texts;
        line(capture, "scause", input.trap.scause);
        line(capture, "stval", input.trap.stval);
        line(capture, "htval", input.trap.htval);
        line(capture, "htinst", input.trap.htinst);
        answers(self.r, capture, &pair.subject, &input.script, &mut self.reached.fetches);
        let mut after = pair.rust;
        self.rust.load(&after.record, input.bound, None);
        if let Waiting::Load { .. } = after.record.waiting {
            two(capture, number, self.r.edgy());
            after.record = self.rust.call(&Call::CompleteLoad { number })?.record;
            self.reached.tally.completions += 1;
        }
        line(output, "exit", after.ending.kind);
        line(output, "sepc", after.record.sepc);
        line(output, "a0", after.record.x[10]);
        line(output, "a1", after.record.x[11]);
        Some((pair.subject, after.record))
    }
}

fn line(text: &mut String, key: &str, number: u64) {
    *text += &format!("{key}={number:016x}\n");
}

fn two(text: &mut String, word: u64, more: u64) {
    line(text, "word", word);
    line(text, "more", more);
}

fn header(record: &Vcpu) -> String {
    let mut text = String::new();
    line(&mut text, "sepc", record.sepc);
    line(&mut text, "vstimecmp", record.vstimecmp);
    for (index, number) in record.x.iter().enumerate().skip(1) {
        line(&mut text, &format!("x{index:02}"), *number);
    }
    text
}

/// Two lines for each request; numbers that no one reads are random.
fn answers(
    r: &mut Random,
    text: &mut String,
    outcome: &Outcome,
    script: &Script,
    fetches: &mut [u64; 6],
) {
    for request in &outcome.requests {
        let (word, more) = match request {
            Request::Fetch { .. } => {
                let (word, more) = match script.fetch {
                    Fetched::Word(word) => (r.number() << 32 | word as u64, 0),
                    Fetched::Page(at) => (at, 1),
                    Fetched::Access(at) => (at, 2),
                    Fetched::Misaligned(at) => (at, 3),
                    Fetched::GuestPage(at) => (at, 4),
                    Fetched::Unhandled => (r.edgy(), 5),
                };
                fetches[more as usize] += 1;
                (word, more)
            }
            Request::Mask { .. } => script.mask,
            Request::CopyIn { .. } => (script.copy_in, r.edgy()),
            Request::Print { .. } => script.print,
            Request::Read { .. } => script.read,
            Request::CopyOut { .. } => (script.copy_out, r.edgy()),
            Request::Emit { .. } | Request::Unknown { .. } => (r.edgy(), r.edgy()),
            Request::GetChar => (script.character, r.edgy()),
            Request::Forward { .. } => script.forward,
        };
        two(text, word, more);
    }
}
