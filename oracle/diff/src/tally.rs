//! What was reached, and how often.

use scripted::Request;

use crate::generate::CLASSES;
use crate::input::Input;
use crate::outcome::{Outcome, EXITS};
use crate::switches::{Board, SWITCHES};
use crate::words::injects;

const ASKS: [&str; 9] = [
    "1 fetch",
    "2 copy mask",
    "3 copy in",
    "4 print",
    "5 console read",
    "6 copy out",
    "7 emit",
    "8 get character",
    "9 forward",
];

/// The causes under which a word may be fetched.
const FETCHING: [u64; 3] = [21, 22, 23];

/// Which code ran, by hstatus bit 8, and sstatus bit 8, in the order of both
/// as a number.
const RAN: [&str; 4] =
    ["user, SPP clear", "user, SPP set", "supervisor, SPP clear", "supervisor, SPP set"];

pub struct Tally {
    pub traps: u64,
    pub calls: u64,
    /// Rows of posts.
    pub rows: u64,
    pub completions: u64,
    pub unexplained: u64,
    classes: [u64; CLASSES.len()],
    asks: [u64; 9],
    exits: [u64; 11],
    errors: [u64; 8],
    /// Injected fetch faults by scause and by what ran.
    injected: [[u64; RAN.len()]; FETCHING.len()],
}

impl Tally {
    pub fn new() -> Tally {
        Tally {
            traps: 0,
            calls: 0,
            rows: 0,
            completions: 0,
            unexplained: 0,
            classes: [0; CLASSES.len()],
            asks: [0; 9],
            exits: [0; 11],
            errors: [0; 8],
            injected: [[0; RAN.len()]; FETCHING.len()],
        }
    }

    pub fn trap(&mut self, class: usize, outcome: &Outcome) {
        self.traps += 1;
        self.classes[class] += 1;
        for request in &outcome.requests {
            let ask = match request {
                Request::Fetch { .. } => 1,
                Request::Mask { .. } => 2,
                Request::CopyIn { .. } => 3,
                Request::Print { .. } => 4,
                Request::Read { .. } => 5,
                Request::CopyOut { .. } => 6,
                Request::Emit { .. } => 7,
                Request::GetChar => 8,
                Request::Forward { .. } => 9,
                Request::Unknown { .. } => continue,
            };
            self.asks[ask - 1] += 1;
        }
        match outcome.ending.kind {
            kind @ 0..=10 => self.exits[kind as usize] += 1,
            kind @ 0x100..=0x107 => self.errors[kind as usize - 0x100] += 1,
            _ => {}
        }
    }

    /// Counts a trap whose fetch fault is injected.
    pub fn injection(&mut self, input: &Input) {
        let cause = FETCHING.iter().position(|&scause| scause == input.trap.scause);
        if let (Some(cause), true) = (cause, injects(input)) {
            let bit_8 = |csr: u64| csr as usize >> 8 & 1;
            let ran = 2 * bit_8(input.record.hstatus) + bit_8(input.record.sstatus);
            self.injected[cause][ran] += 1;
        }
    }

    /// Prints the counts of injected faults; gives the names of what was not
    /// reached. Captures reach one of the four alone: they start from what
    /// setup leaves, with both bits set.
    pub fn print_injections(&self, only: &[bool]) -> Vec<String> {
        let mut missed = Vec::new();
        for (scause, counts) in FETCHING.iter().zip(self.injected) {
            for (ran, count) in RAN.iter().zip(counts) {
                let name = format!("{scause} {ran}");
                println!("inject  {name:24}{count:>12}");
                if only.iter().all(|&on| on) && count == 0 {
                    missed.push(format!("inject {name}"));
                }
            }
        }
        missed
    }

    /// Prints the counts; gives the names of what was not reached.
    pub fn print(&self, board: &Board, only: &[bool]) -> Vec<String> {
        let mut missed = Vec::new();
        let mut row = |kind: &str, name: &str, count: u64, due: bool| {
            println!("{kind:8}{name:24}{count:>12}");
            if due && count == 0 {
                missed.push(format!("{kind}{name}"));
            }
        };
        let all = only.iter().all(|&on| on);
        for (at, name) in CLASSES.iter().enumerate() {
            if only[at] {
                row("class ", name, self.classes[at], true);
            }
        }
        for (name, count) in ASKS.iter().zip(self.asks) {
            row("ask ", name, count, all);
        }
        for (name, count) in EXITS.iter().zip(self.exits) {
            row("exit ", name, count, all);
        }
        for number in 3..=6 {
            row("error ", &number.to_string(), self.errors[number], all);
        }
        row("", "calls between traps", self.calls, false);
        row("", "rows of posts", self.rows, false);
        row("", "load completions", self.completions, false);
        for (at, (_, name, text)) in SWITCHES.iter().enumerate() {
            let state = if board.is_on(at) { "" } else { " (off)" };
            println!("switch  {name:24}{:>12}  {text}{state}", board.used[at]);
        }
        missed
    }
}
