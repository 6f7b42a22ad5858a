//! One trap's whole input: the record, the trap, the host's script, and what
//! the published Rust keeps beside 01's record.

use model::{Trap, Vcpu};
use scripted::{Fetched, Script};

#[derive(Clone, Debug)]
pub struct Input {
    pub record: Vcpu,
    pub trap: Trap,
    pub script: Script,
    /// Whether the Rust's vCPU is bound.
    pub bound: bool,
    /// The Rust's saved vstimecmp, where it differs from the live one.
    pub stale: Option<u64>,
}

impl Input {
    /// Every number of the input with its name.
    pub fn numbers(&mut self) -> Vec<(String, &mut u64)> {
        let mut all: Vec<(String, &mut u64)> = Vec::new();
        let r = &mut self.record;
        for (i, x) in r.x.iter_mut().enumerate() {
            all.push((format!("x{i}"), x));
        }
        for (i, count) in r.counts.iter_mut().enumerate() {
            all.push((format!("count {}", i + 1), count));
        }
        let s = &mut self.script;
        let t = &mut self.trap;
        for (name, number) in [
            ("sepc", &mut r.sepc),
            ("sstatus", &mut r.sstatus),
            ("hstatus", &mut r.hstatus),
            ("vsstatus", &mut r.vsstatus),
            ("vstvec", &mut r.vstvec),
            ("vsepc", &mut r.vsepc),
            ("vscause", &mut r.vscause),
            ("vstval", &mut r.vstval),
            ("vstimecmp", &mut r.vstimecmp),
            ("hie", &mut r.hie),
            ("hvip", &mut r.hvip),
            ("hgeie", &mut r.hgeie),
            ("hgatp", &mut r.hgatp),
            ("scause", &mut t.scause),
            ("stval", &mut t.stval),
            ("htval", &mut t.htval),
            ("htinst", &mut t.htinst),
            ("room", &mut t.room),
            ("ask 2 count", &mut s.mask.0),
            ("ask 2 bytes", &mut s.mask.1),
            ("ask 3 count", &mut s.copy_in),
            ("ask 4 error", &mut s.print.0),
            ("ask 4 value", &mut s.print.1),
            ("ask 5 error", &mut s.read.0),
            ("ask 5 value", &mut s.read.1),
            ("ask 6 count", &mut s.copy_out),
            ("ask 8 number", &mut s.character),
            ("ask 9 error", &mut s.forward.0),
            ("ask 9 value", &mut s.forward.1),
            ("console bytes", &mut s.fill),
        ] {
            all.push((name.to_string(), number));
        }
        match &mut s.fetch {
            Fetched::Page(at) => all.push(("ask 1 page fault at".into(), at)),
            Fetched::Access(at) => all.push(("ask 1 access fault at".into(), at)),
            Fetched::Misaligned(at) => all.push(("ask 1 misaligned at".into(), at)),
            Fetched::GuestPage(at) => all.push(("ask 1 guest page fault at".into(), at)),
            Fetched::Word(_) | Fetched::Unhandled => {}
        }
        if let Some(saved) = &mut self.stale {
            all.push(("saved vstimecmp".into(), saved));
        }
        all
    }

    /// The numbers that are not 0, one on each line.
    pub fn print(&self) -> String {
        let mut copy = self.clone();
        let mut text = String::new();
        for (name, number) in copy.numbers() {
            if *number != 0 {
                text += &format!("  {name} = {number:#x}\n");
            }
        }
        match self.script.fetch {
            Fetched::Word(word) => text += &format!("  ask 1 word = {word:#x}\n"),
            fetch => text += &format!("  ask 1 = {fetch:x?}\n"),
        }
        text + &format!("  bound = {}, all else 0\n", self.bound)
    }
}
