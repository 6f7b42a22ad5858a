//! 02, W5: every kind of fetch fault under every cause that fetches, of user and
//! supervisor code: the published Rust by its switch, each subject, and from01.

use model::{Trap, Vcpu};
use scripted::{Fetched, Script};

use crate::by_from01::same_as_from01;
use crate::compare::run_both;
use crate::generate::CLASSES;
use crate::input::Input;
use crate::outcome::*;
use crate::random::Random;
use crate::rust_side::RustSide;
use crate::sequence;
use crate::smallest::{off, off_but, subjects};
use crate::switches::{adjust, by_model, Board, Switch};
use crate::tally::Tally;

const INJECTED: [Fetched; 3] =
    [Fetched::Page(0x46), Fetched::Access(0x46), Fetched::Misaligned(0x46)];
const OTHERS: [Fetched; 2] = [Fetched::GuestPage(0x46), Fetched::Unhandled];

/// No bit, bit 8 alone, all others, all; and what setup leaves, with bit 8 clear
/// and set.
const SSTATUS: [u64; 6] = [0, 0x100, !0x100, u64::MAX, 0x2000, 0x2100];
const HSTATUS: [u64; 6] = [0, 0x100, !0x100, u64::MAX, 0x2_0000_0080, 0x2_0000_0180];

/// A trap at guest physical address 7.
fn trap(scause: u64, stval: u64, htinst: u64) -> Trap {
    Trap { scause, stval, htval: 1, htinst, room: 0 }
}

/// Traps that fetch a word, also where stval or htinst would have one under
/// another cause.
fn fetching() -> [Trap; 4] {
    [trap(21, 0x73, 0), trap(22, 7, 0x3003), trap(22, 0x7300, 0), trap(23, 7, 0)]
}

/// The trap with each of the answers, on each record, bound and not.
fn inputs(trap: Trap, answers: &[Fetched]) -> Vec<Input> {
    let mut inputs = Vec::new();
    for &fetch in answers {
        for (sstatus, hstatus) in SSTATUS.iter().flat_map(|s| HSTATUS.map(|h| (*s, h))) {
            for (vsstatus, bound) in [(2, false), (0x120, true)] {
                let mut record = Vcpu { sstatus, hstatus, vsstatus, ..Vcpu::zero() };
                record.x = std::array::from_fn(|i| 100 + i as u64);
                (record.sepc, record.vsepc, record.vscause, record.vstval) = (0x44, 1, 2, 3);
                record.vstvec = 0x8020_0003;
                let script = Script { fetch, ..Script::ZERO };
                inputs.push(Input { record, trap, script, bound, stale: None });
            }
        }
    }
    inputs
}

fn injections() -> impl Iterator<Item = Input> {
    fetching().into_iter().flat_map(|trap| inputs(trap, &INJECTED))
}

/// How often the switch was used.
fn used(board: &Board) -> u64 {
    board.used[Switch::InjectedMode as usize]
}

#[test]
fn every_injection_agrees() {
    let mut rust = RustSide::new();
    for mut subject in subjects() {
        let mut board = off_but(&["injected-mode"]);
        for input in injections() {
            let before = used(&board);
            let pair = run_both(&mut board, &mut rust, subject.as_mut(), &input, false);
            assert!(pair.agree() && same_as_from01(&input, &pair), "{input:x?}");
            // Where the bit is set there is nothing to explain.
            let clear = input.record.sstatus & 0x100 == 0;
            assert_eq!(used(&board) - before, clear as u64, "{input:x?}");
        }
    }
}

/// With every switch off: the Rust leaves sstatus, and all else is the same.
#[test]
fn sstatus_is_the_only_difference() {
    let mut rust = RustSide::new();
    for mut subject in subjects() {
        for input in injections() {
            let Vcpu { sstatus, hstatus, .. } = input.record;
            let pair = run_both(&mut off_but(&[]), &mut rust, subject.as_mut(), &input, false);
            let record = &pair.subject.record;
            assert_eq!((record.sstatus, record.hstatus), (sstatus | 0x100, hstatus));
            let record = Vcpu { sstatus, ..record.clone() };
            assert_eq!(pair.rust, Outcome { record, ..pair.subject }, "{input:x?}");
        }
    }
}

/// Faults that are not injected, and traps that fetch nothing.
#[test]
fn what_is_not_injected_needs_no_switch() {
    let fetch_nothing = [
        // No access to stimecmp.
        trap(22, 0x73, 0),
        trap(22, 0xffff_fff3, 0),
        // The guest's own walk of its page tables, and no word of 16 or 32 bits.
        trap(21, 7, 0x3000),
        trap(23, 7, 0x3020),
        trap(21, 7, 1 << 32),
        trap(23, 7, 2),
        // An ecall, codes that are not handled, and what is almost 21 and 22.
        trap(10, 7, 0),
        trap(12, 7, 0),
        trap(20, 7, 0),
        trap(1 << 32 | 21, 7, 0),
        trap(1 << 63 | 22, 7, 0),
    ];
    let fetched = fetching().into_iter().flat_map(|trap| inputs(trap, &OTHERS));
    let others = fetch_nothing.into_iter().flat_map(|trap| inputs(trap, &INJECTED));
    let all: Vec<Input> = fetched.chain(others).collect();
    let mut rust = RustSide::new();
    for mut subject in subjects() {
        let mut board = off_but(&["injected-mode", "trap-codes"]);
        for input in &all {
            let pair = run_both(&mut board, &mut rust, subject.as_mut(), input, false);
            assert!(pair.agree(), "{input:x?}");
            assert_eq!(pair.rust.record.sstatus, input.record.sstatus, "{input:x?}");
        }
        assert_eq!(used(&board), 0);
    }
}

/// The switch takes one thing for the difference: sstatus as it was.
#[test]
fn a_rust_that_writes_sstatus_is_noticed() {
    let turned = |input: &Input, sstatus| {
        let mut outcome = by_model(input);
        outcome.record.sstatus = sstatus;
        adjust(&mut Board::all_on(), input, &mut outcome);
        outcome == by_model(input)
    };
    for input in injections() {
        let before = input.record.sstatus;
        for sstatus in [before, before | 0x100, before & !0x100, before ^ 2, 0x2100, !before] {
            assert_eq!(turned(&input, sstatus), sstatus == before, "{before:x} {sstatus:x}");
        }
    }
    for input in fetching().into_iter().flat_map(|trap| inputs(trap, &OTHERS)) {
        assert!(turned(&input, input.record.sstatus));
        assert!(!turned(&input, input.record.sstatus ^ 0x100));
    }
}

/// Behind an injection both sides hold the bit.
#[test]
fn a_sequence_goes_on_behind_an_injection() {
    const LENGTH: u64 = 10_000;
    let faults = ["virtual-fetch-fault", "page-fault-fetch-fault"];
    let is_fault = |class: &usize| faults.contains(&CLASSES[*class]);
    let classes: Vec<usize> = (0..CLASSES.len()).filter(is_fault).collect();
    let mut rust = RustSide::new();
    for mut subject in subjects() {
        for (mut board, agree) in [(Board::all_on(), true), (off("injected-mode"), false)] {
            let (r, tally) = (&mut Random::new(1), &mut Tally::new());
            let subject = subject.as_mut();
            let run = sequence::run(r, LENGTH, &classes, &mut board, &mut rust, subject, tally);
            assert_eq!(run.is_ok(), agree);
            assert_eq!(tally.traps == LENGTH, agree);
            assert_eq!(used(&board) > LENGTH / 20, agree);
        }
    }
}
