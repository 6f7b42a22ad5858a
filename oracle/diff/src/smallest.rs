//! The smallest input of each known difference, as docs/DIFFERENCES.md has
//! it: the two sides part with the switch off and agree with it on.

use model::{Call, Post, Trap, Vcpu, Waiting, Width, EID_DBCN, EID_TIME, INTERRUPT};
use scripted::{Fetched, Script};

use crate::compare::run_both;
use crate::input::Input;
use crate::options::SubjectName;
use crate::outcome::*;
use crate::rust_side::RustSide;
use crate::sequence::rust_row;
use crate::subject::Subject;
use crate::subject_named;
use crate::switches::{adjust_call, Board, SWITCHES};

fn input(scause: u64) -> Input {
    Input {
        record: Vcpu::zero(),
        trap: Trap { scause, stval: 0, htval: 0, htinst: 0, room: 0 },
        script: Script::ZERO,
        bound: false,
        stale: None,
    }
}

fn ecall(registers: &[(usize, u64)]) -> Input {
    let mut input = input(10);
    for &(index, number) in registers {
        input.record.x[index] = number;
    }
    input
}

fn fetched(scause: u64, word: u32) -> Input {
    let mut input = input(scause);
    input.script.fetch = Fetched::Word(word);
    input
}

fn failed(scause: u64, fetch: Fetched) -> Input {
    with(input(scause), |i| i.script.fetch = fetch)
}

fn with(mut input: Input, change: impl FnOnce(&mut Input)) -> Input {
    change(&mut input);
    input
}

/// Each input with its switch, 01's ending and the Rust's.
fn inputs() -> Vec<(&'static str, Input, Ending, Ending)> {
    let nothing = Ending::NOTHING;
    let nested = |flags| Ending::new(NESTED_PAGE_FAULT, &[0, flags]);
    let read_of = |bytes| Ending::new(MMIO_READ, &[0, bytes]);
    let write_of = |bytes, data| Ending::new(MMIO_WRITE, &[0, bytes, data]);
    let csr = |stval| with(input(22), |i| i.trap.stval = stval);
    let hvip = |input| with(input, |i| i.record.hvip = 0x40);
    let htinst = |scause, htinst| with(input(scause), |i| i.trap.htinst = htinst);
    let console = [(17, EID_DBCN), (10, 1)];
    let read = with(ecall(&[(17, EID_DBCN), (16, 1), (10, 1)]), |i| i.trap.room = 1);
    let stale = with(csr(0x14D0_20F3), |i| i.stale = Some(1));
    let store = with(htinst(23, 0x10_0023), |i| i.record.x[1] = 0x100);
    let compressed_store = with(fetched(23, 0xc000), |i| i.record.x[8] = 1 << 32);
    vec![
        ("console-bound", ecall(&console), nothing, nothing),
        ("console-a2", with(ecall(&console), |i| i.record.x[12] = 1), nothing, nothing),
        ("empty-copy", read, nothing, nothing),
        ("timer-tick", hvip(csr(0x14D1_2073)), nothing, nothing),
        ("timer-tick", hvip(fetched(22, 0x14D1_2073)), nothing, nothing),
        ("fetched-opcode", fetched(22, 0x14D0_2000), Ending::error(3), nothing),
        ("injected-mode", failed(22, Fetched::Page(0)), nothing, nothing),
        ("injected-mode", failed(22, Fetched::Misaligned(0)), nothing, nothing),
        ("injected-mode", failed(21, Fetched::Access(0)), nothing, nothing),
        ("injected-mode", failed(23, Fetched::Page(0)), nothing, nothing),
        ("trap-codes", input(2), Ending::error(3), Ending::error(4)),
        ("trap-codes", input(1 << 63), Ending::error(3), Ending::error(4)),
        ("direction", fetched(23, 0x03), nested(2), read_of(1)),
        ("direction", fetched(21, 0x23), nested(1), write_of(1, 0)),
        ("other-word-flags", htinst(21, 5), nested(1), nested(0)),
        ("undecoded-word", fetched(21, 0), nested(1), Ending::error(5)),
        // c.lwsp into x0, and c.lw under 23: neither is an access.
        ("undecoded-word", fetched(21, 0x4002), nested(1), Ending::error(5)),
        ("undecoded-word", fetched(23, 0x4000), nested(2), Ending::error(5)),
        // c.lw, c.ld, c.lwsp, c.ldsp
        ("compressed", fetched(21, 0x4000), read_of(4), Ending::error(5)),
        ("compressed", fetched(21, 0x6000), read_of(8), Ending::error(5)),
        ("compressed", fetched(21, 0x4082), read_of(4), Ending::error(5)),
        ("compressed", fetched(21, 0x6082), read_of(8), Ending::error(5)),
        // c.sw, c.sd, c.swsp, c.sdsp
        ("compressed", fetched(23, 0xc000), write_of(4, 0), Ending::error(5)),
        ("compressed", fetched(23, 0xe000), write_of(8, 0), Ending::error(5)),
        ("compressed", fetched(23, 0xc002), write_of(4, 0), Ending::error(5)),
        ("compressed", fetched(23, 0xe002), write_of(8, 0), Ending::error(5)),
        ("store-data", store, write_of(1, 0), write_of(1, 0x100)),
        ("store-data", compressed_store, write_of(4, 0), write_of(4, 1 << 32)),
        ("access-events", htinst(21, 1), read_of(1), read_of(1)),
        ("access-events", fetched(21, 0x4000), read_of(4), read_of(4)),
        ("cached-vstimecmp", stale, nothing, nothing),
        (
            "sepc-overflow",
            with(ecall(&[]), |i| i.record.sepc = u64::MAX - 3),
            nothing,
            Ending::new(PANIC, &[]),
        ),
        (
            "sepc-overflow",
            with(fetched(21, 0x4000), |i| i.record.sepc = u64::MAX - 1),
            read_of(4),
            Ending::new(PANIC, &[]),
        ),
    ]
}

/// Every switch on but this one.
pub fn off(name: &str) -> Board {
    let mut board = Board::all_on();
    assert!(board.turn_off(name));
    board
}

/// Every switch off but these.
pub fn off_but(names: &[&str]) -> Board {
    let mut board = Board::all_on();
    for (_, name, _) in SWITCHES.iter().filter(|(_, name, _)| !names.contains(name)) {
        assert!(board.turn_off(name));
    }
    board
}

/// Every subject that this program was built with.
pub fn subjects() -> Vec<Box<dyn Subject>> {
    use SubjectName::*;
    [Model, Abi, InPlace].into_iter().filter_map(subject_named).collect()
}

#[test]
fn each_switch_explains_its_input() {
    for mut subject in subjects() {
        explains_inputs(subject.as_mut());
    }
}

fn explains_inputs(subject: &mut dyn Subject) {
    let mut rust = RustSide::new();
    for (name, input, by_01, by_rust) in inputs() {
        let pair = run_both(&mut Board::all_on(), &mut rust, subject, &input, false);
        assert!(pair.agree(), "{name}");
        assert_eq!(pair.subject.ending, by_01, "{name}");
        if name == "sepc-overflow" && !RustSide::checks_overflow() {
            continue;
        }
        let pair = run_both(&mut off(name), &mut rust, subject, &input, false);
        assert!(!pair.agree(), "{name}");
        if name != "console-a2" {
            assert_eq!(pair.rust.ending, by_rust, "{name}");
        }
    }
}

/// 02, W1: on the two set-timer calls SBI, 01 and the Rust agree, with every switch off.
#[test]
fn set_timer_needs_no_switch() {
    let mut none = off_but(&[]);
    let mut rust = RustSide::new();
    for mut subject in subjects() {
        for call in [&[][..], &[(16, 1)], &[(17, EID_TIME)]] {
            for hvip in [0, 0x40, !0x40, u64::MAX] {
                for bound in [false, true] {
                    let input = with(ecall(call), |i| {
                        i.record.hvip = hvip;
                        i.bound = bound;
                    });
                    let pair = run_both(&mut none, &mut rust, subject.as_mut(), &input, false);
                    assert!(pair.agree(), "{call:?} {hvip:x} {bound}");
                    assert_eq!(pair.rust.record.hvip, hvip & !0x40);
                }
            }
        }
    }
}

/// 02, W4: a row is the Rust's posts one by one, with every switch off but the
/// one for a vector that is not allowed.
#[test]
fn a_row_is_the_rusts_posts_one_by_one() {
    let mut board = off_but(&["vector-error"]);
    let (soft, timer, external) = (INTERRUPT + 1, INTERRUPT + 5, INTERRUPT + 9);
    let waiting = Waiting::Load { rd: 5, width: Width::One, signed: true };
    let mut rust = RustSide::new();
    for mut subject in subjects() {
        for vector in [soft, timer, external, 9, 0, 1, 5, 8, 10, soft + 1, u64::MAX] {
            for level in [0, 1, 2, 1 << 63, u64::MAX] {
                for hvip in [0, 0x444, !0x444, u64::MAX] {
                    for bound in [false, true] {
                        let post = Post { vector, level };
                        let other = Post { vector: soft, level: (level == 0) as u64 };
                        let record = Vcpu { hvip, waiting, sepc: u64::MAX, ..Vcpu::zero() };
                        rust.load(&record, bound, None);
                        subject.load(&record);
                        let by_rust = rust_row(&[other, post, other], &mut board, &mut rust);
                        let ending = Ending::of_row(&subject.post(&[other, post, other]));
                        let by_subject = Outcome::new(ending, subject.record());
                        assert_eq!(by_rust, by_subject, "{post:x?} {hvip:x} {bound}");
                        assert_eq!(rust.record(), by_rust.record);
                    }
                }
            }
        }
        // The empty row.
        let empty = rust_row(&[], &mut board, &mut rust);
        assert_eq!(empty.ending, Ending::of_row(&subject.post(&[])));
    }
    let mut rust = RustSide::new();
    let row = rust_row(&[Post { vector: 0, level: 0 }], &mut off("vector-error"), &mut rust);
    assert_eq!(row.ending, Ending::row(0, Some(Ending::error(3))));
}

#[test]
fn each_switch_explains_its_call() {
    let calls = [
        ("register-index", Call::SetGpr { index: 32, value: 0 }, Ending::new(DONE, &[])),
        ("vector-error", Call::InjectInterrupt { vector: 0 }, Ending::error(3)),
    ];
    for (name, call, by_rust) in calls {
        let mut rust = RustSide::new();
        rust.load(&Vcpu::zero(), false, None);
        let mut outcome = rust.call(&call).unwrap();
        adjust_call(&mut off(name), &call, &mut outcome);
        assert_eq!(outcome.ending, by_rust, "{name}");
        adjust_call(&mut Board::all_on(), &call, &mut outcome);
        for mut subject in subjects() {
            subject.load(&Vcpu::zero());
            assert_eq!(outcome.ending, Ending::of(&subject.call(&call)), "{name}");
        }
    }
}

#[test]
fn every_switch_has_an_input() {
    let named: Vec<&str> = inputs().iter().map(|i| i.0).collect();
    for (_, name, _) in SWITCHES {
        let is_call = name == "register-index" || name == "vector-error";
        assert!(is_call || named.contains(&name), "{name}");
    }
}
