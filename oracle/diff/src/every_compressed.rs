//! Every 16-bit word fetched under a guest page fault, in both directions: the
//! published Rust by the switches, each subject, and from01.

use model::{Trap, Vcpu};
use scripted::{Fetched, Script};

use crate::by_from01::same_as_from01;
use crate::compare::run_both;
use crate::input::Input;
use crate::outcome::*;
use crate::rust_side::RustSide;
use crate::smallest::subjects;
use crate::switches::{Board, Switch};

/// A fault at address 7 on registers that tell their numbers, where a word is
/// fetched.
fn input(scause: u64, word: u32) -> Input {
    let mut record = Vcpu { sepc: 0x8000_0000, hstatus: 0x100, ..Vcpu::zero() };
    record.x = std::array::from_fn(|i| 0x8765_4321_8000_0000 + i as u64);
    Input {
        record,
        trap: Trap { scause, stval: 7, htval: 1, htinst: 0, room: 0 },
        script: Script { fetch: Fetched::Word(word), ..Script::ZERO },
        bound: word & 4 != 0,
        stale: None,
    }
}

#[test]
fn every_16_bit_word_agrees() {
    let mut rust = RustSide::new();
    for mut subject in subjects() {
        // Four forms each; a load by sp into x0 is none.
        for (scause, exit, accesses) in
            [(21, MMIO_READ, 4 * 2048 - 2 * 64), (23, MMIO_WRITE, 4 * 2048)]
        {
            let mut board = Board::all_on();
            let mut exits = 0;
            for word in (0..=0xffff).filter(|word| word & 3 != 3) {
                // Alone, and with another half above it.
                for word in [word, word | (word * 0x9e37 + 1) << 16] {
                    let input = input(scause, word);
                    let pair = run_both(&mut board, &mut rust, subject.as_mut(), &input, false);
                    assert!(pair.agree(), "{scause} {word:#x}");
                    assert!(same_as_from01(&input, &pair), "{scause} {word:#x}");
                    assert!(pair.subject.ending.kind <= MMIO_WRITE, "no exit: {word:#x}");
                    exits += (pair.subject.ending.kind == exit) as u64;
                }
            }
            assert_eq!(exits, 2 * accesses);
            assert_eq!(board.used[Switch::Compressed as usize], 2 * accesses);
        }
    }
}
