//! One trap on both sides, and whether the two agree but for the switches.

use scripted::{Fetched, Request};

use crate::input::Input;
use crate::outcome::*;
use crate::rust_side::RustSide;
use crate::subject::{run_trap, Subject};
use crate::switches::{self, adjust, by_model, rust_input, Board, Switch};
use crate::words::{virtual_word, writes_stimecmp};

/// The Rust is not run where it would allocate more than this for a console.
const MOST: u64 = 1 << 20;

/// Both outcomes, the Rust's adjusted by the switches.
pub struct Pair {
    pub rust: Outcome,
    pub subject: Outcome,
    /// A switch was used, so that the Rust may hold another record than 01's.
    pub adjusted: bool,
}

impl Pair {
    pub fn agree(&self) -> bool {
        self.rust == self.subject
    }
}

/// Runs the input on both sides, from its record. With `loaded` the two sides
/// hold the input's record already.
pub fn run_both(
    board: &mut Board,
    rust: &mut RustSide,
    subject: &mut dyn Subject,
    input: &Input,
    loaded: bool,
) -> Pair {
    let used = board.used;
    let given = rust_input(board, input);
    let given_other = given.record != input.record
        || given.stale != input.stale
        || given.trap != input.trap;
    let (asked, not_shown) = if given_other { run_true(rust, input) } else { Default::default() };
    if !loaded || given_other {
        rust.load(&given.record, given.bound, given.stale);
    }
    if !loaded {
        subject.load(&input.record);
    }
    let mut by_rust = run_rust(board, rust, &given);
    if given.trap != input.trap {
        // The Rust has the word from htinst; by the true input it asked for it.
        by_rust.requests.splice(0..0, asked);
    }
    // The other switches go by the trap that the Rust was given.
    adjust(board, &Input { trap: given.trap, ..input.clone() }, &mut by_rust);
    if let Some(switch) = not_shown {
        switches::not_shown(&mut by_rust, switch);
    }
    Pair {
        rust: by_rust,
        subject: run_trap(subject, &input.trap, &input.script),
        adjusted: board.used != used,
    }
}

/// Runs the Rust, which holds the given input's record.
fn run_rust(board: &mut Board, rust: &mut RustSide, given: &Input) -> Outcome {
    let x = &given.record.x;
    let huge = given.trap.scause == 10 && x[17] == model::EID_DBCN && x[16] <= 1 && x[10] > MOST;
    let mut by_rust = if huge {
        Outcome::new(Ending::new(NOT_RUN, &[]), given.record.clone())
    } else {
        rust.run_trap(&given.trap, &given.script)
    };
    let panicked = by_rust.ending.kind == PANIC && given.record.sepc > u64::MAX - 4;
    if panicked && board.takes(Switch::SepcOverflow) {
        undo_panic(rust, given, &mut by_rust);
    }
    by_rust
}

/// Where the Rust is given another input, it must do with the true one what
/// 01 does with its twin; otherwise the switch that does not show. Gives its
/// requests too.
fn run_true(rust: &mut RustSide, input: &Input) -> (Vec<Request>, Option<Switch>) {
    let Some((switch, twin)) = switches::twin(input) else {
        return Default::default();
    };
    rust.load(&input.record, input.bound, input.stale);
    let board = &mut Board::all_on();
    let mut by_rust = run_rust(board, rust, input);
    // The twin has the saved vstimecmp, and a live one that is only read stays.
    let writes = virtual_word(input).is_some_and(|(word, _)| writes_stimecmp(word));
    let stays = !writes && by_rust.record.vstimecmp == input.record.vstimecmp;
    if switch == Switch::CachedVstimecmp && stays {
        by_rust.record.vstimecmp = twin.record.vstimecmp;
    }
    adjust(board, &twin, &mut by_rust);
    // 01 has error 5 by the length rule, the Rust by the decoder.
    let undecoded = match (switch, input.script.fetch) {
        (Switch::Compressed, Fetched::Word(word)) => Some(word & 0xffff),
        _ => None,
    };
    let shown = by_rust == Outcome { undecoded, ..by_model(&twin) };
    (by_rust.requests, (!shown).then_some(switch))
}

/// A build with overflow checks panics where sepc passes 2^64. The outcome
/// becomes what the Rust does from a lower sepc, moved back, if the panic left
/// what that leaves before sepc moves: all effects of an ecall or CSR access,
/// none of a load or store.
fn undo_panic(rust: &mut RustSide, given: &Input, by_rust: &mut Outcome) {
    const LOWER: u64 = 16;
    let mut record = given.record.clone();
    record.sepc -= LOWER;
    rust.load(&record, given.bound, given.stale);
    let mut done = rust.run_trap(&given.trap, &given.script);
    done.record.sepc = done.record.sepc.wrapping_add(LOWER);
    for request in &mut done.requests {
        if let Request::Fetch { at, .. } = request {
            *at += LOWER;
        }
    }
    let mut stopped = Outcome { ending: by_rust.ending, accesses: [0; 2], ..done.clone() };
    stopped.record.sepc = given.record.sepc;
    stopped.record.waiting = given.record.waiting;
    if *by_rust == stopped {
        *by_rust = done;
    }
}
