//! The known differences between 01 and the published Rust. Each has a
//! switch: where its input condition holds, the Rust must show the difference
//! as it is described, and its input or outcome is then turned into 01's. All
//! else is compared as it is.

use model::{Call, EID_DBCN, FAILED, INTERRUPT, INVALID_PARAM, VSTIP};
use scripted::{Fetched, Request};

use crate::input::Input;
use crate::outcome::*;
use crate::subject::{run_trap, Model};
use crate::words::*;

#[derive(Clone, Copy, Debug, PartialEq, Eq)]
pub enum Switch {
    ConsoleBound,
    ConsoleA2,
    EmptyCopy,
    TimerTick,
    FetchedOpcode,
    InjectedMode,
    TrapCodes,
    Direction,
    OtherWordFlags,
    UndecodedWord,
    Compressed,
    StoreData,
    AccessEvents,
    CachedVstimecmp,
    RegisterIndex,
    VectorError,
    SepcOverflow,
}

use Switch::*;

/// Each switch with its name and what it does.
pub const SWITCHES: [(Switch, &str, &str); 17] = [
    (ConsoleBound, "console-bound", "DBCN 0 and 1 with a0 above the room: the Rust is given a0 = room"),
    (ConsoleA2, "console-a2", "DBCN 0 and 1 with a0 and a2 not 0: the Rust's outcome is replaced by INVALID_PARAM, 0"),
    (EmptyCopy, "empty-copy", "DBCN 1 answered 0, 0: the Rust's copy of no bytes is dropped, and 0, 0 returned"),
    (TimerTick, "timer-tick", "a CSR write to stimecmp: the hvip bit 6 that the Rust clears is kept"),
    (FetchedOpcode, "fetched-opcode", "a fetched stimecmp word not ending in 0x73, which the Rust carries out: event 2 and error 3"),
    (InjectedMode, "injected-mode", "an injected fetch fault with sstatus bit 8 clear: the bit, which the Rust leaves, is set"),
    (TrapCodes, "trap-codes", "a code on 01's list that the stand-ins don't have: the Rust's error 4 is error 3"),
    (Direction, "direction", "a load under 23 or a store under 21, which the Rust decodes: NestedPageFault, record unchanged"),
    (OtherWordFlags, "other-word-flags", "a word that is no load or store: the Rust's NestedPageFault gets READ or WRITE"),
    (UndecodedWord, "undecoded-word", "a word that the decoder refuses: the Rust's error 5 is NestedPageFault with READ or WRITE"),
    (Compressed, "compressed", "a fetched 16-bit load or store, which the stand-in's decoder refuses: the Rust is given its 32-bit form in htinst"),
    (StoreData, "store-data", "MmioWrite: the Rust's data is cut to the width"),
    (AccessEvents, "access-events", "a decoded load or store: the Rust's two PMU events are not compared"),
    (CachedVstimecmp, "cached-vstimecmp", "a stimecmp access with a saved vstimecmp that is not the live one: the Rust is given the live one"),
    (RegisterIndex, "register-index", "a register write above 31, which the Rust ignores: refusal 1"),
    (VectorError, "vector-error", "an interrupt vector not allowed: the Rust's error 3 is refusal 1"),
    (SepcOverflow, "sepc-overflow", "with overflow checks, sepc passing 2^64: the Rust's panic is its outcome from 16 bytes lower, moved back"),
];

/// sstatus bit 8: the mode that a return goes to.
const SPP: u64 = 1 << 8;

/// Which switches are on, and how often each was used.
#[derive(Clone)]
pub struct Board {
    on: [bool; SWITCHES.len()],
    pub used: [u64; SWITCHES.len()],
}

impl Board {
    pub fn all_on() -> Board {
        Board { on: [true; SWITCHES.len()], used: [0; SWITCHES.len()] }
    }

    /// Turns a switch off by its name; false if there is none.
    pub fn turn_off(&mut self, name: &str) -> bool {
        match SWITCHES.iter().position(|s| s.1 == name) {
            Some(at) => {
                self.on[at] = false;
                true
            }
            None => false,
        }
    }

    pub fn is_on(&self, at: usize) -> bool {
        self.on[at]
    }

    /// Whether the switch is on; if so this use is counted.
    pub fn takes(&mut self, switch: Switch) -> bool {
        let at = switch as usize;
        self.used[at] += self.on[at] as u64;
        self.on[at]
    }
}

fn is_console(input: &Input) -> bool {
    let x = &input.record.x;
    input.trap.scause == 10 && x[17] == EID_DBCN && x[16] <= 1 && x[10] != 0
}

fn room(input: &Input) -> u64 {
    input.trap.room.min(4096)
}

/// The input that the Rust is given.
pub fn rust_input(board: &mut Board, input: &Input) -> Input {
    let mut given = input.clone();
    if is_console(input) && input.record.x[10] > room(input) && board.takes(ConsoleBound) {
        given.record.x[10] = room(input);
    }
    if input.stale.is_some_and(|saved| saved != input.record.vstimecmp)
        && virtual_word(input).is_some_and(|(word, _)| is_stimecmp(word))
        && board.takes(CachedVstimecmp)
    {
        given.stale = None;
    }
    if let Some(htinst) = compressed(input) {
        if board.takes(Compressed) {
            given.trap.htinst = htinst as u64;
        }
    }
    given
}

/// An input whose outcome by 01 is, but for the other switches, what the Rust
/// does with the input as it is, where it was given another one.
pub fn twin(input: &Input) -> Option<(Switch, Input)> {
    let mut twin = input.clone();
    let a0 = input.record.x[10];
    if is_console(input) && a0 > room(input) {
        // 01 has no more room than this.
        twin.trap.room = a0;
        return (a0 <= 4096).then_some((ConsoleBound, twin));
    }
    if compressed(input).is_some() {
        // Error 5 after the fetch, and nothing else: what 01 has for a word
        // that is too long.
        twin.script.fetch = Fetched::Word(0x1f);
        return Some((Compressed, twin));
    }
    twin.record.vstimecmp = input.stale?;
    twin.stale = None;
    Some((CachedVstimecmp, twin))
}

/// The Rust must show each difference: an outcome where it doesn't is none of
/// 01's.
pub fn not_shown(rust: &mut Outcome, switch: Switch) {
    rust.strays.push(SWITCHES[switch as usize].1);
}

/// Turns the Rust's outcome into 01's.
///
/// Where the Rust does something else altogether, its outcome must be the one
/// that 01 gives a twin of the input; only then is it replaced.
pub fn adjust(board: &mut Board, input: &Input, rust: &mut Outcome) {
    adjust_empty_copy(board, input, rust);
    adjust_console_a2(board, input, rust);
    adjust_timer_tick(board, input, rust);
    adjust_fetched_opcode(board, input, rust);
    adjust_injected_mode(board, input, rust);
    if in_01_list(input.trap.scause) && board.takes(TrapCodes) {
        if rust.ending == Ending::error(4) {
            rust.ending = Ending::error(3);
        } else {
            not_shown(rust, TrapCodes);
        }
    }
    adjust_access(board, input, rust);
}

/// 01's outcome for an input.
pub fn by_model(input: &Input) -> Outcome {
    run_trap(&mut Model(input.record.clone()), &input.trap, &input.script)
}

fn adjust_empty_copy(board: &mut Board, input: &Input, rust: &mut Outcome) {
    let empty = is_console(input)
        && input.record.x[16] == 1
        && room(input) != 0
        && input.script.read == (0, 0);
    if !empty || !board.takes(EmptyCopy) {
        return;
    }
    let asked = matches!(rust.requests.last(), Some(Request::CopyOut { n: 0, .. }));
    // A host that says it copied more than nothing makes this a failure.
    let due = if input.script.copy_out != 0 { FAILED } else { 0 };
    if asked && rust.record.x[10] == due {
        rust.requests.pop();
        rust.record.x[10] = 0;
    } else {
        not_shown(rust, EmptyCopy);
    }
}

fn adjust_console_a2(board: &mut Board, input: &Input, rust: &mut Outcome) {
    let x = &input.record.x;
    if !is_console(input) || x[12] == 0 || !board.takes(ConsoleA2) {
        return;
    }
    // The Rust joins a1 and a2, by the stand-in's rule, and goes on.
    let mut twin = input.clone();
    twin.record.x[11] = x[11] | x[12] << 32;
    twin.record.x[12] = 0;
    let mut due = by_model(&twin);
    due.record.x[12] = x[12];
    if *rust == due {
        rust.requests.clear();
        rust.record.x[10] = INVALID_PARAM;
        rust.record.x[11] = 0;
    } else {
        not_shown(rust, ConsoleA2);
    }
}

fn adjust_timer_tick(board: &mut Board, input: &Input, rust: &mut Outcome) {
    let writes = virtual_word(input).is_some_and(|(word, _)| writes_stimecmp(word));
    let pending = input.record.hvip & VSTIP != 0;
    if !writes || !pending || !board.takes(TimerTick) {
        return;
    }
    if rust.record.hvip & VSTIP == 0 {
        rust.record.hvip |= VSTIP;
    } else {
        not_shown(rust, TimerTick);
    }
}

fn adjust_fetched_opcode(board: &mut Board, input: &Input, rust: &mut Outcome) {
    let Some((word, true)) = virtual_word(input) else {
        return;
    };
    if word & 0x7f == 0x73 || !is_stimecmp(word) || !board.takes(FetchedOpcode) {
        return;
    }
    let mut twin = input.clone();
    twin.script.fetch = Fetched::Word(word & !0x7f | 0x73);
    if *rust == by_model(&twin) {
        rust.ending = Ending::error(3);
        rust.record = input.record.clone();
        rust.record.counts[1] = input.record.counts[1].wrapping_add(1);
    } else {
        not_shown(rust, FetchedOpcode);
    }
}

fn adjust_injected_mode(board: &mut Board, input: &Input, rust: &mut Outcome) {
    let before = input.record.sstatus;
    if !injects(input) || before & SPP != 0 || !board.takes(InjectedMode) {
        return;
    }
    if rust.record.sstatus == before {
        rust.record.sstatus |= SPP;
    } else {
        not_shown(rust, InjectedMode);
    }
}

/// The codes that 01 calls known and that no published line names.
fn in_01_list(scause: u64) -> bool {
    let code = scause & !(1 << 63);
    if scause >> 63 != 0 {
        code <= 12 && code != 1 && code != 5 && code != 9
    } else {
        matches!(code, 2..=9 | 11 | 13 | 15 | 20)
    }
}

/// The differences of guest page faults.
fn adjust_access(board: &mut Board, input: &Input, rust: &mut Outcome) {
    let Some((kind, word)) = fault_word(input) else {
        return;
    };
    if kind != FaultWord::Other && board.takes(AccessEvents) {
        // Exactly the event of the decoded word, once.
        let due = if kind == FaultWord::Load { [1, 0] } else { [0, 1] };
        if rust.accesses == due {
            rust.accesses = [0; 2];
        } else {
            not_shown(rust, AccessEvents);
        }
    }
    if kind == FaultWord::Store {
        let whole = register(input, word >> 20 & 31);
        let cut = match word >> 12 & 3 {
            0 => whole & 0xff,
            1 => whole & 0xffff,
            2 => whole & 0xffff_ffff,
            _ => whole,
        };
        if cut != whole && board.takes(StoreData) {
            if rust.ending.kind == MMIO_WRITE && rust.ending.data[2] == whole {
                rust.ending.data[2] = cut;
            } else {
                not_shown(rust, StoreData);
            }
        }
    }
    let write = input.trap.scause == 23;
    let flags = if write { 2 } else { 1 };
    let nested = Ending::new(NESTED_PAGE_FAULT, &[fault_addr(input), flags]);
    let bare = Ending::new(NESTED_PAGE_FAULT, &[fault_addr(input), 0]);
    match (kind, write) {
        (FaultWord::Load, true) | (FaultWord::Store, false) => {
            if !board.takes(Direction) {
                return;
            }
            // The Rust never looks at the direction.
            let mut twin = input.clone();
            twin.trap.scause = if write { 21 } else { 23 };
            if *rust == by_model(&twin) {
                rust.ending = nested;
                rust.record = input.record.clone();
            } else {
                not_shown(rust, Direction);
            }
        }
        (FaultWord::Other, _) => {
            if rust.ending == bare {
                if board.takes(OtherWordFlags) {
                    rust.ending = nested;
                }
            } else if rust.ending == Ending::error(5) && rust.undecoded == Some(word) {
                if board.takes(UndecodedWord) {
                    rust.ending = nested;
                    rust.undecoded = None;
                }
            } else {
                not_shown(rust, OtherWordFlags);
            }
        }
        _ => {}
    }
}

/// A register of the input; x0 reads 0.
fn register(input: &Input, index: u32) -> u64 {
    match index {
        0 => 0,
        index => input.record.x[index as usize],
    }
}

/// Turns the Rust's outcome of a call into 01's.
pub fn adjust_call(board: &mut Board, call: &Call, rust: &mut Outcome) {
    let (switch, shown) = match *call {
        Call::SetGpr { index, .. } if index > 31 => {
            (RegisterIndex, rust.ending == Ending::new(DONE, &[]))
        }
        Call::InjectInterrupt { vector } | Call::SetVirtualInterruptPending { vector, .. }
            if !allowed(vector) =>
        {
            (VectorError, rust.ending == Ending::error(3))
        }
        _ => return,
    };
    if !board.takes(switch) {
        return;
    }
    if shown {
        rust.ending = Ending::error(1);
    } else {
        not_shown(rust, switch);
    }
}

/// The interrupt vectors that 01 allows.
fn allowed(vector: u64) -> bool {
    vector == 9 || [1, 5, 9].contains(&vector.wrapping_sub(INTERRUPT))
}
