//! W5: closed cases and the wrong answers that they shut out; then injection
//! through each trap that fetches, and all that injects nothing.

use crate::call;
use crate::record::*;
use crate::reply::*;
use crate::tests::{changed, check, each_bit, filled, nothing, with, TOP};

/// Bit 8. In sstatus: the return goes to supervisor mode. In hstatus: the trap
/// came from there. In vsstatus: SPP.
const BIT_8: u64 = 0x100;

/// The start of a trap that fetches, and the words that wait then.
type Start = ([u64; 5], &'static [(usize, u64)]);

/// A virtual instruction; a guest page fault at address 7, READ and WRITE.
const STARTS: [Start; 3] = [
    ([22, 0, 0, 0, 0], &[(54, 2)]),
    ([21, 3, 1, 0, 0], &[(54, 3), (55, 7), (56, 1)]),
    ([23, 3, 1, 0, 0], &[(54, 3), (55, 7), (56, 2)]),
];

/// The faults that are injected, as more and vscause: page, access, misaligned.
const INJECTED: [(u64, u64); 3] = [(1, 12), (2, 1), (3, 0)];

/// Every word different, all ones, zeros; each from user and from supervisor
/// code, and each with sstatus bit 8 clear and set. Nothing waits.
fn records() -> impl Iterator<Item = [u64; 58]> {
    let bases = [filled(), [u64::MAX; 58], [0; 58]];
    let bits = [(0, 0), (0, BIT_8), (BIT_8, 0), (BIT_8, BIT_8)];
    bases.into_iter().flat_map(move |base| {
        bits.map(|(hstatus, sstatus)| {
            let hstatus = base[HSTATUS] & !BIT_8 | hstatus;
            let sstatus = base[SSTATUS] & !BIT_8 | sstatus;
            changed(base, &[(HSTATUS, hstatus), (SSTATUS, sstatus)])
        })
    })
}

/// Starts the trap and compares the ask and the whole later record: what waits
/// is all that changes.
#[track_caller]
fn asked(base: [u64; 58], (numbers, waits): Start) -> [u64; 58] {
    let mut w = base;
    let fetch = ask(ASK_FETCH, &[w[SEPC], u64::from(w[HSTATUS] & BIT_8 != 0)]);
    check(&mut w, 10, numbers, fetch, waits);
    w
}

/// sstatus, hstatus and vsstatus.
type Statuses = [u64; 3];

fn statuses(w: &[u64; 58]) -> Statuses {
    [w[SSTATUS], w[HSTATUS], w[VSSTATUS]]
}

/// What injection makes of them, bit by bit.
fn right([sstatus, hstatus, vsstatus]: Statuses) -> Statuses {
    let bit = |number: u64, at: u64| number >> at & 1;
    let mut later = [0, hstatus, 0];
    for at in 0..64 {
        later[0] |= match at {
            8 => 1 << at,
            _ => bit(sstatus, at) << at,
        };
        later[2] |= match at {
            1 => 0,                      // SIE
            5 => bit(vsstatus, 1) << at, // SPIE
            8 => bit(hstatus, 8) << at,  // SPP
            _ => bit(vsstatus, at) << at,
        };
    }
    later
}

/// A fetch waits: answers it with this fault, and compares the whole later
/// record with an injection that gives these statuses.
#[track_caller]
fn injects(w: &mut [u64; 58], (more, cause): (u64, u64), address: u64, given: Statuses) {
    let later = [
        (SSTATUS, given[0]),
        (HSTATUS, given[1]),
        (VSSTATUS, given[2]),
        (VSEPC, w[SEPC]),
        (VSCAUSE, cause),
        (VSTVAL, address),
        (SEPC, w[VSTVEC] / 4 * 4),
        (54, 0),
    ];
    check(w, 11, [1, address, more, 0, 0], nothing(), &later);
}

/// Each trap that fetches, from its start, with each fault that is injected.
#[track_caller]
fn all_inject(base: [u64; 58], address: u64, given: Statuses) {
    for start in STARTS {
        let w = asked(base, start);
        for fault in INJECTED {
            injects(&mut w.clone(), fault, address, given);
        }
    }
}

/// Makes the call. Of the words that injection writes, none but sepc may
/// change; nor may hstatus and vstvec.
#[track_caller]
fn keeps(w: &mut [u64; 58], kind: u64, numbers: [u64; 5]) -> Reply {
    let before = *w;
    let reply = call(w, kind, numbers);
    let (kept, was) = (&w[SSTATUS..=VSTVAL], &before[SSTATUS..=VSTVAL]);
    assert_eq!(kept, was, "call {kind} {numbers:x?}");
    reply
}

// Closed cases

const USER: u64 = 0x2_0000_0080;
const SUPERVISOR: u64 = 0x2_0000_0180;

/// The statuses before and after an injection.
const CASES: [(Statuses, Statuses); 12] = [
    // 0: the request's: user code, and the return would go there.
    ([0x2000, USER, 0x2], [0x2100, USER, 0x20]),
    // 1: supervisor code, sstatus and hstatus as setup leaves them.
    ([0x2100, SUPERVISOR, 0x2], [0x2100, SUPERVISOR, 0x120]),
    // 2 and 3: sstatus bit 8 is not hstatus bit 8.
    ([0x2000, SUPERVISOR, 0x2], [0x2100, SUPERVISOR, 0x120]),
    ([0x2100, USER, 0x2], [0x2100, USER, 0x20]),
    // 4 to 6: zeros, all ones, all but bit 8.
    ([0, 0, 0], [0x100, 0, 0]),
    ([!0, !0, !0], [!0, !0, !0x2]),
    ([!0x100, !0x100, !0x100], [!0, !0x100, !0x102]),
    // 7 to 9: all ones in one of the three.
    ([!0, 0, 0], [!0, 0, 0]),
    ([0, !0, 0], [0x100, !0, 0x100]),
    ([0, 0, !0], [0x100, 0, !0x102]),
    // 10 and 11: sstatus has bits 1 and 5 too; they stay.
    ([0x2, USER, 0], [0x102, USER, 0]),
    ([0x20, USER, 0x20], [0x120, USER, 0]),
];

#[test]
fn w5_closed_cases() {
    for (before, after) in CASES {
        assert_eq!(right(before), after);
        let [sstatus, hstatus, vsstatus] = before;
        for base in [filled(), [u64::MAX; 58], [0; 58]] {
            let set = [(SSTATUS, sstatus), (HSTATUS, hstatus), (VSSTATUS, vsstatus)];
            all_inject(changed(base, &set), 0xabc, after);
        }
    }
}

/// A wrong answer: what it is, its rule, the case that notices it, and what it
/// would give there.
type Wrong = (&'static str, fn(Statuses) -> Statuses, usize, Statuses);

/// The right answer but for sstatus.
fn but_sstatus(before: Statuses, sstatus: u64) -> Statuses {
    let [_, hstatus, vsstatus] = right(before);
    [sstatus, hstatus, vsstatus]
}

/// The right answer but for SPP, which is bit 8 of this number.
fn but_spp(before: Statuses, spp: u64) -> Statuses {
    let [sstatus, hstatus, vsstatus] = right(before);
    [sstatus, hstatus, vsstatus & !BIT_8 | spp & BIT_8]
}

const WRONG: [Wrong; 22] = [
    (
        "leaves sstatus",
        |before| but_sstatus(before, before[0]),
        0,
        [0x2000, USER, 0x20],
    ),
    (
        "sets bit 8 of hstatus instead",
        |[s, h, v]| [s, h | BIT_8, right([s, h, v])[2]],
        0,
        [0x2000, SUPERVISOR, 0x20],
    ),
    (
        "sets bit 8 of hstatus too",
        |[s, h, v]| [s | BIT_8, h | BIT_8, right([s, h, v])[2]],
        0,
        [0x2100, SUPERVISOR, 0x20],
    ),
    (
        "sets bit 8 of hstatus too, and SPP from it",
        |[s, h, v]| right([s, h | BIT_8, v]),
        0,
        [0x2100, SUPERVISOR, 0x120],
    ),
    (
        "clears bit 8 of hstatus",
        |[s, h, v]| [s | BIT_8, h & !BIT_8, right([s, h, v])[2]],
        1,
        [0x2100, USER, 0x120],
    ),
    (
        "sets bit 8 of vsstatus instead",
        |before| [before[0], before[1], right(before)[2] | BIT_8],
        0,
        [0x2000, USER, 0x120],
    ),
    (
        "clears the other bits of sstatus",
        |before| but_sstatus(before, BIT_8),
        0,
        [0x100, USER, 0x20],
    ),
    (
        "sets sstatus as setup does",
        |before| but_sstatus(before, 0x2100),
        4,
        [0x2100, 0, 0],
    ),
    (
        "sets sstatus to vsstatus with the bit",
        |before| but_sstatus(before, right(before)[2] | BIT_8),
        0,
        [0x120, USER, 0x20],
    ),
    (
        "sets bit 1",
        |before| but_sstatus(before, before[0] | 1 << 1),
        0,
        [0x2002, USER, 0x20],
    ),
    (
        "sets bit 5",
        |before| but_sstatus(before, before[0] | 1 << 5),
        0,
        [0x2020, USER, 0x20],
    ),
    (
        "sets bit 7",
        |before| but_sstatus(before, before[0] | 1 << 7),
        0,
        [0x2080, USER, 0x20],
    ),
    (
        "turns bit 8",
        |before| but_sstatus(before, before[0] ^ BIT_8),
        1,
        [0x2000, SUPERVISOR, 0x120],
    ),
    (
        "adds bit 8",
        |before| but_sstatus(before, before[0].wrapping_add(BIT_8)),
        1,
        [0x2200, SUPERVISOR, 0x120],
    ),
    (
        "copies hstatus bit 8",
        |before| but_sstatus(before, before[0] & !BIT_8 | before[1] & BIT_8),
        3,
        [0x2000, USER, 0x20],
    ),
    (
        "sets the bit for supervisor code alone",
        |before| but_sstatus(before, before[0] | before[1] & BIT_8),
        0,
        [0x2000, USER, 0x20],
    ),
    (
        "sets the bit for user code alone",
        |before| but_sstatus(before, before[0] | !before[1] & BIT_8),
        2,
        [0x2000, SUPERVISOR, 0x120],
    ),
    (
        "takes SPP from the later sstatus",
        |before| but_spp(before, right(before)[0]),
        0,
        [0x2100, USER, 0x120],
    ),
    (
        "takes SPP from the earlier sstatus",
        |before| but_spp(before, before[0]),
        2,
        [0x2100, SUPERVISOR, 0x20],
    ),
    (
        "leaves SPP",
        |before| but_spp(before, before[2]),
        1,
        [0x2100, SUPERVISOR, 0x20],
    ),
    (
        "clears SIE of sstatus too",
        |before| but_sstatus(before, right(before)[0] & !(1 << 1)),
        10,
        [0x100, USER, 0],
    ),
    (
        "sets SPIE of sstatus from its SIE too",
        |before| but_sstatus(before, right(before)[0] & !(1 << 5) | (before[0] & 2) << 4),
        11,
        [0x100, USER, 0],
    ),
];

#[test]
fn w5_wrong_answers_are_noticed() {
    for (what, rule, number, gives) in WRONG {
        let (before, after) = CASES[number];
        assert_eq!(rule(before), gives, "{what}");
        assert_ne!(gives, after, "{what}");
    }
}

// Injection

#[test]
fn w5_user_and_supervisor_code() {
    for base in records() {
        for address in [0, 1, 0xabc, BIT_8, TOP, u64::MAX] {
            all_inject(base, address, right(statuses(&base)));
        }
    }
}

#[test]
fn w5_each_bit_of_the_three_words() {
    for base in records() {
        for word in [SSTATUS, HSTATUS, VSSTATUS] {
            for number in each_bit() {
                let base = changed(base, &[(word, number)]);
                all_inject(base, 5, right(statuses(&base)));
            }
        }
    }
    // Bits 1, 5 and 8 of the three: every pattern, with the others clear and
    // set.
    let bits = |pattern: u64| (pattern & 1) << 1 | (pattern & 2) << 4 | (pattern & 4) << 6;
    for pattern in 0..1 << 9 {
        for others in [0, !0x122] {
            let set = [
                (SSTATUS, others | bits(pattern)),
                (HSTATUS, others | bits(pattern >> 3)),
                (VSSTATUS, others | bits(pattern >> 6)),
            ];
            let base = with(&set);
            all_inject(base, 5, right(statuses(&base)));
        }
    }
}

#[test]
fn w5_the_other_words_change_nothing() {
    // Each word by itself holds any number. The kind of what waits has its own
    // tests below.
    for (before, after) in CASES {
        let [sstatus, hstatus, vsstatus] = before;
        let base = with(&[(SSTATUS, sstatus), (HSTATUS, hstatus), (VSSTATUS, vsstatus)]);
        let others = (0..58).filter(|word| !(SSTATUS..=VSSTATUS).contains(word) && *word != WAITS);
        for word in others {
            for number in [0, 1, 2, 3, BIT_8, !BIT_8, TOP, u64::MAX] {
                all_inject(changed(base, &[(word, number)]), 5, after);
            }
        }
    }
    // A waiting access is of no matter, nor are waiting numbers that no trap
    // leaves.
    for base in records() {
        for (kind, access) in [(2, 0), (2, 4), (3, 0), (3, 4), (3, u64::MAX)] {
            for fault in INJECTED {
                let mut w = changed(base, &[(54, kind), (55, 9), (56, access)]);
                injects(&mut w, fault, 5, right(statuses(&base)));
            }
        }
    }
}

#[test]
fn w5_fault_after_fault() {
    // The guest of the request, from user code.
    let mut w = [0; 58];
    call(&mut w, 1, [0; 5]);
    let set = [(SSTATUS, 0x2000), (HSTATUS, USER), (VSTVEC, 0x80200001)];
    w = changed(w, &set);
    w = changed(w, &[(SEPC, 0x1000), (VSSTATUS, 2)]);
    w = asked(w, STARTS[1]);
    injects(&mut w, (1, 12), 0x1000, [0x2100, USER, 0x20]);
    assert_eq!((w[VSEPC], w[SEPC]), (0x1000, 0x80200000));
    // No ask waits behind it.
    check(&mut w, 11, [1, 0x1000, 1, 0, 0], error(7), &[]);
    // "hstatus stays" (W5): on this record the next fetch is a user's, and so
    // is SPP.
    check(
        &mut w,
        10,
        [22, 0, 0, 0, 0],
        ask(ASK_FETCH, &[0x80200000, 0]),
        &[(54, 2)],
    );
    injects(&mut w, (2, 1), 0x80200000, [0x2100, USER, 0]);
    // From the guest's kernel.
    w = changed(w, &[(HSTATUS, SUPERVISOR), (VSSTATUS, 2)]);
    check(
        &mut w,
        10,
        [23, 3, 1, 0, 0],
        ask(ASK_FETCH, &[0x80200000, 1]),
        &[(54, 3), (55, 7), (56, 2)],
    );
    injects(&mut w, (3, 0), 6, [0x2100, SUPERVISOR, 0x120]);
}

// All that injects nothing

#[test]
fn w5_guest_page_and_unhandled_faults_stay() {
    for base in records() {
        for start in STARTS {
            let w = asked(base, start);
            for address in [0, 5, BIT_8, u64::MAX] {
                let nested = exit(NESTED_PAGE_FAULT, &[address, 4]);
                let numbers = [1, address, 4, 0, 0];
                check(&mut w.clone(), 11, numbers, nested, &[(54, 0)]);
                // Any other number is taken for 5.
                for more in [5, 6, 12, BIT_8 + 1, (1 << 32) + 1, TOP + 3, u64::MAX] {
                    let numbers = [1, address, more, 0, 0];
                    check(&mut w.clone(), 11, numbers, error(6), &[(54, 0)]);
                }
            }
        }
    }
}

#[test]
fn w5_instructions_change_no_status() {
    // Fetched, and the same word in stval or htinst, where nothing is asked.
    for base in records() {
        let base = changed(base, &[(5, 9), (7, 0x8182_8384_8586_8788)]);
        let (sepc, count) = (base[SEPC], base[EVENTS + 1].wrapping_add(1));
        let moved = |length| (SEPC, sepc.wrapping_add(length));
        let both = |start: Start, word: u64, reply: Reply, later: &[(usize, u64)]| {
            let mut w = asked(base, start);
            check(&mut w, 11, [1, word, 0, 0, 0], reply, later);
            let [scause, stval, htval, ..] = start.0;
            let numbers = match scause {
                22 => [22, word, 0, 0, 0],
                _ => [scause, stval, htval, word, 0],
            };
            check(&mut base.clone(), 10, numbers, reply, later);
        };
        let [virtual_instruction, read, write] = STARTS;

        // csrw stimecmp, x5; funct3 4.
        let later = [(VSTIMECMP, 9), moved(4), (54, 0)];
        both(virtual_instruction, 0x14D29073, nothing(), &later);
        let later = [(EVENTS + 1, count), (54, 0)];
        both(virtual_instruction, 0x14D04073, error(3), &later);
        // lw x7, sw x7.
        let later = [(54, 1), (55, 7), (56, 4), (57, 1), moved(4)];
        both(read, 0x2383, exit(MMIO_READ, &[7, 4]), &later);
        let mmio = exit(MMIO_WRITE, &[7, 4, 0x8586_8788]);
        both(write, 0x702023, mmio, &[moved(4), (54, 0)]);
        // A load under 23, a store under 21, neither.
        for word in [0x2383, 0x13] {
            let nested = exit(NESTED_PAGE_FAULT, &[7, 2]);
            both(write, word, nested, &[(54, 0)]);
        }
        for word in [0x702023, 0x13] {
            let nested = exit(NESTED_PAGE_FAULT, &[7, 1]);
            both(read, word, nested, &[(54, 0)]);
        }

        // Fetched alone: c.lw x14, a length that is not decoded, a word under
        // 22 that doesn't end in 0x73.
        let mut w = asked(base, read);
        let later = [(54, 1), (55, 14), (56, 4), (57, 1), moved(2)];
        let mmio = exit(MMIO_READ, &[7, 4]);
        check(&mut w, 11, [1, 0x43D8, 0, 0, 0], mmio, &later);
        check(&mut w, 12, [5; 5], done(), &[(14, 5), (54, 0)]);
        for start in [read, write] {
            let mut w = asked(base, start);
            check(&mut w, 11, [1, 0x1f, 0, 0, 0], error(5), &[(54, 0)]);
        }
        let mut w = asked(base, virtual_instruction);
        let later = [(EVENTS + 1, count), (54, 0)];
        check(&mut w, 11, [1, 0x2383, 0, 0, 0], error(3), &later);
    }
}

#[test]
fn w5_other_traps_change_no_status() {
    for base in records() {
        // The page, access and misaligned faults themselves (12, 1, 0, and
        // their like 13, 15, 20) are not handled, nor is any other class.
        let ends = |scause, reply| {
            let mut w = base;
            check(&mut w, 10, [scause, 5, 5, 0, 0], reply, &[(54, 0)]);
        };
        for code in (0..10).chain([11, 12, 13, 15, 20]) {
            ends(code, error(3));
        }
        for code in [14, 16, 17, 18, 19, 24, TOP - 1, TOP + 13, u64::MAX] {
            ends(code, error(4));
        }
        for code in 0..=12 {
            let reply = match code {
                1 | 5 | 9 => exit(EXTERNAL_INTERRUPT, &[TOP + code]),
                _ => error(3),
            };
            ends(TOP + code, reply);
        }
        // Ecalls, with answers whose numbers are those of a fault: each row of
        // 01. a0 = 4 and a2 = 0 make the console ask.
        let eids = (0..=9)
            .chain([0x54494D45, 0x735049, 0x48534D, 0x485643])
            .chain([0x53525354, 0x4442434E, 0x52464E43, 0x504D55, 0x10]);
        for eid in eids {
            for fid in 0..=7 {
                for (word, more) in [(0, 1), (4, 1), (8, 2), (0, 3), (4, 3), (5, 4), (5, 5)] {
                    let set = [(17, eid), (16, fid), (10, 4), (11, 0x8000), (12, 0)];
                    let mut w = changed(base, &set);
                    let mut reply = keeps(&mut w, 10, [10, 0, 0, 0, 4096]);
                    while reply.kind == 1 {
                        reply = keeps(&mut w, 11, [reply.number, word, more, 0, 0]);
                    }
                }
            }
        }
        // The asks of an ecall, by what waits: kinds 4 to 12.
        for (waits, number) in (4..).zip([2, 3, 4, 5, 6, 7, 7, 8, 9]) {
            for more in 0..=6 {
                let mut w = changed(base, &[(WAITS, waits)]);
                assert_ne!(keeps(&mut w, 11, [number, 5, more, 0, 0]), error(7));
            }
        }
    }
}

#[test]
fn w5_a_refused_answer_changes_nothing() {
    for base in records() {
        for start in STARTS {
            // The answer is of another ask's kind. The ask goes on waiting.
            let mut w = asked(base, start);
            for more in 0..=6 {
                for number in [0].into_iter().chain(2..=12).chain([TOP + 1, u64::MAX]) {
                    check(&mut w, 11, [number, 5, more, 0, 0], error(7), &[]);
                }
            }
            // A second start and a load completion are refused with 2.
            check(&mut w, 10, start.0, error(2), &[]);
            check(&mut w, 12, [5; 5], error(2), &[]);
            for fault in INJECTED {
                injects(&mut w.clone(), fault, 5, right(statuses(&base)));
            }
        }
        // No ask waits, a load, an unknown kind, an ask that is no fetch.
        for waits in [0, 1].into_iter().chain(4..=13).chain([u64::MAX]) {
            for more in 0..=6 {
                let mut w = changed(base, &[(WAITS, waits)]);
                check(&mut w, 11, [1, 5, more, 0, 0], error(7), &[]);
            }
        }
    }
}

#[test]
fn w5_a_hosts_calls_change_no_status() {
    for base in records() {
        // A vector made pending is no injection.
        for (vector, bit) in [(TOP + 1, 2), (TOP + 5, 6), (9, 10), (TOP + 9, 10)] {
            let later = [(HVIP, base[HVIP] | 1 << bit)];
            check(&mut base.clone(), 7, [vector, 1, 0, 0, 0], done(), &later);
            let later = [(HVIP, base[HVIP] & !(1 << bit))];
            check(&mut base.clone(), 7, [vector, 0, 0, 0, 0], done(), &later);
        }
        for (kind, numbers) in [
            (2, [5; 5]),
            (3, [10, 0, 0, 0, 0]),
            (4, [10, 6, 0, 0, 0]),
            (5, [5; 5]),
            (6, [3, 8, 0x4000, 0, 0]),
            (7, [12, 1, 0, 0, 0]),
            (8, [u64::MAX; 5]),
            (9, [0; 5]),
            (9, [1; 5]),
            (12, [5; 5]),
            (13, [5; 5]),
        ] {
            keeps(&mut base.clone(), kind, numbers);
        }
        // Setup and new write it as 01 has it.
        let mut w = base;
        call(&mut w, 1, [0; 5]);
        assert_eq!(statuses(&w), [0x2100, SUPERVISOR, base[VSSTATUS]]);
        call(&mut w, 14, [0; 5]);
        assert_eq!(statuses(&w), [0, 0, 0]);
    }
}

// Any words

#[test]
fn w5_any_words() {
    let mut state: u64 = 5;
    let mut random = || {
        // xorshift
        state ^= state << 13;
        state ^= state >> 7;
        state ^= state << 17;
        state
    };
    let mut injections = 0;
    for _ in 0..100_000 {
        let mut w = [0; 58];
        w.fill_with(&mut random);
        // Mostly a fetch, and mostly a fault of it.
        w[WAITS] = [2, 3, random() % 14, random()][random() as usize % 4];
        let number = [1, 1, 1, random() % 10][random() as usize % 4];
        let more = [random() % 6, random()][random() as usize % 8 / 7];
        let address = random();
        match (w[WAITS], number, more) {
            (2 | 3, 1, 1..=3) => {
                let cause = [12, 1, 0][more as usize - 1];
                let given = right(statuses(&w));
                injects(&mut w, (more, cause), address, given);
                injections += 1;
            }
            _ => {
                keeps(&mut w, 11, [number, address, more, 0, 0]);
            }
        }
    }
    assert!(injections > 10_000, "{injections}");
}
