//! The marked cases, the refusal table, the rules of the waiting words and
//! each rule of 01 by an example; then W1 and W2, each with what it says stays.
//! W4 stands in posts_tests.rs, W5 in injection_tests.rs.

use super::*;

pub const TOP: u64 = 1 << 63;

/// A record with a different number in each word and nothing waiting.
/// hstatus bit 8 is clear.
pub fn filled() -> [u64; 58] {
    let mut words = [0; 58];
    for (i, word) in words.iter_mut().enumerate() {
        *word = 0x1111_0000_0000_0000 + 0x1_0000_0000 * i as u64 + 4 * i as u64;
    }
    words[HSTATUS] = 0x2_0000_0080;
    words[WAITS] = 0;
    words
}

/// `filled` with these words set.
pub fn with(set: &[(usize, u64)]) -> [u64; 58] {
    changed(filled(), set)
}

pub fn changed(mut words: [u64; 58], set: &[(usize, u64)]) -> [u64; 58] {
    for &(word, number) in set {
        words[word] = number;
    }
    words
}

/// An ecall's record: a7, a6, then a0 on.
fn ecall_record(eid: u64, fid: u64, args: &[u64]) -> [u64; 58] {
    let mut words = with(&[(17, eid), (16, fid)]);
    for (i, &arg) in args.iter().enumerate() {
        words[10 + i] = arg;
    }
    words
}

/// Makes the call and compares the reply and the whole later record: the
/// earlier one with these words set.
#[track_caller]
pub fn check(
    words: &mut [u64; 58],
    kind: u64,
    numbers: [u64; 5],
    reply: Reply,
    later: &[(usize, u64)],
) {
    let expected = changed(*words, later);
    assert_eq!(call(words, kind, numbers), reply);
    assert_eq!(*words, expected);
}

#[track_caller]
fn ecall(words: &mut [u64; 58], reply: Reply, later: &[(usize, u64)]) {
    check(words, 10, [10, 0, 0, 0, 4096], reply, later);
}

fn next(words: &[u64; 58]) -> u64 {
    words[SEPC].wrapping_add(4)
}

pub fn nothing() -> Reply {
    exit(NOTHING, &[])
}

// Marked cases

#[test]
fn case_1_time_wraps_sepc() {
    let mut w = changed(ecall_record(0x54494D45, 0, &[5]), &[(SEPC, u64::MAX - 3)]);
    let events = w[EVENTS] + 1;
    ecall(
        &mut w,
        nothing(),
        &[
            (VSTIMECMP, 5),
            (SEPC, 0),
            (10, 0),
            (11, 0),
            (EVENTS, events),
        ],
    );
}

#[test]
fn case_2_legacy_6_keeps_a0() {
    let mut w = ecall_record(6, 0, &[77]);
    let sepc = next(&w);
    ecall(&mut w, nothing(), &[(SEPC, sepc)]);
    assert_eq!(w[10], 77);
}

#[test]
fn case_3_legacy_8_is_system_down() {
    ecall(&mut ecall_record(8, 0, &[]), exit(SYSTEM_DOWN, &[]), &[]);
}

#[test]
fn case_4_reads_rs1_before_writing_rd() {
    let mut w = with(&[(VSTIMECMP, 7), (5, 9)]);
    let sepc = next(&w);
    check(
        &mut w,
        10,
        [22, 0x14D292F3, 0, 0, 0],
        nothing(),
        &[(5, 7), (VSTIMECMP, 9), (SEPC, sepc)],
    );
}

#[test]
fn case_5_field_0_does_not_write() {
    let mut w = with(&[(VSTIMECMP, 7)]);
    let sepc = next(&w);
    check(
        &mut w,
        10,
        [22, 0x14D02373, 0, 0, 0],
        nothing(),
        &[(6, 7), (SEPC, sepc)],
    );
}

#[test]
fn case_6_field_as_a_number() {
    let mut w = with(&[(VSTIMECMP, 7)]);
    let sepc = next(&w);
    check(
        &mut w,
        10,
        [22, 0x14D1F073, 0, 0, 0],
        nothing(),
        &[(VSTIMECMP, 4), (SEPC, sepc)],
    );
}

#[test]
fn case_7_funct3_4_is_error_3_and_event_2() {
    let mut w = filled();
    let events = w[EVENTS + 1] + 1;
    check(
        &mut w,
        10,
        [22, 0x14D04073, 0, 0, 0],
        error(3),
        &[(EVENTS + 1, events)],
    );
}

#[test]
fn case_8_pseudo_and_length() {
    for scause in [21, 23] {
        check(&mut filled(), 10, [scause, 0, 0, 0x3000, 0], error(3), &[]);
        check(&mut filled(), 10, [scause, 0, 0, 0x2000, 0], error(5), &[]);
    }
}

#[test]
fn case_9_store() {
    for (htinst, length) in [(0x702023, 4), (0x702021, 2)] {
        let mut w = with(&[(7, 0xFFFFFFFF12345678)]);
        let sepc = w[SEPC] + length;
        check(
            &mut w,
            10,
            [23, 0, 0x4000000, htinst, 0],
            exit(MMIO_WRITE, &[0x10000000, 4, 0x12345678]),
            &[(SEPC, sepc)],
        );
    }
}

#[test]
fn case_10_load_completion() {
    for (htinst, signed, x7) in [(0x2383, 1, 0xFFFFFFFF80000000), (0x6383, 0, 0x80000000)] {
        let mut w = filled();
        let sepc = next(&w);
        check(
            &mut w,
            10,
            [21, 0, 0x4000000, htinst, 0],
            exit(MMIO_READ, &[0x10000000, 4]),
            &[(SEPC, sepc), (54, 1), (55, 7), (56, 4), (57, signed)],
        );
        check(
            &mut w,
            12,
            [0x80000000, 0, 0, 0, 0],
            done(),
            &[(7, x7), (54, 0)],
        );
    }
}

#[test]
fn case_11_page_table() {
    check(
        &mut filled(),
        6,
        [3, 8, 0x80004000, 0, 0],
        done(),
        &[(HGATP, 0x8000000000080004)],
    );
}

#[test]
fn case_12_injected_page_fault() {
    for waits in [2, 3] {
        let mut w = with(&[
            (VSTVEC, 0x80200001),
            (VSSTATUS, 2),
            (HSTATUS, 0x100),
            (WAITS, waits),
        ]);
        let sepc = w[SEPC];
        // "Case 12 gains that bit." (W5)
        let sstatus = w[SSTATUS] | 0x100;
        check(
            &mut w,
            11,
            [1, 0xabc, 1, 0, 0],
            nothing(),
            &[
                (VSEPC, sepc),
                (VSCAUSE, 12),
                (VSTVAL, 0xabc),
                (VSSTATUS, 0x120),
                (SSTATUS, sstatus),
                (SEPC, 0x80200000),
                (WAITS, 0),
            ],
        );
    }
}

// The refusal table

#[test]
fn refusal_1_invalid_input() {
    let refused = [
        (3, [32, 0, 0, 0, 0]),
        (3, [u64::MAX, 0, 0, 0, 0]),
        (4, [32, 5, 0, 0, 0]),
        (6, [2, 8, 0, 0, 0]),
        (6, [3, 9, 0, 0, 0]),
        (6, [4, 8, 0, 0, 0]),
        (6, [5, 10, 0, 0, 0]),
        (6, [3, 8, 0x2000, 0, 0]),
        (6, [4, 9, 1, 0, 0]),
        (7, [1, 1, 0, 0, 0]),
        (7, [5, 1, 0, 0, 0]),
        (7, [0, 0, 0, 0, 0]),
        (7, [TOP, 1, 0, 0, 0]),
        (7, [TOP + 10, 1, 0, 0, 0]),
        (0, [0; 5]),
        (15, [0; 5]),
        (u64::MAX, [0; 5]),
    ];
    for (kind, numbers) in refused {
        check(&mut filled(), kind, numbers, error(1), &[]);
    }
    // Register read is refused with 1 while an ask waits too, and so is no
    // call at all.
    let mut w = with(&[(WAITS, 12)]);
    check(&mut w, 3, [32, 0, 0, 0, 0], error(1), &[]);
    check(&mut w, 15, [0; 5], error(1), &[]);
}

#[test]
fn refusal_2_bad_state() {
    for waits in 2..=12 {
        // Also where the input is not allowed (2 goes before 1) and where
        // nothing would change.
        let refused = [
            (1, [0; 5]),
            (2, [0; 5]),
            (4, [0; 5]),
            (4, [32, 0, 0, 0, 0]),
            (5, [0; 5]),
            (6, [3, 8, 0, 0, 0]),
            (6, [0; 5]),
            (7, [9, 1, 0, 0, 0]),
            (7, [0; 5]),
            (8, [0; 5]),
            (9, [0; 5]),
            (10, [10, 0, 0, 0, 0]),
            (10, [u64::MAX, 0, 0, 0, 0]),
            (12, [0; 5]),
        ];
        for (kind, numbers) in refused {
            check(&mut with(&[(WAITS, waits)]), kind, numbers, error(2), &[]);
        }
    }
    // A start while a load waits, a load completion with none waiting.
    check(
        &mut with(&[(WAITS, 1)]),
        10,
        [u64::MAX, 0, 0, 0, 0],
        error(2),
        &[],
    );
    for waits in [0, 13, u64::MAX] {
        check(&mut with(&[(WAITS, waits)]), 12, [5; 5], error(2), &[]);
    }
}

#[test]
fn error_3_unsupported() {
    for code in [0, 2, 3, 4, 6, 7, 8, 10, 11, 12] {
        check(&mut filled(), 10, [TOP + code, 0, 0, 0, 0], error(3), &[]);
    }
    for code in [0, 1, 2, 3, 4, 5, 6, 7, 8, 9, 11, 12, 13, 15, 20] {
        check(&mut filled(), 10, [code, 0, 0, 0, 0], error(3), &[]);
    }
    for htinst in [0x3000, 0x3020, (1 << 32) + 0x3000, (7 << 32) + 0x3020] {
        check(&mut filled(), 10, [21, 0, 0, htinst, 0], error(3), &[]);
    }
    // Another CSR, funct3 0 and 4, and a fetched word that doesn't end in 0x73.
    for word in [0x14E29273, 0x14D00073, 0x14D04073, 0x14D29203, 0x1F, 0x3000] {
        let mut w = with(&[(WAITS, 2)]);
        let events = w[EVENTS + 1] + 1;
        check(
            &mut w,
            11,
            [1, word, 0, 0, 0],
            error(3),
            &[(EVENTS + 1, events), (WAITS, 0)],
        );
    }
}

#[test]
fn error_4_invalid_trap() {
    let unknown = [
        14,
        16,
        17,
        18,
        19,
        24,
        63,
        (1 << 32) + 10,
        TOP - 1,
        TOP + 13,
        TOP + (1 << 32) + 1,
        u64::MAX,
    ];
    for scause in unknown {
        check(&mut filled(), 10, [scause, 0, 0, 0, 0], error(4), &[]);
    }
}

#[test]
fn error_5_decode_failed() {
    for htinst in [2, 4, 0x2000, 0x702022, 1 << 32] {
        check(&mut filled(), 10, [23, 0, 0, htinst, 0], error(5), &[]);
    }
    // Fetched: low five bits 1, also with an access that is EXECUTE.
    for access in [1, 2, 4, 0, u64::MAX] {
        let mut w = with(&[(54, 3), (56, access)]);
        check(
            &mut w,
            11,
            [1, 0xffff_ffff_0000_001f, 0, 0, 0],
            error(5),
            &[(WAITS, 0)],
        );
    }
    // The rule is not asked of htinst: it decodes as nothing.
    check(
        &mut filled(),
        10,
        [23, 3, 1, 0x1f, 0],
        exit(NESTED_PAGE_FAULT, &[7, 2]),
        &[],
    );
}

#[test]
fn error_6_guest_memory_fault() {
    for waits in [2, 3] {
        for more in [5, 6, u64::MAX] {
            check(
                &mut with(&[(WAITS, waits)]),
                11,
                [1, 9, more, 0, 0],
                error(6),
                &[(WAITS, 0)],
            );
        }
    }
}

#[test]
fn refusal_7_wrong_answer() {
    let ask_of = [
        (2, 1),
        (3, 1),
        (4, 2),
        (5, 3),
        (6, 4),
        (7, 5),
        (8, 6),
        (9, 7),
        (10, 7),
        (11, 8),
        (12, 9),
    ];
    for (waits, number) in ask_of {
        for answer in (0..=20).chain([u64::MAX]) {
            let mut w = with(&[(WAITS, waits)]);
            let reply = call(&mut w, 11, [answer, 0, 0, 0, 0]);
            assert_eq!(reply == error(7), answer != number);
            if answer != number {
                assert_eq!(w, with(&[(WAITS, waits)]));
            }
        }
    }
    // No ask waits: nothing, a load, an unknown kind.
    for waits in [0, 1, 13, u64::MAX] {
        for answer in 0..=10 {
            check(
                &mut with(&[(WAITS, waits)]),
                11,
                [answer, 0, 0, 0, 0],
                error(7),
                &[],
            );
        }
    }
}

// The waiting words

#[test]
fn waiting_words_reads_leave_all() {
    for waits in (0..=14).chain([u64::MAX]) {
        let mut w = with(&[(WAITS, waits)]);
        let x5 = w[5];
        check(&mut w, 3, [5, 0, 0, 0, 0], value(x5), &[]);
        check(&mut w, 3, [0, 0, 0, 0, 0], value(0), &[]);
        let n = if waits == 6 { w[55] } else { 0 };
        check(&mut w, 13, [u64::MAX, 0, 0, 0, 0], value(n), &[]);
    }
}

#[test]
fn waiting_words_stay_under_a_hosts_call() {
    // Nothing, a waiting load, unknown kinds.
    for waits in [0, 1, 13, u64::MAX] {
        let base = with(&[(WAITS, waits)]);
        check(
            &mut base.clone(),
            1,
            [0; 5],
            done(),
            &[
                (SSTATUS, 0x2100),
                (HSTATUS, 0x200000180),
                (HIE, 0x444),
                (VSTIMECMP, u64::MAX),
                (HVIP, 0),
                (HGEIE, 0),
            ],
        );
        check(&mut base.clone(), 2, [3; 5], done(), &[(SEPC, 3)]);
        check(&mut base.clone(), 4, [7, 3, 0, 0, 0], done(), &[(7, 3)]);
        check(&mut base.clone(), 4, [0, 3, 0, 0, 0], done(), &[]);
        check(&mut base.clone(), 5, [3; 5], done(), &[(10, 3)]);
        check(
            &mut base.clone(),
            6,
            [4, 9, u64::MAX << 14, 0, 0],
            done(),
            &[(HGATP, 0x9000_0fff_ffff_fffc)],
        );
        check(
            &mut base.clone(),
            8,
            [u64::MAX; 5],
            done(),
            &[(HVIP, u64::MAX)],
        );
        check(&mut base.clone(), 9, [0; 5], done(), &[(10, 0)]);
    }
}

#[test]
fn waiting_words_under_new() {
    for waits in (0..=14).chain([u64::MAX]) {
        let mut w = with(&[(WAITS, waits)]);
        assert_eq!(call(&mut w, 14, [4, 5, 6, 7, 8]), done());
        assert_eq!(w, changed([0; 58], &[(10, 4), (11, 5)]));
    }
}

#[test]
fn waiting_words_of_a_start() {
    // An unknown kind is nothing waiting; a start that is taken writes the
    // kind, and of the numbers only those that the kind carries.
    for unknown in [0, 13, u64::MAX] {
        let base = with(&[(WAITS, unknown)]);
        let sepc = base[SEPC];
        check(
            &mut base.clone(),
            10,
            [TOP + 5, 0, 0, 0, 0],
            exit(EXTERNAL_INTERRUPT, &[TOP + 5]),
            &[(54, 0)],
        );
        check(
            &mut base.clone(),
            10,
            [14, 0, 0, 0, 0],
            error(4),
            &[(54, 0)],
        );
        check(
            &mut base.clone(),
            10,
            [22, 0, 0, 0, 0],
            ask(ASK_FETCH, &[sepc, 0]),
            &[(54, 2)],
        );
        check(
            &mut base.clone(),
            10,
            [23, 7, TOP + 4, 0, 0],
            ask(ASK_FETCH, &[sepc, 0]),
            &[(54, 3), (55, 19), (56, 2)],
        );
        let supervisor = changed(base, &[(HSTATUS, 0x180)]);
        check(
            &mut supervisor.clone(),
            10,
            [21, 0, 4, 0, 0],
            ask(ASK_FETCH, &[sepc, 1]),
            &[(54, 3), (55, 16), (56, 1)],
        );
    }
}

#[test]
fn waiting_words_of_an_answer_and_a_load_completion() {
    // Copy in leads to print, console read to copy out; all else ends.
    check(
        &mut with(&[(54, 5), (55, 9)]),
        11,
        [3, 9, 1, 0, 0],
        ask(ASK_PRINT, &[9]),
        &[(54, 6)],
    );
    check(
        &mut with(&[(54, 7), (55, 9), (56, 0x8000)]),
        11,
        [5, 0, 4, 0, 0],
        ask(ASK_COPY_OUT, &[0x8000, 4]),
        &[(54, 8), (55, 4)],
    );
    for waits in 2..=12 {
        let mut w = with(&[(WAITS, waits), (55, 9)]);
        let kept = [w[55], w[56], w[57]];
        let number = ask_number(&mut w);
        call(&mut w, 11, [number, 0, 0, 0, 0]);
        assert_eq!(w[54..], [0, kept[0], kept[1], kept[2]]);
    }
    // A load's numbers: bytes other than 1, 2, 4 are 8, any sign but 0 is
    // yes, and rd 0 or above 31 writes no register.
    for (rd, bytes, sign, later) in [
        (7, 1, 9, Some(!0x7f)),
        (7, 1, 0, Some(0x80)),
        (7, 2, 1, Some(!0x7f7f)),
        (7, 4, 1, Some(!0x7f7f_7f7f)),
        (7, 8, 1, Some(0x8080_8080_8080_8080)),
        (7, 3, 0, Some(0x8080_8080_8080_8080)),
        (0, 8, 0, None),
        (32, 8, 0, None),
        (u64::MAX, 8, 0, None),
    ] {
        let mut w = with(&[(54, 1), (55, rd), (56, bytes), (57, sign)]);
        let numbers = [0x8080_8080_8080_8080, 0, 0, 0, 0];
        match later {
            Some(x) => check(&mut w, 12, numbers, done(), &[(7, x), (54, 0)]),
            None => check(&mut w, 12, numbers, done(), &[(54, 0)]),
        }
    }
}

fn ask_number(words: &mut [u64; 58]) -> u64 {
    Record(words).waits().ask_number().unwrap()
}

#[test]
fn waiting_fetch_with_execute_decodes_nothing() {
    for word in [0x2383, 0x702023, 0x13, 0x2381]
        .into_iter()
        .chain(c_words())
    {
        check(
            &mut with(&[(54, 3), (55, 0x1000), (56, 3)]),
            11,
            [1, word, 0, 0, 0],
            exit(NESTED_PAGE_FAULT, &[0x1000, 4]),
            &[(54, 0)],
        );
    }
}

// Host's calls

#[test]
fn interrupt_pending_bits() {
    for (vector, bit) in [(TOP + 1, 2), (TOP + 5, 6), (9, 10), (TOP + 9, 10)] {
        for hvip in [0, u64::MAX] {
            let mut w = with(&[(HVIP, hvip)]);
            check(
                &mut w,
                7,
                [vector, 2, 0, 0, 0],
                done(),
                &[(HVIP, hvip | 1 << bit)],
            );
            check(
                &mut w,
                7,
                [vector, 0, 0, 0, 0],
                done(),
                &[(HVIP, hvip & !(1 << bit))],
            );
        }
    }
}

#[test]
fn ipi_completions() {
    for (given, result) in [(0, 0), (INVALID_PARAM, INVALID_PARAM), (FAILED, FAILED)]
        .into_iter()
        .chain([(1, FAILED), (NOT_SUPPORTED, FAILED)])
    {
        check(
            &mut filled(),
            9,
            [0, given, 0, 0, 0],
            done(),
            &[(10, result)],
        );
        check(
            &mut filled(),
            9,
            [2, given, 0, 0, 0],
            done(),
            &[(10, result), (11, 0)],
        );
    }
}

#[test]
fn bytes_to_print_are_all_n_or_none() {
    let mut w = with(&[(54, 6), (55, 9)]);
    for (length, n) in [(0, 0), (8, 0), (9, 9), (4096, 9)] {
        check(&mut w, 13, [length, 0, 0, 0, 0], value(n), &[]);
    }
}

// Ecalls

#[test]
fn external_interrupts() {
    for code in [1, 5, 9] {
        check(
            &mut filled(),
            10,
            [TOP + code, 1, 2, 3, 4],
            exit(EXTERNAL_INTERRUPT, &[TOP + code]),
            &[],
        );
    }
}

#[test]
fn legacy_calls() {
    // Whatever a6 holds.
    for fid in [0, 5] {
        let mut w = ecall_record(0, fid, &[8]);
        let (sepc, events) = (next(&w), w[EVENTS] + 1);
        let later = [(VSTIMECMP, 8), (10, 0), (SEPC, sepc), (EVENTS, events)];
        ecall(&mut w, nothing(), &later);

        let mut w = ecall_record(1, fid, &[0x1234]);
        ecall(&mut w, ask(ASK_EMIT, &[0x1234]), &[(54, 9)]);
        check(
            &mut w,
            11,
            [7, 1, 1, 0, 0],
            nothing(),
            &[(54, 0), (SEPC, sepc)],
        );

        let mut w = ecall_record(2, fid, &[8]);
        ecall(&mut w, ask(ASK_GET_CHARACTER, &[]), &[(54, 11)]);
        check(
            &mut w,
            11,
            [8, 0x1234, 1, 0, 0],
            nothing(),
            &[(54, 0), (10, 0x1234), (SEPC, sepc)],
        );

        let mut w = changed(ecall_record(3, fid, &[8]), &[(HVIP, u64::MAX)]);
        ecall(
            &mut w,
            nothing(),
            &[(HVIP, !4), (10, 0), (SEPC, sepc), (54, 0)],
        );

        for (count, reply, later) in [
            (8, exit(SEND_IPI, &[6, 0, 0]), vec![]),
            (7, nothing(), vec![(10, FAILED), (11, 0)]),
            (9, nothing(), vec![(10, FAILED), (11, 0)]),
        ] {
            let mut w = ecall_record(4, fid, &[0x9000]);
            ecall(&mut w, ask(ASK_COPY_8, &[0x9000]), &[(54, 4)]);
            let later = [later, vec![(54, 0), (SEPC, sepc)]].concat();
            check(&mut w, 11, [2, count, 6, 0, 0], reply, &later);
        }
        for eid in 5..=7 {
            ecall(
                &mut ecall_record(eid, fid, &[8]),
                nothing(),
                &[(SEPC, sepc)],
            );
        }
        ecall(
            &mut ecall_record(8, fid, &[8]),
            exit(SYSTEM_DOWN, &[]),
            &[(54, 0)],
        );
    }
}

#[test]
fn extensions_that_ask_nothing() {
    let sepc = next(&filled());
    let down = exit(SYSTEM_DOWN, &[]);
    let ipi = exit(SEND_IPI, &[1, 2, 1]);
    let up = exit(CPU_UP, &[1, 2, 3]);
    ecall(&mut ecall_record(0x735049, 0, &[1, 2]), ipi, &[(32, sepc)]);
    ecall(
        &mut ecall_record(0x48534D, 0, &[1, 2, 3]),
        up,
        &[(32, sepc)],
    );
    ecall(
        &mut ecall_record(0x48534D, 1, &[5]),
        exit(CPU_DOWN, &[0]),
        &[(54, 0)],
    );
    ecall(
        &mut ecall_record(0x48534D, 3, &[5]),
        exit(HALT, &[]),
        &[(54, 0)],
    );
    ecall(&mut ecall_record(0x53525354, 0, &[0]), down, &[(54, 0)]);
    let hypercall = Reply {
        args: [1, 2, 3, 4, 5, 6],
        ..exit(HYPERCALL, &[9])
    };
    let mut w = ecall_record(0x485643, 9, &[1, 2, 3, 4, 5, 6]);
    ecall(&mut w, hypercall, &[(SEPC, sepc)]);
    for (eid, fid) in [
        (0x53525354, 0), // with a0 = 1 below
        (0x53525354, 1),
        (0x54494D45, 1),
        (0x54494D45, 1 << 32),
        (0x735049, 1),
        (0x48534D, 2),
        (0x48534D, 4),
        (0x4442434E, 3),
    ] {
        let later = [(10, NOT_SUPPORTED), (11, 0), (SEPC, sepc)];
        ecall(&mut ecall_record(eid, fid, &[1]), nothing(), &later);
    }
}

#[test]
fn console_write_and_read() {
    let sepc = next(&filled());
    let result = |e, v| vec![(54, 0), (10, e), (11, v), (SEPC, sepc)];
    for fid in [0, 1] {
        // a0 = 0 before a2, a2 before room 0.
        for (args, room, e) in [
            ([0, 1, 2], 0, 0),
            ([1, 1, 2], 0, INVALID_PARAM),
            ([1, 1, 0], 0, 0),
        ] {
            let mut w = ecall_record(0x4442434E, fid, &args);
            check(&mut w, 10, [10, 0, 0, 0, room], nothing(), &result(e, 0));
        }
    }
    // n is the lesser of a0 and room; room above 4,096 is 4,096.
    for (a0, room, n) in [(5, 9, 5), (9, 5, 5), (9999, u64::MAX, 4096)] {
        let base = ecall_record(0x4442434E, 0, &[a0, 0x8000, 0]);
        let asked = changed(base, &[(54, 5), (55, n)]);
        check(
            &mut base.clone(),
            10,
            [10, 0, 0, 0, room],
            ask(ASK_COPY_IN, &[0x8000, n]),
            &[(54, 5), (55, n)],
        );
        for count in [0, n - 1, n + 1] {
            check(
                &mut asked.clone(),
                11,
                [3, count, 0, 0, 0],
                nothing(),
                &result(FAILED, 0),
            );
        }
        let mut w = asked;
        check(
            &mut w,
            11,
            [3, n, 0, 0, 0],
            ask(ASK_PRINT, &[n]),
            &[(54, 6)],
        );
        check(&mut w, 11, [4, 77, 88, 0, 0], nothing(), &result(77, 88));

        let base = ecall_record(0x4442434E, 1, &[a0, 0x8000, 0]);
        let waits = [(54, 7), (55, n), (56, 0x8000)];
        let asked = changed(base, &waits);
        check(
            &mut base.clone(),
            10,
            [10, 0, 0, 0, room],
            ask(ASK_CONSOLE_READ, &[n]),
            &waits,
        );
        for (e, v) in [(0, 0), (0, n + 1), (1, 1), (FAILED, 0)] {
            check(
                &mut asked.clone(),
                11,
                [5, e, v, 0, 0],
                nothing(),
                &result(e, v),
            );
        }
        for v in [1, n] {
            let mut w = asked;
            let out = ask(ASK_COPY_OUT, &[0x8000, v]);
            check(&mut w, 11, [5, 0, v, 0, 0], out, &[(54, 8), (55, v)]);
            check(
                &mut w.clone(),
                11,
                [6, v, 0, 0, 0],
                nothing(),
                &result(0, v),
            );
            check(
                &mut w,
                11,
                [6, v + 1, 0, 0, 0],
                nothing(),
                &result(FAILED, 0),
            );
        }
    }
    let mut w = ecall_record(0x4442434E, 2, &[0x1234]);
    ecall(&mut w, ask(ASK_EMIT, &[0x34]), &[(54, 10)]);
    check(&mut w, 11, [7, 5, 5, 0, 0], nothing(), &result(0, 0));
}

#[test]
fn forwarded_calls() {
    let sepc = next(&filled());
    for (eid, fid, event) in [
        (0x52464E43, 0, Some(3)),
        (0x52464E43, 1, Some(4)),
        (0x52464E43, 2, Some(5)),
        (0x52464E43, 3, Some(6)),
        (0x52464E43, 4, Some(7)),
        (0x52464E43, 5, Some(8)),
        (0x52464E43, 6, Some(9)),
        (0x52464E43, 7, None),
        (0x504D55, 0, None),
        (0x10, 0, None),
        (9, 0, None),
        ((1 << 32) + 0x54494D45, 0, None),
    ] {
        let mut w = ecall_record(eid, fid, &[1, 2, 3, 4, 5, 6]);
        let mut later = vec![(54, 12)];
        if let Some(event) = event {
            later.push((EVENTS + event - 1, w[EVENTS + event - 1] + 1));
        }
        ecall(
            &mut w,
            ask(ASK_FORWARD, &[eid, fid, 1, 2, 3, 4, 5, 6]),
            &later,
        );
        let later = [(54, 0), (10, 77), (11, 88), (SEPC, sepc)];
        check(&mut w, 11, [9, 77, 88, 0, 0], nothing(), &later);
    }
}

#[test]
fn event_counts_wrap() {
    let mut w = changed(ecall_record(0x52464E43, 6, &[]), &[(53, u64::MAX)]);
    call(&mut w, 10, [10, 0, 0, 0, 0]);
    assert_eq!(w[53], 0);
    let mut w = with(&[(EVENTS + 1, u64::MAX)]);
    check(&mut w, 10, [22, 0x73, 0, 0, 0], error(3), &[(46, 0)]);
}

// Virtual instruction and guest page fault

#[test]
fn stimecmp_by_funct3() {
    // rd 6, field 5; x5 = 0b1100, old 0b1010. Both from stval and fetched.
    for (funct3, new) in [
        (1, 0b1100),
        (2, 0b1110),
        (3, 0b0010),
        (5, 5),
        (6, 0b1111),
        (7, 0b1010),
    ] {
        let word = 0x14d << 20 | 5 << 15 | funct3 << 12 | 6 << 7 | 0x73;
        let base = with(&[(VSTIMECMP, 0b1010), (5, 0b1100)]);
        let later = [(VSTIMECMP, new), (6, 0b1010), (SEPC, next(&base)), (54, 0)];
        check(
            &mut base.clone(),
            10,
            [22, 7 << 32 | word, 0, 0, 0],
            nothing(),
            &later,
        );
        let mut w = changed(base, &[(54, 2)]);
        check(&mut w, 11, [1, 7 << 32 | word, 0, 0, 0], nothing(), &later);
    }
    // Field 0: 1 and 5 write 0, the others don't write; rd 0 gets nothing.
    for (funct3, new) in [(1, 0), (2, 7), (3, 7), (5, 0), (6, 7), (7, 7)] {
        let word = 0x14d << 20 | funct3 << 12 | 0x73;
        let mut w = with(&[(VSTIMECMP, 7)]);
        let later = [(VSTIMECMP, new), (SEPC, next(&w))];
        check(&mut w, 10, [22, word, 0, 0, 0], nothing(), &later);
    }
}

#[test]
fn fetch_faults() {
    for waits in [2, 3] {
        for (more, cause) in [(1, 12), (2, 1), (3, 0)] {
            // SIE clear, SPIE and SPP set; from user mode.
            let mut w = with(&[(54, waits), (VSSTATUS, !2), (VSTVEC, u64::MAX)]);
            let later = [
                (54, 0),
                (VSEPC, w[SEPC]),
                (VSCAUSE, cause),
                (VSTVAL, 5),
                (VSSTATUS, !0x122),
                (SSTATUS, w[SSTATUS] | 0x100),
                (SEPC, u64::MAX - 3),
            ];
            check(&mut w, 11, [1, 5, more, 0, 0], nothing(), &later);
        }
        let nested = exit(NESTED_PAGE_FAULT, &[5, 4]);
        check(
            &mut with(&[(54, waits)]),
            11,
            [1, 5, 4, 0, 0],
            nested,
            &[(54, 0)],
        );
    }
}

#[test]
fn loads_and_stores() {
    for (funct3, bytes, signed) in [
        (0, 1, 1),
        (1, 2, 1),
        (2, 4, 1),
        (3, 8, 1),
        (4, 1, 0),
        (5, 2, 0),
        (6, 4, 0),
    ] {
        let word = funct3 << 12 | 31 << 7 | 3;
        let sepc = filled()[SEPC];
        let read = exit(MMIO_READ, &[7, bytes]);
        let later = |length| {
            [
                (54, 1),
                (55, 31),
                (56, bytes),
                (57, signed),
                (SEPC, sepc + length),
            ]
        };
        check(
            &mut filled(),
            10,
            [21, 3, 1, 5 << 32 | word, 0],
            read,
            &later(4),
        );
        check(&mut filled(), 10, [21, 3, 1, word & !2, 0], read, &later(2));
        let mut w = with(&[(54, 3), (55, 7), (56, 1)]);
        check(&mut w, 11, [1, 5 << 32 | word, 0, 0, 0], read, &later(4));
        // A load under 23.
        let nested = exit(NESTED_PAGE_FAULT, &[7, 2]);
        check(&mut filled(), 10, [23, 3, 1, word, 0], nested, &[]);
    }
    for (funct3, bytes, data) in [
        (0, 1, 0x88),
        (1, 2, 0x8788),
        (2, 4, 0x8586_8788),
        (3, 8, 0x8182_8384_8586_8788),
    ] {
        let word = funct3 << 12 | 31 << 20 | 0x23;
        let base = with(&[(31, 0x8182_8384_8586_8788)]);
        let later = [(54, 0), (SEPC, next(&base))];
        let write = exit(MMIO_WRITE, &[7, bytes, data]);
        check(&mut base.clone(), 10, [23, 3, 1, word, 0], write, &later);
        let mut w = changed(base, &[(54, 3), (55, 7), (56, 2)]);
        check(&mut w, 11, [1, word, 0, 0, 0], write, &later);
        // rs2 0 stores 0, whatever slot 0 holds.
        let zero = exit(MMIO_WRITE, &[7, bytes, 0]);
        check(
            &mut base.clone(),
            10,
            [23, 3, 1, word & 0xfffff, 0],
            zero,
            &later,
        );
        // A store under 21.
        let nested = exit(NESTED_PAGE_FAULT, &[7, 1]);
        check(
            &mut base.clone(),
            10,
            [21, 3, 1, word, 0],
            nested,
            &[(54, 0)],
        );
    }
    // Neither a load nor a store: funct3 7, SQ's place, another opcode. So with
    // these fetched 16-bit words: quadrant 1, c.fld (0x3000 and 0x3020 are
    // pseudo in htinst alone) and 0x0000.
    for word in [0x7003, 0x4023, 0x13] {
        let nested = exit(NESTED_PAGE_FAULT, &[4, 1]);
        check(&mut filled(), 10, [21, 0, 1, word, 0], nested, &[]);
    }
    for word in [0x2381, 0x3000, 0x3020, 0] {
        let nested = exit(NESTED_PAGE_FAULT, &[7, 1]);
        let mut w = with(&[(54, 3), (55, 7), (56, 1)]);
        check(&mut w, 11, [1, word, 0, 0, 0], nested, &[(54, 0)]);
    }
    // A load with rd 0 waits, and its completion writes no register.
    let mut w = filled();
    let sepc = next(&w);
    let later = [(54, 1), (55, 0), (56, 8), (57, 1), (SEPC, sepc)];
    check(
        &mut w,
        10,
        [21, 0, 0, 0x3003, 0],
        exit(MMIO_READ, &[0, 8]),
        &later,
    );
    check(&mut w, 12, [5, 0, 0, 0, 0], done(), &[(54, 0)]);
}

// W1: set-timer drops the old tick, and nothing else moves

const TICK: u64 = 0x40;

/// The calls that set the timer, as a7 and a6: legacy 0 whatever a6 holds, and
/// TIME 0.
const SET_TIMER: [(u64, u64); 4] = [(0, 0), (0, 1), (0, u64::MAX), (0x54494D45, 0)];

/// No tick and a tick, each alone and among all other bits.
const HVIPS: [u64; 4] = [0, TICK, !TICK, u64::MAX];

/// Each bit of a word alone, and all bits but each.
pub fn each_bit() -> impl Iterator<Item = u64> {
    (0..64).flat_map(|bit| [1 << bit, !(1 << bit)])
}

/// Sets the timer by this call and compares the whole later record.
#[track_caller]
fn set_timer(mut w: [u64; 58], (eid, fid): (u64, u64), deadline: u64) {
    w = changed(w, &[(17, eid), (16, fid), (10, deadline)]);
    let later = [
        (HVIP, w[HVIP] & !TICK),
        (VSTIMECMP, deadline),
        (EVENTS, w[EVENTS].wrapping_add(1)),
        (10, 0),
        // Legacy 0 leaves a1.
        (11, if eid == 0 { w[11] } else { 0 }),
        (SEPC, next(&w)),
        (54, 0),
    ];
    ecall(&mut w, nothing(), &later);
}

/// Starts a trap and answers what it asks, a load's completion last. No call
/// on the way may change hvip.
#[track_caller]
fn trap_keeps_hvip(mut w: [u64; 58], numbers: [u64; 5], fail: bool) {
    let hvip = w[HVIP];
    let mut reply = call(&mut w, 10, numbers);
    assert_eq!(w[HVIP], hvip, "start {numbers:x?}");
    while reply.kind == 1 {
        let (word, more) = match reply.number {
            _ if fail => (9, 9),
            1 => (0x2383, 0),
            2 => (8, 1),
            5 => (0, 4),
            _ => (4, 4),
        };
        reply = call(&mut w, 11, [reply.number, word, more, 0, 0]);
        assert_eq!(w[HVIP], hvip, "answer after {numbers:x?}");
    }
    call(&mut w, 12, [0; 5]);
    assert_eq!(w[HVIP], hvip, "load after {numbers:x?}");
}

#[test]
fn w1_set_timer_clears_bit_6_and_no_other() {
    for row in SET_TIMER {
        for hvip in each_bit().chain(HVIPS) {
            set_timer(with(&[(HVIP, hvip)]), row, 5);
        }
    }
}

#[test]
fn w1_set_timer_clears_whatever_the_deadline() {
    // Before, at and after the old deadline; never; one that is a mask of hvip.
    for row in SET_TIMER {
        for hvip in HVIPS {
            for old in [0, 7, TOP, u64::MAX] {
                for deadline in [0, 1, 6, 7, 8, TICK, !TICK, 1 << 32, TOP - 1, TOP]
                    .into_iter()
                    .chain([TOP + 5, u64::MAX - 1, u64::MAX])
                {
                    set_timer(with(&[(HVIP, hvip), (VSTIMECMP, old)]), row, deadline);
                }
            }
        }
    }
}

#[test]
fn w1_set_timer_clears_whatever_else_the_record_holds() {
    for row in SET_TIMER {
        for hvip in HVIPS {
            for (word, number) in [
                (HIE, 0),
                (HIE, 0x444),
                (HIE, !TICK),
                (HIE, u64::MAX),
                (HGEIE, u64::MAX),
                (SSTATUS, 0),
                (SSTATUS, 0x2102),
                (HSTATUS, 0x2_0000_0180), // from supervisor mode
                (VSSTATUS, 0),
                (VSSTATUS, 2),
                (SEPC, u64::MAX - 3),
                (EVENTS, u64::MAX),
                (WAITS, 13), // an unknown kind: nothing waits
                (WAITS, u64::MAX),
            ] {
                set_timer(with(&[(HVIP, hvip), (word, number)]), row, 5);
            }
        }
    }
}

#[test]
fn w1_other_fids_of_time_keep_hvip() {
    for hvip in each_bit().chain(HVIPS) {
        for fid in [1, 2, 6, TICK, 1 << 32, TOP, u64::MAX] {
            let mut w = changed(ecall_record(0x54494D45, fid, &[5]), &[(HVIP, hvip)]);
            let later = [(10, NOT_SUPPORTED), (11, 0), (SEPC, next(&w))];
            ecall(&mut w, nothing(), &later);
        }
    }
}

#[test]
fn w1_legacy_3_clears_bit_2_and_no_other() {
    for hvip in each_bit().chain(HVIPS) {
        for fid in [0, 5, u64::MAX] {
            let mut w = changed(ecall_record(3, fid, &[5]), &[(HVIP, hvip)]);
            let later = [(HVIP, hvip & !4), (10, 0), (SEPC, next(&w))];
            ecall(&mut w, nothing(), &later);
        }
    }
}

#[test]
fn w1_other_ecalls_keep_hvip() {
    // Each row of 01 but legacy 0, legacy 3 and TIME, and eids that are nearly
    // legacy 0 or TIME. a2 = 0 and a0 = 4 make the console ask.
    let eids = [1, 2, 4, 5, 6, 7, 8, 9, 0x10, 1 << 32, TOP, u64::MAX]
        .into_iter()
        .chain([0x735049, 0x48534D, 0x485643, 0x53525354, 0x4442434E])
        .chain([0x52464E43, 0x504D55, 0x54494D44, 0x54494D46])
        .chain([(1 << 32) + 0x54494D45, TOP + 0x54494D45]);
    for eid in eids {
        for fid in (0..=7).chain([u64::MAX]) {
            for hvip in HVIPS {
                for args in [[0, 0, 0], [4, 0x8000, 0], [4, 0x8000, 1]] {
                    let w = changed(ecall_record(eid, fid, &args), &[(HVIP, hvip)]);
                    trap_keeps_hvip(w, [10, 0, 0, 0, 4096], false);
                    trap_keeps_hvip(w, [10, 0, 0, 0, 4096], true);
                }
            }
        }
    }
}

#[test]
fn w1_csr_writes_keep_hvip() {
    // The word in stval, and fetched after a start that asks for it. The
    // registers are those of a set-timer call; x5 is the deadline, and field 0
    // with funct3 2, 3, 6, 7 writes none.
    for (eid, fid) in SET_TIMER {
        for hvip in HVIPS {
            for deadline in [0, 5, TICK, u64::MAX] {
                let set = [(HVIP, hvip), (5, deadline), (VSTIMECMP, 0xf0)];
                let base = changed(ecall_record(eid, fid, &[deadline]), &set);
                for (funct3, field, new) in [
                    (1, 5, deadline),
                    (2, 5, 0xf0 | deadline),
                    (3, 5, 0xf0 & !deadline),
                    (5, 5, 5),
                    (6, 5, 0xf5),
                    (7, 16, 0xe0),
                    (1, 0, 0),
                    (2, 0, 0xf0),
                    (3, 0, 0xf0),
                    (5, 0, 0),
                    (6, 0, 0xf0),
                    (7, 0, 0xf0),
                ] {
                    for rd in [0, 10] {
                        let word = 0x14d << 20 | field << 15 | funct3 << 12 | rd << 7 | 0x73;
                        // No event is counted, and rd alone is written.
                        let a0 = if rd == 10 { 0xf0 } else { deadline };
                        let later = [(VSTIMECMP, new), (10, a0), (SEPC, next(&base)), (54, 0)];
                        let mut w = base;
                        check(&mut w, 10, [22, word, 0, 0, 0], nothing(), &later);

                        let mut w = base;
                        let fetch = ask(ASK_FETCH, &[w[SEPC], 0]);
                        check(&mut w, 10, [22, 0, 0, 0, 0], fetch, &[(54, 2)]);
                        check(&mut w, 11, [1, word, 0, 0, 0], nothing(), &later);
                    }
                }
            }
        }
    }
}

#[test]
fn w1_other_traps_keep_hvip() {
    // Every class but the ecall from VS, with a set-timer call's registers:
    // other ecalls (8, 9, 11), the timer interrupts (5, 6, 7), CSR
    // instructions on sip, vsip, vstimecmp and hvip, faults at a fetch.
    let exceptions = (0..=24).filter(|code| *code != 10).chain([(1 << 32) + 10]);
    let interrupts = (0..=13).map(|code| TOP + code);
    let words = [0x144, 0x244, 0x24d, 0x645, 0x14d].map(|csr| csr << 20 | 0x29073);
    for row in SET_TIMER {
        for hvip in HVIPS {
            let base = changed(ecall_record(row.0, row.1, &[5]), &[(HVIP, hvip)]);
            for scause in exceptions.clone().chain(interrupts.clone()) {
                for htinst in [0, 0x2383, 0x702023, 0x3000, 4] {
                    for fail in [false, true] {
                        trap_keeps_hvip(base, [scause, 0, 0, htinst, 4096], fail);
                    }
                }
            }
            for word in words {
                trap_keeps_hvip(base, [22, word, 0, 0, 0], false);
            }
            for waits in [2, 3] {
                for more in 1..=5 {
                    let mut w = changed(base, &[(WAITS, waits)]);
                    call(&mut w, 11, [1, 5, more, 0, 0]);
                    assert_eq!((w[HVIP], w[WAITS]), (hvip, 0));
                }
            }
        }
    }
}

#[test]
fn w1_a_refused_set_timer_changes_nothing() {
    for (eid, fid) in SET_TIMER {
        for hvip in HVIPS {
            // A load or an ask waits.
            for waits in 1..=12 {
                let set = [(HVIP, hvip), (WAITS, waits)];
                let mut w = changed(ecall_record(eid, fid, &[5]), &set);
                ecall(&mut w, error(2), &[]);
                check(&mut w, 11, [0, 5, 0, 0, 0], error(7), &[]);
            }
        }
    }
}

#[test]
fn w1_an_answer_sets_no_timer() {
    // The answers of a waiting ecall read no register: a7 and a6 of a
    // set-timer call make them none. So with a fetch and a load.
    for (eid, fid) in SET_TIMER {
        for hvip in HVIPS {
            for waits in 1..=12 {
                for (word, more) in [(0, 0), (9, 0), (0, 9), (8, 8)] {
                    let set = [(HVIP, hvip), (WAITS, waits), (55, 9)];
                    let mut w = changed(ecall_record(eid, fid, &[5]), &set);
                    let kept = [w[VSTIMECMP], w[HVIP], w[EVENTS]];
                    match waits {
                        1 => call(&mut w, 12, [word, 0, 0, 0, 0]),
                        _ => {
                            let number = ask_number(&mut w);
                            call(&mut w, 11, [number, word, more, 0, 0])
                        }
                    };
                    assert_ne!(w[WAITS], waits);
                    assert_eq!([w[VSTIMECMP], w[HVIP], w[EVENTS]], kept);
                }
            }
        }
    }
}

#[test]
fn w1_a_hosts_calls_on_hvip_stay() {
    for (eid, fid) in SET_TIMER {
        for hvip in HVIPS {
            let base = changed(ecall_record(eid, fid, &[5]), &[(HVIP, hvip)]);
            for (kind, numbers) in [
                (2, [5; 5]),
                (3, [17, 0, 0, 0, 0]),
                (4, [10, 6, 0, 0, 0]),
                (4, [17, 0x54494D45, 0, 0, 0]),
                (4, [17, 0, 0, 0, 0]),
                (4, [16, 0, 0, 0, 0]),
                (5, [5; 5]),
                (6, [3, 8, 0x4000, 0, 0]),
                (7, [5, 0, 0, 0, 0]), // no vector
                (7, [6, 0, 0, 0, 0]),
                (9, [0; 5]),
                (9, [1, 0, 0, 0, 0]),
                (13, [5; 5]),
            ] {
                let mut w = base;
                call(&mut w, kind, numbers);
                assert_eq!(w[HVIP], hvip, "call {kind} {numbers:x?}");
            }
            for (kind, numbers, later) in [
                (1, [0; 5], 0),
                (7, [TOP + 1, 0, 0, 0, 0], hvip & !4),
                (7, [TOP + 5, 0, 0, 0, 0], hvip & !TICK),
                (7, [TOP + 5, 1, 0, 0, 0], hvip | TICK),
                (7, [9, 0, 0, 0, 0], hvip & !0x400),
                (8, [0; 5], hvip),
                (8, [TICK, 0, 0, 0, 0], hvip | TICK),
                (14, [0; 5], 0),
            ] {
                let mut w = base;
                assert_eq!(call(&mut w, kind, numbers), done());
                assert_eq!(w[HVIP], later, "call {kind} {numbers:x?}");
            }
        }
    }
}

#[test]
fn w1_a_later_tick_is_kept() {
    // One record through it all: each set-timer call drops the tick that is
    // there, by latch or by vector, and not the next one.
    let mut w = [0; 58];
    let mut step = |kind, numbers, hvip| {
        call(&mut w, kind, numbers);
        assert_eq!(w[HVIP], hvip, "call {kind} {numbers:x?}");
    };
    let start = [10, 0, 0, 0, 0];
    step(1, [0; 5], 0);
    step(8, [0x444, 0, 0, 0, 0], 0x444);
    step(4, [17, 0x54494D45, 0, 0, 0], 0x444);
    step(10, start, 0x404); // TIME 0
    step(10, start, 0x404);
    step(7, [TOP + 5, 1, 0, 0, 0], 0x444);
    step(10, [TOP + 5, 0, 0, 0, 0], 0x444); // the host's timer interrupt
    step(10, [22, 0x14D29073, 0, 0, 0], 0x444); // csrw stimecmp
    step(4, [16, 1, 0, 0, 0], 0x444);
    step(10, start, 0x444); // TIME 1
    step(4, [17, 0, 0, 0, 0], 0x444);
    step(10, start, 0x404); // legacy 0
    step(8, [TICK, 0, 0, 0, 0], 0x444);
    step(4, [17, 3, 0, 0, 0], 0x444);
    step(10, start, 0x440); // legacy 3
    step(4, [17, 0, 0, 0, 0], 0x440);
    step(10, start, 0x400);
    step(10, [22, 0x14D29073, 0, 0, 0], 0x400);
}

// W2: compressed loads and stores

/// Each load of the eight by an example: the word, rd and the bytes.
const C_LOADS: [(u64, u64, u64); 4] = [
    // c.lw x14, 4(x15). CL: funct3 010, offset[5:3] 000, rs1' 15 - 8 = 111,
    // offset[2|6] 10, rd' 14 - 8 = 110, op 00:
    // 010 000 111 10 110 00 = 0100 0011 1101 1000.
    (0x43D8, 14, 4),
    // c.ld x11, 200(x10); 200 = 128 + 64 + 8. CL: funct3 011, offset[5:3] 001,
    // rs1' 10 - 8 = 010, offset[7:6] 11, rd' 11 - 8 = 011, op 00:
    // 011 001 010 11 011 00 = 0110 0101 0110 1100.
    (0x656C, 11, 8),
    // c.lwsp x5, 12(x2); 12 = 8 + 4. CI: funct3 010, offset[5] 0, rd 00101,
    // offset[4:2] 011, offset[7:6] 00, op 10:
    // 010 0 00101 011 00 10 = 0100 0010 1011 0010.
    (0x42B2, 5, 4),
    // c.ldsp x31, 296(x2); 296 = 256 + 32 + 8. CI: funct3 011, offset[5] 1, rd
    // 11111, offset[4:3] 01, offset[8:6] 100, op 10:
    // 011 1 11111 01 100 10 = 0111 1111 1011 0010.
    (0x7FB2, 31, 8),
];

/// Each store of the eight by an example: the word, rs2 and the bytes.
const C_STORES: [(u64, usize, u64); 4] = [
    // c.sw x9, 64(x12). CS: funct3 110, offset[5:3] 000, rs1' 12 - 8 = 100,
    // offset[2|6] 01, rs2' 9 - 8 = 001, op 00:
    // 110 000 100 01 001 00 = 1100 0010 0010 0100.
    (0xC224, 9, 4),
    // c.sd x15, 16(x8). CS: funct3 111, offset[5:3] 010, rs1' 8 - 8 = 000,
    // offset[7:6] 00, rs2' 15 - 8 = 111, op 00:
    // 111 010 000 00 111 00 = 1110 1000 0001 1100.
    (0xE81C, 15, 8),
    // c.swsp x1, 84(x2); 84 = 64 + 16 + 4. CSS: funct3 110, offset[5:2] 0101,
    // offset[7:6] 01, rs2 00001, op 10:
    // 110 0101 01 00001 10 = 1100 1010 1000 0110.
    (0xCA86, 1, 4),
    // c.sdsp x8, 384(x2); 384 = 256 + 128. CSS: funct3 111, offset[5:3] 000,
    // offset[8:6] 110, rs2 01000, op 10:
    // 111 000 110 01000 10 = 1110 0011 0010 0010.
    (0xE322, 8, 8),
];

/// The eight words.
fn c_words() -> impl Iterator<Item = u64> {
    let loads = C_LOADS.into_iter().map(|(word, ..)| word);
    loads.chain(C_STORES.into_iter().map(|(word, ..)| word))
}

/// The fetch of a guest page fault at address 7 waits, with this access.
fn fetching(base: [u64; 58], access: u64) -> [u64; 58] {
    changed(base, &[(54, 3), (55, 7), (56, access)])
}

/// The word fetched under 21 is a load of length 2; gives the later record.
#[track_caller]
fn fetched_load(base: [u64; 58], word: u64, rd: u64, bytes: u64) -> [u64; 58] {
    let mut w = fetching(base, 1);
    let read = exit(MMIO_READ, &[7, bytes]);
    let sepc = w[SEPC].wrapping_add(2);
    let later = [(54, 1), (55, rd), (56, bytes), (57, 1), (SEPC, sepc)];
    check(&mut w, 11, [1, word, 0, 0, 0], read, &later);
    w
}

/// The word fetched under 23 is a store of length 2 and of this data.
#[track_caller]
fn fetched_store(base: [u64; 58], word: u64, bytes: u64, data: u64) {
    let mut w = fetching(base, 2);
    let write = exit(MMIO_WRITE, &[7, bytes, data]);
    let later = [(54, 0), (SEPC, w[SEPC].wrapping_add(2))];
    check(&mut w, 11, [1, word, 0, 0, 0], write, &later);
}

/// The fetched word ends as NestedPageFault with this access.
#[track_caller]
fn fetched_nested(word: u64, access: u64) {
    let nested = exit(NESTED_PAGE_FAULT, &[7, access]);
    let mut w = fetching(filled(), access);
    check(&mut w, 11, [1, word, 0, 0, 0], nested, &[(54, 0)]);
}

/// Neither a load nor a store, with any access.
#[track_caller]
fn fetched_neither(word: u64) {
    for access in [1, 2, 4] {
        fetched_nested(word, access);
    }
}

/// CI: funct3, bit 12, rd, bits 6..2, op 10. The rest is six bits.
fn ci(funct3: u64, rd: u64, rest: u64) -> u64 {
    let (bit_12, bits_6_to_2) = (rest / 32, rest % 32);
    funct3 << 13 | bit_12 << 12 | rd << 7 | bits_6_to_2 << 2 | 2
}

/// A number cut to 4 or 8 bytes.
fn cut(number: u64, bytes: u64) -> u64 {
    match bytes {
        4 => number % (1 << 32),
        _ => number,
    }
}

#[test]
fn w2_each_load_from_its_start_to_its_completion() {
    for (word, rd, bytes) in C_LOADS {
        let mut w = filled();
        let fetch = ask(ASK_FETCH, &[w[SEPC], 0]);
        let waits = [(54, 3), (55, 7), (56, 1)];
        check(&mut w, 10, [21, 3, 1, 0, 0], fetch, &waits);
        let mut w = fetched_load(w, word, rd, bytes);
        // The load waits as any other: a start and an answer are refused.
        check(&mut w, 10, [21, 3, 1, 0, 0], error(2), &[]);
        check(&mut w, 11, [1, word, 0, 0, 0], error(7), &[]);
        let x = match bytes {
            4 => 0xFFFF_FFFF_8586_8788,
            _ => 0x8182_8384_8586_8788,
        };
        let numbers = [0x8182_8384_8586_8788, 0, 0, 0, 0];
        check(&mut w, 12, numbers, done(), &[(rd as usize, x), (54, 0)]);
    }
}

#[test]
fn w2_each_store_from_its_start() {
    for (word, rs2, bytes) in C_STORES {
        let mut w = with(&[(rs2, 0x8182_8384_8586_8788)]);
        let fetch = ask(ASK_FETCH, &[w[SEPC], 0]);
        let waits = [(54, 3), (55, 7), (56, 2)];
        check(&mut w, 10, [23, 3, 1, 0, 0], fetch, &waits);
        let data = match bytes {
            4 => 0x8586_8788,
            _ => 0x8182_8384_8586_8788,
        };
        fetched_store(w, word, bytes, data);
    }
}

#[test]
fn w2_completions_cut_and_extend() {
    for (word, rd, bytes) in C_LOADS {
        for (number, low, whole) in [
            (0, 0, 0),
            (0x7FFF_FFFF, 0x7FFF_FFFF, 0x7FFF_FFFF),
            (0x8000_0000, !0x7FFF_FFFF, 0x8000_0000),
            (0xFFFF_FFFF, u64::MAX, 0xFFFF_FFFF),
            (1 << 32, 0, 1 << 32),
            (!0x8000_0000, 0x7FFF_FFFF, !0x8000_0000),
            (TOP + 0x8000_0000, !0x7FFF_FFFF, TOP + 0x8000_0000),
            (u64::MAX, u64::MAX, u64::MAX),
        ] {
            let mut w = fetched_load(filled(), word, rd, bytes);
            let x = if bytes == 4 { low } else { whole };
            let later = [(rd as usize, x), (54, 0)];
            check(&mut w, 12, [number, 0, 0, 0, 0], done(), &later);
        }
    }
}

#[test]
fn w2_every_word_of_the_eight() {
    // Each form by its format: every register, and every number in the bits
    // of the base and the offset, which change nothing.
    let base = filled();
    for (funct3, bytes) in [(2, 4), (3, 8)] {
        for rd in 8..=15 {
            for rest in 0..1 << 8 {
                // CL: bits 12..5 and rd'.
                let word = funct3 << 13 | rest << 5 | (rd - 8) << 2;
                fetched_load(base, word, rd, bytes);
            }
        }
        for rd in 1..=31 {
            for rest in 0..1 << 6 {
                fetched_load(base, ci(funct3, rd, rest), rd, bytes);
            }
        }
    }
    for (funct3, bytes) in [(6, 4), (7, 8)] {
        for rs2 in 8..=15 {
            for rest in 0..1 << 8 {
                // CS: bits 12..5 and rs2'.
                let word = funct3 << 13 | rest << 5 | (rs2 - 8) << 2;
                fetched_store(base, word, bytes, cut(base[rs2 as usize], bytes));
            }
        }
        for rs2 in 1..=31 {
            for rest in 0..1 << 6 {
                // CSS: bits 12..7 and rs2.
                let word = funct3 << 13 | rest << 7 | rs2 << 2 | 2;
                fetched_store(base, word, bytes, cut(base[rs2 as usize], bytes));
            }
        }
    }
}

#[test]
fn w2_count_over_all_words() {
    // By quadrant, exit and bytes: what a word is under 21 and under 23.
    let mut counts = std::collections::BTreeMap::new();
    let base = filled();
    let mut words = 0;
    for word in (0..1 << 16).filter(|word| word % 4 != 3) {
        words += 1;
        let mut forms = 0;
        for access in [1, 2] {
            let mut w = fetching(base, access);
            let reply = call(&mut w, 11, [1, word, 0, 0, 0]);
            if reply.number != NESTED_PAGE_FAULT {
                let key = (word % 4, reply.number, reply.values[1]);
                *counts.entry(key).or_insert(0) += 1;
                forms += 1;
            }
        }
        // No word is both.
        assert!(forms <= 1, "{word:x}");
    }
    // 2^16 words but the 2^14 whose low two bits are 3.
    assert_eq!(words, 65536 - 16384);
    // A form has quadrant and funct3 fixed, 16 - 2 - 3 = 11 bits free: 2^11 =
    // 2048 words, as CL and CS 3 + 3 + 2 + 3 bits, as CSS 6 + 5. So has CI, 1 +
    // 5 + 5, but rd is one of 31: 31 * 2^6 = 1984.
    let expected = [
        ((0, MMIO_READ, 4), 2048),  // c.lw
        ((0, MMIO_READ, 8), 2048),  // c.ld
        ((0, MMIO_WRITE, 4), 2048), // c.sw
        ((0, MMIO_WRITE, 8), 2048), // c.sd
        ((2, MMIO_READ, 4), 1984),  // c.lwsp
        ((2, MMIO_READ, 8), 1984),  // c.ldsp
        ((2, MMIO_WRITE, 4), 2048), // c.swsp
        ((2, MMIO_WRITE, 8), 2048), // c.sdsp
    ];
    assert_eq!(counts, expected.into());
    // 6 * 2048 + 2 * 1984 words in all; the other 32896 are neither.
    assert_eq!(counts.values().sum::<i32>(), 49152 - 32896);
}

#[test]
fn w2_c_lwsp_and_c_ldsp_with_rd_0_are_no_loads() {
    for funct3 in [2, 3] {
        for rest in 0..1 << 6 {
            fetched_neither(ci(funct3, 0, rest));
        }
    }
    // Among them: offset 0, the two examples with rd cut out, offset bits all
    // 1: 010 1 00000 11111 10 = 0101 0000 0111 1110, 011 so too.
    for word in [0x4002, 0x6002, 0x4032, 0x7032, 0x507E, 0x707E] {
        fetched_neither(word);
    }
    // lw x0 and ld x0 wait as before, and the completion writes no register.
    for (word, bytes) in [(0x2003, 4), (0x3003, 8)] {
        let mut w = fetching(filled(), 1);
        let later = [(54, 1), (55, 0), (56, bytes), (57, 1), (SEPC, next(&w))];
        let read = exit(MMIO_READ, &[7, bytes]);
        check(&mut w, 11, [1, word, 0, 0, 0], read, &later);
        check(&mut w, 12, [5, 0, 0, 0, 0], done(), &[(54, 0)]);
    }
}

#[test]
fn w2_c_swsp_and_c_sdsp_with_bits_11_to_7_zero_are_stores() {
    let base = with(&[(5, 0x8182_8384_8586_8788)]);
    for (word, bytes, data) in [
        // c.swsp x5, 0(x2): 110 000000 00101 10 = 1100 0000 0001 0110.
        (0xC016, 4, 0x8586_8788),
        // c.swsp x5, 32(x2), offset[5:2] 1000: 1101 0000 0001 0110.
        (0xD016, 4, 0x8586_8788),
        // c.sdsp x5, 0(x2): 111 000000 00101 10 = 1110 0000 0001 0110.
        (0xE016, 8, 0x8182_8384_8586_8788),
        // c.sdsp x5, 32(x2), offset[5:3] 100: 1111 0000 0001 0110.
        (0xF016, 8, 0x8182_8384_8586_8788),
    ] {
        fetched_store(base, word, bytes, data);
    }
}

#[test]
fn w2_c_swsp_and_c_sdsp_of_x0_store_0() {
    // Whatever slot 0 holds and the offset is: bits 11..7 zero among them.
    for slot in [0, 5, u64::MAX] {
        for offset in 0..1 << 6 {
            fetched_store(with(&[(0, slot)]), 6 << 13 | offset << 7 | 2, 4, 0);
            fetched_store(with(&[(0, slot)]), 7 << 13 | offset << 7 | 2, 8, 0);
        }
        // c.swsp x0, 12(x2): 110 0011 00 00000 10 = 1100 0110 0000 0010.
        fetched_store(with(&[(0, slot)]), 0xC602, 4, 0);
        // c.sdsp x0, 8(x2): 111 001 000 00000 10 = 1110 0100 0000 0010.
        fetched_store(with(&[(0, slot)]), 0xE402, 8, 0);
    }
}

#[test]
fn w2_other_words_are_neither() {
    // 0x0000, by definition illegal.
    fetched_neither(0);
    // Quadrant 0: c.addi4spn, c.fld, c.fsd, and funct3 4, where Zcb has c.lbu,
    // c.lhu, c.lh, c.sb and c.sh. Quadrant 2: c.slli, c.fldsp, c.jr, c.mv,
    // c.ebreak, c.jalr, c.add, c.fsdsp. All of quadrant 1.
    for rest in 0..1 << 11 {
        for funct3 in [0, 1, 4, 5] {
            fetched_neither(funct3 << 13 | rest << 2);
            fetched_neither(funct3 << 13 | rest << 2 | 2);
        }
        for funct3 in 0..8 {
            fetched_neither(funct3 << 13 | rest << 2 | 1);
        }
    }
    for word in [
        // c.fld f14, 8(x15): 001 001 111 00 110 00 = 0010 0111 1001 1000.
        0x2798, // c.fsd f14, 8(x15): 101 001 111 00 110 00 = 1010 0111 1001 1000.
        0xA798, // c.fldsp f5, 8(x2): 001 0 00101 01 000 10 = 0010 0010 1010 0010.
        0x22A2, // c.fsdsp f5, 8(x2): 101 001 000 00101 10 = 1010 0100 0001 0110.
        0xA416, // c.lbu x14, 1(x15): 100 000 111 10 110 00 = 1000 0011 1101 1000.
        0x83D8, // c.lhu x14, 2(x15): 100 001 111 0 1 110 00 = 1000 0111 1011 1000.
        0x87B8, // c.sb x14, 1(x15): 100 010 111 10 110 00 = 1000 1011 1101 1000.
        0x8BD8, // c.sh x14, 2(x15): 100 011 111 0 1 110 00 = 1000 1111 1011 1000.
        0x8FB8,
    ] {
        fetched_neither(word);
    }
}

#[test]
fn w2_upper_bits_are_not_looked_at() {
    // 3, 0x2383 and 0x702023 as the next instruction; all bits above 16.
    for upper in [1, 3, 0x2383, 0x7020, 0x8000, 0xFFFF, 0x1_0000, !0 >> 16] {
        for (word, rd, bytes) in C_LOADS {
            fetched_load(filled(), upper << 16 | word, rd, bytes);
            fetched_nested(upper << 16 | word, 2);
        }
        for (word, rs2, bytes) in C_STORES {
            let data = cut(filled()[rs2], bytes);
            fetched_store(filled(), upper << 16 | word, bytes, data);
            fetched_nested(upper << 16 | word, 1);
        }
        for word in [0, 1, 2, 0x4002, 0x6002, 0x2798, 0x83D8] {
            fetched_neither(upper << 16 | word);
        }
    }
}

#[test]
fn w2_sepc_wraps() {
    for (sepc, later) in [
        (u64::MAX - 1, 0),
        (u64::MAX, 1),
        (u64::MAX - 3, u64::MAX - 1),
    ] {
        let base = with(&[(SEPC, sepc)]);
        for (word, rd, bytes) in C_LOADS {
            let w = fetched_load(base, word, rd, bytes);
            assert_eq!(w[SEPC], later);
        }
        for (word, ..) in C_STORES {
            let mut w = fetching(base, 2);
            call(&mut w, 11, [1, word, 0, 0, 0]);
            assert_eq!(w[SEPC], later);
        }
    }
}

#[test]
fn w2_a_load_under_23_and_a_store_under_21_are_neither() {
    for (word, ..) in C_LOADS {
        fetched_nested(word, 2);
        fetched_nested(word, 4);
    }
    for (word, ..) in C_STORES {
        fetched_nested(word, 1);
        fetched_nested(word, 4);
    }
}

#[test]
fn w2_htinst_stays() {
    // A compressed word there has low bits 00 or 10: error 5. Low bits 01 are
    // the 32-bit form with length 2, bits 15..13 whatever they are.
    for word in c_words() {
        for scause in [21, 23] {
            check(&mut filled(), 10, [scause, 3, 1, word, 0], error(5), &[]);
            let nested = exit(NESTED_PAGE_FAULT, &[7, (scause - 19) / 2]);
            let numbers = [scause, 3, 1, word & !3 | 1, 0];
            check(&mut filled(), 10, numbers, nested, &[]);
        }
    }
    for (htinst, rd) in [(0x2381, 7), (0x2001, 0), (0x4398_2381, 7)] {
        let mut w = filled();
        let sepc = w[SEPC] + 2;
        let later = [(54, 1), (55, rd), (56, 4), (57, 1), (SEPC, sepc)];
        let read = exit(MMIO_READ, &[7, 4]);
        check(&mut w, 10, [21, 3, 1, htinst, 0], read, &later);
        // The same word fetched is of quadrant 1.
        fetched_neither(htinst);
    }
}

#[test]
fn w2_other_fetches_stay() {
    // Under 22, and where the fetch faults: its number is an address.
    for word in c_words() {
        let mut w = with(&[(54, 2)]);
        let later = [(54, 0), (EVENTS + 1, w[EVENTS + 1] + 1)];
        check(&mut w, 11, [1, word, 0, 0, 0], error(3), &later);
        for access in [1, 2] {
            let mut w = fetching(filled(), access);
            let nested = exit(NESTED_PAGE_FAULT, &[word, 4]);
            check(&mut w, 11, [1, word, 4, 0, 0], nested, &[(54, 0)]);
        }
    }
}

// Any words

#[test]
fn total_and_refusals_change_nothing() {
    let interesting = [
        0,
        1,
        2,
        3,
        4,
        5,
        6,
        7,
        8,
        9,
        10,
        21,
        22,
        23,
        31,
        32,
        40,
        0x3000,
        0x73,
        0x14D292F3,
        0x2383,
        0x702023,
        0x43D8, // c.lw
        0xE322, // c.sdsp
        0x54494D45,
        0x735049,
        0x48534D,
        0x485643,
        0x53525354,
        0x4442434E,
        0x52464E43,
        TOP,
        TOP + 9,
        u64::MAX,
    ];
    let mut state: u64 = 1;
    let mut random = || {
        // xorshift
        state ^= state << 13;
        state ^= state >> 7;
        state ^= state << 17;
        state
    };
    for _ in 0..200_000 {
        let mut pick = || match random() % 4 {
            0 => random(),
            _ => interesting[random() as usize % interesting.len()],
        };
        let mut words = [0; 58];
        words.iter_mut().for_each(|word| *word = pick());
        words[WAITS] = pick() % 14;
        let kind = pick() % 16;
        let numbers = [pick(), pick(), pick(), pick(), pick()];
        let before = words;
        let reply = call(&mut words, kind, numbers);
        assert!(reply.kind <= 4);
        let refused = reply.kind == 4 && matches!(reply.number, 1 | 2 | 7);
        if refused || matches!(kind, 3 | 13) {
            assert_eq!(words, before);
        }
        // All that changes hvip.
        let hvip = before[HVIP];
        let later = match (kind, numbers[0], before[17], before[16]) {
            _ if refused => hvip,
            (1 | 14, ..) => 0,
            (7, ..) => words[HVIP] & 0x444 | hvip & !0x444,
            (8, bits, ..) => hvip | bits,
            (10, 10, 0, _) | (10, 10, 0x54494D45, 0) => hvip & !TICK,
            (10, 10, 3, _) => hvip & !4,
            _ => hvip,
        };
        assert_eq!(words[HVIP], later);
        // All that changes sstatus.
        let sstatus = before[SSTATUS];
        let later = match (kind, before[WAITS], numbers) {
            _ if refused => sstatus,
            (1, ..) => 0x2100,
            (14, ..) => 0,
            (11, 2 | 3, [1, _, 1..=3, ..]) => sstatus | 0x100,
            _ => sstatus,
        };
        assert_eq!(words[SSTATUS], later);
        if matches!(kind, 1 | 2 | 4..=9) {
            assert_eq!(words[WAITS..], before[WAITS..]);
        }
        if kind != 14 {
            assert_eq!(words[0], before[0]);
        }
        if reply.kind == 1 {
            assert_eq!(Record(&mut words).waits().ask_number(), Some(reply.number));
        }
    }
}
