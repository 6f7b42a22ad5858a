//! Rules that the marked cases leave out: refusals, asks, readings.

use crate::*;

fn trap(scause: u64) -> Trap {
    Trap { scause, stval: 0, htval: 0, htinst: 0, room: 4096 }
}

fn ecall(set: &[(usize, u64)]) -> Vcpu {
    let mut v = Vcpu::zero();
    for &(index, value) in set {
        v.x[index] = value;
    }
    v
}

fn every_answer() -> Vec<Answer> {
    vec![
        Answer::Fetch(FetchAnswer::Unhandled),
        Answer::Mask { count: 8, bytes: 1 },
        Answer::CopyIn { count: 1 },
        Answer::Print { error: 0, value: 1 },
        Answer::Read { error: 0, value: 1 },
        Answer::CopyOut { count: 1 },
        Answer::Emit,
        Answer::GetChar { number: 1 },
        Answer::Forward { error: 0, value: 1 },
        Answer::Other { number: 0 },
        Answer::Other { number: 10 },
        Answer::Other { number: u64::MAX },
    ]
}

fn every_waiting() -> Vec<Waiting> {
    vec![
        Waiting::Fetch(FetchFor::VirtualInstruction),
        Waiting::Mask,
        Waiting::CopyIn { n: 1 },
        Waiting::Print { n: 1 },
        Waiting::Read { n: 1, at: GuestPhysAddr(0) },
        Waiting::CopyOut { v: 1 },
        Waiting::Emit(EmitFor::Byte),
        Waiting::GetChar,
        Waiting::Forward,
    ]
}

fn load() -> Waiting {
    Waiting::Load { rd: 5, width: Width::One, signed: true }
}

/// Every changing call but an answer, some with bad arguments.
fn changing_calls() -> Vec<Call> {
    vec![
        Call::Setup,
        Call::SetEntry { entry: 0 },
        Call::SetGpr { index: 0, value: 0 },
        Call::SetGpr { index: 32, value: 0 },
        Call::SetNestedPageTable { levels: 3, mode: 8, root: 0 },
        Call::SetNestedPageTable { levels: 5, mode: 8, root: 0 },
        Call::SetVirtualInterruptPending { vector: 9, pending: true },
        Call::SetVirtualInterruptPending { vector: 1, pending: true },
        Call::InjectInterrupt { vector: 7 },
        Call::SetVseipLevel { asserted: true },
        Call::LatchHvip { bits: 0 },
        Call::SetReturnValue { value: 0 },
        Call::CompleteIpi { abi: IpiAbi::Legacy, completion: IpiCompletion::Success },
        Call::Start(trap(14)),
        Call::CompleteLoad { number: 0 },
    ]
}

#[test]
fn a_waiting_ask_refuses_all_but_answers_and_reads() {
    for waiting in every_waiting() {
        let mut v = Vcpu { waiting, ..Vcpu::zero() };
        let before = v.clone();
        for call in changing_calls() {
            assert_eq!(v.call(&call), Reply::Error(Error::BadState), "{call:?}");
            assert_eq!(v, before);
        }
        assert_eq!(v.get_gpr(31), Reply::Value(0));
        assert_eq!(v.get_gpr(32), Reply::Error(Error::InvalidInput));
    }
}

#[test]
fn a_waiting_load_refuses_starts_and_answers_only() {
    for call in changing_calls() {
        let mut v = Vcpu { waiting: load(), ..Vcpu::zero() };
        let reply = v.call(&call);
        match call {
            Call::Start(_) => assert_eq!(reply, Reply::Error(Error::BadState)),
            Call::CompleteLoad { .. } => assert_eq!(v.waiting, Waiting::Nothing),
            _ => {
                assert_ne!(reply, Reply::Error(Error::BadState));
                assert_eq!(v.waiting, load());
            }
        }
    }
    let mut v = Vcpu { waiting: load(), ..Vcpu::zero() };
    for answer in every_answer() {
        assert_eq!(v.answer(&answer), Reply::Error(Error::WrongAnswer));
        assert_eq!(v.waiting, load());
    }
}

#[test]
fn an_answer_fits_its_own_ask_alone() {
    for (i, waiting) in every_waiting().into_iter().enumerate() {
        for (j, answer) in every_answer().into_iter().enumerate() {
            let mut v = Vcpu { waiting, ..Vcpu::zero() };
            let before = v.clone();
            let refused = v.answer(&answer) == Reply::Error(Error::WrongAnswer);
            assert_eq!(refused, i != j);
            assert!(!refused || v == before);
        }
    }
    let mut v = Vcpu::zero();
    for answer in every_answer() {
        assert_eq!(v.answer(&answer), Reply::Error(Error::WrongAnswer));
    }
    assert_eq!(v.complete_load(0), Reply::Error(Error::BadState));
    assert_eq!(v, Vcpu::zero());
}

#[test]
fn bad_arguments() {
    let mut v = Vcpu::zero();
    for call in [
        Call::GetGpr { index: 32 },
        Call::SetGpr { index: u64::MAX, value: 1 },
        Call::SetNestedPageTable { levels: 3, mode: 9, root: 0 },
        Call::SetNestedPageTable { levels: 4, mode: 8, root: 0 },
        Call::SetNestedPageTable { levels: 4, mode: 9, root: 0x2000 },
        Call::InjectInterrupt { vector: 1 },
        Call::InjectInterrupt { vector: INTERRUPT },
        Call::SetVirtualInterruptPending { vector: 5, pending: false },
    ] {
        assert_eq!(v.call(&call), Reply::Error(Error::InvalidInput));
    }
    assert_eq!(v, Vcpu::zero());
    assert_eq!(v.set_nested_page_table(4, 9, !0x3fff), Reply::Done);
    assert_eq!(v.hgatp, 0x9000_0fff_ffff_fffc);
}

#[test]
fn pending_bits() {
    let mut v = Vcpu::zero();
    v.latch_hvip(1 << 63);
    v.inject_interrupt(INTERRUPT + 1);
    v.inject_interrupt(INTERRUPT + 5);
    v.inject_interrupt(9);
    assert_eq!(v.hvip, 1 << 63 | 0x444);
    v.set_virtual_interrupt_pending(INTERRUPT + 9, false);
    v.set_virtual_interrupt_pending(INTERRUPT + 5, false);
    assert_eq!(v.hvip, 1 << 63 | 4);
    v.set_vseip_level(true);
    assert_eq!(v.hvip, 1 << 63 | 0x404);
}

#[test]
fn x0_reads_0_and_keeps_its_slot() {
    let mut v = Vcpu::zero();
    v.x[0] = 99;
    v.vstimecmp = 7;
    assert_eq!(v.set_gpr(0, 5), Reply::Done);
    assert_eq!(v.get_gpr(0), Reply::Value(0));
    // csrrw x0, stimecmp, x0
    v.start(&Trap { stval: 0x14D0_1073, ..trap(22) });
    assert_eq!((v.vstimecmp, v.x[0]), (0, 99));
    // sd x0
    let reply = v.start(&Trap { htinst: 0x3023, ..trap(23) });
    let exit = Exit::MmioWrite { addr: GuestPhysAddr(0), width: Width::Eight, data: 0 };
    assert_eq!(reply, Reply::Exit(exit));
    // ld x0 waits, and its completion writes nothing
    v.start(&Trap { htinst: 0x3003, ..trap(21) });
    v.complete_load(5);
    assert_eq!(v.x, { let mut x = [0; 32]; x[0] = 99; x });
}

#[test]
fn scause_lists() {
    let error = |scause| match Vcpu::zero().start(&trap(scause)) {
        Reply::Error(error) => error.number(),
        _ => 0,
    };
    for code in 0..40 {
        let want = match code {
            1 | 5 | 9 => 0,
            0..=12 => 3,
            _ => 4,
        };
        assert_eq!(error(INTERRUPT + code), want);
        let want = match code {
            10 | 21 | 22 | 23 => 0,
            0..=9 | 11 | 12 | 13 | 15 | 20 => 3,
            _ => 4,
        };
        assert_eq!(error(code), want);
    }
    assert_eq!(error((1 << 32) + 10), 4);
    assert_eq!(error(INTERRUPT + (1 << 32) + 9), 4);
}

#[test]
fn console_order_of_checks() {
    for fid in [0, 1] {
        let mut v = ecall(&[(A7, EID_DBCN), (A6, fid), (A2, 1)]);
        v.start(&trap(10));
        assert_eq!((v.x[A0], v.x[A1]), (0, 0));
        let mut v = ecall(&[(A7, EID_DBCN), (A6, fid), (A0, 1), (A2, 1)]);
        v.start(&Trap { room: 0, ..trap(10) });
        assert_eq!((v.x[A0], v.x[A1]), (INVALID_PARAM, 0));
        let mut v = ecall(&[(A7, EID_DBCN), (A6, fid), (A0, 1)]);
        v.start(&Trap { room: 0, ..trap(10) });
        assert_eq!((v.x[A0], v.sepc), (0, 4));
    }
}

#[test]
fn console_write_bounds_and_prints() {
    let mut v = ecall(&[(A7, EID_DBCN), (A0, u64::MAX), (A1, 0x99)]);
    let reply = v.start(&Trap { room: u64::MAX, ..trap(10) });
    assert_eq!(reply, Reply::Ask(Ask::CopyIn { n: 4096, at: GuestPhysAddr(0x99) }));
    let buffer = [7; 4096];
    assert!(v.to_print(&buffer).is_empty());
    assert_eq!(v.answer(&Answer::CopyIn { count: 4096 }), Reply::Ask(Ask::Print { n: 4096 }));
    assert_eq!(v.to_print(&buffer).len(), 4096);
    assert!(v.to_print(&buffer[1..]).is_empty());
    v.answer(&Answer::Print { error: 5, value: 6 });
    assert_eq!((v.x[A0], v.x[A1], v.sepc), (5, 6, 4));
    assert!(v.to_print(&buffer).is_empty());
}

#[test]
fn console_read_pairs() {
    let start = || {
        let mut v = ecall(&[(A7, EID_DBCN), (A6, 1), (A0, 9), (A1, 0x99)]);
        assert_eq!(v.start(&trap(10)), Reply::Ask(Ask::Read { n: 9 }));
        v
    };
    for (error, value) in [(0, 0), (0, 10), (1, 5), (u64::MAX, 0)] {
        let mut v = start();
        let reply = v.answer(&Answer::Read { error, value });
        assert_eq!(reply, Reply::Exit(Exit::Nothing));
        assert_eq!((v.x[A0], v.x[A1]), (error, value));
    }
    for (count, want) in [(9, (0, 9)), (8, (FAILED, 0)), (10, (FAILED, 0))] {
        let mut v = start();
        let reply = v.answer(&Answer::Read { error: 0, value: 9 });
        assert_eq!(reply, Reply::Ask(Ask::CopyOut { n: 9, at: GuestPhysAddr(0x99) }));
        // A waiting ecall's answers read no register.
        v.x[A1] = 1;
        v.answer(&Answer::CopyOut { count });
        assert_eq!((v.x[A0], v.x[A1]), want);
    }
}

#[test]
fn fences_count_in_order_before_the_ask() {
    for fid in 0..9 {
        let mut v = ecall(&[(A7, EID_RFNC), (A6, fid), (A0, 3)]);
        let args = [3, 0, 0, 0, 0, 0];
        assert_eq!(v.start(&trap(10)), Reply::Ask(Ask::Forward { eid: EID_RFNC, fid, args }));
        let mut counts = [0; 9];
        if fid <= 6 {
            counts[2 + fid as usize] = 1;
        }
        assert_eq!((v.counts, v.sepc), (counts, 0));
        v.answer(&Answer::Forward { error: 1, value: 2 });
        assert_eq!((v.x[A0], v.x[A1], v.sepc), (1, 2, 4));
    }
}

#[test]
fn legacy_results() {
    let mut v = ecall(&[(A7, 1), (A0, 0x1234), (A1, 9)]);
    assert_eq!(v.start(&trap(10)), Reply::Ask(Ask::Emit { number: 0x1234 }));
    assert_eq!(v.answer(&Answer::Emit), Reply::Exit(Exit::Nothing));
    assert_eq!((v.x[A0], v.x[A1], v.sepc), (0x1234, 9, 4));
    let mut v = ecall(&[(A7, 2), (A1, 9)]);
    v.start(&trap(10));
    v.answer(&Answer::GetChar { number: u64::MAX });
    assert_eq!((v.x[A0], v.x[A1], v.sepc), (u64::MAX, 9, 4));
    let mut v = ecall(&[(A7, 3), (A0, 5)]);
    v.hvip = u64::MAX;
    v.start(&trap(10));
    assert_eq!((v.x[A0], v.hvip), (0, !4));
    for count in [0, 7, 9, u64::MAX] {
        let mut v = ecall(&[(A7, 4), (A0, 0x50), (A1, 9)]);
        let ask = Ask::Mask { at: GuestVirtAddr(0x50) };
        assert_eq!(v.start(&trap(10)), Reply::Ask(ask));
        v.answer(&Answer::Mask { count, bytes: 3 });
        assert_eq!((v.x[A0], v.x[A1], v.sepc), (FAILED, 0, 4));
    }
}

/// 02, W1: bit 6 and no other, whatever a0 is; nothing else moves.
#[test]
fn set_timer_clears_hvip_bit_6() {
    for a0 in [0, u64::MAX] {
        for (hvip, later) in [(u64::MAX, !0x40), (0, 0)] {
            for (eid, fid, a1) in [(0, 0, 9), (0, 1, 9), (EID_TIME, 0, 0)] {
                let mut v = ecall(&[(A7, eid), (A6, fid), (A0, a0), (A1, 9)]);
                v.hvip = hvip;
                let mut want = Vcpu { hvip: later, vstimecmp: a0, sepc: 4, ..v.clone() };
                (want.x[A0], want.x[A1], want.counts[0]) = (0, a1, 1);
                assert_eq!(v.start(&trap(10)), Reply::Exit(Exit::Nothing));
                assert_eq!(v, want);
            }
        }
        let mut v = ecall(&[(A7, EID_TIME), (A6, 1), (A0, a0)]);
        v.hvip = u64::MAX;
        v.start(&trap(10));
        assert_eq!((v.x[A0], v.hvip), (NOT_SUPPORTED, u64::MAX));
    }
}

/// 02, W1: by stval and by a fetched word.
#[test]
fn a_csr_write_to_stimecmp_changes_no_hvip_bit() {
    for funct3 in [1, 2, 3, 5, 6, 7] {
        // rd 6, field 7; each form changes vstimecmp.
        let word: u32 = 0x14d << 20 | 7 << 15 | funct3 << 12 | 6 << 7 | 0x73;
        let mut by_stval = ecall(&[(7, 0b1100)]);
        (by_stval.hvip, by_stval.vstimecmp) = (u64::MAX, 0b1010);
        let mut by_fetch = by_stval.clone();
        by_stval.start(&Trap { stval: word as u64, ..trap(22) });
        by_fetch.start(&trap(22));
        by_fetch.answer(&Answer::Fetch(FetchAnswer::Word(word)));
        for v in [by_stval, by_fetch] {
            assert_ne!(v.vstimecmp, 0b1010);
            assert_eq!((v.hvip, v.sepc), (u64::MAX, 4));
        }
    }
}

#[test]
fn htinst_is_compared_whole_and_decoded_low() {
    let start = |scause, htinst| Vcpu::zero().start(&Trap { htinst, ..trap(scause) });
    assert_eq!(start(21, 1 << 32), Reply::Error(Error::DecodeFailed));
    assert_eq!(start(21, (1 << 32) + 0x3000), Reply::Error(Error::Unsupported));
    assert_eq!(start(21, (1 << 32) + 0x3020), Reply::Error(Error::Unsupported));
    let fault = |access| Reply::Exit(Exit::NestedPageFault { addr: GuestPhysAddr(0), access });
    // A store under 21, a load under 23, LOAD with funct3 7, and no access.
    assert_eq!(start(21, 0x70_2023), fault(Access::Read));
    assert_eq!(start(23, 0x2383), fault(Access::Write));
    assert_eq!(start(21, 0x7383), fault(Access::Read));
    assert_eq!(start(23, 0x13), fault(Access::Write));
}

#[test]
fn fetched_words_by_length() {
    let run = |word| {
        let mut v = Vcpu::zero();
        v.start(&Trap { htval: 1, stval: 7, ..trap(21) });
        (v.answer(&Answer::Fetch(FetchAnswer::Word(word))), v.sepc)
    };
    let addr = GuestPhysAddr(7);
    let fault = Reply::Exit(Exit::NestedPageFault { addr, access: Access::Read });
    assert_eq!(run(0x2383), (Reply::Exit(Exit::MmioRead { addr, width: Width::Four }), 4));
    // Low bits 01 are no 32-bit form when fetched, and 0x3000 is no pseudo word.
    assert_eq!(run(0x2381), (fault, 0));
    assert_eq!(run(0x3000), (fault, 0));
    // c.lw
    assert_eq!(run(0x4000), (Reply::Exit(Exit::MmioRead { addr, width: Width::Four }), 2));
    assert_eq!(run(0x1f), (Reply::Error(Error::DecodeFailed), 0));
}

/// A guest page fault whose word is fetched, at address 7.
fn fetched(v: &mut Vcpu, scause: u64, word: u32) -> Reply {
    let ask = Ask::Fetch { at: GuestVirtAddr(v.sepc), supervisor: v.supervisor() };
    assert_eq!(v.start(&Trap { htval: 1, stval: 7, ..trap(scause) }), Reply::Ask(ask));
    v.answer(&Answer::Fetch(FetchAnswer::Word(word)))
}

/// Registers that tell their numbers, in x0's slot too.
fn numbered() -> Vcpu {
    let mut v = Vcpu { sepc: 0x8000_0000, ..Vcpu::zero() };
    v.x = std::array::from_fn(|i| 0xffff_ffff_8000_0000 + i as u64);
    v
}

/// 02, W2: these 16-bit words are no access, whatever the cause.
fn is_no_access(word: u32) {
    let addr = GuestPhysAddr(7);
    for (scause, access) in [(21, Access::Read), (23, Access::Write)] {
        let mut v = numbered();
        let fault = Exit::NestedPageFault { addr, access };
        assert_eq!(fetched(&mut v, scause, word), Reply::Exit(fault), "{word:#x}");
        assert_eq!(v, numbered());
    }
}

/// 02, W2: c.lw, c.ld, c.lwsp, c.ldsp, with small and large offsets.
#[test]
fn compressed_loads() {
    let addr = GuestPhysAddr(7);
    for (word, rd, width) in [
        (0x4000, 8, Width::Four),
        (0x5cfc, 15, Width::Four),
        (0x6000, 8, Width::Eight),
        (0x7cfc, 15, Width::Eight),
        (0x4082, 1, Width::Four),
        (0x5ffe, 31, Width::Four),
        (0x6082, 1, Width::Eight),
        (0x7ffe, 31, Width::Eight),
    ] {
        // The upper half is another instruction's, or nothing's.
        for upper in [0, 0x1_0000, 0x2503_0000, 0xffff_0000] {
            let mut v = numbered();
            let exit = Exit::MmioRead { addr, width };
            assert_eq!(fetched(&mut v, 21, word | upper), Reply::Exit(exit), "{word:#x}");
            let waiting = Waiting::Load { rd, width, signed: true };
            assert_eq!(v, Vcpu { sepc: 0x8000_0002, waiting, ..numbered() });
            // A load under 23.
            let mut v = numbered();
            let fault = Exit::NestedPageFault { addr, access: Access::Write };
            assert_eq!(fetched(&mut v, 23, word | upper), Reply::Exit(fault));
            assert_eq!(v, numbered());
        }
    }
}

/// 02, W2: c.sw, c.sd, c.swsp, c.sdsp. Bits 11..7 of the last two are of the
/// offset, and 0 in half of these; x0 stores 0.
#[test]
fn compressed_stores() {
    let addr = GuestPhysAddr(7);
    for (word, rs2, width) in [
        (0xc000, 8, Width::Four),
        (0xdcfc, 15, Width::Four),
        (0xe000, 8, Width::Eight),
        (0xfcfc, 15, Width::Eight),
        (0xc002, 0, Width::Four),
        (0xc07e, 31, Width::Four),
        (0xdf96, 5, Width::Four),
        (0xe002, 0, Width::Eight),
        (0xe07e, 31, Width::Eight),
        (0xff96, 5, Width::Eight),
    ] {
        let data = match (rs2, width) {
            (0, _) => 0,
            (_, Width::Four) => 0x8000_0000 + rs2,
            _ => 0xffff_ffff_8000_0000 + rs2,
        };
        for upper in [0, 0x1_0000, 0x2503_0000, 0xffff_0000] {
            let mut v = numbered();
            let exit = Exit::MmioWrite { addr, width, data };
            assert_eq!(fetched(&mut v, 23, word | upper), Reply::Exit(exit), "{word:#x}");
            assert_eq!(v, Vcpu { sepc: 0x8000_0002, ..numbered() });
            // A store under 21.
            let mut v = numbered();
            let fault = Exit::NestedPageFault { addr, access: Access::Read };
            assert_eq!(fetched(&mut v, 21, word | upper), Reply::Exit(fault));
            assert_eq!(v, numbered());
        }
    }
}

/// 02, W2: each register that a form can name.
#[test]
fn compressed_registers() {
    let addr = GuestPhysAddr(7);
    for field in 0..8 {
        let mut v = numbered();
        fetched(&mut v, 21, 0x6000 | field << 2);
        let load = Waiting::Load { rd: 8 + field as u64, width: Width::Eight, signed: true };
        assert_eq!(v.waiting, load);
        let exit =
            Exit::MmioWrite { addr, width: Width::Eight, data: numbered().x[8 + field as usize] };
        assert_eq!(fetched(&mut numbered(), 23, 0xe000 | field << 2), Reply::Exit(exit));
    }
    for field in 1..32 {
        let mut v = numbered();
        fetched(&mut v, 21, 0x6002 | field << 7);
        let load = Waiting::Load { rd: field as u64, width: Width::Eight, signed: true };
        assert_eq!(v.waiting, load);
        let exit = Exit::MmioWrite { addr, width: Width::Eight, data: numbered().x[field as usize] };
        assert_eq!(fetched(&mut numbered(), 23, 0xe002 | field << 2), Reply::Exit(exit));
    }
}

/// 02, W2: "c.lwsp and c.ldsp with rd 0 are reserved", with any offset, where
/// lw and ld with rd 0 wait.
#[test]
fn compressed_loads_by_sp_into_x0_are_reserved() {
    for form in [0x4002, 0x6002] {
        for offset in 0..32 {
            is_no_access(form | offset << 2);
            is_no_access(form | offset << 2 | 1 << 12);
        }
    }
    for word in [0x2003, 0x3003] {
        let mut v = numbered();
        fetched(&mut v, 21, word);
        assert!(matches!(v.waiting, Waiting::Load { rd: 0, .. }));
    }
}

/// 02, W2: the other 16-bit words.
#[test]
fn other_compressed_words() {
    // c.fld, c.fsd, c.fldsp, c.fsdsp.
    for word in [0x2000, 0xa000, 0x2082, 0xa006] {
        is_no_access(word);
    }
    // Later extensions' c.lbu, c.lhu, c.lh, c.sb, c.sh.
    for word in [0x8000, 0x8400, 0x8440, 0x8800, 0x8c00] {
        is_no_access(word);
    }
    // No instruction, whatever stands above it, and no pseudo word.
    for word in [0, 0x2503_0000, 0xffff_0000, 0x3000, 0x3020] {
        is_no_access(word);
    }
    // All of quadrant 1, and of quadrants 0 and 2 the other half.
    for funct3 in 0..8 {
        for bits in [0, 0x80, 0x1f7c, 0x1ffc] {
            is_no_access(funct3 << 13 | bits | 1);
            if funct3 & 2 == 0 {
                is_no_access(funct3 << 13 | bits);
                is_no_access(funct3 << 13 | bits | 2);
            }
        }
    }
}

/// 02, W2: of all 16-bit words, those with the eight forms' quadrants and
/// funct3 but the 64 reserved ones of each load by sp.
#[test]
fn compressed_words_in_all() {
    let (mut loads, mut stores) = (0, 0);
    for word in (0..=0xffff).filter(|word| word & 3 != 3) {
        let read = fetched(&mut Vcpu::zero(), 21, word);
        loads += matches!(read, Reply::Exit(Exit::MmioRead { .. })) as u32;
        let written = fetched(&mut Vcpu::zero(), 23, word);
        stores += matches!(written, Reply::Exit(Exit::MmioWrite { .. })) as u32;
    }
    assert_eq!((loads, stores), (4 * 2048 - 2 * 64, 4 * 2048));
}

/// 02, W2: sepc moves on by 2 modulo 2^64.
#[test]
fn a_compressed_access_wraps_sepc() {
    for (scause, word) in [(21, 0x4000), (21, 0x6082), (23, 0xe000), (23, 0xc002)] {
        for (sepc, later) in [(u64::MAX - 1, 0), (u64::MAX, 1), (u64::MAX - 3, u64::MAX - 1)] {
            let mut v = Vcpu { sepc, ..Vcpu::zero() };
            fetched(&mut v, scause, word);
            assert_eq!(v.sepc, later);
        }
    }
}

/// 02, W2: the completion of c.lw and c.lwsp extends the sign, that of c.ld
/// and c.ldsp takes the number whole. It changes rd and the waiting part.
#[test]
fn compressed_loads_complete() {
    for (word, rd, number, want) in [
        (0x4000, 8, 0x8000_0000, 0xffff_ffff_8000_0000),
        (0x4000, 8, 0xffff_ffff_7fff_ffff, 0x7fff_ffff),
        (0x4082, 1, 0x1_8000_0001, 0xffff_ffff_8000_0001),
        (0x5ffe, 31, 0x1_0000_0005, 5),
        (0x6000, 8, 0x8000_0000, 0x8000_0000),
        (0x6082, 1, u64::MAX - 1, u64::MAX - 1),
    ] {
        let mut v = numbered();
        fetched(&mut v, 21, word);
        assert_eq!(v.complete_load(number), Reply::Done);
        let mut later = Vcpu { sepc: 0x8000_0002, ..numbered() };
        later.x[rd] = want;
        assert_eq!(v, later, "{word:#x}");
    }
}

/// 02, W2 is about fetched words of guest page faults: htinst has 32-bit forms
/// alone, and a virtual instruction none of these.
#[test]
fn compressed_words_elsewhere() {
    for htinst in [0x4000, 0x4082, 0x6000, 0xc000, 0xe002] {
        let reply = Vcpu::zero().start(&Trap { htinst, ..trap(21) });
        assert_eq!(reply, Reply::Error(Error::DecodeFailed));
    }
    // lbu x1, compressed: length 2 and the 32-bit form's width and sign.
    let mut v = Vcpu::zero();
    v.start(&Trap { htinst: 0x4081, ..trap(21) });
    let waiting = Waiting::Load { rd: 1, width: Width::One, signed: false };
    assert_eq!((v.sepc, v.waiting), (2, waiting));
    let mut v = Vcpu::zero();
    v.start(&trap(22));
    let reply = v.answer(&Answer::Fetch(FetchAnswer::Word(0x4000)));
    assert_eq!((reply, v.sepc, v.counts[1]), (Reply::Error(Error::Unsupported), 0, 1));
}

#[test]
fn a_fetched_virtual_word_must_end_in_0x73() {
    for word in [0x14D0_2371, 0x1f, 0x14E0_2373] {
        let mut v = Vcpu::zero();
        v.start(&trap(22));
        assert_eq!(v.counts[1], 0);
        let reply = v.answer(&Answer::Fetch(FetchAnswer::Word(word)));
        assert_eq!(reply, Reply::Error(Error::Unsupported));
        assert_eq!(v.counts[1], 1);
    }
}

#[test]
fn extension() {
    for (width, bits) in [(Width::One, 8), (Width::Two, 16), (Width::Four, 32), (Width::Eight, 64)] {
        let top = 1u64 << (bits - 1);
        assert_eq!(width.extend(false, u64::MAX), u64::MAX >> (64 - bits));
        assert_eq!(width.extend(true, top), u64::MAX << (bits - 1));
        assert_eq!(width.extend(true, !top), top - 1);
    }
}

/// The four vectors that a post may have.
const VECTORS: [u64; 4] = [INTERRUPT + 1, INTERRUPT + 5, 9, INTERRUPT + 9];

/// 0 clears, any other sets.
const LEVELS: [u64; 5] = [0, 1, 2, 1 << 63, u64::MAX];

/// Vectors that no post may have: each stands close to one that it may.
const NOT_ALLOWED: [u64; 8] = [0, 1, 5, 8, 10, INTERRUPT, INTERRUPT + 2, (1 << 32) + 9];

/// Posts with vectors that are allowed, mixed.
fn row(length: usize) -> Vec<Post> {
    let mut number = length as u64;
    let mut pick = |from: &[u64]| {
        number = number.wrapping_mul(6364136223846793005).wrapping_add(1442695040888963407);
        from[(number >> 33) as usize % from.len()]
    };
    // Half of the levels are 0.
    let levels = [&[0; 3], &LEVELS[..]].concat();
    (0..length).map(|_| Post { vector: pick(&VECTORS), level: pick(&levels) }).collect()
}

/// The row with a vector that is not allowed at one place.
fn with_bad_at(posts: &[Post], place: usize) -> Vec<Post> {
    let mut posts = posts.to_vec();
    if let Some(post) = posts.get_mut(place) {
        post.vector = NOT_ALLOWED[place % NOT_ALLOWED.len()];
    }
    posts
}

/// The row's posts by the call for one, up to the first that is refused.
fn one_by_one(v: &mut Vcpu, posts: &[Post]) -> Posted {
    let mut applied = 0;
    for post in posts {
        match v.set_virtual_interrupt_pending(post.vector, post.level != 0) {
            Reply::Error(error) => return Posted { applied, refusal: Some(error) },
            reply => assert_eq!(reply, Reply::Done),
        }
        applied += 1;
    }
    Posted { applied, refusal: None }
}

/// A record in which every number is another.
fn all_different() -> Vcpu {
    let words = std::array::from_fn(|i| 0x5a5a_5a5a_5a5a_5a00 + i as u64);
    Vcpu::from_words(&words, Waiting::Nothing)
}

/// 02, W4: "the same outcome as posting them one by one in order", with the
/// refused post at each place and with none. A waiting load refuses nothing
/// and goes on waiting.
#[test]
fn a_row_is_its_posts_one_by_one() {
    for length in [0, 1, 2, 64] {
        for place in 0..=length {
            for waiting in [Waiting::Nothing, load()] {
                for hvip in [0, u64::MAX, !0x444, 0x5a5a_5a5a_5a5a_5a40] {
                    let posts = with_bad_at(&row(length), place);
                    let before = Vcpu { hvip, waiting, ..all_different() };
                    let (mut v, mut due) = (before.clone(), before.clone());
                    let posted = v.post(&posts);
                    assert_eq!(posted, one_by_one(&mut due, &posts), "{posts:?}");
                    assert_eq!(v, due, "{posts:?}");
                    // Nothing but the three bits, whatever the posts are.
                    let three = 0x444;
                    assert_eq!(v.hvip & !three, hvip & !three);
                    assert_eq!(v, Vcpu { hvip: v.hvip, ..before });
                    let refusal = (place < length).then_some(Error::InvalidInput);
                    assert_eq!(posted, Posted { applied: place as u64, refusal });
                }
            }
        }
    }
}

/// 02, W4, with 100,000 posts: the places at both ends and every 499th.
#[test]
fn a_long_row_is_its_posts_one_by_one() {
    const LENGTH: usize = 100_000;
    let posts = row(LENGTH);
    let before = Vcpu { waiting: load(), ..all_different() };
    let mut v = before.clone();
    // hvip before each post, and after the last.
    let mut hvip = vec![v.hvip];
    for post in &posts {
        assert_eq!(one_by_one(&mut v, &[*post]), Posted { applied: 1, refusal: None });
        hvip.push(v.hvip);
    }
    assert_eq!(v, Vcpu { hvip: v.hvip, ..before.clone() });
    let ends = (0..70).chain(LENGTH - 70..=LENGTH);
    for place in ends.chain((0..LENGTH).step_by(499)) {
        let mut v = before.clone();
        let refusal = (place < LENGTH).then_some(Error::InvalidInput);
        let posted = v.post(&with_bad_at(&posts, place));
        assert_eq!(posted, Posted { applied: place as u64, refusal });
        assert_eq!(v, Vcpu { hvip: hvip[place], ..before.clone() }, "{place}");
    }
}

/// 02, W4: refusal 2 goes before the first post is looked at, "for an empty
/// row too, with 0 applied".
#[test]
fn a_waiting_ask_refuses_a_row() {
    let page_fault = FetchFor::GuestPageFault { addr: GuestPhysAddr(7), write: true };
    let others = [Waiting::Fetch(page_fault), Waiting::Emit(EmitFor::Legacy)];
    for waiting in every_waiting().into_iter().chain(others) {
        for length in [0, 1, 2, 64, 100_000] {
            for place in [0, length / 2, length] {
                let before = Vcpu { waiting, ..all_different() };
                let mut v = before.clone();
                let posted = v.post(&with_bad_at(&row(length), place));
                assert_eq!(posted, Posted { applied: 0, refusal: Some(Error::BadState) });
                assert_eq!(v, before);
            }
        }
    }
}

/// 02, W4: "An empty row applies 0", and is refused by an ask alone.
#[test]
fn an_empty_row_applies_0() {
    for waiting in [Waiting::Nothing, load()] {
        let before = Vcpu { waiting, ..all_different() };
        let mut v = before.clone();
        assert_eq!(v.post(&[]), Posted { applied: 0, refusal: None });
        assert_eq!(v, before);
    }
}

/// 02, W4: what a level does to each of the three bits.
#[test]
fn levels_of_posts() {
    for (vector, bit) in VECTORS.into_iter().zip([4, 0x40, 0x400, 0x400]) {
        for level in LEVELS {
            for hvip in [0, u64::MAX, bit, !bit] {
                let later = if level == 0 { hvip & !bit } else { hvip | bit };
                let mut v = Vcpu { hvip, ..all_different() };
                let posted = v.post(&[Post { vector, level }]);
                assert_eq!(posted, Posted { applied: 1, refusal: None });
                assert_eq!(v, Vcpu { hvip: later, ..all_different() });
            }
        }
    }
}

/// 02, W4: posts on one line, of which the last decides, and on several.
#[test]
fn posts_in_order() {
    let (soft, timer, by_9) = (INTERRUPT + 1, INTERRUPT + 5, INTERRUPT + 9);
    for (posts, hvip, later) in [
        (&[(soft, 1), (soft, 0)][..], 0, 0),
        (&[(soft, 0), (soft, 1)], 0, 4),
        // 9 and 2^63 + 9 are one line.
        (&[(9, 1), (by_9, 0)], 0, 0),
        (&[(by_9, 1), (9, 0)], u64::MAX, !0x400),
        (&[(by_9, 0), (9, 1)], 0, 0x400),
        (&[(timer, 0), (soft, 0), (9, 0), (timer, 2)], u64::MAX, !0x404),
        (&[(timer, 1), (9, 1), (soft, 1), (timer, 0)], 0, 0x404),
    ] {
        let posts: Vec<Post> =
            posts.iter().map(|&(vector, level)| Post { vector, level }).collect();
        let mut v = Vcpu { hvip, ..Vcpu::zero() };
        v.post(&posts);
        assert_eq!(v, Vcpu { hvip: later, ..Vcpu::zero() }, "{posts:x?}");
    }
}

/// 02, W4: each vector's neighbours, by number and by bit, behind a good post
/// and before one. The level of a refused post counts for nothing.
#[test]
fn vectors_of_posts() {
    let before = Vcpu { hvip: 0x440, ..all_different() };
    let mut not_allowed = 0;
    for near in VECTORS {
        let by_bit = (0..64).map(|bit| near ^ 1 << bit);
        for vector in by_bit.chain([near.wrapping_add(1), near.wrapping_sub(1), !near]) {
            for level in LEVELS {
                let soft = |level| Post { vector: INTERRUPT + 1, level };
                let posts = [soft(1), Post { vector, level }, soft(0)];
                let (mut v, mut due) = (before.clone(), before.clone());
                let posted = v.post(&posts);
                assert_eq!(posted, one_by_one(&mut due, &posts), "{vector:x}");
                assert_eq!(v, due, "{vector:x}");
                if VECTORS.contains(&vector) {
                    assert_eq!(posted, Posted { applied: 3, refusal: None });
                } else {
                    not_allowed += 1;
                    let refusal = Some(Error::InvalidInput);
                    assert_eq!(posted, Posted { applied: 1, refusal });
                    assert_eq!(v, Vcpu { hvip: 0x444, ..all_different() });
                }
            }
        }
    }
    // Of the 268 all but 6: +1 and +5, +1 and +9, 9 and 2^63 + 9, each from
    // both sides.
    assert_eq!(not_allowed, 262 * LEVELS.len());
}

/// 02, W4: posts behind the refused one are not looked at.
#[test]
fn a_second_bad_vector_changes_nothing() {
    for place in 0..64 {
        let posts = with_bad_at(&row(64), place);
        let mut due = all_different();
        let posted = due.post(&posts[..=place]);
        assert_eq!(posted, Posted { applied: place as u64, refusal: Some(Error::InvalidInput) });
        for second in place + 1..=64 {
            let mut v = all_different();
            assert_eq!(v.post(&with_bad_at(&posts, second)), posted);
            assert_eq!(v, due);
        }
    }
}

/// 02, W4: a row that is cut in two and posted in two calls leaves the same
/// record, unless the first was stopped.
#[test]
fn a_row_cut_in_two() {
    for place in 0..=64 {
        let posts = with_bad_at(&row(64), place);
        let mut whole = all_different();
        let posted = whole.post(&posts);
        for cut in 0..=64 {
            let mut v = all_different();
            let first = v.post(&posts[..cut]);
            if place < cut {
                assert_eq!((first, &v), (posted, &whole));
                continue;
            }
            assert_eq!(first, Posted { applied: cut as u64, refusal: None });
            let second = v.post(&posts[cut..]);
            assert_eq!(first.applied + second.applied, posted.applied);
            assert_eq!((second.refusal, &v), (posted.refusal, &whole));
        }
    }
}

/// A record in which every number is all ones.
fn all_ones() -> Vcpu {
    Vcpu::from_words(&[u64::MAX; 58], Waiting::Nothing)
}

/// User code and supervisor code, each with sstatus bit 8 clear and set.
fn codes(record: &Vcpu) -> Vec<Vcpu> {
    let mut codes = Vec::new();
    for hstatus in [record.hstatus & !0x100, record.hstatus | 0x100] {
        for sstatus in [record.sstatus & !0x100, record.sstatus | 0x100] {
            codes.push(Vcpu { sstatus, hstatus, ..record.clone() });
        }
    }
    codes
}

/// All numbers different, all ones and zero.
fn guests() -> Vec<Vcpu> {
    [all_different(), all_ones(), Vcpu::zero()].iter().flat_map(codes).collect()
}

/// The traps that ask for a word, each with what it leaves waiting.
fn fetching() -> [(Trap, FetchFor); 3] {
    let addr = GuestPhysAddr(7);
    let page_fault = |scause| Trap { htval: 1, stval: 7, ..trap(scause) };
    [
        (trap(22), FetchFor::VirtualInstruction),
        (page_fault(21), FetchFor::GuestPageFault { addr, write: false }),
        (page_fault(23), FetchFor::GuestPageFault { addr, write: true }),
    ]
}

/// The faults that are injected, at address 0x46, each with its cause.
fn injected() -> [(Answer, u64); 3] {
    let at = GuestVirtAddr(0x46);
    [
        (Answer::Fetch(FetchAnswer::Page(at)), 12),
        (Answer::Fetch(FetchAnswer::Access(at)), 1),
        (Answer::Fetch(FetchAnswer::Misaligned(at)), 0),
    ]
}

/// 02, W5: bit 8 of sstatus, whatever it was and whichever code ran. SPP of
/// vsstatus is hstatus bit 8, and hstatus stays.
#[test]
fn injection_sets_sstatus_bit_8() {
    let some = 0x5a5a_5a5a_5a5a_5a00;
    for (record, sstatus, by_user, by_supervisor, sepc) in [
        (all_different(), some + 0x121, some + 0x21, some + 0x121, some + 0x24),
        (all_ones(), u64::MAX, !0x102, !2, !3),
        (Vcpu::zero(), 0x100, 0, 0x100, 0),
    ] {
        for before in codes(&record) {
            let supervisor = before.hstatus & 0x100 != 0;
            let vsstatus = if supervisor { by_supervisor } else { by_user };
            for (start, _) in fetching() {
                for (answer, vscause) in injected() {
                    let mut v = before.clone();
                    v.start(&start);
                    assert_eq!(v.answer(&answer), Reply::Exit(Exit::Nothing));
                    let mut want = Vcpu { sepc, sstatus, vsstatus, ..before.clone() };
                    (want.vsepc, want.vscause, want.vstval) = (before.sepc, vscause, 0x46);
                    assert_eq!(v, want, "{start:?} {answer:?}");
                }
            }
        }
    }
}

/// 02, W5: the other bits of sstatus and all of hstatus stay, each set alone
/// and each clear alone. No other bit of hstatus decides SPP.
#[test]
fn injection_bit_by_bit() {
    for bit in 0..64 {
        for one in [1 << bit, !(1 << bit)] {
            for (sstatus, hstatus) in [(one, 0), (one, u64::MAX), (0, one), (u64::MAX, one)] {
                for (start, _) in fetching() {
                    let mut v = Vcpu { sstatus, hstatus, ..Vcpu::zero() };
                    let mut want = Vcpu { sstatus: sstatus | 0x100, ..v.clone() };
                    (want.vsstatus, want.vscause, want.vstval) = (hstatus & 0x100, 12, 0x46);
                    v.start(&start);
                    v.answer(&injected()[0].0);
                    assert_eq!(v, want, "{start:?}");
                }
            }
        }
    }
}

/// 02, W5: a guest as setup leaves it, in its user program and in its kernel,
/// with a second fault in the handler. The asks go by hstatus.
#[test]
fn a_handler_runs_as_supervisor() {
    let (user, kernel) = ((0x2000, 0x2_0000_0080, 0x20), (0x2100, 0x2_0000_0180, 0x120));
    for (sstatus, hstatus, vsstatus) in [user, kernel] {
        let mut v = Vcpu { vsstatus: 2, vstvec: 0x8020_0001, ..Vcpu::zero() };
        v.setup();
        (v.sstatus, v.hstatus, v.sepc) = (sstatus, hstatus, 0x44);
        let supervisor = hstatus & 0x100 != 0;
        let mut want = Vcpu { sstatus: 0x2100, vsstatus, sepc: 0x8020_0000, ..v.clone() };
        let at = GuestVirtAddr(0x44);
        assert_eq!(v.start(&trap(22)), Reply::Ask(Ask::Fetch { at, supervisor }));
        v.answer(&injected()[0].0);
        (want.vsepc, want.vscause, want.vstval) = (0x44, 12, 0x46);
        assert_eq!(v, want);
        let at = GuestVirtAddr(0x8020_0000);
        assert_eq!(v.start(&trap(22)), Reply::Ask(Ask::Fetch { at, supervisor }));
        v.answer(&injected()[1].0);
        // SIE was 0, so SPIE is.
        (want.vsstatus, want.vsepc, want.vscause) = (vsstatus & 0x100, 0x8020_0000, 1);
        assert_eq!(v, want);
    }
}

/// 02, W5: a guest-page fault and an unhandled one are not injected.
#[test]
fn a_fault_that_is_not_injected_leaves_sstatus() {
    let addr = GuestPhysAddr(0x46);
    let fault = Reply::Exit(Exit::NestedPageFault { addr, access: Access::Execute });
    for before in guests() {
        for (start, _) in fetching() {
            for (answer, reply) in [
                (FetchAnswer::GuestPage(addr), fault),
                (FetchAnswer::Unhandled, Reply::Error(Error::GuestMemoryFault)),
            ] {
                let mut v = before.clone();
                v.start(&start);
                assert_eq!(v.answer(&Answer::Fetch(answer)), reply);
                assert_eq!(v, before);
            }
        }
    }
}

/// 02, W5: the bit is the answer's work. The ask leaves sstatus, and so does
/// an answer that is refused: of another kind, or with no fetch waiting.
#[test]
fn an_ask_and_a_refused_answer_leave_sstatus() {
    let refused = Reply::Error(Error::WrongAnswer);
    for before in guests() {
        for (start, class) in fetching() {
            let mut v = before.clone();
            let at = GuestVirtAddr(before.sepc);
            let supervisor = before.hstatus & 0x100 != 0;
            assert_eq!(v.start(&start), Reply::Ask(Ask::Fetch { at, supervisor }));
            let asked = Vcpu { waiting: Waiting::Fetch(class), ..before.clone() };
            assert_eq!(v, asked);
            // The first is a fetch's.
            for answer in &every_answer()[1..] {
                assert_eq!(v.answer(answer), refused);
                assert_eq!(v, asked);
            }
        }
        let others = every_waiting().split_off(1);
        for waiting in others.into_iter().chain([load(), Waiting::Nothing]) {
            let before = Vcpu { waiting, ..before.clone() };
            for (answer, _) in injected() {
                let mut v = before.clone();
                assert_eq!(v.answer(&answer), refused);
                assert_eq!(v, before);
            }
        }
    }
}

/// 02, W5: words that fit and words that don't, fetched and given.
#[test]
fn a_word_leaves_sstatus() {
    let [(virtual_word, _), (load_fault, _), (store_fault, _)] = fetching();
    for before in guests() {
        let moved = |by| Vcpu { sepc: before.sepc.wrapping_add(by), ..before.clone() };
        // csrrw x5, stimecmp, x5
        let mut swapped = Vcpu { vstimecmp: before.x[5], ..moved(4) };
        swapped.x[5] = before.vstimecmp;
        let mut counted = before.clone();
        counted.counts[1] = before.counts[1].wrapping_add(1);
        let waits = |rd| Waiting::Load { rd, width: Width::Four, signed: true };
        let lw = Vcpu { waiting: waits(7), ..moved(4) };
        let c_lw = Vcpu { waiting: waits(8), ..moved(2) };
        for (start, word, want) in [
            (virtual_word, 0x14D2_92F3, &swapped),
            (virtual_word, 0x14D0_4073, &counted),
            (virtual_word, 0x4000, &counted),
            (load_fault, 0x2383, &lw),
            (load_fault, 0x4000, &c_lw),
            (load_fault, 0x70_2023, &before),
            (load_fault, 0x1f, &before),
            (store_fault, 0x70_2023, &moved(4)),
            (store_fault, 0xc000, &moved(2)),
            (store_fault, 0x2383, &before),
            (store_fault, 0x1f, &before),
        ] {
            let mut v = before.clone();
            v.start(&start);
            v.answer(&Answer::Fetch(FetchAnswer::Word(word)));
            assert_eq!(&v, want, "{start:?} {word:#x}");
        }
        for (given, want) in [
            (Trap { stval: 0x14D2_92F3, ..virtual_word }, &swapped),
            (Trap { stval: 0x14D0_4073, ..virtual_word }, &counted),
            (Trap { htinst: 0x2383, ..load_fault }, &lw),
            (Trap { htinst: 0x3000, ..load_fault }, &before),
            (Trap { htinst: 0x70_2023, ..store_fault }, &moved(4)),
            (Trap { htinst: 0x2000, ..store_fault }, &before),
        ] {
            let mut v = before.clone();
            v.start(&given);
            assert_eq!(&v, want, "{given:?}");
        }
    }
}

/// 02, W5 is about fetch faults: of all other calls, an interrupt's injection
/// among them, setup alone writes sstatus.
#[test]
fn other_calls_leave_sstatus() {
    for before in guests() {
        for call in changing_calls().into_iter().chain([
            Call::InjectInterrupt { vector: INTERRUPT + 1 },
            Call::InjectInterrupt { vector: INTERRUPT + 5 },
            Call::InjectInterrupt { vector: 9 },
        ]) {
            let mut v = before.clone();
            v.call(&call);
            let sstatus = if call == Call::Setup { 0x2100 } else { before.sstatus };
            assert_eq!(v.sstatus, sstatus, "{call:?}");
        }
        for code in 0..40 {
            for scause in [code, INTERRUPT + code] {
                let mut v = before.clone();
                v.start(&trap(scause));
                assert_eq!(v.sstatus, before.sstatus, "{scause:#x}");
            }
        }
        for (waiting, answer) in every_waiting().into_iter().zip(every_answer()) {
            let mut v = Vcpu { waiting, ..before.clone() };
            assert_ne!(v.answer(&answer), Reply::Error(Error::WrongAnswer));
            assert_eq!(v.sstatus, before.sstatus, "{waiting:?}");
        }
    }
}
