//! 01's marked cases, by number.

use crate::*;

fn trap(scause: u64) -> Trap {
    Trap { scause, stval: 0, htval: 0, htinst: 0, room: 4096 }
}

fn nothing() -> Reply {
    Reply::Exit(Exit::Nothing)
}

#[test]
fn case_1_time_wraps_sepc() {
    let mut v = Vcpu::zero();
    v.sepc = 0u64.wrapping_sub(4);
    v.x[A0] = 5;
    v.x[A7] = EID_TIME;
    assert_eq!(v.start(&trap(10)), nothing());
    assert_eq!((v.vstimecmp, v.sepc, v.counts[0]), (5, 0, 1));
}

#[test]
fn case_2_legacy_6_keeps_a0() {
    let mut v = Vcpu::zero();
    v.x[A0] = 77;
    v.x[A7] = 6;
    assert_eq!(v.start(&trap(10)), nothing());
    assert_eq!((v.x[A0], v.sepc), (77, 4));
}

#[test]
fn case_3_legacy_8_is_system_down() {
    let mut v = Vcpu::zero();
    v.x[A7] = 8;
    let before = v.clone();
    assert_eq!(v.start(&trap(10)), Reply::Exit(Exit::SystemDown));
    assert_eq!(v, before);
}

fn stimecmp(v: &mut Vcpu, word: u64) -> Reply {
    v.start(&Trap { stval: word, ..trap(22) })
}

#[test]
fn case_4_swap_with_one_register() {
    let mut v = Vcpu::zero();
    v.vstimecmp = 7;
    v.x[5] = 9;
    assert_eq!(stimecmp(&mut v, 0x14D2_92F3), nothing());
    assert_eq!((v.x[5], v.vstimecmp, v.sepc), (7, 9, 4));
}

#[test]
fn case_5_read_without_write() {
    let mut v = Vcpu::zero();
    v.vstimecmp = 7;
    assert_eq!(stimecmp(&mut v, 0x14D0_2373), nothing());
    assert_eq!((v.x[6], v.vstimecmp), (7, 7));
}

#[test]
fn case_6_clear_by_field() {
    let mut v = Vcpu::zero();
    v.vstimecmp = 7;
    assert_eq!(stimecmp(&mut v, 0x14D1_F073), nothing());
    assert_eq!(v.vstimecmp, 4);
}

#[test]
fn case_7_funct3_4_is_unsupported() {
    let mut v = Vcpu::zero();
    assert_eq!(stimecmp(&mut v, 0x14D0_4073), Reply::Error(Error::Unsupported));
    assert_eq!((v.counts[1], v.sepc), (1, 0));
}

#[test]
fn case_8_pseudo_and_length() {
    for scause in [21, 23] {
        let mut v = Vcpu::zero();
        let reply = v.start(&Trap { htinst: 0x3000, ..trap(scause) });
        assert_eq!(reply, Reply::Error(Error::Unsupported));
        let reply = v.start(&Trap { htinst: 0x2000, ..trap(scause) });
        assert_eq!(reply, Reply::Error(Error::DecodeFailed));
        assert_eq!(v, Vcpu::zero());
    }
}

#[test]
fn case_9_store() {
    for (htinst, moved) in [(0x70_2023, 4), (0x70_2021, 2)] {
        let mut v = Vcpu::zero();
        v.x[7] = 0xFFFF_FFFF_1234_5678;
        let reply = v.start(&Trap { htval: 0x400_0000, htinst, ..trap(23) });
        let exit = Exit::MmioWrite {
            addr: GuestPhysAddr(0x1000_0000),
            width: Width::Four,
            data: 0x1234_5678,
        };
        assert_eq!(reply, Reply::Exit(exit));
        assert_eq!(v.sepc, moved);
    }
}

#[test]
fn case_10_load_completion() {
    for (htinst, want) in [(0x2383, 0xFFFF_FFFF_8000_0000), (0x6383, 0x8000_0000)] {
        let mut v = Vcpu::zero();
        let reply = v.start(&Trap { htinst, ..trap(21) });
        let exit = Exit::MmioRead { addr: GuestPhysAddr(0), width: Width::Four };
        assert_eq!(reply, Reply::Exit(exit));
        assert_eq!(v.complete_load(0x8000_0000), Reply::Done);
        assert_eq!(v.x[7], want);
        assert_eq!((v.sepc, v.waiting), (4, Waiting::Nothing));
    }
}

#[test]
fn case_11_page_table() {
    let mut v = Vcpu::zero();
    assert_eq!(v.set_nested_page_table(3, 8, 0x8000_4000), Reply::Done);
    assert_eq!(v.hgatp, 0x8000_0000_0008_0004);
}

#[test]
fn case_12_injection() {
    let mut v = Vcpu::zero();
    v.vstvec = 0x8020_0001;
    v.vsstatus = 2;
    v.hstatus = 1 << 8;
    v.sepc = 0x44;
    let ask = Ask::Fetch { at: GuestVirtAddr(0x44), supervisor: true };
    assert_eq!(v.start(&trap(22)), Reply::Ask(ask));
    let fault = Answer::Fetch(FetchAnswer::Page(GuestVirtAddr(0x46)));
    assert_eq!(v.answer(&fault), nothing());
    assert_eq!((v.vsstatus, v.sepc), (0x120, 0x8020_0000));
    // 02, W5
    assert_eq!((v.sstatus, v.hstatus), (0x100, 0x100));
    assert_eq!((v.vsepc, v.vscause, v.vstval), (0x44, 12, 0x46));
}
