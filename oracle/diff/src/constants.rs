//! The published constants that no trap brings to light, beside what PRIV and
//! 01 say of them. 01's list of known codes is that of consts.rs.

use published::consts::traps::{exception, interrupt, irq};
use published::registers::{delegated_exception_bits, delegated_interrupt_bits};
use published::types::{RiscvAccessFlags, RiscvAccessWidth};

/// The names of those that are not what they should be.
pub fn wrong() -> Vec<&'static str> {
    let bit = |code: usize| 1 << code;
    let mut wrong: Vec<&'static str> = [
        ("interrupt::USER_SOFT", interrupt::USER_SOFT, bit(0)),
        ("interrupt::SUPERVISOR_SOFT", interrupt::SUPERVISOR_SOFT, bit(1)),
        ("interrupt::VIRTUAL_SUPERVISOR_SOFT", interrupt::VIRTUAL_SUPERVISOR_SOFT, bit(2)),
        ("interrupt::MACHINE_SOFT", interrupt::MACHINE_SOFT, bit(3)),
        ("interrupt::USER_TIMER", interrupt::USER_TIMER, bit(4)),
        ("interrupt::SUPERVISOR_TIMER", interrupt::SUPERVISOR_TIMER, bit(5)),
        ("interrupt::VIRTUAL_SUPERVISOR_TIMER", interrupt::VIRTUAL_SUPERVISOR_TIMER, bit(6)),
        ("interrupt::MACHINE_TIMER", interrupt::MACHINE_TIMER, bit(7)),
        ("interrupt::USER_EXTERNAL", interrupt::USER_EXTERNAL, bit(8)),
        ("interrupt::SUPERVISOR_EXTERNAL", interrupt::SUPERVISOR_EXTERNAL, bit(9)),
        ("interrupt::VIRTUAL_SUPERVISOR_EXTERNAL", interrupt::VIRTUAL_SUPERVISOR_EXTERNAL, bit(10)),
        ("interrupt::MACHINEL_EXTERNAL", interrupt::MACHINEL_EXTERNAL, bit(11)),
        ("interrupt::SUPERVISOR_GUEST_EXTERNEL", interrupt::SUPERVISOR_GUEST_EXTERNEL, bit(12)),
        ("exception::INST_ADDR_MISALIGN", exception::INST_ADDR_MISALIGN, bit(0)),
        ("exception::INST_ACCESSS_FAULT", exception::INST_ACCESSS_FAULT, bit(1)),
        ("exception::ILLEGAL_INST", exception::ILLEGAL_INST, bit(2)),
        ("exception::BREAKPOINT", exception::BREAKPOINT, bit(3)),
        ("exception::LOAD_ADDR_MISALIGNED", exception::LOAD_ADDR_MISALIGNED, bit(4)),
        ("exception::LOAD_ACCESS_FAULT", exception::LOAD_ACCESS_FAULT, bit(5)),
        ("exception::STORE_ADDR_MISALIGNED", exception::STORE_ADDR_MISALIGNED, bit(6)),
        ("exception::STORE_ACCESS_FAULT", exception::STORE_ACCESS_FAULT, bit(7)),
        ("exception::ENV_CALL_FROM_U_OR_VU", exception::ENV_CALL_FROM_U_OR_VU, bit(8)),
        ("exception::ENV_CALL_FROM_HS", exception::ENV_CALL_FROM_HS, bit(9)),
        ("exception::ENV_CALL_FROM_VS", exception::ENV_CALL_FROM_VS, bit(10)),
        ("exception::ENV_CALL_FROM_M", exception::ENV_CALL_FROM_M, bit(11)),
        ("exception::INST_PAGE_FAULT", exception::INST_PAGE_FAULT, bit(12)),
        ("exception::LOAD_PAGE_FAULT", exception::LOAD_PAGE_FAULT, bit(13)),
        ("exception::STORE_PAGE_FAULT", exception::STORE_PAGE_FAULT, bit(15)),
        ("exception::INST_GUEST_PAGE_FAULT", exception::INST_GUEST_PAGE_FAULT, bit(20)),
        ("exception::LOAD_GUEST_PAGE_FAULT", exception::LOAD_GUEST_PAGE_FAULT, bit(21)),
        ("exception::VIRTUAL_INST", exception::VIRTUAL_INST, bit(22)),
        ("exception::STORE_GUEST_PAGE_FAULT", exception::STORE_GUEST_PAGE_FAULT, bit(23)),
        ("irq::INTC_IRQ_BASE", irq::INTC_IRQ_BASE, bit(63)),
        ("irq::S_SOFT", irq::S_SOFT, bit(63) + 1),
        ("irq::S_TIMER", irq::S_TIMER, bit(63) + 5),
        ("irq::S_EXT_CODE", irq::S_EXT_CODE, 9),
        ("irq::S_EXT", irq::S_EXT, bit(63) + 9),
        ("irq::TIMER_IRQ_NUM", irq::TIMER_IRQ_NUM, bit(63) + 5),
        // 01 has this mask among registers.rs's; the numbers are crates/isa_registers'.
        ("delegated_exception_bits", delegated_exception_bits(), 0xB10D),
        ("delegated_interrupt_bits", delegated_interrupt_bits(), 0x444),
        ("RiscvAccessFlags::READ", RiscvAccessFlags::READ.bits(), 1),
        ("RiscvAccessFlags::WRITE", RiscvAccessFlags::WRITE.bits(), 2),
        ("RiscvAccessFlags::EXECUTE", RiscvAccessFlags::EXECUTE.bits(), 4),
    ]
    .into_iter()
    .filter(|(_, is, due)| is != due)
    .map(|(name, ..)| name)
    .collect();
    for bytes in 0..10 {
        let known = matches!(bytes, 1 | 2 | 4 | 8);
        let width = RiscvAccessWidth::try_from(bytes).ok();
        if width.is_some() != known || width.is_some_and(|width| width.size() != bytes) {
            wrong.push("RiscvAccessWidth::try_from");
        }
    }
    wrong
}
