//! The faults of the published Rust that docs/DIFFERENCES.md tells its users
//! of, where no trap of a run shows them.

use std::panic::{catch_unwind, AssertUnwindSafe};

use published::host::Scripted;
use published::regs::GprIndex;
use published::types::{RiscvAccessFlags, RiscvNestedPagingConfig, RiscvVmExit};
use published::vcpu::RiscvVcpu;
use published::{run_guest, RiscvVcpuCreateConfig};
use scripted::{live, with_live, Fetched, Live, Script};

fn new_vcpu() -> RiscvVcpu<Scripted> {
    with_live(|live| *live = Live::default());
    let config = RiscvVcpuCreateConfig { hart_id: 0, dtb_addr: 0 };
    RiscvVcpu::new(0, 0, config).unwrap()
}

fn begin(script: &Script, scause: usize, htinst: usize) {
    scripted::begin(script, [0; 9]);
    run_guest::post([scause, 0, 0, htinst]);
}

#[test]
fn a_guest_chooses_the_size_of_an_allocation() {
    let mut vcpu = new_vcpu();
    vcpu.set_gpr(17, model::EID_DBCN as usize);
    vcpu.set_gpr(10, 1 << 63);
    begin(&Script::ZERO, 10, 0);
    assert!(catch_unwind(AssertUnwindSafe(|| vcpu.run())).is_err());
}

#[test]
fn decoding_a_fault_again_moves_sepc_again() {
    let mut vcpu = new_vcpu();
    begin(&Script::ZERO, 21, 3);
    assert!(matches!(vcpu.run(), Ok(RiscvVmExit::MmioRead { .. })));
    assert_eq!(vcpu.regs().guest_regs.sepc, 4);
    assert!(vcpu.decode_mmio_fault(0.into(), RiscvAccessFlags::READ).is_some());
    assert_eq!(vcpu.regs().guest_regs.sepc, 8);
}

#[test]
fn decoding_a_fault_injects_an_exception_and_hides_it() {
    let mut vcpu = new_vcpu();
    with_live(|live| live.vstvec = 0x1000);
    begin(&Script { fetch: Fetched::Page(0), ..Script::ZERO }, 21, 0);
    assert!(vcpu.decode_mmio_fault(0.into(), RiscvAccessFlags::READ).is_none());
    assert_eq!(vcpu.regs().guest_regs.sepc, 0x1000);
    assert_eq!(live().vscause, 12);
}

#[test]
fn console_input_is_lost_in_a_short_copy() {
    let mut vcpu = new_vcpu();
    vcpu.set_gpr(17, model::EID_DBCN as usize);
    vcpu.set_gpr(16, 1);
    vcpu.set_gpr(10, 1);
    begin(&Script { read: (0, 1), ..Script::ZERO }, 10, 0);
    assert!(matches!(vcpu.run(), Ok(RiscvVmExit::Nothing)));
    assert_eq!(scripted::end().requests.len(), 2);
    assert_eq!(vcpu.get_gpr(GprIndex::A0) as u64, model::FAILED);
}

#[test]
fn an_unbound_vcpu_writes_live_csrs() {
    let mut vcpu = new_vcpu();
    vcpu.set_gpr(10, 5);
    begin(&Script::ZERO, 10, 0);
    assert!(matches!(vcpu.run(), Ok(RiscvVmExit::Nothing)));
    assert_eq!(live().vstimecmp, 5);
    begin(&Script { fetch: Fetched::Page(7), ..Script::ZERO }, 22, 0);
    assert!(matches!(vcpu.run(), Ok(RiscvVmExit::Nothing)));
    assert_eq!((live().vscause, live().vstval, live().vsepc), (12, 7, 4));
}

#[test]
fn calls_on_a_bound_vcpu_are_lost() {
    let mut vcpu = new_vcpu();
    vcpu.bind().unwrap();
    vcpu.setup(()).unwrap();
    vcpu.set_nested_page_table(RiscvNestedPagingConfig::new(0x4000, 3, 0, 8)).unwrap();
    assert_ne!(vcpu.regs().virtual_hs_csrs.hgatp, 0);
    vcpu.unbind().unwrap();
    assert_eq!(vcpu.regs().virtual_hs_csrs.hgatp, 0);
    assert_eq!(vcpu.regs().virtual_hs_csrs.hie, 0);
    assert_eq!(vcpu.regs().vs_csrs.vstimecmp, 0);
}
