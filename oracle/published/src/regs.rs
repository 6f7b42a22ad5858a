//! Stands in for regs: the saved registers, by the names that the published
//! text uses.

use crate::registers::guest_page_fault_addr;
use crate::types::RiscvGuestPhysAddr;

/// A register's index, at most 31.
#[derive(Clone, Copy, Debug, PartialEq, Eq)]
pub struct GprIndex(u8);

impl GprIndex {
    pub const A0: Self = Self(10);
    pub const A1: Self = Self(11);
    pub const A2: Self = Self(12);
    pub const A3: Self = Self(13);

    pub fn from_raw(index: u32) -> Option<Self> {
        (index < 32).then_some(Self(index as u8))
    }
}

/// x0 to x31; x0 reads 0 and is not written.
#[derive(Clone, Debug, Default)]
#[repr(C)]
pub struct GeneralPurposeRegisters(pub [usize; 32]);

impl GeneralPurposeRegisters {
    pub fn reg(&self, index: GprIndex) -> usize {
        match index.0 {
            0 => 0,
            index => self.0[index as usize],
        }
    }

    pub fn set_reg(&mut self, index: GprIndex, value: usize) {
        if index.0 != 0 {
            self.0[index.0 as usize] = value;
        }
    }

    /// a0 to a7.
    pub fn a_regs(&self) -> &[usize] {
        &self.0[10..18]
    }
}

#[derive(Clone, Debug, Default)]
#[repr(C)]
pub struct GuestRegisters {
    pub gprs: GeneralPurposeRegisters,
    pub sepc: usize,
    pub sstatus: usize,
    pub hstatus: usize,
}

/// The saved VS CSRs.
#[derive(Clone, Debug, Default, PartialEq, Eq)]
#[repr(C)]
pub struct VsCsrs {
    pub htimedelta: usize,
    pub vsatp: usize,
    pub vscause: usize,
    pub vsepc: usize,
    pub vsie: usize,
    pub vsscratch: usize,
    pub vsstatus: usize,
    pub vstimecmp: usize,
    pub vstval: usize,
    pub vstvec: usize,
}

/// The saved hypervisor CSRs.
#[derive(Clone, Debug, Default)]
#[repr(C)]
pub struct VirtualHsCsrs {
    pub hie: usize,
    pub hvip: usize,
    pub hgeie: usize,
    pub hgatp: usize,
}

/// The trap's numbers.
#[derive(Clone, Debug, Default)]
#[repr(C)]
pub struct TrapCsrs {
    pub stval: usize,
    pub htval: usize,
    pub htinst: usize,
}

impl TrapCsrs {
    pub fn load_from_hw(&mut self) {
        let live = scripted::live();
        self.stval = live.stval;
        self.htval = live.htval;
        self.htinst = live.htinst;
    }

    pub fn gpt_page_fault_addr(&self) -> RiscvGuestPhysAddr {
        guest_page_fault_addr(self.htval, self.stval)
    }
}

/// Everything saved for one vCPU.
#[derive(Clone, Debug, Default)]
#[repr(C)]
pub struct VmCpuRegisters {
    pub guest_regs: GuestRegisters,
    pub vs_csrs: VsCsrs,
    pub virtual_hs_csrs: VirtualHsCsrs,
    pub trap_csrs: TrapCsrs,
}
