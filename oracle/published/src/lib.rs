//! The published text of riscv_vcpu, compiled as it stands, over stand-ins
//! for the files and crates that are not published with it.

// The published text is not ours to tidy, and the dropped log lines leave
// some of its names unused.
#![allow(unused)]

extern crate alloc;
extern crate core_shim as core;
#[macro_use]
extern crate log;

include!(concat!(env!("OUT_DIR"), "/published.rs"));

pub mod guest_mem;
pub mod host;
pub mod regs;
pub mod run_guest;
pub mod sbi_console;
pub mod trap;
pub mod vpmu;

/// The number in the published lib.rs, which can't be compiled whole.
pub const EID_HVC: usize = 0x48_5643;

/// What a vCPU is made from.
#[derive(Clone, Debug)]
pub struct RiscvVcpuCreateConfig {
    pub hart_id: usize,
    pub dtb_addr: usize,
}

/// A request for an IPI completion; the type's own maker is private.
pub fn ipi_request(abi: types::RiscvIpiAbi) -> types::RiscvIpiRequest {
    types::RiscvIpiRequest::new(0, 0, abi)
}
