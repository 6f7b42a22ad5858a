//! Stands in for guest_mem: guest memory is what the scripted host answers.

use scripted::{ask, pattern, Fetched, Request};

use crate::types::{RiscvGuestPhysAddr, RiscvGuestVirtAddr};

/// Why an instruction can't be fetched.
pub enum GuestInstructionFetchFault {
    PageFault { addr: RiscvGuestVirtAddr },
    AccessFault { addr: RiscvGuestVirtAddr },
    Misaligned { addr: RiscvGuestVirtAddr },
    GuestPageFault { addr: RiscvGuestPhysAddr },
    Unhandled { scause: usize, stval: usize, htval: usize },
}

pub fn fetch_guest_instruction(
    at: RiscvGuestVirtAddr,
    supervisor: bool,
) -> Result<u32, GuestInstructionFetchFault> {
    use GuestInstructionFetchFault::*;
    let at = at.as_usize() as u64;
    match ask(Request::Fetch { at, supervisor }).fetch {
        Fetched::Word(word) => Ok(word),
        Fetched::Page(at) => Err(PageFault { addr: (at as usize).into() }),
        Fetched::Access(at) => Err(AccessFault { addr: (at as usize).into() }),
        Fetched::Misaligned(at) => Err(Misaligned { addr: (at as usize).into() }),
        Fetched::GuestPage(at) => Err(GuestPageFault { addr: (at as usize).into() }),
        Fetched::Unhandled => Err(Unhandled { scause: 0, stval: 0, htval: 0 }),
    }
}

/// Copies from a guest virtual address; only the legacy IPI does.
pub fn copy_from_guest_va(into: &mut [u8], at: RiscvGuestVirtAddr, supervisor: bool) -> usize {
    let (count, bytes) = ask(Request::Mask {
        at: at.as_usize() as u64,
        n: into.len() as u64,
        supervisor,
    })
    .mask;
    for (to, from) in into.iter_mut().zip(bytes.to_le_bytes()).take(count as usize) {
        *to = from;
    }
    count as usize
}

/// Copies from a guest physical address.
pub fn copy_from_guest(into: &mut [u8], at: RiscvGuestPhysAddr) -> usize {
    let script = ask(Request::CopyIn {
        n: into.len() as u64,
        at: at.as_usize() as u64,
    });
    for (i, to) in into.iter_mut().enumerate().take(script.copy_in as usize) {
        *to = pattern(script.fill, i);
    }
    script.copy_in as usize
}

/// Copies to a guest physical address.
pub fn copy_to_guest(from: &[u8], at: RiscvGuestPhysAddr) -> usize {
    ask(Request::CopyOut {
        n: from.len() as u64,
        at: at.as_usize() as u64,
        digest: scripted::digest(from),
    })
    .copy_out as usize
}
