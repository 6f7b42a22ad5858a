//! The exit handler of a RISC-V hypervisor, proved, behind a safe Rust interface: what happens between a guest's trap and its
//! next instruction. It carries riscv_vcpu's exit path over, without the assembly and the live CSRs, and keeps its names.
//!
//! A host owns one [`Vcpu`] for each hart of a guest. It saves the guest's registers there at a trap, calls
//! [`start`](Vcpu::start) with the numbers that the hardware left, and does what the [`Exit`] says. Where the handler needs
//! the host it gives an [`Ask`] instead, and the host calls [`answer`](Vcpu::answer) until the trap is finished:
//!
//! ```
//! use curbizzolu::{Answer, Ask, Error, Exit, Fetch, Step, Trap, Vcpu};
//!
//! /// What the handler may ask of this host.
//! fn serve(ask: Ask) -> Answer {
//!     match ask {
//!         Ask::Fetch { at, .. } => Answer::Fetched(Fetch::Page(at)), // walk the guest's page tables here
//!         Ask::CopyMask { .. } => Answer::MaskCopied { count: 0, bytes: 0 },
//!         Ask::CopyIn { count, .. } => Answer::CopiedIn { count },
//!         Ask::Print { count } => Answer::Printed { error: 0, value: count },
//!         Ask::ReadConsole { .. } => Answer::ConsoleRead { error: 0, value: 0 },
//!         Ask::CopyOut { count, .. } => Answer::CopiedOut { count },
//!         Ask::Emit { .. } => Answer::Emitted,
//!         Ask::GetChar => Answer::Char { number: u64::MAX },
//!         Ask::Forward { .. } => Answer::Forwarded { error: -2_i64 as u64, value: 0 },
//!     }
//! }
//!
//! /// One trap, from its numbers to its exit.
//! fn handle(vcpu: &mut Vcpu, trap: &Trap) -> Result<Exit, Error> {
//!     let mut step = vcpu.start(trap)?;
//!     loop {
//!         match step {
//!             Step::Exit(exit) => return Ok(exit),
//!             Step::Ask(ask) => step = vcpu.answer(&serve(ask))?,
//!         }
//!     }
//! }
//!
//! let mut vcpu = Vcpu::new(0, 0x8200_0000);
//! vcpu.setup()?;
//! // The guest loads 4 bytes from a device: lw x7, 0(..).
//! let trap = Trap { scause: 21, htval: 0x1000_0000 >> 2, htinst: 0x2383, ..Trap::default() };
//! if let Exit::MmioRead { addr, width } = handle(&mut vcpu, &trap)? {
//!     assert_eq!((addr.0, width.bytes()), (0x1000_0000, 4));
//!     vcpu.complete_load(0x8000_0000)?; // what the device gave
//! }
//! assert_eq!(vcpu.get_gpr(7), Ok(0xFFFF_FFFF_8000_0000)); // lw extends the sign
//! # Ok::<(), Error>(())
//! ```
//!
//! Every call gives an answer on every record and argument. A [`Refusal`] changes nothing (of a row of posts, the refused post changes
//! nothing, and those before it stay); a trap that ends in a
//! [`TrapError`] changed no register and no CSR.

#![no_std]
#![warn(missing_docs)]

mod library;
mod names;
mod reply;
mod types;
mod vcpu;

pub use names::*;
pub use types::*;
pub use vcpu::Vcpu;
