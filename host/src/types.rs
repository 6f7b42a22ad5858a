//! What crosses between a host and the handler, as types.
//!
//! A type that has numbers (`repr(u64)`, `repr(C)`) has the library's, and its fields stand in the order of the library's words: a reply
//! is taken as it lies (`reply.rs`).

use core::fmt;

macro_rules! address {
    ($(#[$about:meta])* $name:ident) => {
        $(#[$about])*
        #[repr(transparent)]
        #[derive(Clone, Copy, Debug, Default, Eq, Hash, Ord, PartialEq, PartialOrd)]
        pub struct $name(pub u64);

        impl fmt::LowerHex for $name {
            fn fmt(&self, f: &mut fmt::Formatter<'_>) -> fmt::Result {
                fmt::LowerHex::fmt(&self.0, f)
            }
        }
    };
}

address! {
    /// An address in the guest's physical memory.
    ///
    /// ```
    /// use curbizzolu::GuestPhysAddr;
    /// assert_eq!(format!("{:#x}", GuestPhysAddr(0x8000_0000)), "0x80000000");
    /// ```
    GuestPhysAddr
}

address! {
    /// An address as the guest's own page tables see it. It is no [`GuestPhysAddr`], and neither turns into the other.
    ///
    /// ```compile_fail
    /// use curbizzolu::{Ask, GuestPhysAddr};
    /// let at: GuestPhysAddr = match (Ask::CopyMask { at: curbizzolu::GuestVirtAddr(0) }) {
    ///     Ask::CopyMask { at } => at, // a virtual address
    ///     _ => GuestPhysAddr(0),
    /// };
    /// ```
    GuestVirtAddr
}

address! {
    /// An address in the host's physical memory: where a guest-stage page table has its root.
    ///
    /// ```
    /// assert!(curbizzolu::HostPhysAddr(0x8000_4000) > curbizzolu::HostPhysAddr::default());
    /// ```
    HostPhysAddr
}

/// How many bytes a load or store moves.
///
/// ```
/// assert_eq!(curbizzolu::Width::Word.bytes(), 4);
/// ```
#[repr(u64)]
#[derive(Clone, Copy, Debug, Eq, Hash, PartialEq)]
pub enum Width {
    /// 1 byte: `lb`, `lbu`, `sb`.
    Byte = 1,
    /// 2 bytes: `lh`, `lhu`, `sh`.
    Half = 2,
    /// 4 bytes: `lw`, `lwu`, `sw`.
    Word = 4,
    /// 8 bytes: `ld`, `sd`.
    Double = 8,
}

impl Width {
    /// The bytes that it moves: 1, 2, 4 or 8.
    pub const fn bytes(self) -> u64 {
        self as u64
    }
}

/// What a guest was doing when its memory access failed.
///
/// ```
/// assert_eq!(curbizzolu::AccessFlags::Execute.bits(), 4);
/// ```
#[repr(u64)]
#[derive(Clone, Copy, Debug, Eq, Hash, PartialEq)]
pub enum AccessFlags {
    /// A load.
    Read = 1,
    /// A store.
    Write = 2,
    /// The fetch of an instruction.
    Execute = 4,
}

impl AccessFlags {
    /// The flag's number: READ 1, WRITE 2, EXECUTE 4.
    pub const fn bits(self) -> u64 {
        self as u64
    }
}

/// The calling convention that an IPI request came by. It says which registers [`complete_ipi`] writes.
///
/// ```
/// assert_ne!(curbizzolu::IpiAbi::Legacy, curbizzolu::IpiAbi::SbiV02);
/// ```
///
/// [`complete_ipi`]: crate::Vcpu::complete_ipi
#[repr(u64)]
#[derive(Clone, Copy, Debug, Eq, Hash, PartialEq)]
pub enum IpiAbi {
    /// SBI's legacy call: the result is a0.
    Legacy = 0,
    /// SBI v0.2 and later: the result is a0, and a1 is 0.
    SbiV02 = 1,
}

/// What the host made of an IPI request.
///
/// ```
/// assert_ne!(curbizzolu::IpiCompletion::Success, curbizzolu::IpiCompletion::Failed);
/// ```
#[derive(Clone, Copy, Debug, Eq, Hash, PartialEq)]
pub enum IpiCompletion {
    /// Each hart of the mask has its interrupt: 0.
    Success,
    /// The mask names a hart that the guest has not: -3.
    InvalidParameter,
    /// It could not be delivered: -1.
    Failed,
}

/// The harts that a guest wants to interrupt, as SBI's hart mask and its base.
///
/// ```
/// use curbizzolu::{IpiAbi, IpiRequest};
/// let all = IpiRequest { hart_mask: 0, hart_mask_base: u64::MAX, abi: IpiAbi::SbiV02 };
/// assert_eq!(all.hart_mask_base, u64::MAX); // SBI: every hart
/// ```
#[repr(C)]
#[derive(Clone, Copy, Debug, Eq, Hash, PartialEq)]
pub struct IpiRequest {
    /// A bit for each hart from the base on.
    pub hart_mask: u64,
    /// The hart of bit 0; 2^64 - 1 means every hart.
    pub hart_mask_base: u64,
    /// The calling convention.
    pub abi: IpiAbi,
}

/// Where a guest's second-stage page table stands, and its shape.
///
/// ```
/// use curbizzolu::{HostPhysAddr, NestedPagingConfig};
/// let sv39x4 = NestedPagingConfig { root_paddr: HostPhysAddr(0x8000_4000), levels: 3, mode: 8 };
/// # let _ = sv39x4;
/// ```
#[derive(Clone, Copy, Debug, Eq, Hash, PartialEq)]
pub struct NestedPagingConfig {
    /// Its root, at a multiple of 16 KiB.
    pub root_paddr: HostPhysAddr,
    /// 3 or 4.
    pub levels: u64,
    /// `hgatp.MODE`: 8 (Sv39x4) with 3 levels, 9 (Sv48x4) with 4.
    pub mode: u64,
}

/// The numbers that the hardware leaves at a trap, and the room of the host's console buffer.
///
/// ```
/// use curbizzolu::Trap;
/// let ecall = Trap { scause: 10, ..Trap::default() };
/// assert_eq!(ecall.htinst, 0);
/// ```
#[repr(C)]
#[derive(Clone, Copy, Debug, Default, Eq, Hash, PartialEq)]
pub struct Trap {
    /// Why the guest was left.
    pub scause: u64,
    /// For a virtual instruction its word or 0; for a guest page fault the address as the guest sees it.
    pub stval: u64,
    /// The guest physical address of the fault, shifted right by 2.
    pub htval: u64,
    /// The instruction that faulted, transformed, or 0.
    pub htinst: u64,
    /// How many bytes of a console call the host takes at once; above 4096 counts as 4096.
    pub room: u64,
}

/// What the host has to do after a trap. The names are those of riscv_vcpu's exits.
///
/// ```
/// use curbizzolu::{Exit, Step, Trap, Vcpu};
/// let mut vcpu = Vcpu::new(0, 0);
/// let trap = Trap { scause: (1 << 63) + 9, ..Trap::default() };
/// assert_eq!(vcpu.start(&trap), Ok(Step::Exit(Exit::ExternalInterrupt { vector: (1 << 63) + 9 })));
/// ```
#[repr(u64)]
#[derive(Clone, Copy, Debug, Eq, Hash, PartialEq)]
pub enum Exit {
    /// Enter the guest again.
    Nothing = 0,
    /// An interrupt of the host came while the guest ran.
    ExternalInterrupt {
        /// scause: 2^63 plus 1, 5 or 9.
        vector: u64,
    } = 1,
    /// The guest sends software interrupts. Then call [`complete_ipi`](crate::Vcpu::complete_ipi).
    SendIpi(IpiRequest) = 2,
    /// The guest starts another hart.
    CpuUp {
        /// Which hart.
        target_cpu: u64,
        /// Where it starts.
        entry_point: GuestPhysAddr,
        /// Its a1.
        arg: u64,
    } = 3,
    /// The guest stops this hart.
    CpuDown {
        /// 0.
        state: u64,
    } = 4,
    /// The guest suspends this hart.
    Halt = 5,
    /// The guest calls its host.
    Hypercall {
        /// a6.
        nr: u64,
        /// a0 to a5.
        args: [u64; 6],
    } = 6,
    /// The guest shuts the machine down.
    SystemDown = 7,
    /// A page of the guest's physical memory is not mapped, or not for this access.
    NestedPageFault {
        /// The address.
        addr: GuestPhysAddr,
        /// The access.
        access_flags: AccessFlags,
    } = 8,
    /// The guest loads from a device. Then call [`complete_load`](crate::Vcpu::complete_load).
    MmioRead {
        /// The address.
        addr: GuestPhysAddr,
        /// How many bytes.
        width: Width,
    } = 9,
    /// The guest stores to a device.
    MmioWrite {
        /// The address.
        addr: GuestPhysAddr,
        /// How many bytes.
        width: Width,
        /// The number, cut to the width.
        data: u64,
    } = 10,
}

/// What the handler asks of the host in the middle of a trap. Give the answer to [`answer`](crate::Vcpu::answer).
///
/// ```
/// assert_eq!(curbizzolu::Ask::GetChar.number(), 8);
/// ```
#[repr(u64)]
#[derive(Clone, Copy, Debug, Eq, Hash, PartialEq)]
pub enum Ask {
    /// 1: fetch the guest's instruction. Answer: [`Answer::Fetched`].
    Fetch {
        /// Where it stands.
        at: GuestVirtAddr,
        /// Whether the guest was in supervisor mode.
        supervisor: bool,
    } = 1,
    /// 2: copy 8 bytes. Answer: [`Answer::MaskCopied`].
    CopyMask {
        /// From here.
        at: GuestVirtAddr,
    } = 2,
    /// 3: copy bytes into the console buffer. Answer: [`Answer::CopiedIn`].
    CopyIn {
        /// From here.
        at: GuestPhysAddr,
        /// This many.
        count: u64,
    } = 3,
    /// 4: print the buffer's first bytes ([`to_print`](crate::Vcpu::to_print) has them). Answer: [`Answer::Printed`].
    Print {
        /// This many.
        count: u64,
    } = 4,
    /// 5: read from the console into the buffer. Answer: [`Answer::ConsoleRead`].
    ReadConsole {
        /// At most this many.
        count: u64,
    } = 5,
    /// 6: copy the buffer's first bytes out. Answer: [`Answer::CopiedOut`].
    CopyOut {
        /// To here.
        at: GuestPhysAddr,
        /// This many.
        count: u64,
    } = 6,
    /// 7: print one character. Answer: [`Answer::Emitted`].
    Emit {
        /// Its number.
        number: u64,
    } = 7,
    /// 8: read one character. Answer: [`Answer::Char`].
    GetChar = 8,
    /// 9: pass the call on. Answer: [`Answer::Forwarded`].
    Forward {
        /// a7.
        eid: u64,
        /// a6.
        fid: u64,
        /// a0 to a5.
        args: [u64; 6],
    } = 9,
}

impl Ask {
    /// The ask's number, from 1 to 9; the answer of that number fits it.
    pub const fn number(&self) -> u64 {
        match self {
            Ask::Fetch { .. } => 1,
            Ask::CopyMask { .. } => 2,
            Ask::CopyIn { .. } => 3,
            Ask::Print { .. } => 4,
            Ask::ReadConsole { .. } => 5,
            Ask::CopyOut { .. } => 6,
            Ask::Emit { .. } => 7,
            Ask::GetChar => 8,
            Ask::Forward { .. } => 9,
        }
    }
}

/// What fetching a guest's instruction gave: its word, or why it could not be had.
///
/// ```
/// # use curbizzolu::*;
/// # fn main() -> Result<(), Error> {
/// let mut vcpu = Vcpu::new(0, 0);
/// vcpu.setup()?;
/// // a load from a device, by an instruction that the hart left out of htinst
/// vcpu.start(&Trap { scause: 21, htval: 0x1000_0000 >> 2, ..Trap::default() })?;
/// // it is c.lw a0, 0(a1)
/// let step = vcpu.answer(&Answer::Fetched(Fetch::Word(0x4188)))?;
/// assert_eq!(step, Step::Exit(Exit::MmioRead { addr: GuestPhysAddr(0x1000_0000), width: Width::Word }));
/// vcpu.complete_load(0x9c3a_77e1)?;
/// assert_eq!((vcpu.get_gpr(10)?, vcpu.sepc), (0xffff_ffff_9c3a_77e1, 2));
/// # Ok(())
/// # }
/// ```
///
/// The first three faults are the guest's own: it takes the exception in supervisor mode, also where user code trapped. The exit is
/// [`Exit::Nothing`], and the record is all that the return needs.
///
/// ```
/// # use curbizzolu::*;
/// # fn main() -> Result<(), Error> {
/// # let mut vcpu = Vcpu::new(0, 0);
/// # vcpu.setup()?;
/// vcpu.vstvec = 0x8000_1000;
/// const BIT_8: u64 = 1 << 8; // hstatus.SPVP, sstatus.SPP, vsstatus.SPP: 0 is user mode
/// vcpu.hstatus &= !BIT_8;
/// vcpu.sstatus &= !BIT_8; // so the hart leaves both where user code trapped
/// let Step::Ask(Ask::Fetch { at, supervisor: false }) = vcpu.start(&Trap { scause: 21, ..Trap::default() })? else { panic!() };
/// assert_eq!(vcpu.answer(&Answer::Fetched(Fetch::Page(at)))?, Step::Exit(Exit::Nothing));
/// assert_eq!((vcpu.sepc, vcpu.vscause), (0x8000_1000, 12));
/// assert_eq!((vcpu.sstatus & BIT_8, vcpu.vsstatus & BIT_8), (BIT_8, 0)); // to supervisor mode, from user mode
/// # Ok(())
/// # }
/// ```
#[derive(Clone, Copy, Debug, Eq, Hash, PartialEq)]
pub enum Fetch {
    /// The instruction. Where it is 16 bits long (its low two bits are not 3) the upper half is not looked at.
    Word(u32),
    /// The guest's page tables have no page here. The guest takes exception 12.
    Page(GuestVirtAddr),
    /// The access is not allowed. The guest takes exception 1.
    Access(GuestVirtAddr),
    /// The address is not aligned. The guest takes exception 0.
    Misaligned(GuestVirtAddr),
    /// The host has not mapped this page of the guest's memory: [`Exit::NestedPageFault`].
    GuestPage(GuestPhysAddr),
    /// Anything else: the trap ends in [`TrapError::GuestMemoryFault`].
    Unhandled,
}

/// The host's answer to an [`Ask`]. A pair of error and value is an SBI result.
///
/// ```
/// let ask = curbizzolu::Ask::Emit { number: 0x41 };
/// assert_eq!(curbizzolu::Answer::Emitted.number(), ask.number());
/// ```
#[derive(Clone, Copy, Debug, Eq, Hash, PartialEq)]
pub enum Answer {
    /// To ask 1.
    Fetched(Fetch),
    /// To ask 2: how many bytes were copied, and the bytes as a little-endian number.
    MaskCopied {
        /// 8, unless the copy fell short.
        count: u64,
        /// The bytes.
        bytes: u64,
    },
    /// To ask 3.
    CopiedIn {
        /// How many bytes were copied.
        count: u64,
    },
    /// To ask 4.
    Printed {
        /// SBI's error.
        error: u64,
        /// How many bytes were printed.
        value: u64,
    },
    /// To ask 5.
    ConsoleRead {
        /// SBI's error.
        error: u64,
        /// How many bytes were read.
        value: u64,
    },
    /// To ask 6.
    CopiedOut {
        /// How many bytes were copied.
        count: u64,
    },
    /// To ask 7.
    Emitted,
    /// To ask 8.
    Char {
        /// The character, or -1 as a 64-bit number.
        number: u64,
    },
    /// To ask 9.
    Forwarded {
        /// SBI's error.
        error: u64,
        /// SBI's value.
        value: u64,
    },
}

impl Answer {
    /// The number of the ask that it answers.
    pub const fn number(&self) -> u64 {
        match self {
            Answer::Fetched(_) => 1,
            Answer::MaskCopied { .. } => 2,
            Answer::CopiedIn { .. } => 3,
            Answer::Printed { .. } => 4,
            Answer::ConsoleRead { .. } => 5,
            Answer::CopiedOut { .. } => 6,
            Answer::Emitted => 7,
            Answer::Char { .. } => 8,
            Answer::Forwarded { .. } => 9,
        }
    }
}

/// Where a trap stands: finished, or waiting for the host.
///
/// ```
/// use curbizzolu::{Exit, Step, Trap, Vcpu};
/// let mut vcpu = Vcpu::new(0, 0);
/// match vcpu.start(&Trap { scause: 10, ..Trap::default() }).unwrap() {
///     Step::Exit(exit) => assert_eq!(exit, Exit::Nothing), // eid 0, the legacy timer
///     Step::Ask(ask) => panic!("{ask:?}"),
/// }
/// ```
#[derive(Clone, Copy, Debug, Eq, Hash, PartialEq)]
pub enum Step {
    /// The trap is finished.
    Exit(Exit),
    /// The trap waits for the answer.
    Ask(Ask),
}

/// One of a row of posts: an interrupt of the guest, and its level. [`Vcpu::post`](crate::Vcpu::post) takes a row of them.
///
/// ```
/// use curbizzolu::{Post, S_TIMER};
/// assert_eq!(Post::set(S_TIMER), Post { vector: S_TIMER, level: 1 });
/// assert_eq!(Post::clear(S_TIMER), Post { vector: S_TIMER, level: 0 });
/// ```
#[repr(C)]
#[derive(Clone, Copy, Debug, Eq, Hash, PartialEq)]
pub struct Post {
    /// The vector: 2^63 + 1 software, 2^63 + 5 timer, 9 or 2^63 + 9 external.
    pub vector: u64,
    /// 0 clears, any other sets.
    pub level: u64,
}

impl Post {
    /// Sets the interrupt pending.
    pub const fn set(vector: u64) -> Post {
        Post { vector, level: 1 }
    }

    /// Clears it.
    pub const fn clear(vector: u64) -> Post {
        Post { vector, level: 0 }
    }
}

/// What a row of posts gave: how many were applied, and the refusal that stopped it, if one did. With [`Refusal::InvalidInput`] the
/// refused post is number `applied`, counted from 0, and changed nothing; with [`Refusal::BadState`] the row, which may be empty, was
/// refused before its first post.
///
/// ```
/// use curbizzolu::{Post, Posted, Refusal, Vcpu, S_SOFT, S_TIMER};
/// let mut vcpu = Vcpu::new(0, 0);
/// let given = vcpu.post(&[Post::set(S_TIMER), Post::set(5), Post::set(S_SOFT)]);
/// assert_eq!(given, Posted { applied: 1, refusal: Some(Refusal::InvalidInput) });
/// assert_eq!(given.whole(), Err(Refusal::InvalidInput));
/// assert_eq!(vcpu.hvip, 1 << 6); // the first is kept, and the third was not looked at
/// ```
#[must_use]
#[derive(Clone, Copy, Debug, Eq, Hash, PartialEq)]
pub struct Posted {
    /// How many posts were applied, from the row's first on.
    pub applied: usize,
    /// What stopped the row; `None` where all were applied.
    pub refusal: Option<Refusal>,
}

impl Posted {
    /// How many were applied, where nothing stopped the row: its length. Where something did, that alone is given: what was applied
    /// before it stays, and is `applied`.
    pub const fn whole(self) -> Result<usize, Refusal> {
        match self.refusal {
            None => Ok(self.applied),
            Some(refusal) => Err(refusal),
        }
    }
}

/// Why a call was refused. It changed nothing; of a row of posts, the refused post changed nothing.
///
/// ```
/// use curbizzolu::{Refusal, Vcpu};
/// assert_eq!(Vcpu::new(0, 0).get_gpr(32), Err(Refusal::InvalidInput));
/// ```
#[derive(Clone, Copy, Debug, Eq, Hash, PartialEq)]
pub enum Refusal {
    /// 1: no such register, interrupt vector, level, mode or root.
    InvalidInput,
    /// 2: an ask or a load waits, or no load waits to be completed.
    BadState,
    /// 7: no ask waits, or one of another kind.
    WrongAnswer,
}

impl Refusal {
    /// Its number in document 01.
    pub const fn number(self) -> u64 {
        match self {
            Refusal::InvalidInput => 1,
            Refusal::BadState => 2,
            Refusal::WrongAnswer => 7,
        }
    }
}

impl fmt::Display for Refusal {
    fn fmt(&self, f: &mut fmt::Formatter<'_>) -> fmt::Result {
        f.write_str(match self {
            Refusal::InvalidInput => "an argument is not allowed",
            Refusal::BadState => "the call is out of turn",
            Refusal::WrongAnswer => "the answer fits no ask that waits",
        })
    }
}

impl core::error::Error for Refusal {}

/// Why a trap ended with no exit. No register and no CSR changed.
///
/// ```
/// use curbizzolu::{Error, Trap, TrapError, Vcpu};
/// let end = Vcpu::new(0, 0).start(&Trap { scause: 14, ..Trap::default() });
/// assert_eq!(end, Err(Error::Trap(TrapError::InvalidTrap)));
/// ```
#[derive(Clone, Copy, Debug, Eq, Hash, PartialEq)]
pub enum TrapError {
    /// 3: a known cause that is not handled, a pseudoinstruction, another virtual instruction.
    Unsupported,
    /// 4: an unknown scause.
    InvalidTrap,
    /// 5: an instruction of no length that is taken.
    DecodeFailed,
    /// 6: the instruction could not be fetched.
    GuestMemoryFault,
}

impl TrapError {
    /// Its number in document 01.
    pub const fn number(self) -> u64 {
        match self {
            TrapError::Unsupported => 3,
            TrapError::InvalidTrap => 4,
            TrapError::DecodeFailed => 5,
            TrapError::GuestMemoryFault => 6,
        }
    }
}

impl fmt::Display for TrapError {
    fn fmt(&self, f: &mut fmt::Formatter<'_>) -> fmt::Result {
        f.write_str(match self {
            TrapError::Unsupported => "the trap is not supported",
            TrapError::InvalidTrap => "the trap's cause is unknown",
            TrapError::DecodeFailed => "the instruction has no length that is taken",
            TrapError::GuestMemoryFault => "the instruction could not be fetched",
        })
    }
}

impl core::error::Error for TrapError {}

/// What a trap's start or an answer gives instead of a [`Step`].
///
/// ```
/// use curbizzolu::{Answer, Error, Refusal, Vcpu};
/// let out_of_turn = Vcpu::new(0, 0).answer(&Answer::Emitted);
/// assert_eq!(out_of_turn, Err(Error::Refused(Refusal::WrongAnswer)));
/// ```
#[derive(Clone, Copy, Debug, Eq, Hash, PartialEq)]
pub enum Error {
    /// The call was refused, and what waited goes on waiting.
    Refused(Refusal),
    /// The trap is over.
    Trap(TrapError),
}

impl From<Refusal> for Error {
    fn from(refusal: Refusal) -> Error {
        Error::Refused(refusal)
    }
}

impl fmt::Display for Error {
    fn fmt(&self, f: &mut fmt::Formatter<'_>) -> fmt::Result {
        match self {
            Error::Refused(refusal) => refusal.fmt(f),
            Error::Trap(error) => error.fmt(f),
        }
    }
}

impl core::error::Error for Error {}
