//! The record, a trap's numbers, asks and answers, exits and errors.

use crate::{FAILED, INVALID_PARAM, SUCCESS};

/// A guest virtual address.
#[derive(Clone, Copy, Debug, PartialEq, Eq, Hash)]
pub struct GuestVirtAddr(pub u64);

/// A guest physical address.
#[derive(Clone, Copy, Debug, PartialEq, Eq, Hash)]
pub struct GuestPhysAddr(pub u64);

/// The vCPU record. Slot 0 of x is storage that no call reads or writes.
#[derive(Clone, Debug, PartialEq, Eq)]
pub struct Vcpu {
    pub x: [u64; 32],
    pub sepc: u64,
    pub sstatus: u64,
    pub hstatus: u64,
    pub vsstatus: u64,
    pub vstvec: u64,
    pub vsepc: u64,
    pub vscause: u64,
    pub vstval: u64,
    pub vstimecmp: u64,
    pub hie: u64,
    pub hvip: u64,
    pub hgeie: u64,
    pub hgatp: u64,
    /// Events 1 to 9 at 0 to 8, each modulo 2^64.
    pub counts: [u64; 9],
    pub waiting: Waiting,
}

/// The numbers a host starts a trap with.
#[derive(Clone, Copy, Debug, PartialEq, Eq)]
pub struct Trap {
    pub scause: u64,
    pub stval: u64,
    pub htval: u64,
    pub htinst: u64,
    pub room: u64,
}

/// What waits, with what its trap still needs and no more.
#[derive(Clone, Copy, Debug, PartialEq, Eq)]
pub enum Waiting {
    Nothing,
    /// Ask 1.
    Fetch(FetchFor),
    /// Ask 2.
    Mask,
    /// Ask 3.
    CopyIn { n: u64 },
    /// Ask 4.
    Print { n: u64 },
    /// Ask 5; `at` is where ask 6 would copy to.
    Read { n: u64, at: GuestPhysAddr },
    /// Ask 6.
    CopyOut { v: u64 },
    /// Ask 7.
    Emit(EmitFor),
    /// Ask 8.
    GetChar,
    /// Ask 9.
    Forward,
    /// A decoded load; an rd above 31, which no trap leaves, is no register.
    Load { rd: u64, width: Width, signed: bool },
}

/// Which class of trap asked for an instruction.
#[derive(Clone, Copy, Debug, PartialEq, Eq)]
pub enum FetchFor {
    VirtualInstruction,
    GuestPageFault { addr: GuestPhysAddr, write: bool },
}

/// Which call emits one number.
#[derive(Clone, Copy, Debug, PartialEq, Eq)]
pub enum EmitFor {
    /// Legacy 1: no register is written.
    Legacy,
    /// DBCN fid 2: 0, 0 is returned.
    Byte,
}

/// One thing asked of the host.
#[derive(Clone, Copy, Debug, PartialEq, Eq)]
pub enum Ask {
    Fetch { at: GuestVirtAddr, supervisor: bool },
    Mask { at: GuestVirtAddr },
    CopyIn { n: u64, at: GuestPhysAddr },
    Print { n: u64 },
    Read { n: u64 },
    CopyOut { n: u64, at: GuestPhysAddr },
    Emit { number: u64 },
    GetChar,
    Forward { eid: u64, fid: u64, args: [u64; 6] },
}

impl Ask {
    /// The ask's number in 01.
    pub fn number(&self) -> u64 {
        match self {
            Ask::Fetch { .. } => 1,
            Ask::Mask { .. } => 2,
            Ask::CopyIn { .. } => 3,
            Ask::Print { .. } => 4,
            Ask::Read { .. } => 5,
            Ask::CopyOut { .. } => 6,
            Ask::Emit { .. } => 7,
            Ask::GetChar => 8,
            Ask::Forward { .. } => 9,
        }
    }
}

/// A host's answer; its kind is its ask's number.
#[derive(Clone, Copy, Debug, PartialEq, Eq)]
pub enum Answer {
    Fetch(FetchAnswer),
    Mask { count: u64, bytes: u64 },
    CopyIn { count: u64 },
    Print { error: u64, value: u64 },
    Read { error: u64, value: u64 },
    CopyOut { count: u64 },
    Emit,
    GetChar { number: u64 },
    Forward { error: u64, value: u64 },
    /// A number that is no ask's: of another kind than any ask that waits.
    Other { number: u64 },
}

/// Either an instruction word or a fault.
#[derive(Clone, Copy, Debug, PartialEq, Eq)]
pub enum FetchAnswer {
    Word(u32),
    Page(GuestVirtAddr),
    Access(GuestVirtAddr),
    Misaligned(GuestVirtAddr),
    GuestPage(GuestPhysAddr),
    Unhandled,
}

/// The width of an access.
#[derive(Clone, Copy, Debug, PartialEq, Eq)]
pub enum Width {
    One,
    Two,
    Four,
    Eight,
}

impl Width {
    pub fn bytes(self) -> u64 {
        match self {
            Width::One => 1,
            Width::Two => 2,
            Width::Four => 4,
            Width::Eight => 8,
        }
    }

    /// The number cut to the width.
    pub fn cut(self, number: u64) -> u64 {
        match self {
            Width::One => number as u8 as u64,
            Width::Two => number as u16 as u64,
            Width::Four => number as u32 as u64,
            Width::Eight => number,
        }
    }

    /// The number cut to the width and extended, with its sign or with zeros.
    pub fn extend(self, signed: bool, number: u64) -> u64 {
        match (self, signed) {
            (Width::One, true) => number as u8 as i8 as i64 as u64,
            (Width::Two, true) => number as u16 as i16 as i64 as u64,
            (Width::Four, true) => number as u32 as i32 as i64 as u64,
            _ => self.cut(number),
        }
    }
}

/// The access that a nested page fault names.
#[derive(Clone, Copy, Debug, PartialEq, Eq)]
pub enum Access {
    Read,
    Write,
    Execute,
}

impl Access {
    /// The flag's number.
    pub fn bits(self) -> u64 {
        match self {
            Access::Read => 1,
            Access::Write => 2,
            Access::Execute => 4,
        }
    }
}

/// The calling convention of an IPI.
#[derive(Clone, Copy, Debug, PartialEq, Eq)]
pub enum IpiAbi {
    Legacy,
    SbiV02,
}

/// How the delivery of an IPI ended.
#[derive(Clone, Copy, Debug, PartialEq, Eq)]
pub enum IpiCompletion {
    Success,
    InvalidParameter,
    Failed,
}

impl IpiCompletion {
    /// "IPI completion (0, -3, -1)".
    pub fn number(self) -> u64 {
        match self {
            IpiCompletion::Success => SUCCESS,
            IpiCompletion::InvalidParameter => INVALID_PARAM,
            IpiCompletion::Failed => FAILED,
        }
    }
}

/// A finished trap's exit.
#[derive(Clone, Copy, Debug, PartialEq, Eq)]
pub enum Exit {
    Nothing,
    ExternalInterrupt { vector: u64 },
    SendIpi { mask: u64, base: u64, abi: IpiAbi },
    CpuUp { target: u64, entry: GuestPhysAddr, arg: u64 },
    CpuDown { state: u64 },
    Halt,
    Hypercall { number: u64, args: [u64; 6] },
    SystemDown,
    NestedPageFault { addr: GuestPhysAddr, access: Access },
    MmioRead { addr: GuestPhysAddr, width: Width },
    MmioWrite { addr: GuestPhysAddr, width: Width, data: u64 },
}

impl Exit {
    /// The exit's number in the replay.
    pub fn number(&self) -> u64 {
        match self {
            Exit::Nothing => 0,
            Exit::ExternalInterrupt { .. } => 1,
            Exit::SendIpi { .. } => 2,
            Exit::CpuUp { .. } => 3,
            Exit::CpuDown { .. } => 4,
            Exit::Halt => 5,
            Exit::Hypercall { .. } => 6,
            Exit::SystemDown => 7,
            Exit::NestedPageFault { .. } => 8,
            Exit::MmioRead { .. } => 9,
            Exit::MmioWrite { .. } => 10,
        }
    }
}

/// Refusals and errors by number.
#[derive(Clone, Copy, Debug, PartialEq, Eq)]
pub enum Error {
    InvalidInput = 1,
    BadState = 2,
    Unsupported = 3,
    InvalidTrap = 4,
    DecodeFailed = 5,
    GuestMemoryFault = 6,
    WrongAnswer = 7,
}

impl Error {
    pub fn number(self) -> u64 {
        self as u64
    }
}

/// What a call gives back.
#[derive(Clone, Copy, Debug, PartialEq, Eq)]
pub enum Reply {
    Exit(Exit),
    Ask(Ask),
    Done,
    Value(u64),
    Error(Error),
}

/// Every public call with its arguments, for drivers that make them up.
#[derive(Clone, Copy, Debug, PartialEq, Eq)]
pub enum Call {
    Setup,
    SetEntry { entry: u64 },
    GetGpr { index: u64 },
    SetGpr { index: u64, value: u64 },
    SetNestedPageTable { levels: u64, mode: u64, root: u64 },
    SetVirtualInterruptPending { vector: u64, pending: bool },
    InjectInterrupt { vector: u64 },
    SetVseipLevel { asserted: bool },
    LatchHvip { bits: u64 },
    SetReturnValue { value: u64 },
    CompleteIpi { abi: IpiAbi, completion: IpiCompletion },
    Start(Trap),
    Answer(Answer),
    CompleteLoad { number: u64 },
}

/// One post of a row: an interrupt vector, and its level, of which 0 clears
/// and any other sets. The two words of 02's exported form.
#[repr(C)]
#[derive(Clone, Copy, Debug, PartialEq, Eq)]
pub struct Post {
    pub vector: u64,
    pub level: u64,
}

/// What a row of posts came to.
#[derive(Clone, Copy, Debug, PartialEq, Eq)]
pub struct Posted {
    /// How many posts were applied.
    pub applied: u64,
    /// What stopped the row.
    pub refusal: Option<Error>,
}
