//! What goes in and out of the handler, and what waits between two calls.

#[derive(Clone, Copy, Debug, PartialEq, Eq)]
pub enum Width {
    Byte,
    Half,
    Word,
    Double,
}

impl Width {
    #[inline]
    pub fn bytes(self) -> u64 {
        1 << self as u64
    }
}

#[derive(Clone, Copy, Debug, PartialEq, Eq)]
pub enum Waiting {
    Idle,
    Load { rd: u32, width: Width, signed: bool },
    FetchCsr,
    FetchFault { at: u64, write: bool },
    CopyMask,
    CopyIn { count: u64 },
    Print { count: u64 },
    ReadConsole { count: u64, at: u64 },
    CopyOut { count: u64 },
    PutChar,
    PutByte,
    GetChar,
    Forward,
}

#[derive(Clone, Copy, Debug, PartialEq, Eq)]
pub enum Exit {
    Nothing,
    ExternalInterrupt { vector: u64 },
    SendIpi { mask: u64, base: u64, legacy: bool },
    CpuUp { target: u64, entry: u64, arg: u64 },
    CpuDown { state: u64 },
    Halt,
    Hypercall { nr: u64, args: [u64; 6] },
    SystemDown,
    NestedPageFault { addr: u64, access: u64 },
    MmioRead { addr: u64, width: Width },
    MmioWrite { addr: u64, width: Width, data: u64 },
}

#[derive(Clone, Copy, Debug, PartialEq, Eq)]
pub enum Ask {
    Fetch { at: u64, supervisor: bool },
    CopyMask { at: u64 },
    CopyIn { at: u64, count: u64 },
    Print { count: u64 },
    ReadConsole { count: u64 },
    CopyOut { at: u64, count: u64 },
    Emit { number: u64 },
    GetChar,
    Forward { eid: u64, fid: u64, args: [u64; 6] },
}

#[derive(Clone, Copy, Debug, PartialEq, Eq)]
pub enum Fetch {
    Word(u32),
    Page(u64),
    Access(u64),
    Misaligned(u64),
    GuestPage(u64),
    Unhandled,
}

#[derive(Clone, Copy, Debug, PartialEq, Eq)]
pub enum Answer {
    Fetched(Fetch),
    MaskCopied { count: u64, bytes: u64 },
    CopiedIn { count: u64 },
    Printed { error: u64, value: u64 },
    ConsoleRead { error: u64, value: u64 },
    CopiedOut { count: u64 },
    Emitted,
    Char { number: u64 },
    Forwarded { error: u64, value: u64 },
}

#[derive(Clone, Copy, Debug, PartialEq, Eq)]
pub enum Error {
    BadState = 2,
    Unsupported = 3,
    InvalidTrap = 4,
    DecodeFailed = 5,
    GuestMemoryFault = 6,
    WrongAnswer = 7,
}

#[derive(Clone, Copy, Debug, PartialEq, Eq)]
pub enum Step {
    Exit(Exit),
    Ask(Ask),
    Error(Error),
}

#[derive(Clone, Copy, Debug)]
pub struct Trap {
    pub scause: u64,
    pub stval: u64,
    pub htval: u64,
    pub htinst: u64,
    pub room: u64,
}
