//! The handler with `&mut self`, in either of two forms.

use crate::forms::Forms;
use crate::types::*;

#[derive(Clone, Debug, PartialEq, Eq)]
pub struct Vcpu {
    pub x: [u64; 32],
    pub sepc: u64,
    pub sstatus: u64,
    pub hstatus: u64,
    pub vsstatus: u64,
    pub vstvec: u64,
    pub vsepc: u64,
    pub vscause: u64,
    pub vstval: u64,
    pub vstimecmp: u64,
    pub hie: u64,
    pub hvip: u64,
    pub hgeie: u64,
    pub hgatp: u64,
    pub counts: [u64; 9],
    pub waiting: Waiting,
}

const FAILED: u64 = u64::MAX;
const NOT_SUPPORTED: u64 = u64::MAX - 1;
const INVALID_PARAM: u64 = u64::MAX - 2;
const NOTHING: Step = Step::Exit(Exit::Nothing);
const A0: usize = 10;
const A1: usize = 11;
const A2: usize = 12;
const A6: usize = 16;
const A7: usize = 17;

impl Vcpu {
    #[inline]
    fn advance(&mut self, by: u64) {
        self.sepc = self.sepc.wrapping_add(by);
    }

    #[inline]
    fn returns(&mut self, error: u64, value: u64) -> Step {
        self.x[A0] = error;
        self.x[A1] = value;
        self.advance(4);
        NOTHING
    }

    #[inline]
    fn asks(&mut self, waiting: Waiting, ask: Ask) -> Step {
        self.waiting = waiting;
        Step::Ask(ask)
    }

    #[inline]
    fn count(&mut self, event: usize) {
        self.counts[event - 1] = self.counts[event - 1].wrapping_add(1);
    }

    #[inline]
    fn supervisor(&self) -> bool {
        self.hstatus & 1 << 8 != 0
    }

    #[inline]
    fn six(&self) -> [u64; 6] {
        [self.x[10], self.x[11], self.x[12], self.x[13], self.x[14], self.x[15]]
    }

    /// Starts a trap.
    #[inline(always)]
    pub fn start<F: Forms>(&mut self, t: &Trap) -> Step {
        if self.waiting != Waiting::Idle {
            return Step::Error(Error::BadState);
        }
        match t.scause {
            10 => self.ecall(t.room.min(4096)),
            21 => self.page_fault::<F>(t, false),
            22 => self.virtual_instruction::<F>(t.stval as u32),
            23 => self.page_fault::<F>(t, true),
            0x8000_0000_0000_0001 | 0x8000_0000_0000_0005 | 0x8000_0000_0000_0009 => {
                Step::Exit(Exit::ExternalInterrupt { vector: t.scause })
            }
            0..=13 | 15 | 20 | 0x8000_0000_0000_0000..=0x8000_0000_0000_000c => Step::Error(Error::Unsupported),
            _ => Step::Error(Error::InvalidTrap),
        }
    }

    #[inline(always)]
    fn ecall(&mut self, room: u64) -> Step {
        let (a0, a1, fid) = (self.x[A0], self.x[A1], self.x[A6]);
        match self.x[A7] {
            0 => {
                self.count(1);
                self.vstimecmp = a0;
                self.hvip &= !(1 << 6);
                self.x[A0] = 0;
                self.advance(4);
                NOTHING
            }
            1 => self.asks(Waiting::PutChar, Ask::Emit { number: a0 }),
            2 => self.asks(Waiting::GetChar, Ask::GetChar),
            3 => {
                self.hvip &= !(1 << 2);
                self.x[A0] = 0;
                self.advance(4);
                NOTHING
            }
            4 => self.asks(Waiting::CopyMask, Ask::CopyMask { at: a0 }),
            5..=7 => {
                self.advance(4);
                NOTHING
            }
            8 => Step::Exit(Exit::SystemDown),
            0x5449_4D45 if fid == 0 => {
                self.count(1);
                self.vstimecmp = a0;
                self.hvip &= !(1 << 6);
                self.returns(0, 0)
            }
            0x73_5049 if fid == 0 => {
                self.advance(4);
                Step::Exit(Exit::SendIpi { mask: a0, base: a1, legacy: false })
            }
            0x48_534D => match fid {
                0 => {
                    self.advance(4);
                    Step::Exit(Exit::CpuUp { target: a0, entry: a1, arg: self.x[A2] })
                }
                1 => Step::Exit(Exit::CpuDown { state: 0 }),
                3 => Step::Exit(Exit::Halt),
                _ => self.returns(NOT_SUPPORTED, 0),
            },
            0x48_5643 => {
                self.advance(4);
                Step::Exit(Exit::Hypercall { nr: fid, args: self.six() })
            }
            0x5352_5354 if fid == 0 && a0 == 0 => Step::Exit(Exit::SystemDown),
            0x4442_434E => match fid {
                0 | 1 => {
                    let count = a0.min(room);
                    if a0 == 0 {
                        self.returns(0, 0)
                    } else if self.x[A2] != 0 {
                        self.returns(INVALID_PARAM, 0)
                    } else if count == 0 {
                        self.returns(0, 0)
                    } else if fid == 0 {
                        self.asks(Waiting::CopyIn { count }, Ask::CopyIn { at: a1, count })
                    } else {
                        self.asks(Waiting::ReadConsole { count, at: a1 }, Ask::ReadConsole { count })
                    }
                }
                2 => self.asks(Waiting::PutByte, Ask::Emit { number: a0 & 0xff }),
                _ => self.returns(NOT_SUPPORTED, 0),
            },
            0x5449_4D45 | 0x73_5049 | 0x5352_5354 => self.returns(NOT_SUPPORTED, 0),
            eid => {
                if eid == 0x5246_4E43 && fid < 7 {
                    self.count(3 + fid as usize);
                }
                let args = self.six();
                self.asks(Waiting::Forward, Ask::Forward { eid, fid, args })
            }
        }
    }

    #[inline(always)]
    fn virtual_instruction<F: Forms>(&mut self, word: u32) -> Step {
        if word & 0x7f == 0x73 {
            return self.csr::<F>(word);
        }
        let ask = Ask::Fetch { at: self.sepc, supervisor: self.supervisor() };
        self.asks(Waiting::FetchCsr, ask)
    }

    #[inline(always)]
    fn csr<F: Forms>(&mut self, word: u32) -> Step {
        let f3 = word >> 12 & 7;
        if word & 0x7f != 0x73 || word >> 20 != 0x14d || f3 & 3 == 0 {
            self.count(2);
            return Step::Error(Error::Unsupported);
        }
        let field = word >> 15 & 31;
        let given = F::given(&self.x, f3, field);
        let old = self.vstimecmp;
        F::write(&mut self.x, word >> 7 & 31, old);
        self.vstimecmp = F::stimecmp(f3, old, given);
        self.advance(4);
        NOTHING
    }

    #[inline(always)]
    fn page_fault<F: Forms>(&mut self, t: &Trap, write: bool) -> Step {
        let at = t.htval << 2 | t.stval & 3;
        if t.htinst == 0 {
            let ask = Ask::Fetch { at: self.sepc, supervisor: self.supervisor() };
            return self.asks(Waiting::FetchFault { at, write }, ask);
        }
        let word = t.htinst as u32;
        if word == 0x3000 || word == 0x3020 {
            return Step::Error(Error::Unsupported);
        }
        if word & 1 == 0 {
            return Step::Error(Error::DecodeFailed);
        }
        self.access::<F>(at, write, word | 2, F::length(word))
    }

    #[inline(always)]
    fn access<F: Forms>(&mut self, at: u64, write: bool, word: u32, length: u64) -> Step {
        let f3 = word >> 12 & 7;
        let width = match f3 & 3 {
            0 => Width::Byte,
            1 => Width::Half,
            2 => Width::Word,
            _ => Width::Double,
        };
        match (word & 0x7f, write) {
            (0x03, false) if f3 != 7 => self.load(at, width, f3 < 4, word >> 7 & 31, length),
            (0x23, true) if f3 < 4 => self.store::<F>(at, width, word >> 20 & 31, length),
            _ => Self::nested(at, write),
        }
    }

    /// The eight forms of 16 bits: bit 13 is the width, bit 15 tells a store from a load, and bit 14 is set.
    #[inline(always)]
    fn compressed<F: Forms>(&mut self, at: u64, write: bool, word: u32) -> Step {
        let width = if word >> 13 & 1 == 0 { Width::Word } else { Width::Double };
        let (prime, rd, rs2) = (8 + (word >> 2 & 7), word >> 7 & 31, word >> 2 & 31);
        match (word >> 14 & 3, word & 3, write) {
            (1, 0, false) => self.load(at, width, true, prime, 2),
            (1, 2, false) if rd != 0 => self.load(at, width, true, rd, 2),
            (3, 0, true) => self.store::<F>(at, width, prime, 2),
            (3, 2, true) => self.store::<F>(at, width, rs2, 2),
            _ => Self::nested(at, write),
        }
    }

    #[inline(always)]
    fn load(&mut self, at: u64, width: Width, signed: bool, rd: u32, length: u64) -> Step {
        self.waiting = Waiting::Load { rd, width, signed };
        self.advance(length);
        Step::Exit(Exit::MmioRead { addr: at, width })
    }

    #[inline(always)]
    fn store<F: Forms>(&mut self, at: u64, width: Width, rs2: u32, length: u64) -> Step {
        let data = F::cut(width, F::read(&self.x, rs2));
        self.advance(length);
        Step::Exit(Exit::MmioWrite { addr: at, width, data })
    }

    #[inline(always)]
    fn nested(at: u64, write: bool) -> Step {
        Step::Exit(Exit::NestedPageFault { addr: at, access: 1 + write as u64 })
    }

    /// Answers the ask that waits. Both are looked at where they lie: to copy what was just stored in parts waits for the stores.
    #[inline(always)]
    pub fn answer<F: Forms>(&mut self, answer: &Answer) -> Step {
        match (&self.waiting, answer) {
            (Waiting::FetchCsr, Answer::Fetched(fetch)) => {
                self.waiting = Waiting::Idle;
                match *fetch {
                    Fetch::Word(word) => self.csr::<F>(word),
                    fault => self.missed(fault),
                }
            }
            (&Waiting::FetchFault { at, write }, Answer::Fetched(fetch)) => {
                self.waiting = Waiting::Idle;
                match *fetch {
                    Fetch::Word(word) if word & 3 != 3 => self.compressed::<F>(at, write, word),
                    Fetch::Word(word) if word >> 2 & 7 == 7 => Step::Error(Error::DecodeFailed),
                    Fetch::Word(word) => self.access::<F>(at, write, word, 4),
                    fault => self.missed(fault),
                }
            }
            (Waiting::CopyMask, &Answer::MaskCopied { count: 8, bytes }) => {
                self.waiting = Waiting::Idle;
                self.advance(4);
                Step::Exit(Exit::SendIpi { mask: bytes, base: 0, legacy: true })
            }
            (Waiting::CopyMask, Answer::MaskCopied { .. }) => self.finishes(FAILED, 0),
            (&Waiting::CopyIn { count }, &Answer::CopiedIn { count: copied }) if copied == count => {
                self.asks(Waiting::Print { count }, Ask::Print { count })
            }
            (Waiting::CopyIn { .. }, Answer::CopiedIn { .. }) => self.finishes(FAILED, 0),
            (Waiting::Print { .. }, &Answer::Printed { error, value }) => self.finishes(error, value),
            (&Waiting::ReadConsole { count, at }, &Answer::ConsoleRead { error, value }) => {
                if error == 0 && value != 0 && value <= count {
                    self.asks(Waiting::CopyOut { count: value }, Ask::CopyOut { at, count: value })
                } else {
                    self.finishes(error, value)
                }
            }
            (&Waiting::CopyOut { count }, &Answer::CopiedOut { count: copied }) => {
                if copied == count {
                    self.finishes(0, count)
                } else {
                    self.finishes(FAILED, 0)
                }
            }
            (Waiting::PutChar, Answer::Emitted) => {
                self.waiting = Waiting::Idle;
                self.advance(4);
                NOTHING
            }
            (Waiting::PutByte, Answer::Emitted) => self.finishes(0, 0),
            (Waiting::GetChar, &Answer::Char { number }) => {
                self.waiting = Waiting::Idle;
                self.x[A0] = number;
                self.advance(4);
                NOTHING
            }
            (Waiting::Forward, &Answer::Forwarded { error, value }) => self.finishes(error, value),
            _ => Step::Error(Error::WrongAnswer),
        }
    }

    /// Nothing waits any more, and the call returns.
    #[inline]
    fn finishes(&mut self, error: u64, value: u64) -> Step {
        self.waiting = Waiting::Idle;
        self.returns(error, value)
    }

    #[inline(always)]
    fn missed(&mut self, fault: Fetch) -> Step {
        let (cause, at) = match fault {
            Fetch::Page(at) => (12, at),
            Fetch::Access(at) => (1, at),
            Fetch::Misaligned(at) => (0, at),
            Fetch::GuestPage(addr) => return Step::Exit(Exit::NestedPageFault { addr, access: 4 }),
            Fetch::Word(_) | Fetch::Unhandled => return Step::Error(Error::GuestMemoryFault),
        };
        let sie = self.vsstatus >> 1 & 1;
        self.vsstatus = self.vsstatus & !0x122 | sie << 5 | (self.supervisor() as u64) << 8;
        self.vsepc = self.sepc;
        self.vscause = cause;
        self.vstval = at;
        self.sepc = self.vstvec & !3;
        self.sstatus |= 0x100;
        NOTHING
    }

    /// Completes the load that waits.
    #[inline(always)]
    pub fn complete_load<F: Forms>(&mut self, number: u64) -> bool {
        let Waiting::Load { rd, width, signed } = self.waiting else {
            return false;
        };
        self.waiting = Waiting::Idle;
        F::write(&mut self.x, rd, F::extend(width, signed, number));
        true
    }
}
