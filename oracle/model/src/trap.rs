//! A trap's start by class, and where an answer goes.

use crate::*;

impl Vcpu {
    pub fn start(&mut self, trap: &Trap) -> Reply {
        if self.waiting != Waiting::Nothing {
            return Reply::Error(Error::BadState);
        }
        let interrupt = trap.scause & INTERRUPT != 0;
        let code = trap.scause & !INTERRUPT;
        match (interrupt, code) {
            (true, 1 | 5 | 9) => Reply::Exit(Exit::ExternalInterrupt { vector: INTERRUPT + code }),
            (true, 0..=12) => Reply::Error(Error::Unsupported),
            (false, 10) => self.ecall(trap.room.min(ROOM_MAX)),
            (false, 22) => self.virtual_instruction(trap.stval),
            (false, 21) => self.guest_page_fault(trap, false),
            (false, 23) => self.guest_page_fault(trap, true),
            (false, 0..=9 | 11 | 12 | 13 | 15 | 20) => Reply::Error(Error::Unsupported),
            _ => Reply::Error(Error::InvalidTrap),
        }
    }

    /// "WrongAnswer: no ask waits, or the answer is of another ask's kind".
    pub fn answer(&mut self, answer: &Answer) -> Reply {
        let waiting = self.waiting;
        match (waiting, *answer) {
            (Waiting::Fetch(class), Answer::Fetch(fetched)) => {
                self.waiting = Waiting::Nothing;
                self.fetched(class, fetched)
            }
            (Waiting::Mask, Answer::Mask { count, bytes }) => {
                self.waiting = Waiting::Nothing;
                self.mask_copied(count, bytes)
            }
            (Waiting::CopyIn { n }, Answer::CopyIn { count }) => {
                self.waiting = Waiting::Nothing;
                self.copied_in(n, count)
            }
            (Waiting::Print { .. }, Answer::Print { error, value }) => {
                self.waiting = Waiting::Nothing;
                self.give_back(error, value)
            }
            (Waiting::Read { n, at }, Answer::Read { error, value }) => {
                self.waiting = Waiting::Nothing;
                self.console_read_done(n, at, error, value)
            }
            (Waiting::CopyOut { v }, Answer::CopyOut { count }) => {
                self.waiting = Waiting::Nothing;
                self.copied_out(v, count)
            }
            (Waiting::Emit(class), Answer::Emit) => {
                self.waiting = Waiting::Nothing;
                self.emitted(class)
            }
            (Waiting::GetChar, Answer::GetChar { number }) => {
                self.waiting = Waiting::Nothing;
                self.write(A0, number);
                self.move_on(4);
                Reply::Exit(Exit::Nothing)
            }
            (Waiting::Forward, Answer::Forward { error, value }) => {
                self.waiting = Waiting::Nothing;
                self.give_back(error, value)
            }
            _ => Reply::Error(Error::WrongAnswer),
        }
    }

    fn fetched(&mut self, class: FetchFor, fetched: FetchAnswer) -> Reply {
        let FetchAnswer::Word(word) = fetched else {
            return self.fetch_fault(fetched);
        };
        match class {
            FetchFor::VirtualInstruction => self.emulate(word),
            FetchFor::GuestPageFault { addr, write } => self.fault_word(addr, write, word),
        }
    }

    /// The guest takes page, access and misaligned faults itself.
    fn fetch_fault(&mut self, fault: FetchAnswer) -> Reply {
        match fault {
            FetchAnswer::Page(at) => self.inject(12, at),
            FetchAnswer::Access(at) => self.inject(1, at),
            FetchAnswer::Misaligned(at) => self.inject(0, at),
            FetchAnswer::GuestPage(addr) => {
                Reply::Exit(Exit::NestedPageFault { addr, access: Access::Execute })
            }
            FetchAnswer::Unhandled | FetchAnswer::Word(_) => {
                Reply::Error(Error::GuestMemoryFault)
            }
        }
    }

    /// The guest's own trap (01, Virtual instruction; 02, W5). vsstatus says where
    /// the fault came from, sstatus that its handler runs as supervisor.
    fn inject(&mut self, cause: u64, at: GuestVirtAddr) -> Reply {
        const SIE: u64 = 1 << 1;
        const SPIE: u64 = 1 << 5;
        const SPP: u64 = 1 << 8;
        let sie = self.vsstatus & SIE != 0;
        let mut vsstatus = self.vsstatus & !(SIE | SPIE | SPP);
        if sie {
            vsstatus |= SPIE;
        }
        if self.supervisor() {
            vsstatus |= SPP;
        }
        self.vsepc = self.sepc;
        self.vscause = cause;
        self.vstval = at.0;
        self.vsstatus = vsstatus;
        self.sstatus |= SPP;
        self.sepc = self.vstvec & !3;
        Reply::Exit(Exit::Nothing)
    }
}
