//! Ecalls: the calling guest's a7 and a6 choose, in 01's order.

use crate::*;

impl Vcpu {
    /// "Return e, v".
    pub(crate) fn give_back(&mut self, error: u64, value: u64) -> Reply {
        self.write(A0, error);
        self.write(A1, value);
        self.move_on(4);
        Reply::Exit(Exit::Nothing)
    }

    pub(crate) fn ecall(&mut self, room: u64) -> Reply {
        let eid = self.read(A7);
        match eid {
            0..=8 => self.legacy(eid),
            EID_TIME => self.time(),
            EID_SPI => self.ipi(),
            EID_HSM => self.hart_state(),
            EID_HVC => self.hypercall(),
            EID_SRST => self.reset(),
            EID_DBCN => self.console(room),
            EID_RFNC => self.fence(),
            _ => self.forward(),
        }
    }

    /// a6 is not read.
    fn legacy(&mut self, eid: u64) -> Reply {
        match eid {
            0 => {
                self.set_timer();
                self.write(A0, 0);
            }
            1 => {
                let number = self.read(A0);
                return self.wait(Waiting::Emit(EmitFor::Legacy), Ask::Emit { number });
            }
            2 => return self.wait(Waiting::GetChar, Ask::GetChar),
            3 => {
                self.hvip &= !VSSIP;
                self.write(A0, 0);
            }
            4 => {
                let at = GuestVirtAddr(self.read(A0));
                return self.wait(Waiting::Mask, Ask::Mask { at });
            }
            8 => return Reply::Exit(Exit::SystemDown),
            // 5, 6, 7: no register written.
            _ => {}
        }
        self.move_on(4);
        Reply::Exit(Exit::Nothing)
    }

    fn time(&mut self) -> Reply {
        if self.read(A6) != 0 {
            return self.give_back(NOT_SUPPORTED, 0);
        }
        self.set_timer();
        self.give_back(0, 0)
    }

    /// What legacy 0 and TIME fid 0 share (01, Ecalls; 02, W1). A tick latched
    /// for the old time must not reach the guest.
    fn set_timer(&mut self) {
        self.count(1);
        self.vstimecmp = self.read(A0);
        self.hvip &= !VSTIP;
    }

    fn ipi(&mut self) -> Reply {
        if self.read(A6) != 0 {
            return self.give_back(NOT_SUPPORTED, 0);
        }
        self.move_on(4);
        Reply::Exit(Exit::SendIpi {
            mask: self.read(A0),
            base: self.read(A1),
            abi: IpiAbi::SbiV02,
        })
    }

    fn hart_state(&mut self) -> Reply {
        match self.read(A6) {
            0 => {
                self.move_on(4);
                Reply::Exit(Exit::CpuUp {
                    target: self.read(A0),
                    entry: GuestPhysAddr(self.read(A1)),
                    arg: self.read(A2),
                })
            }
            1 => Reply::Exit(Exit::CpuDown { state: 0 }),
            3 => Reply::Exit(Exit::Halt),
            _ => self.give_back(NOT_SUPPORTED, 0),
        }
    }

    fn arguments(&self) -> [u64; 6] {
        core::array::from_fn(|i| self.read(A0 + i))
    }

    fn hypercall(&mut self) -> Reply {
        self.move_on(4);
        Reply::Exit(Exit::Hypercall {
            number: self.read(A6),
            args: self.arguments(),
        })
    }

    fn reset(&mut self) -> Reply {
        if self.read(A6) == 0 && self.read(A0) == 0 {
            return Reply::Exit(Exit::SystemDown);
        }
        self.give_back(NOT_SUPPORTED, 0)
    }

    fn console(&mut self, room: u64) -> Reply {
        let fid = self.read(A6);
        match fid {
            0 | 1 => {
                let length = self.read(A0);
                if length == 0 {
                    return self.give_back(0, 0);
                }
                if self.read(A2) != 0 {
                    return self.give_back(INVALID_PARAM, 0);
                }
                let n = length.min(room);
                if n == 0 {
                    return self.give_back(0, 0);
                }
                let at = GuestPhysAddr(self.read(A1));
                if fid == 0 {
                    self.wait(Waiting::CopyIn { n }, Ask::CopyIn { n, at })
                } else {
                    self.wait(Waiting::Read { n, at }, Ask::Read { n })
                }
            }
            2 => {
                let number = self.read(A0) % 256;
                self.wait(Waiting::Emit(EmitFor::Byte), Ask::Emit { number })
            }
            _ => self.give_back(NOT_SUPPORTED, 0),
        }
    }

    /// The event counts at the start, before the ask.
    fn fence(&mut self) -> Reply {
        let fid = self.read(A6);
        if fid <= 6 {
            self.count(3 + fid as usize);
        }
        self.forward()
    }

    fn forward(&mut self) -> Reply {
        let ask = Ask::Forward {
            eid: self.read(A7),
            fid: self.read(A6),
            args: self.arguments(),
        };
        self.wait(Waiting::Forward, ask)
    }

    /// Ask 2's answer: a copy of 8 is a mask, any other count a failed copy.
    pub(crate) fn mask_copied(&mut self, count: u64, bytes: u64) -> Reply {
        if count != 8 {
            return self.give_back(FAILED, 0);
        }
        self.move_on(4);
        Reply::Exit(Exit::SendIpi {
            mask: bytes,
            base: 0,
            abi: IpiAbi::Legacy,
        })
    }

    /// Ask 3's answer.
    pub(crate) fn copied_in(&mut self, n: u64, count: u64) -> Reply {
        if count != n {
            return self.give_back(FAILED, 0);
        }
        self.wait(Waiting::Print { n }, Ask::Print { n })
    }

    /// Ask 5's answer.
    pub(crate) fn console_read_done(
        &mut self,
        n: u64,
        at: GuestPhysAddr,
        error: u64,
        value: u64,
    ) -> Reply {
        if error == 0 && 1 <= value && value <= n {
            return self.wait(Waiting::CopyOut { v: value }, Ask::CopyOut { n: value, at });
        }
        self.give_back(error, value)
    }

    /// Ask 6's answer.
    pub(crate) fn copied_out(&mut self, v: u64, count: u64) -> Reply {
        if count != v {
            return self.give_back(FAILED, 0);
        }
        self.give_back(0, v)
    }

    /// Ask 7's answer.
    pub(crate) fn emitted(&mut self, class: EmitFor) -> Reply {
        match class {
            EmitFor::Legacy => {
                self.move_on(4);
                Reply::Exit(Exit::Nothing)
            }
            EmitFor::Byte => self.give_back(0, 0),
        }
    }
}
