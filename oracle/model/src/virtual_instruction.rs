//! Virtual instruction: accesses to stimecmp.

use crate::*;

impl Vcpu {
    pub(crate) fn virtual_instruction(&mut self, stval: u64) -> Reply {
        let word = stval as u32;
        if word & 0x7f == SYSTEM {
            return self.emulate(word);
        }
        let ask = Ask::Fetch {
            at: GuestVirtAddr(self.sepc),
            supervisor: self.supervisor(),
        };
        self.wait(Waiting::Fetch(FetchFor::VirtualInstruction), ask)
    }

    /// The word comes from stval or from a fetch; the same rule holds for both.
    pub(crate) fn emulate(&mut self, word: u32) -> Reply {
        let funct3 = (word >> 12) & 7;
        let fits = word & 0x7f == SYSTEM
            && word >> 20 == CSR_STIMECMP
            && funct3 != 0
            && funct3 != 4;
        if !fits {
            self.count(2);
            return Reply::Error(Error::Unsupported);
        }
        let field = (word >> 15) & 31;
        let rd = (word >> 7) & 31;
        let old = self.vstimecmp;
        // rs1 before rd: they may be one register.
        let operand = if funct3 < 4 {
            self.read(field as usize)
        } else {
            field as u64
        };
        self.write(rd as usize, old);
        match funct3 & 3 {
            1 => self.vstimecmp = operand,
            2 if field != 0 => self.vstimecmp = old | operand,
            3 if field != 0 => self.vstimecmp = old & !operand,
            _ => {}
        }
        self.move_on(4);
        Reply::Exit(Exit::Nothing)
    }
}
