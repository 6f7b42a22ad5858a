//! Guest page faults: the word and its length, then the decoded access.

use crate::compressed::decode_compressed;
use crate::decode::{decode, Decoded};
use crate::*;

impl Vcpu {
    pub(crate) fn guest_page_fault(&mut self, trap: &Trap, write: bool) -> Reply {
        let addr = GuestPhysAddr((trap.htval << 2) | (trap.stval & 3));
        if trap.htinst == 0 {
            let ask = Ask::Fetch {
                at: GuestVirtAddr(self.sepc),
                supervisor: self.supervisor(),
            };
            let class = FetchFor::GuestPageFault { addr, write };
            return self.wait(Waiting::Fetch(class), ask);
        }
        let word = trap.htinst as u32;
        if word == 0x3000 || word == 0x3020 {
            return Reply::Error(Error::Unsupported);
        }
        let length = match word & 3 {
            1 => 2,
            3 => 4,
            _ => return Reply::Error(Error::DecodeFailed),
        };
        self.access(addr, write, decode(word | 2), length)
    }

    /// A fetched word under a guest page fault.
    pub(crate) fn fault_word(&mut self, addr: GuestPhysAddr, write: bool, word: u32) -> Reply {
        if word & 3 != 3 {
            self.access(addr, write, decode_compressed(word as u16), 2)
        } else if (word >> 2) & 7 != 7 {
            self.access(addr, write, decode(word), 4)
        } else {
            Reply::Error(Error::DecodeFailed)
        }
    }

    /// What a decoded word does: its length is all that tells the encodings
    /// apart.
    fn access(
        &mut self,
        addr: GuestPhysAddr,
        write: bool,
        decoded: Decoded,
        length: u64,
    ) -> Reply {
        match (decoded, write) {
            (Decoded::Load { rd, width, signed }, false) => {
                self.move_on(length);
                self.waiting = Waiting::Load { rd, width, signed };
                Reply::Exit(Exit::MmioRead { addr, width })
            }
            (Decoded::Store { rs2, width }, true) => {
                let data = width.cut(self.read(rs2 as usize));
                self.move_on(length);
                Reply::Exit(Exit::MmioWrite { addr, width, data })
            }
            _ => {
                let access = if write { Access::Write } else { Access::Read };
                Reply::Exit(Exit::NestedPageFault { addr, access })
            }
        }
    }
}
