//! The record as 58 words, for subjects that hold numbers alone: x0 to x31;
//! the 13 CSRs in 01's order; 9 counts; 4 words for what waits.
//! crates/scope/specs/Words.antt says what each word means.

use crate::*;

impl Vcpu {
    pub fn to_words(&self) -> [u64; 58] {
        let mut words = [0; 58];
        words[..32].copy_from_slice(&self.x);
        words[32..45].copy_from_slice(&[
            self.sepc,
            self.sstatus,
            self.hstatus,
            self.vsstatus,
            self.vstvec,
            self.vsepc,
            self.vscause,
            self.vstval,
            self.vstimecmp,
            self.hie,
            self.hvip,
            self.hgeie,
            self.hgatp,
        ]);
        words[45..54].copy_from_slice(&self.counts);
        words[54..].copy_from_slice(&self.waiting.to_words());
        words
    }

    /// The last four words are not read: `waiting` is what they mean.
    pub fn from_words(words: &[u64; 58], waiting: Waiting) -> Vcpu {
        Vcpu {
            x: core::array::from_fn(|i| words[i]),
            sepc: words[32],
            sstatus: words[33],
            hstatus: words[34],
            vsstatus: words[35],
            vstvec: words[36],
            vsepc: words[37],
            vscause: words[38],
            vstval: words[39],
            vstimecmp: words[40],
            hie: words[41],
            hvip: words[42],
            hgeie: words[43],
            hgatp: words[44],
            counts: core::array::from_fn(|i| words[45 + i]),
            waiting,
        }
    }
}

impl Waiting {
    /// A kind and its numbers; a number that the kind has no use for is 0.
    fn to_words(self) -> [u64; 4] {
        match self {
            Waiting::Nothing => [0; 4],
            Waiting::Load { rd, width, signed } => [1, rd, width.bytes(), signed as u64],
            Waiting::Fetch(FetchFor::VirtualInstruction) => [2, 0, 0, 0],
            Waiting::Fetch(FetchFor::GuestPageFault { addr, write }) => {
                [3, addr.0, if write { 2 } else { 1 }, 0]
            }
            Waiting::Mask => [4, 0, 0, 0],
            Waiting::CopyIn { n } => [5, n, 0, 0],
            Waiting::Print { n } => [6, n, 0, 0],
            Waiting::Read { n, at } => [7, n, at.0, 0],
            Waiting::CopyOut { v } => [8, v, 0, 0],
            Waiting::Emit(EmitFor::Legacy) => [9, 0, 0, 0],
            Waiting::Emit(EmitFor::Byte) => [10, 0, 0, 0],
            Waiting::GetChar => [11, 0, 0, 0],
            Waiting::Forward => [12, 0, 0, 0],
        }
    }
}

#[cfg(test)]
mod tests {
    use super::*;

    #[test]
    fn there_and_back() {
        let words: [u64; 58] = core::array::from_fn(|i| 100 + i as u64);
        let waiting = Waiting::Read { n: 155, at: GuestPhysAddr(156) };
        let record = Vcpu::from_words(&words, waiting);
        assert_eq!(record.waiting, waiting);
        assert_eq!(record.hgatp, 144);
        assert_eq!(record.to_words()[..54], words[..54]);
        assert_eq!(record.to_words()[54..], [7, 155, 156, 0]);
    }
}
