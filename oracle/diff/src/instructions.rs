//! Random instruction words.

use scripted::Fetched;

use crate::random::Random;

/// An access to stimecmp.
pub fn stimecmp(r: &mut Random) -> u32 {
    let funct3 = r.pick(&[1, 2, 3, 5, 6, 7]);
    csr_word(r, 0x14d, funct3)
}

/// A word that misses being an access to stimecmp in one way or two.
pub fn almost_stimecmp(r: &mut Random) -> u32 {
    let word = stimecmp(r);
    match r.below(6) {
        0 => csr_word(r, 0x14d, 0),
        1 => csr_word(r, 0x14d, 4),
        2 => word ^ 1 << (20 + r.below(12)),
        3 => word ^ 1 << r.below(7),
        4 => word & !0x7f | r.below(128) as u32,
        _ => r.number() as u32,
    }
}

fn csr_word(r: &mut Random, csr: u32, funct3: u32) -> u32 {
    csr << 20 | register(r) << 15 | funct3 << 12 | register(r) << 7 | 0x73
}

/// A register field, 0 and a0 to a2 more often.
fn register(r: &mut Random) -> u32 {
    if r.once_in(3) {
        r.pick(&[0, 0, 10, 11, 12])
    } else {
        r.below(32) as u32
    }
}

/// A stval that does not end in 0x73.
pub fn not_system(r: &mut Random) -> u64 {
    let stval = match r.below(3) {
        0 => 0,
        1 => r.number(),
        _ => 0x73 ^ 1 << r.below(7),
    };
    if stval & 0x7f == 0x73 {
        stval ^ 1
    } else {
        stval
    }
}

/// A 32-bit load; funct3 7 is none.
pub fn load(r: &mut Random) -> u32 {
    let rest = r.number() as u32;
    let funct3 = r.below(7) as u32;
    rest & 0xffff_8000 | funct3 << 12 | register(r) << 7 | 0x03
}

/// A 32-bit store.
pub fn store(r: &mut Random) -> u32 {
    let rest = r.number() as u32;
    let funct3 = r.below(4) as u32;
    rest & 0xfe0f_8f80 | register(r) << 20 | funct3 << 12 | 0x23
}

/// A 32-bit word that is no load or store, some of them nearly.
pub fn other(r: &mut Random) -> u32 {
    let word = r.number() as u32;
    let word = match r.below(5) {
        0 => word & !0x707f | 0x7003,
        1 => word & !0x707f | (4 + r.below(4) as u32) << 12 | 0x23,
        2 => word & !0x7f | r.pick(&[0x07, 0x27, 0x0f, 0x13, 0x2f, 0x33, 0x53, 0x73]),
        3 => word & !0x7f | r.pick(&[0x0b, 0x2b, 0x5b, 0x7b, 0x57, 0x77, 0x6b, 0x1f, 0x3f]),
        _ => word | 3,
    };
    let is_access = matches!((word & 0x7f, word >> 12 & 7), (3, 0..=6) | (0x23, 0..=3));
    if is_access {
        word | 0x10
    } else {
        word
    }
}

/// c.lw, c.ld, c.lwsp or c.ldsp.
pub fn compressed_load(r: &mut Random) -> u32 {
    let funct3 = r.pick(&[2, 3]);
    let word = if r.coin() {
        compressed(r, 0, funct3)
    } else {
        let rd = match register(r) {
            0 => 10,
            rd => rd,
        };
        compressed(r, 2, funct3) & !(31 << 7) | rd << 7
    };
    below_any_half(r, word)
}

/// c.sw, c.sd, c.swsp or c.sdsp; the last two with bits 11..7, of their
/// offset, 0 more often.
pub fn compressed_store(r: &mut Random) -> u32 {
    let funct3 = r.pick(&[6, 7]);
    let word = if r.coin() {
        compressed(r, 0, funct3)
    } else {
        let word = compressed(r, 2, funct3) & !(31 << 2) | register(r) << 2;
        if r.once_in(4) {
            word & !(31 << 7)
        } else {
            word
        }
    };
    below_any_half(r, word)
}

/// A 16-bit word, most of them no load or store of the eight, but nearly.
pub fn compressed_other(r: &mut Random) -> u32 {
    let (quadrant, funct3) = (r.pick(&[0, 2]), r.below(8) as u32);
    let word = match r.below(8) {
        // c.lwsp and c.ldsp into x0, which are reserved.
        0 | 1 => compressed(r, 2, 2 | funct3 & 1) & !(31 << 7),
        // c.fld, c.fsd and those by sp.
        2 => compressed(r, quadrant, 1 | funct3 & 4),
        // Later extensions' c.lbu, c.lhu, c.lh, c.sb, c.sh.
        3 => compressed(r, 0, 4),
        4 => compressed(r, 1, funct3),
        // No instruction, and what would be pseudo words in htinst.
        5 => r.pick(&[0, 0, 0x3000, 0x3020]),
        // A bit off one of the eight.
        6 => compressed(r, quadrant, 2 | funct3) ^ 1 << r.below(16),
        _ => r.below(1 << 16) as u32,
    };
    let word = if word & 3 == 3 { word ^ 1 << r.below(2) } else { word };
    below_any_half(r, word)
}

/// Any 16-bit word of a quadrant and funct3.
fn compressed(r: &mut Random, quadrant: u32, funct3: u32) -> u32 {
    r.below(1 << 16) as u32 & !0xe003 | funct3 << 13 | quadrant
}

/// A 16-bit word as a fetch may give it: alone, or with what stands behind it.
fn below_any_half(r: &mut Random, word: u32) -> u32 {
    match r.below(4) {
        0 | 1 => word,
        2 => 0xffff_0000 | word,
        _ => (r.number() as u32) << 16 | word,
    }
}

/// htinst for a 32-bit word: bit 1 is clear for a compressed one, and the
/// high half may hold anything.
pub fn htinst(r: &mut Random, word: u32) -> u64 {
    let low = if r.once_in(3) { word & !2 } else { word } as u64;
    match r.below(4) {
        0 => r.number() << 32 | low,
        _ => low,
    }
}

pub fn fetch_fault(r: &mut Random) -> Fetched {
    let at = r.edgy();
    match r.below(5) {
        0 => Fetched::Page(at),
        1 => Fetched::Access(at),
        2 => Fetched::Misaligned(at),
        3 => Fetched::GuestPage(at),
        _ => Fetched::Unhandled,
    }
}

/// Any fetch answer.
pub fn fetched(r: &mut Random) -> Fetched {
    match r.below(6) {
        0 => fetch_fault(r),
        1 => Fetched::Word(stimecmp(r)),
        2 => Fetched::Word(load(r)),
        3 => Fetched::Word(store(r)),
        _ => Fetched::Word(r.number() as u32),
    }
}
