//! The load and store decoder: 16-bit ISA forms (02, W2). They are listed by
//! quadrant, the low two bits, and funct3, the high three, as in the ISA's C
//! chapter. Offsets are left out: a fault brings its address with it.

use crate::decode::Decoded;
use crate::Width;

pub fn decode_compressed(word: u16) -> Decoded {
    let quadrant = word & 3;
    let funct3 = word >> 13;
    // Three bits name x8 to x15: rd' of a load and rs2' of a store alike.
    let short = 8 + ((word >> 2) & 7);
    let rd = (word >> 7) & 31;
    // A store by sp has no rd: bits 11..7 are of its offset, and may be 0.
    let rs2 = (word >> 2) & 31;
    match (quadrant, funct3) {
        // c.lw, c.ld
        (0, 2) => load(short, Width::Four),
        (0, 3) => load(short, Width::Eight),
        // c.sw, c.sd
        (0, 6) => store(short, Width::Four),
        (0, 7) => store(short, Width::Eight),
        // c.lwsp, c.ldsp: reserved with rd 0
        (2, 2 | 3) if rd == 0 => Decoded::Other,
        (2, 2) => load(rd, Width::Four),
        (2, 3) => load(rd, Width::Eight),
        // c.swsp, c.sdsp
        (2, 6) => store(rs2, Width::Four),
        (2, 7) => store(rs2, Width::Eight),
        // Floating forms, later extensions, and all that is no access.
        _ => Decoded::Other,
    }
}

/// None of the eight is a load without sign.
fn load(rd: u16, width: Width) -> Decoded {
    Decoded::Load { rd: rd as u64, width, signed: true }
}

fn store(rs2: u16, width: Width) -> Decoded {
    Decoded::Store { rs2: rs2 as u8, width }
}
