//! "Decode the ISA's c.lw, c.ld, c.sw, c.sd, c.lwsp, c.ldsp, c.swsp and c.sdsp,
//! with their register fields, widths and sign rule" (W2). By the ISA's chapter
//! on C, for RV64: the quadrant (bits 1..0) and funct3 (bits 15..13) name the
//! form, and the form's format has the place of its register:
//!
//! | format | forms | bits 12..2 |
//! |---|---|---|
//! | CL | C.LW, C.LD | offset 12..10, rs1' 9..7, offset 6..5, rd' 4..2 |
//! | CS | C.SW, C.SD | offset 12..10, rs1' 9..7, offset 6..5, rs2' 4..2 |
//! | CI | C.LWSP, C.LDSP | offset 12, rd 11..7, offset 6..2 |
//! | CSS | C.SWSP, C.SDSP | offset 12..7, rs2 6..2 |
//!
//! The base and the offset don't matter: the address comes from htval and
//! stval (reading).

use crate::fault::{field, Decoded};

/// A fetched word: "low two bits not 3 is length 2 (keep 16 bits)".
pub fn decode(word: u16) -> Decoded {
    let word = u32::from(word);
    let (quadrant, funct3) = (field(word, 0, 2), field(word, 13, 3));
    match (quadrant, funct3) {
        (0, 2) => load(cl_rd(word), 4),    // C.LW, expands to LW
        (0, 3) => load(cl_rd(word), 8),    // C.LD, to LD
        (0, 6) => store(cs_rs2(word), 4),  // C.SW, to SW
        (0, 7) => store(cs_rs2(word), 8),  // C.SD, to SD
        (2, 2) => load_sp(ci_rd(word), 4), // C.LWSP, to LW
        (2, 3) => load_sp(ci_rd(word), 8), // C.LDSP, to LD
        (2, 6) => store(css_rs2(word), 4), // C.SWSP, to SW
        (2, 7) => store(css_rs2(word), 8), // C.SDSP, to SD
        // "Floating forms stay NestedPageFault" (W2): funct3 1 and 5. So do
        // later extensions' forms and 0x0000 (reading).
        _ => Decoded::Other,
    }
}

/// LW and LD: there is no unsigned form among the eight (reading).
fn load(rd: u64, bytes: u64) -> Decoded {
    Decoded::Load {
        rd,
        bytes,
        signed: true,
    }
}

/// "c.lwsp and c.ldsp with rd 0 are reserved and do too" (W2). The rule is this
/// decoder's alone: LW and LD with rd 0 wait (reading).
fn load_sp(rd: u64, bytes: u64) -> Decoded {
    match rd {
        0 => Decoded::Other,
        _ => load(rd, bytes),
    }
}

/// Any rs2, x0 among them (reading).
fn store(rs2: u64, bytes: u64) -> Decoded {
    Decoded::Store { rs2, bytes }
}

/// rd' in CL: three bits that name x8 to x15.
fn cl_rd(word: u32) -> u64 {
    8 + field(word, 2, 3)
}

/// rs2' in CS: three bits that name x8 to x15.
fn cs_rs2(word: u32) -> u64 {
    8 + field(word, 2, 3)
}

/// rd in CI.
fn ci_rd(word: u32) -> u64 {
    field(word, 7, 5)
}

/// rs2 in CSS, where bits 11..7 are a part of the offset (reading).
fn css_rs2(word: u32) -> u64 {
    field(word, 2, 5)
}
