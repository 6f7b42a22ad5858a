//! Compressed loads and stores as htinst has them, from the ISA's C chapter
//! and PRIV's rule for transformed instructions. It has nothing of the model's
//! decoder, so that a fault in either shows.

/// The 32-bit instructions that the eight forms stand for, all fields but
/// opcode and funct3 0.
const LW: u32 = 0x2003;
const LD: u32 = 0x3003;
const SW: u32 = 0x2023;
const SD: u32 = 0x3023;

/// The eight forms: bits 15 to 0 as the ISA lists them. `r` is a bit of rd or
/// rs2, `-` one of the offset or of the base register: htinst has neither.
const FORMS: [(&str, u32); 8] = [
    // c.lw, c.ld, c.sw, c.sd
    ("010 --- --- -- rrr 00", LW),
    ("011 --- --- -- rrr 00", LD),
    ("110 --- --- -- rrr 00", SW),
    ("111 --- --- -- rrr 00", SD),
    // c.lwsp, c.ldsp, c.swsp, c.sdsp
    ("010 - rrrrr ----- 10", LW),
    ("011 - rrrrr ----- 10", LD),
    ("110 ------ rrrrr 10", SW),
    ("111 ------ rrrrr 10", SD),
];

/// Whether a 32-bit load or store, or its htinst, is a store: by its opcode.
pub fn is_store(word: u32) -> bool {
    word & 0x20 != 0
}

/// What htinst holds for a 16-bit word that is one of the eight: the 32-bit
/// instruction with no offset, no base register, and bit 1 clear.
pub fn htinst(word: u16) -> Option<u32> {
    for (form, base) in FORMS {
        let Some(register) = register(form, word) else {
            continue;
        };
        return match (is_store(base), register) {
            // c.lwsp and c.ldsp with rd 0 are reserved.
            (false, 0) => None,
            (false, rd) => Some((base | rd << 7) & !2),
            (true, rs2) => Some((base | rs2 << 20) & !2),
        };
    }
    None
}

/// The register that the word names, if it is of the form.
fn register(form: &str, word: u16) -> Option<u32> {
    let (mut number, mut bits) = (0, 0);
    let listed = form.chars().filter(|&c| c != ' ');
    for (at, listed) in (0..16).rev().zip(listed) {
        let bit = word as u32 >> at & 1;
        match (listed, bit) {
            ('r', _) => (number, bits) = (number << 1 | bit, bits + 1),
            ('0', 1) | ('1', 0) => return None,
            _ => {}
        }
    }
    // Three bits name x8 to x15.
    Some(if bits == 3 { 8 + number } else { number })
}
