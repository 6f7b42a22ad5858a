//! Sixteen lowercase hex digits, read and written eight at a time in 64-bit arithmetic: a word has a digit in each of its bytes, as its
//! glyph or as its value, the first digit in the highest byte. No sum below passes from one byte into the next.

/// A word with this byte in each place.
const fn each(byte: u8) -> u64 {
    u64::from_ne_bytes([byte; 8])
}

/// The values of eight digits: a glyph's low four bits, and nine more of a letter, which has bit 6. Of other bytes, any values.
#[inline(always)]
fn values(glyphs: u64) -> u64 {
    ((glyphs & each(0x0f)) + ((glyphs >> 6) & each(1)) * 9) & each(0x0f)
}

/// The glyphs of eight digits: 48 more than the value, and 39 more again from ten on, whose sum with 6 has bit 4.
#[inline(always)]
fn glyphs(values: u64) -> u64 {
    values + each(b'0') + (((values + each(6)) >> 4) & each(1)) * u64::from(b'a' - b'9' - 1)
}

/// Eight digits put together.
#[inline(always)]
fn fold(values: u64) -> u64 {
    let twos = (values | values >> 4) & 0x00ff_00ff_00ff_00ff;
    let fours = (twos | twos >> 8) & 0x0000_ffff_0000_ffff;
    (fours | fours >> 16) & 0xffff_ffff
}

/// A number below 2^32 taken apart.
#[inline(always)]
fn spread(number: u64) -> u64 {
    let fours = (number | number << 16) & 0x0000_ffff_0000_ffff;
    let twos = (fours | fours << 8) & 0x00ff_00ff_00ff_00ff;
    (twos | twos << 4) & each(0x0f)
}

/// The number of sixteen digits. They are digits if their values have them as glyphs.
#[inline(always)]
pub fn read(digits: &[u8; 16]) -> Option<u64> {
    let high = u64::from_be_bytes(digits[..8].try_into().unwrap());
    let low = u64::from_be_bytes(digits[8..].try_into().unwrap());
    let (h, l) = (values(high), values(low));
    let wrong = (glyphs(h) ^ high) | (glyphs(l) ^ low);
    (wrong == 0).then(|| fold(h) << 32 | fold(l))
}

/// The sixteen digits of a number.
#[inline(always)]
pub fn write(number: u64, digits: &mut [u8; 16]) {
    digits[..8].copy_from_slice(&glyphs(spread(number >> 32)).to_be_bytes());
    digits[8..].copy_from_slice(&glyphs(spread(number & 0xffff_ffff)).to_be_bytes());
}
