//! The bytes that a host puts into a console buffer, and a digest of bytes,
//! so that a request can be compared with its data.

/// Byte `i` of the pattern that `fill` names.
pub fn pattern(fill: u64, i: usize) -> u8 {
    let mixed = (fill ^ i as u64).wrapping_mul(0x9E37_79B9_7F4A_7C15);
    (mixed >> 56) as u8
}

/// A number that differs, in practice, for different bytes.
pub fn digest(bytes: &[u8]) -> u64 {
    bytes.iter().fold(0xCBF2_9CE4_8422_2325, |sum, &byte| {
        (sum ^ byte as u64).wrapping_mul(0x100_0000_01B3)
    })
}
