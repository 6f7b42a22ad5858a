//! What the data of an instruction decides, apart from its class: which register, width, sign, length and way of writing stimecmp.
//! It is the one thing in which the two handlers differ.

use crate::types::Width;

pub type Registers = [u64; 32];

pub trait Forms {
    /// Register `i` of 32; x0 reads 0, whatever its slot holds.
    fn read(x: &Registers, i: u32) -> u64;
    /// Writes register `i` of 32, unless it is x0.
    fn write(x: &mut Registers, i: u32, number: u64);
    fn cut(width: Width, number: u64) -> u64;
    /// Cuts the number of a load to its width and extends it.
    fn extend(width: Width, signed: bool, number: u64) -> u64;
    /// The length of an instruction by htinst's bit 1.
    fn length(word: u32) -> u64;
    /// What a CSR instruction gives: its register, or with funct3 5, 6, 7 the field as a number.
    fn given(x: &Registers, f3: u32, field: u32) -> u64;
    /// stimecmp after it, by funct3 1, 2, 3 or 5, 6, 7.
    fn stimecmp(f3: u32, old: u64, given: u64) -> u64;
}
