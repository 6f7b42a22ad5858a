//! As fast as we can write it: no branch where a table, a mask or a select will do. A branch that random data decides is taken wrongly
//! about every other time, and that costs more than all that is here.

use crate::forms::{Forms, Registers};
use crate::types::Width;
use std::hint::select_unpredictable;

pub struct Straight;

/// The bits that a width keeps.
const KEPT: [u64; 4] = [0xff, 0xffff, 0xffff_ffff, u64::MAX];
/// The sign bit of a width, by whether a load extends it.
const SIGN: [[u64; 4]; 2] = [[0; 4], [1 << 7, 1 << 15, 1 << 31, 1 << 63]];

impl Forms for Straight {
    #[inline]
    fn read(x: &Registers, i: u32) -> u64 {
        select_unpredictable(i == 0, 0, x[(i % 32) as usize])
    }

    #[inline]
    fn write(x: &mut Registers, i: u32, number: u64) {
        let slot = &mut x[(i % 32) as usize];
        *slot = select_unpredictable(i == 0, *slot, number);
    }

    #[inline]
    fn cut(width: Width, number: u64) -> u64 {
        number & KEPT[width as usize]
    }

    #[inline]
    fn extend(width: Width, signed: bool, number: u64) -> u64 {
        let sign = SIGN[signed as usize][width as usize];
        (Self::cut(width, number) ^ sign).wrapping_sub(sign)
    }

    #[inline]
    fn length(word: u32) -> u64 {
        2 + (word & 2) as u64
    }

    #[inline]
    fn given(x: &Registers, f3: u32, field: u32) -> u64 {
        select_unpredictable(f3 < 4, Self::read(x, field), field as u64)
    }

    #[inline]
    fn stimecmp(f3: u32, old: u64, given: u64) -> u64 {
        let kept = select_unpredictable(f3 & 3 == 1, 0, old);
        select_unpredictable(f3 & 3 == 3, old & !given, kept | given)
    }
}
