//! As one would first write it: a branch for each choice.

use crate::forms::{Forms, Registers};
use crate::types::Width;

pub struct First;

impl Forms for First {
    #[inline]
    fn read(x: &Registers, i: u32) -> u64 {
        if i == 0 {
            0
        } else {
            x[(i % 32) as usize]
        }
    }

    #[inline]
    fn write(x: &mut Registers, i: u32, number: u64) {
        if i != 0 && i < 32 {
            x[i as usize] = number;
        }
    }

    #[inline]
    fn cut(width: Width, number: u64) -> u64 {
        match width {
            Width::Byte => number as u8 as u64,
            Width::Half => number as u16 as u64,
            Width::Word => number as u32 as u64,
            Width::Double => number,
        }
    }

    #[inline]
    fn extend(width: Width, signed: bool, number: u64) -> u64 {
        match (width, signed) {
            (Width::Byte, true) => number as i8 as u64,
            (Width::Half, true) => number as i16 as u64,
            (Width::Word, true) => number as i32 as u64,
            _ => Self::cut(width, number),
        }
    }

    #[inline]
    fn length(word: u32) -> u64 {
        if word & 2 == 0 {
            2
        } else {
            4
        }
    }

    #[inline]
    fn given(x: &Registers, f3: u32, field: u32) -> u64 {
        if f3 < 4 {
            Self::read(x, field)
        } else {
            field as u64
        }
    }

    #[inline]
    fn stimecmp(f3: u32, old: u64, given: u64) -> u64 {
        match f3 & 3 {
            1 => given,
            2 => old | given,
            _ => old & !given,
        }
    }
}
