//! Interrupts posted, one alone and a row in one call, by both handlers. Nothing is inlined into a caller, as calls into another
//! library are not.

use crate::{First, Straight, Vcpu, Waiting};
use std::hint::select_unpredictable;

/// A vector and its level: 0 clears, any other sets.
#[repr(C)]
#[derive(Clone, Copy, Debug)]
pub struct Post {
    pub vector: u64,
    pub level: u64,
}

#[derive(Clone, Copy, Debug, PartialEq, Eq)]
pub enum Refusal {
    InvalidInput = 1,
    BadState = 2,
}

/// How many posts of a row were applied, and what stopped it.
#[derive(Clone, Copy, Debug, PartialEq, Eq)]
pub struct Posted {
    pub applied: usize,
    pub refusal: Option<Refusal>,
}

pub trait Posts {
    fn post(vcpu: &mut Vcpu, post: Post) -> Result<(), Refusal>;
    fn post_row(vcpu: &mut Vcpu, posts: &[Post]) -> Posted;
}

const SOFT: u64 = 1 << 63 | 1;
const TIMER: u64 = 1 << 63 | 5;
const EXTERNAL: u64 = 1 << 63 | 9;

impl Vcpu {
    /// A load that waits is no ask.
    #[inline(always)]
    fn ask_waits(&self) -> bool {
        !matches!(self.waiting, Waiting::Idle | Waiting::Load { .. })
    }

    #[inline(always)]
    fn first_post(&mut self, post: Post) -> Result<(), Refusal> {
        if self.ask_waits() {
            return Err(Refusal::BadState);
        }
        let bit = match post.vector {
            SOFT => 1 << 2,
            TIMER => 1 << 6,
            9 | EXTERNAL => 1 << 10,
            _ => return Err(Refusal::InvalidInput),
        };
        if post.level != 0 {
            self.hvip |= bit;
        } else {
            self.hvip &= !bit;
        }
        Ok(())
    }
}

impl Posts for First {
    #[inline(never)]
    fn post(vcpu: &mut Vcpu, post: Post) -> Result<(), Refusal> {
        vcpu.first_post(post)
    }

    #[inline(never)]
    fn post_row(vcpu: &mut Vcpu, posts: &[Post]) -> Posted {
        if vcpu.ask_waits() {
            return Posted { applied: 0, refusal: Some(Refusal::BadState) };
        }
        for (applied, post) in posts.iter().enumerate() {
            if let Err(refusal) = vcpu.first_post(*post) {
                return Posted { applied, refusal: Some(refusal) };
            }
        }
        Posted { applied: posts.len(), refusal: None }
    }
}

/// hvip's bit by a vector that is turned left by one place, which makes 2^63 + n to 2n + 1, and n to 2n; 0 for one that is not allowed.
const BITS: [u16; 20] = {
    let mut bits = [0; 20];
    bits[2 + 1] = 1 << 2;
    bits[2 * 5 + 1] = 1 << 6;
    bits[2 * 9] = 1 << 10;
    bits[2 * 9 + 1] = 1 << 10;
    bits
};

/// The bit that a vector stands for, or 0.
#[inline(always)]
fn bit(vector: u64) -> u64 {
    BITS.get(vector.rotate_left(1) as usize).map_or(0, |bit| *bit as u64)
}

/// hvip with the bit set or cleared.
#[inline(always)]
fn levelled(hvip: u64, bit: u64, level: u64) -> u64 {
    hvip & !bit | select_unpredictable(level != 0, bit, 0)
}

/// The one branch for each post is whether it is refused.
impl Posts for Straight {
    #[inline(never)]
    fn post(vcpu: &mut Vcpu, post: Post) -> Result<(), Refusal> {
        if vcpu.ask_waits() {
            return Err(Refusal::BadState);
        }
        let bit = bit(post.vector);
        if bit == 0 {
            return Err(Refusal::InvalidInput);
        }
        vcpu.hvip = levelled(vcpu.hvip, bit, post.level);
        Ok(())
    }

    #[inline(never)]
    fn post_row(vcpu: &mut Vcpu, posts: &[Post]) -> Posted {
        if vcpu.ask_waits() {
            return Posted { applied: 0, refusal: Some(Refusal::BadState) };
        }
        let mut hvip = vcpu.hvip;
        let mut given = Posted { applied: posts.len(), refusal: None };
        for (applied, post) in posts.iter().enumerate() {
            let bit = bit(post.vector);
            if bit == 0 {
                given = Posted { applied, refusal: Some(Refusal::InvalidInput) };
                break;
            }
            hvip = levelled(hvip, bit, post.level);
        }
        vcpu.hvip = hvip;
        given
    }
}
