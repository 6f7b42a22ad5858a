//! A reply's words as a [`Step`], and an answer as words.
//!
//! [`Exit`] and [`Ask`] lie in memory as a reply does: a number, then the words that it carries. So a reply is taken as it lies. To
//! make each case by hand takes a jump by the number, and the caller's own match is then a second one.

use crate::library::{PostedWords, Words, ASK, DONE, ERROR};
use crate::types::*;
use core::mem::transmute;

/// `Ask::Fetch` has a test in the first byte of its word.
const _: () = assert!(cfg!(target_endian = "little"));

/// What a trap's start or an answer gave.
#[inline(always)]
pub fn step(code: u64, out: &Words) -> Result<Step, Error> {
    debug_assert!(promised(code, out), "{}", Unknown(code));
    if code <= 10 {
        Ok(Step::Exit(exit(code, out)))
    } else if code < ERROR {
        Ok(Step::Ask(ask(code, out)))
    } else {
        Err(error(code))
    }
}

#[inline(always)]
fn exit(number: u64, out: &Words) -> Exit {
    // its arguments stand behind a word that is 0
    if number == 6 {
        return Exit::Hypercall { nr: out[0], args: [out[2], out[3], out[4], out[5], out[6], out[7]] };
    }
    // SAFETY: `Exit` is its number and then its fields, and no case but the one above has more than three. A number up to 10 is one of
    // its cases. The library is proved to give the words of that exit (crates/scope/specs/ReplyWords.antt), so a width is 1, 2, 4 or 8,
    // an access 1, 2 or 4, and a calling convention 0 or 1, as the types have them.
    unsafe { transmute([number, out[0], out[1], out[2], 0, 0, 0, 0]) }
}

#[inline(always)]
fn ask(code: u64, out: &Words) -> Ask {
    let number = code.wrapping_sub(ASK);
    if !(1..=9).contains(&number) {
        unknown(code)
    }
    // SAFETY: likewise; a number from 1 to 9 is one of its cases, and the one test among its fields is 0 or 1.
    unsafe { transmute([number, out[0], out[1], out[2], out[3], out[4], out[5], out[6], out[7]]) }
}

/// Whether each word that is a case's number in a type is one of them. The library promises it; builds that check themselves ask.
fn promised(code: u64, out: &Words) -> bool {
    match code {
        2 => out[2] <= 1,
        8 => matches!(out[1], 1 | 2 | 4),
        9 | 10 => matches!(out[1], 1 | 2 | 4 | 8),
        0x21 => out[1] <= 1,
        _ => true,
    }
}

/// The words of an answer.
#[inline(always)]
pub fn answer_words(answer: &Answer) -> [u64; 3] {
    let (a, b) = match *answer {
        Answer::Fetched(Fetch::Word(word)) => (word as u64, 0),
        Answer::Fetched(Fetch::Page(at)) => (at.0, 1),
        Answer::Fetched(Fetch::Access(at)) => (at.0, 2),
        Answer::Fetched(Fetch::Misaligned(at)) => (at.0, 3),
        Answer::Fetched(Fetch::GuestPage(at)) => (at.0, 4),
        Answer::Fetched(Fetch::Unhandled) => (0, 5),
        Answer::MaskCopied { count, bytes } => (count, bytes),
        Answer::CopiedIn { count } => (count, 0),
        Answer::Printed { error, value } => (error, value),
        Answer::ConsoleRead { error, value } => (error, value),
        Answer::CopiedOut { count } => (count, 0),
        Answer::Emitted => (0, 0),
        Answer::Char { number } => (number, 0),
        Answer::Forwarded { error, value } => (error, value),
    };
    [answer.number(), a, b]
}

/// What a call that gives nothing gave.
#[inline]
pub fn done(code: u64) -> Result<(), Refusal> {
    match code {
        DONE => Ok(()),
        _ => Err(refusal(code)),
    }
}

/// What a row of posts gave.
#[inline]
pub fn posted(words: PostedWords) -> Posted {
    let refusal = match words.refusal {
        0 => None,
        number => Some(refusal(number.wrapping_add(ERROR))),
    };
    Posted { applied: words.applied as usize, refusal }
}

#[inline]
pub fn refusal(code: u64) -> Refusal {
    match code.wrapping_sub(ERROR) {
        1 => Refusal::InvalidInput,
        2 => Refusal::BadState,
        7 => Refusal::WrongAnswer,
        _ => unknown(code),
    }
}

#[cold]
fn error(code: u64) -> Error {
    match code.wrapping_sub(ERROR) {
        3 => Error::Trap(TrapError::Unsupported),
        4 => Error::Trap(TrapError::InvalidTrap),
        5 => Error::Trap(TrapError::DecodeFailed),
        6 => Error::Trap(TrapError::GuestMemoryFault),
        _ => Error::Refused(refusal(code)),
    }
}

/// The library's promises name no other number, so the archive that was linked is not the one that this crate is for.
#[cold]
#[inline(never)]
fn unknown(code: u64) -> ! {
    panic!("{}", Unknown(code))
}

struct Unknown(u64);

impl core::fmt::Display for Unknown {
    fn fmt(&self, f: &mut core::fmt::Formatter<'_>) -> core::fmt::Result {
        write!(f, "the linked libin_place.a gave {:#x} with words that no call gives", self.0)
    }
}
