//! Every handler that takes posts, behind one trait: one post in a call, and a row in a call.

use crate::record::{from_words, to_words, ReplyWords};
use crate::traps::Record;
use curbizzolu::Post;
use plain::posts::Posts;
use plain::{Waiting, Width};
use std::marker::PhantomData;
use std::mem::{offset_of, size_of, MaybeUninit};

/// How many posts were applied, and the number of the refusal that stopped them, or 0.
pub type Given = (u64, u64);

#[repr(C)]
struct PostedWords {
    applied: u64,
    refusal: u64,
}

extern "C" {
    fn vcpu_set_pending(record: *mut Record, vector: u64, level: u64) -> u64;
    fn vcpu_post_row(record: *mut Record, posts: *const Post, count: usize) -> PostedWords;
    fn vcpu_call_at(reply: *mut ReplyWords, record: *mut Record, call: *const [u64; 6]);
    fn vcpu_call_posts(record: *mut Record, posts: *const Post, count: usize) -> PostedWords;
}

pub trait Poster {
    fn new(record: &Record) -> Self;
    /// One post in a call: done, or the number of its refusal.
    fn one(&mut self, post: &Post) -> Result<(), u64>;
    /// A row in a call.
    fn row(&mut self, posts: &[Post]) -> Given;
    /// The record as the library's words.
    fn record(&self) -> Record;

    /// A row by single calls, as a host without the row would post it.
    #[inline(always)]
    fn ones(&mut self, posts: &[Post]) -> Given {
        for (applied, post) in posts.iter().enumerate() {
            if let Err(refusal) = self.one(post) {
                return (applied as u64, refusal);
            }
        }
        (posts.len() as u64, 0)
    }
}

/// The entry that hosts are told to call.
pub struct InPlace(Record);

impl Poster for InPlace {
    fn new(record: &Record) -> Self {
        InPlace(*record)
    }
    #[inline(always)]
    fn one(&mut self, post: &Post) -> Result<(), u64> {
        // SAFETY: our own words.
        match unsafe { vcpu_set_pending(&mut self.0, post.vector, post.level) } {
            0x40 => Ok(()),
            code => Err(code.wrapping_sub(0x100)),
        }
    }
    #[inline(always)]
    fn row(&mut self, posts: &[Post]) -> Given {
        // SAFETY: our own words, which do not overlap, and the row's own count.
        let given = unsafe { vcpu_post_row(&mut self.0, posts.as_ptr(), posts.len()) };
        (given.applied, given.refusal)
    }
    fn record(&self) -> Record {
        self.0
    }
}

/// The same through the host's Rust interface.
pub struct Interface(curbizzolu::Vcpu);

impl Poster for Interface {
    fn new(record: &Record) -> Self {
        Interface(curbizzolu::Vcpu::from_words(*record))
    }
    #[inline(always)]
    fn one(&mut self, post: &Post) -> Result<(), u64> {
        self.0.set_virtual_interrupt_pending(post.vector, post.level != 0).map_err(|refusal| refusal.number())
    }
    #[inline(always)]
    fn row(&mut self, posts: &[Post]) -> Given {
        let given = self.0.post(posts);
        (given.applied as u64, given.refusal.map_or(0, |refusal| refusal.number()))
    }
    fn record(&self) -> Record {
        self.0.to_words()
    }
}

/// The entry over words: a single call goes by value, a row does not.
pub struct Thin(Record);

impl Poster for Thin {
    fn new(record: &Record) -> Self {
        Thin(*record)
    }
    #[inline(always)]
    fn one(&mut self, post: &Post) -> Result<(), u64> {
        let mut reply = MaybeUninit::uninit();
        // SAFETY: our own words; the library writes the whole reply.
        let reply: ReplyWords = unsafe {
            vcpu_call_at(reply.as_mut_ptr(), &mut self.0, &[7, post.vector, post.level, 0, 0, 0]);
            reply.assume_init()
        };
        // done, or an error
        match reply.kind {
            2 => Ok(()),
            _ => Err(reply.number),
        }
    }
    #[inline(always)]
    fn row(&mut self, posts: &[Post]) -> Given {
        // SAFETY: as in place.
        let given = unsafe { vcpu_call_posts(&mut self.0, posts.as_ptr(), posts.len()) };
        (given.applied, given.refusal)
    }
    fn record(&self) -> Record {
        self.0
    }
}

/// What may wait, as the library's words and in plain Rust: nothing, a load, and each ask.
pub const WAITS: [([u64; 4], Waiting); 13] = [
    ([0, 0, 0, 0], Waiting::Idle),
    ([1, 7, 4, 1], Waiting::Load { rd: 7, width: Width::Word, signed: true }),
    ([2, 0, 0, 0], Waiting::FetchCsr),
    ([3, 0x1000, 2, 0], Waiting::FetchFault { at: 0x1000, write: true }),
    ([4, 0, 0, 0], Waiting::CopyMask),
    ([5, 16, 0, 0], Waiting::CopyIn { count: 16 }),
    ([6, 16, 0, 0], Waiting::Print { count: 16 }),
    ([7, 16, 0x1000, 0], Waiting::ReadConsole { count: 16, at: 0x1000 }),
    ([8, 16, 0, 0], Waiting::CopyOut { count: 16 }),
    ([9, 0, 0, 0], Waiting::PutChar),
    ([10, 0, 0, 0], Waiting::PutByte),
    ([11, 0, 0, 0], Waiting::GetChar),
    ([12, 0, 0, 0], Waiting::Forward),
];

/// Plain Rust. Its posts lie as the library's do, so that all handlers read the same memory.
pub struct Plain<F>(plain::Vcpu, PhantomData<F>);

const _: () = assert!(size_of::<Post>() == size_of::<plain::posts::Post>());
const _: () = assert!(offset_of!(Post, vector) == offset_of!(plain::posts::Post, vector));
const _: () = assert!(offset_of!(Post, level) == offset_of!(plain::posts::Post, level));

impl<F: Posts> Poster for Plain<F> {
    fn new(record: &Record) -> Self {
        let mut vcpu = from_words(record);
        vcpu.waiting = WAITS[record[54] as usize].1;
        Plain(vcpu, PhantomData)
    }
    #[inline(always)]
    fn one(&mut self, post: &Post) -> Result<(), u64> {
        F::post(&mut self.0, plain::posts::Post { vector: post.vector, level: post.level }).map_err(|refusal| refusal as u64)
    }
    #[inline(always)]
    fn row(&mut self, posts: &[Post]) -> Given {
        // SAFETY: the two are laid out alike, as is asserted above, and any words are posts.
        let posts = unsafe { std::slice::from_raw_parts(posts.as_ptr().cast(), posts.len()) };
        let given = F::post_row(&mut self.0, posts);
        (given.applied as u64, given.refusal.map_or(0, |refusal| refusal as u64))
    }
    fn record(&self) -> Record {
        let mut record = to_words(&self.0);
        let waiting = WAITS.iter().find(|(_, waiting)| *waiting == self.0.waiting).expect("a post changed what waits");
        record[54..].copy_from_slice(&waiting.0);
        record
    }
}

pub const NAMES: [&str; 5] = ["in-place", "interface", "thin", "straight", "first"];
