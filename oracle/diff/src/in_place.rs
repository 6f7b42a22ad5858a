//! The proved library by the exported functions of crates in_place_*: a record of
//! words that is changed where it lies, and a word for what a call came to.

use model::{Call, Post, Posted, Reply, Vcpu};

use crate::record_words::*;
use crate::subject::Subject;

type Out = [u64; 8];

extern "C" {
    fn vcpu_start(record: *mut Words, trap: *const [u64; 5], out: *mut Out) -> u64;
    fn vcpu_answer(record: *mut Words, answer: *const [u64; 3], out: *mut Out) -> u64;
    fn vcpu_complete_load(record: *mut Words, number: u64) -> u64;
    fn vcpu_setup(record: *mut Words) -> u64;
    fn vcpu_set_entry(record: *mut Words, entry: u64) -> u64;
    fn vcpu_get_gpr(record: *mut Words, index: u64, out: *mut Out) -> u64;
    fn vcpu_set_gpr(record: *mut Words, index: u64, value: u64) -> u64;
    fn vcpu_set_return_value(record: *mut Words, value: u64) -> u64;
    fn vcpu_set_nested_page_table(record: *mut Words, levels: u64, mode: u64, root: u64) -> u64;
    fn vcpu_set_pending(record: *mut Words, vector: u64, level: u64) -> u64;
    fn vcpu_post_row(record: *mut Words, posts: *const Post, count: usize) -> PostedWords;
    fn vcpu_latch_hvip(record: *mut Words, bits: u64) -> u64;
    fn vcpu_complete_ipi(record: *mut Words, abi: u64, completion: u64) -> u64;
    fn vcpu_to_print(record: *const Words, length: u64) -> u64;
    fn vcpu_new(record: *mut Words, hart_id: u64, dtb_addr: u64) -> u64;
}

/// A call by words, on a record by words: its exported function by its kind,
/// 1 to 14.
pub fn call_words(record: &mut Words, kind: u64, [a, b, c, d, e]: [u64; 5]) -> ReplyWords {
    let mut out = [LENT; 8];
    // The sizes are those that the functions take, and all of it lives for
    // the call.
    let code = unsafe {
        match kind {
            3 => vcpu_get_gpr(record, a, &mut out),
            10 => vcpu_start(record, &[a, b, c, d, e], &mut out),
            11 => vcpu_answer(record, &[a, b, c], &mut out),
            _ => {
                // These have no words for their reply.
                out = [0; 8];
                match kind {
                    1 => vcpu_setup(record),
                    2 => vcpu_set_entry(record, a),
                    4 => vcpu_set_gpr(record, a, b),
                    5 => vcpu_set_return_value(record, a),
                    6 => vcpu_set_nested_page_table(record, a, b, c),
                    7 => vcpu_set_pending(record, a, b),
                    8 => vcpu_latch_hvip(record, a),
                    9 => vcpu_complete_ipi(record, a, b),
                    12 => vcpu_complete_load(record, a),
                    13 => {
                        out[0] = vcpu_to_print(record, a);
                        0x41
                    }
                    14 => vcpu_new(record, a, b),
                    _ => unreachable!("no exported function has kind {kind}"),
                }
            }
        }
    };
    let (kind, number) = match code {
        0..=10 => (0, code),
        0x21..=0x29 => (1, code - 0x20),
        0x40 => (2, 0),
        0x41 => (3, 0),
        0x101..=0x107 => (4, code - 0x100),
        _ => stray("reply", &[code]),
    };
    // A hypercall's arguments stand from the third word on.
    match code {
        6 => ReplyWords {
            kind,
            number,
            values: [out[0], out[1], 0, 0, 0, 0, 0, 0],
            args: std::array::from_fn(|i| out[2 + i]),
        },
        _ => ReplyWords { kind, number, values: out, args: [0; 6] },
    }
}

/// A row of posts, on a record by words.
pub fn post_words(record: &mut Words, posts: &[Post]) -> PostedWords {
    // A post is repr(C), the count is the row's, and both live for the call.
    unsafe { vcpu_post_row(record, posts.as_ptr(), posts.len()) }
}

pub struct InPlace(pub Words);

impl Subject for InPlace {
    fn name(&self) -> &'static str {
        "in-place"
    }

    fn load(&mut self, record: &Vcpu) {
        self.0 = record.to_words();
    }

    fn record(&self) -> Vcpu {
        record_of(&self.0)
    }

    fn words(&self) -> Words {
        self.0
    }

    fn call(&mut self, call: &Call) -> Reply {
        let (kind, numbers) = words_of_call(call);
        reply_of(&call_words(&mut self.0, kind, numbers))
    }

    fn post_one(&mut self, post: &Post) -> Reply {
        reply_of(&call_words(&mut self.0, 7, [post.vector, post.level, 0, 0, 0]))
    }

    fn post(&mut self, posts: &[Post]) -> Posted {
        posted_of(&post_words(&mut self.0, posts))
    }

    fn to_print<'a>(&self, buffer: &'a [u8]) -> &'a [u8] {
        // The record is 58 words and is only read.
        let n = unsafe { vcpu_to_print(&self.0, buffer.len() as u64) };
        match buffer.get(..n as usize) {
            Some(bytes) => bytes,
            None => stray("part to print", &[n]),
        }
    }
}
