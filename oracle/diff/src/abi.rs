//! The proved library by crate words_entry's exported functions over words: one for
//! 01's calls, one for 02's row of posts.

use model::{Call, Post, Posted, Reply, Vcpu};

use crate::record_words::*;
use crate::subject::Subject;

extern "C" {
    /// `vcpu_call` with the call and the reply by address; tools/archive adds
    /// it, since a struct by value is passed otherwise on each processor. The
    /// call is a kind and five numbers.
    fn vcpu_call_at(reply: *mut ReplyWords, record: *mut Words, call: *const [u64; 6]);
    /// Two words by value come back as C has them, on each processor.
    fn vcpu_call_posts(record: *mut Words, posts: *const Post, count: usize) -> PostedWords;
}

/// A call by words, on a record by words.
pub fn call_words(record: &mut Words, kind: u64, [a, b, c, d, e]: [u64; 5]) -> ReplyWords {
    let mut reply =
        ReplyWords { kind: LENT, number: LENT, values: [LENT; 8], args: [LENT; 6] };
    // The sizes are those of the crate's repr(C) structs, and all three live
    // for the call.
    unsafe { vcpu_call_at(&mut reply, record, &[kind, a, b, c, d, e]) };
    reply
}

/// A row of posts, on a record by words.
pub fn post_words(record: &mut Words, posts: &[Post]) -> PostedWords {
    // A post is repr(C), the count is the row's, and both live for the call.
    unsafe { vcpu_call_posts(record, posts.as_ptr(), posts.len()) }
}

pub struct Abi(pub Words);

impl Subject for Abi {
    fn name(&self) -> &'static str {
        "abi"
    }

    fn load(&mut self, record: &Vcpu) {
        self.0 = record.to_words();
    }

    fn record(&self) -> Vcpu {
        record_of(&self.0)
    }

    fn words(&self) -> Words {
        self.0
    }

    fn call(&mut self, call: &Call) -> Reply {
        let (kind, numbers) = words_of_call(call);
        let words = call_words(&mut self.0, kind, numbers);
        reply_of(&words)
    }

    fn post_one(&mut self, post: &Post) -> Reply {
        reply_of(&call_words(&mut self.0, 7, [post.vector, post.level, 0, 0, 0]))
    }

    fn post(&mut self, posts: &[Post]) -> Posted {
        posted_of(&post_words(&mut self.0, posts))
    }

    fn to_print<'a>(&self, buffer: &'a [u8]) -> &'a [u8] {
        let mut words = self.0;
        let reply = call_words(&mut words, 13, [buffer.len() as u64, 0, 0, 0, 0]);
        match reply_of(&reply) {
            Reply::Value(n) if n <= buffer.len() as u64 && words == self.0 => {
                &buffer[..n as usize]
            }
            _ => stray("part to print", &reply.values),
        }
    }
}
