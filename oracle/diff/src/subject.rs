//! What is judged against the published Rust: anything that keeps 01's
//! record and takes 01's calls.

use model::{
    Answer, Ask, Call, FetchAnswer, GuestPhysAddr, GuestVirtAddr, Post, Posted, Reply, Trap, Vcpu,
};
use scripted::{digest, pattern, Fetched, Request, Script};

use crate::outcome::{Ending, Outcome};

pub trait Subject {
    fn name(&self) -> &'static str;

    /// Takes over a whole record.
    fn load(&mut self, record: &Vcpu);

    /// The whole record.
    fn record(&self) -> Vcpu;

    /// The whole record as words, also those that what waits doesn't carry.
    fn words(&self) -> [u64; 58];

    /// Makes one of 01's calls.
    fn call(&mut self, call: &Call) -> Reply;

    /// Makes one post by 01's call, the level as it is.
    fn post_one(&mut self, post: &Post) -> Reply;

    /// Posts a row by 02's call.
    fn post(&mut self, posts: &[Post]) -> Posted;

    /// The bytes to print of the lent buffer.
    fn to_print<'a>(&self, buffer: &'a [u8]) -> &'a [u8];
}

/// The plain program of documents 01 and 02.
pub struct Model(pub Vcpu);

impl Subject for Model {
    fn name(&self) -> &'static str {
        "model"
    }

    fn load(&mut self, record: &Vcpu) {
        self.0 = record.clone();
    }

    fn record(&self) -> Vcpu {
        self.0.clone()
    }

    fn words(&self) -> [u64; 58] {
        self.0.to_words()
    }

    fn call(&mut self, call: &Call) -> Reply {
        self.0.call(call)
    }

    fn post_one(&mut self, post: &Post) -> Reply {
        self.0.set_virtual_interrupt_pending(post.vector, post.level != 0)
    }

    fn post(&mut self, posts: &[Post]) -> Posted {
        self.0.post(posts)
    }

    fn to_print<'a>(&self, buffer: &'a [u8]) -> &'a [u8] {
        self.0.to_print(buffer)
    }
}

/// Runs one trap to its end, with the script's answers.
pub fn run_trap(subject: &mut dyn Subject, trap: &Trap, script: &Script) -> Outcome {
    let mut requests = Vec::new();
    let mut buffer = [0; 4096];
    let mut reply = subject.call(&Call::Start(*trap));
    while let Reply::Ask(ask) = reply {
        requests.push(request(subject, &ask, script, &mut buffer));
        // No trap asks more than three things.
        if requests.len() > 3 {
            break;
        }
        reply = subject.call(&Call::Answer(answer(&ask, script)));
    }
    Outcome { requests, ..Outcome::new(Ending::of(&reply), subject.record()) }
}

/// The ask as a request with its data; the host does its part of the copying.
fn request(subject: &dyn Subject, ask: &Ask, script: &Script, buffer: &mut [u8]) -> Request {
    match *ask {
        Ask::Fetch { at, supervisor } => Request::Fetch { at: at.0, supervisor },
        Ask::Mask { at } => Request::Mask { at: at.0, n: 8, supervisor: true },
        Ask::CopyIn { n, at } => {
            fill(buffer, n, script);
            Request::CopyIn { n, at: at.0 }
        }
        Ask::Print { n } => {
            let bytes = subject.to_print(buffer);
            Request::Print { n, digest: digest(bytes) }
        }
        Ask::Read { n } => {
            fill(buffer, n, script);
            Request::Read { n }
        }
        Ask::CopyOut { n, at } => {
            let bytes = buffer.get(..n as usize).unwrap_or(&[]);
            Request::CopyOut { n, at: at.0, digest: digest(bytes) }
        }
        Ask::Emit { number } => Request::Emit { number },
        Ask::GetChar => Request::GetChar,
        Ask::Forward { eid, fid, args } => Request::Forward { eid, fid, args },
    }
}

fn fill(buffer: &mut [u8], n: u64, script: &Script) {
    for (i, byte) in buffer.iter_mut().enumerate().take(n as usize) {
        *byte = pattern(script.fill, i);
    }
}

fn answer(ask: &Ask, script: &Script) -> Answer {
    match ask {
        Ask::Fetch { .. } => Answer::Fetch(match script.fetch {
            Fetched::Word(word) => FetchAnswer::Word(word),
            Fetched::Page(at) => FetchAnswer::Page(GuestVirtAddr(at)),
            Fetched::Access(at) => FetchAnswer::Access(GuestVirtAddr(at)),
            Fetched::Misaligned(at) => FetchAnswer::Misaligned(GuestVirtAddr(at)),
            Fetched::GuestPage(at) => FetchAnswer::GuestPage(GuestPhysAddr(at)),
            Fetched::Unhandled => FetchAnswer::Unhandled,
        }),
        Ask::Mask { .. } => Answer::Mask { count: script.mask.0, bytes: script.mask.1 },
        Ask::CopyIn { .. } => Answer::CopyIn { count: script.copy_in },
        Ask::Print { .. } => Answer::Print { error: script.print.0, value: script.print.1 },
        Ask::Read { .. } => Answer::Read { error: script.read.0, value: script.read.1 },
        Ask::CopyOut { .. } => Answer::CopyOut { count: script.copy_out },
        Ask::Emit { .. } => Answer::Emit,
        Ask::GetChar => Answer::GetChar { number: script.character },
        Ask::Forward { .. } => {
            Answer::Forward { error: script.forward.0, value: script.forward.1 }
        }
    }
}
