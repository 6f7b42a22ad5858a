//! The host and the hart that every stand-in talks to: live CSRs, scripted
//! answers, the list of requests, and the event counts. One for each thread.

mod console;
mod hart;
mod host;

pub use console::{digest, pattern};
pub use hart::{live, with_live, Live};
pub use host::*;
