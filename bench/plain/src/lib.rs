//! The exit handler as a Rust programmer would write it, with no proof: the yardsticks of the bench. It has the record and the asks
//! of document 01 and does what the proved library does.
//!
//! There are two, of one text: `First` is as one would first write it, `Straight` has no branch that an instruction's registers,
//! funct3 or length decide. Each has two faces: `enums` takes `&mut Vcpu` and returns its enum; `words` stands behind the proved
//! library's boundary, numbers and pointers in, words out. The text is inlined whole into each of the four, so that each is compiled
//! for its own callers alone; their calls are not inlined into the caller, as calls into another library are not.
//!
//! `posts` has a post and a row of posts of either, with `&mut Vcpu`.
//!
//! The program plain-replay is the yardstick of replay: a reader of captures around `Straight`, inlined whole, with the digits of `hex`.

pub mod enums;
mod first;
mod forms;
mod handler;
pub mod hex;
pub mod posts;
mod straight;
mod types;
pub mod words;

pub use first::First;
pub use forms::Forms;
pub use handler::Vcpu;
pub use straight::Straight;
pub use types::*;
