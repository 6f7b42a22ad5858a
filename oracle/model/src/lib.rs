//! Document 01's exit handler as a plain program, written from 01, the
//! requests of 02 that have landed (W1, W2, W4, W5), the recorded readings of
//! both and the ISA's instruction formats alone. It judges the published Rust
//! and the proved library; it shares no line with either.

#![forbid(unsafe_code)]

mod calls;
mod compressed;
mod decode;
mod ecall;
mod fault;
mod numbers;
mod posts;
pub mod replay;
mod trap;
mod types;
mod virtual_instruction;
mod words;

#[cfg(test)]
mod marked_cases;
#[cfg(test)]
mod replay_tests;
#[cfg(test)]
mod rule_tests;

pub use numbers::*;
pub use types::*;
