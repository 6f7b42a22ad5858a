//! The static library's functions. Numbers and pointers alone cross this boundary, and one result of two numbers.

use crate::Post;

/// The record: x0 to x31, 13 CSRs, 9 event counts, 4 words for what waits.
pub const RECORD: usize = 58;

/// A call that is done and gives nothing.
pub const DONE: u64 = 0x40;
/// A register's content, in the first word of `out`.
pub const VALUE: u64 = 0x41;
/// An ask's number is added to this.
pub const ASK: u64 = 0x20;
/// An error's or a refusal's number is added to this.
pub const ERROR: u64 = 0x100;

pub type Record = [u64; RECORD];
pub type Words = [u64; 8];

/// Lent for a reply. The library clears these words in pairs, and a pair that lies across two pages costs more than the call.
#[repr(C, align(16))]
pub struct Out(pub Words);

/// What a row of posts gives: how many were applied, and the number of the refusal that stopped it, or 0.
#[repr(C)]
pub struct PostedWords {
    pub applied: u64,
    pub refusal: u64,
}

extern "C" {
    pub fn vcpu_new(record: *mut Record, hart_id: u64, dtb_addr: u64) -> u64;
    pub fn vcpu_setup(record: *mut Record) -> u64;
    pub fn vcpu_set_entry(record: *mut Record, entry: u64) -> u64;
    pub fn vcpu_get_gpr(record: *const Record, index: u64, out: *mut Out) -> u64;
    pub fn vcpu_set_gpr(record: *mut Record, index: u64, value: u64) -> u64;
    pub fn vcpu_set_return_value(record: *mut Record, value: u64) -> u64;
    pub fn vcpu_set_nested_page_table(record: *mut Record, levels: u64, mode: u64, root: u64) -> u64;
    pub fn vcpu_set_pending(record: *mut Record, vector: u64, level: u64) -> u64;
    pub fn vcpu_post_row(record: *mut Record, posts: *const Post, count: usize) -> PostedWords;
    pub fn vcpu_latch_hvip(record: *mut Record, bits: u64) -> u64;
    pub fn vcpu_complete_ipi(record: *mut Record, abi: u64, completion: u64) -> u64;
    pub fn vcpu_start(record: *mut Record, trap: *const [u64; 5], out: *mut Out) -> u64;
    pub fn vcpu_answer(record: *mut Record, answer: *const [u64; 3], out: *mut Out) -> u64;
    pub fn vcpu_complete_load(record: *mut Record, number: u64) -> u64;
    pub fn vcpu_to_print(record: *const Record, length: u64) -> u64;
}
