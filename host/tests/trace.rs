//! The fixed list of calls with every word written out: for each line the record before it, the call, what oracle/from01, a plain
//! Rust program of documents 01 and 02, returns, the words of `out`, and the record after it. tools/definitions.py holds the
//! definitions to it. No call is made on the library.
//!
//!     TRACE=FILE cargo test --test trace

mod common;

use common::*;
use std::fmt::Write;

const LIST: &str = concat!(env!("CARGO_MANIFEST_DIR"), "/../crates/test_call_list/data/list");

#[test]
fn the_list_written_out() {
    let mut text = String::new();
    let mut record: Record = [0; 58];
    for (i, line) in std::fs::read_to_string(LIST).unwrap().lines().enumerate() {
        let words: Vec<u64> = line.split(' ').map(|word| u64::from_str_radix(word, 16).unwrap()).collect();
        let [call @ .., code, sum] = &words[..] else { panic!("line {}", i + 1) };
        let call: Call = call.try_into().unwrap();
        if call[0] == 0 {
            record[call[1] as usize] = call[2];
            continue;
        }
        let mut after = record;
        let reply = by_from01(&mut after, &call);
        assert_eq!((reply.code, sum_given(0, &after, &reply)), (*code, *sum), "line {}: {call:x?}", i + 1);
        for word in record.iter().chain(&call).chain([&reply.code]).chain(&reply.out).chain(&after) {
            write!(text, "{word:x} ").unwrap();
        }
        text.push('\n');
        record = after;
    }
    if let Some(file) = std::env::var_os("TRACE") {
        std::fs::write(file, &text).unwrap();
    }
}
