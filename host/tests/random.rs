//! Random calls in random order (out of turn, wrong answers, bad arguments, arbitrary words in the record) on the library and on
//! the safe interface, each held against oracle/from01, a plain Rust program of documents 01 and 02: the reply and all 58 words.
//!
//! CALLS and SEED change how many and which; tools/million runs a million.

mod common;

use common::*;
use std::collections::BTreeMap;

fn setting(name: &str, otherwise: u64) -> u64 {
    match std::env::var(name) {
        Ok(number) => number.parse().unwrap_or_else(|_| panic!("{name} is a number")),
        Err(_) => otherwise,
    }
}

#[test]
fn random_calls_give_what_document_01_says() {
    let (calls, seed) = (setting("CALLS", 20_000), setting("SEED", 1));
    assert!(calls > 0, "CALLS is 0: nothing would be compared");
    let mut r = Random(seed);
    let mut record: Record = [0; 58];
    let (mut sum, mut alike, mut reached) = (0, 0, BTreeMap::new());
    for i in 0..calls {
        let call = next_call(&mut r, &mut record);
        let before = record;
        let mut after = before;
        let expected = by_from01(&mut after, &call);
        let reply = by_library(&mut record, &call, 99);
        assert_eq!(reply, expected, "call {i}, {call:x?} on {before:x?}");
        assert_eq!(record, after, "call {i}, {call:x?} on {before:x?}");
        *reached.entry((call[0], reply.code)).or_insert(0u64) += 1;

        // What `out` held before makes no difference; and the safe interface gives the same.
        let mut again = before;
        assert_eq!(by_library(&mut again, &call, 0), expected, "call {i}, {call:x?}");
        assert_eq!(again, after, "call {i}, {call:x?}");
        let mut vcpu = curbizzolu::Vcpu::from_words(before);
        if let Some(reply) = by_interface(&mut vcpu, &call) {
            assert_eq!(reply, expected, "call {i} of the interface, {call:x?} on {before:x?}");
            assert_eq!(vcpu.to_words(), after, "call {i} of the interface, {call:x?}");
            alike += 1;
        }
        // A refusal and a read change no word, nor does a row whose first post is refused.
        if [0x41, 0x101, 0x102, 0x107].contains(&reply.code) && (call[0] != 15 || reply.out[0] == 0) {
            assert_eq!(record, before, "call {i}, {call:x?}");
        }
        sum = sum_call(sum, &record, &reply);
    }
    println!("seed {seed}: {calls} calls, sum {sum:016x}");
    println!("{alike} of them through the interface too");
    // The C run ends in the same sum, on every processor.
    let (stored, run) = (include_str!("../c/sums"), format!("seed {seed}: {calls} calls, "));
    if let Some(line) = stored.lines().find(|line| line.starts_with(&run)) {
        assert_eq!(line, format!("{run}sum {sum:016x}"), "host/c/sums");
    }
    if calls >= 20_000 {
        let gives = |code: u64| reached.keys().any(|(_, given)| *given == code);
        let all = (0..=10).chain(0x21..=0x29).chain([0x40, 0x41]).chain(0x101..=0x107);
        let missing: Vec<u64> = all.filter(|code| !gives(*code)).collect();
        assert!(missing.is_empty(), "not reached: {missing:x?}");
        let kinds: Vec<u64> = (1..=15).filter(|kind| !reached.keys().any(|(made, _)| made == kind)).collect();
        assert!(kinds.is_empty(), "calls not made: {kinds:?}");
    }
}
