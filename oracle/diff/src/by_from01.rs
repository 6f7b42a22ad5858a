//! A trap that fetches its word, by from01.

use model::Waiting;
use scripted::Fetched;

use crate::compare::Pair;
use crate::input::Input;
use crate::outcome::*;

/// What from01 comes to: the ending with its numbers, and the record's words.
fn by_from01(input: &Input) -> (Ending, [u64; 58]) {
    let mut words = input.record.to_words();
    let trap = &input.trap;
    from01::call(&mut words, 10, [trap.scause, trap.stval, trap.htval, trap.htinst, trap.room]);
    let (word, more) = match input.script.fetch {
        Fetched::Word(word) => (word as u64, 0),
        Fetched::Page(at) => (at, 1),
        Fetched::Access(at) => (at, 2),
        Fetched::Misaligned(at) => (at, 3),
        Fetched::GuestPage(at) => (at, 4),
        Fetched::Unhandled => (0, 5),
    };
    let reply = from01::call(&mut words, 11, [1, word, more, 0, 0]);
    let ending = match reply.kind {
        0 => Ending::new(reply.number, &reply.values[..7]),
        4 => Ending::error(reply.number),
        kind => unreachable!("a trap's end is no reply of kind {kind}"),
    };
    (ending, words)
}

/// Whether from01 ends as the subject did, with the same record.
pub fn same_as_from01(input: &Input, pair: &Pair) -> bool {
    let (ending, words) = by_from01(input);
    let due = pair.subject.record.to_words();
    // What is left beside a kind that carries nothing is nobody's.
    let carried = if pair.subject.record.waiting == Waiting::Nothing { 55 } else { 58 };
    pair.subject.ending == ending && words[..carried] == due[..carried]
}
