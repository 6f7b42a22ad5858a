//! W4: closed cases and the wrong answers that they shut out; then rows of
//! posts against the call for one post, against a rule that looks at each bit
//! of hvip alone, and with what W4 says stays.

use crate::record::*;
use crate::reply::done;
use crate::tests::{changed, each_bit, filled, with, TOP};
use crate::{call, post, Post, Posted};

const SOFTWARE: u64 = TOP + 1;
const TIMER: u64 = TOP + 5;
const EXTERNAL: u64 = 9;
const EXTERNAL_TOP: u64 = TOP + 9;

/// The vectors allowed, each with its bit of hvip as a number.
const ALLOWED: [(u64, u64); 4] = [
    (SOFTWARE, 0x4),
    (TIMER, 0x40),
    (EXTERNAL, 0x400),
    (EXTERNAL_TOP, 0x400),
];

/// The three bits.
const POSTED: u64 = 0x444;

/// 0 clears, any other sets, wherever its bits are.
const LEVELS: [u64; 8] = [0, 1, 2, 1 << 8, 1 << 31, 1 << 32, TOP, u64::MAX];

/// No bit, the three, all others, all; then one of the three alone or missing.
const HVIPS: [u64; 7] = [0, POSTED, !POSTED, u64::MAX, 0x4, !0x40, 0x400];

const LONG: usize = 100_000;

/// A row of posts in one call, or what is held against it.
type Row = fn(&mut [u64; 58], &[Post]) -> Posted;

fn posted(applied: u64, refusal: u64) -> Posted {
    Posted { applied, refusal }
}

/// Posts the row and compares the reply and the whole later record: the
/// earlier one with this hvip.
#[track_caller]
fn check(base: [u64; 58], row: &[Post], reply: Posted, hvip: u64) {
    let mut w = base;
    assert_eq!(post(&mut w, row), reply);
    assert_eq!(w, changed(base, &[(HVIP, hvip)]));
}

/// "posting them one by one in order" (W4), until the first is refused.
fn one_by_one(words: &mut [u64; 58], row: &[Post]) -> Posted {
    let mut applied = 0;
    for &[vector, level] in row {
        let reply = call(words, 7, [vector, level, 0, 0, 0]);
        if reply.kind == 4 {
            return posted(applied, reply.number);
        }
        assert_eq!(reply, done());
        applied += 1;
    }
    posted(applied, 0)
}

/// The same with no ask waiting, bit by bit: of the posts before the first
/// vector that is not allowed, the last that names a bit decides it.
fn bit_by_bit(words: &mut [u64; 58], row: &[Post]) -> Posted {
    let good = |vector| ALLOWED.iter().any(|(allowed, _)| *allowed == vector);
    let stop = row.iter().position(|[vector, _]| !good(*vector));
    let taken = &row[..stop.unwrap_or(row.len())];
    for (vectors, bit) in [
        (&[SOFTWARE][..], 1 << 2),
        (&[TIMER], 1 << 6),
        (&[EXTERNAL, EXTERNAL_TOP], 1 << 10),
    ] {
        match taken.iter().rfind(|[vector, _]| vectors.contains(vector)) {
            None => {}
            Some([_, 0]) => words[HVIP] &= !bit,
            Some(_) => words[HVIP] |= bit,
        }
    }
    posted(taken.len() as u64, stop.is_some() as u64)
}

/// Posts the row and compares it with the two rules above, in the reply and in
/// every word. No ask may wait.
#[track_caller]
fn agree(base: [u64; 58], row: &[Post]) -> Posted {
    let (mut w, mut one, mut bit) = (base, base, base);
    let reply = post(&mut w, row);
    assert_eq!(reply, one_by_one(&mut one, row));
    assert_eq!(reply, bit_by_bit(&mut bit, row));
    assert_eq!(w, one);
    assert_eq!(w, bit);
    reply
}

/// xorshift.
struct Random(u64);

impl Random {
    fn next(&mut self) -> u64 {
        self.0 ^= self.0 << 13;
        self.0 ^= self.0 >> 7;
        self.0 ^= self.0 << 17;
        self.0
    }

    fn pick<T: Copy>(&mut self, from: &[T]) -> T {
        from[(self.next() >> 11) as usize % from.len()]
    }

    /// Vectors that are allowed, with any levels, as many 0 as not.
    fn row(&mut self, length: usize) -> Vec<Post> {
        let mut one = || {
            let level = match self.next() >> 63 {
                0 => 0,
                _ => self.pick(&LEVELS[1..]),
            };
            [self.pick(&ALLOWED).0, level]
        };
        (0..length).map(|_| one()).collect()
    }
}

/// Vectors that are not allowed: the neighbours of each that is, and each with
/// one other bit, by itself and with bit 63 turned; small numbers, with bit 63
/// and without, the bits' own numbers among them; the bits of hvip.
fn bad_vectors() -> Vec<u64> {
    let near = ALLOWED.iter().flat_map(|(vector, _)| {
        let one_bit = (0..64).map(move |bit| vector ^ (1 << bit));
        one_bit.chain([vector - 1, vector + 1])
    });
    let mut bad: Vec<u64> = near
        .chain(0..=64)
        .chain([0x40, 0x400, POSTED, TOP - 1, TOP / 2 + 9, 9 << 32])
        .flat_map(|vector| [vector, vector ^ TOP])
        .filter(|vector| ![9, TOP + 1, TOP + 5, TOP + 9].contains(vector))
        .collect();
    bad.sort();
    bad.dedup();
    bad
}

// Closed cases

/// What waits, hvip and the row; then applied, the refusal and the later hvip.
type Case = (u64, u64, &'static [Post], (u64, u64, u64));

const CASES: [Case; 24] = [
    // 0: an empty row applies 0.
    (0, 0x40, &[], (0, 0, 0x40)),
    // 1 to 4: one post, set and cleared.
    (0, 0, &[[EXTERNAL, 1]], (1, 0, 0x400)),
    (0, 0x444, &[[EXTERNAL_TOP, 0]], (1, 0, 0x44)),
    (0, 0x3, &[[SOFTWARE, 2]], (1, 0, 0x7)),
    (0, u64::MAX, &[[TIMER, 0]], (1, 0, !0x40)),
    // 5 and 6: in order, so the last one to name a bit decides it.
    (0, 0, &[[TIMER, 1], [TIMER, 0]], (2, 0, 0)),
    (0, 0, &[[TIMER, 0], [TIMER, 1]], (2, 0, 0x40)),
    // 7 and 8: different bits; 9 and 2^63+9 are one bit.
    (0, 0, &[[SOFTWARE, 1], [TIMER, 1]], (2, 0, 0x44)),
    (0, 0, &[[EXTERNAL, 1], [EXTERNAL_TOP, 0]], (2, 0, 0)),
    // 9 to 12: a refused post, in the middle, first, last, alone.
    (0, 0, &[[EXTERNAL, 1], [7, 1], [TIMER, 1]], (1, 1, 0x400)),
    (0, 0, &[[7, 1], [TIMER, 1]], (0, 1, 0)),
    (0, 0, &[[TIMER, 1], [7, 1]], (1, 1, 0x40)),
    (0, 0x444, &[[7, 0]], (0, 1, 0x444)),
    // 13: what the refused post and those behind it would clear stays.
    (
        0,
        0x444,
        &[[TIMER, 0], [5, 0], [SOFTWARE, 0]],
        (1, 1, 0x404),
    ),
    // 14: a second one behind it.
    (
        0,
        0,
        &[[TIMER, 1], [7, 1], [SOFTWARE, 1], [8, 1]],
        (1, 1, 0x40),
    ),
    // 15 to 19: an ask waits: an empty row, a good one, a bad one, one that
    // would change nothing.
    (12, 0x40, &[], (0, 2, 0x40)),
    (2, 0, &[[EXTERNAL, 1]], (0, 2, 0)),
    (12, 0, &[[7, 1]], (0, 2, 0)),
    (5, 0, &[[EXTERNAL, 1], [7, 1]], (0, 2, 0)),
    (6, 0x400, &[[EXTERNAL, 1]], (0, 2, 0x400)),
    // 20 and 21: a waiting load refuses nothing.
    (1, 0, &[], (0, 0, 0)),
    (1, 0, &[[TIMER, 1], [SOFTWARE, 1]], (2, 0, 0x44)),
    // 22: an unknown kind is nothing waiting.
    (13, 0, &[[TIMER, 1]], (1, 0, 0x40)),
    // 23: 1 and 5 without bit 63 are not allowed, though 9 is.
    (0, 0, &[[EXTERNAL, 1], [1, 1]], (1, 1, 0x400)),
];

/// Runs the case by this rule; the words beside hvip must stay.
#[track_caller]
fn run(rule: Row, (waits, hvip, row, _): Case) -> (u64, u64, u64) {
    let base = with(&[(WAITS, waits), (HVIP, hvip)]);
    let mut w = base;
    let reply = rule(&mut w, row);
    assert_eq!(w, changed(base, &[(HVIP, w[HVIP])]));
    (reply.applied, reply.refusal, w[HVIP])
}

#[test]
fn w4_closed_cases() {
    for (number, case) in CASES.into_iter().enumerate() {
        assert_eq!(run(post, case), case.3, "case {number}");
    }
}

/// One post by the call for one, or its refusal.
fn one(words: &mut [u64; 58], [vector, level]: Post) -> Result<(), u64> {
    match call(words, 7, [vector, level, 0, 0, 0]) {
        reply if reply.kind == 4 => Err(reply.number),
        _ => Ok(()),
    }
}

/// An ask waits: the call for one post is refused with 2, whatever it is.
fn asked(words: &[u64; 58]) -> bool {
    one(&mut words.clone(), [EXTERNAL, 1]) == Err(2)
}

/// A wrong answer: what it is, its rule, the case that notices it, and what it
/// would give there.
type Wrong = (&'static str, Row, usize, (u64, u64, u64));

const WRONG: [Wrong; 20] = [
    (
        "goes on after a refused post",
        |w, row| {
            let results: Vec<_> = row.iter().map(|&post| one(w, post)).collect();
            let applied = results.iter().filter(|result| result.is_ok()).count();
            let first = results.iter().find_map(|result| result.err());
            let refusal = if asked(w) { 2 } else { first.unwrap_or(0) };
            posted(applied as u64, refusal)
        },
        9,
        (2, 1, 0x440),
    ),
    (
        "undoes the earlier ones and says how many they were",
        |w, row| {
            let before = *w;
            let reply = post(w, row);
            if reply.refusal != 0 {
                *w = before;
            }
            reply
        },
        9,
        (1, 1, 0),
    ),
    (
        "undoes the earlier ones and says 0",
        |w, row| {
            let before = *w;
            let reply = post(w, row);
            if reply.refusal == 0 {
                return reply;
            }
            *w = before;
            posted(0, reply.refusal)
        },
        9,
        (0, 1, 0),
    ),
    (
        "keeps the earlier ones and says 0",
        |w, row| match post(w, row) {
            reply if reply.refusal != 0 => posted(0, reply.refusal),
            reply => reply,
        },
        9,
        (0, 1, 0x400),
    ),
    (
        "counts the refused one",
        |w, row| match post(w, row) {
            reply if reply.refusal == 1 => posted(reply.applied + 1, 1),
            reply => reply,
        },
        9,
        (2, 1, 0x400),
    ),
    (
        "says the row's length where it is stopped",
        |w, row| posted(row.len() as u64, post(w, row).refusal),
        9,
        (3, 1, 0x400),
    ),
    (
        "says no refusal",
        |w, row| posted(post(w, row).applied, 0),
        9,
        (1, 0, 0x400),
    ),
    (
        "refuses an empty row with 1 while nothing waits",
        |w, row| match post(w, row) {
            reply if row.is_empty() && reply.refusal == 0 => posted(0, 1),
            reply => reply,
        },
        0,
        (0, 1, 0x40),
    ),
    (
        "refuses an empty row with 2 while nothing waits",
        |w, row| match post(w, row) {
            _ if row.is_empty() => posted(0, 2),
            reply => reply,
        },
        0,
        (0, 2, 0x40),
    ),
    (
        "takes an empty row while an ask waits",
        one_by_one,
        15,
        (0, 0, 0x40),
    ),
    (
        "takes a row while an ask waits",
        |w, row| {
            let waits = std::mem::replace(&mut w[WAITS], 0);
            let reply = post(w, row);
            w[WAITS] = waits;
            reply
        },
        16,
        (1, 0, 0x400),
    ),
    (
        "looks at the first vector before the ask that waits",
        |w, row| match row {
            [[vector, _], ..] if bad_vectors().contains(vector) => posted(0, 1),
            _ => post(w, row),
        },
        17,
        (0, 1, 0),
    ),
    (
        "counts the good ones while an ask waits",
        |w, row| match post(w, row) {
            reply if reply.refusal == 2 => bit_by_bit(&mut w.clone(), row),
            reply => reply,
        },
        18,
        (1, 1, 0),
    ),
    (
        "takes a row that changes nothing while an ask waits",
        |w, row| {
            let mut later = *w;
            let reply = bit_by_bit(&mut later, row);
            match reply.refusal == 0 && later == *w {
                true => reply,
                false => post(w, row),
            }
        },
        19,
        (1, 0, 0x400),
    ),
    (
        "refuses a row while a load waits",
        |w, row| match w[WAITS] {
            1 => posted(0, 2),
            _ => post(w, row),
        },
        21,
        (0, 2, 0),
    ),
    (
        "takes an unknown kind for an ask",
        |w, row| match w[WAITS] {
            0 | 1 => post(w, row),
            _ => posted(0, 2),
        },
        22,
        (0, 2, 0),
    ),
    (
        "has the levels the other way round",
        |w, row| {
            let turned: Vec<_> = row.iter().map(|&[v, l]| [v, (l == 0) as u64]).collect();
            post(w, &turned)
        },
        1,
        (1, 0, 0),
    ),
    (
        "takes the level's low bit alone",
        |w, row| {
            let cut: Vec<_> = row.iter().map(|&[v, l]| [v, l & 1]).collect();
            post(w, &cut)
        },
        3,
        (1, 0, 0x3),
    ),
    (
        "lets only the last post count",
        |w, row| {
            let applied = post(&mut w.clone(), row).applied as usize;
            let last = row[..applied].last().copied();
            posted(applied as u64, post(w, last.as_slice()).refusal)
        },
        7,
        (2, 0, 0x40),
    ),
    (
        "posts from the last to the first",
        |w, row| {
            let turned: Vec<_> = row.iter().rev().copied().collect();
            post(w, &turned)
        },
        5,
        (2, 0, 0x40),
    ),
];

#[test]
fn w4_wrong_answers_are_noticed() {
    for (what, rule, number, gives) in WRONG {
        let case = CASES[number];
        assert_eq!(run(rule, case), gives, "{what}");
        assert_ne!(gives, case.3, "{what}");
    }
}

// Against the call for one post

#[test]
fn w4_one_post_is_the_call_for_one() {
    for (vector, bit) in ALLOWED {
        for level in LEVELS {
            // Each bit, and every pattern of the low bits up to the highest of
            // the three.
            for hvip in each_bit().chain(HVIPS).chain(0..0x800) {
                let base = with(&[(HVIP, hvip)]);
                let row = [[vector, level]];
                let later = if level == 0 { hvip & !bit } else { hvip | bit };
                check(base, &row, posted(1, 0), later);
                agree(base, &row);
            }
        }
    }
}

#[test]
fn w4_every_short_row() {
    // Each row of up to three posts of the four vectors, and of one that is not
    // allowed, set and cleared; on each pattern of the three bits, with the
    // others clear and set.
    let vectors = [SOFTWARE, TIMER, EXTERNAL, EXTERNAL_TOP, 10];
    let posts: Vec<Post> = vectors.iter().flat_map(|v| [[*v, 0], [*v, 1]]).collect();
    let mut rows: Vec<Vec<Post>> = vec![vec![]];
    let mut longest = rows.clone();
    for _ in 0..3 {
        longest = longest
            .iter()
            .flat_map(|row| posts.iter().map(|post| [&row[..], &[*post]].concat()))
            .collect();
        rows.extend(longest.clone());
    }
    assert_eq!(rows.len(), 1111);
    for pattern in 0..8 {
        let bits = (pattern & 1) << 2 | (pattern & 2) << 5 | (pattern & 4) << 8;
        for hvip in [bits, bits | !POSTED] {
            let base = with(&[(HVIP, hvip)]);
            for row in &rows {
                agree(base, row);
            }
        }
    }
}

#[test]
fn w4_rows_of_each_length() {
    let mut random = Random(4);
    for length in [0, 1, 2, 64, LONG] {
        for hvip in HVIPS {
            let row = random.row(length);
            let reply = agree(with(&[(HVIP, hvip)]), &row);
            assert_eq!(reply, posted(length as u64, 0));
        }
    }
}

#[test]
fn w4_a_bad_vector_at_each_place() {
    let mut random = Random(5);
    let bad = bad_vectors();
    for length in [1, 2, 64] {
        for place in 0..length {
            for hvip in HVIPS {
                for level in LEVELS {
                    let mut row = random.row(length);
                    row[place] = [random.pick(&bad), level];
                    let reply = agree(with(&[(HVIP, hvip)]), &row);
                    assert_eq!(reply, posted(place as u64, 1));
                }
            }
        }
    }
}

#[test]
fn w4_a_bad_vector_in_a_long_row() {
    let mut random = Random(6);
    let bad = bad_vectors();
    let mut row = random.row(LONG);
    for hvip in [0, !POSTED] {
        // hvip as each number of posts leaves it, one by one.
        let base = with(&[(HVIP, hvip)]);
        let mut w = base;
        let mut after = vec![hvip];
        for post in &row {
            assert_eq!(one(&mut w, *post), Ok(()));
            after.push(w[HVIP]);
        }
        assert_eq!(w, changed(base, &[(HVIP, after[LONG])]));

        check(base, &row, posted(LONG as u64, 0), after[LONG]);
        // A sample of the places: both ends, powers of two, every 499th.
        let powers = [64, 256, 1 << 15, 1 << 16];
        let places = (0..3)
            .chain(powers.into_iter().flat_map(|n| n - 1..=n + 1))
            .chain((0..LONG).step_by(499))
            .chain(LONG - 3..LONG);
        for place in places {
            let good = row[place];
            row[place] = [random.pick(&bad), random.pick(&LEVELS)];
            check(base, &row, posted(place as u64, 1), after[place]);
            // The part behind it may be left out.
            check(base, &row[..=place], posted(place as u64, 1), after[place]);
            row[place] = good;
            check(base, &row[..place], posted(place as u64, 0), after[place]);
        }
    }
}

#[test]
fn w4_a_second_bad_vector_changes_nothing() {
    let mut random = Random(7);
    let bad = bad_vectors();
    for first in 0..64 {
        let mut row = random.row(64);
        let base = with(&[(HVIP, random.next())]);
        row[first] = [random.pick(&bad), random.pick(&LEVELS)];
        let mut w = base;
        assert_eq!(post(&mut w, &row), posted(first as u64, 1));
        for second in first + 1..64 {
            let good = row[second];
            row[second] = [random.pick(&bad), random.pick(&LEVELS)];
            check(base, &row, posted(first as u64, 1), w[HVIP]);
            agree(base, &row);
            row[second] = good;
        }
        // All behind it, and none.
        row[first..].fill([random.pick(&bad), 1]);
        check(base, &row, posted(first as u64, 1), w[HVIP]);
        check(base, &row[..=first], posted(first as u64, 1), w[HVIP]);
    }
}

#[test]
fn w4_a_row_cut_in_two() {
    // Two calls leave what one leaves, unless the first was stopped.
    let mut random = Random(8);
    for bad in [None, Some(0), Some(1), Some(31), Some(63)] {
        let mut row = random.row(64);
        if let Some(place) = bad {
            row[place] = [10, 1];
        }
        let base = with(&[(HVIP, random.next())]);
        let mut whole = base;
        let reply = post(&mut whole, &row);
        for cut in 0..=64 {
            let mut w = base;
            let first = post(&mut w, &row[..cut]);
            if bad.is_some_and(|place| place < cut) {
                assert_eq!(first, reply);
            } else {
                assert_eq!(first, posted(cut as u64, 0));
                let second = post(&mut w, &row[cut..]);
                assert_eq!(
                    posted(first.applied + second.applied, second.refusal),
                    reply
                );
            }
            assert_eq!(w, whole);
        }
    }
}

// Vectors and levels

#[test]
fn w4_vectors_that_are_not_allowed() {
    let bad = bad_vectors();
    for vector in [0, 1, 2, 5, 6, 8, 10, TOP, TOP + 2, TOP + 4, TOP + 6] {
        assert!(bad.contains(&vector));
    }
    for vector in [TOP + 8, TOP + 10, (1 << 32) + 9, TOP + (1 << 62) + 9] {
        assert!(bad.contains(&vector));
    }
    for vector in bad {
        for level in LEVELS {
            for hvip in HVIPS {
                let base = with(&[(HVIP, hvip)]);
                let refused = [vector, level];
                check(base, &[refused], posted(0, 1), hvip);
                // Behind each of the four and before it.
                for (good, bit) in ALLOWED {
                    let row = [[good, 1], refused, [good, 0]];
                    check(base, &row, posted(1, 1), hvip | bit);
                    let row = [[good, 0], refused, [good, 1]];
                    check(base, &row, posted(1, 1), hvip & !bit);
                }
            }
        }
    }
}

#[test]
fn w4_levels() {
    for (vector, bit) in ALLOWED {
        for hvip in HVIPS {
            let base = with(&[(HVIP, hvip)]);
            check(base, &[[vector, 0]], posted(1, 0), hvip & !bit);
            for level in (0..64).map(|bit| 1 << bit).chain([3, 0xff00, u64::MAX]) {
                check(base, &[[vector, level]], posted(1, 0), hvip | bit);
                let row = [[vector, level], [vector, 0]];
                check(base, &row, posted(2, 0), hvip & !bit);
                let row = [[vector, 0], [vector, level]];
                check(base, &row, posted(2, 0), hvip | bit);
            }
        }
    }
}

// What waits

#[test]
fn w4_an_ask_waits() {
    let long = Random(9).row(LONG);
    for waits in 2..=12 {
        for hvip in HVIPS {
            let base = with(&[(WAITS, waits), (HVIP, hvip)]);
            let refused = |row: &[Post]| {
                check(base, row, posted(0, 2), hvip);
                // One by one the first post is refused so; an empty row is the
                // one that only the row's own rule refuses.
                let mut w = base;
                let first = if row.is_empty() { 0 } else { 2 };
                assert_eq!(one_by_one(&mut w, row), posted(0, first));
                assert_eq!(w, base);
            };
            refused(&[]);
            for level in LEVELS {
                for (good, _) in ALLOWED {
                    refused(&[[good, level]]);
                }
                // 2 goes before 1.
                for bad in [0, 1, 5, 10, TOP, TOP + 2, u64::MAX] {
                    refused(&[[bad, level]]);
                    refused(&[[bad, level], [TIMER, 1]]);
                    refused(&[[TIMER, 1], [bad, level]]);
                }
            }
            for length in [2, 64, LONG] {
                refused(&long[..length]);
            }
        }
    }
}

#[test]
fn w4_no_ask_waits() {
    // Nothing, a load, unknown kinds: also those whose low bits are an ask's.
    let unknown = (13..=64).chain((2..=12).flat_map(|kind| [kind + (1 << 32), kind + TOP]));
    let mut random = Random(10);
    for waits in [0, 1, u64::MAX].into_iter().chain(unknown) {
        for hvip in HVIPS {
            let base = with(&[(WAITS, waits), (HVIP, hvip)]);
            check(base, &[], posted(0, 0), hvip);
            check(base, &[[TIMER, 1]], posted(1, 0), hvip | 0x40);
            check(base, &[[TIMER, 0], [6, 0]], posted(1, 1), hvip & !0x40);
            check(base, &[[6, 0]], posted(0, 1), hvip);
            agree(base, &random.row(64));
        }
    }
}

#[test]
fn w4_a_row_between_a_trap_and_its_answers() {
    let row = [[TIMER, 1], [EXTERNAL, 1]];
    let mut w = with(&[(HVIP, 0)]);
    check(w, &row, posted(2, 0), 0x440);
    // A guest page fault fetches, and its load waits.
    assert_eq!(call(&mut w, 10, [21, 0, 0x1000, 0, 0]).kind, 1);
    check(w, &row, posted(0, 2), 0);
    check(w, &[], posted(0, 2), 0);
    assert_eq!(call(&mut w, 11, [1, 0x2383, 0, 0, 0]).kind, 0);
    check(w, &row, posted(2, 0), 0x440);
    assert_eq!(post(&mut w, &row), posted(2, 0));
    // The load goes on waiting through it.
    assert_eq!(call(&mut w, 12, [5, 0, 0, 0, 0]), done());
    assert_eq!((w[7], w[HVIP]), (5, 0x440));
    check(w, &[[EXTERNAL_TOP, 0]], posted(1, 0), 0x40);
}

// Any words

#[test]
fn w4_other_words_stay() {
    // Each word by itself holds any number: it stays, and changes nothing of
    // what the row gives. The kind of what waits has its own tests above.
    let row = [
        [SOFTWARE, 1],
        [TIMER, 0],
        [EXTERNAL, 1],
        [10, 1],
        [TIMER, 1],
    ];
    for word in (0..58).filter(|word| ![HVIP, WAITS].contains(word)) {
        for number in [0, 1, 2, 12, 0x444, TOP, u64::MAX] {
            for hvip in [0, u64::MAX] {
                let base = changed(filled(), &[(word, number), (HVIP, hvip)]);
                let later = (hvip & !0x40) | 0x404;
                check(base, &row, posted(3, 1), later);
                check(base, &row[..3], posted(3, 0), later);
                check(base, &[], posted(0, 0), hvip);
                let base = changed(base, &[(WAITS, 2)]);
                check(base, &row, posted(0, 2), hvip);
            }
        }
    }
}

#[test]
fn w4_any_words_and_any_row() {
    let mut random = Random(11);
    let bad = bad_vectors();
    for _ in 0..20_000 {
        let mut base = [0; 58];
        base.fill_with(|| random.next());
        if random.next() >> 62 != 0 {
            base[WAITS] = (random.next() >> 32) % 16;
        }
        let length = (random.next() >> 32) as usize % 70;
        let mut row = random.row(length);
        for post in &mut row {
            match random.next() >> 58 {
                0 => *post = [random.pick(&bad), random.next()],
                1 => *post = [random.next(), random.next()],
                _ => {}
            }
        }
        match base[WAITS] {
            2..=12 => check(base, &row, posted(0, 2), base[HVIP]),
            _ => assert!(agree(base, &row).refusal <= 1),
        }
    }
}
