//! The cost of posted interrupts, a row in one call and as many single calls: the proved library's two entries beside plain Rust.
//!
//!     posts compare ROWS SEED                         the same rows on every handler, not timed
//!     posts time ROUNDS SEED                          interleaved runs: the least and the median time of each
//!     posts run LOAD HANDLER row|single ROWS SEED     ROWS rows of 64, to count instructions
//!
//! bench/posts runs these and prints the tables.

#[path = "../posters.rs"]
mod posters;
#[path = "../record.rs"]
mod record;
#[path = "../rounds.rs"]
mod rounds;
#[path = "../traps.rs"]
#[allow(dead_code)] // the record and the random numbers alone are used
mod traps;

use curbizzolu::Post;
use plain::{First, Straight};
use posters::*;
use rounds::lower;
use std::hint::black_box;
use std::time::Instant;
use traps::{Random, Record};

/// Posts in the pool of a load: each length of a row divides it, and a processor does not learn so many by heart.
const POOL: usize = 64_000;
const LENGTHS: [usize; 5] = [1, 2, 8, 64, 1_000];
const _: () = assert!(POOL % 64 == 0 && POOL % 1_000 == 0);
const LOADS: [&str; 2] = ["mixed", "foretold"];
const WAYS: [&str; 2] = ["row", "single"];

const ALLOWED: [u64; 4] = [1 << 63 | 1, 1 << 63 | 5, 9, 1 << 63 | 9];
/// Vectors beside those allowed.
const BAD: [u64; 16] = [
    0,
    1,
    5,
    8,
    10,
    13,
    1 << 62 | 9,
    1 << 32 | 9,
    1 << 63,
    1 << 63 | 2,
    1 << 63 | 4,
    1 << 63 | 8,
    1 << 63 | 10,
    1 << 63 | 1 << 32 | 1,
    3 << 62 | 5,
    u64::MAX,
];
const LEVELS: [u64; 6] = [0, 1, 2, 1 << 32, 1 << 63, u64::MAX];

/// One of these, drawn.
fn one_of<const N: usize>(r: &mut Random, numbers: [u64; N]) -> u64 {
    numbers[(r.number() >> 32) as usize % N]
}

/// The posts of a load: any allowed vector with any level, or one vector with one level.
fn pool(load: &str, seed: u64) -> Vec<Post> {
    let mut r = Random(seed);
    let foretold = Post::set(ALLOWED[3]);
    let mut post = || Post { vector: one_of(&mut r, ALLOWED), level: one_of(&mut r, [0, 1]) };
    (0..POOL).map(|_| if load == "mixed" { post() } else { foretold }).collect()
}

#[inline(never)]
fn by_rows<P: Poster>(poster: &mut P, pool: &[Post], length: usize) -> u64 {
    pool.chunks_exact(length).fold(0, |sum, row| {
        let (applied, refusal) = poster.row(row);
        sum + (applied ^ refusal)
    })
}

#[inline(never)]
fn by_ones<P: Poster>(poster: &mut P, pool: &[Post], length: usize) -> u64 {
    pool.chunks_exact(length).fold(0, |sum, row| {
        let (applied, refusal) = poster.ones(row);
        sum + (applied ^ refusal)
    })
}

/// Calls a function that takes a handler as its type, by the handler's number.
macro_rules! by_handler {
    ($which:expr, $function:ident, $($argument:expr),*) => {
        match $which {
            0 => $function::<InPlace>($($argument),*),
            1 => $function::<Interface>($($argument),*),
            2 => $function::<Thin>($($argument),*),
            3 => $function::<Plain<Straight>>($($argument),*),
            _ => $function::<Plain<First>>($($argument),*),
        }
    };
}

/// A pool in rows of one length: nanoseconds, and what came of it.
fn timed<P: Poster>(way: usize, pool: &[Post], length: usize) -> (u64, (u64, Record)) {
    let mut poster = P::new(&Random(2).record());
    let begin = Instant::now();
    let sum = if way == 0 { by_rows(&mut poster, pool, length) } else { by_ones(&mut poster, pool, length) };
    let time = begin.elapsed().as_nanos() as u64;
    (time, (black_box(sum), poster.record()))
}

/// The least and the median of each handler's times, each way. Every round has all of them, so that a slow spell of the machine is in
/// none alone.
fn time(rounds: u64, seed: u64) {
    let pools = LOADS.map(|load| pool(load, seed));
    let mut times = vec![vec![]; LOADS.len() * LENGTHS.len() * NAMES.len() * WAYS.len()];
    for round in 0..rounds {
        lower(round % 16, &mut || {
            let mut cells = times.iter_mut();
            for pool in &pools {
                // the other pool may have taken its place in a cache
                black_box(pool.iter().fold(0, |sum, post| sum ^ post.vector));
                for length in LENGTHS {
                    let mut ends = vec![];
                    for which in 0..NAMES.len() {
                        for way in 0..WAYS.len() {
                            let (time, end) = by_handler!(which, timed, way, black_box(pool), black_box(length));
                            cells.next().unwrap().push(time);
                            ends.push(end);
                        }
                    }
                    assert!(ends.iter().all(|end| *end == ends[0]), "the handlers end in different records: posts compare");
                }
            }
        });
    }
    let mut cells = times.iter_mut();
    for load in LOADS {
        for length in LENGTHS {
            for name in NAMES {
                for way in WAYS {
                    let times = cells.next().unwrap();
                    times.sort();
                    let [least, median] = [times[0], times[times.len() / 2]].map(|time| time as f64 / POOL as f64);
                    println!("{load}\t{length}\t{name}\t{way}\t{least:.3}\t{median:.3}");
                }
            }
        }
    }
}

/// What a handler gives for a row, in one call and by single calls, and the record after each.
fn both<P: Poster>(record: &Record, posts: &[Post]) -> [(Given, Record); 2] {
    let (mut row, mut ones) = (P::new(record), P::new(record));
    [(row.row(posts), row.record()), (ones.ones(posts), ones.record())]
}

/// Rows of all lengths up to 65, and some of a thousand, in records with all words drawn: any level, every other row with a bad vector
/// at some place, every third with a load or an ask waiting.
fn compare(rows: usize, seed: u64) {
    let mut r = Random(seed);
    let (mut stopped, mut waited) = (0, 0);
    for i in 0..rows {
        let length = if i % 100 == 99 { 1_000 } else { i % 66 };
        let mut posts: Vec<Post> = (0..length).map(|_| Post { vector: one_of(&mut r, ALLOWED), level: one_of(&mut r, LEVELS) }).collect();
        if length > 0 && r.number() % 2 == 0 {
            posts[r.number() as usize % length].vector = one_of(&mut r, BAD);
        }
        let mut record = r.record();
        if r.number() % 3 == 0 {
            record[54..].copy_from_slice(&WAITS[r.number() as usize % WAITS.len()].0);
        }
        let given: [_; NAMES.len()] = std::array::from_fn(|which| by_handler!(which, both, &record, &posts));
        // the plainest text is what the others are held to
        let (expected, after) = given[4][0];
        for (name, ways) in NAMES.iter().zip(&given) {
            for (way, (numbers, left)) in WAYS.iter().zip(ways) {
                // where there is no single call, none says that an ask waits
                let none = *way == "single" && posts.is_empty();
                if *numbers != if none { (0, 0) } else { expected } || *left != after {
                    eprintln!("posts: row {i} of seed {seed}, {length} posts, with {:x?} waiting, hvip {:x}:", &record[54..], record[42]);
                    if length <= 8 {
                        eprintln!("{posts:x?}");
                    }
                    eprintln!(
                        "first, row, applies {} with refusal {}; {name}, {way}, {} with {}",
                        expected.0, expected.1, numbers.0, numbers.1
                    );
                    for (word, (one, other)) in after.iter().zip(left).enumerate().filter(|(_, (one, other))| one != other) {
                        eprintln!("word {word} of the record after it is {one:x} by first and {other:x} by {name}");
                    }
                    std::process::exit(1);
                }
            }
        }
        stopped += (expected.1 == 1) as u64;
        waited += (expected.1 == 2) as u64;
    }
    println!(
        "{rows} rows, {stopped} stopped by a bad vector and {waited} refused while an ask waits: \
        every handler gives the same numbers and leaves the same record, by the row and by single calls"
    );
}

/// A number, or the end.
fn number<T: std::str::FromStr>(text: &str) -> T {
    text.parse().unwrap_or_else(|_| {
        eprintln!("posts: {text} is no number that fits");
        std::process::exit(2)
    })
}

fn main() {
    let args: Vec<String> = std::env::args().skip(1).collect();
    match args.iter().map(String::as_str).collect::<Vec<_>>()[..] {
        ["compare", rows, seed] => compare(number(rows), number(seed)),
        ["time", rounds, seed] if rounds != "0" => time(number(rounds), number(seed)),
        ["run", load, handler, way, rows, seed] => {
            let which = NAMES.iter().position(|known| *known == handler).expect("no such handler");
            let way = WAYS.iter().position(|known| *known == way).expect("no such way");
            let pool = pool(load, number(seed));
            black_box(by_handler!(which, timed, way, &pool[..number::<usize>(rows) * 64], black_box(64)));
        }
        _ => {
            eprintln!("usage: posts compare ROWS SEED | posts time ROUNDS SEED | posts run LOAD HANDLER row|single ROWS SEED");
            std::process::exit(2);
        }
    }
}
