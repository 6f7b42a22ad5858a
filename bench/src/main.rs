//! The cost of a trap: the proved library's two entries beside plain Rust, on the same generated traps.
//!
//!     bench mix                    the shares of the mix
//!     bench time TRAPS ROUNDS      interleaved runs, the least time of each handler in each row
//!     bench run HANDLER TRAPS      one run of one handler on the mix, to count its instructions
//!
//! bench/trap runs the program `compare`, then these, and prints the tables.

mod handlers;
mod record;
mod rounds;
mod traps;

use handlers::*;
use plain::{First, Straight};
use rounds::lower;
use std::hint::black_box;
use std::time::Instant;
use traps::*;

/// Nothing looks at the replies.
const SEE: bool = false;

#[inline(never)]
fn run<H: Handler, const FORESEEN: bool>(handler: &mut H, row: &Row, traps: u64) -> u64 {
    let mut r = Random(1);
    let mut sum = 0u64;
    for _ in 0..traps {
        let work = work::<FORESEEN>(row, &mut r);
        handler.set(&work);
        sum = sum.wrapping_add(handler.trap(&work, &mut vec![]));
    }
    sum
}

/// Runs a handler by its number: nanoseconds, and the record that it ends in.
fn once(which: usize, row: &Row, traps: u64) -> (u64, Record) {
    fn timed<H: Handler>(row: &Row, traps: u64) -> (u64, Record) {
        let mut handler = H::new(&Random(2).record());
        let traps = black_box(traps);
        let begin = Instant::now();
        black_box(if row.foreseen { run::<H, true>(&mut handler, row, traps) } else { run::<H, false>(&mut handler, row, traps) });
        (begin.elapsed().as_nanos() as u64, handler.record())
    }
    match which {
        0 => timed::<Nothing>(row, traps),
        1 => timed::<PlainEnums<Straight>>(row, traps),
        2 => timed::<PlainWords<Straight>>(row, traps),
        3 => timed::<PlainEnums<First>>(row, traps),
        4 => timed::<PlainWords<First>>(row, traps),
        5 => timed::<InPlace>(row, traps),
        6 => timed::<Interface>(row, traps),
        _ => timed::<Thin>(row, traps),
    }
}

/// A number of traps or rounds.
fn number(text: &str) -> u64 {
    text.parse().ok().filter(|number| *number > 0).unwrap_or_else(|| {
        eprintln!("bench: {text} is no number of traps or rounds, 1 or more");
        std::process::exit(2)
    })
}

fn main() {
    let args: Vec<String> = std::env::args().skip(1).collect();
    match args.iter().map(String::as_str).collect::<Vec<_>>()[..] {
        ["mix"] => println!("{}", shares()),
        ["time", traps, rounds] => {
            let (traps, rounds) = (number(traps), number(rounds));
            let mut least = [[u64::MAX; NAMES.len()]; ROWS.len()];
            for round in 0..rounds {
                lower(round % 16, &mut || {
                    for (row, least) in ROWS.iter().zip(&mut least) {
                        let (times, records): (Vec<_>, Vec<_>) = (0..NAMES.len()).map(|which| once(which, row, traps)).unzip();
                        let alike = records[1..].iter().all(|record| *record == records[1]);
                        assert!(alike, "the handlers end in different records: bench/trap compares them");
                        for (least, time) in least.iter_mut().zip(times) {
                            *least = time.min(*least);
                        }
                    }
                });
            }
            for (row, least) in ROWS.iter().zip(least) {
                for (name, time) in NAMES.iter().zip(least) {
                    println!("{}\t{name}\t{:.3}", row.name, time as f64 / traps as f64);
                }
            }
        }
        ["run", name, traps] => {
            let which = NAMES.iter().position(|known| *known == name).expect("no such handler");
            black_box(once(which, &ROWS[0], number(traps)));
        }
        _ => {
            eprintln!("usage: bench mix | bench time TRAPS ROUNDS | bench run HANDLER TRAPS");
            std::process::exit(2);
        }
    }
}
