//! The round that is not timed: the same traps on every handler, from a record whose words are all different. After each trap the
//! replies and the whole record are compared with plain Rust's: compare TRAPS.

#[path = "../handlers.rs"]
#[allow(dead_code)] // the traps alone are only timed
mod handlers;
#[path = "../record.rs"]
mod record;
#[path = "../traps.rs"]
#[allow(dead_code)] // so are the rows
mod traps;

use handlers::*;
use plain::{First, Straight};
use traps::*;

/// Each reply is looked at.
const SEE: bool = true;

type After = Box<dyn FnMut(&Work) -> (Vec<Reply>, Record)>;

fn after<H: Handler + 'static>(record: &Record) -> After {
    let mut handler = H::new(record);
    Box::new(move |work| {
        let mut replies = vec![];
        handler.set(work);
        handler.trap(work, &mut replies);
        (replies, handler.record())
    })
}

fn main() {
    let traps = match std::env::args().nth(1).map(|text| text.parse::<u64>()) {
        Some(Ok(traps)) if traps > 0 => traps,
        _ => {
            eprintln!("usage: compare TRAPS, 1 or more");
            std::process::exit(2);
        }
    };
    let record = Random(2).record();
    // in the order of NAMES, the traps alone apart
    let mut handlers = [
        after::<PlainEnums<Straight>>(&record),
        after::<PlainWords<Straight>>(&record),
        after::<PlainEnums<First>>(&record),
        after::<PlainWords<First>>(&record),
        after::<InPlace>(&record),
        after::<Interface>(&record),
        after::<Thin>(&record),
    ];
    let names = &NAMES[1..];
    let mut r = Random(1);
    for i in 0..traps {
        // the mix, the mix that is fetched, the loads and stores of 16 bits, and the fault that is injected
        let work = work::<false>(&ROWS[[0, 2, 13, 14, 15][(i % 5) as usize]], &mut r);
        let given = handlers.each_mut().map(|handler| handler(&work));
        // the plainest text is what the others are held to
        let plain = 2;
        for (name, given_by) in names.iter().zip(&given) {
            if *given_by != given[plain] {
                eprintln!(
                    "compare: trap {i}, {:x?} with a0 {:x}, a6 {:x}, a7 {:x}, {:x?} and {:x} given:",
                    work.trap, work.a0, work.a6, work.a7, work.given, work.device
                );
                eprintln!("{} gives {:x?}\n{name} gives {:x?}", names[plain], given[plain].0, given_by.0);
                for (word, (one, other)) in given[plain].1.iter().zip(given_by.1).enumerate().filter(|(_, (one, other))| *one != other) {
                    eprintln!("word {word} of the record after it is {one:x} by {} and {other:x} by {name}", names[plain]);
                }
                std::process::exit(1);
            }
        }
    }
    println!("{traps} traps: every handler gives the same replies and leaves the same record after each");
}
