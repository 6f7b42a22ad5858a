//! Differential runs: random traps on the published Rust and on a subject.

#[cfg(has_abi)]
mod abi;
#[cfg(test)]
mod by_from01;
mod calls;
mod captures;
mod compare;
mod constants;
#[cfg(test)]
mod every_compressed;
#[cfg(test)]
mod every_injection;
mod expand;
#[cfg(test)]
mod faults;
mod generate;
#[cfg(has_in_place)]
mod in_place;
mod input;
mod instructions;
mod options;
mod outcome;
mod posts;
mod random;
#[cfg(any(has_abi, has_in_place))]
mod record_words;
mod refusals;
#[cfg(test)]
mod row_faults;
mod run;
mod rust_side;
mod sequence;
mod shrink;
#[cfg(test)]
mod smallest;
mod subject;
mod switches;
mod tally;
#[cfg(any(has_abi, has_in_place))]
mod wild_words;
mod words;

use std::process::ExitCode;

use options::{Mode, Options, SubjectName};
use random::Random;
use run::Run;
use rust_side::RustSide;
use subject::{Model, Subject};
use switches::{Board, Switch, SWITCHES};

/// What a fetch may answer.
const FETCHES: [&str; 6] =
    ["word", "page fault", "access fault", "misaligned", "guest page fault", "unhandled"];

fn main() -> ExitCode {
    let options = match options::read(std::env::args().skip(1)) {
        Ok(options) => options,
        Err(text) => {
            println!("{text}");
            return ExitCode::from(2);
        }
    };
    // A panic in the published text is an outcome, not a message.
    std::panic::set_hook(Box::new(|_| {}));
    let Some(mut subject) = subject_named(options.subject) else {
        println!("this program was built without that part of the proved library");
        println!("set VCPU_ABI (abi) or VCPU_IN_PLACE (in-place) to the crate's archive, as");
        println!("tools/archive writes it, and build again");
        return ExitCode::from(2);
    };
    let subject = subject.as_mut();
    if options.captures.is_some() {
        return write_captures(options, subject);
    }
    let passed = match options.mode {
        Mode::Refusals => run_refusals(&options, subject),
        Mode::Words if options.subject == SubjectName::Model => {
            println!("mode words makes calls by words: give --subject abi or --subject in-place");
            false
        }
        Mode::Words => run_words(&options),
        Mode::Posts => run_posts(&options, subject),
        Mode::Switches => run_switches(&options, subject),
        _ => run_traps(&options, subject),
    };
    if passed {
        ExitCode::SUCCESS
    } else {
        ExitCode::FAILURE
    }
}

/// The subject of that name, where this program was built with it.
fn subject_named(name: SubjectName) -> Option<Box<dyn Subject>> {
    match name {
        SubjectName::Model => Some(Box::new(Model(model::Vcpu::zero()))),
        #[cfg(has_abi)]
        SubjectName::Abi => Some(Box::new(abi::Abi([0; 58]))),
        #[cfg(has_in_place)]
        SubjectName::InPlace => Some(Box::new(in_place::InPlace([0; 58]))),
        #[cfg(not(all(has_abi, has_in_place)))]
        _ => None,
    }
}

/// The run of a command line: true if all agreed and everything was reached.
fn run_traps(options: &Options, subject: &mut dyn Subject) -> bool {
    println!("seed {}, subject {}", options.seed, subject.name());
    let mut run = Run::new(options, options.board.clone(), subject);
    run.go();
    let mut missed = run.tally.print_injections(&options.only);
    missed.extend(run.tally.print(&run.board, &options.only));
    for name in &missed {
        println!("not reached: {name}");
    }
    println!("{} traps, {} unexplained", run.tally.traps, run.tally.unexplained);
    run.tally.unexplained == 0 && missed.is_empty()
}

/// A run for each switch with it alone off: true if each shows its
/// difference.
fn run_switches(options: &Options, subject: &mut dyn Subject) -> bool {
    println!("seed {}, subject {}", options.seed, subject.name());
    let mut needed = true;
    for (switch, name, _) in SWITCHES {
        if switch == Switch::SepcOverflow && !RustSide::checks_overflow() {
            println!("\nswitch {name}: this build has no overflow checks");
            continue;
        }
        let mut board = Board::all_on();
        board.turn_off(name);
        let mut run = Run::new(options, board, subject);
        run.enough = 1;
        println!("\nswitch {name} off");
        run.go();
        if run.tally.unexplained == 0 {
            println!("no mismatch in {} traps: nothing shows that it is needed", run.tally.traps);
            needed = false;
        } else {
            println!("mismatch after {} traps", run.tally.traps);
        }
    }
    println!("\n{}", if needed { "every switch is needed" } else { "a switch is not needed" });
    needed
}

/// True if every call agreed with from01 and everything was reached.
#[cfg(any(has_abi, has_in_place))]
fn run_words(options: &Options) -> bool {
    let entry = match options.subject {
        #[cfg(has_abi)]
        SubjectName::Abi => wild_words::Entry {
            name: "abi",
            call: abi::call_words,
            post: abi::post_words,
            any_kind: true,
        },
        #[cfg(has_in_place)]
        SubjectName::InPlace => wild_words::Entry {
            name: "in-place",
            call: in_place::call_words,
            post: in_place::post_words,
            any_kind: false,
        },
        // Not reached: main has said that the library is missing.
        _ => return false,
    };
    println!("seed {}, subject {}", options.seed, entry.name);
    let mut random = Random::new(options.seed);
    let mut tally = wild_words::Tally::default();
    while tally.calls < options.traps {
        if let Err(text) = wild_words::one(&mut random, &entry, &mut tally) {
            println!("mismatch: {text}\n1 unexplained");
            return false;
        }
    }
    let reached = tally.print(&entry);
    println!("{} calls, 0 unexplained", tally.calls);
    reached
}

/// Not reached: main has said that the library is missing.
#[cfg(not(any(has_abi, has_in_place)))]
fn run_words(_options: &Options) -> bool {
    false
}

/// True if every row agreed with its posts one by one and with from01.
fn run_posts(options: &Options, subject: &mut dyn Subject) -> bool {
    println!("seed {}, subject {}", options.seed, subject.name());
    let mut random = Random::new(options.seed);
    // At each place the model would take minutes.
    let each = options.subject != SubjectName::Model;
    match posts::run(&mut random, subject, &posts::LENGTHS, each) {
        Ok(rows) => {
            println!("{rows} rows, 0 unexplained");
            true
        }
        Err(text) => {
            println!("mismatch: {text}\n1 unexplained");
            false
        }
    }
}

fn write_captures(mut options: Options, subject: &mut dyn Subject) -> ExitCode {
    let folder = options.captures.take().unwrap_or_default();
    let mut random = Random::new(options.seed);
    let mut rust = RustSide::new();
    match captures::write(&folder, &mut random, &mut options.board, &mut rust, subject) {
        Ok(reached) => {
            let mut missed = reached.tally.print(&options.board, &options.only);
            for (name, count) in FETCHES.iter().zip(reached.fetches) {
                println!("fetch   {name:24}{count:>12}");
                if count == 0 {
                    missed.push(format!("fetch {name}"));
                }
            }
            println!("        loads of a register{:>17}", reached.loads);
            for name in &missed {
                println!("not reached: {name}");
            }
            println!("{} traps in {}", reached.tally.traps + reached.loads, folder.display());
            if missed.is_empty() { ExitCode::SUCCESS } else { ExitCode::FAILURE }
        }
        Err(error) => {
            println!("{error}");
            ExitCode::FAILURE
        }
    }
}

/// True if all agreed and every number was refused.
fn run_refusals(options: &Options, subject: &mut dyn Subject) -> bool {
    println!("seed {}, subject {}", options.seed, subject.name());
    let mut random = Random::new(options.seed);
    let mut tally = refusals::Tally::default();
    let mut calls = 0;
    while calls < options.traps {
        if let Err(text) = refusals::run(&mut random, options.length, subject, &mut tally) {
            println!("mismatch: {text}\n1 unexplained");
            return false;
        }
        calls += options.length;
    }
    for number in 1..8 {
        println!("refusal or error {number}{:>12}", tally.refused[number]);
    }
    let [whole, by_1, by_2] = tally.rows;
    println!("rows of posts{whole:>17}, stopped by 1 {by_1}, by 2 {by_2}");
    println!("{calls} calls, 0 unexplained");
    if tally.refused[1..].contains(&0) || tally.rows.contains(&0) {
        println!("a number was not reached");
        return false;
    }
    true
}
