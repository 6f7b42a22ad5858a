//! The command line.

use std::path::PathBuf;

use crate::generate::CLASSES;
use crate::switches::{Board, SWITCHES};

#[derive(Clone, Copy, PartialEq, Eq)]
pub enum Mode {
    /// Each trap from a record of its own.
    Single,
    /// Many traps on one record.
    Sequence,
    /// Half and half.
    Both,
    /// Calls and rows out of turn, judged by the model; `--traps` counts calls.
    Refusals,
    /// Calls, rows and records of any words, judged by from01; `--traps`
    /// counts calls.
    Words,
    /// Rows of posts that are stopped at each place, judged by the subject's
    /// own call for one post and by from01.
    Posts,
    /// A run for each switch with it off, up to the first mismatch.
    Switches,
}

#[derive(Clone, Copy, PartialEq, Eq)]
pub enum SubjectName {
    Model,
    /// The proved library by crate words_entry's exported functions.
    Abi,
    /// The proved library by the exported functions of crates in_place_*.
    InPlace,
}

pub struct Options {
    pub seed: u64,
    pub traps: u64,
    pub mode: Mode,
    pub subject: SubjectName,
    /// A run stops after so many mismatches.
    pub enough: u64,
    /// Traps in one sequence.
    pub length: u64,
    /// Which classes are on.
    pub only: Vec<bool>,
    pub board: Board,
    /// The folder to write captures into, instead of a run.
    pub captures: Option<PathBuf>,
}

const USAGE: &str = "\
usage: diff [--subject model|abi|in-place] [--seed N] [--traps N]
            [--mode single|sequence|both|refusals|words|posts|switches]
            [--length N] [--only CLASS]... [--off SWITCH]... [--enough N]
            [--list] [--captures FOLDER]

Runs random traps on the published Rust and on the subject, and compares exit,
requests and the whole later record. Ends with `0 unexplained` and status 0 if
they agree but for the switches and everything was reached.

Mode refusals compares calls and rows of posts, in and out of turn, on the
subject and the model, and mode words any calls and rows on any words, by the
subject's entry and by from01, in every word; --traps counts calls there, and a
row is one. Mode posts makes rows of 0 to 100,000 posts that are stopped at each
place, and compares them with the same posts one by one and with from01; of the
numbers it takes --seed alone. Mode switches turns each switch off in turn and
runs up to --traps traps: every switch must be needed. --enough is the number of
mismatches that ends a run. --captures writes captures for the replay program
with the Rust's output for each, and runs nothing else.";

/// The options, or the text to print instead of a run.
pub fn read(mut args: impl Iterator<Item = String>) -> Result<Options, String> {
    let mut options = Options {
        seed: 1,
        traps: 1_000_000,
        mode: Mode::Both,
        subject: SubjectName::Model,
        enough: 3,
        length: 1000,
        only: vec![false; CLASSES.len()],
        board: Board::all_on(),
        captures: None,
    };
    while let Some(arg) = args.next() {
        if arg == "--list" {
            return Err(list());
        }
        let Some(value) = args.next() else {
            return Err(USAGE.into());
        };
        match arg.as_str() {
            "--seed" => options.seed = number(&value)?,
            "--traps" => options.traps = number(&value)?,
            "--length" => options.length = number(&value)?.max(1),
            "--enough" => options.enough = number(&value)?.max(1),
            "--subject" => {
                options.subject = match value.as_str() {
                    "model" => SubjectName::Model,
                    "abi" => SubjectName::Abi,
                    "in-place" => SubjectName::InPlace,
                    _ => return Err(USAGE.into()),
                }
            }
            "--mode" => {
                options.mode = match value.as_str() {
                    "single" => Mode::Single,
                    "sequence" => Mode::Sequence,
                    "both" => Mode::Both,
                    "refusals" => Mode::Refusals,
                    "words" => Mode::Words,
                    "posts" => Mode::Posts,
                    "switches" => Mode::Switches,
                    _ => return Err(USAGE.into()),
                }
            }
            "--captures" => options.captures = Some(PathBuf::from(value)),
            "--only" => {
                let Some(at) = CLASSES.iter().position(|name| *name == value) else {
                    return Err(format!("no class {value}\n{}", list()));
                };
                options.only[at] = true;
            }
            "--off" => {
                if !options.board.turn_off(&value) {
                    return Err(format!("no switch {value}\n{}", list()));
                }
            }
            _ => return Err(USAGE.into()),
        }
    }
    if !options.only.contains(&true) {
        options.only.fill(true);
    }
    Ok(options)
}

fn number(text: &str) -> Result<u64, String> {
    text.replace('_', "").parse().map_err(|_| format!("{text} is no number\n{USAGE}"))
}

fn list() -> String {
    let mut text = format!("{USAGE}\n\nclasses: {}\n\nswitches:\n", CLASSES.join(" "));
    for (_, name, what) in SWITCHES {
        text += &format!("  {name:18}{what}\n");
    }
    text
}
