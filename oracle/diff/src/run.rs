//! A run of random traps on the published Rust and a subject.

use std::time::Instant;

use crate::compare::run_both;
use crate::constants;
use crate::generate;
use crate::input::Input;
use crate::options::{Mode, Options};
use crate::random::Random;
use crate::rust_side::RustSide;
use crate::sequence::{self, Parted};
use crate::shrink;
use crate::subject::Subject;
use crate::switches::Board;
use crate::tally::Tally;

pub struct Run<'a> {
    options: &'a Options,
    subject: &'a mut dyn Subject,
    pub board: Board,
    rust: RustSide,
    random: Random,
    classes: Vec<usize>,
    pub tally: Tally,
    /// The run stops after so many mismatches.
    pub enough: u64,
}

impl Run<'_> {
    pub fn new<'a>(options: &'a Options, board: Board, subject: &'a mut dyn Subject) -> Run<'a> {
        Run {
            options,
            subject,
            board,
            rust: RustSide::new(),
            random: Random::new(options.seed),
            classes: (0..options.only.len()).filter(|&class| options.only[class]).collect(),
            tally: Tally::new(),
            enough: options.enough,
        }
    }

    pub fn go(&mut self) {
        let due = self.options.traps;
        let started = Instant::now();
        let mut next_report = 0;
        if RustSide::fresh(7, 0x9000) != model::Vcpu::new(7, 0x9000) {
            println!("mismatch: the record of a new vCPU");
            self.tally.unexplained += 1;
        }
        for name in constants::wrong() {
            println!("mismatch: the constant {name}");
            self.tally.unexplained += 1;
        }
        while self.tally.traps < due && self.tally.unexplained < self.enough {
            if self.tally.traps >= next_report {
                eprint!(
                    "\r{} of {due} traps, {} s ",
                    self.tally.traps,
                    started.elapsed().as_secs()
                );
                next_report += due.div_ceil(100);
            }
            let single = match self.options.mode {
                Mode::Single => true,
                Mode::Sequence => false,
                _ => self.random.coin(),
            };
            if single {
                self.single(1000.min(due - self.tally.traps));
            } else {
                self.sequence(self.options.length.min(due - self.tally.traps));
            }
        }
        eprintln!("\r{} of {due} traps, {} s ", self.tally.traps, started.elapsed().as_secs());
    }

    /// Traps from a record of their own each, up to the first mismatch.
    fn single(&mut self, traps: u64) {
        for _ in 0..traps {
            let r = &mut self.random;
            let class = r.pick(&self.classes);
            let record = generate::record(r);
            let input = generate::input(r, class, record);
            let pair = run_both(&mut self.board, &mut self.rust, self.subject, &input, false);
            self.tally.trap(class, &pair.subject);
            self.tally.injection(&input);
            if !pair.agree() {
                self.tally.unexplained += 1;
                self.report(input);
                return;
            }
        }
    }

    /// Traps on one record, up to the first mismatch.
    fn sequence(&mut self, length: u64) {
        let parted = sequence::run(
            &mut self.random,
            length,
            &self.classes,
            &mut self.board,
            &mut self.rust,
            self.subject,
            &mut self.tally,
        );
        let Err(parted) = parted else {
            return;
        };
        self.tally.unexplained += 1;
        match parted {
            Parted::Trap(input) => self.report(*input),
            Parted::Call(text) => println!("\nmismatch in a call: {text}"),
        }
    }

    /// Shrinks a mismatch and prints it.
    fn report(&mut self, input: Input) {
        // The search is no part of the run's counts.
        let used = self.board.used;
        let subject = &mut *self.subject;
        let (board, rust) = (&mut self.board, &mut self.rust);
        let alone = !run_both(board, rust, subject, &input, false).agree();
        if alone {
            let small = shrink::shrink(input, |trial| {
                !run_both(board, rust, subject, trial, false).agree()
            });
            let pair = run_both(board, rust, subject, &small, false);
            println!("\nmismatch, smallest input:\n{}", small.print());
            println!("{}", pair.rust.differences(&pair.subject, ("Rust", subject.name())));
        } else {
            println!("\nmismatch inside a sequence only, at:\n{}", input.print());
        }
        self.board.used = used;
    }
}
