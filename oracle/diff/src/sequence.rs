//! Long sequences on one record: traps, load completions, the calls between
//! traps and rows of posts, with what a guest's own run changes in between.

use model::{Call, Post, Vcpu, Waiting};

use crate::calls::{random_step, Step};
use crate::compare::run_both;
use crate::generate;
use crate::input::Input;
use crate::outcome::*;
use crate::random::Random;
use crate::rust_side::RustSide;
use crate::subject::Subject;
use crate::switches::{adjust_call, Board};
use crate::tally::Tally;

/// The Rust's vCPU leaves the hart and comes back once in so many traps.
const REBIND: u64 = 64;

/// Where the two sides parted.
pub enum Parted {
    Trap(Box<Input>),
    Call(String),
}

/// Runs `length` traps on one record.
pub fn run(
    r: &mut Random,
    length: u64,
    classes: &[usize],
    board: &mut Board,
    rust: &mut RustSide,
    subject: &mut dyn Subject,
    tally: &mut Tally,
) -> Result<(), Parted> {
    let bound = r.coin();
    let mut record = generate::record(r);
    rust.load(&record, bound, None);
    subject.load(&record);
    for at in 1..=length {
        if at % REBIND == 0 {
            let wrong = rust.rebind();
            if !wrong.is_empty() {
                return Err(Parted::Call(format!("unbind and bind: {wrong:?}")));
            }
        }
        while r.once_in(3) {
            one_step(&random_step(r), board, rust, subject, tally)?;
        }
        record = subject.record();
        let class = r.pick(classes);
        // The guest runs: its registers and some CSRs change. The trap writes
        // sstatus, in which an injection has set bit 8. The generator sets the
        // argument registers that its class needs.
        let mut input = generate::input(r, class, record.clone());
        if r.once_in(4) {
            input.record.sstatus = r.number();
            input.record.hstatus = r.number();
            input.record.vsstatus = r.number();
            input.record.vstvec = r.edgy();
        }
        input.bound = bound;
        input.stale = None;
        if input.record != record {
            rust.load(&input.record, bound, None);
            subject.load(&input.record);
        }
        let pair = run_both(board, rust, subject, &input, true);
        tally.trap(class, &pair.subject);
        tally.injection(&input);
        if !pair.agree() {
            return Err(Parted::Trap(Box::new(input)));
        }
        record = pair.subject.record;
        if pair.adjusted {
            rust.load(&record, bound, None);
        }
        if let Waiting::Load { .. } = record.waiting {
            while r.once_in(4) {
                one_step(&random_step(r), board, rust, subject, tally)?;
            }
            let call = Call::CompleteLoad { number: r.edgy() };
            tally.completions += 1;
            one_call(&call, board, rust, subject, tally)?;
        }
    }
    Ok(())
}

fn one_step(
    step: &Step,
    board: &mut Board,
    rust: &mut RustSide,
    subject: &mut dyn Subject,
    tally: &mut Tally,
) -> Result<(), Parted> {
    match step {
        Step::Call(call) => one_call(call, board, rust, subject, tally),
        Step::Row(posts) => one_row(posts, board, rust, subject, tally),
    }
}

/// Posts the row on the subject in one call and on the Rust, which has no call
/// for a row, one by one, and compares.
fn one_row(
    posts: &[Post],
    board: &mut Board,
    rust: &mut RustSide,
    subject: &mut dyn Subject,
    tally: &mut Tally,
) -> Result<(), Parted> {
    let before: Vcpu = subject.record();
    tally.rows += 1;
    let by_rust = rust_row(posts, board, rust);
    let ending = Ending::of_row(&subject.post(posts));
    same(&by_rust, ending, &format!("a row, {posts:x?}"), &before, subject)
}

/// The row on the Rust, up to the first post that is refused or shows more
/// than an ending and a record.
pub fn rust_row(posts: &[Post], board: &mut Board, rust: &mut RustSide) -> Outcome {
    let mut row = Outcome::new(Ending::row(0, None), rust.record());
    for (at, post) in posts.iter().enumerate() {
        let pending = post.level != 0;
        let call = Call::SetVirtualInterruptPending { vector: post.vector, pending };
        let Some(mut one) = rust.call(&call) else {
            break;
        };
        adjust_call(board, &call, &mut one);
        let is_done = one.ending == Ending::new(DONE, &[]);
        let is_bare = one == Outcome::new(one.ending, one.record.clone());
        let stopped = (!is_done).then_some(one.ending);
        row = Outcome { ending: Ending::row(at as u64 + is_done as u64, stopped), ..one };
        if !is_done || !is_bare {
            break;
        }
    }
    row
}

/// Makes the call on both sides and compares.
fn one_call(
    call: &Call,
    board: &mut Board,
    rust: &mut RustSide,
    subject: &mut dyn Subject,
    tally: &mut Tally,
) -> Result<(), Parted> {
    let before: Vcpu = subject.record();
    let Some(mut by_rust) = rust.call(call) else {
        return Ok(());
    };
    tally.calls += 1;
    adjust_call(board, call, &mut by_rust);
    let ending = Ending::of(&subject.call(call));
    same(&by_rust, ending, &format!("{call:x?}"), &before, subject)
}

/// The subject ended as the Rust did and left the same record, or what was called is told with the record before it.
fn same(by_rust: &Outcome, ending: Ending, called: &str, before: &Vcpu, subject: &dyn Subject) -> Result<(), Parted> {
    let by_subject = Outcome::new(ending, subject.record());
    if *by_rust == by_subject {
        return Ok(());
    }
    let text = by_rust.differences(&by_subject, ("Rust", subject.name()));
    Err(Parted::Call(format!("{called}\n{text}  on {before:x?}\n")))
}
