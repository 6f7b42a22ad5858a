//! Calls and rows of posts, in and out of turn, on the subject and on the
//! model. The Rust has no counterpart of refusals 1, 2 and 7 and of load
//! completions, so the model judges these.

use model::*;

use crate::calls::{random_call, row, vector, Step};
use crate::generate;
use crate::instructions::*;
use crate::random::Random;
use crate::subject::{Model, Subject};

#[derive(Default)]
pub struct Tally {
    /// How often each number was refused, at its index; at 0 what was not.
    pub refused: [u64; 8],
    /// How often each number stopped a row of posts, at its index; whole rows
    /// at 0.
    pub rows: [u64; 3],
}

/// What a step came to.
#[derive(Debug, PartialEq)]
enum Came {
    Reply(Reply),
    Posted(Posted),
}

/// Makes `length` calls on one record; the mismatch in words if there is one.
pub fn run(
    r: &mut Random,
    length: u64,
    subject: &mut dyn Subject,
    tally: &mut Tally,
) -> Result<(), String> {
    let mut judge = Model(generate::record(r));
    subject.load(&judge.0);
    for _ in 0..length {
        let before = judge.record();
        let step = any_step(r, &before);
        let (due, is) = (make(&mut judge, &step), make(subject, &step));
        let (error, applied) = match due {
            Came::Reply(Reply::Error(error)) => (Some(error), 0),
            Came::Reply(_) => (None, 1),
            Came::Posted(posted) => (posted.refusal, posted.applied),
        };
        let number = error.map_or(0, Error::number) as usize;
        tally.refused[number] += 1;
        if let Came::Posted(_) = due {
            tally.rows[number] += 1;
        }
        let quiet = matches!(number, 1 | 2 | 7) && applied == 0;
        if quiet && judge.0 != before {
            return Err(format!("the model changed its record in a refused {step:x?}"));
        }
        let buffer: [u8; 64] = std::array::from_fn(|i| i as u8);
        let lent = &buffer[..r.below(65) as usize];
        let same_bytes = judge.to_print(lent) == subject.to_print(lent);
        if due != is || judge.0 != subject.record() || !same_bytes {
            return Err(format!(
                "{step:x?}\n  on {before:x?}\n  model {due:x?}\n    {:x?}\n  {} {is:x?}\n    {:x?}\n",
                judge.0,
                subject.name(),
                subject.record(),
            ));
        }
    }
    Ok(())
}

/// Makes the call, or posts the row.
fn make(subject: &mut dyn Subject, step: &Step) -> Came {
    match step {
        Step::Call(call) => Came::Reply(subject.call(call)),
        Step::Row(posts) => Came::Posted(subject.post(posts)),
    }
}

/// Any call or row; half of them carry the trap on.
fn any_step(r: &mut Random, record: &Vcpu) -> Step {
    if r.coin() {
        return Step::Call(match record.waiting {
            Waiting::Nothing => start(r, record),
            Waiting::Load { .. } => Call::CompleteLoad { number: r.edgy() },
            waiting => Call::Answer(fitting_answer(r, &waiting)),
        });
    }
    Step::Call(match r.below(6) {
        0 => Call::SetVirtualInterruptPending { vector: vector(r), pending: r.coin() },
        1 => start(r, record),
        2 if r.once_in(4) => Call::Answer(Answer::Other { number: r.pick(&[0, 10, u64::MAX]) }),
        2 => {
            let kind = r.pick(&waitings());
            Call::Answer(fitting_answer(r, &kind))
        }
        3 => Call::CompleteLoad { number: r.edgy() },
        4 => return Step::Row(row(r)),
        _ => random_call(r),
    })
}

/// A trap by its numbers alone: the record stays as it is, so that an ecall
/// is whatever the registers make it. Registers are written by calls.
fn start(r: &mut Random, record: &Vcpu) -> Call {
    let class = r.below(generate::CLASSES.len() as u64) as usize;
    Call::Start(generate::input(r, class, record.clone()).trap)
}

/// One waiting part of each kind.
fn waitings() -> [Waiting; 9] {
    [
        Waiting::Fetch(FetchFor::VirtualInstruction),
        Waiting::Mask,
        Waiting::CopyIn { n: 1 },
        Waiting::Print { n: 1 },
        Waiting::Read { n: 1, at: GuestPhysAddr(0) },
        Waiting::CopyOut { v: 1 },
        Waiting::Emit(EmitFor::Byte),
        Waiting::GetChar,
        Waiting::Forward,
    ]
}

/// An answer of the kind that the waiting part wants.
fn fitting_answer(r: &mut Random, waiting: &Waiting) -> Answer {
    match *waiting {
        Waiting::Fetch(_) => {
            let at = r.edgy();
            Answer::Fetch(match r.below(13) {
                0 => FetchAnswer::Page(GuestVirtAddr(at)),
                1 => FetchAnswer::Access(GuestVirtAddr(at)),
                2 => FetchAnswer::Misaligned(GuestVirtAddr(at)),
                3 => FetchAnswer::GuestPage(GuestPhysAddr(at)),
                4 => FetchAnswer::Unhandled,
                5 => FetchAnswer::Word(stimecmp(r)),
                6 => FetchAnswer::Word(load(r)),
                7 => FetchAnswer::Word(store(r)),
                8 => FetchAnswer::Word(other(r)),
                9 => FetchAnswer::Word(compressed_load(r)),
                10 => FetchAnswer::Word(compressed_store(r)),
                11 => FetchAnswer::Word(compressed_other(r)),
                _ => FetchAnswer::Word(at as u32),
            })
        }
        Waiting::Mask => Answer::Mask { count: r.around(8), bytes: r.number() },
        Waiting::CopyIn { n } => Answer::CopyIn { count: r.around(n) },
        Waiting::Print { n } => Answer::Print { error: r.edgy(), value: r.around(n) },
        Waiting::Read { n, .. } => {
            let error = if r.coin() { 0 } else { r.edgy() };
            Answer::Read { error, value: r.around(n) }
        }
        Waiting::CopyOut { v } => Answer::CopyOut { count: r.around(v) },
        Waiting::Emit(_) => Answer::Emit,
        Waiting::GetChar => Answer::GetChar { number: r.edgy() },
        Waiting::Forward | Waiting::Nothing | Waiting::Load { .. } => {
            Answer::Forward { error: r.edgy(), value: r.edgy() }
        }
    }
}
