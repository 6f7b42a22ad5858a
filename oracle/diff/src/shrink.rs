//! Makes a mismatching input small: numbers to 0, then bits, one by one,
//! while the mismatch stays.

use scripted::Fetched;

use crate::input::Input;

pub fn shrink(mut input: Input, mut mismatches: impl FnMut(&Input) -> bool) -> Input {
    loop {
        let mut smaller = false;
        for part in [drop_bound, drop_stale] {
            let mut trial = input.clone();
            if part(&mut trial) && mismatches(&trial) {
                input = trial;
                smaller = true;
            }
        }
        smaller |= shrink_word(&mut input, &mut mismatches);
        let count = input.numbers().len();
        for at in 0..count {
            smaller |= shrink_number(&mut input, at, &mut mismatches);
        }
        if !smaller {
            return input;
        }
    }
}

/// True if there was something to drop.
fn drop_bound(input: &mut Input) -> bool {
    std::mem::replace(&mut input.bound, false)
}

/// True if there was something to drop.
fn drop_stale(input: &mut Input) -> bool {
    input.stale.take().is_some()
}

fn shrink_number(
    input: &mut Input,
    at: usize,
    mismatches: &mut impl FnMut(&Input) -> bool,
) -> bool {
    let mut number = *input.numbers()[at].1;
    let first = number;
    let mut attempt = |smaller: u64, number: &mut u64| {
        let mut trial = input.clone();
        *trial.numbers()[at].1 = smaller;
        if mismatches(&trial) {
            *input = trial;
            *number = smaller;
        }
    };
    if number != 0 {
        attempt(0, &mut number);
    }
    for bit in (0..64).rev() {
        if number >> bit & 1 != 0 {
            attempt(number & !(1 << bit), &mut number);
        }
    }
    number != first
}

fn shrink_word(input: &mut Input, mismatches: &mut impl FnMut(&Input) -> bool) -> bool {
    let first = input.script.fetch;
    let mut trial = input.clone();
    trial.script.fetch = Fetched::Unhandled;
    if first != Fetched::Unhandled && mismatches(&trial) {
        *input = trial;
    }
    for bit in (0..32).rev() {
        let Fetched::Word(word) = input.script.fetch else {
            break;
        };
        if word >> bit & 1 != 0 {
            let mut trial = input.clone();
            trial.script.fetch = Fetched::Word(word & !(1 << bit));
            if mismatches(&trial) {
                *input = trial;
            }
        }
    }
    input.script.fetch != first
}
