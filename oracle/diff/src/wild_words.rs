//! Random calls and rows of posts on random words by one entry of the proved
//! library, each held to from01 in every word of the reply and of the record:
//! unknown kinds, numbers that are no ask's, waiting parts that no call leaves,
//! words beside them that are nobody's.

use model::{Post, Vcpu};

use crate::calls::{root, row, vector};
use crate::generate;
use crate::instructions::*;
use crate::random::Random;
use crate::record_words::{PostedWords, ReplyWords, Words};

/// An entry over words.
pub struct Entry {
    pub name: &'static str,
    /// Makes the call of this kind with these numbers.
    pub call: fn(&mut Words, u64, [u64; 5]) -> ReplyWords,
    /// Posts a row.
    pub post: fn(&mut Words, &[Post]) -> PostedWords,
    /// Whether it can be given a kind that is no call's.
    pub any_kind: bool,
}

/// Calls are of kinds 1 to this.
const CALLS: u64 = 14;
/// What waits is of kinds 0 to this.
const WAITING: u64 = 12;
/// Asks are 1 to this.
const ASKS: u64 = 9;
/// The ask of each kind of what waits; 0 where none does.
const ASK_OF: [u64; 13] = [0, 0, 1, 1, 2, 3, 4, 5, 6, 7, 7, 8, 9];
/// The words of sstatus and hstatus.
const SSTATUS: usize = 33;
const HSTATUS: usize = 34;
/// Numbers that are no ask's.
const NO_ASKS: [u64; 3] = [0, 10, u64::MAX];

/// How often each number was drawn and each reply given. The last of a row
/// stands for all above.
#[derive(Default)]
pub struct Tally {
    pub calls: u64,
    kinds: [u64; CALLS as usize + 2],
    waiting: [u64; WAITING as usize + 2],
    answers: [u64; ASKS as usize + 3],
    exits: [u64; 11],
    asks: [u64; 10],
    done: [u64; 1],
    values: [u64; 1],
    errors: [u64; 8],
    /// Of the replies to kind 13, those that print.
    printed: u64,
    /// Loads and stores by a fetched 16-bit word.
    compressed: [u64; 2],
    /// Injections that set sstatus bit 8, of user and of supervisor code.
    injected: [u64; 2],
    /// Rows of posts by what waits, and by the refusal that stopped them, 0
    /// where none did.
    rows: [u64; WAITING as usize + 2],
    stops: [u64; 3],
    /// Rows that were stopped behind posts that were applied.
    late: u64,
}

impl Tally {
    fn rows(&self) -> [(&'static str, &[u64]); 10] {
        [
            ("call", &self.kinds),
            ("waits", &self.waiting),
            ("answer", &self.answers),
            ("exit", &self.exits),
            ("ask", &self.asks),
            ("done", &self.done),
            ("value", &self.values),
            ("error", &self.errors),
            ("row on", &self.rows),
            ("stop", &self.stops),
        ]
    }

    /// Prints the counts; true if everything was reached.
    pub fn print(&self, entry: &Entry) -> bool {
        let pairs = [self.compressed, self.injected];
        let mut reached = self.printed != 0 && self.late != 0 && !pairs.concat().contains(&0);
        for (what, row) in self.rows() {
            for (number, count) in row.iter().enumerate() {
                // Asks and errors are from 1 on; kinds of call too, and to
                // CALLS, where the entry is a function for each.
                let from_1 = matches!(what, "ask" | "error");
                let unknown = what == "call" && !(1..=CALLS as usize).contains(&number);
                if from_1 && number == 0 || unknown && !entry.any_kind {
                    continue;
                }
                println!("{what:8}{number:>3}{count:>12}");
                reached &= *count != 0;
            }
        }
        println!("bytes to print{:>9}", self.printed);
        println!("16-bit loads{:>11}", self.compressed[0]);
        println!("16-bit stores{:>10}", self.compressed[1]);
        println!("SPP for user{:>11}", self.injected[0]);
        println!("SPP for supervisor{:>5}", self.injected[1]);
        println!("stopped late{:>11}", self.late);
        if !reached {
            println!("a number was not reached");
        }
        reached
    }

    fn count(row: &mut [u64], number: u64) {
        row[(number as usize).min(row.len() - 1)] += 1;
    }

    fn reply(&mut self, kind: u64, due: &from01::Reply) {
        match due.kind {
            0 => Tally::count(&mut self.exits, due.number),
            1 => Tally::count(&mut self.asks, due.number),
            2 => self.done[0] += 1,
            3 => self.values[0] += 1,
            _ => Tally::count(&mut self.errors, due.number),
        }
        self.printed += (kind == 13 && due.values[0] != 0) as u64;
    }
}

/// Makes one call or posts one row on a record of any words; the mismatch in
/// words if there is one.
pub fn one(r: &mut Random, entry: &Entry, tally: &mut Tally) -> Result<(), String> {
    tally.calls += 1;
    if r.once_in(16) {
        one_row(r, entry, tally)
    } else {
        one_call(r, entry, tally)
    }
}

fn one_row(r: &mut Random, entry: &Entry, tally: &mut Tally) -> Result<(), String> {
    let before = words_of(&generate::record(r), &waiting(r, 7));
    let posts = row(r);
    let pairs: Vec<[u64; 2]> = posts.iter().map(|post| [post.vector, post.level]).collect();
    let (mut due_words, mut words) = (before, before);
    let due = from01::post(&mut due_words, &pairs);
    let is = (entry.post)(&mut words, &posts);
    Tally::count(&mut tally.rows, before[54]);
    Tally::count(&mut tally.stops, due.refusal);
    tally.late += (due.refusal != 0 && due.applied != 0) as u64;
    if (is.applied, is.refusal, words) == (due.applied, due.refusal, due_words) {
        return Ok(());
    }
    let mut text = format!("row {pairs:x?} on {before:x?}\n");
    text += &format!("  from01 {due:x?}\n  {} {is:x?}\n", entry.name);
    Err(text + &differences(entry, &before, &due_words, &words))
}

fn one_call(r: &mut Random, entry: &Entry, tally: &mut Tally) -> Result<(), String> {
    let (before, kind, numbers) = drawn(r, entry.any_kind);
    Tally::count(&mut tally.kinds, kind);
    Tally::count(&mut tally.waiting, before[54]);
    if kind == 11 {
        Tally::count(&mut tally.answers, numbers[0]);
    }
    let (mut due_words, mut words) = (before, before);
    let due = from01::call(&mut due_words, kind, numbers);
    let is = (entry.call)(&mut words, kind, numbers);
    tally.reply(kind, &due);
    if kind == 11 && numbers[1] & 3 != 3 && due.kind == 0 && matches!(due.number, 9 | 10) {
        tally.compressed[due.number as usize - 9] += 1;
    }
    // Of all answers, an injected fault alone changes sstatus.
    if kind == 11 && due_words[SSTATUS] != before[SSTATUS] {
        tally.injected[(before[HSTATUS] >> 8 & 1) as usize] += 1;
    }
    let same = is.kind == due.kind
        && is.number == due.number
        && is.values == due.values
        && is.args == due.args;
    if same && words == due_words {
        return Ok(());
    }
    let mut text = format!("call {kind} {numbers:x?} on {before:x?}\n");
    text += &format!("  from01 {due:x?}\n  {} {is:x?}\n", entry.name);
    Err(text + &differences(entry, &before, &due_words, &words))
}

/// The words that differ, one on each line.
fn differences(entry: &Entry, before: &Words, due: &Words, is: &Words) -> String {
    let mut text = String::new();
    for at in (0..58).filter(|&at| is[at] != due[at]) {
        let (was, due, is) = (before[at], due[at], is[at]);
        text += &format!("  word {at} was {was:x}, from01 {due:x}, {} {is:x}\n", entry.name);
    }
    text
}

/// A record's words with these waiting words.
fn words_of(record: &Vcpu, waiting: &[u64; 4]) -> Words {
    let mut words = record.to_words();
    words[54..].copy_from_slice(waiting);
    words
}

/// A record of random words, a call and its numbers. Half of the calls start a
/// trap or answer an ask: they have the most rules.
fn drawn(r: &mut Random, any_kind: bool) -> (Words, u64, [u64; 5]) {
    let kind = match r.below(16) {
        0 if any_kind => strange(r, CALLS),
        1..=4 => 10,
        5..=8 => 11,
        _ => 1 + r.below(CALLS),
    };
    let waiting = waiting(r, kind);
    let mut record = generate::record(r);
    let mut numbers: [u64; 5] = std::array::from_fn(|_| number(r));
    match kind {
        6 => {
            (numbers[0], numbers[1]) = r.pick(&[(3, 8), (4, 9), (3, 9), (4, 8), (5, 10), (2, 8)]);
            numbers[2] = root(r);
        }
        7 => numbers[0] = vector(r),
        9 if r.coin() => numbers[1] = r.pick(&[0, -3_i64 as u64, -1_i64 as u64]),
        10 => {
            let class = r.below(generate::CLASSES.len() as u64) as usize;
            let input = generate::input(r, class, record);
            let trap = input.trap;
            record = input.record;
            numbers = [trap.scause, trap.stval, trap.htval, trap.htinst, trap.room];
        }
        11 => answer(r, &waiting, &mut numbers),
        13 => numbers[0] = length(r, waiting[1]),
        _ => {}
    }
    (words_of(&record, &waiting), kind, numbers)
}

/// Four waiting words; half of them are of a kind that the call asks for.
fn waiting(r: &mut Random, call: u64) -> [u64; 4] {
    let kind = match r.below(8) {
        0 => strange(r, WAITING),
        1..=3 => r.below(WAITING + 1),
        _ => match call {
            // A guest page fault's fetch, whose answers have the most rules.
            11 if r.once_in(4) => 3,
            11 => 2 + r.below(WAITING - 1),
            12 => 1,
            13 => 6,
            _ => 0,
        },
    };
    // A width, or READ and WRITE.
    let known: &[u64] = if kind == 3 { &[1, 2] } else { &[1, 2, 4, 8] };
    let second = if r.coin() { r.pick(known) } else { number(r) };
    [kind, number(r), second, if r.coin() { r.below(2) } else { number(r) }]
}

/// An answer to the ask that waits, more often than not; else of another
/// number, or of none.
fn answer(r: &mut Random, waiting: &[u64; 4], numbers: &mut [u64; 5]) {
    let n = waiting[1];
    let ask = ASK_OF.get(waiting[0] as usize).copied().unwrap_or(0);
    numbers[0] = match r.below(8) {
        0 => r.pick(&NO_ASKS),
        1 => strange(r, ASKS),
        2 => r.below(ASKS + 1),
        _ => ask,
    };
    match ask {
        1 if r.coin() => {
            let word = match r.below(7) {
                0 => load(r),
                1 => store(r),
                2 => stimecmp(r),
                3 => compressed_load(r),
                4 => compressed_store(r),
                5 => compressed_other(r),
                _ => other(r),
            };
            (numbers[1], numbers[2]) = (r.number() << 32 | word as u64, 0);
        }
        1 => numbers[2] = r.below(8),
        2 => numbers[1] = r.around(8),
        3 | 6 => numbers[1] = r.around(n),
        5 if r.coin() => {
            (numbers[1], numbers[2]) = (0, if r.coin() { r.around(n) } else { r.below(64) });
        }
        _ => {}
    }
}

/// The length of a buffer to print n bytes of: that has them, or just not.
fn length(r: &mut Random, n: u64) -> u64 {
    match r.below(6) {
        0 => 0,
        1 => r.below(64),
        2 => n.wrapping_sub(1),
        3 => n,
        4 => n.wrapping_add(1),
        _ => r.edgy(),
    }
}

/// A number that may be none of 0 to `last`: one above, one whose low half is
/// known, any.
fn strange(r: &mut Random, last: u64) -> u64 {
    match r.below(4) {
        0 => 0,
        1 => last + 1,
        2 => 1 << (32 + r.below(32)) | r.below(last + 1),
        _ => r.edgy(),
    }
}

/// Small numbers often: they are indexes, counts and flags.
fn number(r: &mut Random) -> u64 {
    if r.coin() {
        r.below(34)
    } else {
        r.edgy()
    }
}
