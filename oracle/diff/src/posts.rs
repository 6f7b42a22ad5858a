//! Rows of posts by one call of the subject each: of several lengths, with a
//! vector that is not allowed at each place and with none, while nothing, a
//! load or an ask waits. Each is held to the same posts one by one, by the
//! same subject's call for one, and to from01, in all 58 words.

use model::*;

use crate::calls::{bad_vector, post};
use crate::generate;
use crate::random::Random;
use crate::subject::Subject;

/// The lengths of the rows, in posts.
pub const LENGTHS: [usize; 5] = [0, 1, 2, 64, 100_000];

/// Up to this length rows are short.
const SHORT: usize = 64;
/// So many rows are drawn of each short length, and one of each other.
const DRAWN: u64 = 100;
/// So many places of a long row are in a sample, beside those at its ends.
const OTHERS: usize = 1000;

/// Judges rows of these lengths; how many, or the mismatch in words. Without
/// `each` a long row is stopped at a sample of its places, unless an ask waits.
pub fn run(
    r: &mut Random,
    subject: &mut dyn Subject,
    lengths: &[usize],
    each: bool,
) -> Result<u64, String> {
    let mut rows = 0;
    println!("{:>8}  {:28}{:>8}{:>10}{:>14}", "length", "waits", "places", "rows", "applied");
    // The long rows last: a fault that a short one shows is shown at once.
    for &length in lengths {
        let drawn = if length <= SHORT { DRAWN } else { 1 };
        for (name, waiting) in waitings(r) {
            let (mut judged, mut applied) = (0, 0);
            for _ in 0..drawn {
                let mut case = Case::new(r, subject, waiting, length)?;
                for place in case.places(r, each) {
                    let posted = case.judge(r, subject, place);
                    applied += posted.map_err(|text| format!("{name} waits, {text}"))?.applied;
                    judged += 1;
                }
            }
            rows += judged;
            let places = if judged == drawn * (length as u64 + 1) { "each" } else { "a sample" };
            println!("{length:>8}  {name:28}{places:>8}{judged:>10}{applied:>14}");
        }
    }
    Ok(rows)
}

/// What may wait, each kind with numbers of its own.
fn waitings(r: &mut Random) -> [(&'static str, Waiting); 13] {
    let width = r.pick(&[Width::One, Width::Two, Width::Four, Width::Eight]);
    let addr = GuestPhysAddr(r.edgy());
    let [n, v] = [r.edgy(), r.edgy()];
    let page_fault = FetchFor::GuestPageFault { addr, write: r.coin() };
    [
        ("nothing", Waiting::Nothing),
        ("a load", Waiting::Load { rd: r.below(32), width, signed: r.coin() }),
        ("ask 1, virtual instruction", Waiting::Fetch(FetchFor::VirtualInstruction)),
        ("ask 1, guest page fault", Waiting::Fetch(page_fault)),
        ("ask 2", Waiting::Mask),
        ("ask 3", Waiting::CopyIn { n }),
        ("ask 4", Waiting::Print { n }),
        ("ask 5", Waiting::Read { n, at: addr }),
        ("ask 6", Waiting::CopyOut { v }),
        ("ask 7, legacy", Waiting::Emit(EmitFor::Legacy)),
        ("ask 7, byte", Waiting::Emit(EmitFor::Byte)),
        ("ask 8", Waiting::GetChar),
        ("ask 9", Waiting::Forward),
    ]
}

/// What a row comes to.
struct Due {
    posted: Posted,
    words: [u64; 58],
}

/// A record and a row that is posted on it.
struct Case {
    start: Vcpu,
    /// Posts with vectors that are allowed.
    posts: Vec<Post>,
    /// The same as from01 takes them.
    pairs: Vec<[u64; 2]>,
    /// A vector that is not allowed, for each place.
    bad: Vec<u64>,
    /// What the row comes to one by one, by the place of the bad vector; last
    /// where there is none.
    dues: Vec<Due>,
}

impl Case {
    /// A row of random posts on a random record.
    fn new(
        r: &mut Random,
        subject: &mut dyn Subject,
        waiting: Waiting,
        length: usize,
    ) -> Result<Case, String> {
        let start = Vcpu { waiting, ..generate::record(r) };
        let posts: Vec<Post> = (0..length).map(|_| post(r)).collect();
        let pairs = posts.iter().map(|post| [post.vector, post.level]).collect();
        let bad = (0..length).map(|_| bad_vector(r)).collect();
        let mut case = Case { start, posts, pairs, bad, dues: Vec::with_capacity(length + 1) };
        case.post_one_by_one(subject)?;
        Ok(case)
    }

    /// Makes the posts by the call for one, and at each place the bad one
    /// before the good one: it is refused, and if it changed something, the
    /// words from there on show it.
    fn post_one_by_one(&mut self, subject: &mut dyn Subject) -> Result<(), String> {
        subject.load(&self.start);
        for (at, post) in self.posts.iter().enumerate() {
            let applied = at as u64;
            let bad = Post { vector: self.bad[at], ..*post };
            let Reply::Error(error) = subject.post_one(&bad) else {
                return Err(format!("one post is not refused: {bad:x?}"));
            };
            let posted = Posted { applied, refusal: Some(error) };
            self.dues.push(Due { posted, words: subject.words() });
            if let Reply::Error(error) = subject.post_one(post) {
                // No row comes further than this.
                let posted = Posted { applied, refusal: Some(error) };
                let words = subject.words();
                self.dues.resize_with(self.posts.len() + 1, || Due { posted, words });
                return Ok(());
            }
        }
        // One by one an empty row has no post that an ask refuses; 02 has the
        // row refused all the same.
        let refuses = self.posts.is_empty() && self.start.ask_waits();
        let refusal = refuses.then_some(Error::BadState);
        let posted = Posted { applied: self.posts.len() as u64, refusal };
        self.dues.push(Due { posted, words: subject.words() });
        Ok(())
    }

    /// The places of a bad vector, and the one behind the last post for none.
    /// Without `each` some of them where the row is long and no ask waits.
    fn places(&self, r: &mut Random, each: bool) -> Vec<usize> {
        let length = self.posts.len();
        if each || self.start.ask_waits() || length <= 2 * SHORT {
            return (0..=length).collect();
        }
        let between = (length - 2 * SHORT) as u64;
        let others = (0..OTHERS).map(|_| SHORT + r.below(between) as usize);
        (0..SHORT).chain(others).chain(length - SHORT..=length).collect()
    }

    /// Posts the row with a bad vector at the place; with none behind the last.
    fn judge(
        &mut self,
        r: &mut Random,
        subject: &mut dyn Subject,
        place: usize,
    ) -> Result<Posted, String> {
        let length = self.posts.len();
        let mut changed = [None; 2];
        if place < length {
            changed[0] = Some(self.exchange(place));
            // In half of the rows one of those behind it is bad as well.
            if place + 1 < length && r.coin() {
                let behind = (length - place - 1) as u64;
                changed[1] = Some(self.exchange(place + 1 + r.below(behind) as usize));
            }
        }
        subject.load(&self.start);
        let is = Due { posted: subject.post(&self.posts), words: subject.words() };
        let mut words = self.start.to_words();
        let by_01 = from01::post(&mut words, &self.pairs);
        for (at, vector) in changed.into_iter().flatten() {
            self.posts[at].vector = vector;
            self.pairs[at][0] = vector;
        }
        let due = &self.dues[place];
        let number = is.posted.refusal.map_or(0, Error::number);
        let as_one_by_one = is.posted == due.posted && is.words == due.words;
        let as_01 = (is.posted.applied, number, is.words) == (by_01.applied, by_01.refusal, words);
        if as_one_by_one && as_01 {
            return Ok(is.posted);
        }
        let start = self.start.to_words();
        let bad = self.bad.get(place).map_or("no bad one".into(), |v| format!("{v:x} at {place}"));
        let mut text = format!("{length} posts, {bad}\n");
        text += &format!("  in one call {:?}\n  one by one {:?}\n", is.posted, due.posted);
        text += &format!("  from01 {by_01:?}\n");
        for at in (0..58).filter(|&at| is.words[at] != due.words[at] || is.words[at] != words[at]) {
            let (was, one_by_one, by_01) = (start[at], due.words[at], words[at]);
            text += &format!("  word {at} was {was:x}, in one call {:x}, ", is.words[at]);
            text += &format!("one by one {one_by_one:x}, from01 {by_01:x}\n");
        }
        Err(text)
    }

    /// Puts the bad vector in at a place; gives the place and the good one.
    fn exchange(&mut self, at: usize) -> (usize, u64) {
        let good = self.posts[at].vector;
        self.posts[at].vector = self.bad[at];
        self.pairs[at][0] = self.bad[at];
        (at, good)
    }
}
