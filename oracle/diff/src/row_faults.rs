//! Mode posts notices each of these faults in a row of posts, also where the
//! call for one post has the same.

use model::*;

use crate::posts::run;
use crate::random::Random;
use crate::smallest::subjects;
use crate::subject::{Model, Subject};

/// The model with another call for a row.
struct Faulty {
    model: Model,
    post: fn(&mut Vcpu, &[Post]) -> Posted,
    /// One post is a row of one.
    alike: bool,
}

impl Subject for Faulty {
    fn name(&self) -> &'static str {
        "faulty"
    }

    fn load(&mut self, record: &Vcpu) {
        self.model.load(record);
    }

    fn record(&self) -> Vcpu {
        self.model.record()
    }

    fn words(&self) -> [u64; 58] {
        self.model.words()
    }

    fn call(&mut self, call: &Call) -> Reply {
        self.model.call(call)
    }

    fn post_one(&mut self, post: &Post) -> Reply {
        if !self.alike {
            return self.model.post_one(post);
        }
        match self.post(&[*post]).refusal {
            Some(error) => Reply::Error(error),
            None => Reply::Done,
        }
    }

    fn post(&mut self, posts: &[Post]) -> Posted {
        (self.post)(&mut self.model.0, posts)
    }

    fn to_print<'a>(&self, buffer: &'a [u8]) -> &'a [u8] {
        self.model.to_print(buffer)
    }
}

/// The row with each post changed first.
fn changed(v: &mut Vcpu, posts: &[Post], change: impl Fn(Post) -> Post) -> Posted {
    let posts: Vec<Post> = posts.iter().map(|post| change(*post)).collect();
    v.post(&posts)
}

type Fault = (&'static str, fn(&mut Vcpu, &[Post]) -> Posted);

/// Noticed in rows of up to 64 posts.
const FAULTS: [Fault; 16] = [
    ("posts behind the refused one are applied", |v, posts| {
        let posted = v.post(posts);
        posts.iter().for_each(|post| {
            v.post(&[*post]);
        });
        posted
    }),
    ("the refused post is counted", |v, posts| {
        let posted = v.post(posts);
        let refused = posted.refusal == Some(Error::InvalidInput);
        Posted { applied: posted.applied + refused as u64, ..posted }
    }),
    ("a refusal takes the earlier posts back", |v, posts| {
        let before = v.clone();
        let posted = v.post(posts);
        if posted.refusal.is_some() {
            *v = before;
        }
        posted
    }),
    ("a refusal says that nothing was applied", |v, posts| {
        let posted = v.post(posts);
        Posted { applied: if posted.refusal.is_some() { 0 } else { posted.applied }, ..posted }
    }),
    ("the last bad vector stops the row", |v, posts| {
        let last = posts.iter().rposition(|post| Vcpu::zero().post(&[*post]).refusal.is_some());
        let posted = v.post(posts);
        Posted { applied: last.map_or(posted.applied, |at| at as u64), ..posted }
    }),
    ("the refused post changes a bit", |v, posts| {
        let posted = v.post(posts);
        if posted.refusal == Some(Error::InvalidInput) {
            v.hvip ^= 1 << 9;
        }
        posted
    }),
    ("a refusal is 3, as the Rust's", |v, posts| {
        let posted = v.post(posts);
        let is_1 = posted.refusal == Some(Error::InvalidInput);
        Posted { refusal: if is_1 { Some(Error::Unsupported) } else { posted.refusal }, ..posted }
    }),
    ("an empty row is taken while an ask waits", |v, posts| match posts {
        [] => Posted { applied: 0, refusal: None },
        _ => v.post(posts),
    }),
    ("1 goes before 2", |v, posts| match posts {
        [first, ..] if Vcpu::zero().post(&[*first]).refusal.is_some() => {
            Posted { applied: 0, refusal: Some(Error::InvalidInput) }
        }
        _ => v.post(posts),
    }),
    ("a waiting load refuses", |v, posts| match v.waiting {
        Waiting::Load { .. } => Posted { applied: 0, refusal: Some(Error::BadState) },
        _ => v.post(posts),
    }),
    ("a waiting load is dropped", |v, posts| {
        let posted = v.post(posts);
        if !v.ask_waits() {
            v.waiting = Waiting::Nothing;
        }
        posted
    }),
    ("a level that is not 1 clears", |v, posts| {
        changed(v, posts, |post| Post { level: (post.level == 1) as u64, ..post })
    }),
    ("a level's upper half is not looked at", |v, posts| {
        changed(v, posts, |post| Post { level: post.level as u32 as u64, ..post })
    }),
    ("a vector's bits 62..32 are not looked at", |v, posts| {
        changed(v, posts, |post| Post { vector: post.vector & (1 << 63 | 0xffff_ffff), ..post })
    }),
    ("a vector's bit 63 is not looked at", |v, posts| {
        changed(v, posts, |post| Post { vector: post.vector | INTERRUPT, ..post })
    }),
    ("the posts go backwards", |v, posts| {
        let applied = v.clone().post(posts).applied as usize;
        let backwards: Vec<Post> = posts[..applied].iter().rev().copied().collect();
        v.post(&backwards);
        v.clone().post(posts)
    }),
];

/// Noticed in rows of 100,000 posts.
const LONG_FAULTS: [Fault; 2] = [
    ("the count has 16 bits", |v, posts| {
        let posted = v.post(posts);
        Posted { applied: posted.applied as u16 as u64, ..posted }
    }),
    ("posts behind the 99,000th are not applied", |v, posts| {
        let posted = v.clone().post(posts);
        v.post(&posts[..posts.len().min(99_000)]);
        posted
    }),
];

fn is_noticed((name, post): Fault, lengths: &[usize]) {
    for alike in [false, true] {
        let mut subject = Faulty { model: Model(Vcpu::zero()), post, alike };
        let each = false;
        let judged = run(&mut Random::new(1), &mut subject, lengths, each);
        assert!(judged.is_err(), "{name}");
    }
}

#[test]
fn each_fault_is_noticed() {
    for fault in FAULTS {
        is_noticed(fault, &[0, 1, 2, 64]);
    }
    for fault in LONG_FAULTS {
        is_noticed(fault, &[100_000]);
    }
}

#[test]
fn the_subjects_have_none() {
    for mut subject in subjects() {
        let each = true;
        let judged = run(&mut Random::new(1), subject.as_mut(), &[0, 1, 2, 64, 300], each);
        // 13 kinds of what waits, 100 rows of each short length, a place more
        // than posts.
        assert_eq!(judged, Ok(13 * (100 * (1 + 2 + 3 + 65) + 301)));
    }
}
