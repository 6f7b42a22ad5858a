//! Long rows of posts against the same posts one by one, through the interface: 100,000 of them, as no line of the fixed list has, with
//! a vector that is not allowed at the start, in the middle, at the end and nowhere.

mod common;

use common::{Random, VECTORS};
use curbizzolu::{Post, Posted, Refusal, Vcpu};

const LONG: usize = 100_000;

/// The posts one by one, until one is refused.
fn one_by_one(vcpu: &mut Vcpu, posts: &[Post]) -> Posted {
    for (applied, post) in posts.iter().enumerate() {
        if let Err(refusal) = vcpu.set_virtual_interrupt_pending(post.vector, post.level != 0) {
            return Posted { applied, refusal: Some(refusal) };
        }
    }
    Posted { applied: posts.len(), refusal: None }
}

#[test]
fn a_long_row_is_its_posts_one_by_one() {
    let mut r = Random(4);
    let mut posts: Vec<Post> = (0..LONG).map(|_| Post { vector: VECTORS[r.below(4) as usize], level: r.below(2) * r.number() }).collect();
    // a place above 2^16 too, so that a count that is cut shows
    for place in [Some(0), Some(1), Some(LONG / 2), Some(65_536), Some(LONG - 1), None] {
        let kept = place.map(|at: usize| std::mem::replace(&mut posts[at].vector, 5));
        for hvip in [0, u64::MAX] {
            let (mut row, mut single) = (Vcpu::new(1, 2), Vcpu::new(1, 2));
            (row.hvip, single.hvip) = (hvip, hvip);
            let given = row.post(&posts);
            assert_eq!(given, one_by_one(&mut single, &posts), "bad at {place:?}");
            assert_eq!(given, Posted { applied: place.unwrap_or(LONG), refusal: place.map(|_| Refusal::InvalidInput) });
            assert_eq!(row, single, "bad at {place:?}");
        }
        if let (Some(at), Some(vector)) = (place, kept) {
            posts[at].vector = vector;
        }
    }
}

/// A row in two calls, cut at some places: the same record, and the counts add up.
#[test]
fn a_row_in_two_calls_is_the_row() {
    let mut r = Random(5);
    let posts: Vec<Post> = (0..64).map(|_| Post { vector: VECTORS[r.below(4) as usize], level: r.below(2) }).collect();
    for cut in [0, 1, 31, 63, 64] {
        let (mut whole, mut parts) = (Vcpu::new(0, 0), Vcpu::new(0, 0));
        let (front, back) = posts.split_at(cut);
        let (first, second) = (parts.post(front), parts.post(back));
        assert_eq!(whole.post(&posts).whole(), Ok(64));
        assert_eq!((first.whole(), second.whole()), (Ok(cut), Ok(64 - cut)));
        assert_eq!(whole, parts, "cut at {cut}");
    }
}
