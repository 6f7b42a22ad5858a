//! A row of posts in one call, by 02's W4. It is written apart from the call
//! for one post, so that the tests can hold the two to each other.

use crate::*;

/// The vectors that 01 allows, each with its bit of hvip.
const LINES: [(u64, u32); 4] =
    [(INTERRUPT + 1, 2), (INTERRUPT + 5, 6), (9, 10), (INTERRUPT + 9, 10)];

/// The bit of hvip that a vector is about; none where it is not allowed.
fn line(vector: u64) -> Option<u32> {
    LINES.iter().find(|(allowed, _)| *allowed == vector).map(|(_, bit)| *bit)
}

impl Vcpu {
    /// Posts the row in order, up to the first post that is refused.
    pub fn post(&mut self, posts: &[Post]) -> Posted {
        // "2 before the first post while an ask waits, for an empty row too".
        if self.ask_waits() {
            return Posted { applied: 0, refusal: Some(Error::BadState) };
        }
        let stop = posts.iter().position(|post| line(post.vector).is_none());
        let applied = &posts[..stop.unwrap_or(posts.len())];
        // A post leaves every bit but its own, so a bit is what its last post
        // made it.
        for bit in [2, 6, 10] {
            if let Some(last) = applied.iter().rfind(|post| line(post.vector) == Some(bit)) {
                let level = (last.level != 0) as u64;
                self.hvip = self.hvip & !(1 << bit) | level << bit;
            }
        }
        Posted { applied: applied.len() as u64, refusal: stop.map(|_| Error::InvalidInput) }
    }
}
