//! Where a round of timed runs lies.

use std::hint::black_box;

/// Runs `f` some 256 bytes down the stack for each step.
///
/// A store of two words that lies across two pages costs some ten nanoseconds on x86-64. The library clears the reply's words in
/// pairs, and where the stack begins at such a place, as it does in one process of some sixty, one handler is twice as slow from the
/// first run to the last. So each round lies elsewhere, once round a page, and the least is of a good place.
#[inline(never)]
pub fn lower(steps: u64, f: &mut dyn FnMut()) {
    let mut piece = [0u8; 240];
    black_box(&mut piece);
    if steps == 0 {
        f()
    } else {
        lower(steps - 1, f)
    }
    black_box(&mut piece);
}
