//! "Take a row of posts, each a vector and a level, in one call, with the same
//! outcome as posting them one by one in order" (W4). The rule is written out
//! here and doesn't use the call for one post: the tests hold the two together.

use crate::record::*;
use crate::reply::*;

/// One of a row of posts: a vector and a level. Word 0 is the vector, word 1
/// the level: 0 clears, any other sets (reading).
pub type Post = [u64; 2];

/// What a row of posts gives: how many were applied, and the number of the
/// refusal that stopped it, 0 if none did (reading).
#[derive(Clone, Copy, Debug, PartialEq, Eq)]
pub struct Posted {
    pub applied: u64,
    pub refusal: u64,
}

/// A row of posts in one call. 02, W4.
pub fn post(record: &mut [u64; 58], posts: &[Post]) -> Posted {
    let mut r = Record(record);

    // "2 before the first post while an ask waits, for an empty row too, with
    // 0 applied" (W4). A waiting load refuses nothing (reading).
    if r.waits().ask_number().is_some() {
        return Posted {
            applied: 0,
            refusal: BAD_STATE,
        };
    }

    // "An empty row applies 0" (W4).
    let mut applied = 0;
    for &[vector, level] in posts {
        // "The call stops at the first post that is refused, keeps the earlier
        // ones, and says how many were applied"; "1 for a vector not allowed"
        // (W4). Posts behind it are not looked at (reading).
        let Some(bit) = hvip_bit(vector) else {
            return Posted {
                applied,
                refusal: INVALID_INPUT,
            };
        };
        let others = r.get(HVIP) & !(1 << bit);
        r.set(HVIP, others | (u64::from(level != 0) << bit));
        applied += 1;
    }
    Posted {
        applied,
        refusal: 0,
    }
}

/// "Interrupt pending, set or cleared: 2^63+1 is hvip bit 2, 2^63+5 bit 6,
/// 9 and 2^63+9 bit 10" (01, The record). No other vector is allowed.
fn hvip_bit(vector: u64) -> Option<u32> {
    const INTERRUPT: u64 = 1 << 63;
    const ALLOWED: [(u64, u32); 4] = [
        (INTERRUPT + 1, 2),
        (INTERRUPT + 5, 6),
        (9, 10),
        (INTERRUPT + 9, 10),
    ];
    let found = ALLOWED.iter().find(|(allowed, _)| *allowed == vector);
    found.map(|(_, bit)| *bit)
}
