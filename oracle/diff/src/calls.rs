//! Random calls between traps, fit and unfit.

use model::*;

use crate::random::Random;

/// The interrupt vectors that 01 allows.
const VECTORS: [u64; 4] = [INTERRUPT + 1, INTERRUPT + 5, INTERRUPT + 9, 9];

/// What a host does between traps: one of 01's calls, or 02's row of posts.
#[derive(Debug)]
pub enum Step {
    Call(Call),
    Row(Vec<Post>),
}

/// A step that both the Rust and 01 have, a row by its posts one by one.
pub fn random_step(r: &mut Random) -> Step {
    if r.once_in(12) {
        Step::Row(row(r))
    } else {
        Step::Call(random_call(r))
    }
}

/// A call that both the Rust and 01 have.
pub fn random_call(r: &mut Random) -> Call {
    match r.below(11) {
        0 => Call::Setup,
        1 => Call::SetEntry { entry: r.edgy() },
        2 => Call::GetGpr { index: index(r) },
        3 if r.coin() => Call::SetGpr { index: r.pick(&[16, 17, 17]), value: ecall_number(r) },
        3 => Call::SetGpr { index: index(r), value: r.edgy() },
        4 => {
            let (levels, mode) = r.pick(&[(3, 8), (4, 9), (3, 9), (4, 8), (5, 10), (2, 8), (0, 0)]);
            Call::SetNestedPageTable { levels, mode, root: root(r) }
        }
        5 | 6 => Call::InjectInterrupt { vector: vector(r) },
        7 => Call::SetVseipLevel { asserted: r.coin() },
        8 => Call::LatchHvip { bits: r.edgy() },
        9 => Call::SetReturnValue { value: r.edgy() },
        _ => Call::CompleteIpi {
            abi: r.pick(&[IpiAbi::Legacy, IpiAbi::SbiV02]),
            completion: r.pick(&[
                IpiCompletion::Success,
                IpiCompletion::InvalidParameter,
                IpiCompletion::Failed,
            ]),
        },
    }
}

/// A register index, some above 31.
fn index(r: &mut Random) -> u64 {
    if r.once_in(8) {
        r.edgy()
    } else {
        r.below(34)
    }
}

/// A number that an ecall's a7 or a6 may hold.
fn ecall_number(r: &mut Random) -> u64 {
    r.pick(&[
        EID_TIME, EID_SPI, EID_HSM, EID_HVC, EID_SRST, EID_DBCN, EID_RFNC, EID_PMU, 0, 1, 2, 3, 4,
        5, 6, 7, 8,
    ])
}

/// A page-table root, aligned or off by one bit.
pub fn root(r: &mut Random) -> u64 {
    let aligned = r.number() & !0x3fff;
    match r.below(4) {
        0 => r.edgy(),
        1 => aligned | 1 << r.below(14),
        _ => aligned,
    }
}

/// An interrupt vector, some of them not allowed.
pub fn vector(r: &mut Random) -> u64 {
    match r.below(4) {
        0 => r.edgy(),
        1 => INTERRUPT + r.below(16),
        _ => r.pick(&VECTORS),
    }
}

/// A row of up to 70 posts. Half of the rows have a vector that is not
/// allowed, and half of these another one.
pub fn row(r: &mut Random) -> Vec<Post> {
    let length = match r.below(3) {
        0 => r.below(3),
        1 => 60 + r.below(11),
        _ => r.below(71),
    };
    let mut posts: Vec<Post> = (0..length).map(|_| post(r)).collect();
    while length != 0 && r.coin() {
        posts[r.below(length) as usize].vector = bad_vector(r);
    }
    posts
}

/// A post with a vector that is allowed.
pub fn post(r: &mut Random) -> Post {
    Post { vector: r.pick(&VECTORS), level: level(r) }
}

/// Half of the levels clear.
fn level(r: &mut Random) -> u64 {
    match r.below(4) {
        0 | 1 => 0,
        2 => r.pick(&[1, 2, 1 << 63, u64::MAX]),
        _ => r.edgy(),
    }
}

/// A vector that is not allowed, most often close to one that is.
pub fn bad_vector(r: &mut Random) -> u64 {
    loop {
        let near = r.pick(&VECTORS);
        let vector = match r.below(4) {
            0 => near.wrapping_add(r.pick(&[1, u64::MAX])),
            1 => near ^ 1 << r.below(64),
            2 => INTERRUPT + r.below(16),
            _ => r.edgy(),
        };
        if !VECTORS.contains(&vector) {
            return vector;
        }
    }
}
