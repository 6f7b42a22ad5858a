//! The live CSRs as one record.

use std::cell::RefCell;

/// The CSRs that the published text reads or writes.
#[derive(Clone, Copy, Debug, Default, PartialEq, Eq)]
pub struct Live {
    pub scause: usize,
    pub stval: usize,
    pub htval: usize,
    pub htinst: usize,
    pub sstatus: usize,
    pub henvcfg: usize,
    pub hgatp: usize,
    pub hgeie: usize,
    pub hie: usize,
    pub htimedelta: usize,
    pub hvip: usize,
    pub vsatp: usize,
    pub vscause: usize,
    pub vsepc: usize,
    pub vsie: usize,
    pub vsscratch: usize,
    pub vsstatus: usize,
    pub vstimecmp: usize,
    pub vstval: usize,
    pub vstvec: usize,
}

thread_local! {
    static LIVE: RefCell<Live> = RefCell::new(Live::default());
}

/// A copy of the live CSRs.
pub fn live() -> Live {
    LIVE.with(|live| *live.borrow())
}

/// Changes the live CSRs.
pub fn with_live<R>(change: impl FnOnce(&mut Live) -> R) -> R {
    LIVE.with(|live| change(&mut live.borrow_mut()))
}
