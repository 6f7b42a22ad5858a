//! Stands in for `core`: everything of it, with an `arch` of its own, whose
//! assembly acts on the scripted host and hart.

pub use ::core::*;

#[doc(hidden)]
pub use scripted;

pub mod arch {
    pub use crate::asm;

    pub mod riscv64 {
        /// A fence has no effect that a record could show.
        pub unsafe fn hfence_gvma_all() {}
    }
}

/// The five forms of assembly that the published text has.
#[macro_export]
macro_rules! asm {
    ("ecall", in("a7") $eid:expr, lateout("a0") $result:ident $(,)?) => {
        $result = $crate::ecall_without_argument($eid)
    };
    ("ecall", in("a7") $eid:expr, inlateout("a0") $arg:ident => $result:ident $(,)?) => {
        $result = $crate::ecall_with_argument($eid, $arg)
    };
    ("csrw hgatp, {hgatp}", hgatp = in(reg) $value:expr $(,)?) => {{
        let value = $value;
        $crate::scripted::with_live(|live| live.hgatp = value)
    }};
    ("csrr {hgatp}, hgatp", hgatp = out(reg) $place:expr $(,)?) => {
        $place = $crate::scripted::live().hgatp
    };
    ("csrw hgatp, x0") => {
        $crate::scripted::with_live(|live| live.hgatp = 0)
    };
}

/// Eid 2 reads a character; the host knows no other ecall without argument.
#[doc(hidden)]
pub fn ecall_without_argument(eid: usize) -> usize {
    let request = match eid {
        2 => scripted::Request::GetChar,
        _ => scripted::Request::Unknown { what: "ecall without argument", number: eid as u64 },
    };
    scripted::ask(request).character as usize
}

/// Eid 1 writes one character. Its result is a number that no register may
/// show: the published text drops it.
#[doc(hidden)]
pub fn ecall_with_argument(eid: usize, arg: usize) -> usize {
    let request = match eid {
        1 => scripted::Request::Emit { number: arg as u64 },
        _ => scripted::Request::Unknown { what: "ecall with argument", number: eid as u64 },
    };
    scripted::ask(request).character as usize
}
