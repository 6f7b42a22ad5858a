//! Trap causes. The interrupts known here are the three that the published
//! text names; the crate's own list isn't at hand.

use crate::ExceptionNumber;

/// The supervisor's interrupts.
#[derive(Clone, Copy, Debug, PartialEq, Eq)]
pub enum Interrupt {
    SupervisorSoft,
    SupervisorTimer,
    SupervisorExternal,
}

impl Interrupt {
    fn from_number(number: usize) -> Option<Self> {
        match number {
            1 => Some(Self::SupervisorSoft),
            5 => Some(Self::SupervisorTimer),
            9 => Some(Self::SupervisorExternal),
            _ => None,
        }
    }
}

/// A cause: an interrupt or an exception.
#[derive(Clone, Copy, Debug, PartialEq, Eq)]
pub enum Trap<I, E> {
    Interrupt(I),
    Exception(E),
}

/// The code is not on the list.
#[derive(Clone, Copy, Debug, PartialEq, Eq)]
pub struct UnknownCode;

impl Trap<usize, usize> {
    /// The named cause, if its code is known.
    pub fn try_into<E: ExceptionNumber>(self) -> Result<Trap<Interrupt, E>, UnknownCode> {
        match self {
            Trap::Interrupt(code) => {
                Interrupt::from_number(code).map(Trap::Interrupt).ok_or(UnknownCode)
            }
            Trap::Exception(code) => {
                E::from_number(code).map(Trap::Exception).ok_or(UnknownCode)
            }
        }
    }
}
