//! Stands in for riscv: trap causes and two CSRs over the live record.

pub mod interrupt;
pub mod register;

/// An exception that has a number.
pub trait ExceptionNumber: Sized {
    fn from_number(number: usize) -> Option<Self>;
}
