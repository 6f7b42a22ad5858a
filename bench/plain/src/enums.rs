//! The handler for a caller in Rust.

use crate::forms::Forms;
use crate::handler::Vcpu;
use crate::types::*;

#[inline(never)]
pub fn start<F: Forms>(vcpu: &mut Vcpu, trap: &Trap) -> Step {
    vcpu.start::<F>(trap)
}

#[inline(never)]
pub fn answer<F: Forms>(vcpu: &mut Vcpu, answer: &Answer) -> Step {
    vcpu.answer::<F>(answer)
}

#[inline(never)]
pub fn complete_load<F: Forms>(vcpu: &mut Vcpu, number: u64) -> bool {
    vcpu.complete_load::<F>(number)
}
