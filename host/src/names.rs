//! Numbers and tests that a host needs beside the calls. docs/HOSTS.md says how they are used.

use crate::{Ask, Step, Trap};

/// The eid (a7) of a guest's call to its host, [`Exit::Hypercall`](crate::Exit::Hypercall): "HVC".
///
/// ```
/// assert_eq!(curbizzolu::EID_HVC.to_be_bytes()[5..], *b"HVC");
/// ```
pub const EID_HVC: u64 = 0x48_5643;

/// The exceptions that go straight to the guest: load hedeleg with this. The record's rules count on it.
///
/// ```
/// assert_eq!(curbizzolu::DELEGATED_EXCEPTIONS, [0, 2, 3, 8, 12, 13, 15].iter().fold(0, |mask, code| mask | 1 << code));
/// ```
pub const DELEGATED_EXCEPTIONS: u64 = 0xb10d;

/// The interrupts that go straight to the guest, its software, timer and external one: load hideleg with this.
///
/// ```
/// assert_eq!(curbizzolu::DELEGATED_INTERRUPTS, 1 << 2 | 1 << 6 | 1 << 10);
/// ```
pub const DELEGATED_INTERRUPTS: u64 = 0x444;

/// The vector of the software interrupt: of [`Exit::ExternalInterrupt`](crate::Exit::ExternalInterrupt), where it is the host's own, and
/// of [`set_virtual_interrupt_pending`](crate::Vcpu::set_virtual_interrupt_pending), where it is the guest's.
///
/// ```
/// # use curbizzolu::{Vcpu, S_SOFT};
/// let mut vcpu = Vcpu::new(0, 0);
/// vcpu.inject_interrupt(S_SOFT)?;
/// assert_eq!(vcpu.hvip, 1 << 2);
/// # Ok::<(), curbizzolu::Refusal>(())
/// ```
pub const S_SOFT: u64 = 1 << 63 | 1;

/// The vector of the timer interrupt, likewise.
///
/// ```
/// # use curbizzolu::{Vcpu, S_TIMER};
/// let mut vcpu = Vcpu::new(0, 0);
/// vcpu.inject_interrupt(S_TIMER)?;
/// assert_eq!(vcpu.hvip, 1 << 6);
/// # Ok::<(), curbizzolu::Refusal>(())
/// ```
pub const S_TIMER: u64 = 1 << 63 | 5;

/// The vector of the external interrupt, likewise.
///
/// ```
/// # use curbizzolu::{Vcpu, S_EXT};
/// let mut vcpu = Vcpu::new(0, 0);
/// vcpu.inject_interrupt(S_EXT)?;
/// assert_eq!(vcpu.hvip, 1 << 10);
/// # Ok::<(), curbizzolu::Refusal>(())
/// ```
pub const S_EXT: u64 = 1 << 63 | 9;

impl Step {
    /// The ask, if the trap waits for one.
    ///
    /// ```
    /// use curbizzolu::{Answer, Trap, Vcpu};
    /// let mut vcpu = Vcpu::new(0, 0);
    /// vcpu.set_gpr(17, 0x10)?; // a7: BASE
    /// let mut step = vcpu.start(&Trap { scause: 10, ..Trap::default() })?;
    /// while let Some(ask) = step.ask() {
    ///     assert_eq!(ask.number(), 9);
    ///     step = vcpu.answer(&Answer::Forwarded { error: 0, value: 2 << 24 })?;
    /// }
    /// assert!(!step.is_ask());
    /// # Ok::<(), curbizzolu::Error>(())
    /// ```
    pub const fn ask(self) -> Option<Ask> {
        match self {
            Step::Ask(ask) => Some(ask),
            Step::Exit(_) => None,
        }
    }

    /// Whether the trap waits for the host.
    ///
    /// ```
    /// use curbizzolu::{Ask, Exit, Step};
    /// assert!(Step::Ask(Ask::GetChar).is_ask());
    /// assert!(!Step::Exit(Exit::Nothing).is_ask());
    /// ```
    pub const fn is_ask(self) -> bool {
        matches!(self, Step::Ask(_))
    }
}

impl Trap {
    /// Whether this is the second half of a load or store that crosses a page's end: the hart reports the second page, and bits 19..15 of
    /// the transformed word say how far before it the access began. The handler would serve it as a whole access at the second page, and
    /// the guest would get wrong data. Ask before [`start`](crate::Vcpu::start). Where htinst is 0 nothing tells it.
    ///
    /// ```
    /// use curbizzolu::Trap;
    /// let load = |htinst| Trap { scause: 21, htinst, ..Trap::default() };
    /// assert!(load(0x23503).crosses_page()); // ld a0, that began 4 bytes before the page
    /// for whole in [0, 0x503, 0x3503, 0x6503, 0x3501, 0x3000] {
    ///     assert!(!load(whole).crosses_page());
    /// }
    /// let store = |htinst| Trap { scause: 23, htinst, ..Trap::default() };
    /// assert!(store(0xa2b023).crosses_page()); // sd a0, 5 bytes before
    /// assert!(!store(0xa03023).crosses_page() && !store(0xa02021).crosses_page() && !store(0x3020).crosses_page());
    /// assert!(!Trap { scause: 10, htinst: 0x23503, ..Trap::default() }.crosses_page());
    /// ```
    pub const fn crosses_page(&self) -> bool {
        (self.scause == 21 || self.scause == 23) && self.htinst >> 15 & 31 != 0
    }
}
