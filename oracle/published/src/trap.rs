//! Stands in for trap: the exceptions that the published text names, and no
//! more. The file's own list isn't at hand.

/// An exception by its code.
#[derive(Clone, Copy, Debug, PartialEq, Eq)]
#[repr(usize)]
pub enum Exception {
    InstructionMisaligned = 0,
    InstructionFault = 1,
    VirtualSupervisorEnvCall = 10,
    InstructionPageFault = 12,
    LoadGuestPageFault = 21,
    VirtualInstruction = 22,
    StoreGuestPageFault = 23,
}

impl riscv::ExceptionNumber for Exception {
    fn from_number(number: usize) -> Option<Self> {
        match number {
            0 => Some(Self::InstructionMisaligned),
            1 => Some(Self::InstructionFault),
            10 => Some(Self::VirtualSupervisorEnvCall),
            12 => Some(Self::InstructionPageFault),
            21 => Some(Self::LoadGuestPageFault),
            22 => Some(Self::VirtualInstruction),
            23 => Some(Self::StoreGuestPageFault),
            _ => None,
        }
    }
}
