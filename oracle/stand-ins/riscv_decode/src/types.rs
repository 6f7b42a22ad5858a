//! Instruction formats, by the fields that are read.

/// The format of loads.
#[derive(Clone, Copy, Debug, PartialEq, Eq)]
pub struct IType(pub u32);

impl IType {
    pub fn rd(&self) -> u32 {
        (self.0 >> 7) & 0x1f
    }
}

/// The format of stores.
#[derive(Clone, Copy, Debug, PartialEq, Eq)]
pub struct SType(pub u32);

impl SType {
    pub fn rs2(&self) -> u32 {
        (self.0 >> 20) & 0x1f
    }
}
