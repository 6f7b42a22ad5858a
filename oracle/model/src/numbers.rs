//! Numbers that 01 names: extension ids, results, bits and events.

pub const EID_TIME: u64 = 0x5449_4D45;
pub const EID_SPI: u64 = 0x0073_5049;
pub const EID_HSM: u64 = 0x0048_534D;
pub const EID_HVC: u64 = 0x0048_5643;
pub const EID_SRST: u64 = 0x5352_5354;
pub const EID_DBCN: u64 = 0x4442_434E;
pub const EID_RFNC: u64 = 0x5246_4E43;
pub const EID_PMU: u64 = 0x0050_4D55;

pub const SUCCESS: u64 = 0;
/// -1
pub const FAILED: u64 = u64::MAX;
/// -2
pub const NOT_SUPPORTED: u64 = u64::MAX - 1;
/// -3
pub const INVALID_PARAM: u64 = u64::MAX - 2;

/// The interrupt flag of scause and of vectors.
pub const INTERRUPT: u64 = 1 << 63;

/// hvip bit 2, the software interrupt.
pub const VSSIP: u64 = 1 << 2;
/// hvip bit 6, the timer interrupt.
pub const VSTIP: u64 = 1 << 6;
/// hvip bit 10, the external interrupt.
pub const VSEIP: u64 = 1 << 10;

/// hstatus bit 8: the guest ran as supervisor.
pub const SPVP: u64 = 1 << 8;

/// A room above this counts as this.
pub const ROOM_MAX: u64 = 4096;

/// The CSR number of stimecmp.
pub const CSR_STIMECMP: u32 = 0x14d;
/// The low 7 bits of a SYSTEM instruction.
pub const SYSTEM: u32 = 0x73;

/// Register indices of a0 to a7.
pub const A0: usize = 10;
pub const A1: usize = 11;
pub const A2: usize = 12;
pub const A6: usize = 16;
pub const A7: usize = 17;
