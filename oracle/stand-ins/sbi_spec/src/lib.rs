//! Stands in for sbi_spec: numbers of the SBI specification.

pub mod binary;

pub mod legacy {
    pub const LEGACY_SET_TIMER: usize = 0;
    pub const LEGACY_CONSOLE_PUTCHAR: usize = 1;
    pub const LEGACY_CONSOLE_GETCHAR: usize = 2;
    pub const LEGACY_CLEAR_IPI: usize = 3;
    pub const LEGACY_SEND_IPI: usize = 4;
    pub const LEGACY_SHUTDOWN: usize = 8;
}

pub mod spi {
    pub const EID_SPI: usize = 0x0073_5049;
    pub const SEND_IPI: usize = 0;
}

pub mod hsm {
    pub const EID_HSM: usize = 0x0048_534D;
    pub const HART_START: usize = 0;
    pub const HART_STOP: usize = 1;
    pub const HART_SUSPEND: usize = 3;
}

pub mod srst {
    pub const EID_SRST: usize = 0x5352_5354;
    pub const SYSTEM_RESET: usize = 0;
    pub const RESET_TYPE_SHUTDOWN: u32 = 0;
}

pub mod pmu {
    pub const EID_PMU: usize = 0x0050_4D55;
}

pub mod rfnc {
    pub const EID_RFNC: usize = 0x5246_4E43;
    pub const REMOTE_FENCE_I: usize = 0;
    pub const REMOTE_SFENCE_VMA: usize = 1;
    pub const REMOTE_SFENCE_VMA_ASID: usize = 2;
    pub const REMOTE_HFENCE_GVMA_VMID: usize = 3;
    pub const REMOTE_HFENCE_GVMA: usize = 4;
    pub const REMOTE_HFENCE_VVMA_ASID: usize = 5;
    pub const REMOTE_HFENCE_VVMA: usize = 6;
}
