//! scause and sstatus.

pub mod scause {
    use crate::interrupt::Trap;

    /// A value of scause.
    #[derive(Clone, Copy, Debug)]
    pub struct Scause(usize);

    impl Scause {
        pub fn bits(&self) -> usize {
            self.0
        }

        /// The top bit tells interrupts; the code is all the rest.
        pub fn cause(&self) -> Trap<usize, usize> {
            let flag = 1 << (usize::BITS - 1);
            if self.0 & flag != 0 {
                Trap::Interrupt(self.0 & !flag)
            } else {
                Trap::Exception(self.0)
            }
        }
    }

    pub fn read() -> Scause {
        Scause(scripted::live().scause)
    }
}

pub mod sstatus {
    const SIE: usize = 1 << 1;
    const SPIE: usize = 1 << 5;
    const SPP_BIT: usize = 1 << 8;
    const FS_LOW: u32 = 13;

    /// The mode before a trap.
    pub enum SPP {
        User,
        Supervisor,
    }

    /// The state of the floating-point unit.
    pub enum FS {
        Off,
        Initial,
        Clean,
        Dirty,
    }

    /// A value of sstatus.
    #[derive(Clone, Copy, Debug)]
    pub struct Sstatus(usize);

    impl Sstatus {
        pub fn from_bits(bits: usize) -> Self {
            Self(bits)
        }

        pub fn bits(&self) -> usize {
            self.0
        }

        pub fn sie(&self) -> bool {
            self.0 & SIE != 0
        }

        pub fn set_sie(&mut self, on: bool) {
            self.set(SIE, on)
        }

        pub fn set_spie(&mut self, on: bool) {
            self.set(SPIE, on)
        }

        pub fn set_spp(&mut self, spp: SPP) {
            self.set(SPP_BIT, matches!(spp, SPP::Supervisor))
        }

        pub fn set_fs(&mut self, fs: FS) {
            let number = match fs {
                FS::Off => 0,
                FS::Initial => 1,
                FS::Clean => 2,
                FS::Dirty => 3,
            };
            self.0 = self.0 & !(3 << FS_LOW) | number << FS_LOW;
        }

        fn set(&mut self, bit: usize, on: bool) {
            self.0 = if on { self.0 | bit } else { self.0 & !bit };
        }
    }

    pub fn read() -> Sstatus {
        Sstatus(scripted::live().sstatus)
    }

    pub unsafe fn set_sie() {
        scripted::with_live(|live| live.sstatus |= SIE)
    }

    pub unsafe fn clear_sie() {
        scripted::with_live(|live| live.sstatus &= !SIE)
    }
}
