//! One module for each CSR.

/// A CSR that is read and written as a number.
macro_rules! number_csr {
    ($name:ident) => {
        pub mod $name {
            pub fn read() -> usize {
                scripted::live().$name
            }

            pub unsafe fn write(bits: usize) {
                scripted::with_live(|live| live.$name = bits)
            }
        }
    };
}

/// A CSR whose value has a type, with named bits: a getter, a setter of the
/// value, and functions that set and clear the live bit.
macro_rules! typed_csr {
    (
        $name:ident, $type:ident
        $(, bit $at:literal $(get $get:ident)? $(put $put:ident)? $(live $set:ident $clear:ident)?)*
    ) => {
        pub mod $name {
            #[derive(Clone, Copy, Debug)]
            pub struct $type(usize);

            impl $type {
                pub fn from_bits(bits: usize) -> Self {
                    Self(bits)
                }

                pub fn bits(&self) -> usize {
                    self.0
                }

                pub unsafe fn write(&self) {
                    scripted::with_live(|live| live.$name = self.0)
                }

                $(
                    $(pub fn $get(&self) -> bool {
                        self.0 >> $at & 1 != 0
                    })?

                    $(pub fn $put(&mut self, on: bool) {
                        self.0 = self.0 & !(1 << $at) | (on as usize) << $at;
                    })?
                )*
            }

            pub fn read() -> $type {
                $type(scripted::live().$name)
            }

            $(
                $(pub unsafe fn $set() {
                    scripted::with_live(|live| live.$name |= 1 << $at)
                }

                pub unsafe fn $clear() {
                    scripted::with_live(|live| live.$name &= !(1 << $at))
                })?
            )*
        }
    };
}

number_csr!(hgeie);
number_csr!(htimedelta);
number_csr!(vsepc);
number_csr!(vsscratch);
number_csr!(vstimecmp);
number_csr!(vstval);

typed_csr!(henvcfg, Henvcfg, bit 63 get stce put set_stce);
typed_csr!(
    hie, Hie,
    bit 2 put set_vssie,
    bit 6 put set_vstie,
    bit 10 put set_vseie
);
typed_csr!(
    hvip, Hvip,
    bit 2 put set_vssip live set_vssip clear_vssip,
    bit 6 put set_vstip live set_vstip clear_vstip,
    bit 10 put set_vseip live set_vseip clear_vseip
);
typed_csr!(vsatp, Vsatp);
typed_csr!(vscause, Vscause);
typed_csr!(vsie, Vsie);
typed_csr!(
    vsstatus, Vsstatus,
    bit 1 get sie put set_sie,
    bit 5 put set_spie,
    bit 8 put set_spp
);
typed_csr!(vstvec, Vstvec);

pub mod hstatus {
    /// The register width of VS mode.
    pub enum VsxlValues {
        Vsxl32,
        Vsxl64,
    }

    /// A value of hstatus; the live CSR is the entry code's alone.
    #[derive(Clone, Copy, Debug)]
    pub struct Hstatus(usize);

    impl Hstatus {
        pub fn from_bits(bits: usize) -> Self {
            Self(bits)
        }

        pub fn bits(&self) -> usize {
            self.0
        }

        pub fn spvp(&self) -> bool {
            self.0 >> 8 & 1 != 0
        }

        pub fn set_spv(&mut self, on: bool) {
            self.set(7, on)
        }

        pub fn set_spvp(&mut self, on: bool) {
            self.set(8, on)
        }

        pub fn set_vtvm(&mut self, on: bool) {
            self.set(20, on)
        }

        pub fn set_vtw(&mut self, on: bool) {
            self.set(21, on)
        }

        pub fn set_vtsr(&mut self, on: bool) {
            self.set(22, on)
        }

        pub fn set_vsxl(&mut self, width: VsxlValues) {
            let number = match width {
                VsxlValues::Vsxl32 => 1,
                VsxlValues::Vsxl64 => 2,
            };
            self.0 = self.0 & !(3 << 32) | number << 32;
        }

        fn set(&mut self, at: u32, on: bool) {
            self.0 = self.0 & !(1 << at) | (on as usize) << at;
        }
    }
}
