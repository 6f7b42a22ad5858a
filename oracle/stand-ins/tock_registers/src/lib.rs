//! Stands in for tock-registers: the one macro that names bit fields.

/// A field of a register: a mask at bit 0, and where it stands.
#[derive(Clone, Copy, Debug)]
pub struct Field {
    mask: usize,
    shift: usize,
}

/// A field's bits in their place.
#[derive(Clone, Copy, Debug)]
pub struct FieldValue {
    pub value: usize,
}

impl Field {
    pub const fn new(shift: usize, bits: usize) -> Field {
        Field { mask: (1 << bits) - 1, shift }
    }

    /// The number cut to the field, in its place.
    pub const fn val(&self, number: usize) -> FieldValue {
        FieldValue { value: (number & self.mask) << self.shift }
    }
}

/// A module for each register, with a constant for each field.
#[macro_export]
macro_rules! register_bitfields {
    (
        $repr:ty,
        $(
            $(#[$outer:meta])*
            $vis:vis $register:ident [
                $( $(#[$inner:meta])* $field:ident OFFSET($shift:expr) NUMBITS($bits:expr) [] ),* $(,)?
            ]
        ),* $(,)?
    ) => {
        $(
            $(#[$outer])*
            #[allow(non_snake_case)]
            $vis mod $register {
                $(
                    $(#[$inner])*
                    pub const $field: $crate::Field = $crate::Field::new($shift, $bits);
                )*
            }
        )*
    };
}
