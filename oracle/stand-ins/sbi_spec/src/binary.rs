//! The pair that an ecall returns, and a hart mask.

/// Error and value.
#[derive(Clone, Copy, Debug, PartialEq, Eq)]
pub struct SbiRet {
    pub error: usize,
    pub value: usize,
}

impl SbiRet {
    pub const fn success(value: usize) -> Self {
        Self { error: 0, value }
    }

    /// -1
    pub const fn failed() -> Self {
        Self { error: usize::MAX, value: 0 }
    }

    /// -2
    pub const fn not_supported() -> Self {
        Self { error: usize::MAX - 1, value: 0 }
    }

    /// -3
    pub const fn invalid_param() -> Self {
        Self { error: usize::MAX - 2, value: 0 }
    }

    pub const fn is_ok(&self) -> bool {
        self.error == 0
    }

    pub const fn is_err(&self) -> bool {
        self.error != 0
    }
}

/// A set of harts.
#[derive(Clone, Copy, Debug, PartialEq, Eq)]
pub struct HartMask {
    pub mask: usize,
    pub base: usize,
}
