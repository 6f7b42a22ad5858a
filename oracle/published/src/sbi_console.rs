//! Stands in for sbi_console: the debug console's numbers, and a console that
//! is the scripted host's.

use sbi_spec::binary::SbiRet;
use scripted::{ask, digest, pattern, Request};

use crate::host::RiscvHostOps;

pub const EID_DBCN: usize = 0x4442_434E;
pub const FID_CONSOLE_WRITE: usize = 0;
pub const FID_CONSOLE_READ: usize = 1;
pub const FID_CONSOLE_WRITE_BYTE: usize = 2;

pub const RET_SUCCESS: usize = 0;
/// -1
pub const RET_ERR_FAILED: usize = usize::MAX;
/// -2
pub const RET_ERR_NOT_SUPPORTED: usize = usize::MAX - 1;

/// The address that SBI splits over two registers on 32-bit harts. With a
/// high half of 0 every sensible joining is the low half.
pub fn join_u64(low: usize, high: usize) -> u64 {
    low as u64 | (high as u64) << 32
}

pub fn console_write<H: RiscvHostOps>(bytes: &[u8]) -> SbiRet {
    let (error, value) = ask(Request::Print {
        n: bytes.len() as u64,
        digest: digest(bytes),
    })
    .print;
    SbiRet { error: error as usize, value: value as usize }
}

pub fn console_read<H: RiscvHostOps>(into: &mut [u8]) -> SbiRet {
    let script = ask(Request::Read { n: into.len() as u64 });
    for (i, to) in into.iter_mut().enumerate() {
        *to = pattern(script.fill, i);
    }
    let (error, value) = script.read;
    SbiRet { error: error as usize, value: value as usize }
}

pub fn print_byte(byte: u8) {
    ask(Request::Emit { number: byte as u64 });
}
