//! What a call gives back.

#[derive(Clone, Copy, Debug, PartialEq, Eq)]
pub struct Reply {
    pub kind: u64,
    pub number: u64,
    pub values: [u64; 8],
    pub args: [u64; 6],
}

// "Refusals and errors by number".
pub const INVALID_INPUT: u64 = 1;
pub const BAD_STATE: u64 = 2;
pub const UNSUPPORTED: u64 = 3;
pub const INVALID_TRAP: u64 = 4;
pub const DECODE_FAILED: u64 = 5;
pub const GUEST_MEMORY_FAULT: u64 = 6;
pub const WRONG_ANSWER: u64 = 7;

// "Exits in order from 0".
pub const NOTHING: u64 = 0;
pub const EXTERNAL_INTERRUPT: u64 = 1;
pub const SEND_IPI: u64 = 2;
pub const CPU_UP: u64 = 3;
pub const CPU_DOWN: u64 = 4;
pub const HALT: u64 = 5;
pub const HYPERCALL: u64 = 6;
pub const SYSTEM_DOWN: u64 = 7;
pub const NESTED_PAGE_FAULT: u64 = 8;
pub const MMIO_READ: u64 = 9;
pub const MMIO_WRITE: u64 = 10;

// The table of asks.
pub const ASK_FETCH: u64 = 1;
pub const ASK_COPY_8: u64 = 2;
pub const ASK_COPY_IN: u64 = 3;
pub const ASK_PRINT: u64 = 4;
pub const ASK_CONSOLE_READ: u64 = 5;
pub const ASK_COPY_OUT: u64 = 6;
pub const ASK_EMIT: u64 = 7;
pub const ASK_GET_CHARACTER: u64 = 8;
pub const ASK_FORWARD: u64 = 9;

/// "FAILED is -1, NOT_SUPPORTED -2, INVALID_PARAM -3, as 64-bit numbers."
pub const FAILED: u64 = -1i64 as u64;
pub const NOT_SUPPORTED: u64 = -2i64 as u64;
pub const INVALID_PARAM: u64 = -3i64 as u64;

/// A reply that carries these values, 0 in the others (words). Hypercall's
/// array "is all 0 beside any other" exit.
fn reply(kind: u64, number: u64, carried: &[u64]) -> Reply {
    let mut values = [0; 8];
    for (value, given) in values.iter_mut().zip(carried) {
        *value = *given;
    }
    Reply {
        kind,
        number,
        values,
        args: [0; 6],
    }
}

pub fn exit(number: u64, carried: &[u64]) -> Reply {
    reply(0, number, carried)
}

pub fn ask(number: u64, carried: &[u64]) -> Reply {
    reply(1, number, carried)
}

pub fn done() -> Reply {
    reply(2, 0, &[])
}

pub fn value(number: u64) -> Reply {
    reply(3, 0, &[number])
}

pub fn error(number: u64) -> Reply {
    reply(4, number, &[])
}
