//! "Virtual instruction" and "Guest page fault", with the fetch that both
//! may ask for.

use crate::compressed;
use crate::record::*;
use crate::reply::*;

/// "1 fetch at guest virtual address, supervisor = hstatus bit 8"; both ask
/// "at sepc".
fn ask_fetch(r: &mut Record, waits: Waits) -> Reply {
    r.wait_for(waits);
    ask(ASK_FETCH, &[r.get(SEPC), r.supervisor()])
}

/// "vsepc = sepc, vscause, vstval = address, vsstatus SPIE = SIE, SIE = 0, SPP
/// = hstatus bit 8, sepc = vstvec with low two bits 0; exit Nothing."
fn inject(r: &mut Record, cause: u64, address: u64) -> Reply {
    let (sie, spie, spp) = (1, 5, 8);
    let old = r.get(VSSTATUS);
    let kept = old & !(1 << sie | 1 << spie | 1 << spp);
    let new = kept | ((old >> sie) & 1) << spie | r.supervisor() << spp;
    r.set(VSEPC, r.get(SEPC));
    r.set(VSCAUSE, cause);
    r.set(VSTVAL, address);
    r.set(VSSTATUS, new);
    // "Injection shall also set sstatus bit 8, so that the return goes to
    // supervisor mode; hstatus stays." (W5) The other bits of sstatus stay, and
    // SPP is from hstatus bit 8 all the same (reading).
    r.set(SSTATUS, r.get(SSTATUS) | 1 << 8);
    r.set(SEPC, r.get(VSTVEC) & !3);
    exit(NOTHING, &[])
}

/// "Fetch faults, here and below". "The fetch answer is either an instruction
/// word or a fault": more is 0 for a word, 1 to 5 for the faults in order, any
/// other number is taken for 5 (words).
fn fetch_fault(r: &mut Record, address: u64, more: u64) -> Reply {
    match more {
        // "page 12, access 1, misaligned 0 are injected".
        1 => inject(r, 12, address),
        2 => inject(r, 1, address),
        3 => inject(r, 0, address),
        // "Guest-page: NestedPageFault(address, EXECUTE)."
        4 => nested_page_fault(address, Access::Execute),
        // "Unhandled: error 6."
        _ => error(GUEST_MEMORY_FAULT),
    }
}

/// "NestedPageFault(address, ...), record unchanged."
fn nested_page_fault(address: u64, access: Access) -> Reply {
    exit(NESTED_PAGE_FAULT, &[address, access.number()])
}

/// The `size` bits of a word from bit `from` on.
pub fn field(word: u32, from: u32, size: u32) -> u64 {
    (u64::from(word) >> from) & ((1 << size) - 1)
}

/// "The word is stval's low 32 bits if its low 7 bits are 0x73; else ask 1 at
/// sepc".
pub fn start_virtual(r: &mut Record, stval: u64) -> Reply {
    let word = stval as u32;
    match field(word, 0, 7) {
        0x73 => virtual_instruction(r, word),
        _ => ask_fetch(r, Waits::FetchVirtual),
    }
}

pub fn fetched_virtual(r: &mut Record, word: u64, more: u64) -> Reply {
    if more != 0 {
        return fetch_fault(r, word, more);
    }
    virtual_instruction(r, word as u32)
}

fn virtual_instruction(r: &mut Record, word: u32) -> Reply {
    let (opcode, rd, funct3) = (field(word, 0, 7), field(word, 7, 5), field(word, 12, 3));
    let (rs1, csr) = (field(word, 15, 5), field(word, 20, 12));

    // "a fetched word must end so too. CSR field must be 0x14d, funct3 1, 2,
    // 3, 5, 6 or 7; otherwise event 2 and error 3."
    if opcode != 0x73 || csr != 0x14d || !matches!(funct3, 1 | 2 | 3 | 5 | 6 | 7) {
        r.count(2);
        return error(UNSUPPORTED);
    }

    // "rs1 is read first"; "5, 6, 7 likewise with the field as a number."
    let operand = match funct3 {
        1..=3 => r.x(rs1),
        _ => rs1,
    };
    // "rd, unless 0, gets old vstimecmp."
    let old = r.get(VSTIMECMP);
    r.set_x(rd, old);
    // "New: rs1, old OR rs1, old AND NOT rs1". "2, 3, 6, 7 with field 0 don't
    // write": field 0 is the rs1 field, not its value (reading).
    let new = match (funct3, rs1) {
        (1 | 5, _) => operand,
        (_, 0) => old,
        (2 | 6, _) => old | operand,
        (_, _) => old & !operand,
    };
    // "A CSR write to stimecmp still changes no hvip bit." (W1)
    r.set(VSTIMECMP, new);
    // "Move on by 4; exit Nothing."
    r.move_on(4);
    exit(NOTHING, &[])
}

/// 21 is READ, 23 is WRITE (reading).
pub fn start_guest_page(
    r: &mut Record,
    access: Access,
    stval: u64,
    htval: u64,
    htinst: u64,
) -> Reply {
    // "Address: htval shifted left 2 (mod 2^64) OR stval mod 4."
    let address = (htval << 2) | (stval % 4);
    // "htinst 0: ask 1 at sepc": the whole number (reading).
    if htinst == 0 {
        return ask_fetch(r, Waits::FetchGuestPage { address, access });
    }
    // "Otherwise low 32 bits 0x3000 or 0x3020: error 3."
    let word = htinst as u32;
    if let 0x3000 | 0x3020 = word {
        return error(UNSUPPORTED);
    }
    // "Otherwise low bits 01 length 2, 11 length 4, else error 5; then OR 2."
    // The 32-bit form with either length: W2 is about fetched words (reading).
    let length = match word % 4 {
        1 => 2,
        3 => 4,
        _ => return error(DECODE_FAILED),
    };
    memory_access(r, address, access, decode(word | 2), length)
}

pub fn fetched_guest_page(
    r: &mut Record,
    address: u64,
    access: Access,
    word: u64,
    more: u64,
) -> Reply {
    if more != 0 {
        return fetch_fault(r, word, more);
    }
    let word = word as u32;
    // "low two bits not 3 is length 2 (keep 16 bits); bits 4..2 not 7 is
    // length 4; else error 5." No OR 2 here (reading).
    if field(word, 0, 2) != 3 {
        // "when htinst is 0 our fetched 16-bit words": "Decode the ISA's c.lw
        // [...] and move sepc on by 2." (W2) The upper 16 bits are not looked
        // at (reading).
        memory_access(r, address, access, compressed::decode(word as u16), 2)
    } else if field(word, 2, 3) != 7 {
        memory_access(r, address, access, decode(word), 4)
    } else {
        error(DECODE_FAILED)
    }
}

/// What a word of either encoding decodes to.
pub enum Decoded {
    Load { rd: u64, bytes: u64, signed: bool },
    Store { rs2: u64, bytes: u64 },
    Other,
}

/// "Decode LB LH LW LD LBU LHU LWU under 21, SB SH SW SD under 23 (32-bit ISA
/// forms, on the low 32 bits)".
fn decode(word: u32) -> Decoded {
    let (rd, rs2) = (field(word, 7, 5), field(word, 20, 5));
    let load = |bytes, signed| Decoded::Load { rd, bytes, signed };
    let store = |bytes| Decoded::Store { rs2, bytes };
    match (field(word, 0, 7), field(word, 12, 3)) {
        (0x03, 0) => load(1, true),  // LB
        (0x03, 1) => load(2, true),  // LH
        (0x03, 2) => load(4, true),  // LW
        (0x03, 3) => load(8, true),  // LD
        (0x03, 4) => load(1, false), // LBU
        (0x03, 5) => load(2, false), // LHU
        (0x03, 6) => load(4, false), // LWU
        (0x23, 0) => store(1),       // SB
        (0x23, 1) => store(2),       // SH
        (0x23, 2) => store(4),       // SW
        (0x23, 3) => store(8),       // SD
        _ => Decoded::Other,
    }
}

/// "the meaning of a load or store once, for both encodings, over the decoded
/// form" (W2). With EXECUTE nothing is decoded (words).
fn memory_access(
    r: &mut Record,
    address: u64,
    access: Access,
    decoded: Decoded,
    length: u64,
) -> Reply {
    match (access, decoded) {
        // "sepc moves on by the length." "A decoded load waits": sepc moves
        // with the exit, and rd 0 waits too (reading).
        (Access::Read, Decoded::Load { rd, bytes, signed }) => {
            r.move_on(length);
            r.wait_for(Waits::Load { rd, bytes, signed });
            exit(MMIO_READ, &[address, bytes])
        }
        // "An MMIO exit carries its width, one of four, and a store its data
        // cut to that width; besides these only the address."
        (Access::Write, Decoded::Store { rs2, bytes }) => {
            r.move_on(length);
            exit(MMIO_WRITE, &[address, bytes, cut(r.x(rs2), bytes)])
        }
        // "Everything else: NestedPageFault(address, READ or WRITE), record
        // unchanged." "as does a load under 23 or a store under 21" (W2).
        _ => nested_page_fault(address, access),
    }
}

/// A number cut to a width in bytes.
fn cut(number: u64, bytes: u64) -> u64 {
    match bytes {
        1 => number & 0xff,
        2 => number & 0xffff,
        4 => number & 0xffff_ffff,
        _ => number,
    }
}

/// "cuts the number to the width, extends it".
pub fn extend(number: u64, bytes: u64, signed: bool) -> u64 {
    match (bytes, signed) {
        (1, true) => number as i8 as u64,
        (2, true) => number as i16 as u64,
        (4, true) => number as i32 as u64,
        (_, _) => cut(number, bytes),
    }
}
