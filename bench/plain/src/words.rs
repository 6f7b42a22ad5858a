//! The handler behind the proved library's boundary.

use crate::forms::Forms;
use crate::handler::Vcpu;
use crate::types::*;

#[inline(never)]
pub extern "C" fn start<F: Forms>(vcpu: &mut Vcpu, t: &[u64; 5], out: &mut [u64; 8]) -> u64 {
    let trap = Trap { scause: t[0], stval: t[1], htval: t[2], htinst: t[3], room: t[4] };
    step(vcpu.start::<F>(&trap), out)
}

#[inline(never)]
pub extern "C" fn answer<F: Forms>(vcpu: &mut Vcpu, a: &[u64; 3], out: &mut [u64; 8]) -> u64 {
    let [_, word, more] = *a;
    let answer = match a[0] {
        1 => Answer::Fetched(match more {
            0 => Fetch::Word(word as u32),
            1 => Fetch::Page(word),
            2 => Fetch::Access(word),
            3 => Fetch::Misaligned(word),
            4 => Fetch::GuestPage(word),
            _ => Fetch::Unhandled,
        }),
        2 => Answer::MaskCopied { count: word, bytes: more },
        3 => Answer::CopiedIn { count: word },
        4 => Answer::Printed { error: word, value: more },
        5 => Answer::ConsoleRead { error: word, value: more },
        6 => Answer::CopiedOut { count: word },
        7 => Answer::Emitted,
        8 => Answer::Char { number: word },
        9 => Answer::Forwarded { error: word, value: more },
        _ => return 0x101,
    };
    step(vcpu.answer::<F>(&answer), out)
}

#[inline(never)]
pub extern "C" fn complete_load<F: Forms>(vcpu: &mut Vcpu, number: u64) -> u64 {
    if vcpu.complete_load::<F>(number) {
        0x40
    } else {
        0x102
    }
}

#[inline(always)]
fn step(step: Step, out: &mut [u64; 8]) -> u64 {
    match step {
        Step::Error(error) => 0x100 + error as u64,
        Step::Exit(exit) => match exit {
            Exit::Nothing => 0,
            Exit::ExternalInterrupt { vector } => {
                out[0] = vector;
                1
            }
            Exit::SendIpi { mask, base, legacy } => {
                (out[0], out[1], out[2]) = (mask, base, !legacy as u64);
                2
            }
            Exit::CpuUp { target, entry, arg } => {
                (out[0], out[1], out[2]) = (target, entry, arg);
                3
            }
            Exit::CpuDown { state } => {
                out[0] = state;
                4
            }
            Exit::Halt => 5,
            Exit::Hypercall { nr, args } => {
                out[0] = nr;
                out[2..].copy_from_slice(&args);
                6
            }
            Exit::SystemDown => 7,
            Exit::NestedPageFault { addr, access } => {
                (out[0], out[1]) = (addr, access);
                8
            }
            Exit::MmioRead { addr, width } => {
                (out[0], out[1]) = (addr, width.bytes());
                9
            }
            Exit::MmioWrite { addr, width, data } => {
                (out[0], out[1], out[2]) = (addr, width.bytes(), data);
                10
            }
        },
        Step::Ask(ask) => match ask {
            Ask::Fetch { at, supervisor } => {
                (out[0], out[1]) = (at, supervisor as u64);
                0x21
            }
            Ask::CopyMask { at } => {
                out[0] = at;
                0x22
            }
            Ask::CopyIn { at, count } => {
                (out[0], out[1]) = (at, count);
                0x23
            }
            Ask::Print { count } => {
                out[0] = count;
                0x24
            }
            Ask::ReadConsole { count } => {
                out[0] = count;
                0x25
            }
            Ask::CopyOut { at, count } => {
                (out[0], out[1]) = (at, count);
                0x26
            }
            Ask::Emit { number } => {
                out[0] = number;
                0x27
            }
            Ask::GetChar => 0x28,
            Ask::Forward { eid, fid, args } => {
                (out[0], out[1]) = (eid, fid);
                out[2..].copy_from_slice(&args);
                0x29
            }
        },
    }
}
