//! The calls in one screen: a list of traps, what the handler asks for each, and what comes of it, in plain words. It enters no guest:
//! examples/hypervisor, in C, does.
//!
//!     cargo run --example host

use curbizzolu::*;

const LINE: &[u8] = b"title 7 is on screen 3\n";

/// The one instruction that can be fetched, and where it lies: c.lw a0, 0(a1), 16 bits long.
const CODE: (GuestVirtAddr, u32) = (GuestVirtAddr(0x8000_000c), 0x4188);

/// The host's side: what it answers. There is no guest memory here, so the copy brings a fixed line.
fn serve(vcpu: &Vcpu, ask: Ask, buffer: &mut Vec<u8>) -> Answer {
    match ask {
        Ask::Fetch { at, supervisor } if at == CODE.0 => {
            println!("  asked to fetch at {at:#x}, supervisor {supervisor}: {:#x}", CODE.1);
            Answer::Fetched(Fetch::Word(CODE.1))
        }
        Ask::Fetch { at, supervisor } => {
            println!("  asked to fetch at {at:#x}, supervisor {supervisor}: the guest's page tables have no page there");
            Answer::Fetched(Fetch::Page(at))
        }
        Ask::CopyIn { at, count } => {
            println!("  asked to copy {count} bytes from {at:#x}");
            *buffer = LINE.to_vec();
            Answer::CopiedIn { count: buffer.len() as u64 }
        }
        Ask::Print { count } => {
            print!("  asked to print {count} bytes: {}", String::from_utf8_lossy(vcpu.to_print(buffer)));
            Answer::Printed { error: 0, value: count }
        }
        Ask::Forward { eid, .. } => {
            println!("  asked to forward call {eid:#x}: not supported");
            Answer::Forwarded { error: -2_i64 as u64, value: 0 }
        }
        other => unreachable!("this list of traps has no {other:?}"),
    }
}

/// One trap, from its numbers to its exit, with the device's or the host's part after it.
fn handle(vcpu: &mut Vcpu, what: &str, trap: Trap, device: u64) -> Result<(), Error> {
    println!("{what}");
    let (mut buffer, mut step) = (Vec::new(), vcpu.start(&trap)?);
    let exit = loop {
        match step {
            Step::Exit(exit) => break exit,
            Step::Ask(ask) => {
                let answer = serve(vcpu, ask, &mut buffer);
                step = vcpu.answer(&answer)?;
            }
        }
    };
    match exit {
        Exit::MmioRead { addr, width } => {
            vcpu.complete_load(device)?;
            println!("  {} bytes at {addr:#x} gave {device:#x}: a0 is {:#018x}", width.bytes(), vcpu.get_gpr(10)?);
        }
        Exit::SendIpi(request) => {
            println!("  harts {:#b} from hart {} on are interrupted", request.hart_mask, request.hart_mask_base);
            vcpu.complete_ipi(request, IpiCompletion::Success)?;
        }
        Exit::Nothing => println!("  the guest goes on at {:#x}, with a0 = {:#x}", vcpu.sepc, vcpu.get_gpr(10)?),
        other => println!("  {other:?}"),
    }
    Ok(())
}

fn main() -> Result<(), Error> {
    let mut vcpu = Vcpu::new(0, 0x8200_0000);
    vcpu.setup()?;
    vcpu.set_entry(GuestPhysAddr(0x8000_0000))?;
    vcpu.vstvec = 0x8000_1000;
    let ecall = Trap { scause: 10, room: 4096, ..Trap::default() };
    let load = |htinst| Trap { scause: 21, htval: 0x1000_0000 >> 2, htinst, ..Trap::default() };

    handle(&mut vcpu, "A title's fingerprint, by lw a0:", load(0x2503), 0x1c3a_77e1)?;
    handle(&mut vcpu, "One with its top bit set, by lw a0:", load(0x2503), 0x9c3a_77e1)?;
    handle(&mut vcpu, "The same, by lwu a0:", load(0x6503), 0x9c3a_77e1)?;
    handle(&mut vcpu, "The same, by a compressed lw a0 that the hart left out of htinst:", load(0), 0x9c3a_77e1)?;

    for (register, value) in [(17, 0x4442_434E), (16, 0), (10, LINE.len() as u64), (11, 0x8010_0000), (12, 0)] {
        vcpu.set_gpr(register, value)?;
    }
    handle(&mut vcpu, "A line for the console, by DBCN:", ecall, 0)?;

    for (register, value) in [(17, 0x73_5049), (16, 0), (10, 0b110), (11, 0)] {
        vcpu.set_gpr(register, value)?;
    }
    handle(&mut vcpu, "An IPI:", ecall, 0)?;

    vcpu.inject_interrupt(S_TIMER)?;
    for (register, value) in [(17, 0x5449_4D45), (16, 0), (10, 0x10_0000)] {
        vcpu.set_gpr(register, value)?;
    }
    handle(&mut vcpu, "A deadline, by TIME, while the last tick is pending:", ecall, 0)?;
    println!("  its next tick is due at {:#x}, and the last is dropped: hvip is {:#x}", vcpu.vstimecmp, vcpu.hvip);

    println!("After the slice, four line changes in one call, the third with a vector that is none:");
    let given = vcpu.post(&[Post::set(S_EXT), Post::set(S_SOFT), Post::set(7), Post::clear(S_EXT)]);
    println!("  {} were applied, hvip is {:#x}; {}", given.applied, vcpu.hvip, given.whole().unwrap_err());

    // So the hart leaves both where user code trapped: hstatus.SPVP and sstatus.SPP are 0.
    vcpu.hstatus &= !(1 << 8);
    vcpu.sstatus &= !(1 << 8);
    handle(&mut vcpu, "A load of user code with no instruction in htinst:", load(0), 0)?;
    let mode = |status: u64| if status >> 8 & 1 == 0 { "user" } else { "supervisor" };
    println!("  it takes fault {} at {:#x} itself, in {} mode, from {} mode", vcpu.vscause, vcpu.vstval, mode(vcpu.sstatus), mode(vcpu.vsstatus));
    println!("A load completed with none waiting is refused: {}", vcpu.complete_load(0).unwrap_err());
    Ok(())
}
