//! The replay program: captured numbers in, four lines for each trap out.

use crate::*;

/// The first unfit or missing line, counted from 1.
struct Bad(u64);

/// Reads lines in order and counts them.
struct Lines<'a> {
    rest: &'a [u8],
    line: u64,
}

impl Lines<'_> {
    fn at_end(&self) -> bool {
        self.rest.is_empty()
    }

    /// The next line's number: `key`, 16 lowercase hex digits, LF.
    fn number(&mut self, key: &[u8]) -> Result<u64, Bad> {
        self.line += 1;
        let length = key.len() + 16 + 1;
        if self.rest.len() < length {
            return Err(Bad(self.line));
        }
        let (line, rest) = self.rest.split_at(length);
        let (name, digits) = line.split_at(key.len());
        if name != key || digits[16] != b'\n' {
            return Err(Bad(self.line));
        }
        let mut number = 0;
        for &digit in &digits[..16] {
            let value = match digit {
                b'0'..=b'9' => digit - b'0',
                b'a'..=b'f' => digit - b'a' + 10,
                _ => return Err(Bad(self.line)),
            };
            number = number << 4 | value as u64;
        }
        self.rest = rest;
        Ok(number)
    }
}

fn print(out: &mut Vec<u8>, key: &[u8], number: u64) {
    let mut digits = [0; 16];
    for (place, digit) in digits.iter_mut().rev().enumerate() {
        *digit = b"0123456789abcdef"[(number >> (4 * place)) as usize % 16];
    }
    out.extend_from_slice(key);
    out.extend_from_slice(&digits);
    out.push(b'\n');
}

/// The whole output for the whole input.
pub fn replay(input: &[u8]) -> Vec<u8> {
    let mut out = Vec::new();
    let mut lines = Lines { rest: input, line: 0 };
    if let Err(Bad(line)) = run(&mut lines, &mut out) {
        print(&mut out, b"bad=", line);
    }
    out
}

fn run(lines: &mut Lines, out: &mut Vec<u8>) -> Result<(), Bad> {
    let mut vcpu = header(lines)?;
    while !lines.at_end() {
        let exit = one_trap(lines, &mut vcpu)?;
        print(out, b"exit=", exit);
        print(out, b"sepc=", vcpu.sepc);
        print(out, b"a0=", vcpu.read(A0));
        print(out, b"a1=", vcpu.read(A1));
    }
    Ok(())
}

/// A zero record, setup, then the header's numbers.
fn header(lines: &mut Lines) -> Result<Vcpu, Bad> {
    let mut vcpu = Vcpu::zero();
    vcpu.setup();
    vcpu.sepc = lines.number(b"sepc=")?;
    vcpu.vstimecmp = lines.number(b"vstimecmp=")?;
    for index in 1..32 {
        vcpu.x[index] = lines.number(format!("x{index:02}=").as_bytes())?;
    }
    Ok(vcpu)
}

/// One trap with its answers and its load completion; gives the exit's number.
fn one_trap(lines: &mut Lines, vcpu: &mut Vcpu) -> Result<u64, Bad> {
    let trap = Trap {
        scause: lines.number(b"scause=")?,
        stval: lines.number(b"stval=")?,
        htval: lines.number(b"htval=")?,
        htinst: lines.number(b"htinst=")?,
        room: ROOM_MAX,
    };
    let mut reply = vcpu.start(&trap);
    while let Reply::Ask(ask) = reply {
        let answer = answer(lines, &ask)?;
        reply = vcpu.answer(&answer);
    }
    let exit = match reply {
        Reply::Exit(exit) => exit.number(),
        Reply::Error(error) => 0x100 + error.number(),
        // A start or an answer gives nothing else.
        Reply::Ask(_) | Reply::Done | Reply::Value(_) => unreachable!(),
    };
    if let Waiting::Load { .. } = vcpu.waiting {
        let word = lines.number(b"word=")?;
        lines.number(b"more=")?;
        vcpu.complete_load(word);
    }
    Ok(exit)
}

/// The two numbers of an answer, as its ask reads them.
fn answer(lines: &mut Lines, ask: &Ask) -> Result<Answer, Bad> {
    let word = lines.number(b"word=")?;
    let more = lines.number(b"more=")?;
    Ok(match ask {
        Ask::Fetch { .. } => Answer::Fetch(match more {
            0 => FetchAnswer::Word(word as u32),
            1 => FetchAnswer::Page(GuestVirtAddr(word)),
            2 => FetchAnswer::Access(GuestVirtAddr(word)),
            3 => FetchAnswer::Misaligned(GuestVirtAddr(word)),
            4 => FetchAnswer::GuestPage(GuestPhysAddr(word)),
            5 => FetchAnswer::Unhandled,
            _ => return Err(Bad(lines.line)),
        }),
        Ask::Mask { .. } => Answer::Mask { count: word, bytes: more },
        Ask::CopyIn { .. } => Answer::CopyIn { count: word },
        Ask::Print { .. } => Answer::Print { error: word, value: more },
        Ask::Read { .. } => Answer::Read { error: word, value: more },
        Ask::CopyOut { .. } => Answer::CopyOut { count: word },
        Ask::Emit { .. } => Answer::Emit,
        Ask::GetChar => Answer::GetChar { number: word },
        Ask::Forward { .. } => Answer::Forward { error: word, value: more },
    })
}
