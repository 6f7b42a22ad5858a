//! Replays a capture from standard input to standard output: document 01's replay program as a Rust programmer would write it for speed.
//! It takes whole lines out of a buffer that does not grow, reads and writes eight digits at a time, and its record stays where it is.

use plain::{hex, Answer, Ask, Exit, Fetch, Step, Straight, Trap, Vcpu, Waiting};
use std::io::{self, ErrorKind, Read, Write};

const BUFFER: usize = 1 << 16;
/// What follows a line's key: sixteen digits and LF.
const REST: usize = 17;
/// The longest line, that of vstimecmp.
const LONGEST: usize = 10 + REST;
/// The four lines that a trap gives.
const GIVEN: usize = 5 + 5 + 3 + 3 + 4 * REST;

/// Why a replay ends before the input does.
enum Stop {
    /// The first line that is unfit or missing, counted from 1.
    Bad(u64),
    Failed(io::Error),
}

impl From<io::Error> for Stop {
    fn from(error: io::Error) -> Stop {
        Stop::Failed(error)
    }
}

struct Lines<R> {
    input: R,
    buffer: Box<[u8; BUFFER]>,
    /// What is read and not taken yet is from `at` to `end`.
    at: usize,
    end: usize,
    line: u64,
}

impl<R: Read> Lines<R> {
    /// Moves what is left to the front and reads on until any line would be there whole, or to the input's end.
    #[cold]
    #[inline(never)]
    fn refill(&mut self) -> io::Result<()> {
        self.buffer.copy_within(self.at..self.end, 0);
        self.end -= self.at;
        self.at = 0;
        while self.end < LONGEST {
            match self.input.read(&mut self.buffer[self.end..]) {
                Ok(0) => break,
                Ok(got) => self.end += got,
                Err(error) if error.kind() == ErrorKind::Interrupted => {}
                Err(error) => return Err(error),
            }
        }
        Ok(())
    }

    fn at_end(&mut self) -> io::Result<bool> {
        if self.at == self.end {
            self.refill()?;
        }
        Ok(self.at == self.end)
    }

    /// The next line's number: `key`, 16 lowercase hex digits, LF.
    #[inline(always)]
    fn number(&mut self, key: &[u8]) -> Result<u64, Stop> {
        self.line += 1;
        let length = key.len() + REST;
        if self.end - self.at < length {
            self.refill()?;
        }
        let Some(line) = self.buffer[..self.end].get(self.at..self.at + length) else {
            return Err(Stop::Bad(self.line));
        };
        let (name, rest) = line.split_at(key.len());
        if name != key || rest[16] != b'\n' {
            return Err(Stop::Bad(self.line));
        }
        let Some(number) = hex::read(rest[..16].try_into().unwrap()) else {
            return Err(Stop::Bad(self.line));
        };
        self.at += length;
        Ok(number)
    }
}

struct Output<W> {
    output: W,
    buffer: Box<[u8; BUFFER]>,
    end: usize,
}

impl<W: Write> Output<W> {
    fn flush(&mut self) -> io::Result<()> {
        self.output.write_all(&self.buffer[..self.end])?;
        self.end = 0;
        Ok(())
    }

    /// Makes room for what a trap gives.
    #[inline(always)]
    fn room(&mut self) -> io::Result<()> {
        if BUFFER - self.end < GIVEN {
            self.flush()?;
        }
        Ok(())
    }

    #[inline(always)]
    fn line(&mut self, key: &[u8], number: u64) {
        let line = &mut self.buffer[self.end..self.end + key.len() + REST];
        let (name, rest) = line.split_at_mut(key.len());
        name.copy_from_slice(key);
        hex::write(number, (&mut rest[..16]).try_into().unwrap());
        rest[16] = b'\n';
        self.end += key.len() + REST;
    }
}

fn main() -> io::Result<()> {
    let input = io::stdin().lock();
    let mut lines = Lines { input, buffer: Box::new([0; BUFFER]), at: 0, end: 0, line: 0 };
    let output = io::stdout().lock();
    let mut out = Output { output, buffer: Box::new([0; BUFFER]), end: 0 };
    match run(&mut lines, &mut out) {
        Ok(()) => out.flush(),
        Err(Stop::Bad(line)) => {
            out.room()?;
            out.line(b"bad=", line);
            out.flush()
        }
        Err(Stop::Failed(error)) => {
            out.flush()?;
            Err(error)
        }
    }
}

fn run<R: Read, W: Write>(lines: &mut Lines<R>, out: &mut Output<W>) -> Result<(), Stop> {
    let mut vcpu = header(lines)?;
    while !lines.at_end()? {
        let exit = one_trap(lines, &mut vcpu)?;
        out.room()?;
        out.line(b"exit=", exit);
        out.line(b"sepc=", vcpu.sepc);
        out.line(b"a0=", vcpu.x[10]);
        out.line(b"a1=", vcpu.x[11]);
    }
    Ok(())
}

/// A zero record as setup leaves it, with the header's numbers.
fn header<R: Read>(lines: &mut Lines<R>) -> Result<Vcpu, Stop> {
    let mut vcpu = Vcpu {
        x: [0; 32],
        sepc: lines.number(b"sepc=")?,
        sstatus: 0x2100,
        hstatus: 0x2_0000_0180,
        vsstatus: 0,
        vstvec: 0,
        vsepc: 0,
        vscause: 0,
        vstval: 0,
        vstimecmp: lines.number(b"vstimecmp=")?,
        hie: 0x444,
        hvip: 0,
        hgeie: 0,
        hgatp: 0,
        counts: [0; 9],
        waiting: Waiting::Idle,
    };
    for i in 1..32 {
        vcpu.x[i] = lines.number(&[b'x', b'0' + i as u8 / 10, b'0' + i as u8 % 10, b'='])?;
    }
    Ok(vcpu)
}

/// One trap with its answers and its load's completion; gives the exit's number.
#[inline(always)]
fn one_trap<R: Read>(lines: &mut Lines<R>, vcpu: &mut Vcpu) -> Result<u64, Stop> {
    let trap = Trap {
        scause: lines.number(b"scause=")?,
        stval: lines.number(b"stval=")?,
        htval: lines.number(b"htval=")?,
        htinst: lines.number(b"htinst=")?,
        room: 4096,
    };
    let mut step = vcpu.start::<Straight>(&trap);
    while let Step::Ask(ask) = step {
        step = vcpu.answer::<Straight>(&answer(lines, &ask)?);
    }
    let exit = match step {
        Step::Exit(exit) => exit_number(&exit),
        Step::Error(error) => 0x100 + error as u64,
        Step::Ask(_) => unreachable!(),
    };
    if let Waiting::Load { .. } = vcpu.waiting {
        let word = lines.number(b"word=")?;
        lines.number(b"more=")?;
        vcpu.complete_load::<Straight>(word);
    }
    Ok(exit)
}

fn exit_number(exit: &Exit) -> u64 {
    match exit {
        Exit::Nothing => 0,
        Exit::ExternalInterrupt { .. } => 1,
        Exit::SendIpi { .. } => 2,
        Exit::CpuUp { .. } => 3,
        Exit::CpuDown { .. } => 4,
        Exit::Halt => 5,
        Exit::Hypercall { .. } => 6,
        Exit::SystemDown => 7,
        Exit::NestedPageFault { .. } => 8,
        Exit::MmioRead { .. } => 9,
        Exit::MmioWrite { .. } => 10,
    }
}

/// The two numbers of an answer, as its ask reads them.
#[inline(always)]
fn answer<R: Read>(lines: &mut Lines<R>, ask: &Ask) -> Result<Answer, Stop> {
    let word = lines.number(b"word=")?;
    let more = lines.number(b"more=")?;
    Ok(match ask {
        Ask::Fetch { .. } => Answer::Fetched(match more {
            0 => Fetch::Word(word as u32),
            1 => Fetch::Page(word),
            2 => Fetch::Access(word),
            3 => Fetch::Misaligned(word),
            4 => Fetch::GuestPage(word),
            5 => Fetch::Unhandled,
            _ => return Err(Stop::Bad(lines.line)),
        }),
        Ask::CopyMask { .. } => Answer::MaskCopied { count: word, bytes: more },
        Ask::CopyIn { .. } => Answer::CopiedIn { count: word },
        Ask::Print { .. } => Answer::Printed { error: word, value: more },
        Ask::ReadConsole { .. } => Answer::ConsoleRead { error: word, value: more },
        Ask::CopyOut { .. } => Answer::CopiedOut { count: word },
        Ask::Emit { .. } => Answer::Emitted,
        Ask::GetChar => Answer::Char { number: word },
        Ask::Forward { .. } => Answer::Forwarded { error: word, value: more },
    })
}
