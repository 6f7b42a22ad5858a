//! The record, the waiting part and the replies as the words of the proved
//! library. crates/scope/specs/Words.antt says what each word means.

use model::*;

/// x0 to x31, 13 CSRs, 9 counts, 4 words for what waits.
pub type Words = [u64; 58];

/// What the words hold that an entry is lent for its reply: it must set each.
pub const LENT: u64 = 99;

/// What a call gives back, in words.
#[repr(C)]
#[derive(Clone, Copy, Debug, PartialEq, Eq)]
pub struct ReplyWords {
    pub kind: u64,
    pub number: u64,
    pub values: [u64; 8],
    pub args: [u64; 6],
}

/// What a row of posts gives back, in words: how many were applied, and the
/// refusal's number or 0.
#[repr(C)]
#[derive(Clone, Copy, Debug, PartialEq, Eq)]
pub struct PostedWords {
    pub applied: u64,
    pub refusal: u64,
}

/// The record that the words stand for. Words that what waits doesn't carry
/// count for nothing.
pub fn record_of(words: &Words) -> Vcpu {
    Vcpu::from_words(words, waiting_of(&words[54..]))
}

/// What waits by its words. A kind or number that no call leaves is a fault
/// here, so that a run finds it.
fn waiting_of(words: &[u64]) -> Waiting {
    match *words {
        [0, ..] => Waiting::Nothing,
        [1, rd, width, signed] => {
            Waiting::Load { rd, width: width_of(width), signed: flag_of(signed) }
        }
        [2, ..] => Waiting::Fetch(FetchFor::VirtualInstruction),
        [3, addr, access, _] => Waiting::Fetch(FetchFor::GuestPageFault {
            addr: GuestPhysAddr(addr),
            write: flag_of(access.wrapping_sub(1)),
        }),
        [4, ..] => Waiting::Mask,
        [5, n, ..] => Waiting::CopyIn { n },
        [6, n, ..] => Waiting::Print { n },
        [7, n, at, _] => Waiting::Read { n, at: GuestPhysAddr(at) },
        [8, v, ..] => Waiting::CopyOut { v },
        [9, ..] => Waiting::Emit(EmitFor::Legacy),
        [10, ..] => Waiting::Emit(EmitFor::Byte),
        [11, ..] => Waiting::GetChar,
        [12, ..] => Waiting::Forward,
        _ => stray("waiting part", words),
    }
}

fn flag_of(word: u64) -> bool {
    match word {
        0 => false,
        1 => true,
        _ => stray("flag", &[word]),
    }
}

fn width_of(bytes: u64) -> Width {
    match bytes {
        1 => Width::One,
        2 => Width::Two,
        4 => Width::Four,
        8 => Width::Eight,
        _ => stray("width", &[bytes]),
    }
}

/// A call as its kind and five numbers.
pub fn words_of_call(call: &Call) -> (u64, [u64; 5]) {
    match *call {
        Call::Setup => (1, [0; 5]),
        Call::SetEntry { entry } => (2, [entry, 0, 0, 0, 0]),
        Call::GetGpr { index } => (3, [index, 0, 0, 0, 0]),
        Call::SetGpr { index, value } => (4, [index, value, 0, 0, 0]),
        Call::SetReturnValue { value } => (5, [value, 0, 0, 0, 0]),
        Call::SetNestedPageTable { levels, mode, root } => (6, [levels, mode, root, 0, 0]),
        Call::SetVirtualInterruptPending { vector, pending } => {
            (7, [vector, pending as u64, 0, 0, 0])
        }
        Call::InjectInterrupt { vector } => (7, [vector, 1, 0, 0, 0]),
        Call::SetVseipLevel { asserted } => (7, [9, asserted as u64, 0, 0, 0]),
        Call::LatchHvip { bits } => (8, [bits, 0, 0, 0, 0]),
        Call::CompleteIpi { abi, completion } => {
            (9, [convention_word(abi), completion.number(), 0, 0, 0])
        }
        Call::Start(t) => (10, [t.scause, t.stval, t.htval, t.htinst, t.room]),
        Call::Answer(answer) => {
            let [ask, a, b] = answer_words(&answer);
            (11, [ask, a, b, 0, 0])
        }
        Call::CompleteLoad { number } => (12, [number, 0, 0, 0, 0]),
    }
}

/// The reply by its words; every word that it doesn't carry must be 0.
pub fn reply_of(words: &ReplyWords) -> Reply {
    let number = words.number;
    let (reply, carried) = match words.kind {
        0 => {
            let exit = exit_of(number, &words.values, words.args);
            (Reply::Exit(exit), exit_carries(number))
        }
        1 => (Reply::Ask(ask_of(number, &words.values)), ask_carries(number)),
        2 => (Reply::Done, 0),
        3 => (Reply::Value(words.values[0]), 1),
        4 => (Reply::Error(error_of(number)), 0),
        kind => stray("reply", &[kind]),
    };
    let has_number = matches!(words.kind, 0 | 1 | 4) || number == 0;
    let has_args = words.kind == 0 && number == 6 || words.args == [0; 6];
    if words.values[carried..].iter().any(|&word| word != 0) || !has_number || !has_args {
        stray("reply", &words.values);
    }
    reply
}

/// What a row came to, by its words.
pub fn posted_of(words: &PostedWords) -> Posted {
    let refusal = (words.refusal != 0).then(|| error_of(words.refusal));
    Posted { applied: words.applied, refusal }
}

/// An exit by its number and values; a hypercall's arguments stand apart.
fn exit_of(number: u64, values: &[u64; 8], args: [u64; 6]) -> Exit {
    let [a, b, c, ..] = *values;
    match number {
        0 => Exit::Nothing,
        1 => Exit::ExternalInterrupt { vector: a },
        2 => Exit::SendIpi {
            mask: a,
            base: b,
            abi: match c {
                0 => IpiAbi::Legacy,
                1 => IpiAbi::SbiV02,
                _ => stray("convention", &[c]),
            },
        },
        3 => Exit::CpuUp { target: a, entry: GuestPhysAddr(b), arg: c },
        4 => Exit::CpuDown { state: a },
        5 => Exit::Halt,
        6 => Exit::Hypercall { number: a, args },
        7 => Exit::SystemDown,
        8 => Exit::NestedPageFault {
            addr: GuestPhysAddr(a),
            access: match b {
                1 => Access::Read,
                2 => Access::Write,
                4 => Access::Execute,
                _ => stray("access", &[b]),
            },
        },
        9 => Exit::MmioRead { addr: GuestPhysAddr(a), width: width_of(b) },
        10 => Exit::MmioWrite { addr: GuestPhysAddr(a), width: width_of(b), data: c },
        _ => stray("exit", &[number]),
    }
}

/// How many values an exit carries; a hypercall's arguments stand apart.
fn exit_carries(number: u64) -> usize {
    [0, 1, 3, 3, 1, 0, 1, 0, 2, 2, 3][number as usize]
}

/// How many values an ask carries.
fn ask_carries(number: u64) -> usize {
    [2, 1, 2, 1, 1, 2, 1, 0, 8][number as usize - 1]
}

/// An ask by its number and values.
fn ask_of(number: u64, values: &[u64; 8]) -> Ask {
    let [a, b, ..] = *values;
    match number {
        1 => Ask::Fetch { at: GuestVirtAddr(a), supervisor: flag_of(b) },
        2 => Ask::Mask { at: GuestVirtAddr(a) },
        3 => Ask::CopyIn { at: GuestPhysAddr(a), n: b },
        4 => Ask::Print { n: a },
        5 => Ask::Read { n: a },
        6 => Ask::CopyOut { at: GuestPhysAddr(a), n: b },
        7 => Ask::Emit { number: a },
        8 => Ask::GetChar,
        9 => Ask::Forward { eid: a, fid: b, args: std::array::from_fn(|i| values[2 + i]) },
        _ => stray("ask", &[number]),
    }
}

fn error_of(number: u64) -> Error {
    match number {
        1 => Error::InvalidInput,
        2 => Error::BadState,
        3 => Error::Unsupported,
        4 => Error::InvalidTrap,
        5 => Error::DecodeFailed,
        6 => Error::GuestMemoryFault,
        7 => Error::WrongAnswer,
        _ => stray("error", &[number]),
    }
}

/// An answer as its ask's number and two words.
fn answer_words(answer: &Answer) -> [u64; 3] {
    match *answer {
        Answer::Fetch(FetchAnswer::Word(word)) => [1, word as u64, 0],
        Answer::Fetch(FetchAnswer::Page(at)) => [1, at.0, 1],
        Answer::Fetch(FetchAnswer::Access(at)) => [1, at.0, 2],
        Answer::Fetch(FetchAnswer::Misaligned(at)) => [1, at.0, 3],
        Answer::Fetch(FetchAnswer::GuestPage(at)) => [1, at.0, 4],
        Answer::Fetch(FetchAnswer::Unhandled) => [1, 0, 5],
        Answer::Mask { count, bytes } => [2, count, bytes],
        Answer::CopyIn { count } => [3, count, 0],
        Answer::Print { error, value } => [4, error, value],
        Answer::Read { error, value } => [5, error, value],
        Answer::CopyOut { count } => [6, count, 0],
        Answer::Emit => [7, 0, 0],
        Answer::GetChar { number } => [8, number, 0],
        Answer::Forward { error, value } => [9, error, value],
        Answer::Other { number } => [number, 0, 0],
    }
}

fn convention_word(abi: IpiAbi) -> u64 {
    (abi == IpiAbi::SbiV02) as u64
}

/// The library gave a word that its definitions have no meaning for.
pub fn stray(what: &str, words: &[u64]) -> ! {
    println!("\nthe proved library gave a {what} that has no meaning: {words:x?}\n1 unexplained");
    std::process::exit(1)
}
