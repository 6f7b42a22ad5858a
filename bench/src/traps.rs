//! The traps: kinds, shares and what is drawn, from one seed.

pub type Record = [u64; 58];

/// What a trap needs: its registers, its numbers, what the host answers (an error and a value, a fetched word and 0, or a page fault's
/// address and 1), and what a device gives.
#[derive(Clone, Copy)]
pub struct Work {
    pub a0: u64,
    pub a6: u64,
    pub a7: u64,
    pub trap: [u64; 5],
    pub given: [u64; 2],
    pub device: u64,
}

/// SplitMix64.
pub struct Random(pub u64);

impl Random {
    #[inline]
    pub fn number(&mut self) -> u64 {
        self.0 = self.0.wrapping_add(0x9E37_79B9_7F4A_7C15);
        let mut z = self.0;
        z = (z ^ (z >> 30)).wrapping_mul(0xBF58_476D_1CE4_E5B9);
        z = (z ^ (z >> 27)).wrapping_mul(0x94D0_49BB_1331_11EB);
        z ^ (z >> 31)
    }

    /// A record with every word drawn and nothing waiting.
    pub fn record(&mut self) -> Record {
        std::array::from_fn(|i| if i < 54 { self.number() } else { 0 })
    }
}

/// A kind of trap: what is fixed in it and what is drawn.
struct Kind {
    name: &'static str,
    /// Of a hundred traps of the mix.
    share: usize,
    scause: u64,
    a7: u64,
    a6: u64,
    a6_drawn: u64,
    /// The instruction, and its bits that are drawn.
    word: u64,
    word_drawn: u64,
    /// The funct3 that are legal, and how many.
    funct3: [u8; 8],
    forms: u64,
    /// All ones where stval is the instruction.
    in_stval: u64,
    /// All ones where the hart leaves the instruction to be fetched.
    fetched: u64,
    /// What the fetch ends in, by the number of the library's boundary: 0 for the word, 1 for a page fault at any address.
    fault: u64,
}

const ECALL: Kind = Kind {
    name: "",
    share: 0,
    scause: 10,
    a7: 0,
    a6: 0,
    a6_drawn: 0,
    word: 0,
    word_drawn: 0,
    funct3: [0; 8],
    forms: 1,
    in_stval: 0,
    fetched: 0,
    fault: 0,
};
const RD: u64 = 31 << 7;
const RS1: u64 = 31 << 15;
const RS2: u64 = 31 << 20;
/// htinst's bit that is clear for an instruction of two bytes.
const LENGTH: u64 = 2;

const STIMECMP: Kind = Kind {
    name: "stimecmp",
    share: 25,
    scause: 22,
    word: 0x14d0_0073,
    word_drawn: RD | RS1,
    funct3: [1, 2, 3, 5, 6, 7, 0, 0],
    forms: 6,
    in_stval: u64::MAX,
    ..ECALL
};
const LOAD: Kind = Kind {
    name: "load, with its completion",
    share: 15,
    scause: 21,
    word: 1,
    word_drawn: RD | RS1 | LENGTH,
    funct3: [0, 1, 2, 3, 4, 5, 6, 0],
    forms: 7,
    ..ECALL
};
const STORE: Kind = Kind {
    name: "store",
    share: 15,
    scause: 23,
    word: 0x21,
    word_drawn: RS1 | RS2 | LENGTH,
    funct3: [0, 1, 2, 3, 0, 0, 0, 0],
    forms: 4,
    ..ECALL
};

/// The compressed forms' bits that are drawn: the quadrant, 0 or 2, and all between it and funct3 but bit 7. That is set, so that c.lwsp and
/// c.ldsp have an rd. funct3 is of three bits and stands one higher than a 32-bit word's.
const COMPRESSED: u64 = 0x1f7e;

/// The last six are for a hart that leaves the instruction's place, stval or htinst, 0: stimecmp, the load, the store, the load and the
/// store of 16 bits, and a load whose word has a page fault, which the guest takes.
const KINDS: [Kind; 13] = [
    Kind { name: "TIME", share: 20, a7: 0x5449_4D45, ..ECALL },
    Kind { name: "legacy timer", share: 5, ..ECALL },
    Kind { name: "forward, with its answer", share: 10, a7: 0x10, a6_drawn: 7, ..ECALL },
    Kind { name: "DBCN byte, with its answer", share: 10, a7: 0x4442_434E, a6: 2, ..ECALL },
    STIMECMP,
    LOAD,
    STORE,
    Kind { name: "stimecmp, fetched", fetched: u64::MAX, ..STIMECMP },
    Kind { name: "load, fetched", word: 3, word_drawn: RD | RS1, fetched: u64::MAX, ..LOAD },
    Kind { name: "store, fetched", word: 0x23, word_drawn: RS1 | RS2, fetched: u64::MAX, ..STORE },
    Kind { name: "load of 16 bits, fetched", word: 1 << 7, word_drawn: COMPRESSED, funct3: [2 << 1, 3 << 1, 0, 0, 0, 0, 0, 0], forms: 2, fetched: u64::MAX, ..LOAD },
    Kind { name: "store of 16 bits, fetched", word: 1 << 7, word_drawn: COMPRESSED, funct3: [6 << 1, 7 << 1, 0, 0, 0, 0, 0, 0], forms: 2, fetched: u64::MAX, ..STORE },
    Kind { name: "page fault, injected", word: 0, word_drawn: u64::MAX, forms: 1, fetched: u64::MAX, fault: 1, ..LOAD },
];
/// Of the kinds of the mix the first that a hart may leave to be fetched, and where it stands then.
const FIRST: usize = 4;
const FETCHED: usize = 7;

/// A hundred places for a number to choose a kind by: what is drawn in one row of the table.
pub struct Row {
    pub name: &'static str,
    kinds: [u8; 100],
    /// The generator jumps by the kind.
    pub foreseen: bool,
}

/// Each kind of the mix as often as its share says.
const fn mixed(fetched: bool) -> [u8; 100] {
    let (mut kinds, mut place, mut kind) = ([0; 100], 0, 0);
    while kind < FETCHED {
        let end = place + KINDS[kind].share;
        while place < end {
            kinds[place] = if fetched && kind >= FIRST { kind + FETCHED - FIRST } else { kind } as u8;
            place += 1;
        }
        kind += 1;
    }
    assert!(place == 100);
    kinds
}

/// Nothing but one kind.
const fn alone(kind: usize) -> Row {
    Row { name: KINDS[kind].name, kinds: [kind as u8; 100], foreseen: false }
}

/// The mix comes three times. In the first no branch of the generator depends on the kind, so that the handler's own jump by class is
/// the first to meet it, and is most often predicted wrongly. In the second the generator has jumped by the kind before, the
/// processor has that in its history, and the wrong prediction is the generator's: what is left is the handler's work. The third
/// is the first on a hart that leaves every instruction to be fetched.
pub static ROWS: [Row; 16] = [
    Row { name: "the mix", kinds: mixed(false), foreseen: false },
    Row { name: "the mix, the kind foreseen", kinds: mixed(false), foreseen: true },
    Row { name: "the mix, fetched", kinds: mixed(true), foreseen: false },
    alone(0),
    alone(1),
    alone(2),
    alone(3),
    alone(4),
    alone(5),
    alone(6),
    alone(7),
    alone(8),
    alone(9),
    alone(10),
    alone(11),
    alone(12),
];

/// The shares of the mix, in words.
pub fn shares() -> String {
    KINDS[..FETCHED].iter().map(|kind| format!("{} {} %", kind.name.split(',').next().unwrap(), kind.share)).collect::<Vec<_>>().join(", ")
}

/// A trap of a kind from two numbers. What the kind does not use is drawn too.
#[inline(always)]
fn draw(kind: &Kind, n: u64, value: u64) -> Work {
    let funct3 = kind.funct3[((n >> 25 & 127) * kind.forms >> 7) as usize & 7] as u64;
    let word = kind.word | n & kind.word_drawn | funct3 << 12;
    let shown = word & !kind.fetched;
    let stval = shown & kind.in_stval | value & !kind.in_stval;
    let device = value.rotate_left(19) ^ n;
    Work {
        a0: value,
        a6: kind.a6 | n & kind.a6_drawn,
        a7: kind.a7,
        trap: [kind.scause, stval, value >> 2, shown, 4096],
        given: [word & kind.fetched | n & !kind.fetched, device & !kind.fetched | kind.fault],
        device,
    }
}

/// In one place, so that a kind is found by an address.
static TABLE: [Kind; 13] = KINDS;

/// One function for each kind, to jump to.
fn kind<const KIND: usize>() -> &'static Kind {
    &TABLE[KIND]
}

/// A trap of a row. What a kind fixes comes from a table, so that there is no branch here; where FORESEEN, a function of the kind's own
/// says where in the table.
#[inline(always)]
pub fn work<const FORESEEN: bool>(row: &Row, r: &mut Random) -> Work {
    static BY_KIND: [fn() -> &'static Kind; 13] = [
        kind::<0>, kind::<1>, kind::<2>, kind::<3>, kind::<4>, kind::<5>, kind::<6>, kind::<7>, kind::<8>, kind::<9>, kind::<10>, kind::<11>,
        kind::<12>,
    ];
    let (n, value) = (r.number(), r.number());
    let place = row.kinds[((n >> 32) * 100 >> 32) as usize] as usize;
    draw(if FORESEEN { BY_KIND[place]() } else { &TABLE[place] }, n, value)
}
