#!/usr/bin/env python3
"""Makes the lists that the program `vectors` compares the decoder with.

    tools/vectors.py [FOLDER]       writes every list; FOLDER is crates/test_vectors/data unless named

It needs Debian's binutils-riscv64-linux-gnu, gcc-riscv64-linux-gnu and qemu-user. The gate doesn't run it: the lists
are part of the repository. Two runs with the same tools write the same bytes.

Most lists are texts of lines of 34 bytes: the input and the expected answer, each a number of 16 lowercase hex digits,
with a space between and LF at the end. Nothing of this project's own code says what is expected:

    list                    input                       expected                        judge
    decode                  32-bit word                 its decode                      objdump
    fetched                 fetched word                trapped by it                   objdump for lengths and decode
    htinst                  htinst                      trapped by it                   PRIV for what htinst means, objdump for decode
    lb lh lw ld lbu lhu lwu 64 bits in memory           the register after the load     qemu-riscv64
    sb sh sw sd             a register                  8 zero bytes after the store    qemu-riscv64
    compressed              every 16-bit word           its decode                      objdump
    executed                16-bit word, number         trapped by it, what it moves    qemu-riscv64, which runs the word

A line of `compressed` has the answers for 64 numbers, those left out that end in the bits 11: 48 times the digits 'kwsrr'
and LF. A line of `executed` has four numbers of 16 digits: the word and its answer, the number and the result. Every line
of `wrong`, `wrong_compressed` and `wrong_executed` is wrong, all but one in one byte alone.

An answer of the first three lists, and of a word in `executed`, is read from its last hex digits, 'tlkwsrr':

    t   0 htinst is absent, 1 pseudoinstruction, 2 unfit, 3 an instruction (0 in the list decode)
    l   the instruction's length in bytes
    k   0 neither, 1 load, 2 store
    w   the width in bytes
    s   1 where the sign is extended
    rr  rd of a load, rs2 of a store

The words: every opcode (7 bits) with every funct3 and varied other bits; each load with every rd and each store with
every rs2; each load and store with any one of its 32 bits turned; immediates at their ends. A fixed seed varies them.
"""
import os
import random
import re
import signal
import struct
import subprocess
import sys
import tempfile

LOADS = {"lb": (0, 1, 1), "lh": (1, 2, 1), "lw": (2, 4, 1), "ld": (3, 8, 1), "lbu": (4, 1, 0), "lhu": (5, 2, 0), "lwu": (6, 4, 0)}
STORES = {"sb": (0, 1), "sh": (1, 2), "sw": (2, 4), "sd": (3, 8)}
COMPRESSED = {"c.lw": "lw", "c.ld": "ld", "c.sw": "sw", "c.sd": "sd", "c.lwsp": "lw", "c.ldsp": "ld", "c.swsp": "sw", "c.sdsp": "sd"}
MARKED = [0x00702023, 0x00002383, 0x00006383]  # 01's marked cases: SW, LW and LWU with x7
EVEN = [0, 0x2000, 0x2020, 0x3000, 0x3020]  # pseudoinstructions in htinst; fetched, they are 16-bit words
NEITHER = 0
ABSENT, PSEUDO, UNFIT, INSTRUCTION = 0, 1, 2, 3
SHORT = [w for w in range(0x10000) if w & 3 != 3]  # every 16-bit instruction
ROOM = 28  # behind a word of 4 bytes, for the longest instruction that it may begin
NOP = b"\x01\x00"  # c.nop, at which a disassembler is in step again


def run(*words, **more):
    return subprocess.run(words, check=True, capture_output=True, **more).stdout


# The judge of words.

def disassembled(words, size=4, room=ROOM):
    """For each word, the length that objdump gives the instruction at its start, its mnemonic and its operands."""
    with tempfile.NamedTemporaryFile() as file:
        for w in words:
            file.write(w.to_bytes(size, "little") + NOP * (room // 2))
        file.write(NOP)
        file.flush()
        text = run("riscv64-linux-gnu-objdump", "-D", "-z", "-b", "binary", "-m", "riscv:rv64", "-M", "no-aliases,numeric", file.name, text=True)
    lines = [(int(a, 16), rest) for a, rest in re.findall(r"^ *([0-9a-f]+):\t(.*)$", text, re.M)]
    following = {a: b for (a, _), (b, _) in zip(lines, lines[1:])}
    at = {a: rest.split("\t") for a, rest in lines}
    found = []
    for place in range(0, len(words) * (size + room), size + room):
        parts = at[place]
        found.append((following[place] - place, parts[1], parts[2] if len(parts) > 2 else ""))
    return found


def decode(judged, lengths=(4,)):
    """The load or store that objdump names, as a number, if it is this long."""
    length, name, operands = judged
    name = COMPRESSED.get(name, name)
    if length not in lengths or name not in LOADS and name not in STORES:
        return NEITHER
    register = int(re.match(r"x(\d+),", operands).group(1))
    if name in LOADS:
        _, width, signed = LOADS[name]
        return 0x10000 + width * 0x1000 + signed * 0x100 + register
    return 0x20000 + STORES[name][1] * 0x1000 + register


def trapped(kind, length=0, decoded=NEITHER):
    return kind * 0x1000000 + length * 0x100000 + decoded


# The words.

def load(name, rd, rs1, imm):
    return (imm & 0xfff) << 20 | rs1 << 15 | LOADS[name][0] << 12 | rd << 7 | 0x03


def store(name, rs2, rs1, imm):
    return (imm >> 5 & 0x7f) << 25 | rs2 << 20 | rs1 << 15 | STORES[name][0] << 12 | (imm & 0x1f) << 7 | 0x23


def every_opcode(chance, times):
    return [chance.getrandbits(32) & ~0x707f | funct3 << 12 | opcode
            for opcode in range(128) for funct3 in range(8) for _ in range(times)]


def every_register(chance):
    made = [load(n, r, chance.randrange(32), chance.getrandbits(12)) for n in LOADS for r in range(32)]
    return made + [store(n, r, chance.randrange(32), chance.getrandbits(12)) for n in STORES for r in range(32)]


def near(chance):
    """Each load and store with its immediate at an end, and with one bit turned."""
    made = []
    for make, names in ((load, LOADS), (store, STORES)):
        for n in names:
            made += [make(n, chance.randrange(32), chance.randrange(32), imm) for imm in (0, 1, 0x1f, 0x20, 0x7ff, 0x800, 0xfff)]
            word = make(n, chance.randrange(32), chance.randrange(32), chance.getrandbits(12))
            made += [word ^ 1 << bit for bit in range(32)]
    return made


def decode_list(chance):
    words = every_opcode(chance, 4) + every_register(chance) + near(chance)
    return [(w, decode(j)) for w, j in zip(words, disassembled(words))]


def fetched_list(chance):
    words = MARKED + EVEN + [2 ** 32 - 1] + every_opcode(chance, 2) + every_register(chance) + near(chance)
    made = []
    for w, judged in zip(words, disassembled(words)):
        length = judged[0]
        # 192 bits and more: reserved, and objdump gives no length
        if length > 4 or w & 0x707f == 0x707f:
            made.append((w, trapped(UNFIT)))
        else:
            made.append((w, trapped(INSTRUCTION, length, decode(judged, (2, 4)))))
    return made


def transformed(word):
    """A standard load or store as htinst shows it: the immediate 0, the address offset for rs1."""
    return word & (0x01f0707f if word & 0x7f == 0x23 else 0x00007fff)


def htinst_list(chance):
    """PRIV, 'Hypervisor Extension', htinst. Bit 0 is 1: a transformed instruction, and with bit 1 set its word; bit 1 was 0
    where the instruction was compressed. 0 says nothing. Of the pseudoinstructions those of a 64-bit walk are taken; every
    other even number is unfit. What stands above the low 32 bits counts only against 0."""
    made = [(0, trapped(ABSENT)), (0x3000, trapped(PSEUDO)), (0x3020, trapped(PSEUDO))]
    made += [(high << 32 | w, trapped(PSEUDO)) for w in (0x3000, 0x3020) for high in (1, 1 << 31, 0xffffffff)]
    made += [(1 << bit, trapped(UNFIT)) for bit in range(1, 64)]
    made += [(w, trapped(UNFIT)) for w in (0x2000, 0x2020, 0x1000, 0x3002, 0x3004, 0x3010, 0x3022, 0x3040, 0x13000, 0x13020, 0x80003000)]
    made += [(w & ~1, trapped(UNFIT)) for w in (chance.getrandbits(64) for _ in range(256)) if w & 0xffffffde != 0x3000]
    offsets = [chance.choice((0, 0, 0, 1, 2, 4, 7, 31)) for _ in range(352)]
    standard = every_register(chance)
    shown = [(transformed(w) | o << 15, j) for w, o, j in zip(standard, offsets, disassembled(standard))]
    others = MARKED + [w | 3 for w in every_opcode(chance, 1) if w & 1]
    shown += list(zip(others, disassembled(others)))
    for w, judged in shown:
        high = chance.choice((0, 0, 0, 1, chance.getrandbits(32))) << 32
        made.append((high | w, trapped(INSTRUCTION, 4, decode(judged))))
        made.append((high | w & ~2, trapped(INSTRUCTION, 2, decode(judged))))
    return made


# The judge of extension.

def values(chance):
    """Both sides of each width's sign and end, single bits, and others."""
    made = [0, 0x0123456789abcdef, 0xfedcba9876543210, 0x7f7f7f7f7f7f7f7f, 0x8080808080808080, 0xff00ff00ff00ff00, 0x00ff00ff00ff00ff]
    for bits in (8, 16, 32, 64):
        for edge in (1 << bits - 1, 1 << bits):
            made += [(edge + d) % 2 ** 64 for d in (-2, -1, 0, 1)]
            made += [(edge + d | 0x5a5a5a5a5a5a5a5a >> bits << bits) % 2 ** 64 for d in (-1, 0)]
    made += [1 << bit for bit in range(64)] + [2 ** 64 - 1 - (1 << bit) for bit in range(64)]
    made += [chance.getrandbits(64) for _ in range(128)]
    return list(dict.fromkeys(made))


def program(numbers):
    """Loads each number by the seven loads, stores it over 8 zero bytes by the four stores, and writes every result."""
    steps = "".join(f"    sd s2, 0(s3)\n    {n} t0, 0(s3)\n    sd t0, 0(s4)\n    addi s4, s4, 8\n" for n in LOADS)
    steps += "".join(f"    sd zero, 0(s3)\n    {n} s2, 0(s3)\n    ld t0, 0(s3)\n    sd t0, 0(s4)\n    addi s4, s4, 8\n" for n in STORES)
    size = 8 * len(numbers) * (len(LOADS) + len(STORES))
    return f"""
    .option norvc
    .globl _start
_start:
    la s0, numbers
    la s1, numbers_end
    la s3, cell
    la s4, results
next:
    ld s2, 0(s0)
{steps}    addi s0, s0, 8
    bltu s0, s1, next
    la s5, results
write:
    li a0, 1
    mv a1, s5
    sub a2, s4, s5
    li a7, 64
    ecall
    blez a0, end
    add s5, s5, a0
    bltu s5, s4, write
end:
    li a0, 0
    li a7, 93
    ecall
    .data
    .balign 8
cell: .dword 0
numbers:
""" + "".join(f"    .dword {n:#x}\n" for n in numbers) + f"""numbers_end:
    .bss
    .balign 8
results: .zero {size}
"""


def moved_lists(chance):
    numbers = values(chance)
    with tempfile.TemporaryDirectory() as folder:
        source, binary = os.path.join(folder, "moved.S"), os.path.join(folder, "moved")
        with open(source, "w") as file:
            file.write(program(numbers))
        run("riscv64-linux-gnu-gcc", "-nostdlib", "-static", "-o", binary, source)
        out = run("qemu-riscv64", binary)
    results = [int.from_bytes(out[i:i + 8], "little") for i in range(0, len(out), 8)]
    names = list(LOADS) + list(STORES)
    if len(results) != len(names) * len(numbers):
        sys.exit("the program under qemu-riscv64 wrote too little")
    return {n: list(zip(numbers, results[k::len(names)])) for k, n in enumerate(names)}


# The judge of compressed loads and stores.

CELL = 0x5ac3a51008  # the 8 bytes that a word loads or stores; as a number it is cut by a store of 4 bytes
ONES = 2 ** 64 - 1
MARKS = 0x8080808080808080  # of each load, signed or not, it makes another number
TEST, AFTER = struct.Struct("<Q31Q3Q"), struct.Struct("<31Q3Q")  # the word, x1 to x31, and the cell between its neighbours


def low(width):
    return (1 << 8 * width) - 1


def runner():
    """Reads tests and runs the word of each: every register and the memory are set before it and written out after it."""
    fill = "".join(f"    ld t1, {256 + i}(t0)\n    sd t1, {i}(t2)\n" for i in (0, 8, 16))
    set_all = "".join(f"    ld x{r}, {8 * r}(x31)\n" for r in range(1, 32))
    keep_all = "".join(f"    sd x{r}, {8 * r - 8}(x31)\n" for r in range(1, 31))
    keep_memory = "".join(f"    ld x2, {i}(x1)\n    sd x2, {248 + i}(x31)\n" for i in (0, 8, 16))
    # the floating registers have what no other register has
    floating = "".join(f"    fmv.d.x f{r}, t0\n" for r in range(32))
    # norelax: an address is not counted from gp, which a test sets. No register is free behind the word, so x31 waits in f0; an
    # instruction there that is not 2 bytes long takes half of the fmv
    return f"""
    .option norvc
    .option norelax
    .globl _start
_start:
    li t0, 0x0f0e0d0c0b0a0908
{floating}    li a0, {CELL - 8}
    li a1, 4096
    li a2, 3
    li a3, 0x32
    li a4, -1
    li a5, 0
    li a7, 222
    ecall
next:
    li a0, 0
    lla a1, test
    li a2, {TEST.size}
    li a7, 63
    ecall
    li t0, {TEST.size}
    bne a0, t0, end
    lla t0, test
    lhu t1, 0(t0)
    lla t2, place
    sh t1, 0(t2)
    fence.i
    li t2, {CELL - 8}
{fill}    lla x31, test
{set_all}    .2byte 0x0001
place:
    .2byte 0x0001
    fmv.d.x f0, x31
    lla x31, after
{keep_all}    fmv.x.d x1, f0
    sd x1, 240(x31)
    li x1, {CELL - 8}
{keep_memory}    li a0, 1
    lla a1, after
    li a2, {AFTER.size}
    li a7, 64
    ecall
    j next
end:
    li a0, 0
    li a7, 93
    ecall
    .data
    .balign 8
test: .zero {TEST.size}
after: .zero {AFTER.size}
"""


def executed(tests, folder):
    """What qemu leaves of each test in the registers and the memory; or the signal that ended it."""
    source, binary, given = (os.path.join(folder, n) for n in ("runner.S", "runner", "tests"))
    if not os.path.exists(binary):
        with open(source, "w") as file:
            file.write(runner())
        # -N: words are put among the instructions
        run("riscv64-linux-gnu-gcc", "-nostdlib", "-static", "-Wl,-N", "-o", binary, source)
    with open(given, "wb") as file:
        file.writelines(TEST.pack(*t) for t in tests)
    with open(given, "rb") as file:
        ran = subprocess.run(["qemu-riscv64", binary], stdin=file, cwd=folder, capture_output=True)
    if ran.returncode:
        return ran.returncode
    after = list(AFTER.iter_unpack(ran.stdout))
    if len(after) != len(tests):
        sys.exit("the program under qemu-riscv64 wrote too little")
    return after


def observed(word, before, cells, after):
    """What a word did, run once on each of the cells: it changed one register, or left a register's low bytes in the cell. Its decode,
    the number moved from the last cell or to it, and what was there then."""
    registers, left = [[0, *a[:31]] for a in after], [a[32] for a in after]
    changed = [r for r in range(32) if any(a[r] != before[r] for a in registers)]
    kept = all((a[31], a[33]) == (c ^ ONES, c ^ ONES) for a, c in zip(after, cells))
    if kept and len(changed) == 1 and left == cells:
        register = changed[0]
        shown = registers[2][register]
        for width in (1, 2, 4, 8):
            # of 8 bytes nothing is left to extend, and the digit is 1
            for signed in (1, 0):
                if shown == MARKS & low(width) | signed * (ONES ^ low(width)):
                    return 0x10000 + width * 0x1000 + signed * 0x100 + register, cells[3], registers[3][register]
    # a byte that is not stored stays 0 in the first cell and 0xff in the second
    width = next(w for w in range(9) if left[0] ^ left[1] | low(w) == ONES)
    sources = [r for r in range(32) if before[r] & low(width) == left[0]]
    if kept and not changed and len(sources) == 1 and all(a == left[0] | c & (ONES ^ low(width)) for a, c in zip(left, cells)):
        return 0x20000 + width * 0x1000 + sources[0], before[sources[0]], left[0]
    sys.exit(f"{word:#06x} under qemu-riscv64 is neither a load nor a store")


def executed_list(chance, judged):
    """Every 16-bit load and store, run; of each form with each register some words are taken. The reserved words are run too, and end
    in an illegal instruction."""
    numbers = values(chance)
    # a register is known by what a store leaves of it: no two have the same low 32 bits, and none has x0's
    contents = list({n % 2 ** 32: n for n in numbers if n % 2 ** 32}.values())
    words = [w for w in SHORT if decode(judged[w], (2,))]
    chance.shuffle(words)
    made, tests = [], []
    for w in words:
        offset, base = map(int, re.fullmatch(r"x\d+,(\d+)\(x(\d+)\)", judged[w][2]).groups())
        number = chance.choice(numbers)
        before = [0, *chance.sample([n for n in contents if (n - number) % 2 ** 32], 31)]
        before[base] = CELL - offset
        cells = [0, ONES, MARKS, number]
        made.append((w, before, cells))
        tests += [(w, *before[1:], c ^ ONES, c, c ^ ONES) for c in cells]
    with tempfile.TemporaryDirectory() as folder:
        after = executed(tests, folder)
        if isinstance(after, int):
            sys.exit(f"the program under qemu-riscv64 ended with {after}")
        for w in [0] + [w for w in SHORT if w & 0xcf83 == 0x4002]:
            if decode(judged[w], (2,)) or executed([(w, *[CELL] * 31, 0, 0, 0)], folder) != -signal.SIGILL:
                sys.exit(f"{w:#06x} is an instruction")
    lines, taken = [], {}
    for i, (w, before, cells) in enumerate(made):
        decoded, number, result = observed(w, before, cells, after[4 * i:4 * i + 4])
        _, name, operands = judged[w]
        if decoded != decode(judged[w], (2,)):
            sys.exit(f"{w:#06x} is {name} {operands} to objdump and {decoded:x} under qemu-riscv64")
        width, register = decoded >> 12 & 15, decoded & 0xff
        kind = (name, register, operands.endswith(f"(x{register})"), result >> 8 * width - 1 & 1)
        taken[kind] = taken.get(kind, 0) + 1
        if taken[kind] <= 3:
            lines.append((w, trapped(INSTRUCTION, 2, decoded), number, result))
    return sorted(lines)


# The texts.

def spelled(*numbers):
    return " ".join(f"{n:016x}" for n in numbers) + "\n"


def packed_lines(judged, start, stop):
    for first in range(start, stop, 64):
        yield "".join(f"{decode(judged[w], (2,)):05x}" for w in range(first, first + 64) if w & 3 != 3) + "\n"


def wrong_lines(line):
    """A line of pairs once for each of its bytes, wrong in that byte alone: an input's digit stands as a capital that has the digit's
    low four bits, an answer's digit is the next one, and neither a space nor the LF is there."""
    for at, byte in enumerate(line):
        other = "," if byte == " " else " " if byte == "\n" else chr(ord(byte) + 32) if at % 34 < 16 else chr(ord(byte) + 1)
        yield line[:at] + other + line[at + 1:]


def wrong_packed_lines(judged):
    """The lines from word 0x4000 on, c.lw and c.lwsp among them: in each another of the 48 answers is wrong, in one digit, and in the
    last the LF."""
    for i, line in enumerate(packed_lines(judged, 0x4000, 0x4000 + 49 * 64)):
        at = min(5 * i + i % 5, 240)
        other = " " if at == 240 else f"{(int(line[at], 16) + 1) % 16:x}"
        yield line[:at] + other + line[at + 1:]


def main():
    folder = sys.argv[1] if len(sys.argv) > 1 else os.path.join(os.path.dirname(__file__), "..", "crates", "test_vectors", "data")
    judged = dict(zip(SHORT, disassembled(SHORT, 2, 0)))
    pairs = {
        "decode": decode_list(random.Random(1)),
        "fetched": fetched_list(random.Random(2)),
        "htinst": htinst_list(random.Random(3)),
        **moved_lists(random.Random(4)),
        "executed": executed_list(random.Random(5), judged),
    }
    lists = {name: [spelled(*numbers) for numbers in lines] for name, lines in pairs.items()}
    lists["compressed"] = list(packed_lines(judged, 0, 0x10000))
    # lw x1, 0(x0)
    lists["wrong"] = list(wrong_lines(spelled(0x00002083, 0x14101)))
    lists["wrong_compressed"] = list(wrong_packed_lines(judged))
    # c.lwsp x7, 0(x2), of a number whose digits have capitals; and a reserved word, which moves nothing
    lists["wrong_executed"] = list(wrong_lines(spelled(0x4382, 0x3214107, 0x0123456789012345, 0xffffffff89012345)))
    lists["wrong_executed"].append(spelled(0x4002, trapped(INSTRUCTION, 2), 0, 0))
    os.makedirs(folder, exist_ok=True)
    for name, lines in lists.items():
        with open(os.path.join(folder, name), "w") as file:
            file.writelines(lines)
        print(f"{name}: {len(lines)} lines")


main()
