#!/usr/bin/env python3
"""Writes the captures that the program `replays` runs, and the output that each must give.

    tools/captures.py
    tools/captures.py --try [COUNT] [SEED]      runs replay on COUNT captures that are not stored (1,000 if not given)

crates/test_replays/data/published/   a capture for each class of traps, with the output of the published Rust
crates/test_replays/data/damaged/     captures cut or changed in one place, with the output of the plain Rust model
crates/test_replays/data/wrong/       one of them with outputs that are wrong: the program must say so of each
crates/replay/stdin, stdout      a long capture for the program `replay`, cut in its last line, with the output of the model

docs/CAPTURES.md says what they are. It needs cargo, and RISCV_VCPU_SRC for the first folder: without it that folder is
left as it is. The seed is fixed, so a run writes the same bytes again. A test needs only what is stored.

With --try each capture is one of the stored ones, half of them cut to some of their first lines, seven of eight damaged in one
random place; what crates/replay/out/replay writes is compared with what the plain Rust model writes.
"""
import os
import random
import shutil
import subprocess
import sys

SEED = "1"
CRATE = "crates/test_replays"
DATA = f"{CRATE}/data"
RELEASE = "oracle/target/release"


def build(package):
    subprocess.run(["cargo", "build", "--quiet", "--release", "--offline", "-p", package], cwd="oracle", check=True)


def line(key, number):
    return f"{key}={number:016x}\n".encode()


def header(numbers):
    keys = ["sepc", "vstimecmp"] + [f"x{i:02}" for i in range(1, 32)]
    return [line(key, numbers.get(key, 0)) for key in keys]


def trap(scause, stval=0, htval=0, htinst=0):
    return [line("scause", scause), line("stval", stval), line("htval", htval), line("htinst", htinst)]


def pair(word, more):
    return [line("word", word), line("more", more)]


# A guest that prints 5 bytes (asks 3 and 4), reads stimecmp by an instruction that is fetched (ask 1), loads a word from
# a device, and is interrupted.
HEADER = header({"sepc": 0x8000_0000, "vstimecmp": 7, "x10": 5, "x11": 0x8020_0000, "x17": 0x4442_434E})
PRINTS = trap(10) + pair(5, 0x1234) + pair(0, 5)
READS = trap(22) + pair(0xFFFF_0000_14D0_2573, 0)
LOADS = trap(21, htval=0x400_0000, htinst=0x2503) + pair(0x8000_0000, 0x63)
INTERRUPT = trap(2**63 + 9)
WHOLE = HEADER + PRINTS + READS + LOADS + INTERRUPT
# Lines of WHOLE, counted from 0.
SCAUSE, WORD, MORE = 33, 37, 38
FETCH = 33 + len(PRINTS) + 4
LOAD = 33 + len(PRINTS) + len(READS) + 4
FAULT = trap(21, htval=0x400_0000)
# Where a trap may start: an end is sound here.
BOUNDS = [33, FETCH - 4, LOAD - 4, LOAD + 2]


def captures():
    """The damaged captures, by name. Each is a list of lines."""
    yield "sound", WHOLE
    yield "sound-fetch-for-a-load", HEADER + FAULT + pair(0x2503, 0) + pair(9, 0)
    yield "empty", []
    # A line is missing.
    for n in range(1, len(WHOLE)):
        yield f"{'sound-' if n in BOUNDS else ''}cut-before-line-{n + 1:02}", WHOLE[:n]
    # The last line is cut.
    for name, n in (("sepc", 0), ("x09", 10), ("scause", SCAUSE), ("htinst", SCAUSE + 3), ("word", WORD), ("more", MORE),
                    ("completion", LOAD + 1)):
        for part, size in (("key", 1), ("sign", WHOLE[n].index(b"=")), ("digits", WHOLE[n].index(b"=") + 1),
                           ("last-digit", len(WHOLE[n]) - 2), ("end", len(WHOLE[n]) - 1)):
            yield f"cut-in-{name}-{part}", WHOLE[:n] + [WHOLE[n][:size]]

    def with_line(n, text):
        return WHOLE[:n] + [text] + WHOLE[n + 1:n + 3]

    # The key is another.
    for n in list(range(MORE + 1)):
        key = WHOLE[n].split(b"=")[0].decode()
        last = WHOLE[n].index(b"=") - 1
        yield f"key-{key}-misspelt", with_line(n, WHOLE[n][:last] + bytes([WHOLE[n][last] ^ 1]) + WHOLE[n][last + 1:])
    for i in range(10):
        yield f"key-vstimecmp-byte-{i}", with_line(1, WHOLE[1][:i] + b"_" + WHOLE[1][i + 1:])
    yield "key-capital", with_line(SCAUSE, b"S" + WHOLE[SCAUSE][1:])
    yield "key-colon", with_line(SCAUSE, WHOLE[SCAUSE].replace(b"=", b":"))
    yield "key-without-sign", with_line(SCAUSE, WHOLE[SCAUSE].replace(b"=", b""))
    yield "key-x1", with_line(2, WHOLE[2].replace(b"x01", b"x1"))
    yield "key-x32", WHOLE[:33] + [line("x32", 0)] + WHOLE[33:]
    yield "lines-exchanged", HEADER + [WHOLE[34], WHOLE[33]] + WHOLE[35:]
    yield "line-twice", HEADER + [WHOLE[33]] + WHOLE[33:]
    yield "answer-unasked", HEADER + INTERRUPT + pair(0, 0) + INTERRUPT
    yield "answer-twice", HEADER + READS + pair(0, 0) + INTERRUPT
    yield "second-answer-missing", HEADER + PRINTS[:6] + INTERRUPT
    yield "completion-missing", HEADER + LOADS[:4] + INTERRUPT
    yield "more-before-word", HEADER + READS[:4] + [READS[5], READS[4]]
    # A digit is none.
    for name, byte in (("capital-a", b"A"), ("capital-f", b"F"), ("g", b"g"), ("slash", b"/"), ("colon", b":"), ("at", b"@"),
                       ("grave", b"`"), ("space", b" "), ("zero-byte", b"\0"), ("high-byte", b"\xb0"), ("line-feed", b"\n"),
                       ("minus", b"-"), ("x", b"x")):
        yield f"digit-{name}-first", with_line(34, b"stval=" + byte + b"0" * 15 + b"\n")
        yield f"digit-{name}-last", with_line(34, b"stval=" + b"0" * 15 + byte + b"\n")
    for i in range(16):
        yield f"digit-{i + 1:02}-capital", with_line(WORD, b"word=" + b"0" * i + b"E" + b"0" * (15 - i) + b"\n")
    yield "digits-none", with_line(34, b"stval=\n")
    yield "digits-15", with_line(34, b"stval=" + b"0" * 15 + b"\n")
    yield "digits-17", with_line(34, b"stval=" + b"0" * 17 + b"\n")
    # The end of a line is another.
    for name, end in (("carriage-return", b"\r"), ("both", b"\r\n"), ("zero-byte", b"\0"), ("space", b" \n"), ("tab", b"\t\n")):
        yield f"end-{name}", with_line(35, WHOLE[35][:-1] + end)
    yield "every-line-carriage-return", [text[:-1] + b"\r\n" for text in WHOLE]
    # Bytes between lines.
    yield "blank-line-first", [b"\n"] + WHOLE
    yield "blank-line-after-header", HEADER + [b"\n"] + INTERRUPT
    yield "blank-line-last", WHOLE + [b"\n"]
    yield "space-first", [b" "] + WHOLE
    yield "mark-first", [b"\xef\xbb\xbf"] + WHOLE
    yield "junk-last", WHOLE + [b"junk"]
    yield "zero-bytes-last", WHOLE + [b"\0" * 16]
    yield "header-twice", WHOLE + HEADER
    yield "long-line", HEADER + [b"s" * 3000 + b"\n"] + INTERRUPT
    # A fetch's more is none of its six numbers; elsewhere any number will do.
    for name, more in (("6", 6), ("7", 7), ("2-to-32", 2**32), ("2-to-63", 2**63), ("all-ones", 2**64 - 1)):
        yield f"fetch-more-{name}", HEADER + trap(22) + pair(0, more) + INTERRUPT
        yield f"fetch-more-{name}-page-fault", HEADER + FAULT + pair(0, more) + INTERRUPT
        yield f"sound-load-more-{name}", HEADER + LOADS[:5] + [line("more", more)] + INTERRUPT
        yield f"sound-count-more-{name}", HEADER + PRINTS[:5] + [line("more", more)] + PRINTS[6:]
    for more in range(1, 6):
        yield f"sound-fault-{more}", HEADER + trap(22) + pair(0xABC0, more) + FAULT + pair(0xABC0, more)
    yield "unused-more-unfit", HEADER + LOADS[:5] + [b"more=000000000000000G\n"] + INTERRUPT
    # What is printed before an unfit line stays, and nothing follows it.
    for n in range(0, len(WHOLE), 5):
        yield f"line-{n + 1:02}-unfit", WHOLE[:n] + [WHOLE[n].upper()] + WHOLE[n + 1:]


def damaged(r, text):
    """The capture or some of its first lines, as they are or damaged in one place."""
    lines = text.splitlines(keepends=True)
    if r.randrange(2):
        lines = lines[:r.randrange(len(lines) + 1)]
    kind, n = r.randrange(8), len(lines)
    if kind == 1 and n:
        del lines[r.randrange(n)]
    if kind == 2 and n:
        i, k = r.randrange(n), r.randrange(n)
        lines[i], lines[k] = lines[k], lines[i]
    text = bytearray(b"".join(lines))
    at = r.randrange(len(text) + 1)
    if kind == 3:
        del text[at:]
    elif kind == 4:
        del text[at:at + 1]
    elif kind == 5:
        text[at:at] = bytes([r.randrange(256)])
    elif kind == 6:
        text[at:at + 1] = bytes([r.randrange(256)])
    elif kind == 7 and at < len(text):
        text[at] ^= 1 << r.randrange(8)
    return bytes(text)


def compare(count, seed):
    """Replay beside the model on captures that are not stored."""
    r = random.Random(seed)
    build("model")
    stored = [open(f"{DATA}/{name.strip()}.capture", "rb").read() for name in open(f"{CRATE}/args")]
    different, bad = 0, 0
    for number in range(1, count + 1):
        capture = damaged(r, r.choice(stored))
        expected = replayed(capture)
        output = subprocess.run(["tools/run", "replay"], input=capture, capture_output=True, check=True).stdout
        bad += b"bad=" in expected
        if output != expected:
            different += 1
            open(f"target/different-{seed}-{number}.capture", "wb").write(capture)
            print(f"target/different-{seed}-{number}.capture: another output than the model's")
    print(f"{count} captures of seed {seed}, {bad} of them with bad=, {different} different")
    sys.exit(different > 0)


def wrong():
    """Writes a sound capture with three wrong outputs; the name of each, and the first byte at which it is wrong."""
    folder, source = f"{DATA}/wrong", f"{DATA}/published/load-fetch"
    shutil.rmtree(folder, ignore_errors=True)
    os.makedirs(folder)
    capture, output = open(f"{source}.capture", "rb").read(), open(f"{source}.replay", "rb").read()
    middle = len(output) // 2
    outputs = {"byte": output[:middle] + bytes([output[middle] ^ 1]) + output[middle + 1:], "longer": output + b"\n", "shorter": output[:-1]}
    for name, expected in outputs.items():
        open(f"{folder}/{name}.capture", "wb").write(capture)
        open(f"{folder}/{name}.replay", "wb").write(expected)
    return [("wrong/byte", middle), ("wrong/longer", len(output)), ("wrong/shorter", len(output) - 1)]


def replayed(capture):
    """What the plain Rust model gives."""
    return subprocess.run([f"{RELEASE}/model-replay"], input=capture, capture_output=True, check=True).stdout


def long_one():
    """What the program `replay` reads in the gate: the traps of published captures behind one header, more than its buffer
    holds twice over, cut before the last LF. So each piece has to follow the one before, and the end has to be told."""
    folder = f"{DATA}/published"
    capture = b""
    while len(capture) < 150_000:
        for name in sorted(f for f in os.listdir(folder) if f.endswith(".capture")):
            lines = open(f"{folder}/{name}", "rb").read().splitlines(keepends=True)
            more = capture + b"".join(lines[33:] if capture else lines)
            # what a trap asks can depend on registers, and these are not those that its own capture had
            if b"bad=" not in replayed(more):
                capture = more
    capture = capture[:-1]
    output = replayed(capture)
    if output.count(b"bad=") != 1 or output.count(b"exit=") < 1000:
        sys.exit(f"the long capture: {output[-100:].decode()}")
    open("crates/replay/stdin", "wb").write(capture)
    open("crates/replay/stdout", "wb").write(output)


def main():
    os.chdir(os.path.join(os.path.dirname(os.path.abspath(__file__)), ".."))
    if sys.argv[1:2] == ["--try"]:
        count, seed = [int(word) for word in sys.argv[2:]] + [1000, 1][len(sys.argv) - 2:]
        if count < 1:
            sys.exit("tools/captures.py: COUNT is a number, 1 or more")
        compare(count, seed)
    names = []
    if os.environ.get("RISCV_VCPU_SRC"):
        build("diff")
        shutil.rmtree(f"{DATA}/published", ignore_errors=True)
        subprocess.run([f"{RELEASE}/diff", "--seed", SEED, "--captures", f"{DATA}/published"], check=True)
    else:
        print("published: left as it is, for want of RISCV_VCPU_SRC")
    names += sorted(f"published/{f[:-8]}" for f in os.listdir(f"{DATA}/published") if f.endswith(".capture"))
    build("model")
    folder = f"{DATA}/damaged"
    shutil.rmtree(folder, ignore_errors=True)
    os.makedirs(folder)
    bad, sound = 0, 0
    for name, lines in captures():
        if f"damaged/{name}" in names:
            sys.exit(f"two captures have the name {name}")
        capture = b"".join(lines)
        output = replayed(capture)
        if (b"bad=" in output) == name.startswith("sound"):
            sys.exit(f"{name}: {output.decode()}")
        bad, sound = bad + (b"bad=" in output), sound + (b"bad=" not in output)
        open(f"{folder}/{name}.capture", "wb").write(capture)
        open(f"{folder}/{name}.replay", "wb").write(output)
        names.append(f"damaged/{name}")
    print(f"damaged: {bad} captures that end with bad=, {sound} that are sound")
    long_one()
    names.append("example/document-01")
    told = wrong()
    names += [name for name, _ in told]
    open(f"{CRATE}/args", "w").write("".join(name + "\n" for name in names))
    open(f"{CRATE}/stdout", "w").write("".join(f"{name}: byte {at} of the output differs\n" for name, at in told) + f"{len(names)} captures, {len(told)} different\n")
    print(f"{len(names)} captures")


main()
