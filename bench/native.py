"""What the tools of bench/ share: the proved program replay as a module and an object, and how a tool reads its arguments.

The module that the compiler makes of replay is kept in target/PROCESSOR/replay.ll, compiled by the same clang at -O3, and linked with the
C library at hand and the toolchain's own C functions. It is for the tools that need the module and not crates/replay/out/replay.
"""
import os
import platform
import re
import subprocess
import sys
import tempfile

MACHINE = platform.machine()
OUT = f"target/{MACHINE}"
MODULE = f"{OUT}/replay.ll"
OBJECT = f"{OUT}/replay.o"


def arguments(words, doc, defaults):
    """The numbers that are given, and the defaults of those that are not. The tool goes to the repository's top."""
    if set(words) & {"-h", "--help"}:
        print(doc.strip())
        sys.exit()
    if len(words) > len(defaults) or not all(word.isascii() and word.isdigit() for word in words):
        print("usage:" + "".join(f"\n{line}" for line in doc.split("\n") if line.startswith("    bench/")), file=sys.stderr)
        sys.exit(2)
    os.chdir(os.path.join(os.path.dirname(os.path.abspath(__file__)), ".."))
    return [int(word) for word in words] + defaults[len(words):]


def do(*words, **more):
    """Runs a command that has to work; what it writes where stdout is a pipe."""
    try:
        done = subprocess.run(words, text=True, **more)
    except FileNotFoundError:
        sys.exit(f"there is no {words[0]}")
    if done.returncode:
        sys.exit(f"status {done.returncode} of {' '.join(words)}")
    return done.stdout


def kit():
    return do("tools/kit", stdout=subprocess.PIPE).strip()


PROGRAM = "crates/replay/out/replay"


def prove():
    """Has replay and all below it proved and built, which takes seconds where it is."""
    kit()
    # `rt run` proves the program, links it and then runs it, here on nothing
    subprocess.run(["rt", "run"], cwd="crates/replay", stdin=subprocess.DEVNULL, stdout=subprocess.DEVNULL)
    if not os.path.exists(PROGRAM):
        sys.exit(f"there is no {PROGRAM}: replay is not proved")
    os.makedirs(OUT, exist_ok=True)


def make_module():
    """Keeps the module of the proved program in MODULE."""
    tools = f"{kit()}/toolchain"
    do("tools/libraries", "replay")
    words = do("tools/libraries", "--words", "replay", stdout=subprocess.PIPE).split("\n")[:-1]
    with tempfile.TemporaryDirectory() as folder:
        # A toolchain whose clang keeps the module that it is handed, then runs the toolchain's own.
        os.mkdir(f"{folder}/bin")
        os.symlink(f"{tools}/lib", f"{folder}/lib")
        for name in os.listdir(f"{tools}/bin"):
            if name != "clang":
                os.symlink(f"{tools}/bin/{name}", f"{folder}/bin/{name}")
        with open(f"{folder}/bin/clang", "w") as file:
            file.write(f"""#!/bin/sh
ir=''
for word in "$@"; do
    [ "$ir" != here ] || {{ cp "$word" "{folder}/module.bc"; ir=kept; }}
    [ "$word" != ir ] || ir=here
done
exec "{tools}/bin/clang" "$@"
""")
        os.chmod(f"{folder}/bin/clang", 0o755)
        done = subprocess.run([f"{kit()}/bin/rattle", "build", "--crate-name", "replay", "crates/replay/src/main.rt", *words,
                               "--backend", "llvm", "--toolchain", folder, "-o", f"{folder}/replay.o"], capture_output=True, text=True)
        if done.returncode:
            sys.exit(done.stdout + done.stderr)
        text = do(f"{tools}/bin/clang", "--target=x86_64-unknown-linux-gnu", "-S", "-emit-llvm", "-Xclang", "-disable-llvm-passes", "-x", "ir",
                  f"{folder}/module.bc", "-o", "-", stdout=subprocess.PIPE)
    # What names the one processor that the module was made for is left out.
    text = re.sub(r' "target-cpu"="x86-64[-a-z0-9]*"', "", text)
    text = "\n".join(line for line in text.split("\n") if not line.startswith(("target datalayout", "target triple")))
    open(MODULE, "w").write(text)


def compile_module(module, to):
    do(f"{kit()}/toolchain/bin/clang", f"--target={MACHINE}-unknown-linux-gnu", "-O3", "-fPIC", "-mllvm", "-trap-unreachable",
       "-mllvm", "-no-trap-after-noreturn", "--no-default-config", "-Wno-override-module", "-c", "-x", "ir", module, "-o", to)


def cc(to, *words):
    """Compiles and links C by the compiler at hand; the program's path."""
    do("cc", "-std=gnu11", "-O2", "-o", to, *words)
    return os.path.realpath(to)


def of_kit():
    """The toolchain's own C functions, which a program calls."""
    return [f"{kit()}/c/libos_c.a", f"{kit()}/c/liblibc_c.a"]


def make():
    """The proved program compiled from its module; MODULE and OBJECT are there then too."""
    program, key = f"{OUT}/replay", do("tools/libraries", "--sum", "replay", stdout=subprocess.PIPE)
    if not all(map(os.path.exists, (program, MODULE, OBJECT, MODULE + ".key"))) or open(MODULE + ".key").read() != key:
        make_module()
        compile_module(MODULE, OBJECT)
        cc(program, OBJECT, *of_kit())
        open(MODULE + ".key", "w").write(key)
    return os.path.abspath(program)


def processor():
    for line in open("/proc/cpuinfo"):
        if line.startswith("model name"):
            return line.split(":")[1].strip()
    known = {("0x41", "0xd40"): "Neoverse V1", ("0x41", "0xd4f"): "Neoverse V2", ("0x41", "0xd0c"): "Neoverse N1", ("0x41", "0xd49"): "Neoverse N2"}
    parts = dict(tuple(map(str.strip, line.split(":", 1))) for line in open("/proc/cpuinfo") if ":" in line)
    found = (parts.get("CPU implementer"), parts.get("CPU part"))
    return known.get(found, f"implementer {found[0]}, part {found[1]}")
