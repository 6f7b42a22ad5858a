"""Where the time of a program goes, by function, though the compiler inlines most of them: bench/replay --where.

Each instruction of the proved program's module gets a debug location that names its function. The compiler keeps it through
inlining, and the code stays as it is: its size is compared. The program is then run under perf, which takes samples of the
processor's time, or where perf is missing or may not record, under valgrind's callgrind, which counts instructions. addr2line
gives the functions that stand at an address, from the innermost out.

A function that is not inlined counts for those that surely called it: the ones that stand at every call of it in the program.
"""
import collections
import math
import os
import re
import shutil
import subprocess
import sys
import time

import native

RATE = 20_000  # samples a second
ENOUGH = 20_000  # samples, so that a row of 0.5 in a hundred is right to a tenth of that or so
LEAST = 0.5  # in a hundred


def way():
    """The tools that can say it, best first; an end with a message where there are none."""
    for tool in ("addr2line", "objdump", "size"):
        if not shutil.which(tool):
            sys.exit(f"bench/replay: --where needs {tool} (Debian: binutils)")
    found = [tool for tool in ("perf", "valgrind") if shutil.which(tool)]
    if not found:
        sys.exit("bench/replay: --where needs perf or valgrind (Debian: linux-perf, valgrind)")
    return found


def annotated(text):
    """The module with a location for each instruction: one for each function, as that is all that is asked."""
    if "!llvm.dbg.cu" in text or "!llvm.module.flags" in text:
        sys.exit("bench/replay: the module has debug locations or flags of its own")
    free = 1 + max([int(number) for number in re.findall(r"^!(\d+) =", text, re.M)], default=0)
    unit, version, dwarf, file, signature = (f"!{free + i}" for i in range(5))
    free += 5
    end = [f"!llvm.dbg.cu = !{{{unit}}}",
           f"!llvm.module.flags = !{{{version}, {dwarf}}}",
           f'{unit} = distinct !DICompileUnit(language: DW_LANG_C99, file: {file}, producer: "bench", isOptimized: true, runtimeVersion: 0, '
           "emissionKind: LineTablesOnly)",
           f'{version} = !{{i32 2, !"Debug Info Version", i32 3}}',
           f'{dwarf} = !{{i32 7, !"Dwarf Version", i32 4}}',
           f'{file} = !DIFile(filename: "replay.ll", directory: ".")',
           f"{signature} = !DISubroutineType(types: !{{null}})"]
    lines, here, in_switch = [], None, False
    for line in text.split("\n"):
        begins = re.match(r'define .*?@"?([^"(]+)"?\(.*\{$', line)
        if begins:
            function, here = f"!{free}", f"!{free + 1}"
            end += [f'{function} = distinct !DISubprogram(name: "{begins[1]}", scope: {file}, file: {file}, line: {free}, type: {signature}, '
                    f"unit: {unit}, spFlags: DISPFlagDefinition | DISPFlagOptimized)",
                    f"{here} = !DILocation(line: {free}, scope: {function})"]
            free += 2
            line = f"{line[:-1]}!dbg {function} {{"
        elif line == "}":
            here = None
        elif here and line.startswith("  "):
            # A switch has a line for each case, and its location behind the last.
            in_switch = line.endswith("[") or in_switch and line.strip() != "]"
            if not in_switch:
                line += f", !dbg {here}"
        lines.append(line)
    return "\n".join(lines + end) + "\n"


def text_size(path):
    return int(native.do("size", path, stdout=subprocess.PIPE).split("\n")[1].split()[0])


def build(folder):
    """The program with locations. It is linked to one place, so that an address in a run is the one in the file."""
    native.make()
    with open(f"{folder}/where.ll", "w") as file:
        file.write(annotated(open(native.MODULE).read()))
    native.compile_module(f"{folder}/where.ll", f"{folder}/where.o")
    size, of_replay = text_size(f"{folder}/where.o"), text_size(native.OBJECT)
    if size == of_replay:
        print(f"code of {size:,} bytes, with locations and without")
    else:
        print(f"BEWARE: the code has {size:,} bytes with locations and {of_replay:,} without: the shares are of another program than replay")
    return native.cc(f"{folder}/where", "-no-pie", f"{folder}/where.o", *native.of_kit())


def recorded(program, capture, data):
    """Samples of perf by address, those outside of the program by name, and how they were made; or none."""
    once = 'exec "$0" <"$1" >/dev/null'
    begun = time.monotonic()
    native.do("sh", "-c", once, program, capture)
    runs = math.ceil(ENOUGH / RATE / (time.monotonic() - begun))
    # One record of all runs: perf takes a second for each. No build ids, which it would keep in the home folder.
    done = subprocess.run(["perf", "record", "-q", "-B", "-N", "-e", "cpu-clock", "-F", str(RATE), "-o", data, "--",
                           "sh", "-c", f'for _ in $(seq {runs}); do ({once}) || exit; done', program, capture], capture_output=True, text=True)
    script = subprocess.run(["perf", "script", "-i", data, "-F", "comm,ip,sym,dso"], capture_output=True, text=True)
    samples = [re.match(r"\s*(.*?)\s+([0-9a-f]+) (.*) \((.*)\)$", line) for line in script.stdout.split("\n") if line.strip()]
    if done.returncode or script.returncode or not all(samples) or not any(sample[4] == program for sample in samples):
        reason = (done.stderr + script.stderr).strip().split("\n")[0]
        print(f"perf can't record here{': ' + reason if reason else ''}")
        return None
    inside, outside = collections.Counter(), collections.Counter()
    for name, address, symbol, whose in (sample.groups() for sample in samples):
        if whose == program:
            inside[int(address, 16)] += 1
        elif name == os.path.basename(program):
            outside["the kernel" if int(address, 16) >> 63 else f"{os.path.basename(whose)}: {symbol}"] += 1
    total = inside.total() + outside.total()
    apart = "" if outside["the kernel"] else "; perf does not see the kernel here, whose time is left out"
    return inside, outside, f"shares of TIME in a hundred, by {total:,} samples of perf (cpu-clock) in {runs} runs of {total / RATE / runs * 1000:.0f} ms{apart}"


def counted(program, capture, data):
    """The same of callgrind's instructions."""
    with open(capture, "rb") as given:
        done = subprocess.run(["valgrind", "--tool=callgrind", "--dump-instr=yes", "--dump-line=no", "--compress-pos=no", "--compress-strings=no",
                               f"--callgrind-out-file={data}", program], stdin=given, stdout=subprocess.DEVNULL, stderr=subprocess.PIPE, text=True)
    if done.returncode:
        sys.exit(f"valgrind failed:\n{done.stderr}")
    inside, outside, whose, function, of_call = collections.Counter(), collections.Counter(), "", "", False
    for line in open(data):
        line = line.strip()
        if line.startswith("ob="):
            whose = line[3:]
        elif line.startswith("fn="):
            function = line[3:]
        elif line.startswith("calls="):
            of_call = True
        elif line.startswith("0x"):
            address, cost = line.split()
            if of_call:
                # what the call cost in all; the called one has it too
                of_call = False
            elif whose == program:
                inside[int(address, 16)] += int(cost)
            else:
                outside[f"{os.path.basename(whose)}: {function}"] += int(cost)
    total = inside.total() + outside.total()
    return inside, outside, f"shares of INSTRUCTIONS in a hundred, of {total:,} that valgrind counted in 1 run; the kernel's are left out"


def standing(program, addresses):
    """The functions at each address, from the innermost out; the last is the one that is not inlined."""
    said = native.do("addr2line", "-fia", "-e", program, input="\n".join(map(hex, addresses)), stdout=subprocess.PIPE)
    stacks, lines = {}, iter(said.split("\n"))
    for line in lines:
        if line.startswith("0x"):
            stack = stacks[int(line, 16)] = []
        elif line:
            stack.append("(no name)" if line == "??" else line)
            next(lines)  # the file and the line
    return stacks


def calls(program):
    """Where each function of the program is called: addresses, by its name."""
    found = collections.defaultdict(list)
    for line in native.do("objdump", "-d", "--no-show-raw-insn", program, stdout=subprocess.PIPE).split("\n"):
        call = re.match(r"\s*([0-9a-f]+):\s+(?:bl|b|callq?|jmpq?)\s+(?:0x)?[0-9a-f]+ <([^+>]+)>$", line)
        if call:
            found[call[2]].append(int(call[1], 16))
    found.pop("main", None)  # what starts the program is left out
    return found


def table(tools, folder, capture):
    program = build(folder)
    measured = recorded(program, capture, f"{folder}/data") if "perf" in tools else None
    if not measured and "valgrind" not in tools:
        sys.exit("bench/replay: --where needs perf that can record, or valgrind (Debian: valgrind)")
    inside, outside, how = measured or counted(program, capture, f"{folder}/data")
    called = calls(program)
    stacks = standing(program, sorted(set(inside).union(*called.values())))
    above = {}

    def callers(function):
        """Those that are there whenever it runs."""
        if function not in above:
            above[function] = set()  # for a function that calls itself
            sites = [stacks[site] for site in called[function] if stacks[site][-1] != function]
            above[function] = set.intersection(*[set(stack) | callers(stack[-1]) for stack in sites]) if sites else set()
        return above[function]

    own, within = collections.Counter(outside), collections.Counter(outside)
    for address, count in inside.items():
        stack = stacks[address]
        own[stack[0]] += count
        for function in set(stack) | callers(stack[-1]):
            within[function] += count
    total = own.total()
    print(how)
    print("own: in the function itself; in all: and in what is inlined into it or called by it, but for the C library and the kernel")
    print(f"{'own':>7}{'in all':>9}")
    shares = [(100 * own[function] / total, 100 * count / total, function) for function, count in within.items()]
    for here, there, function in sorted(shares, key=lambda row: (-row[0] if row[0] > LEAST else 0, -row[1], row[2])):
        if there > LEAST:
            print(f"{here:7.1f}{there:9.1f}  {function}")
