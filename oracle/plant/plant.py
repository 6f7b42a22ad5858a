#!/usr/bin/env python3
"""Plants faults of one token each in the published text and in the stand-ins, and runs the differential program on each.

    export RISCV_VCPU_SRC=<folder of riscv_vcpu 0.6.3, with src/vcpu.rs in it>
    oracle/plant/plant.py [--results FILE] [--part I/N] [--only NAME] [--traps N] [--table FILE] [--list]

Each fault is planted in a copy in a temporary folder. A fault is noticed if the run ends with a mismatch, or with a class that was
not reached. A run that says neither (it does not end, or ends by a signal or a panic) is broken: the comparison has not seen the
fault, whatever else did. A fault that is not noticed needs a reason in reasons.py; one without a reason fails the script. What was
found is kept in --results (plant.results in the temporary folder's parent by default), and a later start goes on from there.
"""

import argparse
import os
import re
import resource
import shutil
import subprocess
import sys
import tempfile
from pathlib import Path

from reasons import reason_for
from rules import KINDS, faults

ORACLE = Path(__file__).resolve().parent.parent
PUBLISHED = ["vcpu.rs", "sbi_ipi.rs", "registers.rs", "consts.rs", "types.rs"]
# The stand-in of log has no line that is run, and host and thiserror have no token that a rule counts.
STANDINS = ["published/src", "stand-ins"]
GIB = 1 << 30
NOT_BUILT = "broken: cargo build:"


def main():
    options = read_options()
    if options.traps < 1 or not 1 <= options.part[0] <= options.part[1]:
        sys.exit("--traps is 1 or more, and --part is I/N with I from 1 to N")
    source = Path(os.environ.get("RISCV_VCPU_SRC", ""))
    if not (source / "src/vcpu.rs").is_file():
        sys.exit("Set RISCV_VCPU_SRC to the folder of riscv_vcpu 0.6.3, the one with src/vcpu.rs in it.")
    planted = [(name, fault) for name, text in texts(source) for fault in faults(text)]
    planted = [(name, fault) for name, fault in planted if not options.only or options.only in name]
    if not planted:
        sys.exit(f"no file's name holds {options.only}: no fault is planted")
    if options.list:
        for name, fault in planted:
            print(f"{title(name, fault)}\t{fault.function}")
        return
    number, of = options.part
    mine = planted[(number - 1) * len(planted) // of : number * len(planted) // of]
    results = read_results(options.results)
    with tempfile.TemporaryDirectory(prefix="plant-") as folder:
        plant_all(mine, results, options, Bench(Path(folder), source, options.traps))
    finish(mine, results, options)


def read_options():
    parser = argparse.ArgumentParser()
    parser.add_argument("--results", type=Path, default=Path(tempfile.gettempdir()) / "plant.results")
    parser.add_argument("--part", type=lambda text: tuple(map(int, text.split("/"))), default=(1, 1))
    parser.add_argument("--only", help="files whose name holds this")
    parser.add_argument("--traps", type=int, default=100_000)
    parser.add_argument("--table", type=Path, help="where the table of what was found goes")
    parser.add_argument("--list", action="store_true")
    return parser.parse_args()


def texts(source):
    """Every file that faults are planted in, by name."""
    for name in PUBLISHED:
        yield name, (source / "src" / name).read_text()
    for folder in STANDINS:
        for path in sorted((ORACLE / folder).rglob("*.rs")):
            yield str(path.relative_to(ORACLE)), path.read_text()


def title(name, fault):
    return f"{name}\t{fault.kind}\t{fault.ordinal}"


class Bench:
    """A copy of the oracle and of the published text, built in one target folder."""

    def __init__(self, folder, source, traps):
        self.folder, self.source, self.traps = folder, source, traps
        for part in ["Cargo.toml", "Cargo.lock"]:
            shutil.copy(ORACLE / part, folder)
        for part in ["from01", "model", "published", "diff", "stand-ins"]:
            shutil.copytree(ORACLE / part, folder / part)
        shutil.copytree(source / "src", folder / "text/src")
        self.environment = {
            **os.environ,
            "RISCV_VCPU_SRC": str(folder / "text"),
            "CARGO_TARGET_DIR": str(folder / "target"),
        }
        self.environment.pop("VCPU_ABI", None)

    def path(self, name):
        return self.folder / ("text/src" if name in PUBLISHED else "") / name

    def original(self, name):
        return (self.source / "src" / name if name in PUBLISHED else ORACLE / name).read_text()

    def build(self):
        """What is wrong with the copy as it stands, if anything."""
        command = ["nice", "-n", "10", "cargo", "build", "--offline", "--quiet", "-p", "diff"]
        done = subprocess.run(command, cwd=self.folder, env=self.environment, capture_output=True, text=True)
        if done.returncode == 0:
            return ""
        # The compiler's word, with a place in the text, makes a fault one that does not compile. A full disk or a linker says nothing of it.
        if re.search(r"^error(\[E\d+\])?: .*\n +--> ", done.stderr, re.M):
            return "does not compile"
        return f"{NOT_BUILT} {(done.stderr.strip().splitlines() or ['status ' + str(done.returncode)])[0]}"

    def run(self):
        """What the run says of the copy as it stands."""
        program = self.folder / "target/debug/diff"
        command = ["nice", "-n", "10", program, "--enough", "1", "--traps", str(self.traps)]
        limit = lambda: resource.setrlimit(resource.RLIMIT_AS, (4 * GIB, 4 * GIB))
        try:
            done = subprocess.run(command, capture_output=True, text=True, timeout=120, preexec_fn=limit)
        except subprocess.TimeoutExpired:
            return "broken: the run does not end"
        if done.returncode == 0:
            return "not noticed"
        if done.returncode < 0:
            return f"broken: signal {-done.returncode}"
        last = re.search(r"^(\d+) traps, (\d+) unexplained$", done.stdout, re.M)
        if last and last[2] != "0":
            return f"noticed after {last[1]}"
        missed = [line for line in done.stdout.splitlines() if line.startswith("not reached")]
        if missed:
            return f"noticed: {missed[0]}"
        return f"broken: status {done.returncode}"

    def plant(self, name, fault):
        text = self.original(name)
        self.path(name).write_text(text[: fault.start] + fault.text + text[fault.end :])
        try:
            return self.build() or self.run()
        finally:
            self.path(name).write_text(text)


def plant_all(mine, results, options, bench):
    due = [(name, fault) for name, fault in mine if title(name, fault) not in results]
    if not due:
        return
    found = bench.build() or bench.run()
    if found != "not noticed":
        sys.exit(f"the program does not run through without a fault ({found}): nothing can be learned from it")
    with options.results.open("a") as kept:
        for at, (name, fault) in enumerate(due, 1):
            found = bench.plant(name, fault)
            results[title(name, fault)] = found
            kept.write(f"{title(name, fault)}\t{found}\n")
            kept.flush()
            print(f"{at} of {len(due)}: {name} {fault.kind} {fault.ordinal}: {found}", file=sys.stderr)


def read_results(path):
    results = {}
    if path.is_file():
        for line in path.read_text().splitlines():
            start, found = line.rsplit("\t", 1)
            # a run that broke says nothing that should be kept: it is tried again
            if not found.startswith("broken"):
                results[start] = found
    return results


def finish(mine, results, options):
    """Writes the table; fails if a fault was not noticed and has no reason."""
    rows = [(name, fault, results[title(name, fault)]) for name, fault in mine]
    built = [row for row in rows if row[2] != "does not compile"]
    broken = [row for row in built if row[2].startswith("broken")]
    noticed = [row for row in built if row[2].startswith("noticed")]
    missed = [row for row in built if row[2] == "not noticed"]
    without = [(name, fault) for name, fault, _ in missed if not reason_for(name, fault)]
    text = table(rows, built, noticed, broken, missed)
    if options.table:
        options.table.write_text(text)
    else:
        print(text)
    for name, fault in without:
        print(f"no reason: {name} {fault.kind} {fault.ordinal} in {fault.function}")
    print(f"{len(built)} faults planted, {len(noticed)} noticed, {len(broken)} broken, {len(missed)} not noticed, {len(without)} of these without a reason")
    unbuilt = [row for row in broken if row[2].startswith(NOT_BUILT)]
    for name, fault, found in unbuilt:
        print(f"not tried: {name} {fault.kind} {fault.ordinal}: {found}")
    sys.exit(1 if without or unbuilt else 0)


HEADER = """# Planted faults

`oracle/plant/plant.py --table docs/PLANTED.md` writes this page. It plants faults of one token each, one at a time, in a copy of the published text of riscv_vcpu 0.6.3 and of the stand-ins in oracle/, and runs oracle/diff on each copy, with the model as its subject, to the first mismatch or for 100,000 traps. A fault is named by its file, its kind and its number among the faults of that kind in the file; oracle/plant/rules.py says what counts. Comments, strings, attributes, log lines and `use` lines are passed over.

| kind | the n-th .. |
|---|---|
"""


def table(rows, built, noticed, broken, missed):
    lines = [HEADER + "\n".join(f"| {kind} | {what} |" for kind, what in KINDS.items()), ""]
    lines.append(f"{len(rows)} faults, of which {len(built)} compile. {len(noticed)} are noticed, {len(broken)} break the run and {len(missed)} are not noticed.")
    counts = sorted(int(found.rsplit(" ", 1)[1]) for _, _, found in noticed if found.startswith("noticed after"))
    if counts:
        lines[-1] += f" Half of those noticed by a mismatch are noticed within {counts[len(counts) // 2]:,} traps, all within {counts[-1]:,}."
    lines += ["", "## Not noticed, and why", "", "| file | function | faults | reason |", "|---|---|---|---|"]
    groups = {}
    for name, fault, _ in missed:
        groups.setdefault((name, fault.function, reason_for(name, fault)), []).append(f"{fault.kind} {fault.ordinal}")
    for (name, function, reason), which in groups.items():
        lines.append(f"| {name} | {function} | {', '.join(which)} | {reason} |")
    lines += ["", "## Noticed", ""]
    lines += ["In brackets: after how many traps, where 0 is before the first; or the class that was not reached.", ""]
    lines += ["| file | kind | faults |", "|---|---|---|"]
    groups = {}
    for name, fault, found in noticed:
        how = found.removeprefix("noticed").removeprefix(":").removeprefix(" after").strip()
        groups.setdefault((name, fault.kind), []).append(f"{fault.ordinal} ({how})")
    for (name, kind), which in groups.items():
        lines.append(f"| {name} | {kind} | {', '.join(which)} |")
    if broken:
        lines += ["", "## Broken", "", "The run ends before it compares: by a signal, by a panic, or not at all.", ""]
        lines += ["| file | fault | how |", "|---|---|---|"]
        lines += [f"| {name} | {fault.kind} {fault.ordinal} | {found.removeprefix('broken: ')} |" for name, fault, found in broken]
    return "\n".join(lines) + "\n"


if __name__ == "__main__":
    main()
