#!/usr/bin/env python3
"""Small wrong changes of the code, and whether the prover refuses them.

    tools/mutants.py list [--crate NAME..] [--function NAME..] [--each N] [--most N]
    tools/mutants.py run PART/PARTS [--crate NAME..] [--function NAME..] [--each N] [--most N] [--jobs N] [--again]
    tools/mutants.py table              writes the tables of docs/MUTANTS.md from the results
    tools/mutants.py edits [NAME..]     tries edits/CRATE/*.edit: each must be refused, or the exit status is 1
    tools/mutants.py fits [NAME..]      only looks whether each of them, and of crates/CRATE/must-fail/*.edit, fits the text as it stands

A mutant is one change at one place of a function's body that keeps the body's shape: another constant, comparison,
operator, index, field or variant, two arguments, fields, arms or statements exchanged, a statement dropped, a condition
negated. Contracts, types and constants' declarations are never changed. What the front end refuses (types, borrows) does
not count. The rest is sorted:

    fact       a goal is not closed: the facts of the path fit, and the promise does not follow, or two values differ
    fact-new   the proof file did not fit the changed code; with a proof written anew, as `fact` (results of an older toolchain)
    fit        the proof file did not fit, and none that does was found (results of an older toolchain)
    unfit      the proof file did not fit, and no new one was tried; `left` in the table
    run        accepted, and the program then writes something else than its file `stdout`
    broken     accepted, and the program is not built, ends by a signal or with a status, or does not end: nothing was compared
    accepted   proved, by the proof as it is or by a new one. Each has its reason in tools/mutants.txt, or is open

--each N takes at most N mutants of a function and a rule, --most N at most N of a function, chosen by a hash, so the
same ones each time. Part 2/5 is each fifth function from the second on. `run` appends a line for each mutant to
docs/mutants.jsonl and passes over what stands there; a mutant is known by its function's text before and after
the change, so a function that moves keeps its results. After a definition changes, `run --again` tries all anew.

It checks a copy of the crate, in the folder for temporary files, over an incremental folder: `rt ci` refuses a copy in the checkout. What
a crate stands on is there already or built by tools/libraries.
"""
import argparse
import fcntl
import glob
import hashlib
import json
import os
import re
import shutil
import subprocess
import sys
import tempfile
import time

ROOT = os.path.dirname(os.path.dirname(os.path.abspath(__file__)))
WORK = f"{tempfile.gettempdir()}/mutants-of-{hashlib.sha256(ROOT.encode()).hexdigest()[:16]}"
RESULTS = f"{ROOT}/docs/mutants.jsonl"
# A library whose functions promise safety alone, and the program whose output shows what they do.
SHOWN_BY = {"test_lines": "test_call_list", "test_call_rows": "test_call_list"}
SORTS = ("fact", "fact-new", "fit", "unfit", "run", "broken", "accepted")

# ---- reading the code

TOKEN = re.compile(r"""
    (?P<space>\s+|//[^\n]*) | (?P<text>b?"(?:\\.|[^"\\])*"|b?'(?:\\.|[^'\\])') | (?P<number>0[xb][0-9a-fA-F_]+|\d[\d_]*)
  | (?P<word>[A-Za-z_]\w*) | (?P<mark>::|->|=>|==|!=|<=|>=|&&|\|\||<<|>>|\+=|-=|\*=|\.\.|.)""", re.X | re.S)
CLOSE = {"(": ")", "[": "]", "{": "}"}


class Token:
    def __init__(self, kind, text, at):
        self.kind, self.text, self.at, self.end = kind, text, at, at + len(text)


def tokens_of(text):
    return [Token(m.lastgroup, m.group(), m.start()) for m in TOKEN.finditer(text) if m.lastgroup != "space"]


def closing(ts, i):
    """The place of the bracket that closes the one at i."""
    depth = 0
    for j in range(i, len(ts)):
        if ts[j].kind == "mark":
            depth += ts[j].text in CLOSE
            depth -= ts[j].text in CLOSE.values()
            if depth == 0:
                return j
    raise ValueError("a bracket is not closed")


def functions(text):
    """Each function: its name, where its text begins and ends, and the tokens of its body, braces included."""
    ts, i, found = tokens_of(text), 0, []
    while i + 1 < len(ts):
        if ts[i].text != "fn" or ts[i + 1].kind != "word":
            i += 1
            continue
        start, name, j = ts[i].at, ts[i + 1].text, i + 2
        # a clause's brace follows its kind, or the clause's name behind that
        while ts[j].text not in ("{", ";") or {ts[j - 1].text, ts[j - 2].text} & {"requires", "ensures", "ghost"}:
            j = closing(ts, j) + 1 if ts[j].text in CLOSE else j + 1
        if ts[j].text == "{":
            end = closing(ts, j)
            found.append((name, start, ts[end].end, ts[j:end + 1]))
            j = end
        i = j + 1
    return found


def split(ts, mark):
    """The tokens between the marks that stand in no bracket."""
    parts, depth = [[]], 0
    for t in ts:
        if t.kind == "mark":
            depth += t.text in CLOSE
            depth -= t.text in CLOSE.values()
        if depth == 0 and t.text == mark:
            parts.append([])
        else:
            parts[-1].append(t)
    return [p for p in parts if p]


def types_of(files):
    """The enums, structs and constants that the files declare."""
    enums, structs, consts = {}, {}, {}
    for crate, text in files:
        text = re.sub(r"//[^\n]*", "", text)
        for kind, name, body in re.findall(r"\b(enum|struct) (\w+)\s*\{((?:[^{}]|\{[^{}]*\})*)\}", text):
            if kind == "struct":
                structs[name] = [tuple(f) for f in re.findall(r"(\w+)\s*:\s*([^,]+?)\s*(?:,|$)", body)]
                continue
            enums[name] = {}
            for variant, fields, tuple_ in re.findall(r"(\w+)\s*(?:\{([^{}]*)\}|\(([^()]*)\))?\s*(?:,|$)", body):
                named = re.findall(r"(\w+)\s*:\s*([^,]+?)\s*(?:,|$)", fields)
                enums[name][variant] = ([n for n, _ in named], [t for _, t in named] or re.findall(r"[^,\s]+", tuple_), bool(tuple_))
        for name, type_ in re.findall(r"\bconst (\w+)\s*:\s*(\w+)\s*=", text):
            consts.setdefault(crate, []).append((name, type_))
    return enums, structs, consts


# ---- the rules

OTHER = {"<": ["<="], "<=": ["<"], ">": [">="], ">=": [">"], "==": ["!=", "<="], "!=": ["=="]}
OPERATORS = {"+": ["-"], "-": ["+"], "*": ["+"], "/": ["%"], "%": ["/"], "|": ["&"], "&": ["|"], "<<": [">>"], ">>": ["<<"],
             "&&": ["||"], "||": ["&&"], "+=": ["-="], "-=": ["+="]}


def like(text, n):
    if text.startswith("0x"):
        return hex(n)
    return str(n)


class Body:
    """The mutants of one function's body: (rule, from, to, new text)."""

    def __init__(self, crate, source, ts, known):
        self.crate, self.source, self.ts = crate, source, ts
        self.enums, self.structs, self.consts = known
        self.found = []

    def text(self, ts):
        return self.source[ts[0].at:ts[-1].end]

    def put(self, rule, ts, new):
        if self.text(ts) != new:
            self.found.append((rule, ts[0].at, ts[-1].end, new))

    def exchange(self, rule, a, b):
        x, y = self.text(a), self.text(b)
        if x != y:
            between = self.source[a[-1].end:b[0].at]
            self.found.append((rule, a[0].at, b[-1].end, y + between + x))

    def all(self):
        self.places()
        self.block(1, len(self.ts) - 1)
        return self.found

    def places(self):
        ts = self.ts
        for i, t in enumerate(ts):
            before, after = (ts[i - 1] if i else t), (ts[i + 1] if i + 1 < len(ts) else t)
            binary = before.kind in ("word", "number") or before.text in (")", "]")
            if t.kind == "number" and before.text != ".":
                n = int(t.text.replace("_", ""), 0)
                rule = "index" if before.text == "[" and after.text == "]" and i > 1 and ts[i - 2].kind == "word" else "constant"
                others = [n + 1, n - 1] + ([n ^ (1 << n.bit_length() - 1), n << 1, n | 1] if t.text.startswith("0x") else [])
                for m in dict.fromkeys(others):
                    if m >= 0 and m != n:
                        self.put(rule, [t], like(t.text, m))
            elif t.kind == "word" and t.text in ("true", "false"):
                self.put("constant", [t], "false" if t.text == "true" else "true")
            elif t.kind == "word" and re.fullmatch(r"[A-Z][A-Z0-9_]*", t.text):
                crate = ts[i - 2].text if before.text == "::" else self.crate
                listed = self.consts.get(crate, [])
                at = [k for k, (name, _) in enumerate(listed) if name == t.text]
                for k in at:
                    alike = [name for name, type_ in listed if type_ == listed[k][1]]
                    here = alike.index(t.text)
                    for other in alike[here + 1:here + 2] + alike[max(0, here - 1):here]:
                        self.put("constant", [t], other)
            elif t.text in OTHER and binary:
                for other in OTHER[t.text]:
                    self.put("comparison", [t], other)
            elif t.text in OPERATORS and binary:
                for other in OPERATORS[t.text]:
                    self.put("operator", [t], other)
            elif t.text == "!" and not binary:
                self.put("operator", [t], "")
            elif t.kind == "word" and "wrapping_add" in t.text:
                self.put("operator", [t], t.text.replace("wrapping_add", "wrapping_sub"))
            elif t.text in ("if", "while"):
                j = i + 1
                while ts[j].text not in ("{", "=>"):  # of an arm's guard the arrow
                    j = closing(ts, j) + 1 if ts[j].text in CLOSE else j + 1
                self.put("condition", ts[i + 1:j], f"!({self.text(ts[i + 1:j])})")
            elif t.text == "match":
                self.arms(i)
            elif t.text == "(" and before.kind == "word" and before.text not in ("if", "while", "match", "return", "in"):
                parts = split(ts[i + 1:closing(ts, i)], ",")
                for a, b in zip(parts, parts[1:]):
                    self.exchange("arguments", a, b)
            elif t.text == "{" and self.literal(i):
                self.fields_of_literal(i)
            if t.kind == "word" and before.text == "." and after.text != "(":
                self.field(i)
            if t.kind == "word" and before.text == "::" and i > 1 and ts[i - 2].text in self.enums:
                self.variant(i)

    def literal(self, i):
        """Whether the brace at i opens a struct's fields."""
        before = self.ts[i - 1]
        if before.kind != "word" or not before.text[0].isupper():
            return False
        j = i - 1
        while j >= 0 and (self.ts[j].kind == "word" or self.ts[j].text in ("::", ".")):
            if self.ts[j].text in ("if", "while", "match"):
                return False
            j -= 1
        return True

    def fields_of_literal(self, i):
        parts = split(self.ts[i + 1:closing(self.ts, i)], ",")
        valued = [(p[0].text, self.text(p[2:]) if len(p) > 2 else p[0].text, p) for p in parts]
        for (n, x, a), (m, y, b) in zip(valued, valued[1:]):
            if x != y:
                between = self.source[a[-1].end:b[0].at]
                self.found.append(("fields", a[0].at, b[-1].end, f"{n}: {y}{between}{m}: {x}"))

    def field(self, i):
        ts, name = self.ts, self.ts[i].text
        for fields in self.structs.values():
            types = dict(fields)
            if name in types:
                alike = [n for n, t in fields if t == types[name] and n != name]
                for other in alike:
                    self.put("field", [ts[i]], other)
        # a field of a neighbouring part of the same record: c.vs.vsepc for c.guest.sepc
        if i > 3 and ts[i - 2].kind == "word" and ts[i - 3].text == ".":
            part = ts[i - 2].text
            for fields in self.structs.values():
                if part in dict(fields) and name in dict(self.structs.get(dict(fields)[part], [])):
                    for other, type_ in fields:
                        if other != part:
                            for inner, _ in self.structs.get(type_, []):
                                if inner.endswith(name) or name.endswith(inner) or inner[1:] == name[1:]:
                                    self.put("field", ts[i - 2:i + 1], f"{other}.{inner}")

    def variant(self, i):
        ts = self.ts
        variants = self.enums[ts[i - 2].text]
        if ts[i].text not in variants:
            return
        names, types, tuple_ = variants[ts[i].text]
        for other, (names2, types2, tuple2) in variants.items():
            if other == ts[i].text or types != types2 or tuple_ != tuple2:
                continue
            if not names:
                self.put("variant", [ts[i]], other)
            elif i + 1 < len(ts) and ts[i + 1].text == "{":
                end = closing(ts, i + 1)
                new = dict(zip(names, names2))
                parts = split(ts[i + 2:end], ",")
                inside = [f"{new.get(p[0].text, p[0].text)}: {self.text(p[2:]) if len(p) > 2 else p[0].text}" for p in parts]
                self.put("variant", ts[i:end + 1], f"{other} {{ {', '.join(inside)} }}")

    def arms(self, i):
        ts, j = self.ts, i + 1
        while ts[j].text != "{":
            j = closing(ts, j) + 1 if ts[j].text in CLOSE else j + 1
        end, bodies = closing(ts, j), []
        j += 1
        while j < end:
            while ts[j].text != "=>":
                j = closing(ts, j) + 1 if ts[j].text in CLOSE else j + 1
            start = j = j + 1
            if ts[j].text == "{":
                j = closing(ts, j) + 1
            else:
                while j < end and ts[j].text != ",":
                    j = closing(ts, j) + 1 if ts[j].text in CLOSE else j + 1
            bodies.append(ts[start:j])
            if j < end and ts[j].text == ",":
                j += 1
        for a, b in zip(bodies, bodies[1:]):
            if self.text(a) != self.text(b):
                between = self.source[a[-1].end:b[0].at]
                comma = "," if a[-1].text == "}" and b[-1].text != "}" and not between.lstrip().startswith(",") else ""
                self.found.append(("arms", a[0].at, b[-1].end, self.text(b) + comma + between + self.text(a)))

    def block(self, start, end):
        """The statements between two places, and those of the blocks inside."""
        ts, i, statements = self.ts, start, []
        while i < end:
            first = i
            if ts[i].text in ("if", "while", "for", "match", "loop"):
                while True:
                    while ts[i].text != "{":
                        i = closing(ts, i) + 1 if ts[i].text in CLOSE else i + 1
                    i = closing(ts, i) + 1
                    if i < end and ts[i].text == "else":
                        i += 1
                        continue
                    break
                whole = i < end
                if whole and ts[i].text == ";":
                    i += 1
            else:
                while i < end and ts[i].text != ";":
                    i = closing(ts, i) + 1 if ts[i].text in CLOSE else i + 1
                whole = i < end
                i += whole
            statements.append((ts[first:i], whole))
        for t, whole in statements:
            if t and whole and t[0].text not in ("let", "match"):
                self.put("dropped", t, "")
        for (a, whole_a), (b, whole_b) in zip(statements, statements[1:]):
            if whole_a and whole_b and not (a[0].text == "let" and b[0].text == "let"):
                self.exchange("order", a, b)
        for i in range(start, end):
            if ts[i].text == "{" and self.outer(start, i):
                if self.is_match(i):
                    for j in range(i + 1, closing(ts, i)):
                        if ts[j].text == "{" and ts[j - 1].text == "=>":
                            self.block(j + 1, closing(ts, j))
                elif not self.literal(i):
                    self.block(i + 1, closing(ts, i))

    def outer(self, start, i):
        """Whether the brace at i stands in no other brace since start."""
        depth = 0
        for t in self.ts[start:i]:
            depth += (t.text == "{") - (t.text == "}")
        return depth == 0

    def is_match(self, i):
        j = i - 1
        while j >= 0 and self.ts[j].text not in (";", "{", "}", "=>", "="):
            if self.ts[j].text == "match":
                return True
            j -= 1
        return False


class Mutant:
    def __init__(self, crate, file, function, span, source, rule, start, end, new):
        self.crate, self.file, self.function, self.rule = crate, file, function, rule
        self.line = source.count("\n", 0, start) + 1
        short = lambda s: " ".join(s.split())
        self.what = f"{short(source[start:end])} → {short(new) or 'nothing'}"
        self.place = (start, end, new)
        was = source[span[0]:span[1]]
        now = source[span[0]:start] + new + source[end:span[1]]
        run = crate if file == "main.rt" else ""  # a program's result is of its own run
        self.key = hashlib.sha256(f"{run}{was}\0{now}".encode()).hexdigest()[:16]

    @property
    def name(self):
        return f"{self.crate}::{self.function}:{self.line} {self.rule}: {self.what}"


def listed_crates():
    deps = {}
    for line in open(f"{ROOT}/crates.txt"):
        name, mark, rest = line.split("#")[0].partition(":")
        if mark:
            deps[name.split()[0]] = rest.split()
    return deps


def texts_of(crate):
    """Its files of code, each with its name."""
    folder = f"{ROOT}/crates/{crate}/src"
    return [(f, open(f"{folder}/{f}").read()) for f in sorted(os.listdir(folder)) if f.endswith(".rt")]


def mutants(crates, each, most, only=()):
    """Every mutant of the crates or of some functions of theirs, or a fixed choice of them, by crate and function."""
    deps, chosen = listed_crates(), []
    texts = {crate: texts_of(crate) for crate in deps}
    for crate in crates:
        near = [d for d in deps[crate] if d in texts] + [crate]
        known = types_of([(c, text) for c in near for _, text in texts[c]])
        for file, source in texts[crate]:
            for name, start, end, body in functions(source):
                if only and name not in only:
                    continue
                seen, of_function = set(), []
                for rule, a, b, new in Body(crate, source, body, known).all():
                    m = Mutant(crate, file, name, (start, end), source, rule, a, b, new)
                    if m.key not in seen:
                        seen.add(m.key)
                        of_function.append(m)
                of_function.sort(key=lambda m: m.key)
                if each:
                    count, kept = {}, []
                    for m in of_function:
                        count[m.rule] = count.get(m.rule, 0) + 1
                        if count[m.rule] <= each:
                            kept.append((count[m.rule], m))
                    kept.sort(key=lambda p: (p[0], p[1].key))
                    of_function = [m for _, m in kept]
                chosen.append(of_function[:most] if most else of_function)
    return chosen


# ---- checking

def told(*words):
    """What one of the repository's tools prints; it has said itself what is wrong where it fails."""
    found = subprocess.run([f"{ROOT}/{words[0]}", *words[1:]], stdout=subprocess.PIPE, text=True)
    if found.returncode:
        sys.exit(found.returncode)
    return found.stdout.strip()


LOCKS = {}


def take(worker):
    """The worker's folder is this run's alone."""
    if worker not in LOCKS:
        os.makedirs(WORK, exist_ok=True)
        LOCKS[worker] = open(f"{WORK}/work{worker}.lock", "w")
        try:
            fcntl.flock(LOCKS[worker], fcntl.LOCK_EX | fcntl.LOCK_NB)
        except BlockingIOError:
            sys.exit(f"tools/mutants.py: another run is at work in {WORK}/work{worker}")


class Copy:
    """A copy of one crate, over the libraries of the repository."""

    def __init__(self, crate, deps, worker):
        self.crate, self.deps, self.root = crate, deps, f"{WORK}/work{worker}"
        self.kit = told("tools/kit")
        take(worker)
        shutil.rmtree(f"{self.root}/crates", ignore_errors=True)
        for folder in ("crates", f"inc/{crate}"):
            os.makedirs(f"{self.root}/{folder}", exist_ok=True)
        self.dir = f"{self.root}/crates/{crate}"
        os.makedirs(self.dir)
        self.reset()

    def reset(self):
        for part in ("src", "specs", "proofs", "data", "stdin", "stdout", "args"):
            original, copy = f"{ROOT}/crates/{self.crate}/{part}", f"{self.dir}/{part}"
            shutil.rmtree(copy, ignore_errors=True)
            if os.path.isdir(original):
                shutil.copytree(original, copy)
            elif os.path.isfile(original):
                shutil.copy(original, copy)

    def rattle(self, verb, *words, program=None, rlib=None):
        """Runs rattle on the crate, or on a program over the crate's rlib."""
        crate, folder = (program, f"{ROOT}/crates/{program}") if program else (self.crate, self.dir)
        root = "src/main.rt" if os.path.exists(f"{folder}/src/main.rt") else "src/lib.rt"
        line = [f"{self.kit}/bin/rattle", verb, "--crate-name", crate, root]
        for word in told("tools/libraries", "--words", crate).split("\n"):
            if program and word.startswith(f"{self.crate}="):
                word = f"{self.crate}={rlib}"
            line.append(word)
        done = subprocess.run([*line, *words], capture_output=True, text=True, cwd=folder)
        return done.returncode, done.stdout + done.stderr

    def check(self, *words):
        return self.rattle("check", "--incremental", f"{self.root}/inc/{self.crate}", *words)

    def by_run(self, program=None):
        """The sort of an accepted mutant by its run: `accepted` where the crate, or a program over it, still writes what its
        file `stdout` has, `run` where it writes something else, `broken` where it wrote nothing to judge; and what happened.
        It runs as under `rt ci`: over a copy of its data, and as nobody where this is root."""
        tools, room = f"{self.kit}/toolchain", tempfile.mkdtemp()
        folder = f"{ROOT}/crates/{program}" if program else self.dir
        try:
            status, said = self.rattle("build", "-o", f"{room}/{self.crate}.rlib") if program else (0, "")
            if not status:
                kept = f"{self.root}/inc/{program or self.crate}"
                os.makedirs(kept, exist_ok=True)
                status, said = self.rattle("build", "--incremental", kept, "--backend", "llvm", "--toolchain", tools, "-o", f"{room}/program.o",
                                           program=program, rlib=f"{room}/{self.crate}.rlib")
            if status:
                return "broken", said[-160:]
            linked = subprocess.run([f"{self.kit}/bin/rattle-link", "--target", "x86_64-unknown-linux-gnu", "--toolchain", tools, "-o", f"{room}/program",
                                     f"{room}/program.o", f"{self.kit}/c/libos_c.a", f"{self.kit}/c/liblibc_c.a"], capture_output=True, text=True)
            if linked.returncode:
                return "broken", f"rattle-link: {linked.stderr[-140:]}"
            part = lambda name: open(f"{folder}/{name}", "rb").read() if os.path.isfile(f"{folder}/{name}") else b""
            shutil.copytree(f"{folder}/data", f"{room}/data") if os.path.isdir(f"{folder}/data") else os.mkdir(f"{room}/data")
            line = [f"{room}/program", *part("args").decode().split("\n")]
            if line[-1] == "":
                line.pop()
            if os.getuid() == 0:
                subprocess.run(["chmod", "-R", "go+rX", room], check=True)
                subprocess.run(["chown", "-R", "65534:65534", f"{room}/data"], check=True)
                line = ["setpriv", "--reuid=65534", "--regid=65534", "--clear-groups", "--no-new-privs", *line]
            try:
                done = subprocess.run(line, input=part("stdin"), capture_output=True, cwd=f"{room}/data", timeout=120)
            except subprocess.TimeoutExpired:
                return "broken", "the program does not end"
            if done.returncode:
                return "broken", f"the program ends with status {done.returncode}"
            return ("accepted", "") if done.stdout == part("stdout") else ("run", "the program writes something else")
        finally:
            shutil.rmtree(room, ignore_errors=True)


# The prover says that the proof names what is not there.
NAMES = re.compile(r"that can be named from here|has no field|has no constructor|not a function|takes? \d+ argument")
# It rewrote nothing: the facts that the proof names are not those of the goal.
STALE = "no equation of the list has an instance"
# An error that follows from another.
FOLLOWS = "was not admitted"


def of_goal(path, line, column, message, fresh):
    """Whether an error in a proof file is of the goal, and not of a proof that does not fit the code: two values differ,
    or `simp`, `refl` or `search` do not close it. A proof that was just written (fresh) names the facts of the code."""
    if NAMES.search(message):
        return False
    if re.search(r"computed as far as they go, the two types (differ only where|first differ where one has `\d+` \(expected\))", message):
        return True
    if "give a proof of that as the last argument" in message or "`omega`" in message:
        return True
    if STALE in message:
        return fresh
    lines = open(path).read().split("\n") if os.path.exists(path) else []
    at = lines[line - 1][column - 1:] if line <= len(lines) else ""
    return bool(re.match(r"simp|refl|search", at))


def verdict(status, said, crate, function=None, fresh=False):
    """What became of a function, or of the whole crate: accepted, fact, fit, front (refused before the prover), calls (a
    function that it calls is not proved) or unsure; and the prover's first message."""
    if status == 0 and re.search(r"^logic=proved", said, re.M):
        return "accepted", ""
    if not re.search(r"^logic=not-proved", said, re.M):
        first = next((line for line in said.split("\n") if "error" in line or "no verdict" in line), said[-200:])
        return ("front" if status == 1 else "unsure"), first[:200]
    line = re.search(rf"^fn {crate}::{function}: (.*)", said, re.M)
    if line and line[1] == "proved":
        return "accepted", ""
    errors = re.findall(rf"^((?:\S*/)?proofs/(?:\S*/)?{function}/\S*?):(\d+):(\d+): error: (.*)", said, re.M)
    errors = [e for e in errors if FOLLOWS not in e[3]]
    goals = [e for e in errors if of_goal(e[0], int(e[1]), int(e[2]), e[3], fresh)]
    if errors:
        return ("fact", goals[0][3][:160]) if goals else ("fit", errors[0][3][:160])
    if line and "it calls" in line[1]:
        return "calls", line[1][:160]
    return "fact", (line[1] if line else "")[:160]


def change(copy, batch):
    """Makes the changes of a batch in a fresh copy, at most one in each function."""
    copy.reset()
    for file in {m.file for m in batch}:
        text = open(f"{copy.dir}/src/{file}").read()
        for start, end, new in sorted((m.place for m in batch if m.file == file), reverse=True):
            text = text[:start] + new + text[end:]
        open(f"{copy.dir}/src/{file}", "w").write(text)


def blamed(copy, batch, said):
    """The mutants of a batch in whose functions the front end sees an error."""
    found = []
    for file in {m.file for m in batch}:
        text = open(f"{copy.dir}/src/{file}").read()
        lines = {int(n) for n in re.findall(rf"\bsrc/{re.escape(file)}:(\d+):\d+: error", said)}
        for name, start, end, _ in functions(text):
            first, last = text.count("\n", 0, start) + 1, text.count("\n", 0, end) + 1
            if any(first <= n <= last for n in lines):
                found += [m for m in batch if m.file == file and m.function == name]
    return found


def try_batch(copy, batch):
    """Sorts mutants of different functions of a crate, checked at once: a function's proof rests on the contracts of
    those that it calls and not on their code. Gives (mutant, sort, message) for each, or fewer where the front end
    refuses some: the others are to be tried again."""
    change(copy, batch)
    status, said = copy.check()
    sort, message = verdict(status, said, copy.crate)
    if sort in ("front", "unsure"):
        guilty = blamed(copy, batch, said) if sort == "front" else []
        if guilty:
            return [(m, "front", message) for m in guilty]
        if len(batch) == 1:
            return [(batch[0], sort, message)]
        return [r for m in batch for r in try_batch(copy, [m])]
    done = [(m, *verdict(status, said, copy.crate, m.function)) for m in batch]
    if len(batch) > 1:
        alone = [m for m, sort, _ in done if sort == "calls"]
        done = [r for r in done if r[1] != "calls"] + [r for m in alone for r in try_batch(copy, [m])]
    return done


def run_accepted(copy, done):
    """Of the accepted mutants of a program, or of its own library, those that the comparison of its output notices."""
    if os.path.exists(f"{copy.dir}/src/main.rt") or copy.crate in SHOWN_BY:
        for k, (m, sort, message) in enumerate(done):
            if sort == "accepted":
                change(copy, [m])
                done[k] = (m, *copy.by_run(SHOWN_BY.get(copy.crate)))
    return done


def results():
    found = {}
    if os.path.exists(RESULTS):
        for line in open(RESULTS):
            r = json.loads(line)
            found[r["key"]] = r
    return found


def ready(names):
    """Has what the crates stand on there."""
    if names:
        told("tools/libraries", *names)


def run(args, crates, deps):
    part, parts = map(int, args.part.split("/"))
    if args.jobs > 1:
        ready(crates)  # once, before the others start
        words = [w for w in sys.argv[3:]] + ["--jobs", "1"]
        children = [subprocess.Popen([sys.executable, os.path.abspath(__file__), "run", f"{(part - 1) * args.jobs + k + 1}/{parts * args.jobs}", *words])
                    for k in range(args.jobs)]
        sys.exit(max(child.wait() for child in children))
    known = {} if args.again else results()
    work = [group for k, group in enumerate(mutants(crates, args.each, args.most, args.function)) if k % parts == part - 1]
    os.makedirs(WORK, exist_ok=True)
    ready(sorted({group[0].crate for group in work if group}))
    for crate in crates:
        queues = [[m for m in group if m.key not in known] for group in work if group and group[0].crate == crate]
        copy = None
        while any(queues):
            if not copy:
                copy = Copy(crate, deps, part)
            began = time.time()
            done = try_batch(copy, [q[0] for q in queues if q])
            tried = {m.key for m, _, _ in done}
            queues = [[m for m in q if m.key not in tried] for q in queues]
            done = [(m, "unfit" if sort == "fit" else sort, message) for m, sort, message in done]
            done = run_accepted(copy, done)
            took = round((time.time() - began) / max(1, len(done)), 1)
            with open(RESULTS, "a") as out:
                for m, sort, message in done:
                    message = re.sub(r"/\S*?/(?=(?:crates|src|proofs|specs)/)", "", message)  # no path of this machine
                    out.write(json.dumps({"key": m.key, "name": m.name, "sort": sort, "message": message, "seconds": took}, ensure_ascii=False) + "\n")
                    if sort != "front":
                        print(f"{sort:9} {took:5} s  {m.name[:150]}", flush=True)


# ---- the table

def reasons():
    """What tools/mutants.txt says of accepted mutants: CRATE::FN, what, reason."""
    found, path = {}, f"{ROOT}/tools/mutants.txt"
    if os.path.exists(path):
        for line in open(path):
            if line.strip() and not line.startswith("#"):
                rest, reason = line.rstrip("\n").rsplit(" | ", 1)
                function, what = rest.split(" | ", 1)
                found[function.split("::")[-1], what] = reason
    return found


def table(deps):
    known, why = results(), reasons()
    current = {m.key: m for group in mutants(list(deps), 0, 0) for m in group}
    with open(RESULTS, "w") as out:  # what is left of it: the functions as they are now, by crate
        for key in sorted((k for k in known if k in current), key=lambda k: (list(deps).index(current[k].crate), current[k].name)):
            out.write(json.dumps({**known[key], "name": current[key].name}, ensure_ascii=False) + "\n")
    rows, accepted, left = {}, [], 0
    for key, r in known.items():
        if key not in current or r["sort"] not in SORTS:
            continue
        m = current[key]
        rows.setdefault(m.crate, dict.fromkeys(SORTS, 0))[r["sort"]] += 1
        if r["sort"] == "accepted":
            accepted.append(m)
    out = ["| crate | tried | fact | fact, new proof | fit | left | noticed by the run | broken | accepted |", "|---|---|---|---|---|---|---|---|---|"]
    for crate in [c for c in deps if c in rows] + ["all"]:
        row = rows.get(crate) or {s: sum(r[s] for r in rows.values()) for s in SORTS}
        out.append(f"| {crate} | {sum(row.values())} | " + " | ".join(str(row[s]) for s in SORTS) + " |")
    out += ["", "Accepted:", "", "| function | change | why |", "|---|---|---|"]
    for m in sorted(accepted, key=lambda m: (list(deps).index(m.crate), m.function, m.line)):
        reason = why.get((m.function, m.what))
        left += reason is None or reason.startswith("open")
        out.append(f"| {m.crate}::{m.function} | `{m.what.replace('|', chr(92) + '|')}` | {reason or 'open'} |")
    path, mark = f"{ROOT}/docs/MUTANTS.md", "<!-- written by tools/mutants.py table -->\n"
    head = open(path).read().split(mark)[0] if os.path.exists(path) else "# Mutants\n\n"
    open(path, "w").write(head + mark + "\n" + "\n".join(out) + "\n")
    print(f"{sum(sum(r.values()) for r in rows.values())} mutants, {len(accepted)} accepted, {left} of them open")
    return 1 if left else 0


# ---- edits

def apply_edit(folder, path):
    """Makes the replacements of an edit file in a folder; what is wrong with the file, if anything."""
    file, old, pairs = "", "", 0
    for line in open(path).read().split("\n"):
        if line.startswith("file: "):
            file = line[6:]
        elif line.startswith("old: "):
            old = line[5:]
        elif line.startswith("new:"):
            new, target = line[4:].removeprefix(" "), f"{folder}/{file}"
            if not re.match(r"(src|specs|proofs)/", file) or ".." in file.split("/") or not os.path.isfile(target):
                return "a 'file:' line names no file of the crate"
            text = open(target).read()
            if not old or text.count(old) != 1:
                return f"an 'old:' text is in {file} {text.count(old) if old else 0} times"
            open(target, "w").write(text.replace(old, new))
            old, pairs = "", pairs + 1
    return "" if pairs else "it has no 'old:' and 'new:' pair"


def fits(names, deps):
    bad = tried = 0
    for crate in names or deps:
        for path in sorted(glob.glob(f"{ROOT}/edits/{crate}/*.edit") + glob.glob(f"{ROOT}/crates/{crate}/must-fail/*.edit")):
            with tempfile.TemporaryDirectory() as room:
                for part in ("src", "specs", "proofs"):
                    if os.path.isdir(f"{ROOT}/crates/{crate}/{part}"):
                        shutil.copytree(f"{ROOT}/crates/{crate}/{part}", f"{room}/{part}")
                wrong = apply_edit(room, path)
            tried += 1
            bad += bool(wrong)
            if wrong:
                print(f"{os.path.relpath(path, ROOT)}: {wrong}", flush=True)
    print(f"{tried - bad} edits fit, {bad} not")
    return 1 if bad or not tried else 0


def edits(names, deps):
    folder = f"{ROOT}/edits"
    crates = sorted(os.listdir(folder), key=lambda c: list(deps).index(c) if c in deps else -1) if os.path.isdir(folder) else []
    unknown = [n for n in names if n not in crates]
    if unknown or not crates:
        sys.exit(f"tools/mutants.py: edits/ has no folder {' '.join(unknown)}".rstrip())
    crates = [c for c in crates if not names or c in names]
    refused, bad = 0, []
    gone = [c for c in crates if c not in deps]
    if gone:
        sys.exit(f"tools/mutants.py: edits/ has a folder of no crate: {' '.join(gone)}")
    ready(crates)
    for crate in crates:
        copy = Copy(crate, deps, "-edits")
        for file in sorted(f for f in os.listdir(f"{folder}/{crate}") if f.endswith(".edit")):
            began = time.time()
            copy.reset()
            wrong = apply_edit(copy.dir, f"{folder}/{crate}/{file}")
            if not wrong:
                status, said = copy.check()
                if status == 0:
                    wrong = "NOT REFUSED"
                elif status != 1 or not re.search(r"^logic=not-proved", said, re.M):
                    wrong = "it did not reach the prover"
            refused += not wrong
            bad += [f"{crate}/{file}"] if wrong else []
            print(f"{crate}/{file[:-5]}: {wrong or 'refused, as it must be'} ({time.time() - began:.0f} s)", flush=True)
    print(f"{refused} edits refused, {len(bad)} not")
    return 1 if bad or not refused else 0


def main():
    parser = argparse.ArgumentParser(description=__doc__, formatter_class=argparse.RawDescriptionHelpFormatter, usage=argparse.SUPPRESS)
    parser.add_argument("command", choices=["list", "run", "table", "edits", "fits"])
    parser.add_argument("part", nargs="?", default="")
    parser.add_argument("names", nargs="*")
    parser.add_argument("--crate", nargs="+", default=[])
    parser.add_argument("--function", nargs="+", default=[])
    parser.add_argument("--each", type=int, default=0)
    parser.add_argument("--most", type=int, default=0)
    parser.add_argument("--jobs", type=int, default=1)
    parser.add_argument("--again", action="store_true")
    args = parser.parse_args()
    deps = listed_crates()
    unknown = [c for c in args.crate if c not in deps]
    if unknown:
        sys.exit(f"tools/mutants.py: not in crates.txt: {' '.join(unknown)}")
    crates = args.crate or list(deps)
    there = {name for crate in crates for _, source in texts_of(crate) for name, *_ in functions(source)} if args.function else ()
    unknown = [name for name in args.function if name not in there]
    if unknown:
        sys.exit(f"tools/mutants.py: no function of these crates: {' '.join(unknown)}")
    if args.command == "list":
        for group in mutants(crates, args.each, args.most, args.function):
            for m in group:
                print(m.name)
    elif args.command == "run":
        if not re.fullmatch(r"[1-9]\d*/[1-9]\d*", args.part):
            sys.exit("tools/mutants.py: run PART/PARTS, as run 1/1")
        run(args, crates, deps)
    elif args.command == "table":
        sys.exit(table(deps))
    elif args.command == "fits":
        sys.exit(fits([n for n in [args.part, *args.names] if n], deps))
    else:
        sys.exit(edits([n for n in [args.part, *args.names] if n], deps))


if __name__ == "__main__":
    main()
