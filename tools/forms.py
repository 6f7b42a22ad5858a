#!/usr/bin/env python3
"""Counts, in crates/*/src, the places where an older form may stand: what docs/DESIGN-PASS.md counts, point by point.

usage: python3 tools/forms.py [ROOT] [-v]      ROOT: a checkout, this one if none is named; -v prints each place

A line is a place to look at, not a verdict: docs/DESIGN-PASS.md says what stays and why. The crates NAME_c, which only
export, are left out.
"""
import collections
import glob
import os
import re
import sys


def sources(root):
    for path in sorted(glob.glob(os.path.join(root, "crates/*/src/*.rt"))):
        crate = path.split("/crates/")[1].split("/")[0] if "/crates/" in path else path.split("/")[1]
        if not crate.endswith("_c"):
            with open(path, encoding="utf-8") as f:
                yield crate, os.path.relpath(path, root), f.read()


def code(text):
    """The lines with no comment, numbered."""
    for number, line in enumerate(text.split("\n"), 1):
        bare = line.split("//")[0]
        if bare.strip():
            yield number, bare


def lines(root, pattern, skip=None):
    found = []
    for crate, path, text in sources(root):
        if skip and re.search(skip, crate):
            continue
        found += [f"{path}:{n}: {line.strip()}" for n, line in code(text) if re.search(pattern, line)]
    return found


FN = re.compile(r"\bfn (\w+)\s*(?:<((?:[^<>]|<[^<>]*>)*)>)?\s*\(((?:[^()]|\([^()]*\))*)\)((?:[^{};]|\{[^\n]*\})*?)\s*\{\s*\n", re.S)


def functions(root):
    for crate, path, text in sources(root):
        for m in FN.finditer(text):
            params = re.split(r",\s*(?![^<\[(]*[>\])])", re.sub(r"\s+", " ", m.group(3)).strip().rstrip(","))
            yield crate, m.group(1), [p.strip() for p in params if ":" in p], m.group(4)


def same_names(root):
    where = collections.defaultdict(set)
    for crate, name, _, _ in functions(root):
        where[name].add(crate)
    return [f"{name}: {' '.join(sorted(crates))}" for name, crates in sorted(where.items()) if len(crates) > 1]


def groups(root, least=3):
    where = collections.defaultdict(set)
    for crate, name, params, _ in functions(root):
        for i, one in enumerate(params):
            for other in params[i + 1:]:
                where[(one, other)].add(f"{crate}::{name}")
    rows = [(k, v) for k, v in where.items() if len(v) >= least]
    return [f"{len(v)} functions take {k[0]}, {k[1]}: {' '.join(sorted(v))}" for k, v in sorted(rows, key=lambda r: (-len(r[1]), r[0]))]


def facts(root, least=3):
    where = collections.defaultdict(set)
    for crate, name, _, rest in functions(root):
        for m in re.finditer(r"requires(?: \w+)? \{ (.*?) \}$", rest, re.M):
            where[m.group(1)].add(f"{crate}::{name}")
        for m in re.finditer(r"ensures(?: \w+)? \{ (.*?) \}$", rest, re.M):
            for premise in re.findall(r"(?:^|→ )([^→]*?≡[^→]*?) →", m.group(1)):
                where[premise.strip()].add(f"{crate}::{name}")
    return [f"{len(v)} contracts say {k}: {' '.join(sorted(v))}" for k, v in sorted(where.items()) if len(v) >= least]


def sized(root):
    found = []
    for crate, name, params, _ in functions(root):
        slices = [p for p in params if re.search(r": &(?:'\w+ )?(?:mut )?\[", p)]
        places = [p for p in params if re.search(r"^(at|n|i|len|length|end|next): usize$", p)]
        if slices and places:
            found.append(f"{crate}::{name}({', '.join(slices + places)})")
    return found


def answers(root):
    found = sorted(p for p in glob.glob(os.path.join(root, "crates/*/proofs/**/Answers.antt"), recursive=True) if "/out/" not in p)
    return [f"{os.path.relpath(p, root)}: {sum(1 for _ in open(p, encoding='utf-8'))} lines" for p in found]


POINTS = [
    ("1 enums declared", lambda r: lines(r, r"^\s*(pub )?enum \w")),
    ("1 flags in a struct", lambda r: lines(r, r"^\s+(pub )?\w+: bool,")),
    ("1 reply words as numbers", lambda r: lines(r, r"\b0x(10[1-7]|2[1-9]|4[01])\b", r"^test_|^scope$")),
    ("1 kinds of what waits as numbers", lambda r: lines(r, r"KIND\] = [0-9]")),
    ("2 names of functions in more than one crate", same_names),
    ("3 loops by hand", lambda r: lines(r, r"^\s*('\w+: )?(while|loop)\b")),
    ("4 functions that turn a value into its number or back", lambda r: lines(r, r"\bfn (\w*number|\w+_bytes|flag|test|width_of|access_of|abi_of|completion_of|sign|wide)\b")),
    ("5 parameters that travel together", groups),
    ("5 facts in three or more contracts", facts),
    ("6 a slice with a place or a length beside it", sized),
    ("7 a switch on what is to be run", lambda r: lines(r, r"\bmatch (task|list|kind)\b")),
    ("8 files of answers", answers),
]


def main():
    args = [a for a in sys.argv[1:] if a != "-v"]
    root = args[0] if args else os.path.dirname(os.path.dirname(os.path.abspath(__file__)))
    if not os.path.isdir(os.path.join(root, "crates")):
        sys.exit(f"forms: no crates/ in {root}")
    for what, find in POINTS:
        found = find(root)
        print(f"{len(found):4} {what}")
        if "-v" in sys.argv[1:]:
            for place in found:
                print("       " + place)


main()
