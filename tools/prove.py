#!/usr/bin/env python3
"""Wrote the proof files of a crate's functions for an older Rattle, and writes nothing for today's.

Today's Rattle proves most functions by `#![tactic(auto)]`, and answers what is left in Invariants.antt and Answers.antt: `rt check
--start FN` writes the files to start from. The frame that this script filled, Proof.antt, and the places that it read the facts off, are
no longer made so. It stays for the words of tools/hints/*.toml, which say what each proof rested on. What it did:

    tools/prove.py CRATE            writes a proof for each function that has none
    tools/prove.py CRATE FN..       writes those of the named functions anew
    tools/prove.py CRATE --all      writes every proof of the crate anew

A function whose promise is `result ≡ definition` is proved, at each place where it returns, by rewriting the
definition with the facts of the path there: the tests taken, the variants matched, the promises of the calls
made. `rt dev` prints the frame of each proof and, with --generated, the places of the code; this script reads
the facts off those places and fills the frame. What a function needs beside that stands in tools/hints/CRATE.toml:

    [FN]
    unfolding = "a b"      definitions to open (beside the one that the promise names)
    shut = true            open nothing
    use = ["mod.{name}"]   further imports
    more = ["fact"]        further facts for every return
    returns-2 = "proof"    the whole proof of one place ("FACTS" stands for the path's facts)
    all = "proof"          the proof of every place that is left open

The proof files are part of the repository and are checked by the gate; this script is not.
"""
import glob
import os
import re
import shutil
import subprocess
import sys
import tomllib

GENERATED = "target/gen/"
TESTS = "borrow.Author.Tests"


def run_dev(crate, *words):
    env = {**os.environ, "RT_CUT": "0"}
    done = subprocess.run(["rt", "dev", crate, *words], capture_output=True, text=True, env=env)
    return done.stdout + done.stderr


def dependencies(crate):
    for line in open("crates.txt"):
        name, _, rest = line.split("#")[0].partition(":")
        if name.strip() == crate:
            return rest.split()
    sys.exit(f"crates.txt has no crate {crate}")


def definitions(crate):
    """Where each definition of the crate's and its dependencies' specs/ and proofs/ is imported from."""
    where = {}
    for dep in dependencies(crate) + [crate]:
        for part in ("specs", "proofs"):
            folder = f"crates/{dep}/{part}"
            if not os.path.isdir(folder):
                continue
            for file in sorted(os.listdir(folder)):
                if not file.endswith(".antt") or file == "Lib.antt":
                    continue
                root = f"Rattle·{dep}·{part}.{part}" if dep == crate else f"Rattle·{dep}.{part}"
                text = open(f"{folder}/{file}").read()
                for name in re.findall(r"^(?:abbrev |unfoldable )?pub (\S+) :", text, re.M):
                    where[name] = f"{root}.{file[:-5]}"
    return where


def promised(crate):
    """The definitions that each function's promise names, and how many values it speaks of for all."""
    root = next(f for f in ("lib.rt", "main.rt") if os.path.exists(f"crates/{crate}/src/{f}"))
    source = open(f"crates/{crate}/src/{root}").read()
    found = {}
    for m in re.finditer(r"\bfn (\w+)(?:<[^>]*>)?\(", source):
        head = source[m.end(): source.find("\n{", m.end())]
        every = re.search(r"⌜ \(((?:\([^():]+ : [^()]+\) )+)→ (\S+) .*?≡\s*\(?([^\s()]+)", head)
        e = re.search(r"≡\s*\(?([^\s()]+)", head)
        if every:
            values = sum(len(b.split(" : ")[0].split()) for b in re.findall(r"\(([^()]*)\)", every.group(1)))
            found[m.group(1)] = [every.group(3), every.group(2)], values
        elif e and e.group(1) != "pick":
            found[m.group(1)] = [e.group(1)], 0
    return found


def facts(lts):
    """For each need of a function, the facts on the path to its place, the nearest first."""
    text = open(lts).read()
    rules = dict(re.findall(r"^\s+(s\d+)\s*=\s*(?:λ bs\.\s*)?([\w.\-]+)", text, re.M))
    own = {}
    for m in re.finditer(r"pub record (\S+·own)[^\n]* : Type 0 where\n((?:\s{8,}\S[^\n]*\n)+)", text):
        own[m.group(1)] = re.findall(r"^ {10}pub (\S+) :\s*(\S[^\n]*(?:\n {12,}[^\n]*)*)", m.group(2), re.M)
    place = {}
    for m in re.finditer(r"pub record (\S+) : Type 0 where\n\s+pub before : (\S+)[^\n]*\n\s+pub (\S+) :\s+(\S+)", text):
        place[m.group(1)] = m.groups()[1:]

    def of_field(path, name, kind):
        if name in ("taken", "left"):
            if "Path" in kind[:12]:
                if "{A = Nat.ℕ}" not in kind[:40]:
                    return [path]
                return [("ne-eqb" if "⊥" in kind else "eq-eqb") + f" _ _ ({path})"]
            if "_<_" in kind[:12]:
                return [f"lt-ltb _ _ ({path})", f"lt-leb _ _ ({path})"]
            if "_≤_" in kind[:12]:
                return [f"le-ltb _ _ ({path})", f"le-leb _ _ ({path})"]
        if name.startswith("keys") and "tagOf" not in kind and kind.count("∷_") == 1:
            return [path]
        if name == "rest" and "tagOf" not in kind:
            return ["ne-eqb _ _ (" + path + " .0" * k + " .1)" for k in range(kind.count("OneOf"))]
        if name == "given" and re.search("enum-(told|known)", rules.get(kind.split()[0], "")):
            return [path + " .1"]
        if name == "ensures":
            return [path]
        return []

    def walk(at):
        found, path = [], "c"
        while at in place:
            before, field, kind = place[at]
            here = f"{path} .{field}"
            if kind in own:
                for name, type_ in own[kind]:
                    found += of_field(f"{here} .{name}", name, type_)
            else:
                found.append(f"{here} .ensures")
            at, path = before, path + " .before"
        return found

    return {m.group(1): walk(m.group(2)) for m in re.finditer(r"Need-(\S+) =\s*\n\s+\(c : (\S+?)\)", text)}


def imports(names, where):
    """One `use` line for each module, its names in order."""
    by_module = {}
    for n in names:
        if n in where:
            by_module.setdefault(where[n], []).append(n)
    return [f"use {m}.{{{', '.join(ns)}}}" for m, ns in by_module.items()]


def proof(frame, path_facts, hint, promise, where):
    definitions, values = promise
    opened = hint.get("unfolding", "").split()
    if not hint.get("shut"):
        opened = [d for d in definitions if d not in opened] + opened
    bound = "λ " + " ".join(f"q{i}" for i in range(values)) + ". " if values else ""
    opened = [n for n in opened if n in where]

    def fill(m):
        need, arguments = m.groups()
        known = path_facts.get(need, []) + hint.get("more", [])
        given = hint.get(need) or hint.get("all") or bound + (f"simp ({', '.join(known)})" if known else "refl")
        given = given.replace("FACTS", ", ".join(known))
        opening = f"unfolding {' '.join(opened)}\n" if opened else ""
        return f"{opening}{need}{arguments} = {given}"

    body = re.sub(r"^([\w-]+)((?: \S+)+) = \?$", fill, frame, flags=re.M)
    body = re.sub(r"^-- src.*\n", "", body, flags=re.M)
    body = re.sub(r"^use \S+ as (?:reads|lts|\S+-reads)\n", "", body, flags=re.M)
    lines = [] if "use borrow.Author.Needs.{needs}" in body or "needs" not in body else ["use borrow.Author.Needs.{needs}"]
    if re.search(r"\brefl\b", body):
        lines.append("use mathlib.Core.Path.{refl}")
    tests = [t for t in ("eq-eqb", "ne-eqb", "lt-ltb", "lt-leb", "le-ltb", "le-leb") if re.search(rf"\b{t}\b", body)]
    if tests:
        lines.append(f"use {TESTS}.{{{', '.join(tests)}}}")
    cited = [n for n in where if n not in opened and re.search(rf"(?<![\w·.-]){re.escape(n)}(?![\w-])", " ".join(
        [str(v) for k, v in hint.items() if k not in ("unfolding", "use")]))]
    return "\n".join(lines + imports(opened + cited, where) + ["use " + u for u in hint.get("use", [])]) + "\n" + body


def main():
    sys.exit("tools/prove.py: it wrote proofs for an older Rattle, and writes none for today's: see `rt check --start FN`")


if __name__ == "__main__":
    main()
