#!/usr/bin/env python3
"""Brings the repository's own definitions and lemmas to the spelling of today's Rattle: tools/respell.py [--list]

Run once, at the top, after the toolchain's port.py. A definition, a lemma and a field of specs/ and proofs/ is spelled in snake case;
types and modules keep their capitals, a goal's answer keeps the goal's name, and functions of src/, strings, inputs and outputs
keep theirs. Names are replaced as whole words in crates/*/src, specs and proofs. --list prints the names and changes nothing;
a lemma that would have its definition's name gets _lem. Names that fall together otherwise are printed, and then nothing is written.
"""
import glob
import re
import sys

SIGN = re.compile(r"^\s*(?:(?:unfoldable|abbrev|pub) )*([^\s(){}.,;:=λ]+) :(?=\s)")
# A module's own name in one file; those that tools/definitions.py makes stay.
ALIAS = re.compile(r"^(?:pub )?(?:ghost )?use .* as (?!the[A-Z])([a-z][A-Za-z0-9_]*)[};\s]*$")
GOAL = re.compile(r" : (?:tie|goal)\.")
WORD = r"[A-Za-z0-9_'-]"
READ = {"read_by"}  # a definition that port.py has turned already
STRING = re.compile(r'b?"(?:[^"\\]|\\.)*"')


def files():
    for part in ("specs", "proofs"):
        for path in sorted(glob.glob(f"crates/*/{part}/**/*.antt", recursive=True)):
            yield path


def snake(name):
    name = re.sub(r"([a-z0-9])([A-Z])", lambda m: m[1] + "_" + m[2].lower(), name)
    return re.sub(r"-", "_", name)


def declared():
    """Each name that stands before a colon at the head of a line, less those that answer a goal."""
    names, goals = set(), set()
    for path in files():
        with open(path, encoding="utf-8") as f:
            for line in f:
                m = SIGN.match(line) or ALIAS.match(line)
                if not m or line.lstrip().startswith("--"):
                    continue
                (goals if GOAL.search(line) else names).add(m[1])
    return names, goals


def main(argv):
    names, goals = declared()
    turned = {}
    for name in sorted(names):
        if name[0].isupper() or not re.search(r"[a-z0-9][A-Z]|-", name):
            continue
        if name in goals and not name.endswith("-spec"):
            continue
        turned[name] = snake(name)
    # a definition, of which the old spelling has capitals, has its name before a lemma, whose old spelling has dashes
    definitions = {new for old, new in turned.items() if re.search(r"[A-Z]", old) and "-" not in old} | READ
    for new in sorted(definitions):
        for old in [o for o in turned if "-" in o and turned[o] == new]:
            turned[old] = new + "_lem"
        if new in names and new not in READ:
            turned[new] = new + "_lem"
    back, bad = {}, False
    for old, new in turned.items():
        if new in back or (new in names and new not in turned):
            print(f"respell: {old} and {back.get(new, new)} fall together as {new}", file=sys.stderr)
            bad = True
        back[new] = old
    if "--list" in argv:
        for old, new in turned.items():
            print(old, new)
        return 0
    if bad:
        return 1
    word = re.compile(rf"(?<!{WORD})(?:" + "|".join(re.escape(n) for n in sorted(turned, key=len, reverse=True)) + rf")(?!{WORD})")

    def turn(text):
        return word.sub(lambda m: turned[m[0]], text)

    count = 0
    for path in list(files()) + sorted(glob.glob("crates/*/src/**/*.rt", recursive=True)):
        with open(path, encoding="utf-8") as f:
            text = f.read()
        if path.endswith(".rt"):
            out, at = [], 0
            for m in STRING.finditer(text):
                out += [turn(text[at : m.start()]), m[0]]
                at = m.end()
            new = "".join(out) + turn(text[at:])
        else:
            new = turn(text)
        if new != text:
            with open(path, "w", encoding="utf-8") as f:
                f.write(new)
            count += 1
    print(f"respell: {len(turned)} names, {count} files")
    return 0


if __name__ == "__main__":
    raise SystemExit(main(sys.argv[1:]))
