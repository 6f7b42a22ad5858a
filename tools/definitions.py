#!/usr/bin/env python3
"""Wrong definitions, and what notices them (docs/DEFINITIONS.md).

    tools/definitions.py make             the definitions alone, with the lists as equations over them; all must hold
    tools/definitions.py mutants          the wrong definitions, one to a line
    tools/definitions.py run [PART/PARTS] [CRATE/FILE..]
                                          tries each that has no verdict yet, or those of some files of definitions
    tools/definitions.py laws [CRATE/FILE..]
                                          holds those that nothing noticed to the laws of every specs/, or those of some files,
                                          which may be files that no list rests on
    tools/definitions.py table            what noticed each
    tools/definitions.py listed           writes crates/test_definitions, which holds the definitions to some of the lists in the gate
    tools/definitions.py listed --check   writes nothing, and fails where a file of it is not what would be written

A function is proved equal to its definition, so a wrong definition with a function that is wrong alike is accepted. What would
notice it comes from outside: document 01's marked cases, the vectors, the fixed list of calls and the stored captures. Here each
is written as equations over the definitions, which the checker computes, in one crate with every definition and no function.
A mutant is one change of one definition. The crate is checked with it, and the equations that fail say what noticed it.

What is kept (in the folder for temporary files, definitions-of-*) is known by content: a verdict by every definition and equation and the mutant's own file,
so that after any change of them all are tried anew, and what a check left to load, and the calls written out, by what they are of.

Python's standard library alone; the Rattle toolchain; cargo, for the list of calls with every word written out."""
import hashlib
import json
import os
import re
import shutil
import subprocess
import sys
import tempfile
import time

ROOT = os.path.dirname(os.path.dirname(os.path.abspath(__file__)))
# outside the checkout: `rt ci` refuses files of definitions that stand in no crate
WORK = os.path.join(tempfile.gettempdir(), 'definitions-of-' + hashlib.sha256(ROOT.encode()).hexdigest()[:16])
# the scratch crate is named d
SPECS = 'Rattle.d.specs.'
# the files of equations
SOURCES = ['Marked', 'Further', 'Vectors', 'Listed', 'Rows', 'Published', 'Sound', 'Damaged']
SECONDS = 200


def read(path):
    with open(path, encoding='utf-8') as f:
        return f.read()


def write(path, text):
    os.makedirs(os.path.dirname(path), exist_ok=True)
    with open(path, 'w', encoding='utf-8') as f:
        f.write(text)


def digest(*parts):
    return hashlib.sha256(json.dumps(parts, ensure_ascii=False, sort_keys=True).encode()).hexdigest()[:16]


# ---- the repository as it is

def crates():
    names = [line.split('#')[0].split(':')[0].strip() for line in read(f'{ROOT}/crates.txt').splitlines() if ':' in line.split('#')[0]]
    return [n for n in names if os.path.isdir(f'{ROOT}/crates/{n}')]


def camel(crate):
    return ''.join(word.capitalize() for word in crate.split('_'))


class Module:
    """A file of specs/: its declarations, each a signature and clauses."""

    def __init__(self, crate, name):
        self.crate, self.name = crate, name
        self.path = f'crates/{crate}/specs/{name}.antt'
        self.text = read(f'{ROOT}/{self.path}')
        self.short = camel(crate) + name
        self.uses = [(m.group(1), m.group(2)) for m in re.finditer(r'^use Rattle\.(?!std\.)(\w+)\.specs\.(?!declared)(\w+)', self.text, re.M)]

    def blocks(self):
        """Declarations as (start, end, modifier, name, type)."""
        found = []
        for m in re.finditer(r'^(unfoldable |abbrev )?(?:pub )?([^\s:(]+)((?: \{[^}]*\}| \([^)]*\))*) : (.*(?:\n    .*)*)', self.text, re.M):
            name = m.group(2)
            clause = re.compile(r'\n(?:unfolding .*\n|--.*\n)*' + re.escape(name) + r'(?![^\s]).*(?:\n[ ].*)*')
            end = m.end()
            while True:
                n = clause.match(self.text, end)
                if not n:
                    break
                end = n.end()
            found.append((m.start(), end, (m.group(1) or '').strip(), name, ' '.join(m.group(4).split())))
        return found


def modules():
    found = {}
    for crate in crates():
        lib = f'{ROOT}/crates/{crate}/specs/Lib.antt'
        if os.path.exists(lib):
            for name in re.findall(r'^pub mod (\w+)', read(lib), re.M):
                found[crate, name] = Module(crate, name)
    return found


def sources():
    """The files of every library: the crate, the module (none for lib.rt), the text."""
    for crate in crates():
        folder = f'{ROOT}/crates/{crate}/src'
        if os.path.exists(f'{folder}/lib.rt'):
            for name in sorted(os.listdir(folder)):
                yield crate, '' if name == 'lib.rt' else name[:-3], read(f'{folder}/{name}')


def declared():
    """The structs and enums of every crate: the text, the fields of each struct, the cases of each enum with their types."""
    texts, structs, enums = [], {}, {}
    for _, _, text in sources():
        for m in re.finditer(r'^pub (struct|enum) (\w+)[^\n]*?(?:;\n|\{\n(.*?)^\}\n)', text, re.M | re.S):
            texts.append(m.group(0))
            body = re.sub(r'//.*', '', m.group(3) or '')
            if m.group(1) == 'struct':
                structs[m.group(2)] = re.findall(r'pub (\w+): ([^,\n]+)', body)
            else:
                cases = re.findall(r'^    (\w+)\s*(\{[^}]*\}|\([^)]*\))?', body, re.M)
                enums[m.group(2)] = [(c, tuple(t.strip(' ,\n') for t in re.findall(r'(?:\w+:)?\s*([A-Za-z]\w*)\s*(?=[,})\n])', a))) for c, a in cases]
    return '\n'.join(texts), structs, enums


def home(mods, name, kind=''):
    """The one module that defines a name, of a type that begins so."""
    found = [m for m in mods.values() for b in m.blocks() if b[2] and b[3] == name and b[4].startswith(kind)]
    if len(found) != 1:
        raise SystemExit(f'tools/definitions.py: {name} : {kind} has {len(found)} homes')
    return found[0].short


# ---- the scratch crate

def renamed(text):
    # a type may stand in a module of its crate; the scratch crate has no modules
    text = re.sub(r'Rattle\.(?!std\.)\w+\.specs\.declared\.(?:[a-z]\w*\.)?', SPECS + 'declared.', text)
    return re.sub(r'Rattle\.(?!d\.|std\.)(\w+)\.specs\.(\w+)', lambda m: SPECS + camel(m.group(1)) + m.group(2), text)


def opened(module, text=None):
    """A module with every definition transparent and with no law."""
    text = module.text if text is None else text
    laws = [(a, b) for a, b, modifier, name, kind in module.blocks() if not modifier and text is module.text]
    for a, b in reversed(laws):
        text = text[:a] + text[b:]
    text = re.sub(r'^unfolding .*\n', '', text, flags=re.M)
    return renamed(re.sub(r'^unfoldable ', 'abbrev ', text, flags=re.M))


IMPORTS = '''use Rattle.std.specs.Prelude.{drop, get_or, replicate, set, ℕ, ◌+◌, ◌-◌, ◌*◌, ◌%◌, ◌^◌, Bool, true, false, List, [], ◌∷◌, ◌++◌, eqb, ltb, T}
'''
SAME = '''
abbrev both : Bool → Bool → Bool
both true b = b
both false b = false

abbrev equal : List ℕ → List ℕ → Bool
equal [] [] = true
equal [] (b ∷ bs) = false
equal (a ∷ ls) [] = false
equal (a ∷ ls) (b ∷ bs) = both (eqb a b) (equal ls bs)
'''
HEAD = IMPORTS + SAME


def pruned(text):
    """The text with no more on its line of the library's words than it says: an operator stands between spaces."""
    def line(m):
        rest = re.sub(r'^(use|--) .*|--.*', '', text, flags=re.M)
        said = lambda n: re.search(r'(?<![\w.])' + re.escape(n.strip('◌')) + r'(?![\w\'])', rest) if '◌' not in n else f' {n.strip("◌")} ' in rest
        return 'use Rattle.std.specs.Prelude.{' + ', '.join(n for n in m.group(1).split(', ') if said(n)) + '}\n'
    return re.sub(r'^use Rattle\.std\.specs\.Prelude\.\{(.*)\}\n', line, text, flags=re.M)


def together(text, rows, size):
    """Rows as equations of so many rows each. Refusing an equation costs the checker many times its computing, whatever the
    row that is false, so neither one equation of all rows nor one for each row is quick."""
    for i, row in enumerate(rows):
        text += f'\nabbrev row_{i} : Bool\nrow_{i} = {row}\n'
        if i % size == size - 1 or i == len(rows) - 1:
            some = range(i - i % size, i + 1)
            text += f'\nrows_{i} : T ({"".join(f"both row_{k} (" for k in some)}true{")" * len(some)})\nrows_{i} = tt\n'
    return text


def numerals(words):
    return ''.join(f'{w} ∷ ' for w in words) + '[]'


def hexes(line):
    return [int(w, 16) for w in line.split()]


# bits 12..2 of a 16-bit word: rd, rs2 and the three bits of a short register at their ends, and others. Where rd is 0 a load from
# sp is reserved
MIDDLES = [0, 0x007, 0x01f, 0x41f, 0x020, 0x3e0, 0x155, 0x2aa, 0x7ff]


def short_words(data):
    """Every quadrant and funct3 of the 16-bit words with each of these bits, each word with its answer. Above a word stands its
    complement, which is not looked at."""
    lines = read(f'{data}/compressed').splitlines()
    for word in sorted(f << 13 | m << 2 | q for f in range(8) for q in range(3) for m in MIDDLES):
        at = 5 * (word % 64 // 4 * 3 + word % 4)
        yield (word ^ 0xffff) << 16 | word, 0x3200000 + int(lines[word // 64][at:at + 5], 16)


def vectors(mods, every=1, size=1):
    """The vectors, or every so many of each list; of the list of all 16-bit words always the same."""
    fetched, decode = home(mods, 'fetched_of', 'ℕ → Trapped'), home(mods, 'decode_of')
    text = f'''use {SPECS}{home(mods, 'width_bytes')}.{{width_bytes}}
use {SPECS}declared.Width.TheVariants as width
use {SPECS}declared.Decoded.{{Decoded}}
use {SPECS}declared.Decoded.TheVariants as decoded
use {SPECS}declared.Trapped.{{Trapped}}
use {SPECS}declared.Trapped.TheVariants as trapped
use {SPECS}{decode}.{{decode_of}}
use {SPECS}{fetched}.{{fetched_of, htinst_of}}
use {SPECS}{home(mods, 'extend_of')}.{{cut_of, extend_of}}
''' + HEAD + '''
-- the digits of docs/VECTORS.md
abbrev sign_of : Bool → ℕ
sign_of true = 0x100
sign_of false = 0

abbrev decoded_number : Decoded → ℕ
decoded_number (decoded.Load w s rd) = 0x10000 + width_bytes w * 0x1000 + sign_of s + rd
decoded_number (decoded.Store w rs2) = 0x20000 + width_bytes w * 0x1000 + rs2
decoded_number decoded.Neither = 0

abbrev trapped_number : Trapped → ℕ
trapped_number trapped.Absent = 0
trapped_number trapped.Pseudo = 0x1000000
trapped_number trapped.Unfit = 0x2000000
trapped_number (trapped.Instruction op n) = 0x3000000 + n * 0x100000 + decoded_number op

-- inputs, each with the answer behind it
abbrev all : (ℕ → ℕ) → List ℕ → Bool
all f [] = true
all f (n ∷ []) = false
all f (n ∷ m ∷ l) = both (eqb (f n) m) (all f l)
'''
    tasks = {'decode': 'λ n. decoded_number (decode_of n)', 'fetched': 'λ n. trapped_number (fetched_of (n % 2 ^ 32))',
             'htinst': 'λ n. trapped_number (htinst_of n)'}
    for letter, width in zip('bhwd', ['Byte', 'Half', 'Word', 'Double']):
        tasks['l' + letter] = f'extend_of width.{width} true'
        tasks['s' + letter] = f'cut_of width.{width}'
        if letter != 'd':
            tasks[f'l{letter}u'] = f'extend_of width.{width} false'
    data = f'{ROOT}/crates/test_vectors/data'
    # the lists `wrong..` show that the program can say so; here an equation would fail. What `executed` says of a word stands in
    # `compressed`, and what it says of a number follows from the others
    assert sorted([*tasks, 'compressed', 'executed', 'wrong', 'wrong_compressed', 'wrong_executed']) == sorted(os.listdir(data))
    rows = []
    for name, task in tasks.items():
        lines = [hexes(line) for line in read(f'{data}/{name}').splitlines()][::every]
        rows += [f'all ({task}) ({numerals(w for line in lines[i:i + 300] for w in line)})' for i in range(0, len(lines), 300)]
    rows.append(f'all ({tasks["fetched"]}) ({numerals(w for pair in short_words(data) for w in pair)})')
    return together(text, rows, size)


def summed(words):
    """The sum of docs/CALLS.md."""
    s = 0
    for word in words:
        z = (((s << 7 | s >> 57) & (1 << 64) - 1 ^ word) + 0x9E3779B97F4A7C15) & (1 << 64) - 1
        s = z ^ z >> 29
    return s


def traced():
    """The list of calls written out: before, call, code, out and after of each line that is a call."""
    folder = f'{ROOT}/host'
    files = sorted(f'{at}/{n}' for top in ['host/src', 'host/tests', 'oracle/from01/src'] for at, _, names in os.walk(f'{ROOT}/{top}') for n in names)
    data = read(f'{ROOT}/crates/test_call_list/data/list')
    path = f'{WORK}/trace.{digest(data, [read(f) for f in files])}'
    if not os.path.exists(path):
        # no call is made on the library, so an archive with nothing in it will do
        write(f'{WORK}/none/libin_place.a', '!<arch>\n')
        env = dict(os.environ, TRACE=path, CURBIZZOLU_LIB_DIR=f'{WORK}/none', CARGO_TARGET_DIR=f'{WORK}/cargo')
        subprocess.run(['cargo', 'test', '--quiet', '--offline', '--test', 'trace'], cwd=folder, env=env, check=True, stdout=sys.stderr)
    calls = [line for line in map(hexes, data.splitlines()) if line[0] != 0]
    lines = [hexes(line) for line in read(path).splitlines()]
    assert len(lines) == len(calls)
    for line, call in zip(lines, calls):
        before, made, code, out, after = line[:58], line[58:64], line[64], line[65:73], line[73:]
        # the stored sum vouches for every word
        assert made == call[:6] and code == call[6] and summed(out + after) == call[7]
        yield before, made, code, out, after


def listed_head(mods):
    return f'''use {SPECS}declared.HostCall.{{HostCall}}
use {SPECS}declared.Outcome.{{Outcome}}
use {SPECS}declared.Record.{{Record}}
use {SPECS}declared.ReplyWords.{{ReplyWords}}
use {SPECS}{home(mods, 'view_of')}.{{record_of, view_of}}
use {SPECS}{home(mods, 'out_of')}.{{out_of, reply_word}}
use {SPECS}{home(mods, 'left_by')}.{{call_by, left_by}}
use {SPECS}{home(mods, 'exported_of')}.{{exported_of}}
use {SPECS}{home(mods, 'called_of', 'Vcpu → HostCall')}.{{called_of, printable}}
use {SPECS}{home(mods, 'start_call')}.{{answer_call, start_call}}
use {SPECS}declared.Post.{{Post}}
use {SPECS}declared.Posted.{{Posted}}
use {SPECS}{home(mods, 'posted_of')}.{{left_posted, posted_of}}
use {SPECS}{home(mods, 'exported_row')}.{{exported_row}}
''' + HEAD + '''
-- the 58 words of a record
abbrev words : Record → List ℕ
words r = r.x ++ (r.csrs ++ (r.counts ++ r.waiting))

-- the word returned, the eight words given, the array beside the reply, the words of the record after it
abbrev left : List ℕ → HostCall → Outcome → List ℕ
left r c o = reply_word o.reply ∷ (out_of o.reply o.args ++ (o.args ++ words (left_by (record_of r) c o)))

-- the same of a call on 58 words
abbrev shown : List ℕ → HostCall → List ℕ
shown r c = left r c (called_of (view_of r) c)

-- 01: a hypercall's array stands beside the exit and is all 0 beside any other
abbrev beside : Bool → List ℕ → List ℕ
beside true out = drop 2 out
beside false out = replicate 6 0

-- what a line says
abbrev wanted : ℕ → List ℕ → List ℕ → List ℕ
wanted code out after = code ∷ (out ++ (beside (eqb code 6) out ++ after))

-- the same through the words of the exported entry: a reply's kind and number, its values, the array, the record
abbrev reported : Record × ReplyWords → List ℕ
reported a = a.1.kind ∷ a.1.number ∷ (a.1.values ++ (a.1.args ++ words a.0))

abbrev exported : ℕ → List ℕ → List ℕ → List ℕ
exported k c r = reported (exported_of (record_of r) (record { kind = k; numbers = c }))

abbrev choose : {A : Type 0} → Bool → A → A → A
choose true a b = a
choose false a b = b

-- exits are 0, asks 1, done 2, a value 3, errors 4
abbrev kind_of : ℕ → ℕ
kind_of n = choose (ltb n 0x20) 0 (choose (ltb n 0x40) 1 (choose (ltb n 0x41) 2 (choose (ltb n 0x100) 3 4)))

abbrev number_of : ℕ → ℕ
number_of n = choose (ltb n 0x40) (n % 0x20) (choose (ltb n 0x100) 0 (n - 0x100))

-- a hypercall's arguments are not among its values
abbrev told : ℕ → List ℕ → List ℕ → List ℕ
told code out after =
    kind_of code ∷ number_of code
    ∷ (choose (eqb code 6) (get_or out 0 0 ∷ replicate 7 0) out ++ (beside (eqb code 6) out ++ after))

-- the entry's call, and the count to print
abbrev called : ℕ → List ℕ → List ℕ → List ℕ
called k c r = shown r (call_by k (get_or c 0 0) (get_or c 1 0) (get_or c 2 0) (get_or c 3 0) (get_or c 4 0))

abbrev started : ℕ → List ℕ → List ℕ → List ℕ
started k c r = shown r (start_call c)

abbrev answered : ℕ → List ℕ → List ℕ → List ℕ
answered k c r = shown r (answer_call c)

abbrev printed : ℕ → List ℕ → List ℕ → List ℕ
printed k c r = wanted 0x41 (set (replicate 8 0) 0 (printable (view_of r).waiting (get_or c 0 0))) r

-- a row of posts, a vector and a level each
abbrev posts : List ℕ → List Post
posts [] = []
posts (v ∷ []) = []
posts (v ∷ l ∷ c) = record { vector = v; level = l } ∷ posts c

-- what it gives and leaves: the refusal in the word returned, how many were applied in the first word given
abbrev rowed : Posted → Record → List ℕ
rowed g r = wanted (choose (eqb g.refusal 0) 0x40 (0x100 + g.refusal)) (set (replicate 8 0) 0 g.applied) (words r)

abbrev posted : ℕ → List ℕ → List ℕ → List ℕ
posted k c r = rowed (posted_of (view_of r) (posts c)).posted (left_posted (record_of r) (posts c))

-- the same through the exported entry
abbrev row_out : Record × Posted → List ℕ
row_out a = rowed a.1 a.0

abbrev posted_out : ℕ → List ℕ → List ℕ → List ℕ
posted_out k c r = row_out (exported_row (record_of r) (posts c))
'''


MADE = {10: 'started', 11: 'answered', 13: 'printed', 15: 'posted'}
VECTORS = [1 << 63 | 1, 1 << 63 | 5, 9, 1 << 63 | 9, 5, 1 << 63 | 2, 0, (1 << 64) - 1]


def numbers_of(call):
    """A call's five numbers; of a row of posts, the vector and the level of each (docs/CALLS.md)."""
    if call[0] != 15:
        return call[1:]
    bits = [call[2 + i // 16] >> 4 * (i % 16) & 15 for i in range(min(call[1], 64))]
    return [n for b in bits for n in (VECTORS[b & 7], b >> 3 << 63)]


def also(call):
    """The call through the exported entry, and how what a line says is told there."""
    return ('posted_out', 'wanted') if call[0] == 15 else ('exported', 'told')


def seeded():
    return int(re.search(r'const CALLS: u64 = (\d+)', read(f'{ROOT}/host/tests/list.rs')).group(1))


def listed(mods):
    """The calls by the seed, and the rows behind them."""
    text, rows = listed_head(mods), []
    for before, call, code, out, after in traced():
        made = MADE.get(call[0], 'called')
        row = f'equal ({made} {call[0]} ({numerals(numbers_of(call))}) ({numerals(before)})) (wanted {code} ({numerals(out)}) ({numerals(after)}))'
        if len(rows) >= seeded():
            entry, told = also(call)
            more = f'equal ({entry} {call[0]} ({numerals(numbers_of(call))}) ({numerals(before)})) ({told} {code} ({numerals(out)}) ({numerals(after)}))'
            row = f'both ({row}) ({more})'
        rows.append(row)
    return together(text, rows[:seeded()], 25), together(text, rows[seeded():], 25)


KEYS = ['sepc', 'vstimecmp'] + [f'x{i:02}' for i in range(1, 32)]


def published(mods, traps=None, size=1):
    """Each stored capture of the published Rust, or its first traps, by the numbers of its lines."""
    text = f'''use {SPECS}declared.State.{{State}}
use {SPECS}declared.Step.{{Step}}
use {SPECS}declared.Gives.{{Gives}}
use {SPECS}declared.Gives.TheVariants as gives
use {SPECS}{home(mods, 'number_taken')}.{{begun, end_gives, number_taken}}
''' + HEAD + '''
abbrev numbers : Gives → List ℕ → List ℕ
numbers gives.Nothing l = l
numbers (gives.Trap e p a b) l = e ∷ p ∷ a ∷ b ∷ l
numbers (gives.Bad n) l = 0xbad ∷ n ∷ l

abbrev put : Step → (State → List ℕ) → List ℕ
put s on = numbers s.gives (on s.state)

abbrev gave : State → List ℕ → List ℕ
gave s [] = numbers (end_gives s.progress) []
gave s (n ∷ l) = put (number_taken s n) (λ t. gave t l)
'''
    data = f'{ROOT}/crates/test_replays/data/published'
    rows = []
    for name in sorted(f[:-8] for f in os.listdir(data) if f.endswith('.capture')):
        lines = [line.split('=') for line in read(f'{data}/{name}.capture').splitlines()]
        assert [k for k, _ in lines[:33]] == KEYS
        given = [line.split('=') for line in read(f'{data}/{name}.replay').splitlines()]
        assert [k for k, _ in given] == ['exit', 'sepc', 'a0', 'a1'] * (len(given) // 4)
        starts = [i for i, (k, _) in enumerate(lines) if k == 'scause'] + [len(lines)]
        if traps and traps < len(starts):
            lines, given = lines[:starts[traps]], given[:4 * traps]
        rows.append(f'equal (gave begun ({numerals(int(n, 16) for _, n in lines)})) ({numerals(int(n, 16) for _, n in given)})')
    return together(text, rows, size)


def whole(mods, names, skip):
    """Stored captures, byte by byte; where asked, the sound lines before the damage by their numbers, which is quicker."""
    text = f"""use Prim.Native.Char.{{code}}
use Prim.Native.String.{{String, [] as none, _∷_ as _then_}}
use {SPECS}declared.State.{{State}}
use {SPECS}declared.Step.{{Step}}
use {SPECS}{home(mods, 'replay_of')}.{{begun, end_gives, number_taken, output_of, replay_of, state_after, text_of}}
""" + HEAD + """
abbrev raw : String → List ℕ
raw none = []
raw (c then s) = code c ∷ raw s

abbrev put : Step → (State → List ℕ) → List ℕ
put s on = text_of s.gives ++ on s.state

abbrev behind : State → List ℕ → List ℕ → List ℕ
behind s [] rest = output_of s rest ++ text_of (end_gives (state_after s rest).progress)
behind s (n ∷ l) rest = put (number_taken s n) (λ t. behind t l rest)
"""

    def quoted(data):
        if all(b == 10 or 32 <= b < 127 and b not in b'"\\' for b in data):
            return '(raw "' + data.decode().replace('\n', '\\n') + '")'
        return f'({numerals(data)})'
    rows = []
    for name in names:
        capture, replay = (open(f'{ROOT}/crates/test_replays/data/damaged/{name}.{end}', 'rb').read() for end in ['capture', 'replay'])
        lines = capture.split(b'\n')
        bad = re.search(rb'bad=([0-9a-f]{16})\n$', replay)
        front = []
        for line in lines[:max(0, (int(bad.group(1), 16) if bad else len(lines) - 1) - 2)] if skip else []:
            if not re.fullmatch(rb'[a-z0-9]+=[0-9a-f]{16}', line):
                break
            front.append(int(line.split(b'=')[1], 16))
        rest = b'\n'.join(lines[len(front):])
        got = f'behind begun ({numerals(front)}) {quoted(rest)}' if skip else f'replay_of {quoted(capture)}'
        rows.append(f'equal ({got}) {quoted(replay)}')
    return together(text, rows, 8)


def damaged():
    return sorted(f[:-8] for f in os.listdir(f'{ROOT}/crates/test_replays/data/damaged') if f.endswith('.capture'))


def table_of(mods, name):
    """A table of cases that stands in the repository, with every definition open."""
    module = next(m for m in mods.values() if re.search(rf'^{name} : List Row', m.text, re.M))
    text = re.sub(r'^(?=[a-z]+ : (?!T ))', 'abbrev ', module.text, flags=re.M)
    return renamed(re.sub(r'^unfolding .*\n', '', re.sub(r'^unfoldable ', 'abbrev ', text, flags=re.M), flags=re.M))


def reached(mods, texts):
    """The modules that the equations rest on."""
    short = {m.short: m for m in mods.values()}
    todo = [n for t in texts for n in re.findall(r'^use Rattle\.d\.specs\.(?!declared)(\w+)', t, re.M)]
    found = {}
    while todo:
        m = short[todo.pop()]
        if m.short not in found:
            found[m.short] = m
            todo += [camel(c) + n for c, n in m.uses]
    return [m for m in mods.values() if m.short in found]


def pieces():
    """The files of the scratch crate, of the damaged captures beside it, and the definitions that calls rest on."""
    mods = modules()
    calls, rows = listed(mods)
    equations = {'Marked': table_of(mods, 'marked'), 'Further': table_of(mods, 'further'), 'Vectors': vectors(mods), 'Listed': calls, 'Rows': rows, 'Published': published(mods), 'Sound': whole(mods, ['sound'], False)}
    used = reached(mods, equations.values())
    files = {'crate/src/lib.rt': declared()[0], 'Damaged.antt': whole(mods, damaged(), True)}
    files.update({f'crate/specs/{m.short}.antt': opened(m) for m in used})
    files.update({f'crate/specs/{name}.antt': text for name, text in equations.items()})
    files['calls'] = '\n'.join(m.short for m in reached(mods, [equations[n] for n in ['Marked', 'Vectors', 'Listed', 'Rows']]))
    files['crate/specs/Lib.antt'] = ''.join(f'pub mod {n}\n' for n in [m.short for m in used] + list(equations))
    return used, files


def kept(name):
    return read(f'{WORK}/{name}') if os.path.exists(f'{WORK}/{name}') else ''


def make(anew=True):
    """The folder crate, with all of it accepted, and clean, what its check left to load. Gives what they are known by."""
    began = time.time()
    used, files = pieces()
    key = digest(files)
    if not anew and kept('made') == key:
        return key
    for name in ['crate', 'clean', 'inc']:
        shutil.rmtree(f'{WORK}/{name}', ignore_errors=True)
    write(f'{WORK}/made', '')
    for name, text in files.items():
        write(f'{WORK}/{name}', text)
    said = check('clean')
    # another command's own lines go to standard output
    out = sys.stdout if anew else sys.stderr
    print(f'{len(used)} files of definitions, {sum(len([b for b in m.blocks() if b[2]]) for m in used)} definitions', file=out)
    print(said[-1] if said else 'nothing was said', f'({time.time() - began:.0f} s)', file=out)
    if 'logic=proved' not in '\n'.join(said):
        print('\n'.join([line[:300] for line in said if 'error' in line][:5]), file=out)
        raise SystemExit(1)
    write(f'{WORK}/made', key)
    return key


def check(inc, crate='crate', seconds=SECONDS):
    kit = subprocess.run([f'{ROOT}/tools/kit'], stdout=subprocess.PIPE, text=True, check=True).stdout.strip()
    words = [f'{kit}/bin/rattle', 'check', '--crate-name', 'd', f'{WORK}/{crate}/src/lib.rt', '--extern', f'std={kit}/rlibs/std.rlib',
             '-L', f'dependency={kit}/rlibs', '--antt-project', f'{kit}/rattle/logic/antt-project.json', '--logic-built', f'{kit}/logic_built',
             '--incremental', f'{WORK}/{inc}']
    try:
        ran = subprocess.run(['sh', '-c', 'exec nice -n 10 "$@"', 'sh'] + words, stdout=subprocess.PIPE, stderr=subprocess.STDOUT, timeout=seconds)
    except subprocess.TimeoutExpired:
        return ['no answer']
    return ran.stdout.decode('utf-8', 'replace').splitlines()


# ---- the crate that stands in the gate

def rows_of(mods):
    """The rows of the list: each a call on a record whose words are all different, but for those named."""
    calls = [(b, c, n, o, a) for b, c, n, o, a in traced()][seeded():]
    # the words that most records before a row have
    base = [max(set(w), key=w.count) for w in zip(*(b for b, *_ in calls))]
    text = listed_head(mods) + f"""
-- a record whose words are all different
abbrev spread : List ℕ
spread = {numerals(base)}

-- places of the record, each with the word that stands there
abbrev put : List ℕ → List ℕ → List ℕ
put r [] = r
put r (i ∷ []) = []
put r (i ∷ w ∷ l) = put (set r i w) l

-- a call on the record with some words put: the word returned, the words given, and what it changes
abbrev gives : (List ℕ → List ℕ) → List ℕ → ℕ → List ℕ → List ℕ → Bool
gives call before code out after = equal (call (put spread before)) (wanted code (put (replicate 8 0) out) (put (put spread before) after))

-- the same, of the exported entry too
abbrev calls : (ℕ → List ℕ → List ℕ → List ℕ) → ℕ → List ℕ → List ℕ → ℕ → List ℕ → List ℕ → Bool
calls call kind numbers before code out after =
    both (gives (call kind numbers) before code out after)
    (equal (exported kind numbers (put spread before)) (told code (put (replicate 8 0) out) (put (put spread before) after)))

abbrev rows : (ℕ → List ℕ → List ℕ → List ℕ) → ℕ → List ℕ → List ℕ → ℕ → List ℕ → List ℕ → Bool
rows call kind numbers before code out after =
    both (gives (call kind numbers) before code out after) (gives (posted_out kind numbers) before code out after)
"""

    def places(old, new):
        return '(' + numerals(w for i, (x, y) in enumerate(zip(old, new)) if x != y for w in (i, hex(y) if y > 9 else y)) + ')'
    rows = []
    for before, call, code, out, after in calls:
        numbers = [hex(w) if w > 9 else w for w in numbers_of(call)]
        made = f'{MADE.get(call[0], "called")} {call[0]} ({numerals(numbers)})'
        rows.append(f'{"rows" if call[0] == 15 else "calls"} {made} {places(base, before)} {hex(code)} {places([0] * 8, out)} {places(before, after)}')
    return together(text, rows, len(rows))


def housed(mods, text):
    """Equations over the repository's own crates, each with every definition named on its `unfolding` line."""
    short = {m.short: m for m in mods.values()}
    homes = {name: f'Rattle.{crate}.specs.declared.{module and module + "."}{name}' for crate, module, code in sources()
             for name in re.findall(r'^pub (?:struct|enum) (\w+)', code, re.M)}
    used = reached(mods, [text])
    text = text.replace(IMPORTS + SAME, IMPORTS + 'use Rattle.test_definitions.specs.Same.{both, equal}\n')
    text = re.sub(re.escape(SPECS) + r'declared\.(\w+)', lambda m: homes[m.group(1)], text)
    text = re.sub(re.escape(SPECS) + r'(\w+)', lambda m: f'Rattle.{short[m.group(1)].crate}.specs.{short[m.group(1)].name}', text)
    names, lines = [], ''
    for m in used:
        own = [b[3] for b in m.blocks() if b[2] == 'unfoldable']
        if own:
            alias = 'the' + m.short
            lines += f'use Rattle.{m.crate}.specs.{m.name} as {alias}\n'
            names += [f'{alias}.{n}' for n in own]
    text = re.sub(r'^(rows_\d+ : .*\n)', lambda m: m.group(1) + 'unfolding ' + ' '.join(names) + '\n', text, flags=re.M)
    return lines + pruned(text)


def listed_files():
    """crates/test_definitions: the rows of the list, and some of the vectors and captures, for the gate. Each file with its text."""
    mods = {k: m for k, m in modules().items() if k[0] != 'test_definitions' or k[1] == 'Further'}
    about = {'Rows': ('The rows of the fixed list of calls (docs/CALLS.md): what the definitions give on each. The plain Rust program of document 01 says what is right.', rows_of(mods)),
             'Vectors': ('Every fortieth of the vectors and some of all 16-bit words (docs/VECTORS.md): what the definitions give. objdump and qemu say what is right.', vectors(mods, 40, 10 ** 6)),
             'Captures': ('The first four traps of each stored capture of the published Rust (docs/CAPTURES.md), by the numbers of its lines.', published(mods, 4, 10 ** 6))}
    files = {name: f'-- {said}\n-- tools/definitions.py listed writes this file.\n' + housed(mods, text) for name, (said, text) in about.items()}
    files['Same'] = pruned('-- Lists of numbers compared, by computing.\n-- tools/definitions.py listed writes this file.\n' + IMPORTS + SAME.replace('abbrev', 'abbrev pub'))
    files['Lib'] = ''.join(f'pub mod {n}\n' for n in ['Same', 'Further', *about])
    return {f'crates/test_definitions/specs/{name}.antt': text for name, text in files.items()}


def write_listed():
    for path, text in listed_files().items():
        write(f'{ROOT}/{path}', text)


def check_listed():
    """A row that is gone leaves a crate that is proved, so the rows are held to what makes them; their imports of the library, which
    `rt tidy` writes too, may be laid out otherwise."""
    own = lambda text: re.sub(r'^use Rattle\.std\..*\n', '', text, flags=re.M)
    wrong = [path for path, text in listed_files().items() if not os.path.exists(f'{ROOT}/{path}') or own(read(f'{ROOT}/{path}')) != own(text)]
    for path in wrong:
        print(f'{path} is not what tools/definitions.py listed writes')
    print(f'crates/test_definitions: {len(wrong)} files differ from what makes them')
    raise SystemExit(1 if wrong else 0)



# ---- the mutants

TOKEN = re.compile(r'(?P<comment>--.*)|(?P<text>"[^"]*")|(?P<number>0x[0-9A-Fa-f_]+|[0-9][0-9_]*)(?![^\s(){};])|(?P<field>\.(?:[a-z]\w*|0))'
                   r'|(?P<mark>[(){};])|(?P<word>(?:(?!\.[a-z])[^\s(){};"])+)')
OPERATORS = {'+', '-', '*', '/', '%', '^', '++', '∷', '=', '∙'}


class Body:
    """The right side of a clause: its applications, records, lists and leaves, as places in the file."""

    def __init__(self, text, start, end):
        self.text = text
        self.tokens = [(m.lastgroup, m.start(), m.end()) for m in TOKEN.finditer(text, start, end) if m.lastgroup != 'comment']
        self.apps, self.records, self.lists, self.leaves, self.signs = [], [], [], [], []
        self.at = 0
        while self.at < len(self.tokens):
            self.expression()
            self.at += 1

    def word(self, place):
        return self.text[place[0]:place[1]]

    def peek(self):
        return self.tokens[self.at] if self.at < len(self.tokens) else (None, 0, 0)

    def expression(self):
        """Up to a closing mark: operands that stand between operators."""
        first, atoms, operands, signs = None, [], [], []
        while self.at < len(self.tokens):
            kind, a, b = self.peek()
            word = self.text[a:b]
            if kind == 'mark' and word in ')};':
                break
            if kind == 'word' and word in OPERATORS:
                operands.append(atoms)
                signs.append((a, b))
                atoms = []
                self.at += 1
                continue
            atoms.append(self.atom())
        operands.append(atoms)
        operands = [o for o in operands if o]
        for o in operands:
            if len(o) > 1:
                self.apps.append(o)
        self.signs += [s for s in signs if self.word(s) != '=']
        if signs and all(self.word(s) == '∷' for s in signs):
            self.lists.append([(o[0][0], o[-1][1]) for o in operands])
        spans = [(o[0][0], o[-1][1]) for o in operands]
        return (spans[0][0], spans[-1][1]) if spans else None

    def atom(self):
        kind, a, b = self.peek()
        word = self.text[a:b]
        self.at += 1
        if kind == 'mark' and word == '(':
            self.expression()
            b = self.peek()[2]
            self.at += 1
        elif kind == 'word' and word == 'record' and self.text[self.peek()[1]] == '{':
            self.at += 1
            values = []
            while self.at < len(self.tokens) and self.text[self.peek()[1]] != '}':
                name = self.peek()
                self.at += 2
                value = self.expression()
                values.append((self.text[name[1]:name[2]], value))
                if self.text[self.peek()[1]] == ';':
                    self.at += 1
            b = self.peek()[2]
            self.at += 1
            self.records.append(values)
        else:
            self.leaves.append((kind, a, b))
        while self.peek()[0] == 'field':
            self.leaves.append(self.peek())
            b = self.peek()[2]
            self.at += 1
        return (a, b)


def imported(text, library, name):
    """The file with a name of a library in its use lines."""
    line = re.search(r'^use ' + re.escape(library) + r'\.\{([^}]*)\}', text, re.M)
    if not line:
        return f'use {library}.{{{name}}}\n' + text
    if name in [n.strip() for n in line.group(1).split(',')]:
        return text
    return text[:line.end(1)] + ', ' + name + text[line.end(1):]


RUST = {'u64': 'ℕ', 'usize': 'ℕ', 'u32': 'ℕ', 'bool': 'Bool'}
LIBRARY = {'eqb': 'ℕ → ℕ → Bool', 'leb': 'ℕ → ℕ → Bool', 'ltb': 'ℕ → ℕ → Bool', 'get_or': 'List ℕ → ℕ → ℕ → ℕ', 'set': 'List ℕ → ℕ → ℕ → List ℕ',
           'take': 'ℕ → List ℕ → List ℕ', 'drop': 'ℕ → List ℕ → List ℕ', 'length': 'List ℕ → ℕ', 'bit_or': 'ℕ → ℕ → ℕ', 'bit_and': 'ℕ → ℕ → ℕ',
           'and': 'Bool → Bool → Bool', 'or': 'Bool → Bool → Bool', 'not': 'Bool → Bool', 'wrapped': 'ℕ → ℕ', 'replicate': 'ℕ → ℕ → List ℕ',
           'sets': 'List ℕ → ℕ → List ℕ → List ℕ', 'true': 'Bool', 'false': 'Bool', '[]': 'List ℕ'}


def arrows(kind):
    """A type's parts, from argument to result."""
    parts, depth, last = [], 0, 0
    for m in re.finditer(r'[()]|→', kind):
        if m.group(0) == '→' and depth == 0:
            parts.append(kind[last:m.start()].strip())
            last = m.end()
        depth += {'(': 1, ')': -1}.get(m.group(0), 0)
    return parts + [kind[last:].strip()]


def plain(rust):
    return 'List ℕ' if rust.startswith('[') else RUST.get(rust, rust)


class Typing:
    """The type of a part of a clause, where it is plain from its words; else None. The checker has the last word."""

    def __init__(self, names, variants, structs, enums, params):
        self.names, self.variants, self.structs, self.enums, self.params = names, variants, structs, enums, params

    def of(self, text):
        text = text.strip()
        body = Body(text, 0, len(text))
        if not body.tokens:
            return None
        if re.match(r'record\b', text):
            return None
        if len(body.tokens) > 1 and body.text[body.tokens[0][1]] == '(' and self.closed(body):
            return self.of(text[1:-1])
        level = self.top(body)
        if any(t in OPERATORS - {'∷', '++', '='} for t in level):
            return 'ℕ'
        if '∷' in level or '++' in level:
            return 'List ℕ'
        kind, a, b = body.tokens[0]
        # projections behind the only atom
        fields = []
        while body.tokens and body.tokens[-1][0] == 'field' and self.single(body):
            fields.insert(0, text[body.tokens[-1][1] + 1:body.tokens[-1][2]])
            body = Body(text, 0, body.tokens[-1][1])
        if fields:
            got = self.of(text[:body.tokens[-1][2]])
            for f in fields:
                got = next((plain(t) for n, t in self.structs.get(got, []) if n == f), 'ℕ' if f == '0' else None)
            return got
        if kind == 'number':
            return 'ℕ'
        head = text[a:b]
        if head == 'pick':
            whole = max(body.apps, key=lambda app: app[-1][1] - app[0][0])
            return self.of(text[whole[2][0]:whole[2][1]])
        if '.' in head and head.split('.')[0] in self.variants:
            return self.variants[head.split('.')[0]]
        found = self.params.get(head) or self.names.get(head) or LIBRARY.get(head)
        if not found:
            return None
        args = 0
        for app in body.apps:
            if app[0][0] == a:
                args = len(app) - 1
        parts = arrows(found)
        return ' → '.join(parts[args:]) if args < len(parts) else None

    def top(self, body):
        depth, found = 0, []
        for _, a, b in body.tokens:
            word = body.text[a:b]
            if depth == 0:
                found.append(word)
            depth += {'(': 1, '{': 1, ')': -1, '}': -1}.get(word, 0)
        return found

    def closed(self, body):
        depth = 0
        for i, (_, a, b) in enumerate(body.tokens):
            depth += {'(': 1, '{': 1, ')': -1, '}': -1}.get(body.text[a:b], 0)
            if depth == 0:
                return i == len(body.tokens) - 1
        return False

    def single(self, body):
        return not body.apps or not any(app[0][0] == body.tokens[0][1] and len(app) > 1 for app in body.apps)


def typed(pattern, kind, variants, enums):
    """The types of the names in a clause's patterns."""
    parts, params, place = arrows(kind), {}, 0
    for m in re.finditer(r'\(([^()]*)\)|(\S+)', pattern):
        if place >= len(parts) - 1:
            break
        if m.group(2):
            if re.fullmatch(r'[A-Za-z]\w*', m.group(2)) and m.group(2) not in ('true', 'false'):
                params[m.group(2)] = parts[place]
        else:
            words = m.group(1).split()
            if '∷' in words:
                params[words[0]], params[words[-1]] = 'ℕ', 'List ℕ'
            elif '.' in words[0] and words[0].split('.')[0] in variants:
                case = dict(enums[variants[words[0].split('.')[0]]]).get(words[0].split('.')[1], ())
                for n, t in zip(words[1:], case):
                    params[n] = plain(t)
        place += 1
    return params


def candidates(module, mods, structs, enums):
    """Every change of every definition of a file by rule: (definition, rule, place, old, new, the file)."""
    text = module.text
    variants = dict((alias, enum) for enum, alias in re.findall(r'declared\.(?:[a-z]\w*\.)?(\w+)\.TheVariants as (\S+)', text))
    families = [[n.strip() for n in names.split(',')] for names in re.findall(r'^use Rattle\.(?!std\.)\w+\.specs\.(?!declared)\w+\.\{([^}]*)\}', text, re.M)]
    families.append([b[3] for b in module.blocks() if b[2]])
    names = {}
    for crate, other in module.uses:
        for b in mods[crate, other].blocks():
            if b[2]:
                names[b[3]] = b[4]
    for b in module.blocks():
        if b[2]:
            names[b[3]] = b[4]
    found = []
    for start, end, modifier, name, kind in module.blocks():
        if not modifier or kind.endswith('Type 0'):
            continue

        def add(rule, edits, library=None, needs=None):
            new = text
            for a, b, put in sorted(edits, reverse=True):
                new = new[:a] + put + new[b:]
            if new == text:
                return
            first, last = min(e[0] for e in edits), max(e[1] for e in edits)
            grown = len(new) - len(text)
            old, now = ' '.join(text[first:last].split()), ' '.join(new[first:last + grown].split())
            found.append((name, rule, text.count('\n', 0, first) + 1, old, now, imported(new, library, needs) if library else new))
        for clause in re.finditer(r'^' + re.escape(name) + r'(?![^\s])(.*?)\s=\s(.*(?:\n[ ].*)*)', text[start:end], re.M):
            params = typed(clause.group(1), kind, variants, enums)
            types = Typing(names, variants, structs, enums, params)
            body = Body(text, start + clause.start(2), start + clause.end(2))
            word = body.word
            fixed = set()
            for app in body.apps:
                head = word(app[0])
                if head == 'get_or' and len(app) == 4:
                    fixed.add(app[3])
                if head == 'pick' and len(app) == 4:
                    add('branches exchanged', [(*app[2], word(app[3])), (*app[3], word(app[2]))])
                    add('test left out', [(app[0][0], app[3][1], word(app[2]))])
                    add('test left out', [(app[0][0], app[3][1], word(app[3]))])
                elif head not in ('eqb', 'and', 'or', 'both', 'bit_or', 'bit_and', 'λ'):
                    kinds = [types.of(word(p)) for p in app]
                    result = types.of(text[app[0][0]:app[-1][1]])
                    for p, q, k, l in zip(app[1:], app[2:], kinds[1:], kinds[2:]):
                        if k and k == l and not (head == 'get_or' and q == app[3]):
                            add('arguments exchanged', [(*p, word(q)), (*q, word(p))])
                    for p, k in zip(app[1:], kinds[1:]):
                        if k and k == result and not (head == 'get_or' and p != app[1]):
                            add('call left out', [(app[0][0], app[-1][1], word(p))])
            for values in body.records:
                for (_, p), (_, q) in zip(values, values[1:]):
                    if types.of(word(p)) and types.of(word(p)) == types.of(word(q)):
                        add('fields exchanged', [(*p, word(q)), (*q, word(p))])
            for items in body.lists:
                for p, q in zip(items, items[1:]):
                    if word(q) != '[]':
                        add('order exchanged', [(*p, word(q)), (*q, word(p))])
            for kind_of, a, b in body.leaves:
                leaf = text[a:b]
                if kind_of == 'number' and (a, b) not in fixed:
                    n = int(leaf.replace('_', ''), 0)
                    add('another number', [(a, b, str(n + 1))])
                    add('another number', [(a, b, str(n - 1 if n else 2))])
                if kind_of == 'text' and len(leaf) > 2:
                    add('another text', [(a, b, leaf[:-2] + ('y' if leaf[-2] != 'y' else 'z') + '"')])
                if kind_of == 'field':
                    for fields in structs.values():
                        labels = [f for f, _ in fields]
                        if leaf[1:] in labels:
                            i = labels.index(leaf[1:])
                            same = [f for f, t in fields[i + 1:] + fields[:i] if t == fields[i][1]]
                            for f in same[:1] + same[-1:]:
                                add('another field', [(a, b, '.' + f)])
                if kind_of != 'word':
                    continue
                if leaf in ('true', 'false'):
                    other = 'false' if leaf == 'true' else 'true'
                    add('another case', [(a, b, other)], 'Rattle.std.specs.Prelude', other)
                if leaf in ('eqb', 'leb', 'ltb'):
                    for other in {'eqb': ['leb', 'ltb'], 'leb': ['ltb', 'eqb'], 'ltb': ['leb']}[leaf]:
                        add('another comparison', [(a, b, other)], 'Rattle.std.specs.Prelude', other)
                if leaf in ('bit_or', 'bit_and'):
                    other = 'bit_and' if leaf == 'bit_or' else 'bit_or'
                    add('another operation', [(a, b, other)], 'Rattle.std.specs.Prelude', other)
                if '.' in leaf and leaf.split('.')[0] in variants:
                    cases = enums[variants[leaf.split('.')[0]]]
                    i = [c for c, _ in cases].index(leaf.split('.')[1])
                    same = [c for c, t in cases[i + 1:] + cases[:i] if t == cases[i][1]]
                    for c in same[:1] + same[-1:]:
                        add('another case', [(a, b, leaf.split('.')[0] + '.' + c)])
                if leaf in params:
                    for other in params:
                        if other != leaf and params[other] == params[leaf]:
                            add('another parameter', [(a, b, other)])
                if leaf in names and leaf != name and leaf not in params:
                    for family in families:
                        if leaf in family:
                            i = family.index(leaf)
                            same = [n for n in family[i + 1:] + family[:i] if n != leaf and n != name and names.get(n) == names[leaf]]
                            for n in same[:1] + same[-1:]:
                                add('another definition', [(a, b, n)])
            for a, b in body.signs:
                for other in {'+': ['-'], '-': ['+'], '/': ['%'], '%': ['/'], '*': ['+']}.get(text[a:b], []):
                    add('another operation', [(a, b, other)], 'Rattle.std.specs.Prelude', f'◌{other}◌')
    return found


def share(size):
    """How many mutants a definition gets, by how many there are of it."""
    return 1 if size <= 4 else 2 if size <= 30 else 3 if size <= 80 else 4


def order(of):
    """Candidates by rule in turn, in an order that depends on their names alone."""
    def key(c):
        return hashlib.sha256('/'.join(map(str, c[:5])).encode()).hexdigest()
    rules = {}
    for c in sorted(of, key=key):
        rules.setdefault(c[1], []).append(c)
    turns = sorted(rules, key=lambda r: hashlib.sha256((of[0][0] + r).encode()).hexdigest())
    while any(rules.values()):
        for r in turns:
            if rules[r]:
                yield rules[r].pop(0)


def plan(files=()):
    """For each definition that the lists rest on, or of these files, in the order of the crates: its file, and its candidates in
    the order in which they are tried."""
    mods = modules()
    _, structs, enums = declared()
    used = [m for m in mods.values() if (m.path in files if files else os.path.exists(f'{WORK}/crate/specs/{m.short}.antt'))]
    for m in used:
        found = {}
        for c in candidates(m, mods, structs, enums):
            found.setdefault(c[0], {}).setdefault(c[5], c)
        for name, of in found.items():
            yield m, name, list(order(list(of.values())))


def errors(said):
    found = {}
    for line in said:
        m = re.match(r'.*/specs/(\w+)\.antt:\d+:\d+: error: `([^`]*)`', line) or re.match(r'.*/specs/(\w+)\.antt:\d+:\d+: error(:) ', line)
        if m:
            found.setdefault(m.group(1), []).append(m.group(2))
    return found


def attempt(module, changed, sources, part):
    """What fails of the equations with a file changed; None where the change is refused or not answered."""
    crate, inc = f'crate.{part}', f'inc.{part}'
    for folder, origin in [(crate, 'crate'), (inc, 'clean')]:
        shutil.rmtree(f'{WORK}/{folder}', ignore_errors=True)
        shutil.copytree(f'{WORK}/{origin}', f'{WORK}/{folder}')
    write(f'{WORK}/{crate}/specs/{module.short}.antt', opened(module, changed))
    shutil.copy(f'{WORK}/Damaged.antt', f'{WORK}/{crate}/specs/Damaged.antt')
    for name in SOURCES:
        if name not in sources:
            os.remove(f'{WORK}/{crate}/specs/{name}.antt')
    names = [n for n in re.findall(r'pub mod (\w+)', read(f'{WORK}/{crate}/specs/Lib.antt')) if n not in SOURCES]
    write(f'{WORK}/{crate}/specs/Lib.antt', ''.join(f'pub mod {n}\n' for n in names + sources))
    said = check(inc, crate)
    failed = errors(said)
    if any(m not in SOURCES for m in failed):
        return None, 'refused'
    if not any(line.startswith('logic=') for line in said):
        return None, said[-1][:80]
    return failed, ''


def run(part, parts, files):
    made = make(anew=False)
    path = f'{WORK}/verdicts.{part}'
    done = {v['key']: v for v in map(json.loads, kept(f'verdicts.{part}').splitlines())}
    todo = [[module, name, iter(of[:12]), share(len(of))] for i, (module, name, of) in enumerate(plan())
            if i % parts == part and (not files or f'{module.crate}/{module.name}' in files)]
    # one of each definition first, then a second, so that a run that is stopped has some of each
    for turn in range(4):
        for module, name, of, wanted in todo:
            if turn >= wanted:
                continue
            for c in of:
                title, key = titled(module, name, c), digest(made, module.short, c[5])
                v = done.get(key) or judged(module, name, c, title, key, part)
                if key not in done:
                    with open(path, 'a', encoding='utf-8') as f:
                        f.write(json.dumps(v, ensure_ascii=False) + '\n')
                    print(v['seconds'], title[:150], '|', v['why'] or {k: len(n) for k, n in v['failed'].items()}, flush=True)
                if v['failed'] is not None:
                    break


def judged(module, name, c, title, key, part):
    began = time.time()
    # a definition that calls rest on is not seen better in a capture's bytes
    calls = module.short in read(f'{WORK}/calls').split()
    failed, why = attempt(module, c[5], SOURCES[:-2] if calls else SOURCES[:-1], part)
    if failed == {} and not calls:
        failed, why = attempt(module, c[5], ['Damaged'], part)
    return dict(key=key, name=title, crate=module.crate, module=module.name, definition=name, rule=c[1], why=why,
                failed=failed if failed is None else {k: n[:20] for k, n in failed.items()}, seconds=round(time.time() - began, 1))


# ---- the laws

def law_files():
    """Every file of every specs/ as it is, definitions and laws."""
    # a program's own types are not declared here, and a table of cases is no law
    mods = [m for m in modules().values() if os.path.exists(f'{ROOT}/crates/{m.crate}/src/lib.rt') and not re.search(r'^\w+ : List Row|^rows-', m.text, re.M)]
    files = {f'specs/{m.short}.antt': renamed(m.text) for m in mods}
    files.update({'src/lib.rt': declared()[0], 'specs/Lib.antt': ''.join(f'pub mod {m.short}\n' for m in mods)})
    return files


def make_laws():
    """The folder laws, with all of it accepted, and what its check left to load. Gives what they are known by."""
    files = law_files()
    key = digest(files)
    if kept('laws-made') == key:
        return key
    for name in ['laws', 'laws-clean']:
        shutil.rmtree(f'{WORK}/{name}', ignore_errors=True)
    write(f'{WORK}/laws-made', '')
    for name, text in files.items():
        write(f'{WORK}/laws/{name}', text)
    began = time.time()
    said = check('laws-clean', 'laws', 1200)
    print(said[-1][:200], f'({time.time() - began:.0f} s)')
    if 'logic=proved' not in '\n'.join(said):
        print('\n'.join([line[:300] for line in said if 'error' in line][:5]))
        raise SystemExit(1)
    write(f'{WORK}/laws-made', key)
    return key


def laws(files):
    """Holds the mutants that no equation notices, or those of some files, to the laws."""
    lawful = make_laws()
    done = {v['key']: v for v in map(json.loads, kept('verdicts.laws').splitlines())}
    if files:
        for module, name, of in plan(files):
            taken = 0
            for c in of[:12]:
                v = held(module, name, c, lawful, done)
                # errors in the mutant's own file are of its types
                taken += module.short not in v['laws']
                if taken == share(len(of)):
                    break
        return
    made = make(anew=False)
    unseen = {v['key'] for v in verdicts() if v['failed'] == {}}
    for module, name, of in plan():
        for c in of:
            if digest(made, module.short, c[5]) in unseen:
                held(module, name, c, lawful, done)


def held(module, name, c, lawful, done):
    title, key = titled(module, name, c), digest(lawful, module.short, c[5])
    if key in done:
        return done[key]
    began = time.time()
    for folder, origin in [('laws.0', 'laws'), ('laws-inc', 'laws-clean')]:
        shutil.rmtree(f'{WORK}/{folder}', ignore_errors=True)
        shutil.copytree(f'{WORK}/{origin}', f'{WORK}/{folder}')
    write(f'{WORK}/laws.0/specs/{module.short}.antt', renamed(c[5]))
    said = check('laws-inc', 'laws.0', 900)
    v = dict(key=key, name=title, laws={k: n[:3] for k, n in errors(said).items()}, said=said[-1][:80], seconds=round(time.time() - began, 1))
    with open(f'{WORK}/verdicts.laws', 'a', encoding='utf-8') as f:
        f.write(json.dumps(v, ensure_ascii=False) + '\n')
    print(v['seconds'], title[:140], '|', v['laws'] or v['said'], flush=True)
    return v


# ---- the table

def titled(module, name, c):
    return f'{module.crate}/{module.name}:{c[2]} {name}: {c[1]}: {c[3]} → {c[4]}'


def verdicts():
    """The verdicts of every part on the definitions as they are, each of a mutant that was taken, with the key of the laws' verdict."""
    made, lawful, found = make(anew=False), digest(law_files()), {}
    current = {digest(made, module.short, c[5]): digest(lawful, module.short, c[5]) for module, _, of in plan() for c in of}
    for name in sorted(os.listdir(WORK)):
        if re.fullmatch(r'verdicts\.\d+', name):
            for v in map(json.loads, read(f'{WORK}/{name}').splitlines()):
                if v['failed'] is not None and v['key'] in current:
                    found[v['key']] = dict(v, law=current[v['key']])
    return list(found.values())


def table():
    lawful = {v['key']: v['laws'] for v in map(json.loads, kept('verdicts.laws').splitlines())}
    columns = [('mutants', lambda v: True), ('marked cases', lambda v: 'Marked' in v['failed']), ('further cases', lambda v: 'Further' in v['failed']), ('vectors', lambda v: 'Vectors' in v['failed']),
               ('list', lambda v: {'Listed', 'Rows'} & set(v['failed'])), ('captures', lambda v: {'Published', 'Sound', 'Damaged'} & set(v['failed'])),
               ('what was added alone', lambda v: v['failed'] and not set(v['failed']) - {'Rows', 'Further'}),
               ('a law alone', lambda v: not v['failed'] and lawful.get(v['law'])), ('none', lambda v: not v['failed'] and not lawful.get(v['law']))]
    all_of = verdicts()
    print('| definitions | ' + ' | '.join(c for c, _ in columns) + ' |')
    print('|---' * (len(columns) + 1) + '|')
    for crate, module in modules():
        of = [v for v in all_of if (v['crate'], v['module']) == (crate, module)]
        if of:
            print(f'| {crate}/{module} | ' + ' | '.join(str(sum(bool(test(v)) for v in of)) for _, test in columns) + ' |')
    print('| all | ' + ' | '.join(str(sum(bool(test(v)) for v in all_of)) for _, test in columns) + ' |')
    print()
    rules = {}
    for v in all_of:
        rules[v['rule']] = rules.get(v['rule'], 0) + 1
    print(', '.join(f'{r} {n}' for r, n in sorted(rules.items(), key=lambda x: -x[1])))
    print(len({(v['crate'], v['module'], v['definition']) for v in all_of}), 'definitions')
    for v in all_of:
        if not v['failed']:
            print(v['name'], '|', 'law: ' + ', '.join(lawful[v['law']]) if lawful.get(v['law']) else 'none' if v['law'] in lawful else 'not held to the laws')


def main():
    words = sys.argv[1:]
    if words == ['make']:
        make()
    elif words == ['mutants']:
        make(anew=False)
        for module, name, of in plan():
            for c in of[:share(len(of))]:
                print(titled(module, name, c))
    elif words[:1] == ['run']:
        part, parts = map(int, words[1].split('/')) if words[1:] and re.fullmatch(r'\d+/\d+', words[1]) else (1, 1)
        run(part - 1, parts, [w for w in words[1:] if not re.fullmatch(r'\d+/\d+', w)])
    elif words == ['listed']:
        write_listed()
    elif words == ['listed', '--check']:
        check_listed()
    elif words[:1] == ['laws']:
        laws([f'crates/{w.replace("/", "/specs/")}.antt' for w in words[1:]])
    elif words == ['table']:
        table()
    else:
        raise SystemExit(__doc__)


if __name__ == '__main__':
    main()
