#!/usr/bin/env python3
# Respells the repository's own antt names as the kit's style wants them: definitions, lemmas, fields and locals in
# snake case, with a dash only between two names. It was run once, after port.py, when the crates moved to the new kit.
#
# Usage: respell.py [ROOT]. The table is respell.tsv beside this script; where it is missing it is made anew.
import collections
import glob
import os
import re
import sys

ROOT = sys.argv[1] if len(sys.argv) > 1 else '.'
TABLE = os.path.join(os.path.dirname(os.path.abspath(__file__)), 'respell.tsv')

WORD = re.compile(r'[^\s(){}.,;"`\[\]]+')
MODIFIER = {'abbrev', 'unfoldable', 'pub'}
# Names of the library that a dash joins to others.
LIBRARY = {'length', 'take', 'drop', 'append', 'set', 'get_or', 'map', 'max', 'min', 'ltb', 'leb', 'eqb', 'suc'}
# Names of the repository that are plain words in the names of its lemmas.
PLAIN = {'at', 'first', 'here', 'most', 'not', 'one', 'same', 'some', 'two'}
# Fields of records that the toolchain makes, where a proof writes such a record.
MADE = {'gather-arg', 'gather-arg2'}
# New names that no rule gives.
CHOSEN = {
    'None-passes': 'none_passes',
    'classesOf': 'classes_of_two',
    'countsOf': 'counts_in_front',
    'defaultsOf': 'default_bytes',
    'entriesOf': 'stored_entries',
    'sameLength': 'length_kept',
    'statesOf': 'states_in_word',
    'worstOf': 'worst_hops',
}


def read(path):
    with open(path, encoding='utf8') as f:
        return f.read()


def camel(t):
    return re.match(r'[a-z][^\s-]*[a-z0-9][A-Z]', t) is not None


def dashed(t):
    return re.match(r'(?=[A-Za-zα-ωΑ-Ω])\S*[^\s-]-[^\s>-]', t) is not None


def older(t):
    if t in MADE or t.endswith('-spec') or t.startswith('#') or '·' in t:
        return False
    return dashed(t) or camel(t)


# The code of a line, and the comment behind it.
def halves(line):
    if line.lstrip().startswith('--'):
        return '', line
    m = re.search(r'\s--(\s|$)', line)
    return (line[:m.start()], line[m.start():]) if m else (line, '')


def module_of(path):
    # crates/C/specs/A/B.antt is Rattle.C.specs.A.B
    parts = path[:-len('.antt')].split('/')
    return '.'.join(['Rattle'] + parts[1:])


class File:
    def __init__(self, path):
        self.path = path
        self.text = read(os.path.join(ROOT, path))
        self.module = module_of(path)
        self.uses = []        # (module, name, alias or None)
        self.aliases = {}     # alias of a module, the module
        self.names = set()    # declared by a type, anywhere
        self.tops = set()
        self.fields = set()
        self.cases = set()
        self.types = set()
        self.answers = set()
        self.lemmas = set()
        self.ties = False     # a proof of a function
        inside = None
        for line in self.text.split('\n'):
            code = halves(line)[0]
            if not code.strip():
                continue
            indent = len(code) - len(code.lstrip())
            if inside and indent <= inside[1]:
                inside = None
            m = re.match(r'\s*(?:pub )?use (\S+?)(?:\.\{(.*)\})?(?: as (\S+))?\s*$', code)
            if m:
                if m.group(2) is None:
                    self.aliases[m.group(3) or m.group(1).split('.')[-1]] = m.group(1)
                    self.ties |= m.group(3) == 'tie'
                else:
                    for item in m.group(2).split(','):
                        w = item.split()
                        if w:
                            self.uses.append((m.group(1), w[0], w[2] if len(w) == 3 else None))
                continue
            words = code.split()
            while words and words[0] in MODIFIER:
                words = words[1:]
            if not words:
                continue
            if words[0] in ('record', 'data') and re.search(r'\bwhere\s*$', code):
                self.names.add(words[1])
                self.types.add(words[1])
                self.tops.add(words[1])
                inside = (words[0], indent)
                continue
            names = []
            while words and WORD.fullmatch(words[0]) and words[0] not in (':', '=', 'let', 'module', 'open'):
                names.append(words.pop(0))
            if names and words and words[0] == ':':
                kind = ' '.join(words[1:])
                for n in names:
                    self.names.add(n)
                    if inside:
                        (self.fields if inside[0] == 'record' else self.cases).add(n)
                    else:
                        self.tops.add(n)
                        if kind.startswith('tie.') and not ('→' in kind and camel(n)):
                            self.answers.add(n)
                        elif re.search(r'Type [01]$', kind):
                            self.types.add(n)
                        elif re.search(r'≡|≤|<|×|⊎', kind):
                            self.lemmas.add(n)


FILES = {}
for p in sorted(glob.glob(os.path.join(ROOT, 'crates/*/specs/**/*.antt'), recursive=True)
                + glob.glob(os.path.join(ROOT, 'crates/*/proofs/**/*.antt'), recursive=True)):
    q = os.path.relpath(p, ROOT)
    FILES[q] = File(q)
MODULES = {f.module: f for f in FILES.values()}
FIELDS = set().union(*(f.fields for f in FILES.values()))
# The Rust functions, as the steps of a proof are named after them.
STEPS = set(n.replace('_', '-') for p in glob.glob(os.path.join(ROOT, 'crates/**/*.rt'), recursive=True)
            for n in re.findall(r'\bfn (\w+)', read(p)))


# The names that a file has from elsewhere, and its answers: they stay.
def kept(f):
    s = set(f.answers)
    for module, name, alias in f.uses:
        own = MODULES.get(module)
        if own is None:
            s.add(alias or name)
        elif name in own.answers:
            s.add(name)
            if alias:
                s.add(alias)
    s |= set(f.aliases)
    return s


# The words of a line of antt, with what to do with each: (start, end, word, place), place one of plain, field, other.
def places(f, code):
    m = re.match(r'\s*(?:pub )?use (\S+?)\.\{', code)
    if m:
        if m.group(1) not in MODULES:
            return []
        own = MODULES[m.group(1)]
        return [(w.start() + m.end(), w.end() + m.end(), w.group(), 'plain') for w in WORD.finditer(code[m.end():])
                if w.group() not in own.answers]
    if re.match(r'\s*(pub )?use ', code):
        return []
    out = []
    head, end = None, -1
    for w in WORD.finditer(code):
        t = w.group()
        if w.start() > 0 and code[w.start() - 1] == '.' and (w.start() > 1 and not code[w.start() - 2].isspace()) and not code[w.start() - 1:w.start() + 1].isspace():
            if end != w.start() - 1:
                head = ')'
            if head in ('tie', 'goal'):
                place = 'other'
            elif f is not None and head in f.aliases:
                place = 'plain!' if f.aliases[head] in MODULES else 'other'
            elif t not in FIELDS or f is not None and f.ties and t in STEPS:
                place = 'other'
            else:
                place = 'field'
        else:
            head = t
            place = 'plain'
        end = w.end()
        out.append((w.start(), w.end(), t, place))
    return out


def snake(t):
    t = t.replace('getD', 'get_or')
    return re.sub(r'(?<=[a-z0-9])([A-Z])(?=([a-z])|)', lambda m: '_' + (m.group(1).lower() if m.group(2) else m.group(1)), t)


def make():
    olds = collections.defaultdict(set)
    residue = collections.defaultdict(set)
    for f in FILES.values():
        keep = kept(f)
        bound = set(f.names)
        for module, name, alias in f.uses:
            if module in MODULES:
                bound.add(alias or name)
        for line in f.text.split('\n'):
            for a, b, t, place in places(f, halves(line)[0]):
                if not older(t) or place == 'other' or place == 'plain' and t in keep:
                    continue
                olds[t].add(f.path)
                if place == 'plain' and t not in bound and t not in FIELDS:
                    residue[t].add(f.path)
    for t, fs in sorted(residue.items()):
        print('local', t, len(fs), sorted(fs)[0], file=sys.stderr)
    specs = set(LIBRARY)
    lemmas = set()
    for f in FILES.values():
        if re.match(r'crates/[^/]*/specs/', f.path):
            specs |= {snake(n) for n in f.tops if '-' not in n and n not in f.lemmas}
        lemmas |= f.lemmas
    specs -= PLAIN
    taken = set()
    for f in FILES.values():
        for line in f.text.split('\n'):
            taken |= set(WORD.findall(halves(line)[0]))
    for p in sorted(glob.glob(os.path.join(ROOT, 'crates/**/*.rt'), recursive=True)):
        for line in read(p).split('\n'):
            for t in re.findall(r' as ([^\s,}]+)', line) if line.startswith('ghost use ') else []:
                if camel(t):
                    olds[t].add(os.path.relpath(p, ROOT))
            if not line.lstrip().startswith('//'):
                taken |= set(re.findall(r'\w+', line)) | set(WORD.findall(line))
    table = {}
    for old in sorted(olds):
        parts = [snake(x) for x in old.split('-')]
        new = parts[0]
        for a, b in zip(parts, parts[1:]):
            new += ('-' if a in specs and b in specs else '_') + b
        if old in CHOSEN:
            new = CHOSEN[old]
        if new == old:
            continue
        if new in taken:
            lemma = old in lemmas or '-' in old
            other = new + ('_lem' if lemma else '_of')
            while other in taken:
                other += "'"
            print('collision', old, new, '->', other, sorted(olds[old])[0], len(olds[old]), 'field' if old in FIELDS else '', file=sys.stderr)
            new = other
        taken.add(new)
        table[old] = new
    return table


if os.path.exists(TABLE):
    MAP = dict(line.split('\t') for line in read(TABLE).split('\n') if line)
else:
    MAP = make()
    with open(TABLE, 'w', encoding='utf8') as f:
        f.write(''.join('%s\t%s\n' % p for p in sorted(MAP.items())))


def put(text, changes):
    for a, b, new in reversed(changes):
        text = text[:a] + new + text[b:]
    return text


# Inside backticks.
def ticked(text):
    return re.sub(r'`([^`\n]*)`', lambda m: '`' + WORD.sub(lambda w: MAP.get(w.group(), w.group()), m.group(1)) + '`', text)


def antt(f, code, keep):
    changes = []
    for a, b, t, place in places(f, code):
        if t not in MAP or place == 'other' or place == 'plain' and t in keep:
            continue
        changes.append((a, b, MAP[t]))
    return put(code, changes)


def antt_line(f, line, keep):
    code, comment = halves(line)
    return antt(f, code, keep) + ticked(comment)


# The clauses of Rust: ghost uses, clauses and ghost items.
def clause(line):
    head = re.match(r'(\s*ghost use )(.*)$', line)
    if head:
        m = re.match(r'(\S+?)\.\{(.*)', head.group(2))
        if not m or m.group(1) not in MODULES:
            return line
        return head.group(1) + m.group(1) + '.{' + WORD.sub(lambda w: MAP.get(w.group(), w.group()), m.group(2))
    return None


def rust(text):
    out = []
    depth = 0
    stays = set()
    for line in text.split('\n'):
        m = re.match(r'\s*ghost use (\S+?)\.\{(.*)\};', line)
        if m and m.group(1) not in MODULES:
            stays |= set(x.split()[-1] for x in m.group(2).split(','))
    for line in text.split('\n'):
        if line.lstrip().startswith('//'):
            out.append(ticked(line))
            continue
        used = clause(line)
        if used is not None:
            out.append(used)
            continue
        inside = depth > 0
        if inside or re.match(r'\s*(requires|ensures|invariant|decreases|ghost|#\[)', line):
            body = line if inside else line[line.index(line.lstrip()):]
            lead = line[:len(line) - len(body)]
            depth += body.count('{') - body.count('}')
            if depth < 0:
                depth = 0
            body = antt(None, body, stays)
            out.append(lead + body)
        else:
            out.append(line)
    return '\n'.join(out)


def write(path, old, new):
    if new != old:
        with open(path, 'w', encoding='utf8') as f:
            f.write(new)


for f in FILES.values():
    keep = kept(f)
    write(os.path.join(ROOT, f.path), f.text, '\n'.join(antt_line(f, line, keep) for line in f.text.split('\n')))
for p in sorted(glob.glob(os.path.join(ROOT, 'crates/**/*.rt'), recursive=True)):
    text = read(p)
    write(p, text, rust(text))
for p in sorted(glob.glob(os.path.join(ROOT, 'crates/*/must-fail/*.edit'))):
    text = read(p)
    target = re.search(r'^file: (\S+)', text, re.M).group(1)
    f = FILES.get(os.path.relpath(os.path.join(os.path.dirname(os.path.dirname(p)), target), ROOT))
    keep = kept(f) if f else set()
    lines = []
    for line in text.split('\n'):
        m = re.match(r'(old:|new:)(.*)$', line)
        if m and f:
            line = m.group(1) + antt_line(f, m.group(2), keep)
        elif m and re.search(r'requires|ensures|ghost|[≡×≤λℕ◌¬→]', m.group(2)):
            line = m.group(1) + (clause(m.group(2)) or antt(None, m.group(2), keep))
        lines.append(line)
    write(p, text, '\n'.join(lines))
for p in [os.path.join(ROOT, 'README.md')] + sorted(glob.glob(os.path.join(ROOT, 'docs/**/*.md'), recursive=True)):
    text = read(p)
    write(p, text, ticked(text))
