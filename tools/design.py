#!/usr/bin/env python3
"""Counts in src/ the places that docs/DESIGN-PASS.md speaks of. Run at the top of a tree: python3 tools/design.py [--list POINT]"""
import difflib, glob, re, sys

WANT = sys.argv[2] if len(sys.argv) > 2 and sys.argv[1] == '--list' else None
FILES = sorted(glob.glob('crates/*/src/*.rt'))


def bare(text):
    return re.sub(r'//[^\n]*', '', text)


class Fn:
    def __init__(self, path, head, name, params, result, clauses, body, doc, line):
        self.path, self.head, self.name, self.params, self.result = path, head, name, params, result
        self.clauses, self.body, self.doc, self.line = clauses, body, doc, line

    def where(self):
        return '%s:%d %s' % (self.path, self.line, self.name)


def closing(s, i, a, b):
    depth = 0
    for j in range(i, len(s)):
        if s[j] == a:
            depth += 1
        if s[j] == b:
            depth -= 1
            if depth == 0:
                return j
    return len(s) - 1


def functions(path):
    s = open(path).read()
    out = []
    for m in re.finditer(r'((?:^ *//[^\n]*\n)*)(?:^ *#[^\n]*\n)*^( *(?:pub )?(?:extern "C" )?fn (\w+)(?:<[^>]*>)?)\(', s, re.M):
        i = s.index('(', m.end(2))
        j = closing(s, i, '(', ')')
        params = s[i + 1:j]
        k = s.find('\n{', j)
        k2 = re.search(r'\{\n|\{ *[^\n]*\}\n|;\n', s[j:])
        lead = re.match(r' *', m.group(2)).group(0)
        b = re.compile(r'^' + lead + r'\{|(?<=[\w>\)\]]) \{$', re.M).search(s, j)
        if not b:
            continue
        o = s.index('{', b.start())
        e = closing(s, o, '{', '}')
        mid = s[j + 1:o]
        if re.search(r';[ \t]*$', bare(mid), re.M):
            continue  # a method that a trait declares has no body
        result = re.match(r'\s*->\s*([^\n{]+?)\s*(?:\n|$)', mid + '\n')
        out.append(Fn(path, m.group(2).strip(), m.group(3), params, result.group(1) if result else '', mid, s[o:e + 1],
                      m.group(1), s[:m.start(2)].count('\n') + 1))
    return out


FNS = [f for p in FILES for f in functions(p)]
SRC = {p: bare(open(p).read()) for p in FILES}
found = {}


def add(key, places):
    found[key] = places


def grep(rx):
    return ['%s:%d %s' % (p, s[:m.start()].count('\n') + 1, m.group(0).strip()) for p, s in SRC.items() for m in re.finditer(rx, s, re.M)]


# 1
add('1a own enums with a case that holds one value and one that holds none', [
    '%s %s' % (p, m.group(1)) for p, s in SRC.items() for m in re.finditer(r'enum (\w+) \{([^}]*)\}', s)
    if sorted(bool(re.search(r'\(', c)) for c in m.group(2).split(',') if c.strip()) == [False, True]])
add('1b structs with a flag beside what counts only where it is false', [
    '%s %s' % (p, m.group(1)) for p, s in SRC.items() for m in re.finditer(r'struct (\w+)[^{;]*\{([^}]*)\}', s) if re.search(r': bool,', m.group(2))])
add('1c answers with a number for none', [
    f.where() for f in FNS if re.match(r'(u8|u16|u32|usize)$', f.result.strip())
    and re.search(r'for none|where there is none|none where|\b51[23]\b|65535 (where|for)|n \+ 1 where|and the place where x goes in|there is no room', f.doc)])
add('1d refusals by number', grep(r'return \d+;(?=\n    \})|not_built\(\w+\)|not_scanned\(\w+\)|refused: \d+,|refused: \w+,'))
add('1e kinds by number: an order, an edition', [
    '%s %s' % (f.where(), m) for f in FNS for m in re.findall(r'\b(?:order: u(?:8|32)|word: u16|added: u16)\b', f.params)])
add('1f comparisons that answer 0, 1 or 2', [f.where() for f in FNS if 'compared' in f.doc and re.match(r'u\d+', f.result.strip())])


# 2
def shape(f):
    t = re.findall(r'[A-Za-z_]\w*|\d+|[^\s\w]', bare(f.body))
    kw = set('if else for in while loop return match let mut fn as true false'.split())
    return tuple('I' if re.match(r'[A-Za-z_]', x) and x not in kw else ('N' if x.isdigit() else x) for x in t)


groups = {}
for f in FNS:
    sh = shape(f)
    if len(sh) >= 16:
        groups.setdefault(sh, []).append(f)
add('2a functions whose bodies differ in names and numbers alone, sixteen tokens and more', [
    ' = '.join(f.where() for f in fs) for fs in groups.values() if len(fs) > 1])
names = {}
for f in FNS:
    if 'kamordast' not in f.path and f.name != 'main':
        names.setdefault(f.name, []).append(f)
add('2b functions of one name in two modules', [' = '.join(f.where() for f in fs) for fs in names.values() if len(fs) > 1])

shapes = [(f, shape(f)) for f in FNS if 'kamordast' not in f.path]
shapes = [(f, sh) for f, sh in shapes if len(sh) >= 60]
add('2c pairs of functions of sixty tokens and more whose bodies agree in four fifths', [
    f.where() + ' = ' + g.where() for i, (f, a) in enumerate(shapes) for g, b in shapes[i + 1:]
    if min(len(a), len(b)) > 0.7 * max(len(a), len(b)) and difflib.SequenceMatcher(None, a, b, autojunk=False).ratio() >= 0.8])

# 3
add('3a while loops', grep(r'^\s*while [^\n]*'))
by_index = []
for p, s in SRC.items():
    for m in re.finditer(r'for (\w+) in 0\.\.[^\n{]*\{', s):
        e = closing(s, m.end() - 1, '{', '}')
        body = s[m.end():e]
        uses = re.findall(r'\b' + m.group(1) + r'\b', body)
        plain = re.findall(r'\w\[' + m.group(1) + r'\]', body)
        if uses and len(uses) == len(plain):
            by_index.append('%s:%d for %s' % (p, s[:m.start()].count('\n') + 1, m.group(1)))
add('3b for loops that use the index for nothing but list[index]', by_index)

# 4
add('4a conversions, the larger of two, copying and comparing by hand', [
    f.where() for f in FNS if re.fullmatch(r'\{\s*\w+ as \w+\s*\}', bare(f.body)) or re.fullmatch(r'\{\s*if a < b \{ b \} else \{ a \}\s*\}', bare(f.body))]
    + grep(r'(?:for|while) [^\n]*\{\n\s*(?:let (\w+) = [\w\[\] +*.&]+;\n\s*)?\w+\[[^\]]+\] = (?:\w+\[[^\]]+\]|\1);\n(?:\s*\w+ \+= 1;\n)?\s*\}'))
add('4b functions that turn a case into a number', [f.where() for f in FNS if re.search(r'match \w+ \{[^{}]*=> \d+,[^{}]*=> \w+,\s*\}', f.body) and len(f.body) < 140])

# 5
facts = {}
for f in FNS:
    req = ' '.join(re.findall(r'requires[^{]*\{(.*?)\}\s*\n', f.clauses, re.S))
    for w in set(re.findall(r'\b([A-Z]\w+) (?=[\w(])', req)):
        facts.setdefault(w, []).append(f)
add('5a facts asked for by three functions or more', ['%s (%d)' % (w, len(fs)) for w, fs in sorted(facts.items()) if len(fs) >= 3 and w not in ('E', 'T', 'F', 'A')])
sets = [('image', 'n', 'k', 'm'), ('image', 'n', 'm'), ('t', 'n', 'k'), ('x', 'p', 'q'), ('list', 'starts', 'count'), ('parent', 'last', 'long'),
        ('image', 'begins', 'records', 'k'), ('def', 'order', 'n'), ('place', 'left', 'wait'), ('to', 'hop'), ('d', 'tree', 'n'), ('weights', 'n'), ('out', 'at'), ('b', 'at', 'n')]
trav = []
for f in FNS:
    ps = re.findall(r'(\w+):', f.params)
    for st in sets:
        if all(x in ps for x in st):
            trav.append('%s (%s)' % (f.where(), ', '.join(st)))
            break
add('5b functions with parameters that travel together', trav)
add('5c functions with eight parameters and more', [f.where() for f in FNS if len(re.findall(r'\w+:', f.params)) >= 8])

# 6
add('6a an array or a slice with a length beside it', [
    f.where() for f in FNS if re.search(r'\[u\d+(?:; \d+)?\]', f.params) and re.search(r'\b(?:n|m|count|held|left|filled): usize', f.params)])
add('6b structs of parallel arrays', ['%s %s' % (p, m.group(1)) for p, s in SRC.items() for m in re.finditer(r'struct (\w+)[^{;]*\{([^}]*)\}', s) if len(re.findall(r'\[\w+; \d+\]', m.group(2))) > 1])
add('6c searches by halving', grep(r'let middle = '))

# 7
add('7 tests of a number that says which step to run', grep(r'if (?:order|word|added) (?:==|<|<=) \d+|if \d+ <=? word|if \d < order|if word < \d+'))

for key in sorted(found):
    if WANT is None:
        print('%4d  %s' % (len(found[key]), key))
    elif key.startswith(WANT):
        print(key)
        for x in found[key]:
            print('      ' + x)
if WANT is None:
    lines = sum(len(open(p).read().split('\n')) for p in glob.glob('crates/*/proofs/*/**/*.antt', recursive=True) if '/out/' not in p)
    answers = sum(len(re.findall(r'^pub [^\n]* : goal\.', open(p).read(), re.M)) for p in glob.glob('crates/*/proofs/**/Answers.antt', recursive=True))
    print('%4d  8a answers' % answers)
    print('%4d  8b lines in the proofs of functions' % lines)
    print('%4d  functions' % len(FNS))
