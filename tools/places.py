#!/usr/bin/env python3
"""Counts the places in src/ that may be written in a plainer form of Rattle, point by point (docs/DESIGN-PASS.md).

    python3 tools/places.py [-v] [ROOT]

ROOT is a checkout, this one if none is given; -v prints each place. It goes by text, so it finds candidates:
which of them are places, and which stay, is said on the page.
"""
import collections
import pathlib
import re
import sys

VERBOSE = '-v' in sys.argv
ROOT = pathlib.Path(([a for a in sys.argv[1:] if a != '-v'] or [pathlib.Path(__file__).parent.parent])[0])


class Source:
    """A file of src/, without comments."""

    def __init__(self, path):
        self.name = str(path.relative_to(ROOT / 'crates'))
        self.crate = self.name.split('/')[0]
        self.text = re.sub(r'//[^\n]*', '', path.read_text())
        self.code = re.sub(r'^ghost use [^;]*;', '', self.text, flags=re.M)

    def line(self, at):
        return self.text.count('\n', 0, at) + 1


SOURCES = [Source(p) for p in sorted(ROOT.glob('crates/*/src/**/*.rt'))]


def matches(pattern, flags=re.M | re.S):
    for s in SOURCES:
        for m in re.finditer(pattern, s.text, flags):
            yield s, m


def functions():
    """Each function: source, place, name, parameters, clauses, body."""
    head = re.compile(r'\bfn (\w+)(?:<[^(]*?>)?\(', re.S)
    for s in SOURCES:
        for m in head.finditer(s.text):
            i, depth = m.end(), 1
            while depth:
                depth += {'(': 1, ')': -1}.get(s.text[i], 0)
                i += 1
            params, j = s.text[m.end():i - 1], i
            clauses, body = '', ''
            while j < len(s.text) and s.text[j] not in '{;':
                j += 1
            while j < len(s.text) and s.text[j] == '{':
                k, depth = j + 1, 1
                while depth:
                    depth += {'{': 1, '}': -1}.get(s.text[k], 0)
                    k += 1
                before = s.text[i:j].split('}')[-1]
                if re.search(r'\b(requires|ensures)\b', before):
                    clauses += before + s.text[j:k]
                    i = k
                    j = k
                    while j < len(s.text) and s.text[j].isspace():
                        j += 1
                    rest = re.match(r'(requires|ensures)\b[^{]*', s.text[j:])
                    if rest:
                        j += rest.end()
                    elif j >= len(s.text) or s.text[j] != '{':
                        break
                else:
                    body = s.text[j:k]
                    break
            yield s, m.start(), m.group(1), params, clauses, body


FUNCTIONS = list(functions())
POINTS = collections.OrderedDict()


def place(point, what, s, at, text):
    POINTS.setdefault(point, collections.OrderedDict()).setdefault(what, []).append(
        '%s:%d: %s' % (s.name, s.line(at), ' '.join(text.split())[:90]))


def find(point, what, pattern):
    POINTS.setdefault(point, collections.OrderedDict()).setdefault(what, [])
    for s, m in matches(pattern):
        place(point, what, s, m.start(), m.group(0))


def enums():
    for s, m in matches(r'\benum (\w+)(?:<[^>]*>)? \{(.*?)\n\}'):
        variants = [v.strip().rstrip(',') for v in re.split(r',\s*\n', m.group(2)) if v.strip().rstrip(',')]
        if len(variants) == 2 and all(re.fullmatch(r'\w+\([^,()]*(<.*>)?\)', v) for v in variants):
            place(1, 'enum of two variants that hold one value each', s, m.start(), m.group(0))


def shapes():
    """Functions of one shape: the same tokens but for names, numbers and texts."""
    groups = collections.defaultdict(list)
    for s, at, name, params, clauses, body in FUNCTIONS:
        if 'tests' in s.name or len(body) < 40:
            continue
        shape = re.sub(r'b?"[^"]*"|\b\w+\b', 'x', re.sub(r'\s+', '', body))
        groups[shape].append((s, at, name))
    for members in groups.values():
        if len(members) > 1:
            for s, at, name in members:
                place(2, 'function of the shape of another', s, at, '%s (with %s)' % (name, ', '.join(n for _, _, n in members if n != name)))


def facts():
    """Bounds that stand in the contracts of three or more functions of a crate."""
    by_fact = collections.defaultdict(list)
    for s, at, name, _, clauses, _ in FUNCTIONS:
        parts = [q.strip().strip('()').strip() for c in re.findall(r'\{([^{}]*)\}', clauses) for q in c.split('×')]
        for fact in set(re.sub(r'\b[a-z]\w*(\.\w+)*\b', '_', f) for f in parts if re.search('[<≤]', f)):
            by_fact[(s.crate, fact)].append((s, at, name))
        for fact in set(re.findall(r'\b[A-Z]\w+ \([^)]*\)\.\w+', clauses)):
            by_fact[(s.crate, re.sub(r'\.(old|new|now)', '', fact))].append((s, at, name))
    for (crate, fact), members in by_fact.items():
        if len(members) > 2 and len(fact) < 60:
            for s, at, name in members:
                place(5, 'fact in three contracts or more', s, at, '%s: %s' % (name, fact))


def travellers():
    """Parameters that stand together in three functions or more of a crate."""
    pairs = collections.defaultdict(list)
    for s, at, name, params, _, _ in FUNCTIONS:
        own = [' '.join(p.split()) for p in re.split(r',(?![^<]*>)', params) if ':' in p]
        for i, p in enumerate(own):
            for q in own[i + 1:]:
                pairs[(s.crate, p, q)].append((s, at, name))
    seen = set()
    for (crate, p, q), members in pairs.items():
        if len(members) > 2:
            for s, at, name in members:
                if (s.name, at) not in seen:
                    seen.add((s.name, at))
                    place(5, 'parameters that travel together', s, at, '%s: %s, %s' % (name, p, q))


def indexed():
    for s, m in matches(r'\bfor (\w+) in [^\n]*\.\.[^\n]*\{\n(.*?)\n\s*\}'):
        if re.search(r'\[[^\]]*\b%s\b[^\]]*\]' % m.group(1), m.group(2)):
            place(3, 'for over numbers that index', s, m.start(), m.group(0))


def lemmas():
    names, texts = [], []
    for p in sorted(ROOT.glob('crates/*/proofs/**/*.antt')) + sorted(ROOT.glob('crates/*/specs/**/*.antt')):
        text = re.sub(r'--[^\n]*', '', p.read_text())
        texts.append(text)
        if '/proofs/' in str(p) and p.name not in ('Answers.antt', 'Invariants.antt', 'Lib.antt'):
            names += [(p, n) for n in re.findall(r'^(?:pub )?([^\s:|]+) : ', text, re.M)]
    texts += [s.text for s in SOURCES]
    uses = collections.Counter(w for t in texts for w in re.findall(r'[^\s(){},;.:]+', t))
    for p, n in names:
        if uses[n] <= 2:
            POINTS.setdefault(8, collections.OrderedDict()).setdefault('lemma that nothing cites', []).append('%s: %s' % (p.relative_to(ROOT / 'crates'), n))
    answers = sum(len(re.findall(r'^(?:pub )?[\w-]+ : goal\.', p.read_text(), re.M)) for p in ROOT.glob('crates/*/proofs/**/Answers.antt'))
    POINTS.setdefault(8, collections.OrderedDict())['answers in proofs/'] = [''] * answers
    POINTS[8]['lemmas in proofs/'] = [''] * len(names)


enums()
find(1, 'let .. else that hands an error or a none on', r'let [^;{]*? else \{\s*return (Err|None|Ok\(None)[^}]*\}')
find(1, 'arm that hands an error or a none on', r'\b(Err\([^)]*\)|None|Some\(_\)) => (\{\s*)?(return )?(Err\(|None\b|Ok\(None\))')
find(1, 'error found by is_err, is_none or is_some', r'\.is_(err|none|some)\(\)')
find(1, 'error made at hand of an Err that is there', r'if let Err\(')
find(1, 'error let go', r'let _ = |\.map_err\(\s*\|_\|')
find(1, 'flag among the parameters', r'\bfn \w+(<[^(]*>)?\([^)]*: bool[^)]*\)')
find(1, 'numbers for kinds', r'^(pub )?const (SET_\w+|SLEEP|WAKE|NOTHING): u8|which: usize|match which')
shapes()
find(3, 'loop that is no for and takes no next item', r'^\s*(while(?! let)|loop)\b[^\n]*')
indexed()
find(4, 'trait of std written by hand', r'^impl(<[^{]*>)? (?:[\w:]+::)?(PartialEq|Eq|PartialOrd|Ord|Hash|Clone|Copy|Default|Drop)\b[^\n]*')
find(4, 'conversion by a function of its own', r'\bfn (\w+_of|meant|transfer|plainly|\w+_number|words|weight|as_\w+)\b[^\n]*')
find(4, 'digits and words written by hand', r'\bfn (\w*digit\w*|put_\w+|write_\w+|spell|hex_\w+|octet|grant)\b[^\n]*')
facts()
travellers()
find(6, 'buffer with a length or a place beside it', r'\b(used|at): usize,|\bat: usize\b[^)\n]*\[u8\]|\[u8\], at: usize|-> \[u8; \d+\]')
find(6, 'two lists side by side', r'Vec<[^\n]*>,\n\s*(pub )?\w+: Vec<|const NAMES')
find(6, 'value taken apart to give one part', r'let \w+ \{[^}]*\w+: _[^}]*\} = self;')
find(7, 'flag or number that picks the step', r'\bif (as_data|down)\b|match which')
lemmas()

for point in sorted(POINTS):
    whats = POINTS[point]
    print('point %d: %d' % (point, sum(len(v) for k, v in whats.items() if not k.endswith('in proofs/'))))
    for what, places in whats.items():
        print('  %3d %s' % (len(places), what))
        if VERBOSE:
            for p in places:
                if p:
                    print('        ' + p)
