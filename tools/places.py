#!/usr/bin/env python3
"""Counts the places of the design pass in the crates' sources (docs/DESIGN-PASS.md).

usage: python3 tools/places.py [COMMIT]     the counts at a commit, or in the working tree
       python3 tools/places.py [COMMIT] -v  with each place
"""
import difflib, re, subprocess, sys

VERBOSE = '-v' in sys.argv
ARGS = [a for a in sys.argv[1:] if a != '-v']
COMMIT = ARGS[0] if ARGS else None


def git(*a):
    return subprocess.check_output(('git',) + a, text=True)


def files(suffix):
    names = git('ls-tree', '-r', '--name-only', COMMIT, 'crates').split() if COMMIT else git('ls-files', '-co', '--exclude-standard', 'crates').split()
    for n in sorted(names):
        if n.endswith(suffix):
            try:
                yield n, git('show', f'{COMMIT}:{n}') if COMMIT else open(n).read()
            except FileNotFoundError:
                pass


SOURCES = [(n, t) for n, t in files('.rt') if '/src/' in n]


class Fn:
    def __init__(self, path, name, text):
        self.path, self.name = path, name
        brace = re.search(r'^\s*\{$|\{$', re.sub(r'(requires|ensures)[^{\n]*\{', lambda m: m.group(0).replace('{', '<'), text), re.M)
        cut = brace.start() if brace else len(text)
        self.head, self.body = text[:cut], text[cut:]
        self.sig = re.split(r'\b(?:requires|ensures|where)\b', self.head)[0]

    def where(self):
        return f'{self.path.removeprefix("crates/")}: {self.name}'


def functions():
    for path, text in SOURCES:
        text = re.sub(r'//.*', '', text)
        for m in re.finditer(r'^([ ]*)(?:pub(?:\([a-z]+\))? )?(?:const )?(?:extern "C" )?fn (\w+).*?^\1\}$', text, re.M | re.S):
            yield Fn(path, m.group(2), m.group(0))


FNS = list(functions())


def show(title, places):
    print(f'{len(places):5}  {title}')
    if VERBOSE:
        for p in places:
            print('          ' + p)


def grep(pattern):
    out = []
    for path, text in SOURCES:
        for i, line in enumerate(text.split('\n'), 1):
            if re.search(pattern, line.split('//')[0]):
                out.append(f'{path.removeprefix("crates/")}:{i}: {line.strip()}')
    return out


# ---- 1: own enums of the shape of Option or Result, flags with a value beside, numbers for kinds
enums = []
for path, text in SOURCES:
    for m in re.finditer(r'^(?:pub )?enum (\w+) \{(.*?)^\}', text, re.M | re.S):
        if re.search(r'^\s*\w+\(', m.group(2), re.M) or re.search(r'\b(Nothing|End)\b', m.group(2)):
            enums.append((path, m.group(1)))
names = '|'.join(n for _, n in enums) or 'NONE'
show('1a own enums of the shape of Option or Result', [f'{p.removeprefix("crates/")}: {n}' for p, n in enums])
show('1b functions that answer one', [f.where() for f in FNS if re.search(r'-> (%s)\b' % names, f.sig)])
show('1c tests of a cause for Nothing', grep(r'is_refused\((?!cause: )'))
show('1d functions that write and answer by a flag whether they could', [f.where() for f in FNS if '&mut' in f.sig and re.search(r'-> bool', f.sig) and re.match(r'out_|narrow|scale|prepare|fill', f.name)])
show('1e fields that are a flag', grep(r'^\s*pub \w+: bool,'))

# ---- 2: twins
KEEP = set('if else while for in match return let mut true false as'.split())


def shape(f):
    seen, out = {}, []
    for t in re.findall(r'[A-Za-z_]\w*|0x[\w]+|\d[\w.]*|[^\s\w]', f.body):
        if re.match(r'[A-Za-z_]', t) and t not in KEEP:
            t = seen.setdefault(t, f'v{len(seen)}')
        elif re.match(r'\d', t):
            t = '0'
        out.append(t)
    return out


SHAPES = [(f, shape(f)) for f in FNS]
twins = []
for i, (f, a) in enumerate(SHAPES):
    for g, b in SHAPES[i + 1:]:
        if min(len(a), len(b)) < 24 or abs(len(a) - len(b)) > 0.15 * max(len(a), len(b)):
            continue
        s = difflib.SequenceMatcher(None, a, b, autojunk=False)
        if s.quick_ratio() >= 0.93 and s.ratio() >= 0.93:
            twins.append(f'{f.where()} ~ {g.where()}')
show('2  pairs of functions with one shape (24 tokens or more, 93 of 100 alike)', twins)

# ---- 3: loops
show('3a loops by while', grep(r'^\s*while '))
show('3b loops by for', grep(r'^\s*for '))

# ---- 4: written by hand
HAND = r'^(copy_\w+|are_same_\w+|alike|is_refused|clear|move_up|move_down|wide|cause_number|distance_of|place_number)$'
show('4  copying, comparing, filling, converting by hand', [f.where() for f in FNS if re.match(HAND, f.name)])

# ---- 5: facts and parameters
FACTS = ['file_cause file.', 'work_cause file.', 'Ready ', 'Within ', 'Proper ', 'Marked ', 'Entered ', 'Looked ', 'Sound ', 'Last ', 'journal_cause journal.', 'good_triangles ', 'Near y z', 'Indexed b', 'Listed s', '64 ≤ length file', '≤ 95']
places = []
for fact in FACTS:
    who = [f for f in FNS if any(fact in c for c in re.findall(r'requires[^{]*\{(.*?)(?=requires|ensures|$)', f.head, re.S))]
    if len(who) >= 3:
        places += [f'{fact.strip()}: {f.where()}' for f in who]
show('5a functions that require a fact which three or more require', places)
many = [f.where() for f in FNS if len(re.findall(r'\w+: ', f.sig.split('->')[0])) >= 7]
show('5b functions of seven parameters or more', many)

# ---- 6: buffers with lengths beside
show('6  a slice with its length beside it', [f.where() for f in FNS if re.search(r'\w+: &(mut )?\[\w+\],\s*(\w+: &[^,]*,\s*)*(n|len|k): (usize|u32)', f.sig)])

# ---- 7: switches
show('7  functions that match on a kind of step', [f.where() for f in FNS if re.search(r'\bmatch (kind|form|axis)\b', f.body)])

# ---- 8: proofs
answers = [(n, t) for n, t in files('.antt') if n.endswith('Answers.antt')]
show('8a proof files of functions', [n for n, _ in answers])
print(f'{sum(len(re.findall(r"^pub [^ ]+ : goal", t, re.M)) for _, t in answers):5}  8b answers in them')
print(f'{sum(t.count(chr(10)) for n, t in files(".antt") if "/proofs/" in n):5}  8c lines of proofs')
print(f'{len(FNS):5}  functions, {sum(t.count(chr(10)) for _, t in SOURCES)} lines of source')
