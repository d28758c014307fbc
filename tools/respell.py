#!/usr/bin/env python3
"""respell.py [FOLDER]: gives the repository's own definitions and lemmas the spelling of rattle-kit-13f.

It is run once, right after the kit's port.py, over the folder that has crates/. What it does:
  - a definition in camel case (`withBlock`) and a lemma or a field with dashes (`block-long`) get snake case; where a
    lemma and a definition would then share a name in one file, the lemma ends in `_lem`;
  - a definition that is a type gets upper camel case (`portWhole`);
  - plain structs and enums are `Clone, Copy`, as they were by themselves in the older language;
  - every crate asks for `tactic(auto)`;
  - the same names are respelled in clauses, in comments, in must-fail edits and in the pages of docs/.
Names of functions in src/, of the library and of goals stay as they are, and no string has one of the names.
"""
import collections, glob, os, re, sys

root = sys.argv[1] if len(sys.argv) > 1 else '.'
crates = {os.path.basename(p) for p in glob.glob(root + '/crates/*')}

def files(pattern):
    return sorted(f for f in glob.glob(root + pattern, recursive=True) if '/out/' not in f)

NAME = r"[^\s:(){}λ.;,=\[\]→≡\"]+"
DECL = re.compile(r"^[ \t]*((?:pub |abbrev |unfoldable )*)(" + NAME + r") :[ \n]", re.M)
TOKEN = re.compile(r"[A-Za-zδΣσ_◌][^\s(){}.;,@\"«»\[\]\\:λ→≡∙|`]*")
TYPES = {'portWhole': 'PortWhole'}
# two steps of the report's function and the parts of ours that they are held against stand in the same proofs
SPECIAL = {'sendIPI': 'send_IPI', 'sendEOI': 'send_EOI'}

def snake(n):
    n = n.replace('-', '_')
    n = re.sub(r'([a-z0-9])([A-Z])', r'\1_\2', n)
    n = re.sub(r'([A-Z]+)([A-Z][a-z])', r'\1_\2', n)
    return n if n[0].isupper() else n.lower()

antt = files('/crates/**/*.antt')
text = {f: open(f, encoding='utf-8').read() for f in antt}
own = collections.defaultdict(set)
in_specs = set()
for f, s in text.items():
    for m in DECL.finditer(s):
        line = s[m.end():s.find('\n', m.end())]
        if line.startswith('tie.') or 'statement M' in line: continue
        own[m.group(2)].add(f)
        if '/specs/' in f: in_specs.add(m.group(2))
library = {}
for f, s in text.items():
    taken = set()
    for m in re.finditer(r"^use ([^\s{]+)\.\{([^}]*)\}", s, re.M):
        p = m.group(1).split('.')
        if not (p[0] == 'Rattle' and p[1] in crates):
            taken |= {it.split(' as ')[-1].strip() for it in m.group(2).split(',')}
    library[f] = taken
every_library = set().union(*library.values())

to_turn = {n for n in own if ('-' in n or (re.search(r'[a-z0-9][A-Z]', n) and not n[0].isupper())) and n not in every_library}
where = {f: set(TOKEN.findall(s)) for f, s in text.items()}
table = {n: TYPES.get(n) or SPECIAL.get(n) or snake(n) for n in to_turn}
# lemmas that would have a definition's name
groups = collections.defaultdict(set)
for n in own: groups[table.get(n, n)].add(n)
for new, olds in groups.items():
    # a constructor is always named with its type, so it may have a definition's name
    if len(olds) < 2 or new == 'no_byte': continue
    meet = any(len(olds & ws) > 1 for ws in where.values())
    if not meet: continue
    stays = [n for n in olds if n in in_specs and '-' not in n] or [n for n in olds if '-' not in n]
    # the definition in specs keeps the name; a name in camel case before one in snake case
    stays.sort(key=lambda n: (n not in in_specs, '_' in n, n))
    keep = stays[0]
    for n in olds:
        if n != keep: table[n] = new + '_lem'
print(f'{len(table)} names are respelled')
for n in sorted(table):
    if table[n].endswith('_lem'): print('  _lem', n, '->', table[n])

def turn(s, skip=frozenset(), dashes=True, code=False):
    def sub(m):
        w = m.group(0)
        if w in skip or w not in table: return w
        # a function of src/ keeps its name
        if code and '-' not in w and table[w].endswith('_lem'): return w
        if not dashes and '-' in w: return w
        if table[w].endswith('_lem') and '-' not in w and s[m.start() - 1:m.start()] == '.': return w
        return table[w]
    return TOKEN.sub(sub, s)

COMMENT = re.compile(r"(--[^\n]*)")
for f, s in text.items():
    parts = COMMENT.split(s)
    out = []
    for k, p in enumerate(parts):
        if k % 2 == 0:
            out.append(turn(p, library[f]))
        else:
            p = turn(p, dashes=False)
            p = re.sub(r"`[^`\n]*`", lambda m: turn(m.group(0)), p)
            out.append(p)
    t = ''.join(out)
    if t != s: open(f, 'w', encoding='utf-8').write(t)

AUTO = '#![tactic(auto)]'
for f in files('/crates/*/src/**/*.rt'):
    s = open(f, encoding='utf-8').read()
    t = s.replace('#[derive(Drop)]', '#[derive(Clone, Copy)]')
    t = ''.join(turn(p, dashes=not p.startswith('//'), code=True) for p in re.split(r'(//[^\n]*)', t))
    if f.endswith(('/src/lib.rt', '/src/main.rt')) and AUTO not in t:
        lines = t.split('\n')
        i = 0
        while lines[i].startswith('//'): i += 1
        lines[i:i] = [AUTO] + ([''] if lines[i].strip() else [])
        t = '\n'.join(lines)
    if t != s: open(f, 'w', encoding='utf-8').write(t)

for f in files('/crates/*/must-fail/*.edit'):
    s = open(f, encoding='utf-8').read()
    out, kind = [], ''
    for l in s.split('\n'):
        if l.startswith('file:'): kind = l
        if l.startswith(('old:', 'new:')): l = turn(l, dashes=kind.endswith('.antt'), code=kind.endswith('.rt'))
        out.append(l)
    t = '\n'.join(out)
    if t != s: open(f, 'w', encoding='utf-8').write(t)

for f in files('/docs/**/*.md') + files('/*.md') + files('/oracle/*.md') + files('/examples/*.md'):
    s = open(f, encoding='utf-8').read()
    t = re.sub(r"`[^`\n]*`", lambda m: turn(m.group(0)), s)
    if t != s: open(f, 'w', encoding='utf-8').write(t)
