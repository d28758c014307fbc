#!/usr/bin/env python3
"""convert_proofs.py NAMES CRATE [FUNCTION..]: turns the Proof.antt files below CRATE/proofs to Answers.antt and
Invariants.antt.

NAMES is the names.json that `rt check --generated DIR --old-names` writes. The answers that only say what Rattle tries by itself are left out.
"""
import json, os, re, sys

names_file, crate = sys.argv[1], sys.argv[2].rstrip('/')
only = set(sys.argv[3:])
name = os.path.basename(os.path.abspath(crate))
lists = json.load(open(names_file))
by = {}
for key, of in lists.items():
    m = re.match(r'Rattle-%s-proofs\.(.*)\.Lts$' % name, key)
    if m: by[m.group(1)] = of

FN = re.compile(r"^([ \t]*)(?:pub(?:\([a-z]+\))? )?(?:unsafe )?(?:extern \"C\" )?fn (\w+)", re.M)
clause_names = {}
for c in sorted(os.listdir(os.path.join(crate, '..'))):
    for folder, _, fs in os.walk(os.path.join(crate, '..', c, 'src')):
        for f in fs:
            if not f.endswith('.rt'): continue
            text = open(os.path.join(folder, f)).read()
            starts = [(m.start(), m.group(2)) for m in FN.finditer(text)]
            for (a, n), b in zip(starts, [x for x, _ in starts[1:]] + [len(text)]):
                head = text[a:b]
                m = re.search(r"^\s*\{$", head, re.M)
                head = head[:m.start()] if m else head
                of_fn = {k: re.findall(r"^\s+%s (\w+) \{" % k, head, re.M) for k in ('requires', 'ensures')}
                clause_names.setdefault((c, n), []).append((f[:-3], of_fn))

def names_of(path, kind):
    """The names of a function's clauses of one kind, where it has several."""
    parts = path.split('::')
    got = clause_names.get((parts[0], parts[-1]))
    if not got: return []
    mods = parts[1:-1]
    best = [of_fn for stem, of_fn in got if stem in mods] or [of_fn for stem, of_fn in got if stem in ('lib', 'main')] or [got[0][1]]
    return best[0][kind]

def of_pairs(names, path):
    """Turns a way into nested pairs to the name of a clause: ['1', '0', 'x'] of three names is [second, 'x']."""
    i, path = 0, list(path)
    while i < len(names) - 1 and path:
        if path[0] == '1': i += 1; path.pop(0)
        elif path[0] == '0': path.pop(0); return [names[i]] + path
        else: return None
    return [names[i]] + path if i == len(names) - 1 else None

def elements(t):
    """The elements of a tuple's text, or None."""
    t = t.strip()
    if not (t.startswith('(') and t.endswith(')')): return None
    depth, out, cur = 0, [], ''
    for k, ch in enumerate(t):
        if ch in '([{': depth += 1
        if ch in ')]}': depth -= 1
        if depth == 0 and k < len(t) - 1: return None
        if depth == 1 and ch == ',': out.append(cur); cur = ''
        elif not (k == 0 or k == len(t) - 1): cur += ch
    out.append(cur)
    return [o.strip() for o in out]

def as_record(names, t):
    """Turns nested pairs to a record with these names, where the text shows them."""
    m = re.match(r"(\s*(?:let .* in\s+)?)(.*)$", t, re.S)
    lead, rest = m.group(1), m.group(2).strip()
    got = []
    while len(got) < len(names) - 1:
        es = elements(rest)
        if not es: return None
        if len(es) == len(names) - len(got): got += es; break
        if len(es) != 2: return None
        got.append(es[0]); rest = es[1]
    if len(got) == len(names) - 1: got.append(rest)
    if len(got) != len(names): return None
    return lead + 'record { ' + '; '.join(f'{n} = {e}' for n, e in zip(names, got)) + ' }'

def norm(s):
    return s.replace('_', '-').replace("·", "-")

PRE = re.compile(r'^(overflow|nonzero|slice-bounds|bounds|offset-bounds)-')
TRIVIAL = re.compile(r'^(search rules|omega arith|tt|refl|search \(rules, [a-z-]+\)|\(tt, tt\))$')

def split_decls(text):
    """Returns the head (comments, uses) and declarations as (comment lines, mods, name, type, rest lines)."""
    lines = text.split('\n')
    head, i = [], 0
    while i < len(lines) and (lines[i].startswith('--') or lines[i].startswith('use ') or not lines[i].strip()):
        # a comment that belongs to a declaration
        if lines[i].startswith('--'):
            j = i
            while j < len(lines) and lines[j].startswith('--'): j += 1
            if j < len(lines) and lines[j].strip() and not lines[j].startswith('use '):
                break
        head.append(lines[i]); i += 1
    decls, cur = [], []
    for l in lines[i:]:
        starts = l and not l[0].isspace() and not l.startswith('--') and re.match(r'^((abbrev|pub|unfoldable|ruleset|module) )*[^\s:]+( [^\s:]+)* :|^(pub )?(ruleset|data|record|module)', l)
        cur.append(l)
    # blocks by blank lines at column 0 starts
    blocks, b = [], []
    for l in lines[i:]:
        if not l.strip():
            if b: blocks.append(b); b = []
        else: b.append(l)
    if b: blocks.append(b)
    # a block may be the continuation (indented) of the one before
    out = []
    for b in blocks:
        if out and b[0][0].isspace(): out[-1] += [''] + b
        else: out.append(b)
    return head, out

def paths(of):
    steps, kinds = {}, {}
    for place in of['places']:
        new, parent, pair = place[0], place[1], place[2]
        if pair[0]: steps.setdefault(norm(pair[0]), []).append(pair[1])
    return steps

def convert(folder, fn, of):
    path = os.path.join(folder, 'Proof.antt')
    text = open(path).read()
    notes = []
    head, blocks = split_decls(text)
    needs = {}
    for old, new in of['needs']:
        needs.setdefault(norm(old), new)
    steps = {}
    for place in of['places']:
        if place[2][0]:
            k = norm(place[2][0])
            if k in steps and steps[k] != place[2][1]: pass
            steps.setdefault(k, place[2][1])
    placenames = {}
    for old, new in of['asked_at']:
        placenames[norm(old)] = new
    for p, n in zip(of['places'], of.get('places_by_name', [])):
        placenames.setdefault(norm(p[0]), n)
    typed = {}
    for t in of['typed']:
        for v, s in t: typed.setdefault(norm(s), v)
    loops = {}
    for k, (pair, vs) in enumerate(of['loops']):
        loops[norm(pair[0])] = (pair[1], vs, of['changed'][k] if k < len(of['changed']) else None)
    # the spec's arguments, in the order of the needs
    argn = {}
    helpers = {}
    goal_of = {}
    for b in blocks:
        s = '\n'.join(b)
        m = re.search(r'^(?:abbrev |pub )*(\S+) : \(c : tie\.([^\s)]+)', s, re.M)
        if m: helpers[m.group(1)] = norm(m.group(2))
    def new_need(old):
        k = norm(PRE.sub('', norm(old)))
        if k in needs: return needs[k]
        if norm(old) in needs: return needs[norm(old)]
        m = re.match(r'(part-)?(.*)$', k)
        for cand in ('part-' + k, 'slice-' + k, 'same-' + k):
            if cand in needs: return needs[cand]
        return None
    used_places = set()
    whole = '::'.join([name] + fn.split('.'))
    own_requires, own_ensures = names_of(whole, 'requires'), names_of(whole, 'ensures')
    callees = {q.split('::')[-1]: q for q in of['params']}
    parent = {pl[0]: pl[1] for pl in of['places']}
    index = {pl[0]: i for i, pl in enumerate(of['places'])}
    place_of = {}
    for (old, new), (where, _) in zip(of['needs'], of['asked_at']):
        place_of[new] = where
    def known(where):
        """What is known at a place: the new name of each step, the fields of each arm, and the clauses of each call."""
        chain, at = [], where
        while at is not None and at in index:
            chain.append(index[at]); at = parent[at]
        chain.reverse()
        steps2, arms, clauses, types = {}, {}, {}, {}
        for i in chain:
            callee = of['places'][i][3]
            if callee and len(names_of(callee, 'ensures')) > 1: clauses[norm(of['places'][i][2][0])] = names_of(callee, 'ensures')
            pl = of['places'][i]
            if pl[2][0]:
                steps2[norm(pl[2][0])] = pl[2][1]
                if of['clauses'][i] and norm(pl[2][0]) not in clauses: clauses[norm(pl[2][0])] = of['clauses'][i]['fields']
            arm = of['arms'][i]
            if arm:
                for field, step, path in arm[2]:
                    arms[(norm(step), tuple(path))] = f'{arm[0]}.{field}'
            for v, st in of['typed'][i]: types[norm(st)] = v
        return steps2, arms, clauses, types
    def body(t, goalname, at_lemma=None):
        # helper lemmas: low c.before.before  ->  low (goal.at.G c).PLACE
        for h, pl in helpers.items():
            place = placenames.get(pl)
            if goalname:
                t = re.sub(r"(?<![\w'-])" + re.escape(h) + r' (?:\(c\)|c(?:\.before)*)(?![\w.-])', f'{h} (goal.at.{goalname} c).{place}', t)
        where = at_lemma or place_of.get(goalname)
        steps2, arms, clauses, types = known(where) if where in index else (steps, {}, {}, typed)
        # a let that names the record of what is known
        for alias in re.findall(r"let (\w+) = c(?:\.before)* in", t):
            t = re.sub(r"let " + alias + r" = c(?:\.before)* in\s*", '', t)
            t = re.sub(r"(?<![\w'.-])" + alias + r"(?=\.)", 'c', t)
            t = re.sub(r"(?<![\w'.-])" + alias + r"(?![\w'-])", 'c', t)
        # a let that names what is required or a call's clauses
        for alias, way in re.findall(r"let (\w+) = c((?:\.[A-Za-z0-9_'-]+)+) in", t):
            parts = [p for p in way.split('.')[1:] if p != 'before']
            ns = []
            if parts == ['requires']: ns = own_requires
            elif len(parts) == 2 and parts[1] == 'ensures': ns = clauses.get(norm(parts[0]), [])
            if len(ns) > 1:
                def turn_alias(m):
                    got = of_pairs(ns, [q for q in m.group(1).split('.')[1:]])
                    return '.'.join([alias] + got) if got else m.group(0)
                t = re.sub(r"(?<![\w'.-])" + alias + r"((?:\.[A-Za-z0-9_'-]+)+)", turn_alias, t)
        def chain(m):
            parts = [p for p in m.group(2).split('.')[1:] if p != 'before']
            if not parts: return 'c'
            k = norm(parts[0])
            if k not in steps2 and k.endswith('-lem'): k = k[:-4]
            for n in range(len(parts), 0, -1):
                if (k, tuple(parts[1:n])) in arms:
                    to = arms[(k, tuple(parts[1:n]))]
                    return '.'.join(['c', to] + parts[n:])
            is_call = len(parts) > 1 and parts[1] in ('ensures', 'result', 'new', 'auto') and k in steps2
            if (k in types or k in typed) and not is_call:
                v = types.get(k) or typed[k]
                return '.'.join(['c', 'type_inv', v] + (parts[2:] if len(parts) > 1 and parts[1] == 'given' else parts[1:]))
            if k in clauses and len(parts) > 1 and parts[1] == 'ensures':
                f = clauses[k]
                if len(f) == 1: parts[1:2] = ['ensures', f[0]]
                elif len(parts) > 2 and of_pairs(f, parts[2:]): parts[2:] = of_pairs(f, parts[2:])
            if parts[0] == 'pre': parts[0] = 'requires'
            if parts[0] == 'requires' and len(own_requires) > 1 and of_pairs(own_requires, parts[1:]):
                parts[1:] = of_pairs(own_requires, parts[1:])
            elif k in steps2: parts[0] = steps2[k]
            elif k in steps: parts[0] = steps[k]; notes.append(f'off the way {goalname}: {parts[0]}')
            elif parts[0] not in ('args', 'requires', 'ranges', 'well_formed', 'lifetimes', 'type_inv'):
                notes.append(f'unknown step {parts[0]} in {goalname}')
            return '.'.join(['c'] + parts)
        t = re.sub(r"(?<![\w'.-])(c)((?:\.[A-Za-z0-9_'-]+)+)", chain, t)
        # the test of !x says of x itself what it said of not x
        for word, field in (('not-true', 'true'), ('not-false', 'false')):
            way = r"c\.if-not-[A-Za-z0-9_-]+\." + field
            t = re.sub(word + r" _ \((" + way + r")\)", r"\1", t)
            t = re.sub(word + r" _ (" + way + r")(?![\w.'-])", r"\1", t)
        return t
    answers, invariants, keep = [], [], []
    for b in blocks:
        comments = []
        while b and b[0].startswith('--'): comments.append(b[0]); b = b[1:]
        if not b: continue
        s = '\n'.join(b)
        m = re.match(r"((?:abbrev |pub |unfoldable )*)(\S+) :(.*?)(?=\n\S)", s, re.S)
        if not m:
            keep.append('\n'.join(comments + b)); continue
        mods, n, ty = m.group(1), m.group(2), m.group(3).strip()
        rest = s[m.end():].lstrip('\n')
        if 'statement M' in ty: continue
        unf = ''
        mm = re.match(r'(unfolding[^\n]*)\n', rest)
        if mm: unf, rest = mm.group(1), rest[mm.end():]
        mi = re.match(r'tie\.(invariant|decreases|measure)-?(\S*)', ty)
        if mi:
            k = norm(mi.group(2))
            if k not in loops:
                notes.append(f'no loop {k}'); keep.append('\n'.join(comments + b)); continue
            new, vs, changed = loops[k]
            mp = re.match(re.escape(n) + r"((?: [^\s=]+)*) =", rest)
            params = mp.group(1).split()
            expr = rest[mp.end():]
            ch = [v for v, c in zip(vs, changed) if c] if changed else []
            expected = len(vs) + len(ch)
            if len(params) != expected: notes.append(f'{mi.group(0)}: {len(params)} parameters for {vs} {changed}')
            table = {}
            for j, p in enumerate(params):
                if j < len(vs): table[p] = f'l.initial.{vs[j]}' if changed and changed[j] else f'l.{vs[j]}'
                elif j - len(vs) < len(ch): table[p] = f'l.{ch[j - len(vs)]}'
            table.pop('_', None)
            expr = re.sub(r"[^\s(){}\[\].,;λ]+(?:\.[^\s(){}\[\],;]+)*(?! =)(?![^\s(){}\[\],;])", lambda q: (lambda w, *r: '.'.join([table[w], *r]) if w in table else q.group(0))(*q.group(0).split('.')), expr)
            kind = 'invariant' if mi.group(1) == 'invariant' else 'decreases'
            nn = f'{kind}-{new}'
            invariants.append('\n'.join(comments + [f'abbrev pub {nn} : goal.{nn}'] + ([unf] if unf else []) + [f'{nn} l ={expr}']))
            continue
        mn = re.match(r'tie\.Need-(\S+)', ty)
        if mn:
            new = new_need(mn.group(1))
            if not new and 'aggregate' in mn.group(1): continue
            if not new:
                notes.append(f'no goal for {mn.group(1)}'); keep.append('\n'.join(comments + b)); continue
            mp = re.match(re.escape(n) + r"((?: [^\s=]+)*) =", rest)
            if not mp:
                notes.append(f'{n} by clauses'); keep.append('\n'.join(comments + b)); continue
            expr = rest[mp.end():]
            if TRIVIAL.match(expr.strip()) and not unf: continue
            if norm(mn.group(1)).startswith('same-length') and 'auto' in expr: continue
            e = body(expr, new)
            mc = re.match(r'(.*?)-requires(-\d+)?$', norm(mn.group(1)))
            if mc:
                callee = next((callees[q] for q in callees if norm(q) == mc.group(1)), None)
                ns = names_of(callee, 'requires') if callee else []
                if len(ns) > 1:
                    r = as_record(ns, e)
                    if r: e = ' ' + r
                    else: notes.append(f'{new}: of {ns}, by hand')
            elif norm(mn.group(1)).startswith('returns') and len(own_ensures) > 1:
                r = as_record(own_ensures, e)
                if r: e = ' ' + r
                else: notes.append(f'{new}: of {own_ensures}, by hand')
            answers.append('\n'.join(comments + [f'pub {new} : goal.{new}'] + ([unf] if unf else []) + [f'{new} c ={e}']))
            continue
        mh = re.search(r'\(c : tie\.([^\s)]+)[^)]*\)', ty)
        if mh:
            place = placenames.get(norm(mh.group(1)))
            used_places.add(place)
            ty2 = ty.replace(mh.group(0), f'(c : {place})')
            old_place = next((pl[0] for pl in of['places'] if norm(pl[0]) == norm(mh.group(1))), None)
            answers.append('\n'.join(comments + [f'{mods}{n} : {body(ty2, None, old_place)}'] + ([unf] if unf else []) + [body(rest, None, old_place)]))
            continue
        # any other lemma
        answers.append('\n'.join(comments + [f'{mods}{n} : {ty}'] + ([unf] if unf else []) + [rest]))
    uses, comm = [], []
    for l in head:
        if l.startswith('use '):
            if re.search(r'\.(Statement|Tie)(\.\{statement\}| as tie)?$', l): continue
            if 'borrow.Author.Rules' in l: l = 'use borrow.Author.Rules.{rules}'
            uses.append(l)
        elif l.startswith('--'): comm.append(l)
    f = fn
    alltext = '\n\n'.join(answers)
    def relevant(us, t):
        out = []
        for u in us:
            m = re.match(r'use (.*)\.\{(.*)\}$', u)
            if not m:
                mm = re.match(r'use .* as (\S+)$', u)
                if mm and not re.search(r"(?<![\w'-])" + re.escape(mm.group(1)) + r'\.', t): continue
                out.append(u); continue
            items = []
            for it in m.group(2).split(', '):
                w = it.split(' as ')[-1].strip()
                core = [x for x in w.split('◌') if x]
                if any(re.search(r"(?<![\w'-])" + re.escape(x) + r"(?![\w'-])", t) if re.match(r"\w", x) else x in t for x in core) or not core: items.append(it.strip())
            if items: out.append(f'use {m.group(1)}.{{{", ".join(items)}}}')
        return out
    if invariants:
        t = '\n\n'.join(invariants)
        with open(os.path.join(folder, 'Invariants.antt'), 'w') as o:
            o.write('\n'.join(comm + relevant(uses, t) + [f'use Rattle.{name}.proofs.{f}.Given as goal', '', t, '']))
    if answers:
        extra = [f'use Rattle.{name}.proofs.{f}.Goals.{{{", ".join(sorted(used_places))}}}'] if used_places else []
        with open(os.path.join(folder, 'Answers.antt'), 'w') as o:
            o.write('\n'.join((comm if not invariants else []) + relevant(uses, alltext) + [f'use Rattle.{name}.proofs.{f}.Goals as goal'] + extra + ['', alltext, '']))
    if keep:
        notes.append('kept: ' + ' | '.join(k.split('\n')[0] for k in keep))
        with open(os.path.join(folder, 'Answers.antt'), 'a') as o:
            o.write('\n' + '\n\n'.join('-- KEPT\n' + k for k in keep) + '\n')
    os.remove(path)
    for x in sorted(set(notes)): print(f'{name} {fn}: {x}')

for root, dirs, files in os.walk(os.path.join(crate, 'proofs')):
    if 'Proof.antt' in files:
        fn = os.path.relpath(root, os.path.join(crate, 'proofs')).replace(os.sep, '.')
        if only and fn not in only: continue
        if fn not in by:
            print(f'{name} {fn}: not in names.json: {[k for k in by if k.endswith(fn.split(".")[-1])][:3]}'); continue
        convert(root, fn, by[fn])
