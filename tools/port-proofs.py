#!/usr/bin/env python3
"""Turns the proofs by hand of one crate, as the older Rattle had them, into answers and invariants under today's goals.

usage: tools/port-proofs.py CRATE NAMES [FUNCTION ..]    at the top of the repository, after port.py and tools/port-names.py

CRATE is a crate of crates/, NAMES the names.json that `rt check --generated FOLDER --old-names` writes in its folder. Each
proofs/**/FUNCTION/Proof.antt becomes Answers.antt and Invariants.antt beside it and goes. Answers that Rattle tries itself are
left out. Printed are the answers to look at: "no goal for" mostly means that Rattle no longer asks it. The check decides.
"""
import json
import os
import re
import sys

if len(sys.argv) < 3 or not os.path.isdir(f'crates/{sys.argv[1]}/proofs') or not os.path.isfile(sys.argv[2]):
    sys.exit(__doc__.split('\n\n')[1])
crate, only = sys.argv[1], set(sys.argv[3:])
root = f'crates/{crate}'
with open(sys.argv[2], encoding='utf-8') as file:
    names = json.load(file)
alike = lambda s: re.sub('[-_]', '', re.sub('_lem$', '', s)).lower()
TRIVIAL = {'search rules', 'omega arith', 'search needs', 'refl', 'search (rules)'}
TOK = r"[^\s(){}\[\].;,@\"«»:]+"

def items(text):
    """header comment, use lines, list of (comment, name, body text)"""
    lines = text.split('\n'); i = 0
    head = []
    while i < len(lines) and (lines[i].startswith('--') or not lines[i].strip()):
        if lines[i].strip(): head.append(lines[i])
        i += 1
    uses = []
    while i < len(lines) and (lines[i].startswith('use ') or not lines[i].strip()):
        if lines[i].strip(): uses.append(lines[i])
        i += 1
    its = []; cur = []
    comment = []
    for l in lines[i:]:
        if l.startswith('--'):
            if cur: its.append((comment, cur)); cur, comment = [], []
            comment.append(l); continue
        if l.strip() and not l[0].isspace() and re.match(rf"(abbrev |unfoldable |pub |section|end|record |data |open |use )*", l):
            if l.startswith('module '):
                if cur: its.append((comment, cur)); comment = []
                cur = [l]; continue
            m = re.match(rf"((?:abbrev |unfoldable |pub )*)({TOK}) (?:\{{.*?\}} |\(.*?\) )*:(?!=)", l)
            if m and not (cur and re.match(rf"((?:abbrev |unfoldable |pub )*){re.escape(m[2])} ", cur[0]) and ' : ' not in l):
                if cur: its.append((comment, cur)); comment = []
                cur = [l]; continue
        if cur or l.strip(): cur.append(l)
    if cur: its.append((comment, cur))
    return head, uses, [(c, '\n'.join(b).rstrip()) for c, b in its]

class Fn:
    def __init__(self, d):
        self.d = d
        self.places = {}; self.clauses = {}
        for i, p in enumerate(d['places']):
            self.places.setdefault(p[0], (p[1], p[2], p[3], d['arms'][i] if i < len(d['arms']) else None))
            cl = d['clauses'][i] if i < len(d['clauses']) else None
            if cl and len(cl['fields']) > 1: self.clauses[p[0]] = cl['fields']
        self.needs = {alike(a): (a, b, d['asked_at'][i][0]) for i, (a, b) in enumerate(d['needs'])}
        self.args = {}
        for a, b in d['args']:
            if a.startswith('.args '): self.args[a[7:]] = b[7:]
        self.flags = []
    def resolve(self, place, segs):
        """old path segs from place -> new segs from c, or None if it stays at a place (returns ('place', P))"""
        segs = list(segs); P = place
        while segs and segs[0] == 'before':
            segs.pop(0)
            up = self.places[P][0] if P in self.places else None
            if up is None: self.flags.append('past the start')
            else: P = up
            # places that hold no step of their own are passed over in old paths as well
        if not segs: return ('place', P)
        if segs[0] == 'pre': segs[0] = 'requires'
        f = segs[0]
        Q = P
        if f == 'args':
            if len(segs) > 1 and segs[1] in self.args: segs[1] = self.args[segs[1]]
            return segs
        if f in ('requires', 'ranges', 'lifetimes', 'well_formed', 'type_inv', 'auto'): return segs
        parent, (old, new), callee, arm = self.places[Q]
        if arm:
            best = None
            for nw, of, path in arm[2]:
                if alike(of) == alike(f) and segs[1:1 + len(path)] == path and (best is None or len(path) > len(best[1])):
                    best = (nw, path)
            if best and not best[0].endswith('-own'):
                rest = segs[1 + len(best[1]):]
                if best[0] == 'ensures' and Q in self.clauses: return self.fields([arm[0], 'ensures'], rest, self.clauses[Q])
                return [arm[0], best[0]] + rest
        if alike(old) == alike(f):
            rest = segs[1:]
            if rest[:1] in (['new'], ['kept'], ['last']) and callee and callee in self.d['params']:
                k = 1
                while k < len(rest) and rest[k] == '1': k += 1
                if k < len(rest) and rest[k] == '0':
                    ps = self.d['params'][callee]
                    if k - 1 < len(ps): rest = [rest[0], ps[k - 1]] + rest[k + 1:]
            if rest[:1] == ['ensures'] and Q in self.clauses: return self.fields([new, 'ensures'], rest[1:], self.clauses[Q])
            return [new] + rest
        self.flags.append(f'{f} is not at {Q}')
        return [new if alike(old) == alike(f) else f] + segs[1:]

    def fields(self, base, rest, names):
        k, i = 0, 0
        rest = list(rest)
        while i < len(names) - 1 and k < len(rest) and rest[k] == '1':
            i += 1; k += 1
        if i == len(names) - 1: return base + [names[i]] + rest[k:]
        if k < len(rest) and rest[k] == '0': return base + [names[i]] + rest[k + 1:]
        if k < len(rest) and rest[k].isdigit() and k == 0: 
            return base + [names[int(rest[0])]] + rest[1:]
        left = names[i:]
        return ['(' + ', '.join('c.' + '.'.join(base + [n]) for n in left) + ')'] + rest[k:]

    def body(self, text, roots):
        """roots: name -> place. Rewrites each path from a root; let aliases of places vanish."""
        env = {r: ('place', r, p, 0) for r, p in roots.items()}
        env.update(getattr(self, 'extra', {}))
        out = ''; i = 0
        pat = re.compile(rf"(let (\w+[\w'₀-₉]*) = )?(?<![\w.'₀-₉-])([A-Za-z][\w'₀-₉]*)((?:\.[\w'₀-₉-]+)*)(?![\w'₀-₉-])( in\b[ \n]*)?")
        while True:
            m = pat.search(text, i)
            if not m: out += text[i:]; break
            let, lname, head, path, tail = m.groups()
            if head not in env:
                out += text[i:m.end(3)] if not let else text[i:m.start(3)] + head
                if let and lname in env: env.pop(lname)
                i = m.end(3); continue
            segs = path.split('.')[1:] if path else []
            kind, root, val, n = env[head] if env[head][0] == 'place' else (*env[head], 0)
            if kind == 'place':
                k = 0
                while k < len(segs) and segs[k] == 'before': k += 1
                r = self.resolve(val, segs)
                if isinstance(r, tuple): r = ('place', root, r[1], n + k)
            else: r = val + segs
            if isinstance(r, tuple):
                if let and tail is not None:
                    env[lname] = r
                    out += text[i:m.start()]; i = m.end(); continue
                out += text[i:m.start(3)] + root + '.before' * r[3]
                i = m.end(4); continue
            if r is None: r = ['?'] + segs
            if let and tail is not None and len(r) <= 2 and not re.search(r': ', let) and '(' not in r[0]:
                env[lname] = ('path', root, r)
                out += text[i:m.start()]; i = m.end(); continue
            full = root + '.' + '.'.join(r)
            if '(' in full: full = full[full.index('('):].replace('c.', root + '.')
            if let: env.pop(lname, None)
            out += text[i:m.start(3)] + full
            i = m.end(4)
        return out

    def place_of(self, old):
        for i, p in enumerate(self.d['places']):
            if alike(p[0]) == alike(old): return p[0], self.d['places_by_name'][i]
        self.flags.append('no place ' + old)
        return old, old

    def helper(self, text):
        """A lemma or module of the author's: its binders over places, and the paths from them."""
        roots, self.extra = {}, {}
        def binder(m):
            old, new = self.place_of(m[2])
            for r in m[1].split(): roots[r] = old
            return f'({m[1]} : goal.{new})'
        text = re.sub(r"\(([\w' ]+) : tie\.([\w'-]+)[^()]*\)", binder, text)
        def alias(m):
            if m[2] == m[4]:
                segs = m[5].split('.'); head = segs[0]; segs = segs[1:]
                base = self.extra.get(head) or (('place', head, roots[head], 0) if head in roots else None)
                if base and all(x == 'before' for x in segs):
                    r = self.resolve(base[2], segs)
                    if isinstance(r, tuple):
                        self.extra[m[2]] = ('place', base[1], r[1], base[3] + len(segs)); return ''
            return m[0]
        text = re.sub(r"( +)abbrev ([\w']+) : tie\.([\w'-]+)[^\n]*\n +([\w']+) = ([\w.']+)\n\n?", alias, text)
        # where the binders are written, leave the names alone
        head, sep, rest = text.partition('=') if not text.lstrip().startswith('module') else text.partition('where')
        if not text.lstrip().startswith('module'):
            # the signature may use paths too
            out = self.body(text, roots)
        else:
            out = head + sep + self.body(rest, roots)
        self.extra = {}
        return out

def tuple_record(body, fields):
    """(a, b) at the end of a body -> record { f = a; g = b }"""
    s = body.rstrip()
    if not s.endswith(')'): return body
    d = 0
    for k in range(len(s) - 1, -1, -1):
        if s[k] == ')': d += 1
        elif s[k] == '(':
            d -= 1
            if d == 0: break
    before = s[:k].rstrip()
    if not (before.endswith('=') or before.endswith(' in') or before.endswith('\nin')): return body
    parts, d, last = [], 0, k + 1
    for j in range(k + 1, len(s) - 1):
        if s[j] in '({[': d += 1
        elif s[j] in ')}]': d -= 1
        elif s[j] == ',' and d == 0: parts.append(s[last:j]); last = j + 1
    rest = s[last:-1]
    if rest.strip(): parts.append(rest)
    if len(parts) != len(fields): return body
    return s[:k] + 'record { ' + '; '.join(f'{f} = {p.strip()}' for f, p in zip(fields, parts)) + ' }'

def convert(path):
    folder = os.path.dirname(path)
    rel = os.path.relpath(folder, f'{root}/proofs')
    mod = rel.replace('/', '.')
    key = f'Rattle-{crate}-proofs.{mod}.Lts'
    if key not in names: return f'{rel}: no names'
    F = Fn(names[key])
    head, uses, its = items(open(path).read())
    uses = [u for u in uses if not re.search(r'\.(Statement\.\{statement\}|Tie as tie)$', u)]
    inv, ans = [], []
    said = []
    for comment, text in its:
        m = re.match(rf"((?:abbrev |unfoldable |pub )*)({TOK})\s", text)
        if not m: said.append('what is ' + text[:60]); continue
        name = m[2]
        t = re.search(rf"^(?:(?:abbrev|unfoldable|pub) )*{re.escape(name)} : tie\.({TOK})", text.split('\n')[0])
        if re.search(r'statement M', text.split('\n')[0]): continue
        if not t:
            F.flags = []
            if re.search(r'\btie\b', text): text = F.helper(text)
            said += [f'{name}: {x}' for x in F.flags]
            ans.append('\n'.join(comment + [text]))
            if re.search(r'\btie\b', text): said.append(f'{name} names tie')
            continue
        kind = t[1]
        lines = text.split('\n')
        if kind.startswith('invariant-') or kind.startswith('decreases-'):
            w = kind.split('-')[0]
            loop = kind[len(w) + 1:]
            for k, (pair, vars_) in enumerate(F.d['loops']):
                if alike(pair[0]) == alike(loop): break
            else: said.append('no loop ' + loop); continue
            changed = F.d['changed'][k]
            mm = re.match(rf"{re.escape(name)} ([^=]*?) ?=(.*)", '\n'.join(lines[1:]), re.S)
            if not mm: said.append('shape of ' + name); continue
            binders = mm[1].split(); b = mm[2]
            order = ['l.initial.' + v if c else 'l.' + v for v, c in zip(vars_, changed)] + ['l.' + v for v, c in zip(vars_, changed) if c]
            if len(order) != len(binders): said.append(f'{name}: {len(binders)} binders for {order}')
            sub = {x: y for x, y in zip(binders, order) if x != '_'}
            b = re.sub(rf"(?<![\w.'-])([A-Za-zκμσ-][\w'₀-₉-]*)", lambda q: sub.get(q[1], q[1]), b)
            inv.append('\n'.join(comment + [f'abbrev pub {w}-{pair[1]} : goal.{w}-{pair[1]}', f'{w}-{pair[1]} l ={b}']))
            continue
        if not kind.startswith('Need-'): said.append('type ' + kind); continue
        w = alike(kind[5:])
        n = F.needs.get(w)
        if not n and w.startswith('overflow'): n = F.needs.get(w[8:])
        if not n and w.startswith('nonzero'): n = F.needs.get(w[7:])
        if not n and w.startswith('slicebounds'): n = F.needs.get('part' + w[11:])
        if not n:
            for q in F.needs.values():
                if alike(q[1]) == w: n = q
        if not n:
            if any(alike(kind[5:]) == alike(s) for s in F.d['settled']): continue
            body = text.split('=', 1)[-1].strip()
            if body in TRIVIAL: continue
            said.append(f'no goal for {kind}'); continue
        old, new, place = n
        rest = '\n'.join(lines[1:])
        k = 1
        unf = ''
        if lines[1].startswith('unfolding'): unf = lines[1] + '\n'; rest = '\n'.join(lines[2:])
        mm = re.match(rf"{re.escape(name)} (.*?)=(.*)", rest, re.S)
        if not mm: said.append('shape of ' + name); continue
        body = mm[2].strip()
        if body in TRIVIAL and not unf: continue
        binders = mm[1].replace('κs', '').replace('_', 'c').strip() or 'c'
        F.flags = []
        conv = F.body(' ' + mm[2].lstrip(' '), {binders.split()[0] if binders.split() else 'c': place})
        fields = F.d['asked'].get(old) or F.d['asked'].get(new)
        if fields and len(fields) > 1:
            was = conv
            conv = tuple_record('=' + conv, fields)[1:]
            if conv == was:
                # clause by clause: a projection of what the old answer gave
                k = was.rfind(' in\n'); k2 = was.rfind(' in ')
                k = max(k, k2); pre, ex = (was[:k + 3], was[k + 3:].strip()) if k >= 0 else ('', was.strip())
                tup = re.search(r'\((c\.[^(),]*\.ensures\.[\w]+(?:, c\.[^(),]*\.ensures\.[\w]+)+)\)', ex)
                for q, f in enumerate(fields):
                    if re.match(r'(rw|simp|subst|cc|search|grind)\b', ex) and tup and len(tup[1].split(', ')) == len(fields):
                        e = ex.replace(tup[0], tup[1].split(', ')[q])
                    else:
                        proj = ''.join('.1' for _ in range(q)) + ('.0' if q < len(fields) - 1 else '')
                        e = f'({ex}){proj}'
                    nm = f'{new}-clause-{f}'
                    ans.append('\n'.join((comment if q == 0 else []) + [f'pub {nm} : goal.{nm}', f'{unf}{nm} {binders} ={pre} {e}'.rstrip()]))
                continue
        said += [f'{new}: {x}' for x in F.flags]
        if '\n' in conv.strip() and not conv.startswith('\n'):
            pass
        ans.append('\n'.join(comment + [f'pub {new} : goal.{new}', f'{unf}{new} {binders} =' + re.sub(r' +\n', '\n', conv).rstrip()]))
    header = '\n'.join(head)
    if inv:
        open(f'{folder}/Invariants.antt', 'w').write('\n'.join(head + uses + [f'use Rattle.{crate}.proofs.{mod}.Given as goal']) + '\n\n' + '\n\n'.join(inv) + '\n')
    if ans:
        # a name of our own that is not an answer may be missing from what follows; order stays
        open(f'{folder}/Answers.antt', 'w').write('\n'.join(head + uses + [f'use Rattle.{crate}.proofs.{mod}.Goals as goal']) + '\n\n' + '\n\n'.join(ans) + '\n')
    os.remove(path)
    if not inv and not ans:
        try: os.rmdir(folder)
        except OSError: pass
    return f'{rel}: {len(inv)} inv {len(ans)} ans' + (''.join('\n    ' + s for s in said))

for folder, _, files in sorted(os.walk(f'{root}/proofs')):
    if 'Proof.antt' in files and (not only or os.path.basename(folder) in only):
        print(convert(f'{folder}/Proof.antt'))
