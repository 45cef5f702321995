#!/usr/bin/env python3
"""Brings the repository's own names in specs/ and proofs/ to today's spelling.

Run it at the top of a tree: python3 tools/respell.py
It reads tools/respell.tsv and rewrites
  crates/*/specs/**/*.antt and crates/*/proofs/**/*.antt,
  the clauses and the ghost use lines of crates/*/src/*.rt,
  the comments of all these, and the names in README.md and docs/*.md that are in backquotes, in camel case or dashed.
A name is turned only where it is the repository's: where the file declares it, imports it from one of the repository's modules or
reaches it through one, or where it stands as a field of one of the repository's records. A second run changes nothing.

A row of the table is an old name, a tab and the new one. A third column names the crate that declares the name, where a name of
the same spelling is turned to something else elsewhere, or says `local`, where the name is a variable.
"""
import glob
import os
import re
import sys

TOKEN = re.compile(r'[^\s(){}.;,@"«»]+|[(){}.;,@"«»]|\s+')
BREAK = ' \t\n(){}.;,@"«»'
MODULES = {'specs.Contracts': 'specs.Promised'}  # a module's path, and its new one, below the crate that is named here
MODULE_CRATE = 'journal'
ENGLISH = {'well-formed', 'ill-formed'}  # names that are words of prose too


def read(path):
    with open(path, encoding='utf-8') as f:
        return f.read()


def write(path, text):
    with open(path, 'w', encoding='utf-8') as f:
        f.write(text)


# ---- antt: pieces, declarations, imports

def pieces(text):
    """The text cut into (kind, string): 'space', 'comment', 'string', 'mark' or 'name'."""
    out, i, n = [], 0, len(text)
    while i < n:
        if text.startswith('--', i) and (i == 0 or text[i - 1] in BREAK):
            j = text.find('\n', i)
            j = n if j < 0 else j
            out.append(('comment', text[i:j]))
        elif text[i] == '"':
            j = i + 1
            while j < n and text[j] != '"':
                j += 2 if text[j] == '\\' else 1
            j = min(j + 1, n)
            out.append(('string', text[i:j]))
        else:
            m = TOKEN.match(text, i)
            j = m.end()
            s = m.group()
            if s.isspace():
                kind = 'space'
            elif len(s) == 1 and s in '(){}.;,@"«»':
                kind = 'mark'
            else:
                kind = 'name'
            out.append((kind, s))
        i = j
    return out


def beside(ps, i, step):
    """The mark or name next to a piece, on the left or the right."""
    i += step
    while 0 <= i < len(ps) and ps[i][0] in ('space', 'comment'):
        i += step
    return ps[i][1] if 0 <= i < len(ps) else '?'


def bare(text):
    """The lines of a text without their comments."""
    return ''.join(s for k, s in pieces(text) if k != 'comment').split('\n')


def words(text):
    return [s for k, s in pieces(text) if k in ('name', 'mark')]


def indent(line):
    return len(line) - len(line.lstrip(' '))


def colon(ts):
    d = 0
    for i, t in enumerate(ts):
        if t in '({':
            d += 1
        elif t in ')}':
            d -= 1
        elif t == ':' and d == 0:
            return i
    return -1


class Decl:
    def __init__(self, name, kind, type_, line, owner=None):
        self.name, self.kind, self.type, self.line, self.owner = name, kind, type_, line, owner


def declarations(text, path):
    """The declarations of a file, with its fields, constructors and the functions of its where blocks."""
    lines = bare(text)
    out, scopes, opened, i = [], [0], False, 0
    while i < len(lines):
        line = lines[i]
        if not line.strip():
            i += 1
            continue
        at = indent(line)
        if opened and at > scopes[-1]:
            scopes.append(at)
        opened = False
        while at < scopes[-1]:
            scopes.pop()
        if at != scopes[-1]:
            sys.exit('%s:%d: a line outside any block' % (path, i + 1))
        first = words(line)
        if first[0] == 'module' or first[:2] == ['pub', 'module']:
            while 'where' not in words(lines[i]):
                i += 1
            i += 1
            opened = True
            continue
        body = [(i, line)]
        i += 1
        while i < len(lines) and (not lines[i].strip() or indent(lines[i]) > at):
            if lines[i].strip():
                body.append((i, lines[i]))
            i += 1
        out += declared(body)
    return out


def declared(body):
    ts = words('\n'.join(b for _, b in body))
    k, kind = 0, 'plain'
    while ts[k] in ('abbrev', 'unfoldable', 'axiom', 'pub', 'record', 'data'):
        if ts[k] != 'pub':
            kind = ts[k]
        k += 1
    ts = ts[k:]
    if kind in ('record', 'data'):
        top = Decl(ts[0], kind, [], body[0][0])
        out = [top]
        where = [n for n, (_, b) in enumerate(body) if words(b)[-1] == 'where']
        rest = body[where[0] + 1:] if where else []
        if rest:
            least = min(indent(b) for _, b in rest)
            items = []
            for n, b in rest:
                if indent(b) == least:
                    items.append([n, b])
                else:
                    items[-1][1] += '\n' + b
            for n, b in items:
                fs = words(b)
                c = colon(fs)
                out += [Decl(f, 'field' if kind == 'record' else 'constructor', fs[c + 1:], n, top.name)
                        for f in fs[:c] if f != 'pub']
        return out
    if len(ts) > 1 and ts[1] == ':':
        return [Decl(ts[0], kind, ts[2:], body[0][0])]
    out = []
    for n, b in body[1:]:
        bs = words(b)
        if len(bs) > 1 and bs[1] == ':' and bs[0] not in '({':
            out.append(Decl(bs[0], 'local', bs[2:], n))
    return out


def result(ts):
    """The head of what a type ends in."""
    d, last = 0, 0
    for i, t in enumerate(ts):
        if t in '({':
            d += 1
        elif t in ')}':
            d -= 1
        elif t == '→' and d == 0:
            last = i + 1
    return ts[last] if last < len(ts) else ''


def is_answer(d, path):
    """Whether a name answers a goal of Rattle: it keeps its spelling."""
    if os.path.basename(path) != 'Proof.antt' or d.kind == 'local':
        return False
    if '/+' in path or any(t.startswith('Need-') for t in d.type):
        return True
    return result(d.type) == 'tie' or 'statement' in d.type or 'stated' in d.type or d.name.endswith(('-spec', '_spec'))


USE = re.compile(r'(?:^|(?<=\n))([ \t]*(?:pub |ghost )*use )([^\s{;]+)([^\n;{]*)(\{[^}]*\})?')


def imports(text):
    """(path, alias, [(name, alias)]) of each use line."""
    for m in USE.finditer(text):
        path, tail, names = m.group(2), m.group(3), m.group(4)
        path = path.rstrip('.')
        alias = None
        t = tail.split()
        if t[:1] == ['as']:
            alias = t[1]
        items = []
        if names:
            for x in names[1:-1].split(','):
                x = x.split()
                if x:
                    items.append((x[0], x[2] if len(x) == 3 and x[1] == 'as' else x[0]))
        yield path, alias, items, bool(names)


# ---- the repository

class Tree:
    def __init__(self, root):
        self.root = root
        self.crates = sorted(c for c in os.listdir(os.path.join(root, 'crates'))
                             if os.path.isdir(os.path.join(root, 'crates', c)))
        self.text, self.decls, self.module, self.at = {}, {}, {}, {}
        for sub in ('specs', 'proofs'):
            for p in sorted(glob.glob(os.path.join(root, 'crates', '*', sub, '**', '*.antt'), recursive=True)):
                r = os.path.relpath(p, root)
                self.text[r] = read(p)
                self.decls[r] = declarations(self.text[r], r)
                m = 'Rattle.' + r[len('crates/'):-len('.antt')].replace('/', '.')
                self.module[r] = m
                self.at[m] = r
        self.rust = {}
        for p in sorted(glob.glob(os.path.join(root, 'crates', '*', 'src', '**', '*.rt'), recursive=True)):
            self.rust[os.path.relpath(p, root)] = read(p)
        self.own = {r: {d.name for d in ds if d.kind != 'local' and not is_answer(d, r)} for r, ds in self.decls.items()}
        self.fields = {d.name for r, ds in self.decls.items() for d in ds if d.kind == 'field'}

    def offered(self, path):
        """The names of the module at a path, or of one of its types: its fields or constructors."""
        if path in self.at:
            return self.own[self.at[path]]
        up = path.rpartition('.')[0]
        if up in self.at:
            name = path.rpartition('.')[2]
            ds = self.decls[self.at[up]]
            if any(d.name == name for d in ds):
                return {d.name for d in ds if d.owner == name}
        return set()

    def scope(self, r):
        """The names of the repository that a file sees bare, and the modules that it sees by a name."""
        text = self.text.get(r) or self.rust.get(r)
        seen, mods = {}, {}
        if r in self.own:
            seen = {n: r.split('/')[1] for n in self.own[r] | {d.name for d in self.decls[r] if d.kind == 'local'}}
        for path, alias, items, braces in imports(text):
            there = self.offered(path)
            for name, as_ in items:
                if name in there and name == as_:
                    seen[name] = path.split('.')[1]
                if path + '.' + name in self.at or self.offered(path + '.' + name):
                    mods[as_] = path + '.' + name
            if not braces:
                mods[alias or path.rpartition('.')[2]] = path
        return seen, mods


# ---- the turning

class Turn:
    def __init__(self, tree, rows):
        self.tree = tree
        self.table = {old: new for old, new, where in rows if where in ('', 'local')}
        self.local = {old for old, _, where in rows if where == 'local'}
        self.there = {(old, where): new for old, new, where in rows if where not in ('', 'local')}
        self.log = []  # (file, where, old, new)

    def new(self, r, where, t, crate=None):
        n = self.there.get((t, crate), self.table[t])
        self.log.append((r, where, t, n))
        return n

    def path(self, p):
        for old, new in MODULES.items():
            full = 'Rattle.%s.%s' % (MODULE_CRATE, old)
            if p == full or p.startswith(full + '.'):
                return 'Rattle.%s.%s' % (MODULE_CRATE, new) + p[len(full):]
        return p

    def use(self, r, m):
        head, path, tail, names = m.group(1), m.group(2), m.group(3), m.group(4)
        dot = '.' if path.endswith('.') else ''
        there = self.tree.offered(path.rstrip('.'))
        if names:
            def one(x):
                s = x.group()
                return self.new(r, 'use', s, path.split('.')[1]) if s in there and s in self.table else s
            parts = []
            for x in names[1:-1].split(','):
                x = re.sub(r'[^\s{},]+', one, x, count=1)
                parts.append(re.sub(r'( as )(\S+)', lambda a: a.group(1) + (self.new(r, 'alias', a.group(2)) if a.group(2) in self.local else a.group(2)), x))
            names = '{' + ','.join(parts) + '}'
        return head + self.path(path.rstrip('.')) + dot + tail + (names or '')

    def term(self, r, text, seen, mods):
        """antt text without use lines."""
        out, ps = [], pieces(text)
        chain = None  # the dotted names that lead to here, or None
        for i, (kind, s) in enumerate(ps):
            if kind == 'comment':
                s = self.comment(r, s, seen)
            elif kind == 'name':
                dotted = i > 0 and ps[i - 1] == ('mark', '.')
                t = s
                if dotted:
                    if chain and chain[0] in mods:
                        path = '.'.join([mods[chain[0]]] + chain[1:])
                    elif chain and chain[0] == 'Rattle':
                        path = '.'.join(chain)
                    else:
                        path = None
                    if path and s in self.tree.offered(path):
                        if s in self.table:
                            t = self.new(r, 'through', s, path.split('.')[1])
                    elif s in self.tree.fields and s in self.table and not (path and (path in self.tree.at)):
                        t = self.new(r, 'field', s)
                    chain = (chain or ['']) + [s]
                else:
                    chain = [s]
                    if s in self.table:
                        if s in seen:
                            t = self.new(r, 'name', s, seen[s])
                        elif s in self.local:
                            t = self.new(r, 'name', s)
                        elif s in self.tree.fields and beside(ps, i, -1) in '{;' and beside(ps, i, 1) == '=':
                            t = self.new(r, 'record', s)
                s = t
            elif kind == 'mark' and s == '.':
                pass
            else:
                chain = None
            out.append(s)
        return ''.join(out)

    def comment(self, r, text, seen):
        def quoted(m):
            return '`' + self.prose(r, m.group(1), seen, True) + '`'
        parts, last = [], 0
        for m in re.finditer(r'`([^`\n]*)`', text):
            parts.append(self.prose(r, text[last:m.start()], seen, False))
            parts.append(quoted(m))
            last = m.end()
        parts.append(self.prose(r, text[last:], seen, False))
        return ''.join(parts)

    def prose(self, r, text, seen, quoted):
        def one(m):
            s, tail = m.group(), ''
            if s not in self.table and s.endswith("'s"):
                s, tail = s[:-2], "'s"
            if s in self.table and (quoted or re.match(r"[a-z][a-z0-9_']*[A-Z]", s)):
                return self.new(r, 'quoted' if quoted else 'comment', s) + tail
            return s + tail
        return re.sub(r"[^\s(){}.;,@\"«»`:/?!]+", one, text)

    def antt(self, r):
        text = self.tree.text[r]
        seen, mods = self.tree.scope(r)
        out, last = [], 0
        for m in USE.finditer(text):
            out.append(self.term(r, text[last:m.start()], seen, mods))
            out.append(self.use(r, m))
            last = m.end()
        out.append(self.term(r, text[last:], seen, mods))
        new = ''.join(out)
        if r == 'crates/%s/specs/Lib.antt' % MODULE_CRATE:
            for old, name in MODULES.items():
                a, b = old.rpartition('.')[2], name.rpartition('.')[2]
                new = re.sub(r'^(\s*(?:pub )?mod )%s$' % a, r'\g<1>' + b, new, flags=re.M)
        return new

    def rt(self, r):
        text = self.tree.rust[r]
        seen, mods = self.tree.scope(r)
        out = []
        for kind, s in rust_pieces(text):
            if kind == 'comment':
                s = self.comment(r, s, seen)
            elif kind == 'use':
                s = USE.sub(lambda m: self.use(r, m), s)
            elif kind == 'clause':
                s = self.term(r, s, seen, mods)
            out.append(s)
        return ''.join(out)

    def dashed(self, r, s):
        return self.new(r, 'law', s) if s in self.table and s not in ENGLISH else s

    def doc(self, r, text):
        out, fence = [], False
        for line in text.split('\n'):
            if line.lstrip().startswith('```'):
                fence = not fence
            elif not fence:
                line = self.comment(r, line, set())
                for old, name in MODULES.items():
                    line = line.replace(old.replace('.', '/'), name.replace('.', '/'))
                line = re.sub(r"(?<![\w'/-])[\w']+(?:-[\w']+)+(?![\w-])", lambda m: self.dashed(r, m.group()), line)
            out.append(line)
        return '\n'.join(out)


CLAUSE = re.compile(r'\b(?:requires|ensures|invariant|decreases|ghost)\b(?!\s+use\b)[^{};\n]*\{')


def rust_pieces(text):
    """Rust text cut into (kind, string): 'code', 'comment', 'string', 'use' (a ghost use) and 'clause' (inside a clause's braces)."""
    out, i, n, start = [], 0, len(text), 0

    def code(j):
        if j > start:
            out.append(('code', text[start:j]))
    while i < n:
        if text.startswith('//', i):
            code(i)
            j = text.find('\n', i)
            j = n if j < 0 else j
            out.append(('comment', text[i:j]))
            i = start = j
        elif text[i] == '"':
            code(i)
            j = i + 1
            while j < n and text[j] != '"':
                j += 2 if text[j] == '\\' else 1
            out.append(('string', text[i:j + 1]))
            i = start = j + 1
        elif text[i] == "'" and re.match(r"'(\\.[^']*|[^'\\])'", text[i:]):
            i += re.match(r"'(\\.[^']*|[^'\\])'", text[i:]).end()
        elif re.match(r'ghost use ', text[i:i + 10]) and (i == 0 or text[i - 1] == '\n'):
            code(i)
            j = text.index(';', i)
            out.append(('use', text[i:j]))
            i = start = j
        elif (i == 0 or not (text[i - 1].isalnum() or text[i - 1] in '_.')) and CLAUSE.match(text, i):
            j = CLAUSE.match(text, i).end()
            code(j)
            d, k = 1, j
            while d:
                if text[k] == '{':
                    d += 1
                elif text[k] == '}':
                    d -= 1
                k += 1
            out.append(('clause', text[j:k - 1]))
            i = start = k - 1
        else:
            i += 1
    code(n)
    return out


def table(path):
    rows = []
    for line in read(path).split('\n'):
        if line and not line.startswith('#'):
            rows.append((line.split('\t') + [''])[:3])
    return rows


def main():
    root = os.path.dirname(os.path.dirname(os.path.abspath(__file__)))
    turn = Turn(Tree(root), table(os.path.join(root, 'tools', 'respell.tsv')))
    new = {r: turn.antt(r) for r in turn.tree.text}
    new.update({r: turn.rt(r) for r in turn.tree.rust})
    for p in ['README.md'] + sorted(glob.glob(os.path.join(root, 'docs', '*.md'))):
        r = os.path.relpath(os.path.join(root, p), root)
        new[r] = turn.doc(r, read(os.path.join(root, r)))
    changed = 0
    for r, text in new.items():
        if read(os.path.join(root, r)) != text:
            write(os.path.join(root, r), text)
            changed += 1
    for old, name in MODULES.items():
        a = os.path.join(root, 'crates', MODULE_CRATE, old.replace('.', '/') + '.antt')
        b = os.path.join(root, 'crates', MODULE_CRATE, name.replace('.', '/') + '.antt')
        if os.path.exists(a):
            os.rename(a, b)
            changed += 1
    print('%d files changed, %d places' % (changed, len(turn.log)))


if __name__ == '__main__':
    main()
