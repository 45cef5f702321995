#!/usr/bin/env python3
"""Turns a proof that walks the code (proofs/F/Proof.antt over a Tie) into Invariants.antt and Answers.antt.

usage: to_answers.py NAMES ROOT CRATE.. [--only F,..] [--walk]

NAMES is the folder that 'rt names' wrote, ROOT the repository's top. It writes beside each Proof.antt and removes it.
"""
import json
import os
import re
import sys

ID = r"[^\s(){}.;,@\"«»\[\]]+"
norm = lambda s: s.replace("_", "-").lower() if s else s


def strip_need(n):
    n = norm(n)
    for p in ("overflow-", "nonzero-"):
        if n.startswith(p):
            n = n[len(p):]
    return n


class Fn:
    def __init__(self, lts):
        self.lts = lts
        self.places = lts["places"]
        self.new_place = lts["places_by_name"]
        self.index = {}
        for i, p in enumerate(self.places):
            self.index.setdefault(norm(p[0]), i)
        self.parent = [self.index.get(norm(p[1])) if p[1] else None for p in self.places]
        self.needs = {}
        self.need_place = {}
        self.asked = {}
        by_new = {n: i for i, n in enumerate(self.new_place)}
        for (old, new), at in zip(lts["needs"], lts["asked_at"]):
            self.needs[strip_need(old)] = (old, new)
            self.need_place[strip_need(old)] = by_new.get(at[1], self.index.get(norm(at[0])))
        for old, new in lts["needs"]:
            k = strip_need(new)
            if k not in self.needs:
                self.needs[k] = (old, new)
                self.need_place[k] = self.need_place[strip_need(old)]
        for old, fields in lts.get("asked", {}).items():
            self.asked[strip_need(old)] = fields
            for o, new in lts["needs"]:
                if o == old:
                    self.asked.setdefault(strip_need(new), fields)
        self.loops = lts["loops"]
        self.changed = lts["changed"]

    def place(self, old):
        return self.index.get(norm(old))


def numeric(fields, rest, closed):
    """The field's name for a path of numbers into nested pairs, and how many numbers it took."""
    n = len(fields)
    i = 0
    while i < len(rest) and rest[i] == "1" and i < n - 1 + (1 if closed else 0):
        i += 1
    ones = i
    if closed:
        if ones < len(rest) and rest[ones] == "0" and ones < n:
            return fields[ones], ones + 1
        return None, 0
    if ones == n - 1:
        return fields[ones], ones
    if ones < len(rest) and rest[ones] == "0":
        return fields[ones], ones + 1
    return None, 0


class Warn:
    def __init__(self):
        self.said = []

    def __call__(self, text):
        self.said.append(text)


def step_on(fn, place, p, step):
    """The place on the way from `place` back to the start that has this step: at p or further back, or else the nearest on the way to p."""
    names = {step, re.sub("-lem$", "", step), re.sub("^type-size", "size", step)}
    has = lambda q: fn.places[q][2][0] and norm(fn.places[q][2][0]) in names
    q = p
    while q is not None:
        if has(q):
            return q
        q = fn.parent[q]
    found, q = None, place
    while q is not None and q != p:
        if has(q):
            found = q
        q = fn.parent[q]
    return found


def go_back(fn, place, segs, warn):
    """The place that `before`s lead to, and how many there are; past the start it is the start."""
    p, i = place, 0
    while i < len(segs) and segs[i] == "before":
        q = fn.parent[p]
        if q is None:
            if all(it == "before" for it in segs):
                warn(f"no place before {fn.places[p][0]}: {'.'.join(segs)}")
        else:
            p = q
        i += 1
    return p, i


def resolve_walk(fn, place, segs, warn):
    p, i = go_back(fn, place, segs, warn)
    if i == len(segs):
        return segs, ("place", p)
    step = norm(segs[i])
    rest = segs[i + 1:]
    if step == "pre":
        step = segs[i] = "requires"
    if step in ("args", "ranges", "type-inv", "well-formed", "lifetimes", "requires"):
        return [segs[i].replace("-", "_")] + rest, None
    q = step_on(fn, place, p, step)
    if q is None:
        warn(f"step {segs[i]} is not at {fn.places[place][0]}")
        return segs, None
    new = fn.places[q][2][1]
    if rest and rest[0] == "last":
        rest = ["new"] + rest[1:]
    if rest and rest[0] == "inv":
        rest = ["invariant"] + rest[1:]
    return [new] + rest, None


WALK = [False]


def resolve(fn, place, segs, warn):
    if WALK[0]:
        return resolve_walk(fn, place, segs, warn)
    return resolve_flat(fn, place, segs, warn)


def resolve_flat(fn, place, segs, warn):
    """Rewrites the segments of a path that begins at a place. Returns (new segments, what it is): ('place', p), ('rec', fields, closed) or None."""
    p, i = go_back(fn, place, segs, warn)
    if i == len(segs):
        return segs, ("place", p)
    step = norm(segs[i])
    rest = segs[i + 1:]
    if step == "pre":
        step = segs[i] = "requires"
    if step in ("args", "ranges", "type-inv", "well-formed", "lifetimes"):
        return [segs[i].replace("-", "_")] + rest, None
    if step == "requires":
        pre = fn.lts.get("pre")
        if pre and pre.get("fields"):
            f, took = numeric(pre["fields"], rest, False)
            if f:
                return ["requires", f] + rest[took:], None
            if not rest:
                return ["requires"], ("rec", pre["fields"], False)
        return ["requires"] + rest, None
    q = step_on(fn, place, p, step)
    if q is None:
        warn(f"step {segs[i]} is not at {fn.places[place][0]}")
        return segs, None
    new = fn.places[q][2][1]
    # within an arm
    best = None
    r = place
    while r is not None:
        arm = fn.lts["arms"][r]
        if arm:
            for field, old, path in arm[2]:
                if norm(old) == step and rest[: len(path)] == path and (best is None or len(path) > len(best[2])):
                    best = (arm[0], field, path)
        r = fn.parent[r]
    if best and not best[1].endswith("-own"):
        out = [best[0], best[1]] + rest[len(best[2]):]
        return out, None
    if best and norm(new).startswith("in"):
        return [best[0]] + rest, None
    if rest and rest[0] in ("ensures",):
        cl = fn.lts["clauses"][q]
        if cl and cl.get("fields"):
            f, took = numeric(cl["fields"], rest[1:], False)
            if len(rest) > 1 and f:
                return [new, "ensures", f] + rest[1 + took:], None
            if len(rest) == 1:
                return [new, "ensures"], ("rec", cl["fields"], False)
        return [new] + rest, None
    if rest and rest[0] in ("last", "new"):
        callee = fn.places[q][3]
        params = fn.lts["params"].get(callee) if callee else None
        if params:
            f, took = numeric(params, rest[1:], True)
            if len(rest) > 1 and f:
                return [new, "new", f] + rest[1 + took:], None
            if len(rest) == 1:
                return [new, "new"], ("rec", params, True)
        return [new, "new"] + rest[1:], None
    if rest and rest[0] == "inv":
        rest = ["invariant"] + rest[1:]
    return [new] + rest, None


PATH = re.compile(rf"(?<![^\s(){{}};,\[\]])({ID})((?:\.{ID})+)")


def matching(text, at):
    """The place of the bracket that closes the one at `at`."""
    depth = 0
    for i in range(at, len(text)):
        if text[i] in "({[":
            depth += 1
        elif text[i] in ")}]":
            depth -= 1
            if depth == 0:
                return i
    return -1


class Body:
    def __init__(self, fn, env, funcs, warn):
        self.fn, self.env, self.funcs, self.warn = fn, dict(env), funcs, warn
        self.root = {}
        self.takes = {}

    def head(self, text):
        """What a whole expression is, if it is a path or an application that gives a place."""
        text = text.strip()
        while text.startswith("(") and matching(text, 0) == len(text) - 1:
            text = text[1:-1].strip()
        m = re.fullmatch(rf"({ID})((?:\.{ID})*)", text)
        if m:
            kind = self.env.get(m[1])
            if kind is None:
                return None
            segs = m[2].split(".")[1:]
            if not segs:
                return kind
            if kind[0] == "place":
                got = resolve(self.fn, kind[1], segs, lambda t: None)[1]
                if got is None and segs[-1] in ("given", "0", "last", "new") and "given" in segs:
                    return ("alias", m[1], kind[1], segs)
                return got
            return None
        m = re.fullmatch(rf"({ID}) .+", text, re.S)
        if m and m[1] in self.funcs:
            return ("place", self.funcs[m[1]])
        m = re.match(rf"\(", text)
        if m:
            e = matching(text, 0)
            if e > 0:
                inner = self.head(text[1:e])
                rest = text[e + 1:]
                if inner and inner[0] == "place" and re.fullmatch(rf"(?:\.{ID})+", rest):
                    return resolve(self.fn, inner[1], rest.split(".")[1:], lambda t: None)[1]
        return None

    def depth(self, a, b):
        """How many `before`s lead from place a to place b, or None."""
        n = 0
        while a is not None and a != b:
            a = self.fn.parent[a]
            n += 1
        return n if a is not None else None

    def exact(self, text, target):
        """A path of `before`s, written so that it ends at this place."""
        m = re.fullmatch(rf"({ID})((?:\.before)*)", text)
        if m and self.env.get(m[1], ("",))[0] == "place":
            n = self.depth(self.env[m[1]][1], target)
            if n is not None:
                return m[1] + ".before" * n
        return None

    def segs(self, kind, segs):
        if kind[0] == "place":
            return resolve(self.fn, kind[1], segs, self.warn)[0]
        if kind[0] == "rec":
            f, took = numeric(kind[1], segs, kind[2])
            if f:
                return [f] + segs[took:]
        if kind[0] == "alias":
            return resolve(self.fn, kind[2], kind[3] + segs, self.warn)[0]
        return segs

    def turn(self, text):
        """Rewrites the paths of a text, left to right, and learns what each let binds."""
        out = []
        i = 0
        n = len(text)
        LET = re.compile(rf"let ({ID})(?: : ([^=]*?))? = ")
        LAM = re.compile(rf"λ \(({ID}) : (?:tie\.)?({ID})\)\.")
        while i < n:
            if text.startswith("--", i) and (i == 0 or text[i - 1] in " \n"):
                e = text.find("\n", i)
                e = n if e < 0 else e
                out.append(text[i:e])
                i = e
                continue
            if text[i] == '"':
                e = text.find('"', i + 1)
                out.append(text[i:e + 1])
                i = e + 1
                continue
            m = LET.match(text, i) if (i == 0 or not re.match(rf"[^\s(){{}};,\[\]]", text[i - 1])) else None
            if m:
                # the bound expression ends at its `in`
                e = self.end_of_let(text, m.end())
                kind = self.head(text[m.end():e]) if e > 0 else None
                if WALK[0] and kind and kind[0] == "place":
                    bound = text[m.end():e].strip()
                    for h, target in self.takes.items():
                        if re.search(rf"(?<![^\s(){{}};,]){re.escape(h)} {re.escape(m[1])}(?![^\s(){{}};,])", text[e:]):
                            fixed = self.exact(bound, target)
                            if fixed:
                                kind = ("place", target)
                                text = text[: m.end()] + fixed + " " + text[e:]
                                n = len(text)
                            break
                if kind:
                    self.env[m[1]] = kind
                else:
                    self.env.pop(m[1], None)
                if kind and kind[0] == "alias" and not WALK[0]:
                    i = e + 2
                    while i < n and text[i] in " \n":
                        i += 1
                    continue
                if not WALK[0] and kind and kind[0] == "place" and re.fullmatch(rf"\s*{ID}(\.before)*\s*", text[m.end():e]):
                    root = text[m.end():e].strip().split(".")[0]
                    self.root[m[1]] = self.root.get(root, root)
                    i = e + 2
                    while i < n and text[i] in " \n":
                        i += 1
                    continue
                out.append(f"let {m[1]}" + (f" : {self.turn(m[2])}" if m[2] else "") + " = ")
                i = m.end()
                continue
            m = re.match(rf"({ID}) ({ID}(?:\.before)+)(?![^\s(){{}};,])", text[i:]) if WALK[0] and (i == 0 or re.match(r"[\s(){};,\[\]]", text[i - 1])) else None
            if m and m[1] in self.takes:
                fixed = self.exact(m[2], self.takes[m[1]])
                if fixed:
                    out.append(f"{m[1]} {fixed}")
                    i += m.end()
                    continue
            m = PATH.match(text, i) if (i == 0 or re.match(r"[\s(){};,\[\]]", text[i - 1])) else None
            if m and m[1] in self.env:
                kind = self.env[m[1]]
                segs = self.segs(kind, m[2].split(".")[1:])
                name = kind[1] if kind[0] == "alias" else m[1]
                out.append(".".join([self.root.get(name, name)] + segs))
                i = m.end()
                continue
            if m:
                segs = ["invariant" if it == "inv" else it for it in m[2].split(".")]
                out.append(m[1] + ".".join(segs) if not m[1] == "tie" else self.of_tie(m[0]))
                i = m.end()
                continue
            m = re.match(rf"{ID}", text[i:]) if (i == 0 or re.match(r"[\s(){};,\[\]]", text[i - 1])) else None
            if m and m[0] in self.root:
                self.warn(f"a place is passed on: {m[0]}")
            if text[i] == "(":
                e = matching(text, i)
                t = re.match(rf"(?:\.{ID})+", text[e + 1:]) if e > 0 else None
                if t:
                    kind = self.head(text[i:e + 1])
                    inner = self.turn(text[i:e + 1][1:-1])
                    out.append("(" + inner + ")")
                    segs = t[0].split(".")[1:]
                    if kind:
                        segs = self.segs(kind, segs)
                    out.append("".join("." + s for s in segs))
                    i = e + 1 + t.end()
                    continue
            out.append(text[i])
            i += 1
        return "".join(out)

    def of_tie(self, word):
        name = word[4:]
        p = self.fn.place(name)
        if p is not None:
            return ("tie." if WALK[0] else "") + self.fn.new_place[p]
        if WALK[0]:
            m = re.match(r"(invariant|decreases)-(.+)", name)
            if m:
                for pair, _ in self.fn.loops:
                    if norm(pair[0]) == norm(m[2]):
                        return f"tie.{m[1]}-{pair[1]}"
            if name.startswith("Need-") and strip_need(name[5:]) in self.fn.needs:
                return "tie.Need-" + self.fn.needs[strip_need(name[5:])][1]
            if name not in ("close", "spec"):
                self.warn(f"left: tie.{name}")
            return word
        return "goal." + name

    def end_of_let(self, text, at):
        depth, lets = 0, 0
        i = at
        while i < len(text):
            ch = text[i]
            if ch in "({[":
                depth += 1
            elif ch in ")}]":
                depth -= 1
                if depth < 0:
                    return -1
            elif depth == 0:
                w = re.match(rf"({ID})", text[i:])
                if w and (i == 0 or re.match(r"[\s(){};,\[\]]", text[i - 1])):
                    if w[1] == "let":
                        lets += 1
                    elif w[1] == "in":
                        if lets == 0:
                            return i
                        lets -= 1
                    i += len(w[1])
                    continue
            i += 1
        return -1


def split_tail(body):
    """The lets of a body, and what stands behind them."""
    i = 0
    b = Body.__new__(Body)
    while True:
        m = re.match(r"\s*let \S+ ", body[i:]) or re.match(r"\s*let \S+ :", body[i:])
        if not m:
            return body[:i], body[i:]
        eq = body.find("= ", i + m.end() - 2)
        e = Body.end_of_let(b, body, eq + 2)
        if e < 0:
            return body[:i], body[i:]
        i = e + 2


def commas(text):
    out, depth, last = [], 0, 0
    for i, ch in enumerate(text):
        if ch in "({[":
            depth += 1
        elif ch in ")}]":
            depth -= 1
        elif ch == "," and depth == 0:
            out.append(text[last:i])
            last = i + 1
    if text[last:].strip():
        out.append(text[last:])
    return out


def as_record(body, fields, warn):
    lets, tail = split_tail(body)
    t = tail.strip()
    parts, left = [], t
    for k in range(len(fields) - 1):
        if left.startswith("(") and matching(left, 0) == len(left) - 1:
            c = commas(left[1:-1])
            if len(c) == 2:
                parts.append(c[0].strip())
                left = c[1].strip()
                continue
            if len(c) == len(fields) - k:
                parts += [x.strip() for x in c[:-1]]
                left = c[-1].strip()
                break
        break
    if len(parts) == len(fields) - 1:
        parts.append(left)
        return lets + " record { " + "; ".join(f"{f} = {p}" for f, p in zip(fields, parts)) + " }"
    # what cannot be taken apart is taken by its numbers
    warn("a tuple is taken by its numbers")
    got = [".1" * k + (".0" if k < len(fields) - 1 else "") for k in range(len(fields))]
    return lets + f" let told = {t} in record {{ " + "; ".join(f"{f} = told{g}" for f, g in zip(fields, got)) + " }"


def groups(lines, indent):
    """Splits lines into groups, each begun by a line at this indent."""
    out = []
    for l in lines:
        if not l.strip():
            if out:
                out[-1].append(l)
            continue
        ind = len(l) - len(l.lstrip())
        if ind <= indent and l.strip()[0] not in "])}":
            out.append([l])
        elif out:
            out[-1].append(l)
        else:
            out.append([l])
    return out


class Clause:
    """`name params = body`, cut at the first `=` outside brackets."""

    def __init__(self, name, params, body):
        self.parts = [None, name, params, body]

    def __getitem__(self, k):
        return self.parts[k]


def clause(raw):
    depth = 0
    for i, ch in enumerate(raw):
        if ch in "({[":
            depth += 1
        elif ch in ")}]":
            depth -= 1
        elif ch == "=" and depth == 0 and raw[i - 1] in " \n" and raw[i + 1: i + 2] in (" ", "\n"):
            words = raw[:i].split(None, 1)
            if not words or ":" in words[:1]:
                return None
            return Clause(words[0], words[1].strip() if len(words) > 1 else "", raw[i + 1:])
    return None


def signature(raw):
    m = re.match(rf"^\s*((?:(?:pub|abbrev|unfoldable) )*)({ID}) :\s", raw)
    return m and Clause(m[1], m[2], raw[m.end():]) and [None, m[1], m[2], raw[m.end():]]


BINDER = re.compile(rf"\(((?:{ID} )*{ID}) : tie\.({ID})(?: [^()]*)?\)")


class Converter:
    def __init__(self, fn, crate, path):
        self.fn, self.crate, self.path = fn, crate, path
        self.warn = Warn()
        self.uses, self.inv, self.ans, self.comments = [], [], [], []
        self.funcs = {}
        self.needs_of = {}
        self.places_used = set()
        self.takes = {}
        self.module_place = None
        self.module_env = {}
        self.has = {}  # the local name of each goal
        self.out = []
        self.locals = []  # names of top-level helpers
        self.dropped = 0

    def run(self, text):
        gs = groups(text.split("\n"), 0)
        self.walk(gs, 0, {}, top=True)
        return self

    def collect_places(self, text):
        for m in re.finditer(rf"tie\.({ID})", text):
            p = self.fn.place(m[1])
            if p is not None:
                self.places_used.add(self.fn.new_place[p])

    def walk(self, gs, indent, env, top):
        sigs = {}
        pending = []
        for g in gs:
            raw = "\n".join(g).rstrip()
            s = raw.strip()
            if s.startswith("--"):
                if top and not self.uses and not self.ans:
                    self.comments.append(raw)
                else:
                    self.ans.append(raw)
                continue
            if s.startswith("use "):
                if ".Statement" in s or ".Tie" in s:
                    continue
                self.uses.append(raw)
                continue
            if s.startswith("module "):
                head, _, rest = raw.partition("where")
                inner = dict(env)
                for m in BINDER.finditer(head):
                    p = self.fn.place(m[2])
                    for v in m[1].split():
                        if p is not None:
                            inner[v] = ("place", p)
                        else:
                            self.warn(f"no place {m[2]}")
                self.collect_places(head)
                b = Body(self.fn, env, self.funcs, self.warn)
                self.ans.append(b.turn(head).rstrip() + " where")
                body = rest.split("\n")[1:]
                places = [k[1] for k in inner.values() if k[0] == "place"]
                self.module_place = places[0] if places else None
                self.walk(groups(body, indent + 2), indent + 2, inner, False)
                self.module_place = None
                self.ans.append("")
                continue
            if s.startswith("unfolding "):
                pending.append(raw)
                continue
            m = signature(raw)
            c = None if m else clause(raw)
            if m:
                sigs[m[2]] = (m[1], m[3], raw)
                pending = []
                continue
            if not c:
                self.warn(f"not read: {raw[:60]!r}")
                self.ans.append(raw)
                continue
            name, params, body = c[1], c[2].strip(), c[3]
            mods, typ, sraw = sigs.get(name, ("", "", ""))
            self.declare(indent, name, mods, typ, sraw, pending, params, body, env, top)
            sigs[name] = ("", typ, "")
            pending = []

    def declare(self, indent, name, mods, typ, sraw, pending, params, body, env, top):
        fn = self.fn
        t = typ.strip()
        if "statement" in t or "tie.close" in body:
            return
        pad = " " * indent
        m = re.match(r"tie\.(invariant|decreases)-(\S+)", t)
        if m:
            self.invariant(name, m[1], m[2], params, body)
            return
        m = re.match(rf"tie\.Need-({ID})", t)
        env = dict(env)
        if m:
            key = self.goal(m[1], name, sraw, params, body, env)
            if not key:
                return
            new = fn.needs[key][1]
            ps = params.split()
            plain = body.strip()
            if new.startswith("enum_known") or plain in ("search rules", "tt", "search (rules, arith)"):
                self.dropped += 1
                return
            text = Body(fn, env, self.funcs, self.warn).turn(body)
            if key in fn.asked:
                text = as_record(text, fn.asked[key], self.warn)
            used = [p for p in ps if p != "κs" or re.search(r"(?<!\w)κs(?!\w)", body)]
            used = used[:1] if len(used) <= 2 and "κs" in used else used
            self.ans += [f"pub {new} : goal.{new}"] + [p.strip() for p in pending] + [f"{new} {' '.join(used)} = {text.strip()}", ""]
            return
        # a helper
        self.collect_places(typ)
        self.collect_places(body)
        self.helper(name, typ, params, env, top)
        b = Body(fn, {**self.module_env, **env} if not top else env, self.funcs, self.warn)
        if sraw:
            self.ans.append(pad + b.turn(sraw.strip()))
        for p in pending:
            self.ans.append(p)
        self.ans.append(f"{pad}{name}{' ' if params else ''}{params} = {b.turn(body)}")
        self.ans.append("")
        if top:
            self.locals.append(name)

    def goal(self, need, name, sraw, params, body, env):
        """The key of the goal that an answer is for, with the answer's first argument at the goal's place; None where there is none."""
        key = strip_need(need)
        if key not in self.fn.needs:
            self.warn(f"no goal for {need}")
            self.ans.append("-- left: " + (sraw + "\n" + name + " " + params + " = " + body).replace("\n", "\n-- "))
            return None
        ps = params.split()
        if ps and self.fn.need_place[key] is not None:
            env[ps[0]] = ("place", self.fn.need_place[key])
        return key

    def helper(self, name, typ, params, env, top):
        """Notes the places that a helper's arguments stand at, by its type, and the place that it gives, if it gives one."""
        fn = self.fn
        plist = re.findall(rf"\((?:[^()]|\([^()]*\))*\)|\{{[^{{}}]*\}}|\[\]|{ID}", params)
        binders = re.findall(rf"\(((?:{ID} )*{ID}) :|\{{((?:{ID} )*{ID}) :", typ)
        order = [v for a, b in binders for v in (a or b).split() if a]
        for v, old in [(v, bm[2]) for bm in BINDER.finditer(typ) for v in bm[1].split()]:
            p = fn.place(old)
            if p is None:
                self.warn(f"no place {old}")
                continue
            env[v] = ("place", p)
            if order and v == order[0]:
                self.takes[name] = p
            if v in order and order.index(v) < len(plist):
                env[plist[order.index(v)]] = ("place", p)
        # places without a binder: `tie.P → ..`
        arrows = re.split(r"→", typ)
        k = 0
        for a in arrows[:-1]:
            m = re.fullmatch(rf"tie\.({ID})(?: .*)?", a.strip())
            p = fn.place(m[1]) if m and k < len(plist) else None
            if p is not None:
                env[plist[k]] = ("place", p)
                if k == 0:
                    self.takes[name] = p
            bm = re.findall(rf"\(((?:{ID} )*{ID}) :", a)
            k += sum(len(x.split()) for x in bm) if bm else 1
        m = re.fullmatch(rf"tie\.({ID})(?: .*)?", arrows[-1].strip())
        p = fn.place(m[1]) if m else None
        if p is not None:
            self.funcs[name] = p
            if not top and not params:
                self.module_env[name] = ("place", p)
        return p

    def invariant(self, name, kind, loop, params, body):
        fn = self.fn
        for (pair, names), changed in zip(fn.loops, fn.changed):
            if norm(pair[0]) == norm(loop):
                break
        else:
            self.warn(f"no loop {loop}")
            self.inv.append("-- left: " + body.replace("\n", "\n-- "))
            return
        args = re.findall(rf"{ID}", params)
        to = {}
        full = [("l.initial." if c else "l.") + n for n, c in zip(names, changed)] + ["l." + n for n, c in zip(names, changed) if c]
        if len(args) != len(full):
            self.warn(f"the loop {loop} has {len(full)} values and the file {len(args)}: {names} {changed} {args}")
        for a, f in zip(args, full):
            to[a] = f
        text = re.sub(rf"(?<![^\s(){{}};,\[\]])({ID})", lambda m: to.get(m[1], m[1]) if m[1] in to else m[1], body)
        new = pair[1]
        self.inv += [f"abbrev pub {kind}-{new} : goal.{kind}-{new}", f"{kind}-{new} l = {text.strip()}", ""]


class Walker(Converter):
    """Keeps Proof.antt, with today's names."""

    def text(self, text):
        WALK[0] = True
        gs = groups(text.split("\n"), 0)
        self.walk(gs, 0, {}, True)
        out = "\n".join(self.comments + self.uses) + "\n" + "\n".join(self.ans)
        WALK[0] = False
        return out

    def walk(self, gs, indent, env, top):
        if top:
            keep = []
            for g in gs:
                s = "\n".join(g).strip()
                if s.startswith("use ") and (".Statement" in s or ".Tie" in s):
                    self.uses.append(s)
                else:
                    keep.append(g)
            gs = keep
        super().walk(gs, indent, env, top)

    def declare(self, indent, name, mods, typ, sraw, pending, params, body, env, top):
        fn = self.fn
        t = typ.strip()
        pad = " " * indent
        if "tie.close" in body:
            args = re.search(r"tie\.spec\b(.*?)\)\s*$", body, re.S)
            given = args[1].split() if args else None
            out = []
            loops = [f"{k}-{pair[1]}" for pair, _ in fn.loops for k in ("invariant", "decreases")]
            inv = given[: len(loops)]
            out += inv
            for old, new in fn.lts["needs"]:
                if new in self.has:
                    out.append(self.has[new])
                else:
                    self.warn(f"a new goal {new}")
                    self.ans += [f"{new} : tie.Need-{new}{''.join(' ' + i for i in inv)}", f"{new} c = search rules", ""]
                    out.append(new)
            spec = (fn.path.split(".")[-1]) + "_spec"
            self.ans += [f"pub {spec} : {{M : Type 1}} → statement M", f"{spec} = tie.close (tie.spec {' '.join(out)})", ""]
            return
        env = dict(env)
        m = re.match(rf"tie\.Need-({ID})", t)
        if m:
            key = self.goal(m[1], name, sraw, params, body, env)
            if not key:
                return
            self.has[fn.needs[key][1]] = name
        given = None if m else self.helper(name, typ, params, env, top)
        if self.module_place is not None and not m:
            self.takes[name] = self.module_place
        b = Body(fn, {**self.module_env, **env} if not top else env, self.funcs, self.warn)
        b.takes = {k: v for k, v in self.takes.items() if self.module_place is None or v != self.module_place}
        if sraw:
            self.ans.append(pad + b.turn(sraw.strip()))
        for p in pending:
            self.ans.append(p)
        if given is not None:
            fixed = b.exact(body.strip(), given)
            body = " " + fixed if fixed else body
        self.ans.append(f"{pad}{name}{' ' if params else ''}{params} = {b.turn(body)}")
        self.ans.append("")


def write(path, text):
    os.makedirs(os.path.dirname(path), exist_ok=True)
    with open(path, "w") as f:
        f.write(text.rstrip() + "\n")


def convert(names, root, crate, only, walk):
    data = json.load(open(f"{names}/crates/{crate}/names.json"))
    base = f"{root}/crates/{crate}/proofs"
    for folder, _, files in sorted(os.walk(base)):
        if "Proof.antt" not in files:
            continue
        f = os.path.relpath(folder, base).replace("/", ".")
        if only and f not in only:
            continue
        key = f"Rattle-{crate}-proofs.{f}.Lts"
        if key not in data:
            print(f"{crate} {f}: no names")
            continue
        text = open(f"{folder}/Proof.antt").read()
        if "tie.spec" not in text:
            print(f"{crate} {f}: left, it walks by hand")
            continue
        if f.startswith("+") or data[key].get("stem"):
            print(f"{crate} {f}: a cycle: look")
        fn = Fn(data[key])
        fn.path = f
        helpers = re.search(rf"\((?:{ID} )*{ID} : tie\.(?!Need)", text) or re.search(r"(?m): tie\.(?!Need|invariant|decreases)\S+ →", text)
        if helpers or walk:
            w = Walker(fn, crate, f)
            write(f"{folder}/Proof.antt", w.text(text))
            print(f"{crate} {f}: walks", *sorted(set(w.warn.said)), sep="\n    ")
            continue
        c = Converter(fn, crate, f).run(text)
        inv = "\n".join(c.inv)
        uses = "\n".join(c.uses)
        dotted = f"Rattle.{crate}.proofs.{f}"
        comments = "\n".join(c.comments)
        if c.inv:
            moved = [n for n in c.locals if re.search(rf"(?<![^\s(){{}};,\[\].]){re.escape(n)}(?![^\s(){{}};,\[\].])", inv)]
            if moved:
                c.warn(f"the invariant names helpers of the file: {moved}")
            write(f"{folder}/Invariants.antt", f"{uses}\nuse {dotted}.Given as goal\n\n{inv}")
        ans = "\n".join(c.ans)
        places = sorted(p for p in c.places_used)
        more = f"\nuse {dotted}.Goals.{{{', '.join(places)}}}" if places else ""
        if ans.strip():
            write(f"{folder}/Answers.antt", f"{comments}\n{uses}\nuse {dotted}.Goals as goal{more}\n\n{ans}")
        os.remove(f"{folder}/Proof.antt")
        if c.warn.said:
            print(f"{crate} {f}:")
            for w in sorted(set(c.warn.said)):
                print(f"    {w}")


def main():
    args = sys.argv[1:]
    only = None
    walk = "--walk" in args
    args = [a for a in args if a != "--walk"]
    if "--only" in args:
        i = args.index("--only")
        only = args[i + 1].split(",")
        del args[i:i + 2]
    names, root, *crates = args
    for c in crates:
        convert(names, root, c, only, walk)


main()
