#!/usr/bin/env python3
"""Turns a crate's proofs/F/Proof.antt, which hands each answer to the borrow checker's `spec`, into Invariants.antt and Answers.antt.

usage: answers.py CRATE-FOLDER NAMES.JSON [FUNCTION..]

NAMES.JSON is what `rt check --generated DIR --old-names` writes in the crate: the old and the new name of each goal, step and loop.
Answers that only say `omega arith` or `search rules` are left out, since the check tries more by itself. A file that it cannot turn stays, and it says why.
"""
import glob
import json
import os
import re
import sys

W = r"[^\s(){}.;,@\"«»\[\]\\]+"
n = lambda s: s.replace("_", "-").lower()


class Left(Exception):
    pass


class Names:
    def __init__(self, mod):
        self.needs, self.needs_new = {}, {}
        self.need_place = {}
        self.new_goals = [b for a, b in mod["needs"]]
        for (a, b), (pa, pb) in zip(mod["needs"], mod["asked_at"]):
            self.needs.setdefault(n(a), b)
            self.needs_new.setdefault(n(b), b)
            self.need_place[b] = pa
        self.ends = {pa for (a, b), (pa, pb) in zip(mod["needs"], mod["asked_at"]) if b.startswith("returns")}
        self.settled = {n(s) for s in mod["settled"]}
        self.parent, self.step, self.newplace, self.callee = {}, {}, {}, {}
        for (name, parent, st, callee, *_), nn in zip(mod["places"], mod["places_by_name"]):
            self.parent[name] = parent
            self.step[name] = st
            self.newplace[name] = nn
            self.callee[name] = callee
        self.byn = {}
        for p in self.parent:
            self.byn.setdefault(n(p), p)
        for p, q in self.newplace.items():
            self.byn.setdefault(n(q), p)
        self.typed = {}
        for (name, *_), t in zip(mod["places"], mod["typed"]):
            self.typed[name] = {n(s): x for x, s in t}
        self.used, self.wants = set(), set()
        self.params = mod['params']
        self.clauses = {}
        for (name, *_), c in zip(mod["places"], mod["clauses"]):
            if c:
                self.clauses[name] = c["fields"]
        self.loops = {}
        for (ln, vs), ch in zip(mod["loops"], mod["changed"]):
            self.loops[n(ln[0])] = (ln[1], vs, ch)
            self.loops.setdefault(n(ln[1]), (ln[1], vs, ch))

    def place(self, text):
        k = n(text)
        if k not in self.byn:
            raise Left(f"no place {text}")
        return self.byn[k]

    def goal(self, k):
        k = n(k)
        for table in (self.needs, self.needs_new):
            for pre in ("overflow-", "nonzero-", ""):
                if k.startswith(pre) and k[len(pre):] in table:
                    return table[k[len(pre):]]
        return None

    def up(self, place, times):
        for _ in range(times):
            place = self.parent[place] or place
        return place

    def bare(self, root, at, place, goal):
        """A place as an argument, from the place of the root."""
        new = self.newplace[place]
        if goal:
            self.used.add(new)
            return f"(goal.at.{goal} {root}).{new}"
        if place == at:
            return root
        self.used |= {new, self.newplace[at]}
        return f"(goal.at.{self.newplace[at]} {root}).{new}"

    def field(self, place, field):
        """The new name of a field that is read at a place or above it, and the place's callee."""
        f = n(field)
        if f in ("args", "ranges", "lifetimes", "requires", "well-formed", "type-inv", "pinned"):
            return field.replace("-", "_") if f != "requires" else field, None
        if f == "pre":
            return "requires", None
        if f == "good":
            return "well_formed", None
        if f == "fits":
            return "ranges", None
        for k in (0, 1):
            p = place
            while p is not None:
                st = self.step[p]
                if st and n(st[k]) == f:
                    return st[1], p
                p = self.parent[p]
        return None, None


def blocks(text):
    """The file's head comment, its use lines, and its declarations: (comments, signature, rest)."""
    lines = text.split("\n")
    i = 0
    head, uses = [], []
    while i < len(lines) and (lines[i].startswith("--") or not lines[i].strip()):
        if lines[i].strip():
            head.append(lines[i])
        elif head and any(l.startswith("use ") for l in lines[i:]):
            pass
        i += 1
    while i < len(lines) and (lines[i].startswith("use ") or lines[i].startswith("    ") or not lines[i].strip()):
        if lines[i].startswith("use "):
            uses.append(lines[i])
        elif lines[i].strip():
            uses[-1] += "\n" + lines[i]
        i += 1
    decls = []
    comments, cur = [], None
    for l in lines[i:]:
        m = re.match(r"(?:(?:abbrev|unfoldable|pub) )*(%s) :(?=\s|$)" % W, l)
        if l.startswith("--"):
            comments.append(l)
            continue
        if m and not l.startswith(" "):
            cur = [comments, m.group(1), [l]]
            comments = []
            decls.append(cur)
            continue
        if cur is None:
            if l.strip():
                raise Left(f"a line before any declaration: {l}")
            continue
        if comments and l.strip():
            cur[2] += comments
            comments = []
        cur[2].append(l)
    for d in decls:
        while d[2] and not d[2][-1].strip():
            d[2].pop()
    return head, uses, decls


def split_decl(d):
    """Signature text, unfolding lines, equations."""
    sig, unf, eqs = [], [], []
    state = "sig"
    for l in d[2]:
        if state == "sig":
            if l.startswith("unfolding "):
                unf.append(l)
                state = "unf"
                continue
            if l.startswith(d[1] + " ") or l.startswith(d[1] + "\n"):
                if sig:
                    state = "eq"
            if state == "sig":
                sig.append(l)
                continue
        elif state == "unf":
            state = "eq"
        eqs.append(l)
    return "\n".join(sig), unf, "\n".join(eqs)


def word(w):
    return r"(?<![^\s(){}.;,@\"«»\[\]\\])(?<!\.)" + re.escape(w) + r"(?![^\s(){}.;,@\"«»\[\]\\])"


def arrows(ty):
    """The parts of a type between its arrows at the top."""
    out, depth, cur, i = [], 0, "", 0
    while i < len(ty):
        c = ty[i]
        if c in "({[⟨":
            depth += 1
        elif c in ")}]⟩":
            depth -= 1
        if depth == 0 and c == "→":
            out.append(cur.strip())
            cur = ""
            i += 1
            continue
        if depth == 0 and re.match(r"(?<![^\s])let\s", ty[i:]) and not cur.strip():
            cur += ty[i:]
            break
        cur += c
        i += 1
    out.append(cur.strip())
    return out


def place_params(ty, params, names):
    """The parameters of a helper that are places, by its type: those that the type names, and those of the equation; and by their number."""
    insig, ineq, pos, i = {}, {}, {}, 0
    for part in arrows(ty)[:-1]:
        m = re.fullmatch(r"\(((?:%s )+): (.*)\)" % W, part, re.S)
        if m:
            vs, of = m.group(1).split(), m.group(2).strip()
        elif part.startswith("{"):
            continue
        else:
            vs, of = [None], part
        k = re.match(r"tie\.(%s)" % W, of)
        for v in vs:
            if k:
                pl = names.place(k.group(1))
                if v:
                    insig[v] = pl
                if i < len(params):
                    ineq[params[i]] = pl
                pos[i] = pl
            i += 1
    return insig, ineq, pos


def resolve(body, roots, names, starts, helpers, goal=None):
    """Rewrites each path from a place: flat for a field, and a bare place by the place that is wanted."""
    alias = {r: (r, roots[r], None) for r in roots}
    P = r"%s(?:\.before)*" % W

    def place_expr(e):
        e = e.strip()
        while e.startswith("(") and e.endswith(")"):
            d, ok = 0, True
            for j, ch in enumerate(e):
                d += (ch == "(") - (ch == ")")
                if d == 0 and j < len(e) - 1:
                    ok = False
            if not ok:
                break
            e = e[1:-1].strip()
        m = re.fullmatch(r"(%s?)((?:\.before)*)" % W, e)
        if m and m.group(1) in alias:
            r, pl, st = alias[m.group(1)]
            k = m.group(2).count(".before")
            return (r, names.up(pl, k), st if not k else None)
        m = re.fullmatch(r"\((.*)\)((?:\.before)+)", e, re.S)
        if m:
            inner = place_expr(m.group(1))
            if inner:
                return (inner[0], names.up(inner[1], m.group(2).count(".before")), None)
        m = re.match(r"(%s) " % W, e)
        if m and m.group(1) in starts:
            inner = place_expr(e[m.end():])
            if inner is None:
                return None
            return (inner[0], starts[m.group(1)], (m.group(1), inner))
        return None

    count = [0]

    def mark(pe):
        count[0] += 1
        k = f"◊{count[0]}◊"
        alias[k] = pe
        return k

    def calls(body):
        # start PATH, inner ones first
        for _ in range(200):
            hit = None
            for s in starts:
                for m in re.finditer(word(s) + r" (\((?:[^()]|\([^()]*\))*\)|◊\d+◊(?:\.before)*|%s)" % P, body):
                    pe = place_expr(m.group(0))
                    if pe is not None and (hit is None or m.start() > hit[0].start()):
                        hit = (m, pe)
            if not hit:
                return body
            m, pe = hit
            k = mark(pe)
            body = body[: m.start()] + k + body[m.end():]
            body = body.replace(f"({k})", k)
        return body

    body = calls(body)
    while True:
        hit = None
        for m in re.finditer(r"let (%s) = ((?:[^()=]|\([^()]*\))*?) in(?=\s)[ ]?" % W, body):
            pe = place_expr(m.group(2))
            if pe is not None:
                hit = (m, pe)
                break
        if not hit:
            break
        m, pe = hit
        x = m.group(1)
        rest = body[m.end():]
        if re.search(r"let %s[ :]" % re.escape(x), rest) or re.search(r"λ \(?%s[ .:]" % re.escape(x), rest):
            raise Left(f"{x} is bound twice")
        rest = re.sub(word(x), mark(pe), rest)
        before = body[: m.start()]
        if before.split("\n")[-1].strip() == "" and rest.startswith("\n"):
            rest = rest.lstrip()
        elif rest.startswith("\n") and before.endswith(" "):
            before = before.rstrip(" ")
        body = calls(before + rest)
    out, i = [], 0
    keys = "|".join(re.escape(r) for r in sorted(roots, key=len, reverse=True)) or "◊◊"
    rx = re.compile(r"(?<![^\s(){};,@\"«»\[\]\\])(◊\d+◊|%s)((?:\.(?:%s))*)" % (keys, W))
    for m in rx.finditer(body):
        if m.start() < i:
            continue
        if m.end() < len(body) and not re.match(r"[\s(){}.;,@\"«»\[\]\\]", body[m.end()]):
            continue
        root, place, st = alias[m.group(1)]
        fields = [f for f in m.group(2).split(".") if f]
        while fields and fields[0] == "before":
            place = names.up(place, 1)
            st = None
            fields.pop(0)
        out.append(body[i:m.start()])
        i = m.end()
        if not fields:
            want = None
            pre = re.sub(r"[(]*$", "", "".join(out)).rstrip()
            toks = re.findall(r"%s|[(){}]" % W, pre)
            # the nearest helper before it, within its own call
            depth, args = 0, 0
            for tk in reversed(toks[-12:]):
                if tk in ")}":
                    depth += 1
                elif tk in "({":
                    depth -= 1
                    if depth < 0:
                        break
                elif depth <= 0 and tk in helpers:
                    want = helpers[tk].get(args, None) or (list(helpers[tk].values())[0] if len(set(helpers[tk].values())) == 1 else None)
                    break
                if depth == 0:
                    args += 1
            if want is not None:
                place = want
            out.append(names.bare(root, roots[root], place, goal))
            continue
        f, at = names.field(roots[root], fields[0])
        if f is None:
            raise Left(f"no field {fields[0]} at {place} (in {m.group(0)})")
        rest = fields[1:]
        typed = names.typed.get(roots[root], {})
        if rest and rest[0] == "given" and n(fields[0]) in typed and len(rest) == 1:
            out.append(f"{root}.type_inv.{typed[n(fields[0])]}")
            continue
        if fields[0] == "fits" and len(rest) == 1:
            rest = rest + ["fits"]
        if at is not None and re.match(r"Then|Else|In-loop|After-loop", at):
            rest = [{"taken": "true", "left": "false"}.get(rest[0], rest[0])] + rest[1:] if rest else rest
        arm = names.parent.get(at) if at is not None else None
        if rest[:2] == ["given", "1"] and arm and re.match(r"At-match\d*-keys", arm):
            f, rest = names.step[arm][1], ["is"] + rest[2:]
        if rest and rest[0] == "inv":
            rest = ["invariant"] + rest[1:]
        if len(rest) >= 2 and rest[0] == "last" and rest[1].isdigit():
            rest = ["new"] + rest[1:]
        if at is not None and len(rest) >= 2 and rest[0] == "new" and names.callee.get(at):
            ps = names.params.get(names.callee[at])
            j, q = 1, 0
            while j < len(rest) and rest[j] == "1":
                j, q = j + 1, q + 1
            if ps is not None and j < len(rest) and rest[j] == "0" and q < len(ps):
                rest = ["new", ps[q]] + rest[j + 1:]
        fs = names.clauses.get(at) if at is not None else None
        if fs and rest and rest[0] == "ensures" and not (len(rest) > 1 and rest[1] in fs):
            if len(fs) == 1:
                rest = ["ensures", fs[0]] + rest[1:]
            elif len(rest) > 1 and rest[1].isdigit() and int(rest[1]) < len(fs):
                rest = ["ensures", fs[int(rest[1])]] + rest[2:]
        text = ".".join([root, f] + rest)
        if re.match(r"if-not-", f) and rest in (["true"], ["false"]):
            text = f"(ap not {text})"
            names.wants.add("ap not")
        out.append(text)
    out.append(body[i:])
    text = "".join(out)
    if "◊" in text:
        raise Left("a place is left over")
    return text


def balanced(text, i):
    """The end of the bracket that opens at i."""
    d = 0
    for j in range(i, len(text)):
        d += (text[j] in "([{") - (text[j] in ")]}")
        if d == 0:
            return j + 1
    raise Left("a bracket stays open")


def leaves(names, step):
    """The branches of a join: each one's name, its places, by their sides."""
    join = [p for p in names.parent if names.step[p] and names.step[p][1] == step and p.startswith(("Joined", "At-match")) and ("branch" in p or p.startswith("Joined")) and "unread" not in p]
    if not join:
        raise Left(f"no join {step}")
    top = names.parent[join[0]]
    kids = lambda p: [q for q in names.parent if names.parent[q] == p and "unread" not in q and q not in join and not q.startswith("In-loop")]
    old = names.step[join[0]][0]
    low = lambda s: s[0].lower() + s[1:]
    out = []

    ends = names.ends

    def walk(p, chain, arms):
        """The ways on from a place that come to the join, as a tree of lists."""
        chain = chain + [p]
        if re.match(r"(Then|Else|At-match)", p) and not p.endswith("-branch"):
            arms = arms + [low(names.newplace[p])]
        elif p.startswith("After-loop"):
            arms = arms + ["else-" + names.step[p][1]]
        ks = kids(p)
        met = [q for q in ks if q.startswith("Joined") or q.endswith("-branch")]
        if met:
            return walk(met[0], chain, arms)
        tests = [q for q in ks if re.match(r"(Then|Else|At-match)", q)]
        if len(tests) >= 2:
            got = [w for w in (walk(q, chain, arms) for q in tests) if w]
            return got[0] if len(got) == 1 else got
        if len(ks) >= 1:
            return walk(ks[-1], chain, arms)
        return None if p in ends else ("+".join(arms), chain)

    def flat(w):
        if isinstance(w, tuple):
            out.append(w)
        for x in w if isinstance(w, list) else []:
            flat(x)

    flat([w for w in (walk(q, [], []) for q in kids(top) if names.step[q] and names.step[q][0] == old) if w])
    # The sum of the branches is nested to the right.
    last = len(out) - 1
    out = [([1] * k + ([0] if k < last else []), name, chain) for k, (name, chain) in enumerate(out)]
    told = lambda p: re.match(r"After-(way|enum|known)_told", p)
    return [(s, a, [p for p in ch if not told(p)]) for s, a, ch in out]


def turn_branches(text, names, also=""):
    """`⊎_elim (λ w. a) (λ w. b) c.S.branch` and `elim c.S.branch [ inl w ↦ a | inr w ↦ b ]` by the names of the branches."""

    def facts(body, w, chain, vars_):
        def one(m):
            k = int(m.group(1))
            rest = [f for f in m.group(2).split(".") if f]
            if k >= len(chain):
                if k - len(chain) >= len(vars_):
                    return ".".join([w, "VARIABLE-is"] + rest)
                return ".".join([w, vars_[k - len(chain)] + "-is"] + rest)
            place = chain[k]
            f = names.step[place][1]
            if rest[:1] == ["taken"]:
                rest[0] = "true"
            elif rest[:1] == ["left"]:
                rest[0] = "false"
            elif rest[:2] == ["given", "1"]:
                arm = names.parent[place]
                if arm and re.match(r"At-match\d*-keys", arm):
                    f = names.step[arm][1]
                rest = ["is"] + rest[2:]
            if len(rest) >= 2 and rest[0] == "last" and rest[1].isdigit():
                rest[0] = "new"
            if len(rest) >= 2 and rest[0] == "new" and names.callee.get(place):
                ps = names.params.get(names.callee[place])
                j, q = 1, 0
                while j < len(rest) and rest[j] == "1":
                    j, q = j + 1, q + 1
                if ps is not None and j < len(rest) and rest[j] == "0" and q < len(ps):
                    rest = ["new", ps[q]] + rest[j + 1:]
            out = ".".join([w, f] + rest)
            if f.startswith("if-not-") and rest in (["true"], ["false"]):
                names.wants.add("ap not")
                out = f"(ap not {out})"
            return out
        return re.sub(r"(?<![^\s(){};,])%s\.(\d+)((?:\.[\w-]+)*)" % re.escape(w), one, body)

    def variables(step):
        seen = []
        for v in re.findall(re.escape(step) + r"\.([\w]+)", also + text):
            if v != "branch" and v not in seen:
                seen.append(v)
        order = {v: k for _, vs, _ in names.loops.values() for k, v in enumerate(vs)}
        return sorted(seen, key=lambda v: order[v]) if all(v in order for v in seen) else seen

    for _ in range(20):
        m = re.search(r"⊎_elim\s+\(", text)
        if not m:
            break
        a0 = m.end() - 1
        a1 = balanced(text, a0)
        gap = re.match(r"\s*", text[a1:]).end()
        b0 = a1 + gap
        if text[b0] != "(":
            raise Left("a ⊎_elim of another shape")
        b1 = balanced(text, b0)
        c = re.match(r"\s*\(?([\w-]+)\.([^\s.()]+)\.branch\)?", text[b1:])
        if not c:
            raise Left("a ⊎_elim over something else")
        step = c.group(2)
        ls = leaves(names, step)
        sides = [text[a0 + 1:a1 - 1], text[b0 + 1:b1 - 1]]
        arms = []

        def arms_of(side, src):
            f = re.match(r"λ (\w+)\. ?", src)
            if f:
                hit = [l for l in ls if l[0] == side]
                if len(hit) != 1:
                    raise Left(f"branches {ls}, and {side} wanted")
                _, name, chain = hit[0]
                names.used.add(name)
                arms.append((name, f.group(1), facts(src[f.end():], f.group(1), chain, variables(f"{c.group(1)}.{step}"))))
                return
            f = re.match(r"⊎_elim\s+\(", src)
            if f:
                x1 = balanced(src, f.end() - 1)
                y0 = x1 + re.match(r"\s*", src[x1:]).end()
                y1 = balanced(src, y0)
                arms_of(side + [0], src[f.end():x1 - 1])
                arms_of(side + [1], src[y0 + 1:y1 - 1])
                return
            raise Left(f"a branch that is no λ: {src[:40]}")

        arms_of([0], sides[0])
        arms_of([1], sides[1])
        new = f"elim {c.group(1)}.{step}.branch [ " + " | ".join(f"{nm} {w} ↦ {b}" for nm, w, b in arms) + " ]"
        if len(new) > 120:
            line = text[:m.start()].split("\n")[-1]
            ind = " " * (len(line) - len(line.lstrip()) + 2)
            new = f"elim {c.group(1)}.{step}.branch [\n" + "".join(f"{ind}| {nm} {w} ↦ {b}\n" for nm, w, b in arms) + ind[2:] + "]"
        pre = text[:m.start()]
        end = b1 + c.end()
        tail = text[end:]
        if c.group(0).rstrip().endswith(")") and "(" not in c.group(0):
            tail = ")" + tail
        atomic = pre.rstrip().endswith(("(", "=", ",", "in", "↦"))
        text = pre + (new if atomic else f"({new})") + tail
    for m in list(re.finditer(r"elim ([\w-]+)\.([^\s.()]+)\.branch \[", text))[::-1]:
        e = balanced(text, m.end() - 1)
        inner = text[m.end():e - 1]
        if not re.match(r"\s*\|?\s*\(?in[lr]\s", inner):
            continue
        ls = leaves(names, m.group(2))
        vs = variables(f"{m.group(1)}.{m.group(2)}")
        parts = []
        heads = list(re.finditer(r"(\|\s*|\A\s*)((?:\(?in[lr]\s+)+)(\w+)\)*\s*↦", inner))
        res, last = "", 0
        for k, h in enumerate(heads):
            side = [0 if x == "inl" else 1 for x in re.findall(r"in[lr]", h.group(2))]
            hit = [l for l in ls if l[0] == side]
            if len(hit) != 1:
                raise Left(f"branches {ls}, and {side} wanted")
            _, name, chain = hit[0]
            names.used.add(name)
            stop = heads[k + 1].start() if k + 1 < len(heads) else len(inner)
            res += inner[last:h.start()] + (h.group(1) or "") + f"{name} {h.group(3)} ↦" + facts(inner[h.end():stop], h.group(3), chain, vs)
            last = stop
        text = text[:m.end()] + res + text[e - 1:]
    return text


def loop_fields(eq, name, names, key):
    """An invariant or a measure, whose parameters become fields of l."""
    m = re.match(re.escape(name) + r" ([^=]*?) =(?=\s)", eq)
    if not m:
        raise Left(f"cannot read {name}")
    params = m.group(1).split()
    new, vs, ch = names.loops[key]
    want = []
    for v, c in zip(vs, ch):
        want.append(("l.initial." if c == "True" or c is True else "l.") + v)
    want += ["l." + v for v, c in zip(vs, ch) if c == "True" or c is True]
    if len(params) != len(want):
        raise Left(f"{name}: {len(params)} parameters, and {len(want)} wanted: {want}")
    body = eq[m.end():]
    if re.search(r"^%s " % re.escape(name), body, re.M):
        raise Left(f"{name} has two equations")
    for p, w in zip(params, want):
        if p == "_":
            continue
        # a λ that binds the name again keeps it for its own
        kept = []
        def keep(m):
            kept.append(m.group(0))
            return f"♦{len(kept) - 1}♦"
        body = re.sub(r"\(λ \(?%s(?: :[^.]*)?\.(?:[^()]|\([^()]*\))*\)" % re.escape(p), keep, body)
        if re.search(r"λ [^.]*%s" % word(p), body):
            raise Left(f"{name}: {p} is bound again")
        body = re.sub(word(p), "◊" + w[2:], body)
        body = re.sub(r"♦(\d+)♦", lambda m: kept[int(m.group(1))], body)
    body = body.replace("◊", "l.")
    return f"l ={body}"


def used(text, uses):
    """The use lines whose items the text has."""
    toks = set(re.findall(W, text)) | {x for t in re.findall(W, text) for x in [t]}
    out = []
    for u in uses:
        m = re.match(r"use ([^{]*?)\.\{([^}]*)\}(.*)", u, re.S)
        if not m:
            m = re.match(r"use (\S+)(?: as (\S+))?$", u)
            last = m.group(2) or m.group(1).split(".")[-1]
            if re.search(word(last) + r"?(?=[.\s])", text) and (last + ".") in text:
                out.append(u)
            continue
        keep = []
        for it in re.split(r",\s*", m.group(2).strip()):
            name = it.split(" as ")[-1].strip()
            if not name:
                continue
            if "◌" in name:
                parts = [p for p in name.split("◌") if p]
                ok = all(p in toks or p in text for p in parts)
            else:
                ok = name in toks or (name == "[]" and "[]" in text)
            if ok:
                keep.append(it)
        if keep:
            out.append(f"use {m.group(1)}.{{{', '.join(keep)}}}")
    return out


def merged(uses):
    """Use lines without those that stand twice."""
    items, order = {}, []
    for u in uses:
        m = re.match(r"use ([^{]*?)\.\{([^}]*)\}", u, re.S)
        k = m.group(1) if m else u
        if k not in items:
            items[k] = []
            order.append(k)
        if m:
            items[k] += [i for i in re.split(r",\s*", m.group(2).strip()) if i and i not in items[k]]
    return [f"use {k}.{{{', '.join(items[k])}}}" if items[k] else k for k in order]


def turn(crate, root, folder, mod):
    path = os.path.join(folder, "Proof.antt")
    text = open(path, encoding="utf-8").read()
    if "tie.close" not in text:
        raise Left("it is written by hand")
    names = Names(mod)
    rel = os.path.relpath(folder, os.path.join(root, "crates", crate, "proofs"))
    modpath = f"Rattle.{crate}.proofs." + rel.replace("/", ".")
    head, uses, decls = blocks(re.sub(r"(?m)^mod \w+\n", "", text))
    # What stands in files of its own below Proof/ comes first.
    for q in sorted(glob.glob(os.path.join(folder, "Proof", "*.antt"))):
        h2, u2, d2 = blocks(open(q, encoding="utf-8").read())
        head, decls = head + h2, d2 + decls
        uses = merged([u for u in uses + u2 if ".Proof." not in u])
    uses = [u for u in uses if not u.rstrip().endswith("Tie as tie") and ".Statement.{statement}" not in u]
    inv, helpers, answers, notes = [], [], [], []
    starts = {}
    loopnames = {}
    for d in decls:
        sig, unf, eqs = split_decl(d)
        ty = re.sub(r"^(?:(?:abbrev|unfoldable|pub) )*%s :\s*" % re.escape(d[1]), "", sig).strip()
        if "tie.close" in eqs:
            continue
        m = re.match(r"tie\.(invariant|decreases)-(\S+)$", ty)
        if m:
            key = n(m.group(2))
            if key not in names.loops:
                raise Left(f"no loop {m.group(2)}: {list(names.loops)}")
            new = names.loops[key][0]
            loopnames[d[1]] = f"{m.group(1)}-{new}"
            inv.append((d[0], f"{m.group(1)}-{new}", d[1], key, unf, eqs))
            continue
        m = re.match(r"tie\.Need-(\S+)", ty)
        if m:
            g = names.goal(m.group(1))
            answers.append((d, m.group(1), g, unf, eqs))
            continue
        m = re.match(r"tie\.(\S+)(?: [^→]*)? → tie\.(\S+)", ty)
        if m and sig.startswith("abbrev"):
            starts[d[1]] = names.place(m.group(2))
            continue
        helpers.append((d, sig, unf, eqs))

    def loops_in(t):
        for old, new in loopnames.items():
            t = re.sub(word(old), "goal.the-" + new, t)
        return t

    def tie_places(t):
        def one(m):
            at = names.newplace[names.place(m.group(1))]
            names.used.add(at)
            return at
        return re.sub(r"tie\.(%s)((?: (?:%s))*)(?=\)|\s*→|$)" % (W, "|".join(map(re.escape, loopnames)) or "◊"), one, t)

    # helpers: those over plain values, and those over places
    plain, placed = [], []
    hs = {}
    for d, sig, unf, eqs in helpers:
        if "tie." in sig:
            m0 = re.match(r"((?:abbrev |unfoldable |pub )*%s) :" % re.escape(d[1]), sig)
            hs[d[1]] = place_params(sig[m0.end():], [], names)[2]
    for d, sig, unf, eqs in helpers:
        if "tie." in sig:
            eq = re.match(r"%s ([^=]*?)=" % re.escape(d[1]), eqs)
            params = eq.group(1).split() if eq else []
            m0 = re.match(r"((?:abbrev |unfoldable |pub )*%s) :" % re.escape(d[1]), sig)
            insig, ineq, pos = place_params(sig[m0.end():], params, names)
            if not ineq:
                raise Left(f"cannot read the places of {d[1]}")
            s2 = resolve(sig, insig, names, starts, hs)
            s2 = tie_places(s2)
            e2 = re.sub(r"\.inv(?![\w-])", ".invariant", tie_places(turn_branches(resolve(eqs, ineq, names, starts, hs), names, s2)))
            placed.append((d[0], s2, unf, e2, d[1]))
        else:
            plain.append((d[0], sig, unf, eqs, d[1]))
    invbody = []
    for com, new, old, key, unf, eqs in inv:
        kind = new.split("-", 1)[0]
        invbody.append((com, new, unf, loop_fields(eqs, old, names, key)))
    text_inv = "\n".join(b for _, _, _, b in invbody)
    need, grow = set(), True
    while grow:
        grow = False
        for c, s, u, e, nm in plain:
            if nm not in need and (re.search(word(nm), text_inv) or any(re.search(word(nm), s2 + e2) for c2, s2, u2, e2, n2 in plain if n2 in need)):
                need.add(nm)
                grow = True
    ansbody = []
    for d, k, g, unf, eqs in answers:
        m = re.match(r"%s (%s)( κs)?((?: %s)*?) =\s*" % (re.escape(d[1]), W, W), eqs)
        if g is None:
            if n(k) in names.settled or n("overflow_" + k) in names.settled:
                continue
            notes.append(f"{rel}: no goal for {k}")
            continue
        if not m:
            raise Left(f"cannot read the answer {d[1]}")
        body = eqs[m.end():].strip()
        if body in ("omega arith", "search rules") and not unf:
            continue
        root = m.group(1)
        rest = resolve(eqs[m.end():], {root: names.need_place[g]}, names, starts, hs, g)
        if loopnames:
            rest = loops_in(rest)
        rest = re.sub(r"\.inv(?![\w-])", ".invariant", tie_places(turn_branches(rest, names)))
        lead = eqs[: m.end()]
        gap = lead[lead.rindex("=") + 1:]
        ansbody.append((d[0], g, unf, f"{g} {root}{m.group(3)} ={gap}{rest}"))
    # A file may have the name `goal` for a module of its own.
    goal = "asked" if any(re.search(r" as goal$", u) for u in uses) else "goal"
    ours = lambda t: re.sub(r"\bgoal\.(?=the-|at\.)", goal + ".", t)
    # write
    out_inv = ""
    if invbody:
        b = ""
        for c, s, u, e, nm in plain:
            if nm in need:
                s = s if re.match(r"(abbrev |unfoldable )*pub ", s) else re.sub(r"^(abbrev |unfoldable )?", lambda m: m.group(0) + "pub ", s)
                b += "\n" + "".join(x + "\n" for x in c) + s + "\n" + "".join(x + "\n" for x in u) + e + "\n"
        for c, new, u, e in invbody:
            b += "\n" + "".join(x + "\n" for x in c) + f"abbrev pub {new} : {goal}.{new}\n" + "".join(x + "\n" for x in u) + f"{new} {e}\n"
        us = used(b, uses) + [f"use {modpath}.Given as {goal}"]
        out_inv = "".join(h + "\n" for h in head) + "\n".join(us) + "\n" + b
    out_ans = ""
    if ansbody:
        b = ""
        for c, s, u, e, nm in plain:
            if nm not in need:
                b += "\n" + "".join(x + "\n" for x in c) + s + "\n" + "".join(x + "\n" for x in u) + e + "\n"
        for c, s, u, e, nm in placed:
            b += "\n" + "".join(x + "\n" for x in c) + ours(s) + "\n" + "".join(x + "\n" for x in u) + ours(e) + "\n"
        for c, g, u, e in ansbody:
            b += "\n" + "".join(x + "\n" for x in c) + f"pub {g} : {goal}.{g}\n" + "".join(x + "\n" for x in u) + ours(e) + "\n"
        us = used(b, uses)
        if names.wants:
            have = "\n".join(us)
            for it, mod2 in (("ap", "mathlib.Core.Path"), ("not", "mathlib.Core.Bool")):
                if not re.search(r"[{ ]%s[,}]" % it, have):
                    us.insert(0, f"use {mod2}.{{{it}}}")
        if need:
            have = [nm for nm in sorted(need) if re.search(word(nm), b)]
            if have:
                us.append(f"use {modpath}.Invariants.{{{', '.join(have)}}}")
        us.append(f"use {modpath}.Goals as {goal}")
        if names.used:
            us.append(f"use {modpath}.Goals.{{{', '.join(sorted(names.used))}}}")
        if "tie." in b:
            us.append(f"use {modpath}.Tie as tie")
        out_ans = ("".join(h + "\n" for h in head) if not invbody else "") + "\n".join(us) + "\n" + b
    if out_inv:
        open(os.path.join(folder, "Invariants.antt"), "w", encoding="utf-8").write(out_inv)
    if out_ans:
        open(os.path.join(folder, "Answers.antt"), "w", encoding="utf-8").write(out_ans)
    os.remove(path)
    for q in glob.glob(os.path.join(folder, "Proof", "*.antt")):
        os.remove(q)
    if os.path.isdir(os.path.join(folder, "Proof")):
        os.rmdir(os.path.join(folder, "Proof"))
    if not out_inv and not out_ans:
        os.rmdir(folder) if not os.listdir(folder) else None
    return notes


def main(argv):
    where, names = os.path.abspath(argv[0]), json.load(open(argv[1], encoding="utf-8"))
    only = argv[2:]
    crate = os.path.basename(where)
    root = os.path.dirname(os.path.dirname(where))
    mods = {}
    for k, v in names.items():
        m = re.match(r"Rattle-\w+-proofs\.(.*)\.Lts$", k)
        if m:
            mods[m.group(1)] = v
    done = 0
    for p in sorted(glob.glob(os.path.join(where, "proofs", "**", "Proof.antt"), recursive=True)):
        folder = os.path.dirname(p)
        f = os.path.relpath(folder, os.path.join(where, "proofs")).replace("/", ".")
        if only and f not in only:
            continue
        if f not in mods:
            print(f"left: {f}: no names for it")
            continue
        try:
            for note in turn(crate, root, folder, mods[f]):
                print("look:", note)
            done += 1
        except Left as e:
            print(f"left: {f}: {e}")
    print(f"turned {done}")


main(sys.argv[1:])
