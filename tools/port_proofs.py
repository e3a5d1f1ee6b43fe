#!/usr/bin/env python3
"""Turns the function proofs of a crate from the older form, a Proof.antt over Tie, to today's Invariants and Answers.

usage: python3 tools/port_proofs.py CRATE..       at the top; each crate's lower crates are proved
       python3 tools/port_proofs.py --keep CRATE..  the same, with the answers that the search alone may find kept too

It goes by the names that `rt check --generated DIR --old-names` lists. What it cannot turn it prints as 'left:'.
A Proof.antt that was turned is removed. The answers that were left out, for the check may find them itself, are kept
in /tmp/port-proofs/CRATE.json, for --restore CRATE GOAL.. (as FUNCTION/GOAL).
"""

import glob
import json
import os
import re
import subprocess
import sys

NAME = r"[^\s(){}.;,@\"«»\[\]]+"
TRIVIAL = re.compile(r"^(search rules|omega arith|tt|search \(rules\))$")
KEEP = os.environ.get("KEEPDIR", "/tmp/port-proofs")


def read(path):
    with open(path, encoding="utf-8") as f:
        return f.read()


def write(path, text):
    os.makedirs(os.path.dirname(path), exist_ok=True)
    with open(path, "w", encoding="utf-8") as f:
        f.write(text)


def groups(text):
    """The items of a file: (kind, name, text). Kinds: comment, use, decl."""
    out, comments = [], []
    lines = text.split("\n")
    i = 0
    while i < len(lines):
        line = lines[i]
        if not line.strip():
            i += 1
            continue
        if line.startswith("--"):
            comments.append(line)
            i += 1
            continue
        j = i + 1
        while j < len(lines) and (lines[j].startswith((" ", "\t")) or not lines[j].strip() or lines[j].startswith(")")):
            if not lines[j].strip() and (j + 1 >= len(lines) or not lines[j + 1].startswith((" ", ")"))):
                break
            j += 1
        item = "\n".join(lines[i:j]).rstrip()
        if line.startswith("use "):
            if comments and not out:
                out.append(("comment", None, "\n".join(comments)))
                comments = []
            out.append(("use", None, item))
        else:
            m = re.match(rf"(?:(?:unfoldable|abbrev|pub)\s+)*({NAME})\s*:(?=\s)", item)
            if item.startswith("module "):
                out.append(["decl", "module", "\n".join(comments + [item])])
                comments = []
            elif m:
                out.append(["decl", m.group(1), "\n".join(comments + [item])])
                comments = []
            else:
                assert out and out[-1][0] == "decl", item
                out[-1] = ["decl", out[-1][1], out[-1][2] + "\n" + "\n".join(comments + [item])]
                comments = []
        i = j
    return [tuple(x) for x in out]


def arguments(text):
    """The top arguments of an application, without the head."""
    out, depth, now = [], 0, ""
    for ch in text:
        if ch in "([{":
            depth += 1
        if ch in ")]}":
            depth -= 1
        if depth == 0 and ch.isspace():
            if now:
                out.append(now)
            now = ""
        else:
            now += ch
    if now:
        out.append(now)
    return out


def plain(step):
    return re.sub(r"[-_·]", "", step).lower()


def lent(callee, every=False):
    """The names of a function's parameters that are `&mut`; or of every parameter."""
    crate, _, name = (callee or "").partition("::")
    for p in glob.glob(f"crates/{crate}/src/*.rt"):
        m = re.search(rf"\bfn {re.escape(name.rpartition('::')[2])}(?:<[^(]*>)?\(", read(p))
        if m:
            rest = read(p)[m.end() :]
            depth, end = 1, 0
            while depth:
                depth += {"(": 1, ")": -1}.get(rest[end], 0)
                end += 1
            if every:
                return re.findall(r"(?:^|[,(])\s*(?:mut\s+)?(\w+)\s*:", rest[: end - 1])
            return re.findall(r"(\w+)\s*:\s*&mut\b", rest[: end - 1]) or (["self"] if "&mut self" in rest[:end] else [])
    return []


def clauses(crate, name, kind):
    """The names of a function's clauses of a kind, where it has two or more."""
    for p in glob.glob(f"crates/{crate}/src/*.rt"):
        m = re.search(rf"\bfn {re.escape(name.rpartition('/')[2].rpartition('::')[2])}(?:<[^(]*>)?\(", read(p))
        if m:
            head = read(p)[m.end() :]
            head = head[: re.search(r"^\s*\{\s*$|^\s*\}\s*$|\n\}|(?<=\S)\s\{$", head, re.M).start()]
            out = re.findall(rf"^\s*{kind}\s+(\w+)\s*\{{", head, re.M)
            return out if len(out) > 1 else []
    return []


def as_record(body, names):
    """A body whose last term is a tuple of so many parts, as a record of them by name."""
    text = body.rstrip()
    if not names or not text.endswith(")"):
        return body
    depth, i = 0, len(text) - 1
    while i >= 0:
        depth += {")": 1, "]": 1, "}": 1, "(": -1, "[": -1, "{": -1}.get(text[i], 0)
        if depth == 0:
            break
        i -= 1
    before = text[:i].rstrip()
    if before and not re.search(r"(?:^|\s)in$", before):
        return body
    parts, depth, now = [], 0, ""
    for ch in text[i + 1 : -1]:
        depth += {"(": 1, "[": 1, "{": 1, ")": -1, "]": -1, "}": -1}.get(ch, 0)
        if ch == "," and depth == 0:
            parts.append(now.strip())
            now = ""
        else:
            now += ch
    if now.strip():
        parts.append(now.strip())
    # the last part of more than two clauses was a tuple of its own
    if len(parts) < len(names) and len(parts) > 1 and parts[-1].startswith("("):
        last = as_record(parts[-1], names[len(parts) - 1 :])
        if last.startswith("record { "):
            return text[:i] + "record { " + "; ".join(f"{n} = {v}" for n, v in zip(names, parts[:-1])) + "; " + last[len("record { ") :]
    if len(parts) != len(names):
        return body
    return text[:i] + "record { " + "; ".join(f"{n} = {v}" for n, v in zip(names, parts)) + " }"


class Function:
    def __init__(self, crate, name, entry):
        self.crate, self.name, self.e = crate, name, entry
        self.place = {p[0]: p for p in entry["places"]}
        self.typed = {p[0]: dict((b, a) for a, b in t) for p, t in zip(entry["places"], entry["typed"])}
        self.left = []

    def chain(self):
        out, now = [], self.at
        while now in self.place:
            out.append(now)
            now = self.place[now][1]
        return out

    def field(self, steps, path, where):
        """What stands for a field of the place that lies so many steps above the goal's; path has no first dot."""
        first, dot, rest = path.partition(".")
        if first in ("args", "requires", "ranges", "utf8", "lifetimes"):
            for old, new in self.e["args"]:
                head, _, name = old.lstrip(".").partition(" .")
                if head == first and re.match(rf"{re.escape(name)}(\.|$)", rest):
                    path = first + "." + new.rpartition(" .")[2] + rest[len(name) :]
                    break
            return "c." + path
        chain = self.chain()
        if first == "type-inv":
            # port.py took a function of this name for a word of Rattle's.
            first = "typed" if any(self.place[x][2][0] == "typed" for x in chain) else "type_inv"
            if first == "type_inv":
                return "c.type_inv" + dot + rest
        found = [(abs(i - steps), i) for i, at in enumerate(chain) if plain(self.place[at][2][0]) == plain(first)]
        if not found:
            self.left.append(f"{where}: .{path}, {steps} above {self.at}: no such step in {[self.place[x][2][0] for x in chain]}")
            return f"c.{path}"
        if len(found) > 1 and min(found)[0]:
            self.left.append(f"look: {where}: .{path} taken at {chain[min(found)[1]]}")
        at = chain[min(found)[1]]
        old, new = self.place[at][2]
        if rest == "given" or rest.startswith("given."):
            names = [a for b, a in self.typed.get(at, {}).items() if plain(b) == plain(first)]
            if names:
                return f"c.type_inv.{names[0]}" + rest[len("given") :]
        m = re.match(r"auto((?:\.1)*\.0)(?=\.|$)", rest)
        if m:
            names = lent(self.place[at][3])
            n = 0 if len(names) == 1 else m.group(1).count(".1")
            if n < len(names):
                return f"c.{new}.auto.{names[n]}" + rest[m.end() :]
        m = re.match(r"new((?:\.1)+\.0)(?=\.|$)", rest)
        if m:
            names, n = lent(self.place[at][3], True), m.group(1).count(".1")
            if n < len(names) and names[n] in lent(self.place[at][3]):
                return f"c.{new}.new.{names[n]}" + rest[m.end() :]
        m = re.match(r"(new|auto)\.(\d+)(?=\.|$)", rest)
        if m:
            names = lent(self.place[at][3])
            if int(m.group(2)) < len(names):
                rest = f"{m.group(1)}.{names[int(m.group(2))]}" + rest[m.end() :]
            else:
                self.left.append(f"{where}: .{path} of {self.place[at][3]}")
        arm = self.e["arms"][[x[0] for x in self.e["places"]].index(at)]
        if arm:
            for name, step, olds in arm[2]:
                old_path = ".".join(olds)
                if old_path and (rest == old_path or rest.startswith(old_path + ".")):
                    return f"c.{arm[0]}.{name}{rest[len(old_path):]}"
            for name, step, olds in arm[2]:
                if not olds and name.endswith("-own"):
                    return f"c.{arm[0]}.{name}{dot}{rest}"
        return "c." + new + (dot + rest)

    def body(self, text, place, where):
        aliases = {"c": 0}
        self.at = place
        # names of places
        while True:
            m = re.search(rf"\n?[ \t]*let ({NAME}) = ({NAME})((?:\.before)*) in\b", text)
            found = None
            for m in re.finditer(rf"let ({NAME}) = ({NAME})((?:\.before)*) in(?=\s)[ ]*", text):
                if m.group(2) in aliases:
                    found = m
                    break
            if not found:
                break
            m = found
            aliases[m.group(1)] = aliases[m.group(2)] + m.group(3).count(".before")
            start, end = m.start(), m.end()
            line = text.rfind("\n", 0, start)
            if text[line + 1 : start].strip() == "" and text[end : end + 1] == "\n":
                text = text[: line if line >= 0 else 0] + text[end:]
            else:
                text = text[:start] + text[end:]
        heads = "|".join(re.escape(a) for a in sorted(aliases, key=len, reverse=True))

        def to(m):
            at = aliases[m.group(1)] + m.group(2).count(".before")
            return self.field(at, m.group(3)[1:], where) + (m.group(4) or "")

        for old, new in self.e["args"]:
            head, _, name = old.lstrip(".").partition(" .")
            if head == "args" and re.fullmatch(r"t\d+", name):
                text = re.sub(rf"\.{name}(?![\w-])", "." + new.rpartition(" .")[2], text)
        text = re.sub(rf"(?<![^\s(,{{\[])({heads})((?:\.before)*)((?:\.(?!before\b){NAME})+)()", to, text)
        text = re.sub(r"\bnot[-_](?:true|false) _ (c\.if-not-[^\s(),;]*\.(?:true|false))", r"@\1", text)
        text = re.sub(r"(?<![@\w])(c\.if-not-[^\s(),;]*\.(?:true|false))(?![^\s(),;}\]])", r"(ap not \1)", text).replace("@c.", "c.")
        # names of steps: what a call wrote, by its parameter
        for m in list(re.finditer(rf"let ({NAME}) = c\.([^\s.]+) in", text)):
            callee = [x[3] for x in self.e["places"] if x[2][1] == m.group(2) and x[3]]
            if callee and len(lent(callee[0])) == 1:
                text = re.sub(rf"(?<![^\s(,{{\[]){re.escape(m.group(1))}\.auto(?:\.1)*\.0(?=[^\d])", rf"{m.group(1)}.auto.{lent(callee[0])[0]}", text)
            for n, w in enumerate(lent(callee[0], True) if callee else []):
                if n and w in lent(callee[0]):
                    text = re.sub(rf"(?<![^\s(,{{\[]){re.escape(m.group(1))}\.new(?:\.1){{{n}}}\.0(?=[^\d])", rf"{m.group(1)}.new.{w}", text)
            for n, w in enumerate(lent(callee[0]) if callee else []):
                text = re.sub(rf"(?<![^\s(,{{\[]){re.escape(m.group(1))}\.(new|auto)\.{n}(?=[^\d])", rf"{m.group(1)}.\1.{w}", text)
        return text


def bound(body):
    """The names that a `(x y : T) →` or a `λ x y.` of a term binds, each with where it holds: (names, from, to)."""
    out = []
    for m in re.finditer(r"[({]((?:[^\s(){}:,]+\s+)+):\s|λ ([^.()]+)\.\s", body):
        depth, end = 0, m.start()
        while end < len(body):
            depth += {"(": 1, "[": 1, "{": 1, ")": -1, "]": -1, "}": -1}.get(body[end], 0)
            if depth < 0:
                break
            end += 1
        out.append(((m.group(1) or m.group(2)).split(), m.start(), end))
    return out


def invariant(fn, decl, params, body, loop, k):
    vars_ = loop[1]
    changed = fn.e["changed"][k]
    names = {}
    for i, v in enumerate(vars_):
        if i < len(params):
            names[params[i]] = f"l.initial.{v}" if changed[i] else f"l.{v}"
    rest = [v for v, c in zip(vars_, changed) if c]
    for i, v in enumerate(rest):
        if len(vars_) + i < len(params):
            names[params[len(vars_) + i]] = f"l.{v}"
    if len(params) != len(vars_) + len(rest):
        fn.left.append(f"{decl}: {len(params)} parameters for {vars_} {changed}")
    names.pop("_", None)
    if re.search(r"(?<![^\s(λ,])l(?![^\s.):,])", body):
        names = {a: "now" + b[1:] for a, b in names.items()}
    heads = "|".join(re.escape(a) for a in sorted(names, key=len, reverse=True))
    hidden = bound(body)

    def to(m):
        if any(m.group(1) in own and a <= m.start() < b for own, a, b in hidden):
            return m.group(1)
        return names[m.group(1)]

    body = re.sub(rf"(?<![^\s(,{{\[])({heads})(?=[\s).,}}\];]|$)(?!\s*=\s)", to, body)
    return re.sub(r"\(((?:l|now)(?:\.\w+)+)\)", r"\1", body)


def split(item, name):
    """A declaration's comments, signature, unfolding lines and clauses: (comments, type, unfolding, [clause])."""
    comments, sig, unfolding, clauses = [], "", [], []
    lines, i = item.split("\n"), 0
    blocks = []
    for line in lines:
        if blocks and (line.startswith((" ", "\t", ")")) or not line.strip()):
            blocks[-1] += "\n" + line
        else:
            blocks.append(line)
    for b in blocks:
        if b.startswith("--"):
            comments.append(b)
        elif b.startswith("unfolding "):
            unfolding.append(b)
        elif re.match(rf"(?:(?:unfoldable|abbrev|pub)\s+)*{re.escape(name)}\s*:(?=\s)", b):
            sig = b.split(":", 1)[1].strip()
        else:
            clauses.append(b)
    return comments, sig, unfolding, clauses


def named(fn, body, goal):
    """A body that answers several named clauses, as a record of them."""
    if goal.startswith("returns"):
        return as_record(body, clauses(fn.crate, fn.name, "ensures"))
    if "-requires" in goal:
        step = goal.partition("-requires")[0]
        callee = [x[3] for x in fn.e["places"] if x[3] and (x[2][1] == step or x[2][1].startswith(step))]
        if callee:
            return as_record(body, clauses(*callee[0].partition("::")[::2], "requires"))
    return body


def convert(crate, name, entry, keep, dropped):
    folder = f"crates/{crate}/proofs/{name}"
    items = groups(read(f"{folder}/Proof.antt"))
    fn = Function(crate, name, entry)
    head = [x for k, n, x in items if k == "comment"]
    uses = [x for k, n, x in items if k == "use" and not re.search(r"\.(Statement|Tie|Lts)\b", x)]
    decls = [(n, x) for k, n, x in items if k == "decl"]
    spec = [x for n, x in decls if re.search(r"tie\.close", x)]
    decls = [(n, x) for n, x in decls if not re.search(r"tie\.close", x)]
    if len(spec) != 1:
        return [f"{name}: no tie.close"]
    m = re.search(r"tie\.close\s+(.*)$", spec[0], re.S)
    inner = m.group(1).strip()
    if inner == "tie.spec":
        args = []
    else:
        assert inner.startswith("(") and inner.endswith(")"), inner
        args = arguments(inner[1:-1])[1:]
    parts = {n: split(x, n) for n, x in decls}
    ties = [n for n, p in parts.items() if re.match(r"tie\.(invariant|decreases)", p[1])]
    needs = entry["needs"]
    first = args[: len(args) - len(needs)]
    rest = args[len(args) - len(needs) :]
    if len(args) < len(needs):
        return [f"{name}: {len(args)} arguments, {len(needs)} goals: {[b for a, b in needs]}"]
    loops = entry["loops"]
    inv = []
    used = set()
    k = -1
    for a in first:
        n = a
        if n not in parts:
            fn.left.append(f"an invariant that is no declaration: {a}")
            continue
        p = parts[n]
        kind = re.match(r"tie\.(invariant|decreases)", p[1])
        if not kind:
            fn.left.append(f"{n}: {p[1]}")
            continue
        if kind.group(1) == "invariant":
            k += 1
        kk = k if kind.group(1) == "invariant" else max(k, 0)
        loop = loops[kk] if kk < len(loops) else None
        if loop is None:
            fn.left.append(f"{n}: no loop")
            continue
        new = f"{kind.group(1)}-{loop[0][1]}"
        lines = []
        for c in p[3]:
            m = re.match(rf"{re.escape(n)}\s*(.*?)\s*=(?=\s)", c, re.S)
            params = m.group(1).split()
            body = c[m.end() :]
            body = invariant(fn, n, params, body, loop, kk)
            lines.append(f"{new} {'now' if re.search(r'(?<![^ (,{])now[.]', body) else 'l'} ={body}")
        inv.append("\n".join(p[0] + [f"abbrev pub {new} : goal.{new}"] + p[2] + lines))
        used.add(n)
    answers = []
    names = {}
    for a, (old, new) in zip(rest, needs):
        if a in parts:
            names.setdefault(a, new)
    done = set()
    for a, (old, new), (at, _) in zip(rest, needs, entry["asked_at"]):
        where = f"{new}"
        if a in parts:
            used.add(a)
            p = parts[a]
            out = []
            for c in p[3]:
                m = re.match(rf"{re.escape(a)}\s*(.*?)\s*=(?=\s)", c, re.S)
                params = [x for x in m.group(1).split() if x != "κs"]
                body = c[m.end() :]
                if params and params[0] != "c":
                    fn.left.append(f"{new}: parameters {params}")
                out.append((params, named(fn, by_clause(fn.body(body, at, where), entry), new)))
            text = "\n".join(f"{new} {' '.join(pp)} ={b}" if pp else f"{new} c = ({b.strip()}) c" for pp, b in out)
            trivial = len(out) == 1 and TRIVIAL.match(out[0][1].strip()) and not p[2]
            item = "\n".join(p[0] + [f"pub {new} : goal.{new}"] + p[2] + [text])
        else:
            m = re.match(r"\(λ ([^.]*)\.\s(.*)\)$", a, re.S)
            if not m:
                item, trivial = f"pub {new} : goal.{new}\n{new} c = {a} c", False
                fn.left.append(f"{new}: {a}")
            else:
                body = named(fn, by_clause(fn.body(m.group(2), at, where), entry), new)
                trivial = bool(TRIVIAL.match(body.strip()))
                item = f"pub {new} : goal.{new}\n{new} c = {body}"
        if new in done:
            continue
        done.add(new)
        if trivial and not keep:
            dropped[f"{name}/{new}"] = item
        else:
            answers.append(item)
    helpers, shared = [], []
    for n, x in decls:
        if n in used:
            continue
        if "tie." in x:
            fn.left.append(f"helper {n} names Tie")
        if any(re.search(rf"(?<![^\s(,{{\[]){re.escape(n)}(?![^\s),;}}\]])", y) for y in inv + [z for m, z in decls if m in shared]):
            shared.append(n)
        else:
            helpers.append(x)
    kept_here = [re.sub(rf"(?m)^((?:unfoldable |abbrev )*)({re.escape(n)}\s*:)", r"\1pub \2", x) for n, x in decls if n in shared]
    path = f"Rattle.{crate}.proofs.{name.replace('/', '.')}"
    prose = [h for h in head]
    prose = ["\n".join(l for h in prose for l in h.split("\n") if not re.match(r"-- (Assumes nothing|The needs are)", l))]
    prose = [p for p in prose if p]
    if inv:
        write(f"{folder}/Invariants.antt", "\n".join(prose + uses + [f"use {path}.Given as goal"]) + "\n\n" + "\n\n".join(kept_here + inv) + "\n")
    if answers:
        extra = [f"use {path}.Invariants.{{{', '.join(shared)}}}"] if shared else []
        write(
            f"{folder}/Answers.antt",
            "\n".join(prose + imports(uses, "\n".join(answers)) + extra + [f"use {path}.Goals as goal"]) + "\n\n" + "\n\n".join(helpers + answers) + "\n",
        )
    elif helpers:
        fn.left.append("helpers without answers: " + ", ".join(n for n, x in decls if n not in used))
    os.makedirs(os.path.dirname(f"{KEEP}/old/{crate}/{name}"), exist_ok=True)
    os.replace(f"{folder}/Proof.antt", f"{KEEP}/old/{crate}/{name}.antt")
    if not os.listdir(folder):
        os.rmdir(folder)
    return fn.left


def by_clause(text, entry):
    """What an answer cites of a callee's clauses by their order, by their names."""
    for place in entry["places"]:
        step, callee = place[2][1], place[3]
        if not callee:
            continue
        crate, _, name = callee.partition("::")
        for kind in ("ensures", "requires"):
            names = clauses(crate, name, kind)
            if not names:
                continue
            heads = [rf"c\.{re.escape(step)}\.{kind}"]
            for x in re.findall(rf"let ({NAME}) = c\.{re.escape(step)} in(?=\s)", text):
                heads.append(rf"{re.escape(x)}\.{kind}")
            for x in re.findall(rf"let ({NAME}) = c\.{re.escape(step)}\.{kind} in(?=\s)", text):
                heads.append(re.escape(x))
            for h in heads:
                # three clauses and more were a tuple in a tuple
                for n in range(1, len(names)):
                    if len(names) > 2:
                        end = r"\.0" if n < len(names) - 1 else ""
                        text = re.sub(rf"(?<![^\s(,{{\[])({h})(?:\.1){{{n}}}{end}(?![\w-])", rf"\1.{names[n]}", text)
                text = re.sub(
                    rf"(?<![^\s(,{{\[])({h})\.(\d)(?!\d)",
                    lambda m: f"{m.group(1)}.{names[int(m.group(2))]}" if int(m.group(2)) < len(names) else m.group(),
                    text,
                )
    return text


def again(crate):
    """Names the clauses in answers that were turned already."""
    entries = json.loads(read(f"{KEEP}/names-{crate}/names.json"))
    for p in sorted(glob.glob(f"crates/{crate}/proofs/**/Answers.antt", recursive=True)):
        name = os.path.relpath(os.path.dirname(p), f"crates/{crate}/proofs")
        entry = entries.get(f"Rattle-{crate}-proofs.{name.replace('/', '.')}.Lts")
        if entry is None:
            continue
        out = []
        for part in re.split(r"(?m)^(?=pub )", read(p)):
            out.append(by_clause(part, entry))
        if "".join(out) != read(p):
            write(p, "".join(out))


def imports(uses, text):
    """Adds what the conversion itself needs."""
    out = list(uses)
    if "ap not" in text:
        for module, word in (("mathlib.Core.Path", "ap"), ("mathlib.Core.Bool", "not")):
            if not any(re.search(rf"[{{ ]{word}[,}}]", u) for u in out):
                out.append(f"use {module}.{{{word}}}")
    return out


def restore(crate, goals):
    dropped = json.loads(read(f"{KEEP}/{crate}.json"))
    for g in goals:
        f, goal = g.rsplit("/", 1)
        path = f"crates/{crate}/proofs/{f}/Answers.antt"
        item = dropped.get(g)
        if item is None:
            print("left: nothing kept for", g)
            continue
        if not os.path.exists(path):
            old = f"{KEEP}/old/{crate}/{f}.antt"
            uses = [x for k, n, x in groups(read(old)) if k == "use" and not re.search(r"\.(Statement|Tie|Lts)\b", x)]
            write(path, "\n".join(uses + [f"use Rattle.{crate}.proofs.{f.replace('/', '.')}.Goals as goal"]) + "\n")
        write(path, read(path).rstrip("\n") + "\n\n" + item + "\n")


def main(argv):
    keep = "--keep" in argv
    argv = [a for a in argv if a != "--keep"]
    if argv and argv[0] == "--again":
        return [again(c) for c in argv[1:]] and None
    if argv and argv[0] == "--restore":
        return restore(argv[1], argv[2:])
    for crate in argv:
        where = f"crates/{crate}"
        names = f"{KEEP}/names-{crate}"
        subprocess.run(["rm", "-rf", names])
        r = subprocess.run(["rt", "check", "--generated", names, "--old-names"], cwd=where, capture_output=True, text=True)
        try:
            entries = json.loads(read(f"{names}/names.json"))
        except OSError:
            print(f"{crate}: no names: ", (r.stdout + r.stderr)[-1500:])
            continue
        dropped = {}
        if os.path.exists(f"{KEEP}/{crate}.json"):
            dropped = json.loads(read(f"{KEEP}/{crate}.json"))
        for p in sorted(glob.glob(f"{where}/proofs/**/Proof.antt", recursive=True)):
            name = os.path.relpath(os.path.dirname(p), f"{where}/proofs")
            entry = entries.get(f"Rattle-{crate}-proofs.{name.replace('/', '.')}.Lts")
            if entry is None:
                print(f"left: {crate}/{name}: no names; in the table: {[k for k in entries if name in k]}")
                continue
            for l in convert(crate, name, entry, keep, dropped):
                print(f"left: {crate}/{name}: {l}")
        write(f"{KEEP}/{crate}.json", json.dumps(dropped))


main(sys.argv[1:])
