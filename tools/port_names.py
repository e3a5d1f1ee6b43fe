#!/usr/bin/env python3
"""Brings the repository's own names to the spelling of today's Rattle: words and lemmas in snake case, a dash only
between two names, and must-fail edits in step with the text that they change.

usage: python3 tools/port_names.py [--map FILE]     at the top, once, right after the kit's port.py

It goes by whole words. It turns .antt files, the clauses and imports of .rt files, and .edit files; --map writes the
table that it went by. A name that would fall together with another one of the repository keeps its spelling.
"""

import glob
import re
import sys

WORD = re.compile(r'[^\s(){}.;,@"«»\[\]`]+')
DECLARED = re.compile(r"^(?:(?:pattern|unfoldable|abbrev|pub)\s+)*(?:data\s+|record\s+)?([^\s(){}.;,:]+)\s*:(?=\s)", re.M)
FIELD = re.compile(r"^\s+(?:(?:unfoldable|abbrev|pub)\s+)*([^\s(){}.;,:]+)\s*:(?=\s)", re.M)
CAMEL = re.compile(r"[a-z0-9][A-Z]")
# Words of the library that a dash may join to a name.
LIBRARY = set(
    "length append take drop map flat_map zero suc cons nil some none true false cond eqb leb ltb lt le pos mem sum "
    "get_or set sets replicate reverse be xor and or not mod div mul add sub pow injective eq".split()
)
# Lemmas that port.py turned to the name that a word of the same crate has now.
TURNED = {
    "lm_chain_blocks": {"block_words": "block_words_lem"},
    "assembly_choice": {"copies_at": "copies_at_lem", "copy-at": "copy_at_lem"},
    "submission_uses": {"ones_below": "ones_below_lem"},
    "district_parts": {"too_long": "too_long_lem"},
    "sha256_lanes": {"next_word": "next_word_lem"},
}
# Names that Rattle makes, or that are another library's, and stay.
KEPT = set("hH hL".split())


def bare(text):
    return re.sub(r"--[^\n]*", "", text)


def read(path):
    with open(path, encoding="utf-8") as f:
        return f.read()


def snake(part):
    if not part or not part[0].islower():
        return part
    part = {"getD": "get_or"}.get(part, part)
    part = re.sub(r"(?<=[a-z0-9])(?=[A-Z])", "_", part)
    return "".join(c.lower() if c.isascii() else c for c in part)


def table():
    antt = glob.glob("crates/*/specs/**/*.antt", recursive=True) + glob.glob("crates/*/proofs/**/*.antt", recursive=True)
    texts = {p: bare(read(p)) for p in antt}
    tokens = set()
    for t in texts.values():
        tokens.update(WORD.findall(t))
    rows = {}
    for w in tokens:
        parts = w.split("-")
        if w in KEPT or not any(CAMEL.search(p) and p[0].islower() for p in parts if p):
            continue
        rows[w] = "-".join(snake(p) for p in parts)
    words, lemmas = set(), set()
    for p, t in texts.items():
        own = re.fullmatch(r"crates/[^/]+/proofs/[^/]+\.antt", p)
        if "/specs/" in p:
            words.update(DECLARED.findall(t))
            words.update(FIELD.findall(t))
        elif own:
            lemmas.update(DECLARED.findall(t))
    declared = set(words)
    words = {rows.get(w, w) for w in words if "-" not in w}
    for w in sorted(lemmas):
        if "-" not in w or w.startswith("-") or w.endswith("-"):
            continue
        parts = rows.get(w, w).split("-")
        out = parts[0]
        for i, p in enumerate(parts[1:], 1):
            left = out.split("-")[-1]
            joins = (left in words or left in LIBRARY) and (p in words or p in LIBRARY or p[0].isupper())
            out += ("-" if joins or p.isdigit() and left in words else "_") + p
        rows[w] = out
    rows = {a: b for a, b in rows.items() if a != b}
    # A lemma that would have its word's name ends in _lem.
    to = {}
    for a, b in rows.items():
        to.setdefault(b, []).append(a)
    for b, froms in sorted(to.items()):
        others = [w for w in declared | lemmas if w == b]
        if len(froms) + len(others) < 2:
            continue
        dashed = [a for a in froms if "-" in a]
        turned_lemmas = dashed or [a for a in froms if a in lemmas and a not in declared]
        if len(froms) + len(others) - len(turned_lemmas) > 1:
            print("look:", froms, "and", others, "are all", b)
        for a in turned_lemmas:
            rows[a] = b + "_lem"
    # Two words of one file that fall together.
    for p, t in sorted(texts.items()):
        seen = {}
        for m in WORD.finditer(t):
            w = m.group(0)
            if t[m.start() - 1 : m.start()] != "." and t[m.end() : m.end() + 1] != ".":
                seen.setdefault(rows.get(w, w), set()).add(w)
        for b, froms in seen.items():
            if len(froms) > 1:
                print("look:", p, sorted(froms), "are all", b)
    return rows


def turned(text, rows, own={}):
    def to(m):
        w = m.group(0)
        if w in own and text[m.start() - 1 : m.start()] != ".":
            return own[w]
        return rows.get(w, w)

    return WORD.sub(to, text)


def spans(comment, rows):
    """A comment: code spans whole; outside them only words in camel case."""
    camel = {a: b for a, b in rows.items() if CAMEL.search(a)}
    parts = comment.split("`")
    return "`".join(turned(p, rows) if i % 2 else turned(p, camel) for i, p in enumerate(parts))


def antt(text, rows, own={}):
    return "\n".join(
        turned(line.split("--", 1)[0], rows, own) + ("--" + spans(line.split("--", 1)[1], rows) if "--" in line else "")
        for line in text.split("\n")
    )


def rt(text, rows):
    out, inside = [], False
    camel = {a: b for a, b in rows.items() if CAMEL.search(a)}
    for line in text.split("\n"):
        code, mark, comment = line.partition("//")
        use = bool(re.match(r"\s*ghost use\b", code)) or inside
        clause = bool(re.search(r"\b(requires|ensures)\b|[≡≤×→λ]", code))
        inside = use and ";" not in code
        code = turned(code, rows if use or clause else camel)
        out.append(code + mark + (spans(comment, rows) if mark else ""))
    return "\n".join(out)


# What port.py does to a line of an edit.
OLDER = [
    (re.compile(r"\(([a-z]\w*) ((?:\.\w+ ?)+)\)"), lambda m: m[1] + m[2].replace(" ", "")),
    (re.compile(r"(?<=[\w)]) (\.[a-z]\w*)"), lambda m: m[1]),
    (re.compile(r"List·Mem\u1d30"), lambda m: "Mem\u1d30"),
]


def edit(path, rows):
    """Turns an edit's lines; an old text that does not stand as it is is tried in port.py's spelling."""
    crate = path.split("/must-fail/")[0]
    out, name, seen = [], None, ""
    for line in read(path).split("\n"):
        key, mark, value = line.partition(": ")
        if key == "file":
            name = value.strip()
            seen = read(f"{crate}/{name}")
        elif key in ("old", "new") and mark:
            whole = name.endswith(".antt") or re.search(r"[≡≤×→λ]", value)
            value = turned(value, rows if whole else {a: b for a, b in rows.items() if CAMEL.search(a)})
            if name.endswith(".antt"):
                # Words that port.py has turned already.
                value = WORD.sub(lambda m: "-".join(snake(p) for p in m.group(0).split("-")), value)
            tight = value
            for pattern, with_what in OLDER:
                tight = pattern.sub(with_what, tight)
            if key == "old":
                use_tight = value not in seen and tight in seen
                value = tight if use_tight else value
                if seen.count(value) != 1:
                    print(f"left: {path}: {seen.count(value)} times: {value}")
            elif name.endswith(".antt"):
                value = tight
            line = key + mark + value
        out.append(line)
    return "\n".join(out)


def main():
    rows = table()
    if "--map" in sys.argv:
        with open(sys.argv[sys.argv.index("--map") + 1], "w", encoding="utf-8") as f:
            f.writelines(f"{a}\t{b}\n" for a, b in sorted(rows.items()))
    for folder, turn in (("specs/**/*.antt", antt), ("proofs/**/*.antt", antt), ("src/*.rt", rt)):
        for p in glob.glob("crates/*/" + folder, recursive=True):
            before = read(p)
            after = turn(before, rows, *([TURNED.get(p.split("/")[1], {})] if turn is antt else []))
            if after != before:
                with open(p, "w", encoding="utf-8") as f:
                    f.write(after)
    for p in sorted(glob.glob("crates/*/must-fail/*.edit")):
        before = read(p)
        after = edit(p, rows)
        if after != before:
            with open(p, "w", encoding="utf-8") as f:
                f.write(after)
    for p in ["README.md"] + sorted(glob.glob("docs/**/*.md", recursive=True)):
        before = read(p)
        after = "\n".join(spans(line, rows) for line in before.split("\n"))
        if after != before:
            with open(p, "w", encoding="utf-8") as f:
                f.write(after)
    print(len(rows), "names turned")


main()
