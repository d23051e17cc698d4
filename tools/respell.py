#!/usr/bin/env python3
"""Brings the repository's own names of specs/ and proofs/ to snake case: headWord and begun-word become head_word and begun_word.

usage: python3 tools/respell.py [--list]     at the top of the repository, once, after the toolchain's own scripts; --list only prints old and new

Types, facts and modules keep their capital; functions of src/, texts, inputs and outputs keep their names. A name that would fall together with
another of ours gets _lem. Written for the change of toolchain that docs/PORT.md tells of.
"""
import os
import re
import sys

MADE = re.compile(r"^(returns|loop|invariant|decreases|overflow|index|branch|if\d|swap|ghost|clause)(-|_|$)|-(requires|preserved|smaller)")
TOKEN = re.compile(r"[^\s(){}.,;\"`]+")
# lemmas that have the name which a definition of ours gets: the definition keeps it, and the lemma gets _lem (crates in which it stands; None: all)
LEMMAS = {
    "goes_on": ("splitting",),
    "by_way": None,
    "is_block": ("wording",),
    "layout_is": None,
    "no_room": ("demands",),
    "one_more": ("crc", "answering", "numbers"),
    "same_code": ("wording",),
    "target_code": ("laws",),
}


def texts(root, ends):
    for top in ("crates", "docs", "perf"):
        for folder, dirs, files in os.walk(os.path.join(root, top)):
            dirs[:] = sorted(d for d in dirs if d not in ("out", "target", "made"))
            for f in sorted(files):
                if f.endswith(ends):
                    yield os.path.join(folder, f)
    if ".md" in ends:
        yield os.path.join(root, "README.md")


def declared(root):
    """The names that the definitions, lemmas, fields and constructors of specs/ and proofs/ declare; those of one function's proof aside if rt makes them."""
    names = set()
    for p in texts(root, (".antt",)):
        parts = os.path.relpath(p, root).split(os.sep)
        local = parts[2] == "proofs" and len(parts) > 4
        with open(p, encoding="utf-8") as f:
            for line in f:
                m = re.match(r"(?:(?:abbrev|unfoldable|pub) )*([^\s(){}:]+) :", line) or re.match(r"  (?:pub )?([^\s(){}:]+) :", line)
                if m and not (local and MADE.search(m.group(1))):
                    names.add(m.group(1))
    return names


def snake(n):
    if not re.search(r"-|[a-z0-9][A-Z]", n) or n[:1].isupper() and not re.match(r"[A-Z]-", n):
        return n
    n = n.replace("-", "_")
    n = re.sub(r"([a-z])([0-9][0-9A-F])(?![0-9A-Fa-z])", lambda m: m.group(1) + "_" + m.group(2).lower(), n)
    n = re.sub(r"([a-z])([A-F][0-9])(?![0-9A-Fa-z])", r"\1_\2", n)
    n = re.sub(r"([a-z0-9])([A-Z])", r"\1_\2", n)
    n = re.sub(r"([A-Z])([A-Z][a-z])", r"\1_\2", n)
    return n.lower()


def renamed(root):
    own = declared(root) - set(LEMMAS)
    new = {}
    taken = {n for n in own if snake(n) == n}
    for n in sorted(own, key=lambda n: ("-" in n, n)):
        s = snake(n)
        if s == n:
            continue
        if s in taken:
            s += "_lem"
        if s in taken:
            raise SystemExit(f"respell: {n} falls together with another name: rename one of them first")
        taken.add(s)
        new[n] = s
    return new


def lemmas(path, text):
    crate = path.split(os.sep + "crates" + os.sep)[1].split(os.sep)[0]
    for n, where in LEMMAS.items():
        if where is None or crate in where:
            text = re.sub(r"(?<!proofs\.)(?<![\w'-])" + n + r"(?![\w'-])", n + "_lem", text)
    return text


def turn(text, new):
    return TOKEN.sub(lambda m: new.get(m.group(0), m.group(0)), text)


def prose(text, new):
    """A comment: names in capitals inside a word are ours, names with a dash only between backquotes."""
    camel = {k: v for k, v in new.items() if "-" not in k}
    out = []
    for i, part in enumerate(text.split("`")):
        out.append(turn(part, new if i % 2 else camel))
    return "`".join(out)


def code(line, mark, new):
    """A line of code: texts in quotes stay, and what stands behind the mark of a comment is prose."""
    out, i = [], 0
    for m in re.finditer(r"b?\"(?:[^\"\\]|\\.)*\"|" + re.escape(mark) + r".*", line):
        out.append(turn(line[i:m.start()], new))
        out.append(prose(m.group(0), new) if m.group(0).startswith(mark) else m.group(0))
        i = m.end()
    out.append(turn(line[i:], new))
    return "".join(out)


def pages(own, new):
    """For pages, which the toolchain's scripts leave alone: a name that those scripts brought to snake case is turned too."""
    known = own | set(new.values())

    class Names(dict):
        def get(self, n, other):
            s = snake(n)
            return new.get(n) or (s if n not in known and s in known else other)

    return Names()


def page(text, new):
    """A page: what stands in backquotes or in an indented or fenced block is code."""
    out, fenced = [], False
    for line in text.split("\n"):
        if line.startswith("```"):
            fenced = not fenced
        if fenced or line.startswith("    "):
            out.append(turn(line, new))
        else:
            out.append("`".join(turn(p, new) if i % 2 else p for i, p in enumerate(line.split("`"))))
    return "\n".join(out)


def main():
    root = "."
    new = renamed(root)
    names = pages(declared(root), new)
    if "--list" in sys.argv:
        for k in sorted(new):
            print(k, new[k])
        return
    for p in texts(root, (".antt", ".rt", ".edit", ".md")):
        if os.path.basename(p) in ("PORT.md",):
            continue
        with open(p, encoding="utf-8") as f:
            was = old = f.read()
        if p.endswith(".md"):
            t = page(old, names)
        else:
            old = lemmas(os.path.abspath(p), old) if p.endswith(".antt") else old
            mark = {".rt": "//", ".antt": "-- ", ".edit": "# "}[os.path.splitext(p)[1]]
            t = "\n".join(code(line, mark, new) for line in old.split("\n"))
        if t != was:
            with open(p, "w", encoding="utf-8") as f:
                f.write(t)
    print(f"respell: {len(new)} names")


if __name__ == "__main__":
    main()
