#!/usr/bin/env python3
"""The places that docs/DESIGN-PASS.md counts: own forms in src/ for which the language has one. `python3 tools/places.py [POINT]`, at the top."""
import glob
import itertools
import re
import sys


def sources():
    for path in sorted(glob.glob("crates/*/src/**/*.rt", recursive=True)):
        text = open(path, encoding="utf-8").read()
        yield path, re.sub(r"//[^\n]*", "", text)


def crate(path):
    return path.split("/")[1]


def functions(text):
    """Name, signature with clauses, and body of each function."""
    for m in re.finditer(r"\bfn (\w+)", text):
        brace = body_at(text, m.end())
        if brace < 0:
            continue
        depth, end = 0, brace
        for end in range(brace, len(text)):
            depth += {"{": 1, "}": -1}.get(text[end], 0)
            if depth == 0:
                break
        yield m.group(1), text[m.start():brace], text[brace + 1:end]


def body_at(text, at):
    """Where the body begins: the first brace at the head of a line, or at the end of one that has no clause."""
    m = re.compile(r"\n[ ]*\{\n|\{\n|;\n").search(text, at)
    return -1 if not m or m.group().startswith(";") else m.start() + m.group().index("{")


def own_enums():
    """1a. Enums of which some case holds a value and another holds none, or a case holds a refusal."""
    for path, text in sources():
        for m in re.finditer(r"enum (\w+) \{\n(.*?)\n\}", text, re.S):
            cases = [c.strip().rstrip(",") for c in m.group(2).split("\n") if c.strip()]
            held = [c for c in cases if "(" in c or "{" in c]
            if held and (len(held) < len(cases) or any("Refusal" in c for c in cases)):
                yield f"{crate(path)} {m.group(1)}: {', '.join(cases)}"


def numbered_kinds():
    """1b. Constants that stand as the pattern of a match or are compared: a number for a kind, a party, a step, or for none."""
    for path, text in sources():
        for m in re.finditer(r"const (\w+): (?:u8|u16|u32|usize) =", text):
            n = m.group(1)
            if re.search(rf"(^|[^\w]){n} =>|== (\w+::)?{n}\b", text):
                yield f"{crate(path)} {n}"


def flags():
    """1c. Records with a flag or a count beside the values that it is about."""
    for path, text in sources():
        for m in re.finditer(r"struct (\w+) \{\n(.*?)\n\}", text, re.S):
            f = re.findall(r"(\w+): (bool|u8|usize)", m.group(2))
            for name, _ in f:
                if name in ("waiting", "count", "len", "known", "present", "from") and len(f) > 1:
                    yield f"{crate(path)} {m.group(1)}.{name}"


def shape(body):
    body = re.sub(r'b?"(?:[^"\\]|\\.)*"|b\'[^\']*\'|0x[0-9A-Fa-f]+|\d+', "0", body)
    return re.sub(r"[A-Za-z_]\w*", "x", body)


def twins():
    """2. Functions of three lines or more whose bodies differ in names, numbers and texts alone."""
    found = {}
    for path, text in sources():
        for name, head, body in functions(text):
            lines = [s for s in body.split("\n") if s.strip()]
            if len(lines) >= 3:
                found.setdefault(re.sub(r"\s+", " ", shape(body)), []).append(f"{crate(path)} {name}")
    for group in found.values():
        if len(group) > 1:
            yield " = ".join(group)


def loops():
    """3. Loops that count an index by hand: `while`, and `for` over the places of a slice or over numbers that only pick a case."""
    for path, text in sources():
        for line in text.split("\n"):
            if re.search(r"\bwhile\b|for \w+ in 0\.\.[\w.]*len\(\)|for [a-z]\w* in 0\.\.\d+ \{", line):
                yield f"{crate(path)}: {line.strip()}"


def conversions():
    """4. Conversions by `as`, bytes split off by arithmetic, and functions that compare or convert by hand."""
    for path, text in sources():
        for line in text.split("\n"):
            if "ensures" in line or "requires" in line:
                continue
            if re.search(r"\bas (u8|u16|u32|u64|usize)\b|/ 256\b|% 256\b|\* 256\b|/ 65536|% 65536", line):
                yield f"{crate(path)}: {line.strip()}"
        for name, _, body in functions(text):
            if re.search(r"^(same|alike|is_same|is_at|spells|raise|wide\w*|bit_of|number|row_of|item_in|part_in|word_of)$", name):
                yield f"{crate(path)}: fn {name}"


def facts():
    """5a. A fact of a `requires` that stands in three functions of a crate."""
    for c, group in itertools.groupby(sources(), lambda s: crate(s[0])):
        seen = {}
        for _, text in group:
            for name, head, _ in functions(text):
                for m in re.finditer(r"requires \w*\s*\{ (.*?) \}\n", head, re.S):
                    for fact in re.split(r"\) × \(", m.group(1).strip("()")):
                        seen.setdefault(fact, []).append(name)
        for fact, names in seen.items():
            if len(names) >= 3:
                yield f"{c}: {fact}: {', '.join(names)}"


def travelling():
    """5b. Two or more parameters that stand together, name and type, in three functions of a crate."""
    for c, group in itertools.groupby(sources(), lambda s: crate(s[0])):
        seen = {}
        for _, text in group:
            for name, head, _ in functions(text):
                args = re.findall(r"(\w+): ([^,()]+(?:\([^)]*\))?[^,()]*)", head.split(")\n")[0].split(") ->")[0])
                args = [f"{a}: {t.strip()}" for a, t in args if a != "rt"]
                for pair in itertools.combinations(args, 2):
                    seen.setdefault(pair, []).append(name)
        for pair, names in seen.items():
            if len(names) >= 3:
                yield f"{c}: {', '.join(pair)}: {', '.join(names)}"


def buffers():
    """6. An array or a slice with a length, a start or a room beside it, and texts filled up with blanks."""
    for path, text in sources():
        for m in re.finditer(r"struct (\w+) \{\n(.*?)\n\}", text, re.S):
            if re.search(r": \[[^\]]*; ", m.group(2)) and "usize" in m.group(2):
                yield f"{crate(path)} struct {m.group(1)}"
        for name, head, _ in functions(text):
            if re.search(r"&(?:mut )?\[[^\]]*\], (?:n|len|room|from|got): usize|\[u8; NAME\]\n", head.replace("(", ", ")):
                yield f"{crate(path)} fn {name}"


def switches():
    """7. A function that picks by a number, or by a constant that stands for a kind, what to do."""
    for path, text in sources():
        for name, head, body in functions(text):
            if re.search(r"match \w+ \{\s*(0|[A-Z_]+) =>", body):
                yield f"{crate(path)} fn {name}"


def proofs():
    """8. Files of invariants and of answers."""
    for path in sorted(glob.glob("crates/*/proofs/**/*.antt", recursive=True)):
        if path.endswith(("/Answers.antt", "/Invariants.antt")):
            yield path[len("crates/"):]


POINTS = [own_enums, numbered_kinds, flags, twins, loops, conversions, facts, travelling, buffers, switches, proofs]

if __name__ == "__main__":
    for point in POINTS:
        if sys.argv[1:] and not point.__doc__.startswith(sys.argv[1]):
            continue
        places = list(point())
        print(f"\n{point.__doc__.strip()} {len(places)}")
        if sys.argv[1:]:
            print("\n".join("  " + p for p in places))
