#!/usr/bin/env python3
"""Brings this repository's own definitions and lemmas to the spelling of today's Rattle: words in snake case, `-` only between two names.

port.py respells what it knows of the library; this turns the rest, once, right after it:
- a definition, field or local name in camel case, as `segmentBreakdownOf`, becomes `segment_breakdown_of`
- a lemma's dashes become `_`, but for one that joins two definitions
- the proof of a function F is `F_spec`
Types and modules keep their capitals; functions of src/, exported names, strings, inputs and outputs keep theirs. Names that Rattle makes
for goals and steps are left alone.

usage: python3 tools/respell.py [FOLDER]     FOLDER is the repository's root (here, if left out)
It prints each new name that a file already had.
"""
import collections
import pathlib
import re
import sys

WORD = r"[^\s(){}.;,@\"«»\[\]\\`]+"
MARKS = r"(?:(?:pub|unfoldable|abbrev|private)\s+)*"
DECLARED = re.compile(rf"(?m)^\s*{MARKS}({WORD})(?=(?:\s+[({{].*)?\s+:\s|\s*:\s)")
TYPES = re.compile(rf"(?m)^\s*{MARKS}(?:record|data)\s+({WORD})")
TOP = re.compile(rf"(?m)^{MARKS}({WORD}) : ")
COMMENT = re.compile(r"(?m)(?:^|(?<=\s))--.*$")
CAMEL = re.compile(r"[a-z][A-Za-z0-9]*[A-Z][A-Za-z0-9]*'*")
# Names that Rattle makes: a file of answers declares them, and they are no names of ours.
MADE = re.compile(r"(invariant|decreases|returns|overflow|loop|Need|bounds|nonzero|same)(-|$)")
# Names of the library that join to a lemma's other name by a dash.
LIBRARY = {"length", "map", "take", "drop", "append", "set", "paste", "add", "sub", "mul", "pow", "div", "zero", "one", "suc", "neg", "up", "dn"}


def antt(root, part):
    return sorted(p for p in root.glob(f"crates/*/{part}/**/*.antt") if "out" not in p.parts)


def declared(path):
    """The names that a file declares."""
    text = COMMENT.sub("", path.read_text())
    return {m[1] for m in DECLARED.finditer(text)} | {m[1] for m in TYPES.finditer(text)}


def snake(name):
    return re.sub(r"(?<=[a-z0-9])[A-Z]", lambda m: "_" + m[0].lower(), name)


def fields(path):
    """The fields of the records that a file declares."""
    found, inside = set(), None
    for line in COMMENT.sub("", path.read_text()).splitlines():
        indent = len(line) - len(line.lstrip())
        if inside is not None and line.strip() and indent <= inside:
            inside = None
        if inside is not None and (m := DECLARED.match(line)):
            found.add(m[1])
        if re.match(rf"\s*{MARKS}record\b.*\bwhere\s*$", line):
            inside = indent
    return found


def undashed(name, names):
    """A name with `_` for each dash that does not join two names."""
    parts = name.split("-")
    result = parts[0]
    for left, right in zip(parts, parts[1:]):
        joins = left in names and right in names
        result += ("-" if joins else "_") + right
    return result


def table(root):
    """Each old name with its new one."""
    turned = {}
    specs = set()
    for path in antt(root, "specs"):
        specs |= declared(path)
    lemmas = set()
    for path in antt(root, "proofs"):
        if path.name not in ("Proof.antt", "Invariants.antt", "Answers.antt"):
            lemmas |= declared(path)
        else:
            turned |= {name: snake(name) for name in declared(path) if CAMEL.fullmatch(name)}
    turned |= {name: snake(name) for name in specs | lemmas if CAMEL.fullmatch(name)}
    names = LIBRARY | {snake(name) for path in antt(root, "specs") for name in TOP.findall(COMMENT.sub("", path.read_text())) if "-" not in name}
    for name in specs:
        if "-" in name and re.match(r"[a-z]", name):
            turned[name] = snake(name).replace("-", "_")
    for name in lemmas:
        if "-" in name and re.match(r"[A-Za-z]", name) and not MADE.match(name):
            turned[name] = undashed(snake(name), names)
    turned = {old: new for old, new in turned.items() if old != new}
    # A lemma that would have its function's name gets `_lem`.
    reached = collections.Counter(turned.values())
    held = specs | lemmas
    for old, new in turned.items():
        if "-" in old and (reached[new] > 1 or new in held):
            turned[old] = new + "_lem"
    return turned


def turn(text, names, kept=frozenset()):
    """The text with each word turned, but a word of kept behind a dot: there it is a name that Rattle makes."""
    return re.sub(WORD, lambda m: m[0] if m[0] in kept and text[m.start() - 1 : m.start()] == "." else names.get(m[0], m[0]), text)


def turn_rattle(text, names):
    """A .rt file: clauses, ghost items and comments name definitions; a string keeps its text. No name of Rust's is in camel case."""
    parts = re.split(r'(b?"(?:[^"\\]|\\.)*")', text)
    return "".join(part if i % 2 else turn(part, names) for i, part in enumerate(parts))


def turn_spans(text, names):
    """Prose: what stands in code spans."""
    return re.sub(r"`[^`\n]+`", lambda m: turn(m[0], names), text)


def write(path, text):
    if text != path.read_text():
        path.write_text(text)


def main(root):
    names = table(root)
    sources = antt(root, "specs") + antt(root, "proofs")
    before = collections.defaultdict(set)
    for path in sources:
        for word in set(re.findall(WORD, COMMENT.sub("", path.read_text()))):
            before[word].add(path)
    for old, new in sorted(names.items()):
        both = before[old] & before[new]
        if both:
            print(f"falls together: {old} {new}: {', '.join(p.relative_to(root).as_posix() for p in sorted(both))}")
    reached = collections.defaultdict(list)
    for old, new in sorted(names.items()):
        reached[new].append(old)
    for new, olds in reached.items():
        if len(olds) > 1:
            print(f"two become one: {' '.join(olds)} -> {new}")
    held = set().union(*map(fields, sources))
    made = {name for name in names if "-" in name and name not in held}
    for path in sources:
        text = turn(path.read_text(), names, made if path.name == "Proof.antt" else frozenset())
        if path.name == "Proof.antt":
            text = re.sub(rf"(?m)^pub {WORD}[-_]spec :(.*\n){WORD}[-_]spec =", lambda m: f"pub {path.parent.name}_spec :{m[1]}{path.parent.name}_spec =", text)
        write(path, text)
    camel = {old: new for old, new in names.items() if CAMEL.fullmatch(old)}
    for path in sorted(root.glob("crates/*/src/**/*.rt")):
        write(path, turn_rattle(path.read_text(), names))
    for pattern in ("crates/*/must-fail/*.edit",):
        for path in sorted(root.glob(pattern)):
            write(path, turn(path.read_text(), camel))
    for pattern in ("README.md", "CHANGELOG.md", "docs/**/*.md", "host/**/*.md"):
        for path in sorted(root.glob(pattern)):
            write(path, turn_spans(path.read_text(), names))


if __name__ == "__main__":
    main(pathlib.Path(sys.argv[1] if len(sys.argv) > 1 else ".").resolve())
