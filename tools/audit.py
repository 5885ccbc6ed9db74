#!/usr/bin/env python3
"""Rules of the repository that no proof states: prints each place that breaks one, and then exits with 1.

- a public function has no `requires`; a library's has an `ensures`, and a row in docs/TRACE.md with its contract and two wrong programs;
  that page names every must-fail edit, and none that is not there, and lists those that change a definition
- a must-fail edit says what would go wrong, and each of its old texts stands once in its file and is changed
- a function of the product has fewer than 40 lines, its contract not counted
- an antt file has at most 300 lines
- no six lines stand twice; blank lines, comments, imports and attributes are not counted
- no file is of a kind that its folder does not hold; every module of specs/ and proofs/ is listed in its Lib.antt, and every folder of
  proofs/ that has an Answers.antt, Invariants.antt or Proof.antt is named after a function
- no import is unused, and no definition is there that nothing cites (tools/citations.py)

Run it at the root: python3 tools/audit.py
"""
import pathlib
import re
import sys

import citations

# Functions that may be longer, with the reason.
LONG = {
    "lines segment_of": "documents 01 and 02 ask for a `let .. else` for each of the 15 fields",
    "text answer_lines": "document 01 asks for a labelled nest of the lines, and each of its ways ends the reading",
}
# Written by tools/tables.py, row after row.
TABLES = {"crates/small_logs/src/lib.rt", "crates/decibel_tables/src/lib.rt", "crates/energy_tables/src/lib.rt"}

# What a folder holds, by suffix or name. Folders that a build or git fills are left out.
HELD = {
    ".": {"README.md", "CHANGELOG.md", "crates.txt", "railnoise.sh", ".gitignore"},
    ".ci": {"run"},
    "crates": {".rt", ".antt", ".edit", "stdin", "stdout"},
    "docs": {".md", ".svg", ".txt"},
    "host": {".sh", ".py", ".c", ".h", ".rs", ".toml", ".md", ".dict", ".gitignore", "Cargo.lock"},
    "include": {".h"},
    "tools": {".py", ".sh", ".json"},
}
FILLED = {"target", "build", "out", "__pycache__", ".git"}
# What a function's folder of proofs/ holds.
PROOFS = {"Answers.antt", "Invariants.antt", "Proof.antt"}
# Definitions that nothing cites yet and that stay all the same, with the reason.
UNCITED = {
    "factor_low": "for the fine level of a change request: what a factor takes off at least",
    "factor_high": "for the fine level of a change request: what a factor takes off at most",
}

FUNCTION = re.compile(
    r"""^(?P<indent>[ \t]*)(?P<public>pub[ ])?(?:pub\(crate\)[ ])?(?:extern[ ]"C"[ ])?fn[ ](?P<name>\w+)
        (?P<head>.*?)\{\n(?P<body>.*?)^(?P=indent)\}$""",
    re.M | re.S | re.X,
)
# A row of docs/TRACE.md on public functions: the crate and its functions, their contract, at least two wrong programs.
TRACED = re.compile(r"^\| (?P<crate>\w+) (?P<names>`[^|]*) \| [^|]*`[^|]* \| (?P<wrong>[^|]*;[^|]*) \|$", re.M)
CONTRACT = re.compile(r"^[ \t]+(?:requires|ensures)\b.*", re.M | re.S)
# Lines that do not count as repeated, by the file's suffix.
UNCOUNTED = {
    ".antt": r"--|(pub )?(use|mod)\b",
    ".rt": r"//|#!?\[|(pub )?(ghost )?(use|mod)\b",
    ".rs": r"//|(pub )?(use|mod)\b",
    ".c": r"//|/\*|\*( |/|$)|#include\b",
    ".h": r"//|/\*|\*( |/|$)|#include\b",
    ".py": r"#|import\b|from\b",
    ".sh": r"#",
}
SOURCES = ["crates/**/*.rt", "crates/**/*.antt", "include/*.h", "host/**/*.[ch]", "host/**/*.rs", "host/**/*.sh", "*.sh",
           "host/**/*.py", "tools/*.py"]
RUN = 6


def files(patterns):
    """The files of some patterns; what builds have left below host/ is no source."""
    found = {path for pattern in patterns for path in pathlib.Path(".").glob(pattern)}
    return sorted(path for path in found if not FILLED & set(path.parts) and path.as_posix() not in TABLES)


def function_faults(path):
    """What is wrong with a .rt file's functions."""
    crate = path.parts[1]
    library = not pathlib.Path("crates", crate, "src", "main.rt").exists()
    text = path.read_text()
    names = re.findall(r"^[^/\n]*\bfn (\w+)", text, re.M)
    if names != [match["name"] for match in FUNCTION.finditer(text)]:
        yield f"{path}: a function stands in a form that this script does not read"
    for match in FUNCTION.finditer(text):
        name = match["name"]
        contract = CONTRACT.search(match["head"])
        stated = contract[0] if contract else ""
        if match["public"] and re.search(r"\brequires\b", re.sub(r"//.*", "", match["head"])):
            yield f"{path}: public function {name} has a requires"
        if match["public"] and library and not re.search(r"^\s+ensures\b", stated, re.M):
            yield f"{path}: public function {name} has no ensures"
        length = match[0].count("\n") + 1 - stated.count("\n")
        if length >= 40 and f"{crate} {name}" not in LONG and path.as_posix() not in TABLES:
            yield f"{path}: function {name} has {length} lines"


def trace_faults():
    """Public functions and must-fail edits that docs/TRACE.md leaves out or makes up."""
    page = pathlib.Path("docs/TRACE.md").read_text()
    crates = {path.name for path in pathlib.Path("crates").iterdir()}
    edits = {f"{path.parts[1]}/{path.stem}": path.read_text() for path in pathlib.Path("crates").glob("*/must-fail/*.edit")}
    named = {f"{crate}/{edit}" for crate, edit in re.findall(r"\b(\w+)/(\w+)\b(?![/.])", page) if crate in crates}
    rows = set()
    for match in TRACED.finditer(page.partition("## Public functions")[2]):
        rows |= {(match["crate"], name) for name in re.findall(r"`(\w+)`", match["names"])}
        kept = " ".join(re.findall(r"\(([^()]*)\)", match["wrong"]))
        named |= {f"{match['crate']}/{edit}" for edit in re.findall(r"(?<![\w/])[a-z0-9]+(?:_[a-z0-9]+)+(?![\w/])", kept)}
    for path in sorted(pathlib.Path("crates").glob("*/src/**/*.rt")):
        crate = path.parts[1]
        if not pathlib.Path("crates", crate, "src", "main.rt").exists():
            public = {(crate, match["name"]) for match in FUNCTION.finditer(path.read_text()) if match["public"]}
            yield from (f"{path}: public function {name} has no row in docs/TRACE.md" for _, name in sorted(public - rows))
    yield from (f"docs/TRACE.md: there is no edit {edit}" for edit in sorted(named - edits.keys()))
    yield from (f"docs/TRACE.md: edit {edit} is not named" for edit in sorted(edits.keys() - named))
    listed = re.search(r"^These edits change a definition and not the program: ([^.]*)\.", page, re.M)
    said = set(re.findall(r"\w+/\w+", listed[1])) if listed else set()
    changed = {edit for edit, text in edits.items() if "\nfile: specs/" in text}
    yield from (f"docs/TRACE.md: edit {edit} is to be listed exactly if it changes a definition" for edit in sorted(said ^ changed))


def edit_faults():
    """Must-fail edits that do not apply, or not at one place alone: `rt must-fail` would say so, but late."""
    for path in sorted(pathlib.Path("crates").glob("*/must-fail/*.edit")):
        text = path.read_text()
        kinds, values = zip(*(line.partition(": ")[::2] for line in text.splitlines() if line and not line.startswith("#")))
        pairs = len(kinds) // 2
        edited = path.parent.parent / values[0]
        if not text.startswith("# ") or pairs == 0 or kinds != ("file", *("old", "new") * pairs) or not edited.is_file():
            yield f"{path}: not a comment, a file that is there, and pairs of old and new"
            continue
        for old, new in zip(values[1::2], values[2::2]):
            places = edited.read_text().count(old)
            if places != 1:
                yield f"{path}: the old text stands {places} times in {edited}: {old}"
            if old == new:
                yield f"{path}: changes nothing: {old}"


def counted_lines(path):
    """The lines of a file that count, with their numbers."""
    uncounted = re.compile(UNCOUNTED[path.suffix])
    lines = ((number, line.strip()) for number, line in enumerate(path.read_text().splitlines(), 1))
    return [(number, line) for number, line in lines if line and not uncounted.match(line)]


def repeated_runs(paths):
    """The places of each run of equal lines that stands more than once; of a longer run only its beginning."""
    kept = {path: counted_lines(path) for path in paths}
    windows = {}
    for path, lines in kept.items():
        for start in range(len(lines) - RUN + 1):
            window = tuple(line for _, line in lines[start : start + RUN])
            windows.setdefault(window, []).append((path, start))
    repeated = {tuple(places) for places in windows.values() if len(places) > 1}
    for places in sorted(repeated):
        if tuple((path, start - 1) for path, start in places) not in repeated:
            yield [f"{path}:{kept[path][start][0]}" for path, start in places]


def stray_files():
    for path in sorted(path for path in pathlib.Path(".").glob("**/*") if path.is_file() and not FILLED & set(path.parts)):
        held = HELD.get(path.parts[0] if len(path.parts) > 1 else ".", set())
        if path.name not in held and (len(path.parts) == 1 or path.suffix not in held):
            yield f"{path}: a stray file"


def stray_proofs():
    """Modules that no Lib.antt lists, and proofs of functions that are not there."""
    for crate in sorted(pathlib.Path("crates").iterdir()):
        code = "\n".join(path.read_text() for path in crate.glob("src/**/*.rt"))
        functions = set(re.findall(r"\bfn (\w+)", code))
        for folder in (crate / "specs", crate / "proofs"):
            library = folder / "Lib.antt"
            listed = set(re.findall(r"^(?:pub )?mod (\S+)", library.read_text() if library.exists() else "", re.M))
            for path in sorted(folder.glob("*.antt")):
                if path != library and path.stem not in listed:
                    yield f"{path}: no module of {library}"
        for path in sorted(crate.glob("proofs/*/**/*.antt")):
            if path.name in PROOFS and path.parent.name.lstrip("+") not in functions:
                yield f"{path}: there is no function {path.parent.name}"


def idle_names():
    """Unused imports and definitions that nothing cites."""
    sources = citations.sources()
    pages = "\n".join(path.read_text() for path in files(["README.md", "docs/*.md"]))
    yield from citations.unused_imports(sources)
    for path, name in citations.uncited_definitions(sources, pages):
        if name not in UNCITED:
            yield f"{path}: nothing cites {name}"


def conclude(faults, tool, what):
    """Names the faults and ends with 1 where there are any: tools/believed.py and lines.py end so too."""
    for fault in faults:
        print(fault, file=sys.stderr)
    print(f"{tool}: {len(faults)} {what}")
    sys.exit(1 if faults else 0)


def main():
    faults = [fault for path in sorted(pathlib.Path("crates").glob("*/src/**/*.rt")) for fault in function_faults(path)]
    faults += [*trace_faults(), *edit_faults()]
    for path in files(["crates/**/*.antt"]):
        length = len(path.read_text().splitlines())
        if length > 300:
            faults.append(f"{path}: {length} lines")
    for places in repeated_runs(files(SOURCES)):
        faults.append(f"six equal lines: {', '.join(places[:4])}{' and more' if len(places) > 4 else ''}")
    faults += [*stray_files(), *stray_proofs(), *idle_names()]
    conclude(faults, "audit", "faults")


if __name__ == "__main__":
    main()
