#!/usr/bin/env python3
"""How many lines each crate has: code, definitions, those of them that a reader must believe, and proof.

    python3 tools/lines.py [REVISION | --check]

Without a revision the working tree is counted; --check holds the present columns of docs/COST.md against it. Code is src/, definitions are specs/, proof is proofs/. Believed are the definitions but
those of Private.antt, which only contracts of private functions cite (Parts.antt before the crate figures was made), and of Lists.antt,
which tools/tables.py writes and a law holds against its formula. Blank lines, comments, imports and lists of modules are not counted.
"""
import pathlib
import re
import subprocess
import sys

import audit

# What is not counted of a file, by its suffix: comments, imports and lists of modules.
UNCOUNTED = {
    ".rt": re.compile(r"//|(pub )?(ghost )?(use|mod)\b"),
    ".antt": re.compile(r"--(\s|$)|(pub )?(use|mod)\b"),
}
FOLDERS = {"src": (".rt", "code"), "specs": (".antt", "definitions"), "proofs": (".antt", "proof")}
COLUMNS = ["code", "definitions", "believed", "proof"]
NOT_BELIEVED = {"Private.antt", "Parts.antt", "Lists.antt"}


def tree_files():
    for path in sorted(path for folder in FOLDERS for path in pathlib.Path("crates").glob(f"*/{folder}/**/*")):
        if path.suffix in UNCOUNTED:
            yield path, path.read_text()


def revision_files(revision):
    names = git("ls-tree", "-r", "--name-only", revision, "crates").splitlines()
    for path in sorted(map(pathlib.PurePosixPath, names)):
        if path.suffix in UNCOUNTED:
            yield path, git("show", f"{revision}:{path}")


def git(*arguments):
    return subprocess.run(["git", *arguments], check=True, capture_output=True, text=True).stdout


def counted(suffix, text):
    """The lines that count. An import that is broken over lines goes on to its closing brace."""
    count = 0
    inside = False
    for line in map(str.strip, text.splitlines()):
        if inside:
            inside = "}" not in line
        elif UNCOUNTED[suffix].match(line):
            inside = "{" in line and "}" not in line and not line.startswith(("//", "--"))
        elif line:
            count += 1
    return count


def table(files):
    crates = {}
    for path, text in files:
        folder = path.parts[2]
        suffix, column = FOLDERS.get(folder, (None, None))
        if path.suffix != suffix:
            continue
        row = crates.setdefault(path.parts[1], dict.fromkeys(COLUMNS, 0))
        lines = counted(suffix, text)
        row[column] += lines
        if column == "definitions" and path.name not in NOT_BELIEVED:
            row["believed"] += lines
    return crates


def stated():
    """The present counts of docs/COST.md, by the crates of each row: those after "now" where the crates were others before."""
    page = pathlib.Path("docs/COST.md").read_text().partition("## Lines")[2]
    for row in re.findall(r"^\| ([^|]+) \|([^\n]*)\|$", page, re.M):
        cells = [cell.strip() for cell in row[1].split("|")]
        if len(cells) == 2 * len(COLUMNS) and cells[1][:1].isdigit():
            yield re.findall(r"\w+", row[0].rpartition("now")[2]), [int(cell.replace(",", "")) for cell in cells[1::2]]


def check(crates):
    """What docs/COST.md has otherwise, and which crates it leaves out."""
    named = set()
    for names, counts in stated():
        named |= set(names)
        are = [sum(crates[name][column] for name in names) for column in COLUMNS]
        if are != counts:
            yield f"docs/COST.md: {', '.join(names)} have {are}, not {counts}"
    yield from (f"docs/COST.md: no row has {name}" for name in sorted(set(crates) - named))


def main():
    checking = sys.argv[1:] == ["--check"]
    files = revision_files(sys.argv[1]) if sys.argv[1:] and not checking else tree_files()
    crates = table(files)
    crates["together"] = {column: sum(row[column] for row in crates.values()) for column in COLUMNS}
    if checking:
        audit.conclude([*check(crates)], "lines", "counts otherwise in docs/COST.md")
    print("| Crate | Code | Definitions | of these believed | Proof |")
    print("|---|---|---|---|---|")
    for crate, row in crates.items():
        print(f"| {crate} | {' | '.join(f'{row[column]:,}' for column in COLUMNS)} |")


if __name__ == "__main__":
    main()
