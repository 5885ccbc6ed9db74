#!/usr/bin/env python3
"""Holds the counts of docs/COST.md, and the stack of README.md and the headers, against a run of host/bench.sh.

    host/cost.py [ARCHIVE]

- Instructions of a call, by study, by size, by request, by two drawings and by question for a speed, the stack, and how often the plain
  program misreads: each stated count lies within 5 in 100 of the run's, in the section of its function. They are the same from run to run
  on one machine, but the C library copies by what the processor offers.
- A stated ratio is that of the stated counts.
- A call takes less stack than README.md and the header of its function say.
Times are not compared.
"""
import pathlib
import re
import subprocess
import sys

ROOT = pathlib.Path(__file__).resolve().parent.parent
COST = (ROOT / "docs" / "COST.md").read_text()
LEVELS, ENTITLEMENT, MERGED = "A call", "A call of railnoise_entitlement", "A call of railnoise_merged_levels"
SPEED = "A call of railnoise_highest_speed"
NUMBER = r"([\d,]+|none)"


def count(text):
    return 0 if text == "none" else int(text.replace(",", ""))


def tables(written):
    """The tables of a run, by the first word of their heads; those of requests, of drawings and of questions for a speed by that of the
    first table above them too: each row's numbers, with its name first."""
    found, head, above = {}, None, None
    for line in written.splitlines():
        words = line.split()
        if not words or line.startswith("#"):
            head = None
        elif words[0] in ("instr", "entries", "segments", "stack"):
            head = above = words[0]
            found[head] = []
        elif words[0] in ("request", "merged", "speed"):
            head = f"{above} {words[0]}"
            found[head] = []
        elif head:
            found[head].append(words)
    return found


def section(title):
    """What docs/COST.md has under a title."""
    return re.search(rf"^## {title}\n(.*?)(?=^## |\Z)", COST, re.M | re.S)[1]


def near(stated, run):
    return all(abs(a - b) <= 0.05 * b for a, b in zip(stated, run, strict=True))


def counted(about, title, pattern, run):
    """A place of docs/COST.md, in the section of that title, whose numbers are the run's."""
    match = re.search(pattern, section(title))
    stated = [count(text) for text in match.groups()] if match else []
    yield len(stated) == len(run) and near(stated, run), f"{about}: {stated} stated, {run} in the run"


def instructions(rows, title):
    for name, *run in rows:
        pattern = rf"\| {name}: [^|]*" + rf"\| {NUMBER} " * 3
        yield from counted(f"instructions, {name}", title, pattern, [int(text) for text in run[:3]])
        row = re.search(pattern + r"\| ([\d.]+) \| ([\d.]+) \|", section(title))
        stated = [count(text) for text in row.groups()[:3]] if row else []
        ratios = tuple(f"{stated[0] / other:.2f}" for other in stated[1:]) if all(stated) else ()
        yield row and row.groups()[3:] == ratios, f"ratios, {name}: {row and row.groups()[3:]} stated, {ratios} of the stated counts"


def growth(rows, unit):
    for before, after in zip(rows, rows[1:]):
        about = f"{unit}, from {before[0]} to {after[0]}"
        yield from counted(about, LEVELS, rf"\| {about} " + rf"\| {NUMBER} " * 3, [int(text) for text in after[4:]])


def most(rows):
    """The most stack of a call, the product's and plain's."""
    return [max(int(row[column]) for row in rows) for column in (1, 2)]


def stack(studies, requests, merged, speeds):
    refused = [row for row in studies if row[0] == "refused"]
    product, plain = most([row for row in studies if row[0] != "refused"])
    pattern = rf"painted stack: {NUMBER} bytes, and {NUMBER} on the refused text; plain {NUMBER}\."
    yield from counted("stack", LEVELS, pattern, [product, most(refused)[0], plain])
    for title, rows in ((ENTITLEMENT, requests), (MERGED, merged), (SPEED, speeds)):
        yield from counted(f"stack, {title}", title, rf"painted stack: {NUMBER} bytes; plain {NUMBER}\.", most(rows))
    header = "include/railnoise_requests.h"
    for page, sentence, rows in (
        ("README.md", r"\b[Aa] call takes less than (\d+) kB of stack", studies),  # said of the first function
        ("include/railnoise.h", r"\b[Aa] call takes less than (\d+) kB of stack", studies),
        (header, r"a call of railnoise_entitlement takes less than (\d+) kB of stack", requests),
        (header, r"one of railnoise_merged_levels or of railnoise_highest_speed less than (\d+) kB\b", merged + speeds),
    ):
        text = re.sub(r"\s[\s*]*", " ", (ROOT / page).read_text())
        limits = [1000 * int(kilobytes) for kilobytes in re.findall(sentence, text)]
        used = most(rows)[0]
        yield len(limits) == 1 and used < limits[0], f"stack, {page}: less than {limits} bytes stated, {used} in the run"


def misread(written):
    pattern = r"misread (\d+) of (\d+) good texts and (\d+) of (\d+) others"
    for who in ("plain", "digits"):
        run = [int(text) for text in re.search(rf"^{who}: {pattern}", written, re.M).groups()]
        yield from counted(f"misread, {who}", LEVELS, rf"{NUMBER} of {NUMBER} good texts,\s+and {NUMBER} of {NUMBER} others", run)


def main():
    run = subprocess.run([ROOT / "host" / "bench.sh", "--counts", *sys.argv[1:]], capture_output=True, text=True)
    if run.returncode:
        sys.exit(f"cost: host/bench.sh ended with {run.returncode}\n{run.stderr}")
    found = tables(run.stdout)
    checks = [
        *instructions(found["instr"], LEVELS),
        *instructions(found["instr request"], ENTITLEMENT),
        *instructions(found["instr merged"], MERGED),
        *instructions(found["instr speed"], SPEED),
        *growth(found["entries"], "a further entry"),
        *growth(found["segments"], "a further segment with 4 entries"),
        *stack(found["stack"], found["stack request"], found["stack merged"], found["stack speed"]),
        *misread(run.stdout),
    ]
    wrong = [about for right, about in checks if not right]
    for about in wrong:
        print(about, file=sys.stderr)
    print(f"cost: {len(checks)} counts, {len(wrong)} not so")
    return bool(wrong)


sys.exit(main())
