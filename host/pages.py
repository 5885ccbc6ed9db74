#!/usr/bin/env python3
"""Tries what the pages and the header show, by the built program: commands, vehicle rows, refused lines.

    host/pages.py [--words]

- A command is a line `$ ./railnoise.sh ..` in an indented or fenced block of README.md or docs/*.md; the lines after it, up to the next
  command or the end of the block, are what it writes. Lines that begin with `railnoise: ` belong to standard error; they are compared
  with --words. Commands run at the root of the checkout, by bash; one that takes longer than 10 s is at fault.
- The vehicle rows of docs/PLANNER.md are those of the header, and the program gives each its figure.
- The refused lines of docs/PLANNER.md, put into docs/studies/entry.txt, give the refusal beside them.
- The study that docs/PLANNER.md explains is docs/studies/planner.txt.
- The house that README.md and include/railnoise_requests.h show has the studies HOUSE of docs/studies, and they and docs/PLANNER.md give the same answer.
- The two drawings that README.md, include/railnoise_requests.h and docs/PLANNER.md show are YARD and LINE of docs/studies, BOTH has the lines of both, and
  its levels are those shown.
- The window that README.md, include/railnoise_requests.h and docs/PLANNER.md ask a highest speed for is WINDOW of docs/studies. The pages have the same
  answers, and the program's totals go with them: below the limit at the answered speed, and not at the next one; with 26, not at the lowest.
- Ranges and limits are those of the rules (host/ranges.py, which needs no program and can be run alone).
"""
import re
import subprocess
import sys

import ranges

ROOT = ranges.ROOT
PLANNER = (ROOT / "docs" / "PLANNER.md").read_text()
ENTRY = (ROOT / "docs" / "studies" / "entry.txt").read_text().splitlines()
WORDS = "--words" in sys.argv[1:]
HOUSE = ["terminal_before", "terminal_after", "line"]
YARD, LINE, BOTH = "terminal_after", "main_line", "yard_and_main_line"
WINDOW = "two_lines"


def blocks(page):
    """The code blocks of a page: their lines, each with its number."""
    block, fenced = [], False
    for number, line in enumerate(page.read_text().splitlines() + [""], 1):
        fence = line.startswith("```")
        if (fenced and not fence) or (not fenced and line.startswith("    ")):
            block.append((number, line if fenced else line[4:]))
        elif block:
            yield block
            block = []
        fenced ^= fence


def shown(block):
    """Each command of a block with its line's number and what the page shows of it."""
    for place, (number, line) in enumerate(block):
        if line.startswith("$ ./railnoise.sh"):
            after = []
            for _, written in block[place + 1:]:
                if written.startswith("$ "):
                    break
                after.append(written)
            yield number, line[2:], after


def commands():
    for page in [ROOT / "README.md", *sorted((ROOT / "docs").glob("*.md"))]:
        for number, command, after in (found for block in blocks(page) for found in shown(block)):
            run = subprocess.run(["bash", "-c", command], cwd=ROOT, capture_output=True, text=True, timeout=10, stdin=subprocess.DEVNULL)
            told = [line for line in after if re.match(r"(\S+: )?railnoise: ", line)]
            right = run.stdout.splitlines() == [line for line in after if line not in told]
            right = right and (not WORDS or run.stderr.splitlines() == told)
            yield right, f"{page.relative_to(ROOT)}:{number}: {command}\n{run.stdout}{run.stderr}"


def answer(text):
    return subprocess.run([ROOT / "crates" / "railnoise" / "out" / "railnoise"], input=text, capture_output=True, text=True, check=True).stdout


def rows():
    listed = re.findall(r"^\| (\d+) \| (.+?) \| \w+ \| (\d+\.\d) \|$", PLANNER, re.M)
    header = re.findall(r"^ \* +(\d+)  (\S.*?) +(\d+\.\d)$", (ROOT / "include" / "railnoise.h").read_text(), re.M)
    yield listed == header and len(listed) == 34, "vehicle rows: docs/PLANNER.md and the header differ, or are not 34"
    for row, vehicle, figure in listed:
        # 100 km/h are 71.2 dB, a single train by day takes 48.1 off; nothing else counts
        level = (round(float(figure) * 10) + 712 - 481) / 10
        written = answer(f"1 1\n2500 0 600 0 180 180 0 0 0 0 0 0 0 0 0\n{row} 100 1 1 0\n")
        yield f"\nday {level:.1f} 0 no\n" in written, f"row {row}, {vehicle}: not {figure}: {written}"


def refused_lines():
    cases = re.findall(r"^\| (\d) \| `(.*)` \| (refused \d+ line \d+) \|", PLANNER, re.M)
    yield len({refusal.split()[1] for _, _, refusal in cases}) == 13, "docs/PLANNER.md does not show every refusal of a text"
    for line, typed, refusal in cases:
        lines = [*ENTRY]
        lines[int(line) - 1] = typed.replace(r"\t", "\t").replace(r"\r", "\r")
        written = answer("".join(f"{text}\n" for text in lines))
        yield written == refusal + "\n", f"docs/PLANNER.md: `{typed}`: {written}"


def study():
    text = (ROOT / "docs" / "studies" / "planner.txt").read_text()
    yield "".join(f"    {line}\n" for line in text.splitlines()) in PLANNER, "docs/PLANNER.md does not show docs/studies/planner.txt"


def house():
    readme, header = ((ROOT / name).read_text() for name in ["README.md", "include/railnoise_requests.h"])
    for name in HOUSE:
        text = (ROOT / "docs" / "studies" / f"{name}.txt").read_text()
        typed = '"{}"'.format(text.replace("\n", "\\n"))
        yield typed in readme and typed in header, f"README.md or the requests' header does not show docs/studies/{name}.txt"
        levels = " and ".join(re.findall(r"^(?:day|night) (\S+)", answer(text), re.M))
        yield levels in header, f"the requests' header does not give the levels of docs/studies/{name}.txt: {levels}"
    printed = re.findall(r"^```text\n(.*?)^```$", readme, re.M | re.S)[1]  # what README's second example prints
    yield "".join(f" *     {line}\n" for line in printed.splitlines()) in header, "the requests' header has another answer than README.md"
    yield "".join(f"    {line}\n" for line in printed.splitlines()) in PLANNER, "docs/PLANNER.md has another answer than README.md"


def typed(name):
    """The lines of a study of docs/studies, the contents' numbers apart."""
    contents, *lines = (ROOT / "docs" / "studies" / f"{name}.txt").read_text().splitlines()
    return [int(number) for number in contents.split()], lines


def drawings():
    pages = {name: (ROOT / name).read_text() for name in ["README.md", "include/railnoise_requests.h"]}
    (yard, yard_lines), (line, line_lines), (both, both_lines) = map(typed, [YARD, LINE, BOTH])
    whole = [yard[0] + line[0], *yard[1:], *line[1:]]
    yield both == whole and both_lines == yard_lines + line_lines, f"docs/studies/{BOTH}.txt is not {YARD}.txt and {LINE}.txt"
    for page, text in pages.items():
        joined = re.sub(r'"\n[ *]*"', "", text)  # a literal in two pieces
        for name in [YARD, LINE]:
            literal = (ROOT / "docs" / "studies" / f"{name}.txt").read_text().replace("\n", "\\n")
            yield literal in joined, f"{page} does not show docs/studies/{name}.txt"
    printed = re.findall(r"^```text\n(.*?)^```$", pages["README.md"], re.M | re.S)[2]  # what README's third example prints
    shown = re.findall(r"^(day|night): (\S+) dB, close (\d+)(, met)?$", printed, re.M)
    expected = "".join(f"{period} {level} {close} {'yes' if met else 'no'}\n" for period, level, close, met in shown)
    written = answer((ROOT / "docs" / "studies" / f"{BOTH}.txt").read_text())
    yield written == "period level close met\n" + expected and len(shown) == 2, f"README.md's two drawings: {written}"
    yield "".join(f" *     {line}\n" for line in printed.splitlines()) in pages["include/railnoise_requests.h"], "the requests' header has other levels than README.md"
    yield "".join(f"    {line}\n" for line in printed.splitlines()) in PLANNER, "docs/PLANNER.md has other levels than README.md"
    for name in [YARD, LINE]:
        levels = " and ".join(re.findall(r"^(?:day|night) (\S+)", answer((ROOT / "docs" / "studies" / f"{name}.txt").read_text()), re.M))
        yield levels in pages["include/railnoise_requests.h"], f"the requests' header does not give the levels of docs/studies/{name}.txt: {levels}"


def total(entry, period, speed):
    """The window's total where an entry, counted from 1, has that speed: as the program writes it."""
    (_, *counts), lines = typed(WINDOW)
    ends = [sum(counts[:place + 1]) for place in range(len(counts))]
    segment = next(place for place, end in enumerate(ends) if entry <= end)
    line = entry + segment  # of those after the contents, from 0: a segment's own stands before its trains
    row, _, *rest = lines[line].split()
    lines[line] = " ".join([row, str(speed), *rest])
    written = answer("".join(f"{text}\n" for text in [" ".join(map(str, [len(counts), *counts])), *lines]))
    return re.search(rf"^{period} (\S+)", written, re.M)[1]


def below(level, limit):
    return level == "silent" or (int(level.replace(".", "")) + 5) // 10 < limit


def speeds():
    text = (ROOT / "docs" / "studies" / f"{WINDOW}.txt").read_text()
    readme, header = ((ROOT / name).read_text() for name in ["README.md", "include/railnoise_requests.h"])
    for page, shown_text in [("README.md", readme), ("the requests' header", header)]:
        joined = re.sub(r'"\n[ *]*"', "", shown_text)
        yield text.replace("\n", "\\n") in joined, f"{page} does not show docs/studies/{WINDOW}.txt"
    printed = re.findall(r"^```text\n(.*?)^```$", readme, re.M | re.S)[3]  # what README's fourth example prints
    for lines, what in [(text, f"docs/studies/{WINDOW}.txt"), (printed, "README.md's highest speeds")]:
        yield "".join(f"    {line}\n" for line in lines.splitlines()) in PLANNER, f"docs/PLANNER.md does not show {what}"
    asked = re.findall(r"^entry (\d+) by (day|night), below (\d+) dB: (?:up to (\d+) km/h|refused 26 line 0: .*)$", printed, re.M)
    yield len(asked) == len(printed.splitlines()) > 0, "README.md's highest speeds are written otherwise"
    slowest, fastest = ranges.LIMITS["counted"], ranges.LIMITS["fastest"]
    told = []  # by the header, of its one entry
    for entry, period, limit, speed in ((int(entry), period, int(limit), int(speed or 0)) for entry, period, limit, speed in asked):
        first = max(slowest, speed)
        reached = [total(entry, period, at) for at in [first, min(first + 1, fastest)]]
        right = [below(reached[0], limit), speed == fastest or not below(reached[1], limit)] if speed else [not below(reached[0], limit)]
        yield all(right), f"README.md: entry {entry} by {period} below {limit} dB: {reached}"
        if speed == fastest:
            told.append((entry, f"limit {limit} gives {speed} km/h"))
        elif speed:
            told.append((entry, f"limit {limit}: {speed} km/h, where the total is {reached[0]} dB; at {speed + 1} km/h it is {reached[1]} dB"))
        else:
            told.append((entry, f"Limit {limit}: 26"))
    for sentence in (sentence for entry, sentence in told if entry == 1):
        yield sentence in ranges.plain(header), f"the requests' header does not say: {sentence}"
    at_least = total(1, "day", slowest)
    yield f"the day's total is {at_least} dB" in ranges.plain(PLANNER), f"docs/PLANNER.md: with {slowest} in line 3 the total is {at_least}"


ranges.report("pages", [*commands(), *rows(), *refused_lines(), *study(), *house(), *drawings(), *speeds(), *ranges.results()])
