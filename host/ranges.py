#!/usr/bin/env python3
"""Holds the ranges and limits that pages, header, refusals' words and C tests state against the rules of specs/. Needs no built program.

    host/ranges.py

- BOUNDS are the named bounds of crates/figures/specs/Rules.antt. From them and the lines below them there come the ranges of the 15 and 5
  figures; the screen has values and no range.
- README.md, docs/PLANNER.md, docs/RULES.md and the header have a table of them each, with units.
- The header's comment of each refusal, its words, and `words_of` name the ranges of its figures. The words are the same in both, also of refusals
  that no text leads to, which host/words.sh cannot try.
- LIMITS are those of a study (`ours`), of a text's bytes (`read_text`), of its working cells (`cells_needed`), the numbers on a
  segment's and a train's line (`segment_of`, `train_of`), and the least speed that counts (`least_counted`) with the highest: an answer on the
  highest speed lies between these two. `inside` and `outside` are how far below the limit the bare level lies there and at the next speed, by
  demand 3's distance (`demanded`). STATED has where they stand.
- host/c/plain.c has the same ranges, and host/c/host_test.c tries both ends of each.
"""
import pathlib
import re
import sys

ROOT = pathlib.Path(__file__).resolve().parent.parent
HEADER = (ROOT / "include" / "railnoise.h").read_text()


def spec(pattern):
    """What the one definition of specs/ that fits a pattern says, in whatever crate it stands."""
    texts = [path.read_text() for path in ROOT.glob("crates/*/specs/*.antt")]
    found = [match for text in texts for match in re.finditer(pattern, text, re.M | re.S)]
    if len(found) != 1:
        sys.exit(f"ranges: {len(found)} definitions in specs/ fit {pattern}")
    return found[0]


RULES = (ROOT / "crates" / "figures" / "specs" / "Rules.antt").read_text()
BOUNDS = {name: int(value) for name, value in re.findall(r"^abbrev pub (\w+) : ℕ\n\1 = (\d+)$", RULES, re.M)}

# Each figure in 01's order: its field, the line of the rules that has its range, its unit, the refusal
FIGURES = [
    ("distance", "distance_kept", "cm", 1),
    ("height", "heights_kept", "cm", 2),
    ("mean", "heights_kept", "cm", 2),
    ("soft", "soft_kept", "tenths", 3),
    ("view", "angles_kept", "degrees", 4),
    ("doubled", "angles_kept", "degrees", 4),
    ("screen", None, "", 5),
    ("setback", "screened_kept", "cm", 5),
    ("top", "screened_kept", "cm", 5),
    ("chart", "screened_kept", "0.1 dB", 5),
    ("track", "readings_kept", "0.1 dB", 7),
    ("ballast", "readings_kept", "0.1 dB", 7),
    ("facade", "readings_kept", "", 7),
    ("opposite", "readings_kept", "degrees", 7),
    ("wall", "screened_kept", "dm", 5),
    ("row", "row_kept", "", 8),
    ("speed", "speed_kept", "km/h", 9),
    ("vehicles", "vehicles_kept", "", 10),
    ("day", "trains_kept", "", 11),
    ("night", "trains_kept", "", 11),
]
SEGMENT = 15  # so many of them are a segment's
SHORT = {"centimetres": "cm", "decimetres": "dm", "tenths of dB": "0.1 dB"}  # units that some tables write out


def line_of(name):
    """A line of the rules, as written."""
    return re.search(rf"^{name} [^\n]*?=(.*?)(?=\n\n|\Z)", RULES, re.M | re.S)[1]


cited = set()


def bound(name):
    cited.add(name)
    return int(name) if name.isdigit() else BOUNDS[name]


def term(text):
    """A bound as the pages write it: a number, or θ for the angle of view."""
    if text == "s.view":
        return "θ"
    if text == "most":  # the Chart 6(c) reading's depends on the kind of screen
        return max(bound(name) for name in re.findall(r"screened_kept s \(pos (\w+)\)", line_of("screen_kept")))
    below, name = re.fullmatch(r"\((neg_ℤ \()?pos (\w+)\)+", text).groups()
    return -bound(name) if below else bound(name)


def ends(field, line):
    """The ends of a figure's range by the rules."""
    if field == "setback":
        off_source = re.search(r"le_z \(pos (\w+)\) s\.setback", line_of(line))
        off_window = re.search(r"le_z \(s\.setback \+ℤ pos (\w+)\) s\.distance", line_of(line))
        return bound(off_source[1]), f"d - {bound(off_window[1])}"
    side = r"(\((?:neg_ℤ \(pos \w+\)|pos \w+)\)|s\.\w+|most)"
    (low, high), = re.findall(rf"within {side} {side} [st]\.{field}\b", line_of(line))
    return term(low), term(high)


RANGES = {field: ends(field, line) for field, line, _, _ in FIGURES if line}
SEGMENTS, ENTRIES = map(int, spec(r"^ours = record \{ segments = (\d+); entries = (\d+) \}$").groups())
spec(r"^cells_needed t = t \+ t$")  # so twice as many cells
ABOVE, BELOW = (int(far) / 1_000_000 for far in spec(r"^demanded = record \{ above = (\d+); below = (\d+);").groups())
LIMITS = {
    "segments": SEGMENTS,
    "entries": ENTRIES,
    "cells": 2 * ENTRIES,
    "bytes": int(spec(r"^read_text l text = cond \(leb \(length text\) (\d+)\)")[1]),
    "late_segment": SEGMENTS + 1,
    "late_entry": ENTRIES + 1,
    "figures": int(spec(r"^segment_of line = segment_as \(exactly (\d+) \(")[1]),
    "train_figures": int(spec(r"^train_of line = train_as \(exactly (\d+) \(")[1]),
    "counted": int(spec(r"^least_counted = (\d+)$")[1]),
    "fastest": RANGES["speed"][1],
    "inside": 0.6 - BELOW,
    "outside": 0.5 + ABOVE,
    "inside_day": 68 - (0.6 - BELOW),
    "outside_day": 68 - (0.5 + ABOVE),
}
WORDED = [
    "a segment has {figures} numbers, a train {train_figures}, line 1 one more",
    "at most {bytes} bytes",
    "1 to {segments} segments, then each segment's number of train lines, 0 to {entries} and 1 to {entries} in all",
    "a study has at most {segments} segments",
    "a study has at most {entries} train entries",
]
# Where limits stand, each sentence with its numbers left open
STATED = {
    "README.md": [
        "up to {segments} segments of track and {entries} train entries",
        "each segment's line of {figures} numbers with its train lines of {train_figures} numbers",
        "speed; below {counted} it counts as {counted}",
        "the highest speed from {counted} to {fastest} km/h at which a period's total",
    ],
    "docs/PLANNER.md": ["the open segment: {figures} numbers", "The {figures} numbers of a segment's line", "The {train_figures} numbers of a train line",
                        "speed; [below {counted}](#trains-that-crawl) it counts as {counted}", "Below {counted} km/h it counts as {counted},",
                        "more than {segments} segments together with 21, more than {entries} train lines together with 22",
                        "| more than {segments} segments together |", "| more than {entries} train lines together |",
                        "| no speed from {counted} to {fastest} km/h keeps the total below the limit:",
                        "the highest speed from {counted} to {fastest} km/h at which the period's total",
                        "no speed from {counted} to {fastest} km/h keeps the total below the limit. That is so exactly where {counted} km/h does not",
                        "at least {inside:.2f} dB below the limit, and at the next higher speed at most {outside:.2f} dB below it. For 68 these are at most "
                        "{inside_day:.2f} dB and at least {outside_day:.2f} dB"],
    "docs/RULES.md": [
        "A segment has {figures} figures",
        "A train entry has {train_figures} figures",
        "A speed below {counted} km/h counts as {counted} ",
        "each segment's line of {figures} numbers, and after it its train lines of {train_figures} numbers",
        "up to {segments} segments and up to {entries} train entries in all",
        "A text has at most {bytes:,} bytes",
        "the segment count, 1 to {segments}, then each segment's entry count, 0 to {entries} each and 1 to {entries} in all",
        "a {late_segment}th segment",
        "a {late_entry}th train entry",
        "If both have more than {segments} segments together, the merge is refused with 21; if not, but more than {entries} entries together, with 22",
        "| then, no speed from {counted} to {fastest} km/h that keeps the total below the limit",
        "the highest speed from {counted} to {fastest} km/h at which the total of the period stays below",
        "at no speed from {counted} to {fastest} km/h",
        "26 is given exactly where it does not at {counted} km/h",
        "at least {inside:.2f} dB below the limit at the answered speed, and at most {outside:.2f} dB below it at the next higher speed",
    ],
    "docs/ACCURACY.md": ["= {inside:.2f} dB below the limit. At the next higher speed", "= {outside:.2f} dB."],
    "docs/TRACE.md": ["At most {bytes:,} bytes, else 12"],
    "docs/DECISIONS.md": ["a text over {bytes:,} bytes"],
    "include/railnoise.h": [
        "THE TEXT OF A STUDY has at most {bytes:,} bytes",
        "number of segments, 1 to {segments}, then for each segment the number of its train entries,",
        "train entries, 0 to {entries} each and 1 to {entries} in all",
        "Each segment's line of {figures} numbers follows, and after it the lines of its train entries, {train_figures} numbers each",
        "below {counted} it counts as {counted}",
        "#define RAILNOISE_TEXT_LIMIT {bytes} ",
        "#define RAILNOISE_SEGMENT_LIMIT {segments} ",
        "#define RAILNOISE_ENTRY_LIMIT {entries} ",
        "two for each of {entries} train entries",
        "#define RAILNOISE_MOST_CELLS {cells} ",
        "the text is longer than {bytes:,} bytes",
        "a {late_segment}th segment: two texts have more than {segments} together",
        "a {late_entry}th train entry: two texts have more than {entries} together",
        "no speed from {counted} to {fastest} km/h keeps the total below the limit (line 0)",
        'return "no speed from {counted} to {fastest} km/h keeps the total below the limit"',
        *WORDED,
    ],
    "include/railnoise_requests.h": [
        "more than {segments} segments together, 21; more than {entries} train entries together, 22",
        "km/h, {counted} to {fastest}; 0 on a refusal",
        "the highest speed from {counted} to {fastest} km/h at which the total",
        "at no higher one up to {fastest}.",
        "the answer is {fastest}, or 26",
        "no speed from {counted} to {fastest} km/h keeps the total below the limit, which is where {counted} km/h does not",
    ],
    "crates/words/specs/Words.antt": WORDED,
    "host/c/plain.c": ["#define MOST_SEGMENTS {segments} ", "#define MOST_ENTRIES {entries} ", "#define SLOWEST {counted} ", "#define FASTEST {fastest} ",
                       "speed < {counted} ? {counted} : speed"],
    "host/c/retype.h": ["SLOWEST = {counted}, FASTEST = {fastest} "],
}


def written(field):
    """A range as the pages write it."""
    low, high = RANGES[field]
    return f"{low} or {high}" if field == "facade" else f"{low} to {high}"


def plain(text):
    """Without line breaks, whether of a comment, a string or a paragraph."""
    return " ".join(re.sub(r'"\s*\n\s*"|\n \*(?= )', lambda match: "" if '"' in match[0] else " ", text).split())


def page_rows(text):
    """Unit and range of each row of the tables that have them."""
    inside = False
    for line in text.splitlines():
        cells = [cell.strip() for cell in line.split("|")]
        if "| Unit | Range |" in line:
            inside = True
        elif not line.startswith("|"):
            inside = False
        elif inside and not line.startswith("|---"):
            yield cells[3], cells[4]


def header_rows():
    table = HEADER.partition("A segment, in this order:")[2].partition("VEHICLE ROWS")[0]
    return re.findall(r"^ \* +\d+  \S.*?  +(centimetres|decimetres|tenths|degrees|0\.1 dB|km/h|) *((?:-?\d|the angle).*)$", table, re.M)


def tables():
    expected = [(unit, written(field) if line else "") for field, line, unit, _ in FIGURES]
    for name in ["README.md", "docs/PLANNER.md", "docs/RULES.md", "include/railnoise.h"]:
        rows = header_rows() if name.endswith(".h") else page_rows((ROOT / name).read_text())
        rows = [(SHORT.get(unit, unit), figures(told)) for unit, told in rows]
        yield len(rows) == len(expected), f"{name} has {len(rows)} figures, not {len(expected)}"
        for (field, line, _, _), (unit, ours), (its_unit, told) in zip(FIGURES, expected, rows):
            if line:
                yield (its_unit, told) == (unit, ours), f"{name}: {field} is {told} {its_unit}, by the rules {ours} {unit}"


def figures(told):
    return told.partition(";")[0].replace("the angle of view", "θ").replace("−", "-")


def ranges_in(sentence):
    """The ranges that a refusal's words or comment name, in order."""
    sentence = re.sub(r"(\d+) cm to (\d+) cm less than the distance", r"\1 to d - \2", plain(sentence))
    sentence = sentence.replace("0 degrees to", "0 to").replace("from it to", "from θ to").replace("the angle of view", "θ")
    return re.findall(r"(?:-?\d+|θ) to (?:d - \d+|-?\d+|θ)", sentence)


def refusals():
    comments = re.findall(r"(RAILNOISE_\w+) = (\d+),? +/\* (.*?) \*/", HEADER, re.S)
    numbers = {name: int(number) for name, number, _ in comments}
    told = [(f"the header's comment of {name}", int(number), comment) for name, number, comment in comments]
    worded = re.findall(r'case (RAILNOISE_\w+):\s*return ((?:\s*"[^"]*")+);', HEADER)
    told += [(f"the header's words of {name}", numbers[name], words) for name, words in worded if name in numbers]
    in_header = {numbers[name]: "".join(re.findall(r'"([^"]*)"', words)) for name, words in worded if numbers.get(name)}
    in_specs = {}
    for name, words in re.findall(r'^words_of (\w+) = ascii "(.*)"$', spec(r"^words_of .*?\n\n")[0], re.M):
        number = int(spec(rf"^number_of {name} = (\d+)$")[1])
        told.append((f"words_of {name}", number, words))
        in_specs[number] = words
    for number in sorted(in_header.keys() | in_specs.keys()):
        yield in_header.get(number) == in_specs.get(number), f"the header has other words of refusal {number} than words_of"
    for number in range(1, 12):
        # a facade has two values and no range; night trains are named with the day's
        ours = [written(field) for field, line, _, refusal in FIGURES if line and refusal == number and field not in ("facade", "night")]
        sentences = [(place, sentence) for place, its, sentence in told if its == number]
        yield len(sentences) == 3, f"refusal {number} is told at {len(sentences)} places, not 3"
        for place, sentence in sentences:
            if ours:
                yield ranges_in(sentence) == ours, f"{place} has {ranges_in(sentence)}, by the rules {ours}"


def limits():
    for name, sentences in STATED.items():
        text = plain((ROOT / name).read_text() + "\n")
        for sentence in sentences:
            yield sentence.format(**LIMITS) in text, f"{name} does not say: {sentence.format(**LIMITS)}"


def plain_program():
    names = "D WINDOW MEAN SOFT VIEW TWICE SCREEN PLACE TOP CHART TRACK BALLAST FACADE OPPOSITE WALL 0 1 2 3 4".split()
    code = (ROOT / "host" / "c" / "plain.c").read_text().replace("n[D] - ", "d - ").replace("n[SCREEN] == 2 ? ", "").replace(" : 0", "")
    tests = re.findall(r"within\(n\[(\w+)\], ([^,()]+), ([^,()]+)\)", code)
    found = {name: f"{low} to {high}".replace("n[VIEW]", "θ") for name, low, high in tests}
    for name, (field, line, _, _) in zip(names, FIGURES):
        if line:
            ours = "{} to {}".format(*RANGES[field])
            yield found.get(name) == ours, f"host/c/plain.c: {field} is {found.get(name)}, by the rules {ours}"


def host_test():
    """Both ends of each range are tried: by the rows of test_ranges, and where a figure leans on others by those of the test after it."""
    code = (ROOT / "host" / "c" / "host_test.c").read_text()
    rows, leaning = code.partition("static void test_ranges")[2].partition("static void test_segment_refusals")[::2]
    segment_rows, train_rows = rows.partition("train_fields")[::2]
    distance, angle = 2500, RANGES["view"][1]  # of the segment that the rows change
    for place, (field, line, _, refusal) in enumerate(FIGURES):
        if not line:
            continue
        low, high = RANGES[field]
        high = distance - low if field == "setback" else angle if high == "θ" else high
        if field in ("view", "doubled", "top"):
            past = [high + 1] if low == "θ" else [low - 1, high + 1]
            tried = all(f"{{ {place}, {end} }}" in leaning.partition("\n}")[0] for end in past)
        else:
            row = f"{{ {place % SEGMENT}, {low}, {high}, {refusal}, "
            tried = row in (train_rows if place >= SEGMENT else segment_rows)
        yield tried, f"host/c/host_test.c does not try {field} at {low} and {high}"


def results():
    counts = SEGMENT, len(FIGURES) - SEGMENT
    yield counts == (LIMITS["figures"], LIMITS["train_figures"]), f"a segment has {LIMITS['figures']} figures, a train {LIMITS['train_figures']}"
    yield set(BOUNDS) <= cited and len(BOUNDS) > 0, f"no range has the bounds {sorted(set(BOUNDS) - cited)}"
    for check in (tables, refusals, limits, plain_program, host_test):
        yield from check()


def report(name, found):
    for right, about in found:
        if not right:
            print(about, file=sys.stderr)
    print(f"{name}: {len(found)} shown, {sum(not right for right, _ in found)} not so")
    sys.exit(0 if all(right for right, _ in found) else 1)


if __name__ == "__main__":
    report("ranges", [*results()])
