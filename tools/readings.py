#!/usr/bin/env python3
"""Hold what the program `readings` writes against figures typed from the memorandum and documents 01 and 02.

crates/readings/stdin has study texts, each under its title; crates/readings/stdout has what the program writes for them, which the
check of the crate compares with a run. readings.json has the typed figures, by title and part. None of them comes from a run.

With --check the tool is silent where every typed figure is found in the stored output, and where each reading that is wrong on
purpose is found to be wrong. Without it the readings are written, with the reason where the print differs from the formulas.
"""
import json
import math
import re
import sys
from pathlib import Path

ROOT = Path(__file__).resolve().parent.parent
CRATE = ROOT / "crates" / "readings"
DATA = json.loads((ROOT / "tools" / "readings.json").read_text())
SEGMENT = re.compile(
    r"segment (?P<number>\d+) distance (?P<distance>\S+) air (?P<air>\S+) (?P<path>ground|screen) (?P<tenths>\S+) angle (?P<angle>\S+)"
    r" chart (?P<chart>\S+) track (?P<track>\S+) ballast (?P<ballast>\S+) facade (?P<facade>\S+) opposite (?P<opposite>\S+)"
    r" close (?P<close>yes|no)")
TRAIN = re.compile(
    r"train (?P<number>\d+) segment (?P<segment>\d+) speed (?P<speed>\S+) rolling (?P<rolling>\S+) vehicles (?P<vehicles>\S+)"
    r" trains by day (?P<hours_day>\S+) trains by night (?P<hours_night>\S+) level by day (?P<day>\S+) level by night (?P<night>\S+)")
RESULT = re.compile(r"(?P<period>day|night) (?P<level>\S+) (?P<close>\d+) (?P<met>yes|no)")
REFUSED = re.compile(r"refused (?P<number>\d+) line (?P<line>\d+)")
ADDED = re.compile(r"(?P<name>segment|train|levels|entitlement|merge) (?P<answer>accepted|refused \d+)")
CONDITIONS = re.compile(
    r"(?P<period>day|night) prevailing (?P<prevailing>\S+) relevant (?P<relevant>\S+) reaches (?P<reaches>yes|no) rises (?P<rises>yes|no) contributes (?P<contributes>yes|no) entitled (?P<entitled>yes|no)")
KEPT = re.compile(r"kept speed (?P<kept>\d+)")
HOLDS = re.compile(r"holds segments (?P<segments>\d+) entries (?P<entries>\d+)")
HEARD = re.compile(r"heard day (?P<day>\S+) night (?P<night>\S+)")
SPEED = re.compile(r"(?P<asked>entry \d+ (?:day|night)) limit (?P<limit>\S+) speed (?P<speed>\d+) (?P<answer>accepted|refused \d+)")
HOUSE = re.compile(r"house (?P<house>yes|no)")
# What 10 log Q is above the trains step, in tenths.
HOURS = {"day": 481, "night": 433}


def tenths(figure):
    """A figure with one decimal as a whole number."""
    return int(figure.replace(".", ""))


def decimal(n):
    """The figure of so many tenths."""
    return f"{'-' if n < 0 else ''}{abs(n) // 10}.{abs(n) % 10}"


def whole(level):
    """A level to its nearest whole decibel, halves up."""
    return level if level == "silent" else str((tenths(level) + 5) // 10)


def added(parts, names):
    """The sum of some parts."""
    return decimal(sum(tenths(parts[name]) for name in names))


def by_title(path):
    """What stands under each title of a file."""
    parts = re.split(r"^# (.*)\n", path.read_text(), flags=re.M)
    titles = parts[1::2]
    if parts[0] or len(set(titles)) < len(titles):
        sys.exit(f"{path.name}: text before the first title, or a title twice")
    return dict(zip(titles, parts[2::2]))


def segments_in(text):
    """The segments' lines of a study text."""
    lines = [[int(word) for word in line.split()] for line in text.splitlines()]
    at = 1
    for entries in lines[0][1:]:
        yield lines[at]
        at += 1 + entries


def lengths(fields):
    """The slant distance and the path difference over the screen's top, in metres, of the figures as entered."""
    d, h, setback, top = fields[0] / 100, fields[1] / 100, fields[7] / 100, fields[8] / 100
    over = math.hypot(setback, top) + math.hypot(d - setback, h - top) - math.hypot(d, h)
    return {"slant": f"{math.hypot(d, h):.1f}", "delta": f"{over:.3f}"}


def far_wall(fields):
    """What the far wall as entered takes off the screen's correction, in tenths."""
    decimetres = fields[14]
    return 0 if decimetres < 15 else 5 * ((decimetres + 5) // 10)


def segment_parts(line, fields):
    parts = {"ground": "0.0", "screen": "0.0", "dual": decimal(far_wall(fields))} | line.groupdict() | lengths(fields)
    parts[parts["path"]] = parts["tenths"]
    parts["reduced"] = added(parts, ["tenths", "chart"])
    return parts


def train_parts(line, segment):
    """A train's parts with its segment's, and the sums that the memorandum prints."""
    parts = segment | line.groupdict()
    parts["reference"] = added(parts, ["speed", "rolling", "vehicles", "track"])
    parts["propagation"] = added(parts, ["distance", "air", "tenths", "chart", "ballast", "angle"])
    parts["reflection"] = added(parts, ["facade", "opposite"])
    parts["sel"] = added(parts, ["reference", "propagation", "reflection"])
    for period, hours in HOURS.items():
        step = parts["hours_" + period]
        level = step if step == "silent" else added(parts, ["sel", "hours_" + period])
        if parts[period] != level:
            sys.exit(f"{line.group()}: the level by {period} is not the sum of the parts, {level}")
        if step != "silent":
            parts["trains"] = decimal(tenths(step) + hours)
    return parts


def speed_answered(line):
    """A highest speed, or its refusal, which has speed 0."""
    if line["answer"] == "accepted":
        return line["speed"]
    return line["answer"] if line["speed"] == "0" else line.group()


def found_in(lines, text):
    """The parts of what the program wrote for a text."""
    found = {}
    for line in lines:
        if m := SEGMENT.fullmatch(line):
            found["segment " + m["number"]] = segment_parts(m, list(segments_in(text))[int(m["number"]) - 1])
        elif m := TRAIN.fullmatch(line):
            found["train " + m["number"]] = train_parts(m, found["segment " + m["segment"]])
        elif m := RESULT.fullmatch(line):
            found |= {"accepted": "yes", m["period"]: m.groupdict() | {"whole": whole(m["level"])}}
        elif m := REFUSED.fullmatch(line):
            found |= {"accepted": "no", "refused": f"{m['number']} {m['line']}"}
        elif m := ADDED.fullmatch(line):
            found[m["name"]] = m["answer"]
        elif m := CONDITIONS.fullmatch(line):
            found[m["period"]] = m.groupdict()
        elif m := SPEED.fullmatch(line):
            found.setdefault(m["asked"], {})[m["limit"]] = speed_answered(m)
        elif m := HOUSE.fullmatch(line) or KEPT.fullmatch(line) or HOLDS.fullmatch(line) or HEARD.fullmatch(line):
            found |= m.groupdict()
        elif line != "period level close met":
            sys.exit("not a line of a breakdown: " + line)
    return found


def shown(name, figure):
    """A typed figure as the output has it."""
    if isinstance(figure, float):
        return f"{figure:.{3 if name == 'delta' else 1}f}"
    return str(figure)


def readings_in(typed):
    """Each typed reading as title, part, name and figure; a part that has no names has its own."""
    for title, parts in typed.items():
        for part, figures in parts.items():
            if part == "notes":
                continue
            if part == "refused":
                figures = {part: " ".join(map(str, figures))}
            elif not isinstance(figures, dict):
                figures = {part: figures}
            for name, figure in figures.items():
                yield title, part, name, figure


def formulas(figure):
    """What the formulas give: the figure itself, or the second of print, formulas and reason."""
    return figure[1] if isinstance(figure, list) else figure


def differing(typed, output):
    """The typed readings that the output does not have."""
    for title, part, name, figure in readings_in(typed):
        found = output[title].get(part)
        if isinstance(found, dict):
            found = found.get(name)
        if found != shown(name, formulas(figure)):
            yield f"{title}: {part} {name} is typed {shown(name, formulas(figure))}, and found {found}"


def write(typed):
    for title, part, name, figure in readings_in(typed):
        differs = f", printed {shown(name, figure[0])}: {DATA['reasons'][figure[2]]}" if isinstance(figure, list) else ""
        print(f"{title}: {part} {name} {shown(name, formulas(figure))}{differs}")


def main():
    typed, wrong = DATA["readings"], DATA["wrong"]
    texts, written = by_title(CRATE / "stdin"), by_title(CRATE / "stdout")
    if list(texts) != list(written)[:len(texts)] or set(written) != set(typed):
        sys.exit("the titles of stdin, stdout and readings.json differ: " + ", ".join(set(written) ^ (set(typed) | set(texts))))
    output = {title: found_in(lines.splitlines(), texts.get(title, "")) for title, lines in written.items()}
    faults = list(differing(typed, output))
    unseen = len(list(readings_in(wrong))) - len(list(differing(wrong, output)))
    if unseen:
        faults.append(f"{unseen} of the readings that are wrong on purpose are not found")
    if faults:
        sys.exit("\n".join(faults))
    if "--check" not in sys.argv[1:]:
        write(typed)


main()
