#!/usr/bin/env python3
"""Writes the crates small_logs, decibel_tables and energy_tables from their formulas: each table as an array of src/lib.rt, as a list of
specs/Lists.antt, and that the array is the list, in proofs/Arrays.antt; in src/at.rt a function for what stands at a place.

Every entry is settled in whole numbers. A decimal estimate only says where to look: an entry is kept when it passes its test and
its neighbour does not, by powers of whole numbers. With --check nothing is written; the committed files are compared.
"""
import sys
from decimal import Decimal, getcontext
from fractions import Fraction
from math import factorial, floor
from pathlib import Path

ROOT = Path(__file__).resolve().parent.parent
getcontext().prec = 50


def tenfold(exponent):
    """10 to a fraction, nearly."""
    return Decimal(10) ** (Decimal(exponent.numerator) / Decimal(exponent.denominator))


def least(passes, near):
    """The least number that passes, looked for from an estimate."""
    n = int(near) + 1
    while not passes(n):
        n += 1
    while n > 1 and passes(n - 1):
        n -= 1
    return n


def greatest(passes, near):
    """The greatest number that passes, looked for from an estimate."""
    n = int(near)
    while not passes(n):
        n -= 1
    while passes(n + 1):
        n += 1
    return n


def rising(s, den, k, e, f, top):
    """Entry j is the least n with s·log(n / den) + k at least e·j + f; the last is the first above top."""
    entries = []
    while not entries or entries[-1] <= top:
        m = e * len(entries) + f
        bound = den**s * 10**m
        scale = 10**k
        entries.append(least(lambda n: bound <= n**s * scale, den * tenfold(Fraction(m - k, s))))
    return entries


def falling(s, num, k, e, f, top):
    """Entry j is the least n with s·log(num / n) + k below f - e·j; the last is the first above top."""
    entries = []
    bound = num**s * 10**k
    while not entries or entries[-1] <= top:
        m = f - e * len(entries)
        scale = 10**m
        entries.append(least(lambda n: n**s * scale > bound, num * tenfold(Fraction(k - m, s))))
    return entries


def sine(degrees):
    """The first ten terms of the series at pi = 3141592654 billionths, to the nearest billionth, halves up."""
    x = Fraction(3141592654 * degrees, 180 * 10**9)
    terms = ((-1) ** j * x ** (2 * j + 1) / factorial(2 * j + 1) for j in range(10))
    return floor(sum(terms) * 10**9 + Fraction(1, 2))


def ten_log(n):
    """10·log n in tenths, to the nearest, halves up; of 0 that of 1."""
    n = max(n, 1)
    return greatest(lambda t: t == 0 or 10 ** (2 * t - 1) <= n**200, 100 * Decimal(n).log10())


def small_logs():
    return [
        ("small_log", "10 log n in tenths for n below 200, of 0 that of 1", "u16", [ten_log(n) for n in range(200)]),
        ("twenty_log", "20 log v in tenths for v below 301, of 0 that of 1", "u16", [ten_log(v * v) for v in range(301)]),
    ]


def decibel_tables():
    return [
        ("decade", "Where each tenth of 10 log n begins, from 85.1 to 95.2 dB", "u64", rising(200, 1, 2, 2, 1703, 3_200_000_000)),
        ("shadow", "Where each tenth of the shadow formula begins", "u64", falling(155, 10**7, 500, 2, 391, 5_127_000_000)),
        ("distance", "Where each tenth of the distance formula begins", "u64", falling(100, 6_250_000, 400, 2, 481, 925_000_000)),
        ("illuminated", "Where each tenth of the illuminated formula begins", "u64", rising(214, 10**7, 1000, 10, 357, 4_010_000)),
        ("fine", "Where each step of 500 microdecibels begins, from 10^9 on", "u64", rising(20_000, 1, 0, 1, 180_000, 1_023_292_992)),
        ("sine", "The sine of 0 to 90 degrees in billionths", "u32", [sine(degrees) for degrees in range(91)]),
    ]


def energy_tables():
    one = 10**15
    whole = one**100
    fall = [greatest(lambda w: w**100 * 10**j <= whole, one * tenfold(Fraction(-j, 100))) for j in range(100)]
    rise = [greatest(lambda v: v**100 <= whole * 10**k, one * tenfold(Fraction(k, 100))) for k in range(199)]
    return [
        ("weight", "The weight of a level 0 to 99 tenths below the loudest", "u64", fall),
        ("power", "The powers of ten from 1 to 10^15", "u64", [10**j for j in range(16)]),
        ("mark_begin", "Where the mark at each tie of a total begins, the 0th none", "u64", [0] + [1_011_230 * v // 10**6 for v in rise]),
        ("mark_end", "Where the mark at each tie of a total ends, the 0th none", "u64", [0] + [1_011_929 * v // 10**6 for v in rise]),
    ]


CRATES = {"small_logs": small_logs, "decibel_tables": decibel_tables, "energy_tables": energy_tables}
# The functions of src/at.rt that read a part of a table: its name, what it says, the table, and from which entry to before which.
PARTS = {
    "small_logs": [
        ("twenty_log_lower", "20 log v in tenths for v below 101, of 0 that of 1", "twenty_log", 0, 101),
        ("twenty_log_middle", "20 log v in tenths for v from 101 to 200, counted from 101", "twenty_log", 101, 201),
        ("twenty_log_upper", "20 log v in tenths for v from 201 to 300, counted from 201", "twenty_log", 201, 301),
    ]
}
# The tables that are searched, in the order of their numbers for `entry`.
NUMBERED = {"decibel_tables": ["decade", "shadow", "distance", "illuminated", "fine"]}
# What an entry of each kind is handed out as.
HANDED = {"u16": "u32", "u32": "u64", "u64": "u64"}
# What is said of a table beside its formula, in its array's file alone.
BESIDE = {"mark_begin": "Two arrays and no pairs: a search walks the first alone, and each is its formula's list by a law of its own."}
WRITTEN = "written by tools/tables.py from the formulas, in whole numbers."


def lined(words, width=100):
    """Words in lines of up to so many columns."""
    lines, line = [], "   "
    for word in words:
        if len(line) + len(word) + 1 > width:
            lines.append(line)
            line = "   "
        line += f" {word}"
    return "\n".join(lines + [line])


def lists(crate, tables):
    words = "List, [], ◌∷◌, ℕ" + (", zero, suc" if crate in NUMBERED else "") + (", take, drop" if crate in PARTS else "")
    text = f"-- The tables as lists: {WRITTEN}\n-- Assumes nothing.\nuse Rattle.std.specs.Prelude.{{{words}}}\n"
    for name, says, _, values in tables:
        text += f"\n-- {says[0].lower()}{says[1:]}\nunfoldable pub {name}_list : List ℕ\n{name}_list =\n"
        text += lined([f"{value} ∷" for value in values] + ["[]"]) + "\n"
    for name, says, of, start, end in PARTS.get(crate, []):
        rest = f"(drop {start} {of}_list)" if start else f"{of}_list"
        text += f"\n-- {says[0].lower()}{says[1:]}\nunfoldable pub {name}_list : List ℕ\n{name}_list = take {end - start} {rest}\n"
    if crate in NUMBERED:
        number = "zero"
        text += "\n-- the tables that are searched, by number\nabbrev pub list_of : ℕ → List ℕ\n"
        for name in NUMBERED[crate]:
            text += f"list_of {number} = {name}_list\n"
            number = f"(suc {number})"
        text += f"list_of {number.replace('zero', 'number')} = []\n"
    return text


def array(values):
    """As `rt fmt` lays it out: entries of more than ten digits have a line each."""
    words = [f"{value}," for value in values]
    return lined(words, 99) if max(map(len, words)) <= 11 else "\n".join(f"    {word}" for word in words)


def source(tables):
    text = f"// Tables that the crates above read in place: each is the list of its name in specs/Lists.antt (proofs/Arrays.antt).\n// {WRITTEN.capitalize()}\n"
    text += "#![tactic(auto)]\n\npub mod at;\n"
    for name, says, kind, values in tables:
        beside = f"// {BESIDE[name]}\n" if name in BESIDE else ""
        text += f"\n// {says}.\n{beside}pub static {name.upper()}: [{kind}; {len(values)}] = [\n{array(values)}\n];\n"
    return text


def places(crate, tables):
    """What stands at a place, for callers that do not know how long a table is."""
    kinds = {name: kind for name, _, kind, _ in tables}
    parts = PARTS.get(crate, [])
    whole = [(name, says, name, None) for name, says, *_ in tables if name not in {of for _, _, of, _, _ in parts}]
    functions = whole + [(name, says, of, f"{start or ''}..{end}") for name, says, of, start, end in parts]
    numbered = NUMBERED.get(crate, [])
    cited = ", ".join([f"{name}_list" for name, *_ in functions] + (["list_of"] if numbered else []))
    text = f"// What stands at a place of a table, and 0 past its last.\n// {WRITTEN.capitalize()}\n\nghost use Rattle.std.specs.Prelude.{{◌≡◌, get_or}};\n"
    text += f"ghost use Rattle.{crate}.specs.Lists.{{{cited}}};\n\nuse crate::{{{', '.join(sorted(name.upper() for name in kinds))}}};\n"
    for name, says, of, part in functions:
        opened = f", unfolding(crate::specs::Lists::{name}_list)" if part else ""
        body = f"{of.upper()}{f'[{part}]' if part else ''}.get(i).copied().unwrap_or(0)"
        handed = HANDED[kinds[of]]
        text += f"\n// {says}; 0 past the last.\n#[tactic(auto, using(crate::proofs::Arrays::{of}_is){opened})]\n"
        text += f"pub fn {name}(i: usize) -> {handed}\n    ensures {{ result ≡ get_or {name}_list i 0 }}\n"
        text += f"{{\n    {body if handed == kinds[of] else f'{handed}::from({body})'}\n}}\n"
    if numbered:
        arms = "".join(f"        {number} => {name}(i),\n" for number, name in enumerate(numbered))
        text += "\n// Entry i of a table by its number, as the arms say; 0 of any other.\npub fn entry(table: usize, i: usize) -> u64\n"
        text += f"    ensures {{ result ≡ get_or (list_of table) i 0 }}\n{{\n    match table {{\n{arms}        _ => 0,\n    }}\n}}\n"
    return text


def proof(crate, tables):
    arrays, names = ", ".join(name.upper() for name, *_ in tables), ", ".join(f"{name}_list" for name, *_ in tables)
    text = f"-- Each array is its list: {WRITTEN}\n-- Assumes nothing.\nuse mathlib.Core.Path.{{◌≡◌, refl}}\n"
    text += f"use Rattle.{crate}.specs.declared.TheConstants.{{{arrays}}}\nuse Rattle.{crate}.specs.Lists.{{{names}}}\n"
    for name, *_ in tables:
        text += f"\npub {name}_is : {name.upper()} ≡ {name}_list\nunfolding {name}_list\n{name}_is = refl\n"
    return text


def files():
    """Every file that is written, with its text."""
    for crate, made in CRATES.items():
        tables = made()
        yield f"crates/{crate}/src/lib.rt", source(tables)
        yield f"crates/{crate}/src/at.rt", places(crate, tables)
        yield f"crates/{crate}/specs/Lists.antt", lists(crate, tables)
        yield f"crates/{crate}/proofs/Arrays.antt", proof(crate, tables)


def differs(path, text):
    """Where the committed file is not what the formulas give, or None."""
    if not path.exists():
        return "is missing"
    old, new = path.read_text().splitlines(), text.splitlines()
    for line, (a, b) in enumerate(zip(old, new), 1):
        if a != b:
            return f"line {line} has {a.strip()!r}, the formulas give {b.strip()!r}"
    return None if len(old) == len(new) else f"has {len(old)} lines, the formulas give {len(new)}"


def main():
    if sys.argv[1:] not in ([], ["--check"]):
        sys.exit("usage: tools/tables.py [--check]")
    faults = 0
    for name, text in files():
        path = ROOT / name
        if not sys.argv[1:]:
            path.parent.mkdir(parents=True, exist_ok=True)
            path.write_text(text)
            continue
        fault = differs(path, text)
        if fault:
            faults += 1
            print(f"{name}: {fault}")
    sys.exit(1 if faults else 0)


main()
