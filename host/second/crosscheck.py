#!/usr/bin/env python3
"""Checks the second implementation with Python's own arithmetic: fractions, isqrt and 80-digit decimals.

    differential --dump SEED COUNT | python3 crosscheck.py

Reads each text anew, works out every step, and holds answer, cells and bare levels against them.
It is slow (some 100 texts a second) and only meant to find slips in host/second.
"""
import itertools
import re
import sys
from decimal import Decimal, ROUND_FLOOR, getcontext
from fractions import Fraction
from functools import lru_cache
from math import factorial, isqrt

getcontext().prec = 80
ROWS = [148, 148, 167, 108, 108, 129, 71, 60, 60, 113, 84, 84, 70, 70, 158, 149, 120, 150, 80, 75, 148, 166, 148,
        166, 180, 166, 166, 166, 166, 148, 148, 148, 148, 148]
LIMITS = [68, 63]
NUMBER = re.compile(rb"0|-?[1-9][0-9]{0,4}")


@lru_cache(maxsize=None)
def log(numerator, denominator=1):
    return Decimal(numerator).log10() - Decimal(denominator).log10()


def floor(value):
    return int(value.to_integral_value(rounding=ROUND_FLOOR))


@lru_cache(maxsize=None)
def energy(micro):
    """10^(30 + m/10^7) cut down; exact powers of ten stay exact."""
    power, rest = divmod(micro + 300_000_000, 10_000_000)
    return floor(Decimal(10) ** power * Decimal(10) ** (Decimal(rest) / 10_000_000))


def nearest(micro):
    """Tenths from microdecibels as a decimal, halves up."""
    return floor(micro / 100_000 + Decimal("0.5"))


@lru_cache(maxsize=None)
def sine(degrees):
    if degrees > 90:
        return sine(180 - degrees)
    x = Fraction(degrees * 3141592654, 180 * 10**9)
    value = sum((-1) ** k * x ** (2 * k + 1) / factorial(2 * k + 1) for k in range(10))
    return (value * 10**9 + Fraction(1, 2)).__floor__()


def cosine(degrees):
    return sine(90 - degrees) if degrees <= 90 else -sine(degrees - 90)


def path(d, h, place, top):
    root = lambda x, y: isqrt(10**10 * (x * x + y * y))
    return max(0, root(place, top) + root(d - place, h - top) - root(d, h))


def segment_refusal(n):
    d, h, mean, soft, view, twice, screen, place, top, chart, track, ballast, facade, opposite, wall = n
    inside = lambda value, low, high: low <= value <= high
    if not inside(d, 1000, 30000):
        return 1
    if not inside(h, -5000, 5000) or not inside(mean, 0, 5000):
        return 2
    if not inside(soft, 0, 10):
        return 3
    if not inside(view, 5, 180) or not inside(twice, view, 180):
        return 4
    if screen not in (0, 1, 2):
        return 5
    if screen == 0 and (place, top, chart, wall) != (0, 0, 0, 0):
        return 5
    if screen and not (inside(place, 100, d - 100) and inside(top, -2000, 5000) and ballast == 0
                       and inside(chart, 0, 100 if screen == 2 else 0) and inside(wall, 0, 100)):
        return 5
    if screen and top * d >= h * place and path(d, h, place, top) > 25_000_000:
        return 6
    if not (inside(track, 0, 150) and inside(ballast, -30, 0) and facade in (0, 1) and inside(opposite, 0, view)):
        return 7
    return 0


def entry_refusal(n):
    bounds = [(8, n[0], 1, 34), (9, n[1], 1, 300), (10, n[2], 1, 60), (11, n[3], 0, 2000), (11, n[4], 0, 2000)]
    return next((number for number, value, low, high in bounds if not low <= value <= high), 0)


def read(text):
    """A list of segments with their entries, or (number, line)."""
    if len(text) > 16384:
        return 12, 0
    lines = text.split(b"\n")
    unended = lines.pop()
    plan, segments = None, []
    position = 0

    def numbers(wanted):
        nonlocal position
        position += 1
        if position > len(lines):
            return None, (12 if position == len(lines) + 1 and unended else 13, position)
        words = lines[position - 1].split(b" ")
        if not all(NUMBER.fullmatch(word) for word in words):
            return None, (12, position)
        values = [int(word) for word in words]
        if len(values) != (values[0] + 1 if wanted is None else wanted):
            return None, (12, position)
        return values, None

    plan, fault = numbers(None)
    if fault:
        return fault
    counts = plan[1:]
    if not 1 <= plan[0] <= 24 or not all(0 <= count <= 96 for count in counts) or not 1 <= sum(counts) <= 96:
        return 13, 1
    for count in counts:
        segment, fault = numbers(15)
        fault = fault or (segment_refusal(segment) and (segment_refusal(segment), position))
        if fault:
            return fault
        segments.append((segment, []))
        for _ in range(count):
            entry, fault = numbers(5)
            fault = fault or (entry_refusal(entry) and (entry_refusal(entry), position))
            if fault:
                return fault
            segments[-1][1].append(entry)
    if position < len(lines) or unended:
        return 13, position + 1
    return segments


def behind_wall(correction, wall):
    """The screen correction with the far wall's loss, exactly; the cap at zero only where there is a loss."""
    if wall < 15:
        return correction
    metres = (Fraction(wall, 10) + Fraction(1, 2)).__floor__()
    return min(Decimal(0), correction + 500_000 * metres)


def segment_steps(n):
    """Fixed tenths, the ground step's (tenth, mark) choices, and the fence of all."""
    d, h, mean, soft, view, twice, screen, place, top, chart, track, ballast, facade, opposite, wall = n
    square = d * d + h * h
    root = isqrt(6400 * square)
    air = 200_000 - (root if root * root == 6400 * square else root + 1)
    y = 3141592654 * view // 180
    product = sine(view) * cosine(twice)
    y -= abs(product) // 10**9 * (1 if product >= 0 else -1)
    steps = [-5_000_000 * log(square, 6_250_000), Decimal(air), 10_000_000 * log(y, 10**9) - 5_000_000]
    steps.append(Decimal(1_500_000 * opposite) / view)
    ground = Decimal(0)
    if screen:
        delta = path(d, h, place, top)
        if top * d >= h * place:
            correction = -7_750_000 * log(52_000_000 + 203 * delta, 10**7)
        elif delta <= 4_000_000:
            correction = 880_000 + 2_140_000 * log(delta + 10_000, 10**7)
        else:
            correction = Decimal(0)
        steps.append(behind_wall(correction, wall))
    elif d > 2500:
        ground = -600 * soft * (600 - min(max(mean, 100), 600)) * log(d, 2500)
    # The difference of two rounded logarithms may miss a whole value by the last digits.
    if abs(ground - round(ground)) < Decimal("1e-60"):
        ground = Decimal(round(ground))
    steps = [Decimal(round(s)) if abs(s - round(s)) < Decimal("1e-60") else s for s in steps]
    readings = chart + track + ballast + 25 * facade
    fence = sum(floor(step) for step in steps) + floor(ground) + 100_000 * readings
    return sum(nearest(step) for step in steps) + readings, ground_choices(ground), fence


def ground_choices(value):
    tie = floor(value / 100_000) * 100_000 + 50_000
    away = abs(value - tie)
    plain, marked = (nearest(value), False), ((tie + 50_000) // 100_000, True)
    if away <= 1000:
        return [marked]
    return [plain] if away >= 2000 else [plain, marked]


def total_choices(levels):
    total = sum(energy(100_000 * level) for level in levels)
    micro = floor((Decimal(total).log10() - 30) * 10_000_000)
    for tie in [(micro // 100_000 + k) * 100_000 + 50_000 for k in (-1, 0, 1)]:
        figure = (tie + 50_000) // 100_000
        plain, marked = (figure if total >= energy(tie) else figure - 1, False), (figure, True)
        if energy(tie - 1000) <= total <= energy(tie + 1000):
            return [marked]
        if energy(tie - 2000) < total < energy(tie + 2000):
            return [plain, marked]
    figure = next(k for k in range(micro // 100_000 - 1, micro // 100_000 + 3) if total < energy(100_000 * k + 50_000))
    return [(figure, False)]


def bare_level(fences):
    total = sum(energy(fence) for fence in fences)
    micro = floor((Decimal(total).log10() - 30) * 10_000_000) - 2
    while energy(micro + 1) <= total:
        micro += 1
    return micro


def expect(condition, words):
    if not condition:
        raise AssertionError(words)


def check_answered(segments, answer, cells, bare):
    """One list of marks must explain cells, totals, close counts; bare levels must be equal."""
    rows = [(place, entry) for place, (_, entries) in enumerate(segments) for entry in entries]
    count = len(rows)
    worked = [segment_steps(segment) for segment, _ in segments]
    heard = [[any(entry[3 + p] for entry in entries) for p in (0, 1)] for _, entries in segments]
    choices = [list(choice) for _, choice, _ in worked]
    fences = [[], []]
    for p in (0, 1):
        for i, (place, entry) in enumerate(rows):
            cell = cells[p * count + i]
            if entry[3 + p] == 0:
                expect(cell == -9999, "silent cell")
                continue
            parts = [31_200_000 + 20_000_000 * log(max(entry[1], 20)), 10_000_000 * log(entry[2]), 10_000_000 * log(entry[3 + p])]
            fixed = ROWS[entry[0] - 1] - (481, 433)[p]
            tenths = worked[place][0] + sum(nearest(part) for part in parts) + fixed
            choices[place] = [choice for choice in choices[place] if choice[0] == cell - tenths]
            expect(choices[place], f"cell {p} {i}")
            fences[p].append(worked[place][2] + sum(floor(part) for part in parts) + 100_000 * fixed)
    allowed = []
    for p in (0, 1):
        silent, level, close, met = answer[2 + 4 * p:6 + 4 * p]
        levels = [cell for cell in cells[p * count:(p + 1) * count] if cell != -9999]
        expect(silent == (not levels), "silent")
        if not levels:
            expect((level, close, met) == (0, 0, 0), "silent period")
            expect(bare[p] == "silent", "bare silent")
            allowed.append([False])
            continue
        allowed.append([mark for figure, mark in total_choices(levels) if figure == level])
        expect(allowed[p], f"total {p}: {level}")
        expect(met == ((level + 5) // 10 >= LIMITS[p]), "verdict")
        expect(int(bare[p]) == bare_level(fences[p]), f"bare level {p}")
    sure = [0, 0]
    open_marks = []
    for place, choice in enumerate(choices):
        marks = {mark for _, mark in choice}
        if len(marks) == 2 and any(heard[place]):
            open_marks.append(heard[place])
        elif marks == {True}:
            sure = [sure[p] + heard[place][p] for p in (0, 1)]
    found = any(
        all(answer[4 + 4 * p] == sure[p] + totals[p] + sum(taken and has[p] for taken, has in zip(picked, open_marks))
            for p in (0, 1))
        for picked in itertools.product([False, True], repeat=len(open_marks))
        for totals in itertools.product(*allowed))
    expect(found, "close counts")


def main():
    stream = sys.stdin.buffer
    counts = {"answered": 0, "refused": 0}
    while True:
        head = stream.readline().split()
        if not head:
            break
        index, length, cell_count = (int(word) for word in head[1:])
        text = stream.read(length)
        stream.readline()
        answer = [int(word) for word in stream.readline().split()[1:]]
        cells = [int(word) for word in stream.readline().split()[1:]]
        outcome = read(text)
        expected = outcome if isinstance(outcome, tuple) else (0, 0)
        if not isinstance(outcome, tuple) and cell_count < 2 * sum(len(entries) for _, entries in outcome):
            expected = (24, 0)
        try:
            expect(tuple(answer[:2]) == expected, f"expected {expected}")
            if expected == (0, 0):
                check_answered(outcome, answer, cells, [w.decode() for w in stream.readline().split()[1:]])
        except AssertionError as fault:
            print(f"crosscheck: text {index}: {fault}: {answer}")
            sys.exit(1)
        counts["refused" if expected[0] else "answered"] += 1
    print(f"crosscheck: {counts['answered']} answered and {counts['refused']} refused texts agree")


main()
