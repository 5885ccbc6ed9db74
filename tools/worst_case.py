#!/usr/bin/env python3
"""Searches for studies whose reported total lies as far as possible from their bare level, on either side, and checks the page.

    tools/worst_case.py [PROGRAM]           searches, and writes the studies it found to docs/studies
    tools/worst_case.py --check [PROGRAM]   works out these studies again and compares with the program and docs/ACCURACY.md

PROGRAM is by default crates/railnoise/out/railnoise. It is asked what it reports. Beside it stands the farthest report that document 01 allows:
its marks are free where a value lies more than 0.001 and less than 0.002 dB from a tie. Floating point finds the figures; what is
printed is worked out from document 01's formulas alone with 60 digits, marks and energies as document 01 has them; a far wall as
document 02 has it (L1).
"""
import math
import pathlib
import re
import subprocess
import sys
from decimal import Decimal, getcontext, ROUND_FLOOR
from fractions import Fraction

getcontext().prec = 60
PI = 3141592654
ROLLINGS = [148, 148, 167, 108, 108, 129, 71, 60, 60, 113, 84, 84, 70, 70, 158, 149, 120, 150, 80, 75, 148, 166, 148, 166, 180,
            166, 166, 166, 166, 148, 148, 148, 148, 148]
TENTH = 100_000  # microdecibels
OWN_MARK = 0.0015  # decibels from a tie at which the program marks, about
FREE_MARK = {1: 0.002, -1: 0.001}  # where a mark carries a total farthest up, and where one that is missing does farthest down
ROOT = pathlib.Path(__file__).resolve().parent.parent
PAGE = ROOT / "docs" / "ACCURACY.md"
SIDES = {1: "above", -1: "below"}


# Document 01's formulas, exactly.

def quarter_sine(degree):
    """The first ten terms of the series, as a fraction, to the nearest billionth."""
    x = Fraction(PI * degree, 180 * 10**9)
    value = sum((-1) ** k * x ** (2 * k + 1) / math.factorial(2 * k + 1) for k in range(10))
    return math.floor(value * 10**9 + Fraction(1, 2))


SINES = [quarter_sine(degree) for degree in range(91)]


def sine(degree):
    return SINES[degree] if degree <= 90 else SINES[180 - degree]


def cosine(degree):
    return SINES[90 - degree] if degree <= 90 else -SINES[degree - 90]


def y_of(view, doubled):
    product = sine(view) * cosine(doubled)
    cut = abs(product) // 10**9
    return PI * view // 180 - (cut if product >= 0 else -cut)


def path_difference(d, h, screen, top):
    """δ in hundred-thousandths of a centimetre."""
    over = math.isqrt(10**10 * (screen**2 + top**2)) + math.isqrt(10**10 * ((d - screen) ** 2 + (h - top) ** 2))
    return max(0, over - math.isqrt(10**10 * (d * d + h * h)))


def log(numerator, denominator=1):
    return (Decimal(numerator) / Decimal(denominator)).log10()


def screen_value(d, h, screen, top):
    delta = Decimal(path_difference(d, h, screen, top)) / 10**7
    if top * d >= h * screen:
        return -Decimal("7.75") * log(Decimal("5.2") + 203 * delta)
    return Decimal("0.88") + Decimal("2.14") * log(delta + Decimal("0.001")) if delta <= Decimal("0.4") else Decimal(0)


def reduced(screen, wall):
    """A screen's value with a far wall of so many decimetres: half a decibel less for each metre, halves up, and then never above zero."""
    return screen if wall < 15 else min(Decimal(0), screen + Decimal((wall + 5) // 10) / 2)


def ground_value(d, mean, soft):
    height = min(max(mean, 100), 600)
    return -Decimal("0.0006") * soft * (600 - height) * log(d, 2500) if d > 2500 else Decimal(0)


def fence(value):
    """The largest whole number of microdecibels not above a value in decibels."""
    return int((value * 10**6).to_integral_value(rounding=ROUND_FLOOR))


def nearest(microdecibels):
    return (microdecibels + TENTH // 2) // TENTH


def energy(m):
    """The energy of fence m: the largest whole number not above 10 to the m / 10^7 + 30."""
    whole, rest = divmod(m + 300_000_000, 10_000_000)
    return 10**whole if rest == 0 else int(Decimal(10) ** (whole + Decimal(rest) / 10_000_000))


def by_mark(marked, microdecibels, tie):
    """The tenth that is taken: marked, the louder neighbour of the tie."""
    return nearest(tie) if marked else nearest(microdecibels)


def nearest_tie(microdecibels):
    return microdecibels // TENTH * TENTH + TENTH // 2


def ground_choices(value):
    """The ground step's fence and what may be taken for it, in tenths, each with its mark."""
    tie = nearest_tie(fence(value))
    distance = abs(value * 10**6 - tie)
    marks = {True} if distance <= 1000 else {False} if distance >= 2000 else {True, False}
    return fence(value), {(by_mark(mark, fence(value), tie), mark) for mark in marks}


def segment_choices(segment):
    """The fence of a segment's steps and readings, and the tenths that may be taken, each with the ground's mark."""
    d, h, mean, soft, view, doubled, screen, screen_at, top, chart, track, ballast, facade, opposite, wall = segment
    square = d * d + h * h
    steps = [-5 * log(square, 2500**2), Decimal("0.2") - Decimal("0.00008") * Decimal(square).sqrt(),
             10 * log(y_of(view, doubled), 10**9) - 5, Decimal(15 * opposite) / (10 * view)]
    if screen:
        steps.append(reduced(screen_value(d, h, screen_at, top), wall))
        ground_fence, grounds = 0, {(0, False)}
    else:
        ground_fence, grounds = ground_choices(ground_value(d, mean, soft))
    entered = chart + track + ballast + 25 * facade
    exact = sum(map(fence, steps)) + ground_fence + TENTH * entered
    return exact, {(sum(nearest(fence(step)) for step in steps) + ground + entered, mark) for ground, mark in grounds}


def day_emission(train):
    """The fence and the tenths of a train's steps by day."""
    row, speed, vehicles, trains, _ = train
    steps = [Decimal("31.2") + 20 * log(max(20, speed)), 10 * log(vehicles), 10 * log(trains) - Decimal("48.1")]
    return (sum(map(fence, steps)) + TENTH * ROLLINGS[row - 1], sum(nearest(fence(step)) for step in steps) + ROLLINGS[row - 1])


def total_choices(levels):
    """What may be reported for some levels in tenths, each with the total's mark."""
    added = sum(energy(TENTH * level) for level in levels)
    m = bare_of(added)
    tie = nearest_tie(m)
    if energy(tie - 1000) <= added <= energy(tie + 1000):
        marks = {True}
    elif added <= energy(tie - 2000) or added >= energy(tie + 2000):
        marks = {False}
    else:
        marks = {True, False}
    return {(by_mark(mark, m, tie), mark) for mark in marks}


def bare_of(added):
    """The largest m whose energy does not exceed the sum."""
    m = fence(10 * Decimal(added).log10() - 300)
    while energy(m + 1) <= added:
        m += 1
    while energy(m) > added:
        m -= 1
    return m


def worked_out(study):
    """A study of one segment: what may be reported by day as (tenths, close count), and the bare level."""
    segment, trains = study
    exact, choices = segment_choices(segment)
    emissions = [day_emission(train) for train in trains]
    bare = bare_of(sum(energy(exact + part) for part, _ in emissions))
    reported = {(total, mark + total_mark) for tenths, mark in choices
                for total, total_mark in total_choices([tenths + part for _, part in emissions])}
    return reported, bare


# The program.

def text_of(study):
    segment, trains = study
    return "".join(" ".join(map(str, line)) + "\n" for line in [[1, len(trains)], segment, *trains])


def asked(program, study):
    """The day's total in tenths and its close count, as the program writes them."""
    written = subprocess.run([program], input=text_of(study), capture_output=True, text=True, check=True).stdout
    match = re.fullmatch(r"period level close met\nday (-?\d+)\.(\d) (\d+) (?:yes|no)\nnight silent 0 no\n", written)
    if not match:
        sys.exit(f"unexpected answer: {written}")
    return int(match[1] + match[2]), int(match[3])


# The search. Each part's errors are enumerated; sign 1 looks for a reported total above the bare level, -1 for one below.

def error(value):
    """How far the nearest tenth, halves up, lies above a value in decibels."""
    return math.floor(value * 10 + 0.5) / 10 - value


def marked_error(value, mark):
    """The same where a value at most so far from a tie goes to the louder neighbour."""
    tie = math.floor(value * 10) / 10 + 0.05
    return tie + 0.05 - value if abs(value - tie) <= mark else error(value)


def ranked(candidates, sign):
    """Candidates (error, figures), those first that lie farthest to one side."""
    return sorted(candidates, key=lambda candidate: -sign * candidate[0])


def angles(sign):
    """θ, a and θ': angle of view and opposite facades together."""
    found = []
    for view in range(5, 181):
        seen, doubled = ranked(((error(10 * math.log10(y_of(view, a) / 1e9) - 5), a) for a in range(view, 181)), sign)[0]
        across, opposite = ranked(((float(Fraction((30 * o + view) // (2 * view), 10) - Fraction(15 * o, 10 * view)), o)
                                   for o in range(view + 1)), sign)[0]
        found.append((seen + across, (view, doubled, opposite)))
    return ranked(found, sign)[0][1]


def both_errors(slant):
    """Distance and air depend on the slant distance alone."""
    return error(-10 * math.log10(slant / 2500)) + error(0.2 - 0.00008 * slant)


def slants(sign):
    """Pairs d, h. The errors are largest just before or behind a tie of distance or air."""
    ties = [1875 + 1250 * k for k in range(23)] + [2500 * 10 ** ((0.05 + 0.1 * k) / 10) for k in range(-39, 110)]
    for _, tie in ranked(((both_errors(tie - sign * 1e-6), tie) for tie in ties), sign)[:6]:
        for h in range(min(5001, int(tie))):
            least = math.isqrt(int(tie * tie) - h * h)
            for d in (least, least + 1):
                if 1000 <= d <= 30000:
                    yield both_errors(math.hypot(d, h)), (d, h)


def open_ground(sign, mark):
    """Ways without a screen: d, h, H, I and no screen."""
    factors = {soft * (600 - mean): (mean, soft) for soft in range(1, 11) for mean in range(100, 601)}
    for both, (d, h) in [found for found in ranked(slants(sign), sign) if found[1][0] > 2500][:1500]:
        scale = 0.0006 * math.log10(d / 2500)
        ground, (mean, soft) = ranked(((marked_error(-scale * factor, mark), figures) for factor, figures in factors.items()), sign)[0]
        yield both + ground, [d, h, mean, soft, 0, 0, 0]


def behind_screen(sign):
    """Ways over an absorbent screen in whose shadow the window lies."""
    for both, (d, h) in ranked(slants(sign), sign)[:12]:
        tried = []
        for screen in range(150, d - 100, 7):
            line_of_sight = -(-h * screen // d)
            for top in range(line_of_sight, line_of_sight + 300, 3):
                delta = path_difference(d, h, screen, top) / 1e7
                if delta <= 2.5:
                    tried.append((error(-7.75 * math.log10(5.2 + 203 * delta)), (screen, top)))
        screened, (screen, top) = ranked(tried, sign)[0]
        yield both + screened, [d, h, 600, 0, 1, screen, top]


def segments(sign, mark):
    """Without far walls: one moves a screen step by whole tenths or to zero, and so adds no error."""
    view, doubled, opposite = angles(sign)
    for _, (d, h, mean, soft, screen, screen_at, top) in ranked([*open_ground(sign, mark), *behind_screen(sign)], sign)[:60]:
        yield [d, h, mean, soft, view, doubled, screen, screen_at, top, 0, 0, 0, 0, opposite, 0]


def mixtures(sign, mark):
    """Day counts of up to 96 entries, best first: some with the worst count, the rest with another."""
    trains = ranked([(error(10 * math.log10(q)), q) for q in range(1, 2001)], sign)
    loss, first = trains[0]
    level = 10 * math.log10(first) + loss
    found = []
    for other_loss, other in trains[1:60]:
        other_level = 10 * math.log10(other) + other_loss
        for count in range(1, 97):
            for others in range(97 - count):
                total = 10 * math.log10(count * 10 ** (level / 10) + others * 10 ** (other_level / 10))
                bare = 10 * math.log10(count * first + others * other)
                # every level is a whole number of tenths, so the other steps do not move the total's place between two ties
                found.append((marked_error(total, mark) + total - bare, (first, count, other, others)))
    for _, (first, count, other, others) in ranked(found, sign)[:60]:
        yield [first] * count + [other] * others


def farthest(studies, sign, report):
    """The study whose report lies farthest from its bare level."""
    return max(studies, key=lambda study: sign * (TENTH * report(study)[0] - worked_out(study)[1]))


def search(sign, mark, report):
    """The study that lies farthest to one side among those that were tried: the segment first, with one plain train, then the trains.
    Lower speeds than 20 count as 20, and so have no error of their own."""
    _, speed = ranked(((error(31.2 + 20 * math.log10(v)), v) for v in range(20, 301)), sign)[0]
    _, vehicles = ranked(((error(10 * math.log10(n)), n) for n in range(1, 61)), sign)[0]
    segment, _ = farthest([(segment, [[1, 100, 10, 1, 0]]) for segment in segments(sign, mark)], sign, report)
    return farthest([(segment, [[1, speed, vehicles, q, 0] for q in counts]) for counts in mixtures(sign, mark)], sign, report)


# The page.

def study_path(side, whose):
    return ROOT / "docs" / "studies" / f"{side}-{whose}.txt"


def study_in(path):
    lines = [list(map(int, line.split())) for line in path.read_text().splitlines()]
    return lines[1], lines[2:]


def row_of(path, report, program):
    """A study's row of the page's table. What the program reports must be what the rules allow."""
    study = study_in(path)
    allowed, bare = worked_out(study)
    if asked(program, study) not in allowed:
        sys.exit(f"{path.name}: the program reports {asked(program, study)} (tenths, marks), the rules allow {sorted(allowed)}")
    total, close = report(study)
    return f"| {path.name} | {total / 10:.1f} dB | {close} | {bare / 1e6:.6f} dB | {(TENTH * total - bare) / 1e6:+.6f} dB |"


def main():
    check = sys.argv[1:2] == ["--check"]
    program = (sys.argv[1 + check:] or [str(ROOT / "crates" / "railnoise" / "out" / "railnoise")])[0]
    rows = []
    for sign, side in SIDES.items():
        cases = {
            "own": (OWN_MARK, lambda study: asked(program, study)),
            "free": (FREE_MARK[sign], lambda study, sign=sign: max(worked_out(study)[0], key=lambda found, sign=sign: sign * found[0])),
        }
        for whose, (mark, report) in cases.items():
            path = study_path(side, whose)
            if not check:
                path.write_text(text_of(search(sign, mark, report)))
            rows.append(row_of(path, report, program))
    print("\n".join(rows))
    missing = [row for row in rows if row not in PAGE.read_text().splitlines()]
    if check and missing:
        sys.exit("docs/ACCURACY.md does not have these rows:\n" + "\n".join(missing))


main()
