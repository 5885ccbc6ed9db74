#!/usr/bin/env python3
"""Draws docs/accuracy-budget.svg: what each rounding can add to the distance between the reported total and the bare level.

    tools/budget_svg.py           writes the picture
    tools/budget_svg.py --check   compares it with the file

The figure found by search is read from docs/ACCURACY.md. No label may touch another or be crossed by a line; that is checked here.
"""
import itertools
import pathlib
import re
import sys

DOCS = pathlib.Path(__file__).resolve().parent.parent / "docs"
PICTURE = DOCS / "accuracy-budget.svg"
HALF, MARK = 50, 2  # thousandths of a decibel
PARTS = [("speed", HALF), ("vehicles", HALF), ("distance", HALF), ("air", HALF), ("ground or screen", HALF), ("angle of view", HALF),
         ("opposite facades", HALF), ("trains", HALF), ("ground's close mark", MARK), ("total", HALF), ("total's close mark", MARK)]
BOUND = 460
TITLE = "How far rounding can carry a total, in thousandths of a decibel"
LEFT, SCALE, ROW, TOP, WIDTH = 180, 1.1, 26, 56, 720
STEEL, BRICK, GREEN, BLACK, GREY = "#4f81bd", "#c0504d", "#2e7d32", "#000000", "#444444"


def found_by_search():
    row = re.search(r"^\| above-free\.txt \|.*\| \+0\.(\d{6}) dB \|$", (DOCS / "ACCURACY.md").read_text(), re.M)
    return int(row[1]) / 1000


def escaped(text):
    return text.replace("&", "&amp;").replace("<", "&lt;")


class Picture:
    """The elements drawn so far, with the room that each label and line takes."""

    def __init__(self):
        self.elements, self.labels, self.lines = [], [], []

    def label(self, x, y, text, anchor="start", colour=BLACK, size=13):
        wide = 0.6 * size * len(text)  # no common sans-serif face is wider on average
        left = {"start": x, "end": x - wide}[anchor]
        self.labels.append((left, y - size, left + wide, y + 0.3 * size, text))
        self.elements.append(f'<text x="{x:.1f}" y="{y}" text-anchor="{anchor}" fill="{colour}" font-size="{size}">{escaped(text)}</text>')

    def bar(self, x, y, wide, high, colour):
        self.elements.append(f'<rect x="{x:.1f}" y="{y}" width="{wide:.1f}" height="{high}" fill="{colour}"/>')

    def line(self, x, top, bottom, colour):
        self.lines.append((x, top, x, bottom, f"the line at {x:.1f}"))
        self.elements.append(f'<line x1="{x:.1f}" y1="{top}" x2="{x:.1f}" y2="{bottom}" stroke="{colour}" stroke-dasharray="4 3"/>')

    def clashes(self):
        pairs = [*itertools.combinations(self.labels, 2), *itertools.product(self.labels, self.lines)]
        return [f"{a[4]} touches {b[4]}" for a, b in pairs if a[0] <= b[2] and b[0] <= a[2] and a[1] <= b[3] and b[1] <= a[3]]


def drawn():
    picture = Picture()
    picture.label(16, 28, TITLE, size=16)
    start = 0
    for row, (name, size) in enumerate(PARTS):
        y, x = TOP + row * ROW, LEFT + start * SCALE
        picture.label(LEFT - 10, y + 15, name, "end")
        picture.bar(x, y + 3, size * SCALE, ROW - 8, BRICK if size == MARK else STEEL)
        # the figure stands on the free side of its bar: the last bars reach the lines at the right
        if start < 8 * HALF:
            picture.label(x + size * SCALE + 6, y + 15, str(size), colour=GREY)
        else:
            picture.label(x - 6, y + 15, str(size), "end", GREY)
        start += size
    bottom = TOP + ROW * len(PARTS)
    found = found_by_search()
    # from left to right, each label below the end of the line before it
    for number, (value, words, colour) in enumerate([(found, f"{found:.1f} found by search", GREEN),
                                                     (start, f"{start} all parts added", STEEL),
                                                     (BOUND, f"{BOUND} promised for every study", BLACK)]):
        x, y = LEFT + value * SCALE, bottom + 24 + 22 * number
        picture.line(x, TOP - 8, y, colour)
        picture.label(x - 6, y, words, "end", colour)
    high = bottom + 24 + 22 * 3
    if picture.clashes():
        sys.exit("\n".join(picture.clashes()))
    head = [f'<svg xmlns="http://www.w3.org/2000/svg" viewBox="0 0 {WIDTH} {high}" width="{WIDTH}" height="{high}" role="img" '
            'aria-labelledby="title" font-family="sans-serif">', f'<title id="title">{TITLE}</title>',
            f'<rect width="{WIDTH}" height="{high}" fill="white"/>']
    return "\n".join([*head, *picture.elements, "</svg>"]) + "\n"


if sys.argv[1:] == ["--check"]:
    if PICTURE.read_text() != drawn():
        sys.exit("docs/accuracy-budget.svg is not what tools/budget_svg.py draws")
else:
    PICTURE.write_text(drawn())
