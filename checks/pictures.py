#!/usr/bin/env python3
"""Draws the pictures of the pages from texts: docs/pictures/NAME.svg from docs/pictures/NAME.txt, which a terminal shows as it is.

    checks/pictures.py [--check] [--write]

    --check  prints each picture that differs from its text (the default)
    --write  writes the pictures

In a text, ┌ ┐ └ ┘ ─ │ ├ ┤ ┬ ┴ ┼ are lines, ▶ ▼ ▲ are arrowheads, all else is text. A rectangle is filled.

In crates.txt each crate of the file crates.txt at the top must be in a box, except those of tests. It must use only crates of its
own box or of boxes that begin further down.

Exit status: 0 they are the same, or written; 1 something differs; 2 the arguments are wrong.
"""

import glob
import os
import re
import sys
from xml.sax.saxutils import escape

if sys.argv[1:] in (["-h"], ["--help"]):
    sys.exit(print(__doc__, end=""))
if not set(sys.argv[1:]) <= {"--check", "--write"}:
    print("pictures: only --check and --write are options; --help", file=sys.stderr)
    sys.exit(2)
os.chdir(os.path.join(os.path.dirname(os.path.realpath(__file__)), ".."))
WIDE, HIGH, EDGE = 8, 18, 8  # of a character and of the margin, in pixels
# in which directions a character has lines: left, right, up, down
LINES = {"─": "lr", "│": "ud", "┌": "rd", "┐": "ld", "└": "ru", "┘": "lu", "├": "rud", "┤": "lud", "┬": "lrd", "┴": "lru", "┼": "lrud"}
# the corners of an arrowhead, the tip last; where the neighbour is a line, the tip touches it, and a line leads to the base
ARROWS = {"▶": ((0, 4), (0, 14), (8, 9)), "▼": ((-1, 5), (9, 5), (4, 14)), "▲": ((-1, 13), (9, 13), (4, 4))}
LONG = {"▶": ((3, 4), (3, 14), (11, 9)), "▼": ((-1, 16), (9, 16), (4, 26)), "▲": ((-1, 2), (9, 2), (4, -8))}
wrong = 0


def tell(what):
    global wrong
    wrong += 1
    print(what)


def read(path):
    with open(path, encoding="utf-8") as it:
        return it.read()


def boxes(rows):
    """The rectangles, as left, top, right and bottom; a title may be in the upper line."""
    found = []
    for y, row in enumerate(rows):
        for it in re.finditer(r"┌(─[^┌┐│]*)┐", row):
            left, right, bottom = it.start(), it.end() - 1, y + 1
            while bottom < len(rows) and rows[bottom].ljust(right + 1)[left] in "│├┤┼" and rows[bottom].ljust(right + 1)[right] in "│├┤┼":
                bottom += 1
            if bottom < len(rows) and rows[bottom].ljust(right + 1)[left] == "└" and rows[bottom].ljust(right + 1)[right] == "┘":
                found.append((left, y, right, bottom))
    return found


def joined(segments):
    """Segments of a line that touch, as one."""
    made = []
    for begin, end in sorted(segments):
        if made and begin <= made[-1][1]:
            made[-1][1] = max(end, made[-1][1])
        else:
            made.append([begin, end])
    return made


def drawn(text):
    rows = text.rstrip("\n").split("\n")
    wide = 2 * EDGE + WIDE * max(map(len, rows))
    high = 2 * EDGE + HIGH * len(rows)
    out = [
        f'<svg xmlns="http://www.w3.org/2000/svg" width="{wide}" height="{high}" viewBox="0 0 {wide} {high}">',
        f'<rect width="{wide}" height="{high}" fill="#fff"/>',
        f'<g transform="translate({EDGE} {EDGE})" font-family="DejaVu Sans Mono, Consolas, monospace" font-size="13">',
    ]
    for left, top, right, bottom in boxes(rows):
        out.append(
            f'<rect x="{left * WIDE + 4}" y="{top * HIGH + 9}" width="{(right - left) * WIDE}" height="{(bottom - top) * HIGH}" fill="#eef3fa"/>'
        )
    across, along, heads, words = {}, {}, [], []
    for y, row in enumerate(rows):
        for x, it in enumerate(row):
            middle, centre = x * WIDE + 4, y * HIGH + 9
            for way in LINES.get(it, ""):
                if way in "lr":
                    across.setdefault(centre, []).append((middle - 4, middle) if way == "l" else (middle, middle + 4))
                else:
                    along.setdefault(middle, []).append((centre - 9, centre) if way == "u" else (centre, centre + 9))
            if it in ARROWS:
                beside, under = {"▶": (1, 0), "▼": (0, 1), "▲": (0, -1)}[it]
                near = rows[y + under] if 0 <= y + under < len(rows) else ""
                is_long = near[x + beside : x + beside + 1] in LINES
                heads.append("M" + "L".join(f"{x * WIDE + a} {y * HIGH + b}" for a, b in (LONG if is_long else ARROWS)[it]) + "z")
                if is_long and it == "▶":
                    across.setdefault(centre, []).append((x * WIDE, x * WIDE + 3))
                elif is_long:
                    along.setdefault(middle, []).append((y * HIGH, y * HIGH + 16) if it == "▼" else (y * HIGH + 2, y * HIGH + 18))
        plain = "".join(" " if it in LINES or it in ARROWS else it for it in row)
        for it in re.finditer(r"\S+(?: \S+)*", plain):
            words.append(
                f'<text x="{it.start() * WIDE}" y="{y * HIGH + 13}" textLength="{len(it[0]) * WIDE}" '
                f'lengthAdjust="spacingAndGlyphs">{escape(it[0])}</text>'
            )
    lines = [f"M{a} {y}H{b}" for y, them in sorted(across.items()) for a, b in joined(them)]
    lines += [f"M{x} {a}V{b}" for x, them in sorted(along.items()) for a, b in joined(them)]
    out += [f'<path d="{"".join(lines)}" fill="none" stroke="#44597a"/>', f'<path d="{"".join(heads)}" fill="#44597a"/>', *words]
    return "\n".join([*out, "</g>", "</svg>", ""])


def check_crates():
    rows = read("docs/pictures/libraries.txt").split("\n")
    box, uses = {}, {}
    for left, top, right, bottom in boxes(rows):
        for row in rows[top + 1 : bottom]:
            for it in re.findall(r"\w+", row[left + 1 : right]):
                # the innermost box has it, which is met last
                box[it] = top
    for line in read("crates.txt").splitlines():
        head, _, below = line.split("#")[0].partition(":")
        if head.strip() and not head.split()[0].endswith("_tests"):
            uses[head.split()[0]] = below.split()
    for it, below in uses.items():
        if it not in box:
            tell(f"docs/pictures/libraries.txt: it has no crate {it}")
        for other in below:
            if it in box and other in uses and box.get(other, box[it]) < box[it]:
                tell(f"docs/pictures/libraries.txt: {it} uses {other}, whose box begins further up")


check_crates()
names = sorted(glob.glob("docs/pictures/*.txt"))
for name in names:
    path, made = name[:-4] + ".svg", drawn(read(name))
    if "--write" in sys.argv:
        with open(path, "w", encoding="utf-8") as file:
            file.write(made)
    elif not os.path.exists(path) or read(path) != made:
        tell(f"{path}: it differs from {name}; checks/pictures.py --write")
print(f"{len(names)} pictures, {wrong} differ")
sys.exit(1 if wrong else 0)
