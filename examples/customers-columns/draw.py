#!/usr/bin/env python3
"""Draws what a cleaned table of customers holds: kinds by region, and refusals by cause.

usage: draw.py CLEANED.csv PICTURE.svg

CLEANED.csv is what each of the clean files writes. The picture is the same wherever it is drawn.
"""
import collections
import csv
import sys
from xml.sax.saxutils import escape

REGIONS = 24  # so many have a bar of their own
BAR, GAP, LEFT, WIDTH = 16, 5, 210, 520
COLOURS = {
    "Mobile": "#0b6e4f", "FixedLine": "#3f88c5", "FixedLineOrMobile": "#7fb7be", "TollFree": "#f6ae2d",
    "PremiumRate": "#d1495b", "SharedCost": "#a06cd5", "PersonalNumber": "#8d6a9f", "Voip": "#5c8001",
    "Uan": "#b68f40", "Unknown": "#b8b8b8", "other": "#777777",
}
REFUSED = "#d1495b"


def counted(path):
    """How many numbers there are of each region and kind, how many of each region, and of each refusal."""
    kinds, regions, refusals = collections.Counter(), collections.Counter(), collections.Counter()
    with open(path, encoding="utf-8", newline="") as file:
        for row in csv.DictReader(file):
            if row["refusal"]:
                refusals[row["refusal"]] += 1
            else:
                region = row["region"] or "none"
                regions[region] += 1
                kinds[region, row["type"] if row["type"] in COLOURS else "other"] += 1
    return kinds, regions, refusals


def text(x, y, words, anchor="start", size=12):
    return f'<text x="{x}" y="{y}" text-anchor="{anchor}" font-size="{size}">{escape(words)}</text>'


def box(x, y, width, colour, title):
    title = escape(title)
    return f'<rect x="{x:.1f}" y="{y}" width="{width:.1f}" height="{BAR}" fill="{colour}"><title>{title}</title></rect>'


def legend(y):
    """The colours of the kinds, in rows of four."""
    for at, (kind, colour) in enumerate(COLOURS.items()):
        x, line = 20 + at % 4 * 190, y + at // 4 * 18
        yield f'<rect x="{x}" y="{line - 10}" width="12" height="12" fill="{colour}"/>'
        yield text(x + 18, line, kind)


def bars_of_regions(kinds, regions, y):
    """A bar for each region, cut into its kinds."""
    most = max(regions.values(), default=1)
    for region, count in sorted(regions.items(), key=lambda it: (-it[1], it[0]))[:REGIONS]:
        x = LEFT
        yield text(LEFT - 8, y + 13, region, "end")
        for kind, colour in COLOURS.items():
            width = kinds[region, kind] * WIDTH / most
            if width:
                yield box(x, y, width, colour, f"{region}, {kind}: {kinds[region, kind]}")
            x += width
        yield text(f"{x + 6:.1f}", y + 13, f"{count:,}", size=11)
        y += BAR + GAP


def bars_of_refusals(refusals, y):
    most = max(refusals.values(), default=1)
    for words, count in sorted(refusals.items(), key=lambda it: (-it[1], it[0])):
        yield text(LEFT - 8, y + 13, words.removeprefix("the number is "), "end", 10)
        yield box(LEFT, y, count * WIDTH / most, REFUSED, f"{words}: {count}")
        yield text(f"{LEFT + count * WIDTH / most + 6:.1f}", y + 13, f"{count:,}", size=11)
        y += BAR + GAP


def picture(kinds, regions, refusals):
    """The lines of the picture."""
    shown, first = min(len(regions), REGIONS), 110
    second = first + shown * (BAR + GAP) + 40
    height = second + len(refusals) * (BAR + GAP) + 20
    yield f'<svg xmlns="http://www.w3.org/2000/svg" width="800" height="{height}" font-family="sans-serif">'
    yield '<rect width="100%" height="100%" fill="white"/>'
    yield text(20, 26, f"{sum(regions.values()):,} numbers by region and kind", size=16)
    yield from legend(50)
    yield from bars_of_regions(kinds, regions, first)
    yield text(20, second - 12, f"{sum(refusals.values()):,} refused, by cause", size=16)
    yield from bars_of_refusals(refusals, second)
    yield "</svg>"


def main(words):
    if len(words) != 2:
        sys.exit(__doc__.strip())
    lines = list(picture(*counted(words[0])))
    with open(words[1], "w", encoding="utf-8", newline="\n") as file:
        file.write("\n".join(lines) + "\n")


if __name__ == "__main__":
    main(sys.argv[1:])
