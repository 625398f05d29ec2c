#!/usr/bin/env python3
"""Draws the speeds of a results file as bars.

usage: picture.py [RESULTS.tsv [OUT.svg]]     (target/bench/results.tsv, docs/performance.svg)
"""
import os
import sys
from statistics import median
from xml.sax.saxutils import escape

ROOT = os.path.dirname(os.path.dirname(os.path.abspath(__file__)))
WIDTH, LABELS, RIGHT, ROW, BAR = 860, 210, 70, 22, 14
OURS, SCHEMA, OTHERS, DARK = "#2f7d4f", "#b7812a", "#8c98a4", 0.55


def speeds_of(name):
    """Input, reader and piece size to MB/s, for streams of valid records; and the machine line."""
    speeds, machine = {}, ""
    with open(name, encoding="utf-8") as file:
        for line in file:
            fields = line.rstrip("\n").split("\t")
            if fields[0] == "speed":
                _, source, verdict, reader, piece, count, best, _ = fields
                if verdict == "valid":
                    speeds.setdefault(source, {}).setdefault(reader, {})[piece] = int(count) / float(best) / 1e6
            elif fields[0] == "machine":
                machine = f"{fields[1]}, best of {fields[3]} rounds"
    return speeds, machine


def text(x, y, words, more=""):
    return f'<text x="{x:.1f}" y="{y:.1f}"{more}>{escape(words)}</text>'


def bar(y, height, speed, most, colour, opacity):
    """A bar, with an arrow head where it goes on beyond the picture."""
    room = WIDTH - LABELS - RIGHT
    length = room * min(speed / most, 1)
    shape = [f'<rect x="{LABELS}" y="{y:.1f}" width="{length:.1f}" height="{height}" fill="{colour}" opacity="{opacity}"/>']
    if speed > most:
        x, middle = LABELS + room, y + height / 2
        shape.append(f'<path d="M{x} {y} L{x + 7} {middle} L{x} {y + height} Z" fill="{colour}" opacity="{opacity}"/>')
    return shape


def row(y, reader, first, by_piece, most):
    colour = OURS if first else SCHEMA if "schema" in reader else OTHERS
    whole = by_piece["whole"]
    shape = [text(LABELS - 8, y + 11, reader, ' text-anchor="end"' + (' font-weight="bold"' if first else ""))]
    shape += bar(y, BAR, whole, most, colour, DARK)
    if "64 B" in by_piece:
        shape += bar(y + BAR / 4, BAR / 2, by_piece["64 B"], most, colour, 1)
    end = LABELS + (WIDTH - LABELS - RIGHT) * min(whole / most, 1) + (12 if whole > most else 5)
    return shape + [text(end, y + 11, f"{whole:,.0f}")]


def picture(speeds, machine):
    most = 3 * median(by["whole"] for readers in speeds.values() for by in readers.values())
    most = min(most, max(by["whole"] for readers in speeds.values() for by in readers.values()))
    shapes, y = [], 52
    for source, readers in speeds.items():
        shapes.append(text(12, y + 12, source, ' font-weight="bold"'))
        y += ROW
        for i, (reader, by_piece) in enumerate(readers.items()):
            shapes += row(y, reader, i == 0, by_piece, most)
            y += ROW
        y += 10
    head = [
        f'<svg xmlns="http://www.w3.org/2000/svg" viewBox="0 0 {WIDTH} {y}" width="{WIDTH}" height="{y}" font-family="sans-serif" font-size="12">',
        "<title>Speed of the field text reader and of other readers of JSON</title>",
        f'<rect width="{WIDTH}" height="{y}" fill="#ffffff"/>',
        text(12, 20, "MB/s. Wide bar and number: texts read whole; narrow bar: in pieces of 64 bytes. A bar with a point goes on beyond."),
        text(12, 38, machine, ' fill="#555555"'),
    ]
    return "\n".join(head + shapes + ["</svg>"]) + "\n"


def main():
    if len(sys.argv) > 3 or (len(sys.argv) > 1 and sys.argv[1] in ("-h", "--help")):
        sys.exit(__doc__)
    results = sys.argv[1] if len(sys.argv) > 1 else os.path.join(ROOT, "target", "bench", "results.tsv")
    out = sys.argv[2] if len(sys.argv) > 2 else os.path.join(ROOT, "docs", "performance.svg")
    speeds, machine = speeds_of(results)
    if not speeds:
        sys.exit(f"picture.py: no speeds in {results}")
    with open(out, "w", encoding="utf-8", newline="\n") as file:
        file.write(picture(speeds, machine))


if __name__ == "__main__":
    main()
