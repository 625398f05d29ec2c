#!/usr/bin/env python3
"""Makes a field and points from a real map: examples/map/make.py MAP.json [FOLDER]

MAP.json is canada.json, a GeoJSON file of islands and coasts in degrees that many measurements of JSON readers use. One island becomes field.json in
FOLDER (by default the folder of this file), in centimetres from the middle of its box and at its true size, and 30 points go to points.txt: corners,
points on sides, points at most one centimetre beside a side, points inside and points outside, six of each.
"""
import json
import math
import sys
from fractions import Fraction
from pathlib import Path

POLYGON, NAME = 342, "Herschel Island"
DEGREE = 11_131_949  # centimetres of a degree on the equator
REACH = 1_000_000
EACH = 6


def ring(path):
    """The island's corners in degrees. A GeoJSON ring ends with its first corner again; a field's closing side needs no such corner."""
    corners = json.loads(Path(path).read_text(encoding="utf8"))["features"][0]["geometry"]["coordinates"][POLYGON]
    return corners[:-1] if corners[0] == corners[-1] else corners


def centimetres(corners):
    """Degrees as whole centimetres from the middle of the box: east, and north."""
    east, north = ((min(numbers) + max(numbers)) / 2 for numbers in zip(*corners))
    shrunk = math.cos(math.radians(north))
    return [(round((x - east) * shrunk * DEGREE), round((y - north) * DEGREE)) for x, y in corners]


def sides(corners):
    return list(zip(corners, corners[1:] + corners[:1]))


def spread(things):
    """Six of them, evenly from the first to the last."""
    return [things[i * (len(things) - 1) // (EACH - 1)] for i in range(EACH)]


def on_sides(corners):
    """A whole point near the middle of each side that has one between its ends."""
    found = []
    for (x1, y1), (x2, y2) in sides(corners):
        parts = math.gcd(x2 - x1, y2 - y1)
        if parts > 1:
            found.append((x1 + (x2 - x1) // parts * (parts // 2), y1 + (y2 - y1) // parts * (parts // 2)))
    return found


def inside(corners, x, y):
    """For a point off the edge."""
    crossed = [x1 + Fraction((y - y1) * (x2 - x1), y2 - y1) > x for (x1, y1), (x2, y2) in sides(corners) if (y1 > y) != (y2 > y)]
    return sum(crossed) % 2 == 1


def beside(corners):
    """A point at most one centimetre beside the middle of each side, by turns inside and outside."""
    found = []
    for (x1, y1), (x2, y2) in sides(corners):
        height = (y1 + y2) // 2
        if height not in (y1, y2):
            crossing = x1 + Fraction((height - y1) * (x2 - x1), y2 - y1)
            pair = [(math.ceil(crossing) - 1, height), (math.floor(crossing) + 1, height)]
            found.append(next(point for point in pair if inside(corners, *point) == (len(found) % 2 == 0)))
    return found


def far(corners, wanted):
    """The points inside the field, or outside it, of a grid of 1,500 metres."""
    grid = [(x, y) for y in range(-900_000, 900_001, 150_000) for x in range(-900_000, 900_001, 150_000)]
    return [point for point in grid if inside(corners, *point) == wanted]


def main():
    if len(sys.argv) not in (2, 3):
        sys.exit(__doc__)
    folder = Path(sys.argv[2]) if len(sys.argv) == 3 else Path(__file__).resolve().parent
    corners = centimetres(ring(sys.argv[1]))
    assert 3 <= len(corners) <= 1024 and all(abs(number) <= REACH for corner in corners for number in corner)
    lines = ",\n    ".join(f"[{x}, {y}]" for x, y in corners)
    (folder / "field.json").write_text(f'{{\n  "name": "{NAME}",\n  "corners": [\n    {lines}\n  ]\n}}\n', encoding="utf8")
    kinds = [corners, on_sides(corners), beside(corners), far(corners, True), far(corners, False)]
    points = [point for kind in kinds for point in spread(kind)]
    (folder / "points.txt").write_text("".join(f"{x} {y}\n" for x, y in points), encoding="utf8")


main()
