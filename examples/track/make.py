#!/usr/bin/env python3
"""Makes the track of a day on the field of examples/boundary, a point on each line: examples/track/make.py > examples/track/points.txt

The driver comes in by the gate, which is corner 0, and goes along the first two sides to corner 2. Then he goes up and down the field, each pass
24 metres to the left of the one before, and turns outside. After the last pass he is at the gate again. There is a point for about every ten
metres of the way; three times the receiver did not know where it was, and wrote a point out of range.
"""
import json
import math
from pathlib import Path

FIELD = Path(__file__).resolve().parent.parent / "boundary" / "field.json"
WIDTH = 2_400  # centimetres between two passes
STEP = 1_000  # between two points of a pass
ALONG = 1_200  # to the right, between two points on a side; each side that is driven along has a whole point there
LOST, LOST_AT = (99_999_999, 99_999_999), (70, 71, 190)


def along(start, end):
    """The points on a side, without its end."""
    (x1, y1), (x2, y2) = start, end
    return [(x, y1 + (x - x1) * (y2 - y1) // (x2 - x1)) for x in range(x1, x2, ALONG)]


def turn(middle, first, last):
    """A turn around its middle, as wide as two passes are apart, from one angle to another, in degrees against the clock from the right."""
    step = 45 if first < last else -45
    angles = [math.radians(angle) for angle in range(first, last + step, step)]
    return [(middle[0] + round(WIDTH / 2 * math.cos(angle)), middle[1] + round(WIDTH / 2 * math.sin(angle))) for angle in angles]


def top(corners, x):
    """How high the field reaches at so much to the right."""
    sides = zip(corners, corners[1:] + corners[:1])
    return max(y1 + (x - x1) * (y2 - y1) / (x2 - x1) for (x1, y1), (x2, y2) in sides if (x1 > x) != (x2 > x))


def up_and_down(corners, x):
    """Passes from so much to the right on, up and down by turns, with a turn between two of them."""
    low = STEP * (min(y for _, y in corners) // STEP)
    way = []
    while True:
        left = x - WIDTH
        high = STEP * math.ceil(max(top(corners, x), top(corners, left)) / STEP)
        way += [(x, y) for y in range(low + STEP, high, STEP)]
        way += turn((x - WIDTH // 2, high), 0, 180)
        way += [(left, y) for y in range(high - STEP, low, -STEP)]
        x = left - WIDTH
        if x < 0:
            return way
        way += turn((left - WIDTH // 2, low), 0, -180)


def main():
    corners = [tuple(corner) for corner in json.loads(FIELD.read_text(encoding="utf8"))["corners"]]
    gate, middle, end = corners[:3]
    way = along(gate, middle) + along(middle, end)
    way += turn((end[0], end[1] - WIDTH // 2), 90, -180)
    way += up_and_down(corners, end[0] - WIDTH // 2)
    way.append(gate)
    for number in LOST_AT:
        way[number] = LOST
    for x, y in way:
        print(x, y)


main()
