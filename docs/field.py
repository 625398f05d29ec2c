#!/usr/bin/env python3
"""Draws a field, points and where they lie, as an SVG on standard output: docs/field.py [--track] TEXT POINTS ANSWERS

TEXT is a field, POINTS has a point on each line, and ANSWERS is what ./field printed for them: a line for each point, after its first line of
names. A thin line leads from each point to its nearest corner. With --track the points are small, a line leads from each to the next, and how
many there are of each kind stands below. Points that were refused are not drawn, and the line of a track has a gap there.
"""
import argparse
import json
import math
import re
import sys
from pathlib import Path

WIDTH, MARGIN, LEGEND = 760, 36, 40
COLOURS = {"edge": "#c77700", "inside": "#2e7d32", "outside": "#b3261e"}
WAY = "#8a8a8a"
FONT = 'font-family="sans-serif" font-size="12"'


def read_points(path):
    lines = Path(path).read_text(encoding="ascii").splitlines()
    return [tuple(int(number) for number in re.findall(r"-?\d+", line)[:2]) for line in lines if line.strip()]


def read_answers(path):
    """For each line after the names the place and the nearest corner; none of a refused point."""
    found = []
    for line in Path(path).read_text(encoding="ascii").splitlines()[1:]:
        words = line.split()
        place = next((word for word in words if word in COLOURS), None)
        found.append((place, int(words[-1])) if place else None)
    return found


class Plan:
    """Centimetres to places in the picture: east is to the right, north is up."""

    def __init__(self, points):
        (left, right), (low, high) = ((min(numbers), max(numbers)) for numbers in zip(*points))
        self.left, self.high, self.length = left, high, max(right - left, 1)
        self.scale = (WIDTH - 2 * MARGIN) / self.length
        self.height = round((high - low) * self.scale) + 2 * MARGIN + LEGEND

    def at(self, point):
        """The place of a point."""
        return MARGIN + (point[0] - self.left) * self.scale, MARGIN + (self.high - point[1]) * self.scale

    def beside(self, point, lines):
        """The middle of a corner's number: of sixteen places around the corner the one farthest from all lines."""
        x, y = self.at(point)
        turns = [math.tau * part / 16 for part in range(16)]
        return max(((x + 14 * math.cos(turn), y + 14 * math.sin(turn)) for turn in turns), key=lambda place: clearance(place, lines))


def clearance(place, lines):
    """The least distance from a place to a line, in thousandths of a pixel, so that places equally good are equal everywhere."""
    return round(1000 * min(distance(place, line) for line in lines))


def distance(place, line):
    """From a place to the nearest point of a line between two places."""
    (x, y), ((x1, y1), (x2, y2)) = place, line
    right, down = x2 - x1, y2 - y1
    length = right * right + down * down
    part = min(1, max(0, ((x - x1) * right + (y - y1) * down) / length)) if length else 0
    return math.hypot(x1 + part * right - x, y1 + part * down - y)


def mark(place, x, y, size):
    """A square on the edge, a disc inside, a ring outside; so many pixels from its middle."""
    colour = COLOURS[place]
    if place == "edge":
        return f'<rect x="{x - size:.1f}" y="{y - size:.1f}" width="{2 * size}" height="{2 * size}" fill="{colour}"/>'
    fill = colour if place == "inside" else "#fff"
    return f'<circle cx="{x:.1f}" cy="{y:.1f}" r="{size}" fill="{fill}" stroke="{colour}" stroke-width="{size / 2:g}"/>'


def links(points, answers, corners, track):
    """The thin lines between points, with their colours: of a track to the next point, else to the nearest corner."""
    if track:
        steps = zip(points, answers, points[1:], answers[1:])
        return [(point, after, WAY) for point, answer, after, then in steps if answer and then]
    return [(point, corners[answer[1]], COLOURS[answer[0]]) for point, answer in zip(points, answers) if answer]


def bar(plan):
    """The longest power of ten, in centimetres, that takes up at most a third of the width."""
    length = 10 ** (len(str(plan.length // 3)) - 1)
    words = f"{length // 100_000} km" if length >= 100_000 else f"{length // 100} m" if length >= 100 else f"{length} cm"
    return length * plan.scale, words


def main():
    parser = argparse.ArgumentParser(description=__doc__, formatter_class=argparse.RawDescriptionHelpFormatter)
    parser.add_argument("--track", action="store_true")
    for name in ("text", "points", "answers"):
        parser.add_argument(name)
    given = parser.parse_args()
    corners = [tuple(corner) for corner in json.loads(Path(given.text).read_text(encoding="utf8"))["corners"]]
    points, answers = read_points(given.points), read_answers(given.answers)
    if len(points) != len(answers):
        sys.exit(f"{len(points)} points and {len(answers)} answers")
    located = [(point, answer[0]) for point, answer in zip(points, answers) if answer]
    plan = Plan(corners + [point for point, _ in located])
    size = 2.5 if given.track else 4
    thin = [(plan.at(start), plan.at(end), colour) for start, end, colour in links(points, answers, corners, given.track)]
    sides = [(plan.at(start), plan.at(end)) for start, end in zip(corners, corners[1:] + corners[:1])]
    print(f'<svg xmlns="http://www.w3.org/2000/svg" viewBox="0 0 {WIDTH} {plan.height}" {FONT}>')
    print(f'<rect width="{WIDTH}" height="{plan.height}" fill="#fff"/>')
    outline = " ".join("{:.1f},{:.1f}".format(*plan.at(corner)) for corner in corners)
    print(f'<polygon points="{outline}" fill="#eef2ea" fill-rule="evenodd" stroke="#55704a" stroke-width="1.5"/>')
    for (x1, y1), (x2, y2), colour in thin:
        print(f'<path d="M{x1:.1f} {y1:.1f} L{x2:.1f} {y2:.1f}" stroke="{colour}" stroke-width="0.7"/>')
    for point, place in located:
        print(mark(place, *plan.at(point), size))
    for number, corner in enumerate(corners):
        (x, y), (right, down) = plan.at(corner), plan.beside(corner, sides + [line[:2] for line in thin])
        print(f'<circle cx="{x:.1f}" cy="{y:.1f}" r="2" fill="#55704a"/>')
        print(f'<text x="{right:.1f}" y="{down + 4:.1f}" text-anchor="middle" fill="#55704a">{number}</text>')
    for column, place in enumerate(COLOURS):
        x, y = MARGIN + 110 * column, plan.height - MARGIN / 2
        words = f"{place} {[found for _, found in located].count(place)}" if given.track else place
        print(f'{mark(place, x, y, size)}<text x="{x + 12}" y="{y + 4}">{words}</text>')
    if given.track:
        print(f'<text x="{MARGIN + 110 * len(COLOURS)}" y="{plan.height - MARGIN / 2 + 4}">refused {answers.count(None)}, not drawn</text>')
    length, words = bar(plan)
    x, y = WIDTH - MARGIN, plan.height - MARGIN / 2
    print(f'<path d="M{x - length:.1f} {y} H{x}" stroke="#222" stroke-width="2"/>')
    print(f'<text x="{x - length - 8:.1f}" y="{y + 4}" text-anchor="end">{words}</text>')
    print("</svg>")


main()
