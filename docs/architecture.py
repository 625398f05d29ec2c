#!/usr/bin/env python3
"""Draws docs/architecture.svg on standard output: the rooms of README.md with their crates, and what each crate builds on by crates.txt.

A dependency that another one already brings is left out, and so are the libraries of the kit.
"""
import re
import sys
from pathlib import Path

ROOT = Path(__file__).resolve().parent.parent
LEFT, BOX, GAP, ROW, HIGH = 250, 116, 22, 104, 34


def rooms():
    """The rooms of README.md in their order, each with its crates."""
    text = (ROOT / "README.md").read_text(encoding="utf8").split("## Crates, room by room", 1)[1].split("\n## ", 1)[0]
    found = []
    for line in text.splitlines():
        if room := re.fullmatch(r"\*\*(.+)\*\*", line):
            found.append((room[1], []))
        elif crates := re.match(r"\| (`.*?`) \|", line):
            found[-1][1].extend(re.findall(r"`(\w+)`", crates[1]))
    return found


def dependencies():
    """What each crate of crates.txt lists, the kit's libraries aside."""
    lines = [line.split("#")[0] for line in (ROOT / "crates.txt").read_text(encoding="utf8").splitlines()]
    listed = dict((head.split()[0], names.split()) for head, _, names in (line.partition(":") for line in lines if line.strip()))
    return {name: [other for other in names if other in listed] for name, names in listed.items()}


def direct(needs):
    """The dependencies that no other dependency brings."""
    below = {}

    def all_below(name):
        if name not in below:
            below[name] = set(needs[name]).union(*(all_below(other) for other in needs[name]))
        return below[name]

    return {name: [other for other in names if not any(other in all_below(third) for third in names)] for name, names in needs.items()}


def places(found):
    """The middle of each crate's box; a crate that stands on its neighbour in the room is drawn a little higher."""
    at = {}
    for number, (_, crates) in enumerate(found):
        y = ROW * (len(found) - number) - ROW // 2 + 16
        for column, crate in enumerate(crates):
            at[crate] = (LEFT + BOX // 2 + column * (BOX + GAP), y - 35 * column // max(5, len(crates) - 1))
    return at


def arrow(start, end):
    """A curve from the upper side of one box to the lower side of the other, or from side to side in one room."""
    (x1, y1), (x2, y2) = start, end
    if abs(y1 - y2) < ROW // 2:
        side = BOX // 2
        bend = 0 if abs(x1 - x2) < BOX + GAP + 1 else 40
        return f"M{x1 + side} {y1} Q{(x1 + x2) // 2} {(y1 + y2) // 2 - bend} {x2 - side} {y2}"
    middle = (y1 + y2) // 2
    return f"M{x1} {y1 - HIGH // 2} C{x1} {middle} {x2} {middle} {x2} {y2 + HIGH // 2}"


def main():
    found, needs = rooms(), dependencies()
    named = [crate for _, crates in found for crate in crates]
    if sorted(named) != sorted(needs):
        sys.exit(f"README.md and crates.txt name other crates: {sorted(set(named) ^ set(needs))}")
    at = places(found)
    width = LEFT + max(len(crates) for _, crates in found) * (BOX + GAP) + 8
    height = ROW * len(found) + 24
    print(f'<svg xmlns="http://www.w3.org/2000/svg" viewBox="0 0 {width} {height}" font-family="sans-serif" font-size="14">')
    print('<style>text{fill:#222}.room{fill:#eef2ea;stroke:#c8d3bf}.crate{fill:#fff;stroke:#55704a}.on{fill:none;stroke:#9aa892}</style>')
    print(f'<rect width="{width}" height="{height}" fill="#fff"/>')
    for number, (room, _) in enumerate(found):
        y = ROW * (len(found) - number - 1) + 14
        print(f'<rect class="room" x="8" y="{y}" width="{width - 16}" height="{ROW - 10}" rx="8"/>')
        print(f'<text x="22" y="{y + 24}" font-weight="bold">{room}</text>')
    for crate, names in direct(needs).items():
        for other in names:
            print(f'<path class="on" d="{arrow(at[other], at[crate])}"/>')
    for crate, (x, y) in at.items():
        print(f'<rect class="crate" x="{x - BOX // 2}" y="{y - HIGH // 2}" width="{BOX}" height="{HIGH}" rx="5"/>')
        print(f'<text x="{x}" y="{y + 5}" text-anchor="middle">{crate}</text>')
    print("</svg>")


main()
