#!/usr/bin/env python3
"""Draws what cutting wires into parts gains as a picture (SVG) of slack over parts: `segment.py [NET...] < REPORTS > PICTURE`.

REPORTS are those of mode `segment` with some numbers of parts, each followed by that of mode `best` for what it wrote, as

    for parts in 1 2 4 8 16 32 64; do
        ./vginsert --mode segment --spef a.spef --all --parts $parts --out-spef /tmp/parts.spef
        ./vginsert --mode best --spef /tmp/parts.spef --lib a.lib --verilog a.v --cons a.cons --all --out-spef /tmp/b.spef --out-verilog /tmp/b.v
    done | docs/segment.py > segment.svg

prints them. Each net has a curve, or each that is named: by how much its best slack is over that with the fewest parts, in
picoseconds. Parts double from mark to mark.
"""
import html
import math
import sys

WIDTH, HEIGHT, LEFT, RIGHT, TOP, BOTTOM = 760, 340, 70, 20, 40, 50
COLOURS = ["#1f6fb2", "#b2551f", "#2f8f4e", "#8a3fa0", "#7a6a2a", "#a02f4e"]


def read(lines, names):
    """For each net its slacks by parts. A net without a good placement has none."""
    parts, nets = {}, {}
    for line in lines:
        words = line.split()
        if words[:1] != ["net"] or (names and words[1] not in names):
            continue
        if words[2] == "parts":
            parts[words[1]] = int(words[3])
        elif words[2] == "slack":
            nets.setdefault(words[1], {})[parts.get(words[1], 1)] = int(words[3]) / 1e9
    return nets


def gains(slacks):
    """The parts and what is gained with them, by rising parts."""
    rows = sorted(slacks.items())
    return [(parts, slack - rows[0][1]) for parts, slack in rows]


def ticks(most):
    """Round numbers from 0 on, some four to eight of them."""
    step = 10 ** len(str(int(most)))
    while most / step < 4:
        step /= 2 if str(step)[0] != "5" else 2.5
    return [n * step for n in range(int(most / step) + 1)]


class Frame:
    """Where parts and gains stand in the picture."""

    def __init__(self, points):
        self.few, self.many = min(parts for parts, _ in points), max(parts for parts, _ in points)
        self.most = (max(gain for _, gain in points) or 1) * 1.05

    def x(self, parts):
        return LEFT + 10 + math.log2(parts / self.few) / (math.log2(self.many / self.few) or 1) * (WIDTH - LEFT - RIGHT - 20)

    def y(self, gain):
        return TOP + (1 - gain / self.most) * (HEIGHT - TOP - BOTTOM)


def text(x, y, words, anchor="middle", colour="#444"):
    return f'<text x="{x:.1f}" y="{y:.1f}" text-anchor="{anchor}" fill="{colour}">{html.escape(words)}</text>'


def line(x, y, to_x, to_y):
    return f'<line x1="{x:.1f}" y1="{y:.1f}" x2="{to_x:.1f}" y2="{to_y:.1f}" stroke="#ddd"/>'


def axes(frame, points):
    for parts in sorted({parts for parts, _ in points}):
        yield line(frame.x(parts), TOP, frame.x(parts), HEIGHT - BOTTOM)
        yield text(frame.x(parts), HEIGHT - BOTTOM + 18, str(parts))
    for gain in ticks(frame.most):
        yield line(LEFT, frame.y(gain), WIDTH - RIGHT, frame.y(gain))
        yield text(LEFT - 8, frame.y(gain) + 4, f"{gain:g}", "end")
    yield text((LEFT + WIDTH - RIGHT) / 2, HEIGHT - 12, "parts of each resistor")
    yield text(LEFT, TOP - 16, "slack gained (ps)", "start")


def curve(frame, points, colour):
    places = [(frame.x(parts), frame.y(gain)) for parts, gain in points]
    way = " L ".join(f"{x:.1f} {y:.1f}" for x, y in places)
    yield f'<path d="M {way}" fill="none" stroke="{colour}" stroke-width="2"/>'
    for x, y in places:
        yield f'<circle cx="{x:.1f}" cy="{y:.1f}" r="3.5" fill="{colour}"/>'


def draw(nets):
    points = [point for points in nets.values() for point in points]
    frame = Frame(points)
    yield f'<svg xmlns="http://www.w3.org/2000/svg" viewBox="0 0 {WIDTH} {HEIGHT}" font-family="sans-serif" font-size="13">'
    yield f'<rect width="{WIDTH}" height="{HEIGHT}" fill="white"/>'
    yield from axes(frame, points)
    for at, (name, own) in enumerate(nets.items()):
        colour = COLOURS[at % len(COLOURS)]
        yield from curve(frame, own, colour)
        yield text(LEFT + 24, TOP + 20 + 18 * at, f"net {name}", "start", colour)
    yield "</svg>"


def main():
    nets = read(sys.stdin, sys.argv[1:])
    if not nets:
        sys.exit("segment.py: the reports have no slack of such a net")
    print("\n".join(draw({name: gains(slacks) for name, slacks in nets.items()})))


main()
