#!/usr/bin/env python3
"""Draws the frontiers of a report of mode `frontier` or `total` as a picture (SVG) of slack over cost: `frontier.py < REPORT > PICTURE`.

Each net, or in mode `total` the whole design, has a curve of steps: at a cost, the most slack that cells of at most this cost leave. Costs are in the library's unit of
area, slacks in picoseconds. Where some slack is negative and some is not, a line marks 0.
"""
import html
import sys

WIDTH, HEIGHT, LEFT, RIGHT, TOP, BOTTOM = 760, 380, 70, 20, 40, 50
COLOURS = ["#1f6fb2", "#b2551f", "#2f8f4e", "#8a3fa0", "#7a6a2a", "#a02f4e"]


def read(lines):
    """For each net of a report that has points, or for all of them together, its name and its points: cost and slack."""
    nets = []
    for line in lines:
        words = line.split()
        if words[:1] == ["net"] and words[2:3] == ["points"]:
            nets.append((words[1], []))
        elif words[:2] == ["total", "points"]:
            nets.append(("worst of all nets", []))
        elif words[:1] == ["point"]:
            nets[-1][1].append((int(words[1]) / 1e3, int(words[2]) / 1e9))
    return nets


def ticks(low, high):
    """Round numbers from one number to another, some four to eight of them."""
    step = 10 ** len(str(int(high - low)))
    while (high - low) / step < 4:
        step /= 2 if str(step)[0] != "5" else 2.5
    first = int(low // step)
    return [n * step for n in range(first, int(high // step) + 2) if low <= n * step <= high]


class Frame:
    """Where costs and slacks stand in the picture."""

    def __init__(self, points):
        costs, slacks = zip(*points)
        self.low, self.high = min(slacks), max(slacks)
        margin = (self.high - self.low) * 0.05 or 1
        self.low, self.high = self.low - margin, self.high + margin
        self.most = (max(costs) or 1) * 1.05

    def x(self, cost):
        return LEFT + cost / self.most * (WIDTH - LEFT - RIGHT)

    def y(self, slack):
        return TOP + (self.high - slack) / (self.high - self.low) * (HEIGHT - TOP - BOTTOM)


def text(x, y, words, anchor="middle", colour="#444"):
    return f'<text x="{x:.1f}" y="{y:.1f}" text-anchor="{anchor}" fill="{colour}">{html.escape(words)}</text>'


def line(x, y, to_x, to_y, colour="#ddd"):
    return f'<line x1="{x:.1f}" y1="{y:.1f}" x2="{to_x:.1f}" y2="{to_y:.1f}" stroke="{colour}"/>'


def axes(frame):
    for cost in ticks(0, frame.most):
        yield line(frame.x(cost), TOP, frame.x(cost), HEIGHT - BOTTOM)
        yield text(frame.x(cost), HEIGHT - BOTTOM + 18, f"{cost:g}")
    for slack in ticks(frame.low, frame.high):
        yield line(LEFT, frame.y(slack), WIDTH - RIGHT, frame.y(slack))
        yield text(LEFT - 8, frame.y(slack) + 4, f"{slack:g}", "end")
    if frame.low < 0 < frame.high:
        yield line(LEFT, frame.y(0), WIDTH - RIGHT, frame.y(0), "#888")
    yield text((LEFT + WIDTH - RIGHT) / 2, HEIGHT - 12, "cost of the cells (area)")
    yield text(LEFT, TOP - 16, "slack (ps)", "start")


def curve(frame, points, colour):
    way = f"M {frame.x(points[0][0]):.1f} {frame.y(points[0][1]):.1f}"
    for cost, slack in points[1:]:
        way += f" H {frame.x(cost):.1f} V {frame.y(slack):.1f}"
    yield f'<path d="{way} H {WIDTH - RIGHT}" fill="none" stroke="{colour}" stroke-width="2"/>'
    for cost, slack in points:
        yield f'<circle cx="{frame.x(cost):.1f}" cy="{frame.y(slack):.1f}" r="3.5" fill="{colour}"/>'


def draw(nets):
    frame = Frame([point for _, points in nets for point in points])
    yield f'<svg xmlns="http://www.w3.org/2000/svg" viewBox="0 0 {WIDTH} {HEIGHT}" font-family="sans-serif" font-size="13">'
    yield f'<rect width="{WIDTH}" height="{HEIGHT}" fill="white"/>'
    yield from axes(frame)
    for at, (name, points) in enumerate(nets):
        colour = COLOURS[at % len(COLOURS)]
        yield from curve(frame, points, colour)
        yield text(WIDTH - RIGHT, TOP - 16 + 16 * at, f"net {name}", "end", colour)
    yield "</svg>"


def main():
    nets = read(sys.stdin)
    if not nets:
        sys.exit("frontier.py: the report has no points")
    print("\n".join(draw(nets)))


main()
