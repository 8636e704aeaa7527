"""Draws how seconds grow with the work, as an SVG on two logarithmic axes: a line for each workload, a point for each size.

A workload whose time is in proportion to its size has a line as steep as the dashed one."""
import math
from html import escape

WIDTH, HEIGHT, LEFT, RIGHT, TOP, BOTTOM = 760, 440, 64, 170, 24, 48
STYLE = """
  text { font: 12px system-ui, sans-serif; fill: #1c2733 } .small { font-size: 10px; fill: #5b6b7b }
  .paper { fill: #ffffff } .grid { stroke: #e3e9ee } .even { stroke: #8896a4; stroke-dasharray: 4 4 }
  .line { fill: none; stroke-width: 2 }
  @media (prefers-color-scheme: dark) {
    text { fill: #dfe7ee } .small { fill: #93a4b4 } .paper { fill: #10161d } .grid { stroke: #232e39 }
    .even { stroke: #6a7886 }
  }
"""
COLOURS = ["#2f7fc1", "#c1702f", "#3d9a5f", "#b5473c", "#8a5fc0", "#4f9aa0", "#a08a2f", "#b0568f", "#6b7c8c", "#5a7d2a",
           "#c14f7a", "#3f5fb5", "#947055"]


class Axis:
    """Decades of values along a length of the picture."""

    def __init__(self, values, begin, end):
        self.low, self.high = math.floor(math.log10(min(values))), math.ceil(math.log10(max(values)))
        self.high = max(self.high, self.low + 1)
        self.begin, self.end = begin, end

    def place(self, value):
        share = (math.log10(value) - self.low) / (self.high - self.low)
        return self.begin + share * (self.end - self.begin)

    def decades(self):
        return [10.0 ** k for k in range(self.low, self.high + 1)]


def named(value):
    return f"{value:,.0f}" if value >= 1 else f"{value:g}"


def spread(places, gap=13):
    """The places in ascending order, each moved down so far that it is a gap below the one above."""
    moved = []
    for place in places:
        moved.append(max(place, moved[-1] + gap) if moved else place)
    return moved


def svg(works, along):
    """A picture of `works`, which has a name and points (size, seconds) for each; `along` names the axis of sizes."""
    works = [(name, [(n, s) for n, s in points if n > 0 and s > 0]) for name, points in works]
    works = [(name, points) for name, points in works if points]
    x = Axis([n for _, points in works for n, _ in points], LEFT, WIDTH - RIGHT)
    y = Axis([s for _, points in works for _, s in points], HEIGHT - BOTTOM, TOP)
    parts = []
    for value in x.decades():
        parts.append(f'<line class="grid" x1="{x.place(value):.1f}" y1="{TOP}" x2="{x.place(value):.1f}" y2="{HEIGHT - BOTTOM}"/>')
        parts.append(f'<text class="small" x="{x.place(value):.1f}" y="{HEIGHT - BOTTOM + 16}" text-anchor="middle">{named(value)}</text>')
    for value in y.decades():
        parts.append(f'<line class="grid" x1="{LEFT}" y1="{y.place(value):.1f}" x2="{WIDTH - RIGHT}" y2="{y.place(value):.1f}"/>')
        parts.append(f'<text class="small" x="{LEFT - 6}" y="{y.place(value) + 3:.1f}" text-anchor="end">{named(value)} s</text>')
    parts.append(f'<text class="small" x="{(LEFT + WIDTH - RIGHT) / 2}" y="{HEIGHT - 10}" text-anchor="middle">{escape(along)}</text>')
    # in proportion: from the lowest corner, as many decades up as to the right
    steps = min(x.high - x.low, y.high - y.low)
    low, high = (10.0 ** x.low, 10.0 ** y.low), (10.0 ** (x.low + steps), 10.0 ** (y.low + steps))
    parts.append(f'<line class="even" x1="{x.place(low[0]):.1f}" y1="{y.place(low[1]):.1f}" x2="{x.place(high[0]):.1f}" y2="{y.place(high[1]):.1f}"/>')
    parts.append(f'<text class="small" x="{x.place(high[0]) - 4:.1f}" y="{y.place(high[1]) - 6:.1f}" text-anchor="end">in proportion</text>')
    ends = sorted(((y.place(points[-1][1]), place) for place, (_, points) in enumerate(works)))
    label_at = dict(zip([place for _, place in ends], spread([at for at, _ in ends])))
    for place, (name, points) in enumerate(works):
        colour = COLOURS[place % len(COLOURS)]
        shape = " ".join(f"{x.place(n):.1f},{y.place(s):.1f}" for n, s in points)
        parts.append(f'<polyline class="line" stroke="{colour}" points="{shape}"/>')
        parts += [f'<circle cx="{x.place(n):.1f}" cy="{y.place(s):.1f}" r="3" fill="{colour}"/>' for n, s in points]
        last_x, last_y, to_y = x.place(points[-1][0]), y.place(points[-1][1]), label_at[place]
        parts.append(f'<line stroke="{colour}" stroke-width="0.6" x1="{last_x + 4:.1f}" y1="{last_y:.1f}" x2="{WIDTH - RIGHT + 10}" y2="{to_y:.1f}"/>')
        parts.append(f'<text x="{WIDTH - RIGHT + 14}" y="{to_y + 4:.1f}" style="fill: {colour}">{escape(name)}</text>')
    head = f'<svg xmlns="http://www.w3.org/2000/svg" width="{WIDTH}" height="{HEIGHT}" viewBox="0 0 {WIDTH} {HEIGHT}">'
    body = "\n".join(parts)
    return f'{head}\n<title>CPU seconds by {escape(along)}</title>\n<style>{STYLE}</style>\n<rect class="paper" width="{WIDTH}" height="{HEIGHT}"/>\n{body}\n</svg>\n'
