"""Draws the benchmark as an SVG picture: a bar for each row, and two charts of
growth. All lengths are in points; instructions are on a logarithmic scale."""
import math
import os
from xml.sax.saxutils import escape

COLOURS = {"product": "#1b6ca8", "quick": "#e08a1e", "machine": "#666666"}
DASHES = ("", "6 3", "2 3", "8 3 2 3")
WIDTH, LEFT, TOP = 900, 270, 50
BAR, GAP = 9, 6
CHART_WIDTH, CHART_HEIGHT = 300, 250


def text(x, y, words, size=11, anchor="start", colour="#222222"):
    return (f'<text x="{x:.1f}" y="{y:.1f}" font-size="{size}" '
            f'text-anchor="{anchor}" fill="{colour}">{escape(words)}</text>')


def line(x1, y1, x2, y2, colour="#dddddd"):
    return (f'<line x1="{x1:.1f}" y1="{y1:.1f}" x2="{x2:.1f}" y2="{y2:.1f}" '
            f'stroke="{colour}"/>')


class Scale:
    """A logarithmic scale from whole powers of ten onto a length."""

    def __init__(self, numbers, start, length):
        self.low = math.floor(math.log10(min(numbers)))
        self.high = max(math.ceil(math.log10(max(numbers))), self.low + 1)
        self.start, self.length = start, length

    def __call__(self, number):
        part = (math.log10(number) - self.low) / (self.high - self.low)
        return self.start + part * self.length

    def powers(self):
        return [10 ** p for p in range(self.low, self.high + 1)]


def bars(rows, parts):
    """The bars of all rows; gives the height where they end."""
    costs = [c for _, by_name in rows for c in by_name.values()]
    scale = Scale(costs, LEFT, WIDTH - LEFT - 70)
    height = sum(BAR * len(by_name) + GAP for _, by_name in rows)
    for power in scale.powers():
        x = scale(power)
        parts.append(line(x, TOP, x, TOP + height))
        parts.append(text(x, TOP - 6, f"{power:,}", 10, "middle", "#666666"))
    y = TOP
    for name, by_name in rows:
        middle = y + BAR * len(by_name) / 2 + 4
        parts.append(text(LEFT - 8, middle, name, 11, "end"))
        for implementation, cost in by_name.items():
            width = max(scale(cost) - LEFT, 1)
            parts.append(f'<rect x="{LEFT}" y="{y:.1f}" width="{width:.1f}" '
                         f'height="{BAR - 1}" '
                         f'fill="{COLOURS[implementation]}"/>')
            parts.append(text(LEFT + width + 4, y + BAR - 1, f"{cost:,.0f}",
                              9))
            y += BAR
        y += GAP
    return y


def spread(costs, least):
    """Heights of the names beside the lines, no two nearer than least."""
    placed, order = {}, sorted(range(len(costs)), key=lambda i: costs[i])
    last = -1e9
    for i in order:
        last = placed[i] = max(costs[i], last + least)
    return placed


def chart(left, top, growth, parts):
    """A chart of growth: one line for each row and implementation."""
    what, sizes, lines = growth
    across = Scale(sizes, left, CHART_WIDTH)
    across.low, across.high = math.log10(sizes[0]), math.log10(sizes[-1])
    up = Scale([c for _, _, costs in lines for c in costs],
               top + CHART_HEIGHT, -CHART_HEIGHT)
    parts.append(text(left, top - 14, f"instructions against {what}", 12))
    for power in up.powers():
        parts.append(line(left, up(power), left + CHART_WIDTH, up(power)))
        parts.append(text(left - 6, up(power) + 4, f"{power:,}", 9, "end"))
    for size in sizes:
        parts.append(text(across(size), top + CHART_HEIGHT + 14, str(size),
                          9, "middle"))
    ends = spread([up(costs[-1]) for _, _, costs in lines], 11)
    names = []
    for i, (name, implementation, costs) in enumerate(lines):
        if name not in names:
            names.append(name)
        points = " ".join(f"{across(s):.1f},{up(c):.1f}"
                          for s, c in zip(sizes, costs))
        colour = COLOURS[implementation]
        dash = DASHES[names.index(name) % len(DASHES)]
        parts.append(f'<polyline points="{points}" fill="none" '
                     f'stroke="{colour}" stroke-width="2" '
                     f'stroke-dasharray="{dash}"/>')
        parts.append(text(left + CHART_WIDTH + 4, ends[i] + 3, name, 8,
                          "start", colour))


def legend(implementations, parts):
    x = LEFT
    for name in implementations:
        parts.append(f'<rect x="{x}" y="14" width="10" height="10" '
                     f'fill="{COLOURS[name]}"/>')
        parts.append(text(x + 15, 23, name, 12))
        x += 90
    parts.append(text(16, 23, "x86-64 instructions per call", 13))


def write(path, rows, records, levels):
    """Writes the picture of the rows and of both growths."""
    parts = []
    shown = [name for name in COLOURS
             if any(name in by_name for _, by_name in rows)]
    legend(shown, parts)
    end = bars(rows, parts) + 50
    chart(60, end, records, parts)
    chart(540, end, levels, parts)
    height = end + CHART_HEIGHT + 30
    os.makedirs(os.path.dirname(os.path.abspath(path)), exist_ok=True)
    with open(path, "w", encoding="utf-8") as file:
        file.write(f'<svg xmlns="http://www.w3.org/2000/svg" '
                   f'width="{WIDTH + 60}" height="{height:.0f}" '
                   f'font-family="sans-serif">\n'
                   '<rect width="100%" height="100%" fill="#ffffff"/>\n'
                   + "\n".join(parts) + "\n</svg>\n")
