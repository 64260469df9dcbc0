"""Plots as SVG: times by the size of a trace, and what the edits of sessions cost."""

import math

WIDTH, HEIGHT, LEFT, TOP, RIGHT, BOTTOM = 760, 420, 60, 30, 150, 40
COLORS = ["#1b6ca8", "#c0392b", "#2e8b57", "#8e44ad", "#b9770e", "#566573", "#111111", "#7f6000", "#d81b60", "#00838f"]


def scale(values, low, high):
    """A function from a value to a place between low and high, by logarithms over whole decades."""
    first, last = math.floor(math.log10(min(values))), math.ceil(math.log10(max(values)))
    return (lambda value: low + (math.log10(value) - first) / (last - first) * (high - low)), range(first, last + 1)


def line(points, color, dashes):
    path = " ".join(f"{x:.1f},{y:.1f}" for x, y in points)
    return f'<polyline points="{path}" fill="none" stroke="{color}" stroke-width="2"{dashes}/>'


def text(x, y, what, anchor="start", color="#333333"):
    return f'<text x="{x:.1f}" y="{y:.1f}" text-anchor="{anchor}" fill="{color}">{what}</text>'


def frame(y, decades, unit):
    """The parts that a plot begins with: the ground, and a line at each decade."""
    parts = [f'<svg xmlns="http://www.w3.org/2000/svg" width="{WIDTH}" height="{HEIGHT}" font-family="sans-serif" font-size="12">']
    parts.append(f'<rect width="{WIDTH}" height="{HEIGHT}" fill="white"/>')
    for decade in decades:
        at = y(10**decade)
        parts.append(f'<line x1="{LEFT}" y1="{at:.1f}" x2="{WIDTH - RIGHT}" y2="{at:.1f}" stroke="#dddddd"/>')
        parts.append(text(LEFT - 6, at + 4, f"{10**decade:g}{unit}", "end"))
    return parts


def plotted(series):
    """The plot of a list of names, each with its rows of size, the program's seconds and the baseline's. Both axes are logarithmic. A line is solid
    for the program, and dashed for the baseline."""
    rows = [row for _, rows in series for row in rows]
    x, _ = scale([size for size, _, _ in rows], LEFT, WIDTH - RIGHT)
    y, decades = scale([seconds for row in rows for seconds in row[1:]], HEIGHT - BOTTOM, TOP)
    parts = frame(y, decades, " s")
    for size in sorted({size for size, _, _ in rows}):
        parts.append(text(x(size), HEIGHT - BOTTOM + 18, f"{size:,}", "middle"))
    for place, (name, rows) in enumerate(series):
        color = COLORS[place % len(COLORS)]
        parts.append(line([(x(size), y(ours)) for size, ours, _ in rows], color, ""))
        parts.append(line([(x(size), y(theirs)) for size, _, theirs in rows], color, ' stroke-dasharray="4 4"'))
        parts.append(text(WIDTH - RIGHT + 12, TOP + 18 * place + 12, name, color=color))
    parts.append(text(LEFT, 18, "seconds by operations of a trace; dashed: the baseline"))
    return "\n".join(parts + ["</svg>"]) + "\n"


def ranked(series):
    """The plot of a list of names, each with what the edits of a session cost, the cheapest first: in replays of the whole trace, logarithmic, by the
    share of the session's edits that cost at most as much."""
    y, decades = scale([cost for _, costs in series for cost in costs], HEIGHT - BOTTOM, TOP)
    parts = frame(y, decades, "")
    parts.append(f'<line x1="{LEFT}" y1="{y(1):.1f}" x2="{WIDTH - RIGHT}" y2="{y(1):.1f}" stroke="#333333" stroke-dasharray="2 3"/>')
    for percent in range(0, 101, 25):
        parts.append(text(LEFT + (WIDTH - RIGHT - LEFT) * percent / 100, HEIGHT - BOTTOM + 18, f"{percent}%", "middle"))
    for place, (name, costs) in enumerate(series):
        color = COLORS[place % len(COLORS)]
        points = [(LEFT + (WIDTH - RIGHT - LEFT) * (rank + 0.5) / len(costs), y(cost)) for rank, cost in enumerate(costs)]
        parts.append(line(points, color, ""))
        parts.append(text(WIDTH - RIGHT + 12, TOP + 18 * place + 12, name, color=color))
    parts.append(text(LEFT, 18, "instructions of an edit, in plain replays of the whole trace, by the share of edits that cost at most as much"))
    return "\n".join(parts + ["</svg>"]) + "\n"
