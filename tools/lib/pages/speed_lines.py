"""Draws ratios against numbers of items: a panel a table, a line a row."""

import math

from lib.pages.svg import text

WIDTH, HEIGHT, TOP = 500, 300, 46
LEFT, RIGHT = 44, 180
# The least ratio that a panel shows, the greatest of these that fits, and the most.
LEASTS, MOST = [0.4, 0.08, 0.025], 5.0
MARKS = [(0.05, "1/20"), (0.1, "1/10"), (0.25, "1/4"), (0.5, "1/2"), (1, "1"), (2, "2"), (4, "4")]
COLOURS = ["#1f5fa0", "#c85a14", "#2c8a3d", "#8a3fa0", "#a01f3c", "#5f6f7a", "#b08a00", "#007f86"]


def scale(rows):
    """How far down a ratio stands in a panel of these rows."""
    least = next(it for it in LEASTS if it < min(ratio for _, ratios in rows for ratio in ratios))

    def down(ratio):
        return TOP + HEIGHT * (1 - (math.log(ratio) - math.log(least)) / (math.log(MOST) - math.log(least)))

    return least, down


def across(columns):
    """Where the numbers of items stand, by their logarithms."""
    sizes = [math.log(int(column.replace(",", ""))) for column in columns]
    return [LEFT + (WIDTH - LEFT - RIGHT) * (it - sizes[0]) / (sizes[-1] - sizes[0]) for it in sizes]


def spread(wanted, gap):
    """Heights as near to the wanted ones as they can be with this gap between any two."""
    order = sorted(range(len(wanted)), key=lambda it: wanted[it])
    heights = [wanted[it] for it in order]
    for _ in range(200):
        for at in range(len(heights) - 1):
            over = (gap - (heights[at + 1] - heights[at])) / 2
            if over > 0:
                heights[at] -= over
                heights[at + 1] += over
        heights = [min(max(it, TOP + 6), TOP + HEIGHT + 4) for it in heights]
    return {order[at]: heights[at] for at in range(len(order))}


def grid(columns, least, up):
    for ratio, name in (mark for mark in MARKS if mark[0] > least):
        colour, width = ("#222", 1.6) if ratio == 1 else ("#ddd", 1)
        yield (f'<line x1="{LEFT}" x2="{WIDTH - RIGHT}" y1="{up(ratio):.1f}" y2="{up(ratio):.1f}" stroke="{colour}" '
               f'stroke-width="{width}"/>')
        yield text(LEFT - 6, up(ratio) + 4, name, "small", "end")
    for x, column in zip(across(columns), columns):
        yield text(x, TOP + HEIGHT + 18, column, "small", "middle")
    yield text(WIDTH - RIGHT + 44, TOP + HEIGHT + 18, "items", "small")


def line(at, columns, ratios, up):
    """A row's line, with a dot at each number of items; every other one is dashed, so that colours need not be told apart."""
    colour, dash = COLOURS[at % len(COLOURS)], ' stroke-dasharray="6 3"' if at % 2 else ""
    points = [(x, up(ratio)) for x, ratio in zip(across(columns), ratios)]
    places = " ".join(f"{x:.1f},{y:.1f}" for x, y in points)
    yield f'<polyline points="{places}" fill="none" stroke="{colour}" stroke-width="2"{dash}/>'
    yield from (f'<circle cx="{x:.1f}" cy="{y:.1f}" r="3" fill="{colour}"/>' for x, y in points)


def panel(title, columns, rows):
    """The marks of a panel, from 0, 0 on: rows are names with ratios."""
    least, up = scale(rows)
    ends = spread([up(ratios[-1]) for _, ratios in rows], 15)
    last = [f"{name} {ratios[-1]:.{1 if ratios[-1] > 0.095 else 2}f}" for name, ratios in rows]
    names = [text(WIDTH - RIGHT + 10, ends[at] + 4, words, "small", colour=COLOURS[at % len(COLOURS)])
             for at, words in enumerate(last)]
    lines = [mark for at, (_, ratios) in enumerate(rows) for mark in line(at, columns, ratios, up)]
    heads = [text(LEFT, 20, title, "title"), text(LEFT, 37, "our time ÷ theirs: above 1 we are slower", "small")]
    return [*heads, *grid(columns, least, up), *lines, *names]
