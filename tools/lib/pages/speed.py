"""Draws the pictures of docs/SPEED.md from its tables whose first cell has a `÷`.

    tools/pages speed            writes the pictures
    tools/pages speed --check    fails where one of them isn't what the tables make

docs/speed.svg has a panel for each of four tables, with a line for each row against the number of items.
docs/speed-tables.svg has bars for the tables of the section "The tables alone". A table is a peer and has a colour, and
a row's name is a group of bars: columns are numbers of items, paler for fewer.
"""

import math
import re
from collections import namedtuple

from lib.pages import speed_lines
from lib.repository import TOP, read
from lib.pages.made import run_maker
from lib.pages.svg import group, picture, text

# The tables that have a panel of lines, by the ends of their first cells.
PANELS = ["÷ std's HashMap", "÷ std's BTreeMap", "÷ Boost.MultiIndex", "÷ sqlite in memory"]
WIDTH, NAMES, MARGIN = 520, 180, 16
BAR, GAP, LINE = 11, 10, 16
LEAST, MOST = 0.25, 6.0
PANEL_HEIGHT = speed_lines.TOP + speed_lines.HEIGHT + 40
HUES = [(31, 95, 160), (200, 90, 20)]
STYLE = "text { font: 12px sans-serif; fill: #222 } .small { font-size: 11px; fill: #444 } .title { font: bold 14px sans-serif }"

# A series of bars: its peer, its column's name, its colour, and its figures by load.
Series = namedtuple("Series", "peer column colour figures")


def tables(section):
    """The tables of a section: each a list of rows of cells."""
    for block in re.findall(r"(?:^\|.*\n)+", section, re.M):
        rows = [[cell.strip().replace("`", "") for cell in line.strip("|").split("|")] for line in block.splitlines()]
        yield [rows[0], *rows[2:]]


def shade(hue, part):
    """A colour between white, at 0, and the hue, at 1."""
    return "#" + "".join(f"{round(255 + (it - 255) * part):02x}" for it in hue)


def series_of(section):
    found, peers = [], 0
    for head, *rows in tables(section):
        if "÷" not in head[0]:
            continue
        columns = head[1:]
        for at, column in enumerate(columns):
            by_peer = head[0].endswith("÷")
            peer, size = (f"{head[0]} {column}", "") if by_peer else (head[0], column)
            colour = shade(HUES[at if by_peer else peers], 1 if by_peer else 0.4 + 0.6 * at / max(1, len(columns) - 1))
            found.append(Series(peer, size, colour, {row[0]: row[at + 1] for row in rows}))
        peers += 1
    return found


def across(ratio):
    """Where a ratio stands: as far right of 1 as its inverse is left of it."""
    part = (math.log(ratio) - math.log(LEAST)) / (math.log(MOST) - math.log(LEAST))
    return NAMES + part * (WIDTH - NAMES - 3 * MARGIN)


def box(x, y, width, height, colour):
    return f'<rect x="{x:.1f}" y="{y:.1f}" width="{max(width, 0.8):.1f}" height="{height}" fill="{colour}"/>'


def legend(series, y):
    """A line a peer: its boxes and its name."""
    for peer in dict.fromkeys(it.peer for it in series):
        x = NAMES
        own = [it for it in series if it.peer == peer]
        for it in own:
            yield box(x, y - 9, 10, 10, it.colour)
            x += 11
        sizes = ", ".join(it.column.removesuffix(" items").removesuffix(" entries") for it in own if it.column)
        yield text(x + 4, y, peer)
        if sizes:
            y += LINE - 3
            yield text(NAMES, y, f"{sizes} items", "small")
        y += LINE


def legend_height(series):
    return sum(2 * LINE - 3 if any(it.column for it in series if it.peer == peer) else LINE
               for peer in {it.peer for it in series})


def scale(top, bottom):
    """Lines at some ratios, with the one at 1 darker."""
    for ratio, name in [(0.25, "¼"), (0.5, "½"), (1, "1"), (2, "2"), (4, "4")]:
        x = across(ratio)
        colour = "#222" if ratio == 1 else "#ccc"
        yield f'<line x1="{x:.1f}" x2="{x:.1f}" y1="{top}" y2="{bottom}" stroke="{colour}"/>'
        yield text(x, top - 4, name, "small", "middle")
    yield text(across(1) - 14, top - 16, "← we are faster", "small", "end")
    yield text(across(1) + 14, top - 16, "we are slower →", "small")


def bars(load, series, y):
    """The bars of a load, from the line at 1 to its ratios."""
    yield text(NAMES - 10, y + BAR * len(series) / 2 + 4, load, anchor="end")
    for at, it in enumerate(series):
        ratio, top = float(it.figures[load]), y + at * BAR
        left, right = sorted([across(1), across(ratio)])
        yield box(left, top, right - left, BAR - 1, it.colour)
        x, anchor = (right + 3, "start") if ratio >= 1 else (left - 3, "end")
        yield text(x, top + BAR - 1.5, it.figures[load], "small", anchor)


def panel(title, series):
    """A panel's height and its marks, from 0, 0 on."""
    marks = [text(NAMES, 14, title, "title"), *legend(series, 34)]
    top = 34 + legend_height(series) + 22
    y, drawn = top + GAP / 2, []
    for load in dict.fromkeys(load for it in series for load in it.figures):
        own = [it for it in series if load in it.figures]
        drawn += bars(load, own, y)
        y += BAR * len(own) + GAP
    return y + MARGIN, [*marks, *scale(top, y), *drawn]


def bars_of(page):
    """The bars of the tables alone, a panel for each peer's page of loads."""
    section = re.search(r"(?ms)^## The tables alone\n(.*?)(?=^## |\Z)", page)[1]
    heights, parts = [MARGIN, MARGIN], []
    for side, (title, words) in enumerate([("The table of hashes", "hashbrown"), ("The ordered table", "std's")]):
        blocks = [block for block in section.split("\n\n") if block.startswith("|") and words in block.split("\n")[0]]
        own = "\n\n".join(block.strip() + "\n" for block in blocks)
        height, marks = panel(title, series_of(own))
        parts.append(group(side * WIDTH, MARGIN, marks))
        heights[side] += height
    return picture(2 * WIDTH, round(max(heights)), "Our tables beside hashbrown's and std's", STYLE, *parts)


def lines_of(page):
    """The four panels of lines; of two tables with one peer the first."""
    parts, found = [], [table for table in tables(page) if "÷" in table[0][0]]
    for at, words in enumerate(PANELS):
        head, *rows = next(table for table in found if table[0][0].endswith(words))
        columns = [column.removesuffix(" items").removesuffix(" entries") for column in head[1:]]
        marks = speed_lines.panel(head[0], columns, [(row[0], [float(it) for it in row[1:]]) for row in rows])
        x, y = MARGIN + at % 2 * speed_lines.WIDTH, MARGIN + at // 2 * PANEL_HEIGHT
        parts.append(group(x, y, marks))
    width, height = 2 * speed_lines.WIDTH + 2 * MARGIN, 2 * PANEL_HEIGHT + MARGIN
    return picture(width, height, "Our time divided by that of each peer", STYLE, *parts)


def made():
    """The pictures by their paths."""
    page = read(f"{TOP}/docs/SPEED.md")
    return {"docs/speed.svg": lines_of(page), "docs/speed-tables.svg": bars_of(page)}


def run(words):
    run_maker(__doc__, words, made, "isn't what the tables of docs/SPEED.md make: run tools/pages speed")
