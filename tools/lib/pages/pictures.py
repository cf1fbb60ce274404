"""Draws key.svg of README.md, and layers.svg, crates.svg, index.svg and chain.svg of docs/ARCHITECTURE.md.

    tools/pages pictures            writes them
    tools/pages pictures --check    fails where one of them isn't as it is drawn

crates.svg is drawn from crates.txt, without the crates that only call others: a line leads from a crate to each that it
stands on, but for those that it reaches over another one. No text is smaller than 12 pixels.
"""

from lib.pages import svg
from lib.pages.made import run_maker
from lib.repository import TOP, crates_in

PROVED, TESTED, TRUSTED, PLAIN = "#dbe9f7", "#fbe7c6", "#e4e4e4", "#ffffff"
STYLE = "text { font: 13px sans-serif; fill: #222 } .small { font-size: 12px; fill: #444 } .title { font-weight: bold }"
LINE = 17
# The crates that nothing stands on but examples: they call the others.
CALLERS = {"uses", "table_uses", "iddqd_examples", "tracker"}


def text(x, y, words, kind="", anchor="middle"):
    return svg.text(x, y, words, kind, anchor)


def box(x, y, width, height, colour, *lines, kind=""):
    """A box with lines of text in its middle; the first one is of the given kind."""
    top = y + height / 2 - LINE * (len(lines) - 1) / 2 + 4.5
    words = [text(x + width / 2, top + LINE * at, line, "small" if at else kind) for at, line in enumerate(lines)]
    rect = f'<rect x="{x}" y="{y}" width="{width}" height="{height}" rx="4" fill="{colour}" stroke="#555"/>'
    return "\n".join([rect, *words])


def line(x1, y1, x2, y2, kind=""):
    return f'<line x1="{x1}" y1="{y1}" x2="{x2}" y2="{y2}" stroke="#555"{kind}/>'


def arrow(x1, y1, x2, y2):
    return line(x1, y1, x2, y2, ' marker-end="url(#tip)"')


def picture(width, height, title, *marks):
    tip = ('<defs><marker id="tip" viewBox="0 0 8 8" refX="7" refY="4" markerWidth="8" markerHeight="8" orient="auto">'
           '<path d="M0 0 L8 4 L0 8 z" fill="#555"/></marker></defs>')
    return svg.picture(width, height, title, STYLE, tip, *marks)


def table(x, y, widths, rows, colours):
    """Rows of cells, the columns of these widths and colours."""
    return [box(x + sum(widths[:at]), y + 30 * row, widths[at], 30, colours[at], cell)
            for row, cells in enumerate(rows) for at, cell in enumerate(cells)]


def key_picture():
    """A key beside each value, and a key in each item."""
    return picture(
        860, 226, "A key that is stored twice, and one that is stored once",
        text(20, 30, "HashMap<u32, Session>: a key is stored twice", "title", "start"),
        text(75, 58, "key", "small"), text(242, 58, "value", "small"),
        *table(20, 66, [110, 125, 100], [["7", "id 7", "user 100"], ["9", "id 9", "user 200"], ["4", "id 4", "user 100"]],
               [TESTED, TESTED, PLAIN]),
        text(440, 30, "IdHashMap<Session>: a key is stored once, in its item", "title", "start"),
        text(495, 58, "hash, index", "small"), text(710, 58, "index, item", "small"),
        *table(440, 66, [110], [["h(9), 1"], ["h(4), 2"], ["h(7), 0"]], [PLAIN]),
        *table(600, 66, [40, 95, 95], [["0", "id 7", "user 100"], ["1", "id 9", "user 200"], ["2", "id 4", "user 100"]],
               [PLAIN, PROVED, PLAIN]),
        arrow(550, 81, 598, 111), arrow(550, 111, 598, 141), arrow(550, 141, 598, 81),
        text(20, 186, "If a value's id changes, the key stays as it was.", "small", "start"),
        text(440, 186, "The table reads each key where it is. A second key takes a", "small", "start"),
        text(440, 203, "second table, by hash or in order, over the same items.", "small", "start"))


def layers():
    """Who stands on whom, and what is proved of it."""
    rows = [
        (70, [(20, 330, PLAIN, "your program in Rattle", "proved as far as its contracts say"),
              (365, 150, PLAIN, "C, C++, Python", "unproved"), (530, 150, TESTED, "Rust crate", "tested")]),
        (140, [(20, 330, PROVED, "maps: IdHashMap, IdOrdMap, Map by any mix, ..", "KeyedItems, TriItems, the program keyed"),
               (365, 315, PROVED, "functions for C", "iddqd_c")]),
        (210, [(20, 660, PROVED, "key indexes: a table by a key, beside a store", "ByHash, ByOrder, ByHashMulti, ByOrderMulti, Pair")]),
        (280, [(20, 210, PROVED, "ItemSet", "the store"), (245, 210, PROVED, "MapHashTable", "indexes under hashes"),
               (470, 210, PROVED, "MapBTreeTable", "indexes in an order")]),
        (350, [(20, 660, PROVED, "std of Rattle", "comes with the toolchain, with its proofs")]),
        (420, [(20, 660, TRUSTED, "rattle (compiler and prover), clang and LLVM, the C library", "trusted")]),
    ]
    boxes = [box(x, y, width, 56, colour, *words) for y, row in rows for x, width, colour, *words in row]
    keys = [(20, PROVED, "proved"), (120, TESTED, "tested"), (220, TRUSTED, "trusted"), (320, PLAIN, "whoever writes it")]
    legend = [box(x, 24, 18, 18, colour) + text(x + 26, 38, words, "", "start") for x, colour, words in keys]
    return picture(700, 496, "The layers, and what is proved of each", *legend, *boxes)


def reached(name, crates):
    """All that a crate stands on, through others too."""
    return {name} | {below for it in crates[name] for below in reached(it, crates)}


def direct(name, crates):
    """The crates that a crate stands on, and that none of the others among these stands on."""
    return [it for it in crates[name] if not any(it in reached(other, crates) for other in crates[name] if other != it)]


def crate_rows(crates):
    """The crates by level, lowest first: a crate stands a level below the lowest that stands on it."""
    depth = {}
    while len(depth) < len(crates):
        for name in crates:
            users = [it for it in crates if name in crates[it]]
            if all(it in depth for it in users):
                depth[name] = 1 + max((depth[it] for it in users), default=-1)
    return [[name for name in crates if depth[name] == at] for at in range(max(depth.values()), -1, -1)]


def ordered(rows, near):
    """The rows, each sorted by where the neighbours of its crates stand, so that few lines cross."""
    at = {name: (column + 0.5) / len(row) for row in rows for column, name in enumerate(row)}
    for turn in range(12):
        for row in rows if turn % 2 else rows[::-1]:
            mean = {name: sum(at[it] for it in near[name]) / len(near[name]) for name in row if near[name]}
            row.sort(key=lambda name: mean.get(name, at[name]))
            at.update({name: (column + 0.5) / len(row) for column, name in enumerate(row)})
    return at


def crates_picture():
    crates = {name: low for name, low in crates_in(f"{TOP}/crates.txt").items() if name not in CALLERS}
    rows, low = crate_rows(crates), {name: direct(name, crates) for name in crates}
    near = {name: [*low[name], *(it for it in crates if name in low[it])] for name in crates}
    across, width, high, gap = ordered(rows, near), 960, 30, 70
    place = {name: (round(width * across[name]), 40 + gap * at) for at, row in enumerate(rows[::-1]) for name in row}
    lines = [line(place[name][0], place[name][1] + high, *place[it]) for name in crates for it in low[name]]
    wide = {name: 8 * len(name) + 14 for name in crates}
    boxes = [box(x - wide[name] // 2, y, wide[name], high, PROVED, name) for name, (x, y) in place.items()]
    told = text(width / 2, 22, "Each crate stands on those to which a line leads down", "small")
    return picture(width, 20 + gap * len(rows), "The crates", told, *lines, *boxes)


def index_picture():
    """What becomes of an index."""
    return picture(
        700, 250, "The life of an index",
        box(20, 90, 150, 56, PLAIN, "not used yet", "number ≥ slot count"),
        box(280, 90, 150, 56, PROVED, "live", "names one item"),
        box(540, 90, 140, 56, TRUSTED, "vacant", "linked in a chain"),
        arrow(170, 108, 278, 108), text(224, 82, "insert: the next", "small"), text(224, 98, "number", "small"),
        arrow(430, 108, 538, 108), text(484, 98, "remove", "small"),
        arrow(540, 134, 432, 134), text(486, 168, "insert: the index", "small"), text(486, 184, "freed last comes first", "small"),
        '<path d="M 320 90 C 300 40, 410 40, 390 88" fill="none" stroke="#555" marker-end="url(#tip)"/>',
        text(355, 32, "modify, replace, change: it stays", "small"),
        arrow(355, 146, 355, 196), text(355, 214, "compact: live indexes become 0, 1, 2, .. in their order; no slot is vacant", "small"),
        text(355, 232, "clear: no slot is used", "small"))


def chain_picture():
    """Three items that share a key, in a LinkedTable."""
    slots = [("", "", ""), ("h", "4", "6"), ("", "", ""), ("", "", ""), ("h", "-", "1"), ("", "", ""), ("h", "1", "-")]
    left, wide, high, top = 230, 62, 28, 120
    bottom, cells = top + 3 * high, []
    for at, cell in enumerate(slots):
        x, colour = left + wide * at, PROVED if cell[0] else PLAIN
        cells += [text(x + wide // 2, top - 8, str(at), "small"),
                  *(box(x, top + high * row, wide, high, colour, words) for row, words in enumerate(cell))]
    names = [text(left - 10, top - 8, "slot", "small", "end"),
             *(text(left - 10, top + high * row + 19, name, "small", "end") for row, name in enumerate(("hash", "before", "behind")))]
    return picture(
        700, 280, "A chain of equal keys",
        text(20, 34, "hash table", "title", "start"), box(20, 44, 150, 30, PROVED, "hash h: head 4"),
        text(left, 34, "links, one for each slot of the store", "title", "start"),
        text(left, 52, "The items 4, 1 and 6 share a key with the hash h.", "small", "start"), *names, *cells,
        f'<path d="M 170 66 C 330 66, 509 66, 509 {top - 22}" fill="none" stroke="#555" marker-end="url(#tip)"/>',
        *(f'<path d="M {left + wide * a + 31} {bottom} C {left + wide * a + 31} {bottom + deep}, {left + wide * b + 31 + near} {bottom + deep}, '
          f'{left + wide * b + 31 + near} {bottom + 2}" fill="none" stroke="#555" marker-end="url(#tip)"/>'
          for a, b, near, deep in ((4, 1, 8, 40), (1, 6, 0, 66))))


def made():
    """The pictures by their paths."""
    pictures = {"key": key_picture, "layers": layers, "crates": crates_picture, "index": index_picture, "chain": chain_picture}
    return {f"docs/{name}.svg": draw() for name, draw in pictures.items()}


def run(words):
    run_maker(__doc__, words, made, "isn't as it is drawn: run tools/pages pictures")
