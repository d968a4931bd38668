#!/usr/bin/env python3
"""Draws docs/phases.svg, the data's way through the phases with the crates of each, and docs/crates.svg, which crate
stands on which. Both are drawn from crates.txt: run it again where that changes.

    python3 docs/crates.py [CRATES.TXT]
"""

import html
import pathlib
import sys

DOCS = pathlib.Path(__file__).resolve().parent
WIDTH = 860
FONT = "font-family='Helvetica, Arial, sans-serif'"
MONO = "font-family='Menlo, Consolas, monospace'"

# Fill and line of each colour.
COLOURS = {
    "meaning": ("#eef2ff", "#4f5fb8"),
    "blocks": ("#ecfdf5", "#2f8f63"),
    "maker": ("#fff7ed", "#c2762c"),
    "lists": ("#fdf2f8", "#b0457f"),
    "calls": ("#f3f4f6", "#5b6472"),
}

# Every crate has a phase. Key: the phase's title, its colour, its crates.
PHASES = {
    "means": ("What it means", "meaning", ["meaning", "basics"]),
    "follows": ("What follows from it", "meaning", ["theorems"]),
    "read": ("Reading a block", "blocks", ["reader"]),
    "write": ("Writing a block", "blocks", ["writer"]),
    "run": ("Running a block", "blocks", ["run_block", "memory", "word", "slices"]),
    "facts": ("Facts of statements", "maker", ["facts", "codes", "rows"]),
    "reach": ("Dependence", "maker", ["reach"]),
    "pairs": ("Pairs, seeding", "maker", ["pairs"]),
    "extend": ("Extension, estimate", "maker", ["extend", "estimate"]),
    "combine": ("Combination", "maker", ["combine", "units"]),
    "schedule": ("Schedule", "maker", ["schedule"]),
    "emit": ("Emission", "maker", ["emit", "fetch", "lanes", "registers", "encode", "encode_lanes"]),
    "choice": ("Choice; all in turn", "maker", ["choice", "phases", "maker"]),
    "list": ("Reading a list: 8, 9", "lists", ["lists", "rules", "instructions"]),
    "card": ("Running a list", "lists", ["run_list", "card"]),
    "calls": ("The five calls", "calls", ["nephinor_c", "nephinor", "table"]),
    "beside": ("Side by side", "calls", ["beside"]),
    "course": ("How it came about", "calls", ["account", "account_lengths", "course", "account_statements", "account_units", "account_list"]),
    "program": ("The programs", "calls", ["list", "compare", "explain", "comparison", "ends", "answers", "named", "text", "streams"]),
}


def read_crates(path):
    """The crates with what each names as its dependencies."""
    crates = {}
    for line in path.read_text().splitlines():
        line = line.split("#")[0].strip()
        if line:
            head, _, names = line.partition(":")
            # behind the name may stand what kind of crate it is
            crates[head.split()[0]] = names.split()
    return {name: [d for d in names if d in crates] for name, names in crates.items()}


class Picture:
    def __init__(self):
        self.parts = []

    def add(self, part):
        self.parts.append(part)

    def text(self, x, y, words, size=13, anchor="middle", colour="#1f2937", font=FONT, weight="normal"):
        self.add(
            f"<text x='{x:g}' y='{y:g}' font-size='{size}' text-anchor='{anchor}' fill='{colour}' "
            f"font-weight='{weight}' {font}>{html.escape(words)}</text>"
        )

    def box(self, x, y, width, height, colour, round_by=6, dashed=False):
        fill, line = COLOURS[colour]
        dash = " stroke-dasharray='4 3'" if dashed else ""
        self.add(
            f"<rect x='{x:g}' y='{y:g}' width='{width:g}' height='{height:g}' rx='{round_by}' fill='{fill}' "
            f"stroke='{line}' stroke-width='1.3'{dash}/>"
        )

    def arrow(self, path, label=None, at=None):
        self.add(f"<path d='{path}' fill='none' stroke='#374151' stroke-width='1.6' marker-end='url(#head)'/>")
        if label:
            for number, line in enumerate(label.split("\n")):
                self.text(at[0], at[1] + 12 * number, line, size=11, colour="#374151")

    def write(self, path, height, title):
        head = (
            f"<svg xmlns='http://www.w3.org/2000/svg' viewBox='0 0 {WIDTH} {height}' width='{WIDTH}' height='{height}' role='img'>\n"
            f"<title>{html.escape(title)}</title>\n"
            "<defs><marker id='head' viewBox='0 0 8 8' refX='7' refY='4' markerWidth='7' markerHeight='7' orient='auto'>"
            "<path d='M0 0 L8 4 L0 8 z' fill='#374151'/></marker></defs>\n"
            f"<rect width='{WIDTH}' height='{height}' rx='8' fill='#ffffff'/>\n"
        )
        path.write_text(head + "\n".join(self.parts) + "\n</svg>\n")


# ---- The data's way ----

CARD = 150
LINE = 15


class Phases(Picture):
    def __init__(self, crates):
        super().__init__()
        self.crates = crates
        self.places = {}

    def card(self, key, x, y, columns=1, width=CARD):
        """A phase with its crates; a crate that crates.txt does not have yet is pale. Its place is kept for arrows."""
        title, colour, names = PHASES[key]
        rows = -(-len(names) // columns)
        height = 28 + LINE * rows
        self.box(x, y, width, height, colour, dashed=not any(name in self.crates for name in names))
        self.text(x + width / 2, y + 17, title, size=12, weight="bold")
        for number, name in enumerate(names):
            column, row = number // rows, number % rows
            middle = x + width * (2 * column + 1) / (2 * columns)
            colour = "#1f2937" if name in self.crates else "#9ca3af"
            self.text(middle, y + 33 + LINE * row, name, size=11, font=MONO, colour=colour)
        self.places[key] = (x, y, width, height)

    def pill(self, key, words, x, y, width=112):
        lines = words.split("\n")
        height = 16 + 14 * len(lines)
        self.add(
            f"<rect x='{x:g}' y='{y:g}' width='{width}' height='{height}' rx='{height / 2:g}' fill='#ffffff' "
            "stroke='#374151' stroke-width='1.3'/>"
        )
        for number, line in enumerate(lines):
            self.text(x + width / 2, y + 19 + 14 * number, line, size=12)
        self.places[key] = (x, y, width, height)

    def right(self, one, other, level, label=None):
        """An arrow from one place to the next on its right."""
        x, _, width, _ = self.places[one]
        to = self.places[other]
        self.arrow(f"M{x + width:g} {level:g} H{to[0] - 2:g}", label, ((x + width + to[0]) / 2, level - 6))

    def back(self, one, other, label):
        """An arrow from the end of a row to the beginning of the next."""
        x, y, width, height = self.places[one]
        to = self.places[other]
        between = to[1] - 20
        start, end = x + width / 2, to[0] + to[2] / 2
        self.arrow(f"M{start:g} {y + height:g} V{between:g} H{end:g} V{to[1] - 2:g}", label, ((start + end) / 2, between - 5))

    def heading(self, y, words):
        self.text(20, y, words, size=14, anchor="start", weight="bold", colour="#111827")


def draw_phases(crates):
    p = Phases(crates)
    columns = [20, 243, 466, 689]

    p.heading(30, "The definitions, which all else is proved to meet")
    p.card("means", columns[0], 42)
    p.card("follows", columns[1], 42)
    p.right("means", "follows", 64)

    p.heading(128, "Blocks: the workstation")
    p.pill("bytes", "bytes\nof a block", 20, 144, 100)
    p.card("read", 160, 144)
    p.pill("block", "block\nin memory", 350, 144, 100)
    p.card("run", 490, 130)
    p.pill("contents", "variables\nand cells", 680, 144, 100)
    for one, other in [("bytes", "read"), ("read", "block"), ("block", "run"), ("run", "contents")]:
        p.right(one, other, 166)
    p.card("write", 160, 203)
    p.arrow("M385 188 V225 H312")
    p.arrow("M160 225 H70 V190")

    p.heading(278, "The maker: from a block to its list")
    top, bottom = 312, 434
    p.arrow(f"M418 188 V292 H{columns[0] + CARD / 2:g} V{top - 2}")
    p.card("facts", columns[0], top)
    p.card("reach", columns[1], top)
    p.card("pairs", columns[2], top)
    p.card("extend", columns[3], top)
    p.right("facts", "reach", top + 22, "facts")
    p.right("reach", "pairs", top + 22, "paths")
    p.right("pairs", "extend", top + 22, "pairs")
    p.card("combine", columns[0], bottom)
    p.card("schedule", columns[1], bottom)
    p.card("emit", columns[2] - 13, bottom, columns=2, width=CARD + 26)
    p.card("choice", columns[3], bottom)
    p.back("extend", "combine", "all pairs, in order of admission")
    p.right("combine", "schedule", bottom + 22, "units")
    p.right("schedule", "emit", bottom + 22, "in order")
    p.right("emit", "choice", bottom + 22, "packed")

    p.heading(558, "Lists: the card")
    p.pill("list bytes", "bytes\nof a list", 20, 584, 100)
    p.card("list", 160, 570)
    p.card("card", 350, 577)
    p.pill("list contents", "variables\nand cells", 540, 584, 100)
    p.arrow(
        f"M{columns[3] + CARD / 2:g} {bottom + 73} V532 H6 V606 H18",
        "the packed list, or the block's own statements where they cost no more",
        (430, 526),
    )
    for one, other in [("list bytes", "list"), ("list", "card"), ("card", "list contents")]:
        p.right(one, other, 606)

    p.heading(678, "What callers hold")
    p.card("calls", columns[0], 690)
    p.card("beside", columns[1], 690)
    p.card("program", columns[2], 690, columns=2)
    p.card("course", columns[3], 690)
    p.right("calls", "beside", 712)
    p.right("beside", "program", 712)
    p.arrow(f"M{columns[3]} 712 H{columns[2] + CARD + 2:g}")
    p.text(20, 783, "From C the calls are in include/nephinor.h,", size=11, anchor="start")
    p.text(20, 798, "from Rust in rust/nephinor.", size=11, anchor="start")
    p.write(DOCS / "phases.svg", 820, "The data's way through the phases, and the crates of each")


# ---- What stands on what ----

ROW = 62
NODE_HEIGHT = 26
MARGIN = 20
GAP = 20


def all_below(crates, name):
    found = set()
    rest = list(crates[name])
    while rest:
        other = rest.pop()
        if other not in found:
            found.add(other)
            rest += crates[other]
    return found


def steps(crates):
    """The dependencies that no other one implies. Every crate stands on the definitions, so these are drawn only where a
    crate has no other."""
    below = {name: all_below(crates, name) for name in crates}
    everywhere = {"basics", "meaning", "theorems"}
    drawn = {}
    for name, names in crates.items():
        own = [d for d in names if d not in everywhere] if name not in everywhere else names
        own = own or names
        drawn[name] = [d for d in own if not any(d in below[other] for other in own if other != d)]
    return drawn


def layers(crates, drawn):
    """The rows from the bottom up: crates by the longest way down, but next to the only one that stands on them where there is
    one. Beside them, for each crate, those that stand on it."""
    level = {}

    def depth(name):
        if name not in level:
            level[name] = 1 + max((depth(d) for d in drawn[name]), default=-1)
        return level[name]

    above = {name: [other for other in crates if name in drawn[other]] for name in crates}
    for name in sorted(crates, key=depth, reverse=True):
        if len(above[name]) == 1:
            level[name] = level[above[name][0]] - 1
    rows = {}
    for name in crates:
        rows.setdefault(level[name], []).append(name)
    return [rows[number] for number in sorted(rows)], above


def settle(row, wanted, width):
    """Puts a row's boxes where they are wanted, side by side where they would overlap: as near to it as a push from the left and
    one from the right come on average."""
    row.sort(key=lambda name: wanted[name])

    def gap(one, other):
        return (width[one] + width[other]) / 2 + GAP

    from_left, from_right = [], []
    for number, name in enumerate(row):
        least = from_left[-1] + gap(row[number - 1], name) if number else wanted[name]
        from_left.append(max(wanted[name], least))
    for number, name in reversed(list(enumerate(row))):
        most = from_right[0] - gap(row[number + 1], name) if number + 1 < len(row) else wanted[name]
        from_right.insert(0, min(wanted[name], most))
    return {name: (left + right) / 2 for name, left, right in zip(row, from_left, from_right)}


def arrange(crates, drawn, rows, above, width):
    """Where each box stands: again and again in the middle of those that lines lead to, the rows upwards and downwards in turn."""
    place = {}
    for row in rows:
        for number, name in enumerate(row):
            place[name] = MARGIN + (WIDTH - 2 * MARGIN) * (number + 0.5) / len(row)
    for turn in range(200):
        for row in rows if turn % 2 == 0 else reversed(rows):
            wanted = {}
            for name in row:
                near = drawn[name] + above[name]
                middle = sum(place[other] for other in near) / len(near) if near else place[name]
                wanted[name] = (place[name] + 2 * middle) / 3
            place.update(settle(row, wanted, width))
    left = min(place[name] - width[name] / 2 for name in crates)
    right = max(place[name] + width[name] / 2 for name in crates)
    scale = min(1, (WIDTH - 2 * MARGIN) / (right - left))
    return {name: WIDTH / 2 + (place[name] - (left + right) / 2) * scale for name in crates}


def draw_crates(crates):
    p = Picture()
    drawn = steps(crates)
    rows, above = layers(crates, drawn)
    width = {name: 18 + 7.4 * len(name) for name in crates}
    place = arrange(crates, drawn, rows, above, width)
    colour = {name: phase[1] for phase in PHASES.values() for name in phase[2]}
    height = 84 + ROW * len(rows)
    level = {name: height - 30 - ROW * number - NODE_HEIGHT for number, row in enumerate(rows) for name in row}
    p.text(20, 28, "Each crate stands on those below it that a line leads to.", size=14, anchor="start", weight="bold")
    p.text(
        20,
        46,
        "Nearly all stand on basics, meaning and theorems: lines to these are drawn only where there is no other.",
        size=12,
        anchor="start",
    )
    for name, names in drawn.items():
        x, start = place[name], level[name] + NODE_HEIGHT
        for other in names:
            ox, end = place[other], level[other]
            bend = (end - start) / 2
            p.add(
                f"<path d='M{x:.0f} {start:g} C{x:.0f} {start + bend:g} {ox:.0f} {end - bend:g} {ox:.0f} {end:g}' fill='none' "
                f"stroke='{COLOURS[colour[name]][1]}' stroke-width='1.2' stroke-opacity='0.75'/>"
            )
    for name in crates:
        p.box(round(place[name] - width[name] / 2), level[name], width[name], NODE_HEIGHT, colour[name])
        p.text(round(place[name]), level[name] + 17, name, size=12, font=MONO)
    p.write(DOCS / "crates.svg", height, "Which crate stands on which")


def main():
    path = pathlib.Path(sys.argv[1]) if len(sys.argv) > 1 else DOCS.parent / "crates.txt"
    crates = read_crates(path)
    placed = {name for phase in PHASES.values() for name in phase[2]}
    missing = [name for name in crates if name not in placed]
    if missing:
        sys.exit(f"no phase of docs/crates.py has these crates: {' '.join(missing)}")
    draw_phases(crates)
    draw_crates(crates)


main()
