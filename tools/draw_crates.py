#!/usr/bin/env python3
"""Draws docs/crates.svg from crates.txt: its layers, and what stands on what.

    tools/draw_crates.py            writes docs/crates.svg
    tools/draw_crates.py --check    fails where docs/crates.svg is not what would be written

A frame holds a theory crate and the code that it defines. The rule: code crate X belongs to spec_X; where there is none, to the
theory crate it stands on that stands on all its others. Arrows go between frames and are reduced transitively.
"""

import html
import os
import random
import sys
import textwrap

HERE = os.path.dirname(os.path.dirname(os.path.abspath(__file__)))
LIST = os.path.join(HERE, "crates.txt")
PICTURE = os.path.join(HERE, "docs", "crates.svg")

LETTER, PAD, BOX, GAP, INSET = 7.4, 9, 26, 14, 8  # of a box: a letter's width, its margin, its height, what is between two, a frame's margin
ROW, LEFT, RIGHT, BETWEEN = 46, 196, 24, 36  # between rows, for the headings at the left, at the right, between frames


# ---- crates.txt
def read_list(text):
    """Sections of layers: [(section, [(heading, [crate])])], and what each crate stands on."""
    sections, on = [], {}
    for line in text.splitlines():
        line = line.strip()
        if line.startswith("# ----"):
            sections.append((line[6:].strip(), [("", [])]))
        elif line.startswith("#"):
            if sections:
                sections[-1][1].append((line[1:].strip(), []))
        elif line:
            name, _, rest = line.partition(":")
            name = name.split()[0]  # a static library has its kind behind its name
            on[name] = rest.split()
            sections[-1][1][-1][1].append(name)
    on = {name: [d for d in ds if d in on] for name, ds in on.items()}
    return [(s, [layer for layer in layers if layer[1]]) for s, layers in sections], on


def closure(on):
    below = {}

    def under(name):
        if name not in below:
            below[name] = set(on[name]).union(*(under(d) for d in on[name]))
        return below[name]

    return {name: under(name) for name in on}


def reduced(on):
    below = closure(on)
    return {n: [d for d in ds if not any(d in below[e] for e in ds if e != d)] for n, ds in on.items()}


def theory_of(name, on, below):
    own = "spec_" + name
    theory = [d for d in on[name] if d.startswith("spec_")]
    if own in on:
        return own
    all_others = [t for t in theory if all(d == t or d in below[t] for d in theory)]
    return all_others[0] if all_others else sys.exit(f"crates.txt: which theory defines {name}?")


# ---- frames and their rows
class Frame:
    def __init__(self, theory, code, on):
        self.theory, self.code = theory, code
        depth = {}
        for c in sorted(code, key=lambda c: len(closure(on)[c])):  # whatever a crate stands on comes before it
            depth[c] = 1 + max((depth[d] for d in on[c] if d in depth), default=-1)
        self.columns = [[theory]] + [[c for c in code if depth[c] == k] for k in range(1 + max(depth.values(), default=-1))]
        self.widths = [max(width(c) for c in column) for column in self.columns]
        self.wide = sum(self.widths) + GAP * (len(self.columns) - 1) + 2 * INSET
        self.high = max(len(column) for column in self.columns) * (BOX + 4) - 4 + 2 * INSET

    def boxes(self):
        x = self.x - self.wide / 2 + INSET
        for column, w in zip(self.columns, self.widths):
            high = len(column) * (BOX + 4) - 4
            for i, name in enumerate(column):
                yield name, x, self.y + (self.high - high) / 2 + i * (BOX + 4), w
            x += w + GAP


class Bend:
    """Where a long arrow passes a row."""

    wide, high, theory, columns = 10, 0, None, []


def width(name):
    return round(len(name) * LETTER + 2 * PAD)


def order_rows(rows, links):
    """Each row sorted by the mean place of what its members are tied to, then neighbours swapped while that saves crossings."""
    up, down = {}, {}
    for a, b in links:
        down.setdefault(a, []).append(b)
        up.setdefault(b, []).append(a)
    at = {}

    def number():
        at.update({n: i for row in rows for i, n in enumerate(row)})

    def crossed(a, b):  # arrows of a and b that cross while a stands left of b
        return sum(at[m] > at[n] for side in (up, down) for m in side.get(a, []) for n in side.get(b, []))

    def total():
        return sum(crossed(a, b) for row in rows for i, a in enumerate(row) for b in row[i + 1 :])

    best, chance = None, random.Random(1)
    for start in range(6):
        for row in rows:
            chance.shuffle(row)
        for turn in range(8):
            side, way = (up, reversed(rows)) if turn % 2 else (down, rows)
            for row in way:
                number()
                row.sort(key=lambda n: sum(at[m] for m in side[n]) / len(side[n]) if n in side else at[n])
        for turn in range(60):  # a swap that changes nothing is made half of the time: it may let a later one save something
            for row in rows:
                for i in range(len(row) - 1):
                    number()
                    saved = crossed(row[i], row[i + 1]) - crossed(row[i + 1], row[i])
                    if saved > 0 or saved == 0 and chance.random() < 0.5:
                        row[i], row[i + 1] = row[i + 1], row[i]
            number()
            found = total()
            if best is None or found < best[0]:
                best = (found, [row[:] for row in rows])
    return best[1]


def place_rows(rows, links, wide):
    """An x for each member: near what it is tied to, in the row's order, without overlap."""
    ties = {}
    for a, b in links:
        ties.setdefault(a, []).append(b)
        ties.setdefault(b, []).append(a)
    for row in rows:
        for i, n in enumerate(row):
            n.x = LEFT + (wide - LEFT - RIGHT) * (i + 0.5) / len(row)
    for turn in range(80):
        for row in rows if turn % 2 else rows[::-1]:
            for n in row:
                those = [m.x for m in ties.get(n, [])]
                n.x += 0.6 * (sum(those) / len(those) - n.x) if those else 0
            for _ in range(30):
                for a, b in zip(row, row[1:]):
                    short = (a.wide + b.wide) / 2 + (BETWEEN if a.theory or b.theory else 14) - (b.x - a.x)
                    if short > 0:
                        a.x, b.x = a.x - short / 2, b.x + short / 2
                row[0].x = max(row[0].x, LEFT + row[0].wide / 2)
                row[-1].x = min(row[-1].x, wide - RIGHT - row[-1].wide / 2)


# ---- the picture
def draw(text):
    sections, on = read_list(text)
    below = closure(on)
    (_, theory_layers), (_, code_layers), (tests_heading, test_layers) = sections
    code = {c: k for k, (_, names) in enumerate(code_layers) for c in names}
    made = {}
    for c in code:
        made.setdefault(theory_of(c, on, below), []).append(c)

    # a frame for each theory crate, in the layer of its code, else in the layer that stands at the same place
    frames, layer = {}, {}
    for k, (_, names) in enumerate(theory_layers):
        for t in names:
            frames[t] = Frame(t, made.get(t, []), on)
            layer[t] = max((code[c] for c in frames[t].code), default=k)
    home = {name: f.theory for f in frames.values() for name in [f.theory] + f.code}
    ties = {t: [] for t in frames}
    for name, t in home.items():
        ties[t] += [home[d] for d in on[name] if home[d] != t and home[d] not in ties[t]]
    ranked = sorted(frames, key=lambda t: layer[t])
    done, order = set(), []
    while len(order) < len(frames):
        t = next(t for t in ranked if t not in done and all(d in done for d in ties[t]))
        done.add(t)
        order.append(t)
    ties = reduced({t: ties[t] for t in order})

    # rows: each frame above all that it stands on, each layer above the one before
    row, first = {}, 0
    for k in range(len(code_layers)):
        for t in order:
            if layer[t] == k:
                row[t] = max([first] + [row[d] + 1 for d in ties[t]])
        first = 1 + max(row[t] for t in order if layer[t] == k)
    rows = [[frames[t] for t in order if row[t] == k] for k in range(first)]
    links, arrows = [], []
    for t in order:
        for d in ties[t]:
            way = [frames[t]] + [Bend() for _ in range(row[t] - row[d] - 1)] + [frames[d]]
            for k, bend in enumerate(way[1:-1]):
                rows[row[t] - 1 - k].append(bend)
            links += list(zip(way, way[1:]))
            arrows.append(way)
    rows = order_rows(rows, links)
    wide = 1080
    place_rows(rows, links, wide)

    # heights, from the top: the last layer first
    svg, y = [], 44
    bands = []
    for k in reversed(range(len(code_layers))):
        mine = sorted({row[t] for t in order if layer[t] == k}, reverse=True)
        top = y
        y += 18
        for r in mine:
            high = max((f.high for f in rows[r]), default=0)
            for f in rows[r]:
                f.high = f.high or high
                f.y = y + (high - f.high) / 2
            y += high + (ROW if r != mine[-1] else 18)
        bands.append((top, y, code_layers[k][0], theory_layers[k][0] if k < len(theory_layers) else ""))
        y += 10

    for i, (top, bottom, heading, theory) in enumerate(bands):
        svg.append(f'<rect x="8" y="{top}" width="{wide - 16}" height="{bottom - top}" rx="6" fill="{"#f7f7f4" if i % 2 else "#f1f1ec"}"/>')
        at = top + 8
        for line in textwrap.wrap(heading, 21):
            at += 17
            svg.append(f'<text x="20" y="{at}" class="h">{line}</text>')
        at += 6
        for line in textwrap.wrap("theory: " + theory, 27) if theory else []:
            at += 14
            svg.append(f'<text x="20" y="{at}" class="n">{line}</text>')

    def port(f, others, me):
        those = sorted(others, key=lambda o: o.x)
        span = min(f.wide - 24, 26 * (len(those) - 1))
        return f.x + (span * (those.index(me) / (len(those) - 1) - 0.5) if len(those) > 1 else 0)

    leaves, enters = {}, {}
    for way in arrows:
        leaves.setdefault(way[0], []).append(way[1])
        enters.setdefault(way[-1], []).append(way[-2])
    for way in arrows:
        a, b = way[0], way[-1]
        x0, y0 = port(a, leaves[a], way[1]), a.y + a.high
        d = f"M{x0:.0f} {y0:.0f}"
        for m in way[1:]:  # a curve between two rows, a straight line past a row
            x1, y1 = (m.x, m.y) if m is not b else (port(b, enters[b], way[-2]), b.y - 3)
            mid = (y0 + y1) / 2
            d += f" C{x0:.0f} {mid:.0f} {x1:.0f} {mid:.0f} {x1:.0f} {y1:.0f}"
            if m is not b:
                d += f" V{m.y + m.high:.0f}"
            x0, y0 = x1, m.y + m.high
        svg.append(f'<path d="{d}" class="a" marker-end="url(#p)"/>')

    for t in order:
        f = frames[t]
        svg.append(f'<rect x="{f.x - f.wide / 2:.0f}" y="{f.y:.0f}" width="{f.wide:.0f}" height="{f.high:.0f}" rx="6" class="f"/>')
        at = {}
        for name, x, top, w in f.boxes():
            at[name] = (x, top, w)
        for c in f.code:
            for d in on[c]:
                if d in f.code and d not in {e for o in on[c] if o in f.code for e in below[o]}:
                    x0, y0, x1, y1 = at[c][0], at[c][1] + BOX / 2, at[d][0] + at[d][2], at[d][1] + BOX / 2
                    svg.append(f'<path d="M{x0:.0f} {y0:.0f} L{x1 + 3:.0f} {y1:.0f}" class="a" marker-end="url(#p)"/>')
        for name, (x, top, w) in at.items():
            kind = "t" if name == f.theory else "c"
            svg.append(f'<rect x="{x:.0f}" y="{top:.0f}" width="{w:.0f}" height="{BOX}" rx="3" class="{kind}"/>')
            svg.append(f'<text x="{x + w / 2:.0f}" y="{top + BOX / 2 + 4.5:.0f}" class="m">{name}</text>')

    # the test programs, with what they stand on in words
    tests = [name for _, names in test_layers for name in names]
    least = reduced(on)
    top, y = y, y + 34
    words = [tests_heading.split(":")[0], tests_heading.partition(":")[2].strip()]
    body, x = [], 20
    for name in tests:
        under = ", ".join(d for d in least[name] if not d.startswith("spec_"))
        w = max(width(name), round(len(under) * 5.9 + 12))
        if x + w > wide - 20:
            x, y = 20, y + BOX + 26
        body.append(f'<rect x="{x}" y="{y}" width="{w}" height="{BOX}" rx="3" class="s"/>')
        body.append(f'<text x="{x + w / 2:.0f}" y="{y + BOX / 2 + 4.5:.0f}" class="m">{name}</text>')
        body.append(f'<text x="{x + w / 2:.0f}" y="{y + BOX + 13}" class="u">{under}</text>')
        x += w + 12
    y += BOX + 26
    svg.append(f'<rect x="8" y="{top}" width="{wide - 16}" height="{y - top}" rx="6" fill="#fafafa" stroke="#ccc" stroke-dasharray="4 3"/>')
    svg.append(f'<text x="20" y="{top + 20}" class="h">{words[0]}</text>')
    svg.append(f'<text x="{wide - 20}" y="{top + 20}" class="n" text-anchor="end">{words[1]} Under each: what it stands on.</text>')
    svg += body
    y += 10

    head = [
        f'<svg xmlns="http://www.w3.org/2000/svg" viewBox="0 0 {wide} {y}" width="{wide}" height="{y}">',
        "<!-- tools/draw_crates.py makes this file from crates.txt. -->",
        "<style>",
        "text { font-family: DejaVu Sans, Verdana, sans-serif; fill: #222; }",
        ".h { font-size: 13px; font-weight: bold; } .n { font-size: 11px; fill: #667; } .u { font-size: 10px; fill: #667; text-anchor: middle; }",
        ".m { font-size: 12px; text-anchor: middle; font-family: DejaVu Sans Mono, Menlo, Consolas, monospace; }",
        ".t { fill: #d9e8ff; stroke: #7c9cc8; } .c { fill: #ffe9b8; stroke: #c9a24b; } .s { fill: #eee; stroke: #aaa; }",
        ".f { fill: #ffffff; stroke: #bbb; } .a { fill: none; stroke: #555; stroke-width: 1.2; }",
        "</style>",
        '<defs><marker id="p" viewBox="0 0 8 8" refX="6" refY="4" markerWidth="7" markerHeight="7" orient="auto"><path d="M0 0 L8 4 L0 8 z" fill="#555"/></marker></defs>',
        f'<rect width="{wide}" height="{y}" fill="#ffffff"/>',
        '<rect x="20" y="12" width="16" height="16" rx="3" class="t"/><text x="42" y="25" class="n">theory: definitions and laws, no code</text>',
        '<rect x="262" y="12" width="16" height="16" rx="3" class="c"/><text x="284" y="25" class="n">code, in a frame with the theory that defines it</text>',
        f'<text x="{wide - 20}" y="25" class="n" text-anchor="end">An arrow goes to what a frame stands on; arrows that follow from others are left out.</text>',
    ]
    return "\n".join(head + svg + ["</svg>", ""])


def main():
    with open(LIST, encoding="utf-8") as f:
        picture = draw(html.escape(f.read(), quote=False))
    if sys.argv[1:] == ["--check"]:
        try:
            with open(PICTURE, encoding="utf-8") as f:
                same = f.read() == picture
        except FileNotFoundError:
            same = False
        if not same:
            sys.exit("docs/crates.svg is out of step with crates.txt: run tools/draw_crates.py")
        return
    if sys.argv[1:]:
        sys.exit(__doc__)
    with open(PICTURE, "w", encoding="utf-8") as f:
        f.write(picture)


main()
