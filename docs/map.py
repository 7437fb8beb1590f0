#!/usr/bin/env python3
"""Draws docs/map.svg, the map of crates, from crates.txt and the tables of docs/ARCHITECTURE.md.

    docs/map.py

The tables say which group a crate is of: each group is a column, from left to right. A crate stands above those that it
uses, as near to them as the others let it. Lines that follow from others are left away, and so are crates of tests. A
line turns between two rows alone, and passes a row where no box stands; all lines to one crate are one where they go
side by side. The same files give the same picture.

Where the tables lack a crate, have one that isn't there, or say that a crate stands on others than it does, this is
told, and the status is 1.
"""
import collections
import math
import pathlib
import random
import re
import sys

ROOT = pathlib.Path(__file__).resolve().parent.parent
WIDTH, HEIGHT, BESIDE, DOWN, EDGE, HEAD = 108, 26, 26, 80, 14, 34
STEP, NEAR, PORT, TURNS, SEED = 12, 8, 12, 30000, 5
TINTS = ["#8a5a1a", "#2f6b3a", "#4a4a4a", "#1f5a8a", "#8a2f4f", "#5b3f8c", "#00695c", "#5a5a00"]
BANDS = ["#fbf5e9", "#edf6ee", "#f1f1f1", "#e9f2fa", "#fbecf1", "#f2eefa", "#e5f3f1", "#f6f6e2"]


def crates_used():
    """Each crate, with those of the repository that it uses."""
    lines = (line.split("#")[0] for line in (ROOT / "crates.txt").read_text().splitlines())
    uses = {head.split()[0]: tail.split() for head, found, tail in (line.partition(":") for line in lines) if found}
    return {crate: [low for low in used if low in uses] for crate, used in uses.items()}


def groups_told():
    """The groups of docs/ARCHITECTURE.md: the name of each, with its crates and what these are said to stand on."""
    groups, crates = {}, None
    for line in (ROOT / "docs" / "ARCHITECTURE.md").read_text().splitlines():
        if line.startswith("#"):
            crates = groups.setdefault(line[4:].split(":")[0], {}) if line.startswith("### ") else None
        elif crates is not None and (row := re.match(r"\| `(\w+)` \|.*\|(.*)\|$", line)):
            crates[row[1]] = re.findall(r"`(\w+)`", row[2])
    return {name: crates for name, crates in groups.items() if crates}


def below(graph, crate, found=None):
    found = set() if found is None else found
    for low in graph[crate]:
        if low not in found:
            found.add(low)
            below(graph, low, found)
    return found


def reduced(graph):
    """What each crate uses, without what follows from the rest."""
    under = {crate: below(graph, crate) for crate in graph}
    return {
        crate: [low for low in lows if not any(low in under[other] for other in lows)] for crate, lows in graph.items()
    }


def faults_of(graph, groups):
    told = {crate: lows for crates in groups.values() for crate, lows in crates.items()}
    yield from (f"docs/ARCHITECTURE.md has no {crate}" for crate in graph if crate not in told)
    for crate, lows in told.items():
        if crate not in graph:
            yield f"crates.txt has no {crate}"
        elif sorted(lows) != sorted(graph[crate]):
            yield f"docs/ARCHITECTURE.md: {crate} stands on {', '.join(sorted(graph[crate])) or 'nothing'}"


def levels_of(graph):
    """The row of each crate: above all that it uses, and otherwise so that the lines are short."""
    level = {}

    def lowest(crate):
        if crate not in level:
            level[crate] = 1 + max((lowest(low) for low in graph[crate]), default=-1)
        return level[crate]

    for crate in graph:
        lowest(crate)
    users = {crate: [high for high in graph if crate in graph[high]] for crate in graph}
    changed = True
    while changed:
        changed = False
        for crate in sorted(graph, key=lambda name: -level[name]):
            top = min((level[high] for high in users[crate]), default=level[crate] + 1) - 1
            if top > level[crate] and len(users[crate]) >= len(graph[crate]):
                level[crate], changed = top, True
    return level


class Picture:
    """Places for boxes and for the points at which lines pass a row; `cost` says how good they are."""

    def __init__(self, graph, groups):
        self.graph, self.level = graph, levels_of(graph)
        self.group = {crate: n for n, crates in enumerate(groups) for crate in crates if crate in graph}
        self.rows = 1 + max(self.level.values())
        self.lay_columns(len(groups))
        self.points = collections.defaultdict(dict)
        self.begin()

    def lay_columns(self, count):
        crowd = collections.Counter((self.group[crate], self.level[crate]) for crate in self.graph)
        broad = [max([many for (of, _), many in crowd.items() if of == n], default=1) for n in range(count)]
        self.slots, self.bands, left = [], [], EDGE
        for many in broad:
            self.slots.append([left + BESIDE + k * (WIDTH + BESIDE) for k in range(many)])
            self.bands.append((left, BESIDE + many * (WIDTH + BESIDE)))
            left += BESIDE + many * (WIDTH + BESIDE)
        self.wide = left + EDGE

    def begin(self):
        """Boxes in the order of the tables, in the middle of their column; lines straight up from what they lead to."""
        self.box = {}
        for n, slots in enumerate(self.slots):
            for row in range(self.rows):
                here = [crate for crate in self.graph if self.group[crate] == n and self.level[crate] == row]
                start = (len(slots) - len(here)) // 2
                self.box.update({crate: slots[start + k] for k, crate in enumerate(here)})
        for low in self.graph:
            top = max((self.level[high] for high in self.graph if low in self.graph[high]), default=0)
            for row in range(self.level[low] + 1, top):
                self.points[row][low] = self.free_near(row, self.middle(low), low)

    def tint(self, crate):
        return TINTS[self.group[crate] % len(TINTS)]

    def middle(self, crate):
        return self.box[crate] + WIDTH / 2

    def is_free(self, row, x, low):
        boxes = (self.box[crate] for crate in self.graph if self.level[crate] == row)
        others = (at for crate, at in self.points[row].items() if crate != low)
        return (
            EDGE < x < self.wide - EDGE
            and all(x < left - NEAR or x > left + WIDTH + NEAR for left in boxes)
            and all(abs(x - at) >= STEP for at in others)
        )

    def free_near(self, row, x, low):
        wishes = (at for k in range(4000) for at in (x + k * STEP / 2, x - k * STEP / 2))
        return next(at for at in wishes if self.is_free(row, at, low))

    def at(self, row, low):
        """Where the lines to a crate pass a row, or end in it."""
        return self.middle(low) if self.level[low] == row else self.points[row][low]

    def pieces(self, row):
        """The pieces of lines between a row and the one below, each with the crate to which it leads."""
        found = set()
        for high, lows in self.graph.items():
            if self.level[high] == row:
                ends = sorted((self.at(row - 1, low), low) for low in lows)
                first = self.middle(high) - PORT * (len(ends) - 1) / 2
                found |= {(first + PORT * k, end, low) for k, (end, low) in enumerate(ends)}
        for low, x in self.points[row].items():
            found.add((x, self.at(row - 1, low), low))
        return found

    def cost_of(self, row):
        if not 0 < row < self.rows:
            return 0
        pieces = sorted(self.pieces(row))
        cost = 0
        for k, (x, u, low) in enumerate(pieces):
            cost += abs(x - u) + (12 if x != u else 0)
            others = [(y, v) for y, v, other in pieces[k + 1 :] if other != low]
            cost += sum(80 for y, v in others if y > x and v < u)
            cost += sum(80 for y, v in others if abs(x - y) + abs(u - v) < WIDTH / 2)
        return cost

    def cost(self, rows=None):
        return sum(self.cost_of(row) for row in (range(self.rows) if rows is None else set(rows)))

    def try_point(self, chance, heat, keeps):
        row = chance.choice([row for row in range(self.rows) if self.points[row]])
        low = chance.choice(sorted(self.points[row]))
        old = self.points[row][low]
        wishes = [self.at(row - 1, low), old + chance.choice((-1, 1)) * STEP * chance.randint(1, 24)]
        wishes += [self.middle(high) for high in self.graph if self.level[high] == row + 1 and low in self.graph[high]]
        wishes += [self.points[row + 1][low]] if low in self.points[row + 1] else []
        new = self.free_near(row, chance.choice(wishes), low)
        before = self.cost((row, row + 1))
        self.points[row][low] = new
        if not keeps(self.cost((row, row + 1)) - before, heat):
            self.points[row][low] = old

    def try_box(self, chance, heat, keeps):
        crate = chance.choice(sorted(self.graph))
        row, slots = self.level[crate], self.slots[self.group[crate]]
        others = {self.box[other]: other for other in self.graph if self.level[other] == row and other != crate}
        new, old = chance.choice(slots), self.box[crate]
        kept, other = dict(self.points[row]), others.get(new)
        before = self.cost((row, row + 1))
        self.box[crate] = new
        if other:
            self.box[other] = old
        for low, x in kept.items():
            if not self.is_free(row, x, low):
                self.points[row][low] = self.free_near(row, x, low)
        if not keeps(self.cost((row, row + 1)) - before, heat):
            self.box[crate] = old
            if other:
                self.box[other] = new
            self.points[row] = kept

    def settle(self, turns):
        """Tries small changes, and keeps those that better the picture; at first some of the others too."""
        chance = random.Random(SEED)

        def keeps(change, heat):
            return change <= 0 or chance.random() < math.exp(-change / heat)

        for turn in range(turns):
            heat = 120 * (1 - turn / turns) ** 2 + 0.01
            (self.try_box if chance.random() < 0.25 else self.try_point)(chance, heat, keeps)

    def is_clear(self):
        return all(self.is_free(row, x, low) for row in range(self.rows) for low, x in self.points[row].items())

    def svg(self, names):
        high = HEAD + self.rows * DOWN + EDGE
        top = {row: HEAD + EDGE + (self.rows - 1 - row) * DOWN for row in range(self.rows)}
        words = f'viewBox="0 0 {self.wide} {high}" font-family="monospace" font-size="12"'
        yield f'<svg xmlns="http://www.w3.org/2000/svg" {words}>'
        yield f'<rect width="{self.wide}" height="{high}" fill="white"/>'
        for n, (left, broad) in enumerate(self.bands):
            band = f'x="{left + 2}" y="4" width="{broad - 4}" height="{high - 8}" rx="6"'
            yield f'<rect {band} fill="{BANDS[n % len(BANDS)]}"/>'
            words = f'x="{left + broad / 2:g}" y="24" text-anchor="middle" font-family="sans-serif" font-weight="bold"'
            yield f'<text {words} fill="{TINTS[n % len(TINTS)]}">{names[n]}</text>'
        for row in range(1, self.rows):
            for x, u, low in sorted(self.pieces(row)):
                ends = f'x1="{x:g}" y1="{top[row] + HEIGHT}" x2="{u:g}" y2="{top[row - 1]}"'
                yield f'<line {ends} stroke="{self.tint(low)}"/>'
            for low, x in sorted(self.points[row].items()):
                ends = f'x1="{x:g}" y1="{top[row]}" x2="{x:g}" y2="{top[row] + HEIGHT}"'
                yield f'<line {ends} stroke="{self.tint(low)}"/>'
        for crate, x in self.box.items():
            y, tint = top[self.level[crate]], self.tint(crate)
            yield f'<rect x="{x}" y="{y}" width="{WIDTH}" height="{HEIGHT}" rx="4" fill="white" stroke="{tint}"/>'
            yield f'<text x="{x + WIDTH / 2:g}" y="{y + 17}" text-anchor="middle">{crate}</text>'
        yield "</svg>"


def main():
    graph, groups = reduced(crates_used()), groups_told()
    faults = list(faults_of(graph, groups))
    told = {crate for crates in groups.values() for crate in crates}
    shown = [crate for crate in graph if crate in told and not crate.endswith("_tests")]
    drawn = {crate: [low for low in graph[crate] if low in shown] for crate in shown}
    picture = Picture(drawn, [list(crates) for crates in groups.values()])
    picture.settle(TURNS)
    if not picture.is_clear():
        faults.append("a line passes through a box")
    (ROOT / "docs" / "map.svg").write_text("\n".join(picture.svg(list(groups))) + "\n")
    for fault in faults:
        print(fault)
    sys.exit(1 if faults else 0)


if __name__ == "__main__":
    main()
