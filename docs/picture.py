#!/usr/bin/env python3
"""Draws docs/lists.svg, two tables that become one, from the files of the example `lists`.

    docs/picture.py

The two tables on the left are the files that the example imports; the one on the right is its exported table of
persons, as it is stored for the gate. A line leads from each record to the person that it is: by the mailbox that it
names, and the owner of that.
"""
import csv
import html
import pathlib

ROOT = pathlib.Path(__file__).resolve().parent.parent
STORED = ROOT / "crates/cq_outcomes/stdout"
EXAMPLE = "examples/lists.cql"
HIGH, EDGE, GAP, LETTER, PAD = 26, 20, 150, 7.3, 10
COLOURS = ["#1f5fa8", "#c0562f", "#3d7f3d", "#7a4fa0"]
# The tables on the left: the entity, the columns that are shown, and the key that leads to a mailbox.
SOURCES = [("Customer", ["name", "street", "mail"], "mail"), ("Subscriber", ["nick", "news"], "news")]


def exported(entity):
    """The records of an exported table of the example, as they are stored."""
    text = STORED.read_text().split(f"== {EXAMPLE}\n", 1)[1]
    lines = text.split(f"-- Merged/{entity}.csv\n", 1)[1].split("\n-- ", 1)[0]
    return list(csv.DictReader(lines.splitlines()))


def given(entity):
    with open(ROOT / "examples/lists" / f"{entity}.csv", newline="") as file:
        return list(csv.DictReader(file))


class Table:
    """A table with a title, at a place of the picture."""

    def __init__(self, title, columns, rows, colours):
        self.title, self.columns, self.colours = title, columns, colours
        self.cells = [[row[column] for column in columns] for row in rows]
        texts = zip(columns, *self.cells)
        self.widths = [max(len(text) for text in column) * LETTER + 2 * PAD for column in texts]
        self.wide = sum(self.widths)
        self.high = (len(rows) + 2) * HIGH

    def place(self, left, top):
        self.left, self.top = left, top

    def middle(self, row):
        return self.top + (row + 2.5) * HIGH

    def draw(self):
        yield text(self.left, self.top + 17, self.title, weight="bold")
        for number, cells in enumerate([self.columns, *self.cells]):
            top, left = self.top + (number + 1) * HIGH, self.left
            for cell, wide in zip(cells, self.widths):
                fill = "#e4e9ee" if number == 0 else "white"
                yield f'<rect x="{left:g}" y="{top:g}" width="{wide:g}" height="{HIGH}" fill="{fill}" stroke="#9ab"/>'
                colour = "#333" if number == 0 else self.colours[number - 1]
                yield text(left + PAD, top + 17, cell, colour=colour)
                left += wide


def text(x, y, content, colour="#222", weight="normal", anchor="start"):
    shown = html.escape(content)
    return f'<text x="{x:g}" y="{y:g}" fill="{colour}" font-weight="{weight}" text-anchor="{anchor}">{shown}</text>'


def main():
    owner = {row["id"]: int(row["owner"]) - 1 for row in exported("Mailbox")}
    persons = exported("Person")
    right = Table("Person", ["called", "home"], persons, COLOURS)
    lefts, goes = [], []
    for entity, columns, key in SOURCES:
        # The rows of an instance from an import stand in the order of the records.
        goes.append([owner[row[key]] for row in exported(entity)])
        lefts.append(Table(f"{entity}.csv", columns, given(entity), [COLOURS[person] for person in goes[-1]]))
    top = EDGE
    for table in lefts:
        table.place(EDGE, top)
        top += table.high + EDGE
    widest = max(table.wide for table in lefts)
    right.place(EDGE + widest + GAP, EDGE + (top - EDGE - right.high) / 2)
    wide, high = right.left + right.wide + EDGE, top
    font = 'font-family="monospace" font-size="12"'
    out = [f'<svg xmlns="http://www.w3.org/2000/svg" viewBox="0 0 {wide:g} {high:g}" {font}>']
    out.append(f'<rect width="{wide:g}" height="{high:g}" fill="white"/>')
    for table, people in zip(lefts, goes):
        for row, person in enumerate(people):
            x, y, u, v = table.left + table.wide, table.middle(row), right.left, right.middle(person)
            bend = f"M {x:g} {y:g} C {x + (u - x) / 2:g} {y:g} {x + (u - x) / 2:g} {v:g} {u:g} {v:g}"
            out.append(f'<path d="{bend}" fill="none" stroke="{COLOURS[person]}" stroke-width="2"/>')
    for table in [*lefts, right]:
        out += table.draw()
    out.append("</svg>")
    (ROOT / "docs/lists.svg").write_text("\n".join(out) + "\n")


main()
