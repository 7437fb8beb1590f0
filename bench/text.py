#!/usr/bin/env python3
"""Times program texts that hold their rows, in the built program.

    bench/text.py [PROGRAM]

PROGRAM is by default crates/cqlrun/out/cqlrun, which `./cqlrun` builds. One entity with a foreign key and three columns of texts
that nobody declared, some of which stand often; 1,000, 10,000 and 100,000 rows, each with four equations. For each it prints the
seconds of a whole run (the best of five), exports as literals included, the ratio to a tenth, the peak memory, and, where Python
has sqlite3, the seconds of the same rows as inserts into tables in memory, written as CSV, with the ratio.
"""
import csv
import pathlib
import sys
import tempfile
import time

from whole_run import run

try:
    import sqlite3
except ImportError:
    sqlite3 = None

ROOT = pathlib.Path(__file__).resolve().parent.parent
HEAD = """typeside T = literal { types text literals text }
schema S = literal : T { entities E D foreign_keys k : E -> D attributes a b c : E -> text }
"""


def record(n, rows):
    """The columns of a row, and the number of the row to which it leads."""
    return f"n{n}", f"s{n % 977}", f"{n % 31}", n % max(rows // 100, 1)


def text(rows):
    generators = " ".join(f"e{n}" for n in range(rows)) + " : E " + " ".join(f"d{n}" for n in range(max(rows // 100, 1))) + " : D"
    lines = []
    for n in range(rows):
        a, b, c, key = record(n, rows)
        lines.append(f'k(e{n}) = d{key} a(e{n}) = "{a}" b(e{n}) = "{b}" c(e{n}) = "{c}"\n')
    return f"{HEAD}instance I = literal : S {{ generators {generators}\nequations\n{''.join(lines)}}}\n"


def by_sqlite(folder, rows):
    """Seconds from a script of inserts to a file of the joined rows."""
    script = ["create table D (id integer primary key); create table E (id integer primary key, a text, b text, c text, k integer);"]
    script += [f"insert into D values ({n});" for n in range(max(rows // 100, 1))]
    for n in range(rows):
        a, b, c, key = record(n, rows)
        script.append(f"insert into E values ({n}, '{a}', '{b}', '{c}', {key});")
    given = "begin;" + "".join(script) + "commit;"
    start = time.perf_counter()
    base = sqlite3.connect(":memory:")
    base.executescript(given)
    with open(pathlib.Path(folder, "back.csv"), "w", newline="") as out:
        csv.writer(out, lineterminator="\n").writerows(base.execute("select E.*, D.id from E join D on E.k = D.id"))
    return time.perf_counter() - start


def main():
    program = str(pathlib.Path(sys.argv[1]).resolve() if len(sys.argv) > 1 else ROOT / "crates/cqlrun/out/cqlrun")
    print("| rows | bytes | seconds | of a tenth | peak memory, MiB | sqlite3 | of sqlite3 |")
    print("|---|---|---|---|---|---|---|")
    before = None
    for rows in (1_000, 10_000, 100_000):
        with tempfile.TemporaryDirectory() as folder:
            given = text(rows)
            pathlib.Path(folder, "p.cql").write_text(given)
            seconds, peak = min(run(program, folder, words=("run", "p.cql", "--only", "cql")) for _ in range(5))
            ratio = f"{seconds / before:.1f}" if before else ""
            before = seconds
            other = min(by_sqlite(folder, rows) for _ in range(5)) if sqlite3 else None
            beside = f"{other:.3f} | {seconds / other:.2f}" if other else " | "
            print(f"| {rows:,} | {len(given):,} | {seconds:.3f} | {ratio} | {peak / 2**20:.0f} | {beside} |", flush=True)


main()
