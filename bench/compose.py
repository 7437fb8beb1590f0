#!/usr/bin/env python3
"""Times composed queries in the built program.

    bench/compose.py [--instructions] [PROGRAM]

PROGRAM is by default crates/cqlrun/out/cqlrun, which `./cqlrun` builds. At 2,000, 20,000 and 200,000 rows: a first query joins two
entities along a foreign key, a second one joins the answers of the first by a cell, and their composite is answered at once. For
each size it prints the processor seconds of a run with the composite and with the two evals in turn, each without the run that
answers nothing, the ratio of the composite's to that at a tenth and to that of the two evals, and, where Python has sqlite3, its
ratio to the view that is spelled out, over the same rows in memory with indexes. The runs are made in turns, 41 times up to 20,000
rows and 11 times above, and the least of each counts.

Then it prints the seconds of programs that only compose: ten queries of two variables each in a chain, whose composite has 1,024
variables, and forty, whose composite is refused; each from the first query on and from the last on, and also with a where equation,
an attribute and a foreign key in each query.

With --instructions it prints in place of all that the instructions of the composite's eval and of the two evals at 20,000 and 200,000
rows, as valgrind counts them, and their ratios: these are the same in each run, on whatever machine, and say nothing of memory.
"""
import argparse
import pathlib
import subprocess
import tempfile
import time

from whole_run import instructions_of, least_of

try:
    import sqlite3
except ImportError:
    sqlite3 = None

ROOT = pathlib.Path(__file__).resolve().parent.parent
T = "typeside T = literal { types s literals s }\n"
SCHEMAS = (
    "schema S = literal : T { entities E D foreign_keys k : E -> D attributes x : E -> s y : D -> s }\n"
    "schema R = literal : T { entities P attributes u v : P -> s }\n"
    "schema U = literal : T { entities V attributes w : V -> s }\n"
)
QUERIES = (
    "query Q = literal : S -> R { entity P -> { from d : D e : E where k(e) = d attributes u -> x(e) v -> y(d) } }\n"
    "query W = literal : R -> U { entity V -> { from p q : P where v(p) = u(q) attributes w -> u(p) } }\n"
)
SELECT = "select e.x from E e join D d on e.k = d.id join E f on f.x = d.y join D g on f.k = g.id"


def instance(rows):
    half = rows // 2
    keys = " ".join(f"k(e{n})=d{n}" for n in range(half))
    values = " ".join(f'x(e{n})="{n}" y(d{n})="{(n + 1) % half}"' for n in range(half))
    es, ds = " ".join(f"e{n}" for n in range(half)), " ".join(f"d{n}" for n in range(half))
    return f"instance I = literal : S {{ generators {es} : E {ds} : D equations {keys} {values} }}\n"


def by_sqlite(rows):
    half = rows // 2
    base = sqlite3.connect(":memory:")
    start = time.process_time()
    base.execute("create table E (id integer primary key, k integer, x text)")
    base.execute("create table D (id integer primary key, y text)")
    base.executemany("insert into E values (?, ?, ?)", ((n, n, str(n)) for n in range(half)))
    base.executemany("insert into D values (?, ?)", ((n, str((n + 1) % half)) for n in range(half)))
    base.execute("create index k on E (k)")
    base.execute("create index x on E (x)")
    with tempfile.TemporaryFile("w") as out:
        for row in base.execute(SELECT):
            out.write(f"{row[0]}\n")
    return time.process_time() - start


def programs(rows):
    """The text that answers nothing, the one that answers the composite, and the one with the two evals in turn."""
    start = T + SCHEMAS + QUERIES + "query C = compose Q W\n" + instance(rows)
    return start, start + "instance M = eval C I\n", start + "instance J = eval Q I\ninstance N = eval W J\n"


def composed(count, rich=False, turned=False):
    """So many queries of two variables each, one composed with the next, from the first on or, turned, from the last on.

    Rich ones have a where equation too, an attribute and a foreign key.
    """
    schema = "foreign_keys k{0} : E{0} -> E{0} attributes x{0} : E{0} -> s " if rich else ""
    asked = "where k{0}(a) = k{0}(b) attributes x{1} -> x{0}(a) foreign_keys k{1} -> {{ a -> k{0}(b) b -> k{0}(a) }} " if rich else ""
    text = T + "schema S0 = literal : T { entities E0 " + schema.format(0) + "}\n"
    for n in range(1, count + 1):
        text += f"schema S{n} = literal : T {{ entities E{n} {schema.format(n)}}}\n"
        text += f"query Q{n} = literal : S{n - 1} -> S{n} {{ entity E{n} -> {{ from a b : E{n - 1} {asked.format(n - 1, n)}}} }}\n"
    if turned:
        text += f"query C{count - 1} = compose Q{count - 1} Q{count}\n"
        return text + "".join(f"query C{n} = compose Q{n} C{n + 1}\n" for n in range(count - 2, 0, -1))
    text += "query C2 = compose Q1 Q2\n"
    return text + "".join(f"query C{n} = compose C{n - 1} Q{n}\n" for n in range(3, count + 1))


def seconds_of(program, text):
    """The best of three runs, accepted or refused, and the first line of the answer."""
    with tempfile.TemporaryDirectory() as folder:
        pathlib.Path(folder, "p.cql").write_text(text)
        best, line = None, ""
        for _ in range(3):
            start = time.perf_counter()
            ended = subprocess.run([program, "run", "p.cql"], cwd=folder, capture_output=True, text=True)
            took = time.perf_counter() - start
            best = took if best is None else min(best, took)
            line = ended.stdout.split("\n")[0]
        return best, line


def ratio_of(added, before):
    return f"{added / before:.1f}" if before else ""


def print_seconds(program):
    print("| rows | composite, processor seconds | of a tenth | of the two evals | of sqlite3 |")
    print("|---|---|---|---|---|")
    before = None
    for rows in (2_000, 20_000, 200_000):
        rounds = 41 if rows <= 20_000 else 11
        without, composite, turns = (seconds for seconds, _ in least_of(program, programs(rows), rounds))
        added, both = composite - without, turns - without
        other = f"{added / min(by_sqlite(rows) for _ in range(3)):.1f}" if sqlite3 else ""
        print(f"| {rows:,} | {added:.4f} | {ratio_of(added, before)} | {added / both:.2f} | {other} |", flush=True)
        before = added


def print_instructions(program):
    print("| rows | composite, instructions | of a tenth | of the two evals |")
    print("|---|---|---|---|")
    before = None
    for rows in (20_000, 200_000):
        without, composite, turns = (instructions_of(program, text) for text in programs(rows))
        added, both = composite - without, turns - without
        print(f"| {rows:,} | {added:,} | {ratio_of(added, before)} | {added / both:.2f} |", flush=True)
        before = added


def print_compositions(program):
    print()
    for count in (10, 40):
        for rich, turned in ((False, False), (False, True), (True, False), (True, True)):
            took, line = seconds_of(program, composed(count, rich, turned))
            kind = f"{'rich ' if rich else ''}queries{', from the last on' if turned else ''}"
            print(f"{count} {kind}: {took:.3f} seconds {line}", flush=True)


def main():
    words = argparse.ArgumentParser()
    words.add_argument("--instructions", action="store_true")
    words.add_argument("program", nargs="?", default=ROOT / "crates/cqlrun/out/cqlrun")
    asked = words.parse_args()
    program = str(pathlib.Path(asked.program).resolve())
    if asked.instructions:
        print_instructions(program)
    else:
        print_seconds(program)
        print_compositions(program)


main()
