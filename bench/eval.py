#!/usr/bin/env python3
"""Times queries in the built program.

    bench/eval.py [PROGRAM]

PROGRAM is by default crates/cqlrun/out/cqlrun, which `./cqlrun` builds. Cases, each at 2,000, 20,000 and 200,000 rows:

  cells     two variables with equal cells, where each row has a cell of its own: as many answers as rows
  key       a join of two entities along a foreign key, and then along a cell
  chain     four variables, each behind the one before by a foreign key
  triangle  x.f = y.g, y.f = z.g and z.f = x.g
  target    a target with a foreign key, whose assignment is an answer of another block

For each it prints the seconds of a whole run (the best of three), the same without the query's use, the ratio of their
difference to that at a tenth, and the bytes of peak memory for each row. Where Python has sqlite3, it times the same join over
the same rows in memory with indexes, from the first insert to the last printed line, and prints the ratio of the difference to it.
"""
import pathlib
import sys
import tempfile
import time

from whole_run import run

try:
    import sqlite3
except ImportError:
    sqlite3 = None

ROOT = pathlib.Path(__file__).resolve().parent.parent
T = "typeside T = literal { types s literals s }\n"


def rows_of(entity, letter, count, equations=""):
    names = " ".join(f"{letter}{n}" for n in range(count))
    return f"{names} : {entity}", equations


def one(parts, schema="S"):
    generators = " ".join(part[0] for part in parts)
    equations = " ".join(part[1] for part in parts)
    return f"instance I = literal : {schema} {{ generators {generators} equations {equations} }}\n"


def cells(rows):
    schema = T + "schema S = literal : T { entities E attributes x : E -> s }\nschema R = literal : T { entities P }\n"
    query = "query Q = literal : S -> R { entity P -> { from y z : E where x(y) = x(z) } }\n"
    return schema + query + one([rows_of("E", "e", rows)]), "select y.id from E y join E z on y.x = z.x", "E"


def key(rows):
    half = rows // 2
    schema = T + "schema S = literal : T { entities E D foreign_keys k : E -> D attributes x : E -> s y : D -> s }\n"
    schema += "schema R = literal : T { entities P }\n"
    query = "query Q = literal : S -> R { entity P -> { from d : D e c : E where k(e) = d x(c) = y(d) } }\n"
    keys = " ".join(f"k(e{n}) = d{n}" for n in range(half))
    values = " ".join(f'x(e{n}) = "v{n}" y(d{n}) = "v{(n + 1) % half}"' for n in range(half))
    parts = [rows_of("E", "e", half, keys + " " + values), rows_of("D", "d", half)]
    return schema + query + one(parts), "select d.id from D d join E e on e.k = d.id join E c on c.x = d.y", "ED"


RING = T + "schema S = literal : T { entities E foreign_keys f g : E -> E }\nschema R = literal : T { entities P }\n"


def short(n):
    """A name of few bytes: a file has at most 8 MiB."""
    digits = ""
    while n or not digits:
        n, digit = divmod(n, 36)
        digits = "0123456789ABCDEFGHIJKLMNOPQRSTUVWXYZ"[digit] + digits
    return digits


def ring(rows):
    """The foreign key f leads each row to the next one, and g to the one after that."""
    names = [short(n) for n in range(rows)]
    steps = " ".join(f"f({names[n]})={names[(n + 1) % rows]} g({names[n]})={names[(n + 2) % rows]}" for n in range(rows))
    return one([(" ".join(names) + " : E", steps)])


def chain(rows):
    query = "query Q = literal : S -> R { entity P -> { from a b c d : E where a.f = b b.f = c c.f = d } }\n"
    select = "select a.id from E a join E b on a.f = b.id join E c on b.f = c.id join E d on c.f = d.id"
    return RING + query + ring(rows), select, "F"


def triangle(rows):
    query = "query Q = literal : S -> R { entity P -> { from x y z : E where x.f = y.g y.f = z.g z.f = x.g } }\n"
    return RING + query + ring(rows), "select x.id from E x join E y on x.f = y.g join E z on y.f = z.g and z.f = x.g", "F"


def target(rows):
    schema = T + "schema S = literal : T { entities E foreign_keys f g : E -> E }\n"
    schema += "schema R = literal : T { entities P O foreign_keys t : P -> O }\n"
    query = "query Q = literal : S -> R { entity P -> { from x : E foreign_keys t -> { y -> x.f } }"
    query += " entity O -> { from y : E } }\n"
    return schema + query + ring(rows), None, None


def by_sqlite(select, tables, rows):
    base = sqlite3.connect(":memory:")
    start = time.perf_counter()
    if tables == "F":
        base.execute("create table E (id integer primary key, f integer, g integer)")
        base.executemany("insert into E values (?, ?, ?)", ((n, (n + 1) % rows, (n + 2) % rows) for n in range(rows)))
        base.execute("create index g on E (g)")
    elif tables == "E":
        base.execute("create table E (id integer primary key, x text)")
        base.executemany("insert into E values (?, ?)", ((n, f"?{n}") for n in range(rows)))
        base.execute("create index x on E (x)")
    else:
        half = rows // 2
        base.execute("create table E (id integer primary key, k integer, x text)")
        base.execute("create table D (id integer primary key, y text)")
        base.executemany("insert into E values (?, ?, ?)", ((n, n, f"v{n}") for n in range(half)))
        base.executemany("insert into D values (?, ?)", ((n, f"v{(n + 1) % half}") for n in range(half)))
        base.execute("create index k on E (k)")
        base.execute("create index x on E (x)")
    with tempfile.TemporaryFile("w") as out:
        for row in base.execute(select):
            out.write(f"{row[0]}\n")
    return time.perf_counter() - start


def measure(program, text):
    with tempfile.TemporaryDirectory() as folder:
        pathlib.Path(folder, "p.cql").write_text(text)
        return min(run(program, folder) for _ in range(3))


def main():
    program = str(pathlib.Path(sys.argv[1]).resolve() if len(sys.argv) > 1 else ROOT / "crates/cqlrun/out/cqlrun")
    print("| case | rows | seconds | without it | the rest, of a tenth | bytes a row | the rest, of sqlite3 |")
    print("|---|---|---|---|---|---|---|")
    for case in (cells, key, chain, triangle, target):
        before = None
        for rows in (2_000, 20_000, 200_000):
            start, select, made = case(rows)
            without, _ = measure(program, start)
            seconds, peak = measure(program, start + "instance J = eval Q I\n")
            rest = seconds - without
            ratio = f"{rest / before:.1f}" if before else ""
            before = rest
            other = f"{rest / by_sqlite(select, made, rows):.1f}" if sqlite3 and select else ""
            line = f"| {case.__name__} | {rows:,} | {seconds:.3f} | {without:.3f} | {ratio} | {peak / rows:.0f} | {other} |"
            print(line, flush=True)


main()
