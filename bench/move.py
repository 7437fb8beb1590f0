#!/usr/bin/env python3
"""Times sigma and delta in the built program.

    bench/move.py [PROGRAM]

PROGRAM is by default crates/cqlrun/out/cqlrun, which `./cqlrun` builds. Cases, each at 2,000, 20,000 and 200,000 rows of the
source:

  merge     sigma along a mapping whose target has a path equation that joins each row of A with one of B
  back      delta of the result of merge, along the same mapping
  paths     delta along a mapping that sends each foreign key to a path of four keys
  identity  sigma along the identity of the schema

For each it prints the seconds of a whole run with the move (the best of five), the same without it, the ratio of their
difference to that at a tenth, and what the move adds to the peak memory, a row of source and result together. Where Python has
sqlite3, it times the same pull-back as `create table .. as select ..` in memory, from the first insert to the last line that is
printed, and prints the ratio of the whole run to it.
"""
import pathlib
import sys
import tempfile
import time

from whole_run import run

try:
    import sqlite3
except ImportError:
    sqlite3 = None

ROOT = pathlib.Path(__file__).resolve().parent.parent
T = "typeside T = literal { types s constants Al : s }\n"
AB = T + "schema S = literal : T { entities A B foreign_keys p : A -> B attributes u : A -> s v : B -> s }\n"
ONE = "schema R = literal : T { entities E foreign_keys z : E -> E path_equations z = E attributes w : E -> s }\n"
TO_ONE = (
    "mapping F = literal : S -> R { entity A -> E foreign_keys p -> z attributes u -> w entity B -> E attributes v -> w }\n"
)
RING = T + "schema R = literal : T { entities E foreign_keys n : E -> E attributes w : E -> s }\n"
LONG = "schema S = literal : T { entities D foreign_keys m : D -> D attributes x : D -> s }\n"
TO_RING = "mapping F = literal : S -> R { entity D -> E foreign_keys m -> n.n.n.n attributes x -> w }\n"


def pairs(rows):
    """Half of the rows in A, each with its row in B."""
    half = rows // 2
    a = " ".join(f"a{n}" for n in range(half))
    b = " ".join(f"b{n}" for n in range(half))
    p = " ".join(f"p(a{n}) = b{n}" for n in range(half))
    return f"instance I = literal : S {{ generators {a} : A {b} : B equations {p} }}\n"


def ring(rows):
    """Each row is followed by the next, and the last by the first."""
    names = " ".join(f"e{n}" for n in range(rows))
    steps = " ".join(f"n(e{n}) = e{(n + 1) % rows}" for n in range(rows))
    return f"instance I = literal : R {{ generators {names} : E equations {steps} }}\n"


def merge(rows):
    return AB + ONE + TO_ONE + pairs(rows), "instance J = sigma F I\n", rows + rows // 2


def back(rows):
    return AB + ONE + TO_ONE + pairs(rows) + "instance J = sigma F I\n", "instance K = delta F J\n", rows // 2 + rows


def paths(rows):
    return RING + LONG + TO_RING + ring(rows), "instance K = delta F I\n", 2 * rows


def identity(rows):
    return AB + "mapping F = identity S\n" + pairs(rows), "instance J = sigma F I\n", 2 * rows


def measure(program, text):
    with tempfile.TemporaryDirectory() as folder:
        pathlib.Path(folder, "p.cql").write_text(text)
        return min(run(program, folder) for _ in range(5))


def by_sqlite(rows):
    """Seconds of the pull-back of `paths`, from the first insert to the last line."""
    base = sqlite3.connect(":memory:")
    start = time.perf_counter()
    base.execute("create table E (id integer primary key, n integer, w text)")
    base.executemany("insert into E values (?, ?, null)", ((i, (i + 1) % rows) for i in range(rows)))
    base.execute(
        "create table D as select a.id as id, d.n as m, a.w as x from E a join E b on b.id = a.n join E c on c.id = b.n"
        " join E d on d.id = c.n order by a.id"
    )
    with tempfile.TemporaryFile("w") as out:
        for table in ("E", "D"):
            for row in base.execute(f"select * from {table}"):
                out.write(f"{row[0]} {row[1]} {row[2]}\n")
    return time.perf_counter() - start


def main():
    program = str(pathlib.Path(sys.argv[1]).resolve() if len(sys.argv) > 1 else ROOT / "crates/cqlrun/out/cqlrun")
    print("| case | rows | seconds | without the move | the move, of a tenth | bytes a row of the move | of sqlite3 |")
    print("|---|---|---|---|---|---|---|")
    for case in (merge, back, paths, identity):
        before = None
        for rows in (2_000, 20_000, 200_000):
            start, move, moved = case(rows)
            without, idle = measure(program, start)
            seconds, peak = measure(program, start + move)
            added = seconds - without
            ratio = f"{added / before:.1f}" if before else ""
            before = added
            other = f"{seconds / by_sqlite(rows):.1f}" if sqlite3 and case is paths else ""
            print(
                f"| {case.__name__} | {rows:,} | {seconds:.3f} | {without:.3f} | {ratio} | {(peak - idle) / moved:.0f} | {other} |",
                flush=True,
            )


main()
