#!/usr/bin/env python3
"""Times the built program on an instance whose rows merge.

    bench/build.py [PROGRAM]

PROGRAM is by default crates/cqlrun/out/cqlrun, which `./cqlrun` builds. One entity has two attributes, a foreign key k with
k.k = k, and the observation equation x(e) = plus(y(e), x(k(e))). Half of the generators are made equal in pairs, and each
row has one more row behind its key. For each size it prints the rows, the seconds from the bytes to the last line (the best
of five runs), the ratio to the size before, the peak memory and the peak memory a row, less that of an empty file.
"""
import pathlib
import sys
import tempfile

from whole_run import run

ROOT = pathlib.Path(__file__).resolve().parent.parent
HEAD = """typeside T = literal { types s constants Al : s functions plus : s, s -> s }
schema S = literal : T { entities E foreign_keys k : E -> E path_equations k.k = k attributes x y : E -> s
  observation_equations forall e. x(e) = plus(y(e), x(k(e))) }
"""


def text(rows):
    """Two thirds as many generators as rows: a quarter of them vanish in pairs, and each that is left has one row more."""
    generators = rows * 2 // 3
    names = " ".join(f"g{n}" for n in range(generators))
    pairs = " ".join(f"g{2 * n} = g{2 * n + 1}" for n in range(generators // 4))
    left = generators - generators // 4
    return HEAD + f"instance I = literal : S {{ generators {names} : E equations {pairs} }}\n", 2 * left


def measure(program, content):
    with tempfile.TemporaryDirectory() as folder:
        pathlib.Path(folder, "p.cql").write_text(content)
        best = min(run(program, folder) for _ in range(5))
        counted = [line for line in pathlib.Path(folder, "out").read_text().splitlines() if line.startswith("entity ")]
    return best, counted


def main():
    program = str(pathlib.Path(sys.argv[1]).resolve() if len(sys.argv) > 1 else ROOT / "crates/cqlrun/out/cqlrun")
    (_, idle), _ = measure(program, "")
    print("| rows | seconds | time, of a tenth | peak memory, MiB | bytes a row |")
    print("|---|---|---|---|---|")
    before = None
    for size in (2_000, 20_000, 200_000):
        content, rows = text(size)
        (seconds, peak), counted = measure(program, content)
        if counted != [f"entity E {rows}"]:
            sys.exit(f"{rows} rows were due: {counted}")
        ratio = f"{seconds / before:.1f}" if before else ""
        before = seconds
        print(f"| {rows:,} | {seconds:.3f} | {ratio} | {peak / 2**20:.0f} | {(peak - idle) / rows:.0f} |", flush=True)


main()
