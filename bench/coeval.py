#!/usr/bin/env python3
"""Times queries that are read backwards, in the built program.

    bench/coeval.py [PROGRAM]

PROGRAM is by default crates/cqlrun/out/cqlrun, which `./cqlrun` builds. An instance of 2,000, 20,000 and 200,000 rows, half of
them of P, whose block has two variables, and half of O, whose block has one, which is the second variable of a row of P by the
assignment of a foreign key. For each size it prints the seconds of a whole run (the best of three), the same without the
coeval, the ratio of their difference to that at a tenth, and what the coeval adds to the peak memory for each row of its result.
"""
import pathlib
import sys
import tempfile

from whole_run import run

ROOT = pathlib.Path(__file__).resolve().parent.parent
HEAD = """typeside T = literal { types s literals s }
schema S = literal : T { entities E attributes x : E -> s }
schema R = literal : T { entities P O foreign_keys t : P -> O attributes w : P -> s }
query Q = literal : S -> R {
  entity P -> { from y z : E attributes w -> x(y) foreign_keys t -> { o -> z } }
  entity O -> { from o : E } }
"""


def source(rows):
    half = rows // 2
    of_p = " ".join(f"p{n}" for n in range(half))
    of_o = " ".join(f"o{n}" for n in range(half))
    keys = " ".join(f"t(p{n}) = o{n}" for n in range(half))
    return HEAD + f"instance I = literal : R {{ generators {of_p} : P {of_o} : O equations {keys} }}\n"


def measure(program, text):
    with tempfile.TemporaryDirectory() as folder:
        pathlib.Path(folder, "p.cql").write_text(text)
        return min(run(program, folder) for _ in range(3))


def main():
    program = str(pathlib.Path(sys.argv[1]).resolve() if len(sys.argv) > 1 else ROOT / "crates/cqlrun/out/cqlrun")
    print("| rows | seconds | without it | whole, of a tenth | the rest, of a tenth | bytes a row of the result |")
    print("|---|---|---|---|---|---|")
    before = None
    for rows in (2_000, 20_000, 200_000):
        without, low = measure(program, source(rows))
        seconds, peak = measure(program, source(rows) + "instance J = coeval Q I\n")
        rest = seconds - without
        ratios = (f"{seconds / before[0]:.1f}", f"{rest / before[1]:.1f}") if before else ("", "")
        before = (seconds, rest)
        # each row of P gives two rows, and the second of them is that of a row of O
        print(f"| {rows:,} | {seconds:.3f} | {without:.3f} | {ratios[0]} | {ratios[1]} | {(peak - low) / rows:.0f} |", flush=True)


main()
