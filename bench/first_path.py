#!/usr/bin/env python3
"""Times the built program on small files of many generators.

    bench/first_path.py [PROGRAM]

PROGRAM is by default crates/cqlrun/out/cqlrun, which `./cqlrun` builds. For each number of generators and of attributes it prints
the seconds (the best of three runs), the rows a second, the peak memory, that memory for each row and attribute together, and how much the time
grew from a tenth of the rows.
"""
import pathlib
import sys
import tempfile

from whole_run import run

ROOT = pathlib.Path(__file__).resolve().parent.parent


def text(rows, attributes):
    names = " ".join(f"x{n}" for n in range(attributes))
    generators = " ".join(f"g{n}" for n in range(rows))
    return (
        "typeside T = literal { types s }\n"
        f"schema S = literal : T {{ entities E attributes {names} : E -> s }}\n"
        f"instance I = literal : S {{ generators {generators} : E }}\n"
    )


def main():
    program = str(pathlib.Path(sys.argv[1]).resolve() if len(sys.argv) > 1 else ROOT / "crates/cqlrun/out/cqlrun")
    print("| generators | attributes | seconds | rows a second | peak memory, MiB | bytes a row and attribute | time, of a tenth |")
    print("|---|---|---|---|---|---|---|")
    for attributes in (1, 4):
        before = None
        for rows in (2_000, 20_000, 200_000):
            with tempfile.TemporaryDirectory() as folder:
                pathlib.Path(folder, "p.cql").write_text(text(rows, attributes))
                seconds, peak = min(run(program, folder) for _ in range(3))
                lines = pathlib.Path(folder, "out").read_text().count("\n")
                assert lines == 5 + rows + rows * attributes, lines
            grown = f"{seconds / before:.1f}" if before else ""
            print(
                f"| {rows:,} | {attributes} | {seconds:.3f} | {rows / seconds:,.0f} | {peak / 2**20:.0f} "
                f"| {peak / (rows + rows * attributes):.0f} | {grown} |",
                flush=True,
            )
            before = seconds


main()
