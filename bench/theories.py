#!/usr/bin/env python3
"""Times the built program on files with large schemas, many instances and many equations.

    bench/theories.py [PROGRAM]

PROGRAM is by default crates/cqlrun/out/cqlrun, which `./cqlrun` builds. For each case it prints the seconds at a tenth of its size and in
full (the best of five runs, from the bytes to the last line), their ratio, and the peak memory of the larger run.
"""
import pathlib
import sys
import tempfile

from whole_run import run

ROOT = pathlib.Path(__file__).resolve().parent.parent
TYPESIDE = "typeside T = literal { types s constants Al : s }\n"


def schema(size):
    """As many entities, foreign keys and attributes as the size says; nothing is printed."""
    entities = " ".join(f"E{n}" for n in range(size))
    keys = " ".join(f"k{n} : E{n} -> E{(n * 7 + 1) % size}" for n in range(size))
    attributes = " ".join(f"a{n} : E{n} -> s" for n in range(size))
    return TYPESIDE + f"schema S = literal : T {{ entities {entities} foreign_keys {keys} attributes {attributes} }}\n", 0


def generators(size):
    """An instance of this many generators without foreign keys."""
    names = " ".join(f"g{n}" for n in range(size))
    return TYPESIDE + f"schema S = literal : T {{ entities E }}\ninstance I = literal : S {{ generators {names} : E }}\n", 0


def equations(size):
    """As many generators, and an equation between two attributes for each."""
    names = " ".join(f"g{n}" for n in range(size))
    sides = " ".join(f"x(g{n}) = x(g{(n * 7 + 1) % size})" for n in range(size))
    return (
        TYPESIDE
        + "schema S = literal : T { entities E attributes x : E -> s }\n"
        + f"instance I = literal : S {{ generators {names} : E equations {sides} }}\n",
        0,
    )


def instances(size):
    """This many declarations of instances with one generator each."""
    lines = "".join(f"instance I{n} = literal : S {{ generators a : E }}\n" for n in range(size))
    return TYPESIDE + "schema S = literal : T { entities E }\n" + lines, 0


def measure(program, case, size):
    text, wanted = case(size)
    with tempfile.TemporaryDirectory() as folder:
        pathlib.Path(folder, "p.cql").write_text(text)
        return min(run(program, folder, wanted) for _ in range(5))


def main():
    program = str(pathlib.Path(sys.argv[1]).resolve() if len(sys.argv) > 1 else ROOT / "crates/cqlrun/out/cqlrun")
    print("| case | size | seconds at a tenth | seconds | ratio | peak memory, MiB |")
    print("|---|---|---|---|---|---|")
    for case, size in ((schema, 100_000), (generators, 200_000), (equations, 200_000), (instances, 100_000)):
        small, _ = measure(program, case, size // 10)
        large, peak = measure(program, case, size)
        print(f"| {case.__name__} | {size:,} | {small:.3f} | {large:.3f} | {large / small:.1f} | {peak / 2**20:.0f} |", flush=True)


main()
