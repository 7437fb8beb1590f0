#!/usr/bin/env python3
"""Times transforms, coproducts and pushouts in the built program.

    bench/push.py [PROGRAM]

PROGRAM is by default crates/cqlrun/out/cqlrun, which `./cqlrun` builds. Cases, each at 2,000, 20,000 and 200,000 generators:

  coproduct  of two instances, each with half of the generators
  pushout    of two such instances along one with half of the generators of each
  transform  a literal one, with one image for each generator
  entries    a literal transform of half as many, where a function at the cell of each row has an entry

For each it prints the seconds of a whole run (the best of three), the same without the last declaration, the ratio of their
difference to that at a tenth, and what the declaration adds to the peak memory for each generator.
"""
import pathlib
import sys
import tempfile

from whole_run import run

ROOT = pathlib.Path(__file__).resolve().parent.parent
HEAD = """typeside T = literal { types s literals s functions h : s -> s }
schema S = literal : T { entities E attributes x : E -> s }
"""


def instance(name, letter, count, equation=""):
    """Rows of one entity, and an equation for each."""
    rows = [f"{letter}{n}" for n in range(count)]
    equations = "equations " + " ".join(equation.format(row) for row in rows) if equation else ""
    return f"instance {name} = literal : S {{ generators {' '.join(rows)} : E {equations} }}\n"


def transform(name, source, target, count):
    """Each row goes to the row of the same number: a source is named for its rows in capitals."""
    images = " ".join(f"{source.lower()}{n} -> {target.lower()}{n}" for n in range(count))
    return f"transform {name} = literal : {source} -> {target} {{ generators {images} }}\n"


def coproduct(count):
    half = count // 2
    return HEAD + instance("A", "a", half) + instance("B", "b", half), "instance P = coproduct A + B : S\n"


def pushout(count):
    half, quarter = count // 2, count // 4
    start = HEAD + instance("A", "a", quarter) + instance("B", "b", half) + instance("C", "c", half)
    return start + transform("f", "A", "B", quarter) + transform("g", "A", "C", quarter), "instance P = pushout f g\n"


def literal(count):
    return HEAD + instance("A", "a", count) + instance("B", "b", count), transform("f", "A", "B", count)


def entries(count):
    half = count // 2
    own = "h(x({0}))=h(x({0}))"
    return HEAD + instance("A", "a", half, own) + instance("B", "b", half, own), transform("f", "A", "B", half)


def measure(program, text):
    with tempfile.TemporaryDirectory() as folder:
        pathlib.Path(folder, "p.cql").write_text(text)
        return min(run(program, folder) for _ in range(3))


def main():
    program = str(pathlib.Path(sys.argv[1]).resolve() if len(sys.argv) > 1 else ROOT / "crates/cqlrun/out/cqlrun")
    print("| case | generators | seconds | without it | the rest, of a tenth | bytes a generator |")
    print("|---|---|---|---|---|---|")
    for name, case in (("coproduct", coproduct), ("pushout", pushout), ("transform", literal), ("entries", entries)):
        before = None
        for count in (2_000, 20_000, 200_000):
            start, last = case(count)
            without, low = measure(program, start)
            seconds, peak = measure(program, start + last)
            rest = seconds - without
            ratio = f"{rest / before:.1f}" if before else ""
            before = rest
            size = (peak - low) / count
            print(f"| {name} | {count:,} | {seconds:.3f} | {without:.3f} | {ratio} | {size:.0f} |", flush=True)


main()
