#!/usr/bin/env python3
"""Times derivations that the built program writes.

    bench/explain.py [PROGRAM]

PROGRAM is by default crates/cqlrun/out/cqlrun, which `./cqlrun` builds. Cases, each in three sizes:

  chain    rows that are equal one to the next, and the first and the last of them
  mixed    the same, with the equations in another order
  merged   rows that a path equation merges, and a key of a key of each of two of them
  tower    60 levels of a function at the first and at the last of a chain of generators of a type
  tangled  a chain of half as many, and another one in which each equation needs a long part of the first

For each it prints the lines that are written, the seconds of a whole run (the best of three), their ratio to those at a tenth,
what a run of the file without a question takes, and the peak memory. Its status is 1 where a run writes no derivation, or takes
over fifteen times what a tenth of it takes (times below 20 ms count as 20).
"""
import pathlib
import sys
import tempfile

from whole_run import run

ROOT = pathlib.Path(__file__).resolve().parent.parent
SIZES = 1_000, 10_000, 100_000
TYPES = "typeside T = literal { types s functions f : s, s -> s h : s -> s }\n"
PLAIN = TYPES + "schema S = literal : T { entities E attributes x : E -> s }\n"
STAFF = (
    "typeside T = literal { }\nschema S = literal : T { entities Emp Dep foreign_keys worksIn : Emp -> Dep"
    " secretary : Dep -> Emp path_equations secretary.worksIn = Dep }\n"
)


def instance(generators, equations):
    return f"instance I = literal : S {{ generators {generators} equations {' '.join(equations)} }}\n"


def names(letter, count):
    return " ".join(f"{letter}{n}" for n in range(count))


def links(letter, order):
    return [f"{letter}{n} = {letter}{n + 1}" for n in order]


def chain(count):
    return PLAIN + instance(names("a", count) + " : E", links("a", range(count - 1))), "a0", f"a{count - 1}"


def mixed(count):
    """Each equation, in strides of a number that has no factor in common with theirs."""
    order = [n * 618_029 % (count - 1) for n in range(count - 1)]
    assert len(set(order)) == count - 1
    return PLAIN + instance(names("a", count) + " : E", links("a", order)), "a0", f"a{count - 1}"


def merged(count):
    equations = [f"secretary(d{n}) = c" for n in range(count)]
    file = STAFF + instance(f"{names('d', count)} : Dep c : Emp", equations)
    return file, "secretary(worksIn(secretary(d0)))", f"secretary(worksIn(secretary(d{count - 1})))"


def tower(count):
    file = PLAIN + instance(names("t", count) + " : s", links("t", range(count - 1)))
    return file, "h(" * 60 + "t0" + ")" * 60, "h(" * 60 + f"t{count - 1}" + ")" * 60


def tangled(count):
    count //= 2
    third = count // 3
    there = [f"t{n} = f(x(a{n % third}), u{n})" for n in range(count)]
    back = [f"t{n + 1} = f(x(a{count - 1 - n % third}), u{n})" for n in range(count - 1)]
    generators = f"{names('a', count)} : E {names('t', count)} {names('u', count)} : s"
    return PLAIN + instance(generators, links("a", range(count - 1)) + there + back), "t0", f"t{count - 1}"


def measure(program, text, words):
    """Seconds, peak memory and what was written."""
    with tempfile.TemporaryDirectory() as folder:
        pathlib.Path(folder, "p.cql").write_text(text)
        seconds, peak = min(run(program, folder, words=words) for _ in range(3))
        return seconds, peak, pathlib.Path(folder, "out").read_text()


def main():
    program = str(pathlib.Path(sys.argv[1]).resolve() if len(sys.argv) > 1 else ROOT / "crates/cqlrun/out/cqlrun")
    failed = False
    print("| case | size | lines | seconds | of a tenth | without it | peak memory, MiB |")
    print("|---|---|---|---|---|---|---|")
    for case in (chain, mixed, merged, tower, tangled):
        before = None
        for count in SIZES:
            text, left, right = case(count)
            seconds, peak, written = measure(program, text, ("explain", "p.cql", "I", left, right))
            without, _, _ = measure(program, text, ("run", "p.cql"))
            slow = before is not None and max(seconds, 0.02) > 15 * max(before, 0.02)
            failed |= slow or not written.startswith("equal ")
            ratio = f"{seconds / before:.1f}" if before else ""
            before = seconds
            row = f"{written.count(chr(10)):,} | {seconds:.3f} | {ratio} | {without:.3f} | {peak / 2**20:.0f}"
            print(f"| {case.__name__} | {count:,} | {row} |", flush=True)
    sys.exit(failed)


main()
