#!/usr/bin/env python3
"""Times what cqlwhy tells of refused files, beside the run of cqlrun on the same file.

    bench/why.py [WHY [PROGRAM]]

WHY is by default crates/cqlwhy/out/cqlwhy and PROGRAM crates/cqlrun/out/cqlrun, which `./cqlwhy` and `./cqlrun` build.
Cases, each in two sizes:

  unknown  an equation behind many that names a generator which isn't declared
  cells    an import of many records, of which each hundredth has a cell that means nothing
  clash    an import of many records in which two cells of one row's key differ: two constants become one
  literal  the same in a literal
  deep     a literal of many rows whose tables don't close

For each it prints the seconds of both runs (the best of three), their ratio, the bytes that are told, and the peak memory.
Its status is 1 where the first lines differ, or cqlwhy takes over three times the run (times below 20 ms count as 20), or
writes over 1 KiB and 1 KiB for each fault of a folder, of which at most 100 are told.
"""
import pathlib
import sys
import tempfile

from whole_run import run

ROOT = pathlib.Path(__file__).resolve().parent.parent
SIZES = 2_000, 200_000
HEAD = "typeside T = literal { types s literals s }\n"
SCHEMA = "schema S = literal : T { entities E G foreign_keys k : E -> G attributes x : E -> s y : G -> s\n"
RULE = "observation_equations forall e : E . x(e) = y(k(e)) }\n"


def unknown(count):
    count //= 2
    names = " ".join(f"a{n}" for n in range(count))
    equations = " ".join(f'x(a{n}) = "v{n}"' for n in range(count))
    return {"p.cql": HEAD + SCHEMA + f'}}\ninstance I = literal : S {{ generators {names} : E equations {equations} x(b) = "v" }}\n'}


def cells(count):
    rows = "".join(f"e{n},{'=' if n % 100 == 50 else f'v{n}'},g{n}\n" for n in range(count // 2))
    groups = "".join(f"g{n},\n" for n in range(count // 2))
    text = HEAD + SCHEMA + '}\ninstance I = import_csv "data" : S\n'
    return {"p.cql": text, "data/E.csv": "id,x,k\n" + rows, "data/G.csv": "id,y\n" + groups}


def clash(count):
    half = count // 2
    rows = "".join(f"e{n},v{n if n != half // 2 else 0},g{n if n != half // 2 else 1}\n" for n in range(half))
    groups = "".join(f"g{n},\n" for n in range(half))
    text = HEAD + SCHEMA + RULE + 'instance I = import_csv "data" : S\n'
    return {"p.cql": text, "data/E.csv": "id,x,k\n" + rows, "data/G.csv": "id,y\n" + groups}


def literal(count):
    half = count // 4
    names = " ".join(f"a{n}" for n in range(half))
    groups = " ".join(f"g{n}" for n in range(half))
    equations = " ".join(f'k(a{n}) = g{n} x(a{n}) = "v{n}"' for n in range(half))
    text = f'instance I = literal : S {{ generators {names} : E {groups} : G equations {equations} a0 = a1 }}\n'
    return {"p.cql": HEAD + SCHEMA + RULE + text}


def deep(count):
    names = " ".join(f"a{n}" for n in range(count // 20))
    text = f"instance I = literal : S {{ generators {names} : E }}\n"
    return {"p.cql": "typeside T = literal { }\nschema S = literal : T { entities E foreign_keys k : E -> E }\n" + text}


def measure(program, files, words):
    """Seconds, peak memory and what was written."""
    with tempfile.TemporaryDirectory() as folder:
        for name, text in files.items():
            path = pathlib.Path(folder, name)
            path.parent.mkdir(exist_ok=True)
            path.write_text(text)
        seconds, peak = min(run(program, folder, wanted=1, words=words) for _ in range(3))
        return seconds, peak, pathlib.Path(folder, "out").read_bytes()


def main():
    given = [str(pathlib.Path(word).resolve()) for word in sys.argv[1:]]
    why, program = given + [str(ROOT / f"crates/{name}/out/{name}") for name in ("cqlwhy", "cqlrun")][len(given) :]
    failed = False
    print("| case | size | seconds of the run | of cqlwhy | ratio | bytes | peak memory, MiB |")
    print("|---|---|---|---|---|---|---|")
    for case in (unknown, cells, clash, literal, deep):
        for count in SIZES:
            files = case(count)
            words = ["--depth", "3"] if case is deep else []
            of_run, _, line = measure(program, files, ["run", "p.cql", *words])
            seconds, peak, told = measure(why, files, ["p.cql", *words])
            ratio = max(seconds, 0.02) / max(of_run, 0.02)
            faults = 100 if case is cells else 1
            wrong = not told.startswith(line) or told == line or ratio > 3 or len(told) > 1024 * (1 + faults)
            failed |= wrong
            row = f"| {case.__name__} | {count:,} | {of_run:.3f} | {seconds:.3f} | {ratio:.1f} | {len(told):,} | {peak / 2**20:.0f} |"
            print(row + (" wrong" if wrong else ""))
    sys.exit(1 if failed else 0)


if __name__ == "__main__":
    main()
