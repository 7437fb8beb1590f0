#!/usr/bin/env python3
"""Times the whole way of a run, `example N`, in the built program.

    bench/whole.py [PROGRAM]

PROGRAM is by default crates/cqlrun/out/cqlrun, which `./cqlrun` builds. For N = 1,999, 19,999 and 199,999, each figure the best
of three runs:

  - seconds and peak memory of `example N`, exports in both formats included; the ratio of the time to that at a tenth; the bytes
    of memory for each row of the two instances and for each exported byte together, less those of a run of an empty file;
  - the seconds of each step. A step is the difference of two runs, which stop behind it and before it: read (the first byte is
    refused), tokens (the last byte is), tree (the last token is), rows (the same text without the attribute, and then a name that
    isn't declared), values (with the attribute), eval (with J), texts (all, and a sink that is full), files (all);
  - where the machine has the command `sqlite3`, the seconds of the same work there, and the ratio: the rows as inserts, with
    indexes, in memory and in one transaction; the keys merged along the equations; the join; both tables written as CSV;
  - where it has `z3`, the seconds of the ground equations as one QF_UF file, and the ratio.

SQLite is given the equations as edges of a graph in which each edge leads to a later key, so that one recursive query finds the
least key of each class; the program isn't. With --plot FILE it also draws the times by rows as an SVG.
"""
import argparse
import pathlib
import shutil
import subprocess
import tempfile
import time

from whole_plot import plot
from whole_run import run

ROOT = pathlib.Path(__file__).resolve().parent.parent
SIZES = (1_999, 19_999, 199_999)
TYPES = "typeside T = literal { types n constants one : n }\n"
QUERY = """schema R = literal : T { entities P attributes w : P -> n }
query Q = literal : S -> R { entity P -> { from b : E a : E where f(a) = b attributes w -> v(a) } }
"""
STOP = "instance K = literal : Missing { }\n"
REFUSED, FULL = 1, 4


def text(size, valued=True):
    """The text of the example up to the end of I; without the attribute and what uses it, the rows alone."""
    attribute = " attributes v : E -> n" if valued else ""
    schema = f"schema S = literal : T {{ entities E foreign_keys f : E -> E path_equations f.f = f{attribute} }}\n"
    generators = "".join(f"x{n} : E\n" for n in range(1, size + 1))
    first = "v(f(x1)) = one\n" if valued else ""
    equations = first + "".join(f"f(x{n}) = f(x{n + 1})\n" for n in range(1, size))
    head = TYPES + schema + (QUERY if valued else "")
    return f"{head}instance I = literal : S {{ generators\n{generators}equations\n{equations}}}\n"


def best(program, given, wanted, out="out"):
    with tempfile.TemporaryDirectory() as folder:
        pathlib.Path(folder, "p.cql").write_text(given)
        return min(run(program, folder, wanted, out=out)[0] for _ in range(3))


def steps(program, size, whole):
    """The seconds of each step, by differences."""
    all_of_it = text(size) + "instance J = eval Q I\n"
    empty = best(program, "", 0)
    read = best(program, "!" + all_of_it, REFUSED)
    tokens = best(program, all_of_it + "!", REFUSED)
    tree = best(program, all_of_it + "schema", REFUSED)
    rows = best(program, text(size, valued=False) + STOP, REFUSED)
    plain_tree = best(program, text(size, valued=False) + "schema", REFUSED)
    values = best(program, text(size) + STOP, REFUSED)
    evaluated = best(program, all_of_it + STOP, REFUSED)
    texts = best(program, all_of_it, FULL, out="/dev/full")
    return {
        "read": read - empty,
        "tokens": tokens - read,
        "tree": tree - tokens,
        "rows": rows - plain_tree,
        "values": values - tree - (rows - plain_tree),
        "eval": evaluated - values,
        "texts": texts - evaluated,
        "files": whole - texts,
    }


def exported(folder):
    return sum(path.stat().st_size for path in pathlib.Path(folder, "cql-out").rglob("*") if path.is_file())


def example(program, size):
    """Seconds, peak memory, exported bytes."""
    with tempfile.TemporaryDirectory() as folder:
        seconds, peak = min(run(program, folder, words=("example", str(size))) for _ in range(3))
        lines = pathlib.Path(folder, "out").read_text()
        counts = f"rows {size + 1} nulls {size} entries 0"
        assert lines == f"instance I {counts}\ninstance J {counts}\n", lines
        return seconds, peak, exported(folder)


def script(size):
    """The same for SQLite. Each generator has the key behind it; the keys are joined, and the rows of E are renumbered."""
    names = "".join(f"insert into generator values ({n}, 'x{n}', 'f(x{n})');\n" for n in range(1, size + 1))
    equal = "".join(f"insert into equal values ('f(x{n})', 'f(x{n + 1})');\n" for n in range(1, size))
    return f"""begin;
create table generator (number integer primary key, name text unique, key text unique);
create table equal (left text primary key, right text);
{names}{equal}create index equal_right on equal (right);
create table class (key text primary key, least text);
with recursive class_of (key, least) as (
  select key, key from generator where key not in (select right from equal)
  union all select equal.right, class_of.least from class_of join equal on equal.left = class_of.key)
insert into class select key, least from class_of;
create table E (id integer primary key, name text unique, f text, v text);
insert into E (name, f, v) select name, (select least from class where class.key = generator.key), '?' || (number - 1)
  from generator order by number;
insert into E (name, f, v) select distinct least, least, case least when 'f(x1)' then 'one' else '?' end from class order by least;
create index E_f on E (f);
create table P (id integer primary key, w text);
insert into P (w) select a.v from E b join E a on a.f = b.name order by b.id, a.id;
commit;
.mode csv
.headers on
.once E.csv
select a.id, a.v, b.id as f from E a join E b on b.name = a.f order by a.id;
.once P.csv
select id, w from P order by id;
select count(*) from P;
"""


def formula(size):
    """The ground equations, with the path equation at each generator; that the first key isn't the last has no model."""
    names = "".join(f"(declare-const x{n} E)\n(assert (= (f (f x{n})) (f x{n})))\n" for n in range(1, size + 1))
    equal = "".join(f"(assert (= (f x{n}) (f x{n + 1})))\n" for n in range(1, size))
    head = "(set-logic QF_UF)\n(declare-sort E 0)\n(declare-sort n 0)\n(declare-fun f (E) E)\n(declare-fun v (E) n)\n(declare-const one n)\n"
    return f"{head}{names}(assert (= (v (f x1)) one))\n{equal}(assert (not (= (v (f x{size})) one)))\n(check-sat)\n"


def other(command, name, given, wanted):
    """The best of three runs of another program on a file, where the machine has it."""
    if not shutil.which(command[0]):
        return None
    with tempfile.TemporaryDirectory() as folder:
        pathlib.Path(folder, name).write_text(given)
        found = []
        for _ in range(3):
            with open(pathlib.Path(folder, name)) as script_file:
                start = time.perf_counter()
                done = subprocess.run(command, stdin=script_file, cwd=folder, capture_output=True, text=True, check=True)
                found.append(time.perf_counter() - start)
            assert done.stdout.split()[-1] == wanted, done.stdout[-200:]
        return min(found)


def ratio(seconds, than):
    return f"{than:.3f} | {seconds / than:.2f}" if than else " | "


def main():
    words = argparse.ArgumentParser()
    words.add_argument("program", nargs="?", default=ROOT / "crates/cqlrun/out/cqlrun", type=pathlib.Path)
    words.add_argument("--plot", type=pathlib.Path)
    asked = words.parse_args()
    program = str(asked.program.resolve())
    with tempfile.TemporaryDirectory() as folder:
        pathlib.Path(folder, "p.cql").write_text("")
        own = run(program, folder)[1]
    print("| N | seconds | of a tenth | peak memory, MiB | bytes a row and exported byte | sqlite3 | of sqlite3 | z3 | of z3 |")
    print("|---|---|---|---|---|---|---|---|---|")
    before, split, series = None, {}, {"cqlrun": [], "sqlite3": [], "z3": []}
    for size in SIZES:
        seconds, peak, written = example(program, size)
        tenth = f"{seconds / before:.1f}" if before else ""
        before = seconds
        share = (peak - own) / (2 * (size + 1) + written)
        base = other(["sqlite3", ":memory:"], "rows.sql", script(size), str(size + 1))
        solver = other(["z3", "-in"], "equations.smt2", formula(size), "unsat")
        line = f"| {size:,} | {seconds:.3f} | {tenth} | {peak / 2**20:.0f} | {share:.0f} | {ratio(seconds, base)} | {ratio(seconds, solver)} |"
        print(line, flush=True)
        split[size] = steps(program, size, seconds)
        for name, value in (("cqlrun", seconds), ("sqlite3", base), ("z3", solver)):
            series[name] += [(size, value)] if value else []
    names = list(split[SIZES[0]])
    print("\n| N | " + " | ".join(names) + " |\n|---|" + "---|" * len(names))
    for size, found in split.items():
        print(f"| {size:,} | " + " | ".join(f"{found[name]:.3f}" for name in names) + " |")
    if asked.plot:
        asked.plot.write_text(plot("example N, whole runs", series))


if __name__ == "__main__":
    main()
