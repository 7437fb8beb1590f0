#!/usr/bin/env python3
"""Times folders of CSV files that are read, built, printed and exported, in the built program.

    bench/files.py [PROGRAM]

PROGRAM is by default crates/cqlrun/out/cqlrun, which `./cqlrun` builds. A folder of 2,000, 20,000 and 200,000 records, each with
four texts that nobody declared and a foreign key to another record. For each size it prints the seconds of a whole run (the best
of five), exports in both formats included, the ratio to a tenth, the peak memory in bytes for each record, less eight times the
bytes of the folder, and, where Python has sqlite3, the ratio to reading the same records into tables in memory, checking the
foreign keys, and writing all records out again. The exported file is read back and compared with what was imported.
"""
import csv
import pathlib
import sys
import tempfile
import time

from whole_run import run

try:
    import sqlite3
except ImportError:
    sqlite3 = None

ROOT = pathlib.Path(__file__).resolve().parent.parent
PROGRAM = """typeside T = literal { types text literals text }
schema S = literal : T { entities E foreign_keys k : E -> E path_equations k.k = E attributes a b c d : E -> text }
instance I = import_csv "data" : S
"""
HEADER = ["id", "a", "b", "c", "d", "k"]


def record(n):
    """A record, and the one to which it leads, which leads back."""
    return [f"r{n}", f"first name {n:06}", f"street, {n % 1000}", f"town {n % 100}", f"number {n:06}", f"r{n ^ 1}"]


def write(folder, rows):
    data = pathlib.Path(folder, "data")
    data.mkdir()
    with open(data / "E.csv", "w", newline="") as out:
        lines = csv.writer(out, lineterminator="\n")
        lines.writerow(HEADER)
        lines.writerows(record(n) for n in range(rows))
    pathlib.Path(folder, "p.cql").write_text(PROGRAM)
    return (data / "E.csv").stat().st_size


def check(folder, rows):
    """What was exported is what was imported, with the numbers of rows in place of ids."""
    with open(pathlib.Path(folder, "cql-out/csv/I/E.csv"), newline="") as exported:
        found = list(csv.reader(exported))
    wanted = [HEADER] + [[str(n + 1), *record(n)[1:5], str((n ^ 1) + 1)] for n in range(rows)]
    if found != wanted:
        sys.exit("the exported file differs from the imported one")


def by_sqlite(folder):
    base = sqlite3.connect(":memory:")
    start = time.perf_counter()
    base.execute("create table E (id text primary key, a text, b text, c text, d text, k text)")
    with open(pathlib.Path(folder, "data/E.csv"), newline="") as given:
        records = csv.reader(given)
        next(records)
        base.executemany("insert into E values (?, ?, ?, ?, ?, ?)", records)
    base.execute("select count(*) from E where k not in (select id from E)").fetchone()
    with open(pathlib.Path(folder, "back.csv"), "w", newline="") as out:
        csv.writer(out, lineterminator="\n").writerows(base.execute("select * from E"))
    return time.perf_counter() - start


def main():
    program = str(pathlib.Path(sys.argv[1]).resolve() if len(sys.argv) > 1 else ROOT / "crates/cqlrun/out/cqlrun")
    print("| records | bytes | seconds | of a tenth | bytes of memory a record, past eight times the folder | of sqlite3 |")
    print("|---|---|---|---|---|---|")
    before = None
    for rows in (2_000, 20_000, 200_000):
        with tempfile.TemporaryDirectory() as folder:
            size = write(folder, rows)
            seconds, peak = min(run(program, folder) for _ in range(5))
            check(folder, rows)
            ratio = f"{seconds / before:.1f}" if before else ""
            before = seconds
            other = f"{seconds / by_sqlite(folder):.1f}" if sqlite3 else ""
            print(f"| {rows:,} | {size:,} | {seconds:.3f} | {ratio} | {(peak - 8 * size) / rows:.0f} | {other} |", flush=True)


main()
