#!/usr/bin/env python3
"""Times the renaming of rows in cq_tables.

Builds a small program over the library in a temporary folder, runs each case at a tenth of its size and at full size, and
prints the seconds and their ratio. Needs the command `rt` in the path. The build takes a minute or two.

    python3 bench/tables/run.py
"""

import pathlib
import shutil
import subprocess
import sys
import tempfile
import time

REPOSITORY = pathlib.Path(__file__).resolve().parents[2]
FULL = 200_000
CASES = {
    "into-one": "rows whose cells all hold rows, each renamed to the first",
    "chain": "rows whose cells hold the next row, each renamed to the next",
    "pairs": "two chains of cells, merged from their first rows on by the pairs that each renaming gives back",
}

PROGRAM = """\
//! Renames rows of one entity, by the case and the number of rows in the arguments.
#![tactic(auto)]

mod rows;

use rows::Rows;
use std::alloc::{AllocError, Global};
use std::env;

fn into_one(alloc: Global, count: u64) -> Result<u64, AllocError> {
    let mut rows = Rows::new(alloc, count)?;
    for row in 0..count {
        rows.fill(row, row / 2)?;
    }
    for row in 1..count {
        rows.rename(row, 0)?;
    }
    Ok(rows.live())
}

fn chain(alloc: Global, count: u64) -> Result<u64, AllocError> {
    let mut rows = Rows::new(alloc, count)?;
    for row in 1..count {
        rows.fill(row - 1, row)?;
    }
    for row in 1..count {
        rows.rename(row - 1, row)?;
    }
    Ok(rows.live())
}

fn pairs(alloc: Global, count: u64) -> Result<u64, AllocError> {
    let half = count / 2;
    let mut rows = Rows::new(alloc, count)?;
    for row in 1..half {
        rows.fill(row - 1, row)?;
    }
    for row in half..count {
        rows.fill(row, row.saturating_add(1))?;
    }
    let mut waiting = vec![in alloc; (0, half)]?;
    for _turn in 0..count {
        let Some((kept, gone)) = waiting.pop() else {
            break;
        };
        for pair in rows.rename(gone, kept)? {
            waiting.push(pair)?;
        }
    }
    Ok(rows.live())
}

fn main(rt: HostRuntime) -> anyhow::Result<()> {
    let mut case = String::new(rt.alloc());
    let mut count = 0;
    for (place, word) in env::args(&rt)?.enumerate() {
        if place == 1 {
            case = word;
        } else if place == 2 {
            count = word.parse::<u64>()?;
        }
    }
    let live = match case.as_str() {
        "into-one" => into_one(rt.alloc(), count)?,
        "chain" => chain(rt.alloc(), count)?,
        _ => pairs(rt.alloc(), count)?,
    };
    println!(rt; "{live}")?;
    Ok(())
}
"""

ROWS = """\
//! Rows of one entity with one key. What the tables require is tested before each call, in a few steps.
ghost use Rattle.std.specs.Prelude.{◌≡◌, ◌∷◌, []};
ghost use Rattle.cq_tables.specs.Content.{entities_of, keys_of};

use cq_tables::Tables;
use std::alloc::{AllocError, Global};

#[derive(Drop)]
pub struct Rows {
    tables: Tables,
    alloc: Global,
    ghost keys: { keys_of tables ≡ (0, 0) ∷ [] },
    ghost entities: { entities_of tables ≡ 1 },
}

impl Rows {
    pub fn new(alloc: Global, count: u64) -> Result<Rows, AllocError> {
        let tables = Tables::new(alloc, 1, &[(0, 0)])?;
        let mut rows = Rows { tables, alloc };
        for _row in 0..count {
            rows.add()?;
        }
        Ok(rows)
    }

    fn add(&mut self) -> Result<(), AllocError> {
        self.tables.add_row(0)?;
        Ok(())
    }

    #[tactic(auto, unfolding(cq_tables::specs::Content::step_of))]
    pub fn fill(&mut self, row: u64, to: u64) -> Result<(), AllocError> {
        let made = self.tables.made();
        if row >= made || to >= made || !self.tables.live(row) || !self.tables.live(to) {
            return Ok(());
        }
        if self.tables.entity(row) != 0 || self.tables.entity(to) != 0 || self.tables.cell(row, 0).is_some() {
            return Ok(());
        }
        self.tables.set_cell(row, 0, to)
    }

    pub fn rename(&mut self, from: u64, to: u64) -> Result<Vec<(u64, u64)>, AllocError> {
        let made = self.tables.made();
        if from == to || from >= made || to >= made || !self.tables.live(from) || !self.tables.live(to) {
            return Ok(Vec::new(self.alloc));
        }
        if self.tables.entity(from) != self.tables.entity(to) {
            return Ok(Vec::new(self.alloc));
        }
        self.tables.rename(from, to)
    }

    /// How many rows are live.
    pub fn live(&self) -> u64 {
        let mut live: u64 = 0;
        for row in 0..self.tables.made() {
            if self.tables.live(row) {
                live = live.saturating_add(1);
            }
        }
        live
    }
}
"""


def build(folder):
    """The program, built in this folder over a copy of the library."""
    (folder / "crates.txt").write_text("cq_tables:\nrename_rows: cq_tables anyhow\n")
    (folder / "crates").mkdir()
    shutil.copytree(REPOSITORY / "crates/cq_tables", folder / "crates/cq_tables")
    source = folder / "crates/rename_rows/src"
    source.mkdir(parents=True)
    (source / "main.rt").write_text(PROGRAM)
    (source / "rows.rt").write_text(ROWS)
    subprocess.run(["rt", "run", "--", "pairs", "10"], cwd=source.parent, check=True)
    for path in sorted((source.parent / "out").rglob("*")):
        if path.is_file() and path.stat().st_mode & 0o100 and path.read_bytes()[:4] == b"\x7fELF":
            return path
    sys.exit("no program was built")


def seconds(program, case, count):
    """The best of three runs."""
    best = None
    for _ in range(3):
        start = time.perf_counter()
        subprocess.run([program, case, str(count)], check=True, capture_output=True)
        taken = time.perf_counter() - start
        best = taken if best is None else min(best, taken)
    return best


def main():
    with tempfile.TemporaryDirectory() as name:
        program = build(pathlib.Path(name))
        print(f"case      {FULL // 10:>9} rows  {FULL:>9} rows  ratio")
        for case, meaning in CASES.items():
            tenth = seconds(program, case, FULL // 10)
            full = seconds(program, case, FULL)
            print(f"{case:<9} {tenth:>12.3f} s  {full:>12.3f} s  {full / tenth:>5.1f}   {meaning}")


main()
