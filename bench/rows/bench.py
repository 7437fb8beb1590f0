#!/usr/bin/env python3
"""Times the making of rows at a tenth and in full.

Builds a small program over the library in a temporary folder, runs each case at a tenth of its size and in full, and prints
the live rows, the seconds that `saturate` takes (the best of three runs), their ratio, the seconds of processor time and the
peak memory of the whole program, and bytes a row. Needs the command `rt` in the path. The build takes some minutes.

    python3 bench/rows/bench.py [CASE..]

Sizes in full:
  alike     199,999 generators with one image: f.f = f, and the images of neighbours are equal
  chain     200,000 generators, each the image of the one before it
  grid      2,000 generators with two commuting keys of order 10
  tree      51 generators with five keys to a next entity, five times
  ordered   200,000 equations, each of which joins two rows only after the one before it did
  opposite  the same in the opposite order
  mixed     the same by steps of 7,919
  linked    a path equation at 100,000 rows, at each of which it joins two rows only after it did at the one before
  backwards the same with the rows in the opposite order
"""

import os
import pathlib
import re
import shutil
import subprocess
import sys
import tempfile

TOP = os.path.dirname(os.path.dirname(os.path.dirname(os.path.abspath(__file__))))
CRATES = ["cq_base", "cq_theory", "cq_tables", "cq_rows"]
SIZES = {
    "alike": 199_999,
    "chain": 200_000,
    "grid": 200_000,
    "tree": 200_000,
    "ordered": 200_000,
    "opposite": 200_000,
    "mixed": 200_000,
    "linked": 100_000,
    "backwards": 100_000,
}

FILES = {
    "src/main.rt": r"""//! Makes the rows of a presentation, by the case and the size in the arguments.
#![tactic(auto)]

mod cases;
mod draft;
mod theory;

ghost use Rattle.std.specs.Prelude.{◌≤◌};
ghost use Rattle.cq_theory.specs.Presentation.{IsPresentation};

use cases::drafted;
use cq_rows::{Partial, saturate};
use cq_tables::Tables;
use cq_theory::{Presentation, PresentationParts, Schema, SchemaParts};
use std::alloc::Global;
use std::env;
use std::time::Instant;

fn saturated(
    alloc: Global,
    schema: &Schema,
    presentation: &Presentation,
    depth: u32,
) -> Option<Partial>
    requires presentation { IsPresentation schema.now presentation.now }
    requires depth { depth ≤ 64 }
{
    match saturate(alloc, schema, presentation, depth) {
        Ok(partial) => Some(partial),
        Err(_) => None,
    }
}

fn count(tables: &Tables) -> u64 {
    let mut count = 0u64;
    for row in 0..tables.made() {
        if tables.live(row) {
            count = count.saturating_add(1);
        }
    }
    count
}

fn time(
    rt: &HostRuntime,
    schema: &Schema,
    presentation: &Presentation,
    depth: u32,
) -> anyhow::Result<()>
    requires presentation { IsPresentation schema.now presentation.now }
    requires depth { depth ≤ 64 }
{
    let start = Instant::now(rt)?;
    let made = saturated(rt.alloc(), schema, presentation, depth);
    let millis = start.elapsed(rt)?.as_millis();
    let Some(partial) = made else {
        println!(rt; "refused")?;
        return Ok(());
    };
    let rows = count(&partial.tables);
    let closed = partial.closed;
    println!(rt; "rows {rows} closed {closed} millis {millis}")?;
    Ok(())
}

fn over(
    rt: &HostRuntime,
    schema: &Schema,
    parts: PresentationParts,
    depth: u32,
) -> anyhow::Result<()>
    requires { depth ≤ 64 }
{
    match theory::presentation(rt.alloc(), schema, parts) {
        Some(presentation) => time(rt, schema, &presentation, depth),
        None => Ok(()),
    }
}

fn run(
    rt: &HostRuntime,
    schema: SchemaParts,
    presentation: PresentationParts,
    depth: u32,
) -> anyhow::Result<()>
    requires { depth ≤ 64 }
{
    match theory::schema(rt.alloc(), schema) {
        Some(schema) => over(rt, &schema, presentation, depth),
        None => Ok(()),
    }
}

fn main(rt: HostRuntime) -> anyhow::Result<()> {
    let alloc = rt.alloc();
    let mut case = 0;
    let mut size = 0;
    for (place, word) in env::args(&rt)?.enumerate() {
        if place == 1 {
            case = word.parse::<u64>()?;
        } else if place == 2 {
            size = word.parse::<u64>()?;
        }
    }
    let (schema, presentation) = drafted(alloc, case, size)?.into_parts();
    let depth = if case < 4 { 20 } else { 1 };
    run(&rt, schema, presentation, depth)
}
""",
    "src/cases.rt": r"""//! Presentations by cases.
use crate::draft::Draft;
use std::alloc::{AllocError, Global};

fn alike(alloc: Global, size: u64) -> Result<Draft, AllocError> {
    let mut draft = Draft::new(alloc);
    draft.entity("E")?;
    draft.key("f", "E", "E")?;
    draft.path_eq(&["E", "f", "f"], &["E", "f"])?;
    for number in 0..size {
        draft.generator(number, "E")?;
    }
    for number in 1..size {
        draft.equation(number - 1, &["f"], number, &["f"])?;
    }
    Ok(draft)
}

fn chain(alloc: Global, size: u64) -> Result<Draft, AllocError> {
    let mut draft = Draft::new(alloc);
    draft.entity("E")?;
    draft.key("f", "E", "E")?;
    for number in 0..size {
        draft.generator(number, "E")?;
    }
    for number in 1..size {
        draft.equation(number - 1, &["f"], number, &[])?;
    }
    draft.equation(size.saturating_sub(1), &["f"], 0, &[])?;
    Ok(draft)
}

fn grid(alloc: Global, size: u64) -> Result<Draft, AllocError> {
    let mut draft = Draft::new(alloc);
    draft.entity("E")?;
    draft.key("p", "E", "E")?;
    draft.key("q", "E", "E")?;
    draft.path_eq(&["E", "p", "q"], &["E", "q", "p"])?;
    draft.path_eq(
        &["E", "p", "p", "p", "p", "p", "p", "p", "p", "p", "p"],
        &["E"],
    )?;
    draft.path_eq(
        &["E", "q", "q", "q", "q", "q", "q", "q", "q", "q", "q"],
        &["E"],
    )?;
    for number in 0..size / 100 {
        draft.generator(number, "E")?;
    }
    Ok(draft)
}

fn tree(alloc: Global, size: u64) -> Result<Draft, AllocError> {
    let levels = ["A", "B", "C", "D", "E", "F"];
    let keys = [
        ["a", "b", "c", "d", "e"],
        ["f", "g", "h", "i", "j"],
        ["k", "l", "m", "n", "o"],
        ["p", "q", "r", "s", "t"],
        ["u", "v", "w", "x", "y"],
    ];
    let mut draft = Draft::new(alloc);
    for level in levels {
        draft.entity(level)?;
    }
    for level in 0..5 {
        for key in keys[level] {
            draft.key(key, levels[level], levels[level + 1])?;
        }
    }
    for number in 0..size / 3906 {
        draft.generator(number, "A")?;
    }
    Ok(draft)
}

/// The equation at a place joins two rows only once those before it have been merged.
fn dependent(draft: &mut Draft, place: u64) -> Result<(), AllocError> {
    if place == 0 {
        return draft.equation(0, &["f"], 1, &[]);
    }
    draft.equation(
        place.saturating_sub(1),
        &["f", "f"],
        place.saturating_add(1),
        &[],
    )
}

/// Equations each of which waits for the one before it: in this order, in the opposite one, or by steps of 7,919.
fn waiting(alloc: Global, size: u64, order: u64) -> Result<Draft, AllocError> {
    let mut draft = Draft::new(alloc);
    draft.entity("E")?;
    draft.key("f", "E", "E")?;
    for number in 0..size {
        draft.generator(number, "E")?;
    }
    let last = size.saturating_sub(1);
    let mut place = 0u64;
    for number in 0..last {
        if order == 0 {
            place = number;
        } else if order == 1 {
            place = last.saturating_sub(number).saturating_sub(1);
        } else {
            place = place.saturating_add(7919) % last.max(1);
        }
        dependent(&mut draft, place)?;
    }
    draft.equation(last, &["f"], last, &[])?;
    Ok(draft)
}

/// A path equation at rows each of which waits for the one before it; the generators in this order, or in the opposite one.
fn linked(alloc: Global, size: u64, opposite: bool) -> Result<Draft, AllocError> {
    let mut draft = Draft::new(alloc);
    draft.entity("E")?;
    draft.key("f", "E", "E")?;
    draft.key("h", "E", "E")?;
    draft.key("p", "E", "E")?;
    draft.path_eq(&["E", "p", "f", "h"], &["E", "f"])?;
    let last = size.saturating_sub(1);
    for number in 0..size {
        draft.generator(
            if opposite {
                last.saturating_sub(number)
            } else {
                number
            },
            "E",
        )?;
    }
    draft.equation(0, &["f"], 1, &[])?;
    for number in 1..size {
        draft.equation(number, &["p"], number - 1, &[])?;
        draft.equation(number - 1, &["h"], number, &[])?;
    }
    draft.equation(last, &["h"], last, &[])?;
    Ok(draft)
}

pub fn drafted(alloc: Global, case: u64, size: u64) -> Result<Draft, AllocError> {
    match case {
        0 => alike(alloc, size),
        1 => chain(alloc, size),
        2 => grid(alloc, size),
        3 => tree(alloc, size),
        4 => waiting(alloc, size, 0),
        5 => waiting(alloc, size, 1),
        6 => waiting(alloc, size, 2),
        7 => linked(alloc, size, false),
        _ => linked(alloc, size, true),
    }
}
""",
    "src/draft.rt": r"""//! The parts of a schema and of a presentation over it.
use cq_base::{Name, Raw, Seq};
use cq_theory::{PresentationParts, SchemaParts};
use std::alloc::{AllocError, Global};

#[derive(Drop)]
pub struct Draft {
    entities: Vec<Name>,
    keys: Vec<(Name, Name, Name)>,
    path_eqs: Vec<(Seq<Name>, Seq<Name>)>,
    generators: Vec<(Name, Name)>,
    equations: Vec<(Raw, Raw)>,
    alloc: Global,
}

impl Draft {
    pub fn new(alloc: Global) -> Draft {
        Draft {
            entities: Vec::new(alloc),
            keys: Vec::new(alloc),
            path_eqs: Vec::new(alloc),
            generators: Vec::new(alloc),
            equations: Vec::new(alloc),
            alloc,
        }
    }

    pub fn entity(&mut self, entity: &str) -> Result<(), AllocError> {
        self.entities.push(name(self.alloc, entity)?)?;
        Ok(())
    }

    pub fn key(&mut self, key: &str, from: &str, to: &str) -> Result<(), AllocError> {
        let from = name(self.alloc, from)?;
        let to = name(self.alloc, to)?;
        self.keys.push((name(self.alloc, key)?, from, to))?;
        Ok(())
    }

    pub fn path_eq(&mut self, left: &[&str], right: &[&str]) -> Result<(), AllocError> {
        let left = names(self.alloc, left)?;
        let right = names(self.alloc, right)?;
        self.path_eqs.push((left, right))?;
        Ok(())
    }

    pub fn generator(&mut self, number: u64, entity: &str) -> Result<(), AllocError> {
        let entity = name(self.alloc, entity)?;
        self.generators
            .push((numbered(self.alloc, number)?, entity))?;
        Ok(())
    }

    /// An equation between two generators, each followed along keys.
    pub fn equation(
        &mut self,
        from: u64,
        left: &[&str],
        to: u64,
        right: &[&str],
    ) -> Result<(), AllocError> {
        let left = term(self.alloc, from, left)?;
        let right = term(self.alloc, to, right)?;
        self.equations.push((left, right))?;
        Ok(())
    }

    pub fn into_parts(self) -> (SchemaParts, PresentationParts) {
        let schema = SchemaParts {
            entities: Seq::from_vec(self.entities),
            keys: Seq::from_vec(self.keys),
            path_eqs: Seq::from_vec(self.path_eqs),
            attributes: Seq::from_vec(Vec::new(self.alloc)),
            obs_eqs: Seq::from_vec(Vec::new(self.alloc)),
        };
        let presentation = PresentationParts {
            generators: Seq::from_vec(self.generators),
            equations: Seq::from_vec(self.equations),
        };
        (schema, presentation)
    }
}

fn name(alloc: Global, text: &str) -> Result<Name, AllocError> {
    match Name::new(alloc, text) {
        Ok(name) => Ok(name),
        Err(_) => Err(AllocError),
    }
}

fn numbered(alloc: Global, number: u64) -> Result<Name, AllocError> {
    let text = format!(in alloc; "x{number}")?;
    name(alloc, text.as_str())
}

fn names(alloc: Global, words: &[&str]) -> Result<Seq<Name>, AllocError> {
    let mut names = Vec::new(alloc);
    for word in words {
        names.push(name(alloc, word)?)?;
    }
    Ok(Seq::from_vec(names))
}

fn term(alloc: Global, number: u64, keys: &[&str]) -> Result<Raw, AllocError> {
    let mut term = Raw::Word(numbered(alloc, number)?);
    for key in keys {
        let args = Seq::from_vec(vec![in alloc; term]?);
        term = Raw::App(name(alloc, key)?, args);
    }
    Ok(term)
}
""",
    "src/theory.rt": r"""//! A schema and a presentation of few enough parts. Each constructor is called by a function that says little.
ghost use Rattle.std.specs.Prelude.{◌≡◌, ◌+◌, ◌<◌, ◌^◌, length, true, IfOk, IfSome};
ghost use Rattle.cq_theory.specs.TypesideParts.{literals_count};
ghost use Rattle.cq_theory.specs.Presentation.{IsPresentation};

use cq_base::Seq;
use cq_theory::{
    Presentation, PresentationParts, Schema, SchemaParts, TheoryRefusal, Typeside, TypesideParts,
};
use std::alloc::{AllocError, Global};
use std::rc::Rc;

fn new_typeside(alloc: Global, parts: TypesideParts) -> Result<Typeside, TheoryRefusal>
    requires { length parts.types + literals_count parts.literals + length parts.constants + length parts.functions < 2 ^ 32 }
{
    Typeside::new(alloc, parts)
}

fn new_schema(
    alloc: Global,
    typeside: Rc<Typeside>,
    parts: SchemaParts,
) -> Result<Schema, TheoryRefusal>
    requires { length parts.entities + length parts.keys + length parts.path_eqs + length parts.attributes + length parts.obs_eqs < 2 ^ 32 }
{
    Schema::new(alloc, typeside, parts)
}

fn new_presentation(
    alloc: Global,
    schema: &Schema,
    parts: PresentationParts,
) -> Result<Presentation, TheoryRefusal>
    requires { length parts.generators + length parts.equations < 2 ^ 32 }
    ensures { IfOk result (λ made. IsPresentation schema.now made) }
{
    Presentation::new(alloc, schema, parts)
}

fn empty_typeside(alloc: Global) -> Result<Typeside, TheoryRefusal> {
    let parts = TypesideParts {
        types: Seq::from_vec(Vec::new(alloc)),
        literals: None,
        constants: Seq::from_vec(Vec::new(alloc)),
        functions: Seq::from_vec(Vec::new(alloc)),
    };
    new_typeside(alloc, parts)
}

fn typeside(alloc: Global) -> Result<Rc<Typeside>, AllocError> {
    match empty_typeside(alloc) {
        Ok(typeside) => Ok(Rc::new(alloc, typeside)?),
        Err(_) => Err(AllocError),
    }
}

fn is_small(parts: &SchemaParts) -> bool
    ensures { result ≡ true → length parts.now.entities + length parts.now.keys + length parts.now.path_eqs + length parts.now.attributes + length parts.now.obs_eqs < 2 ^ 32 }
{
    if parts.entities.len() > 1_000 || parts.keys.len() > 1_000 || parts.path_eqs.len() > 1_000 {
        return false;
    }
    if parts.attributes.len() > 1_000 || parts.obs_eqs.len() > 1_000 {
        return false;
    }
    true
}

pub fn schema(alloc: Global, parts: SchemaParts) -> Option<Schema> {
    if !is_small(&parts) {
        return None;
    }
    let Ok(typeside) = typeside(alloc) else {
        return None;
    };
    match new_schema(alloc, typeside, parts) {
        Ok(schema) => Some(schema),
        Err(_) => None,
    }
}

fn is_short(parts: &PresentationParts) -> bool
    ensures { result ≡ true → length parts.now.generators + length parts.now.equations < 2 ^ 32 }
{
    if parts.generators.len() > 1_000_000 || parts.equations.len() > 1_000_000 {
        return false;
    }
    true
}

pub fn presentation(
    alloc: Global,
    schema: &Schema,
    parts: PresentationParts,
) -> Option<Presentation>
    ensures { IfSome result (λ made. IsPresentation schema.now made) }
{
    if !is_short(&parts) {
        return None;
    }
    match new_presentation(alloc, schema, parts) {
        Ok(presentation) => Some(presentation),
        Err(_) => None,
    }
}
""",
}


def build(folder):
    with open(os.path.join(folder, "crates.txt"), "w") as out:
        for line in open(os.path.join(TOP, "crates.txt")):
            if line.split(":")[0] in CRATES:
                out.write(line)
        out.write("timed: anyhow cq_base cq_rows cq_tables cq_theory\n")
    for crate in CRATES:
        shutil.copytree(os.path.join(TOP, "crates", crate), os.path.join(folder, "crates", crate), symlinks=True)
    crate = pathlib.Path(folder, "crates", "timed")
    for name, text in FILES.items():
        path = crate / name
        path.parent.mkdir(parents=True, exist_ok=True)
        path.write_text(text)
    subprocess.run(["rt", "run", "--", "0", "10"], cwd=crate, check=True)
    for path in sorted((crate / "out").rglob("*")):
        if path.is_file() and os.access(path, os.X_OK) and path.read_bytes()[:4] == b"\x7fELF":
            return path
    sys.exit("no program was built")


def measured(program, case, size):
    """The rows, the milliseconds of `saturate`, and the processor seconds and the peak KiB of the whole program."""
    child = subprocess.Popen([program, str(case), str(size)], stdout=subprocess.PIPE, text=True)
    text = child.stdout.read()
    _, status, usage = os.wait4(child.pid, 0)
    child.returncode = os.waitstatus_to_exitcode(status)
    found = re.search(r"rows (\d+) closed (\w+) millis (\d+)", text)
    if child.returncode != 0 or not found:
        sys.exit(f"case {case}, size {size}: {text}")
    return int(found[1]), int(found[3]), usage.ru_utime + usage.ru_stime, usage.ru_maxrss


def run(program, case, size):
    return min((measured(program, case, size) for _ in range(3)), key=lambda found: found[1])


def main():
    chosen = sys.argv[1:] or list(SIZES)
    with tempfile.TemporaryDirectory() as folder:
        program = build(folder)
        load = ", ".join(f"{load:.1f}" for load in os.getloadavg())
        print(f"load of the machine: {load}")
        print(f"{'':10}{'rows':>9}{'seconds':>9}{'ratio':>7}{'processor':>11}{'MiB':>6}{'bytes a row':>13}")
        for case, (name, full) in enumerate(SIZES.items()):
            if name not in chosen:
                continue
            before = None
            for size in (full // 10, full):
                rows, millis, processor, peak = run(program, case, size)
                ratio = f"{millis / max(before, 1):.1f}" if before is not None else ""
                before = millis
                line = f"{name:10}{rows:>9}{millis / 1000:>9.3f}{ratio:>7}{processor:>11.3f}"
                print(f"{line}{peak / 1024:>6.0f}{peak * 1024 / rows:>13.0f}", flush=True)


main()
