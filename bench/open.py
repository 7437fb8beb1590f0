#!/usr/bin/env python3
"""Times instances whose cells are texts that nobody declared.

Builds a small program over the library in a temporary folder, which makes a presentation, its listed model and its transcript, and
runs it at 2,000, 20,000 and 200,000 rows of four attributes, each cell given by an equation with a text of 24 bytes. The names of the
rows and the texts stand in the memory of a file, as those of program texts and imports do:

  each      every cell another text
  shared    1,000 different texts

For each it prints the seconds of the whole program (the best of three), their ratio to those at a tenth, the peak memory, and its
bytes a row; the memory of this script itself is its least. Needs the command `rt` in the path; the build takes some minutes.

    python3 bench/open.py
"""
import os
import pathlib
import shutil
import subprocess
import sys
import tempfile
import time

TOP = pathlib.Path(__file__).resolve().parent.parent
CRATES = [
    "cq_base",
    "cq_theory",
    "cq_terms",
    "cq_tables",
    "cq_rows",
    "cq_flat",
    "cq_instance",
    "cq_names",
    "cq_model",
    "cq_text",
]

FILES = {
    "src/main.rt": r"""//! Makes an instance of so many rows, with so many different texts, and its transcript.
#![tactic(auto)]

mod draft;
mod theory;

ghost use Rattle.std.specs.Prelude.{◌≤◌};

use draft::{generators, name, schema_parts};
use std::alloc::{AllocError, Global};
use std::env;
use theory::transcribed;

fn main(rt: HostRuntime) -> anyhow::Result<()> {
    let alloc = rt.alloc();
    let mut rows = 0;
    let mut texts = 0;
    for (place, word) in env::args(&rt)?.enumerate() {
        if place == 1 {
            rows = word.parse::<u64>()?;
        } else if place == 2 {
            texts = word.parse::<u64>()?;
        }
    }
    let schema = schema_parts(alloc)?;
    let parts = generators(alloc, rows, texts)?;
    match transcribed(alloc, schema, parts) {
        Some(bytes) => println!(rt; "bytes {bytes}")?,
        None => println!(rt; "refused")?,
    }
    Ok(())
}
""",
    "src/draft.rt": r"""//! The parts of a schema with four attributes, and of a presentation over it.
use cq_base::{Name, Raw, Seq, Source};
use cq_theory::{PresentationParts, SchemaParts};
use std::alloc::{AllocError, Global};

const ATTRIBUTES: [&str; 4] = ["a", "b", "c", "d"];

pub fn name(alloc: Global, text: &str) -> Result<Name, AllocError> {
    match Name::new(alloc, text) {
        Ok(name) => Ok(name),
        Err(_) => Err(AllocError),
    }
}

pub fn schema_parts(alloc: Global) -> Result<SchemaParts, AllocError> {
    let mut entities = Vec::new(alloc);
    entities.push(name(alloc, "E")?)?;
    let mut attributes = Vec::new(alloc);
    for attribute in ATTRIBUTES {
        attributes.push((name(alloc, attribute)?, name(alloc, "E")?, name(alloc, "s")?))?;
    }
    Ok(SchemaParts {
        entities: Seq::from_vec(entities),
        keys: Seq::from_vec(Vec::new(alloc)),
        path_eqs: Seq::from_vec(Vec::new(alloc)),
        attributes: Seq::from_vec(attributes),
        obs_eqs: Seq::from_vec(Vec::new(alloc)),
    })
}

fn row_text(alloc: Global, number: u64) -> Result<String, AllocError> {
    format!(in alloc; "x{number}")
}

fn cell_text(alloc: Global, number: u64) -> Result<String, AllocError> {
    format!(in alloc; "text of a cell {number:09}")
}

/// The number of the text of a cell.
fn text_of(number: u64, texts: u64) -> u64 {
    if texts == 0 { number } else { number % texts }
}

/// The bytes of a file that has a line for each row, with the text of each cell.
fn file(alloc: Global, rows: u64, texts: u64) -> Result<Vec<u8>, AllocError> {
    let mut bytes = Vec::new(alloc);
    let mut cell = 0;
    for number in 0..rows {
        bytes.extend_from_slice(row_text(alloc, number)?.as_str().as_bytes())?;
        for attribute in ATTRIBUTES {
            bytes.push(b',')?;
            bytes.extend_from_slice(cell_text(alloc, text_of(cell, texts))?.as_str().as_bytes())?;
            cell = cell.wrapping_add(1);
        }
        bytes.push(b'\n')?;
    }
    Ok(bytes)
}

/// A file that is read from its beginning on.
#[derive(Drop)]
struct Reader {
    source: Source,
    rest: usize,
}

impl Reader {
    /// A name as the readers of files make it: it stands in the memory of the file. The byte behind it is passed.
    fn next(&mut self, text: &str) -> Result<Name, AllocError> {
        let name = self.source.name(self.rest, text);
        self.rest = self.rest.saturating_sub(text.len()).saturating_sub(1);
        match name {
            Ok(name) => Ok(name),
            Err(_) => Err(AllocError),
        }
    }
}

fn cell(
    alloc: Global,
    reader: &mut Reader,
    attribute: &Name,
    row: &Name,
    text: u64,
) -> Result<(Raw, Raw), AllocError> {
    let text = cell_text(alloc, text)?;
    let term = Raw::Word(row.clone()?);
    let args = Seq::from_vec(vec![in alloc; term]?);
    let left = Raw::App(attribute.clone()?, args);
    Ok((left, Raw::Text(reader.next(text.as_str())?)))
}

fn push_cells(
    alloc: Global,
    reader: &mut Reader,
    equations: &mut Vec<(Raw, Raw)>,
    attributes: &[Name],
    row: &Name,
    places: (u64, u64),
) -> Result<(), AllocError> {
    let (mut number, texts) = places;
    for attribute in attributes {
        equations.push(cell(alloc, reader, attribute, row, text_of(number, texts))?)?;
        number = number.wrapping_add(1);
    }
    Ok(())
}

pub fn generators(alloc: Global, rows: u64, texts: u64) -> Result<PresentationParts, AllocError> {
    let rows_here = rows as usize;
    let mut generators = Vec::with_capacity(alloc, rows_here)?;
    let mut equations = Vec::with_capacity(alloc, rows_here.wrapping_mul(ATTRIBUTES.len()))?;
    let bytes = file(alloc, rows, texts)?;
    let mut reader = Reader { source: Source::new(alloc, bytes.as_slice())?, rest: bytes.len() };
    drop(bytes);
    let mut attributes = Vec::new(alloc);
    for attribute in ATTRIBUTES {
        attributes.push(name(alloc, attribute)?)?;
    }
    let entity = name(alloc, "E")?;
    for number in 0..rows {
        let text = row_text(alloc, number)?;
        let row = reader.next(text.as_str())?;
        push_cells(
            alloc,
            &mut reader,
            &mut equations,
            attributes.as_slice(),
            &row,
            (number.wrapping_mul(4), texts),
        )?;
        generators.push((row, entity.clone()?))?;
    }
    Ok(PresentationParts {
        generators: Seq::from_vec(generators),
        equations: Seq::from_vec(equations),
    })
}
""",
    "src/theory.rt": r"""//! An instance of few enough parts, and the length of its transcript. Each constructor is called by a function that says little.
ghost use Rattle.std.specs.Prelude.{◌≡◌, ◌+◌, ◌<◌, ◌^◌, length, true, IfOk, IfSome};
ghost use Rattle.cq_theory.specs.Presentation.{IsPresentation};
ghost use Rattle.cq_theory.specs.TypesideParts.{literals_count};

use crate::draft::name;
use cq_base::Seq;
use cq_model::{Instance, build};
use cq_text::transcript;
use cq_theory::{
    Presentation, PresentationParts, Schema, SchemaParts, Typeside, TypesideParts,
};
use std::alloc::{AllocError, Global};
use std::rc::Rc;

fn typeside(alloc: Global) -> Option<Typeside> {
    let mut types = Vec::new(alloc);
    let Ok(text) = name(alloc, "s") else { return None };
    let Ok(literals) = name(alloc, "s") else { return None };
    if types.push(text).is_err() {
        return None;
    }
    let parts = TypesideParts {
        types: Seq::from_vec(types),
        literals: Some(literals),
        constants: Seq::from_vec(Vec::new(alloc)),
        functions: Seq::from_vec(Vec::new(alloc)),
    };
    if parts.types.len() > 9 || parts.constants.len() > 0 || parts.functions.len() > 0 {
        return None;
    }
    made_typeside(alloc, parts)
}

fn made_typeside(alloc: Global, parts: TypesideParts) -> Option<Typeside>
    requires { length parts.types + literals_count parts.literals + length parts.constants + length parts.functions < 2 ^ 32 }
{
    match Typeside::new(alloc, parts) {
        Ok(typeside) => Some(typeside),
        Err(_) => None,
    }
}

fn made_schema(alloc: Global, typeside: Rc<Typeside>, parts: SchemaParts) -> Option<Schema>
    requires { length parts.entities + length parts.keys + length parts.path_eqs + length parts.attributes + length parts.obs_eqs < 2 ^ 32 }
{
    match Schema::new(alloc, typeside, parts) {
        Ok(schema) => Some(schema),
        Err(_) => None,
    }
}

fn schema(alloc: Global, parts: SchemaParts) -> Option<Rc<Schema>> {
    let entities = parts.entities.len();
    let keys = parts.keys.len();
    let path_eqs = parts.path_eqs.len();
    let attributes = parts.attributes.len();
    let obs_eqs = parts.obs_eqs.len();
    if entities > 9 || keys > 9 || path_eqs > 9 || attributes > 9 || obs_eqs > 9 {
        return None;
    }
    let Ok(typeside) = Rc::new(alloc, typeside(alloc)?) else { return None };
    let schema = made_schema(alloc, typeside, parts)?;
    match Rc::new(alloc, schema) {
        Ok(schema) => Some(schema),
        Err(_) => None,
    }
}

fn presentation(alloc: Global, schema: &Schema, parts: PresentationParts) -> Option<Presentation>
    ensures { IfSome result (IsPresentation schema.now) }
{
    let generators = parts.generators.len();
    let equations = parts.equations.len();
    if generators > 1_000_000 || equations > 10_000_000 {
        return None;
    }
    match Presentation::new(alloc, schema, parts) {
        Ok(presentation) => Some(presentation),
        Err(_) => None,
    }
}

fn model(alloc: Global, schema: Rc<Schema>, presentation: Presentation) -> Option<Instance>
    requires { IsPresentation schema.value presentation }
{
    match build(alloc, schema, presentation, 16) {
        Ok(instance) => Some(instance),
        Err(_) => None,
    }
}

fn shown(alloc: Global, instance: &Instance) -> Option<u64> {
    let Ok(name) = name(alloc, "I") else { return None };
    match transcript(alloc, &name, &name, instance) {
        Ok(text) => Some(text.len() as u64),
        Err(_) => None,
    }
}

/// The bytes of the transcript of an instance.
pub fn transcribed(alloc: Global, schema_parts: SchemaParts, parts: PresentationParts) -> Option<u64> {
    let schema = schema(alloc, schema_parts)?;
    let presentation = presentation(alloc, &schema, parts)?;
    let instance = model(alloc, schema, presentation)?;
    shown(alloc, &instance)
}
""",
}


def build(folder):
    with open(os.path.join(folder, "crates.txt"), "w") as out:
        for line in open(TOP / "crates.txt"):
            if line.split(":")[0] in CRATES:
                out.write(line)
        out.write("timed: anyhow cq_base cq_model cq_text cq_theory\n")
    for crate in CRATES:
        shutil.copytree(TOP / "crates" / crate, os.path.join(folder, "crates", crate), symlinks=True)
    crate = pathlib.Path(folder, "crates", "timed")
    for name, text in FILES.items():
        path = crate / name
        path.parent.mkdir(parents=True, exist_ok=True)
        path.write_text(text)
    subprocess.run(["rt", "run", "--", "10", "0"], cwd=crate, check=True)
    for path in sorted((crate / "out").rglob("*")):
        if path.is_file() and os.access(path, os.X_OK) and path.read_bytes()[:4] == b"\x7fELF":
            return path
    sys.exit("no program was built")


def measured(program, rows, texts):
    """Seconds and the peak bytes of the program."""
    start = time.perf_counter()
    child = subprocess.Popen([program, str(rows), str(texts)], stdout=subprocess.PIPE, text=True)
    text = child.stdout.read()
    _, status, usage = os.wait4(child.pid, 0)
    seconds = time.perf_counter() - start
    child.returncode = os.waitstatus_to_exitcode(status)
    if child.returncode != 0 or not text.startswith("bytes "):
        sys.exit(f"{rows} rows, {texts} texts: {text}")
    return seconds, usage.ru_maxrss * 1024


def main():
    with tempfile.TemporaryDirectory() as folder:
        program = build(folder)
        print("| case | rows | seconds | of a tenth | peak memory, MiB | bytes a row |")
        print("|---|---|---|---|---|---|")
        for case, texts in (("each", 0), ("shared", 1000)):
            before = None
            for rows in (2_000, 20_000, 200_000):
                seconds, peak = min(measured(program, rows, texts) for _ in range(3))
                ratio = f"{seconds / before:.1f}" if before else ""
                before = seconds
                print(f"| {case} | {rows:,} | {seconds:.3f} | {ratio} | {peak / 2**20:.0f} | {peak / rows:.0f} |", flush=True)


main()
