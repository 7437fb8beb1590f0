#!/usr/bin/env python3
"""Times lexing and parsing of files of 1 MiB and of 8 MiB, and measures their peak memory.

Builds a small program over the library in a temporary folder, runs each kind of file at both sizes, and
prints the milliseconds that `lex` and `parse` take together (the best of three runs), the ratio of the two
sizes, and the peak memory for each byte of the file, less that of an empty file. Needs the command `rt`
in the path. The build takes some minutes.

The kinds of files:
  equations  one instance with equations of two short terms
  comments   block comments alone
  escapes    one typeside whose constants are texts full of escapes
  brackets   `(` alone
"""

import os
import pathlib
import re
import shutil
import subprocess
import sys
import tempfile

TOP = os.path.dirname(os.path.dirname(os.path.dirname(os.path.abspath(__file__))))
CRATES = ["cq_base", "cq_lex", "cq_rules", "cq_syntax", "cq_productions", "cq_parse"]
KINDS = ["equations", "comments", "escapes", "brackets"]
MIB = 1 << 20

PROGRAM = r"""//! Times the reading of a file.
#![tactic(auto)]

use cq_lex::lex;
use cq_parse::parse;
use std::alloc::{AllocError, Global};
use std::env;
use std::io;
use std::time::Instant;

/// A file of about so many bytes.
fn file_of(alloc: Global, kind: u64, size: usize) -> Result<String, AllocError> {
    let mut text = String::new(alloc);
    let (head, item, tail) = match kind {
        0 => ("instance I = literal : S { equations ", "f(a).g = b\n", " }"),
        1 => ("", "/* a comment */\n", ""),
        2 => ("typeside T = literal { constants ", "\"\\n\\t\\\"\\\\\\r\" ", ": n }"),
        _ => ("", "(", ""),
    };
    text.push_str(head)?;
    let ends = head.len().saturating_add(tail.len());
    let count = size.saturating_sub(ends) / item.len().max(1);
    for _ in 0..count {
        text.push_str(item)?;
    }
    text.push_str(tail)?;
    Ok(text)
}

/// How many tokens there are, and whether they are a program.
fn read(alloc: Global, text: &str) -> (usize, bool) {
    if text.len() > 8388608 {
        return (0, false);
    }
    match lex(alloc, text.as_bytes()) {
        Ok(tokens) => (tokens.len(), parse(alloc, tokens.as_slice()).is_ok()),
        Err(_) => (0, false),
    }
}

fn main(rt: HostRuntime) -> io::Result<()> {
    let alloc = rt.alloc();
    let mut kind = 0u64;
    let mut size = 0usize;
    for (place, word) in env::args(&rt)?.enumerate() {
        let number = word.as_str().parse::<u64>().unwrap_or(0);
        if place == 1 {
            kind = number;
        } else {
            size = number as usize;
        }
    }
    let text = file_of(alloc, kind, size)?;
    let start = Instant::now(&rt)?;
    let (tokens, accepted) = read(alloc, text.as_str());
    let taken = start.elapsed(&rt)?;
    let micros = taken.as_micros();
    let bytes = text.len();
    println!(rt; "bytes {bytes} tokens {tokens} accepted {accepted} micros {micros}")
}
"""


def build(folder):
    with open(os.path.join(folder, "crates.txt"), "w") as out:
        for line in open(os.path.join(TOP, "crates.txt")):
            if line.split(":")[0] in CRATES:
                out.write(line)
        out.write("timed: cq_lex cq_parse\n")
    for crate in CRATES:
        shutil.copytree(os.path.join(TOP, "crates", crate), os.path.join(folder, "crates", crate), symlinks=True)
    src = os.path.join(folder, "crates", "timed", "src")
    os.makedirs(src)
    with open(os.path.join(src, "main.rt"), "w") as out:
        out.write(PROGRAM)
    crate = os.path.join(folder, "crates", "timed")
    subprocess.run(["rt", *(sys.argv[1:] or ["run"]), "--", "0", "10"], cwd=crate, check=True)
    for path in sorted(pathlib.Path(crate, "out").rglob("*")):
        if path.is_file() and os.access(path, os.X_OK) and path.read_bytes()[:4] == b"\x7fELF":
            return path
    sys.exit("no program was built")


def run(program, kind, size):
    """The bytes, tokens, microseconds and peak kibibytes of the quickest of three runs."""
    best = None
    for _ in range(3):
        child = subprocess.Popen([program, str(kind), str(size)], stdout=subprocess.PIPE, text=True)
        words = child.stdout.read()
        _, status, usage = os.wait4(child.pid, 0)
        child.returncode = os.waitstatus_to_exitcode(status)
        found = re.search(r"bytes (\d+) tokens (\d+) accepted (\w+) micros (\d+)", words)
        if not found:
            sys.exit(words)
        if (found[3] == "true") != (KINDS[kind] != "brackets"):
            sys.exit(f"{KINDS[kind]}: accepted {found[3]}")
        counts = [int(found[1]), int(found[2]), int(found[4]), usage.ru_maxrss]
        if best is None or counts[2] < best[2]:
            best = counts
    return best


def main():
    with tempfile.TemporaryDirectory() as folder:
        program = build(folder)
        base = run(program, 1, 0)[3]
        print(f"{'':10}{'bytes':>10}{'tokens':>10}{'ms':>9}{'ratio':>7}{'bytes a byte':>14}")
        for kind, name in enumerate(KINDS):
            before = None
            for size in (MIB, 8 * MIB):
                length, tokens, micros, peak = run(program, kind, size)
                ratio = f"{micros / before:.1f}" if before else ""
                before = micros
                memory = (peak - base) * 1024 / length
                print(f"{name:10}{length:>10}{tokens:>10}{micros / 1000:>9.1f}{ratio:>7}{memory:>14.0f}", flush=True)


main()
