#!/usr/bin/env python3
"""Times the congruence closure at a tenth and in full.

Builds a small program over the library in a temporary folder, runs each case at a tenth of its size and
in full, and prints the seconds that `Flat::close` takes in it, the best of nine runs, and their ratio.
Needs the command `rt` in the path. The build takes some minutes.

Sizes in full:
  chain  600,003 nodes: 200,001 leaves, a function of each, and a function of both; 200,000
         equations, each leaf equal to the next
  tower  100,001 nodes: a leaf, and 100,000 applications over it; one equation, the leaf equal to the
         first application, which makes all of them equal from the bottom
  towers 200,002 nodes: two leaves, and 100,000 applications over each; one equation, the leaves equal
"""

import os
import pathlib
import re
import shutil
import subprocess
import sys
import tempfile

TOP = os.path.dirname(os.path.dirname(os.path.dirname(os.path.abspath(__file__))))
CRATES = ["cq_base", "cq_theory", "cq_flat"]
SIZES = {"chain": 200_000, "tower": 100_000, "towers": 100_000}

PROGRAM = r"""//! Times a closure.
#![tactic(auto)]

use cq_base::Seq;
use cq_flat::{Flat, Node};
use std::alloc::{AllocError, Global};
use std::env;
use std::io;
use std::time::Instant;

fn chain(alloc: Global, size: u64) -> Result<(Vec<Node>, Vec<(u64, u64)>), AllocError> {
    let mut nodes = Vec::new(alloc);
    let mut equations = Vec::new(alloc);
    for _leaf in 0..=size.min(1_000_000_000) {
        nodes.push(Node::Leaf)?;
    }
    let leaves = nodes.len() as u64;
    for leaf in 0..leaves {
        nodes.push(Node::Fun(0, Seq::from_vec(vec![in alloc; leaf]?)))?;
    }
    for leaf in 0..leaves {
        let image = leaves.saturating_add(leaf);
        nodes.push(Node::Fun(1, Seq::from_vec(vec![in alloc; image, leaf]?)))?;
    }
    for leaf in 0..size {
        equations.push((leaf, leaf.saturating_add(1)))?;
    }
    Ok((nodes, equations))
}

fn tower(alloc: Global, size: u64) -> Result<(Vec<Node>, Vec<(u64, u64)>), AllocError> {
    let mut nodes = vec![in alloc; Node::Leaf]?;
    for below in 0..size {
        nodes.push(Node::Fun(0, Seq::from_vec(vec![in alloc; below]?)))?;
    }
    let equations = vec![in alloc; (0, 1)]?;
    Ok((nodes, equations))
}

fn towers(alloc: Global, size: u64) -> Result<(Vec<Node>, Vec<(u64, u64)>), AllocError> {
    let mut nodes = vec![in alloc; Node::Leaf, Node::Leaf]?;
    for below in 0..size.saturating_mul(2) {
        nodes.push(Node::Fun(0, Seq::from_vec(vec![in alloc; below]?)))?;
    }
    let equations = vec![in alloc; (0, 1)]?;
    Ok((nodes, equations))
}

fn main(rt: HostRuntime) -> io::Result<()> {
    let alloc = rt.alloc();
    let mut kind = 0u64;
    let mut size = 0u64;
    for (place, word) in env::args(&rt)?.enumerate() {
        let number = word.as_str().parse::<u64>().unwrap_or(0);
        if place == 1 {
            kind = number;
        } else {
            size = number;
        }
    }
    let (nodes, equations) = if kind == 0 {
        chain(alloc, size)?
    } else if kind == 1 {
        tower(alloc, size)?
    } else {
        towers(alloc, size)?
    };
    let count = nodes.len();
    if !Flat::can_close(nodes.as_slice(), equations.as_slice()) {
        return println!(rt; "refused");
    }
    let start = Instant::now(&rt)?;
    let flat = Flat::close(alloc, nodes, equations)?;
    let taken = start.elapsed(&rt)?;
    let micros = taken.as_micros();
    let nulls = flat.nulls().len();
    let entries = flat.entries().len();
    println!(rt; "nodes {count} nulls {nulls} entries {entries} micros {micros}")
}
"""


def build(folder):
    with open(os.path.join(folder, "crates.txt"), "w") as out:
        for line in open(os.path.join(TOP, "crates.txt")):
            if line.split(":")[0] in CRATES:
                out.write(line)
        out.write("timed: cq_base cq_theory cq_flat\n")
    for crate in CRATES:
        shutil.copytree(os.path.join(TOP, "crates", crate), os.path.join(folder, "crates", crate), symlinks=True)
    src = os.path.join(folder, "crates", "timed", "src")
    os.makedirs(src)
    with open(os.path.join(src, "main.rt"), "w") as out:
        out.write(PROGRAM)
    crate = os.path.join(folder, "crates", "timed")


    subprocess.run(["rt", "run", "--", "0", "10"], cwd=crate, check=True)
    for path in sorted(pathlib.Path(crate, "out").rglob("*")):
        if path.is_file() and os.access(path, os.X_OK) and path.read_bytes()[:4] == b"\x7fELF":
            return path
    sys.exit("no program was built")


def run(program, kind, size):
    best = None
    for _ in range(9):
        done = subprocess.run([program, str(kind), str(size)], capture_output=True, text=True, check=True)
        found = re.search(r"nodes (\d+) nulls (\d+) entries (\d+) micros (\d+)", done.stdout)
        if not found:
            sys.exit(done.stdout + done.stderr)
        counts = [int(word) for word in found.groups()]
        if best is None or counts[3] < best[3]:
            best = counts
    return best


def main():
    with tempfile.TemporaryDirectory() as folder:
        program = build(folder)
        print(f"{'':8}{'nodes':>10}{'nulls':>10}{'entries':>10}{'seconds':>10}{'ratio':>8}")
        for kind, (name, full) in enumerate(SIZES.items()):
            before = None
            for size in (full // 10, full):
                nodes, nulls, entries, micros = run(program, kind, size)
                ratio = f"{micros / before:.1f}" if before else ""
                before = micros
                print(f"{name:8}{nodes:>10}{nulls:>10}{entries:>10}{micros / 1_000_000:>10.4f}{ratio:>8}", flush=True)


main()
