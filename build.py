#!/usr/bin/env python3
"""Proves and builds the program of ./cqlrun, or that of ./cqlwhy, with every crate below it, several crates at a time.

    ./build.py [--jobs N] [cqlrun|cqlwhy]

The crates are copied to out/build, without their wrong bodies, which only the gate tries, and proved there by `rt ci`,
which begins a crate as soon as those that it uses are proved. N is how many are proved at a time: by default one for
each processor, and not more than one for each 4 GiB of memory. For each crate a line on standard error says how many
are proved; what `rt` says stands in out/build.log. What was proved on this machine before, by the gate too, isn't
proved again. Where a crate isn't proved, the end of the log is shown, and the status is 70.
"""
import argparse
import os
import pathlib
import re
import shutil
import subprocess
import sys
import time

ROOT = pathlib.Path(__file__).resolve().parent
ROOM = ROOT / "out" / "build"
LOG = ROOT / "out" / "build.log"
PROGRAMS = ["cqlrun", "cqlwhy"]
FAILED = 70
MEMORY_OF_ONE = 4 << 30
SHOWN = 20
PROVED = re.compile(r"rt: (\w+) (?:proved|is kept: .*)$")


def crates_below(program):
    """The lines of crates.txt for the crates of which the program is made, by crate."""
    lines = (line for line in (ROOT / "crates.txt").read_text().splitlines() if ":" in line.split("#")[0])
    lines = {line.split(":")[0].split()[0]: line for line in lines}
    below, waiting = set(), [program]
    while waiting:
        crate = waiting.pop()
        if crate in lines and crate not in below:
            below.add(crate)
            waiting += lines[crate].split("#")[0].partition(":")[2].split()
    return {crate: line for crate, line in lines.items() if crate in below}


def default_jobs():
    memory = os.sysconf("SC_PAGE_SIZE") * os.sysconf("SC_PHYS_PAGES")
    return max(1, min(len(os.sched_getaffinity(0)), memory // MEMORY_OF_ONE))


def copy_to_room(lines):
    """Puts the crates, without their wrong bodies, and their lines of crates.txt into the room."""
    shutil.rmtree(ROOM, ignore_errors=True)
    for crate in lines:
        left_out = shutil.ignore_patterns("must-fail", "out")
        shutil.copytree(ROOT / "crates" / crate, ROOM / "crates" / crate, ignore=left_out)
    (ROOM / "crates.txt").write_text("".join(f"{line}\n" for line in lines.values()))
    shutil.copy(ROOT / "HANDLES", ROOM)
    # `rt ci` runs at the top of a repository alone, and tells it by this folder.
    (ROOM / ".git").mkdir()


def tell(text):
    print(text, file=sys.stderr, flush=True)


def prove(lines, jobs):
    """Proves the crates in the room, and builds their program. Answers whether all are proved."""
    since, proved = time.monotonic(), 0
    streams = {"stdin": subprocess.DEVNULL, "stdout": subprocess.PIPE, "stderr": subprocess.STDOUT, "text": True}
    words = {"cwd": ROOM, "env": {**os.environ, "RT_JOBS": str(jobs)}, "errors": "replace"}
    with open(LOG, "w") as log, subprocess.Popen(["rt", "ci"], **streams, **words) as run:
        for line in run.stdout:
            log.write(line)
            log.flush()
            found = PROVED.match(line.rstrip("\n"))
            if found and found[1] in lines:
                proved += 1
                tell(f"{proved} of {len(lines)} proved after {time.monotonic() - since:.0f} s: {found[1]}")
    return run.returncode == 0


def main():
    words = argparse.ArgumentParser()
    words.add_argument("--jobs", type=int, default=default_jobs())
    words.add_argument("program", nargs="?", choices=PROGRAMS, default=PROGRAMS[0])
    asked = words.parse_args()
    jobs, program = max(1, asked.jobs), asked.program
    lines = crates_below(program)
    tell(f"building {program}: {len(lines)} crates, each of which is proved first, {jobs} at a time")
    copy_to_room(lines)
    if not prove(lines, jobs):
        tell(f"{program} is not built; the end of {LOG.relative_to(ROOT)}:")
        tell("\n".join(LOG.read_text(errors="replace").splitlines()[-SHOWN:]))
        sys.exit(FAILED)
    made = ROOT / "crates" / program / "out"
    made.mkdir(exist_ok=True)
    shutil.copy(ROOM / "crates" / program / "out" / program, made / program)


if __name__ == "__main__":
    main()
