#!/usr/bin/env python3
"""Types each command of README.md, docs/TUTORIAL.md and docs/RECIPES.md, and compares what it prints with the page.

    docs/check.py [--program FILE] [--why FILE] [PAGE..]
    docs/check.py [--program FILE] [--why FILE] --record

The FILEs are the programs that `./cqlrun` and `./cqlwhy` stand for; by default they are these themselves, which build
them. The commands of a page are typed in turn by bash, in a new folder with a copy of examples/. A block of code whose
first word is one of a command is typed as it stands, and has to end with status 0, or with a refusal: of `cqlrun` this
is one line, and of `cqlwhy` the first one. Each block that follows it has to be lines of what it printed, one after the other, where blanks at their ends aren't compared; or pieces of a
file of examples/, or of one that was exported, but for comments and where its lines end. A line `..` stands for any
lines. SQL that says the same as CQL is counted and not run. A command that this machine doesn't have is told, and what
needs it isn't run. Where the machine has PostgreSQL, a server is started for the time of the check, in a folder of its
own. Of docs/terminal.txt each line that begins with `$ ` is typed, and all that it prints stands below it, to the byte;
with --record it is written anew. What docs/scale.py printed stands in docs/scale.txt, and each row of its table in
docs/SCALE.md is one of these.

In each page, README.md, CONTRIBUTING.md, docs/*.md and editors/*.md, it also finds links and names that lead nowhere:
of files, crates and functions. The status is 0 where nothing was found.
"""
import argparse
import collections
import contextlib
import os
import pathlib
import shutil
import subprocess
import sys
import tempfile

from check_names import faults_of

ROOT = pathlib.Path(__file__).resolve().parent.parent
TYPED = ["README.md", "docs/TUTORIAL.md", "docs/RECIPES.md"]
COMMANDS = "./cqlrun ./cqlwhy cat cp diff for iconv mkdir mlr psql rm sed sqlite3".split()
LEFT = "git ln ls rt".split()
SQL = "create insert select".split()
RECORDING = ROOT / "docs/terminal.txt"
RECORDED = [
    "cat examples/lists/Customer.csv",
    "cat examples/lists/Subscriber.csv",
    "./cqlrun run examples/lists.cql",
    "ls cql-out/csv/Merged cql-out/cql",
    "cat cql-out/csv/Merged/Person.csv",
    "./cqlrun explain examples/lists.cql Merged g1.mail.owner g3.news.owner",
    "./cqlrun explain examples/lists.cql Merged g2.mail.owner g3.news.owner",
    "./cqlrun run examples/conflict.cql",
    "./cqlrun run examples/departments.cql",
    "./cqlrun explain examples/departments.cql Both physics phys",
    "./cqlrun example 1000",
]
SIMULATED = ("| pairs", "| chain", "| star", "| random")
Block = collections.namedtuple("Block", "line lines")


def blocks_of(text):
    """The blocks of code, each of them a run of lines that are four columns in, without them."""
    lines, found = text.split("\n"), []
    for number, line in enumerate(lines, 1):
        if not line.startswith("    "):
            continue
        if found and found[-1].line + len(found[-1].lines) == number:
            found[-1].lines.append(line[4:])
        else:
            found.append(Block(number, [line[4:]]))
    # What is four columns in below an entry of a list is text.
    return [block for block in found if lines[block.line - 2] == ""]


def stands_in(shown, lines, at=0):
    """Whether the shown lines stand in these, one after the other from some place on; `..` is any lines."""
    parts, part = [], []
    for line in shown:
        if line.strip() == "..":
            parts.append(part)
            part = []
        else:
            part.append(line.strip())
    parts.append(part)
    lines = [line.strip() for line in lines]
    for part in parts:
        places = range(at, len(lines) - len(part) + 1)
        at = next((place + len(part) for place in places if lines[place : place + len(part)] == part), None)
        if at is None:
            return False
    return True


class Typist:
    """Types the commands of a page, in a folder of its own."""

    def __init__(self, folder, environment):
        self.folder = folder
        self.environment = environment
        self.printed = []
        self.counts = collections.Counter()
        self.missing = set()
        self.faults = []

    def run(self, script):
        words = ["bash", "-c", script]
        return subprocess.run(words, cwd=self.folder, env=self.environment, capture_output=True, text=True)

    def lacks(self, block):
        words = set(" ".join(block.lines).split())
        lacking = {word for word in words & set(COMMANDS) if "/" not in word and not shutil.which(word)}
        lacking -= {"for"}
        if "psql" in words and "PGHOST" not in self.environment:
            lacking.add("psql")
        return lacking

    def type(self, page, block):
        lacking = self.lacks(block)
        if lacking:
            self.missing |= lacking
            self.counts["not run"] += 1
            self.printed = None
            return
        ran = self.run("set -e -o pipefail\n" + "\n".join(block.lines))
        self.printed = ran.stdout.split("\n")
        self.counts["typed"] += 1
        is_refusal = ran.returncode == 1 and ran.stdout.startswith("refused ")
        is_refusal &= ran.stdout.count("\n") == 1 or block.lines[-1].startswith("./cqlwhy ")
        if ran.returncode != 0 and not is_refusal:
            self.faults.append(f"{page}:{block.line}: status {ran.returncode}: {ran.stderr.strip()}")

    def stands_in_file(self, block):
        """Whether the block stands in a file of examples/ or in one that was exported, but for where lines end."""
        parts = [part.strip() for part in f" {' '.join(' '.join(block.lines).split())} ".split(" .. ") if part.strip()]
        for name in ("examples", "cql-out"):
            for file in (self.folder / name).rglob("*.c[qs][lv]"):
                lines = file.read_bytes().decode(errors="replace").split("\n")
                text = " ".join(" ".join(line for line in lines if not line.startswith("//")).split())
                for part in parts:
                    _, found, text = text.partition(part)
                    if not found:
                        break
                else:
                    return True
        return False

    def compare(self, page, block):
        if self.printed is not None and stands_in(block.lines, self.printed):
            self.counts["shown"] += 1
        elif self.stands_in_file(block):
            self.counts["of a file"] += 1
        elif block.lines[0].split()[0] in SQL:
            self.counts["SQL"] += 1
        elif self.printed is None:
            self.counts["not compared"] += 1
        else:
            self.faults.append(f"{page}:{block.line}: neither printed nor in a file: {block.lines[0]}")

    def read(self, page):
        for block in blocks_of((ROOT / page).read_text()):
            first = block.lines[0].split()[0]
            if first in COMMANDS:
                self.type(page, block)
            elif first in LEFT:
                self.counts["not typed"] += 1
            else:
                self.compare(page, block)


@contextlib.contextmanager
def database(folder):
    """The variables by which psql finds a server that runs for this time; none where there is no PostgreSQL."""
    found = sorted(pathlib.Path("/usr/lib/postgresql").glob("*/bin/initdb"))
    bin_folder = found[-1].parent if found else None
    if not (bin_folder and shutil.which("psql")):
        yield {}
        return
    own = ["runuser", "-u", "postgres", "--"] if os.geteuid() == 0 else []
    folder.mkdir()
    if own:
        shutil.chown(folder, "postgres")
        os.chmod(folder.parent, 0o755)
    quiet = {"cwd": folder, "stdout": subprocess.DEVNULL, "check": True}
    initdb = ["initdb", "-D", folder / "data", "-A", "trust", "-U", "postgres", "-E", "UTF8", "--locale", "C.UTF-8"]
    control = [*own, bin_folder / "pg_ctl", "-D", folder / "data", "-w", "-s"]
    subprocess.run([*own, bin_folder / initdb[0], *initdb[1:]], **quiet)
    subprocess.run([*control, "-l", folder / "log", "-o", f"-k {folder} -c listen_addresses=''", "start"], **quiet)
    try:
        yield {"PGHOST": str(folder), "PGUSER": "postgres", "PGDATABASE": "postgres"}
    finally:
        subprocess.run([*control, "stop"], **quiet)


@contextlib.contextmanager
def typing(programs, has_database=False):
    """A typist in a new folder."""
    with tempfile.TemporaryDirectory() as place, contextlib.ExitStack() as stack:
        folder = pathlib.Path(place, "root")
        shutil.copytree(ROOT / "examples", folder / "examples")
        for name, program in programs.items():
            (folder / name).symlink_to(program)
        server = stack.enter_context(database(pathlib.Path(place, "server"))) if has_database else {}
        yield Typist(folder, {**os.environ, **server})


def check_page(page, programs):
    with typing(programs, "psql" in (ROOT / page).read_text()) as typist:
        typist.read(page)
    counts = ", ".join(f"{count} {what}" for what, count in typist.counts.items())
    print(f"{page}: {counts}" + "".join(f"; this machine has no {word}" for word in sorted(typist.missing)))
    return typist.faults


def record(commands, programs):
    """What a terminal shows when these commands are typed."""
    with typing(programs) as typist:
        return "".join(f"$ {command}\n{typist.run(command).stdout}" for command in commands)


def check_recording(programs):
    shown = RECORDING.read_text()
    commands = [line[2:] for line in shown.split("\n") if line.startswith("$ ")]
    print(f"{RECORDING.relative_to(ROOT)}: {len(commands)} typed")
    return [] if record(commands, programs) == shown else [f"{RECORDING.relative_to(ROOT)}: shows something else"]


def check_scale():
    """The rows of the simulation in docs/SCALE.md are ones that it printed, as they are stored."""
    printed = (ROOT / "docs/scale.txt").read_text().split("\n")
    shown = [line for line in (ROOT / "docs/SCALE.md").read_text().split("\n") if line.startswith(SIMULATED)]
    return [f"docs/SCALE.md: docs/scale.py printed no {line}" for line in shown if line not in printed]


def main():
    words = argparse.ArgumentParser()
    words.add_argument("--program", type=pathlib.Path, default=ROOT / "cqlrun")
    words.add_argument("--why", type=pathlib.Path, default=ROOT / "cqlwhy")
    words.add_argument("--record", action="store_true")
    words.add_argument("pages", nargs="*", default=TYPED)
    words = words.parse_args()
    programs = {"cqlrun": words.program.resolve(), "cqlwhy": words.why.resolve()}
    if words.record:
        RECORDING.write_text(record(RECORDED, programs))
    faults = [fault for page in words.pages for fault in check_page(page, programs)]
    faults += check_recording(programs) + check_scale() + faults_of(ROOT)
    for fault in faults:
        print(fault)
    sys.exit(1 if faults else 0)


if __name__ == "__main__":
    main()
