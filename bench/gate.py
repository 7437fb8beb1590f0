#!/usr/bin/env python3
"""Says where the time of the gate goes: runs `rt ci` and adds up the processor time of each check that it starts.

    bench/gate.py [NAME..]

With names, `rt ci NAME..`. Once it has ended, it prints a row for each crate, with the processor minutes of its proof, of its tests
(a proof of the crate with them, and the making of a program), of the proof over which its wrong bodies are tried, and of these
together, and then the functions that took longest, with the part of each: `Lts` is the making of its steps, `Proof` the search for
what they leave. What was kept of an earlier run isn't done again, and isn't counted; other checks on the machine are. A check's time is
read every second, so that of each the last second is lost.
"""
import collections
import os
import pathlib
import re
import subprocess
import sys
import threading
import time

ROOT = pathlib.Path(__file__).resolve().parent.parent
KINDS = ["proof", "tests", "seed", "edits"]
TICKS = os.sysconf("SC_CLK_TCK")
BUILT = "/tmp/rattle-logic-built-locked-"
DEAREST = 20


def kind_of(words):
    """What a check is for, by its words, or None where it is none."""
    if len(words) < 2 or not words[0].endswith("/rattle") or "--crate-name" not in words:
        return None
    over = words[words.index("--incremental") + 1] if "--incremental" in words else ""
    if "/rt-edits-" in over:
        return "seed" if over.endswith("/seed") else "edits"
    if words[1] == "check":
        # (a program is proved by a check of its own, and has no wrong bodies here)
        return "proof" if "src/main.rt" in words else "edits"
    return "tests" if "--test" in words else "proof"


class Times:
    """Processor seconds by crate and kind, and when each part of a function was written."""

    def __init__(self):
        self.seconds = collections.Counter()
        self.written = {}
        self._last = {}

    def read_process(self, number):
        with open(f"/proc/{number}/cmdline", "rb") as file:
            words = file.read().decode().split("\0")
        kind = kind_of(words)
        if kind is None:
            return
        with open(f"/proc/{number}/stat") as file:
            fields = file.read().rsplit(")", 1)[1].split()
        used = (int(fields[11]) + int(fields[12])) / TICKS
        one = number, fields[19]
        crate = words[words.index("--crate-name") + 1]
        self.seconds[crate, kind] += used - self._last.get(one, 0)
        self._last[one] = used

    def read_parts(self, folder):
        for entry in os.scandir(folder):
            if entry.name.startswith("Rattle-cq") and (folder, entry.name) not in self.written:
                self.written[folder, entry.name] = entry.stat().st_mtime

    def read(self):
        for name in os.listdir("/proc"):
            if name.isdigit():
                try:
                    self.read_process(name)
                except (OSError, ValueError, IndexError):
                    pass
        for folder in pathlib.Path("/tmp").glob(os.path.basename(BUILT) + "*"):
            try:
                self.read_parts(str(folder))
            except OSError:
                pass

    def dearest(self):
        """The parts that took longest, each from the end of the one that was written before it."""
        folders = collections.defaultdict(list)
        for (folder, name), when in self.written.items():
            folders[folder].append((when, name))
        found = []
        for parts in folders.values():
            parts.sort()
            found += [(after[0] - before[0], after[1]) for before, after in zip(parts, parts[1:])]
        return sorted(found, reverse=True)[:DEAREST]


def show(times):
    crates = sorted({crate for crate, _ in times.seconds})
    print("| crate | " + " | ".join(KINDS) + " |")
    print("|---" * (len(KINDS) + 1) + "|")
    for crate in crates:
        print(f"| `{crate}` | " + " | ".join(f"{times.seconds[crate, kind] / 60:.1f}" for kind in KINDS) + " |")
    sums = [sum(times.seconds[crate, kind] for crate in crates) / 60 for kind in KINDS]
    print("| all | " + " | ".join(f"{one:.0f}" for one in sums) + " |\n")
    for seconds, name in times.dearest():
        print(f"{seconds:7.1f} s  {re.sub(r'^Rattle-|[.]oantt$', '', name)}")


def main():
    times, ended = Times(), threading.Event()

    def watch():
        while not ended.wait(1):
            times.read()

    watcher = threading.Thread(target=watch)
    watcher.start()
    start = time.monotonic()
    try:
        status = subprocess.run(["rt", "ci", *sys.argv[1:]], cwd=ROOT).returncode
    finally:
        ended.set()
        watcher.join()
    print(f"\n{(time.monotonic() - start) / 60:.0f} minutes")
    show(times)
    sys.exit(status)


if __name__ == "__main__":
    main()
