"""Runs of the program, measured."""
import os
import pathlib
import re
import subprocess
import sys
import tempfile
import time


def ended(program, folder, wanted, words, out):
    """What the system says that one run in a folder used, whose output goes into a file."""
    child = os.fork()
    if child == 0:
        os.chdir(folder)
        os.dup2(os.open(out, os.O_WRONLY | os.O_CREAT | os.O_TRUNC), 1)
        os.execv(program, [program, *words])
    _, status, usage = os.wait4(child, 0)
    if os.waitstatus_to_exitcode(status) != wanted:
        sys.exit(f"the program ended with {status}")
    return usage


def run(program, folder, wanted=0, words=("run", "p.cql"), out="out"):
    """Seconds and peak memory in bytes of one run in a folder, whose output goes into a file."""
    start = time.perf_counter()
    usage = ended(program, folder, wanted, words, out)
    return time.perf_counter() - start, usage.ru_maxrss * 1024


def least_of(program, texts, rounds):
    """For each text the least processor seconds of so many runs, and the peak memory.

    What differs by one declaration is run in turns, so that what else the machine does falls on each alike, and what a
    run waits for doesn't count.
    """
    least = [(float("inf"), float("inf"))] * len(texts)
    with tempfile.TemporaryDirectory() as folder:
        for number, text in enumerate(texts):
            pathlib.Path(folder, f"{number}.cql").write_text(text)
        for _ in range(rounds):
            for number, (seconds, peak) in enumerate(least):
                usage = ended(program, folder, 0, ("run", f"{number}.cql"), "out")
                seconds = min(seconds, usage.ru_utime + usage.ru_stime)
                least[number] = seconds, min(peak, usage.ru_maxrss * 1024)
    return least


def instructions_of(program, text):
    """The instructions that a run of the program carries out, counted by valgrind: they don't depend on the machine's load."""
    with tempfile.TemporaryDirectory() as folder:
        pathlib.Path(folder, "p.cql").write_text(text)
        words = ["valgrind", "--tool=cachegrind", "--cache-sim=no", "--cachegrind-out-file=/dev/null", program, "run", "p.cql"]
        ran = subprocess.run(words, cwd=folder, stdout=subprocess.DEVNULL, stderr=subprocess.PIPE, text=True)
    found = re.search(r"I\s+refs:\s+([\d,]+)", ran.stderr)
    if ran.returncode or not found:
        sys.exit(f"valgrind ended with {ran.returncode}: {ran.stderr[-300:]}")
    return int(found[1].replace(",", ""))
