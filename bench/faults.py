#!/usr/bin/env python3
"""Runs the built program while memory is refused and devices fail, and tests what each run ends with.

    bench/faults.py [PROGRAM]

PROGRAM is by default crates/cqlrun/out/cqlrun, which `./cqlrun` builds. bench/faults.c, loaded before the C library, lets one
call of a run fail. For each of four examples, the calls that a run makes are counted, and then

- each call for memory is refused in turn, alone, and with all that follow it: the status is 5, with nothing written or the
  whole transcript, and files up to a place in their order; or it is 0 and all is as usual, where the standard library goes on
  without the memory (a reservation that only saves time, a list that is to be made smaller);
- each device call fails in turn: reading ends with status 3 and its line, writing the transcript with 4 and a part of it,
  writing a file or making its folder with 4 and the whole transcript, the files of the other exporter being whole, but that
  a folder that is there already need not be made;
- each call that is interrupted is made again, and each that moves one byte in place of many goes on: the run is as usual.

It prints how many runs it made of each kind, and every run that ended otherwise; its status is 1 if there was one.
"""
import errno
import os
import pathlib
import subprocess
import sys
import tempfile

ROOT = pathlib.Path(__file__).resolve().parent.parent
HERE = pathlib.Path(__file__).resolve().parent

USUAL = """typeside Ty = literal { types string nat constants Al Bob Bo Carl Math CS : string zero : nat
  functions plus : nat, nat -> nat }
schema S = literal : Ty { entities Employee Department
  foreign_keys manager : Employee -> Employee worksIn : Employee -> Department secretary : Department -> Employee
  path_equations manager.worksIn = worksIn secretary.worksIn = Department
  attributes first last : Employee -> string age cummulative_age : Employee -> nat name : Department -> string
  observation_equations forall e. cummulative_age(e) = plus(age(e), age(manager(e))) }
instance I = literal : S { generators a b c : Employee m s : Department
  equations first(a) = Al first(b) = Bob last(b) = Bo first(c) = Carl name(m) = Math name(s) = CS age(a) = age(c)
  age(c) = zero manager(a) = b manager(b) = b manager(c) = c worksIn(a) = m worksIn(b) = m worksIn(c) = s
  secretary(s) = c secretary(m) = b options prover = completion }
"""
MERGE = """typeside T = literal { types s constants Al : s }
schema S = literal : T { entities A B foreign_keys p : A -> B attributes u : A -> s v : B -> s }
schema R = literal : T { entities E foreign_keys z : E -> E path_equations z = E attributes w : E -> s }
mapping F = literal : S -> R { entity A -> E foreign_keys p -> z attributes u -> w entity B -> E attributes v -> w }
instance I = literal : S { generators a : A b : B equations p(a) = b u(a) = Al }
instance J = sigma F I
instance K = delta F J
"""
IMPORT = """typeside T = literal { types s constants Al "Smith, Al" : s }
schema S = literal : T { entities E D foreign_keys k : E -> D attributes x y : E -> s }
instance I = import_csv "data" : S
"""
QUESTION = """typeside T = literal { types s constants Al : s }
schema S = literal : T { entities E attributes x : E -> s }
schema R = literal : T { entities P O attributes w : P -> s }
query Q = literal : S -> R { entity P -> { from y : E z : E where x(y) = x(z) attributes w -> x(y) } entity O -> { } }
instance I = literal : S { generators a b c d : E equations x(a) = Al x(b) = Al }
instance J = eval Q I
"""
EXAMPLES = {
    "one instance": {"p.cql": USUAL},
    "rows that merge": {"p.cql": MERGE},
    "an import": {
        "p.cql": IMPORT,
        "data/E.csv": 'id,x,y,k\ne1,"Smith, Al",?1,d1\ne2,,?1,d1\n',
        "data/D.csv": "id\nd1\n",
    },
    "a query": {"p.cql": QUESTION},
}
READING = ("open_to_read", "read")
EXPORTING = ("open_to_write", "write_file", "make_folder")


class Run:
    """What a run left."""

    def __init__(self, program, library, files, setting):
        with tempfile.TemporaryDirectory() as name:
            folder = pathlib.Path(name)
            for path, content in files.items():
                (folder / path).parent.mkdir(exist_ok=True)
                (folder / path).write_text(content)
            told = folder / "told"
            words = dict(os.environ, LD_PRELOAD=library, FAULTS_TOLD=str(told))
            words.update({word: str(value) for word, value in setting.items()})
            ended = subprocess.run(
                [program, "run", "p.cql"], cwd=folder, env=words, timeout=60, stdin=subprocess.DEVNULL, capture_output=True
            )
            self.status, self.out, self.error = ended.returncode, ended.stdout, ended.stderr
            self.told = dict(line.split() for line in told.read_text().splitlines()) if told.exists() else {}
            top = folder / "cql-out"
            found = [path for path in top.rglob("*") if path.is_file()]
            self.files = {str(path.relative_to(top)): path.read_bytes() for path in found}


def is_part(files, whole):
    """Whether each file is one of the whole run, or the beginning of one."""
    return all(path in whole and whole[path].startswith(content) for path, content in files.items())


def of(format, files):
    return {path: content for path, content in files.items() if path.startswith(format + "/")}


def is_usual(run, usual):
    return run.status == 0 and run.out == usual.out and run.files == usual.files


def is_out_of_memory(run, usual):
    """Status 5, with nothing, or with the transcript and files up to a place: those of a format after the other's."""
    if run.status != 5 or run.out not in (b"", usual.out):
        return False
    if not run.out:
        return not run.files
    return is_part(run.files, usual.files) and (not of("cql", run.files) or of("csv", run.files) == of("csv", usual.files))


def finds_folder(run, usual):
    """A folder that could not be made was there."""
    return run.told.get("done") == "make_folder" and is_usual(run, usual)


def is_due(run, usual):
    """Whether a run in which a device failed ended as it should."""
    done = run.told.get("done")
    if done in READING:
        return run.status == 3 and run.out.startswith(b"read ") and run.out.endswith(b" failed\n") and not run.files
    if done == "write_out":
        return run.status == 4 and usual.out.startswith(run.out) and not run.files
    if done in EXPORTING:
        whole = [format for format in ("csv", "cql") if of(format, run.files) == of(format, usual.files)]
        return run.status == 4 and run.out == usual.out and is_part(run.files, usual.files) and len(whole) == 1
    return False


class Trial:
    """The runs of one example, counted by their kind."""

    def __init__(self, program, library, name, files):
        self.program, self.library, self.name, self.files = program, library, name, files
        self.usual = self.run({})
        self.counts, self.wrong = {}, []
        if self.usual.status != 0 or not self.usual.files:
            sys.exit(f"{name}: a run in which nothing fails ended with {self.usual.status}")

    def run(self, setting):
        return Run(self.program, self.library, self.files, setting)

    def test(self, kind, setting, tests):
        """A run with a setting. It is to pass one of the tests, by whose names it is counted."""
        run = self.run(setting)
        passed = next((name for name, test in tests.items() if test(run, self.usual)), None)
        self.counts[kind, passed] = self.counts.get((kind, passed), 0) + 1
        if passed is None:
            self.wrong.append(f"{self.name}: {setting}: status {run.status}, {run.told}, {run.out!r}, {sorted(run.files)}")

    def memory(self):
        tests = {"status 5": is_out_of_memory, "as usual": is_usual}
        for number in range(1, int(self.usual.told["memory"]) + 1):
            self.test("memory refused once", {"FAIL_MEMORY": number}, tests)
            self.test("memory refused from a call on", {"FAIL_MEMORY_ON": number}, tests)

    def devices(self):
        usual = {"as usual": is_usual}
        due = {"status 3 or 4": is_due, "as usual: the folder is there": finds_folder}
        for number in range(1, int(self.usual.told["device"]) + 1):
            self.test("a device call fails", {"FAIL_DEVICE": number}, due)
            self.test("the disk is full", {"FAIL_DEVICE": number, "FAIL_WITH": errno.ENOSPC}, due)
            self.test("a read or write is cut short", {"CUT_DEVICE": number}, usual)
            # Making a folder is never interrupted.
            interrupted = {"FAIL_DEVICE": number, "FAIL_WITH": errno.EINTR}
            if self.run(interrupted).told.get("done") != "make_folder":
                self.test("a device call is interrupted", interrupted, usual)


def main():
    program = str(pathlib.Path(sys.argv[1]).resolve() if len(sys.argv) > 1 else ROOT / "crates/cqlrun/out/cqlrun")
    wrong, runs = [], 0
    with tempfile.TemporaryDirectory() as folder:
        library = folder + "/faults.so"
        subprocess.run(["cc", "-shared", "-fPIC", "-O1", "-o", library, HERE / "faults.c"], check=True)
        print("| Example | What fails | What follows | runs |")
        print("|---|---|---|---|")
        for name, files in EXAMPLES.items():
            trial = Trial(program, library, name, files)
            trial.memory()
            trial.devices()
            for (kind, passed), count in trial.counts.items():
                print(f"| {name} | {kind} | {passed or '**wrong**'} | {count} |", flush=True)
                runs += count
            wrong += trial.wrong
    print(f"\n{runs} runs, {len(wrong)} wrong")
    for line in wrong:
        print(line)
    sys.exit(1 if wrong else 0)


main()
