#!/usr/bin/env python3
"""Times the built program on files that are made to be hard, each in three sizes.

    bench/hostile.py [PROGRAM] [WORD..]

PROGRAM is by default crates/cqlrun/out/cqlrun, which `./cqlrun` builds. Each file has up to 8 MiB, the most that is read, at its
full size, and a tenth and a hundredth of it else; with words, only files in whose names one of them stands. For each it prints
how the run ends, the bytes, the processor seconds (the best of three runs), the ratio to the size before, and the peak memory.
Behind them it measures texts that some way to place them takes to be alike, beside other texts of their length.
Its status is 1 where a run of a full size takes over 30 seconds or 4 GiB, where one takes over twelve times what a tenth of it takes
(times below 20 ms count as 20), where texts that are alike take over 1.3 times as long as others, or where a run does not end as it
should. Literals alone are exported, since 50,000 files, one
for each entity, are the system's work more than the program's. For the same reason the files stand in memory, in /dev/shm,
where there is that: with 100,000 of them in one folder of a disk, the run takes up to thrice as long.
"""
import itertools
import math
import os
import pathlib
import re
import sys
import tempfile

ROOT = pathlib.Path(__file__).resolve().parent.parent
LIMIT = 8 << 20
MEMORY = "/dev/shm"
HEAD = "typeside T = literal { types s constants c : s functions g : s -> s p : s, s -> s }\n"
FILES = {}


def file(name, count, ends):
    """A file of this name: of so many parts at full size, with the beginning of the line that its run writes."""

    def keep(make):
        FILES[name] = make, count, ends
        return make

    return keep


def schema(body):
    return HEAD + f"schema S = literal : T {{ {body} }}\n"


def instance(generators, equations):
    return f"instance I = literal : S {{ generators {generators} equations {equations} }}\n"


def even(text):
    """The text with numbers of six digits in its names, so that a tenth of the parts has a tenth of the bytes."""
    return re.sub(r"\b([A-Za-z])(\d{1,5})\b", lambda name: f"{name[1]}{name[2]:0>6}", text)


def names(letter, count):
    return " ".join(f"{letter}{n}" for n in range(count))


@file("brackets", LIMIT, "refused 1:1 21")
def brackets(n):
    return "(" * n


@file("brackets in a term", LIMIT - 50, "refused 1:38 21")
def brackets_in_term(n):
    return "instance I = literal : S { equations " + "(" * n


@file("braces that close", LIMIT - 24, "refused 1:25 21")
def closing(n):
    return "typeside T = literal { }" + "}" * n


@file("quotes", LIMIT, "refused 1:1 21")
def quotes(n):
    return '"' * (n // 2 * 2)


@file("a text that stays open", LIMIT - 1, "refused 1:1 1")
def open_text(n):
    return '"' + "x" * n


@file("escapes", LIMIT // 202, "refused 1:")
def escapes(n):
    return 'typeside T = literal { types s constants ' + " ".join('"' + '\\"' * 90 + f'{k}"' for k in range(n)) + ' "" : s }'


@file("comments", LIMIT // 6, "")
def comments(n):
    return "/* */\n" * n


@file("a comment that stays open", LIMIT // 3, "refused 1:1 13")
def open_comment(n):
    return "/* " * n


@file("stars", LIMIT - 2, "refused 1:1 13")
def stars(n):
    return "/*" + "*" * n


@file("one word", LIMIT, "refused 1:1 14")
def word(n):
    return "a" * n


@file("names of one beginning", LIMIT // 254, "refused")
def alike(n):
    beginning = "a" * 244
    parts = " ".join(f"{beginning}{k:08d}" for k in range(n))
    return f"typeside T = literal {{ types s constants {parts} : s }}\nschema S = literal : U {{ }}"


@file("names", 1_000_000, "refused")
def many_names(n):
    return f"typeside T = literal {{ types s constants {names('c', n)} : s }}\nschema S = literal : U {{ }}"


@file("options", LIMIT // 12, "")
def options(n):
    return "options " + "prover = a\n" * n


@file("equations that wait on one another", 90_000, "instance I")
def waiting(n):
    steps = "\n".join(f"k(a{k}) = a{k + 1} k(b{k}) = b{k + 1}" for k in reversed(range(n - 1)))
    last = f"k(a{n - 1}) = a{n - 1} k(b{n - 1}) = b{n - 1}"
    return schema("entities E foreign_keys k : E -> E") + instance(f"{names('a', n)} {names('b', n)} : E", f"{steps} {last} a0 = b0")


@file("values that wait on one another", 90_000, "instance I")
def values_waiting(n):
    steps = "\n".join(f"g(a{k}) = a{k + 1} g(b{k}) = b{k + 1}" for k in reversed(range(n - 1)))
    return schema("") + instance(f"{names('a', n)} {names('b', n)} : s", f"{steps} a0 = b0")


@file("cells that wait", 45_000, "instance I")
def cells_waiting(n):
    chain = "\n".join(f"a.k.k.k = x{k}" for k in range(n))
    return schema("entities E foreign_keys k : E -> E path_equations k.k.k.k = k.k.k") + instance(f"a {names('x', n)} : E", chain)


@file("one class of all rows", 190_000, "instance I")
def one_class(n):
    pairs = "\n".join(f"x{k * 7919 % n} = x{(k + 1) * 7919 % n}" for k in range(n - 1))
    return schema("entities E foreign_keys k : E -> E path_equations k.k = k attributes v : E -> s") + instance(f"{names('x', n)} : E", pairs)


@file("one class of all values", 190_000, "instance I")
def one_value(n):
    pairs = "\n".join(f"x{k} = x{k + 1}" for k in reversed(range(n - 1)))
    return schema("") + instance(f"{names('x', n)} : s", f"{pairs} g(x0) = c")


@file("a schema of 100,000 edges", 100_000, "instance I")
def edges(n):
    half = n // 2
    keys = "\n".join(f"k{e} : E{e} -> E{(e + 1) % half}" for e in range(half))
    attributes = "\n".join(f"v{e} : E{e} -> s" for e in range(half))
    equation = "E0.k0 = E0.k0"
    return schema(f"entities {names('E', half)} foreign_keys {keys} path_equations {equation} attributes {attributes}") + instance("", "")


@file("100,000 edges of one entity", 100_000, "instance I")
def keys(n):
    return schema(f"entities E F foreign_keys {names('k', n)} : E -> F") + instance("x : E", "")


@file("path equations of another entity", 200_000, "instance I")
def path_equations(n):
    equations = "\n".join("E.k.k = E.k" for _ in range(n))
    return schema(f"entities E F foreign_keys k : E -> E path_equations {equations}") + instance(f"{names('x', n)} : F", "")


@file("observation equations of another entity", 150_000, "instance I")
def observation_equations(n):
    equations = "\n".join("forall e : E. v(e) = v(e)" for _ in range(n))
    return schema(f"entities E F attributes v : E -> s observation_equations {equations}") + instance(f"{names('x', n)} : F", "")


@file("100,000 instances", 100_000, "instance I0")
def instances(n):
    return schema("entities E attributes v : E -> s") + "\n".join(f"instance I{k} = literal : S {{ generators x : E }}" for k in range(n))


@file("100,000 schemas", 100_000, "")
def schemas(n):
    return HEAD + "\n".join(f"schema S{k} = literal : T {{ entities E attributes v : E -> s }}" for k in range(n))


@file("deep towers of functions", 39_000, "instance I")
def towers(n):
    rows = "\n".join("g(" * 62 + f"a{k}" + ")" * 62 + f" = a{k * 7919 % n}" for k in range(n))
    return schema("") + instance(f"{names('a', n)} : s", rows)


@file("wide terms of functions", 1_500, "instance I")
def wide_terms(n):
    # Among as many generators at each size: of fewer, a term would have fewer different parts.
    count = 1_500

    def tree(leaves):
        while len(leaves) > 1:
            leaves = [f"p({a}, {b})" for a, b in zip(leaves[::2], leaves[1::2])]
        return leaves[0]

    rows = "\n".join(tree([f"a{(k + j * j) % count}" for j in range(256)]) + f" = a{k}" for k in range(n))
    return schema("") + instance(f"{names('a', count)} : s", rows)


@file("deep paths", 28_000, "instance I")
def paths(n):
    rows = "\n".join(f"x{k}" + ".k" * 62 + f" = x{k * 7919 % n}" for k in range(n))
    return schema("entities E foreign_keys k : E -> E path_equations k.k = k") + instance(f"{names('x', n)} : E", rows)


def queried(variables, tests, generators, equations=""):
    """An instance, and the answers of a query over it with so many variables `a0`, `a1` .. of one entity."""
    head = schema("entities E foreign_keys f : E -> E attributes v : E -> s") + "schema R = literal : T { entities P }\n"
    query = f"query Q = literal : S -> R {{ entity P -> {{ from {names('a', variables)} : E where {tests} }} }}\n"
    return head + query + instance(f"{generators} : E", equations) + "instance J = eval Q I\n"


@file("variables tied by their ends", 40, "instance I")
def ends(n):
    n = max(n, 2)
    return queried(n, f"p(a{n - 1}.v, a0.v) = c", "x y", "x.f = x y.f = y")


@file("variables that stand apart from one that has no row", 40, "instance I")
def apart(n):
    n = max(n, 2)
    return queried(n, f"a{n - 1}.v = c", names("x", 10), " ".join(f"x{k}.f = x{k}" for k in range(10)))


@file("a clique of five variables", 100, "instance I")
def clique(n):
    pairs = " ".join(f"p(a{k}.v, a{m}.v) = c" for k in range(5) for m in range(k))
    near = " ".join(f"p(x{k}.v, x{m}.v) = c" for k in range(n) for m in range(max(0, k - 2), k))
    return queried(5, pairs, names("x", n), " ".join(f"x{k}.f = x{k}" for k in range(n)) + " " + near)


@file("pairs of variables, of which the last has no answer", 1_000, "instance I")
def last_pair(n):
    n = max(n, 2)
    pairs = " ".join(f"p(a{2 * k}.v, a{2 * k + 1}.v) = p(a{2 * k}.v, a{2 * k + 1}.v)" for k in range(n - 1))
    return queried(2 * n, f"{pairs} p(a{2 * n - 2}.v, a{2 * n - 1}.v) = c", "x y", "x.f = x y.f = y")


@file("two pairs of variables, of which the last has one answer", 1_000_000, "instance I")
def one_last(n):
    """As many answers as n, all pairs of rows, and as many pairs to be tried for the last two variables."""
    rows = math.isqrt(n)
    fixed = " ".join(f"x{k}.f = x{k}" for k in range(rows))
    tests = "p(a0.v, a1.v) = p(a0.v, a1.v) p(a2.v, a3.v) = c"
    return queried(4, tests, names("x", rows), f"{fixed} p(x{rows - 1}.v, x{rows - 1}.v) = c")


@file("variables in no where equation", 1_000, "refused")
def free(n):
    return queried(max(n, 30), "a0.f = a0", "x y", "x.f = x y.f = y")


@file("variables tied to one", 5_000, "instance I")
def one_tied(n):
    return queried(n, " ".join(f"a{k}.f = a0" for k in range(1, n)), "x y", "x.f = x y.f = y")


@file("100 free keys", 100, "refused")
def hundred_keys(n):
    return schema(f"entities E foreign_keys {names('k', n)} : E -> E") + instance("a : E", "")


@file("440 free keys", 440, "refused")
def free_keys(n):
    return schema(f"entities E foreign_keys {names('k', n)} : E -> E") + instance("a : E", "")


@file("440 free keys beside one that an equation reads", 440, "refused")
def keys_beside(n):
    keys = f"foreign_keys f {names('k', n)} : E -> E path_equations f.f = f"
    return schema(f"entities E {keys}") + instance("a b : E", "a.f = b")


def twins(n, one, other):
    """So many texts, each of seventeen of the two pieces, which are of one length."""
    return ["".join(other if number >> bit & 1 else one for bit in range(17)) for number in range(n)]


def by_sum(n):
    """Texts that are alike where they are placed by 31 times what stands before and the next byte."""
    return twins(n, "Aa", "BB")


def by_no_sum(n):
    return twins(n, "Aa", "bC")


def fold(state, block):
    """What the default hasher of the library makes of a block of sixteen bytes."""
    first, second = (int.from_bytes(block[at : at + 8], "little") for at in (0, 8))
    product = (first ^ state) * (second ^ 0x9E37_79B9_7F4A_7C15)
    return (product ^ product >> 64) & 2**64 - 1


def colliding_front():
    """Twenty-four letters and digits, behind which any eight give one number by the default hasher of the library: what it has made
    of the first sixteen is what the next eight are, and so it goes on with 0."""
    for number in itertools.count():
        front = f"n{number:0>15}".encode()
        state = fold(0x243F_6A88_85A3_08D3 + 32, front).to_bytes(8, "little")
        if state.isalnum() and state.isascii():
            return (front + state).decode()


def by_fold(n):
    """Names that are alike for the default hasher of the library."""
    front = colliding_front()
    return [f"{front}{number:0>8}" for number in range(n)]


def by_no_fold(n):
    front = "n" + "0" * 23
    return [f"{front}{number:0>8}" for number in range(n)]


TEXTS = "typeside T = literal { types s literals s functions g : s -> s }\n"
ROWS = "schema S = literal : T { entities E attributes x : E -> s }\n"


def joined(texts):
    """A query of the pairs of rows with one text, of which each row has its own."""
    cells = " ".join(f'x(e{number}) = "{text}"' for number, text in enumerate(texts))
    query = "schema R = literal : T { entities P }\nquery Q = literal : S -> R { entity P -> { from y z : E where x(y) = x(z) } }\n"
    return TEXTS + ROWS + query + instance(names("e", len(texts)) + " : E", cells) + "instance J = eval Q I\n", {}


def entries(texts):
    """A function at each text, and a transform that looks each of them up."""
    cells = " ".join(f'g("{text}") = "{number}"' for number, text in enumerate(texts))
    again = "transform H = literal : I -> I { generators e -> e }\n"
    return TEXTS + ROWS + instance("e : E", f'x(e) = "a" {cells}') + again, {}


def ids(texts):
    """A folder with a record for each text as its id, whose foreign key is the next."""
    lines = "".join(f"{text},{texts[number - 1]}\n" for number, text in enumerate(texts))
    program = TEXTS + 'schema S = literal : T { entities E foreign_keys k : E -> E }\ninstance I = import_csv "data" : S\n'
    return program, {"data/E.csv": "id,k\n" + lines}


def closed(texts):
    """A closure in which each text is made equal to a cell twice."""
    cells = " ".join(f'x(e{number}) = "{text}" "{text}" = x(e{number})' for number, text in enumerate(texts))
    return TEXTS + ROWS + instance(names("e", len(texts)) + " : E", cells), {}


def generated(texts):
    """Generators of these names, each with an equation."""
    rows = " ".join(f"{text}.k = {text}" for text in texts)
    keyed = "schema S = literal : T { entities E foreign_keys k : E -> E }\n"
    return TEXTS + keyed + instance(" ".join(texts) + " : E", rows), {}


def summed(texts):
    """Twenty colimits of a schema with entities of these names."""
    parts = f"schema S = literal : T {{ entities {' '.join(texts)} }}\nschema R = literal : T {{ entities E }}\n"
    return TEXTS + parts + "".join(f"schema_colimit C{k} = quotient S + R : T {{ }}\n" for k in range(20)), {}


# What is made of texts, the texts that are alike, others of their length, how many, and how the run ends.
PAIRS = {
    "joined by a query": (joined, by_sum, by_no_sum, 131_072, "instance I"),
    "as arguments of entries": (entries, by_sum, by_no_sum, 131_072, "instance I"),
    "as ids and keys of a CSV file": (ids, by_sum, by_no_sum, 131_072, "instance I"),
    "as ids and keys of a CSV file, by the default hasher": (ids, by_fold, by_no_fold, 131_072, "instance I"),
    "in a closure": (closed, by_sum, by_no_sum, 65_536, "instance I"),
    "as names of generators": (generated, by_sum, by_no_sum, 65_536, "instance I"),
    "as names of generators, by the default hasher": (generated, by_fold, by_no_fold, 65_536, "instance I"),
    "as names in colimits, by the default hasher": (summed, by_fold, by_no_fold, 16_384, ""),
}


def run(program, folder, wanted):
    """Processor seconds and peak memory in bytes of one run in a folder, whose output goes into a file."""
    child = os.fork()
    if child == 0:
        os.chdir(folder)
        os.dup2(os.open("out", os.O_WRONLY | os.O_CREAT | os.O_TRUNC), 1)
        os.execv(program, [program, "run", "p.cql", "--only", "cql"])
    _, status, usage = os.wait4(child, 0)
    if os.waitstatus_to_exitcode(status) != wanted:
        sys.exit(f"the program ended with {status}")
    return usage.ru_utime + usage.ru_stime, usage.ru_maxrss * 1024


def measure(program, text, ends, files={}):
    """Seconds and peak memory of the best of three runs over these files, whose output begins so."""
    best = None
    with tempfile.TemporaryDirectory(dir=MEMORY if os.path.isdir(MEMORY) else None) as folder:
        for name, content in {"p.cql": text, **files}.items():
            path = pathlib.Path(folder, name)
            path.parent.mkdir(exist_ok=True)
            path.write_text(content)
        for _ in range(3):
            found = run(program, folder, 1 if ends.startswith("refused") else 0)
            best = found if best is None else min(best, found)
            if found[0] > 3:
                break
        with open(pathlib.Path(folder, "out")) as out:
            line = out.readline().rstrip("\n")
    if not line.startswith(ends):
        sys.exit(f"a line that begins with {ends!r} was due: {line!r}")
    return best, line


def compare(program, wanted):
    """Measures texts that are alike beside others, and gives the names of those that take over 1.3 times as long, or over twelve
    times a tenth."""
    steep = []
    print("\n| Texts that are alike | number | seconds | time, of a tenth | of other texts | peak memory, MiB |")
    print("|---|---|---|---|---|---|")
    for name, (make, alike, others, count, ends) in PAIRS.items():
        if wanted and not any(word in name for word in wanted):
            continue
        before = None
        for part in (64, 10, 1):
            n = count // part
            (seconds, peak), _ = measure(program, *ended(make(alike(n)), ends))
            (other, _), _ = measure(program, *ended(make(others(n)), ends))
            ratio = max(seconds, 0.02) / max(before, 0.02) if before else 0
            beside = max(seconds, 0.02) / max(other, 0.02)
            before = seconds
            if beside > 1.3 or part == 1 and ratio > 12:
                steep.append(f"{name} ({n:,})")
            shown = f"{ratio:.1f}" if part == 1 else ""
            print(f"| {name} | {n:,} | {seconds:.3f} | {shown} | {beside:.2f} | {peak / 2**20:.0f} |", flush=True)
    return steep


def ended(made, ends):
    text, files = made
    if len(text.encode()) > LIMIT:
        sys.exit(f"{len(text.encode())} bytes are too many")
    return text, ends, files


def main():
    program = str(pathlib.Path(sys.argv[1]).resolve() if len(sys.argv) > 1 else ROOT / "crates/cqlrun/out/cqlrun")
    wanted, steep = sys.argv[2:], []
    print("| File | bytes | seconds | time, of a tenth | peak memory, MiB | ends with |")
    print("|---|---|---|---|---|---|")
    for name, (make, count, ends) in FILES.items():
        if wanted and not any(word in name for word in wanted):
            continue
        before = None
        for part in (100, 10, 1):
            text = even(make(count // part))
            size = len(text.encode())
            if size > LIMIT:
                sys.exit(f"{name}: {size} bytes are too many")
            (seconds, peak), line = measure(program, text, ends)
            ratio = max(seconds, 0.02) / max(before, 0.02) if before else 0
            before = seconds
            if ratio > 12 or seconds > 30 or peak > 4 << 30:
                steep.append(name)
            shown = f"{ratio:.1f}" if ratio else ""
            print(f"| {name} | {size:,} | {seconds:.3f} | {shown} | {peak / 2**20:.0f} | {line[:24]} |", flush=True)
    steep += compare(program, wanted)
    print(f"\n{len(steep)} too steep: {', '.join(steep)}")
    sys.exit(1 if steep else 0)


main()
