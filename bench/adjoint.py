#!/usr/bin/env python3
"""Times the transforms that move along mappings and queries in the built program.

    bench/adjoint.py [--instructions] [PROGRAM]

PROGRAM is by default crates/cqlrun/out/cqlrun, which `./cqlrun` builds. Each of the eight forms, at 2,000, 20,000 and
200,000 rows of the instance that is moved (for counit half of that). Along a mapping the rows are those of the case
merge of `bench/move.py`: half of them in A, each with its row in B, and sigma makes one of each two. Along a query they
are a ring: a foreign key leads each row to the next one, and the query's answers are the rows with the rows that follow
them. The transform that is moved is the identity.

For each form it prints what the transform adds to a run that makes the same instances, in processor seconds; the ratio
of that to what it adds at a tenth; its ratio to what the move of the instances adds to a run without it; and the bytes
of peak memory that the transform adds for each row. The three runs are made in turns, 41 times up to 20,000 rows, where
the difference is of a few milliseconds, and 11 times above, and the least of each counts.

With --instructions it prints in place of that the instructions that the transform adds at 20,000 and 200,000 rows, as
valgrind counts them, and their ratios: these are the same in each run, on whatever machine, and say nothing of memory.
"""
import argparse
import pathlib

from whole_run import instructions_of, least_of

ROOT = pathlib.Path(__file__).resolve().parent.parent
T = "typeside T = literal { types s constants Al : s }\n"
AB = T + "schema S = literal : T { entities A B foreign_keys p : A -> B attributes u : A -> s v : B -> s }\n"
ONE = "schema R = literal : T { entities E foreign_keys z : E -> E path_equations z = E attributes w : E -> s }\n"
TO_ONE = "mapping F = literal : S -> R { entity A -> E foreign_keys p -> z attributes u -> w entity B -> E attributes v -> w }\n"
RING = T + "schema S = literal : T { entities E foreign_keys n : E -> E attributes w : E -> s }\n"
NEXT = "schema R = literal : T { entities P foreign_keys t : P -> P attributes x : P -> s }\n"
TO_NEXT = (
    "query Q = literal : S -> R { entity P -> { from a b : E where a.n = b attributes x -> w(b)"
    " foreign_keys t -> { a -> b b -> b.n } } }\n"
)


def short(n):
    """A name of few bytes: a file has at most 8 MiB."""
    digits = ""
    while n or not digits:
        n, digit = divmod(n, 36)
        digits = "0123456789ABCDEFGHIJKLMNOPQRSTUVWXYZ"[digit] + digits
    return digits


def pairs(rows):
    """Half of the rows in A, each with its row in B."""
    half = rows // 2
    a = " ".join(f"a{short(n)}" for n in range(half))
    b = " ".join(f"b{short(n)}" for n in range(half))
    p = " ".join(f"p(a{short(n)})=b{short(n)}" for n in range(half))
    return AB + ONE + TO_ONE + f"instance I = literal : S {{ generators {a} : A {b} : B equations {p} }}\n"


def merged(rows):
    """So many rows of E, none of which has a value."""
    names = " ".join(short(n) for n in range(rows))
    return AB + ONE + TO_ONE + f"instance I = literal : R {{ generators {names} : E }}\n"


def ring(rows):
    names = [short(n) for n in range(rows)]
    steps = " ".join(f"n({names[n]})={names[(n + 1) % rows]}" for n in range(rows))
    return RING + NEXT + TO_NEXT + f"instance I = literal : S {{ generators {' '.join(names)} : E equations {steps} }}\n"


def answered(rows):
    """A ring of so many answers."""
    names = [short(n) for n in range(rows)]
    steps = " ".join(f"t({names[n]})={names[(n + 1) % rows]}" for n in range(rows))
    return RING + NEXT + TO_NEXT + f"instance I = literal : R {{ generators {' '.join(names)} : P equations {steps} }}\n"


def half_merged(rows):
    """Half as many, since sigma begins with a row of A and one of B for each, and 200,000 rows are the limit."""
    return merged(rows // 2)


IDENTITY = "transform h = identity I\n"
# the form, the instance that is moved, what is made of it, and the transform
FORMS = (
    ("sigma", pairs, "instance J = sigma F I\n", IDENTITY, "transform m = sigma F h : J -> J\n"),
    ("delta", merged, "instance J = delta F I\n", IDENTITY, "transform m = delta F h : J -> J\n"),
    ("eval", ring, "instance J = eval Q I\n", IDENTITY, "transform m = eval Q h : J -> J\n"),
    ("coeval", answered, "instance J = coeval Q I\n", IDENTITY, "transform m = coeval Q h : J -> J\n"),
    ("unit", pairs, "instance J = sigma F I\ninstance K = delta F J\n", "", "transform m = unit F I : I -> K\n"),
    ("counit", half_merged, "instance J = delta F I\ninstance K = sigma F J\n", "", "transform m = counit F I : K -> I\n"),
    ("unit_query", answered, "instance J = coeval Q I\ninstance K = eval Q J\n", "", "transform m = unit_query Q I : I -> K\n"),
    ("counit_query", ring, "instance J = eval Q I\ninstance K = coeval Q J\n", "", "transform m = counit_query Q I : K -> I\n"),
)


def programs(form, rows):
    """The text with the instance alone, the one that makes the other instances too, and the one with the transform."""
    _, source, made, identity, transform = form
    start = source(rows)
    return start, start + made + identity, start + made + identity + transform


def ratio_of(added, before):
    return f"{added / before:.1f}" if before else ""


def print_seconds(program):
    print("| form | rows | processor seconds that it adds | of a tenth | of what the move adds | bytes a row |")
    print("|---|---|---|---|---|---|")
    for form in FORMS:
        before = None
        for rows in (2_000, 20_000, 200_000):
            least = least_of(program, programs(form, rows), 41 if rows <= 20_000 else 11)
            (without, _), (still, idle), (seconds, peak) = least
            added = seconds - still
            share, bytes_a_row = added / (still - without), (peak - idle) / rows
            ratio = ratio_of(added, before)
            print(f"| {form[0]} | {rows:,} | {added:.4f} | {ratio} | {share:.2f} | {bytes_a_row:.0f} |", flush=True)
            before = added


def print_instructions(program):
    print("| form | rows | instructions that it adds | of a tenth | of what the move adds |")
    print("|---|---|---|---|---|")
    for form in FORMS:
        before = None
        for rows in (20_000, 200_000):
            without, still, whole = (instructions_of(program, text) for text in programs(form, rows))
            added = whole - still
            share = added / (still - without)
            print(f"| {form[0]} | {rows:,} | {added:,} | {ratio_of(added, before)} | {share:.2f} |", flush=True)
            before = added


def main():
    words = argparse.ArgumentParser()
    words.add_argument("--instructions", action="store_true")
    words.add_argument("program", nargs="?", default=ROOT / "crates/cqlrun/out/cqlrun")
    asked = words.parse_args()
    program = str(pathlib.Path(asked.program).resolve())
    (print_instructions if asked.instructions else print_seconds)(program)


main()
