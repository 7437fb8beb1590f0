#!/usr/bin/env python3
"""Compares the table of sentences in docs/LANGUAGE.md with those that cqlwhy says, which stand in the crate cq_sentences.

    docs/sentences.py [--write]

With --write the table is written anew; without it the status is 1 where the two differ.
"""
import pathlib
import re
import sys

ROOT = pathlib.Path(__file__).resolve().parent.parent
PAGE = ROOT / "docs" / "LANGUAGE.md"
SOURCE = ROOT / "crates" / "cq_sentences" / "src"
HEAD = "| Code | Sentence | To mend it |\n|---|---|---|\n"
WORDS = {"Absent": "read, absent", "TooLong": "read, too long", "Failed": "read, failed"}


def arms(kind, text):
    """What is said of each code or cause of a kind: its name, its sentence, and what there is to mend."""
    # A text goes on in the next line behind a backslash.
    whole = re.sub(r"\\\n\s*", "", text)
    found = re.findall(rf'{kind}::(\w+) => say\(\s*"((?:[^"\\]|\\.)*)",\s*"((?:[^"\\]|\\.)*)"', whole)
    return [(name, sentence.replace('\\"', '"'), remedy.replace('\\"', '"')) for name, sentence, remedy in found]


def table():
    numbers = dict(re.findall(r"Code::(\w+) => (\d+),", (SOURCE / "code.rt").read_text()))
    text = (SOURCE / "sentences.rt").read_text()
    rows = [(numbers[name], sentence, remedy) for name, sentence, remedy in arms("Code", text)]
    rows += [(WORDS[name], sentence, remedy) for name, sentence, remedy in arms("Unread", text)]
    return HEAD + "".join(f"| {code} | {sentence} | {remedy} |\n" for code, sentence, remedy in rows)


def main():
    page = PAGE.read_text()
    at = page.index(HEAD)
    end = at
    while page.startswith("|", end):
        end = page.index("\n", end) + 1
    if page[at:end] == table():
        return 0
    if "--write" in sys.argv[1:]:
        PAGE.write_text(page[:at] + table() + page[end:])
        return 0
    print("docs/LANGUAGE.md has another table of sentences than crates/cq_sentences/src; docs/sentences.py --write", file=sys.stderr)
    return 1


if __name__ == "__main__":
    sys.exit(main())
