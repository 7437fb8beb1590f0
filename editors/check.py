#!/usr/bin/env python3
"""Colours each example by both grammars, and finds what is left without a colour or has a wrong one.

    editors/check.py

First it looks whether the two files are what editors/make.py writes. Then each .cql file of examples/ is cut into
words, texts, comments and marks, and each byte of it has to be coloured as what it is: by Vim, where the machine has
it, and by the TextMate grammar, which is followed here line by line as editors follow it. The status is 0 where
nothing was found.
"""
import json
import pathlib
import re
import shutil
import subprocess
import sys
import tempfile

import make

ROOT = make.ROOT
COMMENT, TEXT, WORD = rb"//[^\n]*|/\*.*?\*/", rb'"(?:\\.|[^"\\])*"', rb"[A-Za-z0-9_$]+"
TOKEN = re.compile(rb"(?P<comment>%b)|(?P<text>%b)|(?P<word>%b)|(?P<mark>\S)" % (COMMENT, TEXT, WORD), re.DOTALL)
# The kind of a piece: its groups in Vim, and how its scopes begin in the TextMate grammar.
KINDS = {
    "comment": (["Comment"], ["comment"]),
    "text": (["Text", "Escape"], ["string", "constant.character"]),
    "mark": (["Mark"], ["punctuation"]),
    "head": (["Head"], ["keyword.declaration"]),
    "declared": (["Declared"], ["entity.name"]),
    "operation": (["Operation"], ["support.function"]),
    "section": (["Section"], ["keyword.control"]),
    "binder": (["Binder"], ["keyword.operator"]),
    "name": (["Name"], ["variable"]),
}
# Words of operations are names elsewhere, marks and escapes stand in texts, and comments stand anywhere.
HARD = r"""instance delta = delta sigma eval // instance x = literal
instance I = literal : eval { /* generators
  " */ generators literal : coeval equations literal.delta = "a \"b\" // {" a=b }
mapping literal = identity $1_x
"""
# Prints for each line a line of the names of its bytes' groups.
VIM_SCRIPT = """
syntax on
for number in range(1, line('$'))
  let names = map(range(1, len(getline(number))), 'synIDattr(synID(number, v:val, 1), "name")')
  call add(g:found, join(names, ','))
endfor
"""


def pieces(content, words):
    """The pieces of a file: where each begins and ends, and its kind."""
    before = [None, None, None]
    for found in TOKEN.finditer(content):
        kind, word = found.lastgroup, found[0].decode(errors="replace")
        if kind == "word":
            is_head = word in words.heads
            is_operation = word in words.operations and before[0] == "head" and before[1:] == ["declared", "="]
            kinds = [("head", is_head), ("section", word in words.sections), ("binder", word in words.binders)]
            kinds += [("declared", before[2] == "head"), ("operation", is_operation)]
            kind = next((kind for kind, holds in kinds if holds), "name")
        if kind != "comment":
            before = before[1:] + [word if kind == "mark" else kind]
        yield found.start(), found.end(), kind


def by_vim(file):
    """The name of the group of each byte, by lines."""
    with tempfile.TemporaryDirectory() as folder:
        script, out = pathlib.Path(folder, "s.vim"), pathlib.Path(folder, "out")
        script.write_text(f"let g:found = []\n{VIM_SCRIPT}call writefile(g:found, '{out}')\nqall!\n")
        path = f"set runtimepath^={ROOT / 'editors/vim'} encoding=utf-8 nomodeline"
        words = "vim -N -u NONE -i NONE -es".split()
        words += ["--cmd", path, "--cmd", "filetype on", "-S", script, file]
        subprocess.run(words, stdin=subprocess.DEVNULL, timeout=60)
        return [line.replace("cql", "").split(",") for line in out.read_text().split("\n")]


def scopes_of_line(line, patterns, at, end, open_rule, put):
    """Follows the rules from a place of a line, and gives the rule that is still open at its end."""
    while at < end:
        if open_rule:
            rules = [({"match": open_rule["end"]}, True), *((rule, False) for rule in open_rule.get("patterns", []))]
        else:
            rules = [(rule, False) for rule in patterns]
        hits = [(re.compile(rule.get("match") or rule["begin"]).search(line, at), rule, ends) for rule, ends in rules]
        hits = [hit for hit in hits if hit[0]]
        found, rule, ends = min(hits, key=lambda hit: hit[0].start(), default=(None, None, False))
        until = found.start() if found else end
        if open_rule:
            put(at, until, open_rule["name"])
        if not found:
            return open_rule
        put(found.start(), found.end(), open_rule["name"] if ends else rule.get("name", ""))
        for number, capture in rule.get("captures", {}).items():
            put(*found.span(int(number)), capture["name"])
        open_rule = None if ends else rule if "begin" in rule else open_rule
        at = found.end()
    return open_rule


def by_textmate(file, patterns):
    """The scope of each byte, by lines. Characters stand for bytes, as ASCII alone has scopes of its own."""
    open_rule, found = None, []
    for line in file.read_bytes().decode("latin-1").split("\n"):
        scopes = [""] * len(line)

        def put(start, end, name):
            scopes[max(start, 0) : max(end, 0)] = [name] * (end - start)

        open_rule = scopes_of_line(line, patterns, 0, len(line), open_rule, put)
        found.append(scopes)
    return found


def faults(file, words, colours, place):
    """The pieces that don't have the colour of their kind."""
    content = file.read_bytes()
    for start, end, kind in pieces(content, words):
        wanted = KINDS[kind][place]
        for at in range(start, end):
            line, column = content.count(b"\n", 0, at), at - (content.rfind(b"\n", 0, at) + 1)
            if content[at] in b" \n":
                continue
            colour = colours[line][column]
            if not any(colour == one if place == 0 else colour.startswith(one) for one in wanted):
                shown = content[start:end].decode(errors="replace")
                yield f"{file.name}:{line + 1}: {kind} {shown} has {colour or 'no colour'}"
                break


def faults_of(file, words, patterns):
    found = [f"TextMate: {fault}" for fault in faults(file, words, by_textmate(file, patterns), 1)]
    if shutil.which("vim"):
        found += [f"Vim: {fault}" for fault in faults(file, words, by_vim(file), 0)]
    return found


def main():
    words = make.Words((ROOT / "docs/LANGUAGE.md").read_text())
    made = {make.VIM: make.vim(words), make.TEXTMATE: make.textmate(words)}
    old = [file for file, text in made.items() if file.read_text() != text]
    found = [f"{file.relative_to(ROOT)}: run editors/make.py" for file in old]
    patterns = json.loads(make.TEXTMATE.read_text())["patterns"]
    files = sorted((ROOT / "examples").resolve().rglob("*.cql"))
    files = [ROOT / "examples" / file.relative_to((ROOT / "examples").resolve()) for file in files]
    with tempfile.TemporaryDirectory() as folder:
        hard = pathlib.Path(folder, "hard.cql")
        hard.write_text(HARD)
        for file in [hard, *files]:
            found += faults_of(file, words, patterns)
    print(f"{len(files) + 1} files coloured" + ("" if shutil.which("vim") else "; this machine has no vim"))
    for fault in found:
        print(fault)
    sys.exit(1 if found else 0)


if __name__ == "__main__":
    main()
