#!/usr/bin/env python3
"""Writes the colours of CQL for editors from the grammar in docs/LANGUAGE.md.

    editors/make.py

The words are those that stand between quotation marks in the productions, and the list of reserved words; the marks
are those of its section on tokens. So a word that is added there is coloured once this has run again. Written are
editors/vim/syntax/cql.vim, for Vim, and editors/vscode/syntaxes/cql.tmLanguage.json, a TextMate grammar, for VS Code
and others.
"""
import json
import pathlib
import re

ROOT = pathlib.Path(__file__).resolve().parent.parent
VIM = ROOT / "editors/vim/syntax/cql.vim"
TEXTMATE = ROOT / "editors/vscode/syntaxes/cql.tmLanguage.json"
MADE = "made by editors/make.py from docs/LANGUAGE.md"
BINDERS = ["forall", "lambda"]
NAME = "[A-Za-z0-9_$]+"


class Words:
    """The words and marks of the grammar, by what they are for."""

    def __init__(self, page):
        section = page.split("\n## Grammar\n", 1)[1].split("\n### ", 1)[0]
        blocks = [block for block in section.split("\n\n") if re.match(r"    \w+ += ", block)]
        productions = "\n".join(blocks)
        quoted = list(dict.fromkeys(re.findall(r'"([^"\n]+)"', productions)))
        listed = re.search(r"the reserved\s+words are `([^`]+)`", section)[1].split()
        heads = productions.split("declaration = ", 1)[1].split("options ", 1)[0]
        self.marks = re.search(r"The \*marks\* are `([^`]+)`", page)[1].split()
        self.heads = [word for word in re.findall(r'"(\w+)"', heads) if word in listed]
        self.operations = [word for word in quoted if re.fullmatch(NAME, word) and word not in listed]
        self.binders = [word for word in listed if word in BINDERS]
        self.left_out = [word for word in listed if word not in quoted]
        others = {*self.heads, *self.binders, *self.left_out}
        self.sections = [word for word in listed if word not in others]


def either(words):
    return "|".join(sorted(words, key=lambda word: (-len(word), word)))


def vim(words):
    heads = r"\%(" + either(words.heads).replace("|", r"\|") + r"\)"
    operations = r"\%(" + either(words.operations).replace("|", r"\|") + r"\)"
    marks = r"\|".join(re.escape(mark).replace(r"\-", "-").replace("/", r"\/") for mark in words.marks if mark != "->")
    for bare in "{}()+":
        marks = marks.replace("\\" + bare, bare)
    name = NAME.replace("+", r"\+")
    return f'''" Vim syntax of CQL: {MADE}.
if exists("b:current_syntax")
  finish
endif
syn case match
syn iskeyword 48-57,65-90,97-122,_,$
" Of two matches at one place the later one is taken.
syn match cqlName /{name}/
syn match cqlMark /->\\|{marks}/
syn match cqlDeclared /\\%(\\<{heads}\\_s\\+\\)\\@<={name}/
syn match cqlOperation /\\%(\\<{heads}\\_s\\+{name}\\_s*=\\_s*\\)\\@<=\\<{operations}\\>/
syn keyword cqlHead {" ".join(words.heads)}
syn keyword cqlSection {" ".join(words.sections)}
syn keyword cqlBinder {" ".join(words.binders)}
syn keyword cqlLeftOut {" ".join(words.left_out)}
syn match cqlEscape /\\\\["\\\\ntr]/ contained
syn region cqlText start=/"/ skip=/\\\\\\_./ end=/"/ contains=cqlEscape
syn match cqlComment /\\/\\/.*/
syn region cqlComment start=/\\/\\*/ end=/\\*\\//
syn sync minlines=200
hi def link cqlName Identifier
hi def link cqlMark Delimiter
hi def link cqlDeclared Type
hi def link cqlOperation Function
hi def link cqlHead Keyword
hi def link cqlSection Statement
hi def link cqlBinder Special
hi def link cqlLeftOut Error
hi def link cqlEscape SpecialChar
hi def link cqlText String
hi def link cqlComment Comment
let b:current_syntax = "cql"
'''


def textmate(words):
    def whole(group):
        return rf"(?<![A-Za-z0-9_$])(?:{either(group)})(?![A-Za-z0-9_$])"

    heads, operations = either(words.heads), either(words.operations)
    declaration = rf"(?<![A-Za-z0-9_$])({heads})\s+({NAME})(?:\s*(=)\s*({operations})(?![A-Za-z0-9_$]))?"
    captures = ["keyword.declaration.cql", "entity.name.type.cql", "punctuation.cql", "support.function.cql"]
    escape = {"match": r'\\["\\ntr]', "name": "constant.character.escape.cql"}
    patterns = [
        {"match": "//.*", "name": "comment.line.cql"},
        {"begin": r"/\*", "end": r"\*/", "name": "comment.block.cql"},
        {"begin": '"', "end": '"', "name": "string.quoted.double.cql", "patterns": [escape]},
        {"match": declaration, "captures": {str(n): {"name": name} for n, name in enumerate(captures, 1)}},
        {"match": whole(words.heads), "name": "keyword.declaration.cql"},
        {"match": whole(words.sections), "name": "keyword.control.cql"},
        {"match": whole(words.binders), "name": "keyword.operator.cql"},
        {"match": whole(words.left_out), "name": "invalid.illegal.cql"},
        {"match": NAME, "name": "variable.other.cql"},
        {"match": either(map(re.escape, words.marks)), "name": "punctuation.cql"},
    ]
    grammar = {"comment": MADE, "name": "CQL", "scopeName": "source.cql", "fileTypes": ["cql"], "patterns": patterns}
    return json.dumps(grammar, indent=2) + "\n"


def main():
    words = Words((ROOT / "docs/LANGUAGE.md").read_text())
    VIM.write_text(vim(words))
    TEXTMATE.write_text(textmate(words))


if __name__ == "__main__":
    main()
