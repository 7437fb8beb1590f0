#!/usr/bin/env python3
"""Writes the SQL of each eval and delta of examples/, and sees that sqlite3 gives the same rows as the program.

    docs/sql.py [--program FILE]

FILE is the program, by default `./cqlrun`. For each instance `eval Q I` and `delta F I` of a file of examples/ it
writes docs/sql/FILE-INSTANCE.sql, over the tables as which I is exported: each entity is a select, each step along a
foreign key a join, each where equation a condition. The statements are run by sqlite3 on the exported files of I, and
what they give is compared with the exported files of the instance, row by row, in order, with labels and ids. Read are
literals of schemas, mappings and queries, colimits, and terms without functions, which is all that the examples have.
"""
import argparse
import csv
import io
import pathlib
import re
import subprocess
import sys
import tempfile

ROOT = pathlib.Path(__file__).resolve().parent.parent
TOKEN = re.compile(r'//[^\n]*|/\*.*?\*/|("(?:\\.|[^"\\])*"|[A-Za-z0-9_$]+|->|\S)', re.S)
HEADS = "typeside schema schema_colimit mapping query instance transform".split()
ESCAPES = {"n": "\n", "t": "\t", "r": "\r"}
# The variable of a mapping's block.
ROW = "row"
SECTIONS = "entities foreign_keys path_equations attributes observation_equations entity_equations from where".split()


class Schema:
    """The entities of a schema, the source of each attribute, and the source and target of each foreign key."""

    def __init__(self):
        self.entities, self.attributes, self.keys = [], {}, {}

    def columns(self, entity):
        names = [name for name, source in self.attributes.items() if source == entity]
        return names, [name for name, (source, _) in self.keys.items() if source == entity]


class Reader:
    """Reads the declarations that SQL is written of, token by token."""

    def __init__(self, text):
        self.tokens = [found[1] for found in TOKEN.finditer(text) if found[1]]
        self.at = 0
        self.schemas, self.mappings, self.queries, self.instances, self.colimits = {}, {}, {}, {}, {}

    def next(self, wanted=None):
        token = self.tokens[self.at]
        if wanted and token != wanted:
            raise ValueError(f"{wanted} is wanted, and {token} stands there")
        self.at += 1
        return token

    def peek(self, ahead=0):
        return self.tokens[self.at + ahead] if self.at + ahead < len(self.tokens) else ""

    def is_end(self):
        return self.peek() in ("}", *SECTIONS) or self.peek() == "entity"

    def section(self, name):
        found = self.peek() == name
        self.at += found
        return found

    def skip(self, *tokens):
        for token in tokens:
            self.next(token)

    def names_of_group(self):
        """The names before a colon."""
        names = [self.next()]
        while self.peek() != ":":
            names.append(self.next())
        self.next(":")
        return names

    def arrow(self):
        """The two schemas of a literal of a mapping or query, up to its brace."""
        self.skip("literal", ":")
        source = self.next()
        self.next("->")
        target = self.next()
        self.next("{")
        return source, target

    def edges(self):
        while not self.is_end():
            names, source = self.names_of_group(), self.next()
            self.next("->")
            target = self.next()
            yield from ((name, source, target) for name in names)

    def term(self):
        """A path of names, the variable first, or a text."""
        if self.peek().startswith('"'):
            return [self.next()]
        name = self.next()
        if self.peek() == "(":
            self.next("(")
            path = self.term() + [name]
            self.next(")")
        else:
            path = [name]
        while self.peek() == ".":
            self.next(".")
            path.append(self.next())
        return path

    def schema(self, name):
        found = self.schemas[name] = Schema()
        self.skip("literal", ":")
        self.next()
        self.next("{")
        if self.section("entities"):
            while not self.is_end():
                found.entities.append(self.next())
        if self.section("foreign_keys"):
            found.keys = {key: (source, target) for key, source, target in self.edges()}
        while self.peek() not in ("attributes", "observation_equations", "}"):
            self.next()
        if self.section("attributes"):
            found.attributes = {attribute: source for attribute, source, _ in self.edges()}
        while self.next() != "}":
            pass

    def colimit(self, name):
        self.next("quotient")
        parts = [self.next()]
        while self.section("+"):
            parts.append(self.next())
        self.next(":")
        self.next()
        self.next("{")
        first = {(part, entity): f"{part}_{entity}" for part in parts for entity in self.schemas[part].entities}
        if self.section("entity_equations"):
            while not self.is_end():
                left = self.term()
                self.next("=")
                first[tuple(self.term())] = first[tuple(left)]
        while self.next() != "}":
            pass
        joined = self.schemas[name] = Schema()
        joined.entities = list(dict.fromkeys(first.values()))
        for part in parts:
            of = self.schemas[part]
            joined.attributes.update({f"{part}_{att}": first[part, e] for att, e in of.attributes.items()})
            joined.keys.update({f"{part}_{k}": (first[part, e], first[part, f]) for k, (e, f) in of.keys.items()})
        self.colimits[name] = first

    def mapping(self):
        if self.section("getMapping"):
            joined, part = self.next(), self.next()
            of = self.schemas[part]
            images = {name: [ROW, f"{part}_{name}"] for name in [*of.attributes, *of.keys]}
            return part, joined, {entity: self.colimits[joined][part, entity] for entity in of.entities}, images
        source, target = self.arrow()
        entities, images = {}, {}
        while self.section("entity"):
            entity = self.next()
            self.next("->")
            entities[entity] = self.next()
            for section in ("foreign_keys", "attributes"):
                if self.section(section):
                    while not self.is_end():
                        name = self.next()
                        self.next("->")
                        path = self.term()
                        images[name] = [ROW] + [one for one in path if one not in self.schemas[target].entities]
        self.next("}")
        return source, target, entities, images

    def query(self):
        source, target = self.arrow()
        blocks = {}
        while self.section("entity"):
            entity = self.next()
            self.skip("->", "{")
            blocks[entity] = self.block()
        self.next("}")
        return source, target, blocks

    def block(self):
        variables, tests, attributes, keys = {}, [], {}, {}
        if self.section("from"):
            while not self.is_end():
                names, entity = self.names_of_group(), self.next()
                variables.update({name: entity for name in names})
        if self.section("where"):
            while not self.is_end():
                left = self.term()
                self.next("=")
                tests.append((left, self.term()))
        if self.section("attributes"):
            while not self.is_end():
                name = self.next()
                self.next("->")
                attributes[name] = self.term()
        if self.section("foreign_keys"):
            while self.peek() != "}":
                key = self.next()
                self.skip("->", "{")
                keys[key] = {}
                while self.peek() != "}":
                    name = self.next()
                    self.next("->")
                    keys[key][name] = self.term()
                self.next("}")
        self.next("}")
        return variables, tests, attributes, keys

    def read(self):
        while self.at < len(self.tokens):
            head, name = self.next(), self.next()
            self.next("=")
            if head == "schema" and self.peek() == "literal":
                self.schema(name)
            elif head == "schema_colimit":
                self.colimit(name)
            elif head == "mapping":
                self.mappings[name] = self.mapping()
            elif head == "query":
                self.queries[name] = self.query()
            elif head == "instance" and self.peek() in ("eval", "delta"):
                self.instances[name] = (self.next(), self.next(), self.next())
            else:
                while self.peek() not in HEADS and self.at < len(self.tokens):
                    self.next()
        return self


def quoted(*names):
    return '"' + " ".join(names).replace('"', '""') + '"'


class Select:
    """A select over the rows of some variables, with a join for each step along a foreign key."""

    def __init__(self, schema, variables):
        self.schema, self.entities = schema, {(name,): entity for name, entity in variables.items()}
        self.tables = [f"{quoted(entity)} as {quoted(name)}" for name, entity in variables.items()]
        self.tests, self.columns = [], []

    def row(self, path):
        """The name of the table at which a path ends."""
        path = tuple(path)
        if path not in self.entities:
            before = self.row(path[:-1])
            _, target = self.schema.keys[path[-1]]
            self.entities[path] = target
            self.tables.append(f"{quoted(target)} as {quoted(*path)}")
            self.tests.append(f"{quoted(*path)}.id = {before}.{quoted(path[-1])}")
        return quoted(*path)

    def value(self, path):
        if path[0].startswith('"'):
            content = re.sub(r"\\(.)", lambda found: ESCAPES.get(found[1], found[1]), path[0][1:-1])
            return "'" + content.replace("'", "''") + "'"
        if path[-1] in self.schema.attributes:
            return f"{self.row(path[:-1])}.{quoted(path[-1])}"
        return f"{self.row(path)}.id"

    def text(self):
        if not self.tables:
            return "select 1 as id"
        lists = [("select ", ", ", self.columns), ("from ", ", ", self.tables), ("where ", " and ", self.tests)]
        return "\n  ".join(head + between.join(parts) for head, between, parts in lists if parts)


def sql_of_query(source, target, blocks):
    """The statements that make the answers of each block, and then the select of each entity."""
    makes, gives = [], {}
    for entity in target.entities:
        variables, tests, attributes, keys = blocks[entity]
        select = Select(source, variables)
        order = ", ".join(f"{quoted(name)}.id" for name in variables)
        select.tests += [f"{select.value(left)} = {select.value(right)}" for left, right in tests]
        select.columns = [f"row_number() over (order by {order}) as id"]
        select.columns += [f"{quoted(name)}.id as {quoted('the', name)}" for name in variables]
        names, key_names = target.columns(entity)
        select.columns += [f"{select.value(attributes[name])} as {quoted(name)}" for name in names]
        for key in key_names:
            select.columns += [f"{select.value(path)} as {quoted(key, name)}" for name, path in keys[key].items()]
        makes.append(f"create table {quoted('answers', entity)} as\n  {select.text()};")
        tables, joins = [f"{quoted('answers', entity)} as a"], []
        for key in key_names:
            tables.append(f"{quoted('answers', target.keys[key][1])} as {quoted(key)}")
            joins += [f"{quoted(key)}.{quoted('the', name)} = a.{quoted(key, name)}" for name in keys[key]]
        columns = ["a.id", *(f"a.{quoted(name)}" for name in names)]
        columns += [f"{quoted(key)}.id as {quoted(key)}" for key in key_names]
        where = "\n  where " + " and ".join(joins) if joins else ""
        gives[entity] = f"select {', '.join(columns)}\n  from {', '.join(tables)}{where}\n  order by a.id;"
    return makes, gives


def sql_of_mapping(source, target, entities, images):
    gives = {}
    for entity in source.entities:
        select = Select(target, {ROW: entities[entity]})
        names, keys = source.columns(entity)
        values = [f"{select.value(images[name])} as {quoted(name)}" for name in [*names, *keys]]
        select.columns = [f"{quoted(ROW)}.id", *values]
        gives[entity] = f"{select.text()}\n  order by {quoted(ROW)}.id;"
    return [], gives


def loads(schema, folder):
    """The statements that make the tables of an instance, and load its exported files."""
    for entity in schema.entities:
        names, keys = schema.columns(entity)
        columns = ["id integer", *(f"{quoted(name)} text" for name in names)]
        columns += [f"{quoted(key)} integer" for key in keys]
        yield f"create table {quoted(entity)} ({', '.join(columns)});"
        yield f".import --csv --skip 1 {folder}/{entity}.csv {quoted(entity)}"


def records(text):
    return [row for row in csv.reader(io.StringIO(text)) if row]


def check(read, name, csv_folder, stem):
    """Writes the SQL of an instance, runs it, and gives the entities whose rows it gives otherwise."""
    kind, by, of = read.instances[name]
    if kind == "eval":
        source, target, blocks = read.queries[by]
        schema, shown = read.schemas[source], read.schemas[target]
        makes, gives = sql_of_query(schema, shown, blocks)
    else:
        source, target, entities, images = read.mappings[by]
        schema, shown = read.schemas[target], read.schemas[source]
        makes, gives = sql_of_mapping(shown, schema, entities, images)
    head = f"-- {kind} {by} {of}, over the tables of {of}. Written by docs/sql.py.\n"
    body = "\n".join(makes + [f"-- {entity}\n{select}" for entity, select in gives.items()])
    (ROOT / "docs/sql" / f"{stem}-{name}.sql").write_text(head + body + "\n")
    for entity, select in gives.items():
        script = "\n".join([*loads(schema, csv_folder / of), *makes, ".mode csv", ".headers on", select])
        ran = subprocess.run(["sqlite3", ":memory:"], input=script, capture_output=True, text=True)
        wanted = records((csv_folder / name / f"{entity}.csv").read_text())
        names, keys = shown.columns(entity)
        found = records(ran.stdout) or [["id", *names, *keys]]
        if ran.stderr or found != wanted:
            yield f"{stem}: {name}: {entity}: {ran.stderr or 'other rows'}"


def main():
    words = argparse.ArgumentParser()
    words.add_argument("--program", type=pathlib.Path, default=ROOT / "cqlrun")
    program = words.parse_args().program.resolve()
    (ROOT / "docs/sql").mkdir(exist_ok=True)
    faults, count = [], 0
    examples = (ROOT / "examples").resolve()
    for file in sorted(examples.rglob("*.cql")):
        read = Reader(file.read_text()).read()
        with tempfile.TemporaryDirectory() as folder:
            pathlib.Path(folder, "examples").symlink_to(examples)
            if read.instances:
                name = f"examples/{file.relative_to(examples)}"
                subprocess.run([program, "run", name], cwd=folder, stdout=subprocess.DEVNULL, check=True)
            for name in read.instances:
                count += 1
                faults += check(read, name, pathlib.Path(folder, "cql-out/csv"), file.stem)
    print(f"{count} instances by SQL")
    for fault in faults:
        print(fault)
    sys.exit(1 if faults else 0)


if __name__ == "__main__":
    main()
