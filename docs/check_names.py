"""Finds links and names in the pages that lead nowhere: of files, of crates, of functions and types."""
import pathlib
import re

FOLDERS = ("bench", "crates", "docs", "editors", "examples")
TOP = ("cqlrun", "crates.txt", "README.md", "CONTRIBUTING.md", "HANDLES")
SUFFIXES = (".antt", ".cql", ".csv", ".edit", ".md", ".py", ".rt", ".svg")
STD = ("csv", "fs", "io", "slice", "std", "str")
DECLARES = re.compile(r"\b(?:fn|struct|enum|trait|type|mod|const|law)\s+(\w+)")
VARIANT = re.compile(r"^\s+(\w+)(?:\(.*\)|\s*\{.*)?,?\s*$", re.MULTILINE)


def slug(heading):
    """The anchor of a heading, as GitHub makes it."""
    kept = re.sub(r"[^\w\- ]", "", heading.strip().lower())
    return kept.replace(" ", "-")


def anchors(text):
    return {slug(line.lstrip("#")) for line in text.split("\n") if line.startswith("#")}


class Names:
    """The names of the crates, and what each declares."""

    def __init__(self, root):
        self.root = root
        lines = (line.split("#")[0] for line in (root / "crates.txt").read_text().splitlines())
        self.crates = {line.split(":")[0].split()[0] for line in lines if ":" in line}
        self.declared = {crate: self._declared(crate) for crate in self.crates}
        self.all = set().union(*self.declared.values())

    def _declared(self, crate):
        found = set()
        for file in (self.root / "crates" / crate / "src").rglob("*.rt"):
            text = file.read_text()
            found |= {*DECLARES.findall(text), *VARIANT.findall(text)}
        return found

    def has_file(self, word):
        return any(self.root.glob(word.rstrip("/")))


def links(root, page, text):
    for match in re.finditer(r"\]\(([^)\s]+)\)", text):
        target, _, anchor = match[1].partition("#")
        if "://" in target:
            continue
        file = (page.parent / target) if target else page
        if not file.exists():
            yield f"no file {match[1]}"
        elif anchor and anchor not in anchors(file.read_text()):
            yield f"no heading {match[1]}"


def words(names, text):
    """The names between backquotes that look like a file, a crate, or something that a crate declares."""
    for match in re.finditer(r"`([^`\n]+)`", text):
        word = match[1]
        if re.fullmatch(r"cq_\w+", word) and word not in names.crates:
            yield f"no crate {word}"
        elif re.fullmatch(r"[\w./*-]+", word) and word.split("/")[0] in FOLDERS and "/" in word:
            if not names.has_file(word):
                yield f"no file {word}"
        elif re.fullmatch(r"\w+(::\w+)+", word):
            first, last = word.split("::")[0], word.split("::")[-1]
            if first not in STD and last not in names.declared.get(first, names.all):
                yield f"nothing declares {word}"


def listed(names, text):
    """In a line of README.md on crates, what stands between a crate and the colon is declared by it."""
    for match in re.finditer(r"^- ((?:`[^`]+`(?:, | \([^)]*\), | \([^)]*\)|))+):", text, re.MULTILINE):
        named = re.findall(r"`([^`]+)`", re.sub(r"\([^)]*\)", "", match[1]))
        crates = [word for word in named if word in names.crates]
        for word in named:
            if crates and word not in names.crates and re.fullmatch(r"[\w:]+", word):
                if not any(word.split("::")[-1] in names.declared[crate] for crate in crates):
                    yield f"{' and '.join(crates)} declares no {word}"


def faults_of(root):
    """What leads nowhere in each page, with the page."""
    names = Names(root)
    found = []
    folders = [page for folder in ("docs", "editors") for page in sorted(root.glob(f"{folder}/*.md"))]
    for page in [root / "README.md", root / "CONTRIBUTING.md", *folders]:
        text = page.read_text()
        faults = [*links(root, page, text), *words(names, text)]
        if page.name == "README.md":
            faults += listed(names, text)
        found += [f"{page.relative_to(root)}: {fault}" for fault in faults]
    return found
