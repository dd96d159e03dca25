#!/usr/bin/env python3
"""Tries that what the pages on the proofs name is in the sources: each clause, definition, quotation and file.

`run_claims.py [PROGRAM] [PAGE ..]` reads docs/theorem.md, docs/claims.md, docs/definitions.md and CONTRIBUTING.md, or
the pages that are named by a word that ends with `.md`. It needs no program. It tries:

    | Clause | Function | File | ..     in a table with this head: in the row's file, below `crates`, each function has
                                        each clause in its contract; `-` stands for a clause without a name
    | Definition | File | ..            in a table with this head (more columns may stand between): each name of the
                                        column `Definition` is declared in one of the row's files, each of which
                                        declares one
    <!-- quotes FILE -->                the lines of the fenced block that follows stand in the file one after another;
                                        a line `..` stands for any lines
    `mk_plan/src/lib.rt`, ..            a file or a folder that is named so, from `crates`, is there; `run_paths.py` tries
                                        those that are named from the top
    `IsRightCall`, `HasRun`, ..         a name of this shape is declared in some crate

It prints what is missing, and ends with 'N passed, M failed'.
"""
import functools
import pathlib
import re
import sys
from typing import Iterator

ROOT = pathlib.Path(__file__).resolve().parent.parent.parent
PAGES = ["docs/theorem.md", "docs/claims.md", "docs/definitions.md", "CONTRIBUTING.md"]
NAME = re.compile(r"`([^`]+)`")
FUNCTION = re.compile(r"^\s*(?:pub(?:\([^)]*\))? )?(?:const )?fn (\w+)", re.MULTILINE)
CLAUSE = re.compile(r"^\s*ensures (?:(\w+) )?\{", re.MULTILINE)
PATH = re.compile(r"(?:[\w.-]+/)+[\w.-]*")
SHAPE = re.compile(r"(?:[A-Z][a-z0-9]+){2,}")
DECLARED = re.compile(
    r"^\s*(?:(?:pub|abbrev|unfoldable) )*(?:(?:data|record|module|struct|enum|trait) )?(\w+)\b", re.MULTILINE
)


@functools.lru_cache(maxsize=None)
def text_of(place: str) -> str:
    """The text of a file, by its path from the top or from `crates`; nothing where it isn't there."""
    for base in (ROOT, ROOT / "crates"):
        if (base / place).is_file():
            return (base / place).read_text(encoding="utf-8")
    return ""


@functools.lru_cache(maxsize=None)
def contracts(place: str) -> dict[str, set[str]]:
    """The clauses of each function of a file of code, `-` for one without a name."""
    text = text_of(place)
    found: dict[str, set[str]] = {}
    starts = list(FUNCTION.finditer(text))
    for start, after in zip(starts, [it.start() for it in starts[1:]] + [len(text)]):
        clauses = {it.group(1) or "-" for it in CLAUSE.finditer(text, start.end(), after)}
        found.setdefault(start.group(1), set()).update(clauses)
    return found


@functools.lru_cache(maxsize=None)
def declares(place: str, name: str) -> bool:
    """Whether a file of definitions declares this name, or a file of code this type."""
    if place.endswith(".rt"):
        return re.search(rf"^pub (?:struct|enum|trait) {re.escape(name)}\b", text_of(place), re.MULTILINE) is not None
    said = rf"^\s*(?:(?:pub|abbrev|unfoldable|data|record) )+(?:[^\s(){{}}:]+ )*?{re.escape(name)}(?:\s|$)"
    return re.search(said, text_of(place), re.MULTILINE) is not None


def cells(line: str) -> list[str]:
    """The cells of a row of a table."""
    return [it.strip() for it in line.strip().strip("|").split("|")]


def rows(text: str) -> Iterator[tuple[int, list[str], list[str]]]:
    """Each row of a page's tables: its line, the table's head, and its cells."""
    head: list[str] = []
    for number, line in enumerate(text.splitlines(), 1):
        if not line.startswith("|"):
            head = []
        elif not head:
            head = cells(line)
        elif set(line) - set("|-: "):
            yield number, head, cells(line)


def column(head: list[str], row: list[str], name: str) -> list[str]:
    """The names, between backquotes, in the column with this head; `-` for a cell that is a dash."""
    cell = row[head.index(name)] if head.index(name) < len(row) else ""
    return ["-"] if cell == "-" else NAME.findall(cell)


def clause_rows(text: str) -> Iterator[tuple[str, bool]]:
    """Each clause, function and file of the tables of clauses, with whether it is there."""
    for number, head, row in rows(text):
        if "Clause" not in head:
            continue
        clauses, functions, files = (column(head, row, it) for it in ("Clause", "Function", "File"))
        if not (clauses and functions and files):
            yield f"line {number}: a row without a clause, a function or a file", False
        for function in functions:
            for clause in clauses:
                there = any(clause in contracts(it).get(function, set()) for it in files)
                yield f"line {number}: clause {clause} of {function} in {', '.join(files)}", there


def definition_rows(text: str) -> Iterator[tuple[str, bool]]:
    """Each definition and file of the tables of definitions, with whether it is there."""
    for number, head, row in rows(text):
        if "Definition" not in head:
            continue
        names, files = column(head, row, "Definition"), column(head, row, "File")
        if not (names and files):
            yield f"line {number}: a row without a definition or a file", False
        for name in names:
            yield f"line {number}: {name} in {', '.join(files)}", any(declares(it, name) for it in files)
        for file in files:
            yield f"line {number}: {file} declares one of the row", any(declares(file, it) for it in names)


def stands_in(lines: list[str], text: str) -> bool:
    """Whether these lines stand in a text one after another, `..` standing for any lines."""
    parts = [re.escape(it.strip()) for it in lines]
    pattern = r"\s*\n\s*".join(r"(?:.*\n)*?.*" if it == r"\.\." else it for it in parts)
    return re.search(r"^\s*" + pattern + r"\s*$", text, re.MULTILINE) is not None


def quotations(text: str) -> Iterator[tuple[str, bool]]:
    """Each quotation, with whether it stands in its file."""
    for it in re.finditer(r"<!-- quotes (\S+) -->\s*\n```\w*\n(.*?)\n```", text, re.DOTALL):
        yield f"a quotation of {it.group(1)}", stands_in(it.group(2).splitlines(), text_of(it.group(1)))


def paths(text: str) -> Iterator[tuple[str, bool]]:
    """Each file and folder of a crate that a page names, with whether it is there."""
    crates = {it.name + "/" for it in (ROOT / "crates").iterdir()}
    prose = re.sub(r"```.*?```", "", text, flags=re.DOTALL)
    for word in sorted({it for it in NAME.findall(prose) if PATH.fullmatch(it)}):
        if word.startswith(tuple(crates)):
            yield f"the file crates/{word}", (ROOT / "crates" / word).exists()


@functools.lru_cache(maxsize=None)
def declared() -> set[str]:
    """All names that a line of the crates' definitions and code begins with."""
    found: set[str] = set()
    for folder in ("specs", "src"):
        for place in (ROOT / "crates").glob(f"*/{folder}/**/*"):
            if place.suffix in (".antt", ".rt"):
                found.update(DECLARED.findall(place.read_text(encoding="utf-8")))
    return found


def names(text: str) -> Iterator[tuple[str, bool]]:
    """Each name of a page that has the shape of a definition's, with whether one is declared."""
    prose = re.sub(r"```.*?```", "", text, flags=re.DOTALL)
    for name in sorted({it for it in NAME.findall(prose) if SHAPE.fullmatch(it)}):
        yield f"the name {name}", name in declared()


def main(words: list[str]) -> int:
    """Tries the pages; returns 0 where all that they name is there."""
    pages = [it for it in words if it.endswith(".md")] or PAGES
    passed, failed = 0, 0
    for page in pages:
        text = (ROOT / page).read_text(encoding="utf-8")
        for tried in (clause_rows, definition_rows, quotations, paths, names):
            for what, there in tried(text):
                passed, failed = passed + there, failed + (not there)
                if not there:
                    print(f"{page}: {what}: not there")
    print(f"{passed} passed, {failed} failed")
    return 1 if failed else 0


if __name__ == "__main__":
    sys.exit(main(sys.argv[1:]))
