#!/usr/bin/env python3
"""Makes the table of crates in docs/architecture.md from crates.txt and from each crate's first lines.

    crate_table.py            prints the table
    crate_table.py --write    puts it into docs/architecture.md, between the two comments that mark its place

A layer is a comment `# N. TITLE` of crates.txt with the crates below it. What a crate is for is told by the first
paragraph of the `//!` lines at the head of its src/lib.rt or src/main.rt.
"""

from __future__ import annotations

import pathlib
import re
import sys
from typing import NamedTuple

ROOT = pathlib.Path(__file__).resolve().parents[2]
PAGE = ROOT / "docs" / "architecture.md"
BEGIN = "<!-- table of crates: made by checks/tools/crate_table.py -->"
END = "<!-- end of the table of crates -->"
HEADING = re.compile(r"# (\d+)\. (.+)")


class Crate(NamedTuple):
    """A line of crates.txt: the crate, the number of its layer, what it stands on, and its comment."""

    name: str
    layer: int
    below: list[str]
    comment: str


class Plan(NamedTuple):
    """What crates.txt says: the titles of its layers with their numbers, and its crates, in order."""

    layers: list[tuple[int, str]]
    crates: list[Crate]


def plan_of(text: str) -> Plan:
    """Returns the layers and crates of a text of the form of crates.txt; a crate above all headings is in layer 0."""
    layers: list[tuple[int, str]] = []
    crates: list[Crate] = []
    for line in text.splitlines():
        heading = HEADING.fullmatch(line.strip())
        if heading:
            layers.append((int(heading[1]), heading[2]))
            continue
        row, _, comment = line.partition("#")
        name, colon, below = row.partition(":")
        if colon:
            crates.append(Crate(name.split()[0], layers[-1][0] if layers else 0, below.split(), comment.strip()))
    return Plan(layers, crates)


def read_plan(root: pathlib.Path = ROOT) -> Plan:
    """Returns the layers and crates of the repository's crates.txt."""
    return plan_of((root / "crates.txt").read_text(encoding="utf-8"))


def head_of(crate: str, root: pathlib.Path = ROOT) -> str:
    """Returns the first paragraph of what a crate says of itself, as one line; empty where it says nothing."""
    found = [root / "crates" / crate / "src" / name for name in ("lib.rt", "main.rt")]
    file = next((it for it in found if it.exists()), None)
    lines: list[str] = []
    for line in file.read_text(encoding="utf-8").splitlines() if file else []:
        if not line.startswith("//!") or not line[3:].strip():
            break
        lines.append(line[3:].strip())
    return " ".join(lines)


def table(plan: Plan, root: pathlib.Path = ROOT) -> str:
    """Returns the table of all crates, layer by layer, in Markdown."""
    rows = ["| Crate | What it is for |", "|---|---|"]
    for number, title in plan.layers:
        rows.append(f"| **{number}. {title}** | |")
        rows += [f"| `{it.name}` | {head_of(it.name, root)} |" for it in plan.crates if it.layer == number]
    return "\n".join(rows) + "\n"


def parts_of(page: str) -> tuple[str, str, str]:
    """Returns a page up to its table, its table, and the rest, with the marks in the first and last part."""
    before, begin, rest = page.partition(BEGIN + "\n")
    inner, end, after = rest.partition(END)
    if not begin or not end:
        raise ValueError(f"{PAGE.name} has no lines {BEGIN} and {END}")
    return before + begin, inner, end + after


def main() -> int:
    made = table(read_plan())
    if sys.argv[1:] == ["--write"]:
        before, _, after = parts_of(PAGE.read_text(encoding="utf-8"))
        PAGE.write_text(f"{before}\n{made}\n{after}", encoding="utf-8")
        return 0
    if sys.argv[1:]:
        print(__doc__.strip(), file=sys.stderr)
        return 2
    print(made, end="")
    return 0


if __name__ == "__main__":
    sys.exit(main())
