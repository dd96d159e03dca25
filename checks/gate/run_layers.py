#!/usr/bin/env python3
"""Holds crates.txt to its layers, and the two pages that name each crate to what is there.

`run_layers.py [PROGRAM]` needs no program and runs none. It tries:

- the layers are numbered from 1 on, in order, each with a crate;
- each folder of crates/ has one line, and each line has its folder;
- a crate stands only on crates that have their lines above its own, so in its own layer or a lower one;
- nothing stands on a crate of the last layer, which is for tests, except crates of this layer;
- the comment `only for proofs: ..` after a crate's line names just the crates of this repository that stand in the
  line and that neither the crate's code nor its clauses and definitions name;
- each crate says in its first lines what it is for, and the table of crates in docs/architecture.md is the one that
  these lines make;
- in the drawings of that page, and in the longest chain that it names, a crate stands on the next one further in;
- docs/edits.md has just the crates with edits, each with as many rows as it has edits, and names each other crate
  among those without.

It prints what fails, and ends with 'N passed, M failed'. `run_layers.py --marks` prints crates.txt with the comments
that are right.
"""

from __future__ import annotations

import collections
import pathlib
import re
import sys

sys.dont_write_bytecode = True
sys.path.insert(0, str(pathlib.Path(__file__).resolve().parents[1] / "tools"))
from crate_table import PAGE, ROOT, Crate, Plan, head_of, parts_of, read_plan, table  # noqa: E402

MARK = "only for proofs:"
EDITS = ROOT / "docs" / "edits.md"
# a module of a crate, as definitions and clauses name it, and a crate as code names it
MODULE = re.compile(r"\bRattle\.(\w+)\.")
PATH = re.compile(r"(?<![\w.:])([a-z]\w*)::")


def named_by(crate: str, root: pathlib.Path = ROOT) -> set[str]:
    """Returns the crates that a crate's code, clauses or definitions name."""
    found: set[str] = set()
    folder = root / "crates" / crate
    for file in [*folder.glob("src/**/*.rt"), *folder.glob("specs/**/*.antt")]:
        text = file.read_text(encoding="utf-8")
        found |= set(MODULE.findall(text))
        if file.suffix == ".rt":
            found |= set(PATH.findall(text))
    return found


def mark_of(crate: Crate, own: set[str]) -> str:
    """Returns the comment that a crate's line should have."""
    named = named_by(crate.name)
    proofs = [it for it in crate.below if it in own and it not in named]
    return f"{MARK} {' '.join(proofs)}" if proofs else ""


def faults_of_layers(plan: Plan) -> list[str]:
    """Returns what is wrong with the headings."""
    faults = []
    for place, (number, title) in enumerate(plan.layers, 1):
        if number != place:
            faults.append(f"layer {number}, {title}: its number should be {place}")
        elif not any(it.layer == number for it in plan.crates):
            faults.append(f"layer {number}, {title}: it has no crate")
    return faults


def faults_of_places(plan: Plan, last: int) -> dict[str, list[str]]:
    """Returns for each crate what is wrong with its place in the file."""
    faults: dict[str, list[str]] = {it.name: [] for it in plan.crates}
    layers = {it.name: it.layer for it in plan.crates}
    above: set[str] = set()
    for crate in plan.crates:
        mine = faults[crate.name]
        if crate.name in above:
            mine.append("it has two lines")
        if crate.layer == 0:
            mine.append("its line stands above all layers")
        if not (ROOT / "crates" / crate.name / "src").is_dir():
            mine.append("it has no folder")
        for other in crate.below:
            if other in layers and other not in above:
                mine.append(f"it stands on {other}, whose line isn't above its own")
            elif layers.get(other) == last and crate.layer != last:
                mine.append(f"it stands on {other}, which is for tests")
        above.add(crate.name)
    return faults


def faults_of_folders(plan: Plan) -> list[str]:
    """Returns the folders of crates/ that have no line."""
    names = {it.name for it in plan.crates}
    folders = sorted(it.name for it in (ROOT / "crates").iterdir() if (it / "src").is_dir())
    return [f"crates/{it} has no line in crates.txt" for it in folders if it not in names]


def faults_of_page(plan: Plan) -> list[str]:
    """Returns what is wrong with the table of crates."""
    try:
        _, inner, _ = parts_of(PAGE.read_text(encoding="utf-8"))
    except ValueError as fault:
        return [str(fault)]
    if inner.strip() == table(plan).strip():
        return []
    return ["docs/architecture.md: the table of crates is stale: call checks/tools/crate_table.py --write"]


def drawn(page: str) -> list[tuple[str, str]]:
    """Returns the edges that the drawings of a page show: a crate, and one that is drawn right below and further in."""
    edges = []
    for drawing in re.findall(r"^```\n(.*?)^```", page, re.DOTALL | re.MULTILINE):
        above: list[str] = []
        for line in drawing.splitlines():
            row = re.match(r"([│├└─ ]*)(m[ko]\w+)", line)
            if row:
                above = above[: len(row[1]) // 4]
                edges += [(above[-1], row[2])] if above else []
                above.append(row[2])
    return edges


def heights(plan: Plan) -> dict[str, int]:
    """Returns for each crate how many crates the longest chain has from it downwards."""
    found: dict[str, int] = {}
    for crate in plan.crates:
        found[crate.name] = 1 + max((found[it] for it in crate.below if it in found), default=0)
    return found


def faults_of_map(plan: Plan) -> list[str]:
    """Returns what is wrong with the drawings of crates and with the longest chain that the page names."""
    page = PAGE.read_text(encoding="utf-8")
    below = {it.name: it.below for it in plan.crates}
    chain = re.search(r"The longest chains .*? have (\d+) crates\. One is ([^.]*)\.", page)
    names = re.findall(r"`(\w+)`", chain[2]) if chain else []
    edges = [*drawn(page), *zip(names, names[1:])]
    faults = [f"{one} doesn't stand on {other}" for one, other in edges if other not in below.get(one, [])]
    most = max(heights(plan).values(), default=0)
    if not chain or not int(chain[1]) == len(names) == most:
        told = chain[1] if chain else "nothing"
        faults.append(f"the longest chain has {most} crates; the page says {told} and names {len(names)}")
    return [f"docs/architecture.md: {it}" for it in faults + ([] if drawn(page) else ["it has no drawing"])]


def faults_of_edits(plan: Plan) -> list[str]:
    """Returns what is wrong with the page of edits."""
    page, _, rest = EDITS.read_text(encoding="utf-8").partition("## Crates without edits")
    real = collections.Counter(it.parts[-3] for it in (ROOT / "crates").glob("*/must-fail/*.edit"))
    rows: collections.Counter[str] = collections.Counter()
    told: dict[str, int] = {}
    crate = ""
    for line in page.splitlines():
        head = re.match(r"\| \*\*`(\w+)`\*\*, (\d+) \|", line)
        if head:
            crate = head[1]
            told[crate] = int(head[2])
        elif line.startswith("| ") and not line.startswith("| What"):
            rows[crate] += 1
    faults = [
        f"{it}: {told.get(it, 0)} edits by its head, {rows[it]} rows, {real[it]} edits in its folder"
        for it in sorted({*told, *real})
        if not told.get(it, 0) == rows[it] == real[it]
    ]
    if f"There are {sum(real.values())} edits in {len(real)} crates" not in page:
        faults.append(f"it should say that there are {sum(real.values())} edits in {len(real)} crates")
    for it in plan.crates:
        if it.name not in real and f"`{it.name}`" not in rest and not it.name.endswith("_trials"):
            faults.append(f"{it.name} isn't named among the crates without edits")
    return [f"docs/edits.md: {it}" for it in faults]


def marked(plan: Plan) -> str:
    """Returns crates.txt with the comments that are right."""
    own = {it.name for it in plan.crates}
    right = {it.name: mark_of(it, own) for it in plan.crates}
    lines = []
    for line in (ROOT / "crates.txt").read_text(encoding="utf-8").splitlines():
        row, _, _ = line.partition("#")
        name = row.partition(":")[0].strip()
        lines.append(f"{row.rstrip()}  # {right[name]}" if right.get(name) else row.rstrip() or line)
    return "\n".join(lines) + "\n"


def main() -> int:
    plan = read_plan()
    if sys.argv[1:] == ["--marks"]:
        print(marked(plan), end="")
        return 0
    own = {it.name for it in plan.crates}
    groups = [faults_of_layers(plan), faults_of_folders(plan), faults_of_page(plan), faults_of_map(plan)]
    groups.append(faults_of_edits(plan))
    faults = [it for group in groups for it in group]
    passed = sum(not group for group in groups)
    places = faults_of_places(plan, len(plan.layers))
    for crate in plan.crates:
        mine = places[crate.name]
        right = mark_of(crate, own)
        if crate.comment != right:
            mine.append(f"its comment should be '{right}' and is '{crate.comment}'")
        if not head_of(crate.name):
            mine.append("its first lines don't say what it is for")
        faults += [f"{crate.name}: {it}" for it in mine]
        passed += not mine
    for fault in faults:
        print(fault)
    print(f"{passed} passed, {len(faults)} failed")
    return 1 if faults or not plan.crates else 0


if __name__ == "__main__":
    sys.exit(main())
