#!/usr/bin/env python3
"""Puts a built program into dist/, and says there what it was built from.

    refresh_dist.py PROGRAM     PROGRAM is crates/mosaikrun/out/mosaikrun after a gate; it needs git and the kit

It copies PROGRAM to dist/mosaikrun, fills in the table of dist/README.md, from git, the kit and the program itself, and
writes dist/NOTICES: the texts that the licences of the kit's ported crates ask to be handed on. It changes nothing
where sources of the program aren't committed. What it prints is the table; `git add dist` is left to its caller.
"""

from __future__ import annotations

import os
import pathlib
import re
import shutil
import subprocess
import sys
from typing import Dict, List, Set, Tuple

sys.path.insert(0, str(pathlib.Path(__file__).resolve().parents[1] / "gate"))

import built  # noqa: E402
from common import ROOT  # noqa: E402

NOTICES = built.DIST / "NOTICES"
HEAD = """NOTICES of mosaikrun

The program dist/mosaikrun has code of the crates that are named below. They are ports of Rust crates that the kit has,
{kit}.
Each part names its crates, with the version of the Rust crate where the kit tells it. Then comes the text that their
licence asks to be handed on. Libraries of the kit's own, for which it has no text of a licence:
{plain}.
"""
# the kit's library `core`, which has no file of a licence, says in its sources what it took from elsewhere
CORE = {
    "Unicode": ("unicode/LICENSE-UNICODE", "tables of characters"),
    "fast-float2": ("fast_float/LICENSE", "reading of floats"),
    "memchr": ("memchr/LICENSE-MIT", "search of texts"),
}
LINE = "=" * 80


def told(*words: str) -> str:
    """Returns what a command prints."""
    return subprocess.run(words, cwd=ROOT, capture_output=True, text=True, check=True).stdout.strip()


def kit_folder() -> pathlib.Path:
    """Returns the folder of the kit."""
    return pathlib.Path(told("rt", "doc")).parent


def ported(kit: pathlib.Path, crates: Dict[str, List[str]]) -> List[str]:
    """Returns the kit's libraries that the program stands on, all of them."""
    left = ["std", *(name for under in crates.values() for name in under if name not in crates)]
    found: Set[str] = set()
    while left:
        name = left.pop()
        if name not in found:
            found.add(name)
            text = (kit / "rlibs" / f"{name}.rlib" / "format").read_text(encoding="utf-8", errors="replace")
            left += re.findall(r"^dep (\w+)$", text, re.MULTILINE)
    return sorted(found)


def licences_of(folder: pathlib.Path) -> List[pathlib.Path]:
    """Returns the files of licences to be handed on: of two that a crate offers for the same, MIT's."""
    files = sorted(folder.glob("LICENSE*"))
    has_mit = any(file.name == "LICENSE-MIT" for file in files)
    return [file for file in files if not (has_mit and file.name == "LICENSE-APACHE")]


def named(folder: pathlib.Path, file: pathlib.Path) -> str:
    """Returns the name of a crate, with the version of the Rust crate where its page tells it."""
    page = (folder / "README.md").read_text(encoding="utf-8")
    what = file.name.rpartition("LICENSE-")[2].lower() if file.name.startswith("LICENSE-") else folder.name
    for name in (what, folder.name, folder.name.replace("_", "-")):
        found = re.search(rf"`{re.escape(name)}` (\d+(?:\.\d+)+)", page)
        if found:
            also = "" if name.replace("-", "_") == folder.name else f" (after `{name}` {found[1]})"
            return f"`{folder.name}`{also or ' ' + found[1]}"
    return f"`{folder.name}`"


def notices(kit: pathlib.Path, libraries: List[str]) -> str:
    """Returns the text of NOTICES: each text of a licence once, after the names of the crates that it is for."""
    library = kit / "rattle"
    texts: Dict[str, List[str]] = {}
    for name in libraries:
        for file in licences_of(library / name):
            texts.setdefault(file.read_text(encoding="utf-8").strip("\n"), []).append(named(library / name, file))
    for origin, (place, what) in CORE.items():
        text = (library / place).read_text(encoding="utf-8").strip("\n")
        texts.setdefault(text, []).append(f"the kit's `core`, {what} ({origin})")
    plain = [name for name in libraries if not licences_of(library / name)]
    parts = [HEAD.format(kit=built.kit(), plain=", ".join(f"`{it}`" for it in plain))]
    parts += ["\n".join([LINE, *names, LINE, "", text, ""]) for text, names in texts.items()]
    return "\n".join(parts)


def sources() -> Tuple[str, str]:
    """Returns the commit that has the sources of the program, and their checksum."""
    crates = built.below((ROOT / "crates.txt").read_text(encoding="utf-8"))
    places = ["crates.txt", *(f"crates/{crate}/{part}" for crate in crates for part in built.PARTS)]
    changed = told("git", "status", "--porcelain", "--", *places)
    if changed:
        raise SystemExit(f"the sources of the program aren't committed:\n{changed}")
    return told("git", "log", "-1", "--format=%H", "--", *places), built.sum_of_sources()


def fill(page: str, values: Dict[str, str]) -> str:
    """Returns the page with these values in its table."""
    for name, value in values.items():
        row = re.compile(rf"^\| {re.escape(name)} \| .* \|$", re.MULTILINE)
        if not row.search(page):
            raise SystemExit(f"dist/README.md has no row {name}")
        page = row.sub(lambda _, told=f"| {name} | `{value}` |": told, page)
    return page


def main() -> int:
    """Puts the program there."""
    if len(sys.argv) != 2:
        print(__doc__, file=sys.stderr)
        return 2
    program = pathlib.Path(sys.argv[1])
    content = program.read_bytes()
    if not content.startswith(b"\x7fELF") or not os.access(program, os.X_OK):
        raise SystemExit(f"{program} is no program that can be run")
    kit = built.kit()
    if kit is None:
        raise SystemExit("the kit isn't there: `rt version` has to tell which it is")
    commit, sum_of_sources = sources()
    values = [commit, sum_of_sources, kit, built.sum_of(content), str(len(content)), built.oldest_glibc(content)]
    page = fill(built.PAGE.read_text(encoding="utf-8"), dict(zip(built.ROWS, values)))
    folder = kit_folder()
    crates = built.below((ROOT / "crates.txt").read_text(encoding="utf-8"))
    NOTICES.write_text(notices(folder, ported(folder, crates)), encoding="utf-8")
    part = built.DIST / "mosaikrun.part"
    shutil.copyfile(program, part)
    part.chmod(0o755)
    part.replace(built.PROGRAM)
    built.PAGE.write_text(page, encoding="utf-8")
    print("\n".join(f"{name}: {value}" for name, value in built.rows(page).items()))
    return 0


if __name__ == "__main__":
    sys.exit(main())
