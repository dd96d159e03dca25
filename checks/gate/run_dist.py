#!/usr/bin/env python3
"""Checks the built program that the repository carries, `dist/mosaikrun`, and what `dist/README.md` says of it.

`run_dist.py PROGRAM` looks whether its checksum, its size and the glibc that it asks for are those of the page, whether
it can be run, prints its usage and checks a study, and whether `dist/NOTICES` names each ported crate that it stands on.
Where git has the commit of the page, and the sources here are those of the page, they have to be those of the commit.
Where all of these hold, PROGRAM is compared with it byte by byte:

- PROGRAM is the one that a gate makes, `crates/mosaikrun/out/mosaikrun`;
- the kit on this machine is the one that the page names;
- the sources of the program here are those of the page.

Where they don't, it says why nothing is compared. It prints what fails, and ends with 'N passed, M failed'.
"""

from __future__ import annotations

import os
import pathlib
import subprocess
import sys
from typing import Dict, List, Tuple

import built
from common import ROOT, status_of


def called(*words: str) -> Tuple[int, str, str]:
    """Calls the program of dist: its status, and both outputs."""
    try:
        ran = subprocess.run([str(built.PROGRAM), *words], capture_output=True, text=True, timeout=60, check=False)
    except OSError as fault:
        return -1, "", str(fault)
    return ran.returncode, ran.stdout, ran.stderr


def runs() -> List[str]:
    """Says what is wrong with how the program of dist runs."""
    status, out, err = called()
    found = [] if status == 2 and err.startswith("mosaikrun: usage: ") else [f"without words: {status} {out}{err}"]
    status, out, err = called("check", str(ROOT / "examples" / "study.toml"))
    return found + ([] if status == 0 and out.startswith("sims ") else [f"check of a study: {status} {out}{err}"])


def of_commit(said: Dict[str, str]) -> List[str]:
    """Says what is wrong with the commit that the page names, where the sources here are those of the page."""
    commit = said.get("Commit of the sources", "")
    crates = built.below((ROOT / "crates.txt").read_text(encoding="utf-8"))
    places = [f"crates/{crate}/{part}" for crate in crates for part in built.PARTS]
    try:
        ran = subprocess.run(["git", "diff", "--quiet", commit, "--", *places], cwd=ROOT, capture_output=True, check=False)
    except OSError:
        # there is no git here
        return []
    is_same = built.sum_of_sources() == said.get("SHA-256 of the sources")
    # another status: this is no checkout, or it hasn't the commit
    return [f"commit {commit} has other sources than the page says"] if is_same and ran.returncode == 1 else []


def is_whole(said: Dict[str, str], program: bytes) -> Dict[str, List[str]]:
    """Returns what is asked of the program of dist, with what is wrong of each."""
    sum_of, glibc = built.sum_of(program), built.oldest_glibc(program)
    table = (ROOT / "crates.txt").read_text(encoding="utf-8")
    crates = built.below(table)
    ported = sorted({name for under in crates.values() for name in under} - set(crates))
    notices = built.DIST / "NOTICES"
    words = notices.read_text(encoding="utf-8").split() if notices.is_file() else []
    missing = [name for name in ported if f"`{name}`" not in {word.strip(",;.:") for word in words}]
    rows = [row for row in built.ROWS if row not in said]
    return {
        "the page": [f"dist/README.md has no row {row}" for row in rows],
        "commit": of_commit(said),
        "checksum": [] if said.get("SHA-256") == sum_of else [f"its SHA-256 is {sum_of}"],
        "size": [] if said.get("Bytes") == str(len(program)) else [f"it has {len(program)} bytes"],
        "glibc": [] if said.get("Oldest glibc") == glibc else [f"it asks for glibc {glibc}"],
        "rights": [] if os.access(built.PROGRAM, os.X_OK) else ["it can't be run"],
        "run": runs(),
        "notices": [f"dist/NOTICES doesn't name {name}" for name in missing],
    }


def differs(said: Dict[str, str], program: pathlib.Path) -> List[str]:
    """Compares the program with that of dist where it has to be the same, and says why where it isn't compared."""
    kit = built.kit()
    if program != built.MADE:
        print(f"not compared: {program} isn't the program that a gate makes here")
    elif kit is None:
        print("not compared: there is no kit here")
    elif kit != said.get("Kit"):
        print(f"not compared: the kit here is {kit}, and dist is of {said.get('Kit')}")
    elif built.sum_of_sources() != said.get("SHA-256 of the sources"):
        print(f"not compared: the sources of the program have changed since {said.get('Commit of the sources')}")
    elif program.read_bytes() != built.PROGRAM.read_bytes():
        return ["what the gate makes of the same sources with the same kit is another program"]
    else:
        print("compared: it is byte for byte what the gate makes")
    return []


def main() -> int:
    """Checks the program, and says what fails."""
    said = built.rows(built.PAGE.read_text(encoding="utf-8")) if built.PAGE.is_file() else {}
    if not built.PROGRAM.is_file():
        print("there is no dist/mosaikrun: checks/tools/refresh_dist.py puts a built program there")
        print("0 passed, 1 failed")
        return 1
    held = is_whole(said, built.PROGRAM.read_bytes())
    held["compared"] = differs(said, pathlib.Path(sys.argv[1]).resolve())
    for name, lines in held.items():
        for line in lines:
            print(f"{name}: {line}")
    failed = sum(bool(lines) for lines in held.values())
    print(f"{len(held) - failed} passed, {failed} failed")
    return 1 if failed else 0


if __name__ == "__main__":
    sys.exit(status_of(main))
