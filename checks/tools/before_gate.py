#!/usr/bin/env python3
"""Says in a minute what a gate would refuse after many: imports that lead nowhere, and files in another layout.

    before_gate.py [CRATE ..]    called at the top of the repository; all crates of crates.txt where none is named

First comes `imports.py`, which looks at all crates. Then `rt fmt` lays out a copy of each crate: a line for each file
that it would change there. The crates themselves stay as they are; `rt fmt` in a crate's folder changes them. It proves
nothing. It ends with 1 where there is something to mend.
"""

from __future__ import annotations

import pathlib
import shutil
import subprocess
import sys
import tempfile
from typing import Dict, List

HERE = pathlib.Path(__file__).resolve().parent
PARTS = ("src", "specs", "proofs", "must-fail")


def listed() -> List[str]:
    """Returns the crates of crates.txt."""
    lines = pathlib.Path("crates.txt").read_text(encoding="utf-8").splitlines()
    return [line.split(":")[0].split()[0] for line in lines if ":" in line.partition("#")[0]]


def texts(folder: pathlib.Path) -> Dict[str, bytes]:
    """Returns the files of a crate that have a layout, by their paths within it."""
    files = [file for part in PARTS for file in (folder / part).rglob("*") if file.suffix in (".rt", ".antt")]
    return {file.relative_to(folder).as_posix(): file.read_bytes() for file in files}


def copied(crate: str, room: pathlib.Path) -> pathlib.Path:
    """Copies a crate into this folder."""
    folder = room / "crates" / crate
    for part in PARTS:
        if (pathlib.Path("crates", crate) / part).is_dir():
            shutil.copytree(pathlib.Path("crates", crate) / part, folder / part)
    return folder


def laid_out(crate: str, room: pathlib.Path) -> List[str]:
    """Lays out a copy of a crate, and returns a line for each file that this changes."""
    folder = copied(crate, room)
    before = texts(folder)
    ran = subprocess.run(["rt", "fmt"], cwd=folder, capture_output=True, text=True, check=False)
    after = texts(folder)
    shutil.rmtree(folder)
    said = [f"crates/{crate}: {line}" for line in (ran.stdout + ran.stderr).splitlines() if ran.returncode or "note:" in line]
    changed = [name for name in sorted({*before, *after}) if before.get(name) != after.get(name)]
    return [f"crates/{crate}/{name}: rt fmt would change it" for name in changed] + said


def main() -> int:
    """Looks at imports and at the layout."""
    if not pathlib.Path("crates.txt").is_file():
        print(__doc__, file=sys.stderr)
        return 2
    imports = subprocess.run([sys.executable, str(HERE / "imports.py")], check=False).returncode
    crates = sys.argv[1:] or listed()
    lines = []
    with tempfile.TemporaryDirectory() as name:
        room = pathlib.Path(name)
        for file in ("crates.txt", "HANDLES"):
            shutil.copy(file, room)
        for crate in crates:
            found = laid_out(crate, room)
            for line in found:
                print(line, flush=True)
            lines += found
    print(f"{len(crates)} crates laid out, {len(lines)} lines; imports {'right' if imports == 0 else 'to be mended'}")
    return 1 if imports or lines else 0


if __name__ == "__main__":
    sys.exit(main())
