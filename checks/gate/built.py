"""What dist/README.md says of the program beside it, and what the program and its sources say themselves."""

from __future__ import annotations

import hashlib
import pathlib
import re
import subprocess
from typing import Dict, List, Optional, Set

from common import ROOT

DIST = ROOT / "dist"
PAGE, PROGRAM = DIST / "README.md", DIST / "mosaikrun"
# where a gate makes the program
MADE = ROOT / "crates" / "mosaikrun" / "out" / "mosaikrun"
CRATE = "mosaikrun"
PARTS = ("src", "specs", "proofs")
ROW = re.compile(r"^\| ([^|]*?) \| (?:[^`|]*`([^`|]*)`[^|]*|[^|]*) \|$", re.MULTILINE)
# the rows of the page: what a tool fills in
ROWS = ("Commit of the sources", "SHA-256 of the sources", "Kit", "SHA-256", "Bytes", "Oldest glibc")


def rows(page: str) -> Dict[str, str]:
    """Returns what the table of the page says, by the first cells of its rows; what stands there in backquotes."""
    return {name: value for name, value in ROW.findall(page) if name in ROWS and value}


def below(table: str, crate: str = CRATE) -> Dict[str, List[str]]:
    """Returns the crates that a crate of crates.txt stands on, and itself, each with those right below it."""
    listed = {}
    for line in table.splitlines():
        names, colon, under = line.partition("#")[0].partition(":")
        if colon and names.split():
            listed[names.split()[0]] = sorted(under.split())
    found: Dict[str, List[str]] = {}
    left = [crate]
    while left:
        name = left.pop()
        if name in listed and name not in found:
            found[name] = listed[name]
            left += listed[name]
    return dict(sorted(found.items()))


def files_of(crates: Set[str]) -> List[pathlib.Path]:
    """Returns the files of these crates from which they are proved and compiled, in the order of their paths."""
    places = [ROOT / "crates" / crate / part for crate in crates for part in PARTS]
    return sorted(file for place in places for file in place.rglob("*") if file.suffix in (".rt", ".antt"))


def sum_of_sources() -> str:
    """Returns a checksum of the program's sources: of the crates that it stands on, their lines and their files."""
    crates = below((ROOT / "crates.txt").read_text(encoding="utf-8"))
    whole = hashlib.sha256()
    for name, under in crates.items():
        whole.update(f"{name}: {' '.join(under)}\n".encode())
    for file in files_of(set(crates)):
        content = hashlib.sha256(file.read_bytes()).hexdigest()
        whole.update(f"{file.relative_to(ROOT).as_posix()} {content}\n".encode())
    return whole.hexdigest()


def sum_of(program: bytes) -> str:
    """Returns a program's checksum."""
    return hashlib.sha256(program).hexdigest()


def oldest_glibc(program: bytes) -> str:
    """Returns the oldest version of glibc that has all that the program asks for."""
    versions = re.findall(rb"\0GLIBC_(\d+)\.(\d+)(?:\.\d+)?(?=\0)", program)
    major, minor = max(((int(major), int(minor)) for major, minor in versions), default=(0, 0))
    return f"{major}.{minor}" if versions else "none"


def kit() -> Optional[str]:
    """Returns the line of the kit on this machine; None where there is none."""
    try:
        ran = subprocess.run(["rt", "version"], capture_output=True, text=True, check=False)
    except OSError:
        return None
    return ran.stdout.strip() if ran.returncode == 0 else None
