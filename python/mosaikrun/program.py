"""Finds the program mosaikrun and calls it."""

from __future__ import annotations

import os
import pathlib
import shutil
import subprocess
from typing import Sequence

from mosaikrun.errors import ProgramMissing, RunError

PACKAGE = pathlib.Path(__file__).resolve().parent
VARIABLE = "MOSAIKRUN"


def is_program(path: pathlib.Path) -> bool:
    return path.is_file() and os.access(path, os.X_OK)


def find() -> str:
    """The path of the program: the variable MOSAIKRUN, then in the package, in its checkout, and on the path."""
    named = os.environ.get(VARIABLE)
    if named:
        if not is_program(pathlib.Path(named)):
            raise ProgramMissing(f"{VARIABLE} is {named}, which is no program that can be run")
        return os.path.abspath(named)
    places = [PACKAGE / "bin" / "mosaikrun"]
    if (PACKAGE.parent / "pyproject.toml").is_file():
        # the package is used in place
        places.append(PACKAGE.parents[1] / "dist" / "mosaikrun")
    for place in places:
        if is_program(place):
            return str(place)
    on_path = shutil.which("mosaikrun")
    if on_path and is_binary(on_path):
        return os.path.abspath(on_path)
    looked = ", ".join(str(place) for place in places)
    raise ProgramMissing(
        f"the program mosaikrun isn't there: not at {looked}, nor on the path. "
        f"Set {VARIABLE} to its path, as {VARIABLE}=/opt/mosaikrun; README.md says how to come by it"
    )


def is_binary(path: str) -> bool:
    """Whether the file is a program of the machine; a script of this name would call this package again."""
    with open(path, "rb") as file:
        return file.read(4) == b"\x7fELF"


def call(*words: str) -> subprocess.CompletedProcess[str]:
    """Calls the program with these words, and waits for its end."""
    command = [find(), *words]
    return subprocess.run(command, capture_output=True, text=True, encoding="utf-8", errors="replace", check=False)


def line_of(errors: str, status: int) -> str:
    """The program's own line of what stands on its standard error, without its name."""
    own = [line[len("mosaikrun: ") :] for line in errors.splitlines() if line.startswith("mosaikrun: ")]
    if own:
        return own[-1]
    return f"ended by signal {-status}" if status < 0 else f"ended with status {status} and said nothing"


def told(words: Sequence[str]) -> str:
    """What the program prints at status 0; another status is a RunError."""
    done = call(*words)
    if done.returncode != 0:
        raise RunError(line_of(done.stderr, done.returncode), done.returncode)
    return done.stdout
