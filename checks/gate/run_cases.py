#!/usr/bin/env python3
"""Runs a built program on the stored cases, `checks/cases/cases.jsonl`.

`run_cases.py PROGRAM` runs each line of that file: the words of a command, and the exit status, standard output and
standard error that it must have; a long output is pieces, texts each with how often it stands there. Where a line is run:

- with `files`, texts by their names, `pieces`, such lists by names, or `lengths`, how many bytes of 0 stand under a name,
  in a folder that holds just these, and `scripted.py` beside a text whose name ends with `.script`;
- with `saved`, the name of a file and the text that it must have (null: it must not be there), in a folder that holds
  copies of the files that its words name;
- with `at` in that folder of the repository, and any other one in `checks/cases/files`.

A line with `child` has the program `mk_child` in its folder too: that beside PROGRAM, or that which the gate makes. Where
there is none, the line is left out, which is said. A case fails too where a program that it started still runs when it has
ended. It prints what differs, and ends with 'N passed, M failed'.
"""

import json
import os
import pathlib
import shutil
import subprocess
import sys
import tempfile
from typing import Any, Dict, Optional, Tuple

from common import ROOT, child_of, left_behind, status_of

CASES = ROOT / "checks" / "cases"
FILES = CASES / "files"
OWN_FOLDER = ("files", "pieces", "lengths", "saved")


def whole(pieces: list) -> str:
    """Returns texts, each as often as it says, one after the other."""
    return "".join(text * count for text, count in pieces)


def fill(room: pathlib.Path, case: Dict[str, Any], child: Optional[pathlib.Path]) -> None:
    """Puts the files of a case into its folder."""
    for name, text in case.get("files", {}).items():
        (room / name).write_text(text, encoding="utf-8")
        if name.endswith(".script"):
            shutil.copy(FILES / "scripted.py", room)
    for name, pieces in case.get("pieces", {}).items():
        (room / name).write_text(whole(pieces), encoding="utf-8")
    for name, length in case.get("lengths", {}).items():
        (room / name).touch()
        os.truncate(room / name, length)
    for word in case["words"] if "saved" in case else []:
        if (FILES / word).is_file():
            shutil.copy(FILES / word, room)
    if "child" in case and child is not None:
        shutil.copy(child, room / "mk_child")


def tried(program: pathlib.Path, case: Dict[str, Any], child: Optional[pathlib.Path]) -> Tuple[list, list]:
    """Runs a case; returns what it should come to, and what it came to."""
    with tempfile.TemporaryDirectory() as name:
        room = pathlib.Path(name)
        fill(room, case, child)
        at = room if any(key in case for key in OWN_FOLDER) else FILES
        at = ROOT / case["at"] if "at" in case else at
        pipes: Dict[str, Any] = {"stdout": subprocess.PIPE, "stderr": subprocess.PIPE}
        with subprocess.Popen([str(program), *case["words"]], cwd=at, start_new_session=True, **pipes) as ran:
            out, err = ran.communicate(timeout=60)
        got = [ran.returncode, out.decode("utf-8", "replace"), err.decode("utf-8", "replace"), left_behind(ran.pid)]
        printed = case["out"] if isinstance(case["out"], str) else whole(case["out"])
        want = [case["status"], printed, case["err"], []]
        if "saved" in case:
            saved = room / case["saved"]["name"]
            got.append(saved.read_text(encoding="utf-8") if saved.exists() else None)
            want.append(case["saved"]["text"])
    return want, got


def main() -> int:
    """Runs each case, and says what differs."""
    program = pathlib.Path(sys.argv[1]).resolve()
    child = child_of(program)
    cases = [json.loads(line) for line in (CASES / "cases.jsonl").read_text(encoding="utf-8").splitlines()]
    kept = [case for case in cases if child is not None or "child" not in case]
    if len(kept) < len(cases):
        print(f"mk_child isn't built, so what needs it was left out: {len(cases) - len(kept)} of {len(cases)} cases")
    failed = 0
    for case in kept:
        want, got = tried(program, case, child)
        if got != want:
            failed += 1
            print(f"{' '.join(case['words'])}\n  want {want}\n  got  {got}")
    print(f"{len(kept) - failed} passed, {failed} failed")
    return 1 if failed or not kept else 0


sys.exit(status_of(main))
