#!/usr/bin/env python3
"""Refuses a built program each of its requests for memory in turn, one a run, and looks at what it then does.

    run_memory.py PROGRAM [MOST]      at most so many runs of each command, spread over its requests (400 if it isn't given)

A run whose request was refused ends as the one that had all its memory, or with status 8 and `out of memory`; its output is a
beginning of the right one, and each file is as before, as it should be, or a whole record. A run that ends with status 8 may
leave a draft of its record. A child that it starts has all memory; it is the program `mk_child`: where that isn't built, its
command is left out, which is said. It needs `cc`, and isn't part of `.ci/run`: it takes some minutes. It ends with 'N passed, M
failed'.
"""

from __future__ import annotations

import os
import pathlib
import shutil
import subprocess
import sys
import tempfile

HERE = pathlib.Path(__file__).resolve().parent
sys.path[:0] = [str(HERE.parent / "gate"), str(HERE.parent)]

from common import ROOT, child_of  # noqa: E402
from hostile.faults import is_draft  # noqa: E402

STORED = ROOT / "checks" / "cases" / "files"
RECORD = (
    'mosaikrun 1\nrun [3,100,2000000]\nsim ["A-0","time-based",3,0,[]]\nmodel [0,"Count",["out"],false]\n'
    'entity [0,"0",[]]\ngot [0,[1,3,1]]\ngot [0,[1,4,2]]\ngot [0,[1,5,3]]\nend 3\n'
)
SCENARIO = (
    'until = 3\nsim = [{name = "A", local = "counter"}, {name = "B", local = "sum"}]\n'
    'entities = [{id = "a", sim = "A-0", model = "Count"}, {id = "b", sim = "B-0", model = "Sum"}]\n'
    'connect = [{from = "a", to = "b", attrs = [["out", "in"]]}]\n'
)
CHILD = (
    'until = 3\nsim = [{name = "A", command = "./mk_child counter %(addr)s"}]\n'
    'entities = [{id = "a", sim = "A-0", model = "Count"}]\n'
)
FILES = {"old.record": RECORD, "study.toml": SCENARIO, "child.toml": CHILD}
COMMANDS = (
    ["replay", "old.record"],
    ["replay", "row-counter-to-sum-sequential.record"],
    ["migrate", "old.record", "new.record"],
    ["check", "study.toml"],
    ["run", "study.toml", "--record", "study.record"],
    ["run", "child.toml", "--record", "child.record"],
    ["resume", "study.toml", "cut.record", "--record", "study.record"],
    ["demo", "1"],
)
WANTING = b"mosaikrun: out of memory\n"
Seen = tuple[int, bytes, bytes, dict[str, bytes], int]


def cut_record(program: str) -> str:
    """Returns the first half of the record of the study's run."""
    with tempfile.TemporaryDirectory() as room:
        pathlib.Path(room, "study.toml").write_text(SCENARIO, encoding="utf-8")
        words = [program, "run", "study.toml", "--record", "whole.record"]
        subprocess.run(words, cwd=room, capture_output=True, timeout=60, check=True)
        lines = pathlib.Path(room, "whole.record").read_text(encoding="utf-8").splitlines()
    first = next(place for place, line in enumerate(lines) if line.startswith(("ask ", "got ")))
    entries = lines[first:-1]
    kept = entries[: len(entries) // 2]
    return "\n".join([*lines[:first], *kept, f"end {len(kept)}"]) + "\n"


def seen(program: str, library: str, words: list[str], refused: int | None) -> Seen:
    """Runs the words in a folder of their own: the status, both outputs, the files afterwards, and the count of requests."""
    with tempfile.TemporaryDirectory() as room:
        for name, text in FILES.items():
            pathlib.Path(room, name).write_text(text, encoding="utf-8")
        for word in words[1:]:
            if (STORED / word).is_file():
                shutil.copy(STORED / word, room)
        if "child.toml" in words:
            shutil.copy(child_of(pathlib.Path(program)), room)
        scope = {"PATH": os.environ["PATH"], "LD_PRELOAD": library, "FAIL_TELL": "1"}
        if refused is not None:
            scope["FAIL_AT"] = str(refused)
        ran = subprocess.run([program, *words], cwd=room, env=scope, capture_output=True, timeout=60, check=False)
        lines = ran.stderr.splitlines(True)
        told = [int(it.split()[1]) for it in lines if it.startswith(b"calls ")]
        said = b"".join(it for it in lines if not it.startswith(b"calls "))
        files = {it.name: it.read_bytes() for it in pathlib.Path(room).iterdir()}
        return ran.returncode, ran.stdout, said, files, max(told, default=0)


def is_right(good: Seen, got: Seen, before: dict[str, bytes]) -> bool:
    """Returns whether what came of a run with a refused request may have come of it."""
    ended = got[:3] == good[:3]
    wanting = got[0] == 8 and good[1].startswith(got[1]) and WANTING.startswith(got[2])
    files = all(
        data in (before.get(name), good[3].get(name))
        or (data.startswith(b"mosaikrun ") and b"\nend " in data)
        or (wanting and name.endswith(".record.part") and is_draft(data, good[3][name[: -len(".part")]], True))
        for name, data in got[3].items()
    )
    return (ended or wanting) and files and all(name in got[3] for name in before)


def tried(program: str, library: str, words: list[str], most: int) -> tuple[int, int]:
    """Returns how many runs of these words were right, and how many weren't."""
    good = seen(program, library, words, None)
    if good[0] != 0 or good[4] == 0:
        print(f"{' '.join(words)}: with all its memory status {good[0]}, {good[4]} requests, {good[2][:120]!r}")
        return 0, 1
    before = {name: text.encode() for name, text in FILES.items()}
    step = max(1, good[4] // most)
    right = wrong = 0
    for number in range(0, good[4], step):
        got = seen(program, library, words, number)
        if is_right(good, got, before):
            right += 1
        else:
            wrong += 1
            print(f"{' '.join(words)}: request {number} refused: status {got[0]}, {got[1][:60]!r}, {got[2][:120]!r}")
    print(f"{' '.join(words)}: {good[4]} requests, {right + wrong} of them refused in turn, {wrong} wrong")
    return right, wrong


def main() -> int:
    if len(sys.argv) not in (2, 3):
        print(__doc__, file=sys.stderr)
        return 2
    program, most = str(pathlib.Path(sys.argv[1]).resolve()), int(sys.argv[2]) if len(sys.argv) == 3 else 400
    right = wrong = 0
    FILES["cut.record"] = cut_record(program)
    with tempfile.TemporaryDirectory() as room:
        library = f"{room}/refuse.so"
        subprocess.run(["cc", "-O1", "-shared", "-fPIC", "-o", library, HERE / "refuse_memory.c"], check=True)
        has_child = child_of(pathlib.Path(program)) is not None
        if not has_child:
            print("mk_child isn't built, so `run child.toml` was left out")
        for words in COMMANDS if has_child else [words for words in COMMANDS if "child.toml" not in words]:
            some = tried(program, library, words, most)
            right, wrong = right + some[0], wrong + some[1]
    print(f"{right} passed, {wrong} failed")
    return 1 if wrong or not right else 0


if __name__ == "__main__":
    sys.exit(main())
