#!/usr/bin/env python3
"""Tries a built program with some hostile inputs, simulators and failing calls, each time the same ones.

`run_hostile.py PROGRAM` is the short form of `checks/tools/run_hostile.py`: 10,000 inputs, 200 sessions, 300 faults and
100 poor surroundings. It needs `cc`: where it isn't there, this is left out and said. It ends with 'N passed, M failed'.
"""

from __future__ import annotations

import os
import pathlib
import shutil
import sys

CHECKS = pathlib.Path(__file__).resolve().parents[1]
sys.path.insert(0, str(CHECKS))


def main() -> int:
    if shutil.which("cc") is None:
        print("left out, since cc isn't installed")
        print("0 passed, 0 failed")
        return 0
    from hostile import faults, inputs, sessions, surroundings

    program = str(pathlib.Path(sys.argv[1]).resolve())
    jobs = min(4, len(os.sched_getaffinity(0)))
    right = wrong = 0
    for kind, count in ((inputs, 10_000), (sessions, 200), (faults, 300), (surroundings, 100)):
        some = kind.try_all(program, count, 1, jobs)
        right, wrong = right + some[0], wrong + some[1]
    print(f"{right} passed, {wrong} failed")
    return 1 if wrong or not right else 0


if __name__ == "__main__":
    sys.exit(main())
