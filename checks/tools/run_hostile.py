#!/usr/bin/env python3
"""Tries a built program with hostile inputs, hostile simulators and a failing system, drawn by a seed.

    run_hostile.py PROGRAM [--count N] [--seed S] [--jobs J] [--kind KIND]

`inputs` are changed records, scenarios, watches and pairs of these, by every command on files. `sessions` are simulators on
real sockets that say what they may not. `faults` are calls of the system that fail once each. `surroundings` are short
reads and writes, clocks that jump, few files, stopped programs, and no HOME or /dev/shm. Without `--kind` it tries all
four, each so many times. What is wrong is printed, of inputs in its least form as stored cases. It needs `cc`, and ends
with 'N passed, M failed'.
"""

from __future__ import annotations

import argparse
import pathlib
import sys

CHECKS = pathlib.Path(__file__).resolve().parents[1]
sys.path.insert(0, str(CHECKS))


def main() -> int:
    from hostile import faults, inputs, sessions, surroundings

    kinds = {"inputs": inputs, "sessions": sessions, "faults": faults, "surroundings": surroundings}
    parser = argparse.ArgumentParser(description=__doc__, formatter_class=argparse.RawDescriptionHelpFormatter)
    parser.add_argument("program", type=pathlib.Path)
    parser.add_argument("--count", type=int, default=1000)
    parser.add_argument("--seed", type=int, default=1)
    parser.add_argument("--jobs", type=int, default=1)
    parser.add_argument("--kind", choices=sorted(kinds))
    asked = parser.parse_args()
    right = wrong = 0
    for name, kind in kinds.items():
        if asked.kind in (None, name):
            some = kind.try_all(str(asked.program.resolve()), asked.count, asked.seed, asked.jobs)
            right, wrong = right + some[0], wrong + some[1]
    print(f"{right} passed, {wrong} failed")
    return 1 if wrong or not right else 0


if __name__ == "__main__":
    sys.exit(main())
