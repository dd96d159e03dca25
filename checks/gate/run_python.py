#!/usr/bin/env python3
"""Runs the tests of the Python package with a built program.

`run_python.py PROGRAM` runs `python -m unittest` in python/tests, with the package on PYTHONPATH and PROGRAM in the
variable MOSAIKRUN. Tests that need pandas, matplotlib, networkx, a browser or another thing that isn't there are left
out: it prints how many, and why. It prints what fails, and ends with 'N passed, M failed'.
"""

from __future__ import annotations

import collections
import os
import pathlib
import re
import signal
import subprocess
import sys
import tempfile
from typing import Tuple

from common import ROOT, status_of

SECONDS = 300
RAN = re.compile(r"^Ran (\d+) tests? in ", re.MULTILINE)
COUNTS = re.compile(r"^(?:OK|FAILED)(?: \((.*)\))?$", re.MULTILINE)
LEFT_OUT = re.compile(r" \.\.\. skipped (['\"])(.*)\1$", re.MULTILINE)
WRONG = re.compile(r"^={70}\n", re.MULTILINE)


def tested(program: pathlib.Path) -> Tuple[str, bool]:
    """Runs the tests: returns what was printed, and whether they ended in time."""
    package = ROOT / "python"
    paths = [str(package), os.environ.get("PYTHONPATH", "")]
    environment = {**os.environ, "PYTHONPATH": os.pathsep.join(filter(None, paths)), "MOSAIKRUN": str(program)}
    words = [sys.executable, "-B", "-m", "unittest", "discover", "-v"]
    with tempfile.TemporaryFile() as out:
        how = {"cwd": package / "tests", "env": environment, "stdin": subprocess.DEVNULL, "stdout": out, "stderr": out}
        with subprocess.Popen(words, **how) as ran:
            try:
                ran.wait(SECONDS)
            except subprocess.TimeoutExpired:
                ran.kill()
        in_time = ran.returncode >= 0
        out.seek(0)
        return out.read().decode("utf-8", "replace"), in_time


def main() -> int:
    """Runs the tests, and says what failed and what was left out."""
    # some tests press Ctrl-C, which a program that was started in the background would not hear
    signal.signal(signal.SIGINT, signal.SIG_DFL)
    said, in_time = tested(pathlib.Path(sys.argv[1]).resolve())
    ran, counts = RAN.findall(said), COUNTS.findall(said)
    if not in_time or not ran or not counts:
        print(said, end="" if said.endswith("\n") else "\n")
        print("the tests didn't come to their end" if in_time else f"the tests weren't done after {SECONDS} seconds")
        print("0 passed, 1 failed")
        return 1
    number = {name: int(count) for name, count in re.findall(r"([a-z ]+)=(\d+)", counts[-1])}
    failed = sum(number.get(name, 0) for name in ("failures", "errors", "unexpected successes"))
    left_out = number.get("skipped", 0)
    passed = max(0, int(ran[-1]) - failed - left_out)
    if failed:
        first = WRONG.search(said)
        print(said[first.start() :] if first else said, end="")
    for why, count in sorted(collections.Counter(why for _, why in LEFT_OUT.findall(said)).items()):
        print(f"left out: {count}, since {why}")
    print(f"{left_out} of {ran[-1]} tests left out")
    print(f"{passed} passed, {failed} failed")
    return 1 if failed or not passed else 0


sys.exit(status_of(main))
