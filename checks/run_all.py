#!/usr/bin/env python3
"""Runs all checks of a built program: each script checks/gate/run_*.py, and the tests of the Python package among them.

    run_all.py [PROGRAM] [--jobs N]    PROGRAM is dist/mosaikrun where none is named; N scripts run side by side (1)

Each script is called as `python3 checks/gate/run_X.py PROGRAM`, ends with a line 'N passed, M failed', and has status 0
exactly where M is 0. Its last line is printed after its name, then what else it printed. A script with a line `# alone`
at its top measures time: it runs by itself, after the others. A script that fails doesn't keep the others from running.
One that ends without its last line, or with another status, or isn't done after 15 minutes, counts as one more that
failed. The last line is the sum, 'N passed, M failed', and the status is 0 exactly where M is 0.
"""

from __future__ import annotations

import argparse
import concurrent.futures
import os
import pathlib
import re
import signal
import subprocess
import sys
import threading
import time
from typing import Any, Dict, List, NamedTuple, Set

ROOT = pathlib.Path(__file__).resolve().parents[1]
LAST = re.compile(r"(\d+) passed, (\d+) failed")
ALONE = re.compile(r"^# alone\b", re.MULTILINE)
SECONDS = 15 * 60


class Ended(NamedTuple):
    """How a script ended: what passed and failed of it, its last line, the lines before, and how long it took."""

    script: pathlib.Path
    passed: int
    failed: int
    last: str
    lines: List[str]
    seconds: float


class Checks:
    """Calls scripts with a program; those that run are kept, so that none is left behind."""

    def __init__(self, program: pathlib.Path) -> None:
        self.program = program
        self.running: Set[subprocess.Popen] = set()
        self.is_over = False
        self.printing = threading.Lock()

    def run(self, script: pathlib.Path) -> Ended:
        """Calls a script, and prints how it ended."""
        began = time.monotonic()
        words = [sys.executable, str(script), str(self.program)]
        pipes: Dict[str, Any] = {"stdin": subprocess.DEVNULL, "stdout": subprocess.PIPE, "stderr": subprocess.STDOUT}
        environment = {**os.environ, "PYTHONDONTWRITEBYTECODE": "1"}
        with subprocess.Popen(words, cwd=ROOT, env=environment, start_new_session=True, **pipes) as ran:
            self.running.add(ran)
            if self.is_over:
                killed(ran)
            try:
                said, is_late = ran.communicate(timeout=SECONDS)[0], False
            except subprocess.TimeoutExpired:
                killed(ran)
                said, is_late = ran.communicate()[0], True
            self.running.discard(ran)
        lines = said.decode("utf-8", "replace").splitlines()
        ended = judged(script, lines, ran.returncode, is_late, time.monotonic() - began)
        with self.printing:
            told(ended)
        return ended

    def run_all(self, scripts: List[pathlib.Path], jobs: int) -> List[Ended]:
        """Calls the scripts, so many side by side."""
        with concurrent.futures.ThreadPoolExecutor(jobs) as pool:
            try:
                return list(pool.map(self.run, scripts))
            except KeyboardInterrupt:
                self.is_over = True
                for ran in list(self.running):
                    killed(ran)
                raise


def below(process: int) -> List[int]:
    """Returns a process and those that it started, and they in turn, the first one first."""
    started: Dict[int, List[int]] = {}
    for file in pathlib.Path("/proc").glob("[0-9]*/stat"):
        try:
            text = file.read_text(encoding="utf-8", errors="replace")
        except OSError:
            # it has ended meanwhile
            continue
        started.setdefault(int(text[text.rindex(")") + 1 :].split()[1]), []).append(int(file.parent.name))
    found = [process]
    for one in found:
        found += started.get(one, [])
    return found


def killed(ran: subprocess.Popen) -> None:
    """Kills a script and what it started."""
    for process in below(ran.pid):
        try:
            os.kill(process, signal.SIGKILL)
        except ProcessLookupError:
            # it has ended meanwhile
            pass


def judged(script: pathlib.Path, lines: List[str], status: int, is_late: bool, seconds: float) -> Ended:
    """Reads how a script ended from its last line and its status."""
    found = LAST.fullmatch(lines[-1]) if lines else None
    if found is None:
        last = f"not done after {SECONDS} seconds" if is_late else f"no last line 'N passed, M failed', status {status}"
        return Ended(script, 0, 1, last, lines, seconds)
    passed, failed = int(found[1]), int(found[2])
    if (status == 0) == (failed == 0) and passed + failed > 0:
        return Ended(script, passed, failed, lines[-1], lines[:-1], seconds)
    return Ended(script, passed, failed + 1, f"{lines[-1]}, but status {status}", lines[:-1], seconds)


def told(ended: Ended) -> None:
    """Prints how a script ended."""
    print(f"{ended.script.name}: {ended.last} ({ended.seconds:.0f} s)")
    for line in ended.lines:
        print(f"    {line}")
    sys.stdout.flush()


def main() -> int:
    """Runs the checks that need no time of their own side by side, and then the others."""
    words = argparse.ArgumentParser(description="Runs all checks of a built program.")
    words.add_argument("program", nargs="?", type=pathlib.Path, default=ROOT / "dist" / "mosaikrun")
    words.add_argument("--jobs", type=int, default=1, metavar="N", help="how many scripts run side by side (1)")
    asked = words.parse_args()
    program = asked.program.resolve()
    if not os.access(program, os.X_OK) or not program.is_file():
        print(f"{asked.program} isn't there, or can't be run\n0 passed, 1 failed")
        return 1
    scripts = sorted((ROOT / "checks" / "gate").glob("run_*.py"))
    alone = [script for script in scripts if ALONE.search(script.read_text(encoding="utf-8"))]
    checks = Checks(program)
    ended = checks.run_all([script for script in scripts if script not in alone], max(1, asked.jobs))
    ended += checks.run_all(alone, 1)
    passed, failed = sum(one.passed for one in ended), sum(one.failed for one in ended)
    print(f"{passed} passed, {failed} failed")
    return 1 if failed or not passed else 0


def interrupted(*_: object) -> None:
    """What a signal to end does: the scripts that run are killed first."""
    raise KeyboardInterrupt


if __name__ == "__main__":
    signal.signal(signal.SIGTERM, interrupted)
    try:
        sys.exit(main())
    except KeyboardInterrupt:
        sys.exit(130)
