#!/usr/bin/env python3
"""Tries the line of progress: what it tells at a terminal, that it is taken away there, and that it is nowhere else.

`run_progress.py PROGRAM` runs small studies side by side, each at a pseudo-terminal of its own. Most have it as standard error, and a
pipe as standard output. The simulator in plain Python (`sleeper.py`) sleeps at each step, so that a run takes some seconds. It looks
whether the line has its form and fits the study, whether times and steps never fall, and whether nothing of it is left on the terminal
at the end: after a report there is nothing, and after a fault only that fault's line. Also: nothing is put within the first second, at
a pipe, or by a run that is short; a report is the same with the line and without; Ctrl-C ends a run while the line is there, and a
resumed run counts the steps of its record too. It ends with 'N passed, M failed'.
"""

import contextlib
import errno
import fcntl
import os
import pathlib
import pty
import re
import shutil
import signal
import subprocess
import sys
import tempfile
import termios
import time
from typing import Callable, Dict, List, NamedTuple, Optional, Tuple

from common import ROOT, left_behind, status_of

SCENARIO = """until = {until}
[[sim]]
name = "A"
command = "python3 sleeper.py %(addr)s {words}"
[[entities]]
id = "a"
sim = "A-0"
model = "Walk"
"""
WITHIN = """until = {until}
sim = [{{ name = "A", local = "counter" }}, {{ name = "B", local = "sum" }}]
entities = [{{ id = "a", sim = "A-0", model = "Count" }}, {{ id = "b", sim = "B-0", model = "Sum" }}]
connect = [{{ from = "a", to = "b", attrs = [["out", "in"]] }}]
"""
LINE = re.compile(rb"\r(time (\d+) of (\d+), (\d+) steps, (\d+) a second)( *)")
FAULT = "mosaikrun: run 5: A-0 closed its link"
NEW, DRAFT, PACED = "new.record", "new.record.part", "paced.record"
# when the first line comes at the earliest, and how far apart two are at least, in milliseconds
FIRST, BETWEEN = 1_000, 200
# how many steps a run has, and how many milliseconds each takes: in all more than two seconds
UNTIL, STEP = 100, 25
# a simulator that doesn't answer its step at 30: its steps until then take more than a second
STALLED, STALLS = 30, "40 stalls"
# two clocks may differ by so many milliseconds
TICK = 2
# how long something is waited for, in seconds
PATIENCE = 60
# how often a run is begun again that was over too soon, or too late
TRIES = 5


class Line(NamedTuple):
    """A line of progress: what it tells, how wide that is, and how many blanks stand after it."""

    time: int
    until: int
    steps: int
    rate: int
    width: int
    blanks: int


class Ended(NamedTuple):
    """How a program ended: its status, and what it printed into pipes; None for a stream that is none."""

    status: int
    out: Optional[bytes]
    err: Optional[bytes]


class Run:
    """A call of the program in a session of its own; what came on its terminal, and when."""

    def __init__(self, words: List[str], path: pathlib.Path, **streams: int) -> None:
        """Begins the call. A stream that isn't named is the terminal."""
        self.terminal, within = pty.openpty()
        os.set_blocking(self.terminal, False)
        pipes = {"stdin": subprocess.DEVNULL, "stdout": within, "stderr": within, **streams}
        self.text, self.is_closed = b"", False
        self.seconds, self.first = 0.0, 0.0
        self.found: Optional[Ended] = None
        self.began = time.monotonic()
        self.process = subprocess.Popen(
            words, cwd=path, start_new_session=True, preexec_fn=lambda: at_terminal(within), **pipes
        )
        os.close(within)

    def look(self) -> None:
        """Reads what came on the terminal since, and looks whether the program has ended."""
        try:
            while part := os.read(self.terminal, 65536):
                self.first = self.first or time.monotonic() - self.began
                self.text += part
        except OSError as fault:
            # nothing came yet, or whoever had the terminal has ended
            self.is_closed = self.is_closed or fault.errno == errno.EIO
        if not self.seconds and self.process.poll() is not None:
            self.seconds = time.monotonic() - self.began

    def lines(self) -> List[Line]:
        """Returns the lines of progress with which its text begins."""
        return lines_of(self.text)[0]

    def end(self) -> None:
        """Ends what still runs of it."""
        with contextlib.suppress(ProcessLookupError):
            os.killpg(self.process.pid, signal.SIGKILL)
        self.process.wait()
        os.close(self.terminal)


class Study:
    """A folder with the simulator, and the runs there by their names."""

    def __init__(self, program: str, path: pathlib.Path) -> None:
        self.program, self.path = program, path
        self.runs: Dict[str, Run] = {}
        for file in (ROOT / "checks" / "cases" / "simulators" / "sleeper.py", ROOT / "examples" / "api.py"):
            shutil.copy(file, path)

    def write(self, name: str, words: str, until: int = UNTIL) -> None:
        """Writes a scenario whose simulator has these words."""
        (self.path / name).write_text(SCENARIO.format(until=until, words=words), encoding="utf-8")

    def begin(self, name: str, *words: str, **streams: int) -> Run:
        """Calls the program with these words. The terminal is its standard error, if no stream is named."""
        self.runs[name] = Run([self.program, *words], self.path, **(streams or {"stdout": subprocess.PIPE}))
        return self.runs[name]

    def awaited(self, is_there: Callable[[], bool]) -> None:
        """Waits until something is so; meanwhile all terminals are read."""
        limit = time.monotonic() + PATIENCE
        while True:
            for run in self.runs.values():
                run.look()
            if is_there():
                return
            if time.monotonic() > limit:
                raise RuntimeError(f"nothing came within {PATIENCE} seconds")
            time.sleep(0.001)

    def shows(self, name: str, count: int) -> Run:
        """Waits until a run has put so many lines."""
        run = self.runs[name]
        self.awaited(lambda: len(run.lines()) >= count or run.is_closed)
        if len(run.lines()) < count:
            raise RuntimeError(f"it ended after {len(run.lines())} lines: {run.text[-400:]!r}")
        return run

    def ended(self, name: str) -> Tuple[Run, Ended]:
        """Waits until a run has ended, and all that it started with it."""
        run = self.runs[name]
        if run.found is None:
            self.awaited(lambda: run.is_closed and run.process.poll() is not None and not left_behind(run.process.pid))
            out, err = run.process.communicate()
            run.found = Ended(run.process.returncode, out, err)
        return run, run.found

    def clear(self) -> None:
        """Ends all runs."""
        for run in self.runs.values():
            run.end()


def at_terminal(terminal: int) -> None:
    """Makes a terminal that of this process's session."""
    fcntl.ioctl(terminal, termios.TIOCSCTTY, 0)
    # whoever was started in the background would not hear it
    signal.signal(signal.SIGINT, signal.SIG_DFL)


def length(file: pathlib.Path) -> int:
    """Returns how long a file is; -1 where it isn't there."""
    try:
        return file.stat().st_size
    except FileNotFoundError:
        return -1


def lines_of(text: bytes) -> Tuple[List[Line], bytes]:
    """Returns the lines of progress with which a text begins, and what comes after them."""
    lines, place = [], 0
    while found := LINE.match(text, place):
        told, *numbers, blanks = found.groups()
        lines.append(Line(*map(int, numbers), len(told), len(blanks)))
        place = found.end()
    return lines, text[place:]


def screen(text: bytes) -> List[str]:
    """Returns the rows that stand on a terminal after a text, without the blanks at their ends."""
    rows, row, column = [], "", 0
    for letter in text.decode("utf-8", "replace"):
        if letter == "\r":
            column = 0
        elif letter == "\n":
            rows.append(row.rstrip())
            row = ""
        else:
            row = row[:column].ljust(column) + letter + row[column + 1 :]
            column += 1
    return [*rows, row.rstrip()]


def wrong_lines(run: Run, until: int, is_single: bool = True) -> List[str]:
    """Says what of a run's lines doesn't fit a study that ends then; a single simulator has a step at each time."""
    lines, rest = lines_of(run.text)
    wrong, passed = [], int(run.seconds * 1000) + TICK
    for before, line in zip([Line(0, until, 0, 0, 0, 0), *lines], lines):
        fits = line.until == until and line.time < until and line.steps > 0
        fits = fits and (line.time == line.steps - 1 or not is_single)
        fits = fits and before.time <= line.time and before.steps <= line.steps
        # at least a second has passed, and at most what the whole run took
        fits = fits and line.steps * 1000 // passed <= line.rate <= line.steps
        fits = fits and line.blanks == max(0, before.width - line.width)
        wrong += [] if fits else [f"{line} after {before}"]
    if lines and run.first * 1000 + TICK < FIRST:
        wrong.append(f"the first line came after {run.first:.3f} s")
    if len(lines) > 1 + max(0, passed - FIRST) // BETWEEN:
        wrong.append(f"{len(lines)} lines came in {run.seconds:.3f} s")
    if lines and run.process.returncode >= 0 and not rest.startswith(b"\r" + b" " * lines[-1].width + b"\r"):
        wrong.append(f"the line wasn't taken away: {rest[:400]!r}")
    return wrong


def stands(run: Run, rows: List[str]) -> List[str]:
    """Whether these rows stand on a run's terminal."""
    return [] if screen(run.text) == rows else [f"on the terminal stands {screen(run.text)}"]


def has_ended(found: Ended, wanted: Ended) -> List[str]:
    """Whether a run ended so."""
    return [] if found == wanted else [f"it ended with {found}"]


def report_of(study: Study) -> Optional[bytes]:
    """Returns the report of the study, from the run without a terminal."""
    return study.ended("piped")[1].out


def in_process(study: Study) -> List[str]:
    """A run of in-process simulators asks the clock too. It is stopped for a second, since a long one would need much memory."""
    for tried in range(3):
        until, name = 50_000 * 2**tried, f"within{tried}.record"
        record, draft = study.path / name, study.path / f"{name}.part"
        (study.path / "within.toml").write_text(WITHIN.format(until=until), encoding="utf-8")
        run = study.begin(f"in-process {tried}", "run", "within.toml", "--record", name, stdout=subprocess.DEVNULL)
        study.awaited(lambda draft=draft, run=run: length(draft) > 0 or run.process.poll() is not None)
        run.process.send_signal(signal.SIGSTOP)
        time.sleep((FIRST + TICK) / 1000)
        size = length(draft)
        run.process.send_signal(signal.SIGCONT)
        found = study.ended(f"in-process {tried}")[1]
        wrong = has_ended(found, Ended(0, None, None)) + wrong_lines(run, until, False) + stands(run, [""])
        is_in_time = 0 < size < length(record) // 2
        if wrong or is_in_time:
            return wrong + ([] if run.lines() or wrong else ["no line was put"])
        # it was over by then, or nearly
    print("a run of in-process simulators was over each time before it could be stopped")
    return []


def closing(study: Study) -> List[str]:
    """A simulator closes its link while the line is there: on the terminal stands the fault's line, and nothing else."""
    study.shows("closing", 2)
    (study.path / "closes").write_bytes(b"")
    run, found = study.ended("closing")
    return has_ended(found, Ended(5, b"", None)) + wrong_lines(run, 10**9) + stands(run, [FAULT, ""])


def interrupted(study: Study) -> List[str]:
    """Ctrl-C ends the run and its simulator while the line is there, and leaves the draft. A run goes on from that."""
    run = study.shows("interrupted", 1)
    # its step at 30 was sent, and never has an answer
    last = b"ask [0,%d,0,%d]\n" % (STALLED, UNTIL)
    study.awaited(lambda: run.is_closed or (study.path / DRAFT).read_bytes().endswith(last))
    os.write(run.terminal, b"\x03")
    found = study.ended("interrupted")[1]
    study.begin("resumed", "resume", "study.toml", DRAFT, "--record", NEW)
    return has_ended(found, Ended(-signal.SIGINT, b"", None)) + wrong_lines(run, UNTIL)


def at_error(study: Study) -> List[str]:
    """Where standard error is a terminal, the line is there until the run ends, and the report is the same."""
    run, found = study.ended("at error")
    lines, wrong = run.lines(), wrong_lines(run, UNTIL) + stands(run, [""])
    # each of these steps takes so long that the next line is due, or the first one
    between, first = 1 + (BETWEEN + TICK) // STEP, 1 + (FIRST + TICK) // STEP
    most = 1 + (UNTIL - 1 - first) // between
    wrong += [] if len(lines) >= most else [f"{len(lines)} lines came, and not {most}"]
    wrong += [] if lines and lines[-1].steps >= UNTIL - between else [f"the last lines are {lines[-2:]}"]
    return wrong + has_ended(found, Ended(0, report_of(study), None))


def at_pipes(study: Study) -> List[str]:
    """Where standard error is a pipe, no byte of the line is put."""
    found = study.ended("piped")[1]
    wrong = [] if found.out is not None and found.out.endswith(b"\nend %d\n" % UNTIL) else [f"the report is {found.out!r}"]
    return wrong + has_ended(found, Ended(0, found.out, b""))


def at_output(study: Study) -> List[str]:
    """Where only standard output is a terminal, no byte of the line is put, there nor at the pipe."""
    run, found = study.ended("at output")
    wrong = [] if run.text.replace(b"\r\n", b"\n") == report_of(study) else [f"on the terminal came {run.text!r}"]
    return wrong + has_ended(found, Ended(0, None, b""))


def paced(study: Study) -> List[str]:
    """A paced run has the line too."""
    run, found = study.ended("paced")
    wrong = has_ended(found, Ended(0, report_of(study), None)) + wrong_lines(run, UNTIL) + stands(run, [""])
    return wrong + ([] if run.lines() else ["no line was put"])


def short(study: Study) -> List[str]:
    """A run that takes less than a second puts nothing."""
    for tried in range(TRIES):
        run = study.begin(f"short {tried}", "demo", "1")
        found = study.ended(f"short {tried}")[1]
        wrong = [] if found.status == 0 and found.out else [f"it ended with {found}"]
        if wrong or run.seconds * 1000 + TICK < FIRST:
            return wrong + ([] if run.text == b"" else [f"in {run.seconds:.3f} s came {run.text!r}"])
    print(f"the machine is slow: a run of one demo took a second or more, {TRIES} times")
    return []


def resumed(study: Study) -> List[str]:
    """A resumed run counts the steps of the record too; its report and its record are those of the whole run."""
    run, found = study.ended("resumed")
    wrong = has_ended(found, Ended(0, report_of(study), None)) + wrong_lines(run, UNTIL) + stands(run, [""])
    lines = run.lines()
    wrong += [] if lines and lines[0].steps > STALLED else [f"the first lines are {lines[:2]}"]
    same = (study.path / NEW).read_bytes() == (study.path / "piped.record").read_bytes()
    return wrong + ([] if same else [f"{NEW} is another record than the whole run's"])


CHECKS: List[Callable[[Study], List[str]]] = [
    in_process,
    closing,
    interrupted,
    short,
    at_error,
    at_pipes,
    at_output,
    paced,
    resumed,
]


def begin(study: Study) -> None:
    """Begins the runs that take their time."""
    pipe = subprocess.PIPE
    study.write("study.toml", str(STEP))
    study.write("quick.toml", "0")
    study.write("closing.toml", f"{STEP} closes", 10**9)
    study.write("stalling.toml", STALLS)
    study.begin("at error", "run", "study.toml")
    study.begin("piped", "run", "study.toml", "--record", "piped.record", stdout=pipe, stderr=pipe)
    study.begin("at output", "run", "study.toml", stderr=pipe)
    study.begin("paced", "paced", "quick.toml", str(STEP), "--record", PACED)
    study.begin("closing", "run", "closing.toml")
    study.begin("interrupted", "run", "stalling.toml", "--record", NEW)


def main() -> int:
    """Makes all checks in one folder."""
    # `python3` of the scenarios is the interpreter that runs this
    os.environ["PATH"] = os.pathsep.join([str(pathlib.Path(sys.executable).parent), os.environ.get("PATH", "")])
    failed = 0
    with tempfile.TemporaryDirectory() as room:
        study = Study(str(pathlib.Path(sys.argv[1]).resolve()), pathlib.Path(room))
        try:
            begin(study)
            for check in CHECKS:
                try:
                    found = check(study)
                except (OSError, KeyError, RuntimeError, subprocess.SubprocessError) as fault:
                    found = [f"{type(fault).__name__}: {fault}"]
                failed += bool(found)
                for line in found:
                    print(f"{check.__name__}: {line}")
        finally:
            study.clear()
    print(f"{len(CHECKS) - failed} passed, {failed} failed")
    return 1 if failed else 0


if __name__ == "__main__":
    sys.exit(status_of(main))
