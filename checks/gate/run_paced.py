#!/usr/bin/env python3
"""Tries `paced` with real child programs: steps wait for the machine's clock, and a run comes out as it does without.

`run_paced.py PROGRAM [STEPS]` runs a study of five simulators in plain Python (`ticker.py`) at 10 milliseconds a unit of time, 300
steps each where no number is given. It looks whether the report, and that of the record's replay, are byte for byte those of `run`;
whether any step came before its moment; and it prints how late the steps came and how much of a processor the program took, which depend on the
machine and are judged by nobody. A simulator that is too slow has to end a run with `--strict`, with its line and with none of the
five left behind, and changes nothing without. It ends with 'N passed, M failed'.
"""
# alone: it measures time
import os
import pathlib
import re
import shutil
import subprocess
import sys
import tempfile
import time
from typing import Dict, List, NamedTuple

from common import ROOT, status_of

NAMES = ("A", "B", "C", "D", "E")
FACTOR = 10
SIMULATOR = """[[sim]]
name = "{name}"
command = "python3 ticker.py %(addr)s {name}.came {more}"
[[entities]]
id = "{name}"
sim = "{name}-0"
model = "Tick"
"""
# the clock that the program reads counts whole milliseconds
TICK = 1


class Ended(NamedTuple):
    """How a program ended: its status, what it printed, and what it took of a processor and by the clock, in seconds."""

    status: int
    out: str
    err: str
    processor: float
    clock: float


class Study:
    """A folder with the simulators, in which the study is run."""

    def __init__(self, program: str, path: pathlib.Path, until: int) -> None:
        self.program, self.path, self.until = program, path, until
        for file in (ROOT / "checks" / "cases" / "simulators" / "ticker.py", ROOT / "examples" / "api.py"):
            shutil.copy(file, path)

    def scenario(self, sims: Dict[str, str]) -> str:
        """Writes the scenario, in which these simulators have more words; returns its file's name."""
        parts = [SIMULATOR.format(name=name, more=sims.get(name, "")) for name in NAMES]
        (self.path / "study.toml").write_text(f"until = {self.until}\n" + "".join(parts), encoding="utf-8")
        return "study.toml"

    def called(self, command: str, *options: str, **sims: str) -> Ended:
        """Calls the program with this command on the scenario in which these simulators have more words."""
        for file in self.path.glob("*.came*"):
            file.unlink()
        return self.ended(command, self.scenario(sims), *options)

    def ended(self, *words: str) -> Ended:
        """Calls the program with these words in the folder."""
        pipes = {"stdin": subprocess.DEVNULL, "stdout": subprocess.PIPE, "stderr": subprocess.PIPE, "text": True}
        began = time.monotonic()
        with subprocess.Popen([self.program, *words], cwd=self.path, **pipes) as child:
            meter = Meter(child.pid)
            out, err = meter.until_ended(child)
        return Ended(child.returncode, out, err, meter.seconds, time.monotonic() - began)

    def came(self) -> List[List[float]]:
        """Returns for each simulator when its entity was made and when its steps came, in milliseconds."""
        files = [self.path / f"{name}.came" for name in NAMES]
        return [[float(line) * 1000 for line in file.read_text(encoding="utf-8").splitlines()] for file in files if file.exists()]

    def left_behind(self) -> List[str]:
        """Returns the simulators whose programs still run."""
        pids = {name: (self.path / f"{name}.came.pid").read_text(encoding="utf-8") for name in NAMES}
        return [name for name, pid in pids.items() if pathlib.Path(f"/proc/{pid}").exists()]


class Meter:
    """What a program itself takes of a processor, without the programs that it starts."""

    def __init__(self, pid: int) -> None:
        self.stat, self.seconds = pathlib.Path(f"/proc/{pid}/stat"), 0.0

    def look(self) -> None:
        """Reads what it took so far; where the system doesn't tell, nothing."""
        try:
            fields = self.stat.read_text(encoding="utf-8").rsplit(")", 1)[1].split()
        except (OSError, IndexError):
            return
        self.seconds = (int(fields[11]) + int(fields[12])) / os.sysconf("SC_CLK_TCK")

    def until_ended(self, child: subprocess.Popen) -> tuple:
        """Waits for the program, and returns what it printed."""
        while True:
            self.look()
            try:
                return child.communicate(timeout=0.2)
            except subprocess.TimeoutExpired:
                continue


def moments(came: List[List[float]]) -> List[float]:
    """Returns for each step what its moment would make the origin if it came just then, in rising order."""
    return sorted(moment - FACTOR * place for _, *steps in came for place, moment in enumerate(steps))


def keeps_its_tempo(study: Study) -> List[str]:
    """The report is that of `run`, also of the record's replay, and no step came before its moment."""
    whole = study.called("run")
    ended = study.called("paced", str(FACTOR), "--record", "paced.record")
    found = [] if (ended.status, ended.out, ended.err) == (0, whole.out, "") else [f"ended: {ended.status} {ended.err}"]
    came = study.came()
    found += [] if study.ended("replay", "paced.record").out == whole.out else ["the replay of its record has another report"]
    origins = moments(came)
    if len(origins) != study.until * len(NAMES):
        return found + [f"{len(origins)} steps came"]
    # the origin was told when all entities were made
    early = max(made for made, *_ in came) - TICK - origins[0]
    found += [f"a step came {early:.1f} ms before its moment, or more"] if early > 0 else []
    late = [origin - origins[0] for origin in origins]
    share = 100 * ended.processor / ended.clock
    print(f"{len(late)} steps: 99 of 100 within {late[len(late) * 99 // 100]:.1f} ms, all within {late[-1]:.1f} ms; {share:.1f} % of a processor")
    return found


def too_slow(study: Study) -> List[str]:
    """A simulator whose step takes longer than is allowed ends a run with `--strict`, and nobody is left behind."""
    ended = study.called("paced", str(FACTOR), "--strict", "1500", C="5 3")
    line = re.fullmatch(r"mosaikrun: run 12: C-0 step at 6 late by (\d+) ms, allowed 1500\n", ended.err)
    found = [] if line and 1500 < int(line[1]) < 60_000 else [f"said: {ended.err!r}"]
    found += [] if (ended.status, ended.out) == (5, "") else [f"ended: {ended.status}"]
    return found + [f"{name} was left behind" for name in study.left_behind()]


def too_slow_is_allowed(study: Study) -> List[str]:
    """Without `--strict` the steps behind a slow one come late, and the report is the same."""
    whole = study.called("run")
    ended = study.called("paced", str(FACTOR), C="5 0.3")
    return [] if (ended.status, ended.out, ended.err) == (0, whole.out, "") else [f"ended: {ended.status} {ended.err}"]


def main() -> int:
    """Makes each check in a folder of its own."""
    program = str(pathlib.Path(sys.argv[1]).resolve())
    steps = int(sys.argv[2]) if len(sys.argv) > 2 else 300
    # `python3` of the scenarios is the interpreter that runs this
    os.environ["PATH"] = os.pathsep.join([str(pathlib.Path(sys.executable).parent), os.environ.get("PATH", "")])
    checks = [(keeps_its_tempo, steps), (too_slow, 40), (too_slow_is_allowed, 40)]
    failed = 0
    for check, until in checks:
        with tempfile.TemporaryDirectory() as room:
            found = check(Study(program, pathlib.Path(room), until))
        failed += bool(found)
        for line in found:
            print(f"{check.__name__}: {line}")
    print(f"{len(checks) - failed} passed, {failed} failed")
    return 1 if failed else 0


if __name__ == "__main__":
    sys.exit(status_of(main))
