#!/usr/bin/env python3
"""Tries `resume` with real child programs: runs that were cut short go on, and come out as if they hadn't been.

`run_resume.py PROGRAM` runs a study of two simulators in plain Python (`walker.py`), each of which gets the other's values, once
whole, and then with a simulator that is killed in the middle. What `resume` prints and saves then has to be, byte for byte, what
the whole run did, and so has what `migrate` makes of its record; also where the resumed run is cut short again, and where a
simulator answered otherwise than before, which has to be said. No draft may be left. It prints what differs, and ends with
'N passed, M failed'.
"""
import os
import pathlib
import shutil
import subprocess
import sys
import tempfile
from typing import Dict, List, NamedTuple

from common import ROOT, status_of

SCENARIO = """until = {until}
[[sim]]
name = "A"
command = "python3 walker.py %(addr)s {a}"
[[sim]]
name = "B"
command = "python3 walker.py %(addr)s {b}"
[[entities]]
id = "a"
sim = "A-0"
model = "Walk"
[[entities]]
id = "b"
sim = "B-0"
model = "Walk"
[[connect]]
from = "a"
to = "b"
attrs = [["out", "in"]]
[[connect]]
from = "b"
to = "a"
attrs = [["out", "in"]]
time_shifted = true
initial_data = {{ out = 0 }}
"""


class Ended(NamedTuple):
    """How a program ended: its status, and what it printed."""

    status: int
    out: str
    err: str


class Study:
    """A folder with the simulators, in which the study is run whole and in parts."""

    def __init__(self, program: str, path: pathlib.Path, until: int) -> None:
        self.program, self.path, self.until = program, path, until
        for file in (ROOT / "checks" / "cases" / "simulators" / "walker.py", ROOT / "examples" / "api.py"):
            shutil.copy(file, path)
        self.whole = self.run("whole.record")
        self.record = self.saved("whole.record")
        self.migrated = self.migration("whole.record")

    def called(self, *words: str) -> Ended:
        """Calls the program with these words in the folder."""
        pipes = {"stdin": subprocess.DEVNULL, "stdout": subprocess.PIPE, "stderr": subprocess.PIPE}
        ran = subprocess.run([self.program, *words], cwd=self.path, timeout=300, text=True, check=False, **pipes)
        return Ended(ran.returncode, ran.stdout, ran.stderr)

    def scenario(self, sims: Dict[str, str]) -> str:
        """Writes the scenario, in which these simulators have more words; returns its file's name."""
        text = SCENARIO.format(until=self.until, a=sims.get("a", ""), b=sims.get("b", ""))
        (self.path / "study.toml").write_text(text, encoding="utf-8")
        return "study.toml"

    def run(self, record: str, **sims: str) -> Ended:
        """Runs the study, and saves its record."""
        return self.called("run", self.scenario(sims), "--record", record)

    def resume(self, old: str, new: str, **sims: str) -> Ended:
        """Goes on from a record, and saves the new one."""
        return self.called("resume", self.scenario(sims), old, "--record", new)

    def saved(self, name: str) -> str:
        """Returns the text of a file; nothing where it isn't there."""
        file = self.path / name
        return file.read_text(encoding="utf-8") if file.exists() else ""

    def migration(self, record: str) -> str:
        """Returns what `migrate` makes of a record."""
        ended = self.called("migrate", record, "migrated.record")
        return self.saved("migrated.record") if ended == Ended(0, "", "") else f"{ended}"

    def is_cut(self, ended: Ended, record: str, sim: str) -> List[str]:
        """Whether a run has ended since the simulator had, and saved a beginning of the whole record."""
        found = [] if ended == Ended(5, "", f"mosaikrun: run 5: {sim} closed its link\n") else [f"cut: {ended}"]
        lines = self.saved(record).splitlines()[:-1]
        is_front = self.record.splitlines()[: len(lines)] == lines and 0 < len(lines)
        return found + ([] if is_front else [f"{record} is no beginning of the whole record"])

    def is_whole(self, ended: Ended, record: str) -> List[str]:
        """Whether what was printed and saved is what the whole run did."""
        found = [] if ended == self.whole and ended.status == 0 else [f"resumed: {short(ended)}"]
        found += [] if self.saved(record) == self.record else [f"{record} is another than that of the whole run"]
        return found + ([] if self.migration(record) == self.migrated else [f"{record} is migrated to another one"])


def short(ended: Ended) -> Ended:
    """Returns an end with the beginnings of its texts."""
    return Ended(ended.status, ended.out[:200], ended.err[:200])


def killed_in_the_middle(study: Study) -> List[str]:
    """A simulator is killed at half of the steps."""
    middle = study.until // 2
    found = study.is_cut(study.run("cut.record", a=f"ends {middle}"), "cut.record", "A-0")
    return found + study.is_whole(study.resume("cut.record", "new.record"), "new.record")


def killed_again(study: Study) -> List[str]:
    """The other simulator is killed too, in the run that goes on, which saves under the name of the old record."""
    found = study.is_cut(study.run("cut.record", a="ends 10"), "cut.record", "A-0")
    found += study.is_cut(study.resume("cut.record", "cut.record", b="ends 20"), "cut.record", "B-0")
    return found + study.is_whole(study.resume("cut.record", "cut.record"), "cut.record")


def killed_while_behind(study: Study) -> List[str]:
    """The run that goes on is cut before its simulator has caught up: it saves all that the old record has."""
    found = study.is_cut(study.run("cut.record", a="ends 20"), "cut.record", "A-0")
    ended = study.resume("cut.record", "new.record", a="ends 5")
    found += study.is_cut(ended, "new.record", "A-0")
    found += [] if study.saved("new.record") == study.saved("cut.record") else ["the record was cut"]
    return found + study.is_whole(study.resume("new.record", "new.record"), "new.record")


def whole_already(study: Study) -> List[str]:
    """The record of a whole run: all is said again, and comes out the same."""
    return study.is_whole(study.resume("whole.record", "new.record"), "new.record")


def answered_otherwise(study: Study) -> List[str]:
    """A simulator's values of its step 7 are others: it is named, and the record stays one that a run can go on from."""
    found = study.is_cut(study.run("cut.record", b="ends 20"), "cut.record", "B-0")
    ended = study.resume("cut.record", "new.record", a="errs 7")
    found += [] if ended == Ended(5, "", "mosaikrun: run 11: A-0 message 15 differs\n") else [f"otherwise: {ended}"]
    # the other one may have caught up meanwhile, and gone on
    front = study.saved("cut.record").splitlines()[:-1]
    found += [] if study.saved("new.record").splitlines()[: len(front)] == front else ["the record was cut"]
    return found + study.is_whole(study.resume("new.record", "new.record"), "new.record")


def main() -> int:
    """Makes each check in a folder of its own."""
    program = str(pathlib.Path(sys.argv[1]).resolve())
    # `python3` of the scenarios is the interpreter that runs this
    os.environ["PATH"] = os.pathsep.join([str(pathlib.Path(sys.executable).parent), os.environ.get("PATH", "")])
    checks = [(killed_in_the_middle, 20_000)]
    checks += [(check, 40) for check in (killed_again, killed_while_behind, whole_already, answered_otherwise)]
    failed = 0
    for check, until in checks:
        with tempfile.TemporaryDirectory() as room:
            found = check(Study(program, pathlib.Path(room), until))
            found += [f"{file.name} is left" for file in pathlib.Path(room).glob("*.part*")]
        failed += bool(found)
        for line in found:
            print(f"{check.__name__}: {line}")
    print(f"{len(checks) - failed} passed, {failed} failed")
    return 1 if failed else 0


if __name__ == "__main__":
    sys.exit(status_of(main))
