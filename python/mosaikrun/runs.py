"""The runs of a sweep, each in a folder of its own: makes one, goes on with one that was cut, keeps one that is whole.

A run's folder is named by its scenario's text, so it is the same run whenever a sweep has it. In it are

- `scenario.toml`;
- `study.record`, which the program saves;
- `study.record.part`, the draft of that, where the program was killed;
- `study.record.old`, what was left of a run that was begun again from its start;
- `log.txt`, what the program and the simulators printed;
- `status.json`, how the run ended;
- `watched.txt`, the tables of its watches.
"""

from __future__ import annotations

import concurrent.futures
import contextlib
import dataclasses
import hashlib
import json
import os
import pathlib
import re
import signal
import subprocess
import threading
import time
from typing import Callable, Iterable, Iterator, Optional

from mosaikrun import drafts, program

PATIENCE = 50  # seconds that a run has to save its record once its simulators were ended
GOES_ON = re.compile(r"run [5678]: |outside: fleet")  # lines of a run whose record can be gone on with
NOT_THIS = re.compile(r"run (9|10|11): |record: ")  # lines of a record that isn't of this scenario and simulators
NOT_RUN = "not run"


@dataclasses.dataclass(frozen=True)
class Study:
    """What all runs of a sweep have in common."""

    program: str
    folder: pathlib.Path  # where the sweep is kept
    place: str  # the folder in which the program is started
    watch: bool  # whether there is a file of watches
    commands: bool  # whether a simulator is started by its command

    def of(self, run: str) -> pathlib.Path:
        return self.folder / "runs" / run

    @property
    def watches(self) -> pathlib.Path:
        return self.folder / "watches.toml"

    @property
    def stop(self) -> pathlib.Path:
        """A file that is there while runs on other machines are to be ended."""
        return self.folder / "stop"

    def save(self) -> None:
        kept = {**dataclasses.asdict(self), "folder": str(self.folder)}
        written(self.folder / "study.json", json.dumps(kept, indent=1) + "\n")

    @staticmethod
    def read(folder: pathlib.Path) -> Study:
        kept = json.loads((folder / "study.json").read_text(encoding="utf-8"))
        return Study(**{**kept, "folder": pathlib.Path(kept["folder"])})


@dataclasses.dataclass(frozen=True)
class Outcome:
    """How a run ended: the program's status and its line, and how the run was made."""

    status: Optional[int]
    line: str
    how: str = "run"
    seconds: float = 0.0


def written(file: pathlib.Path, text: str) -> None:
    """Writes a file whole or not at all."""
    beside = file.with_name(f"{file.name}.part")
    beside.write_bytes(text.encode())
    beside.replace(file)


def name_of(scenario: str) -> str:
    """The name of the run that has this scenario."""
    return hashlib.sha256(scenario.encode()).hexdigest()[:16]


def outcome_of(folder: pathlib.Path) -> Optional[Outcome]:
    """How this run ended when it was made last."""
    with contextlib.suppress(FileNotFoundError, ValueError, TypeError):
        return Outcome(**json.loads((folder / "status.json").read_bytes()))
    return None


def is_done(study: Study, run: str) -> bool:
    """Whether nothing is left to do for this run."""
    folder = study.of(run)
    outcome = outcome_of(folder)
    done = outcome is not None and outcome.status == 0 and drafts.is_whole(folder / "study.record")
    return done and (not study.watch or (folder / "watched.txt").exists())


def session(leader: int) -> Iterator[int]:
    """The other programs of this session that still run."""
    for file in pathlib.Path("/proc").glob("[0-9]*/stat"):
        with contextlib.suppress(OSError):
            text = file.read_text(encoding="utf-8", errors="replace")
            state, _, _, its = text[text.rindex(")") + 1 :].split()[:4]
            if int(its) == leader != int(file.parent.name) and state != "Z":
                yield int(file.parent.name)


class Ended(Exception):
    """The sweep is being ended, so the program wasn't started, or was killed."""


class Children:
    """The programs that run now, each in a session of its own with the simulators that it starts."""

    def __init__(self, study: Study, watched_stop: bool = False) -> None:
        self.study, self.lock, self.running = study, threading.Lock(), set()
        self.watched_stop = watched_stop
        self.ending = watched_stop and study.stop.exists()

    def call(self, words: list[str], out: int, log: int, run: str) -> int:
        """Calls the program for this run and waits for its end."""
        environment = {**os.environ, "MOSAIKRUN_RUN": str(self.study.of(run))}
        with self.lock:
            if self.ending:
                raise Ended
            child = subprocess.Popen(
                [self.study.program, *words], cwd=self.study.place, env=environment, start_new_session=True,
                stdin=subprocess.DEVNULL, stdout=out, stderr=log,
            )  # fmt: skip
            self.running.add(child)
        try:
            status = self.awaited(child)
        finally:
            with self.lock:
                self.running.discard(child)
        if status < 0 and self.ending:
            raise Ended
        return status

    def awaited(self, child: subprocess.Popen) -> int:
        """The status of the program; a stop file is looked for where somebody else may end the sweep."""
        while self.watched_stop:
            with contextlib.suppress(subprocess.TimeoutExpired):
                return child.wait(1)
            if self.study.stop.exists() and not self.ending:
                threading.Thread(target=self.end, daemon=True).start()
        return child.wait()

    def end(self) -> None:
        """Ends the simulators, so that each run saves its record and ends; what has none, or is late, is killed."""
        limit = time.monotonic() + PATIENCE
        while True:
            with self.lock:
                self.ending = True
                running = list(self.running)
            if not running:
                return
            for child in running:
                if time.monotonic() > limit or not self.study.commands:
                    self.kill(child)
                    continue
                for member in session(child.pid):
                    with contextlib.suppress(ProcessLookupError, PermissionError):
                        os.kill(member, signal.SIGTERM)
            time.sleep(0.5)

    def end_now(self) -> None:
        """Kills all that runs, and its simulators."""
        with self.lock:
            self.ending = True
            running = list(self.running)
        for child in running:
            self.kill(child)

    @staticmethod
    def kill(child: subprocess.Popen) -> None:
        """Kills the program and whatever it started."""
        members = list(session(child.pid))
        child.kill()
        for member in members:
            with contextlib.suppress(ProcessLookupError, PermissionError):
                os.kill(member, signal.SIGKILL)


def called(children: Children, words: list[str], out: Optional[pathlib.Path], run: str) -> tuple[int, str]:
    """Calls the program for this run: its status and its line, which is empty at status 0."""
    log = children.study.of(run) / "log.txt"
    with log.open("ab") as errors, out.open("wb") if out else contextlib.nullcontext() as file:
        start = errors.tell()
        status = children.call(words, file.fileno() if file else subprocess.DEVNULL, errors.fileno(), run)
    with log.open("rb") as printed:
        printed.seek(start)
        return status, program.line_of(printed.read().decode("utf-8", "replace"), status) if status else ""


def made(children: Children, run: str) -> Outcome:
    """Runs the scenario, or goes on with its record where it was cut; the outcome is kept."""
    folder, began = children.study.of(run), time.monotonic()
    scenario, record, kept = str(folder / "scenario.toml"), folder / "study.record", folder / "status.json"
    before, whole, draft = outcome_of(folder), drafts.is_whole(record), drafts.to_continue(record)
    how, status, line = "", 1, before.line if before else ""
    kept.unlink(missing_ok=True)
    (folder / "watched.txt").unlink(missing_ok=True)
    if draft:
        # the program was killed
        how = "resumed"
        status, line = called(children, ["resume", scenario, str(draft), "--record", str(record)], None, run)
    elif whole and not before:
        # the sweep was ended between the record and its outcome
        how = "run"
        status, line = called(children, ["replay", str(record)], None, run)
    if whole and not draft and status and GOES_ON.match(line):
        how = "resumed"
        status, line = called(children, ["resume", scenario, str(record), "--record", str(record)], None, run)
    if not how or (status and (how == "run" or NOT_THIS.match(line))):
        how = "run"
        drafts.set_aside(record)
        status, line = called(children, ["run", scenario, "--record", str(record)], None, run)
    if status == 0:
        drafts.remove_all(record)
    outcome = Outcome(status, line, how, round(time.monotonic() - began, 3))
    written(kept, json.dumps(dataclasses.asdict(outcome)) + "\n")
    return outcome


def watched(children: Children, run: str) -> Outcome:
    """Makes the tables of the run's watches."""
    folder = children.study.of(run)
    part = folder / "watched.txt.part"
    words = ["watch", str(folder / "study.record"), str(children.study.watches)]
    status, line = called(children, words, part, run)
    if status == 0:
        part.replace(folder / "watched.txt")
    else:
        part.unlink()
    return Outcome(status, line, "watch")


def one(children: Children, run: str) -> Outcome:
    """Makes this run, and the tables of its watches, as far as they aren't there."""
    folder = children.study.of(run)
    outcome = outcome_of(folder)
    if outcome is None or outcome.status != 0 or not drafts.is_whole(folder / "study.record"):
        outcome = made(children, run)
    if outcome.status == 0 and children.study.watch and not (folder / "watched.txt").exists():
        table = watched(children, run)
        return outcome if table.status == 0 else table
    return outcome


Told = Callable[[str, Outcome], None]


def guarded(children: Children, run: str) -> Outcome:
    """Makes this run; a fault of the machine, as a full disk, is a failed run too."""
    try:
        return one(children, run)
    except OSError as fault:
        return Outcome(None, f"{type(fault).__name__}: {fault}")


def many(study: Study, runs: Iterable[str], jobs: int, tell: Told, say: Callable[[str], None]) -> None:
    """Makes these runs on this machine, so many side by side. KeyboardInterrupt ends what runs, and is passed on."""
    children = Children(study)
    with concurrent.futures.ThreadPoolExecutor(jobs) as pool:
        futures = {pool.submit(guarded, children, run): run for run in runs}
        try:
            for future in concurrent.futures.as_completed(futures):
                tell(futures[future], future.result())
        except KeyboardInterrupt:
            pool.shutdown(wait=False, cancel_futures=True)
            say(f"{len(children.running)} runs are being ended; Ctrl-C again kills them")
            try:
                children.end()
            finally:
                # a second interrupt comes here at once
                children.end_now()
            raise


def on_another_machine(study: Study, run: str) -> Outcome:
    """Makes one run, and ends it when the stop file is there."""
    try:
        return guarded(Children(study, watched_stop=True), run)
    except Ended:
        return Outcome(None, NOT_RUN)
