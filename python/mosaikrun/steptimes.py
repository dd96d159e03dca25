"""How long each step of a simulator took by the clock, which a record doesn't say.

Where the variable MOSAIKRUN_STEP_TIMES names a folder, a simulator that `mosaikrun.child` serves notes its steps there:
a file of its id, with a line `TIME BEGIN END` for each step, BEGIN and END in seconds since 1970. A world that is made
with `debug=True` asks for it; the folder's name is then the record's, and `.times`.
"""
from __future__ import annotations

import contextlib
import inspect
import os
import pathlib
import shutil
import time
from typing import Any, Dict, Iterator, List, NamedTuple, Optional, TextIO, Union

VARIABLE = "MOSAIKRUN_STEP_TIMES"


class StepTime(NamedTuple):
    """A step: its simulated time, and when it began and ended, in seconds since 1970."""

    time: int
    begin: float
    end: float

    @property
    def seconds(self) -> float:
        """How long it took."""
        return self.end - self.begin


class Notes:
    """The file in which a simulator's steps are noted."""

    def __init__(self, folder: str):
        self._folder = pathlib.Path(folder)
        self._file: Optional[TextIO] = None

    def open(self, simulator: str) -> None:
        """The simulator has this id: its notes begin."""
        self._folder.mkdir(parents=True, exist_ok=True)
        # by lines, so that what is noted is there also where the simulator is killed
        self._file = open(self._folder / simulator, "w", buffering=1, encoding="utf-8")

    def note(self, moment: int, begin: float) -> None:
        """A step that began then has ended."""
        if self._file is not None:
            self._file.write(f"{moment} {begin:.6f} {time.time():.6f}\n")


def noted(simulator: Any) -> Any:
    """The simulator, which notes its steps where the variable asks for it."""
    folder = os.environ.get(VARIABLE)
    if not folder:
        return simulator
    notes, init, step = Notes(folder), simulator.init, simulator.step

    def new_init(sid: str, *args: Any, **params: Any) -> Any:
        notes.open(sid)
        return init(sid, *args, **params)

    def new_step(moment: int, *args: Any) -> Any:
        begin = time.time()
        try:
            return step(moment, *args)
        finally:
            notes.note(moment, begin)

    def new_generator(moment: int, *args: Any) -> Any:
        begin = time.time()
        try:
            return (yield from step(moment, *args))
        finally:
            notes.note(moment, begin)

    simulator.init = new_init
    simulator.step = new_generator if inspect.isgeneratorfunction(step) else new_step
    return simulator


def folder_of(record: Union[str, os.PathLike]) -> pathlib.Path:
    """The folder in which the step times of this record's run are looked for."""
    return pathlib.Path(f"{os.fspath(record)}.times")


@contextlib.contextmanager
def asked_for(record: Union[str, os.PathLike], wanted: bool) -> Iterator[None]:
    """Lets a run's simulators note their steps beside its record, where that is wanted; takes away older notes."""
    folder = folder_of(record)
    shutil.rmtree(folder, ignore_errors=True)
    if wanted:
        os.environ[VARIABLE] = str(folder.absolute())
    try:
        yield
    finally:
        os.environ.pop(VARIABLE, None)


def read(folder: Union[str, os.PathLike]) -> Dict[str, List[StepTime]]:
    """The step times in this folder, by simulator; a line that was cut is left out."""
    found: Dict[str, List[StepTime]] = {}
    for path in sorted(pathlib.Path(folder).glob("*")):
        steps = found.setdefault(path.name, [])
        for line in path.read_text(encoding="utf-8").splitlines(keepends=True):
            words = line.split()
            if line.endswith("\n") and len(words) == 3:
                steps.append(StepTime(int(words[0]), float(words[1]), float(words[2])))
    return found
