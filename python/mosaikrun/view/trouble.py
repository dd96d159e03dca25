"""Asks the program about a record: whether its run came to its end, and what went wrong where, or in what two differ."""

from __future__ import annotations

import itertools
import json
import os
import re
import subprocess
import tempfile
from typing import Any, Dict, List, Optional, Set, Tuple

from mosaikrun import messages, program
from mosaikrun.record import UNREADABLE, Refusal, ReportReader, Step
from mosaikrun.view.gather import Gathering, gather, settings_of

# statuses of a replay that speak of the run, and not of the file or the machine
OF_THE_RUN = (5, 7)
CUT = re.compile(r"record: line \d+ fault 5")
CUT_SHORT = "The record was cut: its text ends too early. The page shows what is left of it."
BLAMED = re.compile(r"(\S+) message (\d+)(?: step (\d+):(\d+))?")
# so many characters of a message are shown
LONGEST = 4000


class Refused(Exception):
    """No page is made: the line that says why, and the status."""

    def __init__(self, line: str, status: int = 2):
        super().__init__(line)
        self.line, self.status = line, status


class Replay:
    """A replay of a record that goes on beside; its report is kept in a file where one is asked for."""

    def __init__(self, path: str, report: Optional[str] = None):
        with open(report or os.devnull, "wb") as out:
            words = [program.find(), "replay", path]
            self._process = subprocess.Popen(words, stdin=subprocess.DEVNULL, stdout=out, stderr=subprocess.PIPE)

    def wait(self) -> Tuple[int, str]:
        """The status, and the line that was said."""
        errors = self._process.communicate()[1].decode("utf-8", "replace")
        status = self._process.returncode
        return status, program.line_of(errors, status) if status else ""


def mended(path: str, folder: str) -> str:
    """A copy of a record that was cut, up to its last whole line, with the `end` line that it lacks."""
    copy, entries = os.path.join(folder, "mended.record"), 0
    with open(path, "rb") as old, open(copy, "wb") as new:
        for line in old:
            if line.endswith(b"\n"):
                new.write(line)
                entries += line.startswith((b"got ", b"ask "))
        new.write(b"end %d\n" % entries)
    return copy


def migrated(path: str, folder: str) -> str:
    """A record of version 1 as one of version 2, which has its steps."""
    copy = os.path.join(folder, "migrated.record")
    done = program.call("migrate", path, copy)
    if done.returncode:
        raise Refused(program.line_of(done.stderr, done.returncode), done.returncode)
    return copy


def is_plain(path: str) -> bool:
    """Whether the record is of version 2 and ends with a line `end`: then it is read as it is."""
    with open(path, "rb") as file:
        first = file.readline(20)
        file.seek(max(0, os.path.getsize(path) - 30))
        last = file.read().rpartition(b"\n")[0].rpartition(b"\n")[2]
    return first == b"mosaikrun 2\n" and last.startswith(b"end ")


def gathered(path: str) -> Tuple[Gathering, Dict[str, Any]]:
    """What a page shows of this record; `Refused` where the program doesn't read it, or finds no plan in it."""
    name = os.path.basename(path)
    with tempfile.TemporaryDirectory() as folder:
        replay = Replay(path)
        if is_plain(path):
            found, fault = tried(path, name)
            said = [replay.wait()]
        else:
            said = [replay.wait()]
            path = straightened(path, folder, said)
            found, fault = tried(path, name) if said[-1][0] in (0, *OF_THE_RUN) else (None, said[-1][1])
        if said[-1][0] not in (0, *OF_THE_RUN):
            raise Refused(said[-1][1], said[-1][0] if said[-1][0] > 0 else 2)
        if found is None:
            raise Refused(f"{name}: {fault}")
        gathering, shown = found
        if gathering.settings:
            shown["samples"] += settings_of(gathering, refusals(path, folder))
        shown["trouble"] = [trouble(gathering, path, line, status) for status, line in said if status]
    return found


def refusals(path: str, folder: str) -> Set[Tuple[str, int]]:
    """The requests that were refused, as the report of the record has them; none where it has no report."""
    report = os.path.join(folder, "report")
    Replay(path, report).wait()
    with open(report, "rb") as file:
        return {(simulator, item.id) for simulator, item in ReportReader(file) if isinstance(item, Refusal)}


def tried(path: str, name: str) -> Tuple[Optional[Tuple[Gathering, Dict[str, Any]]], str]:
    """What a page shows of this record, or why it can't be read."""
    try:
        return gather(path, name), ""
    except UNREADABLE as fault:
        return None, str(fault)


def straightened(path: str, folder: str, said: List[Tuple[int, str]]) -> str:
    """A copy of the record that has its steps and its end; what the program says of a mended one is added."""
    with open(path, "rb") as file:
        is_old = file.readline(20) == b"mosaikrun 1\n"
    if CUT.fullmatch(said[0][1]):
        path = mended(path, folder)
        said.append(Replay(path).wait())
    return migrated(path, folder) if is_old and said[-1][0] in (0, *OF_THE_RUN) else path


def trouble(gathering: Gathering, path: str, line: str, status: int) -> Dict[str, Any]:
    """What went wrong: the line, what the documents say of it, and where it was."""
    known = messages.explanation(line, status)
    short = CUT_SHORT if CUT.fullmatch(line) else known.short if known else ""
    found: Dict[str, Any] = {"line": line, "status": status, "short": short[:1].upper() + short[1:], "open": []}
    place = place_of(gathering, line)
    if place >= 0:
        found.update(place=place, text=text_at(path, gathering.first_line + place))
    if line.startswith(("run 8", "limit")):
        asked = gathering.unfinished()
        found["open"] = [{"simulator": ask.simulator, "time": ask.time, "tier": ask.tier} for ask in asked]
    return found


def place_of(gathering: Gathering, line: str) -> int:
    """The place among the record's entries that the program's line is about, -1 where it names none."""
    words = line.split(" ")
    if line.startswith("run 1: "):
        places = gathering.messages.get(words[2], [])
        return places[int(words[4])] if int(words[4]) < len(places) else -1
    if line.startswith(("run 2: ", "run 3: ")):
        places = gathering.messages.get(words[2], [])
        return gathering.entries - 1 if words[1] == "3:" else places[-1] if places else -1
    if line.startswith("run 9: "):
        return int(words[4])
    return gathering.entries - 1 if line.startswith("limit: ") else -1


def text_at(path: str, number: int) -> str:
    """The line of this number of a record, cut where it is long."""
    with open(path, "rb") as file:
        for count, line in enumerate(file, 1):
            if count == number:
                text = line.decode("utf-8", "replace").rstrip("\n")
                return text if len(text) <= LONGEST else text[: LONGEST - 1] + "…"
    return ""


def compared(first: str, second: str, gatherings: List[Gathering]) -> Dict[str, Any]:
    """What the program's `blame` says of two records, and which requests were answered differently."""
    done = program.call("blame", first, second)
    if done.returncode:
        raise Refused(program.line_of(done.stderr, done.returncode), max(done.returncode, 2))
    blamed = []
    lines = done.stdout.splitlines()
    for start in range(0, len(lines) - 2, 3):
        named = BLAMED.fullmatch(lines[start])
        if named:
            blamed.append(
                {
                    "simulator": named[1],
                    "message": int(named[2]),
                    "step": [int(named[3]), int(named[4])] if named[3] else None,
                    "first": lines[start + 1].partition(" ")[2][:LONGEST],
                    "second": lines[start + 2].partition(" ")[2][:LONGEST],
                    "places": [place_at(one, named[1], int(named[2])) for one in gatherings],
                    "request": request(gatherings[0], first, named[1], int(named[2])),
                }
            )
    return {"equal": lines[:1] == ["equal"], "blamed": blamed}


def place_at(gathering: Gathering, simulator: str, message: int) -> int:
    """The place among the entries of a simulator's message of this number."""
    places = gathering.messages.get(simulator, [])
    return places[message] if message < len(places) else -1


def request(gathering: Gathering, path: str, simulator: str, message: int) -> str:
    """What the simulator answered by this message: the request that it had been sent."""
    place = place_at(gathering, simulator, message)
    columns = gathering.turns.columns
    turns = [turn for turn, asked in enumerate(columns["asked"]) if asked < place]
    number = [sim.id for sim in gathering.reader.plan.simulators].index(simulator)
    mine = [turn for turn in turns if columns["simulator"][turn] == number]
    if not mine:
        return ""
    turn = mine[-1]
    if columns["replied"][turn] == place or columns["replied"][turn] < 0 or place < columns["replied"][turn]:
        inputs = inputs_of(path, simulator, len(mine) - 1)
        return f"step {columns['time'][turn]}:{columns['tier'][turn]} {inputs}"
    wanted: Dict[str, List[str]] = {}
    for eid, attribute in sorted(gathering.reader.taken.get(simulator, ())):
        wanted.setdefault(eid, []).append(attribute)
    return f"get_data {json.dumps(wanted, separators=(',', ':'), ensure_ascii=False)[:LONGEST]}"


def inputs_of(path: str, simulator: str, number: int) -> str:
    """The inputs of a simulator's step of this number, as the report of the record has them."""
    with tempfile.TemporaryDirectory() as folder:
        report = os.path.join(folder, "report")
        if Replay(path, report).wait()[0]:
            return ""
        with open(report, "rb") as file:
            steps = (item for name, item in ReportReader(file) if name == simulator and isinstance(item, Step))
            step = next(itertools.islice(steps, number, None), None)
    return json.dumps(step.inputs, separators=(",", ":"), ensure_ascii=False)[:LONGEST] if step else ""
