"""Carries a scenario out: its files, the words of the program, and what is said of a run that failed."""

from __future__ import annotations

import contextlib
import json
import numbers
import os
import pathlib
import shlex
import sys
import tempfile
import time
from typing import Any, List, NamedTuple, Optional, Union

from mosaikrun import drafts, program
from mosaikrun.errors import RunError, ScenarioError, refused
from mosaikrun.running import Running
from mosaikrun.study import Command, Scenario
from mosaikrun.starting import with_calls

MOST_TIME, MOST_MILLISECONDS = 1_000_000_000, 86_400_000
PORT_SECONDS = 10.0


class Plan(NamedTuple):
    """A run that is to be: the scenario, its end, the program's words before the scenario and after, and the record."""

    scenario: Scenario
    until: int
    command: str
    options: List[str]
    record: pathlib.Path

    @property
    def file(self) -> pathlib.Path:
        """The scenario's file, which stands beside the record."""
        return self.record.with_name(f"{self.record.name}.toml")


def planned(
    scenario: Scenario,
    until: Any,
    rt_factor: Optional[float],
    rt_strict: Union[bool, float],
    record: Union[str, pathlib.Path, None],
) -> Plan:
    """Looks whether the run can be had as it is asked for; nothing is started before."""
    if not is_time(until):
        raise refused(f"until is {until!r}, and not a whole number from 1 to {MOST_TIME}", "What maps to what")
    if not scenario.simulators:
        raise ScenarioError("the scenario has no simulator")
    program.find()
    options: List[str] = []
    if rt_factor:
        options = [str(milliseconds(rt_factor * 1000, "rt_factor", "milliseconds to a unit of time"))]
        if rt_strict:
            late = options[0] if rt_strict is True else milliseconds(rt_strict, "rt_strict", "milliseconds")
            options += ["--strict", str(late)]
    path = pathlib.Path(record) if record else pathlib.Path(f"{script_name()}.record")
    if not path.parent.is_dir():
        raise ScenarioError(f"the record {path} can't be written: its folder isn't there")
    return Plan(scenario, int(until), "paced" if options else "run", options, path)


def is_time(until: Any) -> bool:
    """Whether a run can end at this time; 10.0 is the time 10."""
    is_number = isinstance(until, numbers.Real) and not isinstance(until, bool)
    return is_number and 1 <= until <= MOST_TIME and until == int(until)


def milliseconds(number: float, name: str, unit: str) -> int:
    whole = round(number)
    if abs(number - whole) > 1e-6 or not 1 <= whole <= MOST_MILLISECONDS:
        what = f"{name} comes to {number:g} {unit}, and it has to be a whole number from 1 to {MOST_MILLISECONDS}"
        raise refused(what, "What maps to what")
    return whole


def script_name() -> str:
    """The name of the script that runs, without its ending."""
    file = getattr(sys.modules["__main__"], "__file__", None)
    return pathlib.Path(file).stem if file else "study"


def text_of(scenario: Scenario, until: int) -> str:
    """The scenario's text, in which extra methods are called again."""
    for simulator in scenario.simulators.values():
        with_calls(simulator)
    return scenario.text(until)


def carry_out(plan: Plan) -> Optional[str]:
    """Writes the scenario, has it checked, and runs it: its report, None where that is very long."""
    plan.file.write_text(text_of(plan.scenario, plan.until), encoding="utf-8")
    program.told(["check", str(plan.file)])
    for simulator in plan.scenario.simulators.values():
        if not isinstance(simulator.how, Command) and simulator.how[0] == "connect":
            await_listener(simulator.sid, simulator.how[1])
    if plan.record.exists():
        os.replace(plan.record, f"{plan.record}.old")
    earlier = drafts.beside(plan.record)
    with tempfile.TemporaryDirectory(prefix="mosaikrun-") as folder:
        room = pathlib.Path(folder)
        commands = [sid for sid, one in plan.scenario.simulators.items() if isinstance(one.how, Command)]
        running = Running(room, commands)
        scenario = room / "study.toml"
        scenario.write_text(plan.scenario.text(plan.until, running.around()), encoding="utf-8")
        try:
            status = running.run([plan.command, str(scenario), *plan.options, "--record", str(plan.record)])
        except BaseException:
            record = left(plan, earlier)
            if record:
                said = f"its record is {record}; it goes on by: {goes_on(plan, record)}"
                sys.stderr.write(f"mosaikrun: the run was ended; {said}\n")
            raise
        if status != 0:
            raise failure(plan, running, status, left(plan, earlier))
        return running.report()


def left(plan: Plan, earlier: List[pathlib.Path]) -> Optional[pathlib.Path]:
    """The record that a run left; where none was saved, as by a program that was killed, the draft of it."""
    if plan.record.exists():
        return plan.record
    made = [draft for draft in drafts.beside(plan.record) if draft not in earlier]
    return next((draft for draft in made if drafts.has_entry(draft)), None)


def goes_on(plan: Plan, record: pathlib.Path) -> str:
    """The command by which a run that was cut short goes on."""
    return shlex.join(["mosaikrun", "resume", str(plan.file), str(record), "--record", str(plan.record)])


def failure(plan: Plan, running: Running, status: int, record: Optional[pathlib.Path]) -> RunError:
    """What is to be said of a run that failed and left this record."""
    line = running.line()
    hints = []
    if line.startswith("outside: fleet") and running.prints.ended:
        early = [sid for sid in dict.fromkeys(running.prints.ended) if sid in running.sids]
        hints += [f"These ended: {', '.join(early)}. What they printed stands above."] if early else []
    if line.startswith("connect 1: "):
        hints.append("It was there while the scenario was built: a simulator has to give the same entities each time.")
    if line.startswith("run 1: ") and line.endswith("cause 7") and record:
        hints.append(fraction_hint(plan.scenario, record))
    if record and record != plan.record:
        hints.append(f"It goes on by: {goes_on(plan, record)}")
    return RunError(line, status, record, "\n".join(hint for hint in hints if hint))


def fraction_hint(scenario: Scenario, record: pathlib.Path) -> str:
    """Which value of the record's last message has a fraction, and how it is scaled."""
    last = [line for line in record.read_text(encoding="utf-8").splitlines() if line.startswith("got ")][-1]
    place, (_, _, content) = json.loads(last[len("got ") :])
    simulator = list(scenario.simulators.values())[place]
    for eid, attrs in content.items() if isinstance(content, dict) else ():
        for attr, value in attrs.items() if isinstance(attrs, dict) else ():
            if has_fraction(value):
                return f"{attr} of {simulator.sid}.{eid} has a fraction: give whole numbers{simulator.advice(attr)}"
    return ""


def has_fraction(value: Any) -> bool:
    if isinstance(value, (list, dict)):
        return any(has_fraction(item) for item in (value.values() if isinstance(value, dict) else value))
    return isinstance(value, float)


def await_listener(sid: str, address: str) -> None:
    """Looks whether somebody listens at an address again, once the connection that built the scenario has ended.

    A trial would be taken for the orchestrator, so the system's table of sockets is read.
    """
    port, end = int(address.rpartition(":")[2]), time.monotonic() + PORT_SECONDS
    tables = [pathlib.Path("/proc/net/tcp"), pathlib.Path("/proc/net/tcp6")]
    if not tables[0].exists():
        return
    while True:
        rows: List[List[str]] = []
        for table in tables:
            with contextlib.suppress(OSError):
                rows += [line.split() for line in table.read_text(encoding="ascii").splitlines()[1:]]
        if any(row[1].endswith(f":{port:04X}") and row[3] == "0A" for row in rows):
            return
        if time.monotonic() > end:
            what = f"{sid}: nobody listens at {address} any more, since the simulator serves one connection alone"
            raise refused(f"{what}; start it in a loop, or by `cmd`", "The package `mosaikrun`")
        time.sleep(0.02)
