#!/usr/bin/env python3
"""Runs a built program on the studies of `examples`, and tries the tools that lie there.

`run_examples.py PROGRAM` runs each scenario `NAME.toml` of `examples` in that folder, and compares the exit status
and both outputs with `checks/cases/examples/NAME.expected`; then it replays the record of the run in another order, and
compares the report. Where a scenario has a line `# First, in another terminal: COMMAND` that command is started
before, at a free port. Each line of `checks/cases/examples/edits.jsonl` is a study with a text replaced, and what then
comes: the status, the error line of the program, a text that the output has, or that the output is the study's. What
`world.py` writes is compared with the files `*.written` and run; the values of `whole.py` go both ways; what
`docs/from-mosaik.md` shows has to be what came.
`run_examples.py PROGRAM --store` stores what comes as expected. A case fails too where a program that it started
still runs. The last line is 'N passed, M failed'.
A scenario whose command names a file of `examples` is run at the top of the repository.
"""

from __future__ import annotations

import concurrent.futures
import contextlib
import importlib
import json
import os
import pathlib
import re
import shlex
import signal
import socket
import subprocess
import sys
import tempfile
import time

from common import ROOT, left_behind, status_of

EXAMPLES, STORED = ROOT / "examples", ROOT / "checks" / "cases" / "examples"
FIRST = re.compile(r"^# First, in another terminal: (.*)$", re.MULTILINE)
ADDRESS = re.compile(r'^connect = "127\.0\.0\.1:(\d+)"$', re.MULTILINE)


def free_port() -> int:
    with socket.create_server(("127.0.0.1", 0)) as server:
        return server.getsockname()[1]


def is_awaited(port: int) -> bool:
    """Whether somebody listens at the port. A trial would be taken for the orchestrator, so the table is read."""
    rows = [line.split() for line in pathlib.Path("/proc/net/tcp").read_text(encoding="ascii").splitlines()[1:]]
    return any(row[1].endswith(f":{port:04X}") and row[3] == "0A" for row in rows)


def called(words: list[str]) -> tuple[int, str, str]:
    """Calls a program in `examples`, for at most five minutes: its status and both outputs."""
    with tempfile.TemporaryFile() as out, tempfile.TemporaryFile() as err:
        with subprocess.Popen(words, cwd=EXAMPLES, start_new_session=True, stdout=out, stderr=err) as ran:
            try:
                ran.wait(300)
                faults = [f"it left {name}\n" for name in left_behind(ran.pid)]
            except subprocess.TimeoutExpired:
                os.killpg(ran.pid, signal.SIGKILL)
                faults = ["it ran for five minutes and was ended\n"]
        out.seek(0)
        err.seek(0)
        texts = [file.read().decode("utf-8", "replace") for file in (out, err)]
    return ran.returncode, texts[0], texts[1] + "".join(faults)


def run(program: str, text: str, record: str) -> tuple[int, str, str]:
    """Runs the scenario, its text with free ports in it, after what it wants started before."""
    first = FIRST.search(text)
    with tempfile.TemporaryDirectory() as room:
        command, port = first.group(1) if first else "", 0
        for old in ADDRESS.findall(text):
            port = free_port()
            text, command = text.replace(f":{old}", f":{port}"), command.replace(f":{old}", f":{port}")
        scenario = pathlib.Path(room) / "study.toml"
        scenario.write_text(text, encoding="utf-8")
        words = [program, "run", str(scenario), "--record", record]
        if " examples/" in text:
            words = ["env", "-C", str(EXAMPLES.parent), *words]
        if not first:
            return called(words)
        with subprocess.Popen(shlex.split(command), cwd=EXAMPLES) as waiting:
            try:
                end = time.monotonic() + 10
                while not is_awaited(port) and time.monotonic() < end:
                    time.sleep(0.02)
                answer = called(words)
                waiting.wait(10)
            finally:
                waiting.kill()
        return answer


def expected(answer: tuple[int, str, str]) -> str:
    """A status and both outputs as one text to be stored."""
    status, out, err = answer
    return f"status {status}\n-- standard output\n{out}-- standard error\n{err}"


class Checks:
    """What was tried: of each case what it is, what came, and what should have come."""

    def __init__(self, program: str, does_store: bool) -> None:
        self.program, self.does_store, self.cases = program, does_store, []

    def equal(self, what: str, got: object, want: object) -> None:
        self.cases.append((what, got, want))

    def stored(self, name: str, got: str) -> None:
        """Compares a text with the stored one, or stores it."""
        file = STORED / name
        if self.does_store:
            file.write_text(got, encoding="utf-8")
        self.equal(name, got, file.read_text(encoding="utf-8") if file.exists() else None)

    def study(self, name: str, text: str) -> None:
        """One scenario: its run, and the replay of its record."""
        with tempfile.TemporaryDirectory() as room:
            record = str(pathlib.Path(room) / "study.record")
            answer = run(self.program, text, record)
            self.stored(f"{name}.expected", expected(answer))
            replayed = called([self.program, "replay", record, "--order", "7"])
            self.equal(f"{name}: replay in another order", replayed, (0, answer[1], ""))

    def edit(self, case: dict) -> None:
        """One study with a text replaced."""
        text = (EXAMPLES / f"{case['study']}.toml").read_text(encoding="utf-8")
        what = f"{case['study']}: {case['new']!r} for {case['old']!r}"
        self.equal(f"{what}: the text is there", case["old"] in text, True)
        with tempfile.TemporaryDirectory() as room:
            status, out, err = run(self.program, text.replace(case["old"], case["new"]), f"{room}/study.record")
        line = "".join(found for found in err.splitlines(True) if re.match("mosaikrun: |it (left|ran) ", found))
        want = f"mosaikrun: {case['err']}\n" if "err" in case else ""
        if want.endswith(" ..\n"):  # the simulator's own words, which may differ
            line, want = line[: len(want) - 3], want[:-3]
        self.equal(what, (status, line), (case["status"], want))
        if "has" in case:
            self.equal(f"{what}: output", case["has"] if case["has"] in out else out, case["has"])
        if "same" in case:
            before = (STORED / f"{case['study']}.expected").read_text(encoding="utf-8")
            self.equal(f"{what}: output", out, before.split("-- standard output\n")[1].split("-- standard error\n")[0])

    def writer(self) -> None:
        """What `world.py` writes: of mosaik's own scenarios, and of each thing that it can say."""
        for name in ("mosaik_demo_1", "mosaik_demo_2"):
            with tempfile.TemporaryDirectory() as room:
                written = pathlib.Path(room) / "written.toml"
                called([sys.executable, f"{name}.py", str(written)])
                text = written.read_text(encoding="utf-8")
                self.stored(f"{name}.written", text)
                answer = run(self.program, text, f"{room}/study.record")
            self.equal(f"{name}.py: run", expected(answer), (STORED / f"{name}.expected").read_text(encoding="utf-8"))
        world = importlib.import_module("world")
        text = everything(world)
        self.stored("everything.written", text)
        with tempfile.TemporaryDirectory() as room:
            written = pathlib.Path(room) / "written.toml"
            written.write_text(text, encoding="utf-8")
            self.stored("everything.expected", expected(called([self.program, "check", str(written)])))
        for value in (0.5, 20.0, None, [1, 2.5], {"a": None}):
            self.equal(f"world.py refuses {value}", refusal(world, {"cmd": "x"}, value), "ValueError")
        for config in ({"python": "sim:Sim"}, {"cmd": "x", "cwd": "sims"}):
            self.equal(f"world.py refuses {config}", refusal(world, config, 1), "ValueError")
        self.equal("world.py refuses an id", refusal(world, {"cmd": "x"}, 1, sim_id="B"), "ValueError")
        self.equal("world.py refuses a group in a group", refusal(world, {"cmd": "x"}, 1, groups=2), "ValueError")

    def page(self) -> None:
        """What `docs/from-mosaik.md` shows: outputs, error lines, and the first run of a simulator alone."""
        text = (ROOT / "docs" / "from-mosaik.md").read_text(encoding="utf-8")
        blocks = re.findall(r"^```(\w*)\n(.*?)^```$", text, re.MULTILINE | re.DOTALL)
        shown = [block for kind, block in blocks if not kind]
        known = [file.read_text(encoding="utf-8") for file in STORED.glob("*.expected")]
        for kind, block in blocks:
            if kind == "toml" and block.startswith("until"):
                known.append(self.first(block))
        for block in shown:
            self.equal("from-mosaik.md: a block", any(block in of for of in known) or block, True)
        said = re.findall(r"`((?:scenario \d+|launch \d+|connect \d+|run \d+|setup): [^`]*)`", text)
        edits = (STORED / "edits.jsonl").read_text(encoding="utf-8").splitlines()
        self.equal("from-mosaik.md: error lines", set(said) - {json.loads(line).get("err") for line in edits}, set())
        self.equal("from-mosaik.md: blocks and lines are found", len(shown) > 3 and len(said) > 9, True)

    def first(self, text: str) -> str:
        """The report of a run, and the lines of its record that say what the simulators created."""
        with tempfile.TemporaryDirectory() as room:
            _, out, _ = run(self.program, text, f"{room}/first.record")
            record = pathlib.Path(room, "first.record").read_text(encoding="utf-8")
        return out + "".join(line for line in record.splitlines(True) if re.match("(sim|model|entity) ", line))

    def adapter(self) -> None:
        """What `whole.py` makes of values, in both directions, and of a program that ends."""
        whole = importlib.import_module("whole")
        scale = whole.Scale({"P": 1000, "soc": 100, "E": 0.001})
        numbers = [*range(-3000, 3000), 10**9 + 1, -(10**12) - 7]
        for attr in ("P", "soc", "E", "other"):
            back = [scale.whole(attr, scale.own(attr, number)) for number in numbers]
            self.equal(f"whole.py: there and back by the factor of {attr}", back, numbers)
        for (attr, value), want in WHOLE:
            got = scale.whole(attr, value)
            self.equal(f"whole.py: {attr} {value!r}", (got, type(got)), (want, type(want)))
        self.equal("whole.py: *", whole.Scale({"*": 1}).whole("any", 2.6), 3)
        for name, (call, words), want in MESSAGES:
            self.equal(f"whole.py: {name}", getattr(scale, call)(*words), want)
        words = [sys.executable, "whole.py", "127.0.0.1:1", "--", sys.executable, "-c", "raise SystemExit(3)", "ADDR"]
        status, _, err = called(words)
        self.equal("whole.py: a simulator that ends", (status, err.split()[-3:]), (1, ["with", "status", "3"]))


WHOLE = [
    (("P", 412.437), 412437),
    (("P", 0.0004), 0),
    (("P", [1.5, {"a": -2.25, "b": True}]), [1500, {"a": -2250, "b": True}]),
    (("P", True), True),
    (("P", "text"), "text"),
    (("other", 20.0), 20),
    (("other", 20.5), 20.5),
]
OWN = {"P": 0.005}
NAN, INFINITE = float("nan"), float("inf")
INPUTS = {"e": {"P": {"A-0.a": 1500, "B-0.b": 1}, "x": {"A-0.a": 7}}}
OWN_INPUTS = {"e": {"P": {"A-0.a": 1.5, "B-0.b": 0.001}, "x": {"A-0.a": 7}}}
SET, OWN_SET = ({"A-0.a": {"B-0.b": {"P": power}}} for power in (1500, 1.5))
MESSAGES = [
    ("a step", ("to_simulator", ("step", [15, INPUTS, 20], {})), ["step", [15, OWN_INPUTS, 20], {}]),
    ("parameters", ("to_simulator", ("create", [1, "M"], {"P": 5, "n": 3})), ["create", [1, "M"], {**OWN, "n": 3}]),
    ("a next time", ("reply", ("step", 30.0)), 30),
    ("no next time", ("reply", ("step", None)), None),
    ("outputs", ("reply", ("get_data", {"e": {"P": 1.5, "x": None}, "time": 16.0})), {"e": {"P": 1500}, "time": 16}),
    ("no numbers", ("reply", ("get_data", {"e": {"P": NAN, "soc": INFINITE, "x": 1}})), {"e": {"x": 1}}),
    ("metadata", ("reply", ("init", {"api_version": "3.0", "P": 1.5})), {"api_version": "3.0", "P": 1.5}),
    ("set values", ("from_simulator", ("set_data", [OWN_SET], {})), ["set_data", [SET], {}]),
    ("asked values", ("found", ({"B-0.b": {"P": 1500, "x": 2}},)), {"B-0.b": {"P": 1.5, "x": 2}}),
]


def everything(world: object) -> str:
    """A scenario with each thing that `world.py` can say."""
    config = {"A": {"cmd": "%(python)s a.py %(addr)s"}, "B": {"connect": "127.0.0.1:5555"}, "C": {"local": "sum"}}
    told = world.World(config, max_loop_iterations=7)
    with told.group():
        a, also_a = told.start("A"), told.start("A", n=2)
    b, c = told.start("B"), told.start("C")
    told.set_initial_event(a.sid)
    told.set_initial_event(a.sid, time=4)
    many = a.Model.create(3, text='a "quoted" one', flags=[True, False], table={"of": {"it": -1}, "a key": []})
    one, other, total = also_a.Model(), getattr(b, "A model")(), c.Sum()
    world.connect_many_to_one(told, many, one, "x", ("y", "z"))
    told.connect(one, other, "x", time_shifted=True, initial_data={"x": 5})
    told.connect(other, one, "x", time_shifted=3, initial_data={"x": [1, 2]})
    told.connect(one, many[1], "x", weak=True)
    told.connect(b.entity("child.1"), total, ("out", "in"))
    told.connect(other, total, async_requests=True)
    return told.text(until=96, max_entries=5000)


def refusal(world: object, config: dict, value: object, groups: int = 1, **how: object) -> str:
    """How a scenario ends with this way to start a simulator, within so many groups, and this parameter."""
    try:
        told = world.World({"A": config})
        with contextlib.ExitStack() as around:
            for _ in range(groups):
                around.enter_context(told.group())
            told.start("A", **how).Model(value=value)
        return told.text(until=1)
    except Exception as fault:
        return type(fault).__name__


def main() -> int:
    checks = Checks(str(pathlib.Path(sys.argv[1]).resolve()), "--store" in sys.argv)
    sys.path.insert(0, str(EXAMPLES))
    sys.dont_write_bytecode = True
    os.environ["PYTHONDONTWRITEBYTECODE"] = "1"
    # `python3` of the scenarios is the interpreter that runs this
    os.environ["PATH"] = os.pathsep.join([str(pathlib.Path(sys.executable).parent), os.environ.get("PATH", "")])
    scenarios = {file.stem: file.read_text(encoding="utf-8") for file in EXAMPLES.glob("*.toml")}
    edits = [json.loads(line) for line in (STORED / "edits.jsonl").read_text(encoding="utf-8").splitlines()]
    # what is stored is compared with, so it comes first
    with concurrent.futures.ThreadPoolExecutor(1 if checks.does_store else 4) as pool:
        calls = [pool.submit(checks.study, name, text) for name, text in sorted(scenarios.items())]
        calls += [pool.submit(checks.edit, edit) for edit in edits]
        calls += [pool.submit(checks.writer), pool.submit(checks.adapter), pool.submit(checks.page)]
        for call in calls:
            call.result()
    failed = [case for case in checks.cases if case[1] != case[2]]
    for what, got, want in sorted(failed, key=lambda case: case[0]):
        print(f"{what}\n  want {want!r}\n  got  {got!r}")
    print(f"{len(checks.cases) - len(failed)} passed, {len(failed)} failed")
    return 1 if failed or not checks.cases else 0


sys.exit(status_of(main))
