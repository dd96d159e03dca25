"""Tests of runs by the program: scripts of mosaik's form, what comes of them, and that nobody is left behind."""

from __future__ import annotations

import contextlib
import io
import json
import os
import pathlib
import shlex
import signal
import socket
import subprocess
import sys
import tempfile
import threading
import time
import types
import unittest
from typing import Any, Dict, List
from unittest import mock

import here  # noqa: F401, comes before the package
import mosaikrun as mosaik
import world_sims
from mosaikrun import carrying, program, running

TESTS = pathlib.Path(__file__).resolve().parent
ROOT = TESTS.parents[1]
SCRIPTS = ROOT / "examples" / "scenarios"
SECONDS = 240.0


def is_alive(number: int) -> bool:
    """Whether this process is there and hasn't ended."""
    try:
        text = pathlib.Path(f"/proc/{number}/stat").read_text(encoding="utf-8", errors="replace")
    except OSError:
        return False
    return text[text.rindex(")") + 1 :].split()[0] not in "ZX"


def awaited(condition: Any) -> bool:
    """Whether the condition comes to hold in time."""
    end = time.monotonic() + SECONDS
    while not condition() and time.monotonic() < end:
        time.sleep(0.02)
    return bool(condition())


def served(room: pathlib.Path) -> List[str]:
    """The simulators of a script of this folder that still run: they have the folder's name in a variable."""
    mark, found = f"PWD={room}".encode(), []
    for folder in pathlib.Path("/proc").glob("[0-9]*"):
        with contextlib.suppress(OSError):
            if mark in (folder / "environ").read_bytes().split(b"\0") and is_alive(int(folder.name)):
                found.append((folder / "cmdline").read_bytes().replace(b"\0", b" ").decode())
    return found


class InAFolder(unittest.TestCase):
    """Each test runs in an empty folder; after it no process is left."""

    def setUp(self) -> None:
        self.folder = os.getcwd()
        room = tempfile.TemporaryDirectory()
        self.addCleanup(room.cleanup)
        self.addCleanup(os.chdir, self.folder)
        self.room = pathlib.Path(room.name).resolve()
        os.chdir(self.room)
        self.out, self.err = io.StringIO(), io.StringIO()

    def tearDown(self) -> None:
        self.assertEqual(running.children(os.getpid()), [], "a process is left behind")

    def report(self, record: str = "my.record") -> List[str]:
        return program.told(["replay", record]).splitlines()

    def run_world(self, config: Dict[str, Any], build: Any, until: int = 4, **how: Any) -> mosaik.World:
        """Runs a world that is built by this call; what is printed is kept."""
        config = {name: told if isinstance(told, dict) else {"python": told} for name, told in config.items()}
        with contextlib.redirect_stdout(self.out), contextlib.redirect_stderr(self.err):
            with mosaik.World(config) as world:
                build(world)
                world.run(until, **{"record": "my.record", **how})
        return world

    def script(self, file: pathlib.Path, **env: str) -> subprocess.CompletedProcess:
        words = [sys.executable, str(file)]
        told = {**os.environ, "PWD": str(self.room), **env}
        return subprocess.run(words, env=told, capture_output=True, text=True, timeout=SECONDS, check=False)


class Scripts(InAFolder):
    """The scripts of `examples/scenarios`."""

    def test_the_tutorial(self) -> None:
        for name in ("demo_1", "demo_2"):
            with self.subTest(name):
                done = self.script(SCRIPTS / f"{name}.py")
                self.assertEqual((done.returncode, done.stderr), (0, ""))
                (stored,) = ROOT.glob(f"checks/**/mosaik_{name}.expected")
                _, report, printed = stored.read_text(encoding="utf-8").split("-- standard ")
                self.assertEqual(self.report(f"{name}.record"), report.splitlines()[1:])
                lines = [f"[Collector-0] {line}" for line in printed.splitlines()[1:]]
                self.assertEqual(done.stdout.splitlines(), lines)

    def test_the_loop_within_one_time(self) -> None:
        done = self.script(SCRIPTS / "demo_3.py")
        self.assertEqual((done.returncode, done.stderr), (0, ""))
        told = done.stdout.replace("[Collector-0] ", "")
        # at 4 two agents propose -1 each, so the master stops all in the next round of that time
        self.assertIn("- ExampleMasterCtrl-0.Agent_0:\n  - delta_out: {4: 0, 5: 0}\n", told)
        self.assertIn("- ExampleSim-0.Model_0:\n  - delta: {0: 1, 1: 1, 2: 1, 3: 1, 4: 1, 5: 0}\n", told)
        report = self.report("demo_3.record")
        self.assertTrue([line for line in report if line.startswith("step 4:1 ")], report)

    def test_the_shape_of_the_demo(self) -> None:
        done = self.script(SCRIPTS / "demo.py")
        self.assertEqual((done.returncode, done.stderr), (0, ""))
        self.assertEqual(done.stdout.splitlines()[0], "[DB-0] A day of the grid: 18 houses, 6 photovoltaics")
        report = self.report("demo.record")
        steps = [line for line in report[report.index("sim DB-0") :] if line.startswith("step ")]
        self.assertGreaterEqual(len(steps), 24)
        for line in steps[:24]:
            got = json.loads(line.split(" ", 2)[2])["hdf5_0"]
            given = sum(got["P_out"].values()) + sum(value for name, value in got["P"].items() if "PV-0" in name)
            self.assertEqual((len(got["P_out"]), got["P"]["Grid-0.0-tr_sec"]), (18, given), line)


class Runs(InAFolder):
    """Worlds that are run by the program."""

    def test_a_run_of_classes_is_that_of_the_kinds_within_the_program(self) -> None:
        def build(world: mosaik.World) -> None:
            counter, total = world.start("Counter", **given), world.start("Sum")
            made = counter.Model(value=5) if "step_size" in given else counter.Count(start=5)
            world.connect(made, total.Sum(bias=1), ("out", "in"))

        reports = []
        for kind, given in (("world_sims:Counter", {"step_size": 2}), ({"local": "counter"}, {"step": 2})):
            self.run_world({"Counter": kind, "Sum": {"local": "sum"}}, build, until=6)
            reports.append([line.replace("Counter-0.e0", "Counter-0.0") for line in self.report()])
        self.assertEqual(reports[0], reports[1])
        self.assertIn('step 4:0 {"0":{"in":{"Counter-0.0":9}}}', reports[0])

    def test_outputs_folder_variables_and_extra_methods(self) -> None:
        program_of = {"cmd": "%(python)s world_sims.py %(addr)s", "cwd": str(TESTS), "env": {"COLOUR": "red"}}

        def build(world: mosaik.World) -> None:
            counter, sink = world.start("Counter"), world.start("Sink")
            also = world.start("Also")
            one, other = counter.Model(value=1), also.Model(value=10)
            counter.raise_by(100)
            also.raise_by(1000)
            for entity in (one, other, counter.Model(value=2)):
                world.connect(entity, sink.Sink() if entity is one else collectors[0], "out")
                collectors.extend(world.sims["Sink-0"].entities)

        collectors: list = []
        config = {
            "Counter": "world_sims:Counter",
            "Also": program_of,
            "Sink": {**program_of, "env": {"COLOUR": "blue", "SIM_CLASS": "Sink"}},
        }
        world = self.run_world(config, build, until=3)
        self.assertEqual(self.out.getvalue(), f"[Sink-0] 3 came, blue, {TESTS.name}\n")
        self.assertEqual(self.err.getvalue(), "[Sink-0] also as an error\n")
        wanted = '{"sink0":{"out":{"Also-0.e0":1012,"Counter-0.e0":103,"Counter-0.e1":104}}}'
        self.assertIn(f"step 2:0 {wanted}", self.report())
        self.assertEqual(world.record, pathlib.Path("my.record"))
        # what is written runs by itself, and comes to the same
        again = subprocess.run(
            [program.find(), "run", "my.record.toml"], capture_output=True, text=True, timeout=SECONDS, check=False
        )
        self.assertEqual(again.stdout.splitlines(), self.report())

    def test_requests_in_a_step(self) -> None:
        for name in ("Asking", "Awaiting"):
            with self.subTest(name):

                def build(world: mosaik.World) -> None:
                    asked = world.start("Counter").Model(value=3)
                    asking, sink = world.start("Asking", asked=asked.full_id).Model(), world.start("Sink").Sink()
                    world.connect(asked, asking, async_requests=True)
                    world.connect(asked, sink, "out")
                    world.connect(asking, sink, ("out", "by"))

                config = {"Counter": "world_sims:Counter", "Asking": f"world_sims:{name}", "Sink": "world_sims:Sink"}
                self.run_world(config, build, until=2)
                report = self.report()
                self.assertIn('answer 1 {"Counter-0.e0":{"out":3}}', report)
                if name == "Asking":
                    self.assertIn('step 1:0 {"e0":{"in":{"Asking-0.e0":3}}}', report)
                    self.assertIn("refuse 4 1", report)
                else:
                    self.assertTrue(any('"by":{"Awaiting' in line or '"by":{"Asking-0.e0":' in line for line in report))

    def test_newer_metadata(self) -> None:
        def build(world: mosaik.World) -> None:
            newer, sink = world.start("Newer").Model(), world.start("Sink").Sink()
            world.connect(newer, sink, "b", time_shifted=True)  # an event, which needs no initial value

        self.run_world({"Newer": "world_sims:Newer", "Sink": "world_sims:Sink"}, build)
        self.assertIn('step 3:0 {"sink0":{"b":{"Newer-0.0":1}}}', self.report())

    def test_by_the_clock(self) -> None:
        began = time.monotonic()
        self.run_world({"Counter": "world_sims:Counter"}, lambda world: world.start("Counter"), 6, rt_factor=0.05)
        self.assertGreaterEqual(time.monotonic() - began, 0.25)
        self.assertEqual(len(self.report()), 8)

    def test_options_of_a_run(self) -> None:
        with mosaik.World({"Counter": {"python": "world_sims:Counter"}}) as world:
            with self.assertRaisesRegex(mosaik.ScenarioError, "no simulator"):
                world.run(until=1)
            world.start("Counter")
            for until in (0, 1.5, True, 10**9 + 1):
                with self.assertRaisesRegex(mosaik.ScenarioError, "until is "):
                    world.run(until=until)
            for factor in (0.0005, 0.0015, 10**6):
                with self.assertRaisesRegex(mosaik.ScenarioError, "rt_factor comes to "):
                    world.run(until=1, rt_factor=factor)
            with self.assertRaisesRegex(mosaik.ScenarioError, "its folder isn't there"):
                world.run(until=1, record="nowhere/my.record")
            for strict, words in ((False, ["50"]), (True, ["50", "--strict", "50"]), (7, ["50", "--strict", "7"])):
                plan = carrying.planned(world.scenario, 5.0, 0.05, strict, None)
                self.assertEqual((plan.command, plan.until, plan.options), ("paced", 5, words))

    def test_a_world_runs_once_and_keeps_the_record_before(self) -> None:
        pathlib.Path("my.record").write_text("the one before", encoding="utf-8")
        world = self.run_world({"Counter": "world_sims:Counter"}, lambda world: world.start("Counter").Model())
        self.assertEqual(pathlib.Path("my.record.old").read_text(encoding="utf-8"), "the one before")
        self.assertTrue(pathlib.Path("my.record").read_text(encoding="utf-8").startswith("mosaikrun 2\n"))
        with self.assertRaisesRegex(RuntimeError, "can only be run once"):
            world.run(until=1)
        with self.assertRaisesRegex(mosaik.ScenarioError, "has ended with its run"):
            world.get_data([world.sims["Counter-0"].entities[0]], "out")
        with self.assertRaisesRegex(mosaik.ScenarioError, "this world has run"):
            world.start("Counter")


class Drafts(InAFolder):
    """What is said of the draft that a run left."""

    def ended(self, names: Dict[str, str], fault: BaseException) -> str:
        """What is said where a run leaves these files and ends so; files with an empty text are gone at once."""

        def run(*_: Any) -> int:
            for name, text in names.items():
                pathlib.Path(name).write_text(text, encoding="utf-8") if text else os.symlink("nowhere", name)
            raise fault

        with mock.patch.object(running.Running, "run", run), self.assertRaises(type(fault)):
            self.run_world({"Sum": {"local": "sum"}}, lambda world: world.start("Sum"), record="my own.record")
        return self.err.getvalue()

    def test_an_interrupt_names_the_draft_and_the_whole_command(self) -> None:
        # the draft of an earlier run isn't that of this one
        pathlib.Path("my own.record.part").write_text("got [0]\ngot [1]\n", encoding="utf-8")
        said = self.ended({"my own.record.part2": "got [0]\n", "my own.record.part3": "run"}, KeyboardInterrupt())
        command = "mosaikrun resume 'my own.record.toml' 'my own.record.part2' --record 'my own.record'"
        wanted = f"the run was ended; its record is my own.record.part2; it goes on by: {command}\n"
        self.assertEqual(said, f"mosaikrun: {wanted}")

    def test_a_draft_that_is_gone_takes_no_interrupt_away(self) -> None:
        self.assertEqual(self.ended({"my own.record.part": ""}, KeyboardInterrupt()), "")

    def test_a_record_that_was_saved_is_named(self) -> None:
        left = {"my own.record": "got [0]\nend 1\n", "my own.record.part": "got [0]\n"}
        said = self.ended(left, KeyboardInterrupt())
        self.assertIn("resume 'my own.record.toml' 'my own.record' --record 'my own.record'\n", said)


class Faults(InAFolder):
    """Runs that fail, each with a clear line."""

    def fails(self, config: Dict[str, Any], build: Any, **how: Any) -> mosaik.RunError:
        with self.assertRaises(mosaik.RunError) as caught:
            self.run_world(config, build, **how)
        self.assertIsInstance(caught.exception, mosaik.ScenarioError)
        self.assertIsInstance(caught.exception, mosaik.SimulationError)
        return caught.exception

    def one(self, name: str) -> mosaik.RunError:
        """The fault of a run of this class, whose output is taken."""

        def build(world: mosaik.World) -> None:
            world.connect(world.start(name).Model(), world.start("Sink").Sink(), "out")

        return self.fails({name: f"world_sims:{name}", "Sink": "world_sims:Sink"}, build)

    def test_a_child_that_dies_in_a_step(self) -> None:
        fault = self.one("Dying")
        self.assertEqual((fault.line, fault.status), ("run 5: Dying-0 closed its link", 5))
        self.assertIn("the simulator's program ended", str(fault))
        self.assertIn("closed its socket", fault.paragraph)
        self.assertIn("[Dying-0] that was it\n", self.out.getvalue())
        self.assertRegex(self.out.getvalue(), r"\[Sink-0\] \d came")  # the others end as they should
        self.assertEqual(fault.record, pathlib.Path("my.record"))
        self.assertTrue(fault.record.exists())

    def test_a_step_that_fails(self) -> None:
        fault = self.one("Failing")
        self.assertEqual((fault.line, fault.status), ("run 2: Failing-0 failed: ValueError: no more steps", 5))
        self.assertIn("[Failing-0] ValueError: no more steps\n", self.err.getvalue())

    def test_a_value_with_a_fraction(self) -> None:
        fault = self.one("Fractions")
        self.assertEqual((fault.line, fault.status), ("run 1: Fractions-0 message 1 cause 7", 5))
        self.assertIn("out of Fractions-0.e0 has a fraction", str(fault))
        self.assertIn("out=1000 -- %(python)s -m mosaikrun.child world_sims:Fractions ADDR", str(fault))
        self.assertIn("has a value with a number that isn't whole", str(fault))
        self.assertIn("A number is whole by how it is written", fault.paragraph)

    def test_a_circle(self) -> None:
        def build(world: mosaik.World) -> None:
            one, other = (world.start("Counter").Model() for _ in range(2))
            world.connect(one, other, ("out", "in"))
            world.connect(other, one, ("out", "in"))

        fault = self.fails({"Counter": "world_sims:Counter"}, build)
        self.assertEqual((fault.line, fault.status), ("connect 8: cycle Counter-0 Counter-1", 3))
        self.assertIn("weak", str(fault))
        self.assertIsNone(fault.record)

    def test_a_class_that_only_this_process_has(self) -> None:
        module = types.ModuleType("only_here")
        module.Sim = type("Sim", (world_sims.Counter,), {"__module__": "only_here"})
        sys.modules["only_here"] = module
        self.addCleanup(sys.modules.pop, "only_here")
        fault = self.fails({"Sim": "only_here:Sim"}, lambda world: world.start("Sim").Model())
        self.assertEqual((fault.line, fault.status, fault.record), ("outside: fleet", 6, None))
        self.assertIn("These ended: Sim-0. What they printed stands above.", str(fault))
        self.assertIn("[Sim-0] ModuleNotFoundError: No module named 'only_here'\n", self.err.getvalue())

    def test_entities_that_differ_at_the_run(self) -> None:
        def build(world: mosaik.World) -> None:
            world.connect(world.start("Chance").Model(), world.start("Sink").Sink(), "out")

        fault = self.fails({"Chance": "world_sims:Chance", "Sink": "world_sims:Sink"}, build)
        self.assertRegex(fault.line, r"connect 1: Chance-0\.\d+")
        self.assertIn("has to give the same entities each time", str(fault))

    def test_a_program_that_dies_in_the_handshake(self) -> None:
        told = {"cmd": "%(python)s world_sims.py %(addr)s", "cwd": str(TESTS), "env": {"SIM_CLASS": "Unborn"}}
        with mosaik.World({"Unborn": told}) as world:
            unborn = world.start("Unborn")
            with self.assertRaisesRegex(mosaik.SimulationError, "Unborn-0 ended with status 7 while it worked on create"):
                unborn.Model()

    def test_a_script_whose_class_can_not_be_imported(self) -> None:
        code = "import mosaikrun as mosaik\nworld = mosaik.World({CONFIG})\n"
        code += "world.start('Program')\nworld.start('Gone')\n"
        program_of = {"cmd": "%(python)s world_sims.py %(addr)s", "cwd": str(TESTS)}
        pathlib.Path("broken.py").write_text("1 +\n", encoding="utf-8")
        for name, said in (
            ("nowhere:Sim", "Gone-0 can't be started: nowhere:Sim: ModuleNotFoundError: No module named 'nowhere'"),
            ("broken:Sim", "Gone-0 can't be started: broken:Sim: SyntaxError: invalid syntax (broken.py, line 1)"),
        ):
            config = {"Program": program_of, "Gone": {"python": name}}
            pathlib.Path("script.py").write_text(code.replace("{CONFIG}", repr(config)), encoding="utf-8")
            done = self.script(self.room / "script.py")
            self.assertEqual(done.returncode, 1)
            self.assertEqual(done.stderr.splitlines()[-1], f"mosaikrun.errors.ScenarioError: {said}")
            self.assertEqual(served(self.room), [], "a process is left behind")

    def test_an_exception_in_the_block(self) -> None:
        config = {"Program": {"cmd": "%(python)s world_sims.py %(addr)s", "cwd": str(TESTS)}}
        with self.assertRaises(KeyError):
            with mosaik.World(config) as world:
                child = world.start("Program").handshake.child.pid
                raise KeyError("something of the script")
        self.assertFalse(is_alive(child))

    def test_an_address(self) -> None:
        with socket.create_server(("127.0.0.1", 0)) as server:
            address = f"127.0.0.1:{server.getsockname()[1]}"
        words = [sys.executable, "-m", "mosaikrun.child", f"{TESTS / 'world_sims.py'}:Counter", "--remote", address]
        over = threading.Event()

        def serve(times: int) -> None:
            for _ in range(times):
                with subprocess.Popen(words, stdout=subprocess.DEVNULL, stderr=subprocess.DEVNULL) as child:
                    while child.poll() is None and not over.wait(0.05):
                        pass
                    child.kill()

        def build(world: mosaik.World) -> None:
            with mock.patch.object(carrying, "PORT_SECONDS", SECONDS):
                carrying.await_listener("Away-0", address)
            away = world.start("Away").Model(value=4)
            world.connect(away, world.start("Sum").Sum(), ("out", "in"))

        config = {"Away": {"connect": address}, "Sum": {"local": "sum"}}
        for times in (1, 2):
            thread = threading.Thread(target=serve, args=(times,))
            thread.start()
            try:
                if times == 2:
                    with mock.patch.object(carrying, "PORT_SECONDS", SECONDS):
                        self.run_world(config, build)
                    self.assertIn('step 3:0 {"0":{"in":{"Away-0.e0":7}}}', self.report())
                else:
                    with mock.patch.object(carrying, "PORT_SECONDS", 0.5):
                        with self.assertRaisesRegex(mosaik.ScenarioError, "serves one connection alone"):
                            self.run_world(config, build)
            finally:
                over.set()
                thread.join(SECONDS)
                over.clear()


class Interrupted(InAFolder):
    """Scripts that are ended while a simulator works on a step."""

    SCRIPT = """
import os, sys
sys.path.insert(0, sys.argv[1])
import mosaikrun as mosaik
sleeping = {"cmd": "%(python)s world_sims.py %(addr)s", "cwd": sys.argv[1], "env": {"SIM_CLASS": "Sleeping"}}
config = {"Slow": {"python": "world_sims:Slow"}, "Sink": {"python": "world_sims:Sink"}, "Sleeping": sleeping}
world = mosaik.World(config)
if sys.argv[2:] == ["sleep"]:
    world.start("Sleeping").Model()
slow, sink = world.start("Slow").Model(), world.start("Sink").Sink()
world.connect(slow, sink, "out")
if sys.argv[2:] == ["fail"]:
    raise ValueError("of the script itself")
world.run(until=5)
"""

    def started(self, *words: str) -> subprocess.Popen:
        pathlib.Path("script.py").write_text(self.SCRIPT, encoding="utf-8")
        env = {**os.environ, "STEPPED": str(self.room / "stepped"), "PWD": str(self.room)}
        how = {"stdout": subprocess.PIPE, "stderr": subprocess.PIPE, "text": True, "start_new_session": True}
        script = subprocess.Popen([sys.executable, "script.py", str(TESTS), *words], env=env, **how)
        self.addCleanup(script.kill)
        return script

    def stepping(self, script: subprocess.Popen) -> int:
        """The number of the simulator's process, once it works on its long step."""
        file = pathlib.Path("stepped")
        self.assertTrue(awaited(lambda: script.poll() is not None or (file.exists() and file.read_text())))
        self.assertIsNone(script.poll())
        return int(file.read_text(encoding="utf-8"))

    def test_interrupt_and_kill(self) -> None:
        for number, status in ((signal.SIGINT, -signal.SIGINT), (signal.SIGTERM, 128 + signal.SIGTERM)):
            with self.subTest(number=number):
                script = self.started()
                child = self.stepping(script)
                # as a terminal does it: to the script and to whatever is in its group
                os.killpg(script.pid, number)
                out, err = script.communicate(timeout=SECONDS)
                self.assertEqual(script.returncode, status, err)
                self.assertTrue(awaited(lambda: not is_alive(child)))
                self.assertEqual(served(self.room), [], "a process is left behind")
                goes_on = "mosaikrun: the run was ended; its record is script.record; it goes on by: mosaikrun resume"
                self.assertIn(goes_on, err)
                self.assertRegex(out, r"\[Sink-0\] \d came")  # it was told to stop
                record = pathlib.Path("script.record").read_text(encoding="utf-8").splitlines()
                self.assertEqual(len([line for line in record if line.startswith("ask [0,")]), 3)
                self.assertEqual(record[-1].split()[0], "end")
                os.remove("script.record")
                os.remove("stepped")

    def test_interrupt_while_the_scenario_is_built(self) -> None:
        for number in (signal.SIGINT, signal.SIGTERM):
            with self.subTest(number=number):
                script = self.started("sleep")
                child = self.stepping(script)
                os.killpg(script.pid, number)
                _, err = script.communicate(timeout=SECONDS)
                self.assertEqual(script.returncode, -number, err)
                self.assertTrue(awaited(lambda: served(self.room) == []), served(self.room))
                self.assertTrue(awaited(lambda: not is_alive(child)))
                os.remove("stepped")

    def test_a_script_that_is_killed_at_once(self) -> None:
        script = self.started()
        child = self.stepping(script)
        script.kill()
        script.communicate(timeout=SECONDS)
        self.assertTrue(awaited(lambda: self.programs() == []), self.programs())
        self.assertTrue(awaited(lambda: not is_alive(child)))
        record = pathlib.Path("script.record").read_text(encoding="utf-8").splitlines()
        self.assertEqual(len([line for line in record if line.startswith("ask [0,")]), 3)

    def test_a_program_that_is_killed_goes_on_from_its_draft(self) -> None:
        script = self.started()
        child = self.stepping(script)
        (number,) = self.programs()
        os.kill(int(number), signal.SIGKILL)
        os.kill(child, signal.SIGKILL)
        _, err = script.communicate(timeout=SECONDS)
        self.assertEqual(script.returncode, 1, err)
        self.assertIn("RunError: ended by signal 9 (status -9)\n", err)
        self.assertIn("  The record of the run until then: script.record.part\n", err)
        (line,) = [line for line in err.splitlines() if line.startswith("  It goes on by: mosaikrun ")]
        words = [program.find(), *shlex.split(line)[5:]]
        env = {**os.environ, "STEPPED": str(self.room / "stepped")}
        done = subprocess.run(words, env=env, capture_output=True, text=True, timeout=SECONDS, check=False)
        self.assertEqual(done.returncode, 0, done.stderr)
        self.assertEqual(done.stdout.splitlines(), self.report("script.record"))
        self.assertEqual(done.stdout.splitlines()[-1], "end 10")

    def programs(self) -> List[str]:
        """The programs mosaikrun that run in this test's folder."""
        found = []
        for folder in pathlib.Path("/proc").glob("[0-9]*"):
            with contextlib.suppress(OSError):
                words = (folder / "cmdline").read_bytes().split(b"\0")
                at_home = os.readlink(folder / "cwd") == str(self.room)
                if at_home and os.path.samefile(os.fsdecode(words[0]), program.find()):
                    found.append(folder.name)
        return found

    def test_a_script_that_fails_before_its_run(self) -> None:
        script = self.started("fail")
        _, err = script.communicate(timeout=SECONDS)
        self.assertEqual(script.returncode, 1)
        self.assertIn("ValueError: of the script itself", err)


if __name__ == "__main__":
    unittest.main()
