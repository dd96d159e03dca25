"""Tests of a scenario while it is built: what is there, what is refused, and the text that is written."""

from __future__ import annotations

import ast
import inspect
import os
import pathlib
import random
import re
import subprocess
import sys
import tempfile
import unittest
from typing import Any, Dict
from unittest import mock

import here  # noqa: F401, comes before the package
import mosaikrun as mosaik
from mosaikrun import messages, program, study, util
from mosaikrun.starting import search_path

TESTS = pathlib.Path(__file__).resolve().parent
PAGE = TESTS.parents[1] / "docs" / "from-mosaik.md"
PROGRAM = {"cmd": "%(python)s world_sims.py %(addr)s", "cwd": str(TESTS)}
CONFIG: Dict[str, Any] = {
    "Counter": {"python": "world_sims:Counter"},
    "Program": PROGRAM,
    "Sink": {"python": "world_sims:Sink"},
    "Newer": {"python": "world_sims:Newer"},
    "Sum": {"local": "sum"},
}


class Built(unittest.TestCase):
    """A world for each test, which is shut down after it."""

    def setUp(self) -> None:
        self.world = mosaik.World(CONFIG)
        self.addCleanup(self.world.shutdown)

    def refused(self, what: str, call: Any, *args: Any, **named: Any) -> str:
        """The call is refused with an error that has this text; one that names the page names a heading of it."""
        with self.assertRaises(Exception) as caught:
            call(*args, **named)
        text = str(caught.exception)
        self.assertIn(what, text)
        if "docs/from-mosaik.md" in text:
            heading = text.rpartition('from-mosaik.md, "')[2].partition('"')[0]
            self.assertIn(f"\n## {heading}\n", PAGE.read_text(encoding="utf-8"))
        return text


class There(Built):
    """What the handshake tells."""

    def test_a_class_and_a_program_tell_the_same(self) -> None:
        for name in ("Counter", "Program"):
            with self.subTest(name):
                sim = self.world.start(name, step_size=2)
                self.assertEqual((sim.sid, sim.type, sorted(sim.models)), (f"{name}-0", "time-based", ["Model"]))
                one, many = sim.Model(value=7), sim.Model.create(2, value=5)
                self.assertEqual([entity.eid for entity in [one, *many]], ["e0", "e1", "e2"])
                self.assertEqual((one.full_id, one.type, one.sim_name), (f"{name}-0.e0", "Model", name))
                self.assertEqual(one.extra_info, ["e0"])
                (part,) = one.children
                self.assertEqual((part.full_id, part.type, part.children), (f"{name}-0.e0_part", "Part", []))
                self.assertEqual(self.world.get_data([one, part], "out"), {one: {"out": 7}, part: {"out": 7}})
                sim.raise_by(3)
                self.assertEqual(sim.raised(), 3)
                self.assertEqual(self.world.get_data([many[1]], "out"), {many[1]: {"out": 8}})

    def test_ids_count_by_name(self) -> None:
        sids = [self.world.start(name).sid for name in ("Counter", "Sink", "Counter")]
        self.assertEqual(sids, ["Counter-0", "Sink-0", "Counter-1"])
        self.assertEqual(list(self.world.sims), sids)

    def test_persistence_and_triggers(self) -> None:
        counter, newer = self.world.start("Counter").Model(), self.world.start("Newer").Model()
        sink = self.world.start("Sink").Sink()
        self.assertEqual([counter.is_persistent("out"), counter.triggered_by("in")], [True, False])
        self.assertEqual([newer.is_persistent(attr) for attr in "ab"], [True, False])
        self.assertEqual([newer.triggered_by(attr) for attr in "ab"], [True, False])
        self.assertTrue(sink.triggered_by("any"))

    def test_the_surroundings_of_a_class(self) -> None:
        with tempfile.TemporaryDirectory() as room:
            code = "import os\nimport mosaik_api_v3\nclass Sim(mosaik_api_v3.Simulator):\n"
            code += "    def __init__(self):\n        told = [os.getcwd(), os.environ['COLOUR'], "
            code += "os.environ['MOSAIKRUN_SIM_ID'], os.environ['MOSAIKRUN_STAGE']]\n"
            code += "        super().__init__({'models': {}, 'told': told})\n"
            pathlib.Path(room, "surrounded.py").write_text(code, encoding="utf-8")
            sys.path.insert(0, room)
            self.addCleanup(sys.path.remove, room)
            config = {"Sim": {"python": "surrounded:Sim", "cwd": room, "env": {"COLOUR": "red"}}}
            with mosaik.World(config) as world:
                told = world.start("Sim").meta["told"]
            self.assertEqual(told, [os.path.realpath(room), "red", "Sim-0", "handshake"])
            self.assertNotIn("COLOUR", os.environ)
            self.assertNotEqual(os.getcwd(), os.path.realpath(room))

    def test_the_graph_of_entities(self) -> None:
        try:
            import networkx  # noqa: F401
        except ImportError:
            self.skipTest("networkx isn't installed")
        counter, sink = self.world.start("Counter"), self.world.start("Sink")
        one, collector = counter.Model(), sink.Sink()
        self.world.connect(one, collector, "out")
        graph = self.world.entity_graph
        self.assertEqual(graph.nodes["Counter-0.e0"], {"sid": "Counter-0", "type": "Model"})
        edges = {frozenset(edge) for edge in graph.edges}
        self.assertEqual(edges, {frozenset({"Counter-0.e0", other}) for other in ("Counter-0.e0_part", "Sink-0.sink0")})


class Refused(Built):
    """What is refused, before anything of it is started."""

    def test_worlds(self) -> None:
        self.refused("time_resolution is 0.5", mosaik.World, CONFIG, time_resolution=0.5)
        with self.world.group():
            self.refused("a group within a group", self.world.group().__enter__)

    def test_starts(self) -> None:
        for what, name, told in (
            ("not in the configuration", "Nobody", None),
            ("has to have one of", "Two", {"python": "a:B", "cmd": "x"}),
            ("has to have one of", "None", {"env": {}}),
            ("unknown option colour", "Odd", {"python": "a:B", "colour": 1}),
            ("letters, digits and _", "My-House", {"python": "world_sims:Counter"}),
            ("not on this machine", "Far", {"connect": "10.0.0.7:5555"}),
            ("No module named 'nowhere'", "Missing", {"python": "nowhere:Sim"}),
            ("has no attribute 'Nothing'", "Missing", {"python": "world_sims:Nothing"}),
            ("module:Class", "Missing", {"python": "world_sims"}),
            ("is of API version 2.4", "Older", {"python": "world_sims:Older"}),
            ("No such file", "Gone", {"cmd": "/no/such/program %(addr)s"}),
            (
                "ended with status 3 before it connected",
                "Ends",
                {"cmd": "%(python)s -c 'raise SystemExit(3)' %(addr)s"},
            ),
            ("its command is wrong", "Odd", {"cmd": "python3 %(address)s"}),
            ("its command is wrong", "Odd", {"cmd": "python3 'sim.py %(addr)s"}),
            ("is no kind of simulator", "Odd", {"local": "kettle"}),
            ("nobody answers", "Away", {"connect": "127.0.0.1:1"}),
        ):
            with self.subTest(name=name, what=what):
                world = mosaik.World({name: told} if told else CONFIG)
                self.refused(what, world.start, name)
                world.shutdown()

    def test_a_program_that_does_not_connect(self) -> None:
        config = {"Silent": {"cmd": "%(python)s -c 'import time; time.sleep(60)' %(addr)s"}}
        with mosaik.World(config, {"start_timeout": 0.3, "stop_timeout": 0.1}) as world:
            self.refused("did not connect within 0.3 seconds", world.start, "Silent")

    def test_parameters(self) -> None:
        self.refused("sim_id='B'", self.world.start, "Counter", sim_id="B")
        self.refused("time_resolution is no parameter", self.world.start, "Counter", time_resolution=1)
        text = self.refused("Counter-0: step_size is 0.5", self.world.start, "Counter", step_size=0.5)
        words = '{"cmd": "%(python)s whole.py %(addr)s step_size=1000 -- %(python)s -m mosaikrun.child world_sims:Counter ADDR"}'
        self.assertIn(words, text)
        self.refused("step_size[1] is None", self.world.start, "Counter", step_size=[1, None])
        self.refused("2^63 - 1", self.world.start, "Counter", step_size=2**63)
        self.refused("unexpected keyword argument 'size'", self.world.start, "Counter", size=1)
        self.assertEqual(self.world.sims, {})
        sim = self.world.start("Counter")
        self.refused("unexpected keyword argument 'height'", sim.Model, height=1)
        self.refused("Counter-0.Model: value is 2.5", sim.Model, value=2.5)
        self.refused("num is 0", sim.Model.create, 0)
        self.refused("num is True", sim.Model.create, True)

    def test_names(self) -> None:
        sim = self.world.start("Counter")
        self.refused('no model and no extra method "Modell"; its models: Model', getattr, sim, "Modell")
        self.refused('model "Part" of Counter-0 is not public', getattr, sim, "Part")
        self.refused("can't be called again", sim.raise_by, object())
        self.refused("no simulator has the id Counter-1", self.world.set_initial_event, "Counter-1")

    def test_connections(self) -> None:
        counter, sink = self.world.start("Counter"), self.world.start("Sink").Sink()
        one, other = counter.Model(), self.world.start("Counter").Model()
        connect = self.world.connect
        self.refused("Counter-0.e0, a Model, has no attribute way", connect, one, sink, "way")
        self.refused("Counter-1.e0, a Model, has no attribute way", connect, one, other, ("out", "way"))
        self.refused("within one simulator", connect, one, counter.Model(), ("out", "in"))
        self.refused("two of", connect, one, other, ("out", "in"), weak=True, time_shifted=True)
        self.refused("no initial_data for out", connect, one, other, ("out", "in"), time_shifted=True)
        self.refused("no delayed output", connect, one, other, ("out", "in"), initial_data={"out": 1})
        self.refused("no delayed output", connect, one, sink, "out", weak=True, initial_data={"in": 1})
        self.refused("'out'] is 1.5", connect, one, other, ("out", "in"), time_shifted=1, initial_data={"out": 1.5})
        self.refused("time_shifted is 1.5", connect, one, other, ("out", "in"), time_shifted=1.5)
        self.refused("connect has no transform", connect, one, other, ("out", "in"), transform=abs)
        connect(one, sink, ("out", "x"))
        self.refused("Sink-0.sink0 gets x from Counter-0.e0 twice", connect, one, sink, ("in", "x"))

    def test_a_class_of_a_script_needs_its_guard(self) -> None:
        with tempfile.TemporaryDirectory() as room:
            script = pathlib.Path(room, "script.py")
            code = "import mosaikrun as mosaik\nimport world_sims\nclass Own(world_sims.Sink):\n    pass\n"
            script.write_text(code + "mosaik.World({})\n", encoding="utf-8")
            words = [sys.executable, "-m", "mosaikrun.child", f"{script}:Own", "127.0.0.1:1"]
            done = subprocess.run(words, capture_output=True, text=True, check=False)
        self.assertIn('under `if __name__ == "__main__":`', done.stderr)


class Documented(unittest.TestCase):
    """The page that says what becomes of a scenario of mosaik."""

    def test_each_heading_that_an_error_names_is_there(self) -> None:
        page, named = PAGE.read_text(encoding="utf-8"), set()
        for file in (TESTS.parent / "mosaikrun").glob("*.py"):
            for node in ast.walk(ast.parse(file.read_text(encoding="utf-8"))):
                if isinstance(node, ast.Call) and getattr(node.func, "id", "") == "refused":
                    named.add(node.args[1].value)
        self.assertGreater(len(named), 4)
        self.assertEqual([heading for heading in sorted(named) if f"\n## {heading}\n" not in page], [])

    def test_each_name_of_the_table_is_there(self) -> None:
        table = PAGE.read_text(encoding="utf-8").split("## mosaik's names")[1].split("\n## ")[0]
        for owner, names in (
            (
                mosaik.World,
                "start connect connect_one connect_async_requests set_initial_event get_data group run "
                "shutdown write entity_graph",
            ),
            (mosaik.Entity, "full_id type triggered_by is_persistent"),
            (
                util,
                "connect_many_to_one connect_randomly connect_zip plot_dataflow_graph plot_execution_graph "
                "plot_execution_time plot_execution_time_per_simulator",
            ),
            (mosaik.exceptions, "ScenarioError SimulationError"),
        ):
            for name in names.split():
                self.assertTrue(hasattr(owner, name), name)
                self.assertTrue(name in table or name == "write", name)
        options = inspect.signature(mosaik.World).parameters
        told = set(re.findall(r"\w+", table))
        self.assertEqual([name for name in options if name not in told], [])
        self.assertEqual(
            [name for name in inspect.signature(mosaik.World.run).parameters if name not in told | {"self", "record"}],
            [],
        )

    def test_each_line_of_the_messages_is_explained(self) -> None:
        found = messages.document()
        self.assertGreater(len(found.rows), 50)
        for line, status, wanted in (
            ("run 5: House-0 closed its link", 5, "ended, or closed its socket"),
            ("run 1: House-0 message 12 cause 4", 5, "time-based"),
            ("connect 8: cycle A-0 B-0 C-0", 3, "weak"),
            ("limit: 2000000 entries", 7, "max_entries"),
            ("limit: A-0 message of 67108865 bytes", 7, "fewer attributes"),
            ("setup: A-0 failed: TypeError: it's wrong", 4, "failure"),
            ("outside: fleet", 6, "60 seconds"),
        ):
            told = messages.explanation(line, status)
            self.assertIsNotNone(told, line)
            self.assertIn(wanted, told.short)
        self.assertIsNone(messages.explanation("run 5: House-0 closed its link", 3))
        self.assertIsNone(messages.explanation("something else", 5))


class Program(unittest.TestCase):
    """Where the program is looked for, and `python -m mosaikrun`."""

    def test_a_program_that_is_not_there(self) -> None:
        with mock.patch.dict(os.environ, {"MOSAIKRUN": "/no/such/mosaikrun"}):
            with self.assertRaisesRegex(mosaik.ProgramMissing, "MOSAIKRUN is /no/such/mosaikrun"):
                mosaik.World(CONFIG)
        nowhere = pathlib.Path("/no/such/place")
        with mock.patch.dict(os.environ, {"MOSAIKRUN": "", "PATH": ""}), mock.patch.object(program, "PACKAGE", nowhere):
            with self.assertRaisesRegex(mosaik.ProgramMissing, "Set MOSAIKRUN to its path"):
                program.find()

    def test_on_the_path_a_script_of_this_name_is_passed_over(self) -> None:
        with tempfile.TemporaryDirectory() as room:
            script = pathlib.Path(room, "mosaikrun")
            script.write_text("#!/bin/sh\n", encoding="utf-8")
            script.chmod(0o755)
            told = {"MOSAIKRUN": "", "PATH": room}
            with mock.patch.dict(os.environ, told), mock.patch.object(program, "PACKAGE", pathlib.Path("/no/such/one")):
                with self.assertRaises(mosaik.ProgramMissing):
                    program.find()

    def test_the_module_is_the_program(self) -> None:
        words = [sys.executable, "-m", "mosaikrun", "check", "/no/such/file.toml"]
        done = subprocess.run(words, capture_output=True, text=True, check=False)
        self.assertEqual((done.returncode, done.stderr), (3, "mosaikrun: /no/such/file.toml: no such file\n"))


class Connected(Built):
    """The text that is written, and the connections of `util`."""

    def pairs(self) -> list:
        return [(told["from"], told["to"]) for told in self.world.scenario.connections]

    def test_the_text_has_all_that_was_told(self) -> None:
        sim, total = self.world.start("Program", step_size=2), self.world.start("Sum")
        many = sim.Model.create(2, value=5)
        one = total.Sum(bias=-3)
        self.world.connect(many[0], one, ("out", "in"))
        self.world.connect(many[0].children[0], one, ("out", "in"), time_shifted=3, initial_data={"out": [1, "a\x7f"]})
        self.world.connect(one, many[1], ("out", "in"), weak=True)
        self.world.connect(many[1], one, async_requests=True)
        self.world.set_initial_event("Program-0")
        self.world.set_initial_event("Program-0", time=4)
        text = self.world.scenario.text(96)
        rest = text[text.index("params = ") :]
        self.assertTrue(
            text.startswith('until = 96\nmax_entries = 20000000\n\n[[sim]]\nname = "Program"\ncommand = "env -C ')
        )
        self.assertEqual(rest, WRITTEN)
        with tempfile.TemporaryDirectory() as room:
            path = pathlib.Path(room, "my.toml")
            self.world.write(path, until=96)
            self.assertEqual(path.read_text(encoding="utf-8"), text)
            done = subprocess.run(
                [program.find(), "check", str(path)], capture_output=True, text=True, check=False
            )
        wanted = "sims 2\ngroups 2\nblocks 4\norder Program-0 Sum-0\n"
        self.assertEqual((done.returncode, done.stdout, done.stderr), (0, wanted, ""))

    def test_a_whole_group_to_one_is_one_table(self) -> None:
        many, sink = self.world.start("Counter").Model.create(3), self.world.start("Sink").Sink()
        util.connect_many_to_one(self.world, many, sink, "out")
        util.connect_many_to_one(self.world, many[:2], sink, "in")
        util.connect_many_to_one(self.world, reversed(many), sink, ("out", "back"))
        for place, entity in enumerate(many):
            self.world.connect(entity, sink, ("out", f"of {min(place, 1)}"))
        told = [(block["from"], block["attrs"]) for block in self.world.scenario.blocks()]
        wanted = [("Model_0", ["out"]), ("Counter-0.e0", ["in"]), ("Counter-0.e1", ["in"])]
        wanted += [(f"Counter-0.e{number}", [["out", "back"]]) for number in (2, 1, 0)]
        wanted += [(f"Counter-0.e{number}", [["out", f"of {min(number, 1)}"]]) for number in (0, 1, 2)]
        self.assertEqual(told, wanted)

    def test_words_of_commands(self) -> None:
        for word, wanted in (
            ("a", "a"),
            ("", "''"),
            ("a b", "'a b'"),
            ("it's", '"it\'s"' if False else "'it'\"'\"'s'"),
            ('say "x"', "'say \"x\"'"),
            ("100%", "100%%"),
            ("--at=%(addr)s", "--at=%(addr)s"),
            ("a\tb", "'a\tb'"),
        ):
            self.assertEqual(study.quoted(word), wanted)

    def test_the_same_pair_twice_is_told_once(self) -> None:
        one, sink = self.world.start("Counter").Model(), self.world.start("Sink").Sink()
        self.world.connect(one, sink, "out", "in", "out")
        self.world.connect(one, sink, "out")
        self.assertEqual([told["attrs"] for told in self.world.scenario.connections], [["out", "in"]])

    def test_connect_one(self) -> None:
        one, other = self.world.start("Counter").Model(), self.world.start("Counter").Model()
        self.world.connect_one(one, other, "out", "in", time_shifted=2, initial_data=5)
        self.world.connect_one(other, self.world.start("Sink").Sink(), "out")
        first, second = self.world.scenario.connections
        self.assertEqual((first["attrs"], first["initial_data"]), ([["out", "in"]], {"out": 5}))
        self.assertEqual((second["attrs"], second["initial_data"]), (["out"], {}))

    def test_async_requests_of_simulators(self) -> None:
        asked, asking = self.world.start("Counter"), self.world.start("Counter")
        self.refused("before both simulators have an entity", self.world.connect_async_requests, asked, asking)
        asked.Model(), asking.Model()
        self.world.connect_async_requests(asked, asking)
        self.assertEqual(self.pairs(), [("Counter-0.e0", "Counter-1.e0")])

    def test_sets(self) -> None:
        many, others = self.world.start("Counter").Model.create(3), self.world.start("Counter").Model.create(3)
        util.connect_zip(self.world, many, others, ("out", "in"))
        util.connect_one_to_one(self.world, others[:1], many[:1], ("out", "in"), weak=True)
        self.refused("3 entities can't be connected to 2", util.connect_zip, self.world, many, others[:2], "out")
        wanted = [(f"Counter-0.e{n}", f"Counter-1.e{n}") for n in range(3)] + [("Counter-1.e0", "Counter-0.e0")]
        self.assertEqual(self.pairs(), wanted)
        sink = self.world.start("Sink").Sink()
        util.connect_many_to_one(self.world, iter(many), sink, "out", ("in", "x"))
        self.assertEqual(self.pairs()[4:], [(f"Counter-0.e{n}", "Sink-0.sink0") for n in range(3)])

    def drawn(self, **how: Any) -> list:
        with mosaik.World(CONFIG) as world:
            many, others = world.start("Counter").Model.create(7), world.start("Counter").Model.create(3)
            chosen = util.connect_randomly(world, many, others, ("out", "in"), **how)
            told = [told["to"] for told in world.scenario.connections]
            self.assertEqual({entity.full_id for entity in chosen}, set(told))
            self.assertEqual([told["from"] for told in world.scenario.connections], [one.full_id for one in many])
        return told

    def test_by_chance(self) -> None:
        even = self.drawn(seed=1)
        self.assertEqual(sorted(even.count(one) for one in set(even)), [2, 2, 3])
        self.assertEqual(even, self.drawn(seed=1))
        self.assertGreater(len({tuple(self.drawn(seed=seed)) for seed in range(6)}), 1)
        random.seed(5)
        first = self.drawn()
        random.seed(5)
        self.assertEqual(first, self.drawn())
        some = self.drawn(evenly=False, max_connects=3, seed=2)
        self.assertLessEqual(max(some.count(one) for one in some), 3)
        self.refused("don't fit", self.drawn, evenly=False, max_connects=2)

    def test_a_child_finds_the_folder_of_the_tests(self) -> None:
        self.assertIn(str(TESTS), search_path().split(os.pathsep))
        self.assertNotIn(os.path.dirname(os.__file__), search_path().split(os.pathsep))


WRITTEN = """params = { step_size = 2 }
initial_events = [0, 4]

[[sim]]
name = "Sum"
local = "sum"

[[entities]]
id = "Model_0"
sim = "Program-0"
model = "Model"
num = 2
params = { value = 5 }

[[entities]]
id = "Sum_1"
sim = "Sum-0"
model = "Sum"
params = { bias = -3 }

[[connect]]
from = "Program-0.e0"
to = "Sum-0.0"
attrs = [["out", "in"]]

[[connect]]
from = "Program-0.e0_part"
to = "Sum-0.0"
attrs = [["out", "in"]]
time_shifted = 3
initial_data = { out = [1, "a\\u007f"] }

[[connect]]
from = "Sum-0.0"
to = "Program-0.e1"
attrs = [["out", "in"]]
weak = true

[[connect]]
from = "Program-0.e1"
to = "Sum-0.0"
async_requests = true
"""

if __name__ == "__main__":
    unittest.main()
