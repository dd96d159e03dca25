"""Tests of the plots and of step times; pictures are made where matplotlib and networkx are there."""
from __future__ import annotations

import os
import pathlib
import subprocess
import sys
import tempfile
import unittest
from typing import Any, List
from unittest import mock

ROOT = pathlib.Path(__file__).resolve().parents[2]
sys.path.insert(0, str(ROOT / "python"))
os.environ.setdefault("MPLBACKEND", "agg")

from mosaikrun import libraries, plots, steptimes  # noqa: E402
from mosaikrun.results import Results  # noqa: E402

NETWORKX = libraries.found("networkx")
DRAWS = NETWORKX is not None and libraries.found("matplotlib") is not None
# a loop of rounds, values that come later, and an initial value
RECORD = """mosaikrun 2
run [3,100,2000000]
sim ["A-0","hybrid",3,0,[0]]
sim ["B-0","event-based",3,1,[]]
sim ["C-0","time-based",3,2,[]]
model [0,"M",["p","q"],false]
model [1,"N",["x","y"],false]
model [2,"O",["in","out"],false]
entity [0,"e",[]]
entity [1,"f",[]]
entity [2,"g",[]]
conn [0,"p",1,"x","plain",false,true,[]]
conn [1,"y",0,"q","weak",false,true,[]]
conn [0,"p",2,"in",["shift",2],false,false,[]]
conn [2,"out",2,"in",["shift",1],true,false,[9]]
async [1,2]
ask [0,0,0,0]
got [0,[1,3,null]]
got [0,[1,4,{"e":{"p":1}}]]
ask [1,0,0,0]
got [1,[1,3,null]]
got [1,[1,4,{"f":{"y":2}}]]
ask [0,0,1,0]
got [0,[1,5,null]]
got [0,[1,6,{"e":{"p":3}}]]
ask [1,0,1,0]
got [1,[1,5,null]]
got [1,[1,6,{}]]
ask [2,0,0,3]
got [2,[1,3,2]]
got [2,[1,4,{"g":{"out":5}}]]
ask [2,2,0,3]
got [2,[1,5,3]]
got [2,[1,6,{"g":{"out":6}}]]
end 18
"""
REPORT = """sim A-0
step 0:0 {}
step 0:1 {"e":{"q":{"B-0.f":2}}}
sim B-0
step 0:0 {"f":{"x":{"A-0.e":1}}}
step 0:1 {"f":{"x":{"A-0.e":3}}}
sim C-0
step 0:0 {"g":{"in":{"C-0.g":9}}}
step 2:0 {"g":{"in":{"A-0.e":3,"B-0.f":4,"C-0.g":5}}}
end 6
"""
EDGES = {
    (("A-0", 0, 0), ("B-0", 0, 0), "plain"),
    (("B-0", 0, 0), ("A-0", 0, 1), "weak"),
    (("A-0", 0, 1), ("B-0", 0, 1), "plain"),
    (("A-0", 0, 1), ("C-0", 2, 0), "shift"),
    (("C-0", 0, 0), ("C-0", 2, 0), "shift"),
    (("B-0", 0, 1), ("C-0", 2, 0), "async"),
}


class Simulator:
    """A simulator whose steps are noted."""

    def init(self, sid: str, **_: Any) -> str:
        """Its id."""
        return sid

    def step(self, time: int, _: Any, __: int) -> int:
        """The next time; time 5 fails."""
        if time == 5:
            raise RuntimeError("no")
        return time + 1


class AskingSimulator(Simulator):
    """A simulator whose steps make requests."""

    def step(self, time: int, _: Any, __: int) -> Any:
        """The next time, after a request was answered."""
        answer = yield "request"
        return time + answer


class OfPlots(unittest.TestCase):
    """What is drawn of a record."""

    def setUp(self) -> None:
        room = tempfile.TemporaryDirectory()
        self.addCleanup(room.cleanup)
        self.folder = pathlib.Path(room.name)
        self.record = self.folder / "a.record"
        self.record.write_text(RECORD, encoding="utf-8")
        self.results = Results(self.record, REPORT)

    def note(self) -> None:
        """Notes some step times."""
        folder = steptimes.folder_of(self.record)
        folder.mkdir()
        (folder / "A-0").write_text("0 10.0 10.5\n0 11.0 11.25\n1 1", encoding="utf-8")
        (folder / "C-0").write_text("0 10.0 10.5\n", encoding="utf-8")

    @unittest.skipIf(NETWORKX is None, "networkx isn't installed")
    def test_graphs(self) -> None:
        """The graphs have the connections, and from which step each input came."""
        graph = plots.execution_graph(self.results)
        self.assertEqual({(*edge,) for edge in graph.edges(data="kind")}, EDGES)
        self.assertEqual(graph.number_of_nodes(), 6)
        edges = {
            (source, target, edge["kind"], edge["delay"]): edge["attributes"]
            for source, target, edge in plots.dataflow_graph(self.record).edges(data=True)
        }
        self.assertEqual(
            edges,
            {
                ("A-0", "B-0", "plain", 0): [("p", "x")],
                ("B-0", "A-0", "weak", 0): [("y", "q")],
                ("A-0", "C-0", "shift", 2): [("p", "in")],
                ("C-0", "C-0", "shift", 1): [("out", "in")],
                ("B-0", "C-0", "async", 0): [],
            },
        )
        self.assertEqual({node.time for node in plots.of_slice(graph, (-1, None))[1]}, {2})

    @unittest.skipUnless(DRAWS, "matplotlib or networkx isn't installed")
    def test_pictures(self) -> None:
        """Each plot is saved in its folder, or by the name of an HDF5 file, in the format that is asked for."""
        self.note()
        options: Any = {"folder": str(self.folder / "new" / "figures"), "dpi": 40, "show_plot": False}
        made: List[Any] = [
            plots.plot_dataflow_graph(self.results, **options),
            plots.plot_execution_graph(self.results, title="ours", **options),
            plots.plot_execution_graph_st(self.results, slice=(0, 1), **options),
            plots.plot_execution_time(self.results, **options),
            plots.plot_execution_time_per_simulator(self.results, **options),
            *plots.plot_execution_time_per_simulator(self.results, plot_per_simulator=True, **options),
        ]
        self.assertEqual(len(set(made)), 7)
        for path in made:
            self.assertEqual(path.read_bytes()[:4], b"\x89PNG", path)
        path = plots.plot_dataflow_graph(self.record, hdf5path=str(self.folder / "out.hdf5"), format="svg", dpi=40)
        self.assertEqual(path, self.folder / "out_dataflowGraph.svg")
        self.assertIn(b"<svg", path.read_bytes())
        self.assertIsNone(plots.plot_execution_graph(self.results, save_plot=False, **options))

    @unittest.skipUnless(DRAWS, "matplotlib or networkx isn't installed")
    def test_many(self) -> None:
        """Many arrows are drawn as lines, and the largest picture has a bound."""
        with mock.patch.multiple(plots, MOST_ARROWS=2, MOST_LABELS=0, MOST_PIXELS=500):
            for draw in (plots.plot_execution_graph, plots.plot_dataflow_graph):
                path = draw(self.results, folder=str(self.folder), dpi=600)
                head = path.read_bytes()[16:24]
                self.assertLess(max(int.from_bytes(head[:4], "big"), int.from_bytes(head[4:], "big")), 700)

    def test_missing(self) -> None:
        """It is said which library is missing, that a world hasn't run, and that there are no step times."""
        for name, plot in (
            ("networkx", plots.execution_graph),
            ("networkx", plots.dataflow_graph),
            ("matplotlib", plots.plot_dataflow_graph),
            ("matplotlib", plots.plot_execution_time),
        ):
            hidden = {module: None for module in (name, f"{name}.pyplot")}
            with mock.patch.dict(sys.modules, hidden):
                with self.assertRaisesRegex(libraries.LibraryMissing, f"apt install python3-{name}"):
                    plot(self.results)
        with self.assertRaisesRegex(ValueError, "after its run"):
            plots.results_of(mock.Mock(results=None, record=None))
        self.assertIs(plots.results_of(mock.Mock(results=self.results)), self.results)
        self.assertEqual(plots.results_of(mock.Mock(results=None, record=self.record)).path, self.record)
        with self.assertRaisesRegex(ValueError, "debug=True"):
            plots.times_of(self.results, None)


class OfStepTimes(unittest.TestCase):
    """What is noted of steps."""

    def test_noted(self) -> None:
        """Each step is noted with its times, also one that fails, and one that makes requests."""
        with tempfile.TemporaryDirectory() as room:
            record = pathlib.Path(room) / "a.record"
            with steptimes.asked_for(record, True):
                plain, asking = steptimes.noted(Simulator()), steptimes.noted(AskingSimulator())
            self.assertEqual((plain.init("A-0", step=1), asking.init("B-0")), ("A-0", "B-0"))
            self.assertEqual(plain.step(3, {}, 9), 4)
            self.assertRaises(RuntimeError, plain.step, 5, {}, 9)
            steps = asking.step(7, {}, 9)
            self.assertEqual(next(steps), "request")
            with self.assertRaises(StopIteration) as end:
                steps.send(2)
            self.assertEqual(end.exception.value, 9)
            found = steptimes.read(steptimes.folder_of(record))
            self.assertEqual(
                {name: [step.time for step in steps] for name, steps in found.items()}, {"A-0": [3, 5], "B-0": [7]}
            )
            self.assertTrue(all(0 <= step.seconds < 60 for steps in found.values() for step in steps))
            # another run of this record that isn't asked for notes has none of the older
            with steptimes.asked_for(record, False):
                self.assertNotIn(steptimes.VARIABLE, os.environ)
            self.assertEqual(steptimes.read(steptimes.folder_of(record)), {})
            simulator = Simulator()
            self.assertIs(steptimes.noted(simulator), simulator)

    def test_a_world(self) -> None:
        """A world with `debug=True` has the step times of its classes."""
        if "MOSAIKRUN" not in os.environ:
            self.skipTest("the program isn't named")
        script = f"""
import sys
import mosaikrun as mosaik
import mosaik_api_v3
META = {{"type": "time-based", "models": {{"M": {{"public": True, "params": [], "attrs": ["out"]}}}}}}
class Sim(mosaik_api_v3.Simulator):
    def __init__(self):
        super().__init__(META)
    def create(self, num, model):
        return [{{"eid": str(number), "type": model}} for number in range(num)]
    def step(self, time, inputs, max_advance):
        return time + 1
    def get_data(self, outputs):
        return {{}}
if __name__ == "__main__":
    world = mosaik.World({{"Sim": {{"python": "__main__:Sim"}}}}, debug=True)
    world.start("Sim").M()
    world.run(until=3)
    print([step.time for step in world.results.times["Sim-0"]])
"""
        with tempfile.TemporaryDirectory() as room:
            (pathlib.Path(room) / "study.py").write_text(script, encoding="utf-8")
            environment = {**os.environ, "PYTHONPATH": str(ROOT / "python")}
            ran = subprocess.run(
                [sys.executable, "study.py"], cwd=room, env=environment, capture_output=True, text=True, check=False
            )
        self.assertEqual(ran.stdout.splitlines()[-1:], ["[0, 1, 2]"], ran.stderr)


if __name__ == "__main__":
    unittest.main()
