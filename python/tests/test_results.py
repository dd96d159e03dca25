"""Tests of the results of a run, with pandas where it is there and as if it weren't."""
from __future__ import annotations

import csv
import pathlib
import sys
import tempfile
import unittest
from typing import Any
from unittest import mock

ROOT = pathlib.Path(__file__).resolve().parents[2]
sys.path.insert(0, str(ROOT / "python"))

from mosaikrun import libraries, program  # noqa: E402
from mosaikrun.errors import RunError  # noqa: E402
from mosaikrun.results import Results  # noqa: E402

PANDAS = libraries.found("pandas")
RECORD = """mosaikrun 2
run [3,100,2000000]
sim ["A-0","hybrid",3,0,[]]
sim ["B-0","time-based",3,1,[]]
model [0,"M",["p","q"],false]
model [1,"N",["in"],false]
entity [0,"e",[]]
entity [0,"f",[]]
entity [1,"g",[]]
conn [0,"p",2,"in","plain",true,false,[]]
conn [1,"p",2,"in","plain",true,false,[]]
ask [0,0,0,3]
got [0,[1,3,1]]
got [0,[1,4,{"e":{"p":5},"f":{"p":true}}]]
ask [0,0,1,3]
got [0,[1,5,1]]
got [0,[1,6,{"e":{"p":6,"q":1},"f":{"p":0.5}}]]
ask [1,0,0,3]
got [1,[1,3,null]]
ask [0,1,0,3]
got [0,[1,7,3]]
got [0,[1,8,{"e":{"p":7},"f":{"p":[1]},"time":2}]]
end 11
"""
REPORT = """sim A-0
step 0:0 {}
step 0:1 {}
step 1:0 {}
sim B-0
step 0:0 {"g":{"in":{"A-0.e":6,"A-0.f":true}}}
end 4
"""
OUTPUTS = [
    (0, 0, "A-0", "A-0.e", "p", 5),
    (0, 0, "A-0", "A-0.f", "p", True),
    (0, 1, "A-0", "A-0.e", "p", 6),
    (2, 0, "A-0", "A-0.e", "p", 7),
    (2, 0, "A-0", "A-0.f", "p", [1]),
]
INPUTS = [(0, 0, "B-0", "B-0.g", "in", "A-0.e", 6), (0, 0, "B-0", "B-0.g", "in", "A-0.f", True)]
STEPS = [(0, 0, "A-0", 3, 1), (0, 1, "A-0", 3, 1), (0, 0, "B-0", 3, None), (1, 0, "A-0", 3, 3)]


def without(name: str) -> Any:
    """As if a library weren't installed."""
    return mock.patch.dict(sys.modules, {name: None})


class OfResults(unittest.TestCase):
    """The tables of a record."""

    def setUp(self) -> None:
        room = tempfile.TemporaryDirectory()
        self.addCleanup(room.cleanup)
        self.folder = pathlib.Path(room.name)
        (self.folder / "a.record").write_text(RECORD, encoding="utf-8")
        self.results = Results(self.folder / "a.record", REPORT)

    def test_rows(self) -> None:
        """Each table has its rows; a number that wasn't whole has none."""
        self.assertEqual(list(self.results.rows("outputs")), OUTPUTS)
        self.assertEqual(list(self.results.rows()), INPUTS)
        self.assertEqual(list(self.results.rows("steps")), STEPS)
        self.assertEqual(
            (self.results.simulators, self.results.entities), (["A-0", "B-0"], ["A-0.e", "A-0.f", "B-0.g"])
        )
        self.assertTrue(self.results.is_whole)

    def test_selection(self) -> None:
        """Rows are selected by a name, by a list of names, and by a part of a name."""
        self.assertEqual(list(self.results.rows("outputs", entity="A-0.f")), [OUTPUTS[1], OUTPUTS[4]])
        self.assertEqual(list(self.results.rows("outputs", entity=["A-0.f", "A-0.e"], attribute="p")), OUTPUTS)
        self.assertEqual(list(self.results.rows("outputs", entity="*.f", simulator="A*")), [OUTPUTS[1], OUTPUTS[4]])
        self.assertEqual(list(self.results.rows("outputs", attribute=[])), [])
        self.assertEqual(list(self.results.rows(source="A-0.e")), INPUTS[:1])
        for selection in ({"entity": "A-0.h"}, {"simulator": "A"}, {"attribute": "r"}, {"source": "A-0"}):
            with self.assertRaisesRegex(KeyError, "the record has no"):
                list(self.results.rows("inputs", **selection))
        with self.assertRaisesRegex(TypeError, "can't be selected by source"):
            list(self.results.rows("outputs", source="A-0.e"))
        with self.assertRaisesRegex(ValueError, "there is no table who"):
            list(self.results.rows("who"))

    def test_without_pandas(self) -> None:
        """Without pandas the tables are lists of dicts, and series lists of pairs."""
        with without("pandas"):
            self.assertEqual(
                self.results.inputs()[0],
                {
                    "time": 0,
                    "tier": 0,
                    "simulator": "B-0",
                    "entity": "B-0.g",
                    "attribute": "in",
                    "source": "A-0.e",
                    "value": 6,
                },
            )
            self.assertEqual(self.results.steps(simulator="B-0")[0]["next"], None)
            self.assertEqual(self.results.series("A-0.e", "p"), [(0, 6), (2, 7)])
            self.assertEqual(self.results.series("A-0.e", "p", tiers=True), [((0, 0), 5), ((0, 1), 6), ((2, 0), 7)])
            self.assertEqual(self.results.series("B-0.g", "in", source="A-0.f"), [(0, True)])
            self.assertEqual(self.results.series("B-0.g", "in", source="B-0.g"), [])
            self.assertEqual(
                self.results.wide(),
                [{"time": 0, "A-0.e.p": 6, "A-0.f.p": True}, {"time": 2, "A-0.e.p": 7, "A-0.f.p": [1]}],
            )
            self.assertEqual(self.results.wide("inputs"), [{"time": 0, "B-0.g.in A-0.e": 6, "B-0.g.in A-0.f": True}])
            with self.assertRaisesRegex(libraries.LibraryMissing, "pip install pandas"):
                self.results.to_parquet(self.folder / "a.parquet")
        with self.assertRaisesRegex(ValueError, "from 2 sources, A-0.e, A-0.f: name one"):
            self.results.series("B-0.g", "in")
        self.assertRaises(KeyError, self.results.series, "B-0.h", "in")

    @unittest.skipIf(PANDAS is None, "pandas isn't installed")
    def test_with_pandas(self) -> None:
        """With pandas the tables are DataFrames with the same rows."""
        for table, rows in (("inputs", INPUTS), ("outputs", OUTPUTS)):
            self.assertEqual(list(self.results.frame(table).itertuples(index=False, name=None)), rows)
        steps = self.results.steps()
        self.assertEqual(list(steps["time"]), [0, 0, 0, 1])
        self.assertEqual(list(steps["next"].isna()), [False, False, True, False])
        self.assertEqual(list(self.results.inputs(source="A-0.e")["value"]), [6])
        series = self.results.series("A-0.e", "p")
        self.assertEqual((series.to_dict(), series.index.name, series.name), ({0: 6, 2: 7}, "time", "A-0.e.p"))
        series = self.results.series("A-0.e", "p", tiers=True)
        self.assertEqual(
            (series.to_dict(), list(series.index.names)), ({(0, 0): 5, (0, 1): 6, (2, 0): 7}, ["time", "tier"])
        )
        wide = self.results.wide(entity="A-0.e")
        self.assertEqual((list(wide.columns), wide["A-0.e.p"].to_dict()), (["A-0.e.p"], {0: 6, 2: 7}))
        self.assertEqual(self.results.outputs(entity="B-0.g").shape, (0, 6))
        self.assertEqual(self.results.series("B-0.g", "in", source="B-0.g").shape, (0,))

    def test_csv(self) -> None:
        """A table is written as CSV; a value that is no number and no text stands as JSON."""
        self.results.to_csv(self.folder / "a.csv", "outputs", entity="A-0.f")
        with open(self.folder / "a.csv", encoding="utf-8", newline="") as file:
            self.assertEqual(
                list(csv.reader(file))[1:],
                [["0", "0", "A-0", "A-0.f", "p", "true"], ["2", "0", "A-0", "A-0.f", "p", "[1]"]],
            )
        self.results.to_csv(self.folder / "a.csv", "steps")
        self.assertEqual(
            (self.folder / "a.csv").read_text(encoding="utf-8"),
            "time,tier,simulator,max_advance,next\n0,0,A-0,3,1\n0,1,A-0,3,1\n0,0,B-0,3,\n1,0,A-0,3,3\n",
        )

    @unittest.skipIf(PANDAS is None, "pandas isn't installed")
    def test_parquet(self) -> None:
        """A table is written as Parquet, numbers as numbers; without pyarrow it is said what to install."""
        if libraries.found("pyarrow") is None:
            with self.assertRaisesRegex(libraries.LibraryMissing, "pip install pyarrow"):
                self.results.to_parquet(self.folder / "a.parquet")
            return
        self.results.to_parquet(self.folder / "a.parquet", "outputs", entity="A-0.e")
        self.assertEqual(list(PANDAS.read_parquet(self.folder / "a.parquet")["value"]), [5, 6, 7])
        self.results.to_parquet(self.folder / "a.parquet", "outputs")
        self.assertEqual(list(PANDAS.read_parquet(self.folder / "a.parquet")["value"]), ["5", "true", "6", "7", "[1]"])

    def test_cut(self) -> None:
        """Of a record that was cut the outputs and steps are there, and of the inputs it is said why they aren't."""
        (self.folder / "cut.record").write_text(RECORD[:-10], encoding="utf-8")
        results = Results.load(self.folder / "cut.record")
        self.assertFalse(results.is_whole)
        self.assertEqual(list(results.rows("outputs")), OUTPUTS[:3])
        try:
            program.find()
        except program.ProgramMissing:
            self.skipTest("the program isn't there")
        self.assertRaises(RunError, results.inputs)

    def test_changed(self) -> None:
        """A record that a later run put aside is found, and another one of its name isn't taken for it."""
        path = self.folder / "a.record"
        results = Results(path)
        self.assertEqual(results._file(), path)
        path.rename(self.folder / "a.record.old")
        path.write_text(RECORD.replace('"p":5', '"p":8'), encoding="utf-8")
        self.assertEqual(results._file(), self.folder / "a.record.old")
        self.assertEqual(results.times, {})
        self.assertEqual(list(results.rows("outputs")), OUTPUTS)
        (self.folder / "a.record.old").unlink()
        with self.assertRaisesRegex(FileNotFoundError, "was changed or taken away"):
            list(results.rows("inputs"))


class OfTheProgram(unittest.TestCase):
    """What the program computes of a record."""

    def setUp(self) -> None:
        try:
            program.find()
        except program.ProgramMissing:
            self.skipTest("the program isn't there")

    def test_first_version(self) -> None:
        """A record of version 1 has its times by the program."""
        results = Results.load(ROOT / "examples" / "counter-to-sum.record")
        self.assertEqual([row[0] for row in results.rows("outputs")], list(range(7)))
        self.assertEqual(len(list(results.rows("steps"))), 10)
        self.assertEqual([row[0] for row in results.rows("inputs")], [0, 3, 6])
        self.assertTrue(results.report.is_whole)


if __name__ == "__main__":
    unittest.main()
