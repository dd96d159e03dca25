"""Tests of reading records and reports."""
from __future__ import annotations

import io
import pathlib
import sys
import tempfile
import unittest

ROOT = pathlib.Path(__file__).resolve().parents[2]
sys.path.insert(0, str(ROOT / "python"))

from mosaikrun import record as records  # noqa: E402

PLAN = """mosaikrun 2
run [9,100,2000000]
sim ["A-0","hybrid",3,0,[4]]
sim ["B-0","event-based",3,1,[]]
model [0,"M",["p","q"],false]
model [1,"N",["in"],true]
entity [0,"e",[1]]
entity [1,"f",[0]]
conn [0,"p",1,"in","plain",true,true,[]]
conn [1,"x",0,"y",["shift",3],true,true,[7]]
async [0,1]
"""
ENTRIES = """ask [0,1,2,9]
got [0,[0,8,["get_progress",[],{}]]]
got [0,[1,3,4]]
got [0,[1,4,{"e":{"p":5,"q":0.5},"time":3}]]
ask [1,3,0,9]
got [1,[2,3,"no"]]
"""
WHOLE = PLAN + ENTRIES + "end 6\n"
REPORT = """sim A-0
step 0:1 {"e":{"y":{"B-0.f":"x","B-0.g":null}}}
answer 3 {"B-0.f":{}}
sim B-0
refuse 4 1
step 2:0 {}
end 2
"""


def read(text: bytes) -> records.Record:
    """Reads a record of this text."""
    return records.read_record(io.BytesIO(text))


class OfRecords(unittest.TestCase):
    """What is read of a record."""

    def test_many_lines_at_a_time(self) -> None:
        """Lines that are read together give what they give one by one, also where some can't be read."""
        middle = ENTRIES.splitlines(keepends=True)[2:4] * 4000
        for spoiled in ("", "got [0,[1,3,4]\n", "got [0,\n", '"\n', "got [0,[1,5,6]],1,[0,[1,5,6]]\n", "sim 5\n", "\n", "got [9,[1,3,4]]\n"):
            with self.subTest(spoiled=spoiled):
                lines = [*middle[:3000], *spoiled.splitlines(keepends=True), *middle[3000:]]
                text = PLAN + ENTRIES.partition("got")[0] + "".join(lines) + f"end {len(middle) + 1}\n"
                self.assertGreater(len(text), 2 * records.BLOCK)
                alone = records.RecordReader(text.encode().splitlines(keepends=True))
                entries, record = list(alone), read(text.encode())
                self.assertEqual(record.entries, entries)
                self.assertEqual(len(entries), len(middle) + 1)
                self.assertEqual(record.missing, alone.missing + alone.ending())
                self.assertEqual(bool(record.missing), bool(spoiled))

    def test_plan(self) -> None:
        """The plan has its parts, with their names."""
        record = read(WHOLE.encode())
        self.assertTrue(record.is_whole)
        self.assertEqual((record.version, record.until, record.max_loop_iterations), (2, 9, 100))
        first, second = record.simulators
        self.assertEqual((first.id, first.type, first.rank, first.initial_events), ("A-0", "hybrid", 0, [4]))
        self.assertEqual([model.attributes for model in first.models], [["p", "q"]])
        self.assertTrue(second.models[0].any_inputs)
        self.assertEqual(record.entity("B-0.f").model, "N")
        self.assertEqual(record.related(record.entity("A-0.e")), [record.entity("B-0.f")])
        plain, shifted = record.connections
        self.assertEqual((plain.kind, plain.delay, plain.source.full_id), ("plain", 0, "A-0.e"))
        self.assertEqual((shifted.kind, shifted.delay, shifted.initial), ("shift", 3, [7]))
        self.assertEqual(record.asynchronous, [("A-0", "B-0")])
        self.assertRaises(KeyError, record.simulator, "C-0")
        self.assertRaises(KeyError, record.entity, "A-0.f")

    def test_entries(self) -> None:
        """Each message is tied to its step, and says what it answers."""
        record = read(WHOLE.encode())
        step = records.Ask("A-0", 1, 2, 9)
        asked, request, following, data = record.entries[:4]
        self.assertEqual(asked, step)
        self.assertEqual(request, ("A-0", "request", 8, ["get_progress", [], {}], "", step))
        self.assertEqual(following, ("A-0", "reply", 3, 4, "step", step))
        self.assertEqual(list(data.outputs()), [("e", "p", 5), ("e", "q", 0.5)])
        self.assertEqual(data.output_time(), (3, 0))
        self.assertEqual(record.messages[-1].kind, "failure")
        self.assertEqual(len(record.asks), 2)

    def test_first_version(self) -> None:
        """A record of version 1 has no steps, and its messages are told apart as well."""
        record = records.read_record(ROOT / "examples" / "counter-to-sum.record")
        self.assertTrue(record.is_whole)
        self.assertEqual((record.version, record.asks), (1, []))
        answers = [message.answers for message in record.messages]
        self.assertEqual(answers[:5], ["step", "data", "step", "data", "step"])
        self.assertEqual(record.messages[1].output_time(), (None, None))

    def test_cut(self) -> None:
        """A record that was cut after any byte has a beginning of the entries, and isn't whole."""
        text = (WHOLE.replace('"no"', '"nö"')).encode()
        all_of_it = read(text).entries
        self.assertEqual(len(all_of_it), 6)
        for length in range(len("mosaikrun 2\n"), len(text)):
            record = read(text[:length])
            self.assertFalse(record.is_whole, length)
            self.assertEqual(record.entries, all_of_it[: len(record.entries)])

    def test_damaged(self) -> None:
        """A damaged line is left out and named; a file that is no record is refused."""
        for line in (
            "got [2,[1,3,1]]",
            "got [-1,[1,3,1]]",
            "got [0,[7,3,1]]",
            "got [0,[1,3]]",
            "ask [0,1]",
            "ask 5",
            "got [0,[1,3,1]] 4",
            "sim [5]",
            "conn [0]",
            "who [1]",
            "got",
            "\x80",
            "async [0,2]",
        ):
            record = read((PLAN + line + "\nend 0\n").encode("latin-1"))
            self.assertIn("line 12 is cut, or is none of a record: left out", record.missing, line)
            self.assertEqual(record.entries, [], line)
        record = read((PLAN + ENTRIES + "end 7\n").encode())
        self.assertEqual(record.missing, ["the end line says 7 messages and steps, and there are 6"])
        for text in (b"", b"mosaikrun 3\n", b"mosaikrun 2", b"mosaikrun 2\r\n", b"\xff\n"):
            self.assertRaises(records.NoRecord, read, text)
        self.assertRaises(OSError, records.read_record, "/nowhere/a.record")
        with tempfile.TemporaryDirectory() as folder:
            path = pathlib.Path(folder) / "a.record"
            path.write_text(WHOLE, encoding="utf-8")
            self.assertEqual(records.read_record(path), records.read_record(str(path)))


class OfReports(unittest.TestCase):
    """What is read of a report."""

    def test_report(self) -> None:
        """A report has a part for each simulator, with its items in order."""
        report = records.read_report(REPORT)
        self.assertTrue(report.is_whole)
        self.assertEqual([part.simulator for part in report.parts], ["A-0", "B-0"])
        self.assertEqual(report.part("A-0").items[1], records.Answer(3, {"B-0.f": {}}))
        self.assertEqual(report.part("B-0").items, [records.Refusal(4, 1), records.Step(2, 0, {})])
        self.assertEqual(list(report.inputs())[0], ("A-0", 0, 1, "e", "y", "B-0.f", "x"))
        self.assertEqual(report.end, 2)
        self.assertRaises(KeyError, report.part, "C-0")

    def test_sources(self) -> None:
        """A report is read from a text, from bytes, from an open file and from a file's name."""
        report = records.read_report(REPORT)
        with tempfile.TemporaryDirectory() as folder:
            path = pathlib.Path(folder) / "a.report"
            path.write_text(REPORT, encoding="utf-8")
            sources = [REPORT.encode(), io.BytesIO(REPORT.encode()), path, str(path)]
            self.assertEqual([records.read_report(source) for source in sources], [report] * 4)
        self.assertRaises(OSError, records.read_report, "nowhere.report")

    def test_cut(self) -> None:
        """A report that was cut after any byte has a beginning of the inputs, and isn't whole."""
        inputs = list(records.read_report(REPORT).inputs())
        for length in range(len(REPORT)):
            report = records.read_report(REPORT[:length].encode())
            self.assertFalse(report.is_whole, length)
            self.assertEqual(list(report.inputs()), inputs[: len(list(report.inputs()))])

    def test_damaged(self) -> None:
        """A damaged line is left out and named."""
        for line in (
            "step 1 {}",
            "step 1:0 {",
            'step 1:0 {"e":5}',
            'step 1:0 {"e":{"a":5}}',
            "refuse 1",
            "word 1",
            "answer x 1",
            "\x80",
        ):
            report = records.read_report(f"sim A-0\n{line}\nend 0\n".encode("latin-1"))
            self.assertEqual(report.missing, ["line 2 is cut, or is none of a report: left out"], line)
        self.assertEqual(len(records.read_report("step 1:0 {}\nend 0\n").missing), 1)
        self.assertEqual(len(records.read_report("end 0\nsim A-0\n").missing), 1)


if __name__ == "__main__":
    unittest.main()
