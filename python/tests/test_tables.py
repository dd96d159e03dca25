"""Tests of the command mosaikrun-csv; checks/ tries the same tables on records that the program makes."""
from __future__ import annotations

import contextlib
import io
import pathlib
import subprocess
import sys
import tempfile
import unittest
from typing import List, Tuple

ROOT = pathlib.Path(__file__).resolve().parents[2]
sys.path.insert(0, str(ROOT / "python"))

from mosaikrun import tables  # noqa: E402

RECORD = """mosaikrun 2
run [9,100,2000000]
sim ["A-0","time-based",3,0,[]]
sim ["B-0","time-based",3,1,[]]
model [0,"M",["p"],false]
model [1,"N",["in"],false]
entity [0,"e",[]]
entity [1,"f",[]]
conn [0,"p",1,"in","plain",true,false,[]]
ask [0,0,0,9]
got [0,[1,3,5]]
got [0,[1,4,{"e":{"p":"a,b"}}]]
ask [1,0,0,9]
got [1,[1,3,9]]
end 5
"""
REPORT = """sim A-0
step 0:0 {}
sim B-0
step 0:0 {"f":{"in":{"A-0.e":"a,b"}}}
end 2
"""
VALUES = 'time,round,entity,attribute,value\n0,0,A-0.e,p,"a,b"\n'
STEPS = "time,round,simulator,max_advance,next\n0,0,A-0,9,5\n0,0,B-0,9,9\n"
INPUTS = 'time,round,target,input,source,value\n0,0,B-0.f,in,A-0.e,"a,b"\n'


def called(words: List[str], text: str = "") -> Tuple[int, str, str]:
    """Calls the command, as a program, and gives status, output and errors."""
    call = [sys.executable, "-m", "mosaikrun.tables", *words]
    ran = subprocess.run(call, input=text, cwd=ROOT / "python", capture_output=True, text=True, check=False)
    return ran.returncode, ran.stdout, ran.stderr


class OfTables(unittest.TestCase):
    """What the command prints."""

    def setUp(self) -> None:
        room = tempfile.TemporaryDirectory()
        self.addCleanup(room.cleanup)
        self.folder = pathlib.Path(room.name)

    def file(self, text: str) -> str:
        """A file of this text."""
        path = self.folder / f"{len(list(self.folder.iterdir()))}.txt"
        path.write_text(text, encoding="utf-8")
        return str(path)

    def test_words(self) -> None:
        """It tells a record from a report, reads a file or standard input, and says which words it knows."""
        self.assertEqual(called([self.file(RECORD)]), (0, VALUES, ""))
        self.assertEqual(called([], RECORD), (0, VALUES, ""))
        self.assertEqual(called([self.file(REPORT)]), (0, INPUTS, ""))
        self.assertEqual(called(["--steps", self.file(RECORD)]), (0, STEPS, ""))
        for words in (["a", "b"], ["--who", "a"], ["--inputs"], ["--steps", "--inputs", "a"]):
            status, out, errors = called(words)
            self.assertEqual((status, out), (2, ""))
            self.assertIn("mosaikrun-csv [FILE]", errors)
        self.assertEqual(called(["--help"])[0::2], (0, ""))

    def test_missing(self) -> None:
        """What is missing is said, and the status is 1; it is 2 where there is no record."""
        cut = "mosaikrun-csv: there is no end line: the record is cut\n"
        self.assertEqual(
            called([self.file(RECORD[:-3])])[1:],
            (VALUES, f"mosaikrun-csv: line 15 is cut, or is none of a record: left out\n{cut}"),
        )
        self.assertEqual(
            called([], "")[::2], (1, "mosaikrun-csv: there is no end line: the report is cut, or there is none\n")
        )
        for words in (["--steps", self.file(REPORT)], ["nowhere"]):
            status, out, errors = called(words)
            self.assertEqual((status, out, errors[:15]), (2, "", "mosaikrun-csv: "))

    def test_many(self) -> None:
        """Of many missing things ten are said, and how many more there are."""
        errors = io.StringIO()
        with contextlib.redirect_stderr(errors):
            self.assertEqual(tables.told("name", [str(number) for number in range(13)]), 1)
        self.assertEqual(errors.getvalue().splitlines()[-2:], ["name: 9", "name: and 3 more"])


if __name__ == "__main__":
    unittest.main()
