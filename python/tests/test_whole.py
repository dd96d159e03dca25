"""Tests of `examples/whole.py`: what it says of words that are wrong, and that nobody is left behind."""

from __future__ import annotations

import importlib
import pathlib
import subprocess
import sys
import unittest
from typing import Any

WHOLE = pathlib.Path(__file__).resolve().parents[2] / "examples" / "whole.py"
MISSING = "-- is missing; it stands between the factors and the simulator's own command"
NO_ADDRESS = "the first word has to be the address HOST:PORT, as %(addr)s in a scenario's command"
NO_ADDR = "ADDR is missing; it stands where the simulator's own command has its address"
NO_FACTOR = "is no factor; a factor is ATTRIBUTE=NUMBER, as P_out=1000"

sys.path.insert(0, str(WHOLE.parent))
whole: Any = importlib.import_module("whole")


class Words(unittest.TestCase):
    """The words of its command."""

    def said(self, *words: str) -> str:
        """What it says of these words; it ends with status 1 and prints nothing else."""
        call = [sys.executable, str(WHOLE), *words]
        done = subprocess.run(call, capture_output=True, text=True, timeout=60, check=False)
        self.assertEqual((done.returncode, done.stdout), (1, ""), words)
        return done.stderr

    def test_words_that_are_wrong(self) -> None:
        for words, said in (
            ("127.0.0.1:1 P=1000 python3 sim.py ADDR", MISSING),
            ("127.0.0.1:1 P=1000 -- python3 sim.py", NO_ADDR),
            ("127.0.0.1:1 P=1000 --", NO_ADDR),
            ("P=1000 -- python3 sim.py ADDR", NO_ADDRESS),
            ("-- python3 sim.py ADDR", NO_ADDRESS),
            ("127.0.0.1:1 P -- python3 sim.py ADDR", f"P {NO_FACTOR}"),
            ("127.0.0.1:1 P=kW -- python3 sim.py ADDR", f"P=kW {NO_FACTOR}"),
            ("127.0.0.1:1 P=0 -- python3 sim.py ADDR", f"P=0 {NO_FACTOR}"),
            ("127.0.0.1:1 P=NaN -- python3 sim.py ADDR", f"P=NaN {NO_FACTOR}"),
            ("127.0.0.1:1 P=true -- python3 sim.py ADDR", f"P=true {NO_FACTOR}"),
            ("127.0.0.1:1 =5 -- python3 sim.py ADDR", f"=5 {NO_FACTOR}"),
        ):
            with self.assertRaises(SystemExit, msg=words) as ended:
                whole.words_of(words.split())
            self.assertEqual(ended.exception.code, f"whole.py: {said}", words)
        self.assertEqual(self.said("127.0.0.1:1", "P=1000"), f"whole.py: {MISSING}\n")

    def test_words_that_are_right(self) -> None:
        words = "127.0.0.1:1 P=1000 soc=-0.5 *=1 -- python3 sim.py --at=ADDR"
        address, scale, command = whole.words_of(words.split())
        self.assertEqual((address, command), ("127.0.0.1:1", ["python3", "sim.py", "--at=ADDR"]))
        self.assertEqual(scale.factors, {"P": 1000, "soc": -0.5, "*": 1})

    def test_a_simulator_that_ends_before_it_connects(self) -> None:
        said = self.said("127.0.0.1:1", "--", sys.executable, "-c", "raise SystemExit(3)", "ADDR")
        self.assertIn("ended with status 3\n", said)

    def test_help(self) -> None:
        self.assertIn("P_out=1000", self.said("--help"))


if __name__ == "__main__":
    unittest.main()
