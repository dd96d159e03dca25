"""Lets the tests, and the programs that they start, find the package and the simulators of the tests."""

from __future__ import annotations

import os
import pathlib
import sys

TESTS = pathlib.Path(__file__).resolve().parent
PLACES = [str(TESTS.parent), str(TESTS)]

sys.path[:0] = [place for place in PLACES if place not in sys.path]
before = [os.path.abspath(place) for place in os.environ.get("PYTHONPATH", "").split(os.pathsep) if place]
os.environ["PYTHONPATH"] = os.pathsep.join(dict.fromkeys([*PLACES, *before]))
if os.environ.get("MOSAIKRUN"):
    os.environ["MOSAIKRUN"] = os.path.abspath(os.environ["MOSAIKRUN"])
