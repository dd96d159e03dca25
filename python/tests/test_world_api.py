"""Tests of the simulators' side of the API: frames, requests in a step, the command line, and mosaik's names."""

from __future__ import annotations

import contextlib
import io
import pathlib
import socket
import subprocess
import sys
import threading
import unittest
from typing import Any, List

import here  # noqa: F401, comes before the package
from mosaikrun import api, child

TESTS = pathlib.Path(__file__).resolve().parent
MODELS = {"M": {"public": True, "params": [], "attrs": ["x"]}}


class Sample(api.Simulator):
    """A simulator that asks in its steps, and fails at time 3."""

    def __init__(self) -> None:
        super().__init__({"type": "time-based", "models": MODELS})
        self.finalized = False

    def step(self, time: int, inputs: dict, max_advance: int) -> Any:
        if time == 3:
            raise ValueError("three")
        found = yield self.mosaik.get_data({"A-0.a": ["x"]})
        return found["A-0.a"]["x"]

    def get_data(self, outputs: dict) -> dict:
        return {"a": {"x": float("nan")}}

    def finalize(self) -> None:
        self.finalized = True


class Served(unittest.TestCase):
    """A simulator that is served over a pair of sockets."""

    def setUp(self) -> None:
        ours, theirs = socket.socketpair()
        self.link, self.simulator = api.Link(ours), Sample()
        other = api.Link(theirs)
        self.thread = threading.Thread(target=api.serve, args=(other, self.simulator), daemon=True)
        self.errors = io.StringIO()
        redirected = contextlib.redirect_stderr(self.errors)
        redirected.__enter__()
        self.addCleanup(redirected.__exit__, None, None, None)
        self.thread.start()
        self.addCleanup(self.end, other)

    def end(self, other: api.Link) -> None:
        with contextlib.suppress(OSError):
            self.link.socket.shutdown(socket.SHUT_RDWR)
        self.thread.join(60)
        other.close()
        self.link.close()

    def told(self, *message: Any) -> list:
        self.link.write(*message)
        return self.link.read()

    def test_init_answers_the_metadata(self) -> None:
        answer = self.told(0, 1, ["init", ["A-0"], {"time_resolution": 1}])
        self.assertEqual(answer, [1, 1, {"api_version": "3.0", "type": "time-based", "models": MODELS}])

    def test_a_step_asks_and_goes_on_with_the_answer(self) -> None:
        asked = self.told(0, 7, ["step", [0, {}, 10], {}])
        self.assertEqual(asked, [0, 1, ["get_data", [{"A-0.a": ["x"]}], {}]])
        self.assertEqual(self.told(1, 1, {"A-0.a": {"x": 5}}), [1, 7, 5])

    def test_a_refused_request_fails_the_step(self) -> None:
        asked = self.told(0, 7, ["step", [0, {}, 10], {}])
        self.assertEqual(self.told(2, asked[1], "no"), [2, 7, "RemoteException: no"])

    def test_a_failure_is_told_with_its_name(self) -> None:
        self.assertEqual(self.told(0, 8, ["step", [3, {}, 10], {}]), [2, 8, "ValueError: three"])
        self.assertIn("Traceback", self.errors.getvalue())

    def test_a_value_that_json_has_not_is_told(self) -> None:
        kind, number, text = self.told(0, 9, ["get_data", [{"a": ["x"]}], {}])
        self.assertEqual((kind, number), (2, 9))
        self.assertIn("nan", text)

    def test_stop_and_the_end_of_the_link_finalize(self) -> None:
        self.link.write(0, 1, ["stop", [], {}])
        self.thread.join(30)
        self.assertTrue(self.simulator.finalized)

    def test_the_end_of_the_link_finalizes(self) -> None:
        self.link.socket.shutdown(socket.SHUT_RDWR)
        self.thread.join(30)
        self.assertTrue(self.simulator.finalized)


class Words(unittest.TestCase):
    """Command lines and metadata."""

    def test_options(self) -> None:
        for words, remote, level in (
            (["h:1"], False, "info"),
            (["-r", "h:1"], True, "info"),
            (["--remote", "-l", "debug", "h:1"], True, "debug"),
            (["--log-level=error", "h:1"], False, "error"),
        ):
            found = api.options_of(words)
            told = (found["<addr>"], found["--remote"], found["--log-level"])
            self.assertEqual(told, ("h:1", remote, level), words)
        self.assertEqual(api.options_of(["--step=3", "h:1"])["--step"], "3")

    def test_metadata_are_told_in_the_members_that_the_program_reads(self) -> None:
        attrs = ["a", "b", "c"]
        cases: List[tuple] = [
            ({"persistent": ["a"]}, {"non-persistent": ["b", "c"]}),
            ({"non-trigger": ["a"]}, {"trigger": ["b", "c"]}),
            ({"trigger": True}, {"trigger": attrs}),
            ({"trigger": False, "non-trigger": ["a"]}, {"trigger": []}),
            ({"persistent": True}, {"non-persistent": []}),
            ({"non-persistent": ["c"]}, {"non-persistent": ["c"]}),
            ({}, {}),
        ]
        for said, wanted in cases:
            told = child.plain_meta({"models": {"M": {"attrs": attrs, **said}}})
            self.assertEqual(told, {"models": {"M": {"attrs": attrs, **wanted}}}, said)
        self.assertEqual(child.plain_meta(["no", "metadata"]), ["no", "metadata"])

    def test_a_class_is_found_by_module_or_file(self) -> None:
        self.assertEqual(child.loaded("collections:OrderedDict").__name__, "OrderedDict")
        self.assertEqual(child.loaded(f"{TESTS / 'world_sims.py'}:Sink").__name__, "Sink")
        for name in ("collections", "collections:", ":Sim"):
            with self.assertRaises(ValueError, msg=name):
                child.loaded(name)

    def test_the_names_of_mosaik_are_found(self) -> None:
        code = (
            "import mosaikrun as mosaik, mosaik.util, mosaik.exceptions, mosaik_api\n"
            "from mosaik.util import connect_many_to_one, connect_randomly, connect_zip\n"
            "from mosaik_api_v3.types import Meta, InputData, OutputData, CreateResult\n"
            "import mosaik_api_v3\n"
            "mosaik.World, mosaik.SimConfig, mosaik.exceptions.ScenarioError, mosaik.scenario.Entity\n"
            "mosaik_api_v3.Simulator, mosaik_api_v3.start_simulation, mosaik_api_v3.__api_version__\n"
        )
        done = subprocess.run([sys.executable, "-c", code], capture_output=True, text=True, check=False)
        self.assertEqual((done.returncode, done.stderr), (0, ""))


if __name__ == "__main__":
    unittest.main()
