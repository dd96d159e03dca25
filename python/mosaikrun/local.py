"""The kinds of simulators that run within the program: what they say while the scenario is built."""

from __future__ import annotations

import itertools
from typing import Any, Dict

from mosaikrun.errors import ScenarioError, refused
from mosaikrun.handshake import Handshake

# of each kind its type, its model, the model's setting, its attributes, its triggers and its events
KINDS: Dict[str, tuple] = {
    "constant": ("time-based", "Source", "value", ["out"], [], []),
    "counter": ("time-based", "Count", "start", ["out"], [], []),
    "sum": ("time-based", "Sum", "bias", ["in", "out"], [], []),
    "relay": ("event-based", "Relay", "bias", ["in", "out"], [], []),
    "battery": ("hybrid", "Battery", "start", ["set", "soc"], ["set"], ["soc"]),
    "controller": ("event-based", "Control", "goal", ["soc", "set"], [], []),
}


class Within(Handshake):
    """A simulator within the program, which makes entities with the eids 0, 1 and so on."""

    def __init__(self, sid: str, kind: str) -> None:
        super().__init__(sid)
        if kind not in KINDS:
            raise ScenarioError(f"{sid}: {kind} is no kind of simulator within the program: {', '.join(KINDS)}")
        self.kind, self.numbers = kind, itertools.count()

    def ask(self, function: str, /, *args: Any, **named: Any) -> Any:
        if function == "init":
            kind, model, setting, attrs, triggers, events = KINDS[self.kind]
            told = {"public": True, "params": [setting], "attrs": attrs, "trigger": triggers, "non-persistent": events}
            return {"api_version": "3.0", "type": kind, "models": {model: told}}
        if function == "create":
            num, model = args
            return [{"eid": str(next(self.numbers)), "type": model} for _ in range(num)]
        raise refused(f"{self.sid} is within the program and has no {function}", "What maps to what")
