"""A simulator for the checks of runs that are killed or watched: sleeper.py HOST:PORT MILLISECONDS [WHAT].

Its entity goes on from number to number by what comes in and by the time, and each step takes so many milliseconds. With `mute` it
never answers `create`, with `refuses` it answers that with a failure, with `stalls` it doesn't answer its step at 30, and with `lingers`
it doesn't end when it is told to stop. With `closes` it ends at the first step at which there is a file of this name. With `marks` it
leaves a file `new.record.ran` as soon as it is started.
"""

import os
import pathlib
import sys
import time as clock

import api

META = {"type": "time-based", "models": {"Walk": {"public": True, "params": [], "attrs": ["in", "out"]}}}
LONG = 600


class Sleeper(api.Simulator):
    """One number, which each step changes."""

    def __init__(self, milliseconds: int, what: str) -> None:
        super().__init__(META)
        self.seconds, self.what, self.number = milliseconds / 1000, what, 1

    def create(self, num: int, model: str) -> list:
        if self.what == "mute":
            clock.sleep(LONG)
        if self.what == "refuses":
            raise ValueError("this simulator creates nothing")
        return [{"eid": str(eid), "type": model} for eid in range(num)]

    def step(self, time: int, inputs: dict, max_advance: int) -> int:
        if self.what == "closes" and os.path.exists(self.what):
            os._exit(0)
        came = sum(value for attrs in inputs.values() for values in attrs.values() for value in values.values())
        self.number = (self.number * 31 + came + time) % 1000003
        clock.sleep(LONG if self.what == "stalls" and time == 30 else self.seconds)
        return time + 1

    def get_data(self, outputs: dict) -> dict:
        return {eid: {"out": self.number} for eid in outputs}

    def finalize(self) -> None:
        if self.what == "lingers":
            clock.sleep(LONG)


if sys.argv[3:] == ["marks"]:
    pathlib.Path("new.record.ran").touch()
api.serve(api.connected(sys.argv[1]), Sleeper(int(sys.argv[2]), "".join(sys.argv[3:])))
