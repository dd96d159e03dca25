"""A simulator for the check of `resume`: walker.py HOST:PORT [WHAT PLACE].

Its entity goes on from number to number by what comes in and by the time. With `ends PLACE` the program is killed as soon as it is
asked for its step of this place, from 0; with `errs PLACE` it answers otherwise for the values of this step.
"""
import os
import signal
import sys

import api

META = {"type": "time-based", "models": {"Walk": {"public": True, "params": [], "attrs": ["in", "out"]}}}


class Walker(api.Simulator):
    """One number, which each step changes."""

    def __init__(self, what: str, place: int) -> None:
        super().__init__(META)
        self.what, self.place, self.steps, self.number = what, place, 0, 1

    def create(self, num: int, model: str) -> list:
        return [{"eid": str(eid), "type": model} for eid in range(num)]

    def step(self, time: int, inputs: dict, max_advance: int) -> int:
        if (self.what, self.place) == ("ends", self.steps):
            os.kill(os.getpid(), signal.SIGKILL)
        came = sum(value for attrs in inputs.values() for values in attrs.values() for value in values.values())
        self.number = (self.number * 31 + came + time) % 1000003
        self.steps += 1
        return time + 1

    def get_data(self, outputs: dict) -> dict:
        wrong = (self.what, self.place + 1) == ("errs", self.steps)
        return {eid: {"out": self.number + wrong} for eid in outputs}


words = sys.argv[2:] or ["", "0"]
api.serve(api.connected(sys.argv[1]), Walker(words[0], int(words[1])))
