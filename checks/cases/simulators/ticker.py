"""A simulator for the check of `paced`: ticker.py HOST:PORT FILE [PLACE SECONDS].

It steps at each unit of time, and its value is the number of its step. When it stops it writes into FILE what its machine's clock
said, in seconds, as its entity was made and as each step came, a line each. The step of this place, from 0, takes so many seconds.
"""
import os
import sys
import time as clock

import api

META = {"type": "time-based", "models": {"Tick": {"public": True, "params": [], "attrs": ["out"]}}}


class Ticker(api.Simulator):
    """Counts its steps, and keeps when each came."""

    def __init__(self, file: str, place: int, seconds: float) -> None:
        super().__init__(META)
        self.file, self.place, self.seconds, self.made, self.came = file, place, seconds, 0.0, []

    def create(self, num: int, model: str) -> list:
        with open(self.file + ".pid", "w", encoding="utf-8") as file:
            file.write(str(os.getpid()))
        self.made = clock.monotonic()
        return [{"eid": str(eid), "type": model} for eid in range(num)]

    def step(self, time: int, inputs: dict, max_advance: int) -> int:
        self.came.append(clock.monotonic())
        if len(self.came) == self.place + 1:
            clock.sleep(self.seconds)
        return time + 1

    def get_data(self, outputs: dict) -> dict:
        return {eid: {"out": len(self.came)} for eid in outputs}

    def finalize(self) -> None:
        with open(self.file, "w", encoding="utf-8") as file:
            file.writelines(f"{moment}\n" for moment in [self.made, *self.came])


words = sys.argv[3:] or ["-1", "0"]
api.serve(api.connected(sys.argv[1]), Ticker(sys.argv[2], int(words[0]), float(words[1])))
