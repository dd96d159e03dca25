"""A time-based simulator with asynchronous requests: get_data for a battery's charge, and set_data for its power.

A manager charges the battery that its parameter `battery` names by full id, from `low` to `high`, and lets it empty
again.
"""
from typing import Any, Generator

import api

META = {
    "type": "time-based",
    "models": {"Manager": {"public": True, "params": ["battery", "low", "high"], "attrs": []}},
}


class ManagerSim(api.Simulator):
    """The parameters of each manager by its eid."""

    def __init__(self) -> None:
        super().__init__(META)
        self.step_size, self.managers = 4, {}

    def init(self, sid: str, time_resolution: float = 1, step_size: int = 4) -> dict:
        self.step_size = step_size
        return super().init(sid, time_resolution)

    def create(self, num: int, model: str, **params: Any) -> list:
        new = [f"manager-{len(self.managers) + i}" for i in range(num)]
        self.managers.update((eid, params) for eid in new)
        return [{"eid": eid, "type": model} for eid in new]

    def step(self, time: int, inputs: dict, max_advance: int) -> Generator:
        for eid, params in self.managers.items():
            battery = params["battery"]
            found = yield self.mosaik.get_data({battery: ["charge"]})
            charge = found[battery]["charge"]
            if charge <= params["low"] or charge >= params["high"]:
                power = 3 if charge <= params["low"] else -2
                yield self.mosaik.set_data({f"{self.sid}.{eid}": {battery: {"power": power}}})
        return time + self.step_size


api.start_simulation(ManagerSim())
