"""A hybrid simulator with a trigger and an event: a battery that steps by itself and whenever its power is set.

`power` triggers a step; `charge` persists; `full` is an event (`non-persistent`), there only in the step that fills it.
"""
from typing import Optional

import api

META = {
    "type": "hybrid",
    "models": {
        "Battery": {
            "public": True,
            "params": ["charge", "capacity"],
            "attrs": ["power", "charge", "full"],
            "trigger": ["power"],
            "non-persistent": ["full"],
        },
    },
}


class Battery:
    """The state of a battery."""

    def __init__(self, charge: int, capacity: int) -> None:
        self.charge, self.capacity, self.power, self.is_filled = charge, capacity, 0, False

    def go_on(self, duration: int) -> None:
        """Charges with the present power for this time."""
        before = self.charge
        self.charge = max(0, min(self.capacity, before + self.power * duration))
        self.is_filled = before < self.charge == self.capacity


class BatterySim(api.Simulator):
    """The batteries by their eids, as they are at `time`."""

    def __init__(self) -> None:
        super().__init__(META)
        self.step_size, self.batteries, self.time = 5, {}, 0

    def init(self, sid: str, time_resolution: float = 1, step_size: int = 5) -> dict:
        self.step_size = step_size
        return super().init(sid, time_resolution)

    def create(self, num: int, model: str, charge: int = 0, capacity: int = 100) -> list:
        new = [f"battery-{len(self.batteries) + i}" for i in range(num)]
        self.batteries.update((eid, Battery(charge, capacity)) for eid in new)
        return [{"eid": eid, "type": model} for eid in new]

    def step(self, time: int, inputs: dict, max_advance: int) -> Optional[int]:
        for eid, battery in self.batteries.items():
            battery.go_on(time - self.time)
            if "power" in inputs.get(eid, {}):
                battery.power = sum(inputs[eid]["power"].values())
        self.time = time
        return None if time % self.step_size else time + self.step_size  # no next time where it was triggered between

    def get_data(self, outputs: dict) -> dict:
        data = {eid: {"charge": self.batteries[eid].charge} for eid in outputs}
        for eid in outputs:
            if self.batteries[eid].is_filled:
                data[eid]["full"] = True
        return data


api.start_simulation(BatterySim())
