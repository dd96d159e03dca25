"""A time-based simulator with children and fractions: houses whose power in W stands in a CSV file, a column for each.

Its model `ResidentialLoads` has no attributes; its children, one `House` for each column, give `P_out`.
"""
import csv

import api

META = {
    "type": "time-based",
    "models": {
        "ResidentialLoads": {"public": True, "params": ["profile_file"], "attrs": []},
        "House": {"public": False, "params": [], "attrs": ["P_out"]},
    },
}


class HouseholdSim(api.Simulator):
    """The rows of the file, each a dict from a house's eid to its power."""

    def __init__(self) -> None:
        super().__init__(META)
        self.step_size, self.rows, self.now = 15, [], {}

    def init(self, sid: str, time_resolution: float = 1, step_size: int = 15) -> dict:
        self.step_size = step_size
        return super().init(sid, time_resolution)

    def create(self, num: int, model: str, profile_file: str) -> list:
        with open(profile_file, newline="", encoding="utf-8") as file:
            self.rows = [{eid: float(value) for eid, value in row.items()} for row in csv.DictReader(file)]
        houses = [{"eid": eid, "type": "House"} for eid in self.rows[0]]
        return [{"eid": "resid_0", "type": model, "children": houses}]

    def step(self, time: int, inputs: dict, max_advance: int) -> int:
        self.now = self.rows[time // self.step_size % len(self.rows)]
        return time + self.step_size

    def get_data(self, outputs: dict) -> dict:
        return {eid: {"P_out": self.now[eid]} for eid in outputs}


api.start_simulation(HouseholdSim())
