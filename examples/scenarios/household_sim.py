"""Households as those of mosaik-demo: one `ResidentialLoads`, whose children are houses with a power in W.

The profiles are a CSV file with a column for each house, named by its node of the grid, and a row for each hour.
"""

import csv

import mosaik_api_v3

META = {
    "type": "time-based",
    "models": {
        "ResidentialLoads": {"public": True, "params": ["profile_file"], "attrs": []},
        "House": {"public": False, "params": [], "attrs": ["P_out", "node_id"]},
    },
}


class HouseholdSim(mosaik_api_v3.Simulator):
    """The rows of the file, and the node of each house."""

    def __init__(self):
        super().__init__(META)
        self.rows, self.nodes, self.hour = [], {}, 0

    def create(self, num, model, profile_file):
        if num != 1 or self.nodes:
            raise ValueError("there is one ResidentialLoads, with all houses")
        with open(profile_file, newline="", encoding="utf-8") as file:
            self.rows = list(csv.DictReader(file))
        self.nodes = {f"House_{number}": node for number, node in enumerate(self.rows[0])}
        houses = [{"eid": eid, "type": "House"} for eid in self.nodes]
        return [{"eid": "resid_0", "type": model, "children": houses}]

    def step(self, time, inputs, max_advance):
        self.hour = time // 3600 % len(self.rows)
        return time + 3600

    def get_data(self, outputs):
        return {eid: {attr: self.value(eid, attr) for attr in attrs} for eid, attrs in outputs.items()}

    def value(self, eid, attr):
        node = self.nodes[eid]
        return node if attr == "node_id" else float(self.rows[self.hour][node])
