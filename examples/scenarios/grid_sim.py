"""A grid without losses, as a tree: each bus has the power that is taken there, each branch what flows through it.

The file is JSON: `slack` names the bus of the transformer, `buses` all others, and `branches` are pairs of buses, each
with the one that is nearer to the transformer first.
"""

import json

import mosaik_api_v3

META = {
    "type": "time-based",
    "models": {
        "Grid": {"public": True, "params": ["gridfile"], "attrs": []},
        "RefBus": {"public": False, "params": [], "attrs": ["P"]},
        "PQBus": {"public": False, "params": [], "attrs": ["P"]},
        "Branch": {"public": False, "params": [], "attrs": ["P_from"]},
    },
}


class GridSim(mosaik_api_v3.Simulator):
    """One grid: its branches, and the power of each bus and branch by its eid."""

    def __init__(self):
        super().__init__(META)
        self.step_size, self.slack, self.buses, self.branches, self.power = 3600, "", [], {}, {}

    def init(self, sid, time_resolution, step_size=3600):
        self.step_size = step_size
        return self.meta

    def create(self, num, model, gridfile):
        if num != 1 or self.buses:
            raise ValueError("there is one Grid")
        with open(gridfile, encoding="utf-8") as file:
            told = json.load(file)
        self.slack, self.buses = f"0-{told['slack']}", [f"0-{bus}" for bus in told["buses"]]
        for number, (start, end) in enumerate(told["branches"]):
            self.branches[f"0-branch_{number}"] = (f"0-{start}", f"0-{end}")
        children = [{"eid": self.slack, "type": "RefBus"}]
        children += [{"eid": bus, "type": "PQBus"} for bus in self.buses]
        children += [{"eid": eid, "type": "Branch", "rel": list(ends)} for eid, ends in self.branches.items()]
        return [{"eid": "0-grid", "type": model, "children": children, "rel": []}]

    def step(self, time, inputs, max_advance):
        self.power = {bus: sum(inputs.get(bus, {}).get("P", {}).values()) for bus in self.buses}
        flow = dict(self.power)
        for eid, (start, end) in reversed(self.branches.items()):
            self.power[eid] = flow[end]
            flow[start] = flow.get(start, 0) + flow[end]
        self.power[self.slack] = flow[self.slack]
        return time + self.step_size

    def get_data(self, outputs):
        return {eid: {attr: self.power[eid] for attr in attrs} for eid, attrs in outputs.items()}
