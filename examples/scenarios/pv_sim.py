"""Photovoltaics whose power stands in a CSV file, a row for each hour; what they feed in is less than zero."""

import csv

import mosaik_api_v3

META = {"type": "time-based", "models": {"PV": {"public": True, "params": [], "attrs": ["P"]}}}


class PVSim(mosaik_api_v3.Simulator):
    """All units follow the one column of the file; each is a little smaller than the one before."""

    def __init__(self):
        super().__init__(META)
        self.rows, self.count, self.hour = [], 0, 0

    def init(self, sid, time_resolution, datafile):
        with open(datafile, newline="", encoding="utf-8") as file:
            self.rows = [float(row["P"]) for row in csv.DictReader(file)]
        return self.meta

    def create(self, num, model):
        new = range(self.count, self.count + num)
        self.count += num
        return [{"eid": f"PV_{number}", "type": model} for number in new]

    def step(self, time, inputs, max_advance):
        self.hour = time // 3600 % len(self.rows)
        return time + 3600

    def get_data(self, outputs):
        power = self.rows[self.hour]
        return {eid: {"P": -power * (1 - int(eid[3:]) / 20)} for eid in outputs}
