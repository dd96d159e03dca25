"""A database as that of mosaik-demo: takes anything, once an hour, and tells at the end what the day was like."""

import mosaik_api_v3

META = {
    "type": "time-based",
    "models": {"Database": {"public": True, "any_inputs": True, "params": [], "attrs": []}},
}


class Database(mosaik_api_v3.Simulator):
    """What came, as {(source, attribute): {time: value}}."""

    def __init__(self):
        super().__init__(META)
        self.step_size, self.data = 3600, {}

    def init(self, sid, time_resolution, step_size=3600):
        self.step_size = step_size
        return self.meta

    def create(self, num, model):
        return [{"eid": f"hdf5_{number}", "type": model} for number in range(num)]

    def step(self, time, inputs, max_advance):
        for attrs in inputs.values():
            for attr, values in attrs.items():
                for source, value in values.items():
                    self.data.setdefault((source, attr), {})[time] = value
        return time + self.step_size

    def finalize(self):
        houses = [source for source, attr in self.data if attr == "P_out"]
        units = [source for source, attr in self.data if ".PV_" in source]
        if not houses:
            return
        print(f"A day of the grid: {len(houses)} houses, {len(units)} photovoltaics")
        load = next(values for (source, _), values in self.data.items() if source.endswith("-tr_sec"))
        for name, time in (("most", max(load, key=load.get)), ("least", min(load, key=load.get))):
            print(f"The grid takes {name} at {time // 3600:02}:00: {load[time] / 1_000_000:.3f} kW")


if __name__ == "__main__":
    mosaik_api_v3.start_simulation(Database())
