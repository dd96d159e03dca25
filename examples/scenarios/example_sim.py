"""mosaik's tutorial's ExampleSim: a hybrid simulator, whose `delta` triggers a step and whose `val` grows by it."""

import mosaik_api_v3

META = {
    "type": "hybrid",
    "models": {
        "ExampleModel": {"public": True, "params": ["init_val"], "attrs": ["delta", "val"], "trigger": ["delta"]},
    },
}


class ExampleSim(mosaik_api_v3.Simulator):
    """Its entities, each a dict of what it gives."""

    def __init__(self):
        super().__init__(META)
        self.eid_prefix = "Model_"
        self.entities = {}
        self.time = 0

    def init(self, sid, time_resolution, eid_prefix=None):
        if float(time_resolution) != 1:
            raise ValueError(f"ExampleSim has steps of one second, not of {time_resolution}")
        if eid_prefix is not None:
            self.eid_prefix = eid_prefix
        return self.meta

    def create(self, num, model, init_val=0):
        created = []
        for number in range(len(self.entities), len(self.entities) + num):
            eid = f"{self.eid_prefix}{number}"
            self.entities[eid] = {"val": init_val, "delta": 1}
            created.append({"eid": eid, "type": model})
        return created

    def step(self, time, inputs, max_advance):
        self.time = time
        for eid, entity in self.entities.items():
            if "delta" in inputs.get(eid, {}):
                entity["delta"] = sum(inputs[eid]["delta"].values())
            entity["val"] += entity["delta"]
        return time + 1

    def get_data(self, outputs):
        data = {"time": self.time}
        for eid, attrs in outputs.items():
            data[eid] = {attr: self.entities[eid][attr] for attr in attrs}
        return data


if __name__ == "__main__":
    mosaik_api_v3.start_simulation(ExampleSim())
