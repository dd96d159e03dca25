"""A hybrid simulator: mosaik's tutorial's ExampleSim, whose `delta` triggers a step and whose `val` grows by it."""

import api

META = {
    "type": "hybrid",
    "models": {
        "ExampleModel": {"public": True, "params": ["init_val"], "attrs": ["delta", "val"], "trigger": ["delta"]},
    },
}


class Model:
    """A value that grows by `delta` in each step."""

    def __init__(self, init_val: int) -> None:
        self.val, self.delta = init_val, 1


class ExampleSim(api.Simulator):
    """The models by their eids."""

    def __init__(self) -> None:
        super().__init__(META)
        self.prefix, self.models, self.time = "Model_", {}, 0

    def init(self, sid: str, time_resolution: float = 1, eid_prefix: str = "Model_") -> dict:
        self.prefix = eid_prefix
        return super().init(sid, time_resolution)

    def create(self, num: int, model: str, init_val: int = 0) -> list:
        new = [f"{self.prefix}{len(self.models) + i}" for i in range(num)]
        self.models.update((eid, Model(init_val)) for eid in new)
        return [{"eid": eid, "type": model} for eid in new]

    def step(self, time: int, inputs: dict, max_advance: int) -> int:
        self.time = time
        for eid, model in self.models.items():
            if "delta" in inputs.get(eid, {}):
                model.delta = sum(inputs[eid]["delta"].values())
            model.val += model.delta
        return time + 1

    def get_data(self, outputs: dict) -> dict:
        data = {eid: {attr: getattr(self.models[eid], attr) for attr in attrs} for eid, attrs in outputs.items()}
        return {"time": self.time, **data}


api.start_simulation(ExampleSim())
