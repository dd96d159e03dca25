"""An event-based simulator: mosaik's tutorial's Controller, which gives a `delta` only where a value is 3 or beyond."""
import api

META = {
    "type": "event-based",
    "models": {"Agent": {"public": True, "params": [], "attrs": ["val_in", "delta"]}},
}


class Controller(api.Simulator):
    """The agents, and what they gave in the last step."""

    def __init__(self) -> None:
        super().__init__(META)
        self.agents, self.data, self.time = [], {}, 0

    def create(self, num: int, model: str) -> list:
        new = [f"Agent_{len(self.agents) + i}" for i in range(num)]
        self.agents += new
        return [{"eid": eid, "type": model} for eid in new]

    def step(self, time: int, inputs: dict, max_advance: int) -> None:
        self.time, self.data = time, {}
        for eid, attrs in inputs.items():
            (value,) = attrs["val_in"].values()  # one connection for each agent
            if abs(value) >= 3:
                self.data[eid] = {"delta": -1 if value > 0 else 1}

    def get_data(self, outputs: dict) -> dict:
        return {"time": self.time, **self.data}


api.start_simulation(Controller())
