"""mosaik's tutorial's controllers: agents that keep values between -3 and 3, and a master that may stop them all."""

import mosaik_api_v3


def meta(*attrs):
    """The metadata of event-based agents with these attributes."""
    return {"type": "event-based", "models": {"Agent": {"public": True, "params": [], "attrs": list(attrs)}}}


class Agents(mosaik_api_v3.Simulator):
    """Agents that give something in some steps only."""

    def __init__(self, *attrs):
        super().__init__(meta(*attrs))
        self.agents = []
        self.data = {}
        self.time = 0

    def create(self, num, model):
        new = [f"Agent_{number}" for number in range(len(self.agents), len(self.agents) + num)]
        self.agents += new
        return [{"eid": eid, "type": model} for eid in new]

    def get_data(self, outputs):
        return {"time": self.time, **{eid: self.data[eid] for eid in outputs if eid in self.data}}


class Controller(Agents):
    """Proposes a `delta` where a value is at a limit."""

    def __init__(self):
        super().__init__("val_in", "delta")

    def step(self, time, inputs, max_advance):
        self.time, self.data = time, {}
        for eid, attrs in inputs.items():
            delta = self.decide(attrs)
            if delta is not None:
                self.data[eid] = {"delta": delta}

    def decide(self, attrs):
        (value,) = attrs["val_in"].values()
        if value >= 3:
            return -1
        return 1 if value <= -3 else None


class LedController(Controller):
    """Gives the `delta` of its master, where it has one, in place of its own."""

    def decide(self, attrs):
        if "delta" in attrs:
            (delta,) = attrs["delta"].values()
            return delta
        return super().decide(attrs)


class Master(Agents):
    """Stops all agents in a round in which their proposals come to more than one, up or down."""

    def __init__(self):
        super().__init__("delta_in", "delta_out")

    def step(self, time, inputs, max_advance):
        self.time, self.data = time, {}
        for eid, attrs in inputs.items():
            if abs(sum(attrs["delta_in"].values())) > 1:
                self.data[eid] = {"delta_out": 0}
