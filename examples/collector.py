"""An event-based simulator that takes any input: mosaik's tutorial's Collector, which prints at the end what it got."""
import api

META = {
    "type": "event-based",
    "models": {"Monitor": {"public": True, "any_inputs": True, "params": [], "attrs": []}},
}


class Collector(api.Simulator):
    """What came, by source, attribute and time; of several rounds at one time the last."""

    def __init__(self) -> None:
        super().__init__(META)
        self.data = {}

    def create(self, num: int, model: str) -> list:
        return [{"eid": "Monitor", "type": model}]

    def step(self, time: int, inputs: dict, max_advance: int) -> None:
        for attr, values in inputs.get("Monitor", {}).items():
            for source, value in values.items():
                self.data.setdefault(source, {}).setdefault(attr, {})[time] = value

    def finalize(self) -> None:
        print("Collected data:")
        for source, attrs in sorted(self.data.items()):
            print(f"- {source}:")
            for attr, values in sorted(attrs.items()):
                print(f"  - {attr}: {values}")


api.start_simulation(Collector())
