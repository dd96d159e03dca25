"""Houses whose load changes with the quarter of the day, and is halved while the store that they know of is low."""
from link import serve

LOADS = [100, 400, 200, 600]  # watts a person, for hours 0 to 5, 6 to 11, 12 to 17, 18 to 23
MODEL = {"public": True, "params": ["people"], "attrs": ["load", "soc"]}


class Houses:
    """All houses of the study, by their eids."""

    def init(self, sid: str, time_resolution: int) -> dict:
        self.people, self.loads = {}, {}
        return {"api_version": "3.0", "type": "time-based", "models": {"House": MODEL}}

    def create(self, num: int, model: str, people: int = 1) -> list:
        new = [f"house-{len(self.people) + i}" for i in range(num)]
        self.people.update((eid, people) for eid in new)
        return [{"eid": eid, "type": model} for eid in new]

    def setup_done(self) -> None:
        pass

    def step(self, time: int, inputs: dict, max_advance: int) -> int:
        for eid, people in self.people.items():
            socs = inputs.get(eid, {}).get("soc", {})  # by the full id of the source
            saving = any(soc < 4000 for soc in socs.values())
            self.loads[eid] = people * LOADS[time // 6 % 4] // (2 if saving else 1)
        return time + 6  # the time of its next step

    def get_data(self, outputs: dict) -> dict:
        return {eid: {attr: self.loads[eid] for attr in attrs} for eid, attrs in outputs.items()}


serve(Houses())
