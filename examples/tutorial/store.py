"""A store that feeds the load it is given, says when it is low, and is charged where it is told to."""
from link import serve

MODEL = {
    "public": True,
    "params": ["soc"],
    "attrs": ["load", "set", "soc", "low"],
    "trigger": ["set"],  # this input makes the store step
    "non-persistent": ["low"],  # this output is an event
}


class Store:
    """The one store of the study."""

    def init(self, sid: str, time_resolution: int) -> dict:
        return {"api_version": "3.0", "type": "hybrid", "models": {"Store": MODEL}}

    def create(self, num: int, model: str, soc: int) -> list:
        self.soc = soc  # watt hours
        return [{"eid": "store", "type": model}]

    def setup_done(self) -> None:
        pass

    def step(self, time: int, inputs: dict, max_advance: int) -> int:
        given = {attr: sum(values.values()) for attr, values in inputs.get("store", {}).items()}
        if "set" in given:  # charge towards it, 2000 Wh at most
            self.soc = min(given["set"], self.soc + 2000)
        else:  # feed the load for six hours
            self.soc = max(0, self.soc - 6 * given.get("load", 0))
        return time + 6 - time % 6

    def get_data(self, outputs: dict) -> dict:
        values = {"soc": self.soc}
        if self.soc < 2000:  # an event is an output that is there only when it happens
            values["low"] = self.soc
        return {"store": values}


serve(Store())
