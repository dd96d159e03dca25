"""Simulators for the tests of scenarios; each class is one thing that a simulator may do."""

from __future__ import annotations

import os
import sys
import time

import mosaik_api_v3

META = {
    "type": "time-based",
    "models": {
        "Model": {"public": True, "params": ["value"], "attrs": ["out", "in"]},
        "Part": {"public": False, "params": [], "attrs": ["out"]},
    },
    "extra_methods": ["raise_by", "raised"],
}


class Counter(mosaik_api_v3.Simulator):
    """Models whose output is their value and the time; each has a part as a child."""

    meta_data = META

    def __init__(self):
        super().__init__({**self.meta_data})
        self.values, self.time, self.by, self.step_size = {}, 0, 0, 1

    def init(self, sid, time_resolution, step_size=1):
        self.step_size = step_size
        return self.meta

    def create(self, num, model, value=0):
        new = [f"e{len(self.values) + number}" for number in range(num)]
        self.values.update((eid, value) for eid in new)
        return [
            {"eid": eid, "type": model, "children": [{"eid": f"{eid}_part", "type": "Part"}], "extra_info": [eid]}
            for eid in new
        ]

    def raise_by(self, number):
        self.by += number

    def raised(self):
        return self.by

    def step(self, time, inputs, max_advance):
        self.time = time
        return time + self.step_size

    def get_data(self, outputs):
        return {
            eid: {attr: self.values[eid.partition("_")[0]] + self.time + self.by for attr in attrs}
            for eid, attrs in outputs.items()
        }


class Sink(mosaik_api_v3.Simulator):
    """A collector that takes anything and prints how much came."""

    def __init__(self):
        models = {"Sink": {"public": True, "any_inputs": True, "params": [], "attrs": []}}
        super().__init__({"type": "event-based", "models": models})
        self.count = 0

    def create(self, num, model):
        return [{"eid": f"sink{number}", "type": model} for number in range(num)]

    def step(self, time, inputs, max_advance):
        self.count += len(inputs)
        return None

    def finalize(self):
        print(f"{self.count} came, {os.environ.get('COLOUR')}, {os.path.basename(os.getcwd())}")
        print("also as an error", file=sys.stderr)


class Fractions(Counter):
    """Gives values with a fraction."""

    def get_data(self, outputs):
        return {eid: {attr: 0.25 for attr in attrs} for eid, attrs in outputs.items()}


class Dying(Counter):
    """Ends its process in the third step."""

    def step(self, time, inputs, max_advance):
        if time == 2:
            print("that was it", flush=True)
            os._exit(7)
        return time + 1


class Failing(Counter):
    """Fails in the third step."""

    def step(self, time, inputs, max_advance):
        if time == 2:
            raise ValueError("no more steps")
        return time + 1


class Slow(Counter):
    """Says that it steps, and then works for a long time, unless that was said before."""

    def step(self, time_now, inputs, max_advance):
        if time_now == 2 and not os.path.exists(os.environ["STEPPED"]):
            with open(os.environ["STEPPED"], "w", encoding="utf-8") as file:
                file.write(str(os.getpid()))
            time.sleep(600)
        return time_now + 1


class Unborn(Counter):
    """Ends its process while it creates entities."""

    def create(self, num, model, value=0):
        os._exit(7)


class Sleeping(Counter):
    """Says that it creates entities, and then works for a long time."""

    def create(self, num, model, value=0):
        with open(os.environ["STEPPED"], "w", encoding="utf-8") as file:
            file.write(str(os.getpid()))
        time.sleep(600)


class Asking(Counter):
    """Asks for the value of another in each step, and sets its input."""

    def init(self, sid, time_resolution, asked=""):
        self.sid, self.asked = sid, asked
        return self.meta

    def step(self, time, inputs, max_advance):
        found = yield self.mosaik.get_data({self.asked: ["out"]})
        related = yield self.mosaik.get_related_entities(self.asked)
        assert related, "the asked one is related to the asking one"
        yield self.mosaik.set_data({f"{self.sid}.e0": {self.asked: {"in": found[self.asked]["out"]}}})
        try:
            yield self.mosaik.get_progress()
        except Exception as fault:
            self.by = len(str(fault))
        return time + 1


class Awaiting(Asking):
    """Asks with `await`."""

    async def step(self, time, inputs, max_advance):
        found = await self.mosaik.get_data({self.asked: ["out"]})
        self.by = found[self.asked]["out"]
        return time + 1


class Newer(mosaik_api_v3.Simulator):
    """A hybrid simulator whose metadata say `persistent` and `non-trigger`."""

    def __init__(self):
        model = {"public": True, "params": [], "attrs": ["a", "b"], "persistent": ["a"], "non-trigger": ["b"]}
        super().__init__({"type": "hybrid", "models": {"Model": model}})

    def create(self, num, model):
        return [{"eid": str(number), "type": model} for number in range(num)]

    def step(self, time, inputs, max_advance):
        return time + 1

    def get_data(self, outputs):
        return {eid: {attr: 1 for attr in attrs} for eid, attrs in outputs.items()}


class Chance(Counter):
    """Names its entities otherwise each time."""

    def create(self, num, model, value=0):
        return [{"eid": str(time.time_ns() + number), "type": model} for number in range(num)]


class Older(Counter):
    """A simulator of API 2."""

    meta_data = {**META, "api_version": "2.4"}


if __name__ == "__main__":
    name = os.environ.get("SIM_CLASS", "Counter")
    mosaik_api_v3.start_simulation(globals()[name]())
