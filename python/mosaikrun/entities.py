"""What a scenario is built of: a simulator's models and extra methods, and the entities that it creates."""

from __future__ import annotations

import json
from typing import TYPE_CHECKING, Any, Callable, Dict, List, Optional

from mosaikrun.errors import ScenarioError, refused
from mosaikrun.handshake import Handshake
from mosaikrun.study import Simulator, datum

if TYPE_CHECKING:
    from mosaikrun.starting import Entry
    from mosaikrun.world import World


class Entity:
    """An entity of a simulator, with the entities that were created below it."""

    def __init__(self, sid: str, eid: str, model_mock: ModelMock, children: List[Entity], extra_info: Any) -> None:
        self.sid, self.eid, self.model_mock, self.children = sid, eid, model_mock, children
        self.sim_name, self.extra_info = model_mock.factory.simulator.name, extra_info

    @property
    def type(self) -> str:
        return self.model_mock.name

    @property
    def full_id(self) -> str:
        return f"{self.sid}.{self.eid}"

    def triggered_by(self, attr: str) -> bool:
        """Whether what comes under this attribute makes the simulator step."""
        kind = self.model_mock.factory.type
        return kind == "event-based" or (kind == "hybrid" and attr in self.model_mock.told.get("trigger", ()))

    def is_persistent(self, attr: str) -> bool:
        """Whether the newest value of this output stays."""
        kind = self.model_mock.factory.type
        return kind == "time-based" or (kind == "hybrid" and attr not in self.model_mock.told.get("non-persistent", ()))

    def __repr__(self) -> str:
        return f"Entity(model={self.type!r}, eid={self.eid!r}, sid={self.sid!r})"


class ModelMock:
    """A model of a simulator: called, it creates an entity."""

    def __init__(self, factory: ModelFactory, name: str, told: Dict[str, Any]) -> None:
        self.factory, self.name, self.told = factory, name, told
        self.params, self.attrs = list(told.get("params", ())), list(told.get("attrs", ()))

    def __call__(self, **model_params: Any) -> Entity:
        return self.create(1, **model_params)[0]

    def create(self, num: int, **model_params: Any) -> List[Entity]:
        """Creates so many entities."""
        if isinstance(num, bool) or not isinstance(num, int) or not 1 <= num <= 10_000:
            raise ScenarioError(f"{self.name}: num is {num!r}, and not a whole number from 1 to 10000")
        for name in model_params:
            if name not in self.params:
                known = ", ".join(self.params) or "none"
                raise TypeError(f"create() got an unexpected keyword argument '{name}': {self.name} has {known}")
        return self.factory.created(self, num, model_params)


class ModelFactory:
    """A simulator of the scenario: its models and its extra methods are its attributes."""

    def __init__(self, world: World, simulator: Simulator, handshake: Handshake, entry: Entry) -> None:
        self.world, self.simulator, self.handshake, self.entry = world, simulator, handshake, entry
        self.sid, self.meta = simulator.sid, handshake.meta
        self.type = self.meta.get("type", "time-based")
        self.all_entities: Dict[str, Entity] = {}
        self.entities: List[Entity] = []
        self.creates = 0
        self.mocks = {name: ModelMock(self, name, told) for name, told in self.meta["models"].items()}
        self.models = {name: mock for name, mock in self.mocks.items() if mock.told.get("public")}

    def __getattr__(self, name: str) -> Any:
        known = self.__dict__
        if name in known.get("models", {}):
            return known["models"][name]
        if name in known.get("meta", {}).get("extra_methods", ()):
            return self.extra(name)
        sid = known.get("sid", "?")
        if name in known.get("mocks", {}):
            raise AttributeError(f'model "{name}" of {sid} is not public')
        public = ", ".join(known.get("models", {})) or "none"
        raise AttributeError(f'{sid} has no model and no extra method "{name}"; its models: {public}')

    def asked(self, purpose: str) -> Handshake:
        """The simulator as it is started while the scenario is built."""
        if self.world.has_run:
            raise ScenarioError(f"{self.sid} has ended with its run, so it can't be asked for {purpose}")
        return self.handshake

    def extra(self, name: str) -> Callable[..., Any]:
        """An extra method, which is called now and again at the run."""

        def call(*args: Any, **named: Any) -> Any:
            try:
                again = json.loads(json.dumps([self.creates, name, args, named]))
            except TypeError as fault:
                what = f"{self.sid}: {name} can't be called again at the run: {fault}"
                raise refused(what, "The package `mosaikrun`") from fault
            answer = self.asked(name).ask(name, *args, **named)
            self.simulator.calls.append(again)
            return answer

        return call

    def created(self, mock: ModelMock, num: int, params: Dict[str, Any]) -> List[Entity]:
        """Has the simulator create entities of a public model."""
        told = {
            key: datum(value, f"{self.sid}.{mock.name}: {key}", self.entry.advice(key)) for key, value in params.items()
        }
        answer = self.asked("entities").ask("create", num, mock.name, **told)
        if not isinstance(answer, list) or len(answer) != num:
            raise ScenarioError(f"{self.sid}: {num} entities of {mock.name} were asked for, and there came {answer!r}")
        entities = [self.entity(described, mock.name) for described in answer]
        self.world.scenario.group(self.sid, mock.name, [entity.full_id for entity in entities], told)
        self.world.relations += related(self.sid, answer)
        self.creates += 1
        self.entities += entities
        return entities

    def entity(self, described: Any, model: Optional[str]) -> Entity:
        """An entity of a reply to `create`, with its children."""
        eid, kind = (described.get("eid"), described.get("type")) if isinstance(described, dict) else (None, None)
        if not isinstance(eid, str) or eid in ("", "time") or eid in self.all_entities:
            raise ScenarioError(f"{self.sid}: each entity has an eid of its own, and here is {described!r}")
        if kind not in self.mocks or (model is not None and kind != model):
            wanted = model or f"one of {', '.join(self.mocks)}"
            raise ScenarioError(f'{self.sid}: the entity {eid} is of type "{kind}", and not {wanted}')
        entity = Entity(self.sid, eid, self.mocks[kind], [], described.get("extra_info"))
        self.all_entities[eid] = entity
        entity.children += [self.entity(child, None) for child in described.get("children") or ()]
        return entity


def related(sid: str, described: List[dict]) -> List[tuple]:
    """The pairs of full ids that are related by `rel` and `children`."""
    pairs = []
    for one in described:
        children = one.get("children") or []
        names = [*(one.get("rel") or []), *(child["eid"] for child in children)]
        pairs += [(f"{sid}.{one['eid']}", f"{sid}.{name}") for name in names]
        pairs += related(sid, children)
    return pairs
