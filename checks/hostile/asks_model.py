"""What asynchronous requests are answered, after docs/rules.md: a content, or the number of a refusal, and values set."""

from __future__ import annotations

import json
from typing import Any, Callable, NamedTuple, Optional

from .json_model import depth_of, is_whole
from .record_model import Reader

UNKNOWN, MALFORMED, NAME, PAIR = 1, 2, 3, 4
Lookup = Callable[[int, str], list]


class Refused(Exception):
    """A request is refused by the number of a test."""

    def __init__(self, number: int) -> None:
        super().__init__(number)
        self.number = number


class SetValue(NamedTuple):
    """A value that is set: its source's full id, the entity, the attribute and the value."""

    source: str
    entity: int
    attr: str
    value: Any


def compact(value: Any) -> str:
    """Returns the compact JSON of a value."""
    return json.dumps(value, ensure_ascii=False, separators=(",", ":"), sort_keys=True)


class Asker:
    """A simulator of a plan that asks."""

    def __init__(self, plan: Reader, sim: int) -> None:
        self.plan, self.sim = plan, sim
        self.owners = [plan.models[model][0] for model, _, _ in plan.entities]
        names = [self.full_id(entity) for entity in range(len(plan.entities))]
        self.entities = {name: entity for entity, name in enumerate(names)}

    def full_id(self, entity: int) -> str:
        """Returns the full id of an entity."""
        model, eid, _ = self.plan.entities[entity]
        return f"{self.plan.sims[self.plan.models[model][0]].name}.{eid}"

    def entity(self, name: str) -> int:
        """Returns the entity of a full id."""
        if name not in self.entities:
            raise Refused(NAME)
        return self.entities[name]

    def lends(self, entity: int) -> bool:
        """Returns whether the entity's simulator and this one are an asynchronous pair."""
        return (self.owners[entity], self.sim) in self.plan.pairs

    def described(self, name: str) -> dict:
        """Returns the entities related to one."""
        _, _, related = self.plan.entities[self.entity(name)]
        models = {self.full_id(other): self.plan.models[self.plan.entities[other][0]][1] for other in related}
        return {other: {"type": model} for other, model in models.items()}

    def related(self, argument: Any) -> Any:
        """Returns the answer to `get_related_entities`."""
        if isinstance(argument, str):
            return self.described(argument)
        if not isinstance(argument, list) or not all(isinstance(name, str) for name in argument):
            raise Refused(MALFORMED)
        return {name: self.described(name) for name in argument}

    def got(self, argument: Any, look: Lookup) -> Any:
        """Returns the answer to `get_data`."""
        lists = isinstance(argument, dict) and all(isinstance(attrs, list) for attrs in argument.values())
        if not lists or not all(isinstance(attr, str) for attrs in argument.values() for attr in attrs):
            raise Refused(MALFORMED)
        given = {(conn.source, conn.source_attr) for conn in self.plan.conns}
        wants = {name: (self.entity(name), attrs) for name, attrs in argument.items()}
        if any((entity, attr) not in given for entity, attrs in wants.values() for attr in attrs):
            raise Refused(NAME)
        if not all(self.lends(entity) for entity, _ in wants.values()):
            raise Refused(PAIR)
        return {
            name: {attr: value for attr in attrs for value in look(entity, attr)} for name, (entity, attrs) in wants.items()
        }

    def sets(self, argument: Any) -> list[SetValue]:
        """Returns the values that a `set_data` sets."""
        if not isinstance(argument, dict) or not all(isinstance(targets, dict) for targets in argument.values()):
            raise Refused(MALFORMED)
        tables = [attrs for targets in argument.values() for attrs in targets.values()]
        if not all(isinstance(attrs, dict) for attrs in tables):
            raise Refused(MALFORMED)
        if not all(is_whole(value) and depth_of(value) <= 100 for attrs in tables for value in attrs.values()):
            raise Refused(MALFORMED)
        values = []
        for source, targets in argument.items():
            if self.owners[self.entity(source)] != self.sim:
                raise Refused(NAME)
            for name, attrs in targets.items():
                values += [SetValue(source, self.entity(name), attr, value) for attr, value in attrs.items()]
        if not all(self.takes(value.entity, value.attr) for value in values):
            raise Refused(NAME)
        if not all(self.lends(self.entity(name)) for targets in argument.values() for name in targets):
            raise Refused(PAIR)
        return values

    def takes(self, entity: int, attr: str) -> bool:
        """Returns whether an entity may be given an attribute."""
        attrs, any_inputs = self.plan.attrs[self.plan.entities[entity][0]]
        return any_inputs or attr in attrs

    def answered(self, number: int, content: list, look: Lookup) -> tuple[str, list[SetValue]]:
        """Returns the line of the report that says what a request is answered, and the values that it sets."""
        function, arguments, named = content
        try:
            if function not in ("get_data", "set_data", "get_related_entities"):
                raise Refused(UNKNOWN)
            if len(arguments) != 1 or named:
                raise Refused(MALFORMED)
            values = self.sets(arguments[0]) if function == "set_data" else []
            answer: Optional[Any] = None
            if function == "get_data":
                answer = self.got(arguments[0], look)
            if function == "get_related_entities":
                answer = self.related(arguments[0])
            return f"answer {number} {compact(answer)}", values
        except Refused as refused:
            return f"refuse {number} {refused.number}", []
