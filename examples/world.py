"""A scenario writer, for scenarios with loops: mosaik's `World`, `start`, `create` and `connect`, which write a file.

    world = World({"House": {"cmd": "python3 house.py %(addr)s"}, "Grid": {"local": "sum"}})
    house, grid = world.start("House", step=5), world.start("Grid")
    connect_many_to_one(world, house.House.create(3, power=7), grid.Sum(), ("out", "in"))
    world.write("study.toml", until=96)

Nothing is started. What has no counterpart in a scenario file is refused with a ValueError.
"""
import contextlib
import json
import re
from typing import Any, Dict, Iterable, Iterator, List, Optional, Tuple, Union

KINDS = {"cmd": "command", "connect": "connect", "local": "local"}
Attr = Union[str, Tuple[str, str]]


class Entity:
    """An entity, as `from` and `to` of a connection name it."""

    def __init__(self, sid: str, reference: str) -> None:
        self.sid, self.reference = sid, reference


class Model:
    """A model of a simulator, which makes entities."""

    def __init__(self, world: "World", sid: str, name: str) -> None:
        self.world, self.sid, self.name = world, sid, name

    def __call__(self, **params: Any) -> Entity:
        return self.create(1, **params)[0]

    def create(self, num: int, **params: Any) -> List[Entity]:
        group = f"{re.sub('[^A-Za-z0-9_]', '_', self.name)}_{len(self.world.groups)}"
        self.world.groups.append({"id": group, "sim": self.sid, "model": self.name, "num": num, "params": params})
        return [Entity(self.sid, f"{group}[{i}]" if num > 1 else group) for i in range(num)]


class Sim:
    """A simulator: its attributes are its models."""

    def __init__(self, world: "World", sid: str) -> None:
        self.world, self.sid = world, sid

    def __getattr__(self, name: str) -> Model:
        return Model(self.world, self.sid, name)

    def entity(self, eid: str) -> Entity:
        """An entity that belongs to no group, such as a child."""
        return Entity(self.sid, f"{self.sid}.{eid}")


class World:
    """The scenario as it is told so far: simulators, groups of entities and connections, each a table of the file."""

    def __init__(self, config: Dict[str, Dict[str, str]], max_loop_iterations: int = 100) -> None:
        self.config, self.top = config, {"max_loop_iterations": max_loop_iterations}
        self.sims: Dict[str, dict] = {}
        self.groups: List[dict] = []
        self.connections: List[dict] = []
        self.in_group = False

    def start(self, name: str, sim_id: Optional[str] = None, **params: Any) -> Sim:
        if sim_id is not None:
            raise ValueError(f"{name}: {sim_id}: a simulator's id is its name and its number")
        others = set(self.config[name]) - set(KINDS)
        if others:
            raise ValueError(f"{name}: {', '.join(sorted(others))}: a simulator has one of {', '.join(KINDS)}")
        how = {KINDS[kind]: text.replace("%(python)s", "python3") for kind, text in self.config[name].items()}
        sid = f"{name}-{sum(sim['name'] == name for sim in self.sims.values())}"
        self.sims[sid] = {"name": name, **how, "params": params, "initial_events": []}
        return Sim(self, sid)

    @contextlib.contextmanager
    def group(self) -> Iterator[None]:
        """The simulators of a loop within one time. A scenario file doesn't name them; it has no group in a group."""
        if self.in_group:
            raise ValueError("group: a scenario file has no group within a group")
        self.in_group = True
        try:
            yield
        finally:
            self.in_group = False

    def set_initial_event(self, sid: str, time: int = 0) -> None:
        self.sims[sid]["initial_events"].append(time)

    def connect(
        self,
        src: Entity,
        dest: Entity,
        *attrs: Attr,
        time_shifted: Union[bool, int] = False,
        weak: bool = False,
        async_requests: bool = False,
        initial_data: Optional[Dict[str, Any]] = None,
    ) -> None:
        pairs = [list(attr) if isinstance(attr, tuple) else attr for attr in attrs]
        ends = {"from": src.reference, "to": dest.reference, "attrs": pairs}
        kind = {"time_shifted": time_shifted, "weak": weak, "async_requests": async_requests}
        self.connections.append({**ends, **kind, "initial_data": initial_data or {}})

    def write(self, path: str, until: int, **limits: int) -> None:
        """Writes the scenario; `max_entries` may be a limit."""
        with open(path, "w", encoding="utf-8") as file:
            file.write(self.text(until, **limits))

    def text(self, until: int, **limits: int) -> str:
        parts = [lines({"until": until, **self.top, **limits})]
        for name, tables in (("sim", self.sims.values()), ("entities", self.groups), ("connect", self.connections)):
            parts += [f"[[{name}]]\n{lines(table)}" for table in tables]
        return "\n".join(parts)


def connect_many_to_one(world: World, src_set: Iterable[Entity], dest: Entity, *attrs: Attr, **how: Any) -> None:
    """Connects each of the set to the one entity, as mosaik's `util` does."""
    for src in src_set:
        world.connect(src, dest, *attrs, **how)


DEFAULTS = {"num": 1, "max_loop_iterations": 100, "attrs": [], "params": {}, "initial_events": [], "initial_data": {}}


def lines(table: dict) -> str:
    """The lines of a table of TOML, without what is as it is by default."""
    told = {key: value for key, value in table.items() if value is not False and value != DEFAULTS.get(key)}
    return "".join(f"{key} = {toml(value, key)}\n" for key, value in told.items())


def toml(value: Any, where: str) -> str:
    """A value as TOML writes it; a float or None has no place in a scenario."""
    if isinstance(value, dict):
        return "{ " + ", ".join(f"{key_text(key)} = {toml(item, key)}" for key, item in value.items()) + " }"
    if isinstance(value, (list, tuple)):
        return "[" + ", ".join(toml(item, where) for item in value) + "]"
    if isinstance(value, (bool, int, str)):
        return json.dumps(value, ensure_ascii=False)
    raise ValueError(f"{where} is {value!r}: values are whole numbers, truth values, texts, lists and tables")


def key_text(key: str) -> str:
    return key if re.fullmatch("[A-Za-z0-9_-]+", key) else json.dumps(key, ensure_ascii=False)
