"""A scenario as it is told so far, and its text in TOML, which the program reads."""

from __future__ import annotations

import json
import re
from typing import Any, Callable, Dict, List, NamedTuple, Optional, Sequence, Tuple, Union

from mosaikrun.errors import ScenarioError, refused

ADDRESS = "%(addr)s"
# the greatest limit of entries that the program takes; mosaik has none
MOST_ENTRIES = 20_000_000
LEAST, GREATEST = -(2**63), 2**63 - 1
DEFAULTS = {"num": 1, "max_loop_iterations": 100, "attrs": [], "params": {}, "initial_events": [], "initial_data": {}}
Pair = Tuple[str, str]


class Command(NamedTuple):
    """How a simulator is started: the words of its command, a word `%(addr)s` for the address, folder and variables."""

    words: List[str]
    cwd: Optional[str]
    env: Dict[str, str]

    def text(self, around: Sequence[str] = ()) -> str:
        """The command as a scenario has it, after the words that are to stand around it."""
        settings = [f"{name}={value}" for name, value in self.env.items()]
        folder = ["-C", self.cwd] if self.cwd else []
        before = ["env", *folder, *settings] if folder or settings else []
        return " ".join(quoted(word) for word in [*around, *before, *self.words])


class Simulator:
    """A simulator of the scenario; `how` is a Command, or a kind of start (`connect`, `local`) and its text."""

    def __init__(
        self,
        sid: str,
        name: str,
        how: Union[Command, Tuple[str, str]],
        params: Dict[str, Any],
        advice: Callable[[str], str] = lambda _: "",
    ) -> None:
        self.sid, self.name, self.how, self.params, self.advice = sid, name, how, params, advice
        self.initial_events: List[int] = []
        self.calls: List[list] = []

    def table(self, around: Sequence[str]) -> Dict[str, Any]:
        if isinstance(self.how, Command):
            start = {"command": self.how.text(around)}
        else:
            start = {self.how[0]: self.how[1]}
        return {"name": self.name, **start, "params": self.params, "initial_events": self.initial_events}


class Scenario:
    """Simulators, groups of entities and connections, each a table of the file."""

    def __init__(self, max_loop_iterations: int, max_entries: int) -> None:
        self.limits = {"max_loop_iterations": max_loop_iterations, "max_entries": max_entries}
        self.simulators: Dict[str, Simulator] = {}
        self.groups: List[Dict[str, Any]] = []
        self.connections: List[Dict[str, Any]] = []
        self.members: Dict[str, List[str]] = {}

    def group(self, sid: str, model: str, full_ids: List[str], params: Dict[str, Any]) -> None:
        """A group of entities, in the order in which they are created."""
        num = len(full_ids)
        name = f"{re.sub('[^A-Za-z0-9_]', '_', model)[:50]}_{len(self.groups)}"
        if not re.match("[A-Za-z_]", name):
            name = f"_{name}"
        self.groups.append({"id": name, "sim": sid, "model": model, "num": num, "params": params})
        self.members[name] = full_ids

    def connection(self, source: str, target: str, pairs: Sequence[Pair], **how: Any) -> None:
        attrs = [source_attr if source_attr == attr else [source_attr, attr] for source_attr, attr in pairs]
        self.connections.append({"from": source, "to": target, "attrs": attrs, **how})

    def blocks(self) -> List[Dict[str, Any]]:
        """The connections in order; where a whole group is connected one by one to the same entity, that is one."""
        first = {ids[0]: (name, ids) for name, ids in self.members.items() if len(ids) > 1}
        found, place = [], 0
        while place < len(self.connections):
            told = self.connections[place]
            name, ids = first.get(told["from"], ("", [told["from"]]))
            some = self.connections[place : place + len(ids)]
            if name and some == [{**told, "from": full_id} for full_id in ids]:
                found.append({**told, "from": name})
                place += len(ids)
            else:
                found.append(told)
                place += 1
        return found

    def text(self, until: int, around: Optional[Dict[str, Sequence[str]]] = None) -> str:
        """The text of the scenario; `around` has the words around each simulator's command by its id."""
        words = around or {}
        sims = [simulator.table(words.get(sid, ())) for sid, simulator in self.simulators.items()]
        parts = [lines({"until": until, **self.limits})]
        for name, tables in (("sim", sims), ("entities", self.groups), ("connect", self.blocks())):
            parts += [f"[[{name}]]\n{lines(table)}" for table in tables]
        return "\n".join(parts)


def lines(table: Dict[str, Any]) -> str:
    """The lines of a table of TOML, without what is as it is by default."""
    told = {key: value for key, value in table.items() if value is not False and value != DEFAULTS.get(key)}
    return "".join(f"{key} = {toml(value)}\n" for key, value in told.items())


def toml(value: Any) -> str:
    """A value as TOML writes it."""
    if isinstance(value, dict):
        return "{ " + ", ".join(f"{key_text(key)} = {toml(item)}" for key, item in value.items()) + " }"
    if isinstance(value, (list, tuple)):
        return "[" + ", ".join(toml(item) for item in value) + "]"
    return json.dumps(value, ensure_ascii=False).replace("\x7f", "\\u007f")


def key_text(key: str) -> str:
    return key if re.fullmatch("[A-Za-z0-9_-]+", key) else toml(key)


def quoted(word: str) -> str:
    """A word of a command as the program splits it: between marks where it has spaces or marks, `%` twice."""
    text = ADDRESS.join(part.replace("%", "%%") for part in word.split(ADDRESS))
    if re.fullmatch(r"[^\s'\"]+", text):
        return text
    if "'" not in text:
        return f"'{text}'"
    return '"\'"'.join(f"'{part}'" if part else "" for part in text.split("'"))


def datum(value: Any, where: str, advice: str = "") -> Any:
    """The value as a scenario has it; one that it can't have is refused, as `where` and with this advice."""
    if hasattr(value, "tolist") and not isinstance(value, (bool, int, float, str)):
        value = value.tolist()  # a number or an array of numpy
    if isinstance(value, (bool, str)):
        return value
    if isinstance(value, int):
        if not LEAST <= value <= GREATEST:
            raise refused(f"{where} is {value}: whole numbers are from -2^63 to 2^63 - 1", "Fractions")
        return value
    if isinstance(value, dict):
        if not all(isinstance(key, str) for key in value):
            raise ScenarioError(f"{where} has a key that is no text")
        return {key: datum(item, f"{where}[{key!r}]", advice) for key, item in value.items()}
    if isinstance(value, (list, tuple)):
        return [datum(item, f"{where}[{place}]", advice) for place, item in enumerate(value)]
    if isinstance(value, float):
        raise fraction(f"{where} is {value!r}", advice)
    kinds = "whole numbers, truth values, texts, lists and tables of these"
    raise refused(f"{where} is {value!r}, a {type(value).__name__}: a scenario has {kinds}; leave it out", "Fractions")


def fraction(what: str, advice: str) -> ScenarioError:
    """The one answer to a number with a point: values are whole numbers."""
    return refused(f"{what}: values are whole numbers, so give it in a smaller unit{advice}", "Fractions")


def factor_words(command: str, attr: str) -> str:
    """How `whole.py` is put around a simulator, with a factor for this attribute or parameter."""
    return (
        f"; or let examples/whole.py scale it: " f'{{"cmd": "%(python)s whole.py %(addr)s {attr}=1000 -- {command}"}}'
    )
