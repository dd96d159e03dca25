"""Reads what the program saves and prints: records, of versions 1 and 2, and reports.

`read_record(path)` gives a `Record`: the plan of a study and what was asked and said in its run. `read_report(report)`
gives a `Report`: the steps of each simulator, with their inputs. The inputs aren't in a record; `mosaikrun replay
RECORD` prints the report that has them. Both read what there is of a file that was cut, and say what is missing.
"""
from __future__ import annotations

import gc
import io
import json
import os
import pathlib
from dataclasses import dataclass, field
from typing import Any, BinaryIO, Callable, Dict, Iterable, Iterator, List, NamedTuple, Optional, Set, Tuple, Union

KINDS = {0: "request", 1: "reply", 2: "failure"}
# what json and the shape of a line may raise
UNREADABLE = (AttributeError, IndexError, KeyError, RecursionError, TypeError, ValueError)
# so many bytes of lines are read together
BLOCK = 1 << 15
# gives the items of the lines of a block, none where they can't be read together
Reading = Callable[[bytes], List[Any]]


class NoRecord(ValueError):
    """The file doesn't begin as a record."""


class Cut(ValueError):
    """A line that can't be read."""


@dataclass
class Model:
    """A model of a simulator: its name, the names of its attributes, and whether it takes inputs of any name."""

    simulator: str
    name: str
    attributes: List[str]
    any_inputs: bool


@dataclass
class Entity:
    """An entity; `related` has the numbers of others, places in `Record.entities`."""

    simulator: str
    model: str
    eid: str
    related: List[int]

    @property
    def full_id(self) -> str:
        """The simulator's id, a point, and the eid."""
        return f"{self.simulator}.{self.eid}"


@dataclass
class Connection:
    """A connection of an output to an input.

    `kind` is `plain`, `weak` (it delivers at the next tier) or `shift` (it delivers `delay` units of time later).
    `initial` is `[]` or has the initial value.
    """

    source: Entity
    source_attribute: str
    target: Entity
    target_attribute: str
    kind: str
    delay: int
    persistent: bool
    triggering: bool
    initial: List[Any]


@dataclass
class Simulator:
    """A simulator of the plan; `type` is `time-based`, `event-based` or `hybrid`."""

    id: str
    type: str
    first_id: int
    rank: int
    initial_events: List[int]
    models: List[Model] = field(default_factory=list)
    entities: List[Entity] = field(default_factory=list)


class Ask(NamedTuple):
    """A simulator was asked for a step at this time and tier."""

    simulator: str
    time: int
    tier: int
    max_advance: int


class Message(NamedTuple):
    """A message of a simulator.

    `kind` is `request`, `reply` or `failure`. `answers` is what a reply or a failure answers: `step` (the content is
    the time of the next step, or None), `data` (the content has the outputs), or nothing. `step` is the step that it
    belongs to; a record of version 1 has none. A request's content is a list: the function, its arguments, its keyword
    arguments. A number that isn't whole stands as 0.5.
    """

    simulator: str
    kind: str
    id: int
    content: Any
    answers: str
    step: Optional[Ask]

    def output_time(self) -> Tuple[Optional[int], Optional[int]]:
        """The time and the tier that outputs have: the step's, or a later time that the simulator gave."""
        if self.step is None:
            return None, None
        given = self.content.get("time")
        if given is not None and given > self.step.time:
            return given, 0
        return self.step.time, self.step.tier

    def outputs(self) -> Iterator[Tuple[str, str, Any]]:
        """The outputs that a reply of kind `data` has: eid, attribute and value."""
        if self.answers == "data" and self.kind == "reply":
            for eid, attributes in self.content.items():
                if eid != "time":
                    for attribute, value in attributes.items():
                        yield eid, attribute, value


Entry = Union[Ask, Message]


@dataclass
class Plan:
    """What a record says of its study before the first entry."""

    version: int
    until: int = 0
    max_loop_iterations: int = 0
    max_entries: int = 0
    simulators: List[Simulator] = field(default_factory=list)
    models: List[Model] = field(default_factory=list)
    entities: List[Entity] = field(default_factory=list)
    connections: List[Connection] = field(default_factory=list)
    # pairs of simulators' ids: the second may ask the first for data and set them
    asynchronous: List[Tuple[str, str]] = field(default_factory=list)

    def simulator(self, name: str) -> Simulator:
        """The simulator of this id."""
        for simulator in self.simulators:
            if simulator.id == name:
                return simulator
        raise KeyError(f"the record has no simulator {name}")

    def entity(self, full_id: str) -> Entity:
        """The entity of this full id."""
        for entity in self.entities:
            if entity.full_id == full_id:
                return entity
        raise KeyError(f"the record has no entity {full_id}")

    def related(self, entity: Entity) -> List[Entity]:
        """The entities that this one is related to."""
        return [self.entities[number] for number in entity.related if number < len(self.entities)]


@dataclass
class Record(Plan):
    """A record: the plan, and what was asked and said, in the order in which it was."""

    entries: List[Entry] = field(default_factory=list)
    # what can't be read, or isn't there, in words
    missing: List[str] = field(default_factory=list)

    @property
    def is_whole(self) -> bool:
        """Whether nothing is missing: false for a record that was cut."""
        return not self.missing

    @property
    def asks(self) -> List[Ask]:
        """The steps that were asked for; none in a record of version 1."""
        return [entry for entry in self.entries if isinstance(entry, Ask)]

    @property
    def messages(self) -> List[Message]:
        """The messages of simulators."""
        return [entry for entry in self.entries if isinstance(entry, Message)]


class RecordReader:
    """Reads a record line by line: an iterator of its entries, for a record that is too long to be held.

    `plan` is whole when the first entry comes. A line that can't be read is left out, and `missing` says so; `ending`
    says what is missing when the last entry has come. `NoRecord` is raised where the file doesn't begin as a record.
    """

    def __init__(self, lines: Iterable[bytes]):
        self._lines = iter(lines)
        first = next(self._lines, b"")
        if first not in (b"mosaikrun 1\n", b"mosaikrun 2\n"):
            raise NoRecord("this is no record: it doesn't begin with the line mosaikrun 1 or mosaikrun 2")
        self.plan = Plan(int(first[10:]))
        self.missing: List[str] = []
        # the number of the line that was read last
        self.line = 1
        # by simulator the outputs that a connection takes, as eid and attribute: it is asked for them after each step
        self.taken: Dict[str, Set[Tuple[str, str]]] = {}
        self._entries = 0
        self._end: Optional[int] = None
        self._names: List[str] = []
        self._awaited: Dict[str, str] = {}
        self._step: Dict[str, Ask] = {}
        # reads the lines of a block together
        self._together: Reading = together
        # what a simulator's reply answers where no step is awaited: in version 1 its next step
        self._idle = "step" if self.plan.version == 1 else ""

    def __iter__(self) -> Iterator[Entry]:
        """The entries, in order."""
        for first, block in self.blocks():
            pairs = iter(block)
            for self.line, (is_message, part) in enumerate(zip(pairs, pairs), first):
                try:
                    yield self._message(*part) if is_message else self._ask(*part)
                except UNREADABLE:
                    self.leave_out(self.line)

    def blocks(self, size: int = BLOCK, read: Optional[Reading] = None) -> Iterator[Tuple[int, List[Any]]]:
        """The entries as they stand in their lines, many at a time, for who reads very many: an iterator of blocks.

        A block has the number of its first line, and for each line two items: whether it is a message, as 1 or 0, and
        its value. `unfinished` knows nothing of what was read so. Who can't take a value says so by `leave_out`.
        A block has about so many bytes, and is what `read` gives for them, which is `together` where none is named.
        """
        number, self._together = self.line + 1, read or together
        for text in texts_of(self._lines, size):
            yield from self._block(number, text)
            number += text.count(b"\n")

    def leave_out(self, number: int) -> None:
        """The line of this number can't be read."""
        self.missing.append(f"line {number} is cut, or is none of a record: left out")

    def _block(self, number: int, text: bytes) -> Iterator[Tuple[int, List[Any]]]:
        """Blocks of lines, of which the first has this number: one where all can be read together, or those of halves."""
        middle = text.find(b"\n", len(text) // 2) + 1
        if middle in (0, len(text)):
            middle = text.find(b"\n") + 1
        is_one = middle in (0, len(text))
        found = self._alone(number, text) if is_one else self._together(text)
        if found:
            self.line = number
            self._entries += len(found) // 2
            yield number, found
        elif not is_one:
            yield from self._block(number, text[:middle])
            yield from self._block(number + text.count(b"\n", 0, middle), text[middle:])

    def _alone(self, number: int, line: bytes) -> List[Any]:
        """What a block has of this line, if it is an entry; else it is a part of the plan, or the end."""
        self.line = number
        is_entry = line.startswith((b"got ", b"ask "))
        try:
            word, _, rest = line.decode().partition(" ")
            part = loaded(rest)
            if is_entry:
                return [int(word == "got"), part]
            if word == "end":
                self._end = int(part)
            else:
                self._add(word, part)
        except UNREADABLE:
            self._entries += is_entry
            self.leave_out(number)
        return []

    def ending(self) -> List[str]:
        """What the end of the record lacks."""
        if self._end is None:
            return ["there is no end line: the record is cut"]
        if self._end != self._entries:
            return [f"the end line says {self._end} messages and steps, and there are {self._entries}"]
        return []

    def unfinished(self) -> List[Ask]:
        """The steps that weren't at their end when the record ended."""
        return [step for name, step in self._step.items() if self._awaited[name]]

    def _ask(self, number: int, time: int, tier: int, max_advance: int) -> Ask:
        """A simulator was asked for a step."""
        name = self._name(number)
        ask = Ask(name, int(time), int(tier), int(max_advance))
        self._step[name], self._awaited[name] = ask, "step"
        return ask

    def _message(self, number: int, message: List[Any]) -> Message:
        """A message of a simulator."""
        kind, identity, content = message
        name = self._name(number)
        step = self._step.get(name)
        if kind == 0:
            return Message(name, "request", identity, content, "", step)
        answers = self._awaited.get(name, self._idle)
        if kind == 1 and answers:
            self._awaited[name] = "data" if answers == "step" and name in self.taken else self._idle
            if answers == "data" and not isinstance(content, dict):
                raise Cut
        return Message(name, KINDS[kind], identity, content, answers, step)

    def _name(self, number: int) -> str:
        """The id of the simulator of this number."""
        if number < 0:
            raise Cut
        return self._names[number]

    def _add(self, word: str, part: List[Any]) -> None:
        """Adds a part of the plan."""
        plan = self.plan
        if word == "run":
            plan.until, plan.max_loop_iterations, plan.max_entries = part
        elif word == "sim":
            plan.simulators.append(Simulator(*part))
            self._names.append(part[0])
        elif word == "model":
            simulator = plan.simulators[part[0]]
            plan.models.append(Model(simulator.id, *part[1:]))
            simulator.models.append(plan.models[-1])
        elif word == "entity":
            model, eid, related = part
            entity = Entity(plan.models[model].simulator, plan.models[model].name, eid, related)
            plan.entities.append(entity)
            plan.simulator(entity.simulator).entities.append(entity)
        elif word == "conn":
            self._connect(*part)
        elif word == "async":
            plan.asynchronous.append((self._name(part[0]), self._name(part[1])))
        else:
            raise Cut

    def _connect(self, start: int, output: str, goal: int, taken: str, via: Any, *rest: Any) -> None:
        """Adds a connection to the plan."""
        kind, delay = via if isinstance(via, list) else (via, 1 if via == "shift" else 0)
        source, target = self.plan.entities[start], self.plan.entities[goal]
        self.plan.connections.append(Connection(source, output, target, taken, kind, delay, *rest))
        self.taken.setdefault(source.simulator, set()).add((source.eid, output))


def loaded(text: str) -> Any:
    """The JSON value of the rest of a line, which has to end with LF."""
    if not text.endswith("\n"):
        raise Cut
    return json.loads(text)


def texts_of(lines: Iterable[bytes], size: int) -> Iterator[bytes]:
    """The lines, many at a time where they are a file's: at least so many bytes."""
    if not hasattr(lines, "read"):
        yield from lines
        return
    while True:
        text = lines.read(size)
        if not text:
            return
        yield text + lines.readline()


def together(text: bytes) -> List[Any]:
    """The items of a block with these lines, read as one JSON list; none where a line is no entry, or can't be read.

    A value that goes over the end of a line makes fewer items than the lines have.
    """
    try:
        lines = "\n" + text.decode()
        count = lines.count("\n") - 1
        if lines.count("\ngot ") + lines.count("\nask ") != count or lines[-1] != "\n":
            return []
        items = json.loads("[" + lines.replace("\ngot ", ",\n1,").replace("\nask ", ",\n0,")[1:] + "]")
    except UNREADABLE:
        return []
    return items if len(items) == 2 * count else []


def read_record(record: Union[str, os.PathLike, BinaryIO]) -> Record:
    """Reads the record in this file, which is named or open; `NoRecord` where it is none."""
    if isinstance(record, (str, os.PathLike)):
        with open(record, "rb") as file:
            return read_record(file)
    reader, collects = RecordReader(record), gc.isenabled()
    # there is no garbage among so many entries, and to look for it takes a third of the time
    gc.disable()
    try:
        entries = list(reader)
    finally:
        if collects:
            gc.enable()
    return Record(**vars(reader.plan), entries=entries, missing=reader.missing + reader.ending())


class Step(NamedTuple):
    """A step of a simulator; `inputs` are by eid, attribute and source, which is a full id."""

    time: int
    tier: int
    inputs: Dict[str, Dict[str, Dict[str, Any]]]


class Answer(NamedTuple):
    """What a simulator was answered that had asked for data, or had set them."""

    id: int
    content: Any


class Refusal(NamedTuple):
    """A request of a simulator was refused; docs/formats.md has the texts by their numbers."""

    id: int
    number: int


@dataclass
class Part:
    """What a report says of a simulator: what it was sent, in order."""

    simulator: str
    items: List[Union[Step, Answer, Refusal]] = field(default_factory=list)

    @property
    def steps(self) -> List[Step]:
        """Its steps."""
        return [item for item in self.items if isinstance(item, Step)]


@dataclass
class Report:
    """A report: a part for each simulator, and how many steps its last line says that there are."""

    parts: List[Part] = field(default_factory=list)
    end: Optional[int] = None
    # what can't be read, or isn't there, in words
    missing: List[str] = field(default_factory=list)

    @property
    def is_whole(self) -> bool:
        """Whether nothing is missing: false for a report that was cut."""
        return not self.missing

    def part(self, simulator: str) -> Part:
        """What the report says of the simulator of this id."""
        for part in self.parts:
            if part.simulator == simulator:
                return part
        raise KeyError(f"the report has no simulator {simulator}")

    def inputs(self) -> Iterator[Tuple[str, int, int, str, str, str, Any]]:
        """All inputs, in order: simulator, time, tier, eid, attribute, source, value."""
        for part in self.parts:
            for time, tier, inputs in part.steps:
                for eid, attributes in inputs.items():
                    for attribute, values in attributes.items():
                        for source, value in values.items():
                            yield part.simulator, time, tier, eid, attribute, source, value


class ReportReader:
    """Reads a report line by line: an iterator of each simulator's id and an item that it was sent.

    For a simulator's first line the item is None. `missing` and `end` are right when the last item has come.
    """

    def __init__(self, lines: Iterable[bytes]):
        self.missing: List[str] = []
        self.end: Optional[int] = None
        self._lines = lines

    def __iter__(self) -> Iterator[Tuple[str, Union[None, Step, Answer, Refusal]]]:
        """The items, in order."""
        simulator, steps = None, 0
        for number, line in enumerate(self._lines, 1):
            try:
                word, _, rest = line.decode().partition(" ")
                if not rest.endswith("\n") or self.end is not None:
                    raise Cut
                if word == "sim":
                    simulator = rest[:-1]
                    yield simulator, None
                elif word == "end":
                    self.end = int(rest)
                elif simulator is None:
                    raise Cut
                else:
                    item = read_item(word, rest)
                    steps += word == "step"
                    yield simulator, item
            except UNREADABLE:
                self.missing.append(f"line {number} is cut, or is none of a report: left out")
        if self.end is None:
            self.missing.append("there is no end line: the report is cut, or there is none")
        elif self.end != steps:
            self.missing.append(f"the end line says {self.end} steps, and there are {steps}")


def read_item(word: str, rest: str) -> Union[Step, Answer, Refusal]:
    """An item of a report from its line."""
    first, _, second = rest.partition(" ")
    if word == "step":
        time, tier = first.split(":")
        inputs = json.loads(second)
        if not all(isinstance(values, dict) for attributes in inputs.values() for values in attributes.values()):
            raise Cut
        return Step(int(time), int(tier), inputs)
    if word == "answer":
        return Answer(int(first), json.loads(second))
    if word == "refuse":
        return Refusal(int(first), int(second))
    raise Cut


def read_report(report: Union[str, bytes, os.PathLike, BinaryIO]) -> Report:
    """Reads a report: its text, or a file that is named or open.

    A `bytes`, and a `str` that has an end of line or is empty, is the text itself; another `str` is a name.
    """
    if isinstance(report, str) and ("\n" in report or not report):
        report = report.encode()
    if isinstance(report, bytes):
        return _report(io.BytesIO(report))
    if isinstance(report, (str, os.PathLike)):
        with open(pathlib.Path(report), "rb") as file:
            return _report(file)
    return _report(report)


def _report(file: BinaryIO) -> Report:
    """Reads the report that is left in an open file."""
    reader, read = ReportReader(file), Report()
    for simulator, item in reader:
        if item is None:
            read.parts.append(Part(simulator))
        else:
            read.parts[-1].items.append(item)
    read.end, read.missing = reader.end, reader.missing
    return read
