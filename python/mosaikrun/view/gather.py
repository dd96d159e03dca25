"""Gathers what a page shows of one record: the plan, the steps, and the values over time.

Columns of numbers are packed: the smallest kind of number that holds them, compressed, in base64. The page's script
unpacks a column when it is looked at.
"""

from __future__ import annotations

import base64
import contextlib
import gc
import json
import os
import sys
import zlib
from array import array
from json.encoder import encode_basestring
from operator import itemgetter
from typing import Any, Callable, Dict, Iterable, Iterator, List, Optional, Sequence, Set, Tuple, Union

from mosaikrun.record import UNREADABLE, Ask, Plan, RecordReader
from mosaikrun.view.plain import BLOCK, Column, Lines, Reading

# kinds of whole numbers of a column, the smallest first: the letter that module `array` has for it, and its name
KINDS = [("b", "i8"), ("h", "i16"), ("i", "i32")]
# what a simulator's next reply answers
NOTHING, STEP, DATA = 0, 1, 2
# so many different texts of one attribute are told apart
TEXTS = 200
# so many characters of a text are kept
LONGEST = 120
written = json.JSONEncoder(separators=(",", ":"), ensure_ascii=False).encode

Packed = Dict[str, Any]


def packed(numbers: Sequence[Union[int, float]]) -> Packed:
    """A column of numbers for the page; where any is a fraction or beyond 32 bits, all become floats."""
    kind, column = smallest(numbers)
    if sys.byteorder == "big":
        column.byteswap()
    return {"kind": kind, "count": len(column), "data": base64.b64encode(zlib.compress(column.tobytes(), 1)).decode()}


def smallest(numbers: Sequence[Union[int, float]]) -> Tuple[str, array]:
    """The column of the smallest kind that holds these numbers, and the kind's name."""
    for letter, kind in KINDS:
        with contextlib.suppress(OverflowError, TypeError):
            return kind, array(letter, numbers)
    return "f64", array("d", map(float, numbers))


def short(value: Any) -> str:
    """A value as JSON, cut where it is long."""
    text = beginning(value, LONGEST)
    return text if len(text) <= LONGEST else text[: LONGEST - 1] + "…"


def beginning(value: Any, room: int) -> str:
    """A value as JSON; of one that takes more room, a longer text that is the same in so many characters."""
    kind = type(value)
    if kind is str:
        return encode_basestring(value)
    if kind is int:
        return repr(value)
    if not value or kind not in (dict, list):
        return written(value)
    parts: List[str] = []
    for part in value:
        if room < 0:
            break
        text = f"{encode_basestring(part)}:{beginning(value[part], room - 1)}" if kind is dict else beginning(part, room - 1)
        parts.append(text)
        room -= len(text) + 1
    return f"{{{','.join(parts)}}}" if kind is dict else f"[{','.join(parts)}]"


class Shown(str):
    """A value as the page shows it, in place of the object or the list that it was."""


def kept(values: List[Any]) -> List[Any]:
    """The values without objects and lists, of which a page shows but the beginning."""
    if set(map(type, values)).isdisjoint((dict, list)):
        return values
    return [Shown(short(value)) if type(value) in (dict, list) else value for value in values]


class Series:
    """The values of one attribute of an entity, each with the number of the sample that brought it."""

    def __init__(self, first: int):
        self.first = first
        self.samples: List[int] = []
        self.values: List[Any] = []

    def packed(self) -> Dict[str, Any]:
        """The values for the page: numbers, or numbers of texts where any value is something else."""
        count = len(self.samples)
        dense = self.samples[-1] - self.first == count - 1
        page: Dict[str, Any] = {"first": self.first}
        if not dense or self.samples[0] != self.first:
            page["samples"] = packed(self.samples)
        if set(map(type, self.values)) <= {int, bool}:
            return {**page, "values": packed(self.values)}
        texts: Dict[str, int] = {}
        numbers = []
        for value in self.values:
            text = value if type(value) is Shown else short(value)
            numbers.append(texts.setdefault(text, len(texts)) if text in texts or len(texts) < TEXTS else TEXTS)
        return {**page, "values": packed(numbers), "texts": list(texts) + ["other values"] * (TEXTS in numbers)}


class Samples:
    """When a simulator gave values: one sample an answer to get_data, or a request that sets data."""

    def __init__(self) -> None:
        self.times: List[int] = []
        self.tiers: List[int] = []
        # by entity and attribute; None where no connection takes the attribute
        self.series: Dict[str, Dict[str, Optional[Series]]] = {}

    def add(self, time: int, tier: int, values: Dict[str, Any], taken: Optional[Set[Tuple[str, str]]] = None) -> None:
        """Adds a sample: values by entity and attribute, of which those that are taken are kept."""
        number = len(self.times)
        self.times.append(time)
        self.tiers.append(tier)
        for entity, attributes in values.items():
            if type(attributes) is not dict:
                continue
            for attribute, value in attributes.items():
                column = self.column(entity, attribute, number, taken)
                if column is not None:
                    column.samples.append(number)
                    column.values += kept([value])

    def add_alike(self, steps: List[List[int]], found: List[Column], taken: Set[Tuple[str, str]]) -> None:
        """Adds the answers to these steps attribute by attribute, where all have the same ones and no time."""
        first = len(self.times)
        numbers = list(range(first, first + len(steps)))
        self.times.extend([step[1] for step in steps])
        self.tiers.extend([step[2] for step in steps])
        for entity, attribute, values in found:
            column = self.column(entity, attribute, first, taken)
            if column is not None:
                column.samples.extend(numbers)
                column.values.extend(values)

    def column(self, entity: str, attribute: str, first: int, taken: Optional[Set[Tuple[str, str]]]) -> Optional[Series]:
        """The series of an attribute, made where it isn't there; None where the attribute isn't taken."""
        series = self.series.setdefault(entity, {})
        if attribute not in series:
            series[attribute] = Series(first) if taken is None or (entity, attribute) in taken else None
        return series[attribute]

    def columns(self) -> Iterator[Tuple[str, str, Series]]:
        """The series, each with its entity and attribute."""
        for entity, attributes in self.series.items():
            for attribute, column in attributes.items():
                if column is not None:
                    yield entity, attribute, column


def alike(answers: List[Dict[str, Any]]) -> Optional[List[Column]]:
    """The entities and attributes that all of these answers have, with the values; None where they have different ones."""
    found: List[Column] = []
    count = len(answers)
    try:
        # who has each of so many names and no more has these names
        if sum(map(len, answers)) != len(answers[0]) * count:
            return None
        for entity, attributes in answers[0].items():
            inner = list(map(itemgetter(entity), answers))
            found += [(entity, name, kept(list(map(itemgetter(name), inner)))) for name in attributes]
            if sum(map(len, inner)) != len(attributes) * count:
                return None
    except (KeyError, TypeError):
        # a name is missing, or what should have names is a number, a text or a list
        return None
    return found


class Turns:
    """The turns of all simulators, a column for each thing that is known of a turn."""

    COLUMNS = ("simulator", "time", "tier", "advance", "asked", "replied", "ended", "next", "after", "requests")

    def __init__(self) -> None:
        self.columns: Dict[str, List[int]] = {name: [] for name in self.COLUMNS}

    def room(self, count: int) -> None:
        """Makes room for so many turns of which nothing has come."""
        for name, nothing in (("replied", -1), ("ended", -1), ("next", -1), ("requests", 0)):
            self.columns[name].extend([nothing] * count)

    def asked(self, asks: List[List[int]]) -> None:
        """Adds turns: each has its simulator, time, tier, `max_advance`, place, and the turn that it came after."""
        names = ("simulator", "time", "tier", "advance", "asked", "after")
        for name, column in zip(names, zip(*asks)):
            self.columns[name].extend(column)
        for name in ("replied", "ended", "next", "requests"):
            del self.columns[name][len(self.columns["time"]) :]


class Gathering:
    """Goes through a record once, and keeps what the page shows."""

    def __init__(self, reader: RecordReader):
        self.reader = reader
        self.turns = Turns()
        self.given: Dict[str, Samples] = {}
        # by simulator its requests that set data: the time at which they count, their id, and what they set
        self.settings: Dict[str, List[Tuple[int, int, Dict[str, Dict[str, Any]]]]] = {}
        # by simulator the places of its messages among the entries
        self.messages: Dict[str, array] = {}
        self.first_line = 0
        self.entries = 0
        # by number: what notes a place of a simulator's message, its last turn, and what its next reply answers
        self._said: Dict[int, Callable[[int], None]] = {}
        self._turn: Dict[int, int] = {}
        self._awaited: Dict[int, int] = {}
        # by number what a reply answers after that to a step, once the step was answered
        self._then: Dict[int, int] = {}
        # by number what each simulator was asked last, in the order in which they were first asked
        self._ask: Dict[int, List[int]] = {}
        self._last = -1
        # of a block: what was asked, and by number the steps that were answered with data, and these
        self._asks: List[List[int]] = []
        self._answers: Dict[int, Tuple[List[List[int]], List[Dict[str, Any]]]] = {}
        # by number which of a simulator's objects are no such answers
        self._others: Dict[int, List[int]] = {}

    def read(self) -> None:
        """Reads the record to its end."""
        collects = gc.isenabled()
        gc.disable()
        try:
            for line, block in self.reader.blocks(BLOCK, Reading().together):
                if not self.first_line:
                    self._begin(line)
                self._take(line - self.first_line, block)
        finally:
            if collects:
                gc.enable()

    def unfinished(self) -> List[Ask]:
        """The steps that weren't at their end when the record ended."""
        return [Ask(self._name(number), *ask[1:4]) for number, ask in self._ask.items() if self._awaited[number]]

    def _name(self, number: int) -> str:
        """The id of the simulator of this number."""
        return self.reader.plan.simulators[number].id

    def _begin(self, line: int) -> None:
        """The entries begin at this line."""
        self.first_line = line
        numbers = range(len(self.reader.plan.simulators))
        self.messages = {self._name(number): array("q") for number in numbers}
        self._said = {number: self.messages[self._name(number)].append for number in numbers}
        self._turn = dict.fromkeys(numbers, -1)
        self._awaited = dict.fromkeys(numbers, NOTHING)
        self._then = {number: DATA if self._name(number) in self.reader.taken else NOTHING for number in numbers}

    def _take(self, place: int, block: List[Any]) -> None:
        """Takes the entries of a block, of which the first has this place."""
        self.turns.room(block[::2].count(0))
        self._asks, self._answers, self._others = [], {}, {}
        pairs = iter(block)
        entries = enumerate(zip(pairs, pairs), place)
        while not self._took(entries):
            pass
        self.turns.asked(self._asks)
        for number, (steps, answers) in self._answers.items():
            columns = None
            if isinstance(block, Lines):
                columns, answers = self._apart(number, block)
            name = self._name(number)
            samples, taken = self.given.setdefault(name, Samples()), self.reader.taken[name]
            columns = columns or alike(answers)
            if columns is None:
                add_apart(samples, steps, answers, taken)
            else:
                samples.add_alike(steps, columns, taken)

    def _apart(self, number: int, block: Lines) -> Tuple[Optional[List[Column]], List[Dict[str, Any]]]:
        """A simulator's answers in this block: columns where all are plain, else objects."""
        found, others = block.answers[number], set(self._others.get(number, ()))
        if found.columns and not others:
            return found.columns, []
        return None, [answer for place, answer in enumerate(found.objects()) if place not in others]

    def _took(self, entries: Iterator[Tuple[int, Tuple[int, Any]]]) -> bool:
        """Takes entries, each with its place, up to one that can't be read, which is left out; whether there is none."""
        columns, asks, turn_of, ask_of = self.turns.columns, self._asks, self._turn, self._ask
        replied, ended, following = columns["replied"], columns["ended"], columns["next"]
        said, awaited, then, last, place = self._said, self._awaited, self._then, self._last, self.entries - 1
        begun = len(columns["time"]) + len(asks)
        try:
            for place, (is_message, part) in entries:
                if is_message:
                    number, (kind, _, content) = part
                    said[number](place)
                    turn = turn_of[number]
                    if turn >= 0:
                        last = turn
                    if turn < 0 or kind != 1:
                        self._special(place, part)
                        continue
                    ended[turn] = place
                    if awaited[number] == STEP:
                        awaited[number], replied[turn] = then[number], place
                        if type(content) is int:
                            following[turn] = content
                        elif content is not None:
                            self._other(part)
                    else:
                        self._given(part, awaited[number])
                        awaited[number] = NOTHING
                else:
                    number, _, _, _ = part
                    turn_of[number], awaited[number], ask_of[number] = begun, STEP, part
                    begun += 1
                    part += (place, last)
                    asks.append(part)
            return True
        except UNREADABLE:
            self._other(part)
            self.reader.leave_out(self.first_line + place)
            return False
        finally:
            self._last, self.entries = last, place + 1

    def _special(self, place: int, part: List[Any]) -> None:
        """A simulator sent a request, or a failure, or something before its first step."""
        number, (kind, identity, content) = part
        columns, turn = self.turns.columns, self._turn[number]
        if turn < 0:
            self._other(part)
        elif kind == 0:
            columns["requests"][turn] += 1
            self._setting(number, identity, content)
        elif kind == 2:
            columns["ended"][turn] = place
            if self._awaited[number] == STEP:
                columns["replied"][turn] = place
        else:
            raise ValueError

    def _given(self, part: List[Any], awaited: int) -> None:
        """A simulator gave its outputs, if they were awaited; what is no object was a wrong message."""
        number, content = part[0], part[1][2]
        if not awaited:
            self._other(part)
        elif type(content) is dict:
            if number not in self._answers:
                self._answers[number] = ([], [])
            steps, answers = self._answers[number]
            steps.append(self._ask[number])
            answers.append(content)

    def _other(self, part: Any) -> None:
        """A message that is no answer to get_data; where it has an object, that one's place is noted."""
        with contextlib.suppress(*UNREADABLE):
            number, (_, _, content) = part
            if type(content) is dict:
                before = len(self._answers[number][0]) if number in self._answers else 0
                others = self._others.setdefault(number, [])
                others.append(before + len(others))

    def _setting(self, number: int, identity: int, content: Any) -> None:
        """A simulator set data in others: kept under the entity in which they are set, and where they come from."""
        if not (isinstance(content, list) and len(content) > 1 and content[0] == "set_data"):
            return
        if not (isinstance(content[1], list) and len(content[1]) == 1):
            return
        found: Dict[str, Dict[str, Any]] = {}
        for source, entities in content[1][0].items() if isinstance(content[1][0], dict) else ():
            for entity, attributes in entities.items() if isinstance(entities, dict) else ():
                for attribute, value in attributes.items() if isinstance(attributes, dict) else ():
                    found.setdefault(entity, {})[f"{attribute} set by {source}"] = value
        self.settings.setdefault(self._name(number), []).append((self._ask[number][1] + 1, identity, found))


def add_apart(samples: Samples, steps: List[List[int]], answers: List[Dict[str, Any]], taken: Set[Tuple[str, str]]) -> None:
    """Adds the answers to these steps one by one; one that has a later time counts at that time."""
    for (_, time, tier, *_), content in zip(steps, answers):
        late = content.get("time")
        if type(late) is int and late > time:
            time, tier = late, 0
        samples.add(time, tier, content, taken)


def plan_of(plan: Plan) -> Dict[str, Any]:
    """What the page shows of the plan; simulators, models and entities are named by their numbers."""
    number = {sim.id: place for place, sim in enumerate(plan.simulators)}
    models = {(model.simulator, model.name): place for place, model in enumerate(plan.models)}
    entities = {entity.full_id: place for place, entity in enumerate(plan.entities)}
    return {
        "version": plan.version,
        "until": plan.until,
        "loops": plan.max_loop_iterations,
        "limit": plan.max_entries,
        "simulators": [{"id": sim.id, "type": sim.type, "rank": sim.rank} for sim in plan.simulators],
        "models": [[number[model.simulator], model.name] for model in plan.models],
        "entities": [[number[one.simulator], models[one.simulator, one.model], one.eid] for one in plan.entities],
        "connections": [
            [
                entities[one.source.full_id],
                one.source_attribute,
                entities[one.target.full_id],
                one.target_attribute,
                one.kind,
                one.delay,
                int(one.persistent),
                int(one.triggering),
                [short(value) for value in one.initial],
            ]
            for one in plan.connections
        ],
        "asynchronous": [[number[first], number[second]] for first, second in plan.asynchronous],
    }


def series_of(plan: Plan, samples: Dict[str, Samples], is_set: bool) -> List[Dict[str, Any]]:
    """The samples of each simulator with the series that they bring."""
    persistent = {(one.source.full_id, one.source_attribute): one.persistent for one in plan.connections}
    pages = []
    for simulator, given in samples.items():
        series = []
        for entity, attribute, column in given.columns():
            name = entity if is_set else f"{simulator}.{entity}"
            holds = not is_set and persistent.get((name, attribute), False)
            series.append({"entity": name, "attribute": attribute, "holds": holds, **column.packed()})
        pages.append(
            {
                "simulator": simulator,
                "set": is_set,
                "times": packed(given.times),
                "tiers": packed(given.tiers),
                "series": series,
            }
        )
    return pages


def settings_of(gathering: Gathering, refused: Set[Tuple[str, int]]) -> List[Dict[str, Any]]:
    """The series of what was set, without the requests that were refused: each a simulator's id and the request's."""
    samples: Dict[str, Samples] = {}
    for simulator, settings in gathering.settings.items():
        for time, identity, found in settings:
            if (simulator, identity) not in refused:
                samples.setdefault(simulator, Samples()).add(time, 0, found)
    return series_of(gathering.reader.plan, samples, True)


def gather(path: Union[str, os.PathLike], name: Optional[str] = None) -> Tuple[Gathering, Dict[str, Any]]:
    """Reads a record: what was gathered, and what the page shows of it."""
    with open(path, "rb") as file:
        gathering = Gathering(RecordReader(file))
        gathering.read()
    plan, turns = gathering.reader.plan, gathering.turns.columns
    shown = {
        "name": name or os.path.basename(os.fspath(path)),
        "bytes": os.path.getsize(path),
        **plan_of(plan),
        "entries": gathering.entries,
        "messages": sum(map(len, gathering.messages.values())),
        "first_line": gathering.first_line,
        "turns": {column: packed(turns[column]) for column in Turns.COLUMNS},
        "samples": series_of(plan, gathering.given, False),
        "missing": gathering.reader.missing + gathering.reader.ending(),
    }
    return gathering, shown
