"""A second reader of records, after docs/formats.md: the first faulty line of a record and its fault, or none."""

from __future__ import annotations

import functools
from typing import Any, Callable, NamedTuple, Optional

from .json_model import Refused, depth_of, is_number, is_whole, value_of

FORM, LIMITS, PLAN, COUNT, EARLY, BEHIND = 1, 2, 3, 4, 5, 6
PLACES = {b"mosaikrun": 1, b"run": 2, b"sim": 3, b"model": 4, b"entity": 5, b"conn": 6, b"async": 7, b"got": 8}
PLACES.update({b"ask": 8, b"end": 9})
LATEST, LOOPS, ENTRIES, WIDEST = 10**9, 1000, 20_000_000, 1_000_000
KINDS = ("time-based", "event-based", "hybrid")
Fault = Optional[tuple[int, int]]


class Bad(Exception):
    """A line has this fault."""

    def __init__(self, fault: int) -> None:
        super().__init__(fault)
        self.fault = fault


def form(*tests: bool) -> None:
    """Fails as a line that hasn't the form of its kind, where a test fails."""
    if not all(tests):
        raise Bad(FORM)


def fits(*tests: bool) -> None:
    """Fails as a line with a number or reference outside its limits, where a test fails."""
    if not all(tests):
        raise Bad(LIMITS)


def are_numbers(value: Any) -> bool:
    """Returns whether a value is a list of whole numbers."""
    return isinstance(value, list) and all(map(is_number, value))


def are_texts(value: Any) -> bool:
    """Returns whether a value is a list of texts."""
    return isinstance(value, list) and all(isinstance(item, str) for item in value)


def is_message(value: Any) -> bool:
    """Returns whether a value is a message."""
    if not isinstance(value, list) or len(value) != 3 or not is_number(value[0]) or not is_number(value[1]):
        return False
    kind, number, content = value
    if kind not in (0, 1, 2) or not 0 <= number < 2**63:
        return False
    if kind == 0:
        shaped = isinstance(content, list) and len(content) == 3 and isinstance(content[0], str)
        return shaped and isinstance(content[1], list) and isinstance(content[2], dict)
    return kind == 1 or isinstance(content, str)


class Sim(NamedTuple):
    """What a `sim` line says."""

    name: str
    kind: str
    first: int
    rank: int
    events: list[int]


class Conn(NamedTuple):
    """What a `conn` line says."""

    source: int
    source_attr: str
    target: int
    target_attr: str
    way: str
    width: Optional[int]
    persistent: bool
    triggering: bool
    initial: list


class Reader:
    """What stands in the lines so far."""

    def __init__(self) -> None:
        self.last = 0
        self.second = False
        self.until = self.loops = self.entries = 0
        self.sims: list[Sim] = []
        self.models: list[tuple] = []
        self.attrs: list[tuple[list[str], bool]] = []
        self.entities: list[tuple] = []
        self.conns: list[Conn] = []
        self.pairs: list[tuple] = []
        self.count = 0
        self.messages: list[tuple[int, list]] = []
        self.ended = False

    def line(self, line: bytes) -> None:
        """Takes one line."""
        word, _, rest = line.partition(b" ")
        place = PLACES.get(word)
        if place is None or (word == b"ask" and not self.second):
            raise Bad(FORM)
        if self.last < 8 <= place and not is_valid(self):
            raise Bad(PLAN)
        form(place == self.last + 1 if self.last < 3 else place >= self.last)
        if word == b"mosaikrun":
            form(rest in (b"1", b"2"))
            self.second = rest == b"2"
        elif word == b"end":
            self.end(rest)
        else:
            TAKES[word](self, items_of(rest))
        self.last = place

    def end(self, rest: bytes) -> None:
        """Takes the last line."""
        digits = rest.isdigit() and rest.isascii() and (rest[:1] != b"0" or rest == b"0")
        form(digits)
        if rest != str(self.count).encode():
            raise Bad(COUNT)
        self.ended = True


def items_of(rest: bytes) -> list:
    """Returns the items of the list that stands behind a line's word."""
    try:
        value = value_of(rest)
    except Refused as fault:
        raise Bad(FORM) from fault
    form(isinstance(value, list))
    return value


def take_run(reader: Reader, items: list) -> None:
    form(len(items) == 3, are_numbers(items))
    until, loops, entries = items
    fits(1 <= until <= LATEST, 1 <= loops <= LOOPS, 1 <= entries <= ENTRIES)
    reader.until, reader.loops, reader.entries = items


def take_sim(reader: Reader, items: list) -> None:
    form(len(items) == 5)
    name, kind, first, rank, events = items
    form(isinstance(name, str), isinstance(kind, str), is_number(first), is_number(rank), are_numbers(events))
    fits(kind in KINDS, 0 <= first <= 10**6, 0 <= rank <= 199, all(0 <= event <= LATEST for event in events))
    reader.sims.append(Sim(name, kind, first, rank, events))


def take_model(reader: Reader, items: list) -> None:
    form(len(items) == 4)
    sim, name, attrs, any_inputs = items
    form(is_number(sim), isinstance(name, str), are_texts(attrs), isinstance(any_inputs, bool))
    fits(0 <= sim < len(reader.sims))
    reader.models.append((sim, name))
    reader.attrs.append((attrs, any_inputs))


def take_entity(reader: Reader, items: list) -> None:
    form(len(items) == 3)
    model, eid, related = items
    form(is_number(model), isinstance(eid, str), are_numbers(related))
    fits(0 <= model < len(reader.models), all(0 <= other < 10_000 for other in related))
    reader.entities.append((model, eid, related))


def way_of(second: bool, via: Any) -> tuple:
    """Returns the name of a delay, and the number beside it."""
    if isinstance(via, str):
        return via, None
    form(second, isinstance(via, list) and len(via) == 2)
    form(isinstance(via[0], str), is_number(via[1]))
    return via[0], via[1]


def check_way(second: bool, name: str, width: Any) -> None:
    """Fails where a delay is no known one."""
    if name == "shift":
        fits((width is None) != second)
        fits(width is None or 1 <= width <= WIDEST)
    else:
        fits(name in ("plain", "weak") and width is None)


def take_conn(reader: Reader, items: list) -> None:
    form(len(items) == 8)
    source, source_attr, target, target_attr, via, persistent, triggering, initial = items
    form(is_number(source), isinstance(source_attr, str), is_number(target), isinstance(target_attr, str))
    way = way_of(reader.second, via)
    form(isinstance(persistent, bool), isinstance(triggering, bool), isinstance(initial, list))
    form(not initial or (len(initial) == 1 and is_whole(initial[0]) and depth_of(initial[0]) <= 100))
    check_way(reader.second, *way)
    fits(0 <= source < len(reader.entities), 0 <= target < len(reader.entities))
    reader.conns.append(Conn(source, source_attr, target, target_attr, *way, persistent, triggering, initial))


def take_pair(reader: Reader, items: list) -> None:
    form(len(items) == 2, are_numbers(items))
    fits(all(0 <= sim < len(reader.sims) for sim in items))
    reader.pairs.append(tuple(items))


def take_ask(reader: Reader, items: list) -> None:
    form(len(items) == 4, are_numbers(items))
    sim, time, tier, advance = items
    fits(0 <= sim < len(reader.sims), 0 <= time <= LATEST, 0 <= tier <= LOOPS, 0 <= advance <= LATEST)
    reader.count += 1


def take_got(reader: Reader, items: list) -> None:
    form(len(items) == 2)
    form(is_number(items[0]), is_message(items[1]))
    fits(0 <= items[0] < len(reader.sims))
    reader.messages.append((items[0], items[1]))
    reader.count += 1


TAKES: dict[bytes, Callable[[Reader, list], None]] = {
    b"run": take_run,
    b"sim": take_sim,
    b"model": take_model,
    b"entity": take_entity,
    b"conn": take_conn,
    b"async": take_pair,
    b"ask": take_ask,
    b"got": take_got,
}


def is_well_formed(reader: Reader) -> bool:
    """Returns whether numbers, references and names are within their limits and distinct."""
    owners = [reader.models[model][0] for model, _, _ in reader.entities]
    counts = [0] * len(reader.sims)
    for sim, _ in reader.models:
        counts[sim] += 1
    sizes = 1 <= len(reader.sims) <= 200 and len(reader.entities) <= 10_000 and len(reader.conns) <= 100_000
    names = [sim.name for sim in reader.sims]
    eids = [(owner, eid) for owner, (_, eid, _) in zip(owners, reader.entities)]
    related = all(other < len(eids) for _, _, others in reader.entities for other in others)
    distinct = len(set(names)) == len(names) and len(set(eids)) == len(eids)
    spelled = not any("." in name for name in names) and not any(eid in ("", "time") for _, eid in eids)
    return reader.until >= 1 and sizes and max(counts, default=0) <= 10_000 and related and distinct and spelled


def has_ranks(reader: Reader, owners: list[int]) -> bool:
    """Returns whether the ranks are 0 to n - 1, each once, and what is plain leads to a higher one."""
    ranks = [sim.rank for sim in reader.sims]
    plain = [conn for conn in reader.conns if conn.way == "plain"]
    rises = all(ranks[owners[conn.source]] < ranks[owners[conn.target]] for conn in plain)
    pairs = all(ranks[source] < ranks[target] for source, target in reader.pairs)
    return sorted(ranks) == list(range(len(ranks))) and rises and pairs


def kinds_fit(reader: Reader, owners: list[int]) -> bool:
    """Returns whether outputs persist and inputs trigger as the types say, and alike for each of them."""
    persist: dict = {}
    trigger: dict = {}
    for conn in reader.conns:
        source_kind, target_kind = reader.sims[owners[conn.source]].kind, reader.sims[owners[conn.target]].kind
        if source_kind != "hybrid" and conn.persistent != (source_kind == "time-based"):
            return False
        if target_kind != "hybrid" and conn.triggering != (target_kind == "event-based"):
            return False
        if persist.setdefault((conn.source, conn.source_attr), conn.persistent) != conn.persistent:
            return False
        if trigger.setdefault((conn.target, conn.target_attr), conn.triggering) != conn.triggering:
            return False
    return True


def has_initial_values(reader: Reader) -> bool:
    """Returns whether a shifted persistent connection has an initial value and a plain one has none."""
    for conn in reader.conns:
        if conn.way == "plain" and conn.initial or conn.way == "shift" and conn.persistent and not conn.initial:
            return False
    return True


def is_valid(reader: Reader) -> bool:
    """Returns whether the plan that was read is valid."""
    if not is_well_formed(reader):
        return False
    owners = [reader.models[model][0] for model, _, _ in reader.entities]
    ways = [(conn.source, conn.target, conn.target_attr) for conn in reader.conns]
    once = len(set(ways)) == len(ways)
    return has_ranks(reader, owners) and once and has_initial_values(reader) and kinds_fit(reader, owners)


@functools.lru_cache(maxsize=8)
def seen(raw: bytes) -> tuple[Reader, Fault]:
    """Returns what the lines of a record say until the first faulty one, and that one with its fault, None without one."""
    pieces = raw.split(b"\n")
    reader = Reader()
    for place, piece in enumerate(pieces[:-1]):
        try:
            reader.line(piece)
        except Bad as bad:
            return reader, (place + 1, bad.fault)
        if reader.ended:
            return reader, None if pieces[place + 1 :] == [b""] else (place + 2, BEHIND)
    return reader, (len(pieces), EARLY)


def fault_of(raw: bytes) -> Fault:
    """Returns the first faulty line of a record and its fault, or None where it is a record."""
    return seen(raw)[1]


def read(raw: bytes) -> Reader:
    """Returns what a right record says."""
    return seen(raw)[0]


def full_ids(raw: bytes) -> set[str]:
    """Returns the full ids of the entities of a right record."""
    reader = read(raw)
    return {f"{reader.sims[reader.models[model][0]].name}.{eid}" for model, eid, _ in reader.entities}


def mended(raw: bytes) -> bytes:
    """Returns the record that a cut one is read as, where a program goes on with cut records; else the bytes."""
    whole = raw.split(b"\n")[:-1]
    entries = (b"ask", b"got")
    if not whole or whole[-1].split(b" ")[0] not in entries:
        return raw
    count = sum(line.split(b" ")[0] in entries for line in whole)
    return b"\n".join(whole) + b"\nend %d\n" % count


def line_of(fault: tuple[int, int]) -> bytes:
    """Returns what is printed of a fault."""
    return b"mosaikrun: record: line %d fault %d\n" % fault
