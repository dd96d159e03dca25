"""Second readers of scenarios and of files of watches, after docs/formats.md, over Python's own reader of TOML."""

from __future__ import annotations

import datetime
import re
from typing import Any, Callable, Optional

from .json_model import depth_of, is_number
from .record_model import full_ids

try:
    import tomllib
except ImportError:
    tomllib = None  # type: ignore[assignment]

LATEST, MOST_NESTED, MOST_PARTS, MOST_BRACKETS = 10**9, 70, 60, 10_000
NAME = re.compile(r"[A-Za-z_][A-Za-z0-9_]{0,63}\Z")
ADDRESS = re.compile(r"(?:127\.0\.0\.1|localhost):([1-9][0-9]{0,4})\Z")
KINDS = ("constant", "counter", "sum", "relay", "battery", "controller")
RULES = ("sum", "least", "greatest", "last")
TOP = ("until", "max_loop_iterations", "max_entries", "sim", "entities", "connect")
SIM = ("name", "command", "connect", "local", "params", "initial_events")
GROUP = ("id", "sim", "model", "num", "params")
BLOCK = ("from", "to", "attrs", "time_shifted", "weak", "async_requests", "initial_data")
WATCH = ("entity", "attr", "rule")


class Said(Exception):
    """The line that is printed."""


def say(text: str) -> None:
    """Ends the reading with a line."""
    raise Said(re.sub(r"[\n\r]", " ", text))


def in_order(names: Any) -> list[str]:
    """Returns names in byte order."""
    return sorted(names, key=lambda name: name.encode())


def are_in_range(value: Any) -> bool:
    """Returns whether all whole numbers in a value have 64 bits."""
    if isinstance(value, list):
        return all(map(are_in_range, value))
    if isinstance(value, dict):
        return all(map(are_in_range, value.values()))
    return not is_number(value) or -(2**63) <= value < 2**63


def is_datum(value: Any) -> bool:
    """Returns whether a value may be given or got."""
    if isinstance(value, list):
        return all(map(is_datum, value))
    if isinstance(value, dict):
        return all(map(is_datum, value.values()))
    return not isinstance(value, (float, datetime.date, datetime.time))


def finite(text: str) -> float:
    """Returns a number with a point; of one too great for 64 bits this reader can't say anything."""
    number = float(text)
    if number in (float("inf"), float("-inf")) and "inf" not in text:
        raise ValueError
    return number


def document_of(raw: bytes) -> Optional[dict]:
    """Returns the table that a text of TOML is, or None where this reader can't say."""
    if tomllib is None or raw.count(b"[") + raw.count(b"{") > MOST_BRACKETS:
        return None
    if max((line.count(b".") for line in raw.split(b"\n")), default=0) > MOST_PARTS:
        return None
    try:
        document = tomllib.loads(raw.decode("utf-8"), parse_float=finite)
        return document if depth_of(document) <= MOST_NESTED else None
    except (ValueError, RecursionError):
        return None


class Keys:
    """A table, and the word that its faults begin with."""

    def __init__(self, word: str, path: str, table: dict) -> None:
        self.word, self.path, self.table = word, path, table

    def at(self, key: str) -> str:
        """Returns the path of a key."""
        return f"{self.path}.{key}" if self.path else key

    def known(self, keys: tuple[str, ...]) -> None:
        """Fails by the least key that is none of these."""
        for key in in_order(self.table):
            if key not in keys:
                say(f"{self.word} 4: unknown key {self.at(key)}")

    def value(self, key: str, is_right: Callable[[Any], bool], is_needed: bool = False, otherwise: Any = None) -> Any:
        """Returns what stands under a key."""
        if key not in self.table:
            if is_needed:
                say(f"{self.word} 2: missing {self.at(key)}")
            return otherwise
        if not is_right(self.table[key]):
            say(f"{self.word} 3: wrong kind {self.at(key)}")
        return self.table[key]

    def text(self, key: str, is_needed: bool = False) -> Optional[str]:
        """Returns the text under a key."""
        return self.value(key, lambda value: isinstance(value, str), is_needed)

    def name(self, key: str) -> str:
        """Returns the name under a key."""
        text = self.text(key, True)
        if not NAME.match(text):
            self.beyond(key, text)
        return text

    def beyond(self, key: str, value: Any) -> None:
        """Fails by a value out of range."""
        say(f"{self.word} 5: out of range {self.at(key)} {value}")

    def number(self, key: str, most: int, otherwise: Optional[int]) -> Optional[int]:
        """Returns the number from 1 under a key."""
        number = self.value(key, is_number, otherwise is None, otherwise)
        if key in self.table and not 1 <= number <= most:
            self.beyond(key, number)
        return number

    def truth(self, key: str) -> bool:
        """Returns the truth value under a key."""
        return self.value(key, lambda value: isinstance(value, bool), False, False)

    def tables(self, key: str, least: int, most: int) -> list[dict]:
        """Returns the tables under a key."""
        tables = self.value(key, lambda value: isinstance(value, list), least > 0, [])
        for place, table in enumerate(tables):
            if not isinstance(table, dict):
                say(f"{self.word} 3: wrong kind {key}[{place}]")
        if not least <= len(tables) <= most:
            self.beyond(key, len(tables))
        return tables

    def data(self, key: str) -> dict:
        """Returns the table of values under a key."""
        table = self.value(key, lambda value: isinstance(value, dict), False, {})
        for name in in_order(table):
            if not is_datum(table[name]) or depth_of(table[name]) > 100:
                say(f"{self.word} 3: wrong kind {self.at(key)}.{name}")
        return table


class Scenario:
    """What the tables of a scenario have said so far."""

    def __init__(self) -> None:
        self.sims: list[str] = []
        self.starts: list[tuple[str, str]] = []
        self.groups: dict[str, tuple[str, int]] = {}
        self.blocks = 0
        self.leads: set[tuple[int, int]] = set()

    def sim(self, keys: Keys) -> None:
        """Takes a `sim` table."""
        keys.known(SIM)
        name = keys.name("name")
        command, address = keys.text("command"), keys.text("connect")
        found = ADDRESS.match(address) if address is not None else None
        if address is not None and not (found and 1 <= int(found.group(1)) <= 65535):
            keys.beyond("connect", address)
        local = keys.text("local")
        params = keys.data("params")
        self.times(keys)
        starts = (("command", command), ("connect", address), ("local", local))
        given = [(kind, text) for kind, text in starts if text is not None]
        if not given:
            say(f"scenario 2: missing {keys.at('command')}")
        if len(given) > 1:
            say(f"scenario 8: two kinds at {keys.path}")
        if "time_resolution" in params:
            say(f"scenario 4: unknown key {keys.at('params')}.time_resolution")
        same = sum(sim.rpartition("-")[0] == name for sim in self.sims)
        self.sims.append(f"{name}-{same}")
        self.starts.append(given[0])

    @staticmethod
    def times(keys: Keys) -> None:
        """Tests the times of initial events."""
        events = keys.value("initial_events", lambda value: isinstance(value, list), False, [])
        for place, event in enumerate(events):
            if not is_number(event):
                say(f"scenario 3: wrong kind {keys.at('initial_events')}[{place}]")
        for place, event in enumerate(events):
            if not 0 <= event <= LATEST:
                keys.beyond(f"initial_events[{place}]", event)

    def group(self, keys: Keys) -> None:
        """Takes an `entities` table."""
        keys.known(GROUP)
        name, sim = keys.name("id"), keys.text("sim", True)
        keys.text("model", True)
        count = keys.number("num", 10_000, 1)
        keys.data("params")
        if name in self.groups:
            say(f"scenario 10: group {name} taken")
        if sim not in self.sims:
            say(f"scenario 6: unknown simulator {sim} at {keys.at('sim')}")
        self.groups[name] = (sim, count)

    def side(self, keys: Keys, key: str, text: str) -> tuple[str, int]:
        """Returns the simulator that a reference is about, and how many entities it names."""
        if "." in text:
            sim = text.partition(".")[0]
            if sim not in self.sims:
                say(f"scenario 6: unknown simulator {sim} at {keys.at(key)}")
            return sim, 1
        group, bracket, index = text.partition("[")
        is_one = bool(bracket) and text.endswith("]")
        name = group if is_one else text
        if name not in self.groups:
            say(f"scenario 7: unknown group {name} at {keys.at(key)}")
        sim, count = self.groups[name]
        if not is_one:
            return sim, count
        if not re.fullmatch(r"[0-9]{1,9}", index[:-1]) or int(index[:-1]) >= count:
            keys.beyond(key, text)
        return sim, 1

    def block(self, keys: Keys) -> None:
        """Takes a `connect` table."""
        keys.known(BLOCK)
        texts = keys.text("from", True), keys.text("to", True)
        outputs = attrs_of(keys)
        shift = keys.value("time_shifted", lambda value: isinstance(value, bool) or is_number(value), False, False)
        if is_number(shift) and not 1 <= shift <= 10**6:
            keys.beyond("time_shifted", shift)
        weak, pair = keys.truth("weak"), keys.truth("async_requests")
        initial = keys.data("initial_data")
        (source, left), (target, right) = self.side(keys, "from", texts[0]), self.side(keys, "to", texts[1])
        if (shift is not False) + weak + pair > 1:
            say(f"scenario 8: two kinds at {keys.path}")
        if initial and not weak and shift is False:
            say(f"scenario 4: unknown key {keys.at('initial_data')}")
        for name in in_order(initial):
            if name not in outputs:
                say(f"scenario 4: unknown key {keys.at('initial_data')}.{name}")
        if 1 not in (left, right) and left != right:
            say(f"scenario 9: {left} to {right} entities at {keys.path}")
        if pair or (outputs and shift is False and not weak):
            self.leads.add((self.sims.index(source), self.sims.index(target)))
        self.blocks += 1


def attrs_of(keys: Keys) -> list[str]:
    """Returns the outputs of a connection's pairs of attributes."""
    outputs = []
    for place, item in enumerate(keys.value("attrs", lambda value: isinstance(value, list), False, [])):
        texts = [item] if isinstance(item, str) else item
        is_pair = isinstance(item, list) and len(item) == 2 and all(isinstance(text, str) for text in item)
        if not isinstance(item, str) and not is_pair:
            say(f"scenario 3: wrong kind {keys.at('attrs')}[{place}]")
        outputs.append(texts[0])
    return outputs


def order_of(scenario: Scenario) -> list[str]:
    """Returns the simulators in rising rank; ends with a cycle's line where they have none."""
    left, order = list(range(len(scenario.sims))), []
    while left:
        free = [sim for sim in left if not any((other, sim) in scenario.leads for other in left)]
        if not free:
            break
        left.remove(free[0])
        order.append(scenario.sims[free[0]])
    if left:
        passed = [left[0]]
        while passed[-1] not in passed[:-1]:
            passed.append(next(other for other in left if (other, passed[-1]) in scenario.leads))
        loop = passed[passed.index(passed[-1]) : -1][::-1]
        first = loop.index(min(loop))
        say("connect 8: cycle " + " ".join(scenario.sims[sim] for sim in loop[first:] + loop[:first]))
    return order


def test_command(sim: str, command: bytes) -> None:
    """Fails where a command has no words, or a wrong mark."""
    place = 0
    while (place := command.find(b"%", place)) >= 0:
        length = 8 if command.startswith(b"%(addr)s", place) else 2 * command.startswith(b"%%", place)
        if not length:
            say(f"launch 3: {sim} bad percent at {place}")
        place += length
    for part in re.finditer(rb"\"[^\"]*(\"?)|'[^']*('?)", command):
        if not (part.group(1) or part.group(2)):
            say(f"launch 2: {sim} bad quote at {part.start()}")
    if not command.strip(b" "):
        say(f"launch 1: {sim} empty command")


def checked(document: dict) -> str:
    """Returns what `check` prints of a document; ends with a line where it has a fault."""
    if not are_in_range(document):
        say("scenario 1: not TOML")
    top = Keys("scenario", "", document)
    top.known(TOP)
    top.number("until", LATEST, None)
    top.number("max_loop_iterations", 1000, 100)
    top.number("max_entries", 20_000_000, 2_000_000)
    parts = [top.tables("sim", 1, 200), top.tables("entities", 0, 10_000), top.tables("connect", 0, 100_000)]
    scenario = Scenario()
    for key, tables, take in zip(TOP[3:], parts, (scenario.sim, scenario.group, scenario.block)):
        for place, table in enumerate(tables):
            take(Keys("scenario", f"{key}[{place}]", table))
    order = order_of(scenario)
    for sim, (kind, text) in zip(scenario.sims, scenario.starts):
        if kind == "command":
            test_command(sim, text.encode())
        elif kind == "local" and text not in KINDS:
            say(f"launch 4: {sim} unknown kind")
    counts = f"sims {len(scenario.sims)}\ngroups {len(scenario.groups)}\nblocks {scenario.blocks}\n"
    return f"{counts}order {' '.join(order)}\n"


def check_of(raw: bytes) -> Optional[tuple[bytes, bytes]]:
    """Returns what `check` prints on its output and on its error output, or None where this reader can't say."""
    document = document_of(raw)
    if document is None:
        return None
    try:
        return checked(document).encode(), b""
    except Said as said:
        return b"", f"mosaikrun: {said}\n".encode()


def watched(document: dict, ids: set[str]) -> None:
    """Ends with a line where a document of watches has a fault."""
    if not are_in_range(document):
        say("watch 1: not TOML")
    top = Keys("watch", "", document)
    top.known(("watch",))
    for place, table in enumerate(top.tables("watch", 1, 1000)):
        keys = Keys("watch", f"watch[{place}]", table)
        keys.known(WATCH)
        entity, _, rule = (keys.text(key, True) for key in WATCH)
        if rule not in RULES:
            say(f"watch 6: no rule {rule} at {keys.at('rule')}")
        if entity not in ids:
            say(f"watch 7: no entity {entity} at {keys.at('entity')}")


def watches_in(raw: bytes) -> list[dict]:
    """Returns the watches of a right file of watches."""
    return (document_of(raw) or {}).get("watch", [])


def watch_of(record: bytes, raw: bytes) -> Optional[bytes]:
    """Returns the line of a file of watches of a right record, empty where it has no fault, None where it can't say."""
    document = document_of(raw)
    if document is None:
        return None
    try:
        watched(document, full_ids(record))
        return b""
    except Said as said:
        return f"mosaikrun: {said}\n".encode()
