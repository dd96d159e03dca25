"""Paths into a scenario: finds the value that a path names in the text, and puts other values in its place.

A path is the name of a key, and behind it further keys and places: `until`, `sim.House.params.people`,
`entities.houses.num`, `connect[2].time_shifted`. Tables of `sim` are named by their `name` or id, tables of
`entities` by their `id`, and all tables and items by their place, counted from 0, as in the program's own lines.
The text is edited and not written anew, so comments and order stay. The reader takes TOML that the program's
`check` has accepted; of other texts it may accept more.
"""

from __future__ import annotations

import collections
import dataclasses
import json
import re
from typing import Any, NoReturn, Sequence

SPACE = re.compile(r"(?:[ \t\r\n]|#[^\n]*)*")
BLANK = re.compile(r"[ \t]*")
BARE = re.compile(r"[A-Za-z0-9_-]+")
TEXTS = re.compile(
    r'(?P<long>"""(?:\\.|[^\\])*?"""(?:"{0,2}))|(?P<raw>\'\'\'.*?\'\'\'(?:\'{0,2}))'
    r'|(?P<short>"(?:\\.|[^"\\\n])*")|(?P<plain>\'[^\'\n]*\')',
    re.DOTALL,
)
OTHER = re.compile(r"[^\s,\[\]{}#=\"']+")
WHOLE = re.compile(
    r"[+-]?(?:0|[1-9](?:_?[0-9])*)|0x[0-9A-Fa-f](?:_?[0-9A-Fa-f])*|0o[0-7](?:_?[0-7])*|0b[01](?:_?[01])*"
)
RANGE = re.compile(r"(-?[0-9]+)\.\.(-?[0-9]+)(?:\.\.([1-9][0-9]*))?(?=,|$)")
WORD = re.compile(r"[A-Za-z_][^,\"'\[\]{}=#\s]*(?=,|$)")
ESCAPED = re.compile(r"\\(?:u([0-9A-Fa-f]{4})|U([0-9A-Fa-f]{8})|x([0-9A-Fa-f]{2})|([^\s])|[ \t]*\r?\n\s*)")
LETTERS = {"b": "\b", "t": "\t", "n": "\n", "f": "\f", "r": "\r", "e": "\x1b"}
NAMED = {"sim": "name", "entities": "id"}
MOST = 1_000_000


class PathError(ValueError):
    """A path that names nothing, or values that are none; the text says which."""


class Odd(str):
    """A token that is neither a whole number nor a truth value nor a text, as a float or a date."""


@dataclasses.dataclass
class Value:
    """A value of a scenario, and where it stands in the text; a table that is made by its keys stands nowhere."""

    content: Any
    start: int = -1
    end: int = -1


def decoded(token: str) -> str:
    """The text that is written so, its marks included."""
    marks = 3 if token[:3] in ('"""', "'''") else 1
    inner = token[marks:-marks]
    if marks == 3:
        inner = re.sub(r"\A\r?\n", "", inner)
    if token[0] == "'":
        return inner

    def one(found: re.Match[str]) -> str:
        code = found[1] or found[2] or found[3]
        return chr(int(code, 16)) if code else LETTERS.get(found[4], found[4]) if found[4] else ""

    return ESCAPED.sub(one, inner)


class Reader:
    """Reads TOML and keeps where each value stands."""

    def __init__(self, text: str) -> None:
        self.text, self.place = text, 0

    def fail(self, what: str) -> NoReturn:
        line = self.text.count("\n", 0, self.place) + 1
        raise PathError(f"line {line}: {what}")

    def skip(self, pattern: re.Pattern[str] = SPACE) -> str:
        """Goes over blanks, and gives the next character, empty at the end."""
        found = pattern.match(self.text, self.place)
        self.place = found.end() if found else self.place
        return self.text[self.place : self.place + 1]

    def take(self, mark: str) -> None:
        if not self.text.startswith(mark, self.place):
            self.fail(f"{mark} is missing")
        self.place += len(mark)

    def key(self) -> str:
        found = BARE.match(self.text, self.place) or TEXTS.match(self.text, self.place)
        if not found:
            self.fail("a key is missing")
        self.place = found.end()
        return decoded(found[0]) if found[0][0] in "\"'" else found[0]

    def keys(self) -> list[str]:
        """A key of one or more parts, between points."""
        self.skip(BLANK)
        parts = [self.key()]
        while self.skip(BLANK) == ".":
            self.place += 1
            self.skip(BLANK)
            parts.append(self.key())
        return parts

    def inner(self, table: dict[str, Value], parts: list[str]) -> dict[str, Value]:
        """The table that these keys lead to, made where it isn't there; of a list of tables the last."""
        for part in parts:
            content = table.setdefault(part, Value({})).content
            content = content[-1].content if isinstance(content, list) and content else content
            if not isinstance(content, dict):
                self.fail(f"{part} is no table")
            table = content
        return table

    def pair(self, table: dict[str, Value]) -> None:
        """A key, `=` and a value."""
        *parts, last = self.keys()
        self.take("=")
        self.skip(BLANK)
        self.inner(table, parts)[last] = self.value()

    def value(self) -> Value:
        start, mark = self.place, self.text[self.place : self.place + 1]
        if mark == "[":
            content: Any = self.items()
        elif mark == "{":
            content = self.table()
        else:
            found = TEXTS.match(self.text, start) or OTHER.match(self.text, start)
            if not found:
                self.fail("a value is missing")
            self.place = found.end()
            content = decoded(found[0]) if mark in "\"'" else plain(found[0])
        return Value(content, start, self.place)

    def items(self) -> list[Value]:
        self.take("[")
        items = []
        while self.skip() != "]":
            items.append(self.value())
            if self.skip() != ",":
                break
            self.place += 1
        self.skip()
        self.take("]")
        return items

    def table(self) -> dict[str, Value]:
        self.take("{")
        table: dict[str, Value] = {}
        while self.skip() != "}":
            self.pair(table)
            if self.skip() != ",":
                break
            self.place += 1
        self.skip()
        self.take("}")
        return table

    def document(self) -> dict[str, Value]:
        """The whole text."""
        top: dict[str, Value] = {}
        here = top
        while mark := self.skip():
            if mark != "[":
                self.pair(here)
                continue
            marks = 2 if self.text.startswith("[[", self.place) else 1
            self.take("[" * marks)
            *parts, last = self.keys()
            self.take("]" * marks)
            outer = self.inner(top, parts)
            if marks == 2:
                outer.setdefault(last, Value([])).content.append(Value({}))
            here = self.inner(outer, [last])
        return top


def plain(token: str) -> Any:
    """The truth value or whole number that is written so."""
    if token in ("true", "false"):
        return token == "true"
    if not WHOLE.fullmatch(token):
        return Odd(token)
    return int(token.replace("_", ""), 0 if token[:2] in ("0x", "0o", "0b") else 10)


def read(text: str) -> dict[str, Value]:
    """The values of a scenario by their keys."""
    return Reader(text).document()


def bare(value: Value) -> Any:
    """The value alone, without where it stands."""
    if isinstance(value.content, dict):
        return {key: bare(inner) for key, inner in value.content.items()}
    return [bare(inner) for inner in value.content] if isinstance(value.content, list) else value.content


def steps(reader: Reader) -> list[Any]:
    """The keys (texts) and places (numbers) of a path, up to `=` or the end."""
    found: list[Any] = [reader.key()]
    while mark := reader.text[reader.place : reader.place + 1]:
        if mark == ".":
            reader.place += 1
            found.append(reader.key())
        elif index := re.compile(r"\[(0|[1-9][0-9]{0,8})\]").match(reader.text, reader.place):
            reader.place = index.end()
            found.append(int(index[1]))
        else:
            break
    return found


def named(tables: list[Value], kind: str, name: str) -> Value:
    """The table of `sim` or `entities` that has this name or id."""
    if kind not in NAMED:
        raise PathError(f"tables of {kind} have no names: write {kind}[0], {kind}[1] and so on")
    found, seen = [], {}
    for table in tables:
        its = bare(table).get(NAMED[kind])
        number = seen[its] = seen.get(its, -1) + 1
        if name == its or (kind == "sim" and name == f"{its}-{number}"):
            found.append(table)
    if len(found) > 1:
        raise PathError(f"{len(found)} simulators have the name {name}: write {name}-0, {name}-1 and so on")
    if not found:
        raise PathError(f"no table of {kind} has the {NAMED[kind]} {name}")
    return found[0]


def find(top: dict[str, Value], path: str) -> Value:
    """The value that this path names."""
    reader = Reader(path)
    try:
        ways = steps(reader)
    except PathError:
        ways = []
    if not ways or reader.place < len(path):
        raise PathError(f"{path} is no path: write keys with points between, and places as [0]")
    value, kind = Value(top), ""
    for depth, way in enumerate(ways):
        content = value.content
        if isinstance(way, int) and isinstance(content, list) and way < len(content):
            value = content[way]
        elif isinstance(way, str) and isinstance(content, dict) and way in content:
            value = content[way]
        elif isinstance(way, str) and isinstance(content, list) and depth == 1:
            value = named(content, kind, way)
        else:
            raise PathError(f"{path} names nothing in the scenario: a key has to stand there to be set")
        kind = way if depth == 0 else kind
    if value.start < 0:
        raise PathError(f"{path} names a whole table, which isn't written as one value: set its keys")
    return value


@dataclasses.dataclass
class Choice:
    """A path and the values that it gets in turn, each as it is written in TOML and as it stands in a table."""

    path: str
    written: list[str]
    shown: list[str]


def shown(value: Value, written: str) -> str:
    """What stands in a table for this value: a text without its marks, a number in decimal digits."""
    content = value.content
    return content if isinstance(content, str) else str(content) if type(content) is int else written


def check(value: Value) -> None:
    """Refuses what no value of a scenario can be."""
    content = value.content
    for inner in content.values() if isinstance(content, dict) else content if isinstance(content, list) else []:
        check(inner)
    if isinstance(content, Odd):
        raise PathError(f"{content} is no whole number, truth value, text, list or table")


def values(text: str) -> list[tuple[str, str]]:
    """Values with commas between, each as it is written in TOML, and as it is shown."""
    found: list[tuple[str, str]] = []
    reader = Reader(text)
    while True:
        if span := RANGE.match(text, reader.place):
            first, last, step = int(span[1]), int(span[2]), int(span[3] or 1)
            if not first <= last < first + MOST * step:
                raise PathError(f"{span[0]} is no range: FIRST..LAST or FIRST..LAST..STEP, a million values at most")
            found += [(str(number), str(number)) for number in range(first, last + 1, step)]
            reader.place = span.end()
        elif (word := WORD.match(text, reader.place)) and word[0] not in ("true", "false"):
            found.append((json.dumps(word[0], ensure_ascii=False), word[0]))
            reader.place = word.end()
        else:
            value = reader.value()
            written = text[value.start : value.end]
            check(value)
            found.append((written, shown(value, written)))
        if reader.place == len(text):
            return found
        reader.take(",")


def choice(words: str) -> Choice:
    """Reads `PATH=VALUE,VALUE,..`."""
    reader = Reader(words)
    try:
        steps(reader)
        reader.take("=")
    except PathError:
        raise PathError(f"{words} isn't PATH=VALUE,VALUE,..") from None
    path, text = words[: reader.place - 1], words[reader.place :]
    try:
        pairs = values(text)
    except (PathError, RecursionError) as fault:
        what = str(fault).replace("line 1: ", "") if isinstance(fault, PathError) else "too many lists in one another"
        raise PathError(f"{path}={text}: {what}") from None
    written = [pair[0] for pair in pairs]
    twice = [value for value, count in collections.Counter(written).items() if count > 1]
    if twice:
        raise PathError(f"{path} has the value {twice[0]} twice")
    return Choice(path, written, [pair[1] for pair in pairs])


def spans(text: str, choices: list[Choice]) -> list[tuple[int, int]]:
    """Where the values of these paths stand, which are apart from one another."""
    top = read(text)
    found = [find(top, one.path) for one in choices]
    for place, one in enumerate(found):
        for other in range(place):
            if one.start < found[other].end and found[other].start < one.end:
                raise PathError(f"{choices[other].path} and {choices[place].path} name the same value")
    return [(one.start, one.end) for one in found]


def edited(text: str, places: list[tuple[int, int]], written: Sequence[str]) -> str:
    """The text with these values at these places."""
    for (start, end), value in sorted(zip(places, written), reverse=True):
        text = text[:start] + value + text[end:]
    return text
