"""Reads lines of a record many at a time with the answers of simulators apart from the rest.

Most answers of a simulator are the same text but for whole numbers. Those are found in all of its answers at once.
What isn't so plain is read by the parser of JSON, and what isn't read at all is left to `mosaikrun.record.together`.
"""

from __future__ import annotations

import itertools
import json
import re
from typing import Any, Dict, List, NamedTuple, Optional, Tuple

from mosaikrun.record import UNREADABLE, together

# so many bytes of lines are read together: a simulator among two hundred should have some answers in them
BLOCK = 1 << 19
# a reply with an object: what stands before it, and the object
ANSWER = re.compile(rb"(\ngot \[[0-9]+,\[1,[0-9]+,)(\{.*\})(?=\]\]\n)")
# leaves of a text its digits and signs, and blanks between
DIGITS = bytes(byte if byte in b"-0123456789" else 32 for byte in range(256))
# an attribute of an entity, and its values
Column = Tuple[str, str, List[Any]]


class Shape(NamedTuple):
    """How answers look that differ in whole numbers alone: their attributes, and the text around the numbers."""

    names: List[Tuple[str, str]]
    # before each number, and after the last
    pieces: List[bytes]
    # for each run of digits, those of names too, whether it is a number
    is_number: List[bool]


class Answers:
    """The answers of a simulator in some lines: a column for each attribute where all are plain, else objects."""

    def __init__(self, texts: List[bytes], shape: Optional[Shape]):
        self._texts = texts
        self._objects: Optional[List[Dict[str, Any]]] = None
        self.shape, self.columns = shape, columns(texts, shape)
        if self.columns is None:
            self.shape = shape_of(texts[0])
            self.columns = columns(texts, self.shape)
        if self.columns is None:
            self._objects = self._read()

    def objects(self) -> List[Dict[str, Any]]:
        """The answers as objects."""
        return self._objects or self._read()

    def _read(self) -> List[Dict[str, Any]]:
        """Reads the answers as objects; ValueError where one of the texts is none."""
        found = json.loads((b"[" + b",0,".join(self._texts) + b"]").decode())
        if len(found) != 2 * len(self._texts) - 1 or any(found[1::2]) or set(map(type, found[::2])) != {dict}:
            raise ValueError
        return found[::2]


class Lines(list):
    """The items of a block of lines; an answer stands there as `{}`, and `answers` has it by its simulator's number."""

    def __init__(self, items: List[Any], answers: Dict[int, Answers]):
        super().__init__(items)
        self.answers = answers


class Reading:
    """Reads blocks of lines one after another, and knows how each simulator's answers looked last."""

    def __init__(self) -> None:
        self._shapes: Dict[int, Optional[Shape]] = {}

    def together(self, text: bytes) -> List[Any]:
        """The items of a block of lines, as `mosaikrun.record.together` has them, or as `Lines`."""
        parts = ANSWER.split(b"\n" + text)
        heads, texts = parts[1::3], parts[2::3]
        parts[2::3] = [b"{}"] * len(texts)
        rest = b"".join(parts)
        if not texts or rest.count(b"{") != len(texts):
            return together(text)
        items = together(rest[1:])
        try:
            return Lines(items, self._answers(heads, texts)) if items else []
        except UNREADABLE:
            return together(text)

    def _answers(self, heads: List[bytes], texts: List[bytes]) -> Dict[int, Answers]:
        """The answers by the number of their simulator, which stands before them."""
        groups: Dict[bytes, List[bytes]] = {}
        for head, text in zip(heads, texts):
            number = head[6 : head.index(b",")]
            if number in groups:
                groups[number].append(text)
            else:
                groups[number] = [text]
        found = {}
        for name, group in groups.items():
            number = int(name)
            found[number] = Answers(group, self._shapes.get(number))
            self._shapes[number] = found[number].shape
        return found


def shape_of(text: bytes) -> Optional[Shape]:
    """The shape of an answer all of whose values are whole numbers; None where it has others, or none."""
    names, pieces, before = [], [], "{"
    for entity, attributes in json.loads(text.decode()).items():
        if type(attributes) is not dict or not attributes or set(map(type, attributes.values())) != {int}:
            return None
        before += f"{written(entity)}:{{"
        for attribute in attributes:
            names.append((entity, attribute))
            pieces.append(f"{before}{written(attribute)}:".encode())
            before = ","
        before = "},"
    if not names:
        return None
    is_number: List[bool] = []
    for piece in pieces:
        is_number += [False] * len(piece.translate(DIGITS).split()) + [True]
    return Shape(names, [*pieces, b"}}"], is_number)


def written(name: str) -> str:
    """A name as the program writes it."""
    return json.dumps(name, ensure_ascii=False)


def columns(texts: List[bytes], shape: Optional[Shape]) -> Optional[List[Column]]:
    """The numbers of answers that all have this shape, a column for each attribute; None where one hasn't."""
    if shape is None:
        return None
    text = b"".join(texts)
    digits = text.translate(DIGITS).split()
    if len(digits) != len(shape.is_number) * len(texts):
        return None
    numbers = list(itertools.compress(digits, itertools.cycle(shape.is_number)))
    # the same text, put together of the shape and the numbers
    first, *others, last = shape.pieces
    made = numbers * 2
    made[::2], made[1::2] = numbers, [*others, last + first] * len(texts)
    if first + b"".join(made) != text + first:
        return None
    try:
        values = json.loads(b"[" + b",".join(numbers) + b"]")
    except ValueError:
        return None
    return [(*name, values[place :: len(shape.names)]) for place, name in enumerate(shape.names)]
