"""Reads JSON as docs/formats.md ("JSON") says that the program reads it, written anew over Python's own reader."""

from __future__ import annotations

import json
import re
from typing import Any

DEEPEST = 127
ODD = 0.5
SURROGATE = re.compile(r"\\u[dD][89a-fA-F]")
QUOTED = re.compile(r'"((?:[^"\\]|\\.)*)"', re.DOTALL)
ESCAPE = re.compile(r"\\u([0-9a-fA-F]{4})|\\.|[^\\]+", re.DOTALL)


class Refused(Exception):
    """The bytes are no JSON that the program takes."""


def _float(text: str) -> float:
    """Returns the stand-in of a number that isn't whole."""
    if float(text) in (float("inf"), float("-inf")):
        raise Refused
    return ODD


def _int(text: str) -> Any:
    """Returns a whole number, or the stand-in where it is `-0` or beyond 64 bits."""
    if text == "-0" or len(text) > 20:
        return _float(text)
    number = int(text)
    return number if -(2**63) <= number < 2**64 else ODD


def _constant(text: str) -> Any:
    """Refuses NaN and the infinities."""
    raise Refused


DECODER = json.JSONDecoder(parse_float=_float, parse_int=_int, parse_constant=_constant)


def nesting(text: str) -> int:
    """Returns how many brackets are open at once at most, those within quotes aside."""
    depth = most = 0
    quoted = escaped = False
    for letter in text:
        if escaped:
            escaped = False
        elif quoted:
            quoted, escaped = letter != '"', letter == "\\"
        elif letter == '"':
            quoted = True
        elif letter in "[{":
            depth += 1
            most = max(most, depth)
        elif letter in "]}":
            depth = max(0, depth - 1)
    return most


def _is_lone(body: str) -> bool:
    """Returns whether half of a pair of surrogates stands alone in the inside of a quoted text."""
    high = False
    for found in ESCAPE.finditer(body):
        code = int(found.group(1), 16) if found.group(1) else 0
        low = 0xDC00 <= code < 0xE000
        if high != low:
            return True
        high = 0xD800 <= code < 0xDC00
    return high


def value_of(raw: bytes) -> Any:
    """Returns the value that bytes of JSON say; raises Refused where they say none."""
    try:
        text = raw.decode("utf-8")
        if raw.count(b"[") + raw.count(b"{") > DEEPEST and nesting(text) > DEEPEST:
            raise Refused
        value = DECODER.decode(text)
    except (ValueError, RecursionError) as fault:
        raise Refused from fault
    if SURROGATE.search(text) and any(_is_lone(found.group(1)) for found in QUOTED.finditer(text)):
        raise Refused
    return value


def depth_of(value: Any) -> int:
    """Returns how many lists and objects stand in one another."""
    if isinstance(value, list):
        return 1 + max(map(depth_of, value), default=0)
    if isinstance(value, dict):
        return 1 + max(map(depth_of, value.values()), default=0)
    return 0


def is_whole(value: Any) -> bool:
    """Returns whether each number in a value is whole."""
    if isinstance(value, list):
        return all(map(is_whole, value))
    if isinstance(value, dict):
        return all(map(is_whole, value.values()))
    return not isinstance(value, float)


def is_number(value: Any) -> bool:
    """Returns whether a value is a whole number."""
    return type(value) is int
