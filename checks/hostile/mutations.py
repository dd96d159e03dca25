"""Changes files: by what they are made of (lines, numbers, names, brackets), and blindly by their bytes."""

from __future__ import annotations

import random
import re
from typing import Callable

NUMBER = re.compile(rb"(?<![\w.\"])-?\d+(?:\.\d+)?(?:[eE][-+]?\d+)?")
QUOTED = re.compile(rb"\"(?:[^\"\\\n]|\\.)*\"|'[^'\n]*'")
BRACKETS = re.compile(rb"\[[^\[\]\n]*\]|\{[^{}\n]*\}")
ENTRY = re.compile(rb"^(?:ask|got)(?: |$)", re.MULTILINE)
END = re.compile(rb"^end .*$", re.MULTILINE)
LIMITS = (1, 2, 63, 64, 80, 81, 99, 100, 101, 126, 127, 128, 199, 200, 201, 999, 1000, 1001, 9999, 10_000)
GREAT = (65535, 100_000, 100_001, 10**6, 10**6 + 1, 20_000_000, 20_000_001, 10**9, 10**9 + 1, 10**18, 10**18 + 1)
BOUNDS = tuple(2**power + more for power in (31, 32, 53, 63, 64) for more in (-1, 0, 1))
NUMBERS = tuple(str(number).encode() for number in (0, *LIMITS, *GREAT, *BOUNDS, 10**30))
ODD = (b"-0", b"0.0", b"0.5", b"1e3", b"1e400", b"-1e400", b"1e-400", b"1.7976931348623159e308", b"01", b"+1", b"1.")
NAMED = (b"NaN", b"Infinity", b"-Infinity", b"inf", b"nan", b"0x10", b"1_000", b"0b1", b"0o7", b"1979-05-27", b"07:32:00")
VALUES = (b"null", b"true", b"false", b"[]", b"{}", b'""', b"[[]]", b'{"":{}}', b'{"a":1,"a":2}', b"[1,2,3]", b"'x'")
TEXTS = (b'"time"', b'"."', b'"A-0"', b'"A-0.0"', b'"\\u0000"', b'"\\ud800"', b'"\\ud83d\\ude00"', b'"\\udc00\\ud800"')
MORE_TEXTS = (b'"\xc3\xa9"', b'"\xff"', b'"\\x"', b'"\\n"', b'"a\tb"', b'"shift"', b'"plain"', b'"weak"', b'"hybrid"')
LONG = tuple(b'"' + b"a" * length + b'"' for length in (63, 64, 65, 255, 4096))
TOKENS = NUMBERS + ODD + NAMED + VALUES + TEXTS + MORE_TEXTS + LONG
WORDS = (b"mosaikrun", b"run", b"sim", b"model", b"entity", b"conn", b"async", b"ask", b"got", b"end", b"", b"Got")
MARKS = (b"\\", b"[", b"]", b"{", b"}", b",")
BYTES = (b"\0", b"\r", b"\n", b"\r\n", b"\xef\xbb\xbf", b"\xff", b"\x80", b" ", b"\t", b'"', *MARKS)
LONGEST = 1 << 20
Change = Callable[[random.Random, bytes, bytes], bytes]


def one_of(rng: random.Random, pattern: re.Pattern, text: bytes) -> tuple[int, int]:
    """Returns where one of the places is that a pattern finds, (0, 0) where there is none."""
    places = [found.span() for found in pattern.finditer(text)]
    return rng.choice(places) if places else (0, 0)


def put(text: bytes, span: tuple[int, int], piece: bytes) -> bytes:
    """Returns a text with a piece in the place of another."""
    return text[: span[0]] + piece + text[span[1] :]


def change_number(rng: random.Random, text: bytes, other: bytes) -> bytes:
    span = one_of(rng, NUMBER, text)
    if span == (0, 0):
        return text
    old = text[slice(*span)]
    near = str(int(old) + rng.choice((-1, 1))).encode() if old.lstrip(b"-").isdigit() and len(old) < 25 else b"1"
    sign = b"-" if rng.random() < 0.15 else b""
    return put(text, span, rng.choice((near, sign + rng.choice(NUMBERS), rng.choice(ODD))))


def change_token(rng: random.Random, text: bytes, other: bytes) -> bytes:
    pattern = rng.choice((NUMBER, QUOTED, BRACKETS))
    span = one_of(rng, pattern, text)
    return put(text, span, rng.choice(TOKENS)) if span != (0, 0) else text


def exchange(rng: random.Random, text: bytes, other: bytes) -> bytes:
    pattern = rng.choice((NUMBER, QUOTED, BRACKETS))
    first, second = sorted((one_of(rng, pattern, text), one_of(rng, pattern, text)))
    if first[1] > second[0]:
        return text
    between = text[first[1] : second[0]]
    return text[: first[0]] + text[slice(*second)] + between + text[slice(*first)] + text[second[1] :]


def borrow(rng: random.Random, text: bytes, other: bytes) -> bytes:
    pattern = rng.choice((NUMBER, QUOTED, BRACKETS))
    to, source = one_of(rng, pattern, text), one_of(rng, pattern, other)
    return put(text, to, other[slice(*source)]) if to != (0, 0) and source != (0, 0) else text


def nest(rng: random.Random, text: bytes, other: bytes) -> bytes:
    span = one_of(rng, rng.choice((NUMBER, QUOTED, BRACKETS)), text)
    if span == (0, 0):
        return text
    depth = rng.choice((1, 2, 3, 25, 78, 79, 80, 81, 97, 98, 99, 100, 101, 102, 124, 125, 126, 127, 128, 129, 3000))
    open_, close = rng.choice(((b"[", b"]"), (b'{"a":', b"}"), (b"{a=", b"}"), (b"[1,", b"]"), (b"[", b"")))
    return put(text, span, open_ * depth + text[slice(*span)] + close * depth)


def change_lines(rng: random.Random, text: bytes, other: bytes) -> bytes:
    lines = text.split(b"\n")
    first, second = rng.randrange(len(lines)), rng.randrange(len(lines))
    what = rng.randrange(7)
    if what == 0:
        lines[first], lines[second] = lines[second], lines[first]
    elif what == 1:
        del lines[first]
    elif what == 2:
        lines.insert(second, lines[first])
    elif what == 3:
        lines.insert(second, lines.pop(first))
    elif what == 4:
        lines.insert(first, rng.choice(other.split(b"\n")))
    elif what == 5:
        lines[first] = rng.choice(other.split(b"\n"))
    else:
        word, space, rest = lines[first].partition(b" ")
        lines[first] = rng.choice(WORDS) + space + rest
    return b"\n".join(lines)


def splice(rng: random.Random, text: bytes, other: bytes) -> bytes:
    if rng.random() < 0.5:
        return text[: rng.randrange(len(text) + 1)] + other[rng.randrange(len(other) + 1) :]
    lines, others = text.split(b"\n"), other.split(b"\n")
    return b"\n".join(lines[: rng.randrange(len(lines) + 1)] + others[rng.randrange(len(others) + 1) :])


def count_anew(rng: random.Random, text: bytes, other: bytes) -> bytes:
    entries = len(ENTRY.findall(text))
    return END.sub(b"end %d" % entries, text)


def cut(rng: random.Random, text: bytes, other: bytes) -> bytes:
    return text[: rng.randrange(len(text) + 1)]


def change_bytes(rng: random.Random, text: bytes, other: bytes) -> bytes:
    place = rng.randrange(len(text) + 1)
    length = rng.choice((0, 0, 1, 1, 2, 4, 16, 64))
    what = rng.randrange(4)
    if what == 0:
        return put(text, (place, place + length), rng.choice(BYTES))
    if what == 1:
        return put(text, (place, place + length), bytes(rng.randrange(256) for _ in range(max(1, length))))
    if what == 2:
        return put(text, (place, place + length), text[place : place + length] * 2)
    return put(text, (place, place + 1), bytes((text[place] ^ (1 << rng.randrange(8)),))) if place < len(text) else text


def repeat(rng: random.Random, text: bytes, other: bytes) -> bytes:
    lines = text.split(b"\n")
    first = rng.randrange(len(lines))
    last = min(len(lines), first + rng.choice((1, 2, 8)))
    times = rng.choice((2, 10, 100, 202)) if rng.random() < 0.99 else rng.choice((2000, 10_001))
    times = min(times, 1 + LONGEST // (1 + sum(map(len, lines[first:last]))))
    return b"\n".join(lines[:first] + lines[first:last] * times + lines[last:])


def marks(rng: random.Random, text: bytes, other: bytes) -> bytes:
    changes: tuple[bytes, ...] = (b"\xef\xbb\xbf" + text, text.replace(b"\n", b"\r\n"), text.replace(b"1", b" 1 "))
    changes += (text.replace(b",", b", "), text.rstrip(b"\n"), text + b"\n", text.replace(b" ", b"  ", 1))
    return rng.choice(changes)


CHANGES: tuple[tuple[Change, int], ...] = (
    (change_number, 20),
    (change_token, 12),
    (exchange, 8),
    (borrow, 8),
    (nest, 6),
    (change_lines, 20),
    (splice, 6),
    (cut, 5),
    (change_bytes, 14),
    (repeat, 2),
    (marks, 1),
)
PICKED = [change for change, weight in CHANGES for _ in range(weight)]


def mutated(rng: random.Random, text: bytes, other: bytes) -> bytes:
    """Returns a text changed one to five times, as another one of its kind is at hand."""
    changes = rng.choice((1, 1, 1, 2, 2, 3, 5))
    for _ in range(changes):
        text = rng.choice(PICKED)(rng, text, other)
    return count_anew(rng, text, other) if rng.random() < 0.7 else text
