"""What a hostile simulator does instead of an answer, and the lines with which the run may end then."""

from __future__ import annotations

import json
import random
from typing import Any, NamedTuple, Optional

from .wires import frame, message

HANDSHAKE = 3
GREATEST = 67_108_864
TEXTS = ("no", "two\nlines", "", "\u00e9\u4e2d", "x" * 5000)
MEGABYTE = 1 << 20


class Moment(NamedTuple):
    """A request to a simulator: its name and id, whether it is the last, the step's time, and a right answer's frame."""

    sim: str
    function: str
    number: int
    is_last: bool
    time: int
    right: bytes

    @property
    def place(self) -> int:
        """How many messages came before in the run."""
        return self.number - HANDSHAKE


class Act(NamedTuple):
    """What is said, in pieces; what comes behind it; and the lines that may come, None for a run that ends well.

    Behind it the link is closed (`close`), the simulator goes on (`go`), or it is silent for a while (`late close`) or
    until it says the rest (`rest`).
    """

    pieces: list[bytes]
    behind: str
    lines: list[Optional[str]]
    rest: bytes = b""


def wrong_line(moment: Moment, cause: int, more: int = 0) -> str:
    """Returns what is said of a wrong message in the handshake or the run."""
    if moment.place < 0:
        return f"setup: {moment.sim} unasked message"
    return f"run 1: {moment.sim} message {moment.place + more} cause {cause}"


def close_within(rng: random.Random, moment: Moment) -> Act:
    some = moment.right[: rng.randrange(len(moment.right))]
    return Act([some], "close", [f"run 5: {moment.sim} closed its link"])


def byte_by_byte(rng: random.Random, moment: Moment) -> Act:
    return Act([bytes((byte,)) for byte in moment.right], "go", [None])


def cut_once(rng: random.Random, moment: Moment) -> Act:
    place = rng.randrange(1, len(moment.right))
    return Act([moment.right[:place]], "rest", [None], moment.right[place:])


def half_and_close(rng: random.Random, moment: Moment) -> Act:
    some = moment.right[: rng.randrange(len(moment.right))]
    return Act([some], "late close", [f"run 5: {moment.sim} closed its link"])


def long_frame(rng: random.Random, moment: Moment) -> Act:
    known = (GREATEST + 1, 2**31, 2**32 - 1, int.from_bytes(b"HTTP", "big"))
    length = rng.choice((*known, rng.randrange(GREATEST + 1, 2**32)))
    return Act([length.to_bytes(4, "big") + b"[1,"], "go", [f"run 7: {moment.sim} frame of {length} bytes"])


def no_message(moment: Moment, rng: random.Random) -> tuple[bytes, int]:
    """Returns a payload that is no message, and the number of the test that it fails."""
    number = moment.number
    deep = b"[1,%d," % number + b"[" * 127 + b"]" * 127 + b"]"
    first = (b"", b"nonsense", b"[1,0,NaN]", b"[1,%d,1e400]" % number, b"\xff\xfe", b"[1,0,null]x", deep, b"9" * MEGABYTE)
    second = (b"{}", b"[]", b"[1,%d]" % number, b"[1,%d,null,null]" % number, b"7", b'"x"')
    third = (b"[3,%d,null]" % number, b"[-1,0,null]", b'["1",0,null]', b"[1.0,0,null]", b"[null,0,null]")
    fourth = (b"[1,-1,null]", b"[1,9223372036854775808,null]", b"[1,0.0,null]", b'[1,"0",null]', b"[1,-0,null]")
    fifth = (b"[2,%d,7]" % number, b"[0,%d,null]" % number, b'[0,0,["x",[]]]', b'[0,0,[1,[],{}]]', b'[0,0,["x",{},{}]]')
    test = rng.randrange(1, 6)
    return rng.choice((first, second, third, fourth, fifth)[test - 1]), test


def garbage(rng: random.Random, moment: Moment) -> Act:
    payload, test = no_message(moment, rng)
    return Act([frame(payload)], "go", [f"run 6: {moment.sim} sent no message ({test})"])


def right_and_garbage(rng: random.Random, moment: Moment) -> Act:
    payload, test = no_message(moment, rng)
    lines: list[Optional[str]] = [f"run 6: {moment.sim} sent no message ({test})"]
    return Act([moment.right + frame(payload)], "go", lines + [None] * moment.is_last)


def another_id(rng: random.Random, moment: Moment) -> Act:
    number = rng.choice((moment.number + 1, max(0, moment.number - 1) if moment.number else 7, 2**63 - 1, 10**6))
    return Act([message(1, number, None)], "go", [wrong_line(moment, 1)])


def twice(rng: random.Random, moment: Moment) -> Act:
    lines: list[Optional[str]] = [wrong_line(moment, 1, 1)] + [None] * moment.is_last
    if moment.number == HANDSHAKE - 1:
        lines += [f"run 1: {moment.sim} message 0 cause 1"]
    return Act([moment.right * 2], "go", lines)


def failure(rng: random.Random, moment: Moment) -> Act:
    text = rng.choice(TEXTS)
    head = f"setup: {moment.sim} failed: " if moment.place < 0 else f"run 2: {moment.sim} failed: "
    return Act([message(2, moment.number, text)], "go", [head + text.replace("\n", " ")])


def request(rng: random.Random, moment: Moment) -> Act:
    asked = message(0, rng.choice((0, 7, 2**63 - 1)), ["get_progress", [], {}])
    if moment.function == "step":
        return Act([asked * rng.choice((1, 2, 50)) + moment.right], "go", [None])
    return Act([asked], "go", [wrong_line(moment, 1)])


def many_requests(rng: random.Random, moment: Moment) -> Act:
    if moment.function != "step" or rng.random() < 0.9:
        return request(rng, moment)
    asked = message(0, 7, ["get_progress", [], {}])
    return Act([asked * 10_001], "go", [wrong_line(moment, 8, 10_000)])


def contents(moment: Moment) -> list[tuple[Any, str]]:
    """Returns contents of a reply that are wrong for its request, and what is said of each."""
    sim = moment.sim
    metas = [({}, f"meta 1: {sim}"), (None, f"meta 1: {sim}"), ({"api_version": "2.0"}, f"meta 2: {sim} 2.0")]
    third = {"api_version": "3.0"}
    metas += [(dict(third, type="odd"), f"meta 3: {sim} odd"), (third, f"meta 4: {sim}")]
    metas += [(dict(third, models={"M": 7}), f"meta 5: {sim} M ")]
    made = {"eid": "e", "type": "M"}
    creates = [([], f"create 1: {sim} 1 0"), (["x" * MEGABYTE], f"create 2: {sim} 0")]
    creates += [([{"eid": "time"}], f"create 2: {sim} 0")]
    creates += [([dict(made, type="N")], f"create 4: {sim} e"), ([dict(made, rel=["f"])], f"create 5: {sim} e f")]
    steps = [(None, 4), (moment.time, 3), (-1, 3), (1.5, 2), ("x" * MEGABYTE, 2), (10**18 + 1, 2), ([], 2), (True, 2)]
    deep: Any = 0
    for _ in range(101):
        deep = [deep]
    values = [([], 5), (None, 5), ({"e": 7}, 5), ({"e": {"out": 0.5}}, 7), ({"time": -1}, 6), ({"time": "x"}, 5)]
    values += [({"e": {"out": deep}}, 5), ({"e": {"out": [[1.0]]}}, 7), ({"time": 10**18 + 1}, 5)]
    run = {"step": steps, "get_data": values}.get(moment.function, [])
    before = {"init": metas, "create": creates}.get(moment.function, [])
    return before + [(content, wrong_line(moment, cause)) for content, cause in run]


def wrong_content(rng: random.Random, moment: Moment) -> Act:
    some = contents(moment)
    if not some:
        return Act([message(1, moment.number, "x" * MEGABYTE)], "go", [None])
    content, line = rng.choice(some)
    return Act([message(1, moment.number, content)], "go", [line])


ACTS = (
    close_within,
    byte_by_byte,
    cut_once,
    half_and_close,
    long_frame,
    garbage,
    right_and_garbage,
    another_id,
    twice,
    failure,
    request,
    many_requests,
    wrong_content,
    wrong_content,
)


def drawn(rng: random.Random, moment: Moment) -> Act:
    """Returns an act."""
    return rng.choice(ACTS)(rng, moment)


def described(act: Act) -> str:
    """Returns an act in words."""
    said = b"".join(act.pieces)
    return json.dumps({"said": said[:200].hex(), "bytes": len(said), "behind": act.behind, "lines": act.lines})
