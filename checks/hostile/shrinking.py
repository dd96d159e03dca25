"""Cuts a trial that is wrong down to a least one that is wrong in the same way, and tells it as a stored case."""

from __future__ import annotations

import json
import time
from typing import Callable

from .driving import NOT_RUN, Driver
from .trials import Rules, Trial, job_of, wrong_of

SECONDS = 30


def complaint(text: str) -> str:
    """Returns what kind of wrong it is: what stands before the numbers and texts of it."""
    return text.split(":")[0] + ":" + text.split(":")[1][:18]


def pieces_of(data: bytes, by_lines: bool) -> list[bytes]:
    """Returns the pieces that are tried to be left out: lines, or bytes."""
    return data.splitlines(True) if by_lines else [data[place : place + 1] for place in range(len(data))]


def least(pieces: list[bytes], is_wrong: Callable[[bytes], bool]) -> list[bytes]:
    """Returns pieces of which none, and no run of some, can be left out."""
    length = max(1, len(pieces) // 2)
    while True:
        place = 0
        while place < len(pieces):
            fewer = pieces[:place] + pieces[place + length :]
            if is_wrong(b"".join(fewer)):
                pieces = fewer
            else:
                place += length
        if length == 1:
            return pieces
        length = max(1, length // 2)


def shrunk(driver: Driver, rules: Rules, trial: Trial, found: str) -> Trial:
    """Returns a least trial that is wrong in the same way, or what half a minute comes to."""
    end = time.monotonic() + SECONDS

    def is_wrong(tried: Trial) -> bool:
        if time.monotonic() > end:
            return False
        job = job_of(tried, rules)
        return complaint(found) in map(complaint, wrong_of(tried, rules, job, driver.run(job)))

    for by_lines in (True, False):
        for name in list(trial.files):

            def with_data(data: bytes, base: Trial = trial, name: bytes = name) -> Trial:
                return base._replace(files={**base.files, name: data})

            some = least(pieces_of(trial.files[name], by_lines), lambda data: is_wrong(with_data(data)))
            trial = with_data(b"".join(some))
    return trial


def as_cases(driver: Driver, rules: Rules, trial: Trial) -> list[str]:
    """Returns the runs of a trial as lines of stored cases; bytes that are no UTF-8 stand as hexadecimal digits."""
    job = job_of(trial, rules)
    lines = []
    for step, ran in zip(job.steps, driver.run(job)):
        used = {name: data for name, data in job.files.items() if name in step.words}
        case: dict = {"words": [word.decode() for word in step.words], "files": {}}
        for name, data in used.items():
            try:
                case["files"][name.decode()] = data.decode()
            except UnicodeDecodeError:
                case.setdefault("bytes", {})[name.decode()] = data.hex()
        case.update(status=ran.status, out=ran.out.decode("utf-8", "replace"), err=ran.err.decode("utf-8", "replace"))
        if ran.status != NOT_RUN:
            lines.append(json.dumps(case))
    return lines
