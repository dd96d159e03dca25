"""The files that the stored cases are made of, by what they are, for inputs to be made from them."""

from __future__ import annotations

import json
import pathlib
import re
from typing import Iterator

from .driving import Driver, Job, Step

LONGEST, LATEST = 1 << 16, 1000
OUTSIDE = re.compile(rb"command|connect[\"' \t]*=[ \t]*[\"']")
UNTIL = re.compile(rb"^until[ \t]*=[ \t]*([0-9]{1,4})[ \t]*$", re.MULTILINE)
ROLES = {
    "replay": ("record",),
    "check": ("scenario",),
    "run": ("scenario",),
    "paced": ("scenario",),
    "migrate": ("record",),
    "resume": ("scenario", "record"),
    "watch": ("record", "watches"),
    "blame": ("record", "record"),
}
TAKING = ("--order", "--record", "--strict")


def ends_within(scenario: bytes, most: int) -> bool:
    """Returns whether the run of a scenario ends at this time at the latest."""
    found = UNTIL.findall(scenario)
    return len(found) == 1 and int(found[0]) <= most


def is_inside(scenario: bytes) -> bool:
    """Returns whether a scenario starts no program, connects to nothing, and ends soon."""
    return ends_within(scenario, LATEST) and not OUTSIDE.search(scenario)


def cases_file(checks: pathlib.Path) -> pathlib.Path:
    """Returns the file of the stored cases."""
    places = (checks / "cases" / "cases.jsonl", checks / "cases.jsonl")
    return next(place for place in places if place.is_file())


def names_of(words: list[str]) -> list[str]:
    """Returns the words of a command that aren't options, nor values of options."""
    names = []
    skips = False
    for word in words[1:]:
        if not skips and not word.startswith("--"):
            names.append(word)
        skips = word in TAKING
    return names


def text_named(case: dict, folder: pathlib.Path, name: str) -> bytes:
    """Returns the text of a file that a case names, empty where it has none, or a long one."""
    if name in case.get("files", {}):
        return case["files"][name].encode()
    if any(key in case for key in ("files", "pieces", "lengths", "at")) or "/" in name or "\0" in name:
        return b""
    file = folder / name
    return file.read_bytes() if file.is_file() else b""


class Corpus:
    """Records, scenarios and watches, and those that stand together in a case."""

    def __init__(self, checks: pathlib.Path) -> None:
        self.records: list[bytes] = []
        self.scenarios: list[bytes] = []
        self.watches: list[bytes] = []
        self.watched: list[tuple[bytes, bytes]] = []
        self.pairs: list[tuple[bytes, bytes]] = []
        self.resumed: list[tuple[bytes, bytes]] = []
        for words, texts in self._read(checks):
            self._keep(words, texts)
        for kept in (self.records, self.scenarios, self.watches, self.watched, self.pairs, self.resumed):
            kept[:] = sorted(set(kept))

    @staticmethod
    def _read(checks: pathlib.Path) -> Iterator[tuple[list[str], list[bytes]]]:
        for line in cases_file(checks).read_text(encoding="utf-8").splitlines():
            case = json.loads(line)
            if case["words"] and case["words"][0] in ROLES:
                names = names_of(case["words"])[: len(ROLES[case["words"][0]])]
                texts = [text_named(case, checks / "cases", name) for name in names]
                if len(texts) == len(ROLES[case["words"][0]]) and all(len(text) <= LONGEST for text in texts):
                    yield case["words"], texts

    def _keep(self, words: list[str], texts: list[bytes]) -> None:
        kinds = {"record": self.records, "scenario": self.scenarios, "watches": self.watches}
        for role, text in zip(ROLES[words[0]], texts):
            if text:
                kinds[role].append(text)
        pairs = {"watch": self.watched, "blame": self.pairs, "resume": self.resumed}
        if words[0] in pairs and all(texts):
            pairs[words[0]].append((texts[0], texts[1]))

    def record(self, driver: Driver) -> None:
        """Adds the record of each scenario that runs within the program, whole and by pairs with it."""
        step = Step((b"run", b"s", b"--record", b"q"), keep=(b"q",))
        for scenario in filter(is_inside, self.scenarios):
            (ran,) = driver.run(Job({b"s": scenario}, (step,)))
            saved = ran.files[b"q"]
            if saved and len(saved) <= LONGEST:
                self.records.append(saved)
                self.resumed.append((scenario, saved))
