"""Runs a program in poor surroundings: short reads and writes, clocks that jump, few files, programs that are stopped."""

from __future__ import annotations

import collections
import contextlib
import functools
import multiprocessing
import os
import pathlib
import random
import re
import shutil
import signal
import subprocess
import time
from typing import NamedTuple

from .faults import COMMANDS, OUTSIDE, Seen, Stage, ended_wrong, is_record

STEPS = 500
ENTITIES = 1000
ALLOWED = 1000
STOPPED = 0.1
# longer than what the program reads from a link at once, so that a message takes several reads
LONG_LENGTHS = (1, 2, 3, 5, 100, 1000, 4095, 4096, 4097, 16383, 16384, 16385)
OUTSIDE_COMMANDS = ("run", "paced", "resume")
MORE = {
    "strict": ("paced", "outside.toml", "5", "--strict", str(ALLOWED), "--record", "new"),
    "steady": ("run", "steady.toml", "--record", "new"),
    "long": ("run", "long.toml", "--record", "new"),
}
WORDS = {**COMMANDS, **MORE}
WALL, RISING = time.CLOCK_REALTIME, time.CLOCK_MONOTONIC
# an hour, three million years, a tenth of a second; a great jump back of the one that never goes back is a long wait
JUMPS = {WALL: (3_600_000, -3_600_000, -(10**12), 10**17), RISING: (3_600_000, 10**17, -100)}
LATE = re.compile(rb"mosaikrun: run 12: [AB]-0 step at [0-9]+ late by ([0-9]+) ms, allowed %d\n" % ALLOWED)
FEWEST, ENOUGH = 4, 25
DEVICES = "mount -t tmpfs none /mnt && touch /mnt/null && mount --bind /dev/null /mnt/null && mount --rbind /mnt /dev"
BARE = {
    "no variables": ("env", "-i"),
    "a wrong HOME": ("env", "-i", "HOME=/nowhere", "TMPDIR=/nowhere", "PATH=", "LANG=nowhere"),
    "no standard input": ("sh", "-c", 'exec "$0" "$@" 0<&-'),
    "no standard error": ("sh", "-c", 'exec "$0" "$@" 2>&-'),
    "no /dev/shm": ("unshare", "-rm", "sh", "-c", DEVICES + ' && exec "$0" "$@"'),
    "no /proc": ("unshare", "-rm", "sh", "-c", 'mount -t tmpfs none /proc && exec "$0" "$@"'),
}


class Case(NamedTuple):
    """What is poor, by which command, and how poor."""

    kind: str
    command: str
    value: tuple


class Surroundings(Stage):
    """A stage that has longer studies too, and one that is late."""

    def __init__(self, program: str) -> None:
        super().__init__(program)
        self.files["steady.toml"] = OUTSIDE.replace("until = 3\n", f"until = {STEPS}\n").encode()
        self.files["long.toml"] = OUTSIDE.replace('"Count"\n', f'"Count"\nnum = {ENTITIES}\n').encode()
        self.good.update({name: self.run(words, {"FAULT_AT": "-1"}) for name, words in MORE.items()})
        wrong = [name for name in MORE if self.good[name].status != 0]
        if wrong:
            raise RuntimeError(f"with good surroundings: {wrong}")


def children_of(pid: int) -> list[int]:
    """Returns the programs that a program started."""
    try:
        text = pathlib.Path(f"/proc/{pid}/task/{pid}/children").read_text(encoding="ascii")
    except OSError:
        return []
    return [int(word) for word in text.split()]


def state_of(pid: int) -> str:
    """Returns the letter by which the system tells what a program does, T where it is stopped; none where it isn't there."""
    try:
        text = pathlib.Path(f"/proc/{pid}/stat").read_text(encoding="utf-8", errors="replace")
    except OSError:
        return ""
    return text[text.rindex(")") + 2]


def pause(stopped: list[int], who: str, after: float, seconds: float, pid: int) -> None:
    """Stops a program or its children for a while, some time after it has children; puts the stopped ones into a list."""
    for _ in range(200):
        children = children_of(pid)
        if children:
            break
        time.sleep(0.001)
    time.sleep(after)
    chosen = {"program": [pid], "one": children[:1], "all": children, "everything": [pid, *children]}[who]
    for sent in (signal.SIGSTOP, signal.SIGCONT):
        for one in chosen:
            # one that has ended already isn't stopped
            with contextlib.suppress(ProcessLookupError):
                os.kill(one, sent)
        if sent == signal.SIGSTOP:
            time.sleep(seconds)
            stopped += [one for one in chosen if state_of(one) == "T"]


def seen_of(stage: Surroundings, case: Case, stopped: list[int]) -> Seen:
    """Runs a case, and puts the programs that were stopped into a list."""
    words, value = WORDS[case.command], case.value
    if case.kind == "short":
        return stage.run(words, {"FAULT_LENGTH": str(value[0])})
    if case.kind == "clock":
        return stage.run(words, dict(zip(("FAULT_CLOCK", "FAULT_AT", "FAULT_JUMP"), map(str, value))))
    if case.kind == "files":
        return stage.run(words, {}, None, value[0])
    if case.kind == "stopped":
        return stage.run(words, {}, functools.partial(pause, stopped, *value))
    return stage.run(words, {}, before=BARE[value[0]])


def late_wrong(seen: Seen, jump: int) -> list[str]:
    """Returns what is wrong about a run that ended since a step was late."""
    late = LATE.fullmatch(seen.err)
    if not late or int(late[1]) < jump - ALLOWED or seen.out or not is_record(seen.files["new"]) or seen.left:
        return [f"status 5, {len(seen.out)} bytes of output, {seen.err[:120]!r}"]
    return []


def clock_wrong(stage: Surroundings, case: Case, seen: Seen) -> list[str]:
    """Returns what is wrong about a run whose clock jumped: only an hour's wait may end it, for a child or for a step."""
    jump = case.value[2] if case.value[0] == RISING else 0
    if case.command == "strict" and jump > 0 and seen.status == 5:
        return late_wrong(seen, jump)
    wrong = ended_wrong(seen, stage.good[case.command], stage.files)
    # a child that didn't connect in time: nothing has been saved yet
    is_unstarted = seen.status == 6 and b"fleet" in seen.err and seen.files["new"] == stage.files["new"]
    return wrong + ([] if seen.status == 0 or (jump > 0 and is_unstarted) else [f"status {seen.status}"])


def tried(stage: Surroundings, case: Case) -> tuple[str, list[str]]:
    """Returns how a case ended, and what is wrong about it."""
    stopped: list[int] = []
    seen = seen_of(stage, case, stopped)
    if case.kind == "clock":
        return str(seen.status), clock_wrong(stage, case, seen)
    wrong = ended_wrong(seen, stage.good[case.command], stage.files)
    if case.kind != "files" and seen.status != 0:
        wrong.append(f"status {seen.status} {seen.err[:120]!r}")
    is_missed = case.kind == "stopped" and not stopped
    return f"{seen.status}{' before the stop' if is_missed else ''}", wrong


@functools.lru_cache(maxsize=None)
def left_out() -> tuple[str, ...]:
    """Returns the surroundings that this system doesn't let a program have: those for which something has to be mounted."""
    words = ["unshare", "-rm", "sh", "-c", DEVICES]
    can_mount = shutil.which("unshare") and subprocess.run(words, check=False, capture_output=True).returncode == 0
    return () if can_mount else tuple(name for name in BARE if BARE[name][0] == "unshare")


def all_cases(stage: Surroundings) -> list[list[Case]]:
    """Returns all cases, those of each kind by themselves."""
    short = []
    for command in COMMANDS:
        good = stage.good[command]
        most = max(map(len, (good.out, good.files["new"], stage.files["whole"])))
        short += [Case("short", command, (length,)) for length in range(1, most + 1)]
    short += [Case("short", "long", (length,)) for length in LONG_LENGTHS]
    clocks = []
    for command in (*OUTSIDE_COMMANDS, "strict"):
        readings = range(stage.good[command].calls["clock_gettime"])
        clocks += [Case("clock", command, (clock, at, by)) for clock in JUMPS for at in readings for by in JUMPS[clock]]
    files = [Case("files", command, (count,)) for command in COMMANDS for count in range(FEWEST, ENOUGH)]
    stopped = []
    for command, most in (("run", 2), ("resume", 4), ("paced", 20), ("steady", 20)):
        for who in ("program", "one", "all", "everything"):
            afters = [most * place / 10_000 for place in range(10)]
            stopped += [Case("stopped", command, (who, after, STOPPED)) for after in afters]
    stopped.append(Case("stopped", "steady", ("one", 0.01, 5)))
    bare = [Case("bare", command, (name,)) for command in COMMANDS for name in BARE if name not in left_out()]
    return [short, clocks, files, stopped, bare]


def enough_wrong(found: list[tuple[Case, str, list[str]]]) -> list[str]:
    """Returns for which commands more files are too few, or the greatest number is."""
    wrong = []
    for command in COMMANDS:
        statuses = {case.value[0]: status for case, status, _ in found if case[:2] == ("files", command)}
        fails = [statuses[count] != "0" for count in sorted(statuses)]
        if fails != sorted(fails, reverse=True) or statuses.get(ENOUGH - 1, "0") != "0":
            wrong.append(f"{command}: statuses by numbers of files: {statuses}")
    return wrong


def share(words: tuple[str, list[Case]]) -> list[tuple[Case, str, list[str]]]:
    """Tries one process's share of the cases."""
    stage = Surroundings(words[0])
    found = [(case, *tried(stage, case)) for case in words[1]]
    stage.close()
    return found


def try_all(program: str, count: int, seed: int, jobs: int) -> tuple[int, int]:
    """Tries so many cases, equally many of each kind, all where there are no more; returns how many were right and wrong."""
    begun = time.monotonic()
    stage = Surroundings(program)
    kinds = all_cases(stage)
    stage.close()
    rng = random.Random(seed)
    is_all = count >= sum(map(len, kinds))
    chosen = [case for kind in kinds for case in (kind if is_all else rng.sample(kind, min(count // len(kinds), len(kind))))]
    with multiprocessing.Pool(jobs) as pool:
        shares = [(program, chosen[place::jobs]) for place in range(jobs)]
        found = [one for some in pool.map(share, shares, chunksize=1) for one in some]
    for case, _, wrong in [one for one in found if one[2]][:40]:
        print(f"{case.kind}, {case.command}, {case.value}: {', '.join(wrong)}")
    if left_out():
        print(f"left out, since nothing can be mounted: {', '.join(left_out())}")
    too_few = enough_wrong(found)
    print(*too_few, sep="\n", end="\n" if too_few else "")
    statuses = collections.Counter((case.kind, status) for case, status, _ in found)
    print("statuses:", ", ".join(f"{kind} {status}: {times}" for (kind, status), times in sorted(statuses.items())))
    bad = sum(bool(wrong) for _, _, wrong in found) + len(too_few)
    total, seconds = sum(map(len, kinds)), time.monotonic() - begun
    print(f"surroundings: {len(found)} of {total}, seed {seed}, {bad} wrong, {seconds:.0f} s")
    return len(found) - bad, bad
