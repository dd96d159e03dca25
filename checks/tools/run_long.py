#!/usr/bin/env python3
"""Runs a built program long, often and under load: memory and open files stay flat, nothing is left, no report differs.

    run_long.py PROGRAM [--studies N] [--entries N] [--outside N] [--loads N] [--children N]

N studies one after the other (1,000), each of the same few; a run of two simulators up to the limit of entries (20,000,000)
within the program, and one of fewer (2,000,000) with two children; N runs at once (5) of N children each (200), which
together have 10,000 entities in each run; such a run with more simulators or entities than a study may have, with too few
files and with too few processes; and a child that reads slowly among fast ones. It needs `cc` and some gigabytes of memory,
and ends with 'N passed, M failed'.
"""

from __future__ import annotations

import argparse
import contextlib
import os
import pathlib
import shutil
import subprocess
import sys
import tempfile
import time
from typing import NamedTuple

CHECKS = pathlib.Path(__file__).resolve().parents[1]
sys.path.insert(0, str(CHECKS))

from hostile.driving import compiled  # noqa: E402
from hostile.faults import INSIDE, OUTSIDE  # noqa: E402

SECONDS = 3600
SLACK = 256
# bytes of memory that an entry of a journal may take
MOST_EACH = 400
MOST_SIMS, MOST_ENTITIES, MOST_FILES = 200, 10_000, 1024
FAST, SOURCES, SLOW_STEPS = 9, 500, 100
LATE = 3
WORDS = (
    ("run", "inside.toml"),
    ("run", "outside.toml", "--record", "made.record"),
    ("replay", "whole.record"),
    ("resume", "outside.toml", "whole.record"),
    ("paced", "outside.toml", "1"),
    ("check", "outside.toml"),
)


class Ran(NamedTuple):
    """How a run ended, its greatest memory, and what was seen of it while it ran: seconds, memory and open files."""

    status: int
    out: bytes
    err: bytes
    memory: int
    samples: list[tuple[float, int, int]]


def memory_of(pid: int) -> int:
    """Returns how many KiB a program has in memory."""
    return int(pathlib.Path(f"/proc/{pid}/statm").read_text(encoding="ascii").split()[1]) * 4


def child_of(pid: int) -> int:
    """Returns the first program that a program started, 0 where there is none."""
    with contextlib.suppress(OSError, IndexError):
        return int(pathlib.Path(f"/proc/{pid}/task/{pid}/children").read_text(encoding="ascii").split()[0])
    return 0


def sample(pid: int, begun: float) -> list[tuple[float, int, int]]:
    """Returns what is seen of a program: one sample, or none where it has ended."""
    with contextlib.suppress(OSError, IndexError):
        return [(time.monotonic() - begun, memory_of(pid), len(os.listdir(f"/proc/{pid}/fd")))]
    return []


def ran(program: str, room: str, words: tuple[str, ...], every: float = 0) -> Ran:
    """Runs words in a folder, and looks at the program each so many seconds."""
    samples = []
    begun = time.monotonic()
    with open(f"{room}/.out", "w+b") as out, open(f"{room}/.err", "w+b") as err:
        begins = [f"{room}/usage", ".used", program, *words]
        process = subprocess.Popen(begins, cwd=room, stdin=subprocess.DEVNULL, stdout=out, stderr=err)
        while every and process.poll() is None:
            samples += sample(child_of(process.pid), begun)
            time.sleep(every)
        status = process.wait(timeout=SECONDS)
        out.seek(0)
        err.seek(0)
        memory = int(pathlib.Path(room, ".used").read_text(encoding="ascii"))
        return Ran(status, out.read(), err.read(), memory, samples)


def children_left(name: str) -> int:
    """Returns how many programs of this path still run."""
    found = 0
    for pid in filter(str.isdigit, os.listdir("/proc")):
        with contextlib.suppress(OSError):
            found += os.readlink(f"/proc/{pid}/exe") == name
    return found


def studies_wrong(program: str, room: str, count: int) -> list[list[str]]:
    """Returns what is wrong about studies one after the other."""
    first: dict[tuple, Ran] = {}
    most: dict[tuple, int] = {}
    found = []
    names = set(os.listdir(room)) | {"made.record", ".out", ".err", ".used"}
    for number in range(count):
        words = WORDS[number % len(WORDS)]
        got = ran(program, room, words)
        base = first.setdefault(words, got)
        most[words] = max(most.get(words, 0), got.memory)
        wrong = [] if (got.status, got.out, got.err) == (0, base.out, b"") else [f"status {got.status} {got.err[:99]!r}"]
        wrong += [] if got.memory <= base.memory * 1.1 + SLACK else [f"memory {got.memory} KiB, at first {base.memory}"]
        found.append([f"study {number}: {text}" for text in wrong])
    left = children_left(f"{room}/counter")
    found.append([f"{left} children are left"] if left else [])
    found.append([f"files are left: {set(os.listdir(room)) - names}"] if set(os.listdir(room)) - names else [])
    figures = ", ".join(f"{words[0]} {first[words].memory} to {most[words]} KiB" for words in first)
    print(f"studies: {count}; {figures}")
    return found


def entries_wrong(program: str, room: str, name: str, entries: int) -> list[str]:
    """Returns what is wrong about a run up to the limit of entries."""
    text = pathlib.Path(room, name).read_text(encoding="utf-8").replace("until = 3\n", "")
    long = f"until = 1000000000\nmax_entries = {entries}\n{text}"
    pathlib.Path(room, "long.toml").write_text(long, encoding="utf-8")
    got = ran(program, room, ("run", "long.toml"), 0.5)
    wrong = []
    if (got.status, got.out, got.err) != (7, b"", f"mosaikrun: limit: {entries} entries\n".encode()):
        wrong.append(f"{entries} entries: status {got.status} {got.err[:99]!r}")
    later = got.samples[2:]
    files = {count for _, _, count in later}
    if len(files) > 1:
        wrong.append(f"{entries} entries: from {min(files)} to {max(files)} open files")
    seconds = got.samples[-1][0] if got.samples else 0
    each = got.memory * 1024 // entries
    if got.memory * 1024 > entries * MOST_EACH + (8 << 20):
        wrong.append(f"{entries} entries: {each} bytes an entry")
    print(f"{name}: {entries} entries in {seconds:.0f} s, {got.memory} KiB, {each} bytes an entry, ", end="")
    print(f"open files {sorted(files)}")
    return wrong


def load_scenario(children: int, entities: int, late: float = 0) -> str:
    """Returns a study of so many children with so many entities together, of which one child begins late."""
    lines = ["until = 5"]
    for number in range(children):
        command = f"sh -c 'sleep {late}; exec ./counter %(addr)s'" if late and number == 0 else "./counter %(addr)s"
        lines += ["[[sim]]", f'name = "S{number}"', f'command = "{command}"']
    for number in range(children):
        count = entities // children + (number < entities % children)
        lines += ["[[entities]]", f'id = "s{number}"', f'sim = "S{number}-0"', 'model = "Count"', f"num = {count}"]
    for number in range(children - 1):
        lines += ["[[connect]]", f'from = "s{number}[0]"', f'to = "s{number + 1}[0]"', 'attrs = [["out", "in"]]']
    return "\n".join(lines) + "\n"


def load_wrong(program: str, room: str, loads: int, children: int) -> list[str]:
    """Returns what is wrong about so many runs at once of so many children."""
    pathlib.Path(room, "load.toml").write_text(load_scenario(children, MOST_ENTITIES, LATE), encoding="utf-8")
    begun = time.monotonic()
    pipes = {"stdin": subprocess.DEVNULL, "stdout": subprocess.PIPE, "stderr": subprocess.PIPE}
    running = [subprocess.Popen([program, "run", "load.toml"], cwd=room, **pipes) for _ in range(loads)]
    most = 0
    while any(process.poll() is None for process in running) and time.monotonic() < begun + LATE:
        most = max(most, children_left(f"{room}/counter"))
    ended = [(*process.communicate(timeout=SECONDS), process.returncode) for process in running]
    wrong = [f"status {status} {err[:99]!r}" for out, err, status in ended if (err, status) != (b"", 0)]
    wrong += ["the reports differ"] if len({out for out, _, _ in ended}) > 1 else []
    left = children_left(f"{room}/counter")
    wrong += [f"{left} children are left"] if left else []
    print(f"load: {loads} runs of {children} children, {most} seen at once, {time.monotonic() - begun:.1f} s")
    return wrong


def ended_with(program: str, room: str, words: tuple[str, ...], status: int, line: str) -> list[str]:
    """Returns what is wrong about a run of `load.toml` by other words, which has to end with a status and a line."""
    before = (*words, program) if words else (program,)
    got = ran(before[0], room, (*before[1:], "run", "load.toml"))
    due = (status, b"", f"mosaikrun: {line}\n".encode() if line else b"")
    wrong = [] if (got.status, got.out if status else b"", got.err) == due else [f"status {got.status} {got.err[:99]!r}"]
    left = children_left(f"{room}/counter")
    return [f"{line or 'enough'}: {text}" for text in wrong + ([f"{left} children are left"] if left else [])]


def beyond_wrong(program: str, room: str) -> list[list[str]]:
    """Returns what is wrong about studies that are too great, and about a system that holds too few files or children."""
    found = []
    cases = ((MOST_SIMS + 1, MOST_ENTITIES, 3, f"scenario 5: out of range sim {MOST_SIMS + 1}"),)
    cases += ((MOST_SIMS, MOST_ENTITIES + 1, 4, f"create 6: S{MOST_SIMS - 1}-0 {MOST_ENTITIES + 1}"),)
    for children, entities, status, line in cases:
        pathlib.Path(room, "load.toml").write_text(load_scenario(children, entities), encoding="utf-8")
        found.append(ended_with(program, room, (), status, line))
    pathlib.Path(room, "load.toml").write_text(load_scenario(MOST_SIMS, MOST_ENTITIES), encoding="utf-8")
    few, enough = 4, MOST_FILES
    while enough - few > 1:
        middle = (few + enough) // 2
        got = ran("prlimit", room, (f"--nofile={middle}", program, "run", "load.toml"))
        few, enough = (few, middle) if got.status == 0 else (middle, enough)
    print(f"files: {enough} are enough for {MOST_SIMS} children")
    for files, status, line in ((MOST_FILES, 0, ""), (enough, 0, ""), (enough - 1, 6, "outside: fleet")):
        found.append(ended_with(program, room, ("prlimit", f"--nofile={files}"), status, line))
    # root may have any number of processes
    other = ("setpriv", "--reuid=65534", "--regid=65534", "--clear-groups") if os.geteuid() == 0 else ()
    os.chmod(room, 0o755)
    found.append(ended_with(program, room, (*other, "prlimit", "--nproc=100"), 6, "outside: fleet"))
    return found


def slow_scenario(pause: str) -> str:
    """Returns a study of fast children whose outputs all go to one more, which waits before each read."""
    lines = [f"until = {SLOW_STEPS}"]
    for number in range(FAST + 1):
        more = pause if number == FAST else ""
        lines += ["[[sim]]", f'name = "S{number}"', f'command = "./counter %(addr)s{more}"']
    for number in range(FAST + 1):
        lines += ["[[entities]]", f'id = "s{number}"', f'sim = "S{number}-0"', 'model = "Count"', f"num = {SOURCES}"]
    for number in range(FAST):
        lines += ["[[connect]]", f'from = "s{number}"', f'to = "s{FAST}"', 'attrs = [["out", "in"]]']
    return "\n".join(lines) + "\n"


def slow_wrong(program: str, room: str) -> list[str]:
    """Returns what is wrong about a child that reads slowly among fast ones, against the same without waits."""
    got = {}
    for name, pause in (("fast", ""), ("slow", " 1")):
        pathlib.Path(room, "load.toml").write_text(slow_scenario(pause), encoding="utf-8")
        begun = time.monotonic()
        got[name] = ran(program, room, ("run", "load.toml"))
        print(f"{name} reader: {time.monotonic() - begun:.1f} s, {got[name].memory} KiB, {len(got[name].out)} bytes")
    fast, slow = got["fast"], got["slow"]
    wrong = [] if (slow.status, slow.out, slow.err) == (0, fast.out, b"") else [f"status {slow.status} {slow.err[:99]!r}"]
    return wrong + ([] if slow.memory <= fast.memory * 1.25 + SLACK else [f"memory {slow.memory} KiB, {fast.memory} fast"])


def main() -> int:
    parser = argparse.ArgumentParser(description=__doc__, formatter_class=argparse.RawDescriptionHelpFormatter)
    parser.add_argument("program", type=pathlib.Path)
    numbers = {"studies": 1000, "entries": 20_000_000, "outside": 2_000_000, "loads": 5, "children": MOST_SIMS}
    for name, number in numbers.items():
        parser.add_argument(f"--{name}", type=int, default=number)
    asked = parser.parse_args()
    program, room = str(asked.program.resolve()), tempfile.mkdtemp(prefix="long-")
    for name in ("counter.c", "usage.c"):
        compiled(name, room)
    for name, text in (("inside.toml", INSIDE), ("outside.toml", OUTSIDE)):
        pathlib.Path(room, name).write_text(text, encoding="utf-8")
    ran(program, room, ("run", "outside.toml", "--record", "whole.record"))
    found = studies_wrong(program, room, asked.studies)
    found.append(entries_wrong(program, room, "inside.toml", asked.entries))
    found.append(entries_wrong(program, room, "outside.toml", asked.outside))
    found.append(load_wrong(program, room, asked.loads, asked.children))
    found += beyond_wrong(program, room)
    found.append(slow_wrong(program, room))
    shutil.rmtree(room)
    for text in [text for texts in found for text in texts][:40]:
        print(text)
    failed = sum(map(bool, found))
    print(f"{len(found) - failed} passed, {failed} failed")
    return 1 if failed else 0


if __name__ == "__main__":
    sys.exit(main())
