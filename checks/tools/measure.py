#!/usr/bin/env python3
"""Measures what a built program takes: processor time, time by the clock, and memory at its peak.

    measure.py PROGRAM [--full]

A line for each measure: how it ended, seconds of processor (user and system) and by the clock, peak memory in millions of bytes, and
what that is of the input's size where there is one. Start-up is the mean of 200 calls. With `--full` the greatest sizes are tried
too: a record of 512 MB (some 4.3 GB of memory) and 200 children that each take a second to begin. It is no gate: what a
machine should take isn't known to it. Where a call ends with another status than it should, it says so and ends with status 1.
"""
import json
import os
import pathlib
import resource
import subprocess
import sys
import tempfile
import time
from typing import Iterator, List, NamedTuple

ROOT = pathlib.Path(__file__).resolve().parents[2]
HEAD = 'mosaikrun 1\nrun [{until},100,20000000]\nsim ["A-0","time-based",3,0,[]]\nmodel [0,"Count",["out"],false]\nentity [0,"0",[]]\n'
PAIR = """mosaikrun 1
run [{until},100,20000000]
sim ["A-0","time-based",3,0,[]]
sim ["B-0","time-based",3,1,[]]
model [0,"M",["out"],false]
model [1,"M",["in"],false]
entity [0,"0",[]]
entity [1,"0",[]]
conn [0,"out",1,"in","plain",true,false,[]]
"""
LIMIT = 512 * 1024 * 1024
SLOW = """import sys, time
import api
time.sleep({begin})
class Wide(api.Simulator):
    def create(self, num, model):
        return [{{"eid": "0", "type": model}}]
    def step(self, time, inputs, max_advance):
        return time + 1
    def get_data(self, outputs):
        return {{"0": {{"out": "x" * {size}}}}}
META = {{"type": "time-based", "models": {{"M": {{"public": True, "params": [], "attrs": ["in", "out"]}}}}}}
api.serve(api.connected(sys.argv[1]), Wide(META))
"""


class Taken(NamedTuple):
    """What a call took: its status, seconds of processor and by the clock, and bytes at its peak."""

    status: int
    processor: float
    clock: float
    peak: int


def called(program: str, room: str, *words: str) -> Taken:
    """Calls the program with these words in a folder; its children that have ended count too.

    The peak is no less than what this program itself has, which therefore holds no input whole.
    """
    began = time.monotonic()
    with open(os.devnull, "w", encoding="utf-8") as nowhere:
        child = subprocess.Popen([program, *words], cwd=room, stdin=subprocess.DEVNULL, stdout=nowhere, stderr=nowhere)
        _, status, usage = os.wait4(child.pid, 0)
    child.returncode = os.waitstatus_to_exitcode(status)
    return Taken(child.returncode, usage.ru_utime + usage.ru_stime, time.monotonic() - began, usage.ru_maxrss * 1024)


def told(name: str, taken: Taken, size: int = 0) -> bool:
    """Prints a measure; whether the call ended as it should."""
    share = f", {taken.peak / size:.1f} times the input" if size else ""
    print(
        f"{name}: status {taken.status}, {taken.processor:.3f} s of processor, {taken.clock:.3f} s, {taken.peak / 1e6:.0f} MB{share}",
        flush=True,
    )
    return taken.status == 0


def start_up(program: str, room: str) -> bool:
    """The replay of a record of nine lines, 200 times."""
    messages = "".join(f'got [0,[1,{3 + step},{1 + step}]]\n' for step in range(3))
    pathlib.Path(room, "nine.record").write_text(HEAD.format(until=3) + messages + "end 3\n", encoding="utf-8")
    calls = [called(program, room, "replay", "nine.record") for _ in range(200)]
    worst = max(call.status for call in calls)
    mean = [sum(values) / len(calls) for values in zip(*[call[1:3] for call in calls])]
    return told("replay of nine lines, the mean", Taken(worst, mean[0], mean[1], max(call.peak for call in calls)))


def many_connections(program: str, room: str) -> bool:
    """`check` of a scenario with 100,000 blocks of one connection each."""
    sims = 'sim = [{name = "A", command = "a"}, {name = "B", command = "b"}]\n'
    groups = [(f"{sim.lower()}{place}", sim) for place in range(400) for sim in "AB"]
    blocks = ((place // 250, place % 400, place % 250, place) for place in range(100_000))
    with open(os.path.join(room, "many.toml"), "w", encoding="utf-8") as file:
        file.write("until = 10\n" + sims)
        file.writelines(f'[[entities]]\nid = "{name}"\nsim = "{sim}-0"\nmodel = "M"\n' for name, sim in groups)
        file.writelines(f'[[connect]]\nfrom = "a{a}"\nto = "b{b}"\nattrs = [["o{out}", "i{to}"]]\n' for a, b, out, to in blocks)
    taken = called(program, room, "check", "many.toml")
    return told("check of 100,000 connections", taken, os.path.getsize(os.path.join(room, "many.toml")))


def messages(size: int) -> Iterator[str]:
    """The messages of a year's steps of two simulators, one of which gives the other texts, up to so many bytes."""
    step = 0
    while size > 0:
        ids, text = 3 + 2 * step, f"{step:0200}"
        lines = f'got [0,[1,{ids},{1 + step}]]\ngot [0,[1,{ids + 1},{{"0":{{"out":"{text}"}}}}]]\n'
        lines += f"got [1,[1,{3 + step},{1 + step}]]\n"
        size -= len(lines)
        step += 1
        yield lines


def long_record(program: str, room: str, size: int) -> bool:
    """The replay of a record of some bytes, which is done."""
    steps = sum(1 for _ in messages(size))
    with open(os.path.join(room, "long.record"), "w", encoding="utf-8") as file:
        file.write(PAIR.format(until=steps))
        file.writelines(messages(size))
        file.write(f"end {3 * steps}\n")
    taken = called(program, room, "replay", "long.record")
    whole = os.path.getsize(os.path.join(room, "long.record"))
    return told(f"replay of {3 * steps} messages, {whole / 1e6:.0f} MB", taken, whole)


def children(program: str, room: str, count: int, begin: float, size: int) -> bool:
    """A run of some child programs, each of which takes a while to begin, and gives a text of some bytes at each step."""
    pathlib.Path(room, "api.py").write_bytes((ROOT / "examples" / "api.py").read_bytes())
    pathlib.Path(room, "slow.py").write_text(SLOW.format(begin=begin, size=size), encoding="utf-8")
    parts: List[str] = ["until = 2\n"]
    for place in range(count):
        parts.append(f'[[sim]]\nname = "S{place}"\ncommand = "python3 slow.py %(addr)s"\n')
        parts.append(f'[[entities]]\nid = "e{place}"\nsim = "S{place}-0"\nmodel = "M"\n')
    for place in range(1, count):
        parts.append(f'[[connect]]\nfrom = "e{place - 1}"\nto = "e{place}"\nattrs = [["out", "in"]]\n')
    pathlib.Path(room, "children.toml").write_text("".join(parts), encoding="utf-8")
    taken = called(program, room, "run", "children.toml")
    return told(f"run of {count} children that begin within {begin} s and give {json.dumps(size)} bytes a step", taken)


def main() -> int:
    """Makes each measure in a folder of its own."""
    program = str(pathlib.Path(sys.argv[1]).resolve())
    full = "--full" in sys.argv[2:]
    resource.setrlimit(resource.RLIMIT_NOFILE, (min(4096, resource.getrlimit(resource.RLIMIT_NOFILE)[1]),) * 2)
    # `python3` of the scenarios is the interpreter that runs this
    os.environ["PATH"] = os.pathsep.join([str(pathlib.Path(sys.executable).parent), os.environ.get("PATH", "")])
    measures = [(start_up, ()), (many_connections, ()), (long_record, (20_000_000,)), (children, (2, 0.0, 60_000_000))]
    measures += [(long_record, (LIMIT - 1000,)), (children, (200, 1.0, 10))] if full else [(children, (20, 1.0, 10))]
    right = True
    for measure, sizes in measures:
        with tempfile.TemporaryDirectory() as room:
            right = measure(program, room, *sizes) and right
    return 0 if right else 1


if __name__ == "__main__":
    sys.exit(main())
