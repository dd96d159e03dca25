#!/usr/bin/env python3
"""What the gate costs: processor seconds of each crate, told apart into its proof, its tests, its edits and, of a
program, what compiles it.

    gate_cost.py run [WORD..]      runs the words, `rt ci` if there are none, and prints the table when they have ended;
                                   it is called at the top of the repository
    gate_cost.py watch PID         the same of a gate that runs already, from now on, until it has ended
    gate_cost.py functions FOLDER  the dearest functions of a crate that `rt check --jobs 1` has just proved from
                                   nothing: FOLDER is its `out/incremental`, whose files are written one by one

`rt ci` leaves no times behind. So the table is made by looking, twice a second, at how much processor time each process
of the prover below it has taken: what is proved is one process a crate, its tests another, which compiles them too,
each edit one more, and of a program so is each of the two that compile what was proved.
"""

from __future__ import annotations

import collections
import os
import pathlib
import subprocess
import sys
import time

TICKS = os.sysconf("SC_CLK_TCK")
PARTS = ("proof", "tests", "edits", "compile", "rest")


def processes() -> dict[int, tuple[int, float]]:
    """Returns the parent and the processor seconds of each process, threads that have ended included."""
    found = {}
    for file in pathlib.Path("/proc").glob("[0-9]*/stat"):
        try:
            text = file.read_text(encoding="utf-8", errors="replace")
        except OSError:
            # it has ended meanwhile
            continue
        fields = text[text.rindex(")") + 2 :].split()
        found[int(file.parent.name)] = int(fields[1]), (int(fields[11]) + int(fields[12])) / TICKS
    return found


def below(root: int, found: dict[int, tuple[int, float]]) -> list[int]:
    """Returns the processes that this one started, and those that they started."""
    children = collections.defaultdict(list)
    for process, (parent, _) in found.items():
        children[parent].append(process)
    all_of, left = [], [root]
    while left:
        started = children[left.pop()]
        all_of += started
        left += started
    return all_of


def named(process: int) -> tuple[str, str]:
    """Returns the crate that a process works on, and the part of the gate that this is."""
    try:
        words = pathlib.Path(f"/proc/{process}/cmdline").read_text(encoding="utf-8", errors="replace").split("\0")
    except OSError:
        return "", "rest"
    if "--crate-name" not in words:
        return "", "rest"
    crate = words[words.index("--crate-name") + 1]
    if "--test" in words:
        return crate, "tests"
    if "--crate-checked" in words:
        return crate, "compile"
    return crate, "edits" if "--incremental" in words else "proof"


def watched(root: int, ended) -> dict[int, tuple[tuple[str, str], float]]:
    """Returns what each process below this one worked on, and its processor seconds, when it has ended."""
    seen: dict[int, tuple[tuple[str, str], float]] = {}
    while not ended():
        found = processes()
        for process in below(root, found):
            what = seen[process][0] if process in seen else named(process)
            seen[process] = what if what[0] else named(process), found[process][1]
        time.sleep(0.5)
    return seen


def libraries() -> dict[str, list[str]]:
    """Returns the crates that each crate of `crates.txt` stands on."""
    found = {}
    for line in pathlib.Path("crates.txt").read_text(encoding="utf-8").splitlines():
        names, colon, deps = line.partition("#")[0].partition(":")
        if colon:
            found[names.split()[0]] = deps.split()
    return found


def longest_chain(seconds: dict[str, float]) -> tuple[float, list[str]]:
    """Returns the chain of crates, each above the one before it, whose proofs take longest one after the other."""
    below_of = libraries()
    best: dict[str, tuple[float, list[str]]] = {}

    def up_to(crate: str) -> tuple[float, list[str]]:
        if crate not in best:
            under = max((up_to(it) for it in below_of[crate] if it in below_of), default=(0.0, []))
            best[crate] = under[0] + seconds.get(crate, 0.0), [*under[1], crate]
        return best[crate]

    return max(map(up_to, below_of))


def table(seen: dict[int, tuple[tuple[str, str], float]], clock: float) -> None:
    """Prints a line a crate, the dearest first, the sums in minutes, and the longest chain."""
    costs: dict[str, collections.Counter] = collections.defaultdict(collections.Counter)
    for (crate, part), seconds in seen.values():
        costs[crate or "(rt itself)"][part] += seconds
    print(f"{'seconds of':26}" + "".join(f"{it:>8}" for it in PARTS) + f"{'all':>8}")
    for crate, parts in sorted(costs.items(), key=lambda it: -sum(it[1].values())):
        print(f"{crate:26}" + "".join(f"{parts[it]:8.0f}" for it in PARTS) + f"{sum(parts.values()):8.0f}")
    sums = [sum(it[part] for it in costs.values()) / 60 for part in PARTS]
    print(f"{'minutes of all':26}" + "".join(f"{it:8.1f}" for it in sums) + f"{sum(sums):8.1f}")
    length, chain = longest_chain({crate: parts["proof"] for crate, parts in costs.items()})
    print(f"longest chain of proofs: {length / 60:.1f} minutes, {' < '.join(chain)}")
    print(f"{clock / 60:.1f} minutes by the clock, on {os.cpu_count()} processors")


def functions(folder: str) -> None:
    """Prints the functions on which the proof spent most, by the times at which their files were written."""
    files = sorted((it.stat().st_mtime, it.name) for it in pathlib.Path(folder).rglob("*.oantt"))
    costs: collections.Counter = collections.Counter()
    for (before, _), (at, name) in zip(files, files[1:]):
        if at - before < 120:
            whole = name.removeprefix("Rattle-").removesuffix(".oantt").removesuffix(".decls")
            costs[whole.rpartition(".")[0]] += at - before
    print(f"{sum(costs.values()):.0f} s, {len(files)} files")
    for name, seconds in costs.most_common(30):
        print(f"{seconds:7.1f} {name}")


def main() -> int:
    words = sys.argv[1:]
    began = time.monotonic()
    if words[:1] == ["functions"] and len(words) == 2:
        functions(words[1])
        return 0
    if words[:1] == ["watch"] and len(words) == 2 and words[1].isdigit():
        root = int(words[1])
        table(watched(root, lambda: not os.path.exists(f"/proc/{root}")), time.monotonic() - began)
        return 0
    if words[:1] == ["run"]:
        with subprocess.Popen(words[1:] or ["rt", "ci"]) as gate:
            seen = watched(gate.pid, lambda: gate.poll() is not None)
        table(seen, time.monotonic() - began)
        return gate.returncode
    print(__doc__, file=sys.stderr)
    return 2


if __name__ == "__main__":
    sys.exit(main())
