#!/usr/bin/env python3
"""Proves the crates that changed and those above them, lowest first and four at once, over what earlier sweeps kept.

    sweep.py FOLDER [--fix-imports]    called at the top of the repository; FOLDER gets each crate's library, and what the
                                       prover said of it; with the flag, imports that nothing uses are taken away

It prints a line for each crate: the time, its name, the prover's status, and how many seconds it took. What is kept in
`out/incremental` makes a sweep after a change in a low crate take minutes. It is no gate: it proves no tests, tries no
edits, and runs nothing. `rt fmt` has to follow it where imports were taken away.
"""

from __future__ import annotations

import pathlib
import subprocess
import sys
import threading
import time

AT_ONCE = 4


def libraries() -> dict[str, list[str]]:
    """Returns the libraries that each crate of `crates.txt` stands on, the repository's and the kit's."""
    found = {}
    for line in pathlib.Path("crates.txt").read_text(encoding="utf-8").splitlines():
        names, colon, deps = line.partition("#")[0].partition(":")
        if colon:
            found[names.split()[0]] = deps.split()
    return found


def newest(place: pathlib.Path) -> float:
    """Returns when a file, or the last of a folder's files, was written."""
    files = [place] if place.is_file() else place.rglob("*")
    return max((it.stat().st_mtime for it in files if it.is_file()), default=0.0)


class Sweep:
    """A sweep: what stands on what, where libraries go, and which crates are done, with their statuses."""

    def __init__(self, room: pathlib.Path, more: list[str]) -> None:
        self.room, self.more = room.resolve(), more
        self.below = libraries()
        self.done: dict[str, int] = {}
        self.running: set[str] = set()
        self.changed = threading.Condition()
        doc = subprocess.run(["rt", "doc"], capture_output=True, text=True, check=True).stdout
        self.kit = pathlib.Path(doc.strip()).parent
        self.heights: dict[str, int] = {}

    def own(self, crate: str) -> list[str]:
        """Returns the repository's crates that this one stands on."""
        return [it for it in self.below[crate] if it in self.below]

    def height(self, crate: str) -> int:
        """Returns how long the longest chain of crates above this one is."""
        if crate not in self.heights:
            above = [it for it in self.below if crate in self.below[it]]
            self.heights[crate] = 1 + max(map(self.height, above), default=0)
        return self.heights[crate]

    def is_kept(self, crate: str) -> bool:
        """Tells whether the library is newer than the crate's files and than the libraries that it stands on."""
        library = self.room / f"{crate}.rlib"
        if not library.exists():
            return False
        sources = [pathlib.Path("crates", crate, part) for part in ("src", "specs", "proofs")]
        under = [self.room / f"{it}.rlib" for it in self.own(crate)]
        return max(map(newest, [*sources, *under])) < newest(library)

    def words(self, crate: str, root: str) -> list[str]:
        """Returns the prover's words for a crate."""
        words = ["--crate-name", crate, root, "--jobs", "1", "--incremental", "out/incremental"]
        for name in ["std", *self.below[crate]]:
            folder = self.room if name in self.below else self.kit / "rlibs"
            words += ["--extern", f"{name}={folder}/{name}.rlib"]
        for folder in (self.room, self.kit / "rlibs"):
            words += ["-L", f"dependency={folder}"]
        project = self.kit / "rattle/logic/antt-project.json"
        return [*words, "--antt-project", str(project), "--logic-built", str(self.kit / "logic_built")]

    def prove(self, crate: str) -> int:
        """Proves a crate and makes its library, unless that is kept; returns the prover's status."""
        if self.is_kept(crate):
            return 0
        folder = pathlib.Path("crates", crate)
        is_library = (folder / "src/lib.rt").exists()
        words = self.words(crate, "src/lib.rt" if is_library else "src/main.rt")
        commands = [["rattle", "check", *words, *self.more]]
        if is_library:
            commands.append(["rattle", "build", *words, "-o", str(self.room / f"{crate}.rlib")])
        (folder / "out").mkdir(exist_ok=True)
        began, status = time.monotonic(), 0
        with open(self.room / f"{crate}.txt", "w", encoding="utf-8") as said:
            for command in commands:
                status = status or subprocess.run(command, cwd=folder, stdout=said, stderr=said, check=False).returncode
        print(f"{time.strftime('%H:%M:%S')} {crate} {status} {time.monotonic() - began:.0f}", flush=True)
        return status

    def next_crate(self) -> str | None:
        """Returns a crate that can be proved now, the one with the longest chain above it; none where all are done."""
        while True:
            left = [it for it in self.below if it not in self.done and it not in self.running]
            for crate in left:
                if any(self.done.get(it, 0) for it in self.own(crate)):
                    # what it stands on isn't proved
                    self.done[crate] = 1
            left = [it for it in left if it not in self.done]
            ready = [it for it in left if all(self.done.get(below) == 0 for below in self.own(it))]
            if ready:
                return max(ready, key=self.height)
            if not left:
                return None
            self.changed.wait()

    def work(self) -> None:
        """Proves crates as long as there are some."""
        while True:
            with self.changed:
                crate = self.next_crate()
                if crate is None:
                    self.changed.notify_all()
                    return
                self.running.add(crate)
            status = self.prove(crate)
            with self.changed:
                self.running.remove(crate)
                self.done[crate] = status
                self.changed.notify_all()


def main() -> int:
    if len(sys.argv) < 2 or set(sys.argv[2:]) - {"--fix-imports"}:
        print(__doc__, file=sys.stderr)
        return 2
    room = pathlib.Path(sys.argv[1])
    room.mkdir(parents=True, exist_ok=True)
    sweep = Sweep(room, sys.argv[2:])
    workers = [threading.Thread(target=sweep.work) for _ in range(AT_ONCE)]
    for worker in workers:
        worker.start()
    for worker in workers:
        worker.join()
    return 1 if any(sweep.done.values()) else 0


if __name__ == "__main__":
    sys.exit(main())
