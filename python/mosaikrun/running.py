"""Runs a scenario by the program: what its simulators print, how it ends, and that nobody is left behind."""

from __future__ import annotations

import contextlib
import os
import pathlib
import signal
import subprocess
import threading
import time
from typing import Any, Dict, Iterator, List, Optional

from mosaikrun import program
from mosaikrun.guard import GENTLY, Guard
from mosaikrun.prints import Kept, Prints, Stream

# the shell gives way to the simulator, whose outputs go to two pipes that have a name
AROUND = 'exec "$@" >"$0.stdout" 2>"$0.stderr"'
PATIENCE = 60.0
LONGEST = 64_000_000


class Running:
    """The program, and the outputs of its simulators in a folder of their own."""

    def __init__(self, room: pathlib.Path, sids: List[str]) -> None:
        self.room, self.sids = room, sids
        self.prints, self.own = Prints(), Kept()
        self.process: Optional[subprocess.Popen] = None
        self.guard: Optional[Guard] = None

    def around(self) -> Dict[str, List[str]]:
        """The words around each simulator's command."""
        return {sid: ["sh", "-c", AROUND, str(self.room / sid)] for sid in self.sids}

    def run(self, words: List[str]) -> int:
        """Runs the program with these words to its end, and returns its status."""
        for sid in self.sids:
            for name in ("stdout", "stderr"):
                path = self.room / f"{sid}.{name}"
                os.mkfifo(path)
                self.prints.add(os.open(path, os.O_RDONLY | os.O_NONBLOCK), Stream(sid, name))
        with terminated():
            try:
                self.start(words)
                self.follow(None)
            finally:
                self.end()
                self.prints.close()
                if self.guard:
                    self.guard.dismiss()
        return self.process.returncode

    def start(self, words: List[str]) -> None:
        env = {"PYTHONUNBUFFERED": "1", **os.environ}
        with open(self.room / "report", "wb") as report:
            self.process = subprocess.Popen(
                [program.find(), *words],
                stdin=subprocess.DEVNULL,
                stdout=report,
                stderr=subprocess.PIPE,
                env=env,
                start_new_session=True,
            )
        self.guard = Guard(self.process.pid, GENTLY)
        pipe = self.process.stderr
        self.prints.add(os.dup(pipe.fileno()), self.own)
        pipe.close()

    def follow(self, seconds: Optional[float]) -> bool:
        """Passes on what the simulators print until the program ends, at most so long: whether it has ended."""
        end = None if seconds is None else time.monotonic() + seconds
        while self.own in self.prints.streams().values():
            left = None if end is None else end - time.monotonic()
            if left is not None and left <= 0:
                return False
            self.prints.read(left)
        self.process.wait()
        return True

    def end(self) -> None:
        """Ends a run that was interrupted.

        One of its simulators is ended: so the program saves the record, and tells the others to stop. Where that takes
        too long, or there is none, all are ended at once.
        """
        if self.process is None or self.process.poll() is not None:
            return
        with contextlib.suppress(KeyboardInterrupt):
            for child in children(self.process.pid)[:1]:
                with contextlib.suppress(ProcessLookupError):
                    os.kill(child, signal.SIGTERM)
                if self.follow(PATIENCE):
                    return
        with contextlib.suppress(ProcessLookupError):
            os.killpg(self.process.pid, signal.SIGKILL)
        self.process.wait()

    def report(self) -> Optional[str]:
        """The report of the run, None where it is too long to be kept."""
        file = self.room / "report"
        return file.read_text(encoding="utf-8") if file.stat().st_size <= LONGEST else None

    def line(self) -> str:
        """What the program said at its end."""
        return program.line_of("\n".join(self.own.lines), self.process.returncode)


def children(parent: int) -> List[int]:
    """The numbers of the processes that this one started and that haven't ended."""
    found = []
    for file in pathlib.Path("/proc").glob("[0-9]*/stat"):
        with contextlib.suppress(OSError, ValueError):
            text = file.read_text(encoding="utf-8", errors="replace")
            state, its_parent = text[text.rindex(")") + 1 :].split()[:2]
            if int(its_parent) == parent and state != "Z":
                found.append(int(file.parent.name))
    return sorted(found)


@contextlib.contextmanager
def terminated() -> Iterator[None]:
    """Lets `kill` end the script as Ctrl-C does, so that what it started is ended too."""
    in_main = threading.current_thread() is threading.main_thread()
    if not in_main or signal.getsignal(signal.SIGTERM) is not signal.SIG_DFL:
        yield
        return

    def leave(number: int, _: Any) -> None:
        raise SystemExit(128 + number)

    signal.signal(signal.SIGTERM, leave)
    try:
        yield
    finally:
        signal.signal(signal.SIGTERM, signal.SIG_DFL)
