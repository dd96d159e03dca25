"""What simulators print, passed on line by line, each after the simulator's id: `[House-31] done`."""

from __future__ import annotations

import os
import selectors
import sys
from typing import Dict, List, Optional


class Stream:
    """One output of one simulator: the name of the script's stream that it goes to, and the beginning of a line."""

    def __init__(self, sid: str, name: str) -> None:
        self.sid, self.name, self.rest = sid, name, b""

    def take(self, data: bytes) -> None:
        """Prints the lines that are whole, and at the end of the stream what is left."""
        *lines, self.rest = (self.rest + data).split(b"\n")
        if not data and self.rest:
            lines, self.rest = [self.rest], b""
        self.say([line.decode("utf-8", "replace") for line in lines])

    def say(self, lines: List[str]) -> None:
        if lines:
            out = getattr(sys, self.name)
            out.write("".join(f"[{self.sid}] {line}\n" for line in lines))
            out.flush()


class Kept(Stream):
    """The program's own error output: its lines are kept, and what is none of its lines is passed on."""

    def __init__(self) -> None:
        super().__init__("mosaikrun", "stderr")
        self.lines: List[str] = []

    def say(self, lines: List[str]) -> None:
        self.lines += lines
        super().say([line for line in lines if not line.startswith("mosaikrun: ")])


class Prints:
    """The outputs of all simulators that were started together; nothing is passed on once they are quiet."""

    def __init__(self) -> None:
        self.selector, self.quiet = selectors.DefaultSelector(), False
        self.ended: List[str] = []

    def add(self, descriptor: int, stream: Stream) -> None:
        os.set_blocking(descriptor, False)
        self.selector.register(descriptor, selectors.EVENT_READ, stream)

    def read(self, seconds: Optional[float]) -> bool:
        """Passes on what has come, waiting so long for it: whether anything has."""
        found = self.selector.select(seconds)
        for key, _ in found:
            try:
                data = os.read(key.fd, 65536)
            except BlockingIOError:
                continue
            if not self.quiet:
                key.data.take(data)
            if not data:
                self.drop(key.fd)
        return bool(found)

    def drop(self, descriptor: int) -> None:
        """Looks no longer at an output that has ended."""
        stream = self.selector.unregister(descriptor).data
        os.close(descriptor)
        if stream.name == "stderr":
            self.ended.append(stream.sid)

    def close(self) -> None:
        """Passes on what is there now, and looks no longer."""
        while self.streams() and self.read(0):
            pass
        for descriptor, stream in self.streams().items():
            if not self.quiet:
                stream.take(b"")
            self.selector.unregister(descriptor)
            os.close(descriptor)
        self.selector.close()

    def streams(self) -> Dict[int, Stream]:
        """The outputs that haven't ended, by their descriptors."""
        return {key.fd: key.data for key in (self.selector.get_map() or {}).values()}
