"""One end of a link: frames in and out, and a simulator that answers as it should."""

from __future__ import annotations

import json
import socket
import threading
from typing import Any, Optional

PATIENCE = 20.0


def frame(payload: bytes) -> bytes:
    """Returns a payload behind its header."""
    return len(payload).to_bytes(4, "big") + payload


def message(kind: int, number: int, content: Any) -> bytes:
    """Returns a message's frame."""
    return frame(json.dumps([kind, number, content]).encode())


class Wire:
    """A link on which frames are heard and bytes are said."""

    def __init__(self, link: socket.socket) -> None:
        link.settimeout(PATIENCE)
        self.link = link
        self.held = b""

    def _more(self) -> bool:
        try:
            piece = self.link.recv(1 << 16)
        except ConnectionError:
            return False
        self.held += piece
        return bool(piece)

    def hear(self) -> Optional[list]:
        """Returns the next message, or None where the link has ended."""
        while len(self.held) < 4 or len(self.held) < 4 + int.from_bytes(self.held[:4], "big"):
            if not self._more():
                return None
        end = 4 + int.from_bytes(self.held[:4], "big")
        payload, self.held = self.held[4:end], self.held[end:]
        return json.loads(payload)

    def say(self, data: bytes) -> None:
        """Says bytes; the link may have ended."""
        try:
            self.link.sendall(data)
        except ConnectionError:
            pass

    def close(self) -> None:
        """Closes the link."""
        self.link.close()


class Honest:
    """A time-based simulator of one model M with one entity e, which steps each so many times."""

    def __init__(self, name: str, width: int) -> None:
        self.name = name
        self.width = width
        self.heard: list[str] = []
        self.wrong: list[str] = []
        self.stopped = False
        self.has_idled = threading.Event()
        self.until = 0

    def content(self, function: str, arguments: list) -> Any:
        """Returns what it answers a request."""
        if function == "init":
            model = {"public": True, "params": [], "attrs": ["out", "in"]}
            return {"api_version": "3.0", "type": "time-based", "models": {"M": model}}
        if function == "create":
            return [{"eid": "e", "type": "M"}]
        if function == "step":
            if arguments[0] + self.width >= self.until:
                self.has_idled.set()
            return arguments[0] + self.width
        return {"e": {"out": len(self.heard)}} if function == "get_data" else None

    def serve(self, wire: Wire) -> None:
        """Answers until it is told to stop."""
        while True:
            heard = wire.hear()
            if heard is None:
                return
            kind, number, content = heard
            if kind != 0 and self.is_answered():
                continue
            if self.stopped or kind != 0 or number != len(self.heard):
                self.wrong.append(f"{self.name} was sent {json.dumps(heard)[:99]}")
            self.heard.append(content[0])
            if content[0] == "stop":
                self.stopped = True
            else:
                self.answer(wire, number, content)

    def is_answered(self) -> bool:
        """Returns whether it may be sent an answer: whether it has asked."""
        return False

    def reply(self, number: int, content: list) -> bytes:
        """Returns the frame that answers a request."""
        return message(1, number, self.content(content[0], content[1]))

    def answer(self, wire: Wire, number: int, content: list) -> None:
        """Answers one request."""
        wire.say(self.reply(number, content))
