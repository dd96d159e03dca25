"""Stands between the orchestrator and a simulator, and calls the simulator's extra methods again.

`python -m mosaikrun.relay JSON ADDRESS WORD ..` starts the words, in which `@ADDR@` is the address where it awaits
the simulator; `python -m mosaikrun.relay JSON ADDRESS HOST:PORT` connects to a simulator that waits there. JSON is a
list of calls, each [N, METHOD, ARGUMENTS, NAMED], made after the Nth `create`. All messages are passed on as they are.
"""

from __future__ import annotations

import contextlib
import json
import re
import socket
import subprocess
import sys
import threading
from typing import List, Optional, Tuple

from mosaikrun.api import Link, RemoteException, connected

# the orchestrator replaces `%(addr)s`, so the simulator's own address has another mark
OWN_ADDRESS = "@ADDR@"
PATIENCE = 10.0


def started(words: List[str]) -> Tuple[subprocess.Popen, Link]:
    """The simulator's program and its link; where it ends before it connects, this program ends too."""
    with socket.create_server(("127.0.0.1", 0)) as server:
        address = f"127.0.0.1:{server.getsockname()[1]}"
        child = subprocess.Popen([word.replace(OWN_ADDRESS, address) for word in words])
        server.settimeout(0.05)
        while child.poll() is None:
            with contextlib.suppress(socket.timeout):
                opened = server.accept()[0]
                opened.settimeout(None)
                return child, Link(opened)
    sys.exit(child.returncode or 1)


def called(inner: Link, calls: List[list], created: int) -> str:
    """Makes the calls that are due after so many `create`: what went wrong, if anything."""
    while calls and calls[0][0] <= created:
        _, method, args, named = calls.pop(0)
        try:
            inner.ask(method, args, named)
        except RemoteException as fault:
            return f"{method} failed: {fault}"
    return ""


def shake(outer: Link, inner: Link, calls: List[list]) -> bool:
    """Passes the handshake on, request by request, with the calls in it: whether it has come to its end."""
    created = 0
    while (message := outer.read()) is not None:
        kind, number, content = message
        inner.write(kind, number, content)
        function = content[0]
        answer = None if function == "stop" else inner.read()
        if answer is None:
            return False
        created += function == "create"
        wrong = called(inner, calls, created)
        outer.write(*([2, number, wrong] if wrong and answer[0] == 1 else answer))
        if function == "setup_done":
            return True
    return False


def pump(source: Link, target: Link) -> None:
    """Passes frames on until the link ends, and ends the other one then."""
    with contextlib.suppress(OSError):
        while (payload := source.frame()) is not None:
            target.send(payload)
    with contextlib.suppress(OSError):
        target.socket.shutdown(socket.SHUT_WR)


def main() -> None:
    calls, address, *words = sys.argv[1:]
    child: Optional[subprocess.Popen] = None
    if len(words) == 1 and re.fullmatch(r"\S+:\d+", words[0]):
        inner = connected(words[0])
    else:
        child, inner = started(words)
    outer = connected(address)
    try:
        if shake(outer, inner, json.loads(calls)):
            back = threading.Thread(target=pump, args=(inner, outer), daemon=True)
            back.start()
            pump(outer, inner)
            back.join(PATIENCE)
    finally:
        inner.close()
        if child:
            with contextlib.suppress(subprocess.TimeoutExpired):
                child.wait(PATIENCE)
            child.kill()
        outer.close()


if __name__ == "__main__":
    main()
