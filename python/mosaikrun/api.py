"""The simulator's side of mosaik's low-level API 3.0, where mosaik's own package `mosaik_api_v3` isn't installed.

A simulator is a class over `Simulator` with `create`, `step` and `get_data`. `start_simulation(MySimulator())` serves
it: begun as `python3 sim.py HOST:PORT` it connects there; as `python3 sim.py --remote HOST:PORT` it listens there and
waits for the orchestrator. While it works on a step it may ask the orchestrator, as `found = yield
self.mosaik.get_data(..)`, or with `await` in an `async def step`. The names are those of mosaik's package.

A frame is a length of four bytes, most significant first, and a JSON list [type, id, content]: type 0 is a request,
whose content is [function, arguments, named arguments], 1 a success reply, 2 a failure reply.
"""

from __future__ import annotations

import itertools
import json
import logging
import socket
import struct
import sys
import traceback
from typing import Any, Dict, Generator, List, Optional, Tuple

__api_version__ = "3.0"
__version__ = "3.0"
HEADER = struct.Struct("!I")


class RemoteException(Exception):
    """The other side answered a request with a failure."""


class Link:
    """A socket that carries frames."""

    def __init__(self, opened: socket.socket) -> None:
        self.socket, self.bytes, self.numbers = opened, opened.makefile("rb"), itertools.count(1)
        if opened.family in (socket.AF_INET, socket.AF_INET6):
            opened.setsockopt(socket.IPPROTO_TCP, socket.TCP_NODELAY, 1)

    def frame(self) -> Optional[bytes]:
        """The next payload, or None where the link has ended."""
        try:
            header = self.bytes.read(HEADER.size)
            if len(header) < HEADER.size:
                return None
            (length,) = HEADER.unpack(header)
            payload = self.bytes.read(length)
        except ConnectionError:
            return None
        return payload if len(payload) == length else None

    def read(self) -> Optional[list]:
        """The next message, or None where the link has ended."""
        payload = self.frame()
        return None if payload is None else json.loads(payload)

    def write(self, kind: int, number: int, content: Any) -> None:
        try:
            self.send(json.dumps([kind, number, content], allow_nan=False, default=plain).encode())
        except ValueError as fault:
            raise ValueError(f"{fault}; JSON has no NaN and no infinite number: {str(content)[:500]}") from None

    def send(self, payload: bytes) -> None:
        self.socket.sendall(HEADER.pack(len(payload)) + payload)

    def ask(self, function: str, args: Any = (), named: Optional[dict] = None) -> Any:
        """Asks the other side and waits for its reply; a failure reply is a RemoteException."""
        self.write(0, next(self.numbers), [function, args, named or {}])
        reply = self.read()
        if reply is None:
            raise ConnectionResetError(f"the link ended before the answer to {function}")
        if reply[0] != 1:
            raise RemoteException(reply[2])
        return reply[2]

    def close(self) -> None:
        self.bytes.close()
        self.socket.close()


def plain(value: Any) -> Any:
    """A value of numpy, pandas or the like as JSON has it."""
    for name in ("tolist", "item"):
        if hasattr(value, name):
            return getattr(value, name)()
    raise TypeError(f"{value!r} is a {type(value).__name__}, which a message can't have")


def parted(address: str) -> Tuple[str, int]:
    """Host and port of an address."""
    host, _, port = address.rpartition(":")
    return host, int(port)


def connected(address: str) -> Link:
    """A link to whoever listens at the address."""
    return Link(socket.create_connection(parted(address)))


def awaited(address: str) -> Link:
    """A link from whoever connects to the address within an hour."""
    with socket.create_server(parted(address)) as server:
        server.settimeout(3600)
        opened = server.accept()[0]
        opened.settimeout(None)
        return Link(opened)


class Asked:
    """A request that a step makes: `answer = yield self.mosaik.get_data(..)`, or `await` in an `async def step`."""

    def __init__(self, function: str, *args: Any, **named: Any) -> None:
        self.function, self.args, self.named = function, args, named

    def __await__(self) -> Generator:
        return (yield self)


class MosaikRemote:
    """What a simulator may ask the orchestrator for while it works on a step."""

    def get_progress(self) -> Asked:
        return Asked("get_progress")

    def get_related_entities(self, entities: Any = None) -> Asked:
        return Asked("get_related_entities") if entities is None else Asked("get_related_entities", entities)

    def get_data(self, attrs: dict) -> Asked:
        return Asked("get_data", attrs)

    def set_data(self, data: dict) -> Asked:
        return Asked("set_data", data)

    def set_event(self, event_time: int) -> Asked:
        return Asked("set_event", event_time)


class Simulator:
    """A simulator without entities; each method but `configure` and `finalize` answers the request of its name."""

    def __init__(self, meta: dict) -> None:
        self.meta: Dict[str, Any] = {"api_version": __api_version__, **meta}
        self.sid, self.time_resolution, self.mosaik = "", 1.0, MosaikRemote()

    def configure(self, args: dict) -> None:
        """The words of the command line, before anything is answered."""

    def init(self, sid: str, time_resolution: float = 1.0, **sim_params: Any) -> dict:
        self.sid, self.time_resolution = sid, time_resolution
        return self.meta

    def create(self, num: int, model: str, **model_params: Any) -> list:
        raise NotImplementedError

    def setup_done(self) -> None:
        """All entities are created and connected."""

    def step(self, time: int, inputs: dict, max_advance: int) -> Optional[int]:
        raise NotImplementedError

    def get_data(self, outputs: dict) -> dict:
        raise NotImplementedError

    def finalize(self) -> None:
        """The run has ended."""


def talked(link: Link, talk: Any) -> Any:
    """Lets a step that asks go on with each answer, until it returns its next time."""
    answer, fault = None, None
    while True:
        try:
            asked = talk.throw(fault) if fault else talk.send(answer)
        except StopIteration as end:
            return end.value
        answer, fault = None, None
        try:
            answer = link.ask(asked.function, asked.args, asked.named)
        except RemoteException as refused:
            fault = refused


def serve(link: Link, simulator: Any) -> None:
    """Answers request by request until `stop`, or until the link ends."""
    while (message := link.read()) is not None:
        _, number, (function, args, named) = message
        if function == "stop":
            break
        try:
            answer = getattr(simulator, function)(*args, **named)
            answer = talked(link, answer) if hasattr(answer, "send") else answer
            link.write(1, number, answer)
        except ConnectionError:
            break
        except Exception as fault:  # whatever went wrong is told as a failure reply
            traceback.print_exc()
            link.write(2, number, f"{type(fault).__name__}: {fault}")
    simulator.finalize()


def options_of(words: List[str]) -> Dict[str, Any]:
    """The command line as mosaik's package has it: the address, `--remote`, `--log-level`, and what else there is."""
    found: Dict[str, Any] = {"--remote": False, "--log-level": "info", "<addr>": None}
    short = {"-r": "--remote", "-l": "--log-level"}
    rest = iter(words)
    for word in rest:
        name, has_value, value = word.partition("=")
        name = short.get(name, name)
        if not name.startswith("-"):
            found["<addr>"] = word
        elif name == "--log-level":
            found[name] = value if has_value else next(rest, "info")
        else:
            found[name] = value if has_value else True
    return found


def start_simulation(simulator: Any, description: str = "", extra_options: Optional[list] = None) -> int:
    """Serves the simulator at the address of the command line, until it is told to stop."""
    found = options_of(sys.argv[1:])
    address = found["<addr>"]
    if address is None or not address.rpartition(":")[2].isdigit():
        sys.exit(f"{description}\nusage: {sys.argv[0]} [--remote] [--log-level LEVEL] HOST:PORT".strip())
    logging.basicConfig(level=str(found["--log-level"]).upper())
    if hasattr(simulator, "configure"):
        simulator.configure(found)
    link = awaited(address) if found["--remote"] else connected(address)
    try:
        serve(link, simulator)
    finally:
        link.close()
    return 0
