"""The simulator's side of mosaik's low-level API 3.0 in plain Python: what the simulators in this folder stand on.

A simulator is a class over `Simulator` with `create`, `step` and `get_data`, and its file ends with
`start_simulation(..)`. Begun as `python3 sim.py HOST:PORT` it connects there; as `python3 sim.py --remote HOST:PORT`
it listens there itself and waits for the orchestrator. `Simulator`, `start_simulation` and `self.mosaik` have the names
that mosaik's package `mosaik_api_v3` gives them.

A frame is a length of four bytes, most significant first, and a JSON list [type, id, content]: type 0 is a request,
whose content is [function, arguments, named arguments], 1 a success reply, 2 a failure reply.
"""
import itertools
import json
import socket
import struct
import sys
import traceback
from typing import Any, Generator, Optional


class Link:
    """A socket that carries frames."""

    def __init__(self, opened: socket.socket) -> None:
        self.socket, self.bytes, self.numbers = opened, opened.makefile("rb"), itertools.count(1)

    def read(self) -> Optional[list]:
        """The next message, or None where the link has ended."""
        header = self.bytes.read(4)
        return json.loads(self.bytes.read(*struct.unpack("!I", header))) if len(header) == 4 else None

    def write(self, kind: int, number: int, content: Any) -> None:
        payload = json.dumps([kind, number, content]).encode()
        self.socket.sendall(struct.pack("!I", len(payload)) + payload)

    def close(self) -> None:
        self.bytes.close()
        self.socket.close()


def connected(address: str) -> Link:
    """A link to whoever listens at the address."""
    host, port = address.rsplit(":", 1)
    return Link(socket.create_connection((host, int(port))))


def awaited(address: str) -> Link:
    """A link from whoever connects to the address within an hour."""
    host, port = address.rsplit(":", 1)
    with socket.create_server((host, int(port))) as server:
        server.settimeout(3600)
        return Link(server.accept()[0])


class RemoteException(Exception):
    """The orchestrator refused a request."""


class Asked:
    """A request that a step makes: `answer = yield self.mosaik.get_data(..)`, or `await` in an `async def step`."""

    def __init__(self, function: str, *args: Any) -> None:
        self.function, self.args = function, args

    def __await__(self) -> Generator:
        return (yield self)


class Mosaik:
    """What a simulator may ask the orchestrator for while it works on a step."""

    def get_data(self, attrs: dict) -> Asked:
        return Asked("get_data", attrs)

    def set_data(self, data: dict) -> Asked:
        return Asked("set_data", data)

    def get_related_entities(self, entities: Any) -> Asked:
        return Asked("get_related_entities", entities)


class Simulator:
    """A simulator without entities; each method but `finalize` answers the request of its name."""

    def __init__(self, meta: dict) -> None:
        self.meta, self.sid, self.mosaik = {"api_version": "3.0", **meta}, "", Mosaik()

    def init(self, sid: str, time_resolution: float = 1) -> dict:
        self.sid = sid
        return self.meta

    def create(self, num: int, model: str, **params: Any) -> list:
        raise NotImplementedError

    def setup_done(self) -> None:
        """All entities are created and connected."""

    def step(self, time: int, inputs: dict, max_advance: int) -> Optional[int]:
        raise NotImplementedError

    def get_data(self, outputs: dict) -> dict:
        return {}

    def finalize(self) -> None:
        """The run has ended."""


def talked(link: Link, talk: Any) -> Any:
    """Lets a step that asks go on with each answer, until it returns its next time."""
    answer, fault = None, None
    while True:
        try:
            asked = talk.throw(fault) if fault else talk.send(answer)
        except StopIteration as end:
            return end.value
        link.write(0, next(link.numbers), [asked.function, asked.args, {}])
        kind, _, content = link.read()
        answer, fault = (content, None) if kind == 1 else (None, RemoteException(content))


def serve(link: Link, simulator: Simulator) -> None:
    """Answers request by request until `stop`, or until the link ends."""
    while (message := link.read()) is not None:
        _, number, (function, args, named) = message
        if function == "stop":
            break
        try:
            answer = getattr(simulator, function)(*args, **named)
            answer = talked(link, answer) if hasattr(answer, "send") else answer
            link.write(1, number, answer)
        except Exception as fault:  # whatever went wrong is told as a failure reply
            traceback.print_exc()
            link.write(2, number, f"{type(fault).__name__}: {fault}")
    simulator.finalize()


def start_simulation(simulator: Simulator, description: str = "") -> None:
    """Serves the simulator at the address that is the last word of the command line."""
    *options, address = sys.argv[1:]
    serve(awaited(address) if {"-r", "--remote"} & set(options) else connected(address), simulator)
