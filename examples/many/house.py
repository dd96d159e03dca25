"""Houses and roofs that give their power in W: a simulator in one file, which is copied to another machine by itself.

`python3 house.py HOST:PORT` connects there. `python3 house.py --remote HOST:PORT` waits there for the orchestrator.
A step is a quarter of an hour. The parameter `pause` makes each step take so many milliseconds more.
"""
import json
import math
import socket
import struct
import sys
import time

HOURS = [90, 80, 70, 70, 80, 120, 220, 310, 260, 200, 190, 230, 280, 220, 180, 180, 210, 320, 430, 470, 400, 310, 210, 130]
MODELS = {
    "House": {"public": True, "params": ["people"], "attrs": ["power"]},
    "Roof": {"public": True, "params": ["area"], "attrs": ["power"]},
}


class Houses:
    """Each entity with a number of its own, its model and its size."""

    def init(self, sid: str, time_resolution: int = 1, pause: int = 0) -> dict:
        self.pause, self.entities, self.now = pause, {}, 0
        return {"api_version": "3.0", "type": "time-based", "models": MODELS}

    def create(self, num: int, model: str, people: int = 1, area: int = 1) -> list:
        size = people if model == "House" else area
        new = {f"{model.lower()}-{len(self.entities) + i}": (len(self.entities) + i, model, size) for i in range(num)}
        self.entities.update(new)
        return [{"eid": eid, "type": model} for eid in new]

    def setup_done(self) -> None:
        """Nothing is to be done when all are connected."""

    def step(self, now: int, inputs: dict, max_advance: int) -> int:
        time.sleep(self.pause / 1000)
        self.now = now
        return now + 1

    def power(self, eid: str) -> int:
        number, model, size = self.entities[eid]
        if model == "House":
            return size * HOURS[self.now // 4 % 24] + (37 * self.now + 101 * number) % 60
        sun = math.sin((self.now % 96 - 24) * math.pi / 48)
        return -round(150 * size * max(0.0, sun))

    def get_data(self, outputs: dict) -> dict:
        return {eid: {attr: self.power(eid) for attr in attrs} for eid, attrs in outputs.items()}


def opened(words: list) -> socket.socket:
    """The link to the orchestrator: made here, or waited for."""
    host, port = words[-1].rsplit(":", 1)
    if words[0] != "--remote":
        return socket.create_connection((host, int(port)))
    with socket.create_server((host, int(port))) as server:
        print(f"waiting at {words[-1]}", flush=True)
        return server.accept()[0]


def serve(simulator: Houses) -> None:
    """Answers request by request until `stop`, or until the link ends."""
    with opened(sys.argv[1:]) as link, link.makefile("rwb") as stream:
        link.setsockopt(socket.IPPROTO_TCP, socket.TCP_NODELAY, 1)
        while header := stream.read(4):  # four bytes say how long the payload is
            _, number, (function, args, named) = json.loads(stream.read(struct.unpack("!I", header)[0]))
            if function == "stop":
                return
            try:
                reply = [1, number, getattr(simulator, function)(*args, **named)]
            except Exception as fault:  # what went wrong is told as a failure
                reply = [2, number, f"{type(fault).__name__}: {fault}"]
            payload = json.dumps(reply).encode()
            stream.write(struct.pack("!I", len(payload)) + payload)
            stream.flush()


if __name__ == "__main__":
    serve(Houses())
