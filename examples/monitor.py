#!/usr/bin/env python3
"""A monitor: a simulator for mosaik 3 or mosaikrun in plain Python, over the low-level API's sockets.

It is begun as `python3 monitor.py HOST:PORT`, connects there, and answers requests until `stop`. Its model `Monitor`
has the input `load` and the output `peak`, the greatest load so far. In each step it asks for the outputs of the
entities that its parameter `watched` names, a list of full ids, and writes what it learns to its error output where
`verbose` is true. A frame is a length of four bytes, most significant first, and a JSON list [type, id, content]:
type 0 is a request, 1 a success reply, 2 a failure reply.
"""
import json
import socket
import struct
import sys

META = {
    "api_version": "3.0",
    "type": "time-based",
    "models": {"Monitor": {"public": True, "params": [], "attrs": ["load", "peak"]}},
}


class Link:
    """The socket to the orchestrator: frames in both directions, and requests of one's own."""

    def __init__(self, address):
        host, port = address.rsplit(":", 1)
        self.socket = socket.create_connection((host, int(port)))
        self.next_id = 0

    def read(self):
        """The next message, or None where the link has ended."""
        header = self.bytes(4)
        return json.loads(self.bytes(struct.unpack("!I", header)[0])) if header else None

    def bytes(self, count):
        found = b""
        while len(found) < count:
            piece = self.socket.recv(count - len(found))
            if not piece:
                return b""
            found += piece
        return found

    def write(self, kind, id, content):
        payload = json.dumps([kind, id, content]).encode()
        self.socket.sendall(struct.pack("!I", len(payload)) + payload)

    def ask(self, function, *args):
        """Asks for something during a step, and gives the answer; None where it is refused."""
        self.next_id += 1
        self.write(0, self.next_id, [function, args, {}])
        kind, _, content = self.read()
        return content if kind == 1 else None


class Monitor:
    """The simulator: one list of entities, each with its peak."""

    def __init__(self, link):
        self.link, self.peaks, self.params = link, {}, {}

    def init(self, sid, **params):
        self.params = params
        return META

    def create(self, num, model, **params):
        eids = [f"monitor-{len(self.peaks) + i}" for i in range(num)]
        self.peaks.update((eid, 0) for eid in eids)
        return [{"eid": eid, "type": model} for eid in eids]

    def setup_done(self):
        return None

    def step(self, time, inputs, max_advance):
        for eid, attrs in inputs.items():
            self.peaks[eid] = max(self.peaks[eid], *attrs.get("load", {"": 0}).values())
        watched = self.params.get("watched", [])
        if watched:
            values = self.link.ask("get_data", {full_id: ["out"] for full_id in watched})
            if self.params.get("verbose"):
                print(f"{time}: {values}", file=sys.stderr)
        return time + self.params.get("step", 1)

    def get_data(self, outputs):
        return {eid: {attr: self.peaks[eid] for attr in attrs if attr == "peak"} for eid, attrs in outputs.items()}


def main():
    link = Link(sys.argv[1])
    monitor = Monitor(link)
    while (message := link.read()) is not None:
        kind, id, (function, args, named) = message
        if function == "stop":
            return
        try:
            link.write(1, id, getattr(monitor, function)(*args, **named))
        except Exception as fault:  # whatever went wrong is told as a failure reply
            link.write(2, id, str(fault))


main()
