"""Serves a simulator by mosaik's low-level API: reads requests, calls the methods of their names, sends the replies."""
import json
import socket
import struct
import sys


def serve(simulator: object) -> None:
    """Connects to the address in the first word, and answers until `stop` or the end of the link."""
    host, port = sys.argv[1].rsplit(":", 1)
    with socket.create_connection((host, int(port))) as link, link.makefile("rwb") as stream:
        while header := stream.read(4):  # four bytes say how long the payload is
            _, number, (function, args, named) = json.loads(stream.read(struct.unpack("!I", header)[0]))
            if function == "stop":
                return
            try:
                reply = [1, number, getattr(simulator, function)(*args, **named)]
            except Exception as fault:  # what went wrong is told as a failure
                reply = [2, number, f"{type(fault).__name__}: {fault}"]
            payload = json.dumps(reply).encode()
            stream.write(struct.pack("!I", len(payload)) + payload)
            stream.flush()
