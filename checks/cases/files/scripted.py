"""A simulator that says what a script says: scripted.py HOST:PORT SCRIPT [HEARD].

Each line of the script is a JSON list of a number of frames and bytes in hexadecimal digits: once so many frames were
heard, the bytes are said, or, where they are null, the link is closed. After the last line it hears until the link ends.
With the name HEARD, each frame that it hears is a line of that file: its header in hexadecimal digits, and its payload.
"""

import json
import socket
import sys


def keep(frame):
    """Writes a frame down where that is wanted."""
    if len(sys.argv) > 3:
        with open(sys.argv[3], "a", encoding="utf-8") as file:
            file.write(f"{frame[:4].hex()} {frame[4:].decode('utf-8')}\n")


def heard(link):
    """How many whole frames have come, each time that one more has; ends where the link does."""
    held = b""
    count = 0
    while True:
        while len(held) >= 4 and len(held) >= 4 + int.from_bytes(held[:4], "big"):
            keep(held[: 4 + int.from_bytes(held[:4], "big")])
            held = held[4 + int.from_bytes(held[:4], "big"):]
            count += 1
            yield count
        piece = link.recv(65536)
        if not piece:
            return
        held += piece


def main():
    host, port = sys.argv[1].rsplit(":", 1)
    with open(sys.argv[2], encoding="utf-8") as script:
        lines = [json.loads(line) for line in script]
    with socket.create_connection((host, int(port))) as link:
        frames = heard(link)
        count = 0
        for wanted, digits in lines:
            while count < wanted:
                count = next(frames, wanted)
            if digits is None:
                return
            link.sendall(bytes.fromhex(digits))
        for _ in frames:
            pass


try:
    main()
except ConnectionError:
    pass  # the program may close the link at any time
