#!/usr/bin/env python3
"""A line to a far host, as a ProxyCommand of ssh: `delay.py HOST PORT MS` carries each byte MS milliseconds late."""

from __future__ import annotations

import os
import queue
import socket
import sys
import threading
import time
from typing import Callable


def carry(read: Callable[[], bytes], write: Callable[[bytes], object], seconds: float) -> None:
    """Carries what is read, each piece so many seconds after it came, up to its end."""
    pieces: queue.Queue = queue.Queue()

    def gather() -> None:
        piece = b"-"
        while piece:
            try:
                piece = read()
            except OSError:
                piece = b""
            pieces.put((time.monotonic() + seconds, piece))

    threading.Thread(target=gather, daemon=True).start()
    while True:
        moment, piece = pieces.get()
        time.sleep(max(0.0, moment - time.monotonic()))
        if not piece:
            return
        write(piece)


def sent(piece: bytes) -> None:
    """Writes the whole piece to standard output."""
    while piece:
        piece = piece[os.write(1, piece) :]


def main() -> None:
    """Carries both ways until one of them ends."""
    host, port, milliseconds = sys.argv[1:]
    link = socket.create_connection((host, int(port)))
    link.setsockopt(socket.IPPROTO_TCP, socket.TCP_NODELAY, 1)
    seconds = int(milliseconds) / 1000
    back = threading.Thread(target=carry, args=(lambda: link.recv(65536), sent, seconds), daemon=True)
    back.start()
    threading.Thread(target=carry, args=(lambda: os.read(0, 65536), link.sendall, seconds), daemon=True).start()
    back.join()


if __name__ == "__main__":
    main()
