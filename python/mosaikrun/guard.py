"""Ends what this process started when this process ends, however that comes about: by a shell that waits for it."""

from __future__ import annotations

import contextlib
import subprocess

# the shell reads from a pipe that nobody writes to, so it goes on when this process is gone
AT_ONCE = 'read _; kill -s KILL -- "-$1"'
# one simulator is ended first, so that the program saves the record of the run and tells the others to stop
GENTLY = (
    'read _; for one in $(cat "/proc/$1/task/$1/children"); do kill -s TERM "$one"; break; done; '
    'left=60; while [ $left -gt 0 ] && kill -0 "$1"; do sleep 1; left=$((left - 1)); done; kill -s KILL -- "-$1"'
)


class Guard:
    """A shell that ends a group of processes, whose leader has this number, when this process has ended."""

    def __init__(self, leader: int, text: str = AT_ONCE) -> None:
        self.shell = subprocess.Popen(
            ["sh", "-c", text, "sh", str(leader)],
            stdin=subprocess.PIPE,
            stdout=subprocess.DEVNULL,
            stderr=subprocess.DEVNULL,
            start_new_session=True,
        )

    def dismiss(self) -> None:
        """The group has ended, so nothing is to be done any more."""
        self.shell.kill()
        self.shell.wait()
        with contextlib.suppress(OSError):
            self.shell.stdin.close()
