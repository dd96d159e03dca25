"""Gives jobs to the driver, a small C program that is compiled at start, and takes what came of them."""

from __future__ import annotations

import pathlib
import shutil
import struct
import subprocess
import tempfile
from typing import NamedTuple, Optional

HERE = pathlib.Path(__file__).resolve().parent
ALWAYS, NOT_RUN, TIMED_OUT, SIGNALLED = 255, 3000, 2000, 1000
SECONDS, SPACE = 20, 8 << 30


class Step(NamedTuple):
    """The words of a run; which status the run before must have had; and the names of files to be kept."""

    words: tuple[bytes, ...]
    only_after: int = ALWAYS
    keep: tuple[bytes, ...] = ()


class Job(NamedTuple):
    """Files by their names, and runs in a folder that holds just these."""

    files: dict[bytes, bytes]
    steps: tuple[Step, ...]


class Ran(NamedTuple):
    """What came of a run."""

    status: int
    memory: int
    milliseconds: int
    out: bytes
    err: bytes
    files: dict[bytes, Optional[bytes]]


def room_in_memory() -> str:
    """Returns a new folder, in memory where the system has one."""
    memory = pathlib.Path("/dev/shm")
    return tempfile.mkdtemp(prefix="hostile-", dir=str(memory) if memory.is_dir() else None)


def compiled(name: str, folder: str, *words: str) -> str:
    """Compiles a C file beside this one."""
    made = f"{folder}/{pathlib.Path(name).stem}"
    subprocess.run(["cc", "-O1", "-Wall", *words, "-o", made, str(HERE / name)], check=True)
    return made


def counted(data: bytes) -> bytes:
    """Returns bytes behind their length."""
    return struct.pack("<I", len(data)) + data


def job_bytes(job: Job) -> bytes:
    """Returns a job as the driver reads it."""
    parts = [struct.pack("<I", len(job.files))]
    for name, data in job.files.items():
        parts += [counted(name), counted(data)]
    parts.append(struct.pack("<I", len(job.steps)))
    for step in job.steps:
        parts.append(struct.pack("<II", step.only_after, len(step.words)))
        parts += map(counted, step.words)
        parts.append(struct.pack("<I", len(step.keep)))
        parts += map(counted, step.keep)
    return b"".join(parts)


def driver_of(program: str) -> Driver:
    """Returns a driver that gives the program as much address space as it needs to begin: one with a sanitizer takes all."""
    driver = Driver(program)
    (ran,) = driver.run(Job({}, (Step((b"replay", b"none")),)))
    if ran.status < SIGNALLED:
        return driver
    driver.close()
    return Driver(program, 0)


class Driver:
    """A driver that runs."""

    def __init__(self, program: str, space: int = SPACE) -> None:
        self.space = space
        self.tools = tempfile.mkdtemp(prefix="hostile-")
        self.room = room_in_memory()
        words = [compiled("driver.c", self.tools), program, self.room, str(SECONDS), str(space)]
        self.process = subprocess.Popen(words, stdin=subprocess.PIPE, stdout=subprocess.PIPE)
        self.runs = 0

    def _bytes(self, length: int) -> bytes:
        data = self.process.stdout.read(length)
        if len(data) != length:
            raise RuntimeError("the driver has ended")
        return data

    def _number(self) -> int:
        return struct.unpack("<I", self._bytes(4))[0]

    def _file(self) -> bytes:
        self._number()
        return self._bytes(self._number())

    def _ran(self, step: Step) -> Ran:
        status, memory, milliseconds = struct.unpack("<III", self._bytes(12))
        out = err = b""
        if status != NOT_RUN:
            self.runs += 1
            out, err = self._file(), self._file()
        files = {name: self._file() if self._number() else None for name in step.keep}
        return Ran(status, memory, milliseconds, out, err, files)

    def run(self, job: Job) -> list[Ran]:
        """Returns what came of each step of a job."""
        self.process.stdin.write(job_bytes(job))
        self.process.stdin.flush()
        return [self._ran(step) for step in job.steps]

    def close(self) -> None:
        """Ends the driver."""
        self.process.stdin.close()
        self.process.wait()
        shutil.rmtree(self.tools)
        shutil.rmtree(self.room)
