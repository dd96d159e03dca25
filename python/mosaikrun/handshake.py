"""Simulators as they are started while the scenario is built, so that their metadata and entities are there.

A class is made in this process. A program is started as a child, and an address is connected to; both are asked by
mosaik's low-level API. At the run all are started anew by the program, so these are ended before.
"""

from __future__ import annotations

import contextlib
import importlib
import io
import os
import signal
import socket
import subprocess
import sys
import threading
import time
from typing import Any, Dict, Iterator, List, Optional

from mosaikrun.api import Link, RemoteException, connected
from mosaikrun.child import loaded, plain_meta
from mosaikrun.errors import ScenarioError, SimulationError, refused
from mosaikrun.guard import Guard
from mosaikrun.prints import Prints, Stream
from mosaikrun.study import ADDRESS, Command

SID, STAGE = "MOSAIKRUN_SIM_ID", "MOSAIKRUN_STAGE"


class Handshake:
    """A simulator that answers while the scenario is built."""

    def __init__(self, sid: str) -> None:
        self.sid, self.meta = sid, {}

    def ask(self, function: str, /, *args: Any, **named: Any) -> Any:
        raise NotImplementedError

    def init(self, params: Dict[str, Any]) -> None:
        """Asks for the metadata."""
        meta = self.ask("init", self.sid, **params, time_resolution=1)
        if not isinstance(meta, dict) or not isinstance(meta.get("models"), dict):
            raise ScenarioError(f"{self.sid}: its init gave no metadata with models, but {meta!r}")
        version = str(meta.get("api_version", "none"))
        if version.partition(".")[0] != "3":
            raise refused(f"{self.sid} is of API version {version}", "Does my simulator run as it is?")
        self.meta = meta

    def end(self) -> None:
        """Ends the simulator, whatever state it is in."""


@contextlib.contextmanager
def surroundings(cwd: Optional[str], env: Dict[str, str]) -> Iterator[None]:
    """This process in another folder and with other variables, as the simulator has them later."""
    folder, before = os.getcwd(), {name: os.environ.get(name) for name in env}
    try:
        os.environ.update(env)
        if cwd:
            os.chdir(cwd)
        yield
    finally:
        os.chdir(folder)
        for name, value in before.items():
            if value is None:
                os.environ.pop(name, None)
            else:
                os.environ[name] = value


class Inside(Handshake):
    """A class in this process."""

    def __init__(self, sid: str, name: str, cwd: Optional[str], env: Dict[str, str]) -> None:
        super().__init__(sid)
        self.cwd, self.env = cwd, {**env, SID: sid, STAGE: "handshake"}
        with surroundings(self.cwd, self.env):
            self.simulator: Any = class_of(sid, name)()

    def ask(self, function: str, /, *args: Any, **named: Any) -> Any:
        with surroundings(self.cwd, self.env):
            answer = getattr(self.simulator, function)(*args, **named)
            if hasattr(answer, "send"):
                answer = self.finished(function, answer)
        return plain_meta(answer) if function == "init" else answer

    def finished(self, function: str, talk: Any) -> Any:
        """What an `async def` comes to; it can't ask for anything yet."""
        try:
            talk.send(None)
        except StopIteration as end:
            return end.value
        talk.close()
        raise refused(
            f"{self.sid} asks for something in {function}, outside of a step", "Does my simulator run as it is?"
        )

    def end(self) -> None:
        """Lets the simulator free what it holds; what it says of a run that hasn't been isn't shown."""
        simulator, self.simulator = self.simulator, None
        if simulator is None or not hasattr(simulator, "finalize"):
            return
        nowhere = io.StringIO()
        with surroundings(self.cwd, self.env), contextlib.redirect_stdout(nowhere), contextlib.redirect_stderr(nowhere):
            with contextlib.suppress(Exception):
                simulator.finalize()


def class_of(sid: str, name: str) -> type:
    """The class of a `python` entry."""
    try:
        module, _, path = name.rpartition(":")
        if module == "__main__":
            return getattr(sys.modules["__main__"], path)
        return loaded(name)
    except Exception as fault:  # whatever the module does when it is loaded
        raise ScenarioError(f"{sid} can't be started: {name}: {type(fault).__name__}: {fault}") from fault


class Outside(Handshake):
    """A program that is started as a child, or an address that is connected to."""

    def __init__(self, sid: str, stop_timeout: float) -> None:
        super().__init__(sid)
        self.stop_timeout, self.link, self.child = stop_timeout, None, None
        self.works = False  # on a request, so that it can't be told to stop
        self.printing: Optional[Printing] = None
        self.guard: Optional[Guard] = None

    def start(self, command: Command, seconds: float) -> None:
        """Starts the program, and waits so long for it to connect."""
        with socket.create_server(("127.0.0.1", 0)) as server:
            address = f"127.0.0.1:{server.getsockname()[1]}"
            words = [word.replace(ADDRESS, address) for word in command.words]
            env = {**os.environ, **command.env, SID: self.sid, STAGE: "handshake"}
            env.setdefault("PYTHONUNBUFFERED", "1")
            try:
                self.child = started(words, command.cwd, env)
            except OSError as fault:
                raise ScenarioError(f"{self.sid} can't be started: {' '.join(words)}: {fault}") from fault
            self.guard, self.printing = Guard(self.child.pid), Printing(self.sid, self.child)
            try:
                self.link = self.accepted(server, seconds, words)
            except BaseException:
                self.end()
                raise

    def accepted(self, server: socket.socket, seconds: float, words: List[str]) -> Link:
        end, shown = time.monotonic() + seconds, " ".join(words)
        server.settimeout(0.05)
        while time.monotonic() < end:
            try:
                opened = server.accept()[0]
                opened.settimeout(None)
                return Link(opened)
            except socket.timeout:
                if self.child.poll() not in (None, 0):
                    raise ScenarioError(f"{self.sid} ended{self.status()} before it connected: {shown}") from None
        raise ScenarioError(f"{self.sid} did not connect within {seconds:g} seconds: {shown}")

    def connect(self, address: str) -> None:
        try:
            self.link = connected(address)
        except OSError as fault:
            raise ScenarioError(f"{self.sid}: nobody answers at {address}: {fault}") from fault

    def ask(self, function: str, /, *args: Any, **named: Any) -> Any:
        self.works = True
        try:
            answer = self.link.ask(function, args, named)
        except RemoteException as fault:
            self.works = False
            raise SimulationError(f"{self.sid} failed in {function}: {fault}") from None
        except (OSError, ValueError) as fault:
            raise SimulationError(f"{self.sid} ended{self.status()} while it worked on {function}: {fault}") from None
        self.works = False
        return answer

    def status(self) -> str:
        """How the child ended, if it has; its link may end a moment before."""
        if self.child is None:
            return ""
        with contextlib.suppress(subprocess.TimeoutExpired):
            status = self.child.wait(1.0)
            return f" by signal {-status}" if status < 0 else f" with status {status}"
        return ""

    def end(self) -> None:
        """Tells the simulator to stop; one that doesn't end in time, or works on a request, is ended."""
        if self.printing:
            self.printing.prints.quiet = True
        if self.link:
            with contextlib.suppress(OSError):
                self.link.write(0, 0, ["stop", [], {}])
            self.link.close()
            self.link = None
        if self.child and self.child.poll() is None:
            ended(self.child, 0 if self.works else self.stop_timeout)
        if self.guard:
            self.guard.dismiss()
            self.guard = None
        if self.printing:
            self.printing.thread.join(1)


class Printing:
    """A thread that passes on what a child prints, until it ends or is to be quiet."""

    def __init__(self, sid: str, child: subprocess.Popen) -> None:
        self.prints = Prints()
        for pipe, name in ((child.stdout, "stdout"), (child.stderr, "stderr")):
            self.prints.add(os.dup(pipe.fileno()), Stream(sid, name))
            pipe.close()
        self.thread = threading.Thread(target=self.read, daemon=True)
        self.thread.start()

    def read(self) -> None:
        while self.prints.streams():
            self.prints.read(0.2)


def started(words: List[str], cwd: Optional[str], env: Dict[str, str]) -> subprocess.Popen:
    """A child in a session of its own, so that Ctrl-C is for the script alone."""
    return subprocess.Popen(
        words,
        cwd=cwd,
        env=env,
        stdin=subprocess.DEVNULL,
        stdout=subprocess.PIPE,
        stderr=subprocess.PIPE,
        start_new_session=True,
    )


def ended(child: subprocess.Popen, seconds: float) -> None:
    """Waits so long for the child's end, then ends it and what it started."""
    with contextlib.suppress(subprocess.TimeoutExpired):
        child.wait(seconds)
        return
    for number, patience in ((signal.SIGTERM, 2.0), (signal.SIGKILL, 10.0)):
        with contextlib.suppress(ProcessLookupError):
            os.killpg(child.pid, number)
        with contextlib.suppress(subprocess.TimeoutExpired):
            child.wait(patience)
            return
