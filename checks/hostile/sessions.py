"""Runs a program with simulators of which one is hostile, over real sockets, and looks at how the run ends."""

from __future__ import annotations

import array
import contextlib
import multiprocessing
import os
import pathlib
import random
import select
import shutil
import socket
import subprocess
import tempfile
import threading
import time
from typing import NamedTuple, Optional

from .acts import HANDSHAKE, Act, Moment, described, drawn
from .driving import compiled
from .wires import PATIENCE, Honest, Wire

STATUSES = {"outside": 6, "run": 5, "setup": 4, "meta": 4, "create": 4}
SILENCE = 0.03
AFTER_STOP = (b"", b"nonsense", b"\xff" * 9, b"\x00\x00\x00\x0a[1,0,null]" * 3, b"\x00\x00\xff\xff{")


class Plan(NamedTuple):
    """A session: the widths of the simulators' steps, which one is hostile and where, who feeds whom, who is a child.

    Behind the stop the hostile one says some bytes; one that is absent ends as soon as it is started.
    """

    until: int
    widths: tuple[int, ...]
    hostile: int
    at: int
    feeds: tuple[tuple[int, int], ...]
    children: tuple[bool, ...]
    after_stop: bytes
    is_absent: bool


class Hostile(Honest):
    """A simulator that answers as it should until its moment comes."""

    def __init__(self, name: str, plan: Plan, rng: random.Random) -> None:
        super().__init__(name, plan.widths[plan.hostile])
        self.plan = plan
        self.rng = rng
        self.act: Optional[Act] = None
        self.moment: Optional[Moment] = None

    def answer(self, wire: Wire, number: int, content: list) -> None:
        if number != self.plan.at or self.act:
            super().answer(wire, number, content)
            return
        right = self.reply(number, content)
        step = content[1][0] if content[0] == "step" else self.last_time
        self.moment = Moment(self.name, content[0], number, number == total(self.plan) - 1, step, right)
        self.act = drawn(self.rng, self.moment)
        for piece in self.act.pieces:
            wire.say(piece)
        self.finish(wire, self.act)

    def is_answered(self) -> bool:
        return self.act is not None

    def content(self, function: str, arguments: list):
        if function == "step":
            self.last_time = arguments[0]
        return super().content(function, arguments)

    last_time = 0

    def finish(self, wire: Wire, act: Act) -> None:
        """Does what comes behind the act."""
        if act.behind in ("rest", "late close"):
            time.sleep(SILENCE)
            wire.say(act.rest)
        if act.behind in ("close", "late close"):
            wire.close()
            raise ConnectionError

    def serve(self, wire: Wire) -> None:
        try:
            super().serve(wire)
        except (ConnectionError, OSError):
            pass


def total(plan: Plan) -> int:
    """Returns how many requests the hostile simulator gets, the stop aside."""
    steps = -(-plan.until // plan.widths[plan.hostile])
    has_outputs = any(source == plan.hostile for source, _ in plan.feeds)
    return HANDSHAKE + steps * (2 if has_outputs else 1)


def drawn_plan(rng: random.Random) -> Plan:
    """Returns a session's plan."""
    count = rng.choice((2, 2, 3, 4))
    widths = tuple(rng.choice((1, 1, 2, 3)) for _ in range(count))
    hostile = rng.randrange(count)
    pairs = [(source, target) for source in range(count) for target in range(source + 1, count)]
    feeds = tuple(sorted(rng.sample(pairs, rng.choice((0, 1, min(2, len(pairs)))))))
    children = tuple(rng.random() < 0.2 for _ in range(count))
    is_absent = children[hostile] and rng.random() < 0.1
    plan = Plan(rng.randrange(2, 6), widths, hostile, 0, feeds, children, rng.choice(AFTER_STOP), is_absent)
    return plan._replace(at=rng.randrange(total(plan) + (rng.random() < 0.05)))


class Stage:
    """What the sessions of one process share: listeners, the children's program and its socket, and a folder."""

    def __init__(self, program: str) -> None:
        self.program = program
        self.room = tempfile.mkdtemp(prefix="hostile-")
        self.child = compiled("child.c", self.room)
        self.listeners = [socket.create_server(("127.0.0.1", 0)) for _ in range(4)]
        self.local = f"{self.room}/links"
        self.children = socket.socket(socket.AF_UNIX, socket.SOCK_STREAM)
        self.children.bind(self.local)
        self.children.listen(16)
        self.children.setblocking(False)
        self.reports: dict[tuple, bytes] = {}

    def scenario(self, plan: Plan) -> str:
        """Returns the text of a session's scenario."""
        lines = [f"until = {plan.until}"]
        for place, is_child in enumerate(plan.children):
            port = self.listeners[place].getsockname()[1]
            status = " 3" if plan.is_absent and place == plan.hostile else ""
            child = f'command = "{self.child} %(addr)s {self.local} {place}{status}"'
            lines += ["[[sim]]", f'name = "S{place}"', child if is_child else f'connect = "127.0.0.1:{port}"']
        for place in range(len(plan.widths)):
            lines += ["[[entities]]", f'id = "s{place}"', f'sim = "S{place}-0"', 'model = "M"']
        for source, target in plan.feeds:
            lines += ["[[connect]]", f'from = "s{source}"', f'to = "s{target}"', 'attrs = [["out", "in"]]']
        return "\n".join(lines) + "\n"

    def close(self) -> None:
        """Closes and removes all of it."""
        for listener in (*self.listeners, self.children):
            listener.close()
        shutil.rmtree(self.room)


class Session:
    """One run with its simulators."""

    def __init__(self, stage: Stage, plan: Plan, rng: Optional[random.Random]) -> None:
        self.stage, self.plan = stage, plan
        self.over = threading.Event()
        self.wrong: list[str] = []
        self.pids: list[int] = []
        self.sims: list[Honest] = []
        for place, width in enumerate(plan.widths):
            is_hostile = place == plan.hostile and rng is not None
            self.sims.append(Hostile(f"S{place}-0", plan, rng) if is_hostile else Honest(f"S{place}-0", width))
            self.sims[-1].until = plan.until

    def _accepted(self, listener: socket.socket) -> Optional[socket.socket]:
        begun = time.monotonic()
        while time.monotonic() < begun + PATIENCE and not self.over.is_set():
            if select.select([listener], [], [], 0.05)[0]:
                # another thread may have been faster, since the children share a listener
                with contextlib.suppress(BlockingIOError):
                    return listener.accept()[0]
        return None

    def _serve(self, sim: Honest, link: socket.socket) -> None:
        wire = Wire(link)
        try:
            sim.serve(wire)
            if sim.stopped and self.plan.after_stop and isinstance(sim, Hostile):
                wire.say(self.plan.after_stop)
        except (TimeoutError, socket.timeout):
            self.wrong.append(f"{sim.name} was left without an end")
        wire.close()

    def _served(self, place: int) -> None:
        link = self._accepted(self.stage.listeners[place])
        if link:
            self._serve(self.sims[place], link)

    def _child(self) -> None:
        other = self._accepted(self.stage.children)
        if other is None:
            return
        line, ancillary, _, _ = other.recvmsg(256, socket.CMSG_SPACE(4))
        place, _, inherited = line.decode().split()
        credentials = array.array("i", other.getsockopt(socket.SOL_SOCKET, socket.SO_PEERCRED, 12))
        self.pids.append(credentials[0])
        if int(inherited):
            self.wrong.append(f"a child has {inherited} files of the program")
        files = array.array("i")
        files.frombytes(ancillary[0][2][:4])
        self._serve(self.sims[int(place)], socket.socket(fileno=files[0]))
        time.sleep(SILENCE / 3)
        other.close()

    def threads(self) -> list[threading.Thread]:
        """Returns the threads that serve the simulators, begun."""
        begun = []
        for place, is_child in enumerate(self.plan.children):
            target, words = (self._child, ()) if is_child else (self._served, (place,))
            begun.append(threading.Thread(target=target, args=words, daemon=True))
            begun[-1].start()
        return begun

    def run(self) -> tuple[int, bytes, bytes]:
        """Runs the program; returns its status and both outputs."""
        file = pathlib.Path(self.stage.room, "s.toml")
        file.write_text(self.stage.scenario(self.plan), encoding="utf-8")
        threads = self.threads()
        pipes = {"stdin": subprocess.DEVNULL, "stdout": subprocess.PIPE, "stderr": subprocess.PIPE}
        with subprocess.Popen([self.stage.program, "run", str(file)], **pipes) as ran:
            try:
                out, err = ran.communicate(timeout=PATIENCE)
            except subprocess.TimeoutExpired:
                ran.kill()
                self.wrong.append("the run doesn't end")
                out, err = ran.communicate()
        left = [pid for pid in self.pids if os.path.exists(f"/proc/{pid}")]
        if left:
            self.wrong.append("a child still runs")
        self.over.set()
        for thread in threads:
            thread.join()
        return ran.returncode, out, err


def honest_report(stage: Stage, plan: Plan) -> bytes:
    """Returns the report of a session whose simulators all answer as they should."""
    key = (plan.until, plan.widths, plan.feeds)
    if key not in stage.reports:
        children = (False,) * len(plan.children)
        session = Session(stage, plan._replace(children=children, after_stop=b"", is_absent=False), None)
        status, out, err = session.run()
        if status or err or session.wrong:
            raise RuntimeError(f"a run without hostile simulators: {status} {err!r} {session.wrong}")
        stage.reports[key] = out
    return stage.reports[key]


def without_refusals(report: bytes) -> bytes:
    """Returns a report without its lines of refused requests."""
    return b"".join(line for line in report.splitlines(True) if not line.startswith(b"refuse "))


def ending_wrong(status: int, out: bytes, err: bytes, lines: list, report: bytes) -> list[str]:
    """Returns what is wrong about how a run ended."""
    if status == 0 and None in lines:
        return [] if without_refusals(out) == report and not err else ["another report, or a line beside it"]
    for line in filter(None, lines):
        due = STATUSES[line.split(":")[0].split(" ")[0]]
        if (status, out, err) == (due, b"", f"mosaikrun: {line}\n".encode()):
            return []
    return [f"status {status}, {len(out)} bytes of output, {err[:200]!r}"]


def tried(stage: Stage, seed: str) -> list[str]:
    """Returns what is wrong about the session of this seed."""
    rng = random.Random(seed)
    plan = drawn_plan(rng)
    report = honest_report(stage, plan)
    session = Session(stage, plan, rng)
    status, out, err = session.run()
    hostile = session.sims[plan.hostile]
    act = hostile.act or Act([], "go", ["outside: fleet" if plan.is_absent else None])
    wrong = session.wrong + ending_wrong(status, out, err, act.lines, report)
    for place, sim in enumerate(session.sims):
        # a child whose connection wasn't taken yet at the first message is ended without a stop (docs/rules.md)
        is_untaken = plan.at == 0 and plan.children[place] and not sim.heard
        if sim is not hostile:
            is_right = sim.stopped or plan.is_absent or is_untaken
            wrong += sim.wrong + ([] if is_right else [f"{sim.name} wasn't told to stop"])
    return [f"session {seed}: {', '.join(wrong)}; {plan}; {hostile.moment}; {described(act)}"] if wrong else []


def share(words: tuple[str, int, str]) -> list[str]:
    """Tries one process's share of the sessions."""
    program, count, seed = words
    stage = Stage(program)
    wrong = [text for place in range(count) for text in tried(stage, f"{seed}:{place}")]
    stage.close()
    return wrong


def try_all(program: str, count: int, seed: int, jobs: int) -> tuple[int, int]:
    """Tries so many sessions; returns how many were right, and how many weren't."""
    begun = time.monotonic()
    shares = [(program, count // jobs + (place < count % jobs), f"{seed}:{place}") for place in range(jobs)]
    with multiprocessing.Pool(jobs) as pool:
        wrong = [text for some in pool.map(share, shares, chunksize=1) for text in some]
    for text in wrong[:20]:
        print(text[:2000])
    seconds = time.monotonic() - begun
    print(f"sessions: {count} of seed {seed}, {len(wrong)} wrong, {seconds:.0f} s, {count / seconds:.0f} a second")
    return count - len(wrong), len(wrong)
