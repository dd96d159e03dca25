"""Runs a program on a system of which a call fails, and looks at how it ends."""

from __future__ import annotations

import collections
import contextlib
import errno
import multiprocessing
import os
import pathlib
import random
import re
import resource
import shutil
import signal
import subprocess
import tempfile
import time
from typing import NamedTuple, Optional

from .driving import compiled
from .report_model import report_of

ERRORS = ("EINTR", "EAGAIN", "ENOSPC", "EMFILE", "ECONNRESET", "EPIPE", "EIO")
# what only a signal makes fail, what starts a program, and what never fails
FEWER = dict.fromkeys(("waitpid", "waitid", "wait4", "nanosleep", "clock_nanosleep"), ("EINTR",))
# behind EAGAIN the program waits until the system tells of a change, and of an untrue one it never does
WAITS = ("recv", "send", "recvfrom", "sendto", "accept", "accept4", "epoll_wait", "connect")
FEWER.update(dict.fromkeys(WAITS, tuple(error for error in ERRORS if error != "EAGAIN")))
FEWER.update(dict.fromkeys(("fork", "posix_spawn", "posix_spawnp"), ("EAGAIN", "ENOMEM")), clock_gettime=())
SECONDS = 20
MOST_FILES = 1024
LINE = re.compile(rb"mosaikrun: (outside: (?:fleet|folder|output)|out of memory|run 5: [AB]-0 closed its link)\n")
STATUS = {b"outside": 6, b"out of": 8, b"run 5": 5}
COUNT = '[[entities]]\nid = "a"\nsim = "A-0"\nmodel = "Count"\n[[entities]]\nid = "b"\nsim = "B-0"\nmodel = '
FEED = '[[connect]]\nfrom = "a"\nto = "b"\nattrs = [["out", "in"]]\n'
INSIDE = 'until = 3\n[[sim]]\nname = "A"\nlocal = "counter"\n[[sim]]\nname = "B"\nlocal = "sum"\n'
INSIDE += COUNT + '"Sum"\n' + FEED
OUTSIDE = 'until = 3\n[[sim]]\nname = "A"\ncommand = "./counter %(addr)s"\n[[sim]]\nname = "B"\n'
OUTSIDE += 'command = "./counter %(addr)s"\n' + COUNT + '"Count"\n' + FEED
WATCH = '[[watch]]\nentity = "B-0.0"\nattr = "in"\nrule = "last"\n'
COMMANDS = {
    "run within": ("run", "inside.toml", "--record", "new"),
    "run": ("run", "outside.toml", "--record", "new"),
    "paced": ("paced", "outside.toml", "5", "--record", "new"),
    "resume": ("resume", "outside.toml", "cut", "--record", "new"),
    "replay": ("replay", "whole"),
    "migrate": ("migrate", "whole", "new"),
    "check": ("check", "outside.toml"),
    "watch": ("watch", "whole", "watch.toml"),
    "blame": ("blame", "whole", "whole"),
    "demo": ("demo", "1"),
}
# those that write a draft of their record while they go
WITH_DRAFT = ("run", "paced", "resume")


class Seen(NamedTuple):
    """How a run ended, the files that it left, and the words that it was called with."""

    status: Optional[int]
    out: bytes
    err: bytes
    files: dict[str, bytes]
    calls: dict[str, int]
    left: bool
    words: tuple[str, ...] = ()


class Fault(NamedTuple):
    """Which call of which function fails, of which command, and with which error."""

    command: str
    name: str
    number: int
    error: str


class Stage:
    """A program, the library that makes calls fail, and the files that the runs begin with."""

    def __init__(self, program: str) -> None:
        self.program = program
        self.room = tempfile.mkdtemp(prefix="hostile-")
        self.library = compiled("fail_calls.c", self.room, "-shared", "-fPIC")
        self.files = {"inside.toml": INSIDE.encode(), "outside.toml": OUTSIDE.encode(), "new": b"before"}
        self.files["watch.toml"] = WATCH.encode()
        self.files["counter"] = pathlib.Path(compiled("counter.c", self.room)).read_bytes()
        self.files["whole"] = self.run(("run", "outside.toml", "--record", "new"), {}).files["new"]
        lines = self.files["whole"].splitlines(True)
        first = next(place for place, line in enumerate(lines) if line.startswith((b"ask ", b"got ")))
        kept = lines[: first + (len(lines) - first) // 2]
        self.files["cut"] = b"".join(kept) + b"end %d\n" % (len(kept) - first)
        self.good = {name: self.run(words, {"FAULT_AT": "-1"}) for name, words in COMMANDS.items()}
        wrong = [name for name, good in self.good.items() if good.status != 0 or not good.calls]
        if wrong:
            raise RuntimeError(f"without a fault: {[(name, self.good[name]) for name in wrong]}")

    def run(self, words: tuple, more: dict[str, str], begun=None, files: int = MOST_FILES, before: tuple = ()) -> Seen:
        """Runs words in a folder of their own, by another program where words stand before."""
        room = tempfile.mkdtemp(dir=self.room)
        for name, data in self.files.items():
            pathlib.Path(room, name).write_bytes(data)
            os.chmod(pathlib.Path(room, name), 0o755)
        told = pathlib.Path(self.room, pathlib.Path(room).name + ".calls")
        scope = {"PATH": os.environ["PATH"], **more}
        if more:
            scope.update(LD_PRELOAD=self.library, FAULT_TELL=str(told))
        seen = self._ended((*before, self.program, *words), room, scope, begun, files)
        calls = dict(line.split() for line in told.read_text(encoding="utf-8").splitlines()) if told.exists() else {}
        told.unlink(missing_ok=True)
        kept = {it.name: it.read_bytes() for it in pathlib.Path(room).iterdir() if it.name != "counter"}
        shutil.rmtree(room)
        return seen._replace(files=kept, calls={name: int(count) for name, count in calls.items()}, words=words)

    def _ended(self, words: tuple[str, ...], room: str, scope: dict[str, str], begun, files: int) -> Seen:
        limit = None if files == MOST_FILES else lambda: resource.setrlimit(resource.RLIMIT_NOFILE, (files, files))
        pipes = {"stdin": subprocess.DEVNULL, "stdout": subprocess.PIPE, "stderr": subprocess.PIPE, "preexec_fn": limit}
        with subprocess.Popen(words, cwd=room, env=scope, start_new_session=True, **pipes) as ran:
            if begun:
                begun(ran.pid)
            try:
                out, err = ran.communicate(timeout=SECONDS)
                status: Optional[int] = ran.returncode
            except subprocess.TimeoutExpired:
                ran.kill()
                status, out, err = None, b"", b""
        left = still_running(ran.pid)
        for pid in left:
            with contextlib.suppress(ProcessLookupError):
                os.kill(pid, signal.SIGKILL)
        return Seen(status, out, err, {}, {}, bool(left))

    def close(self) -> None:
        """Removes the files."""
        shutil.rmtree(self.room)


def still_running(session: int) -> list[int]:
    """Returns the programs of a session that still run."""
    found = []
    for pid in filter(str.isdigit, os.listdir("/proc")):
        try:
            text = pathlib.Path("/proc", pid, "stat").read_text(encoding="utf-8", errors="replace")
        except OSError:
            continue
        # behind the name, which stands in parentheses, come the state, the parent, the group and the session
        state, _, _, its = text[text.rindex(")") + 1 :].split()[:4]
        if int(its) == session and state != "Z":
            found.append(int(pid))
    return found


def is_record(data: bytes) -> bool:
    """Returns whether bytes are a record from its first line to its last."""
    return data.startswith(b"mosaikrun 2\n") and re.search(rb"\nend \d+\n\Z", data) is not None


def is_draft(data: bytes, good: bytes, in_order: bool) -> bool:
    """Returns whether bytes are a beginning of a good record, which may be ended early by a right count."""
    lines, wanted = data.splitlines(True), good.splitlines(True)
    rest = lines.pop() if lines and not lines[-1].endswith(b"\n") else b""
    first = next(place for place, line in enumerate(wanted) if line.startswith((b"ask ", b"got ", b"end ")))
    if not rest and len(lines) > first and lines[-1] == b"end %d\n" % (len(lines) - 1 - first):
        lines.pop()
    if in_order or len(lines) < first:
        return good.startswith(b"".join(lines) + rest)
    known, entries = collections.Counter(wanted[first:]), collections.Counter(lines[first:])
    is_known = lines[:first] == wanted[:first] and not entries - known
    return is_known and (not rest or any(line.startswith(rest) for line in known - entries))


def may_stay(seen: Seen, good: Seen, before: dict[str, bytes], removes: bool) -> bool:
    """Returns whether the draft may be there: of a record that wasn't saved, or one that couldn't be removed."""
    draft, saved = seen.files["new.part"], seen.files.get("new")
    if good.words[0] not in WITH_DRAFT:
        return False
    if saved == before["new"]:
        # where nobody else has a say, messages come in one order
        return seen.status != 0 and is_draft(draft, good.files["new"], "inside.toml" in good.words)
    return not removes and draft == saved


def files_wrong(seen: Seen, good: Seen, before: dict[str, bytes], removes: bool) -> list[str]:
    """Returns what is wrong about the files that a run left."""
    wrong = []
    for name, data in seen.files.items():
        if name == "new.part" and may_stay(seen, good, before, removes):
            continue
        if name == "new" and data not in (before[name], good.files[name]) and not is_record(data):
            wrong.append(f"the record has {len(data)} bytes, {data[-40:]!r}")
        elif name != "new" and data != before.get(name):
            wrong.append(f"{name} is there, or another")
    wrong += [f"{name} is gone" for name in before if name not in seen.files and name != "counter"]
    return wrong


def ended_wrong(seen: Seen, good: Seen, before: dict[str, bytes], removes: bool = True) -> list[str]:
    """Returns what is wrong about a run of which a call failed; `removes` says that it could remove files."""
    wrong = ["a child still runs"] if seen.left else []
    if seen.status is None:
        return wrong + ["it doesn't end"]
    wrong += files_wrong(seen, good, before, removes)
    if seen.status == 0:
        right = (seen.out, seen.err) == (good.out, b"")
        wrong += [] if right else ["status 0 with another report or line"]
        # messages may come in another order, so the record is read, and not compared
        made = seen.files["new"]
        saves = made != before["new"] or good.files["new"] == made
        is_right = saves and (made == good.files["new"] or (is_record(made) and report_of(made) == good.out))
        return wrong + ([] if is_right else ["status 0 with another record"])
    found = LINE.fullmatch(seen.err)
    if not found or seen.status != next(STATUS[key] for key in STATUS if found.group(1).startswith(key)):
        return wrong + [f"status {seen.status} {seen.err[:120]!r}"]
    fails_late = b"output" in seen.err or seen.status == 8
    return wrong + ([] if not seen.out or (fails_late and good.out.startswith(seen.out)) else ["output beside a fault"])


def all_faults(stage: Stage) -> list[Fault]:
    """Returns each call of each command with each error."""
    faults = []
    for command, good in stage.good.items():
        for name, count in good.calls.items():
            errors = FEWER.get(name, ERRORS)
            faults += [Fault(command, name, number, error) for number in range(count) for error in errors]
    return faults


def tried(stage: Stage, fault: Fault) -> tuple[Optional[int], list[str]]:
    """Returns the status of a run with this fault, and what is wrong about it."""
    code = str(getattr(errno, fault.error))
    more = {"FAULT_CALL": fault.name, "FAULT_AT": str(fault.number), "FAULT_ERROR": code}
    seen = stage.run(COMMANDS[fault.command], more)
    return seen.status, ended_wrong(seen, stage.good[fault.command], stage.files, not fault.name.startswith("unlink"))


def share(words: tuple[str, list[Fault]]) -> list[tuple[Fault, Optional[int], list[str]]]:
    """Tries one process's share of the faults."""
    stage = Stage(words[0])
    found = [(fault, *tried(stage, fault)) for fault in words[1]]
    stage.close()
    return found


def try_all(program: str, count: int, seed: int, jobs: int) -> tuple[int, int]:
    """Tries so many faults, all where there are no more; returns how many were right, and how many weren't."""
    begun = time.monotonic()
    stage = Stage(program)
    every = all_faults(stage)
    chosen = every if count >= len(every) else random.Random(seed).sample(every, count)
    with multiprocessing.Pool(jobs) as pool:
        shares = [(program, chosen[place::jobs]) for place in range(jobs)]
        found = [one for some in pool.map(share, shares, chunksize=1) for one in some]
    for fault, _, wrong in [one for one in found if one[2]][:40]:
        print(f"{fault.command}: call {fault.number} of {fault.name} with {fault.error}: {', '.join(wrong)}")
    stage.close()
    statuses = collections.Counter((fault.error, str(status)) for fault, status, _ in found)
    print("statuses:", ", ".join(f"{error} {status}: {times}" for (error, status), times in sorted(statuses.items())))
    bad = sum(bool(wrong) for _, _, wrong in found)
    seconds = time.monotonic() - begun
    names = len({fault.name for fault in every})
    print(f"faults: {len(found)} of {len(every)} in {names} functions, seed {seed}, {bad} wrong, {seconds:.0f} s")
    return len(found) - bad, bad
