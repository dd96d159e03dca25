#!/usr/bin/env python3
"""Tries runs that are killed: what they leave of their record, and that `resume` goes on from it as if nothing had been.

`run_killed.py PROGRAM [--long]` runs a study of one simulator in plain Python (`sleeper.py`) and an in-process one, once whole. Then it
kills such runs:

- at moments that are drawn by how long the draft of the record is: 8, with `--long` 50;
- by a terminal's Ctrl-C, and by `kill`;
- while one resumes, within its handshake, within a long step, and at its end, where a simulator lingers.

The record's own file has to be as it was, and the whole lines of the draft a beginning of the whole run's record. `resume` then has to
print and save, byte for byte, what the whole run did.

A limit of size doesn't end a run. Nor does a disk that is full, which is tried where a file system of 64 KB may be mounted. No draft is
left by a run that ends well, by two at once into one file, or by a handshake that fails. Where no draft can be begun, no simulator is
started. It prints what differs, and ends with 'N passed, M failed'.
"""

import contextlib
import os
import pathlib
import pty
import random
import resource
import shutil
import signal
import subprocess
import sys
import tempfile
import time
from typing import Callable, Iterator, List, NamedTuple, Optional

from common import ROOT, left_behind, status_of

SCENARIO = """until = {until}
[[sim]]
name = "A"
command = "python3 sleeper.py %(addr)s {words}"
[[sim]]
name = "B"
local = "sum"
[[entities]]
id = "a"
sim = "A-0"
model = "Walk"
[[entities]]
id = "b"
sim = "B-0"
model = "Sum"
[[connect]]
from = "a"
to = "b"
attrs = [["out", "in"]]
[[connect]]
from = "b"
to = "a"
attrs = [["out", "in"]]
time_shifted = true
initial_data = {{ out = 0 }}
"""
WITHIN = """until = {until}
sim = [{{ name = "A", local = "counter" }}, {{ name = "B", local = "sum" }}]
entities = [{{ id = "a", sim = "A-0", model = "Count" }}, {{ id = "b", sim = "B-0", model = "Sum" }}]
connect = [{{ from = "a", to = "b", attrs = [["out", "in"]] }}]
"""
NEW, DRAFT, SECOND = "new.record", "new.record.part", "new.record.part2"
# what a simulator leaves that was started to do so
RAN = "new.record.ran"
OLD = b"an old record\n"
FOLDER_FAULT = b"mosaikrun: outside: folder\n"
# how many milliseconds a step takes; and where a run must not be over too soon
STEP, SLOW = 2, 10
# how long a moment is waited for, in seconds
PATIENCE = 60
# how often a run is begun again that was over before it could be killed
TRIES = 5


class Ended(NamedTuple):
    """How a program ended: its status, and what it printed."""

    status: int
    out: bytes
    err: bytes


class Study:
    """A folder with the simulator, in which the study is run whole and then killed."""

    def __init__(self, program: str, path: pathlib.Path, scenario: str) -> None:
        self.program, self.path = program, path
        self.runs: List[subprocess.Popen] = []
        for file in (ROOT / "checks" / "cases" / "simulators" / "sleeper.py", ROOT / "examples" / "api.py"):
            shutil.copy(file, path)
        (path / "study.toml").write_text(scenario, encoding="utf-8")
        self.whole = self.called("run", "study.toml", "--record", "whole.record")
        self.record = (path / "whole.record").read_bytes()
        if self.whole.status != 0 or self.parts():
            raise RuntimeError(f"the whole run ended with {short(self.whole)}, beside {self.parts()}")

    def begun(self, *words: str, before: Optional[Callable[[], None]] = None) -> subprocess.Popen:
        """Calls the program with these words in the folder, in a session of its own."""
        pipes = {"stdin": subprocess.DEVNULL, "stdout": subprocess.PIPE, "stderr": subprocess.PIPE}
        run = subprocess.Popen([self.program, *words], cwd=self.path, start_new_session=True, preexec_fn=before, **pipes)
        self.runs.append(run)
        return run

    def called(self, *words: str, before: Optional[Callable[[], None]] = None) -> Ended:
        """Calls the program, and waits until it has ended."""
        return ended(self.begun(*words, before=before))

    def with_words(self, words: str, until: int = 60) -> str:
        """Writes another scenario, whose simulator has these words; returns its file's name."""
        (self.path / "other.toml").write_text(SCENARIO.format(until=until, words=words), encoding="utf-8")
        return "other.toml"

    def read(self, name: str) -> Optional[bytes]:
        """Returns the bytes of a file; None where it isn't there."""
        with contextlib.suppress(FileNotFoundError):
            return (self.path / name).read_bytes()
        return None

    def parts(self) -> List[str]:
        """Returns the names of all drafts and parts in the folder and below."""
        return sorted(str(file.relative_to(self.path)) for file in self.path.rglob("*.part*"))

    def clear(self) -> None:
        """Ends and takes away what the check before left."""
        for run in self.runs:
            if run.poll() is None:
                os.killpg(run.pid, signal.SIGKILL)
                run.communicate()
        self.runs.clear()
        for file in self.path.glob("new.record*"):
            file.unlink()

    def is_front(self, name: str) -> List[str]:
        """Whether the whole lines of a draft are a beginning of the whole run's record."""
        text = self.read(name)
        if text is None:
            return [f"{name} isn't there"]
        return [] if self.record.startswith(whole_lines(text)) else [f"{name} is no beginning of the record: {text[-200:]!r}"]

    def is_whole(self, found: Ended, name: str = NEW) -> List[str]:
        """Whether what was printed and saved is what the whole run did."""
        wrong = [] if found == self.whole else [f"it ended with {short(found)}"]
        return wrong + ([] if self.read(name) == self.record else [f"{name} is another record than the whole run's"])

    def kill(self, *words: str, draft: str, size: int, rest: float = 0.0, how: signal.Signals = signal.SIGKILL) -> List[str]:
        """Ends a run by a signal, once its draft is so long and some seconds more are over; returns what is wrong then."""
        before = self.read(NEW)
        for _ in range(TRIES):
            run = self.begun(*words)
            awaited(lambda run=run: run.poll() is not None or length(self.path / draft) >= size)
            time.sleep(rest)
            run.send_signal(how)
            found = ended(run)
            if found.status == -how:
                return self.is_cut(before, draft)
            if found != self.whole:
                return [f"it ended with {short(found)}"]
            # it was over by then
            self.restore(before)
        return [f"a run was over before it was killed, {TRIES} times"]

    def restore(self, text: Optional[bytes]) -> None:
        """Makes the record what it was before a run."""
        if text is None:
            (self.path / NEW).unlink()
        else:
            (self.path / NEW).write_bytes(text)

    def is_cut(self, before: Optional[bytes], draft: str) -> List[str]:
        """Whether a run that was killed left the record as it was, and a beginning of it as its draft."""
        if self.read(NEW) == self.record != before:
            # it was killed between the save and its end
            return [] if self.read(draft) in (None, self.record) else [f"{draft} isn't the record that was saved"]
        return ([] if self.read(NEW) == before else [f"{NEW} isn't as it was"]) + self.is_front(draft)


def whole_lines(text: bytes) -> bytes:
    """Returns a text without what stands after its last line feed."""
    return text[: text.rfind(b"\n") + 1]


def has_entry(text: Optional[bytes]) -> bool:
    """Whether a draft has a whole line of an entry, so that a run can go on from it."""
    return text is not None and any(line.startswith((b"ask ", b"got ")) for line in whole_lines(text).splitlines())


def length(file: pathlib.Path) -> int:
    """Returns how long a file is; -1 where it isn't there."""
    try:
        return file.stat().st_size
    except FileNotFoundError:
        return -1


def short(found: Ended) -> Ended:
    """Returns an end with the beginnings of its texts."""
    return Ended(found.status, found.out[:200], found.err[:400])


def awaited(is_there: Callable[[], bool]) -> None:
    """Waits until something is so."""
    limit = time.monotonic() + PATIENCE
    while not is_there():
        if time.monotonic() > limit:
            raise RuntimeError(f"nothing came within {PATIENCE} seconds")
        time.sleep(0.0005)


def ended(run: subprocess.Popen) -> Ended:
    """Waits until a program has ended, and all simulators that it started with it."""
    out, err = run.communicate(timeout=300)
    awaited(lambda: not left_behind(run.pid))
    return Ended(run.returncode, out, err)


def resumed(study: Study, scenario: str = "study.toml") -> List[str]:
    """Goes on from the longest draft that has an entry; where none has, that is said, and the study is run again."""
    drafts = [name for name in (SECOND, DRAFT) if study.read(name) is not None]
    drafts.sort(key=lambda name: length(study.path / name), reverse=True)
    with_entry = [name for name in drafts if has_entry(study.read(name))]
    if study.read(NEW) == study.record:
        return []
    if with_entry:
        return study.is_whole(study.called("resume", scenario, with_entry[0], "--record", NEW))
    found = [study.called("resume", scenario, name, "--record", NEW) for name in drafts]
    wrong = [f"without an entry: {short(one)}" for one in found if one.status != 3 or one.out or b" fault 5\n" not in one.err]
    return wrong + study.is_whole(study.called("run", scenario, "--record", NEW))


def killed_at(study: Study, size: int, rest: float, again: Optional[int]) -> List[str]:
    """A run is killed, and where it is wanted the run that goes on from it too."""
    wrong = study.kill("run", "study.toml", "--record", NEW, draft=DRAFT, size=size, rest=rest)
    if again is not None and has_entry(study.read(DRAFT)) and study.read(NEW) is None:
        wrong += study.kill("resume", "study.toml", DRAFT, "--record", NEW, draft=SECOND, size=again, rest=rest)
    kept = {name: study.read(name) for name in study.parts()}
    wrong += resumed(study)
    left = {name: study.read(name) for name in study.parts()}
    return wrong + ([] if left == kept else [f"drafts of others were changed: {sorted(kept)}, then {sorted(left)}"])


def at_drawn_moments(study: Study, draws: int) -> List[str]:
    """Runs are killed at drawn moments, each second one again while it resumes."""
    drawn, wrong = random.Random(draws), []
    for draw in range(draws):
        study.clear()
        size, again = drawn.randrange(len(study.record)), drawn.randrange(len(study.record))
        rest = drawn.random() * 2 * STEP / 1000
        found = killed_at(study, size, rest, again if draw % 2 else None)
        wrong += [f"killed at {size} bytes and {rest:.4f} s, again {draw % 2} at {again}: {line}" for line in found]
    return wrong


def over_an_old_record(study: Study) -> List[str]:
    """A record that is there stays as it was, and a run goes on into it."""
    (study.path / NEW).write_bytes(OLD)
    (study.path / NEW).chmod(0o640)
    wrong = study.kill("run", "study.toml", "--record", NEW, draft=DRAFT, size=len(study.record) // 2)
    wrong += [] if study.read(NEW) == OLD else ["the old record was changed"]
    rights = {file.name: oct(file.stat().st_mode & 0o777) for file in study.path.glob(f"{NEW}*")}
    wrong += [] if rights == {NEW: "0o640", DRAFT: "0o640"} else [f"the rights are {rights}"]
    return wrong + resumed(study)


def by_kill(study: Study) -> List[str]:
    """`kill` without a signal's name leaves the same."""
    words = ("run", "study.toml", "--record", NEW)
    wrong = study.kill(*words, draft=DRAFT, size=len(study.record) // 2, how=signal.SIGTERM)
    return wrong + ([] if has_entry(study.read(DRAFT)) else ["the draft has no entry"]) + resumed(study)


def at_terminal(study: Study) -> List[str]:
    """Ctrl-C at a terminal ends the program and its simulators, and leaves the same."""
    slow = study.with_words(str(SLOW))
    pid, terminal = pty.fork()
    if pid == 0:
        # whoever was started in the background would not hear it
        signal.signal(signal.SIGINT, signal.SIG_DFL)
        os.chdir(study.path)
        os.execv(study.program, [study.program, "run", slow, "--record", NEW])
    try:
        awaited(lambda: length(study.path / DRAFT) >= len(study.record) // 2)
        os.write(terminal, b"\x03")
        status = os.waitstatus_to_exitcode(os.waitpid(pid, 0)[1])
        awaited(lambda: not left_behind(pid))
    finally:
        # what still runs of the terminal's session is ended with it
        os.close(terminal)
    wrong = [] if status == -signal.SIGINT else [f"it ended with {status}"]
    wrong += [] if study.read(NEW) is None else ["a record was saved"]
    return wrong + study.is_front(DRAFT) + ([] if has_entry(study.read(DRAFT)) else ["the draft has no entry"]) + resumed(study)


def paced_too(study: Study) -> List[str]:
    """A paced run is killed, and goes on by `resume`; it comes out as a run."""
    words = ("paced", "study.toml", "1", "--record", NEW)
    return study.kill(*words, draft=DRAFT, size=len(study.record) // 2) + resumed(study)


def limited(size: int) -> Callable[[], None]:
    """Returns what a process does to write no file beyond a size, and not to be ended by the signal for that."""

    def limit() -> None:
        signal.signal(signal.SIGXFSZ, signal.SIG_IGN)
        resource.setrlimit(resource.RLIMIT_FSIZE, (size, size))

    return limit


def by_a_limit_of_size(study: Study) -> List[str]:
    """The run goes on to its end; its record isn't saved, and the draft has all that went into it."""
    found = study.called("run", "study.toml", "--record", NEW, before=limited(5000))
    wrong = [] if found == Ended(6, b"", FOLDER_FAULT) else [f"it ended with {short(found)}"]
    wrong += [] if study.parts() == [DRAFT] and study.read(NEW) is None else [f"there are {study.parts()}"]
    wrong += [] if study.read(DRAFT) == study.record[:5000] else ["the draft isn't filled"]
    return wrong + resumed(study)


@contextlib.contextmanager
def small_system(path: pathlib.Path) -> Iterator[bool]:
    """A file system of 64 KB at this place, in which 4 KB are free; whether one may be mounted here."""
    path.mkdir()
    words = ["mount", "-t", "tmpfs", "-o", "size=64k", "tmpfs", str(path)]
    if shutil.which("mount") is None or subprocess.run(words, capture_output=True, check=False).returncode != 0:
        print("no file system may be mounted here, so none was filled")
        yield False
        return
    try:
        free = os.statvfs(path).f_bavail * os.statvfs(path).f_bsize
        (path / "fill").write_bytes(bytes(free - 4096))
        yield True
    finally:
        subprocess.run(["umount", str(path)], check=True)


def on_full_system(study: Study) -> List[str]:
    """A full disk doesn't end a run; once there is room, the draft goes on, or another run from it."""
    file = study.path / "small" / "new.record"
    name, draft = f"small/{file.name}", f"small/{DRAFT}"
    with small_system(file.parent) as is_there:
        if not is_there:
            return []
        found = study.called("run", "study.toml", "--record", name)
        wrong = [] if found == Ended(6, b"", FOLDER_FAULT) else [f"it ended with {short(found)}"]
        wrong += [] if study.read(draft) == study.record[:4096] and not file.exists() else [f"there are {study.parts()}"]
        fill = (file.parent / "fill").read_bytes()
        (file.parent / "fill").unlink()
        wrong += study.is_whole(study.called("resume", "study.toml", draft, "--record", name), name)
        wrong += [] if study.parts() == [draft] else [f"then there are {study.parts()}"]
        for one in (file, study.path / draft):
            one.unlink(missing_ok=True)
        (file.parent / "fill").write_bytes(fill)
        run = study.begun("run", study.with_words(str(SLOW)), "--record", name)
        awaited(lambda: length(study.path / draft) >= 4096)
        (file.parent / "fill").unlink()
        wrong += study.is_whole(ended(run), name)
        return wrong + ([] if study.parts() == [] else [f"at the end there are {study.parts()}"])


def two_at_once(study: Study) -> List[str]:
    """Two runs into one file end well; it has the record of one of them, and no draft is left."""
    other = study.called("run", study.with_words(str(5 * SLOW), 40), "--record", "other.record")
    records = {study.record, study.read("other.record")}
    # the slow one goes first, so that it is there as long as the other one
    slow = study.begun("run", "other.toml", "--record", NEW)
    awaited(lambda: study.parts() == [DRAFT] or slow.poll() is not None)
    quick = study.begun("run", "study.toml", "--record", NEW)
    awaited(lambda: study.parts() == [DRAFT, SECOND] or quick.poll() is not None)
    wrong = [] if study.parts() == [DRAFT, SECOND] else [f"two runs have the drafts {study.parts()}"]
    found = [ended(quick), ended(slow)]
    wrong += [] if found == [study.whole, other] else [f"they ended with {[short(one) for one in found]}"]
    wrong += [] if study.read(NEW) in records and len(records) == 2 else [f"{NEW} is the record of neither"]
    return wrong + ([] if study.parts() == [] else [f"there are {study.parts()}"])


def within_a_step(study: Study) -> List[str]:
    """While a simulator takes long for a step, the draft has all until it was asked for that."""
    run = study.begun("run", study.with_words(f"{STEP} stalls"), "--record", NEW)
    last = b"ask [0,30,0,60]\n"
    front = study.record[: study.record.index(last) + len(last)]
    awaited(lambda: length(study.path / DRAFT) >= len(front) or run.poll() is not None)
    time.sleep(0.2)
    wrong = [] if study.read(DRAFT) == front and study.read(NEW) is None else [f"the draft isn't all until {last!r}"]
    os.killpg(run.pid, signal.SIGKILL)
    ended(run)
    return wrong + resumed(study)


def lingering(study: Study) -> List[str]:
    """While a simulator doesn't end, the draft has all of the run."""
    run = study.begun("run", study.with_words(f"{STEP} lingers"), "--record", NEW)
    opening = whole_lines(study.record[:-1])
    try:
        awaited(lambda: length(study.path / DRAFT) >= len(opening) or run.poll() is not None)
        time.sleep(0.2)
        wrong = [] if run.poll() is None else [f"it ended with {run.poll()}"]
        wrong += [] if study.read(DRAFT) == opening and study.read(NEW) is None else ["the draft isn't all of the record"]
        found = study.called("migrate", DRAFT, "new.record.made")
        wrong += [] if found == Ended(0, b"", b"") else [f"migrate: {short(found)}"]
    finally:
        # its simulators are of its own group
        os.killpg(run.pid, signal.SIGKILL)
        ended(run)
    replayed = study.called("replay", "new.record.made")
    return wrong + ([] if replayed == study.whole else [f"replay: {short(replayed)}"]) + resumed(study)


def ending_well(study: Study) -> List[str]:
    """A run through a link has its draft beside the file to which that leads; at its end none is left."""
    (study.path / "below").mkdir()
    (study.path / NEW).symlink_to("below/kept")
    run = study.begun("run", "study.toml", "--record", NEW)
    awaited(lambda: study.parts() != [] or run.poll() is not None)
    wrong = [] if study.parts() == ["below/kept.part"] else [f"the draft is {study.parts()}"]
    wrong += study.is_whole(ended(run), "below/kept")
    wrong += study.is_whole(study.called("resume", "study.toml", NEW, "--record", NEW))
    return wrong + ([] if study.parts() == [] and (study.path / NEW).is_symlink() else [f"there are {study.parts()}"])


def in_the_handshake(study: Study) -> List[str]:
    """A handshake that fails leaves no draft, and a run that is killed within one an empty draft."""
    found = study.called("run", study.with_words(f"{STEP} refuses"), "--record", NEW)
    wrong = [] if found.status == 4 and not found.out else [f"it ended with {short(found)}"]
    wrong += [] if study.parts() == [] and study.read(NEW) is None else [f"there are {study.parts()}"]
    run = study.begun("run", study.with_words(f"{STEP} mute"), "--record", NEW)
    try:
        awaited(lambda: len(left_behind(run.pid)) > 1 and study.parts() != [])
    finally:
        os.killpg(run.pid, signal.SIGKILL)
        ended(run)
    wrong += [] if study.read(DRAFT) == b"" and study.read(NEW) is None else [f"there are {study.parts()}"]
    return wrong + resumed(study)


def with_no_name_left(study: Study) -> List[str]:
    """Where no draft can be begun, as in a folder that isn't there, no simulator is started, and that is said."""
    wrong: List[str] = []
    names = [f"{DRAFT}{number}" for number in ["", *range(2, 101)]]
    for name in names:
        (study.path / name).write_bytes(b"another's\n")
    marks = study.with_words(f"{STEP} marks")
    for name in (NEW, "nowhere/new.record", NEW.ljust(251, "d")):
        found = study.called("run", marks, "--record", name)
        wrong += [] if found == Ended(6, b"", FOLDER_FAULT) else [f"{name}: it ended with {short(found)}"]
        wrong += [] if study.read(RAN) is None else [f"{name}: a simulator was started"]
        (study.path / RAN).unlink(missing_ok=True)
    # where a record can be saved, the simulator is started, and leaves its mark
    wrong += study.is_whole(study.called("run", marks, "--record", "other.record"), "other.record")
    wrong += [] if study.read(RAN) is not None else ["no simulator leaves its mark"]
    wrong += [] if all(study.read(name) == b"another's\n" for name in names) else ["another's part was changed"]
    return wrong + ([] if study.read(NEW) is None and sorted(names) == study.parts() else [f"there are {study.parts()}"])


def without_children(study: Study) -> List[str]:
    """A run whose simulators are all in-process is killed. Its record may go on in another order, its report may not."""
    wrong = study.kill("run", "study.toml", "--record", NEW, draft=DRAFT, size=1)
    wrong += [] if has_entry(study.read(DRAFT)) else ["the draft has no entry"]
    wrong += study.is_front(DRAFT)
    for words in (["resume", "study.toml", DRAFT, "--record", NEW], ["replay", NEW]):
        found = study.called(*words)
        wrong += [] if found == study.whole else [f"{words[0]} ended with {short(found)}"]
    return wrong


CHECKS: List[Callable[[Study], List[str]]] = [
    over_an_old_record,
    by_kill,
    at_terminal,
    paced_too,
    by_a_limit_of_size,
    on_full_system,
    two_at_once,
    within_a_step,
    lingering,
    ending_well,
    in_the_handshake,
    with_no_name_left,
]


def main() -> int:
    """Makes all checks in one folder, and the last in another one."""
    program, draws = str(pathlib.Path(sys.argv[1]).resolve()), 50 if "--long" in sys.argv[2:] else 8
    # `python3` of the scenarios is the interpreter that runs this
    os.environ["PATH"] = os.pathsep.join([str(pathlib.Path(sys.executable).parent), os.environ.get("PATH", "")])
    failed = 0
    with tempfile.TemporaryDirectory() as first, tempfile.TemporaryDirectory() as second:
        study = Study(program, pathlib.Path(first), SCENARIO.format(until=60, words=STEP))
        within = Study(program, pathlib.Path(second), WITHIN.format(until=20_000))
        checks = [("at_drawn_moments", lambda: at_drawn_moments(study, draws))]
        checks += [(check.__name__, lambda check=check: check(study)) for check in CHECKS]
        checks += [("without_children", lambda: without_children(within))]
        for name, check in checks:
            for one in (study, within):
                one.clear()
            try:
                found = check()
            except (OSError, RuntimeError, subprocess.SubprocessError) as fault:
                found = [f"{type(fault).__name__}: {fault}"]
            failed += bool(found)
            for line in found:
                print(f"{name}: {line}")
        study.clear()
        within.clear()
    print(f"{len(checks) - failed} passed, {failed} failed")
    return 1 if failed else 0


if __name__ == "__main__":
    sys.exit(status_of(main))
