#!/usr/bin/env python3
"""Checks how a built program saves records: a save that fails leaves the old record, and beside it the draft at most.

`run_saves.py PROGRAM` tries saves that fail by a limit of size, by a full file system of 64 KB (where one may be
mounted) and by missing rights; saves over a link, over a file with rights of its own and beside a file that has the
name of a part; and saves into what is no regular file. Each check has a folder of its own. It prints what differs, and
ends with 'N passed, M failed'.
"""

import os
import pathlib
import resource
import shutil
import signal
import subprocess
import sys
import tempfile
import threading
from typing import Callable, Dict, List, NamedTuple, Optional

from common import status_of

SCENARIO = """until = {until}
[[sim]]
name = "A"
local = "counter"
[[sim]]
name = "B"
local = "sum"
[[entities]]
id = "a"
sim = "A-0"
model = "Count"
[[entities]]
id = "b"
sim = "B-0"
model = "Sum"
[[connect]]
from = "a"
to = "b"
attrs = [["out", "in"]]
"""
NOBODY = 65534
FOLDER_FAULT = b"mosaikrun: outside: folder\n"


class Ended(NamedTuple):
    """How a program ended: its status, and what it printed."""

    status: int
    out: bytes
    err: bytes


class Room:
    """A folder with the program, a scenario and an old record, and what a run of the scenario saves and reports."""

    def __init__(self, program: str, path: pathlib.Path, until: int = 50) -> None:
        self.path = path
        self.program = program
        (path / "s.toml").write_text(SCENARIO.format(until=until), encoding="utf-8")
        first = self.run("run", "s.toml", "--record", "fresh")
        if first.status != 0:
            raise RuntimeError(f"the first run ended with {first}")
        self.record = (path / "fresh").read_bytes()
        self.report = first.out
        (path / "fresh").unlink()
        self.old = b"old record\n" * 20
        (path / "kept").write_bytes(self.old)

    def run(self, *words: str, before: Optional[Callable[[], None]] = None, user: Optional[int] = None) -> Ended:
        """Runs the program with these words in the folder; `before` is called in the new process."""
        pipes = {"stdin": subprocess.DEVNULL, "stdout": subprocess.PIPE, "stderr": subprocess.PIPE}
        ran = subprocess.run([self.program, *words], cwd=self.path, timeout=60, preexec_fn=before, user=user, **pipes)
        return Ended(ran.returncode, ran.stdout, ran.stderr)

    def files(self) -> Dict[str, bytes]:
        """Returns the bytes of each regular file of the folder, by its name."""
        return {file.name: file.read_bytes() for file in self.path.iterdir() if file.is_file()}

    def failed(self, ended: Ended, files: Dict[str, bytes]) -> List[str]:
        """Compares an end with that of a save that failed; `files` are those that must be there then."""
        found = [] if ended == Ended(6, b"", FOLDER_FAULT) else [f"it ended with {ended}"]
        return found + ([] if self.files() == files else [f"the files are {short(self.files())}"])

    def saved(self, ended: Ended, files: Dict[str, bytes]) -> List[str]:
        """Compares an end with that of a save that was done; `files` are those that must be there then."""
        found = [] if ended == Ended(0, self.report, b"") else [f"it ended with {ended}"]
        return found + ([] if self.files() == files else [f"the files are {short(self.files())}"])


def short(files: Dict[str, bytes]) -> Dict[str, str]:
    """Returns each file's length and beginning."""
    return {name: f"{len(content)} bytes {content[:30]!r}" for name, content in files.items()}


def limited(size: int, ignored: bool) -> Callable[[], None]:
    """Returns what a process does to write no file beyond a size, with the signal for that ignored or not."""

    def limit() -> None:
        signal.signal(signal.SIGXFSZ, signal.SIG_IGN if ignored else signal.SIG_DFL)
        resource.setrlimit(resource.RLIMIT_FSIZE, (size, size))
        resource.setrlimit(resource.RLIMIT_CORE, (0, 0))

    return limit


def run_over_old(room: Room) -> List[str]:
    """A limit of size: the old record stays, and the draft has what went into it."""
    files = {**room.files(), "kept.part": room.record[:500]}
    return room.failed(room.run("run", "s.toml", "--record", "kept", before=limited(500, True)), files)


def run_over_none(room: Room) -> List[str]:
    """A limit of size, and no old record: the draft is there then."""
    files = {**room.files(), "new.part": room.record[:500]}
    return room.failed(room.run("run", "s.toml", "--record", "new", before=limited(500, True)), files)


def migrate_to_itself(room: Room) -> List[str]:
    """A limit of size: a record that is migrated to its own name stays."""
    (room.path / "kept").write_bytes(room.record)
    files = room.files()
    found = room.failed(room.run("migrate", "kept", "kept", before=limited(500, True)), files)
    ended = room.run("migrate", "kept", "kept")
    return found + ([] if ended == Ended(0, b"", b"") and room.files() == files else [f"without a limit {ended}"])


def ended_by_signal(room: Room) -> List[str]:
    """A limit of size whose signal isn't ignored ends the program: the old record stays, beside the draft."""
    files = room.files()
    ended = room.run("run", "s.toml", "--record", "kept", before=limited(500, False))
    files["kept.part"] = room.record[:500]
    found = [] if ended == Ended(-signal.SIGXFSZ, b"", b"") else [f"it ended with {ended}"]
    return found + ([] if room.files() == files else [f"the files are {short(room.files())}"])


def beside_parts(room: Room) -> List[str]:
    """Files that have the names of parts stay as they are."""
    for name in ("kept.part", "kept.part2"):
        (room.path / name).write_bytes(name.encode())
    files = {**room.files(), "kept": room.record}
    return room.saved(room.run("run", "s.toml", "--record", "kept"), files)


def replaced(room: Room) -> List[str]:
    """The new record has the old one's rights; another name of the old file keeps the old bytes."""
    (room.path / "kept").chmod(0o640)
    os.link(room.path / "kept", room.path / "other")
    files = {**room.files(), "kept": room.record}
    found = room.saved(room.run("run", "s.toml", "--record", "kept"), files)
    mode = (room.path / "kept").stat().st_mode & 0o777
    return found + ([] if mode == 0o640 else [f"the rights are {mode:o}"])


def through_links(room: Room) -> List[str]:
    """A symbolic link stays one, and the file to which it leads is replaced, or made where there is none."""
    below = room.path / "below"
    below.mkdir()
    (room.path / "kept").rename(below / "kept")
    for name, target in (("link", "below/first"), ("below/first", "kept"), ("loose", "below/none")):
        (room.path / name).symlink_to(target)
    found = []
    for name, file in (("link", "kept"), ("loose", "none")):
        ended = room.run("run", "s.toml", "--record", name)
        if ended != Ended(0, room.report, b"") or (below / file).read_bytes() != room.record:
            found.append(f"{name}: it ended with {ended}")
        if not (room.path / name).is_symlink():
            found.append(f"{name} is no link any more")
    names = sorted(file.name for file in below.iterdir())
    found += [] if names == ["first", "kept", "none"] else [f"below are {names}"]
    (room.path / "round").symlink_to("round")
    return found + room.failed(room.run("run", "s.toml", "--record", "round"), room.files())


def into_no_file(room: Room) -> List[str]:
    """What is no regular file is written as it stands: a device, standard output, a named pipe."""
    files = room.files()
    found = room.saved(room.run("run", "s.toml", "--record", "/dev/null"), files)
    found += room.failed(room.run("run", "s.toml", "--record", "/dev/full"), files)
    ended = room.run("run", "s.toml", "--record", "/dev/stdout")
    found += [] if ended == Ended(0, room.record + room.report, b"") else [f"standard output: {ended}"]
    os.mkfifo(room.path / "pipe")
    heard: List[bytes] = []
    reader = threading.Thread(target=lambda: heard.append((room.path / "pipe").read_bytes()), daemon=True)
    reader.start()
    found += room.saved(room.run("run", "s.toml", "--record", "pipe"), files)
    reader.join(10)
    return found + ([] if heard == [room.record] else [f"from the pipe came {heard}"])


def into_output_file(room: Room) -> List[str]:
    """Standard output that is a file, appended to: the record and the report stand there."""
    words = [room.program, "run", "s.toml", "--record", "/dev/stdout"]
    with open(room.path / "all", "ab") as out:
        status = subprocess.run(words, cwd=room.path, stdout=out, stdin=subprocess.DEVNULL, timeout=60).returncode
    found = [] if status == 0 else [f"it ended with {status}"]
    text = (room.path / "all").read_bytes()
    return found + ([] if text == room.record + room.report else [f"there are {len(text)} bytes {text[:30]!r}"])


def without_rights(room: Room) -> List[str]:
    """A file that may not be written, or a folder in which none may be made: the old record stays."""
    user = NOBODY if os.geteuid() == 0 else None
    files = room.files()
    (room.path / "kept").chmod(0o444)
    room.path.chmod(0o777)
    found = room.failed(room.run("run", "s.toml", "--record", "kept", user=user), files)
    (room.path / "kept").chmod(0o666)
    room.path.chmod(0o555)
    found += room.failed(room.run("run", "s.toml", "--record", "kept", user=user), files)
    room.path.chmod(0o777)
    return found + room.saved(room.run("run", "s.toml", "--record", "kept", user=user), {**files, "kept": room.record})


def on_full_system(room: Room) -> List[str]:
    """A full file system: the old record stays, and is replaced once there is room."""
    small = room.path / "small"
    small.mkdir()
    words = ["mount", "-t", "tmpfs", "-o", "size=64k", "tmpfs", str(small)]
    if shutil.which("mount") is None or subprocess.run(words, capture_output=True).returncode != 0:
        print("no file system may be mounted here, so none was filled")
        return []
    try:
        return fill_and_save(Room(room.program, small, 120))
    finally:
        subprocess.run(["umount", str(small)], check=True)


def fill_and_save(room: Room) -> List[str]:
    """Tries a save where little room is left, and again where there is enough."""
    free = os.statvfs(room.path).f_bavail * os.statvfs(room.path).f_bsize
    (room.path / "fill").write_bytes(bytes(free - 8192))
    files = {**room.files(), "kept.part": room.record[:8192]}
    found = [] if len(room.record) > 8192 else ["the record is too short to fill anything"]
    found += room.failed(room.run("run", "s.toml", "--record", "kept"), files)
    # the first draft has taken all room
    files["new.part"] = b""
    found += room.failed(room.run("run", "s.toml", "--record", "new"), files)
    (room.path / "fill").unlink()
    files = {name: content for name, content in files.items() if name != "fill"}
    return found + room.saved(room.run("run", "s.toml", "--record", "kept"), {**files, "kept": room.record})


CHECKS = [
    run_over_old,
    run_over_none,
    migrate_to_itself,
    ended_by_signal,
    beside_parts,
    replaced,
    through_links,
    into_no_file,
    into_output_file,
    without_rights,
    on_full_system,
]


def main() -> int:
    """Makes each check in a folder of its own."""
    failed = 0
    with tempfile.TemporaryDirectory() as top:
        # another user comes to the program and to the folders too
        os.chmod(top, 0o755)
        program = shutil.copy(sys.argv[1], pathlib.Path(top) / "program")
        os.chmod(program, 0o755)
        for check in CHECKS:
            path = pathlib.Path(top) / check.__name__
            path.mkdir()
            found = check(Room(str(program), path))
            failed += bool(found)
            for line in found:
                print(f"{check.__name__}: {line}")
    print(f"{len(CHECKS) - failed} passed, {failed} failed")
    return 1 if failed else 0


if __name__ == "__main__":
    sys.exit(status_of(main))
