#!/usr/bin/env python3
"""Tries a study over two machines by a real sshd in a network namespace, which stands for the other machine.

`run_ssh.py PROGRAM` is run by hand, as root on Debian. It installs `iproute2`, `openssh-server` and `openssh-client`
where they are missing. The other machine has an address, a home folder and an sshd of its own, and only a cable (a
veth pair) leads there. What is tried: a study whose simulator is started by ssh, two such simulators, one that is
reached by `connect` through a tunnel, a connection that is ended, a cable that is pulled, `resume` after each, and a
host that isn't there. Then it measures over 2,000 steps what a round trip costs; `run_ssh.py PROGRAM N` over N. The
last line is 'N passed, M failed'.
"""

from __future__ import annotations

import contextlib
import os
import pathlib
import shlex
import shutil
import signal
import socket
import subprocess
import sys
import tempfile
import time
from typing import Iterator, List, NamedTuple, Optional

ROOT = pathlib.Path(__file__).resolve().parents[2]
EXAMPLES = ROOT / "examples" / "many"
PACKAGES = {"ip": "iproute2", "/usr/sbin/sshd": "openssh-server", "ssh": "openssh-client"}
HERE, THERE = "10.231.77.1", "10.231.77.2"
CONFIG = """Host other far
  HostName {there}
  Port 2222
  User root
  IdentityFile {room}/key
  UserKnownHostsFile {room}/known
  ConnectTimeout 30
Host far
  ServerAliveInterval 10
  ProxyCommand {python} {delay} {there} 2222 {milliseconds}
Host missing
  HostName 10.231.77.99
Host *
  BatchMode yes
  ConnectTimeout 3
  ExitOnForwardFailure yes
  ServerAliveInterval 1
  ServerAliveCountMax 3
"""
SSHD = """Port 2222
ListenAddress {there}
HostKey {room}/host
PidFile none
AuthorizedKeysFile {room}/key.pub
PermitRootLogin prohibit-password
PasswordAuthentication no
StrictModes no
UsePAM no
Subsystem sftp internal-sftp
"""
# answers what comes, as a simulator that has nothing to calculate
ECHO = """import socket, sys
link = socket.create_connection(("127.0.0.1", int(sys.argv[1])))
link.setsockopt(socket.IPPROTO_TCP, socket.TCP_NODELAY, 1)
while came := link.recv(100):
    link.sendall(came)
"""
CLOSED = "mosaikrun: run 5: House-0 closed its link"
# what the cases change in the example's scenario
PLACES = {
    "pause": "pause = 0",
    "host": " other ",
    "until": "until = 96",
    "command": "ssh -R %(addr)s:%(addr)s other ",
}
FAR = 10  # milliseconds that each byte to and from the host `far` takes
FAR_NAME = "each way"


class Ended(NamedTuple):
    """How a program ended: its status, what it printed, and how many seconds it took."""

    status: int
    out: str
    err: str
    seconds: float


def called(*words: str, **options: object) -> str:
    """Calls a program that has to end with status 0; what it printed."""
    done = subprocess.run(words, text=True, check=False, stdout=subprocess.PIPE, stderr=subprocess.STDOUT, **options)
    if done.returncode:
        raise SystemExit(f"run_ssh.py: {' '.join(words)}: {done.stdout.strip()}")
    return done.stdout


def install() -> None:
    """Installs the packages whose programs aren't there."""
    missing = [package for name, package in PACKAGES.items() if shutil.which(name) is None]
    if missing:
        environment = {**os.environ, "DEBIAN_FRONTEND": "noninteractive"}
        called("apt-get", "install", "-y", "--no-install-recommends", *missing, env=environment)


def trip(link: socket.socket) -> float:
    """How many seconds it takes until 60 bytes are back."""
    began, left = time.perf_counter(), 60
    link.sendall(b"-" * left)
    while left:
        left -= len(link.recv(left))
    return time.perf_counter() - began


def listens(port: int) -> bool:
    """Whether somebody listens at the port, by the system's table: a trial would be a connection."""
    rows = [line.split() for line in pathlib.Path("/proc/net/tcp").read_text(encoding="ascii").splitlines()[1:]]
    return any(row[1].endswith(f":{port:04X}") and row[3] == "0A" for row in rows)


class Other:
    """The other machine: a network namespace with a home folder and an sshd, at the other end of a cable."""

    def __init__(self, room: pathlib.Path) -> None:
        self.room, self.home, self.name = room, room / "home", f"mosaikrun{os.getpid()}"
        self.cable = f"mr{os.getpid()}"
        self.sshd: Optional[subprocess.Popen] = None

    def start(self) -> None:
        """Lays the cable and starts sshd, whose sessions see the home folder where root's own is."""
        self.home.mkdir()
        for key in ("key", "host"):
            called("ssh-keygen", "-q", "-t", "ed25519", "-N", "", "-f", str(self.room / key))
        host = (self.room / "host.pub").read_text(encoding="ascii")
        (self.room / "known").write_text(f"[{THERE}]:2222 {host}{THERE} {host}", encoding="ascii")
        (self.room / "sshd_config").write_text(SSHD.format(there=THERE, room=self.room), encoding="ascii")
        called("ip", "netns", "add", self.name)
        called("ip", "link", "add", self.cable, "type", "veth", "peer", "name", "cable", "netns", self.name)
        called("ip", "addr", "add", f"{HERE}/24", "dev", self.cable)
        called("ip", "link", "set", self.cable, "up")
        called("ip", "-n", self.name, "addr", "add", f"{THERE}/24", "dev", "cable")
        for link in ("lo", "cable"):
            called("ip", "-n", self.name, "link", "set", link, "up")
        pathlib.Path("/run/sshd").mkdir(exist_ok=True)
        home = shlex.quote(os.path.expanduser("~root"))
        script = f"mount --bind {self.home} {home} && exec /usr/sbin/sshd -D -e -f {self.room}/sshd_config"
        with (self.room / "sshd.log").open("wb") as log:
            self.sshd = subprocess.Popen(["ip", "netns", "exec", self.name, "sh", "-c", script], stderr=log)

    def await_answer(self, ssh: pathlib.Path) -> None:
        """Waits until a command is carried out there."""
        for _ in range(100):
            if subprocess.run([str(ssh), "other", "true"], check=False, capture_output=True).returncode == 0:
                return
            time.sleep(0.1)
        raise SystemExit(f"run_ssh.py: no sshd answers: {(self.room / 'sshd.log').read_text()}")

    def pids(self, part: str) -> List[int]:
        """The processes there whose words have this part."""
        found = []
        for pid in map(int, called("ip", "netns", "pids", self.name).split()):
            with contextlib.suppress(OSError):
                words = pathlib.Path(f"/proc/{pid}/cmdline").read_bytes().replace(b"\0", b" ").decode()
                found += [pid] if part in words and pid != self.sshd.pid else []
        return found

    def pull(self, is_pulled: bool) -> None:
        """Pulls the cable, or puts it in again."""
        called("ip", "link", "set", self.cable, "down" if is_pulled else "up")

    def end(self) -> None:
        """Ends what runs there and takes the machine away."""
        with contextlib.suppress(SystemExit):
            for pid in map(int, called("ip", "netns", "pids", self.name).split()):
                with contextlib.suppress(ProcessLookupError):
                    os.kill(pid, signal.SIGKILL)
        if self.sshd:
            self.sshd.wait()
        for words in (["netns", "del", self.name], ["link", "del", self.cable]):
            subprocess.run(["ip", *words], check=False, capture_output=True)


class Trial:
    """The cases: a folder with the example's files, in which the program is called, `ssh` being that of the trial."""

    def __init__(self, program: str, room: pathlib.Path, other: Other) -> None:
        self.program, self.room, self.other = os.path.abspath(program), room, other
        self.passed = self.failed = 0
        self.here = room / "here"
        self.here.mkdir()
        for file in ("house.py", "remote.toml", "tunnel.toml"):
            shutil.copy(EXAMPLES / file, self.here)
        delay = pathlib.Path(__file__).with_name("delay.py")
        config = CONFIG.format(there=THERE, room=room, python=sys.executable, delay=delay, milliseconds=FAR)
        (room / "config").write_text(config, encoding="utf-8")
        self.ssh = room / "bin" / "ssh"
        self.ssh.parent.mkdir()
        self.ssh.write_text(f'#!/bin/sh\nexec {shutil.which("ssh")} -F {room}/config "$@"\n', encoding="utf-8")
        self.ssh.chmod(0o755)
        self.environment = {**os.environ, "PATH": f"{self.ssh.parent}:{os.environ['PATH']}"}

    def equal(self, what: str, got: object, want: object) -> None:
        """Counts a case, and prints what differs."""
        is_right = got == want
        self.passed, self.failed = self.passed + is_right, self.failed + (not is_right)
        differs = "" if is_right else f": {got!r} and not {want!r}"
        print(f"{'ok' if is_right else 'FAILED'}: {what}{differs}", flush=True)

    def scenario(self, name: str, **edits: str) -> str:
        """Writes the example's scenario with other texts in it; its name."""
        text = (EXAMPLES / name).read_text(encoding="utf-8")
        for old, new in {"pause": "pause = 0", **edits}.items():
            text = text.replace(PLACES[old], new)
        (self.here / "study.toml").write_text(text, encoding="utf-8")
        return "study.toml"

    @contextlib.contextmanager
    def begun(self, *words: str) -> Iterator[subprocess.Popen]:
        """A program that runs in the folder; `self.ended` has how it ended."""
        began = time.monotonic()
        with subprocess.Popen(
            words, cwd=self.here, env=self.environment, text=True, stdin=subprocess.DEVNULL,
            stdout=subprocess.PIPE, stderr=subprocess.PIPE,
        ) as ran:  # fmt: skip
            yield ran
            try:
                out, err = ran.communicate(timeout=600)
            except subprocess.TimeoutExpired:
                ran.kill()
                out, err = ran.communicate()
            self.ended = Ended(ran.returncode, out, err, time.monotonic() - began)

    def run(self, *words: str) -> Ended:
        """Calls the program with these words to its end."""
        with self.begun(self.program, *words):
            pass
        return self.ended

    def awaited(self, part: str) -> List[int]:
        """The processes on the other machine with this part in their words, waited for."""
        for _ in range(300):
            found = self.other.pids(part)
            if found:
                return found
            time.sleep(0.05)
        raise SystemExit(f"run_ssh.py: {part} isn't on the other machine")

    def same_report(self) -> None:
        """A study over ssh comes out as it does on one machine."""
        one = self.run("run", self.scenario("remote.toml", command=""))
        two = self.run("run", self.scenario("remote.toml"))
        self.equal("a study on one machine", one.status, 0)
        self.equal("over two machines its report is the same", (two.status, two.out), (0, one.out))
        self.equal("nothing is left on the other machine", self.gone("house.py"), [])
        self.whole = one.out

    def gone(self, part: str) -> List[int]:
        """The processes there that don't end by themselves within five seconds."""
        for _ in range(50):
            if not self.other.pids(part):
                return []
            time.sleep(0.1)
        return self.other.pids(part)

    def two_simulators(self) -> None:
        """Two simulators of a study are on one other machine."""
        text = (self.here / self.scenario("remote.toml")).read_text(encoding="utf-8")
        sim = text[text.index("[[sim]]") : text.index('[[sim]]\nname = "Grid"')]
        text = text.replace(sim, sim + sim.replace('"House"', '"Roof"'))
        text += '[[entities]]\nid = "roof"\nsim = "Roof-0"\nmodel = "Roof"\n'
        text += '[[connect]]\nfrom = "roof"\nto = "grid"\nattrs = [["power", "in"]]\n'
        (self.here / "study.toml").write_text(text, encoding="utf-8")
        two = self.run("run", "study.toml")
        self.equal("two simulators on the other machine", (two.status, two.out.splitlines()[-1:]), (0, ["end 288"]))

    def lost(self, what: str, break_it: object) -> None:
        """A connection is lost in the run: `run 5` and a record, from which `resume` goes on."""
        study = self.scenario("remote.toml", pause="pause = 50")
        with self.begun(self.program, "run", study, "--record", "study.record") as ran:
            self.awaited("python3 house.py")
            time.sleep(1.5)
            began = time.monotonic()
            break_it()
            ran.wait(300)
            seconds = time.monotonic() - began
        line = self.ended.err.strip().splitlines()[-1:]
        self.equal(f"{what}: the run ends", (self.ended.status, line), (5, [CLOSED]))
        print(f"    after {seconds:.1f} s; printed: {self.ended.err.strip()!r}")
        self.other.pull(False)
        more = self.run("resume", study, "study.record", "--record", "study.record")
        self.equal(f"{what}: resume goes on to the same report", (more.status, more.out), (0, self.whole))

    def end_connection(self) -> None:
        """Ends the connection's sshd on the other machine."""
        for pid in self.other.pids("sshd: root"):
            os.kill(pid, signal.SIGKILL)

    def tunnel(self) -> None:
        """A simulator waits on the other machine at the end of a tunnel, and is reached by `connect`."""
        text = (EXAMPLES / "tunnel.toml").read_text(encoding="utf-8")
        first = next(line for line in text.splitlines() if line.startswith("# First"))
        with self.begun(*shlex.split(first.split(": ", 1)[1])) as waits:
            print(f"    {waits.stdout.readline().strip()}")
            ran = self.run("run", "tunnel.toml")
        self.equal("connect through a tunnel", (ran.status, ran.out), (0, self.whole))

    def early(self) -> None:
        """Through a tunnel behind which nobody waits the handshake fails."""
        with self.begun(str(self.ssh), "-N", "-L", "127.0.0.1:5994:127.0.0.1:5994", "other") as tunnel:
            while not listens(5994) and tunnel.poll() is None:
                time.sleep(0.05)
            ran = self.run("run", "tunnel.toml")
            tunnel.terminate()
        self.equal("a tunnel and nobody behind it", ran.err.splitlines()[-1:], [CLOSED])

    def missing(self) -> None:
        """A host that isn't there, and one whose key isn't known, are said within seconds."""
        for host in ("missing", "nobody.invalid"):
            ran = self.run("run", self.scenario("remote.toml", host=f" {host} "))
            last = ran.err.strip().splitlines()[-1:]
            self.equal(f"the host {host}", (ran.status, last), (6, ["mosaikrun: outside: fleet"]))
            print(f"    after {ran.seconds:.1f} s; printed: {ran.err.strip()!r}")

    def trips(self) -> None:
        """What a round trip of 60 bytes costs without mosaikrun: here, through ssh, and through ssh to a far host."""
        for folder in (self.here, self.other.home):
            (folder / "echo.py").write_text(ECHO, encoding="ascii")
        tunnel = ["ssh", "-R", "127.0.0.1:PORT:127.0.0.1:PORT"]
        ways = [("here", 2000, []), ("by ssh", 2000, [*tunnel, "other"]), ("far", 100, [*tunnel, "far"])]
        for what, count, words in ways:
            with socket.create_server(("127.0.0.1", 0)) as server:
                port = str(server.getsockname()[1])
                call = [word.replace("PORT", port) for word in [*words, "python3", "echo.py", "PORT"]]
                with self.begun(*call), server.accept()[0] as link:
                    link.setsockopt(socket.IPPROTO_TCP, socket.TCP_NODELAY, 1)
                    times = sorted(trip(link) for _ in range(count))
            median = times[count // 2] * 1e6
            print(f"    60 bytes there and back, {what}: median {median:.0f} microseconds, least {times[0] * 1e6:.0f}")

    def measure(self, steps: int) -> None:
        """What a round trip costs: a step of this study makes two, one for the step and one for its outputs."""
        for what, edits in [
            ("on this machine", {"command": ""}),
            ("through ssh, over the cable", {}),
            (f"through ssh, {FAR} ms each way", {"host": " far "}),
        ]:
            count = steps if FAR_NAME not in what else steps // 10
            one = self.run("run", self.scenario("remote.toml", until="until = 1", **edits))
            many = self.run("run", self.scenario("remote.toml", until=f"until = {count}", **edits))
            self.equal(f"measured {what}", (one.status, many.status), (0, 0))
            trip = (many.seconds - one.seconds) / (2 * (count - 1))
            print(f"    a round trip {what}: {trip * 1e6:.0f} microseconds; the start: {one.seconds:.2f} s")


def main() -> int:
    """Tries all, and says what it came to."""
    if len(sys.argv) not in (2, 3) or os.getuid():
        print(__doc__, file=sys.stderr)
        return 2
    install()
    # an end from outside takes down what was set up, too
    signal.signal(signal.SIGTERM, signal.default_int_handler)
    with tempfile.TemporaryDirectory(prefix="mosaikrun-ssh-") as folder:
        room = pathlib.Path(folder)
        other = Other(room)
        trial = Trial(sys.argv[1], room, other)
        try:
            other.start()
            other.await_answer(trial.ssh)
            called("scp", "-q", "-F", f"{room}/config", "house.py", "other:", cwd=trial.here)
            trial.same_report()
            trial.two_simulators()
            trial.lost("a connection that is ended", trial.end_connection)
            trial.lost("a cable that is pulled", lambda: other.pull(True))
            trial.tunnel()
            trial.early()
            trial.missing()
            trial.trips()
            trial.measure(int(sys.argv[2]) if sys.argv[2:] else 2000)
        finally:
            other.end()
    print(f"{trial.passed} passed, {trial.failed} failed")
    return 1 if trial.failed else 0


if __name__ == "__main__":
    sys.exit(main())
