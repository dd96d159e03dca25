#!/usr/bin/env python3
"""Tries sweeps by a real Slurm of one node: slurmctld, slurmd and munge from Debian's packages.

`run_slurm.py PROGRAM` is run by hand, as root on Debian. It installs `slurmctld`, `slurmd`, `slurm-client` and `munge`
where they are missing, and starts them with files and ports of its own. What is tried: a sweep by `--slurm` has the
table of one on this machine; one that is stopped by Ctrl-C saves its records and goes on; `--no-wait` comes back, and
the same command gathers; a job that is cancelled from outside is made again; options of sbatch reach the job. Then
1,000 runs of a small study are timed: by the bare program, by the sweep here, and by Slurm in many tasks and in one.
`run_slurm.py PROGRAM N` times N runs. The last line is 'N passed, M failed'.
"""

from __future__ import annotations

import concurrent.futures
import contextlib
import csv
import os
import pathlib
import shutil
import signal
import socket
import subprocess
import sys
import tempfile
import time
from typing import Dict, Iterator, List, NamedTuple

ROOT = pathlib.Path(__file__).resolve().parents[2]
EXAMPLES = ROOT / "examples" / "many"
PACKAGES = {"slurmctld": "slurmctld", "slurmd": "slurmd", "sbatch": "slurm-client", "munged": "munge"}
CONFIG = """ClusterName=trial
SlurmctldHost={host}(127.0.0.1)
SlurmUser=root
SlurmctldPort={control}
SlurmdPort={daemon}
AuthType=auth/munge
AuthInfo=socket={room}/munge.socket
CryptoType=crypto/munge
StateSaveLocation={room}/state
SlurmdSpoolDir={room}/spool
SlurmctldPidFile={room}/slurmctld.pid
SlurmdPidFile={room}/slurmd.pid
SlurmctldLogFile={room}/slurmctld.log
SlurmdLogFile={room}/slurmd.log
ProctrackType=proctrack/linuxproc
TaskPlugin=task/none
JobAcctGatherType=jobacct_gather/none
MpiDefault=none
ReturnToService=2
SchedulerParameters=sched_interval=1,batch_sched_delay=0
KillWait=60
SlurmdParameters=config_overrides
SelectType=select/cons_tres
SelectTypeParameters=CR_CPU
NodeName={host} NodeAddr=127.0.0.1 CPUs={processors} State=UNKNOWN
PartitionName=all Nodes={host} Default=YES MaxTime=INFINITE State=UP
"""
SLOW = ["--set", "entities.houses.params.people=1..4", "--jobs", "2"]
SETS = ["--set", "entities.houses.params.start=1..3", "--set", "until=48,96"]


class Ended(NamedTuple):
    """How a program ended: its status, its standard error, and how many seconds it took."""

    status: int
    err: str
    seconds: float


def install() -> None:
    """Installs the packages whose programs aren't there."""
    missing = [package for name, package in PACKAGES.items() if shutil.which(name) is None]
    if missing:
        environment = {**os.environ, "DEBIAN_FRONTEND": "noninteractive"}
        words = ["apt-get", "install", "-y", "--no-install-recommends", *missing]
        subprocess.run(words, env=environment, check=True, stdout=subprocess.DEVNULL)


def free_port() -> int:
    """A port that nobody listens at."""
    with socket.create_server(("127.0.0.1", 0)) as server:
        return server.getsockname()[1]


class Cluster:
    """Slurm on one node, with all its files in a folder."""

    def __init__(self, room: pathlib.Path) -> None:
        self.room, self.daemons = room, []
        self.environment = {**os.environ, "SLURM_CONF": f"{room}/slurm.conf"}

    def start(self) -> None:
        """Starts munge, the controller and the node's daemon, and waits for the node."""
        room, host = self.room, socket.gethostname().split(".")[0]
        for name in ("state", "spool"):
            (room / name).mkdir()
        (room / "munge.key").write_bytes(os.urandom(128))
        (room / "munge.key").chmod(0o400)
        ports = {"control": free_port(), "daemon": free_port(), "processors": len(os.sched_getaffinity(0))}
        (room / "slurm.conf").write_text(CONFIG.format(host=host, room=room, **ports), encoding="ascii")
        kinds = {"key-file": "key", "pid-file": "pid", "seed-file": "seed", "log-file": "log", "socket": "socket"}
        files = [f"--{name}={room}/munge.{end}" for name, end in kinds.items()]
        self.daemon("munged", "--foreground", "--force", *files)
        self.awaited((room / "munge.socket").exists, "munge")
        self.daemon("slurmctld", "-D", "-f", f"{room}/slurm.conf")
        self.daemon("slurmd", "-D", "-f", f"{room}/slurm.conf", "-N", host)
        self.awaited(lambda: "idle" in self.told("sinfo", "--noheader", "--format=%T"), "the node")

    def daemon(self, *words: str) -> None:
        """Starts a program that runs until the end."""
        with (self.room / f"{words[0]}.out").open("wb") as out:
            begun = subprocess.Popen(words, env=self.environment, stdout=out, stderr=out, stdin=subprocess.DEVNULL)
        self.daemons.append(begun)

    def awaited(self, is_there: object, what: str) -> None:
        """Waits until it is there."""
        for _ in range(300):
            if is_there():
                return
            time.sleep(0.2)
        logs = "".join(file.read_text(errors="replace")[-1500:] for file in sorted(self.room.glob("*.log")))
        raise SystemExit(f"run_slurm.py: {what} isn't there: {logs}")

    def told(self, *words: str) -> str:
        """What a command of Slurm prints."""
        done = subprocess.run(words, env=self.environment, capture_output=True, text=True, check=False)
        return done.stdout.strip()

    def end(self) -> None:
        """Ends all jobs and the daemons."""
        if len(self.daemons) == 3:
            self.told("scancel", "--user=root")
        for begun in reversed(self.daemons):
            begun.terminate()
        for begun in self.daemons:
            with contextlib.suppress(subprocess.TimeoutExpired):
                begun.wait(10)
            begun.kill()
            begun.wait()


class Trial:
    """The cases, in a folder with the example's files."""

    def __init__(self, program: str, room: pathlib.Path, cluster: Cluster) -> None:
        self.program, self.cluster, self.here = os.path.abspath(program), cluster, room / "here"
        self.passed = self.failed = 0
        self.here.mkdir()
        for file in ("house.py", "small.toml", "small.watch"):
            shutil.copy(EXAMPLES / file, self.here)
        text = (EXAMPLES / "remote.toml").read_text(encoding="utf-8")
        text = text.replace("ssh -R %(addr)s:%(addr)s other python3", sys.executable).replace("pause = 0", "pause = 50")
        (self.here / "slow.toml").write_text(text, encoding="utf-8")
        own = {"MOSAIKRUN": self.program, "PYTHONPATH": str(ROOT / "python")}
        self.environment = {**cluster.environment, **own}

    def equal(self, what: str, got: object, want: object) -> None:
        """Counts a case, and prints what differs."""
        is_right = got == want
        self.passed, self.failed = self.passed + is_right, self.failed + (not is_right)
        differs = "" if is_right else f": {got!r} and not {want!r}"
        print(f"{'ok' if is_right else 'FAILED'}: {what}{differs}", flush=True)

    @contextlib.contextmanager
    def begun(self, *words: str) -> Iterator[subprocess.Popen]:
        """A sweep that runs; `self.ended` has how it ended."""
        call, began = [sys.executable, "-m", "mosaikrun.sweep", *words, "--watch", "small.watch"], time.monotonic()
        pipes = {"stdout": subprocess.DEVNULL, "stderr": subprocess.PIPE, "stdin": subprocess.DEVNULL}
        with subprocess.Popen(call, cwd=self.here, env=self.environment, text=True, **pipes) as ran:
            yield ran
            err = ran.communicate(timeout=1800)[1]
            self.ended = Ended(ran.returncode, err, time.monotonic() - began)

    def sweep(self, *words: str) -> Ended:
        """Calls a sweep to its end."""
        with self.begun(*words):
            pass
        return self.ended

    def table(self, name: str) -> List[Dict[str, str]]:
        """The rows of a sweep's table."""
        with (self.here / name / "table.csv").open(newline="", encoding="utf-8") as file:
            return list(csv.DictReader(file))

    def same_table(self) -> None:
        """A sweep by Slurm has the table of one on this machine."""
        self.equal("a sweep here", self.sweep("small.toml", "--out", "a", *SETS, "--jobs", "2").status, 0)
        ran = self.sweep("small.toml", "--out", "b", *SETS, "--jobs", "2", "--slurm", "--sbatch=--comment=trial")
        self.equal("a sweep by Slurm", (ran.status, len(self.table("b"))), (0, 6))
        self.equal("its table is the same", self.table("b"), self.table("a"))
        print("    " + ran.err.strip().replace("\n", "\n    "))
        script = (self.here / "b/slurm/job.sh").read_text(encoding="utf-8")
        self.equal("options reach the job", "#SBATCH --comment=trial\n" in script, True)

    def running(self, name: str, count: int) -> None:
        """Waits until so many runs of a sweep have begun."""
        logs = self.here / name / "runs"
        self.cluster.awaited(lambda: len(list(logs.glob("*/log.txt"))) >= count, "a run")
        time.sleep(2)

    def stopped(self) -> None:
        """A sweep that is stopped by Ctrl-C goes on from its records."""
        self.equal("a slow sweep here", self.sweep("slow.toml", "--out", "c", *SLOW).status, 0)
        with self.begun("slow.toml", "--out", "d", *SLOW, "--slurm") as ran:
            self.running("d", 2)
            ran.send_signal(signal.SIGINT)
        self.equal("Ctrl-C ends it", self.ended.status, 130)
        print("    " + self.ended.err.strip().replace("\n", "\n    "))
        self.equal("no job is left", self.cluster.told("squeue", "--noheader"), "")
        kept = sum((self.here / "d/runs" / row["run"] / "study.record").exists() for row in self.table("d"))
        self.equal("some records were saved", kept >= 2, True)
        self.equal("it goes on", self.sweep("slow.toml", "--out", "d", *SLOW, "--slurm").status, 0)
        self.equal("to the same table", self.table("d"), self.table("c"))
        how = [(self.here / "d/runs" / row["run"] / "status.json").read_text() for row in self.table("d")]
        self.equal("by resuming", sum('"resumed"' in one for one in how), kept)

    def left_alone(self) -> None:
        """`--no-wait` comes back at once; a job that is cancelled from outside is made again."""
        with self.begun("slow.toml", "--out", "e", *SLOW, "--slurm", "--no-wait") as ran:
            pass
        is_left = bool(self.cluster.told("squeue", "--noheader"))
        self.equal("it comes back before the job's end", (ran.returncode, is_left), (0, True))
        local = self.sweep("slow.toml", "--out", "e", *SLOW)
        self.equal("another sweep there is refused", (local.status, "still makes runs in" in local.err), (2, True))
        self.running("e", 2)
        self.cluster.told("scancel", "--user=root")
        self.cluster.awaited(lambda: not self.cluster.told("squeue", "--noheader"), "the end of the job")
        self.equal("after scancel", self.sweep("slow.toml", "--out", "e", *SLOW, "--slurm").status, 0)
        self.equal("the table is the same", self.table("e"), self.table("c"))

    def measure(self, count: int) -> None:
        """Times so many runs: by the bare program, by the sweep here, and by Slurm."""
        jobs = len(os.sched_getaffinity(0))
        text = (self.here / "small.toml").read_text(encoding="utf-8")
        folder = self.here / "bare"
        folder.mkdir()
        for start in range(count):
            (folder / f"{start}.toml").write_text(text.replace("start = 1", f"start = {start}"), encoding="utf-8")

        def bare(start: int) -> int:
            words = [self.program, "run", f"{start}.toml", "--record", f"{start}.record"]
            return subprocess.run(words, cwd=folder, stdout=subprocess.DEVNULL, check=False).returncode

        for side in (1, jobs):
            began = time.monotonic()
            with concurrent.futures.ThreadPoolExecutor(side) as pool:
                self.equal(f"{count} runs of the bare program, {side} at once", set(pool.map(bare, range(count))), {0})
            self.rate(count, time.monotonic() - began)
        sets = ["--set", f"entities.houses.params.start=0..{count - 1}"]
        many = ["--jobs", str(jobs)]
        ways = {"here": many, "again": [], "by Slurm": [*many, "--slurm"], "by Slurm in one task": [*many, "--slurm", "--tasks", "1"]}
        for name, words in ways.items():
            out = "one" if "--tasks" in words else "slurm" if words[2:] else "local"
            ran = self.sweep("small.toml", "--out", out, *sets, *words)
            self.equal(f"{count} runs of a sweep, {name}", (ran.status, len(self.table(out))), (0, count))
            self.rate(count, ran.seconds)
        for out in ("slurm", "one"):
            self.equal("the tables are the same", self.table(out), self.table("local"))

    @staticmethod
    def rate(count: int, seconds: float) -> None:
        """Says how many runs a second these are."""
        print(f"    {seconds:.1f} s: {count / seconds:.1f} runs a second", flush=True)


def main() -> int:
    """Tries all, and says what it came to."""
    if len(sys.argv) not in (2, 3) or os.getuid():
        print(__doc__, file=sys.stderr)
        return 2
    install()
    # an end from outside takes down what was set up, too
    signal.signal(signal.SIGTERM, signal.default_int_handler)
    with tempfile.TemporaryDirectory(prefix="mosaikrun-slurm-") as folder:
        room = pathlib.Path(folder)
        cluster = Cluster(room)
        trial = Trial(sys.argv[1], room, cluster)
        try:
            cluster.start()
            trial.same_table()
            trial.stopped()
            trial.left_alone()
            trial.measure(int(sys.argv[2]) if sys.argv[2:] else 1000)
        finally:
            cluster.end()
    print(f"{trial.passed} passed, {trial.failed} failed")
    return 1 if trial.failed else 0


if __name__ == "__main__":
    sys.exit(main())
