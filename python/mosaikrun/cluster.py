"""Runs of a sweep on a cluster: as a job array of Slurm, or as tasks of dask.distributed.

Both want the sweep's folder, the study's files, Python and the program at the same paths on every machine. Slurm's job
calls `python3 -m mosaikrun.cluster DIR TASK`, which makes the runs of one task on its node.
"""

from __future__ import annotations

import json
import math
import os
import pathlib
import re
import shlex
import shutil
import signal
import subprocess
import sys
import time
from typing import Any, Callable, NamedTuple, NoReturn, Optional

from mosaikrun import runs

LONGEST = 10  # seconds between two looks at the queue
DEFAULT_ARRAY = 1001  # Slurm's MaxArraySize where it isn't set


class Wanted(NamedTuple):
    """How runs are made by Slurm: so many at once in each task, at most so many tasks, options of sbatch, no waiting."""

    jobs: int
    tasks: int
    options: list[str]
    no_wait: bool


class Missing(Exception):
    """What runs the jobs isn't there, or doesn't take them; the text says which."""


def slurm(*words: str) -> subprocess.CompletedProcess[str]:
    """Calls a command of Slurm."""
    if shutil.which(words[0]) is None:
        raise Missing(f"{words[0]} isn't on the path: --slurm needs Slurm's commands on this machine")
    return subprocess.run(words, capture_output=True, text=True, errors="replace", check=False)


def largest_array() -> int:
    """How many tasks an array may have."""
    found = re.search(r"^MaxArraySize\s*=\s*([0-9]+)", slurm("scontrol", "show", "config").stdout, re.MULTILINE)
    return max(1, int(found[1]) if found else DEFAULT_ARRAY)


def option(name: str, value: str) -> str:
    """A line of the job script; Slurm takes a `%` of a path as the beginning of a pattern."""
    return f"#SBATCH --{name}={shlex.quote(value)}\n"


def script(study: runs.Study, tasks: int, jobs: int, options: list[str]) -> str:
    """The job script of an array with so many tasks, each on one node."""
    package = str(pathlib.Path(__file__).resolve().parents[1])
    logs = str(study.folder / "slurm").replace("%", "%%")
    search = os.pathsep.join([package, *filter(None, [os.environ.get("PYTHONPATH")])])
    given = "".join(f"#SBATCH {shlex.quote(one)}\n" for one in options)
    return (
        "#!/bin/sh\n# Runs of a sweep: each task of the array makes its share of them on one node.\n"
        + option("job-name", "mosaikrun-sweep")
        + option("array", f"0-{tasks - 1}")
        + "#SBATCH --nodes=1\n#SBATCH --ntasks=1\n"
        + option("cpus-per-task", str(jobs))
        + option("chdir", study.place)
        + option("output", f"{logs}/%a.log")
        + f"#SBATCH --signal=B:TERM@{runs.PATIENCE + 10}\n"
        + given
        + f"export PYTHONPATH={shlex.quote(search)}\n"
        + f"exec {shlex.quote(sys.executable)} -m mosaikrun.cluster {shlex.quote(str(study.folder))} "
        + '"$SLURM_ARRAY_TASK_ID"\n'
    )


def job_of(folder: pathlib.Path) -> Optional[str]:
    """The number of the sweep's job, where one is still in the queue or runs."""
    kept = folder / "slurm" / "job"
    if not kept.exists() or shutil.which("squeue") is None:
        return None
    job = kept.read_text(encoding="ascii").strip()
    done = slurm("squeue", "--noheader", "--jobs", job)
    if done.returncode and "Invalid job id" not in done.stderr:
        raise Missing(f"squeue: {last(done.stderr)}")
    return job if done.stdout.strip() else None


def last(text: str) -> str:
    """The last line of what a command said."""
    return (text.strip() or "it failed").splitlines()[-1]


def submit(study: runs.Study, todo: list[str], wanted: Wanted) -> str:
    """Writes the job script and hands it over; the job's number."""
    tasks = min(largest_array(), wanted.tasks, math.ceil(len(todo) / wanted.jobs))
    folder = study.folder / "slurm"
    folder.mkdir(exist_ok=True)
    shares = {"jobs": wanted.jobs, "runs": [todo[task::tasks] for task in range(tasks)]}
    runs.written(folder / "tasks.json", json.dumps(shares) + "\n")
    runs.written(folder / "job.sh", script(study, tasks, wanted.jobs, wanted.options))
    done = slurm("sbatch", "--parsable", str(folder / "job.sh"))
    if done.returncode:
        line = last(done.stderr)
        raise Missing(line if line.startswith("sbatch: ") else f"sbatch: {line}")
    job = done.stdout.split(";")[0].strip()
    runs.written(folder / "job", job + "\n")
    return job


def by_slurm(study: runs.Study, todo: list[str], wanted: Wanted, say: Callable[[str], None]) -> Optional[str]:
    """Makes these runs as a job array, and waits for its end; what is still to come, where it isn't waited for."""
    job = job_of(study.folder)
    if job:
        say(f"job {job} was submitted before")
    elif todo:
        job = submit(study, todo, wanted)
        say(f"job {job} is submitted: {len(todo)} runs, {study.folder / 'slurm' / 'job.sh'}")
    if job and wanted.no_wait:
        return f"job {job} makes the runs; the same command gathers the table"
    try:
        await_end(study.folder, math.inf)
    except KeyboardInterrupt:
        say(f"job {job} is being ended; Ctrl-C again doesn't wait for it")
        cancel(study.folder, str(job))
        raise
    return None


def is_there(folder: pathlib.Path) -> bool:
    """Whether the sweep's job may still be in the queue; it may where Slurm doesn't answer."""
    try:
        return job_of(folder) is not None
    except Missing:
        return True


def await_end(folder: pathlib.Path, patience: float) -> None:
    """Waits until the sweep's job has left the queue, for so many seconds."""
    limit, pause = time.monotonic() + patience, 0.5
    while is_there(folder) and time.monotonic() < limit:
        time.sleep(pause)
        pause = min(LONGEST, pause * 1.5)


def cancel(folder: pathlib.Path, job: str) -> None:
    """Ends the job: what hasn't begun at once, and what runs once its records are saved."""
    try:
        slurm("scancel", "--state=PENDING", job)
        slurm("scancel", "--signal=TERM", "--batch", job)
        await_end(folder, runs.PATIENCE + 10)
    finally:
        slurm("scancel", job)


def by_dask(study: runs.Study, todo: list[str], address: str, tell: runs.Told) -> None:
    """Makes these runs as tasks of dask.distributed, one for each run."""
    try:
        import distributed
    except ImportError:
        raise Missing("the package distributed isn't there: --dask needs it (Debian: python3-distributed)") from None
    study.stop.unlink(missing_ok=True)
    try:
        client = distributed.Client(address, timeout=30)
    except (OSError, ValueError) as fault:
        raise Missing(f"no scheduler of dask at {address}: {fault}") from None
    with client:
        futures = {client.submit(runs.on_another_machine, study, run, pure=False): run for run in todo}
        try:
            for future in distributed.as_completed(futures):
                tell(futures[future], told(future))
        except KeyboardInterrupt:
            study.stop.touch()
            distributed.wait(list(futures), timeout=runs.PATIENCE + 10)
            raise
        finally:
            study.stop.unlink(missing_ok=True)


def told(future: Any) -> runs.Outcome:
    """What a task came to; one whose worker was lost is a failed run."""
    fault = future.exception()
    return future.result() if fault is None else runs.Outcome(None, f"dask: {type(fault).__name__}: {fault}")


def interrupted(*_: Any) -> NoReturn:
    raise KeyboardInterrupt


def main() -> int:
    """Makes the runs of one task of the array, on this node."""
    signal.signal(signal.SIGTERM, interrupted)
    folder, task = pathlib.Path(sys.argv[1]), int(sys.argv[2])
    shares = json.loads((folder / "slurm" / "tasks.json").read_bytes())
    failed = []

    def tell(run: str, outcome: runs.Outcome) -> None:
        print(run, outcome.status, outcome.line, flush=True)
        failed.extend([run] if outcome.status != 0 else [])

    try:
        runs.many(runs.Study.read(folder), shares["runs"][task], shares["jobs"], tell, print)
    except KeyboardInterrupt:
        return 130
    return 1 if failed else 0


if __name__ == "__main__":
    sys.exit(main())
