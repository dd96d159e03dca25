"""Parameter studies: makes a scenario of each combination of values, runs them all, and gathers one table.

`python3 -m mosaikrun.sweep SCENARIO --set PATH=VALUE,VALUE,.. --out DIR` runs them on this machine, with `--slurm` on a
cluster, with `--dask ADDRESS` by dask.distributed. Called again it goes on where it was stopped. docs/many-runs.md is its
page. The status is 0 where all runs ended with 0, 1 where one didn't, 2 where the words are wrong, and 130 after
Ctrl-C.
"""

from __future__ import annotations

import argparse
import contextlib
import csv
import fcntl
import io
import itertools
import os
import pathlib
import signal
import subprocess
import sys
from typing import Any, Iterator, List, NoReturn, Optional, Tuple

from mosaikrun import cluster, paths, program, runs
from mosaikrun.errors import ProgramMissing

MOST = 1_000_000
UNWATCHED = "no table of its watches: look into its log.txt"
RULES = ("sum", "least", "greatest", "last")
Rows = List[Tuple[str, List[str]]]  # the name of each run, with the values that are set in it


class Refused(Exception):
    """The sweep can't be made; the text says why."""


class Sweep:
    """The runs of a sweep: each combination of values with the scenario that it makes."""

    def __init__(self, scenario: pathlib.Path, words: list[str]) -> None:
        try:
            self.text = scenario.read_bytes().decode("utf-8-sig")
            self.top = paths.read(self.text)
            self.choices = [paths.choice(word) for word in words]
            self.places = paths.spans(self.text, self.choices)
        except (OSError, UnicodeDecodeError) as fault:
            raise Refused(f"{scenario}: {getattr(fault, 'strerror', None) or fault}") from None
        except paths.PathError as fault:
            raise Refused(str(fault)) from None
        count = 1
        for choice in self.choices:
            count *= len(choice.written)
        if count > MOST:
            raise Refused(f"{count} runs, limit {MOST}")

    def combinations(self) -> Iterator[tuple[list[str], str]]:
        """What stands in the table for each combination, and its scenario."""
        shown = itertools.product(*(choice.shown for choice in self.choices))
        written = itertools.product(*(choice.written for choice in self.choices))
        for row, values in zip(shown, written):
            yield list(row), paths.edited(self.text, self.places, values)

    def trials(self) -> Iterator[tuple[str, str]]:
        """What is set, and its scenario, so that each value is tried where it is set, the others being at their first.

        What whole numbers may stand at a place is an interval, so of these the least and the greatest are tried.
        """
        first = [choice.written[0] for choice in self.choices]
        for place, choice in enumerate(self.choices):
            whole = sorted((value for value in choice.written if value.lstrip("-").isdigit()), key=int)
            odd = [value for value in choice.written if not value.lstrip("-").isdigit()]
            for value in dict.fromkeys([*whole[:1], *whole[-1:], *odd]):
                values = [*first[:place], value, *first[place + 1 :]]
                said = " ".join(f"{one.path}={its}" for one, its in zip(self.choices, values))
                yield said, paths.edited(self.text, self.places, values)

    def simulators(self, way: str) -> list[str]:
        """The names of the simulators that are reached in this way: `command`, `connect` or `local`."""
        tables = paths.bare(self.top["sim"]) if "sim" in self.top else []
        return [str(table.get("name")) for table in tables if way in table]


def check(found: str, file: pathlib.Path, said: str) -> None:
    """Refuses a scenario that the program refuses."""
    done = subprocess.run([found, "check", str(file)], capture_output=True, text=True, errors="replace", check=False)
    if done.returncode:
        raise Refused(f"{said}{program.line_of(done.stderr, done.returncode)}")


def watches(file: Optional[pathlib.Path]) -> tuple[str, list[str]]:
    """The text of the file of watches, and the titles of their columns."""
    if file is None:
        return "", []
    try:
        text = file.read_bytes().decode("utf-8-sig")
        top = {key: paths.bare(value) for key, value in paths.read(text).items()}
    except (OSError, UnicodeDecodeError, paths.PathError) as fault:
        raise Refused(f"{file}: {getattr(fault, 'strerror', None) or fault}") from None
    tables = top.get("watch")
    if not isinstance(tables, list) or not tables:
        raise Refused(f"{file}: there is no [[watch]]")
    for place, table in enumerate(tables):
        for key in ("entity", "attr", "rule"):
            if not isinstance(table, dict) or type(table.get(key)) is not str:
                raise Refused(f"{file}: watch[{place}].{key} isn't there, or is no text")
        if table["rule"] not in RULES:
            raise Refused(f"{file}: watch[{place}].rule is {table['rule']}, and the rules are {', '.join(RULES)}")
    return text, [f"{table['entity']} {table['attr']} {table['rule']}" for table in tables]


def totals(file: pathlib.Path, count: int) -> list[str]:
    """What each watch has in all, empty where it has no row or wasn't made."""
    found: list[str] = []
    with contextlib.suppress(FileNotFoundError), file.open(encoding="utf-8") as table:
        for line in table:
            words = line.split()
            if words[:1] == ["rows"]:
                found.append(words[3] if len(words) == 4 else "")
    return (found + [""] * count)[:count]


def prepared(study: runs.Study, sweep: Sweep, text: str) -> Rows:
    """Makes the folders of all runs, and gives their names with their values."""
    rows = []
    for values, scenario in sweep.combinations():
        run = runs.name_of(scenario)
        folder = study.of(run)
        folder.mkdir(parents=True, exist_ok=True)
        file = folder / "scenario.toml"
        if not file.exists():
            runs.written(file, scenario)
        elif file.read_bytes() != scenario.encode():
            raise Refused(f"{file} was changed: remove its folder, and it is run again")
        rows.append((run, values))
    kept = study.watches.read_text(encoding="utf-8") if study.watches.exists() else ""
    if kept != text:
        for run, _ in rows:
            (study.of(run) / "watched.txt").unlink(missing_ok=True)
        runs.written(study.watches, text)
    study.save()
    return rows


def gather(study: runs.Study, sweep: Sweep, rows: Rows, titles: list[str]) -> int:
    """Writes the table of all runs; answers how many didn't end with 0, or have no values."""
    left, out = 0, io.StringIO()
    table = csv.writer(out, lineterminator="\n")
    table.writerow(["run", *(choice.path for choice in sweep.choices), "status", "line", *titles])
    for run, values in rows:
        outcome = runs.outcome_of(study.of(run)) or runs.Outcome(None, runs.NOT_RUN)
        is_done = runs.is_done(study, run)
        status = "" if outcome.status is None else outcome.status
        line = outcome.line or ("" if is_done else UNWATCHED)
        table.writerow([run, *values, status, line, *totals(study.of(run) / "watched.txt", len(titles))])
        left += not is_done
    runs.written(study.folder / "table.csv", out.getvalue())
    return left


class Teller:
    """Says on standard error how far the sweep is, and which runs failed."""

    def __init__(self, rows: Rows, sweep: Sweep, todo: int) -> None:
        self.values, self.todo, self.done, self.failed = dict(rows), todo, 0, 0
        self.names = [choice.path for choice in sweep.choices]
        self.is_terminal = sys.stderr.isatty()

    def __call__(self, run: str, outcome: runs.Outcome) -> None:
        self.done += 1
        if outcome.status != 0:
            self.failed += 1
            set_to = (f"{name}={value}" for name, value in zip(self.names, self.values[run]))
            say(f"{' '.join([run, *set_to])}: {outcome.line}")
        if self.is_terminal:
            end = "\n" if self.done == self.todo else "\r"
            print(f"\x1b[K{self.done} of {self.todo} runs, {self.failed} failed", end=end, file=sys.stderr, flush=True)


def say(line: str) -> None:
    """Says a line, in place of how far the sweep is where that stands on a terminal."""
    cleared = "\x1b[K" if sys.stderr.isatty() else ""
    print(f"{cleared}mosaikrun.sweep: {line}", file=sys.stderr, flush=True)


def parser() -> argparse.ArgumentParser:
    """The words of the command."""
    words = argparse.ArgumentParser(
        "python3 -m mosaikrun.sweep", description="Runs a scenario for each combination of values.", allow_abbrev=False
    )
    add = words.add_argument
    add("scenario", type=pathlib.Path, metavar="SCENARIO")
    add("--set", action="append", default=[], dest="sets", metavar="PATH=VALUE,..", help="what a value is set to")
    add("--out", type=pathlib.Path, required=True, metavar="DIR", help="where the sweep is kept")
    add("--jobs", type=int, metavar="N", help="runs side by side, on each machine; default: its processors")
    add("--watch", type=pathlib.Path, metavar="FILE", help="watches whose values come into the table")
    add("--slurm", action="store_true", help="run as a job array of Slurm")
    add("--tasks", type=int, metavar="N", help="with --slurm: tasks of the array at most; default: as all runs at once need")
    add("--sbatch", action="append", default=[], metavar="OPTION", help="an option of sbatch, as --sbatch=--time=60")
    add("--no-wait", action="store_true", help="with --slurm: come back once the jobs are submitted")
    add("--dask", metavar="ADDRESS", help="run by dask.distributed, its scheduler at this address")
    return words


def asked(words: argparse.Namespace, sweep: Sweep) -> int:
    """How many runs go side by side; words that don't go together are refused."""
    if words.slurm and words.dask:
        raise Refused("--slurm and --dask can't both be: one of them")
    if (words.sbatch or words.no_wait or words.tasks is not None) and not words.slurm:
        raise Refused("--sbatch, --tasks and --no-wait go with --slurm")
    if words.tasks is not None and words.tasks < 1:
        raise Refused(f"--tasks {words.tasks}: from 1")
    if words.jobs is not None and not 1 <= words.jobs <= 1000:
        raise Refused(f"--jobs {words.jobs}: from 1 to 1000")
    reached = sweep.simulators("connect")
    if reached and (words.slurm or words.dask or (words.jobs or 1) > 1):
        raise Refused(f"{reached[0]} is reached by connect, so it serves one run at a time: --jobs 1, on this machine")
    return 1 if reached else words.jobs or len(os.sched_getaffinity(0))


def ran(words: argparse.Namespace, study: runs.Study, todo: list[str], jobs: int, tell: Teller) -> Optional[str]:
    """Makes these runs in the way that was asked for; gives what is still to come, where it isn't waited for."""
    if words.slurm:
        wanted = cluster.Wanted(jobs, words.tasks or len(todo), words.sbatch, words.no_wait)
        return cluster.by_slurm(study, todo, wanted, say)
    if words.dask and todo:
        cluster.by_dask(study, todo, words.dask, tell)
    elif todo:
        runs.many(study, todo, jobs, tell, say)
    return None


@contextlib.contextmanager
def alone(folder: pathlib.Path) -> Iterator[None]:
    """Refuses a second sweep in one folder."""
    with (folder / "lock").open("w", encoding="ascii") as lock:
        try:
            fcntl.flock(lock, fcntl.LOCK_EX | fcntl.LOCK_NB)
        except BlockingIOError:
            raise Refused(f"another sweep is at work in {folder}") from None
        except OSError:
            # some shared file systems have no locks
            pass
        yield


def swept(words: argparse.Namespace) -> int:
    """Makes the sweep; the status."""
    found = program.find()
    check(found, words.scenario, "")
    sweep = Sweep(words.scenario, words.sets)
    text, titles = watches(words.watch)
    jobs = asked(words, sweep)
    folder = words.out.absolute()
    folder.mkdir(parents=True, exist_ok=True)
    with alone(folder):
        if not words.slurm and (job := cluster.job_of(folder)):
            raise Refused(f"job {job} still makes runs in {folder}: with --slurm it is waited for")
        trial = folder / "trial.toml"
        for said, scenario in sweep.trials():
            trial.write_bytes(scenario.encode())
            check(found, trial, f"{said}: ")
        trial.unlink(missing_ok=True)
        study = runs.Study(found, folder, os.getcwd(), bool(titles), bool(sweep.simulators("command")))
        return finished(words, study, sweep, prepared(study, sweep, text), titles, jobs)


def finished(
    words: argparse.Namespace, study: runs.Study, sweep: Sweep, rows: Rows, titles: list[str], jobs: int
) -> int:
    """Makes what is missing of these runs, and gathers the table; the status."""
    todo = [run for run, _ in rows if not runs.is_done(study, run)]
    say(f"{len(rows)} runs, {len(rows) - len(todo)} of them done before")
    still, is_stopped = None, False
    try:
        still = ran(words, study, todo, jobs, Teller(rows, sweep, len(todo)))
    except KeyboardInterrupt:
        is_stopped = True
    finally:
        left = gather(study, sweep, rows, titles)
    ending = still or (f"{left} of {len(rows)} runs failed or weren't made" if left else "")
    ending = "stopped; the same command goes on" if is_stopped else ending
    say(f"{study.folder / 'table.csv'}{': ' if ending else ''}{ending}")
    return 130 if is_stopped else 1 if left and not still else 0


def interrupted(*_: Any) -> NoReturn:
    raise KeyboardInterrupt


def main(argv: Optional[list[str]] = None) -> int:
    """Reads the words and makes the sweep."""
    for number in (signal.SIGTERM, signal.SIGHUP):
        # nohup has a closed terminal ignored
        if signal.getsignal(number) != signal.SIG_IGN:
            signal.signal(number, interrupted)
    try:
        return swept(parser().parse_args(argv))
    except (Refused, ProgramMissing, cluster.Missing) as fault:
        say(str(fault))
    except OSError as fault:
        say(f"{fault.filename or ''}: {fault.strerror or fault}")
    except KeyboardInterrupt:
        return 130
    return 2


if __name__ == "__main__":
    sys.exit(main())
