"""Tries changed files by every command on files, in several processes, and tells what is wrong."""

from __future__ import annotations

import collections
import multiprocessing
import pathlib
import random
import time
from typing import NamedTuple

from .corpus import Corpus
from .driving import NOT_RUN, Driver, Job, Step, driver_of
from .shrinking import as_cases, complaint, shrunk
from .trials import Rules, Trial, drawn, job_of, wrong_of

CHECKS = pathlib.Path(__file__).resolve().parents[1]
CUT = b'mosaikrun 1\nrun [1,1,9]\nsim ["A-0","time-based",3,0,[]]\ngot [0,[1,3,1]]\nask'
SHOWN = 5


class Share(NamedTuple):
    """What one process tries."""

    program: str
    count: int
    seed: str


class Told(NamedTuple):
    """What one process saw: how many runs, the statuses of each command, and what was wrong."""

    inputs: int
    runs: int
    statuses: dict
    wrong: int
    texts: list


def rules_of(driver: Driver) -> Rules:
    """Finds out whether the program goes on with cut records, by trying once."""
    (ran,) = driver.run(Job({b"r": CUT}, (Step((b"migrate", b"r", b"n")),)))
    return Rules(ran.status == 0)


def explained(driver: Driver, rules: Rules, trial: Trial, found: list[str]) -> str:
    """Returns what is wrong about a trial, and its least form."""
    trial = shrunk(driver, rules, trial, found[0])
    return "\n".join([f"{trial.kind} {trial.drawn}: {found[0]}", *as_cases(driver, rules, trial)])


def tried(share: Share) -> Told:
    """Tries a share of the inputs."""
    driver = driver_of(share.program)
    corpus = Corpus(CHECKS)
    corpus.record(driver)
    rules = rules_of(driver)
    rng = random.Random(share.seed)
    statuses: collections.Counter = collections.Counter()
    kinds: collections.Counter = collections.Counter()
    texts = []
    for _ in range(share.count):
        trial = drawn(rng, corpus)
        job = job_of(trial, rules)
        rans = driver.run(job)
        statuses.update((step.words[0].decode(), ran.status) for step, ran in zip(job.steps, rans) if ran.status != NOT_RUN)
        found = wrong_of(trial, rules, job, rans)
        if found:
            kinds[complaint(found[0])] += 1
            if kinds[complaint(found[0])] == 1 and len(kinds) <= SHOWN:
                texts.append(explained(driver, rules, trial, found))
    runs = driver.runs
    driver.close()
    return Told(share.count, runs, dict(statuses), sum(kinds.values()), texts)


def try_all(program: str, count: int, seed: int, jobs: int) -> tuple[int, int]:
    """Tries so many inputs; returns how many were right, and how many weren't."""
    begun = time.monotonic()
    sizes = [count // jobs + (place < count % jobs) for place in range(jobs)]
    shares = [Share(program, size, f"{seed}:{place}") for place, size in enumerate(sizes)]
    with multiprocessing.Pool(jobs) as pool:
        told = pool.map(tried, shares, chunksize=1)
    seconds = time.monotonic() - begun
    statuses: collections.Counter = collections.Counter()
    for some in told:
        statuses.update(some.statuses)
        for text in some.texts:
            print(text)
    print("statuses:", ", ".join(f"{word} {status}: {times}" for (word, status), times in sorted(statuses.items())))
    runs, wrong = sum(some.runs for some in told), sum(some.wrong for some in told)
    print(f"inputs: {count} of seed {seed}, {runs} runs, {wrong} wrong, {seconds:.0f} s, {count / seconds:.0f} a second")
    return count - wrong, wrong
