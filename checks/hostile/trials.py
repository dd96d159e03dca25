"""What is tried of changed files: the runs of each kind of trial, and what is wrong about what came of them."""

from __future__ import annotations

import random
import re
from typing import Callable, NamedTuple, Optional

from .corpus import Corpus, ends_within, is_inside
from .driving import NOT_RUN, SIGNALLED, TIMED_OUT, Job, Ran, Step
from .mutations import mutated
from .record_model import fault_of, line_of, mended
from .report_model import report_of, tables_of
from .toml_model import check_of, watch_of, watches_in

UNMODELLED = re.compile(rb"mosaikrun: (?:run 9: .*|run 1: .* cause 1|limit: \d+ entries)\n", re.DOTALL)
LINES = {
    2: rb"usage: .*",
    3: rb"(?:scenario (?:10|[1-9])|watch [1-7]|connect 8|launch [1-4]): .*|record: line \d+ fault [1-6]",
    4: rb"(?:meta [1-6]|create [1-6]|connect (?:[1-7]|9)|setup): .*",
    5: rb"run (?:[1-35-9]|1[0-2]): .*",
    7: rb"limit: \d+ entries|limit: .* message of \d+ bytes",
}
PATTERNS = {status: re.compile(rb"mosaikrun: (?:" + line + rb")\n", re.DOTALL) for status, line in LINES.items()}
STATUSES = {b"replay": (3, 5, 7), b"migrate": (3, 5, 7), b"watch": (3, 5, 7), b"blame": (3, 5, 7), b"check": (3,)}
STATUSES.update({b"run": (3, 4, 5, 7), b"resume": (3, 4, 5, 7), b"paced": (3, 4, 5, 7)})
SPACE, TIMES, OF_RUN, SOON = 64 << 10, 50, 2 << 20, 20
Files = dict[bytes, bytes]


class Trial(NamedTuple):
    """A kind of trial, files by their names, and what was drawn besides."""

    kind: str
    files: Files
    drawn: int


class Rules(NamedTuple):
    """What the program that is tried does: whether it goes on with cut records."""

    mends: bool


def of_run(step: Step, ran: Ran, files: Files) -> list[str]:
    """Returns what is wrong about a run whatever its files are."""
    word = step.words[0].decode()
    if ran.status == NOT_RUN:
        return []
    if ran.status == TIMED_OUT:
        return [f"{word}: more than 20 seconds"]
    if ran.status >= SIGNALLED:
        return [f"{word}: signal {ran.status - SIGNALLED}"]
    wrong = []
    allowed = OF_RUN if step.words[0] in (b"run", b"resume", b"paced") else SPACE
    size = sum(len(data) for name, data in files.items() if name in step.words)
    if ran.memory > allowed + TIMES * size // 1024:
        wrong.append(f"{word}: memory {ran.memory} KiB of {size} bytes")
    if ran.status == 0:
        return wrong + ([f"{word}: status 0 with a line {ran.err[:99]!r}"] if ran.err else [])
    if ran.status not in STATUSES[step.words[0]]:
        wrong.append(f"{word}: status {ran.status} {ran.err[:99]!r}")
    elif ran.err.count(b"\n") != 1 or b"\r" in ran.err or not PATTERNS[ran.status].fullmatch(ran.err):
        wrong.append(f"{word}: line of status {ran.status} {ran.err[:99]!r}")
    return wrong + ([f"{word}: output beside a fault"] if ran.out else [])


def same(word: str, ran: Ran, status: int, err: bytes, out: Optional[bytes] = None) -> list[str]:
    """Returns what is wrong where a run had to end in just this way."""
    if ran.status == NOT_RUN or (ran.status == status and ran.err == err and out in (None, ran.out)):
        return []
    return [f"{word}: status {ran.status} {ran.err[:99]!r} where {status} {err[:99]!r} was due"]


def as_before(word: str, ran: Ran, before: Ran) -> list[str]:
    """Returns what is wrong where a run had to end as another one did."""
    return same(word, ran, before.status, before.err, before.out)


def report_wrong(record: bytes, ran: Ran) -> list[str]:
    """Returns what is wrong about the report of a right record, by the model of sequential execution.

    The model leaves out in which order messages came, how many entries there may be, and the steps of a version 2.
    """
    report = report_of(record)
    if ran.status == NOT_RUN:
        return []
    if ran.status == 0:
        return [] if ran.out == report else ["model of report: another report"]
    return [f"model of report: {ran.err[:99]!r}"] if report and not UNMODELLED.fullmatch(ran.err) else []


def record_steps(trial: Trial, rules: Rules) -> tuple[Step, ...]:
    replay = Step((b"replay", b"r"))
    order = str((0, 1, 5, 2**32 - 1)[trial.drawn % 4]).encode()
    others: tuple[tuple[Step, ...], ...] = (
        (Step((b"replay", b"--order", order, b"r")),),
        (Step((b"migrate", b"r", b"n"), keep=(b"n", b"n.part")), Step((b"replay", b"n"), 0), Step((b"replay", b"m"))),
        (Step((b"blame", b"r", b"r")),),
        (Step((b"blame", b"r", b"o")),),
        (Step((b"watch", b"r", b"w")),),
    )
    return (replay, *others[trial.drawn // 4 % len(others)])


def record_wrong(trial: Trial, rules: Rules, rans: list[Ran]) -> list[str]:
    fault = fault_of(trial.files[b"r"])
    first, second = rans[0], rans[1]
    if fault:
        wrong = same("model of replay", first, 3, line_of(fault))
    elif first.status == 3:
        wrong = ["model of replay: a fault in a right record"]
    else:
        wrong = report_wrong(trial.files[b"r"], first)
    what = trial.drawn // 4 % 5
    if what == 1:
        return wrong + migrated_wrong(trial, rules, rans)
    if fault:
        return wrong + same("model of another command", second, 3, line_of(fault))
    if what == 0 and first.status == second.status == 0:
        wrong += as_before("order", second, first)
    if what == 0 and b"run 9:" in second.err:
        wrong.append("order: compares")
    if what == 2:
        wrong += same("blame of itself", second, first.status, first.err, b"" if first.status else b"equal\n")
    if what == 4 and first.status in (5, 7) and second.status != 3:
        wrong += as_before("watch", second, first)
    return wrong


def migrated_wrong(trial: Trial, rules: Rules, rans: list[Ran]) -> list[str]:
    """Returns what is wrong about a record that was saved anew, or wasn't."""
    raw = mended(trial.files[b"r"]) if rules.mends else trial.files[b"r"]
    fault = fault_of(raw)
    first, made, again, of_mended = rans
    replayed = of_mended if raw != trial.files[b"r"] else first
    wrong = ["migrate: leaves a part"] if made.files[b"n.part"] is not None else []
    if fault:
        wrong += same("model of migrate", made, 3, line_of(fault))
    elif made.status == 3:
        wrong.append("model of migrate: a fault in a right record")
    elif made.status == 0:
        wrong += as_before("replay of the migrated", again, replayed)
        wrong += ["migrate: what it saved is no record"] if fault_of(made.files[b"n"] or b"") else []
    elif replayed.status == 0 or b"run 8:" in replayed.err:
        wrong.append(f"migrate: status {made.status} where it replays")
    else:
        wrong += as_before("migrate", made, replayed)
    if made.status != 0 and made.files[b"n"] is not None:
        wrong.append("migrate: saves beside a fault")
    return wrong


def pair_steps(trial: Trial, rules: Rules) -> tuple[Step, ...]:
    return (Step((b"blame", b"r", b"o")), Step((b"blame", b"o", b"r")))


def pair_wrong(trial: Trial, rules: Rules, rans: list[Ran]) -> list[str]:
    faults = [fault_of(trial.files[name]) for name in (b"r", b"o")]
    wrong = []
    for ran, order in zip(rans, (faults, faults[::-1])):
        fault = order[0] or order[1]
        if fault:
            wrong += same("model of blame", ran, 3, line_of(fault))
        elif ran.status == 3:
            wrong.append("model of blame: a fault in right records")
    if not any(faults) and (rans[0].status == 0) != (rans[1].status == 0):
        wrong.append("blame: not the same with the records exchanged")
    if rans[0].status == rans[1].status == 0 and rans[0].out.count(b" message ") != rans[1].out.count(b" message "):
        wrong.append("blame: others with the records exchanged")
    return wrong


def watch_steps(trial: Trial, rules: Rules) -> tuple[Step, ...]:
    return (Step((b"replay", b"r")), Step((b"watch", b"r", b"w")))


def watch_wrong(trial: Trial, rules: Rules, rans: list[Ran]) -> list[str]:
    fault = fault_of(trial.files[b"r"])
    if fault:
        return same("model of watch", rans[1], 3, line_of(fault))
    line = watch_of(trial.files[b"r"], trial.files[b"w"])
    if line:
        return same("model of watches", rans[1], 3, line)
    if line == b"" and rans[1].status == 3:
        return [f"model of watches: {rans[1].err[:99]!r} where none was due"]
    if rans[0].status or rans[1].status:
        return as_before("watch", rans[1], rans[0]) if rans[1].status != 3 else []
    if line is None or not report_of(trial.files[b"r"]):
        return []
    tables = tables_of(trial.files[b"r"], watches_in(trial.files[b"w"]))
    return ["model of watches: other tables"] if tables != rans[1].out else []


def scenario_steps(trial: Trial, rules: Rules) -> tuple[Step, ...]:
    check = Step((b"check", b"s"))
    if not is_inside(trial.files[b"s"]):
        return (check,)
    run = Step((b"run", b"s", b"--record", b"q"), keep=(b"q",))
    again = (Step((b"replay", b"q"), 0), Step((b"resume", b"s", b"q", b"--record", b"t"), 0, (b"t",)))
    by_clock = (Step((b"paced", b"s", b"1"), 0),) if ends_within(trial.files[b"s"], SOON) and trial.drawn % 8 == 0 else ()
    return (check, run, *again, *by_clock)


def scenario_wrong(trial: Trial, rules: Rules, rans: list[Ran]) -> list[str]:
    said = check_of(trial.files[b"s"])
    wrong = same("model of check", rans[0], 3 if said[1] else 0, said[1], said[0]) if said else []
    if wrong or len(rans) == 1:
        return wrong
    checked, ran, replayed, resumed, *by_clock = rans
    if checked.status:
        return as_before("run", ran, checked)
    wrong = [f"run: {ran.err[:99]!r} where check has none"] if ran.status == 3 else []
    if ran.status == 0:
        wrong += as_before("replay of a run", replayed, ran) + as_before("resume of a run", resumed, ran)
        wrong += ["resume: saves no record"] if resumed.files[b"t"] is None else []
        wrong += report_wrong(ran.files[b"q"] or b"", ran)
        wrong += [text for paced in by_clock for text in as_before("paced", paced, ran)]
    return wrong


def resume_steps(trial: Trial, rules: Rules) -> tuple[Step, ...]:
    if not is_inside(trial.files[b"s"]):
        return (Step((b"check", b"s")),)
    resume = Step((b"resume", b"s", b"r", b"--record", b"q"), keep=(b"q", b"q.part"))
    return (Step((b"check", b"s")), resume, Step((b"replay", b"q"), 0), Step((b"run", b"s")))


def resume_wrong(trial: Trial, rules: Rules, rans: list[Ran]) -> list[str]:
    if len(rans) == 1:
        return []
    checked, resumed, replayed, ran = rans
    if checked.status:
        return as_before("resume", resumed, checked)
    raw = mended(trial.files[b"r"]) if rules.mends else trial.files[b"r"]
    fault = fault_of(raw)
    wrong = ["resume: leaves a part"] if resumed.files[b"q.part"] is not None else []
    if fault:
        return wrong + same("model of resume", resumed, 3, line_of(fault))
    if resumed.status == 3:
        return wrong + ["model of resume: a fault in a right record"]
    if resumed.status == 0:
        wrong += as_before("replay of the resumed", replayed, resumed) + as_before("run of the resumed", ran, resumed)
    saved = resumed.files[b"q"]
    return wrong + (["resume: what it saved is no record"] if saved is not None and fault_of(saved) else [])


class Kind(NamedTuple):
    """The runs of a kind of trial, and what is wrong about what came of them."""

    steps: Callable[[Trial, Rules], tuple[Step, ...]]
    wrong: Callable[[Trial, Rules, list[Ran]], list[str]]


KINDS = {
    "record": Kind(record_steps, record_wrong),
    "pair": Kind(pair_steps, pair_wrong),
    "watch": Kind(watch_steps, watch_wrong),
    "scenario": Kind(scenario_steps, scenario_wrong),
    "resume": Kind(resume_steps, resume_wrong),
}
WEIGHTS = {"record": 50, "pair": 12, "watch": 8, "scenario": 18, "resume": 12}
DRAWN = [kind for kind, weight in WEIGHTS.items() for _ in range(weight)]


def job_of(trial: Trial, rules: Rules) -> Job:
    """Returns the files and runs of a trial."""
    files = dict(trial.files)
    if trial.kind == "record":
        files[b"m"] = mended(files[b"r"])
    return Job(files, KINDS[trial.kind].steps(trial, rules))


def wrong_of(trial: Trial, rules: Rules, job: Job, rans: list[Ran]) -> list[str]:
    """Returns what is wrong about what came of a trial."""
    found = [it for step, ran in zip(job.steps, rans) for it in of_run(step, ran, job.files)]
    return found or KINDS[trial.kind].wrong(trial, rules, rans)


def drawn(rng: random.Random, corpus: Corpus) -> Trial:
    """Returns a trial of changed files."""
    kind = rng.choice(DRAWN)
    number = rng.randrange(1 << 30)
    record, other = rng.choice(corpus.records), rng.choice(corpus.records)
    if kind == "record":
        watches = rng.choice(corpus.watched)[1]
        return Trial(kind, {b"r": mutated(rng, record, other), b"o": record, b"w": watches}, number)
    if kind == "pair":
        first, second = rng.choice(corpus.pairs) if rng.random() < 0.5 else (record, record)
        second = mutated(rng, second, other) if rng.random() < 0.8 else second
        first = mutated(rng, first, other) if rng.random() < 0.3 else first
        return Trial(kind, {b"r": first, b"o": second}, number)
    if kind == "watch":
        first, second = rng.choice(corpus.watched)
        return Trial(kind, {b"r": first, b"w": mutated(rng, second, rng.choice(corpus.watches))}, number)
    scenario = rng.choice(corpus.scenarios)
    if kind == "scenario":
        return Trial(kind, {b"s": mutated(rng, scenario, rng.choice(corpus.scenarios))}, number)
    first, second = rng.choice(corpus.resumed)
    first = mutated(rng, first, scenario) if rng.random() < 0.2 else first
    return Trial(kind, {b"s": first, b"r": mutated(rng, second, other)}, number)
