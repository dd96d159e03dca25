"""Makes CSV of records and reports: the command mosaikrun-csv, or `python3 -m mosaikrun.tables`.

    mosaikrun-csv [FILE]               a table of a report, or of a record, in FILE or standard input
    mosaikrun-csv --steps [RECORD]     a table of a record's steps
    mosaikrun-csv --inputs RECORD      a table of what a record's simulators were sent: `mosaikrun replay` is called

A report's table has a row for each value that a simulator was sent in a step: time, round, target, input, source,
value. `--inputs` makes the same of a record.

A record's table has a row for each value that a simulator gave and a connection takes: time, round, entity, attribute,
value. The time is that of the making: the output time where the simulator gave a later one, else its step's. Its table
of steps has a row for each: time, round, simulator, max_advance, and the time of the next step that was answered.

A number or a text stands as it is, any other value as JSON. A line that can't be read is left out. What is missing is
said on standard error, and the status is 1; it is 2 where the words or the file are wrong. A record of version 1 has no
times, so those columns are empty; `mosaikrun migrate OLD NEW` makes version 2 of it.
"""
from __future__ import annotations

import csv
import itertools
import json
import signal
import subprocess
import sys
from typing import Any, BinaryIO, Dict, Iterable, Iterator, List, Optional, TextIO

from mosaikrun import program
from mosaikrun.record import UNREADABLE, Ask, Message, RecordReader, ReportReader, Step

INPUTS = ["time", "round", "target", "input", "source", "value"]
STEPS = ["time", "round", "simulator", "max_advance", "next"]
VALUES = ["time", "round", "entity", "attribute", "value"]


def cell(value: Any) -> Any:
    """What stands in a table for this value."""
    plain = isinstance(value, (int, str)) and not isinstance(value, bool)
    return value if plain else json.dumps(value, separators=(",", ":"), ensure_ascii=False)


def is_whole(value: Any) -> bool:
    """Whether all numbers in this value are whole; a record has 0.5 for each that isn't."""
    inner = value.values() if isinstance(value, dict) else value if isinstance(value, list) else []
    return not isinstance(value, float) and all(map(is_whole, inner))


def report_table(report: Iterable[bytes], out: TextIO) -> List[str]:
    """Writes the table of this report, and gives what is missing."""
    writer = csv.writer(out, lineterminator="\n")
    writer.writerow(INPUTS)
    reader = ReportReader(report)
    for simulator, item in reader:
        if isinstance(item, Step):
            for eid, attributes in item.inputs.items():
                for attribute, values in attributes.items():
                    for source, value in values.items():
                        writer.writerow([item.time, item.tier, f"{simulator}.{eid}", attribute, source, cell(value)])
    return reader.missing


def value_rows(reader: RecordReader, message: Message) -> Iterator[List[Any]]:
    """The rows of the values that some connection takes."""
    if message.kind != "reply" or message.answers != "data":
        return
    time, tier = ("" if number is None else number for number in message.output_time())
    for eid, attribute, value in message.outputs():
        if (eid, attribute) in reader.taken[message.simulator]:
            entity = f"{message.simulator}.{eid}"
            if not is_whole(value):
                raise FractionFound(f"{attribute} of {entity} has a number that isn't whole")
            yield [time, tier, entity, attribute, cell(value)]


class FractionFound(Exception):
    """A record has no value here, since it wasn't whole."""


class StepTable:
    """The rows of a record's steps; a step's `next` is known when it is answered."""

    def __init__(self) -> None:
        self.rows: List[List[Any]] = []
        self._last: Dict[str, List[Any]] = {}

    def add(self, entry: Any) -> None:
        """Adds what this entry says."""
        if isinstance(entry, Ask):
            self._last[entry.simulator] = [entry.time, entry.tier, entry.simulator, entry.max_advance, ""]
            self.rows.append(self._last[entry.simulator])
        elif entry.kind == "reply" and entry.answers == "step" and entry.step is not None:
            self._last[entry.simulator][4] = "" if entry.content is None else entry.content


def record_table(record: Iterable[bytes], steps: bool, out: TextIO) -> List[str]:
    """Writes the table of this record's values or steps, and gives what is missing; NoRecord where it is none."""
    reader, table = RecordReader(record), StepTable()
    writer = csv.writer(out, lineterminator="\n")
    writer.writerow(STEPS if steps else VALUES)
    for entry in reader:
        table.add(entry)
        if not isinstance(entry, Message):
            continue
        try:
            if entry.kind == "failure" and entry.answers:
                reader.missing.append(f"line {reader.line}: {entry.simulator} failed: {entry.content}")
            rows = list(value_rows(reader, entry))
            if not steps:
                writer.writerows(rows)
        except FractionFound as fault:
            reader.missing.append(f"line {reader.line}: {fault}")
        except UNREADABLE:
            reader.missing.append(f"line {reader.line} is cut, or is none of a record: left out")
    writer.writerows(table.rows if steps else [])
    missing = reader.missing
    for step in reader.unfinished():
        missing.append(f"{step.simulator} has a step at {step.time}:{step.tier} that isn't at its end")
    if reader.plan.version == 1:
        missing.append("version 1 has no times and no steps: mosaikrun migrate OLD NEW makes version 2 of it")
    return missing + reader.ending()


def any_table(file: BinaryIO, out: TextIO) -> List[str]:
    """Writes the table of a record's values, or of a report, whichever this is, and gives what is missing."""
    first = file.readline()
    lines = itertools.chain([first] if first else [], file)
    return record_table(lines, False, out) if first.startswith(b"mosaikrun ") else report_table(lines, out)


def told(name: str, missing: List[str]) -> int:
    """Says on standard error what is missing, and gives the status."""
    for line in missing[:10]:
        print(f"{name}: {line}", file=sys.stderr)
    if len(missing) > 10:
        print(f"{name}: and {len(missing) - 10} more", file=sys.stderr)
    return 1 if missing else 0


def quiet_pipe() -> None:
    """A reader that wants no more ends the command, as `head` does."""
    if hasattr(signal, "SIGPIPE"):
        signal.signal(signal.SIGPIPE, signal.SIG_DFL)


def report_main(doc: Optional[str]) -> int:
    """What `examples/report_csv.py` does."""
    quiet_pipe()
    if len(sys.argv) > 2 or sys.argv[1:2] in (["-h"], ["--help"]):
        print(doc, file=sys.stderr)
        return 2
    if len(sys.argv) == 2:
        with open(sys.argv[1], "rb") as report:
            return told("report_csv.py", report_table(report, sys.stdout))
    return told("report_csv.py", report_table(sys.stdin.buffer, sys.stdout))


def record_main(doc: Optional[str]) -> int:
    """What `examples/record_csv.py` does."""
    quiet_pipe()
    words = [word for word in sys.argv[1:] if word != "--steps"]
    if len(words) != 1 or words[0].startswith("-"):
        print(doc, file=sys.stderr)
        return 2
    try:
        with open(words[0], "rb") as file:
            missing = record_table(file, "--steps" in sys.argv, sys.stdout)
    except (OSError, ValueError) as fault:
        print(f"record_csv.py: {fault}", file=sys.stderr)
        return 2
    return told("record_csv.py", missing)


def inputs_table(record: str, out: TextIO) -> List[str]:
    """Writes the table of what this record's simulators were sent, and gives what is missing."""
    call = [program.find(), "replay", record]
    with subprocess.Popen(call, stdout=subprocess.PIPE) as replay:
        assert replay.stdout is not None
        missing = report_table(replay.stdout, out)
    return missing + ([f"mosaikrun replay ended with status {replay.returncode}"] if replay.returncode else [])


def main() -> int:
    """Makes the table that the words ask for, and says what is missing."""
    quiet_pipe()
    words = sys.argv[1:]
    if words in (["-h"], ["--help"]):
        print(__doc__)
        return 0
    options = [word for word in words if word in ("--steps", "--inputs")]
    names = [word for word in words if word not in options]
    wrong = any(name.startswith("-") for name in names) or len(options) > 1 or len(names) > 1
    if wrong or (options == ["--inputs"] and not names):
        print(__doc__, file=sys.stderr)
        return 2
    try:
        if options == ["--inputs"]:
            return told("mosaikrun-csv", inputs_table(names[0], sys.stdout))
        with open(names[0], "rb") if names else sys.stdin.buffer as file:
            missing = record_table(file, True, sys.stdout) if options else any_table(file, sys.stdout)
    except (OSError, ValueError, program.ProgramMissing) as fault:
        print(f"mosaikrun-csv: {fault}", file=sys.stderr)
        return 2
    return told("mosaikrun-csv", missing)


if __name__ == "__main__":
    sys.exit(main())
