"""What goes wrong: the exceptions of this package, and where the documents say why."""

from __future__ import annotations

import pathlib
from typing import Optional

from mosaikrun import messages

PAGE = "docs/from-mosaik.md"


class ScenarioError(Exception):
    """The scenario can't be built as it is written; mosaik's exception of this name."""


class SimulationError(Exception):
    """A simulator or the run failed; mosaik's exception of this name."""


class ProgramMissing(Exception):
    """The program mosaikrun isn't there."""


class RunError(ScenarioError, SimulationError):
    """The program ended with a status that isn't 0.

    `line` is what it said, `status` how it ended, `paragraph` what docs/messages.md says of the line, and `hint` what
    else is known. `record` is the record of the run where one was saved, else its draft where that has an entry.
    """

    def __init__(
        self, line: str, status: int, record: Optional[pathlib.Path] = None, hint: str = "", scenario: str = ""
    ) -> None:
        found = messages.explanation(line, status)
        self.line, self.status, self.record, self.hint = line, status, record, hint
        self.paragraph = found.text if found else ""
        parts = [f"{line} (status {status})", hint, found.short if found else ""]
        if record:
            parts.append(f"The record of the run until then: {record}")
        if scenario:
            parts.append(scenario)
        super().__init__("\n  ".join(part.replace("\n", "\n  ") for part in parts if part))


def why(heading: str) -> str:
    """Where the documents say why something can't be had."""
    return f'See {PAGE}, "{heading}".'


def refused(what: str, heading: str) -> ScenarioError:
    """An error for what the program can't do; nothing is started after it."""
    return ScenarioError(f"{what}. {why(heading)}")
