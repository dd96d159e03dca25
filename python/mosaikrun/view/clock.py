"""The clock of a run's steps for the page, from what simulators noted beside its record (`mosaikrun.steptimes`).

A record has no clock, also one of a run by `paced`. So steps stand on a clock where simulators noted when they began
and ended, and nowhere else.
"""

from __future__ import annotations

import math
import os
from typing import Any, Dict, List, Optional

from mosaikrun import steptimes
from mosaikrun.steptimes import StepTime
from mosaikrun.view.gather import Gathering, packed


def folder_for(record: str, named: Optional[str]) -> Optional[str]:
    """The folder with the notes: the one that was named, or the record's name and `.times` where that is there."""
    beside = os.fspath(steptimes.folder_of(record))
    return named or (beside if os.path.isdir(beside) else None)


def add_clock(gathering: Gathering, shown: Dict[str, Any], folder: str) -> List[str]:
    """Adds to the turns of a page when each began and ended, in milliseconds since the first; says which notes don't fit."""
    noted, misfits = steptimes.read(folder), []
    columns = gathering.turns.columns
    begin, end = ([math.nan] * len(columns["time"]) for _ in range(2))
    turns: Dict[str, List[int]] = {sim.id: [] for sim in gathering.reader.plan.simulators}
    names = list(turns)
    for turn, number in enumerate(columns["simulator"]):
        turns[names[number]].append(turn)
    fitting: Dict[str, List[StepTime]] = {}
    for name, steps in noted.items():
        mine = turns.get(name, [])[: len(steps)]
        if [columns["time"][turn] for turn in mine] == [step.time for step in steps]:
            fitting[name] = steps
        else:
            misfits.append(f"{os.path.join(folder, name)}: these are the steps of another run; left out")
    first = min((steps[0].begin for steps in fitting.values() if steps), default=0.0)
    for name, steps in fitting.items():
        for turn, step in zip(turns[name], steps):
            begin[turn], end[turn] = (round((moment - first) * 1000, 3) for moment in (step.begin, step.end))
    if any(fitting.values()):
        shown["turns"].update(begin=packed(begin), end=packed(end))
    return misfits
