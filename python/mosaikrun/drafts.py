"""Drafts: what a run that is killed leaves of its record, beside the record's file.

The program begins a draft under the first free name of `FILE.part`, `FILE.part2` and so on up to `FILE.part100`, and
removes it once the record is saved. So a draft may be gone at any moment.
"""

from __future__ import annotations

import contextlib
import os
import pathlib
import re
import stat
from typing import List, Optional

NAME = re.compile(r"\.part([2-9]|[1-9][0-9]|100)?")
ENTRIES = (b"ask ", b"got ")


def is_whole(record: pathlib.Path) -> bool:
    """Whether the file is there and has its last line."""
    with contextlib.suppress(OSError), record.open("rb") as file:
        file.seek(max(0, file.seek(0, os.SEEK_END) - 32))
        return re.search(rb"\nend [0-9]+\n\Z", file.read()) is not None
    return False


def length(file: pathlib.Path) -> int:
    """How many bytes a file has; -1 where it isn't there, or is no file."""
    with contextlib.suppress(OSError):
        found = file.stat()
        return found.st_size if stat.S_ISREG(found.st_mode) else -1
    return -1


def beside(record: pathlib.Path) -> List[pathlib.Path]:
    """The drafts beside a record, the longest first: a run that continues from a draft begins with all of it."""
    named = [file for file in record.parent.glob("*.part*") if file.name.startswith(record.name)]
    found = [(length(file), file) for file in named if NAME.fullmatch(file.name[len(record.name) :])]
    return [file for size, file in sorted(found, reverse=True) if size >= 0]


def has_entry(draft: pathlib.Path) -> bool:
    """Whether a draft has a whole line of an entry, so that a run can continue from it."""
    with contextlib.suppress(OSError), draft.open("rb") as lines:
        return any(line.startswith(ENTRIES) and line.endswith(b"\n") for line in lines)
    return False


def to_continue(record: pathlib.Path) -> Optional[pathlib.Path]:
    """The longest draft that has an entry, where it is longer than a whole record."""
    least = length(record) if is_whole(record) else -1
    return next((draft for draft in beside(record) if length(draft) > least and has_entry(draft)), None)


def remove_all(record: pathlib.Path) -> None:
    """Removes the drafts beside a record, once that has all that they have."""
    for draft in beside(record):
        draft.unlink(missing_ok=True)


def set_aside(record: pathlib.Path) -> None:
    """Keeps the longest of a record and its drafts as `FILE.old`, before the run is made again from its start."""
    rests = ([record] if record.exists() else []) + [draft for draft in beside(record) if has_entry(draft)]
    if rests:
        max(rests, key=length).replace(record.with_name(f"{record.name}.old"))
    for rest in [*rests, *beside(record)]:
        rest.unlink(missing_ok=True)
