"""Makes a page of a record, or of two: `python -m mosaikrun.view RECORD [SECOND] [-o page.html]`."""

from __future__ import annotations

import argparse
import os
import sys
from typing import Any, Dict, List, Optional

from mosaikrun.errors import ProgramMissing
from mosaikrun.view.clock import add_clock, folder_for
from mosaikrun.view.gather import Gathering
from mosaikrun.view.page import page
from mosaikrun.view.trouble import Refused, compared, gathered

# a page of more would be too much for a browser
LIMIT = 256 * 1024 * 1024


def arguments(words: Optional[List[str]]) -> argparse.Namespace:
    """The words of the command line."""
    parser = argparse.ArgumentParser(
        prog="python -m mosaikrun.view",
        description="Makes one HTML page of a record that `mosaikrun run SCENARIO --record FILE` saved: the graph of "
        "simulators, their steps, all values over time, and what went wrong. It needs no network. Of two records of "
        "one plan it also shows who answered differently.",
    )
    parser.add_argument("record", metavar="RECORD", help="the record")
    parser.add_argument("second", metavar="SECOND", nargs="?", help="another record of the same plan, to compare")
    parser.add_argument("-o", "--output", metavar="FILE", help="the page; default: the record's name and .html")
    parser.add_argument(
        "--times",
        metavar="FOLDER",
        help="where the record's simulators noted when their steps began and ended; default: the record's name and "
        ".times, where that is there",
    )
    parser.add_argument(
        "--limit", metavar="BYTES", type=int, default=LIMIT, help="refuse longer records; default %(default)s"
    )
    return parser.parse_args(words)


def look_at(path: str, limit: int) -> None:
    """Refuses what is no file, or too long for a page."""
    try:
        size = os.stat(path).st_size
    except OSError as fault:
        raise Refused(f"{path}: {fault.strerror}") from None
    if not os.path.isfile(path):
        raise Refused(f"{path}: this is no file")
    if size > limit:
        raise Refused(
            f"{path}: {size:,} bytes, and a page is made of at most {limit:,}. Make a table of what you need: "
            "`mosaikrun watch RECORD SPEC` for some attributes, `python -m mosaikrun.tables RECORD` for all, in CSV"
        )


def make(first: str, second: Optional[str], limit: int, times: Optional[str] = None) -> Dict[str, Any]:
    """The data of the page."""
    paths = [path for path in (first, second) if path is not None]
    for path in paths:
        look_at(path, limit)
    found = [gathered(path) for path in paths]
    data: Dict[str, Any] = {"records": [shown for _, shown in found]}
    add_times(data, found[0][0], first, times)
    if second is not None:
        data["blame"] = compared(first, second, [gathering for gathering, _ in found])
    return data


def add_times(data: Dict[str, Any], gathering: Gathering, record: str, folder: Optional[str]) -> None:
    """Adds when the steps of the first record began and ended, where that was noted; says which notes don't fit."""
    if folder and not os.path.isdir(folder):
        raise Refused(f"{folder}: this is no folder")
    found = folder_for(record, folder)
    if found:
        for line in add_clock(gathering, data["records"][0], found):
            print(f"mosaikrun.view: {line}", file=sys.stderr)


def main(words: Optional[List[str]] = None) -> int:
    """Makes the page; the status is 0, or 2, or the program's where it refuses the record."""
    asked = arguments(words)
    output = asked.output or os.path.splitext(os.path.basename(asked.record))[0] + ".html"
    try:
        data = make(asked.record, asked.second, asked.limit, asked.times)
        if any(os.path.exists(output) and os.path.samefile(output, one) for one in (asked.record, asked.second) if one):
            raise Refused(f"{output}: the page would be written over a record; name it by -o")
        with open(output, "w", encoding="utf-8") as file:
            file.write(page(data))
    except Refused as fault:
        print(f"mosaikrun.view: {fault.line}", file=sys.stderr)
        return fault.status
    except (ProgramMissing, OSError) as fault:
        print(f"mosaikrun.view: {fault}", file=sys.stderr)
        return 2
    for record in data["records"]:
        for trouble in record["trouble"]:
            print(f"mosaikrun.view: {record['name']}: {trouble['line']}", file=sys.stderr)
    print(output)
    return 0


if __name__ == "__main__":
    sys.exit(main())
