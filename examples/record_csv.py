#!/usr/bin/env python3
"""Makes CSV of a record, also of one whose run ended early, and of one that was cut.

`record_csv.py RECORD` makes a row for each value that a simulator gave and a connection takes: time, round, entity,
attribute, value. The time is that of the making: the output time where the simulator gave a later one, else its
step's. `record_csv.py --steps RECORD` makes a row for each step: time, round, simulator, max_advance, and the time of
the next step that the simulator answered. A number or a text stands as it is, any other value as JSON.

A record of version 1 has no times, so those columns are empty; `mosaikrun migrate OLD NEW` makes version 2 of it. A
line that can't be read is left out, as the last one of a record that was cut. What is missing is said on standard
error, and the status is 1; it is 2 where the file is no record at all.

It is the package's `mosaikrun-csv` under another name, so the folder `python` of the checkout has to be there.
"""
import pathlib
import sys

sys.path.insert(0, str(pathlib.Path(__file__).resolve().parents[1] / "python"))

from mosaikrun.tables import record_main, record_table as table  # noqa: E402,F401

if __name__ == "__main__":
    sys.exit(record_main(__doc__))
