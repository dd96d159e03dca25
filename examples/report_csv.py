#!/usr/bin/env python3
"""Makes CSV of a report: a row for each value that a simulator was sent in a step.

`report_csv.py [FILE]` reads the report from FILE, or from standard input, as in

    mosaikrun replay study.record | python3 report_csv.py > inputs.csv

The columns are time, round, target, input, source and value. A number or a text stands as it is, any other value as
JSON. Answers to requests have no row. Where the report has no `end` line, or a line of it can't be read, the table has
what is there; what is missing is said on standard error, and the status is 1.

It is the package's `mosaikrun-csv` under another name, so the folder `python` of the checkout has to be there.
"""
import pathlib
import sys

sys.path.insert(0, str(pathlib.Path(__file__).resolve().parents[1] / "python"))

from mosaikrun.tables import report_main, report_table as table  # noqa: E402,F401

if __name__ == "__main__":
    sys.exit(report_main(__doc__))
