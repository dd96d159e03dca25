"""`python -m mosaikrun WORDS` is the program `mosaikrun WORDS`."""

from __future__ import annotations

import os
import sys

from mosaikrun import program
from mosaikrun.errors import ProgramMissing


def main() -> None:
    """Becomes the program; `mosaikrun` is its name on the path as well."""
    try:
        found = program.find()
    except ProgramMissing as fault:
        sys.exit(str(fault))
    os.execv(found, [found, *sys.argv[1:]])


if __name__ == "__main__":
    main()
