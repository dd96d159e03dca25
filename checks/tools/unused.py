#!/usr/bin/env python3
"""Finds lemmas and definitions that nothing names.

    unused.py           called at the top of the repository; prints a line for each, and ends with 1 if there is one

A name counts as used where it stands as a whole word in a file of any crate, but in its own declaration, in comments and
in `use` lines; so of two declarations of one name neither is found if one of them is used. What stands for itself isn't
looked at: files of worked examples (`Rows`, `JournalRows`), answers to goals, and what the kit asks for by its name.
"""

from __future__ import annotations

import collections
import pathlib
import re
import sys

DECLARED = re.compile(r"^ *(?:(?:pub|abbrev|unfoldable) )*(?:(?:record|data) ([^\s:(){}]+)[^:]*|([^\s:(){}\[\],|]+)) :(?: |$)")
WORD = re.compile(r"[^\s(){}\[\],.;:=|\\]+")
CLOSES = (")", "]", "}", "unfolding")
EXAMPLES = ("Rows.antt", "JournalRows.antt", "Lib.antt", "Answers.antt", "Invariants.antt", "Proof.antt")
ASKED_FOR = re.compile(r"the_.*|coded.*|.*_spec")


def sources() -> list[pathlib.Path]:
    """Returns the files of code, of definitions and of proofs of all crates."""
    parts = [f"*/{part}/**/*{end}" for part in ("src", "specs", "proofs") for end in (".rt", ".antt")]
    return sorted(file for part in parts for file in pathlib.Path("crates").glob(part))


def said(file: pathlib.Path) -> list[str]:
    """Returns the lines of a file without comments and `use` lines."""
    comment = "//" if file.suffix == ".rt" else "--"
    lines = file.read_text(encoding="utf-8").splitlines()
    return [line for line in lines if not re.match(rf" *({comment}|(pub )?use |ghost use )", line)]


def main() -> int:
    uses: collections.Counter = collections.Counter()
    declared: list[tuple[pathlib.Path, str]] = []
    own: collections.Counter = collections.Counter()
    for file in sources():
        looked_at = file.suffix == ".antt" and file.name not in EXAMPLES
        before, depth = "", 0
        for line in said(file):
            words = WORD.findall(line)
            uses.update(words)
            found = DECLARED.match(line) if looked_at and not line.startswith("   ") else None
            indent = len(line) - len(line.lstrip())
            if found:
                before, depth = found[1] or found[2], indent
                declared.append((file, before))
            elif line.strip() and indent <= depth and words[:1] != [before] and not line.lstrip().startswith(CLOSES):
                # something else begins
                before = ""
            if before:
                # the declaration itself, and where it goes by itself again
                own[before] += words.count(before)
    left = [(file, name) for file, name in declared if uses[name] <= own[name] and not ASKED_FOR.fullmatch(name)]
    for file, name in left:
        print(f"{file}: {name}")
    print(f"{len(left)} of {len(declared)}")
    return 1 if left else 0


if __name__ == "__main__":
    sys.exit(main())
