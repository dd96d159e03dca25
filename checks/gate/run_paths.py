#!/usr/bin/env python3
"""Looks whether each path that the documents name is there.

`run_paths.py [PROGRAM]` needs no program. It reads README.md, CONTRIBUTING.md, docs/*.md, and the pages of checks and
dist. A path is a word in backquotes that begins with a folder at the top of the repository, as `docs/rules.md`, or the
target of a link, from the folder of its page. In it `*` and `**` stand for any names, and so does a word in capital
letters, as `crates/NAME/src`. What lies in a folder `out` is made by a gate, and needn't be there; nor need the folder
that a reader of the tutorial makes. It prints each path that isn't there, and ends with 'N passed, M failed'.
"""

from __future__ import annotations

import pathlib
import re
import sys
from typing import Iterator, List, Tuple

from common import ROOT, status_of

PAGES = ("README.md", "CONTRIBUTING.md", "docs/*.md", "checks/README.md", "dist/README.md")
SPAN = re.compile(r"(`+)(.+?)\1", re.DOTALL)
LINK = re.compile(r"\[[^\]]*\]\(([^)\s]+)\)")
FENCE = re.compile(r"^(`{3,}).*?^\1\s*$", re.MULTILINE | re.DOTALL)
PLACEHOLDER = re.compile(r"(?<![A-Za-z])[A-Z]{1,}(?:_[A-Z]+)*(?![A-Za-z])")
OF_READERS = {"examples/mine"}
LAST_NAMES = {"README", "HANDLES", "NOTICES", "CONTRIBUTING", "DECISIONS", "LICENSE"}


def folders() -> List[str]:
    """Returns the names of the folders at the top of the repository."""
    return sorted(file.name for file in ROOT.iterdir() if file.is_dir() and file.name != ".git")


def named(text: str, tops: List[str]) -> Iterator[Tuple[int, str]]:
    """Gives the paths in backquotes, each with its line."""
    begins = re.compile(rf"(?:\./)?(?:{'|'.join(map(re.escape, tops))})/")
    for span in SPAN.finditer(FENCE.sub(lambda found: re.sub(r"[^\n]", " ", found[0]), text)):
        line = text.count("\n", 0, span.start()) + 1
        for word in re.split(r"[\s=\"'()<>|;,]+", span[2]):
            if begins.match(word):
                yield line, word


def linked(text: str, page: pathlib.Path) -> Iterator[Tuple[int, str]]:
    """Gives the targets of links within the repository, from its top, each with its line."""
    for link in LINK.finditer(text):
        target = link[1].partition("#")[0]
        if target and not re.match(r"[a-z]+:", target):
            whole = (page.parent / target).resolve()
            yield text.count("\n", 0, link.start()) + 1, str(whole.relative_to(ROOT) if ROOT in whole.parents else whole)


def pattern(path: str) -> str:
    """Returns the pattern that a path is, up to a folder `out`."""
    parts = []
    for part in path.rstrip("/.:").split("/"):
        if part == "out":
            break
        part = part.partition(":")[0]
        keeps = pathlib.PurePath(part).stem in LAST_NAMES
        parts.append(part if keeps else PLACEHOLDER.sub("*", part))
    return "/".join(parts)


def is_there(path: str) -> bool:
    """Whether something of this name is there."""
    whole = pattern(path)
    if (ROOT / path).exists():
        return True
    return bool(whole) and not whole.startswith("/") and any(True for _ in ROOT.glob(whole))


def main() -> int:
    """Looks for the paths of each page."""
    tops, passed, failed = folders(), 0, 0
    for page in [page for glob in PAGES for page in sorted(ROOT.glob(glob))]:
        text = page.read_text(encoding="utf-8")
        for line, path in [*named(text, tops), *linked(text, page)]:
            if path.rstrip("/") in OF_READERS or is_there(path):
                passed += 1
            else:
                failed += 1
                print(f"{page.relative_to(ROOT)}, line {line}: {path} isn't there")
    print(f"{passed} passed, {failed} failed")
    return 1 if failed or not passed else 0


if __name__ == "__main__":
    sys.exit(status_of(main))
