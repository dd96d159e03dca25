#!/usr/bin/env python3
"""Counts long sentences and words of the old dialect in the documents, so that both can only become fewer.

    run_style.py [PROGRAM] [--all | --ceilings]

No program is needed; one that is named is ignored. Each document has a ceiling of sentences of more than 30 words, and
one of words that a plainer word replaces; a document that isn't listed in CEILINGS has 0 for both. README.md also has
a ceiling of words. The script prints each finding of a document above its ceiling. `--all` prints every finding.
`--ceilings` prints the table CEILINGS as it would be today, and checks nothing.
The last line is 'N passed, M failed'.
"""

from __future__ import annotations

import pathlib
import re
import sys
from typing import Iterator, NamedTuple

ROOT = pathlib.Path(__file__).resolve().parents[2]
DOCUMENTS = ["README.md", "CONTRIBUTING.md", "docs/*.md", "checks/README.md", "dist/README.md", "examples/README.md"]
LONGEST = 30
README_WORDS = 900
# for each document that isn't done yet: its long sentences, and its words of the old dialect
CEILINGS: dict[str, tuple[int, int]] = {
    # its table of crates has their own first lines
    "docs/architecture.md": (12, 41),
}
# what isn't said any more, and what is said instead
DIALECT = {
    r"\bbut for\b": "except",
    r"\bbehind\b": "after",
    r"\blest\b": "so that .. not",
    r"\bwant of memory\b": "out of memory",
    r"\b(?:is|are|was|were|isn't|aren't|be) wanting\b": "is missing",
    r"\b(?:is|are|was|were|be) said (?:of|both)\b": "say what acts or holds",
    r"\bit is said\b": "say what acts or holds",
    r"\bbesides\b": "also",
    r"\b(?:goes|go|going|went|gone) on\b": "continues",
    r"\b(?:took|takes|take) nothing\b": "blocked",
    r"\bwithin the program\b": "in-process",
    r"\bby (?:a|the) clock\b": "paced",
    r"\bcount of faults\b": "fault count",
    r"\b(?:put|puts|putting) out\b": "prints",
    r"\bwith a link\b": "external",
    r"\b(?:tell|tells|told|telling) nothing\b": "isn't observable",
    r"\balone\b": "only",
    r"\banew\b": "again",
    r"\b(?:answer|answers|answered) otherwise\b": "answer differently",
    r"\b(?:hang|hangs|hung) on\b": "depends on",
    r"\bof one's own\b": "your own",
    r"\bin the manner of\b": "like",
    r"\bnobody\b": "no simulator",
    r"\bbe (?:it|they) \b": "whether",
    r"\bcome by\b": "get",
    r"\bat hand\b": "say which one",
    r"\bin place of\b": "instead of",
}


class Passage(NamedTuple):
    """A paragraph, an item of a list, a cell of a table or a heading: where it begins, and its text."""

    line: int
    text: str


class Finding(NamedTuple):
    """A place in a document that isn't plain."""

    line: int
    what: str


def prose(text: str) -> Iterator[tuple[int, str]]:
    """The lines of a document outside of fenced blocks and comments; a line of these is empty."""
    fence = ""
    hidden = re.sub(r"<!--.*?-->", lambda found: "\n" * found[0].count("\n"), text, flags=re.DOTALL)
    for number, line in enumerate(hidden.splitlines(), 1):
        opened = re.match(r"\s*(`{3,})", line)
        if fence:
            fence = "" if line.strip() == fence else fence
            yield number, ""
        elif opened:
            fence = opened[1]
            yield number, ""
        else:
            yield number, line


def passages(text: str) -> Iterator[Passage]:
    """The passages of a document, in order."""
    start, held = 0, list[str]()
    for number, line in [*prose(text), (0, "")]:
        row = line.strip()
        begins = re.match(r"(?:[-*+]|\d+\.)\s+|#+\s+", row)
        if held and (not row or begins or row.startswith("|")):
            yield Passage(start, " ".join(held))
            held = []
        if row.startswith("|"):
            yield from (Passage(number, cell) for cell in re.split(r"(?<!\\)\|", row) if re.search(r"\w", cell))
        elif row:
            start = start if held else number
            held.append(row[begins.end() :] if begins else row)


def plain(text: str) -> str:
    """The text with its code as one word each, and links as what a reader sees of them."""
    text = re.sub(r"(`+).+?\1", "CODE", text)
    return re.sub(r"!?\[([^\]]*)\]\([^)]*\)", r"\1", text)


def sentences(text: str) -> list[str]:
    """The sentences of a passage."""
    return re.split(r"(?<=[^.][.!?])[*_)\"]*\s+(?=[\"*_(\[]*[A-Z0-9])", plain(text))


def words(text: str) -> int:
    """How many words a text has."""
    return sum(bool(re.search(r"\w", word)) for word in text.split())


def long_sentences(text: str) -> list[Finding]:
    """The sentences of a document that have too many words."""
    found = []
    for passage in passages(text):
        for sentence in sentences(passage.text):
            if words(sentence) > LONGEST:
                found.append(Finding(passage.line, f"{words(sentence)} words: {sentence[:90]} .."))
    return found


def dialect(text: str) -> list[Finding]:
    """The words of a document that a plainer one replaces."""
    found = []
    for passage in passages(text):
        for pattern, instead in DIALECT.items():
            for said in re.finditer(pattern, plain(passage.text), re.IGNORECASE):
                found.append(Finding(passage.line, f"'{said[0]}': say '{instead}'"))
    return found


def documents() -> list[pathlib.Path]:
    """The documents that are there."""
    return sorted({file for pattern in DOCUMENTS for file in ROOT.glob(pattern)})


def checked(name: str, text: str, shows: bool) -> tuple[int, int]:
    """Tries a document: answers how many of its counts are within their ceilings, and how many aren't."""
    passed = failed = 0
    for kind, found, most in zip(
        ("long sentences", "words of the old dialect"),
        (long_sentences(text), dialect(text)),
        CEILINGS.get(name, (0, 0)),
    ):
        within = len(found) <= most
        passed, failed = passed + within, failed + (not within)
        if len(found) < most:
            print(f"{name}: {len(found)} {kind}; lower its ceiling of {most}")
        if not within:
            print(f"{name}: {len(found)} {kind}, at most {most}")
        for finding in found if shows or not within else []:
            print(f"  {name}:{finding.line}: {finding.what}")
    return passed, failed


def main() -> int:
    """Tries all documents."""
    texts = {str(file.relative_to(ROOT)): file.read_text(encoding="utf-8") for file in documents()}
    if "--ceilings" in sys.argv:
        for name, text in texts.items():
            counts = (len(long_sentences(text)), len(dialect(text)))
            if counts != (0, 0):
                print(f'    "{name}": {counts},')
        return 0
    passed = failed = 0
    for name, text in texts.items():
        some = checked(name, text, "--all" in sys.argv)
        passed, failed = passed + some[0], failed + some[1]
    count = len(re.sub(r"<!--.*?-->", "", texts.get("README.md", ""), flags=re.DOTALL).split())
    print(f"README.md: {count} words, at most {README_WORDS}")
    passed, failed = passed + (count <= README_WORDS), failed + (count > README_WORDS)
    print(f"{passed} passed, {failed} failed")
    return 1 if failed or not passed else 0


sys.exit(main())
