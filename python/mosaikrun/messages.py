"""What docs/messages.md says of a line that the program printed."""

from __future__ import annotations

import functools
import pathlib
import re
from typing import Dict, List, NamedTuple, Optional, Pattern

PACKAGE = pathlib.Path(__file__).resolve().parent
# the checkout has the document itself; an installed package has a copy of it
PLACES = (PACKAGE.parents[1] / "docs" / "messages.md", PACKAGE / "messages.md")
CAUSE = re.compile(r"run 1: \S+ message \d+ cause (\d+)")


class Row(NamedTuple):
    """A row of a table: which lines it is about, with which status, their meaning, what to do, and its heading."""

    status: int
    patterns: List[Pattern[str]]
    meaning: str
    advice: str
    heading: str


class Document(NamedTuple):
    """The document: its rows, the rows of the causes by their numbers, and the text of each heading."""

    rows: List[Row]
    causes: Dict[str, List[str]]
    sections: Dict[str, str]


class Explanation(NamedTuple):
    """What a line means: in short, and with the paragraphs that its row names."""

    short: str
    text: str


def cells(line: str) -> List[str]:
    """The cells of a row of a table of Markdown, empty where the line is none."""
    return [cell.strip() for cell in line.strip().strip("|").split("|")] if line.startswith("|") else []


def pattern(shown: str) -> Pattern[str]:
    """What a line as it is shown stands for: words of capital letters, and `..`, stand for any text."""
    parts = re.split(r"([A-Z]{2,}|\b[A-Z]\b| ?\.\.)", shown)
    words = [r".*" if re.fullmatch(r"[A-Z]+| ?\.\.", part) else re.escape(part) for part in parts]
    return re.compile("".join(words), re.DOTALL)


def without_marks(text: str) -> str:
    return text.replace("`", "")


@functools.lru_cache(maxsize=1)
def document() -> Document:
    """Reads the document; without it there are no explanations."""
    found = Document([], {}, {})
    text = next((place.read_text(encoding="utf-8") for place in PLACES if place.is_file()), "")
    for part in re.split(r"^## ", text, flags=re.MULTILINE)[1:]:
        heading, _, body = part.partition("\n")
        found.sections[heading.strip()] = body.strip()
        for line in body.splitlines():
            row = cells(line)
            if len(row) == 4 and row[0].isdigit():
                shown = re.findall(r"`([^`]+)`", row[1])
                found.rows.append(Row(int(row[0]), [pattern(one) for one in shown], row[2], row[3], heading.strip()))
            elif len(row) == 3 and row[0].isdigit() and heading.strip() == "Simulators":
                found.causes[row[0]] = row[1:]
    return found


def explanation(line: str, status: int) -> Optional[Explanation]:
    """What the document says of the line, None where it doesn't know it."""
    known = document()
    for row in known.rows:
        if row.status == status and any(one.fullmatch(line) for one in row.patterns):
            said = [row.meaning, row.advice]
            cause = CAUSE.fullmatch(line)
            if cause and cause[1] in known.causes:
                said = [f"the message {known.causes[cause[1]][0]}", known.causes[cause[1]][1]]
            named = [name for name in re.findall(r'"([A-Z][^"]+)"', " ".join(said)) if name in known.sections]
            short = f"{without_marks('; '.join(said))}. See docs/messages.md, \"{(named or [row.heading])[0]}\"."
            return Explanation(short, "\n\n".join(["; ".join(said), *(known.sections[name] for name in named)]))
    return None
