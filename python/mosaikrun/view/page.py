"""Puts a page together: its template, its style, its scripts, the libraries with their notices, and the data."""

from __future__ import annotations

import html
import json
import pathlib
from typing import Any, Dict

FOLDER = pathlib.Path(__file__).resolve().parent
LIBRARIES = ("d3.min.js", "dagre.min.js")
SCRIPTS = ("base.js", "chart.js", "graph.js", "steps.js", "values.js", "compare.js", "start.js")


def text_of(*names: str) -> str:
    """The text of a file of this folder."""
    return FOLDER.joinpath(*names).read_text(encoding="utf-8")


def page(data: Dict[str, Any]) -> str:
    """The page of these data."""
    names = " and ".join(record["name"] for record in data["records"])
    # a `<` in the data would end the element that holds them
    held = json.dumps(data, separators=(",", ":"), ensure_ascii=False).replace("<", "\\u003c")
    parts = {
        "TITLE": html.escape(names),
        "STYLE": text_of("page.css"),
        "LIBRARIES": "\n".join(f"<script>{text_of('vendor', name)}</script>" for name in LIBRARIES),
        "SCRIPTS": "\n".join(f"<script>\n{text_of('scripts', name)}</script>" for name in SCRIPTS),
        "NOTICES": html.escape(text_of("vendor", "LICENSES.txt")),
        "DATA": held,
    }
    pieces = text_of("page.html").split("@@")
    return "".join(parts[piece] if place % 2 else piece for place, piece in enumerate(pieces))
