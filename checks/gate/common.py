"""What checks of this folder share: where the repository is, the program mk_child, what still runs, the last line."""

from __future__ import annotations

import pathlib
import traceback
from typing import Callable, List, Optional

ROOT = pathlib.Path(__file__).resolve().parents[2]


def left_behind(session: int) -> List[str]:
    """Returns the names of the programs of this session that still run."""
    names = []
    for file in pathlib.Path("/proc").glob("[0-9]*/stat"):
        try:
            text = file.read_text(encoding="utf-8", errors="replace")
        except OSError:
            # it has ended meanwhile
            continue
        # the name stands in parentheses; after it come the state, the parent, the group and the session
        start, end = text.index("("), text.rindex(")")
        state, _, _, its = text[end + 1 :].split()[:4]
        if int(its) == session and state != "Z":
            names.append(text[start + 1 : end])
    return names


def child_of(program: pathlib.Path) -> Optional[pathlib.Path]:
    """Returns the program mk_child: beside this one, or where a gate makes it. None where it isn't there."""
    made = pathlib.Path("mk_child", "out", "mk_child")
    places = [program.parent / "mk_child", *(above / made for above in list(program.parents)[2:3]), ROOT / "crates" / made]
    return next((place for place in places if place.is_file()), None)


def status_of(main: Callable[[], int]) -> int:
    """Returns the status of a check. One that ends by an exception has its last line too."""
    try:
        return main()
    except Exception:
        print(traceback.format_exc(), end="")
        print("0 passed, 1 failed")
        return 1
