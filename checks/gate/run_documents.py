#!/usr/bin/env python3
"""Tries the commands of the documents with a built program, so that they stay true.

`run_documents.py PROGRAM [--builds] [DOCUMENT ..]` reads README.md, docs/tutorial.md and docs/from-mosaik.md (where
it is there), or the documents that are named, and runs each block that is fenced with ```sh by `bash -e`, in a copy
of this repository's files, with PROGRAM on the path as `mosaikrun` and at `dist/mosaikrun`, and `mk_child`, which lies
in PROGRAM's folder or where its own crate makes it. A block goes on in the folder where the one before it ended; the
first is run at the root, that of docs/from-mosaik.md in examples. Where a block fenced with ```text follows, with blank
lines alone between, it has to be what the commands print, standard output and standard error together; a line `...` in
it stands for any lines. Marks are comments, each on a line of its own before the block that it is for, which a reader
of the page doesn't see:

    <!-- builds -->             these commands build: they are left out unless --builds is given; a block that calls
                                `rt` or `.ci/run`, goes into `crates`, or runs all checks, and has no mark fails
    <!-- not run -->            these commands are never tried
    <!-- status N -->           the commands end with this status; without it, with 0
    <!-- at FOLDER -->          they are run in this folder, from the root
    <!-- file A -->             the block is the text of the file A of the repository
    <!-- file A after B -->     the block is what A has behind the text of B

It prints what differs, and ends with 'N passed, M failed'.
"""
import os
import pathlib
import re
import shutil
import signal
import subprocess
import sys
import tempfile
from typing import NamedTuple, Optional

from common import ROOT, child_of, status_of

# the documents, each with the folder in which its reader begins
DOCUMENTS = {"README.md": ".", "docs/tutorial.md": ".", "docs/from-mosaik.md": "examples"}
BUILDS = re.compile(r"(^|[\s;&|(])(rt|\.ci/run)([\s;&|)]|$)|\bcd\s+\S*crates\b|checks/run_all\.py", re.MULTILINE)
MARK = re.compile(r"<!--\s*(builds|not run|status|at|file)\b\s*(.*?)\s*-->\s*")
SECONDS = 120


class Block(NamedTuple):
    """A fenced block: where it stands, its language, its text, the marks before it, and the output behind it."""

    line: int
    language: str
    text: str
    marks: dict[str, str]
    output: Optional[str]


def blocks(text: str) -> list[Block]:
    """The fenced blocks of a document, in order."""
    found: list[Block] = []
    marks: dict[str, str] = {}
    adjacent, fence, start, inner = False, "", 0, [""]
    for number, line in enumerate(text.splitlines(), 1):
        opened = re.fullmatch(r"(`{3,})(\w*)\s*", line)
        if fence:
            if line.rstrip() != fence:
                inner.append(line + "\n")
                continue
            fence, body = "", "".join(inner)
            follows = language == "text" and not marks and adjacent
            if follows and found[-1].language == "sh" and found[-1].output is None:
                found[-1] = found[-1]._replace(output=body)
            else:
                found.append(Block(start, language, body, marks, None))
            marks, adjacent = {}, True
        elif opened:
            (fence, language), start, inner = opened.groups(), number, []
        elif mark := MARK.fullmatch(line):
            marks[mark[1]] = mark[2]
        elif line.strip():
            marks, adjacent = {}, False
    return found


def agrees(wanted: str, got: str) -> bool:
    """Whether the output is the wanted one, in which a line `...` stands for any lines."""
    parts = re.split(r"^\.\.\.\n", wanted, flags=re.MULTILINE)
    return re.fullmatch(r"(?:.*\n)*".join(map(re.escape, parts)), got) is not None


def tried(block: Block, room: pathlib.Path, folder: str, path: str, limit: Optional[int]) -> tuple[str, str]:
    """Runs the commands of a block in this folder: says what is wrong, if anything, and in which folder they ended."""
    script = f'trap \'pwd > "{room}/folder"\' EXIT\n{block.text}'
    words = ["bash", "-e", "-o", "pipefail", "-c", script]
    pipes = {"stdin": subprocess.DEVNULL, "stdout": subprocess.PIPE, "stderr": subprocess.STDOUT}
    environment = {**os.environ, "PATH": path}
    with subprocess.Popen(words, cwd=folder, env=environment, start_new_session=True, text=True, **pipes) as ran:
        try:
            got, _ = ran.communicate(timeout=limit)
        except subprocess.TimeoutExpired:
            os.killpg(ran.pid, signal.SIGKILL)
            return f"it isn't done after {limit} seconds\n{ran.communicate()[0]}", folder
    ended = room / "folder"
    folder = ended.read_text(encoding="utf-8").rstrip("\n") if ended.exists() else folder
    if ran.returncode != int(block.marks.get("status", "0")):
        return f"it ends with status {ran.returncode}, and prints\n{got}", folder
    if block.output is not None and not agrees(block.output, got):
        return f"it prints\n{got}and not\n{block.output}", folder
    return "", folder


def compared(block: Block) -> str:
    """Says what is wrong with a block that shows a file, if anything."""
    name, _, before = block.marks["file"].partition(" after ")
    text = (ROOT / name).read_text(encoding="utf-8") if (ROOT / name).is_file() else None
    head = (ROOT / before).read_text(encoding="utf-8") if before else ""
    # a blank line between both texts needn't be shown
    return "" if text in (head + block.text, head + "\n" + block.text) else f"this isn't the text of {name}"


def document(name: str, room: pathlib.Path, path: str, builds: bool) -> tuple[int, int]:
    """Tries a document: answers how many of its blocks passed, and how many failed."""
    root = room / "root"
    left = [".git", "out", "__pycache__"] + ([] if builds else ["crates"])
    shutil.copytree(ROOT, root, ignore=shutil.ignore_patterns(*left), symlinks=True)
    (root / "dist").mkdir(exist_ok=True)
    (root / "dist" / "mosaikrun").unlink(missing_ok=True)
    (root / "dist" / "mosaikrun").symlink_to((room / "bin" / "mosaikrun").resolve())
    folder, passed, failed = str(root / DOCUMENTS.get(name, ".")), 0, 0
    for block in blocks((ROOT / name).read_text(encoding="utf-8")):
        if "file" in block.marks:
            wrong = compared(block)
        elif block.language == "sh" and BUILDS.search(block.text) and not {"builds", "not run"} & block.marks.keys():
            wrong = "these commands build or run all checks, and have no mark that says so"
        elif block.language != "sh" or "not run" in block.marks or ("builds" in block.marks and not builds):
            continue
        else:
            folder = str(root / block.marks["at"]) if "at" in block.marks else folder
            wrong, folder = tried(block, room, folder, path, None if "builds" in block.marks else SECONDS)
        passed, failed = (passed, failed + 1) if wrong else (passed + 1, failed)
        if wrong:
            print(f"{name}, line {block.line}: {wrong}")
    shutil.rmtree(root)
    return passed, failed


def main() -> int:
    """Tries the documents with the program that is named."""
    words = [word for word in sys.argv[1:] if word != "--builds"]
    program = pathlib.Path(words[0]).resolve()
    names = words[1:] or [name for name in DOCUMENTS if (ROOT / name).is_file() or name != "docs/from-mosaik.md"]
    passed = failed = 0
    with tempfile.TemporaryDirectory() as text:
        room = pathlib.Path(text)
        (room / "bin").mkdir()
        (room / "bin" / "mosaikrun").symlink_to(program)
        child = child_of(program)
        if child is not None:
            (room / "bin" / "mk_child").symlink_to(child.resolve())
        path = f"{room / 'bin'}{os.pathsep}{os.environ['PATH']}"
        for name in names:
            some = document(name, room, path, "--builds" in sys.argv)
            passed, failed = passed + some[0], failed + some[1]
    print(f"{passed} passed, {failed} failed")
    return 1 if failed or not passed else 0


sys.exit(status_of(main))
