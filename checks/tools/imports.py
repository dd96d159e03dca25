#!/usr/bin/env python3
"""Finds, in a second, imports and files that the prover would refuse after minutes.

    imports.py          called at the top of the repository; prints a line for each, and ends with 1 if there is one

Of each `use` of a file of definitions, of proofs or of code it looks whether the crate is in this one's line of
`crates.txt`, whether the module is there, and whether it says each name. It takes a name as said where a declaration, a
field, a constructor or a `pub use` has it, and looks at names behind an `as` too, but for files of code. What the kit
and the prover make (`declared`, `contracts`, goals) isn't looked at. Each file right in `specs/` or `proofs/` has to be
named by a `mod` line of the list beside it, and each such line has to name a file.
"""

from __future__ import annotations

import functools
import pathlib
import re
import sys

USE = re.compile(r"\buse Rattle\.([a-z]\w*)\.(specs|proofs)\.([^\s{};]+?)(?:\.\{([^}]*)\})?(?: as ([^\s;]+))?;?$")
MADE = {"declared", "contracts"}
MADE_LAST = {"Goals", "Given", "Met", "Statement", "Code", "Lts"}
SAID = re.compile(
    r"^\s*(?:(?:pub|abbrev|unfoldable) )*(?:(?:data|record|module) ([^\s:(){}]+)|([^\s(){},;]+(?: [^\s(){},;]+)*) :)", re.M
)


def libraries() -> dict[str, set[str]]:
    """Returns the crates that each crate of `crates.txt` stands on."""
    found = {}
    for line in pathlib.Path("crates.txt").read_text(encoding="utf-8").splitlines():
        names, colon, deps = line.partition("#")[0].partition(":")
        if colon:
            found[names.split()[0]] = set(deps.split())
    return found


@functools.cache
def said_in(file: pathlib.Path) -> frozenset[str]:
    """Returns the names that a file declares or passes on."""
    text = file.read_text(encoding="utf-8")
    names = {name for one, more in SAID.findall(text) for name in (one or more).split()}
    for passed in re.findall(r"^pub use [^{\n]*\{([^}]*)\}", text, re.M):
        names |= {name.strip() for name in passed.split(",")}
    return frozenset(names)


@functools.cache
def passed_on(root: pathlib.Path) -> dict[str, pathlib.Path | None]:
    """Returns the modules of other crates that this one's list of files passes on, by their last names."""
    found: dict[str, pathlib.Path | None] = {}
    listing = root / "Lib.antt"
    if listing.exists():
        for crate, kind, path in re.findall(r"^pub use Rattle\.(\w+)\.(specs|proofs)\.([\w.]+)$", listing.read_text(encoding="utf-8"), re.M):
            parts = path.split(".")
            file = pathlib.Path("crates", crate, kind, *parts).with_suffix(".antt")
            found[parts[-1]] = None if parts[0] in MADE else file
    return found


def file_of(crate: str, kind: str, parts: list[str]) -> tuple[pathlib.Path | None, list[str]]:
    """Returns the file that a module's name leads to, and what of the name goes on within it; no file where none does."""
    root = pathlib.Path("crates", crate, kind)
    given = passed_on(root)
    if parts[0] in given:
        return given[parts[0]], parts[1:]
    for count in range(len(parts), 0, -1):
        file = root.joinpath(*parts[:count]).with_suffix(".antt")
        if file.exists():
            return file, parts[count:]
    return None, parts


def faults_of(line: str, own: str, listed: set[str]) -> list[str]:
    """Returns what is wrong with a line, if it is an import."""
    match = USE.search(line)
    if not match:
        return []
    crate, kind, path, names, _ = match.groups()
    parts = path.split(".")
    if crate in ("std",) or not pathlib.Path("crates", crate).exists():
        return []
    if crate != own and crate not in listed:
        return [f"{crate} isn't in the crate's line of crates.txt"]
    if MADE & set(parts) or parts[-1] in MADE_LAST or (kind == "proofs" and any(part in MADE_LAST for part in parts)):
        return []
    root = pathlib.Path("crates", crate, kind)
    if parts[0] in passed_on(root) and passed_on(root)[parts[0]] is None:
        return []
    file, within = file_of(crate, kind, parts)
    if file is None:
        return [f"{crate}.{kind}.{path} is no file"]
    wanted = [*within, *(name.strip().split(" as ")[0] for name in (names or "").split(","))]
    return [f"{file} doesn't say {name}" for name in wanted if name and "◌" not in name and name not in said_in(file)]


def faults_behind(text: str) -> list[str]:
    """Returns what is wrong with the names that a file of definitions or proofs has behind an `as`."""
    found = []
    for line in text.splitlines():
        match = USE.search(line.strip())
        if not match or not match.group(5):
            continue
        crate, kind, path, _, short = match.groups()
        parts = path.split(".")
        if MADE & set(parts) or parts[-1] in MADE_LAST or not pathlib.Path("crates", crate).exists():
            continue
        file, within = file_of(crate, kind, parts)
        if file is None or within:
            continue
        names = set(re.findall(rf"(?<![\w.◌]){re.escape(short)}\.([a-zA-Z_][\w'-]*)", text))
        found += [f"{file} doesn't say {name}" for name in sorted(names - said_in(file))]
    return found


def faults_of_list(folder: pathlib.Path) -> list[str]:
    """Returns the files of a folder that its list doesn't name, and what it names that isn't there."""
    listing = folder / "Lib.antt"
    text = listing.read_text(encoding="utf-8") if listing.exists() else ""
    named = set(re.findall(r"^(?:pub )?mod (\S+)$", text, re.M))
    files = {file.stem for file in folder.glob("*.antt")} - {"Lib"}
    return [f"no `mod` line names {name}" for name in sorted(files - named)] + [
        f"there is no {name}" for name in sorted(named - files) if not (folder / name).is_dir()
    ]


def main() -> int:
    count = 0
    for folder in sorted([*pathlib.Path("crates").glob("*/specs"), *pathlib.Path("crates").glob("*/proofs")]):
        for fault in faults_of_list(folder):
            print(f"{folder}/Lib.antt: {fault}")
            count += 1
    listed = libraries()
    for file in sorted(pathlib.Path("crates").glob("*/*/**/*")):
        if file.suffix not in (".antt", ".rt") or file.parts[2] == "out":
            continue
        text = file.read_text(encoding="utf-8")
        for number, line in enumerate(text.splitlines(), 1):
            for fault in faults_of(line.strip(), file.parts[1], listed.get(file.parts[1], set())):
                print(f"{file}:{number}: {fault}")
                count += 1
        for fault in faults_behind(text) if file.suffix == ".antt" else []:
            print(f"{file}: {fault}")
            count += 1
    return 1 if count else 0


if __name__ == "__main__":
    sys.exit(main())
