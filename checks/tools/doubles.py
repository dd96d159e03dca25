#!/usr/bin/env python3
"""Finds what stands more than once: declarations and functions that are equal up to the names of their variables.

    doubles.py          called at the top of the repository; prints a line for each group, the longest first

Declarations of specs/ and proofs/ are compared whole, and lemmas by their statements too; what a name that is imported
leads to counts, and not how it is spelled. Functions of src/ are compared by their bodies. Not each group is a double:
names of fields count as variables, so two relations over different fields look alike.
"""

from __future__ import annotations

import collections
import pathlib
import re
import typing

TOKEN = re.compile(r"«[^»]*»|[^\s(){}\[\],.;|\\]+|[(){}\[\],.;|\\]")
WORDS = frozenset("use pub abbrev record data where module elim let in as λ open unfolding mutual rw refl with do if then else".split())
HEAD = re.compile(r"(?:(?:pub|abbrev|unfoldable) )*([^\s:(){}]+) : ")
MODIFIERS = re.compile(r"^(?:(?:pub|abbrev|unfoldable) )*")
CODE = re.compile(r'"(?:[^"\\]|\\.)*"|\'[^\']\'|[A-Za-z_]\w*|\d[\w.]*|\S')


class Declared(typing.NamedTuple):
    """A declaration: its file, its name, and its lines."""

    file: pathlib.Path
    name: str
    lines: list[str]


def files(parts: tuple[str, ...], suffix: str) -> list[pathlib.Path]:
    """Returns the files of these folders of each crate."""
    found = [file for part in parts for file in pathlib.Path("crates").glob(f"*/{part}/**/*{suffix}")]
    return sorted(file for file in found if file.name not in ("Lib.antt", "Invariants.antt", "Answers.antt"))


def imports_of(lines: list[str]) -> dict[str, str]:
    """Returns what the names lead to that a file imports."""
    found = {}
    for line in lines:
        if match := re.match(r"(?:pub )?use (\S+?)\.\{(.*)\}$", line):
            found |= {name.strip(): f"{match.group(1)}.{name.strip()}" for name in match.group(2).split(",")}
        elif match := re.match(r"use (\S+)(?: as (\S+))?$", line):
            found[match.group(2) or match.group(1).rpartition(".")[2]] = match.group(1)
    return found


def declared_in(file: pathlib.Path, lines: list[str]) -> list[Declared]:
    """Returns the declarations of a file that stand at its top level and have a type of their own."""
    found: list[Declared] = []
    is_open = False
    for line in lines:
        if not line.strip() or line.startswith(("--", "use ", "module ")):
            is_open = False
        elif (match := HEAD.match(line)) and not line[0].isspace():
            found.append(Declared(file, match.group(1), [line]))
            is_open = True
        elif is_open:
            found[-1].lines.append(line)
    return found


def without_names(text: str, own: str, imports: dict[str, str], local: frozenset[str]) -> str:
    """Returns a text in which each variable has the number of its first place in place of its name."""
    seen: dict[str, str] = {}
    out = []
    for token in TOKEN.findall(text):
        if token == own:
            out.append("@")
        elif token in imports:
            out.append(imports[token])
        elif token in WORDS or not re.fullmatch(r"[A-Za-z_][\w'-]*", token) or token in local:
            out.append(token)
        else:
            out.append(seen.setdefault(token, f"#{len(seen)}"))
    return " ".join(out)


def statement(declared: Declared) -> str:
    """Returns the lines of a declaration before its first clause."""
    for count, line in enumerate(declared.lines[1:], 1):
        if re.match(rf"unfolding |{re.escape(declared.name)}(?!\S)", line):
            return " ".join(declared.lines[:count])
    return " ".join(declared.lines)


def declarations() -> dict[str, list[Declared]]:
    """Returns the declarations of the repository, by their texts without names, whole and of lemmas by their statements."""
    groups = collections.defaultdict(list)
    for file in files(("specs", "proofs"), ".antt"):
        lines = file.read_text(encoding="utf-8").splitlines()
        found, imports = declared_in(file, lines), imports_of(lines)
        local = frozenset(declared.name for declared in found)
        for declared in found:
            is_lemma = "proofs" in file.parts and "abbrev " not in declared.lines[0]
            text = statement(declared) if is_lemma else " ".join(declared.lines)
            kind = "lemma" if is_lemma else "definition"
            groups[kind + without_names(MODIFIERS.sub("", text), declared.name, imports, local)].append(declared)
    return groups


def functions() -> dict[str, list[Declared]]:
    """Returns the functions of the repository, by their bodies without names."""
    groups = collections.defaultdict(list)
    for file in files(("src",), ".rt"):
        text = file.read_text(encoding="utf-8")
        for match in re.finditer(r"^( *)(?:pub(?:\(crate\))? )?fn (\w+)(.*?)^\1\{\n(.*?)^\1\}$", text, re.M | re.S):
            _, name, head, body = match.groups()
            body = re.sub(r"//.*", "", body)
            bound = set(re.findall(r"(\w+):", head)) | set(re.findall(r"(?:let (?:mut )?|for |\||[SO]\w+\()&?(\w+)", body))
            seen: dict[str, str] = {}
            tokens = [seen.setdefault(it, f"#{len(seen)}") if it in bound else it for it in CODE.findall(body)]
            if len(body) > 70:
                groups["function" + " ".join(tokens)].append(Declared(file, name, body.splitlines()))
    return groups


def main() -> int:
    groups = [it for it in [*declarations().items(), *functions().items()] if len(it[1]) > 1]
    for _, group in sorted(groups, key=lambda it: -sum(map(len, it[1][0].lines))):
        size = sum(map(len, group[0].lines))
        print(f"{size:6} " + ", ".join(f"{'/'.join(it.file.parts[1:])}:{it.name}" for it in group))
    print(f"{len(groups)} groups")
    return 0


if __name__ == "__main__":
    main()
