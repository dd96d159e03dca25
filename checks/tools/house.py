#!/usr/bin/env python3
"""Prints how large and how plain the repository is: a line for each number, with its goal where it has one.

    house.py [--all] [--since COMMIT]

It counts crates, the words and long sentences of each document, long functions, functions of many parameters, names
that two crates export, repeats in code, long lines of definitions and proofs in the files that came after COMMIT, and
the definitions that the contract of `program` needs. `--all` prints also the places of each number. It reads the
sources as text: numbers are good to a few in a hundred. It is no gate, and ends with 0.
"""

from __future__ import annotations

import argparse
import collections
import pathlib
import re
import subprocess
import sys
from typing import Iterator, NamedTuple, Optional

sys.dont_write_bytecode = True
sys.path.insert(0, str(pathlib.Path(__file__).resolve().parent))
from crate_table import ROOT, read_plan  # noqa: E402

CRATES = ROOT / "crates"
DOCUMENTS = ["README.md", "CONTRIBUTING.md", "docs/*.md", "checks/*.md", "python/*.md", "examples/*.md"]
README_WORDS = 900
LONGEST_SENTENCE, LONGEST_BODY, MOST_PARAMETERS, WIDEST, REPEATED = 30, 40, 7, 120, 6
# a run of lines that stands in more places than this says nothing
COMMON = 8
# files of definitions and proofs that came after this commit count as new
SINCE = "2e694060"


class Number(NamedTuple):
    """A number of the page: what it counts, how many there are, what it should be at most, and the places."""

    what: str
    count: int
    goal: Optional[int]
    places: list[str]


class Function(NamedTuple):
    """A function of a file of code: where it begins, its name, how many lines its body has, and its parameters."""

    place: str
    name: str
    lines: int
    parameters: int


def short(file: pathlib.Path) -> str:
    """Returns a file's name as seen from the root."""
    return str(file.relative_to(ROOT))


def code_files() -> list[pathlib.Path]:
    """Returns the files of code that are no tests, in order."""
    last = read_plan().layers[-1][0]
    tests = {it.name for it in read_plan().crates if it.layer == last}
    files = sorted(CRATES.glob("*/src/**/*.rt"))
    return [it for it in files if it.parts[len(CRATES.parts)] not in tests and "tests" not in it.parts and it.stem != "tests"]


# documents


def passages(text: str) -> Iterator[str]:
    """Returns the paragraphs, items and cells of a document, without fenced blocks and comments."""
    text = re.sub(r"<!--.*?-->|^(`{3,}).*?^\1", "", text, flags=re.DOTALL | re.MULTILINE)
    held: list[str] = []
    for line in [*text.splitlines(), ""]:
        row = line.strip()
        if held and (not row or re.match(r"[-*+|#]|\d+\.\s", row)):
            yield " ".join(held)
            held = []
        if row.startswith("|"):
            yield from re.split(r"(?<!\\)\|", row)
        elif row:
            held.append(re.sub(r"^(?:[-*+]|\d+\.|#+)\s+", "", row))


def long_sentences(text: str) -> list[str]:
    """Returns the sentences of a document that have too many words; code counts as one word."""
    found = []
    for passage in passages(text):
        plain = re.sub(r"(`+).+?\1", "CODE", passage)
        for sentence in re.split(r"(?<=[^.][.!?])[*_)\"]*\s+(?=[\"*_(\[]*[A-Z0-9])", plain):
            if sum(bool(re.search(r"\w", it)) for it in sentence.split()) > LONGEST_SENTENCE:
                found.append(sentence.strip())
    return found


def document_numbers() -> Iterator[Number]:
    """Returns the words and the long sentences of each document."""
    files = sorted({it for pattern in DOCUMENTS for it in ROOT.glob(pattern)})
    total = 0
    for file in files:
        text = file.read_text(encoding="utf-8")
        total += len(text.split())
        yield Number(f"words of {short(file)}", len(text.split()), README_WORDS if file == ROOT / "README.md" else None, [])
        long = long_sentences(text)
        yield Number(f"sentences over {LONGEST_SENTENCE} words in {short(file)}", len(long), 0, [it[:100] for it in long])
    yield Number("words of all documents", total, None, [])


# code


def after_types(text: str) -> str:
    """Returns what follows the parameters of types that a function has, if it has some."""
    depth = 0
    for place, sign in enumerate(text if text.startswith("<") else ""):
        depth += (sign == "<") - (sign == ">" and text[place - 1] != "-")
        if depth == 0:
            return text[place + 1 :]
    return text


def parameters_of(text: str) -> int:
    """Returns how many parameters a function has, of the text that follows its name."""
    depth, count, part = 0, 0, ""
    for sign in after_types(text):
        depth += (sign in "(<[{") - (sign in ")>]}")
        if depth == 0:
            break
        if depth == 1 and sign in "(,":
            count, part = count + bool(part.strip()), ""
        else:
            part += sign
    return count + bool(part.strip())


def body_of(lines: list[str], start: int, indent: str) -> int:
    """Returns how many lines the body of the function has that begins at this line; 0 where it has none."""
    for at in range(start, len(lines)):
        row = lines[at]
        if row == indent + "{" or (row.endswith("{") and re.match(rf"{indent}(?:pub(?:\(\w+\))? )?(?:const )?fn |{indent}\)", row)):
            end = next((it for it in range(at, len(lines)) if lines[it] == indent + "}"), at)
            return end - at - 1
        if row.endswith(";") and at >= start and not row.startswith(indent + "    "):
            return 0
        if at > start and re.match(r"\s*(?:pub )?(?:fn|impl|trait) ", row):
            return 0
    return 0


def functions_of(file: pathlib.Path) -> Iterator[Function]:
    """Returns the functions of a file of code."""
    text = file.read_text(encoding="utf-8")
    lines = text.splitlines()
    for number, line in enumerate(lines):
        found = re.match(r"(\s*)(?:pub(?:\(\w+\))? )?(?:const )?fn (\w+)", line)
        if found:
            rest = "\n".join([line[found.end() :], *lines[number + 1 : number + 40]])
            yield Function(f"{short(file)}:{number + 1}", found[2], body_of(lines, number, found[1]), parameters_of(rest))


def function_numbers() -> Iterator[Number]:
    """Returns how many functions are long, and how many have many parameters."""
    all_of = [it for file in code_files() for it in functions_of(file)]
    long = sorted((it for it in all_of if it.lines > LONGEST_BODY), key=lambda it: -it.lines)
    wide = sorted((it for it in all_of if it.parameters > MOST_PARAMETERS), key=lambda it: -it.parameters)
    yield Number("functions", len(all_of), None, [])
    yield Number(f"functions over {LONGEST_BODY} lines", len(long), 0, [f"{it.lines} {it.name} {it.place}" for it in long])
    yield Number(
        f"functions of more than {MOST_PARAMETERS} parameters", len(wide), 0, [f"{it.parameters} {it.name} {it.place}" for it in wide]
    )


def exports_of(crate: str) -> set[str]:
    """Returns the names that a crate exports of its own modules."""
    file = CRATES / crate / "src" / "lib.rt"
    text = file.read_text(encoding="utf-8") if file.exists() else ""
    modules = set(re.findall(r"^(?:pub )?mod (\w+);", text, re.M))
    found: set[str] = set()
    for module, many, one in re.findall(r"^pub use (?:crate::)?(\w+)::(?:[\w:]*::)?(?:\{([^}]*)\}|(\w+));", text, re.M):
        if module in modules:
            found |= {it.split(" as ")[-1].strip() for it in (many or one).split(",") if it.strip()}
    return found | set(re.findall(r"^pub (?:fn|struct|enum|trait|const) (\w+)", text, re.M))


def export_numbers() -> Iterator[Number]:
    """Returns how many names two crates export: types, and all others."""
    homes = collections.defaultdict(list)
    for crate in read_plan().crates:
        for name in exports_of(crate.name):
            homes[name].append(crate.name)
    twice = {name: crates for name, crates in sorted(homes.items()) if len(crates) > 1}
    types = [f"{name}: {', '.join(it)}" for name, it in twice.items() if name[0].isupper()]
    others = [f"{name}: {', '.join(it)}" for name, it in twice.items() if not name[0].isupper()]
    yield Number("types that two crates export under one name", len(types), 0, types)
    yield Number("functions that two crates export under one name", len(others), None, others)


# repeats


def shape(line: str) -> str:
    """Returns a line of code with its names, texts and numbers left out; empty for one that says nothing."""
    row = line.strip()
    if not row or row.startswith(("//", "use ", "ghost use ", "pub use ", "mod ", "pub mod ", "#")) or not re.search(r"\w", row):
        return ""
    row = re.sub(r'"(?:[^"\\]|\\.)*"', '"', row)
    kept = {"fn", "pub", "let", "mut", "match", "if", "else", "return", "for", "in", "loop", "while", "impl", "struct", "enum"}
    kept |= {"ensures", "requires", "Ok", "Err", "Some", "None", "self", "true", "false", "break", "continue"}
    return re.sub(r"\w+", lambda it: it[0] if it[0] in kept else "n", row)


def repeated(files: list[pathlib.Path]) -> list[str]:
    """Returns the pairs of files, or of a file with itself, that have six lines of one shape in a row."""
    runs = collections.defaultdict(list)
    for file in files:
        rows = [(number, shape(line)) for number, line in enumerate(file.read_text(encoding="utf-8").splitlines(), 1)]
        rows = [it for it in rows if it[1]]
        for at in range(len(rows) - REPEATED + 1):
            part = rows[at : at + REPEATED]
            if len({it for _, it in part}) > 3:
                runs["\n".join(it for _, it in part)].append((file, part[0][0], part[-1][0]))
    pairs: dict[tuple[str, str], str] = {}
    for places in runs.values():
        if 2 <= len(places) <= COMMON:
            for place, (one, first, last) in enumerate(places):
                for other, begin, end in places[place + 1 :]:
                    if one != other or begin > last:
                        pairs.setdefault((short(one), short(other)), f"{short(one)}:{first}-{last} ~ {short(other)}:{begin}-{end}")
    return sorted(pairs.values())


# definitions


def new_files(since: str) -> Optional[list[pathlib.Path]]:
    """Returns the files of definitions and proofs that came after a commit; None where the commit isn't there."""
    call = ["git", "-C", str(ROOT), "diff", "--name-only", "--diff-filter=A", since, "--", "crates"]
    done = subprocess.run(call, capture_output=True, text=True, check=False)
    names = done.stdout.split() if done.returncode == 0 else None
    return None if names is None else [ROOT / it for it in names if it.endswith(".antt") and (ROOT / it).exists()]


def wide_lines(files: list[pathlib.Path]) -> list[str]:
    """Returns the lines over 120 columns of files of definitions and proofs, without imports."""
    found = []
    for file in files:
        for number, line in enumerate(file.read_text(encoding="utf-8").splitlines(), 1):
            if len(line) > WIDEST and not re.match(r"(?:pub )?use ", line):
                found.append(f"{short(file)}:{number}: {len(line)} columns")
    return found


def width_numbers(since: str) -> Iterator[Number]:
    """Returns how many lines of definitions and proofs are over 120 columns: in all files, and in new ones."""
    everything = sorted([*CRATES.glob("*/specs/**/*.antt"), *CRATES.glob("*/proofs/**/*.antt")])
    yield Number(f"lines over {WIDEST} columns in definitions and proofs", len(wide_lines(everything)), None, [])
    new = new_files(since)
    if new is None:
        print(f"house.py: {since} isn't a commit here, so new files aren't counted", file=sys.stderr)
        return
    wide = wide_lines(new)
    yield Number(f"the same in the {len(new)} files that came after {since}", len(wide), 0, wide)


class Module(NamedTuple):
    """A file of definitions: what it imports by which name, its modules by their short names, and its definitions.

    A definition has its name, and is found also by the names of its constructors and fields."""

    imports: dict[str, tuple[pathlib.Path, str]]
    shorts: dict[str, pathlib.Path]
    home: dict[str, str]
    texts: dict[str, str]


DECLARED = re.compile(
    r"^(?:(?:pub|abbrev|unfoldable) )*(?:(?:record|data|module) ([^\s:(){}|=]+)|([^\s:(){}|=]+)(?: \([^)]*\))* :)"
)
IMPORT = re.compile(r"^(?:ghost )?(?:pub )?use Rattle\.(\w+)\.specs\.([^\s{};]+?)(?:\.\{([^}]*)\})?(?: as ([^\s;]+))?;?$", re.M)
INNER = re.compile(r"^ +(?:(?:pub|abbrev|unfoldable) )*(?:(?:data|record) )?([^\s:(){}|]+)(?: :| \()", re.M)


def file_of(crate: str, path: str) -> Optional[pathlib.Path]:
    """Returns the file of a module; None for what the prover makes of code, and for the kit's."""
    folder = CRATES / crate / "specs"
    file = folder.joinpath(*path.split(".")).with_suffix(".antt")
    if path.startswith(("declared", "contracts")) or not folder.exists() or file.exists():
        return file if file.exists() else None
    listing = folder / "Lib.antt"
    text = listing.read_text(encoding="utf-8") if listing.exists() else ""
    passed = re.search(rf"^pub use Rattle\.(\w+)\.specs\.((?:\w+\.)*{re.escape(path.split('.')[-1])})$", text, re.M)
    return file_of(passed[1], passed[2]) if passed else None


def imports_of(text: str) -> tuple[dict[str, tuple[pathlib.Path, str]], dict[str, pathlib.Path]]:
    """Returns the names that a text imports, with their files, and its short names of modules."""
    names: dict[str, tuple[pathlib.Path, str]] = {}
    shorts: dict[str, pathlib.Path] = {}
    for crate, path, many, brief in IMPORT.findall(text):
        file = file_of(crate, path)
        if file and brief:
            shorts[brief] = file
        for name in re.findall(r"[^,]*[^,\s][^,]*", many) if file else []:
            said, _, called = name.strip().partition(" as ")
            names[called or said] = (file, said)
    return names, shorts


def module_of(file: pathlib.Path, known: dict[pathlib.Path, Module]) -> Module:
    """Returns what a file of definitions says."""
    if file not in known:
        text = file.read_text(encoding="utf-8")
        texts: dict[str, str] = {}
        name = ""
        for line in text.splitlines():
            found = DECLARED.match(line)
            if found and not line.startswith(("use ", "pub use ", "--", "mod ", "pub mod ")):
                name = found[1] or found[2]
            if name and not line.startswith("--"):
                texts[name] = texts.get(name, "") + line + "\n"
        home = {inner: name for name, body in texts.items() for inner in [*INNER.findall(body), name]}
        home.update({name: name for name in texts})
        known[file] = Module(*imports_of(text), home, texts)
    return known[file]


def needs_of(text: str, module: Module, file: Optional[pathlib.Path], known: dict[pathlib.Path, Module]) -> set[tuple[pathlib.Path, str]]:
    """Returns the definitions that a text of a module names."""
    found: set[tuple[pathlib.Path, str]] = set()
    for word in set(re.findall(r"[^\s(){}\[\],;]+", re.sub(r"--.*", "", text))):
        head, _, rest = word.partition(".")
        if head in module.shorts and rest:
            place = (module.shorts[head], rest.split(".")[0])
        elif head in module.imports:
            place = module.imports[head]
        elif file and head in module.texts:
            place = (file, head)
        else:
            continue
        name = module_of(place[0], known).home.get(place[1])
        if name:
            found.add((place[0], name))
    return found


def reached(text: str, imports: str) -> set[tuple[pathlib.Path, str]]:
    """Returns all definitions that a text with these imports needs, and that these need in turn."""
    known: dict[pathlib.Path, Module] = {}
    waiting = list(needs_of(text, Module(*imports_of(imports), {}, {}), None, known))
    found = set(waiting)
    while waiting:
        file, name = waiting.pop()
        module = module_of(file, known)
        for one in needs_of(module.texts[name], module, file, known) - found:
            found.add(one)
            waiting.append(one)
    return found


def headline_numbers() -> Iterator[Number]:
    """Returns how many definitions the contract of `program` needs, and its clause `headline`."""
    text = (CRATES / "mosaikrun_program" / "src" / "top.rt").read_text(encoding="utf-8")
    contract = re.search(r"^pub fn program<.*?^\{$", text, re.M | re.DOTALL)
    headline = re.search(r"^    ensures headline \{.*?(?=^    ensures )", contract[0], re.M | re.DOTALL) if contract else None
    if not contract or not headline:
        raise ValueError("mosaikrun_program/src/top.rt: `program` or its clause `headline` isn't found")
    for what, part, goals in (("headline", headline[0], (400, 45)), ("all clauses", contract[0], (None, None))):
        found = reached(part, text)
        files = sorted({short(file) for file, _ in found})
        names = collections.Counter(name for _, name in found)
        twice = sorted(name for name, count in names.items() if count > 1)
        places = sorted(f"{short(file)}: {name}" for file, name in found)
        yield Number(f"definitions that `program` needs, {what}", len(found), goals[0], places)
        yield Number(f"files of these, {what}", len(files), goals[1], files)
        yield Number(f"names of these that two of them have, {what}", len(twice), None, twice)


def all_numbers(since: str) -> Iterator[Number]:
    """Returns all numbers, in the order of the page."""
    plan = read_plan()
    tests = [it for it in plan.crates if it.layer == plan.layers[-1][0]]
    yield Number("crates", len(plan.crates), 80, [])
    yield Number("crates for tests, among these", len(tests), None, [])
    yield Number("layers, tests among them", len(plan.layers), None, [])
    yield Number("edits that the proofs refuse", len(list(CRATES.glob("*/must-fail/*.edit"))), None, [])
    yield from document_numbers()
    yield from function_numbers()
    yield from export_numbers()
    pairs = repeated(code_files())
    yield Number(f"pairs of places in code that repeat {REPEATED} lines", len(pairs), 120, pairs)
    yield from width_numbers(since)
    yield from headline_numbers()


def main() -> int:
    words = argparse.ArgumentParser(description="Prints how large and how plain the repository is.")
    words.add_argument("--all", action="store_true", help="print also the places of each number")
    words.add_argument("--since", default=SINCE, metavar="COMMIT", help="files that came after this commit count as new")
    given = words.parse_args()
    print(f"{'number':>7}  {'goal':>5}")
    for number in all_numbers(given.since):
        goal = "" if number.goal is None else str(number.goal)
        mark = " " if number.goal is None or number.count <= number.goal else "*"
        print(f"{number.count:>7}{mark} {goal:>5}  {number.what}")
        for place in number.places if given.all else []:
            print(f"{'':>16}{place}")
    print("* above its goal")
    return 0


if __name__ == "__main__":
    sys.exit(main())
