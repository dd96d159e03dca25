#!/usr/bin/env python3
"""Checks the schema of scenario files, docs/scenario.schema.json, which editors use.

`run_schema.py` needs no program. The schema has to have the keys and ranges of the table in docs/formats.md, and a
description for each key; to accept each scenario of examples/ and each one of the stored cases that `mosaikrun check`
accepts; and to refuse each one with a fault that a schema can see. Where the package `jsonschema` is there, it has to
say the same of each scenario as the validator here. Before Python 3.11 the scenarios are left out, which it says. Prints
what differs, and ends with 'N passed, M failed'.
"""

import datetime
import json
import pathlib
import re
import sys
from typing import Any, Callable, Dict, Iterator, List, Optional, Tuple

from common import ROOT, status_of

try:
    import tomllib
except ImportError:  # before Python 3.11
    tomllib = None  # type: ignore[assignment]

SCHEMA = ROOT / "docs" / "scenario.schema.json"
NOTES = {"$schema", "title", "description", "default", "definitions"}
TYPES: Dict[str, Callable[[Any], bool]] = {
    "integer": lambda value: isinstance(value, int) and not isinstance(value, bool),
    "boolean": lambda value: isinstance(value, bool),
    "string": lambda value: isinstance(value, str),
    "array": lambda value: isinstance(value, list),
    "object": lambda value: isinstance(value, dict),
}


def fits_number(value: Any, schema: Dict[str, Any]) -> bool:
    """Says whether a number is within its range."""
    if isinstance(value, bool) or not isinstance(value, (int, float)):
        return True
    return schema.get("minimum", value) <= value <= schema.get("maximum", value)


def fits_text(value: Any, schema: Dict[str, Any]) -> bool:
    """Says whether a text has its pattern. A `$` is the end of the text alone."""
    pattern = schema.get("pattern", "").replace("$", r"\Z")
    return not isinstance(value, str) or re.search(pattern, value) is not None


def fits_list(value: Any, schema: Dict[str, Any], root: Dict[str, Any]) -> bool:
    """Says whether a list has its length, and its items fit."""
    if not isinstance(value, list):
        return True
    if not schema.get("minItems", 0) <= len(value) <= schema.get("maxItems", len(value)):
        return False
    return all(fits(item, schema.get("items", {}), root) for item in value)


def fits_table(value: Any, schema: Dict[str, Any], root: Dict[str, Any]) -> bool:
    """Says whether a table has the keys that it must have, no more than it may, and values that fit."""
    if not isinstance(value, dict):
        return True
    if any(key not in value for key in schema.get("required", [])):
        return False
    if len(value) > schema.get("maxProperties", len(value)):
        return False
    known, others = schema.get("properties", {}), schema.get("additionalProperties", {})
    for key, item in value.items():
        if key not in known and others is False:
            return False
        if not fits(item, known.get(key, others), root):
            return False
    return True


def fits_parts(value: Any, schema: Dict[str, Any], root: Dict[str, Any]) -> bool:
    """Says whether the schemas within this one hold as they must."""
    if not all(fits(value, part, root) for part in schema.get("allOf", [])):
        return False
    if "anyOf" in schema and not any(fits(value, part, root) for part in schema["anyOf"]):
        return False
    if "oneOf" in schema and sum(fits(value, part, root) for part in schema["oneOf"]) != 1:
        return False
    return "not" not in schema or not fits(value, schema["not"], root)


def fits(value: Any, schema: Dict[str, Any], root: Dict[str, Any]) -> bool:
    """Says whether a value fits a schema, by the keywords that this schema uses, as JSON Schema's draft 4 has them."""
    if "$ref" in schema:
        return fits(value, root["definitions"][schema["$ref"].rsplit("/", 1)[1]], root)
    types = schema.get("type", list(TYPES) + ["number"])
    types = types if isinstance(types, list) else [types]
    if "type" in schema and not any(TYPES[name](value) for name in types):
        return False
    if "enum" in schema and not any(type(value) is type(one) and value == one for one in schema["enum"]):
        return False
    if not fits_number(value, schema) or not fits_text(value, schema):
        return False
    return fits_list(value, schema, root) and fits_table(value, schema, root) and fits_parts(value, schema, root)


def as_json(value: Any) -> Any:
    """Gives a TOML value as an editor's validator sees it: a date or a time is a text."""
    if isinstance(value, dict):
        return {key: as_json(item) for key, item in value.items()}
    if isinstance(value, list):
        return [as_json(item) for item in value]
    return str(value) if isinstance(value, (datetime.date, datetime.time)) else value


def depth(value: Any) -> int:
    """Returns how many lists and tables stand in one another."""
    items = list(value.values()) if isinstance(value, dict) else value if isinstance(value, list) else None
    return 0 if items is None else 1 + max((depth(item) for item in items), default=0)


def value_at(scenario: Any, path: str) -> Any:
    """Returns what stands under a path such as `connect[2].attrs[0]`."""
    for key, index in re.findall(r"([^.\[\]]+)|\[(\d+)\]", path):
        scenario = scenario[key] if key else scenario[int(index)]
    return scenario


def is_hidden(fault: int, rest: str, scenario: Any) -> bool:
    """Says whether a fault of kinds 2 to 5 is one that a schema can't see."""
    path = rest.rsplit(" ", 1)[-1] if fault != 5 else rest.split(" ")[0]
    if fault == 4:
        # an initial value whose name no pair of attributes has
        return ".initial_data." in path
    if fault == 5:
        # an index that isn't below the group's number
        return re.search(r"\.(from|to) .*\[[0-9]{1,9}\]$", rest) is not None
    if fault == 3 and (".params." in path or ".initial_data." in path):
        value = value_at(scenario, path)
        return depth(value) > 100 or isinstance(value, (datetime.date, datetime.time))
    return False


def is_wanted(line: str, scenario: Any) -> Optional[bool]:
    """Says by the line that the program prints whether a scenario has to be accepted; None where either will do."""
    found = re.match(r"mosaikrun: (scenario|launch|connect) (\d+): (.*)", line, re.DOTALL)
    word, fault, rest = (found[1], int(found[2]), found[3].rstrip("\n")) if found else ("", 0, "")
    if word == "" or word == "connect" and fault != 8:
        return True
    if word != "scenario":
        # of commands and cycles it says nothing, and a kind that isn't known may stand behind one
        return False if (word, fault) == ("launch", 4) else None
    if fault == 8:
        return False
    if fault not in (2, 3, 4, 5):
        return None
    return None if is_hidden(fault, rest, scenario) else False


def stored_text(case: Dict[str, Any], name: str) -> Optional[bytes]:
    """Returns the bytes of a case's scenario; None where it has none of its own."""
    if name in case.get("pieces", {}):
        return "".join(text * count for text, count in case["pieces"][name]).encode("utf-8")
    if name in case.get("files", {}):
        return case["files"][name].encode("utf-8")
    file = ROOT / case.get("at", "checks/cases/files") / name
    return file.read_bytes() if file.is_file() else None


def scenarios() -> Iterator[Tuple[str, bytes, str]]:
    """Gives each scenario: its name, its bytes, and the line that the program prints of it, empty for none."""
    for file in sorted((ROOT / "examples").rglob("*.toml")):
        yield str(file.relative_to(ROOT)), file.read_bytes(), ""
    lines = (ROOT / "checks" / "cases" / "cases.jsonl").read_text(encoding="utf-8").splitlines()
    for number, line in enumerate(lines, 1):
        case = json.loads(line)
        if case["words"][:1] not in (["check"], ["run"]) or len(case["words"]) < 2:
            continue
        text = stored_text(case, case["words"][1])
        if text is not None:
            yield f"case {number}, {case['words'][1]}", text, case["err"]


def parsed(text: bytes) -> Optional[Dict[str, Any]]:
    """Reads TOML; None where it is none."""
    try:
        return tomllib.loads(text.decode("utf-8"))
    except (UnicodeDecodeError, tomllib.TOMLDecodeError):
        return None


def other_validator(schema: Dict[str, Any]) -> Optional[Any]:
    """Returns the validator of the package `jsonschema`; None where that isn't there."""
    try:
        from jsonschema import Draft4Validator
    except ImportError:
        return None
    Draft4Validator.check_schema(schema)
    return Draft4Validator(schema)


def check_scenarios(schema: Dict[str, Any]) -> List[str]:
    """Tries each scenario, and returns a line for each: empty where the schema says what it must."""
    other, results = other_validator(schema), []
    for name, text, line in scenarios():
        scenario = parsed(text)
        if scenario is None:
            # no TOML, so no schema sees it
            results.append("" if "scenario 1:" in line else f"{name}: not read, and the program says {line!r}")
            continue
        wanted = is_wanted(line, scenario)
        seen = as_json(scenario)
        accepted = fits(seen, schema, schema)
        if wanted is not None and accepted != wanted:
            results.append(f"{name}: {'accepted' if accepted else 'refused'}, and the program says {line!r}")
        elif other is not None and other.is_valid(seen) != accepted:
            results.append(f"{name}: jsonschema says otherwise than the validator here")
        else:
            results.append("")
    return results


def keywords(schema: Any) -> Iterator[str]:
    """Gives each keyword of a schema and of those within it."""
    for key, value in schema.items():
        yield key
        if key in ("properties", "definitions"):
            for part in value.values():
                yield from keywords(part)
        for part in value if isinstance(value, list) else [value]:
            if isinstance(part, dict) and key not in ("properties", "definitions", "default"):
                yield from keywords(part)


def check_keywords(schema: Dict[str, Any]) -> List[str]:
    """Returns a line for each keyword that the validator here doesn't know."""
    known = NOTES | {"$ref", "type", "enum", "minimum", "maximum", "pattern", "minItems", "maxItems", "items"}
    known |= {"required", "properties", "additionalProperties", "maxProperties", "allOf", "anyOf", "oneOf", "not"}
    strange = sorted(set(keywords(schema)) - known)
    return [f"the validator here doesn't know {key}" for key in strange] or [""]


def ranges(schema: Dict[str, Any]) -> List[int]:
    """Returns the limits that a key's schema has: of a number, of a list's length, or of its items."""
    limits = [schema[key] for key in ("minimum", "minItems", "maximum", "maxItems") if key in schema]
    for part in [schema.get("items", {})] + schema.get("anyOf", []):
        limits += [part[key] for key in ("minimum", "maximum") if key in part]
    return limits


def check_key(part: Dict[str, Any], key: str, kind: str, rule: str) -> str:
    """Compares a key's schema with its row of the table; returns what differs."""
    if key not in part["properties"]:
        return "the schema lacks it"
    schema = part["properties"][key]
    if not schema.get("description"):
        return "it has no description"
    if ("required" in rule) != (key in part["required"]):
        return "required in one of both alone"
    number = r"[0-9][0-9,]*"
    found = re.search(rf"({number}) to ({number})", rule) or re.search(rf"at most ({number})", rule)
    limits = [int(limit.replace(",", "")) for limit in found.groups()] if found and kind != "text" else []
    return "" if limits == ranges(schema) else f"the limits are {ranges(schema)}, in the table {limits}"


def check_table(schema: Dict[str, Any]) -> List[str]:
    """Compares the keys with the table of docs/formats.md; returns a line for each key, empty where it fits."""
    parts = {**{name: schema["definitions"][name] for name in ("sim", "entities", "connect")}, "top": schema}
    row = re.compile(r"\| (top|`sim`|`entities`|`connect`) \| (`.*?`) \| (.*?) \| (.*) \|")
    results, named = [], set()
    for line in (ROOT / "docs" / "formats.md").read_text(encoding="utf-8").splitlines():
        found = row.fullmatch(line)
        for key in re.findall(r"`(\w+)`", found[2]) if found else []:
            table = found[1].strip("`")
            named.add((table, key))
            said = check_key(parts[table], key, found[3], found[4])
            results.append(f"{table}, {key}: {said}" if said else "")
    for table, part in parts.items():
        results += [f"{table}, {key}: not in the table" for key in part["properties"] if (table, key) not in named]
    return results


def main() -> int:
    """Checks the schema by its keywords, by the table of keys and by each scenario."""
    schema = json.loads(SCHEMA.read_text(encoding="utf-8"))
    results = check_keywords(schema) + check_table(schema)
    if tomllib is None:
        print("left out: the scenarios, since tomllib isn't there (Python 3.11 or newer has it)")
    else:
        results += check_scenarios(schema)
    failed = [line for line in results if line]
    for line in failed:
        print(line)
    print(f"{len(results) - len(failed)} passed, {len(failed)} failed")
    return 1 if failed or not results else 0


sys.exit(status_of(main))
