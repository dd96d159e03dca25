"""A simulator's class as a program of its own: `python -m mosaikrun.child [--calls JSON] MODULE:CLASS ADDRESS`.

It connects to the address, or waits there after `--remote`, and serves one object of the class: by mosaik's package
`mosaik_api_v3` where that is installed, else by this package's `api`. MODULE may be the path of a file that ends with
`.py`. JSON is a list of the extra methods that are to be called on the object: each [N, METHOD, ARGUMENTS, NAMED],
after its Nth `create`.
"""

from __future__ import annotations

import importlib
import json
import os
import runpy
import sys
from typing import Any, Dict, List

from mosaikrun import steptimes

SCRIPT = "__mosaikrun__"


def is_child() -> bool:
    """Whether this process serves a simulator."""
    return getattr(sys.modules.get("__main__"), "__file__", "") == __file__


def loaded(name: str) -> type:
    """The class that MODULE:CLASS names."""
    module, separator, path = name.rpartition(":")
    if not separator or not module or not path:
        raise ValueError(f"{name}: a class is named as module:Class")
    found: Any = runpy.run_path(module, run_name=SCRIPT) if module.endswith(".py") else importlib.import_module(module)
    first, *rest = path.split(".")
    found = found[first] if isinstance(found, dict) else getattr(found, first)
    for part in rest:
        found = getattr(found, part)
    return found


def plain_meta(meta: Any) -> Any:
    """The metadata in the members that the program reads: `trigger` and `non-persistent`.

    Newer simulators may say `non-trigger` and `persistent`, or a truth value for all attributes.
    """
    if not isinstance(meta, dict) or not isinstance(meta.get("models"), dict):
        return meta
    return {**meta, "models": {name: plain_model(model) for name, model in meta["models"].items()}}


def plain_model(model: Any) -> Any:
    if not isinstance(model, dict) or not isinstance(model.get("attrs"), list):
        return model
    told: Dict[str, Any] = dict(model)
    for member, opposite in (("trigger", "non-trigger"), ("non-persistent", "persistent")):
        values = {key: named(told.pop(key), model["attrs"]) for key in (member, opposite) if key in told}
        if member in values:
            told[member] = values[member]
        elif opposite in values:
            told[member] = [attr for attr in model["attrs"] if attr not in values[opposite]]
    return told


def named(value: Any, attrs: List[str]) -> Any:
    """The attributes that a member names; true stands for all, and false for none."""
    if isinstance(value, bool):
        return list(attrs) if value else []
    return list(value) if isinstance(value, (set, frozenset, tuple)) else value


def prepared(simulator: Any, calls: List[list]) -> Any:
    """The simulator, which tells its metadata plainly and has its extra methods called where the script did it."""
    init, create = simulator.init, simulator.create
    waiting, created = list(calls), 0

    def call_those_due() -> None:
        while waiting and waiting[0][0] <= created:
            _, method, args, options = waiting.pop(0)
            getattr(simulator, method)(*args, **options)

    def new_init(*args: Any, **params: Any) -> Any:
        meta = plain_meta(init(*args, **params))
        call_those_due()
        return meta

    def new_create(*args: Any, **params: Any) -> Any:
        nonlocal created
        entities = create(*args, **params)
        created += 1
        call_those_due()
        return entities

    simulator.init, simulator.create = new_init, new_create
    return simulator


def server_of(simulator: Any) -> Any:
    """The package that serves this simulator: that of its class, else mosaik's, else this one."""
    for base in type(simulator).__mro__:
        package = base.__module__.partition(".")[0]
        if package in ("mosaik_api", "mosaik_api_v3"):
            return importlib.import_module(package)
    return importlib.import_module("mosaik_api_v3")


def main() -> None:
    words = sys.argv[1:]
    calls: List[list] = []
    if words[:1] == ["--calls"] and len(words) > 1:
        calls, words = json.loads(words[1]), words[2:]
    if len(words) < 2:
        sys.exit(__doc__)
    # `-m` puts the folder where it began ahead of all others; the script that names the class didn't, so it comes last
    if sys.path and sys.path[0] == os.getcwd():
        sys.path.append(sys.path.pop(0))
    importlib.import_module("mosaikrun")
    simulator = loaded(words[0])()
    sys.argv = words
    server_of(simulator).start_simulation(steptimes.noted(prepared(simulator, calls)))


if __name__ == "__main__":
    main()
