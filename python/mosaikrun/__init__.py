"""mosaikrun for Python: `import mosaikrun as mosaik` runs a scenario script of mosaik 3 by the program mosaikrun."""

from __future__ import annotations

import importlib
import pathlib
import sys
from typing import TYPE_CHECKING, Any

if TYPE_CHECKING:
    from mosaikrun import errors as exceptions, scenario, util
    from mosaikrun.entities import Entity, ModelFactory, ModelMock
    from mosaikrun.errors import ProgramMissing, RunError, ScenarioError, SimulationError
    from mosaikrun.results import Results
    from mosaikrun.world import SimConfig, World

__version__ = "1.0"
# where each name is; it is loaded when it is first asked for, since a simulator's process needs few of them
MODULES = {
    "Entity": "entities",
    "ModelFactory": "entities",
    "ModelMock": "entities",
    "ProgramMissing": "errors",
    "Results": "results",
    "RunError": "errors",
    "ScenarioError": "errors",
    "SimulationError": "errors",
    "SimConfig": "world",
    "World": "world",
}
ALIASES = {"exceptions": "errors"}
__all__ = [*MODULES, "exceptions", "scenario", "util"]
# after all other places: mosaik's own packages come first where they are installed
STAND_INS = str(pathlib.Path(__file__).resolve().parent / "standins")


def __getattr__(name: str) -> Any:
    """A name of this package or one of its modules, as mosaik has them."""
    if name in MODULES:
        return getattr(importlib.import_module(f"mosaikrun.{MODULES[name]}"), name)
    try:
        return importlib.import_module(f"mosaikrun.{ALIASES.get(name, name)}")
    except ModuleNotFoundError as fault:
        if fault.name != f"mosaikrun.{name}":
            raise
    raise AttributeError(f"module 'mosaikrun' has no attribute '{name}'")


if STAND_INS not in sys.path:
    sys.path.append(STAND_INS)
