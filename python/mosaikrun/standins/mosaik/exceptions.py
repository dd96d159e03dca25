"""Stands for mosaik's `exceptions` where mosaik isn't installed."""

from mosaikrun.errors import ScenarioError, SimulationError  # noqa: F401
