"""Stands for mosaik's `scenario` where mosaik isn't installed."""

from mosaikrun.scenario import *  # noqa: F401,F403
