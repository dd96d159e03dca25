"""Stands for mosaik's `util` where mosaik isn't installed."""

from mosaikrun.util import *  # noqa: F401,F403
