"""Stands for mosaik's package `mosaik_api` where that isn't installed."""

from mosaikrun.api import *  # noqa: F401,F403
from mosaikrun.api import __api_version__, __version__  # noqa: F401
