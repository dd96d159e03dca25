"""Stands for `mosaik_api_v3.types` where mosaik's package isn't installed."""

from mosaikrun.api_types import *  # noqa: F401,F403
