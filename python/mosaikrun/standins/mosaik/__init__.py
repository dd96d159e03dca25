"""Stands for mosaik where it isn't installed, so that `import mosaik.util` of a script is found."""

from mosaikrun import *  # noqa: F401,F403
from mosaikrun import __version__  # noqa: F401
