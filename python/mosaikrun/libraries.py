"""Finds the libraries that this package uses where they are there: pandas, pyarrow, matplotlib and networkx."""
from __future__ import annotations

import importlib
from types import ModuleType
from typing import Optional

# the names in Debian and in pip
PACKAGES = {
    "matplotlib": ("python3-matplotlib", "matplotlib"),
    "matplotlib.pyplot": ("python3-matplotlib", "matplotlib"),
    "networkx": ("python3-networkx", "networkx"),
    "pandas": ("python3-pandas", "pandas"),
    "pyarrow": (None, "pyarrow"),
}


class LibraryMissing(ImportError):
    """A library isn't installed that was asked for."""


def found(name: str) -> Optional[ModuleType]:
    """The library, or None where it isn't installed."""
    try:
        return importlib.import_module(name)
    except ImportError:
        return None


def needed(name: str, what: str) -> ModuleType:
    """The library, which this needs; `LibraryMissing` says how to install it."""
    library = found(name)
    if library is not None:
        return library
    debian, pip = PACKAGES[name]
    ways = ([f"`apt install {debian}`"] if debian else []) + [f"`pip install {pip}`"]
    raise LibraryMissing(f"{what} needs {name.partition('.')[0]}, which isn't installed: {' or '.join(ways)} does it")
