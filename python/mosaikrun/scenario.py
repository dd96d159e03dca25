"""mosaik's module of this name: the world and what it is built of."""

from __future__ import annotations

from mosaikrun.entities import Entity, ModelFactory, ModelMock
from mosaikrun.world import SimConfig, World

__all__ = ["Entity", "ModelFactory", "ModelMock", "SimConfig", "World"]
