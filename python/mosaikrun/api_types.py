"""The names of `mosaik_api_v3.types`, for annotations where mosaik's own package isn't installed."""

from __future__ import annotations

from typing import Any, Dict, List

Attr = EntityId = FullId = ModelName = SimId = str
Time = int
ModelDescription = Dict[str, Any]
Meta = Dict[str, Any]
CreateResult = Dict[str, Any]
CreateResultChild = Dict[str, Any]
EntityGraph = Dict[str, Any]
EntitySpec = Dict[str, Any]
InputData = Dict[EntityId, Dict[Attr, Dict[FullId, Any]]]
OutputData = Dict[EntityId, Dict[Attr, Any]]
OutputRequest = Dict[EntityId, List[Attr]]
