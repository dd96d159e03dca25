"""mosaik's `util`: connections of sets of entities, and plots of a run."""

from __future__ import annotations

import random
from typing import Any, Iterable, List, Set, Union

from mosaikrun.entities import Entity
from mosaikrun.errors import ScenarioError
from mosaikrun.world import Attr, World


def connect_many_to_one(world: World, src_set: Iterable[Entity], dest: Entity, *attrs: Attr, **how: Any) -> None:
    """Connects each entity of the set to the one; the options are those of `World.connect`."""
    for src in src_set:
        world.connect(src, dest, *attrs, **how)


def connect_one_to_many(world: World, src: Entity, dest_set: Iterable[Entity], *attrs: Attr, **how: Any) -> None:
    """Connects the one entity to each of the set."""
    for dest in dest_set:
        world.connect(src, dest, *attrs, **how)


def connect_zip(world: World, src_set: Iterable[Entity], dest_set: Iterable[Entity], *attrs: Attr, **how: Any) -> None:
    """Connects the first to the first, the second to the second, and so on; both sets have equally many."""
    sources, targets = list(src_set), list(dest_set)
    if len(sources) != len(targets):
        raise ScenarioError(f"{len(sources)} entities can't be connected to {len(targets)} one to one")
    for src, dest in zip(sources, targets):
        world.connect(src, dest, *attrs, **how)


connect_one_to_one = connect_zip


def connect_randomly(
    world: World,
    src_set: Iterable[Entity],
    dest_set: Iterable[Entity],
    *attrs: Attr,
    evenly: bool = True,
    max_connects: float = float("inf"),
    seed: Union[int, str, None] = None,
    **how: Any,
) -> Set[Entity]:
    """Connects each entity of the first set to one of the second by chance, and returns those of the second.

    Evenly each of the second set gets as many as another, or one more. Else each gets at most `max_connects`. With a
    seed, or after `random.seed`, the connections are the same each time.
    """
    sources, targets = list(src_set), list(dest_set)
    drawn = random if seed is None else random.Random(seed)
    if not targets:
        raise ScenarioError("there is no entity to connect to")
    if not evenly and len(sources) > len(targets) * max_connects:
        raise ScenarioError(f"{len(sources)} entities don't fit on {len(targets)}, at most {max_connects} on each")
    chosen = evenly_drawn(drawn, len(sources), targets) if evenly else []
    counts: dict = {}
    while len(chosen) < len(sources):
        dest = targets[drawn.randint(0, len(targets) - 1)]
        chosen.append(dest)
        counts[dest] = counts.get(dest, 0) + 1
        if counts[dest] >= max_connects:
            targets.remove(dest)
    for src, dest in zip(sources, chosen):
        world.connect(src, dest, *attrs, **how)
    return set(chosen)


def evenly_drawn(drawn: Any, count: int, targets: List[Entity]) -> List[Entity]:
    """So many of the targets: all of them in an order drawn by chance, again and again."""
    chosen: List[Entity] = []
    while len(chosen) < count:
        drawn.shuffle(targets)
        chosen += targets[: count - len(chosen)]
    return chosen


def plotted(name: str, world: World, *args: Any, **options: Any) -> Any:
    """Draws one of the plots, by matplotlib and networkx."""
    from mosaikrun import plots

    return getattr(plots, name)(world, *args, **options)


def plot_dataflow_graph(world: World, *args: Any, **options: Any) -> Any:
    """Draws which simulator gives to which."""
    return plotted("plot_dataflow_graph", world, *args, **options)


def plot_execution_graph(world: World, *args: Any, **options: Any) -> Any:
    """Draws the steps of all simulators, and from which step each input came."""
    return plotted("plot_execution_graph", world, *args, **options)


def plot_execution_graph_st(world: World, *args: Any, **options: Any) -> Any:
    """Draws the execution graph with the simulated time to scale."""
    return plotted("plot_execution_graph_st", world, *args, **options)


def plot_execution_time(world: World, *args: Any, **options: Any) -> Any:
    """Draws how long each step took by the clock, over the simulated time."""
    return plotted("plot_execution_time", world, *args, **options)


def plot_execution_time_per_simulator(world: World, *args: Any, **options: Any) -> Any:
    """Draws how long the steps of each simulator took by the clock, together or simulator by simulator."""
    return plotted("plot_execution_time_per_simulator", world, *args, **options)
