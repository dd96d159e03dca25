"""Plots of a run, under the names and parameters of mosaik's `mosaik.util`; they need matplotlib and networkx.

Each takes a world that has run, `Results`, or the path of a record, and saves a picture, whose path it returns.
"""
from __future__ import annotations

import os
import pathlib
from bisect import bisect_right
from typing import Any, Dict, Iterable, List, NamedTuple, Optional, Tuple, Union

from mosaikrun import libraries
from mosaikrun.record import Ask, Connection, Message
from mosaikrun.results import Results
from mosaikrun.steptimes import StepTime

STANDARD_DPI = 600
STANDARD_FORMAT = "png"
# how each kind of connection is drawn: colour, line, name in the legend
KINDS = {
    "plain": ("#333333", "-", "plain"),
    "weak": ("#1f77b4", "--", "weak: the next round of the same time"),
    "shift": ("#d62728", "-", "time-shifted"),
    "async": ("#2ca02c", ":", "asynchronous requests"),
}
# more arrows than these are drawn as lines, which take less time
MOST_ARROWS = 600
MOST_LABELS = 25
# of the dataflow graph, in inches: between columns, from row to row, and half of the height of a name
GAP, ROW, HALF_HEIGHT = 1.5, 0.8, 0.16
# how many simulators make a column tall
MANY = 12
MOST_INCHES, MOST_PIXELS = 40.0, 12_000

Slice = Optional[Tuple[Optional[int], Optional[int]]]
Moment = Tuple[int, int]
Point = Tuple[float, float]


class Node(NamedTuple):
    """A step in the execution graph."""

    simulator: str
    time: int
    tier: int


def results_of(world: Any) -> Results:
    """The results of a world that has run, of a record's path, or the results themselves."""
    if isinstance(world, Results):
        return world
    if isinstance(world, (str, os.PathLike)):
        return Results.load(world)
    for found in (getattr(world, "results", None), getattr(world, "record", None)):
        if isinstance(found, Results):
            return found
        if isinstance(found, (str, os.PathLike)) and os.path.exists(found):
            return Results.load(found)
    raise ValueError("this world has no results: a plot is made after its run, or of a record")


def dataflow_graph(world: Any) -> Any:
    """The simulators, and an edge for each pair of them and kind of connection: a MultiDiGraph of networkx.

    An edge has its `kind`, its `delay`, and in `attributes` the pairs of attributes that it connects.
    """
    networkx = libraries.needed("networkx", "The dataflow graph")
    record = results_of(world).record
    graph = networkx.MultiDiGraph()
    for simulator in record.simulators:
        graph.add_node(simulator.id, rank=simulator.rank, type=simulator.type)
    edges: Dict[Tuple[str, str, str, int], set] = {}
    for connection in record.connections:
        key = (connection.source.simulator, connection.target.simulator, connection.kind, connection.delay)
        edges.setdefault(key, set()).add((connection.source_attribute, connection.target_attribute))
    for source, target in record.asynchronous:
        edges.setdefault((source, target, "async", 0), set())
    for (source, target, kind, delay), attributes in edges.items():
        graph.add_edge(source, target, key=(kind, delay), kind=kind, delay=delay, attributes=sorted(attributes))
    return graph


def execution_graph(world: Any) -> Any:
    """The steps, and an edge to each from the steps whose outputs it was sent: a DiGraph of networkx.

    A node is (simulator, time, tier). An edge has the `kind` of the connection, `async` where the value was set by a
    request.
    """
    networkx = libraries.needed("networkx", "The execution graph")
    results = results_of(world)
    graph = networkx.DiGraph()
    for part in results.report.parts:
        graph.add_nodes_from(Node(part.simulator, step.time, step.tier) for step in part.steps)
    arrivals = Arrivals(results)
    for time, tier, simulator, entity, attribute, source, _ in results.rows("inputs"):
        found = arrivals.maker(source, entity, attribute, (time, tier))
        if found is not None and found[0] in graph:
            graph.add_edge(found[0], Node(simulator, time, tier), kind=found[1])
    return graph


class Arrivals:
    """Says which step made the value that an input has."""

    def __init__(self, results: Results):
        record = results.record
        self._connections: Dict[Tuple[str, str, str], Connection] = {}
        for one in record.connections:
            self._connections[one.source.full_id, one.target.full_id, one.target_attribute] = one
        self._simulators = {entity.full_id: entity.simulator for entity in record.entities}
        # by output, its times and the steps that made it, both in rising order; by simulator, its steps
        self._made: Dict[Tuple[str, str], Tuple[List[Moment], List[Node]]] = {}
        self._steps: Dict[str, List[Moment]] = {}
        for entry in record.entries:
            if isinstance(entry, Ask):
                self._steps.setdefault(entry.simulator, []).append((entry.time, entry.tier))
            else:
                self._add(entry)

    def _add(self, message: Message) -> None:
        """Adds the outputs of a message."""
        if message.step is None:
            return
        for eid, attribute, _ in message.outputs():
            time, tier = message.output_time()
            times, nodes = self._made.setdefault((f"{message.simulator}.{eid}", attribute), ([], []))
            if time is not None and tier is not None:
                place = bisect_right(times, (time, tier))
                times.insert(place, (time, tier))
                nodes.insert(place, Node(message.simulator, message.step.time, message.step.tier))

    def maker(self, source: str, target: str, attribute: str, at: Moment) -> Optional[Tuple[Node, str]]:
        """The step that made the value, and the kind of the connection; None where it is an initial value."""
        connection = self._connections.get((source, target, attribute))
        if connection is None:
            simulator = self._simulators.get(source, "")
            steps = self._steps.get(simulator, [])
            place = bisect_right(steps, at)
            return (Node(simulator, *steps[place - 1]), "async") if place else None
        time, tier = at
        last = {"plain": (time, tier), "weak": (time, tier - 1), "shift": (time - connection.delay + 1, -1)}
        times, nodes = self._made.get((source, connection.source_attribute), ([], []))
        place = bisect_right(times, last[connection.kind])
        return (nodes[place - 1], connection.kind) if place else None


def plot_dataflow_graph(
    world: Any,
    folder: str = "figures",
    hdf5path: Optional[str] = None,
    dpi: int = STANDARD_DPI,
    format: str = STANDARD_FORMAT,
    show_plot: bool = True,
) -> pathlib.Path:
    """Draws the simulators and their connections; a simulator stands right of those whose outputs it waits for."""
    pyplot = libraries.needed("matplotlib.pyplot", "A plot")
    graph = dataflow_graph(world)
    places = layered(graph)
    right, top = max(x for x, _ in places.values()), max(y for _, y in places.values())
    # an inch is a unit where all fits, and arrows bend in the picture as they do in its units
    scale = min(1.0, MOST_INCHES / max(right + 2.4, top + 2.2))
    figure, axes = pyplot.subplots(figsize=(scale * (right + 2.4), max(3.0, scale * (top + 2.2))))
    axes.set(xlim=(-1.2, right + 1.2), ylim=(-0.8, top + 0.8), aspect="equal")
    draw_simulators(axes, graph, places, scale)
    between: Dict[frozenset, List[Any]] = {}
    for source, target, edge in graph.edges(data=True):
        between.setdefault(frozenset((source, target)), []).append((source, target, edge))
    for edges in between.values():
        for number, (source, target, edge) in enumerate(edges):
            ends = Box(*places[source], half_width(source)), Box(*places[target], half_width(target))
            bend = 0.0 if len(edges) == 1 and is_near(graph, source, target) else 0.16 * (number + 1)
            # a longer arrow goes round what stands between: above it from a column that stands higher
            is_above = graph.nodes[source]["column"] % 2 == 1 and not is_near(graph, source, target)
            draw_connection(axes, *ends, edge, -bend if is_above else bend, scale, len(graph.edges) <= MOST_LABELS)
    legend(axes, {edge["kind"] for *_, edge in graph.edges(data=True)})
    axes.set_title("Dataflow graph")
    axes.set_axis_off()
    return finished(figure, "dataflowGraph", folder, hdf5path, dpi, format, show_plot)


class Box(NamedTuple):
    """Where a simulator's name stands, and half of its width, in inches."""

    x: float
    y: float
    half: float

    def border(self, way: Point) -> Point:
        """Where a line that leaves in this direction meets the border."""
        across, up = abs(way[0]) or 1e-9, abs(way[1]) or 1e-9
        part = min(self.half / across, HALF_HEIGHT / up)
        return self.x + part * way[0], self.y + part * way[1]


def half_width(name: str) -> float:
    """Half of the width of a simulator's name with its border, in inches."""
    return 0.037 * len(name) + 0.13


def is_near(graph: Any, first: str, second: str) -> bool:
    """Whether two simulators stand in columns that are neighbours, or in the same one."""
    return abs(graph.nodes[first]["column"] - graph.nodes[second]["column"]) <= 1


def layered(graph: Any) -> Dict[str, Point]:
    """Where each simulator stands, in inches: in columns, by plain connections; a node gets its `column`."""
    columns: Dict[int, List[str]] = {}
    for name in sorted(graph.nodes, key=lambda name: graph.nodes[name]["rank"]):
        before = [
            graph.nodes[source].get("column", -1)
            for source, _, edge in graph.in_edges(name, data=True)
            if edge["kind"] in ("plain", "async")
        ]
        graph.nodes[name]["column"] = max(before, default=-1) + 1
        columns.setdefault(graph.nodes[name]["column"], []).append(name)
    rows = max(map(len, columns.values()))
    # between tall columns there is more room, and names stand closer
    height = ROW if rows <= MANY else 0.6 * ROW
    width = 2 * max(map(half_width, graph.nodes)) + max(GAP, 0.25 * height * rows)
    places: Dict[str, Point] = {}
    for number, names in sorted(columns.items()):
        names.sort(key=lambda name: -height_before(graph, places, name))
        # columns are set off against one another, so that no arrow runs through a simulator between
        top = height * (rows + len(names)) / 2 + (0.3 if number % 2 else 0.0)
        for row, name in enumerate(names):
            places[name] = (width * number, top - height * (row + 1))
    return places


def height_before(graph: Any, places: Dict[str, Point], name: str) -> float:
    """How high those stand on average whose outputs this simulator gets, as far as they have their places."""
    heights = [places[source][1] for source in graph.predecessors(name) if source in places]
    return sum(heights) / len(heights) if heights else 0.0


def draw_simulators(axes: Any, graph: Any, places: Dict[str, Point], scale: float) -> None:
    """Draws the simulators, in a colour for each type."""
    colours = {"time-based": "#cfe2f3", "event-based": "#fce5cd", "hybrid": "#d9ead3"}
    types = {name: graph.nodes[name]["type"] for name in graph.nodes}
    for name, (x, y) in places.items():
        box = {"boxstyle": "round,pad=0.45", "facecolor": colours[types[name]], "edgecolor": "#555555"}
        axes.text(x, y, name, ha="center", va="center", fontsize=10 * scale, bbox=box, zorder=3)
    for kind, colour in colours.items():
        if kind in types.values():
            axes.scatter([], [], marker="s", s=90, color=colour, edgecolors="#555555", label=kind)


def draw_connection(
    axes: Any, source: Box, target: Box, edge: Dict[str, Any], bend: float, scale: float, with_label: bool
) -> None:
    """Draws an arrow for the connections of a kind between two simulators, with their attributes."""
    colour, line, _ = KINDS[edge["kind"]]
    start, end = source[:2], target[:2]
    if source == target:
        # an arrow from a simulator to itself is a loop above it
        bend = -1.2
        start, end = (source.x - 0.2, source.y + HALF_HEIGHT), (source.x + 0.2, source.y + HALF_HEIGHT)
    else:
        width, height = end[0] - start[0], end[1] - start[1]
        bent = (start[0] + end[0]) / 2 + bend * height, (start[1] + end[1]) / 2 - bend * width
        start = source.border((bent[0] - start[0], bent[1] - start[1]))
        end = target.border((bent[0] - end[0], bent[1] - end[1]))
    style = {"arrowstyle": "-|>", "color": colour, "linestyle": line, "mutation_scale": 13 * scale, "linewidth": scale}
    shape = {"shrinkA": 0, "shrinkB": 0, "connectionstyle": f"arc3,rad={bend}"}
    axes.annotate("", xy=end, xytext=start, arrowprops={**style, **shape}, zorder=2)
    words = [f"{output} → {taken}" if output != taken else output for output, taken in edge["attributes"][:3]]
    if len(edge["attributes"]) > 3:
        words.append(f"and {len(edge['attributes']) - 3} more")
    if edge["kind"] == "shift":
        words.append(f"{edge['delay']} later")
    if with_label and words:
        width, height = end[0] - start[0], end[1] - start[1]
        middle = ((start[0] + end[0]) / 2 + bend * height / 2, (start[1] + end[1]) / 2 - bend * width / 2)
        box = {"boxstyle": "round,pad=0.1", "facecolor": "white", "edgecolor": "none", "alpha": 0.85}
        axes.text(
            *middle, "\n".join(words), fontsize=7 * scale, color=colour, ha="center", va="center", bbox=box, zorder=2.5
        )


def legend(axes: Any, kinds: Iterable[str]) -> None:
    """Says what the colours and lines of arrows mean, where there is more than one kind."""
    from matplotlib.lines import Line2D

    handles, labels = axes.get_legend_handles_labels()
    for kind in KINDS:
        if kind in kinds:
            colour, line, name = KINDS[kind]
            handles.append(Line2D([], [], color=colour, linestyle=line))
            labels.append(name)
    if handles:
        axes.legend(handles, labels, loc="upper center", bbox_to_anchor=(0.5, -0.02), ncol=3, fontsize=8, frameon=False)


def plot_execution_graph(
    world: Any,
    title: str = "",
    folder: str = "figures",
    hdf5path: Optional[str] = None,
    dpi: int = STANDARD_DPI,
    format: str = STANDARD_FORMAT,
    show_plot: bool = True,
    save_plot: bool = True,
    slice: Slice = None,
) -> Optional[pathlib.Path]:
    """Draws the steps of each simulator, and from where each got its inputs; each time and round has a column.

    `slice` takes a part of the times in which there are steps, as a slice of Python does: (0, 5) the first five,
    (-5, None) the last five.
    """
    graph, nodes = of_slice(execution_graph(world), slice)
    columns = sorted({(node.time, node.tier) for node in nodes})
    place = {column: number for number, column in enumerate(columns)}
    names = [f"{time}:{tier}" if (time, 1) in place else str(time) for time, tier in columns]
    figure, axes = draw_execution(world, graph, {node: place[node.time, node.tier] for node in nodes}, len(columns))
    step = -(-len(columns) // 40)
    axes.set_xticks(range(0, len(columns), step))
    axes.set_xticklabels(names[::step], rotation=90 if max(map(len, names), default=0) > 3 else 0)
    axes.set_xlabel("Time, and the round within it" if any(tier for _, tier in columns) else "Time")
    axes.set_title(title or "Execution graph")
    return finished(figure, "executionGraph", folder, hdf5path, dpi, format, show_plot, save_plot)


def plot_execution_graph_st(
    world: Any,
    title: str = "",
    folder: str = "figures",
    hdf5path: Optional[str] = None,
    dpi: int = STANDARD_DPI,
    format: str = STANDARD_FORMAT,
    show_plot: bool = True,
    save_plot: bool = True,
    slice: Slice = None,
) -> Optional[pathlib.Path]:
    """Draws the execution graph with the simulated time to scale; rounds of a time stand close together."""
    graph, nodes = of_slice(execution_graph(world), slice)
    rounds = max((node.tier for node in nodes), default=0) + 1
    places = {node: node.time + 0.7 * node.tier / rounds for node in nodes}
    wide = len({node.time for node in nodes})
    figure, axes = draw_execution(world, graph, places, wide)
    axes.xaxis.get_major_locator().set_params(integer=True)
    axes.set_xlabel("Time")
    axes.set_title(title or "Execution graph over simulated time")
    return finished(figure, "executionGraph_st", folder, hdf5path, dpi, format, show_plot, save_plot)


def plot_execution_time(
    world: Any,
    folder: str = "figures",
    hdf5path: Optional[str] = None,
    dpi: int = STANDARD_DPI,
    format: str = STANDARD_FORMAT,
    show_plot: bool = True,
    slice: Slice = None,
) -> pathlib.Path:
    """Draws how long each step took by the clock, over the simulated time, for the simulators that noted it.

    These are those that `mosaikrun.child` serves, in a world that is made with `debug=True`.
    """
    pyplot = libraries.needed("matplotlib.pyplot", "A plot")
    figure, axes = pyplot.subplots(figsize=(9, 5))
    for simulator, steps in times_of(world, slice).items():
        axes.plot([step.time for step in steps], [step.seconds for step in steps], ".-", linewidth=0.8, label=simulator)
    axes.set(xlabel="Time", ylabel="Seconds by the clock", title="Execution time of each step", yscale="log")
    axes.grid(alpha=0.25)
    axes.legend(loc="center left", bbox_to_anchor=(1.0, 0.5), fontsize=8, frameon=False)
    return finished(figure, "executionTime", folder, hdf5path, dpi, format, show_plot)


def plot_execution_time_per_simulator(
    world: Any,
    folder: str = "figures",
    hdf5path: Optional[str] = None,
    dpi: int = STANDARD_DPI,
    format: str = STANDARD_FORMAT,
    show_plot: bool = True,
    plot_per_simulator: bool = False,
    slice: Slice = None,
) -> Any:
    """Draws how long all steps of each simulator took together, for the simulators that noted it.

    With `plot_per_simulator` there is a picture for each of them, of its steps; their paths are returned as a list.
    """
    pyplot = libraries.needed("matplotlib.pyplot", "A plot")
    times = times_of(world, slice)
    if plot_per_simulator:
        return [one_simulator(name, steps, folder, hdf5path, dpi, format, show_plot) for name, steps in times.items()]
    figure, axes = pyplot.subplots(figsize=(9, min(MOST_INCHES, 0.4 * len(times) + 1.6)))
    names = list(times)[::-1]
    totals = [sum(step.seconds for step in times[name]) for name in names]
    bars = axes.barh(names, totals, color=[f"C{number % 10}" for number in range(len(names))][::-1])
    for bar, name, total in zip(bars, names, totals):
        words = f" {len(times[name])} steps, {1000 * total / len(times[name]):.3g} ms each"
        axes.text(bar.get_width(), bar.get_y() + bar.get_height() / 2, words, va="center", fontsize=8)
    axes.set(xlabel="Seconds by the clock", title="Execution time of each simulator", xlim=(0, 1.4 * max(totals)))
    return finished(figure, "executionTimePerSimulator", folder, hdf5path, dpi, format, show_plot)


def one_simulator(
    name: str, steps: List[StepTime], folder: str, hdf5path: Optional[str], dpi: int, format: str, show_plot: bool
) -> pathlib.Path:
    """Draws how long each step of a simulator took by the clock."""
    from matplotlib import pyplot

    figure, axes = pyplot.subplots(figsize=(9, 4))
    axes.plot([step.time for step in steps], [step.seconds for step in steps], ".-", linewidth=0.8)
    axes.set(xlabel="Time", ylabel="Seconds by the clock", title=f"Execution time of {name}", ylim=(0, None))
    axes.grid(alpha=0.25)
    return finished(figure, f"executionTime_{name}", folder, hdf5path, dpi, format, show_plot)


def times_of(world: Any, part: Slice) -> Dict[str, List[StepTime]]:
    """The step times of each simulator that has some, in the order of the plan, or those of a slice of its steps."""
    results = results_of(world)
    first, last = part or (None, None)
    times = {name: results.times[name][first:last] for name in results.simulators if results.times.get(name)}
    if not any(times.values()):
        raise ValueError(
            "this run has no step times: they are noted by simulators that are Python classes, in a world "
            "that is made with debug=True"
        )
    return {name: steps for name, steps in times.items() if steps}


def of_slice(graph: Any, part: Slice) -> Tuple[Any, List[Node]]:
    """The part of the graph that these times have, and its nodes."""
    times = sorted({node.time for node in graph.nodes})
    chosen = set(times[part[0] : part[1]] if part is not None else times)
    nodes = [node for node in graph.nodes if node.time in chosen]
    return graph.subgraph(nodes), nodes


def draw_execution(world: Any, graph: Any, places: Dict[Node, float], columns: int) -> Tuple[Any, Any]:
    """Draws the steps at these places, a row for each simulator, and the arrows between."""
    pyplot = libraries.needed("matplotlib.pyplot", "A plot")
    from matplotlib.collections import LineCollection

    simulators = results_of(world).simulators
    row = {name: -number for number, name in enumerate(simulators)}
    size = (min(MOST_INCHES, max(7.0, 0.42 * columns + 2.5)), min(MOST_INCHES, max(3.0, 0.42 * len(simulators) + 1.6)))
    figure, axes = pyplot.subplots(figsize=size)
    points = {node: (places[node], row[node.simulator]) for node in graph.nodes}
    few = graph.number_of_edges() <= MOST_ARROWS
    for kind, (colour, line, _) in KINDS.items():
        edges = [(source, target) for source, target, of in graph.edges(data="kind") if of == kind]
        if few:
            style = {
                "arrowstyle": "-|>",
                "color": colour,
                "linestyle": line,
                "shrinkA": 4,
                "shrinkB": 5,
                "connectionstyle": "arc3,rad=0.08",
                "alpha": 0.8,
                "linewidth": 1,
            }
            for source, target in edges:
                axes.annotate("", xy=points[target], xytext=points[source], arrowprops=style)
        else:
            lines = [(points[source], points[target]) for source, target in edges]
            axes.add_collection(LineCollection(lines, colors=colour, linestyles=line, linewidths=0.5, alpha=0.4))
    for number, name in enumerate(simulators):
        some = [point for node, point in points.items() if node.simulator == name]
        axes.scatter([x for x, _ in some], [y for _, y in some], s=36 if few else 12, color=f"C{number % 10}", zorder=3)
    axes.set_yticks([row[name] for name in simulators])
    axes.set_yticklabels(simulators)
    axes.set_ylim(-len(simulators) + 0.4, 0.6)
    axes.grid(axis="x", alpha=0.25)
    legend(axes, {of for *_, of in graph.edges(data="kind")})
    place_legend_below(axes, size[1])
    return figure, axes


def place_legend_below(axes: Any, height: float) -> None:
    """Puts the legend below the names of the axis, whatever the height of the picture."""
    box = axes.get_legend()
    if box is not None:
        box.set_bbox_to_anchor((0.5, -0.75 / height), transform=axes.transAxes)


def finished(
    figure: Any,
    name: str,
    folder: str,
    hdf5path: Optional[str],
    dpi: int,
    format: str,
    show_plot: bool,
    save_plot: bool = True,
) -> Any:
    """Saves the picture and shows it where there is a screen; gives its path, or None where it isn't saved."""
    import matplotlib
    from matplotlib import pyplot

    path: Optional[pathlib.Path] = None
    if save_plot:
        path = (
            pathlib.Path(f"{os.path.splitext(hdf5path)[0]}_{name}.{format}")
            if hdf5path
            else pathlib.Path(folder) / f"{name}.{format}"
        )
        path.parent.mkdir(parents=True, exist_ok=True)
        dpi = min(dpi, int(MOST_PIXELS / max(figure.get_size_inches())))
        figure.savefig(path, dpi=dpi, format=format, bbox_inches="tight")
    if show_plot and matplotlib.get_backend().lower() in {name.lower() for name in matplotlib.rcsetup.interactive_bk}:
        pyplot.show()
    pyplot.close(figure)
    return path
