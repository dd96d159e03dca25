"""mosaik's `World`: builds a scenario with its simulators started, and has the program run it.

While the scenario is built each simulator is started for its handshake, so that models, entities and children are
there. `run` ends these, writes the scenario, and the program starts all simulators anew and runs it.
"""

from __future__ import annotations

import contextlib
import pathlib
import weakref
from typing import Any, Dict, Iterable, Iterator, List, Optional, Sequence, Tuple, Union

from mosaikrun import carrying, program, steptimes
from mosaikrun.child import is_child
from mosaikrun.entities import Entity, ModelFactory, ModelMock
from mosaikrun.errors import ScenarioError, refused
from mosaikrun.handshake import Handshake
from mosaikrun.results import Results
from mosaikrun.study import MOST_ENTRIES, Scenario, Simulator, datum
from mosaikrun.starting import START_TIMEOUT, STOP_TIMEOUT, Entry

SimConfig = Dict[str, Dict[str, Any]]
Attr = Union[str, Tuple[str, str]]
NOTHING: Any = object()


class World:
    """A scenario as it is told so far, with its simulators; a context manager, which ends them."""

    def __init__(
        self,
        sim_config: SimConfig,
        mosaik_config: Optional[Dict[str, Any]] = None,
        time_resolution: float = 1.0,
        debug: bool = False,
        cache: bool = True,
        max_loop_iterations: int = 100,
        asyncio_loop: Any = None,
        skip_greetings: bool = True,
        configure_logging: bool = True,
        *,
        max_entries: int = MOST_ENTRIES,
    ) -> None:
        if is_child():
            what = "a script that has a simulator's class and builds a world does so"
            raise ScenarioError(f'{what} under `if __name__ == "__main__":`')
        if time_resolution != 1:
            raise refused(f"time_resolution is {time_resolution}: a unit of time is always 1", "Not there, and why")
        program.find()
        config = mosaik_config or {}
        self.sim_config, self.config, self.time_resolution = sim_config, config, float(time_resolution)
        self.debug, self.use_cache = debug, cache
        self.timeouts = (config.get("start_timeout", START_TIMEOUT), config.get("stop_timeout", STOP_TIMEOUT))
        self.max_loop_iterations = max_loop_iterations
        self.scenario = Scenario(max_loop_iterations, max_entries)
        self.sims: Dict[str, ModelFactory] = {}
        self.record: Optional[pathlib.Path] = None
        self.results: Optional[Results] = None
        self.has_run, self.in_group = False, False
        self.handshakes: List[Handshake] = []
        self.relations: List[Tuple[str, str]] = []
        self.fed: Dict[Tuple[str, str, str], tuple] = {}
        self.ending = weakref.finalize(self, ended, self.handshakes)

    def __enter__(self) -> World:
        return self

    def __exit__(self, *fault: Any) -> None:
        self.shutdown()

    def start(self, sim_name: str, sim_id: Optional[str] = None, **sim_params: Any) -> ModelFactory:
        """Starts a simulator for its handshake; its id is its name, `-` and a number."""
        if sim_id is not None:
            raise refused(f"sim_id={sim_id!r}: a simulator's id is its name and its number", "Not there, and why")
        if self.has_run:
            raise ScenarioError("this world has run; start a new one")
        if sim_name not in self.sim_config:
            known = ", ".join(sorted(self.sim_config))
            raise ScenarioError(f'simulator "{sim_name}" is not in the configuration, which has {known}')
        entry = Entry(sim_name, self.sim_config[sim_name])
        sid = f"{sim_name}-{sum(known.name == sim_name for known in self.scenario.simulators.values())}"
        if "time_resolution" in sim_params:
            raise refused(f"{sid}: time_resolution is no parameter, it is always 1", "Not there, and why")
        params = {key: datum(value, f"{sid}: {key}", entry.advice(key)) for key, value in sim_params.items()}
        simulator = Simulator(sid, sim_name, entry.how(sid), params, entry.advice)
        handshake = entry.handshake(sid, self.timeouts)
        self.handshakes.append(handshake)
        handshake.init(params)
        self.scenario.simulators[sid] = simulator
        self.sims[sid] = ModelFactory(self, simulator, handshake, entry)
        return self.sims[sid]

    @contextlib.contextmanager
    def group(self) -> Iterator[None]:
        """The simulators of a loop within one time; the program needs no word of them."""
        if self.in_group:
            raise refused("a group within a group", "Not there, and why")
        self.in_group = True
        try:
            yield
        finally:
            self.in_group = False

    def connect(
        self,
        src: Entity,
        dest: Entity,
        *attr_pairs: Attr,
        async_requests: bool = False,
        time_shifted: Union[bool, int] = False,
        initial_data: Optional[Dict[str, Any]] = None,
        weak: bool = False,
        **others: Any,
    ) -> None:
        """Connects outputs of an entity to inputs of another, as mosaik does."""
        for name in others:
            raise refused(f"connect has no {name}", "Not there, and why")
        pairs = list(dict.fromkeys((pair, pair) if isinstance(pair, str) else tuple(pair) for pair in attr_pairs))
        how = {"time_shifted": time_shifted, "weak": bool(weak), "async_requests": bool(async_requests)}
        if sum(bool(kind) for kind in how.values()) > 1:
            raise refused(f"{src.full_id} to {dest.full_id}: two of {', '.join(how)}", "What maps to what")
        kept = {name: datum(value, f"initial_data[{name!r}]") for name, value in (initial_data or {}).items()}
        self._test(src, dest, pairs, how, kept)
        told = [pair for pair in pairs if self._feeds(src, dest, pair, how)]
        if told or async_requests or not pairs:
            self.scenario.connection(src.full_id, dest.full_id, told, **how, initial_data=kept)
        self.relations.append((src.full_id, dest.full_id))

    def connect_one(
        self,
        src: Entity,
        dest: Entity,
        src_attr: str,
        dest_attr: Optional[str] = None,
        *,
        time_shifted: Union[bool, int] = False,
        weak: bool = False,
        initial_data: Any = NOTHING,
        **others: Any,
    ) -> None:
        """Connects one output to one input; `initial_data` is the output's first value."""
        kept = None if initial_data is NOTHING else {src_attr: initial_data}
        pair = (src_attr, dest_attr or src_attr)
        self.connect(src, dest, pair, time_shifted=time_shifted, weak=weak, initial_data=kept, **others)

    def connect_async_requests(self, src: ModelFactory, dest: ModelFactory) -> None:
        """Lets the second simulator ask the first for data and set them."""
        if not src.entities or not dest.entities:
            raise refused("connect_async_requests before both simulators have an entity", "Not there, and why")
        self.connect(src.entities[0], dest.entities[0], async_requests=True)

    def _test(self, src: Entity, dest: Entity, pairs: Sequence[tuple], how: dict, kept: dict) -> None:
        """Refuses a connection that can't be; the program would do so at the run."""
        between = f"{src.full_id} to {dest.full_id}"
        shifted = how["time_shifted"]
        if not isinstance(shifted, bool) and (not isinstance(shifted, int) or shifted < 1):
            raise ScenarioError(f"{between}: time_shifted is {shifted!r}, and not a whole number from 1 on")
        if src.sid == dest.sid and not shifted and not how["weak"] and pairs:
            raise refused(f"{between}: a plain connection within one simulator", "Traps")
        for output, attr in pairs:
            for entity, name, takes_any in ((src, output, False), (dest, attr, True)):
                model = entity.model_mock.told
                if name not in model.get("attrs", ()) and not (takes_any and model.get("any_inputs")):
                    raise ScenarioError(f"{between}: {entity.full_id}, a {entity.type}, has no attribute {name}")
            if shifted and output not in kept and src.is_persistent(output):
                raise refused(f"{between}: no initial_data for {output}, which is time-shifted", "Traps")
        for name in kept:
            if not (shifted or how["weak"]) or name not in [output for output, _ in pairs]:
                raise refused(
                    f"{between}: initial_data for {name}, which is no delayed output of it", "What maps to what"
                )

    def _feeds(self, src: Entity, dest: Entity, pair: Tuple[str, str], how: dict) -> bool:
        """Whether this pair is new: it may come twice in the same way, but an input has one output of an entity."""
        key, told = (src.full_id, dest.full_id, pair[1]), (pair[0], how)
        before = self.fed.setdefault(key, told)
        if before != told:
            what = f"{dest.full_id} gets {pair[1]} from {src.full_id} twice: from its {before[0]} and its {pair[0]}"
            raise refused(what, "Traps")
        return before is told

    def set_initial_event(self, sid: str, time: int = 0) -> None:
        """Has a simulator step at this time besides."""
        if sid not in self.scenario.simulators:
            raise ScenarioError(f"no simulator has the id {sid}")
        self.scenario.simulators[sid].initial_events.append(time)

    def get_data(self, entity_set: Iterable[Entity], *attributes: str) -> Dict[Entity, Dict[str, Any]]:
        """What the simulators of these entities give before the run."""
        wanted: Dict[str, Dict[str, Entity]] = {}
        for entity in entity_set:
            wanted.setdefault(entity.sid, {})[entity.eid] = entity
        found: Dict[Entity, Dict[str, Any]] = {}
        for sid, entities in wanted.items():
            asked = {eid: list(attributes) for eid in entities}
            given = self.sims[sid].asked("data").ask("get_data", asked)
            found.update((entity, given.get(eid, {})) for eid, entity in entities.items())
        return found

    @property
    def entity_graph(self) -> Any:
        """All entities and their relations, as a graph of networkx."""
        import networkx

        graph = networkx.Graph()
        for sim in self.sims.values():
            for entity in sim.all_entities.values():
                graph.add_node(entity.full_id, sid=entity.sid, type=entity.type)
        graph.add_edges_from(self.relations)
        return graph

    def write(self, path: Union[str, pathlib.Path], until: int) -> None:
        """Writes the scenario file; nothing is run."""
        pathlib.Path(path).write_text(carrying.text_of(self.scenario, until), encoding="utf-8")

    def run(
        self,
        until: int,
        rt_factor: Optional[float] = None,
        rt_strict: Union[bool, float] = False,
        print_progress: Union[bool, str] = True,
        lazy_stepping: bool = True,
        *,
        record: Union[str, pathlib.Path, None] = None,
    ) -> Results:
        """Runs the scenario by the program, and returns its Results; a fault is a RunError."""
        if self.has_run:
            raise RuntimeError("Simulation has already been run and can only be run once for a World instance.")
        plan = carrying.planned(self.scenario, until, rt_factor, rt_strict, record)
        self.has_run, self.record, self.until, self.rt_factor = True, plan.record, plan.until, rt_factor
        try:
            ended(self.handshakes)
            with steptimes.asked_for(plan.record, self.debug):
                report = carrying.carry_out(plan)
        finally:
            self.shutdown()
        self.results = Results(plan.record, report)
        return self.results

    def shutdown(self) -> None:
        """Ends the simulators that were started while the scenario was built."""
        ended(self.handshakes)


def ended(handshakes: List[Handshake]) -> None:
    """Ends simulators that were started while the scenario was built, the last one first."""
    while handshakes:
        with contextlib.suppress(Exception):
            handshakes.pop().end()
