"""Sequential execution, written anew after docs/rules.md: the report of a record."""

from __future__ import annotations

from typing import Any, Optional

from .asks_model import Asker, SetValue, compact
from .json_model import depth_of, is_number, is_whole
from .record_model import Conn, Reader, read

Tier = tuple[int, int]
MOST_TIME, BOUND, MOST_REQUESTS = 10**18, 2**63, 10_000


class Unsaid(Exception):
    """The messages don't come to a report."""


def after(conn: Conn, made: Tier) -> Tier:
    """Returns when a connection delivers what was made at a time."""
    if conn.way == "plain":
        return made
    return (made[0], made[1] + 1) if conn.way == "weak" else (made[0] + (conn.width or 1), 0)


class Execution:
    """The sequential execution of a record's plan over its messages."""

    def __init__(self, reader: Reader) -> None:
        self.plan = reader
        self.owners = [reader.models[model][0] for model, _, _ in reader.entities]
        self.said: list[list] = [[content for sim, content in reader.messages if sim == place] for place in self.sims()]
        self.taken = [0] * len(reader.sims)
        self.sent = [0] * len(reader.sims)
        self.due: list[set[Tier]] = [set() for _ in reader.sims]
        self.last: list[Optional[Tier]] = [None] * len(reader.sims)
        self.delivered: list[list[tuple[Tier, Any]]] = [[] for _ in reader.conns]
        self.given: list[tuple[Tier, SetValue]] = []
        self.made: dict[tuple[int, str], list[tuple[Tier, Any]]] = {}
        self.lines: list[list[str]] = [[f"sim {sim.name}"] for sim in reader.sims]
        self.steps: list[tuple[int, Tier, dict]] = []
        for place, sim in enumerate(reader.sims):
            self.due[place] |= {(time, 0) for time in sim.events + [0] * (sim.kind != "event-based")}
        for place, conn in enumerate(reader.conns):
            self.delivered[place] += [((0, 0), value) for value in conn.initial]

    def sims(self) -> range:
        """Returns the simulators' places."""
        return range(len(self.plan.sims))

    def reply(self, sim: int) -> Any:
        """Returns the content of a simulator's next message, a success reply to its next request."""
        if self.taken[sim] == len(self.said[sim]):
            raise Unsaid
        kind, number, content = self.said[sim][self.taken[sim]]
        if kind != 1 or number != self.plan.sims[sim].first + self.sent[sim]:
            raise Unsaid
        self.taken[sim] += 1
        self.sent[sim] += 1
        return content

    def value(self, place: int, conn: Conn, sim: int, now: Tier) -> list:
        """Returns the value that a connection gives at a step, in a list, empty where there is none."""
        before = None if conn.persistent else self.last[sim]
        seen = [one for one in self.delivered[place] if one[0] <= now and (before is None or one[0] > before)]
        if not seen:
            return []
        newest = max(time for time, _ in seen)
        return [[value for time, value in seen if time == newest][-1]]

    def inputs(self, sim: int, now: Tier) -> dict:
        """Returns the inputs of a step."""
        inputs: dict = {}
        for place, conn in enumerate(self.plan.conns):
            if self.owners[conn.target] != sim:
                continue
            for value in self.value(place, conn, sim, now):
                source = f"{self.plan.sims[self.owners[conn.source]].name}.{self.plan.entities[conn.source][1]}"
                attrs = inputs.setdefault(self.plan.entities[conn.target][1], {})
                attrs.setdefault(conn.target_attr, {})[source] = value
        before = self.last[sim]
        for at, given in self.given:
            if self.owners[given.entity] == sim and at <= now and (before is None or at > before):
                attrs = inputs.setdefault(self.plan.entities[given.entity][1], {})
                attrs.setdefault(given.attr, {})[given.source] = given.value
        return inputs

    def answer(self, sim: int, now: Tier) -> None:
        """Answers the requests of a step."""

        def look(entity: int, attr: str) -> list:
            seen = [one for one in self.made.get((entity, attr), []) if one[0] <= now]
            newest = max((time for time, _ in seen), default=now)
            return [value for time, value in seen if time == newest][-1:]

        for count in range(MOST_REQUESTS + 1):
            if self.taken[sim] == len(self.said[sim]) or self.said[sim][self.taken[sim]][0] != 0:
                return
            _, number, content = self.said[sim][self.taken[sim]]
            self.taken[sim] += 1
            line, values = Asker(self.plan, sim).answered(number, content, look)
            self.lines[sim].append(line)
            self.given += [((now[0] + 1, 0), value) for value in values]
        raise Unsaid

    def step(self, sim: int, now: Tier) -> None:
        """Takes a simulator's turn."""
        inputs = self.inputs(sim, now)
        self.lines[sim].append(f"step {now[0]}:{now[1]} {compact(inputs)}")
        self.steps.append((sim, now, inputs))
        self.last[sim] = now
        self.answer(sim, now)
        following = self.reply(sim)
        if following is None:
            if self.plan.sims[sim].kind == "time-based":
                raise Unsaid
        elif not is_number(following) or not now[0] < following <= MOST_TIME:
            raise Unsaid
        else:
            self.due[sim].add((following, 0))
        leaving = [(place, conn) for place, conn in enumerate(self.plan.conns) if self.owners[conn.source] == sim]
        if leaving:
            self.give(leaving, self.reply(sim), now)

    def give(self, leaving: list[tuple[int, Conn]], outputs: Any, now: Tier) -> None:
        """Delivers the outputs of a turn."""
        if not isinstance(outputs, dict):
            raise Unsaid
        time = outputs.get("time", now[0])
        if not is_number(time) or not now[0] <= time <= MOST_TIME:
            raise Unsaid
        made = (time, 0) if time > now[0] else now
        taken = set()
        for place, conn in leaving:
            values = outputs.get(self.plan.entities[conn.source][1], {})
            if not isinstance(values, dict):
                raise Unsaid
            if conn.source_attr in values:
                if (conn.source, conn.source_attr) not in taken:
                    taken.add((conn.source, conn.source_attr))
                    self.made.setdefault((conn.source, conn.source_attr), []).append((made, values[conn.source_attr]))
                self.deliver(place, conn, values[conn.source_attr], after(conn, made))

    def deliver(self, place: int, conn: Conn, value: Any, at: Tier) -> None:
        """Delivers a value over a connection."""
        if not is_whole(value) or depth_of(value) > 100:
            raise Unsaid
        if at[0] >= self.plan.until:
            return
        self.delivered[place].append((at, value))
        if conn.triggering:
            if at[1] > self.plan.loops:
                raise Unsaid
            self.due[self.owners[conn.target]].add(at)

    def report(self) -> str:
        """Returns the report."""
        ranked = sorted(self.sims(), key=lambda sim: self.plan.sims[sim].rank)
        now: Tier = (-1, 0)
        while True:
            left = [time for sim in self.sims() for time in self.due[sim] if time[0] < self.plan.until]
            if not left:
                break
            now = min(left)
            for sim in ranked:
                if now in self.due[sim]:
                    self.due[sim].remove(now)
                    self.step(sim, now)
        if any(self.taken[sim] < len(self.said[sim]) for sim in self.sims()):
            raise Unsaid
        return "\n".join(line for lines in self.lines for line in lines) + f"\nend {len(self.steps)}\n"


def report_of(raw: bytes) -> bytes:
    """Returns the report of a right record, empty where it comes to none."""
    try:
        return Execution(read(raw)).report().encode()
    except Unsaid:
        return b""


def number_of(value: Any) -> int:
    """Returns the number that a watched value counts as."""
    return value if is_number(value) and -BOUND <= value < BOUND else 0


def together(rule: str, numbers: list[int]) -> int:
    """Returns what a rule makes of numbers."""
    if rule != "sum":
        return {"least": min, "greatest": max, "last": lambda some: some[-1]}[rule](numbers)
    total = 0
    for number in numbers:
        total = max(-BOUND, min(BOUND - 1, total + number))
    return total


def table_of(execution: Execution, watch: dict) -> str:
    """Returns the table of a watch."""
    name, _, eid = watch["entity"].partition(".")
    rows = []
    for sim, now, inputs in execution.steps:
        sources = inputs.get(eid, {}).get(watch["attr"], {}) if execution.plan.sims[sim].name == name else {}
        if sources:
            numbers = [number_of(sources[source]) for source in sorted(sources)]
            rows.append((now, together(watch["rule"], numbers)))
    lines = [f"watch {watch['entity']} {watch['attr']} {watch['rule']}"]
    lines += [f"{time}:{tier} {number}" for (time, tier), number in rows]
    total = f" total {together(watch['rule'], [number for _, number in rows])}" if rows else ""
    return "\n".join([*lines, f"rows {len(rows)}{total}\n"])


def tables_of(raw: bytes, watches: list[dict]) -> bytes:
    """Returns the tables of a right record that has a report."""
    execution = Execution(read(raw))
    execution.report()
    return "".join(table_of(execution, watch) for watch in watches).encode()
