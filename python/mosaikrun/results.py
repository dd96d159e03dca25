"""The results of a run, from its record: what each simulator was sent, what it gave, and its steps, as tables.

    results = Results.load("study.record")
    results.inputs(entity="Grid-0.0")              a pandas DataFrame, or a list of dicts where pandas isn't installed
    results.series("Grid-0.0", "out").plot()
    results.to_csv("inputs.csv", simulator="House-*")

The inputs are those that `mosaikrun replay RECORD` computes. Outputs and steps stand in the record itself, so they are
there also where the run ended early or the record was cut.
"""
from __future__ import annotations

import csv
import os
import pathlib
import re
import tempfile
from functools import cached_property
from typing import Any, Dict, Iterable, Iterator, List, Optional, Sequence, Set, Tuple, Union

from mosaikrun import libraries, program, steptimes
from mosaikrun.record import Message, NoRecord, Record, Report, read_record, read_report
from mosaikrun.steptimes import StepTime
from mosaikrun.tables import StepTable, cell, is_whole

Names = Union[None, str, Iterable[str]]
Path = Union[str, os.PathLike]
Row = Tuple[Any, ...]
# the tables and their columns
COLUMNS = {
    "inputs": ["time", "tier", "simulator", "entity", "attribute", "source", "value"],
    "outputs": ["time", "tier", "simulator", "entity", "attribute", "value"],
    "steps": ["time", "tier", "simulator", "max_advance", "next"],
}


def identity(status: os.stat_result) -> Tuple[int, ...]:
    """What tells a file from another one, and from itself after a change."""
    return status.st_dev, status.st_ino, status.st_size, status.st_mtime_ns


class Results:
    """The results of one run.

    A table is `inputs`, `outputs` or `steps`. Its rows can be selected by names: `simulator`, `entity` (a full id),
    `attribute` and `source` (a full id), each a name, or a list of names; `*` in a name stands for any text. A name
    that the study hasn't is a KeyError.
    """

    def __init__(self, record: Path, report: Optional[str] = None):
        """The results of the run whose record this is; `report` is its report where that is known already."""
        self.path = pathlib.Path(record).absolute()
        self._report = report
        with open(self.path, "rb") as file:
            self._identity = identity(os.fstat(file.fileno()))
            self._record = read_record(file)

    @classmethod
    def load(cls, record: Path) -> Results:
        """The results of the run whose record lies in this file."""
        return cls(record)

    def __repr__(self) -> str:
        """The record's name, and how much it has."""
        entries = len(self._record.entries)
        return f"<Results of {self.path}: {len(self._record.simulators)} simulators, {entries} entries>"

    @cached_property
    def record(self) -> Record:
        """The record; one of version 1 is made version 2 of, which has the times, where its replay succeeds."""
        if self._record.version == 2:
            return self._record
        with tempfile.TemporaryDirectory() as folder:
            newer = pathlib.Path(folder) / "newer.record"
            migrated = program.call("migrate", str(self._file()), str(newer))
            return read_record(newer) if migrated.returncode == 0 else self._record

    @cached_property
    def report(self) -> Report:
        """The report, computed by `mosaikrun replay`; `RunError` says why there is none."""
        return read_report((self._report or program.told(["replay", str(self._file())])).encode())

    @cached_property
    def times(self) -> Dict[str, List[StepTime]]:
        """How long each step took by the clock, by simulator; none where the run didn't note it."""
        return steptimes.read(steptimes.folder_of(self.path)) if self._file() == self.path else {}

    @property
    def is_whole(self) -> bool:
        """Whether the record is whole, and not cut or damaged."""
        return self._record.is_whole

    @property
    def missing(self) -> List[str]:
        """What the record lacks, in words."""
        return self._record.missing

    @property
    def simulators(self) -> List[str]:
        """The ids of the simulators, in the order of the plan."""
        return [simulator.id for simulator in self._record.simulators]

    @property
    def entities(self) -> List[str]:
        """The full ids of the entities, in the order of the plan."""
        return [entity.full_id for entity in self._record.entities]

    def inputs(
        self,
        *,
        simulator: Names = None,
        entity: Names = None,
        attribute: Names = None,
        source: Names = None,
    ) -> Any:
        """What the simulators were sent in their steps: a DataFrame, or a list of dicts without pandas."""
        return self.frame("inputs", simulator=simulator, entity=entity, attribute=attribute, source=source)

    def outputs(self, *, simulator: Names = None, entity: Names = None, attribute: Names = None) -> Any:
        """What the simulators gave and a connection takes: a DataFrame, or a list of dicts without pandas.

        The time is that of the making: the output time where the simulator gave a later one, else its step's.
        """
        return self.frame("outputs", simulator=simulator, entity=entity, attribute=attribute)

    def steps(self, *, simulator: Names = None) -> Any:
        """The steps, each with the time of the next one that the simulator answered, as `inputs` gives them."""
        return self.frame("steps", simulator=simulator)

    def frame(self, table: str = "inputs", **selection: Names) -> Any:
        """A table as a DataFrame, or as a list of dicts where pandas isn't installed."""
        pandas = libraries.found("pandas")
        rows = self.rows(table, **selection)
        if pandas is None:
            return [dict(zip(COLUMNS[table], row)) for row in rows]
        frame = pandas.DataFrame.from_records(list(rows), columns=COLUMNS[table])
        return frame.astype({"next": "Int64"}) if table == "steps" else frame

    def rows(self, table: str = "inputs", **selection: Names) -> Iterator[Row]:
        """The rows of a table, as tuples."""
        if table not in COLUMNS:
            raise ValueError(f"there is no table {table}: {', '.join(COLUMNS)} are there")
        selection = {name: names for name, names in selection.items() if names is not None}
        for name in selection:
            if name not in ("simulator", "entity", "attribute", "source") or name not in COLUMNS[table]:
                raise TypeError(f"the table {table} can't be selected by {name}")
        patterns = {COLUMNS[table].index(name): self._pattern(name, names) for name, names in selection.items()}
        every = {"inputs": self._inputs, "outputs": self._outputs, "steps": self._steps}[table]()
        for row in every:
            if all(pattern.fullmatch(row[place]) for place, pattern in patterns.items()):
                yield row

    def series(self, entity: str, attribute: str, source: Optional[str] = None, tiers: bool = False) -> Any:
        """The values of an attribute over time: a pandas Series, or a list of pairs (time, value) without pandas.

        It is the output of this name that the entity gave. Where it has none, or `source` is given, it is the input,
        which needs a `source` where it has more than one. Of one time the value of the last tier is taken; with `tiers`
        all are, and the index is (time, tier).
        """
        if source is None and (entity, attribute) in self._taken:
            found = list(self.rows("outputs", entity=entity, attribute=attribute))
        else:
            found = list(self.rows("inputs", entity=entity, attribute=attribute, source=source))
            sources = sorted({row[5] for row in found})
            if len(sources) > 1:
                raise ValueError(
                    f"{entity} gets {attribute} from {len(sources)} sources, {', '.join(sources[:5])}"
                    f"{' and others' if len(sources) > 5 else ''}: name one as source"
                )
        values = {(row[0], row[1]) if tiers else row[0]: row[-1] for row in sorted(found, key=lambda row: row[:2])}
        pandas = libraries.found("pandas")
        if pandas is None:
            return list(values.items())
        index = pandas.Index(list(values), name=None if tiers and values else "time")
        if tiers and values:
            index.names = ["time", "tier"]
        dtype = None if values else "object"
        return pandas.Series(list(values.values()), index=index, name=f"{entity}.{attribute}", dtype=dtype)

    def wide(self, table: str = "outputs", **selection: Names) -> Any:
        """A table with a row for each time and a column for each attribute, as for a plot; of the last tier of a time.

        The columns are `ENTITY.ATTRIBUTE`, and for inputs `ENTITY.ATTRIBUTE SOURCE`. It is a DataFrame with the times
        as its index, or a list of dicts with `time` where pandas isn't installed.
        """
        if table == "steps":
            raise ValueError("steps have no attributes: only inputs and outputs are there as a wide table")
        places = {entity: place for place, entity in enumerate(self.entities)}
        names: Dict[str, Tuple[Any, ...]] = {}
        values: Dict[int, Dict[str, Any]] = {}
        for row in sorted(self.rows(table, **selection), key=lambda row: row[:2]):
            name = " ".join([f"{row[3]}.{row[4]}", *row[5:-1]])
            names[name] = (places[row[3]], row[4], *(places.get(source, -1) for source in row[5:-1]))
            values.setdefault(row[0], {})[name] = row[-1]
        columns = sorted(names, key=lambda name: names[name])
        pandas = libraries.found("pandas")
        if pandas is None:
            return [{"time": time, **{name: found.get(name) for name in columns}} for time, found in values.items()]
        index = pandas.Index(list(values), name="time")
        return pandas.DataFrame(list(values.values()), index=index, columns=columns)

    def to_csv(self, path: Path, table: str = "inputs", **selection: Names) -> None:
        """Writes a table as CSV. A number or a text stands as it is, any other value as JSON."""
        rows = self.rows(table, **selection)
        with open(path, "w", encoding="utf-8", newline="") as file:
            writer = csv.writer(file, lineterminator="\n")
            writer.writerow(COLUMNS[table])
            writer.writerows(row if table == "steps" else (*row[:-1], cell(row[-1])) for row in rows)

    def to_parquet(self, path: Path, table: str = "inputs", **selection: Names) -> None:
        """Writes a table as Parquet, by pandas and pyarrow.

        Where each value is a number, the column of values has numbers; else it has the texts that stand in CSV.
        """
        pandas = libraries.needed("pandas", "Parquet")
        libraries.needed("pyarrow", "Parquet")
        frame = self.frame(table, **selection)
        if table != "steps" and not pandas.api.types.is_numeric_dtype(frame["value"]):
            frame["value"] = [str(cell(value)) for value in frame["value"]]
        frame.to_parquet(path, engine="pyarrow", index=False)

    def _file(self) -> pathlib.Path:
        """Where the record lies now: a later run of the same name has put it aside as `NAME.old`."""
        for path in (self.path, self.path.with_name(f"{self.path.name}.old")):
            if path.exists() and identity(path.stat()) == self._identity:
                return path
        raise FileNotFoundError(f"the record {self.path} was changed or taken away since it was read: load it again")

    @cached_property
    def _taken(self) -> Set[Tuple[str, str]]:
        """The outputs that a connection takes, as the entity's full id and the attribute."""
        return {(connection.source.full_id, connection.source_attribute) for connection in self._record.connections}

    def _inputs(self) -> Iterator[Row]:
        """The rows of inputs, in the order of the report."""
        for simulator, time, tier, eid, attribute, source, value in self.report.inputs():
            yield time, tier, simulator, f"{simulator}.{eid}", attribute, source, value

    def _outputs(self) -> Iterator[Row]:
        """The rows of outputs, in the order in which they came; a number that wasn't whole isn't there."""
        for entry in self.record.entries:
            if not isinstance(entry, Message) or entry.answers != "data" or entry.kind != "reply":
                continue
            time, tier = entry.output_time()
            for eid, attribute, value in entry.outputs():
                entity = f"{entry.simulator}.{eid}"
                if (entity, attribute) in self._taken and is_whole(value):
                    yield time, tier, entry.simulator, entity, attribute, value

    def _steps(self) -> Iterator[Row]:
        """The rows of steps, in the order in which they were asked for."""
        table = StepTable()
        for entry in self.record.entries:
            table.add(entry)
        for time, tier, simulator, max_advance, following in table.rows:
            yield time, tier, simulator, max_advance, None if following == "" else following

    def _pattern(self, column: str, names: Names) -> re.Pattern[str]:
        """What fits these names; a name that the plan hasn't is a KeyError."""
        listed = [names] if isinstance(names, str) else list(names or ())
        known: Sequence[str] = self.simulators if column == "simulator" else self.entities
        if column == "attribute":
            known = self._attributes()
        for name in listed:
            if "*" not in name and name not in known and known:
                raise KeyError(f"the record has no {'entity' if column == 'source' else column} {name}")
        return re.compile("|".join(re.escape(name).replace(r"\*", ".*") for name in listed) or r"(?!)", re.DOTALL)

    def _attributes(self) -> List[str]:
        """The names of attributes, or none where an entity may have an input of any name."""
        if any(model.any_inputs for model in self._record.models):
            return []
        return [attribute for model in self._record.models for attribute in model.attributes]


__all__ = ["COLUMNS", "NoRecord", "Results"]
