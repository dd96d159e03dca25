#!/usr/bin/env python3
"""An adapter around a simulator whose values have fractions: it scales them to whole numbers, and back.

    command = "python3 whole.py %(addr)s P_out=1000 soc=100 -- python3 household.py ADDR"

It starts the words behind `--`, in which `ADDR` is the address where it awaits the simulator, and passes messages on.
What the simulator gives under `P_out` is multiplied by 1000 and rounded to the nearest whole number; what it gets
under `P_out`, also as a parameter of `init` or `create`, is divided by 1000. So the simulator has its own unit, and
the scenario and all other simulators have the smaller one: mW where it has W. `*=1` is the factor of all attributes
that aren't named, not of parameters. Without a factor 20.0 becomes 20, and a number with a fraction stays as it is,
to be refused. A value that is None, NaN or infinite is left out. A time of 15.0 becomes 15.
"""
import contextlib
import json
import math
import re
import socket
import subprocess
import sys
from typing import Any, Callable, Dict, List, Tuple

from api import Link, connected


class Scale:
    """The factors of attributes and parameters by their names."""

    def __init__(self, factors: Dict[str, float]) -> None:
        self.factors = factors

    def whole(self, attr: str, value: Any) -> Any:
        """A value of the simulator in whole numbers."""
        factor = self.factors.get(attr, self.factors.get("*"))
        return each_number(value, exact if factor is None else lambda number: round(number * factor))

    def own(self, attr: str, value: Any) -> Any:
        """A value in whole numbers in the simulator's own unit."""
        factor = self.factors.get(attr, self.factors.get("*", 1))
        return value if factor == 1 else each_number(value, lambda number: number / factor)

    def given(self, values: dict) -> dict:
        """What entities give, {entity: {attribute: value}}, in whole numbers; what is no value is left out."""
        return {
            entity: {attr: self.whole(attr, value) for attr, value in attrs.items() if is_value(value)}
            for entity, attrs in values.items()
        }

    def found(self, values: dict) -> dict:
        """What entities get or gave, {entity: {attribute: value}}, in the simulator's own unit."""
        return {
            entity: {attr: self.own(attr, value) for attr, value in attrs.items()} for entity, attrs in values.items()
        }

    def to_simulator(self, function: str, args: list, named: dict) -> list:
        """A request of the orchestrator: a step's inputs, and the parameters that have a factor, in the own unit."""
        if function == "step":
            time, inputs, max_advance = args
            args = [time, self.found(inputs), max_advance]
        own = {name: self.own(name, value) for name, value in named.items() if name in self.factors}
        return [function, args, {**named, **own}]

    def reply(self, function: str, content: Any) -> Any:
        """The simulator's reply to this function."""
        if function == "step":
            return each_number(content, exact)
        if function == "get_data":
            time = {"time": exact(content["time"])} if "time" in content else {}
            return {**self.given({eid: attrs for eid, attrs in content.items() if eid != "time"}), **time}
        return content

    def from_simulator(self, function: str, args: list, named: dict) -> list:
        """A request of the simulator: what it sets in whole numbers."""
        if function == "set_data":
            args = [{source: self.given(values) for source, values in args[0].items()}]
        return [function, args, named]


def each_number(value: Any, change: Callable[[float], float]) -> Any:
    """The value with each number in it changed; texts, truth values, NaN and None stay."""
    if isinstance(value, list):
        return [each_number(item, change) for item in value]
    if isinstance(value, dict):
        return {key: each_number(item, change) for key, item in value.items()}
    is_number = isinstance(value, (int, float)) and not isinstance(value, bool) and math.isfinite(value)
    return change(value) if is_number else value


def exact(number: float) -> float:
    """20 for 20.0, and 20.5 for 20.5."""
    return int(number) if number == int(number) else number


def is_value(value: Any) -> bool:
    return value is not None and not (isinstance(value, float) and not math.isfinite(value))


def relay(outer: Link, inner: Link, scale: Scale) -> None:
    """Passes messages between the orchestrator and the simulator, one each way in turn, until `stop`."""
    function = asked = ""
    while (message := outer.read()) is not None:
        kind, number, content = message
        if kind == 0:
            function = content[0]
            content = scale.to_simulator(*content)
        elif kind == 1 and asked == "get_data":
            content = scale.found(content)
        inner.write(kind, number, content)
        answer = None if function == "stop" else inner.read()
        if answer is None:
            return
        kind, number, content = answer
        if kind == 0:
            asked = content[0]
            content = scale.from_simulator(*content)
        elif kind == 1:
            content = scale.reply(function, content)
        outer.write(kind, number, content)


def started(words: List[str]) -> Tuple[subprocess.Popen, Link]:
    """The simulator's program and its link; where it ends or doesn't connect within a minute, this program ends too."""
    with socket.create_server(("127.0.0.1", 0)) as server:
        address = f"127.0.0.1:{server.getsockname()[1]}"
        child = subprocess.Popen([word.replace("ADDR", address) for word in words])
        server.settimeout(0.2)
        for _ in range(300):
            try:
                return child, Link(server.accept()[0])
            except socket.timeout:
                if child.poll() is not None:
                    sys.exit(f"whole.py: {' '.join(words)} ended with status {child.returncode}")
    child.kill()
    sys.exit(f"whole.py: {' '.join(words)} did not connect within a minute")


def factor_of(word: str) -> Tuple[str, float]:
    """The attribute and the factor of a word ATTRIBUTE=NUMBER."""
    name, _, text = word.partition("=")
    with contextlib.suppress(ValueError):
        factor = json.loads(text)
        if name and type(factor) in (int, float) and math.isfinite(factor) and factor != 0:
            return name, factor
    sys.exit(f"whole.py: {word} is no factor; a factor is ATTRIBUTE=NUMBER, as P_out=1000")


def words_of(words: List[str]) -> Tuple[str, Scale, List[str]]:
    """The address, the factors, and the simulator's own command; what is wrong with them ends this program."""
    if "--" not in words:
        sys.exit("whole.py: -- is missing; it stands between the factors and the simulator's own command")
    split = words.index("--")
    before, command = words[:split], words[split + 1 :]
    if not before or not re.fullmatch(r"\S+:\d+", before[0]):
        sys.exit("whole.py: the first word has to be the address HOST:PORT, as %(addr)s in a scenario's command")
    if not any("ADDR" in word for word in command):
        sys.exit("whole.py: ADDR is missing; it stands where the simulator's own command has its address")
    factors = dict(factor_of(word) for word in before[1:])
    return before[0], Scale(factors), command


def main() -> None:
    if sys.argv[1:] in ([], ["-h"], ["--help"]):
        sys.exit(__doc__)
    address, scale, command = words_of(sys.argv[1:])
    child, inner = started(command)
    try:
        relay(connected(address), inner, scale)
    finally:
        inner.close()
        try:
            child.wait(10)
        except subprocess.TimeoutExpired:
            child.kill()


if __name__ == "__main__":
    main()
