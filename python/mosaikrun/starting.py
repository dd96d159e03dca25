"""How the entries of a SIM_CONFIG start: what they may say, and the commands that they come to in a scenario."""

from __future__ import annotations

import importlib.util
import json
import os
import pathlib
import re
import shlex
import site
import sys
from typing import Any, Dict, List, Optional, Tuple

from mosaikrun import STAND_INS
from mosaikrun.errors import ScenarioError, refused
from mosaikrun.handshake import SID, Handshake, Inside, Outside
from mosaikrun.local import Within
from mosaikrun.relay import OWN_ADDRESS
from mosaikrun.study import ADDRESS, Command, Simulator, factor_words

WAYS = ("python", "cmd", "connect", "local")
OTHERS = ("cwd", "env", "posix", "new_console", "auto_terminate", "api_version")
LOOPBACK = re.compile(r"(127\.0\.0\.1|localhost):[1-9][0-9]{0,4}")
# where the package lies
PACKAGES = str(pathlib.Path(__file__).resolve().parents[1])
START_TIMEOUT, STOP_TIMEOUT = 60.0, 10.0


class Entry:
    """An entry of a SIM_CONFIG, seen to be one that can be had."""

    def __init__(self, name: str, told: Dict[str, Any]) -> None:
        ways = [way for way in WAYS if way in told]
        unknown = sorted(set(told) - set(WAYS) - set(OTHERS))
        if len(ways) != 1:
            raise ScenarioError(f'simulator "{name}" has to have one of {", ".join(WAYS)} in the configuration')
        if unknown:
            raise ScenarioError(f'simulator "{name}": unknown option {", ".join(unknown)} in the configuration')
        if not re.fullmatch(r"[A-Za-z_][A-Za-z0-9_]{0,63}", name):
            raise refused(f'simulator "{name}": its name has to be of letters, digits and _', "Traps")
        self.name, self.way, self.value = name, ways[0], told[ways[0]]
        if self.way == "python" and isinstance(self.value, type):
            self.value = f"{self.value.__module__}:{self.value.__qualname__}"
        if self.way == "connect" and not LOOPBACK.fullmatch(self.value.strip()):
            raise refused(f'simulator "{name}" is at {self.value}, not on this machine', "What maps to what")
        self.cwd: Optional[str] = told.get("cwd")
        self.env = {key: str(value) for key, value in told.get("env", {}).items()}
        self.posix = bool(told.get("posix", True))

    def words(self) -> List[str]:
        """The words of its command, `%(addr)s` for the address."""
        if self.way == "python":
            return [sys.executable, "-m", "mosaikrun.child", class_name(self.value), ADDRESS]
        try:
            parts = shlex.split(self.value, posix=self.posix)
            return [part % {"addr": ADDRESS, "python": sys.executable} for part in parts]
        except (KeyError, TypeError, ValueError) as fault:
            what = f'simulator "{self.name}": its command is wrong: {self.value}: {fault!r}'
            raise ScenarioError(what) from fault

    def how(self, sid: str) -> Any:
        """How the scenario starts it."""
        if self.way in ("connect", "local"):
            return (self.way, self.value.strip())
        return Command(self.words(), self.cwd, {SID: sid, **self.variables()})

    def variables(self) -> Dict[str, str]:
        """Its variables, so that a child finds what this process finds, and an API where mosaik's isn't installed."""
        if "PYTHONPATH" in self.env:
            return self.env
        if self.way == "python":
            return {"PYTHONPATH": search_path(), **self.env}
        if "%(python)s" in self.value and not has_api():
            before = [os.path.abspath(place) for place in os.environ.get("PYTHONPATH", "").split(os.pathsep) if place]
            return {"PYTHONPATH": os.pathsep.join(dict.fromkeys([*before, PACKAGES, STAND_INS])), **self.env}
        return self.env

    def advice(self, attr: str) -> str:
        """What to write so that a value with a fraction is scaled."""
        if self.way == "python":
            return factor_words(f"%(python)s -m mosaikrun.child {self.value} ADDR", attr)
        return factor_words(self.value.replace(ADDRESS, "ADDR"), attr) if self.way == "cmd" else ""

    def handshake(self, sid: str, timeouts: Tuple[float, float]) -> Handshake:
        """Starts it while the scenario is built."""
        if self.way == "local":
            return Within(sid, self.value)
        if self.way == "python":
            return Inside(sid, self.value, self.cwd, self.env)
        outside = Outside(sid, timeouts[1])
        if self.way == "connect":
            outside.connect(self.value.strip())
        else:
            outside.start(Command(self.words(), self.cwd, self.variables()), timeouts[0])
        return outside


def class_name(name: str) -> str:
    """The class as a child finds it: one of the script itself by the script's path."""
    module, _, path = name.rpartition(":")
    if module != "__main__":
        return name
    script = getattr(sys.modules["__main__"], "__file__", None)
    if not script:
        raise refused(f"{name}: the class isn't in a file, so it can't be started anew", "What maps to what")
    return f"{os.path.abspath(script)}:{path}"


def has_api() -> bool:
    """Whether mosaik's own package of the simulators' side is installed."""
    found = importlib.util.find_spec("mosaik_api_v3")
    return found is not None and not str(found.origin).startswith(STAND_INS)


def search_path() -> str:
    """Where this process finds modules and a child wouldn't: the script's folder, this package's, and what was added."""
    known = [STAND_INS, *(os.path.join(prefix, "lib") for prefix in {sys.prefix, sys.base_prefix, sys.exec_prefix})]
    known += [site.getusersitepackages()]
    places = [os.path.abspath(place) for place in [*sys.path, PACKAGES]]
    own = [place for place in places if not any(place == one or place.startswith(one + os.sep) for one in known)]
    return os.pathsep.join(dict.fromkeys(own))


def with_calls(simulator: Simulator) -> None:
    """Has a simulator's extra methods called again at the run: by its child, or by a relay that stands before it."""
    if not simulator.calls:
        return
    calls, how = json.dumps(simulator.calls), simulator.how
    if not isinstance(how, Command):
        how = Command([how[1]], None, {SID: simulator.sid})
    if "mosaikrun.child" in how.words:
        words = [*how.words[:3], "--calls", calls, *how.words[3:]]
    else:
        own = [word.replace(ADDRESS, OWN_ADDRESS) for word in how.words]
        words = [sys.executable, "-m", "mosaikrun.relay", calls, ADDRESS, *own]
        how.env.setdefault("PYTHONPATH", search_path())
    simulator.how, simulator.calls = how._replace(words=words), []
