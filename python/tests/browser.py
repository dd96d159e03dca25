"""Drives a headless Chromium by the DevTools protocol over pipes, for tests of pages."""

from __future__ import annotations

import fcntl
import itertools
import json
import os
import select
import shutil
import subprocess
import sys
import tempfile
import time
from typing import Any, Dict, List, Optional

# Chromium reads its orders at 3 and answers at 4
LAUNCH = "import os, sys; os.dup2(int(sys.argv[1]), 3); os.dup2(int(sys.argv[2]), 4); os.execvp(sys.argv[3], sys.argv[3:])"
WORDS = ["--headless", "--no-sandbox", "--disable-gpu", "--disable-dev-shm-usage", "--no-first-run", "--remote-debugging-pipe"]
PATIENCE = 240.0
READY = """new Promise(done => { const look = () => {
  const broken = document.getElementById('broken');
  if (document.body.dataset.ready || broken && !broken.hidden) done(true); else setTimeout(look, 20);
}; look(); })"""


def installed() -> Optional[str]:
    """The path of Chromium, None where it isn't installed."""
    return shutil.which("chromium") or shutil.which("chromium-browser") or shutil.which("google-chrome")


def pipe() -> List[int]:
    """A pipe whose ends have numbers that no started program uses."""
    ends = os.pipe()
    moved = [fcntl.fcntl(end, fcntl.F_DUPFD_CLOEXEC, 20) for end in ends]
    for end in ends:
        os.close(end)
    return moved


class Browser:
    """A Chromium with one page."""

    def __init__(self, program: str):
        self._folder = tempfile.TemporaryDirectory(ignore_cleanup_errors=True) if sys.version_info >= (3, 10) else None
        profile = [f"--user-data-dir={self._folder.name}"] if self._folder else []
        hears, self._orders = pipe()
        self._answers, says = pipe()
        words = [sys.executable, "-c", LAUNCH, str(hears), str(says), program, *WORDS, *profile, "about:blank"]
        quiet = subprocess.DEVNULL
        self._process = subprocess.Popen(words, stdin=quiet, stdout=quiet, stderr=quiet, pass_fds=(hears, says))
        os.close(hears)
        os.close(says)
        self._numbers, self._rest, self._session = itertools.count(1), b"", ""
        self.events: List[Dict[str, Any]] = []
        target = self.order("Target.createTarget", url="about:blank")["targetId"]
        self._session = self.order("Target.attachToTarget", targetId=target, flatten=True)["sessionId"]
        for domain in ("Page", "Runtime", "Network", "Log"):
            self.order(f"{domain}.enable")

    def order(self, method: str, **params: Any) -> Dict[str, Any]:
        """Gives an order and waits for its result; what happens meanwhile is kept in `events`."""
        number = next(self._numbers)
        order = {"id": number, "method": method, "params": params}
        if self._session:
            order["sessionId"] = self._session
        os.write(self._orders, json.dumps(order).encode() + b"\0")
        while True:
            told = self._told()
            if told.get("id") == number:
                if "error" in told:
                    raise RuntimeError(f"{method}: {told['error']}")
                return told["result"]
            self.events.append(told)

    def _told(self) -> Dict[str, Any]:
        """The next thing that Chromium says."""
        until = time.monotonic() + PATIENCE
        while b"\0" not in self._rest:
            if not select.select([self._answers], [], [], max(0.0, until - time.monotonic()))[0]:
                raise TimeoutError("Chromium says nothing")
            more = os.read(self._answers, 1 << 20)
            if not more:
                raise RuntimeError("Chromium has ended")
            self._rest += more
        line, _, self._rest = self._rest.partition(b"\0")
        return json.loads(line)

    def looks(self, width: int, scheme: str) -> None:
        """Gives the window a width, and the colours `light` or `dark`."""
        self.order("Emulation.setDeviceMetricsOverride", width=width, height=900, deviceScaleFactor=1, mobile=False)
        self.order("Emulation.setEmulatedMedia", features=[{"name": "prefers-color-scheme", "value": scheme}])

    def open(self, url: str) -> None:
        """Opens a page of the program `view`, and waits until it is drawn."""
        self.events.clear()
        self.order("Page.navigate", url=url)
        while not any(event.get("method") == "Page.loadEventFired" for event in self.events):
            self.events.append(self._told())
        self.value(READY)

    def value(self, script: str) -> Any:
        """What a script comes to in the page."""
        done = self.order("Runtime.evaluate", expression=script, awaitPromise=True, returnByValue=True)
        if "exceptionDetails" in done:
            raise RuntimeError(str(done["exceptionDetails"]))
        return done["result"].get("value")

    def press(self, *keys: str, shift: bool = False) -> None:
        """Presses keys, by their names."""
        for key in keys:
            text = {"Enter": "\r"}.get(key, key if len(key) == 1 else "")
            held = {"key": key, "code": key, "modifiers": 8 if shift else 0}
            held["windowsVirtualKeyCode"] = {"Tab": 9, "Enter": 13}.get(key, 0)
            self.order("Input.dispatchKeyEvent", type="keyDown" if text else "rawKeyDown", text=text, **held)
            self.order("Input.dispatchKeyEvent", type="keyUp", **held)

    def faults(self) -> List[str]:
        """What the page threw or logged as an error."""
        kinds = ("Runtime.exceptionThrown", "Log.entryAdded", "Runtime.consoleAPICalled")
        told = [event for event in self.events if event.get("method") in kinds]
        return [
            json.dumps(event["params"])
            for event in told
            if event["method"] == "Runtime.exceptionThrown"
            or event["params"].get("type") == "error"
            or event["params"].get("entry", {}).get("level") == "error"
        ]

    def asked(self) -> List[str]:
        """The addresses that the page asked for."""
        return [e["params"]["request"]["url"] for e in self.events if e.get("method") == "Network.requestWillBeSent"]

    def close(self) -> None:
        """Ends Chromium."""
        self._process.terminate()
        try:
            self._process.wait(timeout=60)
        except subprocess.TimeoutExpired:
            self._process.kill()
            self._process.wait()
        os.close(self._orders)
        os.close(self._answers)
        if self._folder:
            self._folder.cleanup()
