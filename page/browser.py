"""Drives a Chromium without a window, by the DevTools protocol over two pipes."""
from __future__ import annotations

import json
import os
import shutil
import subprocess
import tempfile
import time
from types import TracebackType
from typing import Any

SECONDS = 60
WIDTH, HEIGHT = 1440, 920
NAMES = ("chromium", "chromium-browser", "google-chrome")
OPTIONS = ["--headless=new", "--no-sandbox", "--disable-gpu", "--no-first-run", "--disable-extensions", "--hide-scrollbars",
           "--force-color-profile=srgb", "--remote-debugging-pipe"]


def find_chromium() -> str | None:
    """The path of Chromium, which Debian's apt-get installs if it isn't there; None if it can't."""
    for name in NAMES:
        path = shutil.which(name)
        if path is not None:
            return path
    if shutil.which("apt-get") is None or os.geteuid() != 0:
        return None
    for command in (["apt-get", "update"], ["apt-get", "install", "-y", "--no-install-recommends", "chromium"]):
        if subprocess.run(command, stdout=subprocess.DEVNULL, stderr=subprocess.DEVNULL, env=os.environ | {"DEBIAN_FRONTEND": "noninteractive"}).returncode != 0:
            return None
    return shutil.which("chromium")


class Browser:
    """A running Chromium with one page. It ends with the `with` block."""

    def __init__(self, chromium: str, width: int = WIDTH, height: int = HEIGHT) -> None:
        self._profile = tempfile.TemporaryDirectory(ignore_cleanup_errors=True)
        (for_it, self._to), (self._from, from_it) = os.pipe(), os.pipe()
        command = [chromium, *OPTIONS, "--user-data-dir=" + self._profile.name, "--window-size=%d,%d" % (width, height), "about:blank"]
        # Chromium reads descriptor 3 and writes descriptor 4
        shell = ["bash", "-c", 'exec 3<&"$0" 4>&"$1"; shift; exec "$@"', str(for_it), str(from_it), *command]
        self._process = subprocess.Popen(shell, pass_fds=(for_it, from_it), stdout=subprocess.DEVNULL, stderr=subprocess.DEVNULL)
        os.close(for_it)
        os.close(from_it)
        self._buffer = b""
        self._number = 0
        self._session: str | None = None
        target = next(t for t in self.call("Target.getTargets")["targetInfos"] if t["type"] == "page")
        self._session = self.call("Target.attachToTarget", targetId=target["targetId"], flatten=True)["sessionId"]
        self.call("Emulation.setDeviceMetricsOverride", width=width, height=height, deviceScaleFactor=1, mobile=False)

    def __enter__(self) -> Browser:
        return self

    def __exit__(self, kind: type[BaseException] | None, error: BaseException | None, trace: TracebackType | None) -> None:
        os.close(self._to)
        self._process.terminate()
        try:
            self._process.wait(SECONDS)
        except subprocess.TimeoutExpired:
            self._process.kill()
            self._process.wait()
        os.close(self._from)
        self._profile.cleanup()

    def _receive(self) -> Any:
        while b"\0" not in self._buffer:
            part = os.read(self._from, 1 << 20)
            if not part:
                raise OSError("Chromium ended")
            self._buffer += part
        message, self._buffer = self._buffer.split(b"\0", 1)
        return json.loads(message)

    def call(self, method: str, **params: Any) -> Any:
        """Calls a method of the protocol, and gives its result."""
        self._number += 1
        message = {"id": self._number, "method": method, "params": params}
        if self._session is not None:
            message["sessionId"] = self._session
        os.write(self._to, json.dumps(message).encode("ascii") + b"\0")
        while True:
            answer = self._receive()
            if answer.get("id") == self._number:
                if "error" in answer:
                    raise OSError("%s: %s" % (method, answer["error"]["message"]))
                return answer["result"]

    def evaluate(self, expression: str) -> Any:
        """The value of an expression of the page, which may be a promise."""
        answer = self.call("Runtime.evaluate", expression=expression, awaitPromise=True, returnByValue=True)
        if "exceptionDetails" in answer:
            details = answer["exceptionDetails"]
            raise OSError("the page fails: %s" % details.get("exception", {}).get("description", details["text"]))
        return answer["result"].get("value")

    def open(self, path: str, fragment: str = "") -> float:
        """Opens a page from a file, waits until it has drawn its frame, if it has one, and gives the seconds that it took."""
        self.call("Page.navigate", url="about:blank")
        start = time.monotonic()
        self.call("Page.navigate", url="file://%s#%s" % (path, fragment))
        while time.monotonic() < start + SECONDS:
            if self.evaluate("document.body !== null && globalThis.app !== undefined && (app.store.frames.length === 0 || document.body.dataset.drawn !== undefined)"):
                self.evaluate("new Promise((done) => requestAnimationFrame(() => requestAnimationFrame(done)))")
                return time.monotonic() - start
            time.sleep(0.01)
        raise OSError("the page isn't drawn after %d seconds" % SECONDS)
