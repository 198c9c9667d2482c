# SPDX-License-Identifier: Apache-2.0
"""A headless Chromium and a page in it, over the pipe of the DevTools protocol: Python's standard library alone."""

from __future__ import annotations

import fcntl
import json
import os
import select
import shutil
import subprocess
import tempfile
import time
from pathlib import Path
from types import TracebackType
from typing import Any

NAMES = ("chromium", "chromium-browser", "google-chrome")
PATIENCE = 120
OPTIONS = ("--headless", "--no-sandbox", "--disable-gpu", "--hide-scrollbars", "--no-first-run", "--disable-extensions", "--remote-debugging-pipe")


def find() -> str | None:
    """The Chromium on PATH."""
    return next((found for name in NAMES if (found := shutil.which(name))), None)


class Browser:
    """`with Browser() as page`: a page of a browser that ends with it. What the page's scripts throw is in `thrown`, what it asks of a network in `asked`."""

    def __enter__(self) -> Browser:
        self.home = tempfile.TemporaryDirectory(prefix="rokdaum-browser-", ignore_cleanup_errors=True)
        # Above 4, so that the child's 3 and 4 are free to be these: a browser hears commands at 3 and answers at 4.
        ours = [[fcntl.fcntl(end, fcntl.F_DUPFD_CLOEXEC, 16) for end in os.pipe()] for _ in range(2)]
        (theirs_in, self.out), (self.into, theirs_out) = ours
        placed = f'exec "$0" "$@" 3<&{theirs_in} 4>&{theirs_out}'
        words = ["bash", "-c", placed, find() or NAMES[0], *OPTIONS, f"--user-data-dir={self.home.name}"]
        self.process = subprocess.Popen(words, pass_fds=(theirs_in, theirs_out), stdin=subprocess.DEVNULL, stdout=subprocess.DEVNULL, stderr=subprocess.DEVNULL)
        for end in (theirs_in, theirs_out):
            os.close(end)
        self.number, self.held, self.session = 0, b"", ""
        self.events: list[dict[str, Any]] = []
        target = self.call("Target.createTarget", url="about:blank")["targetId"]
        self.session = self.call("Target.attachToTarget", targetId=target, flatten=True)["sessionId"]
        for domain in ("Page", "Runtime", "Network"):
            self.call(f"{domain}.enable")
        return self

    def __exit__(self, kind: type[BaseException] | None, why: BaseException | None, trace: TracebackType | None) -> None:
        os.close(self.out)
        self.process.kill()
        self.process.wait()
        os.close(self.into)
        self.home.cleanup()

    def call(self, method: str, **how: object) -> dict[str, Any]:
        """A call of the protocol: its result."""
        self.number += 1
        spoken = {"id": self.number, "method": method, "params": how, **({"sessionId": self.session} if self.session else {})}
        os.write(self.out, json.dumps(spoken).encode() + b"\0")
        while True:
            heard = self.hear()
            if heard.get("id") == self.number:
                if "error" in heard:
                    raise AssertionError(f"{method}: {heard['error']}")
                return heard["result"]
            self.events.append(heard)

    def hear(self) -> dict[str, Any]:
        """What the browser says next."""
        until = time.monotonic() + PATIENCE
        while b"\0" not in self.held:
            if not select.select([self.into], [], [], max(0.0, until - time.monotonic()))[0]:
                raise AssertionError(f"the browser says nothing for {PATIENCE} seconds")
            more = os.read(self.into, 1 << 16)
            if not more:
                raise AssertionError("the browser has ended")
            self.held += more
        said, _, self.held = self.held.partition(b"\0")
        return json.loads(said)

    def open(self, path: Path, wide: int = 1280, high: int = 900, look: str = "light") -> None:
        """Opens a file, at a size, light or dark."""
        self.events.clear()
        self.call("Emulation.setDeviceMetricsOverride", width=wide, height=high, deviceScaleFactor=1, mobile=False)
        self.call("Emulation.setEmulatedMedia", features=[{"name": "prefers-color-scheme", "value": look}, {"name": "prefers-reduced-motion", "value": "reduce"}])
        self.call("Page.navigate", url=path.resolve().as_uri())
        until = time.monotonic() + PATIENCE
        while self.get("document.readyState") != "complete" or self.get("location.href") == "about:blank":
            if time.monotonic() > until:
                raise AssertionError(f"{path} isn't loaded after {PATIENCE} seconds")

    def get(self, expression: str) -> Any:
        """The value of an expression in the page, as JSON has it."""
        found = self.call("Runtime.evaluate", expression=expression, returnByValue=True)
        if "exceptionDetails" in found:
            raise AssertionError(f"{expression}: {found['exceptionDetails']}")
        return found["result"].get("value")

    def text(self, selector: str) -> str:
        """The text of an element."""
        return self.get(f"document.querySelector({json.dumps(selector)}).textContent")

    def texts(self, selector: str) -> list[str]:
        """The text of each element."""
        return self.get(f"[...document.querySelectorAll({json.dumps(selector)})].map((it) => it.textContent)")

    def data(self, selector: str) -> list[dict[str, str]]:
        """The data of each element."""
        return self.get(f"[...document.querySelectorAll({json.dumps(selector)})].map((it) => ({{...it.dataset}}))")

    def press(self, key: str) -> None:
        """Presses a key and lets it go."""
        text = {"text": key} if len(key) == 1 else {}
        self.call("Input.dispatchKeyEvent", type="keyDown", key=key, **text)
        self.call("Input.dispatchKeyEvent", type="keyUp", key=key)

    def hover(self, selector: str) -> None:
        """Puts the pointer on the middle of an element."""
        box = self.get(
            f"(() => {{ const it = document.querySelector({json.dumps(selector)}); it.scrollIntoView({{block: 'center'}}); const box = it.getBoundingClientRect(); return [box.x + box.width / 2, box.y + box.height / 2]; }})()"
        )
        self.call("Input.dispatchMouseEvent", type="mouseMoved", x=box[0], y=box[1])

    def picture(self, path: Path) -> None:
        """Writes what is seen as PNG."""
        import base64

        path.write_bytes(base64.b64decode(self.call("Page.captureScreenshot", format="png")["data"]))

    @property
    def thrown(self) -> list[str]:
        """What scripts of the page threw, and did not catch."""
        return [str(it["params"]["exceptionDetails"]) for it in self.events if it.get("method") == "Runtime.exceptionThrown"]

    @property
    def asked(self) -> list[str]:
        """Each address that the page asked for."""
        return [it["params"]["request"]["url"] for it in self.events if it.get("method") == "Network.requestWillBeSent"]
