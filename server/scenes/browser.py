"""A headless Chromium, which is told over two pipes what to show: the DevTools protocol, a JSON text and a byte 0 each way."""
from __future__ import annotations

import base64
import json
import os
import shutil
import subprocess
import time
from types import TracebackType
from typing import Any, Dict, List, Optional, Tuple, Type

PROGRAM = shutil.which("chromium") or shutil.which("chromium-browser")


class Browser:
    """One page of a browser. Whatever the browser says of it, such as a refused style, is in `complaints`."""

    def __init__(self, folder: str):
        assert PROGRAM is not None
        to_read, self._to = os.pipe()
        self._from, to_write = os.pipe()
        words = [
            PROGRAM,
            "--headless=new",
            "--no-sandbox",
            "--disable-gpu",
            "--remote-debugging-pipe",
            "--no-first-run",
            "--disable-background-networking",
            "--disable-component-update",
            "--disable-dev-shm-usage",
            "--hide-scrollbars",
            f"--user-data-dir={folder}",
        ]
        # The browser reads from 3 and writes to 4.
        shell = f'exec 3<&{to_read} 4>&{to_write}; exec "$@"'
        self._process = subprocess.Popen(
            ["bash", "-c", shell, "bash", *words],
            pass_fds=(to_read, to_write),
            stdin=subprocess.DEVNULL,
            stdout=subprocess.DEVNULL,
            stderr=subprocess.DEVNULL,
            start_new_session=True,
        )
        os.close(to_read)
        os.close(to_write)
        self._number, self._rest, self._session = 0, b"", ""
        self.complaints: List[str] = []
        self._events: List[Dict[str, Any]] = []
        target = self._ask("Target.createTarget", url="about:blank")["targetId"]
        self._session = self._ask("Target.attachToTarget", targetId=target, flatten=True)["sessionId"]
        for domain in ("Page", "Log", "Runtime", "Network"):
            self._ask(domain + ".enable")

    def __enter__(self) -> "Browser":
        return self

    def __exit__(self, kind: Optional[Type[BaseException]], error: Optional[BaseException], trace: Optional[TracebackType]) -> None:
        self.close()

    def close(self) -> None:
        """Ends the browser."""
        os.close(self._to)
        try:
            self._process.wait(10)
        except subprocess.TimeoutExpired:
            self._process.kill()
            self._process.wait()
        os.close(self._from)

    def _ask(self, method: str, **params: Any) -> Dict[str, Any]:
        self._number += 1
        message: Dict[str, Any] = {"id": self._number, "method": method, "params": params}
        if self._session:
            message["sessionId"] = self._session
        os.write(self._to, json.dumps(message).encode() + b"\0")
        while True:
            told = self._next()
            if told.get("id") == self._number:
                assert "error" not in told, (method, told["error"])
                result: Dict[str, Any] = told["result"]
                return result
            self._note(told)

    def _next(self) -> Dict[str, Any]:
        while b"\0" not in self._rest:
            part = os.read(self._from, 1 << 20)
            assert part, "the browser has ended"
            self._rest += part
        text, self._rest = self._rest.split(b"\0", 1)
        told: Dict[str, Any] = json.loads(text)
        return told

    def _note(self, told: Dict[str, Any]) -> None:
        method, params = told.get("method", ""), told.get("params", {})
        if method == "Log.entryAdded":
            self.complaints.append(f"{params['entry']['text']} ({params['entry'].get('url', '')})")
        elif method in ("Runtime.exceptionThrown", "Runtime.consoleAPICalled", "Page.javascriptDialogOpening"):
            self.complaints.append(f"{method}: {params}")
        elif method == "Network.requestWillBeSent":
            self.requested.append(params["request"]["url"])
        elif method == "Page.loadEventFired":
            self._loaded = True

    requested: List[str] = []
    _loaded = False

    def screen(self, width: int, is_dark: bool = False, medium: str = "screen") -> None:
        """Sets how wide the page is, in which colours, and whether it is for a screen or for `print`."""
        self._ask("Emulation.setDeviceMetricsOverride", width=width, height=900, deviceScaleFactor=1, mobile=width < 500)
        scheme = {"name": "prefers-color-scheme", "value": "dark" if is_dark else "light"}
        self._ask("Emulation.setEmulatedMedia", features=[scheme], media=medium)

    def press(self, key: str, code: int) -> None:
        """Presses a key, such as Tab, whose code is 9."""
        for kind in ("rawKeyDown", "keyUp"):
            self._ask("Input.dispatchKeyEvent", type=kind, key=key, code=key, windowsVirtualKeyCode=code)

    def heard(self) -> List[Tuple[str, str]]:
        """What a screen reader is told of the page: roles and names."""
        nodes = self._ask("Accessibility.getFullAXTree")["nodes"]
        return [(it["role"]["value"], it.get("name", {}).get("value", "")) for it in nodes if not it["ignored"]]

    def log_in(self, user: str, password: str) -> None:
        """Sends a password with each request from now on; none where the user is empty."""
        headers = {}
        if user:
            headers["Authorization"] = "Basic " + base64.b64encode(f"{user}:{password}".encode()).decode()
        self._ask("Network.setExtraHTTPHeaders", headers=headers)

    def show(self, url: str) -> None:
        """Loads a page, all of it."""
        self.requested, self._loaded = [], False
        found = self._ask("Page.navigate", url=url)
        assert "errorText" not in found, (url, found["errorText"])
        until = time.monotonic() + 300
        while not self._loaded and found.get("loaderId"):
            assert time.monotonic() < until, f"{url} is not loaded"
            self._note(self._next())

    def value(self, expression: str) -> Any:
        """What an expression of JavaScript comes to in the page. It runs although the page's policy allows no script."""
        found = self._ask("Runtime.evaluate", expression=expression, returnByValue=True)
        assert "exceptionDetails" not in found, (expression, found)
        return found["result"].get("value")

    def picture(self, path: str, most: int = 1400) -> None:
        """Writes a picture of the page as PNG, down to so many pixels."""
        height = min(int(self.value("document.documentElement.scrollHeight")), most)
        width = int(self.value("document.documentElement.clientWidth"))
        clip = {"x": 0, "y": 0, "width": width, "height": height, "scale": 1}
        found = self._ask("Page.captureScreenshot", format="png", clip=clip, captureBeyondViewport=True)
        with open(path, "wb") as file:
            file.write(base64.b64decode(found["data"]))
