"""A page in headless Chromium, driven by the DevTools protocol."""

import asyncio
import base64
import itertools
import json
import os
import shutil
import signal
import subprocess
import tempfile
import time
from pathlib import Path
from typing import Any

import aiohttp

PATIENCE = 30.0
CHROMIUM = shutil.which("chromium") or ""
"""The program, or an empty text."""
KEYS = {
    "Enter": (13, "\r"), "Tab": (9, ""), "Home": (36, ""), "End": (35, ""), " ": (32, " "),
    "ArrowLeft": (37, ""), "ArrowUp": (38, ""), "ArrowRight": (39, ""), "ArrowDown": (40, ""),
}
"""The number and text of each key that is pressed here."""
CTRL, SHIFT = 2, 8


class Browser:
    """A browser with one page. Nothing of it is left after `close`."""

    def __init__(self) -> None:
        self._folder = tempfile.mkdtemp(prefix="xqs-chromium-")
        self._loop = asyncio.new_event_loop()
        self._numbers = itertools.count(1)
        self.log: list[str] = []
        self._process = subprocess.Popen(
            [CHROMIUM, "--headless=new", "--no-sandbox", "--disable-gpu", "--no-first-run",
             "--disable-extensions", "--window-size=1200,800", "--remote-debugging-port=0",
             f"--user-data-dir={self._folder}", "about:blank"],
            stdin=subprocess.DEVNULL, stdout=subprocess.DEVNULL, stderr=subprocess.DEVNULL,
            process_group=0)
        self._loop.run_until_complete(self._connect())

    async def _connect(self) -> None:
        port_file = Path(self._folder) / "DevToolsActivePort"
        end = time.monotonic() + PATIENCE
        while not port_file.exists() or len(port_file.read_text().split()) < 2:
            if time.monotonic() > end:
                raise TimeoutError("Chromium does not start")
            await asyncio.sleep(0.05)
        port = port_file.read_text().split()[0]
        self._session = aiohttp.ClientSession()
        async with self._session.get(f"http://127.0.0.1:{port}/json") as response:
            targets = await response.json()
        [page] = [it for it in targets if it["type"] == "page"]
        self._socket = await self._session.ws_connect(
            page["webSocketDebuggerUrl"], max_msg_size=1 << 28)
        for domain in ("Page", "Runtime", "Log"):
            await self._call(f"{domain}.enable", {})

    async def _call(self, method: str, parameters: dict[str, Any]) -> dict[str, Any]:
        number = next(self._numbers)
        await self._socket.send_json({"id": number, "method": method, "params": parameters})
        while True:
            message = await self._socket.receive_json(timeout=PATIENCE)
            if message.get("id") == number:
                if "error" in message:
                    raise RuntimeError(f"{method}: {message['error']}")
                result: dict[str, Any] = message["result"]
                return result
            if message.get("method") in ("Log.entryAdded", "Runtime.exceptionThrown"):
                self.log.append(json.dumps(message["params"]))

    def call(self, method: str, **parameters: Any) -> dict[str, Any]:
        """Calls a method of the protocol."""
        return self._loop.run_until_complete(self._call(method, parameters))

    def evaluate(self, script: str) -> Any:
        """The value of an expression in the page."""
        result = self.call("Runtime.evaluate", expression=script, returnByValue=True,
                           awaitPromise=True)
        if "exceptionDetails" in result:
            raise RuntimeError(json.dumps(result["exceptionDetails"]))
        return result["result"].get("value")

    def wait_for(self, script: str) -> Any:
        """Waits until an expression in the page is true. Returns its value."""
        end = time.monotonic() + PATIENCE
        while not (value := self.evaluate(script)):
            if time.monotonic() > end:
                raise TimeoutError(f"{script}: {value!r}; {self.log}")
            time.sleep(0.03)
        return value

    def go(self, url: str) -> None:
        """Opens a page anew."""
        self.call("Page.navigate", url="about:blank")
        self.wait_for("location.href === 'about:blank' && document.readyState === 'complete'")
        self.log.clear()
        self.call("Page.navigate", url=url)
        self.wait_for("location.href !== 'about:blank' && document.readyState === 'complete'")

    def press(self, key: str, modifiers: int = 0) -> None:
        """Presses and releases a key."""
        number, text = KEYS[key]
        common = {"key": key, "windowsVirtualKeyCode": number, "modifiers": modifiers}
        if text and not modifiers & CTRL:
            common["text"] = text
        self.call("Input.dispatchKeyEvent", type="keyDown", **common)
        common.pop("text", None)
        self.call("Input.dispatchKeyEvent", type="keyUp", **common)

    def type(self, text: str) -> None:
        """Types a text where the focus is."""
        self.call("Input.insertText", text=text)

    def prefer(self, scheme: str) -> None:
        """Sets the user's preference for the colour scheme, `dark` or `light`."""
        features = [{"name": "prefers-color-scheme", "value": scheme}]
        self.call("Emulation.setEmulatedMedia", features=features)

    def picture(self, path: Path) -> None:
        """Writes a picture of the window as PNG."""
        path.write_bytes(base64.b64decode(self.call("Page.captureScreenshot")["data"]))

    def close(self) -> None:
        """Ends the browser."""
        self._loop.run_until_complete(self._session.close())
        self._loop.close()
        os.killpg(self._process.pid, signal.SIGKILL)
        self._process.wait()
        shutil.rmtree(self._folder, ignore_errors=True)
