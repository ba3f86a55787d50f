"""A browser without a window, as far as tests of a page need it: it opens a page, answers expressions, and is given
keys and clicks.

It is Debian's chromium, spoken to by its own protocol over two pipes: messages of JSON, each with a zero byte behind
it.
"""

import json
import os
import shutil
import subprocess
from typing import Any

NAMES = ("chromium", "chromium-browser", "google-chrome")


def find_browser() -> str | None:
    """The browser that is installed, or None."""
    return next((path for name in NAMES if (path := shutil.which(name))), None)


class Browser:
    """A browser with one page. What the page asks of the network is refused, and noted in `asked`."""

    def __init__(self, path: str, folder: str) -> None:
        to_read, self.write = os.pipe()
        self.read, to_write = os.pipe()
        # The browser reads its messages from descriptor 3 and writes to 4, wherever the pipes are here.
        command = 'exec 3<&"$1" 4>&"$2"; shift 2; exec "$@"'
        words = [
            path,
            "--headless=new",
            "--no-sandbox",
            "--disable-gpu",
            "--window-size=1400,1200",
            "--remote-debugging-pipe",
            f"--user-data-dir={folder}/browser",
            "--no-first-run",
            "--disable-background-networking",
            "about:blank",
        ]
        with open(os.path.join(folder, "browser.log"), "wb") as log:
            self.process = subprocess.Popen(
                ["bash", "-c", command, "sh", str(to_read), str(to_write), *words],
                pass_fds=(to_read, to_write),
                stdout=log,
                stderr=log,
            )
        os.close(to_read)
        os.close(to_write)
        self.number, self.rest = 0, b""
        self.session: str | None = None
        self.asked: list[str] = []
        page = next(it for it in self.call("Target.getTargets")["targetInfos"] if it["type"] == "page")
        self.session = self.call("Target.attachToTarget", targetId=page["targetId"], flatten=True)["sessionId"]
        for domain in ("Page", "Runtime", "Network"):
            self.call(domain + ".enable")

    def message(self) -> dict[str, Any]:
        """The next message of the browser."""
        while b"\0" not in self.rest:
            piece = os.read(self.read, 1 << 20)
            if not piece:
                raise OSError("the browser has ended")
            self.rest += piece
        text, self.rest = self.rest.split(b"\0", 1)
        message: dict[str, Any] = json.loads(text)
        if message.get("method") == "Network.requestWillBeSent":
            self.asked.append(message["params"]["request"]["url"])
        return message

    def call(self, method: str, **parameters: Any) -> dict[str, Any]:
        """The answer of the browser to a call."""
        self.number += 1
        call: dict[str, Any] = {"id": self.number, "method": method, "params": parameters}
        if self.session:
            call["sessionId"] = self.session
        os.write(self.write, json.dumps(call).encode() + b"\0")
        while (message := self.message()).get("id") != self.number:
            pass
        if "error" in message:
            raise OSError(f"{method}: {message['error']}")
        result: dict[str, Any] = message["result"]
        return result

    def open(self, path: str) -> None:
        """Opens the page of a file, without a network, and waits until it is loaded."""
        self.asked = []
        limits = {"latency": 0, "downloadThroughput": -1, "uploadThroughput": -1}
        self.call("Network.emulateNetworkConditions", offline=True, **limits)
        self.call("Page.navigate", url="file://" + path)
        while self.message().get("method") != "Page.loadEventFired":
            pass

    def value(self, expression: str) -> Any:
        """The value of an expression in the page."""
        answer = self.call("Runtime.evaluate", expression=expression, returnByValue=True)
        if "exceptionDetails" in answer:
            raise OSError(f"{expression}: {answer['exceptionDetails'].get('exception', answer)}")
        return answer["result"].get("value")

    def key(self, name: str) -> None:
        """Presses a key and lets it go: one of KEYS, or a character."""
        how = {
            "key": name,
            "windowsVirtualKeyCode": KEYS.get(name, ord(name[0].upper())),
            "modifiers": 8 * name.isupper(),
        }
        how |= {"code": name} if name in KEYS else {"text": name}
        for kind in ("rawKeyDown" if name in KEYS else "keyDown", "keyUp"):
            self.call("Input.dispatchKeyEvent", type=kind, **how)

    def width(self, pixels: int) -> None:
        """Makes the window so wide, as a telephone's is."""
        self.call("Emulation.setDeviceMetricsOverride", width=pixels, height=800, deviceScaleFactor=1, mobile=False)

    def dark(self, is_dark: bool) -> None:
        """Makes the reader's system dark, or light."""
        feature = {"name": "prefers-color-scheme", "value": "dark" if is_dark else "light"}
        self.call("Emulation.setEmulatedMedia", features=[feature])

    def click(self, x: float, y: float) -> None:
        """Clicks at a place of the window."""
        for kind in ("mousePressed", "mouseReleased"):
            self.call("Input.dispatchMouseEvent", type=kind, x=x, y=y, button="left", clickCount=1)

    def close(self) -> None:
        """Ends the browser that was started here."""
        try:
            self.session = None
            self.call("Browser.close")
            self.process.wait(10)
        except (OSError, subprocess.TimeoutExpired):
            self.process.kill()
            self.process.wait()


KEYS = {
    "ArrowLeft": 37,
    "ArrowRight": 39,
    "ArrowUp": 38,
    "ArrowDown": 40,
    "Home": 36,
    "End": 35,
    "PageUp": 33,
    "PageDown": 34,
    "Enter": 13,
    "Escape": 27,
    "Tab": 9,
}
