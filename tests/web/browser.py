"""Drives a headless Chromium by the DevTools protocol, over the pipes that it reads and writes: no port, and no driver."""

import base64
import contextlib
import itertools
import json
import os
import select
import shutil
import signal
import subprocess
import tempfile
import time


def found():
    """The browser, or None."""
    return os.environ.get("CHROMIUM") or shutil.which("chromium") or shutil.which("google-chrome")


class Browser:
    """A browser with one tab."""

    def __init__(self, *options, desktop=None):
        """`desktop` is where its window stands, and without one it has no window."""
        self.folder = tempfile.TemporaryDirectory(prefix="chromium-", ignore_cleanup_errors=True)
        (heard, to_browser), (from_browser, said) = os.pipe(), os.pipe()
        os.set_inheritable(heard, True)
        os.set_inheritable(said, True)
        words = [found(), "--remote-debugging-pipe", "--no-first-run", "--disable-gpu", "--hide-scrollbars"]
        words += [] if desktop else ["--headless=new"]
        words += [f"--user-data-dir={self.folder.name}", *(["--no-sandbox"] if os.geteuid() == 0 else []), *options, "about:blank"]

        def with_pipes():
            """Puts the pipes where the browser looks for them. Both are copied first, as either may stand in the other's place."""
            one, other = os.dup(heard), os.dup(said)
            os.dup2(one, 3)
            os.dup2(other, 4)

        self.process = subprocess.Popen(
            words,
            preexec_fn=with_pipes,
            pass_fds=(3, 4),
            stderr=subprocess.DEVNULL,
            start_new_session=True,
            env=desktop.environment() if desktop else None,
        )
        os.close(heard)
        os.close(said)
        self.output = os.fdopen(to_browser, "wb", buffering=0)
        self.input = os.fdopen(from_browser, "rb")
        self.numbers = itertools.count(1)
        self.session = None
        self.rest = b""
        tab = self.call("Target.createTarget", url="about:blank")["targetId"]
        self.session = self.call("Target.attachToTarget", targetId=tab, flatten=True)["sessionId"]
        self.downloads = os.path.join(self.folder.name, "downloads")
        os.mkdir(self.downloads)
        self.call("Browser.setDownloadBehavior", behavior="allow", downloadPath=self.downloads)
        self.call("Page.enable")
        self.call("Runtime.enable")

    def message(self):
        """The next message of the browser."""
        while b"\0" not in self.rest:
            if not select.select([self.input], [], [], 120)[0]:
                raise TimeoutError("the browser says nothing")
            piece = os.read(self.input.fileno(), 1 << 16)
            if not piece:
                raise RuntimeError("the browser has gone")
            self.rest += piece
        line, self.rest = self.rest.split(b"\0", 1)
        return json.loads(line)

    def call(self, method, **parameters):
        """What the browser answers to a call."""
        number = next(self.numbers)
        asked = {"id": number, "method": method, "params": parameters}
        if self.session:
            asked["sessionId"] = self.session
        self.output.write(json.dumps(asked).encode() + b"\0")
        while True:
            answer = self.message()
            if answer.get("id") == number:
                if "error" in answer:
                    raise RuntimeError(f"{method}: {answer['error']['message']}")
                return answer["result"]

    def open(self, url):
        """Opens a page."""
        self.call("Page.navigate", url=url)
        self.wait("document.readyState === 'complete'")

    def ask(self, script):
        """The value of a script in the page."""
        done = self.call("Runtime.evaluate", expression=script, returnByValue=True, awaitPromise=True)
        if "exceptionDetails" in done:
            raise RuntimeError(done["exceptionDetails"]["exception"].get("description", script))
        return done["result"].get("value")

    def wait(self, script, seconds=60):
        """Waits until a script in the page says something else than false, and answers it."""
        end = time.monotonic() + seconds
        while time.monotonic() < end:
            value = self.ask(script)
            if value:
                return value
            time.sleep(0.005)
        raise TimeoutError(script)

    def drop(self, paths, selector="h1"):
        """Drops files on an element, as a person does."""
        place = self.ask(
            f"(() => {{ const found = document.querySelector({json.dumps(selector)}); found.scrollIntoView({{block: 'center'}});"
            " const r = found.getBoundingClientRect(); return {x: r.x + r.width / 2, y: r.y + r.height / 2}; })()"
        )
        data = {"items": [], "files": [os.path.abspath(path) for path in paths], "dragOperationsMask": 1}
        for kind in ("dragEnter", "dragOver", "drop"):
            self.call("Input.dispatchDragEvent", type=kind, data=data, **place)

    def choose(self, selector, path):
        """Chooses a file in a field."""
        node = self.call("DOM.getDocument")["root"]["nodeId"]
        field = self.call("DOM.querySelector", nodeId=node, selector=selector)["nodeId"]
        self.call("DOM.setFileInputFiles", nodeId=field, files=[os.path.abspath(path)])

    def press(self, key, code=0, text=""):
        """Presses a key."""
        named = {"key": key, "code": key, "windowsVirtualKeyCode": code, **({"text": text} if text else {})}
        self.call("Input.dispatchKeyEvent", type="keyDown", **named)
        self.call("Input.dispatchKeyEvent", type="keyUp", **named)

    def look(self, width=1000, height=900, dark=False, scale=1):
        """Gives the page a size and a light or dark background."""
        self.call(
            "Emulation.setDeviceMetricsOverride", width=width, height=height, deviceScaleFactor=scale, mobile=width < 600
        )
        shade = {"name": "prefers-color-scheme", "value": "dark" if dark else "light"}
        self.call("Emulation.setEmulatedMedia", features=[shade])

    def picture(self, path):
        """Writes a picture of the whole page."""
        data = self.call("Page.captureScreenshot", format="png", captureBeyondViewport=True)["data"]
        with open(path, "wb") as file:
            file.write(base64.b64decode(data))

    def close(self):
        """Ends the browser with all processes that it started."""
        with contextlib.suppress(ProcessLookupError):
            os.killpg(self.process.pid, signal.SIGTERM)
        self.process.wait()
        self.output.close()
        self.input.close()
        self.folder.cleanup()
