"""Drives a headless Firefox by Marionette, the protocol that it speaks itself."""

import base64
import contextlib
import json
import os
import shutil
import signal
import socket
import subprocess
import tempfile
import time

ELEMENT = "element-6066-11e4-a52e-4f735466cecf"


def found():
    """The browser, or None."""
    return os.environ.get("FIREFOX") or shutil.which("firefox-esr") or shutil.which("firefox")


class Firefox:
    """A browser with one tab."""

    def __init__(self, desktop=None):
        """`desktop` is where its window stands, and without one it has no window."""
        self.folder = tempfile.TemporaryDirectory(prefix="firefox-", ignore_cleanup_errors=True)
        self.downloads = os.path.join(self.folder.name, "downloads")
        os.mkdir(self.downloads)
        settings = {
            "marionette.port": 0,
            "datareporting.policy.dataSubmissionEnabled": False,
            "browser.download.folderList": 2,
            "browser.download.dir": self.downloads,
        }
        with open(f"{self.folder.name}/user.js", "w") as file:
            file.writelines(f"user_pref({json.dumps(name)}, {json.dumps(value)});\n" for name, value in settings.items())
        self.process = subprocess.Popen(
            [found(), *([] if desktop else ["--headless"]), "--marionette", "--no-remote", "--profile", self.folder.name],
            stdout=subprocess.DEVNULL,
            stderr=subprocess.DEVNULL,
            start_new_session=True,
            env={**(desktop.environment() if desktop else os.environ), "HOME": self.folder.name},
        )
        self.connection = socket.create_connection(("127.0.0.1", self.port()), timeout=120)
        self.input = self.connection.makefile("rb")
        self.number = 0
        self.message()
        self.call("WebDriver:NewSession", capabilities={})

    def port(self):
        """The port that the browser says it hears on."""
        end = time.monotonic() + 120
        while time.monotonic() < end:
            with contextlib.suppress(OSError, ValueError), open(f"{self.folder.name}/MarionetteActivePort") as file:
                return int(file.read())
            time.sleep(0.1)
        raise TimeoutError("the browser names no port")

    def message(self):
        """The next message of the browser: its size, a colon, and JSON."""
        size = b""
        while (sign := self.input.read(1)) != b":":
            size += sign
        return json.loads(self.input.read(int(size)))

    def call(self, method, **parameters):
        """What the browser answers to a call."""
        self.number += 1
        text = json.dumps([0, self.number, method, parameters]).encode()
        self.connection.sendall(b"%d:%s" % (len(text), text))
        _, _, error, result = self.message()
        if error:
            raise RuntimeError(f"{method}: {error['message']}")
        return result

    def open(self, url):
        """Opens a page."""
        self.call("WebDriver:Navigate", url=url)

    def ask(self, script):
        """The value of a script in the page."""
        return self.call("WebDriver:ExecuteScript", script=f"return {script}", args=[])["value"]

    def wait(self, script, seconds=60):
        """Waits until a script in the page says something else than false, and answers it."""
        end = time.monotonic() + seconds
        while time.monotonic() < end:
            value = self.ask(script)
            if value:
                return value
            time.sleep(0.01)
        raise TimeoutError(script)

    def choose(self, selector, path):
        """Chooses a file in a field."""
        field = self.call("WebDriver:FindElement", using="css selector", value=selector)["value"][ELEMENT]
        self.call("WebDriver:ElementSendKeys", id=field, text=os.path.abspath(path))

    def picture(self, path):
        """Writes a picture of the whole page."""
        data = self.call("WebDriver:TakeScreenshot", full=True, hash=False)["value"]
        with open(path, "wb") as file:
            file.write(base64.b64decode(data))

    def close(self):
        """Ends the browser with all processes that it started."""
        self.connection.close()
        with contextlib.suppress(ProcessLookupError):
            os.killpg(self.process.pid, signal.SIGTERM)
        self.process.wait()
        self.folder.cleanup()
