"""A desktop of its own, on which the file chooser of a browser is used by the keyboard, as people do: Xvfb and xdotool."""

import os
import shutil
import subprocess
import time

# How the choosers of Chromium and Firefox are called.
CHOOSER = "^(Open File|File Upload)"
# The chooser looks at a path that is typed.
LOOKS_AT_A_PATH = 1


def found():
    """Is there what it takes?"""
    return shutil.which("Xvfb") is not None and shutil.which("xdotool") is not None


class Desktop:
    """A screen that nobody sees."""

    def __init__(self):
        said, heard = os.pipe()
        words = ["Xvfb", "-displayfd", str(heard), "-screen", "0", "1280x1000x24", "-nolisten", "tcp"]
        self.process = subprocess.Popen(words, pass_fds=(heard,), stderr=subprocess.DEVNULL)
        os.close(heard)
        with os.fdopen(said) as file:
            self.display = f":{file.readline().strip()}"

    def environment(self):
        """The environment of a program that shows itself here."""
        return {**os.environ, "DISPLAY": self.display}

    def do(self, *words):
        """What xdotool prints, word by word."""
        command = ["xdotool", *words]
        return subprocess.run(command, env=self.environment(), capture_output=True, text=True, check=False).stdout.split()

    def window(self, name, seconds=30):
        """Waits for a window whose name matches, and gives it the keyboard."""
        end = time.monotonic() + seconds
        while time.monotonic() < end:
            windows = self.do("search", "--onlyvisible", "--name", name)
            if windows:
                self.do("windowfocus", "--sync", windows[-1])
                return windows[-1]
            time.sleep(0.05)
        raise TimeoutError(name)

    def choose(self, tab, field, path):
        """Chooses a file: on a field of the page in this tab a key is pressed, and the path is typed into the chooser."""
        self.window("^p21: STEP files, checked and compared")
        tab.ask(f"document.getElementById('{field}').focus()")
        self.do("key", "space")
        chooser = self.window(CHOOSER)
        self.do("type", "--delay", "5", str(path))
        time.sleep(LOOKS_AT_A_PATH)
        self.do("key", "alt+o")
        end = time.monotonic() + 30
        while chooser in self.do("search", "--onlyvisible", "--name", CHOOSER):
            if time.monotonic() > end:
                raise TimeoutError("the chooser stays open")
            time.sleep(0.05)

    def close(self):
        """Ends it."""
        self.process.terminate()
        self.process.wait()
