"""A browser without a window and without a network, spoken to as its own tools do, by a pipe."""

import base64
import json
import os
import pathlib
import shutil
import signal
import subprocess
import sys
import tempfile
import time

BROWSERS = "chromium", "chromium-browser", "google-chrome", "chrome"

# How long a page may take for what is awaited, in seconds.
PATIENCE = 60

# Starts a browser with both ends of its pipes where it looks for them, whatever their numbers are.
LAUNCH = """
import fcntl, os, sys
first, second = (fcntl.fcntl(int(it), fcntl.F_DUPFD, 10) for it in sys.argv[1:3])
os.dup2(first, 3)
os.dup2(second, 4)
os.execv(sys.argv[3], sys.argv[3:])
"""


def found_browser():
    return next(filter(None, map(shutil.which, BROWSERS)), None)


class Browser:
    """One page of a browser. Where it tells an error, or ends, a RuntimeError is raised."""

    def __init__(self, page, width=1200, height=900):
        self.room = tempfile.TemporaryDirectory(prefix="dmrgate-browser-", ignore_cleanup_errors=True)
        self.count, self.pending, self.errors = 0, b"", []
        theirs, self.out = os.pipe()
        self.into, given = os.pipe()
        # It reads from 3, and writes to 4.
        os.set_inheritable(theirs, True)
        os.set_inheritable(given, True)
        options = ["--headless", "--no-sandbox", "--disable-gpu", "--hide-scrollbars", "--host-resolver-rules=MAP * ~NOTFOUND"]
        options += ["--remote-debugging-pipe", f"--user-data-dir={self.room.name}", f"--window-size={width},{height}"]
        command = [sys.executable, "-c", LAUNCH, str(theirs), str(given), found_browser(), *options, "about:blank"]
        how = {"stdout": subprocess.DEVNULL, "stderr": subprocess.DEVNULL, "start_new_session": True}
        self.process = subprocess.Popen(command, pass_fds=(theirs, given), **how)
        os.close(theirs)
        os.close(given)
        target = self.call("Target.createTarget", url=pathlib.Path(page).resolve().as_uri())["targetId"]
        self.session = self.call("Target.attachToTarget", targetId=target, flatten=True)["sessionId"]
        for domain in ("Runtime", "DOM", "Page"):
            self.call(f"{domain}.enable")

    def __enter__(self):
        return self

    def __exit__(self, *_):
        # With all that it has started.
        os.killpg(self.process.pid, signal.SIGKILL)
        self.process.wait()
        os.close(self.out)
        os.close(self.into)
        self.room.cleanup()

    def call(self, method, **parameters):
        self.count += 1
        session = {"sessionId": self.session} if hasattr(self, "session") else {}
        os.write(self.out, json.dumps({"id": self.count, "method": method, "params": parameters, **session}).encode() + b"\0")
        while True:
            answer = self.next_message()
            if answer.get("method") == "Runtime.exceptionThrown":
                self.errors.append(answer["params"]["exceptionDetails"])
            if answer.get("id") == self.count:
                if "error" in answer:
                    raise RuntimeError(f"{method}: {answer['error']}")
                return answer["result"]

    def next_message(self):
        while b"\0" not in self.pending:
            octets = os.read(self.into, 1 << 20)
            if not octets:
                raise RuntimeError("the browser has ended")
            self.pending += octets
        message, _, self.pending = self.pending.partition(b"\0")
        return json.loads(message)

    def value(self, expression):
        """What an expression of the page is."""
        return self.call("Runtime.evaluate", expression=expression, returnByValue=True)["result"].get("value")

    def wait_for(self, expression):
        """Waits until that is true."""
        end = time.monotonic() + PATIENCE
        while not self.value(expression):
            if time.monotonic() > end:
                raise RuntimeError(f"it never came to be that {expression}: {self.errors}")
            time.sleep(0.05)

    def give_file(self, selector, file):
        """Chooses a file, as a user does."""
        root = self.call("DOM.getDocument")["root"]["nodeId"]
        node = self.call("DOM.querySelector", nodeId=root, selector=selector)["nodeId"]
        self.call("DOM.setFileInputFiles", nodeId=node, files=[str(pathlib.Path(file).resolve())])

    def picture(self, **more):
        """A picture of the page."""
        return base64.b64decode(self.call("Page.captureScreenshot", format="png", **more)["data"])

    def picture_of(self, left, top, width, height):
        """A picture of a part of the page, wherever that stands."""
        part = {"x": left, "y": top, "width": width, "height": height, "scale": 1}
        return self.picture(clip=part, captureBeyondViewport=True)
