"""A browser that a check steers: Chromium without a window, by its pipe for commands. It needs no driver and no network."""

import json
import shutil
import subprocess
import time

NAMES = ("chromium", "chromium-browser", "google-chrome")


def found():
    """The program of a browser, or None."""
    return next(filter(None, map(shutil.which, NAMES)), None)


class Browser:
    """One page of a browser."""

    def __init__(self, program, folder, width=1500, height=900):
        # The browser reads commands from its file 3, and writes what comes of them into its file 4.
        flags = f"--headless --no-sandbox --disable-gpu --user-data-dir={folder} --window-size={width},{height} --remote-debugging-pipe"
        words = ["sh", "-c", f"exec {program} {flags} 3<&0 4>&1 </dev/null >/dev/null 2>/dev/null"]
        self.process = subprocess.Popen(words, stdin=subprocess.PIPE, stdout=subprocess.PIPE)
        self.number, self.session, self.rest = 0, None, b""
        target = self.command("Target.createTarget", url="about:blank")["targetId"]
        self.session = self.command("Target.attachToTarget", targetId=target, flatten=True)["sessionId"]

    def __enter__(self):
        return self

    def __exit__(self, *_):
        self.process.stdin.close()
        self.process.kill()
        self.process.wait()

    def told(self):
        """The next thing that the browser says."""
        while b"\0" not in self.rest:
            more = self.process.stdout.read1(1 << 20)
            if not more:
                raise EOFError("the browser has ended")
            self.rest += more
        first, self.rest = self.rest.split(b"\0", 1)
        return json.loads(first)

    def command(self, method, **params):
        """What comes of a command."""
        self.number += 1
        asked = {"id": self.number, "method": method, "params": params}
        if self.session:
            asked["sessionId"] = self.session
        self.process.stdin.write(json.dumps(asked).encode() + b"\0")
        self.process.stdin.flush()
        while (answer := self.told()).get("id") != self.number:
            pass
        if "error" in answer:
            raise ValueError(f"{method}: {answer['error']['message']}")
        return answer["result"]

    def value(self, expression):
        """The value of an expression of JavaScript on the page."""
        answer = self.command("Runtime.evaluate", expression=expression, returnByValue=True)
        if "exceptionDetails" in answer:
            raise ValueError(answer["exceptionDetails"]["exception"].get("description", expression))
        return answer["result"].get("value")

    def open(self, path):
        """Opens a file, and waits for its last element."""
        self.command("Page.navigate", url="about:blank")
        self.command("Page.navigate", url=f"file://{path}")
        limit = time.monotonic() + 30
        while self.value("document.readyState") != "complete" or self.value("location.protocol") != "file:":
            if time.monotonic() > limit:
                raise TimeoutError(path)
            time.sleep(0.01)

    def press(self, key):
        """Presses a key."""
        text = {"text": key} if len(key) == 1 else {}
        self.command("Input.dispatchKeyEvent", type="keyDown", key=key, **text)
        self.command("Input.dispatchKeyEvent", type="keyUp", key=key)

    def click(self, selector):
        """Clicks into the middle of the first such element."""
        box = f"JSON.stringify(document.querySelector({json.dumps(selector)}).getBoundingClientRect())"
        at = json.loads(self.value(box))
        middle = {"x": at["x"] + at["width"] / 2, "y": at["y"] + at["height"] / 2}
        for kind in ("mousePressed", "mouseReleased"):
            self.command("Input.dispatchMouseEvent", type=kind, button="left", clickCount=1, **middle)
