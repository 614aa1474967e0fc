"""A headless Chromium that a script leads through pages, by the browser's debugging protocol over a pipe. Wants the package chromium."""
import base64
import json
import os
import shutil
import subprocess
import tempfile
import time
import urllib.parse

# Without a graphics card the browser draws WebGL by a processor, with SwiftShader; here it does so always, so that pictures and times
# are alike on every machine.
FLAGS = ["--headless=new", "--no-sandbox", "--disable-gpu", "--enable-unsafe-swiftshader", "--hide-scrollbars", "--disable-gpu-vsync",
         "--disable-background-networking", "--disable-component-update", "--disable-sync", "--no-first-run", "--remote-debugging-pipe",
         "--host-resolver-rules=MAP * ~NOTFOUND"]


def found():
    """The path of the browser, or None."""
    return shutil.which("chromium")


class Browser:
    """One browser with one page. `faults` has what the page's console tells as an error, and what it throws."""

    def __init__(self, width=1280, height=800):
        self.room = tempfile.TemporaryDirectory(prefix="smol-browser-")
        theirs_in, self.out = os.pipe()
        self.into, theirs_out = os.pipe()
        words = [found(), *FLAGS, f"--user-data-dir={self.room.name}", f"--window-size={width},{height}", "about:blank"]
        self.child = subprocess.Popen(["bash", "-c", f'exec "$@" 3<&{theirs_in} 4>&{theirs_out}', "bash", *words],
                                      stdin=subprocess.DEVNULL, stdout=subprocess.DEVNULL, stderr=subprocess.DEVNULL,
                                      pass_fds=[theirs_in, theirs_out])
        os.close(theirs_in)
        os.close(theirs_out)
        self.number, self.rest, self.faults, self.session = 0, b"", [], None
        target = self.ask("Target.createTarget", url="about:blank")["targetId"]
        self.session = self.ask("Target.attachToTarget", targetId=target, flatten=True)["sessionId"]
        for part in ["Page", "Runtime", "Log", "Network"]:
            self.ask(part + ".enable")
        self.ask("Emulation.setDeviceMetricsOverride", width=width, height=height, deviceScaleFactor=1, mobile=False)

    def __enter__(self):
        return self

    def __exit__(self, *_):
        try:
            self.session = None
            self.ask("Browser.close")
            self.child.wait(20)
        except (OSError, EOFError, subprocess.TimeoutExpired):
            pass
        finally:
            self.child.kill()
            self.child.wait()
            os.close(self.out)
            os.close(self.into)
            self.room.cleanup()

    def ask(self, method, **words):
        """Asks the browser for something, and gives its answer. What else it tells until then is looked at on the way."""
        self.number += 1
        message = {"id": self.number, "method": method, "params": words}
        if self.session:
            message["sessionId"] = self.session
        data = json.dumps(message).encode() + b"\0"
        while data:
            data = data[os.write(self.out, data):]
        while True:
            told = self._next()
            if told.get("id") == self.number:
                if "error" in told:
                    raise RuntimeError(f"{method}: {told['error']['message']}")
                return told["result"]
            self._note(told)

    def _next(self):
        while b"\0" not in self.rest:
            more = os.read(self.into, 1 << 20)
            if not more:
                raise EOFError("the browser has ended")
            self.rest += more
        text, _, self.rest = self.rest.partition(b"\0")
        return json.loads(text)

    def _note(self, told):
        method, words = told.get("method"), told.get("params", {})
        if method == "Runtime.exceptionThrown":
            details = words["exceptionDetails"]
            self.faults.append(details.get("exception", {}).get("description") or details["text"])
        elif method == "Runtime.consoleAPICalled" and words["type"] in ("error", "assert"):
            self.faults.append(" ".join(str(word.get("value", word.get("description"))) for word in words["args"]))
        elif method == "Log.entryAdded" and words["entry"]["level"] == "error":
            self.faults.append(words["entry"]["text"])
        elif method == "Network.requestWillBeSent" and not words["request"]["url"].startswith(("file:", "data:", "about:")):
            self.faults.append("asks the network for " + words["request"]["url"])

    def open(self, path):
        """Opens a page and waits until it says that it is drawn."""
        self.ask("Page.navigate", url="file://" + urllib.parse.quote(os.path.abspath(path)))
        self.until("document.documentElement?.dataset.drawn")

    def get(self, expression):
        """The value of an expression on the page."""
        answer = self.ask("Runtime.evaluate", expression=expression, returnByValue=True, awaitPromise=True)
        if "exceptionDetails" in answer:
            raise RuntimeError(f"{expression}: {answer['exceptionDetails']['exception'].get('description')}")
        return answer["result"].get("value")

    def until(self, expression, seconds=60):
        """Waits until an expression on the page is true, and gives its value."""
        end = time.monotonic() + seconds
        while time.monotonic() < end:
            value = self.get(expression)
            if value:
                return value
            time.sleep(0.05)
        raise TimeoutError(f"not within {seconds} seconds: {expression}" + "".join("\n" + fault for fault in self.faults))

    def picture(self, path):
        """Takes a picture of the page."""
        with open(path, "wb") as file:
            file.write(base64.b64decode(self.ask("Page.captureScreenshot", format="png")["data"]))

    def mouse(self, kind, x, y, buttons=0):
        self.ask("Input.dispatchMouseEvent", type=kind, x=x, y=y, buttons=buttons, button="left" if buttons or kind == "mouseReleased" else "none",
                 clickCount=1 if kind != "mouseMoved" else 0)

    def click(self, x, y):
        self.mouse("mousePressed", x, y, 1)
        self.mouse("mouseReleased", x, y)

    def drag(self, x, y, to_x, to_y, pieces=8):
        self.mouse("mousePressed", x, y, 1)
        for piece in range(1, pieces + 1):
            self.mouse("mouseMoved", x + (to_x - x) * piece / pieces, y + (to_y - y) * piece / pieces, 1)
        self.mouse("mouseReleased", to_x, to_y)

    def wheel(self, x, y, down):
        self.ask("Input.dispatchMouseEvent", type="mouseWheel", x=x, y=y, deltaX=0, deltaY=down)

    def key(self, key, code=None):
        text = key if len(key) == 1 else ""
        self.ask("Input.dispatchKeyEvent", type="keyDown", key=key, code=code or key, text=text)
        self.ask("Input.dispatchKeyEvent", type="keyUp", key=key, code=code or key)
