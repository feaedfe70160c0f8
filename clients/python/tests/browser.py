"""A headless Chromium that is spoken to over its DevTools pipe: messages as JSON, each ended by a NUL."""
import base64
import json
import os
import select
import shutil
import subprocess
import tempfile
import time

# Which of the browser's messages are held: errors and other words of the console, and what is loaded.
KEPT = ("Runtime.exceptionThrown", "Runtime.consoleAPICalled", "Log.entryAdded", "Network.requestWillBeSent")
NAMES = ("chromium", "chromium-browser", "google-chrome", "google-chrome-stable")


def installed():
    """The path of a browser, or None."""
    return next(filter(None, map(shutil.which, NAMES)), None)


class Browser:
    """One tab of a browser, with what its console got."""

    def __init__(self, size=(1440, 900)):
        self.folder = tempfile.mkdtemp(prefix="mpw-browser-")
        theirs_in, self.out = os.pipe()
        self.given, theirs_out = os.pipe()
        words = [
            installed(), "--headless=new", "--remote-debugging-pipe", "--no-first-run", "--disable-gpu", "--no-sandbox",
            "--disable-background-networking", "--hide-scrollbars", f"--user-data-dir={self.folder}",
            f"--window-size={size[0]},{size[1]}", "about:blank"]
        # The browser reads from the descriptor 3 and writes to 4.
        shell = ["sh", "-c", f'exec "$@" 3<&{theirs_in} 4>&{theirs_out}', "sh"]
        nowhere = subprocess.DEVNULL
        self.process = subprocess.Popen(
            shell + words, pass_fds=(theirs_in, theirs_out), stdin=nowhere, stdout=nowhere, stderr=nowhere)
        os.close(theirs_in)
        os.close(theirs_out)
        self.number, self.rest, self.session, self.console = 0, b"", None, []
        target = next(it for it in self.ask("Target.getTargets")["targetInfos"] if it["type"] == "page")
        self.session = self.ask("Target.attachToTarget", targetId=target["targetId"], flatten=True)["sessionId"]
        for domain in ("Page", "Runtime", "Log", "Network"):
            self.ask(f"{domain}.enable")

    def __enter__(self):
        return self

    def __exit__(self, *_):
        self.process.terminate()
        self.process.wait(10)
        os.close(self.out)
        os.close(self.given)
        shutil.rmtree(self.folder, ignore_errors=True)

    def ask(self, method, **parameters):
        """What a command of the protocol gives."""
        self.number += 1
        message = {"id": self.number, "method": method, "params": parameters}
        if self.session:
            message["sessionId"] = self.session
        data = json.dumps(message).encode() + b"\0"
        while data:
            data = data[os.write(self.out, data):]
        while True:
            told = self.message()
            if told.get("id") == self.number:
                if "error" in told:
                    raise AssertionError(f"{method}: {told['error']}")
                return told["result"]

    def message(self, seconds=60):
        """The next message; errors and requests of the page are held."""
        end = time.monotonic() + seconds
        while b"\0" not in self.rest:
            if not select.select([self.given], [], [], max(0, end - time.monotonic()))[0]:
                raise AssertionError(f"the browser told nothing for {seconds} s")
            data = os.read(self.given, 1 << 20)
            if not data:
                raise AssertionError("the browser ended")
            self.rest += data
        first, self.rest = self.rest.split(b"\0", 1)
        told = json.loads(first)
        if told.get("method") in KEPT:
            self.console.append(told)
        return told

    def show(self, path, seconds=30):
        """Opens a file, and waits for it to be drawn."""
        self.console.clear()
        self.ask("Page.navigate", url=f"file://{path}")
        self.until("document.readyState === 'complete' && (byId('stage').dataset.milliseconds !== undefined)", seconds)

    def run(self, text):
        """What a script gives in the page."""
        told = self.ask("Runtime.evaluate", expression=text, returnByValue=True, awaitPromise=True)
        if "exceptionDetails" in told:
            raise AssertionError(told["exceptionDetails"]["exception"].get("description"))
        return told["result"].get("value")

    def until(self, text, seconds=10):
        """Waits for a script to give true."""
        end = time.monotonic() + seconds
        while True:
            try:
                if self.run(text):
                    return
            except AssertionError as error:
                if "is not defined" not in str(error) and "null" not in str(error) and "Cannot find" not in str(error):
                    raise
            if time.monotonic() > end:
                raise AssertionError(f"not within {seconds} s: {text}")
            time.sleep(.05)

    def click(self, x, y):
        """Moves the mouse to a point, presses and releases it."""
        self.ask("Input.dispatchMouseEvent", type="mouseMoved", x=x, y=y)
        for kind in ("mousePressed", "mouseReleased"):
            self.ask("Input.dispatchMouseEvent", type=kind, x=x, y=y, button="left", clickCount=1)

    def drag(self, x, y, to_x, to_y):
        """Moves the mouse with its button pressed."""
        for kind, at in (
                ("mouseMoved", (x, y)), ("mousePressed", (x, y)), ("mouseMoved", (to_x, to_y)),
                ("mouseReleased", (to_x, to_y))):
            self.ask("Input.dispatchMouseEvent", type=kind, x=at[0], y=at[1], button="left", buttons=1, clickCount=1)

    def wheel(self, x, y, turned):
        """Turns the wheel at a point: away from the user where that is below 0."""
        self.ask("Input.dispatchMouseEvent", type="mouseWheel", x=x, y=y, deltaX=0, deltaY=turned)

    def key(self, key):
        """Presses a key."""
        text = {"text": key} if len(key) == 1 else {}
        self.ask("Input.dispatchKeyEvent", type="keyDown", key=key, **text)
        self.ask("Input.dispatchKeyEvent", type="keyUp", key=key)

    def picture(self, path):
        """Writes what is shown as a PNG."""
        with open(path, "wb") as file:
            file.write(base64.b64decode(self.ask("Page.captureScreenshot", format="png")["data"]))
