"""A headless Chromium, driven by its remote debugging protocol over two pipes, and a server for one folder."""
import base64
import contextlib
import functools
import http.server
import json
import os
import select
import subprocess
import threading
import time

SECONDS = 30  # that a command may take
FLAGS = ("--headless=new", "--no-sandbox", "--disable-gpu", "--hide-scrollbars", "--remote-debugging-pipe", "--no-first-run",
         "--disable-background-networking", "--disable-component-update", "--disable-dev-shm-usage", "--force-color-profile=srgb",
         "--force-device-scale-factor=1")


class Failed(Exception):
    """The browser refused a command, or a script in it threw."""


@contextlib.contextmanager
def served(folder):
    """The address of a server on this machine that gives the files of a folder."""
    class Quiet(http.server.SimpleHTTPRequestHandler):
        def log_message(self, *_):
            pass

    server = http.server.ThreadingHTTPServer(("127.0.0.1", 0), functools.partial(Quiet, directory=folder))
    threading.Thread(target=server.serve_forever, args=(0.05,), daemon=True).start()
    try:
        yield f"http://127.0.0.1:{server.server_port}/"
    finally:
        server.shutdown()
        server.server_close()


class Browser:
    """The browser, with one page."""

    def __init__(self, room):
        to_read, self.to = os.pipe()
        self.of, to_write = os.pipe()

        def pipes():
            # The browser reads commands from 3 and writes answers to 4. Both may be among the four, so copy them away first.
            first, second = os.dup2(to_read, 63), os.dup2(to_write, 64)
            os.dup2(first, 3)
            os.dup2(second, 4)

        words = ["chromium", *FLAGS, f"--user-data-dir={room}", "about:blank"]
        with open(os.path.join(room, "log"), "wb") as log:
            self.process = subprocess.Popen(words, stdin=subprocess.DEVNULL, stdout=log, stderr=log, preexec_fn=pipes,
                                            close_fds=False, start_new_session=True)
        os.close(to_read)
        os.close(to_write)
        self.sent, self.read, self.events, self.session = 0, b"", [], None
        target = next(it for it in self.send("Target.getTargets")["targetInfos"] if it["type"] == "page")
        self.session = self.send("Target.attachToTarget", targetId=target["targetId"], flatten=True)["sessionId"]
        for domain in ("Page", "Runtime", "DOM", "Accessibility", "Network"):
            self.send(f"{domain}.enable")

    def close(self):
        with contextlib.suppress(Failed, OSError, TimeoutError):
            self.session = None
            self.send("Browser.close")
        try:
            self.process.wait(10)
        except subprocess.TimeoutExpired:
            self.process.kill()
            self.process.wait()
        os.close(self.to)
        os.close(self.of)

    def message(self, until):
        while b"\0" not in self.read:
            if not select.select([self.of], [], [], max(0, until - time.monotonic()))[0]:
                raise TimeoutError("the browser does not answer")
            part = os.read(self.of, 1 << 20)
            if not part:
                raise Failed("the browser ended")
            self.read += part
        said, _, self.read = self.read.partition(b"\0")
        return json.loads(said)

    def send(self, method, **parameters):
        self.sent += 1
        number, until = self.sent, time.monotonic() + SECONDS
        asked = {"id": number, "method": method, "params": parameters}
        if self.session:
            asked["sessionId"] = self.session
        given = json.dumps(asked).encode() + b"\0"
        while given:
            given = given[os.write(self.to, given):]
        while True:
            said = self.message(until)
            if said.get("id") == number:
                if "error" in said:
                    raise Failed(f"{method}: {said['error']['message']}")
                return said["result"]
            if "method" in said:
                self.events.append(said)

    def run(self, script):
        """The value of a script, which may wait."""
        said = self.send("Runtime.evaluate", expression=script, awaitPromise=True, returnByValue=True, userGesture=True)
        if "exceptionDetails" in said:
            raise Failed(said["exceptionDetails"].get("exception", {}).get("description", "a script threw"))
        return said["result"].get("value")

    def wait(self, condition, seconds=SECONDS):
        until = time.monotonic() + seconds
        while not self.run(f"Boolean({condition})"):
            if time.monotonic() > until:
                raise TimeoutError(condition)
            time.sleep(0.02)

    def go(self, address, condition="true"):
        """Loads a page, also if only its last part differs from where the browser is."""
        self.send("Page.navigate", url="about:blank")
        self.send("Page.navigate", url=address)
        self.wait(f"document.readyState === 'complete' && ({condition})")

    def size(self, width, height=900, mobile=False):
        self.send("Emulation.setDeviceMetricsOverride", width=width, height=height, deviceScaleFactor=1, mobile=mobile)

    def scheme(self, name):
        self.send("Emulation.setEmulatedMedia", features=[{"name": "prefers-color-scheme", "value": name}])

    def key(self, name, code=0, modifiers=0, text=""):
        given = {"key": name, "code": name, "windowsVirtualKeyCode": code, "modifiers": modifiers}
        self.send("Input.dispatchKeyEvent", type="keyDown", text=text, **given)
        self.send("Input.dispatchKeyEvent", type="keyUp", **given)

    def type(self, text):
        for character in text:
            self.send("Input.dispatchKeyEvent", type="char", text=character)

    def picture(self, clip=None):
        """What is seen, or one rectangle of the page, as PNG, once all is drawn that was changed."""
        self.run("new Promise((done) => requestAnimationFrame(() => requestAnimationFrame(() => setTimeout(done, 50))))")
        given = {"format": "png", "captureBeyondViewport": clip is not None}
        if clip:
            given["clip"] = {**clip, "scale": 1}
        return base64.b64decode(self.send("Page.captureScreenshot", **given)["data"])

    def whole(self):
        size = self.send("Page.getLayoutMetrics")["cssContentSize"]
        return self.picture({"x": 0, "y": 0, "width": size["width"], "height": size["height"]})
