"""Chromium without a window, by its DevTools protocol over two pipes: pages are opened, clicked, typed at and read."""
import base64
import json
import os
import select
import shutil
import subprocess
import time


def chromium():
    """The program, or None."""
    return shutil.which("chromium") or shutil.which("chromium-browser") or shutil.which("google-chrome")


class Browser:
    def __init__(self, program, home):
        to_it, from_it = os.pipe(), os.pipe()

        def pipes():  # the browser reads from 3 and writes to 4
            reader, writer = os.dup(to_it[0]), os.dup(from_it[1])
            os.dup2(reader, 3)
            os.dup2(writer, 4)
        self.run = subprocess.Popen([program, "--headless=new", "--no-sandbox", "--disable-gpu", "--no-first-run", "--disable-extensions", "--disable-dev-shm-usage",
                                     "--hide-scrollbars", "--disable-background-networking", f"--user-data-dir={home}", "--remote-debugging-pipe", "about:blank"],
                                    stdin=subprocess.DEVNULL, stdout=subprocess.DEVNULL, stderr=subprocess.DEVNULL, preexec_fn=pipes, close_fds=False)
        os.close(to_it[0])
        os.close(from_it[1])
        self.writer, self.reader, self.rest, self.number, self.session = to_it[1], from_it[0], b"", 0, None
        self.events = []
        target = self.call("Target.createTarget", url="about:blank")["targetId"]
        self.session = self.call("Target.attachToTarget", targetId=target, flatten=True)["sessionId"]
        for domain in ("Page", "Runtime", "Network", "Log"):
            self.call(domain + ".enable")

    def call(self, method, **params):
        self.number += 1
        text = {"id": self.number, "method": method, "params": params}
        if self.session:
            text["sessionId"] = self.session
        os.write(self.writer, json.dumps(text).encode() + b"\0")
        until = time.monotonic() + 60
        while True:
            said = self.next(until)
            if said.get("id") == self.number:
                if "error" in said:
                    raise RuntimeError(f"{method}: {said['error']}")
                return said["result"]
            self.events.append(said)

    def next(self, until):
        while b"\0" not in self.rest:
            if not select.select([self.reader], [], [], max(0, until - time.monotonic()))[0]:
                raise RuntimeError("the browser does not answer")
            more = os.read(self.reader, 1 << 20)
            if not more:
                raise RuntimeError("the browser has ended")
            self.rest += more
        text, self.rest = self.rest.split(b"\0", 1)
        return json.loads(text)

    def js(self, text):
        said = self.call("Runtime.evaluate", expression=text, returnByValue=True)
        if "exceptionDetails" in said:
            raise RuntimeError(f"{text}: {said['exceptionDetails']}")
        return said["result"].get("value")

    def open(self, url, ready="document.documentElement?.dataset.ready === '1'"):
        """Opens a page, up to when this holds."""
        self.call("Page.navigate", url="about:blank")
        self.call("Page.navigate", url=url)
        until = time.monotonic() + 60
        while not self.js(f"location.href !== 'about:blank' && {ready}"):
            if time.monotonic() > until:
                raise RuntimeError(f"{url}: its script has not run")
            time.sleep(0.05)

    def click(self, text, part_x=0.5, part_y=0.5):
        """Clicks into an element, at a part of its width and height."""
        box = self.js(f"(() => {{ const it = {text}; it.scrollIntoView({{block: 'center', behavior: 'instant'}}); const b = it.getBoundingClientRect(); return [b.left, b.top, b.width, b.height]; }})()")
        x, y = box[0] + part_x * box[2], box[1] + part_y * box[3]
        for kind in ("mousePressed", "mouseReleased"):
            self.call("Input.dispatchMouseEvent", type=kind, x=x, y=y, button="left", clickCount=1)

    def key(self, name):
        for kind in ("rawKeyDown", "keyUp"):
            self.call("Input.dispatchKeyEvent", type=kind, key=name, code=name)

    def size(self, width, height):
        self.call("Emulation.setDeviceMetricsOverride", width=width, height=height, deviceScaleFactor=1, mobile=False)

    def scheme(self, name):
        self.call("Emulation.setEmulatedMedia", features=[{"name": "prefers-color-scheme", "value": name}])

    def picture(self, path, height=0):
        clip = {"captureBeyondViewport": True, "clip": {"x": 0, "y": 0, "width": self.js("innerWidth"), "height": height or self.js("document.body.scrollHeight"), "scale": 1}}
        with open(path, "wb") as file:
            file.write(base64.b64decode(self.call("Page.captureScreenshot", format="png", **clip)["data"]))

    def end(self):
        try:
            self.session = None
            self.call("Browser.close")
        except (RuntimeError, OSError):
            pass
        try:
            self.run.wait(10)
        except subprocess.TimeoutExpired:
            self.run.kill()
            self.run.wait()
