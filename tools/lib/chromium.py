"""Chromium without a screen, led by its debugging pipe, and a server of files for it: no port but the server's, and no library."""
import base64
import fcntl
import functools
import http.server
import json
import os
import shutil
import subprocess
import tempfile
import threading

FLAGS = [
    "--headless=new", "--no-sandbox", "--use-gl=angle", "--use-angle=swiftshader", "--enable-unsafe-swiftshader", "--hide-scrollbars",
    "--no-first-run", "--disable-background-networking", "--disable-component-update", "--disable-extensions", "--mute-audio",
    "--remote-debugging-pipe",
]  # fmt: skip


class Files(http.server.SimpleHTTPRequestHandler):
    """Serves files, of which nothing is kept by the browser."""

    extensions_map = {**http.server.SimpleHTTPRequestHandler.extensions_map, ".wasm": "application/wasm", ".js": "text/javascript"}

    def log_message(self, *_):
        pass

    def end_headers(self):
        self.send_header("Cache-Control", "no-store")
        super().end_headers()


def serve(folder):
    """Serves a folder on this machine alone, and returns the server and its address."""
    server = http.server.ThreadingHTTPServer(("127.0.0.1", 0), functools.partial(Files, directory=folder))
    threading.Thread(target=server.serve_forever, daemon=True).start()
    return server, f"http://127.0.0.1:{server.server_address[1]}/"


class Chromium:
    """A browser with one page."""

    def __init__(self):
        program = shutil.which("chromium") or shutil.which("google-chrome")
        if not program:
            raise FileNotFoundError("there is no chromium here")
        self.home = tempfile.mkdtemp()
        self.number, self.buffer, self.events, self.session = 0, b"", [], None
        low, self.to = os.pipe()
        self.back, high = os.pipe()
        # (the browser reads at 3 and writes at 4, so these are none of them yet)
        there, here = (fcntl.fcntl(it, fcntl.F_DUPFD_CLOEXEC, 10) for it in (low, high))
        self.process = subprocess.Popen(
            ["bash", "-c", f'exec "$0" "$@" 3<&{there} 4>&{here} {there}<&- {here}>&-', program, *FLAGS, f"--user-data-dir={self.home}", "about:blank"],
            stdin=subprocess.DEVNULL, stdout=subprocess.DEVNULL, stderr=subprocess.DEVNULL, pass_fds=(there, here),
        )  # fmt: skip
        for it in (low, high, there, here):
            os.close(it)
        page = next(it for it in self("Target.getTargets")["targetInfos"] if it["type"] == "page")
        self.session = self("Target.attachToTarget", targetId=page["targetId"], flatten=True)["sessionId"]
        for domain in ("Page", "Runtime", "Network", "Log"):
            self(domain + ".enable")

    def __call__(self, method, **params):
        """Asks the browser for something, and returns its answer; what it says meanwhile is kept."""
        self.number += 1
        asked = {"id": self.number, "method": method, "params": params}
        if self.session:
            asked["sessionId"] = self.session
        data = json.dumps(asked).encode() + b"\0"
        while data:
            data = data[os.write(self.to, data):]
        while (said := self.message()).get("id") != self.number:
            self.events.append(said)
        if "error" in said:
            raise RuntimeError(f"{method}: {said['error']}")
        return said["result"]

    def message(self):
        while b"\0" not in self.buffer:
            some = os.read(self.back, 1 << 20)
            if not some:
                raise EOFError("the browser ended")
            self.buffer += some
        one, self.buffer = self.buffer.split(b"\0", 1)
        return json.loads(one)

    def js(self, text):
        """Returns what an expression comes to on the page, which may be a promise."""
        answer = self("Runtime.evaluate", expression=text, returnByValue=True, awaitPromise=True)
        if "exceptionDetails" in answer:
            raise RuntimeError(json.dumps(answer["exceptionDetails"])[:600])
        return answer["result"].get("value")

    def go(self, address):
        self.events.clear()
        # (an address that differs behind its # alone isn't loaded anew)
        self("Page.navigate", url="about:blank")
        self("Page.navigate", url=address)

    def size(self, wide, tall, scale=1, mobile=False):
        self("Emulation.setDeviceMetricsOverride", width=wide, height=tall, deviceScaleFactor=scale, mobile=mobile)

    def scheme(self, name):
        self("Emulation.setEmulatedMedia", features=[{"name": "prefers-color-scheme", "value": name}])

    def mouse(self, points, press=True, release=True, modifiers=0):
        """Leads the mouse over points with its button down: presses it at the first, and releases it at the last."""
        for number, (x, y) in enumerate(points):
            kinds = ["mouseMoved"]
            if press and number == 0:
                kinds.append("mousePressed")
            if release and number == len(points) - 1:
                kinds.append("mouseReleased")
            for kind in kinds:
                self("Input.dispatchMouseEvent", type=kind, x=x, y=y, button="left", buttons=1, clickCount=1, modifiers=modifiers)

    def touch(self, points, release=True):
        """Leads a finger over points, and lifts it."""
        for number, (x, y) in enumerate(points):
            self("Input.dispatchTouchEvent", type="touchMove" if number else "touchStart", touchPoints=[{"x": x, "y": y}])
        if release:
            self("Input.dispatchTouchEvent", type="touchEnd", touchPoints=[])

    def key(self, name, down=True, up=True):
        """Presses a key, and lets it go."""
        for kind in ["keyDown"] * down + ["keyUp"] * up:
            self("Input.dispatchKeyEvent", type=kind, key=name)

    def downloads(self, folder):
        """Has files that the page gives out written into a folder."""
        self("Browser.setDownloadBehavior", behavior="allow", downloadPath=folder)

    def choose(self, name, path):
        """Chooses a file in an input of the page."""
        it = self("Runtime.evaluate", expression=f"document.getElementById('{name}')")["result"]["objectId"]
        self("DOM.setFileInputFiles", files=[path], objectId=it)

    def shot(self, path):
        with open(path, "wb") as it:
            it.write(base64.b64decode(self("Page.captureScreenshot", format="png")["data"]))

    def said(self):
        """Returns what the console, exceptions and the log have said since the last page was opened."""
        lines = []
        for event in self.events:
            kind, it = event.get("method"), event.get("params", {})
            if kind == "Runtime.consoleAPICalled":
                lines.append(it["type"] + ": " + " ".join(str(word.get("value", word.get("description"))) for word in it["args"]))
            elif kind == "Runtime.exceptionThrown":
                lines.append("thrown: " + json.dumps(it["exceptionDetails"])[:500])
            elif kind == "Log.entryAdded":
                lines.append("log: " + it["entry"]["text"])
        return lines

    def asked(self):
        """Returns the addresses that were asked for."""
        return [it["params"]["request"]["url"] for it in self.events if it.get("method") == "Network.requestWillBeSent"]

    def close(self):
        self.session = None
        try:
            self("Browser.close")
            self.process.wait(10)
        except (OSError, EOFError, RuntimeError, subprocess.TimeoutExpired):
            self.process.kill()
            self.process.wait()
        shutil.rmtree(self.home, ignore_errors=True)
