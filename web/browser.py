"""A headless Chromium, driven by WebDriver with nothing but Python's own library."""

import base64, json, os, shutil, socket, subprocess, tempfile, time, urllib.error, urllib.request


def free_port():
    with socket.socket() as it:
        it.bind(("127.0.0.1", 0))
        return it.getsockname()[1]


class Browser:
    def __init__(self, width=1280, height=1000):
        self.home = tempfile.mkdtemp()
        self.port = free_port()
        kept = {**os.environ, "HOME": self.home, "TMPDIR": self.home, "TZ": "UTC"}
        self.driver = subprocess.Popen(["chromedriver", f"--port={self.port}"], stdout=subprocess.DEVNULL, stderr=subprocess.DEVNULL, env=kept)
        try:
            self.begin(width, height)
        except BaseException:
            self.end()
            raise

    def begin(self, width, height):
        for _ in range(200):
            try:
                self.call("GET", "/status")
                break
            except OSError:
                time.sleep(0.05)
        args = ["--headless=new", "--no-sandbox", "--disable-gpu", "--disable-dev-shm-usage", "--hide-scrollbars", f"--window-size={width},{height}",
                f"--user-data-dir={self.home}/profile"]
        asked = {"goog:chromeOptions": {"binary": shutil.which("chromium"), "args": args}, "goog:loggingPrefs": {"browser": "ALL"}}
        session = self.call("POST", "/session", {"capabilities": {"alwaysMatch": asked}})
        self.version = session["capabilities"]["browserVersion"]
        self.at = f"/session/{session['sessionId']}"
        self.call("POST", f"{self.at}/timeouts", {"script": 240000})

    def end(self):
        if hasattr(self, "at"):
            self.call("DELETE", self.at)
        self.driver.terminate()
        self.driver.wait()
        shutil.rmtree(self.home, ignore_errors=True)

    def __enter__(self):
        return self

    def __exit__(self, *_):
        self.end()

    def call(self, method, path, body=None):
        data = None if body is None else json.dumps(body).encode()
        request = urllib.request.Request(f"http://127.0.0.1:{self.port}{path}", data, {"Content-Type": "application/json"}, method=method)
        try:
            with urllib.request.urlopen(request, timeout=300) as answer:
                return json.load(answer)["value"]
        except urllib.error.HTTPError as error:
            raise RuntimeError(error.read().decode()[:600]) from None

    def open(self, url):
        self.call("POST", f"{self.at}/url", {"url": url})

    def run(self, script, *args):
        return self.call("POST", f"{self.at}/execute/sync", {"script": script, "args": list(args)})

    def run_async(self, script, *args):
        return self.call("POST", f"{self.at}/execute/async", {"script": script, "args": list(args)})

    def find(self, css):
        return next(iter(self.call("POST", f"{self.at}/element", {"using": "css selector", "value": css}).values()))

    def click(self, css):
        self.call("POST", f"{self.at}/element/{self.find(css)}/click", {})

    def type(self, css, text):
        element = self.find(css)
        self.call("POST", f"{self.at}/element/{element}/clear", {})
        self.call("POST", f"{self.at}/element/{element}/value", {"text": text})

    def press(self, keys):
        """Presses keys where the focus is."""
        steps = [{"type": kind, "value": key} for key in keys for kind in ("keyDown", "keyUp")]
        self.call("POST", f"{self.at}/actions", {"actions": [{"type": "key", "id": "keys", "actions": steps}]})

    def press_with(self, held, key):
        """Presses a key while another one is held."""
        steps = [("keyDown", held), ("keyDown", key), ("keyUp", key), ("keyUp", held)]
        self.call("POST", f"{self.at}/actions", {"actions": [{"type": "key", "id": "keys", "actions": [{"type": kind, "value": it} for kind, it in steps]}]})

    def tool(self, command, **words):
        """A command of the developers' tools."""
        return self.call("POST", f"{self.at}/goog/cdp/execute", {"cmd": command, "params": words})

    def look(self, width, height, dark=False):
        """Sets how large the window is, and which colours it asks for."""
        self.tool("Emulation.setDeviceMetricsOverride", width=width, height=height, deviceScaleFactor=1, mobile=False)
        self.tool("Emulation.setEmulatedMedia", features=[{"name": "prefers-color-scheme", "value": "dark" if dark else "light"}])

    def complaints(self):
        """What the console shows as errors."""
        return [it["message"] for it in self.call("POST", f"{self.at}/se/log", {"type": "browser"}) if it["level"] == "SEVERE"]

    def shot(self, path):
        with open(path, "wb") as it:
            it.write(base64.b64decode(self.call("GET", f"{self.at}/screenshot")))
