"""A browser that a program drives by the commands of WebDriver, and Chromium, which takes them over HTTP."""
import base64
import json
import shutil
import socket
import subprocess
import time
import urllib.error
import urllib.request

ELEMENT = "element-6066-11e4-a52e-4f735466cecf"
PROGRAMS = ("chromium", "chromium-browser", "google-chrome")
# seconds for a script and for a call
MOST = 300
# where the commands are over HTTP
PATHS = {
    "SetTimeouts": ("POST", "timeouts"),
    "Navigate": ("POST", "url"),
    "GetCurrentURL": ("GET", "url"),
    "ExecuteScript": ("POST", "execute/sync"),
    "ExecuteAsyncScript": ("POST", "execute/async"),
    "FindElement": ("POST", "element"),
    "GetActiveElement": ("GET", "element/active"),
    "ElementClick": ("POST", "element/{id}/click"),
    "ElementSendKeys": ("POST", "element/{id}/value"),
    "GetComputedLabel": ("GET", "element/{id}/computedlabel"),
    "PerformActions": ("POST", "actions"),
    "TakeScreenshot": ("GET", "screenshot"),
}


class Absent(Exception):
    """There is no browser or no driver, or it does not answer."""


class Element:
    """An element of the page."""

    def __init__(self, browser, found):
        self.browser, self.key = browser, found[ELEMENT]

    def click(self):
        self.browser.do("ElementClick", id=self.key)

    def send(self, keys):
        self.browser.do("ElementSendKeys", id=self.key, text=keys)

    def name(self):
        """The name that a screen reader says."""
        return self.browser.do("GetComputedLabel", id=self.key)


class Browser:
    """A browser with a session. A browser's own class has `do`, which carries out a command."""

    def open(self, url):
        self.do("Navigate", url="about:blank")
        self.do("Navigate", url=url)

    def url(self):
        return self.do("GetCurrentURL")

    def run(self, script, *given):
        """What a script returns."""
        return self.do("ExecuteScript", script=script, args=list(given))

    def run_later(self, script, *given):
        """What a script hands to its last argument."""
        return self.do("ExecuteAsyncScript", script=script, args=list(given))

    def find(self, selector):
        return Element(self, self.do("FindElement", using="css selector", value=selector))

    def focused(self):
        return Element(self, self.do("GetActiveElement"))

    def press(self, keys):
        """Presses keys where the focus is."""
        actions = [{"type": kind, "value": key} for key in keys for kind in ("keyDown", "keyUp")]
        self.do("PerformActions", actions=[{"type": "key", "id": "keys", "actions": actions}])

    def picture(self, path):
        path.write_bytes(base64.b64decode(self.do("TakeScreenshot")))


def free_port():
    with socket.socket() as probe:
        probe.bind(("127.0.0.1", 0))
        return probe.getsockname()[1]


class Chromium(Browser):
    """Chromium by its driver."""

    def __init__(self, width=1280, height=900):
        program, driver = next(filter(None, map(shutil.which, PROGRAMS)), None), shutil.which("chromedriver")
        if not program or not driver:
            raise Absent("no browser or no driver")
        port = free_port()
        self.driver = subprocess.Popen([driver, f"--port={port}"], stdout=subprocess.DEVNULL, stderr=subprocess.DEVNULL)
        self.base = f"http://127.0.0.1:{port}/session"
        window = f"--window-size={width},{height}"
        options = {
            "binary": program,
            "args": ["--headless=new", "--no-sandbox", "--disable-gpu", "--disable-dev-shm-usage", window],
        }
        logs = {"browser": "ALL", "performance": "ALL"}
        wanted = {"capabilities": {"alwaysMatch": {"goog:chromeOptions": options, "goog:loggingPrefs": logs}}}
        try:
            self.wait_for_driver()
            self.base += "/" + self.call("POST", self.base, wanted)["sessionId"]
            self.do("SetTimeouts", script=1000 * MOST)
        except BaseException:
            self.driver.terminate()
            raise

    def wait_for_driver(self):
        for _ in range(200):
            try:
                self.call("GET", self.base.replace("/session", "/status"))
                return
            except OSError:
                time.sleep(0.1)
        raise Absent("the driver does not answer")

    @staticmethod
    def call(method, url, body=None):
        data = None if body is None else json.dumps(body).encode()
        request = urllib.request.Request(url, data, {"Content-Type": "application/json"}, method=method)
        opener = urllib.request.build_opener(urllib.request.ProxyHandler({}))
        try:
            with opener.open(request, timeout=MOST) as answer:
                return json.load(answer)["value"]
        except urllib.error.HTTPError as error:
            raise AssertionError(json.load(error)["value"]["message"].split("\n")[0]) from None

    def do(self, command, **given):
        method, path = PATHS[command]
        return self.call(method, f"{self.base}/{path.format(**given)}", given if method == "POST" else None)

    def post(self, path, body):
        return self.call("POST", f"{self.base}/{path}", body)

    def media(self, name, value):
        """Has the page see a preference of the user."""
        parameters = {"features": [{"name": name, "value": value}]}
        self.post("goog/cdp/execute", {"cmd": "Emulation.setEmulatedMedia", "params": parameters})

    def size(self, width, height):
        parameters = {"width": width, "height": height, "deviceScaleFactor": 1, "mobile": False}
        self.post("goog/cdp/execute", {"cmd": "Emulation.setDeviceMetricsOverride", "params": parameters})

    def said(self):
        """The faults and warnings on the console."""
        return [it["message"] for it in self.post("se/log", {"type": "browser"}) if it["level"] in ("SEVERE", "WARNING")]

    def asked(self):
        """The addresses that were asked for."""
        messages = [json.loads(it["message"])["message"] for it in self.post("se/log", {"type": "performance"})]
        return [it["params"]["request"]["url"] for it in messages if it["method"] == "Network.requestWillBeSent"]

    def end(self):
        try:
            self.call("DELETE", self.base)
        finally:
            self.driver.terminate()
            self.driver.wait()
