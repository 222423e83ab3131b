"""Firefox, which takes the commands of WebDriver by its own protocol, Marionette."""
import json
import os
import shutil
import socket
import subprocess
import tempfile
import time
from pathlib import Path

from webdriver import MOST, Absent, Browser, free_port

# keeps the addresses that pages ask hosts for
WATCHED = """
globalThis.asked = [];
Services.obs.addObserver((channel) => {
	const { URI, loadInfo } = channel.QueryInterface(Ci.nsIHttpChannel);
	if (!loadInfo.triggeringPrincipal.isSystemPrincipal)
		asked.push(URI.spec);
}, "http-on-modify-request");
"""
FAULTS = """
const faults = Services.console.getMessageArray().filter((it) => it instanceof Ci.nsIScriptError);
return faults.filter((it) => it.sourceName.startsWith("file:")).map(String);
"""
SCHEME = "Services.prefs.setIntPref('layout.css.prefers-color-scheme.content-override', arguments[0])"
# the least width of a window
LEAST = 500


class Firefox(Browser):
    """Firefox with a new profile."""

    def __init__(self, width=1280, height=900):
        program = shutil.which("firefox-esr") or shutil.which("firefox")
        if not program:
            raise Absent("no firefox-esr or firefox")
        self.room, self.number, port = tempfile.TemporaryDirectory(prefix="ifsvm-firefox-"), 0, free_port()
        Path(self.room.name, "user.js").write_text(f'user_pref("marionette.port", {port});\n')
        words = [program, "--headless", "--marionette", "--remote-allow-system-access", "--no-remote", "--profile", self.room.name]
        quiet = {"stdout": subprocess.DEVNULL, "stderr": subprocess.DEVNULL}
        self.process = subprocess.Popen(words, **quiet, env={**os.environ, "HOME": self.room.name})
        try:
            self.socket = self.connected(port)
            self.stream = self.socket.makefile("rb")
            self.received()
            self.do("NewSession")
            self.do("SetTimeouts", script=1000 * MOST)
            self.run_inside(WATCHED)
            self.size(width, height)
        except BaseException:
            self.process.kill()
            raise

    @staticmethod
    def connected(port):
        for _ in range(300):
            try:
                return socket.create_connection(("127.0.0.1", port), MOST)
            except OSError:
                time.sleep(0.1)
        raise Absent("Firefox does not answer")

    def received(self):
        """The next message. Its length and a colon stand before it."""
        length = b""
        while not length.endswith(b":"):
            length += self.stream.read(1) or b":"
        return json.loads(self.stream.read(int(length[:-1] or b"0")) or '[1, 0, {"message": "Firefox ended"}, null]')

    def do(self, command, **given):
        self.number += 1
        message = json.dumps([0, self.number, command if ":" in command else f"WebDriver:{command}", given]).encode()
        self.socket.sendall(b"%d:%b" % (len(message), message))
        _, _, fault, result = self.received()
        if fault:
            raise AssertionError(fault["message"])
        return result["value"] if list(result) == ["value"] else result

    def run_inside(self, script, *given):
        """What a script of the browser itself returns."""
        self.do("Marionette:SetContext", value="chrome")
        try:
            return self.do("ExecuteScript", script=script, args=list(given), sandbox="system", newSandbox=False)
        finally:
            self.do("Marionette:SetContext", value="content")

    def media(self, _name, value):
        """Has the page see the colours that a user prefers."""
        self.run_inside(SCHEME, {"dark": 0, "light": 1}[value])

    def size(self, width, height):
        """Sets the size of the window. Less than the least width is made by a zoom."""
        zoom = max(1, LEAST / width)
        self.do("SetWindowRect", width=round(width * zoom), height=round(height * zoom))
        self.run_inside("gBrowser.selectedBrowser.fullZoom = arguments[0]", zoom)

    def said(self):
        """The faults and warnings of pages on the console."""
        return self.run_inside(FAULTS)

    def asked(self):
        """The addresses of hosts that pages asked for."""
        return self.run_inside("return asked")

    def end(self):
        try:
            self.do("Marionette:Quit", flags=["eForceQuit"])
            self.process.wait(30)
        finally:
            self.process.kill()
            self.process.wait()
            self.room.cleanup()
