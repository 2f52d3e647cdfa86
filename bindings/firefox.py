"""A page in Firefox, driven as a person does, by Firefox's own protocol Marionette; with the calls of chromium.py.

Needs firefox-esr or firefox, and no driver.
"""

import base64
import json
import shutil
import socket
import subprocess
import tempfile
import time
from pathlib import Path

PREFS = {"intl.accept_languages": "", "marionette.port": 0, "browser.shell.checkDefaultBrowser": False, "datareporting.policy.dataSubmissionEnabled": False,
         "toolkit.telemetry.reportingpolicy.firstRun": False, "browser.aboutwelcome.enabled": False, "devtools.console.stdout.content": True}


class Browser:
    """A session of Marionette."""

    def __init__(self, language, size="560,760"):
        self.folder = tempfile.TemporaryDirectory()
        profile = Path(self.folder.name)
        prefs = {**PREFS, "intl.accept_languages": language}
        (profile / "user.js").write_text("".join(f"user_pref({json.dumps(name)}, {json.dumps(it)});\n" for name, it in prefs.items()))
        program = shutil.which("firefox-esr") or shutil.which("firefox")
        width, height = size.split(",")
        words = [program, "--headless", "--marionette", "--no-remote", "--profile", profile, "--width", width, "--height", height]
        self.said = open(profile / "said", "w+", encoding="utf-8")
        self.firefox = subprocess.Popen(words, stdout=self.said, stderr=subprocess.STDOUT)
        port = self._port(profile / "MarionetteActivePort")
        self.socket = socket.create_connection(("127.0.0.1", port), 120)
        self.asked = 0
        self._read()
        self.version = self._ask("WebDriver:NewSession", {"acceptInsecureCerts": True})["capabilities"]["browserVersion"]
        self._ask("WebDriver:SetWindowRect", {"width": int(width), "height": int(height)})
        self._ask("WebDriver:SetTimeouts", {"script": 600000})

    @staticmethod
    def _port(path):
        for _ in range(1200):
            if path.is_file() and path.read_text().strip():
                return int(path.read_text())
            time.sleep(0.1)
        raise OSError("Firefox doesn't start")

    def _read(self):
        length = b""
        while (byte := self.socket.recv(1)) != b":":
            length += byte
        data = b""
        while len(data) < int(length):
            data += self.socket.recv(int(length) - len(data))
        return json.loads(data)

    def _ask(self, command, parameters=None):
        self.asked += 1
        data = json.dumps([0, self.asked, command, parameters or {}]).encode()
        self.socket.sendall(str(len(data)).encode() + b":" + data)
        _, _, error, answer = self._read()
        if error:
            raise OSError(f"{error['error']}: {error['message']}")
        return answer.get("value", answer) if isinstance(answer, dict) else answer

    def go(self, address):
        self._ask("WebDriver:Navigate", {"url": address})

    def run(self, script, *args):
        return self._ask("WebDriver:ExecuteScript", {"script": script, "args": list(args)})

    def run_async(self, script, *args):
        """Runs a script whose last argument is called with the answer."""
        return self._ask("WebDriver:ExecuteAsyncScript", {"script": script, "args": list(args)})

    def find(self, css):
        return list(self._ask("WebDriver:FindElement", {"using": "css selector", "value": css}).values())[0]

    def keys(self, text, css="#number"):
        self._ask("WebDriver:ElementSendKeys", {"id": self.find(css), "text": text})

    def type(self, text):
        """Presses keys, one after the other, where the focus is."""
        presses = [{"type": kind, "value": key} for key in text for kind in ("keyDown", "keyUp")]
        self._ask("WebDriver:PerformActions", {"actions": [{"type": "key", "id": "keyboard", "actions": presses}]})

    def click(self, css):
        self._ask("WebDriver:ElementClick", {"id": self.find(css)})

    def log(self):
        """Errors of pages from files that Firefox told of on its standard output; it tells of its own there too."""
        self.said.flush()
        text = Path(self.said.name).read_text(encoding="utf-8", errors="replace")
        return [it for it in text.splitlines() if it.startswith("JavaScript error: file:")]

    def picture(self, path):
        path.write_bytes(base64.b64decode(self._ask("WebDriver:TakeScreenshot", {"full": False, "hash": False})))

    def close(self):
        try:
            self._ask("Marionette:Quit", {"flags": ["eForceQuit"]})
        except OSError:
            self.firefox.terminate()
        self.firefox.wait(60)
        self.said.close()
        self.folder.cleanup()
