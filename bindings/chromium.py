"""A page in Chromium, driven as a person does: what form/browser.py of Python and browser.py of JavaScript share.

Needs chromium and chromedriver.
"""

import base64
import json
import shutil
import subprocess
import time
import urllib.request


class Browser:
    """A session of chromedriver."""

    def __init__(self, language, size="560,760", traced="", flags=()):
        """`traced` are categories of Chromium's own trace, which `trace` gives; `flags` are further words of its command line."""
        self.driver = subprocess.Popen(
            ["chromedriver", "--port=0"], stdout=subprocess.PIPE, stderr=subprocess.DEVNULL, text=True
        )
        port = next(line for line in self.driver.stdout if "successfully" in line).split()[-1].rstrip(".")
        self.at = f"http://127.0.0.1:{port}/session"
        arguments = ["--headless=new", "--no-sandbox", "--disable-gpu", f"--window-size={size}", f"--lang={language}", *flags]
        options = {"args": arguments, "prefs": {"intl.accept_languages": language}, "binary": shutil.which("chromium")}
        logs = {"browser": "ALL"}
        if traced:
            logs["performance"], options["perfLoggingPrefs"] = "ALL", {"traceCategories": traced}
        wanted = {"browserName": "chrome", "goog:chromeOptions": options, "goog:loggingPrefs": logs}
        told = self._ask("POST", "", {"capabilities": {"alwaysMatch": wanted}})
        self.at += "/" + told["sessionId"]

    def _ask(self, method, path, body=None):
        data = None if body is None else json.dumps(body).encode()
        request = urllib.request.Request(self.at + path, data, {"Content-Type": "application/json"}, method=method)
        with urllib.request.urlopen(request, timeout=60) as answer:
            return json.load(answer)["value"]

    def go(self, address):
        self._ask("POST", "/url", {"url": address})

    def run(self, script, *args):
        return self._ask("POST", "/execute/sync", {"script": script, "args": list(args)})

    def find(self, css):
        return "/element/" + list(self._ask("POST", "/element", {"using": "css selector", "value": css}).values())[0]

    def keys(self, text, css="#number"):
        self._ask("POST", self.find(css) + "/value", {"text": text})

    def type(self, text):
        """Presses keys, one after the other, where the focus is."""
        presses = [{"type": kind, "value": key} for key in text for kind in ("keyDown", "keyUp")]
        self._ask("POST", "/actions", {"actions": [{"type": "key", "id": "keyboard", "actions": presses}]})

    def click(self, css):
        self._ask("POST", self.find(css) + "/click", {})

    def send(self):
        """Presses the button, and waits for the page that comes."""
        self.run("window.isOld = true")
        self.click("button")
        while self.run("return window.isOld === true || document.readyState !== 'complete'"):
            time.sleep(0.01)

    def run_async(self, script, *args):
        """Runs a script whose last argument is called with the answer."""
        return self._ask("POST", "/execute/async", {"script": script, "args": list(args)})

    def command(self, name, **parameters):
        return self._ask("POST", "/goog/cdp/execute", {"cmd": name, "params": parameters})

    def trace(self):
        """The events of the trace since it was asked last."""
        told = [json.loads(it["message"])["message"] for it in self._ask("POST", "/se/log", {"type": "performance"})]
        return [it["params"] for it in told if it["method"] == "Tracing.dataCollected"]

    def log(self):
        return [it["message"] for it in self._ask("POST", "/se/log", {"type": "browser"})]

    def picture(self, path):
        path.write_bytes(base64.b64decode(self._ask("GET", "/screenshot")))

    def close(self):
        self._ask("DELETE", "")
        self.driver.terminate()
        self.driver.wait(20)
