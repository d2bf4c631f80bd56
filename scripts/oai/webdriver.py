"""A browser that is driven as a reader without a mouse uses it: a small client of W3C WebDriver, section numbers of which stand at its calls, for
chromedriver."""

import base64
import json
import re
import subprocess
import time
import urllib.error
import urllib.request

ELEMENT = "element-6066-11e4-a52e-4f735466cecf"  # section 12.1
TAB, ENTER, SHIFT, BACKSPACE, CONTROL, DOWN = "\ue004", "\ue007", "\ue008", "\ue003", "\ue009", "\ue015"  # section 15.4.2

# For how many seconds the page may take to show what is waited for.
PATIENCE = 30


class Browser:
    """Headless Chromium, for which a host is at this machine."""

    def __init__(self, host):
        self.driver = subprocess.Popen(["chromedriver", "--port=0"], stdout=subprocess.PIPE, stderr=subprocess.DEVNULL, text=True)
        port = next(found[1] for line in self.driver.stdout if (found := re.search(r"started successfully on port (\d+)", line)))
        self.address = f"http://127.0.0.1:{port}"
        options = {
            "args": ["--headless=new", "--no-sandbox", "--disable-dev-shm-usage", "--hide-scrollbars", f"--host-resolver-rules=MAP {host} 127.0.0.1"],
        }
        capabilities = {
            "browserName": "chrome", "acceptInsecureCerts": True, "goog:chromeOptions": options,
            "goog:loggingPrefs": {"browser": "ALL", "performance": "ALL"},
        }
        self.address += "/session"  # (every command is one of an HTTP session: section 8)
        self.address += f"/{self.send('POST', '', {'capabilities': {'alwaysMatch': capabilities}})['sessionId']}"

    def send(self, method, path, body=None):
        """A command, and the value of its answer."""
        data = None if body is None else json.dumps(body).encode()
        request = urllib.request.Request(self.address + path, data, {"Content-Type": "application/json"}, method=method)
        try:
            with urllib.request.urlopen(request, timeout=120) as answer:
                return json.load(answer)["value"]
        except urllib.error.HTTPError as refused:
            raise RuntimeError(json.load(refused)["value"]["message"]) from refused

    def __enter__(self):
        return self

    def __exit__(self, *_):
        """Ends the browser."""
        try:
            self.send("DELETE", "")
        finally:
            self.driver.kill()
            self.driver.wait()

    def open(self, address):
        """Goes to an address (section 10.1)."""
        self.send("POST", "/url", {"url": address})

    def run(self, script, *arguments):
        """What a function body returns in the page (section 13.2.1)."""
        return self.send("POST", "/execute/sync", {"script": script, "args": list(arguments)})

    def press(self, *keys):
        """Presses and releases each key (section 15.6); a modifier stays until the last one is released."""
        held = [key for key in keys if key in (SHIFT, CONTROL)]
        actions = [{"type": "keyDown", "value": key} for key in held]
        for key in keys:
            if key not in held:
                actions += [{"type": "keyDown", "value": key}, {"type": "keyUp", "value": key}]
        actions += [{"type": "keyUp", "value": key} for key in held]
        self.send("POST", "/actions", {"actions": [{"type": "key", "id": "keyboard", "actions": actions}]})

    def type(self, text):
        """Types a text into what has the focus (section 12.5.3)."""
        element = self.run("return document.activeElement")[ELEMENT]
        self.send("POST", f"/element/{element}/value", {"text": text})

    def back(self):
        """Goes back in the history (section 10.3)."""
        self.send("POST", "/back", {})

    def log(self, kind):
        """What came to a log since it was read last."""
        return self.send("POST", "/se/log", {"type": kind})

    def protocol(self, command, **parameters):
        """A command of the Chrome DevTools Protocol."""
        return self.send("POST", "/goog/cdp/execute", {"cmd": command, "params": parameters})

    def window(self, width, height, scale=1):
        """Gives the page a window of so many CSS pixels."""
        self.protocol("Emulation.setDeviceMetricsOverride", width=width, height=height, deviceScaleFactor=scale, mobile=False)

    def scheme(self, name):
        """Prefers `light` or `dark` colours."""
        self.protocol("Emulation.setEmulatedMedia", features=[{"name": "prefers-color-scheme", "value": name}])

    def picture(self, path):
        """Writes what is seen as a PNG (section 17.1)."""
        with open(path, "wb") as file:
            file.write(base64.b64decode(self.send("GET", "/screenshot")))

    def wait(self, script, *arguments):
        """Waits until a function body returns what is true, and comes back with it; with None where it does not in time."""
        end = time.monotonic() + PATIENCE
        while time.monotonic() < end:
            found = self.run(script, *arguments)
            if found:
                return found
            time.sleep(0.05)
        return None
