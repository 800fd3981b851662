"""Drives a headless Chromium over its pipe of the DevTools protocol: Python's standard library alone."""
import base64
import json
import os
import shutil
import subprocess
import tempfile
import time


class BrowserError(Exception):
    pass


class Browser:
    """One browser with one page. Exceptions and errors of the page's console are kept in `errors`."""

    def __init__(self, width=1500, height=1000):
        self.profile = tempfile.mkdtemp(prefix="timeline-profile-")
        to_read, self.to_write = os.pipe()
        self.from_read, from_write = os.pipe()
        words = ["chromium", "--headless=new", "--no-sandbox", "--disable-gpu", "--disable-dev-shm-usage", "--no-first-run",
                 "--disable-background-networking", "--disable-renderer-backgrounding", "--disable-backgrounding-occluded-windows",
                 "--disable-background-timer-throttling", "--user-data-dir=" + self.profile, f"--window-size={width},{height}",
                 "--remote-debugging-pipe", "about:blank"]
        self.process = subprocess.Popen(words, pass_fds=(3, 4), stdout=subprocess.DEVNULL, stderr=subprocess.DEVNULL,
                                        preexec_fn=lambda: self._place(to_read, from_write))
        os.close(to_read)
        os.close(from_write)
        self.rest, self.number, self.session, self.errors, self.events = b"", 0, None, [], []
        self._attach(width, height)

    @staticmethod
    def _place(to_read, from_write):
        """The browser reads commands from descriptor 3 and writes answers to 4."""
        spare = [os.dup(to_read), os.dup(from_write)]
        os.dup2(spare[0], 3)
        os.dup2(spare[1], 4)

    def _attach(self, width, height):
        targets = self.call("Target.getTargets")["targetInfos"]
        page = next(t for t in targets if t["type"] == "page")
        self.session = self.call("Target.attachToTarget", targetId=page["targetId"], flatten=True)["sessionId"]
        for domain in ("Page", "Runtime", "Log", "DOM", "Network"):
            self.call(domain + ".enable")
        self.call("Emulation.setDeviceMetricsOverride", width=width, height=height, deviceScaleFactor=1, mobile=False)

    def _message(self):
        while b"\0" not in self.rest:
            piece = os.read(self.from_read, 1 << 20)
            if not piece:
                raise BrowserError("the browser ended")
            self.rest += piece
        text, self.rest = self.rest.split(b"\0", 1)
        return json.loads(text)

    def _note(self, message):
        name, about = message.get("method"), message.get("params", {})
        self.events.append((name, about))
        if name == "Runtime.exceptionThrown":
            details = about["exceptionDetails"]
            self.errors.append(details.get("exception", {}).get("description") or details["text"])
        elif name == "Log.entryAdded" and about["entry"]["level"] == "error":
            self.errors.append(about["entry"]["text"])

    def call(self, name, **about):
        self.number += 1
        message = {"id": self.number, "method": name, "params": about}
        if self.session:
            message["sessionId"] = self.session
        data = json.dumps(message).encode() + b"\0"
        while data:
            data = data[os.write(self.to_write, data):]
        while True:
            answer = self._message()
            if answer.get("id") == self.number:
                if "error" in answer:
                    raise BrowserError(name + ": " + answer["error"]["message"])
                return answer["result"]
            self._note(answer)

    def run(self, code):
        """The value of an expression of the page; a promise is waited for."""
        answer = self.call("Runtime.evaluate", expression=code, returnByValue=True, awaitPromise=True, userGesture=True)
        if "exceptionDetails" in answer:
            details = answer["exceptionDetails"]
            raise BrowserError(details.get("exception", {}).get("description") or details["text"])
        return answer["result"].get("value")

    def processor(self):
        """The seconds of processor that the page has used: they do not depend on what else the machine does."""
        held, self.session = self.session, None
        try:
            processes = self.call("SystemInfo.getProcessInfo")["processInfo"]
        finally:
            self.session = held
        return sum(p["cpuTime"] for p in processes if p["type"] == "renderer")

    def until(self, code, seconds=300):
        """Whether an expression of the page comes true."""
        end = time.time() + seconds
        while not self.run(code):
            if time.time() > end:
                return False
            time.sleep(0.02)
        return True

    def open(self, path):
        self.events.clear()
        self.call("Page.navigate", url="file://" + os.path.abspath(path))
        while not any(name == "Page.loadEventFired" for name, _ in self.events):
            self._note(self._message())

    def give(self, selector, *paths):
        """Puts files into an input of the page, as a user who chooses them."""
        root = self.call("DOM.getDocument")["root"]["nodeId"]
        node = self.call("DOM.querySelector", nodeId=root, selector=selector)["nodeId"]
        self.call("DOM.setFileInputFiles", files=[os.path.abspath(p) for p in paths], nodeId=node)

    def press(self, key):
        text = {"text": key} if len(key) == 1 else {}
        self.call("Input.dispatchKeyEvent", type="keyDown", key=key, **text)
        self.call("Input.dispatchKeyEvent", type="keyUp", key=key)

    def picture(self, path):
        with open(path, "wb") as out:
            out.write(base64.b64decode(self.call("Page.captureScreenshot", format="png")["data"]))

    def paper(self):
        """The page as it is printed: a PDF."""
        return base64.b64decode(self.call("Page.printToPDF", preferCSSPageSize=True)["data"])

    def close(self):
        try:
            self.session = None
            self.call("Browser.close")
        except (BrowserError, OSError):
            pass
        try:
            self.process.wait(timeout=20)
        except subprocess.TimeoutExpired:
            self.process.kill()
            self.process.wait()
        os.close(self.to_write)
        os.close(self.from_read)
        shutil.rmtree(self.profile, ignore_errors=True)
