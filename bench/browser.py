"""A headless Chromium that is told what to do over a pipe: pages are opened, evaluated, typed at and drawn. Used by bench/page.py."""
import json
import os
import select
import shutil
import subprocess
import tempfile
import time


class Browser:
    """Chromium without network: in a network of its own where the system allows that, and with no name that resolves."""

    def __init__(self, width=1280, height=860):
        self.folder = tempfile.mkdtemp(prefix="tmpl-page-")
        theirs, self.to = os.pipe()
        self.back, ours = os.pipe()
        words = [
            "chromium", "--headless=new", "--remote-debugging-pipe", f"--user-data-dir={self.folder}/profile", "--no-first-run", "--disable-gpu",
            "--disable-background-networking", "--disable-component-update", "--disable-sync", "--host-resolver-rules=MAP * ~NOTFOUND",
            "--hide-scrollbars", "--force-color-profile=srgb", "--font-render-hinting=none", f"--window-size={width},{height}", "about:blank",
        ]
        if os.geteuid() == 0:
            words.insert(1, "--no-sandbox")
        # The pipe is at the numbers 3 and 4 in the browser.
        words = ["sh", "-c", f'exec 3<&{theirs} 4>&{ours}; exec "$@"', "sh", *alone(), *words]
        # A name of a folder in HOME would be another profile; its own has all that it writes.
        env = {**os.environ, "HOME": self.folder, "XDG_RUNTIME_DIR": self.folder}
        with open(f"{self.folder}/log", "w", encoding="utf-8") as log:
            self.process = subprocess.Popen(words, pass_fds=(theirs, ours), stdin=subprocess.DEVNULL, stdout=log, stderr=log, env=env)
        os.close(theirs)
        os.close(ours)
        self.number, self.rest, self.answers, self.events = 0, b"", {}, []
        target = self.call("Target.createTarget", url="about:blank")["targetId"]
        self.session = self.call("Target.attachToTarget", targetId=target, flatten=True)["sessionId"]
        for domain in ("Page", "Runtime", "Network", "Log"):
            self.call(f"{domain}.enable")

    def close(self):
        try:
            self.call("Browser.close")
            self.process.wait(10)
        except (OSError, RuntimeError, TimeoutError, subprocess.TimeoutExpired):
            self.process.kill()
            self.process.wait()
        os.close(self.to)
        os.close(self.back)
        shutil.rmtree(self.folder, ignore_errors=True)

    def take(self, seconds):
        """Reads what has come, for at most so many seconds."""
        if not select.select([self.back], [], [], seconds)[0]:
            return False
        more = os.read(self.back, 1 << 20)
        if not more:
            raise RuntimeError("the browser has ended")
        *whole, self.rest = (self.rest + more).split(b"\0")
        for text in whole:
            said = json.loads(text)
            if "id" in said:
                self.answers[said["id"]] = said
            else:
                self.events.append(said)
        return True

    def call(self, method, **parameters):
        self.number += 1
        asked = {"id": self.number, "method": method, "params": parameters}
        if getattr(self, "session", None):
            asked["sessionId"] = self.session
        os.write(self.to, json.dumps(asked).encode() + b"\0")
        until = time.monotonic() + 120
        while self.number not in self.answers:
            if time.monotonic() > until:
                raise TimeoutError(method)
            self.take(1)
        answer = self.answers.pop(self.number)
        if "error" in answer:
            raise RuntimeError(f"{method}: {answer['error']}")
        return answer["result"]

    def evaluate(self, expression):
        """The value of an expression in the page; a promise is waited for."""
        found = self.call("Runtime.evaluate", expression=expression, awaitPromise=True, returnByValue=True, userGesture=True)
        if "exceptionDetails" in found:
            details = found["exceptionDetails"]
            raise RuntimeError(details.get("exception", {}).get("description", details["text"]))
        return found["result"].get("value")

    def wait(self, expression, seconds=30):
        """Waits until an expression is true in the page."""
        until = time.monotonic() + seconds
        while time.monotonic() < until:
            if self.evaluate(expression):
                return
            time.sleep(0.05)
        raise TimeoutError(f"never true: {expression}")

    def open(self, address):
        self.call("Page.navigate", url=address)
        self.wait("document.readyState === 'complete'")

    def resize(self, width, height, scale=1):
        self.call("Emulation.setDeviceMetricsOverride", width=width, height=height, deviceScaleFactor=scale, mobile=False)

    def media(self, scheme):
        self.call("Emulation.setEmulatedMedia", features=[{"name": "prefers-color-scheme", "value": scheme}])

    def key(self, key, code=None, modifiers=0, text=None):
        """Presses a key: modifiers are 1 for Alt, 2 for Control, 8 for Shift."""
        codes = {"Tab": 9, "Enter": 13, "Escape": 27, " ": 32, "ArrowLeft": 37, "ArrowUp": 38, "ArrowRight": 39, "ArrowDown": 40, "Home": 36, "End": 35}
        number = codes.get(key, ord(key.upper()[0]))
        written = {"text": text or {"Enter": "\r", " ": " "}.get(key, "")} if text or key in ("Enter", " ") else {}
        common = {"key": key, "code": code or key, "windowsVirtualKeyCode": number, "modifiers": modifiers}
        self.call("Input.dispatchKeyEvent", type="keyDown" if written else "rawKeyDown", **common, **written)
        self.call("Input.dispatchKeyEvent", type="keyUp", **common)

    def write(self, text):
        self.call("Input.insertText", text=text)

    def picture(self, file, clip=None):
        import base64

        more = {"clip": {**clip, "scale": 1}} if clip else {}
        data = self.call("Page.captureScreenshot", format="png", **more)["data"]
        with open(file, "wb") as made:
            made.write(base64.b64decode(data))

    def asked_for(self):
        """What was asked for beside the page's own file: addresses that aren't of files, of data or of blobs."""
        self.take(0)
        sent = [it["params"]["request"]["url"] for it in self.events if it["method"] == "Network.requestWillBeSent"]
        return [it for it in sent if not it.startswith(("file:", "data:", "blob:", "about:"))]

    def complaints(self):
        """What the console says of errors."""
        self.take(0)
        found = []
        for it in self.events:
            if it["method"] == "Runtime.exceptionThrown":
                details = it["params"]["exceptionDetails"]
                found.append(details.get("exception", {}).get("description", details["text"]))
            if it["method"] == "Log.entryAdded" and it["params"]["entry"]["level"] == "error":
                found.append(it["params"]["entry"]["text"])
            if it["method"] == "Runtime.consoleAPICalled" and it["params"]["type"] == "error":
                found.append(" ".join(str(word.get("value", word.get("description"))) for word in it["params"]["args"]))
        return found


def alone():
    """The words that start a program in a network of its own, which has none; no words where the system doesn't allow that."""
    words = ["unshare", "--net"] if os.geteuid() == 0 else ["unshare", "--map-root-user", "--net"]
    return words if shutil.which("unshare") and subprocess.run([*words, "true"], capture_output=True).returncode == 0 else []
