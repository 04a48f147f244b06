"""Drives headless Chromium over a pipe, with Python's standard library only."""
import base64
import json
import os
import select
import shutil
import subprocess
import tempfile
import time


class Browser:
    def __init__(self, size="1500,950"):
        self.home = tempfile.mkdtemp()
        to_browser, self.to = os.pipe()
        self.back, from_browser = os.pipe()

        def descriptors():  # Chromium reads from 3 and writes to 4
            os.dup2(to_browser, 103)
            os.dup2(from_browser, 104)
            os.dup2(103, 3)
            os.dup2(104, 4)

        self.process = subprocess.Popen(
            ["chromium", "--headless=new", "--no-sandbox", "--disable-gpu", "--disable-dev-shm-usage", "--no-first-run",
             "--disable-background-networking", "--user-data-dir=" + self.home, "--window-size=" + size,
             "--remote-debugging-pipe", "about:blank"],
            preexec_fn=descriptors, close_fds=False, stdin=subprocess.DEVNULL, stdout=subprocess.DEVNULL, stderr=subprocess.DEVNULL)
        os.close(to_browser)
        os.close(from_browser)
        self.buffer, self.count, self.events, self.session = b"", 0, [], None
        page = [target for target in self.send("Target.getTargets")["targetInfos"] if target["type"] == "page"][0]
        self.session = self.send("Target.attachToTarget", targetId=page["targetId"], flatten=True)["sessionId"]
        for domain in ("Page", "Runtime", "Log", "Network"):
            self.do(domain + ".enable")

    def message(self, seconds):
        while b"\0" not in self.buffer:
            if not select.select([self.back], [], [], seconds)[0]:
                raise TimeoutError("no answer of the browser")
            piece = os.read(self.back, 1 << 20)
            if not piece:
                raise EOFError("the browser has ended")
            self.buffer += piece
        message, _, self.buffer = self.buffer.partition(b"\0")
        return json.loads(message)

    def send(self, method, session=None, **params):
        self.count += 1
        message = {"id": self.count, "method": method, "params": params}
        if session:
            message["sessionId"] = session
        data = json.dumps(message).encode() + b"\0"
        while data:
            data = data[os.write(self.to, data):]
        while True:
            answer = self.message(300)
            if answer.get("id") == self.count:
                if "error" in answer:
                    raise RuntimeError(answer["error"])
                return answer["result"]
            self.events.append(answer)

    def do(self, method, **params):
        return self.send(method, self.session, **params)

    def js(self, code):
        answer = self.do("Runtime.evaluate", expression=code, awaitPromise=True, returnByValue=True, userGesture=True)
        if "exceptionDetails" in answer:
            raise RuntimeError(answer["exceptionDetails"])
        return answer["result"].get("value")

    def wait(self, code, seconds=60):
        end = time.time() + seconds
        while time.time() < end:
            if self.js(code):
                return
            time.sleep(0.05)
        raise TimeoutError(code)

    def open(self, path):
        self.do("Page.navigate", url="file://" + os.path.abspath(path))
        self.wait("document.readyState === 'complete' && document.getElementById('status')?.textContent !== 'Loading'")

    def shot(self, path):
        with open(path, "wb") as file:
            file.write(base64.b64decode(self.do("Page.captureScreenshot", format="png")["data"]))

    def files(self, selector, *paths):
        root = self.do("DOM.getDocument")["root"]["nodeId"]
        node = self.do("DOM.querySelector", nodeId=root, selector=selector)["nodeId"]
        self.do("DOM.setFileInputFiles", files=[os.path.abspath(path) for path in paths], nodeId=node)

    def press(self, key, code=None, text="", modifiers=0):
        code = code or {"Enter": 13, "Tab": 9, "Escape": 27, "Backspace": 8, "F8": 119}.get(key) or ord(key.upper())
        text = text or (key if len(key) == 1 and not modifiers else "\r" if key == "Enter" else "")
        for kind in ("keyDown", "keyUp"):
            self.do("Input.dispatchKeyEvent", type=kind, key=key, windowsVirtualKeyCode=code, modifiers=modifiers,
                    text=text if kind == "keyDown" else "")

    def type(self, text):
        for character in text:
            self.press({"\r": "Enter", "\b": "Backspace"}.get(character, character))

    def text(self, identifier):
        return self.js("document.getElementById(%s).textContent" % json.dumps(identifier))

    def messages(self):
        """What the browser wrote to its console, and what it requested except the page itself."""
        made = []
        for event in self.events:
            if event["method"] in ("Runtime.consoleAPICalled", "Runtime.exceptionThrown", "Log.entryAdded"):
                made.append(json.dumps(event["params"])[:400])
            if event["method"] == "Network.requestWillBeSent":
                url = event["params"]["request"]["url"]
                if not url.startswith(("file:", "blob:", "data:")):
                    made.append("request of " + url[:80])
        return made

    def close(self):
        try:
            self.send("Browser.close")
            self.process.wait(20)
        except Exception:
            self.process.kill()
        shutil.rmtree(self.home, ignore_errors=True)
