#!/usr/bin/env python3
"""others.py PAGE IMAGE [BROWSER ..]: the page in Firefox and in WebKitGTK: what a person does with it (looks.js), its limits
(limits.js), and the cases for bare code. IMAGE is a disk of examples/disk.sh; a BROWSER is Firefox or WebKit. STEPS is the
number of steps of the longest run (100,000,000), PMACH names the native program. Requires Debian's firefox-esr, webkit2gtk-driver and xvfb, and Python's
standard library."""
import base64
import glob
import hashlib
import json
import os
import re
import socket
import subprocess
import sys
import tempfile
import time
import urllib.request

HERE = os.path.dirname(os.path.abspath(__file__))
sys.dont_write_bytecode = True
from cases_of_page import bare_cases
from disks_of_page import disks_of_page

QUIET = {"stdin": subprocess.DEVNULL, "stdout": subprocess.DEVNULL, "stderr": subprocess.DEVNULL}


def free_port():
    """A port that no other program uses, so that two tests do not drive the same browser."""
    with socket.socket() as made:
        made.bind(("127.0.0.1", 0))
        return made.getsockname()[1]


class Firefox:
    def __init__(self):
        home, port = tempfile.mkdtemp(), free_port()
        with open(home + "/user.js", "w", encoding="utf-8") as file:
            file.write('user_pref("marionette.port", %d);\nuser_pref("browser.shell.checkDefaultBrowser", false);\n' % port)
        self.process = subprocess.Popen(["firefox-esr", "--headless", "--marionette", "--no-remote", "--profile", home],
                                        env=dict(os.environ, HOME=home, MOZ_HEADLESS="1"), **QUIET)
        for _ in range(600):
            try:
                self.socket = socket.create_connection(("127.0.0.1", port), 2)
                break
            except OSError:
                time.sleep(0.2)
        self.socket.settimeout(300)
        self.count, self.buffer = 0, b""
        self.message()
        self.do("WebDriver:NewSession", capabilities={"alwaysMatch": {}})

    def message(self):
        while b":" not in self.buffer:
            self.buffer += self.socket.recv(65536)
        length, _, self.buffer = self.buffer.partition(b":")
        while len(self.buffer) < int(length):
            self.buffer += self.socket.recv(65536)
        message, self.buffer = self.buffer[:int(length)], self.buffer[int(length):]
        return json.loads(message)

    def do(self, name, **params):
        self.count += 1
        data = json.dumps([0, self.count, name, params]).encode()
        self.socket.sendall(b"%d:" % len(data) + data)
        answer = self.message()
        if answer[2]:
            raise RuntimeError(answer[2])
        return answer[3]

    def go(self, url):
        self.do("WebDriver:Navigate", url=url)

    def run(self, code):
        return self.do("WebDriver:ExecuteScript", script=code, args=[], sandbox=None)["value"]

    def close(self):
        self.process.terminate()
        self.process.wait(20)


class WebKit:
    def __init__(self):
        port, display = free_port(), ":%d" % (100 + os.getpid() % 10000)
        self.processes = [subprocess.Popen(["Xvfb", display, "-screen", "0", "1500x1000x24"], **QUIET),
                          subprocess.Popen(["WebKitWebDriver", "--port=%d" % port],
                                           env=dict(os.environ, DISPLAY=display, LIBGL_ALWAYS_SOFTWARE="1", NO_AT_BRIDGE="1"), **QUIET)]
        time.sleep(3)
        self.base = "http://127.0.0.1:%d" % port
        browser = glob.glob("/usr/lib/*/webkit2gtk-4.1/MiniBrowser")[0]
        options = {"webkitgtk:browserOptions": {"binary": browser, "args": ["--automation"]}}
        self.base += "/session/" + self.call("/session", {"capabilities": {"alwaysMatch": options}})["sessionId"]

    def call(self, path, body):
        request = urllib.request.Request(self.base + path, data=json.dumps(body).encode(), headers={"Content-Type": "application/json"})
        with urllib.request.urlopen(request, timeout=200) as answer:
            return json.loads(answer.read())["value"]

    def go(self, url):
        self.call("/url", {"url": url})

    def run(self, code):
        return self.call("/execute/sync", {"script": code, "args": []})

    def close(self):
        for process in self.processes:
            process.terminate()
            process.wait(10)


def wait(browser, code, seconds=60):
    end = time.time() + seconds
    while time.time() < end:
        if browser.run("return (%s)" % code):
            return
        time.sleep(0.2)
    raise TimeoutError(code)


RUNNER = """
document.addEventListener("test", async () => {
  const [name, given] = JSON.parse(document.body.dataset.given);
  let results = [];
  await new Promise(next => setTimeout(next)); // (a driver ends a script that runs for 30 seconds)
  try {
    results = await {looks, limits, bareCases}[name](given);
  } catch (error) {
    results = [[name, false, String(error) + String(error.stack)]];
  }
  document.body.dataset.results = JSON.stringify(results);
});
"""


def with_tests(page):
    """A copy of the page whose script also has looks.js and limits.js. Its policy has the checksum of this script."""
    with open(page, "rb") as file:
        text = file.read()
    begin = text.index(b"<script>") + len(b"<script>")
    end = text.index(b"</script>", begin)
    script = text[begin:end]
    for name in ("looks.js", "limits.js"):
        with open(os.path.join(HERE, name), "rb") as file:
            script += file.read()
    script += RUNNER.encode()
    sums = [base64.b64encode(hashlib.sha256(one).digest()) for one in (text[begin:end], script)]
    copy = os.path.join(tempfile.mkdtemp(), "tested.html")
    with open(copy, "wb") as file:
        file.write((text[:begin] + script + text[end:]).replace(b"sha256-" + sums[0], b"sha256-" + sums[1]))
    return copy


def tested(browser, name, given, seconds):
    """Runs a test in the page; returns its results."""
    browser.run("delete document.body.dataset.results; document.body.dataset.given = %s; document.dispatchEvent(new Event('test')); return 0" % json.dumps(json.dumps([name, given])))
    wait(browser, "document.body.dataset.results !== undefined", seconds)
    return json.loads(browser.run("return document.body.dataset.results"))


page, image = sys.argv[1:3]
names, steps = sys.argv[3:] or ["Firefox", "WebKit"], int(os.environ.get("STEPS", "100000000"))
with open(image, "rb") as disk:
    data = disk.read()
bare, more, copy, failed = bare_cases(), disks_of_page(), with_tests(page), 0
for name in names:
    driven = {"Firefox": Firefox, "WebKit": WebKit}[name]()
    try:
        driven.go("file://" + copy)
        wait(driven, "document.getElementById('status').textContent !== 'Loading'")
        shown = driven.run("return document.getElementById('status').textContent")
        results = [["the page starts", shown == "Ready", shown]]
        if shown == "Ready":
            results += tested(driven, "looks", {"kept": list(data), "random": 50, "more": more}, 300)
            results += tested(driven, "bareCases", bare, 300)
            results += tested(driven, "limits", {"kept": list(data), "steps": steps}, 300 + steps / 1e6)
        for what, is_right, found in results:
            if not is_right:
                print("FAILED: %s: %s" % (what, found))
            elif re.search("steps the page|opens in|^opens", what):
                print("%s: %s" % (what, found))
        wrong = sum(not result[1] for result in results)
        failed += wrong
        print("%s: %s: %d passed, %d failed" % (name, driven.run("return navigator.userAgent"), len(results) - wrong, wrong), flush=True)
    finally:
        driven.close()
print("%d failed" % failed)
sys.exit(failed > 0)
