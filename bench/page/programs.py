#!/usr/bin/env python3
"""programs.py PAGE SHOTS: the programs of examples/system in the page in Chromium, with typed keys: their consoles, numbers of
steps and changed images are those of the native program. Run it in an empty directory; PMACH names the native program."""
import os
import subprocess
import sys

HERE = os.path.dirname(os.path.abspath(__file__))
sys.dont_write_bytecode = True
from cdp import Browser

PAGE, SHOTS = sys.argv[1:]
ROOT = os.path.join(HERE, "..", "..")
PMACH = os.environ.get("PMACH", os.path.join(ROOT, "pmach"))
PROGRAMS = ROOT + "/examples/system/programs/"
NAMES = "TABLE GUESS STRINGS REVERSE SIEVE TOWERS DICE COPYTEXT LISTER KEYS PEOPLE".split()


def read(path):
    with open(path, "rb") as file:
        return file.read()


def play(browser, keys):
    """Types the keys, each when the program waits; returns how many were typed."""
    for count in range(len(keys) + 1):
        browser.wait("running === null")
        if not browser.js("$('console').classList.contains('waits')") or count == len(keys):
            return count
        if keys[count] >= 32 or keys[count] == 13:
            browser.type(chr(keys[count]))
        else:
            browser.js("key(%d)" % keys[count])
    return len(keys)


def compare(browser, name):
    """Whether the page does what the native program does."""
    path = PROGRAMS + name.lower() + ".in"
    keys = read(path).replace(b"\n", b"\r") if os.path.exists(path) else b""
    with open("native.img", "wb") as file:
        file.write(read("old.img"))
    native = subprocess.run([PMACH, "run", "--d4", "native.img", "--save", "--limit", "50000000", name], input=keys,
                            stdout=subprocess.PIPE, stderr=subprocess.PIPE, check=False)
    browser.js("drives.clear(); disk = null; $('image').value = ''; 0") # (a file that is chosen again is no change)
    browser.files("#image", "old.img")
    browser.wait("disk !== null && document.querySelectorAll('#files button').length === 12")
    browser.js("[...document.querySelectorAll('#files button')].find(b => b.textContent === '%s').click(); $('run').click(); $('keys').focus(); 0" % name)
    typed = play(browser, keys)
    steps = browser.js("String(library.registers().steps)")
    console = bytes(browser.js("[...library.ask('console', library.handle, 0n).bytes]"))
    browser.shot("%s/run-%s.png" % (SHOTS, name.lower()))
    browser.js("closeProgram(); 0")
    is_same = (console, steps) == (native.stdout, native.stderr.decode().split()[-1]) and bytes(browser.js("[...disk.data]")) == read("native.img")
    print("%s: %d of %d keys, %s steps: %s" % (name, typed, len(keys), steps, "the same" if is_same else "DIFFERS"), flush=True)
    return is_same


os.makedirs(SHOTS, exist_ok=True)
subprocess.run([ROOT + "/examples/system/disk.sh", "old.img"], check=True, env=dict(os.environ, PMACH=PMACH))
page = Browser()
try:
    page.open(PAGE)
    results = [compare(page, name) for name in NAMES]
finally:
    page.close()
print("%d passed, %d failed" % (results.count(True), results.count(False)))
sys.exit(not all(results))
