#!/usr/bin/env python3
"""speed.py PAGE [RUNS]: the steps a second of the page in Chromium and of the native program PMACH, for the loops of bench/loops.
Runs of both alternate (RUNS of each, 3), and their processor time is measured, so that other work on the machine matters less:
the least time of each counts. STEPS is the number of steps of a run (10,000,000). Status 1: a ratio is below 0.7."""
import os
import resource
import subprocess
import sys
import tempfile

HERE = os.path.dirname(os.path.abspath(__file__))
sys.dont_write_bytecode = True
from cdp import Browser

PAGE, RUNS = sys.argv[1], int((sys.argv[2:] or ["3"])[0])
STEPS = int(os.environ.get("STEPS", "10000000"))
PMACH = os.environ.get("PMACH", os.path.join(HERE, "..", "..", "pmach"))
TICKS = os.sysconf("SC_CLK_TCK")
NAMES = "calls compute jumps memory stack texts".split()


def processor_time(root):
    """The processor time of a process and of all that it started, in seconds."""
    children, times = {}, {}
    for pid in filter(str.isdigit, os.listdir("/proc")):
        try:
            with open("/proc/%s/stat" % pid, encoding="latin-1") as file:
                fields = file.read().rpartition(")")[2].split()
        except OSError:
            continue
        children.setdefault(int(fields[1]), []).append(int(pid))
        times[int(pid)] = int(fields[11]) + int(fields[12])
    all_of = lambda pid: times.get(pid, 0) + sum(map(all_of, children.get(pid, [])))
    return all_of(root) / TICKS


def natively(image, name):
    before = resource.getrusage(resource.RUSAGE_CHILDREN)
    subprocess.run([PMACH, "run", "--limit", str(STEPS), "--d4", image, name], stdin=subprocess.DEVNULL, stdout=subprocess.DEVNULL,
                   stderr=subprocess.DEVNULL, check=False)
    after = resource.getrusage(resource.RUSAGE_CHILDREN)
    return STEPS / (after.ru_utime - before.ru_utime + after.ru_stime - before.ru_stime) / 1e6


def in_page(browser, name):
    browser.js("choose(filesOf(text(library.ask('list', disk.data).bytes).split('\\n'), 4).find(file => file.name === '%s')); start(shown, false); 0" % name)
    before = processor_time(browser.process.pid)
    browser.js("run('go'); 0")
    browser.js("new Promise(next => { const look = () => library.registers().steps >= %dn ? next(0) : setTimeout(look, 20); look(); })" % STEPS)
    steps = int(browser.js("running = null; String(library.registers().steps)"))
    time = processor_time(browser.process.pid) - before
    browser.js("closeProgram(); 0")
    return steps / time / 1e6


with tempfile.TemporaryDirectory() as folder:
    image = folder + "/loops.img"
    subprocess.run([PMACH, "files", "--image", image, "new", "LOOPS", "2048"], check=True)
    for name in NAMES:
        with open(HERE + "/../loops/%s.text" % name, "rb") as text:
            code = subprocess.run([PMACH, "asm"], stdin=text, stdout=subprocess.PIPE, check=True).stdout
        subprocess.run([PMACH, "files", "--image", image, "put", name.upper(), "code"], input=code, check=True)
    page, ratios = Browser(), []
    try:
        page.open(PAGE)
        page.files("#image", image)
        page.wait("disk !== null")
        for name in NAMES:
            pairs = [(natively(image, name.upper()), in_page(page, name.upper())) for _ in range(RUNS)]
            native, own = (max(pair[k] for pair in pairs) for k in (0, 1))
            ratios.append(own / native)
            print("%-8s native %.1f, page %.1f million steps a second: %.2f" % (name, native, own, own / native), flush=True)
    finally:
        page.close()
print("the least ratio: %.2f" % min(ratios))
sys.exit(min(ratios) < 0.7)
