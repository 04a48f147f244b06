"""pool.py POOL NAME..: proves crates and the crates below them as the gate does, but uses libraries that an earlier call proved for
the same sources. What is proved is saved in the folder POOL under a checksum of its sources.

This is for an rt without a cache (kit 13b), and only for manual use: the gate decides. Run it at the top of a separate clone,
because it writes the folders out/ of this clone. It prints a line for each crate: the time, the result, the seconds.

TESTS=1 also proves and builds tests. RT_JOBS=2 works on two crates at a time. EDITS=1 tries the must-fail edits of the named
crates instead."""
import copy
import importlib.machinery
import importlib.util
import os
import shutil
import subprocess
import sys
import tempfile
import time

kit = os.path.dirname(subprocess.run(["rt", "doc"], capture_output=True, text=True, check=True).stdout.strip())
sys.path.insert(0, kit + "/bin")
loader = importlib.machinery.SourceFileLoader("rt_ci", shutil.which("rt"))
rt = importlib.util.module_from_spec(importlib.util.spec_from_loader("rt_ci", loader))
loader.exec_module(rt)
rtlib, sums = rt.rtlib, {}
pool, names, root = os.path.abspath(sys.argv[1]), sys.argv[2:], os.getcwd()
rt.Crate.cuts_libraries = True
rt.Crate.allowed = rt.handles_of(root)
rtlib.Crate = rt.Crate
rtlib.guarded()
crates = {it.name: it for it in sorted(rtlib.crates_below(root), key=lambda it: len(it.below()))}


def place(crate):
    """Where a crate lies in the pool. Its sum has those of the libraries below it, so it is made once."""
    if crate.name not in sums:
        sums[crate.name] = crate.stamp()
    return "%s/%s-%s" % (pool, crate.name, sums[crate.name][:20])


def stamp(crate, made=rtlib.Crate.stamp, known={}):
    if crate.folder not in known:
        known[crate.folder] = made(crate)
    return known[crate.folder]


rtlib.Crate.stamp = stamp


def say(text):
    print(time.strftime("%H:%M:%S"), text, flush=True)


def fetch(crate):
    """Copies a crate from the pool, and returns whether the pool has it."""
    if not os.path.isdir(place(crate)):
        return False
    if crate.makes_rlib():
        shutil.rmtree(os.path.dirname(crate.rlib), ignore_errors=True)
        shutil.copytree(place(crate), crate.rlib)
    return True


def prove(crate, tests, jobs):
    it, began = copy.copy(crate), time.time()
    with tempfile.TemporaryFile("a+", errors="replace") as it.out:
        os.makedirs(crate.folder + "/out", exist_ok=True)
        if not tests and crate.makes_rlib():
            shutil.rmtree(os.path.dirname(crate.rlib), ignore_errors=True)
            os.makedirs(os.path.dirname(crate.rlib))
        try:
            status = rtlib.fmt(crate.folder, "--check", it.out) or it.ci(["--jobs", str(jobs)], tests)
        except SystemExit:
            status = 1
        it.out.seek(0)
        said = it.out.read()
    say("%s%s %s in %d s" % (crate.name, " tests" if tests else "", "NOT PROVED" if status else "proved", time.time() - began))
    if status:
        print(said, flush=True)
    elif not tests and crate.makes_rlib():
        shutil.copytree(crate.rlib, place(crate))
    elif not tests:
        os.makedirs(place(crate))
    return not status


os.makedirs(pool, exist_ok=True)
wanted = {it.name for name in names for it in [crates[name], *crates[name].below()]}
have = {name for name in crates if name in wanted and fetch(crates[name])}
if os.environ.get("EDITS"):
    for name in names:
        good, bad = rt.edits_of(crates[name])
        tried = rt.must_fail_all(crates[name], good, ["--jobs", "1"])
        say("%s: %d of %d refused%s" % (name, sum(it for it, _ in tried), len(good), ", BAD EDIT" if bad else ""))
        print("".join("  %s\n" % text for it, text in tried if not it), end="", flush=True)
    sys.exit()


def work(crate, tests, given, jobs):
    if any(it.name not in have and not given.get((it.name, "proof")) for it in crate.below()):
        return False
    return prove(crate, tests, jobs)


tasks = {}
for name, crate in crates.items():
    waits = [(it.name, "proof") for it in crate.below() if it.name not in have]
    for tests in (False, True):
        if name in wanted and (crate.has_tests() and os.environ.get("TESTS") if tests else name not in have):
            call = lambda given, jobs, crate=crate, tests=tests: work(crate, tests, given, jobs)
            tasks[name, "tests" if tests else "proof"] = (waits, crate.count(rb"\n"), rt.need(crate), call)
say("%d in the pool, to prove: %s" % (len(have), " ".join(name for name, what in tasks if what == "proof")))
given = rt.in_lanes(tasks)
failed = [" ".join(it) for it, well in given.items() if not well]
say("%d of %d proved%s" % (len(given) - len(failed), len(given), "".join("; not " + it for it in failed)))
sys.exit(bool(failed))
