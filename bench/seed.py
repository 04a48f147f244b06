"""seed.py [CLONE]: fills out/ of each crate of a clone, or of this one, with the library that `rt ci` cached for the same
sources on this machine, so that `rt check` in a crate's directory proves only that crate. It reads the cache with the
functions of `rt`, which kits before rattle-kit-13f do not have: with such a kit it reports that and ends with status 1.
It prints which libraries are still missing. A library is not searched for if one below it is missing."""
import importlib.machinery
import importlib.util
import os
import shutil
import subprocess
import sys

kit = os.path.dirname(subprocess.run(["rt", "doc"], capture_output=True, text=True, check=True).stdout.strip())
sys.path.insert(0, kit + "/bin")
loader = importlib.machinery.SourceFileLoader("rt_ci", shutil.which("rt"))
rt = importlib.util.module_from_spec(importlib.util.spec_from_loader("rt_ci", loader))
loader.exec_module(rt)
missing = [name for name in ("rtlib", "Crate", "Kept", "handles_of") if not hasattr(rt, name)]
if missing:
    version = subprocess.run(["rt", "version"], capture_output=True, text=True).stdout.split()
    sys.exit("seed.py requires rattle-kit-13f or a later kit: the rt of %s does not cache proofs (it has no %s)"
             % (version[0] if version else "this machine", ", ".join(missing)))
rtlib = rt.rtlib
root = os.path.abspath(sys.argv[1] if len(sys.argv) > 1 else os.path.join(os.path.dirname(os.path.abspath(__file__)), ".."))
os.chdir(root)
rt.Crate.allowed = rt.handles_of(root)
rtlib.Crate = rt.Crate
crates = [crate for crate in sorted(rtlib.crates_below(root), key=lambda it: len(it.below())) if crate.makes_rlib()]
kept, there = rt.Kept(crates), set()
for crate in crates:
    if any(below.name not in there for below in crate.below()):
        continue
    if not crate.is_built():
        key = kept.key(crate)
        if not os.path.isdir(kept.place(crate, False, key)):
            continue
        shutil.rmtree(crate.folder + "/out/rlib", ignore_errors=True)
        if not kept.give(crate, False, key):
            continue
        with open(crate.folder + "/out/rlib/stamp", "w", encoding="utf-8") as file:
            file.write(crate.stamp())
    kept.is_built(crate)
    there.add(crate.name)
print("%d of %d libraries are there; missing:" % (len(there), len(crates)), *[crate.name for crate in crates if crate.name not in there])
