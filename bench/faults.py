"""faults.py PMACH [MOST]: runs each job of the real program many times, each time with one fault.

In each run, one allocation is refused (only this one, or this one together with all later ones), or one read or write fails.
The position of the fault is increased until no fault occurs. Each run is compared with the run without a fault:

  a refused allocation    the status is 5 with the message `no memory`, or the run ends as usual. The bytes written to
                          standard output are a prefix of the whole output
  a failed read or write  the status is 4 with the message `read fault` or `write fault`, or the run ends as usual. The same
                          holds for the output. If the message itself could not be written, the status is the usual one
  files, in all cases     each file is whole: the old one, or the one that the run without a fault leaves. With status 5 it
                          is the old one, except for the image that was saved before the printer's bytes were written

Run manually; not part of the gate. Requires a C compiler (faults.c). MOST limits the number of allocations of a command line
that are refused."""
import os
import subprocess
import sys
import tempfile

here = os.path.dirname(os.path.abspath(__file__))
program = os.path.abspath(sys.argv[1])
most = int(sys.argv[2]) if len(sys.argv) > 2 else 1 << 30
scratch = tempfile.mkdtemp()
shim = os.path.join(scratch, "faults.so")
subprocess.run(["cc", "-O1", "-shared", "-fPIC", "-o", shim, os.path.join(here, "faults.c"), "-ldl"], check=True)


def place(name):
    return os.path.join(scratch, name)


def plain(words, stdin=b""):
    return subprocess.run([program] + words, input=stdin, stdout=subprocess.PIPE, stderr=subprocess.PIPE)


def text(name):
    with open(os.path.join(here, "..", "examples", name + ".text"), "rb") as file:
        return file.read()


def read(name):
    try:
        with open(place(name), "rb") as file:
            return file.read()
    except FileNotFoundError:
        return None


def write(name, content):
    if content is None:
        if os.path.exists(place(name)):
            os.remove(place(name))
    else:
        with open(place(name), "wb") as file:
            file.write(content)


image = place("w.img")
codes = {name: plain(["asm"], text(name)).stdout for name in ("ok", "echo", "loads", "cases", "nested")}
assert plain(["files", "--image", image, "new", "WORK", "60"]).returncode == 0
for name, code in codes.items():
    assert plain(["files", "--image", image, "put", name.upper(), "code"], code).returncode == 0
assert plain(["files", "--image", image, "puttext", "NOTES"], b"one\ntwo\n").returncode == 0
assert plain(["files", "--image", image, "put", "DATA", "data"], bytes(range(256)) * 9).returncode == 0
whole = read("w.img")
files = ["files", "--image", image]
disk = ["--d4", image]

jobs = [
    (["raw"], b"05 07 8F D6"),
    (["raw", "--limit", "2"], b"B9 FE 02 00"),
    (["asm"], text("nested")),
    (["asm", "--list"], text("cases")),
    (["dis"], codes["loads"]),
    (files + ["new", "OTHER", "80"], b""),
    (files + ["list"], b""),
    (files + ["put", "MORE", "data"], bytes(range(256)) * 5),
    (files + ["puttext", "MORE"], b"three\nfour\n"),
    (files + ["get", "DATA"], b""),
    (files + ["gettext", "NOTES"], b""),
    (files + ["remove", "LOADS"], b""),
    (files + ["change", "DATA", "BYTES"], b""),
    (files + ["krunch"], b""),
    (files + ["date", "84", "12", "1"], b""),
    (files + ["zero", "EMPTY"], b""),
    (files + ["single"], b""),
    (files + ["repair"], b""),
    (files + ["get", "NOBODY"], b""),
    (["run"] + disk + ["OK"], b""),
    (["run"] + disk + ["ECHO"], b"p-code. And more"),
    (["run"] + disk + ["--save", "--printer", place("p"), "CASES"], b""),
    (["run"] + disk + ["LOADS", "--limit", "40"], b""),
    (["trace"] + disk + ["LOADS"], b""),
    (["debug"] + disk + ["NESTED"], b"break 2 1 0\ngo 100\ndynamic 10\nstack 3\nlist 5\nquit\n"),
]


def run(words, stdin, fault=None):
    write("w.img", whole)
    write("p", None)
    environment = dict(os.environ, LD_PRELOAD=shim, FAULT_COUNTS=place("counts"))
    if fault:
        environment["FAULT"] = fault
    done = subprocess.run([program] + words, input=stdin, stdout=subprocess.PIPE, stderr=subprocess.PIPE, env=environment)
    return done.returncode, done.stdout, done.stderr, read("w.img"), read("p")


wrong = runs = 0


def judge(words, fault, usual, now):
    """What is wrong with a run that met a fault, or None."""
    status, out, err, left, printed = now
    if (status, out, err, left, printed) == usual:
        return None
    kind = fault.split(":")[0].rstrip("+")
    if kind == "write" and (status, out, left, printed) == (usual[0], usual[1], usual[3], usual[4]) and usual[2].startswith(err):
        return None  # the message itself could not be written
    ends = {"alloc": {5: b"no memory\n"}, "read": {4: b"read fault\n"}, "write": {4: b"write fault\n"}}[kind]
    if status not in ends:
        return "status %d" % status
    if err != ends[status]:
        return "message %r" % err
    if not usual[1].startswith(out):
        return "output is no front"
    if left not in (whole, usual[3]) or printed not in (None, b"", usual[4]):
        return "a file is neither old nor new"
    if status == 5 and left != whole:
        return "a file is new at status 5"
    return None


for words, stdin in jobs:
    usual = run(words, stdin)
    with open(place("counts")) as file:
        allocations, reads, writes = (int(word) for word in file.read().split())
    faults = ["alloc%s:%d" % (more, k) for more in ("", "+") for k in range(1, min(allocations, most) + 1)]
    faults += ["read:%d" % k for k in range(1, reads + 1)] + ["write:%d" % k for k in range(1, writes + 1)]
    found = 0
    for fault in faults:
        runs += 1
        why = judge(words, fault, usual, run(words, stdin, fault))
        if why:
            found += 1
            if found <= 3:
                print("WRONG: %s, %s: %s" % (" ".join(words).replace(scratch + "/", ""), fault, why))
    wrong += found
    print("%s: status %d, %d allocations, %d reads, %d writes, %d wrong"
          % (" ".join(words).replace(scratch + "/", ""), usual[0], allocations, reads, writes, found), flush=True)
print("%d runs, %d wrong" % (runs, wrong))
sys.exit(1 if wrong else 0)
