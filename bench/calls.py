"""calls.py PMACH [ERROR,..] [JOB,..]: lets each system call of a job fail once, or kills the program at this call, with strace.

After each run, the image must be the whole old one or the whole new one, and with status 0 the new one. If the program was
not killed, no file of the program may remain next to the image. There is one exception: an image that is written in place,
because the file has two names or no file can be created next to it, may be a mixture, and a file of somebody else may remain.
The message must state this. A new folder must have all files if the status is 0. Each file that its LIST names must be
whole. If the program was not killed, each file must be whole or named in a message."""
import collections
import os
import re
import shutil
import subprocess
import sys
import tempfile

program = os.path.realpath(sys.argv[1])
ERRORS = (sys.argv[2] if len(sys.argv) > 2 else "KILL,EIO,ENOSPC,EINTR,EACCES,EPERM,EROFS,EDQUOT,EMFILE,ENOENT").split(",")
EXAMPLES = os.path.join(os.path.dirname(os.path.abspath(__file__)), "../examples")
PUT = ["files", "--image", "w.img", "put", "NEW", "data"]
NEW = ["files", "--image", "w.img", "new", "GONE", "48"]
# a job: the state of the folder before it, its arguments, and the file that it writes
JOBS = {
    "put": ("plain", PUT, "w.img"),
    "put behind a link": ("link", PUT, "w.img"),
    "put in place": ("two names", PUT, "w.img"),
    "put over what was left": ("left", PUT, "w.img"),
    "new over an image": ("plain", NEW, "w.img"),
    "new": ("none", NEW, "w.img"),
    "run --save": ("program", ["run", "--d4", "w.img", "--save", "--printer", "p", "P"], "w.img"),
    "salvage": ("plain", ["files", "--image", "w.img", "salvage", "s.img"], "s.img"),
    "convert": ("plain", ["convert", "w.img", "c.img"], "c.img"),
    "import": ("folder", ["files", "--image", "w.img", "import", "in"], "w.img"),
    "export": ("plain", ["files", "--image", "w.img", "export", "out"], "out"),
    "salvage to a folder": ("plain", ["files", "--image", "w.img", "salvage", "out/"], "out"),
}
LIST = "volume W 40 084-12-01\nA\tA\tdata\t084-12-01\tbytes\t1\nB\tB\tdata\t084-12-01\tbytes\t2\n"
# of the start and the end of the process
OTHERS = ("execve", "exit", "exit_group", "brk", "mmap", "munmap", "mprotect", "arch_prctl", "set_tid_address", "rt_sigaction", "rt_sigprocmask",
          "sigaltstack", "futex", "getrandom")
scratch = tempfile.TemporaryDirectory()
folder, log = scratch.name + "/folder", scratch.name + "/log"


def done(words, typed=b""):
    return subprocess.run([program, *words], input=typed, capture_output=True, cwd=folder)


def lay(kind):
    """Prepares the folder for a job."""
    shutil.rmtree(folder, ignore_errors=True)
    os.mkdir(folder)
    done(["files", "--image", "w.img", "new", "WORK", "40"])
    done(["files", "--image", "w.img", "put", "OLD", "data"], b"old" * 200)
    image = folder + "/w.img"
    if kind == "link":
        os.rename(image, folder + "/r.img")
        os.symlink("r.img", image)
    elif kind == "two names":
        os.link(image, folder + "/v.img")
    elif kind == "left":
        open(image + ".pmach-new", "w").write("left")
    elif kind == "program":
        with open(EXAMPLES + "/keeps.text", "rb") as text:
            code = done(["asm"], text.read()).stdout
        done(["files", "--image", "w.img", "put", "P", "code"], code)
    elif kind == "folder":
        os.mkdir(folder + "/in")
        for name, text in (("A", "one"), ("B", "two" * 400), ("LIST", LIST)):
            open(folder + "/in/" + name, "w").write(text)
    elif kind == "none":
        os.remove(image)


def bytes_of(name):
    if os.path.isdir(folder + "/" + name):
        return {it: bytes_of(name + "/" + it) for it in os.listdir(folder + "/" + name)}
    try:
        with open(folder + "/" + name, "rb") as file:
            return file.read()
    except OSError:
        return None


def calls_of(words):
    """The calls that a job makes, each with how many of its name came by then."""
    subprocess.run(["strace", "-f", "-o", log, program, *words], input=b"new" * 300, capture_output=True, cwd=folder)
    seen, calls = collections.Counter(), []
    for line in open(log, errors="replace"):
        name = re.match(r"\d+\s+(\w+)\(", line)
        if name:
            seen[name[1]] += 1
            if name[1] not in OTHERS:
                calls.append((name[1], seen[name[1]]))
    return calls


def wrong_folder(status, error, new, now, message):
    """What is wrong with a new folder."""
    if now is None:
        return "status 0 without the new folder" if status == 0 else None
    if status == 0 and now != new:
        return "status 0 without all files"
    lines = now.get("LIST", b"").decode().splitlines()[1:]
    if now.get("LIST") == new["LIST"] or error != "KILL":
        for it in [line.split("\t")[0] for line in lines]:
            if now.get(it) != new[it]:
                return "LIST names %s, which is not whole" % it
    if error != "KILL":
        for it, contents in now.items():
            if contents != new.get(it) and ("out/%s: " % it) not in message and not (it == "LIST" and new["LIST"].startswith(contents[:20])):
                return "%s is not whole, and no message names it" % it
    return None


def wrong(kind, target, status, error, old, new, now, message):
    """The faults in what a job left, or what its message must state."""
    if isinstance(new, dict):
        return wrong_folder(status, error, new, now, message)
    if status == 0 and now != new:
        return "status 0 without the new image"
    if kind == "folder" and now not in (old, new):
        # import leaves out a file that cannot be read, and names it; the others are added
        is_told = status == 4 and "pmach: in/" in message and now is not None and len(now) == len(old)
        if not is_told or done(["files", "--image", target, "list"]).returncode:
            return "an image that is neither the old one nor the new one without the files that are named"
    elif kind != "two names" and now not in (old, new):
        return "a mixture"
    if error != "KILL" and any(name.endswith(".pmach-new") for name in os.listdir(folder)):
        return "what another left stays" if kind == "left" else "a leftover"
    return None


runs, failed = 0, 0
for job, (kind, words, target) in JOBS.items():
    if len(sys.argv) > 3 and job not in sys.argv[3].split(","):
        continue
    lay(kind)
    old = bytes_of(target)
    calls = calls_of(words)
    new, told = bytes_of(target), collections.Counter()
    for name, count in calls:
        for error in ERRORS:
            lay(kind)
            how = "signal=KILL" if error == "KILL" else "error=" + error
            inject = "inject=%s:%s:when=%d" % (name, how, count)
            came = subprocess.run(["strace", "-f", "-o", "/dev/null", "-e", "trace=" + name, "-e", inject, program, *words],
                                  input=b"new" * 300, capture_output=True, cwd=folder, timeout=120)
            runs += 1
            what = wrong(kind, target, came.returncode, error, old, new, bytes_of(target), came.stderr.decode("latin-1"))
            if what == "what another left stays":
                told[what] += 1
            elif what:
                failed += 1
                print("FAILED: %s: %s %d, %s, status %d: %s" % (job, name, count, error, came.returncode, what))
    print("%s: %d calls%s" % (job, len(calls), "".join(", %d times %s" % (n, what) for what, n in told.items())), flush=True)
print("%d runs, %d failed" % (runs, failed))
sys.exit(1 if failed else 0)
