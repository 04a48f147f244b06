"""gate.py: reports what a run of the gate costs, crate by crate, in minutes and processor time. Run manually.

    python3 bench/gate.py run gate.log --anew       runs `rt ci --anew`. It writes the lines of `rt ci` into gate.log, each
                                                    with the time of day, and at the end the processor time of each crate.
                                                    An rt without a cache (kit 13b) needs no --anew
    python3 bench/gate.py gate.log                  prints the table of such a log, even while the run continues

Once a second, `run` reads the processor time of each process that names a crate (`rattle .. --crate-name NAME`). It adds the
time to the proof of the crate, to its tests (`--test`), or to its mutants (a check in a folder `rt-edit-..`). Time between
these readings is only in the sum, which the system counts.

The table has a line for each crate of crates.txt, with these columns:

    Proved at               the minute of the run at which its proof ended. `kept` if an earlier run had proved it
    After the last below    the minutes from the end of the last proof that it requires to the end of its proof. This
                            includes the time for which it waited for a processor
    Its tests at, Tests     the minute at which its tests were proved, and their number
    Mutants begun at, Mutants   the minute at which its mutants were begun, and their number
    Proof, Tests, Mutants, s    the processor time in seconds, after the run

A field is empty if the log does not have it yet. `rt ci` reports the results of all mutants at its end. The lines after the
table count these results. They state when the run ended, and which crates were on the chain of proofs that ended last."""
import collections
import glob
import os
import re
import subprocess
import sys
import threading
import time

DAY = 24 * 60 * 60


def stamped(path):
    """Each line of a log that begins with a time of day: the seconds since the first such line, and the rest of the line."""
    first, last, days = None, 0, 0
    with open(path, encoding="utf-8", errors="replace") as log:
        for line in log:
            found = re.match(r"(\d\d):(\d\d):(\d\d) (.*)", line)
            if not found:
                continue
            hours, minutes, seconds = (int(it) for it in found.groups()[:3])
            now = 3600 * hours + 60 * minutes + seconds
            first = now if first is None else first
            days += DAY if now < last else 0 # past midnight
            last = now
            yield now + days - first, found.group(4)


def read(path):
    """What a log states about each crate: when it was proved (-1: by an earlier run), its tests, its mutants and their results."""
    said = {it: {} for it in ("proved", "tests", "begun", "edits", "passed", "failed", "costs")}
    came, end, verdict = collections.Counter(), 0, None
    for now, line in stamped(path):
        end = now
        found = re.match(r"rt: (\w+) is kept:", line)
        if found:
            said["proved"][found.group(1)] = -1
        found = re.match(r"rt: (\w+) (proved|NOT PROVED)", line)
        if found:
            said["proved" if found.group(2) == "proved" else "failed"][found.group(1)] = now
        found = re.match(r"rt: (\w+): its tests are (proved|NOT PROVED)", line)
        if found:
            said["tests" if found.group(2) == "proved" else "failed"][found.group(1)] = now
        found = re.match(r"rt: (\w+): trying its must-fail edits \((\d+)\)", line)
        if found:
            said["begun"][found.group(1)] = now, int(found.group(2))
        found = re.match(r"rt: must-fail (\w+)/\S+: (refused|NOT REFUSED|BAD EDIT|NOT TRIED)", line)
        if found:
            said["edits"][found.group(1)] = now
            came[found.group(2)] += 1
        found = re.match(r"cost (\w+): (\d+) proof, (\d+) tests, (\d+) mutants", line)
        if found:
            said["costs"][found.group(1)] = found.groups()[1:]
        found = re.match(r"(\d+ passed, \d+ failed|cost of all: .*)", line)
        verdict = ", ".join(filter(None, (verdict, found.group(1)))) if found else verdict
    return said, came, end, verdict


def crates():
    """Each crate of crates.txt, with the crates of the repository that it requires."""
    with open("crates.txt", encoding="utf-8") as file:
        rows = [line.partition(":") for line in file.read().split("\n") if line and not line.startswith("#")]
    names = [name.split()[0] for name, _, _ in rows]
    return {name: [it for it in below.split() if it in names] for name, (_, _, below) in zip(names, rows)}


def count_tests(crate):
    paths = glob.glob("crates/%s/src/**/*.rt" % crate, recursive=True)
    return sum(open(path, encoding="utf-8").read().count("#[test]") for path in paths)


def minute(seconds):
    return "" if seconds is None else "kept" if seconds < 0 else "%.1f" % (seconds / 60)


def row(crate, below, said):
    proved, tests = said["proved"].get(crate), count_tests(crate)
    ends = [said["proved"].get(it) for it in below]
    took = (proved - max([0, *ends])) if proved is not None and proved >= 0 and None not in ends else None
    edits = len(glob.glob("crates/%s/must-fail/*.edit" % crate))
    begun = said["begun"].get(crate)
    state = "failed" if crate in said["failed"] else minute(proved)
    costs = [it if it != "0" else "" for it in said["costs"].get(crate, ("", "", ""))]
    return (crate, state, minute(took), minute(said["tests"].get(crate)) if tests else "", tests or "",
            minute(begun and begun[0]), edits or "", *costs)


def chain(stands, said):
    """The crates by which the proof, or the tests, that ended last had to wait, and when each ended."""
    ends = {("the tests of ", it): now for it, now in said["tests"].items()}
    ends.update({("", it): now for it, now in said["proved"].items() if now >= 0})
    if not ends:
        return []
    (what, crate), now = max(ends.items(), key=lambda it: it[1])
    steps = []
    while crate:
        steps.append("%s%s %s" % (what, crate, minute(now)))
        below = [(said["proved"].get(it, -1), it) for it in stands.get(crate, [])]
        now, crate = max(below, default=(-1, None))
        what, crate = "", crate if now >= 0 else None
    return steps[::-1]


def main(path):
    os.chdir(os.path.join(os.path.dirname(os.path.abspath(__file__)), ".."))
    stands = crates()
    said, came, end, verdict = read(path)
    print("| Crate | Proved at | After the last below | Its tests at | Tests | Mutants begun at | Mutants "
          "| Proof, s | Tests, s | Mutants, s |")
    print("|---" * 10 + "|")
    for crate, below in stands.items():
        print("| %s |" % " | ".join(str(it) for it in row(crate, below, said)))
    print()
    print("%s after %s minutes; mutants tried in this run: %d" %
          (verdict or "not at its end", minute(end), sum(count for _, count in said["begun"].values())))
    print("results of the mutants: %s" % (", ".join("%d %s" % (count, kind) for kind, count in sorted(came.items())) or "none yet"))
    print("the longest chain, by when each ended: %s" % (", ".join(chain(stands, said)) or "none yet"))


def fields(folder):
    """The parent of a process, its start time, and the processor seconds that it has used."""
    with open(folder + "/stat", encoding="utf-8", errors="replace") as file:
        words = file.read().rpartition(")")[2].split()
    return words[1], words[19], (int(words[11]) + int(words[12])) / os.sysconf("SC_CLK_TCK")


def part_of(folder):
    """The crate that a process works on, and whether it works on the proof, the tests or the mutants; or None."""
    with open(folder + "/cmdline", encoding="utf-8", errors="replace") as file:
        words = file.read().split("\0")
    if "--crate-name" not in words[:-1]:
        return None
    crate = words[words.index("--crate-name") + 1]
    if "/rt-edit" in os.readlink(folder + "/cwd"):
        return crate, "mutants"
    return crate, "tests" if "--test" in words else "proof"


def look(root, used, costs):
    """Adds the processor time that each process below root has used since the last call."""
    parents, now = {}, {}
    for folder in glob.glob("/proc/[0-9]*"):
        try:
            parent, began, seconds = fields(folder)
            parents[folder[6:]], now[folder[6:]] = parent, (began, seconds, part_of(folder))
        except (OSError, IndexError): # it has ended
            continue
    for pid, (began, seconds, part) in now.items():
        above = pid
        while above in parents and above != root:
            above = parents[above]
        if above == root and part:
            costs[part] += seconds - used.get((pid, began), 0)
            used[pid, began] = seconds


def run(path, words):
    """Runs `rt ci` with these arguments, and writes its lines and the costs into the file."""
    used, costs, ended = {}, collections.Counter(), threading.Event()
    how = {"stdin": subprocess.DEVNULL, "stdout": subprocess.PIPE, "stderr": subprocess.STDOUT, "encoding": "utf-8"}
    with open(path, "w", encoding="utf-8") as log:
        def say(line):
            print(time.strftime("%H:%M:%S ") + line.rstrip("\n"), file=log, flush=True)

        def looks(root):
            while not ended.wait(1):
                look(root, used, costs)
        ran = subprocess.Popen(["rt", "ci", *words], errors="replace", **how)
        looking = threading.Thread(target=looks, args=(str(ran.pid),))
        looking.start()
        for line in ran.stdout:
            say(line)
        _, status, all_used = os.wait4(ran.pid, 0)
        ended.set()
        looking.join()
        for crate in sorted({it for it, _ in costs}):
            say("cost %s: %.0f proof, %.0f tests, %.0f mutants" %
                (crate, *(costs[crate, it] for it in ("proof", "tests", "mutants"))))
        minutes = (all_used.ru_utime + all_used.ru_stime) / 60
        say("cost of all: %.1f processor minutes, of which %.1f were seen" % (minutes, sum(costs.values()) / 60))
    return os.waitstatus_to_exitcode(status)


if len(sys.argv) > 2 and sys.argv[1] == "run":
    sys.exit(run(os.path.abspath(sys.argv[2]), sys.argv[3:]))
if len(sys.argv) != 2:
    sys.exit(__doc__)
main(os.path.abspath(sys.argv[1]))
