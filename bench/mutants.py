"""mutants.py PMACH [SEED [COUNT]]: seeds faults into the system segment of examples/system, one at a time, and runs `system.py`
(ten rounds of each kind) and `system.sh` with each of them.

A fault is an operand increased or decreased by one, or an operator replaced by the other one of its pair, at a random item.
The script prints each fault that no case detects, with its line. Such a fault either changes nothing that a program can
detect, or a case is missing."""
import os
import random
import re
import shutil
import subprocess
import sys
import tempfile

program = os.path.abspath(sys.argv[1])
chance = random.Random(int(sys.argv[2]) if len(sys.argv) > 2 else 1)
count = int(sys.argv[3]) if len(sys.argv) > 3 else 88
here = os.path.dirname(os.path.abspath(__file__))
lines = open(here + "/../examples/system/system.text", encoding="ascii").read().split("\n")
PAIRS = [("EQUI", "NEQI"), ("LESI", "LEQI"), ("GRTI", "GEQI"), ("ADI", "SBI"), ("LAND", "LOR"), ("EFJ", "NFJ"), ("DVI", "MODI")]
OTHER = dict(PAIRS + [(b, a) for a, b in PAIRS])
ITEM = re.compile(r"^((?:\w+:)? *)([A-Z]+)( *)([^;\"]*?)( *;.*)?$")


def fault(line):
    """The line with a fault, or None where it has nothing to change."""
    item = ITEM.match(line)
    if not item or line.startswith((".", ";")) or item[2] in ("NOP", "RBP", "RNP"):
        return None
    numbers = list(re.finditer(r"-?\d+", item[4]))
    changes = []
    if item[2] in OTHER:
        changes.append(item[1] + OTHER[item[2]] + item[3] + item[4])
    if numbers and "^" not in item[4] and item[2] != "XJP":
        number = chance.choice(numbers)
        other = str(int(number[0]) + chance.choice([-1, 1]))
        changes.append(item[1] + item[2] + item[3] + item[4][:number.start()] + other + item[4][number.end():])
    return chance.choice(changes) if changes else None


def fails(words):
    """Whether these cases see a fault: they are stopped at the first that does."""
    with subprocess.Popen(words, stdout=subprocess.PIPE, stderr=subprocess.DEVNULL, text=True,
                          env=dict(os.environ, PMACH=program)) as cases:
        for line in cases.stdout:
            if not line.startswith("passed") and " passed, 0 failed" not in line:
                cases.terminate()
                return True
        return cases.wait() != 0


def seen(folder):
    """Whether a case sees the segment of the folder."""
    return fails([sys.executable, "-u", folder + "/bench/system.py", program, str(chance.randrange(10000)), "10"]) or \
        fails([folder + "/bench/system.sh"])


with tempfile.TemporaryDirectory() as scratch:
    for part in ("bench", "examples"):
        shutil.copytree(here + "/../" + part, scratch + "/" + part)
    live = tried = 0
    while tried < count:
        at = chance.randrange(len(lines))
        changed = fault(lines[at])
        if not changed:
            continue
        text = "\n".join(lines[:at] + [changed] + lines[at + 1:])
        if subprocess.run([program, "asm"], input=text.encode(), stdout=subprocess.DEVNULL, stderr=subprocess.DEVNULL).returncode:
            continue
        with open(scratch + "/examples/system/system.text", "w", encoding="ascii") as file:
            file.write(text)
        tried += 1
        if not seen(scratch):
            live += 1
            print("fault %d, line %d: %s\n      not: %s" % (tried, at + 1, changed.rstrip(), lines[at].rstrip()), flush=True)
    print("%d faults, %d not seen" % (tried, live))
