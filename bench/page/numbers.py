#!/usr/bin/env python3
"""numbers.py [--list]: every number in the JavaScript of examples/page has a reason in numbers.txt.

A line of numbers.txt is `NUMBER | TEXT | REASON`: the number is allowed in each line of the code that contains TEXT, in any
line if TEXT is empty. Numbers in texts and patterns count; those in comments do not. Prints each number without a reason, and
each line of the table that no number needs; with --list each number with its place and its reason. Status 1: it printed one."""
import os
import re
import sys

here = os.path.dirname(os.path.abspath(__file__))
folder = os.path.join(here, "..", "..", "examples", "page")
NUMBER = re.compile(r"\\x[0-9a-fA-F]{2}|\\u[0-9a-fA-F]{4}|(?<![\w.$\\])\d[\w.]*")


def lines():
    """Each line of code: its place, and its text without a comment."""
    for name in sorted(name for name in os.listdir(folder) if name.endswith(".js")):
        with open(os.path.join(folder, name), encoding="utf-8") as file:
            for number, line in enumerate(file, 1):
                yield "%s:%d" % (name, number), re.sub(r"(^|\s)//.*", "", line.rstrip("\n"))


table = []
with open(os.path.join(here, "numbers.txt"), encoding="utf-8") as file:
    for line in file:
        if line.strip() and not line.startswith("#"):
            table.append([part.strip() for part in line.split("|", 2)])
used, faults, count = set(), 0, 0
for place, line in lines():
    for number in NUMBER.findall(line):
        number, count = number.rstrip("."), count + 1
        reasons = [row for row, (value, text, _) in enumerate(table) if value == number and text in line]
        used.update(reasons)
        if not reasons:
            faults += 1
            print("%s: %s has no reason in numbers.txt: %s" % (place, number, line.strip()))
        elif "--list" in sys.argv[1:]:
            print("%s: %s: %s" % (place, number, table[reasons[-1]][2]))
for row in sorted(set(range(len(table))) - used):
    faults += 1
    print("numbers.txt: no number needs this line: " + " | ".join(table[row]))
print("%d numbers, %d faults" % (count, faults))
sys.exit(1 if faults else 0)
