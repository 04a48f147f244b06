"""hold.py: compares another p-machine with the cases of bare code.

    hold.py [--state] COMMAND [ARG..]

COMMAND is run once for each case of bare.txt, with the bytes of the case on standard input, in hexadecimal digits. It
writes a trace in the format of README.md to standard output. For each case that differs, this script prints the first
different line, from bare.txt and from COMMAND; check the instruction in the line before it. With --state the text of the
instruction is not compared. Status 1: a case differs."""
import itertools
import os
import re
import subprocess
import sys


def cases(path):
    """Yields each case: its name, its bytes, the lines of its trace."""
    with open(path, encoding="ascii") as file:
        blocks = file.read().strip().split("\n\n")[1:]
    for block in blocks:
        name, *lines = block.strip("\n").split("\n")
        first = next(at for at, line in enumerate(lines) if not re.fullmatch(r"[0-9A-F]{2}( [0-9A-F]{2})*", line))
        yield name[2:], "\n".join(lines[:first]), lines[first:]


def cut(line, state):
    """Returns the part of a line that is compared: all of it, or only the columns before the instruction."""
    return line[:44] if state and line[:8].isdigit() else line


def main(state, command):
    path = os.path.join(os.path.dirname(os.path.abspath(__file__)), "bare.txt")
    count = differing = 0
    for name, code, wanted in cases(path):
        made = subprocess.run(command, input=code.encode(), capture_output=True).stdout.decode("ascii", "replace")
        count += 1
        for want, got in itertools.zip_longest(wanted, made.split("\n")[:-1], fillvalue="(nothing)"):
            if cut(want, state) != cut(got, state):
                differing += 1
                print("%s\n  expected %s\n  got      %s" % (name, want, got))
                break
    print("%d of %d cases are the same" % (count - differing, count))
    sys.exit(1 if differing else 0)


words = sys.argv[1:]
if words in ([], ["--state"]):
    sys.exit(__doc__)
main(words[0] == "--state", words[words[0] == "--state":])
