"""A first example in Python: first.py LIBRARY. It prints the trace line of each step of a small program, and how it ends."""
import sys

import pmach

pmach.load(sys.argv[1])
with pmach.Machine.raw(bytes.fromhex("020382D6")) as machine:
    status = 0
    while status == 0:
        print(machine.line())
        status = machine.step()
    print("%d: %s" % (status, pmach.sentence(status)))
