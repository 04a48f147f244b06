"""The library from Python: machine.py LIBRARY [PMACH].

Without PMACH it prints what a few calls return. With the path of the program it compares library and program: on the texts
of examples/, assembled and disassembled, and on the traces of 401 programs of bare code, step by step.
"""
import glob
import os
import random
import subprocess
import sys

import pmach

EXAMPLES = os.path.join(os.path.dirname(os.path.abspath(__file__)), "..")
STEPS = 500


def disk(name, path):
    """Returns a volume with the code file of a text."""
    with open(path, "rb") as file:
        code = pmach.job("assemble", file.read(), False)
    return pmach.job("put", pmach.job("volume", b"KEPT", 40), name, 2, code)


def traced(code, limit):
    """Returns the lines of a trace and how it ended, by single steps of a machine; checks other calls against each line."""
    with pmach.Machine.raw(code) as machine:
        lines, end = [], "limit %d" % limit
        for _ in range(limit):
            shown = machine.registers()
            top = "%05d" % machine.word(shown.sp) if shown.sp < 65504 else "-----"
            line = machine.line()
            assert line == "%08d %05d %05d %05d %05d %05d %s %s" % (
                shown.steps, shown.ipc, shown.sp, shown.mp, shown.base, shown.np, top, machine.instruction(shown.ipc))
            status = machine.step()
            if status == 1:
                end = "waiting %d" % shown.steps
                break
            lines.append(line)
            if status:
                shown = machine.registers()
                assert shown.status == status
                end = "ended %d" % shown.steps if status == 2 else "error %d %d" % (status - 100, shown.steps)
                break
    assert machine.handle.machine is None and machine.step() == 8
    return lines, end


def places(image, name, steps):
    """Returns the position of a program before each of its first steps: segment, procedure and offset."""
    with pmach.Machine.boot(image, name) as machine:
        found = []
        for _ in range(steps):
            found.append("%d %d %d" % machine.place())
            machine.step()
    return found


LINES = """help|regs|where|break 2 1 0|breaks|go 100|on 5|list 5|frames 9|stack 4|static 9|dynamic 9|local 0 1|watch 65000|watches
poke 65000 7|go 50|step|finish 20|until 1 1 3 50|peek 1024 4|bytes 1024 4|console on|type "AB"|key 67|console 10|trace|place 1
unwatch 65000|unwatch 65000|clear 2 1 0|break 1 1 3 if 65000 = 7|go 4000|console off|no command|watch 1025|go 9""".replace("\n", "|").split("|")


def session(image, name):
    """Sends lines to the debugger one by one, checks that the answers are those of the whole session as one job; counts them."""
    with pmach.Machine.boot(image, name) as machine:
        each = [machine.command(line) for line in LINES]
    status, answers = pmach.told("debug", image, name, "".join(line + "\n" for line in LINES).encode())
    assert status == 0 and answers.decode() == "".join(answer + "\n" for answer in each)
    return len(each)


def program(path, *words, data):
    ran = subprocess.run([path, *words], input=data, capture_output=True)
    return ran.returncode, ran.stdout, ran.stderr


def show():
    print(*pmach.told("assemble", b"FOO\n", False))
    print(*pmach.told("disassemble", b"x"))
    print(*pmach.told("raw", b"0", 9))
    status, trace = pmach.told("raw", b"02 03 82 D6", 9)
    print(status, trace.decode(), end="")
    lines, end = traced(bytes.fromhex("020382D6"), 9)
    print(*lines, end, sep="\n")
    loads = disk(b"LOADS", os.path.join(EXAMPLES, "loads.text"))
    status, answers = pmach.told("debug", loads, b"LOADS", b"break 2 1 0\ngo 100\ndynamic 10\nstack 3\nquit\n")
    print(status, answers.decode(), sep="\n", end="")
    print(*places(loads, b"LOADS", 3), sep=", ")
    with pmach.Machine.boot(loads, b"LOADS") as machine:
        machine.set_break(2, 1, 0)
        print(*machine.go(100), machine.command("where"))
        print(machine.command("breaks"), machine.command("no"), repr(machine.command("quit")), sep=", ")
        machine.set_break(2, 1, 0, False)
        print(machine.call("break", 2, 1, 0, False), machine.command("console on"))
    print(session(loads, b"LOADS"), "lines")
    with pmach.Machine.raw(bytes.fromhex("020382D6")) as machine:
        machine.watch(65490)
        print(*machine.go(100), machine.instruction(machine.registers().ipc), machine.call("watch", 65491, True))
        machine.watch(65490, False)
        print(*machine.go(1), *machine.on(1), *machine.on(9), machine.on(9)[0], machine.variable(1))
    print(pmach.job("procedures", pmach.job("get", loads, b"LOADS")).decode(), end="")
    for status in 8, 404, 502, 602:
        print(status, pmach.sentence(status))
    print(pmach.CALLS["version"](), *pmach.told("put", loads, b"NEW", 16, b""))
    print(*pmach.told("get_slot", loads, 2))


def compare(path_of_program):
    texts = sorted(glob.glob(os.path.join(EXAMPLES, "*.text")))
    for path in texts:
        with open(path, "rb") as file:
            text = file.read()
        for listed in (False, True):
            status, answer = pmach.told("assemble", text, listed)
            words = ["asm", "--list"] if listed else ["asm"]
            assert program(path_of_program, *words, data=text)[:2] == (status, answer), (path, listed)
        file = pmach.job("assemble", text, False)
        for call, word in ("", []), ("_names", ["--names"]), ("_list", ["--list"]), ("_statements", ["--statements"]):
            assert program(path_of_program, "dis", *word, data=file)[:2] == pmach.told("disassemble" + call, file), (path, call)
        assert program(path_of_program, "asm", "--symbols", data=text)[:2] == pmach.told("assemble_symbols", text), path
    random.seed(7)
    often = bytes.fromhex("000102030405828F9095C3CBD7B0A0E8F8D89E9F")
    codes = [bytes.fromhex("020382D6")]
    for _ in range(400):
        bytes_ = [random.choice(often) if random.random() < 0.8 else random.randrange(256)
                  for _ in range(random.randint(1, 30))]
        codes.append(bytes(bytes_) + b"\xd6")
    states = 0
    for code in codes:
        spelled = code.hex().encode()
        status, trace, _ = program(path_of_program, "raw", "--limit", str(STEPS), data=spelled)
        assert pmach.told("raw", spelled, STEPS) == (status, trace), code.hex()
        lines, end = traced(code, STEPS)
        theirs = trace.decode().splitlines()
        assert theirs[:-1] == lines and theirs[-1] == end, code.hex()
        states += len(lines)
    print("%d texts, %d programs, %d states: no difference" % (len(texts), len(codes), states))


pmach.load(sys.argv[1])
if len(sys.argv) > 2:
    compare(sys.argv[2])
else:
    show()
