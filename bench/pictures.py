"""pictures.py PMACH: checks the pictures of a slot, a table and a frame in docs/GLOSSARY.md. Each letter is compared with a volume
that PMACH makes, and each word with the memory of a program that PMACH debugs. Run manually; not part of the gate."""
import os
import re
import subprocess
import sys
import tempfile

program = os.path.abspath(sys.argv[1])
page = open(os.path.join(os.path.dirname(os.path.abspath(__file__)), "..", "docs", "GLOSSARY.md"), encoding="utf-8").read()
os.chdir(tempfile.mkdtemp())
failed = 0


def pmach(*words, data=b""):
    done = subprocess.run([program, *words], input=data, capture_output=True)
    assert done.returncode == 0, (words, done.stderr)
    return done.stdout


def check(name, wanted, found):
    global failed
    if wanted != found:
        failed += 1
        print("FAILED: %s: wanted %r, found %r" % (name, wanted, found))


def letters(name):
    return re.search(r"^    %s  +(\S{26})  " % name, page, re.M)[1]


def field(picture, letter, slot):
    """The bytes that a letter of a picture names, as a number."""
    return sum(slot[at] << 8 * k for k, at in enumerate(at for at, it in enumerate(picture) if it == letter))


text = b".SEG 1 T\n.PROC 1 0 0 6\n SLDC 7\n SRO 1\n SLDC 8\n SRO 2\n UJP ^0\n NOP\nL: NOP\n.EXIT\n RBP 0\n.JUMP L\n.END\n"
pmach("files", "--image", "d", "new", "WORK", "40")
pmach("files", "--image", "d", "date", "84", "12", "1")
pmach("files", "--image", "d", "put", "NAME", "code", data=pmach("asm", data=text))
image = open("d", "rb").read()
date = 84 * 512 + 1 * 16 + 12
header, entry = letters("header"), letters("entry")
slots = [image[1024 + 26 * n : 1050 + 26 * n] for n in range(2)]
check("header", [6, 4, 40, 1, date], [field(header, letter, slots[0]) for letter in "eNbcd"])
check("its name", b"WORK", bytes(field(header, letter, slots[0]) for letter in "1234"))
check("entry", [6, 8, 2, 4, 512, date], [field(entry, letter, slots[1]) for letter in "fekNld"])
check("its name", b"NAME", bytes(field(entry, letter, slots[1]) for letter in "1234"))


def words(name):
    """The words of a picture: the position and the meaning of each."""
    line = re.search(r"^    %s +(.*)$" % name, page, re.M)[1]
    return {rest: int(at or 0) for at, rest in re.findall(r"([+-]\d+)? ?([a-zA-Z][a-zA-Z0-9 ]*?)(?:,  | \.\.)", line)}


def debugged(*lines):
    return pmach("debug", "--d4", "d", "NAME", data="".join(line + "\n" for line in lines + ("quit",)).encode()).decode().split("\n")


registers = debugged("regs")[0].split()
ipc, sp, seg, jtab, mp = (int(word) for word in registers[1:11:2])
at = lambda place: int(debugged("go 4", "peek %d 1" % place)[1])
table, frame = words("JTAB"), words("MP")
check("words of the table", 7, len(table))
check("words of the frame", 8, len(frame))
check("number and level", 1, at(jtab) % 256)
check("enter", ipc, jtab + table["enter"] - at(jtab + table["enter"]))
check("parameters", 0, at(jtab + table["parameters"]))
check("locals", 6, at(jtab + table["locals"]))
check("exit", ipc + 10, jtab + table["exit"] - at(jtab + table["exit"]))
check("jump entry 0", ipc + 9, jtab + table["jump entry 0"] - at(jtab + table["jump entry 0"]))
check("variable 1", 7, at(mp + frame["variable 1"]))
check("variable 2", 8, at(mp + frame["variable 2"]))
check("static link", 65492, at(mp + frame["static link"]))
check("dynamic link", 65492, at(mp + frame["dynamic link"]))
check("SP", 65492, at(mp + frame["SP"]))
print("nothing" if not failed else "%d failed" % failed)
sys.exit(1 if failed else 0)
