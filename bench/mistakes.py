"""mistakes.py PMACH [N]: makes the mistakes of bench/mistakes (or only mistake N) on a pseudo terminal, prints the answers, and
counts the answers that have all required parts.

PMACH is the program itself. The folder has d.img with the files README.TEXT, DATA, HELLO.CODE, CALLS and WHOLE (code files),
dos.dsk in DOS order, header.2mg, hurt.img with a damaged entry, and sys.code."""
import os
import pty
import re
import subprocess
import sys
import tempfile

program = os.path.abspath(sys.argv[1])
here = os.path.dirname(os.path.abspath(__file__))
folder = tempfile.mkdtemp()
os.chdir(folder)


def read(path):
    return open(path, "rb").read()


def pmach(words, data=b""):
    done = subprocess.run([program] + words.split(), input=data, capture_output=True)
    assert done.returncode == 0, (words, done.stderr)
    return done.stdout


def whole(lines, segment=1, name="T"):
    return (f".SEG {segment} {name}\n.PROC 1 0 0 4\n" + "".join(line + "\n" for line in lines) + ".EXIT\n RBP 0\n.END\n").encode()


def prepare():
    hello = pmach("asm", whole(["NOP", "NOP"]))
    system = pmach("asm", whole(["NOP", "NOP"], 0, "SYSTEM"))
    open("sys.code", "wb").write(system)
    pmach("files --image d.img new D 280")
    pmach("files --image d.img puttext README.TEXT", b"hello\n")
    pmach("files --image d.img put DATA data", b"x" * 600)
    pmach("files --image d.img put HELLO.CODE code", hello)
    pmach("files --image d.img put CALLS code", pmach("asm", whole(["CXP 0, 19", "NOP"])))
    pmach("files --image d.img put WHOLE code", pmach("asm", whole(["NOP", "NOP"], 0, "SYSTEM") + whole(["NOP", "NOP"])))
    image = bytearray(read("d.img"))
    order = [0, 14, 13, 12, 11, 10, 9, 8, 7, 6, 5, 4, 3, 2, 1, 15]  # the positions of the sectors of 256 bytes in a track
    open("dos.dsk", "wb").write(b"".join(image[track + 256 * s : track + 256 * s + 256] for track in range(0, len(image), 4096) for s in order))
    open("header.2mg", "wb").write(b"2IMG" + bytes(60) + image)
    image[2 * 512 + 26 + 6] = 0
    open("hurt.img", "wb").write(image)


def on_terminal(words, data):
    """What a command line prints on a terminal, to which its three streams are connected, except an input that is given."""
    ours, theirs = pty.openpty()
    given = None
    if data is not None:
        open("input", "wb").write(data)
        given = open("input", "rb")
    child = subprocess.Popen(words, stdin=given or theirs, stdout=theirs, stderr=theirs, start_new_session=True)
    os.close(theirs)
    shown = b""
    while True:
        try:
            got = os.read(ours, 65536)
        except OSError:
            break
        if not got:
            break
        shown += got
    os.close(ours)
    return child.wait(), shown.decode("latin-1").replace("\r\n", "\n")


def mistakes():
    for part in re.split(r"\n\n(?=\d+: )", read(os.path.join(here, "mistakes")).decode())[1:]:
        lines = part.rstrip("\n").split("\n")
        number, title = lines[0].split(": ", 1)
        words = [line[2:] for line in lines if line.startswith("$ ")][0].split()
        text = [line[2:] for line in lines if line.startswith("<")]
        pieces = [line[2:] for line in lines if line.startswith("? ")]
        data = None
        if words[0] == "asm":
            data = whole(text[1:]) if not text[0] else ("\n".join(text) + "\n").encode()
        yield int(number), title, words, data, pieces


prepare()
good, all_of_them = 0, 0
for number, title, words, data, pieces in mistakes():
    if len(sys.argv) > 2 and int(sys.argv[2]) != number:
        continue
    status, shown = on_terminal([program] + words, data)
    missing = [piece for piece in pieces if piece not in shown]
    all_of_them += 1
    good += not missing
    print(f"{number}: {title}: status {status}" + (f", NOT MENDED, without {missing}" if missing else ""))
    print("".join("    " + line + "\n" for line in shown[:600].split("\n") if line), end="")
print(f"{good} of {all_of_them} are mended from the message alone")
