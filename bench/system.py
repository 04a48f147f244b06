"""system.py PMACH [SEED [COUNT]]: runs random programs with the system segment of examples/system, and compares them with models.

Files: each program has three files of records of one size, and opens, writes, reads, seeks and closes them at random. After
each step it shows IORESULT, EOF and the first byte of the window. At the end, the volume must have the files and bytes of the
model. The model has a list of entries and, for each open file, its bytes and the position of the next record.

Texts: LISTER lists, and COPYTEXT copies, a text that `pmach files puttext` has added.

Titles: the results of RESET for valid and invalid names, volumes and sizes.

Strings and widths: WRITE of each kind, and CONCAT, INSERT, COPY, DELETE and POS with lengths, positions and widths of all
sizes.

Dialogues: READ of each kind, READLN, EOF, EOLN, GET, and loops until EOF or EOLN, with INPUT and KEYBOARD. The typed input has
digits, signs, letters, spaces, ends of lines and of the file, and the bytes that delete characters. Many programs continue
after the end of the file. Readings: the same with a text on the disk, or with bytes, as a TEXT and as INTERACTIVE. The model
reads characters one by one as UCSD Pascal does, and states what the console shows. Each run must end without help."""
import os
import random
import re
import subprocess
import sys
import tempfile

program = os.path.abspath(sys.argv[1])
seed = int(sys.argv[2]) if len(sys.argv) > 2 else 1
count = int(sys.argv[3]) if len(sys.argv) > 3 else 100
folder = os.path.dirname(os.path.abspath(__file__)) + "/../examples/system/"
system = open(folder + "system.text", encoding="ascii").read()
CASES = 40 # blocks of the program's file, from block 6 on
FILL = b"\xe5" * 512 # the contents of a block that was never written
NAMES = ["A", "B", "C", "D"]


class Entry:
    def __init__(self, name, first, end, data, new):
        self.name, self.first, self.end, self.data, self.new = name, first, end, data, new


class Model:
    """A volume with this number of blocks, and the entries after that of the program."""
    def __init__(self, blocks, size):
        self.blocks, self.size, self.entries = blocks, size, []
        self.had = set() # the blocks that an entry had at any time: no other is written
        self.files = [None] * 3
        self.shown = [(1, 0)] * 3 # EOF, first byte of the window

    def gaps(self):
        at, gaps = 6 + CASES, []
        for place, entry in enumerate(self.entries):
            gaps.append((entry.first - at, place, at))
            at = entry.end
        gaps.append((self.blocks - at, len(self.entries), at))
        return gaps

    def named(self, name, new):
        return next((e for e in self.entries if e.name == name and e.new == new), None)

    def rewrite(self, f, name, room):
        if self.files[f]:
            return 3
        if self.named(name, True):
            return 3
        gaps = self.gaps()
        if room > 0:
            fits = [g for g in gaps if g[0] >= room]
            if not fits:
                return 9
            length, place, at = room, fits[0][1], fits[0][2]
        else:
            order = sorted(gaps, key=lambda g: (-g[0], g[1]))
            length, place, at = order[0]
            if room < 0:
                second = order[1] if len(order) > 1 else (0, 0, 0)
                if length // 2 > second[0]:
                    length = (length + 1) // 2
                else:
                    length, place, at = second
            if length == 0:
                return 9
        entry = Entry(name, at, at + length, bytearray(), True)
        self.entries.insert(place, entry)
        self.had.update(range(at, at + length))
        self.files[f] = [entry, bytearray(), 0, False] # entry, bytes, place, modified
        self.shown[f] = (0, self.shown[f][1])
        return 0

    def reset(self, f, name):
        if self.files[f]:
            return 3
        entry = self.named(name, False)
        if not entry:
            return 9
        self.files[f] = [entry, bytearray(entry.data), 0, False]
        self.shown[f] = (0, self.shown[f][1])
        self.get(f)
        return 0

    def get(self, f):
        if not self.files[f]:
            return 9
        entry, data, at, _ = self.files[f]
        if self.shown[f][0]:
            return 0
        if at + self.size > len(data):
            self.shown[f] = (1, self.shown[f][1])
        else:
            self.shown[f] = (0, data[at])
            self.files[f][2] = at + self.size
        return 0

    def put(self, f, byte):
        self.shown[f] = (self.shown[f][0], byte)
        if not self.files[f]:
            return 9
        entry, data, at, _ = self.files[f]
        after = at + self.size
        if after > 512 * (entry.end - entry.first): # it may grow into the gap after it
            place = self.entries.index(entry)
            free = self.entries[place + 1].first if place + 1 < len(self.entries) else self.blocks
            entry.end = max(entry.end, free)
            self.had.update(range(entry.first, entry.end))
            if after > 512 * (entry.end - entry.first):
                self.shown[f] = (1, byte)
                return -9 # the program ends here: part of a record may be there
        data[at:after] = bytes([byte]) * self.size
        self.files[f][2:] = [after, True]
        return 0

    def seek(self, f, record):
        if not self.files[f]:
            return 9
        self.files[f][2] = record * self.size
        self.shown[f] = (0, self.shown[f][1])
        return 0

    def close(self, f, how):
        if not self.files[f]:
            return 0
        entry, data, at, modified = self.files[f]
        self.files[f] = None
        self.shown[f] = (1, self.shown[f][1])
        if how == 3:
            del data[at:]
        if how == 2 or how == 0 and entry.new:
            self.entries.remove(entry)
        elif entry.new or modified or how == 3:
            old = self.named(entry.name, False)
            if old and old is not entry:
                self.entries.remove(old)
            entry.new, entry.data = False, data
            entry.end = entry.first + (len(data) + 511) // 512
        return 0


def show(lines, file, index, window):
    """IORESULT, EOF and the first byte of the window, each written as a word followed by a space."""
    lines += ["CSP 34", "SRO 4", "LOD 1, 3", "LDO 4", "SLDC 0", "CXP 0, 13", "LOD 1, 3", "SLDC 32", "SLDC 0", "CXP 0, 17",
              "LOD 1, 3", "LAO %d" % file, "SLDC 0", "SLDC 0", "CXP 0, 10", "SLDC 0", "CXP 0, 13", "LOD 1, 3", "SLDC 32",
              "SLDC 0", "CXP 0, 17", "LOD 1, 3", "LAO %d" % window, "SLDC 0", "LDB", "SLDC 0", "CXP 0, 13", "LOD 1, 3", "CXP 0, 22"]


def code_of(lines, jumps=()):
    """The code file of a program of straight code; these labels are the entries of its jump table. Before each call of the
    system procedure 2 leaves bytes below the stack, so that what a procedure of the system finds in its variables is no 0."""
    lines = "\n".join("CLP 2\n" + line if line.startswith("CXP 0,") else line for line in lines)
    text = system + ".SEG 1 RANDOM\n.PROC 1 0 4 5000\n" + lines + "\n.EXIT\nRBP 0\n"
    end = "".join(".JUMP %s\n" % label for label in jumps) + ".END\n"
    end += ".PROC 2 1 0 600\nLLA 1\nSLDC 0\nLDCI 600\nSLDC 77\nCSP 10\nNOP\n.EXIT\nRNP 0\n.END\n"
    for more in ("", "NOP\n"): # for an even length
        code = subprocess.run([program, "asm"], input=(text + more + end).encode(), stdout=subprocess.PIPE, stderr=subprocess.PIPE)
        if code.returncode == 0:
            return code.stdout
    raise ValueError(code.stderr)


def files(*words, data=b""):
    return subprocess.run([program, "files", "--image", image] + list(words), input=data, stdout=subprocess.PIPE, check=True).stdout


def run(name, typed=b"", limit=100000000):
    return subprocess.run([program, "run", "--d4", image, "--save", "--limit", str(limit), name], input=typed,
                          stdout=subprocess.PIPE, stderr=subprocess.PIPE)


def texts(number):
    chance = random.Random(number)

    def line(most):
        length = chance.randrange(chance.choice([0, 0, 1, 3, 20, 60, most]) + 1)
        spaces = chance.choice([0, 0, 1, 2, 10, 70 if most > 75 else 5])
        return (" " * spaces + "".join(chr(chance.randrange(32, 127)) for _ in range(length)))[:most]
    files("new", "WORK", "300")
    for name in ("lister", "copytext"):
        source = system + open(folder + "programs/%s.text" % name, encoding="ascii").read()
        files("put", name, "code", data=subprocess.run([program, "asm"], input=source.encode(), stdout=subprocess.PIPE, check=True).stdout)
    lines = chance.randrange(120)
    long, short = [line(300) for _ in range(lines)], [line(75) for _ in range(lines)]
    files("puttext", "LONG.TEXT", data="".join(x + "\n" for x in long).encode())
    files("puttext", "SHORT.TEXT", data="".join(x + "\n" for x in short).encode())
    ran = run("LISTER", b"LONG.TEXT\r")
    want = "LIST WHAT? LONG.TEXT\r" + "".join("%3d: %s (%d)\r" % (n + 1, x, len(x)) for n, x in enumerate(long))
    if ran.stdout.decode() != want:
        return "text %d: LISTER writes another list; %s" % (number, ran.stderr)
    ran = run("COPYTEXT", b"SHORT.TEXT\rOUT.TEXT" + chance.choice([b"", b"[60]", b"[*]"]) + b"\r")
    if files("gettext", "OUT.TEXT").decode() != "".join("%4d %s\n" % (n + 1, x) for n, x in enumerate(short)):
        return "text %d: COPYTEXT writes another text; %s" % (number, ran.stderr)
    return ""


def strings(number):
    chance = random.Random(number)
    lines, wanted = [], []

    def some():
        return "".join(chance.choice("AB") for _ in range(chance.choice([0, 1, 2, 3, 5, 80, 254, 255])))

    def place():
        return chance.choice([0, 1, 2, 3, 4, 79, 80, 254, 255, 256, -1, 32767, -32768, chance.randrange(-300, 300)])
    for _ in range(20):
        s, t, i, k = some(), some(), place(), place()
        what = chance.choice(["integer", "character", "string", "array", "concat", "insert", "copy", "delete", "pos"])
        if what in ("concat", "insert", "copy", "delete"):
            lines += ["LAO 10", 'LSA "%s"' % s, "SAS 255"]
        if what == "pos":
            lines += ["LOD 1, 3", 'LSA "%s"' % t, 'LSA "%s"' % s, "SLDC 0", "SLDC 0", "CXP 0, 27", "SLDC 0", "CXP 0, 13"]
            wanted.append(str(s.find(t) + 1 if t else 0))
        elif what == "integer":
            value = chance.choice([i, chance.randrange(-32768, 32768)])
            width = chance.randrange(-10, 300)
            lines += ["LOD 1, 3", "LDCI %d" % value, "LDCI %d" % width, "CXP 0, 13"]
            wanted.append(str(value).rjust(max(width, 0)))
        elif what == "character":
            lines += ["LOD 1, 3", "SLDC 88", "LDCI %d" % (k % 300 - 20), "CXP 0, 17"]
            wanted.append("X".rjust(max(k % 300 - 20, 0)))
        elif what in ("string", "array"):
            width = chance.choice([0, 1, len(s), len(s) - 1, len(s) + 1, 300, -32768])
            lines += ["LOD 1, 3", '%s "%s"' % ("LSA" if what == "string" else "LPA", s), "LDCI %d" % width]
            lines += ["CXP 0, 19"] if what == "string" else ["LDCI %d" % len(s), "CXP 0, 20"]
            wanted.append(s.rjust(width)[:width] if width > 0 else s)
        else:
            room = chance.choice([255, 80, min(255, len(s) + len(t))])
            if what == "concat":
                lines += ["LAO 10", 'LSA "%s"' % t, "LDCI %d" % room, "CXP 0, 23"]
                s = s + t if len(s) + len(t) <= room else s
            elif what == "insert":
                lines += ['LSA "%s"' % t, "LAO 10", "LDCI %d" % room, "LDCI %d" % i, "CXP 0, 24"]
                s = s[:i - 1] + t + s[i - 1:] if 1 <= i <= len(s) + 1 and len(s) + len(t) <= room else s
            elif what == "copy":
                lines += ['LSA "%s"' % t, "LAO 10", "LDCI %d" % i, "LDCI %d" % k, "CXP 0, 25"]
                s = t[i - 1:i - 1 + k] if i > 0 and k > 0 and i + k - 1 <= len(t) else ""
            else:
                lines += ["LAO 10", "LDCI %d" % i, "LDCI %d" % k, "CXP 0, 26"]
                s = s[:i - 1] + s[i - 1 + k:] if i > 0 and k > 0 and i + k - 1 <= len(s) else s
            lines += ["LOD 1, 3", "LAO 10", "SLDC 0", "CXP 0, 19"]
            wanted.append(s)
        lines += ["LOD 1, 3", "CXP 0, 22"]
    files("new", "WORK", "100")
    files("put", "CASES", "code", data=code_of(lines))
    ran = run("CASES")
    for have, want in zip(ran.stdout.decode().split("\r"), wanted + [""]):
        if have != want:
            return "strings %d: %r and not %r; %s" % (number, have, want, ran.stderr)
    return ""


def records(number):
    chance = random.Random(number)
    size = 2 * chance.choice([1, 3, 9, 50, 255, 256, 257, 300])
    blocks = 6 + CASES + chance.choice([5, 12, 30, 60])
    model = Model(blocks, size)
    file = [10 + 700 * n for n in range(3)]
    window = [f + 300 for f in file]
    lines, wanted, steps = [], [], []
    for n in range(3):
        lines += ["LAO %d" % file[n], "LAO %d" % window[n], "LDCI %d" % (size // 2), "CXP 0, 3"]
    for _ in range(chance.randrange(10, 60)):
        n = chance.randrange(3)
        what = chance.choice(["rewrite", "reset", "get", "put", "put", "put", "seek", "close"])
        opened = model.files[n]
        if what == "rewrite":
            name, room = chance.choice(NAMES), chance.choice([0, -1, 1, 2, 3, 5, 8])
            title = name + (" [%d]" % room if room > 0 else "[*]" if room else "")
            answer = model.rewrite(n, name, room)
            lines += ["LAO %d" % file[n], 'LSA "%s"' % title, "SLDC 0", "LDCN", "CXP 0, 5"]
        elif what == "reset":
            name = chance.choice(NAMES)
            if any(other and other[0].name == name for other in model.files): # the same file twice: no rule
                continue
            answer = model.reset(n, name)
            lines += ["LAO %d" % file[n], 'LSA "%s"' % name, "SLDC 1", "LDCN", "CXP 0, 5"]
        elif what == "get":
            answer = model.get(n)
            lines += ["LAO %d" % file[n], "CXP 0, 7"]
        elif what == "put":
            byte = chance.randrange(256)
            answer = model.put(n, byte)
            lines += ["LAO %d" % window[n], "SLDC 0", "LDCI %d" % size, "LDCI %d" % byte, "CSP 10", "LAO %d" % file[n], "CXP 0, 8"]
        elif what == "seek":
            records = len(opened[1]) // size if opened else 0
            record = chance.randrange(records + 1)
            answer = model.seek(n, record)
            lines += ["LAO %d" % file[n], "LDCI %d" % record, "CXP 0, 9"]
        else:
            how = chance.randrange(4)
            if how == 3 and opened and any(o and o is not opened and o[0].name == opened[0].name for o in model.files):
                how = 2
            if how != 2 and opened and any(o and o is not opened and o[0].name == opened[0].name for o in model.files):
                continue # it would take another file's entry away while that is open
            answer = model.close(n, how)
            lines += ["LAO %d" % file[n], "SLDC %d" % how, "CXP 0, 6"]
        show(lines, file[n], n, window[n])
        wanted.append("%d %d %d" % (abs(answer), *model.shown[n]))
        steps.append("%s of file %d" % (what, n))
        if answer == -9:
            break
    full = wanted and wanted[-1].startswith("9 1") and steps[-1].startswith("put")
    if not full:
        for n in range(3):
            others = [o for o in model.files if o and o is not model.files[n]]
            how = 2 if model.files[n] and any(o[0].name == model.files[n][0].name for o in others) else 1
            answer = model.close(n, how)
            lines += ["LAO %d" % file[n], "SLDC %d" % how, "CXP 0, 6"]
            show(lines, file[n], n, window[n])
            wanted.append("%d %d %d" % (answer, *model.shown[n]))
            steps.append("the last close of file %d" % n)
    files("new", "WORK", str(blocks))
    files("put", "FILL", "data", data=FILL * (blocks - 6))
    files("remove", "FILL")
    files("put", "CASES", "code", data=code_of(lines).ljust(512 * CASES, b"\0"))
    ran = run("CASES")
    got = ran.stdout.decode("latin1").split("\r")[:-1]
    for place, (have, want) in enumerate(zip(got + ["nothing"] * len(wanted), wanted)):
        if have != want:
            return "program %d, record %d, step %d, %s: %s and not %s; %s" % (number, size, place, steps[place], have, want, ran.stderr)
    if not full:
        listed = [row.split() for row in files("list").decode().split("\n")[2:-2]]
        have = [(row[0], int(row[2]), int(row[3])) for row in listed]
        want = [(e.name, e.first, e.end - e.first) for e in model.entries]
        if have != want:
            return "program %d: the volume has %s and not %s" % (number, have, want)
        for e in model.entries:
            if files("get", e.name) != bytes(e.data):
                return "program %d: other bytes in %s" % (number, e.name)
    disk = open(image, "rb").read()
    for block in range(6 + CASES, blocks):
        if block not in model.had and disk[512 * block:512 * block + 512] != FILL:
            return "program %d: block %d was written, which no file had" % (number, block)
    if disk[1024 + 26 * (disk[1040] + 1):1024 + 26 * 78].strip(b"\0"):
        return "program %d: something stands behind the entries of the directory" % number
    return ""


def answer_to(title, names, kind):
    """IORESULT of RESET: 3 a bad title, 9 no such volume or file. A TEXT, kind -2, reads its first character, and the
    printer cannot be read (3); INTERACTIVE, 0, and a file of blocks, -1, read nothing."""
    text = "".join(c for c in title if c > " ").upper()
    if not 1 <= len(text) <= 80:
        return 3
    star, text = text[0] == "*", text.removeprefix("*")
    volume, colon, rest = text.partition(":")
    if not colon:
        volume, rest = "", text
    name, bracket, size = rest.partition("[")
    if len(volume) > 7 or len(name) > 15:
        return 3
    if bracket:
        size, end, _ = size.partition("]")
        if not end or size != "*" and not all("0" <= c <= "9" for c in size):
            return 3
    unit = {"": 4, "WORK": 4, "*": 4, "CONSOLE": 1, "SYSTERM": 2, "PRINTER": 6}.get(volume, 0)
    if volume[:1] == "#" and all("0" <= c <= "9" for c in volume[1:]):
        unit = int(volume[1:] or "0")
        unit = unit if unit in (1, 2, 4, 6) else 0
    if unit == 0 or unit == 4 and name and name not in names:
        return 9
    return 3 if unit == 6 and kind == -2 else 0


def titles(number):
    chance = random.Random(number)
    names = ["A", "A.DATA", "WORK", "#5", "FIFTEEN.LETTERS", "X]Y"]
    files("new", "WORK", "100")
    for name in names:
        files("put", name, "data", data=b"x")
    lines, wanted = [], []
    for _ in range(40):
        kind = chance.choice([0, -1, -2])
        parts = ["", "", "", "*", ":", "WORK:", "#4:", "#6:", "#", "4", "12", "A", "A.DATA", "a.data", "work", "[", "]", "[*]", "[5]",
                 "[77]", "FIFTEEN.LETTERS", " ", "\t", "\x7f", "CONSOLE:", "X", "Y" * 70]
        title = "".join(chance.choice(parts) for _ in range(chance.randrange(1, 7)))
        if chance.random() < 0.5:
            title = chance.choice(["", "*", ":", "WORK:", "work :", "#4:", "#04:", "#5:", "#6:", "printer:", "SEVENLE:"]) + chance.choice(names) + \
                chance.choice(["", "[5]", "[*]", "[]", "[5", "[5]Y", "[X]", "]", "[5*]", "[**]", "[12]]", "[", " "])
        if kind == -2 and re.match(r"\W*(CONSOLE|SYSTERM|#0*[12]):", title.upper()):
            kind = 0 # a TEXT would wait for a key
        lines += ["LAO 200", "LAO 500" if kind != -1 else "LDCN", "LDCI %d" % kind, "CXP 0, 3",
                  "LAO 200", 'LSA "%s"' % "".join(c if 32 <= ord(c) < 127 and c not in '"\\' else "\\%02x" % ord(c) for c in title),
                  "SLDC 1", "LDCN", "CXP 0, 5", "LOD 1, 3", "CSP 34", "SLDC 0", "CXP 0, 13", "LOD 1, 3", "CXP 0, 22",
                  "LAO 200", "SLDC 0", "CXP 0, 6"]
        wanted.append((title, str(answer_to(title, names, kind))))
    files("put", "CASES", "code", data=code_of(lines))
    ran = run("CASES")
    for (title, want), have in zip(wanted, ran.stdout.decode().split("\r")):
        if have != want:
            return "titles %d: %r answers %s and not %s; %s" % (number, title, have, want, ran.stderr)
    return "" if ran.returncode == 0 else "titles %d: %s" % (number, ran.stderr)


class Reader:
    """A file that is read: take() is the next byte or the end, None; what the console has is put into `shown`."""
    def __init__(self, take, shown, screen, ahead):
        self.take, self.shown, self.screen, self.ahead = take, shown, screen, ahead
        self.window = 0
        self.reset()

    def reset(self):
        self.eof, self.eoln, self.needed = False, False, True
        if self.ahead:
            self.get()

    def get(self):
        if self.eof:
            self.eoln = True
            return
        byte = self.take()
        self.needed = False
        self.eof = byte is None
        self.eoln = byte is None or byte == 13
        self.window = 32 if self.eoln else byte

    def read(self):
        if self.needed and not self.ahead:
            self.get()
        byte, self.needed = self.window, True
        if self.ahead:
            self.get()
        return byte

    def back(self, taken):
        """Takes back what was typed, where the window does so; whether it does."""
        if not self.screen or self.window not in (8, 127, 24):
            return False
        if self.window == 8: # the console has moved the cursor already
            self.shown += b" \x08" if taken else b" "
            del taken[-1:]
        while taken and self.window == 24 or taken and self.window == 127:
            self.shown += b"\x08 \x08"
            del taken[-1:]
            if self.window == 127:
                break
        return True

    def read_string(self, room):
        if self.needed and not self.ahead:
            self.get()
        text = []
        while not self.eoln and len(text) < room:
            if not self.back(text):
                text.append(self.window)
            self.get()
        while not self.eoln:
            self.get()
        return bytes(text)

    def read_integer(self):
        """The number, and IORESULT."""
        if self.needed and not self.ahead:
            self.get()
        text = []
        while True:
            if not text and self.eof:
                return 0, 0
            if not text and self.window == 32:
                pass
            elif 48 <= self.window <= 57 or not text and self.window in (43, 45):
                text.append(self.window)
            elif not self.back(text):
                break
            self.get()
            if text and self.eof:
                break
        spelled = bytes(text).decode()
        if spelled.strip("+-") == "":
            return 0, 3
        return (int(spelled) + 32768) % 65536 - 32768, 0

    def readln(self):
        while not self.eoln:
            self.get()
        if self.ahead:
            self.get()
        else:
            self.needed, self.eoln = True, self.eof


def steps_of(chance, load, reader, lines, name):
    """A random step: adds its lines and what the console has then."""
    shown = reader.shown

    def number(line, value):
        lines.extend(["LOD 1, 3"] + line + ["SLDC 0", "CXP 0, 13", "LOD 1, 3", "SLDC 32", "SLDC 0", "CXP 0, 17"])
        later.append(b"%d " % value)
    later = [] # what is shown after the console output of the step itself
    what = chance.choice(["read", "read", "integer", "integer", "string", "readln", "readln", "get", "until eoln", "until eof",
                          "reset"])
    if what == "reset" and not reader.eof and chance.random() < 0.8:
        what = "readln"
    result = 0
    if what == "read":
        value = reader.read()
        lines.extend([load, "LAO 5", "CXP 0, 16", "CSP 34", "SRO 4"])
        number(["LDO 5"], value)
    elif what == "integer":
        value, result = reader.read_integer()
        lines.extend([load, "LAO 5", "CXP 0, 12", "CSP 34", "SRO 4"])
        number(["LDO 5"], value)
    elif what == "string":
        room = chance.choice([0, 1, 3, 80, 80, 255])
        text = reader.read_string(room)
        lines.extend([load, "LAO 10", "LDCI %d" % room, "CXP 0, 18", "CSP 34", "SRO 4"])
        number(["LAO 10", "SLDC 0", "LDB"], len(text))
        lines.extend(["SLDC 1", "LAO 10", "SLDC 1", "LAO 10", "SLDC 0", "LDB", "SLDC 0", "SLDC 0", "CSP 6"])
        later.append(text)
    elif what == "readln":
        reader.readln()
        lines.extend([load, "CXP 0, 21", "CSP 34", "SRO 4"])
    elif what == "get":
        reader.get()
        lines.extend([load, "CXP 0, 7", "CSP 34", "SRO 4"])
        number([load, "SIND 0", "SLDC 0", "LDB"], reader.window)
    elif what == "reset":
        reader.reset()
        lines.extend([load, "CXP 0, 4", "CSP 34", "SRO 4"])
    else:
        flag = "eof" if what == "until eof" else "eoln"
        count = 0
        lines.extend(["SLDC 0", "SRO 5", "%s: %s" % (name, load), "SLDC 0", "SLDC 0",
                      "CXP 0, %d" % (10 if flag == "eof" else 11), "LNOT", "FJP past%s" % name, load, "LAO 6", "CXP 0, 16",
                      "LDO 5", "SLDC 1", "ADI", "SRO 5", "UJP ^%d" % int(name[4:]), "past%s: SLDC 0" % name, "SRO 4"])
        while not getattr(reader, flag):
            reader.read()
            count += 1
        number(["LDO 5"], count)
    number(["LDO 4"], result)
    for procedure, value in ((10, reader.eof), (11, reader.eoln)):
        lines.extend(["LOD 1, 3", load, "SLDC 0", "SLDC 0", "CXP 0, %d" % procedure, "SLDC 0", "CXP 0, 13"])
        later.append(b"01"[value:value + 1])
    lines.extend(["LOD 1, 3", "CXP 0, 22"])
    shown += b"".join(later) + b"\r"
    return what


def reading(number, lines, names, steps, shown, typed):
    """Runs the steps. What is wrong: another console, or no end."""
    files("put", "CASES", "code", data=code_of(lines + ["UJP last", "last:"], names))
    ran = run("CASES", bytes(typed), 30000000)
    if ran.stdout == shown and ran.returncode == 0:
        return ""
    same = len(os.path.commonprefix([ran.stdout, bytes(shown)]))
    return "%s, of %s: %r and not %r, typed %r; %s" % (number, ", ".join(steps), ran.stdout[max(0, same - 20):same + 40],
                                                       bytes(shown[max(0, same - 20):same + 40]), bytes(typed), ran.stderr)


def dialogues(number):
    chance = random.Random(number)
    typed, shown, lines, steps, names = bytearray(), bytearray(), [], [], []
    often = chance.choice([0.5, 2, 8]) # how often the end is typed

    def take(unit):
        kind = chance.choices(["digit", "letter", "blank", "sign", "line", "back", "end", "other"], [40, 10, 10, 8, 12, 14, often, 3])[0]
        byte = {"digit": chance.randrange(48, 58), "letter": chance.randrange(65, 91), "blank": 32, "sign": chance.choice([43, 45]),
                "line": 13, "back": chance.choice([8, 8, 127, 24]), "end": chance.choice([3, 26]),
                "other": chance.choice([0, 1, 7, 9, 10, 12, 16, 27, 31, 128, 255])}[kind]
        typed.append(byte)
        if unit == 1:
            shown.append(byte)
        return None if byte in (3, 26) else byte
    readers = [Reader(lambda: take(1), shown, True, False), Reader(lambda: take(2), shown, False, False)]
    lines += ["LOD 1, 3", 'LSA ""', "SLDC 0", "CXP 0, 19"] # the first call sets up the files
    for _ in range(chance.randrange(5, 30)):
        which = chance.choice([0, 0, 0, 1])
        names.append("loop%d" % len(names))
        what = steps_of(chance, "LOD 1, %d" % (2 if which == 0 else 4), readers[which], lines, names[-1])
        if not what.startswith("until"):
            names.pop()
        steps.append(what + (" of KEYBOARD" if which else ""))
    files("new", "WORK", "100")
    return reading("dialogue %d" % number, lines, names, steps, shown, typed)


def readings(number):
    chance = random.Random(number)
    files("new", "WORK", "120")
    kind = chance.choice(["text", "text", "bytes"])
    most = chance.choice([8, 40, 200])

    def piece():
        return "".join(chance.choice(["7", "12", " ", "-", "+5", "A", "-32768", "32767", "99999", "word", "   ", "!"])
                       for _ in range(chance.randrange(4)))[:most]
    texts = []
    for _ in range(chance.randrange(chance.choice([3, 12, 60]))):
        texts.append(" " * chance.choice([0, 0, 0, 1, 2, 9, 60]) + "".join(piece() for _ in range(chance.choice([0, 1, 3, 40]))))
    stream = "".join(text + "\r" for text in texts).encode()
    if kind == "text":
        files("puttext", "READ.TEXT", data=stream.replace(b"\r", b"\n"))
    else:
        if chance.random() < 0.5:
            stream = stream[:-1] # no end of the last line
        files("put", "READ", "data", data=stream)
    shown, lines, steps, names = bytearray(), [], [], []
    at = [0]

    def take():
        at[0] += 1
        return stream[at[0] - 1] if at[0] <= len(stream) else None
    ahead = chance.random() < 0.5
    reader = Reader(take, shown, False, ahead)

    def reset(again=Reader.reset):
        at[0] = 0
        again(reader)
    reader.reset = reset
    lines += ["LAO 200", "LAO 600", "LDCI %d" % (-2 if ahead else 0), "CXP 0, 3",
              "LAO 200", 'LSA "READ%s"' % (".TEXT" if kind == "text" else ""), "SLDC 1", "LDCN", "CXP 0, 5"]
    for _ in range(chance.randrange(5, 40)):
        names.append("loop%d" % len(names))
        what = steps_of(chance, "LAO 200", reader, lines, names[-1])
        if not what.startswith("until"):
            names.pop()
        steps.append(what)
    return reading("reading %d" % number, lines, names, steps, shown, b"")


JOBS = (records, texts, strings, titles, dialogues, readings)
with tempfile.TemporaryDirectory() as scratch:
    image = os.path.join(scratch, "image")
    bad = 0
    for number in range(seed, seed + count):
        for tried in JOBS:
            fault = tried(number)
            if fault:
                print(fault)
                bad += 1
    print("%d passed, %d failed" % (len(JOBS) * count - bad, bad))
    sys.exit(bad > 0)
