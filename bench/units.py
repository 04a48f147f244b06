"""units.py PMACH [COUNT [PICTURES]]: the units of examples/units, against models in Python.

LONGINTIO: COUNT lines (1,000) with an operation and two whole numbers of up to 36 digits are typed to a program, which reads
them, works on them and writes the results; Python's integers say what it writes. Then the errors, each in a run of its own.
TURTLEGRAPHICS: random programs draw, and a model draws the same: each point of each picture is compared. A line is computed
with fractions here, and step by step in the unit.

Each program is assembled together with the system segment and the units; one program of each unit is made by with-units.sh."""
import fractions
import math
import os
import random
import re
import subprocess
import sys
import tempfile
import zlib

program = os.path.abspath(sys.argv[1])
count = int(sys.argv[2]) if len(sys.argv) > 2 else 1000
drawn = int(sys.argv[3]) if len(sys.argv) > 3 else 20
examples = os.path.dirname(os.path.abspath(__file__)) + "/../examples/"
UNITS = {20: "turtlegraphics", 22: "applestuff", 28: "chainstuff", 30: "longintio", 31: "pascalio"}
passed = failed = 0


def result(name, good, why=""):
    global passed, failed
    print("passed: " + name if good else "FAILED: %s %s" % (name, why))
    passed, failed = passed + good, failed + (not good)


def source(path):
    with open(examples + path, encoding="ascii") as text:
        return text.read()


def files(*words, data=b"", disk=None):
    return subprocess.run([program, "files", "--image", disk or image] + list(words), input=data, stdout=subprocess.PIPE, check=True).stdout


def whole(lines, jumps=(), globals=4000):
    """The text of a program of straight code, with a NOP where its length is odd."""
    text = ".SEG 1 CASES\n.PROC 1 0 4 %d\n%s\n.EXIT\nRBP 0\n" % (globals, "\n".join(lines))
    end = "".join(".JUMP %s\n" % label for label in jumps) + ".END\n"
    for more in ("", "NOP\n"):
        code = subprocess.run([program, "asm"], input=(text + more + end).encode(), stdout=subprocess.PIPE, stderr=subprocess.PIPE)
        if code.returncode == 0:
            return text + more + end
    raise ValueError(code.stderr)


def put(name, text, units):
    """Puts a program on the disk, with the system segment and these units in slots of their own."""
    text = source("system/system.text") + text
    for unit in units:
        segment = re.sub(r"(?m)^\.SEG \d+ ", ".SEG %d " % (unit - 18), source("units/%s.text" % UNITS[unit]))
        text = re.sub(r"\bCXP( +)%d," % unit, r"CXP\g<1>%d," % (unit - 18), text) + segment
    code = subprocess.run([program, "asm"], input=text.encode(), stdout=subprocess.PIPE, check=True).stdout
    files("put", name, "code", data=code)


def run(name, *words, typed=b""):
    return subprocess.run([program, "run", "--unlimited", "--d4", image, *words, "--", name], input=typed, stdout=subprocess.PIPE, stderr=subprocess.PIPE)


# LONGINTIO, with the calls as the compiler of II.0 is remembered to spell them
A, B, R = ["LAO 10", "LDM 10", "SLDC 10"], ["LAO 20", "LDM 10", "SLDC 10"], ["LAO 30", "LDM 10", "SLDC 10"]


def decops(operation):
    return ["SLDC %d" % operation, "CXP 30, 4"]


def adjusted(size):
    return ["SLDC %d" % size] + decops(0)


def write_long(lines, width=0):
    return ["LOD 1, 3"] + lines + adjusted(10) + ["SLDC %d" % width, "CXP 30, 3", "CSP 0"]


def write_integer(lines):
    return ["LOD 1, 3"] + lines + ["SLDC 0", "CXP 0, 13"]


def constant(value):
    """The code of a long constant: groups of four digits, each times 10,000 and plus the next."""
    digits = str(value)
    groups = [digits[max(0, i - 4):i] for i in range(len(digits), 0, -4)][::-1]
    lines = ["LDCI %d" % int(groups[0])] + decops(18)
    for group in groups[1:]:
        lines += ["LDCI 10000"] + decops(18) + decops(8) + ["LDCI %d" % int(group)] + decops(18) + decops(2)
    return lines


def read_long(variable, size=10, file="LOD 1, 4"):
    return [file, "LAO %d" % variable, "SLDC %d" % size, "CXP 30, 2"]


CONSTANTS = [0, 7, 9999, 10000, 32768, 123456789012345678901234567890123456, 10**35]
OPERATIONS = {
    "+": ["LAO 30"] + A + B + decops(2) + adjusted(10) + ["STM 10"] + write_long(R),
    "-": ["LAO 30"] + A + B + decops(4) + adjusted(10) + ["STM 10"] + write_long(R, 40),
    "*": write_long(A + B + decops(8)),
    "/": write_long(A + B + decops(10), 3),
    "n": write_long(A + decops(6)),
    "s": A + ["LAO 60", "SLDC 80"] + decops(12) + ["LOD 1, 3", "LAO 60", "SLDC 0", "CXP 0, 19"],
    "t": write_integer(A + decops(20)),
    "i": write_long(["LDO 41"] + decops(18) + A + decops(2)), # integer + long, by conversion of the top
    "c": write_long(["LDO 41"] + A + decops(14) + decops(4)), # integer - long, by conversion of the one below
    "1": write_long(A + ["LDO 41", "SLDC 1"] + decops(8)),    # long * integer, as a long of one word
    "<": sum((write_integer(A + B + ["SLDC %d" % relation] + decops(16)) for relation in range(8, 14)), []),
    "k": sum((write_long(constant(value), 1) + ["LOD 1, 3", "SLDC 44", "SLDC 0", "CXP 0, 17"] for value in CONSTANTS), []),
    "8": ["LAO 50"] + A + adjusted(3) + ["STM 3"] + write_long(["LAO 50", "LDM 3", "SLDC 3"]), # an INTEGER[8]
}
LOW = -10**36


def quotient(a, b):
    return abs(a) // abs(b) * (1 if (a < 0) == (b < 0) else -1)


def answer(operation, a, b, i):
    """What the program writes, or nothing where the rule is an error."""
    value = {"+": a + b, "-": a - b, "*": a * b, "/": b and quotient(a, b), "n": -a, "i": i + a, "c": i - a, "1": a * i, "8": a}.get(operation, 0)
    if abs(value) >= 10**36 or operation == "/" and b == 0 or operation == "t" and not -32768 <= a <= 32767 or operation == "8" and abs(a) >= 10**8:
        return None
    if operation == "<":
        return "".join(str(int(x)) for x in (a < b, a <= b, a >= b, a > b, a != b, a == b))
    if operation == "k":
        return "".join("%d," % value for value in CONSTANTS)
    if operation in "st":
        return str(a)
    return str(value).rjust({"-": 40, "/": 3}.get(operation, 0))


def sums(chance, lines):
    """Lines of an operation, two numbers and an integer, each with what the program writes."""
    def number():
        digits = chance.choice([1, 1, 2, 4, 5, 8, 9, 12, 17, 18, 19, 28, 35, 36])
        value = chance.choice([10**digits - 1, 10**(digits - 1), chance.randrange(10**digits), chance.randrange(10**digits), 0,
                               chance.randrange(1, 10) * 10**chance.randrange(digits)])
        return chance.choice([-1, 1]) * value
    while lines:
        operation = chance.choice("++--***////<<<nstic18k")
        a, b, i = number(), number(), chance.choice([0, 1, -1, 9999, 10000, -10000, 32767, -32768, chance.randrange(-32768, 32768)])
        if operation == "t":
            a = chance.choice([0, 32767, -32768, 30000, -30001, chance.randrange(-32768, 32768)])
        if operation == "8":
            a = a % 10**8
        if operation == "<":
            b = chance.choice([a, -a, a + 1, a - 1, b])
            if abs(b) >= 10**36:
                continue
        shown = answer(operation, a, b, i)
        if shown is not None:
            lines -= 1
            yield operation, a, b, i, shown


def spelled(chance, value):
    """A number as it can be typed."""
    zeros = "0" * chance.choice([0, 0, 0, 1, 30])
    sign = "-" if value < 0 else chance.choice(["", "", "+"])
    return chance.choice(["", " ", "   "]) + sign + zeros + str(abs(value))


def longs():
    chance = random.Random(30)
    lines = ["LOD 1, 3", 'LSA ""', "SLDC 0", "CXP 0, 19", "next: LOD 1, 4", "LAO 40", "CXP 0, 16", "LDO 40", "SLDC 113",
             "NFJ ^0"] + read_long(10) + ["CSP 0"] + read_long(20) + ["CSP 0", "LOD 1, 4", "LAO 41", "CXP 0, 12", "CSP 0", "LOD 1, 4", "CXP 0, 21"]
    jumps = ["quit", "next"]
    for operation, code in OPERATIONS.items():
        jumps.append("not%d" % ord(operation))
        lines += ["LDO 40", "SLDC %d" % ord(operation), "EFJ ^%d" % (len(jumps) - 1)] + code + ["LOD 1, 3", "CXP 0, 22", "UJP ^1", jumps[-1] + ":"]
    lines += ["UJP ^1", "quit:"]
    cases = list(sums(chance, count))
    typed = "".join("%s%s%s%s\r" % (o, spelled(chance, a), spelled(chance, b).replace("", " ", 1), spelled(chance, i).replace("", " ", 1))
                    for o, a, b, i, _ in cases) + "q"
    files("new", "WORK", "100")
    put("FACTORS", source("units/factors.text"), [30])
    ran = run("FACTORS")
    result("the program FACTORS", ran.stdout.decode() == "".join("%2d! =%37d\r" % (n, math.factorial(n)) for n in range(1, 33)), str(ran))
    put("SUMS", whole(lines, jumps), [30])
    ran = run("SUMS", typed=typed.encode())
    wrong = [(case, have) for case, have in zip(cases, ran.stdout.decode().split("\r")) if case[4] != have]
    result("%d sums of long integers" % count, ran.stdout.decode() == "".join(case[4] + "\r" for case in cases) and ran.returncode == 0,
           "%s %s" % (wrong[:1], ran.stderr))


def stops(name, lines, units, message, shown=b"", typed=b""):
    """A program that an error ends, and that changes nothing on its disk."""
    put("STOPS", whole(lines), units)
    with open(image, "rb") as disk:
        before = disk.read()
    ran = run("STOPS", "--save", typed=typed)
    with open(image, "rb") as disk:
        same = disk.read() == before
    files("remove", "STOPS")
    result(name, same and ran.stderr.decode().startswith(message) and ran.stdout.endswith(shown), "%s %s" % (ran.stdout, ran.stderr))


def long_errors():
    files("new", "WORK", "100")
    big = constant(10**36 - 1)
    for name, lines, message in (
            ("a division by zero", A + constant(0) + decops(10), "error 6"),
            ("a sum of 37 digits", big + constant(1) + decops(2), "error 1 "),
            ("a product of 37 digits", constant(10**18) + constant(10**18) + decops(8), "error 1 "),
            ("five digits for two words", constant(10000) + adjusted(2), "error 1 "),
            ("a variable of one word", constant(1) + adjusted(1), "error 1 "),
            ("a variable of 11 words", constant(1) + adjusted(11), "error 1 "),
            ("STR of 36 digits to 35", big + ["LAO 60", "SLDC 35"] + decops(12), "error 13 "),
            ("TRUNC of 32768", constant(32768) + decops(20), "error 1 "),
            ("TRUNC of -32769", constant(32769) + decops(6) + decops(20), "error 1 "),
            ("TRUNC of 10 ** 8", constant(10**8) + decops(20), "error 1 "),
            ("relation 7", constant(1) + constant(1) + ["SLDC 7"] + decops(16), "error 1 "),
            ("relation 14", constant(1) + constant(1) + ["SLDC 14"] + decops(16), "error 1 "),
            ("operation 1", constant(1) + decops(1), "error 11 "),
            ("operation 22", constant(1) + decops(22), "error 11 "),
            ("a long integer of no word", ["SLDC 0"] + decops(6), "error 1 "),
            ("a long integer of 11 words", ["SLDC 0"] * 11 + ["SLDC 11"] + decops(6), "error 1 "),
            ("READ to a variable of 11 words", read_long(10, 11), "error 1 "),
            ("IOCHECK after a bad number", read_long(10, file="LDCN") + ["CSP 0"], "error 10 ")):
        stops("long integers: " + name, lines, [30], message, typed=b"X")


def long_reads():
    """READ of INPUT, with what the console shows, the number and IORESULT; then EOF."""
    cases = [("  -12345678901\r", None, -12345678901, 0, 10), ("+7 8\r", None, 7, 0, 2), ("12\b\b3\r", "12\b \b\b \b3\r", 3, 0, 10),
             ("-\x7f5\r", "-\x7f\b \b5\r", 5, 0, 10), ("123\x184\r", "123\x18\b \b\b \b\b \b4\r", 4, 0, 10), ("X\r", None, 0, 3, 10),
             ("-\r", None, 0, 3, 10), ("-X\r", None, 0, 3, 10), ("\r\r 5\r", None, 5, 0, 10), ("1" * 36 + "\r", None, int("1" * 36), 0, 10),
             ("1" * 37 + "\r", None, 0, 3, 10), ("-" + "0" * 71 + "\r", None, 0, 0, 10), ("0" * 73 + "\r", None, 0, 3, 10),
             ("12345678\r", None, 12345678, 0, 3), ("123456789\r", None, 0, 3, 3), ("\x08\x7f\x189\r", "\b \x7f\x189\r", 9, 0, 10),
             ("12\b3\r", "", 12, 0, 4), ("\x7f3\r", "", 0, 3, 4), # of KEYBOARD, where nothing is deleted
             ("17\x03", None, 17, 0, 10), ("", None, 0, 0, 10)]
    lines, shown = ["LOD 1, 3", 'LSA ""', "SLDC 0", "CXP 0, 19"], ""
    for typed, echo, value, error, size in cases:
        file = "LOD 1, 4" if size == 4 else "LOD 1, 2"
        lines += ["LAO 10", "SLDC 0", "SLDC 20", "SLDC 9", "CSP 10"] + read_long(10, size, "LDCN" if size == 2 else file) + ["CSP 34", "SRO 42"]
        lines += [file, "CXP 0, 21"] + write_long(["LAO 10", "LDM %d" % size, "SLDC %d" % size], 1)
        lines += ["LOD 1, 3", "SLDC 59", "SLDC 0", "CXP 0, 17"] + write_integer(["LDO 42"]) + ["LOD 1, 3", "SLDC 59", "SLDC 0", "CXP 0, 17"]
        shown += (echo if echo is not None else typed) + "%d;%d;" % (value, error)
    lines += ["LAO 200", "LAO 600", "SLDC 0", "CXP 0, 3"] + read_long(10, file="LAO 200") + write_integer(["CSP 34"])
    shown += "9"
    files("new", "WORK", "100")
    put("READS", whole(lines), [30])
    ran = run("READS", typed="".join(case[0] for case in cases).encode())
    same = len(os.path.commonprefix([ran.stdout.decode(), shown]))
    result("long integers: READ of INPUT", ran.stdout.decode() == shown and ran.returncode == 0,
           "%r and not %r %s" % (ran.stdout.decode()[max(0, same - 20):same + 20], shown[max(0, same - 20):same + 20], ran.stderr))
    numbers = [12345678901234567890, -5, 0, 10**36 - 1, 777]
    for kind in (0, -2): # INTERACTIVE, TEXT
        lines = ["LAO 200", "LAO 600", "LDCI %d" % kind, "CXP 0, 3", "LAO 200", 'LSA "IN.TEXT"', "SLDC 1", "LDCN", "CXP 0, 5", "CSP 0", "loop:"]
        lines += read_long(10, file="LAO 200") + ["CSP 0"] + write_long(A) + ["LOD 1, 3", "SLDC 44", "SLDC 0", "CXP 0, 17", "LAO 200", "CXP 0, 21"]
        lines += ["LAO 200", "SLDC 0", "SLDC 0", "CXP 0, 10", "FJP ^0"]
        files("new", "WORK", "100")
        files("puttext", "IN.TEXT", data="".join("   %d rest\n" % number for number in numbers).encode())
        put("READS", whole(lines, ["loop"]), [30])
        ran = run("READS")
        want = "".join("%d," % number for number in numbers) + ("0," if kind == 0 else "") # INTERACTIVE: EOF after the READ that finds it
        result("long integers: READ of a file, %d" % kind, ran.stdout.decode() == want and ran.returncode == 0, str(ran))


# TURTLEGRAPHICS
class Screen:
    """The picture that the page of the units defines: a set of white points."""
    def __init__(self):
        self.pictures, self.changed = [], False
        self.initturtle()

    def initturtle(self):
        self.white, self.changed = set(), False
        self.x, self.y, self.angle, self.pen, self.mode, self.port = 139, 95, 0, None, 10, (0, 279, 0, 191)

    def point(self, x, y, becomes):
        """becomes(old) is what a white or black point of the screen becomes."""
        left, right, bottom, top = self.port
        if left <= x <= right and bottom <= y <= top:
            self.changed = True
            (self.white.add if becomes((x, y) in self.white) else self.white.discard)((x, y))

    def ink(self, colour):
        """What a colour makes of a point; None leaves it."""
        return {0: None, 4: None, 2: lambda old: False, 5: lambda old: False, 9: lambda old: False,
                3: lambda old: not old}.get(colour, lambda old: True)

    def pencolor(self, colour):
        self.pen = self.ink(colour)

    def fillscreen(self, colour):
        ink, (left, right, bottom, top) = self.ink(colour), self.port
        for x in range(left, right + 1) if ink else []:
            for y in range(bottom, top + 1):
                self.point(x, y, ink)

    def viewport(self, *bounds):
        self.port = bounds

    def turnto(self, angle):
        self.angle = int(math.fmod(angle, 360)) % 360

    def turn(self, angle):
        self.turnto(self.angle + int(math.fmod(angle, 360)))

    def moveto(self, x, y):
        if self.pen:
            dx, dy = x - self.x, y - self.y
            steps = max(abs(dx), abs(dy))
            for n in range(steps + 1):
                part = [math.ceil(fractions.Fraction(n * abs(d), max(steps, 1)) - fractions.Fraction(1, 2)) for d in (dx, dy)]
                self.point(self.x + (part[0] if dx > 0 else -part[0]), self.y + (part[1] if dy > 0 else -part[1]), self.pen)
        self.x, self.y = x, y

    def move(self, distance):
        def along(angle):
            sine = 10000 * math.sin(math.radians(angle))
            sine = math.floor(abs(sine) + 0.5) * (1 if sine > 0 else -1)
            product = distance * sine
            return (abs(product) + 5000) // 10000 * (1 if product > 0 else -1)
        self.moveto(self.x + along(self.angle + 90), self.y + along(self.angle))

    def block(self, columns, rows, x, y, mode, source):
        for row in range(rows):
            for column in range(columns):
                bit = source(column, row)
                self.point(x + column, y + row, lambda old: mode >> (bit + 2 * old) & 1)

    def drawblock(self, data, size, xskip, yskip, width, height, x, y, mode):
        self.block(width, height, x, y, mode, lambda c, r: data[(yskip + r) * size + (xskip + c) // 8] >> (xskip + c) % 8 & 1)

    def wchar(self, code):
        columns = FONT.get(code, [0] * 5)
        self.block(7, 8, self.x, self.y, self.mode, lambda c, r: columns[c - 1] >> (7 - r) & 1 if 0 < c < 6 else 0)
        self.x += 7

    def chartype(self, mode):
        self.mode = mode

    def textmode(self):
        if self.changed:
            rows = []
            for y in range(191, -1, -1): # in a PBM 1 is black
                rows.append(bytes(sum(((8 * byte + bit, y) not in self.white) << 7 - bit for bit in range(8)) for byte in range(35)))
            self.pictures.append(b"P4\n280 192\n" + b"".join(rows))
            self.changed = False


def literal(data):
    return '"%s"' % "".join("\\%02x" % byte for byte in data)


def font():
    """The characters of the unit's text: five columns each, bit 0 at the top."""
    texts = re.findall(r'LPA  "(.*)" ?;? ?.*', source("units/turtlegraphics.text"))
    data = [re.sub(rb"\\([0-9a-f]{2})", lambda m: bytes([int(m[1], 16)]), text.encode()) for text in texts]
    low, high = [d for d in data if len(d) == 240][0], [d for d in data if len(d) == 235][0]
    return {32 + n: (low + high)[5 * n:5 * n + 5] for n in range(95)}


NUMBERS = {"initturtle": 2, "turn": 3, "turnto": 4, "move": 5, "moveto": 6, "pencolor": 7, "textmode": 8, "fillscreen": 10, "viewport": 11,
           "wchar": 17, "chartype": 19}
SHOW = ["SLDC 32", "SLDC 0", "CXP 0, 17"]


def function(number, *words):
    return ["LOD 1, 3"] + ["LDCI %d" % word for word in words] + ["SLDC 0", "SLDC 0", "CXP 20, %d" % number, "SLDC 0", "CXP 0, 13", "LOD 1, 3"] + SHOW


def drawing(number):
    """A program that draws, what it writes, and its screen."""
    chance = random.Random(number)
    screen, lines, shown = Screen(), ["CXP 20, 2"], ""

    def call(name, *words):
        lines.extend(["LDCI %d" % word for word in words] + ["CXP 20, %d" % NUMBERS[name]])
        getattr(screen, name)(*words)

    def place(most):
        return chance.choice([0, most, -1, most + 1, chance.randrange(most), chance.randrange(most), chance.randrange(-200, most + 200)])
    for _ in range(chance.choice([3, 20, 60])):
        what = chance.choice(["turn", "turnto", "move", "move", "move", "moveto", "moveto", "pencolor", "pencolor", "fillscreen", "viewport",
                              "wchar", "wstring", "chartype", "drawblock", "textmode", "functions", "initturtle"])
        if what in ("turn", "turnto"):
            call(what, chance.choice([0, 90, -90, 180, 360, 45, chance.randrange(-720, 720), 32767, -32768]))
        elif what == "move":
            call(what, chance.choice([0, 1, -1, 10, 50, 100, -100, chance.randrange(300), 1000]) if abs(screen.x) + abs(screen.y) < 3000 else 0)
        elif what == "moveto":
            call(what, place(279), place(191))
        elif what in ("pencolor", "fillscreen"):
            call(what, chance.choice([1, 3, chance.randrange(13)] if what == "pencolor" else [0, 0, 0, 3, chance.randrange(13)]))
        elif what == "viewport":
            left, right, low, high = sorted(chance.sample(range(280), 2)) + sorted(chance.sample(range(192), 2))
            call(what, *chance.choice([(0, 279, 0, 191), (left, right, low, high), (left, left, low, low)]))
        elif what == "wchar":
            call(what, chance.choice([chance.randrange(32, 127), chance.randrange(256)]))
        elif what == "wstring":
            text = bytes(chance.randrange(32, 127) for _ in range(chance.randrange(12)))
            lines.extend(["LSA " + literal(text), "CXP 20, 18"])
            for code in text:
                screen.wchar(code)
        elif what == "chartype":
            call(what, chance.choice([10, 6, 14, chance.randrange(16)]))
        elif what == "drawblock":
            size, rows = chance.randrange(1, 9), chance.randrange(1, 9)
            xskip, yskip = chance.randrange(8 * size), chance.randrange(rows)
            data = bytes(chance.randrange(256) for _ in range(size * rows))
            words = [size, xskip, yskip, chance.randrange(8 * size - xskip + 1), chance.randrange(rows - yskip + 1), place(279), place(191), chance.randrange(16)]
            lines.extend(["LPA " + literal(data)] + ["LDCI %d" % word for word in words] + ["CXP 20, 16"])
            screen.drawblock(data, *words)
        elif what == "functions":
            x, y = chance.randrange(280), chance.randrange(192)
            lines.extend(function(12) + function(13) + function(14) + function(15, x, y))
            shown += "%d %d %d %d " % (screen.x, screen.y, screen.angle, (x, y) in screen.white)
        else:
            call(what)
    return lines, shown, screen


def compared(name, ran, shown, screen):
    """Whether a run wrote these pictures and this text, and ended."""
    screen.textmode() # the end of the program
    with open(printer, "rb") as printed:
        have = printed.read()
    want, why = b"".join(screen.pictures), ""
    if have != want and len(have) == len(want):
        at = next(n for n in range(len(want)) if have[n] != want[n])
        why = "picture %d, byte %d" % (at // 6731, at % 6731)
    result(name, have == want and ran.stdout.decode() == shown and ran.returncode == 0,
           "%s; %d bytes and not %d; %r and not %r; %s" % (why, len(have), len(want), ran.stdout[-60:], shown[-60:], ran.stderr))


def turtle():
    for number in range(drawn):
        lines, shown, screen = drawing(number)
        files("new", "WORK", "100")
        put("DRAWS", whole(lines), [20])
        compared("picture %d" % number, run("DRAWS", "--printer", printer), shown, screen)
    screen = Screen()
    screen.pencolor(1)
    for i in range(1, 91):
        screen.move(2 * i)
        screen.turn(91)
    screen.pencolor(0)
    screen.moveto(4, 4)
    for code in b"SPIRAL":
        screen.wchar(code)
    files("new", "WORK", "100")
    put("SPIRAL", source("units/spiral.text"), [20])
    compared("the program SPIRAL", run("SPIRAL", "--printer", printer), "", screen)


def turtle_ends():
    """Where a program begins and ends: INITTURTLE in a procedure, EXIT(PROGRAM), none at all; the heap; errors."""
    square = sum((["SLDC 50", "CXP 20, 5", "SLDC 90", "CXP 20, 3"] for _ in range(4)), [])
    white = ["SLDC 1", "CXP 20, 7"]

    def screen(init=True):
        made = Screen()
        made.pencolor(1)
        for _ in range(4):
            made.move(50)
            made.turn(90)
        return made
    files("new", "WORK", "100")
    inner = ".PROC 2 1 0 0\nCXP 20, 2\n%s\n.EXIT\nRNP 0\n%s.END\n"
    for name, main, body in (
            ("INITTURTLE in a procedure", ["CLP 2"] + white + square, ""),
            ("all in a procedure", ["CLP 2", "LOD 1, 3", 'LSA ""', "SLDC 0", "CXP 0, 19"], "\n".join(white + square)),
            ("EXIT(PROGRAM) in a procedure", ["CLP 2"] + square, "\n".join(white + square + ["SLDC 1", "SLDC 1", "CSP 4"])),
            ("EXIT(PROGRAM) in the program", ["CLP 2"] + white + square + ["SLDC 1", "SLDC 1", "CSP 4"] + square, ""),
            ("no INITTURTLE", white + square, None),
            ("calls of the system before and behind", ["LOD 1, 3", 'LSA ""', "SLDC 0", "CXP 0, 19", "CXP 20, 2"] + white + square +
             ["LOD 1, 3", 'LSA ""', "SLDC 0", "CXP 0, 19"], None),
            ("NEW, MARK and RELEASE", ["LAO 10", "CSP 32", "CXP 20, 2"] + white + ["SLDC 50", "CXP 20, 5", "SLDC 90", "CXP 20, 3", "LAO 10", "CSP 33",
             "SLDC 50", "CXP 20, 5", "SLDC 90", "CXP 20, 3", "LAO 11", "LDCI 500", "CSP 1"] + square[8:], None),
            ("RELEASE and NEW before the next call", ["LAO 10", "CSP 32", "CXP 20, 2"] + white + square[:8] + ["LAO 10", "CSP 33", "LAO 11", "LDCI 300",
             "CSP 1", "LDO 11", "SLDC 0", "LDCI 600", "LDCI 255", "CSP 10"] + square[8:], None)):
        text = whole(main)
        if body is not None:
            for more in ("", "NOP\n"):
                made = text + inner % (body, more)
                if subprocess.run([program, "asm"], input=made.encode(), stdout=subprocess.PIPE, stderr=subprocess.PIPE).returncode == 0:
                    text = made
                    break
        put("ENDS", text, [20])
        compared("the end: " + name, run("ENDS", "--printer", printer), "", screen())
        files("remove", "ENDS")
    put("ENDS", whole(["CXP 20, 2", "CXP 20, 9", "CXP 20, 8", "CXP 20, 1"]), [20])
    compared("the end: nothing was drawn, no picture", run("ENDS", "--printer", printer), "", Screen())
    files("remove", "ENDS")
    for name, lines in (("pen 13", ["SLDC 13", "CXP 20, 7"]), ("pen -1", ["LDCI -1", "CXP 20, 7"]), ("FILLSCREEN(13)", ["SLDC 13", "CXP 20, 10"]),
                        ("a viewport to 280", ["SLDC 0", "LDCI 280", "SLDC 0", "SLDC 9", "CXP 20, 11"]),
                        ("a viewport to 192", ["SLDC 0", "LDCI 9", "SLDC 0", "LDCI 192", "CXP 20, 11"]),
                        ("a viewport from 9 to 8", ["SLDC 9", "SLDC 8", "SLDC 0", "SLDC 9", "CXP 20, 11"]),
                        ("a viewport from -1", ["LDCI -1", "SLDC 8", "SLDC 0", "SLDC 9", "CXP 20, 11"]),
                        ("SCREENBIT(280, 0)", ["LDCI 280", "SLDC 0", "SLDC 0", "SLDC 0", "CXP 20, 15"]),
                        ("SCREENBIT(0, -1)", ["SLDC 0", "LDCI -1", "SLDC 0", "SLDC 0", "CXP 20, 15"]),
                        ("MOVETO(8001, 0)", ["LDCI 8001", "SLDC 0", "CXP 20, 6"]), ("MOVETO(0, -8001)", ["SLDC 0", "LDCI -8001", "CXP 20, 6"]),
                        ("MOVE(16001)", ["LDCI 16001", "CXP 20, 5"]), ("CHARTYPE(16)", ["SLDC 16", "CXP 20, 19"]),
                        ("DRAWBLOCK of mode 16", ["LAO 10", "SLDC 1", "SLDC 0", "SLDC 0", "SLDC 8", "SLDC 1", "SLDC 0", "SLDC 0", "SLDC 16", "CXP 20, 16"]),
                        ("DRAWBLOCK of 281 columns", ["LAO 10", "SLDC 1", "SLDC 0", "SLDC 0", "LDCI 281", "SLDC 1", "SLDC 0", "SLDC 0", "SLDC 10", "CXP 20, 16"])):
        stops("turtle: " + name, ["CXP 20, 2"] + lines, [20], "error 1 ")
    stops("turtle: no space for the bitmap", ["LAO 10", "LDCI 26000", "CSP 1", "CXP 20, 2"], [20], "error 4 ")
    art = [".......", "..XXX..", ".X...X.", ".X...X.", ".X...X.", ".XXXXX.", ".X...X.", ".X...X."] # from 7 bits up: an A of seven rows
    put("ART", whole(["CXP 20, 2", "SLDC 0", "SLDC 0", "CXP 20, 6", "SLDC 65", "CXP 20, 17"]), [20])
    run("ART", "--printer", printer)
    with open(printer, "rb") as printed:
        rows = printed.read()[11:]
    have = ["".join(".X"[not rows[35 * (184 + row)] >> 7 - column & 1] for column in range(7)) for row in range(8)]
    result("turtle: the letter A", have == art[1:] + art[:1], str(have))


def pngs():
    """pictures.sh: the points of its PNG files are those of the pictures, among printed lines."""
    lines, shown, screen = drawing(2)
    while len(screen.pictures) < 2:
        lines, shown, screen = drawing(len(lines) + random.randrange(1000))
    screen.textmode()
    with open(printer, "wb") as printed:
        printed.write(b"P4\rA LINE\rP4\n280 193\n" + b"X".join(screen.pictures) + screen.pictures[0][:6000])
    script = [examples + "pictures.sh", printer, os.path.join(scratch, "a b-")]
    made = subprocess.run(script, stdout=subprocess.PIPE, stderr=subprocess.PIPE)
    names = made.stdout.decode().split("\n")[:-1]
    have = []
    for name in names:
        with open(name, "rb") as picture:
            data = picture.read()
        chunks, at = {}, 8
        while at < len(data):
            length, kind = int.from_bytes(data[at:at + 4], "big"), data[at + 4:at + 8]
            chunks[kind] = data[at + 8:at + 8 + length]
            good = zlib.crc32(kind + chunks[kind]) == int.from_bytes(data[at + 8 + length:at + 12 + length], "big")
            at += 12 + length if good else 1 << 40
        raw = zlib.decompress(chunks[b"IDAT"])
        rows = [raw[36 * row:36 * row + 36] for row in range(192)]
        if at == len(data) and len(raw) == 36 * 192 and not any(row[0] for row in rows) and list(chunks) == [b"IHDR", b"IDAT", b"IEND"]:
            have.append(b"P4\n280 192\n" + bytes(255 - byte for row in rows for byte in row[1:]))
    result("pictures.sh: the points", have == screen.pictures and made.returncode == 0 and chunks[b"IHDR"].hex() == "00000118000000c00100000000",
           "%d of %d, %s" % (len(have), len(screen.pictures), made.stderr))
    again = subprocess.run(script, stdout=subprocess.PIPE, stderr=subprocess.PIPE)
    result("pictures.sh: a file is not replaced", again.returncode == 4 and b"exists; it is unchanged" in again.stderr and not again.stdout, str(again))
    for name, words, status in (("no picture", [script[0], "x"], 2), ("no file", [image + "none", "x"], 2), ("no words", [], 1)):
        ran = subprocess.run(script[:1] + words, stdout=subprocess.PIPE, stderr=subprocess.PIPE)
        result("pictures.sh: " + name, ran.returncode == status and not ran.stdout, str(ran))


def script(name, *words, typed=b""):
    return subprocess.run([examples + name] + list(words), input=typed, env=dict(os.environ, PMACH=program), stdout=subprocess.PIPE, stderr=subprocess.PIPE)


def say(text):
    return ["LOD 1, 3", 'LSA "%s"' % text, "SLDC 0", "CXP 0, 19"]


def chains():
    """chain.sh: programs that follow each other, with the string, one standard input, and the volume of the disk."""
    write = ["LOD 1, 3", "LAO 10", "SLDC 0", "CXP 0, 19"]
    read = ["LOD 1, 2", "LAO 10", "SLDC 80", "CXP 0, 18", "LOD 1, 2", "CXP 0, 21"]
    get = ["LAO 10", "CXP 28, 4"]
    programs = {
        "FIRST": say("A") + read + ["CXP 28, 1", "CXP 28, 5", "LAO 10", "CXP 28, 3", 'LSA "second"', "CXP 28, 2", "CXP 28, 6"] + get + say("[") + write + say("]"),
        "SECOND.CODE": say("B") + get + write + read + write + ['LSA " work : THIRD. "', "CXP 28, 2"], # the string stays
        "THIRD": say("C") + get + write + ['LSA "%s"' % ("X" * 255), "CXP 28, 3", 'LSA "#4:FOURTH"', "CXP 28, 2"],
        "FOURTH": say("D") + get + write + ["LAO 200", "LDCN", "LDCI -1", "CXP 0, 3", "LAO 200", 'LSA "NEW.DATA[1]"', "SLDC 0", "LDCN", "CXP 0, 5",
                  "LAO 200", "SLDC 1", "CXP 0, 6"],
        "LOST": ['LSA "NOBODY"', "CXP 28, 2"],
        "ELSE": ['LSA "OTHER:FIRST"', "CXP 28, 2"],
        "FAILS": ['LSA "FIRST"', "CXP 28, 2", "SLDC 1", "SLDC 0", "DVI"],
        "ALONE": ['LSA "FIRST"', "CXP 28, 2", 'LSA "X"', "CXP 28, 3", "LAO 10", 'LSA "OLD"', "SAS 80"] + get + say("[") + write + say("]") + write_integer(["CSP 34"])}
    files("new", "WORK", "280")
    for name, lines in programs.items():
        put(name, whole(lines), [28])
    files("put", "SECOND", "data", data=b"no program")
    ran = script("chain.sh", image, "FIRST", "--quiet", typed=b"one\rtwo\rthree\r")
    listed = files("list").decode()
    result("chain.sh: four programs", ran.stdout == b"Aone\r[one]Bonetwo\rtwoConeD" + b"X" * 80 and ran.returncode == 0 and not ran.stderr, str(ran))
    result("chain.sh: what a program wrote is on the disk", "NEW.DATA" in listed, listed)
    with open(image, "rb") as disk:
        before = disk.read()
    for name, message, status in (("LOST", b"chain.sh: LOST is followed by NOBODY, but", 2), ("ELSE", b"chain.sh: ELSE is followed by OTHER:FIRST, which", 3),
                                  ("NONE", b"refused boot 1", 2), ("FAILS", b"error 6 ", 3)):
        ran = script("chain.sh", image, name)
        result("chain.sh: " + name, message in ran.stderr and ran.returncode == status and not ran.stdout, str(ran))
    ran = script("chain.sh", image, "FIRST", typed=b"one\r")
    result("chain.sh: the input ends", ran.returncode == 6 and ran.stdout == b"Aone\r[one]Bone", str(ran))
    ran = run("ALONE")
    with open(image, "rb") as disk:
        result("chainstuff: without chain.sh nothing happens", ran.stdout == b"[]0" and ran.returncode == 0 and disk.read() == before, str(ran))
    ran = script("chain.sh")
    result("chain.sh: no words", ran.returncode == 1 and ran.stderr.startswith(b"usage:"), str(ran))


def clocks():
    """with-clock.sh: TIME in two segments and in RANDOMIZE; a loop that waits; what is rejected."""
    time = ["LAO 10", "LAO 11", "CSP 9"]
    low, high = write_integer(["LDO 11"]), write_integer(["LDO 10"])
    blank = ["LOD 1, 3"] + SHOW
    main = time + high + blank + low + blank + ["CXP 2, 1"] + low + blank + ["loop:"] + time + ["LDO 11", "LDCI 300", "GRTI", "FJP ^0"] + low + blank
    main += ["LDCI 1008", "LDCI -2", "STO"] + time + high + low + blank + time + high + low + blank + time + high + low
    # a jump over the call by a table, and one over the end of the segment's first procedure, keep their targets
    text = whole(main + ["CLP 2"], ["loop"]) + ".PROC 2 1 0 0\nUJP ^0\nback: NOP\n.EXIT\nRNP 0\nNOP\non: LAO 10\nLAO 11\nCSP 9\nUJP ^1\nNOP\n.JUMP on\n.JUMP back\n.END\n"
    text = text.replace("LAO 10\nLAO 11\nCSP 9\nUJP ^1\nNOP\n", "LAO 10\nLAO 11\nCSP 9\nUJP ^1\n")
    for more in ("", "NOP\n"):
        made = text.replace("UJP ^1\n", "UJP ^1\n" + more)
        made += ".SEG 2 TWO\n.PROC 1 1 0 0\nLDA 1, 10\nLDA 1, 11\nCSP 9\n.EXIT\nRNP 0\n.END\n.SEG 3 THREE\n.PROC 1 1 0 0\n.EXIT\nRNP 0\n.END\n"
        code = subprocess.run([program, "asm"], input=made.encode(), stdout=subprocess.PIPE, stderr=subprocess.PIPE)
        if code.returncode == 0:
            break
    shown = b"0 1 2 301 0-1 10 11"
    files("new", "WORK", "100")
    files("put", "TIMES", "code", data=code.stdout)
    files("put", "DATA", "data", data=b"x")
    files("put", "NOTIME", "code", data=subprocess.run([program, "asm"], input=whole(say("X")).encode(), stdout=subprocess.PIPE, check=True).stdout)
    many = ".SEG 1 A\n" + "".join(".PROC %d 0 0 0\nCSP 9\n.EXIT\nRBP 0\n.END\n" % n for n in range(1, 256))
    files("put", "MANY", "code", data=subprocess.run([program, "asm"], input=many.encode(), stdout=subprocess.PIPE, check=True).stdout)
    with open(image, "rb") as disk:
        before = disk.read()
    for name, status, message in (("NONE", 2, b"has no file NONE"), ("DATA", 2, b"has kind data"), ("NOTIME", 3, b"NOTIME does not execute TIME"),
                                  ("MANY", 3, b"a segment of MANY has no free procedure number")):
        ran = script("with-clock.sh", image, name)
        result("with-clock.sh: " + name, ran.returncode == status and message in ran.stderr, str(ran))
    with open(image, "rb") as disk:
        result("with-clock.sh: nothing changed", disk.read() == before)
    ran = script("with-clock.sh", image, "TIMES")
    result("with-clock.sh: TIMES", ran.returncode == 0 and not ran.stderr, str(ran))
    after = subprocess.run([program, "dis"], input=files("get", "TIMES"), stdout=subprocess.PIPE).stdout.decode()
    result("with-clock.sh: one procedure more in two segments", re.findall(r"\.SEG \d+ \w+|\.PROC \d+|CSP 9|CGP \d+", after) ==
           [".SEG 1 CASES", ".PROC 1"] + ["CGP 3"] * 5 + [".PROC 2", "CGP 3", ".PROC 3", ".SEG 2 TWO", ".PROC 1", "CGP 2", ".PROC 2", ".SEG 3 THREE", ".PROC 1"], after)
    ran = script("with-clock.sh", image, "TIMES")
    result("with-clock.sh: not twice", ran.returncode == 3, str(ran))
    system = os.path.join(scratch, "system.code")
    with open(system, "wb") as out:
        subprocess.run([program, "asm"], input=source("system/system.text").encode(), stdout=out, check=True)
    for again in ("", ", again the same"):
        ran = run("TIMES", "--system", system)
        result("with-clock.sh: the times" + again, ran.stdout == shown and ran.returncode == 0, str(ran))

    seed, random_bytes = 1, []
    for _ in range(2):
        seed = (seed * 25173 + 13849) % 65536
        random_bytes.append(seed >> 8)
    lines = ["CXP 22, 7", "LOD 1, 3", "SLDC 0", "SLDC 0", "CXP 22, 6", "SLDC 0", "CXP 0, 13"]
    files("put", "RANDOMS", "code", data=subprocess.run([program, "asm"], input=whole(lines).encode(), stdout=subprocess.PIPE, check=True).stdout)
    made = [script("with-units.sh", image, "RANDOMS").returncode, script("with-clock.sh", image, "RANDOMS").returncode]
    ran = run("RANDOMS", "--system", system)
    result("with-clock.sh: RANDOMIZE", made == [0, 0] and ran.stdout.decode() == str(random_bytes[1] % 128 * 256 + random_bytes[0]), "%s %s" % (made, ran))


def by_script(name, lines, segments, shown, jumps=(), typed=b""):
    """A program that with-units.sh and with-system.sh make, then the same with --system."""
    code = subprocess.run([program, "asm"], input=whole(lines, jumps).encode(), stdout=subprocess.PIPE, check=True).stdout
    files("new", "WORK", "100")
    files("put", "CASES", "code", data=code)
    with_units = subprocess.run([examples + "with-units.sh", image, "CASES"], env=dict(os.environ, PMACH=program), stderr=subprocess.PIPE)
    system = os.path.join(scratch, "system.code")
    with open(system, "wb") as out:
        subprocess.run([program, "asm"], input=source("system/system.text").encode(), stdout=out, check=True)
    listed = re.findall(r"(?m)^\.SEG \d+ (\w+)", subprocess.run([program, "dis"], input=files("get", "CASES"), stdout=subprocess.PIPE).stdout.decode())
    ran = run("CASES", "--system", system, typed=typed)
    result(name, with_units.returncode == 0 and listed == ["CASES"] + segments and ran.stdout == shown and ran.returncode == 0,
           "%s %s %s %s" % (with_units.stderr, listed, ran.stdout, ran.stderr))


with tempfile.TemporaryDirectory() as scratch:
    image, printer = os.path.join(scratch, "image"), os.path.join(scratch, "printer")
    FONT = font()
    longs()
    long_errors()
    long_reads()
    turtle()
    turtle_ends()
    pngs()
    chains()
    clocks()
    by_script("with-units.sh: LONGINTIO", ["CXP 30, 1"] + write_long(constant(123456789) + constant(1000) + decops(8)), ["LONGINTI"], b"123456789000")
    by_script("with-units.sh: TURTLEGRAPHICS", ["CXP 20, 2", "SLDC 1", "CXP 20, 7", "SLDC 5", "CXP 20, 5"] + function(12), ["TURTLEGR"], b"144 ")
    print("%d passed, %d failed" % (passed, failed))
    sys.exit(failed > 0)
