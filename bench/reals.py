"""reals.py PMACH [COUNT [SEED]]: with-reals.sh and the unit REALS, against a model in Python.

The model computes with fractions, and rounds to IEEE 754 binary32 by itself. A program with every instruction for reals
reads COUNT lines (10,000) of an operation and operands as bytes, and writes each result as bytes. with-reals.sh changes the
program. The operands are random bits, numbers near each other, and the numbers at which a rule changes. Then come the
errors, each in a run of its own; programs with code as the compiler is remembered to emit it; and what the script rejects."""
import fractions
import itertools
import math
import os
import random
import re
import subprocess
import sys
import tempfile

program = os.path.abspath(sys.argv[1])
count = int(sys.argv[2]) if len(sys.argv) > 2 else 10000
seed = int(sys.argv[3]) if len(sys.argv) > 3 else 1
examples = os.path.dirname(os.path.abspath(__file__)) + "/../examples/"
Fraction = fractions.Fraction
passed = failed = 0


def result(name, good, why=""):
    global passed, failed
    print("passed: " + name if good else "FAILED: %s %s" % (name, why))
    passed, failed = passed + good, failed + (not good)


# The model: a real is a number of 32 bits. Nothing is an error.
def value(bits):
    """The value of a real, or nothing if it is infinite or no number."""
    exponent, fraction = bits >> 23 & 255, bits & 0x7FFFFF
    if exponent == 255:
        return None
    size = Fraction(fraction + (exponent > 0) * 2**23) * Fraction(2)**(max(exponent, 1) - 150)
    return -size if bits >> 31 else size


def nearest(exact, minus):
    """The real nearest to a fraction; the sign of a zero is given; nothing where it is too great."""
    sign, size = (exact < 0) or (exact == 0 and minus), abs(exact)
    if size == 0:
        return sign << 31
    exponent = 1 # the least one whose 24 bits hold the number
    low, high = 1, 400
    while low < high:
        exponent = (low + high) // 2
        if size < Fraction(2)**(exponent - 126):
            high = exponent
        else:
            low = exponent + 1
    exponent = low
    units = size / Fraction(2)**(exponent - 150)
    whole = math.floor(units)
    rest = units - whole
    if rest > Fraction(1, 2) or rest == Fraction(1, 2) and whole % 2:
        whole += 1
    bits = ((exponent - 1) << 23) + whole
    return bits | sign << 31 if bits < 0x7F800000 else None


def integer(exact, half):
    """TRUNC or ROUND, a half away from zero; nothing where it is too great."""
    size = math.floor(abs(exact) + (Fraction(1, 2) if half else 0))
    whole = -size if exact < 0 else size
    return whole % 65536 if -32768 <= whole <= 32767 else None


def root(bits):
    exact = value(bits)
    if exact == 0:
        return bits
    if exact < 0:
        return None
    scale = 4**100
    floor = math.isqrt(exact.numerator * exact.denominator * scale * scale)
    # the root is floor / (denominator * scale), or a little more: never half way between two reals unless it is exact
    exactly = floor * floor == exact.numerator * exact.denominator * scale * scale
    return nearest(Fraction(2 * floor + (not exactly), 2 * exact.denominator * scale), False)


def sum_of(a, b):
    x, y = value(a), value(b)
    return nearest(x + y, a >> 31 and b >> 31)


def signs(a, b):
    return a >> 31 != b >> 31


def less(a, b):
    return value(a) < value(b)


# name: what its operands are (r a real, i an integer), and the model. All results are tuples of words; a real is its high and its low word.
def real(bits):
    return None if bits is None else [bits & 65535, bits >> 16] # as they are pushed: the high word is on top


def word(number):
    return None if number is None else [int(number)]


def signed(i):
    return i - 65536 if i > 32767 else i


MODEL = {
    "ADR": ("rr", lambda a, b: real(sum_of(a, b))),
    "SBR": ("rr", lambda a, b: real(sum_of(a, b ^ 1 << 31))),
    "MPR": ("rr", lambda a, b: real(nearest(value(a) * value(b), signs(a, b)))),
    "DVR": ("rr", lambda a, b: real(nearest(value(a) / value(b), signs(a, b))) if value(b) else None),
    "FLT": ("i", lambda i: real(nearest(Fraction(signed(i)), False))),
    "FLO": ("ir", lambda i, a: real(nearest(Fraction(signed(i)), False)) + real(a)),
    "CSP 23": ("r", lambda a: word(integer(value(a), False))),
    "CSP 24": ("r", lambda a: word(integer(value(a), True))),
    "ABR": ("r", lambda a: real(a & 0x7FFFFFFF)),
    "NGR": ("r", lambda a: real(a ^ 0x80000000)),
    "SQR": ("r", lambda a: real(nearest(value(a)**2, False))),
    "EQU REAL": ("rr", lambda a, b: word(value(a) == value(b))),
    "NEQ REAL": ("rr", lambda a, b: word(value(a) != value(b))),
    "LES REAL": ("rr", lambda a, b: word(value(a) < value(b))),
    "LEQ REAL": ("rr", lambda a, b: word(value(a) <= value(b))),
    "GRT REAL": ("rr", lambda a, b: word(value(a) > value(b))),
    "GEQ REAL": ("rr", lambda a, b: word(value(a) >= value(b))),
    "CSP 31": ("r", lambda a: real(root(a)) if root(a) is not None else None),
}
SPECIAL = [0, 1, 2, 3, 0x7FFFFF, 0x7FFFFE, 0x800000, 0x800001, 0xFFFFFF, 0x1000000, 0x3F800000, 0x3F800001, 0x3F7FFFFF, 0x40000000,
           0x3F000000, 0x3EFFFFFF, 0x3F000001, 0x3FC00000, 0x40200000, 0x46FFFE00, 0x46FFFF00, 0x46FFFEFF, 0x46FFFF01, 0x47000000,
           0x47000080, 0x4700007F, 0x470000FF, 0x47000100, 0x47800000, 0x7F7FFFFF, 0x7F7FFFFE, 0x7F000000, 0x7E800000, 0x33800000,
           0x34000000, 0x4B000000, 0x4B800000, 0x4B7FFFFF, 0x20000000, 0x1FFFFFFF, 0x5F000000, 0x00400000, 0x3DCCCCCD, 0x41200000]


def some(chance, near=None):
    """A real that is neither infinite nor no number."""
    while True:
        kind = chance.randrange(8)
        if kind < 2:
            bits = chance.choice(SPECIAL) | chance.randrange(2) << 31
        elif kind == 2:
            bits = chance.randrange(1 << 32)
        elif kind < 5 and near is not None: # an exponent near the other one
            bits = chance.randrange(1 << 23) | max(0, min(254, (near >> 23 & 255) + chance.randrange(-27, 28))) << 23 | chance.randrange(2) << 31
        elif kind == 5 and near is not None: # nearly the other one
            bits = (near ^ chance.choice([0, 0, 1 << 31]) ^ chance.choice([0, 0, 1 << chance.randrange(32)])) + chance.choice([0, 0, 1, -1]) & 0xFFFFFFFF
        elif kind == 6: # few bits
            bits = chance.randrange(1 << 9) << 23 | sum(1 << chance.randrange(23) for _ in range(chance.randrange(4))) & 0x7FFFFF
        else: # of the size of everyday numbers
            bits = chance.randrange(1 << 23) | chance.randrange(100, 150) << 23 | chance.randrange(2) << 31
        if bits >> 23 & 255 != 255:
            return bits


def operands(chance, name):
    made = []
    for kind in MODEL[name][0]:
        if kind == "i":
            made.append(chance.choice([0, 1, 65535, 32767, 32768, 32769, 256, chance.randrange(65536), chance.randrange(65536), chance.randrange(100)]))
        elif name in ("CSP 23", "CSP 24") and chance.randrange(3):
            made.append(chance.randrange(1 << 23) | chance.randrange(120, 143) << 23 | chance.randrange(2) << 31)
            if not chance.randrange(3): # a half
                made[-1] = nearest(Fraction(chance.randrange(-65538, 65538), 2), False)
        elif name == "CSP 31" and chance.randrange(5):
            made.append(some(chance) & 0x7FFFFFFF)
            if not chance.randrange(4): # a square, or nearly
                made[-1] = min(0x7F7FFFFF, max(0, nearest(Fraction(chance.randrange(1, 5000))**2, False) + chance.randrange(-1, 2)))
        else:
            made.append(some(chance, made[-1] if made and MODEL[name][0][len(made) - 1] == "r" else None))
    return made


def words_of(name, values):
    """The operands as words, in the order in which they are pushed."""
    words = []
    for kind, bits in zip(MODEL[name][0], values):
        words += [bits] if kind == "i" else real(bits)
    return words


# Programs
def files(*words, data=b"", disk=None):
    return subprocess.run([program, "files", "--image", disk or image] + list(words), input=data, stdout=subprocess.PIPE, check=True).stdout


def source(path):
    with open(examples + path, encoding="ascii") as text:
        return text.read()


def assembled(text):
    return subprocess.run([program, "asm"], input=text.encode(), stdout=subprocess.PIPE, stderr=subprocess.PIPE)


def whole(lines, jumps=(), rest="", globals=4000, name="CASES"):
    """The code of a program of straight code, with a NOP where its length is odd."""
    text = ".SEG 1 %s\n.PROC 1 0 4 %d\n%s\n.EXIT\nRBP 0\n" % (name, globals, "\n".join(lines))
    end = "".join(".JUMP %s\n" % label for label in jumps) + ".END\n" + rest
    for more in ("", "NOP\n"):
        code = assembled(text + more + end)
        if code.returncode == 0:
            return code.stdout
    raise ValueError(code.stderr)


def put(name, code):
    files("new", "WORK", "200")
    files("put", name, "code", data=code)


def run(name, *words, typed=b""):
    return subprocess.run([program, "run", "--unlimited", "--d4", image, *words, "--", name], input=typed, stdout=subprocess.PIPE, stderr=subprocess.PIPE)


def script(*words):
    return subprocess.run([examples + "with-reals.sh"] + list(words), env=dict(os.environ, PMACH=program), stdout=subprocess.PIPE, stderr=subprocess.PIPE)


def push(words):
    return ["LDCI %d" % w for w in words]


def calculator(operations):
    """A program that reads the number of an operation and its operands as bytes without an echo, and writes the results. Each
    operation has its items, and the numbers of words of its operands and results."""
    lines, jumps = ["loop:", "SLDC 2", "LAO 10", "SLDC 0", "SLDC 2", "SLDC 0", "SLDC 0", "CSP 5", "LDO 10", "SLDC 0", "NFJ ^1"], ["loop", "quit"]
    for number, (code, ins, outs) in enumerate(operations, 1):
        jumps.append("not%d" % number)
        lines += ["LDO 10", "SLDC %d" % number, "EFJ ^%d" % (len(jumps) - 1)]
        lines += ["SLDC 2", "LAO 11", "SLDC 0", "SLDC %d" % (2 * ins), "SLDC 0", "SLDC 0", "CSP 5"]
        lines += ["LDO %d" % (11 + i) for i in range(ins)] + code + ["SRO %d" % (20 + outs - 1 - i) for i in range(outs)]
        lines += ["SLDC 1", "LAO 20", "SLDC 0", "SLDC %d" % (2 * outs), "SLDC 0", "SLDC 0", "CSP 6", "UJP ^0", "not%d:" % number]
    return whole(lines + ["UJP ^0", "quit:"], jumps)


RESULTS = {name: 1 if name.endswith("REAL") or name in ("CSP 23", "CSP 24") else 4 if name == "FLO" else 2 for name in MODEL}


def halves(words, kinds, low):
    """With --low the two words of each real change places."""
    if not low:
        return words
    out, at = [], 0
    for kind in kinds:
        out += words[at:at + 1] if kind == "i" else words[at:at + 2][::-1]
        at += 1 if kind == "i" else 2
    return out


def kinds_of_result(name):
    return "i" if RESULTS[name] == 1 else "rr" if RESULTS[name] == 4 else "r"


def operations(low):
    chance = random.Random(seed)
    put("CALC", calculator([([name], sum(1 if kind == "i" else 2 for kind in MODEL[name][0]), RESULTS[name]) for name in MODEL]))
    made = script(*(["--low"] if low else []), image, "CALC")
    result("the calculator is changed" + low * ", --low", made.returncode == 0 and not made.stderr, str(made))
    per = max(1, count // len(MODEL))
    for number, name in enumerate(MODEL, 1):
        cases = []
        while len(cases) < per:
            values = operands(chance, name)
            want = MODEL[name][1](*values)
            if want is not None:
                cases.append((values, want))
        typed = b"".join(b"".join(w.to_bytes(2, "little") for w in [number] + halves(words_of(name, values), MODEL[name][0], low)) for values, _ in cases) + b"\0\0"
        ran = run("CALC", typed=typed)
        size = 2 * RESULTS[name]
        have = [ran.stdout[at:at + size] for at in range(0, len(ran.stdout), size)]
        want = [b"".join(w.to_bytes(2, "little") for w in halves(words, kinds_of_result(name), low)) for _, words in cases]
        wrong = [(["%08x" % v for v in case[0]], w.hex(), h.hex()) for case, w, h in zip(cases, want, have) if w != h]
        result("%d of %s%s" % (per, name, low * ", --low"), have == want and ran.returncode == 0,
               "%d wrong: %s; %d results; %s" % (len(wrong), wrong[:3], len(have), ran.stderr))


# Functions: the items, the function, its operands, and the error that is permitted, in units of the last place of the result
FUNCTIONS = {
    "SIN": (["CSP 25"], 2, math.sin, "angle", 3), "COS": (["CSP 26"], 3, math.cos, "angle", 3), "LOG": (["CSP 27"], 7, math.log10, "positive", 3),
    "ATAN": (["CSP 28"], 5, math.atan, "any", 3), "LN": (["CSP 29"], 6, math.log, "positive", 1), "EXP": (["CSP 30"], 4, math.exp, "power", 1),
    "SQRT": (["CSP 31"], 8, math.sqrt, "positive", 0.501)}


def argument(chance, kind):
    while True:
        bits = some(chance)
        x = float(value(bits))
        if kind == "angle":
            bits = nearest(Fraction(chance.choice([x, chance.uniform(-10, 10), chance.uniform(-51000, 51000), chance.randrange(-30, 30) * math.pi / 4])), False)
            if abs(value(bits)) < 51000:
                return bits
        elif kind == "power":
            bits = nearest(Fraction(chance.choice([x, chance.uniform(-3, 3), chance.uniform(-105, 89), chance.randrange(-80, 80) * math.log(2)])), False)
            if -104 < value(bits) < Fraction(887228, 10000):
                return bits
        elif kind == "any" or kind == "positive" and bits not in (0, 1 << 31):
            if kind == "positive" and not chance.randrange(3): # near 1
                bits = nearest(Fraction(chance.uniform(0.5, 2)), False)
            return bits & 0x7FFFFFFF if kind == "positive" else bits


def functions():
    chance, names = random.Random(seed + 2), list(FUNCTIONS)
    forms = [(FUNCTIONS[name][0], 2, 2) for name in names] + [(["SLDC 0", "SLDC 0", "CXP 29, %d" % FUNCTIONS[name][1]], 2, 2) for name in names]
    put("CALC", calculator(forms + [(["CXP 29, 1", "CSP 36", "SLDC 0"], 1, 3)]))
    made = script(image, "CALC")
    for number, name in enumerate(names, 1):
        _, _, exact, kind, bound = FUNCTIONS[name]
        cases = [argument(chance, kind) for _ in range(max(1, count // 20))]
        typed = [b"".join(w.to_bytes(2, "little") for bits in cases for w in [form] + real(bits)) + b"\0\0" for form in (number, number + len(names))]
        ran = [run("CALC", typed=data) for data in typed]
        have = [int.from_bytes(ran[0].stdout[at:at + 4], "little") for at in range(0, len(ran[0].stdout), 4)]
        worst = (Fraction(0), 0)
        for bits, shown in zip(cases, have):
            want = Fraction(exact(float(value(bits))))
            unit = Fraction(2)**(max((nearest(want, False) >> 23) & 255, 1) - 150)
            worst = max(worst, (abs(value(shown) - want) / unit, bits))
        result("%d of %s: the greatest error is %.2f units" % (len(cases), name, worst[0]),
               len(have) == len(cases) and worst[0] <= bound and ran[0].stdout == ran[1].stdout and ran[1].returncode == 0 and made.returncode == 0,
               "of %08x, %g; %d results; %s" % (worst[1], value(worst[1]), len(have), ran[1].stderr))
    ran = run("CALC", typed=b"".join(bytes([2 * len(names) + 1, 0, n, 0]) for n in range(39)) + b"\0\0")
    want = b"".join(nearest(Fraction(10)**n, False).to_bytes(4, "little") + b"\0\0" for n in range(39))
    result("the powers of ten", ran.stdout == want, "%s %s" % (ran.stdout.hex(), want.hex()))


# WRITE and READ
def written(bits, width, places):
    """What WRITE(X: width: places) writes, as the page of the units states."""
    if width < 0 or places < 0:
        width = places = 0
    places, exact = min(places, 60), abs(value(bits))
    exponent = 0
    if exact:
        exponent = math.floor(math.log10(exact.numerator) - math.log10(exact.denominator))
        exponent += (exact >= Fraction(10)**(exponent + 1)) - (exact < Fraction(10)**exponent)
    digits = 6 if places == 0 or places + exponent + 1 > 6 else places + exponent + 1
    unit = Fraction(10)**(exponent + 1 - digits) # of the last digit that is written
    number = math.floor(exact / unit + Fraction(1, 2)) if digits >= 0 else 0
    rounded = number * unit
    exponent = 0 if rounded == 0 else exponent + (rounded >= Fraction(10)**(exponent + 1))
    six = "%06d" % (rounded / Fraction(10)**(exponent - 5))
    sign = "-" if value(bits) < 0 else " "
    if places and exponent < 6:
        shown = six[:exponent + 1] if exponent >= 0 else "0"
        after = (six[exponent + 1:] if exponent >= 0 else "0" * (-exponent - 1) + six) + " " * 60
        text = sign + shown + "." + after[:places]
    else:
        text = sign + six[0] + "." + six[1:] + ("E%d" % exponent if exponent else "")
    return text.rjust(width)


def writes():
    chance = random.Random(seed + 3)
    lines = ["loop:", "SLDC 2", "LAO 10", "SLDC 0", "SLDC 10", "SLDC 0", "SLDC 0", "CSP 5", "LDO 10", "SLDC 0", "NFJ quit"]
    lines += ["LOD 1, 3", "LDO 11", "LDO 12", "LDO 13", "LDO 14", "CXP %s", "CSP 0", "LOD 1, 3", "CXP 0, 22", "UJP ^0", "quit:"]
    cases = [(0x3F800000, 0, 0), (0xBF800000, 0, 0), (0, 0, 0), (1 << 31, 0, 2), (0x40490FDB, 10, 2), (0x40490FDB, 12, 9), (0x3F000000, 0, 1),
             (0x3DCCCCCD, 0, 1), (0x3D4CCCCD, 0, 1), (0x3D4CCCCC, 0, 1), (0x497423F8, 0, 1), (0x497423F7, 0, 1), (0x49742400, 9, 3), (0x7F7FFFFF, 0, 0),
             (1, 0, 0), (1, 3, 60), (1, 3, 61), (0x80000001, 80, 50), (0x3F7FFFFF, 0, 0), (0x3F7FFFFF, 0, 6), (0x3F7FFFFF, 0, 7), (0xBA83126F, 0, 2)]
    while len(cases) < max(100, count // 20):
        bits = chance.choice([some(chance), chance.randrange(1 << 23) | chance.randrange(105, 152) << 23 | chance.randrange(2) << 31,
                              nearest(Fraction(chance.randrange(-10**6, 10**6), chance.choice([1, 2, 4, 8, 16, 10, 100, 1000])), False)])
        cases.append((bits, chance.choice([0, 0, 1, 8, 12, 40, -1]), chance.choice([0, 0, 0, 1, 2, 2, 3, 5, 8, 12, 60, -1])))
    typed = b"".join(b"".join((w % 65536).to_bytes(2, "little") for w in [1] + real(bits) + [width, places]) for bits, width, places in cases) + b"\0" * 10
    want = [written(*case) for case in cases]
    for call in ("0, 15", "31, 4"):
        put("WRITES", whole([line.replace("%s", call) for line in lines], ["loop"]))
        made = script(image, "WRITES")
        ran = run("WRITES", "--system", system, typed=typed)
        have = ran.stdout.decode().split("\r")[:-1]
        wrong = [("%08x" % case[0], float(value(case[0])), case[1:], h, w) for case, h, w in zip(cases, have, want) if h != w]
        result("%d reals written, CXP %s" % (len(cases), call), have == want and ran.returncode == 0 and made.returncode == 0,
               "%d wrong: %s; %d written; %s" % (len(wrong), wrong[:4], len(have), ran.stderr))


def reads():
    chance = random.Random(seed + 4)
    cases = ["0", "-0", "1", "-1", "+1", "1.", "1.5", "-1.5E3", "1e-45", "7.0E-46", "7.1E-46", "3.4028235E38", "3.40282356E38", "16777217", "16777219",
             "16777217.00000000000000000000000000000000000000000000001", "16777216.99999999999999999999999999999999999999999999999", "0.1", "1E38", "0E99",
             "0.0000000000000000000000000000000000000000000000000000000000000000001E60", "1E-200", "1E-1000", "1E-99999", "0" * 72, "1" + "0" * 38, "00012.50E+01"]
    while len(cases) < max(100, count // 40):
        kind = chance.randrange(4)
        if kind == 0: # half way between two reals, or next to it
            bits = chance.randrange(1, 0x7F7FFFFF) if chance.randrange(2) else chance.randrange(0x38000000, 0x4A000000)
            half = (value(bits) + value(bits + 1)) / 2 if bits < 0x7F7FFFFF else value(bits)
            digits = chance.choice([9, 20, 60])
            exponent = math.floor(math.log10(float(half))) if half > Fraction(1, 10**44) else -45
            number = math.floor(half / Fraction(10)**(exponent - digits + 1)) + chance.randrange(-1, 2)
            text = "%d.%sE%d" % (number // 10**(digits - 1), str(number % 10**(digits - 1)).zfill(digits - 1), exponent)
        elif kind == 1:
            text = "%.*f" % (chance.randrange(8), chance.uniform(-1000, 1000))
        elif kind == 2:
            text = "%d" % chance.choice([chance.randrange(-100, 100), chance.randrange(-10**9, 10**9)])
        else:
            text = "%.*E" % (chance.randrange(10), float(value(some(chance))))
        bits = nearest(Fraction(text), False)
        if len(text) <= 72 and bits is not None:
            cases.append(chance.choice(["", "", " ", "   "]) + text)
    lines = ["loop:", "LOD 1, 2", "LAO 10", "CXP %s", "CSP 34", "SRO 12", "SLDC 1", "LAO 10", "SLDC 0", "SLDC 6", "SLDC 0", "SLDC 0", "CSP 6",
             "LOD 1, 2", "CXP 0, 21", "LOD 1, 2", "SLDC 0", "SLDC 0", "CXP 0, 10", "FJP ^0"]
    lines = ["LOD 1, 3", 'LSA ""', "SLDC 0", "CXP 0, 19"] + lines # sets INPUT
    bad = ["-", "X", "1E", "1E-", "1E+X", ".5", "+-1", "0" * 73]
    ends = {"1.5.2": "1.5", "1E5E2": "1E5", "1E5.2": "1E5", "1.5E2.5": "1.5E2", "2-3": "2", "2+3": "2", "1.E5X": "1.E5", "1E+5-3": "1E+5", "7X": "7",
            "1.E5e": "1.E5", "1..2": "1.", "6 7": "6"} # a character that cannot follow ends the number

    def shown(text, error):
        bits = 0 if error else nearest(Fraction(ends.get(text, text)), text.strip()[0] == "-")
        return (bits >> 16).to_bytes(2, "little") + (bits & 65535).to_bytes(2, "little") + bytes([error, 0])
    # the console shows what was typed
    typed = "".join(text + "\r" for text in cases + bad + list(ends))
    for call in ("0, 14", "31, 3"):
        put("READS", whole([line.replace("%s", call) for line in lines], ["loop"]))
        made = script(image, "READS")
        ran = run("READS", "--system", system, typed=typed.encode() + b"\x1a")
        at, wrong = 0, []
        for text in cases + bad + list(ends):
            # the character after the number is read, and shown, before the number is known
            want = shown(text, 3 if text in bad else 0)
            end = ran.stdout.find(want, at)
            if end < 0 or end > at + len(text) + 1:
                wrong.append((text, ran.stdout[at:at + 90]))
                break
            at = end + 6
            at += ran.stdout[at:].find(b"\r") + 1 if ran.stdout[at - 7:at - 6] != b"\r" else 0
        result("%d reals read, CXP %s" % (len(cases), call), not wrong and made.returncode == 0 and ran.returncode == 0, "%s %s" % (wrong[:2], ran.stderr))


def read_cases():
    """READ with deleted characters, at the end, of a text on a disk, of a file that is not open, and of a number that is too great."""
    def shown(bits):
        return bits.to_bytes(4, "little").hex()
    show = ["LDO 10", "LDO 11", "SRO 10", "SRO 11", "SLDC 1", "LAO 10", "SLDC 0", "SLDC 4", "SLDC 0", "SLDC 0", "CSP 6"] # the low word first
    first = ["LOD 1, 3", 'LSA ""', "SLDC 0", "CXP 0, 19"]
    error = ["LOD 1, 3", "CSP 34", "SLDC 0", "CXP 0, 13"]
    set_one = push(real(0x3F800000)) + ["SRO 10", "SRO 11"]
    read = ["LOD 1, 4", "LAO 10", "CXP 0, 14"] + error
    loop = ["loop:"] + ["LAO 200", "LAO 10", "CXP 0, 14"] + error + show + ["LAO 200", "CXP 0, 21", "LAO 200", "SLDC 0", "SLDC 0", "CXP 0, 10", "FJP ^0"]
    opened = ["LAO 200", "LAO 600", "LDCI -2", "CXP 0, 3", "LAO 200", 'LSA "IN.TEXT"', "SLDC 1", "LDCN", "CXP 0, 5", "CSP 0"]
    for name, lines, jumps, typed, want in (
            ("deleted characters", first + ["LOD 1, 2", "LAO 10", "CXP 0, 14"] + error + show, [], b"12\b.5E\x7f7\x18-2.5E1\r",
             b"12\b \b.5E\x7f".replace(b"\x7f", b"\x7f\b \b") + b"7\x18" + b"\b \b" * 4 + b"-2.5E1\r" + b"0" + bytes.fromhex(shown(single(-25)))),
            ("no number at the end of the input", first + set_one + read + show, [], b"\x1a", b"0" + bytes(4)),
            ("a file that is not open", set_one + ["LAO 200", "LAO 600", "SLDC 0", "CXP 0, 3", "LAO 200", "LAO 10", "CXP 0, 14"] + error + show, [], b"",
             b"9" + bytes.fromhex(shown(0))),
            ("a text on a disk", opened + loop, ["loop"], b"", b"".join(b"0" + bytes.fromhex(shown(single(x))) for x in (Fraction(5, 2), -1000, 7)) )):
        put("READS", whole(lines, jumps))
        files("puttext", "IN.TEXT", data=b"  2.5 rest\n\n  -1E3\n7\n")
        made = script(image, "READS")
        ran = run("READS", "--system", system, typed=typed)
        if name == "a file that is not open": # the real is unchanged: its words were stored with the high one at 10
            want = want[:1] + bytes.fromhex("0000803f")
        result("READ of a real: " + name, ran.stdout == want and ran.returncode == 0 and made.returncode == 0, "%s, not %s" % (ran, want))
    for text in ("3.4028236E38", "1E39", "1E45", "1E2000", "-" + "9" * 60):
        put("READS", whole(["LDCN", "LAO 10", "CXP 0, 14"]))
        script(image, "READS")
        ran = run("READS", "--system", system, typed=text.encode() + b"\r")
        result("READ of %s: error 1" % text, ran.stderr.startswith(b"error 1 "), str(ran))


def errors():
    """Each error in a run of its own: the operation and its operands are constants of the program."""
    most, least, one, infinite, none = 0x7F7FFFFF, 1, 0x3F800000, 0x7F800000, 0x7FC00001
    cases = [("ADR", most, 0x73000000), ("ADR", most, most), ("SBR", most | 1 << 31, most), ("MPR", most, 0x3F800001), ("MPR", most, most),
             ("DVR", most, 0x3F7FFFFF), ("DVR", one, least), ("SQR", 0x5F800000), ("CSP 31", least | 1 << 31), ("CSP 31", one | 1 << 31)]
    for bad in (infinite, infinite | 1 << 31, none, none | 1 << 31):
        for name, (kinds, _) in MODEL.items():
            if "r" in kinds and name not in ("ABR", "NGR", "FLO"):
                cases.append((name, bad, one) if kinds == "rr" else (name, bad))
                if kinds == "rr":
                    cases.append((name, one, bad))
    for name in ("CSP 23", "CSP 24"):
        cases += [(name, bits) for bits in (0x47000000, 0xC7000100, 0x47800000, 0xC7800000, most, most | 1 << 31, 0x4F000000)]
    cases += [("CSP 24", 0x46FFFF00), ("CSP 24", 0xC7000080), ("CSP 24", 0x477FFFFF)]
    put("CALC", calculator([([name], sum(1 if kind == "i" else 2 for kind in MODEL[name][0]), RESULTS[name]) for name in MODEL]))
    script(image, "CALC")
    for case in cases:
        wanted(case, b"error 1 ")
    for bits in (0, 1 << 31):
        for divided in (0, one, least, most | 1 << 31):
            wanted(("DVR", divided, bits), b"error 6 ")
    # the numbers next to those
    for case in (("ADR", most, 0x72FFFFFF), ("MPR", most, one), ("CSP 23", 0x46FFFFFF), ("CSP 23", 0xC70000FF), ("CSP 24", 0x46FFFEFF),
                 ("CSP 24", 0xC700007F), ("CSP 31", 1 << 31), ("ABR", none), ("NGR", infinite)):
        wanted(case, b"ended ")


def wanted(case, message):
    name, values = case[0], case[1:]
    ran = run("CALC", typed=b"".join(w.to_bytes(2, "little") for w in [list(MODEL).index(name) + 1] + words_of(name, values)) + b"\0\0")
    result("%s of %s: %s" % (name, ", ".join("%08x" % v for v in values), message.decode()),
           ran.stderr.startswith(message) and (message[:1] == b"e" and not ran.stdout or message == b"ended "), str(ran))


# The script: what it changes, and what it rejects
CALLS = {name: number for number, name in enumerate(
    "ADR SBR MPR DVR FLT FLO CSP_23 CSP_24 ABR NGR SQR EQU_REAL NEQ_REAL LES_REAL LEQ_REAL GRT_REAL GEQ_REAL CSP_31 CSP_36 "
    "CSP_25 CSP_26 CSP_27 CSP_28 CSP_29 CSP_30".split(), 2)}
CALLS.update({"CXP_29_1": 1, "CXP_0_14": 34, "CXP_31_3": 34, "CXP_0_15": 35, "CXP_31_4": 35})
CALLS.update({"CXP_29_%d" % n: 25 + n for n in range(2, 9)})
JUMPS = ("UJP", "FJP", "EFJ", "NFJ")


def disassembled(name):
    return subprocess.run([program, "dis"], input=files("get", name), stdout=subprocess.PIPE, check=True).stdout.decode()


def items(text, slot=None):
    """Each procedure with its items, where a jump has the number of the item to which it leads. With a slot, each item for
    reals is replaced by its call, as the page of the units states."""
    made = {}
    for segment, name, body in re.findall(r"(?ms)^\.SEG (\d+) (\S+)\n(.*?)(?=^\.SEG|\Z)", text):
        for head, inner in re.findall(r"(?ms)^\.PROC (.*?)\n(.*?)^\.END\n", body):
            labels, code, table = {}, [], []
            for line in inner.split("\n")[:-1]:
                if line.endswith(":"):
                    labels[line[:-1]] = len(code)
                elif line.startswith(".JUMP"):
                    table.append(line.split()[1])
                elif line == ".EXIT":
                    labels[line] = len(code)
                else:
                    code.append(line.strip().replace(",", "").split(" ") if '"' not in line else [line])

            def target(operand):
                return labels[table[int(operand[1:])] if operand[0] == "^" else operand]
            shown = []
            for item in code:
                if item[0] in JUMPS:
                    item = [item[0], target(item[1])]
                elif item[0] == "XJP":
                    item = item[:3] + [target(x) for x in item[3:]]
                elif slot and "_".join(item) in CALLS:
                    item = ["CXP", str(slot), str(CALLS["_".join(item)])]
                shown.append(item)
            made[segment, name, head] = (shown, labels[".EXIT"])
    return made


def same_but_for_calls(old, new, slot):
    """Whether the new text has the old items, the calls, and perhaps a NOP at the end of a procedure."""
    old, new = items(old, slot), items(new)
    new = {key: value for key, value in new.items() if key[1] != "REALS"}
    if list(old) != list(new):
        return False
    return all(old[key][1] == new[key][1] and (old[key][0] == new[key][0] or old[key][0] + [["NOP"]] == new[key][0]) for key in old)


def random_procedure(chance, number, level, reals):
    """A procedure of items that are never executed, with jumps in all directions."""
    size = chance.choice([5, 60, 300])
    names = sorted(chance.sample(range(size), max(1, size // chance.choice([2, 5, 12]))))
    entries, lines = [], []
    for at in range(size):
        if at in names:
            lines.append("L%d:" % at)
        ahead = [n for n in names if at < n <= at + 25]
        kind = chance.randrange(12)
        if kind < 3 and ahead:
            lines.append("%s L%d" % (chance.choice(JUMPS), chance.choice(ahead)))
        elif kind == 3 and len(entries) < 40:
            target = "L%d" % chance.choice(names)
            if target not in entries or not chance.randrange(3):
                entries.append(target)
            lines.append("%s ^%d" % (chance.choice(JUMPS), entries.index(target)))
        elif kind == 4:
            lines.append("LDC " + ", ".join(str(chance.randrange(65536)) for _ in range(chance.randrange(4))) if chance.randrange(5) else "LDC")
        elif kind == 5 and ahead:
            lines.append("XJP 0, 2, L%d, L%d, L%d, L%d" % (chance.choice(ahead), chance.choice(names), chance.choice(names), chance.choice(names)))
        elif kind < 9 and reals:
            lines.append(chance.choice(list(CALLS)).replace("_", " ", 1).replace("_", ", "))
        else:
            lines.append(chance.choice(["NOP", "SLDC 1", "LDCI 300", "LDO 200", 'LSA "REAL ADR"', "CSP 9", "EQU STR", "EQU BYTES 4", "CXP 3, 4", "CXP 0, 13", "ADI"]))
    if entries and not any("^%d" % (len(entries) - 1) in line for line in lines):
        lines.append("UJP ^%d" % (len(entries) - 1))
    cut = chance.randrange(len(lines) + 1)
    text = ".PROC %d %d 0 0\n" % (number, level) + "\n".join(lines[:cut] + [".EXIT"] + lines[cut:]) + "\n"
    return text, "".join(".JUMP %s\n" % entry for entry in entries) + ".END\n"


def random_program(chance):
    while True:
        text = ""
        for segment in sorted(chance.sample(range(1, 15), chance.randrange(1, 4))):
            text += ".SEG %d S%d\n" % (segment, segment)
            for number in range(1, chance.randrange(2, 6)):
                body, end = random_procedure(chance, number, 0, chance.randrange(3))
                for more in ("", "NOP\n"):
                    code = assembled(".SEG 1 A\n" + re.sub(r"\.PROC \d+", ".PROC 1", body) + more + end)
                    if code.returncode == 0:
                        text += body + more + end
                        break
                else:
                    break
            else:
                continue
            break
        else:
            return text, assembled(text).stdout


def rewritten():
    """Random programs: the new program has the old items with the calls, and nothing else is changed."""
    chance, changed, far, refused = random.Random(seed + 1), 0, 0, {}
    while changed < min(100, max(20, count // 200)):
        text, code = random_program(chance)
        put("RANDOM", code)
        old, before = disassembled("RANDOM"), open(image, "rb").read()
        ran = script(image, "RANDOM")
        if ran.returncode:
            why = ran.stderr.decode().split("RANDOM")[-1]
            refused[why] = refused.get(why, 0) + 1
            if open(image, "rb").read() != before:
                result("a rejected program is unchanged", False, why)
            if "no instruction for reals" in why and any(line.replace(",", "").replace(" ", "_") in CALLS for line in text.split("\n")) \
                    or "no instruction for reals" not in why and "bytes that are no instructions" not in why and "60 entries" not in why:
                result("a program is rejected", False, why + "\n" + text)
                return
            continue
        new = disassembled("RANDOM")
        slot = int(re.search(r"(?m)^\.SEG (\d+) REALS$", new)[1])
        if not same_but_for_calls(old, new, slot):
            result("a random program is changed", False, text + "\n----\n" + new)
            return
        untouched = [n for n in range(16) if n != slot and not re.search(r"(?ms)^\.SEG %d .*?CXP %d, .*?(^\.SEG|\Z)" % (n, slot), new)]
        data = files("get", "RANDOM")
        if any(data[4 * n:4 * n + 4] != code[4 * n:4 * n + 4] and not re.search(r"CXP %d, " % slot, segment_text(new, n)) for n in untouched) or data[512:len(code)] != code[512:]:
            result("a random program: the rest of the file", False, str(untouched))
            return
        changed += 1
        far += new.count("\n.JUMP") > old.count("\n.JUMP")
    result("%d random programs are changed, %d with new entries of a jump table" % (changed, far), far > 0, str(refused))


def segment_text(text, n):
    found = re.search(r"(?ms)^\.SEG %d .*?(?=^\.SEG|\Z)" % n, text)
    return found[0] if found else ""


def rejected():
    many = ["FJP L0"] + ["NOP"] * 50 + ["FLT"] * 50 + ["L0: NOP"]
    full = []
    for n in range(61):
        full += ["FJP F%d" % n] + ["NOP"] * 118 + ["FLT"] * 5 + ["F%d: NOP" % n]
    files("new", "WORK", "2000")
    files("put", "DATA", "data", data=b"x")
    programs = {"NOREALS": whole(["SLDC 1"]), "FULL": whole(full), "BYTES": whole(["FLT", ".BYTE 210"]),
                "SLOTS": whole(["FLT"], rest="".join(".SEG %d S\n.PROC 1 0 0 0\n.EXIT\nRNP 0\n.END\n" % n for n in range(2, 16))),
                "TWICE": whole(["FLT"], rest=".SEG 5 REALS\n.PROC 1 0 0 0\n.EXIT\nRNP 0\n.END\n")}
    odd = bytearray(whole(["FLT"]))
    odd[512 + 1] ^= 0 # the code is as it was; the length in the dictionary is greater by a word
    odd[4 + 2] += 2
    programs["ODD"] = bytes(odd)
    for name, code in programs.items():
        files("put", name, "code", data=code)
    before = open(image, "rb").read()
    for name, status, message in (("NONE", 2, b"has no file NONE"), ("DATA", 2, b"has kind data"), ("NOREALS", 3, b"NOREALS has no instruction for reals"),
                                  ("FULL", 3, b"segment 1, procedure 1 of FULL needs more than 60 entries"),
                                  ("BYTES", 3, b"segment 1, procedure 1 of BYTES has reals, and bytes that are no instructions"),
                                  ("SLOTS", 3, b"SLOTS has no free slot"), ("TWICE", 3, b"TWICE has a segment REALS already"), ("ODD", 3, b"ODD")):
        ran = script(image, name)
        result("with-reals.sh: " + name, ran.returncode == status and message in ran.stderr and not ran.stdout, str(ran))
    result("with-reals.sh: nothing changed", open(image, "rb").read() == before)
    for arguments in ((), (image,), ("--low", image), (image, "NOREALS", "x")):
        ran = script(*arguments)
        result("with-reals.sh: %d arguments" % len(arguments), ran.returncode == 1 and ran.stderr.startswith(b"usage:"), str(ran))
    put("FITS", whole(["FLT"]))
    files("new", "WORK", "10")
    files("put", "FITS", "code", data=whole(["FLT"]))
    before = open(image, "rb").read()
    ran = script(image, "FITS")
    result("with-reals.sh: no space", ran.returncode == 4 and open(image, "rb").read() == before, str(ran))


# Programs with the code that the compiler is remembered to emit
def single(x):
    return nearest(Fraction(x), False)


def op(name, *operands):
    """The bits of the result of an instruction."""
    words = MODEL[name][1](*operands)
    return words[1] << 16 | words[0]


def prepared(name, code, *scripts):
    """Puts a program on the disk; these scripts change it, in this order."""
    put(name, code)
    for one in scripts:
        ran = subprocess.run([examples + one, image, name], env=dict(os.environ, PMACH=program), stdout=subprocess.PIPE, stderr=subprocess.PIPE)
        if ran.returncode:
            return ran
    return None


def programs():
    shown = ""
    for c in range(-4, 11):
        f = op("ADR", op("MPR", single(c * 10), single(1.8)), single(32))
        shown += "%4d%s\r" % (c * 10, written(f, 8, 1))
    total, term, c = single(0), single(1), 0
    while True:
        total, c = op("ADR", total, term), c + 1
        term = op("DVR", term, single(c))
        if MODEL["LES REAL"][1](term, single(0.0000001))[0]:
            break
    shown += "E =%s AFTER%3d TERMS\r" % (written(total, 0, 0), c)
    code = assembled(source("units/celsius.text")).stdout
    for scripts in (("with-reals.sh", "with-system.sh"), ("with-system.sh", "with-reals.sh"), ("with-units.sh", "with-reals.sh", "with-system.sh"),
                    ("with-system.sh", "with-units.sh", "with-reals.sh")):
        why = prepared("CELSIUS", code, *scripts)
        ran = run("CELSIUS")
        result("the program CELSIUS: " + ", ".join(scripts), not why and ran.stdout.decode() == shown and ran.returncode == 0, "%s %s" % (why, ran))
    # SEEK and reals: with-units.sh adds PASCALIO after with-reals.sh
    why = prepared("BOTH", whole(["SLDC 3", "FLT", "CSP 23", "SRO 10", "LAO 200", "SLDC 0", "LDCI -1", "CXP 0, 3", "LAO 200", "SLDC 1", "CXP 31, 2", "LOD 1, 3"] +
                                 ["LDO 10", "FLT", "SLDC 0", "SLDC 0", "CXP 31, 4"]), "with-reals.sh", "with-units.sh")
    ran = run("BOTH", "--system", system)
    result("reals, then SEEK", not why and ran.stdout == b" 3.00000" and ran.returncode == 0, "%s %s" % (why, ran))
    # a series in a function of another segment, called from three levels; the reals are parameters and results
    half = push(real(single(0.5)))
    series = [".PROC 1 1 8 8", "LLA 5", "SLDC 0", "FLT", "STM 2", "loop: LLA 5", "LLA 5", "LDM 2", "LLA 3", "LDM 2", "ADR", "STM 2", # sum := sum + x
              "LLA 3", "LLA 3", "LDM 2"] + half + ["MPR", "STM 2", "LLA 3", "LDM 2", "ABR"] + push(real(single(0.001))) + \
             ["LES REAL", "FJP ^0", "LLA 1", "LLA 5", "LDM 2", "STM 2", ".EXIT", "RNP 2", "NOP", ".JUMP loop", ".END"]

    def call(x):
        return ["LOD 1, 3"] + push(real(single(x))) + ["SLDC 0", "SLDC 0", "CXP 2, 1", "SLDC 0", "SLDC 3", "CXP 0, 15", "CSP 0"]

    def sum_from(x):
        x, total = single(x), single(0)
        while True:
            total, x = op("ADR", total, x), op("MPR", x, single(0.5))
            if MODEL["LES REAL"][1](op("ABR", x), single(0.001))[0]:
                return total
    levels = [".PROC 2 1 0 0"] + [line.replace("LOD 1", "LOD 2") for line in call(-7.25)] + ["CLP 3", ".EXIT", "RNP 0", "%s.END", ".PROC 3 2 0 0"] + \
             [line.replace("LOD 1", "LOD 3") for line in call(3.1)] + [".EXIT", "RNP 0", "%s.END", ".SEG 2 SERIES"]
    for fill in range(16):
        rest = "\n".join(levels + series) + "\n"
        rest = rest.replace("%s", "NOP\n" if fill & 1 else "", 1).replace("%s", "NOP\n" if fill & 2 else "", 1)
        rest = rest if fill & 4 else rest.replace("RNP 2\nNOP", "RNP 2")
        try:
            code = whole(call(1) + ["CLP 2"], rest=rest)
            break
        except ValueError:
            code = None
    why = prepared("SERIES", code, "with-reals.sh")
    ran = run("SERIES", "--system", system)
    want = "".join(written(sum_from(x), 0, 3) for x in (1, -7.25, 3.1))
    result("a series, called from three levels", not why and ran.stdout.decode() == want and ran.returncode == 0, "%s %s, not %s" % (why, ran, want))


class TooGreat(Exception):
    """A result that is too great, or a division by 0."""


def expression(chance, depth, labels):
    """A random expression: its items, its value, and whether it is a real. Its code is as the compiler is remembered to emit it:
    FLO converts the left operand, FLT the right one. A comparison chooses between two expressions by jumps."""
    def computed(name, *operands):
        if MODEL[name][1](*operands) is None:
            raise TooGreat
        return op(name, *operands) if RESULTS[name] == 2 else MODEL[name][1](*operands)[0]

    def as_real(depth):
        code, x, is_real = expression(chance, depth, labels)
        return (code, x) if is_real else (code + ["FLT"], op("FLT", x % 65536))
    if depth == 0 or not chance.randrange(6):
        if chance.randrange(2):
            number = chance.randrange(-99, 100)
            return ["LDCI %d" % number], number, False
        bits = nearest(Fraction(chance.randrange(-9999, 10000), chance.choice([1, 2, 10, 100, 7])), False)
        return ["LDC %d, %d" % tuple(real(bits))], bits, True
    kind = chance.randrange(8)
    if kind == 0:
        code, x = as_real(depth - 1)
        name = chance.choice(["ABR", "NGR", "SQR"])
        return code + [name], computed(name, x), True
    if kind == 1:
        code, x = as_real(depth - 1)
        name = chance.choice(["CSP 23", "CSP 24"])
        return code + [name], signed(computed(name, x)), False
    code, x, is_real = expression(chance, depth - 1, labels)
    more, y = as_real(depth - 1)
    code += more
    if not is_real:
        code, x = code + ["FLO"], op("FLT", x % 65536)
    if kind == 2: # if x < y then a else b
        number = next(labels)
        name = chance.choice(["EQU", "NEQ", "LES", "LEQ", "GRT", "GEQ"]) + " REAL"
        then, a = as_real(depth - 1)
        other, b = as_real(depth - 1)
        return (code + [name, "FJP N%d" % number] + then + ["UJP E%d" % number, "N%d: NOP" % number] + other + ["E%d: NOP" % number],
                a if computed(name, x, y) else b, True)
    name = chance.choice(["ADR", "SBR", "MPR", "DVR"])
    return code + [name], computed(name, x, y), True


def expressions():
    chance, wrong, made, jumps = random.Random(seed + 5), [], 0, 0
    while made < max(10, count // 500):
        lines, want, labels = [], [], itertools.count()
        try:
            for _ in range(chance.randrange(1, 6)):
                items_, x, is_real = expression(chance, chance.randrange(2, 6), labels)
                lines += ["LOD 1, 3"] + items_ + (["SLDC 0", "SLDC 0", "CXP 0, 15"] if is_real else ["SLDC 0", "CXP 0, 13"])
                want.append(written(x, 0, 0) if is_real else str(x))
            code = whole(lines)
        except (TooGreat, ValueError): # or a jump that is too long for a label
            continue
        if not any("_".join(line.replace(",", "").split()) in CALLS for line in lines):
            continue
        made, jumps = made + 1, jumps + any(line.startswith("FJP") for line in lines)
        why = prepared("EXPRESS", code, "with-reals.sh")
        ran = run("EXPRESS", "--system", system)
        if why or ran.stdout.decode() != "".join(want) or ran.returncode:
            wrong.append((why, ran, want, lines))
    result("%d random programs with expressions, %d with jumps" % (made, jumps), not wrong, str(wrong[:1]))


with tempfile.TemporaryDirectory() as scratch:
    image, system = os.path.join(scratch, "image"), os.path.join(scratch, "system.code")
    with open(system, "wb") as out:
        out.write(assembled(source("system/system.text")).stdout)
    operations(False)
    operations(True)
    functions()
    writes()
    reads()
    read_cases()
    programs()
    expressions()
    errors()
    rejected()
    rewritten()
    print("%d passed, %d failed" % (passed, failed))
    sys.exit(failed > 0)
