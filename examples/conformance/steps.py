"""steps.py: reports how far another p-machine is, with cases whose answers come from an independent reference.

    steps.py [--state] [--step N] COMMAND [ARG..]
    steps.py --list

COMMAND is run once for each case of bare code in crates/test_cases/data/bare.cases, with its bytes on standard input, in
hexadecimal digits, and with the option --limit N (steps) added. It writes a trace in the format of README.md to standard
output. A case belongs to the last of the steps below that one of its instructions requires. For each step a line is
printed with the number of cases that agree, and then the first case that does not: its bytes, the expected last line and
the last line of COMMAND. With --state only the last line is compared, not the digest of the whole trace. With --step only
the cases of one step are run. --list prints the number of cases of each step. Status 1: a case differs."""
import concurrent.futures
import os
import re
import subprocess
import sys

HERE = os.path.dirname(os.path.abspath(__file__))
ROOT = os.path.join(HERE, "..", "..")

# the order in which a machine can be written: each step requires the ones before it
STEPS = [
    ("the start, constants, the end", "SLDC LDCI LDCN NOP BPT XIT ABR ADR DVR FLO FLT MPR NGR SBR SQR LDE LAE STE"),
    ("integers and Booleans", "ABI ADI DVI MODI MPI NGI SBI SQI CHK LAND LOR LNOT EQUI GEQI GRTI LEQI LESI NEQI"),
    ("pointers, arrays, blocks", "SIND IND INC STO IXA MOV LDC LDM STM"),
    ("variables", "SLDL LDL LLA STL SLDO LDO LAO SRO LOD LDA STR"),
    ("jumps", "UJP FJP EFJ NFJ XJP"),
    ("bytes and packed fields", "LDB STB IXP LDP STP"),
    ("strings", "LSA LPA SAS IXS"),
    ("sets", "ADJ INN INT DIF UNI SGS SRS"),
    ("typed comparisons", "EQU GEQ GRT LEQ LES NEQ"),
    ("calls and returns", "CLP CGP CIP CBP CXP RBP RNP"),
    ("standard procedures", "CSP"),
]
STEP_OF = {name: at for at, (_, names) in enumerate(STEPS) for name in names.split()}


def opcodes():
    """Returns the mnemonic and the form of each opcode, from the page of the instructions."""
    table = {}
    with open(os.path.join(ROOT, "docs", "INSTRUCTIONS.md"), encoding="utf-8") as page:
        for line in page:
            row = re.match(r"\| (\d+)(?:\.\.(\d+))? \| [0-9A-F.]+ \| ([A-Z]*)[^|]*\| `?(\w+)`? \|", line)
            if row:
                for code in range(int(row[1]), int(row[2] or row[1]) + 1):
                    table[code] = (row[3], row[4])
    return table


TABLE = opcodes()


def length(code, at):
    """Returns the length of the instruction at an offset, by the rules of the page's section on operands."""
    form = TABLE[code[at]][1]
    byte = lambda k: code[at + k] if at + k < len(code) else 0
    word = lambda k: byte(k) + 256 * byte(k + 1)
    big = lambda k: 1 if byte(k) < 128 else 2
    if form in ("Ub", "Sb", "Db"):
        return 2
    if form == "B":
        return 1 + big(1)
    if form in ("UbB", "DbB"):
        return 2 + big(2)
    if form in ("UbUb", "W"):
        return 3
    if form == "Chars":
        return 2 + byte(1)
    if form == "Words":
        return 2 + at % 2 + 2 * byte(1)
    if form == "Typed":
        return 2 + (big(2) if byte(1) in (10, 12) else 0)
    if form == "Jumps":
        pad = 1 - at % 2
        first, last = (w - 65536 if w > 32767 else w for w in (word(1 + pad), word(3 + pad)))
        return 7 + pad + 2 * max(0, last - first + 1)
    return 1


def step_of(code):
    """Returns the last step that an instruction of the code requires; instructions are read in order from the first byte."""
    at, step = 0, 0
    while at < len(code):
        step = max(step, STEP_OF.get(TABLE[code[at]][0], 0))
        at += length(code, at)
    return step


def digest(text):
    """64-bit FNV-1a."""
    h = 0xCBF29CE484222325
    for byte in text:
        h = (h ^ byte) * 0x100000001B3 % 2**64
    return "%016x" % h


def cases():
    """Yields each case: its name, its bytes, its limit, the last line, the digest of the trace if it has one."""
    with open(os.path.join(ROOT, "crates", "test_cases", "data", "bare.cases"), encoding="ascii") as file:
        blocks = file.read().split("\n\n")[1:]
    for block in blocks:
        rows = dict(line.partition(" ")[::2] for line in block.strip("\n").split("\n"))
        code = bytearray()
        for piece in rows["code"].split():
            count, star, byte = piece.partition("*")
            code += bytes.fromhex(byte) * int(count) if star else bytes.fromhex(piece)
        if not rows["end"].startswith("refused"):
            yield rows["case"], bytes(code), rows.get("limit", "100"), rows["end"], rows.get("trace")


def ran(command, state, case):
    """Returns whether a machine ends as expected, with the same trace; and its last line."""
    _, code, limit, end, trace = case
    try:
        made = subprocess.run(command + ["--limit", limit], input=code.hex(" ").upper().encode(), capture_output=True, timeout=60).stdout
    except subprocess.TimeoutExpired:
        return False, "no end within a minute"
    last = "".join(made.decode("ascii", "replace").split("\n")[-2:-1])
    return last == end and (state or trace is None or digest(made) == trace), last


def main(state, only, command):
    steps = [[] for _ in STEPS]
    for case in cases():
        steps[step_of(case[1])].append(case)
    differing = 0
    for number, ((name, _), these) in enumerate(zip(STEPS, steps), 1):
        if not command:
            print("%2d %-30s %5d cases" % (number, name, len(these)))
            continue
        if only and only != number:
            continue
        with concurrent.futures.ThreadPoolExecutor(os.cpu_count()) as pool:
            made = list(pool.map(lambda case: ran(command, state, case), these))
        same = sum(good for good, _ in made)
        print("%2d %-30s %5d of %d" % (number, name, same, len(these)))
        differing += len(these) - same
        for (title, code, _, end, _), (good, last) in zip(these, made):
            if not good:
                print("   first: %s\n     code     %s\n     expected %s" % (title, code.hex(" ").upper(), end))
                print("     got      %s" % (last if last != end else "the same end, but another trace: hold.py shows lines"))
                break
    sys.exit(1 if differing else 0)


words = sys.argv[1:]
if words == ["--list"]:
    main(False, 0, [])
state, only = False, 0
while words and words[0] in ("--state", "--step"):
    if words[0] == "--state":
        state = True
    else:
        words = words[1:]
        only = int(words[0]) if words and words[0].isdigit() else -1
    words = words[1:]
if not words or words[0].startswith("-") or only < 0 or only > len(STEPS):
    sys.exit(__doc__)
main(state, only, words)
