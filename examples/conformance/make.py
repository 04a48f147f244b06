"""make.py: generates the cases of this folder, or with `check` reports where the output of pmach differs.

    make.py [check] [PMACH]

cases.py has the list of bare code, and programs/*.text are the programs. Each case is run, and its trace is the output of
pmach. Then the script prints what the cases cover, counted by the tables of docs/. Status 1: a case differs, or one of
these is not covered by any case:

    opcodes     each of the 256 of docs/INSTRUCTIONS.md
    spellings   each mnemonic with each size of its number; of the forms of docs/INSTRUCTIONS.md, each that can vary
    types       each type of each comparison
    procedures  each of the 256 numbers of docs/PROCEDURES.md
    few words   error 7 of each row and procedure that takes words from the stack
    full stack  error 4 of each that leaves more words than it takes, of each call, and of each return
    errors      each execution error of docs/MACHINE.md except 9, which no program causes by itself"""
import glob
import os
import re
import subprocess
import sys
import tempfile

sys.dont_write_bytecode = True
from cases import bare

here = os.path.dirname(os.path.abspath(__file__))
words = sys.argv[1:]
check = "check" in words
pmach = ([word for word in words if word != "check"] + [os.path.join(here, "..", "..", "pmach")])[0]


def run(arguments, data=b""):
    return subprocess.run([pmach] + arguments, input=data, capture_output=True)


def read(path):
    with open(path, "rb") as file:
        return file.read()


def page(name):
    return read(os.path.join(here, "..", "..", "docs", name + ".md")).decode()


# ---- the cases

def assembled(name, items):
    """Returns the bytes of some items followed by XIT, from the listing of the assembler; a NOP makes their length even."""
    text = "".join(item.strip() + "\n" for item in (items + "; XIT").split(";"))
    for behind in ("", "NOP\n"):
        whole = ".SEG 1 CASE\n.PROC 1 0 0 0\n%s%s.EXIT\n.END\n" % (text, behind)
        listing = run(["asm", "--list"], whole.encode())
        if listing.returncode == 0:
            break
    else:
        sys.exit("%s: %s" % (name, listing.stderr.decode()))
    code = []
    for line in listing.stdout.decode().split("\n"):
        if line and ".ATTR" not in line and ".DICT" not in line:
            code += re.match(r"\d+ \d+ \d+ ((?:[0-9A-F]{2} )+)", line).group(1).split()
    return " ".join(code)


def bare_file():
    blocks = ["; Bare code: what it is for, its bytes, and its trace. Made by make.py.\n\n"]
    for name, items in bare:
        code = assembled(name, items)
        made = run(["raw", "--limit", "10000"], code.encode())
        cut = "\n".join(code[at:at + 119].strip() for at in range(0, len(code), 120))
        blocks.append("; %s\n%s\n%s%s\n" % (name, cut, made.stdout.decode(), made.stderr.decode()))
    return "".join(blocks).encode()


def program_files():
    """Yields the code file and the trace of each text, run as the only file of a volume of 40 blocks on unit 4."""
    with tempfile.TemporaryDirectory() as folder:
        image = os.path.join(folder, "image")
        for path in sorted(glob.glob(os.path.join(here, "programs", "*.text"))):
            name = os.path.basename(path)[:-5]
            typed = path[:-5] + ".typed"
            made = run(["asm"], read(path))
            if made.returncode:
                sys.exit("%s: %s" % (name, made.stderr.decode()))
            run(["files", "--image", image, "new", "WORK", "40"])
            run(["files", "--image", image, "put", name, "code"], made.stdout)
            trace = run(["trace", "--d4", image, name], read(typed) if os.path.exists(typed) else b"")
            yield "programs/%s.code" % name, made.stdout
            yield "programs/%s.trace" % name, trace.stdout + trace.stderr


def written(files):
    """Writes the files that have changed, or with `check` counts them."""
    wrong = 0
    for name, data in sorted(files.items()):
        path = os.path.join(here, name)
        if os.path.exists(path) and read(path) == data:
            continue
        wrong += check
        print(("differs: " if check else "written: ") + name)
        if not check:
            with open(path, "wb") as file:
                file.write(data)
    return wrong


# ---- what they reach

COMPARISONS = ["EQU", "GEQ", "GRT", "LEQ", "LES", "NEQ"]
TYPES = ["REAL", "STR", "BOOL", "SET", "BYTES", "WORDS"]
SHORT = {"SLDL": 215, "SLDO": 231, "SIND": 248, "SLDC": 0}


def rows():
    """Yields each row of the table of instructions: its opcodes, its name, its form, the words that it pops and pushes."""
    row = r"^\| (\d+)(?:\.\.(\d+))? \| [0-9A-F.]+ \| *([A-Z]* ?n?) *\| (\w+) \|([^|]*)\|"
    for first, last, name, form, stack in re.findall(row, page("INSTRUCTIONS"), re.M):
        yield range(int(first), int(last or first) + 1), name.strip(), form, stack.strip()


def procedures():
    """Yields each procedure of the table: its number, and the words that it pops and pushes."""
    table = page("PROCEDURES").split("## The table")[1].split("\n## ")[0]
    for cell, stack in re.findall(r"^\| (\d[\d, to]*) \|[^|]*\|([^|]*)\|", table, re.M):
        ends = [int(word) for word in re.findall(r"\d+", cell)]
        for number in range(ends[0], ends[-1] + 1):
            yield number, stack.strip()


def spoken(opcode, name):
    """Returns the text of an instruction, or its beginning: the mnemonic, and the number in the opcode."""
    if name.endswith(" n"):
        return "%s %d" % (name[:-2], opcode - SHORT[name[:-2]])
    return name or ".BYTE 210"


def sizes(name, form):
    """Returns the spellings of each size of the number in a row, as patterns of its text."""
    number = {"B": "", "UbB": r"\d+, ", "DbB": r"\d+, "}.get(form)
    if number is not None:
        return [name + " " + number + size for size in (r"\d+$", r"\d+!$", r"(12[89]|1[3-9]\d|[2-9]\d\d|\d{4,5})$")]
    if form == "Typed":
        return ["%s %s %s" % (name, kind, size) for kind in ("BYTES", "WORDS")
                for size in (r"\d+$", r"\d+!$", r"(12[89]|1[3-9]\d|[2-9]\d\d|\d{4,5})$")]
    return {"Sb": [name + r" \d", name + " -"], "Db": [name + r" \d$", name + r" (12[89]|1[3-9]\d|2\d\d)$"],
            "Chars": [name + ' ""', name + ' "[^"]'], "Words": [name + "$", name + r" \d+$", name + r" \d+, "],
            "Jumps": [name + r" 1, 0,", name + r" (-?\d+), (?!0)"]}.get(form, [name + r"\b"] if name else [])


def takes_and_leaves(stack):
    """Returns how many words a row pops and pushes; a place is two words, and a set or words count at their minimum."""
    if "->" not in stack:
        return 0, 0
    taken, left = (side.split() for side in stack.split("->"))
    count = sum(2 if word in ("from", "to", "place") else 0 if word == "words" else 1 for word in taken)
    return count, len(left) + ("words" in left) + ("S" in left)


def wanted_errors():
    """Returns the rows that can give error 7 (too few words on the stack), and those that can give error 4 (stack full)."""
    few, full = [], []
    for opcodes, name, _, stack in rows():
        taken, left = takes_and_leaves(stack)
        said = [spoken(opcode, name) for opcode in opcodes]
        few += said if taken else []
        full += said[1 if name == "SLDC n" else 0:2 if name == "SLDC n" else None] if left > taken else []
    for number, stack in procedures():
        taken, left = takes_and_leaves(stack)
        few += ["CSP %d" % number] if taken else []
        full += ["CSP %d" % number] if left > taken else []
    calls = ["CLP", "CGP", "CIP", "CBP", "CXP"]
    return few + calls, full + calls + ["RNP", "RBP", "CSP 21", "CSP 1"]


def begins(text, word):
    return text == word or text.startswith(word + " ")


def missing(text):
    """Yields, for each kind, how many there are and which of them no case covers."""
    reached = set(re.findall(r"^\d{8}(?: \S+){6} (.*)$", text, re.M))
    ends = re.findall(r"^\d{8}(?: \S+){6} (.*)\nerror (\d+) ", text, re.M)
    few, full = wanted_errors()
    errors = set(re.findall(r"^\| (\d+) \|", page("MACHINE").split("## Execution errors")[1].split("\n## ")[0], re.M))
    spelled = [pattern for _, name, form, _ in rows() for pattern in sizes(name.split(" ")[0], form)]
    wants = {
        "opcodes": [spoken(opcode, name) for opcodes, name, _, _ in rows() for opcode in opcodes],
        "spellings": spelled, "types": ["%s %s" % (row, kind) for row in COMPARISONS for kind in TYPES],
        "procedures": ["CSP %d" % number for number, _ in procedures()],
        "few words": few, "full stack": full, "errors": sorted(errors - {"9"}, key=int),
    }
    found = {
        "spellings": lambda want: any(re.match(want, one) for one in reached),
        "few words": lambda want: any(begins(one, want) and error == "7" for one, error in ends),
        "full stack": lambda want: any(begins(one, want) and error == "4" for one, error in ends),
        "errors": lambda want: any(error == want for _, error in ends),
    }
    for kind, list_of in wants.items():
        is_there = found.get(kind, lambda want: any(begins(one, want) for one in reached))
        lacking = [want for want in list_of if not is_there(want)]
        yield kind, len(list_of), lacking


def main():
    files = {"bare.txt": bare_file()}
    files.update(program_files())
    copy = os.path.join("..", "..", "crates", "test_cases", "data", "bare.txt")    # the gate replays it
    wrong = written({**files, copy: files["bare.txt"]})
    print("%d cases of bare code, %d programs, %d bytes" % (
        len(bare), len(files) // 2, sum(map(len, files.values()))))
    text = "\n".join(data.decode() for name, data in files.items() if name.endswith((".txt", ".trace")))
    for kind, count, lacking in missing(text):
        print("%s: %d of %d%s" % (kind, count - len(lacking), count, "".join("; not " + want for want in lacking)))
        wrong += len(lacking)
    sys.exit(1 if wrong else 0)


main()
