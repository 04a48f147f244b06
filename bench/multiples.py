"""multiples.py [PMACH [each]]: measures `dis --statements`, `--indent` and `--blocks` as multiples of `dis`.

For each code file it prints the number of processor instructions (valgrind) as a multiple, followed by the length of the text
as a multiple. The code files are of these kinds, some of them with changed bytes:

  stores      a constant is stored into a variable, in four procedures; a hundred small ones as `stores, small`
  sums        expressions of up to thirty operations, stored into a variable
  choices     conditions in conditions, six deep, with a branch for each
  any         any instructions, with or without their operands
  deep        60 conditions around the whole code, each with an entry of the jump table
  NAME / N    every Nth byte of the code is changed

With `each`, it measures files that contain only one instruction, 4,000 times. Its operands are missing there, so neither a
compiler nor most damage produces such code.

Run manually; not part of the gate. Requires valgrind. Takes about three minutes on one processor, with `each` on four."""
import os
import random
import re
import subprocess
import sys
import tempfile

PMACH = os.path.abspath(sys.argv[1] if sys.argv[1:] else os.path.join(os.path.dirname(os.path.abspath(__file__)), "..", "pmach"))
R = random.Random(11)
PLAIN = ("ABI ADI LAND DIF DVI CHK INN INT LOR MODI MPI NGI LNOT SRS SBI SGS SQI STO IXS UNI LDCN LDP STP LDB STB EQUI GEQI GRTI LEQI LESI NEQI "
         "NOP FLT ADR FLO").split()
NUMBERED = ["SLDC {}", "SLDO {}", "SLDL {}", "LDCI 1{}9", "LAO 1{}", "LDO 3{}", "SRO 2{}", "LLA {}", "STL 4{}", "INC {}", "IND 1{}", "IXA {}",
            "LOD 1, {}", "CSP {}", "CLP 2", "CXP 0, 19", "LDM {}", "ADJ {}", "LSA \"ABC{}\"", "EQU SET", "LES STR", "IXP 8, 2"]
OTHERS = ["XIT", "SIND 0", "SIND 3", "STR 1, 3", "LDA 2, 4", "LPA \"AB\"", "LDC 3, 4, 5", ".BYTE 161", "RNP 1", "CIP 3", "EQU BOOL", "NEQ REAL",
          "SAS 80", "MOV 3", "STM 3", "STE 1, 3", "LDE 1, 3", "LAE 1, 3"]
FAR = ["FJP ^0", "UJP ^0", "EFJ ^0", "NFJ ^0"]


def stores():
    return ["SLDC %d" % R.randrange(128), "SRO %d" % R.randrange(1, 300)]


def total(depth):
    if depth == 0:
        return [R.choice(["SLDC %d", "SLDO %d", "SLDL %d"]) % R.randrange(1, 17)]
    return total(R.randrange(depth)) + total(R.randrange(depth)) + [R.choice(["ADI", "SBI", "MPI", "DVI", "LAND", "LESI", "EQUI"])]


def sums():
    return total(R.randrange(1, 6)) + ["STL %d" % R.randrange(1, 300)]


def choices(depth=6, labels=[0]):
    if depth == 0:
        return stores()
    labels[0] += 1
    n = labels[0]
    return ["SLDO 1", "FJP e%d" % n, *choices(depth - 3), *stores(), "UJP o%d" % n, "e%d:" % n, *choices(depth - 3), "o%d:" % n]


def any_one():
    return [R.choice(PLAIN) if R.random() < 0.4 else R.choice(NUMBERED).format(R.randrange(1, 9))]


def deep():
    return stores()


def assembled(text):
    return subprocess.run([PMACH, "asm"], input=text.encode(), stdout=subprocess.PIPE, stderr=subprocess.DEVNULL).stdout


def program(make, procedures, lines, entries=0):
    text = ".SEG 1 MULTIPLE\n"
    for number in range(1, procedures + 1):
        code = [word for k in range(60) for word in ("SLDO 1", "FJP ^%d" % k)] if make is deep else []
        end = ".JUMP last\n" * (60 if make is deep else entries) + ".END\n"
        while len(code) < lines:
            code += make()
        body = "\n".join(line if line.endswith(":") else "  " + line for line in code)
        for pad in ("", "  NOP\n"):
            one = "here:\n%s\nlast:\n.EXIT\n  RBP 0\n%s%s" % (body, pad, end)
            if assembled(".SEG 1 MULTIPLE\n.PROC 1 0 4 40\n" + one):
                text += ".PROC %d 0 4 40\n" % number + one
                break
        else:
            sys.exit("not assembled: " + body[:200])
    return assembled(text)


def hurt(code, each):
    data = bytearray(code)
    for _ in range((len(data) - 1024) // each):
        data[R.randrange(512, len(data) - 512)] = R.randrange(256)
    return bytes(data)


def cost(words, path):
    with open(path, "rb") as given:
        done = subprocess.run(["valgrind", "--tool=callgrind", "--callgrind-out-file=/dev/null", PMACH, "dis", *words], stdin=given,
                              stdout=subprocess.PIPE, stderr=subprocess.PIPE)
    return int(re.search(rb"Collected : (\d+)", done.stderr).group(1)), len(done.stdout)


def kinds():
    files = {}
    for name, make, lines in [("stores", stores, 2500), ("sums", sums, 2500), ("choices", choices, 1500), ("any", any_one, 2500), ("deep", deep, 1500)]:
        files[name] = program(make, 4, lines)
        files[name + ", small"] = program(make, 100, 200 if make is deep else 60)
    for name in list(files):
        for each in (100, 5):
            files["%s / %d" % (name, each)] = hurt(files[name], each)
    return files


def each():
    def alone(name):
        return program(lambda: [name], 1, 4000, 1 if name in FAR else 0)
    return {name: alone(name) for name in PLAIN + [form.format(3) for form in NUMBERED] + OTHERS + FAR}


def main():
    files = each() if sys.argv[2:] == ["each"] else kinds()
    with tempfile.TemporaryDirectory() as folder:
        path = os.path.join(folder, "CODE")
        for name, code in files.items():
            with open(path, "wb") as out:
                out.write(code)
            plain, text = cost([], path)
            told = ["%.2f (%.1f)" % (one / plain, long / max(text, 1)) for one, long in (cost([w], path) for w in ("--statements", "--indent", "--blocks"))]
            print("%-20s %11d   %s" % (name, plain, "   ".join(told)), flush=True)


main()
