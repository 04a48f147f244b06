#!/usr/bin/env python3
"""cases.py PROGRAM FILE.cases ..: runs the cases of docs/CASES.md with a program's command lines, and reports what differs.

It knows the files bare, texts, shows, boots, files and disks, whose heads say what their lines mean; a file of another name is of
the form of shows. `regs` and `stack`, which no command line shows, are left out, as are cases with a line that it does not
know. PROGRAM may be the socket of server.mjs. `--every N` takes each Nth case.
The last line is the number of cases and of differences. Status 1: something differs."""
import os
import re
import socket
import stat
import struct
import subprocess
import sys
import tempfile

arguments = sys.argv[1:]
every = 1
if arguments[0] == "--every":
    every, arguments = int(arguments[1]), arguments[2:]
IS_SOCKET = stat.S_ISSOCK(os.stat(arguments[0]).st_mode)
PROGRAM, FILES = os.path.abspath(arguments[0]), [os.path.abspath(path) for path in arguments[1:]]


class Unknown(Exception):
    pass


def digest(data):
    h = 0xcbf29ce484222325
    for byte in data:
        h = (h ^ byte) * 0x100000001b3 % 2**64
    return "%016x" % h


def unhex(text):
    """HEX in pieces: `N*HH` is a byte N times."""
    made = b""
    for piece in text.split():
        count, star, byte = piece.partition("*")
        made += bytes.fromhex(byte) * int(count) if star else bytes.fromhex(piece)
    return made


def unescape(text):
    """ESCAPED: \\hh is a byte, and a backslash without digits is no byte at all."""
    return re.sub(rb"\\([0-9a-f]{2})?", lambda found: bytes([int(found[1], 16)]) if found[1] else b"", text.encode("latin-1"))


def shown(data):
    """BYTES: in hexadecimal up to 64 bytes, else length and digest."""
    return data.hex() if len(data) <= 64 else "%d %s" % (len(data), digest(data))


def content(words):
    kind, _, rest = words.partition(" ")
    if kind == "hex":
        return unhex(rest)
    if kind == "ramp":
        count, first = map(int, rest.split())
        return bytes((first + k) % 251 for k in range(count))
    if kind == "text":
        return b"".join(unescape(piece) if not re.match(r"\d+\*", piece) else
                        unescape(piece.split("*", 1)[1]) * int(piece.split("*", 1)[0]) for piece in rest.split(" "))
    raise Unknown(kind)


def ask_server(words, given):
    """What client.c does, without a process: asks server.mjs, at the socket PROGRAM."""
    parts = [os.getcwd().encode(), given, *(word.encode() if isinstance(word, str) else word for word in words)]
    request = struct.pack("<I", len(parts)) + b"".join(struct.pack("<I", len(part)) + part for part in parts)
    answer = b""
    with socket.socket(socket.AF_UNIX) as server:
        server.connect(PROGRAM)
        server.sendall(request)
        server.shutdown(socket.SHUT_WR)
        while piece := server.recv(1 << 20):
            answer += piece
    status, length, _ = struct.unpack("<III", answer[:12])
    return status, answer[12:12 + length], answer[12 + length:].decode("latin-1").rstrip("\n")


def run(*words, given=b""):
    if IS_SOCKET:
        return ask_server(words, given)
    made = subprocess.run([PROGRAM, *words], input=given, stdout=subprocess.PIPE, stderr=subprocess.PIPE, check=False)
    return made.returncode, made.stdout, made.stderr.decode("latin-1").rstrip("\n")


def write(path, data):
    with open(path, "wb") as file:
        file.write(data)


def read(path):
    with open(path, "rb") as file:
        return file.read()


def code_file(case):
    """A code file in the canonical layout: dictionary, names of eight spaces, kinds, and the segments from block 1 on."""
    segments = {int(n): unhex(rest) for word, rest in case for n, _, rest in [rest.partition(" ")] if word == "segment"}
    head, body, block = bytearray(512), b"", 1
    head[64:192] = b" " * 128
    for slot in sorted(segments):
        data = segments[slot]
        head[4 * slot:4 * slot + 4] = block.to_bytes(2, "little") + len(data).to_bytes(2, "little")
        padded = data + bytes(-len(data) % 512)
        body, block = body + padded, block + len(padded) // 512
    for word, rest in case:
        if word == "name":
            slot, _, name = rest.partition(" ")
            head[64 + 8 * int(slot):72 + 8 * int(slot)] = unescape(name).ljust(8)[:8]
    data = head + body
    for word, rest in case:
        if word == "byte":
            place, value = map(int, rest.split())
            data[place] = value
        if word == "cut":
            data = data[:int(rest)]
    return bytes(data)


def source(case):
    text = b""
    for word, rest in case:
        count = re.fullmatch(r"(\d+)\*\|", word)
        if word == "|" or count:
            text += (unescape(rest) + b"\n") * (int(count[1]) if count else 1)
        elif word == "/":
            text += unescape(rest)
    return text


def is_source(case):
    return any(word in ("|", "/") or re.fullmatch(r"\d+\*\|", word) for word, _ in case)


def disks(case):
    """Makes the disks of a case; returns the arguments that name them."""
    given, code = [], dict(case)
    run("files", "--image", "w.img", "new", "WORK", code.get("blocks", "83"))
    put = run("files", "--image", "w.img", "put", "P", code.get("kind", "2"), given=code_file(case))
    if put[0] != 0:
        raise Unknown("put " + put[2])
    given += ["--d4", "w.img"]
    for word, rest in case:
        if word == "disk":
            unit, blocks = rest.split()
            run("files", "--image", "d%s.img" % unit, "new", "V", blocks)
            given += ["--d" + unit, "d%s.img" % unit]
    return given


def sessions(case):
    """The lines of the debugger with their answers: [line, [answers]]."""
    made = []
    for word, rest in case:
        if word == ">":
            made.append([rest, []])
        elif word in ("<", "=") and made:
            made[-1][1].append((word, rest))
    return made


def debugged(case, name):
    """The differences of the session of a case."""
    talk = sessions(case)
    if not talk:
        return []
    lines = b"".join(unescape(line) + b"\n" for line, _ in talk)
    status, out, message = run("debug", *disks(case), name, given=lines)
    wanted, got = [answer for _, answers in talk for answer in answers], out.decode("latin-1").split("\n")[:-1]
    if status == 2:
        got = [message]
    for k, (kind, text) in enumerate(wanted):
        one = got[k] if k < len(got) else None
        if one is None or (text != one if kind == "<" else text != "%d %s" % (len(one), digest(one.encode("latin-1")))):
            return ["debug: answer %d is %r, not %r" % (k + 1, one, text)]
    return [] if len(got) == len(wanted) else ["debug: %d answers, not %d" % (len(got), len(wanted))]


def name_of(case):
    name = unescape(dict(case).get("name", "P"))
    if (b"\0" in name and not IS_SOCKET) or name.startswith(b"-"):
        raise Unknown("name")
    return name


def bare(case):
    code, limit = dict(case), dict(case).get("limit", "100")
    status, out, message = run("raw", "--limit", limit, given=unhex(code["code"]).hex().encode())
    last = message if status == 2 else out.decode("latin-1").split("\n")[-2]
    return [] if last == code["end"] and code.get("trace") in (None, digest(out)) else ["raw: %s, not %s" % (last, code["end"])]


def texts(case):
    faults, code = [], dict(case)
    if is_source(case):
        text = source(case)
        status, out, message = run("asm", given=text)
        if "refused" in code:
            return [] if message == "refused " + code["refused"] else ["asm: %r" % message]
        listed = run("asm", "--list", given=text)[1]
        back = run("dis", given=out)[1]
        for word, data in (("code", out), ("listing", listed), ("shown", back)):
            if word in code and code[word] != "%d %s" % (len(data), digest(data)):
                faults.append("%s: %d %s, not %s" % (word, len(data), digest(data), code[word]))
        for word, rest in case:
            if word == "segment":
                slot, _, data = rest.partition(" ")
                at, size = (int.from_bytes(out[4 * int(slot) + k:4 * int(slot) + k + 2], "little") for k in (0, 2))
                if out[512 * at:512 * at + size] != unhex(data):
                    faults.append("segment " + slot)
        return faults
    status, out, message = run("dis", given=code_file(case))
    if "refused" in code:
        return [] if message == "refused " + code["refused"] else ["dis: %r" % message]
    if "shown" in code and code["shown"] != "%d %s" % (len(out), digest(out)):
        faults.append("dis: %d %s, not %s" % (len(out), digest(out), code["shown"]))
    return faults


def shows(case):
    faults, jobs = [], []
    for word, rest in case:
        if word in ("raw", "trace", "asm", "dis"):
            jobs.append([[word, *rest.split()], [], None, None])
        elif word == ">":
            break
        elif jobs and word == "<":
            jobs[-1][1].append(rest)
        elif jobs and word == "!":
            jobs[-1][2] = rest
        elif jobs and word == "=":
            jobs[-1][3] = rest
    code = dict(case)
    for words, lines, message, sums in jobs:
        if words[0] == "trace":
            status, out, said = run("trace", *words[1:], *disks(case), "P", given=unhex(code.get("keys", "")))
        else:
            given = unhex(code["code"]).hex().encode() if words[0] == "raw" else source(case) if is_source(case) else code_file(case)
            status, out, said = run(*words, given=given)
        right = sums == "%d %s" % (len(out), digest(out)) if sums else out.decode("latin-1") == "".join(line + "\n" for line in lines)
        if not right or (message or "") != said:
            faults.append("%s: %r %r" % (" ".join(words), out[:200], said))
    return faults + debugged(case, "P")


def boots(case):
    faults, code, name = [], dict(case), name_of(case)
    case = [(word, rest) for word, rest in case if word != "name"] # (which would be the name of a slot)
    keys, limit = unhex(code.get("keys", "")), ["--limit", code.get("limit", "200")]
    if "run" in code:
        given = disks(case)
        before = read("w.img")
        status, out, message = run("run", *limit, "--save", "--printer", "printer", *given, name, given=keys)
        printed = read("printer") if os.path.exists("printer") else b""
        after = read("w.img")
        for word, got in (("run", message), ("console", shown(out)), ("printer", shown(printed))):
            if code.get(word, "") != got:
                faults.append("%s: %s, not %s" % (word, got, code.get(word, "")))
        if code.get("image", digest(before)) != digest(after):
            faults.append("image: %s" % digest(after))
        if "trace" in code:
            out = run("trace", *limit, *disks(case), name, given=keys)[1]
            if digest(out) != code["trace"]:
                faults.append("trace: %s, not %s" % (digest(out), code["trace"]))
    return faults + debugged(case, name)


def changed(word, rest, image, remembered):
    """The image after a line without an answer; None if it is another line."""
    numbers = [int(part) for part in rest.split() if part.isdigit()]
    if word == "byte":
        return image[:numbers[0]] + bytes([numbers[1]]) + image[numbers[0] + 1:]
    if word == "bytes":
        place, _, data = rest.partition(" ")
        return image[:int(place)] + unhex(data) + image[int(place) + len(unhex(data)):]
    if word == "copy":
        begin, count, to = numbers
        return image[:to] + image[begin:begin + count] + image[to + count:]
    if word == "blank":
        return bytes(numbers[0])
    if word == "size":
        return image[:numbers[0]].ljust(numbers[0], b"\0")
    return {"back": remembered, "take": read("salvaged.img") if word == "take" else b""}.get(word)


def few(lines):
    """Lines of output; of more than 16 only their number and digest."""
    data = "".join(line + "\n" for line in lines).encode("latin-1")
    return ["%d lines %s" % (len(lines), digest(data))] if len(lines) > 16 else lines


def answer(word, rest, shorten):
    """What the verb answers on f.img, as the lines of a case; `shorten` is for the lines of a list."""
    words, given = [unescape(part) for part in rest.split(" ")] if rest else [], b""
    if word in ("put", "puttext"):
        parts = rest.split(" ", 2 if word == "put" else 1)
        words, given = [unescape(part) for part in parts[:-1]], content(parts[-1])
    if any(b"\0" in part for part in words) and not IS_SOCKET: # no argument of a process has one
        raise Unknown("a name with a zero byte")
    if word == "salvage":
        words = [b"salvaged.img", *(b"--second" for _ in words)]
        if os.path.exists("salvaged.img"):
            os.remove("salvaged.img")
    elif words[:1] == [b"--slot"]:
        words = [*words[:2], b"--", *words[2:]]
    else:
        words = [b"--", *words]
    status, out, message = run("files", "--image", "f.img", word, *words, given=given)
    lines = out.decode("latin-1").split("\n")[:-1]
    if word == "check":
        return few(lines) + [message] * (message != "")
    if status == 2:
        return [message]
    if word == "salvage":
        return few(lines) + ["ok " + digest(read("salvaged.img"))]
    if word == "list":
        return shorten(lines)
    if word in ("get", "gettext"):
        return ["hex " + out.hex() if len(out) <= 64 else "%d bytes %s" % (len(out), digest(out))]
    return ["ok " + digest(read("f.img"))]


def files(case, shorten=list):
    faults, remembered = [], b""
    for k, (word, rest) in enumerate(case):
        wanted = []
        for following, text in case[k + 1:]:
            if following not in ("<", "@"):
                break
            wanted += [text.rstrip()] if following == "<" else []
        if word in ("<", "@"):
            continue
        image = read("f.img") if os.path.exists("f.img") else b""
        if word == "keep":
            remembered = image
            continue
        left = changed(word, rest, image, remembered)
        if left is not None:
            write("f.img", left)
            continue
        got = [line.rstrip() for line in answer(word, rest, shorten)]
        if got != wanted:
            faults.append("%s %s: %s, not %s" % (word, rest, got[:3], wanted[:3]))
    return faults


RUNNERS = {"bare": bare, "texts": texts, "shows": shows, "boots": boots, "files": files, "disks": lambda case: files(case, few)}
total = differences = left_out = 0
for path in FILES:
    runner = RUNNERS.get(re.sub(r"\.cases$", "", os.path.basename(path)), shows)
    with open(path, encoding="latin-1") as file:
        groups = [group.rstrip("\n").split("\n") for group in re.split(r"\n(?=case )", "\n" + file.read()) if group.startswith("case ")]
    for group in groups[::every]:
        name, case = group[0], [(word, rest) for word, _, rest in (line.partition(" ") for line in group[1:]) if word]
        with tempfile.TemporaryDirectory() as folder:
            os.chdir(folder)
            try:
                faults = runner(case)
                total += 1
            except Unknown as unknown:
                faults, left_out = [], left_out + 1
                print("left out: %s of %s: %s" % (name, os.path.basename(path), unknown))
            finally:
                os.chdir("/")
        if faults:
            differences += 1
            print("%s of %s: %s" % (name, os.path.basename(path), "; ".join(faults)[:500]))
print("%d cases, %d differ, %d left out" % (total, differences, left_out))
sys.exit(1 if differences else 0)
