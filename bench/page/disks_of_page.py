#!/usr/bin/env python3
"""Images for looks.js, and what the native program does with them: `disks_of_page.py` prints them as JSON. PMACH names the
native program. Bytes are packed by gzip, in base64."""
import base64
import gzip
import json
import os
import re
import subprocess
import sys
import tempfile

ROOT = os.path.join(os.path.dirname(os.path.abspath(__file__)), "..", "..")
PMACH = os.path.abspath(os.environ.get("PMACH", os.path.join(ROOT, "pmach")))
PROGRAMS = ROOT + "/examples/system/programs/"
NOTE = b"one\ntwo\n"  # the text that looks.js adds to each disk


def disks_of_page():
    with tempfile.TemporaryDirectory() as folder:
        return made_in(folder)


def made_in(folder):
    path = lambda name: os.path.join(folder, name)

    def native(*words, given=b""):
        done = subprocess.run([PMACH, *words], input=given, stdout=subprocess.PIPE, stderr=subprocess.PIPE, cwd=folder, check=False)
        return done.returncode, done.stdout, done.stderr

    def done(*words, given=b""):
        status, out, message = native(*words, given=given)
        if status != 0:
            raise RuntimeError("%s: status %d: %s" % (" ".join(words), status, message.decode()))
        return out

    def read(name):
        with open(path(name), "rb") as file:
            return file.read()

    def write(name, data):
        with open(path(name), "wb") as file:
            file.write(data)

    def packed(data):
        return base64.b64encode(gzip.compress(data, 9, mtime=0)).decode()

    def text(name):
        with open(name, "rb") as file:
            return file.read()

    code, system, keys = [text(name) for name in (PROGRAMS + "guess.text", ROOT + "/examples/system/system.text", PROGRAMS + "guess.in")]
    code = done("asm", given=code)
    for name, blocks in (("shoe.img", 280), ("small.img", 60)):
        done("files", "--image", name, "new", "SHOE", str(blocks))
        done("files", "--image", name, "put", "GUESS", "code", given=code)

    # each format: the image, its line of `convert`, and the image that has the text added
    formats = []
    for name, form, old in (("shoe.dsk", "dos", "shoe.img"), ("long.dsk", "dos", "shoe.img"), ("shoe.2mg", "2mg-blocks", "small.img"), ("dos.2mg", "2mg-dos", "shoe.img"),
                            ("shoe.dc42", "dc42-blocks", "small.img"), ("shoe.swp", "swapped", "small.img"), ("shoe.big", "big", "small.img"), ("long.po", "blocks", "shoe.img")):
        done("convert", "--as", form, old, name)
        if name.startswith("long"):
            write(name, read(name) + bytes(range(128)))  # 128 bytes too many
        done("convert", name, "work")
        plain = read("work")
        done("files", "--image", "work", "puttext", "NOTE.TEXT", given=NOTE)
        done("convert", "--back", name, "work", "new")
        formats.append({"name": name, "format": form, "image": packed(read(name)), "plain": packed(plain), "blocks": packed(read("work")), "saved": packed(read("new"))})
        os.unlink(path("work"))
        os.unlink(path("new"))

    # an image with a directory in each of two orders: in DOS order the directory begins with sectors 11 and 10, which are a
    # part of the directory's end in the order of blocks
    done("files", "--image", "one.img", "new", "ONE", "280")
    done("files", "--image", "other.img", "new", "OTHER", "280")
    done("convert", "--as", "dos", "other.img", "other.dsk")
    both, other = bytearray(read("one.img")), read("other.dsk")
    both[10 * 256:12 * 256] = other[10 * 256:12 * 256]
    write("both.dsk", both)
    status, lines, _ = native("convert", "both.dsk")
    if status != 2 or lines.count(b"\n") != 2:
        raise RuntimeError("both.dsk does not have two formats: %r" % lines)
    saves = {}
    for line in lines.decode().splitlines():
        form = line.split(" ")[0]
        done("convert", "--form", form, "both.dsk", "work")
        done("files", "--image", "work", "puttext", "NOTE.TEXT", given=NOTE)
        done("convert", "--form", form, "--back", "both.dsk", "work", "new")
        saves[form] = packed(read("new"))
        os.unlink(path("work"))
        os.unlink(path("new"))

    # GUESS with and without the system segment
    write("system.code", done("asm", given=system))
    typed = keys.replace(b"\n", b"\r")
    ran = [native("run", "--d4", "small.img", *more, "GUESS", given=typed) for more in (("--system", "system.code"), ())]
    # a damaged disk: the name of its first entry is empty
    subprocess.run([ROOT + "/examples/disk.sh", path("damaged.img")], check=True, env=dict(os.environ, PMACH=PMACH))
    data = bytearray(read("damaged.img"))
    data[1056] = 0
    write("damaged.img", data)
    report = done("files", "--image", "damaged.img", "salvage", "salvaged.img")

    # damaged disks in other formats; of .2mg only blocks in order, because the new header of `salvage` always has this order
    others = []
    for name, form in (("broken.dsk", "dos"), ("broken.2mg", "2mg-blocks"), ("broken.swp", "swapped")):
        write("broken", read("shoe.img"))
        done("files", "--image", "broken", "puttext", "NOTE.TEXT", given=NOTE)
        data = bytearray(read("broken"))
        data[1056] = 0
        write("broken", data)
        done("convert", "--form", "blocks", "--as", form, "broken", name)
        done("convert", "--form", form, name, "plain")
        faults = native("files", "--image", "plain", "check")
        lines_of_salvage = done("files", "--form", form.split("-")[0], "--image", name, "salvage", "new")
        others.append({"name": name, "format": form, "image": packed(read(name)), "faults": (faults[1] + faults[2].split(b"\n")[0]).decode(),
                       "report": lines_of_salvage.decode(), "saved": packed(read("new"))})
        for used in ("broken", "plain", "new"):
            os.unlink(path(used))

    # disks whose first directory is damaged, and whose second one is not
    repaired = []
    for name, form in (("second.img", "blocks"), ("second.dsk", "dos"), ("second.2mg", "2mg-blocks"), ("second.swp", "swapped")):
        done("files", "--image", "good", "new", "SECOND", "280")
        done("files", "--image", "good", "duplicate")
        done("files", "--image", "good", "puttext", "NOTE.TEXT", given=NOTE)
        data = bytearray(read("good"))
        data[1056] = 0
        write("broken", data)
        done("convert", "--form", "blocks", "--as", form, "broken", name)
        write("new", read(name))
        done("files", "--form", form.split("-")[0], "--image", "new", "repair")
        repaired.append({"name": name, "image": packed(read(name)), "saved": packed(read("new"))})
        for used in ("good", "broken", "new"):
            os.unlink(path(used))

    # a disk saved in each format
    plain = {}
    for head, end in (("", ".img"), ("2mg-", ".2mg"), ("dc42-", ".dc42")):
        for order in ("blocks", "dos", "swapped", "big"):
            done("convert", "--as", head + order, "shoe.img", "new")
            plain[head + order] = {"name": "plain" + (".dsk" if head + order == "dos" else end), "image": packed(read("new"))}
            os.unlink(path("new"))

    # searches: two disks in units and one in a list, with what `info`, `grep` and `diff` print
    cats, dogs = b"Two cats.\nBlack cats are quick.\n", b"Dogs.\n"
    for name, volume in (("a.img", "A"), ("b.img", "B"), ("c.img", "C")):
        done("files", "--image", name, "new", volume, "280")
    for name, *files in (("a.img", ("CATS.TEXT", cats), ("SAME.TEXT", dogs), ("KIND", b"1"), ("MINE", b"mine")),
                         ("b.img", ("CATS.TEXT", cats.replace(b"quick", b"Quick")), ("SAME.TEXT", dogs), ("DOGS.TEXT", dogs), ("KIND", b"1")),
                         ("c.img", ("MICE.TEXT", b"Mice.\n: 7: x\nA black mouse.\n"))):
        for file, data in files:
            if file.endswith(".TEXT"):
                done("files", "--image", name, "puttext", file, given=data)
            else:
                done("files", "--image", name, "put", file, "data" if name == "a.img" or file != "KIND" else "info", given=data)
    done("convert", "--as", "dos", "c.img", "c.dsk")
    write("junk.bin", bytes(700))
    searched = ["a.img", "b.img", "c.dsk", "junk.bin"]
    grep = []
    for words in ("cats", "Black", "7: x", "mouse", "no such words"):
        status, out, _ = native("grep", words, *searched)
        hits = [line.split(": ", 3) for line in out.decode().splitlines() if line != "junk.bin: no volume"]
        grep.append({"words": words, "lines": ["%s %s %s" % (hit[1], hit[2], hit[3]) for hit in hits],
                     "found": "%d line%s on 3 disks" % (len(hits), "" if len(hits) == 1 else "s") if hits else "Nothing was found on 3 disks"})
    diff, row = [], ""
    for line in native("files", "--image", "a.img", "diff", "b.img")[1].decode().splitlines():
        result, name = line.split(": ")[:2]
        rest = line.split(": ")[2:]
        words = result if not rest else "same bytes, different kinds" if rest == ["kind"] else "differ from %s on" % rest[0]
        diff.append("|".join([name, words, {"only here": "here", "only there": "there"}.get(result, "herethere")]))
        if rest and rest[0].startswith("byte"):
            row = "%06X" % (int(rest[0].split()[1]) // 16 * 16)
    info = []
    for line in native("info", *searched)[1].decode().splitlines():
        parts = re.fullmatch(r"(\S+): (\S+) (\S+): files (\d+), free (\d+), largest \d+", line)
        info.append("|".join(parts.groups()) if parts else line.split(": ")[0] + "||||")
    free = [re.search(r"free (\d+)", done("info", name).decode())[1] for name in ("shoe.dsk", "shoe.dc42")]
    return {
        "note": NOTE.decode(), "formats": formats,
        "both": {"image": packed(read("both.dsk")), "lines": lines.decode().splitlines(), "saved": saves},
        "guess": {"image": packed(read("small.img")), "keys": list(typed), "console": list(ran[0][1]), "ended": ran[0][2].decode().split()[-2:], "without": ran[1][2].decode().split()[:2]},
        "damaged": {"image": packed(read("damaged.img")), "report": report.decode(), "volume": packed(read("salvaged.img"))},
        "others": others, "repaired": repaired, "plain": {"image": packed(read("shoe.img")), "saved": plain}, "free": free,
        "searches": {"images": [{"name": name, "image": packed(read(name))} for name in searched], "grep": grep, "diff": diff, "row": row, "info": info},
    }


if __name__ == "__main__":
    json.dump(disks_of_page(), sys.stdout)
