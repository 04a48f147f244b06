#!/usr/bin/env python3
"""damaged.py [SEED [COUNT]]: damages one byte of the directory of an image, in every format, and follows the messages.

The script lists the files of each image, and then does what the message suggests, as a person at a terminal would:
`files --form`, `convert`, `files salvage` to a volume or to a folder. If no message names a format, `salvage` is tried with
each format, as docs/DISKS.md says. A file must be recovered with its bytes if its own entry is undamaged. The script prints
a line for each file that is not recovered, and at the end the numbers of images and files. Status 0: every file was
recovered. Run manually; some minutes; not part of the gate. The variable PMACH can name another program than ./pmach."""
import os
import pty
import random
import re
import subprocess
import sys
import tempfile

HERE = os.path.dirname(os.path.dirname(os.path.realpath(__file__)))
PMACH = os.environ.setdefault("PMACH", os.path.join(HERE, "pmach"))
ORDERS = ["blocks", "dos", "swapped", "big"]
FRONTS = ["", "2mg-", "dc42-"]


def run(words, data=b""):
    """A command's standard output, and its standard error, which is a terminal."""
    ours, theirs = pty.openpty()
    process = subprocess.Popen(words, stdin=subprocess.PIPE, stdout=subprocess.PIPE, stderr=theirs)
    out = process.communicate(data)[0]
    os.close(theirs)
    said = b""
    try:
        while part := os.read(ours, 4096):
            said += part
    except OSError:
        pass
    os.close(ours)
    return process.returncode, out, said.decode("latin-1").replace("\r\n", "\n")


def files(image, *words, data=b""):
    return run([PMACH, "files", "--image", image, *words], data)


def made(numbers):
    """A disk of 280 blocks with twelve files, by name, and the image's bytes."""
    wanted = {}
    files("disk", "new", "SHOE", "280")
    files("disk", "date", "84", "12", "1")
    for n in range(12):
        name, kind = f"FILE{n}", ["data", "code", "text", "7"][n % 4]
        wanted[name] = bytes(numbers.randrange(256) for _ in range(numbers.randrange(1, 6000)))
        files("disk", "put", name, kind, data=wanted[name])
    with open("disk", "rb") as image:
        return wanted, bytearray(image.read())


def exchanged(data, places):
    turned = bytearray(data)
    for place in places:
        turned[place], turned[place + 1] = turned[place + 1], turned[place]
    return turned


def big_places(data):
    """The offsets of the words of the directory and of the dictionaries."""
    places = []
    for slot in range(78):
        at = 1024 + 26 * slot
        places += [at + k for k in ([0, 2, 4, 14, 16, 18, 20] if slot == 0 else [0, 2, 4, 22, 24])]
    for slot in range(1, 13):
        at = 1024 + 26 * slot
        if data[at + 4] % 16 == 2:
            block = 512 * (data[at] + 256 * data[at + 1])
            places += [block + k for k in [*range(0, 64, 2), *range(192, 288, 2)]]
    return places


def sum_of(data):
    total = 0
    for k in range(0, len(data), 2):
        total = (total + 256 * data[k] + data[k + 1]) % 2**32
        total = total // 2 + total % 2 * 2**31
    return total


def in_form(front, order, data, sound):
    """The blocks in a form; `sound` has them before the damage."""
    if order == "dos":
        turned = bytearray(len(data))
        places = [0, 14, 13, 12, 11, 10, 9, 8, 7, 6, 5, 4, 3, 2, 1, 15]
        for half in range(len(data) // 256):
            track, sector = divmod(half, 16)
            at = 4096 * track + 256 * places[sector]
            turned[at : at + 256] = data[256 * half : 256 * half + 256]
    elif order == "swapped":
        turned = exchanged(data, range(0, len(data), 2))
    elif order == "big":
        turned = exchanged(data, big_places(sound))
    else:
        turned = data
    if front == "2mg-":
        said = b"\0" if order == "dos" else b"\1"
        head = b"2IMGTEST" + (64).to_bytes(2, "little") + b"\1\0" + said + bytes(7) + (280).to_bytes(4, "little")
        return head + (64).to_bytes(4, "little") + len(turned).to_bytes(4, "little") + bytes(32) + turned
    if front == "dc42-":
        head = b"\4SHOE" + bytes(59) + len(turned).to_bytes(4, "big") + bytes(4)
        return head + sum_of(turned).to_bytes(4, "big") + bytes(4) + b"\0\x24\1\0" + turned
    return bytes(turned)


def taken(image, names, form=()):
    """The files of an image that opens, by name."""
    return {name: files(image, *form, "get", name)[1] for name in names}


def taken_out(folder):
    """The files of a folder that `files salvage` made."""
    found = {}
    with open(os.path.join(folder, "LIST"), encoding="latin-1") as lines:
        for line in list(lines)[1:]:
            host, name = line.split("\t")[:2]
            with open(os.path.join(folder, host), "rb") as file:
                found.setdefault(name, file.read())
    return found


def most_saved():
    """The files that salvage takes in the format in which it takes the most."""
    most, found = 0, {}
    for form in (front + order for front in FRONTS for order in ORDERS):
        if run([PMACH, "convert", "--form", form, "hurt", form])[0] != 0:
            continue
        _, lines, _ = files(form, "salvage", "from-" + form + "/")
        count = re.search(rb"^files (\d+) ", lines, re.MULTILINE)
        if count and int(count[1]) > most:
            most, found = int(count[1]), taken_out("from-" + form)
    return found


def got(names):
    """The files that are recovered from the image `hurt` by following the answers, and the answers."""
    form, told = (), []
    for _ in range(4):
        status, _, said = files("hurt", *form, "list")
        told.append(said)
        if status == 0:
            return taken("hurt", names, form), told
        if word := re.search(r"--form (\w+) (?:to the command|reads it)", said):
            form = ("--form", word[1])
        elif "files salvage NEW" in said:
            files("hurt", *form, "salvage", "saved")
            return taken("saved", names, form), told
        elif "files repair" in said:
            files("hurt", *form, "repair")
        elif "pmach convert" in said:
            status, _, said = run([PMACH, "convert", "hurt", "in-order"])
            told.append(said)
            return (taken("in-order", names) if status == 0 else most_saved()), told
        else:
            break
    return {}, told


def main():
    seed, count = (int(word) for word in (sys.argv[1:] + ["1", "150"][len(sys.argv) - 1 :])[:2])
    numbers = random.Random(seed)
    missing = total = 0
    for case in range(count):
        with tempfile.TemporaryDirectory() as scratch:
            os.chdir(scratch)
            wanted, sound = made(numbers)
            place = 1024 + numbers.randrange(26 * 13)
            value = numbers.randrange(256)
            hurt = bytearray(sound)
            hurt[place] = value
            front, order = FRONTS[case // 4 % 3], ORDERS[case % 4]
            with open("hurt", "wb") as image:
                image.write(in_form(front, order, hurt, sound))
            slot = (place - 1024) // 26
            names = [name for n, name in enumerate(wanted) if slot != n + 1 or value == sound[place]]
            found, told = got(names)
            lost = [name for name in names if found.get(name) != wanted[name]]
            total += len(names)
            missing += len(lost)
            if lost:
                what = f"byte {place - 1024 - 26 * slot} of slot {slot} from {sound[place]} to {value}"
                print(f"{case}: {front}{order}, {what}: {len(lost)} of {len(names)} missing; {told}")
            os.chdir("/")
    print(f"images {count} files {total} missing {missing}")
    return missing != 0


if __name__ == "__main__":
    sys.exit(main())
