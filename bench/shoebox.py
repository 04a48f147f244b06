#!/usr/bin/env python3
"""shoebox.py FOLDER [SEED]: makes 28 images, like a user's box of old disks, from a seed.

Image N is FOLDER/N. The files that must be recovered from it are in FOLDER/N.d, named by their slots; texts are lines of text.
bench/folders.sh uses these images. No part of pmach makes them."""
import os
import random
import sys

SLOT, DIRECTORY, SECOND = 26, 1024, 3072
SECTORS = [0, 14, 13, 12, 11, 10, 9, 8, 7, 6, 5, 4, 3, 2, 1, 15]
CODE, TEXT, DATA = 2, 3, 5


def word(number):
    return number.to_bytes(2, "little")


def date(year, month, day):
    return word(month | day << 4 | year << 9)


def entry(first, end, kind, name, last, day):
    return word(first) + word(end) + word(kind) + bytes([len(name)]) + name.ljust(15, b"\0") + word(last) + day


def volume(name, blocks, files, copies=1):
    """A volume of files, one after the other. A file is a name, a kind and bytes."""
    at = 6 if copies == 1 else 10
    head = word(0) + word(at) + word(0) + bytes([len(name)]) + name.ljust(7, b"\0")
    head += word(blocks) + word(len(files)) + word(0) + date(84, 12, 1) + bytes(4)
    directory, rest = head, b""
    for title, kind, data in files:
        end = at + (len(data) + 511) // 512
        directory += entry(at, end, kind, title, (len(data) - 1) % 512 + 1 if data else 0, date(84, 12, 1))
        rest += data.ljust(512 * (end - at), b"\0")
        at = end
    directory = directory.ljust(2048, b"\0")
    return bytearray((bytes(1024) + directory * copies + rest).ljust(512 * blocks, b"\0"))


def text(lines):
    """A text file: two blocks of header, then pages of 1,024 bytes, in which no line is cut."""
    pages, page = b"", b""
    for line in lines:
        bare = line.lstrip(b" ")
        said = (bytes([16, 32 + len(line) - len(bare)]) if len(bare) < len(line) else b"") + bare + b"\r"
        if len(page) + len(said) > 1024:
            pages, page = pages + page.ljust(1024, b"\0"), b""
        page += said
    return bytes(1024) + pages + page.ljust(1024, b"\0")


def turned(data):
    """The sectors of each track in the order of DOS."""
    out = bytearray(len(data))
    for half in range(len(data) // 256):
        track, sector = divmod(half, 16)
        at = 4096 * track + 256 * SECTORS[sector]
        out[at : at + 256] = data[256 * half : 256 * half + 256]
    return out


def exchanged(data, places):
    out = bytearray(data)
    for place in places:
        out[place], out[place + 1] = out[place + 1], out[place]
    return out


def big(data, files):
    """The words of the directory and of the dictionaries of code files, the high byte first."""
    places = [DIRECTORY + k for k in (0, 2, 4, 14, 16, 18, 20)]
    at = 6
    for slot, (_, kind, body) in enumerate(files, 1):
        places += [DIRECTORY + SLOT * slot + k for k in (0, 2, 4, 22, 24)]
        if kind == CODE:
            places += [512 * at + k for k in [*range(0, 64, 2), *range(192, 288, 2)]]
        at += (len(body) + 511) // 512
    return exchanged(data, places)


def two_image(data, order, begin=64, tail=b""):
    """The image after a header of .2mg, which states its order: 0 for DOS order, 1 for blocks."""
    head = b"2IMGSHOE" + word(64) + word(1) + order.to_bytes(4, "little") + bytes(4)
    head += (len(data) // 512).to_bytes(4, "little") + begin.to_bytes(4, "little") + len(data).to_bytes(4, "little")
    return head + b"\xa5" * (begin - 32) + bytes(data) + tail


def disk_copy(data):
    """Behind a header of DiskCopy 4.2, with the sum."""
    total = 0
    for k in range(0, len(data), 2):
        total = (total + 256 * data[k] + data[k + 1]) % 2**32
        total = total >> 1 | (total & 1) << 31
    head = (b"\4SHOE").ljust(64, b"\0") + len(data).to_bytes(4, "big") + bytes(4)
    return head + total.to_bytes(4, "big") + bytes(4) + b"\0\x24\1\0" + bytes(data)


def some(numbers, most=4000):
    return bytes(numbers.randrange(256) for _ in range(numbers.randrange(1, most)))


def lines(numbers, count):
    letters = b"ABCDEFGHIJKLMNOPQRSTUVWXYZ abcdefghijklmnopqrstuvwxyz"
    made = []
    for _ in range(count):
        said = bytes(numbers.choice(letters) for _ in range(numbers.randrange(60))).strip()
        made.append((b" " * numbers.randrange(20) + said) if said else b"")
    return made


def shoe(numbers, count=12):
    kinds = [DATA, CODE, TEXT, 7]
    return [(b"FILE%d" % n, kinds[n % 4], some(numbers)) for n in range(count)]


class Box:
    def __init__(self, folder):
        self.folder = folder
        os.makedirs(folder)

    def put(self, number, image, files=(), texts=None):
        path = os.path.join(self.folder, str(number))
        with open(path, "wb") as out:
            out.write(image)
        os.makedirs(path + ".d")
        for slot, (_, _, data) in enumerate(files, 1):
            if data is not None:
                with open(os.path.join(path + ".d", str(slot)), "wb") as out:
                    out.write(texts if texts is not None else data)


def sound(box, numbers):
    files = shoe(numbers)
    plain = volume(b"SHOE", 280, files)
    box.put(1, plain, files)
    box.put(2, turned(plain), files)
    box.put(3, exchanged(plain, range(0, len(plain), 2)), files)
    box.put(4, big(plain, files), files)
    box.put(5, two_image(plain, 1, 64, b"a comment"), files)
    box.put(6, two_image(turned(plain), 0, 70), files)
    box.put(7, disk_copy(plain), files)
    box.put(8, turned(plain) + bytes(128), files)
    many = [(b"F%d" % n, DATA, some(numbers, 9000)) for n in range(77)]
    box.put(9, volume(b"FULL", 1600, many), many)
    large = [(b"BIG", DATA, bytes(range(256)) * 20000), (b"SMALL", DATA, some(numbers))]
    box.put(10, volume(b"LARGE", 65535, large), large)
    names = [b"A", b"LIST", b".HID", b"DUP", b"DUP", b"A/B", b"A%B", b"..", b"-F", b"A B", b"a", b"\xe9", b"A*", b"'A'"]
    odd = [(name, DATA, some(numbers)) for name in [*names, b"A\\B", b"$HOME", b"FIFTEEN.LETTERS"]]
    box.put(11, volume(b"ODD", 280, odd), odd)


def texts(box, numbers):
    for number, count in ((12, 30), (13, 400), (14, 0)):
        said = lines(numbers, count)
        files = [(b"A.TEXT", TEXT, text(said))]
        box.put(number, volume(b"TEXTS", 280, files), files, b"".join(line + b"\n" for line in said))
    plain = [(b"A.TEXT", TEXT, b"a plain text\n")]
    box.put(15, volume(b"TEXTS", 280, plain), plain)
    marks = b"".join(bytes([n]) for n in range(33, 256) if n not in (127,))
    files = [(b"A.TEXT", TEXT, text([marks, b"", marks]))]
    box.put(16, volume(b"TEXTS", 280, files), files, marks + b"\n\n" + marks + b"\n")


def hurt(box, numbers):
    files = shoe(numbers)
    left = [(name, kind, None if n == 4 else data) for n, (name, kind, data) in enumerate(files)]
    plain = volume(b"SHOE", 280, files)
    damaged = bytearray(plain)
    damaged[DIRECTORY + SLOT * 5 + 6] = 0
    box.put(17, damaged, left)
    box.put(18, turned(damaged), left)
    box.put(19, two_image(turned(damaged), 0), left)
    second = volume(b"SHOE", 280, files, 2)
    second[DIRECTORY + SLOT * 5 + 6] = 0
    box.put(20, second, files)
    shared = bytearray(plain)
    shared[DIRECTORY + SLOT * 2 : DIRECTORY + SLOT * 2 + 2] = plain[DIRECTORY + SLOT : DIRECTORY + SLOT + 2]
    box.put(21, shared, [(n, k, None if n == b"FILE1" else d) for n, k, d in files])
    box.put(22, plain + bytes(5120), files)
    begins, at = [], 6
    for _, _, data in files:
        at += (len(data) + 511) // 512
        begins.append(at)
    cut = begins[7]
    box.put(23, plain[: 512 * cut], [(n, k, d if end <= cut else None) for (n, k, d), end in zip(files, begins)])
    box.put(24, plain + b"x", files)


def foreign(box):
    box.put(25, (bytes(69632) + b"\4\x11\x0f\3").ljust(143360, b"\0"))
    box.put(26, (bytes(1024) + b"\0\0\3\0\xf5OTHER").ljust(143360, b"\0"))
    box.put(27, (bytes(1024) + b"BD").ljust(819200, b"\0"))
    box.put(28, bytes([0xD5, 0xAA, 0x96, 0xFF]) * (232960 // 4))


def main():
    box, numbers = Box(sys.argv[1]), random.Random(int((sys.argv + ["28"])[2]))
    sound(box, numbers)
    texts(box, numbers)
    hurt(box, numbers)
    foreign(box)


main()
