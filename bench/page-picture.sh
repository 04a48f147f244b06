#!/bin/bash
# `page-picture.sh [PAGE]` makes docs/page.png, the picture of the README: the page of ./pmach --page with a sample disk, whose
# program HANOI has stopped at a breakpoint, as Chromium shows it. Requires chromium and python3. Run manually after the page
# has changed. PAGE is by default out/unproved/pmach.html.
here=$(readlink -f "$(dirname "$0")/..")
page=$(readlink -f "${1:-$here/out/unproved/pmach.html}")
scratch=$(mktemp -d)
trap 'rm -rf "$scratch"' EXIT
cd "$scratch" && "$here/examples/disk.sh" kept.img || exit
PYTHONDONTWRITEBYTECODE=1 PYTHONPATH="$here/bench/page" python3 - "$page" <<'PYTHON' || exit
import collections
import struct
import sys
import zlib
from cdp import Browser


def rows_of(png):
    """The rows of a PNG with 8 bits for each of 3 or 4 channels, and the bytes of a pixel."""
    at, data, (width, height, _, kind) = 8, b"", struct.unpack(">IIBB", png[16:26])
    while at < len(png):
        length = int.from_bytes(png[at:at + 4], "big")
        data += png[at + 8:at + 8 + length] if png[at + 4:at + 8] == b"IDAT" else b""
        at += length + 12
    data, step, before, rows = zlib.decompress(data), {2: 3, 6: 4}[kind], bytes(width * 4), []
    for y in range(height):
        begin = y * (width * step + 1)
        how, row = data[begin], bytearray(data[begin + 1:begin + 1 + width * step])
        for x in range(len(row)):
            left, up, corner = row[x - step] if x >= step else 0, before[x], before[x - step] if x >= step else 0
            guess = left + up - corner
            nearest = min((left, up, corner), key=lambda one: abs(guess - one))
            row[x] = row[x] + (0, left, up, (left + up) // 2, nearest)[how] & 255
        rows.append(row)
        before = row
    return rows, step


def with_palette(png):
    """The picture with its 256 most frequent colors, each other one replaced by the nearest of them."""
    rows, step = rows_of(png)
    pixels = [[tuple(row[x:x + 3]) for x in range(0, len(row), step)] for row in rows]
    colors = [color for color, _ in collections.Counter(pixel for row in pixels for pixel in row).most_common(256)]
    number = {color: k for k, color in enumerate(colors)}
    for pixel in {pixel for row in pixels for pixel in row} - set(colors):
        number[pixel] = min(range(len(colors)), key=lambda k: sum((a - b) ** 2 for a, b in zip(colors[k], pixel)))
    part = lambda name, data: struct.pack(">I", len(data)) + name + data + struct.pack(">I", zlib.crc32(name + data))
    head, data = struct.pack(">IIBBBBB", len(pixels[0]), len(rows), 8, 3, 0, 0, 0), b"".join(b"\0" + bytes(number[pixel] for pixel in row) for row in pixels)
    return png[:8] + part(b"IHDR", head) + part(b"PLTE", b"".join(map(bytes, colors))) + part(b"IDAT", zlib.compress(data, 9)) + part(b"IEND", b"")


browser = Browser()
try:
    browser.do("Emulation.setDeviceMetricsOverride", width=1600, height=760, deviceScaleFactor=1, mobile=False)
    browser.do("Emulation.setScrollbarsHidden", hidden=True)
    browser.do("Emulation.setEmulatedMedia", features=[{"name": "prefers-color-scheme", "value": "light"}])
    browser.open(sys.argv[1])
    browser.files("#image", "kept.img")
    browser.wait("disk !== null")
    browser.js("choose(filesOf(text(library.ask('list', disk.data).bytes).split('\\n'), 4)[0]); $('debug').click(); library.line('break 1 3 0'); $('go').click(); 0")
    for command in ("on 1", "go"):
        browser.wait("running === null")
        browser.js("$('go').click(); 0")
    browser.wait("running === null")
    browser.js("trace(9); scrollTo(0, 0); document.activeElement.blur(); 0")
    browser.shot("page.png")
finally:
    browser.close()
with open("page.png", "rb") as file:
    made = with_palette(file.read())
with open("page.png", "wb") as file:
    file.write(made)
PYTHON
[ "$(stat -c %s page.png)" -le 100000 ] || { echo "page-picture.sh: the picture has more than 100,000 bytes" >&2 && exit 1; }
cp page.png "$here/docs/page.png" && ls -l "$here/docs/page.png"
