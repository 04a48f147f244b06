"""Makes one HTML file of a disk image: the page of ./pmach --page, with the disk inside.

    site.sh IMAGE FILE.html

In a browser FILE.html opens on the disk: its files, its programs and the debugger (docs/PAGE.md). It contains the image as it
is, so the page finds its format, and saves the disk in this format. Of a damaged image the page shows the faults, and can
salvage its files. The same image and page give the same bytes.

FILE.html is a new file. Nothing is replaced, and no link is followed. The page is out/unproved/pmach.html of the clone, or the
installed one; the variable PMACH_PAGE can name another. Status 0: success; 1: invalid command line, or FILE.html exists or
cannot be written; 2: IMAGE or the page cannot be read."""
import base64
import gzip
import html
import os
import re
import sys

ROOT = os.path.dirname(os.path.dirname(os.path.dirname(os.path.abspath(__file__))))
ELEMENT = b'<script type="application/octet-stream" id="inside" data-name=""></script>'
LARGEST = 65536 * 512  # bytes: more than any volume has, also with a header


def stop(status, reason):
    print("site.sh: %s" % re.sub(r"[^\x20-\x7e]", "?", reason), file=sys.stderr)
    sys.exit(status)


def read(path, limit):
    """Returns the bytes of a file."""
    try:
        with open(path, "rb") as file:
            data = file.read(limit + 1)
    except OSError as fault:
        stop(2, "%s cannot be read: %s" % (path, fault.strerror))
    if len(data) > limit:
        stop(2, "%s has more than %d bytes" % (path, limit))
    return data


def page():
    """Returns the page that ./pmach --page built, the proved one first."""
    built = [os.path.join(ROOT, "out", kind, "pmach.html") for kind in ("proved", "unproved")]
    built.append(os.path.join(ROOT, "pmach.html"))
    named = os.environ.get("PMACH_PAGE")
    for path in [named] if named else built:
        if os.path.isfile(path):
            text = read(path, LARGEST)
            if text.count(ELEMENT) != 1:
                stop(2, "%s is not a page of this version; build it again: ./pmach --page" % path)
            return text
    stop(2, "there is no page; build it first: ./pmach --page")


def write(path, data):
    """Writes a new file. If this fails, the file is removed."""
    try:
        file = os.open(path, os.O_WRONLY | os.O_CREAT | os.O_EXCL | os.O_NOFOLLOW, 0o666)
    except FileExistsError:
        stop(1, "%s exists; this script replaces no file" % path)
    except OSError as fault:
        stop(1, "%s cannot be written: %s" % (path, fault.strerror))
    try:
        with os.fdopen(file, "wb") as out:
            out.write(data)
    except OSError as fault:
        os.unlink(path)
        stop(1, "%s could not be written: %s" % (path, fault.strerror))


def main():
    if len(sys.argv) != 3:
        stop(1, "usage: site.sh IMAGE FILE.html")
    image, path = sys.argv[1:]
    text, name = page(), os.fsencode(os.path.basename(image)).decode("utf-8", "replace")
    shown = html.escape(re.sub(r"[\x00-\x1f\x7f]", "?", name), quote=True)
    packed = base64.b64encode(gzip.compress(read(image, LARGEST), 9, mtime=0))
    element = ELEMENT.replace(b'data-name="">', b'data-name="%s">%s' % (shown.encode(), packed))
    made = text.replace(ELEMENT, element)
    write(path, made)
    print("%s: %d bytes; open it in a browser" % (path, len(made)))


main()
