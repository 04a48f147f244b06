"""Makes web pages of a disk image, from the output of pmach.

    site.py IMAGE FOLDER [--run NAME [--input FILE] [--limit N]]

It writes FOLDER/index.html with the volume, a map of its blocks and the output of `check`, and a page for each file. An image in another
format is converted by `pmach convert`. For a damaged image the pages show the files that `salvage` copies. All bytes of the disk are shown as text:
they never become markup, a path or a script, and a policy in each page forbids scripts. The same image gives the same pages.

FOLDER is new, or was made by this script: then its pages are replaced. The pages are written into the directory FOLDER.new-N, which then takes
the place of FOLDER in one step. If the script is killed, FOLDER has all old pages or all new ones, and FOLDER.new-N may remain; delete it.

A page shows only the first part of a long text, of a long disassembly or of much output. Status 0: success; 1: invalid command line, or the
pages could not be written; 2: neither a volume nor a file was found."""
import argparse
import contextlib
import ctypes
import html
import os
import re
import signal
import stat
import subprocess
import sys
import tempfile
import threading
import time

HERE = os.path.dirname(os.path.abspath(__file__))
EXAMPLES = os.path.dirname(HERE)
PMACH = os.environ.get("PMACH", os.path.join(os.path.dirname(EXAMPLES), "pmach"))
MARK = ".pmach-site"
PAGE = re.compile(r"(index|run|file-\d\d)\.html")
# The bytes of a file and of console output that a page shows; the lines of a text and of p-code that it shows; the steps of a run.
DUMPED, LINES, LISTED, STEPS = 65536, 20000, 60000, 2_000_000
# The procedures in the picture of a run.
NODES = 50_000
# The bytes of an image; the bytes that are read of one output of the program, and of all outputs for the pages of files.
IMAGE, READ, ALL_READ = 33_554_432, 4_000_000, 48_000_000
# The seconds of processor time that the program may take for one output for the page of a file, and for a run; the seconds of any output.
WORK, RUN, SECONDS = 3, 60, 600

STYLE = """:root{color-scheme:light dark;--ink:#1b1b1b;--paper:#fdfdfb;--line:#bbb;--soft:#f0efe9;--link:#0b4f9e;--bad:#b3261e}
@media(prefers-color-scheme:dark){:root{--ink:#e6e4de;--paper:#17181a;--line:#555;--soft:#242629;--link:#8ab4f8;--bad:#ff9c94}}
body{margin:0 auto;max-width:64rem;padding:1rem;font:16px/1.5 system-ui,sans-serif;color:var(--ink);background:var(--paper)}
a{color:var(--link)}h1,h2,h3{line-height:1.2}table{border-collapse:collapse;margin:1rem 0}
th,td{border:1px solid var(--line);padding:.2rem .6rem;text-align:left;vertical-align:top}th{background:var(--soft)}td.n{text-align:right}
pre{background:var(--soft);padding:.7rem;overflow-x:auto;font:13px/1.45 ui-monospace,monospace}.scroll{overflow-x:auto}
svg{width:100%;height:auto;background:var(--soft);display:block}figure svg{width:auto;max-width:100%}svg text{font:12px ui-monospace,monospace;fill:#111}
.directory{fill:#8d99ae}.code{fill:#6a994e}.text{fill:#e0a458}.data{fill:#5c8ec9}.other{fill:#a984c2}.gap{fill:none}.beyond{fill:#ddd}
.doubt{fill:#d1495b}rect{stroke:#fff;stroke-width:.5}.bad{color:var(--bad);font-weight:600}.key span{display:inline-block;width:1em;height:1em;margin:0 .3em 0 1em}
:target{outline:2px solid var(--link)}nav{margin-bottom:1rem}"""
KEY = {"directory": "#8d99ae", "code": "#6a994e", "text": "#e0a458", "data": "#5c8ec9", "other": "#a984c2", "doubt": "#d1495b"}


def told(text):
    """Returns any text as the text of a page: without markup, and with each control character as its number."""
    return html.escape(re.sub(r"[^\n\x20-\x7e]", lambda c: "\\x%02x" % ord(c[0]), text), quote=True)


def pmach(words, given=b""):
    """Returns the exit status of pmach, its output and its messages."""
    done = subprocess.run([PMACH, *words], input=given, stdout=subprocess.PIPE, stderr=subprocess.PIPE)
    return done.returncode, done.stdout, done.stderr.decode("latin-1").strip()


def latin(data):
    return data.decode("latin-1")


class Bound:
    """How many more bytes of output the pages may read. A small disk can have texts and disassemblies of any length."""

    left = ALL_READ


@contextlib.contextmanager
def running(words, given, errors, work):
    """Runs pmach with a limit on its processor time. It is ended if its output was not read to the end. After SECONDS it is ended, which is an
    error."""
    limited = ["sh", "-c", 'ulimit -t "$0" && exec "$@"', str(work), PMACH]
    with tempfile.TemporaryFile() as source:
        source.write(given)
        source.seek(0)
        with subprocess.Popen([*limited, *words], stdin=source, stdout=subprocess.PIPE, stderr=errors) as ran:
            late = threading.Timer(SECONDS, ran.kill)
            late.start()
            try:
                yield ran
            finally:
                is_late = not late.is_alive()
                late.cancel()
                ran.kill()
    if is_late:
        raise TimeoutError("pmach %s took more than %d seconds" % (words[0], SECONDS))


def bounded(words, given=b"", most=None):
    """As pmach, but reads at most MOST bytes of the output, by default READ and what is left for all pages. If there are more, or if the
    program takes too long, it is ended. The last value states whether output was left out for one of these reasons."""
    limit = min(READ, Bound.left) if most is None else most
    with tempfile.TemporaryFile() as errors:
        with running(words, given, errors, WORK if most is None else RUN) as ran:
            out = ran.stdout.read(limit + 1)
            is_cut = len(out) > limit or ran.wait() == -signal.SIGXCPU
            status = 0 if is_cut else ran.wait()
        errors.seek(0)
        message = latin(errors.read(DUMPED)).strip()
    if most is None:
        Bound.left -= min(len(out), limit)
    if status < 0:
        raise ChildProcessError("pmach %s was ended by signal %d" % (words[0], -status))
    return status, out[:limit], message, is_cut


def lines_of(words, given):
    """The whole lines of such an output, and whether more were left out."""
    _, out, _, is_cut = bounded(words, given)
    lines = latin(out).splitlines()
    return (lines[:-1] if is_cut else lines), is_cut


# ---- the disk


class Entry:
    """A file of the directory, with its slot."""

    def __init__(self, slot, name, kind, first, blocks, last, date):
        self.slot, self.name, self.kind, self.first, self.blocks, self.last, self.date = slot, name, kind, first, blocks, last, date
        self.doubt = ""

    @property
    def page(self):
        return "file-%02d.html" % self.slot

    @property
    def look(self):
        return "doubt" if self.doubt else self.kind if self.kind in ("code", "text", "data") else "other"


class Disk:
    """A volume: its image with blocks in order, the list of its files, and messages about it."""

    def __init__(self, path, given, scratch):
        self.notes, self.path, self.given, self.form = [], path, given, "blocks"
        self.findings = latin(pmach(["files", "--image", path, "check"])[1]).splitlines()
        if not self.listed():
            self.brought(scratch)
        if not self.listed():
            self.saved(scratch)

    def listed(self):
        status, out, self.message = pmach(["files", "--image", self.path, "list"])
        if status:
            return False
        lines = latin(out).splitlines()
        self.name, self.files, self.space = lines[0].rstrip(":"), [], lines[-1]
        for slot, line in enumerate(lines[1:-1], 1):
            kind, first, blocks, last, date = line[16:].split()
            self.files.append(Entry(slot, line[:15].rstrip(), kind, int(first), int(blocks), int(last), date))
        return True

    def brought(self, scratch):
        """Converts an image in another format to blocks, if one format fits or `check` names one."""
        new = os.path.join(scratch, "blocks")
        told_forms = [line.split()[2] for line in self.findings if line.startswith("note form ")]
        for options in [[]] + [["--form", form_name] for form_name in told_forms]:
            status = pmach(["convert", *options, "--", self.path, new])[0]
            if status == 0 and os.path.getsize(new):
                if options:
                    self.form = options[1]
                else:
                    self.form = latin(pmach(["convert", "--", self.path])[1]).split(" ")[0] or "another format"
                self.notes.append("The image has the format %s. It was converted to blocks by: %s" % (self.form, " ".join(["pmach convert", *options, "IMAGE NEW"])))
                self.path = new
                self.findings = latin(pmach(["files", "--image", new, "check"])[1]).splitlines()
                return

    def saved(self, scratch):
        """Reads the files of a damaged image: those that salvage copies to a new volume."""
        new = os.path.join(scratch, "saved")
        hurt, message = self.path, self.message
        status, out, said = pmach(["files", "--image", hurt, "salvage", new])
        self.salvage = latin(out).splitlines()
        self.path = new
        if status or not self.listed() or not self.files:
            print("site.sh: %s is not a volume, and salvage finds no file on it: %s" % (shown(self.given), message or said), file=sys.stderr)
            sys.exit(2)
        self.message = message
        with open(hurt, "rb") as file:
            image = file.read()
        self.blocks_of_image = len(image) // 512
        place(self, image)
        self.notes.append("The directory is damaged: %s. The pages show the files that salvage copies: pmach files --image IMAGE salvage NEW" % message)


def place(disk, image):
    """Sets the positions of files in the damaged image, from the slots in the output of salvage: the copied files and those left out."""
    taken, left = [], []
    for line in disk.salvage:
        m = re.match(r"slot (\d+) (.*)", line)
        if m and m[2].startswith("left out"):
            left.append((int(m[1]), m[2]))
        elif m:
            taken.append((int(m[1]), m[2]))
    word = lambda slot, at: int.from_bytes(image[1024 + 26 * slot + at : 1024 + 26 * slot + at + 2], "little")
    for entry, (slot, words) in zip(disk.files, taken):
        entry.first = word(slot, 0)
        entry.doubt = "" if words.startswith("taken as ") and ", " not in words else words
    disk.left = [(word(slot, 0), word(slot, 2), "slot %d %s" % (slot, words)) for slot, words in left]


def date_of(disk):
    """Returns the last date of the volume in the form of the list."""
    with open(disk.path, "rb") as file:
        word = int.from_bytes(file.read(1024 + 26)[1024 + 20 : 1024 + 22], "little")
    return "%03d-%02d-%02d" % (word // 512, word % 16, word // 16 % 32)


def with_gaps(disk):
    """Returns the rows of the table: the files in order, and the free areas before, between and after them."""
    rows, place = [], 6 if not disk.files or disk.files[0].first < 10 else 10
    if hasattr(disk, "salvage"):
        return [row_of(e) for e in disk.files]
    for e in disk.files:
        if e.first > place:
            rows.append(["", "free", "", place, e.first - place, "", ""])
        rows.append(row_of(e))
        place = e.first + e.blocks
    if blocks_of(disk) > place:
        rows.append(["", "free", "", place, blocks_of(disk) - place, "", ""])
    return rows


def row_of(e):
    doubt = ' <span class="bad">%s</span>' % told(e.doubt) if e.doubt else ""
    return [e.slot, '<a href="%s">%s</a>' % (e.page, told(e.name or "no name")), told(e.kind) + doubt, e.first, e.blocks, e.last, told(e.date)]


def blocks_of(disk):
    """Returns the number of blocks of the volume."""
    if hasattr(disk, "blocks_of_image"):
        return disk.blocks_of_image
    with open(disk.path, "rb") as file:
        head = file.read(1024 + 26)
    return int.from_bytes(head[1024 + 14 : 1024 + 16], "little")


# ---- pages


def page(title, body, back=True):
    nav = '<nav><a href="index.html">The disk</a></nav>' if back else ""
    return (
        '<!DOCTYPE html>\n<html lang="en">\n<head>\n<meta charset="utf-8">\n'
        "<meta http-equiv=\"Content-Security-Policy\" content=\"default-src 'none'; style-src 'unsafe-inline'\">\n"
        '<meta name="viewport" content="width=device-width, initial-scale=1">\n'
        f"<title>{told(title)}</title>\n<style>{STYLE}</style>\n</head>\n<body>\n{nav}<main>\n<h1>{told(title)}</h1>\n{body}\n</main>\n</body>\n</html>\n"
    )


def table(heads, rows):
    """Returns a table. The cells are markup; numbers are aligned to the right."""
    cells = lambda row: "".join('<td class="n">%d</td>' % c if isinstance(c, int) else "<td>%s</td>" % c for c in row)
    head = "".join('<th scope="col">%s</th>' % told(h) for h in heads)
    return '<div class="scroll"><table><thead><tr>%s</tr></thead><tbody>%s</tbody></table></div>' % (head, "".join("<tr>%s</tr>" % cells(r) for r in rows))


def block_map(disk):
    """Returns a picture of the blocks of the volume: rows of cells, with a rectangle for each run of blocks of a file."""
    count = max(blocks_of(disk), 6)
    columns = 40 if count <= 400 else 80 if count <= 3200 else 256
    size = 1000 / columns
    shapes = []

    def run(first, end, look, words, link):
        block = first
        while block < end:
            row = block // columns
            stop = min(end, (row + 1) * columns)
            rect = '<rect class="%s" x="%.2f" y="%.2f" width="%.2f" height="%.2f"><title>%s</title></rect>' % (
                look, block % columns * size, row * size, (stop - block) * size, size, told(words))
            shapes.append('<a href="%s">%s</a>' % (link, rect) if link else rect)
            block = stop

    start = min([10] + [e.first for e in disk.files if e.blocks]) if disk.files else 6
    run(0, 2, "directory", "blocks 0 and 1, for a boot program", None)
    run(2, 6, "directory", "blocks 2 to 5, the directory", None)
    if start >= 10:
        run(6, 10, "directory", "blocks 6 to 9, its second copy or free", None)
    for e in disk.files:
        if e.blocks:
            run(e.first, min(e.first + e.blocks, count), e.look, "%s, %s, blocks %d to %d %s" % (e.name, e.kind, e.first, e.first + e.blocks - 1, e.doubt), e.page)
    for first, end, words in getattr(disk, "left", []):
        if 6 <= first < end <= count:
            run(first, end, "doubt", words, None)
    high = -(-count // columns) * size
    last = '<rect class="gap" style="stroke:var(--ink)" x="0" y="0" width="1000" height="%.2f"/>' % high
    key = "".join('<span style="background:%s"></span>%s' % (color, look) for look, color in KEY.items())
    return (
        '<svg viewBox="-1 -1 1002 %.2f" role="img" aria-label="Map of %d blocks, %d in a row: the directory and %d files">%s%s</svg>\n<p class="key">%s; free blocks have no color</p>'
        % (high + 2, count, columns, len(disk.files), "".join(shapes), last, key)
    )


def mending(disk):
    """Returns the command that repairs the volume."""
    if "refused volume 13" in disk.message:
        return "The second copy of the directory is good. To repair the first: pmach files --image IMAGE repair"
    if hasattr(disk, "salvage"):
        return "The files below were copied by: pmach files --image IMAGE salvage NEW"
    return ""


def index(disk, image_name, run_name):
    body = ["<p>%s, %d blocks, last date %s, <strong>%s</strong></p>" % (told(os.path.basename(image_name)), blocks_of(disk), date_of(disk), told(disk.space))]
    body += ["<p>%s</p>" % told(note) for note in disk.notes]
    body.append("<h2>Its blocks</h2>\n" + block_map(disk))
    body.append("<h2>Its files</h2>\n" + table(["slot", "name", "kind", "first block", "blocks", "last bytes", "date"], with_gaps(disk)))
    if run_name:
        body.append('<p><a href="run.html">A run of %s</a></p>' % told(run_name))
    body.append("<h2>Output of check</h2>\n<pre>%s</pre>" % told("\n".join(disk.findings[:400])))
    if len(disk.findings) > 400:
        body.append("<p>%d more lines</p>" % (len(disk.findings) - 400))
    if mending(disk):
        body.append("<p>%s</p>" % told(mending(disk)))
    if hasattr(disk, "salvage"):
        body.append("<h2>Output of salvage</h2>\n<pre>%s</pre>" % told("\n".join(disk.salvage[:400])))
    return page("Volume " + (disk.name or "without a name"), "\n".join(body), back=False)


def dump(data):
    """Returns bytes in hexadecimal and as characters, with their offsets."""
    lines = []
    for at in range(0, min(len(data), DUMPED), 16):
        part = data[at : at + 16]
        shown = "".join(chr(b) if 32 <= b < 127 else "." for b in part)
        lines.append("%06x  %-47s  %s" % (at, part.hex(" "), shown))
    more = "<p>The first %d of %d bytes.</p>" % (DUMPED, len(data)) if len(data) > DUMPED else ""
    return "<h2>Its bytes</h2>\n<pre>%s</pre>%s" % (told("\n".join(lines)), more)


def text_page(text, is_cut):
    lines = latin(text).split("\n")
    rows = "\n".join('<span id="l%d">%5d  %s</span>' % (n, n, told(line)) for n, line in enumerate(lines[:LINES], 1))
    more = ""
    if is_cut:
        more = "<p>The first %d bytes of the text, at most %d lines.</p>" % (len(text), LINES)
    elif len(lines) > LINES:
        more = "<p>The first %d of %d lines.</p>" % (LINES, len(lines))
    return "<h2>Its lines</h2>\n<pre>%s</pre>%s" % (rows, more)


# ---- code

LISTING = re.compile(r"\d\d \d{3} \d{5} ")
CALL = re.compile(r"^(CLP|CGP|CIP|CBP) (\d+)$|^CXP (\d+), (\d+)$")
STANDARD = re.compile(r"^\s+((?:CSP \d+)|(?:CXP 0, \d+))\s*; (\S+)")


class Code:
    """The segments, procedures and lines of a code file, and its calls."""

    def __init__(self, data):
        status, out, self.message, _ = bounded(["dis"], data)
        self.good = status == 0
        if not self.good:
            return
        self.names = dict(re.findall(r"^\.SEG (\d+) (.*)$", latin(out), re.M))
        del out
        self.called = {m[1]: m[2] for m in map(STANDARD.match, lines_of(["dis", "--names"], data)[0]) if m}
        self.lines, is_cut = lines_of(["dis", "--list"], data)
        statements, is_cut_too = lines_of(["dis", "--statements"], data)
        self.is_cut = is_cut or is_cut_too
        self.statements, here = {}, None
        for line in statements:
            m = re.match(r"PROCEDURE (\d+) OF SEGMENT (\d+): (shown above)?", line)
            if m and m[3]:
                continue  # this table was shown above, under the number that it contains
            if m:
                here = (int(m[2]), int(m[1]))
                own = self.statements.setdefault(here, []) if here not in self.statements else []
            else:
                own.append(line)
        self.procedures, self.calls, self.listing = {}, {}, {}
        for line in self.lines:
            if not LISTING.match(line):
                continue  # a comment, as on a procedure without a table
            slot, number = int(line[0:2]), int(line[3:6])
            words = line.split("  ", 1)[1] if "  " in line else ""
            if words.startswith(".DICT"):
                continue
            here = (slot, number)
            self.procedures[here] = None
            self.listing.setdefault(here, []).append(line)
            to = self.callee(slot, words)
            if to:
                self.calls.setdefault(here, {}).setdefault(to, 0)
                self.calls[here][to] += 1
        self.callers = {}
        for here, those in self.calls.items():
            for to in those:
                self.callers.setdefault(to, []).append(here)

    @staticmethod
    def callee(slot, words):
        m = CALL.match(words)
        return None if not m else (slot, int(m[2])) if m[1] else (int(m[3]), int(m[4]))

    def procedure(self, here):
        return "%d.%d" % here

    def link(self, to):
        """Returns a procedure as a link if it is in the file; one of the system's with its name."""
        if to in self.procedures:
            return '<a href="#p%d-%d">%s</a>' % (*to, self.procedure(to))
        name = self.called.get("CXP 0, %d" % to[1]) if to[0] == 0 else None
        return told(self.procedure(to) + (" " + name if name else ""))

    def line(self, slot, line, seen):
        """Returns a line of the listing, with links from labels to their lines and from calls to procedures."""
        place, words = line.split("  ", 1) if "  " in line else (line, "")
        at = int(place[7:12])
        shown = told(words)
        to = self.callee(slot, words)
        if to and to in self.procedures:
            shown = '<a href="#p%d-%d">%s</a>' % (*to, shown)
        else:
            shown = re.sub(r"\bL(\d{5})\b", lambda m: '<a href="#o%d-%s">%s</a>' % (slot, m[1], m[0]) if int(m[1]) in self.places[slot] else m[0], shown)
        name = self.called.get(words)
        anchor = "o%d-%05d" % (slot, at)
        mark = "" if anchor in seen else ' id="%s"' % anchor
        seen.add(anchor)
        return "<span%s>%s</span>  %s%s" % (mark, told("%-32s" % place), shown, told("  ; " + name) if name else "")

    def statement(self, slot, line):
        """Returns a statement, with links from its offset and labels to lines of the listing and from calls to procedures."""
        m = re.match(r"(\d{5}) (.*)$", line)
        place, words = (m[1], m[2]) if m else ("", line)
        shown = told(words)
        shown = re.sub(r"\bL(\d{5})\b", lambda m: '<a href="#o%d-%s">%s</a>' % (slot, m[1], m[0]) if int(m[1]) in self.places[slot] else m[0], shown)

        def call(m):
            to = (int(m[2]), int(m[3])) if m[1] == "CXP" and m[3] else (slot, int(m[2]))
            return '<a href="#p%d-%d">%s</a>' % (*to, m[0]) if to in self.procedures else m[0]

        shown = re.sub(r"\b(CLP|CGP|CIP|CBP|CXP)_(\d+)(?:_(\d+))?\b", call, shown)
        if place and int(place) in self.places[slot]:
            place = '<a href="#o%d-%s">%s</a>' % (slot, place, place)
        return "%s %s" % (place, shown) if place else "      " + shown

    def body(self):
        if not self.good:
            return '<p class="bad">%s</p>' % told(self.message)
        self.places = {}
        for line in self.lines:
            if LISTING.match(line):
                self.places.setdefault(int(line[0:2]), set()).add(int(line[7:12]))
        parts = ["<h2>Segments</h2>", table(["slot", "name", "procedures"], [
            [int(slot), told(name), " ".join(self.link(p) for p in self.procedures if p[0] == int(slot))] for slot, name in self.names.items()])]
        rows = [[self.link(p), ", ".join(self.link(t) + (" ×%d" % n if n > 1 else "") for t, n in sorted(self.calls.get(p, {}).items())) or "none",
                 ", ".join(self.link(c) for c in self.callers.get(p, [])) or "none in this file"] for p in self.procedures]
        parts += ["<h2>Calls</h2>", table(["procedure", "calls", "is called by"], rows), self.graph()]
        seen, shown = set(), 0
        if self.is_cut:
            parts.append("<p>Only the first part of the disassembly is shown, because the whole is longer than %d bytes, takes more than %d seconds, or follows other long pages.</p>" % (READ, WORK))
        for here in self.procedures:
            slot, number = here
            own = self.listing[here]
            parts.append('<h3 id="p%d-%d">Procedure %d of segment %d %s</h3>' % (slot, number, number, slot, told(self.names.get(str(slot), ""))))
            parts.append("<p>Called by %s.</p>" % (", ".join(self.link(c) for c in self.callers.get(here, [])) or "no procedure in this file"))
            space = LISTED - shown
            if not space:
                parts.append("<p>%d lines are left out: the page has %d lines already.</p>" % (len(own), shown))
                continue
            shown += min(len(own), space)
            if self.statements.get(here):
                parts.append("<pre>%s</pre>" % "\n".join(self.statement(slot, line) for line in self.statements[here][:space]))
                parts.append("<details><summary>Its %d lines of p-code</summary>" % len(own))
            parts.append("<pre>%s</pre>" % "\n".join(self.line(slot, line, seen) for line in own[:space]))
            if self.statements.get(here):
                parts.append("</details>")
            if len(own) > space:
                parts.append("<p>%d lines are left out: the page has %d lines already.</p>" % (len(own) - space, shown))
        return "\n".join(parts)

    def graph(self):
        """Returns the calls as a picture if graphviz is installed."""
        edges = sorted((a, b) for a, those in self.calls.items() for b in those if b in self.procedures)
        if not edges or len(edges) > 400:
            return ""
        lines = ["digraph calls { rankdir=LR; node [shape=box, fontname=monospace];"]
        lines += ['"%d.%d";' % p for p in self.procedures] + ['"%d.%d" -> "%d.%d";' % (*a, *b) for a, b in edges] + ["}"]
        try:
            done = subprocess.run(["dot", "-Tsvg"], input="\n".join(lines).encode(), stdout=subprocess.PIPE, stderr=subprocess.DEVNULL, timeout=20)
        except (OSError, subprocess.TimeoutExpired):
            return ""
        picture = re.sub(r"^.*?(?=<svg)|<!--.*?-->", "", latin(done.stdout), flags=re.S)
        return '<figure role="img" aria-label="Calls of %d procedures">%s</figure>' % (len(self.procedures), picture) if done.returncode == 0 else ""


def file_page(disk, entry):
    words = ["files", "--image", disk.path]
    status, data, said = pmach([*words, "get", "--slot", str(entry.slot)])
    head = "<p>%s, %d blocks from %d, %d bytes, %s</p>" % (told(entry.kind), entry.blocks, entry.first, len(data), told(entry.date))
    if status:
        return page(entry.name, head + '<p class="bad">%s</p>' % told(said))
    if entry.kind == "text":
        status, text, said, is_cut = bounded([*words, "gettext", "--slot", str(entry.slot)])
        if status == 0:
            return page(entry.name, head + text_page(text, is_cut))
        head += '<p class="bad">%s</p>' % told(said)
    if entry.kind == "code":
        code = Code(data)
        if code.good:
            return page(entry.name, head + code.body())
        head += '<p class="bad">%s</p>' % told(code.message)
    return page(entry.name, head + dump(data))


# ---- a run


class Calls:
    """The steps of a run for each stack of procedures, from the lines of a trace of calls and returns with positions."""

    def __init__(self, lines):
        self.root, self.nodes = self.node("all"), 0
        self.last = ""
        path, before, least = [], 0, None
        for line in lines:
            words = line.split()
            if len(words) < 5 or not re.match(r"\d{8}", words[3]):
                self.last = line.strip()
                continue
            deep = (len(line) - len(line.lstrip())) // 2
            least = deep if least is None else min(least, deep)
            steps = int(words[3]) + 1 - before
            name = "%s.%s" % (words[0].lstrip("0") or "0", words[1].lstrip("0") or "0") if words[0] != "---" else "?"
            path = path[:deep] + ["?"] * (deep - len(path)) + [name]
            self.count(path, steps)
            before += steps
        # (no line has the frames around the program itself)
        for _ in range(least or 0):
            self.root["in"] = self.root["in"]["?"]["in"]

    @staticmethod
    def node(name):
        return {"name": name, "own": 0, "all": 0, "in": {}}

    def count(self, path, steps):
        """Adds steps to the node of a path. If there are too many nodes, they are added to a node above it."""
        node = self.root
        node["all"] += steps
        for part in path:
            if part not in node["in"]:
                if self.nodes >= NODES:
                    break
                self.nodes += 1
                node["in"][part] = self.node(part)
            node = node["in"][part]
            node["all"] += steps
        node["own"] += steps

    def picture(self):
        shapes, deepest = [], [0]
        all_steps = max(self.root["all"], 1)

        def draw(node, x, level):
            width = 1000 * node["all"] / all_steps
            if width < 0.5 or level > 60:
                return
            deepest[0] = max(deepest[0], level)
            words = "%s: %d of %d steps, %d of its own" % (node["name"], node["all"], all_steps, node["own"])
            shapes.append('<g><title>%s</title><rect x="%.2f" y="%d" width="%.2f" height="20" fill="hsl(%d 70%% 70%%)"/>%s</g>' % (
                told(words), x, level * 21, width, 20 + 37 * level % 60, '<text x="%.2f" y="%d">%s</text>' % (x + 3, level * 21 + 15, told(node["name"])) if width > 30 else ""))
            for child in sorted(node["in"].values(), key=lambda c: (-c["all"], c["name"])):
                draw(child, x, level + 1)
                x += 1000 * child["all"] / all_steps

        draw(self.root, 0, 0)
        return '<svg viewBox="0 0 1000 %d" role="img" aria-label="Steps by procedure, each below its caller">%s</svg>' % (21 * (deepest[0] + 1), "".join(shapes))


def run_page(disk, name, given, limit):
    words = ["--d4", disk.path, "--limit", str(limit), "--", name]
    status, out, said, is_cut = bounded(["run", *words], given, DUMPED)
    with running(["trace", "--calls", "--places", *words], given, subprocess.DEVNULL, RUN) as ran:
        calls = Calls(map(latin, ran.stdout))
    body = ["<p>%s</p>" % told(calls.last) if is_cut else "<p>%s (status %d)</p>" % (told(said), status)]
    body.append("<h2>Its console</h2>\n<pre>%s</pre>" % told(latin(out).replace("\r", "\n")))
    if is_cut:
        body.append("<p>The first %d bytes.</p>" % DUMPED)
    if calls.nodes:
        body.append("<h2>Steps by procedure</h2>\n<p>Each bar is a procedure (segment.number), below the procedure that called it. Its width is its share of the steps up to the last call or return.</p>")
        body.append(calls.picture())
    return page("A run of " + name, "\n".join(body))


# ---- the folder


def shown(path):
    """Returns a path for a message: without control characters."""
    return "".join(c if c.isprintable() else "?" for c in path)


def refuse(reason):
    print("site.sh: %s" % shown(reason), file=sys.stderr)
    sys.exit(1)


def open_own(folder):
    """Opens the directory if this user made it with this script: it and the regular file MARK are the user's, and it has
    only pages besides. None if there is nothing of that name. No link is followed."""
    parent = os.open(os.path.dirname(os.path.abspath(folder)), os.O_RDONLY | os.O_DIRECTORY)
    name = os.path.basename(os.path.abspath(folder))
    try:
        try:
            own = os.open(name, os.O_RDONLY | os.O_DIRECTORY | os.O_NOFOLLOW, dir_fd=parent)
        except FileNotFoundError:
            return parent, name, None
        mark = os.open(MARK, os.O_RDONLY | os.O_NOFOLLOW | os.O_NONBLOCK, dir_fd=own)
        users = {os.fstat(own).st_uid, os.fstat(mark).st_uid}
        is_own = stat.S_ISREG(os.fstat(mark).st_mode) and users == {os.geteuid()}
        os.close(mark)
    except OSError:
        is_own = False
    if not is_own:
        refuse("%s exists, and this script did not make it for this user" % folder)
    others = [it for it in sorted(os.listdir(own)) if it != MARK and not PAGE.fullmatch(it)]
    if others:
        refuse("%s has a file that this script did not make: %s" % (folder, others[0]))
    return parent, name, own


def remove_pages(parent, name, own):
    """Removes a directory of pages, which is held open, and nothing else."""
    for it in os.listdir(own):
        if it == MARK or PAGE.fullmatch(it):
            os.unlink(it, dir_fd=own)
    os.rmdir(name, dir_fd=parent)


class Pages:
    """The new pages of a directory. They are written into a new directory, which `publish` puts in the place of the old one in one step. So
    after an interruption either all old pages are there or all new ones."""

    def __init__(self, folder):
        self.parent, self.name, self.old = open_own(folder)
        self.new, self.names, self.bytes = "%s.new-%d" % (self.name, os.getpid()), [], 0
        os.mkdir(self.new, dir_fd=self.parent)
        self.made = os.open(self.new, os.O_RDONLY | os.O_DIRECTORY | os.O_NOFOLLOW, dir_fd=self.parent)
        if os.fstat(self.made).st_uid != os.geteuid() or os.listdir(self.made):
            refuse("%s was replaced by somebody else" % self.new)

    def write(self, title, text):
        file = os.open(title, os.O_WRONLY | os.O_CREAT | os.O_EXCL | os.O_NOFOLLOW, 0o666, dir_fd=self.made)
        with os.fdopen(file, "w", encoding="utf-8") as out:
            out.write(text)
        self.names.append(title)
        self.bytes += len(text.encode())

    def publish(self):
        with os.fdopen(os.open(MARK, os.O_WRONLY | os.O_CREAT | os.O_EXCL | os.O_NOFOLLOW, 0o666, dir_fd=self.made), "w") as out:
            out.write("\n".join(sorted(self.names)))
        if self.old is None:
            os.rename(self.new, self.name, src_dir_fd=self.parent, dst_dir_fd=self.parent)
            self.made = None
        else:
            exchange(self.parent, self.new, self.name)
            self.made = self.old

    def close(self):
        """Removes the directory of the pages that were not published, or of the old pages."""
        if self.made is not None:
            remove_pages(self.parent, self.new, self.made)


def exchange(parent, one, other):
    """Exchanges two names in one step (renameat2 with RENAME_EXCHANGE)."""
    call = ctypes.CDLL(None, use_errno=True).renameat2
    if call(parent, os.fsencode(one), parent, os.fsencode(other), 2):
        raise OSError(ctypes.get_errno(), os.strerror(ctypes.get_errno()), one)


class Far:
    """Shows the number of finished pages on a terminal after two seconds: below the cursor, and erased at the end."""

    def __init__(self, count):
        self.count, self.began, self.said = count, time.monotonic(), False

    def say(self, done):
        if sys.stderr.isatty() and time.monotonic() >= self.began + 2:
            sys.stderr.write("\x1b[J\nsite.sh: %d of %d\x1b[A\r" % (done, self.count))
            sys.stderr.flush()
            self.said = True

    def end(self):
        if self.said:
            sys.stderr.write("\x1b[J")


def main():
    words = argparse.ArgumentParser(prog="site.sh", description=__doc__, formatter_class=argparse.RawDescriptionHelpFormatter)
    words.exit_on_error = False
    words.add_argument("image")
    words.add_argument("folder")
    words.add_argument("--run", metavar="NAME", help="run this program of the disk")
    words.add_argument("--input", metavar="FILE", help="console input of the program (default: empty)")
    words.add_argument("--limit", type=int, default=STEPS, metavar="N", help="maximum number of steps (default: %(default)s)")
    try:
        given = words.parse_args()
    except SystemExit as end:
        sys.exit(1 if end.code else 0)
    except argparse.ArgumentError as fault:
        refuse(str(fault))
    for number, status in ((signal.SIGTERM, 143), (signal.SIGHUP, 129), (signal.SIGINT, 130)):
        if signal.getsignal(number) != signal.SIG_IGN:
            signal.signal(number, lambda *_, status=status: sys.exit(status))
    sys.stdout.reconfigure(errors="replace")
    if given.image.startswith("-"):
        refuse("%s is not a file" % given.image)
    if not os.path.isdir(os.path.dirname(os.path.abspath(given.folder))):
        refuse("there is no directory for %s" % given.folder)
    for it in open_own(given.folder)[::2]:
        it is None or os.close(it)
    try:
        with tempfile.TemporaryDirectory() as scratch:
            make(given, scratch)
    except OSError as fault:
        refuse("the pages were not made: %s" % fault)


def read_input(path):
    with open(path, "rb") as file:
        typed = file.read(IMAGE + 1)
    if len(typed) > IMAGE:
        refuse("%s has more than %d bytes" % (path, IMAGE))
    return typed


def copied(path, scratch):
    """Reads the image once, and returns the path of a copy. The image itself may change meanwhile, or become a pipe."""
    try:
        file = os.open(path, os.O_RDONLY | os.O_NONBLOCK)
    except OSError as fault:
        refuse("%s cannot be read: %s" % (path, fault.strerror))
    if not stat.S_ISREG(os.fstat(file).st_mode):
        refuse("%s is not a file" % path)
    with os.fdopen(file, "rb") as image:
        data = image.read(IMAGE + 1)
    if len(data) > IMAGE:
        refuse("%s has more than %d bytes" % (path, IMAGE))
    with open(os.path.join(scratch, "image"), "xb") as copy:
        copy.write(data)
    return copy.name


def make(given, scratch):
    typed = read_input(given.input) if given.input else b""
    disk = Disk(copied(given.image, scratch), given.image, scratch)
    pages = Pages(given.folder)
    far = Far(len(disk.files))
    try:
        pages.write("index.html", index(disk, given.image, given.run))
        for done, entry in enumerate(disk.files):
            far.say(done)
            pages.write(entry.page, attempt(entry.name, lambda: file_page(disk, entry)))
        if given.run:
            pages.write("run.html", attempt("A run of " + given.run, lambda: run_page(disk, given.run, typed, given.limit)))
        pages.publish()
    finally:
        far.end()
        pages.close()
    print("%s: %d pages, %d bytes; open %s" % (shown(given.folder), len(pages.names), pages.bytes, shown(os.path.join(given.folder, "index.html"))))


def attempt(title, made):
    """Returns a page, or a page with the error, so that the other pages are still made."""
    try:
        return made()
    except Exception as fault:
        return page(title, '<p class="bad">This page could not be made: %s</p>' % told(repr(fault)))


main()
