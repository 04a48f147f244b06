#!/bin/bash
# `page.sh [--every N] [PAGE]` tests the page that ./pmach --page makes, by default out/unproved/pmach.html. PAGE is another
# page, such as out/proved/pmach.html. Run manually; not part of the gate. Requires python3, and for looks and cases node 20
# and cc. PMACH names another native program than ../pmach. STEPS is the number of steps of the longest run in each browser,
# by default 100,000,000.
#
#   file       its size, its parts, the checksums of its Content-Security-Policy, nothing that leads to a network
#   numbers    each number of its JavaScript has a reason (page/numbers.txt)
#   looks      what a person does with it, in node, in a small document without layout (page/looks.js, page/dom.mjs); what it
#              saves in other formats, a program with the system segment, the lines of salvage, the hits of searches, and
#              comparisons are those of the native program (page/disks_of_page.py)
#   cases      the cases of docs/CASES.md, or each Nth of them: by its WebAssembly, in place of the native program
#              (page/server.mjs, page/cases.py); all of examples/conformance/bare.txt (page/client.c); GENERATED generated
#              command lines (2,000), by its WebAssembly and by the native program (page/generated.py); and conversions of
#              images, salvage, searches and comparisons, by both (page/conversions.mjs)
#   browsers   in Chromium, Firefox and WebKitGTK, if they are installed: the looks, all cases of bare.cases in the page itself,
#              and its limits (page/limits.js): 32 MiB, a trap, memory that ends, many steps. In Chromium also keys, downloads,
#              images in other formats, widths, contrast, one file by examples/site, and the typed programs of examples/system
#              (page/programs.py)
#
# The last line is `N passed, N failed`. What is left out, because something is not installed, is named.
here=$(readlink -f "$(dirname "$0")/..")
every=1
[ "$1" != --every ] || { every=$2 && shift 2; }
page=$(readlink -f "${1:-$here/out/unproved/pmach.html}")
[ -f "$page" ] || { echo "page.sh: there is no $page; make it with ./pmach --page" >&2 && exit 1; }
export PMACH=$(readlink -f "${PMACH:-$here/pmach}")
scratch=$(mktemp -d)
server=''
trap '[ -z "$server" ] || kill "$server"; rm -rf "$scratch"' EXIT
cd "$scratch" || exit 1
passed=0
failed=0

# check NAME COMMAND..: it passed if the command succeeds; its output is shown
check() {
    local name=$1
    shift
    if "$@"; then
        passed=$((passed + 1))
    else
        failed=$((failed + 1))
        echo "FAILED: $name"
    fi
}

# (version 20 of node needs this option for addresses of 64 bits)
memory64=--experimental-wasm-memory64
node $memory64 -e 0 2>/dev/null || memory64=

# without_network: what is in the page loads nothing, by its policy and by its text
without_network() {
    python3 - "$page" <<'PYTHON'
import base64, hashlib, re, sys
page = open(sys.argv[1], "rb").read()
faults = []
policy = re.search(rb'http-equiv="Content-Security-Policy" content="([^"]*)"', page)[1].decode()
rules = dict(rule.strip().partition(" ")[::2] for rule in policy.split(";"))
if rules["default-src"] != "'none'":
    faults.append("default-src is " + rules["default-src"])
for tag in ("script", "style"):
    content = re.search(b"<%s>(.*?)</%s>" % (tag.encode(), tag.encode()), page, re.S)[1]
    own = "'sha256-%s'" % base64.b64encode(hashlib.sha256(content).digest()).decode()
    if rules[tag + "-src"] not in (own, own + " 'wasm-unsafe-eval'"):
        faults.append("the policy does not name the %s: %s" % (tag, own))
text = re.sub(rb'(<script type="application/octet-stream" id="(module|system-text)">)[^<]*', rb"\1", page)
for pattern in (rb"https?:", rb"//[a-z]+\.[a-z]", rb"\b(fetch|XMLHttpRequest|WebSocket|importScripts|sendBeacon|EventSource)\b", rb"\bimport\b", rb" (src|href)=\"(?!data:)",
                rb"\bon[a-z]+=\""):
    for found in re.finditer(pattern, text):
        faults.append("the page has %r" % text[max(0, found.start() - 20):found.end() + 20])
if b"{{" in text or len(page) >= 500000:
    faults.append("a part is missing, or it has %d bytes" % len(page))
if not re.search(rb"<footer>\s*<p>pmach 0\.\d\S*, <b>(not proved</b>: built without a proof|proved</b>: built from the proved library),", text):
    faults.append("the footer does not say what it is")
print("%d bytes, %s" % (len(page), "; ".join(faults) or "no fault"))
sys.exit(1 if faults else 0)
PYTHON
}

# labelled: each control of the page has a name for a screen reader, and each label and id fits
labelled() {
    python3 - "$page" <<'PYTHON'
import html.parser, sys
class Page(html.parser.HTMLParser):
    def __init__(self):
        super().__init__()
        self.ids, self.used, self.faults, self.open, self.text, self.labels = set(), [], [], [], "", 0
    def handle_starttag(self, tag, attributes):
        given = dict(attributes)
        if "id" in given:
            if given["id"] in self.ids:
                self.faults.append("two of " + given["id"])
            self.ids.add(given["id"])
        self.used += given.get("aria-labelledby", "").split()
        inside = "label" in [name for name, _ in self.open]
        if tag in ("input", "select") and not inside and "aria-label" not in given and "hidden" not in given:
            self.faults.append("no label: %s" % given)
        if tag in ("section", "dialog") and "aria-labelledby" not in given:
            self.faults.append("no name: %s" % given)
        if given.get("tabindex") == "0" and not {"aria-label", "aria-labelledby"} & set(given):
            self.faults.append("no name: %s" % given)
        if tag == "button":
            self.text = ""
        if tag not in ("meta", "link", "input", "br"):
            self.open.append((tag, given))
    def handle_data(self, data):
        self.text += data
    def handle_endtag(self, tag):
        if not self.open or self.open.pop()[0] != tag:
            self.faults.append("</%s> does not fit" % tag)
        if tag == "button" and not self.text.strip():
            self.faults.append("a button without a text")
page = Page()
page.feed(open(sys.argv[1], encoding="utf-8").read())
page.faults += ["no element " + name for name in page.used if name not in page.ids] + ["not closed: %s" % name for name, _ in page.open]
print("%d elements with an id, %s" % (len(page.ids), "; ".join(page.faults) or "no fault"))
sys.exit(1 if page.faults else 0)
PYTHON
}

# ends_with TEXT COMMAND..: whether the last line that the command writes has this text; the line is shown
ends_with() {
    local wanted=$1
    shift
    "$@" >"$scratch/out" 2>&1
    tail -n 1 "$scratch/out"
    tail -n 1 "$scratch/out" | grep -q -- "$wanted" || { grep -i "fail\|differ" "$scratch/out" | head -n 20 && false; }
}

echo "== file"
check "the file" without_network
check "names for a screen reader" labelled
echo "== numbers"
check "numbers" python3 "$here/bench/page/numbers.py"
if ! command -v node >/dev/null; then
    echo "left out: looks and cases, which require node"
else
    echo "== looks"
    "$here/examples/disk.sh" kept.img || exit 1
    python3 "$here/bench/page/disks_of_page.py" >more.json || exit 1
    check "looks" node $memory64 "$here/bench/page/looks.mjs" "$page" kept.img more.json
    echo "== cases"
    check "formats and salvage" node $memory64 "$here/bench/page/conversions.mjs" "$page" more.json "$PMACH"
    mkdir wasm && cc -O1 -DSOCKET="\"$scratch/socket\"" "$here/bench/page/client.c" -o wasm/pmach || exit 1
    node $memory64 "$here/bench/page/server.mjs" "$page" "$scratch/socket" "$PMACH" >server.log 2>&1 &
    server=$!
    until grep -qs ready server.log || ! kill -0 "$server" 2>/dev/null; do sleep 0.1; done
    for name in bare texts shows boots files disks; do
        check "$name" python3 "$here/bench/page/cases.py" --every "$every" socket "$here/crates/test_cases/data/$name.cases"
    done
    check "the cases for other machines" ends_with "^\([0-9]*\) of \1 cases" python3 "$here/examples/conformance/hold.py" "$scratch/wasm/pmach" raw
    mkdir generated && check "generated cases" eval "(cd generated && python3 '$here/bench/page/generated.py' ../socket ${GENERATED:-2000})"
    kill "$server" && wait "$server"
    server=''
    tail -n 1 server.log
    check "no trap" grep -q ", 0 traps" server.log
fi
echo "== browsers"
if command -v chromium >/dev/null; then
    check "looks in Chromium" python3 "$here/bench/page/flow.py" "$page" shots
    check "typed programs in Chromium" python3 "$here/bench/page/programs.py" "$page" shots
else
    echo "left out: the page in Chromium (Debian: chromium)"
fi
if command -v firefox-esr >/dev/null && command -v WebKitWebDriver >/dev/null && command -v Xvfb >/dev/null; then
    check "Firefox and WebKitGTK" python3 "$here/bench/page/others.py" "$page" kept.img
else
    echo "left out: the page in Firefox and WebKitGTK (Debian: firefox-esr, webkit2gtk-driver, xvfb)"
fi
echo "$passed passed, $failed failed"
[ "$failed" = 0 ]
