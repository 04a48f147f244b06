#!/bin/bash
# Tests examples/site. It makes pages of a valid disk, of a disk in another order, of a damaged disk and of a disk with hostile
# names. The pages must be well-formed, each link must have a target, there must be no script, the same image must give the same
# bytes, and folders of other users must be unchanged. If Debian's chromium is installed, headless Chromium must show the expected
# words, and no message on its console. Run manually; not part of the gate. The variable PMACH can name another program than
# ./pmach. SHOTS is a folder for screenshots.
here=$(dirname "$(readlink -f "$0")")/..
export PMACH=${PMACH:-$here/pmach}
site=$here/examples/site/site.sh
scratch=$(mktemp -d)
trap 'rm -rf "$scratch"' EXIT
cd "$scratch" || exit 1
passed=0
failed=0

check() {
    local name=$1
    shift
    if "$@" >out 2>err; then
        passed=$((passed + 1))
    else
        failed=$((failed + 1))
        echo "failed: $name: $(tail -n 2 err out | tr '\n' ' ')"
    fi
}

ends() {
    local wanted=$1
    shift
    "$@" </dev/null
    [ $? = "$wanted" ]
}

files() { "$PMACH" files --image "$@"; }

byte() { printf '%b' "\\x$3" | dd of="$1" bs=1 seek="$2" conv=notrunc 2>/dev/null; }

# whole FOLDER: each page is well-formed, each link leads to a page and a place of the folder, and there is no script
whole() {
    python3 - "$1" <<'END'
import html.parser, os, sys
folder, void = sys.argv[1], {"meta", "rect", "br"}
ids, links, faults = {}, [], []

class Pages(html.parser.HTMLParser):
    def __init__(self, name):
        super().__init__()
        self.name, self.open = name, []
        ids[name] = set()
    def handle_starttag(self, tag, attributes):
        given = dict(attributes)
        if tag in ("script", "iframe", "object", "embed", "form", "base", "link", "img"):
            faults.append("%s has a %s" % (self.name, tag))
        for key, value in attributes:
            if key.startswith("on") or (key in ("href", "src", "xlink:href") and ":" in (value or "")):
                faults.append("%s: %s=%s" % (self.name, key, value))
        if given.get("id"):
            if given["id"] in ids[self.name]:
                faults.append("%s has %s twice" % (self.name, given["id"]))
            ids[self.name].add(given["id"])
        if tag == "a" and "href" in given:
            links.append((self.name, given["href"]))
        if tag not in void:
            self.open.append(tag)
    def handle_startendtag(self, tag, attributes):
        self.handle_starttag(tag, attributes)
        if tag not in void:
            self.open.pop()
    def handle_endtag(self, tag):
        if tag in void:
            return
        if not self.open or self.open.pop() != tag:
            faults.append("%s: %s ends where it was not begun" % (self.name, tag))
for name in os.listdir(folder):
    if not name.endswith(".html"):
        continue
    text = open(os.path.join(folder, name), encoding="utf-8").read()
    if "default-src 'none'" not in text:
        faults.append(name + " has no policy")
    if any(ord(c) < 32 and c != "\n" for c in text):
        faults.append(name + " has a control character")
    pages = Pages(name)
    pages.feed(text)
    if pages.open:
        faults.append("%s leaves %s open" % (name, pages.open))
for name, link in links:
    page, _, place = link.partition("#")
    if (page or name) not in ids or place and place not in ids[page or name]:
        faults.append("%s: %s leads nowhere" % (name, link))
print("\n".join(faults[:20]))
sys.exit(bool(faults))
END
}

files sound.img new SHOE 280
"$here/examples/programs.sh" programs.img >/dev/null 2>&1
for name in $(files programs.img list 2>/dev/null | grep -o "^[A-Z.]* *code" | cut -d" " -f1); do files programs.img get "$name" | files sound.img put "$name" code; done
"$PMACH" asm <"$here/examples/hanoi.text" | files sound.img put HANOI code
printf 'hi <b>&amp; "there"\n' | files sound.img puttext NOTE.TEXT
head -c 70000 /dev/urandom | files sound.img put RANDOM data
check "a sound disk" ends 0 "$site" sound.img sound
check "whole" whole sound
check "its name" grep -q '<h1>Volume ' sound/index.html
check "a text is no markup" grep -rq 'hi &lt;b&gt;&amp;amp; &quot;there&quot;' sound
check "its code" grep -rq "<h2>Calls</h2>" sound
check "its statements" grep -rq "IF NOT (param3 &gt; 0)" sound
cp -r sound before
check "again" ends 0 "$site" sound.img sound
check "the same bytes" diff -r before sound
mkdir others
check "a folder of another" ends 1 "$site" sound.img others
check "which stays empty" [ -z "$(ls -A others)" ]
check "no words" ends 1 "$site"
check "help" ends 0 "$site" -h
check "no image" ends 1 "$site" missing.img none
check "makes nothing" [ ! -e none ]
head -c 50000 /dev/urandom >noise.img
check "no volume" ends 2 "$site" noise.img noise
check "makes nothing of it" [ ! -e noise ]

"$here/examples/dos-order.sh" <sound.img >order.dsk 2>/dev/null
if [ -s order.dsk ] && [ "$(stat -c %s order.dsk)" = 143360 ]; then
    check "in another order" ends 0 "$site" order.dsk order
    check "that is said" grep -q 'has the format dos' order/index.html
    check "whole in another order" whole order
fi

cp sound.img hurt.img
byte hurt.img $((1024 + 26 + 6)) 00
check "a hurt disk" ends 0 "$site" hurt.img hurt
check "whole, hurt" whole hurt
check "what mends it" grep -q 'salvage NEW' hurt/index.html

# names and texts of any bytes
files odd.img new 'A<B>&"' 100 2>/dev/null || files odd.img new ODD 100
printf 'x</pre><script>alert(1)</script>\0\001\377\n' | files odd.img put "<SCRIPT>'" data
printf '</pre><img src=x onerror=alert(1)>\n' | files odd.img puttext 'A"B.TEXT'
printf evil | files odd.img put '../../ETC' code
byte odd.img $((1024 + 26 + 7)) 0A
byte odd.img $((1024 + 52 + 8)) 1B
check "hostile names" ends 0 "$site" odd.img odd
check "whole, hostile" whole odd
check "nothing beside the folder" [ "$(ls odd | grep -vc '^\(index\|file-[0-9][0-9]\)\.html$')" = 0 ]
rm -rf odd/index.html
ln -s /etc/hostname odd/index.html
check "a link in the folder" ends 0 "$site" odd.img odd
check "is no way out" [ ! -L odd/index.html ]

if "$PMACH" files --image sound.img list | grep -q '^HANOI.CODE\|^HANOI '; then
    name=$("$PMACH" files --image sound.img list | grep -o '^HANOI[A-Z.]*')
    check "a run" ends 0 "$site" sound.img ran --run "$name"
    check "whole, with a run" whole ran
    check "its console" grep -q '1&gt;3 1&gt;2' ran/run.html
    check "its steps" grep -q 'Steps by procedure' ran/run.html
fi
check "small enough" [ "$(du -sb sound | cut -f1)" -lt 4000000 ]

chromium=$(command -v chromium || command -v chromium-browser)
if [ -z "$chromium" ]; then
    echo "no chromium: nothing was opened in a browser"
else
    for shown in sound order hurt odd ran; do
        [ -d $shown ] || continue
        for page in "$shown"/*.html; do
            "$chromium" --headless --no-sandbox --disable-gpu --enable-logging=stderr --v=0 --dump-dom "file://$PWD/$page" >dom 2>log </dev/null
            check "$page in a browser" grep -q '</main>' dom
            check "$page without a message" [ "$(grep -c 'CONSOLE\|Refused' log)" = 0 ]
        done
    done
    if [ -n "$SHOTS" ]; then
        mkdir -p "$SHOTS"
        for page in sound/index hurt/index; do
            "$chromium" --headless --no-sandbox --disable-gpu --window-size=1000,1400 --screenshot="$SHOTS/${page//\//-}.png" "file://$PWD/$page.html" >/dev/null 2>&1
        done
        cp -r sound hurt odd "$SHOTS" 2>/dev/null
        [ ! -d ran ] || cp -r ran "$SHOTS"
    fi
fi
echo "$passed passed, $failed failed"
[ $failed = 0 ]
