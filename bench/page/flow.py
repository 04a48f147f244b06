#!/usr/bin/env python3
"""flow.py PAGE SHOTS: what a person does with the page, in Chromium. Runs looks.js and limits.js, the cases for bare code, and
what only a browser can show: files that are chosen and dropped, keys, downloads, the width, both color schemes, the contrast,
messages and requests of the browser. Run it in an empty directory; it puts screenshots into SHOTS. PMACH names the native
program, STEPS the number of steps of the longest run (100,000,000)."""
import json
import os
import re
import subprocess
import sys
import tempfile
import time

HERE = os.path.dirname(os.path.abspath(__file__))
sys.dont_write_bytecode = True
from cdp import Browser
from cases_of_page import bare_cases
from disks_of_page import disks_of_page

PAGE, SHOTS = sys.argv[1:]
PMACH = os.environ.get("PMACH", os.path.join(HERE, "..", "..", "pmach"))
os.makedirs(SHOTS, exist_ok=True)
passed = failed = 0


def check(name, got, wanted):
    global passed, failed
    is_right = bool(wanted(got)) if callable(wanted) else got == wanted
    passed, failed = passed + is_right, failed + (not is_right)
    if not is_right:
        print("FAILED: %s: %r" % (name, got))


# The texts with a contrast below 4.5 (WCAG AA), except those of disabled buttons.
CONTRAST = """(() => {
  const parts = color => (color.match(/[\\d.]+/g) ?? []).map(Number);
  const light = ([r, g, b]) => [r, g, b].map(c => c / 255).map(c => c <= .04045 ? c / 12.92 : ((c + .055) / 1.055) ** 2.4).reduce((sum, c, k) => sum + c * [.2126, .7152, .0722][k], 0);
  const back = el => { for (let at = el; at; at = at.parentElement) { const [r, g, b, a = 1] = parts(getComputedStyle(at).backgroundColor); if (a === 1 && r !== undefined) return [r, g, b]; } return [255, 255, 255]; };
  const low = [];
  for (const el of document.querySelectorAll("body *")) {
    const has = [...el.childNodes].some(node => node.nodeType === 3 && node.data.trim() !== ""), style = getComputedStyle(el);
    if (!has || !el.checkVisibility() || el.disabled || ["SCRIPT", "STYLE", "title"].includes(el.tagName)) continue;
    const [a, b] = [light(parts(style.color)), light(back(el))].sort((x, y) => y - x), ratio = (a + .05) / (b + .05);
    if (ratio < 4.5 && !style.color.startsWith("color(")) low.push(el.tagName + "#" + el.id + "." + el.className + " " + ratio.toFixed(2));
  }
  return [...new Set(low)].slice(0, 10);
})()"""
subprocess.run([os.path.join(HERE, "../../examples/disk.sh"), "kept.img"], check=True, env=dict(os.environ, PMACH=PMACH))
browser = Browser()
try:
    browser.open(PAGE)
    browser.shot(SHOTS + "/empty.png")
    with open(os.path.join(HERE, "looks.js"), encoding="utf-8") as file:
        browser.js(file.read() + "; 0")
    with open("kept.img", "rb") as file:
        given = {"kept": list(file.read()), "random": 50, "more": disks_of_page()}
    for name, is_right, got in browser.js("looks(%s)" % json.dumps(given)):
        check(name, is_right, lambda right, got=got: right or print(got))

    with open(os.path.join(HERE, "limits.js"), encoding="utf-8") as file:
        browser.js(file.read() + "; 0")
    given["steps"] = int(os.environ.get("STEPS", "100000000"))
    for name, is_right, got in browser.js("bareCases(%s)" % json.dumps(bare_cases())) + browser.js("limits(%s)" % json.dumps(given)):
        check(name, is_right, lambda right, got=got: right or print(got))
        if re.search("steps the page|opens", name):
            print("%s: %s" % (name, got))
    browser.js("drives.clear(); 0")
    browser.open(PAGE)
    browser.files("#image", "kept.img")
    browser.wait("document.querySelectorAll('#files button').length === 3")
    check("a chosen file is opened", browser.text("total"), lambda text: text.startswith("3 files. Free: 24 blocks"))
    # with keys only: Tab to the first file, Enter, then Debug, a breakpoint, Go
    browser.js("document.querySelector('#files button').focus(); 0")
    browser.press("Enter")
    browser.js("$('debug').focus(); 0")
    browser.press("Enter")
    browser.wait("program !== null")
    browser.js("$('lines').querySelector('.place[tabindex=\"0\"]').focus(); 0")
    check("a line has the focus", browser.js("document.activeElement.className === 'place'"), True)
    browser.press("Enter")
    check("Enter sets a breakpoint", browser.text("breaks"), lambda text: text != "")
    browser.press("F8")
    browser.wait("running === null")
    browser.shot(SHOTS + "/break.png")
    check("the focus is visible", browser.js("getComputedStyle(document.activeElement).outlineStyle"), lambda style: style != "none")
    browser.js("closeProgram(); 0")
    # typed keys
    browser.js("makeSample(); 0")
    browser.wait("document.querySelectorAll('#files button').length === 3")
    browser.js("[...document.querySelectorAll('#files button')].find(b => b.textContent === 'ECHO').click(); $('run').click(); 0")
    browser.wait("running === null")
    check("Keys has the focus", browser.js("document.activeElement.id"), "keys")
    browser.type("abc\r.")
    browser.wait("running === null && document.getElementById('state').textContent.startsWith('The program has ended')")
    check("typed keys", browser.text("console"), "abc\n.")
    browser.js("closeProgram(); 0")
    # downloads
    folder = tempfile.mkdtemp()
    browser.send("Browser.setDownloadBehavior", behavior="allow", downloadPath=folder)
    browser.js("$('save').click(); 0")
    for _ in range(100):
        if os.listdir(folder) == ["sample.img"]:
            break
        time.sleep(0.1)
    listed = subprocess.run([PMACH, "files", "--image", folder + "/sample.img", "list"], stdout=subprocess.PIPE, check=False)
    check("the saved image", listed.stdout.decode().split("\n")[0], "SAMPLE:")
    # images in other formats: chosen, changed, saved as the native program does
    def native(*words, given=b""):
        return subprocess.run([PMACH, *words], input=given, stdout=subprocess.PIPE, stderr=subprocess.PIPE, check=True).stdout

    def downloaded(name):
        for _ in range(100):
            if os.path.exists(folder + "/" + name) and not [one for one in os.listdir(folder) if one.endswith(".crdownload")]:
                break
            time.sleep(0.1)
        with open(folder + "/" + name, "rb") as file:
            data = file.read()
        os.unlink(folder + "/" + name)
        return data

    with open("note.txt", "w", encoding="ascii") as file:
        file.write("one\ntwo\n")
    native("files", "--image", "shoe.img", "new", "SHOE", "280")
    for name, form in (("shoe.dsk", "dos"), ("shoe.2mg", "2mg-blocks"), ("shoe.dc42", "dc42-blocks")):
        native("convert", "--as", form, "shoe.img", name)
        native("convert", name, name + ".work")
        native("files", "--image", name + ".work", "puttext", "NOTE.TEXT", given=b"one\ntwo\n")
        native("convert", "--back", name, name + ".work", name + ".new")
        browser.js("closeProgram(); drives.clear(); disk = null; $('image').value = ''; $('added').value = ''; 0")
        browser.files("#image", name)
        browser.wait("disk !== null && disk.name === '%s'" % name)
        check(name + ": its format", browser.text("format"), "Format: %s. Save the image keeps this format." % form)
        browser.files("#added", "note.txt")
        browser.wait("$('dialog').open")
        browser.js("$('accept').click(); 0")
        browser.wait("document.querySelectorAll('#files button').length === 1")
        browser.shot("%s/%s.png" % (SHOTS, name))
        browser.js("$('save').click(); 0")
        with open(name + ".new", "rb") as file:
            check(name + ": Save gives the native program's bytes", downloaded(name) == file.read(), True)
        browser.js("$('convert').click(); 0")
        browser.wait("$('dialog').open")
        browser.js("$('accept').click(); 0")
        with open(name + ".work", "rb") as file:
            check(name + ": Convert to blocks too", downloaded("shoe.img") == file.read(), True)
    browser.js("drives.clear(); makeSample(); 0")
    # a dropped file
    browser.js("""(() => { const data = new DataTransfer(); data.items.add(new File([new Uint8Array(600)], "dropped.bin"));
        document.dispatchEvent(new DragEvent("drop", {dataTransfer: data, bubbles: true, cancelable: true})); })()""")
    browser.wait("$('refusal-title').textContent === 'dropped.bin is not opened'")
    check("a dropped file that is no volume", browser.text("reason"), lambda text: text.startswith("refused volume 1: "))
    browser.js("$('dismiss').click(); [...document.querySelectorAll('#files button')].find(b => b.textContent === 'HANOI').click(); $('debug').click(); 0")
    browser.js("library.line('break 1 3 0'); $('go').click(); 0")
    browser.wait("running === null")
    for part in ("memory", "traced", "flame", "answers", "map"):
        browser.js("$('%s').closest('details').open = true; 0" % part)
    browser.js("trace(10); command('help'); 0")
    # with everything that can be shown at once: a damaged image, a list, a search, a comparison
    browser.js("""(async () => { const image = name => ({name, arrayBuffer: async () => disk.data.slice().buffer}), junk = new Uint8Array(700);
        await openBox([image("one.img"), image("other.img"), {name: "junk.bin", arrayBuffer: async () => junk.buffer}]);
        $("in-code").checked = true; await search("e"); await compare(disk, box[0]); refuse(junk, "junk.bin"); scrollTo(0, 0); })()""")
    browser.wait("!$('comparison').hidden")
    check("everything is shown", browser.js("['refusal', 'box', 'results', 'comparison', 'disk', 'file', 'program'].filter(id => !$(id).checkVisibility())"), [])
    nodes = browser.do("Accessibility.getFullAXTree")["nodes"]
    roles = ("button", "textbox", "combobox", "spinbutton", "checkbox", "searchbox", "link", "region", "log")
    check("each control has a name for a screen reader", [node["role"]["value"] + str(node.get("properties"))[:200] for node in nodes
          if not node["ignored"] and node["role"]["value"] in roles and not node["name"]["value"]], [])
    # widths and color schemes
    for width in (360, 800, 1500, 2000):
        browser.do("Emulation.setDeviceMetricsOverride", width=width, height=900, deviceScaleFactor=1, mobile=False)
        for scheme in ("light", "dark"):
            browser.do("Emulation.setEmulatedMedia", features=[{"name": "prefers-color-scheme", "value": scheme}])
            browser.shot("%s/%d-%s.png" % (SHOTS, width, scheme))
            check("contrast at %d pixels, %s" % (width, scheme), browser.js(CONTRAST), [])
        check("no part is wider than %d pixels" % width, browser.js("document.documentElement.scrollWidth"), lambda wide, width=width: wide <= width)
    # with keys only: a search, and its first hit
    browser.js("closeProgram(); for (const id of ['dismiss', 'unbox', 'uncompare', 'unsearch']) $(id).click(); $('words').value = ''; 0")
    check("Close the results moves the focus to the words", browser.js("document.activeElement.id"), "words")
    browser.type("hanoi\r")
    browser.wait("document.querySelectorAll('#hits button').length > 0 && !$('results').hidden")
    for _ in range(10):
        browser.press("Tab")
        if browser.js("document.activeElement.closest('#hits') !== null && document.activeElement.tagName === 'BUTTON'"):
            break
    browser.press("Enter")
    browser.wait("document.activeElement.id === 'file-title'")
    check("Enter opens the first hit", browser.text("file-title"), "HANOI")
    # one file with a disk inside, and a hostile name of its image
    site, hostile, environment = os.path.join(HERE, "../../examples/site/site.sh"), "<img src=x>&\"'\n.img", dict(os.environ, PMACH=PMACH, PMACH_PAGE=os.path.abspath(PAGE))
    with open("kept.img", "rb") as old, open(hostile, "wb") as new:
        new.write(old.read())
    made = lambda *words: subprocess.run([site, *words], env=environment, stdout=subprocess.PIPE, stderr=subprocess.PIPE, check=False)
    check("site.sh makes one file", [made(hostile, "one.html").returncode, made(hostile, "two.html").returncode], [0, 0])
    with open("one.html", "rb") as one, open("two.html", "rb") as two:
        check("of the same bytes", one.read() == two.read(), True)
    os.symlink("nothing", "link.html")
    os.mkdir("folder.html")
    check("it replaces nothing", [made("kept.img", name).returncode for name in ("one.html", "link.html", "folder.html", "none/one.html", ".html")], [1, 1, 1, 1, 0])
    check("and follows no link", os.path.exists("nothing"), False)
    check("and reports an image that is missing", made("no.img", "three.html").returncode, 2)
    browser.js("drives.clear(); closeProgram(); 0")
    browser.open("one.html")
    browser.wait("disk !== null")
    check("the page opens on its disk", browser.text("disk-title"), "KEPT (<img src=x>&\"'?.img)")
    check("whose name makes no element", browser.js("document.querySelectorAll('img').length"), 0)
    browser.js("[...document.querySelectorAll('#files button')].find(b => b.textContent === 'HANOI').click(); $('run').click(); 0")
    browser.wait("running === null")
    check("its program runs", browser.text("state"), "The program has ended. Steps: 402")
    check("site.sh accepts another format", made("shoe.dsk", "dsk.html").returncode, 0)
    browser.js("drives.clear(); closeProgram(); 0")
    browser.open("dsk.html")
    browser.wait("disk !== null")
    check("which the page shows", browser.text("format"), "Format: dos. Save the image keeps this format.")
    check("no message and no request", browser.messages(), [])
finally:
    browser.close()
print("%d passed, %d failed" % (passed, failed))
sys.exit(failed > 0)
