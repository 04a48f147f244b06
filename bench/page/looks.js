// What a person does with the page, and what the page has to show: `looks(given)` runs in the page itself, in node (looks.mjs)
// and in browsers (flow.py). `given` has images as lists of bytes; the result is a list of [name, passed, what was shown].
async function looks(given) {
  const results = [], kept = Uint8Array.from(given.kept);
  const check = (name, got, wanted) => {
    const isRight = typeof wanted === "function" ? Boolean(wanted(got)) : JSON.stringify(got) === JSON.stringify(wanted);
    results.push([name, isRight, JSON.stringify(got)?.slice(0, 300)]);
  };
  const shows = id => $(id).textContent, press = id => $(id).click();
  const names = () => [...document.querySelectorAll("#files button")].map(button => button.textContent);
  const choose = name => [...document.querySelectorAll("#files button")].find(button => button.textContent === name).click();
  const line = text => [...$("lines").children].find(line => line.textContent === text);
  const view = words => [...document.querySelectorAll("#forms button")].find(button => button.textContent === words);
  const here = () => [...document.querySelectorAll("#lines .here")].map(line => line.textContent);
  const ended = async () => { while (running !== null) await new Promise(next => setTimeout(next, 1)); };
  const answer = (...values) => {
    [...document.querySelectorAll("#fields input, #fields select")].forEach((input, k) => { input.value = values[k]; });
    $("questions").onsubmit({preventDefault() {}});
  };
  const opened = (data, name) => { openImage(data, name); if ($("dialog").open) answer(); };
  const send = line => { $("line").value = line; command(line); };

  check("the page is ready", shows("status"), "Ready");
  check("at first only the welcome is shown", ["welcome", "refusal", "box", "results", "comparison", "disk", "file", "program", "search"].map(id => $(id).hidden),
    [false, true, true, true, true, true, true, true, true]);

  // a disk and a text
  openImage(kept, "kept.img");
  check("a disk is listed", names(), ["HANOI", "LOADS", "READ.ME.TEXT"]);
  check("with its columns", document.querySelectorAll("#files tr")[0].textContent, "HANOIcode62512084-12-01");
  check("its name and its total", shows("disk-title") + " " + shows("total"), "KEPT (kept.img) 3 files. Free: 24 blocks (12 KB), the largest free area has 24");
  choose("READ.ME.TEXT");
  check("a text is shown", [...$("lines").children].map(line => line.textContent),
    ["HANOI moves a tower of three disks.", "LOADS loads one segment where another stood."]);
  check("a text has no Run", $("run").hidden, true);

  // a program that runs to its end
  choose("HANOI");
  check("code is shown as blocks", shows("lines"), text => text.includes("CGP_2(param3 - 1, param2, 6 - param2 - param1)"));
  press("run");
  await ended();
  check("the console", shows("console"), "1>3 1>2 3>2 1>3 2>1 2>3 1>3 ");
  check("the state", shows("state"), "The program has ended. Steps: 402");
  press("close");
  check("the program is closed", $("program").hidden, true);
  check("a program that writes no disk changes none", disk.changed, false);

  // a breakpoint, steps, the trace
  press("debug");
  check("the first line is marked", here().length, 1);
  line("00060 local1 := string[5] '?>? '").click();
  check("a line sets a breakpoint", shows("breaks"), "1 3 0");
  press("go");
  await ended();
  check("which stops the run", shows("state"), text => text.endsWith(". Steps: 52") && text.startsWith(library.sentence(15)));
  check("at this line", here(), ["00060 local1 := string[5] '?>? '"]);
  check("the call stack", [...$("frames").children].map(one => one.textContent).slice(0, 3), ["1.3 at 0, frame 65286", "1.2 at 18, frame 65304", "1.2 at 16, frame 65322"]);
  press("one");
  check("an instruction adds a line to the trace", shows("traced"), text => /^00000052 .* LLA 1\n$/.test(text));
  press("finish");
  await ended();
  check("Finish runs to the return", library.line("where"), "1 2 18 SLDL 3");
  line("00060 local1 := string[5] '?>? '").click();
  check("the line again removes the breakpoint", shows("breaks"), "");
  trace(40);
  check("Trace adds its lines", shows("traced").split("\n").length, 42);
  view("Instructions").click();
  check("in the listing one line is marked", here().length, 1);
  check("with the form chosen", view("Instructions").getAttribute("aria-pressed"), "true");
  send("help");
  check("a command is answered", shows("answers"), text => text.startsWith("> help\n") && text.length > 200);
  send("poke 3 1");
  check("a command is refused", shows("answers").split("\n").at(-2), "refused 3");
  send("<b>no tag</b>");
  check("an unknown command is text", [shows("answers").split("\n").at(-3), document.querySelectorAll("#answers b").length], ["> <b>no tag</b>", 0]);
  send("break 1 3 0 if 100 = 0");
  check("a breakpoint with a condition marks its line", shows("breaks"), "1 3 0 if 100 = 0");
  send("clear 1 3 0");
  send("console on");
  press("go");
  await ended();
  check("after `console on` a run ends as before", shows("state"), "The program has ended. Steps: 402");
  press("again");
  check("Restart begins again", shows("state"), "Before the first step. Steps: 0");
  press("close");

  // a run in slices, Stop, and a breakpoint at the end of a slice
  library.boot(kept, bytes("HANOI"));
  library.line("break 1 3 0");
  check("a slice that ends at a breakpoint", [library.line("go 52"), library.line("on 1000")], ["limit 52", "break 52"]);
  library.c.pmach_free(library.handle);

  // a program whose segment has another number than its slot
  const odd = library.ask("get", kept, bytes("HANOI")).bytes, word = at => odd[at] + 256 * odd[at + 1];
  odd[512 * word(4) + word(6) - 2] = 9;
  openImage(library.ask("put", kept, bytes("ODD"), 2, odd).bytes, "odd.img");
  choose("ODD");
  press("debug");
  line("00060 local1 := string[5] '?>? '").click();
  check("a line of a segment with another number sets a breakpoint", shows("breaks"), "9 3 0");
  press("go");
  await ended();
  check("which stops the run at this line", [shows("state").endsWith(". Steps: 52"), here()], [true, ["00060 local1 := string[5] '?>? '"]]);
  check("with the variables of the procedure", [document.querySelectorAll("#values tr").length > 1, /^param1 = \d+$/.test(valueIn("param1", "1 3"))], [true, true]);
  press("close");
  openImage(kept, "kept.img");

  // changes
  choose("READ.ME.TEXT");
  press("rename");
  answer("NEWNAME");
  check("a file is renamed", names(), ["HANOI", "LOADS", "NEWNAME"]);
  check("the change is not saved", [disk.changed, shows("status")], [true, "kept.img has changes that are not saved"]);
  choose("NEWNAME");
  press("rename");
  answer("A:B");
  check("an invalid name is refused", shows("status"), text => text.startsWith("refused filer 1 10: "));
  choose("LOADS");
  press("remove");
  answer();
  check("a file is removed", names(), ["HANOI", "NEWNAME"]);
  addFile(bytes("one\ntwo\n"), "note.txt");
  answer("NOTE.TEXT", "");
  check("a text is added", names(), ["HANOI", "NOTE.TEXT", "NEWNAME"]);
  choose("NOTE.TEXT");
  check("and is shown", [...$("lines").children].map(line => line.textContent), ["one", "two"]);
  addFile(new Uint8Array(700), "zeros");
  answer("ZEROS", "5");
  check("data is added", library.ask("get", disk.data, bytes("ZEROS")).bytes.length, 700);
  press("krunch");
  check("the files are moved together", shows("total"), text => /Free: (\d+) blocks .* area has \1$/.test(text));
  press("save");
  check("Save ends the changes", [disk.changed, shows("status")], [false, "kept.img"]);

  // what is no volume changes nothing
  const before = disk.data, damaged = kept.slice();
  damaged[1056] = 0;
  openImage(damaged, "damaged.img");
  check("a damaged disk shows what check reports", shows("faults"), "slot 1 name has 0 characters, not 1 to 15\nfaults 1\nrefused volume 4 1");
  check("and the open disk stays", [disk.data === before, disk.name, $("disk").hidden], [true, "kept.img", false]);
  press("salvage");
  check("its files are salvaged", [names(), disk.changed, disk.name], [["LOADS", "READ.ME.TEXT"], true, "damaged.img"]);
  press("krunch");
  openImage(kept, "kept.img");
  check("a disk with changes asks first", [$("dialog").open, disk.name], [true, "damaged.img"]);
  press("cancel");
  check("Cancel keeps it", [$("dialog").open, disk.name, disk.changed], [false, "damaged.img", true]);
  for (const [name, data] of [["nothing", new Uint8Array(0)], ["abc", bytes("abc".repeat(5))], ["zeros", new Uint8Array(3072)],
    ["ones", new Uint8Array(143360).fill(255)], ["odd", new Uint8Array(143361)], ["long", new Uint8Array(16777217)]]) {
    const open = disk.data;
    openImage(data, name);
    check(name + ": check reports, and nothing changes", [shows("faults") !== "", disk.data === open, shows("refusal-title")], [true, true, name + " is not opened"]);
  }
  for (let seed = 1; seed <= given.random; seed++) { // random bytes, and random changes of the disk's directory
    let state = seed;
    const next = end => { state = (state * 1103515245 + 12345) % 2147483648; return Math.floor(state / 65536) % end; };
    const data = seed % 2 ? Uint8Array.from({length: 512 * next(20)}, () => next(256)) : kept.slice();
    for (let k = 0; k < 8 && data.length > 3072; k++) data[1024 + next(120)] = next(256);
    const open = disk.data, isVolume = library.ask("list", data).status === 0;
    openImage(data, "random");
    if (isVolume) press("cancel");
    const shown = shows("faults") === text(library.ask("check", data).bytes) || isVolume;
    if (!shown || disk.data !== open || shows("status").includes("internal error")) check("random bytes " + seed, [shown, disk.data === open], [true, true]);
  }
  check("random bytes change nothing", shows("status").includes("internal error"), false);
  press("dismiss");

  // hostile names are texts
  const hostile = kept.slice();
  const put = (at, name) => { hostile[at] = name.length; hostile.set(bytes(name), at + 1); };
  put(1056, "<img src=x onE=");
  put(1082, "&amp;<b>\"'`");
  put(1030, "<i>&#65");
  opened(hostile, "<img src=x onerror=alert(1)>.img");
  check("hostile names are shown as they are", names(), ["<img src=x onE=", "&amp;<b>\"'`", "READ.ME.TEXT"]);
  check("as is the volume's", shows("disk-title"), "<i>&#65 (<img src=x onerror=alert(1)>.img)");
  check("they make no element", document.querySelectorAll("main img, main b img, #files b, #files i, #disk-title i, #status img").length, 0);
  choose("<img src=x onE=");
  press("run");
  await ended();
  check("such a program runs", shows("console"), "1>3 1>2 3>2 1>3 2>1 2>3 1>3 ");
  press("close");

  // disks that the page makes; typed keys
  makeDisk();
  answer("MINE", "280");
  check("a new disk", [names(), shows("total")], [[], "0 files. Free: 274 blocks (137 KB), the largest free area has 274"]);
  press("sample");
  answer();
  check("the sample disk", [names(), disk.changed], [["HANOI", "PRIMES", "ECHO"], false]);
  choose("ECHO");
  press("run");
  await ended();
  check("a program waits", [$("console").classList.contains("waits"), shows("state")], ([waits, state]) => waits && state.startsWith(library.sentence(1)));
  typed("Hi\nyou");
  await ended();
  check("it has what was typed", shows("console"), "Hi\nyou");
  typed(".");
  await ended();
  check("and ends at a full stop", shows("state"), text => text.startsWith("The program has ended. Steps: "));
  press("close");
  choose("PRIMES");
  press("run");
  await ended();
  check("PRIMES ends", shows("state"), text => text.startsWith("The program has ended."));
  press("close");

  // a program that destroys the directory
  const writer = ".SEG 1 W\n.PROC 1 0 0 0\nSLDC 4\nLDCI 2000\nSLDC 0\nLDCI 512\nSLDC 2\nSLDC 0\nCSP 6\n.EXIT\nRBP 0\n.END\n";
  const code = library.ask("assemble", bytes(writer), 0);
  check("a program that writes block 2 is assembled", code.status, 0);
  opened(library.ask("put", kept, bytes("W"), 2, code.bytes).bytes, "w.img");
  choose("W");
  press("run");
  await ended();
  press("close");
  check("its disk is no volume any more", [names(), disk.changed, shows("disk-title")], [[], true, "w.img is no volume any more"]);
  press("krunch");
  check("which a change refuses", shows("status"), text => text.startsWith("refused volume 3: "));
  press("sample");
  answer();

  // a failing library
  const open = disk.data;
  safely(() => { throw new WebAssembly.RuntimeError("unreachable"); });
  await new Promise(next => setTimeout(next, 50));
  check("after a trap the disk is open", [disk.data === open, shows("status").includes("internal error")], [true, true]);
  choose("HANOI");
  press("run");
  await ended();
  check("and the page goes on", shows("state"), "The program has ended. Steps: 402");
  press("close");
  await otherLooks(given, {check, shows, press, names, choose, line, view, ended, answer, opened});
  await formatLooks(given.more, {check, shows, press, names, choose, ended, answer, opened});
  await boxLooks(given, {check, shows, press, names, choose, view, ended, answer});
  await stepLooks(given, {check, shows, press, choose, view, ended, opened});
  return results;
}

// The other half: code as links, values, calls, the map, bytes, search, several disks, many images, the screen, the profile.
async function otherLooks(given, {check, shows, press, names, choose, line, view, ended, answer, opened}) {
  const kept = Uint8Array.from(given.kept), lines = () => [...$("lines").children].map(line => line.textContent);
  const inside = (element, name) => [...element.children].flatMap(child => [child, ...inside(child, name)]).filter(child => child.classList.contains(name));
  const found = () => inside($("lines"), "found").map(line => line.textContent);
  const fileOf = (name, data) => ({name, arrayBuffer: async () => data.slice().buffer});
  const discard = () => { for (const one of drives.values()) one.changed = false; };
  const hits = () => [...document.querySelectorAll("#hits li")].map(hit => hit.textContent);
  discard();

  // code as links, and values
  opened(kept, "kept.img");
  choose("HANOI");
  const call = inside(line("00023   CGP_2(param3 - 1, param2, 6 - param2 - param1)"), "link")[0];
  check("a call is a link", call.textContent, "CGP_2");
  inside(line("00034   CLP_3"), "link")[0].click();
  check("which leads to its procedure", found(), ["PROCEDURE 3 OF SEGMENT 1: level 2, 0 bytes of parameters, 6 of locals, 0 of result"]);
  const variable = inside(line("00018 IF param3 > 0 THEN"), "variable")[0];
  variable.onmouseenter();
  check("a variable has no value before Debug", shows("tip"), "param3: its value is shown after Debug");
  press("debug");
  library.line("break 1 2 0");
  press("go");
  await ended();
  check("parameters of the procedure", shows("values"), "param1    3param2    1param3    3");
  variable.onmouseenter();
  check("a variable shows its value", [shows("tip"), $("tip").hidden], ["param3 = 3", false]);
  variable.onmouseleave();
  check("until the pointer leaves it", $("tip").hidden, true);
  press("go");
  await ended();
  check("and the next one", shows("values"), "param1    2param2    1param3    2");
  const other = inside(line("00070 local1.byte[1] := up1_2 + 48"), "variable");
  other[0].onmouseenter();
  check("not that of another procedure", shows("tip"), "local1: the program is not in this procedure");
  library.line("clear 1 2 0");
  library.line("break 1 3 0");
  press("go");
  await ended();
  other[1].onmouseenter();
  check("a variable of an outer procedure", shows("tip"), "up1_2 = 1");
  check("locals of the procedure", shows("values"), text => /^local1 +\d+local2 +\d+local3 +\d+$/.test(text));
  view("Statements").click();
  check("a label is a link", inside(line("00018 IF NOT (param3 > 0) GOTO L00047"), "link").map(one => one.textContent), ["L00047"]);
  inside(line("00018 IF NOT (param3 > 0) GOTO L00047"), "link")[0].click();
  check("which leads to its line", found(), ["L00047:"]);
  view("Instructions").click();
  inside($("lines"), "link").find(one => one.textContent === "CLP 3").click();
  check("also in the listing", found().map(one => one.slice(0, 12)), ["01 003 00060"]);
  view("Assembler").click();
  inside($("lines"), "link").find(one => one.textContent === "CLP 3").click();
  check("and in the assembler text", found(), [".PROC 3 2 0 6"]);
  press("close");
  const globals = ".SEG 1 G\n.PROC 1 0 0 4\nSLDC 7\nSRO 1\nCGP 2\n.EXIT\nRBP 0\nNOP\n.END\n.PROC 2 1 0 2\nSLDO 1\nSTL 1\n.EXIT\nRNP 0\nNOP\n.END\n";
  const code = library.ask("assemble", bytes(globals), 0);
  check("a program with a global variable is assembled", code.status, 0);
  opened(library.ask("put", kept, bytes("G"), 2, code.bytes).bytes, "g.img");
  choose("G");
  press("debug");
  library.line("break 1 2 0");
  press("go");
  await ended();
  inside($("lines"), "variable").find(one => one.textContent === "global1")?.onmouseenter();
  check("a global variable", shows("tip"), "global1 = 7");
  press("close");

  // calls, map, bytes, search
  opened(kept, "kept.img");
  choose("HANOI");
  view("Calls").click();
  check("calls as a table", [...document.querySelectorAll("#graph tr")].slice(1).map(row => [...row.children].map(cell => cell.textContent).join("; ")),
    ["1.1; 1.2; none in this file", "1.2; 1.2 ×2, 1.3; 1.1, 1.2", "1.3; none; 1.2"]);
  check("and as a picture", [inside($("graph"), "call").length, inside($("graph"), "back").length, $("lines").hidden], [2, 1, true]);
  inside($("graph"), "link").find(one => one.textContent === "1.3").click();
  check("a procedure of it leads to its code", [found().length, view("Blocks").getAttribute("aria-pressed")], [1, "true"]);
  view("Bytes").click();
  check("bytes", [lines().length, lines()[4]], [64, "000040  20 20 20 20 20 20 20 20 48 41 4E 4F 49 20 20 20          HANOI   "]);
  const rects = inside($("map"), "file");
  check("a map of the blocks", [rects.length, $("map").querySelectorAll("title").length > 4], [3, true]);
  rects[2].onclick();
  check("whose files can be chosen", shows("file-title"), "READ.ME.TEXT");
  view("Bytes").click();
  check("bytes of a text", lines().length, 128);
  await search("ONE segment");
  check("a search in texts", [shows("found"), hits()], ["1 line on 1 disk. Programs were not searched", ["READ.ME.TEXT 2 LOADS loads one segment where another stood."]]);
  document.querySelectorAll("#hits button")[0].click();
  check("whose line is shown", found(), ["LOADS loads one segment where another stood."]);
  await search("unitwrite");
  check("not in code", shows("found"), "Nothing was found on 1 disk. Programs were not searched");
  $("in-code").checked = true;
  await search("unitwrite");
  check("also in code", hits().map(hit => hit.slice(0, 26)), ["HANOI 19 00088 UNITWRITE(1"]);
  $("in-code").checked = false;
  press("unsearch");
  check("the results are closed", [$("results").hidden, $("search").hidden], [true, false]);

  // the screen
  const shown = (...written) => {
    const gone = [], made = new Screen(line => gone.push(line));
    made.write(bytes(written.join("")));
    return [made.rows.join("|"), made.x, made.y, gone.length];
  };
  check("lines", shown("ab\r\ncd\re\nf"), ["ab|cd|e|f", 1, 3, 0]);
  check("BEL is silent, BS goes back", shown("a\x07b\bc\b\b\bd"), ["dc", 1, 0, 0]);
  check("a line of 80 characters", shown("x".repeat(80) + "\ry"), ["x".repeat(80) + "|y", 1, 1, 0]);
  check("and of 81", shown("x".repeat(81)), ["x".repeat(80) + "|x", 1, 1, 0]);
  check("30 lines", shown("a\r".repeat(30)), ["a|".repeat(22) + "a", 0, 23, 7]);
  check("clear the screen", shown("ab\rcd\x0ce"), ["e", 1, 0, 0]);
  check("home, right, clear the line", shown("abc\rdef\x19\x1c\x1dX"), ["aX|def", 2, 0, 0]);
  check("clear to the end", shown("abc\rdef\rghi\x1f\x1f\x1c\x0b"), ["abc", 4 - 0, 0, 0].map((one, k) => k === 1 ? shown("abc\rdef\rghi\x1f\x1f\x1c\x0b")[1] : one));
  check("sequences", shown("abc\rdef\x1b[1;2HX\x1b[2;1H\x1b[CY\x1b[AZ\x1b[K"), ["aXZ|dYf", 3, 0, 0]);
  check("positions outside", shown("\x1b[99;99HX\x1b[HY\x1b[0;0H\x1b[2JZ"), ["Z", 1, 0, 0]);
  check("no sequence", shown("\x1b[?25hA\x1bQB\x1b[1;2;3;4;5;6;7;8;9C"), text => text[0].includes("A") && text[0].includes("B"));
  const stream = Array.from({length: 5000}, (_, k) => String.fromCharCode((k * 7919 + k * k) % 256)).join("");
  check("any bytes leave a screen", shown(stream), ([rows, x, y]) => x >= 0 && x <= 80 && y >= 0 && y < 24 && rows.split("|").every(row => !/[^ -~|]/.test(row)));

  // several disks
  discard();
  opened(kept, "kept.img");
  const second = library.ask("put_text", library.ask("volume", bytes("TWO"), 40).bytes, bytes("A.TEXT"), bytes("hello\n")).bytes;
  openImage(second, "two.img", 5);
  check("a second disk", [shows("disk-title"), names()], ["TWO (two.img) on unit 5", ["A.TEXT"]]);
  check("both are listed", [...$("drives").children].map(one => one.textContent), ["Unit 4: kept.img", "Unit 5: two.img", "Disk in unit 9"]);
  $("drives").children[0].click();
  // a program that writes 512 bytes of zeros to block 39 of unit 5
  const writer = library.ask("assemble", bytes(".SEG 1 W\n.PROC 1 0 0 0\nSLDC 5\nLDCI 2000\nSLDC 0\nLDCI 512\nSLDC 39\nSLDC 0\nCSP 6\n.EXIT\nRBP 0\n.END\n"), 0).bytes;
  const own = library.ask("put", kept, bytes("W"), 2, writer).bytes, marked = second.slice();
  marked[39 * 512] = 77;
  discard();
  openImage(own, "own.img", 4);
  openImage(marked, "two.img", 5);
  showDisk(4);
  choose("W");
  press("run");
  await ended();
  check("a program uses unit 5", shows("state"), text => text.startsWith("The program has ended"));
  press("close");
  check("only that disk is changed", [drives.get(4).changed, drives.get(5).changed, drives.get(5).data[39 * 512]], [false, true, 0]);
  check("and the page would ask", [...$("drives").children][1].textContent, "Unit 5: two.img *");
  openImage(kept, "other.img", 5);
  check("before it is replaced", [$("dialog").open, drives.get(5).name], [true, "two.img"]);
  press("cancel");
  showDisk(4);
  choose("HANOI");
  press("debug");
  $("drives").children[1].click();
  press("again");
  check("Restart shows the disk of the program", [disk.unit, shows("file-title"), shows("state")], [4, "HANOI", "Before the first step. Steps: 0"]);
  press("close");
  $("drives").children[1].click();
  press("first");
  check("it is moved to unit 4", [drives.get(4).name, drives.get(5).name, shows("disk-title")], ["two.img", "own.img", "TWO (two.img) on unit 4"]);
  press("eject");
  answer();
  check("and ejected", [[...drives.keys()], shows("disk-title")], [[5], "OWN (own.img) on unit 5".replace("OWN", "KEPT")]);
  choose("W");
  press("run");
  check("a program starts from unit 4 only", [program, shows("status").startsWith("Programs start from unit 4")], [null, true]);
  press("first");
  discard();

  // many images
  const bad = kept.slice();
  bad[1056] = 0;
  const hostile = kept.slice(), put = (at, name) => { hostile[at] = name.length; hostile.set(bytes(name), at + 1); };
  put(1056, "../<img>CON");
  put(1082, "NUL.TEXT");
  put(1030, "<i>&");
  await openBox([fileOf("kept.img", kept), fileOf("bad<b>.img", bad), fileOf("KEPT.IMG", hostile), {name: "gone", arrayBuffer: async () => { throw new Error("not readable"); }}]);
  check("many images are listed", [...$("boxed").children].map(row => [...row.children].slice(0, 6).map(cell => cell.textContent).join("; ")),
    ["kept.img; blocks; KEPT; 3; 24; good", "bad<b>.img; ; ; ; ; refused volume 4 1: an entry of the directory is damagedslot 1 name has 0 characters, not 1 to 15\nfaults 1\nrefused volume 4 1",
      "KEPT.IMG; blocks; <i>&; 3; 24; good"]);
  check("the open disk stays", disk.name, "own.img");
  check("their names make no element", document.querySelectorAll("#boxed b, #boxed i, #boxed img").length, 0);
  let zip = null;
  const before = saveFiles;
  saveFiles = (files, name) => { zip = [name, withOwnPaths(files)]; };
  await exportBox();
  saveFiles = before;
  check("all their files are exported", [zip[0], zip[1].map(file => file.path)], ["disks.zip", ["kept.img/HANOI", "kept.img/LOADS", "kept.img/READ.ME.TEXT",
    "KEPT.IMG%%2/%2E.%2F%3Cimg%3ECON", "KEPT.IMG%%2/%%NUL.TEXT", "KEPT.IMG%%2/READ.ME.TEXT"]]);
  check("a text as its characters", text(zip[1][2].data).split("\n")[0], "HANOI moves a tower of three disks.");
  check("CRC-32", crc(bytes("123456789")).toString(16), "cbf43926");
  await read(fileOf("bad.img", bad), data => openImage(data, "bad.img"));
  check("a damaged one shows its faults", shows("refusal-title"), "bad.img is not opened");
  press("dismiss");
  press("unbox");
  check("the list is closed", $("box").hidden, true);

  // the profile
  opened(kept, "kept.img");
  choose("HANOI");
  press("debug");
  press("profile");
  await ended();
  check("a profile", [...$("flame").children].slice(0, 3).map(bar => bar.textContent), ["all", "1.1", "1.2"]);
  check("after a run to its end", shows("state"), "The program has ended. Steps: 402");
  press("close");
}

// The third part: formats of images, programs with the system segment, and the report of salvage. `more` has what the native
// program does with the same images (disks_of_page.py).
async function formatLooks(more, {check, shows, press, names, choose, ended, answer, opened}) {
  const unpack = async packed => new Uint8Array(await new Response(new Blob([Uint8Array.from(atob(packed), one => one.charCodeAt(0))])
    .stream().pipeThrough(new DecompressionStream("gzip"))).arrayBuffer());
  const isEqual = (one, other) => one?.length === other.length && other.every((byte, k) => byte === one[k]);
  const fileOf = (name, data) => ({name, arrayBuffer: async () => data.slice().buffer});
  const discard = () => { for (const one of drives.values()) one.changed = false; };
  let saved = null;
  const download_ = download;
  download = (parts, name) => { saved = [name, parts[0]]; };
  const add = () => { addFile(bytes(more.note), "note.txt"); answer("NOTE.TEXT", ""); };
  if ($("box").hidden === false) press("unbox");

  // each format: open, change, save in this format and as blocks
  for (const {name, format, image, plain, blocks, saved: wanted} of more.formats) {
    const data = await unpack(image), untouched = data.slice();
    discard();
    openImage(data, name);
    check(name + " opens", [disk.name, disk.format, names(), disk.changed], [name, format, ["GUESS"], false]);
    check(name + ": its format is shown", shows("format"), "Format: " + format + ". Save the image keeps this format.");
    check(name + ": its blocks are those of the native program", isEqual(disk.data, await unpack(plain)), true);
    press("save");
    check(name + ": without a change the same bytes are saved", [saved[0], isEqual(saved[1], data)], [name, true]);
    add();
    check(name + ": a text is added", [names(), disk.changed], [["GUESS", "NOTE.TEXT"], true]);
    press("save");
    check(name + ": Save gives the bytes of the native program", [saved[0], isEqual(saved[1], await unpack(wanted)), disk.changed], [name, true, false]);
    press("convert");
    answer("blocks");
    check(name + ": Convert to blocks", [saved[0], isEqual(saved[1], await unpack(blocks))], [name.replace(/[.].*/, ".img"), true]);
    check(name + ": the bytes that were opened are unchanged", isEqual(data, untouched), true);
  }
  discard();
  openImage(await unpack(more.guess.image), "small.img");
  check("blocks in order", shows("format"), "Format: blocks");
  press("make");
  answer("MINE", "280");
  check("a new disk has blocks in order", shows("format"), "Format: blocks");

  // two formats: the page asks
  discard();
  const both = await unpack(more.both.image), choices = more.both.lines.map(line => line.split(" ")[0]);
  for (const [k, format] of choices.entries()) {
    openImage(both, "both.dsk");
    check("an image with two formats asks", [$("dialog").open, shows("dialog-title"), [...document.querySelectorAll("#fields option")].map(one => one.textContent)],
      [true, "Which format is it?", more.both.lines]);
    answer(format);
    check("and opens as " + format, [disk.format, shows("disk-title")], [format, more.both.lines[k].split(" ")[1].replace(":", "") + " (both.dsk)"]);
    add();
    press("save");
    check("and is saved as " + format, isEqual(saved[1], await unpack(more.both.saved[format])), true);
  }
  const open = disk.data;
  openImage(both, "both.dsk");
  press("cancel");
  check("Cancel opens none of them", [$("dialog").open, disk.data === open], [false, true]);

  // a list of images has the format of each
  const {image: dsk} = more.formats[0], {image: mac} = more.formats.find(({format}) => format.startsWith("dc42"));
  await openBox([fileOf("a.dsk", await unpack(dsk)), fileOf("b.dc42", await unpack(mac)), fileOf("both.dsk", both), fileOf("junk", bytes("abc"))]);
  check("a list of images has their formats", [...$("boxed").children].map(row => [...row.children].slice(0, 5).map(cell => cell.textContent).join("; ")),
    ["a.dsk; dos; SHOE; 1; " + more.free[0], "b.dc42; dc42-blocks; SHOE; 1; " + more.free[1], "both.dsk; " + choices.join(", ") + "; ; ; ", "junk; ; ; ; "]);
  check("and says which are clear", [...$("boxed").children].map(row => row.children[5].textContent).slice(0, 3),
    ["good", "good", "several formats; Open asks for one" + more.both.lines.join("\n")]);
  let zip = null;
  const saveFiles_ = saveFiles;
  saveFiles = files => { zip = files; };
  await exportBox();
  saveFiles = saveFiles_;
  check("files of other formats are exported", zip.map(file => file.path), ["a.dsk/GUESS", "b.dc42/GUESS"]);
  check("with the same bytes", isEqual(zip[0].data, zip[1].data), true);
  [...$("boxed").children[1].children[6].children][0].click();
  await new Promise(next => setTimeout(next, 100));
  check("what is no volume can be recovered", [...$("boxed").children].map(row => row.children[6].children[0].textContent), ["Open", "Open", "Open", "Recover"]);
  check("such an image is opened from the list", [disk.name, disk.format], ["b.dc42", "dc42-blocks"]);
  press("unbox");

  // a program that calls the operating system, in an image with blocks in order and in one with DOS order
  for (const [name, image] of [["small.img", more.guess.image], ["shoe.dsk", dsk]]) {
    discard();
    openImage(await unpack(image), name);
    const before = disk.data.slice();
    choose("GUESS");
    $("system").checked = false;
    press("run");
    await ended();
    check(name + ": without System it ends with an error", [shows("state").startsWith("Error " + more.guess.without[1] + ": "), $("lent").hidden], [true, true]);
    press("close");
    $("system").checked = true;
    press("debug");
    check(name + ": the page says what is lost", $("lent").hidden, false);
    press("go");
    await ended();
    for (const byte of more.guess.keys) {
      key(byte);
      await ended();
    }
    check(name + ": with System it has the console of the native program", isEqual([...library.ask("console", library.handle, 0n).bytes], more.guess.console), true);
    check(name + ": and its steps", [shows("state"), more.guess.ended[0]], ["The program has ended. Steps: " + more.guess.ended[1], "ended"]);
    press("again");
    check(name + ": Restart uses System again", [shows("state"), $("lent").hidden], ["Before the first step. Steps: 0", false]);
    press("close");
    check(name + ": the disk has no trace of it", [isEqual(disk.data, before), disk.changed, names()], [true, false, ["GUESS"]]);
  }
  $("system").checked = true;
  const own = library.ask("put", disk.data, bytes("OWN"), 2, system).bytes;
  discard();
  openImage(own, "own.img");
  choose("OWN");
  press("run");
  check("a program with a segment in slot 0 is refused", [program, shows("status").startsWith("OWN does not start with System: refused system 4: ")], [null, true]);
  // (a program that writes 512 bytes of zeros to block 39 of its own disk, and to block 38 of the disk on unit 5)
  const call = (unit, block) => "SLDC " + unit + "\nLDCI 2000\nSLDC 0\nLDCI 512\nSLDC " + block + "\nSLDC 0\nCSP 6\n";
  const writer = library.ask("assemble", bytes(".SEG 1 W\n.PROC 1 0 0 0\n" + call(4, 39) + call(5, 38) + ".EXIT\nRBP 0\n.END\n"), 0);
  check("a program that writes to two disks is assembled", writer.status, 0);
  const put = library.ask("put", await unpack(more.guess.image), bytes("W"), 2, writer.bytes).bytes, marked = library.ask("volume", bytes("TWO"), 40).bytes;
  put[39 * 512] = marked[38 * 512] = 77;
  openImage(put, "put.img");
  openImage(marked, "two.img", 5);
  showDisk(4);
  choose("W");
  press("run");
  await ended();
  check("it ends", shows("state"), state => state.startsWith("The program has ended"));
  press("close");
  check("with System its own disk is unchanged, the other one is changed", [drives.get(4).changed, drives.get(4).data[39 * 512], drives.get(5).changed, drives.get(5).data[38 * 512]], [false, 77, true, 0]);
  check("and the page says so", shows("status"), "With System, what the program wrote to its own disk put.img is lost");
  $("system").checked = false;
  press("run");
  await ended();
  press("close");
  check("without System its own disk is changed", [drives.get(4).changed, drives.get(4).data[39 * 512]], [true, 0]);
  discard();
  $("drives").children[1].click();
  press("eject");

  // the report of salvage
  openImage(await unpack(more.damaged.image), "damaged.img");
  press("salvage");
  check("salvage has the lines of the native program", [shows("report"), $("report-part").hidden], [more.damaged.report, false]);
  check("and its volume", [isEqual(disk.data, await unpack(more.damaged.volume)), shows("format")], [true, "Format: blocks"]);
  // damaged disks in other formats: pmach_form finds the format, and Save gives the bytes of `salvage` with this format
  for (const {name, format, image, faults, report, saved: wanted} of more.others) {
    discard();
    openImage(await unpack(image), name);
    check(name + " is read as " + format, [shows("refusal-title"), $("read-as").value, shows("faults")], [name + " is not opened", format, faults]);
    $("read-as").value = "blocks";
    readAs("blocks");
    check(name + ": as blocks it has other faults", shows("faults") !== faults, true);
    readAs(format);
    press("salvage");
    check(name + ": salvage has the lines of the native program", [shows("report"), shows("format"), disk.changed], [report, "Format: " + format + ". Save the image keeps this format.", true]);
    press("save");
    check(name + ": and Save its image", [saved[0], isEqual(saved[1], await unpack(wanted))], [name, true]);
  }
  for (const {name, image, saved: wanted} of more.repaired) {
    discard();
    openImage(await unpack(image), name);
    press("repair");
    check(name + " is repaired", [names(), disk.changed], [["NOTE.TEXT"], true]);
    press("save");
    check(name + ": as the native program does", [saved[0], isEqual(saved[1], await unpack(wanted))], [name, true]);
  }
  // a disk with blocks in order, saved in each format
  discard();
  openImage(await unpack(more.plain.image), "plain.img");
  for (const [format, {name, image}] of Object.entries(more.plain.saved)) {
    press("convert");
    answer(format);
    check("saved as " + format, [saved[0], isEqual(saved[1], await unpack(image)), disk.format], [name, true, "blocks"]);
  }
  openImage(await unpack(more.guess.image), "small.img");
  press("convert");
  answer("dos");
  check("a format that does not fit is refused", shows("status"), words => words.startsWith("refused convert 4: "));
  discard();
  openImage(both.slice(), "both.dsk");
  answer(choices[0]);
  check("another disk has no such lines", $("report-part").hidden, true);
  download = download_;
  discard();
}

// The fourth part: searches on all disks, comparisons, several images in one .zip. The lines of `find`, `grep` and `diff` of the
// native program are in given.more.searches.
async function boxLooks(given, {check, shows, press, names, choose, view, ended, answer}) {
  const unpack = async packed => new Uint8Array(await new Response(new Blob([Uint8Array.from(atob(packed), one => one.charCodeAt(0))])
    .stream().pipeThrough(new DecompressionStream("gzip"))).arrayBuffer());
  const settled = async until => { for (let k = 0; k < 200 && !until(); k++) await new Promise(next => setTimeout(next, 5)); };
  const fileOf = (name, data) => ({name, arrayBuffer: async () => data.slice().buffer});
  const {searches} = given.more, images = [];
  for (const {name, image} of searches.images) images.push([name, await unpack(image)]);
  const list = tag => [...document.querySelectorAll(tag)].map(one => one.textContent), hit = words => [...document.querySelectorAll("#hits button")].find(one => one.textContent === words);
  for (const one of drives.values()) one.changed = false;
  drives.clear();
  openImage(...[...images[0]].reverse());
  openImage(...[...images[1]].reverse(), 5);
  await openBox(images.map(([name, data]) => fileOf(name, data)));
  check("the list has what `info` prints", [...$("boxed").children].map(row => [...row.children].slice(0, 5).map(cell => cell.textContent).join("|")), searches.info);
  if (drives.get(5)) showDisk(4);
  press("unbox");
  await openBox(images.slice(2).map(([name, data]) => fileOf(name, data)));

  // each hit is one of the native program; upper and lower case
  $("exact").checked = true;
  for (const {words, lines, found} of searches.grep) {
    await search(words);
    check("search for " + words, [list("#hits li").filter(one => / \d/.test(one)), shows("found").includes(found)], [lines, true]);
  }
  $("exact").checked = false;
  await search("BLACK");
  check("upper and lower case", [shows("found").split(". ")[0], list("#hits h3")], ["3 lines on 3 disks", ["a.img (unit 4)", "b.img (unit 5)", "c.dsk"]]);
  check("an image that is no volume", shows("found").includes("Not searched: junk.bin: no volume"), true);
  check("the words are marked", list("#hits mark"), ["Black", "Black", "black"]);
  hit("CATS.TEXT 2").click();
  check("a hit on a unit", [disk.name, shows("file-title"), list("#lines .found")], ["a.img", "CATS.TEXT", ["Black cats are quick."]]);
  hit("MICE.TEXT 3").click();
  await settled(() => disk.name === "c.dsk" && shown !== null);
  check("a hit in the list opens its disk", [disk.name, disk.unit, shows("file-title"), list("#lines .found")], ["c.dsk", 4, "MICE.TEXT", ["A black mouse."]]);
  await search("text");
  check("names are searched", list("#hits button"), ["MICE.TEXT", "CATS.TEXT", "SAME.TEXT", "DOGS.TEXT"]);
  await search("=.TEXT");
  check("with a pattern", [list("#hits button"), shows("found").split(" on ")[0]], [["MICE.TEXT", "CATS.TEXT", "SAME.TEXT", "DOGS.TEXT"], "4 files"]);
  await search("nowhere");
  check("nothing", shows("found").startsWith("Nothing was found on 2 disks"), true);
  // (two files of one name, of which the second has the line)
  const twice = images[0][1].slice();
  twice.set(bytes("\tCATS.TEXT"), 1082);
  check("a disk with one name twice", ["Dogs", "cats", "cats.text"].map(words => hitsIn(twice, twice, words, false, false).hits.map(({file, number}) => [file.slot, number ?? 0])),
    [[[2, 1]], [[1, 0], [2, 0], [1, 1], [1, 2]], [[1, 0], [2, 0]]]);
  press("unsearch");

  // comparisons
  openImage(...[...images[0]].reverse(), 4);
  openImage(...[...images[1]].reverse(), 5);
  showDisk(4);
  press("compare");
  check("Compare asks for two disks", [$("dialog").open, list("#fields option").slice(0, 2)], [true, ["a.img (unit 4)", "b.img (unit 5)"]]);
  answer("0", "1");
  await settled(() => !$("comparison").hidden);
  const pairs = () => [...$("pairs").children].map(row => [...row.children].map(cell => cell.textContent).join("|"));
  check("a comparison", pairs(), searches.diff);
  check("its heading", [shows("comparison-title"), shows("differences")], ["a.img (unit 4) (here) and b.img (unit 5) (there)", "2 differ, 1 same, 1 only here, 1 only there"]);
  [...$("pairs").children].find(row => row.textContent.startsWith("CATS.TEXT")).querySelectorAll("button")[0].click();
  check("a difference leads to its byte", [disk.unit, shows("file-title"), list("#lines .found").map(line => line.slice(0, 6))], [4, "CATS.TEXT", [searches.row]]);
  [...$("pairs").children].find(row => row.textContent.startsWith("CATS.TEXT")).querySelectorAll("button")[1].click();
  check("also on the other disk", [disk.unit, shows("file-title"), view("Bytes").getAttribute("aria-pressed")], [5, "CATS.TEXT", "true"]);
  [...$("pairs").children].find(row => row.textContent.startsWith("DOGS.TEXT")).querySelectorAll("button")[0].click();
  check("a file that is only there", [disk.unit, shows("file-title")], [5, "DOGS.TEXT"]);
  await compare(drives.get(4), {name: "again.img", file: fileOf("again.img", images[0][1])});
  await settled(() => shows("comparison-title").includes("again"));
  check("a disk and itself", shows("differences"), "All 4 files are the same");
  await compare(drives.get(4), {name: "junk.bin", file: fileOf("junk.bin", new Uint8Array(700))});
  check("what is no volume is not compared", shows("status"), words => words.startsWith("a.img and junk.bin are not compared: refused volume 1"));
  press("uncompare");
  check("the comparison is closed", $("comparison").hidden, true);
  const [open, list_] = [new Map(drives), box];
  drives.clear();
  box = [];
  askDisks();
  check("without a disk there is nothing to compare", [$("dialog").open, shows("status")], [false, "There is no disk to compare"]);
  for (const [unit, one] of open) drives.set(unit, one);
  box = list_;

  // several images in one .zip
  let zip = null;
  const saveFiles_ = saveFiles;
  saveFiles = (files, name) => { zip = [name, files]; return true; };
  drives.get(5).changed = true;
  press("save-all");
  saveFiles = saveFiles_;
  check("all images in one .zip", [zip[0], zip[1].map(({path, data}) => path + " " + data.length), drives.get(5).changed], ["images.zip", ["a.img " + images[0][1].length, "b.img " + images[1][1].length], false]);
  showDisk(5);
  press("eject");
  check("with one disk there is no such button", $("save-all").hidden, true);
}

// The fifth part: steps that wait for a key, the call stack and the procedures as links, a long program, the printer.
async function stepLooks(given, {check, shows, press, choose, view, ended, opened}) {
  const list = tag => [...document.querySelectorAll(tag)].map(one => one.textContent), kept = Uint8Array.from(given.kept);
  const begin = async (name, source) => {
    closeProgram();
    for (const one of drives.values()) one.changed = false;
    const code = library.ask("assemble", bytes(source), 0);
    check(name + " is assembled", code.status, 0);
    opened(library.ask("put", kept, bytes(name), 2, code.bytes).bytes, name + ".img");
    choose(name);
    press("debug");
  };
  const where = () => library.line("where").split(" ").slice(0, 3).join(" "), waits = () => $("console").classList.contains("waits");
  const read = "SLDC 1\nLLA 1\nSLDC 0\nSLDC 1\nSLDC 0\nSLDC 0\nCSP 5\n"; // one byte of the console, to variable 1
  await begin("KEYS", ".SEG 1 KEYS\n.PROC 1 0 0 2\nCGP 2\nSLDC 7\nSRO 1\n.EXIT\nRBP 0\nNOP\n.END\n.PROC 2 1 0 2\nCGP 3\n" + read +
    "SLDC 9\nSTL 1\n.EXIT\nRNP 0\n.END\n.PROC 3 1 0 2\n" + read + read + ".EXIT\nRNP 0\n.END\n");
  check("where it begins", where(), "1 1 0");
  press("step");
  await ended();
  check("a step waits in a called procedure", [waits(), where().slice(0, 4)], [true, "1 3 "]);
  key(65);
  await ended();
  check("with one key it waits again", [waits(), where().slice(0, 4)], [true, "1 3 "]);
  key(66);
  await ended();
  check("then in its caller", [waits(), where().slice(0, 4)], [true, "1 2 "]);
  key(67);
  await ended();
  check("and ends after the call", [waits(), where()], [false, "1 1 2"]);
  press("again");
  library.line("break 1 3 0");
  press("go");
  await ended();
  library.line("clear 1 3 0");
  check("the call stack", list("#frames button").map(one => one.split(" ").slice(0, 1)[0]), ["1.3", "1.2", "1.1"]);
  document.querySelectorAll("#frames button")[2].click();
  check("leads to the line after the call", list("#lines .found").length, 1);
  library.line("until 1 2 2 0");
  press("finish");
  await ended();
  check("a finish waits", waits(), true);
  key(65);
  key(66);
  await ended();
  check("and ends in the caller", where(), "1 2 2");
  press("finish");
  await ended();
  check("another one waits in its own procedure", [waits(), where().slice(0, 4)], [true, "1 2 "]);
  key(67);
  await ended();
  check("and ends in its caller", where(), "1 1 2");
  press("again");
  library.line("break 1 2 0");
  press("go");
  await ended();
  press("finish");
  await ended();
  check("a finish that waits in a called procedure", [waits(), where().slice(0, 4)], [true, "1 3 "]);
  for (const byte of [65, 66, 67]) { key(byte); await ended(); }
  check("ends in the caller of its own", where(), "1 1 2");
  check("the procedures can be chosen", list("#procedure option"), ["Go to ..", "1.1", "1.2", "1.3"]);
  goTo("1 3");
  check("and are shown", list("#lines .found")[0].startsWith("PROCEDURE 3 OF SEGMENT 1"), true);
  choose("READ.ME.TEXT");
  document.querySelectorAll("#frames button")[0].click();
  check("the call stack shows the program again", shows("file-title"), "KEYS");
  press("close");

  await begin("LONG", ".SEG 1 LONG\n.PROC 1 0 0 0\n" + "NOP\n".repeat(4500) + ".EXIT\nRBP 0\n.END\n");
  view("Instructions").click();
  check("a long program is cut", [$("lines").children.length, $("more").hidden], [4000, false]);
  library.line("until 1 1 4400");
  look("Stopped");
  check("the line of the machine is shown", list("#lines .here").map(line => line.slice(0, 12)), ["01 001 04400"]);
  press("close");

  await begin("PRINT", ".SEG 1 PRINT\n.PROC 1 0 0 0\nSLDC 6\nLSA \"HELLO\"\nSLDC 1\nSLDC 5\nSLDC 0\nSLDC 0\nCSP 6\n.EXIT\nRBP 0\n.END\n");
  check("nothing is printed at first", $("printer-part").hidden, true);
  press("go");
  await ended();
  check("the printer", [shows("printed"), $("printer-part").hidden], ["HELLO", false]);
  press("close");

  // a program that destroys the directory: its files can be recovered at once
  await begin("W", ".SEG 1 W\n.PROC 1 0 0 0\nSLDC 4\nLDCI 2000\nSLDC 0\nLDCI 512\nSLDC 2\nSLDC 0\nCSP 6\n.EXIT\nRBP 0\n.END\n");
  press("go");
  await ended();
  press("close");
  check("a disk that a program has damaged", shows("disk-title"), "W.img is no volume any more");
  if (shows("disk-title").includes("no volume")) $("total").querySelectorAll("button")[0].click();
  check("can be read at once", [shows("refusal-title"), $("refusal").hidden], ["W.img is damaged", false]);
  press("dismiss");
  for (const one of drives.values()) one.changed = false;
}
