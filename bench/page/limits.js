// What the page does at its limits, and the cases for bare code: `limits(given)` and `bareCases(cases)` run in the page itself,
// as looks.js. They return a list of [name, passed, what was shown].

// A program that loops for ever: its steps are counted while the page has to answer.
const LOOP = ".SEG 1 LOOP\n.PROC 1 0 0 2\nAGAIN: SLDO 1\nSLDC 1\nADI\nSRO 1\nUJP ^0\nNOP\n.EXIT\nRBP 0\n.JUMP AGAIN\n.END\n";

async function limits(given) {
  const results = [], kept = Uint8Array.from(given.kept), pause = time => new Promise(next => setTimeout(next, time));
  const check = (name, isRight, shown) => results.push([name, Boolean(isRight), String(shown).slice(0, 300)]);
  const status = () => $("status").textContent, ended = async () => { while (running !== null) await pause(5); };
  const choose = name => [...document.querySelectorAll("#files button")].find(button => button.textContent === name).click();
  const clear = () => { closeProgram(); drives.clear(); disk = shown = refused = null; box = []; layout(); };
  const timed = does => { const begun = performance.now(); does(); return performance.now() - begun; };

  // opening: a disk of 140 KB, and one of 32 MiB, the largest volume
  clear();
  const small = library.ask("volume", bytes("SMALL"), 280).bytes;
  const filled = library.ask("put_text", small, bytes("A.TEXT"), bytes("hello\n")).bytes, openings = [];
  for (let k = 0; k < 10; k++) { // (the least time, because other work on the machine adds to it)
    clear();
    openings.push(timed(() => openImage(filled, "small.img")));
    await pause(1);
  }
  check("a disk of 140 KB opens in 0.3 s", disk.name === "small.img" && Math.min(...openings) < 300, openings.map(time => time.toFixed(1)).join(" ") + " ms");
  clear();
  const large = library.ask("volume", bytes("LARGE"), 65535);
  check("a volume of 65,535 blocks", [large.status, large.bytes.length].join() === "0,33553920", [large.status, large.bytes.length]);
  const text6 = library.ask("put", large.bytes, bytes("HANOI"), 2, library.ask("get", kept, bytes("HANOI")).bytes);
  const data = Uint8Array.from({length: 6000000}, (_, k) => k % 251), put = library.ask("put", text6.bytes, bytes("DATA"), 5, data);
  check("with a file of 6,000,000 bytes", put.status === 0, put.status);
  const many = library.ask("put_text", put.bytes, bytes("MANY.TEXT"), bytes("a line\n".repeat(20000) + "the last line\n"));
  const time = timed(() => openImage(many.bytes, "large.img"));
  check("opens", disk?.name === "large.img" && document.querySelectorAll("#files tr").length === 3, time.toFixed(1) + " ms");
  const start = performance.now();
  await search("LAST line");
  check("is searched", $("found").textContent.startsWith("1 line on 1 disk"), $("found").textContent + ", " + (performance.now() - start).toFixed(0) + " ms");
  document.querySelectorAll("#hits button")[0].click();
  check("and its line is shown", document.querySelectorAll("#lines .found")[0].textContent === "the last line", $("lines").children.length);
  await compare(disk, disk);
  check("and compared", $("differences").textContent === "All 3 files are the same", $("differences").textContent);
  $("unsearch").click();
  $("uncompare").click();
  choose("DATA");
  check("its bytes are shown", $("lines").children[0].textContent.startsWith("000000  00 01 02"), $("lines").children[0].textContent);
  choose("HANOI");
  $("run").click();
  await ended();
  check("its program runs", $("state").textContent === "The program has ended. Steps: 402", $("state").textContent);
  $("close").click();
  check("and leaves it as it was", disk.data === many.bytes && !disk.changed, disk.changed);
  openImage(new Uint8Array(33554432), "zeros.img");
  check("32 MiB of zeros are refused", $("refusal-title").textContent === "zeros.img is not opened" && disk.name === "large.img", $("faults").textContent);
  clear();

  // a trap of the library: a pointer that is outside its memory
  openImage(kept, "kept.img");
  change("put_text", bytes("NEW.TEXT"), bytes("not saved\n"));
  const changed = disk.data;
  choose("HANOI");
  $("debug").click();
  safely(() => library.c.pmach_registers(library.handle, BigInt(library.c.memory.buffer.byteLength) + 4096n));
  await pause(200);
  check("a trap is reported", /internal error \(.*(bounds|access)/i.test(status()), status());
  check("the disk keeps what was not saved", disk.data === changed && disk.changed && program === null, disk.name);
  choose("HANOI");
  $("run").click();
  await ended();
  check("and the next program runs", $("state").textContent === "The program has ended. Steps: 402", $("state").textContent);
  $("close").click();

  // memory that ends
  const taken = [];
  for (let size = 2n ** 30n; size > 4096n; size /= 2n) for (let at = library.c.malloc(size); at !== 0n; at = library.c.malloc(size)) taken.push(at);
  check("memory ends", library.c.malloc(2n ** 20n) === 0n && taken.length > 3, library.c.memory.buffer.byteLength);
  safely(() => openImage(Uint8Array.from(given.kept), "other.img"));
  await pause(500);
  check("it is reported", status().includes("not enough memory") || status().includes("memory"), status());
  check("the open disk stays", disk.data === changed && disk.name === "kept.img", disk.name);
  safely(() => openImage(Uint8Array.from(given.kept), "other.img"));
  check("and the page goes on", library.c.memory.buffer.byteLength < 2 ** 28, library.c.memory.buffer.byteLength);
  if ($("dialog").open) $("dialog").close();
  const held = [];
  choose("HANOI");
  $("debug").click();
  for (let size = 2n ** 30n; size >= 32n; size /= 2n) for (let at = library.c.malloc(size - 16n); at !== 0n; at = library.c.malloc(size - 16n)) held.push(at);
  $("go").click();
  await pause(500);
  await ended();
  check("a program for which memory ends", program === null || $("state").textContent.includes("ended"), status() + " " + $("state").textContent);
  check("leaves the disk as it was", disk.data === changed, disk.name);
  clear();

  // many steps
  const loop = library.ask("assemble", bytes(LOOP), 0);
  openImage(library.ask("put", kept, bytes("LOOP"), 2, loop.bytes).bytes, "loop.img");
  choose("LOOP");
  // how long the page takes to answer, at most, until something holds: the first time without a run
  const longest = async until => {
    let most = 0;
    for (let last = performance.now(), count = 1; !until(count); count++) {
      await pause(10);
      most = Math.max(most, performance.now() - last);
      last = performance.now();
    }
    return most;
  };
  const idle = await longest(count => count > 50);
  $("run").click();
  const begun = performance.now(), busy = await longest(() => library.registers().steps >= BigInt(given.steps));
  const speed = given.steps / (performance.now() - begun) / 1000;
  check("after " + given.steps + " steps the page answers", busy < 500 + 10 * idle && running !== null,
    "in " + busy.toFixed(0) + " ms at most, without a run in " + idle.toFixed(0) + "; " + speed.toFixed(1) + " million steps a second");
  $("stop").click();
  check("and Stop stops", running === null && $("state").textContent.startsWith("Stopped. Steps: "), $("state").textContent);
  $("close").click();
  check("nothing is changed", disk.changed === false, disk.changed);
  clear();
  return results;
}

// FNV-1a of 64 bits, as docs/CASES.md has it, in hexadecimal digits.
function digest(data) {
  let high = 0xcbf29ce4, low = 0x84222325; // (the number times 2 to the power of 40, and times 0x1b3)
  for (const byte of data) {
    low = (low ^ byte) >>> 0;
    const product = low * 0x1b3;
    high = (Math.imul(high, 0x1b3) + Math.floor(product / 2 ** 32) + low * 256) % 2 ** 32;
    if (high < 0) high += 2 ** 32;
    low = product % 2 ** 32;
  }
  return high.toString(16).padStart(8, "0") + low.toString(16).padStart(8, "0");
}

// Runs cases for bare code: [code in hexadecimal digits, limit, last line, digest of the trace or null].
async function bareCases(cases) {
  const wrong = [];
  for (const [k, [code, limit, end, sum]] of cases.entries()) {
    if (k % 50 === 0) await new Promise(next => setTimeout(next));
    const answer = library.ask("raw", bytes(code), limit), message = text(answer.bytes);
    const last = answer.status === 2 ? message : message.split("\n").at(-2);
    if (last !== end || (sum !== null && digest(answer.bytes) !== sum)) wrong.push([code.slice(0, 80), last, end]);
  }
  return [["the " + cases.length + " cases for bare code", wrong.length === 0, JSON.stringify(wrong.slice(0, 3))]];
}
