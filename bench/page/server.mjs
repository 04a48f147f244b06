// Does the jobs of `pmach` by the library in a page: node server.mjs PAGE SOCKET NATIVE. Every script that tests a program
// can test the page's WebAssembly if it is given client.c in place of `pmach`. The native program NATIVE gets the command
// lines for which the library has no call; the last line, printed after SIGTERM, has their number.
import {spawnSync} from "child_process";
import fs from "fs";
import net from "net";
import path from "path";
import {library as ofPage} from "./wasm.mjs";

const [PAGE, SOCKET, NATIVE] = process.argv.slice(2);
const {start} = ofPage(PAGE);
let library = start();
const count = {calls: 0, traps: 0, native: 0};

const NOTHING = new Uint8Array(0);
const KINDS = {none: 0, badb: 1, code: 2, text: 3, info: 4, data: 5, graf: 6, foto: 7, secd: 8};
const LARGEST = {u16: 65535, u8: 255, u32: 4294967295, u64: 18446744073709551615n};
const STATUS = {done: 0, refused: 2, failed: 3, stream: 4, stopped: 6}; // exit statuses of pmach
const NO_TEXT = 12, BOOT_UNIT = 4;

class NoCall extends Error {}

const latin1 = bytes => Buffer.from(bytes).toString("latin1");
const toBytes = text => new Uint8Array(Buffer.from(text, "latin1"));
const fault = which => ({status: STATUS.stream, out: NOTHING, message: which + " fault"});

// Returns a number of a command line, if the type of the call's parameter has it.
function number(word, type) {
  if (!/^\d+$/.test(word) || BigInt(word) > BigInt(LARGEST[type])) throw new NoCall(word);
  return Number(word);
}

// The outcome of a job: its answer, which is the message if the job is refused.
function whole({status, bytes}) {
  if (status === NO_TEXT) throw new NoCall("a name that is not UTF-8");
  return status === STATUS.refused ? {status, out: NOTHING, message: latin1(bytes)} : {status, out: bytes, message: ""};
}

// The same for a job that also writes lines before its message.
function withLines({status, bytes}) {
  const at = bytes.lastIndexOf(10) + 1; // after the last line feed
  return status === STATUS.refused ? {status, out: bytes.slice(0, at), message: latin1(bytes.slice(at))} : {status, out: bytes, message: ""};
}

// ---- asm, dis and raw

function raw(words, input) {
  if (words.length !== 0 && (words.length !== 2 || words[0] !== "--limit")) throw new NoCall(words.join(" "));
  return whole(library.ask("raw", input, number(words[1] ?? "10000000", "u32")));
}

function asm(words, input) {
  if (words.length > 1) throw new NoCall(words.join(" "));
  if (words.length === 0) return whole(library.ask("assemble", input, 0));
  if (words[0] === "--list") return whole(library.ask("assemble", input, 1));
  if (words[0] === "--symbols") return whole(library.ask("assemble_symbols", input));
  if (words[0] === "--all") return withLines(library.ask("assemble_faults", input));
  throw new NoCall(words[0]);
}

function dis(words, input) {
  const calls = {"--names": "disassemble_names", "--list": "disassemble_list", "--statements": "disassemble_statements",
    "--indent": "disassemble_indented", "--blocks": "disassemble_blocks"};
  const call = words.length === 0 ? "disassemble" : calls[words[0]];
  if (!call || words.length > 1) throw new NoCall(words.join(" "));
  return whole(library.ask(call, input));
}

// ---- files

function kind(word) {
  if (/^\d+$/.test(word) && Number(word) < 16) return Number(word);
  if (word in KINDS) return KINDS[word];
  throw new NoCall("kind " + word);
}

// The calls of verbs, by the words after the verb: texts, and their bytes.
const BY_NAME = {
  get: (i, t, b) => ["get", i, b[0]], gettext: (i, t, b) => ["get_text", i, b[0]],
  put: (i, t, b, input) => ["put", i, b[0], kind(t[1]), input], puttext: (i, t, b, input) => ["put_text", i, b[0], input],
  remove: (i, t, b) => ["remove", i, b[0]], change: (i, t, b) => ["change", i, b[0], b[1]],
  kind: (i, t, b) => ["kind", i, b[0], kind(t[1])], copy: (i, t, b, input) => ["copy", i, b[0], input],
  krunch: i => ["krunch", i], repair: i => ["repair", i], duplicate: i => ["duplicate", i], single: i => ["single", i],
  zero: (i, t, b) => ["zero", i, b[0]], date: (i, t) => ["date", i, ...t.map(word => number(word, "u8"))],
  list: i => ["list", i], check: i => ["check", i],
};
const BY_SLOT = {
  get: (i, s) => ["get_slot", i, s], gettext: (i, s) => ["get_text_slot", i, s], remove: (i, s) => ["remove_slot", i, s],
  change: (i, s, t, b) => ["change_slot", i, s, b[0]], kind: (i, s, t) => ["kind_slot", i, s, kind(t[0])],
  copy: (i, s, t, b, input) => ["copy_slot", i, s, b[0], input],
};
const READS = ["list", "get", "gettext", "check"];

function files(words, given, input, at) {
  if (words[0] !== "--image" || words.length < 3) throw new NoCall(words.join(" "));
  const verb = words[2], rest = words.slice(3).map((word, k) => [word, given[k + 3]]).filter(([word]) => word !== "--");
  let slot = null;
  const option = rest.findIndex(([word]) => word === "--slot");
  if (option >= 0) slot = number(rest.splice(option, 2)[1]?.[0] ?? "", "u16");
  const texts = rest.map(([word]) => word), bytes = rest.map(([, word]) => word);
  if (verb !== "salvage" && texts.some(word => /^--[a-z]/.test(word) || word === "-o")) throw new NoCall(words.join(" "));
  let made;
  if (verb === "new") made = library.ask("volume", bytes[0], number(texts[1], "u16"));
  else {
    if (verb === "salvage") return salvaged(words, texts, given, input, at);
    const call = slot === null ? BY_NAME[verb] : BY_SLOT[verb];
    if (!call) throw new NoCall(words.join(" "));
    const image = at.read(words[1]);
    if (image === null) return fault("read");
    made = library.ask(...(slot === null ? call(image, texts, bytes, input) : call(image, slot, texts, bytes, input)));
    if (verb === "check") return withLines(made);
    if (READS.includes(verb)) return whole(made);
  }
  const outcome = whole(made);
  if (outcome.status !== STATUS.done) return outcome;
  fs.writeFileSync(at.path(words[1]), made.bytes);
  return {status: STATUS.done, out: NOTHING, message: ""};
}

// The native program writes the volume and the lines. The library has to make the same ones.
function salvaged(words, texts, given, input, at) {
  const image = at.read(words[1]), to = texts.find(word => word !== "--second"), second = texts.includes("--second") ? 1 : 0;
  if (image === null || to === undefined) throw new NoCall("salvage");
  const made = library.ask("salvage", image, second), report = library.ask("salvage_report", image, second);
  const native = natively(["files", ...given.map(latin1)].map(toBytes), input, at.path("."));
  const isDone = native.status === STATUS.done, message = latin1(native.messages).replace(/\n$/, "");
  const wanted = isDone ? fs.readFileSync(at.path(to)) : Buffer.from(message, "latin1"), lines = isDone ? native.out : wanted;
  if (native.status !== made.status || Buffer.compare(wanted, made.bytes) !== 0) throw new Error("another volume is salvaged");
  if (native.status !== report.status || Buffer.compare(lines, report.bytes) !== 0) throw new Error("salvage has other lines");
  return {status: native.status, out: native.out, message};
}

// ---- run, trace and debug

// Reads the options of a program: its disks by unit, and where its input and output are.
function options(words, given) {
  const read = {disks: new Map(), limit: 10000000n, saves: 0, printer: null, input: null, system: null, name: null};
  for (let k = 1; k < words.length; k++) {
    const unit = /^--d(\d+)$/.exec(words[k]);
    if (unit) read.disks.set(Number(unit[1]), words[++k]);
    else if (words[k] === "--limit") read.limit = BigInt(words[++k]);
    else if (words[k] === "--unlimited") read.limit = LARGEST.u64;
    else if (words[k] === "--save") read.saves = 1;
    else if (words[k] === "--save-all") read.saves = 2;
    else if (words[k] === "--printer") read.printer = words[++k];
    else if (words[k] === "--system") read.system = words[++k];
    else if (words[k] === "--input") read.input = words[++k];
    else if (words[k].startsWith("--") && words[k] !== "--") throw new NoCall(words[k]);
    else if (words[k] !== "--") read.name = given[k];
  }
  if (read.name === null || !read.disks.has(BOOT_UNIT) || (read.system !== null && read.saves === 1)) throw new NoCall("no program");
  return read;
}

function program(words, given, input, at) {
  const told = options(words, given), units = [...told.disks.keys()].sort((a, b) => a - b), images = new Map();
  for (const unit of units) {
    images.set(unit, at.read(told.disks.get(unit)));
    if (images.get(unit) === null) return fault("read");
  }
  const more = told.input === null ? NOTHING : at.read(told.input), system = told.system === null ? NOTHING : at.read(told.system);
  if (more === null || system === null) return fault("read");
  for (const unit of units) {
    const listed = library.ask("list", images.get(unit));
    if (listed.status !== STATUS.done) return whole(listed);
  }
  const refusal = words => ({status: STATUS.refused, out: NOTHING, message: "refused boot " + words});
  const extended = told.system === null ? {status: STATUS.done, bytes: images.get(BOOT_UNIT)} : library.ask("with_system", images.get(BOOT_UNIT), told.name, system);
  if (extended.status !== STATUS.done) return whole(extended);
  const began = library.boot(extended.bytes, told.name);
  if (began >= 200 && began < 300) return refusal(began - 200); // 200 + N: `refused boot N`
  if (began >= 100 && began < 200) return refusal("4 " + (began - 100)); // 100 + N: its first call fails by error N
  if (began === NO_TEXT) throw new NoCall("a name that is not UTF-8");
  if (began !== 0) throw new Error("boot " + began);
  for (const unit of units) {
    if (unit === BOOT_UNIT) continue;
    const mounted = library.call("mount", library.handle, unit, images.get(unit));
    if (mounted !== 0) throw new NoCall("mount " + mounted);
  }
  if (words[0] === "debug") return session(input, more);
  return words[0] === "trace" ? traced(input, told.limit) : ran(input, told, units, images, at);
}

function session(input, typed) {
  for (const byte of typed) library.call("key", library.handle, byte);
  const lines = latin1(input).split("\n"), answers = [];
  if (lines.at(-1) === "") lines.pop();
  for (const line of lines) {
    const result = library.call("command", library.handle, toBytes(line));
    if (result !== 0) throw new Error("command " + result);
    const answer = latin1(library.ask("answer", library.handle).bytes);
    if (answer === "") break; // after quit
    answers.push(answer);
  }
  return {status: STATUS.done, out: toBytes(answers.join("")), message: ""};
}

// The message and the status of a run that ended with a result of a step.
function ending(result, steps) {
  if (result === 2) return ["ended " + steps, STATUS.done];
  if (result === 1) return ["waiting " + steps, STATUS.stopped];
  if (result === 0) return ["limit " + steps, STATUS.stopped];
  if (result >= 100) return ["error " + (result - 100) + " " + steps, STATUS.failed];
  throw new Error("result " + result);
}

function traced(input, limit) {
  let out = "", steps = 0n, typed = 0, result = 0;
  while (steps !== limit) {
    const line = latin1(library.ask("line", library.handle).bytes);
    result = library.call("step", library.handle);
    if (result === 1 && typed < input.length) {
      library.call("key", library.handle, input[typed++]);
      continue;
    }
    if (result !== 1) out += line + "\n";
    if (result === 0 || result === 2) steps++;
    if (result !== 0) break;
  }
  const [message, status] = ending(result, steps);
  return {status, out: toBytes(out + message + "\n"), message: ""};
}

function ran(input, told, units, images, at) {
  let steps = 0n, typed = 0, result;
  do {
    library.view(library.needed, 8).setBigUint64(0, 0n, true);
    result = library.call("run", library.handle, told.limit - steps, library.needed);
    steps += library.view(library.needed, 8).getBigUint64(0, true);
    if (result !== 1 || typed === input.length) break;
    library.call("key", library.handle, input[typed++]);
  } while (true);
  const out = library.ask("console", library.handle, 0n).bytes, printed = library.ask("printer", library.handle, 0n).bytes;
  for (const unit of units) {
    if (library.call("eject", library.handle, unit) !== 0) throw new Error("eject " + unit);
    if (told.system !== null && unit === BOOT_UNIT) continue; // (it has the system segment)
    const left = library.ask("ejected", library.handle).bytes, isChanged = Buffer.compare(left, images.get(unit)) !== 0;
    if ((told.saves !== 0 && unit === BOOT_UNIT) || (told.saves === 2 && isChanged)) fs.writeFileSync(at.path(told.disks.get(unit)), left);
  }
  if (told.printer !== null) fs.writeFileSync(at.path(told.printer), printed);
  const [message, status] = ending(result, steps);
  return {status, out, message};
}

// ---- the server

function job(given, input, directory) {
  const words = given.map(latin1);
  const at = {path: name => path.resolve(directory, Buffer.from(name, "latin1").toString()),
    read: name => { try { return new Uint8Array(fs.readFileSync(at.path(name))); } catch { return null; } }};
  if (words[0] === "raw") return raw(words.slice(1), input);
  if (words[0] === "asm") return asm(words.slice(1), input);
  if (words[0] === "dis") return dis(words.slice(1), input);
  if (words[0] === "files") return files(words.slice(1), given.slice(1), input, at);
  if (["run", "trace", "debug"].includes(words[0])) return program(words, given, input, at);
  throw new NoCall(words.join(" "));
}

function natively(given, input, directory) {
  count.native++;
  const {status, stdout, stderr} = spawnSync(NATIVE, given.map(word => Buffer.from(word).toString()), {cwd: directory, input, maxBuffer: 1 << 28});
  return {status, out: stdout, messages: stderr};
}

function answer(given, input, directory) {
  count.calls++;
  try {
    const {status, out, message} = job(given, input, directory);
    return {status, out, messages: toBytes(message === "" ? "" : message + "\n")};
  } catch (error) {
    if (error instanceof NoCall) return natively(given, input, directory);
    count.traps++;
    console.log("trap", given.map(latin1), String(error));
    library = start();
    return {status: 99, out: NOTHING, messages: toBytes(String(error) + "\n")}; // no status of pmach
  }
}

// A request is the number of its parts, and each part its length and its bytes: the directory, standard input, the arguments.
// The answer is the status, the two lengths, and the bytes of output and messages. Numbers have 4 bytes.
net.createServer({allowHalfOpen: true}, connection => {
  const pieces = [];
  connection.on("data", piece => pieces.push(piece));
  connection.on("end", () => {
    const request = Buffer.concat(pieces), parts = [];
    for (let k = 0, at = 4; k < request.readUInt32LE(0); k++) {
      const length = request.readUInt32LE(at);
      parts.push(new Uint8Array(request.subarray(at + 4, at + 4 + length)));
      at += 4 + length;
    }
    const {status, out, messages} = answer(parts.slice(2), parts[1], Buffer.from(parts[0]).toString());
    const head = Buffer.alloc(12);
    [status, out.length, messages.length].forEach((value, k) => head.writeUInt32LE(value, 4 * k));
    connection.end(Buffer.concat([head, out, messages]));
  });
  connection.on("error", () => {});
}).listen(SOCKET, () => console.log("ready"));

process.on("SIGTERM", () => {
  console.log("%d command lines, %d by the native program, %d traps, %d bytes of memory",
    count.calls, count.native, count.traps, library.c.memory.buffer.byteLength);
  process.exit(0);
});
