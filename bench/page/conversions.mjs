// Compares the library of a page with the native program, for images in each format and damaged ones: the lines of `convert`,
// `convert`, `convert --back`, `salvage` and its report, `find`, `grep`, `info`, `files diff` and the format of `--form auto`.
// node conversions.mjs PAGE MORE.JSON (of disks_of_page.py) NATIVE
import {spawnSync} from "child_process";
import fs from "fs";
import os from "os";
import path from "path";
import zlib from "zlib";
import {library as ofPage} from "./wasm.mjs";

const [PAGE, MORE, NATIVE] = process.argv.slice(2);
const library = ofPage(PAGE).start(), more = JSON.parse(fs.readFileSync(MORE, "utf8"));
const folder = fs.mkdtempSync(path.join(os.tmpdir(), "conversions."));
const unpack = packed => new Uint8Array(zlib.gunzipSync(Buffer.from(packed, "base64")));
const toBytes = words => new Uint8Array(Buffer.from(words));
const write = (name, data) => { fs.writeFileSync(path.join(folder, name), data); return name; };
let count = 0, differ = 0;

// Compares an answer of the library with what the native program wrote to standard output, to the file NEW, or as its message.
function compare(what, {status, bytes}, words, made) {
  fs.rmSync(path.join(folder, "NEW"), {force: true});
  const native = spawnSync(NATIVE, words, {cwd: folder, maxBuffer: 1 << 28});
  const message = Buffer.from(native.stderr.toString("latin1").split("\n")[0], "latin1");
  const wanted = native.status !== 0 ? message : made ? fs.readFileSync(path.join(folder, "NEW")) : native.stdout;
  count++;
  if (status === native.status && Buffer.compare(wanted, bytes) === 0) return;
  differ++;
  console.log("differs:", what, words.join(" "), status, native.status, message.toString("latin1"));
}

// Compares the lines of a search or a comparison. The program has status 7 where the library has 18 or 19.
function compareLines(what, {status, bytes}, words) {
  const native = spawnSync(NATIVE, words, {cwd: folder, maxBuffer: 1 << 28}), isMessage = native.stdout.length === 0;
  const wanted = isMessage ? Buffer.from(native.stderr.toString("latin1").split("\n")[0], "latin1") : native.stdout;
  count++;
  if ((status === 18 || status === 19 ? 7 : status) === native.status && Buffer.compare(wanted, bytes) === 0) return;
  differ++;
  console.log("differs:", what, words.join(" "), status, native.status, wanted.toString("latin1").slice(0, 200));
}

const orders = ["blocks", "dos", "swapped", "big"], formats = ["", "2mg-", "dc42-"].flatMap(head => orders.map(order => head + order));
const images = [...more.formats.map(({name, image}) => [name, unpack(image)]), ["both", unpack(more.both.image)], ["damaged", unpack(more.damaged.image)], ["empty", new Uint8Array(0)],
  ["zeros", new Uint8Array(143360)]];
for (const [name, data] of [...images]) {
  images.push([name + ".cut", data.slice(0, Math.max(0, data.length - 100))]);
  for (let k = 0; k < 3; k++) { // three bytes at the beginning, or in the directory, are other ones
    const other = data.slice();
    for (let n = 0; n < 3 && other.length > 3072; n++) other[(k === 0 ? 0 : 1024) + (n * 7919 + k * 104729 + data.length) % (k === 0 ? 84 : 600)] ^= 1 << (n + k) % 8;
    images.push([name + ".changed" + k, other]);
  }
}
for (const {name, image} of more.searches.images) images.push([name, unpack(image)]);
let before = images[0][1];
for (const [name, data] of images) {
  write("OLD", data);
  write("OTHER", before);
  const path = toBytes("OLD"), form = Buffer.from(library.ask("form", data).bytes).toString("latin1");
  compareLines(name, library.ask("info", path, data), ["info", "OLD"]);
  for (const pattern of ["=", "=.text", "n=", "none"]) compareLines(name, library.ask("find", path, data, toBytes(pattern)), ["find", pattern, "OLD"]);
  for (const words of ["", "e", "two"]) compareLines(name, library.ask("grep", path, data, toBytes(words)), ["grep", words, "OLD"]);
  compareLines(name, library.ask("compare", data, before), ["files", "--image", "OLD", "diff", "OTHER"]);
  const found = form === "blocks" ? {status: 0, bytes: data} : library.ask("convert", data, toBytes(form), toBytes("blocks"));
  if (form.startsWith("refused")) compareLines(name, library.ask("form", data), ["files", "--form", "auto", "--image", "OLD", "check"]);
  else if (found.status === 0) {
    const checked = library.ask("check", found.bytes), lines = Buffer.from(checked.bytes).toString("latin1").replace(/refused volume [^\n]*$/, "");
    compareLines(name + " " + form, {status: checked.status, bytes: Buffer.from(lines, "latin1")}, ["files", "--form", "auto", "--image", "OLD", "check"]);
  }
  before = data;
  const listed = library.ask("formats", data), native = spawnSync(NATIVE, ["convert", "OLD"], {cwd: folder});
  count++;
  if (listed.status !== 0 || Buffer.compare(native.stdout, listed.bytes) !== 0) {
    differ++;
    console.log("differs:", name, "formats", listed.status, native.stdout.toString("latin1"));
  }
  for (const from of ["", ...formats]) {
    const form = from === "" ? [] : ["--form", from], blocks = library.ask("convert", data, toBytes(from), toBytes("blocks"));
    compare(name, blocks, ["convert", ...form, "OLD", "NEW"], true);
    if (blocks.status !== 0) continue;
    const changed = blocks.bytes.slice();
    if (changed.length > 0) changed[changed.length - 1] ^= 255;
    write("BLOCKS", changed);
    compare(name, library.ask("convert_back", data, toBytes(from), changed), ["convert", ...form, "--back", "OLD", "BLOCKS", "NEW"], true);
    const to = formats[count % formats.length];
    compare(name, library.ask("convert", data, toBytes(from), toBytes(to)), ["convert", ...form, "--as", to, "OLD", "NEW"], true);
  }
  for (const second of [0, 1]) {
    const words = ["files", "--image", "OLD", "salvage", ...(second ? ["--second"] : []), "NEW"];
    compare(name, library.ask("salvage", data, second), words, true);
    compare(name, library.ask("salvage_report", data, second), words, false);
  }
}
fs.rmSync(folder, {recursive: true});
console.log("%d images, %d jobs on formats, salvage, searches and comparisons, %d differ", images.length, count, differ);
process.exit(differ ? 1 : 0);
