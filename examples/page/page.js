// The page: what it shows, and which calls of the library it makes. What a disk, a file or a step is comes from the answers
// of the library.

const SLICE = 100000;       // steps between two checks of the time
const SLICE_TIME = 30;      // milliseconds in which a run keeps the page from answering
const MOST_SHOWN = 20000;   // characters above the screen of the console that are shown
const MOST_TRACED = 400000; // characters of the trace that are shown
const MOST_LINES = 4000;    // lines of a file that are added at a time
const MOST_TEXT = 4000000;  // characters of a file that are shown
const MOST_HITS = 500;      // files and lines that a search shows
const MOST_RECALLED = 100;  // commands that the arrow keys recall
const MOST_DRAWN = 150;     // procedures in a picture of calls
const MOST_VALUES = 100;    // parameters and variables that are shown
const STACK_SHOWN = 8, FRAMES_SHOWN = 8;             // words, and frames
const MEMORY_ROWS = 8, MEMORY_ROW = 16;              // rows, and bytes of each
const MEMORY_END = 65536;                            // docs/MACHINE.md: addresses are 0 to 65,535
const DECIMALS = 5;                                  // digits of an address
const HEX_ADDRESS = 6;                               // the hexadecimal digits of an offset in a file
const PLACE_NUMBERS = 3;                             // segment, procedure and offset
const WORD_BYTES = 2;                                // docs/FILES.md: a word is two bytes
const MOST_LINKS = 64;      // static links that are followed to the frame of a global variable
const BLOCKS = "blocks";     // docs/COMMANDS.md, "convert": the format that all other calls read
// The names of all formats: of the header, then of the order. An image with a header gets another ending.
const HEADERS = {"": "", "2mg-": ", with a header of .2mg", "dc42-": ", with a header of DiskCopy 4.2"};
const ORDERS = {blocks: "blocks in order", dos: "sectors in the order of DOS 3.3", swapped: "bytes of each word exchanged",
  big: "bytes of each word of the directory exchanged"};
const FORMATS = Object.entries(HEADERS).flatMap(([head, words]) => Object.entries(ORDERS).map(([order, label]) =>
  ({format: head + order, label: label + words + " (" + head + order + ")", ending: head === "" ? {dos: ".dsk"}[order] ?? ".img" : "." + head.slice(0, -1)})));
const NO_PATH = new Uint8Array(0), LINE_HEAD = ": "; // a search with an empty path: its lines begin with these characters
const NEW_NAME = "NEW", NEW_BLOCKS = 280;            // a disk of 140 KB
const SAMPLE_BLOCKS = 40;
const BLOCKS_END = 65535;                            // the largest uint16_t, which pmach_volume takes
const BLOCK = 512, KILO = 1024;                      // docs/FILES.md: the bytes of a block; of a KB
const DIRECTORY = [[0, 2, "a boot program"], [2, 6, "the directory"]]; // docs/FILES.md, "Images"
const MAP_COLUMNS = [[400, 40], [3200, 80], [Infinity, 256]]; // blocks, and blocks in a row of their map
const KEPT_URL = 60000;     // milliseconds until the bytes of a download may be freed
const BOTTOM = 1e9;         // pixels: the end of anything that can be scrolled
const BOOT_UNIT = 4;        // pmach_boot copies the volume to unit 4
const UNITS = [BOOT_UNIT, 5, 9, 10, 11, 12];         // of disks: pmach_mount
const CODE = 2;             // pmach_put: the kind of a code file
const KINDS = [["Text, converted to a text file", ""], ["Data", 5], ["Code", CODE], ["Info", 4], ["Graf", 6], ["Foto", 7],
  ["Text, its bytes as they are", 3]]; // the kinds of docs/FILES.md; "" is pmach_put_text
// The bytes of keys: Return, Backspace, Escape and Delete of ASCII, and the arrows of the Apple II.
const KEYS = {Enter: 13, Backspace: 8, Escape: 27, Delete: 127, ArrowLeft: 8, ArrowRight: 21, ArrowUp: 11, ArrowDown: 10};
const CONTROL = 64;         // Ctrl with a letter is the letter's code less this
const ASCII_END = 128;      // a typed character with a code from here on is no key of the machine
const LAST_COLUMN = {name: 15, kind: 16, numbers: 20}; // docs/FILES.md, "The list": where its columns begin
// The numbers that pmach_sentence takes for the message of a job, and for the answer of a run.
const MESSAGES = {volume: 400, boot: 200, "filer 1": 400, asm: 600, code: 700, "filer 2": 800, convert: 900, system: 1000};
const STOPS = {waiting: 1, break: 15, changed: 16}, EXECUTION_ERROR = 100;
// How a file is shown: the words of the button, and the call that makes the text of code.
const CODE_VIEWS = [["Blocks", "disassemble_blocks"], ["Statements", "disassemble_statements"], ["Instructions", "disassemble_list"],
  ["Assembler", "disassemble_names"], ["Calls", null], ["Bytes", null]];
const HINTS = {Blocks: "Pascal-like statements, with IF and WHILE", Statements: "Pascal-like statements, with labels", Instructions: "A disassembly with addresses and bytes",
  Assembler: "A disassembly that can be assembled", Calls: "Which procedures call which", Bytes: "Hexadecimal"};
const VIEWS = {code: CODE_VIEWS, text: [["Text", null], ["Bytes", null]]}, OTHER_VIEWS = [["Bytes", null]];
// The picture of calls, in units of the font's size: a box of a procedure, and the distance from the next one.
const BOX = {width: 5.5, height: 1.9, right: 3.5, down: 0.7}, ARC = 1.5;
const SAMPLE_STEPS = 97, MOST_SAMPLES = 20000; // steps between two readings of a profile, and their number
const DEEPEST = 40, LEAST_SHARE = 0.004;       // frames, and the share of the narrowest bar, of a profile

const $ = id => document.getElementById(id);
const SYSTEM = "0"; // the segment of the system, which a picture of calls shows only if it is chosen
const SVG = $("svg").namespaceURI; // (so that no address of a network is in this page)
let library = null, compiled = null;
const drives = new Map();  // the disks by their units: {unit, data, name, changed, format, original, report, file}
let disk = null;           // the one that is shown
let refused = null;        // the bytes that were dropped last and are no volume: {data, name}, and as they are read: {format, blocks}
let box = [];              // the images that were dropped together: {file, name, size, format, title, files, free, verdict, report}
let searched = null;       // the text whose hits are shown
let isCompared = false;    // whether a comparison is shown
let shown = null;          // the file in the middle: {unit, slot, name, kind, view}
let rest = [];             // its lines that are not shown yet
let positions = [];        // of each line of it the position, as three numbers, or undefined
let placed = [];           // its shown lines with a position: {button, line, segment, procedure, offset, at}
let targets = new Map();   // its lines that can be gone to: procedures "S P" and labels "S P L00000", with their number
let program = null;        // the file of the program in the machine, or null
let lent = null;           // its disk with the system segment, which exists only in the machine; null without System
let systemText = null;     // the text of the system segment
let system = null;         // its code file, after its first use
let running = null;        // the command with which the run goes on, or null if it has stopped
let resumes = false;       // whether a key continues a run that waits
let goal = null;           // the step or finish that was begun last, and MP at its beginning: {command, mp}
let seen = 0;              // the number of console bytes that are shown
let screen = null;         // the screen of the console
let sizes = new Map();     // the program's procedures, by the numbers with which the machine names them
let procedures = new Map(); // those of the file in the middle, by the numbers that its text shows
let profile = null;        // the steps by their procedures, while they are counted: a tree {name, own, in}
const recalled = [];       // commands that were sent
let recall = 0;

function el(tag, properties, ...children) {
  const made = Object.assign(document.createElement(tag), properties);
  made.append(...children);
  return made;
}

function drawn(tag, attributes, ...children) {
  const made = document.createElementNS(SVG, tag);
  for (const [name, value] of Object.entries(attributes)) made.setAttribute(name, value);
  made.append(...children);
  return made;
}

function button(words, does, properties = {}) {
  return el("button", {type: "button", textContent: words, onclick: event => { event?.stopPropagation?.(); safely(() => does()); }, ...properties});
}

function say(words, isBad = false) {
  $("status").textContent = words;
  $("status").classList.toggle("bad", isBad);
}

// Returns the message of a job that was refused, and the sentence for its number.
function reason(answer) {
  const message = text(answer.bytes).split("\n").pop();
  const [, word, number] = /^refused (volume|boot|filer 1|filer 2|asm|code|convert|system) (\d+)/.exec(message) ?? [];
  const sentence = library.sentence(word ? MESSAGES[word] + Number(number) : answer.status);
  return message === "" || sentence === "" ? message + sentence : message + ": " + sentence;
}

// Does something with the library. After a trap nothing is known of its memory, so a new instance replaces it.
function safely(act) {
  try {
    act();
  } catch (error) {
    restart(error);
  }
}

async function restart(error) {
  program = lent = running = profile = null;
  layout();
  say(error instanceof OutOfMemory ? "There is not enough memory for this. The disks are as they were before."
    : "The machine was stopped by an internal error (" + error.message + "). The disks are as they were before.", true);
  try {
    library = new Library(await WebAssembly.instantiate(compiled, {}));
  } catch (again) {
    say("The library cannot be started again: " + again.message + ". Save the image, and open this page again.", true);
  }
}

// ---- dialogs

// Asks for some values, and passes them to `then` unless the dialog is cancelled. A field has a label, a value and either
// options or properties of an input.
function ask(title, words, accept, fields, then) {
  $("dialog-title").textContent = title;
  $("dialog-text").textContent = words;
  $("dialog-text").hidden = words === "";
  $("accept").textContent = accept;
  const inputs = fields.map(({label, options: choices, ...properties}) => choices
    ? el("select", {}, ...options(choices))
    : el("input", {autocomplete: "off", required: true, ...properties}));
  $("fields").replaceChildren(...fields.map(({label}, k) => el("label", {textContent: label}, inputs[k])));
  $("questions").onsubmit = event => {
    event.preventDefault();
    $("dialog").close();
    safely(() => then(...inputs.map(input => input.value)));
  };
  $("dialog").showModal();
  (inputs[0] ?? $("accept")).focus();
}

function options(choices) {
  return choices.map(([label, value]) => el("option", {textContent: label, value}));
}

// Does something that closes a disk. Asks first if the disk has changes that are not saved.
function leaving(old, then) {
  closeProgram();
  if (!old?.changed) return then();
  ask("Discard the changes?", old.name + " has changes that are not saved to a file.", "Discard", [], then);
}

// ---- the disks

// The formats in which an image opens as a volume: their names, and the lines of pmach_formats.
function formatsOf(data) {
  const answer = library.ask("formats", data);
  return answer.status === DONE ? text(answer.bytes).split("\n").slice(0, -1).map(line => ({format: line.split(" ")[0], line})) : [];
}

// Opens an image, in the place of the disk on a unit. If it opens in several formats, the page asks for one. `more` has the
// file of the image, and what is done after it has been opened: {file, then}.
function openImage(data, name, unit, more = {}) {
  const formats = formatsOf(data);
  if (formats.length <= 1) return openAs(data, name, formats[0]?.format, unit, more);
  ask("Which format is it?", name + " opens in several formats.", "Open", [{label: "Format, volume and files", options: formats.map(({format, line}) => [line, format])}],
    format => openAs(data, name, format, unit, more));
}

// Opens an image in a format; without a format, as it is.
function openAs(data, name, format, unit, more) {
  const made = format === undefined ? {status: DONE, bytes: data} : library.ask("convert", data, bytes(format), bytes(BLOCKS));
  if (made.status !== DONE) return refuse(data, name);
  const isSame = same(made.bytes, data);
  openDisk({data: isSame ? data : made.bytes, name, format, original: isSame ? null : data, ...more}, unit);
}

// Opens a disk of blocks in order. If it is no volume, the disk on the unit stays.
function openDisk({then, ...made}, unit = disk?.unit ?? BOOT_UNIT) {
  const answer = library.ask("list", made.data);
  if (answer.status !== DONE) return refuse(made.data, made.name);
  leaving(drives.get(unit), () => {
    drives.set(unit, {changed: false, original: null, report: "", file: null, ...made, format: made.format ?? BLOCKS, unit});
    refused = null;
    showDisk(unit);
    then?.();
  });
}

// The blocks of an image in its only format; its bytes if there is no such format.
function blocksOf(data) {
  const made = library.ask("convert", data, bytes(""), bytes(BLOCKS));
  return made.status === DONE ? made.bytes : data;
}

function same(one, other) {
  if (one.length !== other.length) return false;
  for (let k = 0; k < one.length; k++) if (one[k] !== other[k]) return false;
  return true;
}

function showDisk(unit) {
  disk = drives.get(unit) ?? null;
  shown = null;
  if (disk !== null) list();
  layout();
  if (disk !== null) $("disk-title").focus();
}

// Takes a disk out of its unit.
function ejectDisk() {
  const {unit} = disk;
  leaving(disk, () => {
    drives.delete(unit);
    showDisk([...drives.keys()][0]);
    say("Unit " + unit + " is empty");
  });
}

// Exchanges the shown disk with the one on unit 4, from which programs start.
function moveDisk() {
  closeProgram();
  const other = drives.get(BOOT_UNIT), {unit} = disk;
  drives.delete(unit);
  drives.set(BOOT_UNIT, Object.assign(disk, {unit: BOOT_UNIT}));
  if (other) drives.set(unit, Object.assign(other, {unit}));
  showDisk(BOOT_UNIT);
}

// Shows why some bytes are no volume, and offers each format in which they can be read.
function refuse(data, name, title = name + " is not opened") {
  refused = {data, name};
  $("refusal-title").textContent = title;
  $("read-as").replaceChildren(...options(FORMATS.filter(({format}) => blocksAs(data, format)).map(({format, label}) => [label, format])));
  $("read-as").value = guessed(data);
  readAs($("read-as").value);
  say(title + ". " + (disk === null || disk.name === name ? "" : disk.name + " is still open."), true);
  layout();
  $("refusal-title").focus();
}

// The blocks of an image that is read in a format, or null if it cannot be read in this format.
function blocksAs(data, format) {
  const made = format === BLOCKS ? {status: DONE, bytes: data} : library.ask("convert", data, bytes(format), bytes(BLOCKS));
  return made.status === DONE ? made.bytes : null;
}

// The format of a damaged image: the one that pmach_form reports. Of a header of .2mg it does not report the order, which the
// line `note form` of `check` has. An image that can be read with a header of DiskCopy has this header.
function guessed(data) {
  const form = text(library.ask("form", data).bytes), noted = /^note form (\S+)$/m.exec(text(library.ask("check", data).bytes))?.[1];
  const headed = FORMATS.map(({format}) => format).filter(format => format.startsWith("dc42-"));
  return [form === BLOCKS ? "" : form, noted ?? "", ...headed].find(format => format !== "" && blocksAs(data, format)) ?? BLOCKS;
}

// Reads the bytes that were refused in a format, and shows the lines of `check`.
function readAs(format) {
  const blocks = blocksAs(refused.data, format), checked = library.ask("check", blocks);
  Object.assign(refused, {format, blocks});
  $("reason").textContent = reason(library.ask("list", blocks));
  $("faults").textContent = text(checked.bytes) || library.sentence(checked.status);
}

// Makes a volume of the bytes that were refused, by a job. A repaired image keeps its header.
function rescue(call, ...given) {
  const {data, name, format, blocks} = refused, answer = library.ask(call, blocks, ...given);
  if (answer.status !== DONE) return say(reason(answer), true);
  const report = call === "salvage" ? text(library.ask("salvage_report", blocks, ...given).bytes) : "";
  openDisk({data: answer.bytes, name, format, original: call === "repair" && format !== BLOCKS ? data : null, changed: true, report});
}

// The files of a volume, from the lines of its list.
function filesOf(lines, unit) {
  const {name: end, kind: from, numbers} = LAST_COLUMN;
  return lines.slice(1, lines.length - 2).map((line, k) => { // (the last line has the total, and a line feed is last)
    const [first, blocks, last, date] = line.slice(numbers).trim().split(/ +/);
    return {unit, slot: k + 1, name: line.slice(0, end).trimEnd(), kind: line.slice(from, numbers).trim(), view: 0, first, blocks, last, date};
  });
}

// The files of a volume; none if the bytes are no volume.
function listed(data, unit) {
  return filesOf(text(library.ask("list", data).bytes).split("\n"), unit);
}

// The last line of a list, written as sentences.
function totalOf(line) {
  const [, files, free, largest] = /^files (\d+) free (\d+) largest (\d+)$/.exec(line) ?? [];
  if (files === undefined) return line;
  return counted(files, "file") + ". Free: " + counted(free, "block") + " (" + free * BLOCK / KILO + " KB), the largest free area has " + largest;
}

function counted(count, what) {
  return count + " " + what + (Number(count) === 1 ? "" : "s");
}

// Shows the list of the open disk. A program may have made it invalid.
function list() {
  const answer = library.ask("list", disk.data), lines = text(answer.bytes).split("\n");
  const unit = drives.size > 1 || disk.unit !== BOOT_UNIT ? " on unit " + disk.unit : "";
  $("format").textContent = "Format: " + disk.format + (disk.format === BLOCKS && disk.original === null ? "" : ". Save the image keeps this format.");
  $("report-part").hidden = disk.report === "";
  $("report").textContent = disk.report;
  if (answer.status !== DONE) {
    $("disk-title").textContent = disk.name + " is no volume any more";
    $("total").replaceChildren(reason(answer) + ". ", button("Recover its files", () => refuse(disk.data, disk.name, disk.name + " is damaged")));
    $("files").replaceChildren();
    $("map").replaceChildren();
    shown = null;
    return;
  }
  const files = filesOf(lines, disk.unit);
  $("disk-title").textContent = lines[0].replace(/:$/, "") + " (" + disk.name + ")" + unit;
  $("total").textContent = totalOf(lines.at(-2));
  $("files").replaceChildren(...files.map(row));
  map(files);
  document.title = lines[0] + " pmach";
  say(disk.name + (disk.changed ? " has changes that are not saved" : ""));
}

// A table row for a file.
function row(file) {
  const cells = [file.kind, file.first, file.blocks, file.last, file.date].map(part => el("td", {textContent: part}));
  cells[1].className = cells[3].className = "wide"; // the first block, and the bytes in the last one
  const made = el("tr", {}, el("td", {}, button(file.name, () => choose(file))), ...cells);
  made.dataset.slot = file.slot;
  made.onclick = () => safely(() => choose(file));
  return made;
}

// A picture of the blocks of the image: a rectangle for each run of blocks of a file.
function map(files) {
  const count = Math.ceil(disk.data.length / BLOCK), columns = MAP_COLUMNS.find(([most]) => count <= most)[1];
  const picture = drawn("svg", {viewBox: [-0.1, -0.1, columns + 0.2, Math.ceil(count / columns) + 0.2].join(" "), role: "img",
    "aria-label": "Map of " + count + " blocks, " + columns + " in a row. The table above has the same numbers."});
  const put = (first, end, look, words, does) => {
    for (let block = first; block < Math.min(end, count);) {
      const stop = Math.min(end, count, (Math.floor(block / columns) + 1) * columns);
      const shape = drawn("rect", {x: block % columns, y: Math.floor(block / columns), width: stop - block, height: 1, class: look},
        drawn("title", {}, words));
      if (does) shape.onclick = () => safely(does);
      picture.append(shape);
      block = stop;
    }
  };
  put(0, count, "free", "free");
  for (const [first, end, words] of DIRECTORY) put(first, end, "directory", "blocks " + first + " to " + (end - 1) + ": " + words);
  for (const file of files) {
    const first = Number(file.first), end = first + Number(file.blocks), kind = ["code", "text", "data"].includes(file.kind) ? file.kind : "other";
    put(first, end, kind + " file", file.name + ", " + file.kind + ", blocks " + first + " to " + (end - 1), () => choose(file));
  }
  $("map").replaceChildren(picture);
  const looks = ["directory", "code", "text", "data", "other", "free"];
  $("map-hint").replaceChildren(...looks.map(look => el("span", {className: "key"}, el("i", {className: look}), look)));
}

// Replaces the disk by the answer of a job.
function change(call, ...given) {
  closeProgram();
  const answer = library.ask(call, disk.data, ...given);
  if (answer.status !== DONE) return say(reason(answer), true);
  Object.assign(disk, {data: answer.bytes, changed: true});
  shown = null;
  list();
  layout();
  $("disk-title").focus();
}

// The bytes of a file as it is saved: of a text its characters.
function contents(data, file) {
  const isText = file.kind === "text", answer = library.ask(isText ? "get_text_slot" : "get_slot", data, file.slot);
  return isText && answer.status !== DONE ? library.ask("get_slot", data, file.slot) : answer;
}

function saveFile(file) {
  const answer = contents(disk.data, file);
  if (answer.status !== DONE) return say(reason(answer), true);
  download([answer.bytes], file.name.toLowerCase());
}

// The image of a disk, in its format. If the page has no image of this format, a new one is made.
function imageOf({data, original, format}) {
  if (original !== null) return library.ask("convert_back", original, bytes(format), data);
  return format === BLOCKS ? {status: DONE, bytes: data} : library.ask("convert", data, bytes(BLOCKS), bytes(format));
}

function saveImage() {
  closeProgram();
  const made = imageOf(disk);
  if (made.status !== DONE) return say(reason(made) + ". Choose Convert.", true);
  saveDisk(made.bytes, disk.name);
}

function saveConverted() {
  ask("Save in another format", "The disk is converted, and saved to a new file.", "Save", [{label: "Format", options: FORMATS.map(({format, label}) => [label, format])}], format => {
    closeProgram();
    const made = library.ask("convert", disk.data, bytes(BLOCKS), bytes(format));
    if (made.status !== DONE) return say(reason(made), true);
    saveDisk(made.bytes, disk.name.replace(/\.[^.]*$/, "") + FORMATS.find(one => one.format === format).ending);
  });
}

// Saves the images of all disks in one .zip.
function saveAll() {
  closeProgram();
  const all = [...drives.values()], made = all.map(imageOf), wrong = made.findIndex(({status}) => status !== DONE);
  if (wrong >= 0) return say(all[wrong].name + " is not saved: " + reason(made[wrong]), true);
  if (!saveFiles(all.map(({name}, k) => ({path: pathPart(name), data: made[k].bytes})), "images.zip")) return;
  const words = $("status").textContent;
  for (const one of all) one.changed = false;
  list();
  layout();
  say(words);
}

function saveDisk(data, name) {
  download([data], name);
  disk.changed = false;
  list();
  layout();
}

function download(parts, name) {
  const link = el("a", {href: URL.createObjectURL(new Blob(parts)), download: name});
  link.click();
  setTimeout(() => URL.revokeObjectURL(link.href), KEPT_URL);
}

// The files of a volume for a .zip, in a folder.
function exported(data, folder) {
  return listed(data).map(file =>
    ({path: (folder === "" ? "" : folder + "/") + pathPart(file.name), data: contents(data, file).bytes}));
}

function saveFiles(files, name) {
  const own = withOwnPaths(files);
  try {
    download(zipped(own), name);
  } catch (error) {
    say(error.message, true);
    return false;
  }
  say(files.length + (files.length === 1 ? " file is in " : " files are in ") + name);
  return true;
}

function makeDisk(unit) {
  ask("New disk", "", "Make it", [{label: "Name of the volume", value: NEW_NAME},
    {label: "Blocks of 512 bytes", value: NEW_BLOCKS, type: "number", min: 0, max: BLOCKS_END}], (name, blocks) => {
    const answer = library.ask("volume", bytes(name), Number(blocks));
    if (answer.status !== DONE) return say(reason(answer), true);
    openDisk({data: answer.bytes, name: name.toLowerCase() + ".img", changed: true}, unit);
  });
}

// A disk with the programs that the page contains as texts.
function makeSample() {
  let made = library.ask("volume", bytes("SAMPLE"), SAMPLE_BLOCKS).bytes;
  for (const part of document.querySelectorAll(".sample")) {
    const code = library.ask("assemble", bytes(part.textContent), 0).bytes; // 0: the code file, not its listing
    made = library.ask("put", made, bytes(part.dataset.name), CODE, code).bytes;
  }
  openDisk({data: made, name: "sample.img"});
}

function addFile(data, name) {
  const isText = /\.te?xt$/i.test(name);
  const options = isText ? KINDS : [...KINDS.slice(1), KINDS[0]];
  ask("Add a file", "", "Add it", [{label: "Name on the disk", value: name.toUpperCase().replace(/\.TXT$/, ".TEXT")},
    {label: "Kind", options}], (as, kind) => {
    if (kind === "") change("put_text", bytes(as), data);
    else change("put", bytes(as), Number(kind), data);
  });
}

// Shows the disks by their units, and a button for the next one.
function showDrives() {
  const used = UNITS.filter(unit => drives.has(unit)), free = UNITS.find(unit => !drives.has(unit));
  const made = used.map(unit => {
    const one = button("Unit " + unit + ": " + drives.get(unit).name + (drives.get(unit).changed ? " *" : ""), () => showDisk(unit));
    one.setAttribute("aria-pressed", disk?.unit === unit);
    return one;
  });
  const more = free && button("Disk in unit " + free, () => pick(files => opened(files, free)), {title: "Insert another disk, which programs can use"});
  $("drives").replaceChildren(...made, ...(more ? [more] : []));
}

// Lets the user choose images, and does something with them.
function pick(does) {
  picked = does;
  $("image").click();
}
let picked = opened;

// ---- many disks

// Lists images with what pmach_info and `check` report of each. Their bytes are read again when they are needed.
async function openBox(files) {
  box = [];
  for (const file of files) {
    say("Reading " + file.name + " (" + (box.length + 1) + " of " + files.length + ")");
    await read(file, data => {
      const info = text(library.ask("info", NO_PATH, data).bytes).trimEnd(), several = /^: several formats: (.*)$/.exec(info)?.[1];
      const [, format, title, count, free] = /^: (\S+) (.*): files (\d+), free (\d+), largest \d+$/.exec(info) ?? [], isVolume = format !== undefined;
      const guess = isVolume || several ? "" : guessed(data), blocks = guess === "" ? blocksOf(data) : blocksAs(data, guess);
      const checked = library.ask("check", blocks), report = (text(checked.bytes) || library.sentence(checked.status)).replace(/\n$/, "");
      box.push({file, name: file.name, size: data.length, isVolume, format: format ?? several ?? (guess === BLOCKS ? "" : guess), title: title ?? "", files: count ?? "", free: free ?? "",
        report: several ? formatsOf(data).map(({line}) => line).join("\n") : report,
        verdict: isVolume ? report.split("\n").at(-1) : several ? "several formats; Open asks for one" : reason(library.ask("list", blocks))});
    });
  }
  $("boxed").replaceChildren(...box.map(boxed));
  $("box-title").textContent = box.length + " images, " + box.filter(one => one.isVolume).length + " of them volumes";
  layout();
  say(box.length + " images were read");
  $("box-title").focus();
}

function boxed(one) {
  const report = one.report === one.verdict ? [one.verdict] // (`good` has no other lines)
    : [el("details", {}, el("summary", {textContent: one.verdict}), el("pre", {textContent: one.report}))];
  const open = unit => read(one.file, data => openImage(data, one.name, unit, {file: one.file}));
  const words = one.isVolume || one.format.includes(",") ? "Open" : "Recover";
  const acts = [button(words, () => open(), {ariaLabel: words + " " + one.name}),
    ...(one.isVolume ? [button("Insert", () => open(UNITS.find(unit => unit !== BOOT_UNIT && !drives.has(unit))), {ariaLabel: one.name + " as another disk", title: "Insert as another disk"}),
      button(".zip", () => read(one.file, data => saveFiles(exported(blocksOf(data), ""), pathPart(one.name) + ".zip")), {ariaLabel: "Export " + one.name})] : [])];
  const cells = [[button(one.name, () => open(), {className: "link"})], [one.format], [one.title], [one.files], [one.free], report, acts].map(nodes => el("td", {}, ...nodes));
  return el("tr", {className: one.isVolume ? "" : "bad", title: counted(one.size, "byte")}, ...cells);
}

// Exports the files of all volumes in the list, each in a folder of its image's name.
async function exportBox() {
  const files = [], used = box.filter(one => one.isVolume), folders = withOwnPaths(used.map(one => ({path: pathPart(one.name)})));
  for (const [k, one] of used.entries()) await read(one.file, data => files.push(...exported(blocksOf(data), folders[k].path)));
  safely(() => saveFiles(files, "disks.zip"));
}

// ---- all disks

// The disks that can be searched and compared: those on the units, and the images of the list that are not on a unit.
function sources() {
  const open = [...drives.values()];
  return [...open, ...box.filter(({file}) => !open.some(one => one.file === file))];
}

// Passes the image of a source and its blocks to `then`. The page has only the blocks of a disk on a unit.
function imagesOf(source, then) {
  return source.data ? safely(() => then(source.data, source.data)) : read(source.file, data => then(data, blocksOf(data)));
}

// Shows a file of a source, by its slot and its name, and then does something with it. A disk of the list is opened first.
function visit(source, {slot, name}, then = () => {}) {
  const go = unit => {
    if (disk.unit !== unit) showDisk(unit);
    const file = listed(disk.data, unit)[slot - 1];
    if (file?.name !== name) return say(name + " was moved or removed. Repeat the search or the comparison.", true);
    choose(file);
    then(file);
  };
  const open = [...drives.values()].find(one => one === source || (source.file && one.file === source.file));
  if (open) return go(open.unit);
  if (!source.file) return say(source.name + " is not open any more", true);
  return read(source.file, data => openImage(data, source.name, undefined, {file: source.file, then: () => go(disk.unit)}));
}

// ---- search

// The files of a disk whose names pmach_find lists, in the order of its list.
function namedFiles(lines, files) {
  let next = 0;
  return lines.flatMap(line => {
    const at = files.findIndex(({name}, k) => k >= next && name === line.slice(LINE_HEAD.length).trimEnd());
    if (at < 0) return [];
    next = at + 1;
    return [{file: files[at]}];
  });
}

// The files and lines that pmach_grep lists, in the order of the list and of each text.
function textLines(lines, files) {
  let next = 0, last = 0;
  return lines.flatMap(whole => {
    for (let at = next; at < files.length; at++) {
      const {name} = files[at], after = whole.startsWith(name, LINE_HEAD.length) ? whole.slice(LINE_HEAD.length + name.length) : "";
      const [, number, line] = /^ *: (\d+): ([^]*)$/.exec(after) ?? [];
      if (number === undefined || (at === next && Number(number) <= last)) continue;
      [next, last] = [at, Number(number)];
      return [{file: files[at], number: last, line}];
    }
    return [];
  });
}

// The hits of a text in an image, {file} or {file, number, line}; or the reason why the image is not searched. If upper and
// lower case are the same, pmach_find and pmach_grep list all names and lines, and this function selects those with the text.
function hitsIn(image, blocks, words, isExact, isCodeToo) {
  const linesOf = answer => text(answer.bytes).split("\n").slice(0, -1), isPattern = words.includes("=");
  const has = line => isExact ? line.includes(words) : line.toLowerCase().includes(words.toLowerCase());
  const names = library.ask("find", NO_PATH, image, bytes(isPattern ? words : "="));
  if (names.status !== DONE && names.status !== NOTHING) return {hits: [], fault: linesOf(names)[0]?.slice(LINE_HEAD.length) ?? library.sentence(names.status)};
  const files = listed(blocks), ofKind = kind => files.filter(file => file.kind === kind);
  const lines = textLines(linesOf(library.ask("grep", NO_PATH, image, bytes(isExact ? words : ""))), ofKind("text"));
  const hits = [...namedFiles(linesOf(names), files).filter(({file}) => isPattern || has(file.name)), ...lines.filter(({line}) => has(line))];
  for (const file of isCodeToo ? ofKind("code") : []) {
    const code = library.ask("get_slot", blocks, file.slot), made = code.status === DONE ? library.ask(CODE_VIEWS[0][1], code.bytes) : code;
    if (made.status === DONE) text(made.bytes).split(/\r?\n/).forEach((line, k) => { if (has(line)) hits.push({file, number: k + 1, line}); });
  }
  return {hits};
}

// Shows the files, the lines of texts and, if chosen, the lines of code that contain a text, on all disks.
async function search(words) {
  const isExact = $("exact").checked, isCodeToo = $("in-code").checked, all = sources(), parts = [], faults = [];
  const counts = {file: 0, line: 0};
  let left = MOST_HITS;
  searched = words;
  for (const source of all) {
    if (all.length > 1) say("Searching " + source.name);
    await imagesOf(source, (image, blocks) => {
      const {hits, fault} = hitsIn(image, blocks, words, isExact, isCodeToo);
      if (fault) faults.push(source.name + ": " + fault);
      for (const {number} of hits) counts[number === undefined ? "file" : "line"]++;
      const made = hits.slice(0, left).map(hit => hitOf(source, hit, words));
      left -= made.length;
      if (made.length > 0) parts.push(el("h3", {textContent: placeOf(source)}), el("ul", {}, ...made));
    });
    if (searched !== words) return;
  }
  const found = Object.entries(counts).filter(([, count]) => count > 0).map(([what, count]) => counted(count, what));
  $("results-title").textContent = "Search for " + words;
  say((found.join(" and ") || "Nothing was found") + " on " + counted(all.length - faults.length, "disk"));
  $("found").textContent = $("status").textContent +
    (counts.file + counts.line > MOST_HITS ? ". The first " + MOST_HITS + " are shown" : "") + (faults.length > 0 ? ". Not searched: " + faults.join("; ") : "") +
    (isCodeToo ? "" : ". Programs were not searched");
  $("hits").replaceChildren(...parts);
  layout();
  $("results-title").focus();
}

// The name of a disk, and its unit if it has one.
function placeOf({name, unit}) {
  return name + (unit === undefined ? "" : " (unit " + unit + ")");
}

// A list item for a hit, with the text marked.
function hitOf(source, {file, number, line}, words) {
  const whole = line === undefined ? file.kind : line.trim(), at = line === undefined ? -1 : whole.toLowerCase().indexOf(words.toLowerCase());
  const marks = at < 0 ? [whole] : [whole.slice(0, at), el("mark", {textContent: whole.slice(at, at + words.length)}), whole.slice(at + words.length)];
  return el("li", {}, button(file.name + (number === undefined ? "" : " " + number), () => visit(source, file, () => { if (number !== undefined) goToLine(number - 1); }), {className: "link"}), " ", ...marks);
}

// ---- comparison

// Asks which disks are compared. The other one can be a new image.
function askDisks() {
  const all = sources().filter(({data, isVolume}) => data || isVolume), choices = all.map((one, k) => [placeOf(one), String(k)]), own = all.indexOf(disk);
  if (all.length === 0) return say("There is no disk to compare", true);
  const first = own < 0 ? choices : [choices[own], ...choices.filter((_, k) => k !== own)];
  ask("Compare two disks", "The files of both disks are compared by their names.", "Compare", [{label: "This disk", options: first},
    {label: "The other disk", options: [...first.slice(1), ["An image on this computer", ""], first[0]]}], (one, other) => {
    if (other !== "") return compare(all[one], all[other]);
    pick(([file]) => read(file, data => {
      if (formatsOf(data).length > 1) return say(file.name + " opens in several formats. Open it first.", true);
      compare(all[one], {name: file.name, file});
    }));
  });
}

// Shows what pmach_compare reports for two disks. First it has the files of the first disk, in the order of its list, then those
// that only the other disk has, in the order of that list.
function compare(one, other) {
  return imagesOf(one, (_, here) => imagesOf(other, (_, there) => {
    const answer = library.ask("compare", here, there);
    if (answer.status !== DONE && answer.status !== DIFFERENT) return say(one.name + " and " + other.name + " are not compared: " + reason(answer), true);
    const files = [listed(here), listed(there)], counts = new Map();
    let next = 0;
    const rows = text(answer.bytes).split("\n").slice(0, -1).map((line, k) => {
      const [, result, name] = /^(same|differ|only here|only there): ([^]*)$/.exec(line), isThere = result === "only there";
      const byte = result === "differ" ? /: byte (\d+)$/.exec(name)?.[1] : undefined;
      counts.set(result, (counts.get(result) ?? 0) + 1);
      if (isThere) next = files[1].findIndex((file, at) => at >= next && file.name === name.trimEnd()) + 1;
      const own = isThere ? files[1][next - 1] : files[0][k], isBoth = result === "same" || result === "differ";
      const twin = () => namedFiles(text(library.ask("find", NO_PATH, there, bytes(own.name)).bytes).split("\n"), files[1])[0]?.file ?? own;
      const show = (source, words, file) => button(words, () => visit(source, file(), made => showByte(made, byte)), {ariaLabel: own?.name + " " + words});
      const words = {same: "same", differ: byte === undefined ? "same bytes, different kinds" : "differ from byte " + byte + " on"}[result] ?? result;
      return el("tr", {className: result === "same" ? "quiet" : ""}, ...[[own?.name ?? name], [words], [...(isThere ? [] : [show(one, "here", () => own)]), ...(isBoth ? [show(other, "there", twin)] : isThere && own ? [show(other, "there", () => own)] : [])]]
        .map(nodes => el("td", {}, ...nodes)));
    });
    isCompared = true;
    $("comparison-title").textContent = placeOf(one) + " (here) and " + placeOf(other) + " (there)";
    $("differences").textContent = rows.length === 0 ? "Both disks have no files" : answer.status === DONE ? "All " + counted(rows.length, "file") + " are the same"
      : [...counts].map(([result, count]) => count + " " + result).join(", ");
    $("pairs").replaceChildren(...rows);
    layout();
    say("The disks were compared");
    $("comparison-title").focus();
  }));
}

// Shows a byte of a file; without a number the file as it is.
function showByte(file, byte) {
  if (byte === undefined) return;
  file.view = viewsOf(file).findIndex(([words]) => words === "Bytes");
  show(file);
  goToLine(Math.floor(byte / MEMORY_ROW));
}

// ---- the file

// Shows a file, and moves the focus to it, so that it is also in view if it is below the list.
function choose(file) {
  show(file);
  $("file-title").focus();
}

function viewsOf(file) {
  return VIEWS[file.kind] ?? OTHER_VIEWS;
}

function show(file) {
  shown = file;
  const isCode = file.kind === "code", [words, call] = viewsOf(file)[file.view];
  $("file-title").textContent = file.name;
  for (const made of document.querySelectorAll(".for-code")) made.hidden = !isCode;
  $("forms").replaceChildren(...viewsOf(file).map(([words], k) => {
    const one = button(words, () => { file.view = k; show(file); }, {title: HINTS[words] ?? ""});
    one.setAttribute("aria-pressed", k === file.view);
    return one;
  }));
  $("lines").replaceChildren();
  $("lines").scrollTop = 0;
  $("lines").className = words === "Text" ? "numbered" : "";
  $("graph").hidden = true;
  [rest, placed, targets, procedures] = [[], [], new Map(), new Map()];
  const whole = words === "Text" ? library.ask("get_text_slot", disk.data, file.slot) : library.ask("get_slot", disk.data, file.slot);
  const answer = whole.status === DONE && call ? library.ask(call, whole.bytes) : whole;
  if (isCode && whole.status === DONE) procedures = proceduresOf(text(library.ask("procedures", whole.bytes).bytes));
  if (answer.status !== DONE) $("lines").append(el("div", {textContent: reason(answer)}));
  else if (words === "Bytes") rest = dump(answer.bytes);
  else if (words === "Calls") rest = graph(answer.bytes);
  else rest = marked(text(answer.bytes.subarray(0, MOST_TEXT)), isCode, procedures);
  if (answer.bytes.length > MOST_TEXT) rest.push({line: "The rest of " + answer.bytes.length + " characters is not shown."});
  if (isCode && call && answer.status === DONE) names = standards(text(library.ask("disassemble_names", whole.bytes).bytes));
  $("lines").hidden = words === "Calls" && rest.length === 0;
  positions = rest.map(({place}) => place?.split(" ").map(Number));
  rest.forEach(({head, label, procedure}, k) => {
    if (head !== undefined) targets.set(head, k);
    if (label !== undefined) targets.set(procedure + " " + label, k);
  });
  const heads = [...new Set(rest.map(({head}) => head))].filter(Boolean);
  $("procedure").replaceChildren(...options([["Go to ..", ""], ...heads.map(head => [head.replace(" ", "."), head])]));
  $("jump").hidden = heads.length < 2;
  more();
  layout();
}
let names = new Map(); // the procedures of segment 0 by their names, in the file that is shown

// The lines of a hexadecimal dump.
function dump(data) {
  const hex = (number, digits) => number.toString(HEX).toUpperCase().padStart(digits, "0"), made = [];
  for (let at = 0; at < Math.min(data.length, MOST_TEXT); at += MEMORY_ROW) {
    const row = [...data.subarray(at, at + MEMORY_ROW)], codes = row.map(byte => hex(byte, BYTE_DIGITS)).join(" ");
    made.push({line: hex(at, HEX_ADDRESS) + "  " + codes.padEnd(MEMORY_ROW * (BYTE_DIGITS + 1)) + " " + printable(text(Uint8Array.from(row)), ".")});
  }
  return made.length > 0 ? made : [{line: "The file has no bytes."}];
}

// Shows the calls of a program as a picture and as a table: the procedures of one segment, and those that they call.
function graph(code) {
  const listed = library.ask("disassemble_list", code);
  if (listed.status !== DONE) return [{line: reason(listed)}];
  const whole = calls(text(listed.bytes)), called = new Map(), segmentOf = own => own.split(" ")[0];
  const segments = [...new Set([...whole.keys()].map(segmentOf))];
  shown.segment ??= segments.find(one => one !== SYSTEM) ?? segments[0];
  const inside = [...whole].filter(([own]) => segmentOf(own) === shown.segment);
  const outside = inside.flatMap(([, those]) => [...those.keys()]).filter(to => segmentOf(to) !== shown.segment);
  const made = new Map([...inside, ...outside.map(to => [to, new Map()])]), level = levels(made);
  for (const [own, those] of whole) for (const to of those.keys()) called.set(to, [...(called.get(to) ?? []), own]);
  const label = own => own.replace(" ", "."), link = own => whole.has(own) ? button(label(own), () => goTo(own), {className: "link"}) : el("span", {textContent: label(own)});
  const linked = (those, none) => those.length === 0 ? [none] : those.flatMap(([own, count], k) => [k ? ", " : "", link(own), count > 1 ? " ×" + count : ""]);
  const cells = own => [[link(own)], linked([...whole.get(own)].sort(), "none"), linked((called.get(own) ?? []).map(from => [from, 1]), "none in this file")];
  const head = el("thead", {}, el("tr", {}, ...["Procedure", "Calls", "Is called by"].map(words => el("th", {textContent: words, scope: "col"}))));
  const rows = inside.map(([own]) => el("tr", {}, ...cells(own).map(nodes => el("td", {}, ...nodes))));
  const picture = made.size > MOST_DRAWN ? el("p", {className: "hint", textContent: "A picture of " + made.size + " procedures would be too large."}) : drawing(made, level, link);
  const choices = segments.map(one => {
    const choice = button("Segment " + one, () => { shown.segment = one; show(shown); });
    choice.setAttribute("aria-pressed", one === shown.segment);
    return choice;
  });
  $("graph").replaceChildren(el("div", {className: "tools group", role: "group", ariaLabel: "Segment"}, ...choices),
    el("p", {className: "hint", textContent: "A procedure is segment.number. Choose one to read it."}), picture, el("table", {}, head, el("tbody", {}, ...rows)));
  $("graph").hidden = false;
  return [];
}

// The picture: a box for each procedure, in a column for each level, and a curve for each call.
function drawing(made, level, link) {
  const at = new Map(), columns = [];
  for (const [own, k] of [...level].sort(([, a], [, b]) => a - b)) {
    (columns[k] ??= []).push(own);
    at.set(own, [k * (BOX.width + BOX.right), (columns[k].length - 1) * (BOX.height + BOX.down)]);
  }
  const width = columns.length * (BOX.width + BOX.right), height = Math.max(...columns.map(column => column.length)) * (BOX.height + BOX.down);
  const curves = [...made].flatMap(([own, those]) => [...those.keys()].filter(to => at.has(to)).map(to => {
    const [x, y] = at.get(own), [toX, toY] = at.get(to), middle = BOX.height / 2, end = x + BOX.width;
    const isBack = toX <= x; // to the same column or back: around the right side
    const path = isBack ? ["M", end, y + middle, "C", end + ARC, y + middle, toX + BOX.width + ARC, toY + BOX.height, toX + BOX.width, toY + BOX.height - BOX.down / 2]
      : ["M", end, y + middle, "C", end + ARC, y + middle, toX - ARC, toY + middle, toX, toY + middle];
    return drawn("path", {d: path.join(" "), class: isBack ? "back" : "call"});
  }));
  const lines = drawn("svg", {viewBox: [0, 0, width, height].join(" "), "aria-hidden": "true"}, ...curves);
  const picture = el("div", {className: "calls"}, lines, ...[...at].map(([own, [x, y]]) => {
    const one = link(own);
    for (const [name, value] of Object.entries({left: x, top: y, width: BOX.width, height: BOX.height})) one.style[name] = value + "rem";
    return one;
  }));
  for (const made of [picture, lines]) [made.style.width, made.style.height] = [width + "rem", height + "rem"];
  return picture;
}

// Shows the first line of a procedure "S P".
function goTo(procedure) {
  if (viewsOf(shown)[shown.view][1] === null) {
    shown.view = 0;
    show(shown);
  }
  if (targets.has(procedure)) goToLine(targets.get(procedure));
  else say("Procedure " + procedure.replace(" ", ".") + " is not in " + shown.name, true);
}

// The last line up to a position in its procedure; -1 if there is none.
function lineAt({segment, procedure, offset}) {
  return positions.findLastIndex(at => at && at[0] === segment && at[1] === procedure && at[PLACE_NUMBERS - 1] <= offset);
}

// Shows the line of a position of the program that runs.
function goToPlace(place) {
  if (shown !== program) {
    if (disk.unit !== program.unit) showDisk(program.unit);
    choose(program);
  }
  if (!viewsOf(shown)[shown.view][1]) {
    shown.view = 0;
    show(shown);
  }
  const k = lineAt(place);
  if (k < 0) return say("This position is not in " + program.name, true);
  goToLine(k);
}

function goToLine(k) {
  while ($("lines").children.length <= k && rest.length > 0) more();
  const line = $("lines").children[k];
  if (!line) return;
  for (const old of $("lines").querySelectorAll(".found")) old.classList.remove("found");
  line.classList.add("found");
  line.scrollIntoView({block: "center"});
  (line.querySelector("button") ?? $("lines")).focus();
}

// Adds the next lines of the file.
function more() {
  const begin = $("lines").children.length, added = rest.splice(0, MOST_LINES);
  $("lines").append(...added.map(one => lineOf(one)));
  if (begin === 0 && placed.length > 0) placed[0].button.tabIndex = 0;
  $("more").hidden = rest.length === 0;
  places();
}

// A line of the file: its position is a button that sets a breakpoint, calls and labels lead to their lines, and a variable
// shows its value.
function lineOf({line, place, number, procedure, label}) {
  if (procedure === undefined) return el("div", {textContent: line});
  const made = el("div", {className: "line"}), own = number === undefined ? line : line.slice(number.length);
  if (place !== undefined) {
    const mark = el("button", {type: "button", textContent: number, className: "place", tabIndex: -1, ariaLabel: "Breakpoint: " + line});
    const [segment, inside, offset] = place.split(" ").map(Number);
    placed.push({button: mark, line: made, segment, procedure: inside, offset, at: place});
    made.append(mark);
    made.onclick = () => { if (String(getSelection()) === "") safely(() => toggle(mark, place)); };
  }
  for (const part of parts(own, procedure, names)) made.append(typeof part === "string" ? part : word(part, procedure));
  return made;
}

// A word of a line that names something.
function word(part, procedure) {
  if (part.variable) {
    const made = el("span", {className: "variable", textContent: part.text});
    made.onmouseenter = () => safely(() => hint(made, valueIn(part.variable, procedure)));
    made.onmouseleave = () => hint(null);
    return made;
  }
  const target = part.procedure ?? procedure + " " + part.label;
  if (!targets.has(target)) return part.text;
  return button(part.text, () => goToLine(targets.get(target)), {className: "link", tabIndex: -1});
}

// Shows a text next to an element, or hides it.
function hint(element, words) {
  $("tip").hidden = element === null;
  if (element === null) return;
  $("tip").textContent = words;
  const {left, bottom} = element.getBoundingClientRect();
  $("tip").style.left = left + "px";
  $("tip").style.top = bottom + "px";
}

// ---- the machine

function start(file, runs) {
  closeProgram();
  if (file.unit !== BOOT_UNIT) return say("Programs start from unit " + BOOT_UNIT + ": choose Move to unit " + BOOT_UNIT + " first.", true);
  if (disk.unit !== file.unit) showDisk(file.unit);
  const made = $("system").checked ? withSystem(disk.data, file.name) : {status: DONE, bytes: disk.data};
  if (made.status !== DONE) return say(file.name + " does not start with System: " + reason(made), true);
  const status = library.boot(made.bytes, bytes(file.name));
  if (status !== DONE) return say(file.name + " does not start: " + library.sentence(status), true);
  for (const other of drives.values()) {
    const mounted = other.unit === BOOT_UNIT ? DONE : library.call("mount", library.handle, other.unit, other.data);
    if (mounted !== DONE) say(other.name + " is not mounted: " + library.sentence(mounted), true);
  }
  program = file;
  lent = $("system").checked ? made.bytes : null;
  $("lent").hidden = lent === null;
  seen = 0;
  screen = new Screen(line => { above += line + "\n"; });
  above = "";
  const code = library.ask("get", made.bytes, bytes(file.name));
  sizes = new Map([...proceduresOf(text(library.ask("procedures", code.bytes).bytes)).values()].map(one => [one.own, one]));
  for (const id of ["scrolled", "screen", "traced", "answers", "flame"]) $(id).replaceChildren();
  $("program-title").textContent = "Program " + file.name;
  if (shown !== file) show(file);
  look("Before the first step");
  $(runs ? "keys" : "program-title").focus();
  if (runs) begin("go");
}
let above = ""; // lines that have left the screen and are not shown yet

// The image on which a program has the system segment, as `run --system` makes it.
function withSystem(image, name) {
  if (system === null) {
    const made = library.ask("assemble", systemText, 0); // 0: the code file, not its listing
    if (made.status !== DONE) return made;
    system = made.bytes;
  }
  return library.ask("with_system", image, bytes(name), system);
}

// Closes the program. The disks are as the program left them. With System its own disk is as it was before.
function closeProgram() {
  if (program === null) return;
  let lost = "";
  running = profile = null;
  for (const one of drives.values()) {
    if (library.call("eject", library.handle, one.unit) !== DONE) continue;
    const left = library.ask("ejected", library.handle).bytes, isLent = lent !== null && one.unit === BOOT_UNIT;
    if (same(left, isLent ? lent : one.data)) continue;
    if (isLent) lost = "With System, what the program wrote to its own disk " + one.name + " is lost";
    if (isLent) continue;
    Object.assign(one, {data: left, changed: true});
    if (shown?.unit !== one.unit) continue;
    const line = text(library.ask("list", one.data).bytes).split("\n")[shown.slot];
    if (!line?.startsWith(shown.name)) shown = null; // another file is in its slot now
  }
  library.c.pmach_free(library.handle);
  program = lent = null;
  list();
  places();
  layout();
  if (lost !== "") say(lost, true);
}

// Begins a run: go, step or finish.
function begin(command) {
  goal = command === "go" ? null : {command, mp: library.registers().mp};
  run(command);
}

// Whether a step or finish has reached its goal, as docs/DEBUGGER.md defines it: the frame where it began, or one above it.
function isReached() {
  const {mp} = library.registers();
  return goal === null || mp > goal.mp || (mp === goal.mp && goal.command === "step");
}

// Runs a command of the debugger that takes a limit, in slices, until something else than the limit stops it.
function run(command) {
  running = command;
  resumes = true;
  $("state").textContent = "Running";
  $("console").classList.remove("waits");
  layout();
  slice();
}

function slice() {
  safely(() => {
    const until = performance.now() + SLICE_TIME;
    let answer = "";
    while (running !== null && performance.now() < until) {
      answer = lastLine(library.line(running + " " + (profile === null ? SLICE : SAMPLE_STEPS)));
      running = answer.startsWith("limit ") ? "on" : answer.startsWith("stop ") && !isReached() ? "finish" : null;
      if (profile !== null && running !== null) sample();
    }
    if (program === null) return;
    if (!library.isFull()) throw new OutOfMemory("out of memory");
    showConsole();
    if (running === null) stopped(answer);
    else setTimeout(() => { if (running !== null) slice(); });
  });
}

function stopped(answer) {
  if (profile !== null) showProfile();
  look(meaning(answer), answer);
}

// The last line of an answer. After the command `console on` a run has a line with what it wrote before it.
function lastLine(answer) {
  return answer.split("\n").pop();
}

// Why a run stopped.
function meaning(answer) {
  const [word, number] = answer.split(" ");
  const status = word === "error" ? EXECUTION_ERROR + Number(number) : STOPS[word];
  if (status !== undefined) return (word === "error" ? "Error " + number + ": " : "") + library.sentence(status);
  return {ended: "The program has ended", stop: "Stopped", limit: "Stopped"}[word] ?? answer;
}

// Gives a byte to the program.
function key(byte) {
  if (program === null) return;
  library.call("key", library.handle, byte);
  if (!resumes || running !== null || !$("console").classList.contains("waits")) return;
  // (a step or finish that waits in a called procedure goes on up to the return of that procedure, and so on)
  run(goal === null ? "go" : library.registers().mp < goal.mp ? "finish" : goal.command);
}

// Shows what the program wrote to the console since the last time. Only what has changed is written, so that a screen reader
// reads only what is new.
function showConsole() {
  const {bytes: wrote} = library.ask("console", library.handle, BigInt(seen));
  if (wrote.length === 0) return;
  seen += wrote.length;
  screen.write(wrote);
  if (above !== "") {
    const all = $("scrolled").textContent + above;
    if (all.length > MOST_SHOWN) $("scrolled").textContent = all.slice(-MOST_SHOWN);
    else $("scrolled").append(above);
    above = "";
  }
  const count = Math.max(screen.rows.length, screen.y + 1), made = [...$("screen").children];
  while (made.length < count) made.push($("screen").appendChild(el("span", {})));
  made.splice(count).forEach(row => row.remove());
  made.forEach((row, k) => {
    const words = screen.row(k) + (k < count - 1 ? "\n" : "");
    if (row.textContent !== words) row.textContent = words;
  });
  $("cursor").style.left = Math.min(screen.x, COLUMNS - 1) + "ch";
  $("cursor").style.top = "calc(" + screen.y + " * var(--row))";
  $("console").scrollTop = BOTTOM;
}

function printable(characters, other) {
  return characters.replace(/[^\x20-\x7e]/g, other);
}

// Shows the state of a machine that has stopped.
function look(words, answer = "") {
  if (!library.isFull()) throw new OutOfMemory("out of memory");
  showConsole();
  const {status, steps, ...registers} = library.registers();
  $("state").textContent = words + ". Steps: " + steps;
  $("console").classList.toggle("waits", answer.startsWith("waiting"));
  $("registers").replaceChildren(...Object.entries(registers).map(([name, value]) => pair(name.toUpperCase(), String(value).padStart(DECIMALS))));
  $("stack").textContent = library.line("stack " + STACK_SHOWN).replaceAll(" ", "\n");
  stack();
  printed();
  values();
  memory();
  places();
  layout();
}

// Shows the procedures that are active: the position of the machine, and of each caller the position after its call.
function stack() {
  const answer = library.line("frames " + FRAMES_SHOWN), frames = answer.split(", ").map(frame => frame.split(" ").map(Number));
  if (!/^\d/.test(answer)) return $("frames").replaceChildren(el("li", {textContent: answer})); // (it is refused if SEG or JTAB is odd)
  const own = library.place(), callers = frames.map(([, segment, procedure, offset]) => ({segment, procedure, offset}));
  $("frames").replaceChildren(...frames.map(([address], k) => {
    const at = (k === 0 ? own : callers[k - 1]) ?? {};
    const name = at.offset === undefined ? "the system" : button(at.segment + "." + at.procedure + " at " + at.offset, () => goToPlace(at), {className: "link"});
    return el("li", {}, name, ", frame " + address);
  }));
}

// Shows what the program has printed.
function printed() {
  const {bytes: all} = library.ask("printer", library.handle, 0n);
  $("printer-part").hidden = all.length === 0;
  $("printed").textContent = text(all).split(/\r\n?|\n/).map(line => printable(line, "?")).join("\n");
}

function pair(name, value) {
  return el("tr", {}, el("th", {textContent: name, scope: "row"}), el("td", {textContent: value}));
}

// The value of a variable. A global variable belongs to the procedure whose frame is at BASE, some static links up.
function valueOf(variable) {
  const [, name, up, number] = /^(param|local|global|up(\d+)_)(\d+)$/.exec(variable);
  const chain = name === "global" ? library.line("static " + MOST_LINKS).split(" ") : [];
  const depth = name === "global" ? chain.indexOf(String(library.registers().base)) : Number(up ?? 0);
  return String((depth < 0 ? null : library.variable(depth, Number(number))) ?? "");
}

// The value of a variable at a line of a procedure.
function valueIn(variable, procedure) {
  if (program === null || program.slot !== shown.slot || program.unit !== shown.unit) return variable + ": its value is shown after Debug";
  if (running !== null) return variable + ": its value is shown when the program stops";
  const place = library.place(), isGlobal = variable.startsWith("global");
  if (!isGlobal && (place === null || place.segment + " " + place.procedure !== procedures.get(procedure)?.own)) return variable + ": the program is not in this procedure";
  return variable + " = " + (valueOf(variable) || "no value");
}

// Shows the parameters and local variables of the procedure in which the machine is.
function values() {
  const place = library.place(), size = place && sizes.get(place.segment + " " + place.procedure);
  const parameters = size ? size.parameters / WORD_BYTES : 0, count = size ? parameters + size.locals / WORD_BYTES : 0;
  const all = Array.from({length: Math.min(count, MOST_VALUES)}, (_, k) => (k < parameters ? "param" : "local") + (k + 1));
  const rows = all.map(name => pair(name, valueOf(name).padStart(DECIMALS)));
  $("values").replaceChildren(...(rows.length > 0 ? rows : [el("tr", {}, el("td", {textContent: size ? "none" : "not known"}))]));
}

function memory() {
  const typed = $("address").value.trim(), from = /^\d+$/.test(typed) ? Number(typed) : library.registers().sp;
  const rows = Array.from({length: MEMORY_ROWS}, (_, k) => from + MEMORY_ROW * k).filter(at => at < MEMORY_END);
  $("memory").textContent = rows.map(at =>
    String(at).padStart(DECIMALS) + "  " + library.line("bytes " + at + " " + MEMORY_ROW)).join("\n");
}

// Marks the line at which the machine is, the last one up to its position in its procedure, and the lines with breakpoints.
function places() {
  const isOpen = program !== null && shown !== null && program.slot === shown.slot && program.unit === shown.unit;
  const breaks = program === null ? [] : library.line("breaks").split(", ");
  const set = new Set(breaks.map(one => one.split(" ").slice(0, PLACE_NUMBERS).join(" "))); // without a condition
  const place = isOpen ? library.place() : null, end = place === null ? -1 : lineAt(place);
  if (end >= $("lines").children.length) return goToRest(end);
  $("breaks").textContent = breaks.join("\n");
  $("hint").textContent = isOpen ? "Choose a line to set or remove a breakpoint; the arrow keys move between lines and links."
    : "After Debug you can set breakpoints here.";
  let here = null;
  for (const one of placed) {
    one.line.classList.remove("here");
    one.button.removeAttribute("aria-current");
    one.button.setAttribute("aria-pressed", isOpen && set.has(one.at));
    if (place && one.segment === place.segment && one.procedure === place.procedure && one.offset <= place.offset) here = one;
  }
  if (here === null) return;
  here.line.classList.add("here");
  here.button.setAttribute("aria-current", "true");
  here.line.scrollIntoView({block: "nearest"});
}

// Adds lines of the file up to a line. (Each call of more() ends with places().)
function goToRest(k) {
  while ($("lines").children.length <= k && rest.length > 0) more();
}

function toggle(mark, place) {
  if (program === null || program.slot !== shown.slot || program.unit !== shown.unit) return say("Choose Debug first: then a line sets a breakpoint.");
  const isSet = mark.getAttribute("aria-pressed") === "true";
  const answer = library.line((isSet ? "clear " : "break ") + place);
  say(answer === "ok" ? "Breakpoint " + place + (isSet ? " removed" : " set") : answer, answer !== "ok");
  places();
}

// Executes some instructions, each with its line of the trace.
function trace(count) {
  let all = "", answer = "limit 1";
  for (; count > 0 && answer === "limit 1"; count--) {
    const line = library.line("trace");
    answer = lastLine(library.line("go 1"));
    if (!/^(waiting|ended 0)/.test(answer)) all += line + "\n";
  }
  resumes = false;
  $("traced").textContent = ($("traced").textContent + all).slice(-MOST_TRACED);
  $("traced").scrollTop = BOTTOM;
  look(meaning(answer), answer);
}

// Sends a command to the debugger.
function command(line) {
  if (recalled.at(-1) !== line) recalled.push(line);
  recalled.splice(0, recalled.length - MOST_RECALLED);
  recall = recalled.length;
  const answer = library.line(line);
  $("answers").textContent += "> " + line + "\n" + answer + "\n";
  $("answers").scrollTop = BOTTOM;
  resumes = false;
  look("Stopped", answer);
}

// ---- the profile

// Adds the chain of calls at the machine's position to the profile. `frames` names the position to which each frame returns.
function sample() {
  const where = library.line("where").split(" "), frames = library.line("frames " + DEEPEST).split(", ");
  const chain = [where, ...frames.map(frame => frame.split(" ").slice(1))].filter(([segment, procedure]) => procedure !== undefined);
  let node = profile;
  node.count++;
  for (const [segment, procedure] of chain.reverse()) {
    const name = segment + "." + procedure;
    if (!node.in.has(name)) node.in.set(name, {name, count: 0, in: new Map()});
    node = node.in.get(name);
    node.count++;
  }
  if (profile.count >= MOST_SAMPLES) showProfile();
}

// Draws the profile, and ends it.
function showProfile() {
  const all = profile, bars = [];
  let deepest = 1;
  const put = (node, x, depth) => {
    const width = node.count / all.count;
    if (width < LEAST_SHARE) return;
    deepest = Math.max(deepest, depth + 1);
    const bar = el("span", {textContent: node.name, title: node.name + ": " + node.count + " of " + all.count + " readings"});
    Object.assign(bar.style, {left: 100 * x + "%", width: 100 * width + "%", top: depth * BOX.height + "rem"});
    bars.push(bar);
    for (const child of [...node.in.values()].sort((a, b) => b.count - a.count || a.name.localeCompare(b.name))) {
      put(child, x, depth + 1);
      x += child.count / all.count;
    }
  };
  profile = null;
  if (all.count > 0) put(all, 0, 0);
  $("flame").replaceChildren(...bars);
  $("flame").style.height = deepest * BOX.height + "rem";
  if (all.count === 0) $("flame").textContent = "The run was shorter than " + SAMPLE_STEPS + " steps.";
}

// Shows the parts of the page that have a content, and enables the buttons that apply.
function layout() {
  const isOpen = disk !== null, isBusy = running !== null, isFirst = disk?.unit === BOOT_UNIT;
  hint(null);
  $("welcome").hidden = isOpen || refused !== null || box.length > 0;
  $("refusal").hidden = refused === null;
  $("box").hidden = box.length === 0;
  $("search").hidden = !isOpen && box.length === 0;
  $("results").hidden = searched === null;
  $("comparison").hidden = !isCompared;
  $("save-all").hidden = drives.size < 2;
  $("disk").hidden = !isOpen;
  $("save").disabled = !isOpen;
  $("save").classList.toggle("main", Boolean(disk?.changed));
  $("open").classList.toggle("main", !disk?.changed);
  $("first").hidden = isFirst;
  $("file").hidden = shown === null;
  $("program").hidden = program === null;
  $("stop").disabled = !isBusy;
  for (const id of ["go", "one", "step", "finish", "profile"]) $(id).disabled = isBusy;
  document.body.classList.toggle("with-file", shown !== null);
  document.body.classList.toggle("with-program", program !== null);
  if (isOpen) showDrives();
  for (const line of $("files").children) {
    const isShown = shown !== null && Number(line.dataset.slot) === shown.slot && shown.unit === disk.unit;
    line.classList.toggle("shown", isShown);
    line.querySelector("button").setAttribute("aria-current", isShown);
  }
}

// ---- what is chosen, typed and dropped

async function read(file, then) {
  if (!file) return;
  try {
    const data = new Uint8Array(await file.arrayBuffer());
    safely(() => then(data, file.name));
  } catch (error) {
    say(file.name + " could not be read: " + error.message, true);
  }
}

// Opens what was chosen or dropped: one image, or a list of several.
function opened(files, unit) {
  if (files.length > 1) return openBox([...files]);
  return read(files[0], (data, name) => openImage(data, name, unit, {file: files[0]}));
}

// The byte of a key, or 0 if it is no key of the machine. Tab and Ctrl+V keep their meaning in the browser.
function byteOf(event) {
  if (event.metaKey || event.altKey) return 0;
  if (event.ctrlKey) return /^[a-uw-z]$/i.test(event.key) ? event.key.toUpperCase().charCodeAt(0) - CONTROL : 0;
  const byte = event.key.length === 1 ? event.key.charCodeAt(0) : KEYS[event.key] ?? 0;
  return byte < ASCII_END ? byte : 0;
}

function typed(characters) {
  for (const character of characters.replace(/\r?\n/g, "\r"))
    if (character.charCodeAt(0) < ASCII_END) key(character.charCodeAt(0));
}

function listen() {
  const on = (id, event, does) => $(id).addEventListener(event, e => safely(() => does(e)));
  const idle = does => e => { e?.preventDefault?.(); if (program !== null && running === null) does(); };
  const acts = {
    open: () => pick(opened), make: () => makeDisk(), sample: makeSample, save: saveImage, convert: saveConverted, "save-all": saveAll,
    compare: askDisks, "compare-box": askDisks, uncompare: () => { isCompared = false; layout(); },
    unsearch: () => { searched = null; layout(); $("words").focus(); },
    add: () => $("added").click(), krunch: () => change("krunch"), first: moveDisk, eject: ejectDisk,
    pack: () => { closeProgram(); saveFiles(exported(disk.data, ""), pathPart(disk.name) + ".zip"); },
    export: exportBox, unbox: () => { box = []; layout(); },
    salvage: () => rescue("salvage", 0), // 0: by the first copy of the directory
    repair: () => rescue("repair"),
    dismiss: () => { refused = null; layout(); },
    run: () => start(shown, true), debug: () => start(shown, false), get: () => saveFile(shown),
    rename: () => ask("Rename " + shown.name, "", "Rename", [{label: "New name", value: shown.name}],
      name => change("change_slot", shown.slot, bytes(name))),
    remove: () => ask("Remove " + shown.name + "?", "The file is removed from the disk in this page.", "Remove", [],
      () => change("remove_slot", shown.slot)),
    more, close: closeProgram,
    go: idle(() => begin("go")), step: idle(() => begin("step")), finish: idle(() => begin("finish")), one: idle(() => trace(1)),
    profile: idle(() => { profile = {name: "all", count: 0, in: new Map()}; begin("go"); }),
    stop: () => { running = null; stopped("stop"); },
    again: () => { const file = program; closeProgram(); start(file, false); },
    cancel: () => $("dialog").close(),
  };
  for (const [id, does] of Object.entries(acts)) on(id, "click", does);
  // (so that the same file can be chosen again)
  for (const id of ["image", "added"]) on(id, "click", e => { e.target.value = ""; });
  on("image", "change", e => picked(e.target.files));
  on("read-as", "change", e => readAs(e.target.value));
  on("procedure", "change", e => { if (e.target.value !== "") goTo(e.target.value); });
  for (const id of ["exact", "in-code"]) on(id, "change", () => { if (searched !== null) search(searched); });
  on("added", "change", e => read(e.target.files[0], addFile));
  on("address", "input", () => { if (program !== null && running === null) memory(); });
  on("trace", "submit", idle(() => trace(Number($("count").value))));
  on("commands", "submit", idle(() => { command($("line").value); $("line").value = ""; }));
  on("search", "submit", e => { e.preventDefault(); search($("words").value); });
  on("line", "keydown", e => {
    const way = {ArrowUp: -1, ArrowDown: 1}[e.key];
    if (!way) return;
    e.preventDefault();
    recall = Math.max(0, Math.min(recalled.length, recall + way));
    $("line").value = recalled[recall] ?? "";
  });
  for (const id of ["keys", "console"]) {
    on(id, "keydown", e => {
      const byte = byteOf(e);
      if (byte < 1) return;
      e.preventDefault();
      key(byte);
    });
    on(id, "paste", e => { e.preventDefault(); typed(e.clipboardData.getData("text")); });
  }
  on("keys", "input", e => { typed(e.target.value); e.target.value = ""; }); // of a keyboard on the screen
  on("lines", "keydown", e => {
    const from = placed.findIndex(one => [...one.line.children].includes(document.activeElement));
    const to = {ArrowUp: from - 1, ArrowDown: from + 1, Home: 0, End: placed.length - 1}[e.key], way = {ArrowLeft: -1, ArrowRight: 1}[e.key];
    if (from >= 0 && way) { // to the links of the line
      const stops = [...placed[from].line.children].filter(one => one === placed[from].button || one.classList.contains("link"));
      e.preventDefault();
      stops[stops.indexOf(document.activeElement) + way]?.focus();
    }
    if (from < 0 || to === undefined || !placed[to]) return;
    e.preventDefault();
    placed[from].button.tabIndex = -1;
    placed[to].button.tabIndex = 0;
    placed[to].button.focus();
  });
  document.addEventListener("keydown", e => {
    if (e.key === "Escape") hint(null);
    const id = {F8: "go", F9: e.shiftKey ? "finish" : "one", F10: "step"}[e.key];
    if (!id || program === null) return;
    e.preventDefault();
    $(id).click();
  });
  document.addEventListener("dragover", e => { e.preventDefault(); document.body.classList.add("over"); });
  document.addEventListener("dragleave", () => document.body.classList.remove("over"));
  document.addEventListener("drop", e => {
    e.preventDefault();
    document.body.classList.remove("over");
    if (!$("dialog").open) opened(e.dataTransfer.files);
  });
  // The browser asks before it closes the page if changes would be lost. A program may have changed its disk.
  addEventListener("beforeunload", e => {
    if (program === null && ![...drives.values()].some(one => one.changed)) return;
    e.preventDefault();
    e.returnValue = true; // (older browsers need this)
  });
}

// The bytes that an element of this page has, packed by gzip, in base64.
async function unpacked(id) {
  const packed = Uint8Array.from(atob($(id).textContent), c => c.charCodeAt(0));
  $(id).textContent = "";
  const stream = new Blob([packed]).stream().pipeThrough(new DecompressionStream("gzip"));
  return new Response(stream).arrayBuffer();
}

async function load() {
  compiled = await WebAssembly.compile(await unpacked("module"));
  library = new Library(await WebAssembly.instantiate(compiled, {}));
  listen();
  for (const id of ["open", "make", "sample"]) $(id).disabled = false;
  systemText = new Uint8Array(await unpacked("system-text"));
  const own = $("inside").textContent.trim() === "" ? null : new Uint8Array(await unpacked("inside"));
  say("Ready");
  if (own !== null) safely(() => openImage(own, $("inside").dataset.name)); // the disk that site.sh put into this page
}

load().catch(error => {
  const hint = document.body.dataset.bits === "64" ? " The page needs a browser with 64-bit memory of WebAssembly (memory64)." : "";
  say("This browser cannot run the page: " + error.message + "." + hint, true);
});
