// Runs looks.js on a page in the small document of dom.mjs: node looks.mjs PAGE KEPT.IMG MORE.JSON (of disks_of_page.py)
import fs from "fs";
import {load} from "./dom.mjs";
import {parts} from "./wasm.mjs";

const [page, kept, more] = process.argv.slice(2);
const opened = load(parts(page).page);
while (opened.document.getElementById("status").textContent === "Loading") await new Promise(next => setTimeout(next, 10));
opened.run(fs.readFileSync(new URL("looks.js", import.meta.url), "utf8"));
opened.context.given = {kept: [...fs.readFileSync(kept)], random: 200, more: JSON.parse(fs.readFileSync(more, "utf8"))};
const results = await opened.run("looks(given)");
const {document} = opened, at = id => document.getElementById(id), check = (name, got, wanted) =>
  results.push([name, JSON.stringify(got) === JSON.stringify(wanted), JSON.stringify(got)]);
const settled = () => new Promise(next => setTimeout(next, 20));
const ended = async () => { while (opened.run("running") !== null) await settled(); };

// keys: each goes to the program, except those of the browser
const keyOf = (key, more = {}) => opened.run("byteOf")({key, ...more});
check("the bytes of keys", ["a", "Z", " ", "Enter", "Escape", "Backspace", "Delete", "ArrowLeft", "ArrowRight", "ArrowUp", "ArrowDown"].map(key => keyOf(key)),
  [97, 90, 32, 13, 27, 8, 127, 8, 21, 11, 10]);
check("with Ctrl", ["a", "C", "z"].map(key => keyOf(key, {ctrlKey: true})), [1, 3, 26]);
check("keys of the browser", [keyOf("Tab"), keyOf("F5"), keyOf("v", {ctrlKey: true}), keyOf("a", {altKey: true}), keyOf("a", {metaKey: true}), keyOf("\u00e9")], [0, 0, 0, 0, 0, 0]);
opened.run("makeSample()");
if (at("dialog").open) at("questions").fire("submit");
const choose = name => document.querySelectorAll("#files button").find(button => button.textContent === name).click();
choose("ECHO");
at("run").click();
await ended();
check("Keys has the focus after Run", document.activeElement.getAttribute("id"), "keys");
check("a key is taken, Tab is not", [at("keys").fire("keydown", {key: "x"}).prevented, at("keys").fire("keydown", {key: "Tab"}).prevented], [true, false]);
await ended();
at("keys").fire("paste", {clipboardData: {getData: () => "yz\r\n"}});
await ended();
at("keys").value = "ok";
at("keys").fire("input");
await ended();
check("typed, pasted and by a keyboard on the screen", [at("console").textContent, at("keys").value], ["xyz\nok", ""]);
at("close").click();
// a program with keys only: Debug, a breakpoint two lines further, Go, an instruction, the end of the procedure
choose("HANOI");
at("debug").click();
const lines = opened.run("placed").map(one => one.button), begun = document.querySelector("#lines .place[tabindex='0']");
begun.focus();
for (const key of ["ArrowDown", "ArrowDown", "ArrowUp", "End", "Home", "ArrowDown"]) begun.fire("keydown", {key});
check("arrow keys move between lines", [lines.indexOf(document.activeElement), lines.filter(line => line.tabIndex === 0).length], [1, 1]);
const linked = opened.run("placed").find(one => one.line.textContent.includes("CGP_2(param3 - 1, param2")), keys = key => document.activeElement.fire("keydown", {key});
linked.button.focus();
keys("ArrowRight");
check("the right arrow moves to a link of the line", document.activeElement.textContent, "CGP_2");
keys("ArrowLeft");
check("the left arrow back", document.activeElement === linked.button, true);
keys("ArrowRight");
document.activeElement.click();
check("which leads to its procedure", document.querySelectorAll("#lines .found").map(line => line.textContent.slice(0, 11)), ["PROCEDURE 2"]);
lines[1].focus();
document.activeElement.click();
check("and a line sets a breakpoint", at("breaks").textContent !== "", true);
at("breaks").textContent.split("\n").forEach(one => opened.run("library").line("clear " + one));
opened.run("library").line("break 1 3 0");
check("F8 runs", [document.fire("keydown", {key: "F8"}).prevented, (await ended(), at("state").textContent.endsWith("Steps: 52"))], [true, true]);
document.fire("keydown", {key: "F9"});
check("F9 executes an instruction", at("state").textContent.endsWith("Steps: 53"), true);
document.fire("keydown", {key: "F9", shiftKey: true});
await ended();
check("Shift+F9 runs to the return", opened.run("library").line("where").startsWith("1 2 "), true);
at("close").click();
check("without a program F8 is the browser's", document.fire("keydown", {key: "F8"}).prevented, false);
// files that are chosen and dropped
const fileOf = (name, bytes) => ({name, arrayBuffer: async () => Uint8Array.from(bytes).buffer});
at("image").files = [fileOf("kept.img", fs.readFileSync(kept))];
at("image").fire("change");
await settled();
check("a chosen file is opened", at("disk-title").textContent, "KEPT (kept.img)");
document.fire("drop", {dataTransfer: {files: [fileOf("junk", [1, 2, 3])]}});
await settled();
check("a dropped file that is no volume", [at("refusal-title").textContent, at("disk-title").textContent], ["junk is not opened", "KEPT (kept.img)"]);
document.fire("drop", {dataTransfer: {files: []}});
document.fire("drop", {dataTransfer: {files: [{name: "gone", arrayBuffer: async () => { throw new Error("not readable"); }}]}});
await settled();
check("a file that cannot be read", at("status").textContent, "gone could not be read: not readable");
at("added").files = [fileOf("note.txt", Buffer.from("one\n"))];
at("added").fire("change");
await settled();
check("a file to be added asks for its name", document.querySelectorAll("#fields input")[0].value, "NOTE.TEXT");
at("cancel").click();

// downloads, the question before the page is closed, and that no name is markup
const saved = opened.saved.length, isAsked = changes => {
  opened.run("disk.changed = " + changes);
  const event = {preventDefault() { this.prevented = true; }};
  for (const does of opened.window.beforeunload) does(event);
  return Boolean(event.prevented);
};
results.push(["one image was saved", saved === 1, saved]);
results.push(["the browser asks if there are changes", isAsked(true), ""], ["and not otherwise", !isAsked(false), ""]);
results.push(["nothing is written as markup", !/innerHTML|outerHTML|insertAdjacent|document\.write|eval\(|Function\(/.test(parts(page).script), ""]);
for (const [name, passed, got] of results) if (!passed) console.log("FAILED: %s: %s", name, got);
console.log("%d looks passed, %d failed", results.filter(([, passed]) => passed).length, results.filter(([, passed]) => !passed).length);
process.exit(results.some(([, passed]) => !passed) ? 1 : 0);
