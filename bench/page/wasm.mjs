// Reads the library of a built page for node: its module and the class Library of its script.
import fs from "fs";
import vm from "vm";
import zlib from "zlib";

// Returns the parts of the page: its module's bytes and its script.
export function parts(path) {
  const page = fs.readFileSync(path, "utf8");
  const module = /<script type="application\/octet-stream" id="module">([^<]*)<\/script>/.exec(page)[1];
  return {page, module: zlib.gunzipSync(Buffer.from(module, "base64")), script: /<script>([^]*?)<\/script>/.exec(page)[1]};
}

// Returns the class Library, and a function that makes a new instance of the module.
export function library(path) {
  const {module, script} = parts(path);
  const compiled = new WebAssembly.Module(module);
  if (WebAssembly.Module.imports(compiled).length !== 0) throw new Error("the module has imports");
  const source = script.slice(0, script.indexOf("// The page: what it shows")) + "\nglobalThis.Library = Library;";
  vm.runInThisContext(source, {filename: "library.js"});
  return {compiled, start: () => new globalThis.Library(new WebAssembly.Instance(compiled, {}))};
}
