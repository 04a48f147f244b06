// A small document for node: as much of a browser's as the page uses. It has no layout and no style.
import vm from "vm";

const VOID = ["meta", "link", "input", "br"];

class ClassList {
  constructor(element) { this.element = element; }
  get names() { return (this.element.getAttribute("class") ?? "").split(/\s+/).filter(Boolean); }
  contains(name) { return this.names.includes(name); }
  add(name) { this.toggle(name, true); }
  remove(name) { this.toggle(name, false); }
  toggle(name, isOn = !this.contains(name)) {
    const others = this.names.filter(other => other !== name);
    this.element.setAttribute("class", (isOn ? [...others, name] : others).join(" "));
  }
}

class Element {
  constructor(document, tag) {
    Object.assign(this, {document, tag, nodes: [], parent: null, listeners: {}, attributes: new Map(), open: false, value: "", scrollTop: 0, style: {}});
    this.classList = new ClassList(this);
    this.dataset = new Proxy({}, {
      get: (_, name) => this.attributes.get("data-" + name),
      set: (_, name, value) => { this.attributes.set("data-" + name, String(value)); return true; },
    });
  }
  getAttribute(name) { return this.attributes.get(name) ?? null; }
  setAttribute(name, value) { this.attributes.set(name, String(value)); if (name === "value") this.value = String(value); }
  removeAttribute(name) { this.attributes.delete(name); }
  get className() { return this.getAttribute("class") ?? ""; }
  set className(names) { this.setAttribute("class", names); }
  get tabIndex() { return Number(this.getAttribute("tabindex") ?? -1); }
  set tabIndex(value) { this.setAttribute("tabindex", value); }
  get ariaLabel() { return this.getAttribute("aria-label"); }
  set ariaLabel(words) { this.setAttribute("aria-label", words); }
  get children() { return this.nodes.filter(node => node instanceof Element); }
  get textContent() { return this.nodes.map(node => node instanceof Element ? node.textContent : node).join(""); }
  set textContent(text) { this.replaceChildren(...(text === "" ? [] : [String(text)])); }
  append(...nodes) {
    for (const node of nodes) {
      if (node instanceof Element) node.parent = this;
      this.nodes.push(node instanceof Element ? node : String(node));
    }
    if (this.tag === "select" && this.value === "") this.value = String(this.children[0]?.value ?? "");
  }
  appendChild(node) { this.append(node); return node; }
  replaceChildren(...nodes) { this.nodes = []; this.append(...nodes); }
  remove() { this.parent.nodes = this.parent.nodes.filter(node => node !== this); }
  getBoundingClientRect() { return {left: 0, bottom: 0}; }
  get all() { return this.children.flatMap(child => [child, ...child.all]); }
  matches(selector) {
    const [, id, tag, name, attribute, value] = /^(?:#([\w-]+)|([a-z][a-z0-9]*)?(?:\.([\w-]+))?(?:\[([\w-]+)='?([^'\]]*)'?\])?)$/.exec(selector);
    return (id === undefined || this.getAttribute("id") === id) && (tag === undefined || this.tag === tag) &&
      (name === undefined || this.classList.contains(name)) && (attribute === undefined || this.getAttribute(attribute) === value);
  }
  querySelectorAll(selectors) {
    const found = selector => selector.trim().split(/\s+/).reduce((from, part) =>
      from.flatMap(element => element.all.filter(inner => inner.matches(part))), [this]);
    return [...new Set(selectors.split(",").flatMap(found))];
  }
  querySelector(selector) { return this.querySelectorAll(selector)[0] ?? null; }
  addEventListener(kind, does) { (this.listeners[kind] ??= []).push(does); }
  fire(kind, properties = {}) {
    const event = {target: this, prevented: false, preventDefault() { this.prevented = true; }, stopPropagation() { this.stopped = true; }, ...properties};
    for (let at = this; at; at = at.parent ?? (at === this.document ? null : this.document)) {
      for (const does of at.listeners[kind] ?? []) does(event);
      at["on" + kind]?.(event);
      if (event.stopped) break;
    }
    return event;
  }
  click() {
    if (this.disabled) return;
    this.document.clicked.push(this);
    this.fire("click");
  }
  focus() { this.document.activeElement = this; }
  scrollIntoView() {}
  showModal() { this.open = true; }
  close() { this.open = false; }
}
for (const name of ["hidden", "disabled"])
  Object.defineProperty(Element.prototype, name, {
    get() { return this.attributes.has(name); },
    set(value) { if (value) this.attributes.set(name, ""); else this.attributes.delete(name); },
  });

// Reads a page into a document, and returns the context in which its script has run.
export function load(page) {
  const document = new Element(null, "#document");
  document.document = document;
  Object.assign(document, {clicked: [], activeElement: null, title: "", createElement: tag => new Element(document, tag),
    createElementNS: (_, tag) => new Element(document, tag)});
  document.getElementById = id => document.all.find(element => element.getAttribute("id") === id) ?? null;
  const scripts = [], tag = /<(\/?)([a-z][a-z0-9]*)((?:\s+[\w-]+(?:="[^"]*")?)*)\s*>/y;
  let at = document, k = page.indexOf(">") + 1;
  while (k < page.length) {
    tag.lastIndex = k;
    const found = tag.exec(page);
    if (!found) {
      const end = page.indexOf("<", k + 1);
      at.append(page.slice(k, end < 0 ? page.length : end));
      k = end < 0 ? page.length : end;
      continue;
    }
    k = tag.lastIndex;
    if (found[1]) {
      if (at.tag !== found[2]) throw new Error("</" + found[2] + "> ends <" + at.tag + ">");
      at = at.parent;
      continue;
    }
    const element = new Element(document, found[2]);
    for (const [, name, , value] of found[3].matchAll(/([\w-]+)(="([^"]*)")?/g)) element.setAttribute(name, value ?? "");
    at.append(element);
    if (["script", "style"].includes(found[2])) { // their content has no tags
      const end = page.indexOf("</" + found[2] + ">", k);
      element.textContent = page.slice(k, end);
      if (found[2] === "script" && element.attributes.size === 0) scripts.push(element.textContent);
      k = end + found[2].length + 3;
    } else if (!VOID.includes(found[2])) at = element;
  }
  document.body = document.querySelector("body");
  const saved = [], window = {};
  const context = vm.createContext({
    document, Uint8Array, DataView, WebAssembly, TextEncoder, DecompressionStream, Response, Blob, performance, setTimeout, atob, console,
    URL: {createObjectURL: blob => { saved.push(blob); return "blob:"; }, revokeObjectURL: () => {}},
    getSelection: () => "", addEventListener: (kind, does) => { (window[kind] ??= []).push(does); },
  });
  for (const script of scripts) vm.runInContext(script, context, {filename: "page"});
  return {context, document, saved, window, run: code => vm.runInContext(code, context)};
}
