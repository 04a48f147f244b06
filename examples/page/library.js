// The calls of the library (examples/library/pmach.h) from JavaScript. Addresses, lengths and numbers of 64 bits are BigInts
// there; all other numbers are Numbers. An argument that is a Uint8Array is copied into the memory of the library.
"use strict";

const NO_ADDRESS = 0n;            // malloc: out of memory; an empty handle
const DONE = 0, TOO_SHORT = 7, NOTHING = 18, DIFFERENT = 19; // results PMACH_DONE, PMACH_TOO_SHORT ..
const FIRST_CAPACITY = 65536;    // bytes for an answer, before a longer one is needed
const WORD = 8;                  // bytes of a size_t, a uint64_t and a struct pmach
const SHOWN = {length: 32, status: 8, registers: 12, each: 2}; // struct pmach_shown: its bytes and offsets
const PLACE = {length: 4, procedure: 1, offset: 2};            // struct pmach_place: the same
const CHUNK = 8192;              // characters that one call of fromCharCode makes

class OutOfMemory extends Error {}

class Library {
  constructor(instance) {
    this.c = instance.exports;
    this.capacity = FIRST_CAPACITY;
    this.out = this.block(this.capacity);
    this.needed = this.block(SHOWN.length); // the length of an answer, or what a call shows
    this.handle = this.block(WORD);
    this.view(this.handle, WORD).setBigUint64(0, NO_ADDRESS, true);
  }

  block(length) {
    const at = this.c.malloc(BigInt(length));
    if (at === NO_ADDRESS) throw new OutOfMemory("out of memory");
    return at;
  }

  view(at, length) {
    return new DataView(this.c.memory.buffer, Number(at), length);
  }

  // Returns the result of a call. The copies of its bytes are freed after it.
  call(name, ...given) {
    const lent = [], passed = [];
    try {
      for (const argument of given) {
        if (argument instanceof Uint8Array) {
          const at = this.block(argument.length || 1);
          lent.push(at);
          new Uint8Array(this.c.memory.buffer).set(argument, Number(at));
          passed.push(at, BigInt(argument.length));
        } else passed.push(argument);
      }
      return this.c["pmach_" + name](...passed);
    } finally {
      for (const at of lent) this.c.free(at);
    }
  }

  // Returns the result and the bytes of a call whose last three parameters are out, out_len and needed.
  ask(name, ...given) {
    for (;;) {
      this.view(this.needed, WORD).setBigUint64(0, 0n, true);
      const status = this.call(name, ...given, this.out, BigInt(this.capacity), this.needed);
      const length = Number(this.view(this.needed, WORD).getBigUint64(0, true)), at = Number(this.out);
      if (status !== TOO_SHORT) return {status, bytes: new Uint8Array(this.c.memory.buffer).slice(at, at + length)};
      const out = this.block(length);
      this.c.free(this.out);
      this.out = out;
      this.capacity = length;
    }
  }

  // Returns the sentence for a result.
  sentence(status) {
    return text(this.ask("sentence", status).bytes);
  }

  // ---- one machine with its session

  boot(image, name) {
    this.c.pmach_free(this.handle);
    return this.call("boot", this.handle, image, name, 0); // its clock shows 0
  }

  // Executes a line of the debugger, and returns its answer.
  line(line) {
    const status = this.call("command", this.handle, bytes(line));
    return status === DONE ? text(this.ask("answer", this.handle).bytes).replace(/\n$/, "") : this.sentence(status);
  }

  // Whether the handle has a machine. If memory runs out in a line of the debugger, the machine is freed.
  isFull() {
    return this.view(this.handle, WORD).getBigUint64(0, true) !== NO_ADDRESS;
  }

  registers() {
    const status = this.call("registers", this.handle, this.needed), view = this.view(this.needed, SHOWN.length);
    const shown = {status: status || view.getUint32(SHOWN.status, true), steps: view.getBigUint64(0, true)};
    ["ipc", "sp", "mp", "base", "np", "seg", "jtab", "ioresult"].forEach((name, k) => {
      shown[name] = view.getUint16(SHOWN.registers + SHOWN.each * k, true);
    });
    return shown;
  }

  // Returns the value of a variable of the procedure that is `depth` static links up, or null if it has none.
  variable(depth, number) {
    if (this.call("variable", this.handle, depth, number, this.needed) !== DONE) return null;
    return this.view(this.needed, WORD).getUint16(0, true);
  }

  // Returns the position of the machine in the code, or null if it is unknown.
  place() {
    if (this.call("place", this.handle, this.needed) !== DONE) return null;
    const view = this.view(this.needed, PLACE.length);
    return {segment: view.getUint8(0), procedure: view.getUint8(PLACE.procedure), offset: view.getUint16(PLACE.offset, true)};
  }
}

// Returns the bytes of a text in UTF-8, which the calls require of names.
function bytes(text) {
  return new TextEncoder().encode(text);
}

// Returns a text with one character for each byte.
function text(bytes) {
  let text = "";
  for (let k = 0; k < bytes.length; k += CHUNK) text += String.fromCharCode(...bytes.subarray(k, k + CHUNK));
  return text;
}
