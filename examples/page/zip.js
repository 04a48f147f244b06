// A .zip of files, each stored without compression. Names are ASCII; each file has the same date, so the same files give the
// same bytes.
const POLYNOMIAL = 0xedb88320;  // of CRC-32, its bits reversed
const BYTE_BITS = 8, LOW_BYTE = 0xff, ALL_BITS = 0xffffffff;
const LOCAL_HEAD = 0x04034b50, CENTRAL_HEAD = 0x02014b50, ZIP_END = 0x06054b50; // the signatures of the parts of a .zip
const LOCAL_LENGTH = 30, CENTRAL_LENGTH = 46, END_LENGTH = 22;                  // the bytes of each, without a name
const HEX = 16, BYTE_DIGITS = 2; // the base, and the hexadecimal digits of a byte
const NEEDED = 10;              // the version of the format that a stored file needs: 1.0
const FIRST_DAY = 0x21;         // 1 January 1980, the first date of the format
const SHORT = 2, LONG = 4;      // the bytes of its numbers
const ZIP_FILES = 65535, ZIP_BYTES = 0xffffffff; // what the format can count

const SUMS = Uint32Array.from({length: LOW_BYTE + 1}, (_, sum) => {
  for (let bit = 0; bit < BYTE_BITS; bit++) sum = sum & 1 ? sum >>> 1 ^ POLYNOMIAL : sum >>> 1;
  return sum;
});

function crc(data) {
  let sum = ALL_BITS;
  for (const byte of data) sum = SUMS[(sum ^ byte) & LOW_BYTE] ^ sum >>> BYTE_BITS;
  return (sum ^ ALL_BITS) >>> 0;
}

// A part of a .zip: numbers, low byte first. A field is [bytes, number].
function packed(length, ...fields) {
  const made = new DataView(new ArrayBuffer(length));
  let at = 0;
  for (const [size, number] of fields) {
    if (size === SHORT) made.setUint16(at, number, true);
    else made.setUint32(at, number, true);
    at += size;
  }
  return new Uint8Array(made.buffer);
}

// Returns the parts of a .zip, in order, of files {path, data}. Throws an error if the format cannot hold them.
function zipped(files) {
  const parts = [], central = [], short = number => [SHORT, number], long = number => [LONG, number], none = short(0);
  let at = 0, listed = 0;
  for (const {path, data} of files) {
    const name = bytes(path), length = long(data.length);
    // the version, flags, method and time; the date, the sum, both lengths, the length of the name and of what follows it
    const both = [short(NEEDED), none, none, none, short(FIRST_DAY), long(crc(data)), length, length, short(name.length), none];
    central.push(packed(CENTRAL_LENGTH, long(CENTRAL_HEAD), short(NEEDED), ...both, none, none, none, long(0), long(at)), name);
    parts.push(packed(LOCAL_LENGTH, long(LOCAL_HEAD), ...both), name, data);
    at += LOCAL_LENGTH + name.length + data.length;
    listed += CENTRAL_LENGTH + name.length;
  }
  if (files.length > ZIP_FILES || at + listed > ZIP_BYTES) throw new RangeError("the files do not fit in one .zip");
  const count = short(files.length);
  return [...parts, ...central, packed(END_LENGTH, long(ZIP_END), none, none, count, count, long(listed), long(at), none)];
}

// Returns a path part that each system takes, as docs/FILES.md, "A volume as a folder", writes it; also the characters that
// Windows forbids are written as % and two hexadecimal digits.
function pathPart(name) {
  const shown = name.replace(/[^!-~]|[%\/\\<>:"|?*]|^\.|\.$/g, character =>
    "%" + character.charCodeAt(0).toString(HEX).toUpperCase().padStart(BYTE_DIGITS, "0"));
  return shown.replace(/^(?=(?:con|prn|aux|nul|com\d|lpt\d)(?:\.|$))/i, "%%");
}

// Returns {path, data} for each file; if two paths differ only in case, the later one gets %%2, %%3 ..
function withOwnPaths(files) {
  const used = new Map();
  return files.map(({path, data}) => {
    const count = (used.get(path.toLowerCase()) ?? 0) + 1;
    used.set(path.toLowerCase(), count);
    return {path: count === 1 ? path : path + "%%" + count, data};
  });
}
