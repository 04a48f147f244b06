// The console as a screen of 80 by 24 characters. It obeys the codes of examples/system/README.md, "The screen": as bytes,
// and as the sequences that the system segment sends. Lines that leave the screen at its top are handed to `above`.
const COLUMNS = 80, ROWS = 24;
const LF = 10, CR = 13, ESC = 27, SPACE = 32, TILDE = 126;
const MOST_SEQUENCE = 12; // characters of a sequence; a longer one is no sequence

class Screen {
  constructor(above) {
    this.above = above;
    this.rows = [];      // the lines up to the last one that was used
    this.x = this.y = 0; // (x is 80 after the last character of a line: the next one begins a new line)
    this.sequence = null;
    this.last = 0;
  }

  write(bytes) {
    for (const byte of bytes) {
      if (this.sequence !== null) this.inSequence(String.fromCharCode(byte));
      else if (byte >= SPACE && byte <= TILDE) this.put(String.fromCharCode(byte));
      else this.control(byte);
      this.last = byte;
    }
  }

  row(y) {
    return this.rows[y] ?? "";
  }

  set(y, row) {
    while (this.rows.length < y) this.rows.push("");
    this.rows[y] = row;
  }

  put(character) {
    if (this.x === COLUMNS) this.line();
    const row = this.row(this.y);
    this.set(this.y, row.slice(0, this.x).padEnd(this.x) + character + row.slice(this.x + 1));
    this.x++;
  }

  // Goes to the start of the next line.
  line() {
    this.x = 0;
    this.y++;
    if (this.y < ROWS) return;
    this.above(this.row(0));
    this.rows.shift();
    this.y = ROWS - 1;
  }

  // Does what a control byte does. All others, such as BEL, have no effect.
  control(byte) {
    const effects = {
      8: () => { this.x = Math.max(0, Math.min(this.x, COLUMNS - 1) - 1); },
      10: () => { if (this.last !== CR) this.line(); },
      11: () => this.clearBelow(),
      12: () => { this.home(); this.clearBelow(); },
      13: () => this.line(),
      25: () => this.home(),
      27: () => { this.sequence = ""; },
      28: () => { this.x = Math.min(this.x + 1, COLUMNS - 1); },
      29: () => this.clearLine(),
      31: () => { this.y = Math.max(0, this.y - 1); },
    };
    effects[byte]?.();
  }

  home() {
    this.x = this.y = 0;
  }

  clearLine() {
    if (this.y < this.rows.length) this.set(this.y, this.row(this.y).slice(0, this.x));
  }

  clearBelow() {
    this.clearLine();
    this.rows.length = Math.min(this.rows.length, this.y + 1);
  }

  inSequence(character) {
    this.sequence += character;
    if (this.sequence === "[" || (/^\[[\d;]+$/.test(this.sequence) && this.sequence.length < MOST_SEQUENCE)) return;
    const [, numbers, letter] = /^\[([\d;]*)([A-Z])$/.exec(this.sequence) ?? [];
    this.sequence = null;
    const [row, column] = (numbers ?? "").split(";").map(Number), inside = (at, end) => Math.max(1, Math.min(at || 1, end)) - 1;
    const effects = {
      A: () => this.control(31), C: () => this.control(28), K: () => this.clearLine(),
      H: () => { this.y = inside(row, ROWS); this.x = inside(column, COLUMNS); },
      J: () => { if (numbers === "2") this.rows = []; else this.clearBelow(); },
    };
    effects[letter]?.();
  }
}
