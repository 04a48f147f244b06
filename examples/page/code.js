// The lines of a text of code: which position each has, and which words in it name a procedure, a variable or a label. The
// forms are those of docs/STATEMENTS.md and of the listing, docs/COMMANDS.md.

// The words that name something, and the texts in quotes, in which nothing does.
const WORDS = new RegExp(["'(?:[^']|'')*'", '"[^"]*"', // texts
  "\\b(?:CLP|CGP|CIP|CBP)[ _](?<own>\\d+)\\b",         // a procedure of the same segment
  "\\bCXP(?:_(?<segment>\\d+)_| (?<other>\\d+), )(?<procedure>\\d+)\\b",
  "\\b(?<variable>(?:param|local|global|up\\d+_)\\d+)\\b",
  "\\b(?<label>L\\d{5})\\b(?!:)", "\\b(?<standard>[A-Z]{2,}[A-Z\\d]*)\\b"].join("|"), "g");
const LISTED = /^(\d+) (\d+) (\d+) [\dA-F ]+  (.*)$/;    // a line of the listing

// The procedures of a code file, from the lines of pmach_procedures: by slot and number, as a text of code names them. `own`
// has the numbers with which the machine names the procedure, and `enter` the offset of its first instruction.
function proceduresOf(lines) {
  const all = lines.split("\n").slice(0, -1).map(line => {
    const [slot, number, segment, enter, parameters, locals] = line.split(" ").map(Number);
    return [slot + " " + number, {own: segment + " " + number, enter, parameters, locals}];
  });
  return new Map(all.reverse()); // (of two with the same numbers the first one counts)
}

// The lines of a text, each with its position in the code if it names one: segment, procedure and offset. Headings are
// `PROCEDURE 2 OF SEGMENT 1: ..`, lines `00018 ..` or, in the listing, `01 002 00018 ..`. The lines count their offsets from
// the segment, and a position from the first instruction of the procedure. `procedures` are those of proceduresOf. `head` is
// the procedure of whose text a line is the first.
function marked(whole, isCode, procedures) {
  let procedure = "", segment = null;
  return whole.replace(/\r?\n$/, "").split(/\r?\n/).map(line => {
    if (!isCode) return {line};
    const head = /^PROCEDURE (\d+) OF SEGMENT (\d+)/.exec(line), at = /^(?:(\d+) (\d+) )?(\d+) /.exec(line);
    segment = /^\.SEG (\d+)/.exec(line)?.[1] ?? segment;
    const number = /^\.PROC (\d+)/.exec(line)?.[1];
    const names = head ? [head[2], head[1]] : at?.[1] ? [at[1], at[2]] : number ? [segment, number] : null;
    const named = names === null ? procedure : names.map(Number).join(" "), isFirst = named !== procedure;
    procedure = named;
    const made = {line, procedure, head: isFirst ? procedure : undefined, label: /^(L\d{5}):/.exec(line)?.[1]};
    const known = procedures.get(procedure), offset = at && known ? Number(at[3]) - known.enter : -1;
    if (offset < 0 || (at[1] && /^[\dA-F ]+  \./.test(line))) return made; // no code, or a directive
    return {...made, number: at[0].trimEnd(), place: known.own + " " + offset};
  });
}

// Cuts a line of a procedure into texts and {text, procedure | variable | label}. `standard` has the numbers of the
// procedures of segment 0 by their names.
function parts(line, procedure, standard) {
  const made = [], segment = procedure.split(" ")[0];
  let end = 0;
  for (const found of line.matchAll(WORDS)) {
    const {own, segment: one, other, procedure: number, variable, label, standard: name} = found.groups;
    const known = own ? segment + " " + Number(own) : number ? Number(one ?? other) + " " + Number(number)
      : standard.has(name) ? "0 " + standard.get(name) : undefined;
    if (known === undefined && !variable && !label) continue;
    made.push(line.slice(end, found.index), {text: found[0], procedure: known, variable, label});
    end = found.index + found[0].length;
  }
  return [...made, line.slice(end)];
}

// The names of the procedures of segment 0 that a text with names shows, with their numbers.
function standards(named) {
  return new Map([...named.matchAll(/^ +CXP 0, (\d+) *; (\S+)$/gm)].map(([, number, name]) => [name, Number(number)]));
}

// The calls of a listing: for each procedure the procedures that it calls, with the number of calls.
function calls(listing) {
  const made = new Map();
  for (const line of listing.split("\n")) {
    const [, segment, number, , words] = LISTED.exec(line) ?? [];
    if (words === undefined || words.startsWith(".DICT")) continue;
    const own = Number(segment) + " " + Number(number);
    if (!made.has(own)) made.set(own, new Map());
    const to = parts(words, own, new Map()).find(part => part.procedure)?.procedure;
    if (to) made.get(own).set(to, (made.get(own).get(to) ?? 0) + 1);
  }
  return made;
}

// The level of each procedure in a picture of calls: procedures that no other calls are on level 0, and each other one is
// one level after the nearest procedure that calls it.
function levels(made) {
  const level = new Map(), called = new Set([...made].flatMap(([own, those]) => [...those.keys()].filter(to => to !== own)));
  let next = [...made.keys()].filter(own => !called.has(own));
  while (level.size < made.size) {
    if (next.length === 0) next = [[...made.keys()].find(own => !level.has(own))]; // (a circle that nothing else calls)
    for (const own of next) level.set(own, level.get(own) ?? 0);
    while (next.length > 0) {
      const from = next;
      next = [];
      for (const own of from) for (const to of made.get(own).keys()) {
        if (!made.has(to) || level.has(to)) continue;
        level.set(to, level.get(own) + 1);
        next.push(to);
      }
    }
  }
  return level;
}
