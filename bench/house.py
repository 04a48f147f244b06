"""house.py [--record]: lists what breaks the rules of this repository's source and pages. Run by hand; no part of the gate.

    definitions     in specs/ of two crates that differ only in their own names and those of their parameters; the same for
                    bodies of functions in two files
    clauses         of two functions, in two files, that say the same of a result and of the same definition
    functions       of more than 40 lines with their signature, without the rows of a table that a macro takes
    lines           over 120 characters in code, definitions and pages, over 160 in proofs (except tables, the index, and
                    attributes, which `rt fmt` joins)
    numbers         that have a name: ends of the stack, the most bytes of bare code, opcodes of jumps (except in the table
                    of opcodes, table.rt)
    pages           with the tables of the instructions, the standard procedures and the system's procedures, of which
                    crates/test_page/stdin is a concatenation
    cases           of examples/conformance/bare.txt, of which crates/test_cases/data/bare.txt is a copy
    segment         of examples/system/system.text, of which crates/test_trials/data/system.text is a copy
    header          examples/library/pmach.h: the numbers of its answers are those of crates/pm_c/specs/Worked.antt; its
                    calls, with the types of their parameters, are the exports of crates/pm_c/src, each called by the tests
                    there; its version is that of the program
    sentences       of crates/pm_c/src/sentences.rt, which are those of the faults and errors that they describe
    names           on docs/PROMISES.md, docs/ARCHITECTURE.md, docs/DECISIONS.md and in the sections of definitions that do
                    not exist in the source, or in the crates named with them; paths and sections that do not exist
    index           INDEX.md, which index.py makes from the source
    map             of docs/ARCHITECTURE.md: each crate with its floor and the crates that it uses, as in crates.txt
    orphans         pages that no page links to
    long sentences  of more than 40 words on a page
    words           of the private dialect, which docs/STYLE.md replaces: their number on pages, in comments and in scripts
                    may only fall below that in bench/private-words.txt. `--record` writes the present numbers there

Status 1: something was found."""
import collections
import glob
import os
import re
import sys

import index

os.chdir(os.path.join(os.path.dirname(os.path.abspath(__file__)), ".."))
found = collections.Counter()


def tell(kind, text):
    found[kind] += 1
    print("%s: %s" % (kind, text))


def lines(path):
    with open(path, encoding="utf-8") as file:
        return file.read().split("\n")


def definitions(path):
    """Each definition of a file: its name, and its text without comments and blanks."""
    name, text = None, []
    for line in lines(path) + ["-- end"]:
        if line.startswith(("  ", "\t")) and name:
            text.append(line)
            continue
        head = re.match(r"(?:(?:abbrev|unfoldable) )?pub (?:record )?(\S+) (?::|\()", line)
        if name and line.startswith(name + " "):
            text.append(line)
            continue
        if name and text:
            yield name, " ".join(" ".join(text).split())
        name, text = (head.group(1), [line]) if head else (None, [])


def shape(name, text, parameters):
    """The text with its own name replaced by $, and its parameters by $1, $2 ..: its shape without names."""
    order = {name: "$"}
    for word in parameters:
        order.setdefault(word, "$%d" % len(order))
    return re.sub(r"[A-Za-z_][\w'-]*", lambda word: order.get(word[0], word[0]), text)


# Pairs of one shape that mean different things, or of crates of which neither requires the other.
APART = ({"number_and_numbers", "byte_and_bytes"}, {"IsImage", "IsVolumeOfBytes"}, {"characters_of", "text_of"},
         {"control", "control_word"}, {"is_even"}, {"Name", "TextLine"}, {"push_slots"}, {"push_word"},
         {"bare", "bare_instruction"}, {"text_of"})
by_shape = collections.defaultdict(set)
for path in glob.glob("crates/*/specs/**/*.antt", recursive=True):
    for name, text in definitions(path):
        equations = re.findall(r"%s ((?:[^=]|=(?! ))*?) = " % re.escape(name), text)
        parameters = re.findall(r"[a-z_][\w'-]*", " ".join(equations))
        if len(text.split()) > 6:
            text = re.sub(r"^(abbrev|unfoldable) ", "", text)
            by_shape[shape(name, text, parameters)].add((path.split("/")[1], name))
FUNCTION = r"^( *)(?:pub(?:\([a-z]+\))? )?(?:const )?fn (\w+)(?:<[^(]*>)?\(([^)]*)\).*?\n\1\{\n(.*?)\n\1\}"
for path in (path for path in glob.glob("crates/*/src/**/*.rt", recursive=True) if not path.startswith("crates/test_")):
    for _, name, parameters, body in re.findall(FUNCTION, "\n".join(lines(path)), re.M | re.S):
        words = re.findall(r"(\w+):", parameters) + re.findall(r"\blet (?:mut )?(\w+)|\bfor (\w+) in|\|(\w+)\|", body)
        words = [word for one in words for word in ([one] if isinstance(one, str) else one) if word]
        text = shape(name, " ".join(body.split()), words)
        if len(text) > 60:
            by_shape[text].add((path[7:], name))
for places in by_shape.values():
    names = {name for _, name in places}
    if len({crate for crate, _ in places}) > 1 and names not in APART:
        tell("definition", ", ".join("%s of %s" % (name, crate) for crate, name in sorted(places)))

for path in sorted(glob.glob("crates/*/src/**/*.rt", recursive=True)):
    source = lines(path)
    number = 0
    while number < len(source):
        head = re.match(r"( *)(?:pub(?:\([a-z]+\))? )?fn (\w+)", source[number])
        if head:
            last, ends = number, (head.group(1) + "}", head.group(1) + "{")
            has_body = False
            rows, table = 0, None
            while last < len(source) and source[last] != ends[0] and not source[last].endswith("{}"):
                has_body = has_body or source[last] == ends[1] or source[last].endswith(" {")
                if not has_body and source[last].endswith(";"): # of a trait, without a body
                    break
                opens = re.match(r"( +)\w+! \{$", source[last])
                table = opens.group(1) + "}" if opens else None if source[last] == table else table
                rows += table is not None
                last += 1
            if last - number + 1 - rows > 40:
                tell("function", "%s:%d %s has %d lines" % (path, number + 1, head.group(2), last - number + 1 - rows))
            number = last
        number += 1

# Clauses that say the same of the result, without their names.
by_clause = collections.defaultdict(set)
for path in sorted(glob.glob("crates/*/src/**/*.rt", recursive=True)):
    text = "\n".join(lines(path))
    for head in re.finditer(r"^( *)(?:pub(?:\([a-z]+\))? )?(?:const )?fn (\w+)(.*?)\n\1\{$", text, re.M | re.S):
        for clause in re.findall(r"ensures\*? \w+ \{(.*?)\}(?=\s*(?:ensures|requires|decreases|\Z))", head.group(3), re.S):
            clause = " ".join(clause.split())
            if "result" in clause and len(clause) > 80:
                by_clause[clause].add((path[7:], head.group(2)))
for clause, places in sorted(by_clause.items()):
    if len({path for path, _ in places}) > 1:
        tell("clause", "%s: %s" % (", ".join("%s of %s" % (name, path) for path, name in sorted(places)), clause[:80]))

for pattern, most in (("crates/*/src/**/*.rt", 120), ("crates/*/specs/**/*.antt", 120), ("crates/*/proofs/**/*.antt", 160),
                      ("docs/*.md", 120), ("README.md", 120)):
    for path in sorted(glob.glob(pattern, recursive=True)):
        long = [n + 1 for n, line in enumerate(lines(path)) if len(line) > most and not line.lstrip().startswith(("|", "#["))]
        if long:
            tell("line", "%s: %d over %d characters, the first at %d" % (path, len(long), most, long[0]))

NUMBERS = r"\b(65_?492|65_?502|65_?504|60_?000|172|185)\b"
for path in sorted(glob.glob("crates/*/src/**/*.rt", recursive=True)):
    if re.search(r"(layout|fields|worked|tests|table|calls/\w+)\.rt$", path) or path.startswith("crates/test_"):
        continue
    for number, line in enumerate(lines(path)):
        if re.search(NUMBERS, line.split("//")[0]) and not re.match(r"\s*(const|pub const|pub\(crate\) const)", line):
            tell("number", "%s:%d %s" % (path, number + 1, line.strip()[:80]))

# The map: of each crate its floor, and the nearest crates below, those of pm_ without it.
stands = {}
for line in lines("crates.txt"):
    if line and not line.startswith("#"):
        name, _, below = line.partition(":")
        stands[name.split()[0]] = set(below.split())
stands = {name: below & set(stands) for name, below in stands.items()}


def all_below(name):
    return stands[name].union(*map(all_below, stands[name]))


def floor_of(name):
    return 1 + max(map(floor_of, stands[name]), default=-1)


page = "\n".join(lines("docs/ARCHITECTURE.md"))
drawn = {}
for floor, name, below in re.findall(r"^\| (\d+) \| ((?:pm|law_|test_)\w*) \| ([\w ]*?) ?\|", page, re.M):
    drawn[name] = (int(floor), {word if word in stands else "pm_" + word for word in below.split()})
for name in sorted(set(stands) | set(drawn)):
    if name not in drawn or name not in stands:
        tell("map", "%s stands in %s alone" % (name, "crates.txt" if name in stands else "the table"))
        continue
    nearest = {low for low in stands[name] if not any(low in all_below(other) for other in stands[name])}
    if drawn[name] != (floor_of(name), nearest):
        tell("map", "%s: floor %d, on %s" % (name, floor_of(name), ", ".join(sorted(nearest)) or "none"))

TABLES = ("docs/INSTRUCTIONS.md", "docs/PROCEDURES.md", "examples/system/README.md")
if "\n".join(lines("crates/test_page/stdin")) != "".join("\n".join(lines(page)) for page in TABLES):
    tell("page", "crates/test_page/stdin is not %s" % ", ".join(TABLES))
if lines("crates/test_cases/data/bare.txt") != lines("examples/conformance/bare.txt"):
    tell("cases", "crates/test_cases/data/bare.txt is not examples/conformance/bare.txt")
if lines("crates/test_trials/data/system.text") != lines("examples/system/system.text"):
    tell("segment", "crates/test_trials/data/system.text is not examples/system/system.text")

worked = re.findall(r"^  pub \w+ : ([A-Z_]+) ≡ (\d+)$", "\n".join(lines("crates/pm_c/specs/Worked.antt")), re.M)
header = re.findall(r"^    PMACH_([A-Z_]+) = (\d+)", "\n".join(lines("examples/library/pmach.h")), re.M)
for name, number in sorted(set(worked) ^ set(header)):
    tell("header", "%s is %s in %s alone" % (name, number, "Worked.antt" if (name, number) in worked else "pmach.h"))

version = re.search(r'^const VERSION: &str = "(\d+)\.(\d+)";', "\n".join(lines("crates/pm_plan/src/commands.rt")), re.M).groups()
if '#define PMACH_VERSION_TEXT "%s.%s"' % version not in lines("examples/library/pmach.h") or \
        ("VERSION", str(100 * int(version[0]) + int(version[1]))) not in header:
    tell("header", "pmach.h has not the version %s.%s of crates/pm_plan/src/commands.rt" % version)

IN_C = {"&[u8]": ["const uint8_t *", "size_t"], "&mut [u8]": ["uint8_t *", "size_t"], "&mut usize": ["size_t *"],
        "&mut Handle": ["struct pmach *"], "&mut Shown": ["struct pmach_shown *"], "&mut Place": ["struct pmach_place *"],
        "&mut u64": ["uint64_t *"], "&mut u16": ["uint16_t *"], "Global": [], "usize": ["size_t"], "bool": ["bool"],
        "u8": ["uint8_t"], "u16": ["uint16_t"], "u32": ["uint32_t"], "u64": ["uint64_t"]}
exports, prototypes = {}, {}
for path in glob.glob("crates/pm_c/src/*.rt"):
    for name, given, answer in re.findall(r'pub extern "C" fn (\w+)\(([^)]*)\)( -> \w+)?', "\n".join(lines(path))):
        types = [part.split(":")[1].strip() for part in given.split(",") if part.strip()]
        exports[name] = (answer.strip("-> "), sum((IN_C[type_] for type_ in types), []))
text = re.sub(r"/\*.*?\*/", "", "\n".join(lines("examples/library/pmach.h")), flags=re.S)
for answer, name, given in re.findall(r"(\w+) (pmach_\w+)\(([^)]*)\);", text):
    types = [re.sub(r"\w+$", "", " ".join(part.split())).rstrip() for part in given.split(",") if part != "void"]
    prototypes[name] = ({"uint32_t": "u32", "void": ""}[answer], types)
for name in sorted(set(exports) | set(prototypes)):
    if exports.get(name) != prototypes.get(name):
        tell("header", "%s is %s in crates/pm_c and %s in pmach.h" % (name, exports.get(name), prototypes.get(name)))
made = "\n".join("\n".join(lines(path)) for path in glob.glob("crates/pm_c/src/calls/*.rt"))
for name in sorted(exports):
    if not re.search(r"\b%s[(,]" % name, made):
        tell("header", "%s is called by no test of crates/pm_c/src/calls" % name)

told = dict(re.findall(r'^ +(\d+) => Some\(\s*"(.*)",?$', "\n".join(lines("crates/pm_c/src/sentences.rt")).replace("),\n", "\n"), re.M))
FAULTS = ((100, "pm_words/src/error"), (200, "pm_machine/src/state"), (300, "pm_units/src/ports"), (400, "pm_volume/src/fault"),
          (500, "pm_debug/src/refusal"), (600, "pm_source/src/fault"), (700, "pm_codefile/src/fault"), (800, "pm_textfile/src/fault"))
for first, path in FAULTS:
    for number, text in re.findall(r'/// (\d+): [^#]*?#\[error\("(.*)"\)\]', "\n".join(lines("crates/%s.rt" % path))):
        said = told.get(str(first + int(number)))
        text = re.sub(r"^(entry) \{0\}", r"an \1", text)
        text = re.sub(r"(?:the )?\b(line|segment|slot|byte)( at position)? \{0\}", r"the \1", text)
        if said is not None and said.rstrip('",') != text:
            tell("sentence", "%d says %s where crates/%s.rt says %s" % (first + int(number), said, path, text))

known = set()
for path in glob.glob("crates/*/src/**/*.rt", recursive=True):
    source = "\n".join(lines(path))
    known |= set(re.findall(r"(?:ensures\*?|requires|fn|struct|enum|trait|const|static|mod|returns) (\w+)", source))
    known |= set(re.findall(r"^\s+(\w+)(?: :|\(|,|\s*\{)", source, re.M))
    known |= set(re.findall(r'^\s+"(\w+)" =>', source, re.M)) # a command or a verb
for path in glob.glob("crates/*/specs/**/*.antt", recursive=True):
    known |= set(re.findall(r"^ *(?:(?:abbrev|unfoldable) )?pub (?:record |data )?([^\s:()]+)", "\n".join(lines(path)), re.M))
known |= {path.split("/")[1] for path in glob.glob("crates/*/")}
for path in glob.glob("crates/*/proofs/*.antt"):
    known |= set(re.findall(r"^(?:pub )?(?:ruleset )?([a-z]\S*) (?::|=)", "\n".join(lines(path)), re.M))
known |= {os.path.basename(path)[:-5] for folder in ("must-fail", "wrong") for path in glob.glob("crates/*/%s/*.edit" % folder)}
PROMISES = ("docs/PROMISES.md",)
OTHERS = ("Display", "requires", "byteorder", "arrayvec", "thiserror", "hex", "clap") # of the language and the kit
pages = {page: "\n".join(lines(page)) for page in PROMISES}
RULES = ("MACHINE", "INSTRUCTIONS", "PROCEDURES", "FILES", "ASSEMBLY")
for page in ["docs/%s.md" % name for name in RULES]:
    section = re.search(r"## Definitions\n(.*?)(?=\n## |\Z)", "\n".join(lines(page)), re.S)
    if section:
        pages[page] = section.group(1)
    else:
        tell("name", "%s: no section with the definitions of its rules" % page)
for page, text in pages.items():
    for word in sorted(set(re.findall(r"`([A-Za-z_][\w:-]*)`", text))):
        for name in word.split("::"):
            if name not in known and name not in OTHERS:
                tell("name", "%s: %s" % (page, word))
    for path in re.findall(r"`((?:pm|law)_\w+/specs/\w+\.antt)`", text):
        if not os.path.exists("crates/" + path):
            tell("name", "%s: %s" % (page, path))

# A name that a page of promises assigns to a crate is a call or a clause of this crate.
for page in PROMISES:
    for name, crate in re.findall(r"`(\w+)`(?: \([^)]*\))? of ((?:pm|law)_\w+)", " ".join(pages[page].split())):
        source = "\n".join("\n".join(lines(path)) for path in glob.glob("crates/%s/src/**/*.rt" % crate, recursive=True))
        if not re.search(r"(?:fn|ensures\*?) %s\b" % name, source):
            tell("name", "%s: %s is not of %s" % (page, name, crate))

# What a section of definitions names is defined in the crates that it names.
for page, text in pages.items():
    if page in PROMISES:
        continue
    source = ""
    for crate in re.findall(r"\b(?:pm|law)_\w+", text):
        paths = glob.glob("crates/%s/specs/**/*.antt" % crate, recursive=True) + glob.glob("crates/%s/src/**/*.rt" % crate, recursive=True)
        source += "\n".join("\n".join(lines(path)) for path in paths) + "\n"
    defined = set(re.findall(r"^ *(?:(?:abbrev|unfoldable) )?pub (?:record |data |struct |enum )?([^\s:()]+)", source, re.M))
    for name in re.findall(r"`([\w-]+)`", text):
        if name not in defined:
            tell("name", "%s: %s is not in a crate that it names" % (page, name))

# Names of calls and crates, and paths, on the pages that argue with them.
for page in ("docs/ARCHITECTURE.md", "docs/DECISIONS.md"):
    for word in sorted(set(re.findall(r"`([a-z_]\w*(?:::\w+)?)`", "\n".join(lines(page))))):
        if "_" in word.strip("_") and not all(name in known for name in word.split("::")):
            tell("name", "%s: %s" % (page, word))
for page in sorted(glob.glob("docs/*.md")) + ["README.md", "bench/README.md"]:
    text = "\n".join(lines(page))
    for path in set(re.findall(r"`((?:bench|docs|examples|crates|script|share)/[\w./-]+)`", text)):
        if not os.path.exists(path) and "/out/" not in path:
            tell("path", "%s: %s" % (page, path))
    for path in set(re.findall(r"\]\(([\w./-]+)(?:#[\w-]+)?\)", text)):
        if not os.path.exists(os.path.join(os.path.dirname(page), path)):
            tell("path", "%s: %s" % (page, path))
    joined = " ".join(text.split())
    titles = re.findall(r'\]\(([\w./-]+\.md)\), "([^"]+)"', joined)
    titles += [pair[::-1] for pair in re.findall(r'"([^"]+)" (?:of|in) (?:the )?\[[^]]*\]\(([\w./-]+\.md)\)', joined)]
    for path, title in titles:
        path = os.path.join(os.path.dirname(page), path)
        if os.path.exists(path) and not any(re.match("#+ %s$" % re.escape(title), line) for line in lines(path)):
            tell("name", '%s: %s has no section "%s"' % (page, path, title))

if "\n".join(lines("INDEX.md")) != index.page():
    tell("index", "INDEX.md is not that of the source: python3 bench/index.py")

# What a reader meets: pages that no other page links to, long sentences, and the private dialect.
ALL_PAGES = sorted({"README.md", "bench/README.md", *glob.glob("docs/*.md"), *glob.glob("examples/**/*.md", recursive=True)})
linked = set()
for page in ALL_PAGES:
    for path in re.findall(r"\]\(([\w./-]+)(?:#[\w-]+)?\)", "\n".join(lines(page))):
        target = os.path.normpath(os.path.join(os.path.dirname(page), path))
        linked.add(os.path.join(target, "README.md") if os.path.isdir(target) else target)
for page in ALL_PAGES:
    if page != "README.md" and page not in linked:
        tell("orphan", page)


def prose(page):
    """The paragraphs and list items of a page, without code blocks, tables and headings."""
    text = re.sub(r"^```.*?^```$", "", "\n".join(lines(page)), flags=re.M | re.S)
    kept = [line for line in text.split("\n") if not re.match(r"\||#|>|    ", line)]
    return re.split(r"\n\s*\n|\n(?= *(?:[-*]|\d+\.) )", "\n".join(kept))


for page in ALL_PAGES:
    for paragraph in prose(page):
        plain = re.sub(r"`[^`]*`|\]\([^)]*\)", "x", " ".join(paragraph.split()))
        for sentence in re.split(r"(?<=[.?!:])\**\s+(?=[A-Z*\[`(x])", plain):
            if len(sentence.split()) > 40:
                tell("long sentence", "%s: %d words: %s" % (page, len(sentence.split()), sentence[:70]))

PRIVATE = {
    "alone": r"\balone\b", "anew": r"\banew\b", "behind": r"\bbehind\b", "beside": r"\bbeside\b", "but for": r"\bbut for\b",
    "by hand": r"\bby hand\b", "comes to": r"\b(?:comes?|came) to\b", "can be had": r"\bbe had\b", "gives up": r"\bg(?:ive|ives|iving|ave) up\b",
    "goes by": r"\b(?:go|goes|went) by\b", "hurt": r"\bhurts?\b", "in front": r"\bin front\b", "is there": r"\b(?:is|are|was|were) there\b",
    "is told": r"\b(?:is|are|was|were|be) told\b|\btells?\b", "kept": r"\bkept\b", "looked at": r"\blook(?:s|ed)? (?:at|for)\b",
    "mended": r"\bmend(?:s|ed)?\b", "room": r"\broom\b", "so many": r"\bso (?:many|much)\b", "stands": r"\bst(?:ands?|ood)\b",
    "taken away": r"\bt(?:ake|akes|aken|ook) away\b", "turned": r"\bturned\b", "want of memory": r"\bwant of memory\b",
    "wants": r"\bwant(?:s|ed)\b", "whatever": r"\b(?:what|where|who)ever\b", "words": r"\b(?:wrong|the|its|no) words\b",
}


def comments(pattern, mark):
    """What the comments of these files say, without names in backquotes."""
    paths = [path for path in sorted(glob.glob(pattern, recursive=True)) if os.path.isfile(path) and "/out/" not in path]
    found = [re.match(mark, line) for path in paths for line in lines(path)]
    return re.sub(r"`[^`\n]*`", "", "\n".join(it.group(1) for it in found if it))


# (names in backquotes are those of the source)
GROUPS = {"pages": re.sub(r"`[^`\n]*`", "", "\n".join("\n".join(lines(page)) for page in ALL_PAGES)),
          "comments": comments("crates/**/*.rt", r" *//[/!]?(.*)") + comments("crates/**/*.antt", r" *--(.*)"),
          "scripts": "\n".join("\n".join(lines(path)) for path in ["pmach", *sorted(glob.glob("script/**/*.sh", recursive=True))])
                     + comments("examples/**/*.sh", r" *#(.*)") + comments("bench/*.*", r" *#(.*)")}
numbers = {(word, group): len(re.findall(pattern, text)) for word, pattern in PRIVATE.items() for group, text in GROUPS.items()}
RECORD = "bench/private-words.txt"
if "--record" in sys.argv[1:]:
    with open(RECORD, "w", encoding="utf-8") as file:
        file.write("# How often each word of the private dialect occurs; house.py refuses more. Columns: %s\n" % ", ".join(GROUPS))
        for word in PRIVATE:
            file.write("%s: %s\n" % (word, " ".join(str(numbers[word, group]) for group in GROUPS)))
elif os.path.exists(RECORD):
    for line in lines(RECORD):
        word, _, most = line.partition(": ")
        for group, count in zip(GROUPS, most.split()) if word in PRIVATE else ():
            if numbers[word, group] > int(count):
                tell("word", '"%s" is %d times in %s, and may be there %s times' % (word, numbers[word, group], group, count))

print(", ".join("%d %s" % (count, kind) for kind, count in sorted(found.items())) or "nothing")
sys.exit(1 if found else 0)
