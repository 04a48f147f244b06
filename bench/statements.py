"""statements.py FILE.. | --random SEED COUNT | --damaged SEED COUNT FILE..: converts the statements of `pmach dis --statements` back
to instructions, using only the rules of docs/STATEMENTS.md, and compares the instructions with those of `pmach dis`.

Every procedure must appear once and in order. The heading of each procedure must state what its attribute table and its
returns state, and the lines after it must state its jump table. Each attribute table of a segment must be shown once. The text
of `dis --indent` must be the same text with the spaces of that page, and the text of `dis --blocks` must give the same text
when it is read by the rules of that page.

FILE is a code file. With --random, COUNT programs are made: of single instructions, of whole expressions and of blocks, in
turn. With --damaged, up to eight bytes of a file are changed, COUNT times. Run manually; not part of the gate. The variable
PMACH can name another program than ./pmach."""
import os
import random
import re
import subprocess
import sys

PMACH = os.environ.get("PMACH", os.path.join(os.path.dirname(os.path.abspath(__file__)), "..", "pmach"))
BINARY = {"+": ("ADI", 2), "-": ("SBI", 2), "OR": ("LOR", 2), "*": ("MPI", 3), "DIV": ("DVI", 3), "MOD": ("MODI", 3), "AND": ("LAND", 3),
          "=": ("EQUI", 1), "<>": ("NEQI", 1), "<": ("LESI", 1), "<=": ("LEQI", 1), ">": ("GRTI", 1), ">=": ("GEQI", 1)}
SETS = {"+": "UNI", "-": "DIF", "*": "INT"}
TYPED = {"=": "EQU", "<>": "NEQ", "<": "LES", "<=": "LEQ", ">": "GRT", ">=": "GEQ"}
KINDS = {"str": "STR", "bool": "BOOL", "bytes": "BYTES", "words": "WORDS", "sets": "SET", "real": "REAL"}
TOKEN = re.compile(r"""\s*(?:(CHR'.')|('(?:[^']|'')*')|("[^"]*")|(\{[^}"]*(?:"[^"]*"[^}"]*)*\})|(POP\*\d+)|(\.\.|:=|<>|<=|>=|[-+*=<>()\[\]^@,#:;.?!])|(\d+)|([A-Za-z_][A-Za-z_0-9]*))""")


def run(words, given):
    done = subprocess.run([PMACH, *words], input=given, stdout=subprocess.PIPE, stderr=subprocess.PIPE)
    return done.returncode, done.stdout.decode("latin-1")


class Reader:
    """Reads one statement: its instructions as the text of `dis` spells them."""

    def __init__(self, line, names):
        self.names, self.tokens, self.at, place = names, [], 0, 0
        while place < len(line):
            m = TOKEN.match(line, place)
            if not m:
                raise SyntaxError(line[place:])
            self.tokens.append(m.group().lstrip())
            place = m.end()

    def peek(self, more=0):
        return self.tokens[self.at + more] if self.at + more < len(self.tokens) else ""

    def next(self):
        self.at += 1
        return self.tokens[self.at - 1]

    def eat(self, word):
        if self.peek() != word:
            raise SyntaxError("%s wanted at %s of %s" % (word, self.tokens[self.at:], " ".join(self.tokens)))
        self.at += 1

    def skip(self, word):
        if self.peek() == word:
            self.at += 1
            return True
        return False

    def marks(self):
        count = 0
        while self.skip("!"):
            count += 1
        return count

    def constant(self, value, marks):
        value %= 65536
        if value > 127:
            return ["LDCI %d" % value]
        return ["LDCI %d" % value] if marks else ["SLDC %d" % value]

    # an expression gives its code, and whether it is a set
    def expression(self, strength=0):
        code, is_set = self.unary()
        while True:
            word = self.peek()
            if word == "IN" and strength <= 1:
                self.next()
                code, is_set = code + self.expression(2)[0] + ["INN"], False
            elif word in BINARY and BINARY[word][1] >= strength:
                name, own = BINARY[word]
                self.next()
                right, right_set = self.expression(own + 1)
                if is_set and right_set and word in SETS:
                    code = code + right + [SETS[word]]
                else:
                    code, is_set = code + right + [name], False
            else:
                return code, is_set

    def unary(self):
        word = self.peek()
        if word in KINDS and self.peek(1) not in (":=",):
            self.next()
            tag = KINDS[word]
            if word in ("bytes", "words"):
                self.eat("[")
                tag += " " + self.next() + "!" * self.marks()
                self.eat("]")
            a = self.expression(2)[0] if word in ("bool", "sets", "real") else self.text()
            name = TYPED[self.next()]
            b = self.expression(2)[0] if word in ("bool", "sets", "real") else self.text()
            return a + b + ["%s %s" % (name, tag)], False
        if word == "NOT":
            self.next()
            return self.expression(4)[0] + ["LNOT"], False
        if word == "-":
            self.next()
            if self.peek() == "(":
                self.next()
                code = self.expression()[0]
                self.eat(")")
                return code + ["NGI"], False
            value = -int(self.next())
            return self.constant(value, self.marks()), False
        if word in ("adj", "load"):
            self.next()
            self.eat("[")
            n = self.next() + "!" * self.marks()
            self.eat("]")
            if word == "adj":
                return self.expression(4)[0] + ["ADJ %s" % n], True
            return self.address() + ["LDM %s" % n], False
        return self.value(self.chain())

    def text(self):
        if self.peek()[:1] in ("'", '"') and self.peek(1) not in ("^", ".", "["):
            return self.literal(self.next())
        return self.address()

    def literal(self, word):
        inside = word[1:-1]
        if word[0] == '"':
            return ['LPA "%s"' % inside]
        return ['LSA "%s"' % inside.replace("''", "'").replace('"', "\\22")]

    def arguments(self):
        code = []
        if self.peek() == "(" and self.peek(1) == "?": # it is not known what the call takes
            self.at += 2
            self.eat(")")
        elif self.skip("("):
            while True:
                code += self.expression()[0]
                if self.skip(".."):
                    continue
                if not self.skip(","):
                    break
            self.eat(")")
        return code

    def variable(self, word):
        m = re.fullmatch(r"(param|local|global)(\d+)", word)
        if m:
            return ("G" if m[1] == "global" else "L", None, int(m[2]), self.marks())
        m = re.fullmatch(r"up(\d+)_(\d+)", word)
        return ("U", int(m[1]), int(m[2]), self.marks()) if m else None

    def load(self, v, store=False):
        scope, links, n, marks = v
        if scope == "U":
            return ["%s %d, %d%s" % ("STR" if store else "LOD", links, n, "!" * marks)]
        if store:
            return ["%s %d%s" % ("STL" if scope == "L" else "SRO", n, "!" * marks)]
        letter = "L" if scope == "L" else "O"
        if 1 <= n <= 16:
            return ["SLD%s %d" % (letter, n)] if marks == 0 else ["LD%s %d%s" % (letter, n, "!" * (marks - 1))]
        return ["LD%s %d%s" % (letter, n, "!" * marks)]

    def lend(self, v):
        scope, links, n, marks = v
        if scope == "U":
            return ["LDA %d, %d%s" % (links, n, "!" * marks)]
        return ["%s %d%s" % ("LLA" if scope == "L" else "LAO", n, "!" * marks)]

    def primary(self):
        word = self.next()
        if word[0] in "'\"":
            return "e", (self.literal(word), False)
        if word[0] == "{":
            return "e", (self.arguments() + [word[1:-1]], False)
        if word == "(":
            inside = self.expression()
            self.eat(")")
            return "e", inside
        if word == "@":
            return "e", (self.address(), False)
        if word == "[":
            return "e", (self.bracketed(), True)
        if word.startswith("CHR'"):
            return "e", (self.constant(ord(word[4]), 0), False)
        if word.isdigit():
            return "e", (self.constant(int(word), self.marks()), False)
        if word == "NIL":
            return "e", (["LDCN"], False)
        if word == "POP":
            return "e", ([], self.skip("SET"))
        if word.startswith("POP*"):
            return "e", ([], False)
        if word in ("ABS", "SQR"):
            return "e", (self.arguments() + [{"ABS": "ABI", "SQR": "SQI"}[word]], False)
        if word == "CHECK":
            return "e", (self.arguments() + ["CHK"], False)
        if word == "SET":
            return "e", (self.arguments(), True)
        v = self.variable(word)
        if v:
            return "v", v
        if word in self.names:
            return "e", (self.arguments() + [self.names[word]], False)
        m = re.fullmatch(r"(CXP|CLP|CGP|CBP|CIP|CSP)((?:_\d+)+)", word)
        if m:
            return "e", (self.arguments() + [m[1] + " " + ", ".join(m[2][1:].split("_"))], False)
        raise SyntaxError("%s in %s" % (word, " ".join(self.tokens)))

    def bracketed(self):
        """A set after its bracket: the instructions that make it from operands, or a constant with its members."""
        items, plain = [], True
        while self.peek() != "]":
            ends = []
            while True:
                before = self.at
                ends.append(self.expression()[0])
                own = self.tokens[before : self.at]
                plain = plain and (own[0].isdigit() and len(own) == 1 or own[0] == "-" and len(own) == 2 and own[1].isdigit())
                if not self.skip(".."):
                    break
            items.append(ends)
            if not self.skip(","):
                break
        self.eat("]")
        if items and (not plain or self.skip("!")):
            (ends,) = items
            return sum(ends, []) + [{1: "SGS", 2: "SRS"}[len(ends)]]
        members = set()
        for ends in items:
            first, last = (int(end[0].split()[1]) for end in (ends[0], ends[-1]))
            members |= set(range(first, last + 1))
        count = max(members) // 16 + 1 if members else 0
        if self.skip("#"):
            count = int(self.next())
        words = [sum(1 << bit for bit in range(16) if 16 * k + bit in members) for k in range(count)]
        if count < 2:
            return [code for n in words + [count] for code in self.constant(n, 0)]
        return ["LDC " + ", ".join(str(word) for word in reversed(words))] + self.constant(count, 0)

    def chain(self):
        """A primary and what follows it: a value, or a variable with the code of its address."""
        state = self.primary()
        while True:
            word = self.peek()
            if word == "^":
                self.next()
                state = ("d", self.value(state)[0])
            elif word == "." and self.peek(1).isdigit():
                self.next()
                n = self.next()
                state = ("i", self.base(state), n, self.marks())
            elif word == "[" and (state[0] in "vdix" or self.is_literal(state)):
                self.next()
                code, b = self.base(state), "1"
                code = code + self.expression()[0]
                if self.skip(":"):
                    b = self.next() + "!" * self.marks()
                self.eat("]")
                state = ("x", code + ["IXA %s" % b])
            elif word == "." and self.peek(1) in ("byte", "char", "packed", "bits"):
                self.next()
                kind = self.next()
                code = self.base(state)
                self.eat("[")
                code = code + self.expression()[0]
                if kind in ("byte", "char"):
                    state = ("t", code + (["IXS"] if kind == "char" else []), "LDB", "STB")
                elif kind == "bits":
                    self.eat(":")
                    state = ("t", code + self.expression()[0], "LDP", "STP")
                else:
                    self.eat(":")
                    n = self.next()
                    self.eat("of")
                    state = ("t", code + ["IXP %s, %s" % (n, self.next())], "LDP", "STP")
                    self.eat("bits")
                self.eat("]")
            else:
                return state

    @staticmethod
    def is_literal(state):
        return state[0] == "e" and len(state[1][0]) == 1 and state[1][0][0][:4] in ("LSA ", "LPA ")

    def base(self, state):
        """The code of the address of a place."""
        kind = state[0]
        if self.is_literal(state):
            return state[1][0]
        if kind == "v":
            return self.lend(state[1])
        if kind in "dx":
            return state[1]
        if kind == "i":
            return state[1] + ["INC %s%s" % (state[2], "!" * state[3])]
        if kind == "t" and state[1][-1].split()[0] in ("IXS", "IXP"):
            return state[1]
        raise SyntaxError("no place: %s in %s" % (state, " ".join(self.tokens)))

    def value(self, state):
        kind = state[0]
        if kind == "v":
            return self.load(state[1]), False
        if kind == "e":
            return state[1]
        if kind in "dx":
            return state[1] + ["SIND 0"], False
        if kind == "t":
            return state[1] + [state[2]], False
        n, marks = state[2], state[3]
        if int(n) < 8 and marks == 0:
            return state[1] + ["SIND %s" % n], False
        return state[1] + ["IND %s%s" % (n, "!" * (marks - 1 if int(n) < 8 else marks))], False

    def address(self):
        return self.base(self.chain())

    def target(self):
        return "^" + self.next() if self.skip("^") else self.next()

    def statement(self):
        word = self.peek()
        if word == "PUSH":
            self.next()
            return self.expression()[0]
        if word == "GOTO":
            self.next()
            return ["UJP " + self.target()]
        if word == "IF":
            self.next()
            if self.peek() == "NOT" and self.peek(1) == "(":
                begun = self.at
                self.at += 2
                code = self.expression()[0]
                self.eat(")")
                if self.skip("GOTO"):
                    return code + ["FJP " + self.target()]
                self.at = begun # NOT of the left one of two
            a = self.expression(2)[0]
            sign = self.next()
            b = self.expression(2)[0]
            self.eat("GOTO")
            return a + b + [("EFJ " if sign == "<>" else "NFJ ") + self.target()]
        if word == "CASE":
            return self.case()
        if word == "RETURN":
            self.next()
            name = "RNP"
            if self.skip("FROM"):
                self.eat("BASE")
                name = "RBP"
            return ["%s %s" % (name, self.next() if self.peek().isdigit() else "0")]
        state = None if word in ("adj", "load") or word in KINDS else self.chain()
        if state is None:
            return self.expression()[0]
        if self.skip(":="):
            return self.stored(state)
        code = self.value(state)[0]
        if self.at != len(self.tokens): # the first operand of an operator
            self.at = 0
            return self.expression()[0]
        return code

    def stored(self, state):
        word = self.peek()
        if word in ("move", "string") and self.peek(1) == "[":
            self.next()
            self.next()
            n = self.next() + "!" * self.marks()
            self.eat("]")
            source = self.text() if word == "move" or self.peek()[:1] in ("'", '"') else self.source()
            return self.base(state) + source + ["%s %s" % ("MOV" if word == "move" else "SAS", n)]
        if word == "[" and re.fullmatch(r"\d+", self.peek(1)) and self.is_multiple():
            self.next()
            n = self.next() + "!" * self.marks()
            self.eat("]")
            return self.base(state) + self.expression()[0] + ["STM %s" % n]
        if state[0] == "v":
            return self.expression()[0] + self.load(state[1], True)
        if state[0] == "t":
            return state[1] + self.expression()[0] + [state[3]]
        return self.base(state) + self.expression()[0] + ["STO"]

    def source(self):
        """What a string is given of: a place, or the value of an address."""
        return self.address()

    def is_multiple(self):
        return getattr(self, "multiple", False)

    def case(self):
        self.next()
        code = self.expression()[0]
        self.eat("OF")
        if self.peek()[0] == "{":
            bounds = self.next()[1:-1]
            self.eat("ELSE")
            return code + ["XJP %s, %s" % (bounds, self.target())]
        numbers, labels = [], []
        while self.peek() != "ELSE":
            sign = -1 if self.skip("-") else 1
            numbers.append(sign * int(self.next()))
            self.eat(":")
            labels.append(self.next())
            self.skip(";")
        self.eat("ELSE")
        return code + ["XJP %d, %d, %s" % (numbers[0], numbers[-1], ", ".join([self.target()] + labels))]


def back(line, names):
    reader = Reader(line.replace("unload a segment", "UNLOADSEGMENT").replace("load a segment", "LOADSEGMENT"), names)
    reader.multiple = ":=[" in line
    code = reader.statement()
    if reader.at != len(reader.tokens):
        raise SyntaxError("left over: " + " ".join(reader.tokens[reader.at:]))
    return code


def depths(lines, entries, end):
    """The depth of each statement of a procedure, by the rules of the page: the spans in the order of their beginnings, each if it is within those that
    count and go on there. The lines are offsets and texts, the entries places, and the end is where the code ends."""
    spans, loops = [], {}
    for k, (at, text) in enumerate(lines):
        behind = lines[k + 1][0] if k + 1 < len(lines) else end
        m = re.search(r"(^|IF .* )GOTO (?:L(\d{5})|\^(\d+))$", text) or re.match(r"\{(UJP|FJP|EFJ|NFJ) (?:L(\d{5})|\^(\d+))\}", text)
        if not m or (m[3] and int(m[3]) >= len(entries)):
            continue
        place = int(m[2]) if m[2] else entries[int(m[3])]
        if place > behind:
            spans.append((behind, 0, place))
        elif m[1] not in ("", "UJP") and place <= at:
            loops[place] = behind
    spans += [(place, 1, behind) for place, behind in loops.items()]
    counted = []
    for begin, _, end in sorted(spans):
        if begin in {at for at, _ in lines} and all(end <= other[1] for other in counted if other[0] <= begin < other[1]):
            counted.append((begin, end))
    return [min(30, sum(begin <= at < end for begin, end in counted)) for at, _ in lines]


def indented(text, flat, places):
    """How many procedures of the text of `dis --indent` are not that of `dis --statements` with the depths of the page."""
    bad = 0 if re.sub(r"(?m)^(\d{5} ) *", r"\1", text) == flat else 1
    for code in re.split(r"(?m)^(?=PROCEDURE )", text)[1:]:
        m = re.match(r"PROCEDURE (\d+) OF SEGMENT (\d+): level", code)
        if not m:
            continue
        shown = [(int(l[1]), l[2], l[3]) for l in re.finditer(r"(?m)^(\d{5}) ( *)(.*)$", code)]
        labels = [int(l) for l in re.findall(r"(?m)^L(\d{5}):$", code)]
        lines = [(at, re.sub(r" IOCHECK$", "", line)) for at, _, line in shown]
        end = max(labels) if labels and lines and max(labels) > lines[-1][0] else 1 << 30
        if [len(blanks) for _, blanks, _ in shown] != [2 * d for d in depths(lines, places[m[2], m[1]], end)]:
            bad += 1
            print("depths of procedure %s of segment %s" % m.groups())
    return bad


def flat_again(code):
    """The lines of a procedure of `dis --blocks` as the flat text has them: each statement, and where the jump of a word leads. None, where the words
    do not close each other, or a line is not as deep as they say."""
    shown, opened = [], []
    lines = [l for l in code.split("\n") if re.match(r"\d{5} |      ", l)]
    offsets = [int(l[:5]) for l in lines if l[0] != " "] + [None]
    done = 0 # statements
    for line in lines:
        text, at = line[6:].lstrip(" "), offsets[done]
        depth = (len(line) - 6 - len(text)) // 2
        word = next((w for w, end in (("IF", " THEN"), ("WHILE", " DO"), ("UNTIL", "")) if text.startswith(w + " ") and text.endswith(end)
                     and not re.search(r"GOTO (L\d{5}|\^\d+)$", text)), None)
        word = word or (text if text in ("ELSE", "END", "REPEAT", "CASE", "LEAVE") else None)
        if text.startswith("END CASE "):
            word = "END CASE"
        if line[0] == " ":
            if word == "END" and opened and opened[-1][0] in ("IF", "ELSE"):
                shown[opened.pop()[1]][2] = at
            elif word != "REPEAT":
                return None
            if depth != min(30, len(opened)):
                return None
            if word == "REPEAT":
                opened.append(("REPEAT", at))
            continue
        done += 1
        here, behind = [at, text, None], offsets[done]
        if word in ("IF", "WHILE"):
            here[1] = text[len(word) + 1 : -5 if word == "IF" else -3]
        elif word == "UNTIL":
            if not opened or opened[-1][0] != "REPEAT":
                return None
            here[1:] = [text[6:], opened.pop()[1]]
        elif word == "ELSE":
            if not opened or opened[-1][0] != "IF":
                return None
            shown[opened.pop()[1]][2] = behind
            here[1] = ""
        elif word == "END":
            if not opened or opened[-1][0] != "WHILE":
                return None
            where = opened.pop()[1]
            shown[where][2], here[1:] = behind, ["", shown[where][0]]
        elif word == "LEAVE":
            if not opened or opened[-1][0] != "CASE":
                return None
            here[1] = ""
            shown[opened[-1][1]][-1].append(here)
        elif word == "END CASE":
            if not opened or opened[-1][0] != "CASE":
                return None
            where = shown[opened.pop()[1]]
            where[2], here[1] = at, text[4:]
            for jump in where.pop():
                jump[2] = behind
            word = None
        if depth != min(30, len(opened)):
            return None
        if word in ("IF", "WHILE", "ELSE", "CASE"):
            opened.append((word, len(shown)))
        here.append(word)
        if word == "CASE":
            here[1] = ""
            here.append([])
        shown.append(here)
    return None if opened else shown


def named(code):
    """The labels that a text of a procedure names: by its jump table, a CASE, a GOTO or a jump in braces."""
    found = set()
    for line in re.findall(r"(?m)^(?:\d{5} |\^).*$", code):
        for m in TOKEN.finditer(line):
            token = m.group().lstrip()
            if re.match(r"L\d{5}$|\{(?:UJP|FJP|EFJ|NFJ|XJP) ", token):
                found.update(re.findall(r"L\d{5}", token))
    return found


def blocked(text, flat, places):
    """How many procedures of the text of `dis --blocks` are not those of `dis --statements`."""
    bad = 0
    for code, plain in zip(*[re.split(r"(?m)^(?=PROCEDURE )", t)[1:] for t in (text, flat)]):
        m = re.match(r"PROCEDURE (\d+) OF SEGMENT (\d+): level", code)
        left_out = {l + ":" for l in re.findall(r"(?m)^(L\d{5}):$", plain)} - {l + ":" for l in named(code)}
        rest = [[l for l in t.split("\n") if not re.match(r"\d{5} |      ", l)] for t in (code, plain)]
        rest[1] = [l for l in rest[1] if l not in left_out]
        shown = flat_again(code) if m else []
        told = [[int(l[1]), l[2]] for l in re.finditer(r"(?m)^(\d{5}) (.*)$", plain)]
        right = shown is not None and rest[0] == rest[1] and len(shown) == len(told)
        for (at, words, place, word), (offset, line) in zip(shown or [], told) if right else []:
            right = right and at == offset
            if word is None:
                right = right and words == line
                continue
            jump = re.fullmatch(r"(.*)GOTO (?:L(\d{5})|\^(\d+))", line)
            leads = jump and (int(jump[2]) if jump[2] else places[m[2], m[1]][int(jump[3])])
            wanted = {"IF NOT (%s) " % words, "IF %s " % words[5:-1] if words[:5] == "NOT (" and words[-1:] == ")" else ""}
            right = bool(right and jump and (leads == place or place is None and leads > at) and (jump[1] in wanted if words else jump[1] == ""))
        if not right:
            bad += 1
            print("blocks of %s" % code.split("\n")[0])
    return bad


def table_place(data, slot, number):
    """Where the dictionary of a slot's segment leads by a number."""
    block, length = (int.from_bytes(data[at : at + 2], "little") for at in (4 * slot, 4 * slot + 2))
    at = length - 2 * number - 2
    return at - int.from_bytes(data[512 * block + at : 512 * block + at + 2], "little")


def compared(data, told):
    """How many statements of a code file are read back, and how many are not."""
    status, text = run(["dis"], data)
    if status:
        return 0, 0
    names = {}
    for line in run(["dis", "--names"], data)[1].splitlines():
        m = re.match(r"  (CSP \d+|CXP 0, \d+) ; (.*)$", line)
        if m:
            names[{"load a segment": "LOADSEGMENT", "unload a segment": "UNLOADSEGMENT"}.get(m[2], m[2])] = m[1]
    wanted, segment, sizes, places = {}, None, {}, {}
    for line in text.split("\n"):
        if line.startswith(".SEG"):
            segment = line.split()[1]
        elif line.startswith(".PROC"):
            key = (segment, line.split()[1])
            key = (*key, sum(k[:2] == key for k in wanted))
            wanted[key] = []
            places[key[:2]] = []
            sizes[key] = [int(word) for word in line.split()[2:5]]
        elif line.startswith(".JUMP "):
            places[key[:2]].append(int(line[7:]))
        elif line.startswith("  "):
            wanted[key].append(line[2:])
    shown, key, headings, tables, counts, leads, wrong = {}, None, {}, {}, {}, {}, []
    flat = run(["dis", "--statements"], data)[1]
    for line in flat.split("\n"):
        front = re.match(r"PROCEDURE (\d+) OF SEGMENT (\d+): ", line)
        m = re.fullmatch(r"PROCEDURE (\d+) OF SEGMENT (\d+): level (-?\d+), (\d+) bytes of parameters, (\d+) of locals(?:, (\d+) of result)?", line)
        if front:
            number = counts[front[2]] = counts.get(front[2], 0) + 1
            place = (front[2], table_place(data, int(front[2]), number))
            named_alone = "PROCEDURE %d OF SEGMENT %s: " % (number, front[2])
            key = (front[2], leads[place][0] if place in leads else front[1])
            key = (*key, sum(k[:2] == key for k in shown))
        if front and place in leads:
            # an earlier number of the segment refers to this table, whose text is printed once
            if line != named_alone + "shown above as PROCEDURE %s" % leads[place][0]:
                wrong.append(line)
            first = leads[place][1]
            if first:
                shown[key], tables[key], headings[key] = list(shown[first]), tables[first], headings[first]
        elif m:
            leads[place] = (m[1], key)
            shown[key] = []
            tables[key] = []
            headings[key] = [None if n is None else int(n) for n in m.groups()[2:]]
        elif front and line == front[0] + "no code":
            leads[place] = (front[1], None)
        elif front:
            if line != named_alone + "no table":
                wrong.append(line)
        elif re.match(r"\d{5} ", line):
            shown[key].append(line[6:])
        elif re.fullmatch(r"\^%d L\d{5}" % len(tables.get(key, [])), line) and not shown[key]:
            tables[key].append(int(line[-5:]))
    if wanted.keys() != shown.keys():
        print("procedures differ: %s" % (wanted.keys() ^ shown.keys()))
        return 0, 1
    good, bad = 0, indented(run(["dis", "--indent"], data)[1], flat, places) + blocked(run(["dis", "--blocks"], data)[1], flat, places)
    bad += len(wrong)
    for line in wrong:
        print("the line of a number is %s" % line)
    for key, table in tables.items():
        if table != places[key[:2]]:
            bad += 1
            print("the jump table of %s is %s" % (key, table))
    for key, heading in headings.items():
        returned = {int(code.split()[1]) for code in wanted[key] if code[:4] in ("RNP ", "RBP ")}
        if heading != sizes[key] + [2 * returned.pop() if len(returned) == 1 else None]:
            bad += 1
            print("the heading of %s is %s" % (key, heading))
    for key, lines in shown.items():
        code = []
        for line in lines:
            check = line.endswith(" IOCHECK")
            try:
                own = back(line[: -len(" IOCHECK")] if check else line, names) + (["CSP 0"] if check else [])
            except Exception as fault:
                own = [repr(fault)]
            if own != wanted[key][len(code) : len(code) + len(own)]:
                bad += 1
                if told[0] < 20:
                    told[0] += 1
                    print(line, "\n  wanted", wanted[key][len(code) : len(code) + max(len(own), 4)], "\n  read  ", own)
                break
            code += own
            good += 1
        else:
            if code != wanted[key]:
                bad += 1
                print("procedure %s has %d instructions, its statements %d" % (key, len(wanted[key]), len(code)))
    return good, bad


def programs(seed, count):
    """Random texts of the assembler: single instructions, and whole statements, by turns."""
    R = random.Random(seed)
    byte = lambda: R.choice([0, 1, 2, 3, 8, 16, R.randrange(256)])

    def big():
        n = R.choice([0, 1, 2, 3, 7, 8, 16, 17, R.randrange(128), R.randrange(32768)])
        return "%d!" % n if n < 128 and R.random() < 0.1 else "%d" % n

    word = lambda: R.choice([0, 1, 65535, 32768, R.randrange(65536), R.randrange(200)])
    text = lambda: '"' + "".join(R.choice(["a", "b", "'", " ", "\\22", "\\0d", ";", ",", "{", "}", "(", "Z", "\\5c"]) for _ in range(R.randrange(6))) + '"'
    plain = ("ABI ADI LAND DIF DVI CHK INN INT LOR MODI MPI NGI LNOT SRS SBI SGS SQI STO IXS UNI LDCN LDP STP LDB STB EQUI GEQI GRTI LEQI LESI NEQI "
             "XIT NOP FLT ADR FLO").split()
    typed = ["EQU", "NEQ", "LES", "LEQ", "GRT", "GEQ"]

    def single():
        k = R.randrange(30)
        if k < 9:
            return R.choice(plain)
        if k < 13:
            return R.choice(["SLDC %d" % R.randrange(128), "SLDL %d" % R.randrange(1, 17), "SLDO %d" % R.randrange(1, 17), "SIND %d" % R.randrange(8), "LDCI %d" % word()])
        if k < 17:
            return R.choice(["LAO", "LDO", "SRO", "LLA", "LDL", "STL", "INC", "IND", "IXA", "MOV"]) + " " + big()
        if k < 19:
            return R.choice(["LDA", "LOD", "STR"]) + " %d, %s" % (byte(), big())
        if k < 21:
            return R.choice(["LSA", "LPA"]) + " " + text()
        if k == 21:
            return "LDC " + ", ".join(str(word()) for _ in range(R.randrange(1, 6)))
        if k == 22:
            return R.choice(["ADJ", "SAS", "LDM", "STM", "CSP"]) + " %d" % byte()
        if k == 23:
            return R.choice(typed) + " " + R.choice(["REAL", "STR", "BOOL", "SET", "SET", "BYTES " + big(), "WORDS " + big()])
        if k == 24:
            return "IXP %d, %d" % (byte(), byte())
        if k == 25:
            return R.choice(["CXP 0, %d" % R.randrange(40), "CXP 2, %d" % R.randrange(4), "CLP %d" % R.randrange(1, 4), "CGP %d" % R.randrange(1, 4), "CIP %d" % R.randrange(1, 4), "CBP %d" % R.randrange(1, 4), "CSP %d" % R.randrange(42)])
        if k == 26:
            return R.choice(["RNP", "RBP"]) + " %d" % R.randrange(3)
        if k == 27:
            return R.choice(["FJP", "UJP", "EFJ", "NFJ"]) + R.choice([" last", " ^0", " ^1"])
        if k == 28:
            return R.choice(["XJP 1, 2, last, here, last", "XJP -1, 1, ^0, here, here, last", "XJP 5, 4, last", "LDE 1, %s" % big(), "LAE 1, 2", "STE 3, 4", "BPT 3", "DVR"])
        return R.choice(["SLDC %d" % R.randrange(5), ".BYTE 210"])

    def expression(d):
        if d == 0:
            return [R.choice(["SLDC %d" % R.randrange(128), "SLDL %d" % R.randrange(1, 17), "SLDO %d" % R.randrange(1, 17), "LDCI %d" % word(), "LLA " + big(), "LAO " + big(), "LOD %d, %s" % (R.randrange(4), big()), "LDCN", "LSA " + text(), "LPA " + text()])]
        k = R.randrange(16)
        e = lambda: expression(R.randrange(d))
        if k < 4:
            return e() + e() + [R.choice([name for name, _ in BINARY.values()])]
        if k == 4:
            return e() + [R.choice(["ABI", "NGI", "LNOT", "SQI"])]
        if k < 7:
            return e() + [R.choice(["IND " + big(), "SIND %d" % R.randrange(8), "INC " + big()])]
        if k == 7:
            return e() + e() + ["IXA " + big()]
        if k == 8:
            return e() + e() + R.choice([[], ["IXS"]]) + ["LDB"]
        if k == 9:
            return e() + e() + R.choice([["IXP 8, 2"], e()]) + ["LDP"]
        if k == 10 and R.random() < 0.5:
            return R.choice([e() + e() + ["LDB"] + a_number(), a_number() + e() + e() + ["IXS", "LDB"]]) + [R.choice(list(BINARY.values()))[0]]
        if k == 10:
            return a_set(d) + a_set(d) + [R.choice(["EQU SET", "LEQ SET", "GEQ SET", "NEQ SET"])]
        if k == 11:
            return e() + a_set(d) + ["INN"]
        if k == 12:
            return e() + e() + [R.choice(typed) + " " + R.choice(["STR", "BOOL", "BYTES " + big(), "WORDS " + big()])]
        if k == 13:
            return e() + e() + e() + ["CHK"]
        if k == 14:
            return e() + ["SLDC 0", "SLDC 0", "CLP 2"]
        return e() + ["CSP 35"]

    def a_number():
        n = R.choice([R.randrange(128), R.randrange(32, 128), 39, 92])
        return ["SLDC %d" % n if R.random() < 0.8 else "LDCI %d" % n]

    def a_set(d):
        if d == 0:
            return R.choice([["SLDC 0"], ["SLDC %d" % R.randrange(128), "SLDC 1"], ["LDCI %d" % R.randrange(128, 65536), "SLDC 1"], ["LDC " + ", ".join(str(word()) for _ in range(3)), "SLDC 3"], ["LAO 5", "LDM 4", "SLDC 4"], ["LDC 5", "SLDC 1"], ["SLDC 0", "SLDC 1"],
                             ["LDC 0, %d" % word(), "SLDC 2"], ["LDC %d, 0, 65535, %d" % (word(), word()), "SLDC 4"], ["LDC 1, 2", "LDCI 2"], ["LDCI 5", "SLDC 1"],
                             ["SLDC %d" % R.randrange(128), "SGS"], ["SLDC 1", "SLDC %d" % R.randrange(128), "SRS"], ["SLDC 3", "SLDC 4", "SLDC 2"]])
        k = R.randrange(6)
        if k < 3:
            return a_set(R.randrange(d)) + a_set(R.randrange(d)) + [R.choice(["UNI", "DIF", "INT"])]
        if k == 3:
            return expression(R.randrange(d)) + ["SGS"]
        if k == 4:
            return expression(R.randrange(d)) + expression(R.randrange(d)) + ["SRS"]
        return expression(R.randrange(d)) + ["LDM 2", "SLDC 2"]

    def whole():
        e = lambda: expression(R.randrange(5))
        k = R.randrange(14)
        if k < 3:
            return e() + [["STL " + big()], ["SRO " + big()], ["STR %d, %s" % (byte(), big())]][k]
        if k == 3:
            return e() + e() + ["STO"]
        if k == 4:
            return e() + e() + R.choice([[], ["IXS"]]) + R.choice([e(), a_number()]) + ["STB"]
        if k == 5:
            return e() + e() + R.choice([["IXP 8, 2"], e()]) + e() + ["STP"]
        if k == 6:
            return e() + e() + ["MOV " + big()]
        if k == 7:
            return e() + e() + ["SAS %d" % byte()]
        if k == 8:
            n = R.randrange(1, 6)
            return e() + a_set(3) + ["ADJ %d" % n, "STM %d" % n]
        if k == 9:
            return e() + [R.choice(["FJP last", "FJP ^0"])]
        if k == 10:
            return e() + e() + [R.choice(["EFJ last", "NFJ ^1"])]
        if k == 11:
            return e() + ["XJP 1, 2, last, here, last"]
        if k == 12:
            return e() + e() + ["SLDC 0", "SLDC 0", "CLP 2", "CSP 9"]
        return e() + ["LDM 3"]

    labels = iter(range(1 << 40))

    def within(d):
        """Statements in blocks as the compiler makes them, and now and then a jump out of one."""
        if d == 0:
            return R.choice([["SLDC 1", "SRO 2"], ["SLDO 2", "STL 1"], ["CLP 3"], ["UJP last"], ["SLDO 1", "FJP last"]])
        n, body = next(labels), lambda: within(d - 1) + (within(0) if R.random() < 0.3 else [])
        value = ["SLDO %d" % R.randrange(1, 17)]
        k = R.randrange(6)
        if k == 0:
            return value + ["FJP o%d" % n] + body() + ["o%d:" % n]
        if k == 1:
            return value + ["FJP s%d" % n] + body() + ["UJP o%d" % n, "s%d:" % n] + body() + ["o%d:" % n]
        arms, otherwise = R.randrange(4), R.random() < 0.5
        code = value + ["UJP x%d" % n]
        for arm in range(arms + otherwise):
            code += ["a%d_%d:" % (n, arm)] + body() + (["UJP o%d" % n] if R.random() < 0.9 else [])
        table = ["a%d_%d" % (n, R.randrange(arms)) for _ in range(R.randrange(1, 5))] if arms else []
        low = R.choice([0, 1, -1, 32767 - len(table)])
        code += ["x%d:" % n, "XJP " + ", ".join([str(low), str(low + len(table) - 1), "a%d_%d" % (n, arms) if otherwise else "o%d" % n] + table)]
        return code + (["NOP"] if R.random() < 0.1 else []) + ["o%d:" % n]

    tail = ".JUMP here\n.JUMP last\n.END\n.PROC 2 1 6 4\n NOP\n.EXIT\n RNP 1\n NOP\n.END\n.PROC 3 1 2 4\n.EXIT\n RNP 0\n.END\n"
    ends = [tail, ".JUMP here\n" + tail[tail.index(".END"):], tail[tail.index(".END"):]]
    for number in range(count):
        body = []
        while number % 3 == 2 and (not body or R.random() < 0.6):
            body += within(R.randrange(1, 4))
        if body and R.random() < 0.5:
            body = ["SLDO 1", "FJP last"] + body + ["UJP ^0"]
        while number % 3 < 2 and len(body) < 28:
            body += whole() if number % 3 else [single()]
        source = ".SEG 1 R\n.PROC 1 0 4 40\nhere:\n" + "".join("  %s\n" % line for line in body) + "last:\n.EXIT\n  RBP 0\n"
        for pad in ("", "  NOP\n"):
            made = [run_bytes(source + pad + end) for end in ends]
            made = [code for code in made if code]
            if made:
                yield made[0]
                break


def damaged(seed, count, paths):
    """Code files with some changed bytes after the dictionary."""
    R = random.Random(seed)
    files = [open(path, "rb").read() for path in paths]
    for _ in range(count):
        data = bytearray(R.choice(files))
        for _ in range(R.randrange(1, 9)):
            data[R.randrange(512, len(data))] = R.randrange(256)
        yield bytes(data)


def run_bytes(text):
    done = subprocess.run([PMACH, "asm"], input=text.encode("latin-1"), stdout=subprocess.PIPE, stderr=subprocess.DEVNULL)
    return done.stdout if done.returncode == 0 else None


def main():
    if not sys.argv[1:]:
        sys.exit(__doc__)
    if sys.argv[1] == "--random":
        files = programs(int(sys.argv[2]), int(sys.argv[3]))
    elif sys.argv[1] == "--damaged":
        files = damaged(int(sys.argv[2]), int(sys.argv[3]), sys.argv[4:])
    else:
        files = (open(path, "rb").read() for path in sys.argv[1:])
    told, total = [0], [0, 0, 0]
    for data in files:
        good, bad = compared(data, told)
        total = [total[0] + good, total[1] + bad, total[2] + 1]
    print("%d statements of %d files read back, %d not" % (total[0], total[2], total[1]))
    sys.exit(total[1] != 0)


main()
