"""cases.py: the list of cases of bare code, from which make.py generates bare.txt.

A case is a name and assembler items, separated by `;`. make.py appends `XIT`, which ends the program if it gets so far.
Loops generate cases that differ in one word. The programs of code files are separate texts in the folder programs/."""

ORDERED = ["EQU", "GEQ", "GRT", "LEQ", "LES", "NEQ"]
bare = []


def case(name, *items):
    bare.append((name, "; ".join(items)))


def cases(text):
    """Reads cases: a line with `;` at its start names a case, and the following lines are its items."""
    for block in text.strip().split("\n; "):
        name, _, items = block.partition("\n")
        case(name.removeprefix("; "), " ".join(items.split()))


# ---- cases without an error

cases(r"""
; constants of the code
LDCN; LDCI 0; LDCI -1; LDCI 32768; LDC; LDC 1; LDC 1, 2, 65535; LSA ""; LSA "abc"; LPA ""; LPA "abc"; NOP; BPT 0; BPT
5!; BPT 300
; absolute value, negation, square
SLDC 7; ABI; LDCI -7; ABI; LDCI 32768; ABI; NGI; SLDC 7; NGI; SLDC 9; SQI; LDCI 300; SQI
; sums, differences, products
SLDC 3; SLDC 4; ADI; LDCI 65535; SLDC 2; ADI; SLDC 3; SLDC 4; SBI; LDCI 300; LDCI 300; MPI; LDCI -3; SLDC 4; MPI
; bits
LDCI 12; LDCI 10; LAND; LDCI 12; LDCI 10; LOR; LDCI 12; LNOT; LDCI -1; LNOT
; a value in its bounds
SLDC 5; SLDC 1; SLDC 9; CHK; LDCI -5; LDCI -9; SLDC 0; CHK
; variables: their addresses
LAO 1; LAO 16; LAO 5!; LAO 200; LLA 1; LLA 300; LDA 0, 1; LDA 1, 2; LDA 9, 5!
; variables stored and loaded
SLDC 11; SRO 1; SLDC 12; STL 2; SLDC 13; STR 1, 3; SLDC 14; SRO 4!; SLDC 15; STL 5!; LDO 1; LDO 2!; LDL 3; LDL 4!; LOD
0, 5; LOD 2, 5!
; words moved
LDCI 2000; LDC 1, 2, 3; STM 3; LDCI 2010; LDCI 2000; MOV 3; LDCI 2010; LDM 3; LDCI 2002; LDCI 2000; MOV 3!; LDCI 2000;
LDM 4; LDCI 2000; LDM 0; LDCI 2000; STM 0; LDCI 2000; LDCI 2000; MOV 0
; bytes
LDCI 2000; SLDC 3; SLDC 65; STB; LDCI 2000; SLDC 3; LDB; LDCI 2000; LDCI -1; LDCI 511; STB; LDCI 1999; SLDC 0; LDB;
LDCI 2000; IND 1
; fields of words
LDCI 2000; LDCI -1; STO; LDCI 2000; SLDC 5; IXP 3, 5; LDCI 7; STP; LDCI 2000; SLDC 5; IXP 3, 5; LDP; LDCI 2000; SLDC
4; SLDC 8; LDCI 170; STP; LDCI 2000; SLDC 16; SLDC 0; LDP
; strings
LDCI 2000; LSA "hello"; SAS 10; LDCI 2000; SLDC 5; IXS; LDB; LDCI 2000; SLDC 65; SAS 1; LDCI 2000; SLDC 0; IXS
; sets made
SLDC 5; SGS; LDCI 20; SGS; SLDC 3; LDCI 18; SRS; SLDC 5; SLDC 3; SRS
; sets joined and parted
SLDC 5; SGS; LDCI 20; SGS; UNI; SLDC 3; LDCI 18; SRS; INT; SLDC 5; SGS; LDCI 20; SGS; DIF; LDCI 20; SGS; SLDC 5; SGS;
INT
; elements of sets
SLDC 5; SLDC 3; LDCI 18; SRS; INN; SLDC 2; SLDC 3; LDCI 18; SRS; INN; LDCI -1; SLDC 3; SGS; INN; LDCI 4000; SLDC 3;
SGS; INN
; sets in words
LDCI 20; SGS; ADJ 1; LDCI 20; SGS; ADJ 3; SLDC 0; ADJ 2; SLDC 0; ADJ 0
; jumps forward, taken and not
SLDC 1; FJP one; SLDC 0; FJP one; SLDC 9; one: SLDC 2; SLDC 3; EFJ two; SLDC 9; two: SLDC 2; SLDC 2; EFJ two2; two2:
SLDC 2; SLDC 2; NFJ three; SLDC 9; three: SLDC 2; SLDC 3; NFJ four; four: UJP five; SLDC 9; five: XIT
; jumps by a table
SLDC 2; XJP 1, 3, other, one, two, two; one: SLDC 11; two: SLDC 12; LDCI -5; XJP 1, 3, other, one, two, two; other:
SLDC 13; LDCI 7; XJP 5, 2, last; SLDC 9; last: XIT
; bytes moved, filled and looked for
LDCI 2000; LDC 2, 1, 0; STM 3; LDCI 2000; SLDC 0; LDCI 2001; SLDC 0; SLDC 4; CSP 2;
LDCI 2000; SLDC 0; LDCI 2001; SLDC 0; SLDC 4; CSP 3; LDCI 2010; SLDC 0; SLDC 5; SLDC 65; CSP 10;
SLDC 5; SLDC 0; SLDC 65; LDCI 2008; SLDC 0; SLDC 0; CSP 11; LDCI -5; SLDC 1; SLDC 65; LDCI 2014; SLDC 0; SLDC 0; CSP 11
; the heap
LDCI 2000; CSP 32; LDCI 2002; SLDC 10; CSP 1; CSP 40; LDCI 2000; CSP 33; CSP 40
; units: questions
SLDC 1; CSP 35; CSP 34; SLDC 3; CSP 37; CSP 34; SLDC 4; CSP 38; CSP 34; LDCI 99; CSP 35; CSP 34
; the clock
LDCI 2000; LDCI 2002; CSP 9; LDCI 2000; IND 0; LDCI 2002; IND 0; CSP 0
; no words, and words behind a padding byte and without one
LDC; NOP; LDC; LDC 1; NOP; LDC 2, 3
; characters, none and any bytes
LSA ""; LSA "a\22\5c\00\ff"; LPA ""; LPA "a\22\5c\00\ff"
; a jump by a table at an even and at an odd address, and by a table without words
SLDC 1; XJP 1, 1, a, a; a: NOP; SLDC 1; XJP 1, 1, b, b; b: SLDC 1; XJP 1, 0, c; c: NOP
; the address behind the last byte of memory
LDCI 65535; SLDC 0; LDCI 215; STB; SLDC 0; SLDC 0; LDCI 214; STB; LDCI 3000; STL 32764; LDCI 65535; STL 32767; RNP 0
""")
case("small constants, from 0 to 127", *["SLDC %d" % n for n in range(128)])
case("quotients and remainders, of all signs", *[
    "LDCI %d; LDCI %d; %s" % (a, b, row) for row in ("DVI", "MODI")
    for a, b in ((7, 2), (-7, 2), (7, -2), (-7, -2), (0, 5), (-32768, -1), (32767, -32768))])
case("integers compared", *[
    "LDCI %d; LDCI %d; %sI" % (a, b, row) for row in ORDERED for a, b in ((1, 2), (2, 2), (-1, 1))])
case("the short forms of variables", *["SLDC %d; SRO %d" % (n, n) for n in range(1, 17)],
     *["SLDL %d; SLDO %d" % (n, n) for n in range(1, 17)])
case("addresses: stored and loaded", *["LDCI %d; SLDC %d; STO" % (2000 + 2 * n, n + 20) for n in range(10)],
     *["LDCI 2000; SIND %d" % n for n in range(8)])
case("addresses: computed", "LDCI 2000; INC 3; LDCI 65534; INC 1; LDCI 2000; SLDC 4; IXA 3; LDCI 2000; LDCI -1; IXA 3")
case("sets compared", *["SLDC 3; %s; SLDC 3; LDCI 18; SRS; %s SET" % (one, row)
                        for row in ("EQU", "NEQ", "LEQ", "GEQ") for one in ("SGS", "LDCI 18; SRS")])
case("strings compared", *['LSA "%s"; LSA "%s"; %s STR' % (a, b, row) for row in ORDERED
                           for a, b in (("abc", "abd"), ("abc", "abc"), ("ab", "abc"), ("b", "abc"))])
case("truth values compared", *["SLDC %d; SLDC %d; %s BOOL" % (a, b, row) for row in ORDERED
                                for a, b in ((0, 1), (1, 3), (1, 0))])
case("bytes compared", *['LPA "%s"; LPA "%s"; %s BYTES %s' % (a, b, row, n) for row in ORDERED
                         for a, b, n in (("abc", "abd", "3"), ("abc", "abd", "2"), ("b", "a", "1!"))])
case("words compared", "LDCI 2000; LDC 1, 2; STM 2; LDCI 2010; LDC 1, 2; STM 2", *[
    "LDCI 2000; LDCI %d; %s WORDS %s" % (b, row, n) for row in ("EQU", "NEQ")
    for b, n in ((2010, "2"), (2012, "2"), (2000, "2!"))])
for transfer in (5, 6):
    case("transfers of no byte, by CSP %d" % transfer, *[
        "SLDC %d; LDCI 2000; SLDC 0; SLDC 0; SLDC 0; SLDC 0; CSP %d; CSP 34" % (unit, transfer)
        for unit in (0, 1, 2, 3, 4, 5, 6, 7, 8, 9, 12, 13)])
for row in ("RNP", "RBP"):
    for count in (0, 2, 200):
        case("a return from bare code: %s %d" % (row, count), "%s %d" % (row, count))

# ---- each size of a number: one byte, one byte in two, two bytes

SIZES = ["5", "5!", "200"]
STORES = ["5", "5!", "32000"]
for row, words, sizes in (
        ("LAO", "", SIZES), ("LLA", "", SIZES), ("LDO", "", SIZES), ("LDL", "", SIZES), ("BPT", "", SIZES),
        ("SRO", "SLDC 7; ", STORES), ("STL", "SLDC 7; ", STORES), ("INC", "LDCI 2000; ", SIZES),
        ("IND", "LDCI 2000; ", SIZES), ("IXA", "LDCI 2000; SLDC 3; ", SIZES), ("MOV", "LDCI 2000; LDCI 3000; ", SIZES),
        ("LDA 1,", "", SIZES), ("LOD 1,", "", SIZES), ("STR 1,", "SLDC 7; ", STORES)):
    case("each size of the number of %s" % row[:3], *["%s%s %s" % (words, row, n) for n in sizes])
for row in ORDERED:
    for kind in ("BYTES", "WORDS"):
        for n in SIZES:
            row_said = "%s %s %s" % (row, kind, n)
            case("each size of a comparison: %s" % row_said, "LDCI 2000; LDCI 3000; %s" % row_said)

# ---- unimplemented instructions: error 11

case("opcode 210", ".BYTE 210")
case("a type byte that is none", ".BYTE 175, 3")
for row in ("ABR", "ADR", "DVR", "FLO", "FLT", "MPR", "NGR", "SBR", "SQR"):
    case("a real: %s" % row, row)
for row in ("LDE", "LAE", "STE"):
    for n in SIZES:
        case("a variable of another unit: %s 1, %s" % (row, n), "%s 1, %s" % (row, n))
for row in ORDERED:
    case("reals compared: %s" % row, "%s REAL" % row)
for row in ("GRT", "LES"):
    case("a comparison that sets have not: %s" % row, "%s SET" % row)
for number in [7, 8, *range(12, 21), *range(23, 32), 36, *range(41, 256)]:
    case("standard procedure %d" % number, "CSP %d" % number)

# ---- the checks of each instruction

cases(r"""
; no word on the stack
ADI; ADI; ADI; ADI; ADI; ADI
; above its bounds
SLDC 5; SLDC 1; SLDC 4; CHK
; below its bounds
LDCI -5; LDCI -4; SLDC 0; CHK
; divided by zero
SLDC 5; SLDC 0; DVI
; remainder of zero
SLDC 5; SLDC 0; MODI
; a word at an odd address
LDCI 2001; SLDC 5; STO
; a word at an odd address
LDCI 2001; IND 0
; words at an odd address
LDCI 2001; LDCI 2000; MOV 0
; words past the memory
LDCI 65534; LDM 2
; past the end of a string
LSA "abc"; SLDC 4; IXS
; a string too long
LDCI 2000; LSA "abc"; SAS 2
; a field too wide
LDCI 2000; SLDC 9; SLDC 8; LDP
; no field in a word
LDCI 2000; SLDC 0; IXP 0, 4
; a set of no element
LDCI 4080; SGS
; a set of too large bounds
LDCI 1; LDCI 4080; SRS
; a set of too many words
LDCI 300; ADJ 1
; too many links
LDA 200, 1
; no segment
CXP 1, 1
; no procedure
CLP 1
; no procedure
CGP 1
; no procedure
CBP 1
; no procedure
CIP 1
; a jump by an odd entry
.BYTE 185, 255
; a full stack
LDCI 2000; CSP 40; CSP 1; SLDC 1; SLDC 2
; no room for the heap
LDCI 2000; LDCI 40000; CSP 1
; IOCHECK of a bad unit
SLDC 50; CSP 38; CSP 0
; EXIT from what is not active
LDCI 7; LDCI 7; CSP 4
; HALT
CSP 39
; an address past the memory
LDCI 65535; SLDC 0; LDB; LDCI 65530; LDCI 65530; LDCI 9; EQU BYTES 20
; an empty string at the last byte of memory
LDCI 2000; LDCI 65535; SAS 9
; a source that leaves memory
LDCI 65535; SLDC 0; SLDC 9; STB; LDCI 2000; LDCI 65535; SAS 9
; a destination that leaves memory
LDCI 65535; LDCI 65; SAS 9
; a character for a string of no length
LDCI 2000; LDCI 65; SAS 0
; an element below the set
LDCI -1; SGS
; a bound below the set
LDCI -1; SLDC 3; SRS
; a count of words above 255
LDCI 300; SGS; LDCI 300; INN
; a count of words above 255
SLDC 0; LDCI 256; UNI
; a count of words above 255
SLDC 0; LDCI 256; INT
; a count of words above 255
SLDC 0; LDCI 256; DIF
; a count of words above 255
SLDC 0; LDCI 256; EQU SET
; words of a set that are not there
LDCI 200; ADJ 200
; an index below the array
LDCI 2000; LDCI -1; IXP 4, 4
; fields of no bits
LDCI 2000; SLDC 0; IXP 4, 0
; a field past its word
LDCI 2000; SLDC 3; IXP 4, 5
; a field of no bits
LDCI 2000; SLDC 0; SLDC 0; LDP
; a field at an odd address
LDCI 2001; SLDC 4; SLDC 0; LDP
; a field of no bits
LDCI 2000; SLDC 0; SLDC 0; SLDC 1; STP
; a field at an odd address
LDCI 2001; SLDC 4; SLDC 0; SLDC 1; STP
; words to an odd address
LDCI 2001; SLDC 1; STM 1
; words past the memory
LDCI 65534; SLDC 1; SLDC 2; STM 2
; words from an odd address
LDCI 2001; LDM 0
; words to an odd address
LDCI 2000; LDCI 2001; MOV 1
; words past the memory
LDCI 2000; LDCI 65534; MOV 2
; bytes past the memory
LDCI 2000; LDCI 65535; EQU BYTES 2
; words at an odd address
LDCI 2000; LDCI 2001; EQU WORDS 1
; a string past the memory
LDCI 65535; SLDC 0; SLDC 9; STB; LDCI 65535; LDCI 2000; EQU STR
; more than 127 links
LOD 128, 1
; more than 127 links
SLDC 1; STR 128, 1
; more than 127 links
LDA 128, 1
; a link at an odd address
LDCI 2001; STL 32763; LDA 2, 1
; a link at an odd address
LDCI 2001; STL 32763; LOD 2, 1
; a variable at an odd address
LDCI 2001; STL 32763; LOD 1, 1
; a variable at an odd address
LDCI 2001; STL 32763; SLDC 7; STR 1, 1
; a return to an odd SP
SLDC 1; STL 0; RNP 0
; a return to an SP past the stack
LDCI 65506; STL 0; RNP 0
; words of a result past the memory
RNP 33
; words of a result into the heap
LDCI 1040; STL 0; RNP 9
; segment 16
CXP 16, 1
; segment 16
SLDC 16; CSP 21
; segment 16
SLDC 16; CSP 22
; a place of NEW at an odd address
LDCI 2001; SLDC 1; CSP 1
; MARK at an odd address
LDCI 2001; CSP 32
; RELEASE at an odd address
LDCI 2001; CSP 33
; RELEASE to an odd address
LDCI 2000; SLDC 7; STO; LDCI 2000; CSP 33
; RELEASE above the stack
LDCI 2000; LDCI 65500; STO; LDCI 2000; CSP 33
; bytes moved from past the memory
LDCI 65535; SLDC 0; LDCI 2000; SLDC 0; SLDC 2; CSP 2
; bytes moved to past the memory
LDCI 2000; SLDC 0; LDCI 65535; SLDC 0; SLDC 2; CSP 3
; bytes filled past the memory
LDCI 65535; SLDC 0; SLDC 2; SLDC 65; CSP 10
; bytes looked at past the memory
SLDC 2; SLDC 0; SLDC 65; LDCI 65535; SLDC 0; SLDC 0; CSP 11
; bytes looked at below the memory
LDCI -2; SLDC 0; SLDC 65; SLDC 0; SLDC 0; SLDC 0; CSP 11
; bytes read past the memory
SLDC 99; LDCI 65535; SLDC 0; SLDC 2; SLDC 0; SLDC 0; CSP 5
; bytes written past the memory
SLDC 99; LDCI 65535; SLDC 0; SLDC 2; SLDC 0; SLDC 0; CSP 6
; the clock at an odd address
LDCI 2001; LDCI 2000; CSP 9
; the clock at an odd address
LDCI 2000; LDCI 2001; CSP 9
; an instruction at the last byte
LDCI 65535; SLDC 0; LDCI 199; STB; LDCI 3000; STL 32764; LDCI 65535; STL 32767; RNP 0
""")

# ---- too few words: the six words of the start are popped, and then one word less than the row pops is pushed

EMPTY = "ADI; ADI; ADI; ADI; ADI; FJP empty; empty: "
UNARY = ["ABI", "NGI", "LNOT", "SQI", "SGS", "FJP next", "XJP 1, 1, next, next", "INC 1", "IND 1", "SRO 1", "STL 1",
         "STR 1, 1", "ADJ 1", "LDM 1", "CSP 21", "CSP 22", "CSP 32", "CSP 33", "CSP 35", "CSP 37", "CSP 38"]
UNARY += ["SIND %d" % n for n in range(8)]
BINARY = ["ADI", "SBI", "MPI", "DVI", "MODI", "LAND", "LOR", "STO", "IXS", "IXA 1", "MOV 1", "SAS 9", "EFJ next",
          "NFJ next", "SRS", "LDB", "IXP 4, 4", "INN", "INT", "UNI", "DIF", "CSP 1", "CSP 4", "CSP 9"]
BINARY += [row + "I" for row in ORDERED]
BINARY += ["%s %s" % (row, kind) for row in ORDERED for kind in ("STR", "BOOL", "BYTES 1")]
BINARY += ["%s SET" % row for row in ("EQU", "NEQ", "LEQ", "GEQ")] + ["%s WORDS 1" % row for row in ("EQU", "NEQ")]
for count, rows in ((1, UNARY), (2, BINARY), (3, ["CHK", "LDP", "STB", "STM 2"]), (4, ["STP", "CSP 10"]),
                    (5, ["CSP 2", "CSP 3"]), (6, ["CSP 5", "CSP 6", "CSP 11"])):
    for row in rows:
        case("too few words: %s" % row, EMPTY + "SLDC 0; " * (count - 1) + row, "next: NOP")

# ---- a full stack: NEW allocates the free space except for the words that the row pops; the row pushes more

PUSHES = ["SLDC 1", "LDCN", "LDCI 5", "LAO 1", "LLA 1", "LDA 0, 1", "LDO 1", "LDL 1", "LOD 0, 1", 'LSA "a"', 'LPA "a"',
          "LDC 1", "CSP 34", "CSP 40"]
PUSHES += ["%s %d" % (row, n) for row in ("SLDL", "SLDO") for n in range(1, 17)]
for count, rows in ((0, PUSHES), (1, ["LDM 2", "SGS", "ADJ 2"]), (2, ["SRS", "IXP 4, 4"])):
    for row in rows:
        less = "SLDC %d; %s" % (abs(count - 1), "SBI" if count else "ADI")
        case("a full stack: %s" % row, "LDCI 2000; CSP 40; %s; CSP 1; " % less + "SLDC 0; " * count + row)
