"""debugger.py PMACH: tests `pmach debug` on a pseudo terminal, where a long run is executed in slices of 1,000,000 steps.

Each answer must be the one that the program gives for the whole run in a pipe. The tests have breakpoints and watched words
around the ends of slices, for many numbers of steps. They also test that long answers are printed on several lines, that a
command can be given alone, that procedures of the system have names, and that `where` shows the statement. They test Ctrl-C
in `go`, `step` and `finish`, after which `on` continues, and Ctrl-C at the prompt. They test Ctrl-D, `quit`, refusals,
signals and `run --debug`, and that no process and no folder remains."""
import glob
import os
import pty
import re
import select
import signal
import subprocess
import sys
import tempfile
import time

program = os.path.realpath(sys.argv[1])
scratch = tempfile.TemporaryDirectory()
image, folders = scratch.name + "/debugged.img", scratch.name + "/folders"
os.mkdir(folders)
os.environ["TMPDIR"] = folders
os.environ["TERM"] = "dumb"
words = [program, "debug", "--d4", image]
failed = 0

# 50 steps a round, for as many rounds as variable 1 states. Then each of 49 words is written, the Nth at step 2 * N, and two words at step 150. Then an endless loop.
ROUND = "again: NOP\n" + "NOP\n" * 41 + "SLDO 1\nSLDC 1\nSBI\nSRO 1\nSLDO 1\nSLDC 0\nEQUI\nFJP ^0\n"
LONG = (".SEG 1 LONG\n.PROC 1 0 0 240\nLDCI 19999\nSRO 1\n" + ROUND + "".join("SLDC %d\nSRO %d\n" % (n, n + 1) for n in range(1, 50)) +
        "NOP\n" * 48 + "LAO 60\nSLDC 1\nSLDC 2\nSTM 2\nhere: UJP ^1\n.EXIT\nRBP 0\n.JUMP again\n.JUMP here\n.END\n")
# A procedure of 100,000,000 steps and more is called, and an endless loop comes then.
SLOW = (".SEG 1 SLOW\n.PROC 1 0 0 4\nCLP 2\nhere: UJP ^0\nNOP\n.EXIT\nRBP 0\n.JUMP here\n.END\n.PROC 2 1 0 4\nouter: LDCI 20000\nSRO 1\n" + ROUND +
        "SLDL 1\nSLDC 1\nADI\nSTL 1\nSLDL 1\nSLDC 100\nEQUI\nFJP ^1\nNOP\n.EXIT\nRNP 0\n.JUMP again\n.JUMP outer\n.END\n")
# A byte for the console each 25,000 steps and some, 60 times; then it reads a byte.
CHAT = (".SEG 1 CHAT\n.PROC 1 0 0 4\nouter: LDCI 500\nSRO 1\n" + ROUND + "SLDC 1\nLPA \"x\"\nSLDC 0\nSLDC 1\nSLDC 0\nSLDC 0\nCSP 6\n" +
        "SLDO 2\nSLDC 1\nADI\nSRO 2\nSLDO 2\nSLDC 60\nEQUI\nFJP ^1\nSLDC 1\nLDCI 2000\nSLDC 0\nSLDC 1\nSLDC 0\nSLDC 0\nCSP 5\n" +
        ".EXIT\nRBP 0\n.JUMP again\n.JUMP outer\n.END\n")
# Each typed byte is read. Byte 33 divides by zero, and an endless loop follows byte 120.
ASK = (".SEG 1 ASK\n.PROC 1 0 0 4\nagain: SLDC 1\nLDCI 2000\nSLDC 0\nSLDC 1\nSLDC 0\nSLDC 0\nCSP 5\nSLDC 1\nLDCI 2000\nSLDC 0\nLDB\nSLDC 33\nSBI\nDVI\n"
       "SRO 1\nLDCI 2000\nSLDC 0\nLDB\nSLDC 120\nEQUI\nFJP ^0\nhere: UJP ^1\n.EXIT\nRBP 0\n.JUMP again\n.JUMP here\n.END\n")
OK = '.SEG 1 OK\n.PROC 1 0 0 0\nSLDC 1\nLPA "OK"\nSLDC 0\nSLDC 2\nSLDC 0\nSLDC 0\nCSP 6\nNOP\n.EXIT\nRBP 0\n.END\n'


def put(name, text):
    """Puts the code file of a text on the image; the assembler asks for code of an even length."""
    made = subprocess.run([program, "asm"], input=text.encode(), capture_output=True)
    if made.returncode:
        made = subprocess.run([program, "asm"], input=text.replace(".EXIT", "NOP\n.EXIT", 1).encode(), capture_output=True, check=True)
    subprocess.run([program, "files", "--image", image, "put", name, "code"], input=made.stdout, check=True)


def answers_of(name, lines):
    typed = "".join(line + "\n" for line in lines)
    return subprocess.run(words + [name], input=typed.encode(), capture_output=True, check=True).stdout.decode().split("\n")[:-1]


def piped(name, lines):
    """The lines of a session without a terminal, of the program that `running` names from then on."""
    global running
    running = name
    return answers_of(name, lines)


def typed(command, keys):
    """The shown text and the status. Keys are typed at a prompt. Input that is no line, and a signal, follows 0.5 seconds after the last key."""
    child, terminal = pty.fork()
    if child == 0:
        signal.signal(signal.SIGINT, signal.SIG_DFL)
        os.execv(program, command)
    shown, keys, since = b"", list(keys), time.monotonic()
    end = since + 60
    while time.monotonic() < end:
        if select.select([terminal], [], [], 0.05)[0]:
            try:
                shown += os.read(terminal, 65536)
            except OSError:
                break
        if keys and (shown.endswith(b"> ") if str(keys[0]).endswith("\n") else time.monotonic() > since + 0.5):
            key, since = keys.pop(0), time.monotonic()
            if isinstance(key, str):
                os.write(terminal, key.encode())
            else:
                os.kill(child, key)
    else:
        os.kill(child, signal.SIGKILL)
    os.close(terminal)
    shown = re.sub(rb"^pmach: not proved[^\n]*\n", b"", shown)  # what the script `pmach` prints for such a program
    return shown.decode().replace("\r\n", "\n"), os.waitstatus_to_exitcode(os.waitpid(child, 0)[1])


def statements(name):
    """The statements of a code file of the image, by segment, procedure and offset."""
    made, place, entry = {}, None, None
    for line in subprocess.run([program, "dis", "--statements", "--image", image, name], capture_output=True, check=True).stdout.decode().split("\n"):
        heading = re.match("PROCEDURE ([0-9]+) OF SEGMENT ([0-9]+):", line)
        if heading:
            place, entry = (int(heading[2]), int(heading[1])), None
        elif re.match("[0-9]{5} ", line):
            entry = int(line[:5]) if entry is None else entry
            made[(*place, int(line[:5]) - entry)] = line[6:]
    return made


def folded(line, answer):
    """How a terminal shows an answer."""
    word = (line.split(" ") + [""])[0] if line.strip(" ") == line else line.split()[0] if line.split() else ""
    if answer == "?":
        every = answers_of("LONG", ["help"])[0].split(", ")
        uses = [usage for usage in every if usage.split()[0] == word]
        near = [usage for usage in every if word and usage.startswith(word)]
        return "?\n" + ("usage: " + ", ".join(uses) if uses else "one of: " + ", ".join(near) if near else "help lists the commands")
    if not answer or answer.startswith("refused"):
        return answer
    if word in ("frames", "breaks", "help"):
        return answer.replace(", ", "\n")
    if word == "where":
        text = statements(running).get(tuple(int(part) for part in answer.split()[:3]))
        return answer + ("" if text is None else "\n  " + text)
    if word == "list":
        return "".join(part if n % 2 else part.replace("; ", "\n") for n, part in enumerate(re.split('("[^"]*")', answer)))
    if word in ("bytes", "peek"):
        given = line.split()[1]
        at = int(given[1:], 16) if given.startswith("$") else int(given)
    if word == "bytes":
        pairs, characters = answer.split("  ", 1)
        pairs = pairs.split(" ")
        return "\n".join("%5d  %-47s  %s" % (at + k, " ".join(pairs[k:k + 16]), characters[k:k + 16]) for k in range(0, len(pairs), 16))
    if word == "peek":
        given = answer.split()
        return "\n".join("%5d " % (at + 2 * k) + "".join(" %5s" % w for w in given[k:k + 8]) for k in range(0, len(given), 8))
    return answer


def prompted(lines, answers):
    return "".join("> %s\n%s\n" % (line, folded(line, answer)) for line, answer in zip(lines, answers))


def check(name, holds, shown):
    global failed
    print(("  passed: " if holds else "  FAILED: ") + name + ("" if holds else " " + repr(shown)))
    failed += 0 if holds else 1


def same(name, sessions):
    """Each session of a program is on a terminal what it is in a pipe; what it answers there is given back."""
    told, odd = [], []
    for program_name, lines in sessions:
        answers = piped(program_name, lines)
        came = typed(words + [program_name], [line + "\n" for line in lines + ["quit"]])
        told += answers
        if came != (prompted(lines, answers) + "> quit\n", 0):
            odd.append((lines, answers, came))
    check("%s: %d sessions" % (name, len(sessions)), not odd, odd[:1])
    return told


subprocess.run([program, "files", "--image", image, "new", "WORK", "60"], check=True)
for name, text in ("LONG", LONG), ("SLOW", SLOW), ("CHAT", CHAT), ("ASK", ASK), ("OK", OK):
    put(name, text)
base = int(piped("LONG", ["dynamic 1"])[0])
start = int(piped("LONG", ["regs"])[0].split()[1])
offsets = [int(piped("LONG", ["go 999952", "go %d" % n, "where"])[2].split()[2]) for n in range(100)]
here = int(piped("LONG", ["go 2000000", "where"])[1].split()[2])


def word(variable):
    return base + 10 + 2 * variable


def rounds(count, more=0):
    """The loop is made so often; with the steps that are made before the run."""
    return ["go 2", "poke %d %d" % (word(1), count)] + ["go %d" % more] * (more > 0)


same("counts of steps", [("LONG", ["go 7", "go %s" % n, "regs", "trace", "go 5", "regs"]) for n in
     (0, 999999, 1000000, 1000001, 1999999, 2000000, "0002000001", 3500000, 4294967296, "-1", "$FFFF", "1 1", " ")])
told = same("breakpoints", [("LONG", rounds(count) + ["break 1 1 %d" % offsets[n], "go 2000003", "where", "go 2000003", "go 1000000"])
            for count in (19999, 39999) for n in range(46, 56)])
check("a breakpoint stood at the end of a slice", {"break 1000000", "break 2000000"} <= set(told), told)
same("two breakpoints, one not reached", [("LONG", ["break 1 2 0", "break 1 1 %d" % offsets[n], "go 3000000", "regs"]) for n in range(47, 51)])
same("a breakpoint at the limit, and where a run begins", [("LONG", rounds(19999) + ["break 1 1 %d" % offsets[50], "go 1000000", "go 3000000", "where"]),
     ("LONG", rounds(39999) + ["break 1 1 %d" % offsets[50], "go 2000000", "go 3000000", "where"])])
told = same("watched words", [("LONG", rounds(count, more) + ["watch %d" % word(n + 1), "go 2000003", "peek %d 1" % word(n + 1), "go 2000003", "regs"])
            for count in (19999, 39999) for more in (0, 1) for n in range(24, 28)])
check("a word changed in the last step of a slice", {"changed %d %d" % (n, word(26)) for n in (1000000, 2000000)} <= set(told), told)
told = same("two words in one step, and a breakpoint behind it", [("LONG", rounds(19997) + ["watch %d" % word(n) for n in order] +
            ["break 1 1 %d" % here, "go %d" % most, "go 2000000", "regs"]) for order in ((60, 61), (61, 60), (59, 61), (59,)) for most in (2000000, 1000000)])
check("they changed in the last step of a slice", {"changed 1000000 %d" % word(n) for n in (60, 61)} | {"break 1000000", "limit 1000000"} <= set(told), told)
error = ["poke %d %d" % (start - 5 + here & 65534, 210 * 257), "go 3000000", "go 3000000", "regs"]
told = same("ends, errors and waiting", [("OK", ["go 2000000", "go 2000000"]), ("LONG", ["go 2000000", *error]), ("LONG", error),
            ("LONG", ["break 1 1 %d" % offsets[0], *error]), ("CHAT", ["go 4000000000", "go 4000000000", "key 65", "go 2000000"])])
same("other lines", [("LONG", ["", "?", "step", "finish 1", "watch 1", "go", "go 5000000 5", "GO 5000000", "  go   2000000  ", "*", "r\u00e9gs", "go 5000000\\", "go\t2000000", "help",
      "break 1 1 0", "break 1 2 3", "breaks", "bytes 64960 40", "bytes $FFFF 5", "bytes 5 0", "bytes 0064960 16", "peek 64960 20", "peek 1 1", "peek 65534 9",
      "list 20", "list 0", "frames 5", "finish 3", "step 5000000000", "on 5", "console", "console on", "s 2", "st", "wa", "breakss", 'type "A', 'type "A" ', "key 10",
      "until 1 1 %d" % here, "until 1 1 0 2000000", "on 3", "break 1 1 0 if 2000 = 0", "breaks"])])

told = same("breakpoints that are passed over", [("LONG", rounds(39999) + ["break 1 1 %d" % offsets[50], "ignore %d" % passes, "go 2000003", "breaks", "regs", "go 1200000", "breaks"])
            for passes in (0, 1, 19999, 20000, 39999, 4294967295)])
check("some were left, and some were not", "limit 2000003" in told and any("ignore" in answer for answer in told) and "1 1 %d" % offsets[50] in told, told)

lines = ["go 5000000", "stack 2", "regs", "list 3", "frames 2", "breaks", "until 1 1 2 3000000"]
short = ["g 5000000", " stac 2", "reg", "li 3", "fr 2", "breaks", "unt 1 1 2 3000000", "q"]
shown, status = typed(words + ["LONG"], [line + "\n" for line in short])
expected = prompted(lines, piped("LONG", lines))
for line, typing in zip(lines, short):
    expected = expected.replace("> " + line + "\n", "> " + typing + "\n")
check("commands that are begun", (shown, status) == (expected + "> q\n", 0), (shown, expected))
system = os.path.join(os.path.dirname(os.path.realpath(__file__)), "..", "examples/system")
for name, path in ("SYSTEM", "/system.text"), ("GUESS", "/programs/guess.text"):
    with open(system + path) as text:
        made = subprocess.run([program, "asm"], input=text.read().encode(), capture_output=True, check=True)
    with open(scratch.name + "/" + name, "wb") as code:
        code.write(made.stdout)
subprocess.run([program, "files", "--image", image, "put", "GUESS", "code"], input=made.stdout, check=True)
shown, status = typed(words + ["--system", scratch.name + "/SYSTEM", "GUESS"], ["break 0 19 0\n", "go 1000\n", "where\n", "frames 2\n", "break 0 12 0\n", "quit\n"])
told = re.findall("^(?:[0-9]+ )?0 19 0 .* ; FWRITESTRING$|^[0-9]+ 1 1 [0-9]+$", shown, re.M)
check("the names of the system's procedures", status == 0 and len(told) == 2, shown)
with open(scratch.name + "/SYSTEM", "rb") as code:
    listed = subprocess.run([program, "dis", "--statements"], stdin=code, capture_output=True, check=True).stdout.decode()
first = re.search("^PROCEDURE 19 OF SEGMENT 0:.*\n(?:\\^.*\n|L.*\n)*[0-9]{5} (.*)$", listed, re.M)
check("a statement of the system", first and " ; FWRITESTRING\n  %s\n" % first[1] in shown, (first, shown))

lines = ["console on", "go 1400000", "console 200", "console off", "go 2000000"]
answers = piped("CHAT", lines)
shown, status = typed(words + ["CHAT"], [line + "\n" for line in lines + ["quit"]])
texts = re.findall('^console "(.*)"\n', shown, re.M)
check("the console by slices", len(texts) == 2 and 'console "%s"' % "".join(texts) == answers[1] and status == 0 and
      re.sub('^console ".*"\n', "", shown, flags=re.M) == prompted(lines, answers[:1] + answers[2:]) + "> quit\n", (answers, shown))

INT, END = "\x03", "\x04"
after = ["regs", "where", "go 5", "regs", "on 7", "regs"]
for name, begun, before in [("Ctrl-C in " + begun, begun, before) for begun in ("go 4000000000", "finish", "finish 4000000000", "on 4000000000")
                            for before in ([], ["watch %d" % base, "break 1 2 0"])] + [("Ctrl-C in step", "step", [])]:
    image_name, before = ("SLOW", before) if begun == "step" else ("LONG", before + ["go 9"] * begun.startswith("on"))
    shown, status = typed(words + [image_name], [line + "\n" for line in before + [begun]] + [INT] + [line + "\n" for line in after + ["quit"]])
    made = re.findall("\nlimit ([0-9]*)\n", shown)
    made = int(made[len(before) - ("watch" in "".join(before)) * 2]) if made else 0
    steps = made - 9 * begun.startswith("on")
    lines = before + ["%s %d" % (begun.split()[0], steps), *after]
    expected = prompted(lines, piped(image_name, lines)).replace("> " + lines[len(before)] + "\n", "> " + begun + "\n^C\n") + "> quit\n"
    check(name, made and steps % 1000000 == 0 and (shown, status) == (expected, 0), (shown, expected))
shown, status = typed(words + ["SLOW"], ["step\n", INT, "where\n", "on 4000000000\n", "quit\n"])
whole = piped("SLOW", ["step"])[0]
check("on goes on with a step after Ctrl-C", status == 0 and "\n%s\n" % whole in shown and whole.startswith("stop "), (shown, whole))
shown, status = typed(words + ["LONG"], ["go 1\n", "reg", INT, "go 2\n", INT, INT, "go 3\n", "quit\n"])
check("Ctrl-C at the prompt", (shown, status) == ("> go 1\nlimit 1\n> reg^C\n> go 2\nlimit 2\n> ^C\n> ^C\n> go 3\nlimit 3\n> quit\n", 0), shown)
shown, status = typed(words + ["LONG"], ["go 1\n", END])
check("Ctrl-D at the prompt", (shown, status) == ("> go 1\nlimit 1\n> ", 0), shown)
shown, status = typed(words + ["LONG"], ["go 1\n", "go 2000000", END, END])
check("Ctrl-D within a line", (shown, status) == ("> go 1\nlimit 1\n> go 2000000limit 2000000\n", 0), shown)

resumed = [program, "run", "--debug", "--unlimited", "--d4", image]
again = "pmach: repeating the run; Ctrl-C stops it\n"
lines = ["regs", "console 9"]
for name, text, more, keys, end in (("an error", "ab!", [], ["a", "b", "!"], 3), ("an error behind keys that come at once", "ab!", [], ["ab!cd"], 3),
                                    ("Ctrl-C while it waits", "ab", [], ["ab", INT], 130), ("Ctrl-C before any key", "", [], [INT], 130),
                                    ("Ctrl-\\ with --escape", "a\\03\\04", ["--escape"], ["a\x03\x04", "\x1c"], 130),
                                    ("--save and the printer left out", "ab!", ["--save", "--printer", scratch.name + "/printed"], ["ab!"], 3)):
    answers = piped("ASK", ['type "%s"' % text, "go 4000000000", "where"] + lines)[1:]
    shown, status = typed(resumed + more + ["ASK"], keys + [line + "\n" for line in lines + ["quit"]])
    stands = "%s\n%s\n" % (answers[0], folded("where", answers[1]))
    check("run --debug: " + name, status == end and shown.endswith(again + stands + prompted(lines, answers[2:]) + "> quit\n"), (shown, status))
shown, status = typed(resumed + ["ASK"], ["ax", INT, INT, "go 9\n", END])
made = re.search("\n%s\\^C\nlimit ([0-9]+)\n" % again, shown)
answers = made and piped("ASK", ['type "ax"', "go %s" % made[1], "where"])
check("run --debug: Ctrl-C in a loop, and again", made and status == 130 and shown.endswith("%s\n%s\n> go 9\nlimit 9\n> " % (answers[1], folded("where", answers[2]))), shown)
shown, status = typed(resumed + ["ASK"], ["ab", END])
check("run --debug: Ctrl-D ends the input", shown.startswith("ab\nwaiting ") and again not in shown and status == 6, (shown, status))
shown, status = typed(resumed + ["--", "NONE"], [])
check("run --debug: a refusal at the start", shown.startswith("refused boot 1\n") and status == 2, (shown, status))
ends = [typed(resumed + ["ASK"], keys + [number]) for keys in (["ab"], ["ab!"]) for number in (signal.SIGTERM, signal.SIGHUP)]
check("run --debug: signals", [end[1] for end in ends] == [143, 129] * 2, ends)
piece = subprocess.run(resumed + ["ASK"], stdin=subprocess.DEVNULL, capture_output=True)
check("run --debug: no terminal", (piece.returncode, piece.stdout, piece.stderr) == (1, b"", b"pmach: run --debug requires a terminal\n"), piece)

shown, status = typed(words + ["NONE"], [])
check("a refusal at the start", shown.startswith("refused boot 1\npmach: ") and status == 2, (shown, status))
shown, status = typed(words + ["--more", "LONG"], [])
check("wrong words", shown.startswith("error: ") and "> " not in shown.split("\n") and status == 1, (shown, status))
shown, status = typed([program, "debug", "--d4", scratch.name + "/none", "LONG"], [])
check("no image", shown.startswith("read fault\npmach: ") and status == 4, (shown, status))
os.mkfifo(scratch.name + "/debugged.fifo")
check("Ctrl-C while it reads an image", typed([program, "debug", "--d4", scratch.name + "/debugged.fifo", "LONG"], [INT]) == ("^C", 130), None)
for name, number, status in ("HUP", signal.SIGHUP, 129), ("TERM", signal.SIGTERM, 143), ("QUIT", signal.SIGQUIT, 131):
    ends = [typed(words + ["LONG"], ["go 1\n", number]), typed(words + ["LONG"], ["go 4000000000\n", number]), typed(words + ["LONG"], ["finish\n", number])]
    check(name + " at the prompt, in go and in finish", [end[1] for end in ends] == [status] * 3, ends)
time.sleep(0.5)
left = subprocess.run(["sh", "-c", "cat /proc/[0-9]*/cmdline 2>/dev/null"], stdout=subprocess.PIPE).stdout.count(scratch.name.encode())
check("no program and no folder is left behind", not left and not os.listdir(folders), (left, os.listdir(folders)))
os.environ["TMPDIR"] = scratch.name + "/none"
check("without a folder the program itself reads the terminal", typed(words + ["LONG"], ["go 2000000\n", INT]) == ("> go 2000000\nlimit 2000000\n> ^C", -2), None)
sys.exit(1 if failed else 0)
