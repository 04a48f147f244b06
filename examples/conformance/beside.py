"""beside.py: runs two p-machines on the same program, and stops at the first state in which they differ.

    beside.py [--state] OURS [ARG..] -- THEIRS [ARG..] <INPUT

Both commands get the same standard input and write a trace in the format of README.md to standard output. For bare code
OURS is `pmach raw`, and the input is hexadecimal digits. For a booted program OURS is `pmach trace --d4 IMAGE NAME`, and
the input is the console input. Both run in parallel, and are stopped at the first line that differs. Then the script
prints the instruction that was executed in the last common state, the row of this instruction in docs/, the state after
it in each machine, and the columns that differ. With --state the text of the next instruction is not compared. Status: 0
no difference; 1 a difference, or an invalid command line, which prints this text."""
import os
import re
import subprocess
import sys

COLUMNS = ("steps", "IPC", "SP", "MP", "BASE", "NP", "top")
DOCS = os.path.join(os.path.dirname(os.path.abspath(__file__)), "..", "..", "docs")


def row_of(text):
    """Returns the page and the line of the table row of an instruction."""
    mnemonic, _, rest = text.partition(" ")
    page, name = ("PROCEDURES.md", r"\| %s \|" % rest) if mnemonic == "CSP" else ("INSTRUCTIONS.md", r"\| %s( n)? \|" % mnemonic)
    try:
        with open(os.path.join(DOCS, page), encoding="utf-8") as file:
            for number, line in enumerate(file, 1):
                if re.search(name, line):
                    return "docs/%s:%d: %s" % (page, number, line.strip())
    except OSError:
        pass
    return "docs/" + page


def started(command, program):
    """Starts a command with this input."""
    process = subprocess.Popen(command, stdin=subprocess.PIPE, stdout=subprocess.PIPE)
    if os.fork() == 0:
        try:
            process.stdin.write(program)
            process.stdin.close()
        except OSError:
            pass
        os._exit(0)
    process.stdin.close()
    return process


def counted(line, state):
    return line[:44] if state and re.match(r"\d{8} ", line) else line


def told(line):
    """Returns a line with the names of its columns, or how the program ended."""
    words = line.split(" ", 7)
    return " ".join("%s %s" % pair for pair in zip(COLUMNS[1:], words[1:7])) if len(words) > 6 else line or "(end of the trace)"


def main(state, ours, theirs):
    program = sys.stdin.buffer.read()
    both = [started(command, program) for command in (ours, theirs)]
    last = None
    try:
        while True:
            lines = [process.stdout.readline().decode("ascii", "replace").rstrip("\n") for process in both]
            if counted(lines[0], state) != counted(lines[1], state):
                break
            if not lines[0]:
                print("no difference")
                return 0
            last = lines[0]
    finally:
        for process in both:
            process.kill()
            process.stdout.close()
            process.wait()
    if last is None:
        print("the first state differs")
    else:
        instruction = last[44:].strip()
        print("after step %d, %s, from %s" % (int(last[:8]), instruction, told(last)))
        print("  row     %s" % row_of(instruction))
    print("  ours    %s" % told(lines[0]))
    print("  theirs  %s" % told(lines[1]))
    states = [line.split(" ", 7)[:7] for line in lines]
    if all(len(words) == 7 for words in states):
        print("  differ  %s" % (", ".join(name for name, a, b in zip(COLUMNS, *states) if a != b) or "the text of the next instruction"))
    return 1


words = sys.argv[1:]
state = words[:1] == ["--state"]
words = words[state:]
if "--" not in words[1:-1]:
    sys.exit(__doc__)
sys.exit(main(state, words[:words.index("--")], words[words.index("--") + 1:]))
