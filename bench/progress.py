"""progress.py [PMACH IMAGE]: tests on a pseudo terminal what script/watched.sh shows while a file is written.

The progress line must appear from the third second on, and must be erased at the end. The status, the file and the messages
must be the same as without the script. PMACH is the script `pmach`, and IMAGE has LOOP, a program that does not end. With
these two arguments, the script also tests that `pmach` calls watched.sh when it should."""
import os
import pty
import select
import signal
import subprocess
import sys
import tempfile
import time

here = os.path.dirname(os.path.abspath(__file__))
watched = os.path.join(here, "..", "script", "watched.sh")
folder = tempfile.mkdtemp()
os.chdir(folder)
failed = 0


def run(command, after=None, act=None):
    """What a command of the shell, in its own session, shows on a terminal. `act` is applied to it after this number of seconds."""
    child, terminal = pty.fork()
    if child == 0:
        for number in (signal.SIGINT, signal.SIGQUIT, signal.SIGXFSZ):
            signal.signal(number, signal.SIG_DFL)
        os.execvp("sh", ["sh", "-c", command])
    shown, began = b"", time.time()
    while time.time() < began + 40:
        ready, _, _ = select.select([terminal], [], [], 0.05)
        if ready:
            try:
                got = os.read(terminal, 65536)
            except OSError:
                break
            if not got:
                break
            shown += got
        if act and time.time() > began + after:
            act(child, terminal)
            act = None
    else:
        os.kill(child, signal.SIGKILL)
    _, ended = os.waitpid(child, 0)
    os.close(terminal)
    return shown, os.waitstatus_to_exitcode(ended)


def check(name, holds, *seen):
    global failed
    print(("  passed: " if holds else "  FAILED: ") + name + ("" if holds else " " + repr(seen)))
    failed += 0 if holds else 1


def typed(key):
    return lambda child, terminal: os.write(terminal, key)


def told(number):
    return lambda child, terminal: os.kill(child, number)


def is_cleared(shown):
    return shown.count(b"\n") > 0 and shown.rstrip(b"\r\n").endswith(b"\x1b[J")


def is_there(word):
    return subprocess.run(["pgrep", "-f", word], capture_output=True).returncode == 0


# A program that runs for some seconds and then prints something, and a program that waits.
work = f"exec {watched} {sys.executable} -c \"import sys, time; print('x' * 12345); sys.stdout.flush()\nend = time.time() + SECONDS\nwhile time.time() < end: pass\nprint('end'); MORE\" >out"
shown, status = run(work.replace("SECONDS", "4.5").replace("MORE", "sys.exit(7)"))
check("how long and how much, each second", b"\n\x1b[K0:02 12 kB\x1b[A\r" in shown and b"\n\x1b[K0:03 12 kB\x1b[A\r" in shown.replace(b"\r\n", b"\n"), shown)
check("gone at the end, with the status", is_cleared(shown) and status == 7, shown, status)
check("the file is whole", open("out").read() == "x" * 12345 + "\nend\n")
shown, status = run(work.replace("SECONDS", "3.5").replace("MORE", "sys.stderr.write('no memory\\n')"))
check("a message comes where it would", b"\rno memory\r\n" in shown.replace(b"\r\r", b"\r") and is_cleared(shown) and status == 0, shown, status)
shown, status = run(work.replace("SECONDS", "0.2").replace("MORE", "sys.exit(3)"))
check("of a short job nothing is said", shown == b"" and status == 3, shown, status)
shown, status = run(f"exec {watched} sh -c 'read line && echo $line' >out", 4, typed(b"typed\n"))
check("nothing is said while the program waits for input, which it gets", shown == b"typed\r\n" and open("out").read() == "typed\n" and status == 0, shown, status)
name = "watched-%d" % os.getpid()
loop = f"exec {watched} {sys.executable} -c 'while True: {name.replace('-', '_')} = 1' >out"
for what, act, wanted in ("Ctrl-C", typed(b"\x03"), 130), ("Ctrl-\\", typed(b"\x1c"), 131), ("a signal to it alone", told(signal.SIGTERM), 143), ("SIGHUP", told(signal.SIGHUP), 129):
    shown, status = run(loop, 3.4, act)
    check(what + " ends it and the program at once", status == wanted and shown.rstrip().endswith(b"\x1b[J") and not is_there(name.replace("-", "_")), shown, status)
shown, status = run(f"exec {watched} sh -c 'kill -XFSZ $$' >out")
check("a signal that ends the program is its status", status == 153, shown, status)
shown, status = run(f"exec {watched} sh -c 'cat; echo end' <&- >out")
check("a closed standard input stays closed", status == 0 and open("out").read() == "end\n" and b"escriptor" in shown, shown, status)
for count in range(20):
    shown, status = run(f"exec {watched} true >out")
    if shown or status:
        break
check("of twenty that end at once each ends", shown == b"" and status == 0, shown, status)
if len(sys.argv) > 2:
    front, image = os.path.abspath(os.path.join(here, "..", sys.argv[1])), os.path.join(here, sys.argv[2])
    command = f"{front} trace --d4 {image} --limit 30000000 LOOP"
    shown, status = run(f"{command} >out")
    if not shown:  # a fast program on a fast disk
        shown, status = run(f"{command.replace('30000000', '90000000')} >out")
    check("a trace to a file is watched, its terminal put back", b" MB\x1b[A" in shown and is_cleared(shown) and status == 6, shown[-200:], status)
    shown, status = run(f"{command} -o kept")
    check("behind -o the time alone is told", b"\x1b[K0:02\x1b[A\r" in shown and is_cleared(shown) and status == 6, shown[-200:], status)
    shown, status = run(f"{command} | cat >out")
    check("in a pipe nothing is said", b"\x1b" not in shown, shown[-200:], status)
    shown, status = run(f"{command} --quiet >out")
    check("nor with --quiet", shown == b"" and status == 6, shown[-200:], status)
    shown, status = run(f"{command} --places --calls --from 29999990 >out 2>err")
    check("nor in a file", shown == b"" and open("err").read() == "", shown, status)
sys.exit(1 if failed else 0)
