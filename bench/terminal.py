"""terminal.py PMACH IMAGE: runs ECHO of examples/programs.sh on a pseudo terminal, and tests keys, echo, Return, the end of the
input, and the settings of the terminal afterwards."""
import os
import pty
import select
import signal
import subprocess
import sys
import termios
import time

program, image = sys.argv[1], sys.argv[2]
failed = 0


def is_raw(terminal):
    try:
        return not termios.tcgetattr(terminal)[3] & termios.ICANON
    except termios.error:
        return False


def run(words, keys):
    """What is shown, what was shown before each key, how it ends, and whether the terminal's modes are as before. A key is typed once the terminal
    is set or something new is shown, and at the latest after four seconds."""
    child, terminal = pty.fork()
    if child == 0:
        signal.signal(signal.SIGINT, signal.SIG_DFL)
        script = 'before=$(stty -g); trap : INT QUIT; "$@"; status=$?; [ "$before" = "$(stty -g)" ] && echo "[$status same]" || echo "[$status other]"'
        os.execvp("sh", ["sh", "-c", script, "sh"] + words)
    shown = b""
    seen = []
    keys = list(keys)
    length = 0
    since = time.time()
    end = since + 40
    while time.time() < end:
        ready, _, _ = select.select([terminal], [], [], 0.05)
        if ready:
            try:
                got = os.read(terminal, 65536)
            except OSError:
                break
            if not got:
                break
            shown += got
            if shown.startswith(b"pmach: not proved"):  # what the script `pmach` prints for such a program
                shown = shown.split(b"\n", 1)[1] if b"\n" in shown else shown
            continue
        now = time.time()
        if keys and (len(shown) > length or not seen and is_raw(terminal) or now > since + 4):
            seen.append(shown)
            length = len(shown)
            since = now
            key = keys.pop(0)
            if isinstance(key, bytes):
                os.write(terminal, key)
            else:  # a signal for the script only, or, below 0, for the program only
                front = subprocess.check_output(["pgrep", "-P", str(child)]).split()[0].decode()
                process = front if key > 0 else subprocess.check_output(["pgrep", "-P", front]).split()[0]
                os.kill(int(process), abs(key))
    os.waitpid(child, 0)
    seen.append(shown)
    return shown, seen


def check(name, holds, shown):
    global failed
    print(("  passed: " if holds else "  FAILED: ") + name + ("" if holds else " " + repr(shown)))
    failed += 0 if holds else 1


for number, status in (signal.SIGTERM, b"143"), (signal.SIGHUP, b"129"), (signal.SIGINT, b"130"), (signal.SIGQUIT, b"131"):
    shown, _ = run([program, "run", "--d4", image, "ECHO"], [b"a", number])
    check("signal %d to the front alone ends it" % number, shown == b"a[%s same]\r\n" % status, shown)
for number, status in (signal.SIGTERM, b"143"), (signal.SIGKILL, b"137"):
    shown, _ = run([program, "run", "--d4", image, "ECHO"], [b"a", -number])
    check("signal %d to the program alone ends it" % number, shown.startswith(b"a") and shown.endswith(b"[%s same]\r\n" % status), shown)
shown, seen = run([program, "run", "--d4", image, "ECHO"], [b"a", b"b", b"."])
check("each key comes back at once, and once", [len(x) for x in seen] == [0, 1, 2, len(shown)] and shown.startswith(b"ab."), (shown, seen))
check("the message has a line of its own, and the terminal is as before", shown == b"ab.\r\nended 41\r\n[0 same]\r\n", shown)
shown, _ = run([program, "run", "--d4", image, "ECHO"], [b"a", b"\r", b"."])
check("Return is 13, shown as a new line", shown.startswith(b"a\r\r\n.") or shown.startswith(b"a\r\n."), shown)
shown, _ = run([program, "run", "--d4", image, "ECHO"], [b"a", b"\x04"])
check("Ctrl-D ends the input", b"waiting" in shown and shown.endswith(b"[6 same]\r\n"), shown)
shown, _ = run([program, "run", "--d4", image, "ECHO"], [b"a", b"\x03"])
check("Ctrl-C ends with 130", shown.endswith(b"[130 same]\r\n"), shown)
shown, _ = run([program, "run", "--escape", "--d4", image, "ECHO"], [b"a", b"\x03", b"\x04", b"."])
check("with --escape Ctrl-C and Ctrl-D are keys", shown == b"a\x03\x04.\r\nended 54\r\n[0 same]\r\n", shown)
shown, _ = run([program, "run", "--d4", image, "--escape", "ECHO"], [b"a", b"\x1d"])
check("with --escape Ctrl-] ends the input", b"\nwaiting " in shown and b"input has ended\r\n" in shown and shown.endswith(b"[6 same]\r\n"), shown)
shown, _ = run([program, "run", "--d4", image, "--escape", "ECHO"], [b"a", b"\x1c"])
check("with --escape Ctrl-\\ ends with 131", shown.endswith(b"[131 same]\r\n"), shown)
shown, _ = run([program, "trace", "--d4", image, "ECHO"], [b"a", b"\r", b"."])
check("a trace has each key at once, and Return as 13", b" 00013 " in shown and b" 00010 " not in shown and shown.endswith(b"ended 41\r\n[0 same]\r\n"), shown)
shown, _ = run([program, "debug", "--d4", image, "LOADS"], [b"go 1\n", b"quit\n"])
check("the debugger prompts", b"> go 1\r\nlimit 1\r\n> quit\r\n" in shown, shown)
shown, _ = run([program, "files", "--image", image + ".none", "list"], [])
check("a second line says which file and why", b"read fault\r\npmach: " in shown and b"no such file" in shown, shown)
sys.exit(1 if failed else 0)
