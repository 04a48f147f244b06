"""The p-machine for Python. It reads the prototypes of all calls from pmach.h, and has a class for machines.

    import pmach
    pmach.load("out/unproved/libpm_c.a")         # built by `./pmach --library`
    code = pmach.job("assemble", text, False)    # returns the bytes of the answer; raises Refused if the job is refused
    blocks = pmach.job("convert", image, b"", b"blocks")    # an image in any format, as the other jobs read it
    with pmach.Machine.raw(bytes.fromhex("020382D6")) as machine:
        while machine.step() == 0:
            print(machine.line())

The arguments of a job are the name of a call of pmach.h without `pmach_`, and its parameters in order: bytes, numbers,
True or False. This module adds the lengths, the buffer and `needed`."""
import ctypes
import os
import re
import subprocess
import tempfile

NUMBERS = {"bool": ctypes.c_bool, "size_t": ctypes.c_size_t, "uint8_t": ctypes.c_uint8, "uint16_t": ctypes.c_uint16,
           "uint32_t": ctypes.c_uint32, "uint64_t": ctypes.c_uint64}
DONE, TOO_SHORT, NOTHING, DIFFERENT = 0, 7, 18, 19


class Handle(ctypes.Structure):
    _fields_ = [("machine", ctypes.c_void_p)]


class Shown(ctypes.Structure):
    """The registers, the steps, and whether the machine goes on."""
    _fields_ = [("steps", ctypes.c_uint64), ("status", ctypes.c_uint32)] + [
        (name, ctypes.c_uint16) for name in "ipc sp mp base np seg jtab ioresult".split()]


class Place(ctypes.Structure):
    """The position of a machine in the code."""
    _fields_ = [("segment", ctypes.c_uint8), ("procedure", ctypes.c_uint8), ("offset", ctypes.c_uint16)]


STRUCTS = {"struct pmach": Handle, "struct pmach_shown": Shown, "struct pmach_place": Place}


class Refused(Exception):
    """A call failed: its status, and for a job the message of the program."""

    def __init__(self, call, status, message=b""):
        super().__init__("%s: status %d, %s" % (call, status, message.decode("ascii", "replace") or sentence(status)))
        self.status, self.message = status, message


def prototypes(header):
    """Yields each call of the header: its name, the type of its result, the types of its parameters."""
    text = re.sub(r"/\*.*?\*/", "", header, flags=re.S)
    for answer, name, given in re.findall(r"(\w+) pmach_(\w+)\(([^)]*)\);", text):
        types = []
        for word in (re.sub(r"\s+", " ", part).strip() for part in given.split(",") if part != "void"):
            kind, star, _ = re.fullmatch(r"(?:const )?((?:struct )?\w+) (\*?)(\w+)", word).groups()
            if not star:
                types.append(NUMBERS[kind])
            elif kind == "uint8_t":
                types.append(ctypes.c_char_p)
            else:
                types.append(ctypes.POINTER(STRUCTS.get(kind) or NUMBERS[kind]))
        yield name, NUMBERS.get(answer), types


def shared(archive):
    """Makes a shared library of an archive with the C compiler, and loads it; its file is deleted again."""
    with tempfile.TemporaryDirectory() as folder:
        made = os.path.join(folder, "pm_c.so")
        subprocess.run([os.environ.get("CC", "cc"), "-shared", "-o", made, "-Wl,--whole-archive", archive,
                        "-Wl,--no-whole-archive"], check=True)
        return ctypes.CDLL(made)


def load(library, header=None):
    """Loads a shared library or an archive, with the prototypes of the header (default: pmach.h next to this file)."""
    path = header or os.path.join(os.path.dirname(os.path.abspath(__file__)), "pmach.h")
    loaded = shared(library) if library.endswith(".a") else ctypes.CDLL(os.path.abspath(library))
    with open(path, encoding="utf-8") as file:
        for name, answer, types in prototypes(file.read()):
            call = getattr(loaded, "pmach_" + name)
            call.restype, call.argtypes = answer, types
            CALLS[name] = call


CALLS = {}


def told(call, *given):
    """Returns the status of a call that writes bytes, and these bytes; the buffer gets the length that the call needs."""
    words = []
    for it in given:
        words += [bytes(it), len(it)] if isinstance(it, (bytes, bytearray)) else [it]
    needed, size, status = ctypes.c_size_t(), 1, TOO_SHORT
    while status == TOO_SHORT:
        out = ctypes.create_string_buffer(size)
        status = CALLS[call](*words, out, size, ctypes.byref(needed))
        size = needed.value
    return status, out.raw[:needed.value]


def sentence(status):
    """Returns the text for a status."""
    return told("sentence", status)[1].decode()


def job(call, *given):
    """Returns the answer of a job; raises Refused if its status is 2 or it has no answer. `told` also returns the status."""
    status, answer = told(call, *given)
    if status not in (0, 3, 6, NOTHING, DIFFERENT):
        raise Refused(call, status, answer)
    return answer


class Machine:
    """A machine; `with` frees it at its end."""

    def __init__(self, call, *words):
        self.handle = Handle()
        self.done(call, *words)

    @classmethod
    def raw(cls, code):
        """Returns a machine at the start of bare code."""
        return cls("new", code, len(code))

    @classmethod
    def boot(cls, image, name, clock=0):
        """Returns a machine at the start of the code file NAME on the volume IMAGE, on unit 4."""
        return cls("boot", image, len(image), name, len(name), clock)

    def call(self, call, *words):
        """Returns the status of a call on this machine."""
        return CALLS[call](ctypes.byref(self.handle), *words)

    def done(self, call, *words):
        status = self.call(call, *words)
        if status != DONE:
            raise Refused(call, status)

    def told(self, call, *words):
        status, answer = told(call, ctypes.byref(self.handle), *words)
        if status != DONE:
            raise Refused(call, status)
        return answer

    def step(self):
        """Executes a step: 0 success, 1 the program waits for a key, 2 it has ended, 100 plus the number of the error."""
        return self.call("step")

    def run(self, limit):
        """Executes at most LIMIT steps; returns the status of the last, and the number of steps."""
        steps = ctypes.c_uint64()
        return self.call("run", limit, ctypes.byref(steps)), steps.value

    def key(self, byte):
        self.done("key", byte)

    def poke(self, address, word):
        self.done("poke", address, word)

    def mount(self, unit, image):
        self.done("mount", unit, image, len(image))

    def eject(self, unit):
        """Ejects the disk of a unit and returns its image."""
        self.done("eject", unit)
        return self.told("ejected")

    def command(self, line):
        """Returns the answer of the debugger to a line, without its last line feed."""
        line = line.encode()
        self.done("command", line, len(line))
        return self.told("answer").decode()[:-1]

    def set_break(self, segment, procedure, offset, on=True):
        self.done("break", segment, procedure, offset, on)

    def watch(self, address, on=True):
        self.done("watch", address, on)

    def go(self, limit):
        """Executes at most LIMIT steps, up to a breakpoint (15) or a changed watched word (16); returns the status, the
        number of steps, and the address of this word."""
        steps, address = ctypes.c_uint64(), ctypes.c_uint16()
        return self.call("go", limit, ctypes.byref(steps), ctypes.byref(address)), steps.value, address.value

    def on(self, limit):
        """Continues the last run, which its limit stopped, for at most LIMIT more steps; returns what `go` returns for the
        whole run. The status is 506 if no run can be continued."""
        steps, address = ctypes.c_uint64(), ctypes.c_uint16()
        return self.call("on", limit, ctypes.byref(steps), ctypes.byref(address)), steps.value, address.value

    def variable(self, number, depth=0):
        """Returns the value of a variable of the procedure that is DEPTH static links up."""
        word = ctypes.c_uint16()
        self.done("variable", depth, number, ctypes.byref(word))
        return word.value

    def registers(self):
        shown = Shown()
        self.done("registers", ctypes.byref(shown))
        return shown

    def word(self, address):
        word = ctypes.c_uint16()
        self.done("word", address, ctypes.byref(word))
        return word.value

    def place(self):
        """Returns segment, procedure and offset in bytes; None if the machine is outside the code."""
        place = Place()
        return (place.segment, place.procedure, place.offset) if self.call("place", ctypes.byref(place)) == DONE else None

    def line(self):
        """Returns the trace line of the next step."""
        return self.told("line").decode()

    def instruction(self, address):
        """Returns the text of the instruction at an address."""
        return self.told("instruction", address).decode()

    def console(self, start=0):
        return self.told("console", start)

    def printer(self, start=0):
        return self.told("printer", start)

    def free(self):
        CALLS["free"](ctypes.byref(self.handle))

    def __enter__(self):
        return self

    def __exit__(self, *_):
        self.free()
