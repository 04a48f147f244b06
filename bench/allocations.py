"""allocations.py [PROGRAM]: refuses each allocation of each library call that requests memory, one at a time.

After each refusal the script checks three things: the call reports that memory is exhausted; everything that was passed to
the call is unchanged; and the same call, repeated with enough memory, has its usual result. The calls are in
allocations/main.rt.text. The script faults.py does the same for whole command lines, and compares their files.

PROGRAM is the program of that text, if it is built already. Without PROGRAM, `rt run` proves and builds it in a copy of the
repository, and uses what `rt check` has cached there. Run manually; not part of the gate. Requires a C compiler (faults.c)."""
import os
import shutil
import subprocess
import sys
import tempfile

here = os.path.dirname(os.path.abspath(__file__))
top = os.path.dirname(here)
uses = "pm_words pm_opcode pm_textfile pm_codefile pm_asm pm_disasm pm_volume pm_filer pm_check pm_machine pm_trace pm_debug"


def copied(folder):
    """A copy of the repository in which the program is a crate; its folder."""
    crates = os.path.join(folder, "crates")
    shutil.copytree(os.path.join(top, "crates"), crates, ignore=shutil.ignore_patterns("must-fail", "wrong", "data"))
    crate = os.path.join(crates, "allocations")
    os.mkdir(crate)
    os.makedirs(os.path.join(crate, "src"))
    for text in os.listdir(os.path.join(here, "allocations")):
        shutil.copy(os.path.join(here, "allocations", text), os.path.join(crate, "src", text.removesuffix(".text")))
    with open(os.path.join(top, "crates.txt")) as file, open(os.path.join(folder, "crates.txt"), "w") as to:
        to.write(file.read() + "allocations: " + uses + "\n")
    return crate


def main():
    with tempfile.TemporaryDirectory() as scratch:
        if len(sys.argv) > 1:
            program = os.path.abspath(sys.argv[1])
        else:
            crate = copied(os.path.join(scratch, "copy"))
            subprocess.run(["rt", "run", "--jobs", "1"], cwd=crate, stdin=subprocess.DEVNULL, check=True)
            program = os.path.join(crate, "out", "allocations")
        shim, counts = os.path.join(scratch, "faults.so"), os.path.join(scratch, "counts")
        subprocess.run(["cc", "-O1", "-shared", "-fPIC", "-o", shim, os.path.join(here, "faults.c"), "-ldl"], check=True)

        def run(fault=None):
            environment = dict(os.environ, LD_PRELOAD=shim, FAULT_COUNTS=counts, **({"FAULT": fault} if fault else {}))
            done = subprocess.run([program], stdin=subprocess.DEVNULL, stdout=subprocess.PIPE, stderr=subprocess.STDOUT, env=environment)
            return done.returncode, done.stdout.decode(errors="replace")

        status, usual = run()
        assert status == 0 and "WRONG" not in usual, usual
        with open(counts) as file:
            allocations = int(file.read().split()[0])
        found = {5: 0, 6: 0}
        wrong = 0
        for k in range(1, allocations + 1):
            status, out = run("alloc:%d" % k)
            if status in found:
                found[status] += 1
            elif (status, out) != (0, usual):
                wrong += 1
                print("allocation %d: status %d, %s" % (k, status, out.strip()))
        print("%s; %d allocations: %d refused in a call, %d in what leads to one, %d that changed nothing, %d wrong"
              % (usual.strip(), allocations, found[5], found[6], allocations - found[5] - found[6] - wrong, wrong))
        return 1 if wrong else 0


sys.exit(main())
