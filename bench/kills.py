"""kills.py PMACH FOLDER N: kills the program N times, at random moments, while it writes a volume of 32 MB. Each time the image
must be the old one or the new one."""
import os
import random
import signal
import subprocess
import sys
import time

program, folder, rounds = sys.argv[1], sys.argv[2], int(sys.argv[3])
path = os.path.join(folder, "kills.img")


def words(name):
    return [program, "files", "--image", path, "zero", name]


subprocess.run([program, "files", "--image", path, "new", "A", "65535"], check=True)
with open(path, "rb") as file:
    image = bytearray(file.read())
for place in range(512 * 6, len(image)):
    image[place] = place * 7 % 251
with open(path, "wb") as file:
    file.write(image)
begun = time.time()
subprocess.run(words("B"), check=True)
whole = time.time() - begun
with open(path, "rb") as file:
    tail = file.read()[512 * 6:]
random.seed(7)
torn = old = new = 0
for number in range(rounds):
    name = "N%d" % number
    process = subprocess.Popen(words(name), stderr=subprocess.DEVNULL)
    time.sleep(random.random() * whole * 1.1)
    process.send_signal(signal.SIGKILL)
    process.wait()
    with open(path, "rb") as file:
        now = file.read()
    if len(now) != len(image) or now[512 * 6:] != tail:
        torn += 1
    elif now[1030:1031 + len(name)] == bytes([len(name)]) + name.encode():
        new += 1
    else:
        old += 1
subprocess.run(words("LAST"), check=True)
left = [name for name in os.listdir(folder) if name.startswith("kills.img.")]
print("%d kills: %d old, %d new, %d torn; left behind the next command: %d files" % (rounds, old, new, torn, len(left)))
sys.exit(0 if torn == 0 and not left else 1)
