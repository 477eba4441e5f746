"""What becomes of a folder into which many processes save at once, and whose savers are killed: for tests/files, and longer
for soak/saves."""
import os
import random
import subprocess
import time

PACK = 203 * 2 * 12 * 512
OLD = b"old".ljust(PACK, b"\0")
NEW = b"new".ljust(PACK, b"\0")
FRONT = ".p11-new-"
# how many names those of a crowd save under
NAMES = 7


def write(path, contents):
    with open(path, "wb") as file:
        file.write(contents)


def is_either(path):
    with open(path, "rb") as file:
        return file.read() in (OLD, NEW)


def begin(program, folder, script, output):
    """A process that is given the script, and no end of it."""
    child = subprocess.Popen([program, "-"], cwd=folder, stdin=subprocess.PIPE, stdout=output)
    child.stdin.write(script.encode())
    child.stdin.flush()
    return child


def crowd(program, folder, processes, saves):
    """Processes that save two packs at once, under few names: how many saves were answered OK. Nothing else may be there
    afterwards, and each file is whole."""
    write(os.path.join(folder, "new"), NEW)
    write(os.path.join(folder, "other"), OLD)
    children = []
    for number in range(processes):
        script = "mount 0 new rw\nmount 1 other rw\n"
        script += "".join(f"save {number % 2} pack{(number + turn) % NAMES}\n" for turn in range(saves))
        children.append(begin(program, folder, script, subprocess.PIPE))
    answered = 0
    for child in children:
        child.stdin.close()
        answered += child.stdout.read().count(b"OK\n") - 2
        child.stdout.close()
        child.wait()
    names = set(os.listdir(folder)) - {"new", "other"}
    whole = all(is_either(os.path.join(folder, name)) for name in names)
    return answered if whole and names <= {f"pack{number}" for number in range(NAMES)} else 0


def kills(program, folder, count):
    """Kills sessions that save two packs in turns under one name. How often a new file was left; and whether the file was
    whole each time, no save was refused, and the save behind them all leaves nothing but the packs."""
    write(os.path.join(folder, "new"), NEW)
    write(os.path.join(folder, "other"), OLD)
    write(os.path.join(folder, "pack"), OLD)
    mounts = "mount 0 new rw\nmount 1 other rw\n"
    left, good = 0, True
    for _ in range(count):
        child = begin(program, folder, mounts + "save 0 pack\nsave 1 pack\n" * 2000, subprocess.PIPE)
        is_mounted = child.stdout.read(6) == b"OK\n" * 2
        time.sleep(random.uniform(0, 0.05))
        child.kill()
        good = good and is_mounted and b"?" not in child.stdout.read() and is_either(os.path.join(folder, "pack"))
        child.stdout.close()
        child.stdin.close()
        child.wait()
        left += any(name.startswith(FRONT) for name in os.listdir(folder))
    said = subprocess.run([program, "-"], cwd=folder, input=(mounts + "save 0 pack\n").encode(), capture_output=True).stdout
    good = good and said == b"OK\n" * 3 and sorted(os.listdir(folder)) == ["new", "other", "pack"]
    return left, good
