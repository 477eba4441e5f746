"""Runs of the small system that are cut within writes of its disk."""
import os

from system_model import Differs, Model, P11, fs

# what changes the pack in each way: a new file, one in place of an old one, a name in place of another, one less
COMMANDS = ["cp sort x", "echo one >y", "cat sh sort sh >x", "sort x >y", "mv y x", "cat help help >help", "rm x", "mv help z"]
WRITE = 0o2
# p11 reads a million pieces of a script at most, and a cut takes it some hundred lines
CUTS_OF_ONE = 300


def snapshots(machine, line, folder):
    """Types a line, and gives the pack each time that a sector more has been written."""
    machine.type(line + "\r")
    written, name = None, os.path.join(folder, "cut.pack")
    while machine.stop != "idle":
        control = int(machine.ask("examine 777404").split()[2], 8)
        if control & 0o200 or control & 0o16 != WRITE:
            machine.run(20)
            continue
        machine.ask("step 8")
        place = machine.ask("examine 777412")
        if place != written:
            written = place
            yield machine.pack(name)


def again(machine, program, folder):
    """Another p11, with the pack as this one has it."""
    name = os.path.join(folder, "again.pack")
    machine.pack(name)
    machine.end()
    return P11(program, name)


def states(line, before, after):
    """What files there may be while a line is done: those before it, those behind it, and between them what rm has left."""
    found = [dict(before)]
    for word in line.split()[1:] if line.startswith("rm ") else []:
        found.append({name: data for name, data in found[-1].items() if name != word.encode()})
    return [*found, after]


def cuts(program, folder, pack, boots, lines=lambda _: COMMANDS, most=1000):
    """The lines, which are given the model, are cut behind each sector that they write, until there are so many cuts; every
    BOOTS-th pack is booted."""
    count, booted, asked = 0, 0, 0
    machine, model = P11(program, pack), Model(fs.Pack(fs.read(pack)).files)
    for line in lines(model):
        if count >= most:
            break
        if count >= asked + CUTS_OF_ONE:
            machine, asked = again(machine, program, folder), count
        before = dict(model.files)
        wanted = model.answer(line)
        allowed = states(line, before, model.files)
        for image in snapshots(machine, line, folder):
            found = fs.Pack(image)
            if found.files not in allowed or [one for one in found.wrong if "director" not in one]:
                raise Differs(f"{line} was cut, and the pack has other files: {found.wrong}")
            count += 1
            if count % boots == 0:
                boot(program, folder, image, found.files)
                booted += 1
        typed = machine.answer()
        if typed != f"{line}\r\n{wanted}$ ":
            raise Differs(f"{line} types {typed!r}")
    machine.end()
    return f"{count} runs cut within writes leave old files or new ones, {booted} of the packs are booted"


def boot(program, folder, image, files):
    """A pack that was cut is booted, which mends it, and has these files."""
    name = os.path.join(folder, "boot.pack")
    fs.write(name, image)
    machine = P11(program, name)
    said = machine.line("fsck")
    after = fs.Pack(machine.pack(name))
    machine.end()
    if said != f"{len(files)} files are right\r\n" or after.wrong or after.files != files:
        raise Differs(f"behind the boot of a pack that was cut: {machine.hello!r}, {said!r}, {after.wrong}")
