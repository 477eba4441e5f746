"""fuzz.py [--mode machine|text|any] [--out FOLDER] SEED: makes one random case from a seed.

A case is a script, the files that lie beside it, and the options --memory and --lines. With --out the
files, `script` and `arguments` are written into a folder; without it the script goes to standard output.
Other tools import `make_case(seed, mode)`.
"""
import os
import sys
from typing import NamedTuple

from cases.console import Console
from cases.devices import Devices
from cases.draws import Draws
from cases.mapping import Mapping
from cases.processor import Processor
from cases.programs import Programs
from cases.texts import Texts


class Case(NamedTuple):
    arguments: list   # words of the command line in front of the script's name
    files: dict       # name -> bytes
    script: bytes


class Generator(Draws, Programs, Processor, Mapping, Devices, Console, Texts):
    """One random case, drawn from a seed."""

    def machine_case(self):
        segments = [self.segment_one_instruction, self.segment_one_instruction, self.segment_arithmetic,
                    self.segment_program, self.segment_program, self.segment_program, self.segment_noise,
                    self.segment_pages, self.segment_pages, self.segment_pages, self.segment_service_faults,
                    self.segment_limit, self.segment_disk, self.segment_disk, self.segment_disk, self.segment_disk,
                    self.segment_disk, self.segment_registers, self.segment_registers, self.segment_returns, self.segment_returns,
                    self.segment_console, self.segment_console, self.segment_interrupts, self.segment_interrupts,
                    self.segment_user, self.segment_user, self.segment_user, self.segment_spaces,
                    self.segment_devices, self.segment_operator, self.segment_tapes, self.segment_tapes, self.segment_idle, self.segment_idle]
        if self.chance(0.05):
            self.files["long"] = bytes(2494465)
            self.say("mount 0 long rw")
        for _ in range(self.between(1, 5)):
            self.pick(segments)()
            self.say("regs")
            self.say("device")
        self.epilogue()
        return b"\n".join(self.lines) + b"\n"


def make_case(seed, mode="any"):
    generator = Generator(f"{mode} {seed}")
    if mode == "any":
        mode = "text" if generator.chance(0.12) else "machine"
    script = generator.machine_case() if mode == "machine" else generator.text_case()
    lines = generator.pick([0, 1, 1024, 1024, 4096])
    return Case(["--memory", str(generator.memory), "--lines", str(lines)], generator.files, script)


def write_case(case, folder):
    os.makedirs(folder, exist_ok=True)
    for name, contents in [*case.files.items(), ("script", case.script), ("arguments", " ".join(case.arguments).encode())]:
        with open(os.path.join(folder, name), "wb") as file:
            file.write(contents)


def main(words):
    mode, out = "any", None
    while words and words[0].startswith("--"):
        option, value, words = words[0], words[1], words[2:]
        if option == "--mode":
            mode = value
        elif option == "--out":
            out = value
        else:
            raise SystemExit(__doc__)
    if len(words) != 1:
        raise SystemExit(__doc__)
    case = make_case(int(words[0]), mode)
    if out is None:
        sys.stdout.buffer.write(case.script)
    else:
        write_case(case, out)


if __name__ == "__main__":
    main(sys.argv[1:])
