"""The operator's panel: one method per command. Each gives its answer's lines or is refused."""
from . import status, tape
from .console_line import ROOM
from .drive import IMAGE_BYTES, Drive
from .machine import Machine
from .numbers import INPUT_OUTPUT_PAGE, WORD, with_byte
from .refusals import refuse_if

MOST_TURNS_OF_A_RUN = 100_000_000
MOST_TURNS = 2 ** 62
MOST_WORDS_EXAMINED = 512
MOST_WORDS_DEPOSITED = 64
DONE = ["OK"]


def octal(number):
    return f"{number:06o}"


def due_text(turn):
    return "-" if turn is None else str(turn)


def escaped(text):
    """Bytes outside 041 to 176 and the backslash are written as a backslash and three octal digits."""
    return "".join(chr(byte) if 0o41 <= byte <= 0o176 and byte != 0o134 else f"\\{byte:03o}"
                   for byte in text)


class Panel:
    def __init__(self, kilowords):
        self.machine = Machine(kilowords)

    # Drives.

    def drive(self, number):
        drives = self.machine.disk.drives
        refuse_if(number >= len(drives), "NoDrive")
        refuse_if(drives[number] is None, "DriveEmpty")
        return drives[number]

    def mount(self, number, image, protected):
        drives = self.machine.disk.drives
        refuse_if(number >= len(drives), "NoDrive")
        refuse_if(drives[number] is not None, "DriveTaken")
        refuse_if(len(image) > IMAGE_BYTES, "ImageTooLong")
        drives[number] = Drive(image, protected)
        return DONE

    def unmount(self, number):
        self.drive(number)
        refuse_if(self.machine.disk.busy(number), "DriveBusy")
        self.machine.disk.drives[number] = None
        return DONE

    def save(self, number):
        """The drive's bytes, which the session puts in the store."""
        return self.drive(number).image()

    def changed(self, number):
        changed = self.drive(number).changed
        return [" ".join(["CHANGED", str(len(changed))] + [str(sector) for sector in changed])]

    # Words.

    def addresses(self, first, count):
        return [first + 2 * place for place in range(count)]

    def check(self, first, addresses):
        refuse_if(first % 2 == 1, "OddAddress")
        refuse_if(any(self.machine.see(address) is None for address in addresses), "NoAnswer")

    def examine(self, first, count):
        refuse_if(not 1 <= count <= MOST_WORDS_EXAMINED, "TooMany")
        addresses = self.addresses(first, count)
        self.check(first, addresses)
        return [f"EXAM {octal(address)} {octal(self.machine.bus_read(address, WORD))}"
                for address in addresses]

    def deposit(self, first, words):
        refuse_if(not 1 <= len(words) <= MOST_WORDS_DEPOSITED, "TooMany")
        addresses = self.addresses(first, len(words))
        refuse_if(len(words) > 1 and addresses[-1] >= INPUT_OUTPUT_PAGE, "TooMany")
        self.check(first, addresses)
        for address, word in zip(addresses, words):
            self.machine.bus_write(address, word, WORD)
        return DONE

    def load(self, contents):
        try:
            placed, start = tape.read_tape(contents)
        except tape.TapeFault:
            refuse_if(True, "BadTape")
        memory = self.machine.memory
        refuse_if(any(address - address % 2 not in memory for address, _ in placed), "NoAnswer")
        for address, byte in placed:
            even = address - address % 2
            memory[even] = with_byte(memory[even], address % 2 == 1, byte)
        return [f"TAPE {len(placed)} {'none' if start is None else octal(start)}"]

    # Switches, keys, clock.

    def start(self, address):
        refuse_if(address % 2 == 1, "OddAddress")
        self.machine.start(address)
        return DONE

    def key(self, text):
        console = self.machine.console
        refuse_if(len(text) > ROOM - len(console.keys), "KeysFull")
        console.keys += text
        return DONE

    def tick(self):
        self.machine.clock.tick()
        return DONE

    def clock(self, period):
        self.machine.clock.set_period(self.machine.turns, period)
        return DONE

    def switches(self, word):
        self.machine.switches = word
        return DONE

    def set(self, register, word):
        machine = self.machine
        refuse_if(register > 0o7 and register not in (0o10, 0o11), "BadRegister")
        if register <= 5:
            machine.general[register] = word
        elif register == 6:
            machine.kernel_stack = word
        elif register == 7:
            machine.program = word
        elif register == 0o10:
            machine.user_stack = word
        else:
            machine.status = status.without_unused_bits(word)
        return DONE

    def flush(self):
        return DONE

    # Runs.

    def run(self, asked, may_be_idle):
        machine = self.machine
        refuse_if(not 1 <= asked <= MOST_TURNS_OF_A_RUN, "TooMany")
        refuse_if(machine.turns + asked > MOST_TURNS, "TooMany")
        made, reason = 0, None
        while reason is None:
            if made > 0 and machine.halted:
                reason = "halt"
            elif made == asked:
                reason = "turns"
            elif may_be_idle and machine.idle():
                reason = "idle"
            else:
                machine.turn()
                made += 1
        typed, machine.typed = machine.typed, []
        lines = [f"TTY {escaped(typed)}"] if typed else []
        return lines + [f"STOP {reason} {made} {octal(machine.program)}"]

    def step(self, asked):
        return self.run(asked, may_be_idle=False)

    def go_on(self, asked):
        return self.run(asked, may_be_idle=True)

    # What the panel shows.

    def regs(self):
        machine = self.machine
        mark = "halted" if machine.halted else "waiting" if machine.waiting else "ready"
        return ["REGS " + " ".join(octal(word) for word in machine.general),
                f"SP {octal(machine.kernel_stack)} {octal(machine.user_stack)}"
                f" PC {octal(machine.program)} PS {octal(machine.status)}",
                f"TURN {machine.turns} {mark}"]

    def device(self):
        machine = self.machine
        clock, console, disk = machine.clock, machine.console, machine.disk
        lines = [f"KW11 {octal(clock.read())} every {clock.period} due {due_text(clock.due)}"]
        words = [octal(console.see(address)) for address in (0o777560, 0o777562, 0o777564)]
        lines.append(f"DL11 {' '.join(words)} keys {len(console.keys)}"
                     f" rx {due_text(console.receiver_due(machine.turns))}"
                     f" tx {due_text(console.sending_due)}")
        words = [octal(disk.see(machine.turns, address)) for address in range(0o777400, 0o777414, 2)]
        lines.append(f"RK11 {' '.join(words)} due {due_text(disk.transfer_due)}")
        for number, drive in enumerate(disk.drives):
            if drive is None:
                lines.append(f"DRIVE {number} empty")
            else:
                lines.append(f"DRIVE {number} {'ro' if drive.protected else 'rw'}"
                             f" cylinder {drive.cylinder} changed {len(drive.changed)}"
                             f" due {due_text(drive.seek_due)}")
        lines.append(f"MMU {octal(machine.management.status_0)} {octal(machine.management.status_2)}")
        requests = [int(getattr(device, request)) for _, _, device, request in machine.requests()]
        lines.append("REQ " + " ".join(str(request) for request in requests))
        return lines
