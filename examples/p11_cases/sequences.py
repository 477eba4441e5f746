"""Cases of several turns: any instructions, as memory has them where PC comes to, or a program that uses devices."""
from cases_reading import SECTOR_BYTES, image_of
from pdp11.drive import Drive

from . import instructions, state
from .choices import DEVICES
from .drawing import Draws
from .instructions import Drawn, Kind
from .program import DISK_REGISTERS

MOST_TURNS = 40
# MOV #word,@#address; BR to itself; WAIT
MOVE, STAY, WAIT = 0o12737, 0o777, 1
LKS, RCSR, RBUF, XCSR, XBUF = 0o177546, 0o177560, 0o177562, 0o177564, 0o177566
RKCS, RKWC, RKBA, RKDA = 0o177404, 0o177406, 0o177410, 0o177412
PLACES = [LKS, RCSR, RBUF, XCSR, XBUF, *range(0o177400, 0o177414, 2), 0o177416, 0o177570]
VECTORS = (0o60, 0o64, 0o100, 0o220)


def turns(machine, most):
    """Makes turns up to a HALT; how many."""
    for made in range(1, most + 1):
        machine.turn()
        if machine.halted:
            return made
    return most


def draw(machine, seed, number):
    """A sequence of instructions that meets no device."""
    again = 0
    while True:
        draws = Draws(f"{seed} sequence {number} {again}", number % 3 > 0)
        before = instructions.begin(machine, draws, Kind(draws.pick(instructions.TABLE), ()))
        made = turns(machine, 2 + draws.below(MOST_TURNS - 1))
        if made > 1 and not machine.marks & set(DEVICES):
            return Drawn(f"sequence {number}", "sequence", before, made)
        again += 1


class Program:
    """A program that uses devices, and what its devices begin with."""

    def __init__(self, draws):
        self.draws = draws
        self.words, self.turns = [], 2 + draws.below(MOST_TURNS - 1)
        self.last = draws.pick([[], [], [STAY], [WAIT]])
        self.devices = {"clock": 0, "keys": [], "switches": draws.word(), "packs": []}

    def move(self, word, place):
        self.words += [MOVE, word, place]

    def clock(self):
        self.devices["clock"] = 2 + self.draws.below(12)
        self.move(self.draws.pick([0o100, 0o300, 0o300, 0, 0o377]), LKS)

    def receiver(self):
        self.devices["keys"] = [self.draws.below(128) for _ in range(1 + self.draws.below(3))]
        self.move(self.draws.pick([0o100, 0o100, 0]), RCSR)
        # MOVB @#177562,R2
        self.words += [0o113702, RBUF] if self.draws.chance(0.5) else []

    def transmitter(self):
        self.move(self.draws.pick([0o100, 0o100, 0]), XCSR)
        self.move(self.draws.below(256), XBUF)
        if self.draws.chance(0.6):
            self.turns = 60 + self.draws.below(20)

    def pack(self, drive, sector):
        """A pack with one sector that isn't zeros."""
        data = bytes(self.draws.below(256) for _ in range(1 + self.draws.below(3)))
        held = (data * SECTOR_BYTES)[:SECTOR_BYTES]
        self.devices["packs"].append({"drive": drive, "protected": self.draws.chance(0.2), "sectors": [[sector, held.hex()]]})

    def disk(self):
        draws = self.draws
        function = draws.pick([1, 1, 1, 2, 2, 3, 3, 4, 5, 6, 7, 0])
        drive, cylinder, surface, sector, count = draws.below(8), *self.place()
        if draws.chance(0.95):
            self.pack(drive, min((min(cylinder, 202) * 2 + surface) * 12 + sector, 4871))
        self.move(-count % 65536, RKWC)
        extension = draws.pick([0, 0, 0, 0, 1, 2, 3])
        address = draws.even(0o160000, 0o177776) if draws.chance(0.5 if extension == 3 else 0.1) else draws.even(0o400, 0o150000)
        self.move(address, RKBA)
        self.move(0o20000 * drive + 0o40 * cylinder + 0o20 * surface + sector, RKDA)
        # SSE, IBA, FMT
        extra = draws.pick([0, 0, 0, 0, 0, 0o400, 0o400, 0o4000, 0o4000, 0o2000])
        self.move(2 * function + 1 + 0o100 * draws.chance(0.6) + 0o20 * extension + extra, RKCS)
        if draws.chance(0.15):
            # a second function while the first one may still run
            self.move(2 * draws.pick([1, 2, 4, 6]) + 1 + 0o100 * draws.chance(0.7), RKCS)
        self.turns = draws.pick([10, *[70 + 32 * (count // 256) + min(cylinder, 202)] * 3])
        self.last = draws.pick([[STAY], [STAY], [STAY], [WAIT]])

    def place(self):
        """Cylinder, surface and sector of a transfer, and its words: some go over the end of a track, a cylinder or the pack."""
        draws = self.draws
        if draws.chance(0.2):
            return draws.pick([202, 202, 0, 1]), draws.pick([0, 1, 1]), 11, draws.pick([257, 300, 513])
        cylinder = draws.pick([0, 0, 0, 1, 2, 202, draws.below(203), 203, 255])
        return cylinder, draws.below(2), draws.pick([0, 1, 11, draws.below(12), draws.below(12), 12 + draws.below(4)]), \
            draws.pick([1, 2, 3, 17, 256, 257, 1 + draws.below(512)])

    def registers(self):
        """Reads and writes registers of any device, in words and in bytes."""
        draws = self.draws
        for _ in range(1 + draws.below(5)):
            place = draws.pick(PLACES)
            # MOV, TST and MOVB of it; MOV, BIS, BIC, MOVB to it; INC
            self.words += draws.pick([[0o13702, place], [0o5737, place], [0o113703, place + draws.below(2)],
                                      [MOVE, draws.word(), place], [MOVE, 0o100, place], [0o52737, 0o100, place],
                                      [0o42737, draws.word(), place], [0o112737, draws.word(), place + draws.below(2)],
                                      [0o5237, place]])

    def drawn(self):
        draws = self.draws
        every = [self.clock, self.receiver, self.transmitter, self.registers]
        others = [part for part in every if draws.chance(0.2)]
        for part in others + [draws.pick([*every, *[self.disk] * len(every)])]:
            part()
        self.words += self.last
        return self


def begin(machine, draws, program):
    """Puts a machine, new but for memory that is drawn, into the state at which the program begins."""
    before = state.blank()
    draws.program = start = draws.even(0o1000, 0o100000)
    before["r"] = [draws.address() for _ in range(6)]
    status = draws.pick([0, 0, 0o340, 0o200, 0o240]) + draws.codes()
    stack = draws.even(0o1000, 0o150000) if draws.chance(0.96) else draws.pick([1, 0o1001, 0, 2, 0o160002])
    before.update(ksp=stack, usp=draws.even(0o1000, 0o150000), pc=start, ps=status)
    state.put(machine, before)
    put_devices(machine, program.devices)
    machine.begin(draws.drawn)
    for at, word in enumerate(program.words):
        machine.memory.place(start + 2 * at, word)
    for vector in VECTORS:
        machine.memory.place(vector, draws.even(0o1000, 0o150000))
        machine.memory.place(vector + 2, draws.new_status())
    return before


def put_devices(machine, devices):
    """Sets the clock's period, the keys, the switches and the packs of the model's machine."""
    machine.clock.set_period(0, devices["clock"])
    machine.console.keys, machine.console.receiver_next = list(devices["keys"]), 0
    machine.switches, machine.typed = devices["switches"], []
    for pack in devices["packs"]:
        machine.disk.drives[pack["drive"]] = Drive(image_of(pack), pack["protected"])


def leave(machine):
    """Takes the packs, keys and the clock's period away again."""
    machine.disk.drives = [None] * len(machine.disk.drives)
    machine.clock.set_period(0, 0)
    machine.console.keys, machine.switches = [], 0


def draw_devices(machine, seed, number):
    """A program with devices, on a new machine."""
    draws = Draws(f"{seed} devices {number}")
    program = Program(draws).drawn()
    before = begin(machine, draws, program)
    made = turns(machine, program.turns)
    return Drawn(f"devices {number}", "devices", {**before, "devices": program.devices}, made)


def devices_after(machine):
    """What the model's devices show."""
    console, disk = machine.console, machine.disk
    found = {"lks": machine.clock.read(), "rcsr": console.see(0o777560), "rbuf": console.see(0o777562),
             "xcsr": console.see(0o777564), "keys": len(console.keys), "typed": list(machine.typed)}
    for name, place in zip(DISK_REGISTERS, range(0o777400, 0o777414, 2)):
        found[name] = disk.see(machine.turns, place)
    found["requests"] = [int(getattr(device, request)) for _, _, device, request in machine.requests()]
    found["packs"] = [{"drive": number, "protected": drive.protected, "cylinder": drive.cylinder,
                       "sectors": [[sector, drive.sectors[sector].hex()] for sector in drive.changed]}
                      for number, drive in enumerate(disk.drives) if drive is not None]
    return found
