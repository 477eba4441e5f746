"""The cases of soak/simh: a random instruction, with the registers, memory and pages that it meets.

A case is plain data, so that it can be cut down. Everything comes from a seed and the number of the case.
"""
import random
from typing import NamedTuple

VECTORS = [0o4, 0o10, 0o14, 0o20, 0o30, 0o34, 0o250]
HANDLERS, CODE, DATA, POINTERS, USER_STACK, TARGETS = 0o2000, 0o3000, 0o24000, 0o44000, 0o64100, 0o6000
KERNEL_STACK = 0o700
CLEARED = [(0, 0o20), (0o320, 0o422), (0o660, 0o720), (0o2000, 0o2040), (0o2500, 0o3220), (0o6000, 0o6220),
           (0o64060, 0o64120)]
MEMORY_END = 0o160000
STATUS, SR0 = 0o777776, 0o777572
PAGE_REGISTERS = [base + 2 * page for base in (0o772300, 0o772340, 0o777600, 0o777640) for page in range(8)]
SINGLE = [0o0300, 0o6700, 0o6500, 0o6600] + [0o5000 + 0o100 * row for row in range(12)]
SINGLE_BYTE = [0o105000 + 0o100 * row for row in range(12)]
DOUBLE = [0o10000, 0o20000, 0o30000, 0o40000, 0o50000, 0o60000, 0o110000, 0o120000, 0o130000, 0o140000, 0o150000,
          0o160000]
REGISTER = [0o70000, 0o71000, 0o72000, 0o73000, 0o74000]
BRANCHES = [0o400 * row for row in range(1, 8)] + [0o100000 + 0o400 * row for row in range(8)]
OPERATE = [0, 1, 2, 3, 4, 5, 6]
RESERVED = [0o7, 0o77, 0o210, 0o230, 0o7000, 0o7777, 0o75000, 0o75040, 0o76000, 0o106400, 0o106500, 0o106600,
            0o106700, 0o107777, 0o170000, 0o170011, 0o177777]
GROUPS = ["single"] * 4 + ["byte"] * 3 + ["double"] * 7 + ["register"] * 4 + ["branch", "sob", "jump", "call",
          "return", "mark", "codes", "previous", "previous", "operate", "operate", "trap", "reserved"]
INTERESTING = [0, 1, 2, 0o77, 0o100, 0o177, 0o200, 0o377, 0o400, 0o77777, 0o77776, 0o100000, 0o100001, 0o177400,
               0o177577, 0o177600, 0o177776, 0o177777, 0o125252]


class Case(NamedTuple):
    number: int
    memory: dict      # address -> word
    registers: tuple  # R0 to R5, the kernel's stack pointer, the user's, PC, the status word
    pages: tuple      # the words of PAGE_REGISTERS; empty with mapping off

    @property
    def instruction(self):
        """The word at PC, where the page lies that the mode has there."""
        place = self.registers[8]
        if self.pages:
            address = self.pages[8 + place // 0o20000 + (16 if self.registers[9] >> 14 else 0)]
            place = address * 0o100 + place % 0o20000
        return self.memory.get(place, 0)


class Maker:
    """Makes one case."""

    def __init__(self, seed, number):
        self.random = random.Random(f"{seed} {number}")
        self.number = number
        self.mapped = self.chance(0.4)
        self.general = [self.address() if self.chance(0.7) else self.word() for _ in range(6)]

    def chance(self, part):
        return self.random.random() < part

    def pick(self, choices):
        return self.random.choice(choices)

    def word(self):
        """Any word but the address of a device's register, so that no device is met."""
        word = self.random.randrange(65536)
        if self.chance(0.4):
            word = self.pick(INTERESTING)
        elif self.chance(0.4):
            word = self.random.randint(-300, 300) % 65536
        return word - 0o200 if 0o177370 <= word < 0o177420 or 0o177540 <= word < 0o177572 else word

    def target(self):
        return TARGETS + 2 * self.random.randrange(64)

    def address(self):
        kind = self.random.random()
        if kind < 0.55:
            return DATA + 2 * self.random.randrange(2, 30)
        if kind < 0.8:
            return POINTERS + 2 * self.random.randrange(2, 14)
        if kind < 0.88:
            return DATA + self.random.randrange(60)
        if kind < 0.91:
            return self.pick([MEMORY_END - 2, MEMORY_END, 0o177776, 0o177777, 0o160000, 0o177600, 0o172340])
        if kind < 0.94:
            return CODE + 2 * self.random.randrange(8)
        return self.random.randrange(0o140000) if self.mapped else self.target()

    def operand(self, at):
        """The six bits, and the words behind them; `at` is where the first of these stands."""
        mode, register = self.random.randrange(8), self.random.randrange(8)
        if register == 7 and mode in (1, 4, 5):
            register = self.random.randrange(6)
        bits = mode * 8 + register
        place = self.address()
        if register == 7 and mode in (2, 3):
            return bits, [self.word() if mode == 2 else place]
        if mode < 6:
            return bits, []
        if self.chance(0.1):
            return bits, [self.word()]
        base = at + 2 if register == 7 else KERNEL_STACK if register == 6 else self.general[register]
        return bits, [(place - base) % 65536]

    def place_to_go(self, at):
        """As an operand of JMP or JSR, so that there is a HALT where it goes."""
        mode, register = self.random.randrange(8), self.random.randrange(6)
        if mode in (3, 5, 7):
            register = 7
        if register == 7 or mode == 6:
            target = self.target()
            if mode == 6:
                return 0o60 + register, [(target - self.general[register]) % 65536]
            return self.pick([(0o37, [target]), (0o67, [(target - at - 2) % 65536])])
        self.general[register] = self.target()
        return mode * 8 + register, []

    def instruction(self, at):
        """The words of one instruction at an address."""
        group = self.pick(GROUPS)
        if group in ("single", "byte"):
            bits, words = self.operand(at + 2)
            return [self.pick(SINGLE if group == "single" else SINGLE_BYTE) + bits] + words
        if group == "double":
            source, words = self.operand(at + 2)
            bits, more = self.operand(at + 2 + 2 * len(words))
            return [self.pick(DOUBLE) + source * 0o100 + bits] + words + more
        if group == "register":
            register = self.random.randrange(8)
            if register < 6 and self.chance(0.6):
                # numbers of which many quotients and products fit
                self.general[register] = self.pick([0, 0, 0o177777, self.word(), self.random.randrange(64)])
                self.general[register // 2 * 2 + 1] = self.word() if register % 2 == 0 else self.general[register]
            bits, words = self.operand(at + 2)
            return [self.pick(REGISTER) + 0o100 * register + bits] + words
        if group in ("jump", "call"):
            bits, words = self.place_to_go(at + 2)
            code = 0o100 if group == "jump" else 0o4000 + 0o100 * self.random.randrange(8)
            return [code + bits] + words
        if group == "previous":
            bits, words = self.operand(at + 2)
            return [self.pick([0o6500, 0o6600]) + bits] + words
        return [self.plain(group)]

    def plain(self, group):
        """An instruction of one word."""
        if group == "branch":
            return self.pick(BRANCHES) + self.random.randrange(256)
        if group == "sob":
            return 0o77000 + 0o100 * self.random.randrange(8) + self.random.randrange(1, 64)
        if group == "return":
            register = self.random.randrange(8)
            self.general[min(register, 5)] = self.target()
            return 0o200 + register
        if group == "mark":
            self.general[5] = self.target()
            return 0o6400 + self.random.randrange(64)
        if group == "codes":
            return 0o240 + self.random.randrange(32)
        if group == "operate":
            return self.pick(OPERATE)
        if group == "trap":
            return 0o104000 + self.random.randrange(512)
        return self.pick(RESERVED)

    def status(self):
        word = self.random.randrange(16) + 0o40 * self.random.randrange(8)
        word += self.pick([0] * 5 + [0o20])
        if self.mapped or self.chance(0.3):
            word += self.pick([0, 0, 0, 0o30000, 0o170000, 0o170000, 0o140000])
        return word

    def new_status(self, vector):
        user = 0o140000 if vector not in (0o4, 0o10, 0o250) and self.chance(0.15) else 0
        return user + self.pick([0, 0o340, 0o17, 0o352, 0o105])

    def memory(self):
        words = {address: 0 for first, last in CLEARED for address in range(first, last, 2)}
        for index, vector in enumerate(VECTORS):
            words[vector], words[vector + 2] = HANDLERS + 4 * index, self.new_status(vector)
        for index in range(32):
            words[DATA + 2 * index] = self.word()
        for index in range(16):
            words[POINTERS + 2 * index] = self.address()
        for place in (KERNEL_STACK, USER_STACK):
            for index in range(-4, 4):
                words[place + 2 * index] = self.word()
            words[place] = self.target()
            words[place + 2] = self.status()
        at = CODE
        for word in self.instruction(CODE) + [0, 0, 0]:
            words[at] = word
            at += 2
        if words[CODE] == 0o206:
            # RTS SP goes to the stack
            words[KERNEL_STACK] = words[USER_STACK] = 0
        return words

    def pages(self):
        if not self.mapped:
            return ()
        lengths = [self.descriptor() for _ in range(16)]
        places = [self.place(page % 8) for page in range(16)]
        lengths[0], places[0] = 0o77406, 0
        lengths[8] = self.pick([0o77406, 0o77402, lengths[8]])
        places[8] = self.pick([0, 0, places[8]])
        return tuple(lengths[:8] + places[:8] + lengths[8:] + places[8:])

    def descriptor(self):
        if self.chance(0.6):
            return 0o77406
        access = self.pick([0, 2, 4, 6, 6])
        return 0o400 * self.pick([0, 1, 0o40, 0o176, 0o177, self.random.randrange(128)]) + self.pick([0, 8]) + access

    def place(self, page):
        if page == 7 and self.chance(0.8):
            return 0o7600
        if self.chance(0.7):
            return 0o200 * page
        return self.pick([0o240, 0o440, 0o1377, 0o7640, self.random.randrange(0o1400)])

    def stack(self, place):
        if self.chance(0.8):
            return place
        return self.pick([place + 1, 0o376, 0o400, 0o402, 0o404, 0o342, 0o340, 0o336, 0, 2, 4, MEMORY_END,
                          MEMORY_END + 2, 0o160002, self.word()])

    def case(self):
        memory = self.memory()
        pages = self.pages()
        stacks = [self.stack(KERNEL_STACK), self.stack(USER_STACK)]
        at = CODE if self.chance(0.98) else CODE + 1
        return Case(self.number, memory, tuple(self.general + stacks + [at, self.status()]), pages)


def make(seed, number):
    return Maker(seed, number).case()
