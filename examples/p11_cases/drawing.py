"""What cases are drawn from: words, addresses, status words, pages, instructions. All of it comes from one seed, and by
`random.random` alone, whose numbers each version of Python gives alike."""
import random

from pdp11.decode import TABLE

from .choices import FOREIGN

SEAMS = [0, 1, 2, 0o77, 0o100, 0o177, 0o200, 0o377, 0o400, 0o77777, 0o77776, 0o100000, 0o100001, 0o177400, 0o177577, 0o177600,
         0o177776, 0o177777, 0o125252]
# Registers of the processor and of memory management, and addresses that don't answer, all as addresses of a program.
PLACES = [0o177776, 0o177777, 0o177774, 0o177572, 0o177576, 0o172300, 0o172352, 0o177600, 0o177646, 0o177574, 0o160000, 0o177700,
          0o157776]
# Reserved words that no option and no other model has.
UNASSIGNED = [0o10, 0o77, 0o210, 0o227, 0o7100, 0o7177, 0o7777, 0o75040, 0o75777, 0o107000, 0o107777]
KERNEL, USER = 0, 3
FULL_PAGE, PAGE_OF_DEVICES = 0o77406, 0o7600
MODES = [KERNEL] * 28 + [USER] * 20 + [1, 2]
CONTROL = {"HALT", "WAIT", "RESET"}


class Draws:
    """Draws from one seed."""

    def __init__(self, seed, is_plain=False):
        """`is_plain`: with as few faults as may be."""
        self.random, self.is_plain = random.Random(seed).random, is_plain
        # where the program begins, near which some addresses are
        self.program = None

    def below(self, count):
        return int(self.random() * count)

    def chance(self, part):
        return self.random() < part

    def pick(self, choices):
        return choices[self.below(len(choices))]

    # Words.

    def word(self):
        if self.chance(0.35):
            return self.pick(SEAMS)
        if self.chance(0.3):
            return (self.below(600) - 300) % 65536
        return self.below(65536)

    def even(self, first, last):
        return first + 2 * self.below((last - first) // 2)

    def address(self):
        """An address of a program: mostly an even one below the I/O page, at times one of the program's own words."""
        kind = self.random()
        if kind < 0.06 and self.program is not None:
            return (self.program + 2 * (self.below(24) - 8)) % 65536
        if self.is_plain:
            return self.even(0o400, 0o157776)
        if kind < 0.9:
            return self.even(0o400, 0o160000)
        if kind < 0.95:
            return self.below(0o160000)
        if kind < 0.99:
            return self.pick(PLACES)
        return self.below(65536)

    def stack(self, limit, near=0.15):
        """A stack pointer, some near the stack limit."""
        if self.is_plain or not self.chance(near):
            return self.even(limit + 0o20, 0o150000) if limit < 0o100000 else self.even(0o400, 0o150000)
        seams = [limit + step for step in (-0o44, -0o42, -0o40, -0o36, -2, 0, 0, 1, 2, 2, 4)]
        return self.pick([*seams, 0, 2, 4, 0o157776, 0o160000, self.word()]) % 65536

    def codes(self):
        return self.below(16)

    def status(self, mode, traced=0.04):
        """A status word of a current mode."""
        previous = self.pick([KERNEL, USER, USER, mode, 1 if self.chance(0.05) else USER])
        traced = 0 if self.is_plain else traced
        return 0o40000 * mode + 0o10000 * previous + 0o40 * self.below(8) + 0o20 * self.chance(traced) + self.codes()

    def new_status(self):
        """The status word of a vector."""
        mode = self.pick([KERNEL] * 16 + [USER] * 3 + [1])
        return 0o40000 * mode + self.pick([0, 0o340, 0o340, 0o200]) + 0o20 * self.chance(0.03) + self.codes()

    # Pages.

    def descriptor(self):
        if self.is_plain or self.chance(0.86):
            return FULL_PAGE
        length = self.pick([0, 1, 0o40, 0o176, 0o177, self.below(128)])
        return 0o400 * length + 0o10 * self.chance(0.4) + self.pick([0, 2, 2, 2, 4, 6, 6])

    def page_address(self, page):
        if page == 7 and self.chance(0.6):
            return PAGE_OF_DEVICES
        if self.chance(0.05) and not self.is_plain:
            return self.pick([0o7577, 0o7600, 0o7777, self.below(0o10000)])
        return self.below(0o7377)

    def pages(self, mode, program):
        """The descriptors and addresses of both modes; the page of a program is there mostly."""
        lists = {key: [self.descriptor() for _ in range(8)] for key in (KERNEL, USER)}
        if self.chance(0.98):
            lists[KERNEL if mode == KERNEL else USER][program // 0o20000] = FULL_PAGE
        if self.chance(0.95):
            lists[KERNEL][0] = FULL_PAGE
        return lists, {key: [self.page_address(page) for page in range(8)] for key in (KERNEL, USER)}

    # Instructions.

    def mode(self):
        """A mode of the processor, 01 and 10 among them."""
        return self.pick([KERNEL, KERNEL, USER] if self.is_plain else MODES)

    def register(self):
        return self.pick([0, 1, 2, 3, 4, 5, 0, 1, 2, 3, 4, 5, 6, 7])

    def operand(self, mode):
        return 8 * mode + self.register()

    def fields(self, names, modes):
        """The bits of an instruction's operands, of which those of `modes` have these modes."""
        word, left = 0, list(modes)
        for name in names:
            if name == "source":
                word += 0o100 * self.operand(left.pop(0) if left else self.below(8))
            elif name == "destination":
                word += self.operand(left.pop(0) if left else self.below(8))
            elif name == "register":
                word += 0o100 * self.register()
            elif name == "return register":
                word += self.register()
            else:
                word += self.below({"count": 64, "offset": 256, "letters": 32}[name])
        return word

    def of_row(self, row, modes=()):
        """A word of a row of the instruction table; RESERVED, which has no row, is None."""
        if row is None:
            return self.pick(UNASSIGNED) if self.chance(0.4) else self.pick(self.pick(FOREIGN))
        _, value, name, operands = row
        free = self.below(256) if name in ("EMT", "TRAP") else 0
        return value + free + self.fields(operands, modes)

    def instruction(self):
        """Any instruction, for a sequence."""
        row = self.pick(TABLE)
        while row[2] in CONTROL and self.chance(0.7):
            row = self.pick(TABLE)
        return self.of_row(row) if self.is_plain or self.chance(0.97) else self.of_row(None)

    # Memory, as the model asks for it.

    def drawn(self, wanted, added, place):
        """A word for what it is wanted (p11_cases.tracing)."""
        if wanted == "instruction":
            return self.instruction()
        if wanted == "address":
            return (self.address() - added) % 65536
        if wanted == "status":
            return self.status(self.mode())
        if wanted == "vector":
            return self.new_status() if place % 4 else self.even(0o400, 0o160000) if self.chance(0.97) else self.address()
        return self.word()
