"""What all parts draw from: random numbers, words and addresses that are interesting, and the lines so far."""
import random

from .words import (INTERESTING, KERNEL_DESCRIPTORS, KERNEL_ADDRESSES, USER_DESCRIPTORS, USER_ADDRESSES, DISK,
                    CONSOLE, CLOCK, SWITCHES, STATUS, LIMIT, SR0, SR2, SILENT, CODE, DATA, POINTERS)


class Draws:
    def __init__(self, seed):
        self.random = random.Random(seed)
        self.lines = []
        self.files = {}
        self.memory = self.random.choice([28] * 12 + [4, 4, 8, 8, 12, 32, 60, 124])
        self.top = self.memory * 2048
        self.mapped = False
        self.device_code = self.random.random() < 0.5

    def chance(self, probability):
        return self.random.random() < probability

    def pick(self, choices):
        return self.random.choice(choices)

    def between(self, low, high):
        return self.random.randint(low, high)

    def say(self, line):
        self.lines.append(line.encode("latin-1") if isinstance(line, str) else line)

    def deposit(self, address, *words):
        for first in range(0, len(words), 60):
            piece = words[first:first + 60]
            self.say(f"deposit {address + 2 * first:o} " + " ".join(f"{word % 65536:o}" for word in piece))

    def word(self):
        kind = self.random.random()
        if kind < 0.35:
            return self.pick(INTERESTING)
        if kind < 0.5:
            return (self.pick(INTERESTING) + self.between(-2, 2)) % 65536
        if kind < 0.7:
            return self.between(0, 300) * self.pick([1, -1]) % 65536
        return self.between(0, 65535)

    def data_address(self):
        return DATA + 2 * self.between(0, 63)

    def register_address(self):
        """A device or processor register, as a 16-bit address."""
        if self.chance(0.12):
            return self.pick(SILENT) % 65536
        group = self.pick([DISK, CONSOLE, [CLOCK], [STATUS], [SR0, SR2], [LIMIT], [SWITCHES],
                           KERNEL_DESCRIPTORS + USER_DESCRIPTORS, KERNEL_ADDRESSES + USER_ADDRESSES])
        return self.pick(group) % 65536

    def virtual(self):
        """An address that is interesting under translation."""
        page, block = self.between(0, 7), self.pick([0, 0, 1, 2, 3, 0o20, 0o77, 0o100, 0o176, 0o177])
        return page * 0o20000 + block * 0o100 + self.pick([0, 2, 0o76, 0o10, 1])

    def address(self):
        """An operand's address."""
        kind = self.random.random()
        if self.mapped and kind < 0.45:
            return self.virtual()
        if kind < 0.62:
            return self.data_address()
        if kind < 0.66:
            return self.data_address() + 1
        if kind < (0.84 if self.device_code else 0.7):
            return self.register_address() + (1 if self.chance(0.15) else 0)
        if kind < 0.88:
            return POINTERS + 2 * self.between(0, 31)
        if kind < 0.92:
            return 2 * self.between(0, 0o270)
        if kind < 0.95:
            return (self.top + self.pick([-4, -2, 0, 2])) % 65536
        if kind < 0.98:
            return CODE + 2 * self.between(0, 60)
        return self.between(0, 65535)
