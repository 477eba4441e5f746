"""Random instructions and programs, the state that they begin in, and what is looked at after a run."""
from .words import (VECTORS, DISK, CONSOLE, CLOCK, SWITCHES, STATUS, LIMIT, SR0, REGISTERS, CODE, HANDLERS, DATA,
                    POINTERS, STACK, USER_STACK, SINGLE_WORD, SINGLE_BYTE, DOUBLE, BRANCHES, STEPS, RESERVED)


class Programs:
    def operand(self, at, jump=False):
        """Six bits and the extension words; `at` is the address of the first extension word."""
        kind = self.random.random()
        if jump:
            if kind < 0.5:
                target = CODE + 2 * self.between(0, 60)
                return self.pick([(0o37, [target]), (0o67, [(target - at - 2) % 65536])])
            if kind < 0.55:
                return self.between(0, 7), []
        if kind < 0.22:
            return self.pick([0, 1, 2, 3, 4, 5, 0, 1, 2, 3, 6, 6, 7]), []
        if kind < 0.62:
            mode, register = self.between(1, 5), self.pick([0, 1, 2, 3, 4, 5, 0, 1, 2, 3, 4, 5, 6, 6])
            return mode * 8 + register, []
        if kind < 0.72:
            mode, register = self.pick([6, 7]), self.pick([0, 1, 2, 3, 4, 5, 6])
            return mode * 8 + register, [self.pick([0, 2, 4, -2, 0o10, self.address(), 1]) % 65536]
        if kind < 0.8:
            return 0o27, [self.word()]
        if kind < 0.9:
            return 0o37, [self.address()]
        if kind < 0.94:
            return 0o67, [(self.address() - at - 2) % 65536]
        if kind < 0.96:
            return 0o77, [(POINTERS + 2 * self.between(0, 31) - at - 2) % 65536]
        return self.pick([0o17, 0o47, 0o57, self.between(0, 63)]), []

    def poke(self):
        """A write of a value that makes sense to a register that is worth it."""
        target, value = self.pick([
            (CLOCK, self.pick([0o100, 0o300, 0, 0o200])),
            (CONSOLE[0], self.pick([0o100, 0])),
            (CONSOLE[2], self.pick([0o100, 0])),
            (CONSOLE[3], self.between(0, 255)),
            (STATUS, self.status_word()),
            (STATUS, self.pick([0, 0o340, 0o200, 0o140, 0o20])),
            (SR0, self.pick([0, 1, 0o100001, 0o20000, 0])),
            (LIMIT, self.pick([0, 0o400, 0o1000])),
            (DISK[2], self.control_word()),
            (DISK[3], self.word_count()),
            (DISK[4], self.bus_address()),
            (DISK[5], self.disk_address()),
            (self.pick(REGISTERS), self.word()),
        ])
        target %= 65536
        operation = self.pick([0o012737, 0o012737, 0o012737, 0o112737, 0o052737, 0o042737, 0o152737,
                               0o142737, 0o022737, 0o062737])
        if operation & 0o100000 and self.chance(0.4):
            target += 1
        return [operation, value, target]

    def peek(self):
        target = self.pick(REGISTERS) % 65536
        return [self.pick([0o013700, 0o113701, 0o005737, 0o105737, 0o005237, 0o105237, 0o005037, 0o105037,
                           0o013746, 0o000337, 0o005337]), target + (0 if self.chance(0.8) else 1)]

    def instruction(self, at):
        """The words of one instruction at an address."""
        kind = self.random.random()
        if kind < 0.3:
            operation = self.pick(DOUBLE)
            source, first = self.operand(at + 2)
            destination, second = self.operand(at + 2 + 2 * len(first))
            return [operation + source * 64 + destination, *first, *second]
        if kind < 0.5:
            operand, extra = self.operand(at + 2)
            return [self.pick(SINGLE_WORD + SINGLE_BYTE) + operand, *extra]
        if kind < 0.6:
            operand, extra = self.operand(at + 2)
            if self.chance(0.35):
                operand, extra = 0o27, [self.pick([1, 2, 3, 0o37, 0o40, 0o77, 0o76, 0o41, self.word()])]
            register = self.pick([0, 1, 2, 3, 4, 5, 0, 1, 2, 3, 6, 7])
            return [self.pick([0o70000, 0o71000, 0o71000, 0o72000, 0o73000, 0o74000])
                    + register * 64 + operand, *extra]
        if kind < 0.68:
            return [self.pick(BRANCHES) + self.pick([0, 1, 2, 3, 4, 0, 1, 0o377, 0o376, 0o374, 0o370])]
        if kind < 0.71:
            operand, extra = self.operand(at + 2, jump=True)
            return [self.pick([0o000100, 0o004000 + 64 * self.pick([0, 1, 2, 3, 4, 5, 5, 6, 7, 7])])
                    + operand, *extra]
        if kind < 0.73:
            return [self.pick([0o000200 + self.pick([0, 3, 5, 5, 6, 7, 7]), 0o006400 + self.between(0, 8),
                               0o077000 + 64 * self.between(0, 7) + self.between(0, 6)])]
        if kind < 0.78:
            return [0o240 + self.between(0, 31)]
        if kind < 0.84:
            operand, extra = self.operand(at + 2)
            return [self.pick([0o006500, 0o006600]) + operand, *extra]
        if kind < 0.87:
            return [self.pick([2, 3, 4, 6, 2, 6, 0o104000 + self.between(0, 255),
                               0o104400 + self.between(0, 255)])]
        if kind < 0.88:
            return [self.pick([0, 1, 5, 1, 5])]
        if kind < 0.9:
            return [self.pick(RESERVED)]
        if kind < 0.96 and self.device_code:
            return self.poke() if self.chance(0.7) else self.peek()
        if kind < 0.98:
            # push or pop
            return self.pick([[0o010046], [0o012600], [0o005746], [0o105746], [0o005726], [0o106746],
                              [0o112746, self.word()], [0o016646, 2], [0o006546], [0o006616]])
        return [self.between(0, 65535)]

    def program(self, at, count, back=True):
        words = []
        for _ in range(count):
            words += self.instruction(at + 2 * len(words))
        if back:
            distance = len(words) + 1
            words += [0o000400 + (256 - distance)] if distance <= 128 else [0o000137, at]
        return words

    def status_word(self):
        word = self.pick([0, 0, 0, 0o140000, 0o140000, 0o170000, 0o30000, 0o30000, 0o40000, 0o100000, 0o50000])
        word += self.pick([0, 0, 0o340, 0o200, 0o240, 0o300, 0o140, 0o100])
        word += self.pick([0, 0, 0, 0, 0, 0, 0, 0o20])
        return word + self.between(0, 15)

    def vectors(self):
        for vector in VECTORS:
            if self.chance(0.9):
                handler = HANDLERS + 0o40 * VECTORS.index(vector)
                new = self.pick([0, 0, 0o340, 0o340, 0o200, 0o340, 0, self.status_word()])
                if self.chance(0.04):
                    handler += 1
                self.deposit(vector, handler, new)
                body = []
                if self.chance(0.3):
                    body += self.instruction(handler)
                if vector == 0o60 and self.chance(0.7):
                    body += [0o113737, 0o177562, self.pick([0o177566, DATA])]
                if vector == 0o250 and self.chance(0.6):
                    body += [0o042737, 0o160000, 0o177572]
                if vector in (0o4, 0o10, 0o250) and self.chance(0.8):
                    # go on behind the fault, or somewhere in the program
                    body += self.pick([[0o062716, 2], [0o062716, 4], [0o012716, CODE + 2 * self.between(0, 20)],
                                       [0o012716, CODE + 2 * self.between(0, 20)]])
                if vector in (0o4, 0o10) and self.chance(0.3):
                    body = [0o012706, STACK, *body, 0o012746, self.status_word() & ~0o20, 0o012746, CODE]
                if vector == 0o220 and self.chance(0.5):
                    body += self.pick([[0o013737, 0o177404, DATA], [0o012737, self.control_word(), 0o177404], [0o005237, 0o177404]])
                if vector == 0o64 and self.chance(0.5):
                    body += [0o112737, self.between(0, 255), 0o177566]
                if vector == 0o14 and self.chance(0.6):
                    body += [0o042766, 0o20, 2]
                self.deposit(handler & ~1, *body, self.pick([2, 2, 2, 2, 6, 0]))
            elif self.chance(0.5):
                self.deposit(vector, self.word(), self.word())

    def pointer(self):
        return self.pick([self.data_address(), self.data_address(), POINTERS + 2 * self.between(0, 31),
                          self.address(), self.word()])

    def general_registers(self):
        for register in range(6):
            if self.chance(0.85):
                self.say(f"set {register} {self.pick([self.pointer(), self.word()]):o}")
        if self.chance(0.8):
            stack = self.pick([STACK, STACK, STACK, 0o402, 0o404, 0o400, 0o376, 0o342, 0o340, 0o1402,
                               0o701, 0, 2, self.virtual(), self.data_address()])
            self.say(f"set 6 {stack:o}")
        if self.chance(0.7):
            self.say(f"set 10 {self.pick([USER_STACK, USER_STACK, 0o501, 0, self.virtual(), self.word()]):o}")

    def data(self):
        self.deposit(DATA, *(self.word() for _ in range(self.between(8, 40))))
        self.deposit(POINTERS, *(self.address() for _ in range(32)))

    def begin(self, at=CODE):
        if self.chance(0.93):
            self.say(f"start {at:o}")
            self.mapped = False
        else:
            self.say(f"set 7 {at:o}")
        if self.chance(0.45):
            self.say(f"set 11 {self.status_word():o}")
        if self.chance(0.1):
            self.say(f"deposit 777774 {self.pick([0o400, 0o1000, 0o2000, 0o177400, 0o4377]):o}")

    def look(self):
        if self.chance(0.9):
            self.say("regs")
        if self.chance(0.5):
            self.say("device")
        if self.chance(0.25):
            self.say(f"examine {DATA:o} 64")
        if self.chance(0.2):
            self.say(f"examine {STACK - 0o60:o} 28")
        if self.chance(0.15):
            self.say(f"examine 0 {self.pick([8, 64, 160])}")
        if self.chance(0.2):
            self.page_registers()
        if self.chance(0.1):
            self.say(f"examine {CODE:o} 100")
        if self.chance(0.1):
            self.say("examine 777776")
        if self.chance(0.05):
            self.say("examine 777560 4")
        if self.chance(0.05):
            self.say("examine 777774")

    def page_registers(self):
        for first in (0o772300, 0o772340, 0o777600, 0o777640):
            self.say(f"examine {first:o} 8")
        self.say("examine 777572")
        self.say("examine 777576")

    def run(self, most=150):
        count = min(self.pick(STEPS), most)
        self.say(f"{self.pick(['step', 'step', 'step', 'continue'])} {count}")

    def epilogue(self):
        self.say("regs")
        self.say("device")
        self.page_registers()
        self.say("examine 777400 6")
        self.say("examine 777560 4")
        for address in (CLOCK, SWITCHES, LIMIT, STATUS):
            self.say(f"examine {address:o}")
        for drive in range(8):
            self.say(f"changed {drive}")
        if self.files:
            for drive in self.random.sample(range(8), 2) + [0, 1]:
                self.say(f"save {drive} saved{drive}")
        whole = self.top if self.chance(0.3 if self.memory <= 32 else 0.08) else 0o20000
        for first in range(0, whole if self.chance(0.6) else 0o10000, 1024):
            self.say(f"examine {first:o} 512")
        self.say(f"examine {self.top - 64:o} 32")
