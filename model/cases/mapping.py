"""Pieces of a script about memory management: pages, user mode, the previous space."""
from .words import (KERNEL_DESCRIPTORS, KERNEL_ADDRESSES, USER_DESCRIPTORS, USER_ADDRESSES, CODE, HANDLERS, DATA,
                    POINTERS, STACK, USER_STACK)


class Mapping:
    def segment_pages(self):
        self.data()
        self.vectors()
        for descriptors, addresses in ((KERNEL_DESCRIPTORS, KERNEL_ADDRESSES), (USER_DESCRIPTORS, USER_ADDRESSES)):
            for page in range(8):
                kernel = descriptors is KERNEL_DESCRIPTORS
                plain = page in (0, 7) and self.chance(0.9 if kernel else 0.6)
                descriptor = 0o77406 if plain else (
                    self.pick([0, 2, 3, 1, 0o20, 0o77, 0o100, 0o176, 0o177]) * 0o400
                    + self.pick([0, 0, 0o10]) + self.pick([6, 6, 6, 6, 2, 2, 4, 0]) + self.pick([0, 0, 0o100, 0o100261]))
                if page == 7 and (plain or self.chance(0.5)):
                    place = 0o7600
                elif plain:
                    place = 0
                else:
                    place = self.pick([0, page * 0o200, self.between(0, self.top // 64), 0o40, 0o7777, 0o7600,
                                       self.top // 64 - 1, self.word()])
                if self.chance(0.95):
                    self.say(f"deposit {descriptors[page]:o} {descriptor % 65536:o}")
                    self.say(f"deposit {addresses[page]:o} {place:o}")
        self.mapped = True
        self.deposit(CODE, *self.program(CODE, self.between(4, 20)))
        self.general_registers()
        self.say(f"start {CODE:o}")
        self.say(f"deposit 777572 {self.pick([1, 1, 1, 1, 1, 0o20001, 0])}")
        if self.chance(0.7):
            self.say(f"set 11 {self.status_word():o}")
        for _ in range(self.between(2, 10)):
            self.run(64)
            self.look()
            if self.chance(0.3):
                self.page_registers()
            if self.chance(0.25):
                self.say(self.pick([
                    "deposit 777572 1", "deposit 777572 0", "flush",
                    f"set 7 {self.pick([CODE, CODE, self.virtual()]):o}",
                    f"set 11 {self.status_word():o}",
                    f"deposit {self.pick(KERNEL_DESCRIPTORS + USER_DESCRIPTORS):o} {self.pick([0o77406, 0o77402, self.word()]):o}",
                    f"deposit {self.pick(KERNEL_ADDRESSES + USER_ADDRESSES):o} {self.word():o}"]))
            if self.chance(0.3):
                self.deposit(CODE, *self.program(CODE, self.between(2, 10)))
        if self.chance(0.5):
            self.say("deposit 777572 0")
            self.mapped = False

    def user_descriptor(self):
        return (self.pick([0o177, 0o177, 0, 1, 2, 0o77, 0o100, 0o176]) * 0o400
                + self.pick([0, 0, 0, 0o10]) + self.pick([6, 6, 6, 6, 2, 2, 4, 0]))

    def segment_user(self):
        """A user program in pages of its own under a kernel that handles its traps."""
        self.data()
        self.vectors()
        home = self.pick([0, 0, 0o40, 0o100]) if self.memory > 4 else 0
        for page in range(8):
            kernel = [0o77406, page * 0o200] if page < 7 else [0o77406, 0o7600]
            if 0 < page < 7 and self.chance(0.5):
                kernel = [self.user_descriptor(), self.pick([0, page * 0o200, self.between(0, self.top // 64)])]
            user = [0o77406, home] if page == 0 and self.chance(0.9) else [
                self.user_descriptor(), self.pick([home, home, 0o40, 0o50, self.between(0, self.top // 64), 0o7600, self.top // 64 - 1])]
            for descriptors, addresses, (descriptor, place) in (
                    (KERNEL_DESCRIPTORS, KERNEL_ADDRESSES, kernel), (USER_DESCRIPTORS, USER_ADDRESSES, user)):
                self.say(f"deposit {descriptors[page]:o} {descriptor:o}")
                self.say(f"deposit {addresses[page]:o} {place:o}")
        if self.chance(0.35):
            self.say("deposit 777616 77406")
            self.say("deposit 777656 7600")
        base = home * 64
        self.mapped = True
        if base:
            self.deposit(base + DATA, *(self.word() for _ in range(20)))
            self.deposit(base + POINTERS, *(self.address() for _ in range(32)))
        for _ in range(self.between(1, 3)):
            self.deposit(base + CODE, *self.program(CODE, self.between(4, 24)))
            self.general_registers()
            self.say(f"set 6 {STACK:o}")
            self.say(f"set 10 {self.pick([USER_STACK, USER_STACK, DATA + 32, self.virtual()]):o}")
            self.say(f"start {CODE:o}")
            self.say("deposit 777572 1")
            if self.chance(0.3):
                self.say(self.pick(["clock 7", "deposit 777546 100", "key ab", "deposit 777560 100"]))
            for _ in range(self.between(2, 10)):
                if self.chance(0.6):
                    self.say(f"set 11 {self.pick([0o140000, 0o170000, 0o140000, 0o170000, 0o140020, 0o100000, 0o30000, 0o10000]) + self.between(0, 15):o}")
                    self.say(f"set 7 {CODE + 2 * self.pick([0, 0, 1, 3, 5, 8]):o}")
                if self.chance(0.5):
                    self.say("deposit 777572 1")
                self.run(60)
                self.look()
                if self.chance(0.3):
                    self.page_registers()
        self.say("clock 0")
        self.say("deposit 777572 0")
        self.mapped = False
        self.say(f"examine {base + DATA:o} 64")

    def segment_spaces(self):
        """One instruction at a time between kernel and user pages, of every access and length."""
        self.data()
        self.deposit(0o250, HANDLERS, self.pick([0, 0o340, 0o140000]))
        self.deposit(0o4, HANDLERS + 0o40, 0o340)
        for page in range(8):
            for descriptors, addresses in ((KERNEL_DESCRIPTORS, KERNEL_ADDRESSES), (USER_DESCRIPTORS, USER_ADDRESSES)):
                fixed = page in (0, 7) and descriptors is KERNEL_DESCRIPTORS
                self.say(f"deposit {descriptors[page]:o} {0o77406 if fixed or page == 0 else self.user_descriptor():o}")
                place = (0o7600 if page == 7 else 0) if fixed or page == 0 else self.pick(
                    [0o40, 0o50, 0o60, 0, self.between(0, self.top // 64), 0o7600, 0o7776, 0o1577])
                self.say(f"deposit {addresses[page]:o} {place:o}")
        self.mapped = True
        for _ in range(self.between(8, 30)):
            target = self.virtual()
            register = self.between(0, 5)
            code = self.pick([
                [0o006537, target], [0o006637, target], [0o006510 + register], [0o006610 + register],
                [0o013700, target], [0o010037, target], [0o005237, target], [0o105237, target], [0o110037, target],
                [0o005737, target], [0o021112], [0o012737, self.word(), target], [0o006506], [0o006606],
                self.instruction(CODE), self.instruction(CODE), [0o000137, target], [0o004737, target], [0o010046],
                [0o006640 + register], [0o006530 + register], [0o011142], [0o112222]])
            self.deposit(CODE, *code)
            for number in (1, 2, register):
                self.say(f"set {number} {self.pick([target, self.virtual(), self.virtual(), self.data_address()]):o}")
            self.say(f"set 6 {self.pick([STACK, STACK, STACK, self.virtual()]):o}")
            self.say(f"set 10 {self.pick([USER_STACK, USER_STACK, self.virtual()]):o}")
            self.say(f"start {CODE:o}")
            self.say("deposit 777572 1")
            self.say(f"set 11 {self.pick([0, 0o30000, 0o30000, 0o140000, 0o140000, 0o170000, 0o170000, 0o10000, 0o40000, 0o120000]) + self.between(0, 15):o}")
            self.say("step 1")
            self.say("regs")
            self.say(self.pick(["examine 777600 8", "examine 772300 8", "device"]))
            self.say("examine 777572")
        self.say("deposit 777572 0")
        self.mapped = False
