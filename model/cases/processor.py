"""Pieces of a script about the processor: single instructions, arithmetic, traps, the stack limit, returns, interrupts."""
from .words import (VECTORS, DISK, CONSOLE, CLOCK, SWITCHES, STATUS, LIMIT, SR0, SR2, SILENT, REGISTERS, CODE,
                    HANDLERS, DATA, STACK, USER_STACK, SINGLE_WORD, SINGLE_BYTE, DOUBLE, STEPS)


class Processor:
    def segment_one_instruction(self):
        """Many single instructions, each from a fresh set of registers."""
        self.data()
        if self.chance(0.6):
            self.vectors()
        for _ in range(self.between(10, 45)):
            self.deposit(CODE, *self.instruction(CODE), 0)
            self.general_registers()
            self.say(f"start {CODE:o}")
            if self.chance(0.7):
                self.say(f"set 11 {self.pick([self.between(0, 15), self.status_word()]):o}")
            if self.chance(0.05):
                self.say(f"deposit 777774 {self.pick([0o400, 0o1000, 0o4377]):o}")
            self.say("step 1")
            self.look()
        self.say(f"examine {DATA:o} 64")

    def segment_arithmetic(self):
        """Register forms with hard values."""
        for _ in range(self.between(10, 40)):
            operation = self.pick(DOUBLE + SINGLE_WORD + SINGLE_BYTE + [0o70000, 0o71000, 0o72000, 0o73000] * 3)
            if operation in DOUBLE:
                code = [operation + 0o0001, 0]
            elif operation >= 0o70000 and operation < 0o74000:
                code = [operation + self.pick([0o2, 0o102, 0o202, 0o27, 0o127]), self.pick([self.word(), self.between(0, 63)])]
            else:
                code = [operation, 0]
            self.deposit(CODE, *code)
            for register in range(3):
                self.say(f"set {register} {self.word():o}")
            self.say(f"start {CODE:o}")
            self.say(f"set 11 {self.between(0, 15):o}")
            self.say("step 1")
            self.say("regs")

    def segment_program(self):
        self.data()
        self.vectors()
        for _ in range(self.between(1, 3)):
            self.deposit(CODE, *self.program(CODE, self.between(3, 20)))
            self.general_registers()
            self.begin()
            for _ in range(self.between(1, 8)):
                self.run()
                self.look()
                if self.chance(0.15):
                    self.operator_line()

    def segment_noise(self):
        """Random words everywhere."""
        base = self.pick([0, CODE, CODE, 0o400])
        self.deposit(base, *(self.pick([self.between(0, 65535), self.word(), self.instruction(base)[0]])
                             for _ in range(self.between(40, 120))))
        self.general_registers()
        self.begin(self.pick([base, CODE]))
        for _ in range(self.between(2, 8)):
            self.run(64)
            self.look()

    def segment_service_faults(self):
        """Vectors and stacks under translation that make services and fatal services fail."""
        for first in (0o772300, 0o777600):
            for page in range(8):
                self.say(f"deposit {first + 2 * page:o} {self.pick([0o77406, 0o77406, 0o77402, 0o406, 0, 0o1416, 6]):o}")
        for first in (0o772340, 0o777640):
            for page in range(8):
                self.say(f"deposit {first + 2 * page:o} {self.pick([0, page * 0o200, 0, 0o40, 0o7600]):o}")
        self.vectors()
        self.deposit(CODE, self.pick([3, 4, 0o104000, 0o104400, 7, 0o10046, 0o101, 0o5737, 0o4737]), self.pick([0o1001, 0o20000, 0o177776]))
        for _ in range(self.between(2, 6)):
            self.say(f"set 6 {self.pick([STACK, 0o701, 0o20002, 0o20000, 0o2, 0, 0o177776, 0o400, 0o40002, 0o160002, self.virtual()]):o}")
            self.say(f"set 10 {self.pick([USER_STACK, 0o501, 0o20002, 0o60002, 0, self.virtual()]):o}")
            self.say(f"start {CODE:o}")
            self.say(f"deposit 777572 {self.pick([1, 1, 1, 0])}")
            if self.chance(0.6):
                self.say(f"set 11 {self.status_word():o}")
            if self.chance(0.3):
                self.say(self.pick(["deposit 777546 300", "deposit 777564 100", "clock 1"]))
            for _ in range(self.between(1, 3)):
                self.say("step 1")
                self.say("regs")
                self.page_registers()
            self.say("examine 0 8")
        self.say("clock 0")

    def segment_limit(self):
        """The stack limit, yellow and red, with trace."""
        self.vectors()
        limit = 0o400 + self.pick([0, 0, 0, 0o400, 0o1000, 0o177400])
        for _ in range(self.between(4, 14)):
            code = self.pick([[0o10046], [0o105746], [0o5746], [0o5056, 0], [0o4737, CODE], [0o4767, 2], [0o6506], [0o6500],
                              [0o14600], [0o15600], [0o24646], [0o10066, 2], [0o6646], [0o146], [0o156], [0o4146], [0o112746, 3],
                              [0o12746, 0o20], [0o6546], [0o104000], [0o14646], [0o15646]])
            self.deposit(CODE, *code, 0o240, 0o240)
            self.say(f"set 6 {(limit + self.pick([0, 2, 4, 6, -2, -0o36, -0o34, -0o40, -0o42, 1, -1, -0o37])) % 65536:o}")
            self.say(f"start {CODE:o}")
            if limit != 0o400:
                self.say(f"deposit 777774 {limit - 0o400:o}")
            if self.chance(0.4):
                self.say(f"set 11 {self.pick([0o20, 0o20, 0o30020, 0o140000, 0o340]):o}")
            self.say("step 1")
            self.say("regs")
            if self.chance(0.3):
                self.say("examine 0 4")
            if self.chance(0.3):
                self.say("step 1")
                self.say("regs")
        self.say(f"examine {max(0, limit - 0o60) % 0o10000:o} 40")

    def segment_returns(self):
        """Pops, pushes and returns in every mode, on good and bad stacks."""
        self.vectors()
        for _ in range(self.between(10, 35)):
            frame = [self.pick([CODE, CODE + 2, self.word()]),
                     self.pick([0o140000, 0o170000, 0o30000, 0o10000, 0o40000, 0o120000, 0, 0, self.word()])
                     | self.pick([0, 0o20, 0o340, 0o7400, 0o200]) | self.between(0, 15)]
            self.deposit(DATA, *frame, self.word(), self.word())
            code = self.pick([[2], [2], [2], [6], [6], [0o200 + self.between(0, 7)], [0o205], [0o006400 + self.between(0, 4)],
                              [0o006600 + self.between(0, 63), DATA], [0o006500 + self.between(0, 63), DATA],
                              [0o004037 + 64 * self.between(0, 7), CODE], [0o104000], [3], [4], [0], [1], [5], [7],
                              [0o012600], [0o010046], [0o022626], [0o005266, 2], [0o112600], [0o010667, 2], [0o010706]])
            self.deposit(CODE, *code, 0o240, 0o240)
            bad = self.pick([DATA + 1, DATA + 1, self.top % 65536, self.pick(SILENT) % 65536, (self.top - 2) % 65536, 0o177774, 0o177776, 0, 2, 0o402])
            self.say(f"set 6 {self.pick([DATA, DATA, DATA + 2, bad]):o}")
            self.say(f"set 10 {self.pick([DATA, DATA, DATA + 4, bad]):o}")
            self.say(f"set {self.pick([0, 5, 5])} {self.pick([CODE, CODE + 2, self.word()]):o}")
            self.say(f"start {CODE:o}")
            self.say(f"set 11 {self.pick([0, 0, 0o140000, 0o170000, 0o30000, 0o40000, 0o110000, 0o130000, 0o60000]) + self.pick([0, 0, 0o340, 0o200, 0o20]) + self.between(0, 15):o}")
            self.say("step 1")
            self.say("regs")
            if self.chance(0.4):
                self.say(f"examine {DATA - 8:o} 8")
            if self.chance(0.3):
                self.say("step 1")
                self.say("regs")
            if self.chance(0.7):
                self.say("examine 0 4")

    def segment_registers(self):
        """One instruction at a time on device and processor registers, words and both bytes."""
        self.data()
        self.deposit(4, HANDLERS + 0o40, 0)
        self.deposit(HANDLERS + 0o40, 2)
        if self.chance(0.7):
            self.say(self.mount_line())
        self.say(f"set 6 {STACK:o}")
        self.say(f"start {CODE:o}")
        self.mapped = False
        operations = [0o012737, 0o112737, 0o052737, 0o152737, 0o042737, 0o142737, 0o062737, 0o162737, 0o022737,
                      0o122737, 0o032737, 0o132737]
        singles = [0o005037, 0o105037, 0o005137, 0o105137, 0o005237, 0o105237, 0o005337, 0o105337, 0o005737, 0o105737,
                   0o000337, 0o006337, 0o106137, 0o006737, 0o105437, 0o006637, 0o006537, 0o105637, 0o005537]
        for _ in range(self.between(15, 50)):
            target = self.pick([self.pick(DISK), self.pick(DISK), self.pick(CONSOLE), self.pick(CONSOLE), CLOCK, STATUS, LIMIT,
                                SWITCHES, SR0, SR2, self.pick(REGISTERS), self.pick(SILENT)]) % 65536
            value = self.pick([self.word(), self.word(), 0o100, 0o300, self.control_word(), self.disk_address(), 0o377])
            if target == SR0 % 65536:
                value &= 0o177776
            code = [self.pick(operations), value] if self.chance(0.55) else [self.pick(singles)]
            odd = code[0] & 0o100000 and code[0] & 0o070000 != 0o060000 and self.chance(0.45)
            self.deposit(CODE, *code, target + (1 if odd else 0))
            self.say(f"set 7 {CODE:o}")
            self.say(f"set 11 {self.pick([0o340, 0o340, 0o340, 0, 0o200, 0o30340, 0o360]) + self.between(0, 15):o}")
            self.say("step 1")
            self.say("regs")
            self.say("device")
            if self.chance(0.3):
                self.say(self.device_line())
            if self.chance(0.2):
                self.page_registers()
            if self.chance(0.15):
                self.say(f"step {self.pick(STEPS)}")
            if self.chance(0.1):
                self.say("deposit 777572 0")
                self.say(f"start {CODE:o}")
        self.say("deposit 777572 0")
        self.say("deposit 777774 0")

    def segment_interrupts(self):
        """All devices ask at once; handlers count, answer and start the next thing."""
        self.data()
        for vector, choices in (
                (0o60, [[0o113725, 0o177562], [0o113737, 0o177562, 0o177566], [0o105737, 0o177562], []]),
                (0o64, [[0o112737, self.between(0, 255), 0o177566], [0o005037, 0o177564], [0o005203], []]),
                (0o100, [[0o005237, DATA], [0o042737, 0o200, 0o177546], [0o105037, 0o177546], [0o005202], []]),
                (0o220, [[0o013724, 0o177404], [0o012737, self.control_word() | 0o101, 0o177404], [0o005237, 0o177404],
                         [0o005037, 0o177404], []])):
            handler = HANDLERS + 0o40 * VECTORS.index(vector)
            self.deposit(vector, handler, self.pick([0, 0, 0o140, 0o200, 0o240, 0o300, 0o340, 0o340]))
            self.deposit(handler, *self.pick(choices), self.pick([2, 2, 2, 6]))
        self.deposit(CODE, *self.pick([[0o777], [1, 0o776], [1, 0o776], [0o005200, 0o005201, 0o775],
                                       [1, 0o012737, self.status_word() & 0o357, 0o177776, 0o774],
                                       [0o012737, 0o340, 0o177776, 0o005200, 0o005037, 0o177776, 0o770]]))
        for register, word in ((4, 0o4200), (5, 0o4100), (6, STACK)):
            self.say(f"set {register} {word:o}")
        self.say(self.mount_line())
        self.say(f"start {CODE:o}")
        self.mapped = False
        acts = ["deposit 777560 100", "deposit 777564 100", "deposit 777546 100", "deposit 777546 300",
                f"clock {self.pick([1, 2, 3, 5, 11, 40, 64])}", f"key {self.text(self.between(1, 5))}",
                "deposit 777566 102", f"deposit 777412 {self.disk_address():o}", f"deposit 777404 {self.control_word() | 0o101:o}",
                "deposit 777406 177400", "deposit 777410 6000"]
        self.random.shuffle(acts)
        for act in acts:
            self.say(act)
        for _ in range(self.between(3, 15)):
            self.run()
            self.say("device")
            self.say("regs")
            if self.chance(0.5):
                self.say(self.pick(acts))
            if self.chance(0.2):
                self.say(self.device_line())
            if self.chance(0.15):
                self.say(f"set 11 {self.pick([0, 0o140, 0o200, 0o240, 0o300, 0o340]):o}")
        self.say("clock 0")
        self.say(f"examine {DATA:o} 128")
