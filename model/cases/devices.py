"""Pieces of a script about the disk, the console line, the clock and idling."""
from .words import CONSOLE, CODE, HANDLERS, DATA, STACK, STEPS


class Devices:
    def word_count(self):
        return self.pick([-1, -2, -3, -17, -17, -100, -255, -256, -256, -257, -300, -300, -512, -513, -700, -1024, -256 * 30, 0, 1]) % 65536

    def bus_address(self):
        return self.pick([DATA, DATA, DATA, 0o6000, 0o6000, 0o6000, 0o7000, 0o7000, 0o4001, (self.top - 512) % 65536,
                          (self.top - 510) % 65536, (self.top - 1024) % 65536, (self.top - 2) % 65536, self.top % 65536,
                          0o177776, CODE, 0, self.word()])

    def disk_address(self):
        drive = self.pick([0] * 14 + [1, 1, 1, 2, 7, self.between(0, 7)])
        cylinder = self.pick([0, 0, 0, 0, 0, 1, 1, 2, 3, 5, 5, 201, 202, 202, 202, self.pick([203, 255]), self.between(0, 40)])
        sector = self.pick([0, 0, 1, 2, 5, 10, 11, 11, 11, self.pick([12, 15]), self.between(0, 11)])
        return drive * 0o20000 + cylinder * 32 + self.between(0, 1) * 16 + sector

    def control_word(self):
        word = 2 * self.pick([0, 1, 1, 1, 1, 2, 2, 2, 3, 3, 3, 4, 4, 5, 6, 7]) + (1 if self.chance(0.88) else 0)
        word += self.pick([0, 0, 0o100]) + self.pick([0] * 15 + [0o20, 0o40, 0o60])
        return word + self.pick([0, 0, 0, 0o400]) + self.pick([0] * 15 + [0o2000]) + self.pick([0, 0, 0, 0o4000])

    def image(self):
        name = self.pick(["z", "d1", "d2", "d2", "d2", "d2", "d2", "d3", "d4"])
        if name not in self.files:
            length = {"z": 0, "d1": self.between(1, 9000), "d2": 50 * 1024, "d3": 2494464, "d4": 511}[name]
            unit = self.random.randbytes(min(length, 5000))
            self.files[name] = (unit * (length // max(1, len(unit)) + 1))[:length]
        return name

    def mount_line(self):
        drive = self.pick([0, 0, 0, 0, 0, 0, 1, 1, 2, 7, 5])
        return f"mount {drive} {self.image()} {self.pick(['rw', 'rw', 'rw', 'rw', 'rw', 'ro'])}"

    def device_line(self):
        """One operator's act on the devices."""
        kind = self.random.random()
        if kind < 0.2:
            return f"deposit 777412 {self.disk_address():o}"
        if kind < 0.3:
            return f"deposit 777406 {self.word_count():o}"
        if kind < 0.4:
            return f"deposit 777410 {self.bus_address():o}"
        if kind < 0.6:
            return f"deposit 777404 {self.control_word():o}"
        if kind < 0.64:
            return f"deposit {self.pick([0o777400, 0o777402, 0o777416, 0o777414]):o} {self.word():o}"
        if kind < 0.68:
            return f"deposit 777546 {self.pick([0, 0o100, 0o300, 0o200, self.word()]):o}"
        if kind < 0.72:
            return f"deposit {self.pick(CONSOLE):o} {self.pick([0, 0o100, self.between(0, 255), self.word()]):o}"
        if kind < 0.76:
            return "tick"
        if kind < 0.80:
            return f"clock {self.pick([0, 1, 2, 3, 7, 10, 16, 48, 100, 1000, 999999999])}"
        if kind < 0.85:
            return f"key {self.text(self.pick([1, 2, 3, 10, 40, 63, 64]))}"
        if kind < 0.88:
            return "examine 777560 4"
        if kind < 0.91:
            return "examine 777400 6"
        if kind < 0.94:
            return self.mount_line()
        if kind < 0.96:
            return f"unmount {self.pick([0, 0, 0, 1, 2, 7])}"
        if kind < 0.98:
            return f"changed {self.pick([0, 1, 2, 7])}"
        return f"start {CODE:o}"

    def text(self, count):
        out = ""
        for _ in range(count):
            out += self.pick([chr(self.between(0x21, 0x5b)), chr(self.between(0x5d, 0x7e)), f"\\{self.between(0, 255):03o}"])
        return out

    def segment_disk(self):
        if self.chance(0.9):
            self.say(f"mount 0 {self.image()} rw")
        if self.chance(0.5):
            self.say(self.mount_line())
        if self.chance(0.5):
            self.say(self.mount_line())
        self.data()
        if self.chance(0.6):
            self.vectors()
        self.deposit(CODE, *self.pick([[0o777], [0o777], [1, 0o776], self.program(CODE, 6)]))
        self.say(f"set 6 {STACK:o}")
        self.say(f"start {CODE:o}")
        self.mapped = False
        if self.chance(0.3):
            self.say(f"set 11 {self.pick([0, 0o340, 0o200]):o}")
        for _ in range(self.between(3, 10)):
            if self.chance(0.3):
                # a short transfer in a good place, to its end
                self.say(f"deposit 777412 {self.between(0, 3) * 32 + self.between(0, 1) * 16 + self.between(0, 11):o}")
                self.say(f"deposit 777406 {(-self.pick([1, 2, 5, 17, 100, 255, 256, 257, 300, 512])) % 65536:o}")
                self.say(f"deposit 777410 {self.pick([DATA, 0o6000, 0o7000, CODE - 8, (self.top - 512) % 65536, self.word()]):o}")
                self.say(f"deposit 777404 {self.pick([3, 3, 5, 7, 0o103, 0o105, 0o107, 0o407, 0o4003, 0o4005, 13]):o}")
                self.say(f"step {self.pick([60, 80, 90, 100])}")
                self.say("device")
                self.say(self.pick(["changed 0", "examine 4000 256", "examine 6000 256"]))
            if self.chance(0.85):
                self.say(f"deposit 777412 {self.disk_address():o}")
                self.say(f"deposit 777406 {self.word_count():o}")
                self.say(f"deposit 777410 {self.bus_address():o}")
                self.say(f"deposit 777404 {self.control_word():o}")
            for _ in range(self.between(0, 3)):
                self.say(f"{self.pick(['step', 'continue'])} {self.pick(STEPS + [200, 250, 300])}")
                self.say(self.pick(["device", "device", "examine 777400 6", "regs"]))
                if self.chance(0.4):
                    self.say(self.device_line())
            if self.chance(0.7):
                self.say(f"step {self.pick([16, 17, 48, 64, 80, 112, 250, 350, 500])}")
                self.say("device")
            if self.chance(0.12):
                self.say(f"unmount {self.pick([0, 0, 0, 1])}")
                self.say("device")
            if self.chance(0.12):
                self.say(self.mount_line())
            if self.chance(0.2):
                self.say(f"examine {self.pick([DATA, 0o6000, 0o7000, self.top - 1024]):o} {self.pick([64, 300, 512])}")
        if self.chance(0.25):
            # the end of the disk
            self.say("deposit 777404 1")
            self.say("step 300")
            self.say("deposit 777412 %o" % (202 * 32 + self.pick([16 + 11, 16 + 10, 16 + 11, 11])))
            self.say(f"deposit 777406 {(-self.pick([256, 257, 512, 600, 100])) % 65536:o}")
            self.say(f"deposit 777410 {self.bus_address():o}")
            self.say(f"deposit 777404 {self.pick([3, 5, 7, 13, 0o103, 0o105, 0o113]):o}")
            self.say("step 280")
            self.say("device")
            self.say("step 40")
            self.say("device")
        if self.chance(0.12):
            self.say("deposit 777412 0")
            self.say(f"deposit 777404 {self.pick([0o17, 0o117]):o}")
            self.say("device")
            self.say("deposit 777404 3")
            self.say("device")
        if self.chance(0.5):
            # let it end, then read it back
            self.say("step 300")
            self.say("deposit 777404 1")
            self.say(f"deposit 777412 {self.disk_address():o}")
            self.say("deposit 777410 6000")
            self.say(f"deposit 777406 {(-self.pick([256, 300])) % 65536:o}")
            self.say(f"deposit 777404 {self.pick([5, 7, 13, 5]):o}")
            self.say("step 320")
            self.say("device")
            self.say("examine 6000 300")

    def segment_console(self):
        self.vectors()
        self.data()
        self.deposit(0o60, HANDLERS + 0o600, self.pick([0o200, 0, 0o340]))
        self.deposit(0o64, HANDLERS + 0o620, self.pick([0o200, 0, 0o340]))
        self.deposit(0o100, HANDLERS + 0o640, self.pick([0o300, 0, 0o340]))
        self.deposit(HANDLERS + 0o600, *self.pick([[0o113737, 0o177562, 0o177566, 2], [2], [0o105737, 0o177562, 2], [0o5737, 0o177562, 2]]))
        self.deposit(HANDLERS + 0o620, *self.pick([[0o112737, 0o101, 0o177566, 2], [2], [0o5037, 0o177564, 2], [0o5237, 0o4000, 2]]))
        self.deposit(HANDLERS + 0o640, *self.pick([[0o5237, 0o4002, 2], [2], [0o42737, 0o200, 0o177546, 2], [6]]))
        self.deposit(CODE, *self.pick([[0o777], [1, 0o776], [1, 0], [0o5200, 0o776], self.program(CODE, 5)]))
        self.say(f"set 6 {STACK:o}")
        self.say(f"start {CODE:o}")
        self.mapped = False
        if self.chance(0.7):
            self.say("deposit 777560 100")
        if self.chance(0.4):
            self.say("deposit 777564 100")
        if self.chance(0.4):
            self.say("deposit 777546 100")
        if self.chance(0.3):
            self.say(f"set 11 {self.pick([0o340, 0o140, 0o200, 0o300, 0o20]):o}")
        for _ in range(self.between(4, 16)):
            kind = self.random.random()
            if kind < 0.2:
                self.say(f"key {self.text(self.between(1, 6))}")
            elif kind < 0.4:
                self.say(f"deposit {self.pick([0o777560, 0o777564]):o} {self.pick([0o100, 0o100, 0, 0o377])}")
            elif kind < 0.5:
                self.say(f"deposit 777566 {self.between(0, 255):o}")
            elif kind < 0.6:
                self.say(f"deposit 777546 {self.pick(['100', '300', '0', '200'])}")
            elif kind < 0.68:
                self.say("tick")
            elif kind < 0.76:
                self.say(f"clock {self.pick([0, 1, 2, 5, 10, 33, 64])}")
            elif kind < 0.82:
                self.say("examine 777562")
            else:
                self.say(self.device_line())
            self.run()
            self.say("device")
            if self.chance(0.5):
                self.say("regs")

    def segment_idle(self):
        """WAIT with devices that are due or not."""
        self.deposit(CODE, 1, 0o776)
        for vector in (0o60, 0o64, 0o100, 0o220):
            self.deposit(vector, HANDLERS, self.pick([0, 0o340]))
        self.deposit(HANDLERS, self.pick([2, 2, 0]))
        self.say(f"set 6 {STACK:o}")
        if self.chance(0.7):
            self.say(f"mount 0 {self.image()} rw")
        self.say(f"start {CODE:o}")
        self.mapped = False
        for _ in range(self.between(4, 14)):
            self.say(self.pick(["key a", "key bc", "clock 0", "clock 5", "clock 0", "tick", "deposit 777566 101", "deposit 777560 100",
                                "deposit 777560 0", "deposit 777564 100", "deposit 777546 100", "deposit 777546 0",
                                "deposit 777412 %o" % (32 * self.between(0, 40)), "deposit 777404 11", "deposit 777404 111", "deposit 777404 15",
                                "deposit 777404 5", "deposit 777404 105", "deposit 777404 1", "examine 777562",
                                f"set 11 {self.pick([0, 0o140, 0o200, 0o240, 0o300, 0o340]):o}"]))
            if self.chance(0.6):
                self.say(f"{self.pick(['continue', 'continue', 'continue', 'step'])} {self.pick([1, 1, 2, 3, 10, 30, 100, 200])}")
                self.say("device")
                self.say("regs")
        self.say("clock 0")

    def segment_devices(self):
        """Any acts on the devices in any order."""
        if self.chance(0.6):
            self.vectors()
            self.say(f"set 6 {STACK:o}")
        self.deposit(CODE, *self.pick([[0o777], [1, 0o776], self.program(CODE, 8)]))
        self.begin()
        for _ in range(self.between(8, 40)):
            self.say(self.device_line())
            if self.chance(0.4):
                self.run()
                self.say("device")
        self.say("clock 0")
