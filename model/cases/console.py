"""Pieces of a script about the operator and paper tapes."""
from .words import SILENT, REGISTERS, CODE, DATA


class Console:
    def operator_line(self):
        kind = self.random.random()
        if kind < 0.2:
            address = self.pick([self.pick(REGISTERS), self.pick(SILENT), self.between(0, 0o777777),
                                 self.top - 2, self.top, 0o777776, CODE, CODE + 1, 0o757776, 0o777777])
            count = self.pick(["", "", f" {self.pick([1, 2, 8, 32, 512, 513, 100000])}"])
            self.say(f"examine {address:o}{count}")
        elif kind < 0.4:
            address = self.pick([self.pick(REGISTERS), self.pick(SILENT), self.between(0, 0o777777),
                                 self.top - 2, self.top, DATA, DATA + 1, 0o757774, 0o757776, 0o777776])
            if self.memory == 124 and self.chance(0.3):
                address = self.pick([0o757776, 0o757774, 0o757760, 0o757775])
            words = [self.word() for _ in range(self.pick([1, 1, 1, 2, 3, 64, 65]))]
            self.say(f"deposit {address:o} " + " ".join(f"{word:o}" for word in words))
        elif kind < 0.45:
            self.say(f"start {self.pick([CODE, CODE + 1, 0, self.word()]):o}")
            self.mapped = False
        elif kind < 0.5:
            self.say(f"switches {self.word():o}")
        elif kind < 0.6:
            self.say(f"set {self.pick([0, 1, 2, 3, 4, 5, 6, 7, 8, 9, 10, 0o177777]):o} {self.word():o}")
        elif kind < 0.65:
            self.say(f"{self.pick(['step', 'continue'])} {self.pick(['0', '1', '2', '10', '100000001', '999999999', '1000000000', '007'])}")
        elif kind < 0.7:
            self.say(f"unmount {self.pick([0, 1, 2, 7, 8, 0o177777]):o}")
        elif kind < 0.75:
            self.say(f"changed {self.pick([0, 1, 2, 7, 8, 0o177777]):o}")
        elif kind < 0.78:
            self.say(f"save {self.pick([0, 1, 2, 9]):o} {self.pick(['out', 'nofolder/x', 'out2'])}")
        elif kind < 0.82:
            self.say(f"mount {self.pick([0, 1, 2, 8, 9]):o} {self.pick(['missing', '.', self.image()])} {self.pick(['rw', 'ro'])}")
        elif kind < 0.85:
            self.say("flush")
        elif kind < 0.9:
            self.say(self.pick(["regs", "device", "tick"]))
        else:
            self.say(self.device_line())

    def segment_operator(self):
        for _ in range(self.between(5, 30)):
            self.operator_line()
            if self.chance(0.3):
                self.say(self.pick(["regs", "device"]))
            if self.chance(0.1):
                self.run(20)

    def block(self, address, data):
        body = bytes([1, 0, (len(data) + 6) % 256, (len(data) + 6) // 256, address % 256, address // 256 % 256]) + data
        return body + bytes([-sum(body) % 256])

    def tape(self):
        parts = [bytes(self.pick([0, 0, 1, 3, 50]))]
        for _ in range(self.pick([0, 1, 1, 2, 3])):
            address = self.pick([CODE, DATA, DATA + 1, 0, self.top - 2, self.top - 1, self.top % 65536, 65535, 65530, self.between(0, 65535)])
            parts.append(self.block(address % 65536, self.random.randbytes(self.pick([1, 2, 3, 6, 10, 300]))))
            parts.append(bytes(self.pick([0, 0, 1, 5])))
            if self.chance(0.3):
                # a block that is wrong, or just right, in one thing, with a good sum
                data = self.random.randbytes(self.pick([0, 1, 2, 3, 4]))
                count = self.pick([len(data) + 6, len(data) + 6, 0, 1, 2, 3, 4, 5])
                address = self.pick([65536 - len(data), 65537 - len(data), 65535 - len(data), DATA, self.top - len(data)]) % 65536
                body = bytes([1, self.pick([0, 0, 0, 0, 1, 2]), count, 0, address % 256, address // 256])
                body = (body + data)[:max(count, 4)]
                parts.append(body + bytes([-sum(body) % 256]))
        if self.chance(0.6):
            parts.append(self.block(self.pick([CODE, CODE + 1, 1, 0, 0o177776]), b""))
            parts.append(self.random.randbytes(self.pick([0, 0, 3])))
        tape = bytearray(b"".join(parts))
        if tape and self.chance(0.4):
            damage = self.random.random()
            if damage < 0.4:
                del tape[self.between(0, len(tape) - 1):]
            elif damage < 0.8:
                tape[self.between(0, len(tape) - 1)] = self.pick([0, 1, 2, 5, 6, 7, 255, self.between(0, 255)])
            else:
                tape.insert(self.between(0, len(tape)), self.between(0, 255))
        return bytes(tape)

    def segment_tapes(self):
        for _ in range(self.between(2, 10)):
            name = f"t{len(self.files)}"
            self.files[name] = self.tape()
            self.say(f"load {name}")
            if self.chance(0.5):
                self.say(f"examine {self.pick([CODE, DATA, 0, self.top - 16]):o} 8")
            if self.chance(0.3):
                self.run(10)
                self.say("regs")
        if self.chance(0.2):
            self.say("load missing")
