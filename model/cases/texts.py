"""Scripts whose lines are well or badly written."""


class Texts:
    def number_text(self, base):
        kind = self.random.random()
        if kind < 0.6:
            value = self.pick([0, 1, 2, 7, 8, 9, 10, 64, 0o1000, 0o1001, 0o4000, 0o177777, 0o200000, 0o777776, 0o777777, 0o1000000,
                               512, 513, 100, 65535, 100000000])
            return f"{value:o}" if base == 8 else str(value)
        if kind < 0.75:
            return "0" * self.between(1, 9) + self.pick(["", "1", "7", "17", "100"])
        return self.pick(["8", "9", "1a", "0x10", "-1", "+1", "1.0", "", "1_000", "12345678", "123456789", "1234567890",
                          "777777", "0777777", "177777", "0177777", "000000", "0000000", "000000000", "000000001",
                          "0000000001", "\x80", "\xff1", "1\x00", "\u00b2"])

    def name_text(self):
        return self.pick(["z", "z", "f", "missing", ".", "a" * 255, "a" * 256, "\x7f", "n\x80", "#x", "\\101", "~", "!",
                          "q" * self.between(1, 10), "zz\xe9", "t"])

    def key_text(self):
        parts = []
        for _ in range(self.pick([1, 1, 2, 5, 63, 64, 65])):
            parts.append(self.pick(["a", "Z", "~", "!", "#", "\\000", "\\377", "\\101", "\\134", "\\040", "\\177",
                                    chr(self.between(0x21, 0x5b))]))
        if self.chance(0.3):
            parts.insert(self.between(0, len(parts)), self.pick(["\\", "\\1", "\\12", "\\400", "\\999", "\\08", "\\\\", "\\10a", "\\777",
                                                                 "\x7f", "\x80", "\x00", "\\378", "\\-12", "\\ 12"]))
        return "".join(parts)

    def text_words(self):
        number = self.number_text
        return self.pick([
            lambda: ["mount", number(8), self.name_text(), self.pick(["rw", "ro", "rw", "RW", "wr", "r", "rwx", ""])],
            lambda: ["unmount", number(8)],
            lambda: ["save", number(8), self.pick(["out", "out" * 20, "x" * 255, "x" * 256, "n\x80", "missingfolder/x"])],
            lambda: ["examine", number(8)] + self.pick([[], [number(10)], [number(10), number(10)]]),
            lambda: ["deposit", number(8)] + [number(8) for _ in range(self.pick([0, 1, 1, 2, 3, 64, 65]))],
            lambda: ["deposit", self.pick(["1000", "4000", "777570", "777774"])] + [f"{self.word():o}" for _ in range(self.pick([1, 2, 63, 64, 65, 66]))],
            lambda: ["start", number(8)],
            lambda: ["key", self.key_text()],
            lambda: ["tick"],
            lambda: ["switches", number(8)],
            lambda: ["set", number(8), number(8)],
            lambda: [self.pick(["step", "continue"]), self.pick(["1", "2", "9", "009", number(10)])],
            lambda: ["regs"],
            lambda: ["device"],
            lambda: ["changed", number(8)],
            lambda: ["load", self.name_text()],
            lambda: ["flush"],
            lambda: ["clock", number(10)],
            lambda: [self.pick(["bogus", "", "Regs", "REGS", "reg", "regss", "#", "#regs", "regs#", "\xa0regs", "\x0bregs", "help", "?"])],
        ])()

    def text_line(self):
        words = self.text_words()
        # Large runs would take long: a run is kept to what a slow machine can do or what is refused.
        if words[0] in ("step", "continue") and len(words) > 1 and words[1].isascii() and words[1].isdigit() \
                and len(words[1]) <= 9 and 2000 < int(words[1]) <= 100000000:
            words[1] = "100000001"
        kind = self.random.random()
        if kind < 0.1:
            words.append(self.pick(["x", "1", "#", "# comment", ""]))
        elif kind < 0.15 and len(words) > 1:
            words.pop(self.between(0, len(words) - 1))
        elif kind < 0.2:
            at = self.between(0, len(words) - 1)
            words[at] = words[at].swapcase()
        separators = [" "] * 6 + ["  ", "\t", " \t ", "\t\t"] + (["\r", "\x0b", "\x0c", "\x00", "\xa0", ","] if self.chance(0.1) else [])
        line = self.pick(["", "", "", " ", "\t", "  \t"]) + words[0]
        for word in words[1:]:
            line += self.pick(separators) + word
        line += self.pick(["", "", "", "", " ", "\t", " \t"])
        return line.encode("latin-1", "replace")

    def long_line(self):
        length = self.pick([4094, 4095, 4096, 4097, 4098, 5000, 8191, 8192, 8193, 12289])
        form = self.pick(["comment", "spaces", "examine", "regs", "key", "garbage", "name", "blank comment"])
        if form == "comment":
            return (b"#" + b"c" * length)[:length]
        if form == "blank comment":
            return (b" " * (length - 2) + b"#x")
        if form == "spaces":
            return b" " * length
        if form == "examine":
            return b"examine" + b" " * (length - 11) + b"1000"
        if form == "regs":
            return b"regs" + b"\t" * (length - 4)
        if form == "key":
            return b"key " + self.pick([b"k" * (length - 4), b"\\101" * ((length - 4) // 4) + b"k" * (length % 4)])
        if form == "name":
            return b"load " + b"n" * (length - 5)
        return self.random.randbytes(length).replace(b"\n", b"n")

    def text_case(self):
        self.files["z"] = b""
        self.files["f"] = b"\xff" * 512
        self.files["t"] = self.tape()
        pieces = []
        for _ in range(self.between(5, 80)):
            kind = self.random.random()
            if kind < 0.75:
                line = self.text_line()
            elif kind < 0.82:
                line = self.long_line()
            elif kind < 0.86:
                line = self.random.randbytes(self.between(0, 12)).replace(b"\n", b"")
            elif kind < 0.9:
                line = self.pick([b"", b" ", b"\t", b"\r", b" \r", b"#", b" #\x00\xff", b"# \\", b"\r\r", b"\xef\xbb\xbfregs"])
            elif kind < 0.96:
                line = self.pick([b"regs", b"device", b"examine 777570", b"examine 4000 3"])
            else:
                # type a byte, to see how it is written
                pieces.append(b"deposit 1000 777\nstart 1000\n")
                pieces.append(b"deposit 777566 %o\n" % self.pick([0, 0o40, 0o134, 0o177, 0o200, 0o377, 0o41, 0o176, self.between(0, 255)]))
                line = b"step 64"
            pieces.append(line + self.pick([b"\n", b"\n", b"\n", b"\n", b"\r\n", b"\r\n", b"\r\r\n", b" \r\n"] if self.chance(0.5) else [b"\n"]))
        pieces.append(b"regs\ndevice\n")
        last = self.pick([b"", b"", b"regs", b"regs\r", b"\r", b" ", b"#x", b"examine 1000", b"\x00", self.long_line()])
        return b"".join(pieces) + last
