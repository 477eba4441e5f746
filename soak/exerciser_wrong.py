"""Wrong machines for the exerciser: the model with one rule turned in each, and the group that has to name it.

WRONG has them as (name, group, what turns the rule); where the group is `-` the program halts before it types. A rule is turned in the process that calls it, for good.
"""
import os
import sys

HERE = os.path.dirname(os.path.abspath(__file__))
sys.path[:0] = [os.path.join(HERE, "..", "model"), os.path.join(HERE, "..", "examples")]
from pdp11 import arithmetic, clock, console_line, disk, drive, machine, moves, perform, status, translation  # noqa: E402
from pdp11.numbers import BYTE, WORD, signed, with_byte, wrapped  # noqa: E402

WRONG = []


def wrong(group, name=None):
    """Notes a function that turns a rule, or makes it for a row."""
    def note(turn):
        WRONG.append((name or turn.__name__.replace("_", " "), group, turn))
        return turn
    return note


def of_codes(group, row, right, kind, size=WORD, **given):
    """Notes a row of the table whose codes are others: `given` has each as a function of the right codes, the result and the old ones."""
    def turn():
        def bad(*operands):
            result, codes = right(*operands)
            old = operands[-2]
            return result, codes._replace(**{name: rule(codes, result, old) for name, rule in given.items()})
        moves.ROWS[row] = kind(bad, size)
    WRONG.append((f"{row}: {', '.join(sorted(given))}", group, turn))


def of_result(group, name, row, bad, kind, size=WORD):
    """Notes a row of the table that has another function."""
    def turn():
        moves.ROWS[row] = kind(bad, size)
    WRONG.append((f"{row}: {name}", group, turn))


def branch(row, condition):
    """Notes a branch with another condition."""
    def turn():
        moves.ROWS[row] = moves.branch_row(condition)
    WRONG.append((f"{row}: another condition", "A", turn))


branch("BGE", lambda codes: not codes.n)
branch("BGT", lambda codes: codes.n == codes.v)
branch("BHI", lambda codes: not codes.c)
branch("BLOS", lambda codes: codes.c)
branch("BVS", lambda codes: codes.v and codes.n)

@wrong("B", "SOB goes a word too far back")
def sob_too_far():
    moves.ROWS["SOB"] = lambda register, count: moves.count_down_row(register, count + 1)


@wrong("B", "CLC clears Z too")
def clc_clears_z():
    right = moves.codes_row
    moves.ROWS["CODES"] = lambda letters: right(5 if letters == 1 else letters)


@wrong("B", "RTS doesn't pop")
def rts_without_pop():
    right = moves.return_row
    moves.ROWS["RTS"] = lambda register: right(register) if register == 7 else right(register)[:-1]


@wrong("B", "JSR pushes PC in place of the register")
def jsr_pushes_pc():
    right = moves.call_row

    def bad(register, destination):
        return [("copy register", "link", 7) if move == ("copy register", "link", register) else move
                for move in right(register, destination)]
    moves.ROWS["JSR"] = bad


@wrong("B", "MARK counts bytes")
def mark_counts_bytes():
    right = moves.mark_row
    moves.ROWS["MARK"] = lambda count: right(count // 2)


@wrong("B", "CLN clears Z too")
def cln_clears_z():
    right = moves.codes_row
    moves.ROWS["CODES"] = lambda letters: right(0o14 if letters == 0o10 else letters)


of_codes("C", "ADD", arithmetic.add, moves.change_row, v=lambda codes, result, old: False)
of_codes("C", "ADD", arithmetic.add, moves.change_row, c=lambda codes, result, old: old.c)
of_codes("C", "SUB", arithmetic.subtract, moves.change_row, c=lambda codes, result, old: not codes.c)
of_codes("C", "BIS", arithmetic.bit_set, moves.change_row, v=lambda codes, result, old: old.v)
of_codes("C", "BIT", arithmetic.bit_test, moves.read_row, n=lambda codes, result, old: old.n)
of_codes("-", "BIC", arithmetic.bit_clear, moves.change_row, z=lambda codes, result, old: False)
of_result("-", "the operands are exchanged", "CMP",
          lambda source, destination, codes, size: arithmetic.compare(destination, source, codes, size), moves.read_row)


@wrong("C", "MOV clears C")
def mov_clears_c():
    right = arithmetic.move

    def bad(source, destination, codes, size):
        result, new = right(source, destination, codes, size)
        return result, new._replace(c=False)
    moves.ROWS["MOV"] = lambda source, destination: moves.double(bad, WORD, source, destination, reads=False)


@wrong("D", "MOVB into a register leaves its high byte")
def movb_without_sign():
    moves.ROWS["MOVB"] = lambda source, destination: moves.double(arithmetic.move, BYTE, source, destination, reads=False)


of_codes("D", "CMPB", arithmetic.compare, moves.read_row, BYTE, v=lambda codes, result, old: False)
of_codes("D", "BICB", arithmetic.bit_clear, moves.change_row, BYTE, n=lambda codes, result, old: False)


@wrong("D", "BISB clears the register's high byte")
def bisb_clears_high_byte():
    def bad(source, destination):
        right = moves.change_row(arithmetic.bit_set, BYTE)(source, destination)
        return [("set register", *move[1:]) if move[0] == "set low byte" else move for move in right]
    moves.ROWS["BISB"] = bad


of_codes("E", "NEG", arithmetic.negate, moves.single_row, c=lambda codes, result, old: not codes.c)
of_codes("E", "COM", arithmetic.complement, moves.single_row, c=lambda codes, result, old: False)
of_codes("E", "INC", arithmetic.increment, moves.single_row, c=lambda codes, result, old: result == 0)
of_codes("E", "DEC", arithmetic.decrement, moves.single_row, v=lambda codes, result, old: False)
of_codes("E", "ADC", arithmetic.add_carry, moves.single_row, v=lambda codes, result, old: result == 0o100000)
of_codes("E", "TST", arithmetic.test, moves.single_row, c=lambda codes, result, old: old.c)
of_codes("E", "ROL", arithmetic.rotate_left, moves.single_row, v=lambda codes, result, old: False)
of_result("E", "a 0 comes in", "ASR",
          lambda operand, codes, size: arithmetic.shifted(operand // 2, size, operand % 2 == 1), moves.single_row)
of_result("E", "C doesn't come in", "ROR",
          lambda operand, codes, size: arithmetic.shifted(operand // 2, size, operand % 2 == 1), moves.single_row)


@wrong("E", "SWAB has N and Z by the word")
def swab_by_word():
    def bad(operand, codes, size):
        result, new = arithmetic.swap_bytes(operand, codes, size)
        return result, new._replace(n=result >= 0o100000, z=result == 0)
    moves.ROWS["SWAB"] = moves.single_row(bad, WORD)


of_codes("F", "NEGB", arithmetic.negate, moves.single_row, BYTE, v=lambda codes, result, old: False)
of_codes("F", "ASLB", arithmetic.shift_left, moves.single_row, BYTE, c=lambda codes, result, old: False)
of_codes("F", "SBCB", arithmetic.subtract_carry, moves.single_row, BYTE, c=lambda codes, result, old: old.c)
of_result("F", "the byte is shifted as an unsigned one", "ASRB",
          lambda operand, codes, size: arithmetic.shifted(operand // 2, size, operand % 2 == 1), moves.single_row)


def address(change):
    """What turns the moves of an operand's address: CHANGE has the operand, the size and the right moves."""
    right = moves.address_of
    moves.address_of = lambda operand, size: change(operand, size, right(operand, size))


def stepped(found, by):
    return [(move[0], move[1], by) if move[0] in ("step up", "step down") and move[1] != 7 else move for move in found]


@wrong("G", "mode 3 steps by 4")
def mode_3_by_4():
    address(lambda operand, size, found: stepped(found, 4) if operand // 8 == 3 and operand % 8 < 6 else found)


@wrong("G", "mode 5 steps by 4")
def mode_5_by_4():
    address(lambda operand, size, found: stepped(found, 4) if operand // 8 == 5 and operand % 8 != 6 else found)


@wrong("G", "mode 7 isn't deferred")
def mode_7_undeferred():
    address(lambda operand, size, found: [*found[:-2], ("calculate", ("address",), moves.total, ("index", "base"))]
            if operand // 8 == 7 and operand % 8 < 6 else found)


@wrong("H", "mode 2 of bytes steps by 2")
def byte_mode_2_by_2():
    address(lambda operand, size, found: stepped(found, 2) if operand == 0o22 and size == BYTE else found)


@wrong("H", "mode 4 of bytes steps SP by 1")
def byte_of_stack_by_1():
    address(lambda operand, size, found: stepped(found, 1) if operand == 0o46 and size == BYTE else found)


@wrong("H", "a byte written to an odd address goes to the even one")
def odd_byte_written_low():
    right = machine.Machine.bus_write

    def bad(self, place, value, size):
        right(self, place & ~1 if size == BYTE and place < 0o760000 else place, value, size)
    machine.Machine.bus_write = bad


@wrong("I", "XOR takes mode 6 from PC")
def xor_by_pc():
    def bad(register, destination):
        found = moves.exclusive_or_row(register, destination)
        return [("copy register", "base", 7) if move[:2] == ("copy register", "base") else move for move in found]
    moves.ROWS["XOR"] = bad


@wrong("I", "INCB in memory writes a word")
def incb_writes_word():
    def bad(destination):
        found = moves.single_row(arithmetic.increment, BYTE)(destination)
        return [(*move[:3], WORD, move[4]) if move[0] == "write" and destination // 8 == 1 else move for move in found]
    moves.ROWS["INCB"] = bad


@wrong("J", "BPT goes through 20")
def bpt_through_20():
    moves.ROWS["BPT"] = moves.trap_row(0o20)


@wrong("J", "EMT goes through 34")
def emt_through_34():
    moves.ROWS["EMT"] = moves.trap_row(0o34)


@wrong("J", "a reserved instruction goes through 4")
def reserved_through_4():
    moves.ROWS["RESERVED"] = moves.trap_row(0o4)


@wrong("J", "an odd address is taken as even")
def odd_as_even():
    right = machine.Machine.refer
    machine.Machine.refer = lambda self, mode, virtual, size, writes: right(
        self, mode, virtual & ~1 if size == WORD else virtual, size, writes)


@wrong("J", "nothing is read as 0 where nothing answers")
def no_time_out():
    right = machine.Machine.see
    machine.Machine.see = lambda self, place: 0 if place == 0o760000 else right(self, place)


@wrong("J", "RTT is traced at once")
def rtt_traced():
    right = machine.Machine.execute
    machine.Machine.execute = lambda self: "RTI" if (name := right(self)) == "RTT" else name


@wrong("J", "the stack has no limit")
def no_limit():
    machine.Machine.stack_zone = lambda self, stack: "clear"


@wrong("J", "the limit is 402")
def limit_402():
    right = machine.Machine.stack_zone
    machine.Machine.stack_zone = lambda self, stack: right(self, wrapped(stack - 2, WORD))


@wrong("K", "MUL never sets C")
def mul_without_c():
    right = arithmetic.multiply

    def bad(one, other):
        high, low, codes = right(one, other)
        return high, low, codes._replace(c=False)
    arithmetic.multiply = bad


@wrong("K", "DIV gives the remainder the divisor's sign")
def div_remainder():
    right = arithmetic.divide

    def bad(high, low, divisor):
        quotient, remainder, codes = right(high, low, divisor)
        if remainder and (signed(remainder, WORD) < 0) != (signed(divisor, WORD) < 0):
            remainder = wrapped(-remainder, WORD)
        return quotient, remainder, codes
    arithmetic.divide = bad


@wrong("K", "DIV by 0 leaves C clear")
def div_by_0():
    right = arithmetic.divide

    def bad(high, low, divisor):
        quotient, remainder, codes = right(high, low, divisor)
        return quotient, remainder, codes._replace(c=False)
    arithmetic.divide = bad


@wrong("K", "ASH to the right brings in 0")
def ash_unsigned():
    right = arithmetic.shift_by_count

    def bad(number, count, size):
        places = signed(count % 64, 6)
        result, codes = right(number, count, size)
        if places < 0 and size == WORD:
            result = number >> -places
            codes = codes._replace(n=signed(result, size) < 0, z=result == 0)
        return result, codes
    arithmetic.shift_by_count = bad


@wrong("K", "ASHC has V by its last shift")
def ashc_overflow():
    right = arithmetic.shift_by_count

    def bad(number, count, size):
        result, codes = right(number, count, size)
        return result, codes._replace(v=codes.n != (number >= 2 ** (size - 1))) if size == 2 * WORD else codes
    arithmetic.shift_by_count = bad


@wrong("L", "MUL steps mode 2 by 1")
def mul_mode_2():
    right = moves.multiply_row

    def bad(register, operand):
        found = right(register, operand)
        return stepped(found, 1) if operand // 8 == 2 and operand % 8 == 2 else found
    moves.ROWS["MUL"] = bad


@wrong("M", "a page's last block is outside")
def last_block_outside():
    right = translation.MemoryManagement.causes

    def bad(self, mode, virtual, writes):
        found = right(self, mode, virtual, writes)
        if mode in (status.KERNEL, status.USER):
            descriptor = self.page_descriptors[mode][virtual // 0o20000]
            if descriptor & 0o10 == 0 and descriptor >> 8 < 0o177 and virtual // 0o100 % 0o200 == descriptor >> 8:
                found |= translation.LENGTH
        return found
    translation.MemoryManagement.causes = bad


@wrong("M", "a page that grows downward is as one that grows upward")
def no_downward():
    right = translation.MemoryManagement.causes

    def bad(self, mode, virtual, writes):
        pages = self.page_descriptors.get(mode)
        if pages is None:
            return right(self, mode, virtual, writes)
        page, kept = virtual // 0o20000, pages[virtual // 0o20000]
        pages[page] = kept & ~0o10
        found = right(self, mode, virtual, writes)
        pages[page] = kept
        return found
    translation.MemoryManagement.causes = bad


@wrong("M", "a page that is read only is written")
def no_read_only():
    right = translation.MemoryManagement.causes
    translation.MemoryManagement.causes = lambda self, mode, virtual, writes: right(self, mode, virtual, False)


@wrong("M", "W isn't set")
def no_w():
    right = translation.MemoryManagement.place

    def bad(self, mode, virtual, writes):
        kept = {key: list(words) for key, words in self.page_descriptors.items()}
        found = right(self, mode, virtual, writes)
        self.page_descriptors.update(kept)
        return found
    translation.MemoryManagement.place = bad


@wrong("M", "SR0 has no mode")
def sr0_without_mode():
    right = translation.MemoryManagement.see
    translation.MemoryManagement.see = lambda self, place: (
        right(self, place) & ~0o140 if place == translation.STATUS_REGISTER_0 else right(self, place))


@wrong("M", "SR2 has PC behind the instruction")
def sr2_behind():
    right = translation.MemoryManagement.see
    translation.MemoryManagement.see = lambda self, place: (
        right(self, place) + 2 & 0o177777 if place == translation.STATUS_REGISTER_2 else right(self, place))


@wrong("M", "MFPI reads the current space")
def mfpi_current():
    def bad(operand):
        return [(*move[:4], moves.CURRENT) if move[0] == "read" else move for move in moves.move_from_previous_row(operand)]
    moves.ROWS["MFPI"] = bad


@wrong("M", "a trap forgets the previous mode")
def no_previous_mode():
    status.from_vector = lambda old, word: status.without_unused_bits(word)


@wrong("M", "the user has the kernel's stack")
def one_stack():
    machine.Machine.stack_pointer = lambda self, mode: self.kernel_stack
    machine.Machine.set_stack_pointer = lambda self, mode, word: setattr(self, "kernel_stack", word)


@wrong("N", "the clock interrupts at level 5")
def clock_at_5():
    clock.LEVEL = 5


@wrong("N", "bit 7 of the clock isn't cleared by a write")
def clock_keeps_7():
    right = clock.Clock.write

    def bad(self, word):
        right(self, word | 0o200)
    clock.Clock.write = bad


@wrong("O", "the transmitter interrupts at level 5")
def line_at_5():
    console_line.LEVEL = 5


@wrong("O", "RESET leaves the transmitter's enable")
def reset_keeps_enable():
    right = console_line.ConsoleLine.initialize

    def bad(self):
        kept = getattr(self, "transmitter_enable", False)
        right(self)
        self.transmitter_enable = kept
    console_line.ConsoleLine.initialize = bad


@wrong("O", "WAIT does nothing")
def no_wait():
    perform.MOVES["wait"] = lambda self: None


@wrong("P", "RKDA goes on behind sector 11")
def no_other_surface():
    right = disk.Disk.next_sector

    def bad(self):
        if self.sector() == 11:
            self.disk_address += 1
        else:
            right(self)
    disk.Disk.next_sector = bad


@wrong("P", "RKBA is stepped though that is inhibited")
def no_inhibit():
    right = disk.Disk.write_control

    def bad(self, turn, word):
        right(self, turn, word & ~0o4000)
    disk.Disk.write_control = bad


@wrong("P", "a write check finds nothing")
def blind_check():
    right = disk.Disk.set_error

    def bad(self, bit):
        if bit != disk.WRITE_CHECK:
            right(self, bit)
    disk.Disk.set_error = bad


@wrong("P", "there is a sector 12")
def sector_12():
    right = disk.Disk.failed_check

    def bad(self):
        found = right(self)
        return None if found == disk.NO_SECTOR else found
    disk.Disk.failed_check = bad


@wrong("Q", "the rest of a sector stays as it was")
def rest_stays():
    right = drive.Drive.store

    def bad(self, number, words):
        right(self, number, words + self.words(number)[len(words):])
    drive.Drive.store = bad


def high_byte(word):
    """A word with its bytes exchanged."""
    return with_byte(with_byte(0, True, word % 256), False, word // 256)


@wrong("Q", "the disk has the bytes of a word exchanged")
def bytes_exchanged():
    right = drive.Drive.words
    drive.Drive.words = lambda self, number: [high_byte(word) for word in right(self, number)]
