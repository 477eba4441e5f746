"""cases_faulty.py FAULT: the model with a fault that is planted, as a COMMAND of examples/run-cases. A FAULT of `none` is none."""
import os
import sys

sys.dont_write_bytecode = True
sys.path.insert(0, os.path.join(os.path.dirname(os.path.abspath(__file__)), "..", "model"))
import serve  # noqa: E402 (no compiled files are left beside the scripts)
from pdp11 import arithmetic, clock, moves, numbers, status, translation  # noqa: E402


def sub_without_borrow():
    """SUB never sets C."""
    right = arithmetic.subtract

    def wrong(*operands):
        result, codes = right(*operands)
        return result, codes._replace(c=False)

    moves.ROWS["SUB"] = moves.change_row(wrong, numbers.WORD)


def asr_without_sign():
    """ASR shifts in a 0."""
    def wrong(operand, codes, size):
        return arithmetic.shifted(operand // 2, size, operand % 2 == 1)

    moves.ROWS["ASR"] = moves.single_row(wrong, numbers.WORD)


def last_block_is_outside():
    """The last block of a page that grows upward aborts."""
    right = translation.MemoryManagement.causes

    def wrong(self, mode, virtual, writes):
        causes = right(self, mode, virtual, writes)
        if mode in (status.KERNEL, status.USER):
            descriptor = self.page_descriptors[mode][virtual // 0o20000]
            if descriptor & 0o10 == 0 and virtual // 0o100 % 0o200 == descriptor >> 8:
                causes |= translation.LENGTH
        return causes

    translation.MemoryManagement.causes = wrong


def rti_keeps_priority():
    """RTI leaves the priority in kernel mode too."""
    right = status.from_return

    def wrong(old, word):
        return numbers.with_field(right(old, word), 7, 5, status.priority(old))

    status.from_return = wrong


def tick_without_enable():
    """A tick of the line clock makes a request whatever IE is."""
    right = clock.Clock.tick

    def wrong(self):
        right(self)
        self.request = True

    clock.Clock.tick = wrong


FAULTS = {"none": lambda: None, "sub": sub_without_borrow, "asr": asr_without_sign, "page-length": last_block_is_outside,
          "rti": rti_keeps_priority, "tick": tick_without_enable}


if __name__ == "__main__":
    FAULTS[sys.argv[1]]()
    serve.serve(serve.Machine())
