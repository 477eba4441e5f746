"""The instructions of the PDP-11/40: their names, their words and which operands they take.

An operand has a letter: `s` and `d` are general operands in bits 11:6 and 5:0, `r` and `x` registers in bits 8:6 and 2:0,
`b` the offset of a branch, `k` how far SOB goes back, `n` the byte of EMT and TRAP, `m` the six bits of MARK.
"""
from typing import NamedTuple


class Instruction(NamedTuple):
    """Its name, its first word without operands, and a letter for each operand in the order in which they are written."""

    name: str
    word: int
    operands: str

    def is_code(self):
        """Whether it only sets or clears condition codes."""
        return self.word & 0o177740 == 0o240


def rows(first, step, operands, names):
    """Instructions whose words follow one another in equal steps."""
    return [Instruction(name, first + step * at, operands) for at, name in enumerate(names.split())]


def code_names():
    """What sets and clears condition codes: one of them, all, or those of a hexadecimal digit, as CL_5 for V and Z .."""
    letters = {0: "_0", 1: "C", 2: "V", 4: "Z", 8: "N", 15: "CC"}
    for word, name in ((0o240, "CL"), (0o260, "SE")):
        for bits in range(16):
            known = "NOP" if word + bits == 0o240 else {"CLCC": "CCC", "SECC": "SCC"}.get(name + letters.get(bits, ""))
            yield Instruction(known or name + letters.get(bits, f"_{bits:X}"), word + bits, "")


INSTRUCTIONS = [
    *rows(0, 1, "", "HALT WAIT RTI BPT IOT RESET RTT"), *code_names(),
    *rows(0o100, 0, "d", "JMP"), *rows(0o200, 0, "x", "RTS"), *rows(0o300, 0, "d", "SWAB"),
    *rows(0o400, 0o400, "b", "BR BNE BEQ BGE BLT BGT BLE"), *rows(0o4000, 0, "rd", "JSR"),
    *rows(0o5000, 0o100, "d", "CLR COM INC DEC NEG ADC SBC TST ROR ROL ASR ASL"), *rows(0o6400, 0, "m", "MARK"),
    *rows(0o6500, 0o100, "d", "MFPI MTPI SXT"), *rows(0o10000, 0o10000, "sd", "MOV CMP BIT BIC BIS ADD"),
    *rows(0o70000, 0o1000, "dr", "MUL DIV ASH ASHC"), *rows(0o74000, 0, "rd", "XOR"), *rows(0o77000, 0, "rk", "SOB"),
    *rows(0o100000, 0o400, "b", "BPL BMI BHI BLOS BVC BVS BCC BCS"), *rows(0o104000, 0o400, "n", "EMT TRAP"),
    *rows(0o105000, 0o100, "d", "CLRB COMB INCB DECB NEGB ADCB SBCB TSTB RORB ROLB ASRB ASLB"),
    *rows(0o110000, 0o10000, "sd", "MOVB CMPB BITB BICB BISB SUB"),
]
BY_NAME = {one.name: one for one in INSTRUCTIONS}
BY_NAME.update(BHIS=BY_NAME["BCC"], BLO=BY_NAME["BCS"])
# what MACRO-11 has besides: JSR PC, JMP and RTS PC
MACRO11_NAMES = {one.name: one for one in (*rows(0o4700, 0, "d", "CALL"), *rows(0o100, 0, "d", "CALLR"),
                                           *rows(0o207, 0, "", "RETURN"))}
