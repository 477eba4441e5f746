"""Which instruction a word is, for examples/lockstep: its name, and the page and the heading of the book with its rule."""
from assembler.disassembler import instruction_of

CONTROL, OPERANDS = "docs/book.d/09-control.md", "docs/book.d/08-operands.md"
ONE = (OPERANDS, "One operand")
TWO = (OPERANDS, "Two operands")
PRODUCTS = (OPERANDS, "MUL, DIV, ASH and ASHC")
BRANCHES = (CONTROL, "Branches")
JUMPS = (CONTROL, "JMP, JSR, RTS, MARK and SOB")
CODES = (CONTROL, "Condition codes")
TRAPS = (CONTROL, "Trap instructions and reserved words")
STOPS = (CONTROL, "HALT, WAIT and RESET")
RETURNS = (CONTROL, "RTI and RTT")
SPACES = (CONTROL, "MFPI and MTPI")

# the instructions whose rule isn't that of one operand, of a branch or of condition codes
RULES = {name: rule for names, rule in [
    ("HALT WAIT RESET", STOPS), ("RTI RTT", RETURNS), ("BPT IOT EMT TRAP", TRAPS), ("JMP JSR RTS MARK SOB", JUMPS),
    ("MFPI MTPI", SPACES), ("MUL DIV ASH ASHC", PRODUCTS),
    ("MOV CMP BIT BIC BIS MOVB CMPB BITB BICB BISB ADD SUB XOR", TWO)] for name in names.split()}


def rule_of(word):
    """The name of the instruction that begins with a word, and the page and heading of its rule."""
    found = instruction_of(word)
    if found is None:
        return "reserved", TRAPS
    if found.word & 0o177740 == 0o240:
        return "codes", CODES
    return found.name, BRANCHES if found.operands == "b" else RULES.get(found.name, ONE)
