"""Which rules that are this project's choice (the book marks them with [own]) decide something in a case.

`RULES` names each by its page and section of docs/book.d and the words with which its sentence begins. A mark is set where the
rule is used, so a case may carry it though another choice would come to the same. The functions are called by p11_cases.tracing
while the model runs.
"""
from typing import NamedTuple

from pdp11 import status
from pdp11.moves import STACK
from pdp11.numbers import BYTE
from pdp11.translation import ADDRESSES, DESCRIPTORS, STATUS_REGISTER_0, STATUS_REGISTER_2


class Rule(NamedTuple):
    """A rule: the page, the section, how its sentence begins; and the fields that it decides, where it doesn't decide all."""
    page: str
    section: str
    words: str
    fields: tuple = ()


STATUS, ARITHMETIC, TABLE, STATE, ADDRESSING = "01-words", "02-codes", "03-table", "04-state", "05-addressing"
MANAGEMENT, BUS, OPERANDS, CONTROL, TRAPS = "06-memory-management", "07-bus", "08-operands", "09-control", "10-traps"
TURN, CLOCK, LINE, DISK = "11-turn", "12-clock", "13-console-line", "14-disk-registers"
RULES = {
    "returns-outside-kernel": Rule(STATUS, "Where a new status comes from", "Outside kernel mode a mode bit that is set"),
    "status-write-keeps-t": Rule(STATUS, "Where a new status comes from", "A write to 777776, by a program"),
    "sxt-clears-v": Rule(ARITHMETIC, "MOV, BIT, BIC, BIS, XOR, COM, CLR, TST, SXT, MFPI and MTPI", "That SXT clears V"),
    "sbc-overflow": Rule(ARITHMETIC, "INC, DEC, NEG, ADC and SBC", "| SBC | the operand was 100000"),
    "div-overflow": Rule(ARITHMETIC, "DIV", "If V is set, N and Z are 0"),
    "shift-by-0": Rule(ARITHMETIC, "ASH and ASHC", "Count 0 clears V and C"),
    "other-models": Rule(TABLE, "", "So are the instructions of options and other models"),
    "stack-of-other-modes": Rule(STATE, "What the machine is", "There are two stack pointers:"),
    "odd-pairs": Rule(STATE, "Pairs of registers", "DIV and ASHC take the register as the high half"),
    "steps-stay": Rule(ADDRESSING, "Where an operand is", "A register is stepped before the reference"),
    "pc-past-extension": Rule(ADDRESSING, "Where an operand is", "In the same way PC is past"),
    "source-first": Rule(ADDRESSING, "The order of two operands", "The source is read before the destination's"),
    "register-source-last": Rule(ADDRESSING, "The order of two operands", "But a source in mode 0"),
    "two-references": Rule(ADDRESSING, "The order of two operands", "A destination that is read and then written"),
    "codes-before-write": Rule(ADDRESSING, "The order of two operands", "The codes are set right before the write:"),
    "done-stays": Rule(ADDRESSING, "The order of two operands", "All that was done before a fault"),
    "sr2-without-mapping": Rule(MANAGEMENT, "SR0 and SR2", "SR2 takes PC when an instruction begins", ("sr2",)),
    "kept-by-management": Rule(MANAGEMENT, "6. Memory management: KT11-D", "What aborts, when W is set", ("sr0", "sr2", "w")),
    "aborts": Rule(MANAGEMENT, "6. Memory management: KT11-D", "What aborts, when W is set"),
    "access-10": Rule(MANAGEMENT, "What aborts", "non-resident: ACF is 00 or 10"),
    "modes-without-pages": Rule(MANAGEMENT, "What aborts", "In modes 01 and 10 every reference aborts"),
    "all-causes": Rule(MANAGEMENT, "What aborts", "Each is judged by itself"),
    "page-registers": Rule(MANAGEMENT, "A page", "A write to its PAR or PDR"),
    "sr0-write": Rule(MANAGEMENT, "SR0 and SR2", "A write to SR0 changes 15:13 and 0 only"),
    "sr2-write": Rule(MANAGEMENT, "SR0 and SR2", "A write to SR2 is ignored"),
    "causes-stand": Rule(MANAGEMENT, "What a reference changes", "But while any of SR0 15:13 is 1", ("sr0", "sr2")),
    "sr1-and-sr3": Rule(MANAGEMENT, "6. Memory management: KT11-D", "SR1 (777574) and SR3 (772516)"),
    "no-answer": Rule(BUS, "7. The bus and its references", "At any other address nothing answers"),
    "unnamed-bits": Rule(BUS, "7. The bus and its references", "A bit that a register's row doesn't name"),
    "byte-of-register": Rule(BUS, "References by bus address", "Taking this word has no read effect"),
    "odd-first": Rule(BUS, "References of a program", "This is judged first, then the address"),
    "operand-first": Rule(OPERANDS, "MUL, DIV, ASH and ASHC", "The operand is read first"),
    "jsr-order": Rule(CONTROL, "JMP, JSR, RTS, MARK and SOB", "**JSR**, in this order"),
    "halt-outside-kernel": Rule(CONTROL, "HALT, WAIT and RESET", "In any other mode HALT is a reserved"),
    "wait-outside-kernel": Rule(CONTROL, "HALT, WAIT and RESET", "**WAIT** makes the processor wait"),
    "reset-outside-kernel": Rule(CONTROL, "HALT, WAIT and RESET", "In any other mode it completes"),
    "init": Rule(CONTROL, "HALT, WAIT and RESET", "It leaves the rest of the processor"),
    "mfpi-order": Rule(CONTROL, "MFPI and MTPI", "**MFPI**, in this order"),
    "mtpi-order": Rule(CONTROL, "MFPI and MTPI", "**MTPI**, in this order"),
    "pushes-unjudged": Rule(TRAPS, "The service of a vector", "The stack limit doesn't judge these pushes"),
    "pushes-onto-registers": Rule(TRAPS, "The service of a vector", "PC and the status word take their new values"),
    "fatal-service": Rule(TRAPS, "The fatal service", "The **fatal service**"),
    "judged-steps": Rule(TRAPS, "The stack limit", "It judges each step down"),
    "yellow-zone": Rule(TRAPS, "The stack limit", "once, however many"),
    "red-zone": Rule(TRAPS, "The stack limit", "What it did before stays; the reference"),
    "nothing-else-judged": Rule(TRAPS, "The stack limit", "Nothing else is judged"),
    "trace": Rule(TRAPS, "Trace", "An instruction that completes with T set"),
    "untraced": Rule(TRAPS, "Trace", "HALT, a reserved instruction, a trap instruction"),
    "trace-before-yellow": Rule(TRAPS, "After an instruction", "The trace trap comes first"),
    "fetch": Rule(TURN, "One instruction", "The opcode is the word at PC"),
    "grant-stays": Rule(TURN, "Requests", "It stays dropped if the service fails"),
    "request-stays": Rule(TURN, "Requests", "A request that is pending stays"),
    "clock": Rule(CLOCK, "12. The line clock: KW11-L", "The address, the vector, the level"),
    "console-line": Rule(LINE, "13. The console line: DL11", "Addresses, vectors, level and the places"),
    "disk": Rule(DISK, "14. The disk: RK11 registers and RK05 packs", "Addresses, vector, level, the places of the bits"),
}

PRODUCTS = {"MUL", "DIV", "ASH", "ASHC"}
DOUBLES = {"MOV", "CMP", "BIT", "BIC", "BIS", "MOVB", "CMPB", "BITB", "BICB", "BISB", "ADD", "SUB"}
ONLY_WRITE = {"MOV", "MOVB", "CLR", "CLRB", "SXT", "MTPI", "MFPI"}
ONLY_READ = {"CMP", "CMPB", "BIT", "BITB", "TST", "TSTB", "JMP", *PRODUCTS}
TRAP_INSTRUCTIONS = {"BPT", "IOT", "EMT", "TRAP", "RESERVED"}
POPS = {"RTS", "MARK", "RTI", "RTT", "MTPI"}
DEVICES = {"clock": range(0o777546, 0o777550), "console-line": range(0o777560, 0o777570), "disk": range(0o777400, 0o777420)}
PAGE_REGISTERS = {first + 2 * page for first in (*DESCRIPTORS.values(), *ADDRESSES.values()) for page in range(8)}
INTERRUPTS = {0o60, 0o64, 0o100, 0o220}
GENERAL_REGISTERS = range(0o777700, 0o777720)
SILENT = {0o777414, *GENERAL_REGISTERS}
FOREIGN = [range(0o7, 0o10), range(0o230, 0o240), range(0o7000, 0o7100), range(0o75000, 0o75040), range(0o76000, 0o77000),
           range(0o106400, 0o107000), range(0o170000, 0o200000)]


def is_foreign(word):
    """Whether a reserved word is an instruction of an option or of another model: MFPT, SPL, CSM, FIS, CIS, MTPS, MFPD, MTPD,
    MFPS, floating point."""
    return any(word in rows for rows in FOREIGN)


class Stage:
    """How far an instruction has come."""

    def __init__(self, machine):
        self.stepped, self.codes_set, self.sets_codes, self.name = set(), False, False, None
        self.mode, self.traced = status.current_mode(machine.status), status.trace(machine.status)
        self.stack = machine.kernel_stack
        self.read_latch, self.taken, self.zones = None, False, set()
        self.operands = self.fields = ()
        # whether the source is still to be read, and the registers that forming the destination's address changes
        self.source_under_way, self.changed_by_destination = False, set()
        if not machine.management.enabled():
            machine.marks.add("sr2-without-mapping")
        else:
            machine.marks.add("kept-by-management")
        if machine.management.stands_still():
            machine.marks.add("causes-stand")

    def decoded(self, machine, word, operation):
        """The opcode was fetched."""
        self.taken, self.name, self.operands = True, operation.name, operation.operands
        marks, kernel = machine.marks, self.mode == status.KERNEL
        self.fields = operand_fields(operation)
        if self.mode in (1, 2) and not machine.management.enabled():
            marks.add("stack-of-other-modes")
        if operation.name == "RESERVED" and is_foreign(word):
            marks.add("other-models")
        if not kernel and operation.name in ("HALT", "WAIT", "RESET"):
            marks.add(f"{operation.name.lower()}-outside-kernel")
        if not kernel and operation.name in ("RTI", "RTT"):
            marks.add("returns-outside-kernel")
        if kernel and operation.name == "RESET":
            marks.add("init")
        if operation.name in ("MFPI", "MTPI"):
            if status.previous_mode(machine.status) in (1, 2):
                marks.add("stack-of-other-modes")
            if operation.operands[0] % 8 == STACK and operation.operands[0] >= 8:
                marks.add(f"{operation.name.lower()}-order")
        self.order(marks)
        self.arithmetic(machine)

    def order(self, marks):
        """Where the order of operands decides something."""
        name, fields = self.name, self.fields
        if name == "JSR":
            link, operand = self.operands
            if link == STACK or operand % 8 == STACK or link == operand % 8 != 7:
                marks.add("jsr-order")
        elif name in PRODUCTS:
            register, operand = self.operands
            pair = {register} if name == "ASH" else {register, register | 1}
            if operand % 8 in pair and 0o20 <= operand < 0o60 or 7 in pair:
                marks.add("operand-first")
            if register % 2 and name in ("DIV", "ASHC"):
                marks.add("odd-pairs")
        elif len(fields) == 2:
            source, destination = fields
            changes = {destination % 8} if 0o20 <= destination < 0o60 else set()
            changes |= {7} if destination >= 0o60 else set()
            self.source_under_way, self.changed_by_destination = source >= 8, changes
            if source < 8 and source in changes:
                marks.add("register-source-last")
            used = {source % 8} if 8 <= source else set()
            if used & changes - {7} or 0o20 <= source < 0o60 and source % 8 == destination % 8 != 7 and destination >= 8:
                marks.add("source-first")

    def arithmetic(self, machine):
        """Where a code or a count decides something, as far as it is seen before the operation."""
        codes = status.codes(machine.status)
        if self.name == "SXT" and codes.v:
            machine.marks.add("sxt-clears-v")
        self.carry = codes.c

    def add(self, machine, kind, arguments, latches):
        """A move is about to be made."""
        if kind in ("step up", "step down"):
            self.stepped.add(arguments[0])
            if kind == "step down" and arguments[0] == STACK and self.mode == status.KERNEL:
                stepped = (machine.kernel_stack - arguments[1]) % 65536
                zone = machine.stack_zone(stepped)
                self.zones.add(zone)
                if zone == "clear" and stepped >= 0o177770:
                    machine.marks.add("judged-steps")
        elif kind == "read":
            self.source_under_way = self.source_under_way and self.read_latch != "source"
            self.read_latch = arguments[0]
        elif kind == "set codes":
            self.codes_set = True
            self.judge_result(machine.marks, latches)
        elif kind in ("set register", "set previous stack"):
            self.stepped.add(kind)

    def judge_result(self, marks, latches):
        """Marks of what was calculated."""
        if self.name in ("SBC", "SBCB") and self.carry and latches["operand"] == (0o100000 if self.name == "SBC" else 0o200):
            marks.add("sbc-overflow")
        elif self.name == "DIV" and latches["codes"].v:
            marks.add("div-overflow")
        elif self.name in ("ASH", "ASHC") and latches["operand"] % 64 == 0:
            marks.add("shift-by-0")

    def faulted(self, machine, fault):
        """A reference of the instruction failed, or it trapped by itself."""
        name, marks = self.name, machine.marks
        if name in TRAP_INSTRUCTIONS or name == "HALT" or name in ("JMP", "JSR") and self.fields[-1] < 8:
            return
        if self.stepped - {7}:
            marks.add("steps-stay")
        if 7 in self.stepped:
            marks.add("pc-past-extension")
        if name in POPS or "set register" in self.stepped:
            marks.add("done-stays")
        if name in ("MFPI", "MTPI", "JSR"):
            marks.add(f"{name.lower()}-order")
        if self.codes_set or name in ONLY_WRITE:
            marks.add("codes-before-write")
        if name not in ONLY_READ and name not in ONLY_WRITE | POPS | {"JSR"} and self.read_latch not in ("source", "index"):
            marks.add("two-references")
        if self.codes_set:
            marks.add("done-stays")
        if self.source_under_way and self.changed_by_destination:
            marks.add("source-first")

    def done(self, machine):
        """The instruction was completed, but for its traps."""
        uses_stack = self.name in POPS | {"JSR", "MFPI"} or any(field % 8 == STACK for field in self.fields)
        limit = machine.stack_limit + 0o400
        if self.mode == status.KERNEL and uses_stack and min(self.stack, machine.kernel_stack) < limit \
                and not {"yellow", "red"} & self.zones:
            machine.marks.add("nothing-else-judged")


def operand_fields(operation):
    """The operands, each of mode and register; a register before an operand is one in mode 0."""
    name = operation.name
    is_branch = name[0] == "B" and name[:3] not in ("BIT", "BIC", "BIS")
    return () if is_branch or name in ("SOB", "MARK", "CODES", "RTS") else operation.operands


def refused(machine, mode, virtual, writes, why):
    """A reference got no address."""
    marks, management = machine.marks, machine.management
    if why == "odd":
        if management.enabled() and management.causes(mode, virtual, writes) or virtual >= 0o160000:
            marks.add("odd-first")
        return
    marks.add("aborts")
    if mode in (1, 2):
        marks.add("modes-without-pages")
    else:
        causes = management.causes(mode, virtual, writes)
        if causes & causes - 1:
            marks.add("all-causes")
        if management.page_descriptors[mode][virtual // 0o20000] & 6 == 4:
            marks.add("access-10")


def page_reached(machine, address, size, writes):
    """A reference came to the I/O page."""
    marks, even = machine.marks, address & ~1
    for name, places in DEVICES.items():
        if address in places:
            marks.add(name)
    if even in PAGE_REGISTERS:
        marks.add("page-registers")
    if even == STATUS_REGISTER_0 and writes:
        marks.add("sr0-write")
    if even == STATUS_REGISTER_2 and writes:
        marks.add("sr2-write")
    if even in (0o777574, 0o772516):
        marks.add("sr1-and-sr3")
    if even in SILENT:
        marks.add("no-answer")
    if even == 0o777776 and writes:
        marks.add("status-write-keeps-t")
    if even == 0o777774:
        marks.add("unnamed-bits")
    if size == BYTE and even != 0o777776:
        marks.add("byte-of-register")


def pushed(machine, mode):
    """A service is about to push a word."""
    stack = (machine.stack_pointer(mode) - 2) % 65536
    if mode == status.KERNEL and stack < machine.stack_limit + 0o400:
        machine.marks.add("pushes-unjudged")
    if mode in (1, 2):
        machine.marks.add("stack-of-other-modes")
    if stack >= 0o177770:
        machine.marks.add("pushes-onto-registers")


def served(machine, vector, made):
    """A service was made, or failed."""
    if not made and vector in INTERRUPTS:
        machine.marks.add("grant-stays")


def written(machine):
    """A write on the bus was made: perhaps a pending request's cause has gone."""
    clock, console, disk = machine.clock, machine.console, machine.disk
    if clock.request and not clock.monitor or console.transmitter_request and not console.ready or disk.request and not disk.ready:
        machine.marks.add("request-stays")


def completed(machine):
    """An instruction came to its end, with its traps."""
    stage, marks = machine.stage, machine.marks
    if not stage.taken:
        marks.add("fetch")
    traced = status.trace(machine.status)
    if stage.name in ("RTI", "RTT") and (stage.traced or traced or 0o14 in machine.traps):
        marks.add("trace")
    elif stage.traced:
        is_plain = machine.traps and machine.traps[0] == 0o14 and stage.name not in TRAP_INSTRUCTIONS
        marks.add("trace" if is_plain else "untraced")
    if "yellow" in stage.zones:
        marks.add("yellow-zone")
        if stage.traced:
            marks.add("trace-before-yellow")


def devices_acted(machine, before):
    """The devices have acted in a turn."""
    for (_, vector, device, request), was in zip(machine.requests(), before):
        if getattr(device, request) and not was:
            machine.marks.add({0o100: "clock", 0o220: "disk"}.get(vector, "console-line"))
