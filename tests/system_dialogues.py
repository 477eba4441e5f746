"""Dialogues with the small system: its editor, programs in C, and programs side by side, of which some misbehave."""
import itertools
import os
import random
import re
import subprocess
import sys

from system_editor import random_commands
from system_model import Differs, P11, expression, fs, primes

# what is typed to ed, and what it types behind the echo; none of these lines is one of the shell's
ED = [
    ("ed poem", "poem: there is no such file"), ("a", ""), ("roses are red", ""), ("violets are green", ""),
    ("so are you", ""), (".", ""), (",n", "    1 roses are red\n    2 violets are green\n    3 so are you"),
    ("2s/green/blue/p", "violets are blue"), ("1", "roses are red"), ("", "violets are blue"), ("/you/", "so are you"),
    ("", "? there is no such line"), ("3i", ""), ("sugar is sweet", ""), (".", ""), ("=", "3"), ("$=", "4"),
    ("1,2s/e/E/g", ""), ("1,2p", "rosEs arE rEd\nviolEts arE bluE"), ("s/x/y/", "? it isn't found"),
    ("s", "? s/A/B/, and behind it g, p or both"), ("x", "? a i c d p n s = w r e f q, or a return"), ("$-1,$d", ""),
    (".p", "violEts arE bluE"), ("5p", "? there is no such line"),
    ("q", "? not all is written; the same again leaves it so"), ("w", "31 bytes"), ("2c", ""), ("the end", ""), (".", ""),
    (",p", "rosEs arE rEd\nthe end"), ("w other", "22 bytes"), ("f", "other"), ("$r poem", "31 bytes"), ("f", "other"),
    (".=", "4"), ("e poem", "? not all is written; the same again leaves it so"), ("e poem", "31 bytes"), ("0a", ""),
    ("first", ""), (".", ""), ("1,/bluE/n", "    1 first\n    2 rosEs arE rEd\n    3 violEts arE bluE"), ("1d", ""),
    ("w", "31 bytes"), ("w no/name", "no/name: that is no name for a file: 1 to 19 letters, digits and . _ -"),
]
ED_FILES = {b"poem": b"rosEs arE rEd\nviolEts arE bluE\n", b"other": b"rosEs arE rEd\nthe end\n"}

# a line, and what as says of it
WRONG_LINES = [("mov r1", "a register or a comma is missing"), ("move r1,r2", "this is no line of an assembler"),
               ("jmp nowhere", "there is no such name"), ("clr 5(r9)", "a register or a comma is missing"),
               ("mov #8,r0", "this is no line of an assembler"), ("br .+1000", "the branch is too long"),
               ("x: x: rti", "the name is there already"), ("inc r0 r1", "this is no line of an assembler"),
               (".=10", ". = is for .bss alone")]

LONGEST = "a-name_of.nineteen0"
EDITS = 150

PAGE, WORD = "[bad is ended: an address that isn't its own, PC ", "[bad is ended: a reserved instruction, PC "
# of each way of bad.mac how what is typed begins
BAD = {"a": PAGE, "b": PAGE, "c": PAGE + "020000]", "d": WORD, "e": PAGE, "f": WORD, "g": PAGE, "h": WORD,
       "i": "[bad is ended: an odd address, PC ", "j": "an address outside the program\r\n", "k": "there is no such call\r\n",
       "l": "[bad is ended: a trap instruction, PC ", "m": "nothing has happened\r\n", "n": WORD}

# a program in C that shows numbers, writes a file and reads it; and what it types behind "numbers abc"
NUMBERS = """#include "system.h"

int main(int count, char **words)
{
    char some[20];
    int to = create("made"), wrote, length;

    printf("%d %d %u %o %s%c%% ", -32767, count, 65535u, 511, words[1], '!');
    printf("%ld %ld %lu %lo\\n", -2147483647L, 2147483647L, 4294967295UL, 4294967295UL);
    wrote = write(to, "text\\n", 5);
    printf("%d %d ", wrote, close(to));
    number(open("made"), 3);
    length = read(3, some, sizeof some);
    printf("%d ", length);
    write(1, "", 0);
    printf("%c%c %d %d ", some[0], some[4], read(3, some, 1), open("none"));
    puts("end");
    exit(close(9) == -5 ? 0 : 1);
}
"""
NUMBERS_TYPE = (f"{-32767} 2 {2 ** 16 - 1} {0o777:o} abc!% {1 - 2 ** 31} {2 ** 31 - 1} {2 ** 32 - 1} {2 ** 32 - 1:o}\r\n"
                "5 0   35 t\r\n 0 -1 end")

# where the user's first page lies; the shell's
USER_PAGE, SHELL = "777640", "000600"


def files_after(pack):
    """The files behind the dialogue with ed, with their names, in the directory's order."""
    files = {name.decode(): data for name, data in fs.Pack(fs.read(pack)).files.items()}
    return [*files.items(), *((name.decode(), data) for name, data in ED_FILES.items()), (LONGEST, ED_FILES[b"poem"])]


def editor(program, folder, pack):
    """The dialogue with ed, and random commands beside a model; its files are on the pack."""
    machine = P11(program, pack, ())
    for line, wanted in ED:
        machine.type(line + "\r")
        found = machine.answer()
        if found != f"{line}\r\n" + (wanted + "\n" if wanted else "").replace("\n", "\r\n"):
            raise Differs(f"ed: {line!r} is answered {found!r}")
    machine.expect("q", "")
    random_commands(machine, EDITS)
    machine.expect(f"cp poem {LONGEST}", "")
    machine.expect(f"cp poem {LONGEST}x", f"{LONGEST}x: that is no name for a file: 1 to 19 letters, digits and . _ -\r\n")
    machine.expect("ls | cat", "".join(f" {len(data):5} {name}\r\n" for name, data in files_after(pack)))
    files = fs.Pack(machine.pack(os.path.join(folder, "ed.pack"))).files
    machine.end()
    if {name: files.get(name) for name in ED_FILES} != ED_FILES:
        raise Differs("ed: other files than were written")
    return f"{len(ED)} lines and {EDITS} random commands to the editor"


def assembler(program, folder, pack):
    """The system's own assembler makes each program of its source, to the byte, and tells what is wrong with a line."""
    name, wanted = os.path.join(folder, "sources.pack"), fs.in_assembler()
    fs.write(name, fs.system([os.path.join(fs.HERE, f"{one.decode()}.mac") for one in wanted]))
    machine = P11(program, name, ())
    for one in wanted:
        machine.expect(f"as new.{one.decode()} sys.mac {one.decode()}.mac lib.mac", "")
    machine.expect("as hello sys.mac hello.mac lib.mac", "")
    machine.expect("hello", "hello\r\n")
    for line, what in WRONG_LINES:
        machine.expect(f"echo {line} >wrong", "")
        machine.expect("as hello sys.mac wrong lib.mac", f"wrong 1: {what}\r\n")
    machine.expect("hello", "hello\r\n")
    made = fs.Pack(machine.pack(os.path.join(folder, "assembled.pack"))).files
    machine.end()
    for one, data in wanted.items():
        if made.get(b"new." + one) != data:
            raise Differs(f"as makes another {one.decode()} than fs.py")
    return f"as makes {len(wanted)} programs of their sources, to the byte"


def numbers(program, folder):
    """A program in C, compiled now, shows numbers, and works with files."""
    paths = [os.path.join(folder, name) for name in ("numbers.c", "numbers", "numbers.pack")]
    fs.write(paths[0], NUMBERS.encode())
    subprocess.run([sys.executable, os.path.join("examples", "cc11"), "--system", paths[0], "-o", paths[1]], check=True)
    fs.write(paths[2], fs.system([paths[1]]))
    machine = P11(program, paths[2], ())
    machine.expect("numbers abc", NUMBERS_TYPE)
    machine.expect("cat made", "text\r\n")
    machine.end()
    return "one that is compiled now shows numbers"


def patterns(chance, lines):
    """Random patterns, of which most are somewhere in the lines."""
    words = [word for line in lines for word in re.split(r"[ <>|&]+", line) if word]
    for _ in range(60):
        pattern = list(chance.choice(words))
        for _ in range(chance.randrange(3)):
            pattern[chance.randrange(len(pattern))] = chance.choice([".", ".*", "a*", "e", "*", "$"])
        yield "^" * (chance.random() < 0.2) + "".join(pattern) + "$" * (chance.random() < 0.2)


def grep(program, folder, pack):
    """grep finds random patterns in files where Python finds them, and in what is piped to it."""
    files = fs.Pack(fs.read(pack)).files
    lines = {name: files[name.encode()].decode().splitlines() for name in ("help", "help.ed")}
    machine, found = P11(program, pack, ()), 0
    for pattern in patterns(random.Random(6), lines["help"] + lines["help.ed"]):
        wanted = [f"{name}: {line}\r\n" for name in lines for line in lines[name] if expression(pattern).search(line)]
        machine.expect(f"grep {pattern} none help help.ed", "none: there is no such file\r\n" + "".join(wanted))
        if machine.line(f"cat help help.ed | grep {pattern} | wc")[:6] != f"{len(wanted):6}":
            raise Differs(f"behind a pipe grep finds other lines with {pattern}")
        found += len(wanted)
    machine.end()
    return f"grep finds {found} lines"


def memory(machine, first, end):
    """The bytes of memory from one address up to another."""
    found = b""
    for at in range(first, end, 1024):
        count = min(512, (end - at) // 2)
        machine.console.stdin.write(f"examine {at:o} {count}\n")
        machine.console.stdin.flush()
        found += b"".join(int(machine.console.stdout.readline().split()[2], 8).to_bytes(2, "little") for _ in range(count))
    return found


def confined(program, folder, pack):
    """Whole runs of each way to misbehave change no word of memory but in what the kernel keeps and its stack, in the shell's
    page and in the program's own; and no file."""
    kept = next(value for name, value in fs.assembled(fs.KERNEL, 0o1000).symbols.table() if name == "KEPT")
    machine = P11(program, pack, (), 1000)
    before = memory(machine, 0, 0o160000)
    for letter in BAD:
        machine.line(f"bad {letter}")
        after = memory(machine, 0, 0o160000)
        changed = [at for at in range(len(before)) if before[at] != after[at]]
        if any(at < kept or at >= 0o120000 for at in changed):
            raise Differs(f"bad {letter} changes {[f'{at:o}' for at in changed if at < kept or at >= 0o120000][:9]}")
        if not any(0o100000 <= at < 0o120000 for at in changed):
            raise Differs(f"bad {letter} changes nothing of its own page")
        before = after
    found = fs.Pack(machine.pack(os.path.join(folder, "confined.pack")))
    machine.end()
    if found.files != fs.Pack(fs.read(pack)).files:
        raise Differs("a program that misbehaves has changed files")
    return f"whole runs of {len(BAD)} ways to misbehave change memory of the kernel, the shell and the program alone"


def modes(machine, line):
    """Types a line, makes single turns until the shell has its prompt again, and gives for each whether the user's mode is on
    behind it."""
    machine.type(line + "\r")
    found, typed, answers = [], "", machine.console.stdout
    while not typed.endswith("$\\040"):
        machine.console.stdin.write("step 1\nregs\n" * 100)
        machine.console.stdin.flush()
        for _ in range(100):
            while (answer := answers.readline()).startswith("TTY "):
                typed += answer[4:-1]
            answers.readline()
            found.append(int(answers.readline().split()[-1], 8) >= 0o140000)
            answers.readline()
    return found


def stretches(found):
    """Behind how many turns the user's mode is on, and how many turns keep it: no service begins in them."""
    at = 0
    for user, turns in itertools.groupby(found):
        count = len(list(turns))
        if user and count > 1:
            yield at + 1, count - 1
        at += count


def in_its_pages(program, pack):
    """In each stretch of turns of a program that misbehaves, from a service to the next, words of its own page change alone."""
    first, second, seen, turns = P11(program, pack, (), 1000), P11(program, pack, (), 1000), 0, 0
    for letter in BAD:
        found, made, own = modes(first, f"bad {letter}"), 0, 0
        second.type(f"bad {letter}\r")
        for at, count in stretches(found):
            second.run(at - made)
            made = at
            page = second.ask(f"examine {USER_PAGE}").split()[2]
            if page == SHELL:
                continue
            before = memory(second, 0, 0o160000)
            second.run(count)
            after, begin = memory(second, 0, 0o160000), 64 * int(page, 8)
            wrong = [at for at in range(len(before)) if before[at] != after[at] and not begin <= at < begin + fs.PAGE]
            if wrong:
                raise Differs(f"bad {letter} changes {[f'{at:o}' for at in wrong[:9]]}, outside of its page {page}")
            made, own, turns = made + count, own + 1, turns + count
        if own == 0:
            raise Differs(f"bad {letter} has no turn of its own")
        second.run(len(found) - made)
        seen += own
    for machine in (first, second):
        machine.end()
    return f"in {seen} stretches of {turns} turns, from a service to the next, {len(BAD)} ways to misbehave change their own page alone"


def together(program, folder, pack):
    """Two programs in the background, and in front of them one that misbehaves in each way, one that Ctrl-C ends, one that is
    killed. What the others write, the files and the kernel's instructions are what they have to be."""
    machine = P11(program, pack, clock=1000)
    before = fs.Pack(fs.read(pack)).files
    machine.expect("primes 32000 >p &", "started: 2\r\n")
    machine.expect("primes 31000 | cat >q &", "started: 3\r\nstarted: 4\r\n")
    for letter, wanted in BAD.items():
        found = machine.line(f"bad {letter}")
        if not found.startswith(wanted) or found.count("\r\n") != 1:
            raise Differs(f"bad {letter}\n  has to type {wanted!r}\n  and typed   {found!r}")
    if not re.fullmatch(r"1 \w+ sh\r\n2 ready primes\r\n3 ready primes\r\n4 \w+ cat\r\n5 ready ps\r\n", machine.line("ps")):
        raise Differs("the programs in the background are gone")
    for line in ("primes 30000 >lost", "primes 30000 | cat | cat >lost"):
        machine.type(f"{line}\r")
        machine.answer("lost\r\n")
        machine.type("\003")
        if machine.answer("$ ") != "^C\r\n$ ":
            raise Differs(f"Ctrl-C doesn't end {line}")
    machine.expect("primes 30000 >lost &", "started: 5\r\n")
    machine.expect("kill 5", "")
    for _ in range(500):
        if "primes" not in machine.line("ps"):
            break
    machine.expect("fsck", f"{len(before) + 2} files are right\r\n")
    wanted = {**before, b"p": primes(32000), b"q": primes(31000)}
    found = fs.Pack(machine.pack(os.path.join(folder, "together.pack")))
    if found.wrong or found.files != wanted:
        raise Differs(f"other files than those that were written: {found.wrong}")
    if not machine.line("df").startswith(f"{found.free()} of 4800 blocks, "):
        raise Differs("other blocks are free in the system than on the pack")
    kernel = fs.kernel()[fs.BLOCK:]
    if memory(machine, 0o1000, 0o1000 + len(kernel)) != kernel:
        raise Differs("the kernel's instructions have changed")
    machine.type("exit\r")
    if machine.answer("stopped.\r\n") != "exit\r\nThe system has stopped.\r\n":
        raise Differs("exit doesn't stop the system")
    machine.end()
    return f"{len(BAD)} ways to misbehave beside two programs in the background"
