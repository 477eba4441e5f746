"""Macros and repeated lines: what is kept of them, and the lines that they become."""
import re

from .faults import Fault, Place

OPENS = re.compile(r"\s*(?:[\w.$]+:+\s*)?\.(macro|rept|irp)\b", re.I)
CLOSES = re.compile(r"\s*\.end(?:m|r)\b", re.I)
DEPTH = 100


class Macro:
    """A macro's name, its parameters with what stands for those that a call leaves out, and its lines.

    `made` are the parameters for which MACRO-11 makes a local label, if a call leaves them out."""

    def __init__(self, name, parameters, lines):
        self.name, self.lines = name, lines
        self.parameters, self.made = {}, set()
        for one in parameters:
            parameter, _, value = (part.strip() for part in one.partition("="))
            if parameter.startswith("?"):
                self.made.add(parameter[1:])
            self.parameters[parameter.lstrip("?")] = value.strip('"')


class Lines:
    """The lines that are still to be read: those of a source, and in front of them those of macros."""

    def __init__(self, file, text, dialect):
        self.dialect = dialect
        self.waiting = [iter([(Place(file, at), line) for at, line in enumerate(text.splitlines(), 1)])]
        self.calls = 0

    def next(self):
        """The next line with its place, or None."""
        while self.waiting:
            for found in self.waiting[-1]:
                return found
            self.waiting.pop()
        return None

    def leave(self):
        """Drops the rest of the macro that is being read."""
        if len(self.waiting) > 1:
            self.waiting.pop()

    def end(self):
        """Drops all that is left."""
        self.waiting.clear()

    def block(self, what):
        """The lines up to the end of a macro or a repetition, as text."""
        kept, depth = [], 1
        for _, line in iter(self.next, None):
            depth += bool(OPENS.match(line)) - bool(CLOSES.match(line))
            if depth == 0:
                return kept
            kept.append(line)
        raise Fault(f"{what} has no end")

    def push(self, texts, place, within):
        """Lines that come next; faults in them are told at the place of the call."""
        if len(self.waiting) > DEPTH:
            raise Fault(f"the macro {within} calls itself, {DEPTH} times over")
        self.waiting.append(iter([(Place(place.file, place.line, within), text) for text in texts]))

    def put_off(self, text, place):
        """A line that comes behind those of the macro which was called last."""
        self.waiting.insert(-1, iter([(place, text)]))

    def expand(self, macro, arguments, place):
        """The lines of a macro with these arguments come next."""
        self.calls += 1
        values = dict(macro.parameters)
        if len(arguments) > len(values):
            raise Fault(f"the macro {macro.name} has only {len(values)} arguments")
        values.update(zip(macro.parameters, arguments))
        for at, name in enumerate(sorted(macro.made)):
            if not values[name]:
                values[name] = f"{30000 + 10 * self.calls + at}$"
        self.push([self.filled(line, values) for line in macro.lines], place, macro.name)

    def filled(self, line, values):
        """A line of a macro with values for its parameters."""
        if self.dialect.name == "gnu":
            line = re.sub(r"\\([A-Za-z_.$][\w.$]*)(?:\\\(\))?",
                          lambda match: values.get(match[1], match[0]), line)
            return line.replace("\\@", str(self.calls)).replace("\\()", "")
        names = {name.upper(): value for name, value in values.items()}
        return re.sub(r"('?)([A-Za-z.$][\w.$]*)('?)",
                      lambda match: names[match[2].upper()] if match[2].upper() in names else match[0], line)


def arguments_of(scanner, expressions):
    """The arguments of a macro's call: between commas, quoted or in <..>; \\EXPR of MACRO-11's is its value in octal."""
    return list(scanner.parts(lambda here: argument(here, expressions)))


def argument(scanner, expressions):
    if expressions.dialect.name == "gnu":
        return scanner.quoted() if scanner.text[scanner.at] == '"' else text_up_to(scanner, ",", "()", "'").strip()
    if scanner.skip("\\"):
        return f"{expressions.value(scanner) & 0o177777:o}"
    if not scanner.skip("<"):
        return text_up_to(scanner, ",", "()", "'").strip()
    begin, text = scanner.at - 1, text_up_to(scanner, ">", "<>")
    if not scanner.skip(">"):
        raise scanner.fault("the > of this < is missing", begin)
    return text


def text_up_to(scanner, end, brackets, quote=None):
    """The text up to a character that is in no brackets, or the rest; a quote's next character is none of them."""
    begin, depth, text = scanner.at, 0, scanner.text
    while scanner.at < len(text) and (depth or text[scanner.at] != end):
        depth += {brackets[0]: 1, brackets[1]: -1}.get(text[scanner.at], 0)
        scanner.at += 2 if text[scanner.at] == quote else 1
    return text[begin:scanner.at]
