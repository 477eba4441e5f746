"""The symbols of an assembly, whose sources have names of their own but for those that they export."""
from .faults import Fault


class Symbols:
    """What names stand for. The passes define them anew; a name that isn't yet defined has its value of the pass before."""

    def __init__(self, note):
        self.note = note
        self.now, self.before = {}, {}
        self.exported, self.labels = set(), {}
        self.begin_pass()

    def begin_pass(self):
        self.before, self.now, self.labels = self.now, {}, {}
        self.module = self.location = self.block = 0
        self.counts = {}

    def begin_source(self, module):
        self.module, self.counts = module, {}
        self.block += 1

    def known(self, keys, fault):
        """The value of the first key that has one, now or in the pass before. None is noted as the fault, and is 0."""
        found = next((names[key] for key in keys for names in (self.now, self.before) if key in names), None)
        if found is None:
            self.note(fault)
        return found or 0

    def value(self, name, column):
        """The value of a name: of this source, or else of another one that exports it."""
        if name == ".":
            return self.location
        return self.known([(self.module, name), (None, name)], Fault(f"{name} isn't defined", column))

    def is_defined(self, name):
        """Whether a name has been defined in this pass so far."""
        return (self.module, name) in self.now or (None, name) in self.now

    def local(self, text, column):
        """The value of a local label: 10$ between two ordinary ones, 1b the last and 1f the next one named 1."""
        key = (self.block, text)
        if text[-1] in "bf":
            number = str(int(text[:-1]))
            key = (self.module, number, self.counts.get(number, 0) + (text[-1] == "f"))
        return self.known([key], Fault(f"there is no label {text}", column))

    def set(self, name, value):
        self.now[self.module, name] = value
        if (self.module, name) in self.exported:
            self.now[None, name] = value

    def export(self, name):
        """Lets other sources see a name, if it is one of this source's."""
        self.exported.add((self.module, name))
        self.exported.add((None, name))
        if (self.module, name) in self.now:
            self.now[None, name] = self.now[self.module, name]

    def label(self, name, column):
        """Defines a label as the location; another one of that name is noted."""
        owner = self.labels.setdefault(name if (self.module, name) in self.exported else (self.module, name), self.module)
        if (self.module, name) in self.now or owner != self.module:
            self.note(Fault(f"{name} is defined twice", column))
        self.set(name, self.location)
        self.block += 1

    def local_label(self, text, column):
        """Defines the local label 1 or 10$."""
        if not text.endswith("$"):
            number = str(int(text))
            self.counts[number] = self.counts.get(number, 0) + 1
            self.now[self.module, number, self.counts[number]] = self.location
            return
        if (self.block, text) in self.now:
            self.note(Fault(f"{text} is defined twice", column))
        self.now[self.block, text] = self.location

    def is_settled(self):
        """Whether the pass has given each name the value that it had before."""
        return self.now == self.before

    def table(self):
        """The names that the sources have given, with their values."""
        return sorted({(key[1], value) for key, value in self.now.items()
                       if len(key) == 2 and key[0] is not None and not key[1][0].isdigit()})
