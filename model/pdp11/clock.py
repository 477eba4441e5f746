"""The KW11-L line clock, with a period in turns."""
from .numbers import field

REGISTER = 0o777546
VECTOR = 0o100
LEVEL = 6


class Clock:
    def __init__(self):
        self.period = 0
        self.due = None
        self.initialize()

    def initialize(self):
        self.monitor = True
        self.enable = False
        self.request = False

    def tick(self):
        self.monitor = True
        if self.enable:
            self.request = True

    def set_period(self, turn, period):
        self.period = period
        self.due = turn + period if period else None

    def act(self, turn):
        if self.due == turn:
            self.tick()
            self.due = turn + self.period

    def read(self):
        return 0o200 * self.monitor + 0o100 * self.enable

    def write(self, word):
        was_enabled = self.enable
        self.enable = field(word, 6, 6) == 1
        if field(word, 7, 7) == 0:
            self.monitor = False
        if not self.enable:
            self.request = False
        elif not was_enabled and self.monitor:
            self.request = True
