"""machine.py interpret [-t STEPS] FILE: a machine for INTCODE that trusts its text. The loader is here; the steps are to be written."""
import sys

WORDS, GLOBALS, LIBRARY, FIRST = 262144, 16, 1016, 1034
FUNCTIONS, MASK, LONG = "LSAJTFKX", 0xFFFFFFFF, 1 << 25


class End(Exception):
    """The end of a run: its status, and its line where there is one."""

    def __init__(self, status, line=None):
        self.status, self.line = status, line


class Machine:
    def __init__(self, text):
        self.store, self.next, self.a, self.b, self.c = [0] * WORDS, FIRST, 0, 0, 1
        self.input, self.output = sys.stdin.buffer, sys.stdout.buffer
        self.load(text.split())
        self.p = self.next

    # Loading.

    def load(self, words):
        for at, word in [(1, "LIG1"), (2, "K0"), (3, "X22"), (4, "X33"), (5, "X4")]:
            self.store[at] = self.instruction(word, {})
        for n in range(2, 11):
            at = LIBRARY + 2 * (n - 2)
            self.store[at], self.store[at + 1] = self.instruction("X%d" % (n + 22), {}), self.instruction("X4", {})
            self.store[GLOBALS + n] = at
        self.store[GLOBALS + 11] = 4
        segment = []
        for word in words:
            segment.append(word)
            if word == "Z":
                self.place(segment)
                segment = []

    def place(self, items):
        """Places a segment: its labels first, and then its words."""
        labels, at, filled = {}, self.next, 0
        for item in items:
            if item[0] == "C":
                at, filled = (at + 1, 1) if filled in (0, 4) else (at, filled + 1)
                continue
            filled = 0
            if item[0].isdigit():
                labels[int(item)] = at
            elif item[0] in FUNCTIONS:
                at += 2 if self.is_long(item) else 1
            elif item[0] == "D":
                at += 1
        filled = 0
        for item in items:
            if item[0] == "C":
                if filled in (0, 4):
                    self.put(0)
                    filled = 0
                self.store[self.next - 1] |= int(item[1:]) << 8 * filled
                filled += 1
                continue
            filled = 0
            if item[0] in FUNCTIONS:
                self.put(self.instruction(item, labels))
                if self.is_long(item):
                    self.put(self.number(item) & MASK)
            elif item[0] == "D":
                self.put(labels[int(item[2:])] if item[1] == "L" else int(item[1:]) & MASK)
            elif item[0] == "G":
                n, label = item[1:].split("L")
                self.store[GLOBALS + int(n)] = labels[int(label)]

    def put(self, word):
        self.store[self.next] = word
        self.next += 1

    def number(self, item):
        return int(item[1:].lstrip("IPG"))

    def is_long(self, item):
        return "L" not in item[1:] and not 0 <= self.number(item) < LONG

    def instruction(self, item, labels):
        word = FUNCTIONS.index(item[0]) << 29 | ("I" in item) << 28 | ("P" in item[1:]) << 27 | ("G" in item[1:]) << 26
        if "L" in item[1:]:
            return word | labels[int(item[1:].lstrip("IL"))]
        return word | (LONG if self.is_long(item) else self.number(item))

    # Words of the store.

    def read(self, at):
        if at >= WORDS:
            raise End(105, "store limit")
        return self.store[at]

    def write(self, at, word):
        if at >= WORDS:
            raise End(105, "store limit")
        self.store[at] = word

    # A step.

    def fetch(self):
        word = self.read(self.c)
        self.c = self.c + 1 & MASK
        return word

    def step(self):
        """To be written: the word at C, its operand, its function."""
        self.operate(self.fetch())

    def operate(self, d):
        """To be written: operation D. So far each operation is unknown."""
        raise End(107, "bad operation")


def signed(word):
    return word - (1 << 32) if word >> 31 else word


def main(words):
    steps = 1000000000
    if words[1] == "-t":
        steps, words = int(words[2]), words[2:]
    machine = Machine(open(words[1], encoding="ascii").read())
    try:
        if machine.store[GLOBALS + 1] == 0:
            raise End(108, "no START")
        for _ in range(steps):
            machine.step()
        raise End(106, "step limit")
    except End as end:
        machine.output.flush()
        if end.line:
            sys.stderr.write(end.line + "\n")
        return end.status


sys.exit(main(sys.argv[1:]))
