"""machine.py interpret [-t STEPS] FILE: a machine for INTCODE that trusts its text."""
import sys

WORDS, GLOBALS, LIBRARY, FIRST = 262144, 16, 1016, 1034
FUNCTIONS, MASK, LONG = "LSAJTFKX", 0xFFFFFFFF, 1 << 25


class End(Exception):
    """The end of a run: its status, and its line where there is one."""

    def __init__(self, status, line=None):
        self.status, self.line = status, line


class Machine:
    def __init__(self, text):
        self.store, self.next, self.a, self.b, self.c = [0] * WORDS, FIRST, 0, 0, 1
        self.input, self.output = sys.stdin.buffer, sys.stdout.buffer
        self.load(text.split())
        self.p = self.next

    # Loading.

    def load(self, words):
        for at, word in [(1, "LIG1"), (2, "K0"), (3, "X22"), (4, "X33"), (5, "X4")]:
            self.store[at] = self.instruction(word, {})
        for n in range(2, 11):
            at = LIBRARY + 2 * (n - 2)
            self.store[at], self.store[at + 1] = self.instruction("X%d" % (n + 22), {}), self.instruction("X4", {})
            self.store[GLOBALS + n] = at
        self.store[GLOBALS + 11] = 4
        segment = []
        for word in words:
            segment.append(word)
            if word == "Z":
                self.place(segment)
                segment = []

    def place(self, items):
        """Places a segment: its labels first, and then its words."""
        labels, at, filled = {}, self.next, 0
        for item in items:
            if item[0] == "C":
                at, filled = (at + 1, 1) if filled in (0, 4) else (at, filled + 1)
                continue
            filled = 0
            if item[0].isdigit():
                labels[int(item)] = at
            elif item[0] in FUNCTIONS:
                at += 2 if self.is_long(item) else 1
            elif item[0] == "D":
                at += 1
        filled = 0
        for item in items:
            if item[0] == "C":
                if filled in (0, 4):
                    self.put(0)
                    filled = 0
                self.store[self.next - 1] |= int(item[1:]) << 8 * filled
                filled += 1
                continue
            filled = 0
            if item[0] in FUNCTIONS:
                self.put(self.instruction(item, labels))
                if self.is_long(item):
                    self.put(self.number(item) & MASK)
            elif item[0] == "D":
                self.put(labels[int(item[2:])] if item[1] == "L" else int(item[1:]) & MASK)
            elif item[0] == "G":
                n, label = item[1:].split("L")
                self.store[GLOBALS + int(n)] = labels[int(label)]

    def put(self, word):
        self.store[self.next] = word
        self.next += 1

    def number(self, item):
        return int(item[1:].lstrip("IPG"))

    def is_long(self, item):
        return "L" not in item[1:] and not 0 <= self.number(item) < LONG

    def instruction(self, item, labels):
        word = FUNCTIONS.index(item[0]) << 29 | ("I" in item) << 28 | ("P" in item[1:]) << 27 | ("G" in item[1:]) << 26
        if "L" in item[1:]:
            return word | labels[int(item[1:].lstrip("IL"))]
        return word | (LONG if self.is_long(item) else self.number(item))

    # Words of the store.

    def read(self, at):
        if at >= WORDS:
            raise End(105, "store limit")
        return self.store[at]

    def write(self, at, word):
        if at >= WORDS:
            raise End(105, "store limit")
        self.store[at] = word

    def byte(self, address, i):
        return self.read((address + (signed(i) >> 2)) & MASK) >> 8 * (i & 3) & 255

    def set_byte(self, address, i, byte):
        at, shift = (address + (signed(i) >> 2)) & MASK, 8 * (i & 3)
        self.write(at, self.read(at) & ~(255 << shift) | (byte & 255) << shift)

    # A step.

    def fetch(self):
        word = self.read(self.c)
        self.c = self.c + 1 & MASK
        return word

    def step(self):
        word = self.fetch()
        d = self.fetch() if word & LONG else word & LONG - 1
        if word >> 27 & 1:
            d = d + self.p & MASK
        if word >> 26 & 1:
            d = d + GLOBALS & MASK
        if word >> 28 & 1:
            d = self.read(d)
        function = FUNCTIONS[word >> 29]
        if function == "L":
            self.a, self.b = d, self.a
        elif function == "S":
            self.write(d, self.a)
        elif function == "A":
            self.a = self.a + d & MASK
        elif function == "J":
            self.c = d
        elif function == "T":
            self.c = d if self.a != 0 else self.c
        elif function == "F":
            self.c = d if self.a == 0 else self.c
        elif function == "K":
            frame = self.p + d & MASK
            self.write(frame, self.p)
            self.write(frame + 1 & MASK, self.c)
            self.p, self.c = frame, self.a
        else:
            self.operate(d)

    def operate(self, d):
        if d in MONADIC:
            self.a = MONADIC[d](self.a) & MASK
        elif d in DYADIC:
            self.a = DYADIC[d](signed(self.b), signed(self.a)) & MASK
        elif d in (16, 17):
            left = self.b << self.a if d == 16 and self.a < 32 else self.b >> self.a if self.a < 32 else 0
            self.a = left & MASK
        elif d == 1:
            self.a = self.read(self.a)
        elif d == 4:
            self.c, self.p = self.read(self.p + 1 & MASK), self.read(self.p)
        elif d == 22:
            raise End(0)
        elif d == 23:
            self.switch()
        elif d == 40:
            self.a = self.byte(self.b, self.a)
        elif d == 41:
            self.set_byte(self.b, self.a, self.read(self.p + self.fetch() & MASK))
        elif 24 <= d <= 33:
            self.library(d)
        else:
            raise End(107, "bad operation")

    def switch(self):
        count, default, at = max(0, signed(self.read(self.c))), self.read(self.c + 1 & MASK), self.c + 2 & MASK
        for _ in range(count):
            case, to = self.read(at), self.read(at + 1 & MASK)
            if case == self.a:
                self.c = to
                return
            at = at + 2 & MASK
        self.c = default

    # The library.

    def argument(self, n):
        return self.read(self.p + n & MASK)

    def library(self, d):
        if d == 24:
            status = signed(self.argument(2))
            raise End(status if 0 <= status <= 99 else 100)
        elif d == 25:
            self.output.flush()
            byte = self.input.read(1)
            self.a = byte[0] if byte else MASK
        elif d == 26:
            self.write_byte(self.argument(2))
        elif d == 27:
            self.write_byte(10)
        elif d == 28:
            self.write_string(self.argument(2))
        elif d == 29:
            self.write_number(self.argument(2), 0)
        elif d == 30:
            number = self.argument(2)
            self.write_number(number, signed(self.argument(3)))
        elif d == 31:
            address = self.argument(2)
            self.a = self.byte(address, self.argument(3))
        elif d == 32:
            address, i = self.argument(2), self.argument(3)
            self.set_byte(address, i, self.argument(4))
        else:
            self.write_format(self.argument(2), 3)

    def write_byte(self, byte):
        self.output.write(bytes([byte & 255]))

    def write_string(self, address):
        for i in range(1, self.byte(address, 0) + 1):
            self.write_byte(self.byte(address, i))

    def write_number(self, number, width):
        self.output.write(b"%*d" % (min(max(width, 0), 255), signed(number)))

    def write_format(self, address, next_argument):
        i, size = 1, self.byte(address, 0)
        while i <= size:
            byte = self.byte(address, i)
            letter = chr(self.byte(address, i + 1)).upper() if byte == 37 and i < size else ""
            width = chr(self.byte(address, i + 2)) if letter == "I" and i + 1 < size else ""
            if letter and letter in "SNC" or width and width in "0123456789":
                argument = self.argument(next_argument)
                next_argument += 1
                if letter == "S":
                    self.write_string(argument)
                elif letter == "C":
                    self.write_byte(argument)
                else:
                    self.write_number(argument, int(width or 0))
                i += 3 if width else 2
            else:
                self.write_byte(byte)
                i += 2 if letter == "%" else 1


def signed(word):
    return word - (1 << 32) if word >> 31 else word


def quotient(x, y):
    if y == 0:
        raise End(104, "division by zero")
    return abs(x) // abs(y) * (1 if (x < 0) == (y < 0) else -1)


MONADIC = {2: lambda a: -a, 3: lambda a: ~a}
DYADIC = {5: lambda b, a: b * a, 6: quotient, 7: lambda b, a: b - quotient(b, a) * a, 8: lambda b, a: b + a, 9: lambda b, a: b - a,
          10: lambda b, a: -(b == a), 11: lambda b, a: -(b != a), 12: lambda b, a: -(b < a), 13: lambda b, a: -(b >= a),
          14: lambda b, a: -(b > a), 15: lambda b, a: -(b <= a), 18: lambda b, a: b & a, 19: lambda b, a: b | a, 20: lambda b, a: b ^ a,
          21: lambda b, a: ~(b ^ a)}


def main(words):
    steps = 1000000000
    if words[1] == "-t":
        steps, words = int(words[2]), words[2:]
    machine = Machine(open(words[1], encoding="ascii").read())
    try:
        if machine.store[GLOBALS + 1] == 0:
            raise End(108, "no START")
        for _ in range(steps):
            machine.step()
        raise End(106, "step limit")
    except End as end:
        machine.output.flush()
        if end.line:
            sys.stderr.write(end.line + "\n")
        return end.status


sys.exit(main(sys.argv[1:]))
