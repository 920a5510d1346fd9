"""The text, the loader and the machine of docs/INTCODE.md in Python's integers, written from that page. The tables of machine/ have their
expected results from here: `outcome(text, ..)` returns the output, the line and the status that the page requires."""
import re

LEAST, GREATEST, WORD = -2**31, 2**31 - 1, 2**32
BLANKS = b" \t\n\f\r"
NUMBER = rb"0|-?[1-9][0-9]{0,9}"  # (no number in range has more digits)
LABELS = 2000000


class Fault(Exception):
    pass


class End(Exception):
    pass


def signed(word):
    return word - WORD if word > GREATEST else word


def number(spelling, least, most):
    if not re.fullmatch(NUMBER, spelling) or not least <= int(spelling) <= most:
        raise Fault("bad number")
    return int(spelling)


def item(word):
    """The item of a word, as a tuple that begins with its kind."""
    kind, rest = word[:1], word[1:]
    if kind.isdigit():
        return "label", number(word, 1, LABELS)
    if kind in b"LSAJTFKX":
        function, indirect = b"LSAJTFKX".index(kind), rest[:1] == b"I"
        rest = rest[indirect:]
        base = rest[:1] if rest[:1] in (b"P", b"G", b"L") else b""
        rest = rest[len(base):]
        n = number(rest, 1, LABELS) if base == b"L" else number(rest, LEAST, GREATEST)
        return "instruction", function, indirect, base, n
    if kind == b"C":
        n = number(rest, 0, GREATEST)
        if n > 255:
            raise Fault("byte over 255")
        return "byte", n
    if kind == b"D":
        return ("label word", number(rest[1:], 1, LABELS)) if rest[:1] == b"L" else ("word", number(rest, LEAST, GREATEST))
    if kind == b"G":
        left, letter, right = rest.partition(b"L")
        if not letter:
            raise Fault("bad number")
        return "global", number(left, 0, 999), number(right, 1, LABELS)
    if kind == b"Q":
        return "frame", number(rest, 16, 65535)
    if kind == b"Z":
        if rest:
            raise Fault("bad number")
        return ("end",)
    raise Fault("bad letter")


def segments(text):
    """The segments of a text, each a list of items. Raises the first fault."""
    words = re.findall(rb"[^ \t\n\f\r]+", text)
    found, items, used, is_set, framed = [], [], set(), set(), False

    def refuse(fault):
        raise Fault("segment %d, item %d: %s" % (len(found) + 1, len(items) + 1, fault))

    for word in words:
        try:
            now = item(word)
        except Fault as fault:
            refuse(fault)
        if now[0] == "end" and used - is_set:
            refuse("label not set")
        if now[0] == "label" and now[1] in is_set:
            refuse("label set twice")
        if now[0] == "frame" and framed:
            refuse("frame given twice")
        items.append(now)
        framed = framed or now[0] == "frame"
        if now[0] == "label":
            is_set.add(now[1])
        elif now[0] in ("label word", "global") or now[0] == "instruction" and now[3] == b"L":
            used.add(now[-1])
        elif now[0] == "end":
            found, items, used, is_set, framed = found + [items], [], set(), set(), False
    if items:
        refuse("truncated")
    return found


class Machine:
    def __init__(self, text, store=262144, given=b""):
        self.input, self.output, self.size, self.words = given, bytearray(), store, {}
        words, at, frame = self.words, 1034, 0
        parsed = segments(text)
        x = 7 << 29
        words.update({1: 1 << 28 | 1 << 26 | 1, 2: 6 << 29, 3: x | 22, 4: x | 33, 5: x | 4, 27: 4})
        for g in range(2, 11):
            words.update({16 + g: 1016 + 2 * (g - 2), 1016 + 2 * (g - 2): x | (g + 22), 1017 + 2 * (g - 2): x | 4})
        for segment in parsed:
            at = self.lay(segment, at)
            frame = max([frame] + [next((i[1] for i in segment if i[0] == "frame"), 65535)])
        self.stack, self.frame = at, frame
        if at + 16 > store:
            raise End("store too small", 105)
        if not any(i[0] == "global" and i[1] == 1 for segment in parsed for i in segment):
            raise End("no START", 108)
        self.a = self.b = 0
        self.c, self.p = 1, at

    def lay(self, segment, at):
        """Lays a segment from the word `at` on, and returns the next word."""
        labels, later, place = {}, [], 0  # place: how many bytes the last word has
        for kind, *rest in segment:
            if place and kind != "byte":
                at, place = at + 1, 0
            if kind == "label":
                labels[rest[0]] = at
            elif kind == "byte":
                self.words[at] = self.words.get(at, 0) | rest[0] << 8 * place
                place += 1
                if place == 4:
                    at, place = at + 1, 0
            elif kind == "word":
                self.words[at], at = rest[0] % WORD, at + 1
            elif kind == "label word":
                later.append((at, 0, rest[0]))
                at += 1
            elif kind == "global":
                later.append((16 + rest[0], 0, rest[1]))
            elif kind == "instruction":
                function, indirect, base, n = rest
                word = function << 29 | indirect << 28 | (base == b"P") << 27 | (base == b"G") << 26
                if base == b"L":
                    later.append((at, word, n))
                elif 0 <= n < 2**25:
                    self.words[at] = word | n
                else:
                    self.words[at], self.words[at + 1], at = word | 1 << 25, n % WORD, at + 1
                at += 1
        for where, word, label in later:
            self.words[where] = word + labels[label]
        return at

    def __getitem__(self, address):
        address %= WORD
        if address >= self.size:
            raise End("store limit", 105)
        return self.words.get(address, 0)

    def __setitem__(self, address, value):
        self[address]
        self.words[address % WORD] = value % WORD

    def byte(self, s, i):
        return self[s + (signed(i) >> 2)] >> 8 * (i & 3) & 255

    def put_byte(self, s, i, value):
        place, shift = s + (signed(i) >> 2), 8 * (i & 3)
        self[place] = self[place] & ~(255 << shift) | (value & 255) << shift

    def next(self):
        word = self[self.c]
        self.c = (self.c + 1) % WORD
        return word

    def step(self):
        word = self.next()
        d = self.next() if word >> 25 & 1 else word & 0x1FFFFFF
        if word >> 27 & 1:
            d += self.p
        if word >> 26 & 1:
            d += 16
        d %= WORD
        if word >> 28 & 1:
            d = self[d]
        function = word >> 29
        if function == 0:
            self.a, self.b = d, self.a
        elif function == 1:
            self[d] = self.a
        elif function == 2:
            self.a = (self.a + d) % WORD
        elif function == 3:
            self.c = d
        elif function == 4:
            self.c = d if self.a else self.c
        elif function == 5:
            self.c = self.c if self.a else d
        elif function == 6:
            d = (self.p + d) % WORD
            self[d] = self.p
            self[d + 1] = self.c
            self.p, self.c = d, self.a
        else:
            self.operate(d)

    def operate(self, d):
        a, p = self.a, self.p
        if 5 <= d <= 21:
            self.a = OPERATORS[d - 5][1](signed(self.b), signed(a)) % WORD
        elif d == 1:
            self.a = self[a]
        elif d == 2:
            self.a = -a % WORD
        elif d == 3:
            self.a = ~a % WORD
        elif d == 4:
            self.c, self.p = self[p + 1], self[p]
        elif d == 22:
            raise End(None, 0)
        elif d == 23:
            at, target = self.c, self[self.c + 1]
            for k in range(max(0, signed(self[at]))):
                case, label = self[at + 2 + 2 * k], self[at + 3 + 2 * k]
                if case == a:
                    target = label
                    break
            self.c = target
        elif d == 24:
            n = signed(self[p + 2])
            raise End(None, n if 0 <= n < 100 else 100)
        elif d == 25:
            self.a, self.input = (self.input[0], self.input[1:]) if self.input else (WORD - 1, b"")
        elif d == 26:
            self.output.append(self[p + 2] & 255)
        elif d == 27:
            self.output.append(10)
        elif d == 28:
            self.write_string(self[p + 2])
        elif d == 29:
            self.output += b"%d" % signed(self[p + 2])
        elif d == 30:
            n, width = self[p + 2], self[p + 3]
            self.write_number(n, width)
        elif d == 31:
            self.a = self.byte(self[p + 2], self[p + 3])
        elif d == 32:
            s, i, value = self[p + 2], self[p + 3], self[p + 4]
            self.put_byte(s, i, value)
        elif d == 33:
            self.write_format(self[p + 2], p + 3)
        elif d == 40:
            self.a = self.byte(self.b, a)
        elif d == 41:
            n = self.next()
            value = self[p + n]
            self.put_byte(self.b, a, value)
        else:
            raise End("bad operation", 107)

    def write_number(self, n, width):
        self.output += (b"%d" % signed(n)).rjust(min(max(signed(width), 0), 255))

    def write_string(self, s):
        for i in range(self.byte(s, 0)):
            self.output.append(self.byte(s, i + 1))

    def write_format(self, s, argument):
        n, i = self.byte(s, 0), 1
        while i <= n:
            now = [self.byte(s, k) for k in range(i, min(i + 3, n + 1))]
            letter = chr(now[1]).upper() if len(now) > 1 and now[1] < 128 else ""
            if now[0] != 37 or letter not in ("S", "N", "C", "%", "I") or letter == "I" and not (len(now) == 3 and 48 <= now[2] < 58):
                self.output.append(now[0])
                i += 1
                continue
            i += 3 if letter == "I" else 2
            if letter == "%":
                self.output.append(37)
                continue
            word = self[argument]
            argument += 1
            if letter == "S":
                self.write_string(word)
            elif letter == "C":
                self.output.append(word & 255)
            else:
                self.write_number(word, now[2] - 48 if letter == "I" else 0)


def divided(x, y):
    if y == 0:
        raise End("division by zero", 104)
    return abs(x) // abs(y) * (1 if (x < 0) == (y < 0) else -1)


def shifted(x, count, left):
    x %= WORD
    return 0 if not 0 <= count < 32 else x << count if left else x >> count


# The operators in the order of their operations, 5 to 21, by the names of OCODE.
OPERATORS = [
    ("MULT", lambda x, y: x * y), ("DIV", divided), ("REM", lambda x, y: x - y * divided(x, y)), ("PLUS", lambda x, y: x + y),
    ("MINUS", lambda x, y: x - y), ("EQ", lambda x, y: -(x == y)), ("NE", lambda x, y: -(x != y)), ("LS", lambda x, y: -(x < y)),
    ("GE", lambda x, y: -(x >= y)), ("GR", lambda x, y: -(x > y)), ("LE", lambda x, y: -(x <= y)),
    ("LSHIFT", lambda x, y: shifted(x, y, True)), ("RSHIFT", lambda x, y: shifted(x, y, False)), ("LOGAND", lambda x, y: x & y),
    ("LOGOR", lambda x, y: x | y), ("NEQV", lambda x, y: x ^ y), ("EQV", lambda x, y: ~(x ^ y)),
]


def outcome(text, store=262144, steps=1000000, given=b"", sizes=False):
    """What `interpret` does with a text: the output, the line (None where there is none) and the status."""
    try:
        machine = Machine(text, store, given)
    except Fault as fault:
        return b"", str(fault), 103
    except End as end:
        return b"", end.args[0], end.args[1]
    if sizes:
        return b"image %d, frame %d\n" % (machine.stack, machine.frame), None, 0
    try:
        for _ in range(steps):
            machine.step()
    except End as end:
        return bytes(machine.output), end.args[0], end.args[1]
    return bytes(machine.output), "step limit", 106
