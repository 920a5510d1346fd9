"""Programs at random for tests/check-agrees-with-run: valid BCPL with all forms of the language, mixed. Most end soon and do nothing undefined:
each name keeps one kind of value, indexes stay within their vectors, and each loop counts down a variable of its own."""
import re

POOL = "A B C D E F G H I J K M N P Q R S T U V W X Y B2 SUM LAST ITEM NEXT.ONE".split()
LIBRARY = {"STOP": 2, "RDCH": 3, "WRCH": 4, "NEWLINE": 5, "WRITES": 6, "WRITEN": 7, "WRITED": 8, "GETBYTE": 9, "PUTBYTE": 10}
STRINGS = ["AB", "HELLO", "one*Ntwo", "x*Ty", "*S*S.", "a long string of bytes", "***\"*'", "%%", "q*Bw", "\xe9\xff"]

# kinds of values: a number; the address of k + 1 numbers; a string of k bytes or more; the address of one number; a procedure
NUMBER, CELL, JUNK, SMALL = ("number",), ("cell",), ("junk",), ("small",)
TAKES = ("procedure", (NUMBER,), None)
GIVES = ("procedure", (NUMBER,), NUMBER)


def word(x):
    x &= 0xFFFFFFFF
    return x - (1 << 32) if x >> 31 else x


def fits(have, want):
    if have[0] != want[0]:
        return False
    return have[1] >= want[1] if have[0] in ("vector", "string") else have == want


class Entry:
    """What a name means: where it is kept, the kind of its values, whose variable it is, and what may be done with it."""

    def __init__(self, name, store, kind, owner=None, fixed=False, ready=True, value=None, most=None, cost=1, leaf=False, library=None, number=None):
        self.name, self.store, self.kind, self.owner, self.fixed, self.ready = name, store, kind, owner, fixed, ready
        self.value, self.most, self.cost, self.leaf, self.library, self.number = value, most, cost, leaf, library, number


class Body:
    """A procedure while it is made: what one call of it costs, about, and its calls of itself."""

    def __init__(self, is_routine):
        self.is_routine, self.cost, self.leaf, self.bound, self.group, self.calls = is_routine, 5, True, None, (), 0


class Scope:
    """Where labels belong: those to be set, names in use, and counters that its head has to declare."""

    def __init__(self, outer):
        self.outer, self.pending, self.used, self.counters = outer, [], set(), []

    def names(self):
        return self.used | (self.outer.names() if self.outer else set())

    def scopes(self):
        return [self] + (self.outer.scopes() if self.outer else [])


class Place:
    """Where something stands: the names there, and what may be left. `times` is how often it is come to in one call."""

    def __init__(self, env, owner=None, scope=None):
        self.env, self.owner, self.scope = env, owner, scope
        self.loop = self.switch = self.cases = self.result = None
        self.times, self.depth, self.guarded = 1, 0, False

    def but(self, **changes):
        new = Place.__new__(Place)
        new.__dict__.update(self.__dict__)
        new.__dict__.update(changes)
        return new


class Cases:
    def __init__(self):
        self.words, self.default = set(), False


def indented(lines):
    return ["   " + line for line in lines]


class Maker:
    def __init__(self, r, size):
        self.r, self.size, self.left, self.counters = r, size, size, 0
        self.wild = r.choice([1, 1, 2, 3]) if r.random() < 0.33 else 0
        self.endless = 1 if r.random() < 0.15 else 0
        self.zero = 0.2 if r.random() < 0.1 else 0
        self.globals = []

    def chance(self, p):
        return self.r.random() < p

    # names

    def visible(self, place, want):
        owner = place.owner
        return [e for e in place.env.values() if e.ready and (e.owner is None or e.owner is owner) and want(e)]

    def of_kind(self, place, kind):
        return self.visible(place, lambda e: fits(e.kind, kind) and e.store != "manifest" and (kind[0] != "procedure" or e.cost <= 40 and e.leaf))

    def library(self, place, name):
        for e in place.env.values():
            if e.library == name:
                return e.name
        return None

    def new_name(self, avoid=()):
        while True:
            name = self.r.choice(POOL)
            if name not in avoid:
                return name
            if self.chance(0.3):
                self.counters += 1
                return "%s.%d" % (name, self.counters)

    def counter(self, scope, first):
        """A variable that this place alone changes, declared at the head of its scope."""
        self.counters += 1
        name = "Z%d" % self.counters
        scope.counters.append((name, first))
        return name

    # constants

    def constant(self, place, depth=0):
        """The text of a constant, within parentheses if it has parts, and its word."""
        r = self.r
        what = r.random()
        if depth > 2 or what < 0.6:
            named = self.visible(place, lambda e: e.store == "manifest")
            if named and self.chance(0.4):
                e = r.choice(named)
                if e.name not in ("ENDSTREAMCH", "BYTESPERWORD") or self.chance(0.2):
                    return e.name, e.value
            return self.literal()
        if what < 0.7:
            text, x = self.constant(place, depth + 1)
            sign = r.choice(["-", "NOT ", "+"])
            return "(%s%s)" % (sign, text), {"-": word(-x), "NOT ": ~x, "+": x}[sign]
        (a, x), (b, y) = self.constant(place, depth + 1), self.constant(place, depth + 1)
        sign = r.choice("+ - * / REM = ~= < > <= >= << >> & | EQV NEQV".split())
        if sign in ("/", "REM"):
            if y == 0:
                sign = "+"
            else:
                q = abs(x) // abs(y) * (1 if (x < 0) == (y < 0) else -1)
                return "(%s %s %s)" % (a, sign, b), word(q if sign == "/" else x - q * y)
        shift = y if 0 <= y < 32 else None
        value = {"+": lambda: x + y, "-": lambda: x - y, "*": lambda: x * y, "=": lambda: -(x == y), "~=": lambda: -(x != y), "<": lambda: -(x < y),
                 ">": lambda: -(x > y), "<=": lambda: -(x <= y), ">=": lambda: -(x >= y), "&": lambda: x & y, "|": lambda: x | y,
                 "<<": lambda: 0 if shift is None else x << shift, ">>": lambda: 0 if shift is None else (x & 0xFFFFFFFF) >> shift,
                 "EQV": lambda: ~(x ^ y), "NEQV": lambda: x ^ y}[sign]()
        return "(%s %s %s)" % (a, sign, b), word(value)

    def literal(self):
        r = self.r
        what = r.randrange(20)
        if what < 12:
            x = r.randrange(12)
            return "%d" % x, x
        if what == 12:
            x = r.randrange(1 << 32)
            return "%d" % x, word(x)
        if what == 13:
            x = r.choice([255, 256, 65535, 1 << 31, (1 << 31) - 1, (1 << 32) - 1])
            return r.choice(["%d", "#%o", "#X%X"]) % x, word(x)
        if what == 14:
            x = r.randrange(512)
            return r.choice(["#%o", "#X%X"]) % x, x
        if what < 17:
            x = r.randrange(33, 127)
            return "'%s%s'" % ("*" if chr(x) in "*'\"" else "", chr(x)), x
        if what == 17:
            letter, x = r.choice([("N", 10), ("S", 32), ("T", 9), ("B", 8), ("P", 12), ("C", 13)])
            return "'*%s'" % letter, x
        return r.choice([("TRUE", -1), ("FALSE", 0), ("-1", -1)] if what == 18 else [("TRUE", -1), ("FALSE", 0)])

    # expressions: a row of the table of operators, and a text

    def put(self, e, row):
        """The text of an operand that may have this row at most."""
        return e[1] if e[0] <= row and not self.chance(0.03) else "(%s)" % e[1]

    def infix(self, row, sign, left, right):
        if 5 <= right[0] <= 8 and right[0] >= row and right[1][0] in "-+N" and self.chance(0.3) and re.match(r"(-|\+|NOT )[A-Z0-9.]+$", right[1]):
            return right[0], "%s %s %s" % (self.put(left, row), sign, right[1])
        tight = row == 2 and self.chance(0.8)
        return row, ("%s%s%s" if tight else "%s %s %s") % (self.put(left, row if row != 6 else 5), sign, self.put(right, row - 1))

    def value(self, place, kind, depth=0):
        """An expression of this kind."""
        r = self.r
        if kind == NUMBER:
            return self.number(place, depth)
        if kind == SMALL:
            return (0, "%d" % r.randrange(4)) if self.chance(0.7) else (9, "%s & 3" % self.put(self.number(place, depth + 1), 9))
        if kind == JUNK:
            what = r.randrange(6)
            if what < 3:
                return 0, "?"
            return self.value(place, r.choice([("vector", 0), ("string", 1), CELL] if what == 3 else [NUMBER]), depth + 1)
        known = self.of_kind(place, kind)
        if kind[0] == "procedure":
            return 0, r.choice(known).name
        if kind[0] == "string":
            if known and self.chance(0.6):
                return 0, r.choice(known).name
            makers = self.callable(place, kind)
            if makers and depth < 3 and self.chance(0.3):
                return self.call(place, r.choice(makers), depth)
            return 0, '"%s"' % r.choice([s for s in STRINGS if len(s.replace("*", "")) >= kind[1]])
        if kind[0] == "vector":
            k = kind[1]
            what = r.random()
            if known and what < 0.55:
                return 0, r.choice(known).name
            longer = self.of_kind(place, ("vector", k + 1))
            if longer and what < 0.75:
                e = r.choice(longer)
                i = r.randrange(1, e.kind[1] - k + 1)
                return r.choice([(5, "%s + %d" % (e.name, i)), (5, "%d + %s" % (i, e.name)), (3, "@%s!%d" % (e.name, i)), (3, "@(%s!%d)" % (e.name, i))])
            makers = self.callable(place, kind)
            if makers and depth < 3 and what < 0.85:
                return self.call(place, r.choice(makers), depth)
            return 0, self.table(place, k)
        # the address of one number
        names = self.visible(place, lambda e: e.kind == NUMBER and e.store in ("local", "static", "global") and not e.fixed)
        if known and self.chance(0.3):
            return 0, r.choice(known).name
        if names and self.chance(0.7):
            return 3, "@" + r.choice(names).name
        e = self.value(place, ("vector", 0), depth + 1)
        return e

    def table(self, place, k):
        return "(TABLE %s)" % ", ".join(self.constant(place)[0] for _ in range(k + 1))

    def index(self, place, most, depth):
        """An expression that is from 0 to `most`."""
        r = self.r
        known = self.visible(place, lambda e: e.most is not None and e.most <= most)
        if known and self.chance(0.6):
            e = r.choice(known)
            if e.name != "BYTESPERWORD" or self.chance(0.1):
                return 0, e.name
        if self.chance(0.4) and depth < 4:
            mask = 1
            while mask * 2 + 1 <= most:
                mask = mask * 2 + 1
            if most >= 1:
                return 9, "%s & %d" % (self.put(self.number(place, depth + 1), 9), mask)
        return 0, "%d" % r.randrange(most + 1)

    def element(self, place, depth, base=None):
        """A place in a vector, as an expression."""
        vectors = self.of_kind(place, ("vector", 0))
        if base is None and vectors and self.chance(0.85):
            e = self.r.choice(vectors)
            base, k = (0, e.name), e.kind[1]
        elif base is None:
            k = self.r.randrange(4)
            base = self.value(place, ("vector", k), depth + 1)
        i = self.index(place, k, depth + 1)
        what = self.r.random()
        if what < 0.7:
            return self.infix(2, "!", base, i)
        if what < 0.85:
            return 3, "!(%s)" % self.infix(5, "+", base, i)[1]
        return self.infix(2, "!", i, base)

    def byte(self, place, depth, first=0):
        strings = self.of_kind(place, ("string", 1))
        if strings and self.chance(0.8):
            e = self.r.choice(strings)
            base, k = (0, e.name), e.kind[1]
        else:
            text = self.r.choice(STRINGS[:6])
            base, k = (0, '"%s"' % text), len(text.replace("*", ""))
        if first:
            return base, (0, "%d" % self.r.randrange(1, k + 1))
        return base, self.index(place, k, depth)

    def suppliable(self, place, kind):
        return kind[0] != "procedure" or bool(self.of_kind(place, kind))

    def callable(self, place, result):
        """The procedures that may be called here, by what they give."""
        spent = place.owner.cost
        limit = 30000 if place.owner.bound == "START" else 3000
        return self.visible(place, lambda e: e.kind[0] == "procedure" and e.library is None and e.store != "group" and spent + e.cost * place.times < limit
                            and (result is None or e.kind[2] is not None and fits(e.kind[2], result)) and all(self.suppliable(place, k) for k in e.kind[1]))

    def call(self, place, e, depth):
        place.owner.cost += e.cost * place.times
        if e.library is None:
            place.owner.leaf = False
        return self.call_text(place, e.name, e.kind[1], depth)

    def call_text(self, place, name, kinds, depth):
        r = self.r
        args = [self.put(self.value(place, k, depth + 1), 12) for k in kinds]
        while kinds and kinds[len(args) - 1] == JUNK and args and self.chance(0.5):
            args.pop()
        if len(args) == len(kinds) and self.chance(0.05):
            args.append(r.choice(["?", "1", "TRUE", "WRCH" if "WRCH" in place.env else "0"]))
        if len(kinds) > 0 and self.chance(0.01):
            name = "(%s)" % name
        return 1, "%s(%s)" % (name, ", ".join(args))

    def leaf(self, place):
        r = self.r
        names = self.visible(place, lambda e: e.kind == NUMBER)
        if names and self.chance(0.7):
            e = r.choice(names)
            if e.store != "manifest" or self.chance(0.1 if e.name in ("ENDSTREAMCH", "BYTESPERWORD") else 0.5):
                return 0, e.name
        text, x = self.literal()
        return (0 if text[0] != "-" else 5), text

    def number(self, place, depth=0):
        r = self.r
        if depth > 4 or r.random() < 0.2 + 0.12 * depth:
            return self.leaf(place)
        below = lambda: self.number(place, depth + 1)
        what = r.random()
        if what < 0.3:
            row, sign = r.choice([(4, "*"), (5, "+"), (5, "-"), (5, "+"), (5, "-"), (9, "&"), (10, "|"), (11, "EQV"), (11, "NEQV"), (7, "<<"), (7, ">>")])
            right = below()
            if row == 7 and self.chance(0.7):
                right = (0, "%d" % r.randrange(34))
            return self.infix(row, sign, below(), right)
        if what < 0.36:
            by = below() if self.chance(self.zero) else r.choice([(0, "%d" % r.randrange(1, 9)), (5, "-%d" % r.randrange(1, 9)), (10, "%s | 1" % self.put(below(), 10))])
            if self.zero and self.chance(self.zero):
                by = (0, "0")
            return self.infix(4, r.choice(["/", "REM"]), below(), by)
        if what < 0.41:
            sign, row = r.choice([("-", 5), ("+", 5), ("NOT ", 8)])
            return row, sign + self.put(below(), row - 1)
        if what < 0.47:
            return self.relation(place, depth)
        if what < 0.61:
            return self.element(place, depth)
        if what < 0.68:
            base, i = self.byte(place, depth + 1)
            name = self.library(place, "GETBYTE")
            if name and self.chance(0.3):
                return 1, "%s(%s, %s)" % (name, base[1], i[1])
            return self.infix(2, "%", base, i)
        if what < 0.72:
            cells = self.of_kind(place, CELL)
            if cells:
                return 3, "!" + r.choice(cells).name
            names = self.visible(place, lambda e: e.kind == NUMBER and e.store in ("local", "static", "global"))
            return (3, "!@" + r.choice(names).name) if names else self.leaf(place)
        if what < 0.84:
            recursive = self.recursive(place, True, depth)
            if recursive:
                return recursive
            procedures = self.callable(place, NUMBER)
            if procedures:
                return self.call(place, r.choice(procedures), depth)
            return self.leaf(place)
        if what < 0.9:
            return 12, "%s -> %s, %s" % (self.put(self.condition(place, depth + 1), 11), self.put(below(), 12), self.put(below(), 12))
        if what < 0.93:
            return self.about_addresses(place, depth)
        if what < 0.95:
            name = self.library(place, "RDCH")
            return (1, name + "()") if name else self.leaf(place)
        if depth > 2 or self.left < 3 or place.depth > 5:
            return self.leaf(place)
        return 0, "(VALOF %s)" % " ".join(self.one_line(self.valof(place, NUMBER, r.randrange(1, 3))))

    def one_line(self, lines):
        """The lines of a block in one: what ends a line becomes `;`."""
        out, is_open = [], True
        for line in lines:
            line = line.strip()
            ends = re.search(r"(\$\([A-Z0-9.]*|:|\bDO|\bTHEN|\bOR|\bELSE|\bINTO|=|,)$", line)
            starts = out and re.match(r"(\$\)|OR\b|ELSE\b|THEN\b|DO\b|AND\b|REPEAT|INTO\b)", line)
            if out and not starts and not out[-1].endswith(";") and not is_open:
                out[-1] += ";"
            is_open = bool(ends)
            out.append(line)
        return out

    def about_addresses(self, place, depth):
        """A number that comes of addresses or procedures."""
        r = self.r
        what = r.randrange(7)
        vectors = self.of_kind(place, ("vector", 0))
        if what < 4 and vectors:
            e = r.choice(vectors)
            i, j = r.randrange(e.kind[1] + 2), r.randrange(e.kind[1] + 2)
            if what == 0:
                return self.infix(5, "-", (3, "@(%s!%d)" % (e.name, i)), (0, e.name))
            if what == 1:
                return self.infix(6, r.choice(["<", ">", "<=", ">=", "=", "~="]), (5, "%s + %d" % (e.name, i)), (5, "%d + %s" % (j, e.name)))
            if what == 2:
                return self.infix(6, r.choice(["=", "~="]), (0, e.name), (0, "0"))
            return self.infix(5, "-", (5, "%s + %d" % (e.name, i)), (5, "%s + %d" % (e.name, r.randrange(-9, 99))))
        names = self.visible(place, lambda e: e.kind[0] == "procedure" or e.kind[0] == "string")
        if names:
            return self.infix(6, r.choice(["=", "~="]), (0, "0") if what == 4 else (0, r.choice(names).name), (0, r.choice(names).name) if what == 4 else (0, "0"))
        return self.leaf(place)

    def relation(self, place, depth):
        r = self.r
        signs = ["=", "~=", "<", ">", "<=", ">=", r.choice(["=", "EQ"]), r.choice(["~=", "NE"])]
        first = self.put(self.number(place, depth + 1), 5)
        second = self.put(self.number(place, depth + 1), 5)
        if self.chance(0.2):
            second = self.put(self.number(place, 4), 5)
            text = "%s %s %s %s %s" % (first, r.choice(signs), second, r.choice(signs), self.put(self.number(place, depth + 2), 5))
            return 6, text + (" %s %s" % (r.choice(signs), self.put(self.leaf(place), 5)) if self.chance(0.2) else "")
        return 6, "%s %s %s" % (first, r.choice(signs), second)

    def condition(self, place, depth=0):
        r = self.r
        what = r.random()
        if depth > 3 or what < 0.5:
            return self.relation(place, depth + 1)
        if what < 0.7:
            row, sign = r.choice([(9, "&"), (10, "|")])
            return self.infix(row, sign, self.condition(place, depth + 1), self.condition(place, depth + 1))
        if what < 0.77:
            return 8, r.choice(["NOT ", "NOT ", "~"]) + self.put(self.condition(place, depth + 1), 7)
        if what < 0.8:
            return 0, r.choice(["TRUE", "FALSE"])
        if what < 0.84:
            names = self.visible(place, lambda e: e.kind[0] in ("vector", "string", "procedure"))
            if names:
                return 0, r.choice(names).name
        return self.number(place, depth + 1)

    def recursive(self, place, gives, depth):
        """A call of the procedure itself, or of one of its group, with the first argument lowered."""
        body = place.owner
        if not place.guarded or place.times > 1 or body.calls >= 2 or place.env.get(body.bound.name) is not body.bound:
            return None
        group = [e for e in body.group if place.env.get(e.name) is e and (not gives or e.kind[2] == NUMBER) and all(self.suppliable(place, k) for k in e.kind[1])]
        if not group or self.chance(0.3):
            return None
        body.calls += 1
        body.leaf = False
        e = self.r.choice(group)
        others = self.call_text(place.but(guarded=False), e.name, e.kind[1][1:], depth)[1]
        inner = others[others.index("(") + 1:-1]
        return 1, "%s(%s - 1%s)" % (e.name, body.bound.name, ", " + inner if inner else "")

    # commands: lists of lines

    def destination(self, place):
        r = self.r
        what = r.random()
        if what < 0.6:
            names = self.visible(place, lambda e: e.kind == NUMBER and not e.fixed and e.store in ("local", "static", "global"))
            if names:
                return r.choice(names).name
        if what < 0.7:
            cells = self.of_kind(place, CELL)
            if cells:
                return "!" + r.choice(cells).name
        if what < 0.78:
            base, i = self.byte(place, 2, 1)
            # (a line that begins with a string goes on with the line before)
            return self.infix(2, "%", base if base[1][0] != '"' else (0, "(%s)" % base[1]), i)[1]
        row, text = self.element(place, 2)
        return text if not self.chance(0.03) else "(%s)" % text

    def assignment(self, place):
        if self.chance(0.85):
            e = self.number(place)
            return ["%s := %s" % (self.destination(place), e[1])]
        n = self.r.randrange(2, 4)
        return ["%s := %s" % (", ".join(self.destination(place) for _ in range(n)), ", ".join(self.put(self.number(place, 1), 12) for _ in range(n)))]

    def output(self, place):
        r = self.r
        names = {e.library: e.name for e in place.env.values() if e.library}
        what = r.randrange(12)
        if what < 4 and "WRITEN" in names:
            return ["%s(%s)" % (names["WRITEN"], self.number(place, 1)[1])]
        if what == 4 and "WRITED" in names:
            width = self.number(place, 3)[1] if self.chance(0.2) else "%d" % r.randrange(12)
            return ["%s(%s, %s)" % (names["WRITED"], self.put(self.number(place, 1), 12), width)]
        if what == 5 and "WRITES" in names:
            return ["%s(%s)" % (names["WRITES"], self.value(place, ("string", 1), 1)[1])]
        if what == 6 and "NEWLINE" in names:
            return ["%s()" % names["NEWLINE"]]
        if what < 10 and "WRITEF" in names:
            text, args = "", []
            for _ in range(r.randrange(1, 5)):
                part = r.randrange(7)
                text += ["%N", "%I" + r.choice("0123456789"), "%C", "%S", "%%", "%x", " "][part] if part != 6 else r.choice([" ", "a", "*N", "% "])
                if part < 3:
                    args.append(self.put(self.number(place, 2), 12))
                elif part == 3:
                    args.append(self.put(self.value(place, ("string", 1), 2), 12))
            return ["%s(%s)" % (names["WRITEF"], ", ".join(['"%s"' % (text.lower() if self.chance(0.2) else text)] + args))]
        if "WRCH" in names:
            letter = "'%s'" % chr(r.randrange(97, 123)) if self.chance(0.7) else self.number(place, 2)[1]
            return ["%s(%s)" % (names["WRCH"], letter)]
        return self.assignment(place)

    def routine_call(self, place):
        r = self.r
        recursive = self.recursive(place, False, 1)
        if recursive:
            return [recursive[1]]
        procedures = self.callable(place, None)
        if not procedures:
            return self.output(place)
        return [self.call(place, r.choice(procedures), 1)[1]]

    def wrapped(self, place, lines):
        """A block of these lines, with a tag now and then."""
        tag = ""
        if self.chance(0.08):
            tag = self.r.choice(POOL + ["1", "2A"])
        end = "$)" + tag
        # (a tag closes what is open inside it)
        if tag and lines and lines[-1].strip() == "$)" and self.chance(0.5):
            lines = lines[:-1]
        return ["$(%s %s" % (tag, lines[0].strip())] + indented(lines[1:]) + [end] if lines else ["$(%s" % tag, end]

    def compound(self, place, n, first=(), last=()):
        """Commands without declarations."""
        place = place.but(depth=place.depth + 1)
        return self.wrapped(place, list(first) + self.commands(place, n) + list(last))

    def branch(self, place, n=None):
        """A command as the part of another."""
        if n is None:
            n = self.r.choice([1, 1, 2, 3])
        if self.left < 3 or self.chance(0.3):
            return self.simple(place)
        return self.compound(place, n) if self.chance(0.75) else self.block(place, n)

    def joined(self, head, lines, words=("DO", "THEN")):
        """A command whose head is followed by another command."""
        opens = re.match(r"\$\(|(GOTO|IF|UNLESS|TEST|WHILE|UNTIL|FOR|SWITCHON|BREAK|LOOP|ENDCASE|RESULTIS|RETURN|FINISH)\b", lines[0])
        if opens and self.chance(0.4) and re.search(r"[A-Z0-9)?'\"]$", head):
            return [head + " " + lines[0]] + lines[1:]
        if len(lines) == 1 and self.chance(0.3):
            return [head + " " + self.r.choice(words), "   " + lines[0]]
        return [head + " " + self.r.choice(words) + " " + lines[0]] + lines[1:]

    def simple(self, place):
        what = self.r.random()
        if what < 0.45:
            return self.output(place)
        if what < 0.85:
            return self.assignment(place)
        return self.routine_call(place)

    def guard(self, place):
        """A command that leaves something, or goes somewhere."""
        r = self.r
        ways = []
        if place.loop:
            ways += ["BREAK", "LOOP"] * 3
        if place.switch:
            ways += ["ENDCASE"] * 2
        if place.result:
            ways += ["RESULTIS"] * 2
        if place.owner.is_routine:
            ways += ["RETURN"]
        if self.chance(0.1):
            ways += ["FINISH", "FINISH", "STOP"]
        ways += ["GOTO"] * 3 if place.scope else ["FINISH"]
        way = r.choice(ways)
        if way == "RESULTIS":
            return ["RESULTIS " + self.put(self.value(place, place.result, 2), 12)]
        if way == "STOP":
            name = self.library(place, "STOP")
            return ["%s(%s)" % (name, self.number(place, 3)[1])] if name else ["FINISH"]
        if way == "GOTO":
            scope = r.choice(place.scope.scopes())
            if scope.pending and self.chance(0.4):
                return ["GOTO " + r.choice(scope.pending)]
            label = self.label(scope)
            scope.pending.append(label)
            return ["GOTO " + label]
        return [way]

    def label(self, scope):
        names = scope.names()
        label = self.r.choice([n for n in ["L%d" % i for i in range(1, 40)] if n not in names][:3])
        scope.used.add(label)
        return label

    def loop(self, place, kind):
        """A loop that counts down a variable of its own, or FOR."""
        r = self.r
        n = r.choice([1, 2, 2, 3, 4, 6])
        if place.times * n > 60:
            n = 1
        place.owner.cost += 4 * n * place.times
        parts = r.choice([1, 1, 2, 3])
        if kind == "FOR":
            return self.for_loop(place, n, parts)
        z = self.counter(place.scope, r.randrange(3))
        start = ["%s := %d" % (z, n)]
        down = ["%s := %s - 1" % (z, z)]
        inner = place.but(times=place.times * n, loop=True, guarded=False)
        more = "%s > 0" % z
        if self.chance(0.4):
            extra = self.put(self.condition(inner, 2), 8)
            more = "%s > 0 & %s" % (z, extra) if self.chance(0.5) else "%s >= 1 & (%s)" % (z, self.condition(inner, 2)[1])
        if kind != "REPEAT" and self.chance(0.2):
            down += self.joined("%s %s" % (r.choice(["IF", "UNLESS"]), self.condition(inner, 2)[1]), ["LOOP"])
        if kind == "WHILE":
            return start + self.joined("WHILE " + more, self.compound(inner, parts, down), ("DO",))
        if kind == "UNTIL":
            less = "%s <= 0" % z if self.chance(0.6) else "%s < 1 | %s" % (z, self.put(self.condition(inner, 2), 9))
            return start + self.joined("UNTIL " + less, self.compound(inner, parts, down), ("DO",))
        if kind == "REPEAT":
            way = ["IF %s < 0 BREAK" % z]
            if place.result and self.chance(0.3):
                way = ["IF %s < 0 DO RESULTIS %s" % (z, self.put(self.value(inner, place.result, 2), 12))]
            lines = self.compound(inner, parts, down + way)
            end = " REPEAT"
        elif kind == "REPEATWHILE":
            lines = self.compound(inner, parts, down)
            end = " REPEATWHILE " + more
        else:
            lines = self.compound(inner, parts, down)
            end = " REPEATUNTIL %s" % r.choice(["%s <= 0" % z, "%s < 1" % z, "NOT (%s)" % more])
        return start + lines[:-1] + [lines[-1] + end]

    def for_loop(self, place, n, parts):
        r = self.r
        step = r.choice([None, None, None, 1, 2, -1, -1, -2, 3])
        low = r.choice([0, 0, 1, r.randrange(-5, 20)])
        size = n * abs(step or 1)
        first, last = (low, low + size - 1) if (step or 1) > 0 else (low + size - 1, low)
        name = self.new_name()
        if self.chance(0.2) and (step or 1) > 0:
            first, last = "0", "(%s & %d)" % (self.number(place, 2)[1], max(1, size - 1) if size in (1, 2, 4) else 1)
            most = 3
        else:
            most = max(first, last) if low >= 0 else None
        by = ""
        if step is not None:
            by = " BY %s" % step
            if self.chance(0.2):
                text, x = self.constant(place, 1)
                if x and 0 < word(step - x) < 1000:
                    by = " BY %s + %d" % (text, word(step - x))
        scope = Scope(place.scope)
        env = dict(place.env)
        env[name] = Entry(name, "local", NUMBER, place.owner, fixed=True, most=most)
        inner = place.but(env=env, scope=scope, times=place.times * max(n, 2), loop=True, cases=None, depth=place.depth + 1, guarded=False)
        if self.left > 3 and self.chance(0.7):
            body = self.finished(inner, scope, self.commands(inner, parts), [])
        else:
            body = self.simple(inner)
            if scope.pending or scope.counters:
                body = self.finished(inner, scope, body, [])
        return self.joined("FOR %s = %s TO %s%s" % (name, first, last, by), body, ("DO",))

    def switch(self, place):
        r = self.r
        cases = Cases()
        inner = place.but(switch=True, cases=cases, depth=place.depth + 1, guarded=False)
        what = r.randrange(4)
        if what == 0:
            on, words = "%s REM 4" % self.put(self.number(place, 1), 4), list(range(-3, 4))
        elif what == 1 and self.library(place, "RDCH"):
            on, words = self.library(place, "RDCH") + "()", [97, 98, 99, 10, -1, 48]
        else:
            on, words = "%s & 3" % self.put(self.number(place, 1), 9), list(range(5))
        lines = []
        r.shuffle(words)
        for x in words[:r.randrange(1, 5)]:
            if x in cases.words:
                continue
            cases.words.add(x)
            head = "CASE %s:" % self.spelled(place, x)
            if not cases.default and self.chance(0.2):
                cases.default = True
                head = r.choice(["DEFAULT: " + head, head + " DEFAULT:"])
            body = self.commands(inner, r.randrange(0 if self.chance(0.2) else 1, 3))
            if self.chance(0.6):
                body += self.guard(inner) if self.chance(0.2) else ["ENDCASE"]
            lines += [head + (" " + body[0] if body else "")] + indented(body[1:])
        if not cases.default and self.chance(0.5):
            cases.default = True
            body = self.commands(inner, 1)
            lines += ["DEFAULT: " + body[0]] + indented(body[1:])
        return self.joined("SWITCHON %s INTO" % on, self.wrapped(inner, lines), ("",))

    def spelled(self, place, x):
        """A constant of this word."""
        if 32 < x < 127 and self.chance(0.6):
            return "'%s%s'" % ("*" if chr(x) in "*'\"" else "", chr(x))
        if self.chance(0.15):
            text, y = self.constant(place, 1)
            if 0 <= word(x - y) < 1000:
                return "%s + %d" % (text, word(x - y))
        return {10: "'*N'", -1: self.r.choice(["-1", "TRUE"])}.get(x, "%d" % x)

    def command(self, place):
        r = self.r
        place.owner.cost += 8 * place.times
        if self.wild and place.owner.bound and self.chance(0.12):
            self.wild -= 1
            return self.undefined(place)
        if self.endless and place.owner.bound and self.chance(0.05):
            self.endless -= 1
            return self.without_end(place)
        if self.left < 2 or place.depth > 7:
            return self.simple(place)
        what = r.random()
        if what < 0.17:
            return self.output(place)
        if what < 0.31:
            return self.assignment(place)
        if what < 0.38:
            return self.routine_call(place)
        if what < 0.49:
            word_, c = r.choice(["IF", "IF", "UNLESS"]), self.condition(place)[1]
            body = self.guard(place) if self.chance(0.4) else self.branch(place)
            return self.joined("%s %s" % (word_, c), body)
        if what < 0.55:
            first, second = self.branch(place), self.branch(place)
            lines = self.joined("TEST " + self.condition(place)[1], first)
            return lines + [r.choice(["OR ", "ELSE "]) + second[0]] + second[1:]
        if what < 0.69:
            return self.loop(place, r.choice(["FOR", "FOR", "FOR", "WHILE", "UNTIL", "REPEAT", "REPEATWHILE", "REPEATUNTIL"]))
        if what < 0.74:
            return self.switch(place)
        if what < 0.8:
            return self.block(place, r.randrange(1, 4))
        if what < 0.82:
            return self.compound(place, r.randrange(0, 3))
        return self.special(place)

    def special(self, place):
        r = self.r
        what = r.choice([0, 1, 2, 3, 4, 5, 5, 5, 6, 7, 8, 9, 10, 11, 12, 12])
        names = lambda n: r.sample(POOL, n)
        if what >= 12:
            lines = self.small_block(place, *names(3))
            if lines:
                return lines
        if what == 0:
            put = self.library(place, "PUTBYTE")
            if put:
                base, i = self.byte(place, 2, 1)
                return ["%s(%s, %s, %s)" % (put, base[1], i[1], self.put(self.number(place, 2), 12))]
        if what == 1:
            first, second = self.visible(place, lambda e: e.store == "proc" and e.leaf), None
            for e in first:
                second = [x for x in first if x is not e and x.kind == e.kind]
                if second:
                    return ["%s := %s" % (e.name, r.choice(second).name)]
        if what == 2:
            v, w = names(2)
            n = self.number(place, 2)[1]
            out = self.output_of(place, "%s!1!0 + (!%s)" % (w, v))
            if v not in n and w not in n and out and v + "(" not in out and w + "(" not in out:
                return ["$( LET %s, %s = VEC 1, VEC 1" % (v, w), "   %s!0, %s!1 := %s, %s" % (v, w, "(%s)" % n, v), "   " + out, "$)"]
        if what == 3:
            j = r.choice(POOL)
            if j not in ("WRCH",):
                e = self.value(place, JUNK, 2)[1]
                return ["$( LET %s = %s; %s := ?; %s := @%s $)" % (j, e, j, j, j)]
        if what == 4:
            v = r.choice(POOL)
            out = self.output_of(place, v, "WRITES")
            if out and not out.startswith(v + "("):
                return ["$( LET %s = VEC 1" % v, "   %s%%0, %s%%1 := %d, %s; %s%%2 := '*N'" % (v, v, r.choice([1, 1, 2]), "'%c'" % r.randrange(65, 91), v), "   " + out, "$)"]
        if what == 5:
            return self.sought(place)
        if what == 6 and place.times <= 10:
            # a label that is gone back to
            z = self.counter(place.scope, r.randrange(1, 4))
            label = self.label(place.scope)
            inner = place.but(times=place.times * 4, guarded=False)
            lines = self.commands(inner, r.randrange(1, 3))
            return [label + ": " + lines[0]] + lines[1:] + ["%s := %s - 1" % (z, z)] + self.joined("IF %s > 0" % z, ["GOTO " + label])
        if what == 7:
            # a VALOF that GOTO leaves
            scope = place.scope
            label = self.label(scope)
            return ["%s := %s + VALOF $( IF %s DO GOTO %s; RESULTIS %s $)" % (self.destination(place), self.put(self.leaf(place), 5), self.condition(place, 2)[1], label, self.number(place, 2)[1])] \
                + self.simple(place) + [label + ":"] + self.simple(place)
        if what == 8:
            name = self.library(place, "RDCH")
            c = r.choice(POOL)
            out = self.output_of(place, c, "WRCH")
            if name and out and name != c and not out.startswith(c + "(") and place.times < 10:
                place.owner.cost += 100 * place.times
                return r.choice([["$( LET %s = %s()" % (c, name), "   UNTIL %s = -1 DO $( %s; %s := %s() $)" % (c, out, c, name), "$)"],
                                 ["$( LET %s = ?" % c, "   %s := %s() REPEATUNTIL %s < 0 | %s = '*N'" % (c, name, c, c), "$)"]])
        if what == 9:
            a, b = names(2)
            x, y = self.literal()[0], self.literal()[0]
            out = self.output_of(place, "%s - %s" % (a, b))
            if out and not out.startswith(a + "(") and not out.startswith(b + "("):
                return ["$( LET SWAP(P, Q) BE $( LET T = !P; !P := !Q; !Q := T $)", "   LET %s, %s = %s, %s" % (a, b, x, y), "   SWAP(@%s, @%s); %s" % (a, b, out), "$)"]
        if what == 10:
            f, a, b = names(3)
            out = self.output_of(place, "%s(%s, 2)" % (f, self.literal()[0]))
            if out and not out.startswith((a + "(", b + "(", f + "(")):
                inner = place.env.get(f)
                if not inner or inner.number is None:
                    return ["$( LET %s(%s, %s) = (@%s)!1 + %s; %s $)" % (f, a, b, a, a, out)]
        if what == 11:
            j = r.choice(POOL)
            calls = [e for e in self.callable(place, None) if e.kind[2] is None and e.name != j]
            if calls and j != "WRCH":
                e = self.call(place, r.choice(calls), 2)[1]
                if not re.search(r"\b%s\b" % re.escape(j), e):
                    return ["$( LET %s = 1; %s := %s $)" % (j, j, e)]
        if self.left > 3:
            return self.block(place, 2)
        return self.simple(place)

    def sought(self, place):
        """A GOTO, or a SWITCHON, and after it a command that it enters on the way to its label or case."""
        r = self.r
        z = self.counter(place.scope, r.randrange(4))
        inner = place.but(times=place.times * 4, guarded=False, loop=True, cases=None)
        place.owner.cost += 100 * place.times
        down = ["%s := %s - 1" % (z, z)]
        kind = r.choice(["IF", "UNLESS", "TEST", "TEST", "WHILE", "UNTIL", "REPEAT", "REPEATWHILE", "REPEATUNTIL", "SWITCHON"])
        by_case = self.chance(0.3)
        if by_case:
            x = r.randrange(3)
            label = "CASE %d" % x
        else:
            label = self.label(place.scope)
        if kind in ("IF", "UNLESS", "TEST", "SWITCHON"):
            inner = inner.but(loop=place.loop)
        body = self.simple(inner) + [label + ":"] + self.simple(inner)
        if kind in ("WHILE", "UNTIL", "REPEAT", "REPEATWHILE", "REPEATUNTIL") and self.chance(0.5):
            body += self.joined("IF %s > 0 & %s" % (z, self.put(self.condition(inner, 3), 8)), [r.choice(["LOOP", "BREAK", "LOOP"])]) if kind != "REPEAT" else []
        if by_case and self.chance(0.6):
            body += ["CASE %d:" % (x + 1)] + self.simple(inner)
        if kind == "REPEAT":
            body += ["IF %s <= 0 BREAK" % z]
        lines = self.wrapped(inner, down + body)
        if self.chance(0.2) and kind != "SWITCHON":
            lines = self.wrapped(inner, self.simple(inner) + self.joined("IF " + self.condition(inner, 3)[1], lines, ("DO",)))
        if kind in ("IF", "UNLESS"):
            lines = self.joined("%s %s" % (kind, self.condition(place, 2)[1]), lines)
        elif kind == "TEST":
            other = self.branch(place)
            first, second = (lines, other) if self.chance(0.5) else (other, lines)
            lines = self.joined("TEST " + self.condition(place, 2)[1], first) + ["OR " + second[0]] + second[1:]
        elif kind == "WHILE":
            lines = self.joined("WHILE %s > 0" % z, lines, ("DO",))
        elif kind == "UNTIL":
            lines = self.joined("UNTIL %s < 1" % z, lines, ("DO",))
        elif kind == "SWITCHON":
            if by_case:
                lines = self.wrapped(inner, lines)
            else:
                lines = self.joined("SWITCHON %s & 1 INTO" % self.put(self.number(place, 3), 9), lines, ("",))
        else:
            lines[-1] += {"REPEAT": " REPEAT", "REPEATWHILE": " REPEATWHILE %s > 0" % z, "REPEATUNTIL": " REPEATUNTIL %s <= 0" % z}[kind]
        if by_case:
            lines = self.wrapped(inner, lines + (["DEFAULT:"] + self.simple(place) if self.chance(0.5) else []))
            return self.joined("SWITCHON %s INTO" % r.choice(["%d" % x, "%d" % x, "%d" % (x + 1), "%s & 3" % self.put(self.number(place, 3), 9)]), lines, ("",))
        if kind == "TEST" and self.chance(0.5):
            return self.joined("IF " + self.condition(place, 2)[1], ["GOTO " + label]) + lines
        return (["GOTO " + label] if self.chance(0.3) else self.joined("IF " + self.condition(place, 2)[1], ["GOTO " + label])) + lines

    def small_block(self, place, a, b, c):
        """Commands that stand alone, on names that nothing else in them means."""
        r = self.r
        write, put = self.library(place, "WRITEN"), self.library(place, "WRCH")
        if not write or not put or {write, put} & {a, b, c}:
            return None
        env = dict(place.env)
        for name in (a, b, c):
            env[name] = Entry(name, "local", JUNK, ready=False)
        here = place.but(env=env)
        n = lambda: self.put(self.number(here, 3), 12)
        defined = [x.number is not None for x in (place.env.get(a),) if x]
        x, k = r.randrange(1, 9), r.randrange(3)
        ways = [
            lambda: ["(%s -> %s, %s)(%s)" % (self.condition(here, 2)[1], put, write, n())],
            lambda: ["FOR %s = %d TO %d DO $( %s(%s); %s := %s + %d $)" % (a, x, x + 9, write, a, a, a, r.randrange(4))],
            lambda: ["FOR %s = %d TO %d BY -%d DO $( LET %s = @%s; %s(!%s); !%s := !%s - %d $)" % (a, x, x - 9, r.randrange(1, 4), b, a, write, b, b, b, k)],
            lambda: ["$( LET %s = VEC 1" % a, "   %s!0, %s!1 := %s, %s" % (a, a, put, write), "   FOR %s = 0 TO 1 DO (%s!%s)(%s)" % (b, a, b, n()), "$)"],
            lambda: ["$( LET %s = VEC 2" % a, "   %s!%d := %s" % (a, k, n()), "   %s(!(%s + 1000 - %d) + %d!(%s + %d))" % (write, a, 1000 - k, k - 1, a, 1), "$)"],
            lambda: ["$( LET %s, %s = 0, ?" % (a, b), "   $( LET %s = %s; %s := @%s; %s := %s $)" % (c, n(), a, c, b, c), "   %s := %s; %s(%s)" % (a, b, write, b), "$)"],
            lambda: ["$( LET %s = \"%s\"" % (a, r.choice(["abc", "0123"])), "   %s(%s%%2); %s%%2 := %s%%2 + 1" % (put, a, a, a), "$)"],
            lambda: ["$( LET %s = TABLE 1, %d, 3" % (a, x), "   %s!1 := %s!1 * 2; %s(%s!1)" % (a, a, write, a), "$)"],
            lambda: ["$( STATIC $( %s = %d $)" % (a, x), "   LET %s = @%s; !%s := !%s + 1; %s(%s)" % (b, a, b, b, write, a), "$)"],
            lambda: ["%s(VALOF $( FOR %s = 0 TO 9 DO IF %s * %s > %d RESULTIS %s; RESULTIS -1 $))" % (write, a, a, a, r.randrange(99), a)],
            lambda: ["$( LET %s = VALOF $( IF %s DO %s := %s $)" % (a, self.condition(place, 2)[1], self.destination(place), self.number(place, 2)[1]), "   %s := %s" % (a, n()), "   %s(%s)" % (write, a), "$)"],
            lambda: ["SWITCHON %d INTO" % r.randrange(5), "$( CASE 0: %s('0')" % put, "   CASE 1: FOR %s = 0 TO 1 DO ENDCASE" % a, "   CASE 2: %s(2); $( CASE 3: %s('3') $) REPEATWHILE FALSE" % (write, put), "$)"],
        ]
        if not any(defined):
            ways += [
                lambda: ["$( LET %s(%s) = %s > 0 -> %s, %s; %s(%s)(%s) $)" % (a, b, b, put, write, a, r.choice(["1", "0"]), n())],
                lambda: ["$( LET %s(%s, %s) = VALOF $( %s := %s; RESULTIS %s + %s $); %s(%s(%d, ?)) $)" % (a, b, c, c, b, b, c, write, a, x)],
                lambda: ["$( LET %s(%s, %s) BE UNLESS %s = 0 DO $( %s(%s); %s := %s; %s(%s - 1, %s) $); %s(%d, %s) $)" % (a, b, c, b, c, b, c, r.choice([write, put]), a, b, c, a, x, write)],
            ]
        place.owner.cost += 300 * place.times
        if place.times > 20:
            return None
        return r.choice(ways)()

    def output_of(self, place, text, how="WRITEN"):
        name = self.library(place, how)
        return "%s(%s)" % (name, text) if name else None

    def undefined(self, place):
        """An undefined act, or what comes near to one."""
        r = self.r
        u = "U%d" % r.randrange(3)
        n = lambda: self.put(self.number(place, 3), 12)
        vectors = self.of_kind(place, ("vector", 0))
        v, k = (lambda e: (e.name, e.kind[1]))(r.choice(vectors)) if vectors else (self.table(place, 2), 2)
        s = self.value(place, ("string", 1), 2)[1]
        procedures = self.visible(place, lambda e: e.kind[0] == "procedure" and e.library is None and e.store != "group")
        f = r.choice(procedures).name if procedures else "WRCH" if "WRCH" in place.env else v
        d = self.destination(place)
        ways = [
            lambda: "$( LET %s = ?; %s := %s + %s $)" % (u, d, u, n()),
            lambda: "$( LET %s = ?; %s := ?; %s, %s := %s, %s $)" % (u, d, u, d, n(), u),
            lambda: "%s := %s!%d" % (d, v, k + 1),
            lambda: "%s := %s!%s" % (d, v, r.choice(["(-1)", "100", "100000", "(-%d)" % r.randrange(1, 99999)])),
            lambda: "%s!%d := %s" % (v, k + r.randrange(1, 20), n()),
            lambda: "%s := %s%%%d" % (d, v, 4 * k + 4 + r.randrange(9)),
            lambda: "$( LET %s = 0; $( LET X = 5; %s := @X $); %s := !%s $)" % (u, u, d, u),
            lambda: "$( LET %s = VALOF $( LET X = VEC 3; X!1 := 7; RESULTIS X $); %s := %s!1 $)" % (u, d, u),
            lambda: "$( LET %s = VALOF $( LET X = VEC 3; RESULTIS X $); %s := %s + 1 $)" % (u, u, u),
            lambda: "%s := %s %s %s" % (d, v, r.choice(["*", "&", "NEQV", "REM", "<<"]), n()),
            lambda: "%s := -%s" % (d, v),
            lambda: "%s := %s + %s" % (d, v, v),
            lambda: "%s := !%d" % (d, r.randrange(5000)),
            lambda: "!%d := %d" % (r.randrange(100000), r.randrange(100)),
            lambda: "%d()" % r.randrange(100),
            lambda: "(%s)(%s)" % (v, n()),
            lambda: "%s := %s(%s) + %s" % (d, f, n() if self.chance(0.5) else "", n()),
            lambda: "IF %s + %d DO %s := 1" % (v, k + r.randrange(9), d),
            lambda: "%s := %s = %d" % (d, v, r.randrange(3)),
            lambda: "%s := %s < %s" % (d, v, s),
            lambda: "%s := (TABLE 1) - %s" % (d, v),
            lambda: "$( LET %s = VEC 3; %s%%1 := 'A'; %s := %s!0 $)" % (u, u, d, u),
            lambda: "$( LET %s = VEC 3; %s!1 := %s; %s%%5 := 1 $)" % (u, u, v, u),
            lambda: "%s := 1 + VALOF $( IF %s DO RESULTIS 5 $)" % (d, self.condition(place, 2)[1]),
            lambda: "SWITCHON %s INTO $( CASE 1: %s := 2 $)" % (r.choice([v, "?", f]), d),
            lambda: "$( LET %s = VEC 2; FOR I = 0 TO 3 DO %s!I := I $)" % (u, u),
            lambda: "$( LET %s = VEC 5; %s!2 := 1; FOR I = 2 TO 4 DO %s := %s!I $)" % (u, u, d, u),
            lambda: "FOR I = 0 TO ? DO %s := I" % d,
            lambda: "IF ? DO %s := 1" % d,
            lambda: "%s := ? / 0" % d,
            lambda: "%s := %s REM (? | 1)" % (d, n()),
            lambda: "$( LET %s(X, Y) = X + Y; %s := %s(1) $)" % ("F" + u, d, "F" + u),
            lambda: "$( LET %s(X) BE X := X + 1; %s := %s(1) * 2 $)" % ("F" + u, d, "F" + u),
            lambda: "%s := NOT %s" % (d, f),
            lambda: "%s := %s -> 1, 2" % (d, r.choice(["?", v + " + 999"])),
        ]
        for name in ("WRITEN", "WRCH", "WRITES", "WRITED", "WRITEF", "STOP", "PUTBYTE"):
            out = self.library(place, name)
            if out:
                ways += {
                    "WRITEN": [lambda out=out: "%s(%s)" % (out, r.choice(["?", v, f, ""])), lambda out=out: "$( LET %s = ?; %s(%s) $)" % (u, out, u)],
                    "WRCH": [lambda out=out: "%s(%s)" % (out, r.choice(["?", v, ""]))],
                    "WRITES": [lambda out=out: "%s(%s)" % (out, r.choice(["5", "?", f])), lambda out=out: "$( LET %s = VEC 2; %s%%0 := 3; %s%%1 := 'A'; %s(%s) $)" % (u, u, u, out, u)],
                    "WRITED": [lambda out=out: "%s(%s)" % (out, n())],
                    "WRITEF": [lambda out=out: '%s("ab%%N%%S", 1)' % out, lambda out=out: '%s("%%N %%N", %s, %s)' % (out, n(), v), lambda out=out: '%s("x%%S", 3)' % out],
                    "STOP": [lambda out=out: "%s(%s)" % (out, r.choice(["", "?", v]))],
                    "PUTBYTE": [lambda out=out: "%s(%s, %d, 1)" % (out, v, 4 * k + 4 + r.randrange(50)), lambda out=out: "%s(%s, 0, ?)" % (out, v)],
                }[name]
        line = r.choice(ways)()
        return self.joined("IF " + self.condition(place)[1], [line]) if self.chance(0.2) else [line]

    def without_end(self, place):
        """What runs for ever, or long."""
        r = self.r
        body = self.simple(place)
        if not body[0].endswith(")"):
            body = ["$( %s $)" % body[0]]
        self.counters += 1
        f = "W%d" % self.counters
        ways = [
            lambda: [body[0] + " REPEAT"],
            lambda: ["WHILE TRUE DO " + body[0]],
            lambda: ["UNTIL FALSE DO $( %s $)" % body[0]],
            lambda: self.joined("FOR I = 1 TO %d" % r.choice([20000, 100000, 2000000000]), ["$( %s $)" % body[0]], ("DO",)),
            lambda: ["FOR I = 1 TO 2 DO I := I - 1"],
            lambda: ["$( LET %s(X) = X + %s(X + 1); %s(1) $)" % (f, f, f)],
            lambda: ["$( LET %s(X) BE $( LET V = VEC %d; V!0 := X; %s(X + 1) $); %s(1) $)" % (f, r.choice([1, 9, 100]), f, f)],
            lambda: ["$( LET %s(X) = X = 0 -> 0, 1 + %s(X - 1); %s(%d) $)" % (f, f, f, r.choice([500, 3000, 20000]))],
            lambda: ["$( LET %s(X) = X < 2 -> X, %s(X - 1) + %s(X - 2); %s(%d) $)" % (f, f, f, f, r.choice([15, 22, 27]))],
            lambda: ["$( LET %s(X) BE %s.A(X + 1) AND %s.A(X) BE %s(X - 1); %s(0) $)" % (f, f, f, f, f)],
        ]
        if place.scope:
            def going():
                label = self.label(place.scope)
                return [label + ": " + body[0], "GOTO " + label]
            ways.append(going)
        return r.choice(ways)()

    def commands(self, place, n):
        """Commands one after another, with labels that are wanted, and cases."""
        r = self.r
        lines = []
        for _ in range(n):
            head = ""
            if place.scope.pending and self.chance(0.25):
                head = place.scope.pending.pop(r.randrange(len(place.scope.pending))) + ": "
            if place.cases and self.chance(0.05):
                x = r.randrange(-3, 12)
                if x not in place.cases.words:
                    place.cases.words.add(x)
                    head += "CASE %d: " % x
            new = self.command(place)
            self.left -= len(new)
            lines += [head + new[0]] + new[1:]
        return self.run_together(lines)

    def run_together(self, lines):
        """Some short lines joined by `;`."""
        out = []
        for line in lines:
            if out and self.chance(0.15) and len(out[-1]) + len(line) < 70 and re.match(r"[A-Z0-9.]+(\(| :=)", line) and re.match(r"[A-Z0-9.]+(\(.*\)| :=.*)$", out[-1]) and "VALOF" not in out[-1]:
                out[-1] += "; " + line
            else:
                out.append(line)
        return out

    def finished(self, place, scope, lines, declarations):
        """A block: its declarations, the counters that it needs, its commands, and the labels that are still to be set."""
        while scope.pending:
            label = scope.pending.pop() + ":"
            lines.append(label + (" " + self.simple(place)[0] if self.chance(0.5) else ""))
        heads = list(declarations)
        if scope.counters:
            names, firsts = ", ".join(z for z, _ in scope.counters), ", ".join("%d" % x for _, x in scope.counters)
            new = "LET %s = %s" % (names, firsts)
            heads = [new] + heads if self.chance(0.5) else heads + [new]
        return self.wrapped(place, heads + lines)

    def block(self, place, n, avoid=()):
        """A block with declarations."""
        if place.depth > 7:
            return self.compound(place, n)
        scope = Scope(place.scope)
        lines, env, fills = self.declarations(place, self.r.choice([1, 1, 2, 3]), avoid)
        inner = place.but(env=env, scope=scope, cases=None, depth=place.depth + 1)
        inner.guarded = place.guarded
        first = []
        for e, fill in fills:
            if env.get(e.name) is e:
                first += fill
                e.ready = True
        self.left -= len(lines) + len(first)
        return self.finished(inner, scope, first + self.commands(inner, n), lines)

    def declarations(self, place, n, avoid=()):
        """Declarations at the head of a block; the names after them; and what sets the cells that they leave unset."""
        r = self.r
        env, lines, fills = dict(place.env), [], []
        owner = place.owner
        for _ in range(n):
            here = place.but(env=env)
            what = r.random()
            if what < 0.55:
                names, items, new = [], [], {}
                for _ in range(r.choice([1, 1, 1, 2, 2, 3])):
                    name = self.new_name(set(names) | set(avoid))
                    kind = r.random()
                    if kind < 0.5:
                        items.append(self.put(self.number(here, 1), 12))
                        e = Entry(name, "local", NUMBER, owner)
                    elif kind < 0.72:
                        k = r.choice([0, 1, 2, 3, 4, 7])
                        text = "%d" % k
                        if self.chance(0.2):
                            c, x = self.constant(here, 1)
                            if 0 <= k - x < 1000:
                                text = "%s + %d" % (c, k - x)
                            elif 0 <= x <= 20:
                                text, k = c, x
                        items.append("VEC " + text)
                        e = Entry(name, "local", ("vector", k), owner, fixed=True, ready=False)
                        fills.append((e, self.fill(here, name, k)))
                    elif kind < 0.79:
                        k = r.randrange(4)
                        items.append(self.put(self.value(here, ("vector", k), 1), 12))
                        e = Entry(name, "local", ("vector", k), owner, fixed=True)
                    elif kind < 0.86:
                        items.append(self.put(self.value(here, ("string", 2), 1), 12))
                        e = Entry(name, "local", ("string", 2), owner, fixed=True)
                    elif kind < 0.93:
                        items.append("?")
                        e = Entry(name, "local", NUMBER, owner, ready=False)
                        fills.append((e, ["%s := %s" % (name, self.literal()[0])]))
                    else:
                        items.append(self.put(self.value(here, CELL, 1), 12))
                        e = Entry(name, "local", CELL, owner, fixed=True)
                    names.append(name)
                    new[name] = e
                lines.append("LET %s = %s" % (", ".join(names), ", ".join(items)))
                while self.chance(0.1):
                    name = self.new_name(set(new) | set(avoid))
                    if name in new:
                        break
                    lines[-1] += " AND %s = %s" % (name, self.put(self.number(here, 1), 12))
                    new[name] = Entry(name, "local", NUMBER, owner)
                env = dict(env)
                env.update(new)
            elif what < 0.67 or place.depth > 4 or self.left < 4:
                more, env = self.lasting(here, avoid)
                lines += more
            else:
                more, env = self.procedures(here, avoid)
                lines += more
        return lines, env, fills

    def fill(self, place, name, k):
        r = self.r
        what = r.random()
        place.owner.cost += (k + 1) * 8 * place.times
        if what < 0.4 or k > 4:
            i = "I" if name != "I" else "J"
            return ["FOR %s = 0 TO %d DO %s!%s := %s" % (i, k, name, i, r.choice([i, "%s * %s" % (i, i), self.literal()[0], "%s - %s" % (i, self.literal()[0])]))]
        values = [self.literal()[0] for _ in range(k + 1)]
        if what < 0.7:
            return ["%s := %s" % (", ".join("%s!%d" % (name, i) for i in range(k + 1)), ", ".join(values))]
        return ["; ".join("%s!%d := %s" % (name, i, x) for i, x in enumerate(values))]

    def lasting(self, place, avoid=()):
        """A MANIFEST or STATIC."""
        r = self.r
        env, items, names = dict(place.env), [], set()
        is_static = self.chance(0.5)
        new = {}
        for _ in range(r.randrange(1, 4)):
            name = self.new_name(names | set(avoid))
            names.add(name)
            text, x = self.constant(place.but(env=env))
            items.append("%s %s %s" % (name, r.choice(["=", "=", ":"]), text))
            new[name] = Entry(name, "static" if is_static else "manifest", NUMBER, value=x, most=x if not is_static and 0 <= x else None)
            if not is_static:
                env[name] = new[name]
        env.update(new)
        return ["%s $( %s $)" % ("STATIC" if is_static else "MANIFEST", "; ".join(items))], env

    def procedures(self, place, avoid=(), globals_=()):
        """LET of one to three procedures. `globals_` are entries of globals that they are to set."""
        r = self.r
        count = len(globals_) or r.choice([1, 1, 1, 1, 2])
        group = []
        avoid = set(avoid)
        recursive = self.chance(0.3) or count > 1 and self.chance(0.6)
        for at in range(count):
            if globals_:
                name = globals_[at].name
            else:
                # a name of a global would set it
                name = self.new_name(avoid | {e.name for e in place.env.values() if e.number is not None})
            avoid.add(name)
            formals = [r.choice([NUMBER] * 5 + [("vector", 2), ("vector", 3), ("string", 2), CELL, JUNK, TAKES, GIVES]) for _ in range(r.choice([0, 1, 1, 2, 2, 3]))]
            if recursive:
                formals = [SMALL] + formals[:2]
            result = None if self.chance(0.4) else NUMBER if self.chance(0.85) or recursive else r.choice([("vector", 2), ("string", 2)])
            if not recursive and self.chance(0.3):
                formals, result = [NUMBER], r.choice([NUMBER, None])
            group.append(Entry(name, "group", ("procedure", tuple(formals), result)))
            if globals_:
                group[-1] = globals_[at]
                group[-1].kind, group[-1].store = ("procedure", tuple(formals), result), "group"
        env = dict(place.env)
        for e in group:
            env[e.name] = e
        lines = []
        for at, e in enumerate(group):
            new = self.procedure(place, env, e, group if recursive else ())
            lines += [("LET " if at == 0 else "AND ") + new[0]] + new[1:]
        costs = [e.cost for e in group]
        for e in group:
            e.store = "global" if globals_ else "proc"
            if recursive:
                e.cost = min(4000, max(costs) * (31 if any(b > 1 for b in [e.calls for e in group]) else 6))
        return lines, env

    def procedure(self, place, env, e, group):
        r = self.r
        _, kinds, result = e.kind
        body = Body(result is None)
        formals, names = [], []
        env = dict(env)
        for at, kind in enumerate(kinds):
            name = self.new_name(set(names) | {x.name for x in group})
            names.append(name)
            formal = Entry(name, "local", NUMBER if kind == SMALL else kind, body, fixed=kind != NUMBER, ready=kind != JUNK)
            if at == 0 and kind == SMALL and group:
                formal.most = None
                body.bound = formal
            env[name] = formal
        body.group = group
        scope = Scope(None)
        inner = Place(env, body, scope)
        inner.depth = place.depth + 1
        inner.guarded = bool(group) and body.bound is not None
        head = "%s(%s)" % (e.name, ", ".join(names))
        self.left -= 1
        if result is None:
            lines = self.routine_body(inner, body, scope)
            lines = [head + " BE " + lines[0]] + lines[1:]
        elif self.chance(0.4) or self.left < 4:
            inner.scope = None
            if body.bound:
                text = "%s %s 0 -> %s, %s" % (body.bound.name, "<=", self.put(self.leaf(inner), 11), self.put(self.number(inner), 12))
            else:
                text = self.value(inner, result)[1]
            lines = ["%s = %s" % (head, text)]
        else:
            lines = self.valof(inner, result, r.randrange(1, 4), scope, True)
            lines = ["%s = VALOF %s" % (head, lines[0])] + lines[1:]
        e.cost, e.leaf, e.calls = body.cost, body.leaf, body.calls
        return lines

    def routine_body(self, place, body, scope):
        first = ["IF %s %s DO RETURN" % (body.bound.name, self.r.choice(["<= 0", "< 1"]))] if body.bound and body.bound != "START" else []
        if self.left < 3:
            return self.finished(place, scope, first + self.simple(place), [])
        if not first and self.chance(0.4):
            lines = self.block(place, self.r.randrange(1, 5))
            return self.finished(place, scope, lines, []) if scope.pending or scope.counters else lines
        lines = self.commands(place, self.r.randrange(1, 5))
        return self.finished(place, scope, first + lines, [])

    def valof(self, place, result, n, scope=None, is_body=False):
        """The block of a VALOF."""
        bound = place.owner.bound if is_body and place.owner.bound and place.owner.bound != "START" else None
        if scope is None or not is_body:
            scope = Scope(place.scope)
        inner = place.but(scope=scope, result=result, loop=None, switch=None, cases=None, depth=place.depth + (1 if is_body else 4))
        first = ["IF %s <= 0 RESULTIS %s" % (bound.name, self.put(self.leaf(inner) if result == NUMBER else self.value(inner, result, 3), 12))] if bound else []
        lines, fills, env = [], [], place.env
        if self.left > 2 and self.chance(0.5):
            # (no procedure stands within the line of an expression)
            avoid = {bound.name} if bound else ()
            lines, env, fills = self.declarations(inner.but(scope=None if is_body else place.scope, result=None, depth=9), 1, avoid)
        inner = inner.but(env=env)
        for e, fill in fills:
            if env.get(e.name) is e:
                first += fill
                e.ready = True
        body = first + self.commands(inner, n)
        end = "RESULTIS " + self.put(self.value(inner, result, 1), 12)
        while scope.pending:
            body.append(scope.pending.pop() + ":")
        body.append(end)
        while scope.pending:
            # (what the last expression went to)
            body += [scope.pending.pop() + ":", "RESULTIS " + self.leaf_of(inner, result)]
        return self.finished(inner, scope, body, lines)

    def leaf_of(self, place, result):
        return self.leaf(place)[1] if result == NUMBER else {"vector": "(TABLE 1, 2, 3, 4)", "string": '"last"'}[result[0]]

    # sections

    def header(self, place_env):
        """What declares the library, and the names after it."""
        r = self.r
        env = dict(place_env)
        what = r.random()
        if what < 0.93:
            for name, number in LIBRARY.items():
                env[name] = Entry(name, "global", ("library",), fixed=True, library=name, number=number)
            env["ENDSTREAMCH"] = Entry("ENDSTREAMCH", "manifest", NUMBER, value=-1)
            env["BYTESPERWORD"] = Entry("BYTESPERWORD", "manifest", NUMBER, value=4, most=4)
            env["START"] = Entry("START", "global", ("start",), fixed=True)
            self.takers(env)
            if what < 0.5:
                return ['GET "LIBHDR"'], env
            env["WRITEF"] = Entry("WRITEF", "global", ("library",), fixed=True, library="WRITEF", number=11)
            return ['GET "LIBHDR2"'], env
        items = ["START:1"]
        env["START"] = Entry("START", "global", ("start",), fixed=True)
        for name, number in LIBRARY.items():
            if self.chance(0.8) or name in ("WRCH", "WRITEN"):
                mine = name if self.chance(0.8) else "MY." + name
                items.append("%s:%d" % (mine, number))
                env[mine] = Entry(mine, "global", ("library",), fixed=True, library=name, number=number)
        self.takers(env)
        return ["GLOBAL $( %s $)" % "; ".join(items)], env

    def takers(self, env):
        """The routines of the library that take a number are values of that kind."""
        for e in list(env.values()):
            if e.library in ("WRCH", "WRITEN"):
                e.kind, e.leaf = TAKES, True

    def declare_globals(self, env, entries, avoid=()):
        """GLOBAL with names for these globals, and the entries here."""
        r = self.r
        names, items, here = set(avoid), [], []
        for g in entries:
            name = self.new_name(names)
            names.add(name)
            items.append("%s%s%d" % (name, r.choice([":", ":", " : ", " = "]), g.number))
            e = Entry(name, "global", g.kind, fixed=g.fixed, cost=g.cost, leaf=g.leaf, number=g.number)
            env[name] = e
            here.append(e)
        return (["GLOBAL $( %s $)" % "; ".join(items)] if items else []), here

    def section(self, last):
        """A section: procedures, and START in the last that is made."""
        r = self.r
        lines, env = self.header({})
        place = Place(env, Body(True), None)
        if self.chance(0.5):
            more, env = self.lasting(place)
            lines += more
        data = [g for g in self.globals if g.kind[0] != "procedure"]
        shared = [g for g in self.globals if g.kind[0] == "procedure" and (self.chance(0.8) or last)]
        more, _ = self.declare_globals(env, [g for g in data if self.chance(0.8)] + shared)
        lines += more
        place = Place(env, Body(True), None)
        wanted = 0 if self.left < 6 else r.randrange(0 if last else 1, 4)
        for _ in range(wanted):
            if self.left < self.size * 0.45:
                break
            place = Place(env, Body(True), None)
            what = r.random()
            if what < 0.25:
                more, env = self.lasting(place)
            elif what < 0.45 or not last and what < 0.8:
                numbers = {g.number for g in self.globals}
                new = []
                for _ in range(r.choice([1, 1, 2])):
                    number = r.choice([n for n in range(100, 140) if n not in numbers])
                    numbers.add(number)
                    new.append(Entry("", "global", ("x",), number=number))
                more, here = self.declare_globals(env, new)
                lines += more
                more, env = self.procedures(Place(env, Body(True), None), (), here)
                for e in here:
                    e.fixed = False
                    self.globals.append(Entry("", "global", e.kind, cost=e.cost, leaf=e.leaf, number=e.number))
            else:
                more, env = self.procedures(place)
            if self.chance(0.1):
                more = more + [";"]
            lines += more
            self.left -= len(more)
        if last:
            lines += self.start(env, data)
        elif self.chance(0.04) and self.library(place, "WRITES"):
            # the START of the later section counts
            lines.append('LET START() BE %s("early*N")' % self.library(place, "WRITES"))
        return lines

    def start(self, env, data):
        r = self.r
        lines, here = self.declare_globals(env, data, {"START"})
        if self.chance(0.02):
            env["NEWLINE"] = Entry("NEWLINE", "global", ("library",), fixed=True)
            if "WRCH" in env:
                lines += ["LET NEWLINE() BE WRCH('!')"]
        body = Body(True)
        body.bound = "START"
        scope = Scope(None)
        place = Place(env, body, scope)
        first = []
        for e in here:
            first.append("%s := %s" % (e.name, self.constant(place)[0] if e.kind == NUMBER else self.table(place, e.kind[1])[1:-1] if e.kind[0] == "vector" else '"global"'))
        self.left = max(self.left, self.size // 3, 3)
        commands = []
        while self.left > 0:
            new = self.block(place, min(6, max(1, self.left // 3))) if self.left > 5 and self.chance(0.6) else self.commands(place, 1)
            commands += new
            self.left -= 1
        if self.wild:
            commands += self.undefined(place)
        if self.endless:
            commands += self.without_end(place)
        commands += self.output(place)
        stop = self.library(place, "STOP")
        if stop and self.chance(0.12):
            commands.append("%s(%s)" % (stop, r.choice(["%d" % r.randrange(110), self.number(place, 2)[1]])))
        whole = self.finished(place, scope, first + commands, [])
        return lines + ["LET START() BE " + whole[0]] + whole[1:]

    def text(self):
        r = self.r
        for _ in range(r.choice([0, 1, 1, 2, 3])):
            number = r.choice([n for n in range(140, 200) if n not in [g.number for g in self.globals]])
            kind = r.choice([NUMBER, NUMBER, NUMBER, ("vector", 3), ("string", 3)])
            self.globals.append(Entry("", "global", kind, fixed=kind != NUMBER, number=number))
        count = 1 if self.size < 15 else r.choice([1, 1, 1, 2, 2, 3])
        sections = [self.section(at == count - 1) for at in range(count)]
        if self.chance(0.004):
            sections[-1] = ['GET "LIBHDR"', "LET BEGIN() BE NEWLINE()"]
        r.shuffle(sections)
        text = "\n.\n".join("\n".join(lines) for lines in sections)
        return self.dressed(text + "\n" + r.choice(["", "", ".\n", "\n// the end\n", "   "]))

    def dressed(self, text):
        """Letters in either case, comments, and blanks of all sorts, outside strings and constants."""
        r = self.r
        way = r.choice([None, None, "lower", "mixed"])
        if way:
            parts = re.split(r"(\"(?:\*.|[^\"*\n])*\"|'(?:\*.|[^'*\n])')", text)
            for i in range(0, len(parts), 2):
                parts[i] = parts[i].lower() if way == "lower" else re.sub(r"[A-Z]+", lambda m: m.group() if r.random() < 0.5 else m.group().capitalize(), parts[i])
            text = "".join(parts)
        if self.chance(0.4):
            lines = text.split("\n")
            for i in range(len(lines)):
                if self.chance(0.06):
                    lines[i] += r.choice(["  // note", " // $( \"", "\t", " \f", "\r", "\n", "\n\n", " // \xe4"])
            text = "\n".join(lines)
        return text


def program(r, size):
    """The bytes of a program of about so many lines."""
    return Maker(r, size).text().encode("latin-1")
