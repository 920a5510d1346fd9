"""Texts at random for tests/random-texts: words of each text, and statements that fit together more or less."""

KEYWORDS = b"AND BE BREAK BY CASE DEFAULT DO ELSE ENDCASE EQV FALSE FINISH FOR GET GLOBAL GOTO IF INTO LET LOOP MANIFEST NEQV NOT OR REM REPEAT REPEATUNTIL REPEATWHILE RESULTIS RETURN STATIC SWITCHON TABLE TEST TRUE UNLESS UNTIL VALOF VEC WHILE".split()
SIGNS = b"$( $) ( ) + - * / ! % @ = ~= < > <= >= << >> & | -> , ; : := ? .".split()
OTHERS = [b"A", b"B", b"START", b"WRCH", b"1", b"0", b"65", b"'A'", b'"AB"', b'GET "LIBHDR"', b"\n", b"$(1", b"$)1", b"//x\n", b"4294967296"]
STATEMENTS = b"LN TRUE FALSE QUERY LP LG LL LLP LLG LLL LSTR RV NEG NOT MULT DIV REM PLUS MINUS EQ NE LS GR LE GE LSHIFT RSHIFT LOGAND LOGOR EQV NEQV SP SG SL STIND JUMP JT JF LAB RES RSTACK STACK STORE ENTRY SAVE FNAP RTAP FNRN RTRN ENDPROC SWITCHON FINISH DATALAB ITEMN ITEML GLOBAL GETBYTE PUTBYTE".split()
ITEMS = [b"L", b"S", b"A", b"J", b"T", b"F", b"K", b"X", b"LI", b"SP", b"LIP", b"LIG", b"JL", b"D", b"DL", b"C", b"Q", b"Z", b""]
OPERATORS = b"MULT DIV REM PLUS MINUS EQ NE LS GR LE GE LSHIFT RSHIFT LOGAND LOGOR EQV NEQV".split()


def number(r):
    return b"%d" % r.choice([0, 1, 2, 3, 4, 5, 16, 255, 256, 300001, 2**31, -1, r.randrange(70000)])


def words(r, kind):
    n = r.randrange(1, 200)
    if kind == "source":
        return b" ".join(r.choice(r.choice([KEYWORDS, SIGNS, OTHERS])) for _ in range(n))
    if kind == "ocode":
        return b" ".join(r.choice(STATEMENTS) + r.choice([b"", b" " + number(r), b" L" + number(r)]) for _ in range(n))
    return b" ".join(r.choice(ITEMS) + number(r) for _ in range(n))


def mangled(r, texts):
    """A good text with some bytes taken out, put in, copied from another, or cut."""
    text = bytearray(r.choice(texts))
    for _ in range(r.randrange(1, 6)):
        at = r.randrange(len(text) + 1)
        what = r.randrange(4)
        if what == 0:
            del text[at:at + r.randrange(1, 9)]
        elif what == 1:
            text[at:at] = bytes([r.randrange(256)])
        elif what == 2:
            other = r.choice(texts)
            start = r.randrange(len(other))
            text[at:at] = other[start:start + r.randrange(1, 40)]
        else:
            del text[at:]
    return bytes(text)


class Source:
    """Declarations and commands that mostly fit."""

    def __init__(self, r):
        self.r = r
        self.wrong = r.choice([0, 0, 0.002, 0.02])
        self.left = r.randrange(5, 150)

    def name(self, names):
        r = self.r
        return b"NONE" if not names or r.random() < self.wrong else r.choice(names)

    def expression(self, names, depth=0):
        r = self.r
        self.left -= 1
        if depth > 6 or self.left < 0 or r.random() < 0.3:
            return r.choice([b"%d" % r.randrange(10), b"%d" % r.randrange(2**32), b"'A'", b'"AB*N"', b"TRUE", b"FALSE", b"?", b"#17", b"#XFF"] + [self.name(names)] * 8)
        below = lambda: self.expression(names, depth + 1)
        what = r.randrange(16)
        if what < 6:
            return b"(%s %s %s)" % (below(), r.choice(b"+ - * / REM = ~= < > <= >= << >> & | EQV NEQV ! %".split()), below())
        if what < 8:
            return b"(%s %s)" % (r.choice(b"- + ! NOT".split()), below())
        if what == 8:
            return b"@" + self.name(names)
        if what == 9:
            return b"(%s < %s <= %s)" % (below(), below(), below())
        if what == 10:
            return b"(%s -> %s, %s)" % (below(), below(), below())
        if what == 11:
            return b"(VALOF %s)" % self.block(names, depth + 1, b"RESULTIS " + below())
        if what == 12:
            return b"(TABLE %s)" % b",".join(b"%d" % r.randrange(100) for _ in range(r.randrange(1, 5)))
        if what == 13:
            return b"(%s!%s)" % (self.name(names), below())
        return b"%s(%s)" % (self.name(names), b",".join(below() for _ in range(r.randrange(4))))

    def block(self, names, depth, last=b""):
        r = self.r
        names = list(names)
        parts = []
        for _ in range(r.randrange(3)):
            new = b"%c%d" % (r.choice(b"ABCDE"), r.randrange(5))
            how = r.randrange(5)
            if how == 0:
                parts.append(b"LET %s = VEC %d" % (new, r.randrange(20)))
            elif how == 1:
                parts.append(b"MANIFEST $( %s = %d $)" % (new, r.randrange(100)))
            elif how == 2:
                parts.append(b"LET %s(X) = %s" % (new, self.expression([b"X", new], depth + 1)))
            elif how == 3:
                parts.append(b"STATIC $( %s = %d $)" % (new, r.randrange(100)))
            else:
                parts.append(b"LET %s = %s" % (new, self.expression(names, depth + 1)))
            names.append(new)
        label = b"L%d" % r.randrange(1000)
        for i in range(r.randrange(1, 5)):
            parts.append((label + b": " if i == 0 else b"") + self.command(names + [label] * 0, depth + 1, label))
        return b"$( " + b"\n".join(parts + [last]) + b" $)"

    def command(self, names, depth, label):
        r = self.r
        self.left -= 1
        if depth > 8 or self.left < 0:
            return r.choice([b"WRCH('A')", b"NEWLINE()", b"%s := 1" % self.name(names)])
        e = lambda: self.expression(names, depth + 1)
        c = lambda: self.command(names, depth + 1, label)
        what = r.randrange(22)
        simple = [
            lambda: b"%s := %s" % (self.name(names), e()), lambda: b"%s!%s := %s" % (self.name(names), e(), e()), lambda: b"%s%%%s := %s" % (self.name(names), e(), e()),
            lambda: b"WRITEN(%s)" % e(), lambda: b"WRITES(%s)" % e(), lambda: b"WRCH(%s)" % e(), lambda: b"%s := RDCH()" % self.name(names),
            lambda: b"IF %s DO %s" % (e(), c()), lambda: b"UNLESS %s DO %s" % (e(), c()), lambda: b"TEST %s THEN %s OR %s" % (e(), c(), c()),
            lambda: b"WHILE %s DO %s" % (e(), c()), lambda: b"UNTIL %s DO %s" % (e(), c()), lambda: b"FOR I = %s TO %s BY %d DO %s" % (e(), e(), r.randrange(-3, 9), c()),
            lambda: b"%s REPEAT" % self.block(names, depth + 1), lambda: b"%s REPEATWHILE %s" % (self.block(names, depth + 1), e()),
            lambda: b"SWITCHON %s INTO $( CASE 1: %s\nENDCASE\nCASE 2: CASE 7: %s\nDEFAULT: %s $)" % (e(), c(), c(), c()), lambda: b"GOTO " + label,
            lambda: r.choice([b"FINISH", b"RETURN", b"BREAK", b"LOOP", b"ENDCASE"]) if r.random() < 0.3 else b"WHILE TRUE DO $( %s\nBREAK $)" % c(),
            lambda: b"STOP(%s)" % e(), lambda: self.block(names, depth + 1), lambda: b"%s, %s := %s, %s" % (self.name(names), self.name(names), e(), e()),
            lambda: b"%s(%s)" % (self.name(names), e()),
        ]
        return simple[what]()

    def text(self):
        r = self.r
        sections = []
        for i in range(r.choice([1, 1, 1, 2, 3])):
            last = i == 0
            names = [b"G", b"H", b"S", b"P", b"Q"]
            sections.append(b'GET "LIBHDR"\nGLOBAL $( G:200; H:201; P:%d $)\nSTATIC $( S = %d $)\n' % (300 + i, r.randrange(9))
                            + b"LET P(X, Y) = %s\nAND Q(X) BE %s\n" % (self.expression(names + [b"X", b"Y"]), self.block(names + [b"X"], 1))
                            + (b"LET START() BE %s\n" % self.block(names, 0) if last else b""))
        return b".\n".join(sections)


def ocode_statements(r):
    """Procedures whose depths mostly agree."""
    out, entries, label = [], [], 0
    wrong = r.choice([0, 0, 0.005, 0.05])
    data = r.randrange(3)
    for p in range(r.randrange(1, 4)):
        label += 1
        entries.append(label)
        out.append(b"ENTRY L%d 1 65" % label)
        k = 2 + r.randrange(3)
        out.append(b"SAVE %d" % k)
        pending = []
        for _ in range(r.randrange(40)):
            if r.random() < wrong:
                out.append(words(r, "ocode")[:r.randrange(1, 30)])
            what = r.randrange(14)
            if what < 5 or k < 3:
                out.append(r.choice([b"LN " + number(r), b"TRUE", b"QUERY", b"LG %d" % r.randrange(12), b"LLG 200", b"LSTR 2 65 66", b"LLP 2" if k > 2 else b"FALSE", b"LP %d" % r.randrange(2, k) if k > 2 else b"FALSE"]))
                k += 1
            elif what == 5 and k > 3:
                out.append(r.choice(OPERATORS + [b"GETBYTE"]))
                k -= 1
            elif what == 6:
                out.append(r.choice([b"RV", b"NEG", b"NOT"]))
            elif what == 7:
                out.append(r.choice([b"SG 200", b"SP 2" if k > 3 else b"SG 201"]))
                k -= 1
            elif what == 8:
                k = r.randrange(2, 12)
                out.append(b"STACK %d" % k)
            elif what == 9:
                label += 1
                pending.append((label, k - 1))
                out.append(b"%s L%d" % (r.choice([b"JT", b"JF"]), label))
                k -= 1
            elif what == 10 and pending:
                at, k = pending.pop()
                out.extend([b"STACK %d" % k, b"LAB L%d" % at])
            elif what == 11:
                n = k
                out.extend([b"STACK %d" % (n + 2), b"LN 65", b"LG %d" % r.choice([3, 4, 5, 6, 7, 200, 300]), r.choice([b"RTAP", b"FNAP"]) + b" %d" % n])
                k = n + (out[-1][:1] == b"F")
            elif what == 12:
                label += 2
                out.extend([b"SWITCHON 2 L%d 1 L%d 2 L%d" % (label, label, label - 1), b"LAB L%d" % label, b"LAB L%d" % (label - 1)])
                k -= 1
            else:
                out.append(b"STORE")
        for at, depth in pending:
            out.extend([b"STACK %d" % depth, b"LAB L%d" % at])
        out.extend([b"RTRN", b"ENDPROC"])
    for _ in range(data):
        label += 1
        out.append(b"DATALAB L%d" % label)
        out.extend(b"ITEMN " + b"%d" % r.randrange(1000) for _ in range(r.randrange(4)))
    settings = b" ".join(b"%d L%d" % (g, e) for g, e in zip([1, 300, 301], entries))
    return b"\n".join(out) + b"\nGLOBAL %d %s\n" % (len(entries), settings)


def intcode_items(r):
    """Items whose labels are set: code that runs, over itself too."""
    n = r.randrange(1, 60)
    labels = r.sample(range(1, 100), r.randrange(1, 8))
    items = []
    for _ in range(n):
        what = r.randrange(10)
        if what < 6:
            mark = r.choice([b"", b"I"]) + r.choice([b"", b"P", b"G"])
            items.append(r.choice([b"L", b"S", b"A", b"J", b"T", b"F", b"K"]) + mark + b"%d" % r.choice([0, 1, 2, 3, 4, 5, 6, 200, 1034, 1040, -1, 33554432, r.randrange(300000)]))
        elif what < 8:
            items.append(b"X%d" % r.randrange(0, 45))
        elif what == 8:
            items.append(r.choice([b"LL", b"LIL", b"JL", b"TL", b"FL", b"SL", b"KL", b"DL"]) + b"%d" % r.choice(labels))
        else:
            items.append(r.choice([b"D%d" % r.randrange(-2**31, 2**31), b"C%d" % r.randrange(256)]))
    for label in labels:
        items.insert(r.randrange(len(items) + 1), b"%d" % label)
    return b" ".join(items + [b"G1L%d" % labels[0], b"G%dL%d" % (r.randrange(1000), r.choice(labels)), b"Z"])


def statements(r, kind):
    if kind == "source":
        return Source(r).text()
    return ocode_statements(r) if kind == "ocode" else intcode_items(r)
