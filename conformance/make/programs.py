#!/usr/bin/env python3
"""programs.py [--check]: writes the tables of programs/, or with --check compares them. The outputs are worked out here; those of WRITEF are
what the machine of intcode.py writes for the same string and arguments."""
from cases import Table, named
from compiler import OPERATORS, words
from generator import COUNTS, value
from intcode import GREATEST, LEAST, outcome
from machine import NUMBERS, SMALL, formatted, spelled

HEAD = 'GET "LIBHDR2"\n'


def start(*commands):
    return HEAD + "LET START() BE\n$( %s\n$)\n" % "\n   ".join(commands)


def number(x):
    return "%d" % x if x >= 0 else "#X%X" % (x % 2**32)


def string(text):
    """A string of BCPL with these bytes."""
    special = {10: "*N", 9: "*T", 8: "*B", 12: "*P", 13: "*C", 42: "**", 34: '*"'}
    return '"' + "".join(special.get(byte, chr(byte)) for byte in text) + '"'


def library():
    table = Table("programs/table-library", "Each routine of the library with each number and each byte, in BCPL.")
    table.rule("LANGUAGE", "What programs mean, the library")
    numbers = NUMBERS + SMALL + [9, 10, -9, -10, 99, 100, 999999999, 1000000000, -1000000000, GREATEST - 1, LEAST + 1]
    table.case("writen-of-each-number", b=start(*["WRITEN(%s); NEWLINE()" % number(x) for x in numbers]),
        out="".join("%d\n" % x for x in numbers))
    some = (0, -5, 12345, GREATEST, LEAST)
    for width in NUMBERS + SMALL + [3, 9, 10, 11, 12, 254, 257, 65537]:
        table.case("writed-by-%s-places" % spelled(width), b=start(*["WRITED(%s, %s); NEWLINE()" % (number(x),
            number(width)) for x in some]),
                   out="".join(str(x).rjust(min(max(width, 0), 255)) + "\n" for x in some))
    codes = NUMBERS + [10, 65, 127, 128, 321, -191, 65601]
    table.case("wrch-of-each-number", b=start(*["WRCH(%s)" % number(x) for x in codes]), out=bytes(x & 255 for x in codes))
    for x in NUMBERS + [2, 50, 98, 99, 100, 101, 200, 254, 65537]:
        table.case("stop-with-%s" % spelled(x), b=start("WRCH('A'); STOP(%s); WRCH('B')" % number(x)), out="A",
            status=x if 0 <= x < 100 else 100)
    table.case("stop-in-a-procedure", b=HEAD + "LET F(X) = VALOF $( WRITEN(X); STOP(7); RESULTIS 1 $)\nLET START() BE WRITEN(F(5) + 1)\n",
        out="5", status=7)
    table.case("finish-in-a-procedure",
        b=HEAD + "LET F(X) = VALOF $( WRITEN(X); FINISH; RESULTIS 1 $)\nLET START() BE WRITEN(F(5) + 1)\n", out="5")
    everything = bytes(range(256))
    table.case("rdch-of-each-byte", b=start("LET C = RDCH()", "WHILE C >= 0 DO $( WRITEN(C); WRCH(' '); C := RDCH() $)",
        "WRITEN(C); WRITEN(RDCH()); WRITEN(ENDSTREAMCH)"),
               out="".join("%d " % b for b in everything) + "-1-1-1", **{"in": everything})
    table.case("rdch-and-wrch-of-each-byte", b=start("LET C = RDCH()", "UNTIL C = ENDSTREAMCH DO $( WRCH(C); C := RDCH() $)"),
        out=everything[::-1], **{"in": everything[::-1]})
    table.case("rdch-of-an-empty-input", b=start("WRITEN(RDCH()); WRITEN(RDCH())"), out="-1-1")
    for count in (0, 1, 2, 3, 4, 5, 7, 8, 255):
        text = bytes(65 + k % 26 for k in range(count))
        for name in ("WRITES", "WRITEF"):
            table.case("%s-of-%d-bytes" % (name.lower(), count), b=start("%s(%s); NEWLINE()" % (name, string(text))), out=text + b"\n")
    halves = [bytes(range(0, 128)), bytes(range(128, 256))]
    spoken = [bytes(b for b in half if b not in (0,)) for half in halves]
    table.case("writes-of-each-byte", b=start(*["WRITES(%s)" % string(half) for half in spoken]), out=b"".join(spoken))
    data = "LET V = TABLE 16909060, 305419896, 2003125025"
    memory = bytes(b for x in (16909060, 305419896, 2003125025) for b in x.to_bytes(4, "little"))
    for how, text in (("getbyte", "GETBYTE(V + 1, I)"), ("the-operator-byte", "(V + 1)%I")):
        table.case("%s-at-each-place" % how, b=start(data, "FOR I = -4 TO 7 DO $( WRITEN(%s); WRCH(' ') $)" % text),
            out="".join("%d " % b for b in memory))
    for i in (-4, -1, 0, 1, 2, 3, 4, 7):
        for x in (0, 255, 256, -1, 4660):
            if x not in (255, 4660) and i not in (-1, 2):
                continue
            changed = bytearray(memory)
            changed[4 + i] = x & 255
            out = "".join("%d " % int.from_bytes(changed[k:k + 4], "little", signed=True) for k in (0, 4, 8))
            for how, text in (("putbyte", "PUTBYTE(V + 1, %s, %s)"), ("assignment-to-a-byte", "(V + 1)%%(%s) := %s")):
                table.case("%s-of-%s-at-%s" % (how, spelled(x), spelled(i)),
                    b=start(data, text % ("%d" % i, number(x)), "FOR I = 0 TO 2 DO $( WRITEN(V!I); WRCH(' ') $)"), out=out)
    directives(table)
    table.close()


def directives(table):
    def row(name, text, arguments):
        out = outcome(formatted(text, ["LL3" if a == "S" else "LL4" if a == "E" else "L%d" % a for a in arguments]).encode())[0]
        given = "".join(", " + {"S": '"%N"', "E": '""'}.get(a, number(a) if not isinstance(a, str) else a) for a in arguments)
        table.case("writef-of-%s" % name, b=start("WRITEF(%s%s)" % (string(text), given)), out=out)

    for first in range(0, 256, 64):
        part = [b for b in range(first, first + 64) if b]
        row("percent-and-bytes-from-%d" % first, b"".join(b"%" + bytes([b]) + b"." for b in part),
            ["S" if t == "S" else k + 70 for k, t in enumerate(chr(b).upper() for b in part if b < 128 and chr(b).upper() in "SNC")])
        row("percent-i-and-bytes-from-%d" % first, b"".join(b"%I" + bytes([b]) for b in part),
            [k * 11 - 40 for k in range(sum(48 <= b < 58 for b in part))])
    for name, text in (("a-percent-alone", b"%"), ("a-percent-at-the-end", b"ab%"), ("percent-i-at-the-end", b"%I"),
        ("two-percents", b"%%"), ("three-percents", b"%%%"), ("a-percent-before-a-directive", b"%%N%N"),
                       ("numbers", b"%N %n %I0%I1%I2%I3%I4%I5%I6%I7%I8%I9")):
        row(name, text, [0, -1, GREATEST, LEAST, 5, 55, -5, 12, 7, 1, 2, 3])
    for count, text in ((1, "%N"), (1, "%S"), (1, "%C"), (1, "%%"), (2, "%I4"), (2, "A%N"), (0, "%N"), (3, "%N%N")):
        shown = {3: "5%"}.get(count, text[:count])
        table.case("writef-of-the-first-%d-bytes-of-%s" % (count, named(text.replace("%", "P"))),
            b=start("LET S = \"%s\"" % text, "S%%0 := %d; WRITEF(S, 5, 6); NEWLINE(); WRITES(S)" % count), out=shown + "\n" + text[:count])
    row("strings", b"%S%s%S%S%%S", ["S", "E", "S", "E"])
    row("bytes", b"%C%c%C%c", [65, 321, -191, 256])


def operators():
    table = Table("programs/table-operators", "Each operator on variables, and as a condition.")
    for sign, name in OPERATORS.items():
        table.rule("LANGUAGE", "What programs mean, operators")
        left = NUMBERS + (SMALL if name in ("DIV", "REM") else [])
        right = [y for y in (NUMBERS + COUNTS if "SHIFT" in name else left) if y or name not in ("DIV", "REM")]
        data = ["LET L = TABLE %s" % ", ".join("%d" % x for x in left), "LET R = TABLE %s" % ", ".join("%d" % y for y in right)]
        loop = "FOR I = 0 TO %d DO FOR J = 0 TO %d DO" % (len(left) - 1, len(right) - 1)
        table.case("%s-of-variables" % words(sign), b=start(*data, loop, "$( LET X, Y = L!I, R!J", "   WRITEN(X %s Y); WRCH(' ')" % sign,
            "$)"),
                   out="".join("%d " % value(name, x, y) for x in left for y in right))
        if name in ("EQ", "NE", "LS", "GR", "LE", "GE", "LOGAND", "LOGOR"):
            def holds(x, y):
                return {"&": bool(x) and bool(y), "|": bool(x) or bool(y)}.get(sign, bool(value(name, x, y)))

            table.rule("LANGUAGE", "What programs mean, conditions")
            table.case("%s-as-a-condition" % words(sign), b=start(*data, loop, "$( LET X, Y = L!I, R!J",
                "   TEST X %s Y DO WRCH('T') OR WRCH('F')" % sign,
                       "   UNLESS X %s Y DO WRCH('U')" % sign, "   IF NOT (X %s Y) DO WRCH('N')" % sign,
                           "   WRCH((X %s Y) -> 'Y', 'Z')" % sign, "$)"),
                       out="".join("TY" if holds(x, y) else "FUNZ" for x in left for y in right))
    table.rule("LANGUAGE", "What programs mean, operators")
    for sign in ("/", "REM"):
        table.case("%s-by-0-ends-the-run" % words(sign), b=start("LET X, Y = 5, 0", "WRCH('A'); WRITEN(X %s Y)" % sign), out="A",
            line="division by zero", status=104)
    table.close()


if __name__ == "__main__":
    library()
    operators()
