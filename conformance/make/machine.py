#!/usr/bin/env python3
"""machine.py [--check]: writes the tables of machine/, or with --check compares them. The expected results are those of intcode.py."""
from cases import Table, named
from intcode import GREATEST, LEAST, OPERATORS, Machine, outcome

NUMBERS = [0, 1, -1, 255, 256, 65536, GREATEST, LEAST]
SMALL = [2, -2, 7, -7]
COUNTS = [2, 8, 31, 32, 33, 63, 64, 257, -31]
PRINT = "9 LIP2 SP6 LIG7 K4 LIG5 K4 X4"  # prints its argument and a line feed; SHOW calls it with A
SHOW = "SP6 LL9 K4"


def put(table, name, text, **fields):
    """A case with what the definition gives."""
    words = fields.get("args", "").split()
    code = text if isinstance(text, bytes) else text.encode()
    value = {key: int(words[words.index(key) + 1]) for key in ("-s", "-t") if key in words}
    out, line, status = outcome(code, value.get("-s", 262144), value.get("-t", 1000000), fields.get("in", b""), "--sizes" in words)
    assert status != 103 or "texts" in table.path, (name, line)
    table.case(name, int=code, out=out, line=line, status=status, **fields)


def program(*rows, data="", end="X22"):
    return "\n".join(("", "1 " + rows[0]) + rows[1:] + (end, PRINT) + ((data,) if data else ()) + ("G1L1 Z", ""))[1:]


def spelled(n):
    return {GREATEST: "greatest", LEAST: "least"}.get(n, "minus-%d" % -n if n < 0 else "%d" % n)


def operations():
    table = Table("machine/table-operations", "Each operation with numbers on both sides.")
    table.rule("INTCODE", "Operations")
    for number, (name, _) in enumerate(OPERATORS, 5):
        left = NUMBERS + (SMALL if name in ("DIV", "REM", "MULT") else [])
        right = left if "SHIFT" not in name else NUMBERS + COUNTS
        put(table, "%d-%s" % (number, name.lower()), program(
            *[" ".join("L%d L%d X%d %s" % (x, y, number, SHOW) for y in right if y or name not in ("DIV", "REM")) for x in left]))
    for number, name in ((6, "div"), (7, "rem")):
        for x in NUMBERS:
            put(table, "%d-%s-of-%s-by-0" % (number, name, spelled(x)), "1 L%d L0 X%d X22 G1L1 Z" % (x, number))
    for number, name in ((2, "neg"), (3, "not")):
        put(table, "%d-%s" % (number, name), program(" ".join("L77 L%d X%d %s" % (x, number, SHOW) for x in NUMBERS + SMALL)))
    for number in [-2, -1, 0] + list(range(34, 40)) + list(range(42, 48)) + [64, 255, 256, 261, 512, 65541, 33554431, GREATEST, LEAST]:
        put(table, "no-operation-%s" % spelled(number), "1 L7 L5 X%d X22 G1L1 Z" % number)
    table.rule("INTCODE", "Operations, switch")
    for count in (-1, 0, 1, 2, 3, LEAST):
        rows = []
        for at, value in zip(range(20, 120, 5), NUMBERS):
            pairs = " ".join("D%d DL%d" % (case, at + k) for k, case in enumerate(NUMBERS[:3], 1))
            rows.append("L%d X23 D%d DL%d %s" % (value, count, at, pairs))
            rows.append(" ".join("%d L%d JL%d" % (at + k, 90 + k, at + 4) for k in range(4)) + " %d %s" % (at + 4, SHOW))
        put(table, "switch-of-%s-pairs-on-each-number" % spelled(count), program(*rows))
    table.note("A switch on each number to a case for each.")
    for x in NUMBERS + [65535, -65536]:
        pairs = " ".join("D%d DL%d" % (case, 21 + k) for k, case in enumerate(NUMBERS))
        ends = " ".join("%d L%d JL30" % (20 + k, 90 + k) for k in range(9))
        put(table, "switch-of-8-cases-on-%s" % spelled(x), program("L%d X23 D8 DL20 %s %s 30 %s" % (x, pairs, ends, SHOW)))
    table.rule("INTCODE", "The machine")
    for function in "LSAJTFKX":
        put(table, "%s-on-each-number" % function.lower(), program(*functions(function)))
    table.close()


def functions(function):
    """Rows that use a function on each number, and print what it did."""
    if function == "L":
        return [" ".join("L%d %s" % (x, SHOW) for x in NUMBERS + [33554431, 33554432, -33554432])]
    if function == "S":
        return [" ".join("L%d SP20 L0 LIP20 %s" % (x, SHOW) for x in NUMBERS)]
    if function == "A":
        return [" ".join("L%d A%d %s" % (x, y, SHOW) for y in NUMBERS) for x in NUMBERS]
    if function == "J":
        return ["JL%d L0 %s %d L%d %s" % (k, SHOW, k, k, SHOW) for k in range(20, 24)]
    if function == "K":
        return ["L%d SP%d LL%d K%d %s" % (k, k + 2, k, k, SHOW) for k in (20, 21)] + ["JL30 20 LIP2 A1 X4 21 LIP2 A2 X4 30"]
    if function == "X":
        return [" ".join("L100 L%d X%d %s" % (x, n, SHOW) for n in (2, 3, 5, 8, 9)) for x in NUMBERS]
    return ["L%d %sL%d L0 JL%d %d L1 %d %s" % (x, function, k, k + 1, k, k + 1, SHOW) for k, x in zip(range(20, 60, 2), NUMBERS + SMALL)]


# For each row: a name, A and B before, the instruction (which goes on at the word after it), and further words of the segment.
LEAVES = [("l", 22, 11, "L5"), ("l-from-p", 22, 11, "LP7"), ("l-from-g", 22, 11, "LG7"), ("l-long", 22, 11, "L-5"),
    ("l-indirect", 22, 11, "LIG4"),
          ("s", 22, 11, "SP20"), ("s-far", 22, 11, "S3000"), ("s-to-a-global", 22, 11, "SG500"), ("s-indirect", 22, 11, "SIL8"),
          ("a", 22, 11, "A5"), ("a-long", 22, 11, "A-5"), ("a-indirect", 22, 11, "AIL8"), ("j", 22, 11, "JL5 X0 5"),
              ("j-indirect", 22, 11, "JIL7 7 DL5 5"),
          ("t-taken", 22, 11, "TL5 X0 5"), ("t-not-taken", 0, 11, "TL6 5"), ("f-taken", 0, 11, "FL5 X0 5"),
              ("f-not-taken", 22, 11, "FL6 5"),
          ("x1", 4, 11, "X1"), ("x2", 22, 11, "X2"), ("x3", 22, 11, "X3"),
          ("x23-by-default", 22, 11, "X23 D1 DL5 D7 DL6 5"), ("x23-by-a-case", 22, 11, "X23 D2 DL6 D7 DL6 D22 DL5 5"),
          ("x40", 5, "L4", "X40"), ("x41", 5, "L4", "X41 D20"), ("x41-of-another-slot", 1, "L4", "X41 D3"),
          ("wrch", 22, 11, "X26"), ("newline", 22, 11, "X27"), ("writes", 22, 11, "X28"), ("writen", 22, 11, "X29"),
              ("writed", 22, 11, "X30"),
          ("rdch", 22, 11, "X25"), ("rdch-at-the-end", 22, 11, "X25 X25"), ("getbyte", 22, 11, "X31"), ("putbyte", 22, 11, "X32"),
              ("writef", 22, 11, "X33")]
LEAVES += [("x%d" % number, 5, 1111, "X%d" % number) for number in range(5, 22)]
CALLS = ["rdch", "wrch", "newline", "writes", "writen", "writed", "getbyte", "putbyte", "writef"]
# P!2 is a string, P!3 a number, P!4 another; P!20 is what X41 puts.
SLOTS = "LL4 SP2 L3 SP3 L90 SP4 L346 SP20"
STRING = "6 X0 8 D3000 4 C7 C37 C110 C43 C98 C99 C100 C101"


def registers():
    table = Table("machine/table-registers", "A, B and P after each function, operation and routine: A, B minus A, and how far P moved.")
    table.rule("INTCODE", "The machine")
    after = "SP30 X9 SP31 LP0 SP32 LIP30 %s LIP31 %s LIP32 SP30 LP0 SP31 LIP30 LIP31 X9 %s" % (SHOW, SHOW, SHOW)
    for name, a, b, instruction in LEAVES:
        a, b = ("L%d" % a), (b if isinstance(b, str) else "L%d" % b)
        b = "LL4" if b == "L4" else b
        put(table, "%s" % name, program(SLOTS, b + " " + a, instruction + " " + after, data=STRING), **{"in": b"A"})
    table.rule("INTCODE", "Operations, the library")
    for g, name in zip([3, 4, 5, 6, 7, 8, 9, 10, 11], CALLS):
        slots = SLOTS.replace("SP2 ", "SP12 ").replace("SP3 ", "SP13 ").replace("SP4 ", "SP14 ")
        put(table, "call-of-%s" % name, program(slots, "L11 LIG%d K10" % g, after, data=STRING), **{"in": b"A"})
    table.rule("INTCODE", "The machine")
    table.note("In the procedure: A, B minus A, and the two links less P of the caller and the address of the entry.")
    inside = "SP30 X9 SP31 LP0 SP32 LIP30 SP33 LL20 SP34 LIP33 LIP34 X9 %s LIP31 LIP33 X8 LIP34 X9 %s" % (SHOW, SHOW)
    put(table, "k", program("L11 LL20 K10 X22",
        "20 " + inside + " LIP0 SP30 LP-10 SP31 LIP30 LIP31 X9 %s LIP1 SP30 LL20 SP31 LIP30 LIP31 X9 %s X4" % (SHOW, SHOW)))
    put(table, "return", program("L11 LL20 K10", after, "X22 20 L33 L44 X4"))
    put(table, "end", program("L65 SP2 X26 X22 X26"))
    table.close()


def addresses():
    table = Table("machine/table-addresses", "Each function with each form of address.")
    table.rule("INTCODE", "The machine")
    pad = "L0 SP20 L5 SP20 L7 SG600 LL8 SP22 LL8 SG602 LP20 SP23 LG600 SP24"  # words that the addresses lead to
    loads = ["5", "33554431", "33554432", "-5", "GREATEST", "P20", "P-3", "P33554432", "G7", "G-10", "G33554432", "L8", "I4", "I2",
        "IP20", "IP22",
             "IG600", "IG602", "IG-12", "IG-15", "IL8", "I33554432"]
    loads = [form.replace("GREATEST", str(GREATEST)) for form in loads]
    data = "8 D-77"

    def name_of(form):
        return form.replace("-", "minus-").lower().replace("i", "i-").replace("p", "p-").replace("g", "g-").replace("l",
            "l-") if form else form

    for function, code in (("L", "L1 L%s"), ("A", "L1000 A%s")):
        for form in loads:
            put(table, "%s-%s" % (function.lower(), name_of(form)), program(pad,
                code.replace("L%s", "L" + form).replace("A%s", "A" + form) + " " + SHOW, data=data))
    for form, back in (("3000", "3000"), ("P20", "P20"), ("P2000", "P2000"), ("G600", "G600"), ("G-3", "13"), ("L8", "L8"),
        ("IP22", "L8"), ("IG602", "L8"),
                       ("IL7", "L8"), ("IP23", "P20"), ("IP24", "G600"), ("33554432", "0"), ("P-1", "P-1"), ("IG-5", "0")):
        put(table, "s-%s" % name_of(form), program(pad, "L4321 S%s LI%s %s" % (form, back, SHOW), data=data + " 7 DL8"))
    code = "L-536870890 S3000 SP40 SG700 L65 SP2"  # the word X22 at three places
    for letter, a in (("J", 5), ("T", 5), ("F", 0), ("T", 0), ("F", 5)):
        taken = "%s-%s" % (letter.lower(), "taken" if (a != 0) == (letter != "F") or letter == "J" else "not-taken")
        for form in ("3000", "P40", "G700", "L6", "IL7", "IP41", "IG701", "I3001"):
            put(table, "%s-%s" % (taken, name_of(form)), program(code, "LL6 SP41 LL6 SG701 LL6 S3001 L%d %s%s X26 X22 6 X27" % (a, letter,
                form), data="7 DL6"))
    for form in ("10", "P5", "G20", "I3001", "IP41", "IG701", "IL7", "33554432"):
        put(table, "k-%s" % name_of(form), program("L12 S3001 SP41 SG701 LL6 K%s %s X22 6 LP0 LIP0 X9 X4" % (form, SHOW), data="7 D12"))
    for form in ("8", "IL7", "IP41", "IG701", "I3001", "G-8", "33554432", "-8"):
        put(table, "x-%s" % name_of(form), program("L8 S3001 SP41 SG701 L30 L12 X%s %s" % (form, SHOW), data="7 D8"))
    put(table, "x-l-6", "1 L30 L12 XL6 6 X22 G1L1 Z")
    rows = "L30 L12 XP%d " + SHOW
    stack = Machine(program(rows % -1).encode()).stack
    put(table, "x-p", program(rows % (9 - stack)))
    table.close()


def texts():
    table = Table("machine/table-texts", "Each byte, each kind of word and each fault in the text.")
    table.rule("INTCODE", "Texts")
    for byte in range(256):
        put(table, "byte-%02x-between-items" % byte, b"1 X22 " + bytes([byte]) + b" G1L1 Z")
    for byte in list(range(48)) + list(range(58, 65)) + list(range(91, 97)) + list(range(123, 130)) + [160, 255]:
        put(table, "byte-%02x-in-an-item" % byte, b"1 L65 SP4 LIG4 K2 X22 L" + bytes([byte]) + b"7 G1L1 Z")
        if byte not in b" \t\n\f\r":
            put(table, "byte-%02x-after-an-item" % byte, b"1 X22 L7" + bytes([byte]) + b" G1L1 Z")
    for name, blank in (("line-feed", "\n"), ("tab", "\t"), ("form-feed", "\f"), ("carriage-return", "\r"), ("several", " \n\t\f\r ")):
        put(table, "blank-%s" % name, (blank + "1 L65 SP4 LIG4 K2 X22 G1L1 Z" + blank).replace(" ", blank))
    words = ["", "0", "00", "01", "-0", "-1", "-", "--1", "+1", "1-", "1.", "0x1", "1e1", "1a", "12", "2000000", "2000001", "33554432",
        "4294967296", "4294967297",
             "2147483647", "2147483648", "-2147483648", "-2147483649", "-4294967295", "9223372036854775808", "18446744073709551617",
             "00000000000000000001", "100000000000000000000000000000000000000000000000001", "999", "1000", "255", "256", "15", "16",
                 "65535", "65536"]
    heads = ["", "L", "LI", "LP", "LG", "LIP", "LIG", "LL", "LIL", "S", "XP", "KIL", "C", "D", "DL", "G1L", "G", "Q", "Z", "LPL", "LGL",
        "LPG", "LII", "DI", "CL", "QL"]
    for head in heads:
        for word in words:
            token = head + word
            if head == "G":
                token += "L1"
            if token in ("", "1", "12") or head in ("LIP", "LIG", "XP", "LPL", "LGL", "LPG", "LII", "DI", "CL", "QL", "KIL",
                "LIL") and word not in ("", "1", "-0", "01", "-1", "2147483648"):
                continue
            put(table, "word-%s" % "".join(c if c.isdigit() or c.islower() else {"-": "-m", "+": "-p", ".": "-d"}.get(c,
                "-" + c.lower()) for c in token).strip("-") + "-in-the-middle",
                "12 D1 1 X22 %s G1L1 Z" % token)
    for token in ("G1X1", "G1D1", "G1l1", "G1", "G1-1", "G1L", "GL1", "G-1L1", "g1L1", "Ll1", "Lp5", "Lg5", "Li5", "LIl1", "Dl1", "lL1",
        "d5", "c5", "q16", "z", "LPI5", "LLP1", "LGP5", "L5P", "L5L1", "C5C5", "D5D5", "ZZ", "Z0", "Q16Q", "LI", "LIP", "LIG"):
        put(table, "item-%s-in-the-middle" % named(token), "12 D1 1 X22 %s G1L1 Z" % token)
    faults = [("bad-letter", "y", ""), ("bad-number", "L07", ""), ("byte-over-255", "C256", ""), ("label-set-twice", "1", ""),
        ("frame-given-twice", "Q17", "Q16 "),
              ("label-not-set", "Z", "LL5 "), ("label-not-set-of-a-word", "Z", "DL5 "), ("label-not-set-of-a-global", "Z", "G7L5 ")]
    for name, word, before in faults:
        for after in ("bad-letter", "bad-number", "none"):
            more = {"bad-letter": "\ny\n", "bad-number": "\nL-0\n", "none": "\n"}[after]
            put(table, "%s-in-the-middle-then-%s" % (name, after), "1 X22 G1L1 Z\n%s1 D5\nD6 %s D7%sD8 Z\n" % (before, word, more))
    for text, name in (("1 X22 G1L1 Z 1", "truncated-after-a-label"), ("1 X22 G1L1 Z\nL5\n", "truncated-after-a-line"),
        ("1 X22 G1L1", "truncated-with-no-end"),
                       ("1 X22 G1L1 Z D", "truncated-in-a-word"), ("1 X22 G1L1 Z C256", "truncated-after-a-fault"),
                           ("1 X22 G1L1 z", "no-end-of-small-letter")):
        put(table, name, text)
    for use in ("LL5", "LIL5", "SL5", "AL5", "JL5", "TL5", "FL5", "KL5", "XIL5", "DL5", "G9L5"):
        put(table, "label-of-%s-before-it-is-set" % use.lower(), program("JL6 %s 6 LL5 SP20 LIL5 %s" % (use, SHOW), data="5 D-9"))
        put(table, "label-of-%s-after-it-is-set" % use.lower(), program("JL6 5 D-9 %s 6 LIL5 %s" % (use, SHOW)))
        put(table, "label-of-%s-not-set" % use.lower(), "1 X22 2 %s G1L1 Z" % use)
    put(table, "labels-of-two-segments", "1 LIG100 K10 LIL2 SP4 LIG7 K2 X22 2 D5 G1L1 Z 2 LIL1 SP4 LIG7 K2 X4 1 D6 G100L2 Z")
    put(table, "a-global-set-twice", "1 D0 2 X22 G1L1 G1L2 Z")
    put(table, "a-global-set-by-two-segments", "1 X0 G1L1 Z 1 X22 G1L1 Z")
    table.rule("INTCODE", "Segments")
    for name, code in (("a-label", "5"), ("a-word", "D1"), ("an-instruction", "L1"), ("a-global", "G9L1"), ("a-frame", "Q20")):
        put(table, "bytes-before-%s" % name, program("LIL7 %s LIL8 %s" % (SHOW, SHOW), data="7 C1 C2 %s C3 8 C4" % code))
    for count in range(10):
        put(table, "image-of-%d-bytes" % count, "1 X22 %s G1L1 Q16 Z" % " ".join(["C7"] * count), args="--sizes")
    for items in ("L33554431", "L33554432", "L-1", "LL1", "LI33554432", "D-1", "DL1", "G1L1", "2", "C1 2 C1", "C1 D1 C1"):
        put(table, "image-of-%s" % items.lower().replace(" ", "-"), "1 %s G1L1 Q16 Z" % items, args="--sizes")
    for frames in ((16,), (17,), (65535,), (), (16, 16), (16, 300), (300, 16), (65534, 65535), (16, None), (None, 16), (40, None, 50)):
        text = " Z ".join("1 D1 %s G1L1" % ("" if q is None else "Q%d" % q) for q in frames or (None,)) + " Z"
        put(table, "frame-of-%s" % ("-".join("none" if q is None else str(q) for q in frames) or "a-segment-without"), text, args="--sizes")
    for place in ("Q300 1 D1 G1L1 Z", "1 Q300 D1 G1L1 Z", "1 D1 G1L1 Q300 Z", "1 C1 Q300 C2 G1L1 Z"):
        put(table, "frame-at-%s" % place.lower().replace(" ", "-"), place, args="--sizes")
    put(table, "a-frame-has-no-word-and-no-effect", program("Q16 L5 SP60 LIP60 " + SHOW))
    table.close()


def library():
    table = Table("machine/table-library", "Each routine with each number, and with each byte.")
    table.rule("INTCODE", "Operations, the library")
    rows = ["L%d SP6 LIG7 K4 LIG5 K4" % x for x in NUMBERS + SMALL + [9, 10, -9, -10, 99, 100, 999999999, 1000000000, -1000000000,
        GREATEST - 1, LEAST + 1]]
    put(table, "writen-of-each-number", "1 %s\nX22 G1L1 Z\n" % "\n".join(rows))
    for width in NUMBERS + SMALL + [3, 9, 10, 11, 12, 254, 257, 65537]:
        rows = ["L%d SP6 L%d SP7 LIG8 K4 LIG5 K4" % (x, width) for x in (0, -5, 12345, GREATEST, LEAST)]
        put(table, "writed-by-%s-places" % spelled(width), "1 %s\nX22 G1L1 Z\n" % "\n".join(rows))
    rows = ["L%d SP6 LIG4 K4" % x for x in NUMBERS + [10, 65, 127, 128, 321, -191, 65535, 65601]]
    put(table, "wrch-of-each-number", "1 %s\nX22 G1L1 Z\n" % " ".join(rows))
    for x in NUMBERS + [2, 50, 98, 99, 100, 101, 200, 254, 65537]:
        put(table, "stop-with-%s" % spelled(x), "1 L65 SP6 LIG4 K4 L%d SP6 LIG2 K4 LIG4 K4 X22 G1L1 Z" % x)
        put(table, "operation-24-with-%s" % spelled(x), "1 L%d SP2 X24 X0 G1L1 Z" % x)
    everything = bytes(range(256))
    put(table, "rdch-of-each-byte", "1 LIG3 K4 SP20 L-1 LIP20 X10 TL2 LIP20 SP6 LIG7 K4 LIG5 K4 JL1 2 LIG3 K4 %s X22 %s G1L1 Z" % (SHOW,
        PRINT), **{"in": everything})
    put(table, "rdch-and-wrch-of-each-byte", "1 LIG3 K4 SP6 SP20 L-1 LIP20 X10 TL2 LIG4 K4 JL1 2 X22 G1L1 Z", **{"in": everything[::-1]})
    for count in (0, 1, 2, 3, 4, 5, 7, 8, 255):
        body = " ".join("C%d" % byte for byte in [count] + [65 + k % 26 for k in range(count)])
        put(table, "writes-of-%d-bytes" % count, "1 LL2 SP6 LIG6 K4 LIG5 K4 X22 2 %s C33 C33 G1L1 Z" % body)
        put(table, "writef-of-%d-bytes" % count, "1 LL2 SP6 LIG11 K4 LIG5 K4 X22 2 %s C33 C33 G1L1 Z" % body)
    put(table, "writes-of-each-byte",
        "1 LL2 SP6 LIG6 K4 LL3 SP6 LIG6 K4 X22\n2 C128 %s\n3 C128 %s\nG1L1 Z\n" % tuple(" ".join("C%d" % b for b in part)
        for part in (range(128), range(128, 256))))
    data = "7 D0 8 D50462976 D117835012 5 D-1"
    places = [-5, -4, -3, -2, -1, 0, 1, 2, 3, 4, 5, 6, 7, 8]
    rows = ["LL8 SP6 L%d SP7 LIG9 K4 %s LL8 L%d X40 %s" % (i, SHOW, i, SHOW) for i in places]
    put(table, "getbyte-at-each-place", program(*rows, data=data))
    for i in (-8, -5, -4, -1, 0, 1, 2, 3, 4, 7):
        for value in (0, 255, 256, -1, 4660):
            show = "LIL7 %s LI3000 %s LI3001 %s" % (SHOW, SHOW, SHOW)
            for how, code in (("putbyte", "L3001 SP6 L%d SP7 L%d SP8 LIG10 K4" % (i, value)),
                ("operation-41", "L%d SP20 L3001 L%d X41 D20" % (value, i))):
                if value not in (255, 4660) and i not in (-1, 2):
                    continue
                put(table, "%s-of-%s-at-%s" % (how, spelled(value), spelled(i)),
                    program("L305419896 S3000 L-2023406815 S3001 L16909060 S3002 S2999", code,
                            "LI2999 %s LI3000 %s LI3001 %s LI3002 %s" % (SHOW, SHOW, SHOW, SHOW)))
    for name, i in (("the-greatest", GREATEST), ("the-least", LEAST)):
        s = -(GREATEST // 4) + 3000 if i > 0 else 2**29 + 3000
        put(table, "getbyte-at-%s-place" % name, program("L67305985 S3000 L%d SP6 L%d SP7 LIG9 K4 %s" % (s, i, SHOW)))
        put(table, "putbyte-at-%s-place" % name, program("L67305985 S3000 L%d SP6 L%d SP7 L90 SP8 LIG10 K4 LI3000 %s" % (s, i, SHOW)))
    directives(table)
    table.close()


def directives(table):
    """`%` before each byte, and `%I` before each byte, in small and in capital letters."""
    table.note("A `%` before each byte, with its argument where it takes one: a string, or a number.")
    for first in range(0, 256, 64):
        bytes_of = b"".join(b"%" + bytes([b]) + b"." for b in range(first, first + 64))
        takes = [chr(b).upper() for b in range(first, first + 64) if b < 128 and chr(b).upper() in "SNC"]
        put(table, "writef-of-%%-and-bytes-from-%d".replace("%%", "percent") % first,
            formatted(bytes_of, ["LL3" if t == "S" else "L%d" % (k + 70) for k, t in enumerate(takes)]))
        for letter in "iI":
            bytes_of = b"".join(b"%" + letter.encode() + bytes([b]) for b in range(first, first + 64))
            takes = [b for b in range(first, first + 64) if 48 <= b < 58]
            put(table, "writef-of-%s-%s-and-bytes-from-%d" % ("small" if letter == "i" else "capital", "i", first),
                formatted(bytes_of, ["L%d" % (k * 11 - 40) for k, _ in enumerate(takes)]))
    for name, text in (("percent-alone", b"%"), ("percent-at-the-end", b"ab%"), ("percent-i-at-the-end", b"%I"),
        ("percent-i-1-at-the-end", b"%I1"), ("two-percents", b"%%"), ("three-percents", b"%%%"),
                       ("percent-before-a-directive", b"%%N%N"), ("numbers", b"%N %n %I0%I1%I2%I3%I4%I5%I6%I7%I8%I9")):
        put(table, "writef-of-%s" % name, formatted(text, ["L%d" % x for x in (0, -1, GREATEST, LEAST, 5, 55, -5, 12, 7, 1, 2, 3)]))
    for after in "NnSsCcI%":
        put(table, "writef-of-a-percent-before-the-end-and-byte-%02x-after-it" % ord(after),
            "1 LL2 SP6 LL3 SP7 LIG11 K4 X22 2 C2 C65 C37 C%d C52 3 C1 C66 G1L1 Z" % ord(after))
        put(table, "writes-of-a-string-before-byte-%02x" % ord(after), "1 LL2 SP6 LIG6 K4 X22 2 C2 C65 C37 C%d C52 G1L1 Z" % ord(after))
    put(table, "writef-of-percent-i-before-the-end-and-a-digit-after-it", "1 LL2 SP6 L5 SP7 LIG11 K4 X22 2 C3 C65 C37 C73 C52 G1L1 Z")
    put(table, "writef-of-strings", formatted(b"%S%s%S%S%%S", ["LL3", "LL4", "LL3", "LL4", "LL3"]))
    put(table, "writef-of-bytes", formatted(b"%C%c%C%c", ["L65", "L321", "L-191", "L256"]))


def formatted(text, arguments):
    stores = " ".join("%s SP%d" % (argument, k) for k, argument in enumerate(arguments, 7))
    body = " ".join("C%d" % byte for byte in bytes([len(text)]) + text)
    return "1 LL2 SP6 %s LIG11 K4 X22\n2 %s\n3 C2 C37 C78 4 C0 G1L1 Z\n" % (stores, body)


def store():
    table = Table("machine/table-store", "Each access at the last word of the store and at the next, and frames that are just in it.")
    table.rule("INTCODE", "The store before a run")
    base = "1 L7 %s X22 G1L1 Z"
    accesses = [("load", "LI{0}"), ("store", "S{0}"), ("store-indirect", "L{0} S20 L7 SI20"), ("add", "AI{0}"),
        ("operation-1", "L{0} X1"), ("jump", "L-536870890 S4095 J{0}"),
                ("jump-indirect", "LL5 S4095 JI{0} 5"), ("jump-if", "L-536870890 S4095 L1 T{0}"),
                    ("jump-if-not", "L-536870890 S4095 L0 F{0}"),
                ("getbyte", "L{0} SP6 L0 SP7 LIG9 K4"), ("putbyte", "L{0} SP6 L0 SP7 LIG10 K4"), ("byte", "L{0} L3 X40"),
                    ("byte-below", "L{1} L-1 X40"),
                ("set-byte", "L{0} L3 X41 D6"), ("writes", "L256 S4095 L{0} SP6 LIG6 K4"), ("writef", "L256 S4095 L{0} SP6 LIG11 K4")]
    for name, code in accesses:
        for at in (4095, 4096):
            put(table, "%s-at-%d-of-4096-words" % (name, at), base % code.format(at, at + 1), args="-s 4096")
        for at in (LEAST, -1, GREATEST):
            put(table, "%s-at-%s" % (name, spelled(at)), base % code.format(at, at), args="-s 4096")
    for name, g in zip(["stop"] + CALLS, range(2, 12)):
        for words in range(2, 6):
            text = "1 LIG%d K%d X22 G1L1 Z"
            stack = Machine((text % (g, 0)).encode()).stack
            put(table, "%s-with-a-frame-of-%d-words" % (name, words), text % (g, 4096 - words - stack), args="-s 4096", **{"in": b"A"})
    put(table, "words-before-a-run", program(*["LI%d %s" % (at, SHOW) for at in list(range(0, 30)) + list(range(1015, 1036))]))
    put(table, "words-of-the-stack-before-a-run", program(" ".join("LIP%d %s" % (k, SHOW) for k in (2, 3, 8, 9, 50, 51, 3000))))
    put(table, "registers-before-a-run", "1 SP40 X8 SP41 LP0 SP42 LIP40 %s LIP41 %s LIP42 SP40 LIP40 LIP0 X9 %s X22 %s G1L1 Z" % (SHOW,
        SHOW, SHOW, PRINT))
    table.rule("INTCODE", "Operations")
    for steps in range(1, 13):
        put(table, "%d-steps-of-12" % steps, "1 L65 SP4 LIG4 K2 TL2 2 L0 FL3 3 JL4 4 X22 G1L1 Z", args="-t %d" % steps)
    for steps in range(3, 9):
        put(table, "%d-steps-to-a-store-limit" % steps, "1 L-1 A0 JL2 2 X1 G1L1 Z", args="-t %d" % steps)
    table.close()


if __name__ == "__main__":
    operations()
    registers()
    addresses()
    texts()
    library()
    store()
