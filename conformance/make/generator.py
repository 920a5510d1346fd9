#!/usr/bin/env python3
"""generator.py [--check]: writes the tables of generator/, or with --check compares them. The values of operators are those of intcode.py;
each fault, with its statement, and each output is given here."""
from cases import Table, named
from intcode import GREATEST, LEAST, OPERATORS, End, outcome, signed
from machine import NUMBERS, SMALL, spelled

COUNTS = [2, 31, 32, 33, 64, 257, -31]
# global 100 writes a number and a blank
PRINT = "ENTRY L1000 0 SAVE 3 STACK 5 LP 2 LG 7 RTAP 3 STACK 5 LN 32 LG 4 RTAP 3 RTRN ENDPROC"
BEGIN, END = "ENTRY L1 5 83 84 65 82 84 SAVE 2", "RTRN ENDPROC"
FAULTS = ["bad word", "bad number", "truncated", "label not set", "label set twice", "depths disagree", "slot above the depth", "too long"]


def program(body, more="", sets=""):
    """A section whose START does `body`; global 100 writes a number."""
    count = 2 + len(sets.split()) // 2
    return "\n".join(("", "%s %s %s" % (BEGIN, body, END), PRINT) + ((more,) if more else ()) + ("GLOBAL %d 1 L1 100 L1000%s" % (count,
        " " + sets if sets else ""), ""))[1:]


def show(statements, depth=2):
    return "STACK %d %s LG 100 RTAP %d" % (depth + 2, statements, depth)


def value(operator, x, y):
    """What an operator gives, or None where it ends the run."""
    try:
        return signed(dict(OPERATORS)[operator](x, y) % 2**32)
    except End:
        return None


def lines(values):
    return "".join("%d " % value for value in values)


def operators():
    table = Table("generator/table-operators", "Each operator with numbers on both sides: constants, variables, and one of each.")
    table.rule("OCODE", "Statements")
    for name, _ in OPERATORS:
        left = NUMBERS + (SMALL if name in ("DIV", "REM") else [])
        right = left if "SHIFT" not in name else NUMBERS + COUNTS
        if name in ("DIV", "REM"):
            right = [y for y in right if y]
        key, all_values = name.lower(), lines(value(name, x, y) for x in left for y in right)
        table.case(key + "-of-constants", ocode=program("\n".join(" ".join(show("LN %d LN %d %s" % (x, y,
            name)) for y in right) for x in left)), out=all_values)
        for kind, code in (("variables", "LP 2 LP 3 " + name), ("globals", "LP 2 SG 200 LP 3 SG 201 LG 200 LG 201 " + name)):
            table.case("%s-of-%s" % (key, kind), ocode=pairs(left, right, show(code, 4)), out=all_values)
        each_left = [show("LN %d LP 2 %s" % (x, name), 3) for x in left]
        table.case(key + "-of-a-constant-and-a-variable", ocode=rows(each_left, right), out=all_values)
        each_right = [show("LP 2 LN %d %s" % (y, name), 3) for y in right]
        table.case(key + "-of-a-variable-and-a-constant", ocode=rows(each_right, left),
            out=lines(value(name, x, y) for y in right for x in left))
        if name in ("EQ", "NE", "LS", "GE", "GR", "LE"):
            jumps(table, name)
    for name in ("DIV", "REM"):
        for x in NUMBERS:
            for kind, code in (("constants", "LN %d LN 0" % x), ("a-variable", "LN %d LN 0 STORE STACK 6 LP 2 LP 3" % x)):
                text = program("STACK 4 LN 65 LG 4 RTAP 2 " + code + " " + name + " SG 300")
                table.case("%s-of-%s-by-0-as-%s" % (name.lower(), spelled(x), kind), ocode=text, out="A", line="division by zero",
                    status=104)
    for name, result in (("NEG", lambda x: -x), ("NOT", lambda x: ~x)):
        numbers, key = NUMBERS + SMALL, name.lower()
        out = lines(signed(result(x) % 2**32) for x in numbers)
        table.case(key + "-of-constants", ocode=program("\n".join(show("LN %d %s" % (x, name)) for x in numbers)), out=out)
        table.case(key + "-of-variables", ocode=rows([show("LP 2 " + name, 3)], numbers), out=out)
        for relation in ("EQ", "LS", "NE", "GE"):
            text = rows([show("LP 2 LN 1 %s %s" % (relation, name), 3)], numbers)
            table.case("%s-of-%s" % (key, relation.lower()), ocode=text, out=lines(result(value(relation, x, 1)) for x in numbers))
    table.close()


def jumps(table, name):
    """JT and JF on a relation of variables, and of a variable and a constant: 84 is written where it jumps, else 70."""
    numbers = NUMBERS + SMALL

    def ways(relation, jump, depth):
        return "%s %s L3 %s JUMP L4 LAB L3 %s LAB L4" % (relation, jump, show("LN 70", depth), show("LN 84", depth))

    for jump in ("JT", "JF"):
        def written(x, y):
            return 84 if bool(value(name, x, y)) == (jump == "JT") else 70

        key = "%s-on-%s" % (jump.lower(), name.lower())
        table.case(key + "-of-variables", ocode=pairs(numbers, numbers, ways("LP 2 LP 3 " + name, jump, 4)),
            out=lines(written(x, y) for x in numbers for y in numbers))
        for c in (0, 1, -1):
            table.case("%s-with-%s-at-the-left" % (key, spelled(c)), ocode=rows([ways("LN %d LP 2 %s" % (c, name), jump, 3)], numbers),
                out=lines(written(c, x) for x in numbers))
            table.case("%s-with-%s-at-the-right" % (key, spelled(c)), ocode=rows([ways("LP 2 LN %d %s" % (c, name), jump, 3)], numbers),
                out=lines(written(x, c) for x in numbers))


def loop(count, body, depth, label):
    """FOR i = 0 TO count - 1, with i in slot `depth`."""
    return "LN 0 LN %d STORE JUMP L%d LAB L%d %s LP %d LN 1 PLUS SP %d LAB L%d LP %d LP %d LE JT L%d STACK %d" % (
        count - 1, label, label + 1, body, depth, depth, label, depth, depth + 1, label + 1, depth)


def pairs(left, right, body):
    """A program that does `body`, a procedure's, with each pair of numbers in its slots 2 and 3."""
    inner = loop(len(right), "STACK 8 LLL L901 LP 2 PLUS RV LLL L902 LP 4 PLUS RV LG 101 RTAP 6", 4, 912)
    data = "".join("DATALAB L%d %s\n" % (label, " ".join("ITEMN %d" % x for x in numbers)) for label,
        numbers in ((901, left), (902, right)))
    return program(loop(len(left), inner, 2, 910), "ENTRY L900 0 SAVE 4 %s RTRN ENDPROC\n%s" % (body, data[:-1]), "101 L900")


def rows(bodies, numbers):
    """A program that does each body, a procedure's, with each number in its slot 2."""
    data = "DATALAB L901 " + " ".join("ITEMN %d" % x for x in numbers)
    procedures = "\n".join("ENTRY L%d 0 SAVE 3 %s RTRN ENDPROC" % (800 + k, body) for k, body in enumerate(bodies))
    calls = "\n".join(loop(len(numbers), "STACK 6 LLL L901 LP 2 PLUS RV LG %d RTAP 4" % (200 + k), 2,
        600 + 2 * k) for k in range(len(bodies)))
    return program(calls, procedures + "\n" + data, " ".join("%d L%d" % (200 + k, 800 + k) for k in range(len(bodies))))


# A word of each kind: how it is set to 5, pushed, and set to 9 between the push and its use.
WORDS = {"a-slot": ("LN 5 SP 2", "LP 2", ["LN 9 SP 2", "LN 9 LLP 2 STIND", "LN 9 LLP 2 LN 0 PUTBYTE", "LN 9 SP 2 LN 8 SG 200"]),
         "a-global": ("LN 5 SG 200", "LG 200", ["LN 9 SG 200", "LN 9 LLG 200 STIND", "LN 9 LLG 200 LN 0 PUTBYTE"]),
         "data": ("LN 5 SL L9", "LL L9", ["LN 9 SL L9", "LN 9 LLL L9 STIND", "LN 9 LLL L9 LN 0 PUTBYTE"]),
         "a-word-by-address": ("LN 5 SL L9", "LLL L9 RV", ["LN 9 SL L9", "LN 9 LLL L9 STIND"]),
         "a-byte": ("LN 5 SL L9", "LLL L9 LN 0 GETBYTE", ["LN 9 SL L9", "LN 9 LLL L9 LN 0 PUTBYTE"])}


def statements():
    table = Table("generator/table-statements",
        "Each statement that pushes, with each that stores, each that jumps, and the order of labels.")
    table.rule("OCODE", "The machine")
    for word, (first, push, changes) in WORDS.items():
        for k, change in enumerate(changes + ["STACK %d LG 101 RTAP 4"], 1):
            at = 4  # (two variables: the depth is 4, and the item is slot 4)
            calls = "%d" in change
            change = "STACK 7 LLP 2 LG 101 RTAP 5" if calls else change
            text = program("LN 0 LN 0 STORE %s %s %s %s PLUS STORE STACK 7 LP 4 LG 100 RTAP 5" % (first, push, change, push),
                           "ENTRY L2 0 SAVE 3 LN 9 LP 2 STIND LN 9 SG 200 LN 9 SL L9 RTRN ENDPROC\nDATALAB L8 ITEMN 1 DATALAB L9 ITEMN 5 ITEMN 7", "101 L2")
            table.case("an-item-of-%s-before-change-%d" % (word, k), ocode=text, out="14 ")
    pushes = {"ln": "LN 5", "true": "TRUE NEG LN 4 PLUS", "false": "FALSE LN 5 PLUS", "lp": "LP 2", "lg": "LG 200", "ll": "LL L9",
        "llp": "LLP 2 RV", "llg": "LLG 200 RV",
              "lll": "LLL L9 RV", "lstr": "LSTR 2 5 6 LN 1 GETBYTE", "rv": "LLL L9 RV", "neg": "LN -5 NEG", "not": "LN -6 NOT",
                  "getbyte": "LLL L9 LN 0 GETBYTE",
              "fnap": "STACK {d} LG 101 FNAP {c}", "rstack": "LN 5 RES L7 LAB L7 RSTACK {c}"}
    for name, code in pushes.items():
        for depth in (3, 4, 6, 20, 300):
            lower = "LN 1000 LN 2000 " if depth > 4 else ""
            code_here = code.format(c=depth + (2 if lower else 0), d=depth + (4 if lower else 2))
            body = "LN 5 STORE LN 5 SG 200 STACK %d %s%s %s STORE " % (depth, lower, code_here, "PLUS PLUS" if lower else "")
            table.case("%s-at-depth-%d" % (name, depth), ocode=program(body + "STACK %d LP %d LG 100 RTAP %d" % (depth + 3, depth,
                depth + 1),
                       "ENTRY L2 0 SAVE 2 LN 5 FNRN ENDPROC\nDATALAB L8 ITEMN 1 DATALAB L9 ITEMN 5", "101 L2"),
                           out="%d " % (3005 if lower else 5))
    # items that are in their words at a label, and what takes them there: the register holds something else
    takers = {"sp": ("LN 5", "SP 2", "LP 2"), "sg": ("LN 5", "SG 200", "LG 200"), "sl": ("LN 5", "SL L9", "LL L9"),
        "stind": ("LN 5 LLG 200", "STIND", "LG 200"), "rv": ("LLL L9", "RV LN 4 MINUS", None), "neg": ("LN -5", "NEG", None),
              "not": ("LN -6", "NOT", None), "plus": ("LN 2 LN 3", "PLUS", None), "minus": ("LN 8 LN 3", "MINUS", None),
                  "getbyte": ("LLL L9 LN 1", "GETBYTE LN 5 PLUS", None), "putbyte": ("LN 5 LLL L9 LN 0", "PUTBYTE", "LL L9"),
              "res": ("LN 5", "RES L30 LAB L30 RSTACK 3", None), "switchon": ("LN 7", "SWITCHON 1 L31 7 L30 LAB L31 FINISH LAB L30",
                  "LN 5"), "jt": ("LN 7", "JT L30 FINISH LAB L30", "LN 5"), "jf": ("LN 0", "JF L30 FINISH LAB L30", "LN 5"),
              "rtap": ("STACK 5 LN 5 LG 101", "RTAP 3", "LG 200"), "fnap": ("STACK 5 LN 5 LG 102", "FNAP 3", None),
                  "store": ("LN 5", "STORE", "LP 3"), "lp-of-an-item": ("LN 5", "LP 3", None),
                  "llp-of-an-item": ("LN 5", "STORE LLP 3 RV", None)}
    more = ("ENTRY L2 0 SAVE 3 LP 2 SG 200 RTRN ENDPROC\nENTRY L3 0 SAVE 3 LP 2 TRUE JT L41 LAB L41 FNRN ENDPROC\nDATALAB L9 ITEMN 9")
    for name, (push, take, back) in takers.items():
        for jump in ("TRUE JT L20 FINISH LAB L20", "FALSE JF L20 FINISH LAB L20", "JUMP L20 LAB L21 FINISH LAB L20",
            "LN 3 SWITCHON 1 L21 3 L20 LAB L21 FINISH LAB L20"):
            body = "LN 0 STORE %s %s %s" % (push, jump, take)
            end = " STORE STACK 9 %s LG 100 RTAP 7" % (back or "LP 3") if back is None or name in ("store",
                ) else " STACK 9 %s LG 100 RTAP 7" % back
            table.case("%s-after-a-label-by-%s" % (name, jump.split()[1].lower() if jump[0] != "J" else "jump"),
                ocode=program(body + end, more, "101 L2 102 L3"), out="5 ")
    table.rule("OCODE", "Statements")
    stores = {"sp": ("LN %d SP 2", "LP 2"), "sg": ("LN %d SG 200", "LG 200"), "sl": ("LN %d SL L9", "LL L9"),
        "stind-of-a-slot": ("LN %d LLP 2 STIND", "LP 2"),
              "stind-of-a-global": ("LN %d LLG 200 STIND", "LG 200"), "stind-of-data": ("LN %d LLL L9 STIND", "LL L9")}
    for name, (code, back) in stores.items():
        text = program("LN 0 STORE " + "\n".join("%s %s" % (code % x, show(back, 3)) for x in NUMBERS), "DATALAB L9 ITEMN 1 ITEMN 2")
        table.case("%s-of-each-number" % name, ocode=text, out=lines(NUMBERS))
    table.case("ln-of-each-number", ocode=program("\n".join(show("LN %d" % x) for x in NUMBERS + [33554431, 33554432, -33554432, 2047,
        2048, -2048, -2049])), out=lines(NUMBERS + [33554431, 33554432, -33554432, 2047, 2048, -2048, -2049]))
    table.case("items-of-each-number", ocode=program("\n".join(show("LLL L9 LN %d PLUS RV" % k) for k in range(len(NUMBERS))),
        "DATALAB L9 " + " ".join("ITEMN %d" % x for x in NUMBERS)), out=lines(NUMBERS))
    for g in (0, 12, 99, 499, 500, 501, 998, 999):
        table.case("global-%d" % g, ocode=program("LN 77 SG %d %s %s LN 78 LLG %d STIND %s" % (g, show("LG %d" % g),
            show("LLG %d RV" % g), g, show("LG %d" % g))), out="77 77 78 ")
    for n in (2, 3, 15, 16, 17, 511, 512, 513, 600, 5000):
        table.case("slot-%d" % n, ocode=program("STACK %d LN 77 SP %d %s %s LN 78 LLP %d STIND %s" % (
            n + 1, n, show("LP %d" % n, n + 1), show("LLP %d RV" % n, n + 1), n, show("LP %d" % n, n + 1))), out="77 77 78 ")
    for value_, jt in [(x, x != 0) for x in NUMBERS + SMALL]:
        for jump in ("JT", "JF"):
            out = "T" if jt == (jump == "JT") else "F"
            for kind, code in (("constant", "LN %d" % value_), ("variable", "LN %d SG 200 LG 200" % value_)):
                body = code + " %s L3 STACK 4 LN 70 LG 4 RTAP 2 JUMP L4 LAB L3 STACK 4 LN 84 LG 4 RTAP 2 LAB L4" % jump
                table.case("%s-on-the-%s-%s" % (jump.lower(), kind, spelled(value_)), ocode=program(body), out=out)
    for x in NUMBERS + [65535, -65536]:
        for kind, code in (("constant", "LN %d" % x), ("variable", "LN %d SG 200 LG 200" % x)):
            arms = " ".join("LAB L%d %s JUMP L40" % (20 + k, show("LN %d" % k)) for k in range(9))
            body = "%s SWITCHON 8 L28 %s %s LAB L40" % (code, " ".join("%d L%d" % (c, 20 + k) for k, c in enumerate(NUMBERS)), arms)
            table.case("switchon-of-the-%s-%s" % (kind, spelled(x)), ocode=program(body),
                out="%d " % (NUMBERS.index(x) if x in NUMBERS else 8))
    table.case("res-to-an-earlier-label",
        ocode=program("JUMP L9 LAB L12 RSTACK 2 STORE STACK 5 LP 2 LG 100 RTAP 3 RTRN STACK 2 LAB L9 STACK 6 LN 5 RES L12"), out="5 ")
    table.case("res-from-several-depths",
        ocode=program("STACK 6 LN 1 JT L9 LN 3 RES L12 LAB L9 STACK 3 LN 5 RES L12 STACK 20 LN 7 RES L12 LAB L12 RSTACK 2 STORE STACK 5 LP 2 LG 100 RTAP 3"), out="5 ")
    table.case("switchon-without-cases", ocode=program("LN 1 SWITCHON 0 L20 %s LAB L20 %s" % (show("LN 1"), show("LN 2"))), out="2 ")
    table.case("switchon-of-a-result",
        ocode=program("LN 7 RES L30 LAB L30 RSTACK 2 SWITCHON 1 L20 7 L21 LAB L20 %s LAB L21 %s" % (show("LN 1"), show("LN 2"))), out="2 ")
    table.rule("OCODE", "Accepted sections")
    for name, first, last in (("forwards", 2, 3), ("backwards", 3, 2), ("of-the-greatest-number", 300000, 299999)):
        for jump in ("JUMP L{0}", "TRUE JT L{0}", "FALSE JF L{0}", "LN 4 SWITCHON 1 L{1} 4 L{0}"):
            body = "JUMP L%d LAB L50 %s LAB L%d %s JUMP L51 LAB L%d %s LAB L51" % (
                60, show("LN 1"), first, show("LN 2"), last, show("LN 3"))
            body += " JUMP L61 LAB L60 %s LAB L61" % jump.format(first, last)
            table.case("%s-%s" % (named(jump.partition(" L")[0]), name), ocode=program(body), out="2 ")
    table.case("a-label-of-an-entry-after-its-use", ocode=program("STACK 4 LL L9 RTAP 2",
        "DATALAB L9 ITEML L70 ENTRY L70 0 SAVE 2 %s RTRN ENDPROC" % show("LN 6")), out="6 ")
    table.case("labels-of-two-sections", ocode=program("STACK 4 LG 102 RTAP 2 " + show("LL L9"), "DATALAB L9 ITEMN 4") +
               "ENTRY L1 0 SAVE 2 %s RTRN ENDPROC DATALAB L9 ITEMN 5 GLOBAL 1 102 L1\n" % show("LL L9"), out="5 4 ")
    table.case("a-global-set-twice-in-a-section", ocode=program("STACK 4 LG 103 RTAP 2",
        "ENTRY L5 0 SAVE 2 %s RTRN ENDPROC ENTRY L6 0 SAVE 2 %s RTRN ENDPROC" % (show("LN 1"), show("LN 2")), "103 L5 103 L6"), out="2 ")
    for order in ("NN", "NL", "LN", "LL", "NLN", "LNL"):
        data = "DATALAB L9 " + " ".join("ITEMN %d" % (70 + k) if item == "N" else "ITEML L8" for k, item in enumerate(order))
        body = " ".join(show("LLL L9 LN %d PLUS RV%s" % (k, " RV" if item == "L" else "")) for k, item in enumerate(order))
        table.case("items-in-the-order-%s" % order.lower(), ocode=program(body, "DATALAB L8 ITEMN 60 " + data),
            out=lines(60 if item == "L" else 70 + k for k, item in enumerate(order)))
    table.case("data-before-and-between-procedures",
        ocode="DATALAB L9 ITEMN 3 ENTRY L2 0 SAVE 2 LL L9 FNRN ENDPROC DATALAB L8 ITEMN 4 ITEML L2\n"
        + program(show("STACK 6 LLL L8 LN 1 PLUS RV FNAP 4 LL L8 PLUS")), out="7 ")
    for depth in (2, 3, 10, 100):
        body = "STACK %d STACK %d LN 9 LG 101 FNAP %d STORE STACK %d LP %d LG 100 RTAP %d" % (depth, depth + 2, depth, depth + 3, depth,
            depth + 1)
        table.case("fnap-%d-and-fnrn" % depth, ocode=program(body, "ENTRY L2 0 SAVE 3 LN 1000 LP 2 PLUS FNRN ENDPROC", "101 L2"),
            out="1009 ")
    body = "ENTRY L2 0 SAVE 4 LP 2 JF L20 %s STACK 6 LP 2 LN 1 MINUS LP 3 LN 2 MULT LG 101 RTAP 4 %s LAB L20 RTRN ENDPROC" % (show("LP 3",
        4), show("LP 2", 4))
    table.case("frames-below-a-recursive-call", ocode=program("STACK 4 LN 3 LN 5 LG 101 RTAP 2", body, "101 L2"), out="5 10 20 1 2 3 ")
    table.close()


def frames():
    table = Table("generator/table-frames",
        "The largest frame of a segment: that of the largest depth after any statement of the section, or 16.")
    table.rule("OCODE", "Accepted sections")

    def row(name, text, frame):
        table.case(name, args="--sizes", ocode=text, out="frame %d\n" % frame)

    def section(body, save=2, end="RTRN"):
        return "ENTRY L1 0 SAVE %d %s %s ENDPROC GLOBAL 1 1 L1" % (save, body, end)

    row("of-no-item", section(""), 16)
    for save in (2, 15, 16, 17, 100, 65535):
        row("of-save-%d" % save, section("", save), max(16, save))
    for n in (15, 16, 17, 4000, 65535):
        row("of-stack-%d" % n, section("STACK %d STACK 2" % n), max(16, n))
    for k in range(12, 18):
        row("of-%d-items" % k, section("LN 1 " * k), max(16, 2 + k))
    pushes = {"ln": "LN 1", "true": "TRUE", "false": "FALSE", "query": "QUERY", "lp": "LP 2", "lg": "LG 1", "ll": "LL L9", "llp": "LLP 2",
        "llg": "LLG 2", "lll": "LLL L9", "lstr": "LSTR 1 65"}
    for name, code in pushes.items():
        row("of-%s" % name, "DATALAB L9 ITEMN 1 " + section(code, 20), 21)
    for name, code, most in (("neg", "LN 1 NEG", 21), ("rv", "LG 200 RV", 21), ("plus", "LN 1 LN 1 PLUS", 22),
        ("getbyte", "LG 1 LN 1 GETBYTE", 22), ("stind", "LN 1 LG 1 STIND", 22),
                             ("putbyte", "LN 1 LG 1 LN 1 PUTBYTE", 23), ("sp", "LN 1 SP 2", 21), ("jt", "TRUE JT L2 LAB L2", 21),
                                 ("switchon", "LN 1 SWITCHON 0 L2 LAB L2", 21),
                             ("rtap", "STACK 22 LG 1 RTAP 20", 23), ("rtap-with-arguments", "STACK 22 LN 1 LN 1 LG 1 RTAP 20", 25),
                                 ("fnap", "STACK 22 LG 1 FNAP 20", 23),
                             ("res", "LN 1 RES L2 LAB L2 RSTACK 20", 21), ("rstack-after-a-lab", "LAB L2 RSTACK 20", 21),
                                 ("rstack-below", "LN 1 LN 1 LN 1 LAB L2 RSTACK 20", 23),
                             ("stack-below", "STACK 30 STACK 3", 30), ("finish", "FINISH", 20),
                                 ("jump", "JUMP L2 LN 1 LN 1 STACK 20 LAB L2", 22)):
        row("of-%s" % name, section(code, 20), most)
    row("of-fnrn", section("LN 1", 20, "FNRN"), 21)
    for name, code in dict(pushes, **{"rstack": "LAB L2 RSTACK 20"}).items():
        row("of-%s-for-a-moment" % name, "DATALAB L9 ITEMN 1 " + section(code + " STACK 2", 20), 21)
    for n in (17, 40):
        row("of-save-%d-for-a-moment" % n, section("STACK 2", n), n)
        row("of-stack-%d-for-a-moment" % n, section("STACK %d STACK 2" % n), n)
    row("in-the-first-procedure", "ENTRY L2 0 SAVE 40 RTRN ENDPROC " + section("", 20), 40)
    row("in-the-last-procedure", section("", 20).replace("GLOBAL", "ENTRY L2 0 SAVE 40 RTRN ENDPROC GLOBAL"), 40)
    row("in-the-middle-procedure", "ENTRY L3 0 SAVE 30 RTRN ENDPROC ENTRY L2 0 SAVE 40 RTRN ENDPROC " + section("", 20), 40)
    row("in-the-first-section", "ENTRY L1 0 SAVE 50 RTRN ENDPROC GLOBAL 0 " + section("", 20), 50)
    row("in-the-last-section", section("", 20) + " ENTRY L1 0 SAVE 50 RTRN ENDPROC GLOBAL 0", 50)
    row("of-a-section-without-procedures", section("", 20) + " GLOBAL 0", 20)
    for item in ("DATALAB L{0}", "DATALAB L{0} ITEML L{0}", "DATALAB L{0} ITEMN 1"):
        row("of-30-times-%s" % named(item.replace("{0}", "")), section("", 3).replace("GLOBAL",
            " ".join(item.format(k) for k in range(20, 50)) + " GLOBAL"), 16)
    row("of-20-procedures", section("", 3).replace("GLOBAL", " ".join("ENTRY L%d 0 SAVE 4 LN 1 FNRN ENDPROC" % k for k in range(20,
        40)) + " GLOBAL"), 16)
    row("of-data-alone", section("", 3) + " DATALAB L1 %sGLOBAL 0" % ("ITEMN 1 " * 30), 16)
    table.close()


# The arguments by their kinds, each after the statements and words before it, and with the words that its statement still needs: in a
# procedure, and outside.
NUMBER, SLOT, GLOBAL, LABEL, BYTE, DEPTH, FRAME, COUNT, LENGTH = "number slot global label byte depth frame count length".split()
IN = [("LN", NUMBER), ("LP", SLOT), ("LLP", SLOT), ("LN 1;SP", SLOT), ("LG", GLOBAL), ("LLG", GLOBAL), ("LN 1;SG", GLOBAL), ("LL", LABEL),
    ("LLL", LABEL), ("LN 1;SL", LABEL),
      ("JUMP", LABEL), ("LN 1;JT", LABEL), ("LN 1;JF", LABEL), ("LAB", LABEL), ("LN 1;RES", LABEL), ("STACK", DEPTH),
          ("STACK 4;LG 1;FNAP", FRAME), ("STACK 4;LG 1;RTAP", FRAME),
      ("LAB L7;RSTACK", FRAME), ("LSTR", LENGTH, "65 65 65"), ("LSTR 2", BYTE, "65"), ("LSTR 2 65", BYTE),
          ("LN 1;SWITCHON", COUNT, "L2 7 L3 8 L4"), ("LN 1;SWITCHON 1", LABEL, "7 L3"),
      ("LN 1;SWITCHON 1 L2", NUMBER, "L3"), ("LN 1;SWITCHON 1 L2 7", LABEL), ("LN 1;SWITCHON 2 L2 7 L3", NUMBER, "L4")]
OUT = [("ENTRY", LABEL, "0"), ("ENTRY L1", LENGTH, "65 65"), ("ENTRY L1 2", BYTE, "65"), ("ENTRY L1 2 65", BYTE),
    ("ENTRY L1 0;SAVE", DEPTH), ("DATALAB", LABEL), ("DATALAB L1;ITEMN", NUMBER),
       ("DATALAB L1;ITEML", LABEL), ("GLOBAL", COUNT, "1 L1 2 L1"), ("GLOBAL 1", GLOBAL, "L1"), ("GLOBAL 1 1", LABEL)]
MISSPELT = ["x", "-0", "00", "01", "+1", "1a", "--1", "-", "1.", "-01", "2147483648", "-2147483649", "4294967297", "18446744073709551617",
    "00000000000000000000000001", "LN", "L"]
BAD = {NUMBER: ["L1"], SLOT: ["L1", "-2", "-1", "0", "1"], GLOBAL: ["L1", "-1", "1000", "65536"], BYTE: ["L1", "-1", "256", "65601"],
    DEPTH: ["L1", "-1", "0", "1", "65536", "131074"],
       FRAME: ["L1", "-1", "0", "1"], COUNT: ["L1", "-1"], LENGTH: ["L1", "-1", "256", "65537"]}
BAD = {kind: words + MISSPELT for kind, words in BAD.items()}
BAD[LABEL] = ["1", "x", "L", "LN", "L0", "L-1", "L01", "L+1", "L300001", "L1000000", "LL1", "l1", "L1x", "L1L1", "L4294967297",
    "L00000000000000000001", "LX1", "-0"]
OPERATOR_NAMES = [name for name, _ in OPERATORS] + ["GETBYTE"]
# The statements that may stand in a procedure, whole; and how many items each takes.
INSIDE = {"LN": "LN 1", "LP": "LP 2", "LLP": "LLP 2", "SP": "SP 2", "LG": "LG 1", "LLG": "LLG 1", "SG": "SG 1", "LL": "LL L20",
    "LLL": "LLL L20", "SL": "SL L20", "LSTR": "LSTR 1 65",
          "JUMP": "JUMP L2", "JT": "JT L2", "JF": "JF L2", "LAB": "LAB L3", "RES": "RES L4", "RSTACK": "RSTACK 2", "STACK": "STACK 9",
              "FNAP": "FNAP 6", "RTAP": "RTAP 6", "SWITCHON": "SWITCHON 0 L2"}
INSIDE.update((name, name) for name in OPERATOR_NAMES + "TRUE FALSE QUERY RV NEG NOT PUTBYTE STIND STORE FNRN RTRN ENDPROC FINISH".split())
OUTSIDE = {"ENTRY": "ENTRY L5 0", "SAVE": "SAVE 2", "DATALAB": "DATALAB L6", "ITEMN": "ITEMN 1", "ITEML": "ITEML L1", "GLOBAL": "GLOBAL 0"}
TAKES = {"PUTBYTE": 3, "STIND": 2, "FNAP": 3, "RTAP": 3}
TAKES.update((name, 1) for name in "RV NEG NOT FNRN SP SG SL JT JF RES SWITCHON".split())
TAKES.update((name, 2) for name in OPERATOR_NAMES)
# The jumps to L2, with the items that they take before them.
JUMPS = {"jump": "JUMP L2", "jt": "LN 1;JT L2", "jf": "LN 1;JF L2", "switchon-by-default": "LN 1;SWITCHON 0 L2",
    "switchon-by-a-case": "LN 1;SWITCHON 2 L8 7 L2 9 L8"}
P, R = "ENTRY L1 0;SAVE 2;", "RTRN;ENDPROC"


def row(table, name, statements, fault, at=0, after=""):
    """A refused section: its statements with `;` between, the fault, and its statement (counted from the last one, or from 1)."""
    listed = statements.split(";")
    at = at if at > 0 else len(listed) + at
    table.case(name, ocode=" ".join(listed) + after, line="section 1, statement %d: %s" % (at, FAULTS[fault - 1]), status=102)


def words_at_fault(table):
    table.rule("OCODE", "The text")
    for place, statements in ((P, IN), ("", OUT)):
        for statement, kind, *rest in statements:
            for word in BAD[kind]:
                row(table, "%s-with-%s" % (named(statement), named(word)), place + statement + " " + word, 2,
                    after="".join(" " + one for one in rest) + " X")
            row(table, "%s-cut" % named(statement), place + statement, 3)
    for statement, rest in (("LN 1;SWITCHON", "L2 7 L3"), ("GLOBAL", "1 L1")):
        row(table, "%s-of-the-greatest-count-cut" % named(statement), (P if "SW" in statement else "") + "%s %d %s" % (statement,
            GREATEST, rest), 3)
    row(table, "a-case-twice", P + "LN 1;SWITCHON 3 L2 7 L3 8 L4 7 L5", 2)
    row(table, "a-case-twice-at-once", P + "LN 1;SWITCHON 2 L2 -1 L3 -1 L4", 2)
    for word in ["x", "ln", "Ln", "LNX", "L", "LABL", "LA", "STOREX", "STOR", "ENDPROCENDPROC", "RTR", "RTRNS", "7", "-1", "L1",
        "TRUETRUE", "GETBYTES", "SWITCHONSWITCHONSWITCHON", "LN1", "STACK4", "Z", "=", "\\"]:
        row(table, "the-word-%s" % named(word), P + "LN 1;" + word, 1, after=" 7 RTRN ENDPROC")
        row(table, "the-first-word-%s" % named(word), word, 1, after=" 7 RTRN ENDPROC")
    for byte in range(256):
        one = bytes([byte])
        is_blank = one in b" \t\n\f\r"
        fault = {} if is_blank else {"line": "section 1, statement 2: bad number", "status": 102}
        table.case("byte-%02x-between-words" % byte, ocode=b"ENTRY L1 0 SAVE 2%sLN 7%sSG 200 RTRN ENDPROC GLOBAL 1 1 L1" % (one, one),
            **fault)
        if not is_blank:
            table.case("byte-%02x-as-a-word" % byte, ocode=b"ENTRY L1 0 SAVE 2 %s LN 7 SG 200 RTRN ENDPROC GLOBAL 1 1 L1" % one,
                line="section 1, statement 3: bad word", status=102)
        if not is_blank and one not in b"0123456789":
            table.case("byte-%02x-in-a-number" % byte, ocode=b"ENTRY L1 0 SAVE 2 LN 7%s7 SG 200 RTRN ENDPROC GLOBAL 1 1 L1" % one,
                line="section 1, statement 3: bad number", status=102)


def order(table):
    table.rule("OCODE", "Accepted sections, order")
    outside = (("first", ""), ("after-a-procedure", P + R + ";"), ("after-data", "DATALAB L9;ITEMN 1;"), ("after-datalab", "DATALAB L9;"))
    for name, statement in INSIDE.items():
        for where, before in outside + (("after-entry", "ENTRY L1 0;"),):
            row(table, "%s-%s" % (name.lower(), where), before + statement, 1)
        if name not in ("RTRN", "FNRN"):
            before = "LAB L9;" if name == "RSTACK" else ""
            if name != "ENDPROC":
                row(table, "endproc-after-%s" % name.lower(), P + "STACK 9;LN 1;LN 1;LN 1;%s%s;ENDPROC" % (before, statement), 1)
        if name not in ("LAB", "ENDPROC"):
            row(table, "rstack-after-%s" % name.lower(),
                P + "STACK 9;LN 1;LN 1;LN 1;%s%s;RSTACK 2" % ("LAB L9;" if name == "RSTACK" else "", statement), 1)
    row(table, "endproc-after-save", P + "ENDPROC", 1)
    row(table, "rstack-after-save", P + "RSTACK 2", 1)
    for name, statement in OUTSIDE.items():
        for where, before in (("in-a-procedure", P), ("after-rtrn", P + "RTRN;")):
            row(table, "%s-%s" % (name.lower(), where), before + statement, 1)
        if name != "SAVE":
            row(table, "%s-after-entry" % name.lower(), "ENTRY L1 0;" + statement, 1)
    for where, before in outside:
        row(table, "save-%s" % where, before + "SAVE 2", 1)
    for where, before in outside[:2]:
        for name in ("ITEMN", "ITEML"):
            row(table, "%s-%s" % (name.lower(), where), before + OUTSIDE[name], 1)


def items(table):
    table.rule("OCODE", "Accepted sections, slots and items")
    for name, takes in TAKES.items():
        for have in range(takes):
            row(table, "%s-with-%d-items" % (name.lower(), have), P + "LN 1;" * have + INSIDE[name], 7)
    for depth in (2, 3, 9):
        before = "ENTRY L1 0;SAVE %d;" % depth
        for n in (depth, depth + 1, 65535, 70000, GREATEST):
            for name in ("LP", "LLP", "LN 1;SP"):
                row(table, "%s-%s-at-depth-%d" % (named(name), spelled(n), depth), before + "%s %d" % (name, n), 7)
        for n in (depth - 2, depth - 1, depth, depth + 1, 65535, GREATEST):
            for name in ("FNAP", "RTAP"):
                if n >= 2:
                    row(table, "%s-%s-at-depth-%d" % (name.lower(), spelled(n), depth), before + "%s %d" % (name, n), 7)


def labels(table):
    table.rule("OCODE", "Accepted sections, labels")
    setters = {"lab": ("ENTRY L9 0;SAVE 2;LAB L2;" + R, "ENTRY L8 0;SAVE 2;LAB L2"), "entry": ("ENTRY L2 0;SAVE 2;" + R, "ENTRY L2 0"),
        "datalab": ("DATALAB L2", "DATALAB L2")}
    for one in setters:
        for two in setters:
            row(table, "%s-then-%s-of-one-label" % (one, two), setters[one][0] + ";" + setters[two][1], 5)
    row(table, "lab-twice-in-a-procedure", P + "LAB L2;LN 1;LAB L3;LAB L2", 5)
    row(table, "lab-of-its-own-entry", P + "LAB L1", 5)
    for name, jump in dict(JUMPS, res="LN 1;RES L2").items():
        body = jump + ";LAB L8;" if "L8" in jump else jump + ";"
        row(table, "%s-to-no-label" % name, P + body + R, 4)
        # (only RES and its LAB name a label of RES)
        fault, at = (6, -2) if name == "res" else (4, 0)
        row(table, "%s-to-an-entry" % name, "ENTRY L2 0;SAVE 2;%s;" % R + P + body + R, fault, at)
        row(table, "%s-to-data" % name, "DATALAB L2;" + P + body + R, fault, at)
        if name != "res":
            row(table, "%s-to-a-label-of-an-earlier-procedure" % name, "ENTRY L7 0;SAVE 2;LAB L2;%s;" % R + P + body + R, 4)
            row(table, "%s-to-a-label-of-a-later-procedure" % name, P + body + R, 4,
                after=" ENTRY L7 0 SAVE 2 LAB L2 RTRN ENDPROC GLOBAL 0")
    uses = {"ll": "LL L2", "lll": "LLL L2", "sl": "LN 1;SL L2"}
    users = {name: P + use + ";" + R for name, use in uses.items()}
    for name, use in dict(users, iteml="DATALAB L1;ITEML L2").items():
        others = {"no-label": ("", ""), "a-later-lab": ("", ";ENTRY L7 0;SAVE 2;LAB L2;" + R),
            "an-earlier-lab": ("ENTRY L7 0;SAVE 2;LAB L2;%s;" % R, "")}
        if name != "iteml":
            others.update({"a-later-entry": ("", ";ENTRY L2 0;SAVE 2;" + R), "an-earlier-entry": ("ENTRY L2 0;SAVE 2;%s;" % R, "")})
        for other, (before, after) in others.items():
            row(table, "%s-of-%s" % (name, other), before + use + after + ";GLOBAL 0", 4)
    for name, before in (("no-label", ""), ("data", "DATALAB L2;"), ("a-lab", P + "LAB L2;" + R + ";")):
        row(table, "global-of-%s" % name, before + "GLOBAL 1 100 L2", 4)
        row(table, "the-second-global-of-%s" % name, "ENTRY L7 0;SAVE 2;%s;" % R + before + "GLOBAL 2 100 L7 101 L2", 4)


def depths(table):
    table.rule("OCODE", "Accepted sections, depths")
    for name, jump in JUMPS.items():
        for change, how in (("LN 1", "deeper-by-an-item"), ("STACK 4", "deeper-by-two")):
            row(table, "%s-before-its-lab-that-is-%s" % (name, how), P + "%s;%s;LAB L2" % (jump, change), 6)
            row(table, "%s-after-its-lab-and-%s" % (name, how), P + "LAB L2;%s;%s" % (change, jump), 6)
        row(table, "%s-before-its-lab-that-is-less-deep" % name, "ENTRY L1 0;SAVE 5;%s;STACK 4;LAB L2" % jump, 6)
        row(table, "%s-after-its-lab-and-less-deep" % name, "ENTRY L1 0;SAVE 5;LAB L2;STACK 4;%s" % jump, 6)
        row(table, "%s-to-another-depth-of-an-earlier-procedure" % name, "ENTRY L7 0;SAVE 4;LAB L2;%s;" % R + P + jump, 6)
        row(table, "res-and-then-%s-of-one-label" % name, P + "LN 1;RES L2;" + jump, 6)
        row(table, "%s-and-then-res-of-one-label" % name, P + jump + ";LN 1;RES L2", 6)
    for name, use in (("ll", "LL L2"), ("lll", "LLL L2"), ("sl", "LN 1;SL L2")):
        row(table, "res-and-then-%s-of-one-label" % name, P + "LN 1;RES L2;" + use, 6)
        row(table, "%s-and-then-res-of-one-label" % name, P + use + ";LN 1;RES L2", 6)
    good = P + "LN 1;RES L2;LAB L2;RSTACK 2;FNRN;ENDPROC;"
    row(table, "res-and-then-iteml-of-one-label", good + "DATALAB L5;ITEML L2", 6)
    for name, statement in INSIDE.items():
        if name not in ("RSTACK", "ENDPROC"):
            row(table, "%s-after-the-lab-of-a-res" % name.lower(), P + "STACK 9;LN 1;RES L7;LN 1;LN 1;LN 1;LAB L7;%s" % statement, 6)
    for n, depth in ((3, 2), (4, 2), (6, 5), (65535, 2), (70000, 3), (GREATEST, 3)):
        row(table, "rstack-%d-at-depth-%d" % (n, depth), "ENTRY L1 0;SAVE %d;LAB L2;RSTACK %d" % (depth, n), 6)
    row(table, "rstack-above-the-depth-after-a-res", P + "LN 1;RES L2;STACK 5;LAB L2;RSTACK 3", 6)
    row(table, "rstack-above-the-depth-after-the-second-res", "ENTRY L1 0;SAVE 4;LN 1;RES L2;STACK 3;LN 1;RES L2;STACK 5;LAB L2;RSTACK 4",
        6)
    row(table, "a-later-res-below-the-rstack", "ENTRY L1 0;SAVE 4;LN 1;RES L2;LAB L2;RSTACK 4;STACK 3;LN 1;RES L2", 6)
    table.rule("OCODE", "Accepted sections, limits")
    for statement in ("LN 1", "TRUE", "FALSE", "QUERY", "LP 2", "LG 1", "LL L2", "LLP 2", "LLG 1", "LLL L2", "LSTR 1 65",
        "LAB L2;RSTACK 65535"):
        row(table, "%s-at-depth-65535" % named(statement), "ENTRY L1 0;SAVE 65535;" + statement, 8)
    row(table, "a-push-after-stack-65535", P + "STACK 65535;LN 1", 8)


def places(table):
    table.rule("OCODE", "Faults")
    start, second = "%s\nLN 1 SG 200 %s\nGLOBAL 1 1 L1\n" % (BEGIN,
        END), "ENTRY L2 0 SAVE 2 LAB L3\nLN 1 SG 200 LN 2 LAB L4 SG 201 %s\n%s\nRTRN ENDPROC GLOBAL 0\n"
    for name, statement, fault in (("bad-word", "rtrn", 1), ("bad-number", "LN 01", 2), ("label-set-twice", "LAB L3", 5),
        ("depths-disagree", "JUMP L4", 6),
                                   ("slot-above-the-depth", "LP 9", 7), ("too-few-items", "PLUS", 7)):
        for after in ("y", "LN -0", "PLUS PLUS", "RTRN", "LAB L3"):
            text = start + second % (statement, after)
            table.case("%s-in-the-middle-before-%s" % (name, named(after)), ocode=text,
                line="section 2, statement 9: " + FAULTS[fault - 1], status=102)
    for name, rest, at, fault in (("label-not-set", "JUMP L7 RTRN ENDPROC\nGLOBAL x\n", 11, 4),
        ("label-of-data-not-set", "LL L7 STACK 2 RTRN ENDPROC\nGLOBAL 1 1 L2\ny\n", 13, 4),
                                  ("truncated", "LN\n", 9, 3), ("truncated-between-statements", "LN 1\n", 10, 3),
                                      ("truncated-in-a-list", "LSTR 3 65 66\n", 9, 3)):
        text = start + "ENTRY L2 0 SAVE 2 LAB L3\nLN 1 SG 200 LN 2 LAB L4 SG 201\n" + rest
        table.case("%s-in-the-middle" % name, ocode=text, line="section 2, statement %d: %s" % (at, FAULTS[fault - 1]), status=102)
    after_res = P + "LN 1;RES L3;LAB L3;"
    for name, statements, fault in (("1-before-2", P + "QQ L0", 1), ("2-before-7", P + "LP 1", 2),
        ("2-before-6", after_res + "RSTACK 1", 2), ("1-before-6", after_res + "SAVE 3", 1),
                                    ("5-before-6", after_res + "LAB L3", 5), ("6-before-7", after_res + "PLUS", 6),
                                        ("6-before-7-at-a-jump", P + "STACK 3;LAB L3;STACK 2;JT L3", 6)):
        row(table, "fault-%s" % name, statements, fault)


def faults():
    table = Table("generator/table-faults",
        "Each rule of an accepted section with each statement that it is about: the statement and the fault.")
    words_at_fault(table)
    order(table)
    items(table)
    labels(table)
    depths(table)
    places(table)
    table.close()


def library():
    table = Table("generator/table-library", "Each routine of the library with each number and each byte, called from OCODE.")
    table.rule("OCODE", "A run")
    numbers = NUMBERS + SMALL + [9, 10, -9, -10, 99, 100, 999999999, 1000000000, -1000000000, GREATEST - 1, LEAST + 1]
    line = "STACK 4 LG 5 RTAP 2"
    table.case("writen-of-each-number", ocode=program("\n".join("STACK 4 LN %d LG 7 RTAP 2 %s" % (x, line) for x in numbers)),
        out="".join("%d\n" % x for x in numbers))
    for width in NUMBERS + SMALL + [3, 9, 10, 11, 12, 254, 257, 65537]:
        some = (0, -5, 12345, GREATEST, LEAST)
        out = "".join(str(x).rjust(min(max(width, 0), 255)) + "\n" for x in some)
        table.case("writed-by-%s-places" % spelled(width), ocode=program("\n".join("STACK 4 LN %d LN %d LG 8 RTAP 2 %s" % (x, width,
            line) for x in some)), out=out)
    table.case("wrch-of-each-number", ocode=program(" ".join("STACK 4 LN %d LG 4 RTAP 2" % x for x in NUMBERS + [10, 65, 127, 128, 321,
        -191, 65601])),
               out=bytes(x & 255 for x in NUMBERS + [10, 65, 127, 128, 321, -191, 65601]))
    for x in NUMBERS + [2, 50, 98, 99, 100, 101, 200, 254, 65537]:
        table.case("stop-with-%s" % spelled(x),
            ocode=program("STACK 4 LN 65 LG 4 RTAP 2 STACK 4 LN %d LG 2 RTAP 2 STACK 4 LN 66 LG 4 RTAP 2" % x), out="A",
            status=x if 0 <= x < 100 else 100)
    table.case("stop-in-a-procedure", ocode=program("STACK 4 LG 101 RTAP 2 STACK 4 LN 66 LG 4 RTAP 2",
        "ENTRY L2 0 SAVE 2 STACK 4 LN 7 LG 2 RTAP 2 RTRN ENDPROC", "101 L2"), status=7)
    table.case("finish-in-a-procedure", ocode=program("STACK 4 LG 101 RTAP 2 STACK 4 LN 66 LG 4 RTAP 2",
        "ENTRY L2 0 SAVE 2 FINISH RTRN ENDPROC", "101 L2"))
    everything = bytes(range(256))
    loop = "STACK 4 LG 3 FNAP 2 STORE JUMP L20 LAB L21 %s STACK 5 LG 3 FNAP 3 SP 2 LAB L20 LP 2 LN -1 NE JT L21"
    table.case("rdch-of-each-byte", ocode=program(loop % show("LP 2", 3) + " STACK 5 STACK 7 LG 3 FNAP 5 LG 100 RTAP 3"),
        out=lines(list(range(256)) + [-1]), **{"in": everything})
    table.case("rdch-and-wrch-of-each-byte", ocode=program(loop % "STACK 5 LP 2 LG 4 RTAP 3"), out=everything[::-1],
        **{"in": everything[::-1]})
    for count in (0, 1, 2, 3, 4, 5, 7, 8, 255):
        body = " ".join("%d" % (65 + k % 26) for k in range(count))
        for g, name in ((6, "writes"), (11, "writef")):
            table.case("%s-of-%d-bytes" % (name, count), ocode=program("STACK 4 LSTR %d %s LG %d RTAP 2 %s" % (count, body, g, line)),
                out="".join(chr(65 + k % 26) for k in range(count)) + "\n")
    halves = [range(0, 128), range(128, 256)]
    table.case("writes-of-each-byte", ocode=program("\n".join("STACK 4 LSTR 128 %s LG 6 RTAP 2" % " ".join(map(str,
        half)) for half in halves)), out=everything)
    data = "DATALAB L8 ITEMN -1 DATALAB L9 ITEMN 50462976 ITEMN 117835012"
    words = [255] * 4 + list(range(8))
    for how, code in (("getbyte-of-the-library", "STACK 6 LLL L8 LN 1 PLUS LN %d LG 9 FNAP 4"),
        ("getbyte", "LLL L8 LN 1 PLUS LN %d GETBYTE"), ("getbyte-of-a-variable", "LG 200 LN %d GETBYTE")):
        body = "LLL L8 LN 1 PLUS SG 200 " + "\n".join(show(code % i) for i in range(0, 8))
        table.case("%s-at-each-place" % how, ocode=program(body, "DATALAB L8 ITEMN -1 ITEMN 50462976 ITEMN 117835012"),
            out=lines(words[4:]))
        body = "LLL L8 LN 1 PLUS SG 200 " + "\n".join(show(code % i) for i in range(-4, 0))
        table.case("%s-at-places-below-0" % how, ocode=program(body, "DATALAB L8 ITEMN 67305985 ITEMN 50462976"), out=lines([1, 2, 3, 4]))
    for i in (-4, -1, 0, 1, 2, 3, 4, 7):
        for x in (0, 255, 256, -1, 4660):
            memory = bytearray(0x01020304.to_bytes(4, "little") + 0x12345678.to_bytes(4, "little") + 0x77654321.to_bytes(4, "little"))
            memory[4 + i] = x & 255
            out = lines(int.from_bytes(memory[k:k + 4], "little", signed=True) for k in (0, 4, 8))
            for how, code in (("putbyte", "LN {x} LLL L8 LN 1 PLUS LN {i} PUTBYTE"),
                ("putbyte-of-the-library", "STACK 4 LLL L8 LN 1 PLUS LN {i} LN {x} LG 10 RTAP 2"),
                              ("putbyte-of-a-variable",
                                  "LN {x} SG 201 LN {i} SG 202 LLL L8 LN 1 PLUS SG 203 LG 201 LG 203 LG 202 PUTBYTE")):
                if x in (255, 4660) or i in (-1, 2):
                    body = code.format(i=i, x=x) + " " + " ".join(show("LLL L8 LN %d PLUS RV" % k) for k in range(3))
                    table.case("%s-of-%s-at-%s" % (how, spelled(x), spelled(i)),
                        ocode=program(body, "DATALAB L8 ITEMN 16909060 ITEMN 305419896 ITEMN 2003125025"), out=out)
    directives(table)
    table.close()


def directives(table):
    """WRITEF with a `%` before each byte: the output is that of the machine in intcode.py on the same string and arguments."""
    from machine import formatted

    def row(name, text, arguments):
        code = formatted(text, ["LL3" if a == "S" else "LL4" if a == "E" else "L%d" % a for a in arguments])
        out = outcome(code.encode())[0]
        push = {"S": "LSTR 2 37 78", "E": "LSTR 0"}
        table.case("writef-of-%s" % name, ocode=program("STACK 4 LSTR %d %s %s LG 11 RTAP 2" % (
            len(text), " ".join(map(str, text)), " ".join(push.get(a, "LN %s" % a) for a in arguments))), out=out)

    for first in range(0, 256, 64):
        part = range(first, first + 64)
        row("percent-and-bytes-from-%d" % first, b"".join(b"%" + bytes([b]) + b"." for b in part),
            ["S" if t == "S" else k + 70 for k, t in enumerate(chr(b).upper() for b in part if b < 128 and chr(b).upper() in "SNC")])
        row("percent-i-and-bytes-from-%d" % first, b"".join(b"%i" + bytes([b]) for b in part),
            [k * 11 - 40 for k in range(sum(48 <= b < 58 for b in part))])
    for name, text in (("a-percent-alone", b"%"), ("a-percent-at-the-end", b"ab%"), ("percent-i-at-the-end", b"%I"),
        ("two-percents", b"%%"), ("three-percents", b"%%%"), ("a-percent-before-a-directive", b"%%N%N"),
                       ("numbers", b"%N %n %I0%I1%I2%I3%I4%I5%I6%I7%I8%I9")):
        row(name, text, [0, -1, GREATEST, LEAST, 5, 55, -5, 12, 7, 1, 2, 3])
    for count, text in ((1, "%N"), (1, "%S"), (1, "%%"), (2, "%I4"), (2, "A%N")):
        code = "LSTR %d %s STORE LN %d LP 2 LN 0 PUTBYTE STACK 5 LP 2 LN 5 LG 11 RTAP 3" % (len(text),
            " ".join(str(ord(c)) for c in text), count)
        table.case("writef-of-the-first-%d-bytes-of-%s" % (count, named(text.replace("%", "P"))), ocode=program(code), out=text[:count])
    row("strings", b"%S%s%S%S%%S", ["S", "E", "S", "E"])
    row("bytes", b"%C%c%C%c", [65, 321, -191, 256])


if __name__ == "__main__":
    operators()
    statements()
    frames()
    faults()
    library()
