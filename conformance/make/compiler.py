#!/usr/bin/env python3
"""compiler.py [--check]: writes the tables of compiler/, or with --check compares them. The expected OCODE and the expected fault of a source
are those of porting/compile.py, which is written from docs/LANGUAGE.md and docs/SCHEME.md; the values of constants are those of intcode.py."""
import importlib.util
import sys
from pathlib import Path

from cases import Table, named
from generator import COUNTS, value
from intcode import GREATEST, LEAST
from machine import NUMBERS, SMALL, spelled

SPEC = importlib.util.spec_from_file_location("bcpl_compile", Path(__file__).resolve().parent.parent.parent / "porting" / "compile.py")
COMPILER = importlib.util.module_from_spec(SPEC)
SPEC.loader.exec_module(COMPILER)
sys.setrecursionlimit(20000)
OPERATORS = {"*": "MULT", "/": "DIV", "REM": "REM", "+": "PLUS", "-": "MINUS", "=": "EQ", "~=": "NE", "<": "LS", ">": "GR", "<=": "LE",
    ">=": "GE", "<<": "LSHIFT", ">>": "RSHIFT",
             "&": "LOGAND", "|": "LOGOR", "EQV": "EQV", "NEQV": "NEQV"}


def wrapped(lines):
    """Statements as lines of about 120 bytes."""
    out, now = [], ""
    for word in " ".join(lines).split():
        if len(now) + len(word) > 120:
            out.append(now)
            now = ""
        now += (" " if now else "") + word
    return "\n".join(out + [now]) + ("\n" if out else "")


def put(table, name, source, accepted=None):
    """A case with what the definition gives; `accepted` says whether it is meant to be accepted."""
    code, line = COMPILER.translate(source if isinstance(source, str) else source.decode("latin-1"))
    assert accepted is None or accepted == (line is None), (name, source, line)
    table.case(name, b=source, ocode=wrapped(code) if code else None, line=line, status=101 if line else 0)


def words(text):
    return {"~=": "ne", "<=": "le", ">=": "ge", "<<": "lshift", ">>": "rshift", "*": "times", "/": "over", "+": "plus", "-": "minus",
        "=": "equals", "<": "less", ">": "greater",
            "&": "and", "|": "or", "!": "subscript", "%": "byte", "@": "address", "~": "tilde"}.get(text, text.lower())


def constants():
    table = Table("compiler/table-constants", "Each operator in constants, with numbers on both sides, and each spelling of numbers.")
    table.rule("LANGUAGE", "Constants")

    def number(x):
        return "(%d)" % x if x < 0 else "%d" % x

    for sign, name in OPERATORS.items():
        left = NUMBERS + (SMALL if name in ("DIV", "REM") else [])
        right = [y for y in (NUMBERS + COUNTS if "SHIFT" in name else left) if y or name not in ("DIV", "REM")]
        pairs = [(x, y) for x in left for y in right]
        source = "LET F() = TABLE\n%s\n" % ",\n".join(", ".join("%s %s %s" % (number(x), sign, number(y)) for y in right) for x in left)
        code = ["ENTRY L1 1 70 SAVE 2 LLL L3 FNRN ENDPROC DATALAB L2 ITEML L1 DATALAB L3"] + ["ITEMN %d" % value(name, x, y) for x,
            y in pairs] + ["GLOBAL 0"]
        assert " ".join(code) == " ".join(COMPILER.translate(source)[0]), name
        table.case("%s-of-each-number" % name.lower(), b=source, ocode=wrapped(code))
        for x, y in ((-1, 1), (1, -1), (65536, 0), (255, 256)):
            if y or name not in ("DIV", "REM"):
                for where, text in (("manifest", "MANIFEST $( M = %s $) LET F() = M"), ("static", "STATIC $( M = %s $) LET F() = M"),
                    ("case", "LET F(X) BE SWITCHON X INTO $( CASE %s: F(1) $)"),
                                    ("by", "LET F() BE FOR I = 1 TO 2 BY %s DO F()")):
                    put(table, "%s-of-%s-and-%s-in-%s" % (name.lower(), spelled(x), spelled(y), where),
                        text % ("%d %s %d" % (x, sign, y)), True)
    for prefix in ("-", "+", "NOT ", "~", "- -", "NOT -", "-NOT "):
        put(table, "prefix-%s" % "-then-".join(words(p) for p in prefix.split()),
            "LET F() = TABLE " + ", ".join(prefix + number(x) for x in NUMBERS), True)
    for sign in ("/", "REM"):
        for x in NUMBERS:
            for where in ("MANIFEST $( M = %s $)", "STATIC $( M = %s $)", "GLOBAL $( M: %s $)", "LET F() = TABLE 1,\n %s",
                "LET F() BE $( LET V = VEC %s; F() $)",
                          "LET F(X) BE SWITCHON X INTO $( CASE %s: F(1) $)",
                              "LET F() BE FOR I = 1 TO 2 BY %s DO F()")[:: 1 if x == 1 else 7]:
                put(table, "%s-of-%s-by-0-in-%s" % (words(sign), spelled(x),
                    named(where.split("%")[0].split("(")[0] + where.split("%")[0][-8:])), where % ("%s %s 0" % (number(x), sign)), False)
    table.rule("LANGUAGE", "Symbols")
    for text in ("0", "00", "007", "2147483647", "2147483648", "4294967295", "4294967296", "4294967297", "99999999999999999999", "#0",
        "#7", "#8", "#17777777777", "#20000000000", "#37777777777", "#40000000000",
                 "#X0", "#XF", "#XFF", "#xff", "#xFf", "#Xff", "#XG", "#X7FFFFFFF", "#X80000000", "#XFFFFFFFF", "#xffffffff",
                     "#X100000000", "#X0000000000001", "#19", "#", "#X", "1A", "1.", "#XFG", "#FF",
                 "'A'", "'a'", "'*N'", "'*n'", "'*T'", "'*S'", "'*B'", "'*P'", "'*C'", "'**'", "'*''", "'*\"'", "'\"'", "''", "'''",
                     "'AB'", "'*Q'", "'*'", "' '", "'*4'", "'", "TRUE", "true", "True", "FALSE"):
        put(table, "number-%s" % (named(text) or "none"), "LET F() BE $(\nLET X = 5\nX := %s\n$)\n" % text)
    table.close()


BINARY = ["!", "%"] + list(OPERATORS)
ROWS = ["!", "*", "+", "<", "<<", "&", "|", "EQV"]  # one of each row


def precedence():
    table = Table("compiler/table-precedence", "Each operator next to each other, with the prefixes, as values and as conditions.")
    table.rule("LANGUAGE", "Expressions")
    for one in BINARY:
        rows = ["A := A %s B %s C" % (one, two) for two in BINARY]
        put(table, "%s-before-each" % words(one), "LET F(A, B, C) BE $(\n%s\n$)\n" % "\n".join(rows), True)
        rows = ["A := A %s B %s C %s D" % (two, one, two) for two in ROWS]
        put(table, "%s-between-each" % words(one), "LET F(A, B, C, D) BE $(\n%s\n$)\n" % "\n".join(rows), True)
        rows = ["A := A %s (B %s C)" % (one, two) for two in ROWS]
        put(table, "%s-before-each-in-parentheses" % words(one), "LET F(A, B, C) BE $(\n%s\n$)\n" % "\n".join(rows), True)
    prefixes = ["!", "+", "-", "NOT ", "~"]
    for prefix in prefixes:
        name = {"~": "tilde"}.get(prefix, words(prefix.strip()))
        put(table, "prefix-%s-before-each" % name, "LET F(A, B, C) BE $(\n%s\n$)\n" % "\n".join("A := %sA %s B" % (prefix,
            two) for two in BINARY), True)
        put(table, "prefix-%s-after-each" % name, "LET F(A, B, C) BE $(\n%s\n$)\n" % "\n".join("A := A %s %sB" % (two,
            prefix) for two in BINARY), True)
        for one in ROWS:
            put(table, "prefix-%s-after-%s-and-before-each" % (name, words(one)),
                "LET F(A, B, C) BE $(\n%s\n$)\n" % "\n".join("A := A %s %sB %s C" % (one, prefix, two) for two in ROWS), True)
        rows = ["A := %s%sA %s B" % (prefix, two, one) for two in prefixes for one in ("!", "*", "+", "=", "&")]
        put(table, "prefix-%s-before-each-prefix" % name, "LET F(A, B, C) BE $(\n%s\n$)\n" % "\n".join(rows), True)
        put(table, "prefix-%s-with-calls" % name,
            "LET F(A, B, C) BE $(\nA := %sA(B)\nA := %sA(B)!C\nA := %sA!B(C)\nA := %s(A)(B)\n$)\n" % (prefix, prefix, prefix, prefix), True)
    for two in BINARY:
        put(table, "address-before-%s" % words(two), "LET F(A, B, C) BE $(\nA := @A %s B\nA := @(A!B) %s C\nA := B %s @C\n$)\n" % (two,
            two, two))
        put(table, "choice-with-%s" % words(two),
            "LET F(A, B, C, D) BE $(\nA := A %s B -> C, D\nA := A -> B %s C, D\nA := A -> B, C %s D\nA := A -> B, C -> D %s A, B\nA := (A -> B, C) %s D\n$)\n" % (two, two, two, two, two), True)
    put(table, "choices-in-choices",
        "LET F(A, B, C, D) BE $(\nA := A -> B -> C, D, A\nA := A -> B, C -> D, A\nA := (A -> B, C) -> D, A\nA := A -> (B -> C, D), A\n$)\n", True)
    table.rule("LANGUAGE", "Expressions")
    relations = [sign for sign, name in OPERATORS.items() if name in ("EQ", "NE", "LS", "GR", "LE", "GE")]
    for one in relations:
        put(table, "chain-of-%s-and-each" % words(one), "LET F(A, B, C, D) BE $(\n%s\n$)\n" % "\n".join("A := A %s B %s C %s D" % (one,
            two, one) for two in relations), True)
        put(table, "chain-of-%s-and-each-as-a-condition" % words(one),
            "LET F(A, B, C, D) BE $(\n%s\n$)\n" % "\n".join("IF A %s B %s C DO F()" % (one, two) for two in relations), True)
        put(table, "chain-of-%s-in-parentheses" % words(one),
            "LET F(A, B, C, D) BE $(\nA := (A %s B) %s C\nA := A %s (B %s C)\nA := A %s -B %s C\nA := A %s B + C %s D\n$)\n" % ((one,
            ) * 8), True)
    table.rule("SCHEME", "Conditions")
    conditions = ["A", "NOT A", "~A", "NOT NOT A", "A & B", "A | B", "NOT (A & B)", "NOT (A | B)", "A & B & C", "A | B | C", "A & B | C",
        "A | B & C", "(A | B) & C", "A & (B | C)", "NOT A & B", "NOT A | B", "A & NOT B",
                  "A EQV B", "A NEQV B", "(A & B) EQV C", "A = B & C", "A & B = C", "A < B < C", "NOT A < B", "NOT A < B < C", "(A)",
                      "((A & B))", "(NOT (A))", "A -> B, C", "(A -> B, C) & A", "A & (B -> C, D)", "(A & B) + 1",
                  "-(A & B)", "!A & B", "A(B & C)", "A!(B & C)", "TRUE", "FALSE", "1", "A + B", "\"A\"", "VALOF RESULTIS A & B",
                      "TABLE 1", "? & A"]
    forms = {"if": "IF %s DO F()", "unless": "UNLESS %s DO F()", "test": "TEST %s DO F() OR F()", "while": "WHILE %s DO F()",
        "until": "UNTIL %s DO F()", "repeatwhile": "F() REPEATWHILE %s", "repeatuntil": "F() REPEATUNTIL %s",
             "choice": "A := (%s) -> B, C", "value": "A := %s", "argument": "F(%s)", "switchon": "SWITCHON %s INTO CASE 1: F()",
                 "for": "FOR I = %s TO 1 DO F()", "resultis": "A := VALOF RESULTIS %s"}
    for name, form in forms.items():
        put(table, "each-condition-in-%s" % name,
            "LET F(A, B, C, D) BE $(\n%s\n$)\n" % "\n".join("$( %s $)" % form % condition for condition in conditions), True)
    table.close()


# Constructs, with %s for a command inside; and commands.
CONSTRUCTS = {"block": "$( %s $)", "declarations": "$( LET X = 1; %s $)", "vector": "$( LET V = VEC 3; %s $)", "if": "IF A DO %s",
    "unless": "UNLESS A DO %s", "test": "TEST A DO %s OR F()", "or": "TEST A DO F() OR %s",
              "while": "WHILE A DO %s", "until": "UNTIL A DO %s", "for": "FOR I = 1 TO A DO %s", "for-by": "FOR I = A TO 1 BY -2 DO %s",
                  "repeat": "$( %s $) REPEAT", "repeatwhile": "$( %s $) REPEATWHILE A",
              "repeatuntil": "$( %s $) REPEATUNTIL A", "switchon": "SWITCHON A INTO $( F(); %s $)",
                  "case": "SWITCHON A INTO $( CASE 1: %s; CASE 2: F(); DEFAULT: F() $)",
                  "default": "SWITCHON A INTO $( CASE 1: F(); DEFAULT: %s $)",
              "label": "$( M: %s $)", "valof": "A := VALOF $( %s; RESULTIS 1 $)",
                  "valof-in-an-argument": "F(1, VALOF $( %s; RESULTIS 1 $), 2)", "choice": "A := B -> VALOF $( %s; RESULTIS 1 $), 2",
              "procedure": "$( LET G() BE %s; G() $)"}
COMMANDS = {"call": "F(1)", "assignment": "A := 1", "if": "IF A DO F()", "unless": "UNLESS A DO F()", "test": "TEST A DO F() OR F(1)",
    "while": "WHILE A DO F()", "until": "UNTIL A DO F()", "for": "FOR J = 1 TO 2 DO F(J)",
            "repeat": "F() REPEAT", "repeatwhile": "F() REPEATWHILE A", "repeatuntil": "F() REPEATUNTIL A",
                "switchon": "SWITCHON A INTO $( CASE 1: F(); DEFAULT: F(1); CASE 3: F(3) $)", "block": "$( LET Y = 2; F(Y) $)",
            "goto": "$( N: F(); GOTO N $)", "goto-forwards": "$( GOTO N; F(); N: $)", "valof": "A := VALOF RESULTIS 2",
                "choice": "A := A -> 1, 2", "table": "A := TABLE 1, 2", "condition": "IF A & B | A DO F()",
            "procedure": "$( LET H(X) = X; A := H(1) $)", "finish": "FINISH", "return": "RETURN", "break": "BREAK", "loop": "LOOP",
                "endcase": "ENDCASE", "resultis": "RESULTIS 3", "case": "CASE 9: F(9)", "default": "DEFAULT: F(8)",
            "goto-of-the-procedure": "GOTO P"}


def forms():
    table = Table("compiler/table-forms", "Each command in each construct: labels, depths, and the exits that are there or not.")
    table.rule("SCHEME", "Commands")
    for outer, construct in CONSTRUCTS.items():
        for inner, command in COMMANDS.items():
            source = "GLOBAL $( A:200; B:201 $)\nLET F(X, Y) BE $( P: F()\n%s\nF(2) $)\n" % (construct % command)
            put(table, "%s-in-%s" % (inner, outer), source)
    for outer, construct in CONSTRUCTS.items():
        for inner in ("if", "test", "while", "for", "repeat", "repeatwhile", "switchon", "valof", "declarations", "case", "procedure",
            "label"):
            inside = CONSTRUCTS[inner].replace("M:", "Q:").replace("G(", "H(") % "$( F(3); A := B -> 1, 2 $)"
            put(table, "%s-with-a-choice-in-%s" % (inner, outer),
                "GLOBAL $( A:200; B:201 $)\nLET F(X, Y) BE $( P: F()\n%s\nF(2) $)\n" % (construct % inside))
    for exit_ in ("BREAK", "LOOP", "ENDCASE", "RESULTIS 1", "RETURN", "GOTO P", "CASE 9: F(9)", "DEFAULT: F(8)"):
        for outer in ("while", "for", "repeat", "repeatwhile", "switchon", "valof"):
            for middle in ("declarations", "vector", "if", "switchon", "for", "valof", "repeat", "procedure"):
                source = "GLOBAL $( A:200; B:201 $)\nLET F(X, Y) BE $( P: F()\n%s\nF(2) $)\n"
                put(table, "%s-in-%s-in-%s" % (named(exit_), middle, outer),
                    source % (CONSTRUCTS[outer] % ("$( LET Z = 1; %s $)" % (CONSTRUCTS[middle] % exit_))))
                if exit_[0] in "CD":
                    put(table, "%s-in-%s-at-once-in-%s" % (named(exit_), middle, outer),
                        source % (CONSTRUCTS[outer] % (CONSTRUCTS[middle] % exit_)))
    operands = {"call": "F(1)", "choice": "(A -> 1, 2)", "valof": "(VALOF $( LET Z = 1; RESULTIS Z + F(Z) $))", "table": "(TABLE 1)",
        "string": "\"S\"", "condition": "(A & B)"}
    places = ["A := {0} + B", "A := B + {0}", "A := B!{0}", "A := {0}!B", "A := B%{0}", "A := {0}%B", "{0}!A := B", "A!{0} := B",
        "{0}%A := B", "A%{0} := B", "!{0} := B", "A := !{0}", "A := -{0}", "A := NOT {0}", "A := {0} -> B, 3", "A := B -> {0}, 3",
        "A := B -> 3, {0}",
              "F({0}, A)", "F(A, {0})", "F(A, B)({0})", "{0}(A)", "A := {0}(B)", "A := F({0})", "IF {0} DO F()", "UNLESS {0} DO F()",
                  "TEST {0} DO F() OR F()", "WHILE {0} DO F()", "UNTIL {0} DO F()", "F() REPEATWHILE {0}", "F() REPEATUNTIL {0}",
                  "SWITCHON {0} INTO CASE 1: F()",
              "FOR I = {0} TO A DO F(I)", "FOR I = A TO {0} DO F(I)", "$( LET Y, W = A, {0}; F(Y, W) $)",
                  "$( LET Y, W = {0}, B; F(Y, W) $)", "$( LET Y = VEC 2 AND W = {0}; F(Y, W) $)", "A, B := {0}, 1", "A, B := 1, {0}",
                  "A := B < {0} < 3", "A := {0} < B < 3", "A := B < 3 < {0}",
              "A := @({0}!B)", "A := @(B!{0})", "A := @!{0}", "A := VALOF RESULTIS {0}", "A := 1 + VALOF RESULTIS {0}", "A := B & {0}",
                  "A := {0} | B", "A := B << {0}", "A := {0} EQV B", "A := ({0})"]
    for name, operand in operands.items():
        for number in range(0, len(places), 10):
            put(table, "%s-as-an-operand-%d" % (name, number // 10 + 1),
                "GLOBAL $( A:200; B:201 $)\nLET F(X, Y) BE $(\n%s\n$)\n" % "\n".join("$( %s $)" % place.format(operand)
                for place in places[number:number + 10]), True)
    starts = ["F(1)", "(F)(1)", "VALOF $( RESULTIS F $)(1)", "5(1)", "'A'(1)", "\"S\"(1)", "TRUE(1)", "FALSE(1)", "?(1)", "!A := 1",
        "A!1 := 1", "(A) := 1", "5!A := 1", "\"S\"!1 := 2", "VALOF $( RESULTIS A $)!1 := 2", "(TABLE 1)!0 := 2", "$( F(1) $)", "FINISH",
        "M: F(1)"]
    befores = {"a-label": "N: %s", "case": "SWITCHON A INTO $( CASE 1: %s $)", "default": "SWITCHON A INTO $( DEFAULT: %s $)",
        "do": "IF A DO %s", "or": "TEST A DO F() OR %s", "a-semicolon": "F(); %s", "a-bracket": "$( %s $)", "into": "SWITCHON A INTO %s",
        "repeat": "%s REPEAT", "valof": "A := VALOF %s"}
    for name, before in befores.items():
        put(table, "each-command-after-%s" % name,
            "GLOBAL $( A:200; B:201 $)\nLET F(X, Y) BE $(\n%s\n$)\n" % "\n".join("$( LET Q = 1; %s $)" % before % start
            for start in starts), True)
    for name, command in (("test", "TEST A DO GOTO N OR N: F(1)"), ("if", "IF A DO N: GOTO N"),
        ("switchon", "SWITCHON A INTO N: CASE 1: GOTO N"), ("while", "WHILE A DO N: GOTO N"),
        ("test-backwards", "TEST A DO N: F(1) OR GOTO N"), ("repeat", "N: GOTO N REPEAT"), ("labels", "N: M: TEST A DO GOTO M OR GOTO N")):
        put(table, "goto-in-a-body-of-%s" % name,
            "GLOBAL $( A:200 $)\nLET F(X, Y) BE %s\nLET G(X, Y, Z) BE FOR I = 1 TO 2 DO %s\nLET H(X) = 1 + VALOF %s\nLET K() BE $( LET P = 1; %s $)\n" % ((command,) * 4), True)
    empties = ["N: $)", "N: ; F(1) $)", "N: M: $)", "N:\n$)", "SWITCHON A INTO $( CASE 1: $) $)", "SWITCHON A INTO $( CASE 1: ; F(1) $) $)",
               "SWITCHON A INTO $( CASE 1: CASE 2: $) $)", "SWITCHON A INTO $( CASE 1:\nCASE 2: F(1) $) $)",
                   "SWITCHON A INTO $( DEFAULT: $) $)",
               "SWITCHON A INTO $( DEFAULT: ; F(1) $) $)", "SWITCHON A INTO $( CASE 1: DEFAULT: $) $)",
                   "SWITCHON A INTO CASE 1: ; F(1) $)", "N: REPEAT $)",
               "SWITCHON A INTO CASE 1: REPEAT $)", "N: REPEATWHILE A $)", "SWITCHON A INTO DEFAULT: REPEATUNTIL A $)",
                   "IF A DO N: ; F(1) $)",
               "TEST A DO N: OR M: $)", "; $)", ";; F(1);; $)", "$)", "$( $) $)", "$( ; $) $)", "$( LET X = 1 $) $)",
                   "$( LET X = 1; ; $) $)", "WHILE A DO N: $)"]
    for number, text in enumerate(empties, 1):
        put(table, "empty-commands-%d" % number, "GLOBAL $( A:200; F:201 $)\nLET G() BE $( %s\n" % text, True)
    table.rule("LANGUAGE", "Brackets")
    for text in ("$(A F() $)A", "$(a F() $)A", "$(A F() $)a", "$(aB1.c F() $)Ab1.C", "$(1 F() $)1", "$(A F() $)B", "$(A F() $)AB",
        "$(AB F() $)A", "$(A $(B F() $)B $)A", "$(A $(B F() $)A", "$(A $(B F() $)a", "$(A $(A F() $)A F(1) $)A",
                 "$(A $(A F() $)A", "$( $(B F() $)B $)", "$( $(B F() $) $)", "$(A $( F() $) $)A", "$(A $( F() $)A",
                     "$(A $(B $(C F() $)B F(1) $)A", "$(A $(B $(C F() $)A", "$(A $(B $(C F() $)C $)A", "$(A $(B F() $)A $)B",
                     "$(A F() $)", "$( F() $)A",
                 "$(A IF A DO $(B F() $)B F(1) $)A", "$(A LET X = VALOF $(B RESULTIS 1 $)A; F(X) $)A",
                     "$(A MANIFEST $(M C = 1 $)M F(C) $)A", "$(A SWITCHON A INTO $(S CASE 1: F() $)A", "$(A.B F() $)A", "$(A. F() $)A.",
                     "$(A F() $)A $)A"):
        put(table, "tags-%s" % named(text), "GLOBAL $( A:200 $)\nLET F(X) BE\n%s\nLET G() = 1\n" % text)
    table.rule("SCHEME", "Labels")
    for name, source in (("two-procedures", "LET F() = 1 AND G() = F()"),
        ("static-and-procedures", "STATIC $( S = 1; T = 2 $) LET F() = S STATIC $( U = 3 $) LET G() = T + U"),
                         ("procedures-in-procedures",
                             "LET F() BE $( LET G() = 1 AND H() BE $( LET K() = 2; K() $); G(); H() $) AND M() = 3"),
                         ("a-procedure-of-a-global-and-others",
                             "GLOBAL $( G:100; H:101 $) LET F() = 1 AND G() = 2 AND K() = 3 AND H() = 4"),
                         ("call-of-a-valof-with-a-table", "LET F(A) = (VALOF RESULTIS TABLE 1)((TABLE 2), (TABLE 3)!0)"),
                             ("assignment-of-tables", "LET F(A, B) BE (TABLE 1)!0, !(TABLE 2) := (TABLE 3), VALOF RESULTIS 4"),
                         ("a-for-with-tables", "LET F(A) BE FOR I = (TABLE 1)!0 TO (TABLE 2)!0 DO F(TABLE 3)"),
                             ("a-repeatwhile-with-tables", "LET F(A) BE F(TABLE 1) REPEATWHILE (TABLE 2)!0"),
                         ("a-let-of-a-table-and-a-procedure",
                             "LET F(A) BE $( LET X = TABLE 1 AND G() = TABLE 2 AND Y = TABLE 3; F(X, Y, G) $)"),
                             ("a-switchon-with-tables",
                             "LET F(A) BE SWITCHON (TABLE 1)!0 INTO $( CASE 1: F(TABLE 2); DEFAULT: F(TABLE 3) $)"),
                         ("conditions-with-tables", "LET F(A) BE IF (TABLE 1)!0 & (TABLE 2)!0 | A DO F(TABLE 3)"),
                             ("a-choice-with-tables", "LET F(A) = (TABLE 1)!0 -> (TABLE 2), TABLE 3")):
        put(table, "labels-of-%s" % name, source, True)
    table.close()


# The kinds of names: how each is declared outside, and in the procedure.
KINDS = {"manifest": "MANIFEST $( N = 7 $)", "static": "STATIC $( N = 7 $)", "global": "GLOBAL $( N:200 $)", "procedure": "LET N(X) = X",
    "procedure-of-a-global": "GLOBAL $( N:200 $) LET N(X) = X", "nothing": ""}
INNER = {"formal": ("N", "", ""), "variable": ("P", "LET N = 1", ""), "vector": ("P", "LET N = VEC 2", ""),
    "inner-procedure": ("P", "LET N(X) = X", ""), "inner-manifest": ("P", "MANIFEST $( N = 7 $)", ""),
         "inner-static": ("P", "STATIC $( N = 7 $)", ""), "inner-global": ("P", "GLOBAL $( N:201 $)", ""), "label": ("P", "", "N: F()"),
             "two-variables": ("P", "LET N, Q = 1, 2", ""), "and-variable": ("P", "LET Q = 1 AND N = 2", "")}
USES = {"value": "G := N", "destination": "N := 1", "address": "G := @N", "call": "N(1)", "call-as-a-value": "G := N(1)",
    "goto": "GOTO N", "case": "SWITCHON G INTO CASE N: F()", "by": "FOR I = 1 TO 2 BY N DO F()", "table": "G := TABLE N",
        "vec": "$( LET W = VEC N; W!0 := 1 $)", "subscript": "N!1 := N!2", "destination-in-parentheses": "(N) := 1",
            "address-in-parentheses": "G := @(N)", "contents": "!N := !N", "byte": "N%1 := N%2", "for": "FOR N = N TO N DO G := N",
        "initial-value": "$( LET N = N; G := N $)", "recursive": "$( LET N(X) = N; G := N $)", "and": "$( LET N = 1 AND M = N; G := N $)",
            "procedure-inside": "$( LET K() = N; G := K() $)", "destination-inside": "$( LET K() BE N := 1; K() $)",
        "goto-inside": "$( LET K() BE GOTO N; K() $)", "valof": "G := VALOF $( N := N + 1; RESULTIS N $)",
            "goto-out-of-a-valof": "G := VALOF GOTO N", "formal-inside": "$( LET K(N) = N; G := K(1) $)",
            "twice-by-and": "$( LET N = 1 AND N = 2; G := 1 $)",
        "label-inside": "$( N: GOTO N $)"}


def names():
    table = Table("compiler/table-names", "Each kind of name in each use, from its own procedure and from one inside.")
    table.rule("LANGUAGE", "Names")
    for kind, declaration in KINDS.items():
        for use, text in USES.items():
            put(table, "%s-as-%s" % (kind, use), "GLOBAL $( G:300 $)\n%s\nLET F(P) BE $(\n%s\nG := 1\n$)\n" % (declaration, text))
    for kind, (formal, declaration, label) in INNER.items():
        for use, text in USES.items():
            put(table, "%s-as-%s" % (kind, use), "GLOBAL $( G:300 $)\nLET F(%s) BE $(\n%s\n%s; %s\nG := 1\n$)\n" % (formal,
                declaration or ";", label, text))
    for text in ("LET F(N, N) = 1", "LET F(N, M,\nN) = 1", "MANIFEST $( N = 1\nN = 2 $)", "STATIC $( N = 1; N = 2 $)",
        "GLOBAL $( N:1; M:2\nN:3 $)", "LET F() BE $( LET N, N = 1, 2; F() $)", "LET F() BE $( LET N = 1 AND M = 2\nAND N = 2; F() $)",
                 "LET F() = 1 AND\nF() = 2", "LET F() BE $( N: F(); N: F() $)", "LET F() BE $( N: F(); IF F DO\nN: F() $)",
                     "LET F() = 1 LET F() = 2", "MANIFEST $( N = 1 $) MANIFEST $( N = 2 $)", "LET F(N) BE $( LET N = N; F(N) $)",
                 "LET F(N) BE $( N: F() $)", "LET F() BE $( N: $( LET X = 1; N: F(X) $) $)",
                     "LET F() BE $( N: F(VALOF $( N: RESULTIS 1 $)) $)", "LET F() BE FOR I = 1 TO 2 DO $( I: F() $)"):
        put(table, "names-of-%s" % named(text.replace("\n", "")), text)
    table.rule("LANGUAGE", "Names")
    frames = {"a-call": ("F(0)", 4), "an-assignment": ("A := 1", 1), "two-items": ("A := 1 + 2", 2),
        "three-items": ("A := 1 + (2 + 3)", 3), "four-items": ("A := 1 + (2 + (3 + 4))", 4), "a-subscript": ("A!1 := 2", 3),
              "a-byte": ("A%1 := 2", 3), "a-call-with-arguments": ("F(1, 2, 3)", 6), "a-call-in-a-call": ("F(F(1))", 6),
                  "a-result": ("A := F()", 3), "a-for": ("FOR I = 1 TO 2 DO A := 1", 4), "a-choice": ("A := A -> 1, 2", 1),
              "a-condition": ("IF A = 1 DO RETURN", 2), "a-variable": ("$( LET X = 1; A := X $)", 2),
                  "two-variables": ("$( LET X, Y = 1, 2; A := X + Y $)", 4), "a-string": ("A := \"X\"", 1),
                  "a-valof": ("A := VALOF RESULTIS 1", 1),
              "an-address": ("A := @A", 1), "a-switchon": ("SWITCHON A INTO CASE 1: FINISH", 1),
                  "a-vector": ("$( LET V = VEC 9; V!0 := 1 $)", 14), "a-vector-alone": ("$( LET V = VEC 9; FINISH $)", 11),
                  "a-table": ("A := TABLE 1", 1), "a-truth": ("A := TRUE", 1), "a-falsehood": ("A := FALSE", 1), "a-query": ("A := ?", 1),
                  "a-prefix": ("A := -A", 1), "parentheses": ("A := (1)", 1),
              "a-procedure": ("A := F", 1), "contents": ("A := A!1", 2), "a-byte-of": ("A := A%1", 2), "a-list": ("A, A := 1, 2", 1),
                  "a-place": ("!A := 1", 2), "a-call-in-a-place": ("F(1)!2 := 3", 5), "a-call-at-the-right-of-a-place": ("A!F(1) := 3", 6),
              "a-call-in-a-byte": ("F(1)%2 := 3", 5), "a-call-in-an-address": ("A := @(A!F(1))", 5),
                  "a-resultis": ("A := 1 + VALOF RESULTIS 1 + 2", 3), "a-while": ("WHILE A = 1 DO A := 2", 2),
                  "a-test": ("TEST A DO A := 1 + 2 OR A := 1", 2)}
    for name, (expression, needs) in frames.items():
        for spare in (0, 1):
            size = 65535 - 3 - 32768 - 1 - 1 - needs + spare - 1
            put(table, "frame-of-%s-%s" % (name, "too-large" if spare else "just-enough"),
                "LET F(A) BE\n$( LET V, W = VEC 32767, VEC %d\n%s\n$)\n" % (size, expression), not spare)
    table.close()


GOOD = "GET \"LIBHDR\"\nGLOBAL $( G:200 $)\nLET F(A, B) = A + B\n"
TAIL = "LET H(C) BE F(C)\n"
# Faults of symbols, of syntax and of names, each as a line.
SYMBOLS = {"bad-byte": "LET K() = A_B", "bad-byte-number": "LET K() = #9", "bad-string": "LET K() BE WRITES(\"ABC)",
    "bad-character": "LET K() = 'AB'", "bad-escape": "LET K() BE WRITES(\"A*ZB\")", "bad-escape-in-a-character": "LET K() = '*Z'",
           "number-over-32-bits": "LET K() = 4294967296", "name-over-255-bytes": "LET K() = %s" % ("A" * 256),
               "tag-over-255-bytes": "LET K() BE $(%s F() $)" % ("A" * 256), "bad-get": "GET \"STREAMS\"", "bad-get-of-no-string": "GET 5"}
SYNTAX = {"missing-body": "LET K() BE )", "missing-operand": "LET K() = 1 +", "wrong-symbol": "LET K() := 1",
    "extra-parenthesis": "LET K() = (1))", "missing-do": "LET K() BE IF G F()", "missing-to": "LET K() BE FOR I = 1 DO F()",
          "missing-or": "LET K() BE TEST G DO F()", "missing-into": "LET K() BE SWITCHON G $( CASE 1: F() $)",
              "no-call": "LET K() BE G!1", "call-in-parentheses": "LET K() BE (F(1))", "unequal-lists": "LET K() BE $( G, G := 1 $)",
              "longer-list": "LET K() BE G := 1, 2",
          "unequal-variables": "LET K() BE $( LET X, Y = 1; F(X) $)",
              "declaration-after-a-command": "LET K() BE $( F(); LET X = 1; F(X) $)", "empty-manifest": "MANIFEST $( $)",
              "a-variable-outside": "LET K = 1", "wrong-tag": "LET K() BE $(A F() $)B",
          "tag-that-is-missing": "LET K() BE $(A F() $)", "tag-that-is-not-open": "LET K() BE $( F() $)A", "closing-alone": "$)",
              "command-outside": "F()", "label-that-is-a-number": "LET K() BE 1: F()", "goto-number": "LET K() BE GOTO 5",
          "table-before-a-comma": "LET K() BE $( G, G := TABLE 1, 2 $)", "repeat-alone": "LET K() BE REPEAT",
              "two-operators": "LET K() = 1 * / 2", "two-expressions": "LET K() = 1 2", "a-reserved-name": "LET LET() = 1",
              "and-at-the-end": "LET K() = 1 AND",
          "choice-without-comma": "LET K() = G -> 1"}
NAMES = {"not-declared": "LET K() = NONE", "declared-twice": "LET K(X, X) = X", "dynamic-name": "LET K(X) BE $( LET M() = X; M() $)",
    "not-a-constant": "MANIFEST $( K = F $)", "constant-divided-by-zero": "STATIC $( K = 1 / 0 $)",
         "case-repeated": "LET K() BE SWITCHON G INTO $( CASE 1: CASE 1: F() $)",
             "default-repeated": "LET K() BE SWITCHON G INTO $( DEFAULT: DEFAULT: F() $)", "no-loop": "LET K() BE BREAK",
             "no-loop-for-loop": "LET K() BE LOOP",
         "no-switchon": "LET K() BE ENDCASE", "no-switchon-for-case": "LET K() BE CASE 1: F()",
             "no-switchon-for-default": "LET K() BE DEFAULT: F()", "resultis": "LET K() BE RESULTIS 1",
             "return": "LET K() = VALOF RETURN", "label": "LET K() BE $( LL: F(LL) $)",
         "goto-of-no-label": "LET K() BE GOTO G", "global-outside": "GLOBAL $( K:1000 $)", "global-below": "GLOBAL $( K:-1 $)",
             "vec-outside": "LET K() BE $( LET V = VEC 32768; F(V) $)", "vec-below": "LET K() BE $( LET V = VEC -1; F(V) $)",
         "frame-over": "LET K() BE $( LET V, W = VEC 32767, VEC 32767; F(V, W) $)", "not-assignable": "LET K() BE 1 := 2",
             "not-assignable-byte": "LET K() = @(G%1)", "two-procedures": "LET G() = 1 LET G() = 2"}


def faults():
    table = Table("compiler/table-faults", "Each fault on a line in the middle, alone, before and after others; each byte at each place.")
    table.rule("LANGUAGE", "Constants")
    kinds = (("symbols", SYMBOLS), ("syntax", SYNTAX), ("names", NAMES))
    for number, (_, group) in enumerate(kinds):
        for name, line in group.items():
            other = line.replace("K(", "K2(").replace("K =", "K2 =").replace("K:", "K2:").replace("G()", "G2()")
            put(table, "%s-on-line-4" % name, GOOD + line + "\n" + TAIL, False)
            put(table, "%s-on-line-2-of-2" % name, "GLOBAL $( G:200 $) LET F(A, B) = A + B\n" + line, False)
            put(table, "%s-on-line-6-after-a-comment" % name, GOOD + "// A line with \" and ' and _ and $)\n\n" + line + "\n" + TAIL, False)
            put(table, "%s-before-itself" % name, GOOD + line + "\n" + TAIL + other + "\n", False)
            put(table, "%s-in-a-second-section" % name, GOOD + TAIL + ".\n\n" + GOOD + line + "\n" + TAIL, False)
            for other_kind, (_, others) in enumerate(kinds):
                second = list(others.values())[(list(group).index(name) * 5 + 3) % len(others)].replace("K(", "K3(").replace("K =",
                    "K3 =").replace("K:", "K3:")
                put(table, "%s-before-a-fault-of-%s" % (name, kinds[other_kind][0]), GOOD + line + "\n" + TAIL + second + "\n", False)
                put(table, "%s-after-a-fault-of-%s" % (name, kinds[other_kind][0]), GOOD + second + "\n" + TAIL + line + "\n", False)
    for sign in OPERATORS:
        for name, left, right in (("at-the-right", "1", "NONE"), ("at-the-left", "NONE", "1"), ("of-a-static", "S", "0"),
            ("before-0", "NONE", "0")):
            for where, text in (("manifest", "MANIFEST $( M = %s $)"), ("case", "LET F(X) BE SWITCHON X INTO $( CASE %s: F(1) $)")):
                source = "STATIC $( S = 1 $)\n" + text % ("%s %s\n%s" % (left, sign, right)) + "\nLET K() = NEVER\n"
                put(table, "operand-without-a-value-%s-of-%s-in-%s" % (name, words(sign), where), source, False)
    for name, text in (("after-a-fault-at-the-end-of-the-first", "VALOF $(\nLET G() = 1\nRESULTIS 1 $) +\nNONE"),
        ("after-a-fault-in-the-first", "VALOF $(\nLET G() = 1\nRESULTIS NONE\n$) + 1"),
                       ("before-a-fault-after-it", "VALOF $(\nLET G() = 1\nRESULTIS 1 $) + 1")):
        put(table, "a-second-copy-%s" % name, "GLOBAL $( G:200 $)\nLET F(A, B) = A < %s <\nNEVER\n" % text, False)
    table.rule("LANGUAGE", "Symbols")
    before, after = "GLOBAL $( F:200 $)\n", "LET H() = 2\n"
    for byte in range(256):
        one = chr(byte)
        put(table, "byte-%02x-between-symbols" % byte, before + "LET K() =\n1 + " + one + " 2\n" + after)
        if byte > 128 and byte not in (160, 255):
            continue
        for name, text in (("a-name", "LET K(AB) =\nA%sB\n"), ("a-string", "LET K() =\n\"A%sB\"\n"),
            ("a-comment", "// A%sB\nLET K() = NONE\n"), ("a-character", "LET K() =\n'%s'\n"), ("an-escape", "LET K() =\n\"A*%sB\"\n"),
                           ("a-number", "LET K() =\n1%s2\n"), ("a-number-in-base-8", "LET K() =\n#1%s2\n"),
                               ("a-number-in-base-16", "LET K() =\n#X1%s2\n"), ("a-tag", "LET K() BE $(A%sB\nF() $)A\n")):
            if name not in ("a-string", "a-comment", "a-character") or not chr(byte).isalnum():
                put(table, "byte-%02x-in-%s" % (byte, name), before + text.replace("%s", one) + after)
    for length in (253, 254, 255, 256):
        for last in ("*N", "A", "**", "*\"", "*Q"):
            put(table, "string-of-%d-bytes-and-%s" % (length, named(last)), before + "LET K() =\n\"" + "A" * length + last + "\"\n" + after)
    accepted = [b for b in range(256) if b not in (10, 13, 34, 42)]
    for number, part in enumerate((accepted[:126], accepted[126:]), 1):
        put(table, "each-byte-in-a-string-%d" % number, before + "LET K() = \"" + "".join(map(chr, part)) + "\"\n" + after, True)
        put(table, "each-byte-in-a-comment-%d" % number, before + "LET K() = 1 // " + "".join(map(chr, part)) + "\n" + after, True)
        put(table, "each-byte-as-a-character-%d" % number,
            before + "LET K() = TABLE " + ", ".join("'%s'" % chr(b) for b in part if b != 39) + "\n" + after, True)
    reserved = "AND BE BREAK BY CASE DEFAULT DO ELSE ENDCASE EQ EQV FALSE FINISH FOR GET GLOBAL GOTO IF INTO LET LOOP MANIFEST NE NEQV NOT OR REM REPEAT REPEATUNTIL REPEATWHILE RESULTIS RETURN STATIC SWITCHON TABLE TEST THEN TO TRUE UNLESS UNTIL VALOF VEC WHILE".split()
    for word in reserved + ["LV", "RV", "LS", "GR", "LE", "GE", "LSHIFT", "RSHIFT", "MOD", "NIL", "SECTION", "NEEDS", "LOGAND", "LOGOR",
        "SKIP", "RESULT", "START"]:
        put(table, "the-word-%s-as-a-name" % word.lower(), GOOD + "LET K(%s) = 1\n" % word + TAIL)
        put(table, "the-word-%s-in-small-letters" % word.lower(), GOOD + "LET K(%s) = 1\n" % word.lower() + TAIL)
        put(table, "the-word-%s-with-a-letter-more" % word.lower(), GOOD + "LET K(%sS) = %ss\n" % (word, word.lower()) + TAIL)
    table.close()


# What may be before a line end or a blank, and what after it.
ENDS = {"a-name": "A := B", "a-number": "A := 1", "a-string": "A := \"S\"", "a-character": "A := 'C'", "true": "A := TRUE",
    "false": "A := FALSE", "a-query": "A := ?", "a-parenthesis": "F(1)",
        "a-bracket": "$( F(1) $)", "break": "BREAK", "loop": "LOOP", "endcase": "ENDCASE", "return": "RETURN", "finish": "FINISH",
            "repeat": "F(1) REPEAT", "a-tag": "$(T F(1) $)T",
        "becomes": "A :=", "an-operator": "A := B +", "a-comma": "A := F(1,", "do": "IF A DO", "a-colon": "N:", "a-semicolon": "F(1);",
            "nothing": "", "if": "IF A", "goto": "GOTO P"}
BEGINS = {"a-bracket": "$( F(2) $)", "goto": "GOTO P", "if": "IF A DO F(2)", "unless": "UNLESS A DO F(2)",
    "test": "TEST A DO F(2) OR F(3)", "while": "WHILE A DO F(2)", "until": "UNTIL A DO F(2)",
          "for": "FOR I = 1 TO 2 DO F(2)", "switchon": "SWITCHON A INTO CASE 9: F(2)", "break": "BREAK", "loop": "LOOP",
              "endcase": "ENDCASE", "resultis": "RESULTIS 1", "return": "RETURN", "finish": "FINISH",
          "a-name": "F(2)", "a-number": "5(2)", "a-parenthesis": "(F)(2)", "contents": "!A := 1", "case": "CASE 1: F(2)",
              "default": "DEFAULT: F(2)", "a-string": "\"S\"(2)", "a-character": "'C'(2)", "true": "TRUE(2)",
          "a-query": "?(2)", "an-address": "@A!1 := 2", "plus": "+ 1", "minus": "- 1", "not": "NOT A", "valof": "VALOF RESULTIS 1",
              "table": "TABLE 1", "repeat": "REPEAT", "repeatwhile": "REPEATWHILE A",
          "equals": "= 1", "a-choice": "-> 1, 2", "becomes": ":= 1", "a-byte": "% 1", "do": "DO F(2)", "let": "LET X = 1",
              "a-closing-bracket": "$)"}


def insertion():
    table = Table("compiler/table-insertion",
        "What may end a command before what may begin one, with a line end between them and with a blank.")
    table.rule("LANGUAGE", "Symbols")
    for end, one in ENDS.items():
        for begin, two in BEGINS.items():
            for between, name in (("\n", "a-line-end"), (" ", "a-blank")):
                text = "GLOBAL $( A:200; B:201; F:202 $) LET G() BE $( P: WHILE A DO SWITCHON A INTO $(\nA := VALOF $( %s%s%s\n$) $) $)\n" % (one, between, two)
                put(table, "%s-%s-%s" % (end, name, begin), text)
    table.close()


if __name__ == "__main__":
    constants()
    insertion()
    precedence()
    forms()
    names()
    faults()
