"""Which rule has which cases. A rule is a heading of a page of docs/, or a bold beginning of a paragraph below one; a statement of OCODE, a
function and an operation of INTCODE, a routine of the library, a symbol of BCPL; and a fault. A case names its headings in `# rule:`; the
other rules are seen in its texts."""
import re

import suite

DOCS = suite.HERE.parent / "docs"
PAGES = ["INTCODE", "OCODE", "LANGUAGE", "SCHEME"]
# What no case can show, and why.
WITHOUT = {"LANGUAGE, What is left out": "it says what the language has not",
           "LANGUAGE, What programs mean, turns": "a turn is a measure of the definition, which no port counts",
           "LANGUAGE, What programs mean, values and cells": "it has the words for the parts after it",
           "SCHEME, A worked section": "it is an example",
           "FAULTS, too long": "64,000,001 items of INTCODE are too many for a case",
           "conformance, The parts": "it is no rule of a port",
           "FAULTS, read fault": "it needs a device that fails", "FAULTS, write fault": "it needs a device that fails",
               "FAULTS, no memory": "it needs a refused request for memory"}
STATEMENTS = """LN TRUE FALSE QUERY LP LG LL LLP LLG LLL LSTR RV NEG NOT MULT DIV REM PLUS MINUS EQ NE LS GR LE GE LSHIFT RSHIFT LOGAND LOGOR EQV NEQV
GETBYTE SP SG SL STIND PUTBYTE JUMP JT JF LAB RES RSTACK STACK STORE ENTRY SAVE FNAP RTAP FNRN RTRN ENDPROC SWITCHON FINISH DATALAB ITEMN ITEML GLOBAL""".split()
SYMBOLS = """AND BE BREAK BY CASE DEFAULT DO ELSE ENDCASE EQ EQV FALSE FINISH FOR GET GLOBAL GOTO IF INTO LET LOOP MANIFEST NE NEQV NOT OR REM REPEAT
REPEATUNTIL REPEATWHILE RESULTIS RETURN STATIC SWITCHON TABLE TEST THEN TO TRUE UNLESS UNTIL VALOF VEC WHILE
$( $) ( ) + - * / ! % @ = ~= < > <= >= << >> ~ & | -> , ; : := ?""".split()
ROUTINES = "STOP RDCH WRCH NEWLINE WRITES WRITEN WRITED GETBYTE PUTBYTE WRITEF".split()


def headings():
    """The rules that are headings of pages."""
    for page in PAGES:
        heading = None
        for line in (DOCS / (page + ".md")).read_text(encoding="utf-8").split("\n"):
            if line.startswith("## "):
                heading = "%s, %s" % (page, line[3:])
                yield heading
            bold = re.match(r"\*\*([^*.]+)\.?\*\*", line)
            if heading and bold:
                yield "%s, %s" % (heading, bold.group(1)[0].lower() + bold.group(1)[1:])


def faults():
    """The faults of a source, of OCODE, of INTCODE and of a run, by the parts of docs/FAULTS.md."""
    part = None
    for line in (DOCS / "FAULTS.md").read_text(encoding="utf-8").split("\n"):
        if line.startswith("## "):
            part = line[3:].partition(" (")[0]
        if line.startswith("### ") and part in ("Sources", "OCODE", "INTCODE", "Runs"):
            yield part, re.sub(r": NAME$| \(status.*", "", line[4:])


def rules_of(case):
    """The rules that a case is about."""
    for rule in (case.rule or "").split("; "):
        yield rule
    for key, part in (("int", "INTCODE"), ("ocode", "OCODE"), ("b", "Sources")):
        line = case.get("line").decode("latin-1")
        if key in case.fields and line and not (key == "ocode" and case.part == "compiler"):
            told = re.sub(r"^(line|section|segment) [0-9]+(, (item|statement) [0-9]+)?: ", "", line).partition(": ")[0]
            yield "%s, %s" % ({101: "Sources", 102: "OCODE", 103: "INTCODE"}.get(case.status, "Runs"), told)
    if case.status in (101, 102, 103, 112):
        return
    if case.part in ("machine", "generator", "compiler"):
        for word in set(case.get("ocode").decode("latin-1").split()) & set(STATEMENTS):
            yield "%s, %s" % ("OCODE" if case.part == "generator" else "SCHEME", word)
    if case.part == "machine":
        text = case.get("int").decode("latin-1")
        for form in set(re.findall(r"\b([LSAJTFKX]I?[PGL]?)-?[0-9]", text)):
            yield "INTCODE, %sn" % form
        for number in set(re.findall(r"\bX([0-9]+)", text)):
            yield "INTCODE, X%s" % number
        for routine in set(re.findall(r"\bLIG([0-9]+) K", text)):
            if 2 <= int(routine) <= 11:
                yield "INTCODE, %s" % ROUTINES[int(routine) - 2]
    if case.part == "generator":
        for routine in set(re.findall(r"\bLG ([0-9]+) (?:FN|RT)AP", case.get("ocode").decode("latin-1"))):
            if 2 <= int(routine) <= 11:
                yield "OCODE, %s" % ROUTINES[int(routine) - 2]
    if case.part in ("compiler", "programs"):
        text = case.get("b").decode("latin-1").upper()
        for word in SYMBOLS:
            if word in text:
                yield "LANGUAGE, %s" % word
        for routine in ROUTINES:
            if case.part == "programs" and routine + "(" in text:
                yield "LANGUAGE, %s" % routine


def all_rules():
    found = list(headings()) + ["%s, %s" % pair for pair in faults()]
    found += ["OCODE, %s" % word for word in STATEMENTS] + ["SCHEME, %s" % word for word in STATEMENTS]
    found += ["INTCODE, %s%sn" % (function, form) for function in "LSAJTFKX" for form in ("", "P", "G", "L", "I", "IP", "IG", "IL")]
    found += ["INTCODE, X%d" % number for number in list(range(1, 34)) + [40, 41]]
    found += ["%s, %s" % (page, routine) for page in ("INTCODE", "OCODE", "LANGUAGE") for routine in ROUTINES]
    return found + ["LANGUAGE, %s" % word for word in SYMBOLS]


def show():
    """Prints the table, and as 'N passed, M failed' the rules that have a case or a reason; returns 1 where a rule has no case, or a case names no rule or one that no page has."""
    count = {rule: {} for rule in all_rules()}
    wrong = []
    for part in suite.ALL_PARTS:
        for case in suite.read(part):
            for rule in set(rules_of(case)):
                if rule in count:
                    count[rule][part] = count[rule].get(part, 0) + 1
                elif rule == (case.rule or "") and not rule.startswith("conformance, "):
                    wrong.append("%s/%s: no such rule: %s" % (part, case.name, rule or "none"))
    exempt = {rule.replace("FAULTS, too long", "INTCODE, too long").replace("FAULTS", "Runs"): why for rule, why in WITHOUT.items()}
    for rule, parts in count.items():
        print("%-60s %s" % (rule,
            " ".join("%s %d" % pair for pair in parts.items()) or "none" + (", since " + exempt[rule] if rule in exempt else "")))
        if not parts and rule not in exempt:
            wrong.append("no case: %s" % rule)
    print("\n".join(wrong + ["%d passed, %d failed" % (len(count) - sum(line.startswith("no case") for line in wrong), len(wrong))]))
    return 1 if wrong else 0
