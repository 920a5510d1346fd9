#!/usr/bin/env python3
"""rules.py machine|generator|compiler [COUNT]: prints changes of one place of intcode.c, generate.py or compile.py, made by rule: operators
exchanged, numbers one more or one less, signs of types, registers, conditions turned, statements left out. With COUNT it prints so many, spread
evenly over the file. A change is a line: the old text, a tab, and the new text. The old text occurs once in the file."""
import io
import re
import sys
import tokenize
from pathlib import Path

FOLDER = Path(__file__).resolve().parent.parent
FILES = {"machine": "intcode.c", "generator": "generate.py", "compiler": "compile.py"}
# What a case can't show: the list of steps, names of procedures, options, devices, memory.
LEFT_OUT = {"machine": ["column", "names", "ferror", "fflush", "argv", "option", "verbose", "ocode", "path", "memory(", "room",
    "#include", "static const char", "printf(stderr", "strtoll", "enum", "#define", "NULL, 10",
                        "static struct", "read_names", "unsigned label", "typedef", "exit(status)", "putchar", "if (printf(", "listed",
                            "(Word)words", "fscanf", "name[", "r->", "ended = c"],
            "generator": ["import ", "sys.", "print(", "32000", "1000000"],
                "compiler": ["import ", "sys.", "print(", "LEVELS", "__init__", "RecursionError", "MOST_", "nested too deeply"]}
SWAPS = {"<": ["<=", ">"], "<=": ["<", ">="], ">": [">=", "<"], ">=": [">", "<="], "==": ["!="], "!=": ["=="], "+": ["-"], "-": ["+"],
    "*": ["+"], "/": ["*"], "%": ["/"], "&": ["|"], "|": ["&", "^"], "^": ["|"],
         "<<": [">>"], ">>": ["<<"], "&&": ["||"], "||": ["&&"], "++": ["--"], "+=": ["-=", "="], "-=": ["+="], "|=": ["="],
             "//": ["/ 1 //"], "~": [""], "!": [""],
         "and": ["or"], "or": ["and"], "not": [""], "True": ["False"], "False": ["True"], "max": ["min"], "min": ["max"], "any": ["all"],
             "all": ["any"], "continue": ["break"], "break": ["continue"]}
TYPES = {"int32_t": ["uint32_t"], "0x80000000": ["0x40000000"], "0xC0000000": ["0"], "0x1FFFFFF": ["0xFFFFFF", "0x3FFFFFF"]}
REGISTERS = {"a": ["b"], "b": ["a"], "p": ["c"], "c": ["p"], "x": ["y"], "y": ["x"], "d": ["a"]}
C_TOKEN = re.compile(r"/\*.*?\*/|\"(?:\\.|[^\"\\])*\"|'(?:\\.|[^'\\])*'|0x[0-9A-Fa-f]+|\d+|\w+|<<|>>|<=|>=|==|!=|&&|\|\||\+\+|--|->|\+=|-=|\|=|\S", re.S)


def c_tokens(text):
    return [(match.start(), match.group()) for match in C_TOKEN.finditer(text) if not match.group().startswith("/*")]


def python_tokens(text):
    starts = [0]
    for line in text.split("\n"):
        starts.append(starts[-1] + len(line) + 1)
    last = ""
    for token in tokenize.generate_tokens(io.StringIO(text).readline):
        if token.type in (tokenize.NAME, tokenize.NUMBER, tokenize.OP, tokenize.STRING):
            if not (token.type == tokenize.STRING and last in ("", "\n", "INDENT")):
                yield starts[token.start[0] - 1] + token.start[1], token.string
        last = "INDENT" if token.type in (tokenize.INDENT, tokenize.NEWLINE, tokenize.NL, tokenize.DEDENT) else token.string


def changes_of(kind, token, before, line):
    """What may stand in the place of a token."""
    is_c = kind == "machine"
    if re.fullmatch(r"\d+", token):
        if is_c and before == "case":
            return []
        return [str(int(token) + 1)] + ([str(int(token) - 1)] if int(token) else [])
    if token in SWAPS:
        # (a sign before an operand, a pointer, an address, a comma's star and a keyword's are no operators)
        if token in ("*", "&", "-", "+") and (before in "(,=[{:?<>|+-*&" or before in ("return", "in", "Word", "char", "FILE", "Item",
            "case") or not before):
            return [""] if token == "-" else []
        if is_c and token in ("not", "and", "or", "True", "False", "max", "min", "any", "all"):
            return []
        return SWAPS[token]
    if is_c and token in TYPES:
        return TYPES[token]
    if is_c and token in REGISTERS and ("case" in line or "w &" in line):
        return REGISTERS[token]
    if re.fullmatch(r"'.'", token) and is_c:
        return ["'%s'" % chr(ord(token[1]) ^ 1)]
    if not is_c and re.fullmatch(r'"[A-Z~=<>*/+&|!%@-]+"', token):
        words = [word for word in re.findall(r'"[A-Z~=<>*/+&|!%@-]+"', line) if word != token]
        return words[:1] or ['"?"']
    if token == "if" and not is_c:
        return ["if not"]
    return []


def once(text, start, end, new):
    """The change with as much around it as makes what is there occur once."""
    left, right = start, end
    while text.count(text[left:right]) > 1 or not text[left:right].strip():
        if left and text[left - 1] not in "\n\t" and (start - left <= right - end or text[right] in "\n\t"):
            left -= 1
        elif text[right] not in "\n\t":
            right += 1
        else:
            return None
    return text[left:right], text[left:start] + new + text[end:right]


def statements(kind, text):
    """Statements that are left out: an assignment or a call alone."""
    if kind == "machine":
        for match in re.finditer(r"(?<=[;{)] )(\*?\w+[\w.>\[\]()-]* (?:=|\+=|\|=) [^;{}]*|\w+\+\+|put\([^;]*\)|set_byte\([^;]*\)|write_\w+\([^;]*\))(?=;)", text):
            yield match.start(), match.end(), "(void)0"
        for match in re.finditer(r"(?<=if )\(([^()]|\([^()]*\))*\)", text):
            yield match.start(), match.end(), "(0)"
            yield match.start(), match.end(), "(1)"
    else:
        for match in re.finditer(r"^( +)((?:self|node|names|writer|found|code|strings|declarations|commands|context|set_by|jumps|results|ends|deepest|after|out)[.\w\[\]\"]*(?: [+]?= |\().*)$", text, re.M):
            if match.group(2).count("(") == match.group(2).count(")") and match.group(2).count("[") == match.group(2).count("]"):
                yield match.start(2), match.end(2), "pass"
        # the rows of the table of generate.py
        for match in re.finditer(r"(?<=[ ;\n])(LI?P|LI?G|LL|LIL|SI?P|SG|SL|X|K|D)(\{?\w*\}?)(?= |;|\")",
            text) if kind == "generator" else ():
            letter = match.group(1)
            other = {"LIP": "LP", "LP": "LIP", "LIG": "LG", "LG": "LIG", "LL": "LIL", "LIL": "LL", "SP": "SIP", "SIP": "SP", "SG": "SP",
                "SL": "SP", "X": "L", "K": "J", "D": "C"}[letter]
            yield match.start(1), match.end(1), other
            slot = re.fullmatch(r"\{([abckn])\}", match.group(2))
            if slot:
                yield match.start(2), match.end(2), "{%s}" % {"a": "b", "b": "a", "c": "b", "k": "a", "n": "k"}[slot.group(1)]


def all_changes(kind):
    text = (FOLDER / FILES[kind]).read_text(encoding="utf-8")
    found, before = [], ""
    places = []
    for start, token in c_tokens(text) if kind == "machine" else python_tokens(text):
        line = text[text.rfind("\n", 0, start) + 1:text.index("\n", start)]
        places += [(start, start + len(token), new) for new in changes_of(kind, token, before, line)]
        before = token
    places += list(statements(kind, text))
    if kind == "generator":  # the numbers of operations and of arguments in its table
        first, last = text.index('TABLE = """') + 11, text.index('GLOBAL N*gl')
        for match in re.finditer(r"(?<=[X ])\d+", text[first:last]):
            places.append((first + match.start(), first + match.end(), str(int(match.group()) + 1)))
    for start, end, new in sorted(set(places)):
        line = text[text.rfind("\n", 0, start) + 1:text.index("\n", start)]
        if any(word in line for word in LEFT_OUT[kind]) or text[start:end] == new:
            continue
        change = once(text, start, end, new)
        if change and change not in found:
            found.append(change)
    return found


if __name__ == "__main__":
    changes = all_changes(sys.argv[1])
    count = int(sys.argv[2]) if len(sys.argv) > 2 else len(changes)
    for number in range(count):
        print("%s\t%s" % changes[number * len(changes) // count])
