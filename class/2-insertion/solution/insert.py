"""insert.py: reads tokens, one a line (the line of the source, the kind, the spelling), and writes them with the `;` and the DO that
nobody wrote. docs/LANGUAGE.md, Symbols, has the rule."""
import sys

ONLY_COMMANDS = ["$(", "GOTO", "IF", "UNLESS", "TEST", "WHILE", "UNTIL", "FOR", "SWITCHON", "BREAK", "LOOP", "ENDCASE", "RESULTIS",
                 "RETURN", "FINISH"]


class Token:
    def __init__(self, text):
        line, self.kind, self.spelling = text.split(None, 2)
        self.line, self.text = int(line), text

    def symbol(self):
        """The spelling of a word or a sign, without a tag: `$(` for `$(LOOP`. Nothing for the others."""
        if self.kind not in ("word", "sign"):
            return None
        return self.spelling[:2] if self.spelling[:1] == "$" else self.spelling.upper()


def ends_operand(token):
    return token.kind in ("name", "number", "string", "character") or token.symbol() in ("TRUE", "FALSE", "?", ")")


def ends_command(token):
    return ends_operand(token) or token.symbol() in ("$)", "BREAK", "LOOP", "ENDCASE", "RETURN", "FINISH", "REPEAT")


def begins_only_commands(token):
    return token.symbol() in ONLY_COMMANDS


def begins_command(token):
    return begins_only_commands(token) or token.kind in ("name", "number") or token.symbol() in ("(", "!", "CASE", "DEFAULT")


def inserted(before, after):
    """What is inserted between two tokens: ";", "DO" or None."""
    if before.line < after.line and ends_command(before) and begins_command(after):
        return ";"
    if before.line == after.line and ends_operand(before) and begins_only_commands(after):
        return "DO"
    return None


before = None
for text in sys.stdin.read().splitlines():
    token = Token(text)
    if before:
        symbol = inserted(before, token)
        if symbol:
            print("%6d  %-10s  %s" % (token.line, "inserted", symbol))
    print(text)
    before = token
