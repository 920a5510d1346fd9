"""insert.py: reads tokens, one a line (the line of the source, the kind, the spelling), and writes them with the `;` and the DO that
nobody wrote. docs/LANGUAGE.md, Symbols, has the rule."""
import sys


class Token:
    def __init__(self, text):
        line, self.kind, self.spelling = text.split(None, 2)
        self.line, self.text = int(line), text

    def sign(self):
        """The spelling of a sign without a tag: `$(` for `$(LOOP`."""
        return self.spelling[:2] if self.spelling[:1] == "$" else self.spelling


def ends_command(token):
    return False  # to be written


def begins_command(token):
    return False  # to be written


def inserted(before, after):
    """What is inserted between two tokens: ";", "DO" or None."""
    return None  # to be written


before = None
for text in sys.stdin.read().splitlines():
    token = Token(text)
    if before:
        symbol = inserted(before, token)
        if symbol:
            print("%6d  %-10s  %s" % (token.line, "inserted", symbol))
    print(text)
    before = token
