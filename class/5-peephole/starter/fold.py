"""fold.py: a filter from OCODE to OCODE that makes constants of operators on constants."""
import sys

NO_WORDS = set("TRUE FALSE QUERY RV NEG NOT MULT DIV REM PLUS MINUS EQ NE LS GR LE GE LSHIFT RSHIFT LOGAND LOGOR EQV NEQV GETBYTE STIND "
               "PUTBYTE STORE FNRN RTRN ENDPROC FINISH".split())
COUNTED = {"ENTRY": (1, 1), "LSTR": (0, 1), "SWITCHON": (0, 2), "GLOBAL": (0, 2)}  # the place of the count, the words for each


def statements(words):
    """The statements of a text, each a list of words."""
    at = 0
    while at < len(words):
        word, size = words[at], words[at] not in NO_WORDS
        if word in COUNTED:
            place, each = COUNTED[word]
            size = place + 1 + each * int(words[at + 1 + place]) + (word == "SWITCHON")
        yield words[at:at + 1 + size]
        at += 1 + size


def folded(found):
    """The statements after the pass."""
    return list(found)  # to be written


for statement in folded(statements(sys.stdin.read().split())):
    print(*statement)
