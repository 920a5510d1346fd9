"""fold.py: a filter from OCODE to OCODE that makes constants of operators on constants."""
import sys

NO_WORDS = set("TRUE FALSE QUERY RV NEG NOT MULT DIV REM PLUS MINUS EQ NE LS GR LE GE LSHIFT RSHIFT LOGAND LOGOR EQV NEQV GETBYTE STIND "
               "PUTBYTE STORE FNRN RTRN ENDPROC FINISH".split())
COUNTED = {"ENTRY": (1, 1), "LSTR": (0, 1), "SWITCHON": (0, 2), "GLOBAL": (0, 2)}  # the place of the count, the words for each


def statements(words):
    """The statements of a text, each a list of words."""
    at = 0
    while at < len(words):
        word, size = words[at], words[at] not in NO_WORDS
        if word in COUNTED:
            place, each = COUNTED[word]
            size = place + 1 + each * int(words[at + 1 + place]) + (word == "SWITCHON")
        yield words[at:at + 1 + size]
        at += 1 + size


def signed(number):
    return (number + (1 << 31)) % (1 << 32) - (1 << 31)


def quotient(x, y):
    return abs(x) // abs(y) * (1 if (x < 0) == (y < 0) else -1)


def shifted(x, y, left):
    word = x % (1 << 32)
    return (word << y if left else word >> y) if 0 <= y < 32 else 0


MONADIC = {"NEG": lambda x: -x, "NOT": lambda x: ~x}
DYADIC = {"MULT": lambda x, y: x * y, "DIV": quotient, "REM": lambda x, y: x - quotient(x, y) * y, "PLUS": lambda x, y: x + y,
          "MINUS": lambda x, y: x - y, "EQ": lambda x, y: -(x == y), "NE": lambda x, y: -(x != y), "LS": lambda x, y: -(x < y),
          "GR": lambda x, y: -(x > y), "LE": lambda x, y: -(x <= y), "GE": lambda x, y: -(x >= y), "LSHIFT": lambda x, y: shifted(x, y, True),
          "RSHIFT": lambda x, y: shifted(x, y, False), "LOGAND": lambda x, y: x & y, "LOGOR": lambda x, y: x | y,
          "EQV": lambda x, y: ~(x ^ y), "NEQV": lambda x, y: x ^ y}
NOTHING = {("PLUS", 0), ("MINUS", 0), ("LOGOR", 0), ("NEQV", 0), ("LSHIFT", 0), ("RSHIFT", 0), ("MULT", 1), ("DIV", 1), ("LOGAND", -1),
           ("EQV", -1)}


def constant(statement):
    """The number that a statement pushes, or None."""
    if statement[0] == "LN":
        return int(statement[1])
    return {"TRUE": -1, "FALSE": 0}.get(statement[0])


def folded(found):
    """The statements after the pass."""
    done = []
    for statement in found:
        word = statement[0]
        second = constant(done[-1]) if done else None
        first = constant(done[-2]) if len(done) > 1 else None
        if word in MONADIC and second is not None:
            done[-1] = ["LN", str(signed(MONADIC[word](second)))]
        elif word in DYADIC and None not in (first, second) and not (word in ("DIV", "REM") and second == 0):
            done[-2:] = [["LN", str(signed(DYADIC[word](first, second)))]]
        elif (word, second) in NOTHING:
            done.pop()
        elif word in ("JT", "JF") and second is not None:
            done.pop()
            if (second != 0) == (word == "JT"):
                done.append(["JUMP", statement[1]])
        else:
            done.append(statement)
    return done


for statement in folded(statements(sys.stdin.read().split())):
    print(*statement)
