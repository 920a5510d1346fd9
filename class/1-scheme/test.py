"""Exercise 1: the statements are compared with those that `compile` gives for starter/size.b, part by part."""
import re
from pathlib import Path

from grading import HERE, Part, asked, interpret, run

# the statements of OCODE with the number of their words; those with None have a count
WORDS = dict.fromkeys("TRUE FALSE QUERY RV NEG NOT MULT DIV REM PLUS MINUS EQ NE LS GR LE GE LSHIFT RSHIFT LOGAND LOGOR EQV NEQV "
                      "GETBYTE STIND PUTBYTE STORE FNRN RTRN ENDPROC FINISH".split(), 0)
WORDS.update(dict.fromkeys("LN LP LG LL LLP LLG LLL SP SG SL JUMP JT JF LAB RES RSTACK STACK SAVE FNAP RTAP DATALAB ITEMN ITEML".split(), 1))
COUNTED = {"ENTRY": (1, 1), "LSTR": (0, 1), "SWITCHON": (0, 2), "GLOBAL": (0, 2)}  # the place of the count, the words for each

SETTING, DATA = ("ENTRY", "LAB", "DATALAB"), ("DATALAB", "ITEML", "ITEMN")
LABELLED = ("ENTRY", "LAB", "JUMP", "JT", "JF", "RES", "LL", "SL", "LLL")


def statements(text):
    """The statements of a text, each its line and a list of its words. Words that begin no statement are statements of their own."""
    words = [(word, number) for number, line in enumerate(text.split("\n"), 1) for word in line.partition("//")[0].upper().split()]
    found, at = [], 0
    while at < len(words):
        word, size = words[at][0], WORDS.get(words[at][0], 0)
        if word in COUNTED:
            place, each = COUNTED[word]
            count = words[at + 1 + place][0] if at + 1 + place < len(words) else "0"
            size = place + 1 + each * (int(count) if count.isdigit() else 0) + (word == "SWITCHON")
        found.append((words[at][1], [word for word, _ in words[at:at + 1 + size]]))
        at += 1 + size
    return found


def split(found):
    """The procedures of a list of statements, each from its ENTRY to its ENDPROC, or to data or GLOBAL, and the statements outside them."""
    procedures, outside, inside = [], [], False
    for statement in found:
        keyword = statement[1][0]
        if keyword == "ENTRY":
            procedures.append([])
        inside = keyword == "ENTRY" or inside and keyword not in ("DATALAB", "ITEMN", "ITEML", "GLOBAL")
        (procedures[-1] if inside else outside).append(statement)
        inside = inside and keyword != "ENDPROC"
    return procedures, outside


def is_label(word):
    return re.fullmatch(r"L\d+|\?", word) is not None


def labels(words):
    return [word for word in words if is_label(word)]


def numbers(words):
    return [word for word in words if not is_label(word)]


def set_labels(found):
    return [words[1] for _, words in found if words[0] in SETTING and len(words) > 1]


def compared(what, mine, wanted, key, shown):
    """Where two lists of statements differ first by a key of their words: the line there, and what is wanted, as `shown` writes it; of a
    statement that is missing at the end, the first word. A statement of `mine` has its line, its words, and these with the labels that are
    wanted."""
    at = next((n for n, ((_, _, own), (_, other)) in enumerate(zip(mine, wanted)) if key(own) != key(other)), min(len(mine), len(wanted)))
    if at == len(mine) == len(wanted):
        return what, None
    if at == len(mine):
        return what, "%s is missing%s" % (wanted[at][1][0], " after line %d" % mine[-1][0] if mine else "")
    found = "line %d is `%s`" % (mine[at][0], " ".join(mine[at][1]))
    return what, found + (", and `%s` is wanted" % shown(wanted[at][1]) if at < len(wanted) else ", and nothing is wanted there")


def parts(files, kit):
    wanted_text = asked(kit, "compile", given=(HERE / "1-scheme" / "starter" / "size.b").read_bytes()).output.decode()
    text = Path(next((file for file in files if file.endswith(".ocode")), files[0])).read_text()
    (size, start), rest = split(statements(wanted_text))
    procedures, after = split(statements(text))
    made = run([kit, "generate"], re.sub(r"//[^\n]*", "", text).encode())
    ran = interpret(kit, made.output) if made.status == 0 else made
    sound = ran.problem() or (None if ran.output == b"4" else "it writes %r, and 1980 has 4 digits" % ran.output.decode("latin-1"))

    # Labels may have other numbers, which cost points in one place alone. In each part the labels that are set are paired in their order.
    given = [procedures[0] if procedures else [], [statement for procedure in procedures[1:] for statement in procedure], after]
    names, own = {}, {}
    for part, other in zip(given, (size, start, rest)):
        for label, name in zip(set_labels(part), set_labels(other)):
            names.setdefault(label, name)
            own.setdefault(name, label)
    mine, second, data = [[(line, words, [names.get(word, "?") if is_label(word) else word for word in words]) for line, words in part] for part in given]
    as_given = [(line, words, words) for part in given for line, words in part]

    def keyword(words):
        return words[0]

    def renamed(words):
        return " ".join(own.get(word, word) if is_label(word) else word for word in words)

    def of(found, *keywords):
        return [statement for statement in found if statement[1][0] in keywords]

    half = len(size) // 2
    return [
        Part("the statements of SIZE, in their order", 4, [compared("the first half", mine[:half], size[:half], keyword, keyword),
                                                            compared("all", mine, size, keyword, keyword)]),
        Part("slots, numbers and depths of SIZE", 4, [
            compared(what, of(mine, *keywords), of(size, *keywords), numbers, renamed)
            for what, keywords in (("slots", ("LP", "SP")), ("numbers", ("LN", "ENTRY")), ("depths", ("SAVE", "STACK", "RSTACK")))]),
        Part("labels", 4, [compared("where those of SIZE are", of(mine, *LABELLED), of(size, *LABELLED), labels, renamed),
                           compared("their numbers", of(as_given, *SETTING), of(size + start + rest, *SETTING), labels, " ".join)]),
        Part("START", 4, [compared("statements", second, start, keyword, keyword), compared("statements with their words", second, start, list, renamed)]),
        Part("data, and GLOBAL", 2, [compared("data", of(data, *DATA), of(rest, *DATA), list, renamed),
                                     compared("all", data, rest, list, renamed)]),
        Part("`generate` accepts it, and it runs", 2, [("generate and interpret", made.problem() or sound)]),
    ]
