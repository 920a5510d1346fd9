"""Exercise 7: the lines are those that `check` gives for the starter files; the mended programs are run by `check`."""
import re
from pathlib import Path

from grading import HERE, Part, asked, first_difference, run

KINDS = {"a": "outside", "b": "gone", "c": "unset", "d": "number", "e": "unset"}
OUTPUTS = {"a": b"45", "b": b"1 4 9 16 25 ", "c": b"-1 0 1 ", "d": b"3 0", "e": b"7 apples, 5 pears, 12 in all"}


def answers(path):
    rows = [re.sub("[:,]", " ", line.lower()).split() for line in Path(path).read_text().splitlines()]
    return {row[0]: (row[1:] + ["", ""])[:2] for row in rows if row}


def line_of(kit, letter):
    """The line at which `check` finds the undefined act of a starter file."""
    ran = asked(kit, "check", str(HERE / "7-undefined" / "starter" / (letter + ".b")))
    return re.search(r":(\d+)(?::\d+)?: undefined", ran.errors.decode("utf-8", "replace")).group(1)


def parts(files, kit):
    by_name = {Path(file).name: file for file in files}
    wanted = {letter: (line_of(kit, letter), kind) for letter, kind in KINDS.items()}
    came = answers(by_name["answers.txt"]) if "answers.txt" in by_name else {}

    def check(letter):
        name = letter + ".b"
        if name not in by_name:
            return name, "not handed in"
        ran = run([kit, "check", by_name[name]])
        return name, ran.problem() or first_difference(OUTPUTS[letter], ran.output)

    def answer(letter, place):
        given = came.get(letter, ("", ""))[place]
        return "program " + letter, None if given == wanted[letter][place] else "%s is not right" % given if given else "no answer"

    return [Part("lines", 5, [answer(letter, 0) for letter in wanted]), Part("kinds", 5, [answer(letter, 1) for letter in wanted]),
            Part("the mended programs", 10, [check(letter) for letter in OUTPUTS])]
