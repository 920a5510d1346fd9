"""Exercise 8: the answers are judged by the bodies and the clauses, as functions of Python over small numbers."""
import re
from itertools import product
from pathlib import Path

from grading import Part

BODIES = {"A": lambda x, low, high: low if x < low else high if x > high else x,
          "B": lambda x, low, high: low,
          "C": lambda x, low, high: high if x < low or x > high else x,
          "D": lambda x, low, high: high if x > high else x,
          "E": lambda x, low, high: low if x < low else x,
          "F": lambda x, low, high: low if x < low or x > high else x,
          "G": lambda x, low, high: high if x > high else low}
CLAUSES = {"1": lambda x, low, high, result: not low <= x <= high or result == x,
           "2": lambda x, low, high, result: not x < low or result == low,
           "3": lambda x, low, high, result: not high < x or result == high,
           "4": lambda x, low, high, result: result == x,
           "5": lambda x, low, high, result: not low <= high or low <= result}
INPUTS = [(x, low, high) for x, low, high in product(range(6), repeat=3) if low <= high]


def meets(letter, clauses):
    return all(low <= BODIES[letter](x, low, high) <= high and all(CLAUSES[clause](x, low, high, BODIES[letter](x, low, high)) for clause in clauses)
               for x, low, high in INPUTS)


def parts(files, kit):
    rows = [re.sub("[:,]", " ", line).split() for line in Path(files[0]).read_text().splitlines()]
    said = {word.upper() for row in rows if row[:1] == ["meets"] for word in row[1:]}
    clauses = {word for row in rows if row[:1] == ["clauses"] for word in row[1:] if word in CLAUSES}
    shown = {row[1].upper(): tuple(int(word) for word in row[2:] if word.isdigit()) for row in rows if row[:1] == ["wrong"] and len(row) == 5}
    wrong = [letter for letter in BODIES if letter != "A" and meets(letter, ())]

    def right(inputs):
        return len(inputs) == 3 and inputs[1] <= inputs[2]

    return [
        Part("bodies that meet the contract", 7, [("body " + letter, None if said and (letter in said) == meets(letter, ()) else "not so" if said else "no answer") for letter in BODIES]),
        Part("numbers that show the wrong ones", 4, [("body " + letter, None if right(shown.get(letter, ()))
             and BODIES[letter](*shown[letter]) != BODIES["A"](*shown[letter]) else "no numbers that show it") for letter in wrong]),
        Part("clauses", 3, [("body A", None if clauses and meets("A", clauses) else "it is refused, or there are no clauses"),
                            ("wrong bodies", None if not any(meets(letter, clauses) for letter in wrong) else "one is proved"),
                            ("no more clauses than needed", None if clauses and all(any(meets(letter, clauses - {clause}) for letter in wrong)
                             for clause in clauses) else "one can go")]),
    ]
