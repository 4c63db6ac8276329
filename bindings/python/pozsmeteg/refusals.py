"""Why a call refused: the number, which the engine alone decides, its words, and where a plain scan finds the first offender."""
import math
from collections import namedtuple

WORDS = {
    1: "the degree is not 2 to 180",
    2: "a count is outside its bound",
    3: "lengths disagree",
    4: "an input is not finite, or a time or key is outside its bound",
    5: "times or keys do not rise",
    6: "a time is not covered by the fields",
    7: "too few states for the arc",
    8: "no state at the arc's start",
    9: "least squares has too small a pivot",
    10: "a number to be handed out is not finite",
}
LATEST = 2**31
FIELDS, NODES, KEYED, OBSERVED, STEPS, RANGES = 32, 64, 200_000, 100_000, 5_302, 63


class Refused(Exception):
    """A call refused: document 01's number, the words for it, and, where it can be told, the list and its row, counted from 0.

    Lists of a submission have the names of the sections of its text (degree, static, fields, states_c, acc_c, states_d, acc_d,
    nodes, observations), others those of the call's arguments. A row is a line of the section; a count or a length has none.
    """

    def __init__(self, number, words=None, list=None, row=None):
        self.number, self.words, self.list, self.row = number, words or WORDS[number], list, row
        super().__init__(number, self.words, list, row)

    def __str__(self):
        where = "" if self.list is None else f" ({self.list})" if self.row is None else f" ({self.list}, row {self.row})"
        return f"refused {self.number}: {self.words}{where}"


# what a call tests of one list: how many entries it has and may have; how long it is and has to be; whether each of its numbers
# is fine, so many of them making a row; whether its numbers rise
Count = namedtuple("Count", "list have least most")
Length = namedtuple("Length", "list have want")
Values = namedtuple("Values", "list numbers width fine")
Order = namedtuple("Order", "list numbers")


def is_time(x):
    return 0.0 <= x <= LATEST


def finite(list, numbers, width=1):
    return Values(list, numbers, max(1, width), math.isfinite)


def bounded(list, numbers):
    """Times and keys have the same bounds."""
    return Values(list, numbers, 1, is_time)


def offends(test):
    """None where a test is met, else its list and row."""
    if isinstance(test, Count):
        return None if test.least <= test.have <= test.most else (test.list, None)
    if isinstance(test, Length):
        return None if test.have == test.want else (test.list, None)
    if isinstance(test, Values):
        at = next((i for i, x in enumerate(test.numbers) if not test.fine(x)), None)
        return None if at is None else (test.list, at // test.width)
    pairs = enumerate(zip(test.numbers, test.numbers[1:]), 1)
    at = next((i for i, (before, here) in pairs if not before < here), None)
    return None if at is None else (test.list, at)


KINDS = {2: Count, 3: Length, 4: Values, 5: Order}


def where(number, tests):
    """List and row of the first of the tests, in the engine's order, that calls for the number; none for another number."""
    for test in tests:
        if isinstance(test, KINDS.get(number, ())):
            found = offends(test)
            if found:
                return found
    return ("degree", 0) if number == 1 else (None, None)


def judged(number, tests=lambda: ()):
    """Raises what a call refused by; its tests are made only then."""
    if number:
        raise Refused(number, WORDS.get(number, "an answer that this version does not know"), *where(number, tests()))
