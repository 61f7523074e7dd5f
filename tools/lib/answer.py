"""The text the fit prints, read back into numbers.

  read R kept K
  fit tau a b rho m sigma            floats are the 16 hex digits of their bits
  search passes recentres shrinks cells faces updates      the last is the solver's work (docs/HOUSE.md)
  margins objective objective_params lee_margin a_margin rmse_vol
  active 0000000                     seven marks in constraint order
  capped N position ..
  point k w fitted residual          one line for each quote kept
or, for a refusal, `refused N X Y` after `read` (and after `search` for 6 to 9), alone for 43.
"""

import math
import re
import struct
from collections import namedtuple

from words import shown

SEARCH = ("passes", "recentres", "shrinks", "cells", "faces", "updates")
FIT = ("tau", "a", "b", "rho", "m", "sigma")
MARGINS = ("objective", "objective_params", "lee_margin", "a_margin", "rmse_vol")
CONSTRAINTS = (
    ("flat slice", "b = 0: the curve is a level line"),
    ("rho upper", "rho = 1"),
    ("rho lower", "rho = -1"),
    ("Lee upper", "the right wing is as steep as Lee's bound allows"),
    ("Lee lower", "the left wing is as steep as Lee's bound allows"),
    ("a_min", "a is at its lower bound"),
    ("a_max", "a is at its upper bound"),
)
NUMBERS = tuple(range(1, 12)) + (43, 44)  # what the program can refuse with

# The answer: fit, margins and search are dictionaries; x and y are the refusal's two values.
Answer = namedtuple("Answer", "read kept fit search margins active capped points number x y")
Point = namedtuple("Point", "k w fitted residual")


class NotAnAnswer(Exception):
    """The text is not what the fit prints; the words say which line."""


def variance(fit, k):
    """The fitted total variance at k: a + b (rho (k - m) + sqrt((k - m)^2 + sigma^2))."""
    x = k - fit["m"]
    return fit["a"] + fit["b"] * (fit["rho"] * x + math.hypot(x, fit["sigma"]))


def vol(w, tau):
    """Implied volatility of a total variance, None where there is none."""
    if not (math.isfinite(w) and w >= 0 and tau > 0 and math.isfinite(tau)):
        return None
    value = math.sqrt(w / tau)
    return value if math.isfinite(value) else None


class Lines:
    """The lines of an answer, taken one by one."""

    def __init__(self, text):
        *self.lines, rest = text.split("\n")
        self.at = len(self.lines)
        if rest:
            self.fail("the text is cut: the line has no end")
        self.at = 0

    def fail(self, why):
        raise NotAnAnswer(f"line {self.at + 1}: {why}")

    def word(self):
        """The first word of the next line, '' at the end."""
        return self.lines[self.at].split(" ")[0] if self.at < len(self.lines) else ""

    def take(self, first, count=None):
        """The words after the first one of the next line, which must start with it."""
        if self.at >= len(self.lines):
            self.fail(f"the text ends where '{first}' should stand")
        words = self.lines[self.at].split(" ")
        if words[0] != first:
            self.fail(f"'{shown(self.lines[self.at])}' where '{first}' should stand")
        if count is not None and len(words) != count + 1:
            self.fail(f"'{first}' has {len(words) - 1} values, wanted are {count}")
        return words[1:]

    def next(self):
        self.at += 1

    def whole(self, text):
        if not re.fullmatch(r"\d{1,20}", text, re.ASCII):
            self.fail(f"'{shown(text)}' is not a count")
        return int(text)

    def number(self, text):
        if not re.fullmatch(r"[0-9a-f]{16}", text):
            self.fail(f"'{shown(text)}' is not 16 hex digits")
        return struct.unpack(">d", bytes.fromhex(text))[0]

    def wholes(self, first, names):
        values = [self.whole(word) for word in self.take(first, len(names))]
        self.next()
        return dict(zip(names, values))

    def numbers(self, first, names):
        values = [self.number(word) for word in self.take(first, len(names))]
        self.next()
        return dict(zip(names, values))


def parse(text):
    """The answer a text of the fit holds, or NotAnAnswer."""
    lines = Lines(text)
    if lines.word() == "refused":
        return refusal(lines, None, None, None)
    words = lines.take("read", 3)
    if words[1] != "kept":
        lines.fail("'kept' should stand after the number read")
    read, kept = lines.whole(words[0]), lines.whole(words[2])
    lines.next()
    if lines.word() == "refused":
        return refusal(lines, read, kept, None)
    if lines.word() == "search":
        return refusal(lines, read, kept, lines.wholes("search", SEARCH))
    fit = lines.numbers("fit", FIT)
    search = lines.wholes("search", SEARCH)
    margins = lines.numbers("margins", MARGINS)
    (marks,) = lines.take("active", 1)
    if not re.fullmatch("[01]{7}", marks):
        lines.fail(f"'{shown(marks)}' is not seven digits 0 or 1")
    lines.next()
    words = lines.take("capped")
    capped = [lines.whole(word) for word in words]
    if not capped or len(capped) != capped[0] + 1:
        lines.fail("the count of capped quotes and the positions after it differ")
    if any(position >= kept for position in capped[1:]):
        lines.fail(f"a position that is not below {kept}")
    lines.next()
    points = []
    while lines.word() == "point":
        points.append(Point(*lines.numbers("point", Point._fields).values()))
    if len(points) != kept:
        lines.fail(f"{len(points)} points where {kept} quotes were kept")
    ended(lines)
    return Answer(read, kept, fit, search, margins, [m == "1" for m in marks], capped[1:], points, 0, None, None)


def refusal(lines, read, kept, search):
    number, x, y = lines.take("refused", 3)
    number = lines.whole(number)
    if number not in NUMBERS:
        lines.fail(f"{number} is not a refusal of the program")
    if (read is None) != (number == 43) or (search is None) == (number in (6, 7, 8, 9)):
        lines.fail(f"a refusal {number} does not stand here")
    of = lines.number if number == 9 else lines.whole
    x, y = of(x), of(y)
    lines.next()
    ended(lines)
    return Answer(read, kept, None, search, None, None, [], [], number, x, y)


def ended(lines):
    if lines.at < len(lines.lines):
        lines.fail(f"'{shown(lines.lines[lines.at])}' after the end of the answer")
