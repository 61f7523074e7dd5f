"""Quotes out of a CSV file.

The first line names the columns, in any order:
  number, k, w, weight                       log moneyness and total variance
  number, strike, forward, vol, weight       k = ln(strike / forward), w = vol * vol * tau
Empty lines and lines that start with '#' are skipped. Columns are parted by commas, semicolons or tabs.
"""

import csv
import math
import re

from housefile import MOST_QUOTES, Quote, first_clash
from words import shown

FORMS = (("number", "k", "w", "weight"), ("number", "strike", "forward", "vol", "weight"))
DECIMAL = re.compile(r"[+-]?(\d+\.?\d*|\.\d+)([eE][+-]?\d+)?", re.ASCII)
SPECIAL = re.compile(r"[+-]?(nan|inf|infinity)", re.ASCII | re.IGNORECASE)
LARGEST_COUNT = 2**64 - 1


class BadInput(Exception):
    """What is wrong with what the user gave, in words for the user."""


def whole(text, what):
    """A count from 0 to 2^64 - 1."""
    text = text.strip()
    if not re.fullmatch(r"\d+", text, re.ASCII) or len(text) > 20 or int(text) > LARGEST_COUNT:
        raise BadInput(f"{what} '{shown(text)}' is not a whole number from 0 to {LARGEST_COUNT}")
    return int(text)


def decimal(text, what, unchecked=False):
    """A finite float; unchecked takes nan and inf too."""
    text = text.strip()
    if DECIMAL.fullmatch(text):
        value = float(text)
        if math.isfinite(value) or unchecked:
            return value
        raise BadInput(f"{what} '{shown(text)}' is too large")
    if unchecked and SPECIAL.fullmatch(text):
        return float(text)
    if SPECIAL.fullmatch(text):
        raise BadInput(f"{what} '{shown(text)}' is not a finite number")
    if text.endswith("%") and DECIMAL.fullmatch(text[:-1].strip()):
        raise BadInput(f"{what} '{shown(text)}' is not a number: write {float(text[:-1]) / 100:g} for {shown(text)}")
    raise BadInput(f"{what} '{shown(text)}' is not a number" if text else f"{what} is empty")


def lines_of(text):
    """(line number, fields) of each line that holds something."""
    raw = text.split("\n")
    first = next((line for line in raw if line.strip() and not line.startswith("#")), "")
    delimiter = next((d for d in ",;\t" if d in first), ",")
    blanked = ["" if line.startswith("#") else line.rstrip("\r") for line in raw]
    reader = csv.reader(blanked, delimiter=delimiter, strict=True)
    line = 1
    try:
        for fields in reader:
            if any(field.strip() for field in fields):
                yield line, fields
            line = reader.line_num + 1
    except csv.Error as error:
        why = "a quotation mark is not closed" if "end of data" in str(error) else str(error)
        raise BadInput(f"line {line}: {why}") from None


def form_of(names):
    """Which of the two forms the header names, or what is missing."""
    for form in FORMS:
        if all(name in names for name in form):
            return form
    wanted = FORMS[1] if {"strike", "forward", "vol"} & set(names) else FORMS[0]
    missing = [name for name in wanted if name not in names]
    if not set(names) & set(FORMS[0] + FORMS[1]):
        raise BadInput(
            f"the first line must name the columns: {', '.join(FORMS[0])}; or {', '.join(FORMS[1])}"
        )
    raise BadInput(f"no column {' and no column '.join(missing)}; wanted are {', '.join(wanted)}")


def positive(value, what, text):
    if not value > 0:
        raise BadInput(f"{what} {shown(text)} is not above 0")
    return value


def quote_of(fields, tau, unchecked):
    """One quote from a line's fields, by column name."""
    number = whole(fields["number"], "number")
    weight = decimal(fields["weight"], "weight", unchecked)
    if "k" in fields:
        k = decimal(fields["k"], "k", unchecked)
        w = decimal(fields["w"], "w", unchecked)
        what = "w"
    else:
        strike = positive(decimal(fields["strike"], "strike"), "strike", fields["strike"])
        forward = positive(decimal(fields["forward"], "forward"), "forward", fields["forward"])
        ratio = strike / forward
        if not 0 < ratio < math.inf:
            raise BadInput(f"strike {strike:g} over forward {forward:g} is out of range")
        vol = decimal(fields["vol"], "vol", unchecked)
        k, w, what = math.log(ratio), vol * vol * tau, "vol"
        if vol < 0 and not unchecked:
            raise BadInput(f"vol {shown(fields['vol'])} is below 0")
    if not unchecked:
        if not math.isfinite(w):
            raise BadInput(f"{what} {shown(fields[what])} is too large")
        if w < 0:
            raise BadInput(f"w {shown(fields['w'])} is below 0")
        positive(weight, "weight", fields["weight"])
    return Quote(number, k, w, weight)


def read(text, name, tau, unchecked=False):
    """The quotes of a CSV text, and notes for the user. BadInput says the line."""
    form, names, quotes, places, notes = None, [], [], [], []  # places: the line of each quote
    for line, fields in located(name, lines_of(text)):
        with_line = f"{name} line {line}"
        try:
            if form is None:
                names = [field.strip().lower() for field in fields]
                form = form_of(names)
                doubled = [n for n in form if names.count(n) > 1]
                if doubled:
                    raise BadInput(f"column {doubled[0]} stands there twice")
                extra = [shown(n) or "(no name)" for n in names if n not in form]
                if extra:
                    notes.append(f"{name}: left out: {', '.join(extra)}")
                continue
            if len(fields) != len(names):
                raise BadInput(f"{len(fields)} columns where the first line has {len(names)}")
            if len(quotes) == MOST_QUOTES:
                raise BadInput(f"more than {MOST_QUOTES} quotes; a house file holds at most {MOST_QUOTES}")
            by_name = {n: field for n, field in zip(names, fields) if n in form}
            quotes.append(quote_of(by_name, tau, unchecked))
            places.append(line)
            vol = decimal(by_name["vol"], "vol", unchecked) if "vol" in by_name else 0.0
            if vol > 4:
                notes.append(f"{with_line}: vol {vol:g} means {vol * 100:g} %; is {vol / 100:g} meant?")
        except BadInput as error:
            raise BadInput(f"{with_line}: {error}") from None
    if form is None:
        raise BadInput(f"{name}: empty; the first line must name the columns: {', '.join(FORMS[0])}; or {', '.join(FORMS[1])}")
    clash = None if unchecked else first_clash(quotes)
    if clash:
        earlier, later = clash
        raise BadInput(f"{name} line {places[later]}: number {quotes[later].number} stands in line {places[earlier]} with other values")
    return quotes, notes


def located(name, lines):
    """The lines, with the file's name on an error of the CSV form itself."""
    try:
        yield from lines
    except BadInput as error:
        raise BadInput(f"{name} {error}") from None
