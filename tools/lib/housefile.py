"""The house file: bytes to records and back.

Little-endian, three sections, each after its u32 count:
  settings      0 (the defaults) or 1: eleven 8-byte values
  expiry        exactly 1: tau, in years
  observations  0 to 256: quote number (u64), k, w, weight
A float is its eight bytes. Anything else is malformed (refusal 43).
"""

import struct
from collections import namedtuple

MOST_QUOTES = 256

# Name, whether it is a count (else a float), and the default, in the file's order.
SETTINGS = (
    ("grid", True, 21),
    ("refinements", True, 12),
    ("max_recentres", True, 40),
    ("sigma_lo", False, 0.005),
    ("sigma_hi", False, 10.0),
    ("a_min", False, 1e-8),
    ("min_observations", True, 5),
    ("max_rmse_vol", False, 0.02),
    ("pivot_tolerance", False, 1e-12),
    ("feasibility_tolerance", False, 1e-12),
    ("max_weight_ratio", False, 10.0),
)
DEFAULTS = {name: default for name, _, default in SETTINGS}

Quote = namedtuple("Quote", "number k w weight")
House = namedtuple("House", "settings tau quotes given")  # given: the file carries settings of its own


class Malformed(Exception):
    """The bytes are not a house file; the text says where."""


def encode(settings, tau, quotes):
    """The bytes of a house file; settings is None for the defaults."""
    out = [struct.pack("<I", 0 if settings is None else 1)]
    if settings is not None:
        for name, count, _ in SETTINGS:
            out.append(struct.pack("<Q" if count else "<d", settings[name]))
    out.append(struct.pack("<Id", 1, tau))
    out.append(struct.pack("<I", len(quotes)))
    for quote in quotes:
        out.append(struct.pack("<Qddd", *quote))
    return b"".join(out)


def decode(data):
    """The records of a house file, or Malformed."""
    at = 0

    def take(form, what):
        nonlocal at
        size = struct.calcsize(form)
        if at + size > len(data):
            raise Malformed(f"it ends after {len(data)} bytes, inside {what}")
        values = struct.unpack_from(form, data, at)
        at += size
        return values

    (given,) = take("<I", "the count of settings")
    if given > 1:
        raise Malformed(f"the count of settings is {given}; it may be 0 or 1")
    settings = dict(DEFAULTS)
    if given:
        for name, count, _ in SETTINGS:
            (settings[name],) = take("<Q" if count else "<d", f"the setting {name}")
    (expiries,) = take("<I", "the count of expiries")
    if expiries != 1:
        raise Malformed(f"the count of expiries is {expiries}; it must be 1")
    (tau,) = take("<d", "tau")
    (count,) = take("<I", "the count of quotes")
    if count > MOST_QUOTES:
        raise Malformed(f"the count of quotes is {count}; at most {MOST_QUOTES} fit")
    quotes = [Quote(*take("<Qddd", f"quote {i} of {count}")) for i in range(count)]
    if at < len(data):
        raise Malformed(f"{len(data) - at} bytes too many after the last quote")
    return House(settings, tau, quotes, bool(given))


def bits(x):
    """The eight bytes of a float as a number: +0 and -0 differ."""
    return struct.unpack("<Q", struct.pack("<d", x))[0]


def content(quote):
    """What a quote says: the bits of k, w and weight."""
    return bits(quote.k), bits(quote.w), bits(quote.weight)


def key(quote):
    """What makes a retry: the number and the content."""
    return quote.number, content(quote)


def firsts(quotes):
    """For each record the position of the first record with its number and content."""
    seen = {}
    return [seen.setdefault(key(quote), i) for i, quote in enumerate(quotes)]


def kept(quotes):
    """Positions of the records that are no retries."""
    return [i for i, first in enumerate(firsts(quotes)) if i == first]


def alike(quotes, places, what):
    """Those of the places whose quotes have the same `what`, where it is more than one: {first: [first, later, ..]}."""
    found = {}
    for i in places:
        found.setdefault(what(quotes[i]), []).append(i)
    return {same[0]: same for same in found.values() if len(same) > 1}


def retries(quotes):
    """Each quote that was sent more than once: {first: [first, retry, ..]}."""
    return alike(quotes, range(len(quotes)), key)


def clashes(quotes):
    """Each number that has more than one content: {first: [first, the first with each other content, ..]}. The fit refuses them as 44."""
    return alike(quotes, kept(quotes), lambda quote: quote.number)


def first_clash(quotes):
    """[earlier, later]: the first record that clashes with one before it, and the earliest of those; None where no number clashes."""
    return min((places[:2] for places in clashes(quotes).values()), key=lambda pair: pair[1], default=None)


def differing(quotes):
    """Which of k, w and weight differ among these quotes."""
    names = []
    for name in ("k", "w", "weight"):
        values = [getattr(quote, name) for quote in quotes]
        if len(set(map(bits, values))) > 1:
            names.append(name if any(values) else f"{name} (+0 and -0)")
    return names
