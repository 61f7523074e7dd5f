"""The regions from which the scripts beside this one draw arguments: wherever the steps change their way, and where the results are hardest."""
import math
import random

from floats import number, pattern

LN2 = math.log(2)
ONE = pattern(1.0)


def uniform(low, high):
    return lambda: random.uniform(low, high)


def sized(low, high):
    """Of either sign, with an exponent from low to high."""
    return lambda: random.choice((-1, 1)) * 2.0 ** random.uniform(low, high)


def beside(points, least=12, most=50):
    """Next to one of the points, by 2^-least to 2^-most of it."""
    return lambda: points() * (1 + random.uniform(-1, 1) * 2.0 ** -random.randint(least, most))


def beside_one():
    while True:
        x = 1 + random.choice((-1, 1)) * 2.0 ** random.uniform(-53, -1)
        if x != 1:
            return x


EXP = [
    ("size at most 0.3466", uniform(-0.3466, 0.3466)),
    ("-0.3466 to -0.3", uniform(-0.3466, -0.3)),
    ("beside 0, 2^-1074 to 2^-2", sized(-1074, -2)),
    ("0.3466 to 0.7, both signs", lambda: random.choice((-1, 1)) * random.uniform(0.3466, 0.7)),
    ("beside n ln 2", beside(lambda: random.choice((-1, 1)) * random.randint(1, 1021) * LN2)),
    ("beside (n + 1/2) ln 2", beside(lambda: (random.randint(-1021, 1020) + 0.5) * LN2)),
    ("-5 to 0", uniform(-5, 0)),
    ("-708.39 to 709.78", uniform(-708.39, 709.78)),
    ("upper end, 709 to 709.7827", uniform(709, 709.7827)),
    ("lower end of normal results, -708.39 to -707", uniform(-708.39, -707)),
    ("subnormal results, -745.13 to -708.4", uniform(-745.13, -708.4)),
]

LN = [
    ("beside 1, by 2^-53 to 2^-1", beside_one),
    ("within 10,000 floats of 1", lambda: number(ONE + random.choice((-1, 1)) * random.randint(1, 10000))),
    ("0.5 to 2", uniform(0.5, 2)),
    ("0.65 to 0.75", uniform(0.65, 0.75)),
    ("1.3 to 1.42", uniform(1.3, 1.42)),
    ("1.41 to 3", uniform(1.41, 3)),
    ("beside 2^n root 2", lambda: math.ldexp(math.sqrt(2) * (1 + random.uniform(-1, 1) * 2.0 ** -random.randint(8, 50)), random.randint(-1022, 1022))),
    ("0.0001 to 100", lambda: math.exp(random.uniform(-9.2, 4.6))),
    ("every exponent", lambda: number(random.randint(2**52, 2**63 - 2**52 - 1))),
    ("subnormal", lambda: number(random.randint(1, 2**random.randint(1, 52) - 1))),
]

SPECIAL = [0.0, math.inf, math.nan, 1.0, 2.0, 0.5, 710.0, 746.0, 0.3466, 745.1332191019411, 745.1332191019412, 709.782712893384, 709.7827128933841, 708.3964185322641, 5e-324, 2.2250738585072014e-308, 2.225073858507201e-308, 1.7976931348623157e308, math.sqrt(2)]
SPECIAL = [s * x for x in SPECIAL for s in (1, -1)]
SPECIAL += [number(pattern(x) + d) for x in SPECIAL if x == x and x not in (0.0, math.inf, -math.inf) for d in (1, -1)]
