"""Floats and their bit patterns, the compiled library, and how far a result is from mpmath's, for the scripts beside this one."""
import ctypes
import math
import struct

from mpmath import libmp

DIGITS = 130  # binary digits of mpmath's value


def pattern(x):
    return struct.unpack("<Q", struct.pack("<d", x))[0]


def number(b):
    return struct.unpack("<d", struct.pack("<Q", b))[0]


def same(a, b):
    """The same bits; any NaN is any NaN."""
    return pattern(a) == pattern(b) or (a != a and b != b)


def library(path):
    """port_exp and port_ln of a shared library (library.sh makes it)."""
    found = ctypes.CDLL(path)
    for name in ("port_exp", "port_ln"):
        getattr(found, name).restype = ctypes.c_double
        getattr(found, name).argtypes = [ctypes.c_double]
    return {"exp": found.port_exp, "ln": found.port_ln}


def value(name, x):
    """ln or exp of a finite x: an odd whole number and a power of two, within 2^-129 of itself."""
    make = libmp.mpf_exp if name == "exp" else libmp.mpf_log
    sign, man, exp, size = make(libmp.from_float(x), DIGITS, "n")
    return (-man if sign else man), exp, size


def error(got, man, exp, size):
    """How far a finite result is from man * 2^exp, in units of the last place that binary64 keeps of it."""
    top, bottom = got.as_integer_ratio()  # bottom is a power of two
    low = bottom.bit_length() - 1
    last = max(exp + size - 53, -1074)
    shift = max(low, -exp, -last)
    apart = (top << (shift - low)) - (man << (shift + exp))
    return abs(apart) / (1 << (shift + last))


def nearest(man, exp, size):
    """man * 2^exp rounded once to binary64, ties to even, subnormals too."""
    last = max(exp + size - 53, -1074)
    whole, rest = divmod(abs(man) << max(exp - last, 0), 1 << max(last - exp, 0))
    half = 1 << max(last - exp, 0) >> 1
    if rest and (rest > half or (rest == half and whole % 2)):
        whole += 1
    return math.copysign(math.ldexp(whole, last), man)
