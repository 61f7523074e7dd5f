#!/usr/bin/env python3
"""Square roots and hypotenuses by whole numbers alone, as bit patterns of binary64.

    exact.py records SEED COUNT FILE   COUNT records of three 8-byte numbers (x, y, answer), most significant byte first; y of all ones: a square root
    exact.py list sqrt|hypot           a list of answers in text, always the same, for the program `elementary`

A magnitude is counted in units of 2 ^ -1074; the root of n units is rounded to 53 digits, ties to even, by comparing squares.
"""
import random
import struct
import sys
from math import isqrt

NAN, INFINITY, SIGN, ALONE = 0x7FF8000000000000, 0x7FF0000000000000, 1 << 63, (1 << 64) - 1


def is_nan(b):
    return b % SIGN > INFINITY


def is_infinite(b):
    return b % SIGN == INFINITY


def units(b):
    field, low = b % SIGN >> 52, b % (1 << 52)
    return low if field == 0 else ((1 << 52) + low) << (field - 1)


def pattern(n):
    """The pattern of n units, n of at most 53 digits and then zeros; an infinity from 2 ^ 1024 on."""
    k = max(0, n.bit_length() - 53)
    assert n % (1 << k) == 0
    return min((k << 52) + (n >> k), INFINITY)


def root_units(n):
    q = isqrt(n)
    k = max(0, q.bit_length() - 53)
    q >>= k
    middle = ((2 * q + 1) << k) ** 2
    if 4 * n > middle or (4 * n == middle and q % 2 == 1):
        q += 1
    return pattern(q << k)


def sqrt(x):
    if is_nan(x):
        return NAN
    if x in (0, SIGN, INFINITY):
        return x
    return NAN if x >= SIGN else root_units(units(x) << 1074)


def hypot(x, y):
    if is_infinite(x) or is_infinite(y):
        return INFINITY
    if is_nan(x) or is_nan(y):
        return NAN
    return root_units(units(x) ** 2 + units(y) ** 2)


def field(e):
    return max(0, min(2046, e)) << 52


class Inputs:
    """Numbers of every kind, from one seed."""

    def __init__(self, seed):
        self.random = random.Random(seed)
        self.bits = self.random.getrandbits

    def special(self):
        some = [0, 1, 2, INFINITY, NAN, 1 << 52, (1 << 52) - 1, INFINITY - 1, 0x3FF << 52, (0x3FF << 52) + 1, INFINITY - (1 << 52)]
        return self.random.choice(some) | self.bits(1) << 63

    def tie(self):
        """Two sides of a right triangle whose hypotenuse has 54 digits and is odd: the middle of two values; now and then of the largest and 2 ^ 1024, or beside it."""
        if self.bits(4) == 0:
            return pattern(6081690782099583 << 2044) + self.random.choice([-1, 0, 1]), pattern(16956756496728720 << 2044)
        while True:
            m, n = self.bits(27) | 1 << 26, self.bits(self.random.randrange(10, 27))
            if n == 0 or n >= m or (m + n) % 2 == 0:
                continue
            a, b, c = m * m - n * n, 2 * m * n, m * m + n * n
            if c.bit_length() == 54 and all(v.bit_length() - (v & -v).bit_length() < 53 for v in (a, b)):
                shift = self.random.choice([0, self.bits(10), 1990])
                return pattern(a << shift), pattern(b << shift)

    def near_square(self):
        q = self.bits(54) | 1
        n = q * q
        n >>= max(0, n.bit_length() - 53)
        return max(0, pattern(n << self.random.randrange(0, 1990)) + self.random.choice([-1, 0, 1]))

    def apart(self, gaps):
        x = self.bits(64)
        y = field((x % SIGN >> 52) - self.random.choice(gaps)) | self.bits(52)
        if self.bits(1):
            x &= ~((1 << 52) - 1)
        if self.bits(1):
            y |= (1 << 52) - 1
        return x, y

    def one(self, i):
        kind = i % 5
        if kind == 0:
            return self.special()
        if kind == 1:
            return self.bits(self.random.randrange(1, 53))
        if kind == 2:
            return self.near_square()
        return self.bits(63) if kind == 3 else self.bits(64)

    def two(self, i):
        kind = i % 10
        if kind == 0:
            return self.special(), self.special()
        if kind == 1:
            return self.special(), self.bits(64)
        if kind == 2:
            return self.bits(53), self.bits(self.random.randrange(1, 54))
        if kind == 3:
            return field(self.random.choice([2044, 2045, 2046])) | self.bits(52), field(self.random.randrange(2015, 2047)) | self.bits(52)
        if kind in (4, 5):
            return self.apart([24, 25, 26, 27, 28])
        if kind == 6:
            return self.tie()
        if kind == 7:
            return self.apart(list(range(-30, 31)))
        return self.bits(64), self.bits(64)


def records(seed, count, path):
    inputs = Inputs(seed)
    with open(path, "wb") as out:
        for i in range(count // 2):
            x = inputs.one(i)
            out.write(struct.pack(">QQQ", x, ALONE, sqrt(x)))
            x, y = inputs.two(i)
            out.write(struct.pack(">QQQ", x, y % ALONE, hypot(x, y % ALONE)))


def listed(name):
    inputs = Inputs(2025)
    for i in range(200):
        if name == "sqrt":
            x = inputs.one(i)
            print(f"sqrt {x:016x} {sqrt(x):016x}")
        else:
            x, y = inputs.two(i)
            print(f"hypot {x:016x} {y:016x} {hypot(x, y):016x}")


if __name__ == "__main__":
    if sys.argv[1] == "records":
        records(int(sys.argv[2]), int(sys.argv[3]), sys.argv[4])
    else:
        listed(sys.argv[2])
