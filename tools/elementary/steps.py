"""exp and ln once more, written from the text of docs/ELEMENTARY.md alone: each operation of Python's floats is one binary64 operation."""
import math

from floats import number, pattern

LN2_HI = number(0x3FE62E42FEE00000)
LN2_LO = number(0x3DEA39EF35793C76)
INV_LN2 = number(0x3FF71547652B82FE)
EDGE = number(0x3FD62EB1C432CA58)
ROOT2 = number(0x3FF6A09E667F3BCD)
G18 = number(0x4218000000000000)
G35 = number(0x4108000000000000)
LIMIT = number(0x3CB0000000000000)
LEAST = number(0x0010000000000000)
LIFT = number(0x4350000000000000)


def parts(x, y):
    """The series h, its correction c and the limit g of the kernel."""
    q = 1.0
    for k in range(18, 4, -1):
        q = 1.0 + x / float(k) * q
    h = q
    for k in range(4, 0, -1):
        h = 1.0 + x / float(k) * h
    t = (G18 + x) - G18
    a = 1.0 + (t + 0.5 * t * t)
    d = (x - t) * (1.0 + ((x + t) / 2.0 + (x * x + x * t + t * t) / 6.0)) + x * x * (x * x) * q / 24.0
    c = a - h + t * t * t / 6.0 + (d + y * h)
    return h, c, h * LIMIT


def kernel(x, y):
    h, c, g = parts(x, y)
    return h + c if c <= g and -g <= c else h


def reduced(a):
    """n, r and l of step 3."""
    n = int(a * INV_LN2 + 0.5)
    f = float(n)
    r = a - f * LN2_HI - f * LN2_LO
    return n, r, a - f * LN2_HI - r - f * LN2_LO


def exp(x):
    if x != x:
        return x
    if x > 710.0:
        return math.inf
    if x < -746.0:
        return 0.0
    if x > EDGE:
        n, r, l = reduced(x)
        m = n // 2
        return kernel(r, l) * 2.0**m * 2.0 ** (n - m)
    if x < -EDGE:
        n, r, l = reduced(-x)
        m = n // 2
        return kernel(-r, -l) * 2.0**-m * 2.0 ** -(n - m)
    return kernel(x, 0.0)


def ln(x):
    if x != x:
        return x
    if x < 0.0:
        return math.nan
    if x == 0.0:
        return -math.inf
    if x == math.inf:
        return x
    y, down = (x * LIFT, 1077) if x < LEAST else (x, 1023)
    e, rest = divmod(pattern(y), 2**52)
    m = number(1023 * 2**52 + rest)
    if m > ROOT2:
        m, e = m * 0.5, e + 1
    k = float(e - down)
    f = m - 1.0
    s = f / (2.0 + f)
    p = 0.0
    for j in range(11):
        p = (p + 2.0 / float(25 - 2 * j)) * (s * s)
    t = (G18 + s) - G18
    g = (G35 + f) - G35
    w = t * (f - g)
    b = (f - (t + t) - t * g - w) / (2.0 + f)
    low = k * LN2_LO + ((b * (s * s + s * t + t * t) * 2.0 / 3.0 + s * (s * s) * p) - (w + b * f))
    high = k * LN2_HI
    head = f - t * g
    cube = 2.0 * (t * t * t) / 3.0
    whole = high + head
    total = whole + cube
    return total + (whole - total + cube + (high - whole + head + low))
