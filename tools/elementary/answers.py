"""Writes the fixed answers of ln and exp that crate `elementary` replays, crates/elementary/data/ln and exp, each line a function, an argument's bits and a result's bits:
python3 tools/elementary/answers.py target/elementary/libport.so
First the special results that document 01 names (a NaN is 7ff8000000000000); where the port gives another it stops. Then 30 arguments of each region of arguments.py, with
mpmath's result rounded to nearest. Left out are arguments whose exact result lies within 0.01 of a last place of the middle between two floats, and those at which the port
does not give the nearest; how many the latter were is printed. So the list shows that results stay as they are, and not how often they are the nearest: errors.py counts that."""
import math
import os
import random
import sys

import arguments
from floats import error, library, nearest, number, pattern, same, value

INF, NAN = math.inf, math.nan
ABOVE, BELOW = number(pattern(710.0) + 1), -number(pattern(746.0) + 1)
SPECIAL = {
    "ln": [(NAN, NAN), (-INF, NAN), (-1.0, NAN), (-5e-324, NAN), (-1.7976931348623157e308, NAN), (0.0, -INF), (-0.0, -INF), (1.0, 0.0), (INF, INF)],
    "exp": [(NAN, NAN), (0.0, 1.0), (-0.0, 1.0), (-INF, 0.0), (BELOW, 0.0), (-1e308, 0.0), (INF, INF), (ABOVE, INF), (1e308, INF)],
}


def bits(x):
    return f"{0x7FF8000000000000 if x != x else pattern(x):016x}"


data = os.path.join(os.path.dirname(os.path.abspath(__file__)), "..", "..", "crates", "elementary", "data")
lib = library(sys.argv[1])
random.seed(4)
skipped = 0
for name, regions in (("ln", arguments.LN), ("exp", arguments.EXP)):
    with open(os.path.join(data, name), "w") as out:
        for x, right in SPECIAL[name]:
            if not same(right, lib[name](x)):
                sys.exit(f"{name} {x!r}: {lib[name](x)!r}")
            out.write(f"{name} {bits(x)} {bits(right)}\n")
        for _, draw in regions:
            made = 0
            while made < 30:
                x = draw()
                right = nearest(*value(name, x))
                if error(right, *value(name, x)) > 0.49:
                    continue
                if not same(right, lib[name](x)):
                    skipped += 1
                    continue
                out.write(f"{name} {bits(x)} {bits(right)}\n")
                made += 1
print(f"written; {skipped} arguments left out at which the port is not the nearest, beside those near a middle")
