"""The largest error of the compiled ln and exp, and the share of their results that are nearest, against mpmath:
python3 tools/elementary/errors.py target/elementary/libport.so [COUNT, for each region] [SEED]"""
import random
import sys

import arguments
from floats import error, library, pattern, value

lib = library(sys.argv[1])
count = int(sys.argv[2]) if len(sys.argv) > 2 else 60000
random.seed(int(sys.argv[3]) if len(sys.argv) > 3 else 1)
for name, regions in (("ln", arguments.LN), ("exp", arguments.EXP)):
    far = made = 0
    for region, draw in regions:
        worst, at, off = 0.0, 0.0, 0
        for _ in range(count):
            x = draw()
            d = error(lib[name](x), *value(name, x))
            if d > worst:
                worst, at = d, x
            off += d > 0.5
        print(f"{name} {region}: {count} arguments, at most {worst:.5f} ulp (at {at!r}, {pattern(at):016x}), nearest {100 - 100 * off / count:.3f} of 100", flush=True)
        if not region.startswith("subnormal results"):
            far, made = far + off, made + count
    print(f"{name}, normal results: {made} arguments, nearest {100 - 100 * far / made:.3f} of 100", flush=True)
