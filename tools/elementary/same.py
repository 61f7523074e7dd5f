"""The compiled ln and exp against steps.py, which is docs/ELEMENTARY.md programmed again, bit for bit:
python3 tools/elementary/same.py target/elementary/libport.so [COUNT, for each function and region] [SEED]"""
import random
import sys

import arguments
import steps
from floats import library, number, pattern, same

lib = library(sys.argv[1])
count = int(sys.argv[2]) if len(sys.argv) > 2 else 10000
random.seed(int(sys.argv[3]) if len(sys.argv) > 3 else 2)
ANY = [("any bits", lambda: number(random.getrandbits(64))), ("-750 to 715", lambda: random.uniform(-750, 715))]
made = differ = 0
for name, model, regions in (("exp", steps.exp, arguments.EXP), ("ln", steps.ln, arguments.LN)):
    drawn = [draw() for _, draw in regions + ANY for _ in range(count)]
    for x in arguments.SPECIAL + drawn:
        made += 1
        if not same(lib[name](x), model(x)):
            differ += 1
            print(f"{name} {pattern(x):016x}: library {pattern(lib[name](x)):016x}, steps {pattern(model(x)):016x}")
print(f"{made} arguments, {differ} with other bits")
sys.exit(differ > 0)
