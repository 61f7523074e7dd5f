"""How near exp's correction comes to its limit (1 would be at it), by steps.py:
python3 tools/elementary/limit.py [COUNT] [SEED]"""
import random
import sys

from steps import EDGE, parts, reduced

count = int(sys.argv[1]) if len(sys.argv) > 1 else 1000000
random.seed(int(sys.argv[2]) if len(sys.argv) > 2 else 3)
most, at = 0.0, 0.0
for i in range(count):
    x = (random.uniform(-0.3466, 0.3466), random.uniform(-0.7, 0.7), random.uniform(-745, 709), random.uniform(-5, 0))[i % 4]
    if x > EDGE:
        _, r, l = reduced(x)
    elif x < -EDGE:
        _, r, l = reduced(-x)
        r, l = -r, -l
    else:
        r, l = x, 0.0
    h, c, g = parts(r, l)
    if abs(c) / g > most:
        most, at = abs(c) / g, x
print(f"{count} arguments: |c| is at most {most:.4f} of g (at {at!r})")
