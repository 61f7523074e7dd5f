"""What this machine runs. The program is for x86-64, and so is the library but for tools/arm, which compiles it for an Arm machine."""

import os

ROOT = os.path.dirname(os.path.dirname(os.path.dirname(os.path.realpath(__file__))))
NATIVE = os.uname().machine == "x86_64"
# The program fit.
PROGRAM = os.environ.get("KESUPAYRO_FIT") or os.path.join(ROOT, "target", "bin", "fit")
