"""What the tests share: running the tools, and bytes and texts written out by hand from the rules."""

import contextlib
import importlib.machinery
import importlib.util
import io
import os
import struct
import subprocess
import sys
import tempfile
import unittest
from unittest import mock

ROOT = os.path.dirname(os.path.dirname(os.path.dirname(os.path.realpath(__file__))))
HOUSE = os.path.join(ROOT, "tools", "house")
FIT = os.path.join(ROOT, "fit")
SAMPLES = os.path.join(ROOT, "samples")


def program(name, loaded={}):
    """The program tools/NAME as a module, loaded once."""
    if name not in loaded:
        loader = importlib.machinery.SourceFileLoader(f"{name}_program", os.path.join(ROOT, "tools", name))
        module = importlib.util.module_from_spec(importlib.util.spec_from_loader(loader.name, loader))
        loader.exec_module(module)
        loaded[name] = module
    return loaded[name]


def house_module():
    return program("house")


NO_SETTINGS = struct.pack("<I", 0)


def expiry(tau):
    return struct.pack("<I", 1) + struct.pack("<d", tau)


def records(*quotes):
    """Each quote is number, k, w, weight."""
    return struct.pack("<I", len(quotes)) + b"".join(struct.pack("<Q", q[0]) + struct.pack("<ddd", *q[1:]) for q in quotes)


def settings(grid=21, refinements=12, max_recentres=40, sigma_lo=0.005, sigma_hi=10.0, a_min=1e-8, min_observations=5,
             max_rmse_vol=0.02, pivot_tolerance=1e-12, feasibility_tolerance=1e-12, max_weight_ratio=10.0):
    return (
        struct.pack("<I", 1)
        + struct.pack("<QQQ", grid, refinements, max_recentres)
        + struct.pack("<ddd", sigma_lo, sigma_hi, a_min)
        + struct.pack("<Q", min_observations)
        + struct.pack("<dddd", max_rmse_vol, pivot_tolerance, feasibility_tolerance, max_weight_ratio)
    )


def digits(x):
    """The 16 hex digits of a float."""
    return struct.pack(">d", x).hex()


# Six quotes, and below an answer to them whose numbers are made up: only its form matters.
SIX = [(10 + i, -0.5 + 0.2 * i, 0.04 + 0.01 * i, 1.0) for i in range(6)]


def answer_to(quotes, tau=0.25, read=None, capped=(), active="0000010", a=0.01):
    """An accepted answer to these quotes, as the fit would print it."""
    lines = [
        f"read {read or len(quotes)} kept {len(quotes)}",
        "fit " + " ".join(map(digits, (tau, a, 0.1, -0.25, 0.0, 0.5))),
        "search 13 0 12 5733 51534 1234567",
        "margins " + " ".join(map(digits, (1e-6, 1e-6, 1.875, 0.0099, 0.005))),
        f"active {active}",
        " ".join(["capped", str(len(capped)), *map(str, capped)]),
    ]
    for _, k, w, _ in quotes:
        lines.append("point " + " ".join(map(digits, (k, w, w - 0.001, 0.0025))))
    return "\n".join(lines) + "\n"


class Case(unittest.TestCase):
    """Runs the tools in a folder of its own."""

    maxDiff = 4000

    def setUp(self):
        folder = tempfile.TemporaryDirectory()
        self.addCleanup(folder.cleanup)
        self.folder = folder.name

    def put(self, name, content):
        data = content if isinstance(content, bytes) else content.encode()
        with open(os.path.join(self.folder, name), "wb") as file:
            file.write(data)
        return name

    def run_tool(self, *args, given=b"", env=None):
        given = given if isinstance(given, bytes) else given.encode()
        return subprocess.run(args, input=given, capture_output=True, cwd=self.folder, check=False, env=env, timeout=120)

    def run_house(self, *args, given=b""):
        """tools/house as run_tool would run it, but in this process: a hundred times as fast."""
        given = given if isinstance(given, bytes) else given.encode()
        out, err = io.TextIOWrapper(io.BytesIO()), io.StringIO()
        before, status = os.getcwd(), 0
        os.chdir(self.folder)
        try:
            with mock.patch.object(sys, "argv", [HOUSE, *args]), mock.patch.object(sys, "stdin", io.TextIOWrapper(io.BytesIO(given))):
                with contextlib.redirect_stdout(out), contextlib.redirect_stderr(err):
                    house_module().main()
        except SystemExit as end:  # a text is a message for standard error, with status 1
            status = end.code if isinstance(end.code, int) else 1
            err.write("" if isinstance(end.code, int) else f"{end.code}\n")
        finally:
            os.chdir(before)
        out.flush()
        return subprocess.CompletedProcess(args, status, out.buffer.getvalue(), err.getvalue().encode())

    def house(self, *args, given=b""):
        """What it wrote; it must have gone well."""
        done = self.run_house(*args, given=given)
        self.assertEqual((done.returncode, done.stderr), (0, b""), done)
        return done.stdout

    def refused(self, *args, given=b""):
        """The message; it must be one line, with exit status 1 and nothing on standard output."""
        done = self.run_house(*args, given=given)
        self.assertEqual((done.returncode, done.stdout), (1, b""), done)
        message = done.stderr.decode()
        self.assertEqual(message.count("\n"), 1, message)
        self.assertTrue(message.startswith("house: "), message)
        return message[len("house: "):-1]
