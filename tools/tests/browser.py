"""A browser for the tests: what a page's script writes, and the pixels of a picture."""

import os
import shutil
import struct
import subprocess
import tempfile
import unittest
import zlib

WORDS = ["--headless", "--no-sandbox", "--disable-gpu", "--hide-scrollbars", "--force-device-scale-factor=1"]


def find(tried=[]):
    """The browser; Debian's is installed where there is none, and the test skipped where that can't be."""
    names = ("chromium", "chromium-browser", "google-chrome")
    program = next((found for found in map(shutil.which, names) if found), None)
    if not program and not tried and hasattr(os, "geteuid") and os.geteuid() == 0 and shutil.which("apt-get"):
        tried.append(True)
        install = ["apt-get", "install", "-y", "-qq", "--no-install-recommends", "chromium"]
        try:
            subprocess.run(install, capture_output=True, timeout=400, check=False)
        except subprocess.TimeoutExpired:
            pass
        program = shutil.which("chromium")
    if not program:
        raise unittest.SkipTest("no browser here, and none could be installed (Debian package chromium)")
    return program


def run(page, *words):
    """Runs the browser on the text of a page; what it printed."""
    program = find()
    with tempfile.TemporaryDirectory() as folder:
        path = os.path.join(folder, "page.html")
        with open(path, "w", encoding="utf-8") as file:
            file.write(page)
        call = [program, *WORDS, f"--user-data-dir={folder}/user", *words, path]
        return subprocess.run(call, capture_output=True, timeout=120, check=True, cwd=folder).stdout.decode()


def pixels(page, width, height):
    """The picture of a page: rows of (red, green, blue)."""
    with tempfile.TemporaryDirectory() as folder:
        path = os.path.join(folder, "page.png")
        run(page, f"--window-size={width},{height}", f"--screenshot={path}")
        with open(path, "rb") as file:
            return decode(file.read())


def decode(data):
    """A PNG of 8-bit colours, not interlaced, as rows of (red, green, blue)."""
    assert data[:8] == b"\x89PNG\r\n\x1a\n"
    at, packed = 8, b""
    while at < len(data):
        size, kind = struct.unpack_from(">I4s", data, at)
        body = data[at + 8 : at + 8 + size]
        if kind == b"IHDR":
            width, height, depth, colour, _, _, interlace = struct.unpack(">IIBBBBB", body)
            assert depth == 8 and colour in (2, 6) and interlace == 0
        if kind == b"IDAT":
            packed += body
        at += size + 12
    raw, step = zlib.decompress(packed), {2: 3, 6: 4}[colour]
    line, before, rows = width * step, bytearray(width * step), []
    for y in range(height):
        start = y * (line + 1)
        row = unfiltered(raw[start], bytearray(raw[start + 1 : start + 1 + line]), before, step)
        rows.append([tuple(row[i : i + 3]) for i in range(0, line, step)])
        before = row
    return rows


def unfiltered(kind, row, above, step):
    for i in range(len(row)):
        left = row[i - step] if i >= step else 0
        corner = above[i - step] if i >= step else 0
        up = above[i]
        if kind == 1:
            guess = left
        elif kind == 2:
            guess = up
        elif kind == 3:
            guess = (left + up) // 2
        elif kind == 4:
            guess = nearest(left, up, corner)
        else:
            return row
        row[i] = (row[i] + guess) & 255
    return row


def nearest(left, up, corner):
    """PNG's Paeth guess."""
    sum_ = left + up - corner
    distances = (abs(sum_ - left), abs(sum_ - up), abs(sum_ - corner))
    return (left, up, corner)[distances.index(min(distances))]
