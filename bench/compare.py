#!/usr/bin/env python3
"""Measures `./ubi_tool same` and `diff` of two images against `cat` of both.

usage: compare.py [--dir FOLDER] [--blocks N] [--tool PROGRAM]

Each image has N eraseblocks (1,024, which is 128 MiB) of 128 KiB, of one volume full of random bytes, dynamic or
static, in an order that looks random; the second one in another order. The pairs have the same contents; differ in one
byte; differ in a byte of every second logical eraseblock; or, for static volumes, differ in length by a byte or by a
whole logical eraseblock. They lie in a new folder below FOLDER (/tmp by default), which is removed afterwards. Without
--tool the program is built first, unless it is built already.

It prints how many times the processor time of `cat` each takes, the least of 31 runs, the three commands in turns. It
ends with status 1 if equal images take more than 1.2 times (dynamic) or 1.6 times (static), or unequal ones more than
1.5 or 2. The limit of 1.0 for dynamic ones is that of an image and itself, which reading.py measures.
"""
import os
import random
import shutil
import subprocess
import sys
import tempfile

from image import mixed
from normalise import GEOMETRY, KINDS, WORDS, eraseblock, options, static_header, tables
from rules import dynamic_header

RUNS = 31
# How many times as long as `cat` of both: for equal images, and for unequal ones. The clock's ticks are allowed for.
MOST = {"dynamic": (1.2, 1.5), "static": (1.6, 2.0)}
TICK = 0.05


def put_image(path, kind, reserved, contents, seed):
    """Writes the image of a volume whose logical eraseblocks hold these contents."""
    with open(path, "wb") as file:
        file.writelines(tables(kind, reserved))
        for number in mixed(len(contents), seed):
            data = contents[number]
            is_static = kind == "static"
            vid = static_header(number, len(contents), data) if is_static else dynamic_header(0, number, number + 1)
            file.write(eraseblock(vid, data))


def changed(data):
    """The data with another byte in the middle."""
    at = len(data) // 2
    return data[:at] + bytes([data[at] ^ 1]) + data[at + 1:]


def pairs(kind, contents):
    """The contents of the second image of each pair, by what differs."""
    yield "nothing", contents
    yield "a byte", [*contents[:-1], changed(contents[-1])]
    yield "every second LEB", [changed(data) if number % 2 else data for number, data in enumerate(contents)]
    if kind == "static":
        yield "the length", [*contents[:-1], contents[-1][:-1]]
        yield "the number of LEBs", contents[:-1]


def used(words):
    """The processor seconds that a command takes, user and system."""
    child = subprocess.Popen(words, stdout=subprocess.DEVNULL)
    _, status, usage = os.wait4(child.pid, 0)
    child.returncode = os.waitstatus_to_exitcode(status)
    if child.returncode not in (0, 1):
        sys.exit(f"{words} ended with {child.returncode}")
    return usage.ru_utime + usage.ru_stime


def main():
    place, count, tool = options(__doc__, "--blocks", 1024)
    folder, above = tempfile.mkdtemp(dir=place), False
    left, right = (os.path.join(folder, name) for name in ("left.img", "right.img"))
    try:
        for kind in KINDS:
            contents = [random.Random(number).randbytes(GEOMETRY.leb) for number in range(count - 2)]
            put_image(left, kind, count - 2, contents, 1)
            for what, others in pairs(kind, contents):
                put_image(right, kind, count - 2, others, 2)
                compared = [[tool, name, left, right, *WORDS] for name in ("same", "diff")]
                commands = [["cat", left, right], *compared]
                least = [min(times) for times in zip(*([used(words) for words in commands] for _ in range(RUNS)))]
                most = MOST[kind][what != "nothing"]
                same, diff = (seconds / least[0] for seconds in least[1:])
                times = f"same {same:.2f}, diff {diff:.2f} times cat ({least[0]:.3f} s)"
                print(f"{kind}, {what} differs: {times}, at most {most}", flush=True)
                above |= max(same, diff) > most + TICK
    finally:
        shutil.rmtree(folder)
    sys.exit(1 if above else 0)


if __name__ == "__main__":
    main()
