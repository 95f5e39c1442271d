#!/usr/bin/env python3
"""Measures commands that are given no numbers, and commands on dumps with out-of-band bytes.

usage: desk.py [--dir FOLDER] [--blocks N] [--tool PROGRAM]

The image is the dynamic one of normalise.py: N eraseblocks (8,192, which is 1 GiB) of 128 KiB with pages of 2 KiB. It
measures:
  plain   `geometry` and `list` of the image, without a number, against `cat`
  around  `geometry` of a file of that size, half of which is such an image, with random bytes before and after it,
          against `cat`
  oob     `check` and `normalise` of the image with 64 out-of-band bytes after each page, by --oob, against the same
          without them
  sparse  `geometry` of a sparse file of 5 GiB with an image of nine eraseblocks at 3 GiB, in seconds
The files lie in a new folder below FOLDER (/tmp by default), which is removed afterwards; for 8,192 eraseblocks it
needs some 4 GiB there. Without --tool the program is built first, unless it is built already.

It prints a table: how many times as long each takes as what it is measured against, in elapsed seconds, the least of
five runs on a file that was read before; and the peak of memory, which needs GNU time. It ends with status 1 if one is
above its target, or takes more than 16 MiB.
"""
import os
import random
import shutil
import sys
import tempfile

from normalise import PAGE, PEB, WORDS, eraseblocks, measure, options

MIB, GIB = 2**20, 2**30
OOB, ROOM = 64, 16
SPARSE_SIZE, SPARSE_PLACE, SPARSE_BLOCKS = 5 * GIB, 3 * GIB, 9
# The greatest ratio of each measurement to what it is measured against; for the last one the most seconds.
TARGETS = {
    "`geometry`, plain": 0.2,
    "`list` without a number, plain": 0.3,
    "`geometry`, random bytes around": 1.5,
    f"`check --oob {OOB}`": 1.3,
    f"`normalise --oob {OOB}`": 1.6,
    "`geometry`, sparse": 5,
}


def put(path, pieces):
    with open(path, "wb") as file:
        file.writelines(pieces)
    return path


def noise(seed, size):
    """Random bytes, piece by piece."""
    rng = random.Random(seed)
    for at in range(0, size, MIB):
        yield rng.randbytes(min(MIB, size - at))


def around(count):
    """An image of half of the eraseblocks, with random bytes before and after it, a quarter each."""
    yield from noise(1, count // 4 * PEB)
    yield from eraseblocks("dynamic", count // 2)
    yield from noise(2, count // 4 * PEB)


def with_more(count):
    """An image with out-of-band bytes after each page: a code after a page that holds something, 0xFF after a blank
    one."""
    blank = b"\xFF" * PAGE
    code, none = b"\xFF" * (OOB - 24) + bytes(range(24)), b"\xFF" * OOB
    for block in eraseblocks("dynamic", count):
        pages = [block[at : at + PAGE] for at in range(0, PEB, PAGE)]
        yield b"".join(page + (none if page == blank else code) for page in pages)


def put_sparse(path):
    with open(path, "wb") as file:
        file.truncate(SPARSE_SIZE)
        file.seek(SPARSE_PLACE)
        file.writelines(eraseblocks("dynamic", SPARSE_BLOCKS))
    return path


class Measured:
    """Prints what was measured, and notes whether anything is above its target."""

    def __init__(self):
        self.is_above = False
        print("| what | against | times as long | target | seconds | MiB at the peak |")
        print("|---|---|---|---|---|---|", flush=True)

    def add(self, what, against, seconds, run):
        """Adds a run, with what it is measured against and the seconds that this takes."""
        passed, _, most = run
        times, target = passed / seconds, TARGETS[what]
        self.is_above |= times > target or most > ROOM
        unit = "s" if against == "a second" else ""
        print(f"| {what} | {against} | {times:.2f}{unit} | {target}{unit} | {passed:.3f} | {most:.1f} |", flush=True)


def main():
    place, count, tool = options(__doc__, "--blocks", 8192)
    folder = tempfile.mkdtemp(dir=place)
    path, out = os.path.join(folder, "dump"), os.path.join(folder, "out")
    measured = Measured()
    try:
        put(path, eraseblocks("dynamic", count))
        cat = measure(["cat", path], out)[0]
        measured.add("`geometry`, plain", "`cat`", cat, measure([tool, "geometry", path], out))
        measured.add("`list` without a number, plain", "`cat`", cat, measure([tool, "list", path], out))
        check = measure([tool, "check", path, *WORDS], out)[0]
        normalise = measure([tool, "normalise", path, "--out", out, *WORDS], out)[0]
        put(path, with_more(count))
        more = [*WORDS, "--oob", str(OOB)]
        measured.add(f"`check --oob {OOB}`", "`check` without", check, measure([tool, "check", path, *more], out))
        run = measure([tool, "normalise", path, "--out", out, *more], out)
        measured.add(f"`normalise --oob {OOB}`", "`normalise` without", normalise, run)
        put(path, around(count))
        cat = measure(["cat", path], out)[0]
        measured.add("`geometry`, random bytes around", "`cat`", cat, measure([tool, "geometry", path], out))
        os.remove(path)
        measured.add("`geometry`, sparse", "a second", 1, measure([tool, "geometry", put_sparse(path)], out))
    finally:
        shutil.rmtree(folder)
    sys.exit(1 if measured.is_above else 0)


if __name__ == "__main__":
    main()
