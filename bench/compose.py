#!/usr/bin/env python3
"""Measures `./ubi_tool compose`, file to file, against `cat` of the same text into a file.

usage: compose.py [--dir FOLDER] [--mib N] [--tool PROGRAM]

The text has N MiB (64) of `leb` lines, once with whole LEBs of 126,976 bytes and once with LEBs of 384 bytes, each full
of random bytes, in an order that looks random, after the line of their one dynamic volume. It lies in a new folder
below FOLDER (/tmp by default), which is removed afterwards. Without --tool the program is built first, unless it is
built already.

It prints the seconds of each, elapsed and of the processor (user and system), the least of five runs, each into a new
file, and ends with status 1 if `compose` takes more than six times as long as `cat` by either.
"""
import os
import random
import shutil
import sys
import tempfile

from image import mixed
from normalise import measure, options

MOST = 6
SHAPES = ((131072, 2048), (512, 64))


def text(peb, page, size):
    """The lines of a text of at least so many bytes."""
    leb = peb - 2 * page
    count = size // (2 * leb + 12) + 1
    yield f"volume 0 dynamic {count} 1 00 root\n"
    for number in mixed(count):
        yield f"leb 0 {number} {random.Random(number).randbytes(leb).hex()}\n"


def main():
    place, mib, tool = options(__doc__, "--mib", 64)
    folder = tempfile.mkdtemp(dir=place)
    worst = 0
    print(f"{'text':<38} elapsed   of the processor")
    try:
        for peb, page in SHAPES:
            path, out = os.path.join(folder, "in.txt"), os.path.join(folder, "out.img")
            with open(path, "w", encoding="ascii") as it:
                it.writelines(text(peb, page, mib << 20))
            cat = measure(["sh", "-c", f"cat {path} > {out}"], out)
            sizes = ["--peb", str(peb), "--page", str(page)]
            composed = measure([tool, "compose", path, "--out", out, *sizes], out)
            for name, (passed, used, _) in (("cat", cat), ("compose", composed)):
                print(f"{f'{name}, LEBs of {peb - 2 * page} bytes':<38} {passed:>7.3f}   {used:>16.3f}")
            worst = max(worst, composed[0] / cat[0], composed[1] / cat[1])
    finally:
        shutil.rmtree(folder)
    print(f"compose takes at most {worst:.1f} times as long as cat")
    sys.exit(1 if worst > MOST else 0)


if __name__ == "__main__":
    main()
