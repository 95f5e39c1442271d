#!/usr/bin/env python3
"""Measures `./ubi_tool change`, `rename` and `update`, file to file, against `cp` of the same file.

usage: editing.py [--dir FOLDER] [--blocks N] [--tool PROGRAM]

The image is the dynamic one of normalise.py with N eraseblocks (1,024, which is 128 MiB) of 128 KiB, the last two of
which are free. One page of a logical eraseblock is changed, and the volume renamed; each writes the whole image with
its steps done. `update` works on an image with as many eraseblocks, eight of which have bytes of the volume: it gets
half of the image's bytes. The files lie in a new folder below FOLDER (/tmp by default), which is removed afterwards.
Without --tool the program is built first, unless it is built already.

It prints the seconds of each, elapsed and of the processor (user and system), the least of five runs, each into a new
file, and the peak of memory, which needs GNU time. It ends with status 1 if `change` or `rename` takes more than twice
the elapsed time of `cp`, or more than 8 MiB; or `update` more than 2.5 times, or more than 4 MiB.
"""
import os
import random
import shutil
import sys
import tempfile

from normalise import EC, GEOMETRY, PAGE, PEB, ROOM, WORDS, eraseblock, eraseblocks, measure, options, tables
from rules import dynamic_header

# How many times as long as `cp` each may take, and how many MiB.
MOST = {"change": (2, ROOM), "rename": (2, ROOM), "update": (2.5, 4)}
FREE = EC.ljust(PEB, b"\xFF")


def put_files(image, new, count):
    """Writes the image with its two free eraseblocks, and the file with a page of new bytes."""
    with open(image, "wb") as it:
        it.writelines(eraseblocks("dynamic", count - 2))
        it.write(FREE * 2)
    with open(new, "wb") as it:
        it.write(b"n" * PAGE)


def put_roomy(image, contents, count):
    """Writes the image whose volume has few bytes, and the file with its new contents."""
    rng, size = random.Random(count), count // 2 * PEB
    with open(image, "wb") as it:
        it.writelines(tables("dynamic", -(-size // GEOMETRY.leb)))
        for number in range(8):
            it.write(eraseblock(dynamic_header(0, number, number + 1), rng.randbytes(GEOMETRY.leb)))
        it.writelines(FREE for _ in range(count - 10))
    with open(contents, "wb") as it:
        it.writelines(rng.randbytes(PEB) for _ in range(count // 2))


def main():
    place, count, tool = options(__doc__, "--blocks", 1024)
    folder = tempfile.mkdtemp(dir=place)
    print(f"{count} eraseblocks of {PEB} bytes     elapsed   of the processor   MiB at the peak")
    try:
        names = ("in.img", "new.bin", "roomy.img", "root.bin", "out.img")
        image, new, roomy, contents, out = (os.path.join(folder, name) for name in names)
        put_files(image, new, count)
        put_roomy(roomy, contents, count)
        runs = {
            "cp": ["cp", image, out],
            "change": [tool, "change", image, "--id", "0", "--lnum", "0", "--from", new, "--out", out, *WORDS],
            "rename": [tool, "rename", image, "--id", "0", "--name", "other", "--out", out, *WORDS],
            "update": [tool, "update", roomy, f"--write=root={contents}", "--out", out, *WORDS],
        }
        ran = {name: measure(words, out) for name, words in runs.items()}
    finally:
        shutil.rmtree(folder)
    for name, (passed, used, most) in ran.items():
        print(f"{name:<38} {passed:>7.3f}   {used:>16.3f}   {most:>15.1f}")
    times = ran["cp"][0]
    sys.exit(1 if any(ran[name][0] > most * times or ran[name][2] > room for name, (most, room) in MOST.items()) else 0)


if __name__ == "__main__":
    main()
