#!/usr/bin/env python3
"""Measures `./ubi_tool normalise`, file to file, against `cp` of the same file.

usage: normalise.py [--dir FOLDER] [--blocks N] [--tool PROGRAM]

Each image has N eraseblocks (1,024, which is 128 MiB) of 128 KiB with pages of 2 KiB: the two copies of the table of
volumes, and logical eraseblocks of one volume, full of random bytes, in an order that looks random. The volume of one
image is dynamic, that of the other static. They lie in a new folder below FOLDER (/tmp by default), which is removed
afterwards. Without --tool the program is built first, unless it is built already.

It prints the seconds of each, elapsed and of the processor (user and system), the least of five runs, each into a new
file, and the peak of memory, which needs GNU time. It ends with status 1 if `normalise` takes more than twice as long
as `cp` by either, or more than four times if the volume is static, whose bytes are read and checked before they are
written; or if it takes more than 8 MiB.
"""
import os
import random
import shutil
import subprocess
import sys
import tempfile
import time

from image import IMAGE_SEQ, ROOT, mixed
from rules import LAYOUT, Geometry, Record, Vid, crc, dynamic_header, put_block, put_ec, put_table, put_vid

# Each kind of volume with its number in a record, and how many times as long as `cp` it may take.
KINDS = {"dynamic": (1, 2), "static": (2, 4)}
PEB, PAGE, ROOM = 131072, 2048, 8
GEOMETRY = Geometry(PEB, PAGE, PAGE, 2 * PAGE, 2**20)
EC = put_ec(GEOMETRY, 7, IMAGE_SEQ)
# The words that give these sizes.
WORDS = ["--peb", str(PEB), "--page", str(PAGE)]


def static_header(number, count, data):
    """The header of one of COUNT logical eraseblocks of a static volume."""
    return put_vid(Vid(2, 0, 0, 0, number, len(data), count, 0, crc(data), number + 1))


def eraseblock(vid, data):
    return put_block(GEOMETRY, EC, vid, data)


def tables(kind, reserved):
    """The eraseblocks with the table of a volume, dynamic or static."""
    table = put_table(GEOMETRY, {0: Record(reserved, 1, KINDS[kind][0], 0, b"root", 0)})
    return [eraseblock(dynamic_header(LAYOUT, copy, 0, compat=5), table) for copy in range(2)]


def eraseblocks(kind, count):
    """The eraseblocks of the image of a volume, dynamic or static, one after the other."""
    yield from tables(kind, count - 2)
    for number in mixed(count - 2, seed=count):
        data = random.Random(number).randbytes(GEOMETRY.leb)
        if kind == "static":
            yield eraseblock(static_header(number, count - 2, data), data)
        else:
            yield eraseblock(dynamic_header(0, number, number + 1), data)


def measure(words, out):
    """The elapsed seconds and those of the processor, the least of five runs into a new file, and the peak in MiB."""
    passed, used = [], []
    for _ in range(5):
        if os.path.exists(out):
            os.remove(out)
        start = time.monotonic()
        child = subprocess.Popen(words, stdout=subprocess.DEVNULL)
        _, status, usage = os.wait4(child.pid, 0)
        passed.append(time.monotonic() - start)
        child.returncode = os.waitstatus_to_exitcode(status)
        if child.returncode != 0:
            sys.exit(f"{words} ended with {child.returncode}")
        used.append(usage.ru_utime + usage.ru_stime)
    return min(passed), min(used), peak(words)


def peak(words):
    """The peak of a run in MiB. GNU time starts it, since a program that Python starts has Python's memory in its
    peak."""
    ran = subprocess.run(["time", "-f", "%M", *words], stdout=subprocess.DEVNULL, stderr=subprocess.PIPE, check=True)
    return int(ran.stderr.split()[-1]) / 1024


def options(usage, name, number):
    """The folder that --dir names, or /tmp; the number that the option NAME gives, or NUMBER; and the program that
    --tool names, or the repository's own."""
    words, place, tool = sys.argv[1:], "/tmp", None
    while words:
        word = words.pop(0)
        if word == "--dir" and words:
            place = words.pop(0)
        elif word == "--tool" and words:
            tool = os.path.abspath(words.pop(0))
        elif word == name and words:
            number = int(words.pop(0))
        else:
            sys.exit(usage)
    return place, number, tool or built_tool()


def built_tool():
    """The path of the program, which is built first unless it is built already."""
    tool = os.path.join(ROOT, "ubi_tool")
    subprocess.run([tool, "--help"], stderr=subprocess.DEVNULL)
    return tool


def put_image(path, kind, count):
    """Writes the image of a volume, dynamic or static, into a file."""
    with open(path, "wb") as it:
        it.writelines(eraseblocks(kind, count))


def over_images(place, count, runs):
    """Prints what some runs take on the image of each kind, and yields the kind and what they took.

    RUNS takes the paths of the image and of the output, and returns the words of each run by its name.
    """
    folder = tempfile.mkdtemp(dir=place)
    print(f"{count} eraseblocks of {PEB} bytes     elapsed   of the processor   MiB at the peak")
    try:
        path, out = os.path.join(folder, "in.img"), os.path.join(folder, "out.bin")
        for kind in KINDS:
            put_image(path, kind, count)
            ran = {name: measure(words, out) for name, words in runs(path, out).items()}
            for name, (passed, used, most) in ran.items():
                print(f"{f'{name}, {kind}':<38} {passed:>7.3f}   {used:>16.3f}   {most:>15.1f}")
            yield kind, ran
    finally:
        shutil.rmtree(folder)


def main():
    place, count, tool = options(__doc__, "--blocks", 1024)

    def runs(path, out):
        return {"cp": ["cp", path, out], "normalise": [tool, "normalise", path, "--out", out, *WORDS]}

    above = False
    for kind, ran in over_images(place, count, runs):
        passed, used = (ran["normalise"][n] / ran["cp"][n] for n in range(2))
        print(f"normalise takes {passed:.1f} times as long as cp, and {used:.1f} times the processor time")
        above |= max(passed, used) > KINDS[kind][1] or ran["normalise"][2] > ROOM
    sys.exit(1 if above else 0)


if __name__ == "__main__":
    main()
