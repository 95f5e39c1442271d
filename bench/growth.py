#!/usr/bin/env python3
"""Measures how the processor time of each command grows, with images that a stranger may have made.

usage: growth.py [--dir FOLDER] [--blocks N] [--runs N] [--instructions] [KIND ..]

The images have 2^14, 2^16, 2^18 and 2^20 eraseblocks (--blocks is the most) of 512 bytes with pages of 64: the two
copies of the table, two free ones, and otherwise, in an order that looks random (all KINDs by default):
  lebs      a LEB of one dynamic volume each, written as copies
  pairs     the same, but two of each LEB, so that the CRC of all data is computed
  one       members of one LEB
  volumes   LEBs of 128 volumes, two of which are in the table
  static    the pieces of one static volume
  reserved  nothing else; but the table's one volume reserves as many eraseblocks
`compose` takes a text of as many lines: for lebs and pairs `leb` lines of a byte, for one remarks, for volumes `volume`
lines, for static `bytes` lines of a byte; and for reserved the line of a volume that reserves as many eraseblocks.
Outputs go to /dev/null. Images and texts are made in a new folder below FOLDER (/tmp by default), 680 MiB of images for
each kind, and removed afterwards. The program is built first, unless it is built already.

It prints the processor seconds (user and system), the least of N turns over all sizes (3); and how many times more than
n log n they grow over all sizes, and at most from one size to the next. It ends with status 1 if they grow more than
1.3 times as fast over all sizes. From one size to the next they also grow when an image no longer fits into a cache.

With --instructions it counts the program's instructions instead of seconds, in millions, in one run of each under
valgrind, which takes some fifty times as long. Their number depends neither on what else the machine does nor on its
caches, so it ends with status 1 if they grow more than 1.3 times as fast from any size to the next. They don't include
the work of the system, which reads the file and provides pages for it.
"""
import argparse
import math
import os
import re
import shutil
import subprocess
import sys
import tempfile

import image
from image import EC, ROOT, mixed
from normalise import built_tool, static_header
from rules import EMPTY_RECORD, LAYOUT, Geometry, Record, dynamic_header, put_block, put_record
from scan import ENVIRONMENT, run

SIZES = tuple(2**k for k in (14, 16, 18, 20))
MOST = 1.3
WORDS = ("--peb", "512", "--page", "64")
GEOMETRY = Geometry(image.PEB, image.PAGE, image.VID, image.DATA, SIZES[-1])
# The eraseblocks of the table and the free ones.
OTHERS = 4


def block(vid=b"", data=b""):
    return put_block(GEOMETRY, EC, vid, data)


def members(kind, count):
    """The eraseblocks of users' volumes."""
    made = {"lebs": "copies", "pairs": "pairs", "one": "one-mixed"}.get(kind)
    if made:
        return image.eraseblocks(made, count)
    if kind == "volumes":
        return (block(dynamic_header(k % 128, k // 128, k + 1)) for k in mixed(count))
    if kind == "static":
        pieces = ((k, k.to_bytes(4, "big") * (GEOMETRY.leb // 4)) for k in mixed(count))
        return (block(static_header(k, count, piece), piece) for k, piece in pieces)
    return ()


def record(name, reserved, kind):
    return put_record(GEOMETRY, Record(reserved, 1, kind, 0, name, 0))


def records(kind, count):
    """The table's two records."""
    if kind == "volumes":
        return b"".join(record(name, count // 128 + 1, 1) for name in (b"zero", b"one"))
    return record(b"root", 1 if kind == "one" else count, 2 if kind == "static" else 1) + EMPTY_RECORD


def blocks(kind, count):
    for copy in range(2):
        yield block(dynamic_header(LAYOUT, copy, 0, compat=5), records(kind, count - OTHERS))
    yield from members(kind, count - OTHERS)
    yield block()
    yield block()


def text(kind, count):
    """The lines of a text of `compose`."""
    if kind == "volumes":
        return (f"volume {k} dynamic 1 1 00 n{k}\n" for k in mixed(count))
    heading = f"volume 0 {'static' if kind == 'static' else 'dynamic'} {count - OTHERS} 1 00 root\n"
    lebs = (f"leb 0 {k} 5a\n" for k in mixed(count - OTHERS))
    lines = {
        "lebs": lebs,
        "pairs": lebs,
        "one": ("# A remark.\n" for _ in range(count)),
        "static": ("bytes 0 5a\n" for _ in range(count - OTHERS)),
        "reserved": (),
    }
    return (line for part in ((heading,), lines[kind]) for line in part)


KINDS = ("lebs", "pairs", "one", "volumes", "static", "reserved")


def commands(path, spec, new):
    """The words of each command."""
    out = ("--out", "/dev/null")
    yield "list", path
    yield "check", path
    yield "show", path, "--block", "1"
    yield "extract", path, "--id", "0", *out
    yield "compose", spec, *out
    yield "normalise", path, *out
    yield "same", path, path
    yield "diff", path, path
    yield "change", path, "--id", "0", "--lnum", "0", "--from", new, *out
    yield "rename", path, "--id", "0", "--name", "another", *out


def make(folder, kind, count):
    """The paths of an image, a text, and the bytes of a change."""
    paths = [os.path.join(folder, name) for name in ("image", "text", "new")]
    with open(paths[0], "wb") as it:
        it.writelines(blocks(kind, count))
    with open(paths[1], "w", encoding="ascii") as it:
        it.writelines(text(kind, count))
    with open(paths[2], "wb") as it:
        it.write(bytes(image.PAGE))
    return paths


def first_line(words):
    ran = subprocess.run(words, capture_output=True, text=True, env=ENVIRONMENT)
    return (ran.stdout.splitlines() or [ran.stderr])[0][:40]


def seconds(words, folder):
    """The processor seconds that a program takes."""
    return run(words, folder, 1)[0]


def instructions(words, folder):
    """How many instructions a program takes, in millions."""
    log = os.path.join(folder, "instructions")
    options = ("--tool=cachegrind", "--cache-sim=no", "--cachegrind-out-file=/dev/null", f"--log-file={log}")
    ran = subprocess.run(["valgrind", *options, *words], stdout=subprocess.DEVNULL, stderr=subprocess.DEVNULL)
    if ran.returncode not in (0, 1):
        sys.exit(f"{words} ended with {ran.returncode}")
    with open(log, encoding="ascii") as it:
        return int(re.search(r"I +refs: +([0-9,]+)", it.read()).group(1).replace(",", "")) / 1e6


def faster(taken, first, last):
    """How many times more than n log n the last size takes, compared with the first."""
    return taken[last] / taken[first] / (last * math.log(last) / (first * math.log(first)))


def growth(taken):
    """That from the least size to the greatest, and the most from one size to the next."""
    sizes = list(taken)
    return faster(taken, sizes[0], sizes[-1]), max(faster(taken, *pair) for pair in zip(sizes, sizes[1:]))


def measure(tool, folder, kind, sizes, cost, runs):
    """Prints what each command takes, and returns the growth of each.

    Each turn runs each command on each size once: so a machine that is slow for a while is slow for all of them.
    """
    paths = {}
    for count in sizes:
        os.mkdir(os.path.join(folder, f"{kind}-{count}"))
        paths[count] = make(os.path.join(folder, f"{kind}-{count}"), kind, count)
    least, said = {}, {}
    for _ in range(runs):
        for count in sizes:
            for command in commands(*paths[count]):
                of = least.setdefault(command[0], {})
                took = cost([tool, *command, *WORDS], folder)
                of[count] = min(took, of.get(count, took))
    for command in commands(*paths[sizes[-1]]):
        said[command[0]] = first_line([tool, *command, *WORDS])
    for count in sizes:
        shutil.rmtree(os.path.join(folder, f"{kind}-{count}"))
    for name, of in least.items():
        whole, most = growth(of)
        took = (f"{one:>9.3f}" for one in of.values())
        print(f"{kind:<9} {name:<10}", *took, f"{whole:>6.2f} {most:>6.2f}   {said[name]}", flush=True)
    return {f"{name} of {kind}": growth(of) for name, of in least.items()}


def main():
    words = argparse.ArgumentParser(description=__doc__, formatter_class=argparse.RawDescriptionHelpFormatter)
    words.add_argument("--dir", default="/tmp")
    words.add_argument("--blocks", type=int, default=SIZES[-1])
    words.add_argument("--runs", type=int, default=3)
    words.add_argument("--instructions", action="store_true")
    words.add_argument("kinds", nargs="*", metavar="KIND", choices=[*KINDS, []])
    words = words.parse_args()
    sizes = [size for size in SIZES if size <= words.blocks]
    if len(sizes) < 2:
        sys.exit(f"growth needs at least two sizes: --blocks {SIZES[1]}")
    built_tool()
    tool = os.path.join(ROOT, "crates", "ubi_tool", "out", "launched", "ubi_tool")
    cost, runs = (instructions, 1) if words.instructions else (seconds, words.runs)
    folder = tempfile.mkdtemp(dir=words.dir)
    grown = {}
    heading = " whole   step   first line, of the greatest size"
    print(f"{'kind':<9} {'command':<10}", *(f"{size:>9,}" for size in sizes), heading)
    try:
        for kind in words.kinds or KINDS:
            grown.update(measure(tool, folder, kind, sizes, cost, runs))
    finally:
        shutil.rmtree(folder)
    fast = [name for name, (whole, step) in grown.items() if (step if words.instructions else whole) > MOST]
    for name in fast:
        print(f"grows too fast: {name}")
    sys.exit(1 if fast else 0)


if __name__ == "__main__":
    main()
