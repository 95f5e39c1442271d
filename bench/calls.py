#!/usr/bin/env python3
"""Measures the calls for C on an image in memory against the program's commands on the same file.

usage: calls.py [--dir FOLDER] [--blocks N] [--tool PROGRAM]

The images are those of normalise.py, N eraseblocks (1,024, which is 128 MiB) of 128 KiB, of one dynamic or static
volume, and for plans that of editing.py. They lie in a new folder below FOLDER (/tmp by default), which is removed
afterwards. Without --tool the program is built first, unless it is built already. The library is the one that
c/build.sh has put into c/out. Each call has as much room as its answer needs, except one, which has no room and so only
counts the bytes of the normal image.

It prints the elapsed seconds of each call, and those of the command, which also starts, and reads and writes files: the
least of five. It ends with status 1 if a call takes longer than its command. The call without room is measured against
`normalise`, and `map` against `check`.
"""
import os
import subprocess
import sys
import tempfile
import time

from editing import put_files
from image import ROOT
from normalise import GEOMETRY, KINDS, PEB, WORDS, options, put_image
from c_calls import Caller, sizes_of  # image.py has put check/second on the path

SIZES = sizes_of(GEOMETRY)


def least(run):
    """The least seconds of five runs."""
    return min(run() for _ in range(5))


def command(tool, words, out):
    """The seconds that a command takes; if it writes a file, it writes a new one."""
    if os.path.exists(out):
        os.remove(out)
    start = time.monotonic()
    subprocess.run([tool, *words], check=True, stdout=subprocess.DEVNULL)
    return time.monotonic() - start


def call(caller, name, room, paths, numbers):
    """The seconds that a call takes, with so much room for its answer and its pages."""
    status, *_ = caller.call(name, SIZES, room, room, paths, numbers)
    if status != 0:
        sys.exit(f"ubi_{name} ended with {status}")
    return caller.took / 1e9


def runs_of(path, out, room):
    """The calls on an image: the name of each, its room, its files and numbers, and the words of the command."""
    one, two, sized = [path], [path, path], [path, *WORDS]
    return {
        "geometry": ("geometry", 4096, one, [], ["geometry", path]),
        "check": ("check", 4096, one, [], ["check", *sized]),
        "list": ("list", 4096, one, [], ["list", *sized]),
        "show": ("show", 4096, one, [1], ["show", *sized, "--block", "1"]),
        "map": ("map", 65536, one, [], ["check", *sized]),
        "read": ("read", room, one, [0], ["extract", *sized, "--id", "0", "--out", out]),
        "normalise": ("normalise", room, one, [], ["normalise", *sized, "--out", out]),
        "normalise, no room": ("normalise", 0, one, [], ["normalise", *sized, "--out", out]),
        "same": ("same", 4096, two, [], ["same", path, path, *WORDS]),
        "diff": ("diff", 4096, two, [], ["diff", path, path, *WORDS]),
    }


def plans_of(path, new, name, out):
    """The calls for plans, likewise."""
    common = [path, *WORDS, "--out", out, "--id", "0"]
    return {
        "change": ("change", 4 * PEB, [path, new], [0, 0], ["change", *common, "--lnum", "0", "--from", new]),
        "rename": ("rename", 4 * PEB, [path, name], [0], ["rename", *common, "--name", "other"]),
    }


def measure(caller, tool, kind, runs, out):
    """Prints what each run takes. Returns whether a call takes longer than its command."""
    above = False
    for name, (what, room, paths, numbers, words) in runs.items():
        here = least(lambda: call(caller, what, room, paths, numbers))
        there = least(lambda: command(tool, words, out))
        print(f"{f'{name}, {kind}':<38} {here:>7.3f}   {there:>7.3f}", flush=True)
        above |= here > there
    return above


def main():
    place, count, tool = options(__doc__, "--blocks", 1024)
    above = False
    with tempfile.TemporaryDirectory(dir=place) as folder:
        caller = Caller(f"{ROOT}/c/out", folder, ())
        path, out, new, name = (f"{folder}/{file}" for file in ("in.img", "out.bin", "new", "name"))
        print(f"{count} eraseblocks of {PEB} bytes {'':<10} call   command")
        for kind in KINDS:
            put_image(path, kind, count)
            above |= measure(caller, tool, kind, runs_of(path, out, (count + 2) * PEB), out)
        put_files(path, new, count)
        with open(name, "wb") as file:
            file.write(b"other")
        above |= measure(caller, tool, "dynamic", plans_of(path, new, name, out), out)
        caller.end()
    sys.exit(1 if above else 0)


if __name__ == "__main__":
    main()
