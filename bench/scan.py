#!/usr/bin/env python3
"""Measures the memory and the time of the scan, with images that image.py makes.

usage: scan.py [--dir FOLDER] [--quick] [PROGRAM WORD ..]

Without PROGRAM it measures `ubi_tool check`, which is built first, unless it is built already. The images have no table
of volumes, so the program only reads, scans and refuses them. With PROGRAM it measures that program, called with the
words; the word IMAGE stands for the image's path. Images are made in a new folder below FOLDER (/tmp by default), up to
512 MiB each, and removed afterwards. --quick leaves out the images of 1,048,576 eraseblocks.

It prints a table, and ends with status 1 if a figure is above one of these limits:
  memory   at most 128 bytes per eraseblock, at the peak
  cksum    262,144 eraseblocks in at most six times the time of `cksum` on the same file, in the same run; if all data
           are copies with a second member of their LEB, in at most twenty times, since each is read separately then
  growth   from a quarter of the eraseblocks on, time grows like n log n, and at most half as much again: memory is
           slower when a processor's caches don't hold it
Times are processor times (user and system), the least of three runs, so other work on the machine counts little.
Memory is the peak minus that of a run on one eraseblock. It needs GNU time.
"""
import math
import os
import shutil
import subprocess
import sys
import tempfile

import image
from image import ROOT

TIME = "/usr/bin/time"
# As ./ubi_tool runs the program.
ENVIRONMENT = {"GLIBC_TUNABLES": "glibc.malloc.hugetlb=1", **os.environ}
MOST_MEMORY, MOST_CKSUMS, MOST_OF_PAIRS, MOST_GROWTH = 128, 6, 20, 1.5
MIDDLE = 2 ** 18
SIZES = (2 ** 16, 2 ** 18, 2 ** 20)


def run(words, folder, runs=3):
    """The processor seconds of a program, the least of some runs, and the greatest peak of memory, in bytes.

    GNU time starts it, since a program that Python starts has Python's own memory in its peak.
    """
    seconds, peaks = [], []
    report = os.path.join(folder, "peak")
    for _ in range(runs):
        quiet = {"stdout": subprocess.DEVNULL, "stderr": subprocess.DEVNULL}
        child = subprocess.Popen([TIME, "--quiet", "-f", "%M", "-o", report, *words], env=ENVIRONMENT, **quiet)
        _, status, usage = os.wait4(child.pid, 0)
        child.returncode = os.waitstatus_to_exitcode(status)
        if child.returncode not in (0, 1):
            sys.exit(f"{words} ended with {child.returncode}")
        seconds.append(usage.ru_utime + usage.ru_stime)
        with open(report, encoding="ascii") as it:
            peaks.append(int(it.read()) * 1024)
    return min(seconds), max(peaks)


def words_of(program, folder, path):
    if program:
        return [path if word == "IMAGE" else word for word in program]
    tool = os.path.join(ROOT, "crates", "ubi_tool", "out", "ubi_tool")
    return [tool, "check", path, "--peb", "512", "--page", "64"]


def make(folder, kind, count):
    path = os.path.join(folder, f"{kind}.img")
    with open(path, "wb") as out:
        for block in image.eraseblocks(kind, count):
            out.write(block)
    return path


def is_scanning(folder):
    """Whether `ubi_tool check` refuses two members of a logical eraseblock with one sequence number."""
    path = make(folder, "one", 1)
    with open(path, "rb") as it:
        block = it.read()
    with open(path, "ab") as it:
        it.write(block)
    ran = subprocess.run(words_of([], folder, path), stdout=subprocess.PIPE, stderr=subprocess.DEVNULL)
    return ran.stdout == b"refused S8 SameSqnum block=1 earlier=0\n"


def measure(folder, program, sizes):
    """Prints the table, and returns what is above a limit."""
    above = []
    _, base = run(words_of(program, folder, make(folder, "rising", 1)), folder)
    print("kind         eraseblocks  seconds  memory per eraseblock   times cksum   growth over n log n")
    for kind in image.KINDS:
        before = None
        for count in sizes:
            path = make(folder, kind, count)
            seconds, peak = run(words_of(program, folder, path), folder)
            memory = (peak - base) / count
            step = seconds / (count * math.log2(count))
            growth = step / before if before else 1.0
            before = step
            line = f"{kind:<12} {count:>11,}  {seconds:>7.2f}   {memory:>20.1f}   "
            if memory > MOST_MEMORY:
                above.append(f"memory of {kind}, {count}")
            if growth > MOST_GROWTH:
                above.append(f"growth of {kind}, {count}")
            if count == MIDDLE:
                times = seconds / run(["cksum", path], folder)[0]
                line += f"{times:>11.1f}   "
                if times > (MOST_OF_PAIRS if kind == "pairs" else MOST_CKSUMS):
                    above.append(f"cksum of {kind}")
            else:
                line += " " * 14
            print(line + f"{growth:>19.2f}", flush=True)
            os.remove(path)
    return above


def main():
    words = sys.argv[1:]
    place, sizes = "/tmp", SIZES
    while words and words[0].startswith("--"):
        word = words.pop(0)
        if word == "--dir" and words:
            place = words.pop(0)
        elif word == "--quick":
            sizes = SIZES[:2]
        else:
            sys.exit(__doc__)
    if not words:
        subprocess.run([os.path.join(ROOT, "ubi_tool"), "--help"], stderr=subprocess.DEVNULL)
    folder = tempfile.mkdtemp(dir=place)
    try:
        if not words and not is_scanning(folder):
            sys.exit("ubi_tool check doesn't scan, so there is nothing to measure")
        above = measure(folder, words, sizes)
    finally:
        shutil.rmtree(folder)
    for figure in above:
        print(f"above the limit: {figure}")
    sys.exit(1 if above else 0)


if __name__ == "__main__":
    main()
