#!/usr/bin/env python3
"""Runs the gate's proofs, and prints how much processor time they took, crate by crate.

usage: gate.py COMMAND .. [-- COMMAND ..]

`.ci/run` calls it with `rt ci`, and with `attacks/run --gate`, which plants bugs in what `rt ci` has proved. While the
commands run, it looks at their processes each second, so it knows what a process took except for its last second. It
prints processor minutes: for each crate those of its own proof, of its proof with tests, and of the checks of its bugs;
those of everything, as the system counts them; and the ratio of that to the proof of ubi_table. A ratio of 105 is the
budget of the gate. The exit status is that of the first command that fails; those after it aren't run.

`rt ci` doesn't repeat what it has passed on the machine before, so a ratio is valid only if everything was proved anew,
and it is most exact on a machine that does nothing else.
"""
import os
import re
import resource
import subprocess
import sys
import time

import crates

ROOT = os.path.dirname(os.path.dirname(os.path.dirname(os.path.abspath(__file__))))
TICKS = os.sysconf("SC_CLK_TCK")
KINDS = ("proof", "tests", "bugs")


def read(*path):
    """What a file of a process says; nothing if the process is gone."""
    try:
        with open(os.path.join("/proc", *path), "rb") as file:
            return file.read()
    except OSError:
        return b""


def place(pid):
    """The folder that a process runs in."""
    try:
        return os.readlink(f"/proc/{pid}/cwd")
    except OSError:
        return ""


def work_of(pid):
    """The crate that a process checks, and which part of it; None if it does something else."""
    words = read(pid, "cmdline").decode(errors="replace").split("\0")
    if "--crate-name" not in words[:-1]:
        return None
    crate = words[words.index("--crate-name") + 1]
    if "ubi-attacks" in place(pid):
        return crate, "bugs"
    return crate, "tests" if "--test" in words else "proof"


def look(seen, top):
    """Notes what each process below TOP has taken so far. A process keeps the work that it was first seen with."""
    parents, used = {}, {}
    for pid in filter(str.isdigit, os.listdir("/proc")):
        fields = read(pid, "stat").rpartition(b") ")[2].split()
        if len(fields) > 20:
            parents[pid] = fields[1].decode()
            used[pid, fields[19]] = (int(fields[11]) + int(fields[12])) / TICKS
    for (pid, start), seconds in used.items():
        up = pid
        while up in parents and up != top:
            up = parents[up]
        if up == top:
            work = seen.get((pid, start), (None,))[0] or work_of(pid)
            seen[pid, start] = (work, seconds)


def measure(words, seen):
    """Runs a command, and notes what each process below it took, in processor seconds. Returns its status."""
    child = subprocess.Popen(words, cwd=ROOT, stdin=subprocess.DEVNULL)
    while child.poll() is None:
        look(seen, str(child.pid))
        time.sleep(1)
    return child.returncode


def commands():
    """The commands that the arguments name."""
    found = [[]]
    for word in sys.argv[1:]:
        if word == "--":
            found.append([])
        else:
            found[-1].append(word)
    return found


def main():
    if not all(commands()):
        sys.exit(__doc__)
    began, seen, status = time.monotonic(), {}, 0
    for words in commands():
        status = status or measure(words, seen)
    took = {}
    for work, seconds in seen.values():
        took[work] = took.get(work, 0) + seconds
    usage = resource.getrusage(resource.RUSAGE_CHILDREN)
    whole, first = usage.ru_utime + usage.ru_stime, took.get(("ubi_table", "proof"), 0)
    print(f"{'minutes of the processor':<26}" + "".join(f"{kind:>8}" for kind in KINDS))
    for crate in crates.names():
        print(f"{crate:<26}" + "".join(f"{took.get((crate, kind), 0) / 60:>8.1f}" for kind in KINDS))
    ratio = f"{whole / first:.0f} times the proof of ubi_table" if first else "the proof of ubi_table was kept"
    print(f"{whole / 60:.0f} in all, in {(time.monotonic() - began) / 60:.0f} minutes; {ratio}")
    sys.exit(status)


if __name__ == "__main__":
    main()
