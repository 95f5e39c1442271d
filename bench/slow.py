#!/usr/bin/env python3
"""Lists what took longest in the last check of a crate, by the times at which its parts were saved.

usage: slow.py CRATE [N]

`rt check` saves each part of what it checks below crates/CRATE/out/incremental. A part is slow if a long time passes
before it is saved in which no other part is, and it is large if there was much to check. It lists N of each (20). If
two jobs run at the same time, each hides the other's time. The last check begins after a pause of five minutes in which
nothing was saved; the parts that it took from an earlier one aren't listed. To time a whole crate, remove its folder
out/ and check it anew.
"""
import re
import sys
from pathlib import Path

CRATES = Path(__file__).resolve().parents[1] / "crates"
PAUSE = 300


def parts(crate):
    """The parts that were saved: when, their names, and their sizes in kB, the latest first."""
    files = (CRATES / crate / "out" / "incremental").glob(f"*/Rattle-{crate}-*.oantt")
    found = []
    for file in files:
        name = re.fullmatch(rf"Rattle-{crate}-(.*?)(\.decls)?\.oantt", file.name)
        if not name.group(2):
            about = file.stat()
            found.append((about.st_mtime, name.group(1), about.st_size // 1000))
    return sorted(found, reverse=True)


def last_check(saved):
    """Those of the parts that the last check saved, in the order of time."""
    for here, (later, earlier) in enumerate(zip(saved, saved[1:])):
        if later[0] - earlier[0] > PAUSE:
            return saved[here::-1]
    return saved[::-1]


def main():
    if len(sys.argv) not in (2, 3):
        sys.exit(__doc__)
    most = int(sys.argv[2]) if len(sys.argv) == 3 else 20
    saved = last_check(parts(sys.argv[1]))
    if not saved:
        sys.exit(f"nothing was checked in {sys.argv[1]} yet")
    waits = [(after - before, name) for (before, _, _), (after, name, _) in zip(saved, saved[1:])]
    print("seconds before it was saved")
    for seconds, name in sorted(waits, reverse=True)[:most]:
        print(f"{seconds:>9.1f}  {name}")
    print("kB")
    for size, name in sorted(((size, name) for _, name, size in saved), reverse=True)[:most]:
        print(f"{size:>9}  {name}")


if __name__ == "__main__":
    main()
