#!/usr/bin/env python3
"""Makes c/out, the library for C and Python, from the libraries that `rt ci` built: `c/build.sh` would build these
again.

usage: c_library.py

The crate of the exports is proved once more, since `rt ci` keeps no archive of it.
"""
import subprocess
import sys

from over_built import ROOT, kit, rattle

CRATE = ROOT / "crates/ubi_c"


def main():
    (CRATE / "out").mkdir(exist_ok=True)
    words = rattle("build", CRATE, "--toolchain", kit() / "toolchain", "--backend", "llvm", "-o", "out/libubi_c.a")
    for command, folder in ((words, CRATE), ([ROOT / "c/build.sh", "--link"], ROOT)):
        made = subprocess.run(
            command, cwd=folder, stdin=subprocess.DEVNULL, stdout=subprocess.PIPE, stderr=subprocess.STDOUT, text=True)
        if made.returncode:
            print("\n".join(made.stdout.splitlines()[-20:]))
            return 1
    return 0


if __name__ == "__main__":
    sys.exit(main())
