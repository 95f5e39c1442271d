#!/usr/bin/env python3
"""Measures `./ubi_tool geometry`, `check`, `list`, `same` and `diff` against `cat` of the same file, `extract` and
`unpack` against `cp` of it, and `build` against `cp` of the file that `extract` writes.

usage: reading.py [--dir FOLDER] [--blocks N] [--tool PROGRAM]

The images are those of normalise.py: N eraseblocks (1,024, which is 128 MiB) of 128 KiB, of one dynamic or static
volume. They lie in a new folder below FOLDER (/tmp by default), which is removed afterwards. Without --tool the program
is built first, unless it is built already. `same` and `diff` compare an image with itself, and read it twice; so does
the `cat` that they are measured against. `build` makes an image from a config of the one volume, with the same
contents.

It prints the seconds of each, elapsed and of the processor (user and system), the least of five runs, and the peak of
memory, which needs GNU time. It ends with status 1 if a command takes more than 8 MiB of memory, or if the elapsed time
of `check` is more than that of `cat`.
"""
import subprocess
import sys

from normalise import ROOM, WORDS, options, over_images

MOST = 1
SMALL = ("geometry", "check", "list", "same", "diff", "extract", "unpack", "build")
CONFIG = """[volume]
mode=ubi
vol_id=0
vol_name=volume
vol_type={}
image={}
"""


def built(tool, path):
    """Writes the contents of the volume of an image, and a config of it, beside the image. Returns both paths."""
    content, config = f"{path}.content", f"{path}.ini"
    extract = [tool, "extract", path, "--id", "0", "--out", content, *WORDS]
    subprocess.run(extract, check=True, stdout=subprocess.DEVNULL)
    listed = subprocess.run([tool, "list", path, *WORDS], check=True, capture_output=True, text=True).stdout
    with open(config, "w", encoding="ascii") as file:
        file.write(CONFIG.format("static" if " static " in listed else "dynamic", content))
    return content, config


def main():
    place, count, tool = options(__doc__, "--blocks", 1024)

    def runs(path, out):
        content, config = built(tool, path)
        volumes = f"{path}.volumes"
        return {
            "cat": ["cat", path],
            "geometry": [tool, "geometry", path],
            "check": [tool, "check", path, *WORDS],
            "list": [tool, "list", path, *WORDS],
            "cat of two": ["cat", path, path],
            "same": [tool, "same", path, path, *WORDS],
            "diff": [tool, "diff", path, path, *WORDS],
            "cp": ["cp", path, out],
            "extract": [tool, "extract", path, "--id", "0", "--out", out, *WORDS],
            "unpack": ["sh", "-c", f"rm -rf {volumes} && exec {tool} unpack {path} --out {volumes} {' '.join(WORDS)}"],
            "cp of contents": ["cp", content, out],
            "build": [tool, "build", config, "--out", out, *WORDS],
        }

    above = False
    for _, ran in over_images(place, count, runs):
        above |= any(ran[name][2] > ROOM for name in SMALL)
        above |= ran["check"][0] > MOST * ran["cat"][0]
    sys.exit(1 if above else 0)


if __name__ == "__main__":
    main()
