#!/usr/bin/env python3
"""volumes.py DUMP FOLDER: finds the image in a dump and its geometry, lists its volumes, and writes the contents of
each to FOLDER/volume_N.bin. The dump has no out-of-band bytes.

    PYTHONPATH=c python3 c/examples/volumes.py dump.bin folder
"""
import mmap
import pathlib
import re
import sys

import ubi


def write_volumes(library, sizes, image, folder):
    """Lists the volumes of an image, and writes the contents of each to a file."""
    listed = library.list(sizes, image)
    print(listed, end="")
    for number in map(int, re.findall(r"^volume (\d+) ", listed, re.M)):
        (pathlib.Path(folder) / f"volume_{number}.bin").write_bytes(library.read(sizes, image, number))


def main(path, folder):
    library = ubi.Library()
    with open(path, "rb") as file, mmap.mmap(file.fileno(), 0, access=mmap.ACCESS_READ) as dump:
        try:
            found = library.geometry(dump)[0]
            if found.oob:
                print("the dump has out-of-band bytes", file=sys.stderr)
                return 1
            with memoryview(dump)[found.start : found.start + found.length] as image:
                write_volumes(library, found.sizes, image, folder)
        except ubi.Refused as refused:
            print(f"refused {refused.cause}", file=sys.stderr)
            return 1
    return 0


if __name__ == "__main__":
    sys.exit(main(*sys.argv[1:3]))
