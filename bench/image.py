#!/usr/bin/env python3
"""Makes images that scans are measured on: eraseblocks of 512 bytes with pages of 64, the volume-identifier header at
byte 64 and the data at byte 128. All carry one image sequence number, no eraseblock is at fault, and there is no table
of volumes.

usage: image.py KIND COUNT FILE

KIND says what the COUNT eraseblocks are:
  rising    a logical eraseblock each, by rising number
  mixed     the same in an order that looks random
  one       all members of one logical eraseblock, with rising sequence numbers
  one-mixed the same in an order that looks random
  copies    as mixed, each a copy of 384 bytes
  pairs     the same, but two of each logical eraseblock, so that the CRC of all data is computed
"""
import os
import random
import struct
import sys

ROOT = os.path.dirname(os.path.dirname(os.path.abspath(__file__)))
sys.path.append(f"{ROOT}/check/second")
from rules import counter_header, dynamic_header  # noqa: E402

PEB, PAGE, VID, DATA = 512, 64, 64, 128
IMAGE_SEQ = 0x12345678
KINDS = ("rising", "mixed", "one", "one-mixed", "copies", "pairs")
EC = counter_header(7, VID, DATA, IMAGE_SEQ)


def mixed(count, seed=None):
    """The numbers below COUNT in an order that looks random."""
    numbers = list(range(count))
    random.Random(count if seed is None else seed).shuffle(numbers)
    return numbers


def eraseblocks(kind, count):
    """The eraseblocks of an image, one after the other."""
    erased = b"\xFF" * (PEB - DATA)
    for place, k in enumerate(range(count) if kind in ("rising", "one") else mixed(count)):
        if kind in ("one", "one-mixed"):
            yield EC + dynamic_header(0, 0, k + 1) + erased
        elif kind in ("copies", "pairs"):
            number = k if kind == "copies" else k // 2
            data = struct.pack(">I", k) * ((PEB - DATA) // 4)
            yield EC + dynamic_header(0, number, place + 1, data) + data
        else:
            yield EC + dynamic_header(0, k, place + 1) + erased


def main():
    if len(sys.argv) != 4 or sys.argv[1] not in KINDS:
        sys.exit(__doc__)
    with open(sys.argv[3], "wb") as out:
        for block in eraseblocks(sys.argv[1], int(sys.argv[2])):
            out.write(block)


if __name__ == "__main__":
    main()
