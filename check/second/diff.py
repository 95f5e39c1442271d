#!/usr/bin/env python3
"""Compares the answers of `diff` and `same` for random pairs of images with docs/FORMAT.md, as check/second/rules.py
reads it.

usage: diff.py [--seed N] [--count N] [--large N] [--first N] [--dir FOLDER] [--tool PROGRAM]

The left image of a pair is made as fuzz.py makes images. The right one is the same, changed in one to three places: a
bit of a logical eraseblock, also of a static volume, which is damaged then; eraseblocks erased or doubled; a field of a
record in both copies of the table, with the right CRC; a volume more or less; the image sequence number; and always
other wear and another order. Now and then the right one is another image altogether. Some are refused then. `diff` has
to print exactly the differences of the two meanings, in both orders, and `same` its last line.

By default there are 500 pairs (--count) of the seed 1 (--seed), and 5 (--large) with eraseblocks of 128 KiB. The last
line is 'N passed, M failed', and the exit status is 0 if none failed.
"""
import dataclasses

import fuzz
import rules
from fuzz import REAL_SIZES, Maker, Mutator, Runner, built, finish, options, run_cases
from rules import Refused

KINDS = {1: "dynamic", 2: "static"}


def sides(left, right):
    return f"left={left} right={right}\n"


def fields(record):
    """What a line of a difference says about each field."""
    return {
        "kind": KINDS[record.kind],
        "reserved": record.reserved,
        "alignment": record.alignment,
        "flags": f"{record.flags:02x}",
        "name": rules.shown(record.name),
    }


def leb_of(content, record, usable, lnum):
    """The contents of a LEB; None if the volume has no such LEB."""
    if isinstance(content, bytes):
        return content[lnum * usable:(lnum + 1) * usable] or None
    return content.get(lnum, b"\xFF" * usable) if lnum < record.reserved else None


def ranges(numbers):
    """Consecutive numbers, as first and last."""
    found = []
    for number in numbers:
        if found and found[-1][1] + 1 == number:
            found[-1][1] = number
        else:
            found.append([number, number])
    return found


def volume_lines(left, right, number):
    """The lines for a volume that both images have."""
    geometry = left.geometry
    one, other = left.records[number], right.records[number]
    a, b = left.contents[number], right.contents[number]
    here, there = fields(one), fields(other)
    for name, value in here.items():
        if value != there[name]:
            yield f"{name} {sides(value, there[name])}"
    states = [content if isinstance(content, str) else "whole" for content in (a, b)]
    if states[0] != states[1]:
        yield f"contents {sides(*states)}"
    if states != ["whole", "whole"]:
        return
    if isinstance(a, bytes) and isinstance(b, bytes) and len(a) != len(b):
        yield f"bytes {sides(len(a), len(b))}"
    if one.usable(geometry) != other.usable(geometry):
        return
    usable, most = one.usable(geometry), max(one.reserved, other.reserved)
    pairs = ((lnum, leb_of(a, one, usable, lnum), leb_of(b, other, usable, lnum)) for lnum in range(most))
    apart = [lnum for lnum, x, y in pairs if x is not None and y is not None and x != y]
    for first, last in ranges(apart):
        yield f"lebs {first}\n" if first == last else f"lebs {first}-{last}\n"


def difference_lines(left, right):
    """The lines for two images."""
    if left.image_seq != right.image_seq:
        yield f"seq {sides(left.image_seq, right.image_seq)}"
    for number in sorted({*left.records, *right.records}):
        if number not in right.records or number not in left.records:
            yield f"volume {number} only {'left' if number in left.records else 'right'}\n"
        else:
            yield from (f"volume {number} {line}" for line in volume_lines(left, right, number))


class Changer(Mutator):
    """Changes an image in some places, and its wear and order."""

    def __init__(self, rng, geometry, maker):
        super().__init__(rng, geometry, (1, 1, 2, 3))
        self.maker = maker
        self.ways = (
            self.leb_bit, self.leb_bit, self.leb_bit, self.erased, self.doubled, self.both_records, self.both_records,
            self.volumes, self.number,
        )

    def leb_bit(self, blocks):
        p, at = self.place(blocks), self.rng.randrange(self.geometry.data, self.geometry.peb)
        self.replace(blocks, p, at, bytes([blocks[p][at] ^ 1 << self.rng.randrange(8)]))

    def volumes(self, blocks):
        """A volume more or less in both copies of the table, or a changed one."""
        records = dict(self.maker.records)
        free = [slot for slot in range(self.geometry.slots) if slot not in records]
        if records and self.rng.random() < 0.4:
            slot = self.rng.choice(list(records))
            old = records.pop(slot)
            if self.rng.random() < 0.6:
                name = {"name": self.maker.name(slot)}
                field = self.rng.choice(({"flags": old.flags ^ 2}, {"reserved": old.reserved + 1}, name))
                records[slot] = dataclasses.replace(old, **field)
        elif free:
            slot = self.rng.choice(free)
            records[slot] = self.maker.record(slot)
        table = rules.put_table(self.geometry, records).ljust(self.geometry.leb, b"\0")
        for p in self.tables(blocks):
            self.replace(blocks, p, self.geometry.data, table)

    def number(self, blocks):
        number = self.rng.choice((0, 1, 0x12345678, 0xFFFFFFFF))
        for p, block in enumerate(blocks):
            if block.startswith(b"UBI#"):
                blocks[p] = fuzz.renumbered(block, number)

    def worn(self, blocks):
        """The same eraseblocks with other wear and in another order."""
        rng = self.rng
        for p, block in enumerate(blocks):
            if block.startswith(b"UBI#") and rng.random() < 0.3:
                counter = rng.randrange(2**31).to_bytes(8, "big")
                blocks[p] = rules.sealed(block[:8] + counter + block[16:60]) + block[64:]
        rng.shuffle(blocks)
        return blocks

    def right(self, blocks):
        blocks = list(blocks)
        for _ in range(self.rng.choice(self.times) if self.rng.random() < 0.9 else 0):
            if blocks:
                self.rng.choice(self.ways)(blocks)
        return b"".join(self.worn(blocks))


class Pair(Runner):
    """Two images, and the answers that the program has to give for them."""

    def __init__(self, rng, tool, folder, maker):
        super().__init__(tool, folder, maker.geometry)
        self.rng = rng
        other = Changer(rng, maker.geometry, maker)
        blocks = list(maker.blocks)
        left, right = b"".join(blocks), other.right(blocks)
        if rng.random() < 0.05:
            again = Maker(rng, ((self.geometry.peb, self.geometry.page, self.geometry.vid, self.geometry.data),))
            right = b"".join(again.blocks[: self.geometry.pebs])
        self.files = (left, right)

    def read_or_not(self, image):
        try:
            return self.read(image)
        except Refused as cause:
            return str(cause)

    def look_order(self, left, right):
        """Compares the answers in one order. Returns whether both images are accepted."""
        here, there = self.read_or_not(left), self.read_or_not(right)
        paths = [self.put("left", left), self.put("right", right)]
        if isinstance(here, str) or isinstance(there, str):
            line = f"left refused {here}\n" if isinstance(here, str) else f"right refused {there}\n"
            for command in ("diff", "same"):
                self.expect([command, *paths], line, 1)
            return False
        lines = list(difference_lines(here, there))
        last, status = ("different\n", 1) if lines else ("same\n", 0)
        self.expect(["diff", *paths], "".join(lines) + last, status)
        self.expect(["same", *paths], last, status)
        return True

    def look(self):
        left, right = self.files
        return self.look_order(left, right) and self.look_order(right, left)


def main():
    words = options(__doc__, 500, large=5)
    tool = built(words.tool)
    answers, failed = run_cases(words, {
        "": (lambda rng, folder: Pair(rng, tool, folder, Maker(rng)).look(), words.count),
        "large ": (lambda rng, folder: Pair(rng, tool, folder, Maker(rng, REAL_SIZES)).look(), words.large),
    })
    print(f"{sum(answers)} accepted on both sides")
    finish(len(answers), failed)


if __name__ == "__main__":
    main()
