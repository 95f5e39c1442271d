#!/usr/bin/env python3
"""Compares the program's answers for random images with docs/FORMAT.md, as check/second/rules.py reads it.

usage: fuzz.py [--seed N] [--count N] [--large N] [--huge N] [--first N] [--dir FOLDER] [--tool PROGRAM]

An image is made from volumes of all kinds and states, with stale copies, copies that were cut short, and eraseblocks
that are free, erased, dropped, orphans or unreadable, in a random order. A copy of the table may be missing, or differ
from the other, or differ only in bytes that nothing looks at. None, one, two, some or all eraseblocks carry the image's
number. Most images are then changed up to three times: a byte anywhere, a field of a header or a record with its CRC
corrected, eraseblocks doubled, erased, swapped or cut off.

For each image, for its first bytes, or for it with out-of-band bytes or junk around it, `geometry` has to print what
geometry.py finds, and `list` has to accept the words of a line that it prints. For each image `check`, `list`, `show`
and `normalise` have to answer what the rules say. For an accepted image the same holds for `extract`, `unpack`, `same`
with its normal image, with another and with its eraseblocks under another number, `compose` of a text that describes
it, and `change` and `rename`. The printed plans of these and the bytes after each step have to be those of the rules:
each cut means the old or the new, and the last one the new. Now and then a cut is changed and renamed itself. Some new
names exist already, some can't be read, and some are made so that the first pages of the table have the CRC of all, or
that its last page is blank. Numbers of volumes, LEBs, eraseblocks, spares and steps are also far out of range.

For a third of the images some eraseblocks are listed as bad, with each command that takes --bad: eraseblocks that win,
hold a table, are blank, carry the number or are at fault, any others, and up to two that are inserted; in all spellings
of a LIST. Such an image must mean the same with any other bytes in them, and its plans and what they write must not
change. Some plans keep blank eraseblocks. The pages of most plans are compared: with them the printed steps must give
the written image. Each image is also tried with some wrong words.

By default there are 500 images (--count) of the seed 1 (--seed) with eraseblocks of up to 1 KiB, 20 (--large) with
eraseblocks of 128 KiB and pages of 2 KiB, with sub-pages and without, for which only some cuts of each plan are
checked, and one (--huge) whose outputs are larger than 16 MiB. They lie in a new folder below FOLDER (/tmp by default),
which is removed afterwards. Without --tool the program is built first, unless it is built already. The last line is 'N
passed, M failed', and the exit status is 0 if none failed; an image that failed can be made again by giving its number
to --first.
"""
import argparse
import collections
import dataclasses
import os
import random
import re
import shutil
import struct
import subprocess
import sys
import tempfile

import rules
from geometry import geometries, printed
from rules import LAYOUT, TOP_COUNTER, TOP_SQNUM, Geometry, Image, Record, Refused, Vid
from text_rules import Fault, name_of

ROOT = os.path.dirname(os.path.dirname(os.path.dirname(os.path.abspath(__file__))))
LAUNCHER = os.path.join(ROOT, "ubi_tool")
TOOL = os.path.join(ROOT, "crates", "ubi_tool", "out", "launched", "ubi_tool")
SIZES = (
    (512, 64, 64, 128), (1024, 64, 64, 128), (1024, 256, 64, 256), (1024, 256, 320, 512), (576, 64, 64, 128),
    (448, 64, 128, 192), (704, 64, 64, 128),
)
REAL_SIZES = ((131072, 2048, 2048, 4096), (131072, 2048, 512, 2048))
# By how much a number is out of range, so that a program that takes it modulo any of these would take it for one in
# range.
FAR = (64, 100, 128, 256, 1000, 65536, 2**31)
# Words that can't be read as a name; nor can most words with one of them inside.
NO_NAMES = (
    "\\", "\\x", "\\x4", "\\X41", "\\x00", "\\x4g", "\\n", " ", "\t", "\n", "\x7F", "\x80", "\xE9", "a" * 128,
    "\\x61" * 128,
)
# The commands that take --bad, and wrong LISTs.
OF_BAD = ("list", "check", "show", "extract", "unpack", "normalise", "same", "diff", "change", "rename")
NO_LISTS = (
    "3,,4", ",", "3,", ",3", "-1", "3-", "9-3", "3-4-5", "4294967296", "0x3", "3 ,4", "a", " ", "3 ", " 3", "+", "++3",
    "3+", "-", "--", "-0", "0--1", "3-+", "3,-4", "3--4", "+-3", "1-4294967296", "4294967299", "18446744073709551616",
    "9" * 40, "3;4", "3\n", "3\t", "3.0", "1e3", "3,a", "\uFF13", "\u0663", "3-2,", "1_0", "0-4294967296", "all",
    "none",
)


# How the lines begin that say on standard error how a file is read, and what lies in it. No answer depends on them.
NOTES = re.compile(rb"reads bytes |counts eraseblocks |leaves out |bad eraseblocks of .* hold something, |.* has a fastmap, ")


class Failure(Exception):
    """What was expected of the program, and what it did."""


def expect(is_right, what):
    if not is_right:
        raise Failure(what)


def built(tool=None):
    """The program that is named, or the one that the launcher builds, unless it is built already."""
    if tool is None:
        subprocess.run([LAUNCHER, "--help"], stderr=subprocess.DEVNULL)
    return tool or TOOL


def complaints(error, printed):
    """What is printed on standard error, but for the lines that say how a file is read, and for the reason why the file
    can't be read or written that standard output names."""
    named = re.search(rb"cannot (?:read|write) (.*)\n\Z", printed)
    begins = (named[1] + b": ",) if named else ()
    return b"".join(line for line in error.splitlines(True) if not NOTES.match(line) and not line.startswith(begins))


def taken(folder):
    """The contents of the files of a folder, which is removed; None if there is no folder."""
    if not os.path.exists(folder):
        return None
    files = {}
    for name in os.listdir(folder):
        with open(os.path.join(folder, name), "rb") as file:
            files[name] = file.read()
    shutil.rmtree(folder)
    return files


def taken_file(path):
    """The contents of a file, which is removed; None if there is no file."""
    if not os.path.exists(path):
        return None
    with open(path, "rb") as file:
        data = file.read()
    os.remove(path)
    return data


def far(rng, number):
    """A number that is far above another one, or the largest."""
    return rng.choice((*(number + step for step in FAR), 2**32 - 1))


def sized(words, geometry):
    """The words of a command, and those of a geometry if it takes them."""
    return list(words) if words[0] == "geometry" else [*words, *geometry.words()]


def given(rng, name, number):
    """An option with a number, which may be left out if the number is 0."""
    return [name, str(number)] if number or rng.random() < 0.5 else []


def either(rng, name, value):
    """An option and its value, as two words or as one; as one if the value begins with a hyphen."""
    return [f"{name}={value}"] if value.startswith("-") or rng.random() < 0.5 else [name, value]


def listing(rng, places, count):
    """A LIST of exactly these of COUNT eraseblocks, and maybe of others beyond: in any order, as numbers and ranges,
    some of them twice."""
    items, rest = [], sorted(places)
    while rest:
        first = last = rest.pop(0)
        while last + 1 in rest and rng.random() < 0.7:
            last = rest.pop(0)
        items += [(first, last)] * rng.choice((1, 1, 1, 2))
        if last == count - 1 and rng.random() < 0.3:
            items.append((last, far(rng, count)))
    if rng.random() < 0.3:
        items.append((far(rng, count), 2**32 - 1))
    word = ",".join(spelled_item(rng, *item) for item in rng.sample(items, len(items)))
    assert [p for p in range(count) if rules.listed(word)(p)] == sorted(places), f"{word} is misread"
    return word


def spelled_item(rng, first, last):
    numbers = [first] if first == last and rng.random() < 0.8 else [first, last]
    return "-".join(rng.choice(("", "", "", "", "+", "0", "000", "+00")) + str(number) for number in numbers)


def name_in(word):
    """The name that a word shows; None if it can't be read."""
    try:
        return name_of(word.encode())
    except Fault:
        return None


def cased(rng, digits):
    """Digits, some of them in upper case."""
    return "".join(rng.choice((digit, digit, digit.upper())) for digit in digits)


def spelled(rng, name):
    """A word that shows a name: printable bytes as they are or escaped, and digits in either case."""
    def one(byte):
        digits = "".join(rng.choice((digit, digit.upper())) for digit in f"{byte:02x}")
        return rng.choice((rules.shown(bytes([byte])), f"\\x{digits}"))

    return "".join(one(byte) for byte in name)


def solved(rng, size, off):
    """SIZE bytes, none of them zero, for which OFF gives 0; None if none are found. OFF gives a number, each bit of
    which is a sum of bits of the bytes, and maybe 1."""
    start, rows, flips = int.from_bytes(bytes(rng.randrange(128, 256) for _ in range(size)), "big"), {}, 0

    def off_with(flips):
        return off((start ^ flips).to_bytes(size, "big"))

    def reduced(left, flips):
        while left.bit_length() in rows:
            row, others = rows[left.bit_length()]
            left, flips = left ^ row, flips ^ others
        return left, flips

    # The highest bit of each byte stays, so that none is zero.
    bits = [bit for bit in range(8 * size) if bit % 8 != 7]
    left = base = off_with(0)
    for bit in rng.sample(bits, len(bits)):
        if not left:
            break
        row, others = reduced(off_with(1 << bit) ^ base, 1 << bit)
        if row:
            rows[row.bit_length()] = (row, others)
        left, flips = reduced(left, flips)
    return None if left else (start ^ flips).to_bytes(size, "big")


def weakness(geometry, new, pages):
    """A number that is 0 if the first pages of new bytes, for each of some numbers of pages, have the CRC of all."""
    fronts = [new[: n * geometry.page].ljust(len(new), b"\xFF") for n in pages]
    return sum((rules.crc(front) ^ rules.crc(new)) << 32 * k for k, front in enumerate(fronts))


def said(refusal, plan, meant, *what):
    """What the rules say about a change or a rename: why it is refused or None, its steps, and the meaning after
    them."""
    cause = refusal(*what)
    return (cause, [], None) if cause else (None, plan(*what).steps, meant(*what))


def renumbered(block, image_seq):
    """An eraseblock with another image sequence number, if it has an erase-counter header."""
    if not block.startswith(b"UBI#"):
        return block
    return rules.sealed(block[:24] + struct.pack(">I", image_seq) + block[28:60]) + block[64:]


class Maker:
    """Makes a random image of one of some sizes."""

    pebs = (8, 12, 20, 40)

    def __init__(self, rng, sizes=SIZES):
        self.rng = rng
        self.geometry = Geometry(*rng.choice(sizes), rng.choice(self.pebs))
        self.sqnums = iter(rng.sample(range(1, 4000), 400))
        self.records = {slot: self.record(slot) for slot in self.slots()}
        self.blocks = self.numbered(self.tables(), self.members(), self.others())
        rng.shuffle(self.blocks)

    def numbered(self, *groups):
        """The eraseblocks of some groups. None, one, two, three or all of a group, or of all groups, carry a number."""
        rng = self.rng
        number, count = rng.choice((1, 7, 0x12345678, 0xFFFFFFFF)), rng.choice((0, 1, 1, 1, 1, 2, 2, 2, 3, 999))
        groups = rng.choice((groups, groups, (sum(groups, []),)))
        group = rng.choice((*groups, *groups[1:]))
        have = [k for k, block in enumerate(group) if block.startswith(b"UBI#")]
        for k in rng.sample(have, min(count, len(have))):
            group[k] = renumbered(group[k], number)
        return sum(groups, [])

    def members(self):
        """The eraseblocks of volumes."""
        makers = {1: self.dynamic, 2: self.static}
        return sum((makers[record.kind](slot, record) for slot, record in self.records.items()), [])

    def others(self):
        kinds = (self.free, self.free, self.free, self.erased, self.garbage, self.corrupt, self.dropped, self.orphan)
        return [self.rng.choice(kinds)() for _ in range(self.rng.randrange(5))]

    def slots(self):
        slots = self.geometry.slots
        return sorted(self.rng.sample(range(slots), min(slots, self.rng.choice((0, 1, 1, 2, 2, 3, 4)))))

    def name(self, slot):
        rng = self.rng
        length = rng.choice((1, 3, 8, 127))
        name = bytes([65 + slot % 26]) + bytes(rng.choice((rng.randrange(1, 256), 0x61)) for _ in range(length - 1))
        return name

    def record(self, slot):
        rng, geometry = self.rng, self.geometry
        alignment = rng.choice((1, 1, geometry.page, 3 * geometry.page))
        if alignment > geometry.leb:
            alignment = 1
        reserved, kind, marker = rng.randrange(1, 5), rng.choice((1, 1, 2)), int(rng.random() < 0.1)
        return Record(reserved, alignment, kind, marker, self.name(slot), rng.choice((0, 1, 2, 0xFF)))

    def ec(self):
        counters = (0, 5, self.rng.randrange(1000), TOP_COUNTER - 1, TOP_COUNTER)
        return rules.put_ec(self.geometry, self.rng.choice(counters))

    def block(self, vid, data):
        return rules.put_block(self.geometry, self.ec(), rules.put_vid(vid), data)

    def sqnum(self):
        """A sequence number: now and then one of the three greatest."""
        common = (next(self.sqnums), next(self.sqnums) + 2**40)
        return self.rng.choice((*common * 20, TOP_SQNUM - self.rng.randrange(3)))

    def tables(self):
        """The members of the table's two copies."""
        return [self.table(copy) for copy in range(2) for _ in range(self.rng.choice((1, 1, 1, 1, 2, 2, 0)))]

    def table(self, copy):
        """A member of a copy of the table: mostly with the right records, now and then with others; some are copies,
        and cut short."""
        rng, leb = self.rng, self.geometry.leb
        records = self.records if rng.random() < 0.94 else self.other_records()
        table = self.with_unseen(records) if rng.random() < 0.25 else rules.put_table(self.geometry, records)
        table = table.ljust(leb, rng.choice((b"\xFF", b"\0")))
        size = rng.choice((0, 0, 0, rng.randrange(172, leb + 1)))
        right = rules.crc(table[:size]) ^ int(rng.random() < 0.3) if size else 0
        return self.block(Vid(1, int(size > 0), 5, LAYOUT, copy, size, 0, 0, right, self.sqnum()), table)

    def other_records(self):
        """The records, one of which is missing or changed."""
        if not self.records:
            return {}
        slot, old = self.rng.choice(list(self.records.items()))
        new = (
            {"name": self.name(slot)}, {"flags": old.flags ^ 1}, {"marker": 1 - old.marker},
            {"reserved": old.reserved + 1},
        )
        others = {of: record for of, record in self.records.items() if of != slot}
        return self.rng.choice((others, *(others | {slot: dataclasses.replace(old, **field)} for field in new)))

    def with_unseen(self, records):
        """A table with other bytes where nothing looks at them: after a name and in the padding."""
        table = rules.put_table(self.geometry, records)
        for slot, record in records.items():
            raw = bytearray(table[172 * slot : 172 * slot + 168])
            for place in (*range(17 + len(record.name), 144), *range(145, 168)):
                raw[place] = self.rng.choice((0, 0, 0xFF, self.rng.randrange(256)))
            table = table[: 172 * slot] + rules.sealed(bytes(raw)) + table[172 * (slot + 1) :]
        return table

    def contents(self, size):
        """Some bytes: random ones, with or without blank ones after them, or only blank ones."""
        blank = self.rng.choice((0, 0, size // 2, size))
        return self.rng.randbytes(size - blank) + b"\xFF" * blank

    def dynamic(self, slot, record):
        """Members of some LEBs, some beyond what is reserved; copies whose CRC is right, and copies cut short."""
        rng, usable, pad = self.rng, record.usable(self.geometry), record.pad(self.geometry)
        blocks = []
        for lnum in rng.sample(range(record.reserved + 1), rng.randrange(record.reserved + 1)):
            for _ in range(rng.choice((1, 1, 2, 3))):
                data = self.contents(usable)
                size = rng.randrange(1, usable + 1) if rng.random() < 0.5 else 0
                right = rules.crc(data[:size]) if size else 0
                if size and rng.random() < 0.3:
                    right ^= 1
                vid = Vid(1, int(size > 0), 0, slot, lnum, size, 0, pad, right, self.sqnum())
                blocks.append(self.block(vid, data))
        return blocks

    def static(self, slot, record):
        """The eraseblocks of a static volume; now and then one is missing, has a wrong CRC, or another copy."""
        rng, usable, pad = self.rng, record.usable(self.geometry), record.pad(self.geometry)
        contents = rng.randbytes(rng.choice((0, 1, usable, rng.randrange(usable * record.reserved + 1))))
        shares = [contents[at : at + usable] for at in range(0, len(contents), usable)]
        blocks = []
        for lnum, share in enumerate(shares):
            for _ in range(rng.choice((1, 1, 1, 1, 2, 0) if rng.random() < 0.4 else (1,))):
                right = rules.crc(share) ^ int(rng.random() < 0.05)
                vid = Vid(2, rng.choice((0, 0, 1)), 0, slot, lnum, len(share), len(shares), pad, right, self.sqnum())
                blocks.append(self.block(vid, share))
        return blocks

    def free(self):
        return rules.put_block(self.geometry, self.ec(), data=self.rng.choice((b"", b"", b"\0")))

    def erased(self):
        return b"\xFF" * self.geometry.peb

    def garbage(self):
        return rules.put_block(self.geometry, self.ec(), bytes(64))

    def corrupt(self):
        return rules.put_block(self.geometry, bytes(64), self.rng.choice((b"", bytes(64))))

    def dropped(self):
        return self.block(Vid(1, 0, 1, LAYOUT + 1, 0, 0, 0, 0, 0, self.sqnum()), b"")

    def orphan(self):
        return self.block(Vid(1, 0, 0, self.rng.choice((77, 127)), 0, 0, 0, 0, 0, self.sqnum()), b"text")


class Lister:
    """Makes random LISTs of eraseblocks of an image, and other bytes for the listed ones."""

    def __init__(self, rng, geometry, image):
        self.rng, self.geometry = rng, geometry
        self.blocks = [image[at : at + geometry.peb] for at in range(0, len(image), geometry.peb)]
        self.kinds = self.kinds_of(image)

    def kinds_of(self, image):
        """Groups of eraseblocks: those of one state, those that carry the number, the one that is at fault, or those
        with a header."""
        with_header = [p for p, block in enumerate(self.blocks) if block[:4] == b"UBI#"]
        try:
            found = Image(self.geometry, image)
        except Refused as refused:
            at_fault = [int(word[6:]) for word in str(refused).split() if word.startswith("block=")]
            return [group for group in (with_header, at_fault, at_fault, at_fault) if group]
        states = [[p for p, of in enumerate(found.states) if of == state] for state in sorted(set(found.states))]
        mapped = [p for (volume, _), p in found.winners.items() if volume != LAYOUT]
        return [group for group in (*states, mapped, found.found.carriers, with_header) if group]

    def places(self):
        """Some eraseblocks: one, two or all of some groups, or any."""
        rng, count = self.rng, len(self.blocks)
        places = set()
        for _ in range(rng.choice((0, 1, 1, 1, 2))):
            group = rng.choice(self.kinds or [[]])
            places.update(rng.sample(group, min(len(group), rng.choice((1, 1, 1, 2, 2, 99)))))
        any_size = rng.choice((0, 0, 0, 0, 1, 1, 2, rng.randrange(count + 1)))
        return places | set(rng.sample(range(count), min(any_size, count)))

    def bad(self):
        """The image, maybe with a few more eraseblocks, and a LIST: of some eraseblocks, or random characters if they
        are a LIST."""
        rng, image = self.rng, b"".join(self.blocks)
        word = rng.choice(("", self.random_word()))
        if rng.random() < 0.1 and rules.listed(word):
            return image, word
        places = self.places() if rng.random() < 0.6 else set()
        image, places = self.put_in(places, max(0, self.geometry.pebs - len(self.blocks)))
        return image, listing(rng, places, -(-len(image) // self.geometry.peb))

    def put_in(self, places, room):
        """The image with up to two more eraseblocks, if there is room, that hold other bytes; and where these and those
        at PLACES are then."""
        rng, blocks, listed = self.rng, [], set()
        before = rng.sample(range(len(self.blocks)), min(rng.randrange(3), room, len(self.blocks)))
        for p, block in enumerate(self.blocks):
            if p in before:
                listed.add(len(blocks))
                blocks.append(self.other(bytes(self.geometry.peb)))
            if p in places:
                listed.add(len(blocks))
            blocks.append(block)
        return b"".join(blocks), listed

    def random_word(self):
        """Some of the characters of LISTs, and a few others."""
        return "".join(self.rng.choice("0123456789,,--+ x") for _ in range(self.rng.randrange(1, 9)))

    def wrong(self):
        """A wrong LIST."""
        rng, word = self.rng, self.random_word()
        right = listing(rng, self.places(), len(self.blocks))
        alone, after, before = (rng.choice(NO_LISTS) for _ in range(3))
        other = rng.choice((word, alone, f"{right},{after}", f"{before},{right}", f"{right},"))
        return other if rules.listed(other) is None else rng.choice(NO_LISTS)

    def others(self, image, is_bad):
        """An image with other bytes in each listed eraseblock."""
        blocks = [image[at : at + self.geometry.peb] for at in range(0, len(image), self.geometry.peb)]
        return b"".join(self.other(block) if is_bad(p) else block for p, block in enumerate(blocks))

    def other(self, block):
        """Other bytes for an eraseblock: all equal, any, a header that is at fault, or those of another eraseblock,
        maybe with a later sequence number."""
        rng, whole = self.rng, self.some_block()
        sqnum = struct.pack(">Q", rng.choice((5000, 5000, 5000, 2**40, TOP_SQNUM - 3, TOP_SQNUM)))
        later = rules.sealed(whole[self.geometry.vid :][:40] + sqnum + bytes(12))
        front, rest = whole[: self.geometry.vid], whole[self.geometry.vid + 64 :]
        ways = (
            bytes(len(block)),
            b"\xFF" * len(block),
            rng.randbytes(len(block)),
            whole,
            front + later + rest,
            renumbered(whole, rng.randrange(1, 2**32)),
            with_field(rng, whole[:64], EC_FIELDS) + whole[64:],
        )
        return rng.choice(ways)[: len(block)].ljust(len(block), b"\xFF")

    def some_block(self):
        """An eraseblock of the image, often one with the header of a LEB."""
        members = [block for block in self.blocks if block[self.geometry.vid :].startswith(b"UBI!")]
        return self.rng.choice(members if members and self.rng.random() < 0.7 else self.blocks)


class HugeMaker(Maker):
    """Makes an image of more than 16 MiB: a dynamic volume, most of whose LEBs have a few bytes, and two free
    eraseblocks."""

    pebs = (160,)

    def slots(self):
        return [self.rng.randrange(self.geometry.slots)]

    def record(self, slot):
        return Record(140, 1, 1, 0, self.name(slot), 1)

    def dynamic(self, slot, record):
        lnums = self.rng.sample(range(record.reserved), 132)
        vids = (Vid(1, 0, 0, slot, lnum, 0, 0, 0, 0, self.sqnum()) for lnum in lnums)
        return [self.block(vid, self.rng.randbytes(9)) for vid in vids]

    def others(self):
        return [self.free(), self.erased()]


NUMBERS = (0, 1, 2, 3, 64, 127, 128, 2**31 - 1, 2**31, LAYOUT, LAYOUT + 1, 2**32 - 1)
# The offset of each field of a header or a record, and its number of bytes.
EC_FIELDS = ((4, 1), (8, 8), (16, 4), (20, 4), (24, 4))
VID_FIELDS = ((5, 1), (6, 1), (7, 1), (8, 4), (12, 4), (20, 4), (24, 4), (28, 4), (32, 4), (40, 8))
RECORD_FIELDS = ((0, 4), (4, 4), (8, 4), (12, 1), (13, 1), (14, 2), (16, 1), (17, 1), (143, 1), (144, 1), (150, 1))


def with_field(rng, raw, fields):
    """A header or a record with another number in a field, and the right CRC."""
    at, size = rng.choice(fields)
    old = int.from_bytes(raw[at : at + size], "big")
    number = rng.choice((rng.choice(NUMBERS), old + 1, old - 1, old ^ 1 << rng.randrange(8 * size))) % 256**size
    return rules.sealed((raw[:at] + number.to_bytes(size, "big") + raw[at + size :])[:-4])


class Mutator:
    """Changes an image as often as one of some numbers says."""

    def __init__(self, rng, geometry, times):
        self.rng, self.geometry, self.times = rng, geometry, times
        self.ways = (
            self.any_byte, self.header_byte, self.ec_field, self.vid_field, self.vid_field, self.record_field,
            self.record_field, self.both_records, self.doubled, self.erased, self.swapped, self.cut_off,
        )

    def mutate(self, blocks):
        blocks = list(blocks)
        for _ in range(self.rng.choice(self.times)):
            if blocks:
                self.rng.choice(self.ways)(blocks)
        return b"".join(blocks)

    def place(self, blocks):
        return self.rng.randrange(len(blocks))

    def replace(self, blocks, p, at, new):
        blocks[p] = blocks[p][:at] + new + blocks[p][at + len(new) :]

    def any_byte(self, blocks):
        p, at = self.place(blocks), self.rng.randrange(self.geometry.peb)
        self.replace(blocks, p, at, self.rng.randbytes(1))

    def header_byte(self, blocks):
        p, at = self.place(blocks), self.rng.choice((0, self.geometry.vid)) + self.rng.randrange(64)
        self.replace(blocks, p, at, self.rng.randbytes(1))

    def field(self, blocks, p, at, size, fields):
        if len(blocks[p]) >= at + size:
            self.replace(blocks, p, at, with_field(self.rng, blocks[p][at : at + size], fields))

    def ec_field(self, blocks):
        self.field(blocks, self.place(blocks), 0, 64, EC_FIELDS)

    def vid_field(self, blocks):
        self.field(blocks, self.place(blocks), self.geometry.vid, 64, VID_FIELDS)

    def tables(self, blocks):
        front = struct.pack(">I", LAYOUT)
        return [p for p, block in enumerate(blocks) if block[self.geometry.vid + 8 : self.geometry.vid + 12] == front]

    def record_in(self, blocks, places):
        at = self.geometry.data + 172 * self.rng.randrange(self.geometry.slots)
        state = self.rng.getstate()
        for p in places:
            self.rng.setstate(state)
            self.field(blocks, p, at, 172, RECORD_FIELDS)

    def record_field(self, blocks):
        self.record_in(blocks, self.tables(blocks)[:1])

    def both_records(self, blocks):
        self.record_in(blocks, self.tables(blocks))

    def doubled(self, blocks):
        blocks.insert(self.place(blocks), blocks[self.place(blocks)])

    def erased(self, blocks):
        blocks[self.place(blocks)] = b"\xFF" * self.geometry.peb

    def swapped(self, blocks):
        p, q = self.place(blocks), self.place(blocks)
        blocks[p], blocks[q] = blocks[q], blocks[p]

    def cut_off(self, blocks):
        peb = self.geometry.peb
        blocks[-1] = blocks[-1][: self.rng.choice((0, 1, peb - 1, self.rng.randrange(peb)))]


def spec_of(image):
    """A text from which `compose` makes the normal image."""
    for slot, record in sorted(image.records.items()):
        kind = {1: "dynamic", 2: "static"}[record.kind]
        numbers = f"{record.reserved} {record.alignment} {record.flags:02x}"
        yield f"volume {slot} {kind} {numbers} {rules.shown(record.name)}\n"
        content = image.contents[slot]
        if isinstance(content, str):
            yield f"{content} {slot}\n"
        elif record.kind == 1:
            # Every second LEB has as few bytes as possible.
            given = ((lnum, data.rstrip(b"\xFF") if lnum % 2 else data) for lnum, data in content.items())
            yield from (f"leb {slot} {lnum} {data.hex()}\n" for lnum, data in given)
        else:
            yield from (f"bytes {slot} {content[at : at + 100].hex()}\n" for at in range(0, len(content), 100))


class Runner:
    """Runs the program on files of a folder, and compares its answers."""

    def __init__(self, tool, folder, geometry):
        self.tool, self.folder, self.geometry = tool, folder, geometry
        self.out, self.pages = os.path.join(folder, "out"), os.path.join(folder, "pages")
        self.bad, self.is_bad = [], rules.none_listed

    def put(self, name, data):
        path = os.path.join(self.folder, name)
        with open(path, "wb") as file:
            file.write(data)
        return path

    def read(self, data):
        """The image that some bytes are, with the listed eraseblocks taken as bad."""
        return Image(self.geometry, data, self.is_bad)

    def whole(self, words):
        """The words of a command, with those of a geometry and the LIST if it takes them."""
        return [*sized(words, self.geometry), *(self.bad if words[0] in OF_BAD else [])]

    def written(self):
        """What the program wrote into its output file; None if there is none."""
        return taken_file(self.out)

    def expect(self, words, lines, status, written=None, pages=None):
        """Runs the program, whose lines, status, output file and file of pages have to be the given ones."""
        self.expect_bare(self.whole(words), lines, status, written, pages)

    def expect_bare(self, words, lines, status, written=None, pages=None):
        """The same for words that are complete already."""
        ran = subprocess.run([self.tool, *words], capture_output=True)
        answer, files = (ran.stdout.decode(), ran.returncode), (self.written(), taken_file(self.pages))
        error = complaints(ran.stderr, ran.stdout)
        if (answer, files) != ((lines, status), (written, pages)) or error:
            wrong = [name for name, *both in zip(("output", "pages"), files, (written, pages)) if both[0] != both[1]]
            raise Failure(f"{words} answers {answer} and not {(lines, status)}, and writes "
                f"{'other ' + ' and '.join(wrong) if wrong else 'what is right'}; {error.decode()}")

    def expect_wrong(self, words):
        """Runs the program with wrong words: it may print nothing except on standard error, and write nothing."""
        ran = subprocess.run([self.tool, *words], capture_output=True)
        answer = (ran.stdout, ran.returncode, self.written(), taken_file(self.pages))
        if answer != (b"", 2, None, None) or not complaints(ran.stderr, ran.stdout):
            raise Failure(f"{words} answers {answer[:2]}, though the words are wrong")

    def change(self, path, image, number, lnum, new, more=()):
        """The words that ask for a change, and what the rules say about it."""
        of_leb = ["--id", str(number), "--lnum", str(lnum), "--from", self.put("new", new)]
        words = ["change", path, *of_leb, "--out", self.out, *more]
        return words, *said(rules.change_refusal, rules.Change, rules.changed, image, number, lnum, new)

    def rename(self, path, image, number, word, more=()):
        """The words that ask for a rename, and what the rules say about it."""
        option = [f"--name={word}"] if word.startswith("-") else ["--name", word]
        named = [part.encode() for part in option]
        words, name = ["rename", path, "--id", str(number), *named, "--out", self.out, *more], name_in(word)
        if name is None:
            return words, "N1 BadName", [], None
        return words, *said(rules.rename_refusal, rules.Rename, rules.renamed, image, number, name)

    def look_cuts(self, image, words, steps, meant, stops):
        """Compares the printed plan, and what is written after each of some numbers of its steps. Returns the last."""
        lines, whole, old = "".join(rules.plan_lines(steps)), b"".join(image.found.blocks), image.meaning()
        are_new = []
        for k in stops:
            cut, pages = rules.after(self.geometry, whole, steps[:k]), self.pages_of(words, steps[:k])
            self.expect([*words, "--stop", str(k)], lines, 0, cut, pages)
            last = self.read(cut)
            if last.meaning() not in (old, meant):
                raise Failure(f"cut {k} of {len(steps)} means neither the old nor the new")
            are_new.append(last.meaning() != old)
        if are_new != sorted(are_new) or last.meaning() != meant:
            raise Failure("a cut after the commit means the old, or the last one doesn't mean the new")
        if rules.needs_repair(last) != rules.needs_repair(image):
            raise Failure("the copies of the table differ in the end")
        if pages is not None:
            self.look_replayed(whole, lines, pages, k, cut)
        self.look_kept(image, whole, cut)
        return cut

    def pages_of(self, words, steps):
        """What the file of pages holds after some steps; None if the words name no such file."""
        return rules.pages_of(steps) if any(str(word).startswith("--pages") for word in words) else None

    def look_replayed(self, whole, lines, pages, count, cut):
        """Checks that the first lines of a plan and their pages turn the image into what is written."""
        steps = rules.read_steps(self.geometry, lines.splitlines()[1:][:count], pages)
        if rules.after(self.geometry, whole, steps) != cut:
            raise Failure("the steps with their pages give another image")

    def look_kept(self, image, whole, cut):
        """Checks that the eraseblocks that a plan may not touch are as they were, and that the listed ones are
        blank."""
        peb = self.geometry.peb
        for p in range(len(image.states)):
            old, new = (data[p * peb : (p + 1) * peb] for data in (whole, cut))
            if rules.is_kept(image, p) and (old != new or image.is_bad(p) and not rules.is_blank(new)):
                raise Failure(f"the plan touches eraseblock {p}")

    def look_read(self, path, meaning, number, name=None):
        """Compares what is extracted from a volume, by its number or by its name, with what an image means."""
        words = ["extract", path, *(["--id", str(number)] if name is None else [f"--name={name}"]), "--out", self.out]
        try:
            contents = meaning.read_volume(number)
        except Refused as refused:
            self.expect(words, f"refused {refused}\n", 1)
            return
        self.expect(words, f"bytes {len(contents)}\n", 0, contents)

    def look_answers(self, path, image):
        """Compares what `check`, `list` and `extract` answer for an accepted image."""
        self.expect(["check", path], "".join(rules.check_lines(image)), 0)
        self.expect(["list", path], "".join(rules.list_lines(image)), 0)
        for number in image.records:
            self.look_read(path, image, number)

    def look_unpacked(self, path, meaning):
        """Compares what is unpacked from an image into a new folder."""
        folder, lines, files = os.path.join(self.folder, "volumes"), [], {}
        for number, record in sorted(meaning.records.items()):
            name = rules.shown(record.name)
            try:
                contents = meaning.read_volume(number)
            except Refused as refused:
                lines.append(f"volume {number} {str(refused).split()[1].lower()} name={name}\n")
                continue
            lines.append(f"volume {number} bytes={len(contents)} name={name}\n")
            files[rules.folder_file(number, record)] = contents
        status = int(any("bytes=" not in line.split(" name=")[0] for line in lines))
        files["ubi.ini"] = rules.folder_config(meaning)
        self.expect(["unpack", path, "--out", folder], "".join(lines), status)
        self.expect(["unpack", path, "--out", folder], f"cannot write {folder}\n", 1)
        written = taken(folder)
        if written != files:
            raise Failure(f"unpack writes {sorted(written)} and not {sorted(files)}, or not with their contents")


class Case(Runner):
    """An image, and the answers that the program has to give for it.

    TIMES are how often it may be changed, PLANS is how many changes and how many renames are planned, and CUTS how many
    cuts of each are checked.
    """

    def __init__(self, rng, tool, folder, maker, times=(0, 1, 1, 2, 3), plans=4, cuts=99):
        super().__init__(tool, folder, maker.geometry)
        self.rng, self.plans, self.cuts = rng, plans, cuts
        self.mutator = Mutator(rng, self.geometry, times)
        self.blocks = maker.blocks
        self.image = self.mutator.mutate(self.blocks)
        self.lister = Lister(rng, self.geometry, self.image)
        if rng.random() < 0.35:
            self.image, word = self.lister.bad()
            self.bad, self.is_bad = either(rng, "--bad", word), rules.listed(word)
        self.path = self.put("image", self.image)

    def look(self):
        """Compares each answer. Returns whether the image is accepted, and how many cuts were checked."""
        answer = self.look_image()
        self.look_geometries()
        self.look_wrong()
        return answer

    def look_wrong(self):
        """Tries words that are wrong because of their options."""
        rng, command = self.rng, self.rng.choice(OF_BAD)
        other = rng.choice(("geometry", "compose", "build"))
        of_plan = self.plain_words(rng.choice(("change", "rename")))
        no_value = rng.choice(("", "Keep", "keep,", "keep ", "take", "0", "3", "-"))
        self.expect_wrong(rng.choice((
            [*self.plain_words(command), *either(rng, "--bad", self.lister.wrong())],
            [*self.plain_words(command), *either(rng, "--bad", self.lister.wrong())],
            [*self.plain_words(other), *either(rng, "--bad", rng.choice(("", "0", "3,4")))],
            [*of_plan, *either(rng, "--blank", no_value)],
            [*self.plain_words(rng.choice((*OF_BAD[:-2], other))),
                *rng.choice((["--blank", "keep"], ["--pages", self.pages]))],
        )))

    def plain_words(self, command):
        """Words that are right for a command."""
        of = {
            "show": ["--block", "0"],
            "extract": ["--id", "0"],
            "same": [self.path],
            "diff": [self.path],
            "change": ["--id", "0", "--lnum", "0", "--from", self.path],
            "rename": ["--id", "0", "--name", "data"],
        }
        outs = ["--out", self.out] if command not in ("geometry", "list", "check", "show", "same", "diff") else []
        return sized([command, self.path, *of.get(command, []), *outs], self.geometry)

    def look_geometries(self):
        """Compares what `geometry` prints for the image, and for another file that is made from it."""
        rng = self.rng
        page, more = self.geometry.page, rng.choice((1, self.geometry.page // 32, self.geometry.page // 4))
        with_more = b"".join(self.image[at : at + page] + b"\xFF" * more for at in range(0, len(self.image), page))
        around = rng.randbytes(64 * rng.randrange(20)) + self.image + rng.choice((b"\xFF", b"\0")) * rng.randrange(2000)
        self.look_geometry(self.image)
        self.look_geometry(rng.choice((self.image[: rng.randrange(len(self.image) + 1)], with_more, around)))

    def look_geometry(self, file):
        """Compares what `geometry` prints for a file, and what `list` answers with a line of that."""
        path = self.put("dump", file)
        text, status = printed(file)
        self.expect(["geometry", path], text, status)
        if status:
            return
        found = self.rng.choice(geometries(file))
        try:
            listed = "".join(rules.list_lines(Image(found.geometry, found.image(file))))
        except Refused as refused:
            listed, status = f"refused {refused}\n", 1
        self.expect_bare(["list", path, *found.line().split()], listed, status)

    def look_image(self):
        """Compares the answers for the image with its own geometry."""
        try:
            image = self.read(self.image)
        except Refused as refused:
            self.look_refused(f"refused {refused}\n")
            return False, 0
        self.look_meant(image)
        self.look_far(image)
        self.look_others(image)
        return True, sum(self.look_plans(image, self.path) for _ in range(self.plans))

    def look_refused(self, line):
        of_volume, more = ("--id", "0", "--out", self.out), self.plan_words()
        new = self.put("new", bytes(self.geometry.page))
        for command, *words in (
            ["check"],
            ["list"],
            ["normalise", "--out", self.out],
            ["extract", *of_volume],
            ["change", *of_volume, "--lnum", "0", "--from", new, *more],
            ["rename", *of_volume, "--name", "data", *more],
        ):
            self.expect([command, self.path, *words], line, 1)
        no_name = self.rng.choice(("", *NO_NAMES)).encode()
        self.expect(["rename", self.path, *of_volume, "--name", no_name], "refused N1 BadName\n", 1)
        folder = os.path.join(self.folder, "volumes")
        self.expect(["unpack", self.path, "--out", folder], line, 1)
        if os.path.exists(folder):
            raise Failure("a folder is made for an image that is refused")
        self.expect(["same", self.path, self.put("other", self.mixed())], f"left {line}", 1)
        self.expect(["check", self.put("others", self.with_others(self.image))], line, 1)

    def look_meant(self, image):
        """Compares what is printed and written for an accepted image, and for others beside it."""
        normal, p = rules.normal_image(image), self.rng.randrange(len(image.states))
        self.expect(["check", self.path], "".join(rules.check_lines(image)), 0)
        self.expect(["list", self.path], "".join(rules.list_lines(image)), 0)
        self.look_show(image, p)
        for number, record in image.records.items():
            self.look_read(self.path, image, number)
            self.look_read(self.path, image, number, rules.shown(record.name))
        names = {record.name for record in image.records.values()}
        # With a name that no volume has, the right answer is that for a number that no volume has.
        for name in {b"root", b"\x80", b"none"} - names:
            self.look_read(self.path, image, 128, rules.shown(name))
        self.look_read(self.path, image, 127)
        self.look_read(self.path, image, 128, self.rng.choice(NO_NAMES[:8]))
        self.look_unpacked(self.path, image)
        lines = f"blocks {len(normal) // self.geometry.peb}\n"
        self.expect(["normalise", self.path, "--out", self.out], lines, 0, normal)
        self.look_composed(image, self.rng.choice((0, 0, 1, 2, 3)))
        for other in (normal, self.mixed(), self.with_number(image)):
            self.look_same(image, other)

    def look_far(self, image):
        """Compares the answers if a number among the words is far out of range."""
        number, lnum = self.target(image)
        self.look_show(image, far(self.rng, self.rng.randrange(len(image.states))))
        self.look_read(self.path, image, far(self.rng, number))
        self.look_composed(image, far(self.rng, 1))
        far_target = self.rng.choice(((far(self.rng, number), lnum), (number, far(self.rng, lnum))))
        self.look_change(image, self.path, *far_target)
        self.look_rename(image, self.path, far(self.rng, number))

    def with_others(self, data):
        """The bytes of an image with others in the listed eraseblocks."""
        return self.lister.others(data, self.is_bad)

    def with_like(self, data):
        """The same, with a last sequence number as the image has it, so that the plan stays the same."""
        others = (self.with_others(data) for _ in range(20))
        return next((other for other in others if self.read(other).last == self.read(data).last), data)

    def look_others(self, image):
        """Checks that the image means the same with other bytes in the listed eraseblocks."""
        if any(map(self.is_bad, range(len(image.states)))):
            path = self.put("others", self.with_others(self.image))
            self.expect(["check", path], "".join(rules.check_lines(image)), 0)
            self.expect(["same", self.path, path], "same\n", 0)

    def plan_words(self):
        """Words for a plan: whether blank eraseblocks are kept, and the file for its pages."""
        rng = self.rng
        keep = rng.choice(([], [], [], either(rng, "--blank", "keep")))
        return [*keep, *rng.choice(([], either(rng, "--pages", self.pages), either(rng, "--pages", self.pages)))]

    def with_plan_words(self, image):
        """An image, which keeps its blank eraseblocks if words for a plan say so, and those words."""
        more = self.plan_words()
        return (image.keeping_blank() if more and more[0].startswith("--blank") else image), more

    def mixed(self):
        """Another image, made from the same eraseblocks."""
        return self.mutator.mutate(self.rng.sample(self.blocks, len(self.blocks)))

    def with_number(self, image):
        """The eraseblocks of an image, all of them with another number, or none, or the same one."""
        number = self.rng.choice((0, image.image_seq, image.image_seq ^ 1 << self.rng.randrange(32)))
        return b"".join(renumbered(block, number) for block in image.found.blocks)

    def compose_words(self, image, spares):
        """Words that compose what an image means, with spare eraseblocks after it."""
        words = ["compose", self.put("spec", "".join(spec_of(image)).encode()), "--out", self.out]
        return words + given(self.rng, "--seq", image.image_seq) + given(self.rng, "--spares", spares)

    def look_composed(self, image, spares):
        words = self.compose_words(image, spares)
        try:
            composed = rules.composed(image, spares)
        except Refused as refused:
            self.expect(words, f"refused {refused}\n", 1)
            return
        self.expect(words, f"blocks {len(composed) // self.geometry.peb}\n", 0, composed)

    def look_show(self, image, p):
        words = ["show", self.path, "--block", str(p)]
        if p >= len(image.states):
            self.expect(words, "refused B1 Block\n", 1)
            return
        block = image.found.blocks[p]
        ec, vid = block[:64].hex(), block[self.geometry.vid : self.geometry.vid + 64].hex()
        self.expect(words, f"ec {image.found.ecs[p][0]} {ec}\nvid {image.found.vids[p][0]} {vid}\n", 0)

    def look_same(self, image, other):
        words = ["same", self.path, self.put("other", other)]
        try:
            is_same = self.read(other).meaning() == image.meaning()
        except Refused as refused:
            self.expect(words, f"right refused {refused}\n", 1)
            return
        self.expect(words, "same\n" if is_same else "different\n", 0 if is_same else 1)

    def target(self, image):
        """A volume and a LEB to change: mostly a dynamic volume, and often a LEB in an eraseblock that carries the
        number."""
        rng, members = self.rng, image.found.members
        dynamic = [number for number, record in image.records.items() if record.kind == 1]
        carried = [members[p] for p in image.found.carriers if p in members and members[p].volume in dynamic]
        if carried and rng.random() < 0.4:
            member = rng.choice(carried)
            return member.volume, member.lnum
        number = rng.choice(dynamic if dynamic and rng.random() < 0.8 else (*image.records, 3))
        lnums = range(image.records[number].reserved + 1) if number in image.records else (0,)
        unmapped = [lnum for lnum in lnums[:-1] if (number, lnum) not in image.winners]
        return number, rng.choice(unmapped if unmapped and rng.random() < 0.5 else lnums)

    def new_bytes(self):
        rng, page = self.rng, self.geometry.page
        whole = rng.randbytes(rng.randrange(1, self.geometry.leb // page + 1) * page)
        weak = b"\xFF" * (page - 5) + bytes.fromhex("BEF98E24FE")
        blank = rng.choice((b"\xFF" * len(whole), whole[: page - 5] + b"\xFF" * 5, weak))
        return rng.choice((whole, whole, whole, whole, whole + blank, blank, whole[: page // 2]))

    def new_name(self, image, number):
        """A word for a new name: any bytes, a name that exists, or one that is computed; now and then one that can't be
        read."""
        rng, names = self.rng, [record.name for record in image.records.values()]
        if rng.random() < 0.1:
            word = spelled(rng, b"name")
            at = rng.randrange(len(word) + 1)
            return rng.choice(("", word[:at] + rng.choice(NO_NAMES) + word[at:]))
        some = bytes(rng.randrange(1, 256) for _ in range(rng.choice((1, 2, 8, 126, 127))))
        there = rng.choice((*names, some))
        name = rng.choice((some, some, b"data", b"\xFF" * 127, there, there, None, None))
        made = self.made_name(image, number) if name is None and number in image.records else some
        return spelled(rng, name or made or some)

    def made_name(self, image, number):
        """A name with which some first pages of the table have the CRC of all, or the last page is blank; None if none
        is found."""
        rng, page, at, end = self.rng, self.geometry.page, 172 * number, 172 * self.geometry.slots
        # The pages up to a border within the record: for other borders hardly any name gives them that CRC.
        pages = range(at // page + 1, (at + 168) // page + 1)
        pages = rng.sample(pages, min(rng.choice((1, 2)), len(pages)))

        def weak(name):
            return weakness(self.geometry, rules.named_table(image, number, name), pages)

        def not_blank(name):
            return int.from_bytes(rules.named_table(image, number, name)[end - 4 : end], "big") ^ 0xFFFFFFFF

        may_be_blank = number + 1 == self.geometry.slots and 0 < end % page <= 4
        return solved(rng, 127, rng.choice((weak, not_blank, not_blank)) if may_be_blank else weak)

    def look_plans(self, image, path):
        """Compares the plans of a change and of a rename. Returns how many cuts were checked."""
        number = self.rng.choice((*image.records, *image.records, *image.records, 3))
        return self.look_change(image, path, *self.target(image)) + self.look_rename(image, path, number)

    def look_change(self, image, path, number, lnum):
        image, more = self.with_plan_words(image)
        return self.look_plan(image, *self.change(path, image, number, lnum, self.new_bytes(), more))

    def look_rename(self, image, path, number):
        image, more = self.with_plan_words(image)
        return self.look_plan(image, *self.rename(path, image, number, self.new_name(image, number), more))

    def look_plan(self, image, words, refusal, steps, meant):
        """Compares a plan, and what is written after its steps. Returns how many cuts were checked."""
        if refusal is not None:
            self.expect(words, f"refused {refusal}\n", 1)
            return 0
        stops = sorted(self.rng.sample(range(len(steps)), min(self.cuts, len(steps))))
        last = self.look_cuts(image, words, steps, meant, (*stops, len(steps)))
        beyond = self.rng.choice(([], ["--stop", str(far(self.rng, len(steps)))]))
        self.expect(words + beyond, "".join(rules.plan_lines(steps)), 0, last, self.pages_of(words, steps))
        if any(map(self.is_bad, range(len(image.states)))):
            with open(words[1], "rb") as file:
                path = self.put("others", self.with_like(file.read()))
            lines, pages = "".join(rules.plan_lines(steps)), self.pages_of(words, steps)
            self.expect([words[0], path, *words[2:]], lines, 0, last, pages)
        of_cut = self.look_cut(image, steps) if words[1] == self.path and self.rng.random() < 0.2 else 0
        return len(stops) + 1 + of_cut

    def look_cut(self, image, steps):
        """Compares the plans for a cut of a plan. Returns how many cuts of those were checked."""
        count = self.rng.randrange(len(steps) + 1)
        cut = self.with_others(rules.after(self.geometry, b"".join(image.found.blocks), steps[:count]))
        path, image = self.put("cut", cut), self.read(cut)
        self.expect(["check", path], "".join(rules.check_lines(image)), 0)
        self.expect(["list", path], "".join(rules.list_lines(image)), 0)
        return self.look_plans(image, path)


def options(usage, count, **others):
    """The options of a script with random images or texts; OTHERS are more options that count them."""
    words = argparse.ArgumentParser(description=usage, formatter_class=argparse.RawDescriptionHelpFormatter)
    words.add_argument("--seed", type=int, default=1)
    for name, number in {"count": count, **others}.items():
        words.add_argument(f"--{name}", type=int, default=number)
    words.add_argument("--first", type=int, default=0, help="the number of the first image or text")
    words.add_argument("--dir", default="/tmp")
    words.add_argument("--tool", help="the program; the one that ./ubi_tool starts by default")
    return words.parse_args()


def print_causes(answers):
    """Prints how often each answer was given, counting those that differ in a number as one."""
    causes = collections.Counter(re.sub(r"=\d+", "", answer) for answer in answers)
    for cause, count in sorted(causes.items()):
        print(f"{count:>6} {cause}")


def finish(passed, failed):
    """Prints the last line, and ends with status 0 if none failed."""
    print(f"{passed} passed, {failed} failed")
    sys.exit(1 if failed else 0)


def run_cases(words, looks):
    """Calls each LOOK with a random generator, seeded by its name and number, and a folder. Returns their answers, and
    how many failed.

    LOOKS has for each name the look and its count; the numbers begin with --first.
    """
    answers, failed = [], 0
    with tempfile.TemporaryDirectory(dir=words.dir) as folder:
        for name, (look, count) in looks.items():
            for k in range(words.first, words.first + count):
                try:
                    answers.append(look(random.Random(f"{words.seed} {name}{k}"), folder))
                except Failure as failure:
                    print(f"number {name}{k} of seed {words.seed}: {failure}", flush=True)
                    failed += 1
    return answers, failed


def main():
    words = options(__doc__, 500, large=20, huge=1)
    tool = built(words.tool)

    def large(rng, folder):
        return Case(rng, tool, folder, Maker(rng, REAL_SIZES), (0, 0, 1), 3, 5).look()

    def huge(rng, folder):
        return Case(rng, tool, folder, HugeMaker(rng, REAL_SIZES), (0,), 3, 5).look()

    answers, failed = run_cases(words, {
        "": (lambda rng, folder: Case(rng, tool, folder, Maker(rng)).look(), words.count),
        "large ": (large, words.large),
        "huge ": (huge, words.huge),
    })
    accepted, cuts = (sum(answer[k] for answer in answers) for k in range(2))
    print(f"{accepted} accepted, {cuts} cuts")
    finish(len(answers), failed)


if __name__ == "__main__":
    main()
