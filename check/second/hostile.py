#!/usr/bin/env python3
"""Damages an image in every way of some families, and compares each answer with that of the rules.

usage: hostile.py [--dir FOLDER] [--tool PROGRAM] [FAMILY ..]

The image is crates/ubi_tool/data/root.img: the two copies of a table with one dynamic volume, and its LEBs 0, 1 and 2,
as `ubinize` writes it. The families, all of which are run by default:
  counters  each bit of each erase-counter header flipped: the meaning stays, with the number that the others carry
  headers   each bit of the volume-identifier header of LEB 1 flipped: LEB 1 reads as 0xFF
  records   each bit of the records of a copy of the table flipped: the meaning stays; in both copies: refused T2
            BothCorrupt
  lengths   each length from 0 on: refused S1 Length if it isn't a number of whole eraseblocks, otherwise the LEBs that
            are left
  faults    each rule of each header and record broken, with a right CRC, in every place where it can be
  pairs     each pair of these: the cause of the lower eraseblock comes first, and those of the table last
  carriers  the image, a free eraseblock and an erased one, with each subset of them carrying the number: they mean the
            image, without the number if none carries it; and changes of each LEB and a rename, whose plans don't touch
            a sole carrier
  repairs   renames in these, if a bit of a copy of the table or of its header is flipped, or copy 1 is at fault or
            differs: refused N3 NeedsRepair; and if bytes differ that nothing looks at: the plan
  weak      renames after which the first pages of the table, for each number of pages and each two numbers, have the
            CRC of all, if there are such names: refused K7 WeakCheck with the least number
  names     renames in these to each byte, as it is and as two digits of either case, to names of each length up to 129
            bytes, and to words that can't be read: refused N1 BadName, whether the volume exists or not
  texts     texts for `compose`: each form of line with each fault, each two faults in one text, each byte in each place
            that has a rule of its own, and right texts at the limits; the cause of the first line comes first
            (text_faults.py)
  lists     LISTs of bad eraseblocks: each form, each byte in each place of one, the longest words, numbers that are
            repeated, in falling order or beyond the image, and wrong words; each is answered within two seconds
  devices   character devices without an end, for each file that a command reads: cannot read, or wrong words if a plan
            has no LIST; and the image from a pipe, from standard input that is a file, and from a terminal: as from its
            file

The script says what is expected, family by family. The images lie in a new folder below FOLDER (/tmp by default), which
is removed afterwards. Without --tool the program is built first, unless it is built already. The last line is 'N
passed, M failed', and the exit status is 0 if none failed.
"""
import argparse
import itertools
import os
import pty
import random
import subprocess
import tempfile

import rules
import text_faults
from fuzz import (
    NO_LISTS, NO_NAMES, ROOT, Failure, Runner, built, complaints, finish, renumbered, sized, solved, weakness,
)
from geometry import find
from text_rules import Described

GEOMETRY = rules.Geometry(512, 64, 64, 128, 1048576)
PEB, LEB = GEOMETRY.peb, GEOMETRY.leb
BASE_PATH = os.path.join(ROOT, "crates", "ubi_tool", "data", "root.img")
with open(BASE_PATH, "rb") as file:
    BASE = file.read()
MEANT = rules.Image(GEOMETRY, BASE)
LEBS = dict(MEANT.contents[0])


def flipped(image, *bits):
    """An image with some bits flipped, counted from the lowest bit of its first byte."""
    out = bytearray(image)
    for bit in bits:
        out[bit // 8] ^= 1 << bit % 8
    return bytes(out)


def reads(lebs):
    """What `extract` writes for the volume with these LEBs."""
    return b"".join(lebs.get(lnum, b"\xFF" * LEB) for lnum in range(MEANT.records[0].reserved))


def counters():
    for p, bit in itertools.product(range(5), range(512)):
        yield flipped(BASE, 8 * p * PEB + bit), reads(LEBS)


def headers():
    without = {lnum: data for lnum, data in LEBS.items() if lnum != 1}
    for bit in range(512):
        yield flipped(BASE, 8 * (3 * PEB + GEOMETRY.vid) + bit), reads(without)


def records():
    first = 8 * GEOMETRY.data
    for bit in range(first, first + 8 * 172 * GEOMETRY.slots):
        yield flipped(BASE, bit), reads(LEBS)
        yield flipped(BASE, 8 * PEB + bit), reads(LEBS)
        yield flipped(BASE, bit, 8 * PEB + bit), "refused T2 BothCorrupt\n"


def lengths():
    for length in range(len(BASE) + 1):
        if length == 0 or length % PEB:
            yield BASE[:length], "refused S1 Length\n"
        else:
            there = length // PEB - 2
            yield BASE[:length], reads({lnum: LEBS[lnum] for lnum in range(there)} if there > 0 else {})


# The faults: for each the rule that is broken, and the offsets and the bytes of the fields that break it. Other rules
# look at other fields, which stay as they are in the image.
EC_FAULTS = (
    ("Version", ((4, "02"),)),
    ("Offsets", ((16, "00000080"),)),
    ("Offsets", ((20, "000000C0"),)),
    ("Counter", ((8, "0000000080000000"),)),
)
# What can be broken in the header of any member.
VID_FAULTS = (
    ("CopyFlag", ((6, "02"),)),
    ("Negative", ((8, "80000000"),)),
    ("Negative", ((12, "80000000"),)),
    ("Negative", ((20, "80000000"),)),
    ("Negative", ((24, "80000000"),)),
    ("Negative", ((28, "80000000"),)),
    ("VolumeId", ((8, "00000080"),)),
    ("VolumeId", ((8, "7FFFEFFE"),)),
    ("Compat", ((7, "03"),)),
    ("Kind", ((5, "00"),)),
    ("Kind", ((5, "03"),)),
    ("Pad", ((28, "000000C0"),)),
    ("Size", ((20, "00000181"),)),
    ("Size", ((5, "02"), (24, "00000001"), (12, "00000000"))),
    ("Size", ((5, "02"), (24, "00000002"), (12, "00000000"), (20, "0000017F"))),
    ("UsedEbs", ((24, "00000001"),)),
    ("UsedEbs", ((5, "02"), (20, "00000180"))),
    ("Lnum", ((5, "02"), (24, "00000003"), (12, "00000003"), (20, "00000180"))),
    ("CopyFields", ((20, "00000001"),)),
    ("CopyFields", ((32, "00000001"),)),
    ("CopyFields", ((6, "01"),)),
)
RECORD_FAULTS = (
    ("NotEmpty", ((0, "00000000"),)),
    ("Negative", ((0, "80000000"),)),
    ("Negative", ((4, "80000000"),)),
    ("Negative", ((8, "80000000"),)),
    ("Alignment", ((4, "00000000"),)),
    ("Alignment", ((4, "00000181"),)),
    ("AlignmentPage", ((4, "00000002"),)),
    ("DataPad", ((8, "00000001"),)),
    ("Kind", ((12, "00"),)),
    ("Kind", ((12, "03"),)),
    ("Marker", ((13, "02"),)),
    ("NameTooLong", ((14, "0080"),)),
    ("NameBlank", ((16, "00"),)),
    ("NameLength", ((14, "0003"),)),
    ("NameLength", ((17, "00"),)),
)


def broken(image, at, size, fields):
    """An image whose header or record of SIZE bytes at a place has other fields, and the right CRC."""
    raw = bytearray(image[at : at + size])
    for where, digits in fields:
        raw[where : where + len(digits) // 2] = bytes.fromhex(digits)
    return image[:at] + rules.sealed(bytes(raw[:-4])) + image[at + size :]


def all_faults():
    """Each fault: its rank among causes, the headers or records that have it, and its line."""
    for p, (name, fields) in itertools.product(range(5), EC_FAULTS):
        yield (p, 0), ((p * PEB, 64, fields),), f"refused S3 Ec block={p} {name}\n"
    for p, (name, fields) in itertools.product(range(5), VID_FAULTS):
        yield (p, 1), ((p * PEB + GEOMETRY.vid, 64, fields),), f"refused S5 Vid block={p} {name}\n"
    for name, fields in RECORD_FAULTS:
        yield (5, 2), ((GEOMETRY.data, 172, fields),), f"refused T3 Record block=0 slot=0 {name}\n"
    # Copy 1 is looked at if copy 0 is corrupt: here the CRC of its first record is wrong.
    for name, fields in RECORD_FAULTS:
        yield (5, 3), ((PEB + GEOMETRY.data, 172, fields),), f"refused T3 Record block=1 slot=0 {name}\n"


def with_fault(image, rank, places):
    for place in places:
        image = broken(image, *place)
    return flipped(image, 8 * (GEOMETRY.data + 171)) if rank[1] == 3 else image


def faults():
    for rank, places, line in all_faults():
        yield with_fault(BASE, rank, places), line


def pairs():
    """Each pair of faults in different headers, not both of them in the table's records."""
    for (rank, places, line), (other, others, other_line) in itertools.combinations(all_faults(), 2):
        if rank[0] < 5 and rank != other:
            _, first_line = min((rank, line), (other, other_line))
            yield with_fault(with_fault(BASE, rank, places), other, others), first_line


FREE, ERASED = len(BASE) // PEB, len(BASE) // PEB + 1
NEW = b"new" * 40 + b"page" * 2
NUMBER = MEANT.image_seq
# The image, a free eraseblock and an erased one. The image's eraseblocks carry the number.
BLOCKS = [BASE[at : at + PEB] for at in range(0, len(BASE), PEB)]
BLOCKS += [rules.put_block(GEOMETRY, rules.put_ec(GEOMETRY)), b"\xFF" * PEB]
MORE = b"".join(BLOCKS)


def carriers():
    """For each subset of the eraseblocks with an erase-counter header the image and its number, a LEB to change or None
    for a rename, and the answer."""
    for count in range(FREE + 2):
        for carry in itertools.combinations(range(FREE + 1), count):
            image = b"".join(renumbered(block, NUMBER if p in carry else 0) for p, block in enumerate(BLOCKS))
            number = NUMBER if carry else 0
            for lnum in range(len(LEBS) + 1):
                yield image, number, lnum, planned(carry, lnum)
            yield image, number, None, planned_rename(carry)


def planned(carry, lnum):
    """What is printed for a change to two pages: the free eraseblock is taken first, and then the erased one."""
    taken, old, lines = [FREE, ERASED], 2 + lnum, []
    if carry == (FREE,):
        taken.remove(FREE)
    if lnum == len(LEBS):
        if len(taken) < 2:
            return "refused K9 NoFree\n"
        old = taken.pop(0)
        lines.append(f"program block={old} page=1")
    if taken[0] == ERASED:
        lines += erased(ERASED)
    lines += [f"program block={taken[0]} page={page}" for page in (1, 2, 3)]
    if carry != (old,):
        lines += erased(old)
    return printed(lines)


def planned_rename(carry):
    """What is printed for a rename, whose table has six pages: copy 0 is put into the free eraseblock, and copy 1 into
    the erased one."""
    if carry == (FREE,):
        return "refused K9 NoFree\n"
    lines = []
    for old, place in ((0, FREE), (1, ERASED)):
        if place == ERASED:
            lines += erased(ERASED)
        lines += [f"program block={place} page={page}" for page in range(1, 8)]
        if carry != (old,):
            lines += erased(old)
    return printed(lines)


def erased(p):
    return [f"erase block={p}", f"program block={p} page=0"]


def printed(lines):
    return "".join(f"{line}\n" for line in (f"steps {len(lines)}", *lines))


PLAN, REPAIR, BAD_NAME = planned_rename(tuple(range(FREE))), "refused N3 NeedsRepair\n", "refused N1 BadName\n"


def repairs():
    """Images, the number of a volume, a word for its new name, and the answer."""
    first, record = PEB + GEOMETRY.data, BASE[GEOMETRY.data : GEOMETRY.data + 172]
    end = GEOMETRY.data + 172 * GEOMETRY.slots
    for copy, bit in itertools.product(range(2), range(8 * PEB)):
        # A member whose erase-counter header is corrupt still counts, and nothing is read after the records.
        seen = GEOMETRY.vid <= bit // 8 < end
        yield flipped(MORE, 8 * copy * PEB + bit), 0, "data", REPAIR if seen else PLAN
    others = ((0, "00000013"),), ((12, "02"),), ((13, "01"),), ((16, "52"),), ((14, "0003"), (19, "00")), ((144, "01"),)
    for fields in (*(fields for _, fields in RECORD_FAULTS), *others):
        yield broken(MORE, first, 172, fields), 0, "data", REPAIR
    # After the name, and in the padding.
    for start, at in itertools.product((GEOMETRY.data, first), (*range(21, 144), *range(145, 168))):
        yield broken(MORE, start, 172, ((at, "FF"),)), 0, "data", PLAN
    for records in (rules.EMPTY_RECORD * 2, record * 2, rules.EMPTY_RECORD + record):
        yield MORE[:first] + records + MORE[first + 344 :], 0, "data", REPAIR
    for blocks in (BLOCKS[:1] + BLOCKS[2:], BLOCKS[1:], BLOCKS[:1] + BLOCKS[2:-1]):
        yield b"".join(blocks), 0, "data", REPAIR
    for blocks in (BLOCKS[:-2], BLOCKS[:-1], BLOCKS[:-2] + BLOCKS[-1:]):
        yield b"".join(blocks), 0, "data", "refused K9 NoFree\n"


def weak():
    """As for repairs. It computes two names: the new one, and that of a second volume."""
    def records(*names):
        return rules.put_table(GEOMETRY, {k: rules.Record(20, 1, 1, 0, name, 0) for k, name in enumerate(names)})

    for pages in (*itertools.combinations(range(6), 1), *itertools.combinations(range(6), 2)):
        def off(both, pages=pages):
            return weakness(GEOMETRY, records(both[:127], both[127:]).ljust(384, b"\xFF"), pages)

        both = solved(random.Random(0), 254, off)
        if both is not None:
            table = records(b"root", both[127:]).ljust(LEB, b"\xFF")
            image = b"".join([block[: GEOMETRY.data] + table for block in BLOCKS[:2]] + BLOCKS[2:])
            yield image, 0, rules.shown(both[:127]), f"refused K7 WeakCheck pages={pages[0]}\n"


def names():
    """As for repairs."""
    for byte in range(1, 256):
        yield MORE, 0, chr(byte), PLAN if 0x21 <= byte <= 0x7E and byte != 0x5C else BAD_NAME
        for word in (f"\\x{byte:02x}", f"\\x{byte:02X}", f"a\\x{byte:02x}b"):
            yield MORE, 0, word, PLAN
    for part, length in itertools.product(("a", "\\x61"), range(130)):
        yield MORE, 0, part * length, PLAN if 1 <= length <= 127 else BAD_NAME
    for word in ("root", "\\x72\\x6f\\x6F\\x74", "-", "--", "-h", "--out", "=", "a=b"):
        yield MORE, 0, word, PLAN
        yield MORE, 1, word, "refused K2 NoVolume\n"
    for number, word in itertools.product((0, 1), NO_NAMES):
        for bad in (word, f"a{word}", f"{word} ", f"\\x41{word}", f"{word}\\x41"):
            yield MORE, number, bad, BAD_NAME


# The most bytes of a word, the eraseblocks of the image with two more, and an image with a thousand times as many.
LONGEST, ALL = 131071, set(range(len(BLOCKS)))
LONG = MORE + b"\xFF" * 999 * len(MORE)


def lists():
    """LISTs, those of the first eraseblocks of the image that they list, or None if they are wrong, and the image."""
    for word, places in itertools.chain(short_lists(), bytes_in_lists()):
        yield word, places, MORE
    for (word, places), image in itertools.product(long_lists(), (MORE, LONG)):
        yield word, places, image


def short_lists():
    yield from (("", set()), ("3,9,28-31", {3}), ("31-31,3,3,005,+2", {2, 3, 5}), ("3-3", {3}), ("7", set()))
    yield from (("4294967295", set()), ("0-4294967295", ALL), ("7-4294967295", set()), ("6-4294967295", {6}))
    yield from (("4294967295-4294967295", set()), ("6,5,4,3,2,1,0", ALL), ("+0-+04294967295", ALL))
    for first, last in itertools.product(range(8), range(8)):
        yield f"{first}-{last}", ALL & set(range(first, last + 1)) if first <= last else None
        yield f"{first},{last}", ALL & {first, last}
        yield f"0{first}-{last},{last}-{first}", ALL & {first} if first == last else None
    for k in range(32):
        # Numbers that are 3 if their high bits are lost.
        yield str(3 + 2**k), ALL & {3 + 2**k}
    for word in (*NO_LISTS, *(str(3 + 2**k) for k in (32, 33, 40, 63, 64, 128)), "1" * 11, "0-18446744073709551615"):
        yield word, None


def bytes_in_lists():
    """Each byte before, between, after and in place of numbers; those above 0x7F alone aren't UTF-8."""
    for byte in range(1, 256):
        for word in (b"%c", b"%c3", b"2%c4", b"3%c", b"3,%c,5", b"1-%c"):
            word %= byte
            test = rules.listed(word.decode("latin-1"))
            yield word, None if test is None else {p for p in ALL if test(p)}


def long_lists():
    """LISTs that are long, or have many items."""
    digits = LONGEST - 1
    yield from (("0" * digits + "3", {3}), ("+" + "0" * (digits - 1) + "3", {3}), ("0" * LONGEST, {0}))
    yield from (("0" * digits + "a", None), ("9" * LONGEST, None))
    zeros = "0" * (LONGEST // 2 - 2)
    yield from ((f"{zeros}2-{zeros}4", {2, 3, 4}), (f"{zeros}4-{zeros}2", None))
    yield from ((f"{zeros}4294967295", set()), (f"{zeros}4294967296", None))
    beyond = ",".join(map(str, range(10000, 30000)))
    yield from ((beyond, set()), (f"{beyond},3", {3}), (f"3,{beyond}", {3}))
    yield from ((f"{beyond},", None), (f"{beyond},x", None), (f"{beyond},4-3", None))
    backward = ",".join(map(str, range(19999, -1, -1)))
    yield from ((backward, ALL), (f"{backward},{backward[-9000:].lstrip(',')}", ALL), (f"{backward},-1", None))
    every_second = ",".join(f"{k}-{k}" for k in range(11000, -1, -2))
    yield from ((every_second, {0, 2, 4, 6}), (f"{every_second},3-2", None))
    yield ",".join(["0-1048575"] * 13000), ALL
    items = {"2-3": {2, 3}, "3": {3}, "3-2": None, "0-4294967295": ALL, "7-1048575": set(), "4294967295": set()}
    for item, places in items.items():
        yield ",".join([item] * ((LONGEST + 1) // (len(item) + 1))), places
    for part in (",", "-", "+", " ", "3,,", "0-"):
        yield part * ((LONGEST - 6) // len(part)), None


ENDLESS = ("/dev/zero", "/dev/full", "/dev/random")


def devices():
    """Words, what they read from standard input, and what they print. OUT stands for a file that mustn't be there
    afterwards."""
    for path in ENDLESS:
        line = f"cannot read {path}\n"
        of_change = ("--id", "0", "--lnum", "0", "--from", path, "--out", "OUT")
        of_rename = ("--id", "0", "--name", "data", "--out", "OUT")
        no_name = ("rename", path, "--id", "0", "--name", "\\", "--out", "OUT")
        for words in (("change", path, *of_change), ("rename", path, *of_rename), no_name):
            yield words, b"", ""
            yield (*words, "--blank", "keep", "--stop", "0"), b"", ""
        for words in (
            ("geometry", path),
            ("list", path),
            ("check", path),
            ("show", path, "--block", "0"),
            ("extract", path, "--id", "0", "--out", "OUT"),
            ("normalise", path, "--out", "OUT"),
            ("normalise", path, "--out", path),
            ("same", path, path),
            ("check", path, "--bad", "0-4294967295"),
            ("change", path, *of_change, "--bad="),
            ("change", path, *of_change, "--bad", "3,9"),
            ("change", BASE_PATH, *of_change),
            ("rename", path, *of_rename, "--bad", ""),
            ("rename", path, *of_rename, "--bad=0-4294967295"),
            (*no_name, "--bad="),
            ("compose", path, "--out", "OUT"),
        ):
            yield words, b"", line
        yield ("check", "/dev/stdin"), path, "cannot read /dev/stdin\n"
    checked = "".join(rules.check_lines(MEANT))
    yield ("check", "/dev/stdin"), BASE, checked
    yield ("check", "/dev/stdin"), BASE_PATH, checked
    found = "".join(find(BASE))
    yield ("geometry", "/dev/stdin"), BASE, found
    yield ("geometry", "/dev/stdin"), BASE_PATH, found
    yield ("geometry", "/dev/stdin"), b"", "refused F1 NoHeader\n"
    blank = b"\xFF" * PEB
    yield ("geometry", "/dev/stdin"), Typed(blank), "refused F1 NoHeader\n"
    yield ("check", "/dev/stdin"), Typed(blank), "".join(rules.check_lines(rules.Image(GEOMETRY, blank)))


class Typed:
    """Bytes that are typed at a terminal, followed twice by the key that ends the input."""

    def __init__(self, keys):
        self.keyboard, self.terminal = pty.openpty()
        os.write(self.keyboard, keys + b"\x04\x04")


FAMILIES = {
    "counters": counters,
    "headers": headers,
    "records": records,
    "lengths": lengths,
    "faults": faults,
    "pairs": pairs,
    "carriers": carriers,
    "repairs": repairs,
    "weak": weak,
    "names": names,
    "texts": text_faults.texts,
    "lists": lists,
    "devices": devices,
}


class Looker:
    """Compares the program's answers with what is expected and with check/second/rules.py."""

    def __init__(self, tool, folder):
        self.tool = tool
        self.path, self.out = os.path.join(folder, "damaged"), os.path.join(folder, "read")
        self.runner, self.of_texts = (Runner(tool, folder, geometry) for geometry in (GEOMETRY, text_faults.GEOMETRY))

    def run(self, command, *words):
        whole = [self.tool, command, self.path, *words, *GEOMETRY.words()]
        ran = subprocess.run(whole, capture_output=True, text=True)
        return ran.stdout, ran.returncode

    def is_right(self, image, expected):
        """Whether an image is refused with a line, or its volume has some contents; and `check` and `same` agree with
        that."""
        with open(self.path, "wb") as file:
            file.write(image)
        try:
            checked = ("".join(rules.check_lines(rules.Image(GEOMETRY, image))), 0)
        except rules.Refused as refused:
            checked = (f"refused {refused}\n", 1)
        if self.run("check") != checked:
            return False
        if isinstance(expected, str):
            return checked == (expected, 1)
        if self.run("same", BASE_PATH) != (("same\n", 0) if expected == reads(LEBS) else ("different\n", 1)):
            return False
        extracted = self.run("extract", "--id", "0", "--out", self.out)
        with open(self.out, "rb") as file:
            return extracted == (f"bytes {len(expected)}\n", 0) and file.read() == expected

    def is_carried(self, image, number, lnum, expected):
        """Whether an image means the base with a number, and a change of a LEB or a rename gives what is expected and
        keeps the number."""
        runner, found, path = self.runner, rules.Image(GEOMETRY, image), self.runner.put("carried", image)
        normal = rules.normal_image(rules.Meaning(GEOMETRY, number, MEANT.records, MEANT.contents))
        try:
            runner.expect(["check", path], "".join(rules.check_lines(found)), 0)
            runner.expect(["same", BASE_PATH, path], *(("same\n", 0) if number == NUMBER else ("different\n", 1)))
            runner.expect(["normalise", path, "--out", runner.out], f"blocks {len(normal) // PEB}\n", 0, normal)
        except Failure as failure:
            print(failure)
            return False
        plan = runner.rename(path, found, 0, "data") if lnum is None else runner.change(path, found, 0, lnum, NEW)
        return found.image_seq == number and self.is_planned(found, plan, expected)

    def is_renamed(self, image, number, word, expected):
        """Whether a rename of a volume prints what is expected, and writes it."""
        found, path = rules.Image(GEOMETRY, image), self.runner.put("renamed", image)
        return self.is_planned(found, self.runner.rename(path, found, number, word), expected, cuts=1)

    def is_planned(self, found, plan, expected, cuts=99):
        """Whether a plan prints what is expected and what the rules say, and writes its last cuts."""
        words, refusal, steps, meant = plan
        try:
            if expected.startswith("refused"):
                self.runner.expect(words, expected, 1)
                return f"refused {refusal}\n" == expected
            self.runner.look_cuts(found, words, steps, meant, range(len(steps) + 1)[-cuts:])
        except Failure as failure:
            print(failure)
            return False
        return "".join(rules.plan_lines(steps)) == expected

    def is_composed(self, text, spares, expected):
        """Whether a text is refused with a line, or composed into an image for which `list` prints some lines."""
        words = ["compose", self.of_texts.put("text", text), "--out", self.of_texts.out, "--spares", str(spares)]
        try:
            image = rules.composed(Described(self.of_texts.geometry, text), spares)
        except rules.Refused as refused:
            image = f"refused {refused}\n"
        try:
            if isinstance(expected, str):
                self.of_texts.expect(words, expected, 1)
                return image == expected
            self.of_texts.expect(words, f"blocks {len(image) // self.of_texts.geometry.peb}\n", 0, image)
            front = next(rules.list_lines(rules.Meaning(self.of_texts.geometry, 0, {}, {})))
            lines = "".join(f"{line}\n" for line in (*expected, f"volumes {len(expected)}"))
            self.of_texts.expect(["list", self.of_texts.put("composed", image)], front + lines, 0)
        except Failure as failure:
            print(failure)
            return False
        return True

    def is_listed(self, word, places, image):
        """Whether a LIST lists some eraseblocks of an image, or is wrong, in one word with its option and in a word of
        its own."""
        test = rules.listed(word.decode("latin-1") if isinstance(word, bytes) else word)
        if (test is None) != (places is None) or test and {p for p in ALL if test(p)} != places:
            return False
        word = os.fsencode(word)
        ways = [[b"--bad", word]] if not word.startswith(b"-") else []
        ways += [[b"--bad=" + word]] if len(word) + 6 <= LONGEST else []
        path = self.runner.put("listed", image)
        return all(self.is_answered(path, words, test, image) for words in ways)

    def is_answered(self, path, of_bad, test, image):
        """Whether `check` and `show` give the right answers for an image, if the eraseblocks of a test are bad; or if
        there is no test, whether the words are wrong."""
        lines, shown = "", []
        if test:
            try:
                found = rules.Image(GEOMETRY, image, test)
                lines, shown = "".join(rules.check_lines(found)), range(len(BLOCKS))
            except rules.Refused as refused:
                lines = f"refused {refused}\n"
        status = 2 if not test else 1 if lines.startswith("refused") else 0
        if self.answer(["check", path, *GEOMETRY.words(), *of_bad]) != (lines, status, not test):
            return False
        for p in shown:
            block = found.found.blocks[p]
            ec, vid = block[:64].hex(), block[GEOMETRY.vid : GEOMETRY.vid + 64].hex()
            lines = f"ec {found.found.ecs[p][0]} {ec}\nvid {found.found.vids[p][0]} {vid}\n"
            if self.answer(["show", path, "--block", str(p), *of_bad, *GEOMETRY.words()]) != (lines, 0, False):
                return False
        return True

    def answer(self, words):
        """What is printed within two seconds, the status, and whether anything is printed on standard error."""
        try:
            ran = subprocess.run([self.tool, *words], capture_output=True, timeout=2)
        except subprocess.TimeoutExpired:
            return None
        return ran.stdout.decode(), ran.returncode, bool(complaints(ran.stderr, ran.stdout))

    def is_printed(self, words, given, expected):
        """Whether words print a text, and write no file, given a standard input: bytes in a pipe, a path or a
        terminal."""
        out = self.out + ".none"
        words = [self.tool, *sized([out if word == "OUT" else word for word in words], GEOMETRY)]
        status = 2 if not expected else 1 if expected.startswith(("cannot read ", "refused ")) else 0
        if isinstance(given, bytes):
            ran = subprocess.run(words, input=given, capture_output=True, timeout=60)
        else:
            end = given.terminal if isinstance(given, Typed) else os.open(given, os.O_RDONLY)
            ran = subprocess.run(words, stdin=end, capture_output=True, timeout=60)
            os.close(end)
        return (ran.stdout.decode(), ran.returncode) == (expected, status) and not os.path.exists(out)


def main():
    words = argparse.ArgumentParser(description=__doc__, formatter_class=argparse.RawDescriptionHelpFormatter)
    words.add_argument("--dir", default="/tmp")
    words.add_argument("--tool", help="the program; the one that ./ubi_tool starts by default")
    words.add_argument("families", nargs="*", metavar="FAMILY", choices=[*FAMILIES, []])
    words = words.parse_args()
    passed = failed = 0
    with tempfile.TemporaryDirectory(dir=words.dir) as folder:
        looker = Looker(built(words.tool), folder)
        judges = {
            "devices": (looker.is_printed, "runs"),
            "texts": (looker.is_composed, "texts"),
            "carriers": (looker.is_carried, "plans"),
            "lists": (looker.is_listed, "lists"),
            **dict.fromkeys(("repairs", "weak", "names"), (looker.is_renamed, "renames")),
        }
        for name in words.families or FAMILIES:
            judge, what = judges.get(name, (looker.is_right, "images"))
            verdicts = [judge(*case) for case in FAMILIES[name]()]
            wrong = [k for k, right in enumerate(verdicts) if not right]
            print(f"{name}: {len(verdicts)} {what}", *(["wrong:", *wrong[:10]] if wrong else []))
            passed, failed = passed + len(verdicts) - len(wrong), failed + len(wrong)
    finish(passed, failed)


if __name__ == "__main__":
    main()
