#!/usr/bin/env python3
"""Compares the plans of `update` for random images with docs/FORMAT.md, as check/second/update_rules.py reads it.

usage: updates.py [--seed N] [--count N] [--large N] [--first N] [--dir FOLDER] [--tool PROGRAM] [--alone]

An image has static and dynamic volumes with none to all of their LEBs, blank ones and blank tails, alignments, flags,
volumes that are updating or damaged, older members, orphans as a plan that was cut leaves them, and eraseblocks that
are free, blank, dropped or unreadable, in a random order. In some all slots are taken, the erase counters or the
sequence numbers are nearly used up, the copies of the table differ, or only as many eraseblocks may be taken as are
needed, or one less. In a third some eraseblocks are bad, with anything in them. A quarter of the plans keep blank
eraseblocks.

Up to four words ask for edits, spelled in all ways of docs/FORMAT.md. Most lists can be planned: volumes are written,
renamed, sized and removed, also in one list; they swap their names, or take that of one that is removed. The others
are spoiled, for each cause in turn. In three of ten a config gives one or two volumes more, which are new or replace
others.

The printed text, the status, the pages and the image after each number of steps have to be those of the rules. A
refusal leaves the files as they were. rules.py judges each cut: it has to be accepted, and to mean the old before the
commit point and the new from it on, which are worked out from the edits, and not from the plan. For some cuts `check`,
`list` and `extract` have to agree. No step may touch a bad eraseblock, or a blank one that is kept. Then the same words
plan again on a cut, up to four times. Last come some plans and refusals that were worked out by hand.

By default there are 100 images (--count) of the seed 1 (--seed) with eraseblocks of up to 1 KiB, and 2 (--large) with
eraseblocks of 128 KiB and a volume of 100 LEBs, for which only some cuts are looked at. They lie in a new folder below
FOLDER (/tmp by default), which is removed afterwards. Without --tool the program is built first, unless it is built
already. With --alone no program is run, and the cuts of the rules' own plans are judged. It counts each cause and each
kind of edit. The last line is 'N passed, M failed', and the exit status is 0 if none failed; an image that failed can
be made again by giving its number to --first.
"""
import argparse
import collections
import dataclasses
import os
import subprocess

import rules
import update_rules
from fuzz import (
    NO_NAMES, REAL_SIZES, Failure, Lister, Maker, Mutator, Runner, built, cased, complaints, either, expect, far,
    finish, listing, run_cases, solved, spelled, taken_file, weakness,
)
from rules import LAYOUT, TOP_COUNTER, TOP_SQNUM, Geometry, Record, Refused, Vid
from update_rules import Edited, Word

# Most have tables with four or five slots, since a volume that is written takes another one. The last page of a table
# can be blank in eraseblocks of 704 bytes alone.
SIZES = (
    *((1024, 64, 64, 128), (1024, 256, 64, 256), (1024, 128, 64, 128), (1024, 128, 128, 256)) * 3,
    *((1024, 256, 320, 512), (704, 64, 64, 128), (704, 64, 64, 128), (512, 64, 64, 128), (448, 64, 128, 192)),
)
KINDS = {1: "dynamic", 2: "static"}
# The edits that a volume may get together.
SHAPES = (
    ("write",), ("write",), ("write",), ("rename",), ("resize",), ("remove",), ("rename", "write"),
    ("resize", "write"), ("rename", "resize"), ("rename", "resize", "write"),
)
# Words that name no volume, and words that give no size.
NO_VOLUMES = (
    "", "none", "nobody here", "\\", "\\x", "\\x00", "\\x4g", "n\xE9", "two\nlines", "a" * 128, "-", "--out",
)
NO_SIZES = (
    "", "-1", "1.5", "3 KiB", "3kib", "3KB", "3K", "KiB", "0x", "0xg", "+", "++3", "+0x10", "0x10KiB", "3KiB ", " 3",
    "1e3", "\uFF13", "3TiB", "9223372036854775808", "0x8000000000000000", "9007199254740992KiB", "8589934592GiB", "=3",
    "1_0",
)
CAUSES = (
    "K1", "U1 NoVolume", "U1 NoVolume after an edit", "N1 BadName", "U9 BadSize", "U2 Record NotEmpty",
    "U2 Record Negative", "U3 TooLarge", "U4 NotWhole", "U5 InUse", "N2 SameName", "U6 NoSlot", "U7 NoSpace",
    "U8 Autoresize", "N3 NeedsRepair", "K7 WeakCheck", "K8 Exhausted", "K9 NoFree", "cannot read",
)
OLD = b"what was there before"


class UpdateMaker(Maker):
    """Makes a random image; most have room, and two good copies of the table."""

    pebs = (48, 64, 64)
    # How many sequence numbers may be left, if few are.
    left = range(1, 9)

    def slots(self):
        """The slots of volumes: mostly one stays free, or more."""
        rng, slots = self.rng, self.geometry.slots
        most = slots if rng.random() < 0.1 else max(1, slots - 1)
        return sorted(rng.sample(range(slots), min(most, rng.choice((1, 2, 2, 3, 4)))))

    def name(self, slot):
        first = bytes([65 + slot % 26])
        return self.rng.choice((super().name(slot), super().name(slot), first + b"ata", first + b"=" + first))

    def record(self, slot):
        flags = self.rng.choice((0,) * 8 + (1, 1, 2, 0xFF))
        return dataclasses.replace(super().record(slot), flags=flags)

    def ec(self):
        high = TOP_COUNTER - self.rng.choice((0, 0, 1, 2))
        return rules.put_ec(self.geometry, high if self.rng.random() < 0.2 else self.rng.randrange(1000))

    def sqnum(self):
        return next(self.sqnums)

    def tables(self):
        """The members of the table's two copies; now and then one copy isn't there."""
        rng = self.rng
        copies = rng.choice(((0, 1),) * 50 + ((0,), (1,)))
        return [self.table(copy) for copy in copies for _ in range(rng.choice((1, 1, 1, 1, 2)))]

    def other_records(self):
        return super().other_records() if self.rng.random() < 0.4 else self.records

    def dynamic(self, slot, record):
        """Members of some LEBs; now and then also of the one beyond what is reserved."""
        if self.rng.random() < 0.8:
            record = dataclasses.replace(record, reserved=record.reserved - 1)
        return super().dynamic(slot, record)

    def static(self, slot, record):
        """The eraseblocks of a static volume; now and then it has lost one."""
        blocks = super().static(slot, record)
        lost = self.rng.choice(blocks) if len(blocks) > 1 and self.rng.random() < 0.3 else None
        return [block for block in blocks if block is not lost]

    def others(self):
        rng = self.rng
        kinds = (self.free, self.erased, self.garbage, self.corrupt, self.dropped, self.orphan)
        blocks = [rng.choices(kinds, (24, 8, 2, 2, 2, 1))[0]() for _ in range(rng.choice((4, 12, 16, 20, 24)))]
        return blocks + ([self.late()] if rng.random() < 0.12 else [])

    def orphan(self):
        """What a plan that was cut has left: a LEB of a volume without a record."""
        rng = self.rng
        number = rng.choice([number for number in range(self.geometry.slots + 2) if number not in self.records])
        if number > 127 or rng.random() < 0.5:
            return self.block(Vid(1, 0, 0, min(number, 127), 5, 0, 0, 0, 0, self.sqnum()), self.contents(60))
        data = rng.randbytes(rng.randrange(1, 99))
        return self.block(Vid(2, 0, 0, number, 0, len(data), 1, 0, rules.crc(data), self.sqnum()), data)

    def late(self):
        """A dropped eraseblock, after which few sequence numbers are left."""
        sqnum = TOP_SQNUM - self.rng.choice(self.left)
        return self.block(Vid(1, 0, 1, LAYOUT + 1, 0, 0, 0, 0, 0, sqnum), b"")


class LargeMaker(UpdateMaker):
    """Makes an image of a device with many eraseblocks. One of its two volumes reserves 100 of them, and has few."""

    pebs = (160,)
    left = range(5, 200)

    def slots(self):
        slots = self.rng.sample(range(self.geometry.slots), 2)
        self.larger = slots[0]
        return sorted(slots)

    def record(self, slot):
        return dataclasses.replace(super().record(slot), reserved=100 if slot == self.larger else 2)

    def dynamic(self, slot, record):
        return super().dynamic(slot, dataclasses.replace(record, reserved=min(record.reserved, 5)))

    def static(self, slot, record):
        return super().static(slot, dataclasses.replace(record, reserved=min(record.reserved, 5)))

    def others(self):
        return super().others() + [self.free() for _ in range(104)]


class Asker:
    """Asks for random edits of the volumes of an image."""

    def __init__(self, rng, image):
        self.rng, self.image, self.geometry = rng, image, image.geometry
        self.spoilers = (
            self.no_volume, self.twice, self.bad_name, self.bad_size, self.bad_size, self.odd_record, self.odd_record,
            self.too_large, self.beyond_device, self.not_whole, self.not_whole, self.in_use, self.same_name,
            self.all_written, self.no_space, self.autoresized, self.weak, self.weak,
        )

    def words(self):
        """One to four words, in a random order."""
        rng = self.rng
        if not self.image.records:
            return self.no_volume([])
        words = self.right()
        for _ in range(rng.choice((0, 0, 0, 0, 0, 0, 1, 1, 1, 2))):
            words = rng.choice(self.spoilers)(rng.choice((words, words[:1])))
        return rng.sample(words, len(words))[:4] + (self.sections(words) if rng.random() < 0.3 else [])

    # Sections of a config.

    def sections(self, words):
        """One section or two, with names that differ; mostly no more than there are fresh slots left."""
        rng, image = self.rng, self.image
        left = len(update_rules.fresh_slots(image)) - sum(word.option == "write" for word in words)
        plain = [name for name in (record.name for record in image.records.values()) if name.isalnum()]
        plain += [name for name in (update_rules.name_of(word.value) for word in words if word.option == "rename")
                  if name and name.isalnum()]
        names = [rng.choice(plain) if plain and rng.random() < 0.6 else b"new%d" % rng.randrange(9) for _ in range(2)]
        count = rng.choice((1, 1, 2)) if rng.random() < 0.1 else min(max(left, 1), rng.choice((1, 1, 2)))
        names = list(dict.fromkeys(names[:min(count, image.geometry.slots)]))
        # A config has one volume at most with the autoresize flag.
        return [self.section(name, (0, 0, 0, 0, k == 0)) for k, name in enumerate(names)]

    def section(self, name, flags):
        """A section of a small volume. A dynamic one has one of the FLAGS."""
        rng, kind = self.rng, self.rng.choice((1, 1, 2))
        flags = rng.choice(tuple(map(int, flags)) if kind == 1 else (0, 0, 2))
        record = Record(1, 1, kind, 0, name, flags)
        usable = record.usable(self.geometry)
        data = self.contents(usable, rng.choice((1, 1, 2, 3))) or (b"" if kind == 2 else b"d")
        size = rng.choice((None, max(1, len(data)), len(data) + rng.randrange(1, usable)))
        reserved = max(1, -(-(len(data) if size is None else size) // usable))
        return update_rules.Section(dataclasses.replace(record, reserved=reserved), data, size)

    # Words that mostly can be planned.

    def right(self):
        """Edits of one to three volumes."""
        rng, volumes = self.rng, list(self.image.records)
        numbers = rng.sample(volumes, min(len(volumes), rng.choice((1, 1, 2, 2, 3))))
        if len(numbers) > 1 and rng.random() < 0.4:
            words = rng.choice((self.swapped, self.taken_over))(*numbers[:2])
        else:
            words = [word for number in numbers for word in self.edits(number)]
        return self.fitting(words) if rng.random() < 0.8 else words

    def fitting(self, words):
        """The words, without those that write more volumes than there are fresh slots."""
        written = [word for word in words if word.option == "write"][: len(update_rules.fresh_slots(self.image))]
        return [word for word in words if word.option != "write" or word in written]

    def swapped(self, one, other):
        """Two volumes get each other's name, and maybe other contents."""
        names = [self.rename(one, self.name_of(other)), self.rename(other, self.name_of(one))]
        return names + self.maybe_written(one) + self.maybe_written(other)

    def taken_over(self, one, other):
        """A volume is removed, and another one gets its name, and maybe other contents."""
        return [self.remove(one), self.rename(other, self.name_of(one)), *self.maybe_written(other)]

    def maybe_written(self, number):
        return [self.write(number)] if self.rng.random() < 0.4 else []

    def edits(self, number):
        """The edits of one volume."""
        shape, reserved, words = self.rng.choice(SHAPES), self.reserved(number), []
        if "remove" in shape:
            return [self.remove(number)]
        if "rename" in shape:
            words.append(self.rename(number, self.new_name(number)))
        if "resize" in shape and self.is_whole(number):
            reserved = self.new_size(number)
            words.append(self.resize(number, reserved))
        if "write" in shape or not words:
            words.append(self.write(number, reserved))
        return words

    def is_whole(self, number):
        return not isinstance(self.image.contents[number], str)

    def name_of(self, number):
        return self.image.records[number].name

    def reserved(self, number):
        return self.image.records[number].reserved

    def usable(self, number):
        return self.image.records[number].usable(self.geometry)

    def end(self, number):
        """The least size that is above each LEB with a member."""
        members = self.image.found.members.values()
        return max((header.lnum + 1 for header in members if header.volume == number), default=0)

    def spare(self):
        """How many more eraseblocks may be reserved."""
        return update_rules.room(self.image) - 4 - update_rules.reserved(self.image.records)

    def new_name(self, number):
        """A name that no other volume has; now and then the one that the volume has."""
        rng = self.rng
        some = b"n" + bytes(rng.randrange(1, 256) for _ in range(rng.choice((1, 2, 8, 126))))
        return rng.choice((some, some, b"new%d" % number, b"=%d" % number, self.name_of(number)))

    def new_size(self, number):
        """How many eraseblocks a volume may reserve: not fewer than it has members of, and mostly no more than there is
        room for."""
        least, more = max(1, self.end(number)), self.rng.randint(1, 3)
        most = self.reserved(number) + (min(more, max(0, self.spare())) if self.rng.random() < 0.9 else more)
        return self.rng.choice((least, most, self.rng.randint(min(least, most), most)))

    # The words themselves.

    def word(self, option, name, value=None):
        """A word. In a NAME that isn't the whole word a `=` has to be escaped."""
        escaped = name.replace("=", self.rng.choice(("\\x3d", "\\x3D")))
        return Word(option, name if value is None else escaped, value)

    def named(self, option, number, value=None):
        return self.word(option, spelled(self.rng, self.name_of(number)), value)

    def rename(self, number, name):
        return self.named("rename", number, spelled(self.rng, name))

    def remove(self, number):
        return self.named("remove", number)

    def write(self, number, reserved=None):
        """Other contents of a volume, which reserves so many eraseblocks then, or as many as it does."""
        size = self.reserved(number) if reserved is None else reserved
        return self.named("write", number, self.contents(self.usable(number), size))

    def resize(self, number, reserved):
        """A size of so many eraseblocks, the last of which may be used in part."""
        usable = self.usable(number)
        fewest = usable * (reserved - 1) + 1 if reserved else 0
        return self.named("resize", number, self.size(fewest, usable * reserved))

    def size(self, fewest, most):
        """A word for a number of bytes between two, spelled in some way."""
        rng, size, kibi = self.rng, self.rng.choice((most, self.rng.randint(fewest, most))), most // 1024
        if kibi * 1024 >= fewest and rng.random() < 0.5:
            return rng.choice((f"{kibi}KiB", f"+{kibi}KiB", f"0{kibi}KiB"))
        digits = cased(rng, f"{size:x}")
        return rng.choice((str(size), str(size), f"+{size}", f"00{size}", f"+0{size}", f"0x{digits}", f"0x0{digits}"))

    def contents(self, usable, size):
        """The bytes of a file for so many LEBs: none, one byte, whole LEBs or not, with blank LEBs and a blank tail."""
        rng, most = self.rng, usable * size
        lengths = (0, 1, usable - 1, usable, usable + 1, most, most, most, most - 1, rng.randrange(most + 1))
        length = min(most, rng.choice(lengths))
        pieces = (rng.randbytes(usable) if rng.random() < 0.85 else b"\xFF" * usable for _ in range(size))
        tail = min(length, rng.choice((0, 0, 0, 1, usable // 2, usable)))
        return b"".join(pieces)[: length - tail] + b"\xFF" * tail

    # Words with something that stands against them, if the image has what that needs.

    def any_volume(self, numbers=()):
        """One of some volumes, or any if these are none."""
        return self.rng.choice([*numbers] or list(self.image.records))

    def no_volume(self, words):
        """A NAME that no volume has."""
        rng, name, new, size = self.rng, self.rng.choice(NO_VOLUMES), spelled(self.rng, b"new"), "3KiB"
        values = {"rename": rng.choice((new, "\\")), "resize": rng.choice((size, "?")), "remove": None, "write": b"x"}
        option = rng.choice(list(values))
        return [*words, self.word(option, name, values[option])]

    def twice(self, words):
        """A volume that an edit before has removed or replaced."""
        number, edits = self.any_volume(), {"remove": self.remove, "write": self.write}
        both = self.rng.choice((("remove", "remove"), ("remove", "write"), ("write", "write")))
        return words[:2] + [edits[option](number) for option in both]

    def bad_name(self, words):
        return [*words, self.named("rename", self.any_volume(), self.rng.choice(("", *NO_NAMES)))]

    def bad_size(self, words):
        return [*words, self.named("resize", self.any_volume(), self.rng.choice(NO_SIZES))]

    def odd_record(self, words):
        """A size of no eraseblock, or of too many for a record."""
        number, rng = self.any_volume(), self.rng
        largest = self.named("resize", number, "9223372036854775807")
        sizes = (0, 0, 0, 2**31, 2**32 - 1, 2**32 + 3)
        return [*words[:3], rng.choice((largest, *(self.resize(number, size) for size in sizes)))]

    def too_large(self, words):
        """Contents that are one byte too long."""
        number = self.any_volume()
        room = self.reserved(number) * self.usable(number)
        return [*words[:3], self.named("write", number, self.rng.randbytes(room) + b"\xFF")]

    def beyond_device(self, words):
        """Contents that are longer than the device, for a volume that is larger too, or nearly so."""
        number, device = self.any_volume(), self.geometry.pebs * self.geometry.peb
        size = device // self.usable(number) + self.rng.choice((0, 1, 2))
        contents = self.rng.randbytes(device + self.usable(number))
        return [self.resize(number, size), self.named("write", number, contents)]

    def not_whole(self, words):
        """Another size of a volume that is updating or damaged; now and then the size that it has."""
        number = self.any_volume(number for number in self.image.records if not self.is_whole(number))
        more = self.rng.choice((0, 1, 1, 1))
        return [*words[:2], self.resize(number, self.reserved(number) + more), *self.maybe_written(number)]

    def in_use(self, words):
        """A size that doesn't reserve the last LEB with a member; now and then the size that the volume has."""
        number = self.any_volume(number for number in self.image.records if self.end(number) > 1)
        size = self.rng.choice((self.end(number) - 1, self.end(number) - 1, self.reserved(number)))
        return [*words[:3], self.resize(number, max(1, size))]

    def same_name(self, words):
        """The name of another volume."""
        number = self.any_volume()
        other = self.any_volume(other for other in self.image.records if other != number)
        return [*words[:3], self.rename(number, self.name_of(other))]

    def all_written(self, words):
        """All volumes are written, or two or three, and maybe one gets the name of another one."""
        volumes = list(self.image.records)
        numbers = self.rng.sample(volumes, min(len(volumes), self.rng.choice((2, 3, 4))))
        return [*self.rng.choice(([], self.same_name([]))), *map(self.write, numbers)][:4]

    def no_space(self, words):
        """The largest size that there is room for, or a larger one."""
        number = self.any_volume()
        size = self.rng.choice((self.reserved(number) + self.spare() + self.rng.choice((0, 1)), 2**20, 2**31 - 1))
        return [*words[:3], self.resize(number, max(1, size))]

    def autoresized(self, words):
        """Contents of one or two volumes that have the autoresize flag."""
        numbers = [number for number, record in self.image.records.items() if record.flags & 1]
        return [*words[:2], *(self.write(number) for number in numbers[: self.rng.randint(1, 2)])]

    def weak(self, words):
        """A name with which some first pages of the table have the CRC of all, or with which its last page is blank;
        none if it isn't found."""
        number = self.any_volume()
        others = [word for word in words if update_rules.number_of(self.image, word) != number]
        words = [*others[:2], *self.maybe_written(number)]
        name = self.made_name(words, number)
        return [*words, self.rename(number, name)] if name else words

    def made_name(self, words, number):
        """Such a name for a volume, among other edits; None if none is found."""
        try:
            edited = Edited(self.image, update_rules.edits_of(self.image, words))
        except Refused:
            return None
        slots = {volume.replaces: slot for slot, volume in edited.placed().items()}
        slot, records = slots.get(number, number), edited.records()
        if slot not in records:
            return None

        def table(name):
            named = dataclasses.replace(records[slot], name=name)
            return update_rules.new_table(self.geometry, records | {slot: named})

        return solved(self.rng, 127, self.weakness_of(slot, table))

    def weakness_of(self, slot, table):
        """A function that is 0 for a weak name in a slot. TABLE gives the table with a name."""
        rng, page, at, end = self.rng, self.geometry.page, 172 * slot, 172 * self.geometry.slots
        # The pages up to a border within the record: for other borders hardly any name gives them that CRC.
        pages = range(at // page + 1, (at + 168) // page + 1)
        pages = rng.sample(pages, min(rng.choice((1, 2)), len(pages)))

        def weak(name):
            return weakness(self.geometry, table(name), pages)

        def not_blank(name):
            return int.from_bytes(table(name)[end - 4 : end], "big") ^ 0xFFFFFFFF

        may_be_blank = slot + 1 == self.geometry.slots and 0 < end % page <= 4
        return not_blank if may_be_blank and rng.random() < 0.7 else weak


class LargeAsker(Asker):
    """Asks for other contents of the larger volume, and for edits of the other one."""

    def words(self):
        other, larger = sorted(self.image.records, key=self.reserved)
        words = [self.write(larger), *self.edits(other)]
        return self.rng.sample(words, len(words))

    def contents(self, usable, size):
        """The bytes of a file: mostly all LEBs, which have few bytes each."""
        rng = self.rng
        if rng.random() < 0.2:
            return super().contents(usable, size)
        return b"".join(rng.randbytes(rng.randrange(5000)).ljust(usable, b"\xFF") for _ in range(size))


def cause_of(refusal, image):
    """The cause of a refusal, without its numbers and names. The image is None if it is refused itself."""
    if image is None:
        return "K1"
    said, _, name = str(refusal).partition(" name=")
    cause = " ".join(word for word in said.split() if "=" not in word)
    is_there = cause == "U1 NoVolume" and update_rules.number_of(image, Word("remove", name)) is not None
    return f"{cause} after an edit" if is_there else cause


def kinds_of(update, words):
    """What comes up in a plan: which edits a volume gets, what is written and sized, which names and eraseblocks are
    taken, and a table whose last page is blank."""
    image, edits = update.image, update_rules.edits_of(update.image, words)
    if any(edit.number is None for edit in edits):
        yield "config, a new one"
    for number in sorted({edit.number for edit in edits if edit.number is not None}):
        yield " and ".join(edit.word.option for edit in edits if edit.number == number)
    for slot, volume in update.edited.placed().items():
        content, count = image.contents.get(volume.replaces, "new"), len(update.lebs[slot])
        yield f"write a {KINDS[volume.record.kind]} one: {('no LEB', 'one LEB', 'more LEBs')[min(count, 2)]}"
        yield f"write one that is {content if isinstance(content, str) else 'whole'}"
    for edit in edits:
        if edit.word.option == "resize":
            old = image.records[edit.number].reserved
            yield f"resize to {'more' if edit.gets > old else 'less' if edit.gets < old else 'the same'}"
    owners = {record.name: number for number, record in image.records.items()}
    if any(edit.word.option == "rename" and owners.get(edit.gets, edit.number) != edit.number for edit in edits):
        yield "rename to the old name of another one"
    yield from sorted({f"take {image.states[p]}" for p in rules.takeable(image)[: update.edited.takes()]})
    if rules.is_blank(update.edited.table()[-image.geometry.page :]):
        yield "a table whose last page is blank"


def cuts_of(geometry, whole, steps, stops):
    """Some numbers of steps, which rise, and the image after so many steps."""
    now, done = bytearray(whole), 0
    for stop in stops:
        for step in steps[done:stop]:
            rules.do(geometry, now, step)
        done = stop
        yield stop, bytes(now)


def differing(got, right):
    """How two answers differ, in few words."""
    if not isinstance(got, bytes) or not isinstance(right, bytes) or max(len(got), len(right)) < 3000:
        return f"{got!r} and not {right!r}"
    at = next((k for k, pair in enumerate(zip(got, right)) if pair[0] != pair[1]), min(len(got), len(right)))
    parts = [part[at : at + 99] for part in (got, right)]
    return f"{len(got)} bytes and not {len(right)}, from byte {at} on {parts[0]!r} and not {parts[1]!r}"


class Case(Runner):
    """An image, the words that ask for edits, and the answers that the program has to give for them.

    CUTS is how many cuts of each plan are looked at, besides those around the commit point; None: all of them. Without
    a program the cuts alone are judged.
    """

    def __init__(self, rng, tool, folder, geometry, cuts=None):
        super().__init__(tool, folder, geometry)
        self.rng, self.cuts, self.came_up = rng, cuts, collections.Counter()
        self.keeps_blank, self.with_pages = False, True

    def ask(self, words, data):
        """Takes words and sections for an image, and writes the files that they name."""
        self.words, self.lister = words, Lister(self.rng, self.geometry, data)
        written = {k: word.value for k, word in enumerate(words) if word.option == "write"}
        self.files = {k: self.put(f"contents{k}", contents) for k, contents in written.items()}
        sections = update_rules.sections_of(words)
        self.config = self.put("volumes.ini", self.config_text(sections)) if sections else None

    def config_text(self, sections):
        """A config with some sections, whose image files it writes."""
        lines = []
        for k, section in enumerate(sections):
            self.put(f"image{k}", section.data)
            lines += [f"[volume{k}]", "mode=ubi", f"image=image{k}", f"vol_id={k}"]
            lines += [f"vol_name={section.record.name.decode()}", f"vol_type={KINDS[section.record.kind]}"]
            lines += [] if section.size is None else [f"vol_size={section.size}"]
            lines += {0: [], 1: ["vol_flags=autoresize"], 2: ["vol_flags=skip-check"]}[section.record.flags]
        return "".join(f"{line}\n" for line in lines).encode()

    def read(self, data):
        image = super().read(data)
        return image.keeping_blank() if self.keeps_blank else image

    def other_bad(self, data):
        """An image with any other bytes in the bad eraseblocks."""
        return self.lister.others(data, self.is_bad)

    def like_bad(self, data):
        """An image with other bytes there, and the same last sequence number, so that the plan stays the same."""
        others = (self.other_bad(data) for _ in range(20))
        return next((other for other in others if self.read(other).last == self.read(data).last), data)

    def look_answer(self, data):
        """Compares the answer for an image. Returns the plan, or None if it is refused."""
        path, image = self.put("image", data), None
        try:
            image = self.read(data)
            update = update_rules.planned(image, self.words)
        except Refused as refusal:
            self.came_up[cause_of(refusal, image)] += 1
            self.look_refused(path, f"refused {refusal}\n")
            return None
        self.came_up.update(["planned", *kinds_of(update, self.words)])
        self.look_planned(path, update)
        return update

    # What the rules say about themselves.

    def look_planned(self, path, update):
        """Judges the cuts of a plan, and compares what the program prints and writes."""
        old, new, whole = update.image, update.edited.meaning(), b"".join(update.image.found.blocks)
        self.look_touched(update)
        for stop, cut in cuts_of(self.geometry, whole, update.steps, self.stops(update)):
            meant = old if stop < update.commit else new
            self.look_cut(update, stop, cut, meant, old.records != new.records)
            if self.tool:
                self.look_stop(path, update, stop, cut)
                self.look_meant(update, stop, cut)
        self.look_gone(update, self.read(cut))
        self.look_kept(old, whole, cut)
        if self.tool:
            self.look_whole(path, update, cut)
            self.look_missing(path)

    def stops(self, update):
        """The numbers of steps after which a plan is cut."""
        commit, count = update.commit, len(update.steps)
        if self.cuts is None:
            return range(count + 1)
        some = self.rng.sample(range(count), min(count, self.cuts))
        return sorted({0, commit - 1, commit, commit + 1, count, *some})

    def look_cut(self, update, stop, cut, meant, differ):
        """Judges a cut: what it means, and whether the copies of the table are good and equal. They aren't between the
        commit point and the end of the second copy, if the records DIFFER."""
        what = f"cut {stop} of a plan with its commit at {update.commit}"
        try:
            found = self.read(cut)
        except Refused as refusal:
            raise Failure(f"{what} is refused: {refusal}") from None
        expect(found.meaning() == meant.meaning(), f"{what} means something else")
        apart = differ and update.commit <= stop < update.equal
        is_right = rules.needs_repair(found) == apart
        expect(is_right, f"{what}: the copies of the table {'are' if apart else 'are not'} equal")

    def look_touched(self, update):
        """Checks which eraseblocks a plan touches: those that it takes, and the old copies of the table."""
        image, touched = update.image, {step[1] for step in update.steps}
        taken = rules.takeable(image)[: update.edited.takes()]
        expect(touched <= {*taken, *(image.winners[(LAYOUT, copy)] for copy in range(2))}, f"{touched} are touched")
        expect(not any(rules.is_kept(image, p) for p in touched), f"{touched} are touched, some of which are kept")

    def look_gone(self, update, last):
        """Checks that what is replaced or removed is orphan after all steps."""
        gone = set(update.image.records) - set(update.edited.kept)
        states = {last.states[p] for p, header in last.found.members.items() if header.volume in gone}
        expect(states <= {"orphan"}, f"what is replaced or removed is {states}")

    # What the program answers.

    def update_words(self, path, *more, files=None, bad=None):
        """The words of the command; other FILES may be given, and another option that names the BAD eraseblocks."""
        rng, files = self.rng, files or self.files
        words = [(k, word) for k, word in enumerate(self.words) if word.option != "config"]
        edits = [part for k, word in words for part in self.option(word, files.get(k))]
        edits += either(rng, "--config", self.config) if self.config else []
        keep = either(rng, "--blank", "keep") if self.keeps_blank else []
        pages = either(rng, "--pages", self.pages) if self.with_pages else []
        others = [*(bad or self.bad), *keep, "--out", self.out, *self.geometry.words(), *pages, *more]
        return ["update", path, *rng.choice(((*edits, *others), (*others, *edits)))]

    def option(self, word, file):
        """An option with its word. The value of a word that writes is a file."""
        value = file or word.value
        return either(self.rng, f"--{word.option}", word.name if value is None else f"{word.name}={value}")

    def expect_answer(self, words, text, status, out, pages):
        """Runs the program, whose text, status and files have to be the given ones."""
        ran = subprocess.run([self.tool, *words], capture_output=True)
        answers = {
            "prints": (ran.stdout, text.encode()),
            "ends with": (ran.returncode, status),
            "writes": (taken_file(self.out), out),
            "has the pages": (taken_file(self.pages), pages),
            "complains": (complaints(ran.stderr, ran.stdout), b""),
        }
        for what, (got, right) in answers.items():
            expect(got == right, f"{words} {what} {differing(got, right)}")

    def put_old(self, share):
        """Now and then an output and pages from before. Returns what they hold."""
        if self.rng.random() > share:
            return None, None
        self.put("out", OLD)
        self.put("pages", OLD)
        return OLD, OLD

    def look_refused(self, path, line):
        if self.tool:
            self.expect_answer(self.update_words(path), line, 1, *self.put_old(0.7))

    def look_steps(self, path, update, steps, last, *more):
        """Compares what is printed and written for some first steps."""
        pages = rules.pages_of(steps) if self.with_pages else None
        if self.with_pages:
            self.put_old(0.2)
        self.expect_answer(self.update_words(path, *more), "".join(update.lines()), 0, last, pages)

    def look_stop(self, path, update, stop, cut):
        self.look_steps(path, update, update.steps[:stop], cut, "--stop", str(stop))

    def look_meant(self, update, stop, cut):
        """Compares what the program reads of some cuts, among them those around the commit point."""
        if stop in (update.commit - 1, update.commit, len(update.steps)) or self.rng.random() >= 0.95:
            self.look_answers(self.put("cut", self.other_bad(cut)), self.read(cut))

    def look_whole(self, path, update, last):
        """Compares what is printed and written for all steps, and for more than there are; and with other bytes in the
        bad eraseblocks."""
        with open(path, "rb") as file:
            other = self.put("others", self.like_bad(file.read()))
        self.look_steps(path, update, update.steps, last)
        self.look_steps(path, update, update.steps, last, "--stop", str(far(self.rng, len(update.steps))))
        self.look_steps(other, update, update.steps, last)

    def look_missing(self, path):
        """Now and then gives a file that isn't there to words that can be planned."""
        if not self.files or self.rng.random() < 0.8:
            return
        missing = os.path.join(self.folder, "missing")
        files = self.files | {self.rng.choice(list(self.files)): missing}
        self.came_up["cannot read"] += 1
        self.expect_answer(self.update_words(path, files=files), f"cannot read {missing}\n", 1, *self.put_old(0.7))


class Drawn(Case):
    """A case that is drawn at random. The MAKER makes its image, and the ASKER asks for its edits."""

    def __init__(self, rng, tool, folder, maker, asker=Asker, cuts=None):
        super().__init__(rng, tool, folder, maker.geometry, cuts)
        self.asker, self.keeps_blank, self.with_pages = asker, rng.random() < 0.25, rng.random() < 0.6
        data = Mutator(rng, self.geometry, (0,) * 20 + (1,)).mutate(maker.blocks)
        words = self.drawn_words(data)
        self.data = self.with_bad(self.tight(data, words))
        self.ask(words, self.data)

    def drawn_words(self, data):
        """Words for the volumes of an image; words that stand for no edit if it is refused."""
        try:
            return self.asker(self.rng, self.read(data)).words()
        except Refused:
            return [Word("rename", "none", "\\"), Word("resize", "none", "?")]

    def tight(self, data, words):
        """The image; now and then with only as many eraseblocks that may be taken as the plan needs, or one less."""
        rng = self.rng
        if rng.random() < 0.7:
            return data
        try:
            image = self.read(data)
            needed = update_rules.planned(image, words).edited.takes()
        except Refused:
            return data
        places = rules.takeable(image)
        dropped = rng.sample(places, len(places) - needed + rng.choice((0, 0, 1)))
        return b"".join(block for p, block in enumerate(image.found.blocks) if p not in dropped)

    def with_bad(self, data):
        """The image; now and then with a few more eraseblocks, which are listed as bad, or with others listed."""
        rng, lister = self.rng, Lister(self.rng, self.geometry, data)
        if rng.random() < 0.65:
            return data
        places = rng.choice((set(), set(), self.some_takeable(data), self.some_takeable(data), lister.places()))
        data, places = lister.put_in(places, max(0, self.geometry.pebs - len(lister.blocks)))
        word = listing(rng, places, -(-len(data) // self.geometry.peb))
        self.bad, self.is_bad = either(rng, "--bad", word), rules.listed(word)
        return data

    def some_takeable(self, data):
        """One or two eraseblocks that may be taken."""
        try:
            places = rules.takeable(self.read(data))
        except Refused:
            return set()
        return set(self.rng.sample(places, min(len(places), self.rng.choice((1, 2)))))

    def look(self):
        """Compares the plan of the edits, and the plans for cuts of it. Returns what came up."""
        update = self.look_answer(self.data)
        self.look_wrong()
        for _ in range(self.rng.choice((0, 0, 1, 2, 4))):
            if update is None:
                break
            self.came_up["asked again on a cut"] += 1
            update = self.look_answer(self.cut_of(update))
        return self.came_up

    def look_wrong(self):
        """Now and then gives a LIST that is wrong."""
        if self.tool and self.rng.random() < 0.2:
            bad = either(self.rng, "--bad", self.lister.wrong())
            self.expect_wrong(self.update_words(self.put("image", self.data), bad=bad))

    def cut_of(self, update):
        """An image as a plan that was cut leaves it, mostly before the commit point."""
        rng, count = self.rng, len(update.steps)
        stop = rng.randrange(update.commit if rng.random() < 0.85 else count + 1)
        return self.other_bad(rules.after(self.geometry, b"".join(update.image.found.blocks), update.steps[:stop]))


# An image whose plans were worked out by hand. Its table has three slots, and `data` has the autoresize flag. Its
# eraseblocks 4 to 6 are free, and 7 is blank. A LEB has 576 bytes, and the table nine pages.
HAND = Geometry(704, 64, 64, 128, 16)
HAND_RECORDS = {0: Record(2, 1, 2, 0, b"boot", 0), 1: Record(2, 1, 1, 0, b"data", 1)}


def hand_image():
    """The bytes of that image."""
    ec, table = rules.put_ec(HAND, 3), rules.put_table(HAND, HAND_RECORDS)
    header = Vid(2, 0, 0, 0, 0, 4, 1, 0, rules.crc(b"boot"), 5)
    blocks = [(rules.dynamic_header(LAYOUT, copy, copy, compat=5), table) for copy in range(2)]
    blocks += [(rules.put_vid(header), b"boot"), (rules.dynamic_header(1, 1, 6), b"data"), (), (), ()]
    return b"".join(rules.put_block(HAND, ec, *block) for block in blocks) + b"\xFF" * HAND.peb


def programs(block, *pages):
    return "".join(f"program block={block} page={page}\n" for page in pages)


def copies(*blocks):
    """The steps of the two copies of the table, in these eraseblocks."""
    old = (f"erase block={p}\n{programs(p, 0)}" for p in range(2))
    return "".join(programs(block, *range(1, 11)) + given_up for block, given_up in zip(blocks, old))


def boot(slot=0, size=4, reserved=2, name="boot"):
    """The line of `list` for the static volume."""
    return f"volume {slot} static reserved={reserved} alignment=1 usable=576 flags=00 bytes={size} name={name}\n"


def data(slot=1, lebs=1, reserved=2, name="data"):
    """The line of `list` for the dynamic volume."""
    return f"volume {slot} dynamic reserved={reserved} alignment=1 usable=576 flags=01 lebs={lebs} name={name}\n"


ONLY_TABLE = f"steps 24\n{copies(4, 5)}"
# Words, what is printed, and the lines of `list` for the volumes after all steps. 1236950580672 is 576 * (2^31 - 1).
HAND_PLANS = (
    ([Word("write", "boot", b"b" * 70)],
        f"volume 2 replaces 0 lebs=1 name=boot\nsteps 27\n{programs(4, 1, 2, 3)}{copies(5, 6)}", data() + boot(2, 70)),
    ([Word("write", "data", b"\xFF" * 576 + b"d")],
        f"volume 2 replaces 1 lebs=1 name=data\nsteps 26\n{programs(4, 1, 2)}{copies(5, 6)}", boot() + data(2)),
    ([Word("write", "data", b"\xFF" * 1000)],
        f"volume 2 replaces 1 lebs=0 name=data\n{ONLY_TABLE}", boot() + data(2, lebs=0)),
    ([Word("write", "b\\x6fot", b""), Word("rename", "boot", "\\x42oot")],
        f"volume 2 replaces 0 lebs=0 name=Boot\n{ONLY_TABLE}", data() + boot(2, 0, name="Boot")),
    ([Word("rename", "boot", "data"), Word("rename", "data", "boot")],
        ONLY_TABLE, boot(name="data") + data(name="boot")),
    ([Word("rename", "data", "boot"), Word("remove", "boot")], ONLY_TABLE, data(name="boot")),
    ([Word("resize", "boot", "576")], ONLY_TABLE, boot(reserved=1) + data()),
    ([Word("remove", "boot"), Word("resize", "data", "0x481")], ONLY_TABLE, data(reserved=3)),
)
HAND_REFUSALS = (
    ([Word("resize", "data", "1153")], "U7 NoSpace needs=9 has=8"),
    ([Word("resize", "data", "2KiB")], "U7 NoSpace needs=10 has=8"),
    ([Word("resize", "data", "1236950580672")], "U7 NoSpace needs=2147483653 has=8"),
    ([Word("resize", "data", "1236950580673")], "U2 Record Negative name=data"),
    ([Word("resize", "d\\x61ta", "0")], "U2 Record NotEmpty name=d\\x61ta"),
    ([Word("resize", "data", "576")], "U5 InUse name=data"),
    ([Word("resize", "data", "9223372036854775808"), Word("remove", "boot=")], "U9 BadSize name=data"),
    ([Word("write", "boot", bytes(1153))], "U3 TooLarge name=boot"),
    ([Word("write", "boot", bytes(1152)), Word("resize", "boot", "1")], "U3 TooLarge name=boot"),
    ([Word("write", "boot", b""), Word("write", "data", b"")], "U6 NoSlot needs=2 has=1"),
    ([Word("write", "boot", b""), Word("write", "boot", b"")], "U1 NoVolume name=boot"),
    ([Word("rename", "boot", "\\x"), Word("remove", "nobody")], "N1 BadName name=boot"),
    ([Word("rename", "boot", "data")], "N2 SameName slot=0 slot=1"),
    ([Word("write", "boot", b""), Word("rename", "boot", "data")], "N2 SameName slot=1 slot=2"),
    ([Word("remove", "boot=")], "U1 NoVolume name=boot="),
)
HAND_SIZES = {
    "3KiB": 3072, "+007": 7, "0x400": 1024, "0xAbC": 2748, "1GiB": 1073741824, "9223372036854775807": 2**63 - 1,
    **dict.fromkeys(NO_SIZES),
}


def look_by_hand(case, words, text, listed=None):
    """Compares the answers for some words with what was worked out by hand."""
    image, after = case.read(hand_image()), None
    try:
        update = update_rules.planned(image, words)
        answer, lines = "".join(update.lines()), rules.list_lines(update.edited.meaning())
        after = "".join(line for line in lines if line.startswith("volume "))
    except Refused as refused:
        answer = f"refused {refused}\n"
    expect((answer, after) == (text, listed), f"{words} give {(answer, after)} and not {(text, listed)}")
    case.ask(words, hand_image())
    case.look_answer(hand_image())


def look_examples(rng, tool, folder):
    """Looks at all that was worked out by hand. Returns how many examples there are."""
    refusals = [(words, f"refused {cause}\n") for words, cause in HAND_REFUSALS]
    for example in (*HAND_PLANS, *refusals):
        look_by_hand(Case(rng, tool, folder, HAND), *example)
    for word, size in HAND_SIZES.items():
        expect(update_rules.size_of(word) == size, f"{word} gives {update_rules.size_of(word)} bytes and not {size}")
    return {"worked out by hand": len(HAND_PLANS) + len(HAND_REFUSALS) + len(HAND_SIZES)}


def options(usage, count, large):
    words = argparse.ArgumentParser(description=usage, formatter_class=argparse.RawDescriptionHelpFormatter)
    for name, number in {"seed": 1, "count": count, "large": large, "first": 0}.items():
        words.add_argument(f"--{name}", type=int, default=number)
    words.add_argument("--dir", default="/tmp")
    words.add_argument("--tool", help="the program; the one that ./ubi_tool starts by default")
    words.add_argument("--alone", action="store_true", help="run no program, and judge the rules' own plans")
    return words.parse_args()


def main():
    words = options(__doc__, 100, 2)
    tool = None if words.alone else built(words.tool)

    def small(rng, folder):
        return Drawn(rng, tool, folder, UpdateMaker(rng, SIZES)).look()

    def large(rng, folder):
        return Drawn(rng, tool, folder, LargeMaker(rng, REAL_SIZES), LargeAsker, 4).look()

    answers, failed = run_cases(words, {
        "": (small, words.count),
        "large ": (large, words.large),
        "examples ": (lambda rng, folder: look_examples(rng, tool, folder), 1),
    })
    came_up = collections.Counter(dict.fromkeys(CAUSES, 0))
    for answer in answers:
        came_up.update(answer)
    for what, count in sorted(came_up.items()):
        print(f"{count:>6} {what}")
    finish(len(answers), failed)


if __name__ == "__main__":
    main()
