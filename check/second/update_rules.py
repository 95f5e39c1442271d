"""A second reading of docs/FORMAT.md, of its section on the plan of an update: which edits some words ask for, why they
aren't planned, what they make of an image, and the steps of the plan.

It was written from that document and not from the program, as rules.py was. `Edited` works out the new meaning from the
edits, and `Update` the steps, so that the cuts of a plan can be compared with what the edits say. A refusal is the
exception `Refused` of rules.py. It holds a NAME as it was typed.
"""
import dataclasses
import itertools
import re

import rules
import text_rules
from rules import LAYOUT, TOP_SQNUM, Meaning, Record, Refused

# The options, in the order in which their edits are done.
OPTIONS = ("rename", "resize", "remove", "write")
SIZE = re.compile(r"\+?([0-9]+)(KiB|MiB|GiB)?|0x([0-9A-Fa-f]+)")
UNITS = {None: 1, "KiB": 2**10, "MiB": 2**20, "GiB": 2**30}
TOP_SIZE, TOP_RESERVED = 2**63 - 1, 2**32 - 1
AUTORESIZE = 0x01


@dataclasses.dataclass(frozen=True)
class Word:
    """A word that asks for an edit: its option, its NAME as it was typed, and the value behind the first `=`. That is
    NEW or SIZE as it was typed, or the bytes of FILE. The word of a removal is all NAME."""

    option: str
    name: str
    value: str | bytes | None = None


@dataclasses.dataclass(frozen=True)
class Section:
    """A section of a config: the record that it gives its volume, the bytes of its image file, and its `vol_size`, if
    it has one."""

    record: Record
    data: bytes
    size: int | None
    option = "config"

    @property
    def name(self):
        return rules.shown(self.record.name)


@dataclasses.dataclass(frozen=True)
class Edit:
    """What a word or a section stands for: the number of the volume, which a new one doesn't have yet, and what it
    gets: a name, a number of eraseblocks, contents or a section; nothing if it is removed."""

    word: Word | Section
    number: int | None
    gets: bytes | int | Section | None


@dataclasses.dataclass(frozen=True)
class Written:
    """A volume that is written: the number of the one that it replaces, if it replaces one, its record, and the bytes
    that are given."""

    replaces: int | None
    record: Record
    data: bytes


# What the words say.


def name_of(word):
    """The name that a word shows; None if it shows none."""
    try:
        return text_rules.name_of(word.encode())
    except text_rules.Fault:
        return None


def size_of(word):
    """The number of bytes that a word gives; None if it gives none."""
    found = SIZE.fullmatch(word)
    if found is None:
        return None
    digits, unit, hexadecimal = found.groups()
    size = int(hexadecimal, 16) if hexadecimal else int(digits) * UNITS[unit]
    return size if size <= TOP_SIZE else None


def number_of(image, word):
    """The number of the volume that a word names; None if it names none."""
    name = name_of(word.name)
    return next((number for number, record in image.records.items() if record.name == name), None)


def given(word, value, cause):
    """What a word gives, unless that is None: then it is refused for a cause."""
    if value is None:
        raise Refused(f"{cause} name={word.name}")
    return value


def new_size(image, record, size):
    """How many eraseblocks a volume reserves with a size in bytes."""
    return min(-(-size // record.usable(image.geometry)), TOP_RESERVED)


def edit_of(image, word):
    """The edit that a word stands for, by the table of the image."""
    number, gets = given(word, number_of(image, word), "U1 NoVolume"), None
    if word.option == "rename":
        gets = given(word, name_of(word.value), "N1 BadName")
    if word.option == "resize":
        gets = new_size(image, image.records[number], given(word, size_of(word.value), "U9 BadSize"))
    if word.option == "write":
        gets = word.value
    return Edit(word, number, gets)


def named_after(image, edits, name):
    """The number of the volume that has a name after some edits, none of which removes it; None if none has it."""
    names = {number: record.name for number, record in image.records.items()}
    for edit in edits:
        if edit.word.option == "rename":
            names[edit.number] = edit.gets
    removed = {edit.number for edit in edits if edit.word.option == "remove"}
    return next((number for number in sorted(names) if number not in removed and names[number] == name), None)


def edits_of(image, words):
    """The edits of some words and sections, in the order in which they are done. The first word that stands for none
    is refused."""
    edits = [edit_of(image, word) for option in OPTIONS for word in words if word.option == option]
    for section in sections_of(words):
        edits.append(Edit(section, named_after(image, edits, section.record.name), section))
    return edits


def sections_of(words):
    return [word for word in words if word.option == "config"]


# What the edits make of the image.


def named_headers(image):
    """The headers of the members, and those that are hidden in listed eraseblocks."""
    return [*image.found.members.values(), *image.hidden]


def fresh_slots(image):
    """The slots without a record, without a member, and with no hidden header, by rising number."""
    taken = image.records.keys() | {header.volume for header in named_headers(image)}
    return [slot for slot in range(image.geometry.slots) if slot not in taken]


def contents_of(geometry, record, data):
    """What a volume with a record reads if it is written with some bytes."""
    if record.kind == 2:
        return data
    usable = record.usable(geometry)
    shares = (data[at : at + usable].ljust(usable, b"\xFF") for at in range(0, len(data), usable))
    return {lnum: share for lnum, share in enumerate(shares) if not rules.is_blank(share)}


def record_fault(geometry, record):
    """The first rule that a record breaks, or None."""
    read = rules.read_record(geometry, rules.put_record(geometry, record))
    return read if isinstance(read, str) else None


def new_table(geometry, records):
    """The bytes of a table, as whole pages."""
    table, page = rules.put_table(geometry, records), geometry.page
    return table.ljust(-(-len(table) // page) * page, b"\xFF")


class Edited:
    """What edits leave of the volumes of an image: the records of those that keep their slots, by slot, and the volumes
    that are written, in the order of their edits."""

    def __init__(self, image, edits):
        self.image, self.geometry = image, image.geometry
        self.kept, self.written = dict(image.records), []
        of_option = {
            "rename": self.rename, "resize": self.resize, "remove": self.remove, "write": self.write,
            "config": self.put,
        }
        for edit in edits:
            if edit.number is not None and edit.number not in self.kept:
                raise Refused(f"U1 NoVolume name={edit.word.name}")
            of_option[edit.word.option](edit)

    def rename(self, edit):
        self.kept[edit.number] = dataclasses.replace(self.kept[edit.number], name=edit.gets)

    def resize(self, edit):
        old = self.kept[edit.number]
        new = dataclasses.replace(old, reserved=edit.gets)
        self.judge_record(edit, new)
        if new.reserved != old.reserved:
            self.judge_size(edit, min(old.reserved, new.reserved))
        self.kept[edit.number] = new

    def remove(self, edit):
        del self.kept[edit.number]

    def write(self, edit):
        self.put_volume(edit, dataclasses.replace(self.kept.pop(edit.number), marker=0), edit.gets)

    def put(self, edit):
        self.kept.pop(edit.number, None)
        self.put_volume(edit, edit.gets.record, edit.gets.data)

    def put_volume(self, edit, record, data):
        self.judge_record(edit, record)
        if len(data) > record.reserved * record.usable(self.geometry):
            raise Refused(f"U3 TooLarge name={edit.word.name}")
        self.written.append(Written(edit.number, record, data))

    def judge_record(self, edit, record):
        fault = record_fault(self.geometry, record)
        if fault:
            raise Refused(f"U2 Record {fault} name={edit.word.name}")

    def judge_size(self, edit, lesser):
        """Whether a volume may get another size: the lesser of the old and the new is given."""
        if isinstance(self.image.contents[edit.number], str):
            raise Refused(f"U4 NotWhole name={edit.word.name}")
        headers = named_headers(self.image)
        if any(header.volume == edit.number and header.lnum >= lesser for header in headers):
            raise Refused(f"U5 InUse name={edit.word.name}")

    def placed(self):
        """The volumes that are written, by their new slots; only as many as there are fresh slots."""
        return dict(zip(fresh_slots(self.image), self.written))

    def records(self):
        """The records of the new meaning, by slot."""
        return self.kept | {slot: volume.record for slot, volume in self.placed().items()}

    def contents(self):
        """The contents of the new meaning, by slot."""
        kept = {slot: self.image.contents[slot] for slot in self.kept}
        written = self.placed().items()
        return kept | {slot: contents_of(self.geometry, volume.record, volume.data) for slot, volume in written}

    def meaning(self):
        """What the edits make of the image."""
        return Meaning(self.geometry, self.image.image_seq, self.records(), self.contents())

    def lebs(self):
        """The LEBs that are written, by slot: the header of each, still with the sequence number 0, and its bytes."""
        contents = self.contents()
        return {
            slot: list(rules.volume_blocks(self.geometry, slot, volume.record, contents[slot]))
            for slot, volume in self.placed().items()
        }

    def takes(self):
        """How many eraseblocks the plan takes: one for each LEB that is written, and two for the table."""
        return sum(map(len, self.lebs().values())) + 2

    def table(self):
        """The new bytes of the table."""
        return new_table(self.geometry, self.records())


# Why all edits together aren't planned.


def same_names(records):
    """The least slot whose name another volume has too, and the next slot with it; or None."""
    for slot in sorted(records):
        for later in sorted(records):
            if slot < later and records[slot].name == records[later].name:
                return slot, later
    return None


def growing(records):
    """The slots of the volumes with the autoresize flag."""
    return sorted(slot for slot, record in records.items() if record.flags & AUTORESIZE)


def reserved(records):
    return sum(record.reserved for record in records.values())


def room(image):
    """How many eraseblocks there are that are neither listed as bad nor kept because they are blank."""
    return sum(not rules.is_kept(image, p) for p in range(len(image.states)))


def causes(image, edited):
    """The causes that all edits together have, in their order."""
    records, fresh, written = edited.records(), fresh_slots(image), edited.placed()
    same = same_names(records)
    if same:
        yield "N2 SameName slot={} slot={}".format(*same)
    if len(fresh) < len(edited.written):
        yield f"U6 NoSlot needs={len(edited.written)} has={len(fresh)}"
    needed = reserved(records) + 4
    if reserved(records) > reserved(image.records) and needed > room(image):
        yield f"U7 NoSpace needs={needed} has={room(image)}"
    grow = growing(records)
    if len(grow) >= 2 and written.keys() & set(grow):
        yield f"U8 Autoresize slot={grow[0]} slot={grow[1]}"
    if rules.needs_repair(image):
        yield "N3 NeedsRepair"
    weak = rules.weak_pages(image.geometry, edited.table())
    if weak is not None:
        yield f"K7 WeakCheck pages={weak}"
    if image.last + edited.takes() > TOP_SQNUM:
        yield "K8 Exhausted"
    free = len(rules.takeable(image))
    if free < edited.takes():
        yield f"K9 NoFree needs={edited.takes()} has={free}"


# The plan.


def programmed(geometry, data):
    """The bytes of a LEB as whole pages, up to the last one that isn't blank."""
    size = -(-len(data.rstrip(b"\xFF")) // geometry.page) * geometry.page
    return data[:size].ljust(size, b"\xFF")


class Update(rules.Plan):
    """The plan of an update. The commit point is the step before `commit`: after that many steps an image has the new
    meaning. After `equal` steps the second copy of the table is whole too."""

    def __init__(self, image, edited):
        super().__init__(image)
        self.edited, self.lebs, new = edited, edited.lebs(), edited.table()
        self.places, self.sqnums = iter(rules.takeable(image)), itertools.count(image.last + 1)
        for header, data in itertools.chain.from_iterable(self.lebs.values()):
            self.put_leb(header, data)
        self.commit, self.equal = (self.put_copy(copy, new) for copy in range(2))

    def put_leb(self, header, data):
        """Writes a LEB of a volume that the table doesn't have yet."""
        place = next(self.places)
        self.prepare(place)
        self.head(place, dataclasses.replace(header, sqnum=next(self.sqnums)))
        self.write(place, programmed(self.geometry, data))

    def put_copy(self, copy, new):
        """Writes a copy of the table, and gives up the old one. Returns after how many steps the copy is whole."""
        place, header = next(self.places), rules.copy_header(LAYOUT, copy, new, next(self.sqnums), compat=5)
        self.copy(self.image.winners[(LAYOUT, copy)], place, header, new)
        last = (self.geometry.data + len(programmed(self.geometry, new))) // self.geometry.page - 1
        return 1 + [step[:3] for step in self.steps].index(("program", place, last))

    def lines(self):
        """The lines that are printed."""
        for slot, volume in self.edited.placed().items():
            lebs, name = len(self.lebs[slot]), rules.shown(volume.record.name)
            replaced = "new" if volume.replaces is None else f"replaces {volume.replaces}"
            yield f"volume {slot} {replaced} lebs={lebs} name={name}\n"
        yield from rules.plan_lines(self.steps)


def planned(image, words):
    """The plan of the edits that words ask for; or it is refused for its first cause."""
    edited = Edited(image, edits_of(image, words))
    cause = next(causes(image, edited), None)
    if cause:
        raise Refused(cause)
    return Update(image, edited)
