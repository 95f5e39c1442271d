"""A second reading of docs/FORMAT.md: what an image means, or why it is refused, also if some of its eraseblocks are
bad, and the plans of a change and of a rename with their pages. geometry.py finds the geometries of a file that nothing
is known about.

It was written from that document and not from the program, so that the answers of the program can be compared with it.
It is short and slow: it says each rule once, in the document's words. A refusal is the exception `Refused`, which holds
the line that the program prints, without `refused `.
"""
import bisect
import copy
import dataclasses
import re
import struct
import zlib

LAYOUT, TOP_COUNTER, TOP_SQNUM = 0x7FFFEFFF, 0x7FFFFFFF, 2**64 - 1
RECORD = 172


class Refused(Exception):
    """Why an image, a volume or a change is refused."""


def crc(message):
    """The CRC of the format: the usual CRC-32, without the complement at the end."""
    return zlib.crc32(message) ^ 0xFFFFFFFF


def sealed(front):
    """Bytes with their CRC after them."""
    return front + struct.pack(">I", crc(front))


def is_blank(data):
    return not data.lstrip(b"\xFF")


EMPTY_RECORD = sealed(bytes(168))


@dataclasses.dataclass(frozen=True)
class Geometry:
    """The sizes of a device: bytes of an eraseblock and of a page, offsets of the VID header and the data,
    eraseblocks."""

    peb: int
    page: int
    vid: int
    data: int
    pebs: int

    @property
    def leb(self):
        return self.peb - self.data

    @property
    def slots(self):
        return min(128, self.leb // RECORD)

    def fault(self):
        """The first limit that is broken, or None."""
        limits = (
            ("G1 Page", self.page in {2**k for k in range(6, 17)}),
            ("G2 PebSize", self.page and self.peb % self.page == 0 and self.page <= self.peb <= 2**24),
            ("G3 VidOffset", self.vid % 64 == 0 and self.vid >= 64),
            ("G4 DataOffset", self.page and self.data % self.page == 0 and self.data >= self.vid + 64),
            ("G5 LebTooSmall", self.leb >= RECORD),
            ("G6 Pebs", 2 <= self.pebs <= 2**20),
        )
        return next((name for name, holds in limits if not holds), None)

    def words(self):
        """The words that give it on the command line."""
        return [str(word) for name, number in dataclasses.asdict(self).items() for word in (f"--{name}", number)]


# The eraseblocks that are listed as bad.

TOP_NUMBER = 4294967295
NUMBER = r"\+?0*([0-9]{1,10})"
ITEM = re.compile(f"{NUMBER}(?:-{NUMBER})?")


def listed(word):
    """A function that says whether a LIST lists an eraseblock; None if the LIST is wrong."""
    ranges = set()
    for item in word.split(",") if word else ():
        numbers = ITEM.fullmatch(item)
        if numbers is None:
            return None
        first, last = int(numbers[1]), int(numbers[2] or numbers[1])
        if not first <= last <= TOP_NUMBER:
            return None
        ranges.add((first, last))
    ranges = apart(ranges)
    firsts = [first for first, _ in ranges]

    def is_listed(p):
        k = bisect.bisect(firsts, p)
        return k > 0 and p <= ranges[k - 1][1]

    return is_listed


def apart(ranges):
    """Disjoint ranges with the same numbers, by rising number."""
    out = []
    for first, last in sorted(ranges):
        if out and first <= out[-1][1]:
            first, last = out[-1][0], max(last, out.pop()[1])
        out.append((first, last))
    return out


def none_listed(p):
    return False


# Views of a file.


def part_of(file, start=0, length=None):
    """The part of a file from a place on, to the end of the file or of so many bytes."""
    if start + (length or 0) > len(file):
        raise Refused(f"F7 Part bytes={len(file)}")
    return file[start:] if length is None else file[start : start + length]


def size_with(geometry, oob):
    """The bytes of an eraseblock, with its out-of-band bytes."""
    return geometry.peb // geometry.page * (geometry.page + oob)


def seen(geometry, file, start=0, length=None, oob=0):
    """What is read of a file: the pages of a part, without the out-of-band bytes after each; and before them the
    eraseblocks of the file before the part, which read 0xFF, if the part begins with an eraseblock."""
    part, step = part_of(file, start, length), geometry.page + oob
    if oob and len(part) % step:
        raise Refused(f"F8 Pages rest={len(part) % step}")
    before, rest = divmod(start, size_with(geometry, oob))
    pages = b"".join(part[at : at + geometry.page] for at in range(0, len(part), step)) if oob else part
    return pages if rest else b"\xFF" * (before * geometry.peb) + pages


def masked(geometry, image, is_bad):
    """What is read of an image: 0xFF for each byte of an eraseblock that is listed as bad, and the other bytes as they
    are."""
    places = range(0, len(image), geometry.peb)
    blocks = [image[at : at + geometry.peb] for at in places]
    return b"".join(b"\xFF" * len(block) if is_bad(p) else block for p, block in enumerate(blocks))


# What 64 bytes are: 'blank', 'corrupt', 'valid' or 'fault:NAME', and the fields of a valid header.


def read_header(bytes64, magic, rules):
    if bytes64[:4] != magic:
        return ("blank" if is_blank(bytes64) else "corrupt"), None
    if struct.unpack(">I", bytes64[60:])[0] != crc(bytes64[:60]):
        return "corrupt", None
    header, broken = rules(bytes64)
    return ("valid" if broken is None else f"fault:{broken}"), header


@dataclasses.dataclass(frozen=True)
class Ec:
    counter: int
    image_seq: int


def read_ec(geometry, bytes64):
    def rules(raw):
        version, counter, vid, data, seq = struct.unpack(">4xB3xQIII32x4x", raw)
        if version != 1:
            return None, "Version"
        if (vid, data) != (geometry.vid, geometry.data):
            return None, "Offsets"
        return Ec(counter, seq), None if counter <= TOP_COUNTER else "Counter"

    return read_header(bytes64, b"UBI#", rules)


@dataclasses.dataclass(frozen=True)
class Vid:
    kind: int
    copy: int
    compat: int
    volume: int
    lnum: int
    size: int
    used: int
    pad: int
    data_crc: int
    sqnum: int


def vid_fault(geometry, h):
    """The first rule that the header of an eraseblock's volume breaks, or None."""
    usable = geometry.leb - h.pad
    is_user, is_static = h.volume <= 127, h.kind == 2
    rules = (
        ("CopyFlag", h.copy in (0, 1)),
        ("Negative", all(n < 2**31 for n in (h.volume, h.lnum, h.size, h.used, h.pad))),
        ("VolumeId", is_user or h.volume >= LAYOUT),
        ("Compat", h.compat == 0 if is_user else h.compat in (1, 2, 4, 5)),
        ("Kind", h.kind in (1, 2)),
        ("Pad", 2 * h.pad < geometry.leb),
        ("Size", h.size <= geometry.leb and (not is_static or 0 < h.size <= usable)
            and (not is_static or h.lnum + 1 >= h.used or h.size == usable)),
        ("UsedEbs", (h.used != 0) == is_static),
        ("Lnum", not is_static or h.lnum < h.used),
        ("CopyFields", is_static or (h.size != 0 if h.copy else h.size == h.data_crc == 0)),
    )
    return next((name for name, holds in rules if not holds), None)


def read_vid(geometry, bytes64):
    def rules(raw):
        header = Vid(*struct.unpack(">4xxBBBII4xIIII4xQ12x4x", raw))
        return header, vid_fault(geometry, header)

    return read_header(bytes64, b"UBI!", rules)


@dataclasses.dataclass(frozen=True)
class Record:
    """A volume's record: what it reserves, its alignment, its kind, whether it is marked, its name and its flags."""

    reserved: int
    alignment: int
    kind: int
    marker: int
    name: bytes
    flags: int

    def pad(self, geometry):
        return geometry.leb % self.alignment

    def usable(self, geometry):
        return geometry.leb - self.pad(geometry)


def read_record(geometry, raw):
    """The record, None if it is the empty one, or the name of the first rule that it breaks."""
    if struct.unpack(">I", raw[168:])[0] != crc(raw[:168]):
        return "BadCrc"
    if raw == EMPTY_RECORD:
        return None
    reserved, alignment, pad, kind, marker, length, name, flags = struct.unpack(">IIIBBH128sB23x4x", raw)
    end = name.find(b"\0")
    rules = (
        ("NotEmpty", reserved != 0),
        ("Negative", all(n < 2**31 for n in (reserved, alignment, pad))),
        ("Alignment", 1 <= alignment <= geometry.leb),
        ("AlignmentPage", alignment == 1 or alignment % geometry.page == 0),
        ("DataPad", alignment and pad == geometry.leb % alignment),
        ("Kind", kind in (1, 2)),
        ("Marker", marker in (0, 1)),
        ("NameTooLong", length <= 127),
        ("NameBlank", end != 0),
        ("NameLength", length == end),
    )
    broken = next((rule for rule, holds in rules if not holds), None)
    return broken or Record(reserved, alignment, kind, marker, name[:length], flags)


class Blocks:
    """The eraseblocks of an image, the headers of each, and the members of volumes."""

    def __init__(self, geometry, image):
        self.geometry = geometry
        if len(image) > geometry.pebs * geometry.peb:
            raise Refused("S2 TooMany")
        if not image or len(image) % geometry.peb:
            raise Refused("S1 Length")
        self.blocks = [image[at : at + geometry.peb] for at in range(0, len(image), geometry.peb)]
        self.ecs = [read_ec(geometry, block[:64]) for block in self.blocks]
        self.vids = [read_vid(geometry, block[geometry.vid : geometry.vid + 64]) for block in self.blocks]
        self.members = {}
        self.dropped = set()
        self.carriers = []
        self.image_seq = 0
        seen = {}
        for p in range(len(self.blocks)):
            self.judge(p, seen)

    def judge(self, p, seen):
        """Raises the first cause for which an eraseblock is refused, or notes which LEB it is a member of."""
        (ec_state, ec), (vid_state, vid) = self.ecs[p], self.vids[p]
        if ec_state.startswith("fault"):
            raise Refused(f"S3 Ec block={p} {ec_state[6:]}")
        if ec_state == "valid" and ec.image_seq:
            if self.image_seq not in (0, ec.image_seq):
                raise Refused(f"S4 ImageSeq block={p}")
            self.image_seq = ec.image_seq
            self.carriers.append(p)
        if ec_state == "blank":
            return
        if vid_state.startswith("fault"):
            raise Refused(f"S5 Vid block={p} {vid_state[6:]}")
        if vid_state != "valid":
            return
        if vid.volume > 127 and vid.volume != LAYOUT:
            if vid.compat != 1:
                raise Refused(f"S6 Incompatible block={p} volume={vid.volume}")
            self.dropped.add(p)
            return
        if vid.volume == LAYOUT and (vid.lnum >= 2 or vid.kind == 2 or vid.pad):
            raise Refused(f"S7 Layout block={p}")
        earlier = seen.setdefault((vid.volume, vid.lnum, vid.sqnum), p)
        if earlier != p:
            raise Refused(f"S8 SameSqnum block={p} earlier={earlier}")
        self.members[p] = vid

    def leb(self, p):
        return self.blocks[p][self.geometry.data :]

    def is_right(self, p):
        """Whether the CRC of the first data_size bytes of an eraseblock's LEB is its data_crc."""
        header = self.members[p]
        return crc(self.leb(p)[: header.size]) == header.data_crc

    def winners(self):
        """The eraseblock of each LEB that has members."""
        of = {}
        for p, header in self.members.items():
            of.setdefault((header.volume, header.lnum), []).append(p)
        return {leb: self.winner(places) for leb, places in of.items()}

    def winner(self, places):
        if len(places) == 1:
            return places[0]

        def sqnum(p):
            return self.members[p].sqnum

        good = [p for p in places if not self.members[p].copy or self.is_right(p)]
        return max(good, key=sqnum) if good else min(places, key=sqnum)


def read_table(blocks, winners):
    """The records by slot, those that aren't empty."""
    if not any(header.volume == LAYOUT for header in blocks.members.values()):
        if any(state != "blank" for state, _ in blocks.ecs):
            raise Refused("T1 NoTable")
        return {}
    for copy in range(2):
        records = read_copy(blocks, winners, copy)
        if records is not None:
            if 2 + sum(record.reserved for record in records.values()) > blocks.geometry.pebs:
                raise Refused("T5 NoSpace")
            return records
    raise Refused("T2 BothCorrupt")


def read_copy(blocks, winners, copy):
    """The records of a copy of the table; None if the copy isn't there or is corrupt."""
    if (LAYOUT, copy) not in winners:
        return None
    records, geometry, p = {}, blocks.geometry, winners[(LAYOUT, copy)]
    for slot in range(geometry.slots):
        record = read_record(geometry, blocks.leb(p)[RECORD * slot : RECORD * (slot + 1)])
        if record == "BadCrc":
            return None
        if isinstance(record, str):
            raise Refused(f"T3 Record block={p} slot={slot} {record}")
        if record is not None:
            records[slot] = record
    for slot, record in records.items():
        for later in range(slot + 1, geometry.slots):
            if later in records and records[later].name == record.name:
                raise Refused(f"T4 SameName block={p} slot={slot} slot={later}")
    return records


def is_counted(record, lnum):
    """Whether a volume counts a LEB: a dynamic one counts those below what it reserves."""
    return record.kind == 2 or lnum < record.reserved


class Meaning:
    """What is composed, and what an accepted image means: its number, the records of volumes, and the contents of each.

    Contents are 'updating', 'damaged', the bytes of a static volume, or the LEBs of a dynamic one that aren't blank.
    """

    def __init__(self, geometry, image_seq, records, contents):
        self.geometry, self.image_seq, self.records, self.contents = geometry, image_seq, records, contents

    def meaning(self):
        """What is compared: the number, the fields of the records, and the contents."""
        return self.image_seq, self.records, self.contents

    def read_volume(self, number):
        if number not in self.records:
            raise Refused("L1 NoVolume")
        record, content = self.records[number], self.contents[number]
        if content == "updating":
            raise Refused("L2 Updating")
        if content == "damaged":
            raise Refused("L3 Damaged")
        if record.kind == 2:
            return content
        blank = b"\xFF" * record.usable(self.geometry)
        return b"".join(content.get(lnum, blank) for lnum in range(record.reserved))


def listed_headers(geometry, image, is_bad):
    """The valid volume-identifier headers in the listed eraseblocks of an image."""
    starts = [p * geometry.peb for p in range(len(image) // geometry.peb) if is_bad(p)]
    read = [read_vid(geometry, image[at + geometry.vid : at + geometry.vid + 64]) for at in starts]
    return [vid for state, vid in read if state == "valid"]


class Image(Meaning):
    """An accepted image, some of whose eraseblocks may be listed as bad: what it means, the states of its
    eraseblocks, the headers that are hidden in listed ones, and the last sequence number before those of a plan.

    It also says whether plans keep blank eraseblocks.
    """

    keeps_blank = False

    def __init__(self, geometry, image, is_bad=none_listed):
        self.is_bad = is_bad
        self.found = Blocks(geometry, masked(geometry, image, is_bad))
        self.winners = self.found.winners()
        super().__init__(geometry, self.found.image_seq, read_table(self.found, self.winners), {})
        self.check_winners()
        self.contents |= {number: self.content(number, record) for number, record in self.records.items()}
        self.states = [self.state(p) for p in range(len(self.found.blocks))]
        counted = self.found.members.keys() | self.found.dropped
        self.top_sqnum = max((self.found.vids[p][1].sqnum for p in counted), default=0)
        self.hidden = listed_headers(geometry, image, is_bad)
        self.last = max(self.top_sqnum, *(vid.sqnum for vid in self.hidden), 0)
        counters = [ec.counter for state, ec in self.found.ecs if state == "valid"]
        self.mean_counter = sum(counters) // len(counters) if counters else 0

    def keeping_blank(self):
        """The same image, whose plans take no blank eraseblock."""
        other = copy.copy(self)
        other.keeps_blank = True
        return other

    def check_winners(self):
        for p in sorted(self.winners.values()):
            header = self.found.members[p]
            record = self.records.get(header.volume)
            if record is None or record.marker or not is_counted(record, header.lnum):
                continue
            if (header.kind, header.pad) != (record.kind, record.pad(self.geometry)):
                raise Refused(f"V1 Mismatch block={p}")

    def content(self, number, record):
        if record.marker:
            return "updating"
        found = self.found
        lebs = {lnum: p for (volume, lnum), p in self.winners.items() if volume == number}
        mapped = {lnum: p for lnum, p in lebs.items() if is_counted(record, lnum)}
        if record.kind == 1:
            read = {lnum: found.leb(p)[: record.usable(self.geometry)] for lnum, p in mapped.items()}
            return {lnum: data for lnum, data in read.items() if not is_blank(data)}
        for lnum, p in mapped.items():
            whole = len(mapped) <= record.reserved and lnum < len(mapped)
            if not whole or found.members[p].used != len(mapped) or not found.is_right(p):
                return "damaged"
        return b"".join(found.leb(p)[: found.members[p].size] for _, p in sorted(mapped.items()))

    def state(self, p):
        ec, vid = self.found.ecs[p][0], self.found.vids[p][0]
        if ec == "blank":
            return "blank"
        if vid != "valid":
            return "corrupt" if ec == "corrupt" else {"blank": "free", "corrupt": "garbage"}[vid]
        if p in self.found.dropped:
            return "dropped"
        header = self.found.members[p]
        if header.volume != LAYOUT:
            record = self.records.get(header.volume)
            if record is None or not is_counted(record, header.lnum):
                return "orphan"
        if self.winners[(header.volume, header.lnum)] != p:
            return "stale"
        return "table" if header.volume == LAYOUT else "used"


def shown(name):
    return "".join(chr(b) if 0x21 <= b <= 0x7E and b != 0x5C else f"\\x{b:02x}" for b in name)


def in_quotes(value):
    """A value of a config, in the quotes that it doesn't contain."""
    quote = b"'" if b'"' in value else b'"'
    return quote + value + quote


def can_stand(value):
    """Whether a value can stand in quotes."""
    quote = in_quotes(value)[:1]
    return 1 <= len(value) <= 1011 and not set(quote + b"\0\n") & set(value) and value[-1:] not in b" \t\n\x0B\x0C\r"


def folder_file(number, record):
    """The name of the file into which a volume is unpacked."""
    name = f"{number}-" + shown(record.name).replace("/", "\\x2f")
    return name if len(name) <= 255 else str(number)


def left_out(meaning, number):
    """Why no config describes a volume; None if one does."""
    record = meaning.records[number]
    growing = [r for r in meaning.records.values() if r.flags == 1]
    if meaning.contents[number] == "updating":
        return "its update didn't end"
    if meaning.contents[number] == "damaged":
        return "it is damaged"
    if not can_stand(record.name):
        return "its name can't stand in quotes"
    if not can_stand(folder_file(number, record).encode()):
        return "the path of its file can't stand in quotes"
    if record.flags > 2 or record.flags == 2 and record.kind != 2:
        return "no config can give its flags"
    return "more than one volume has autoresize" if record.flags == 1 and len(growing) > 1 else None


def folder_config(meaning):
    """The config that is written beside the files of unpacked volumes."""
    g = meaning.geometry
    lines = [f"# ubi_tool build ubi.ini --out IMAGE {' '.join(g.words())} --seq {meaning.image_seq}".encode()]
    for number, record in sorted(meaning.records.items()):
        why, flag = left_out(meaning, number), {1: b"autoresize", 2: b"skip-check"}.get(record.flags)
        if why:
            lines += [b"", f"# volume {number} is left out: {why}".encode()]
            continue
        keys = {
            "mode": b"ubi",
            "vol_id": b"%d" % number,
            "vol_type": {1: b"dynamic", 2: b"static"}[record.kind],
            "vol_name": in_quotes(record.name),
            "vol_size": b"%d" % (record.reserved * record.usable(g)),
            "vol_alignment": b"%d" % record.alignment,
            "image": in_quotes(folder_file(number, record).encode()),
            "vol_flags": flag,
        }
        lines += [b"", b"[volume-%d]" % number]
        lines += [f"{key}=".encode() + value for key, value in keys.items() if value is not None]
    return b"".join(line + b"\n" for line in lines)


def list_lines(meaning):
    g = meaning.geometry
    yield f"geometry peb={g.peb} page={g.page} vid={g.vid} data={g.data} leb={g.leb} slots={g.slots} pebs={g.pebs}\n"
    for number, r in sorted(meaning.records.items()):
        content = meaning.contents[number]
        how = content if isinstance(content, str) else f"{'bytes' if r.kind == 2 else 'lebs'}={len(content)}"
        kind = {1: "dynamic", 2: "static"}[r.kind]
        sizes = f"reserved={r.reserved} alignment={r.alignment} usable={r.usable(g)} flags={r.flags:02x}"
        yield f"volume {number} {kind} {sizes} {how} name={shown(r.name)}\n"
    yield f"volumes {len(meaning.records)}\n"


def check_lines(image):
    yield f"blocks {len(image.states)}\n"
    for state in ("blank", "free", "table", "used", "stale", "orphan", "dropped", "corrupt", "garbage"):
        yield f"{state} {image.states.count(state)}\n"
    yield f"top sqnum {image.top_sqnum}\nimage seq {image.image_seq}\nmean counter {image.mean_counter}\naccepted\n"


# Writing: headers and records as an image holds them, and the normal image of a meaning.


def counter_header(counter, vid, data, image_seq=0):
    return sealed(struct.pack(">4sB3xQIII32x", b"UBI#", 1, counter, vid, data, image_seq))


def put_ec(geometry, counter=0, image_seq=0):
    return counter_header(counter, geometry.vid, geometry.data, image_seq)


def put_vid(h):
    fields = (h.kind, h.copy, h.compat, h.volume, h.lnum, h.size, h.used, h.pad, h.data_crc, h.sqnum)
    return sealed(struct.pack(">4sBBBBII4xIIII4xQ12x", b"UBI!", 1, *fields))


def dynamic_header(volume, lnum, sqnum, copied=b"", compat=0):
    """The header of a LEB of a dynamic volume or of the table; with copied bytes that of their copy."""
    data_crc = crc(copied) if copied else 0
    return put_vid(Vid(1, int(bool(copied)), compat, volume, lnum, len(copied), 0, 0, data_crc, sqnum))


def put_record(geometry, r):
    front = (r.reserved, r.alignment, r.pad(geometry), r.kind, r.marker, len(r.name), r.name, r.flags)
    return sealed(struct.pack(">IIIBBH128sB23x", *front))


def put_block(geometry, ec, vid=b"", data=b""):
    """An eraseblock with two headers and data, and otherwise blank."""
    front = (ec.ljust(geometry.vid, b"\xFF") + vid).ljust(geometry.data, b"\xFF")
    return (front + data).ljust(geometry.peb, b"\xFF")


def put_table(geometry, records):
    written = {slot: put_record(geometry, record) for slot, record in records.items()}
    return b"".join(written.get(slot, EMPTY_RECORD) for slot in range(geometry.slots))


def volume_blocks(geometry, number, record, content):
    """The headers and data of the eraseblocks of a volume in the normal image."""
    pad, usable = record.pad(geometry), record.usable(geometry)
    if content == "updating":
        return
    if content == "damaged":
        yield Vid(2, 0, 0, number, 0, 1, 1, pad, 0, 0), b""
    elif record.kind == 1:
        for lnum, data in sorted(content.items()):
            yield Vid(1, 0, 0, number, lnum, 0, 0, pad, 0, 0), data
    else:
        shares = [content[at : at + usable] for at in range(0, len(content), usable)]
        for lnum, share in enumerate(shares):
            yield Vid(2, 0, 0, number, lnum, len(share), len(shares), pad, crc(share), 0), share


def normal_image(meaning):
    geometry = meaning.geometry
    table = put_table(geometry, meaning.records)
    parts = [(Vid(1, 0, 5, LAYOUT, copy, 0, 0, 0, 0, 0), table) for copy in range(2)]
    for number, record in sorted(meaning.records.items()):
        parts += volume_blocks(geometry, number, record, meaning.contents[number])
    ec = put_ec(geometry, image_seq=meaning.image_seq)
    return b"".join(put_block(geometry, ec, put_vid(header), data) for header, data in parts)


def composed(meaning, spares):
    """The normal image, and spare eraseblocks after it."""
    geometry, normal = meaning.geometry, normal_image(meaning)
    if len(normal) // geometry.peb + spares > geometry.pebs:
        raise Refused("C1 TooMany")
    return normal + spares * put_block(geometry, put_ec(geometry, image_seq=meaning.image_seq))


# The plans of a change and of a rename. A step is ('erase', p) or ('program', p, page, bytes). K10 isn't among the
# causes, since a listed eraseblock reads as 0xFF here.


def stays(image, p, front):
    """Whether an eraseblock with these first 64 bytes can't count another erase, or is the only carrier of the
    number."""
    state, ec = read_ec(image.geometry, front)
    return (state == "valid" and ec.counter == TOP_COUNTER) or image.found.carriers == [p]


def is_clean(image, p):
    return image.states[p] == "free" and is_blank(image.found.blocks[p][64:])


def is_kept(image, p):
    """Whether an eraseblock is listed as bad, or is blank and blank ones are kept."""
    return image.is_bad(p) or (image.keeps_blank and image.states[p] == "blank")


def takeable(image):
    """The eraseblocks that may be taken, in the order in which they are taken."""
    states = ("free", "blank", "stale", "orphan", "dropped", "garbage")
    blocks = [(p, block) for p, block in enumerate(image.found.blocks) if image.states[p] in states]
    places = [p for p, block in blocks if not stays(image, p, block[:64]) and not is_kept(image, p)]
    return sorted(places, key=lambda p: (not is_clean(image, p), p))


def weak_pages(geometry, new):
    """The least number of first pages, fewer than all, that with 0xFF after them differ from the new bytes and have
    their CRC; or None."""
    for n in range(len(new) // geometry.page):
        front = new[: n * geometry.page].ljust(len(new), b"\xFF")
        if front != new and crc(front) == crc(new):
            return n
    return None


def first_cause(image, new, needed, *causes):
    """The first that applies of some causes and, after them, of those that apply to each plan; or None."""
    weak = weak_pages(image.geometry, new)
    causes += (
        (f"K7 WeakCheck pages={weak}", weak is not None),
        ("K8 Exhausted", image.last + needed > TOP_SQNUM),
        ("K9 NoFree", len(takeable(image)) < needed),
    )
    return next((cause for cause, is_so in causes if is_so), None)


def change_refusal(image, number, lnum, new):
    """The first cause for which no change is planned, or None."""
    if number not in image.records:
        return "K2 NoVolume"
    geometry, record = image.geometry, image.records[number]
    return first_cause(image, new, 1 if (number, lnum) in image.winners else 2,
        ("K3 StaticVolume", record.kind == 2),
        ("K4 Updating", record.marker),
        ("K5 OutOfRange", lnum >= record.reserved),
        ("K6 BadLength", not new or len(new) % geometry.page or len(new) > record.usable(geometry)),
    )


def needs_repair(image):
    """Whether a copy of the table isn't there, is corrupt, at fault or has a name twice, or whether the copies' records
    differ."""
    try:
        copies = [read_copy(image.found, image.winners, copy) for copy in range(2)]
    except Refused:
        return True
    return None in copies or copies[0] != copies[1]


def with_name(image, number, name):
    """The records, with another name for a volume."""
    return image.records | {number: dataclasses.replace(image.records[number], name=name)}


def named_table(image, number, name):
    """The new bytes of a rename: the table with the new name, and 0xFF after it up to whole pages."""
    table, page = put_table(image.geometry, with_name(image, number, name)), image.geometry.page
    return table.ljust(-(-len(table) // page) * page, b"\xFF")


def rename_refusal(image, number, name):
    """The first cause for which no rename is planned, or None."""
    if number not in image.records:
        return "K2 NoVolume"
    same = next((slot for slot, record in image.records.items() if slot != number and record.name == name), None)
    return first_cause(image, named_table(image, number, name), 2,
        ("N1 BadName", not 1 <= len(name) <= 127 or 0 in name),
        (f"N2 SameName slot={same}", same is not None),
        ("N3 NeedsRepair", needs_repair(image)),
    )


def copy_header(volume, lnum, new, sqnum, compat=0, pad=0):
    """The header of a copy that holds the new bytes."""
    return Vid(1, 1, compat, volume, lnum, len(new), 0, pad, crc(new), sqnum)


class Plan:
    """The steps of a plan that isn't refused, and the bytes of the image after them."""

    def __init__(self, image):
        self.image, self.geometry, self.steps = image, image.geometry, []
        self.now = bytearray(b"".join(image.found.blocks))

    def front(self, p):
        """The first 64 bytes of an eraseblock after the steps so far."""
        at = p * self.geometry.peb
        return bytes(self.now[at : at + 64])

    def step(self, *step):
        do(self.geometry, self.now, step)
        self.steps.append(step)

    def program(self, p, page, data):
        """Gives a page all of its bytes: these, and 0xFF after them."""
        self.step("program", p, page, data.ljust(self.geometry.page, b"\xFF"))

    def renew(self, p):
        state, ec = read_ec(self.geometry, self.front(p))
        counter = ec.counter + 1 if state == "valid" else self.image.mean_counter
        self.step("erase", p)
        self.program(p, 0, put_ec(self.geometry, counter, self.image.image_seq))

    def prepare(self, p):
        if not is_clean(self.image, p):
            self.renew(p)

    def head(self, p, header):
        page, at = divmod(self.geometry.vid, self.geometry.page)
        front = b"" if page else self.front(p)
        self.program(p, page, front.ljust(at, b"\xFF") + put_vid(header))

    def write(self, p, new):
        size, first = self.geometry.page, self.geometry.data // self.geometry.page
        for k in range(len(new) // size):
            self.program(p, first + k, new[size * k : size * (k + 1)])

    def give_up(self, p):
        if not stays(self.image, p, self.front(p)):
            self.renew(p)

    def copy(self, old, place, header, new):
        """Puts a copy with the new bytes in the place of an eraseblock."""
        self.prepare(place)
        self.head(place, header)
        self.write(place, new)
        self.give_up(old)


class Change(Plan):
    """The plan of a change."""

    def __init__(self, image, number, lnum, new):
        super().__init__(image)
        header = copy_header(number, lnum, new, image.last + 1, pad=image.records[number].pad(image.geometry))
        if (number, lnum) in image.winners:
            old, place = image.winners[(number, lnum)], takeable(image)[0]
        else:
            old, place = takeable(image)[:2]
            self.prepare(old)
            self.head(old, dataclasses.replace(header, copy=0, size=0, data_crc=0))
            header = dataclasses.replace(header, sqnum=image.last + 2)
        self.copy(old, place, header, new)


class Rename(Plan):
    """The plan of a rename."""

    def __init__(self, image, number, name):
        super().__init__(image)
        new = named_table(image, number, name)
        for copy, place in enumerate(takeable(image)[:2]):
            header = copy_header(LAYOUT, copy, new, image.last + 1 + copy, compat=5)
            self.copy(image.winners[(LAYOUT, copy)], place, header, new)


def do(geometry, image, step):
    """Carries out a step on the bytes of an image. A program must set no bit."""
    word, p, *program = step
    page, data = program if word == "program" else (0, b"\xFF" * geometry.peb)
    at = p * geometry.peb + page * geometry.page
    old, new = (int.from_bytes(part, "big") for part in (image[at : at + len(data)], data))
    assert word == "erase" or new & ~old == 0, f"{step[:3]} sets a bit"
    image[at : at + len(data)] = data


def after(geometry, image, steps):
    """The bytes of an image after some steps."""
    image = bytearray(image)
    for step in steps:
        do(geometry, image, step)
    return bytes(image)


def pages_of(steps):
    """The pages of a plan's steps: the bytes that they program, one page after the other."""
    return b"".join(data for _, _, *program in steps for data in program[1:])


def plan_lines(steps):
    yield f"steps {len(steps)}\n"
    for word, p, *program in steps:
        yield f"program block={p} page={program[0]}\n" if word == "program" else f"erase block={p}\n"


def read_steps(geometry, lines, pages):
    """The steps of some lines of a plan, whose programs take the bytes of one page after the other; no page may be left
    over."""
    for line in lines:
        word, *numbers = line.split()
        size = 0 if word == "erase" else geometry.page
        assert len(pages) >= size, f"no page is left for {line}"
        yield (word, *(int(number.partition("=")[2]) for number in numbers), *([pages[:size]] if size else []))
        pages = pages[size:]
    assert not pages, "pages are left"


def changed(image, number, lnum, new):
    """What an image means after a LEB has got new bytes."""
    lebs = image.contents[number] | {lnum: new.ljust(image.records[number].usable(image.geometry), b"\xFF")}
    lebs = {lnum: data for lnum, data in lebs.items() if not is_blank(data)}
    return image.image_seq, image.records, image.contents | {number: lebs}


def renamed(image, number, name):
    """What an image means after a volume has got another name."""
    return image.image_seq, with_name(image, number, name), image.contents
