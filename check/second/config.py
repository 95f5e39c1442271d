"""A second reading of docs/CONFIG-FORMAT.md: which sections a config gives, or why it isn't read; and the record of a
section.

It was written from that document and not from the program, as rules.py was from docs/FORMAT.md. It says each rule once,
in the document's words; a rule looks at its line and at all lines above it. A fault is a pair: the number of its line,
and its cause as it is printed, such as (4, "I12 Missing vol_id").
"""
import dataclasses
import re

from rules import Record, Refused

BLANKS = b" \t\n\v\f\r"
LONGEST_LINE, LONGEST_NAME, MOST_SECTIONS = 1022, 128, 128
MOST_NUMBER, MOST_BYTES = 4294967295, 9223372036854775807
NUMBER = re.compile(rb"0|[1-9][0-9]*")
SIZE = re.compile(rb"(0|[1-9][0-9]*)(?:[ \t]*(KiB|MiB|GiB))?")
UNITS = {None: 1, b"KiB": 1024, b"MiB": 1048576, b"GiB": 1073741824}
KINDS = {b"dynamic": 1, b"static": 2}
AUTORESIZE, SKIP_CHECK = 1, 2


@dataclasses.dataclass
class Section:
    """A section: the number of its first line, its name, and the values that its keys have."""

    line: int
    title: bytes
    values: dict = dataclasses.field(default_factory=dict)

    @property
    def id(self):
        return self.values["vol_id"]

    @property
    def name(self):
        return self.values["vol_name"]

    @property
    def kind(self):
        return self.values.get("vol_type", 1)

    @property
    def alignment(self):
        return self.values.get("vol_alignment", 1)

    @property
    def flags(self):
        return self.values.get("vol_flags", 0)

    @property
    def size(self):
        return self.values.get("vol_size")

    @property
    def image(self):
        return self.values.get("image")


class Fault(Exception):
    """The cause that a line or a section has."""


def one_of(words):
    """The value that a word stands for, of those that a key takes."""

    def reader(value):
        if value not in words:
            raise Fault("I5 Unfit")
        return words[value]

    return reader


def number(value):
    if not NUMBER.fullmatch(value) or int(value) > MOST_NUMBER:
        raise Fault("I5 Unfit")
    return int(value)


def size(value):
    found = SIZE.fullmatch(value)
    count = int(found[1]) * UNITS[found[2]] if found else 0
    if not 1 <= count <= MOST_BYTES:
        raise Fault("I5 Unfit")
    return count


def name(value):
    if len(value) > 127:
        raise Fault("I5 Unfit")
    return value


KEYS = {
    "mode": one_of({b"ubi": "ubi"}),
    "image": lambda path: path,
    "vol_id": number,
    "vol_size": size,
    "vol_type": one_of(KINDS),
    "vol_name": name,
    "vol_flags": one_of({b"autoresize": AUTORESIZE, b"skip-check": SKIP_CHECK}),
    "vol_alignment": number,
}


def is_remark(text):
    """Whether a text is empty, or a remark, which begins with # or ;."""
    return text[:1] in (b"", b"#", b";")


def plain_value(text):
    value = re.split(rb"[#;]", text, maxsplit=1)[0].strip(BLANKS)
    if not value:
        raise Fault("I4 Value")
    return value


def quoted_value(text):
    value, quote, rest = text[1:].partition(text[:1])
    ends_blank = value.rstrip(BLANKS) != value
    if not quote or not value or ends_blank or not is_remark(rest.strip(BLANKS)):
        raise Fault("I4 Value")
    return value


def value_of(text):
    """The value after =, without blanks at its ends."""
    return quoted_value(text) if text[:1] in (b'"', b"'") else plain_value(text)


def heading(text):
    """The name of the section that begins with a line."""
    title = text[1:-1].strip(BLANKS)
    if len(text) < 2 or text[-1:] != b"]" or not 1 <= len(title) <= LONGEST_NAME or re.search(rb"[\]:]", title):
        raise Fault("I2 Form")
    return title


def setting(text):
    """The key that a line sets, and its value."""
    word, equals, rest = text.partition(b"=")
    if not equals:
        raise Fault("I2 Form")
    key = word.strip(BLANKS).lower().decode("latin-1")
    if key not in KEYS:
        raise Fault("I3 Key")
    return key, KEYS[key](value_of(rest.strip(BLANKS)))


def begin(sections, line, title):
    """Adds a section to those above it."""
    if title.lower() in (section.title.lower() for section in sections):
        raise Fault("I7 Again")
    if len(sections) >= MOST_SECTIONS:
        raise Fault("I8 TooMany")
    sections.append(Section(line, title))


ONCE = {"vol_id": "I9 SameId", "vol_name": "I10 SameName"}


def add(sections, key, value):
    """Adds what a line says about its section, given the lines above it."""
    if not sections:
        raise Fault("I6 NoSection")
    if key in sections[-1].values:
        raise Fault("I7 Again")
    if key in ONCE and value in (section.values.get(key) for section in sections):
        raise Fault(ONCE[key])
    if key == "vol_flags" and value == AUTORESIZE and value in (section.flags for section in sections):
        raise Fault("I11 Autoresize")
    sections[-1].values[key] = value


def read_line(sections, line, raw):
    text = raw.strip(BLANKS)
    if len(raw) > LONGEST_LINE or 0 in raw or text[-1:] == b"\\":
        raise Fault("I1 Line")
    if is_remark(text):
        return
    if text[:1] == b"[":
        begin(sections, line, heading(text))
    else:
        add(sections, *setting(text))


def lacks(section):
    """The first key that a section lacks."""
    for key in ("mode", "vol_id", "vol_name"):
        if key not in section.values:
            return key
    if section.image is None and (section.size is None or section.kind == KINDS[b"static"]):
        return "image"
    return None


def lack(section):
    """What a section lacks, or can't have, as it is printed."""
    if lacks(section):
        return f"I12 Missing {lacks(section)}"
    if section.flags == SKIP_CHECK and section.kind != KINDS[b"static"]:
        return "I18 SkipCheck"
    return None


def read_config(text):
    """The sections of a config, or its first fault."""
    sections = []
    for place, raw in enumerate(text.split(b"\n")):
        line = min(place + 1, MOST_NUMBER)
        try:
            read_line(sections, line, raw)
        except Fault as fault:
            return line, str(fault)
    for section in sections:
        if lack(section):
            return section.line, lack(section)
    return sections


def record(section, geometry, image_len):
    """The record of a section's volume, if its image file has so many bytes (None: it names none)."""
    kept = section.size if section.size is not None else image_len
    if image_len == 0 and section.kind != KINDS[b"static"]:
        raise Refused("I13 Empty")
    if image_len is not None and image_len > kept:
        raise Refused("I14 LongImage")
    rules = (
        ("Negative", section.alignment < 2**31),
        ("Alignment", 1 <= section.alignment <= geometry.leb),
        ("AlignmentPage", section.alignment == 1 or section.alignment % geometry.page == 0),
    )
    for rule, holds in rules:
        if not holds:
            raise Refused(f"I15 Record {rule}")
    usable = geometry.leb - geometry.leb % section.alignment
    reserved = max(1, -(-kept // usable))
    if reserved >= 2**31:
        raise Refused("I16 TooLarge")
    if section.id >= geometry.slots:
        raise Refused("I17 IdRange")
    return Record(reserved, section.alignment, section.kind, 0, section.name, section.flags)
