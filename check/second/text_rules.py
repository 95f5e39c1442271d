"""A second reading of docs/SPEC-FORMAT.md: which volumes a text describes, or why it isn't read or composed.

It was written from that document and not from the program, as rules.py was from docs/FORMAT.md. It says each rule once,
in the document's words; a rule looks at its line and at all lines above it. `Described` is a text that is composed; a
refusal is the exception `Refused` of rules.py.
"""
import dataclasses
import re

import rules
from rules import Record, Refused

FORMS = {
    b"volume": ("id", "kind", "number", "number", "flags", "name"),
    b"leb": ("id", "number", "hex"),
    b"bytes": ("id", "hex"),
    b"damaged": ("id",),
    b"updating": ("id",),
}
KINDS = {b"dynamic": 1, b"static": 2}
NUMBER = re.compile(rb"0|[1-9][0-9]*")
HEX, FLAGS = re.compile(rb"([0-9A-Fa-f]{2})+"), re.compile(rb"[0-9A-Fa-f]{2}")
BYTE_OF_NAME = re.compile(rb"\\x([0-9A-Fa-f]{2})|([!-\[\]-~])")
NAME = re.compile(rb"(\\x[0-9A-Fa-f]{2}|[!-\[\]-~])+")


@dataclasses.dataclass(frozen=True)
class Line:
    """A line that says something: its first word, and what its other words mean."""

    said: bytes
    values: tuple

    @property
    def volume(self):
        return self.values[0]


class Fault(Exception):
    """The cause that a line has, and what is printed after its number."""


def kind_of(word):
    if word not in KINDS:
        raise Fault("P1 Word")
    return KINDS[word]


def number_of(word):
    if not NUMBER.fullmatch(word) or int(word) > 4294967295:
        raise Fault("P2 Number")
    return int(word)


def hex_of(word):
    if not HEX.fullmatch(word):
        raise Fault("P3 Hex")
    return bytes.fromhex(word.decode())


def flags_of(word):
    if not FLAGS.fullmatch(word):
        raise Fault("P3 Hex")
    return int(word, 16)


def name_of(word):
    if not NAME.fullmatch(word):
        raise Fault("P4 Name")
    found = BYTE_OF_NAME.findall(word)
    name = b"".join(bytes.fromhex(digits.decode()) if digits else plain for digits, plain in found)
    if len(name) > 127 or 0 in name:
        raise Fault("P4 Name")
    return name


READERS = {"id": number_of, "number": number_of, "kind": kind_of, "hex": hex_of, "flags": flags_of, "name": name_of}


def read_line(raw):
    """What a line says by itself. If there are several causes, the one with the least number counts."""
    words = raw.split(b" ")
    if any(not 0x20 <= byte <= 0x7E for byte in raw) or b"" in words:
        raise Fault("P1 Word")
    form = FORMS.get(words[0])
    if form is None or len(words) != len(form) + 1:
        raise Fault("P1 Word")
    values, faults = [], []
    for part, word in zip(form, words[1:]):
        try:
            values.append(READERS[part](word))
        except Fault as fault:
            faults.append(fault)
    if faults:
        raise min(faults, key=str)
    return Line(words[0], tuple(values))


def heading(above, number):
    """The line of a volume; None if there is none."""
    return next((line for line in above if line.said == b"volume" and line.volume == number), None)


def contents(above, number):
    """The other lines of a volume."""
    return [line for line in above if line.said != b"volume" and line.volume == number]


def record_of(line):
    _, kind, reserved, alignment, flags, name = line.values
    return Record(reserved, alignment, kind, 0, name, flags)


def judge_volume(geometry, above, line):
    """Raises what is wrong with the line of a volume after those above it."""
    if heading(above, line.volume) is not None:
        raise Fault("P5 Order")
    _, _, reserved, alignment, _, _ = line.values
    if reserved == 0:
        raise Fault("P6 Record", "NotEmpty")
    if reserved >= 2147483648 or alignment >= 2147483648:
        raise Fault("P6 Record", "Negative")
    if not 1 <= alignment <= geometry.leb:
        raise Fault("P6 Record", "Alignment")
    if alignment != 1 and alignment % geometry.page:
        raise Fault("P6 Record", "AlignmentPage")


def judge_content(geometry, above, line):
    """Raises what is wrong with another line after those above it."""
    head = heading(above, line.volume)
    if head is None:
        raise Fault("P5 Order")
    record, others = record_of(head), contents(above, line.volume)
    if record.kind == {b"leb": 2, b"bytes": 1, b"damaged": 1}.get(line.said):
        raise Fault("P5 Order")
    final = (b"damaged", b"updating")
    if others and (line.said in final or others[-1].said in final):
        raise Fault("P5 Order")
    if line.said == b"leb":
        _, lnum, data = line.values
        if any(other.values[1] == lnum for other in others):
            raise Fault("P7 Twice")
        if len(data) > record.usable(geometry):
            raise Fault("P8 Long")


def read_lines(geometry, text):
    """The lines that say something."""
    above = []
    for number, raw in enumerate(text.split(b"\n"), 1):
        if not raw or raw.startswith(b"#"):
            continue
        try:
            line = read_line(raw)
            judge = judge_volume if line.said == b"volume" else judge_content
            judge(geometry, above, line)
        except Fault as fault:
            cause, *rest = fault.args
            raise Refused(" ".join((cause, f"line={number}", *rest))) from None
        above.append(line)
    return above


def content_of(geometry, record, others):
    """The contents of a volume, by its other lines."""
    if others and others[0].said in (b"damaged", b"updating"):
        return others[0].said.decode()
    if record.kind == 2:
        return b"".join(line.values[1] for line in others)
    return {lnum: data.ljust(record.usable(geometry), b"\xFF") for _, lnum, data in (line.values for line in others)}


def judge_together(geometry, volumes):
    """Raises why volumes, each a number, a record and its contents, have no meaning together."""
    for item, (number, _, _) in enumerate(volumes):
        if number >= geometry.slots:
            raise Refused(f"M1 IdRange item={item}")
    names = [record.name for _, record, _ in volumes]
    for item, name in enumerate(names):
        if name in names[:item]:
            raise Refused(f"M4 SameName item={item} earlier={names.index(name)}")
    if sum(record.reserved for _, record, _ in volumes) > geometry.pebs - 2:
        raise Refused("M5 NoSpace")
    for item, (_, record, content) in enumerate(volumes):
        if isinstance(content, dict) and any(lnum >= record.reserved for lnum in content):
            raise Refused(f"M6 ContentRange item={item}")
        if isinstance(content, bytes) and len(content) > record.reserved * record.usable(geometry):
            raise Refused(f"M6 ContentRange item={item}")


class Described(rules.Meaning):
    """What a text describes, with the given image sequence number."""

    def __init__(self, geometry, text, image_seq=0):
        lines = read_lines(geometry, text)
        volumes = []
        for head in (line for line in lines if line.said == b"volume"):
            record = record_of(head)
            content = content_of(geometry, record, contents(lines, head.volume))
            volumes.append((head.volume, dataclasses.replace(record, marker=int(content == "updating")), content))
        judge_together(geometry, volumes)
        super().__init__(geometry, image_seq, {}, {})
        for number, record, content in volumes:
            self.records[number] = record
            self.contents[number] = self.without_blanks(content) if isinstance(content, dict) else content

    @staticmethod
    def without_blanks(lebs):
        return {lnum: data for lnum, data in lebs.items() if not rules.is_blank(data)}


def most(geometry):
    """The most bytes that a text may have: a longer file can't be read."""
    return 4 * geometry.peb * geometry.pebs + 65536
