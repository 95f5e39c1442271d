"""Makes files of recipes, which say in the words of docs/FORMAT.md what eraseblocks hold. cases/README.md has the form.

It shares the headers and their CRCs with check/second/rules.py, and takes nothing from the program.
"""
import re
import struct
import sys
from pathlib import Path

ROOT = Path(__file__).resolve().parents[2]
sys.path.insert(0, str(ROOT / 'check/second'))
import rules  # noqa: E402
from rules import EMPTY_RECORD, LAYOUT, Geometry, Vid, crc, sealed  # noqa: E402
from text_rules import name_of  # noqa: E402

WORD = re.compile(r"""(?:'(?:[^'\\]|\\.)*'|\S)+""")
# Bytes: a text in quotes or hexadecimal digits, and how often they stand.
ITEM = re.compile(r"(?:'((?:[^'\\]|\\.)*)'|((?:[0-9A-F]{2})+))(?:\*(\d+))?")
FIELD = re.compile(r'([a-z_]+)=(\w+)')
# The geometry of a file whose recipe names no other one, and the image number of its headers.
SIZES = {'peb': 512, 'page': 64, 'vid': 64, 'data': 128, 'pebs': 32}
NUMBER = 0x12345678
PARTS = {'bytes': 'items', 'junk': 'junk', 'file': 'file', 'header': 'header'}
KINDS = {'dynamic': 1, 'static': 2}
EC_FIELDS = ('counter', 'seq', 'version', 'vid_offset', 'data_offset')
VID_FIELDS = ('kind', 'copy', 'compat', 'volume', 'lnum', 'size', 'used', 'pad', 'crc', 'sqnum')


def item_bytes(word):
    """The bytes of an item; None if the word is none."""
    found = ITEM.fullmatch(word)
    if found is None:
        return None
    text, digits, count = found.groups()
    once = bytes.fromhex(digits) if text is None else text.encode('latin-1').decode('unicode_escape').encode('latin-1')
    return once * int(count or 1)


def parted(words):
    """The fields, the bytes, and the other words of a line."""
    fields, data, others = {}, b'', []
    for word in words:
        field, item = FIELD.fullmatch(word), item_bytes(word)
        if field:
            fields[field[1]] = field[2]
        elif item is not None and not word.isdigit():
            data += item
        else:
            others.append(word)
    return fields, data, others


def number(value):
    return int(value, 0)


def record_bytes(geometry, words):
    """The bytes of a record, given by its kind, the eraseblocks that it reserves, its name, and other fields."""
    kind, reserved, name, *fields = words
    fields = {field: number(value) for field, value in parted(fields)[0].items()}
    name, alignment = name_of(name.encode('latin-1')), fields.get('alignment', 1)
    pad = fields.get('pad', geometry.leb % alignment if alignment else 0)
    front = (number(reserved), alignment, pad, KINDS[kind], fields.get('marker', 0), len(name), name)
    return sealed(struct.pack('>IIIBBH128sB23x', *front, fields.get('flags', 0)))


def ec_header(geometry, image_seq, fields):
    """An erase-counter header with some fields."""
    if fields.get('ec') in ('blank', 'zeros'):
        return b'\xFF' * 64 if fields['ec'] == 'blank' else bytes(64)
    given = {name: number(fields[name]) for name in EC_FIELDS if name in fields}
    offsets = given.get('vid_offset', geometry.vid), given.get('data_offset', geometry.data)
    raw = rules.counter_header(given.get('counter', 0), *offsets, given.get('seq', image_seq))
    return sealed(raw[:4] + bytes([given.get('version', 1)]) + raw[5:60])


def check_of(word, data):
    """The CRC of bytes, one with a wrong bit, or the number that is given."""
    if word in (None, 'wrong'):
        return crc(data) ^ int(word == 'wrong')
    return number(word)


def vid_header(kind, others, data, fields):
    """The volume-identifier header of a line of a kind."""
    known = {'kind': 1, 'copy': 0, 'compat': 0, 'size': 0, 'used': 0, 'pad': 0, 'crc': 0, 'sqnum': 0}
    if kind == 'table':
        known |= {'volume': LAYOUT, 'lnum': number(others[0]), 'compat': 5}
    else:
        known |= {'volume': number(others[0]), 'lnum': number(others[1])}
    if kind in ('copy', 'static') or 'size' in fields:
        size = number(fields.get('size', str(len(data))))
        known |= {'size': size, 'crc': check_of(fields.get('crc'), data.ljust(size, b'\xFF')[:size])}
    if kind in ('copy', 'static'):
        known |= {'copy': 1} if kind == 'copy' else {'kind': 2, 'used': number(others[2])}
    known |= {name: number(fields[name]) for name in VID_FIELDS if name in fields and fields[name] != 'wrong'}
    return rules.put_vid(Vid(*(known[name] for name in VID_FIELDS)))


class Recipes:
    """Files by their names: those of recipes, and those that are there as they are."""

    def __init__(self):
        self.recipes, self.records, self.plain, self.made = {}, {}, {}, {}

    def add(self, path):
        """Adds the recipes of a file of recipes. Returns their names."""
        names = []
        for line in path.read_text(encoding='latin-1').split('\n'):
            words = WORD.findall(line)
            if not words or line.lstrip().startswith('#'):
                continue
            if line[0] in ' \t':
                self.recipes[names[-1]][1].append(words)
            elif words[0] == 'record':
                self.records[words[1]] = words[2:]
            else:
                names.append(words[0])
                self.recipes[words[0]] = dict(FIELD.fullmatch(word).groups() for word in words[1:]), []
        return names

    def named(self):
        return self.recipes.keys() | self.plain.keys()

    def bytes(self, name):
        """What the file of that name holds."""
        if name in self.plain:
            return self.plain[name]
        if name not in self.made:
            self.made[name] = Maker(self, self.recipes[name][0]).bytes(self.recipes[name][1])
        return self.made[name]


class Maker:
    """Makes a file of the lines of its recipe."""

    def __init__(self, recipes, settings):
        numbers = {name: number(value) for name, value in settings.items()}
        self.recipes, self.image_seq = recipes, numbers.pop('seq', NUMBER)
        self.geometry = Geometry(**(SIZES | numbers))

    def bytes(self, lines):
        made = bytearray()
        for words in lines:
            self.put(made, words)
        return bytes(made)

    def put(self, made, words):
        """Does what a line says."""
        if words[0] == 'cut':
            del made[number(words[1]) :]
        elif words[0] == 'at':
            place, new = self.place(words[1]), self.part(words[2:])
            made[place : place + len(new)] = new
        else:
            made += self.part(words)

    def place(self, word):
        """A place in the file, or P:N, the byte N of eraseblock P."""
        block, _, byte = word.rpartition(':')
        return number(block or '0') * self.geometry.peb + number(byte)

    def part(self, words):
        """The bytes that a line adds."""
        kind, words = words[0], words[1:]
        if kind in PARTS:
            return getattr(self, PARTS[kind])(words)
        count = int(words.pop()[1:]) if words and re.fullmatch(r'x\d+', words[-1]) else 1
        return self.block(kind, words) * count

    def items(self, words):
        return b''.join(item_bytes(word) for word in words)

    def junk(self, words):
        """So many bytes that are neither 0xFF nor those of a header."""
        return bytes(place % 251 for place in range(number(words[0])))

    def file(self, words):
        """Another file, or a part of it, maybe with out-of-band bytes after each of its pages."""
        fields, _, (name,) = parted(words)
        fields = {field: number(value) for field, value in fields.items()}
        data, start, oob = self.recipes.bytes(name), fields.get('start', 0), fields.get('oob')
        data = data[start : start + fields.get('length', len(data))]
        page = self.geometry.page
        pages = (data[at : at + page] for at in range(0, len(data), page))
        return data if oob is None else b''.join(page + self.junk([str(oob)]) for page in pages)

    def header(self, words):
        """A header alone."""
        fields, data, others = parted(words[1:])
        if words[0] == 'ec':
            return ec_header(self.geometry, self.image_seq, fields)
        return vid_header(words[0], others, data, fields)

    def block(self, kind, words):
        """An eraseblock."""
        fields, data, others = parted(words)
        ec = ec_header(self.geometry, self.image_seq, fields)
        if kind in ('blank', 'free', 'garbage', 'torn'):
            vid = bytes(64) if kind in ('garbage', 'torn') else b'\xFF' * 64
            ec = {'blank': b'\xFF' * 64, 'torn': bytes(64)}.get(kind, ec)
            return rules.put_block(self.geometry, ec, vid, data)
        if kind == 'table':
            data = self.table(others[1:])
        return rules.put_block(self.geometry, ec, vid_header(kind, others, data, fields), data)

    def table(self, names):
        """A volume table: the named records in its first slots, and none in the others."""
        written = [record_bytes(self.geometry, self.recipes.records[name]) for name in names]
        return b''.join(written + [EMPTY_RECORD] * (self.geometry.slots - len(written)))
