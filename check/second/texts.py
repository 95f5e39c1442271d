#!/usr/bin/env python3
"""Compares the answers of `compose` for random texts with docs/SPEC-FORMAT.md, as check/second/text_rules.py reads it.

usage: texts.py [--seed N] [--count N] [--first N] [--dir FOLDER] [--tool PROGRAM]

A text describes random volumes of all kinds and states: its lines are in a random order, as far as the order is free,
names and hexadecimal digits in random forms, with remarks and empty lines between, and with or without the last
newline. Three of four texts are then changed up to three times: a word, a line or a byte, the spaces, the line ends, or
the length. For each text `compose`, also with spares and with an image sequence number, has to print the line of the
first cause and write nothing; or to write what the rules give, byte for byte. Then `list` and `extract` of that have to
say what the text says, and `same` compares it with the image without spares, with that of another number, which is
different, and with that of another text. A text that wasn't changed has to read as the volumes that it was made from.

By default there are 500 texts (--count) of the seed 1 (--seed). They lie in a new folder below FOLDER (/tmp by
default), which is removed afterwards. Without --tool the program is built first, unless it is built already. It counts
each cause. The last line is 'N passed, M failed', and the exit status is 0 if none failed; a text that failed can be
made again by its number.
"""
import re

import rules
import text_rules
from fuzz import Failure, Maker, Runner, built, cased, far, finish, given, options, print_causes, run_cases
from rules import Refused
from text_rules import Described

NUMBERS = (
    "0", "00", "01", "007", "1", "2", "3", "4", "5", "+1", "-1", "0x1", "1.0", "64", "127", "128", "192", "896", "897",
    "2147483647", "2147483648", "4294967295", "4294967296", "4294967297", "18446744073709551616",
    "18446744073709551617",
)
OTHERS = (
    "", "#", "x", "dynamic", "static", "Static", "volume", "leb", "LEB", "bytes", "damaged", "updating", "f", "fg",
    "FF", "000", "\\x41", "\\x0A", "a" * 127, "a" * 128, "\\xff" * 127, "\\xFF" * 128,
)
SEQS = (0, 1, 0x12345678, 0xFFFFFFFF)
IN_NAMES = ("\\", "\\x", "\\x4", "\\x4g", "\\X41", "\\x00", "\\x01", "\\xaF", "\\\\", "\\n", "~", "!")


def shown(rng, name):
    """A name as a text may have it: any byte as two digits, and most printable ones as they are."""
    def of(byte):
        is_plain = 0x21 <= byte <= 0x7E and byte != 0x5C and rng.random() < 0.9
        return chr(byte) if is_plain else "\\x" + cased(rng, f"{byte:02x}")

    return "".join(map(of, name))


class Writer:
    """Makes random volumes, a text that describes them, and the image sequence number that goes with it."""

    def __init__(self, rng):
        self.rng, maker = rng, Maker(rng)
        self.geometry, self.maker = maker.geometry, maker
        contents = {number: self.content(record) for number, record in maker.records.items()}
        self.meant = rules.Meaning(self.geometry, rng.choice(SEQS), maker.records, contents)
        self.lines = self.mixed([[self.heading(number), *self.lines_of(number)] for number in contents])

    def content(self, record):
        rng, usable = self.rng, record.usable(self.geometry)
        if record.marker:
            return "updating"
        if record.kind == 1:
            lebs = {lnum: self.maker.contents(usable) for lnum in range(record.reserved) if rng.random() < 0.5}
            return {lnum: data for lnum, data in lebs.items() if not rules.is_blank(data)}
        if rng.random() < 0.2:
            return "damaged"
        most = usable * record.reserved
        return rng.randbytes(rng.choice((0, 1, usable, most, rng.randrange(most + 1))))

    def heading(self, number):
        r = self.meant.records[number]
        kind = {1: "dynamic", 2: "static"}[r.kind]
        flags = cased(self.rng, f"{r.flags:02x}")
        return f"volume {number} {kind} {r.reserved} {r.alignment} {flags} {shown(self.rng, r.name)}".encode()

    def lines_of(self, number):
        """The other lines of a volume."""
        content = self.meant.contents[number]
        if isinstance(content, str):
            return [f"{content} {number}".encode()]
        if isinstance(content, bytes):
            return [f"bytes {number} {cased(self.rng, piece.hex())}".encode() for piece in self.pieces(content)]
        lines = [f"leb {number} {lnum} {cased(self.rng, self.first_of(data).hex())}" for lnum, data in content.items()]
        record = self.meant.records[number]
        most = record.usable(self.geometry)
        blank = [lnum for lnum in range(record.reserved) if lnum not in content and self.rng.random() < 0.2]
        lines += [f"leb {number} {lnum} {'ff' * self.rng.randrange(1, most + 1)}" for lnum in blank]
        self.rng.shuffle(lines)
        return [line.encode() for line in lines]

    def first_of(self, data):
        """The bytes of a LEB that a line gives: all, or as few as possible."""
        return data if self.rng.random() < 0.5 else data.rstrip(b"\xFF")

    def pieces(self, data):
        while data:
            size = self.rng.choice((1, 2, 100, len(data)))
            yield data[:size]
            data = data[size:]

    def mixed(self, volumes):
        """The lines of all volumes, those of each volume in their order, with lines between that say nothing."""
        lines = []
        while any(volumes):
            lines.append(self.rng.choice([volume for volume in volumes if volume]).pop(0))
            if self.rng.random() < 0.1:
                remark = b"#" + self.rng.randbytes(9).replace(b"\n", b"\r")
                lines.append(self.rng.choice((b"", b"#", b"# a remark", remark)))
        return lines


def joined(rng, lines):
    return b"\n".join(lines) + rng.choice((b"\n", b"\n", b"", b"\n\n"))


class Mutator:
    """Changes a text, which is a list of lines until its bytes are changed."""

    def __init__(self, rng, geometry):
        self.rng, self.geometry = rng, geometry
        of_words = (self.word_changed,) * 6 + (self.word_added, self.word_removed, self.words_swapped, self.spaced)
        of_lines = (self.line_doubled, self.line_removed, self.lines_swapped) + (self.line_added, self.volume_added) * 4
        self.ways = of_words + of_lines
        self.of_bytes = (
            self.byte_changed, self.byte_changed, self.byte_added, self.byte_removed, self.cut_off, self.returned,
            self.filled,
        )

    def mutate(self, lines):
        """The bytes of a text with these lines, and whether something was done to them."""
        rng, lines = self.rng, list(lines)
        ways = rng.choice((0, 1, 1, 2, 2, 3, 4))
        for _ in range(max(0, ways - 1)):
            if lines:
                rng.choice(self.ways)(lines)
        text = joined(rng, lines)
        return (rng.choice(self.of_bytes)(text) if ways == 1 and text else text), ways > 0

    def place(self, lines):
        return self.rng.randrange(len(lines))

    def change_words(self, lines, change):
        """Changes the words of a line that isn't a remark, if there is one."""
        said = [at for at, line in enumerate(lines) if line and not line.startswith(b"#")]
        if said:
            at = self.rng.choice(said)
            words = lines[at].split(b" ")
            change(words)
            lines[at] = b" ".join(words)

    def other_word(self, word):
        """A word in place of another one: a number near it, one of the words above, or the same with one byte
        changed."""
        rng = self.rng
        if re.fullmatch(rb"[0-9]{1,10}", word) and rng.random() < 0.8:
            near = int(word) + rng.choice((-1, 1, 1, self.geometry.page))
            return rng.choice((str(max(0, near)), str(max(0, near)), rng.choice(NUMBERS))).encode()
        byte = bytes([rng.randrange(0x21, 0x7F)])
        at = rng.randrange(len(word) + 1)
        other, changed = rng.choice(OTHERS).encode(), word[:at] + byte + word[at + 1 :]
        return rng.choice((other, word + byte, word[:-1], changed, word.swapcase()))

    def other_name(self, word):
        at = self.rng.randrange(len(word) + 1)
        return word[:at] + self.rng.choice(IN_NAMES).encode() + word[at:]

    def word_changed(self, lines):
        def change(words):
            at = self.rng.randrange(len(words))
            is_name = words[0] == b"volume" and at == 6
            other = self.other_name if is_name and self.rng.random() < 0.7 else self.other_word
            words[at] = other(words[at])

        self.change_words(lines, change)

    def word_added(self, lines):
        word = self.rng.choice((*NUMBERS, *OTHERS)).encode()
        self.change_words(lines, lambda words: words.insert(self.rng.randrange(len(words) + 1), word))

    def word_removed(self, lines):
        self.change_words(lines, lambda words: words.pop(self.place(words)))

    def words_swapped(self, lines):
        def change(words):
            p, q = self.place(words), self.place(words)
            words[p], words[q] = words[q], words[p]

        self.change_words(lines, change)

    def spaced(self, lines):
        at = self.place(lines)
        old = lines[at]
        lines[at] = self.rng.choice((b" " + old, old + b" ", old.replace(b" ", b"  ", 1), old.replace(b" ", b"\t", 1)))

    def line_doubled(self, lines):
        lines.insert(self.rng.randrange(len(lines) + 1), lines[self.place(lines)])

    def line_removed(self, lines):
        lines.pop(self.place(lines))

    def lines_swapped(self, lines):
        p, q = self.place(lines), self.place(lines)
        lines[p], lines[q] = lines[q], lines[p]

    def known(self, lines):
        """The word after the first of some line of a volume, which mostly is its number."""
        words = [line.split(b" ")[1] for line in lines if line.startswith(b"volume ")]
        return self.rng.choice((*words, *words, *words, b"3")).decode("latin-1")

    def line_added(self, lines):
        rng, number = self.rng, self.known(lines)
        size = rng.choice((1, 2, 3, self.geometry.leb, self.geometry.leb + 1, 2 * self.geometry.leb))
        lebs = (f"leb {number} {lnum} {size * 'a5'}" for lnum in range(5))
        forms = (f"damaged {number}", f"updating {number}", f"bytes {number} {size * '5a'}", *lebs)
        lines.insert(rng.randrange(len(lines) // 2, len(lines) + 1), rng.choice(forms).encode("latin-1"))

    def volume_added(self, lines):
        rng, page, leb = self.rng, self.geometry.page, self.geometry.leb
        names = [line.split(b" ")[-1] for line in lines if line.startswith(b"volume ")] or [b"new"]
        reserved = rng.choice((0, 1, 1, 1, 2, 9, 38, 2**31 - 1, 2**31, 2**32 - 1))
        alignment = rng.choice((0, 1, 1, 1, 1, page, 2 * page, 2, leb, leb + page, 2**31))
        number, kind = rng.randrange(self.geometry.slots + 2), rng.choice(("dynamic", "static"))
        front = f"volume {number} {kind} {reserved} {alignment} 00 "
        lines.insert(rng.randrange(len(lines) + 1), front.encode() + rng.choice((b"new", rng.choice(names))))

    def byte_changed(self, text):
        at = self.place(text)
        return text[:at] + self.rng.randbytes(1) + text[at + 1 :]

    def byte_added(self, text):
        at = self.rng.randrange(len(text) + 1)
        new = self.rng.choice((b" ", b"\n", b"\r", b"\t", b"\0", b"#", b"0", self.rng.randbytes(1)))
        return text[:at] + new + text[at:]

    def byte_removed(self, text):
        at = self.place(text)
        return text[:at] + text[at + 1 :]

    def cut_off(self, text):
        return text[: self.place(text)]

    def returned(self, text):
        """A text with line ends of Windows, in all lines or in one."""
        return text.replace(b"\n", b"\r\n") if self.rng.random() < 0.5 else text.replace(b"\n", b"\r\n", 1)

    def filled(self, text):
        """A text that is as long as a text may be, or longer by a byte, with a remark at the end."""
        room = text_rules.most(self.geometry) + self.rng.choice((0, 1)) - len(text)
        return text + b"\n#".ljust(room, b"-")[:room]


class Case(Runner):
    """A text, and the answers that the program has to give for it."""

    def __init__(self, rng, tool, folder):
        self.writer = Writer(rng)
        super().__init__(tool, folder, self.writer.geometry)
        self.rng = rng
        self.mutator = Mutator(rng, self.geometry)
        self.text, self.is_changed = self.mutator.mutate(self.writer.lines)
        self.path = self.put("text", self.text)
        self.seq = self.writer.meant.image_seq
        self.spares = rng.choice((0, 0, 0, 1, 2, 3, 4, self.geometry.pebs - 2, far(rng, 1)))

    def words(self, seq, spares):
        """The words that compose the text with a number and spare eraseblocks."""
        words = ["compose", self.path, "--out", self.out]
        return words + given(self.rng, "--seq", seq) + given(self.rng, "--spares", spares)

    def look(self):
        """Compares each answer. Returns the cause of a refusal, or 'composed'."""
        words = self.words(self.seq, self.spares)
        if len(self.text) > text_rules.most(self.geometry):
            self.expect(words, f"cannot read {self.path}\n", 1)
            return "too long"
        try:
            described = Described(self.geometry, self.text, self.seq)
            self.look_made(described)
            image = rules.composed(described, self.spares)
        except Refused as refused:
            if not self.is_changed and str(refused) not in ("M5 NoSpace", "C1 TooMany"):
                raise Failure(f"a right text is refused: {refused}") from None
            self.expect(words, f"refused {refused}\n", 1)
            cause, _, rest = str(refused).partition(" line=")
            return " ".join((cause, *rest.split()[1:]))
        self.expect(words, f"blocks {len(image) // self.geometry.peb}\n", 0, image)
        self.look_composed(described, image)
        return "composed"

    def look_made(self, described):
        if not self.is_changed and described.meaning() != self.writer.meant.meaning():
            raise Failure("a right text isn't read as the volumes that it was made from")

    def look_composed(self, described, image):
        """Compares what is read from a composed image with what the text says."""
        if rules.Image(self.geometry, image).meaning() != described.meaning():
            raise Failure("the two readings of the composed image differ")
        path = self.put("composed", image)
        self.expect(["list", path], "".join(rules.list_lines(described)), 0)
        self.look_read(path, described, self.rng.choice((*described.records, 127)))
        self.expect(["same", path, self.put("normal", rules.composed(described, 0))], "same\n", 0)
        self.look_number(path)
        self.look_other(described, path)

    def look_number(self, path):
        """Composes the text with another number, and compares with the result."""
        seq = self.rng.choice((*(seq for seq in SEQS if seq != self.seq), self.seq ^ 1 << self.rng.randrange(32)))
        image = rules.composed(Described(self.geometry, self.text, seq), 0)
        self.expect(self.words(seq, 0), f"blocks {len(image) // self.geometry.peb}\n", 0, image)
        self.expect(["same", path, self.put("other", image)], "different\n", 1)

    def look_other(self, described, path):
        """Compares with what another text from the same lines describes, if that is composed."""
        try:
            other = Described(self.geometry, self.mutator.mutate(self.writer.lines)[0], self.seq)
        except Refused:
            return
        answer = ("same\n", 0) if other.meaning() == described.meaning() else ("different\n", 1)
        self.expect(["same", path, self.put("other", rules.composed(other, 0))], *answer)


def main():
    words = options(__doc__, 500)
    tool = built(words.tool)
    answers, failed = run_cases(words, {"": (lambda rng, folder: Case(rng, tool, folder).look(), words.count)})
    print_causes(answers)
    finish(len(answers), failed)


if __name__ == "__main__":
    main()
