#!/usr/bin/env python3
"""Compares the answers of `build` for random configs with docs/CONFIG-FORMAT.md, as check/second/config.py reads it.

usage: builds.py [--seed N] [--count N] [--first N] [--dir FOLDER] [--tool PROGRAM]

A config describes random volumes: static, dynamic and aligned ones, one that grows, some with skip-check, and empty
ones, with files of all lengths, some of which are 0xFF at their end or throughout. Its keys are in a random order and
case, its values with and without quotes and remarks. Two of three configs are then changed up to three times: a line, a
byte, a value or a name. For each config `build`, also with spares and an image sequence number, has to print the line
of the first cause and write nothing; or to write what the rules give, byte for byte. Then `unpack` of that has to give
the contents of the files, with 0xFF after them.

Then come hostile files: configs of a million lines; image files that are the output, by another path and by links too,
or a folder or a pipe; and for `unpack` folders that are links, that hold a link, or are files, and names that would
lead out of the folder.

By default there are 500 configs (--count) of the seed 1 (--seed). They lie in a new folder below FOLDER (/tmp by
default), which is removed afterwards. Without --tool the program is built first, unless it is built already. It counts
each cause. The last line is 'N passed, M failed', and the exit status is 0 if none failed; a config that failed can be
made again by its number.
"""
import os
import subprocess

import config
import rules
import text_rules
from fuzz import ROOT, SIZES, Failure, Runner, built, cased, far, finish, given, options, print_causes, run_cases
from rules import Geometry, Meaning, Refused

SEQS = (0, 1, 0x12345678, 0xFFFFFFFF)
VALUES = (
    "", "0", "00", "1", "01", "-1", "+1", "0x10", "4294967295", "4294967296", "9223372036854775807",
    "9223372036854775808", "1KiB", "1 KiB", "1kib", "1 MB", "3  MiB", "8796093022207MiB", "ubi", "UBI", "static",
    "dynamic", "autoresize", "skip-check", "\"a\"", "\'a", "\"a \"", "a;b", "a#b", ";", "\\", "a" * 127, "a" * 128,
    "b" * 1100, "\t", "v0", "v9", ".", "..", "no/such", "\xff", "\x00",
)
LINES = (
    "", "#", "; x", "[", "]", "[]", "[ ]", "[a]", "[A]", "[a:b]", "[a] # x", "mode", "mode=", "= ubi", "mode = ubi",
    "image=v0", "vol_id=0", "vol_name=a", "vol_size=1", "vol_type=static", "vol_flags=autoresize", "vol_alignment=1",
    "vol_ids=1", "MODE=ubi", "a=b=c", "x\\",
)


class Writer:
    """Describes random volumes as a config, and writes their files."""

    def __init__(self, rng, geometry, put):
        self.rng, self.geometry, self.put = rng, geometry, put
        slots = geometry.slots
        ids = rng.sample(range(slots), rng.randrange(1, min(slots, 4) + 1))
        self.grows = rng.choice((*ids, None))
        self.lines = [line for place, number in enumerate(ids) for line in self.section(place, number)]

    def bytes(self):
        rng, leb = self.rng, self.geometry.leb
        size = rng.choice((0, 1, leb - 1, leb, leb + 1, 2 * leb, rng.randrange(1, 3 * leb)))
        blank = rng.choice((0, 0, size // 2, size))
        return rng.randbytes(size - blank) + b"\xFF" * blank

    def value(self, value):
        rng = self.rng
        quote = rng.choice(("", "", "\"", "\'"))
        return f"{quote}{value}{quote}{rng.choice(('', '', ' # x', ';x'))}"

    def flags(self, number, kind):
        if number == self.grows:
            return "autoresize"
        return self.rng.choice((None, "skip-check")) if kind == "static" or self.rng.random() < 0.05 else None

    def section(self, place, number):
        rng, geometry = self.rng, self.geometry
        kind = rng.choice(("static", "dynamic", None))
        alignment = rng.choice((None, None, 1, geometry.page, 3 * geometry.page))
        data = self.bytes() if kind == "static" or rng.random() < 0.8 else None
        if data is not None:
            self.put(f"v{place}", data)
        if data is None:
            size = rng.randrange(1, 3 * geometry.leb)
        else:
            more = rng.choice((None, 0, 1, geometry.leb, 2 * geometry.leb))
            size = None if more is None else len(data) + more
        keys = {
            "mode": "ubi",
            "vol_id": number,
            "vol_name": f"name{place}",
            "vol_type": kind,
            "vol_alignment": alignment,
            "vol_size": size,
            "image": None if data is None else f"v{place}",
            "vol_flags": self.flags(number, kind),
        }
        said = [(key, value) for key, value in keys.items() if value is not None]
        rng.shuffle(said)
        yield f"[{rng.choice(('volume', ' Volume'))}{place}]"
        for key, value in said:
            yield from rng.choice(((), (), (), ("",), ("# a remark",)))
            blank = rng.choice(("", " ", "\t"))
            yield f"{blank}{cased(rng, key)}{blank}={blank}{self.value(value)}{rng.choice(('', chr(13)))}"


class Mutator:
    """Changes the lines of a config, up to three times."""

    def __init__(self, rng):
        self.rng = rng

    def mutate(self, lines):
        rng, lines = self.rng, [line.encode("latin-1") for line in lines]
        ways = (
            self.dropped, self.doubled, self.swapped, self.other_line, self.other_value, self.other_value, self.byte,
        )
        for _ in range(rng.choice((0, 1, 1, 2, 3))):
            if lines:
                rng.choice(ways)(lines)
        return b"\n".join(lines) + rng.choice((b"", b"\n"))

    def place(self, lines):
        return self.rng.randrange(len(lines))

    def dropped(self, lines):
        del lines[self.place(lines)]

    def doubled(self, lines):
        lines.insert(self.place(lines), lines[self.place(lines)])

    def swapped(self, lines):
        p, q = self.place(lines), self.place(lines)
        lines[p], lines[q] = lines[q], lines[p]

    def other_line(self, lines):
        lines.insert(self.place(lines), self.rng.choice(LINES).encode("latin-1"))

    def other_value(self, lines):
        p = self.place(lines)
        lines[p] = lines[p].partition(b"=")[0] + b"=" + self.rng.choice(VALUES).encode("latin-1")

    def byte(self, lines):
        p = self.place(lines)
        at = self.rng.randrange(len(lines[p]) + 1)
        lines[p] = lines[p][:at] + self.rng.randbytes(1) + lines[p][at + self.rng.randrange(2) :]


def faulty(line, cause):
    """A cause with its line, as it is printed."""
    number, name, *rest = cause.split(" ")
    return " ".join((number, name, f"line={line}", *rest))


class Case(Runner):
    """A config, and the answers that the program has to give for it."""

    def __init__(self, rng, tool, folder):
        super().__init__(tool, folder, Geometry(*rng.choice(SIZES), rng.choice((8, 12, 20, 40))))
        self.rng = rng
        for k in range(5):
            if os.path.exists(os.path.join(folder, f"v{k}")):
                os.remove(os.path.join(folder, f"v{k}"))
        writer = Writer(rng, self.geometry, self.put)
        self.text = Mutator(rng).mutate(writer.lines)
        self.path = self.put("config", self.text)
        self.seq = rng.choice(SEQS)
        self.spares = rng.choice((0, 0, 0, 1, 2, self.geometry.pebs - 2, far(rng, 1)))

    def image(self, section):
        """The bytes of a section's file; None if it names none."""
        if section.image is None:
            return None
        try:
            image = section.image.decode()
        except UnicodeDecodeError:
            raise Refused(faulty(section.line, "I5 Unfit")) from None
        path = image if image.startswith("/") else f"{self.folder}/{image}"
        if not os.path.isfile(path) or os.path.realpath(path) == os.path.realpath(self.out):
            raise FileNotFoundError(path)
        with open(path, "rb") as file:
            return file.read()

    def volume(self, section):
        """The number, the record and the contents of a section's volume, and the most eraseblocks that it has."""
        data = self.image(section)
        try:
            record = config.record(section, self.geometry, None if data is None else len(data))
        except Refused as refused:
            raise Refused(faulty(section.line, str(refused))) from None
        data, usable = data or b"", record.usable(self.geometry)
        most = -(-len(data) // usable)
        if record.kind == 2:
            return section.id, record, data, most
        lebs = {k: data[k * usable : (k + 1) * usable].ljust(usable, b"\xFF") for k in range(most)}
        return section.id, record, lebs, most

    def meant(self):
        """What the config and its files mean."""
        sections = config.read_config(self.text)
        if isinstance(sections, tuple):
            raise Refused(faulty(*sections))
        volumes = [self.volume(section) for section in sections]
        text_rules.judge_together(self.geometry, [volume[:3] for volume in volumes])
        if 2 + sum(volume[3] for volume in volumes) + self.spares > self.geometry.pebs:
            raise Refused("C1 TooMany")
        records = {number: record for number, record, *_ in volumes}
        contents = {number: self.kept(content) for number, _, content, _ in volumes}
        return Meaning(self.geometry, self.seq, records, contents)

    def kept(self, content):
        if isinstance(content, bytes):
            return content
        return {lnum: data for lnum, data in content.items() if not rules.is_blank(data)}

    def look(self):
        """Compares each answer. Returns the cause of a refusal, or 'built'."""
        words = ["build", self.path, "--out", self.out]
        words += given(self.rng, "--seq", self.seq) + given(self.rng, "--spares", self.spares)
        try:
            meant = self.meant()
        except FileNotFoundError as missing:
            self.expect(words, f"cannot read {missing}\n", 1)
            return "cannot read"
        except Refused as refused:
            self.expect(words, f"refused {refused}\n", 1)
            return str(refused)
        image = rules.composed(meant, self.spares)
        self.expect(words, f"blocks {len(image) // self.geometry.peb}\n", 0, image)
        if rules.Image(self.geometry, image).meaning() != meant.meaning():
            raise Failure("the image that the rules give means something else")
        self.look_unpacked(self.put("built", image), meant)
        return "built"


class Hostile(Runner):
    """Hostile files, and the answers that the program has to give for them."""

    def __init__(self, tool, folder):
        super().__init__(tool, folder, Geometry(*SIZES[0], 1048576))
        self.config = b"[a]\nmode=ubi\nvol_id=0\nvol_name=a\nimage=%s\n"

    def path(self, name):
        return os.path.join(self.folder, name)

    def look(self):
        self.put("content", b"content")
        for look in (self.long_configs, self.outputs, self.images, self.folders, self.names):
            look()

    def build(self, config, line, status, written=None, out=None):
        self.expect(["build", self.put("config", config), "--out", out or self.out], line, status, written)

    def unread(self, name, reason, out=None):
        """An image file that isn't read: the answer names it, and standard error has the reason."""
        path, out = os.path.join(self.folder, name), out or self.out
        self.build(self.config % name.encode(), f"cannot read {path}\n", 1, out=out)
        words = self.whole(["build", self.put("config", self.config % name.encode()), "--out", out])
        error = subprocess.run([self.tool, *words], capture_output=True).stderr
        if error != f"{path}: {reason}\n".encode():
            raise Failure(f"{words} says {error}, and not that of {path} {reason}")

    def long_configs(self):
        records = {0: rules.Record(1, 1, 1, 0, b"a", 0)}
        image = rules.normal_image(Meaning(self.geometry, 0, records, {0: {0: b"content".ljust(384, b"\xFF")}}))
        self.build(b"# remark\n" * 1_000_000 + self.config % b"content", "blocks 3\n", 0, image)
        self.build(b"\n" * 1_000_000 + b"x\n", "refused I2 Form line=1000001\n", 1)
        self.build(b"[a]\n" * 1_000_000, "refused I7 Again line=2\n", 1)
        self.build(b"".join(b"[%d]\n" % k for k in range(1_000_000)), "refused I8 TooMany line=129\n", 1)
        self.build(b"x" * 1_000_000, "refused I1 Line line=1\n", 1)

    def outputs(self):
        """The output is the image file: by its path, by another one, by links."""
        content = self.path("content")
        os.symlink(content, self.path("soft"))
        os.link(content, self.path("hard"))
        for name in ("content", "./content", "soft", "hard"):
            self.unread("content", "it may be the output", out=self.path(name))
            self.unread(name, "it may be the output", out=content)
        with open(content, "rb") as file:
            if file.read() != b"content":
                raise Failure("an image file that is also the output is lost")

    def images(self):
        os.mkfifo(self.path("pipe"))
        self.unread("pipe", "it can't be read at places, as a pipe can't")
        for name in (".", "..", "/"):
            self.unread(name, "it is a folder")
        for name in ("no/such", "missing"):
            self.unread(name, "No such file or directory (os error 2)")
        for name in ("/dev/zero", "/dev/null"):
            self.unread(name, "it is a device without a size")

    def unpack(self, image, folder, lines, status):
        self.expect(["unpack", image, "--out", folder], lines, status)

    def folders(self):
        image = os.path.join(ROOT, "crates", "ubi_tool", "data", "root.img")
        empty, link, full = self.path("empty"), self.path("link"), self.path("full")
        os.mkdir(empty)
        os.symlink(empty, link)
        os.mkdir(full)
        os.symlink(self.path("nowhere"), os.path.join(full, "0-root"))
        for folder in (link, full, self.path("content"), self.path("pipe"), self.path("no/such"), "", "/dev/null"):
            self.unpack(image, folder, f"cannot write {folder}\n", 1)
        if os.listdir(empty) or os.path.exists(self.path("nowhere")):
            raise Failure("a link is followed")
        self.unpack(image, link + "/", "volume 0 bytes=7680 name=root\n", 0)
        self.unpack(image, empty, f"cannot write {empty}\n", 1)
        for name in ("0-root", "ubi.ini"):
            os.remove(os.path.join(empty, name))
        self.unpack(image, empty, "volume 0 bytes=7680 name=root\n", 0)

    def names(self):
        """Each byte in a name, and names that would lead elsewhere."""
        others = (b"..", b"../../x", b"/etc/x", b"a/b", b"-", b"./a", b"a" * 127, b"\xFF" * 63)
        for name in (*(bytes([byte]) for byte in range(1, 256)), *others):
            records = {0: rules.Record(1, 1, 1, 0, name, 0)}
            meant = Meaning(self.geometry, 0, records, {0: {}})
            self.look_unpacked(self.put("named", rules.normal_image(meant)), meant)


def main():
    words = options(__doc__, 500)
    tool = built(words.tool)
    answers, failed = run_cases(words, {
        "": (lambda rng, folder: Case(rng, tool, folder).look(), words.count),
        "hostile": (lambda rng, folder: Hostile(tool, folder).look() or "hostile", 1),
    })
    print_causes(answers)
    finish(len(answers), failed)


if __name__ == "__main__":
    main()
