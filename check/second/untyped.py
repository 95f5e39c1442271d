#!/usr/bin/env python3
"""Compares what the program answers for a file when no number is typed with what it answers when the first line of
`geometry` is typed. Both have to be the same.

usage: untyped.py [--seed N] [--count N] [--flipped N] [--pairs N] [--first N] [--dir FOLDER] [--tool PROGRAM]

Every second file is of a kind of dumps.py. The others are of the kinds below: images with boot loaders, zeros, random
bytes, 0xFF and other images before, behind and between, on the grid and off it, with out-of-band bytes or without; cut
at any byte; with a bit of a header flipped; chips that were written twice; headers in volumes; bad eraseblocks. For
each, `geometry` has to print what geometry.py finds, for the file or for a part of it. Then `list`, `check`, `show`,
`map`, `extract`, `unpack`, `normalise`, `same` and `diff` are run without a number and with its first line: the status,
what is printed and what is written have to be the same, also with --bad, --pebs, and as JSON. If no geometry is found,
each answers the line of `geometry`, and writes nothing; and so it does with the spans of all images (F10), if these are
apart and no part is given. `same` and `diff` also compare a file with a changed one; the answer is that for two files
with just the bytes that are read of them, or a refusal that names the side.

Then come images whose eraseblocks are all there, with one bit of an erase-counter header flipped (--flipped): `list`
and `extract` have to answer what they answer with the true numbers, or refuse the file. And two images in one file
(--pairs), which `geometry` has to tell both, with their true spans; every other command has to refuse a file whose
images are apart, and to read each image if its span is given. Only if the eraseblocks of one look like members of the
other may it be hidden, and then the file is refused (S3, S4).

By default there are 1,000 files (--count), 100 flipped bits and 200 pairs of the seed 1 (--seed). They lie in a new
folder below FOLDER (/tmp by default), which is removed afterwards. Without --tool the program is built first, unless it
is built already. It counts the answers that are right, wrong, refused, and refused since images are apart. The last
line is 'N passed, M failed', and the exit status is 0 if none failed; a file that failed can be made again by giving
its number to --first.
"""
import collections
import dataclasses
import functools
import os
import subprocess

import dumps
import rules
from dumps import OF_WRITTEN, SIZES, SIZES_WITH_MORE, File, Truth, junk, whole, with_number
from fuzz import Failure, Runner, built, complaints, either, expect, finish, listing, options, run_cases, taken
from geometry import answer
from rules import Geometry, Image, Refused


# The most bytes of an eraseblock of most images, and how often they may have more.
MOST, OTHERS = 16384, 0.05


def made(rng, weights):
    """An image of dumps.py, mostly with small eraseblocks, so that nine commands are soon done with it."""
    small = {sizes: often for sizes, often in weights.items() if sizes[0] <= MOST}
    return dumps.made(rng, small if small and rng.random() > OTHERS else weights, dumps.MAKERS)


# Kinds of files, beside those of dumps.py.


def any_image(rng, image):
    """An image, with out-of-band bytes or without; most have one number in all headers."""
    with_more = rng.random() < 0.25
    geometry, blocks = image(SIZES_WITH_MORE if with_more else SIZES)
    if rng.random() < 0.8:
        geometry, blocks = with_number(rng, geometry, blocks)
    return dumps.with_more(rng, geometry, blocks, rng.choice(OF_WRITTEN)) if with_more else whole(geometry, blocks)


def something(rng, image, size):
    """A file that is put beside an image with eraseblocks of so many bytes: a boot loader, some eraseblocks of junk, or
    another image."""
    kind = rng.random()
    if kind < 0.3:
        return File(dumps.boot_loader(rng))
    if kind < 0.7:
        return File(junk(rng, size * rng.randrange(1, 9)))
    return any_image(rng, image)


def to_grid(rng, file, size):
    """A file with bytes after it, so that its end lies on a grid of so many bytes; now and then at any multiple of 64,
    or at any byte."""
    how, rest = rng.random(), -len(file.data) % size
    if how > 0.7:
        rest = 64 * rng.randrange(99) if how < 0.95 else rng.randrange(999)
    return file.between(b"", junk(rng, rest))


def around(rng, image):
    """An image with something before it, behind it, or both."""
    file = any_image(rng, image)
    size = file.truths[0].size
    if rng.random() < 0.7:
        file = file.after(to_grid(rng, something(rng, image, size), size))
    if rng.random() < 0.7:
        file = something(rng, image, size).after(to_grid(rng, file, size))
    return file


def between(rng, image):
    """An image in two parts, with something between them, on its grid or off it."""
    file = any_image(rng, image)
    truth = file.truths[0]
    first = rng.randrange(truth.count + 1)
    at = first * truth.size
    head = File(file.data[:at], dataclasses.replace(truth, count=first))
    tail = File(file.data[at:], dataclasses.replace(truth, count=truth.count - first))
    inserted = something(rng, image, truth.size)
    middle = to_grid(rng, inserted, truth.size)
    both = tail.after(middle.after(head))
    if len(middle.data) % truth.size == 0:
        # Both parts lie on one grid, and are one image.
        count = truth.count + len(middle.data) // truth.size
        return File(both.data, *both.truths, dataclasses.replace(truth, count=count))
    is_part = functools.partial(dumps.is_part, dataclasses.replace(truth.geometry, peb=truth.size))
    return File(both.data, *both.truths, named=(("two parts of one number, off one grid", is_part),))


def cut(rng, image):
    """A file of these kinds that has lost bytes at either end, any number of them."""
    file = rng.choice((any_image, around))(rng, image)
    lost = rng.choice((0, 64 * rng.randrange(len(file.data) // 64 + 1), rng.randrange(len(file.data) + 1)))
    left = file.data[lost : lost + rng.choice((len(file.data), rng.randrange(len(file.data) + 1)))]
    return File(left, *(truth.moved(-lost) for truth in file.truths), named=file.named)


def with_flipped(rng, file, places):
    """A file with a bit of one of the headers at these places flipped."""
    raw = bytearray(file.data)
    if places:
        raw[rng.choice(places) + rng.randrange(64)] ^= 1 << rng.randrange(8)
    return File(bytes(raw), *file.truths, named=file.named)


def flipped(rng, image):
    """A file of these kinds with a bit of any header flipped."""
    file = rng.choice((any_image, around))(rng, image)
    places = [at + more for truth in file.truths for at in truth.headers(file.data) for more in (0, truth.geometry.vid)]
    return with_flipped(rng, file, [at for at in places if at < len(file.data) - 64])


def written_twice(rng, image):
    """A chip that was written twice: the eraseblocks of a second image lie in place of the first ones of another image,
    or of any of them. The two have the same sizes, or others."""
    sizes = dumps.sizes_of(rng, SIZES)
    geometry, old = with_number(rng, *image({sizes: 1}))
    other, new = with_number(rng, *image({sizes: 1} if rng.random() < 0.6 else SIZES))
    if geometry.peb == other.peb and rng.random() < 0.4:
        blocks = [rng.choice(pair) for pair in zip(old, new)] + old[len(new) :] + new[len(old) :]
        return File(b"".join(blocks), *(Truth(of, 0, 0, len(blocks)) for of in (geometry, other)))
    # As many eraseblocks of the first image are erased or written as the second one has bytes.
    count = len(new)
    gone = min(len(old), -(-count * other.peb // geometry.peb))
    rest = File(b"".join(old[gone:]), Truth(geometry, 0, 0, len(old) - gone))
    file = whole(other, new).between(b"", dumps.BLANK * (-count * other.peb % geometry.peb))
    return rest.after(file)


def headers_in_volumes(rng, image):
    """An image with a volume that holds headers at any multiples of 64: its own ones, and those of other images."""
    geometry = Geometry(*dumps.sizes_of(rng, SIZES), 2**20)
    own = rng.randrange(1, 2**32)
    names = [rng.choice((own, 0, 5, own ^ 1)) for _ in range(rng.choice((1, 1, 2)))]
    offsets = rng.choice(((geometry.vid, geometry.data), (64, 128), (2048, 4096)))
    content = bytearray(rng.randbytes(geometry.leb * rng.randrange(1, 6)))
    for _ in range(rng.randrange(1, 6)):
        at = 64 * rng.randrange(len(content) // 64)
        content[at : at + 64] = rules.put_ec(Geometry(0, 0, *offsets, 0), 1, rng.choice(names))
    geometry, blocks = dumps.volume_of(rng, geometry, bytes(content))
    inner = [rules.put_ec(Geometry(0, 0, *offsets, 0), 1, name) for name in names]
    blocks = [dumps.renumbered(block, own) for block in blocks]
    inner = inner if offsets == (geometry.vid, geometry.data) else []
    return whole(geometry, blocks, dumps.may_be_joined(geometry, inner, geometry, own.to_bytes(4, "big")))


def bad_listed(rng, image):
    """An image with bad eraseblocks, with something around it or nothing."""
    file = rng.choice((dumps.some_bad, dumps.bad_and_junk, dumps.out_of_band_bad))(rng, image)
    return file


# How a file of each kind is made.
KINDS = {
    "something around": around,
    "something between": between,
    "cut at any byte": cut,
    "a bit of a header flipped": flipped,
    "a chip written twice": written_twice,
    "headers in volumes": headers_in_volumes,
    "bad eraseblocks that are listed": bad_listed,
}


def file_of(rng, k):
    """The file with a number, and its kind: every second one is of dumps.py."""
    kinds = list((dumps.KINDS if k % 2 == 0 else KINDS).items())
    name, make = kinds[k // 2 % len(kinds)]
    return name, make(rng, functools.partial(made, rng))


def without_page(lines):
    """The lines of `list` without the page, which no header names."""
    return b" ".join(word for word in lines.split(b" ") if not word.startswith(b"page="))


def found_in(data, start=0, length=None):
    """What is found in a part of a file, or None; what `geometry` prints; and the status."""
    try:
        found = answer(data, start, length)
    except Refused as refused:
        return None, f"refused {refused}\n", 1
    return found, "".join(found.lines()), 0


class Asker(Runner):
    """Runs the program on a file."""

    def __init__(self, rng, tool, folder):
        super().__init__(tool, folder, None)
        self.rng, self.volumes = rng, os.path.join(folder, "volumes")
        self.asked()

    def asked(self, *words):
        """What a command prints, its status, and what it writes. Without a command, what an earlier file left there is
        removed."""
        ran = subprocess.run([self.tool, *words], capture_output=True, close_fds=False) if words else None
        written = self.written(), taken(self.volumes)
        if not words:
            return None
        if complaints(ran.stderr, ran.stdout):
            raise Failure(f"{words} complains: {ran.stderr.decode()}")
        return ran.stdout, ran.returncode, written

    def expect_answer(self, words, right, what):
        """Runs a command, whose answer has to be the right one, that of WHAT."""
        said = self.asked(*words)
        if said != right:
            other = "" if said[2] == right[2] else ", and something else is written"
            raise Failure(f"{words} answers {said[:2]}, and {what} {right[:2]}{other}")

    def expect_line(self, words, line):
        """The same for a command that answers a line, refuses, and writes nothing."""
        self.expect_answer(words, (line.encode(), 1, (None, None)), "the right answer is")

    def commands(self, path, *others):
        """A command of each kind for a file."""
        rng, out = self.rng, ["--out", self.out]
        number = str(rng.choice((*self.ids, *self.ids, 0, 127)))
        block = str(rng.choice((0, 1, 2, rng.randrange(40), rng.randrange(99))))
        return (
            ["list", path],
            ["check", path],
            ["show", path, "--block", block],
            ["map", path, *rng.choice(([], out))],
            ["extract", path, "--id", number, *out],
            ["unpack", path, "--out", self.volumes],
            ["normalise", path, *out],
            ["same", path, *(others or [path])],
            ["diff", path, *(others or [path])],
        )

    def look_refused(self, path, part, line):
        """Checks that each command refuses a file with a line."""
        for words in self.commands(path):
            side = "left " if words[0] in ("same", "diff") else ""
            self.expect_line([*words, *part], side + line)

    def look_law(self, path, part, typed, more, count=9):
        """Checks that each command, or some of them, answers the same with no number as with the words of a
        geometry."""
        for words in self.rng.sample(self.commands(path), count):
            as_json = ["--format", "json"] if words[0] in ("list", "check", "same", "diff") else []
            words = [*words, *more, *(as_json if self.rng.random() < 0.1 else [])]
            self.expect_answer([*words, *part], self.asked(*words, *typed), f"with {' '.join(typed)}")

    def ids_of(self, path, typed):
        """The numbers of the volumes of an image."""
        lines = self.asked("list", path, *typed)[0].splitlines()
        return [int(line.split()[1]) for line in lines if line.startswith(b"volume ")]


class Case(Asker):
    """A file, and words for a part of it."""

    def __init__(self, rng, tool, folder, k):
        super().__init__(rng, tool, folder)
        self.kind, self.file = file_of(rng, k)
        self.path, self.ids = self.put("file", self.file.data), []
        self.start, self.length = self.some_part() if rng.random() < 0.2 else (None, None)

    def some_part(self):
        """Where a part begins, and its length, or None: whole eraseblocks of an image, or any bytes."""
        rng, count = self.rng, len(self.file.data)
        size = self.file.truths[0].size if self.file.truths and rng.random() < 0.7 else rng.choice((1, 64, 512))
        start = min(count, rng.choice((0, size * rng.randrange(1, 5), size * rng.randrange(count // size + 1))))
        rest = count - start
        return start, rng.choice((None, None, rest, size * rng.randrange(rest // size + 1)))

    def part(self):
        """The words for the part."""
        words = [] if self.start is None else ["--start", str(self.start)]
        return words + ([] if self.length is None else ["--length", str(self.length)])

    def is_all_of_file(self):
        """Whether the words for the part name none."""
        return not self.start and self.length is None

    def more(self):
        """Words that say more than the geometry: bad eraseblocks, and how many eraseblocks the device has."""
        rng, words = self.rng, []
        if rng.random() < 0.3 or self.kind == "bad eraseblocks that are listed":
            places = self.headless() if rng.random() < 0.5 else set(rng.sample(range(40), rng.randrange(4)))
            words += either(rng, "--bad", listing(rng, places, max(places, default=0) + 1))
        return words + (["--pebs", str(rng.choice((8, 20, 64, 2**20)))] if rng.random() < 0.2 else [])

    def headless(self):
        """The eraseblocks of the first image without a header."""
        for truth in self.file.truths[:1]:
            there = {(at - truth.start) // truth.size for at in truth.headers(self.file.data)}
            return set(range(min(truth.count, 200))) - there
        return set()

    def look(self):
        """Compares each answer. Returns what is found, in a word."""
        part, said = self.part(), (self.start or 0, self.length)
        found, text, status = found_in(self.file.data, *said)
        line = (text.encode(), status, (None, None))
        self.expect_answer(["geometry", self.path, *part], line, f"{self.kind}: the rule")
        judgement = dumps.judged(self.file, text, status) if self.start is None else "of a part"
        if judgement == "wrong" and not dumps.may_be_named(self.file, text):
            raise Failure(f"{self.kind}: the rule is wrong: {text.splitlines()[0]}, {dumps.fault(self.file, text)}")
        if status:
            self.look_refused(self.path, part, text)
            return judgement
        typed = found.geometries[0].line().split()
        if found.is_apart and self.is_all_of_file():
            self.look_refused(self.path, part, found.refusal())
            return "apart"
        self.ids, more = self.ids_of(self.path, typed), self.more()
        self.look_law(self.path, part, typed, more)
        if self.rng.random() < 0.3:
            self.look_changed(part, said, more)
        return judgement

    def look_changed(self, part, said, more):
        """Compares a file with a changed one, in either order."""
        other = self.put("other", self.changed())
        paths = self.rng.choice(((self.path, other), (other, self.path)))
        command = self.rng.choice(("same", "diff"))
        line, sides = self.sides(paths, said)
        if line:
            self.expect_line([command, *paths, *part, *more], line)
            return
        read = [self.put(f"read{k}", side.image(data)) for k, (side, data) in enumerate(sides)]
        g = sides[0][0].geometry
        sizes = ["--peb", str(g.peb), "--page", str(g.page), "--vid", str(g.vid), "--data", str(g.data)]
        right = self.asked(command, *read, *sizes, *more)
        self.expect_answer([command, *paths, *part, *more], right, f"for what is read with {sizes}")

    def changed(self):
        """The file with a byte changed, or with more bytes after it."""
        rng, raw = self.rng, bytearray(self.file.data)
        raw[rng.randrange(len(raw))] ^= 1 << rng.randrange(8)
        return bytes(raw) + (junk(rng, rng.randrange(3000)) if rng.random() < 0.3 else b"")

    def sides(self, paths, said):
        """What is found in two files, and their bytes; or the line that refuses them."""
        sides = []
        for side, path in zip(("left", "right"), paths):
            with open(path, "rb") as file:
                data = file.read()
            found, line, _ = found_in(data, *said)
            if found is None:
                return f"{side} {line}", None
            if found.is_apart and self.is_all_of_file():
                return f"{side} {found.refusal()}", None
            sides.append((found.geometries[0], data))
        names = ("peb", "page", "vid", "data")
        sizes = [" ".join(f"{name}={getattr(one.geometry, name)}" for name in names) for one, _ in sides]
        if sizes[0] != sizes[1]:
            return f"refused F9 Geometries left {sizes[0]} right {sizes[1]}\n", None
        return None, sides


class Flipped(Asker):
    """An image whose eraseblocks are all there, with a bit of an erase-counter header flipped."""

    def __init__(self, rng, tool, folder):
        super().__init__(rng, tool, folder)
        file = any_image(rng, functools.partial(made, rng))
        self.truth = file.truths[0]
        self.file = with_flipped(rng, file, self.truth.headers(file.data))
        before = rng.choice((b"", b"", dumps.boot_loader(rng), junk(rng, self.truth.size * rng.randrange(1, 4))))
        self.file = self.file.between(before, rng.choice((b"", b"", junk(rng, rng.randrange(9999)))))
        self.path = self.put("file", self.file.data)

    def typed(self):
        """The words of the true numbers: the image is every whole eraseblock on the grid."""
        g, truth = self.truth.geometry, self.file.truths[0]
        start = truth.start % truth.size
        length = (len(self.file.data) - start) // truth.size * truth.size
        sizes = f"--peb {g.peb} --page {g.page} --vid {g.vid} --data {g.data} --oob {truth.oob}"
        return [*sizes.split(), "--start", str(start), "--length", str(length)]

    def look(self):
        """Compares the answers without a number and with the true ones. Returns whether the file is read, in a word."""
        typed = self.typed()
        said, right = self.asked("list", self.path), self.asked("list", self.path, *typed)
        if said[1] and said[0].startswith(b"refused F"):
            return "refused"
        if (without_page(said[0]), said[1]) != (without_page(right[0]), right[1]):
            raise Failure(f"list answers {said[:2]}, and {right[:2]} with {' '.join(typed)}")
        for number in self.ids_of(self.path, typed):
            words = ["extract", self.path, "--id", str(number), "--out", self.out]
            self.expect_answer(words, self.asked(*words, *typed), f"with {' '.join(typed)}")
        return "read"


class Two(Asker):
    """Two images in one file, whose headers are all there."""

    def __init__(self, rng, tool, folder):
        super().__init__(rng, tool, folder)
        sizes, number = dumps.sizes_of(rng, SIZES), rng.randrange(1, 2**32)
        alike = rng.random() < 0.6
        first = self.image({sizes: 1}, number)
        second = self.image({sizes: 1} if alike else SIZES, number ^ 1 << rng.randrange(32))
        before, after = (junk(rng, rng.choice((0, 0, 64 * rng.randrange(200)))) for _ in range(2))
        size = second.truths[0].size
        gap = junk(rng, rng.choice((0, size * rng.randrange(5), 64 * rng.randrange(400))))
        self.file, self.ids = second.after(first.between(before, gap)).between(b"", after), []
        self.path = self.put("file", self.file.data)

    def image(self, weights, number):
        """An image under a number, with out-of-band bytes or without; each of its eraseblocks starts with a header."""
        rng = self.rng
        with_more = rng.random() < 0.2 and len(weights) > 1
        while True:
            geometry, blocks = made(rng, SIZES_WITH_MORE if with_more else weights)
            blocks = [dumps.renumbered(block, number) for block in blocks if block.startswith(b"UBI#")]
            if len(blocks) > 2:
                break
        return dumps.with_more(rng, geometry, blocks, "code") if with_more else whole(geometry, blocks)

    def spans(self):
        """Where each image lies, from its first header to the end of its last eraseblock."""
        return [(truth.start, truth.count * truth.size) for truth in self.file.truths]

    def look(self):
        """Compares each answer. Returns what was found, in a word."""
        found, text, status = found_in(self.file.data)
        self.expect_answer(["geometry", self.path], (text.encode(), status, (None, None)), "the rule")
        if status:
            self.look_refused(self.path, [], text)
            return "refused"
        if not found.spans and self.is_at_fault():
            return "hidden"
        expect(found.spans == self.spans(), f"it tells {found.spans} and not {self.spans()}")
        typed = found.geometries[0].line().split()
        if found.is_apart:
            self.look_refused(self.path, [], found.refusal())
        else:
            self.look_law(self.path, [], typed, [])
        read = [self.look_part(truth, *span) for truth, span in zip(self.file.truths, self.spans())]
        return ("apart" if found.is_apart else "kin") if all(read) else "a part refused"

    def is_at_fault(self):
        """Whether the eraseblocks of one image are members in the other with a header at fault, or with another number:
        then its headers don't stand apart by docs/FORMAT.md, and `geometry` doesn't tell it, but no image is read."""
        lines, status, _ = self.asked("list", self.path)
        is_refused = lines.startswith(b"refused S4 ") or lines.startswith(b"refused S3 Ec ") and lines.endswith(b" Offsets\n")
        return status == 1 and is_refused

    def look_part(self, truth, start, length):
        """Compares the answers for the part in which an image lies with those for the image alone. Returns whether it
        is read."""
        part = ["--start", str(start), "--length", str(length)]
        found, text, status = found_in(self.file.data, start, length)
        self.expect_answer(["geometry", self.path, *part], (text.encode(), status, (None, None)), "the rule")
        if status:
            self.look_refused(self.path, part, text)
            return False
        found = found.geometries[0]
        g, t = found.geometry, truth.geometry
        right = ((t.peb, t.vid, t.data), truth.oob, start, length)
        expect(((g.peb, g.vid, g.data), found.oob, found.start, found.length) == right, f"{text} isn't true")
        alone = rules.seen(g, self.file.data[start : start + length], 0, None, found.oob)
        try:
            image = Image(g, found.image(self.file.data))
        except Refused as refused:
            line = f"refused {refused}\n"
            for command in ("list", "check"):
                self.expect_line([command, self.path, *part], line)
            return True
        expect(image.meaning() == Image(g, alone).meaning(), "the image alone means something else")
        normal = rules.normal_image(image)
        for words, lines, written in (
            (["list"], "".join(rules.list_lines(image)), None),
            (["check"], "".join(rules.check_lines(image)), None),
            (["normalise", "--out", self.out], f"blocks {len(normal) // g.peb}\n", normal),
        ):
            right = (lines.encode(), 0, (written, None))
            self.expect_answer([words[0], self.path, *words[1:], *part], right, "the rule")
        self.ids = list(image.records)
        self.look_law(self.path, part, found.line().split(), [], 3)
        return True


def main():
    words = options(__doc__, 1000, flipped=100, pairs=200)
    tool, numbers = built(words.tool), iter(range(words.first, words.first + words.count))
    answers, failed = run_cases(words, {
        "": (lambda rng, folder: ("files", Case(rng, tool, folder, next(numbers)).look()), words.count),
        "flipped ": (lambda rng, folder: ("flipped", Flipped(rng, tool, folder).look()), words.flipped),
        "pair ": (lambda rng, folder: ("pairs", Two(rng, tool, folder).look()), words.pairs),
    })
    for kind in ("files", "flipped", "pairs"):
        counts = collections.Counter(judgement for of, judgement in answers if of == kind)
        print(f"{kind}:", ", ".join(f"{count} {judgement}" for judgement, count in sorted(counts.items())))
    finish(len(answers), failed)


if __name__ == "__main__":
    main()
