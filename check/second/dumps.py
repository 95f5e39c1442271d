#!/usr/bin/env python3
"""Makes files whose truth is known: images of many geometries, with anything around them, damaged, cut, one in another,
with out-of-band bytes; and judges what check/second/geometry.py finds in them.

usage: dumps.py [--seed N ..] [--count N] [--first N] [--ubinize] [--wrong] [--kind KIND]

An image is one of fuzz.py's Maker, or one as ubinize writes it or a kernel leaves it; with --ubinize it is one of
ubinize itself, which needs mtd-utils. The kinds of files are those of KINDS below, in turn, or one of ALL (--kind). An
answer is right if the sizes, the offsets and the out-of-band bytes are the true ones, the true page is among the pages,
and the place is every whole eraseblock of the file on the grid of the image's eraseblocks, and holds each of them that
starts with a header. A file whose image has only one such eraseblock, or that holds no image, has to be refused. A
wrong answer is *named* if docs/FORMAT.md says that it may be given, and otherwise *other*.

By default there are 2,000 files (--count) of the seed 1 (--seed). It prints for each kind how many are right, wrong and
refused, how many of them have several images that are apart, and each wrong answer with its number, with which --first
makes it again (--wrong prints no table). It ends with status 1 if one is wrong that isn't named.
"""
import argparse
import collections
import dataclasses
import functools
import itertools
import os
import random
import re
import subprocess
import sys
import tempfile

import rules
from fuzz import Maker, renumbered
from geometry import NoSize, answer, printed
from rules import LAYOUT, Geometry, Record, Refused, Vid

# The sizes of an eraseblock and of a page, the offsets, and how often they are taken.
SIZES = {
    (512, 64, 64, 128): 12,
    (1024, 256, 64, 256): 8,
    (1024, 256, 320, 512): 8,
    (2048, 512, 512, 1024): 8,
    (576, 64, 64, 128): 3,
    (704, 64, 64, 128): 3,
    (6144, 512, 512, 1024): 3,
    (16384, 512, 512, 1024): 5,
    (16384, 2048, 64, 2048): 3,
    (16384, 2048, 1984, 2048): 3,
    (32768, 2048, 2048, 4096): 3,
    (65536, 4096, 4096, 8192): 2,
    (131072, 2048, 512, 2048): 1,
    (131072, 2048, 2048, 4096): 1,
    (262144, 16384, 16384, 32768): 0.5,
}
# The same for eraseblocks of 16 pages or more, and how many out-of-band bytes a page has.
SIZES_WITH_MORE = {
    (16384, 512, 512, 1024): 8,
    (8192, 512, 64, 512): 8,
    (32768, 2048, 2048, 4096): 6,
    (32768, 2048, 512, 2048): 4,
    (32768, 2048, 1024, 2048): 4,
    (65536, 4096, 4096, 8192): 4,
    (131072, 2048, 512, 2048): 1,
    (131072, 2048, 2048, 4096): 1,
    (131072, 8192, 8192, 16384): 1.5,
    (262144, 4096, 4096, 8192): 0.5,
}
OUT_OF_BAND = {512: (16,), 2048: (64, 112, 128), 4096: (128, 218, 224, 232), 8192: (448, 744)}
OF_WRITTEN = ("random written", "code written")
BLANK, ZERO = b"\xFF", b"\0"


# Images.


def sizes_of(rng, weights):
    return rng.choices(list(weights), list(weights.values()))[0]


class Dump(Maker):
    """Makes an image as ubinize writes it, or as it lies on a chip after a kernel has used it."""

    def __init__(self, rng, sizes):
        self.is_used = rng.random() < 0.5
        super().__init__(rng, sizes)
        if not self.is_used:
            self.blocks = self.as_written
        elif rng.random() < 0.7:
            # Most tables lie where they were first written.
            self.blocks = self.as_written[:2] + [block for block in self.blocks if block not in self.as_written[:2]]

    def numbered(self, *kinds):
        number = self.rng.randrange(1, 2**32)
        self.as_written = [renumbered(block, number) for blocks in kinds for block in blocks]
        return list(self.as_written)

    def tables(self):
        table = rules.put_table(self.geometry, self.records)
        return [self.block(Vid(1, 0, 5, LAYOUT, copy, 0, 0, 0, 0, self.sqnum()), table) for copy in range(2)]

    def others(self):
        if not self.is_used:
            return []
        kinds = (self.free,) * 12 + (self.erased, self.garbage, self.orphan)
        return [self.rng.choice(kinds)() for _ in range(self.rng.randrange(12))]


CONFIG = """[volume{0}]
mode=ubi
vol_id={0}
vol_name=volume{0}
vol_type={1}
vol_size={2}
image={3}
"""


class Ubinized:
    """Makes an image with ubinize, which has to be installed."""

    def __init__(self, rng, sizes):
        peb, page, vid, data = rng.choice(sizes)
        self.geometry = Geometry(peb, page, vid, data, 2**20)
        with tempfile.TemporaryDirectory() as folder:
            config, out = os.path.join(folder, "config"), os.path.join(folder, "out")
            with open(config, "w", encoding="ascii") as file:
                file.writelines(self.sections(rng, folder))
            sizes = ["-p", str(peb), "-m", str(page), "-s", str(min(page, 512)), "-O", str(vid)]
            number = ["-Q", str(rng.randrange(1, 2**31))]
            subprocess.run(["ubinize", "-o", out, *sizes, *number, config], check=True, capture_output=True)
            with open(out, "rb") as file:
                image = file.read()
        self.blocks = [image[at : at + peb] for at in range(0, len(image), peb)]

    def sections(self, rng, folder):
        leb = self.geometry.leb
        for number in range(rng.choice((1, 1, 2, 3, 5))):
            path = os.path.join(folder, f"of{number}")
            size = rng.choice((1, leb // 3, leb, rng.randrange(1, 4 * leb)))
            with open(path, "wb") as file:
                file.write(rng.randbytes(size))
            yield CONFIG.format(number, rng.choice(("static", "dynamic")), size + rng.choice((0, leb, 2 * leb)), path)


def is_ubinized(peb, page, vid, data):
    """Whether ubinize makes images of these sizes."""
    return page >= 512 and vid >= 512


def made(rng, weights, makers):
    """An image: its geometry and its eraseblocks."""
    maker = rng.choice(makers)
    if maker is Ubinized:
        weights = {sizes: often for sizes, often in weights.items() if is_ubinized(*sizes)}
        weights = weights or {(16384, 512, 512, 1024): 1}
    image = maker(rng, (sizes_of(rng, weights),))
    return image.geometry, image.blocks


# What is known about a file.


@dataclasses.dataclass(frozen=True)
class Truth:
    """An image in a file: its geometry, the number of out-of-band bytes of a page, where its first eraseblock lies, and
    how many eraseblocks it has."""

    geometry: Geometry
    oob: int
    start: int
    count: int

    @property
    def size(self):
        """The bytes of an eraseblock in the file."""
        return self.geometry.peb // self.geometry.page * (self.geometry.page + self.oob)

    def headers(self, file):
        """Where in the file those of its eraseblocks lie that start with a header."""
        places = range(self.start, self.start + self.count * self.size, self.size)
        inside = (at for at in places if 0 <= at <= len(file) - 64)
        return [at for at in inside if rules.read_ec(self.geometry, file[at : at + 64])[0] == "valid"]

    def moved(self, more):
        return dataclasses.replace(self, start=self.start + more)


class File:
    """Some bytes, and the images in them, any of which may be found; and the wrong answers that docs/FORMAT.md allows:
    pairs of a name and a test of a line of the answer, as numbers."""

    def __init__(self, data, *truths, named=()):
        self.data, self.truths, self.named = data, truths, named

    def after(self, other):
        """The same after another file."""
        truths = (truth.moved(len(other.data)) for truth in self.truths)
        return File(other.data + self.data, *other.truths, *truths, named=(*other.named, *self.named))

    def between(self, before, after):
        """The same with bytes before and after it."""
        return File(after).after(self.after(File(before)))


def whole(geometry, blocks, named=()):
    return File(b"".join(blocks), Truth(geometry, 0, 0, len(blocks)), named=named)


LINE = re.compile(
    r"--peb (\d+) --page (\d+) --vid (\d+) --data (\d+)"
    r"(?: --oob (\d+))?(?: --start (\d+) --length (\d+))?\n")
SPAN = re.compile(r"--start (\d+) --length (\d+)\n")


def is_true(file, truth, answer):
    """Whether the answer for some bytes, its lines as numbers, is true of an image in them."""
    g, (peb, page, vid, data, oob, start, length) = truth.geometry, answer[0]
    places = truth.headers(file)
    return ((peb // page * (page + oob), vid, data) == (truth.size, g.vid, g.data)
        and (g.page, truth.oob) in [(line[1], line[4]) for line in answer]
        and start == truth.start % truth.size and length == (len(file) - start) // truth.size * truth.size
        and len(places) > 1 and places[-1] + truth.size <= start + length
        and (g.peb, truth.oob) in [(line[0], line[4]) for line in answer if line[1] == g.page])


def numbers_of(file, text):
    """The numbers of the lines of an answer, but for those of spans, which come last; None if a line isn't right."""
    lines = text.splitlines(True)
    while lines and SPAN.fullmatch(lines[-1]):
        lines.pop()
    lines = [LINE.fullmatch(line) for line in lines]
    if not lines or None in lines:
        return None
    rests = ((int(line[5] or 0), int(line[6] or 0), int(line[7] or len(file))) for line in lines)
    return [(*map(int, line.groups()[:4]), *rest) for line, rest in zip(lines, rests)]


def judged(file, text, status):
    """Whether an answer for a file is right, wrong or refused."""
    if status == 1 and text.startswith("refused F") and text.count("\n") == 1:
        return "refused"
    answer = numbers_of(file.data, text) if status == 0 else None
    return "right" if answer and any(is_true(file.data, truth, answer) for truth in file.truths) else "wrong"


# Bytes that are no image.


def junk(rng, size):
    """Bytes that are all random, all zero or all 0xFF."""
    return rng.choice((rng.randbytes(size), ZERO * size, BLANK * size))


def boot_loader(rng):
    return rng.randbytes(512 * rng.randrange(1, 129))


def bad_block(rng, size):
    """A bad eraseblock."""
    return junk(rng, size)


def header(rng, offsets=(64, 128)):
    """A header that stands alone."""
    return rules.put_ec(Geometry(0, 0, *offsets, 0), rng.randrange(1000), rng.randrange(1, 2**32))


# Kinds of files. Each is made from random numbers and a function that makes an image for some weights of sizes.


def as_it_is(rng, image):
    return whole(*image(SIZES))


def junk_after(byte, rng, image):
    file = whole(*image(SIZES))
    size = len(file.data) if rng.random() < 0.7 else rng.randrange(1, 2 * len(file.data) + 2)
    return file.between(b"", byte * size if byte else rng.randbytes(size))


def junk_before(byte, rng, image):
    file = whole(*image(SIZES))
    size = len(file.data)
    return file.between(byte * size if byte else rng.randbytes(size), b"")


def loader_before(rng, image):
    return whole(*image(SIZES)).between(boot_loader(rng), b"")


def loader_and_junk(rng, image):
    file = whole(*image(SIZES))
    return file.between(boot_loader(rng), junk(rng, rng.randrange(2 * len(file.data) + 2)))


def at_any_64(rng, image):
    """An image at a multiple of 64 that isn't one of 512."""
    file = whole(*image(SIZES))
    before = junk(rng, 64 * (8 * rng.randrange(99) + rng.randrange(1, 8)))
    return file.between(before, junk(rng, rng.randrange(len(file.data) + 2)))


def at_any_byte(rng, image):
    """An image at no multiple of 64."""
    return whole(*image(SIZES)).between(junk(rng, 64 * rng.randrange(99) + rng.randrange(1, 64)), b"")


def with_number(rng, geometry, blocks):
    """The same image, with one number in all headers."""
    number = rng.randrange(1, 2**32)
    return geometry, [renumbered(block, number) for block in blocks]


def two_images(rng, image):
    first, second = (whole(*with_number(rng, *image(SIZES))) for _ in range(2))
    return second.after(first)


def two_images_apart(rng, image):
    first, second = (whole(*with_number(rng, *image(SIZES))) for _ in range(2))
    return second.after(first.between(b"", junk(rng, 64 * rng.randrange(1, 2000))))


def two_of_one_size(rng, image):
    """Two images of the same sizes and of different numbers, with or without a gap of any multiple of 64."""
    sizes = sizes_of(rng, SIZES)
    first, second = (whole(*with_number(rng, *image({sizes: 1}))) for _ in range(2))
    return second.after(first.between(b"", junk(rng, 64 * rng.choice((0, rng.randrange(2000))))))


def two_without_number(rng, image):
    """Two images of the same sizes whose headers count as one image, since they have no numbers or one has none; both
    may lie on one grid."""
    sizes = sizes_of(rng, SIZES)
    first, second = (image({sizes: 1}) for _ in range(2))
    first = (first[0], [renumbered(block, 0) for block in first[1]])
    gap = junk(rng, sizes[0] * rng.choice((0, rng.randrange(5))) + 64 * rng.choice((0, 0, 1)))
    return with_both(whole(*second).after(whole(*first).between(b"", gap)))


def two_off_grid(rng, image):
    """Two images of the same sizes and number, or without one. The second mostly doesn't lie on the grid of the first:
    there is a gap, or the first is cut within its last eraseblock, often in the middle of it."""
    sizes = sizes_of(rng, SIZES)
    number, how = rng.choice((0, 5)), rng.choice(("gap", "cut", "half"))
    images = (image({sizes: 1}) for _ in range(2))
    first, second = (whole(geometry, [renumbered(block, number) for block in blocks]) for geometry, blocks in images)
    if how == "gap":
        return with_both(second.after(first.between(b"", junk(rng, 64 * rng.randrange(1, 400)))))
    lost = sizes[0] // 2 if how == "half" else 64 * rng.randrange(1, sizes[0] // 64)
    is_first_part = functools.partial(is_part, first.truths[0].geometry)
    first = File(first.data[: max(0, len(first.data) - lost)], *first.truths)
    both = second.after(first)
    return File(both.data, *both.truths, named=(("two images of one number, the first cut", is_first_part),))


def one_twice(rng, image):
    file = whole(*image(SIZES))
    return with_both(file.after(file.between(b"", junk(rng, file.truths[0].size * rng.choice((0, 0, 1, 3))))))


def with_both(file):
    """A file of two images, which may be found as one if the second lies on the grid of the first."""
    first, second = file.truths
    between = second.start - first.start
    if between % first.size:
        return file
    return File(file.data, first, second, dataclasses.replace(first, count=between // first.size + second.count))


def volume_of(rng, geometry, content):
    """The eraseblocks of an image with a volume that holds some bytes; the volume is dynamic, or static."""
    leb, number = geometry.leb, rng.randrange(1, 2**32)
    shares = [content[at : at + leb] for at in range(0, len(content), leb)]
    kind, is_used = rng.choice((1, 2)), rng.random() < 0.5
    table = rules.put_table(geometry, {0: Record(len(shares), 1, kind, 0, b"inner", 0)})
    parts = [(Vid(1, 0, 5, LAYOUT, copy, 0, 0, 0, 0, 0), table) for copy in range(2)]
    for lnum, share in enumerate(shares):
        of_static = (len(share), len(shares), 0, rules.crc(share))
        parts.append((Vid(kind, 0, 0, 0, lnum, *(of_static if kind == 2 else (0, 0, 0, 0)), lnum + 1), share))
    if is_used:
        rng.shuffle(parts)
    ec = rules.put_ec(geometry, rng.randrange(1000), number)
    blocks = [rules.put_block(geometry, ec, rules.put_vid(vid), data) for vid, data in parts]
    return geometry, blocks + [rules.put_block(geometry, ec) for _ in range(rng.randrange(4) if is_used else 0)]


INNER_SIZES = {sizes: often for sizes, often in SIZES.items() if sizes[0] <= 32768}


def has_offsets(geometry, line):
    return line[2:4] == (geometry.vid, geometry.data)


def is_part(geometry, line):
    """Whether a line gives eraseblocks that are parts of those of an image, with its offsets."""
    peb, page, _, _, oob, *_ = line
    return has_offsets(geometry, line) and geometry.peb % (peb // page * (page + oob)) == 0


def is_cut_up(geometry, line):
    """Whether a line gives an image in a volume of another, with larger eraseblocks or with out-of-band bytes, since
    the LEBs of the other cut it up."""
    peb, page, _, _, oob, *_ = line
    return has_offsets(geometry, line) and peb // page * (page + oob) >= geometry.peb


def may_be_joined(geometry, blocks, outer, number=None):
    """The wrong answers that are allowed for an image in a volume of another which has all its headers, if both name
    the same offsets, and a header of one of them names no number, or both the same: a part of the outer eraseblocks, or
    the inner image. The number is that of the outer headers."""
    numbers = {block[24:28] for block in blocks if block[:4] == b"UBI#"}
    if (geometry.vid, geometry.data) != (outer.vid, outer.data) or not numbers:
        return ()
    if number != bytes(4) and not numbers & {bytes(4), number}:
        return ()
    which = "in one of the same offsets, one without number or both of the same"
    return ((f"headers {which}", functools.partial(is_part, outer)),
        (f"an image {which}", functools.partial(is_cut_up, geometry)))


def with_junk(rng, content):
    """Some bytes, as they are or with others around them."""
    if rng.random() < 0.5:
        return content
    return rng.randbytes(64 * rng.randrange(99)) + content + junk(rng, rng.randrange(999))


def outer_of(rng, size):
    """The geometry of an image with a volume that holds so many bytes."""
    weights = {sizes: often + 1 for sizes, often in SIZES.items() if size // sizes[0] < 200}
    return Geometry(*sizes_of(rng, weights), 2**20)


def in_another(rng, image):
    geometry, blocks = image(INNER_SIZES)
    content = b"".join(blocks)
    outer = outer_of(rng, len(content))
    return whole(*volume_of(rng, outer, with_junk(rng, content)), may_be_joined(geometry, blocks, outer))


def in_another_lost(rng, image):
    """An image in a volume of another that has lost nearly all its headers; now and then each LEB of that holds an
    eraseblock of the inner one."""
    geometry, blocks = image(INNER_SIZES)
    content, pages = b"".join(blocks), [page for page in (128, 256, 512, 1024, 2048) if geometry.peb % page == 0]
    if pages and rng.random() < 0.5:
        page = rng.choice(pages)
        outer = Geometry(geometry.peb + page, page, 64, page, 2**20)
    else:
        outer, content = outer_of(rng, len(content)), with_junk(rng, content)
    outer, blocks = volume_of(rng, outer, content)
    left = rng.sample(range(len(blocks)), rng.choice((0, 0, 1, 2) if len(blocks) > 8 else (0, 1)))
    lost = rng.choice((ZERO * 64, BLANK * 64, rng.randbytes(64)))
    blocks = [block if p in left else lost + block[64:] for p, block in enumerate(blocks)]
    which = "an image in one that has lost nearly all headers"
    return whole(outer, blocks, (
        (which, functools.partial(is_inner, geometry)),
        (f"{which}, with larger eraseblocks", functools.partial(has_offsets, geometry)),
    ))


def is_inner(geometry, line):
    """Whether a line gives an image, or what looks like one with its offsets and with out-of-band bytes."""
    peb, *_, oob, _, _ = line
    return has_offsets(geometry, line) and (oob > 0 or peb == geometry.peb)


def in_itself(rng, image):
    """An image in a volume of one of the same sizes and, now and then, the same number."""
    geometry, blocks = image(INNER_SIZES)
    geometry, outer = volume_of(rng, geometry, b"".join(blocks))
    if rng.random() < 0.5:
        number = int.from_bytes(next((block[24:28] for block in blocks if block.startswith(b"UBI#")), ZERO * 4), "big")
        outer = [renumbered(block, number) for block in outer]
    named = may_be_joined(geometry, blocks, geometry, outer[0][24:28])
    return whole(geometry, outer, named).between(b"", junk(rng, rng.choice((0, 0, rng.randrange(geometry.peb)))))


def in_one_without_number(rng, image):
    """An image in a volume of one of the same sizes whose headers name no number, with or without junk after it."""
    geometry, blocks = image(INNER_SIZES)
    named = may_be_joined(geometry, blocks, geometry, bytes(4))
    _, outer = volume_of(rng, geometry, b"".join(blocks))
    file = whole(geometry, [renumbered(block, 0) for block in outer], named)
    return file.between(b"", junk(rng, rng.choice((0, 0, 0, rng.randrange(geometry.peb)))))


def with_bad(rng, geometry, blocks, count):
    """An image with so many bad eraseblocks."""
    blocks = list(blocks)
    for p in rng.sample(range(len(blocks)), min(count, len(blocks))):
        blocks[p] = bad_block(rng, geometry.peb)
    return geometry, blocks


def some_bad(rng, image):
    return whole(*with_bad(rng, *image(SIZES), rng.choice((1, 2, 3))))


def one_bad(rng, image):
    return whole(*with_bad(rng, *image(SIZES), 1))


def bad_and_junk(rng, image):
    file = whole(*with_bad(rng, *image(SIZES), rng.choice((1, 2, 3))))
    return file.between(boot_loader(rng), junk(rng, rng.randrange(2 * len(file.data) + 2)))


def with_blank(rng, image):
    """An image with blank eraseblocks among the others, as many as a third of them."""
    geometry, blocks = image(SIZES)
    blocks = list(blocks)
    for _ in range(rng.randrange(1, len(blocks) // 2 + 2)):
        blocks.insert(rng.randrange(len(blocks) + 1), BLANK * geometry.peb)
    return whole(geometry, blocks)


def second_and_fourth_blank(rng, image):
    """An image with a blank eraseblock after each of the first two, and after these the two copies of the table, two
    apart."""
    geometry, blocks = image(SIZES)
    layout, free = LAYOUT.to_bytes(4, "big"), rules.put_block(geometry, rules.put_ec(geometry))
    tables = [block for block in blocks if block[geometry.vid + 8 : geometry.vid + 12] == layout]
    others = [block for block in blocks if block not in tables]
    first, second, third, fourth, *rest = (renumbered(block, 7) for block in others + [free] * 4)
    one, two = (renumbered(block, 7) for block in (tables + [free] * 2)[:2])
    blank = BLANK * geometry.peb
    blocks = [first, blank, second, blank, one, third, two, fourth, *rest]
    return whole(geometry, blocks + [blank] * rng.choice((0, len(blocks) % 2)))


def most_bad(rng, image):
    """An image in which every second eraseblock is bad, or two of three."""
    geometry, blocks = image(SIZES)
    how, step = rng.choice((ZERO, BLANK, None)), rng.choice((2, 2, 3))
    kept = rng.randrange(step)
    bad = (how * geometry.peb if how else bad_block(rng, geometry.peb) for _ in blocks)
    both = enumerate(zip(blocks, bad))
    return whole(geometry, [block if p % step == kept else other for p, (block, other) in both])


def most_random(rng, image):
    """An image in which most eraseblocks are random bytes: after each that is left come one to four that are lost, the
    last of which may be blank."""
    geometry, blocks = image(SIZES)
    lost, found = rng.randrange(1, 5), []
    for block in blocks:
        last = rng.choice((BLANK * geometry.peb, rng.randbytes(geometry.peb)))
        found += [block, *(rng.randbytes(geometry.peb) for _ in range(lost - 1)), last]
    return whole(geometry, found)


def cut(rng, image):
    file = whole(*image(SIZES))
    return File(file.data[: rng.randrange(len(file.data) + 1)], *file.truths)


def cut_before(rng, image):
    """An image that has lost its first bytes, any multiple of 64."""
    file = whole(*image(SIZES))
    lost = 64 * rng.randrange(len(file.data) // 64 + 1)
    return File(file.data[lost:], *(truth.moved(-lost) for truth in file.truths))


def with_more(rng, geometry, blocks, how, numbers=()):
    """The file of an image with out-of-band bytes: random ones or a code, for each page or only for those that aren't
    blank. The number of them per page is one of NUMBERS, or one that makes the eraseblock a multiple of 64."""
    page, count = geometry.page, geometry.peb // geometry.page
    oob = rng.choice(numbers or [number for number in OUT_OF_BAND[page] if count * number % 64 == 0])
    code = min(oob, rng.choice((3, 6, 12)))

    def of_page(data):
        if how.endswith("written") and rules.is_blank(data):
            return BLANK * oob
        return rng.randbytes(oob) if how.startswith("random") else BLANK * (oob - code) + rng.randbytes(code)

    image = b"".join(blocks)
    pages = (image[at : at + page] for at in range(0, len(image), page))
    return File(b"".join(data + of_page(data) for data in pages), Truth(geometry, oob, 0, len(blocks)))


def out_of_band_odd(rng, image):
    """An image with out-of-band bytes whose eraseblocks, 16 pages of 4096 and 218 bytes, are no multiple of 64."""
    return with_more(rng, *image({(65536, 4096, 4096, 8192): 1}), rng.choice(OF_WRITTEN), (218,))


def out_of_band_odd_lost(rng, image):
    """The same with lost eraseblocks: every second one or two of three of those whose headers are at a multiple of 64,
    and all others."""
    file = out_of_band_odd(rng, image)
    raw, size, step = bytearray(file.data), file.truths[0].size, rng.choice((4, 4, 6))
    for p in range(file.truths[0].count):
        if p % step:
            raw[p * size : (p + 1) * size] = junk(rng, size)
    return File(bytes(raw), *file.truths)


def out_of_band(how, rng, image):
    return with_more(rng, *image(SIZES_WITH_MORE), how)


def out_of_band_after(is_first, rng, image):
    """A dump with all out-of-band bytes of an eraseblock after its last page, and the VID header in the first page, or
    after it."""
    weights = {sizes: often for sizes, often in SIZES_WITH_MORE.items() if (sizes[2] < sizes[1]) == is_first}
    file = with_more(rng, *image(weights), rng.choice(OF_WRITTEN))
    truth, g = file.truths[0], file.truths[0].geometry
    step, data = g.page + truth.oob, b""
    for start in range(0, len(file.data), truth.size):
        places = range(start, start + truth.size, step)
        data += b"".join(file.data[at : at + g.page] for at in places)
        data += b"".join(file.data[at + g.page : at + step] for at in places)

    def as_one(line):
        """Whether a line gives eraseblocks of the size with out-of-band bytes: pages of the true size or twice that
        with some after each, or without them."""
        peb, page, _, _, oob, *_ = line
        is_such = page in ((g.page, 2 * g.page) if g.vid < g.page else (2 * g.page,)) if oob else peb == truth.size
        return has_offsets(g, line) and peb // page * (page + oob) == truth.size and is_such

    return File(data, named=(("out-of-band bytes after the last page", as_one),))


def out_of_band_bad(rng, image):
    return with_more(rng, *with_bad(rng, *image(SIZES_WITH_MORE), rng.choice((1, 2, 3))), rng.choice(OF_WRITTEN))


def out_of_band_junk(rng, image):
    file = with_more(rng, *image(SIZES_WITH_MORE), rng.choice(OF_WRITTEN))
    return file.between(boot_loader(rng), junk(rng, rng.randrange(2 * len(file.data) + 2)))


def out_of_band_cut(rng, image):
    file = with_more(rng, *image(SIZES_WITH_MORE), rng.choice(OF_WRITTEN))
    return File(file.data[: rng.randrange(len(file.data) + 1)], *file.truths)


def full_blocks(rng, geometry, how):
    """Eraseblocks without a VID header, all full except one, so that no part of one could be the size."""
    size = geometry.leb
    parts = [rng.randbytes(size) for _ in range(rng.randrange(3, 7))]
    parts.append(rng.randbytes(size * 3 // 4 // geometry.page * geometry.page))
    ec = rules.put_ec(geometry, 3, rng.randrange(1, 2**32))
    return [rules.put_block(geometry, ec, how, part) for part in rng.sample(parts, len(parts))]


def out_of_band_unsaid(rng, image):
    """Eraseblocks with out-of-band bytes, without a VID header that would show how many these are."""
    geometry = Geometry(*sizes_of(rng, SIZES_WITH_MORE), 2**20)
    return with_more(rng, geometry, full_blocks(rng, geometry, bytes(64)), rng.choice(OF_WRITTEN))


def no_page(rng, image):
    """An image whose data begin where Linux puts them for no size of a page, so Linux can't read it."""
    vid, data = rng.choice(((64, 192), (64, 320), (128, 320), (512, 2112), (2048, 2240)))
    geometry = Geometry(rng.choice((4096, 16384, 65536)), 64, vid, data, 2**20)
    tables = [rules.put_vid(Vid(1, 0, 5, LAYOUT, copy, 0, 0, 0, 0, 0)) for copy in range(2)]
    ec, table = rules.put_ec(geometry, 3, rng.randrange(1, 2**32)), rules.put_table(geometry, {})
    blocks = [rules.put_block(geometry, ec, vid, table) for vid in tables] + full_blocks(rng, geometry, b"")
    return File(b"".join(blocks)).between(boot_loader(rng), b"")


def no_number(rng, image):
    geometry, blocks = image(SIZES)
    return whole(geometry, [renumbered(block, 0) for block in blocks])


def half_numbers(rng, image):
    geometry, blocks = with_number(rng, *image(SIZES))
    file = whole(geometry, [renumbered(block, 0) if rng.random() < 0.5 else block for block in blocks])
    return file.between(rng.choice((b"", boot_loader(rng))), b"")


def one_header(rng, image):
    """An image in which only one eraseblock has a header, or only a header, with anything around it."""
    geometry, blocks = image(SIZES)
    starts = [p for p, block in enumerate(blocks) if block.startswith(b"UBI#")]
    keep = rng.choice(starts) if starts else None
    blocks = [block if p == keep else bad_block(rng, geometry.peb) for p, block in enumerate(blocks)]
    alone = File(header(rng)).between(junk(rng, 64 * rng.randrange(99)), junk(rng, rng.randrange(9999)))
    return rng.choice((whole(geometry, blocks), whole(geometry, blocks[keep or 0 :]), alone))


def stray_before(rng, image):
    file = whole(*image(SIZES))
    g = file.truths[0].geometry
    offsets = rng.choice(((g.vid, g.data), (64, 128), (2048, 4096)))
    return file.between(header(rng, offsets) + junk(rng, 64 * rng.randrange(500)), b"")


def stray_after(rng, image):
    file = whole(*image(SIZES))
    g = file.truths[0].geometry
    offsets = rng.choice(((g.vid, g.data), (64, 128), (2048, 4096)))
    before, gap = boot_loader(rng), junk(rng, 64 * rng.randrange(500))
    return file.between(before, gap + header(rng, offsets) + junk(rng, rng.randrange(2000)))


def stray_alone(rng, image):
    """Two or three headers of one image in bytes that are no image."""
    g = Geometry(*sizes_of(rng, SIZES), 2**20)
    ec = rules.put_ec(g, 7, rng.choice((0, 5)))
    return File(b"".join(ec + junk(rng, 64 * rng.randrange(1, 600)) for _ in range(rng.choice((2, 2, 3)))))


# Hostile files.


def back_to_back(rng, image):
    """Headers without a gap, each with its own number; some have none, or the numbers are repeated."""
    numbers = rng.choice((range(1, 10**9), range(1, 10**9), (0, 1), (0, 0, 1, 2), (5,)))
    g = Geometry(*sizes_of(rng, SIZES), 2**20)

    def number_of(k):
        return k + 1 if isinstance(numbers, range) and k % 9 else rng.choice(numbers[:4])

    return File(b"".join(rules.put_ec(g, 1, number_of(k)) for k in range(rng.randrange(2, 600))))


def many_keys(rng, image):
    """An image, and beside it headers of so many other numbers that there are 256 keys, the most that are allowed, or
    one less or more."""
    file = whole(*with_number(rng, *image(SIZES)))
    numbers = range(1, rng.choice((255, 256, 256, 257)))
    others = [rules.put_ec(Geometry(0, 0, 64, 128, 0), 1, number) for number in numbers]
    before = rng.choice((0, len(others), rng.randrange(len(others))))
    return file.between(b"".join(others[:before]), b"".join(others[before:]))


def three_offsets(rng, image):
    """Headers with three pairs of offsets at random places."""
    raw = bytearray(junk(rng, 64 * rng.randrange(8, 1000)))
    named = [(g[2], g[3]) for g in rng.sample(list(SIZES), 3)]
    for _ in range(rng.randrange(2, 60)):
        at = 64 * rng.randrange(len(raw) // 64)
        raw[at : at + 64] = rules.put_ec(Geometry(0, 0, *rng.choice(named), 0), 1, rng.choice((0, 0, 1, 1, 2)))
    return File(bytes(raw))


def far_apart(rng, image):
    """Eraseblocks of 16 MiB, which is the most, or of a page less or more; or an image between headers that are farther
    apart and belong to no image."""
    g = Geometry(2**24 + rng.choice((0, -65536, 65536)), 65536, 65536, 131072, 2**20)
    ec, how = rules.put_ec(g, 1, rng.choice((0, 9))), rng.choice(("tables", "headers", "full", "between"))
    if how == "between":
        file = whole(*image({(16384, 512, 512, 1024): 1, (32768, 2048, 2048, 4096): 1}))
        return file.between(ec, ZERO * (2**24 - len(file.data) + 64 * rng.randrange(9)) + ec + ZERO * 2**24)
    if how == "full":
        vids = [rules.put_vid(Vid(1, 0, 0, 0, lnum, 0, 0, 0, 0, lnum + 1)) for lnum in range(2)]
        blocks = [rules.put_block(g, ec, vid, b"x" * g.leb) for vid in vids] + [rules.put_block(g, ec)]
    else:
        table = rules.put_table(dataclasses.replace(g, peb=2**24), {}) if how == "tables" else b""
        vids = [rules.put_vid(Vid(1, 0, 5, LAYOUT, copy, 0, 0, 0, 0, 0)) for copy in range(2)]
        blocks = [rules.put_block(g, ec, vid, table) for vid in vids]
    file = whole(g, blocks) if g.peb <= 2**24 else File(b"".join(blocks))
    return file.between(rng.choice((b"", b"", ZERO * 64)), b"")


def at_the_end(rng, image):
    """An image, and after it a header at the end of the file, whole or cut short."""
    file = whole(*image(SIZES))
    g, more = file.truths[0].geometry, rng.choice((64, 63, 4, 60, rng.randrange(65)))
    own, gap = file.data[:64], rng.choice((b"", BLANK * 64, junk(rng, 64 * rng.randrange(100))))
    last = rng.choice((own, header(rng), header(rng, (g.vid, g.data))))[:more]
    truth = file.truths[0]
    if last == own and len(gap) % truth.size == 0:
        # The header is one of the image, whose last eraseblock isn't all there.
        truth = dataclasses.replace(truth, count=truth.count + len(gap) // truth.size + 1)
    return File(file.data + gap + last, truth)


def tiny(rng, image):
    """At most 63 bytes, or a few headers."""
    return File(rng.choice((
        b"", header(rng)[:63], rng.randbytes(63), header(rng), header(rng) * 2, header(rng) + b"UBI#", BLANK * 64,
    )))


def no_headers(rng, image):
    """An image with bytes at multiples of 64 that look like its headers, but have a wrong CRC, version or counter, and
    with right headers elsewhere."""
    geometry, blocks = image(SIZES)
    own = next((block[:64] for block in blocks if block.startswith(b"UBI#")), rules.put_ec(geometry))
    wrong = (
        own[:60] + rng.randbytes(4),
        rules.sealed(own[:4] + b"\x02" + own[5:60]),
        rules.sealed(own[:8] + b"\0\0\0\0\x80\0\0\0" + own[16:60]),
    )
    raw = bytearray(b"".join(blocks))
    for _ in range(rng.randrange(1, 9) if blocks else 0):
        start = rng.randrange(len(blocks)) * geometry.peb
        at = 64 * rng.randrange(geometry.data // 64, geometry.peb // 64 - 1)
        more, other = rng.choice([(0, bad) for bad in wrong] + [(4, own)])
        raw[start + at + more : start + at + more + 64] = other
    return File(bytes(raw), Truth(geometry, 0, 0, len(blocks)))


# Files at the edges of the rule. Their eraseblocks are made by hand.


def by_hand(rng, geometry, lebs):
    """Eraseblocks of one image, each with a LEB that holds some bytes."""
    ec = rules.put_ec(geometry, 3, rng.randrange(1, 2**32))
    vids = [rules.put_vid(Vid(1, 0, 0, 0, lnum, 0, 0, 0, 0, lnum + 1)) for lnum in range(len(lebs))]
    return [rules.put_block(geometry, ec, vid, leb) for vid, leb in zip(vids, lebs)]


def dense(rng, size):
    """Random bytes, none of them 0xFF or zero."""
    return bytes(1 + byte % 254 for byte in rng.randbytes(size))


def with_hole(rng, geometry, blanks):
    """The bytes of a full LEB, with some blank ones before the middle of the eraseblock."""
    leb, middle = bytearray(dense(rng, geometry.leb)), geometry.peb // 2 - geometry.data
    leb[middle - blanks : middle] = BLANK * blanks
    return bytes(leb)


def edge_geometry(rng):
    sizes = ((1024, 64, 64, 128), (2048, 512, 512, 1024), (4096, 512, 64, 512), (16384, 2048, 1984, 2048))
    return Geometry(*rng.choice(sizes), 2**20)


def blank_ends(rng, image):
    """Full eraseblocks, one of which ends with some blank bytes: as many as are looked at, or one more or less."""
    geometry = edge_geometry(rng)
    lebs = [dense(rng, geometry.leb) for _ in range(rng.randrange(3, 7))]
    k, blanks = rng.randrange(len(lebs)), rng.choice((15, 16, 17))
    lebs[k] = lebs[k][:-blanks] + BLANK * blanks
    return whole(geometry, by_hand(rng, geometry, lebs)).between(boot_loader(rng), b"")


def holes(rng, image):
    """Eraseblocks, one of which has some blank bytes before its middle, and another of which ends blank."""
    geometry = edge_geometry(rng)
    lebs = [dense(rng, geometry.leb) for _ in range(rng.randrange(2, 6))] + [dense(rng, 20)]
    k = rng.randrange(len(lebs))
    lebs[k] = with_hole(rng, geometry, rng.choice((15, 16, 17)))
    rng.shuffle(lebs)
    return whole(geometry, by_hand(rng, geometry, lebs)).between(boot_loader(rng), b"")


def blank_beside(rng, image):
    """An image, and before and after it eraseblocks that are blank, or begin with as many blank bytes as are looked at,
    or one less."""
    geometry = edge_geometry(rng)
    lebs = [dense(rng, geometry.leb) for _ in range(rng.randrange(2, 5))] + [dense(rng, 20)]

    def beside():
        begin = rng.choice((63, 64, 64, geometry.peb))
        return BLANK * begin + dense(rng, geometry.peb - begin)

    before, after = (b"".join(beside() for _ in range(rng.randrange(4))) for _ in range(2))
    last = beside()[: rng.choice((0, 64, geometry.peb - 1, geometry.peb - 64))]
    file = whole(geometry, by_hand(rng, geometry, lebs))
    return file.between(dense(rng, 64 * rng.randrange(9)) + before, after + last)


def some_tables(rng, image):
    """Two eraseblocks that follow each other, and maybe a third one two after them: they hold the two copies of the
    table, or look so."""
    geometry = edge_geometry(rng)
    table = rules.put_table(geometry, {})
    ways = ("right", "alike", "magic", "volume", "record", "record", "CRC")
    last, how = 172 * (geometry.slots - 1), rng.choice(ways)
    blanks = rng.choice((63, 64, 172))
    second = table[:last] + BLANK * blanks + table[last + blanks :] if how == "record" else table
    headers = (
        Vid(1, 0, 5, LAYOUT, 0, 0, 0, 0, 0, 0),
        Vid(1, 0, 5, LAYOUT - (how == "volume"), int(how != "alike"), 0, 0, 0, 0, 0),
    )
    vids = [rules.put_vid(vid) for vid in headers]
    vids[1] = {"magic": bytes(4) + vids[1][4:], "CRC": vids[1][:60] + bytes(4)}.get(how, vids[1])
    ec = rules.put_ec(geometry, 3, rng.randrange(1, 2**32))
    blocks = [rules.put_block(geometry, ec, vid, data) for vid, data in zip(vids, (table, second))]
    blocks += rng.choice(([], [junk(rng, geometry.peb)], [junk(rng, geometry.peb), rules.put_block(geometry, ec)]))
    return whole(geometry, blocks)


def half_there(rng, image):
    """An image that begins with its tables, in which about half of the eraseblocks start with a header."""
    geometry = edge_geometry(rng)
    count = rng.randrange(5, 15)
    table = rules.put_table(geometry, {})
    blocks = by_hand(rng, geometry, [dense(rng, 20) for _ in range(count)])
    vids = [rules.put_vid(Vid(1, 0, 5, LAYOUT, copy, 0, 0, 0, 0, 0)) for copy in range(2)]
    blocks[:2] = [rules.put_block(geometry, blocks[0][:64], vid, table) for vid in vids]
    there = {0, 1, count - 1, *rng.sample(range(2, count - 1), max(0, count // 2 + rng.choice((0, 0, 1, -1)) - 3))}
    return whole(geometry, [block if p in there else bad_block(rng, geometry.peb) for p, block in enumerate(blocks)])


def headers_at_parts(is_own, rng, image):
    """An image with a header or two at the middle of an eraseblock or beside it, after the first two eraseblocks: with
    its own offsets and number; or with no number, another one, or other offsets. Some images have no number, and some a
    boot loader before them."""
    geometry, count = edge_geometry(rng), rng.randrange(4, 12)
    table, lebs = rules.put_table(geometry, {}), [dense(rng, 20) for _ in range(count)]
    blocks = by_hand(rng, geometry, lebs)
    vids = [rules.put_vid(Vid(1, 0, 5, LAYOUT, copy, 0, 0, 0, 0, 0)) for copy in range(2)]
    blocks[:2] = [rules.put_block(geometry, blocks[0][:64], vid, table) for vid in vids]
    if rng.random() < 0.3:
        blocks = [renumbered(block, 0) for block in blocks]
    own, at = blocks[0][:64], geometry.peb // 2 + rng.choice((0, 0, 0, 64, -64))
    other = rules.put_ec(dataclasses.replace(geometry, data=2 * geometry.data), 1, int.from_bytes(own[24:28], "big"))
    inner = own if is_own else rng.choice((renumbered(own, 0), renumbered(own, 77), other, other))
    for p in rng.choice(((2,), (count - 1,), (2, count - 1))):
        blocks[p] = blocks[p][:at] + inner + blocks[p][at + 64 :]
    named = may_be_joined(geometry, [inner], geometry, own[24:28])[:1] if inner != other else ()
    return whole(geometry, blocks, named).between(rng.choice((b"", b"", boot_loader(rng))), b"")


def out_of_band_limits(rng, image):
    """As few or as many out-of-band bytes as there may be, or a few more; and pages and numbers of pages that are the
    smallest, the greatest, or beyond."""
    page, count = rng.choice((
        (256, 16), (256, 16), (256, 32), (256, 64), (512, 16), (128, 32), (256, 8), (512, 8), (1024, 8), (2048, 16),
        (256, 2048), (256, 4096), (65536, 16),
    ))
    geometry = Geometry(page * count, page, page, 2 * page, 2**20)
    more = rng.choice((1, 4, page // 8, page // 8 + 4, page // 4 - 4, page // 4, page // 4, page // 4 + 4, page // 2))
    table = rules.put_table(geometry, {})
    tables = [rules.put_vid(Vid(1, 0, 5, LAYOUT, copy, 0, 0, 0, 0, 0)) for copy in range(2)]
    ec = rules.put_ec(geometry, 3, rng.randrange(1, 2**32))
    blocks = [rules.put_block(geometry, ec, vid, table) for vid in tables] + [rules.put_block(geometry, ec)]
    return with_more(rng, geometry, blocks, rng.choice(OF_WRITTEN), (more,))


def out_of_band_magics(rng, image):
    """An image with pages of 2048 and 64 bytes whose out-of-band bytes have the magic where it would be with pages of
    4096 and 128; less often than at its own place."""
    geometry = Geometry(65536, 2048, 2048, 4096, 2**20)
    maker = Dump(rng, (dataclasses.astuple(geometry)[:4],))
    file = with_more(rng, maker.geometry, maker.blocks, rng.choice(OF_WRITTEN), (64,))
    raw, size = bytearray(file.data), file.truths[0].size
    said = sum(block[2048:2052] == b"UBI!" for block in maker.blocks)
    for p in rng.sample(range(len(maker.blocks)), rng.randrange(said + 1)):
        raw[p * size + 2048 : p * size + 2052] = b"UBI!"
    return File(bytes(raw), *file.truths)


def other_offsets(rng, image):
    """An image with a header or two, fewer than the others, that name other offsets."""
    geometry, blocks = with_number(rng, *image(SIZES))
    number = next((block[24:28] for block in blocks if block.startswith(b"UBI#")), ZERO * 4)
    blocks = list(blocks)
    other = rng.choice(((geometry.vid, 2 * geometry.data), (geometry.data, 2 * geometry.data)))
    starts = [p for p, block in enumerate(blocks) if block.startswith(b"UBI#")]
    for p in rng.choice((starts[-1:], starts[:1], starts[1:2], starts[-2:]))[: (len(starts) - 1) // 2]:
        blocks[p] = rules.put_ec(Geometry(0, 0, *other, 0), 1, int.from_bytes(number, "big")) + blocks[p][64:]
    return whole(geometry, blocks)


def small_lebs(rng, image):
    """Eraseblocks that are too small for a record of a table, or just large enough."""
    geometry = Geometry(rng.choice((192, 256, 256, 320)), 64, 64, 128, 2**20)
    lebs = [dense(rng, geometry.leb) for _ in range(rng.randrange(3, 6))] + [dense(rng, 10)]
    file = whole(geometry, by_hand(rng, geometry, lebs)).between(boot_loader(rng), b"")
    return file if geometry.leb >= 172 else File(file.data)


def of_one_weight(rng, image):
    """An image, and after it the same with another number: the first of the two has to be found."""
    geometry, blocks = with_number(rng, *image(SIZES))
    second = whole(*with_number(rng, geometry, blocks))
    return second.after(whole(geometry, blocks).between(b"", junk(rng, 64 * rng.randrange(1, 99))))


# How a file of each kind is made.
KINDS = {
    "as it is": as_it_is,
    "random bytes after": functools.partial(junk_after, None),
    "zeros after": functools.partial(junk_after, ZERO),
    "0xFF after": functools.partial(junk_after, BLANK),
    "random bytes before": functools.partial(junk_before, None),
    "zeros before": functools.partial(junk_before, ZERO),
    "0xFF before": functools.partial(junk_before, BLANK),
    "a boot loader before": loader_before,
    "a boot loader before and junk after": loader_and_junk,
    "at a multiple of 64": at_any_64,
    "at no multiple of 64": at_any_byte,
    "two images": two_images,
    "two images, junk between": two_images_apart,
    "two images of the same sizes": two_of_one_size,
    "two images of the same sizes, one without number": two_without_number,
    "two images of one number, off one grid": two_off_grid,
    "one image twice": one_twice,
    "in a volume of another": in_another,
    "in a volume of another that has lost nearly all headers": in_another_lost,
    "in a volume of itself": in_itself,
    "in a volume of one of the same sizes, without number": in_one_without_number,
    "one bad eraseblock": one_bad,
    "one to three bad eraseblocks": some_bad,
    "bad eraseblocks and junk around": bad_and_junk,
    "blank eraseblocks among the others": with_blank,
    "the second and the fourth blank": second_and_fourth_blank,
    "every second eraseblock bad, or two of three": most_bad,
    "most eraseblocks random": most_random,
    "cut at the end": cut,
    "cut at the beginning": cut_before,
    "out-of-band bytes, random of each page": functools.partial(out_of_band, "random"),
    "out-of-band bytes, a code of each page": functools.partial(out_of_band, "code"),
    "out-of-band bytes, random of written pages": functools.partial(out_of_band, "random written"),
    "out-of-band bytes, a code of written pages": functools.partial(out_of_band, "code written"),
    "out-of-band bytes, eraseblocks that are no multiple of 64": out_of_band_odd,
    "out-of-band bytes, eraseblocks that are no multiple of 64, most of them lost": out_of_band_odd_lost,
    "out-of-band bytes, no VID header": out_of_band_unsaid,
    "out-of-band bytes, all after the last page": functools.partial(out_of_band_after, True),
    "out-of-band bytes, all after the last page, the VID header in the second":
        functools.partial(out_of_band_after, False),
    "out-of-band bytes, bad eraseblocks": out_of_band_bad,
    "out-of-band bytes, junk around": out_of_band_junk,
    "out-of-band bytes, cut": out_of_band_cut,
    "no number": no_number,
    "a number in half of the headers": half_numbers,
    "one header": one_header,
    "a stray header before": stray_before,
    "a stray header after": stray_after,
    "stray headers alone": stray_alone,
    "headers back to back": back_to_back,
    "headers with three offsets": three_offsets,
    "headers of 256 keys, one less or more": many_keys,
    "offsets of no page": no_page,
    "headers at the end": at_the_end,
    "wrong CRCs, versions and counters": no_headers,
    "tiny": tiny,
    "edges: blank ends": blank_ends,
    "edges: holes": holes,
    "edges: blank eraseblocks beside": blank_beside,
    "edges: tables, and what looks like it": some_tables,
    "edges: half of the eraseblocks": half_there,
    "edges: headers at parts": functools.partial(headers_at_parts, False),
    "edges: headers of its own at parts": functools.partial(headers_at_parts, True),
    "edges: out-of-band bytes and pages": out_of_band_limits,
    "edges: magics in out-of-band bytes": out_of_band_magics,
    "edges: other offsets": other_offsets,
    "edges: small LEBs": small_lebs,
    "edges: two of one weight": of_one_weight,
}
RARE = {"headers far apart": far_apart}
ALL = KINDS | RARE
MAKERS = (Maker, Dump, Dump, Dump)


def file_of(rng, k, makers=MAKERS, name=None):
    """The file with a number, and its kind, which is that of the number if none is named."""
    names = list(KINDS)
    name = name or (next(iter(RARE)) if k % 200 == 199 else names[k % len(names)])
    return name, ALL[name](rng, lambda weights: made(rng, weights, makers))


def off_grid(file, truth, answer):
    """How many headers of an image aren't where the eraseblocks of an answer begin, and how many it has at multiples of
    64; None if those eraseblocks aren't each several of its own."""
    peb, page, _, _, oob, start, _ = answer[0]
    size, places = peb // page * (page + oob), [at for at in truth.headers(file) if at % 64 == 0]
    if len(places) < 2 or size <= truth.size or size % truth.size or (start - truth.start) % truth.size:
        return None
    return sum((at - start) % size != 0 for at in places), len(places)


def is_lost_between(file, truth, answer):
    """Whether an answer gives eraseblocks of several times the size of an image, and each header of the image begins
    one of them."""
    off = off_grid(file.data, truth, answer)
    return off is not None and off[0] == 0


def named_fault(file, text):
    """The fault of a wrong answer that docs/FORMAT.md allows, in a few words; None if it doesn't allow the answer."""
    answer = numbers_of(file.data, text)
    if not answer:
        return None
    if any(is_lost_between(file, truth, answer) for truth in file.truths):
        return "the eraseblocks between are lost"
    return next((name for name, is_it in file.named if any(map(is_it, answer))), None)


def may_be_named(file, text):
    return named_fault(file, text) is not None


def fault(file, text):
    """What is wrong with a wrong answer, in a few words."""
    answer = numbers_of(file.data, text)
    name = named_fault(file, text)
    if name:
        return name
    for truth in file.truths if answer else ():
        if truth.size % 64:
            return "the eraseblock is no multiple of 64"
        off = off_grid(file.data, truth, answer)
        if off:
            return f"several times the size, {off[0]} of {off[1]} headers off the grid"
    return "another size or place" if file.truths else "there is no image"


def reason(file):
    """Why a file is refused, in a few words, and why its size isn't sure; None if it isn't refused."""
    try:
        answer(file)
    except NoSize as refused:
        return f"F2 {refused.why}"
    except Refused as refused:
        return str(refused).split()[0]
    return None


def is_apart(file):
    """Whether a file has several images that are apart."""
    try:
        return answer(file).is_apart
    except Refused:
        return False


def row_of(name, file):
    """The kind under which a file is counted: a file in which fewer than two eraseblocks of an image start with a
    header counts as one with one header, unless another image lies in it."""
    is_alone = file.truths and not file.named and all(len(truth.headers(file.data)) < 2 for truth in file.truths)
    return "one header" if is_alone else name


def options():
    words = argparse.ArgumentParser(description=__doc__, formatter_class=argparse.RawDescriptionHelpFormatter)
    words.add_argument("--seed", type=int, nargs="+", default=[1])
    words.add_argument("--count", type=int, default=2000)
    words.add_argument("--first", type=int, default=0)
    words.add_argument("--ubinize", action="store_true")
    words.add_argument("--wrong", action="store_true")
    words.add_argument("--kind", choices=ALL)
    return words.parse_args()


def main():
    words = options()
    makers = (Ubinized,) if words.ubinize else MAKERS
    counts, wrong = collections.defaultdict(collections.Counter), 0
    for seed, k in itertools.product(words.seed, range(words.first, words.first + words.count)):
        name, file = file_of(random.Random(f"{seed} {k}"), k, makers, words.kind)
        text, status = printed(file.data)
        judgement = judged(file, text, status)
        is_other = judgement == "wrong" and not may_be_named(file, text)
        is_several = ["apart"] if is_apart(file.data) else []
        counts[row_of(name, file)].update(
            ["other" if is_other else judgement, reason(file.data) or "found", *is_several])
        if judgement == "wrong":
            wrong += is_other
            truths = [(*dataclasses.astuple(truth)[:1], truth.oob, truth.start, truth.count) for truth in file.truths]
            answer = f"{text.splitlines()[0]} and not {truths}"
            print(f"number {k} of seed {seed}, {name}, {fault(file, text)}: {answer}", flush=True)
    if not words.wrong:
        print_table(counts)
    sys.exit(1 if wrong else 0)


def print_table(counts):
    print("| files | right | wrong, named | wrong, other | apart | refused |\n|---|---|---|---|---|---|")
    total = collections.Counter()
    for name in sorted(counts, key=list(ALL).index):
        total.update(counts[name])
        print_row(name, counts[name])
    print_row("all", total)


def print_row(name, count):
    why = ", ".join(f"{cause} {count[cause]}" for cause in sorted(count) if cause.startswith("F"))
    refused = f"{count['refused']}{': ' if why else ''}{why}"
    print(f"| {name} | {count['right']} | {count['wrong']} | {count['other']} | {count['apart']} | {refused} |")


if __name__ == "__main__":
    main()
