#!/usr/bin/env python3
"""Runs the program on large files, places in them, eraseblocks, volumes, texts and outputs, and compares its answers.

usage: sizes.py [--dir FOLDER] [--tool PROGRAM] [FAMILY ..]

A program that takes a size or a place modulo a power of two, or that gives up above some size, still answers small
images as the rules do. So each command is run on images that are made here, up to the largest possible, and each byte
that it writes is compared. The families, all of which are run by default:
  headers   headers at 0, 5, 9 and 65 GiB, and at each power of two from 2^31 to 2^43, shown one by one, with those
            beside each, and if they are bad, or if a part begins there
  places    an image of 256 GiB and more whose tables and LEBs lie at these places up to 2^38: each command that writes
            no image of its size
  beyond    an image that ends beyond 4 GiB: a change and a rename, whose outputs are compared byte for byte
  views     images that begin beyond 4 GiB, with out-of-band bytes and without, on the grid of the file and off it; and
            one whose pages lie 4 GiB apart, since each has as many out-of-band bytes as there can be
  many      an image of 2^20 eraseblocks, which is the most; and as a pipe of 512 MiB
  volumes   128 volumes, which is the most, with names of 127 bytes; and a config of 128 sections
  largest   eraseblocks of 2^24 bytes with pages of 65536, which are the largest; a text of 20 MB; files of 1, 20 and
            100 MiB
  chips     chips with eraseblocks of 131072 and pages of 2048: images of 1, 20 and 100 MiB; and `compose` and `build`
            with outputs of 39, 100 and 551 MB
  row       a config whose files end beyond 4 GiB, one by one and in a row
  geometry  the geometry of files of 1 MiB to 9 GiB; and of those up to 5 GiB if the last eraseblock has a header of
            other offsets, and if bytes follow it that are no whole eraseblock
  huge      files of 8 TiB that are named as new bytes, as a text and in a config; a text of 269 MB; and configs whose
            files have more than 32 GiB, and as many bytes as the volume or the device can have, or one more
  links     an image above 1 GiB that is the output, or should be the pages, by a link of either kind

Large files are sparse: unwritten parts read as zero, which is no header. Large outputs go into a pipe, and are compared
while they are written. So it needs only 3 GB of the disk below FOLDER (/tmp by default), which are freed afterwards.
Without --tool the program is built first, unless it is built already. The last line is 'N passed, M failed', and the
exit status is 0 if none failed.
"""
import argparse
import dataclasses
import fcntl
import os
import random
import shutil
import subprocess
import tempfile
import threading

import rules
from fuzz import built, complaints, finish
from geometry import printed
from rules import LAYOUT, Geometry, Meaning, Record, Vid

MIB, GIB, HUGE = 2**20, 2**30, 2**43
LARGEST = Geometry(2**24, 65536, 65536, 131072, 2**20)
CHIP = Geometry(131072, 2048, 2048, 4096, 2**20)
LEAST = Geometry(512, 64, 64, 128, 2**20)
# Where headers and LEBs lie, besides the beginning.
FAR = sorted({5 * GIB, 9 * GIB, 65 * GIB, *(2**k for k in range(31, 44))})
SEQ = 0x12345678
# What is compared at once, and how much of the disk has to be free.
CHUNK, ROOM = 2**24, 3 * 10**9
# A file of Linux that has fewer bytes than its size says.
SHORT = "/sys/kernel/uevent_seqnum"
ZEROS, BLANKS = bytes(CHUNK), b"\xFF" * CHUNK


def noise(seed, size):
    """Random bytes, other ones for each seed."""
    return random.Random(seed).randbytes(size)


def run_of(chunk, size):
    """So many bytes of a chunk of equal bytes, piece by piece."""
    for _ in range(size // CHUNK):
        yield chunk
    yield chunk[: size % CHUNK]


class Sparse:
    """A file that reads as zero except for some parts, each at its place."""

    def __init__(self, size, parts):
        self.size, self.parts = size, dict(sorted(parts.items()))

    def put(self, path):
        """Writes the file, with holes in it. Returns its path."""
        with open(path, "wb") as file:
            file.truncate(self.size)
            for at, data in self.parts.items():
                file.seek(at)
                file.write(data)
        return path

    def pieces(self):
        """Its bytes, piece by piece."""
        done = 0
        for at, data in self.parts.items():
            yield from run_of(ZEROS, at - done)
            yield data
            done = at + len(data)
        yield from run_of(ZEROS, self.size - done)

    def but(self, parts):
        """The same file with other bytes at some places, beside its parts or in place of them."""
        return Sparse(self.size, self.parts | parts)


class Taker(threading.Thread):
    """Compares the bytes of a pipe, or of a file, with those that it should have, while reading them."""

    def __init__(self, end, pieces):
        super().__init__()
        self.end, self.pieces, self.at, self.wrong = end, pieces, 0, None

    def run(self):
        for piece in self.pieces:
            self.take(piece)
            if self.wrong:
                break
        while data := os.read(self.end, CHUNK):
            self.wrong = self.wrong or f"{len(data)} bytes after the end"
        os.close(self.end)

    def take(self, piece):
        done = 0
        while done < len(piece) and not self.wrong:
            data = os.read(self.end, min(len(piece) - done, MIB))
            if not data or data != piece[done : done + len(data)]:
                self.wrong = f"byte {self.at} or one of the {len(data)} from there on"
            done, self.at = done + len(data), self.at + len(data)


def wrong_file(path, pieces):
    """What is wrong with a file; None if it has these bytes."""
    if not os.path.isfile(path):
        return f"no {path}"
    taker = Taker(os.open(path, os.O_RDONLY), pieces)
    taker.run()
    return taker.wrong


class Looker:
    """Runs the program in a folder."""

    def __init__(self, tool, folder):
        self.tool, self.folder = tool, folder

    def path(self, name):
        return os.path.join(self.folder, name)

    def put(self, name, data):
        """A file of the folder with these bytes."""
        with open(self.path(name), "wb") as file:
            file.write(data)
        return self.path(name)

    def look(self, geometry, words, line, status=0, piped=None, files=(), stdin=None):
        """Runs a command, with a geometry if it takes one, and with a pipe from a file as standard input, if one is
        given. Returns what it was, and whether it printed the line, and wrote what it should: into a pipe by --out, if
        PIPED is given, and into files."""
        words = [str(word) for word in words]
        words = words if geometry is None else [*words, *geometry.words()]
        ran, wrong = self.run(words, piped, stdin)
        for name, pieces in files:
            wrong = wrong or wrong_file(self.path(name), pieces)
        is_right = ran == (status, line.encode(), b"") and not wrong
        return f"{' '.join(words)[-300:]} {ran[0]} {ran[1][:200]} {ran[2][:200]}, wrong: {wrong}", is_right

    def run(self, words, piped, stdin):
        """The status and both outputs of a run, and what is wrong with what it wrote into a pipe."""
        given = open(stdin or os.devnull, "rb")
        feeder = subprocess.Popen(["cat"], stdin=given, stdout=subprocess.PIPE) if stdin else None
        ends = os.pipe() if piped is not None else ()
        if ends:
            fcntl.fcntl(ends[1], fcntl.F_SETPIPE_SZ, MIB)
        more = ["--out", f"/dev/fd/{ends[1]}"] if ends else []
        taker = Taker(ends[0], piped) if ends else None
        child = subprocess.Popen(
            [self.tool, *words, *more], stdin=feeder.stdout if feeder else given, stdout=subprocess.PIPE,
            stderr=subprocess.PIPE, cwd=self.folder, pass_fds=ends[1:])
        given.close()
        if feeder:
            feeder.stdout.close()
        if ends:
            os.close(ends[1])
            taker.start()
        try:
            out, error = child.communicate(timeout=300)
        except subprocess.TimeoutExpired:
            child.kill()
            out, error = child.communicate()
        if taker:
            taker.join()
        if feeder:
            feeder.wait()
        return (child.returncode, out, complaints(error, out)), taker and taker.wrong


# Images of parts, and what they mean.


def table_parts(geometry, records, places):
    """The two copies of a table, in eraseblocks at these places."""
    table, ec = rules.put_table(geometry, records), rules.put_ec(geometry, 0, SEQ)
    headers = [rules.put_vid(Vid(1, 0, 5, LAYOUT, copy, 0, 0, 0, 0, 0)) for copy in range(2)]
    blocks = [rules.put_block(geometry, ec, header, table) for header in headers]
    return {p * geometry.peb: block for p, block in zip(places, blocks)}


def leb_parts(geometry, p, header, parts):
    """An eraseblock at P with a header, and parts of its LEB at their offsets; its other bytes read as zero."""
    at = p * geometry.peb
    front = rules.put_ec(geometry, 0, SEQ).ljust(geometry.vid, b"\xFF") + rules.put_vid(header)
    return {at: front} | {at + geometry.data + offset: data for offset, data in parts.items()}


def of_leb(lnum, sqnum, **more):
    """The header of a LEB of volume 0, which is dynamic."""
    return dataclasses.replace(Vid(1, 0, 0, 0, lnum, 0, 0, 0, 0, sqnum), **more)


def spread(geometry, seed):
    """Parts of a LEB: its first bytes, some in the middle and its last ones; and the whole LEB."""
    size, middle = geometry.leb, geometry.leb // 2 + 4321
    parts = {0: noise(seed, 70_000), middle: noise(seed + 1000, 5000), size - 333: noise(seed + 2000, 333)}
    return parts, b"".join(Sparse(size, parts).pieces())


def checked(blocks, table, used, corrupt, top, free=0, stale=0):
    """The lines of `check` for an accepted image whose counters are all 0."""
    return (f"blocks {blocks}\nblank 0\nfree {free}\ntable {table}\nused {used}\nstale {stale}\norphan 0\ndropped 0\n"
        f"corrupt {corrupt}\ngarbage 0\ntop sqnum {top}\nimage seq {SEQ}\nmean counter 0\naccepted\n")


def listed(geometry, records, how):
    """The lines of `list`."""
    meant = Meaning(geometry, SEQ, records, {number: how[number] for number in records})
    return "".join(rules.list_lines(meant))


def shown(front, vid):
    """The lines of `show` for the states and the bytes of two headers."""
    return "".join(f"{word} {state} {raw.hex()}\n" for word, (state, raw) in (("ec", front), ("vid", vid)))


NONE_THERE, BLANK = ("corrupt", bytes(64)), ("blank", b"\xFF" * 64)


def headers(looker):
    """Headers that are far from the beginning, each of them different; and what each eraseblock reads as if it is bad,
    and in a part that begins with it."""
    cases = (LARGEST, (0, *FAR, 2**44 - 2 * LARGEST.peb)), (CHIP, (0, *(at for at in FAR if at < 2**37)))
    for geometry, places in cases:
        parts = {}
        for k, at in enumerate(places, 1):
            parts[at] = ec = rules.put_ec(geometry, k, SEQ)
            parts[at + geometry.vid] = rules.put_vid(of_leb(k, k))
        size = places[-1] + geometry.peb
        Sparse(size, parts).put(looker.path("far.img"))
        for at in places:
            ec, vid = (("valid", parts[at + offset]) for offset in (0, geometry.vid))
            p = at // geometry.peb
            yield looker.look(geometry, ["show", "far.img", "--block", p], shown(ec, vid))
            yield looker.look(geometry, ["show", "far.img", "--block", p, "--bad", p], shown(BLANK, BLANK))
            if at + geometry.peb < size:
                yield looker.look(geometry, ["show", "far.img", "--block", p + 1], shown(NONE_THERE, NONE_THERE))
            if p:
                # The eraseblocks before a part are counted, and read 0xFF.
                part = ["show", "far.img", "--start", at, "--block"]
                yield looker.look(geometry, [*part, p], shown(ec, vid))
                yield looker.look(geometry, [*part, p - 1], shown(BLANK, BLANK))
        yield looker.look(geometry, ["show", "far.img", "--block", size // geometry.peb], "refused B1 Block\n", 1)


def places(looker):
    """An image whose tables and LEBs are far from the beginning and from each other."""
    g, records, far = LARGEST, {0: Record(40, 1, 1, 0, b"far", 0)}, [at for at in FAR if at <= 2**38]
    blocks = [0, *(at // g.peb for at in far[:-1])]
    last = far[-1] // g.peb
    parts, lebs = table_parts(g, records, (last, last + 1)), {}
    for lnum, p in enumerate(blocks, 2):
        pieces, lebs[lnum] = spread(g, lnum)
        parts |= leb_parts(g, p, of_leb(lnum, lnum), pieces)
    # Another copy of the last LEB, which is newer; and one that is newer still, and cut short.
    (newer, lebs[lnum]), (cut, whole) = spread(g, 100), spread(g, 200)
    of_newer = of_leb(lnum, 1000, copy=1, size=g.leb, data_crc=rules.crc(lebs[lnum]))
    of_cut = of_leb(lnum, 1001, copy=1, size=g.leb, data_crc=rules.crc(whole) ^ 1)
    parts |= leb_parts(g, last - 1, of_newer, newer) | leb_parts(g, last // 2 + 1, of_cut, cut)
    image = Sparse((last + 2) * g.peb, parts)
    image.put(looker.path("far.img"))
    meant = Meaning(g, SEQ, records, {0: lebs})
    normal, used = rules.normal_image(meant), len(lebs)
    looker.put("normal.img", normal)
    yield looker.look(g, ["check", "far.img"], checked(last + 2, 2, used, last - used - 2, 1001, stale=2))
    yield looker.look(g, ["list", "far.img"], listed(g, records, {0: lebs}))
    yield looker.look(g, ["extract", "far.img", "--name", "far"], f"bytes {40 * g.leb}\n",
        piped=read_pieces(g, 40, lebs))
    yield looker.look(g, ["normalise", "far.img"], f"blocks {used + 2}\n", piped=[normal])
    yield looker.look(g, ["same", "far.img", "normal.img"], "same\n")
    with open(looker.path("normal.img"), "r+b") as file:
        file.seek(-1, os.SEEK_END)
        file.write(bytes([normal[-1] ^ 1]))
    yield looker.look(g, ["same", "normal.img", "far.img"], "different\n", 1)
    os.remove(looker.path("normal.img"))
    yield looker.look(g, ["unpack", "far.img", "--out", "made"], f"volume 0 bytes={40 * g.leb} name=far\n",
        files=[("made/0-far", read_pieces(g, 40, lebs))])


def read_pieces(geometry, reserved, lebs):
    """The contents of a dynamic volume, piece by piece."""
    for lnum in range(reserved):
        yield from [lebs[lnum]] if lnum in lebs else run_of(BLANKS, geometry.leb)


def moved(steps, places):
    """The steps of a plan, with its eraseblocks at other places."""
    return [(word, places[p], *more) for word, p, *more in steps]


def stretched(geometry, image, places):
    """The eraseblocks of an image at other places, and zeros between them."""
    blocks = (image[at : at + geometry.peb] for at in range(0, len(image), geometry.peb))
    parts = {p * geometry.peb: block for p, block in zip(places, blocks)}
    return Sparse((places[-1] + 1) * geometry.peb, parts)


def planned(looker, geometry, image, small, places, steps, words):
    """A change or a rename of an image, which writes into a pipe, with its pages; STEPS is the plan for its eraseblocks
    without gaps."""
    after = stretched(geometry, rules.after(geometry, small, steps), places)
    lines = "".join(rules.plan_lines(moved(steps, places)))
    yield looker.look(geometry, [words[0], image, *words[1:], "--pages", "pages"], lines, piped=after.pieces(),
        files=[("pages", [rules.pages_of(steps)])])
    os.remove(looker.path("pages"))


def beyond(looker):
    """An image, half of whose contents lie beyond 4 GiB."""
    g, records = LARGEST, {0: Record(40, 1, 1, 0, b"far", 0)}
    ec, table = rules.put_ec(g, 0, SEQ), table_parts(g, records, (0, 1))
    used = [rules.put_block(g, ec, rules.put_vid(of_leb(lnum, 5 + lnum)), noise(lnum, 5000)) for lnum in (0, 3)]
    free = rules.put_block(g, rules.put_ec(g, 2, SEQ))
    small = table[0] + used[0] + table[g.peb] + used[1] + free + free
    places, found = (0, 1, 255, 257, 258, 259), rules.Image(g, small)
    stretched(g, small, places).put(looker.path("far.img"))
    new = looker.put("new", noise(9, 3 * g.page))
    change, rename = rules.Change(found, 0, 3, noise(9, 3 * g.page)), rules.Rename(found, 0, b"near")
    yield from planned(looker, g, "far.img", small, places, change.steps,
        ["change", "--id", 0, "--lnum", 3, "--from", new])
    yield from planned(looker, g, "far.img", small, places, rename.steps, ["rename", "--id", 0, "--name", "near"])


def with_more(image, page, oob):
    """An image with so many zeros after each page."""
    return b"".join(image[at : at + page] + bytes(oob) for at in range(0, len(image), page))


def seen_lines(looker, g, image, before, part, name):
    """Each command that reads an image, and both plans, for a part of a file with that image; BEFORE are the eraseblocks
    that lie before it in the file, and are blank."""
    found, pages = rules.Image(g, image), looker.path("pages")
    normal, data, states = rules.normal_image(found), found.read_volume(0), "".join(rules.check_lines(found))
    count, blank = len(found.states), found.states.count("blank")
    counted = states.replace(f"blocks {count}\nblank {blank}\n", f"blocks {before + count}\nblank {before + blank}\n")
    ec, vid = (("valid", image[at : at + 64]) for at in (3 * g.peb, 3 * g.peb + g.vid))
    yield looker.look(g, ["check", name, *part], counted)
    yield looker.look(g, ["list", name, *part], "".join(rules.list_lines(found)))
    yield looker.look(g, ["show", name, *part, "--block", before + 3], shown(ec, vid))
    yield looker.look(g, ["extract", name, *part, "--id", 0], f"bytes {len(data)}\n", piped=[data])
    yield looker.look(g, ["normalise", name, *part], f"blocks {len(normal) // g.peb}\n", piped=[normal])
    at, new = [*range(before, before + count)], looker.put("new", b"new" * g.page)
    change = ["change", name, *part, "--id", 0, "--lnum", 0, "--from", new]
    rename = ["rename", name, *part, "--id", 0, "--name", "far"]
    for words, plan in ((change, rules.Change(found, 0, 0, b"new" * g.page)), (rename, rules.Rename(found, 0, b"far"))):
        lines, steps = "".join(rules.plan_lines(moved(plan.steps, at))), rules.pages_of(plan.steps)
        yield looker.look(g, [*words, "--out", "/dev/null", "--pages", pages], lines, files=[("pages", [steps])])


def views(looker):
    """Images that begin beyond 4 GiB. The part is typed, or the image is found there. Then pages that are 4 GiB apart."""
    image = rules.composed(meant_of(CHIP, (300_000, 200_000)), 3)
    for oob in (0, 64):
        laid, size = with_more(image, CHIP.page, oob), CHIP.peb // CHIP.page * (CHIP.page + oob)
        before = 2**32 // size + 1
        for start in (before * size, before * size + 64):
            file = Sparse(start + len(laid) + 100, {start: laid, start + len(laid): noise(1, 100)})
            file.put(looker.path("far.img"))
            span, part = f"--start {start} --length {len(laid)}", ["--start", start, "--length", len(laid)]
            lines = "".join(f"{line} {span}\n" for line in printed(laid)[0].splitlines())
            listed = "".join(rules.list_lines(rules.Image(CHIP, image)))
            yield looker.look(None, ["geometry", "far.img", *part], lines)
            yield looker.look(None, ["list", "far.img", *part], listed)
            length = (file.size - start % size) // size * size
            found = lines.replace(span, f"--start {start % size} --length {length}")
            yield looker.look(None, ["geometry", "far.img"], found)
            typed = [*part, "--oob", oob]
            if start % size:
                yield looker.look(CHIP, ["list", "far.img", *typed], listed)
                rename = ["rename", "far.img", *typed, "--id", 0, "--name", "far", "--out", "/dev/null"]
                yield looker.look(CHIP, rename, f"refused F11 Start peb={size} rest=64\n", 1)
            else:
                yield from seen_lines(looker, CHIP, image, before, typed, "far.img")
            past = ["list", "far.img", "--oob", oob, "--start"]
            yield looker.look(CHIP, [*past, start, "--length", file.size - start + 1], f"refused F7 Part bytes={file.size}\n", 1)
            yield looker.look(CHIP, [*past, file.size + 1], f"refused F7 Part bytes={file.size}\n", 1)
    image, step = rules.composed(meant_of(LEAST, (1000, 700)), 3), LEAST.page + 2**32 - 1
    pages = {k * step: image[k * LEAST.page :][: LEAST.page] for k in range(len(image) // LEAST.page)}
    size, block = len(pages) * step, LEAST.peb // LEAST.page * step
    for before in (0, 1):
        start = before * block
        Sparse(start + size, {start + at: data for at, data in pages.items()}).put(looker.path("far.img"))
        oob = ["--oob", 2**32 - 1, "--start", start]
        yield from seen_lines(looker, LEAST, image, before, oob, "far.img")
        for length in (size - 1, size - step + 63):
            words = ["list", "far.img", *oob, "--length", length]
            yield looker.look(LEAST, words, f"refused F8 Pages rest={length % step}\n", 1)


def many(looker):
    """An image of as many eraseblocks as a device can have: LEBs, then free ones, and the tables at its end."""
    g, count, used = LEAST, 2**20, 2**18 + 1
    records, ec = {0: Record(count - 2, 1, 1, 0, b"many", 0)}, rules.put_ec(LEAST, 0, SEQ)
    free = rules.put_block(LEAST, ec)
    # LEB 7K + 1 lies in eraseblock K, so they are spread over all LEBs that the volume reserves.
    lnums = [(7 * k + 1) % (count - 2) for k in range(used)]
    data = [b"%08d" % k * 48 for k in range(used)]
    front, vids = ec.ljust(g.vid, b"\xFF"), [rules.put_vid(of_leb(lnum, k)) for k, lnum in enumerate(lnums)]
    tables = table_parts(g, records, (count - 2, count - 1))
    blocks = b"".join(front + vid + leb for vid, leb in zip(vids, data))
    image = bytearray(blocks + free * (count - used - 2) + b"".join(tables.values()))
    looker.put("many.img", image)
    lebs = dict(zip(lnums, data))
    contents, blank = bytearray(BLANKS[: g.leb] * (count - 2)), used - 1
    for lnum, leb in lebs.items():
        contents[lnum * g.leb : (lnum + 1) * g.leb] = leb
    lines = checked(count, 2, used, 0, used - 1, free=count - used - 2)
    normal = looker.put("normal.img", rules.normal_image(Meaning(g, SEQ, records, {0: lebs})))
    with open(normal, "rb") as file:
        whole = file.read()
    yield looker.look(g, ["check", "many.img"], lines)
    yield looker.look(g, ["check", "/dev/stdin"], lines, stdin=looker.path("many.img"))
    yield looker.look(g, ["list", "many.img"], listed(g, records, {0: lebs}))
    yield looker.look(g, ["show", "many.img", "--block", blank], shown(("valid", ec), ("valid", vids[blank])))
    table = tables[(count - 1) * g.peb][64:128]
    yield looker.look(g, ["show", "many.img", "--block", count - 1], shown(("valid", ec), ("valid", table)))
    sizes = "".join(f"--peb 512 --page {page} --vid 64 --data 128\n" for page in (64, 128))
    yield looker.look(None, ["geometry", "many.img"], sizes)
    size, blocks = f"bytes {len(contents)}\n", f"blocks {used + 2}\n"
    piped = looker.path("many.img")
    yield looker.look(g, ["extract", "many.img", "--id", 0, "--out", "read"], size, files=[("read", [contents])])
    yield looker.look(g, ["extract", "/dev/stdin", "--id", 0], size, piped=[contents], stdin=piped)
    yield looker.look(g, ["unpack", "many.img", "--out", "made"], f"volume 0 bytes={len(contents)} name=many\n",
        files=[("made/0-many", [contents])])
    yield looker.look(g, ["normalise", "many.img", "--out", "out"], blocks, files=[("out", [whole])])
    yield looker.look(g, ["normalise", "/dev/stdin"], blocks, piped=[whole], stdin=piped)
    yield looker.look(g, ["same", "many.img", "normal.img"], "same\n")
    yield looker.look(dataclasses.replace(g, pebs=count - 1), ["check", "many.img"], "refused S2 TooMany\n", 1)
    # The plans are those for the eraseblocks that they name: the first free ones, the last LEB, and the tables.
    at = (blank, used, used + 1, count - 2, count - 1)
    small = bytes(image[blank * 512 : (used + 2) * 512] + image[-1024:])
    found = rules.Image(dataclasses.replace(g, pebs=count), small)
    new, lnum = noise(5, 128), lnums[blank]
    change = ["change", "--id", 0, "--lnum", lnum, "--from", looker.put("new", new)]
    rename = ["rename", "--id", 0, "--name", "few"]
    for words, plan in ((change, rules.Change(found, 0, lnum, new)), (rename, rules.Rename(found, 0, b"few"))):
        steps, after = moved(plan.steps, at), bytearray(image)
        for step in steps:
            rules.do(g, after, step)
        words = [words[0], "many.img", *words[1:], "--out", "out", "--pages", "pages"]
        yield looker.look(g, words, "".join(rules.plan_lines(steps)),
            files=[("out", [after]), ("pages", [rules.pages_of(steps)])])


# Images that the program makes, and every command on them.


def spec_of(meant):
    """A composer's text for volumes that can be read, line by line."""
    for number, r in meant.records.items():
        kind = "static" if r.kind == 2 else "dynamic"
        yield f"volume {number} {kind} {r.reserved} {r.alignment} {r.flags:02x} {rules.shown(r.name)}\n"
        if r.kind == 2:
            yield f"bytes {number} {meant.contents[number].hex()}\n"
        else:
            yield from (f"leb {number} {lnum} {data.hex()}\n" for lnum, data in meant.contents[number].items())


def config_of(looker, meant):
    """A config for volumes that can be read, section by section. Writes their files."""
    for number, r in meant.records.items():
        looker.put(f"v{number}", meant.read_volume(number))
        kind, size = "static" if r.kind == 2 else "dynamic", r.reserved * r.usable(meant.geometry)
        yield (f"[{number}]\nmode=ubi\nvol_id={number}\nvol_name={r.name.decode()}\nvol_type={kind}\n"
            f"vol_size={size}\nvol_alignment={r.alignment}\nimage=v{number}\n")


def made(looker, meant, spares, ways):
    """An image as `compose` and `build` make it, from a text or a config. Leaves it in image."""
    image, g = rules.composed(meant, spares), meant.geometry
    more = ["--out", "image", "--seq", meant.image_seq, "--spares", spares]
    for way in ways:
        looker.put("text", "".join(spec_of(meant) if way == "compose" else config_of(looker, meant)).encode())
        yield looker.look(g, [way, "text", *more], f"blocks {len(image) // g.peb}\n", files=[("image", [image])])


def all_commands(looker, g, new):
    """Every command on the image in image; a change of volume 0, which is dynamic, and a rename of the last volume."""
    with open(looker.path("image"), "rb") as file:
        image = file.read()
    found = rules.Image(g, image)
    normal, last = rules.normal_image(found), max(found.records)
    blocks = f"blocks {len(normal) // g.peb}\n"
    contents = {number: found.read_volume(number) for number in found.records}
    yield looker.look(None, ["geometry", "image"], *printed(image))
    yield looker.look(g, ["check", "image"], "".join(rules.check_lines(found)))
    yield looker.look(g, ["list", "image"], "".join(rules.list_lines(found)))
    yield looker.look(g, ["normalise", "image", "--out", "out"], blocks, files=[("out", [normal])])
    yield looker.look(g, ["normalise", "/dev/stdin"], blocks, piped=[normal], stdin=looker.path("image"))
    yield looker.look(g, ["same", "image", "out"], "same\n")
    for number in (0, last):
        name, data = f"--name={rules.shown(found.records[number].name)}", contents[number]
        yield looker.look(g, ["extract", "image", name, "--out", "out"], f"bytes {len(data)}\n",
            files=[("out", [data])])
    names = {number: rules.shown(r.name) for number, r in sorted(found.records.items())}
    lines = "".join(f"volume {n} bytes={len(contents[n])} name={name}\n" for n, name in names.items())
    files = [(f"made/{n}-{name}", [contents[n]]) for n, name in names.items()]
    files.append(("made/ubi.ini", [rules.folder_config(found)]))
    yield looker.look(g, ["unpack", "image", "--out", "made"], lines, files=files)
    shutil.rmtree(looker.path("made"))
    looker.put("new", new)
    change, rename = ["change", "--id", 0, "--lnum", 0, "--from", "new"], ["rename", "--id", last, "--name", "n" * 127]
    for words, plan in ((change, rules.Change(found, 0, 0, new)), (rename, rules.Rename(found, last, b"n" * 127))):
        words = [words[0], "image", *words[1:], "--out", "out", "--pages", "pages"]
        yield looker.look(g, words, "".join(rules.plan_lines(plan.steps)),
            files=[("out", [rules.after(g, image, plan.steps)]), ("pages", [rules.pages_of(plan.steps)])])


def dynamic(geometry, seed, size):
    """A dynamic volume of so many bytes: what it reserves, and its LEBs, the last of them with 0xFF after its bytes."""
    data, leb = noise(seed, size), geometry.leb
    lebs = {lnum: data[at : at + leb].ljust(leb, b"\xFF") for lnum, at in enumerate(range(0, size, leb))}
    return len(lebs), lebs


def meant_of(geometry, sizes):
    """A dynamic volume and static ones after it, of so many bytes."""
    reserved, lebs = dynamic(geometry, 1, sizes[0])
    records, contents = {0: Record(reserved, 1, 1, 0, b"first", 0)}, {0: lebs}
    for number, size in enumerate(sizes[1:], 1):
        records[number] = Record(-(-size // geometry.leb), 1, 2, 0, b"static%d" % number, 0)
        contents[number] = noise(number + 50, size)
    return Meaning(geometry, SEQ, records, contents)


def volumes(looker):
    """As many volumes as there can be, with the longest names; every second one is static."""
    g, records, contents = CHIP, {}, {}
    for number in range(128):
        kind = 1 + number % 2
        name = (b"%03d-" % number).ljust(127, b"abcdefg"[number % 7 :][:1])
        records[number] = Record(2, 1, kind, 0, name, 0)
        if kind == 2:
            contents[number] = noise(number, g.leb + 1 + number)
        else:
            contents[number] = {0: noise(number, 3000).ljust(g.leb, b"\xFF")}
    meant = Meaning(g, SEQ, records, contents)
    yield from made(looker, meant, 3, ("build", "compose"))
    yield from all_commands(looker, g, noise(77, g.leb))
    # The system gives the size of this file as 4096, and it has fewer bytes. It is the file of a volume in the middle.
    if os.path.exists(SHORT):
        config = "".join(config_of(looker, meant)).replace("image=v100\n", f"image={SHORT}\n")
        for text in (config, "[" + "[".join(config.split("[")[:0:-1])):
            looker.put("text", text.encode())
            yield looker.look(g, ["build", "text", "--out", "out"], f"cannot read {SHORT}\n", 1)


def largest(looker):
    """The largest eraseblocks, with files of 1, 20 and 100 MiB; and a text of 20 MB, most of it in one line."""
    g = LARGEST
    records, contents = {0: Record(3, 1, 1, 0, b"long", 0)}, {0: {1: noise(3, 10**7).ljust(g.leb, b"\xFF")}}
    yield from made(looker, Meaning(g, SEQ, records, contents), 1, ("compose",))
    yield from made(looker, meant_of(g, (20 * MIB, 100 * MIB, MIB)), 3, ("build",))
    yield from all_commands(looker, g, noise(78, g.leb))


def chips(looker):
    """Images of chips of three sizes, and outputs of two odd sizes."""
    for size in (MIB, 20 * MIB, 100 * MIB):
        ways = ("build", "compose") if size == 20 * MIB else ("build",)
        yield from made(looker, meant_of(CHIP, (size // 2, size // 3, 1)), 4, ways)
        yield from all_commands(looker, CHIP, noise(79, CHIP.leb))
    small = Meaning(CHIP, SEQ, {0: Record(1, 1, 1, 0, b"a", 0)}, {0: {0: noise(4, CHIP.leb)}})
    for spares in (299, 761, 4200):
        yield from made(looker, small, spares, ("compose", "build"))


def row(looker):
    """Sparse files in a row, which end beyond 4 GiB, or begin there."""
    g, sizes = LARGEST, (GIB + 12345, 3 * GIB + 999, 50 * MIB + 77)
    files = []
    for k, size in enumerate(sizes):
        parts = {100: noise(k, 999), size // 2 + 1: noise(k + 10, 999), size - 999: noise(k + 20, 999)}
        files.append(Sparse(size, parts))
    kinds = ("static", "dynamic", "static")
    config = "".join(f"[{k}]\nmode=ubi\nvol_id={k}\nvol_name=v{k}\nvol_type={kind}\nimage=v{k}\n"
        for k, kind in enumerate(kinds))
    for k, file in enumerate(files):
        file.put(looker.path(f"v{k}"))
    looker.put("config", config.encode())
    records = {k: Record(-(-size // g.leb), 1, 2 - k % 2, 0, b"v%d" % k, 0) for k, size in enumerate(sizes)}
    blocks = 2 + sum(r.reserved for r in records.values())
    yield looker.look(g, ["build", "config", "--seq", SEQ], f"blocks {blocks}\n", piped=built_pieces(g, records, files))


def built_pieces(geometry, records, files):
    """The image of volumes with these files, eraseblock by eraseblock."""
    yield from table_parts(geometry, records, (0, 1)).values()
    for number, r in records.items():
        for lnum, data in enumerate(shares(files[number], geometry.leb)):
            header = of_leb(lnum, 0, volume=number)
            if r.kind == 2:
                size, crc = len(data), rules.crc(data)
                header = dataclasses.replace(header, kind=2, size=size, used=r.reserved, data_crc=crc)
            yield rules.put_block(geometry, rules.put_ec(geometry, 0, SEQ), rules.put_vid(header), data)


def shares(file, size):
    """The bytes of a file in pieces of one size, except the last."""
    rest = b""
    for piece in file.pieces():
        rest += piece
        while len(rest) >= size:
            yield rest[:size]
            rest = rest[size:]
    if rest:
        yield rest


def geometry(looker):
    """Files with only the two tables and headers, up to 9 GiB; the same with a header of other offsets in the last
    eraseblock, which is part of the image still; and with bytes behind it that are no whole eraseblock."""
    for g, size in ((CHIP, MIB), (CHIP, 20 * MIB), (CHIP, 100 * MIB), (LARGEST, 5 * GIB), (LARGEST, 9 * GIB)):
        last = size - g.peb
        headers = {at: rules.put_ec(g, at // g.peb, SEQ) for at in range(0, size, g.peb)}
        file = Sparse(size, headers | table_parts(g, {}, (0, 1)))
        file.put(looker.path("far.img"))
        pages = (2048, 4096) if g == CHIP else (65536,)
        lines = [f"--peb {g.peb} --page {page} --vid {g.vid} --data {g.data}" for page in pages]
        yield looker.look(None, ["geometry", "far.img"], "".join(f"{line}\n" for line in lines))
        if size == 9 * GIB:
            break
        file.but({last: rules.put_ec(dataclasses.replace(g, vid=64))}).put(looker.path("far.img"))
        yield looker.look(None, ["geometry", "far.img"], "".join(f"{line}\n" for line in lines))
        Sparse(size + g.peb - 1, file.parts).put(looker.path("far.img"))
        parts = [f"{line} --start 0 --length {size}\n" for line in lines]
        yield looker.look(None, ["geometry", "far.img"], "".join(parts))


def huge(looker):
    """Files of 8 TiB, which are read no further than a device or a text may be long; and a long text, mostly of
    remarks."""
    records, contents = {0: Record(1, 1, 1, 0, b"a", 0)}, {0: {0: noise(1, LEAST.leb)}}
    few, volume = dataclasses.replace(LEAST, pebs=64), Meaning(LEAST, SEQ, records, contents)
    Sparse(HUGE, {}).put(looker.path("huge"))
    looker.put("image", rules.composed(volume, 2))
    # A volume of so many bytes reserves more eraseblocks than there are.
    for kind in ("dynamic", "static"):
        looker.put("config", f"[a]\nmode=ubi\nvol_id=0\nvol_name=a\nvol_type={kind}\nimage=huge\n".encode())
        yield looker.look(CHIP, ["build", "config", "--out", "out"], "refused M5 NoSpace\n", 1)
    # As many bytes as 2,100 LEBs have, and one more: the device, or what the volume reserves, has room for the former.
    most = 2100 * LARGEST.leb
    sizes = LARGEST, dataclasses.replace(LARGEST, pebs=2102)
    of_size = f"vol_size={most}\n"
    for g, size, more, spares, line in (
        (sizes[1], most + 1, "", 0, "refused M5 NoSpace\n"),
        (sizes[1], most, "", 1, "refused C1 TooMany\n"),
        (sizes[1], most, of_size, 1, "refused C1 TooMany\n"),
        (sizes[0], most + 1, of_size, 0, "refused I14 LongImage line=1\n"),
        (LEAST, 2**31 * LEAST.leb, "", 0, "refused I16 TooLarge line=1\n"),
        (LEAST, 2**31 * LEAST.leb - LEAST.leb, "", 0, "refused M5 NoSpace\n"),
    ):
        Sparse(size, {}).put(looker.path("large"))
        looker.put("config", f"[a]\nmode=ubi\nvol_id=0\nvol_name=a\nimage=large\n{more}".encode())
        yield looker.look(g, ["build", "config", "--spares", spares, "--out", "out"], line, 1)
    change = ["change", "image", "--id", 0, "--lnum", 0, "--from", "huge", "--out", "out"]
    yield looker.look(few, change, "refused K6 BadLength\n", 1)
    for command in ("compose", "build"):
        yield looker.look(few, [command, "huge", "--out", "out"], "cannot read huge\n", 1)
    os.remove(looker.path("huge"))
    looker.put("text", (b"#".ljust(MIB - 1) + b"\n") * 257 + "".join(spec_of(volume)).encode())
    yield looker.look(LEAST, ["compose", "text", "--seq", SEQ, "--out", "out"], "blocks 3\n",
        files=[("out", [rules.composed(volume, 0)])])


def links(looker):
    """An image above 1 GiB that is the output, or should be the pages, by a link. A normal image takes its place, and
    the other name of a hard link keeps it; a volume or pages do not."""
    g, records = LARGEST, {0: Record(3, 1, 1, 0, b"far", 0)}
    pieces, leb = spread(g, 1)
    free = {77 * g.peb: rules.put_block(g, rules.put_ec(g, 0, SEQ))}
    image = Sparse(80 * g.peb, table_parts(g, records, (0, 78)) | leb_parts(g, 79, of_leb(2, 9), pieces) | free)
    normal = [rules.normal_image(Meaning(g, SEQ, records, {0: {2: leb}}))]
    extract = ["extract", "far.img", "--id", 0]
    for make, words, line, status, new, old in (
        (os.link, ["normalise", "far.img"], "blocks 3\n", 0, normal, image.pieces()),
        (os.symlink, ["normalise", "far.img"], "blocks 3\n", 0, normal, normal),
        (os.link, extract, "cannot write link\n", 1, image.pieces(), image.pieces()),
        (os.symlink, extract, "cannot write link\n", 1, image.pieces(), image.pieces()),
    ):
        image.put(looker.path("far.img"))
        make(looker.path("far.img"), looker.path("link"))
        files = [("far.img", old), ("link", new)]
        yield looker.look(g, [*words, "--out", "link"], line, status, files=files)
        os.remove(looker.path("link"))
        os.remove(looker.path("far.img"))
    image.put(looker.path("far.img"))
    os.link(looker.path("far.img"), looker.path("link"))
    new = looker.put("new", noise(1, g.page))
    # A rename would take two free eraseblocks, and there is one.
    for words, line in (
        (["change", "far.img", "--id", 0, "--lnum", 2, "--from", new], "cannot write link\n"),
        (["rename", "far.img", "--id", 0, "--name", "a"], "refused K9 NoFree\n"),
    ):
        yield looker.look(g, [*words, "--out", "/dev/null", "--pages", "link"], line, 1,
            files=[("far.img", image.pieces())])


FAMILIES = (headers, places, beyond, views, many, volumes, largest, chips, row, geometry, huge, links)


def main():
    words = argparse.ArgumentParser(description=__doc__, formatter_class=argparse.RawDescriptionHelpFormatter)
    words.add_argument("--dir", default="/tmp")
    words.add_argument("--tool", help="the program; the one that ./ubi_tool starts by default")
    words.add_argument("families", nargs="*", metavar="FAMILY")
    words = words.parse_args()
    if not {family.__name__ for family in FAMILIES}.issuperset(words.families):
        raise SystemExit(f"sizes.py: no such family among {words.families}")
    if shutil.disk_usage(words.dir).free < ROOM:
        raise SystemExit(f"sizes.py: {words.dir} has no {ROOM} bytes free")
    tool, passed, failed = os.path.abspath(built(words.tool)), 0, 0
    for family in FAMILIES:
        if not words.families or family.__name__ in words.families:
            with tempfile.TemporaryDirectory(dir=words.dir) as folder:
                for what, is_right in family(Looker(tool, folder)):
                    passed, failed = passed + is_right, failed + (not is_right)
                    if not is_right:
                        print(f"{family.__name__}: {what}", flush=True)
    finish(passed, failed)


if __name__ == "__main__":
    main()
