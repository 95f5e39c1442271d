"""A second reading of the section "How a geometry is found" of docs/FORMAT.md: the geometries that the headers of a
file give, if nothing else is known about it, the part of the file that is the image, and the spans of all images if
there are several; or the cause for which no geometry is found.

It was written from that section and not from the program, so that the answers of the program can be compared with it.
It says each rule once, in the document's words. A refusal is the exception `Refused`, which holds the line that the
program prints, without `refused `.
"""
import collections
import dataclasses
import math

from rules import LAYOUT, RECORD, Geometry, Refused, is_blank, part_of, read_ec, read_vid, seen

MAGIC, VID_MAGIC = b"UBI#", b"UBI!"
# Headers lie at multiples of so many bytes, and have as many.
STEP = 64
# The most bytes of an eraseblock, the most eraseblocks of a device, and the most keys that headers may name.
TOP_SIZE, TOP_PEBS, TOP_KEYS = 2**24, 2**20, 256
PAGES = [2**k for k in range(6, 17)]
PAGES_WITH_MORE = [page for page in PAGES if page >= 256]
# How many pages with out-of-band bytes an eraseblock may have.
COUNTS = [2**k for k in range(4, 12)]


class NoSize(Refused):
    """Why no size can be found: headers name too many keys, no group gives one, or it isn't sure, as `why` says in a
    word."""

    def __init__(self, why):
        super().__init__("F2 NoSize")
        self.why = why


@dataclasses.dataclass(frozen=True)
class Header:
    """A header: its place, the two offsets that it names, and its image sequence number."""

    place: int
    offsets: tuple
    number: int


def headers(file):
    """The headers of a file, by rising place."""
    found, at = [], file.find(MAGIC)
    while at >= 0:
        raw = file[at : at + STEP]
        if at % STEP == 0 and len(raw) == STEP:
            offsets = (int.from_bytes(raw[16:20], "big"), int.from_bytes(raw[20:24], "big"))
            state, fields = read_ec(Geometry(0, 0, *offsets, 0), raw)
            if state == "valid":
                found.append(Header(at, offsets, fields.image_seq))
        at = file.find(MAGIC, at + 1)
    return found


@dataclasses.dataclass(frozen=True)
class Group:
    """The headers of a key, by their places: those that name its offsets, and its number or none."""

    offsets: tuple
    number: int
    places: list

    @property
    def key(self):
        return self.offsets, self.number

    @property
    def said(self):
        """The size that the headers give: the greatest common divisor of their distances; None if it is above the
        limit."""
        divisor = math.gcd(*(place - self.places[0] for place in self.places))
        return divisor if divisor <= TOP_SIZE else None

    @property
    def speaks_for(self):
        """How many bytes it speaks for: its size times the number of its headers less one."""
        return (len(self.places) - 1) * self.said


def groups(found):
    """The groups that have a size and speak for themselves, in the order in which their keys are first named."""
    named = collections.defaultdict(list)
    for header in found:
        named[header.offsets, header.number].append(header.place)
    with_number = {offsets for offsets, number in named if number}
    for (offsets, number), places in list(named.items()):
        if number:
            places = sorted(places + named.get((offsets, 0), []))
        elif offsets in with_number:
            continue
        group = Group(offsets, number, places)
        if len(places) > 1 and group.said:
            yield group


# The pages that an image may have.


@dataclasses.dataclass(frozen=True)
class Pages:
    """A geometry, and the number of out-of-band bytes after each page."""

    geometry: Geometry
    oob: int

    def place(self, x):
        """Where the byte x of an eraseblock lies in it with the out-of-band bytes."""
        page = self.geometry.page
        return x // page * (page + self.oob) + x % page

    @property
    def last_record(self):
        """Where the last record of the table begins."""
        return self.place(self.geometry.data + RECORD * (self.geometry.slots - 1))

    def has_vid_magic(self, file, start):
        at = start + self.place(self.geometry.vid)
        return file[at : at + 4] == VID_MAGIC

    def votes(self, file, starts):
        """How many of the eraseblocks that start there have the magic of a VID header at its place."""
        return sum(self.has_vid_magic(file, start) for start in starts)

    def copy_at(self, file, start):
        """The LEB number of the copy of the volume table that an eraseblock holds; None if it holds none."""
        vid, record = start + self.place(self.geometry.vid), start + self.last_record
        is_layout = self.has_vid_magic(file, start) and int.from_bytes(file[vid + 8 : vid + 12], "big") == LAYOUT
        return file[vid + 12 : vid + 16] if is_layout and not is_blank(file[record : record + 64]) else None


def fits(geometry):
    """Whether the sizes keep the limits, and the data begin where Linux puts them."""
    page, after_header = geometry.page, geometry.vid + 64
    return geometry.fault() is None and geometry.data == (after_header + page - 1) // page * page


def pages_without(q, offsets):
    """The pages that eraseblocks of q bytes without out-of-band bytes may have, the smallest first."""
    of = (Geometry(q, page, *offsets, TOP_PEBS) for page in PAGES)
    return [Pages(geometry, 0) for geometry in of if fits(geometry)]


def pages_with(q, offsets):
    """The pages that eraseblocks of q bytes with out-of-band bytes may have, the smallest first, and for the same page
    the fewest first."""
    found = []
    for page in PAGES_WITH_MORE:
        for count in COUNTS:
            oob = q // count - page
            geometry = Geometry(count * page, page, *offsets, TOP_PEBS)
            if q % count == 0 and 1 <= oob and 4 * oob <= page and fits(geometry):
                found.append(Pages(geometry, oob))
    return found


def pages_of(file, group, q):
    """The pages of an image of eraseblocks of q bytes, or why there are none."""
    without, with_more = pages_without(q, group.offsets), pages_with(q, group.offsets)
    votes = {pages: pages.votes(file, group.places) for pages in (*without, *with_more)}
    most_without, most_with = (max((votes[pages] for pages in of), default=0) for of in (without, with_more))
    if not with_more or most_without > most_with:
        chosen = [pages for pages in without if votes[pages]]
    else:
        chosen = [pages for pages in with_more if votes[pages] == most_with > 0]
    if chosen:
        return chosen
    if votes:
        raise Refused(f"F5 OutOfBand peb={q}")
    raise Refused(f"F6 Page peb={q} vid={group.offsets[0]} data={group.offsets[1]}")


# Whether the size is sure.


def has_room(q, offsets):
    return offsets[1] + 64 <= q


def start_most(group, q):
    """Whether more than half of the eraseblocks from the first header to the last start with one."""
    return 2 * len(group.places) > (group.places[-1] - group.places[0]) // q + 1


def start_each_second(group, q):
    """Whether at least a quarter of those with even numbers do, and of those with odd numbers."""
    count = (group.places[-1] - group.places[0]) // q + 1
    there = {(place - group.places[0]) // q for place in group.places}
    seconds = (range(count)[first::2] for first in (0, 1))
    return all(4 * len(there.intersection(second)) >= len(second) for second in seconds)


def is_odd_with_more(q, offsets):
    """Whether q could be two or four eraseblocks that are no multiple of 64: it is no multiple of 128, and a page with
    out-of-band bytes fits half or a quarter of it."""
    return q % 128 != 0 and any(q % of == 0 and pages_with(q // of, offsets) for of in (2, 4))


def ends_blank(file, group, q):
    """Whether one of the eraseblocks, or its last page if it has out-of-band bytes, ends with 16 bytes 0xFF."""
    more = {0, *(pages.oob for pages in pages_with(q, group.offsets))}
    return any(is_blank(file[start + q - oob - 16 : start + q - oob]) for start in group.places for oob in more)


def is_filled(file, at, count=64):
    """Whether something is there: so many bytes that are neither all 0xFF nor all zero."""
    raw = file[at : at + count]
    return not is_blank(raw) and any(raw)


def goes_on(file, at, part):
    """Whether the contents of an eraseblock go on where a part begins: something is in 192 bytes, or in all of a
    shorter part, and doesn't follow 16 bytes 0xFF."""
    return is_filled(file, at, min(part, 192)) and not is_blank(file[at - 16 : at])


def holds_tables(file, group, q):
    """Whether two eraseblocks of q bytes that follow each other hold the two copies of the volume table."""
    for pages in (*pages_without(q, group.offsets), *pages_with(q, group.offsets)):
        copies = {start: pages.copy_at(file, start) for start in group.places}
        for start, copy in copies.items():
            following = copies.get(start + q)
            if copy is not None and following is not None and copy != following:
                return True
    return False


def primes_of(number):
    """The primes that divide a number."""
    primes, prime = [], 2
    while number > 1:
        if number % prime == 0:
            primes.append(prime)
            while number % prime == 0:
                number //= prime
        prime = prime + 1 if prime * prime <= number else number
    return primes


def parts(q, offsets):
    """The parts of q: q divided by a prime, if that is a multiple of 64 with room for data."""
    of = (q // prime for prime in primes_of(q))
    return [part for part in of if part % STEP == 0 and has_room(part, offsets)]


def could_be(file, group, q, part):
    """Whether a part of q could be the size."""
    places = [at for start in group.places[:-1] for at in range(start + part, start + q, part)]
    goes = any(goes_on(file, at, part) for at in places)
    return not goes or any(is_filled(file, at) and is_blank(file[at - 16 : at]) for at in places)


def doubt(file, group, q):
    """Why it isn't sure that these headers are those of eraseblocks of q bytes; None if it is."""
    if not has_room(q, group.offsets):
        return "room"
    if not start_most(group, q):
        return "half"
    if not start_each_second(group, q):
        return "second"
    if is_odd_with_more(q, group.offsets):
        return "odd"
    if not ends_blank(file, group, q):
        return "end"
    if holds_tables(file, group, q):
        return None
    if len(group.places) < 3:
        return "few"
    return "part" if any(could_be(file, group, q, part) for part in parts(q, group.offsets)) else None


# Which image it is, and where it lies.


def plain_image(file, found):
    """The headers of a file that is plainly an image, and the size of its eraseblocks; None if it isn't."""
    if len(found) < 2 or found[0].place:
        return None
    q = found[1].place
    if q > TOP_SIZE or len(file) % q or any(header.place < 2 * q for header in found[2:]):
        return None
    starts = [header for header in found if header.place % q == 0]
    numbers = {header.number for header in starts} - {0}
    if len(starts) != len(file) // q or len({header.offsets for header in starts}) > 1 or len(numbers) > 1:
        return None
    # Their group is that of the number that one of them names, or of no number if none does.
    group = Group(found[0].offsets, max(numbers, default=0), [header.place for header in starts])
    of_image = [header for header in found if header.offsets == group.offsets and header.number in numbers | {0}]
    others = [header.place for header in of_image if header.place % q]
    if any(place % part == 0 for place in others for part in parts(q, group.offsets)):
        return None
    return None if doubt(file, group, q) else (group, q)


def image_of(file, found):
    """The headers of the image in a file, the size of its eraseblocks, which is sure, and whether the file is plainly
    the image."""
    if not found:
        raise Refused("F1 NoHeader")
    plain = plain_image(file, found)
    if plain:
        return *plain, True
    if len({(header.offsets, header.number) for header in found}) > TOP_KEYS:
        raise NoSize("keys")
    # If several speak for as many bytes, `max` returns the first.
    group = max(groups(found), key=lambda group: group.speaks_for, default=None)
    if group is None:
        raise NoSize("group")
    q, rest = group.said, len(file) - group.places[-1]
    if rest < q:
        raise Refused(f"F3 Length peb={q} rest={rest}")
    why = doubt(file, group, q)
    if why:
        raise NoSize(why)
    return group, q, False


def bounds(file, group, q):
    """Where the image begins and where it ends: it is every whole eraseblock of the file on the grid of its headers."""
    begin = group.places[0] % q
    return begin, begin + (len(file) - begin) // q * q


# Other images in the file.


def is_member(file, pages, start):
    """Whether the eraseblock that starts there is a member of a LEB."""
    g = pages.geometry
    vid = start + pages.place(g.vid)
    state, header = read_vid(g, file[vid : vid + 64])
    is_aside = read_ec(g, file[start : start + 64])[0] == "blank" or state != "valid"
    return not is_aside and (header.volume <= 127 or header.volume == LAYOUT)


def is_kin(group, image, q):
    """Whether a group names the offsets of the image, and all its headers stand on the image's grid."""
    return group.offsets == image.offsets and all((place - image.places[0]) % q == 0 for place in group.places)


def stands_apart(file, pages, begin, end, q, place):
    """Whether no whole eraseblock that is a member of a LEB has a place; they lie from BEGIN to END."""
    start = place - (place - begin) % q
    return not begin <= place < end or not is_member(file, pages, start)


def span(file, group, q):
    """From the first header of a group to the end of the eraseblock of the last one, or to the end of the file."""
    begin = group.places[0]
    return begin, min(group.places[-1] + q, len(file)) - begin


def images(file, found, image, q, pages):
    """The spans of all images of a file that isn't plainly an image, if there are several, in the order of their keys;
    and whether they are apart. PAGES is the first geometry that is found."""
    begin, end = bounds(file, image, q)
    spans, is_apart, several = [], False, False
    for group in groups(found):
        if group.key == image.key:
            spans.append(span(file, image, q))
            continue
        kin = is_kin(group, image, q)
        if kin or sum(stands_apart(file, pages, begin, end, q, place) for place in group.places) > 1:
            spans.append(span(file, group, group.said))
            is_apart, several = is_apart or not kin, True
    return (spans, is_apart) if several else ([], False)


# What is found.


@dataclasses.dataclass(frozen=True)
class Found:
    """What is found in a file: a geometry, the number of out-of-band bytes after each page, and the part of the file
    that is the image."""

    geometry: Geometry
    oob: int
    start: int
    length: int
    is_whole: bool

    @property
    def peb(self):
        """The bytes of an eraseblock, with its out-of-band bytes."""
        return self.geometry.peb // self.geometry.page * (self.geometry.page + self.oob)

    def line(self):
        g = self.geometry
        parts = [f"--peb {g.peb} --page {g.page} --vid {g.vid} --data {g.data}"]
        parts += [f"--oob {self.oob}"] if self.oob else []
        parts += [] if self.is_whole else [f"--start {self.start} --length {self.length}"]
        return " ".join(parts) + "\n"

    def image(self, file):
        """The image without out-of-band bytes, and with the eraseblocks before it."""
        return seen(self.geometry, file, self.start, self.length, self.oob)


@dataclasses.dataclass(frozen=True)
class Answer:
    """What is found in a file: the geometries, in the order in which they are printed; the spans of all images, if
    there are several; and whether these are apart."""

    geometries: list
    spans: list
    is_apart: bool

    def lines(self):
        spans = (f"--start {start} --length {length}\n" for start, length in self.spans)
        return [*(found.line() for found in self.geometries), *spans]

    def refusal(self):
        """The line with which a command without a part refuses the images; None if they aren't apart."""
        spans = " ".join(f"start={start} length={length}" for start, length in self.spans)
        return f"refused F10 Images {spans}\n" if self.is_apart else None


def answer(file, start=0, length=None):
    """What is found in a part of a file. Its places are those in the file."""
    part = part_of(file, start, length)
    found = headers(part)
    group, q, is_plain = image_of(part, found)
    pages = pages_of(part, group, q)
    begin, end = bounds(part, group, q)
    spans, is_apart = ([], False) if is_plain else images(part, found, group, q, pages[0])
    is_whole = length is None and (start + begin, start + end) == (0, len(file))
    here = [Found(one.geometry, one.oob, start + begin, end - begin, is_whole) for one in pages]
    return Answer(here, [(start + at, size) for at, size in spans], is_apart)


def geometries(file, start=0, length=None):
    """The geometries that the headers of a part of a file give, in the order in which they are printed."""
    return answer(file, start, length).geometries


def find(file, start=0, length=None):
    """The lines of `geometry` for a part of a file."""
    return answer(file, start, length).lines()


def printed(file, start=0, length=None):
    """What `geometry` prints for a part of a file, and the exit status."""
    try:
        return "".join(find(file, start, length)), 0
    except Refused as refused:
        return f"refused {refused}\n", 1
