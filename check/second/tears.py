#!/usr/bin/env python3
"""Lets the power fail during steps of random plans, and checks that what is left means the old or the new.

usage: tears.py [--seed N] [--count N] [--large N] [--first N] [--dir FOLDER] [--tool PROGRAM] [--alone]

The images are those of cuts.py, which a `change` and a `rename` are planned for, and those of updates.py with their
lists of edits for `update`. Some of their eraseblocks are bad, with anything in them; some have a volume-identifier
header behind a blank erase-counter header; and some plans keep blank ones. The program gives the plan: its printed
steps and their pages. Of up to 15 steps of a plan, among them those around the commit point and a few erases, this
script draws what is left of the eraseblock that the step works on:

- of an erase any bytes. But an erase-counter header that is blank stays so if the volume-identifier header isn't blank;
- of a program the old bytes with some of the bits cleared that the program is to clear;
- if more goes wrong, any bytes in the place of all that was programmed since the erase, this page too. Only what lies
  behind all of it is still 0xFF.

No CRC is right by chance: a header that reads as valid or at fault is that of the eraseblock before the step or after
it; and the data of a copy, if they have the CRC of its header, are its data before the step or after it. What is drawn
and breaks this is counted and not judged.

check/second/rules.py judges what is left of the image. It has to be accepted; to mean the old during each step before
the one that reaches the commit point, the new during each step after it, and either of them during that one. If more
goes wrong, it means the old before the commit point, either of them until all pages of the copy are programmed, and the
new from then on. The new meaning and the commit point are worked out from the edits and docs/FORMAT.md. For some of
these images `check`, `list` and `extract` have to agree. Then the same edits are planned again on one of them, and
steps of that plan are torn. What isn't planned has to be refused for the cause of the rules.

Last come plans that are wrong, made from right ones by hand: for each of them the judge has to find a tear after which
the image is refused or means neither the old nor the new. And tears that aren't allowed: what is said above has to rule
them out, and they lead to neither the old nor the new. For right plans a tear has to be found that breaks the promise
if the commit point were one step earlier or later.

By default there are 100 images (--count) of the seed 1 (--seed) with eraseblocks of up to 1 KiB for each of the three
commands, and one (--large) with eraseblocks of 128 KiB. They lie in a new folder below FOLDER (/tmp by default), which
is removed afterwards. Without --tool the program is built first, unless it is built already. With --alone no program is
run, and the rules' own plans are torn. It counts the torn steps by what is left. The last line is 'N passed, M failed',
and the exit status is 0 if none failed; an image that failed can be made again by giving its number to --first.
"""
import collections
import dataclasses
import subprocess

import rules
import update_rules
from cuts import GEOMETRIES, NAMES, Device
from fuzz import REAL_SIZES, Failure, Lister, Runner, built, either, expect, finish, run_cases, taken_file
from rules import LAYOUT, Image, Record, Refused
from updates import HAND, SIZES, Drawn, UpdateMaker, hand_image, options

# Of how many steps of a plan what is left is drawn, and of how many erases, besides those around the commit point.
STEPS, SOME_ERASES = 6, 3
# How many of the torn images are given to the program.
SHARE = 0.1
# How often each way is tried on each step of the plans that were made by hand.
TIMES = 4


# Bytes and bits.


def bits_of(data):
    return int.from_bytes(data, "big")


def bytes_of(bits, size):
    return bits.to_bytes(size, "big")


def bits_between(size, first, last):
    """The bits of the bytes from one place to another, of so many bytes."""
    return ((1 << 8 * (last - first)) - 1) << 8 * (size - last)


def some_bits(rng, size):
    """Random bits of so many bytes: few of them, half, or most."""
    bits, is_few = rng.getrandbits(8 * size), rng.random() < 0.5
    for _ in range(rng.choice((0, 0, 1, 3, 6))):
        more = rng.getrandbits(8 * size)
        bits = bits & more if is_few else bits | more
    return bits


def one_of_bits(rng, bits):
    """One of the bits that are set; none if there is none."""
    low = max(0, (bits & -bits).bit_length() - 1)
    places = [place for place, digit in enumerate(reversed(f"{bits >> low:b}"), low) if digit == "1"]
    return 1 << rng.choice(places) if places else 0


# A step and its eraseblock, and what may be left of it.


class Work:
    """A step of a plan, and the eraseblock that it works on, before it and after it."""

    def __init__(self, geometry, image, step):
        self.geometry, self.at = geometry, step[1] * geometry.peb
        self.is_erase = step[0] == "erase"
        self.page = None if self.is_erase else step[2]
        self.before = bytes(image[self.at : self.at + geometry.peb])
        self.after = self.done(step)
        # Behind this place all is 0xFF before the step and after it.
        self.end = max(len(block.rstrip(b"\xFF")) for block in (self.before, self.after))

    def done(self, step):
        block = bytearray(self.before)
        try:
            rules.do(self.geometry, block, (step[0], 0, *step[2:]))
        except AssertionError as wrong:
            raise Failure(str(wrong)) from None
        return bytes(block)

    def headers(self, block):
        """What the two headers of an eraseblock are."""
        vid = self.geometry.vid
        return rules.read_ec(self.geometry, block[:64]), rules.read_vid(self.geometry, block[vid : vid + 64])

    def is_put_aside(self):
        """Whether the erase-counter header before the step is blank, and the other one isn't."""
        return [state == "blank" for state, _ in self.headers(self.before)] == [True, False]

    def torn(self, image, left):
        """The image if the eraseblock holds what is left."""
        return b"".join((image[: self.at], left, image[self.at + self.geometry.peb :]))


def may_be_left(work, left):
    """Whether an eraseblock may hold these bytes if the power fails during the step."""
    if work.is_erase:
        return not work.is_put_aside() or rules.is_blank(left[:64])
    before, now, after = map(bits_of, (work.before, left, work.after))
    return before & now == now and now & after == after


def may_be_harmed(work, left):
    """Whether it may hold them if more goes wrong."""
    return may_be_left(work, left) if work.is_erase else rules.is_blank(left[work.end :])


def told(state, header):
    """What a CRC vouches for in a header: its fault or its fields; None if it has no CRC that is right."""
    if state in ("blank", "corrupt"):
        return None
    return header if state == "valid" else state


def is_by_chance(work, left):
    """Whether some bytes have a CRC that is right by chance: that of a header, or of the data of a copy."""
    found, *known = (work.headers(block) for block in (left, work.before, work.after))
    for header, *others in zip(found, *known):
        if told(*header) not in (None, *(told(*other) for other in others)):
            return True
    return is_copy_by_chance(work, left, found[1])


def is_copy_by_chance(work, left, found):
    """Whether that holds for the data of a copy, whose header was found."""
    state, header = found
    if state != "valid" or not header.copy:
        return False
    data, *others = (block[work.geometry.data :][: header.size] for block in (left, work.before, work.after))
    if rules.crc(data) != header.data_crc:
        return False
    known = (work.headers(block)[1] for block in (work.before, work.after))
    return (found, data) not in zip(known, others)


# What is left of a program: of the bits that it is to clear it has cleared some.


def cleared(work, bits):
    """The eraseblock, if of some bits those are cleared that the step clears."""
    before, after = bits_of(work.before), bits_of(work.after)
    return bytes_of(before & ~(before & ~after & bits), len(work.before))


def all_bits(work):
    """The bits that the program clears."""
    return bits_of(work.before) & ~bits_of(work.after)


def place_of(work):
    """Where the page that is programmed begins and ends."""
    return work.page * work.geometry.page, (work.page + 1) * work.geometry.page


def part_of(rng, work):
    """The bits of a header that the program writes; or, if it writes none, of a few bytes of the page."""
    size, (first, last) = work.geometry.peb, place_of(work)
    spans = [bits_between(size, at, at + 64) for at in (0, work.geometry.vid) if first <= at < last]
    written = [span for span in spans if span & all_bits(work)]
    at = rng.randrange(first, last)
    return rng.choice(written or [bits_between(size, at, rng.randrange(at, last) + 1)])


def some(rng, work):
    return cleared(work, some_bits(rng, work.geometry.peb))


def first_bytes(rng, work):
    first, last = place_of(work)
    return cleared(work, bits_between(work.geometry.peb, first, rng.randrange(first, last)))


def last_bytes(rng, work):
    first, last = place_of(work)
    return cleared(work, bits_between(work.geometry.peb, rng.randrange(first, last) + 1, last))


def one_bit(rng, work):
    return cleared(work, one_of_bits(rng, all_bits(work)))


def all_but_one_bit(rng, work):
    return cleared(work, all_bits(work) & ~one_of_bits(rng, all_bits(work)))


def part_whole(rng, work):
    return cleared(work, part_of(rng, work) | some_bits(rng, work.geometry.peb))


def part_torn(rng, work):
    return cleared(work, ~part_of(rng, work) | some_bits(rng, work.geometry.peb))


def part_missing(rng, work):
    return cleared(work, ~part_of(rng, work))


def as_before(rng, work):
    return work.before


def as_after(rng, work):
    return work.after


# What is left of an erase.


def bits_set(rng, work):
    return bytes_of(bits_of(work.before) | some_bits(rng, work.geometry.peb), work.geometry.peb)


def some_end(rng, work):
    """A place in the eraseblock: mostly one where a page ends."""
    size, page = work.geometry.peb, work.geometry.page
    return rng.randrange(1, size // page) * page if rng.random() < 0.8 else rng.randrange(size)


def first_erased(rng, work):
    end = some_end(rng, work)
    return b"\xFF" * end + work.before[end:]


def last_erased(rng, work):
    end = some_end(rng, work)
    return work.before[:end].ljust(len(work.before), b"\xFF")


def with_headers(work, block, rest):
    """The headers of an eraseblock, and other bytes in the place of the rest."""
    end = work.geometry.vid + 64
    return (block[:end] + rest[end:]).ljust(len(block), b"\xFF")


def data_torn(rng, work):
    other = rng.choice((bits_set, anything, last_erased, first_erased))
    return with_headers(work, work.before, other(rng, work))


def data_missing(rng, work):
    return with_headers(work, work.before, rng.choice((b"\xFF", b"\0")) * work.geometry.peb)


def other_table(rng, work):
    """The headers stay, and what is left of the data would be a table."""
    records = rng.choice(({}, {0: Record(1, 1, 1, 0, b"other", 0)}))
    table = rules.put_table(work.geometry, records)
    return with_headers(work, work.before, table.rjust(work.geometry.data + len(table), b"\xFF"))


def without(rng, block, at):
    """An eraseblock without the header at a place: it is blank, or can't be read."""
    other = rng.choice((b"\xFF" * 64, bytes(64), rng.randbytes(64)))
    return block[:at] + other + block[at + 64 :]


def counter_gone(rng, work):
    return without(rng, work.before, 0)


def volume_gone(rng, work):
    return without(rng, work.before, work.geometry.vid)


def anything(rng, work):
    return rng.randbytes(work.geometry.peb)


def one_bit_missing(rng, work):
    bits = bits_between(work.geometry.peb, 0, work.geometry.peb)
    return bytes_of(bits & ~(1 << rng.randrange(8 * work.geometry.peb)), work.geometry.peb)


# What is left of a program if more goes wrong.


def any_page(rng, work):
    size = work.geometry.page
    at = rng.randrange(-(-work.end // size)) * size
    return work.after[:at] + rng.randbytes(size) + work.after[at + size :]


def flipped(rng, work):
    bits = bits_of(work.after)
    for _ in range(rng.choice((1, 1, 2, 9))):
        bits ^= 1 << 8 * work.geometry.peb - 1 - rng.randrange(8 * work.end)
    return bytes_of(bits, work.geometry.peb)


def data_harmed(rng, work):
    return with_headers(work, work.after, rng.choice((rng.randbytes(work.end), bytes(work.end))))


def header_harmed(rng, work):
    return without(rng, work.after, rng.choice((0, work.geometry.vid)))


def both_torn(rng, work):
    """The program is torn, and a part of what was programmed before reads other bytes."""
    first, last = sorted(rng.randrange(work.end + 1) for _ in range(2))
    left = some(rng, work)
    return left[:first] + rng.randbytes(last - first) + left[last:]


def all_harmed(rng, work):
    return rng.choice((rng.randbytes(work.end), bytes(work.end), b""))


PROGRAMS = {
    "some of its bits": some,
    "its first bytes": first_bytes,
    "its last bytes": last_bytes,
    "one bit": one_bit,
    "all but one bit": all_but_one_bit,
    "a header and some bits": part_whole,
    "some bits of a header": part_torn,
    "all but a header": part_missing,
    "nothing of it": as_before,
    "all of it": as_after,
}
ERASES = {
    "some bits set": bits_set,
    "the first part erased": first_erased,
    "the last part erased": last_erased,
    "the headers and torn data": data_torn,
    "the headers alone": data_missing,
    "the headers and a table": other_table,
    "no erase-counter header": counter_gone,
    "no volume-identifier header": volume_gone,
    "any bytes": anything,
    "all but one bit set": one_bit_missing,
    "nothing of it": as_before,
    "all of it": as_after,
}
HARMS = {
    "a page of any bytes": any_page,
    "flipped bits": flipped,
    "the headers and any data": data_harmed,
    "a header that is harmed": header_harmed,
    "a torn page and harmed ones": both_torn,
    "any bytes throughout": all_harmed,
}


@dataclasses.dataclass(frozen=True)
class Tear:
    """What is left of a step: of which kind it is, whether more goes wrong, and the bytes of the eraseblock."""

    kind: str
    is_harm: bool
    left: bytes

    def is_allowed(self, work):
        return may_be_harmed(work, self.left) if self.is_harm else may_be_left(work, self.left)


def torn_erase(rng, work, kind):
    left = ERASES[kind](rng, work)
    left = b"\xFF" * 64 + left[64:] if work.is_put_aside() else left
    return Tear(f"erase: {kind}", False, left)


def torn_program(rng, work, kind):
    return Tear(f"program: {kind}", False, PROGRAMS[kind](rng, work))


def harmed_program(rng, work, kind):
    left = HARMS[kind](rng, work)[: work.end].ljust(work.geometry.peb, b"\xFF")
    return Tear(f"more goes wrong: {kind}", True, left)


def every_tear(rng, work):
    """A tear of a step in each way."""
    if work.is_erase:
        return [torn_erase(rng, work, kind) for kind in ERASES]
    return [torn_program(rng, work, kind) for kind in PROGRAMS] + [harmed_program(rng, work, kind) for kind in HARMS]


def some_tears(rng, work):
    """A tear of random bits and another one, or of an erase three others, since few steps are erases; and of a program
    one after which more goes wrong."""
    ways, torn, count = (ERASES, torn_erase, 3) if work.is_erase else (PROGRAMS, torn_program, 1)
    random, *others = ways
    for kind in (random, *rng.sample(others, count)):
        yield torn(rng, work, kind)
    if not work.is_erase:
        yield harmed_program(rng, work, rng.choice(list(HARMS)))


# What is promised, and whether it holds.


@dataclasses.dataclass(frozen=True)
class Promise:
    """What is promised of the tears of a plan: the old meaning and the new, after how many steps the new is meant, and
    after how many all pages of the copy are programmed."""

    old: tuple
    new: tuple
    commit: int
    last: int

    def meant(self, k, is_harm):
        """What an image may mean if the power fails during step k, counted from 0."""
        is_old = k < (self.last if is_harm else self.commit)
        return [meaning for meaning, may_be in ((self.old, is_old), (self.new, self.commit <= k + 1)) if may_be]

    def called(self, meaning):
        return "the old" if meaning == self.old else "the new" if meaning == self.new else "neither the old nor the new"


def is_head(geometry, step, leb):
    """Whether a step programs the header of a copy of a LEB."""
    page, at = divmod(geometry.vid, geometry.page)
    if step[0] != "program" or step[2] != page:
        return False
    state, header = rules.read_vid(geometry, step[3][at : at + 64])
    return state == "valid" and bool(header.copy) and (header.volume, header.lnum) == leb


def commit_of(geometry, steps, leb, new):
    """After how many steps the new is meant, and after how many all pages of the copy are programmed. The commit point
    is the program of the last page of the copy's new bytes that isn't blank, or of its header if all are blank."""
    found = [k for k, step in enumerate(steps) if is_head(geometry, step, leb)]
    expect(len(found) == 1, f"{len(found)} steps and not one program the header of the copy of {leb}")
    first, places = geometry.data // geometry.page, [step[:3] for step in steps]

    def after_pages(count):
        if not count:
            return found[0] + 1
        place = ("program", steps[found[0]][1], first + count - 1)
        expect(place in places[found[0] :], f"{place} isn't among the steps")
        return places.index(place, found[0]) + 1

    return after_pages(-(-len(new.rstrip(b"\xFF")) // geometry.page)), after_pages(len(new) // geometry.page)


def promise_of(image, steps, leb, new, meant):
    """What is promised for the steps of a plan that gives a LEB new bytes."""
    return Promise(image.meaning(), meant, *commit_of(image.geometry, steps, leb, new))


def works(geometry, data, steps):
    """Each step of a plan as work on its eraseblock, and the image before it, which is then changed."""
    now = bytearray(data)
    for step in steps:
        work = Work(geometry, now, step)
        yield work, now
        now[work.at : work.at + geometry.peb] = work.after


def meaning_of(read, data):
    """What an image means, or why it is refused."""
    try:
        return read(data).meaning()
    except Refused as refused:
        return f"refused {refused}"


# Random plans.


@dataclasses.dataclass(frozen=True)
class Asked:
    """What is asked of the program: its words; why the rules refuse it, or None; or else their steps, the LEB that
    commits them and its new bytes, and the new meaning."""

    words: list
    refusal: str | None
    steps: list
    leb: tuple = None
    new: bytes = None
    meant: tuple = None


class Torn:
    """Tears steps of the plans for an image. It is mixed with a Runner that has a random generator, the `data` of an
    image, and what was `asked` for an image."""

    def look(self):
        """Tears steps of the plan for the image, and then of plans for what that leaves. Returns what came up."""
        self.came_up = collections.Counter()
        left = self.look_image(self.some_put_aside(self.data))
        for _ in range(self.rng.choice((1, 1, 2))):
            if left is not None:
                self.came_up["asked again on a torn image"] += 1
                left = self.look_image(self.other_bad(left))
        return self.came_up

    def some_put_aside(self, data):
        """The image; now and then some members of volumes are put aside, since their erase-counter header is blank."""
        rng, peb, vid = self.rng, self.geometry.peb, self.geometry.vid
        if rng.random() < 0.7:
            return data
        blocks = [data[at : at + peb] for at in range(0, len(data), peb)]
        headers = [block[vid : vid + 64] for block in blocks]
        table = LAYOUT.to_bytes(4, "big")
        members = [p for p, header in enumerate(headers) if header[:4] == b"UBI!" and header[8:12] != table]
        for p in rng.sample(members, min(len(members), rng.choice((1, 2, 4)))):
            blocks[p] = b"\xFF" * 64 + blocks[p][64:]
        return b"".join(blocks)

    def look_image(self, data):
        """Tears steps of the plan for an image. Returns one of the torn images, or None if nothing is planned."""
        try:
            image = self.read(data)
        except Refused:
            self.came_up["images that are refused"] += 1
            return None
        asked = self.asked(self.put("image", data), image)
        steps = self.planned(asked)
        if asked.refusal:
            self.came_up["plans that are refused"] += 1
            return None
        self.came_up["plans"] += 1
        return self.look_plan(data, steps, promise_of(image, steps, asked.leb, asked.new, asked.meant))

    def planned(self, asked):
        """The steps of the program's plan; without a program those of the rules."""
        if not self.tool:
            return asked.steps
        ran = subprocess.run([self.tool, *asked.words], capture_output=True)
        text, pages = ran.stdout.decode(), taken_file(self.pages)
        taken_file(self.out)
        if asked.refusal:
            expect((text, ran.returncode) == (f"refused {asked.refusal}\n", 1), f"not {asked.refusal!r} but {text!r}")
            return []
        expect(ran.returncode == 0, f"{asked.words} answers {text!r}")
        lines = text.splitlines()
        count = next(k for k, line in enumerate(lines) if line.startswith("steps "))
        return list(rules.read_steps(self.geometry, lines[count + 1 :], pages))

    def look_plan(self, data, steps, promise):
        """Tears some steps of a plan. Returns one of the torn images."""
        drawn, torn = self.some_steps(steps, promise), None
        kept = self.rng.choice(drawn)
        for k, (work, before) in enumerate(works(self.geometry, data, steps)):
            for tear in some_tears(self.rng, work) if k in drawn else ():
                left = self.look_tear(work, before, tear, k, promise)
                torn = left if k == kept and left else torn
        return torn

    def some_steps(self, steps, promise):
        """Some steps of a plan, and those around the commit point and at the end of the copy."""
        erases = [k for k, step in enumerate(steps) if step[0] == "erase"]
        around = {promise.commit + k for k in range(-2, 2)} | {promise.last - 1, promise.last}
        return sorted({
            *(k for k in around if 0 <= k < len(steps)),
            *self.rng.sample(range(len(steps)), min(len(steps), STEPS)),
            *self.rng.sample(erases, min(len(erases), SOME_ERASES)),
        })

    def look_tear(self, work, before, tear, k, promise):
        """Judges what a tear of step k leaves. Returns the torn image, or None if it isn't judged."""
        assert tear.is_allowed(work), f"{tear.kind} isn't allowed"
        if is_by_chance(work, tear.left):
            self.came_up["not judged, with a CRC that is right by chance"] += 1
            return None
        torn = work.torn(before, tear.left)
        found = meaning_of(self.read, torn)
        if found not in promise.meant(k, tear.is_harm):
            raise Failure(self.said(work, tear, k, promise, found))
        self.came_up.update([tear.kind, "torn steps"])
        self.came_up["torn erases of what was put aside"] += work.is_erase and work.is_put_aside()
        if self.tool and self.rng.random() < SHARE:
            self.came_up["torn steps, given to the program"] += 1
            self.look_answers(self.put("torn", self.other_bad(torn)), self.read(torn))
        return torn

    def said(self, work, tear, k, promise, found):
        """How a tear broke the promise."""
        means = f"is {found}" if isinstance(found, str) else f"means {promise.called(found)}"
        place = f"step {k} of a plan with its commit at {promise.commit}, in eraseblock {work.at // self.geometry.peb}"
        return f"{tear.kind}, of {place}: the image {means}"


class OfDevice(Torn, Runner):
    """A random image of cuts.py."""

    def __init__(self, rng, tool, folder, geometries):
        self.device = Device(rng, geometries)
        super().__init__(tool, folder, self.device.geometry())
        self.rng, self.data, self.bad = rng, self.device.image, self.device.of_bad
        self.is_bad = self.device.bad.__contains__
        self.lister = Lister(rng, self.geometry, self.data)

    def read(self, data):
        image = super().read(data)
        return image.keeping_blank() if self.device.keeps_blank else image

    def other_bad(self, data):
        """An image with any other bytes in the bad eraseblocks."""
        return self.lister.others(data, self.is_bad)

    def more(self):
        return [*self.device.of_plan, *either(self.rng, "--pages", self.pages)]


class Changed(OfDevice):
    """A change of a LEB of a random image."""

    def __init__(self, *image):
        super().__init__(*image)
        self.lnum, self.new = self.device.some_change()

    def asked(self, path, image):
        words, refusal, steps, meant = self.change(path, image, 0, self.lnum, self.new, self.more())
        return Asked(self.whole(words), refusal, steps, (0, self.lnum), self.new, meant)


class Renamed(OfDevice):
    """A rename of a volume of a random image."""

    def __init__(self, *image):
        super().__init__(*image)
        self.number, self.word = self.device.some_rename()

    def asked(self, path, image):
        words, refusal, steps, meant = self.rename(path, image, self.number, self.word, self.more())
        new = None if refusal else rules.named_table(image, self.number, NAMES[self.word])
        return Asked(self.whole(words), refusal, steps, (LAYOUT, 0), new, meant)


class Updated(Torn, Drawn):
    """An update of a random image of updates.py."""

    def __init__(self, rng, tool, folder, sizes):
        super().__init__(rng, tool, folder, UpdateMaker(rng, sizes))
        self.with_pages = True

    def asked(self, path, image):
        words = self.update_words(path)
        try:
            update = update_rules.planned(image, self.words)
        except Refused as refusal:
            return Asked(words, str(refusal), [])
        edited = update.edited
        return Asked(words, None, update.steps, (LAYOUT, 0), edited.table(), edited.meaning().meaning())


# Plans that were made by hand, for the image that updates.py has plans worked out for. Its table lies in eraseblocks 0
# and 1, LEB 1 of volume 1 in eraseblock 3, and 4 to 6 are free. NEW has two pages.

NEW = b"new " * 32


def by_hand():
    return Image(HAND, hand_image())


def trial(plan, leb, new, meant):
    """The steps of a right plan for that image, and what is promised for them."""
    return plan.steps, promise_of(plan.image, plan.steps, leb, new, meant)


def of_change(lnum, new=NEW):
    image = by_hand()
    return trial(rules.Change(image, 1, lnum, new), (1, lnum), new, rules.changed(image, 1, lnum, new))


def of_rename():
    image, asked = by_hand(), (0, b"new")
    return trial(
        rules.Rename(image, *asked), (LAYOUT, 0), rules.named_table(image, *asked), rules.renamed(image, *asked)
    )


def of_update():
    words = [update_rules.Word("write", "boot", NEW), update_rules.Word("rename", "data", "boot2")]
    update = update_rules.planned(by_hand(), words)
    return trial(update, (LAYOUT, 0), update.edited.table(), update.edited.meaning().meaning())


RIGHT = {
    "a change": lambda: of_change(1),
    "a change with a blank page": lambda: of_change(1, NEW + b"\xFF" * 64),
    "a change to blank pages": lambda: of_change(1, b"\xFF" * 128),
    "a change of a LEB that isn't there": lambda: of_change(0),
    "a rename": of_rename,
    "an update": of_update,
}


def written_in_place():
    """A blank page of the winner gets its bytes where it is."""
    steps, promise = of_change(1, b"data".ljust(64, b"\xFF") + b"new " * 16)
    return [("program", 3, *steps[2][2:])], promise


def not_checked():
    """The header of the copy is one without a CRC of its data."""
    steps, promise = of_change(1)
    header = rules.dynamic_header(1, 1, 7).ljust(64, b"\xFF")
    return [(*steps[0][:3], header), *steps[1:]], promise


def without_blank_member():
    """A copy is the only member of its LEB."""
    steps, promise = of_change(0)
    return steps[1:4], promise


def header_last():
    """It is, and its header is programmed after its data."""
    steps, promise = without_blank_member()
    return [*steps[1:], steps[0]], promise


def old_table_first():
    """The old holder of the first copy of the table is erased before the new one is programmed."""
    steps, promise = of_rename()
    return [*steps[10:12], *steps[:10], *steps[12:]], promise


def old_tables_first():
    """Both are."""
    steps, promise = of_rename()
    return [*steps[10:12], *steps[22:24], *steps[:10], *steps[12:22]], promise


WRONG = {
    "a blank page of the winner, in place": written_in_place,
    "a copy that is committed by its header": not_checked,
    "a copy without a blank member": without_blank_member,
    "a copy whose header comes last": header_last,
    "the old table is erased first": old_table_first,
    "both old tables are erased first": old_tables_first,
}


def broken(rng, steps, promise):
    """How tears of some steps break a promise: the number of the step, the kind, and what the image means or why it is
    refused. Every way is tried, a few times."""
    for k, (work, before) in enumerate(works(HAND, hand_image(), steps)):
        for tear in (tear for _ in range(TIMES) for tear in every_tear(rng, work)):
            assert tear.is_allowed(work), f"{tear.kind} isn't allowed"
            found = meaning_of(by_reading, work.torn(before, tear.left))
            if not is_by_chance(work, tear.left) and found not in promise.meant(k, tear.is_harm):
                yield k, tear.kind, found


def by_reading(data):
    return Image(HAND, data)


def other_promises(promise):
    """Promises that don't hold: with another commit point, or with one that counts also if more goes wrong."""
    for by in (-1, 1):
        yield dataclasses.replace(promise, commit=promise.commit + by, last=promise.last + by)
    if promise.commit < promise.last:
        yield dataclasses.replace(promise, last=promise.commit)


def look_right(rng, trial):
    """Checks that no tear breaks the promise of a right plan, and that some tears break other promises."""
    steps, promise = trial()
    found = next(broken(rng, steps, promise), None)
    expect(found is None, f"step, tear and what is left are {found}")
    for other in other_promises(promise):
        is_broken = any(broken(rng, steps, other))
        expect(is_broken, f"no tear breaks {other.commit} and {other.last} as {promise.commit} and {promise.last}")
    return collections.Counter(["plans made by hand, right"])


def look_wrong(rng, trial):
    """Checks that a tear of a wrong plan leads to neither the old nor the new."""
    steps, promise = trial()
    found = [meaning for _, _, meaning in broken(rng, steps, promise) if meaning not in (promise.old, promise.new)]
    expect(found, "each tear means the old or the new")
    return collections.Counter(["plans made by hand, wrong"])


# Tears that aren't allowed. Each gives an image, a step, what is left of its eraseblock, and what the image may mean.


def page_behind():
    """The program of the last page of a copy clears a bit of the page behind it."""
    steps, promise = of_change(1)
    data, step = rules.after(HAND, hand_image(), steps[:2]), steps[2]
    left = bytearray(Work(HAND, data, step).after)
    left[4 * HAND.page] = 0xFE
    return data, step, bytes(left), [promise.old, promise.new]


def of_erase(left, was):
    """An erase of eraseblock 5, which was something else than what is left of it."""
    image, at = hand_image(), 5 * HAND.peb
    data = image[:at] + was + image[at + HAND.peb :]
    return data, ("erase", 5), left, [by_hand().meaning()]


def spoiled(block, place):
    """An eraseblock with one bit flipped."""
    return block[:place] + bytes([block[place] ^ 1]) + block[place + 1 :]


def newer(ec, copied=b""):
    """A member of the LEB of eraseblock 3 that would win."""
    return rules.put_block(HAND, ec, rules.dynamic_header(1, 1, 9, copied), NEW)


def copy_restored():
    """An erase sets the one bit for which the data of a newer copy haven't their CRC."""
    copy = newer(rules.put_ec(HAND, 3), NEW)
    return of_erase(copy, spoiled(copy, HAND.data))


def header_restored():
    """An erase sets the one bit for which the volume-identifier header of a newer member can't be read."""
    member = newer(rules.put_ec(HAND, 3))
    return of_erase(member, spoiled(member, HAND.vid + 40))


def counter_restored():
    """An erase puts an erase-counter header that can't be read before the other header of an eraseblock that was put
    aside."""
    return of_erase(newer(bytes(64)), newer(b"\xFF" * 64))


def number_made():
    """An erase leaves an erase-counter header with a number that the image doesn't have."""
    return of_erase(rules.put_block(HAND, rules.put_ec(HAND, 4, 7)), rules.put_block(HAND, rules.put_ec(HAND, 3)))


OUTSIDE = {
    "a bit of the page behind": page_behind,
    "a copy that is restored": copy_restored,
    "a header that is restored": header_restored,
    "an eraseblock that was put aside": counter_restored,
    "another image sequence number": number_made,
}


def look_outside(rng, trial):
    """Checks that a tear isn't allowed, and that it leads to neither the old nor the new."""
    data, step, left, meant = trial()
    work = Work(HAND, data, step)
    is_allowed = may_be_left(work, left) or may_be_harmed(work, left)
    expect(not is_allowed or is_by_chance(work, left), "the tear is allowed")
    expect(meaning_of(by_reading, data) in meant, "the image doesn't mean the old or the new before the tear")
    expect(meaning_of(by_reading, work.torn(data, left)) not in meant, "the torn image means the old or the new")
    return collections.Counter(["tears that aren't allowed"])


def main():
    words = options(__doc__, 100, 1)
    tool = None if words.alone else built(words.tool)

    def looks(case, geometries):
        return lambda rng, folder: case(rng, tool, folder, geometries).look()

    def by_table(look, table):
        return {f"{name} ": (lambda rng, folder, of=of: look(rng, of), 1) for name, of in table.items()}

    answers, failed = run_cases(words, {
        "change ": (looks(Changed, GEOMETRIES), words.count),
        "rename ": (looks(Renamed, GEOMETRIES), words.count),
        "update ": (looks(Updated, SIZES), words.count),
        "large change ": (looks(Changed, REAL_SIZES), words.large),
        "large rename ": (looks(Renamed, REAL_SIZES), words.large),
        "large update ": (looks(Updated, REAL_SIZES), words.large),
        **by_table(look_right, RIGHT),
        **by_table(look_wrong, WRONG),
        **by_table(look_outside, OUTSIDE),
    })
    for what, count in sorted(sum(answers, collections.Counter()).items()):
        print(f"{count:>6} {what}")
    finish(len(answers), failed)


if __name__ == "__main__":
    main()
