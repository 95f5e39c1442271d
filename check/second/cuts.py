#!/usr/bin/env python3
"""Cuts random changes and renames of random small images after each of their steps, and checks what each cut means.

usage: cuts.py [--seed N] [--count N] [--first N] [--dir FOLDER] [--tool PROGRAM]

An image has the two copies of a table with one or two dynamic volumes, some of their logical eraseblocks, some of those
with an older member too, and eraseblocks that are free, erased, or hold no readable header, all in a random order.
None, one, two or all of those with an erase-counter header carry the image's number. `change` changes one logical
eraseblock of an image, or `rename` renames a volume, and writes the image after each number of steps from 0 on. `check`
must accept each cut, with the number, and the answers of `list` and `extract` must be those for the old image up to the
commit point, and those for the new one from then on. Each cut of a rename is renamed again, which must be refused
exactly if the copies of the table differ. This script works out from the format alone which step is the commit point,
what is listed and extracted, and which eraseblocks are touched. If too few eraseblocks can be taken, the number isn't
reserved, the volume isn't there, or another one has the name, it checks the refusal.

In half of the images one to four more eraseblocks are bad, and are listed so. They hold anything: equal bytes or random
ones, a free eraseblock, headers that are at fault or name another number, or what would win a logical eraseblock or the
table. No step may touch them, and other bytes in them with headers that name no greater sequence number must change
neither the plan nor its pages nor what is written. A
quarter of the plans keep blank eraseblocks. The pages of each cut must be those that its steps programmed.
check/second/rules.py judges each cut, too.

By default there are 100 images (--count) of the seed 1 (--seed) to change, and as many to rename. They lie in a new
folder below FOLDER (/tmp by default), which is removed afterwards. Without --tool the program is built first, unless it
is built already. The last line is 'N passed, M failed', and the exit status is 0 if none failed.
"""
import os
import struct
import subprocess

import rules
from fuzz import built, either, expect, finish, listing, options, run_cases
from rules import LAYOUT, counter_header, crc, dynamic_header, sealed

PEBS = 32
# How many eraseblocks each volume reserves.
RESERVED = {0: 12, 1: 3}
# New names as they are given, and their bytes; and how `list` prints the one that it escapes.
NAMES = {
    "root": b"root", "data": b"data", "new": b"new", "\\x6Eew": b"new", "\\xFF\\x20\\x5c\\x41": b"\xFF \\A",
    "n" * 127: b"n" * 127,
}
SHOWN = {b"\xFF \\A": "\\xff\\x20\\x5cA"}
GEOMETRIES = ((512, 64, 64, 128), (1024, 256, 64, 256), (1024, 256, 320, 512), (576, 64, 64, 128))


class Device:
    """A random image, the names and the contents of its volumes, and what each of its eraseblocks is.

    `image` is what the file holds, and `seen` what is read of it: 0xFF in the bad eraseblocks.
    """

    def __init__(self, rng, geometries=GEOMETRIES):
        self.rng = rng
        self.peb, self.page, self.vid, self.data = rng.choice(geometries)
        self.leb = self.peb - self.data
        self.slots = min(128, self.leb // 172)
        self.names = rng.choice(({0: b"root"}, {0: b"root", 1: b"data"}))
        self.lebs = {}
        blocks = [(("table", copy), self.table(copy)) for copy in range(2)]
        for number in rng.sample(range(RESERVED[0]), rng.randrange(5)):
            blocks += self.members(0, number)
        if 1 in self.names:
            blocks += self.members(1, rng.randrange(RESERVED[1]))
        for _ in range(rng.randrange(5)):
            blocks.append(rng.choice((("clean", self.free()), ("erased", self.erased()), ("unused", self.garbage()))))
        if rng.random() < 0.2:
            blocks.append(("corrupt", self.corrupt()))
        if rng.random() < 0.5:
            blocks += [("bad", self.erased()) for _ in range(rng.randrange(1, 5))]
        rng.shuffle(blocks)
        self.kinds, blocks = (list(of) for of in zip(*blocks))
        self.number, self.sole = 0, None
        self.carry(blocks)
        self.seen = b"".join(blocks)
        self.bad = [p for p, kind in enumerate(self.kinds) if kind == "bad"]
        self.of_bad = either(rng, "--bad", listing(rng, self.bad, len(blocks))) if self.bad else []
        self.image = self.with_bad()
        self.keeps_blank = rng.random() < 0.25
        self.of_plan = either(rng, "--blank", "keep") if self.keeps_blank else []

    def with_bad(self):
        """The image with any bytes in the bad eraseblocks."""
        blocks = [self.seen[at : at + self.peb] for at in range(0, len(self.seen), self.peb)]
        return b"".join(self.bad_block() if p in self.bad else block for p, block in enumerate(blocks))

    def with_like(self):
        """The same, with other bytes there, and with the last sequence number of the image."""
        others = (self.with_bad() for _ in range(20))
        return next((other for other in others if self.last(other) == self.last(self.image)), self.image)

    def last(self, image):
        """The sequence number before those of a plan."""
        return rules.Image(self.geometry(), image, lambda p: p in self.bad).last

    def bad_block(self):
        """The bytes of a bad eraseblock: anything, or what would win, be taken or be refused if it were looked at."""
        rng, sqnum = self.rng, self.rng.choice((0, 1000, 2**63, 2**64 - 3))
        counted = counter_header(rng.randrange(100), self.vid, self.data, rng.choice((0, 0x12345678, 0x12345678, 7)))
        lebs = [*self.lebs, *((0, number) for number in range(RESERVED[0]))]
        member = dynamic_header(*rng.choice(lebs), sqnum)
        table = dynamic_header(LAYOUT, rng.randrange(2), sqnum, compat=5)
        at_fault = sealed(counted[:4] + b"\x02" + counted[5:60])
        return rng.choice((
            bytes(self.peb),
            self.erased(),
            rng.randbytes(self.peb),
            self.block(counted, b"\xFF" * 64),
            self.block(counted, bytes(64)),
            self.block(counted, member, self.pages()),
            self.block(counted, member, self.pages()),
            self.block(bytes(64), member, self.pages()),
            self.block(counted, table, self.records({0: b"bad"})),
            self.block(at_fault, member),
            self.block(counted, sealed(member[:5] + b"\x03" + member[6:60])),
        ))

    def carry(self, blocks):
        """Gives the image's number to none, one, two or all of the eraseblocks with an erase-counter header."""
        have = [p for p, block in enumerate(blocks) if block[:4] == b"UBI#"]
        carriers = self.rng.sample(have, min(self.rng.choice((0, 1, 1, 1, 2, 2, len(have))), len(have)))
        for p in carriers:
            self.number = 0x12345678
            counter = int.from_bytes(blocks[p][8:16], "big")
            blocks[p] = counter_header(counter, self.vid, self.data, self.number) + blocks[p][64:]
        if len(carriers) == 1:
            self.sole = carriers[0]

    def takeable(self):
        """The eraseblocks that may be taken, in their order: the clean ones, and then the other unused ones, except
        blank ones that are kept."""
        groups = ("clean",), ("unused",) if self.keeps_blank else ("unused", "erased")
        return [p for kinds in groups for p, of in enumerate(self.kinds) if of in kinds and p != self.sole]

    def touched(self, lnum):
        """The eraseblocks that a change of a LEB erases or programs: those that it takes, and the winner that it gives
        up."""
        if (0, lnum) not in self.lebs:
            return set(self.takeable()[:2])
        return {self.takeable()[0], self.kinds.index((0, lnum))} - {self.sole}

    def touched_by_rename(self):
        """The eraseblocks that a rename erases or programs: the two that it takes, and the copies of the table that it
        gives up."""
        return {*self.takeable()[:2], *(self.kinds.index(("table", copy)) for copy in range(2))} - {self.sole}

    def block(self, ec, vid, data=b""):
        front = ec.ljust(self.vid, b"\xFF") + vid
        return (front.ljust(self.data, b"\xFF") + data).ljust(self.peb, b"\xFF")

    def counted(self):
        return counter_header(self.rng.randrange(100), self.vid, self.data)

    def table(self, copy):
        return self.block(self.counted(), dynamic_header(LAYOUT, copy, 0, compat=5), self.records(self.names))

    def records(self, names):
        """The table of volumes with these names."""
        fronts = [bytes(168)] * self.slots
        for volume, name in names.items():
            fronts[volume] = struct.pack(">IIIBBH128sB23x", RESERVED[volume], 1, 0, 1, 0, len(name), name, 0)
        return b"".join(map(sealed, fronts))

    def pages(self):
        """Some whole pages: random ones, and maybe blank ones after them."""
        pages = self.rng.randrange(1, self.leb // self.page + 1)
        blank = self.rng.randrange(pages + 1) if self.rng.random() < 0.5 else 0
        return self.rng.randbytes((pages - blank) * self.page) + b"\xFF" * (blank * self.page)

    def members(self, volume, number):
        """A logical eraseblock: its winner, whose kind is the volume and the number, and maybe a member that loses."""
        data = self.pages()
        copied = data if self.rng.random() < 0.5 else b""
        self.lebs[volume, number] = data.ljust(self.leb, b"\xFF")
        winner = self.block(self.counted(), dynamic_header(volume, number, 2 * number + 2, copied), data)
        if self.rng.random() < 0.6:
            return [((volume, number), winner)]
        loser = self.block(self.counted(), dynamic_header(volume, number, 2 * number + 1), self.pages())
        return [((volume, number), winner), ("unused", loser)]

    def free(self):
        return self.block(self.counted(), b"\xFF" * 64)

    def erased(self):
        return b"\xFF" * self.peb

    def garbage(self):
        return self.block(self.counted(), bytes(64))

    def corrupt(self):
        return self.block(bytes(64), bytes(64))

    def some_change(self):
        """A logical eraseblock of the first volume, which may be the one beyond what is reserved, and new bytes."""
        lnum, new = self.rng.randrange(RESERVED[0] + 1), self.pages()
        mapped = [number for volume, number in self.lebs if volume == 0]
        return (self.rng.choice(mapped) if mapped and self.rng.random() < 0.5 else lnum), new

    def some_rename(self):
        """The number of a volume, which may not be there, and a word for a name."""
        return self.rng.randrange(2), self.rng.choice(list(NAMES))

    def words(self):
        return [*self.geometry().words(), *self.of_bad]

    def geometry(self):
        return rules.Geometry(self.peb, self.page, self.vid, self.data, PEBS)

    def meant(self, cut):
        """What a cut means by the second reading of the format."""
        return rules.Image(self.geometry(), cut, lambda p: p in self.bad).meaning()


def listed(device, names, lebs):
    """What `list` prints if the volumes have these names and these logical eraseblocks."""
    lines = [
        f"geometry peb={device.peb} page={device.page} vid={device.vid} data={device.data} leb={device.leb} "
        f"slots={device.slots} pebs={PEBS}\n"
    ]
    for volume, name in names.items():
        count = sum(of == volume and data.strip(b"\xFF") != b"" for (of, _), data in lebs.items())
        lines.append(
            f"volume {volume} dynamic reserved={RESERVED[volume]} alignment=1 usable={device.leb} flags=00 "
            f"lebs={count} name={SHOWN.get(name, name.decode(errors='replace'))}\n"
        )
    return "".join((*lines, f"volumes {len(names)}\n"))


def extracted(device, lebs, volume):
    return b"".join(lebs.get((volume, number), b"\xFF" * device.leb) for number in range(RESERVED[volume]))


def steps_of(text):
    """The steps of a plan: the eraseblock, and the page that is programmed, if one is."""
    first, *lines = text.splitlines()
    steps = []
    for line in lines:
        words = line.split()
        numbers = [int(word.split("=")[1]) for word in words[1:]]
        steps.append((numbers[0], numbers[1] if words[0] == "program" else None))
    expect(first == f"steps {len(steps)}", f"the first line is {first}")
    return steps


def is_copy(device, block):
    header = block[device.vid : device.vid + 64]
    return header[:4] == b"UBI!" and header[6] == 1 and struct.pack(">I", crc(header[:60])) == header[60:]


def commits(device, steps, cuts, new, count):
    """The eraseblock of each of COUNT copies, and the number of steps after which it wins: those up to its header, and
    then those of the pages that aren't blank at the end."""
    found = []
    for k, (p, page) in enumerate(steps):
        before, after = (cut[p * device.peb : (p + 1) * device.peb] for cut in cuts[k : k + 2])
        if page == device.vid // device.page and is_copy(device, after) and not is_copy(device, before):
            found.append((p, k + 1 + -(-len(new.rstrip(b"\xFF")) // device.page)))
    expect(len(found) == count, f"{len(found)} steps and not {count} program the header of a copy")
    return found


def page_of(device, cut, step):
    """The bytes that a page has after the step that programs it; none for an erase."""
    p, page = step
    start = p * device.peb + (page or 0) * device.page
    return b"" if page is None else cut[start : start + device.page]


def is_one_step(device, before, after, step):
    """Whether only the eraseblock or the page of a step differs, and a program sets no bit."""
    p, page = step
    start = p * device.peb + (0 if page is None else page * device.page)
    end = start + (device.peb if page is None else device.page)
    if before[:start] + before[end:] != after[:start] + after[end:]:
        return False
    if page is None:
        return after[start:end] == b"\xFF" * device.peb
    return all(old & new == new for old, new in zip(before[start:end], after[start:end]))


class Looker:
    """Runs the program on files of a folder, and checks its answers."""

    def __init__(self, tool, folder):
        self.tool = tool
        names = ("image", "new", "cut", "out", "pages")
        self.image, self.new, self.cut, self.out, self.pages = (os.path.join(folder, name) for name in names)

    def run(self, *words):
        done = subprocess.run([self.tool, *words], capture_output=True, text=True)
        return done.stdout, done.returncode

    def look(self, device, names, lebs, what):
        """Checks what a cut means."""
        text, status = self.run("check", self.cut, *device.words())
        expect(status == 0 and text.endswith("accepted\n"), f"{what} isn't accepted: {text}")
        expect(f"\nimage seq {device.number}\n" in text, f"{what} has another number: {text}")
        text, status = self.run("list", self.cut, *device.words())
        expect((text, status) == (listed(device, names, lebs), 0), f"{what} lists {text}")
        for volume in names:
            text, status = self.run("extract", self.cut, "--id", str(volume), "--out", self.out, *device.words())
            expect(status == 0 and read(self.out) == extracted(device, lebs, volume), f"{what} reads something else")

    def try_change(self, device):
        """Changes one logical eraseblock of an image, and checks each cut. Returns the number of steps of the plan."""
        lnum, new = device.some_change()
        write(self.new, new)
        words = ["change", self.image, "--id", "0", "--lnum", str(lnum), "--from", self.new, *self.outs(device)]
        refusal = None
        if lnum == RESERVED[0]:
            refusal = "K5 OutOfRange"
        elif len(device.takeable()) < (1 if (0, lnum) in device.lebs else 2):
            refusal = "K9 NoFree"
        steps, cuts = self.planned(device, words, refusal)
        if refusal:
            return 0
        self.look_touched(device, steps, device.touched(lnum))
        [(_, at)] = commits(device, steps, cuts, new, 1)
        changed = device.lebs | {(0, lnum): new.ljust(device.leb, b"\xFF")}
        self.judge(device, cuts, at)
        for k, what in self.each_cut(device, steps, cuts):
            lebs = device.lebs if k < at else changed
            self.look(device, device.names, lebs, f"{what} of a change with its commit at {at}")
        return len(steps)

    def try_rename(self, device):
        """Renames a volume of an image, and checks each cut. Returns the number of steps of the plan."""
        volume, word = device.some_rename()
        words = ["rename", self.image, "--id", str(volume), "--name", word, *self.outs(device)]
        names = device.names | {volume: NAMES[word]}
        refusal = None
        if volume not in device.names:
            refusal = "K2 NoVolume"
        elif names.get(0) == names.get(1):
            refusal = f"N2 SameName slot={1 - volume}"
        elif len(device.takeable()) < 2:
            refusal = "K9 NoFree"
        steps, cuts = self.planned(device, words, refusal)
        if refusal:
            return 0
        self.look_touched(device, steps, device.touched_by_rename())
        (first, at), (second, end) = commits(device, steps, cuts, device.records(names), 2)
        expect([first, second] == device.takeable()[:2], f"the copies are put into {first} and {second}")
        self.judge(device, cuts, at)
        for k, what in self.each_cut(device, steps, cuts):
            meant = device.names if k < at else names
            self.look(device, meant, device.lebs, f"{what} of a rename with its commit at {at}")
            rename = ["rename", self.cut, "--id", str(volume), "--name", "again", "--out", self.out]
            again, _ = self.run(*rename, *device.words())
            differ = at <= k < end and names != device.names
            is_refused = again == "refused N3 NeedsRepair\n"
            expect(is_refused == differ, f"{what} of a rename from {at} to {end} is renamed: {again}")
        return len(steps)

    def outs(self, device):
        """The words after those that say what is planned."""
        return ["--out", self.cut, *either(device.rng, "--pages", self.pages), *device.of_plan, *device.words()]

    def planned(self, device, words, refusal):
        """The steps of a plan, and the image after each number of them, and for one more than there are; none if it is
        refused."""
        write(self.image, device.image)
        for path in (self.cut, self.pages):
            if os.path.exists(path):
                os.remove(path)
        plan, status = self.run(*words)
        if refusal:
            written = os.path.exists(self.cut) or os.path.exists(self.pages)
            expect((plan, status) == (f"refused {refusal}\n", 1) and not written, f"not {refusal!r} but {plan!r}")
            self.look_others(device, words, (plan, status))
            return [], []
        expect(status == 0, f"{words[0]} is refused: {plan}")
        steps, cuts, pages = steps_of(plan), [], b""
        for k in range(len(steps) + 2):
            expect(self.run(*words, "--stop", str(k)) == (plan, 0), f"--stop {k} prints something else")
            cuts.append(read(self.cut))
            pages += page_of(device, cuts[-1], steps[k - 1]) if 0 < k <= len(steps) else b""
            expect(read(self.pages) == pages, f"--stop {k} writes other pages")
        self.look_others(device, words, (plan, 0), cuts[-1], pages)
        return steps, cuts

    def look_others(self, device, words, answer, *files):
        """Checks that an answer and the written files stay the same with other bytes in the bad eraseblocks."""
        if device.bad:
            write(self.image, device.with_like())
            again = self.run(*words)
            expect(again == answer, f"other bytes in bad eraseblocks give {again}")
            is_same = not files or (read(self.cut), read(self.pages)) == files
            expect(is_same, "other bytes in bad eraseblocks give other files")

    def look_touched(self, device, steps, expected):
        touched = {p for p, _ in steps}
        expect(touched == expected, f"the steps touch {touched} and not {expected}")
        expect(not touched & set(device.bad), f"the steps touch {touched}, some of which are bad")

    def judge(self, device, cuts, at):
        """Checks that to the second reading each cut means the old up to the commit point, and the new from then on."""
        old, new = device.meant(device.image), device.meant(cuts[-1])
        for k, cut in enumerate(cuts):
            is_right = device.meant(cut) == (old if k < at else new)
            expect(is_right, f"cut {k} of a plan with its commit at {at} doesn't mean the {'old' if k < at else 'new'}")

    def each_cut(self, device, steps, cuts):
        """Writes each cut to its file, after checking that it is one step from the one before. Yields its number and
        its name."""
        is_whole = cuts[0] == device.seen and cuts[-1] == cuts[-2]
        expect(is_whole, "--stop 0 doesn't give the image, or a number that is too large not all steps")
        for k, cut in enumerate(cuts[:-1]):
            expect(k == 0 or is_one_step(device, cuts[k - 1], cut, steps[k - 1]), f"step {k} does something else")
            write(self.cut, cut)
            yield k, f"cut {k} of {len(steps)}"


def read(path):
    with open(path, "rb") as file:
        return file.read()


def write(path, data):
    with open(path, "wb") as file:
        file.write(data)


def main():
    words = options(__doc__, 100)
    tool = built(words.tool)
    answers, failed = run_cases(words, {
        "": (lambda rng, folder: Looker(tool, folder).try_change(Device(rng)), words.count),
        "rename ": (lambda rng, folder: Looker(tool, folder).try_rename(Device(rng)), words.count),
    })
    print(f"{sum(answers)} steps in all")
    finish(len(answers), failed)


if __name__ == "__main__":
    main()
