#!/usr/bin/env python3
"""Lets the power fail during steps of plans, and lets Linux's own UBI attach what that leaves.

usage: torn.py --tool PROGRAM [--plans N] [--tears N] [--seed N] [--first N] [--keep] [--dir FOLDER] [--kernel FOLDER]
               [--limit SECONDS]

The plans are those of recipes.py on its small chip: changes of LEBs that are mapped and that aren't, renames, and
updates; and every fifth is one of cuts.py, with a UBIFS. The machine writes the image before a step to the chip, and
the eraseblock that the step works on with what the power failure leaves. That is

- of a program the page as it was, with some of the bits cleared that the program clears: those of its first bytes, of
  its last ones, or any. Either the page gets the ECC bytes of what is left; or its out-of-band bytes are torn too, and
  the page is written raw;
- of an erase the eraseblock as it was, with bits set: some of them, or all of its first or last pages; raw, with the
  out-of-band bytes.

The kernel attaches the chip. Each volume has to read the old during each step before the commit point, the new after
it, and all of them the old or all the new during the step that reaches it; and the same once more when the chip is
attached again. During that step of a change all bytes of the last page may be programmed, and its out-of-band bytes so
far that ECC can't correct it: then the kernel takes the new LEB, whose bytes have their CRC, and fails to read it. That
is counted by itself.

By default there are 10 plans (--plans) of the seed 1 (--seed), with 12 torn steps (--tears) each. The last line is 'N
passed, M failed', and the exit status is 0 if none failed. The other options are those of cuts.py.
"""
import collections
import itertools
import os
import random
import shlex

import cuts
import recipes
from cuts import LAYOUT, PAGE, PEB, Failure, expect, read, write

PAGES, OOB = PEB // PAGE, 64
RAW = PAGE + OOB


def some_bits(rng, size):
    """Random bits of so many bytes: few of them, half, or most."""
    bits, is_few = rng.getrandbits(8 * size), rng.random() < 0.5
    for _ in range(rng.choice((0, 0, 1, 3, 6))):
        more = rng.getrandbits(8 * size)
        bits = bits & more if is_few else bits | more
    return bits.to_bytes(size, "big")


def cleared(old, new, bits):
    """Some bytes, if of some bits those are cleared that others haven't."""
    return bytes(one & (other | ~bit & 255) for one, other, bit in zip(old, new, bits))


def set_bits(old, bits):
    return bytes(one | bit for one, bit in zip(old, bits))


# What is left of a program: which of the bits of a page and its out-of-band bytes are cleared. `raw` is whether those
# out-of-band bytes count; if they don't, the page gets ECC bytes of its own.

def first_bytes(rng):
    n = rng.randrange(PAGE)
    return b"\xFF" * n + bytes(RAW - n)


def last_bytes(rng):
    n = rng.randrange(PAGE)
    return bytes(PAGE - n) + b"\xFF" * (n + OOB)


def any_bits(rng):
    return some_bits(rng, RAW)


def without_oob(rng):
    return b"\xFF" * PAGE + bytes(OOB)


def torn_oob(rng):
    return b"\xFF" * PAGE + some_bits(rng, OOB)


def oob_alone(rng):
    return bytes(PAGE) + b"\xFF" * OOB


def all_but_few(rng):
    bits = bytearray(b"\xFF" * RAW)
    for _ in range(rng.choice((1, 2, 3))):
        bits[rng.randrange(PAGE)] ^= 1 << rng.randrange(8)
    return bytes(bits)


PROGRAMS = (
    (first_bytes, False), (last_bytes, False), (any_bits, False), (all_but_few, False),
    (first_bytes, True), (last_bytes, True), (any_bits, True), (all_but_few, True),
    (without_oob, True), (torn_oob, True), (oob_alone, True),
)


# What is left of an erase: which of the bits are set.

def any_set(rng):
    return some_bits(rng, PAGES * RAW)


def first_set(rng):
    n = rng.choice((RAW, rng.randrange(1, PAGES) * RAW, rng.randrange(PAGES * RAW)))
    return b"\xFF" * n + bytes(PAGES * RAW - n)


def last_set(rng):
    return first_set(rng)[::-1]


def data_set(rng):
    """All but the first two pages."""
    return bytes(2 * RAW) + b"\xFF" * (PAGES - 2) * RAW


def all_but_few_set(rng):
    bits = bytearray(b"\xFF" * PAGES * RAW)
    for _ in range(rng.choice((1, 2, 9))):
        bits[rng.randrange(len(bits))] ^= 1 << rng.randrange(8)
    return bytes(bits)


ERASES = (any_set, first_set, last_set, data_set, all_but_few_set)


def with_step(image, step):
    """An image after a step."""
    block, *program, data = step
    image = bytearray(image)
    if data is None:
        image[block * PEB : (block + 1) * PEB] = b"\xFF" * PEB
    else:
        at = block * PEB + program[0] * PAGE
        image[at : at + PAGE] = data
    return bytes(image)


def block_of(image, p):
    return image[p * PEB : (p + 1) * PEB]


class Torn:
    """The plan of a recipe, and the steps of which what is left is looked at."""

    def __init__(self, bench, number):
        edits, seed = list(recipes.EDITS), bench.words.seed
        if number % 5 == 4:
            self.plan = cuts.Plan(bench, number, seed, False)
        else:
            self.plan = recipes.Recipe(bench, number, edits[number % 5])
        self.bench, self.machine, self.device = bench, bench.machine, self.plan.device
        self.rng = random.Random(f"{seed} {number}")
        self.steps = recipes.steps_of(read(self.plan.path("new.plan")).decode(), read(self.plan.path("new.pages")))
        self.image = read(self.plan.path("dump.img"))
        self.commit = self.commit_point()
        self.counts = collections.Counter()

    def commit_point(self):
        """After how many steps the new is read: once the first copy of the table is written, or the copy of the LEB."""
        heads, vid = recipes.heads_of(self.steps, self.device.vid), self.device.vid
        is_table = any(head.volume == LAYOUT for head in heads)
        head = next(head for head in heads if head.volume == LAYOUT) if is_table else heads[-1]
        return head.done + head.pages

    def chosen(self, count):
        """Steps, counted from 0: about a third of them those that reach the commit point, and a third erases."""
        erases = [k for k, step in enumerate(self.steps) if step[-1] is None]
        around = [self.commit - 1, self.commit - 1, self.commit, self.commit - 2]
        ways = itertools.cycle((lambda: self.rng.choice(around), lambda: self.rng.choice(erases),
                                lambda: self.rng.randrange(len(self.steps))))
        return sorted(way() for way, _ in zip(ways, range(count)))

    def before(self, k):
        image = self.image
        for step in self.steps[:k]:
            image = with_step(image, step)
        return image

    def raw(self, p, block, name):
        """The bytes of an eraseblock with its out-of-band bytes, as the chip has them if it is programmed with some
        bytes."""
        write(self.plan.path("block"), block)
        self.machine.run(f"put_block {p} block && get_raw {p} {name}")
        return read(self.plan.path(name))

    def try_tear(self, k):
        """Writes what a power failure during a step leaves to the chip, and looks at it twice."""
        step, old = self.steps[k], self.before(k)
        p, new = step[0], with_step(old, step)
        write(self.plan.path("cut.img"), old)
        self.machine.run("put cut.img")
        if step[-1] is None:
            way, is_raw = self.rng.choice(ERASES), True
            left = set_bits(self.raw(p, block_of(old, p), "raw"), way(self.rng))
        else:
            way, is_raw = self.rng.choice(PROGRAMS)
            at, bits = step[1] * PAGE, way(self.rng)
            if is_raw:
                at = step[1] * RAW
                before, after = (self.raw(p, block_of(image, p), "raw") for image in (old, new))
            else:
                before, after = block_of(old, p), block_of(new, p)
            size = RAW if is_raw else PAGE
            left = before[:at] + cleared(before[at : at + size], after[at : at + size], bits) + before[at + size :]
        write(self.plan.path("block"), left)
        self.machine.run(f"put_raw {p} block" if is_raw else f"put_block {p} block")
        what, how = "erase" if step[-1] is None else "program", way.__name__.replace("_", " ")
        self.judge(k, f"{what}: {how}{', raw' if is_raw else ''}")

    def judge(self, k, kind):
        """The kernel has to have the old or the new, as the step allows, and the same when it attaches again."""
        when = "before" if k + 1 < self.commit else "at" if k + 1 == self.commit else "after"
        kind = f"{when} the commit point, {kind}"
        seen, warnings = self.look([])
        if when == "at" and kind.endswith(", raw") and any("can't read" in one for one in seen):
            self.counts[f"{kind}: it can't be read"] += 1
            return
        meant = [is_new for is_new in (False, True) if (k + 1 >= self.commit if is_new else k < self.commit)]
        is_now = next((is_new for is_new in meant if seen == self.volumes(is_new)), None)
        if is_now is None:
            others = [one for one in seen if one not in self.volumes(False) or one not in self.volumes(True)]
            raise Failure(f"{kind}, step {k + 1}: the kernel has {others}; {' / '.join(warnings[-12:])}")
        told, names = self.plan.expected(is_now)
        again, warnings = self.look(names)
        expect(again == told, f"{kind}, step {k + 1}: the second time the kernel has {again}; {' / '.join(warnings)}")
        self.counts[f"{kind}: the {'new' if is_now else 'old'}"] += 1

    def volumes(self, is_new):
        """What the kernel has to have, without the files."""
        return [line for line in self.plan.expected(is_new)[0] if line.startswith("volume ")]

    def look(self, names):
        """What the kernel has, with the files of some volumes, and what it warns of."""
        text = self.machine.run(" ".join(["look", str(self.device.vid), *map(shlex.quote, names)]))
        line, *warnings = text.splitlines()
        self.bench.warn(warnings)
        return sorted(part for part in line.split(";") if part), warnings


def main():
    words = cuts.options(__doc__, plans=10, tears=12, seed=1, first=0, limit=600).parse_args()

    def attempts(bench):
        counts = collections.Counter()
        for number in range(words.first, words.first + words.plans):
            name, plans = f"plan {number} of seed {words.seed}", []
            bench.attempt(f"{name}, its making", lambda: plans.append(Torn(bench, number)))
            for torn in plans:
                print(f"{name}: {torn.plan}", flush=True)
                for n, k in enumerate(torn.chosen(words.tears)):
                    bench.attempt(f"{name}, tear {n}", lambda: torn.try_tear(k))
                counts.update(torn.counts)
        return [f"{count:>6} {what}" for what, count in sorted(counts.items())]

    cuts.run_bench(words, attempts)


if __name__ == "__main__":
    main()
