#!/usr/bin/env python3
"""Cuts plans on chips with a fastmap, by the recipe of docs/CHANGE.md, and lets a UBI that uses fastmaps attach each cut.

usage: fastmap.py --tool PROGRAM --ubi MODULE [--plans N] [--cuts N] [--seed N] [--first N] [--keep] [--dir FOLDER]
                  [--kernel FOLDER] [--limit SECONDS]

The machine is that of cuts.py, with a UBI that is built for fastmaps, and the volumes are those of recipes.py, on a chip
of 80 to 160 eraseblocks: up to 64 there is no fastmap. The kernel attaches and detaches the chip, and so writes a
fastmap; then the chip is dumped. Of the dump a change of a LEB that is mapped or isn't, a rename or an update is
planned. The command has to name the eraseblock in which the fastmap begins, and carry_out.sh has to refuse the plan,
with nothing written. The eraseblock is erased by the words of its line, and the same is planned on a new dump. The image
after many numbers of steps is written to the chip, and the kernel attaches it: the volumes have to read all the old, or
from some number on all the new, and the same when it attaches the chip again, after it has detached it and so may have
written a fastmap. The whole plan is carried out by carry_out.sh.

For each plan a line also tells what the kernel reads after a plan that leaves the fastmap. That may be the new, since
it looks at some eraseblocks again; but if it never reads anything else, nothing shows that it uses fastmaps, and the
script says so and fails.

By default there are 20 plans (--plans) of the seed 1 (--seed), with 10 cuts (--cuts) each. The last line is 'N passed, M
failed', and the exit status is 0 if none failed. The other options are those of cuts.py.
"""
import re

import cuts
import recipes
from cuts import PEB, expect, read

# The volume in whose eraseblocks fastmaps begin, and how many eraseblocks a kernel looks at.
ANCHOR, LOOKED_AT = 0x7FFFF000, 64
EDITS = list(recipes.EDITS)


class Device(recipes.Device):
    """A chip that is large enough for a fastmap, and that a kernel has attached and detached."""

    def __init__(self, rng, number, folder):
        super().__init__(rng, number, folder)
        self.count = rng.randrange(80, 160)
        self.bad = sorted(rng.sample(range(self.count), 2))
        self.good, self.way = self.count - len(self.bad), "attached"


class Mapped(recipes.Recipe):
    """A chip with a fastmap, and an edit that is planned for it."""

    kind = Device

    def anchors(self, name):
        """The eraseblocks of an image in which a fastmap begins."""
        image, vid = read(self.path(f"{name}.img")), self.device.vid
        headers = [(p, image[p * PEB + vid : p * PEB + vid + 64]) for p in range(LOOKED_AT)]
        return [p for p, head in headers if head[:4] == b"UBI!" and int.from_bytes(head[8:12], "big") == ANCHOR]

    def try_left(self):
        """The plan leaves the fastmap: the command and the script have to say so, and nothing may be written. Returns
        what the kernel reads after the plan."""
        anchors = self.anchors("dump")
        expect(len(anchors) == 1, f"fastmaps begin in {anchors}")
        expect(f"has a fastmap, which begins in eraseblock {anchors[0]}:" in self.said, f"the command says {self.said}")
        said, status = self.carry("-d dump.img")
        expect(status == 2 and f"eraseblock {anchors[0]} " in said and "the anchor of a fastmap" in said, said)
        self.machine.run("dump held.img && cmp held.img dump.img")
        self.erase = re.search(r"\((flash_erase [^)]*)\)", said)[1]
        self.machine.run("put new.img")
        left = self.seen()
        self.machine.run("put dump.img")
        return left

    def erase_anchor(self):
        """Erases the eraseblock as the script says, and plans again on a new dump."""
        self.machine.run(f"{self.erase} > /tmp/said")
        self.new_dump()
        expect(not self.anchors("dump"), "a fastmap is left")
        self.plan("dump", "new")
        expect("fastmap" not in self.said, f"the command says {self.said}")

    def try_cut(self, k, was_new):
        """Writes the image after K steps to the chip. Returns whether the kernel reads the new."""
        text, status = self.ask_cut(k)
        expect(status == 0, text)
        self.machine.run("put cut.img")
        first, again = self.seen(), self.seen()
        expect(first == again, f"the kernel reads {first}, and then {again}")
        expect(first in ("the kernel reads the old", recipes.NEW), first)
        is_new = first == recipes.NEW
        expect(is_new or not was_new, "the old comes after the new")
        expect(is_new or k < len(self.steps), "the old is read after the whole plan")
        expect(not is_new or k > 0, "the new is read before the plan")
        return is_new

    def ask_cut(self, k):
        words = [*self.edits.words, *self.keeps, *self.device.words()[-2:], "--stop", str(k), "--out", self.path("cut.img")]
        return self.tool(self.edits.command, "dump", *words)


def main():
    words = cuts.options(__doc__, plans=20, cuts=10, seed=1, first=0, limit=600)
    words.add_argument("--ubi", required=True, help="a module that takes the place of the kernel's UBI")
    words = words.parse_args()

    def attempts(bench):
        lefts = []
        for number in range(words.first, words.first + words.plans):
            name, plans = f"plan {number} of seed {words.seed}", []
            bench.attempt(f"{name}, its making", lambda: plans.append(Mapped(bench, number, EDITS[number % len(EDITS)])))
            for plan in plans:
                bench.attempt(f"{name}, with its fastmap", lambda: lefts.append(plan.try_left()))
                if not hasattr(plan, "erase"):
                    continue
                print(f"{name}: {plan}; left: {lefts[-1:]}", flush=True)
                bench.attempt(f"{name}, planned again", plan.erase_anchor)
                try_all(bench, name, plan, words.cuts)
        wrong = sum(left != recipes.NEW for left in lefts)
        bench.attempt("fastmaps", lambda: expect(wrong, "no plan that left a fastmap was read wrongly: it isn't used"))
        return [f"{wrong:>6} of {len(lefts)} plans that leave the fastmap aren't read as the new"]

    cuts.run_bench(words, attempts)


def try_all(bench, name, plan, count):
    """Tries cuts of a plan, and then the whole of it."""
    is_new = [False]
    steps = len(plan.steps)
    for k in sorted({n * steps // (count - 1) for n in range(count)}):
        bench.attempt(f"{name}, cut {k}", lambda: is_new.append(plan.try_cut(k, is_new[-1])))
    bench.attempt(f"{name}, its dump", lambda: plan.machine.run("put dump.img && dump held.img && cmp held.img dump.img"))
    bench.attempt(f"{name}, as a whole", lambda: plan.carry_whole("-d dump.img"))
    bench.attempt(f"{name}, its end", plan.end)


if __name__ == "__main__":
    main()
