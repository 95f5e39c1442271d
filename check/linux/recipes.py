#!/usr/bin/env python3
"""Carries out recipes of docs/CHANGE.md in an emulated Linux.

usage: recipes.py --tool PROGRAM [--only WORD] [--first N] [--seed N] [--keep] [--dir FOLDER] [--kernel FOLDER]
                  [--limit SECONDS]

The machine is that of cuts.py, with a small simulated chip: a static volume, and two dynamic ones with LEBs that aren't
mapped. Two of its eraseblocks are bad. The image is written as cuts.py writes it, and the dump is made by nanddump.
carry_out.sh carries the plans out with mtd-utils, and then the kernel attaches the chip and has to read the new in each
volume that is meant, and the old in the others.

These are tried, from number --first on; --only is a regular expression that their lines have to have:

- an eraseblock that fails: a plan of `change`, `rename` or `update` ends behind the volume-identifier header of an
  eraseblock, and maybe some of its pages. The eraseblock is listed as bad then, though the chip doesn't know it, and
  the same is planned again on a new dump. Or it isn't listed; or the chip marks it as bad; or other contents are
  planned;
- a program or an erase that the chip fails, with `-m`: the eraseblock is marked, a new dump made, and planned again;
- an eraseblock with bits that ECC can't correct, with `-u` and without;
- two plans, the second made from the `--out` of the first, without a dump in between.

After the last step `check` of a new dump, without --bad, has to say `accepted`. The last line is 'N passed, M failed',
and the exit status is 0 if none failed. The other options are those of cuts.py.
"""
import dataclasses
import os
import random
import re
import shlex
import shutil
import subprocess

import cuts
from cuts import PAGE, PEB, ROOT, SUB, WAYS, Contents, Failure, Volume, expect, read, write

COUNT, PAGES = 24, PEB // PAGE
ECC_STEP = 256
NEW = "the kernel reads the new"


class Device(cuts.Device):
    """A small chip. Besides those that are bad, others may be listed."""

    def __init__(self, rng, number, folder):
        self.rng, self.vid, self.way = rng, (SUB, PAGE)[number % 2], WAYS[number % 3]
        self.is_tight, self.grows, self.used, self.listed = False, None, [], []
        self.data = self.vid + SUB + PAGE - 1 & -PAGE
        self.leb = PEB - self.data
        self.contents = Contents(rng, self.leb, folder)
        self.count, self.bad = COUNT, sorted(rng.sample(range(COUNT), 2))
        self.good = COUNT - len(self.bad)
        self.volumes = {
            "kernel": Volume("kernel", "static", 4, 1, rng.randbytes(2 * self.leb + 700)),
            "data": Volume("data", "dynamic", 8, 1, rng.randbytes(3 * self.leb)),
            "boot": Volume("boot", "dynamic", 3, 1, rng.randbytes(self.leb + 5000)),
        }

    def words(self):
        *words, _ = super().words()
        return [*words, ",".join(map(str, sorted({*self.bad, *self.listed})))]


@dataclasses.dataclass
class Edit:
    """What is asked of the program: its command, the words, and what the volumes are then, by their old names."""

    command: str
    words: list
    new: dict


def with_volume(device, name, /, **fields):
    return device.volumes | {name: dataclasses.replace(device.volumes[name], **fields)}


def change(device, folder, lnum):
    """Other bytes for a LEB of a dynamic volume."""
    new, path, old = device.rng.randbytes(4 * PAGE), os.path.join(folder, "new.bin"), device.volumes["data"].data
    write(path, new)
    at = lnum * device.leb
    data = old.ljust(at, b"\xFF")[:at] + new.ljust(device.leb, b"\xFF") + old[at + device.leb :]
    words = ["--id", device.numbers["data"], "--lnum", lnum, "--from", path]
    return Edit("change", [*map(str, words)], with_volume(device, "data", data=data))


def mapped(device, folder):
    return change(device, folder, 1)


def unmapped(device, folder):
    return change(device, folder, 5)


def rename(device, folder, old="data", name="other"):
    words = ["--id", str(device.numbers[old]), "--name", name]
    return Edit("rename", words, with_volume(device, old, name=name))


def contents(device, folder, name, lebs=0, blank=0):
    """Other contents for a volume, so many LEBs and four pages, of which some LEBs at the beginning may be blank: the
    words that ask for it, and what the volume is then."""
    data = device.rng.randbytes(lebs * device.leb + 3 * PAGE + 9)
    data, path = b"\xFF" * (blank * device.leb) + data[blank * device.leb :], os.path.join(folder, f"new of {name}")
    write(path, data)
    return ["--write", f"{name}={path}"], with_volume(device, name, data=data)[name]


def update(device, folder, *written):
    """Other contents for volumes: a static one and a dynamic one, unless others are named."""
    words, new = [], dict(device.volumes)
    for name, *more in written or (("kernel",), ("boot",)):
        asked, new[name] = contents(device, folder, name, *more)
        words += asked
    return Edit("update", words, new)


def update_dynamic(device, folder):
    return update(device, folder, ("data",))


def larger(device, folder):
    """Contents with another number of LEBs."""
    return update(device, folder, ("kernel", 1))


def other_kind(device, folder):
    """Another volume, of the other kind."""
    return update(device, folder, ("data",))


def blank_first(device, folder):
    """Contents whose first LEB is blank."""
    return update(device, folder, ("data", 1, 1))


def other_leb(device, folder):
    """Another LEB."""
    return change(device, folder, 2)


def other_name(device, folder):
    """Another name of another volume."""
    return rename(device, folder, "boot", "third")


EDITS = {
    "change of a mapped LEB": mapped, "change of an unmapped LEB": unmapped, "rename": rename, "update": update,
    "update of a dynamic volume": update_dynamic,
}


@dataclasses.dataclass(frozen=True)
class Head:
    """A step of a plan that programs a volume-identifier header: after how many steps it is done, its eraseblock, the
    volume that the header names, and how many pages are programmed behind it."""

    done: int
    block: int
    volume: int
    pages: int


def steps_of(text, pages):
    """The steps of a printed plan: the eraseblock, the page if one is programmed, and its bytes or None."""
    steps = []
    for line in text.splitlines():
        if line.startswith(("erase ", "program ")):
            numbers = [int(word) for word in re.findall(r"=(\d+)", line)]
            size = PAGE if len(numbers) == 2 else 0
            steps.append((*numbers, pages[:size] or None))
            pages = pages[size:]
    return steps


def heads_of(steps, vid):
    """The steps that program a volume-identifier header, which lies at a place of its eraseblock."""
    found, (page, at) = [], divmod(vid, PAGE)
    for done, (block, *program, data) in enumerate(steps, 1):
        if program == [page] and data[at : at + 4] == b"UBI!":
            rest = steps[done:]
            end = next((k for k, step in enumerate(rest) if step[0] != block or step[-1] is None), len(rest))
            found.append(Head(done, block, int.from_bytes(data[at + 8 : at + 12], "big"), end))
    return found


class Recipe(cuts.Plan):
    """A chip with an image, and an edit that is planned for it and carried out."""

    kind = Device

    def __init__(self, bench, number, edit):
        self.rng = random.Random(f"{bench.words.seed} {number} {edit}")
        self.bench, self.machine = bench, bench.machine
        self.device = self.kind(self.rng, number, bench.folder)
        self.dump()
        self.keeps = self.device.blank_words()
        self.edits = EDITS[edit](self.device, bench.folder)
        shutil.copy(os.path.join(ROOT, "carry_out.sh"), self.path("carry_out.sh"))
        self.plan("dump", "new")

    def tool(self, command, image, *words):
        """What the program prints, and its status."""
        sizes = ("--peb", PEB, "--page", PAGE, "--vid", self.device.vid, "--data", self.device.data)
        words = [self.bench.tool, command, self.path(f"{image}.img"), *map(str, sizes), *words]
        ran = subprocess.run(words, stdin=subprocess.DEVNULL, capture_output=True, text=True)
        self.said = ran.stderr
        return ran.stdout, ran.returncode

    def ask(self, image, name):
        """What the program prints for the edit of an image; it writes the image after it, and the pages."""
        listed = self.device.words()[-2:]
        more = ["--out", self.path(f"{name}.img"), "--pages", self.path(f"{name}.pages")]
        return self.tool(self.edits.command, image, *self.edits.words, *self.keeps, *listed, *more)

    def plan(self, image, name):
        """Plans the edit of an image."""
        text, status = self.ask(image, name)
        expect(status == 0, f"{self.edits.command} says {text}")
        write(self.path(f"{name}.plan"), text.encode())
        self.steps = steps_of(text, read(self.path(f"{name}.pages")))

    def heads(self):
        return heads_of(self.steps, self.device.vid)

    def __str__(self):
        words = " ".join([*self.edits.words, *self.keeps]).replace(f"{self.bench.folder}{os.sep}", "")
        how = f"{self.device.way}, second header at {self.device.vid}"
        return f"{how}: {self.edits.command} {words}; {len(self.steps)} steps"

    def carry(self, options, name="new"):
        """What carry_out.sh prints, and its status."""
        return self.machine.ask(f"sh carry_out.sh {options} /dev/mtd0 {name}.plan {name}.pages {PEB} {PAGE}")

    def carry_whole(self, options, name="new"):
        said, status = self.carry(options, name)
        done = f"\ndone: {len(self.steps)} steps\n"
        expect(status == 0 and said.endswith(done), f"carry_out.sh {options} ends with {status}: {said[-500:]}")

    def found_bad(self):
        """The eraseblocks that mtdinfo calls bad."""
        return [int(p) for p in re.findall(r"(\d+): [0-9a-f]{8} +BAD", self.machine.run("mtdinfo -M /dev/mtd0"))]

    def new_dump(self, name="dump"):
        self.machine.run(f"nanddump -q --bb=padbad --file={name}.img /dev/mtd0")
        self.device.bad = self.found_bad()

    def has_been(self, edits):
        """Takes what edits made of the volumes for the old."""
        old = self.device.volumes
        self.device.volumes = {volume.name: volume for volume in edits.new.values()}
        self.device.numbers = {edits.new[name].name: self.device.numbers[name] for name in old}

    def repaired(self):
        """If the plan is refused since the copies of the table differ, the chip is attached: the kernel has to read the
        new, and then another edit is asked for. Returns what was done."""
        text, _ = self.ask("dump", "new")
        if text != "refused N3 NeedsRepair\n":
            return []
        self.look(True)
        kept = next(name for name, volume in self.device.volumes.items() if self.edits.new[name] == volume)
        self.has_been(self.edits)
        self.edits = rename(self.device, self.bench.folder, kept, "third")
        self.new_dump()
        return ["N3, attached: the kernel reads the new; another rename planned"]

    def seen(self):
        """What the kernel reads."""
        text = self.machine.run(f"look {self.device.vid}")
        line, *warnings = text.splitlines()
        self.bench.warn(warnings)
        warnings = [warning for warning in warnings if "cannot reserve enough" not in warning]
        seen = sorted(part for part in line.split(";") if part)
        for is_new, what in ((True, "the new"), (False, "the old")):
            if seen == self.expected(is_new)[0]:
                return f"the kernel reads {what}"
        others = [one[:60] for one in seen if one not in self.expected(True)[0]]
        return " / ".join([f"the kernel: {others}", *warnings])

    def end(self):
        """After the last step: `check` of a new dump has to accept it, without --bad. The kernel has to read the new,
        also when it attaches the chip again."""
        self.new_dump("end")
        text, status = self.tool("check", "end")
        expect(status == 0 and text.endswith("accepted\n"), f"check says {text}")
        self.look(True)
        self.look(True)


class Failing:
    """An eraseblock that fails behind a header of a plan, with so many pages; -1 is all but the last one, and None all.
    What is done then, and what else is planned, if it isn't the same."""

    def __init__(self, edit, head, pages, done="listed", other=None):
        self.edit, self.head, self.pages, self.done, self.other = edit, head, pages, done, other

    def __str__(self):
        pages = {0: "header", 1: "header and a page", -1: "all but the last page", None: "all"}[self.pages]
        other = (self.other.__doc__ or "").strip().rstrip(".").lower() if self.other else "the same"
        return f"{self.edit}, eraseblock {self.head + 1}, {pages}; {self.done}; {other} planned"

    def attempt(self, bench, number):
        recipe = Recipe(bench, number, self.edit)
        head = recipe.heads()[self.head]
        step = head.done + (head.pages if self.pages is None else self.pages % head.pages if head.pages else 0)
        said, status = recipe.carry(f"-e {step} -d dump.img")
        expect(status == 0, f"carry_out.sh -e {step} ends with {status}: {said[-500:]}")
        if self.done == "attached, listed":
            recipe.machine.run(f"settle {recipe.device.vid}")
        recipe.new_dump()
        if self.done == "marked":
            self.mark(recipe, head.block)
        elif self.done != "not listed":
            recipe.device.listed = [head.block]
        said = [f"{step} of {len(recipe.steps)} steps", *recipe.repaired()]
        if self.other:
            recipe.edits = self.other(recipe.device, recipe.bench.folder)
        recipe.plan("dump", "new")
        is_taken = head.block in {step[0] for step in recipe.steps}
        said += ["taken again" if is_taken else "not taken", *recipe.said.replace(recipe.path(""), "").splitlines()]
        recipe.carry_whole("-d dump.img")
        recipe.new_dump("end")
        text, _ = recipe.tool("check", "end")
        said += [f"check: {text.splitlines()[-1]}", recipe.seen()]
        is_right = said[-2:] == ["check: accepted", NEW]
        expect(is_right or (self.done == "listed" and self.other), "; ".join(said))
        return "; ".join(said)

    def mark(self, recipe, block):
        """Makes a chip of which the eraseblock is bad, and that holds the same in the others."""
        image = bytearray(read(recipe.path("dump.img")))
        image[block * PEB : (block + 1) * PEB] = b"\xFF" * PEB
        write(recipe.path("marked.img"), image)
        recipe.machine.make_chip(COUNT, sorted([*recipe.device.bad, block]))
        recipe.machine.run("put marked.img")
        recipe.new_dump()
        expect(block in recipe.device.bad, "the eraseblock isn't bad")


def failings():
    """Failing eraseblocks: of each edit, and each header of its plan."""
    for pages in (0, 1, -1, None):
        yield Failing("change of a mapped LEB", 0, pages)
        yield Failing("change of an unmapped LEB", 1, pages)
        yield Failing("rename", 0, pages)
        yield Failing("update", 0, pages)
    yield Failing("change of an unmapped LEB", 0, 0)
    for pages in (0, -1):
        for edit, head in (("rename", 1), ("update", 1), ("update", 2), ("update", 3)):
            yield Failing(edit, head, pages)
    for done in ("not listed", "marked", "attached, listed"):
        yield Failing("change of a mapped LEB", 0, 1, done)
        yield Failing("rename", 0, -1, done)
        yield Failing("update", 0, 1, done)
    for done in ("listed", "not listed"):
        yield Failing("update", 0, 1, done, larger)
        yield Failing("update", 0, 1, done, other_kind)
        yield Failing("update of a dynamic volume", 0, 1, done, blank_first)
    yield Failing("change of a mapped LEB", 0, None, "listed", other_leb)
    yield Failing("update", 2, None, "listed", other_leb)
    yield Failing("update", 2, -1, "listed", other_name)


class Failed:
    """A program or an erase that the chip fails, and -m."""

    def __init__(self, edit, head, step):
        self.edit, self.head, self.step = edit, head, step

    def __str__(self):
        return f"{self.edit}, eraseblock {self.head + 1}, the chip fails {self.step}; -m"

    def attempt(self, bench, number):
        recipe = Recipe(bench, number, self.edit)
        head = recipe.heads()[self.head]
        at = {"the header": -1, "a page": 1, "the last page": head.pages - 1}.get(self.step)
        step = head.done + at if at is not None else head.done + head.pages
        block, *program, data = recipe.steps[step]
        recipe.machine.make_chip(COUNT, recipe.device.bad, self.weak(recipe, step))
        recipe.machine.run("put dump.img && dump held.img && cmp held.img dump.img")
        said, status = recipe.carry("-m -d dump.img")
        expect(status == 1, f"carry_out.sh -m ends with {status}: {said[-500:]}")
        expect(f"eraseblock {block} is marked as bad now" in said, f"carry_out.sh -m says {said[-700:]}")
        recipe.new_dump()
        expect(block in recipe.device.bad, f"mtdinfo doesn't call eraseblock {block} bad")
        told = [*said.splitlines()[-2:-1], *recipe.repaired()]
        recipe.plan("dump", "new")
        recipe.carry_whole("-m -d dump.img")
        recipe.end()
        return "; ".join([*told, "marked, planned again, and the kernel reads the new"])

    def weak(self, recipe, step):
        """The word for a chip that fails a step: it has erased each eraseblock once by then, as the dump was written,
        and programmed each page that isn't blank."""
        block, *program, data = recipe.steps[step]
        if data is None:
            before = sum(one[0] == block and one[-1] is None for one in recipe.steps[:step])
            return f"weakblocks={block}:{before + 1}"
        at = block * PEB + program[0] * PAGE
        written = read(recipe.path("dump.img"))[at : at + PAGE] != b"\xFF" * PAGE
        before = sum(one[:-1] == (block, *program) for one in recipe.steps[:step])
        return f"weakpages={block * PAGES + program[0]}:{written + before}"


def failed():
    """Chips that fail a step."""
    yield Failed("change of a mapped LEB", 0, "the header")
    yield Failed("update", 1, "a page")
    yield Failed("rename", 0, "the last page")
    yield Failed("change of an unmapped LEB", 1, "a page")
    yield Failed("rename", 1, "the header")
    yield Failed("change of a mapped LEB", 0, "the erase of the old one")
    yield Failed("rename", 0, "the erase of the old one")
    yield Failed("update", 3, "the last page")


class Unread:
    """An eraseblock with bits that ECC can't correct. The plan doesn't touch it, or does."""

    def __init__(self, edit, where):
        self.edit, self.where = edit, where

    def __str__(self):
        return f"{self.edit}, bits that can't be corrected in {self.where}; -u"

    def attempt(self, bench, number):
        recipe = Recipe(bench, number, self.edit)
        block = self.block(recipe)
        at = block * PEB + 7 * PAGE + 3 * ECC_STEP
        recipe.machine.run(f"nandflipbits -q /dev/mtd0 1@{at + 8} 5@{at + 100}")
        said = recipe.machine.run("nanddump --bb=padbad --file=dump.img /dev/mtd0")
        expect("uncorrectable" in said, f"nanddump says {said}")
        recipe.plan("dump", "new")
        touches = block in {step[0] for step in recipe.steps}
        without, status = recipe.carry("-d dump.img")
        expect(status == 2 and f"eraseblock {block} of /dev/mtd0 can't be read" in without, f"without -u: {without}")
        said, status = recipe.carry("-u -d dump.img")
        if touches:
            expect(status == 2 and "the plan touches it" in said, f"with -u: {said}")
            return f"{without.strip()}; -u: {said.strip()}"
        passed = f"carry_out: eraseblock {block} of /dev/mtd0 can't be read, and isn't compared"
        expect(status == 0 and said.startswith(passed), f"with -u: {said}")
        told = f"{without.strip()}; -u: {said.splitlines()[0]}"
        if self.where == "another volume":
            return f"{told}; {recipe.seen()}"
        recipe.end()
        return f"{told}; the kernel reads the new"

    def block(self, recipe):
        """The number of the eraseblock."""
        image, device = read(recipe.path("dump.img")), recipe.device
        if self.where == "the eraseblock that is replaced":
            return recipe.steps[-1][0]
        named = {*device.bad, *(step[0] for step in recipe.steps)}
        for p in reversed([p for p in range(COUNT) if p not in named]):
            header = image[p * PEB + device.vid : p * PEB + device.vid + 64]
            volume = int.from_bytes(header[8:12], "big") if header[:4] == b"UBI!" else None
            other = next(name for name, old in device.volumes.items() if recipe.edits.new[name] == old)
            if volume == (device.numbers[other] if self.where == "another volume" else None):
                return p
        raise Failure("there is no such eraseblock")


def unread():
    for edit, *places in (
        ("change of a mapped LEB", "a free eraseblock", "the eraseblock that is replaced", "another volume"),
        ("update", "a free eraseblock", "another volume"),
    ):
        for where in places:
            yield Unread(edit, where)


class Chain:
    """Two plans, the second made from the `--out` of the first."""

    def __init__(self, edit, other):
        self.edit, self.other = edit, other

    def __str__(self):
        return f"{self.edit}, and then {self.other.__name__.replace('_', ' ')}; no dump in between"

    def attempt(self, bench, number):
        recipe = Recipe(bench, number, self.edit)
        recipe.carry_whole("-d dump.img")
        steps = len(recipe.steps)
        recipe.has_been(recipe.edits)
        recipe.edits = self.other(recipe.device, bench.folder)
        recipe.plan("new", "second")
        recipe.carry_whole("-d new.img", "second")
        recipe.machine.run("dump held.img && cmp held.img second.img")
        recipe.end()
        return f"{steps} steps, and {len(recipe.steps)}; the kernel reads the new"


def chains():
    yield Chain("change of a mapped LEB", other_name)
    yield Chain("rename", update)
    yield Chain("update", unmapped)
    yield Chain("update", other_kind)


class Whole:
    """The recipe of a change as docs/CHANGE.md has it."""

    def __str__(self):
        return "the recipe of a change"

    def attempt(self, bench, number):
        recipe = Recipe(bench, number, "change of a mapped LEB")
        said = recipe.machine.run("nanddump --bb=padbad --file=dump.img /dev/mtd0")
        expect("uncorrectable" not in said, said)
        size = recipe.machine.run("cat /sys/class/mtd/mtd0/size")
        expect(os.path.getsize(recipe.path("dump.img")) == int(size), f"the size is {size}")
        expect(recipe.found_bad() == recipe.device.bad, "mtdinfo names other eraseblocks")
        recipe.plan("dump", "new")
        said, status = recipe.carry("-c -d dump.img")
        expect(status == 0, said)
        recipe.machine.run("dump held.img && cmp held.img dump.img")
        recipe.carry_whole("-d dump.img")
        recipe.machine.run("dump held.img && cmp held.img new.img")
        recipe.end()
        text, status = recipe.tool("list", "end")
        expect(status == 0 and text.count(" name=") == len(recipe.device.volumes), f"list says {text}")
        return f"{said.strip()}; second header at {recipe.device.vid}, data at {recipe.device.data}"


def recipes():
    return [Whole(), Whole(), *failings(), *failed(), *unread(), *chains()]


def main():
    words = cuts.options(__doc__, first=0, seed=1, limit=600)
    words.add_argument("--only", default="")
    words = words.parse_args()

    def attempts(bench):
        for number, recipe in enumerate(recipes()):
            if number >= words.first and re.search(words.only, str(recipe)):
                name = f"recipe {number} of seed {words.seed}, {recipe}"
                bench.attempt(name, lambda: print(f"{name}: {recipe.attempt(bench, number)}", flush=True))

    cuts.run_bench(words, attempts)


if __name__ == "__main__":
    main()
