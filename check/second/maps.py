#!/usr/bin/env python3
"""Compares what `map` prints for random images with a second reading (rules.py), and the data of its page with the
answers of `check`, `list` and `show`.

usage: maps.py [--seed N] [--count N] [--first N] [--dir FOLDER] [--tool PROGRAM]

The images are those of fuzz.py, accepted and refused, now and then cut, with bad eraseblocks, and with names of any
bytes. The rows and the exit status have to be those of docs/FORMAT.md. The page has to be there exactly if the image
has the length of an image. Its frame has to be that of every other page. Its data have no `<`, and Python's json reads
them: the lines of each eraseblock's headers are those of the second reading, and the other members are the objects that
`check` and `list` answer.

By default there are 500 images of the seed 1. Without --tool the program is built first, unless it is built already.
The last line is 'N passed, M failed', and the exit status is 0 if none failed; an image that failed can be made again
by giving its number to --first.
"""
import json
import os
import subprocess

import rules
from fuzz import Failure, Lister, Maker, Mutator, built, finish, options, run_cases

# What comes before the data of a page, and after them.
BEFORE, AFTER = '<script type="application/json" id="data">', "</script>"
# Eraseblocks in a row.
ROW = 64


def header_letter(ec, vid):
    """The letter of an eraseblock, given what its headers are, and the volume of a valid VID header."""
    (ec, _), (vid, header) = ec, vid
    if "fault" in ec or "fault" in vid:
        return "!"
    if vid == "valid":
        return "t" if header.volume == rules.LAYOUT else "v"
    return "c" if "corrupt" in (ec, vid) else "b" if ec == "blank" else "f"


def rows(letters):
    return "".join(f"{at:7} {letters[at : at + ROW]}\n" for at in range(0, len(letters), ROW))


class Case:
    """An image in a file, and what is asked about it."""

    frames = set()

    def __init__(self, rng, tool, folder):
        maker = Maker(rng)
        self.tool, self.geometry, self.page = tool, maker.geometry, f"{folder}/page.html"
        image = Mutator(rng, self.geometry, (0, 1, 1, 2, 3)).mutate(maker.blocks)
        if rng.random() < 0.05:
            image = image[:rng.randrange(len(image) + 1)]
        self.bad = []
        if rng.random() < 0.3:
            image, word = Lister(rng, self.geometry, image).bad()
            self.bad = [f"--bad={word}"] if rules.listed(word) else []
        self.is_bad = rules.listed(self.bad[0].removeprefix("--bad=")) if self.bad else rules.none_listed
        self.image, self.path = image, f"{folder}/image"
        with open(self.path, "wb") as file:
            file.write(image)

    def ask(self, command, *words):
        whole = [self.tool, command, self.path, *self.geometry.words(), *self.bad, *words]
        run = subprocess.run(whole, capture_output=True, text=True)
        return run.stdout, run.returncode

    def headers(self):
        """What the headers of each eraseblock are, and their bytes."""
        g, seen = self.geometry, rules.masked(self.geometry, self.image, self.is_bad)
        for at in range(0, len(seen), g.peb):
            ec, vid = seen[at : at + 64], seen[at + g.vid : at + g.vid + 64]
            yield (rules.read_ec(g, ec), ec), (rules.read_vid(g, vid), vid)

    def expected(self):
        """What is printed, and the status."""
        try:
            states = rules.Image(self.geometry, self.image, self.is_bad).states
        except rules.Refused as refused:
            line = f"refused {refused}\n"
            if str(refused) in ("S1 Length", "S2 TooMany"):
                return line, 1
            return rows("".join(header_letter(ec, vid) for (ec, _), (vid, _) in self.headers())) + line, 1
        return rows("".join(state[0] for state in states)), 0

    def page_data(self):
        """The data of the page, whose frame has to be that of every other page."""
        with open(self.page, encoding="ascii") as file:
            before, _, rest = file.read().partition(BEFORE)
        data, _, after = rest.partition(AFTER)
        Case.frames.add((before, after))
        if "<" in data or len(Case.frames) > 1:
            raise Failure("the page has a `<` in its data, or another frame")
        return json.loads(data)

    def check_page(self, text, status):
        data = self.page_data()
        blocks = (zip(("ec", "vid"), block) for block in self.headers())
        lines = ["".join(f"{name} {state} {raw.hex()}\n" for name, ((state, _), raw) in block) for block in blocks]
        letters = "".join(row[8:] for row in text.splitlines() if not row.startswith("refused "))
        want = {"blocks": lines, "states": letters}
        check, listed = (json.loads(self.ask(command, "--format", "json")[0]) for command in ("check", "list"))
        if status:
            want |= {"geometry": data.get("geometry"), "refusal": check}
            if data.get("geometry", {}).get("peb") != self.geometry.peb:
                raise Failure(f"the page has the sizes {data.get('geometry')}")
        else:
            want |= {"check": check, "list": listed}
        if data != want:
            raise Failure(f"the page has the data {data}, and not {want}")

    def look(self):
        """Compares the answers. Returns whether the image is accepted."""
        want = self.expected()
        if self.ask("map") != want or self.ask("map", "--out", self.page) != want:
            raise Failure(f"printed {self.ask('map')}, and not {want}")
        has_page = os.path.exists(self.page)
        if has_page != want[0].startswith(" "):
            raise Failure(f"{'a' if has_page else 'no'} page was written, and {want} printed")
        if has_page:
            self.check_page(*want)
            os.remove(self.page)
        return want[1] == 0


def main():
    words = options(__doc__, 500)
    tool = built(words.tool)
    answers, failed = run_cases(words, {"map ": (lambda rng, folder: Case(rng, tool, folder).look(), words.count)})
    print(f"{sum(answers)} accepted")
    finish(len(answers), failed)


if __name__ == "__main__":
    main()
