#!/usr/bin/env python3
"""Refuses each allocation of the program in turn, with random images.

usage: starve.py [--seed N] [--count N] [--first N] [--dir FOLDER] [--tool PROGRAM]

The images are those of fuzz.py that are accepted, some of them with eraseblocks that are listed as bad. Each command is
run on an image again and again: the first run has its first allocation refused, the second its second, and so on until
a run meets no refusal. Each run that meets one has to print `out of memory`, end with status 1, and leave the output
and the pages as they were: no file, and no folder. The last one has to answer as with ample memory.
check/second/refuse.sh does the same with tests of the libraries.

By default there are 20 images (--count) of the seed 1 (--seed). They lie in a new folder below FOLDER (/tmp by
default), which is removed afterwards. Without --tool the program is built first, unless it is built already. It needs a
C compiler (cc, or what CC names), for a few lines that wrap the C library's malloc and realloc. The last line is 'N
passed, M failed', which counts runs, and the exit status is 0 if none failed.
"""
import os
import random
import subprocess
import tempfile

import rules
from fuzz import ROOT, Case, Failure, Maker, built, finish, options, renumbered, taken, taken_file


def refusing(folder):
    """The path of a library that refuses one allocation, which REFUSE_AT counts from 1."""
    source, library = os.path.join(ROOT, "check", "second", "refuse.c"), os.path.join(folder, "refuse.so")
    compiler = os.environ.get("CC", "cc")
    subprocess.run([compiler, "-O1", "-shared", "-fPIC", "-o", library, source, "-ldl"], check=True)
    return library


CONFIG = """[a]
mode=ubi
vol_id=0
vol_name=a
vol_type=static
image=new
[b]
mode=ubi
vol_id=1
vol_name=b
vol_size=1KiB
image=new
"""


class Starved(Case):
    """An accepted image, and the commands on it."""

    def __init__(self, rng, tool, folder, maker):
        super().__init__(rng, tool, folder, maker)
        self.volumes = os.path.join(folder, "volumes")

    def commands(self, image):
        normal, peb = rules.normal_image(image), self.geometry.peb
        other = self.put("other", normal)
        changed = b"".join(renumbered(normal[at : at + peb], 1) for at in range(0, len(normal), peb))
        number = str(next(iter(image.records), 0))
        new = self.put("new", self.rng.randbytes(self.geometry.page))
        yield from ([name, self.path] for name in ("geometry", "check", "list"))
        yield ["show", self.path, "--block", "0"]
        yield ["same", self.path, other]
        yield ["diff", self.path, self.put("changed", changed)]
        yield ["extract", self.path, "--id", number, "--out", self.out]
        for record in list(image.records.values())[:1]:
            yield ["extract", self.path, f"--name={rules.shown(record.name)}", "--out", self.out]
        yield ["unpack", self.path, "--out", self.volumes]
        yield ["build", self.put("config", CONFIG.encode()), "--out", self.out]
        yield ["normalise", self.path, "--out", self.out]
        yield self.compose_words(image, 1)
        common = [self.path, "--id", number, "--out", self.out]
        yield ["change", *common, "--lnum", "0", "--from", new, "--pages", self.pages]
        yield ["rename", *common, "--name", "another", "--pages", self.pages]
        yield ["rename", *common, "--name", "another", "--blank", "keep"]

    def run(self, words, **environment):
        ran = subprocess.run([self.tool, *self.whole(words)], capture_output=True, env={**os.environ, **environment})
        left = (taken(self.volumes), self.written(), taken_file(self.pages))
        return ran.stdout, ran.returncode, left, b"refused an allocation" in ran.stderr

    def starve(self, words, library):
        """Refuses each allocation of a run. Returns how many there are."""
        ample, nothing = self.run(words), (None, None, None)
        place = 1
        while True:
            answer = self.run(words, LD_PRELOAD=library, REFUSE_AT=str(place))
            if not answer[3]:
                if answer != ample:
                    raise Failure(f"{words[0]} answers {answer[:2]} and not {ample[:2]}")
                return place - 1
            if answer[:3] != (b"out of memory\n", 1, nothing):
                written = f"{answer[2]!r:.60}"
                raise Failure(f"{words[0]} answers {answer[:2]} if allocation {place} is refused, and writes {written}")
            place += 1


def main():
    words = options(__doc__, 20)
    passed = failed = images = 0
    number = words.first
    with tempfile.TemporaryDirectory(dir=words.dir) as folder:
        tool, library = built(words.tool), refusing(folder)
        while images < words.count:
            rng = random.Random(f"{words.seed} {number}")
            case = Starved(rng, tool, folder, Maker(rng))
            number += 1
            try:
                image = case.read(case.image)
            except rules.Refused:
                continue
            images += 1
            for command in case.commands(image):
                try:
                    passed += case.starve(command, library)
                except Failure as failure:
                    print(f"image {number - 1} of seed {words.seed}: {failure}")
                    failed += 1
    finish(passed, failed)


if __name__ == "__main__":
    main()
