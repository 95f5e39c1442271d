#!/usr/bin/env python3
"""Compares the program's answers for files, when it is given no numbers, with docs/FORMAT.md, as
check/second/geometry.py and rules.py read it, and with the truth.

usage: desk.py [--seed N] [--count N] [--geometry N] [--first N] [--dir FOLDER] [--tool PROGRAM]

The files are those of dumps.py: images with anything around them, damaged, cut, one in another, with out-of-band bytes;
and hostile ones. For each, `geometry` has to print the lines of geometry.py, or the line of the cause for which there
are none; and what it prints has to be true, unless docs/FORMAT.md allows the wrong answer. Then `list`, `check`,
`extract`, `unpack` and `normalise` of the file, without a number, have to answer what the rules say about the image
that lies there with the first geometry: every whole eraseblock on its grid, without out-of-band bytes. If no geometry
can be found, they have to print the line of `geometry`, end with status 1 and write nothing. If the file has several
images that are apart, they have to refuse it likewise, with the spans of all (F10), and to read it if they are given
the first line.

By default there are 1,000 files (--count) of the seed 1 (--seed), and no files on which only `geometry` is run
(--geometry). They lie in a new folder below FOLDER (/tmp by default), which is removed afterwards. Without --tool the
program is built first, unless it is built already. It counts the right, wrong and refused answers, and the files whose
images are apart. The last line is 'N passed, M failed', and the exit status is 0 if none failed; a file that failed can
be made again by giving its number to --first: the kind of a file depends on its number.
"""
import collections
import os
import subprocess

import dumps
import rules
from fuzz import Failure, Runner, built, complaints, finish, options, run_cases, taken
from geometry import answer, printed
from rules import Image, Refused


class Case(Runner):
    """A file, and the answers that the program has to give for it."""

    def __init__(self, rng, tool, folder, k):
        super().__init__(tool, folder, None)
        self.rng = rng
        self.kind, self.file = dumps.file_of(rng, k)
        self.path = self.put("file", self.file.data)
        self.volumes, self.typed = os.path.join(folder, "volumes"), []
        # An earlier file that failed may have left these.
        taken(self.volumes)
        self.written()

    def whole(self, words):
        """The words of a command as they are, if no number is given; otherwise with these."""
        return [*words, *self.typed]

    def look(self):
        """Compares each answer. Returns whether the geometry is right, wrong or refused, and whether there are several
        images that are apart."""
        judgement, text = self.look_geometry()
        if judgement == "refused":
            self.look_refused(text)
            return judgement, False
        found = answer(self.file.data)
        if found.is_apart:
            self.look_refused(found.refusal())
            self.typed = found.geometries[0].line().split()
        self.look_found(found.geometries[0])
        return judgement, found.is_apart

    def look_geometry(self):
        """Compares the answer with the rule and with the truth. Returns whether it is right, wrong or refused, and what
        is printed."""
        text, status = printed(self.file.data)
        judgement = dumps.judged(self.file, text, status)
        ran = subprocess.run([self.tool, "geometry", self.path], capture_output=True)
        said, error = (ran.stdout.decode(), ran.returncode), complaints(ran.stderr, ran.stdout)
        if said != (text, status) or error:
            judged = dumps.judged(self.file, *said)
            raise Failure(f"{self.kind}: geometry answers {said}, which is {judged}, and the rule {(text, status)}, "
                f"which is {judgement}; {error.decode()}")
        if judgement == "wrong" and not dumps.may_be_named(self.file, text):
            what = f"{text.splitlines()[0]}, {dumps.fault(self.file, text)}"
            raise Failure(f"{self.kind}: the rule itself is wrong: {what}")
        return judgement, text

    def look_refused(self, line):
        """Checks that the commands that read an image refuse a file as `geometry` does."""
        out = ["--out", self.out]
        for command, *words in (["list"], ["check"], ["extract", "--id", "0", *out], ["normalise", *out]):
            self.expect([command, self.path, *words], line, 1)
        self.look_not_unpacked(line)

    def look_not_unpacked(self, line):
        self.expect(["unpack", self.path, "--out", self.volumes], line, 1)
        if os.path.exists(self.volumes):
            raise Failure(f"{self.kind}: a folder is made for a file that is refused")

    def look_found(self, found):
        """Compares the answers for the image that lies in a file."""
        try:
            image = Image(found.geometry, found.image(self.file.data))
        except Refused as refused:
            self.look_refused(f"refused {refused}\n")
            return
        self.geometry = found.geometry
        normal = rules.normal_image(image)
        self.expect(["list", self.path], "".join(rules.list_lines(image)), 0)
        self.expect(["check", self.path], "".join(rules.check_lines(image)), 0)
        self.look_read(self.path, image, self.rng.choice((*image.records, 0, 127)))
        self.look_unpacked(self.path, image)
        lines = f"blocks {len(normal) // self.geometry.peb}\n"
        self.expect(["normalise", self.path, "--out", self.out], lines, 0, normal)


def main():
    words = options(__doc__, 1000, geometry=0)
    tool = built(words.tool)

    def looks(count, look):
        numbers = iter(range(words.first, words.first + count))
        return lambda rng, folder: look(Case(rng, tool, folder, next(numbers))), count

    answers, failed = run_cases(words, {
        "": looks(words.count, Case.look),
        "geometry": looks(words.geometry, lambda case: (case.look_geometry()[0], False)),
    })
    counts, several = collections.Counter(judgement for judgement, _ in answers), sum(apart for _, apart in answers)
    rights = ", ".join(f"{counts[judgement]} {judgement}" for judgement in ("right", "wrong", "refused"))
    print(f"{rights}; {several} with images that are apart")
    finish(len(answers), failed)


if __name__ == "__main__":
    main()
