#!/usr/bin/env python3
"""Takes random images apart and puts them together again: `unpack`, and `build` of the config that it writes.

usage: circle.py [--seed N] [--count N] [--large N] [--ubinize N] [--first N] [--dir FOLDER] [--tool PROGRAM]

The images are those of check/second/fuzz.py. From an accepted one `unpack` has to write the files and the config that
check/second/rules.py gives. Then it runs the words of the config's first line, with a path for IMAGE: what is built has
to be the normal image of the volumes that the config describes, byte for byte; and if it describes all of them, it has
to be what `normalise` writes for the image itself.

By default there are 500 images (--count) of the seed 1 (--seed) with eraseblocks of up to 1 KiB, and 10 (--large) with
eraseblocks of 128 KiB. They lie in a new folder below FOLDER (/tmp by default), which is removed afterwards. Without
--tool the program is built first, unless it is built already. It counts how many come back whole, and how many in part.
With --ubinize N more images are taken apart, with sizes that ubinize can make (it needs mtd-utils): ubinize takes the
config too, and makes an image that means the same, unless docs/CONFIG-FORMAT.md says why not. The last line is 'N
passed, M failed', and the exit status is 0 if none failed.
"""
import collections
import os
import shutil
import subprocess

import rules
from fuzz import REAL_SIZES, Failure, Maker, Mutator, Runner, built, finish, options, run_cases
from rules import Image, Meaning, Refused

# Sizes of images that ubinize makes: its sub-pages have 512 bytes.
UBINIZE_SIZES = ((16384, 512, 512, 1024), (16384, 2048, 512, 2048), (32768, 2048, 2048, 4096))


class Circle(Runner):
    """An image that is taken apart and put together."""

    def __init__(self, rng, tool, folder, maker):
        super().__init__(tool, folder, maker.geometry)
        self.data = Mutator(rng, self.geometry, (0, 0, 0, 1)).mutate(maker.blocks)
        self.volumes = os.path.join(folder, "apart")

    def words(self, config):
        """The words of the config's first line, for the path of the output."""
        mark, tool, command, name, *words = config.split(b"\n")[0].decode().split(" ")
        if (mark, tool, command, name) != ("#", "ubi_tool", "build", "ubi.ini"):
            raise Failure(f"the first line of the config is {mark} {tool} {command} {name}")
        return [command, os.path.join(self.volumes, name), *(self.out if word == "IMAGE" else word for word in words)]

    def described(self, image):
        """The part of an image that the config describes."""
        said = [number for number in image.records if rules.left_out(image, number) is None]
        return Meaning(self.geometry, image.image_seq, {number: image.records[number] for number in said},
            {number: image.contents[number] for number in said})

    def look(self):
        """Compares what is built with what was there. Returns whether all of it came back, a part, or nothing, since it
        is refused."""
        path = self.put("whole", self.data)
        try:
            image = Image(self.geometry, self.data)
        except Refused:
            return "refused"
        self.look_unpacked(path, image)
        shutil.rmtree(self.volumes, ignore_errors=True)
        status = int(any(isinstance(content, str) for content in image.contents.values()))
        self.expect(["unpack", path, "--out", self.volumes], "".join(self.lines(image)), status)
        with open(os.path.join(self.volumes, "ubi.ini"), "rb") as file:
            words = self.words(file.read())
        meant = self.described(image)
        normal = rules.normal_image(meant)
        self.expect_bare(words, f"blocks {len(normal) // self.geometry.peb}\n", 0, normal)
        shutil.rmtree(self.volumes)
        if len(meant.records) != len(image.records):
            return "in part"
        self.expect(["normalise", path, "--out", self.out], f"blocks {len(normal) // self.geometry.peb}\n", 0, normal)
        return "whole"

    def look_ubinized(self):
        """Compares what ubinize makes of the config with what it describes. Returns whether that was done."""
        path, g = self.put("whole", self.data), self.geometry
        try:
            image = Image(g, self.data)
        except Refused:
            return "refused"
        meant = self.described(image)
        if not meant.records or not all(self.is_alike(image, number) for number in meant.records):
            return "not for ubinize"
        shutil.rmtree(self.volumes, ignore_errors=True)
        subprocess.run([self.tool, *self.whole(["unpack", path, "--out", self.volumes])], capture_output=True)
        sizes = ["-p", str(g.peb), "-m", str(g.page), "-s", "512", "-O", str(g.vid), "-Q", str(meant.image_seq)]
        made = subprocess.run(["ubinize", "-o", self.out, *sizes, "ubi.ini"], cwd=self.volumes, capture_output=True)
        if made.returncode:
            raise Failure(f"ubinize refuses the config: {made.stderr.decode(errors='replace')}")
        normal = self.put("normal", rules.normal_image(meant))
        same = subprocess.run([self.tool, *self.whole(["same", normal, self.out])], capture_output=True)
        if same.stdout != b"same\n":
            raise Failure(f"ubinize makes another image from the config: {same.stdout.decode()}")
        os.remove(self.out)
        shutil.rmtree(self.volumes)
        return "ubinized"

    def is_alike(self, image, number):
        """Whether ubinize makes the same volume: its alignment leaves nothing unused, and it isn't static and empty."""
        record, leb = image.records[number], self.geometry.leb
        leaves_nothing = leb % record.alignment == 0 and record.alignment != leb
        return leaves_nothing and (record.kind != 2 or bool(image.read_volume(number)))

    def lines(self, image):
        """The lines of `unpack`."""
        for number, record in sorted(image.records.items()):
            content = image.contents[number]
            how = content if isinstance(content, str) else f"bytes={len(image.read_volume(number))}"
            yield f"volume {number} {how} name={rules.shown(record.name)}\n"


def main():
    words = options(__doc__, 500, large=10, ubinize=0)
    tool = built(words.tool)

    def look_ubinized(rng, folder):
        return Circle(rng, tool, folder, Maker(rng, UBINIZE_SIZES)).look_ubinized()

    answers, failed = run_cases(words, {
        "": (lambda rng, folder: Circle(rng, tool, folder, Maker(rng)).look(), words.count),
        "large ": (lambda rng, folder: Circle(rng, tool, folder, Maker(rng, REAL_SIZES)).look(), words.large),
        "ubinize ": (look_ubinized, words.ubinize),
    })
    print(", ".join(f"{count} {answer}" for answer, count in sorted(collections.Counter(answers).items())))
    finish(len(answers), failed)


if __name__ == "__main__":
    main()
