#!/usr/bin/env python3
"""Compares the answers of the calls for C and Python with those of the program, for the images of the repository and for
random ones.

usage: c_calls.py [--seed N] [--count N] [--large N] [--plans N] [--updates N] [--large-updates N] [--starved N]
                  [--first N] [--dir FOLDER] [--tool PROGRAM] [--built FOLDER] [--asan]

The images are those of fuzz.py and the second ones those of diff.py: accepted and refused, with all kinds of volumes
and states; and those in crates/ubi_tool/data. For each it runs `geometry`, `check`, `list`, `show`, `extract`,
`normalise`, `same`, `diff`, `change`, `rename` and `update`, also with numbers that are no geometry, and with volumes,
LEBs and eraseblocks that don't exist. c_caller.c makes the calls for each, and so does c/ubi.py: the status has to be
the program's exit status, the bytes those that it prints or writes to its output, and the pages those of its --pages.
Each call of C is made with exactly the room that its answer needs, with one byte more and one less, with none and with
one byte: the answer's length must be the same, its first bytes must be in the buffer, and no other byte may be written,
nor any that is passed. For some images each allocation of each call is refused in turn: it has to answer that memory
ran out, with nothing or only first bytes written. If an image is refused, Python has to raise the cause.

For --plans images it looks at plans alone, around bad eraseblocks: those of members, of the table, of nothing and ones
that the image doesn't have, with blank eraseblocks kept or not. The program gets them by --bad and --blank.

For --updates images, and --large-updates with large eraseblocks, it looks at updates alone, with the images and the
edits of updates.py. The lines that ask for edits stand in the order in which the program does them, or in any other;
then update_rules.py says what is right. Many texts are wrong: a line of each kind, contents that are too short, or left
over.

The shared object has to export the calls and nothing else. Python has to raise TypeError for what are no sizes, and
MemoryError where a copy of the image doesn't fit in memory.

It also reads volumes of more than 2^31 and of more than 2^32 bytes, the former by Python, which takes 5 GB of memory.
Then it runs c/examples/volumes.c and volumes.py on an image, which have to print and write the same as the program.

By default there are 200 images of the seed 1, five with large eraseblocks, 500 for plans, 200 and two for updates, and
five for which allocations are refused. The library is the one that c/build.sh has put into c/out, or the one in the
folder that --built names. With --asan c_caller.c is compiled with the checkers of addresses and of undefined behaviour,
and linked with the archive. Without --tool the program is built first, unless it is built already. The last line is 'N
passed, M failed', and the exit status is 0 if none failed; an image that failed can be made again by giving its number
to --first.
"""
import argparse
import collections
import ctypes
import dataclasses
import os
import random
import re
import subprocess
import sys
import tempfile
from pathlib import Path

import rules
import text_rules
import update_rules
import updates
from diff import Changer
from fuzz import REAL_SIZES, SIZES, Failure, Maker, Mutator, built, finish, run_cases, taken_file
from rules import Geometry, Image, Refused, shown
from update_rules import Word

ROOT = Path(__file__).resolve().parents[2]
sys.path.insert(0, str(ROOT / "c"))
import ubi  # noqa: E402

# Numbers that are no geometry, each for another limit.
NO_SIZES = (
    (512, 60, 64, 128, 8), (500, 64, 64, 128, 8), (512, 64, 60, 128, 8), (512, 64, 64, 64, 8), (256, 64, 64, 128, 8),
    (512, 64, 64, 128, 1), (0, 0, 0, 0, 0), (2**32 - 1,) * 5,
)
CHIP = ("--peb", "131072", "--page", "2048")
# What c_caller.c fills buffers with.
FILLER = b"\xA5"
# The edits of a text, in the order in which the program does those of its options.
EDITS = ("rename", "resize", "remove", "write")
# Lines that ask for no edit.
NO_EDITS = (
    b"", b"rename", b"rename ", b"rename a", b"resize", b"resize a", b"remove", b"write", b"write a", b"write a=",
    b"write a=+1", b"write a=-1", b"write a=0x1", b"write a= 1", b"write a=1 ", b"write a=1KiB", b"write a=1=1",
    b"write a=\xD9\xA3", b"Rename a=b", b"rename\ta=b", b" remove a", b"removed a", b"create a=1", b"remove \xFF",
    b"rename a=\xC3", b"\xFF", b"\x00", b"write a=" + b"9" * 40, b"write a=18446744073709551616",
)
# The checkers of addresses and of undefined behaviour.
CHECKERS = ("-fsanitize=address,undefined", "-fno-sanitize-recover=all", "-g")


@dataclasses.dataclass
class Spared:
    """What a plan spares: bad eraseblocks, and blank ones or not."""

    bad: tuple = ()
    keeps_blank: bool = False

    def words(self):
        bad = ["--bad", ",".join(map(str, self.bad))] if self.bad else []
        return bad + ["--blank", "keep"] * self.keeps_blank

    def given(self):
        return {"bad": self.bad, "keep_blank": self.keeps_blank}


NOTHING_SPARED = Spared()


def text_of(words):
    """The text that asks for the edits of some words, and the contents that they write."""
    contents = b"".join(word.value for word in words if word.option == "write")
    given = [len(word.value) if word.option == "write" else word.value for word in words]
    lines = [f"{word.option} {word.name}{'' if value is None else f'={value}'}\n" for word, value in zip(words, given)]
    return "".join(lines).encode(), contents


def spoiled(rng, text, contents):
    """A text and contents, with something else in one of them; most are wrong then, but not all."""
    lines = text.splitlines(True)
    place = rng.randrange(len(lines) + 1)
    line = rng.choice(NO_EDITS) + b"\n"
    length, cut = len(contents), rng.choice((1, len(contents) // 2))
    return rng.choice((
        (b"".join(lines[:place] + [line] + lines[place:]), contents),
        (b"".join(lines[:place] + [line] + lines[place + 1:]), contents),
        (text + line[:-1], contents), (text + b"\n", contents), (b"\n" + text, contents), (text[:-1], contents),
        (text.replace(b"\n", b"\r\n"), contents), (b"", contents), (b"", b""),
        (text, contents + bytes(rng.choice((1, 700)))), (text, contents[:max(length - cut, 0)]),
        (re.sub(rb"(write .*=)", rb"\g<1>00", text), contents), (text[:rng.randrange(len(text) + 1)], contents),
    ))


def read_text(text, contents):
    """The words of a text of edits, as docs/C.md says; or the number of the line that is wrong."""
    lines, words, taken = text.split(b"\n"), [], 0
    for number, line in enumerate(lines if lines[-1] else lines[:-1], 1):
        try:
            option, space, word = line.decode().partition(" ")
        except UnicodeDecodeError:
            return number
        name, sign, value = word.partition("=")
        if option == "remove" and space:
            words.append(Word(option, word))
        elif option in ("rename", "resize") and sign:
            words.append(Word(option, name, value))
        elif option == "write" and re.fullmatch("[0-9]+", value) and taken + int(value) <= len(contents):
            words.append(Word(option, name, contents[taken:taken + int(value)]))
            taken += int(value)
        else:
            return number
    return words if taken == len(contents) else len(words) + 1


def edit_of(word, as_bytes):
    """The edit of Python that a word asks for; names are given AS_BYTES, or as they are shown."""
    name = text_rules.name_of(word.name.encode()) if as_bytes else word.name
    if word.option == "rename":
        return ubi.Rename(name, text_rules.name_of(word.value.encode()) if as_bytes else word.value)
    if word.option == "resize":
        return ubi.Resize(name, int(word.value) if word.value.isdecimal() and word.value.isascii() else word.value)
    return ubi.Remove(name) if word.option == "remove" else ubi.Write(name, word.value)


def sizes_of(geometry):
    return (geometry.peb, geometry.page, geometry.vid, geometry.data, geometry.pebs)


class Caller:
    """c_caller.c, compiled and running."""

    def __init__(self, made, folder, checkers):
        program = f"{folder}/c_caller"
        compiler = ["cc", "-Wall", "-Wextra", "-Werror", "-O1", *checkers, f"-I{made}", "-o", program]
        sources = [ROOT / "check/second/c_caller.c", f"{made}/libubi.a"]
        subprocess.run([*compiler, *sources, "-Wl,--wrap=malloc,--wrap=realloc"], check=True)
        self.running = subprocess.Popen([program], stdin=subprocess.PIPE, stdout=subprocess.PIPE)

    def call(self, name, sizes, room, pages_room, paths, numbers, spared, refused=0):
        """The status, the length, the bytes, whether nothing else was written, and the length of the pages and their
        bytes, of a call in which the allocation with the number REFUSED is refused."""
        words = [name, room, pages_room, *sizes, *(list(paths) + ["-", "-"])[:3], *(list(numbers) + [0, 0])[:2]]
        words += [",".join(map(str, spared.bad)) or "-", int(spared.keeps_blank), refused]
        self.running.stdin.write((" ".join(map(str, words)) + "\n").encode())
        self.running.stdin.flush()
        line = self.running.stdout.readline()
        if not line:
            raise Failure(f"the caller ended at {words}, with status {self.running.wait()}")
        status, size, kept, pages, self.took = map(int, line.split())
        is_all = status == ubi.NO_MEMORY
        counts = (room, pages_room) if is_all else (min(size, room), min(pages, pages_room))
        answer = [self.running.stdout.read(count) for count in counts]
        return status, size, answer[0], kept == 1, pages, answer[1]

    def end(self):
        self.running.stdin.close()
        if self.running.wait():
            raise Failure(f"the caller ends with status {self.running.returncode}")


@dataclasses.dataclass
class Case:
    """An image and another one, and what is asked about them."""

    rng: random.Random
    tool: str
    folder: str
    caller: Caller
    library: ubi.Library
    geometry: Geometry
    image: bytes
    other: bytes
    # Whether allocations are refused, and how many were.
    is_starved: bool = False
    refusals: int = 0
    # What was answered for updates.
    came_up: collections.Counter = dataclasses.field(default_factory=collections.Counter)

    def put(self, name, data):
        path = f"{self.folder}/{name}"
        Path(path).write_bytes(data)
        return path

    def program(self, words, sizes, out=False, pages=False):
        """The status and the answer of the program: what it prints, or if OUT is set and it is done, what it writes;
        and the pages."""
        sized = [] if words[0] == "geometry" else Geometry(*sizes).words()
        paths = {"--out": f"{self.folder}/out", "--pages": f"{self.folder}/pages"}
        asked = ["--out", paths["--out"]] if out or pages else []
        asked += ["--pages", paths["--pages"]] if pages else []
        ran = subprocess.run([self.tool, *words, *sized, *asked], capture_output=True)
        written, programmed = taken_file(paths["--out"]), taken_file(paths["--pages"])
        answer = written if out and ran.returncode == 0 else ran.stdout
        return ran.returncode, answer, programmed or b""

    def look_c(self, name, sizes, paths, numbers, right, spared=NOTHING_SPARED):
        """Makes a call of C with all sizes of room that matter: each has to give the right answer."""
        status, answer, pages = right
        if name == "normalise" and status == 0 and len(answer) > len(self.image) + 2 * self.geometry.peb:
            raise Failure(f"the normal image has {len(answer)} bytes, more than c/include/ubi.h says")
        most, most_pages = len(answer), len(pages)
        some = (self.rng.randrange(most + 1), self.rng.randrange(most_pages + 1))
        less = (max(most - 1, 0), max(most_pages - 1, 0))
        for room, pages_room in ((most, most_pages), (most + 1, most_pages + 1), less, (0, 0), (1, 1), some):
            given = self.caller.call(name, sizes, room, pages_room, paths, numbers, spared)
            if given != (status, most, answer[:room], True, most_pages, pages[:pages_room]):
                raise Failure(f"ubi_{name} {sizes} {numbers} {spared} with room for {room} and {pages_room} gives "
                    f"{given[0]}, {given[1]}, {given[2][:80]!r}, {given[3:5]} "
                    f"and not {status}, {most}, {answer[:80]!r}, {most_pages}")

    def look_refused(self, name, sizes, paths, numbers, right, spared):
        """Refuses each allocation of a call in turn: it has to answer that memory ran out, and to write nothing, or
        only first bytes if it fills the buffer as it goes. Returns how many allocations there are."""
        status, answer, pages = right
        call = f"ubi_{name} {sizes} {numbers}"
        room, pages_room = self.rng.choice(((len(answer), len(pages)), (max(len(answer) - 1, 0), 0), (0, 1)))
        for place in range(1, 10000):
            given = self.caller.call(name, sizes, room, pages_room, paths, numbers, spared, place)
            if given[0] != ubi.NO_MEMORY:
                break
            rest = given[2].rstrip(FILLER)
            is_first = answer.startswith(rest) if name in ("read", "normalise") else not rest
            if given[1] != 0 or not is_first or given[3:5] != (True, 0) or given[5].rstrip(FILLER):
                what = f"{given[0]}, {given[1]}, {given[2][:80]!r}, {given[3:]}"
                raise Failure(f"{call}, allocation {place} refused: {what}")
        if given != (status, len(answer), answer[:room], True, len(pages), pages[:pages_room]):
            raise Failure(f"{call} with {place - 1} allocations: {given}")
        return place - 1

    def look_python(self, name, right, call):
        """Makes a call of Python, and compares what it returns or raises."""
        status, answer, pages = right
        try:
            given = call()
        except ubi.Limit as limit:
            given = str(limit)
            is_right = status == 2 and f"{limit}\n".encode() == answer and limit.cause.startswith("G")
        except ubi.Refused as refused:
            given = str(refused)
            side = answer.partition(b"refused ")[0].decode().strip() or None
            is_right = status == 1 and f"{refused}\n".encode() == answer and refused.side == side
            is_right = is_right and f"refused {refused.cause}\n".encode() in answer
        else:
            is_right = given == self.in_python(name, answer, pages)
        if not is_right:
            raise Failure(f"{name} of Python gives {given!r:.200}, and the program {status}, {answer[:80]!r}")

    def in_python(self, name, answer, pages):
        """What Python has to return if the program gives this answer."""
        if name in ("read", "normalise"):
            return answer
        lines = answer.decode().splitlines()
        if name == "same":
            return lines == ["same"]
        if name == "diff":
            return lines[:-1]
        if name in ("change", "rename", "update"):
            rest, steps, first = pages, [], [line.startswith("steps ") for line in lines].index(True)
            for line in lines[first + 1:]:
                numbers = [int(word.partition("=")[2]) for word in line.split() if "=" in word]
                if line.startswith("program"):
                    numbers.append(rest[:self.geometry.page])
                    rest = rest[self.geometry.page:]
                steps.append(ubi.Step(*numbers))
            return (lines[:first], steps) if name == "update" else steps
        return answer.decode()

    def look_call(self, name, words, paths, numbers, call, sizes=None, out=False, pages=False, spared=NOTHING_SPARED):
        """Compares the calls of both languages with the program."""
        sizes = sizes or sizes_of(self.geometry)
        right = self.program(words + spared.words(), sizes, out, pages)
        self.look_right(name, paths, numbers, right, call, sizes, spared)
        return right[0] == 0

    def look_right(self, name, paths, numbers, right, call, sizes, spared):
        """Compares the calls of both languages with what is right; without a CALL those of C alone."""
        self.look_c(name, sizes, paths, numbers, right, spared)
        if self.is_starved:
            self.refusals += self.look_refused(name, sizes, paths, numbers, right, spared)
        if call:
            self.look_python(name, right, lambda: call(ubi.Sizes(*sizes)))

    def look_geometry(self, path):
        right = self.program(["geometry", path], ())
        self.look_c("geometry", (0,) * 5, [path], [], right)
        try:
            found = self.library.geometry(self.image)
        except ubi.Refused as refused:
            is_right = right[0] == 1 and f"{refused}\n".encode() == right[1]
        else:
            lines = [line for line in right[1].decode().splitlines() if line.startswith("--peb ")]
            sizes = [f"--peb {of.peb_size} --page {of.page} --vid {of.vid_offset} --data {of.data_offset}"
                for of in (one.sizes for one in found)]
            is_right = right[0] == 0 and len(found) == len(lines)
            is_right = is_right and all(words in line for words, line in zip(sizes, lines))
        if not is_right:
            raise Failure(f"geometry of Python gives something else than {right[1]!r}")

    def look_map(self, path):
        """The rows of letters, which Python returns for a refused image too."""
        sizes = sizes_of(self.geometry)
        right = self.program(["map", path], sizes)
        self.look_c("map", sizes, [path], [], right)
        rows = self.library.map(ubi.Sizes(*sizes), self.image)
        if rows != right[1].decode():
            raise Failure(f"map of Python gives {rows!r}, and not {right[1]!r}")

    def meaning(self):
        try:
            return Image(self.geometry, self.image)
        except Refused:
            return None

    def spared(self):
        """Some bad eraseblocks, and whether blank ones are kept: nothing, one, a few, or most."""
        rng, blocks = self.rng, len(self.image) // self.geometry.peb
        count = rng.choice((0, 1, 2, rng.randrange(blocks + 1)))
        bad = [rng.randrange(blocks + 2) for _ in range(count)]
        bad += rng.choice(((), (), (self.geometry.pebs,), (2**32 - 1,)))
        return Spared(tuple(bad), rng.random() < 0.3)

    def look_plans(self, path, meaning, spared=NOTHING_SPARED):
        """Compares a change and a rename, most of which can be planned."""
        rng, image, library = self.rng, self.image, self.library
        records = meaning.records if meaning else {}
        dynamic = [number for number, record in records.items() if record.kind == 1]
        number = rng.choice(dynamic) if dynamic and rng.random() < 0.9 else rng.choice((0, 127, 128, 2**32 - 1))
        record = records.get(number)
        is_near = record and record.reserved and rng.random() < 0.9
        lnum = rng.randrange(record.reserved) if is_near else rng.choice((0, 2**32 - 1))
        size = record.usable(self.geometry) if record else 10
        new = rng.randbytes(rng.choice((0, 1, max(size - 1, 0), size, size, size + 1)))
        data = self.put("new", new)
        words = ["change", path, "--id", str(number), "--lnum", str(lnum), "--from", data]
        self.look_call("change", words, [path, data], [number, lnum],
            lambda sizes: library.change(sizes, image, number, lnum, new, **spared.given()), pages=True, spared=spared)
        named = rng.choice(list(records)) if records and rng.random() < 0.9 else rng.choice((0, 2**32 - 1))
        is_random = rng.random() < 0.8
        name = rng.randbytes(rng.choice((1, 5, 127, 128))) if is_random else None
        word = shown(name) if name else rng.choice(("", "\\", "a b", "root", "\\x00"))
        given = name if name and rng.random() < 0.5 else word
        words = ["rename", path, "--id", str(named), f"--name={word}"]
        self.look_call("rename", words, [path, self.put("name", word.encode())], [named],
            lambda sizes: library.rename(sizes, image, named, given, **spared.given()), pages=True, spared=spared)

    def updated(self, path, words, spared):
        """What has to be answered for the edits of some words: what the program answers, if it does them in this order;
        otherwise what update_rules.py says."""
        order = [EDITS.index(word.option) for word in words]
        if order == sorted(order) and not any("\0" in word.name + str(word.value) for word in words):
            writing = [(k, word.value) for k, word in enumerate(words) if word.option == "write"]
            written = {k: self.put(f"contents{k}", contents) for k, contents in writing}
            given = [written.get(k, word.value) for k, word in enumerate(words)]
            asked = [f"--{word.option}={word.name}{'' if value is None else f'={value}'}"
                for word, value in zip(words, given)]
            return self.program(["update", path, *asked, *spared.words()], sizes_of(self.geometry), pages=True)
        try:
            image = Image(self.geometry, self.image, lambda block: block in spared.bad)
            image = image.keeping_blank() if spared.keeps_blank else image
            edited = update_rules.Edited(image, [update_rules.edit_of(image, word) for word in words])
            cause = next(update_rules.causes(image, edited), None)
            if cause:
                raise Refused(cause)
        except Refused as refused:
            return 1, f"refused {refused}\n".encode(), b""
        update = update_rules.Update(image, edited)
        return 0, "".join(update.lines()).encode(), rules.pages_of(update.steps)

    def look_update(self, path, words, spared=NOTHING_SPARED, sizes=None):
        """Compares an update, by a text for the edits of some words, mostly in the program's order; and by one that is
        spoiled."""
        rng, image, library, given = self.rng, self.image, self.library, spared.given()
        words = [word for word in words if word.option in EDITS and rng.random() < 0.95]
        if rng.random() < 0.7:
            words.sort(key=lambda word: EDITS.index(word.option))
        for is_spoiled in (False, True):
            text, contents = text_of(words)
            if is_spoiled:
                text, contents = spoiled(rng, text, contents)
            asked, under, edits = read_text(text, contents), sizes or sizes_of(self.geometry), None
            if sizes:
                right = self.program(["update", path, *spared.words()], sizes, pages=True)
            elif isinstance(asked, int):
                right = 1, f"refused E1 BadEdit line={asked}\n".encode(), b""
            else:
                right = self.updated(path, asked, spared)
            if text.isascii() and asked == words:
                edits = [edit_of(word, right[0] == 0 and rng.random() < 0.3) for word in words]
            paths = [path, self.put("edits", text), self.put("contents", contents)]
            call = edits is not None and (lambda sizes, edits=edits: library.update(sizes, image, edits, **given))
            self.look_right("update", paths, [], right, call, under, spared)
            said = right[1].decode().partition(" name=")[0].split()
            self.came_up[" ".join(word for word in said[1:] if "=" not in word) if right[0] else "planned"] += 1

    def look(self):
        """Compares each call. Returns whether the image is accepted."""
        rng, image, other, library = self.rng, self.image, self.other, self.library
        path, second = self.put("image", image), self.put("other", other)
        meaning = self.meaning()
        self.look_geometry(path)
        check, normalise = ["check", path], ["normalise", path]
        accepted = self.look_call("check", check, [path], [], lambda sizes: library.check(sizes, image))
        if accepted != (meaning is not None):
            raise Failure("the second reading accepts another image")
        self.look_call("list", ["list", path], [path], [], lambda sizes: library.list(sizes, memoryview(image)))
        self.look_map(path)
        block = rng.choice((0, rng.randrange(len(image) // self.geometry.peb + 1), 2**32 - 1))
        self.look_call("show", ["show", path, "--block", str(block)], [path], [block],
            lambda sizes: library.show(sizes, bytearray(image), block))
        numbers = sorted(meaning.records) if meaning else [0]
        for number in {*rng.sample(numbers, min(2, len(numbers))), rng.choice((0, 5, 128, 2**32 - 1))}:
            self.look_call("read", ["extract", path, "--id", str(number)], [path], [number],
                lambda sizes, n=number: library.read(sizes, image, n), out=True)
        self.look_call("normalise", normalise, [path], [], lambda sizes: library.normalise(sizes, image), out=True)
        both = (image, other, [path, second]), (image, image, [path, path]), (other, image, [second, path])
        for name in ("same", "diff"):
            for one, two, files in both:
                self.look_call(name, [name, *files], files, [],
                    lambda sizes, n=name, a=one, b=two: getattr(library, n)(sizes, a, b))
        self.look_plans(path, meaning)
        nothing = [Word("rename", "none", "\\"), Word("remove", "none")]
        edits = updates.Asker(rng, meaning).words() if meaning else nothing
        self.look_update(path, edits)
        wrong = rng.choice(NO_SIZES)
        self.look_update(path, edits, sizes=wrong)
        self.look_call("check", check, [path], [], lambda sizes: library.check(sizes, image), sizes=wrong)
        self.look_call("normalise", normalise, [path], [],
            lambda sizes: library.normalise(sizes, image), sizes=wrong, out=True)
        change = ["change", path, "--id", "0", "--lnum", "0", "--from", second]
        self.look_call("change", change, [path, second], [0, 0],
            lambda sizes: library.change(sizes, image, 0, 0, other), sizes=wrong, pages=True)
        self.look_call("rename", ["rename", path, "--id", "0", "--name", "a"], [path, self.put("name", b"a")], [0],
            lambda sizes: library.rename(sizes, image, 0, "a"), sizes=wrong, pages=True)
        return accepted


def look_random(rng, tool, folder, caller, library, sizes, is_starved=False):
    """Compares the calls on a random image and on one that is like it. Returns whether it is accepted, how many
    allocations were refused, and what came up in updates."""
    maker = Maker(rng, sizes)
    image = Mutator(rng, maker.geometry, (0, 0, 1, 2)).mutate(maker.blocks)
    other = Changer(rng, maker.geometry, maker).right(list(maker.blocks))
    if rng.random() < 0.05:
        image = image[:rng.randrange(len(image) + 1)]
    case = Case(rng, tool, folder, caller, library, maker.geometry, image, other, is_starved)
    return case.look(), case.refusals, case.came_up


def look_spared(rng, tool, folder, caller, library):
    """Compares plans for a random image with bad eraseblocks. Returns whether the image is accepted, that no allocation
    was refused, and that no update came up."""
    maker = Maker(rng, SIZES)
    image = Mutator(rng, maker.geometry, (0, 0, 0, 1)).mutate(maker.blocks)
    case = Case(rng, tool, folder, caller, library, maker.geometry, image, image)
    path, meaning = case.put("image", image), case.meaning()
    for _ in range(2):
        case.look_plans(path, meaning, case.spared())
    return meaning is not None, 0, case.came_up


def look_updates(rng, tool, folder, caller, library, maker, asker):
    """Compares updates of an image that updates.py draws. Returns whether it is accepted, that no allocation was
    refused, and what came up."""
    drawn = updates.Drawn(rng, None, folder, maker, asker)
    case = Case(rng, tool, folder, caller, library, maker.geometry, drawn.data, drawn.data)
    blocks = len(drawn.data) // maker.geometry.peb + 1
    spared = Spared(tuple(block for block in range(blocks) if drawn.is_bad(block)), drawn.keeps_blank)
    case.look_update(case.put("image", drawn.data), drawn.words, spared)
    return case.meaning() is not None, 0, case.came_up


def look_data(rng, tool, folder, caller, library):
    """Compares the calls on the images of the repository."""
    for path in sorted((ROOT / "crates/ubi_tool/data").glob("*.img")):
        image, other = path.read_bytes(), (ROOT / "crates/ubi_tool/data/root.img").read_bytes()
        Case(rng, tool, folder, caller, library, Geometry(512, 64, 64, 128, 32), image, other).look()


def look_far(tool, folder, library):
    """Reads the contents of volumes of more than 2^31 and 2^32 bytes, all of them 0xFF."""
    for count, is_read in ((17000, True), (40000, False)):
        text, path, length = Path(folder) / "far.txt", Path(folder) / "far.img", count * 126976
        text.write_text(f"volume 0 dynamic {count} 1 00 far\n")
        subprocess.run([tool, "compose", text, "--out", path, *CHIP], check=True, capture_output=True)
        image, sizes, size = path.read_bytes(), ubi.Sizes(131072, 2048, 2048, 4096), ctypes.c_size_t()
        given = (ctypes.byref(sizes), image, ctypes.c_size_t(len(image)), ctypes.c_uint32(0))
        room = (ctypes.create_string_buffer(1), ctypes.c_size_t(0), ctypes.byref(size))
        status = library._library.ubi_read(*given, *room)
        if (status, size.value) != (0, length):
            raise Failure(f"ubi_read without room answers {status} and {size.value} of {length} bytes")
        if is_read and library.read(sizes, image, 0).count(b"\xFF") != length:
            raise Failure(f"Python reads other contents than {length} bytes 0xFF")


def raised(call):
    """The name of what a call raises."""
    try:
        call()
    except Exception as error:
        return type(error).__name__
    return "nothing"


def look_wrong(library):
    """Gives each call something that isn't sizes, or numbers that aren't ones of 32 bits: it has to raise."""
    image, sizes = bytes(1024), ubi.Sizes(512, 64, 64, 128, 8)
    for wrong in (None, 0, image, ctypes.c_uint32(5), (512, 64, 64, 128, 8)):
        for name, rest in (("check", ()), ("list", ()), ("show", (0,)), ("map", ()), ("read", (0,)), ("normalise", ()),
                ("same", (image,)), ("diff", (image,)), ("change", (0, 0, image)), ("rename", (0, "a")),
                ("update", ([],))):
            if raised(lambda: getattr(library, name)(wrong, image, *rest)) != "TypeError":
                raise Failure(f"{name} of Python takes {wrong!r} for sizes")
    for number in (-1, 2**32):
        if raised(lambda: library.rename(sizes, image, 0, "a", bad=[number])) != "ValueError":
            raise Failure(f"Python takes {number} for an eraseblock")
    for edit in (None, "remove a", ubi.Step(0)):
        if raised(lambda: library.update(sizes, image, [edit])) != "TypeError":
            raise Failure(f"Python takes {edit!r} for an edit")
    for edit in (ubi.Remove("a\nremove b"), ubi.Rename("a", "b\n"), ubi.Resize("a", "1\n")):
        if raised(lambda: library.update(sizes, image, [edit])) != "ValueError":
            raise Failure(f"Python takes {edit!r}")
    for data in (None, 5, "text"):
        if raised(lambda: library.update(sizes, image, [ubi.Write("a", data)])) != "TypeError":
            raise Failure(f"Python takes {data!r} for contents")
        if raised(lambda: library.list(sizes, data)) != "TypeError":
            raise Failure(f"Python takes {data!r} for an image")


# Plans for a chip with a bad eraseblock where the copy of its image doesn't fit in memory.
STARVED = """
import mmap, resource, sys
import ubi
library = ubi.Library(sys.argv[1])
with open(sys.argv[2], "rb") as file:
    image = mmap.mmap(file.fileno(), 0, access=mmap.ACCESS_READ)
with open("/proc/self/statm") as file:
    used = int(file.read().split()[0]) * resource.getpagesize()
resource.setrlimit(resource.RLIMIT_AS, (used + len(image) // 2, resource.RLIM_INFINITY))
try:
    library.rename(ubi.Sizes(131072, 2048, 2048, 4096), image, 0, "new", bad=[0])
except MemoryError as error:
    print("MemoryError", error)
"""


def look_exports(made):
    """The shared object exports the calls and nothing else."""
    words = ["nm", "--dynamic", "--defined-only", "--format=posix", f"{made}/libubi.so"]
    listed = subprocess.run(words, capture_output=True, check=True, text=True).stdout
    names = {line.split()[0] for line in listed.splitlines()}
    if names != {f"ubi_{name}" for name in ubi._CALLS}:
        raise Failure(f"the shared object exports {sorted(names)}")


def look_starved(tool, folder, made):
    """Lets memory end in a call of Python."""
    text, path = Path(folder) / "wide.txt", Path(folder) / "wide.img"
    text.write_text("volume 0 dynamic 512 1 00 wide\n")
    subprocess.run([tool, "compose", text, "--out", path, "--spares", "510", *CHIP], check=True, capture_output=True)
    words = [sys.executable, "-c", STARVED, f"{made}/libubi.so", path]
    ran = subprocess.run(words, capture_output=True, env={**os.environ, "PYTHONPATH": str(ROOT / "c")})
    if (ran.returncode, ran.stdout) != (0, b"MemoryError ubi_rename\n"):
        raise Failure(f"Python without memory ends with {ran.returncode}, {ran.stdout!r}, {ran.stderr!r}")


def look_examples(tool, folder, made, checkers):
    """Runs the examples on an image, alone and with something around it: they have to print and write the same as the
    program."""
    image = ROOT / "crates/ubi_tool/data/root.img"
    chip, with_oob = Path(folder) / "chip.img", Path(folder) / "oob.img"
    data = image.read_bytes()
    chip.write_bytes(bytes(1024) + data + bytes(300))
    router = ROOT / "examples/router.txt"
    subprocess.run([tool, "compose", router, "--out", with_oob, *CHIP], check=True, capture_output=True)
    pages = with_oob.read_bytes()
    with_oob.write_bytes(b"".join(pages[at:at + 2048] + bytes(64) for at in range(0, len(pages), 2048)))
    listed = subprocess.run([tool, "list", image], capture_output=True, check=True).stdout
    numbers = [line.split()[1].decode() for line in listed.splitlines() if line.startswith(b"volume ")]
    compiler = ["cc", "-Wall", "-Wextra", "-Werror", *checkers, f"-I{made}", "-o", f"{folder}/volumes"]
    subprocess.run([*compiler, ROOT / "c/examples/volumes.c", f"{made}/libubi.a"], check=True)
    here = {**os.environ, "PYTHONPATH": str(ROOT / "c")}
    for words in ([f"{folder}/volumes"], [sys.executable, ROOT / "c/examples/volumes.py"]):
        for dump in (image, chip):
            ran = subprocess.run([*words, dump, folder], capture_output=True, env=here)
            if (ran.returncode, ran.stdout) != (0, listed):
                printed = f"{ran.stdout!r}{ran.stderr!r}"
                raise Failure(f"{words} ends with {ran.returncode} and prints {printed}, not {listed!r}")
            for number in numbers:
                subprocess.run([tool, "extract", image, "--id", number, "--out", f"{folder}/out"], capture_output=True)
                if taken_file(f"{folder}/volume_{number}.bin") != taken_file(f"{folder}/out"):
                    raise Failure(f"{words} writes something else for volume {number}")
        refused = (
            (ROOT / "crates/ubi_tool/data/new.bin", b"refused F1 NoHeader\n"),
            (with_oob, b"the dump has out-of-band bytes\n"),
        )
        for dump, line in refused:
            ran = subprocess.run([*words, dump, folder], capture_output=True, env=here)
            if (ran.returncode, ran.stdout, ran.stderr) != (1, b"", line):
                printed = f"{ran.stdout!r}{ran.stderr!r}"
                raise Failure(f"{words} ends with {ran.returncode} at {dump} and prints {printed}, not {line!r}")


def options():
    words = argparse.ArgumentParser(description=__doc__, formatter_class=argparse.RawDescriptionHelpFormatter)
    for name, number in (("seed", 1), ("count", 200), ("large", 5), ("plans", 500), ("updates", 200),
            ("large-updates", 2), ("starved", 5), ("first", 0)):
        words.add_argument(f"--{name}", type=int, default=number)
    words.add_argument("--dir", default="/tmp")
    words.add_argument("--tool")
    words.add_argument("--built", default=str(ROOT / "c/out"))
    words.add_argument("--asan", action="store_true")
    return words.parse_args()


def main():
    words = options()
    tool, checkers = built(words.tool), CHECKERS if words.asan else ()
    library = ubi.Library(f"{words.built}/libubi.so")
    with tempfile.TemporaryDirectory(dir=words.dir) as folder:
        caller = Caller(words.built, folder, checkers)

        def looking(*more):
            return lambda rng, place: look_random(rng, tool, place, caller, library, *more)

        def updating(maker, sizes, asker):
            return lambda rng, place: look_updates(rng, tool, place, caller, library, maker(rng, sizes), asker)

        answers, failed = run_cases(words, {
            "": (looking(SIZES), words.count),
            "large ": (looking(REAL_SIZES), words.large),
            "plans ": (lambda rng, place: look_spared(rng, tool, place, caller, library), words.plans),
            "updates ": (updating(updates.UpdateMaker, updates.SIZES, updates.Asker), words.updates),
            "large updates ": (updating(updates.LargeMaker, REAL_SIZES, updates.LargeAsker), words.large_updates),
            "starved ": (looking(SIZES, True), words.starved),
        })
        accepted, refusals = (sum(answer[k] for answer in answers) for k in range(2))
        came_up = sum((answer[2] for answer in answers), collections.Counter())
        rng = random.Random(words.seed)
        looks = {
            "the images of the repository": lambda: look_data(rng, tool, folder, caller, library),
            "contents beyond 2^32 bytes": lambda: look_far(tool, folder, library),
            "the exports": lambda: look_exports(words.built),
            "what Python refuses": lambda: look_wrong(library),
            "memory that ends under Python": lambda: look_starved(tool, folder, words.built),
            "the examples": lambda: look_examples(tool, folder, words.built, checkers),
            "the caller": caller.end,
        }
        for name, look in looks.items():
            try:
                answers.append(look())
            except Failure as failure:
                print(f"{name}: {failure}", flush=True)
                failed += 1
    for what, count in sorted(came_up.items()):
        print(f"{count:>6} {what}")
    print(f"{accepted} accepted, {refusals} allocations refused")
    finish(len(answers), failed)


if __name__ == "__main__":
    main()
