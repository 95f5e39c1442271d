#!/usr/bin/env python3
"""Writes outputs and pages to files of all kinds, and checks what happens to the files that were read.

usage: files.py [--dir FOLDER] [--tool PROGRAM]

A file that was read may not be written, except IMAGE by --out of `normalise`, `change` and `rename`: there a new file
takes the place of the one that --out names, with its mode, when all is done, and other names of the old one keep it. If
then the pages can't be written, IMAGE stays. The pages may not be written to the file of the output. Each case is tried
with the file's name, with other paths to it, one of which is long, with the descriptor of a file that is open, and with
links of both kinds. An ordinary file that is standard output may not be an output either. But a file is another one if
its file system is, though both have one number there: two such file systems are mounted, in a place that nobody else
sees. If that isn't allowed, it says so, and counts no case of them.

Other outputs exist already, or are links, folders, devices and pipes, or can't be written; and some names have blanks,
line ends or a leading hyphen, or are long.

For each case it compares the printed lines, the status, and every file of the folder: a written file must have its new
bytes, and every other file its old ones. If the pages can't be written, the output may have been written or not; if the
output can't be written, the same holds for the pages. Everything in the folder must stay as it is: links, pipes,
devices (which only root can make), and the number and the mode of each file. Then it runs `unpack` into folders that
exist already: empty ones, which are accepted, and folders that hold a file with a leading dot, can't be read, are a
link, or have a name that differs by a blank; and into files, which stay. Each command that reads an image reads it from
pipes, typed or with no number, and has to answer what it answers for the file. And each command that writes a file
writes to standard output, by `-`, and reads from standard input.

The cases are always the same. Their files lie in new folders below FOLDER (/tmp by default), which are removed
afterwards. Without --tool the program is built first, unless it is built already. The last line is 'N passed, M
failed', and the exit status is 0 if none failed.
"""
import argparse
import dataclasses
import itertools
import os
import shutil
import stat
import subprocess
import tempfile

import rules
from fuzz import built, finish
from hostile import GEOMETRY, MORE, NEW
from text_rules import Described

SPEC, CONTENT = b"volume 0 dynamic 3 1 00 data\nleb 0 1 abcdef\n", b"content"
CONFIG = b"[a]\nmode=ubi\nvol_id=0\nvol_name=a\nimage=content\n"
# With one more free eraseblock, two may be taken even if blank ones are kept.
IMAGE = MORE + rules.put_block(GEOMETRY, rules.put_ec(GEOMETRY))
# The files of a folder. Each also has links: NAME.soft, NAME.twice to that one, and NAME.hard.
FILES = {"image": IMAGE, "from": NEW, "spec": SPEC, "config": CONFIG, "content": CONTENT, "old": b"old" * 5000}
# Other names of a file: with blanks, a line end and a hyphen.
ODD = (
    "-%s", "--%s", "%s ", " %s", "%s\n", "a\n%s", "%s\t", "\\%s", "%s*", "caf\xe9 %s", "%s.", "\"%s\"", "%s\r",
    "\u200b%s", "%s\u00a0",
)
REPLACING = ("normalise", "change", "rename")
WORDS = {
    "compose": ["compose", "spec"],
    "build": ["build", "config"],
    "normalise": ["normalise", "image"],
    "extract": ["extract", "image", "--id", "0"],
    "change": ["change", "image", "--id", "0", "--lnum", "1", "--from", "from"],
    "rename": ["rename", "image", "--id", "0", "--name", "data"],
}
OTHERS = ([], ["--stop", "0"], ["--stop", "2"], ["--blank", "keep"], ["--bad="], ["--bad", "4"])
# A path of folders that is longer than a buffer of 1,024 bytes; and one that leads back from there.
NESTED = "/".join(["d" * 100] * 11)
BACK = f"{NESTED}{'/..' * 11}"
# Paths of standard input, whose descriptor is 0.
STDIN = ("/dev/stdin", "/dev/fd/0", "/proc/self/fd/0")
# Paths that can't be written. For some of them the system doesn't even say that nothing is there; for LONG because of
# its length.
LONG = "n" * 256
UNKNOWN = ("old/", "old/new", "loop", LONG)
UNWRITABLE = (
    "folder", "folder/", "folder/.", "no/such", "new/", *UNKNOWN, "", ".", "/dev/full", "no/such\nfile", "no/such ",
)
# Devices of the folder, which only root can make: their numbers.
DEVICES = {"null": os.makedev(1, 3), "full": os.makedev(1, 7)} if os.geteuid() == 0 else {}


@dataclasses.dataclass(frozen=True)
class Case:
    """The words of a command, its output, its pages, and its line; None if the work is done."""

    words: list
    out: str
    pages: str = None
    line: str = None
    stdin: str = os.devnull

    @property
    def command(self):
        return self.words[0]

    @property
    def outs(self):
        """The words for the output and the pages, if there are any, by option."""
        return {"--out": self.out} | ({} if self.pages is None else {"--pages": self.pages})

    @property
    def image(self):
        """The file that is read."""
        return self.named(self.words[1])

    def named(self, word):
        """The file that a word names: that which is standard input, if it says so."""
        return self.stdin if word in STDIN else word

    @property
    def early(self):
        """The option whose file may have been written even though the work isn't done, since the other one can't be
        written; or None. It isn't known here whether the output is IMAGE, which is written last."""
        if self.pages is None or self.line is None or not self.line.startswith("cannot write "):
            return None
        return "--out" if self.line == f"cannot write {self.pages}\n" else "--pages"


def cannot_write(words, out, pages=None, **others):
    """A case in which the pages can't be written or, if no pages are asked for, the output."""
    return Case(words, out, pages, f"cannot write {out if pages is None else pages}\n", **others)


def paths(name):
    """Paths to a file of the folder; FOLDER stands for the path of the folder."""
    links = f"{name}.soft", f"{name}.twice", f"{name}.hard", f"./{name}.hard", f"FOLDER/{name}.soft"
    return (name, f"./{name}", f".//./{name}", f"folder/../{name}", f"FOLDER/{name}", f"{BACK}/{name}", *links)


def cases():
    read = files_read, by_descriptor, outputs_twice
    for family in (*read, refused, unread, unwritable, existing, streams, odd_names, long_paths):
        yield from family()


def files_read():
    """The output or the pages are a file that was read."""
    for command, name in (("compose", "spec"), ("build", "config"), ("change", "from")):
        for path in paths(name):
            yield cannot_write(WORDS[command], path)
    for path in paths("spec"):
        yield cannot_write([*WORDS["compose"], "--spares", "2", "--seq", "1"], path)
        yield cannot_write(["compose", path], "spec")
        yield cannot_write(["compose", "/dev/stdin"], path, stdin="spec")
    for path in paths("config"):
        yield cannot_write(["build", "config", "--spares", "2"], path)
        yield cannot_write(["build", path], "config")
    for path in paths("from"):
        for more in OTHERS:
            yield cannot_write([*WORDS["change"], *more], path)
        yield cannot_write([*WORDS["change"][:-1], path], "from")
        yield cannot_write([*WORDS["change"][:-1], "/dev/stdin"], path, stdin="from")
        yield Case(WORDS["change"], path, "new", f"cannot write {path}\n")
        yield cannot_write(WORDS["change"], "new", path)
        yield cannot_write(WORDS["change"], "image", path)
        yield cannot_write([*WORDS["change"][:-1], "/dev/stdin"], "new", path, stdin="from")
    for path in paths("image"):
        yield cannot_write(["map", "image"], path)
        yield cannot_write(["map", path], "image")
        yield cannot_write(WORDS["extract"], path)
        yield cannot_write(["extract", path, *WORDS["extract"][2:]], "image")
        for command in REPLACING:
            yield Case(WORDS[command], path)
            yield Case([command, path, *WORDS[command][2:]], "image")
        for command, more in ((command, more) for command in ("change", "rename") for more in OTHERS):
            yield Case([*WORDS[command], *more], path, "new")
            yield cannot_write([*WORDS[command], *more], "new", path)
        for command in ("change", "rename"):
            yield cannot_write([command, path, *WORDS[command][2:]], "old", "image")
            yield cannot_write([command, "/dev/stdin", *WORDS[command][2:]], "old", path, stdin="image")
            yield cannot_write(WORDS[command], "image", path)
            yield cannot_write(WORDS[command], path, "image")
        yield cannot_write([*WORDS["change"], "--blank", "keep"], path, "from")


def by_descriptor():
    """The output or the pages are a file that was read, by the descriptor of standard input, which is that file by one
    of its two names; or they are a file that wasn't."""
    for path, link in itertools.product(STDIN, ("", ".hard")):
        for name, words in (
            ("spec", WORDS["compose"]),
            ("config", WORDS["build"]),
            ("from", WORDS["change"]),
            ("image", ["map", "image"]),
            ("image", WORDS["extract"]),
        ):
            yield cannot_write(words, path, stdin=f"{name}{link}")
        yield Case(WORDS["build"], path, None, "cannot read content\n", stdin=f"content{link}")
        yield cannot_write(["map", path], "image", stdin=f"image{link}")
        yield cannot_write(["extract", path, *WORDS["extract"][2:]], path, stdin=f"image{link}")
        for command in REPLACING:
            yield Case(WORDS[command], path, stdin=f"image{link}")
            yield Case([command, path, *WORDS[command][2:]], path, stdin=f"image{link}")
        for command, name in (("change", "image"), ("change", "from"), ("rename", "image")):
            yield cannot_write(WORDS[command], "new", path, stdin=f"{name}{link}")
        for command in ("change", "rename"):
            yield cannot_write(WORDS[command], "old", path, stdin=f"old{link}")
        for command in WORDS:
            yield Case(WORDS[command], path, stdin=f"old{link}")


def outputs_twice():
    """The pages are the file of the output."""
    both = ((command, out) for command in ("change", "rename") for out in ("old", "new"))
    for command, out, path in ((command, out, path) for command, out in both for path in paths(out)):
        if out == "old" or not path.endswith(("soft", "twice", "hard")):
            yield cannot_write(WORDS[command], out, path)
            yield cannot_write(WORDS[command], path, out)
    for command in ("change", "rename"):
        links = ("nowhere", "new"), ("new", "nowhere"), ("nowhere", "nowhere"), ("old.hard", "old.soft")
        for out, pages in (*links, ("pipe", "pipe")):
            yield cannot_write(WORDS[command], out, pages)
        for path in ("/dev/null", "/dev/stdout", "old", "new ", "./-"):
            for more in OTHERS:
                yield cannot_write([*WORDS[command], *more], path, path)


def refused():
    """The work is refused, so nothing is written, whatever the output and the pages are."""
    of = {
        "change": ("refused K2 NoVolume\n", ["change", "image", "--id", "5", "--lnum", "1", "--from", "from"]),
        "rename": ("refused K2 NoVolume\n", ["rename", "image", "--id", "5", "--name", "data"]),
        "compose": ("refused P1 Word line=1\n", ["compose", "from"]),
        "build": ("refused I2 Form line=1\n", ["build", "spec"]),
    }
    inside = ("image", "from", "spec", "old", "new", "folder", "old.soft", "nowhere")
    for out in (*inside, "/dev/full", "no/such", "/dev/stdout"):
        for command, (line, words) in of.items():
            yield Case(words, out, None, line)
        for pages in ("image", "from.hard", "new", out, "folder", "/dev/full"):
            for command in ("change", "rename"):
                yield Case(of[command][1], out, pages, of[command][0])
    for pages in ("image", "from", "new"):
        yield Case(["rename", "image", "--id", "0", "--name", "\\"], "old", pages, "refused N1 BadName\n")
        yield Case([*WORDS["change"], "--bad", "0-99"], "from", pages, "refused K2 NoVolume\n")
        yield Case([*WORDS["change"], "--bad", "0-1"], "from", pages, "refused T1 NoTable\n")
        yield Case([*WORDS["rename"], "--blank", "keep", "--bad", "5"], "old", pages, "refused K9 NoFree\n")
        yield Case([*WORDS["rename"], "--bad=1"], "image", pages, "refused N3 NeedsRepair\n")


def unread():
    """A file can't be read, so nothing is written."""
    for path in ("missing", "folder", "nowhere", "loop", "no/such", "missing\nfile", "", LONG):
        for out in ("old", "new", "from", "spec", "folder", "/dev/full"):
            yield Case(["map", path], out, None, f"cannot read {path}\n")
            for command in WORDS:
                yield Case([command, path, *WORDS[command][2:]], out, None, f"cannot read {path}\n")
            yield Case([*WORDS["change"][:-1], path], out, "image", f"cannot read {path}\n")


def unwritable():
    """The output or the pages can't be written. `build` doesn't read an image file that may be the output."""
    for path in (*UNWRITABLE, *(name for name in DEVICES if name == "full")):
        for command in WORDS:
            if command == "build" and path in UNKNOWN:
                yield Case(WORDS[command], path, None, "cannot read content\n")
            else:
                yield cannot_write(WORDS[command], path)
        for command in ("change", "rename"):
            yield cannot_write(WORDS[command], "new", path)
            yield cannot_write(WORDS[command], "image", path)
            yield Case(WORDS[command], path, "new", f"cannot write {path}\n")
    if os.geteuid() != 0:
        for command in WORDS:
            yield cannot_write(WORDS[command], "sealed")
        yield cannot_write(WORDS["change"], "new", "sealed")


def existing():
    """The output or the pages exist already, as a longer file or a link, or don't exist."""
    devices = ("/dev/null", *(name for name in DEVICES if name == "null"))
    files = ("new", "old", "old.soft", "old.twice", "old.hard", "secret", "nowhere")
    for path in (*files, "folder/new", "folder/../new", "FOLDER/new", *devices):
        for command in WORDS:
            yield Case(WORDS[command], path)
        for command, more in ((command, more) for command in ("change", "rename") for more in OTHERS):
            yield Case([*WORDS[command], *more], "other", path)
            yield Case([*WORDS[command], *more], path, "other")


def streams():
    """The output or the pages are a pipe, which is read, or standard output."""
    for path in ("pipe", "/dev/stdout"):
        for command in WORDS:
            yield Case(WORDS[command], path)
        for command, more in ((command, more) for command in ("change", "rename") for more in OTHERS):
            yield Case([*WORDS[command], *more], "new", path)
            yield Case([*WORDS[command], *more], path, "new")
            yield Case([*WORDS[command], *more], "image", path)
    for command in ("change", "rename"):
        yield Case(WORDS[command], "pipe", "/dev/stdout")
        yield Case(WORDS[command], "/dev/stdout", "pipe")
        yield Case([command, "/dev/stdin", *WORDS[command][2:]], "image", "new", stdin="image")


def odd_names():
    """Names with blanks, line ends and a leading hyphen, of the files that are written and of those that are read."""
    for odd in ODD:
        new, image, of_from, spec = odd % "new", odd % "image", odd % "from", odd % "spec"
        for command in WORDS:
            yield Case(WORDS[command], new)
        for command in ("change", "rename"):
            yield Case([command, image, *WORDS[command][2:]], new, odd % "pages")
            yield Case([command, image, *WORDS[command][2:]], image, new)
            yield cannot_write([command, image, *WORDS[command][2:]], new, image)
            yield cannot_write(WORDS[command], new, new)
            yield cannot_write(WORDS[command], new, image)
        yield cannot_write(["compose", spec], spec)
        yield cannot_write([*WORDS["change"][:-1], of_from], of_from)
        yield cannot_write([*WORDS["change"][:-1], of_from], new, of_from)


def long_paths():
    """Paths of more than 1,024 bytes, of the files that are written and of those that are read."""
    back, new = f"{BACK}/new", f"{NESTED}/new"
    for path in (back, new, f"{BACK}/old.soft"):
        for command in WORDS:
            yield Case(WORDS[command], path)
            yield Case([command, f"{BACK}/{WORDS[command][1]}", *WORDS[command][2:]], path)
        for command in ("change", "rename"):
            yield Case(WORDS[command], "new", path.replace("new", "pages"))
        yield Case([*WORDS["change"][:-1], f"{BACK}/from"], path, f"{NESTED}/pages")
    for command in WORDS:
        yield cannot_write(WORDS[command], f"{NESTED}/no/such")
        yield Case([command, f"{NESTED}/missing", *WORDS[command][2:]], new, None, f"cannot read {NESTED}/missing\n")


def spelled(case, folder):
    """The words of a case. A value that begins with a hyphen is in one word with its option, and such a path is at the
    end."""
    command, path, *rest = case.words
    words = [command]
    for word in (*rest, *(word for pair in case.outs.items() for word in pair)):
        if word.startswith("-") and words[-1].startswith("--") and "=" not in words[-1]:
            words[-1] += f"={word}"
        else:
            words.append(word)
    words += [*GEOMETRY.words(), *(["--", path] if path.startswith("-") else [path])]
    return [word.replace("FOLDER", folder) for word in words]


def fill(folder):
    """Makes the files, the links to them, and the other entries of the folder."""
    for name, data in FILES.items():
        path = os.path.join(folder, name)
        with open(path, "wb") as file:
            file.write(data)
        os.symlink(name, f"{path}.soft")
        os.symlink(f"{name}.soft", f"{path}.twice")
        os.link(path, f"{path}.hard")
    for odd in ODD:
        for name in ("image", "from", "spec"):
            os.link(os.path.join(folder, name), os.path.join(folder, odd % name))
    for inner in ("folder", NESTED):
        os.makedirs(os.path.join(folder, inner))
    os.symlink("new", os.path.join(folder, "nowhere"))
    os.symlink("loop", os.path.join(folder, "loop"))
    os.mkfifo(os.path.join(folder, "pipe"))
    for name, mode in (("sealed", 0o400), ("secret", 0o600)):
        with open(os.path.join(folder, name), "wb"):
            os.chmod(file_of(folder, name), mode)
    for name, device in DEVICES.items():
        os.mknod(os.path.join(folder, name), 0o666 | stat.S_IFCHR, device)


def file_of(folder, word):
    """The file that a word names, whether it exists or not."""
    return os.path.realpath(os.path.join(folder, word.replace("FOLDER", folder)))


def key_of(path):
    """What is the same for all names of a file: its numbers, or its path if it doesn't exist."""
    return (os.stat(path).st_dev, os.stat(path).st_ino) if os.path.exists(path) else path


def held(folder):
    """The contents of each file of a folder and of its folders, by path; symbolic links aside."""
    found = {}
    for place, _, names in os.walk(folder):
        for path in (os.path.join(place, name) for name in names):
            if os.path.isfile(path) and not os.path.islink(path):
                with open(path, "rb") as file:
                    found[path] = file.read()
    return found


def entries(folder):
    """What is at each path of a folder and of its folders: its kind and mode, its number, and where it leads if it is a
    link."""
    found = {}
    for place, names, more in os.walk(folder):
        for path in (os.path.join(place, name) for name in (*names, *more)):
            of = os.lstat(path)
            found[path] = of.st_mode, of.st_ino, os.readlink(path) if stat.S_ISLNK(of.st_mode) else None
    return found


def value_of(words, option):
    """The value of an option; None if it isn't there."""
    joined = next((word.partition("=")[2] for word in words if word.startswith(f"{option}=")), None)
    return words[words.index(option) + 1] if option in words else joined


def answer(case):
    """What is printed if the work is done, and what is written, by option."""
    if case.command == "extract":
        contents = rules.Image(GEOMETRY, IMAGE).read_volume(0)
        return f"bytes {len(contents)}\n", {"--out": contents}
    if case.command in ("change", "rename"):
        is_bad = rules.listed(value_of(case.words, "--bad") or "")
        return planned(case, rules.Image(GEOMETRY, IMAGE, is_bad))
    if case.command == "normalise":
        return of_image(rules.Image(GEOMETRY, IMAGE))
    meant = Described(GEOMETRY, SPEC)
    if case.command == "build":
        records, contents = {0: rules.Record(1, 1, 1, 0, b"a", 0)}, {0: {0: CONTENT.ljust(GEOMETRY.leb, b"\xFF")}}
        meant = rules.Meaning(GEOMETRY, 0, records, contents)
    return of_image(meant)


def of_image(meant):
    image = rules.composed(meant, 0)
    return f"blocks {len(image) // GEOMETRY.peb}\n", {"--out": image}


def planned(case, image):
    """The same for a plan."""
    image = image.keeping_blank() if value_of(case.words, "--blank") else image
    plan = rules.Change(image, 0, 1, NEW) if case.command == "change" else rules.Rename(image, 0, b"data")
    steps = plan.steps
    stop = value_of(case.words, "--stop")
    done = steps if stop is None else steps[: int(stop)]
    written = {"--out": rules.after(GEOMETRY, b"".join(image.found.blocks), done), "--pages": rules.pages_of(done)}
    return "".join(rules.plan_lines(steps)), written


class Looker:
    """Runs the program in a folder, and checks what happens to its files."""

    def __init__(self, tool, folder):
        self.tool, self.folder = tool, folder
        fill(folder)
        self.before, self.had = held(folder), entries(folder)

    def run(self, case):
        """What is printed, the status, and what a reader of the pipe gets."""
        reader = os.open(os.path.join(self.folder, "pipe"), os.O_RDONLY | os.O_NONBLOCK)
        with open(os.path.join(self.folder, case.stdin), "rb") as stdin:
            words = [self.tool, *spelled(case, self.folder)]
            ran = subprocess.run(words, stdin=stdin, capture_output=True, cwd=self.folder, timeout=10)
        piped = os.read(reader, 65536)
        os.close(reader)
        return ran.stdout, ran.returncode, piped

    def wrong(self, case):
        """What is wrong with the answer to a case; None if nothing is."""
        keys = {path: key_of(path) for path in self.before}
        files = {option: file_of(self.folder, case.named(word)) for option, word in case.outs.items()}
        places = {option: key_of(path) for option, path in files.items()}
        replaced = files["--out"] if self.is_image(case, places["--out"]) else None
        if replaced:
            places["--out"] = replaced
        try:
            printed, status, piped = self.run(case)
        except subprocess.TimeoutExpired:
            return "it doesn't end"
        is_done, early = case.line is None, case.early
        if replaced and early == "--out":
            early = None
        lines, new = answer(case) if is_done or early else (None, {})
        line = (lines if is_done else case.line.replace("FOLDER", self.folder)).encode()
        if status != (0 if is_done else 1):
            return f"its status is {status}, and it prints {printed[:200]!r}"
        if printed not in [data + line for data in self.streamed(case, early, new, "/dev/stdout")]:
            return f"it prints {printed[:200]!r} and not {line[:200]!r}, or other bytes before that"
        if piped not in self.streamed(case, early, new, "pipe"):
            return "the pipe gets something else"
        return self.wrong_entry(replaced) or self.wrong_file(case, early, keys, places, new)

    def is_image(self, case, place):
        """Whether the output is IMAGE, of a command that may replace it."""
        return case.command in REPLACING and place == key_of(file_of(self.folder, case.image))

    def streamed(self, case, early, new, path):
        """What a stream may get: what is written there; if that may be written or not, also nothing."""
        if case.line is None:
            return [b"".join(new[option] for option, word in case.outs.items() if word == path)]
        return [b"", *([new[early]] if early and case.outs[early] == path else [])]

    def wrong_entry(self, replaced):
        """What is wrong with the entries of the folder: each has to be what it was, but the one that was replaced may be
        another file."""
        has = entries(self.folder)
        for path, (mode, number, link) in self.had.items():
            is_same = has.get(path) == (mode, number, link)
            if not is_same and not (path == replaced and path in has and has[path][::2] == (mode, link)):
                return f"{os.path.relpath(path, self.folder)!r} isn't what was there"
        return None

    def wrong_file(self, case, early, keys, places, new):
        """What is wrong with the files: each written one has to have its new bytes, and each other one its old ones, or
        not exist."""
        after = held(self.folder)
        for path in {*self.before, *after, *(place for place in places.values() if self.is_new(place))}:
            written = [option for option, place in places.items() if place in (keys.get(path, path), path)]
            right = [new[option] for option in written] if case.line is None else []
            if early in written:
                right.append(new[early])
            if case.line is not None or not written:
                right.append(self.before.get(path))
            if after.get(path) not in right:
                fault = "holds something else" if path in after else "is not there"
                return f"{os.path.relpath(path, self.folder)!r} {fault}"
        return None

    def is_new(self, place):
        """Whether a place is the path of a file of the folder that wasn't there."""
        return isinstance(place, str) and place.startswith(self.folder)

    def is_spoiled(self):
        return held(self.folder) != self.before or entries(self.folder) != self.had


def wrongs(tool, within):
    """Each case, and what is wrong with it. A folder is used again if its files are as they were."""
    left = list(cases())
    while left:
        with tempfile.TemporaryDirectory(dir=within) as folder:
            looker = Looker(tool, os.path.realpath(folder))
            while left and not looker.is_spoiled():
                yield left[0], looker.wrong(left.pop(0))


def printed_to(tool, within):
    """Each command that writes a file, whose output is the ordinary file that it prints to, in words."""
    for command, out in ((command, out) for command in WORDS for out in (*paths("old"), "/dev/stdout")):
        with tempfile.TemporaryDirectory(dir=within) as folder:
            fill(folder)
            before, out = held(folder), out.replace("FOLDER", folder)
            with open(os.path.join(folder, "old"), "r+b") as stdout:
                words = [tool, *spelled(Case(WORDS[command], out), folder)]
                ran = subprocess.run(words, stdout=stdout, stderr=subprocess.DEVNULL, cwd=folder, timeout=10)
            line = f"cannot write {out}\n".encode()
            before |= {path: line + data[len(line) :] for path, data in before.items() if data == FILES["old"]}
            is_right = ran.returncode == 1 and held(folder) == before
            yield f"{command} > old --out {out}", None if is_right else f"its status is {ran.returncode}, or a file is spoiled"


def printed_onto(tool, within):
    """Each command that may replace IMAGE, whose output is IMAGE, to which it prints behind the last byte."""
    for command, out in ((command, out) for command in REPLACING for out in ("image", "image.soft", "/dev/stdout")):
        with tempfile.TemporaryDirectory(dir=within) as folder:
            fill(folder)
            before, had = held(folder), entries(folder)
            with open(os.path.join(folder, "image"), "ab") as stdout:
                words = [tool, *spelled(Case(WORDS[command], out), folder)]
                ran = subprocess.run(words, stdout=stdout, stderr=subprocess.DEVNULL, cwd=folder, timeout=10)
            line = f"cannot write {out}\n".encode()
            before |= {path: data + line for path, data in before.items() if data == IMAGE}
            is_right = ran.returncode == 1 and held(folder) == before and entries(folder) == had
            yield f"{command} >> image --out {out}", None if is_right else f"its status is {ran.returncode}, or a file is spoiled"


def through_streams(tool, within):
    """Each command that writes a file, with `-` for it, and with `-` for the file that it reads or not: the bytes come
    behind what standard output has, the lines go to standard error, and nothing else is written."""
    for command, is_read in ((command, is_read) for command in WORDS for is_read in (False, True)):
        source = WORDS[command][1]
        # A config that is read so has no folder, and is no other file than `-`.
        if command == "build" and is_read:
            continue
        case = Case([command, "-" if is_read else source, *WORDS[command][2:]], "-")
        lines, new = answer(case)
        wrong = streamed_wrong(tool, within, case, source, (0, b"front" + new["--out"], lines.encode()))
        yield f"{case} >> printed", wrong
        refused = {"compose": "from", "build": "spec"}.get(command, "old")
        case = Case([command, "-" if is_read else refused, *WORDS[command][2:]], "-")
        yield f"{case} >> printed, refused", streamed_wrong(tool, within, case, refused, (1, b"front", b"refused "))


def pages_streamed(tool, within):
    """Each plan whose pages go to standard output: they come behind what that has, and the lines go to standard error."""
    for command, spelling in ((command, spelling) for command in ("change", "rename") for spelling in (["-"], [])):
        case = Case(WORDS[command], "new", "-")
        lines, new = answer(case)
        with tempfile.TemporaryDirectory(dir=within) as folder, tempfile.TemporaryFile(dir=within) as output:
            fill(folder)
            before = held(folder)
            output.write(b"front")
            output.flush()
            pages = ["--pages", *spelling] if spelling else ["--pages=-"]
            words = [tool, *WORDS[command], "--out", "new", *pages, *GEOMETRY.words()]
            ran = subprocess.run(words, stdout=output, stderr=subprocess.PIPE, cwd=folder, timeout=10)
            output.seek(0)
            found = output.read()
            after = held(folder)
        is_written = after.pop(os.path.join(folder, "new"), None) == new["--out"] and after == before
        is_right = ran.returncode == 0 and found == b"front" + new["--pages"] and ran.stderr.endswith(lines.encode())
        wrong = f"its status is {ran.returncode}, standard error has {ran.stderr[-200:]!r}, or a file is spoiled"
        yield f"{command} {pages} >> printed", None if is_right and is_written else wrong


def onto_image(tool, within):
    """Each command whose output is standard output, which is the image: it is refused, and the image stays."""
    for command in (command for command in WORDS if "image" in WORDS[command]):
        with tempfile.TemporaryDirectory(dir=within) as folder:
            fill(folder)
            before, had = held(folder), entries(folder)
            with open(os.path.join(folder, "image"), "ab") as stdout:
                words = [tool, *spelled(Case(WORDS[command], "-"), folder)]
                ran = subprocess.run(words, stdout=stdout, stderr=subprocess.PIPE, cwd=folder, timeout=10)
            is_right = ran.returncode == 1 and held(folder) == before and entries(folder) == had
            is_right = is_right and ran.stderr.endswith(b"cannot write -\n")
            wrong = f"its status is {ran.returncode}, standard error has {ran.stderr[-200:]!r}, or a file is spoiled"
            yield f"{command} >> image --out -", None if is_right else wrong


def streamed_wrong(tool, within, case, source, right):
    """What is wrong with a case whose output is standard output, if a status, all that stands there, and what standard
    error has among its lines are right; None if nothing is."""
    status, printed, lines = right
    with tempfile.TemporaryDirectory(dir=within) as folder, tempfile.TemporaryFile(dir=within) as output:
        fill(folder)
        before, had = held(folder), entries(folder)
        output.write(b"front")
        output.flush()
        with open(os.path.join(folder, source), "rb") as stdin:
            words = [tool, *spelled(case, folder)]
            ran = subprocess.run(words, stdin=stdin, stdout=output, stderr=subprocess.PIPE, cwd=folder, timeout=10)
        output.seek(0)
        found = output.read()
        is_kept = held(folder) == before and entries(folder) == had
    if ran.returncode != status or found != printed or lines not in ran.stderr or not is_kept:
        return f"its status is {ran.returncode}, standard error has {ran.stderr[-200:]!r}, or a file is spoiled"
    return None


def by_own_descriptor(tool, within):
    """Each command that writes a file, whose output or pages are a descriptor that is open to nobody before it starts: it
    may get the number of a file that the program itself reads. No file may change, unless it is IMAGE, of a command that
    may replace that."""
    plans = [[*WORDS[command], "--out", "old"] for command in ("change", "rename")]
    writing = [(words, "--out") for words in (*WORDS.values(), ["map", "image"])] + [(words, "--pages") for words in plans]
    folders = ("/dev/fd", "/proc/self/fd", "//dev/../dev/fd", "RELATIVE", "LINK")
    for (words, option), number, path in itertools.product(writing, range(3, 9), folders):
        with tempfile.TemporaryDirectory(dir=within) as folder:
            fill(folder)
            before = held(folder)
            place = os.path.relpath("/dev/fd", os.path.realpath(folder)) if path == "RELATIVE" else path
            place = f"{place}/{number}"
            if path == "LINK":
                place = "descriptor"
                os.symlink(f"/dev/fd/{number}", os.path.join(folder, place))
            ran = [tool, *words, option, place, *GEOMETRY.words()]
            subprocess.run(ran, stdin=subprocess.DEVNULL, capture_output=True, cwd=folder, timeout=10)
            after = held(folder)
            may_change = {"image"} if words[0] in REPLACING else set()
            may_change |= {"old", "old.hard"} if option == "--pages" else set()
            changed = {os.path.relpath(place, folder) for place in before if after.get(place) != before[place]}
        wrong = sorted(changed - may_change)
        yield f"{words} {option} {path}/{number}", f"{wrong} hold something else" if wrong else None


def by_hyphen(tool, within):
    """Each command that writes a file, from its file and from a pipe that is -, to a pipe that is -: that gets the bytes
    of the output alone, and standard error the lines. A config that is piped has no folder, so it isn't tried."""
    for command, words in WORDS.items():
        for path in (words[1], *(["-"] if command != "build" else [])):
            with tempfile.TemporaryDirectory(dir=within) as folder:
                fill(folder)
                before, (lines, new) = held(folder), answer(Case(words, "-"))
                ran = [tool, command, path, *words[2:], "--out", "-", *GEOMETRY.words()]
                ran = subprocess.run(ran, input=FILES[words[1]], capture_output=True, cwd=folder, timeout=10)
                is_right = ran.returncode == 0 and ran.stdout == new["--out"] and ran.stderr.endswith(lines.encode())
                wrong = f"its status is {ran.returncode}, and it prints {len(ran.stdout)} bytes and {ran.stderr[-200:]!r}"
                yield f"{command} {path} --out -", None if is_right and held(folder) == before else wrong


# Mounts two file systems, and makes files in both in one order, so that they have the same numbers: copies of those that
# are read, and others. Then it runs a command, and copies what has become of them. Its status is 77 if that isn't allowed.
MOUNTED = """
mkdir left right after && mount -t tmpfs none left && mount -t tmpfs none right || exit 77
for name in image from spec config content old; do
    cat "$name" > left/$name && echo other > right/$name || exit 77
    [ "$(stat -c %i left/$name)" = "$(stat -c %i right/$name)" ] || exit 77
done
"$@"
status=$?
cp -r left right after && exit $status
"""
OTHER = b"other\n"


def in_systems(way, folder, words):
    """Runs a command beside two file systems, in a place where nobody else sees them."""
    words = [*way, "sh", "-c", MOUNTED, "sh", *words]
    return subprocess.run(words, stdin=subprocess.DEVNULL, capture_output=True, cwd=folder, timeout=10)


def way_to_mount(within):
    """The words to get such a place, as root or as a user who is root there; None if there are none."""
    for way in (["unshare", "--mount"], ["unshare", "--mount", "--map-root-user"]):
        with tempfile.TemporaryDirectory(dir=within) as folder:
            fill(folder)
            if shutil.which("unshare") and in_systems(way, folder, ["true"]).returncode == 0:
                return way
    return None


def two_systems(tool, within):
    """Each command that writes a file, whose output or pages are a file of another file system than one that is read,
    or is printed to, with the same number."""
    way = way_to_mount(within)
    if way is None:
        print("two file systems: they can't be mounted here, so nothing is tried with them", flush=True)
        return
    cases = [(command, name, None) for command in WORDS for name in FILES if name in WORDS[command]]
    cases += [("build", "content", None), ("change", "old", "image"), ("change", "old", "from"), ("rename", "old", "image")]
    printed = [(command, "old", None) for command in ("compose", "normalise", "rename")]
    for command, out, pages in (*cases, *printed):
        words = [f"left/{word}" if word in FILES else word for word in WORDS[command]]
        case, is_printed = Case(words, f"right/{out}", pages and f"right/{pages}"), (command, out, pages) in printed
        yield f"{case} > left/old" if is_printed else case, wrong_systems(tool, way, within, case, is_printed)


def wrong_systems(tool, way, within, case, is_printed):
    """What is wrong with the answer to a case over two file systems, maybe printed to a file of the first one; None if
    the right files have their new bytes, and each other file its old ones."""
    lines, new = answer(case)
    files = {f"left/{name}": data for name, data in FILES.items()} | {f"right/{name}": OTHER for name in FILES}
    files |= {path: new[option] for option, path in case.outs.items()}
    with tempfile.TemporaryDirectory(dir=within) as folder:
        fill(folder)
        words = [tool, *spelled(case, folder)]
        if is_printed:
            words = ["sh", "-c", '"$@" > left/old', "sh", *words]
            lines, files["left/old"] = "", lines.encode()
        ran = in_systems(way, folder, words)
        after = os.path.join(folder, "after")
        found = {os.path.relpath(path, after): data for path, data in held(after).items()}
    if (ran.returncode, ran.stdout) != (0, lines.encode()):
        return f"its status is {ran.returncode}, and it prints {ran.stdout[:200]!r}"
    wrong = sorted(path for path in files.keys() | found.keys() if files.get(path) != found.get(path))
    return f"{wrong} hold something else" if wrong else None


def read_from(tool, folder, words, path):
    """What a command prints, its status, and what it writes, if it reads the image at a path: from the file; or from a
    pipe, to which the file is written once."""
    before = held(folder)
    feeder = ["sh", "-c", "cat image > pipe" if path == "pipe" else "cat image"]
    with subprocess.Popen(feeder, stdout=subprocess.PIPE, cwd=folder) as feeder:
        words = [tool, *(path if word == "IMAGE" else word for word in words)]
        try:
            ran = subprocess.run(words, stdin=feeder.stdout, capture_output=True, cwd=folder, timeout=10)
        except subprocess.TimeoutExpired:
            return None
        finally:
            feeder.kill()
    written = {place: data for place, data in held(folder).items() if place not in before}
    for place in written:
        os.remove(place)
    shutil.rmtree(os.path.join(folder, "made"), ignore_errors=True)
    return ran.stdout, ran.returncode, written


def of_pipes(tool, within):
    """Each command that reads an image, from pipes that give their bytes once, with a geometry and without: what it
    answers and writes has to be what it does for the file, to the byte."""
    reading = [[command, "IMAGE", *WORDS[command][2:], "--out", "new"] for command in ("normalise", "extract")]
    reading += [["list", "IMAGE"], ["check", "IMAGE"], ["show", "IMAGE", "--block", "1"], ["map", "IMAGE", "--out", "new"]]
    reading += [["unpack", "IMAGE", "--out", "made"], ["geometry", "IMAGE"]]
    reading += [[command, *pair] for command in ("same", "diff") for pair in (("IMAGE", "image"), ("image", "IMAGE"))]
    planning = [[command, "IMAGE", *WORDS[command][2:], "--out", "new"] for command in ("change", "rename")]
    typed = [[*words, *GEOMETRY.words()] for words in (*reading, *planning) if words[0] != "geometry"]
    with tempfile.TemporaryDirectory(dir=within) as folder:
        fill(folder)
        for words in (*reading, *typed):
            right = read_from(tool, folder, words, "image")
            for path in (*STDIN, "pipe"):
                is_right = right is not None and right[1] == 0 and read_from(tool, folder, words, path) == right
                yield f"{words} from the pipe {path}", None if is_right else "it doesn't answer what it does for the file"


def unpack_into(tool, folder, name, is_taken, is_other=False):
    """Unpacks into a folder of that name, maybe as another user than root. Returns what it was, and what is wrong; None
    if the files are where they should be, or nothing is written."""
    contents = rules.Image(GEOMETRY, IMAGE).read_volume(0)
    before, path, config = entries(folder), *(os.path.join(folder, name, file) for file in ("0-root", "ubi.ini"))
    as_other = ["setpriv", "--reuid=65534", "--regid=65534", "--clear-groups"]
    words = [tool, "unpack", "image", f"--out={name}", *GEOMETRY.words()]
    if is_other and os.geteuid() == 0:
        words = as_other + words
    ran = subprocess.run(words, stdin=subprocess.DEVNULL, capture_output=True, cwd=folder, timeout=10)
    after = entries(folder)
    line = f"volume 0 bytes={len(contents)} name=root\n" if is_taken else f"cannot write {name}\n"
    new = {where for where in after if where not in before}
    right = {path, config, os.path.dirname(path)} - before.keys() if is_taken else set()
    wrong = None
    if (ran.stdout, ran.returncode) != (line.encode(), 0 if is_taken else 1):
        wrong = f"its status is {ran.returncode}, and it prints {ran.stdout[:200]!r}"
    elif new != right or any(after.get(where) != what for where, what in before.items()):
        wrong = f"new are {sorted(new)}, or something has changed or is gone"
    elif is_taken and held(folder)[path] != contents:
        wrong = f"{path} holds something else"
    return f"unpack into {name!r}", wrong


def unpacking(tool, within):
    """`unpack` into folders that exist already, or whose names differ by a blank. All users can reach the program and
    the image."""
    with tempfile.TemporaryDirectory(dir=within) as room:
        os.chmod(room, 0o755)
        tool, folder = shutil.copy(tool, os.path.join(room, "tool")), os.path.join(room, "folder")
        os.chmod(tool, 0o755)
        os.mkdir(folder)
        with open(os.path.join(folder, "image"), "wb") as file:
            file.write(IMAGE)
        full = {
            "hidden": ".config", "dots": "...", "double": "..a", "blank": " ", "line": "\n", "full": "0-root",
        }
        for name, inside in full.items():
            os.mkdir(os.path.join(folder, name))
            with open(os.path.join(folder, name, inside), "wb"):
                yield unpack_into(tool, folder, name, False)
        for name in ("empty", "empty.", "unread", "shut"):
            os.mkdir(os.path.join(folder, name))
        os.symlink("empty", os.path.join(folder, "link"))
        os.mkfifo(os.path.join(folder, "pipe"))
        with open(os.path.join(folder, "no byte"), "wb"):
            os.symlink("no byte", os.path.join(folder, "to no byte"))
        for name in ("link", "image", "no byte", "to no byte", "pipe", "no/such", ""):
            yield unpack_into(tool, folder, name, False)
        os.makedirs(os.path.join(folder, NESTED))
        for name in ("empty ", "empty", "empty\t", " empty", "empty.", "a new one", "-o", f"{NESTED}/new"):
            yield unpack_into(tool, folder, name, True)
        yield unpack_into(tool, folder, "empty", False)
        # Files can be made in a folder that can't be read, but nobody can find out what is in there.
        os.chmod(folder, 0o777)
        for name, mode in (("unread", 0o333), ("shut", 0)):
            os.chmod(os.path.join(folder, name), mode)
            yield unpack_into(tool, folder, name, False, is_other=True)
            os.chmod(os.path.join(folder, name), 0o755)


def main():
    words = argparse.ArgumentParser(description=__doc__, formatter_class=argparse.RawDescriptionHelpFormatter)
    words.add_argument("--dir", default="/tmp")
    words.add_argument("--tool", help="the program; the one that ./ubi_tool starts by default")
    words = words.parse_args()
    tool, passed, failed = os.path.abspath(built(words.tool)), 0, 0
    families = (
        wrongs, printed_to, printed_onto, through_streams, pages_streamed, onto_image, by_own_descriptor, by_hyphen,
        two_systems, of_pipes, unpacking,
    )
    for family in families:
        for case, wrong in family(tool, words.dir):
            if wrong:
                print(f"{case}: {wrong}", flush=True)
            passed, failed = passed + (not wrong), failed + bool(wrong)
    finish(passed, failed)


if __name__ == "__main__":
    main()
