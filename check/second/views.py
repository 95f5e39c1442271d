#!/usr/bin/env python3
"""Compares the program's answers for a view of a file (--start, --length, --oob, --bad) with its answers for a file
that holds just the bytes of the view, which are made here, by docs/FORMAT.md.

usage: views.py [--seed N] [--count N] [--tool PROGRAM]

A file is an image with junk before and after it, now and then also another image, and with out-of-band bytes after
each page, or without; now and then it is cut. The words say so, or something else: other places, lengths and numbers of
out-of-band bytes, at the edges of the file and far out. `check`, `list`, `show`, `map`, `normalise`, `extract`,
`rename` and `same` read each view from the file and from a pipe: the bytes of the part, and before them the eraseblocks
of the file before it, which read 0xFF and which no plan touches, if there is a whole number of these. `geometry` reads
the part alone. An impossible view has to be refused for the first cause that applies, F7, F8 or F11, with its numbers,
and no output may be written then.

By default there are 500 files of the seed 1. Without --tool the program is built first, unless it is built already. The
last line is 'N passed, M failed', and the exit status is 0 if none failed.
"""
import argparse
import random
import subprocess
import sys
import tempfile
from pathlib import Path

from fuzz import renumbered

ROOT = Path(__file__).resolve().parents[2]
IMAGE = (ROOT / 'crates/ubi_tool/data/root.img').read_bytes()
PEB, PAGE, PEBS = 512, 64, 32
NUMBERS = ['--peb', str(PEB), '--page', str(PAGE), '--pebs', str(PEBS)]


def size_with(oob):
    """The bytes of an eraseblock with so many out-of-band bytes after each page."""
    return PEB // PAGE * (PAGE + oob)


def with_more(rng, image, oob):
    """An image with so many out-of-band bytes after each page."""
    return b''.join(image[at:at + PAGE] + rng.randbytes(oob) for at in range(0, len(image), PAGE))


def other(rng, oob):
    """The image under another number."""
    blocks = (IMAGE[at:at + PEB] for at in range(0, len(IMAGE), PEB))
    return with_more(rng, b''.join(renumbered(block, 77) for block in blocks), oob)


def laid(rng, oob):
    """A file in which an image lies, the place of the image and its number of bytes there."""
    image = IMAGE if rng.random() < 0.8 else IMAGE + b'\xff' * PEB * rng.randrange(1, 40)
    pages, size = with_more(rng, image, oob), size_with(oob)
    before = rng.randbytes(rng.choice([0, 0, 1, PEB, size, size * rng.randrange(1, 9), rng.randrange(5000)]))
    after = rng.randbytes(rng.choice([0, 0, 1, rng.randrange(5000)]))
    if rng.random() < 0.2:
        before, after = rng.choice([(other(rng, oob) + before, after), (before, after + other(rng, oob))])
    return before + pages + after, len(before), len(pages)


def near(rng, number, file):
    """The number, or another one."""
    kind = rng.random()
    if kind < 0.6:
        return number
    if kind < 0.8:
        return max(0, number + rng.choice([-PEB, -PAGE, -1, 1, PAGE, PEB]))
    return rng.choice([0, 1, len(file) - 1, len(file), len(file) + 1, 2**32, 2**63 - 1, rng.randrange(len(file) + 2)])


class View:
    """A view: a place, a length or none, the number of out-of-band bytes, and the words that say so."""

    def __init__(self, start, length, oob):
        self.start, self.length, self.oob = start, length, oob

    def words(self):
        """The words."""
        words = ['--start', str(self.start)] if self.start else []
        words += ['--length', str(self.length)] if self.length is not None else []
        return words + (['--oob', str(self.oob)] if self.oob else [])

    def refusal(self, file, is_pipe, device, is_plan):
        """The line that refuses a view that is impossible; None if it is possible. No more is read from a pipe, and
        missed, than the device and a page have."""
        count, length = len(file), self.length
        if is_pipe:
            most = (device // PAGE + 1) * (PAGE + self.oob)
            length = None if length is None else min(length, most)
            count = min(count, self.start + (most if length is None else length))
        size, part = size_with(self.oob), count - self.start if length is None else length
        rest, beyond = part % (PAGE + self.oob), self.start % size
        causes = (
            (is_plan and beyond, f'F11 Start peb={size} rest={beyond}'),
            (count < self.start + (length or 0), f'F7 Part bytes={count}'),
            (self.oob and rest, f'F8 Pages rest={rest}'),
        )
        return next((f'refused {cause}\n' for applies, cause in causes if applies), None)

    def part(self, file):
        """The bytes of the part."""
        return file[self.start:] if self.length is None else file[self.start:self.start + self.length]

    def before(self):
        """How many eraseblocks of the file before the part are counted."""
        count, rest = divmod(self.start, size_with(self.oob))
        return 0 if rest else count

    def seen(self, file):
        """The bytes of the view."""
        part = self.part(file)
        pages = b''.join(part[at:at + PAGE] for at in range(0, len(part), PAGE + self.oob))
        return b'\xff' * (self.before() * PEB) + pages


def run(tool, words, stdin=None):
    """What is printed, and the exit status."""
    ran = subprocess.run([tool, *words], input=stdin, capture_output=True)
    return ran.stdout.decode(), ran.returncode


def placed(lines, start, length, is_whole):
    """The lines of `geometry` for a part of so many bytes, as they are for the file around it; IS_WHOLE: the part goes
    to the end of the file."""
    there = []
    for line in lines.splitlines():
        numbers, _, place = line.partition('--start ')
        at, _, count = place.partition(' --length ')
        at, count = start + int(at or 0), int(count or length)
        is_all = numbers and is_whole and (at, count) == (0, start + length)
        numbers = numbers.strip()
        there.append(numbers if is_all else f'{numbers} --start {at} --length {count}'.strip())
    return ''.join(line + '\n' for line in there)


class Case:
    """A file, a view of it, and what failed."""

    def __init__(self, tool, folder, rng):
        oob = rng.choice([0, 0, 1, 2, 3, PAGE, 200])
        file, before, length = laid(rng, oob)
        if rng.random() < 0.1:
            file = file[:rng.randrange(len(file))]
        start, length = near(rng, before, file), near(rng, length, file) if rng.random() < 0.7 else None
        self.view = View(start, length, oob if rng.random() < 0.8 else rng.choice([0, 1, 5, 2**32 - 1]))
        self.tool, self.folder, self.file, self.failed = tool, folder, file, []
        self.bad = rng.choice(['0', '3', '1-2,4', '9', '']) if rng.random() < 0.3 else None

    def wanted(self, words, view, numbers):
        """The answer for a file with the bytes of a view, and what is written."""
        out, seen = self.folder / 'want', self.folder / 'seen'
        out.unlink(missing_ok=True)
        is_geometry = words[0] == 'geometry'
        seen.write_bytes(view.part(self.file) if is_geometry else view.seen(self.file))
        bad = ','.join(word for word in (self.bad, f'0-{view.before() - 1}') if word)
        as_bad = ['--bad', bad] if words[0] == 'rename' and view.before() else self.as_bad(words)
        text, status = run(self.tool, [word.format(image=seen, out=out) for word in words] + numbers + as_bad)
        if is_geometry and status == 0:
            text = placed(text, view.start, len(view.part(self.file)), view.length is None)
        return text, status, out.read_bytes() if out.exists() else None

    def as_bad(self, words):
        """The words that list bad eraseblocks, if the command takes them."""
        return [] if self.bad is None or words[0] == 'geometry' else ['--bad', self.bad]

    def compare(self, words, is_pipe, view, device, numbers):
        """Compares an answer to words in which `{image}` stands for the image."""
        raw, out = self.folder / 'raw', self.folder / 'out'
        out.unlink(missing_ok=True)
        name = '/dev/stdin' if is_pipe else str(raw)
        asked = [word.format(image=name, out=out) for word in words] + numbers + self.as_bad(words) + view.words()
        got = *run(self.tool, asked, self.file if is_pipe else None), out.read_bytes() if out.exists() else None
        refusal = view.refusal(self.file, is_pipe, device, words[0] == 'rename')
        want = (refusal, 1, None) if refusal else self.wanted(words, view, numbers)
        if got != want:
            self.failed.append(f'{asked}: {got[:2]}, not {want[:2]}')

    def check(self):
        """Compares all answers."""
        (self.folder / 'raw').write_bytes(self.file)
        for words in (['check', '{image}'], ['list', '{image}'], ['show', '{image}', '--block', '2'],
                      ['map', '{image}'], ['normalise', '{image}', '--out', '{out}'],
                      ['extract', '{image}', '--id', '0', '--out', '{out}'],
                      ['rename', '{image}', '--id', '0', '--name', 'x', '--out', '{out}']):
            for is_pipe in (False, True):
                self.compare(words, is_pipe, self.view, PEB * PEBS, NUMBERS)
        self.compare(['same', '{image}', '{image}'], False, self.view, PEB * PEBS, NUMBERS)
        part = View(self.view.start, self.view.length, 0)
        for is_pipe in (False, True):
            self.compare(['geometry', '{image}'], is_pipe, part, 2**44, [])


def main():
    parser = argparse.ArgumentParser(description=__doc__.partition('\n')[0])
    parser.add_argument('--seed', type=int, default=1)
    parser.add_argument('--count', type=int, default=500)
    parser.add_argument('--tool')
    args = parser.parse_args()
    tool = args.tool
    if not tool:
        tool = str(ROOT / 'ubi_tool')
        subprocess.run([tool, '--version'], stderr=subprocess.DEVNULL)
    passed = failed = 0
    with tempfile.TemporaryDirectory() as folder:
        for number in range(args.count):
            case = Case(tool, Path(folder), random.Random(args.seed * 1000003 + number))
            case.check()
            for line in case.failed:
                print(f'{number}: {line}')
            passed, failed = passed + (not case.failed), failed + bool(case.failed)
    print(f'{passed} passed, {failed} failed')
    return 1 if failed else 0


if __name__ == '__main__':
    sys.exit(main())
