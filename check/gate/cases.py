#!/usr/bin/env python3
"""Runs the cases of the folder cases/ on the program: for some files and words, what it prints, its status, and what it
writes. cases/README.md has their form.

usage: cases.py [--tool PROGRAM] [--dir FOLDER] [NAME ..]

Each run is made twice if it can be: over the file, which is read at places, and with the bytes of the file in a pipe,
which is read whole. Both have to give the same answer and leave the same files. No other file may change, and standard
error may say nothing but how a file is read, and why the file can't be used that the answer names.

The files lie in new folders below FOLDER (/tmp by default), which are removed afterwards. Without --tool the program is
built first, unless it is built already. With NAMEs only these cases are run. Ends with 'N passed, M failed', which
counts the runs, and with status 1 if some failed.
"""
import argparse
import dataclasses
import multiprocessing
import os
import re
import shlex
import subprocess
import sys
import tempfile
from pathlib import Path

from recipes import ROOT, Recipes
from fuzz import built, complaints

CASES = ROOT / 'cases'
# The files of a case that don't stand in its folder when it is run.
OWN = ('runs', 'files')
RUN = re.compile(r'(|file|pipe)\$(?: (.*))?')
# The commands that read an image or a text, which a pipe may give; and those that read two.
PIPED = ('geometry', 'list', 'check', 'show', 'map', 'extract', 'unpack', 'compose', 'normalise', 'change', 'rename',
         'update')
PAIRS = ('same', 'diff')
STDIN = '/dev/stdin'


class Wrong(Exception):
    """What is wrong with a run, or with the text of a case."""


@dataclasses.dataclass
class Run:
    """A run of the program, and what it has to do."""

    line: int
    way: str
    words: list
    like: list = None
    prints: list = dataclasses.field(default_factory=list)
    status: int = None
    says: list = None
    writes: dict = dataclasses.field(default_factory=dict)

    def __str__(self):
        return f"{self.line}: $ {' '.join(self.words)}"


@dataclasses.dataclass
class Answer:
    """What the program printed, its status, and the files that then stand in the folder."""

    printed: bytes
    status: int
    error: bytes
    held: dict


def split(text):
    """The words of a line: between blanks, or in quotes. A backslash is a byte like others."""
    parser = shlex.shlex(text, posix=True, punctuation_chars=False)
    parser.whitespace_split, parser.escape, parser.commenters = True, '', ''
    return list(parser)


def spread(lines):
    """Numbered lines, those between `each` and `end` once for each of the values, which takes the place of {}."""
    values, inside = [], []
    for at, line in enumerate(lines, 1):
        if line.startswith('each '):
            values, inside = listed(line[5:]), []
        elif line.startswith('| '):
            values += listed(line[2:])
        elif line == 'end':
            yield from ((place, text.replace('{}', value)) for value in values for place, text in inside)
            values = []
        elif values:
            inside.append((at, line))
        else:
            yield at, line


def listed(text):
    """The values of a list, or the numbers from one to another."""
    span = re.fullmatch(r'(\d+)\.\.(\d+)', text)
    return [str(n) for n in range(int(span[1]), int(span[2]) + 1)] if span else text.split(' | ')


def runs_of(text):
    """The runs that a text describes."""
    found, more = [], []
    for at, line in spread(text.split('\n')):
        run = RUN.fullmatch(line)
        if run:
            found.append(Run(at, run[1], with_more(split(run[2] or ''), more)))
        elif line.startswith('+'):
            more = split(line[1:])
        elif line and not line.startswith('#'):
            answer(found[-1], line, more)
    return found


def with_more(words, more):
    """Words, and those that stand in a line `+`, if the command takes them and has no geometry of its own."""
    is_sized = any(word == '--peb' or word.startswith('--peb=') for word in words)
    return words if is_sized or words[:1] == ['geometry'] else words + more


def answer(run, line, more):
    """Notes a line of what a run has to do."""
    status = re.fullmatch(r'\[(\d+)\]', line)
    if status:
        run.status = int(status[1])
    elif line.startswith('= '):
        run.like = with_more(split(line[2:]), more)
    elif line.startswith('!'):
        run.says = [*(run.says or []), line[2:].replace('\\n', '\n')]
    elif line.startswith('> '):
        path, _, name = line[2:].partition(' ')
        run.writes[path] = name
    else:
        run.prints.append(line)


def pattern(lines):
    """What matches these lines, of which one that is ... stands for any others."""
    parts = (b'(?:.*\n)*?' if line == b'...' else re.escape(line) + b'\n' for line in lines)
    return re.compile(b''.join(parts))


def held(folder):
    """The files of a folder and what they hold, and the folders in it."""
    found = {}
    for place, folders, names in os.walk(folder):
        for name in folders:
            found[os.path.relpath(os.path.join(place, name), folder)] = None
        for name in names:
            path = os.path.join(place, name)
            with open(path, 'rb') as file:
                found[os.path.relpath(path, folder)] = file.read()
    return found


def lay(folder, before, after):
    """Makes what a folder holds before again of what it holds after."""
    for path in sorted(after.keys() - before.keys(), reverse=True):
        place = os.path.join(folder, path)
        os.rmdir(place) if after[path] is None else os.remove(place)
    for path, data in before.items():
        if after.get(path, b'') != data or path not in after:
            if data is None:
                os.makedirs(os.path.join(folder, path), exist_ok=True)
            else:
                os.makedirs(os.path.dirname(os.path.join(folder, path)), exist_ok=True)
                Path(folder, path).write_bytes(data)


class Case:
    """A case that is run: its runs, its recipes, and the folder of its files."""

    def __init__(self, name, tool, folder):
        self.tool, self.folder, self.recipes = tool, folder, Recipes()
        self.recipes.add(CASES / 'files')
        self.runs, own = runs_of((CASES / name / 'runs').read_text(encoding='utf-8')), []
        if (CASES / name / 'files').exists():
            own = self.recipes.add(CASES / name / 'files')
        for path in (CASES / name).iterdir():
            if path.name not in OWN:
                self.recipes.plain[path.name] = path.read_bytes()
        words = {word for run in self.runs for word in (*run.words, *(run.like or ()))}
        stand = {name for name in self.recipes.named() if name in words or name in own or name in self.recipes.plain}
        self.held = {name.rstrip('/'): None if name[-1] == '/' else self.recipes.bytes(name) for name in stand}
        lay(folder, self.held, {})

    def contents(self, name, now):
        """What a recipe or a file that stands now holds."""
        if name in self.recipes.named():
            return self.recipes.bytes(name)
        if now.get(name) is None:
            raise Wrong(f'nothing says what {name} holds')
        return now[name]

    def made(self, words, stdin=None):
        """Runs the program in its folder, whose files seem to be old before."""
        for path in Path(self.folder).iterdir():
            os.utime(path, (0, 0))
        given = {'stdin': subprocess.DEVNULL} if stdin is None else {'input': stdin}
        given |= {'executable': self.tool, 'cwd': self.folder, 'capture_output': True, 'timeout': 20}
        ran = subprocess.run(['ubi_tool', *words], **given)
        return Answer(ran.stdout, ran.returncode, ran.stderr, held(self.folder))

    def judge(self, run, got, like):
        """Raises what is wrong with an answer."""
        if like:
            same = (got.printed, got.status, got.held) == (like.printed, like.status, like.held)
            expect(same, f"it isn't answered as {' '.join(run.like)}", got)
        else:
            lines = [line.encode() for line in run.prints]
            if lines[:1] and lines[0].startswith(b'@ '):
                lines = self.contents(run.prints[0][2:], self.held).splitlines()
            expect(pattern(lines).fullmatch(got.printed), 'it prints other lines', got)
        if run.status is not None or not like:
            expect(got.status == (run.status or 0), 'its status is another one', got)
        if run.says is None:
            expect(not complaints(got.error, got.printed), 'standard error says something', got)
        for text in run.says or ():
            expect(got.error and text.encode() in got.error, f'standard error has no {text!r}', got)
        if not like:
            self.judge_files(run, got)

    def judge_files(self, run, got):
        """Raises what is wrong with the files that stand after a run."""
        for path, name in run.writes.items():
            found = got.held.get(path)
            expect(found is not None, f'{path} is not there', got)
            if name.startswith('~ '):
                is_right = pattern(self.contents(name[2:], self.held).splitlines()).fullmatch(found)
            elif name:
                is_right = found == self.contents(name, self.held)
            else:
                is_right = os.stat(Path(self.folder, path)).st_mtime != 0
            expect(is_right, f"{path} isn't written, or holds something else than {name}", got)
        folders = {str(parent) for path in run.writes for parent in Path(path).parents}
        paths = self.held.keys() | got.held.keys()
        others = {path for path in paths if self.held.get(path, b'-') != got.held.get(path, b'-')}
        others -= run.writes.keys() | {path for path in folders if got.held.get(path, b'') is None}
        expect(not others, f'{sorted(others)} were written or removed', got)

    def ways(self, run):
        """The words and the standard inputs with which a run is made."""
        command, images = run.words[:1], run.words[1:2]
        if command and command[0] in PAIRS:
            images = run.words[1:3]
        if run.way in ('', 'file'):
            yield run.words, None
        if run.way in ('', 'pipe') and command and command[0] in (*PIPED, *PAIRS):
            for image in images:
                if list(map(os.path.normpath, run.words)).count(image) == 1 and self.held.get(image) is not None:
                    yield [STDIN if word == image else word for word in run.words], self.held[image]

    def passes(self, run):
        """Makes a run in each way. Raises what is wrong."""
        like, after = None, None
        try:
            if run.like:
                like = after = self.made(run.like)
            ways = list(self.ways(run))
            if not ways:
                raise Wrong('it has no pipe')
            for words, stdin in ways:
                if after:
                    lay(self.folder, self.held, after.held)
                after = self.made(words, stdin)
                self.judge(run, after, like)
        finally:
            self.held = after.held if after else held(self.folder)


def expect(is_right, what, got):
    if not is_right:
        raise Wrong(f'{what}: status {got.status}\n{got.printed[:2000].decode(errors="replace")}'
                    f'{got.error[:500].decode(errors="replace")}')


def tried(asked):
    """Runs a case. Returns how many runs passed, and what is wrong with the others."""
    name, tool, room = asked
    passed, failures = 0, []
    with tempfile.TemporaryDirectory(dir=room) as folder:
        try:
            case = Case(name, tool, folder)
        except (Wrong, ValueError, LookupError, OSError) as wrong:
            return 0, [f"{name}: {wrong!r}"]
        for run in case.runs:
            try:
                case.passes(run)
                passed += 1
            except (Wrong, ValueError, LookupError, OSError, subprocess.TimeoutExpired) as wrong:
                failures.append(f"{name}:{run}: {wrong}")
    return passed, failures


def main():
    words = argparse.ArgumentParser(description=__doc__, formatter_class=argparse.RawDescriptionHelpFormatter)
    words.add_argument('--tool', help='the program; the one that ./ubi_tool starts by default')
    words.add_argument('--dir', default='/tmp')
    words.add_argument('names', metavar='NAME', nargs='*')
    words = words.parse_args()
    tool, passed, failed = os.path.abspath(built(words.tool)), 0, 0
    names = words.names or [path.parent.name for path in CASES.glob('*/runs')]
    # The longest ones first, so that none of them runs alone in the end.
    names.sort(key=lambda name: -(CASES / name / 'runs').stat().st_size)
    with multiprocessing.Pool() as pool:
        for done, failures in pool.imap_unordered(tried, [(name, tool, words.dir) for name in names]):
            passed, failed = passed + done, failed + len(failures)
            for failure in failures:
                print(failure, flush=True)
    print(f'{passed} passed, {failed} failed')
    return 1 if failed or not passed else 0


if __name__ == '__main__':
    sys.exit(main())
