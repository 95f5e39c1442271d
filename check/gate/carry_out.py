#!/usr/bin/env python3
"""Carries out plans with carry_out.sh, on a chip that a file simulates, and checks what the script does, prints and
leaves.

usage: carry_out.py [--tool PROGRAM] [--script PATH] [--only WORD]

The tools that the script calls are those of check/gate/fakes, which behave as mtd-utils and dd do on NAND flash. They
can be made to fail: an erase that fails, or does nothing or half of its work; a program that fails, is torn, or can't
be read back; an eraseblock that is bad. A plan is given with its pages, or as a plan file, which is made here. Images
are small, with sub-pages and without, and with bad eraseblocks. In each image one mapped LEB and one unmapped LEB are
changed, and a volume is renamed. Other chips have a boot loader before the image, the anchor of a fastmap, or more than
4,096 eraseblocks. The cases are

- the whole plan, with a dump and without, and by a plan file; `-c`, which writes nothing
- plans that end after each step (`-e`) and are continued (`-s`)
- each write going wrong, in each way: the script must name the step and write nothing after it; the chip must hold the
  right bytes; and the plan can be continued if nothing was torn. With `-m` nandtest, which may fail too, marks the
  eraseblock and touches no other, and a new plan without it is carried out
- each refusal: its line, and that no byte has changed. Plan files are spoiled in each part, or are those of a sister
  chip or an older dump
- eraseblocks that can't be read, which `-u` passes over, and that went bad
- anchors that the plan leaves, erases first or erases late; and eraseblocks that aren't UBI's
- interrupts, outputs that are closed or full, offsets beyond 4 GiB

The chip must hold the image after the steps that are done, and mean the old or the new. Plans, pages and meanings are
those of check/second/rules.py. With --tool the plans and the pages of PROGRAM must be the same, and the meaning is what
its `list` and `extract` say. The script is run by dash, bash and busybox in turn, if they are installed. --only runs
the cases whose names contain WORD. The last line is 'N passed, M failed', and the exit status is 0 if none failed.
"""
import argparse
import dataclasses
import itertools
import os
import random
import re
import shutil
import signal
import subprocess
import sys
import tempfile
import time
from pathlib import Path

ROOT = Path(__file__).resolve().parents[2]
FAKES = ROOT / 'check/gate/fakes'
DATA = ROOT / 'crates/ubi_tool/data'
sys.path.insert(0, str(ROOT / 'check/second'))
import rules  # noqa: E402
from fuzz import Failure, expect  # noqa: E402
from rules import LAYOUT, Geometry, Record, Vid, is_blank  # noqa: E402

# The volumes of a fastmap: its anchor, and the rest of it.
ANCHOR, FASTMAP = LAYOUT + 1, LAYOUT + 2

# The names of shells, and the words before those of the script. busybox has a dd of its own, which it prefers to the
# fake one.
SHELLS = {
    'dash': ['dash'],
    'bash': ['bash'],
    'busybox': ['busybox', 'sh', '-c', 'dd() { "$FAKES/dd" "$@"; }; . "$0"'],
}
# Geometries, each with the bytes of a sub-page. In the second the VID header lies in page 0, in a sub-page of its own.
SIZES = (
    (Geometry(512, 64, 64, 128, 32), 64),
    (Geometry(8192, 2048, 512, 2048, 32), 512),
    (Geometry(2048, 256, 320, 512, 32), 64),
)
# What may go wrong with an erase and with a program, and what the script says then.
ERASES = {
    'fail': 'libmtd: error!: MEMERASE64 ioctl failed',
    'skip': "it isn't blank afterwards",
    'most': "it isn't blank afterwards",
    'loud': 'flash_erase: warning!',
    'status': 'flash_erase ended with status 1',
    'unread': "it can't be read back: ECC: 1 uncorrectable",
}
PROGRAMS = {
    'fail': 'Input/output error',
    'skip': 'it reads other bytes afterwards',
    'torn': 'it reads other bytes afterwards',
    'broken': 'Input/output error',
    'flip': 'it reads other bytes afterwards',
    'unread': "it can't be read back: ECC: 1 uncorrectable",
    'killed': 'it was broken off with status 137',
}
# Those after which the chip holds what it held before the step, or after which the erase is done.
HARMLESS = ('fail', 'skip', 'loud', 'status')
# Those that are a fault of the eraseblock; and what -m is tried with.
AT_FAULT = ('fail', 'musl', 'skip', 'most', 'torn', 'broken', 'flip', 'unread')
MARKED = {'erase': ('fail', 'most', 'status', 'unread'), 'program': ('fail', 'musl', 'torn', 'killed', 'flip')}
# What goes wrong with the writes after a failure, counted from it: what is written then, and the lines. First if it is
# no fault of the eraseblock.
ERASED, PROGRAMMED = 'erase {p}', 'program {at} {peb}'
AFTER_FAILURES = (
    (({}, (), ()),),
    (
        ({1: 'fail'}, (ERASED, 'mark {p}'), ('eraseblock {p} is marked as bad now: take a new dump, with --bb=padbad, '
            'list it in --bad, and plan again',)),
        ({2: 'fail'}, (ERASED, PROGRAMMED, 'mark {p}'), ('eraseblock {p} is marked as bad now: take a new dump, with '
            '--bb=padbad, list it in --bad, and plan again',)),
        ({}, (ERASED, PROGRAMMED, ERASED), ("eraseblock {p} isn't marked as bad: nandtest could erase and program it, "
            'and it is blank now. Take a new dump and plan again',)),
        ({1: 'stuck', 3: 'fail'}, (ERASED, 'mark {p}', ERASED), ("eraseblock {p} can't be marked as bad: attach and "
            'detach the chip once, take a new dump, list it in --bad, and plan again',)),
    ),
)
# The plans that end after each step and whose writes go wrong: those of the first in each way, those of the others in
# one.
STEPPED = ('peb 8192 used mapped', 'peb 512 clean rename', 'spare change')
# Lines of the volumes that `update` writes, which stand before its steps.
VOLUMES = 'volume 5 replaces 1 lebs=40 name=~/(steps)&\\x20;\'"*\nvolume 6 new lebs=0 name=a\n'


# Images, and plans for them.


def image_of(geometry, layout):
    """An image of the eraseblocks that a layout names."""
    rng = random.Random(f'{geometry} {layout}')
    records = {0: Record(6, 1, 1, 0, b'root', 0), 1: Record(2, 1, 2, 0, b'kernel', 0)}
    table, contents, sqnums = rules.put_table(geometry, records), rng.randbytes(100), itertools.count(1)

    def member(volume, lnum, data, kind=1, compat=0, size=0, used=0, right=0):
        ec = rules.put_ec(geometry, rng.randrange(50), 7)
        vid = rules.put_vid(Vid(kind, 0, compat, volume, lnum, size, used, 0, right, next(sqnums)))
        return rules.put_block(geometry, ec, vid, data)

    made = {
        'table0': lambda: member(LAYOUT, 0, table, compat=5),
        'table1': lambda: member(LAYOUT, 1, table, compat=5),
        'leb0': lambda: member(0, 0, rng.randbytes(geometry.leb)),
        'leb1': lambda: member(0, 1, rng.randbytes(geometry.page)),
        'old1': lambda: member(0, 1, rng.randbytes(geometry.leb)),
        'static': lambda: member(1, 0, contents, 2, 0, len(contents), 1, rules.crc(contents)),
        'clean': lambda: rules.put_block(geometry, rules.put_ec(geometry, 3, 7)),
        'free': lambda: rules.put_block(geometry, rules.put_ec(geometry, 4, 7), data=bytes(9)),
        'blank': lambda: b'\xFF' * geometry.peb,
        'bad': lambda: b'\xFF' * geometry.peb,
        'anchor': lambda: member(ANCHOR, 0, rng.randbytes(geometry.page), compat=1),
        'fastmap': lambda: member(FASTMAP, 0, rng.randbytes(geometry.page), compat=1),
        'boot': lambda: rng.randbytes(geometry.peb),
    }
    return b''.join(made[word]() for word in layout.split())


def without_header(image, geometry, p):
    """An image in which the erase-counter header of an eraseblock is blank."""
    at = p * geometry.peb
    return image[:at] + b'\xFF' * 64 + image[at + 64 :]


def without_magic(image, geometry, *blocks):
    """An image in which the erase-counter headers of some eraseblocks have no magic."""
    image = bytearray(image)
    for p in blocks:
        image[p * geometry.peb] ^= 0x20
    return bytes(image)


# The first has two clean eraseblocks, the second none; both have bad ones.
LAYOUTS = {
    'clean': 'bad table0 old1 leb0 clean bad leb1 table1 static clean blank',
    'used': 'table0 free leb0 old1 leb1 static table1 bad free bad',
}
# What lies before an image; and an image of which no eraseblock may be taken.
BOOT = 'boot boot blank boot boot'
FULL = 'table0 leb0 leb1 static table1'


class Plan:
    """A plan for an image, which may lie behind some eraseblocks of the chip: its steps, its pages, and the chip after
    each number of steps."""

    def __init__(self, name, geometry, sub, image, made, words, files=(), bad=(), before=0):
        self.name, self.geometry, self.sub, self.image, self.bad = name, geometry, sub, image, bad
        self.before = before
        self.steps, self.words, self.files = made.steps, words, dict(files)
        self.text = ''.join(rules.plan_lines(self.steps))
        self.pages = [step[3] for step in self.steps if step[0] == 'program']
        self.after = [rules.after(geometry, image, self.steps[:k]) for k in range(len(self.steps) + 1)]
        self.count = len(self.steps)

    def line(self, n):
        """The line of step N, counted from 1."""
        return self.text.splitlines()[n]

    def pages_of(self, n):
        """The bytes of the pages of the first N steps."""
        return b''.join(self.pages[: sum(step[0] == 'program' for step in self.steps[:n])])

    def writes(self, n):
        """What step N writes, as the fakes log it: in page 0, if there are sub-pages, only those that change."""
        word, p, *rest = self.steps[n - 1]
        if word == 'erase':
            return [f'erase {p}']
        page = self.geometry.page
        at = p * self.geometry.peb + rest[0] * page
        old, new = (self.after[k][at : at + page] for k in (n - 1, n))
        if old == new:
            return []
        size = self.sub if rest[0] == 0 else page
        changed = [part for part in range(0, page, size) if old[part : part + size] != new[part : part + size]]
        return [f'program {at + part} {size}' for part in changed]

    def file(self, stop=None, image=None, **first):
        """The plan file of a dump, with the pages of the first steps, and other numbers in its first line."""
        geometry, image = self.geometry, self.image if image is None else image
        peb, vid = geometry.peb, geometry.vid
        touched = sorted({step[1] for step in self.steps})
        pages = self.pages_of(self.count if stop is None else stop)
        numbers = {
            'plan': 1, 'peb': peb, 'page': geometry.page, 'vid': vid, 'data': geometry.data,
            'blocks': len(image) // peb, 'steps': self.count, 'touched': len(touched),
            'pages': len(pages) // geometry.page,
        } | first
        lines = [f'plan {numbers.pop("plan")} ' + ' '.join(f'{name}={value}' for name, value in numbers.items())]
        lines += self.text.splitlines()[1:]
        for p in touched:
            ec, header = (image[at : at + 64].hex() for at in (p * peb, p * peb + vid))
            lines.append(f'block={p} ec={ec} vid={header}')
        return ''.join(f'{line}\n' for line in lines).encode() + pages

    def all_writes(self, first=1, last=None):
        """The step and the line of each write of some steps."""
        return [(n, line) for n in range(first, (self.count if last is None else last) + 1) for line in self.writes(n)]

    def places(self):
        """The words that say where the image lies, and which eraseblocks are bad."""
        start = ['--start', str(self.before * self.geometry.peb)] if self.before else []
        return start + (['--bad', ','.join(map(str, self.bad))] if self.bad else [])

    def with_bad(self, data):
        """The bytes of a chip whose bad eraseblocks hold something."""
        data, peb = bytearray(data), self.geometry.peb
        for p in self.bad:
            data[p * peb : (p + 1) * peb] = b'bad?' * (peb // 4)
        return bytes(data)


def plans():
    """The plans that are carried out."""
    small = SIZES[0][0]
    spare, new = (DATA / 'spare.img').read_bytes(), (DATA / 'new.bin').read_bytes()
    yield Plan('spare change', small, 64, spare, rules.Change(rules.Image(small, spare), 0, 1, new),
        ['change', '--id', '0', '--lnum', '1', '--from', 'new.bin'], {'new.bin': new})
    for (geometry, sub), (layout, words) in itertools.product(SIZES, LAYOUTS.items()):
        if (geometry, layout) == (SIZES[2][0], 'clean'):
            continue
        data, bad = image_of(geometry, words), [p for p, word in enumerate(words.split()) if word == 'bad']
        name = f'peb {geometry.peb} {layout}'
        for lnum, which in ((1, 'mapped'), (4, 'unmapped'))[: 1 if layout == 'clean' else 2]:
            yield change_of(f'{name} {which}', geometry, sub, data, bad, lnum=lnum)
        yield rename_of(f'{name} rename', geometry, sub, data, bad)
    for geometry, sub in SIZES[:2]:
        data = image_of(geometry, f'{BOOT} {LAYOUTS["used"]}')
        for word, of in (('mapped', change_of), ('rename', rename_of)):
            yield of(f'boot loader, peb {geometry.peb} {word}', geometry, sub, data, (12, 14), 5)
    for geometry, sub in SIZES:
        # members that have lost the magic of their first headers: the one is taken, the other given up
        data = without_magic(image_of(geometry, 'table0 leb0 old1 leb1 static table1'), geometry, 2, 3)
        yield change_of(f'no magic, peb {geometry.peb}', geometry, sub, data)


def masked_image(geometry, data, bad, before):
    """What the rules read of a chip: no step touches an eraseblock before the image, nor a bad one."""
    return rules.Image(geometry, data, lambda p: p < before or p in bad)


def change_of(name, geometry, sub, data, bad=(), before=0, lnum=1):
    """The plan of a change of a LEB."""
    page = geometry.page
    new = random.Random(name).randbytes(page) + b'\xFF' * page + b'end'.ljust(page, b'\xFF')
    made = rules.Change(masked_image(geometry, data, bad, before), 0, lnum, new)
    words = ['change', '--id', '0', '--lnum', str(lnum), '--from', 'new.bin']
    return Plan(name, geometry, sub, data, made, words, {'new.bin': new}, bad, before)


def rename_of(name, geometry, sub, data, bad=(), before=0):
    """The plan of a rename."""
    made = rules.Rename(masked_image(geometry, data, bad, before), 1, b'kernel_old')
    return Plan(name, geometry, sub, data, made, ['rename', '--id', '1', '--name', 'kernel_old'], (), bad, before)


# What an image means: by the rules, or to the program.


def by_rules(plan, data):
    try:
        return masked_image(plan.geometry, data, plan.bad, plan.before).meaning()
    except rules.Refused as refused:
        return f'refused {refused}'


class Program:
    """The program: what an image means to it, and its plans."""

    def __init__(self, tool, folder):
        self.tool, self.folder, self.known = str(Path(tool).resolve()), folder, {}

    def run(self, *words):
        done = subprocess.run([self.tool, *words], capture_output=True, cwd=self.folder)
        return done.stdout.decode(errors='replace'), done.returncode

    def put(self, name, data):
        (self.folder / name).write_bytes(data)
        return name

    def meaning(self, plan, data):
        """What `list` says about an image, and the bytes of each volume that can be extracted."""
        key = plan.geometry, data, plan.before
        if key not in self.known:
            self.put('cut.img', data)
            words = [*plan.geometry.words(), *plan.places()]
            listed, status = self.run('list', 'cut.img', *words)
            volumes = re.findall(r'^volume (\d+) ', listed, re.M)
            read = []
            for number in volumes:
                (self.folder / 'volume').write_bytes(b'')
                answer = self.run('extract', 'cut.img', '--id', number, '--out', 'volume', *words)
                read.append((number, answer, (self.folder / 'volume').read_bytes()))
            self.known[key] = listed, status, read
        return self.known[key]

    def compare(self, plan):
        """Checks that the plan and the pages of the program are those of the rules."""
        for name, data in plan.files.items():
            self.put(name, data)
        command, *rest = plan.words
        words = [command, self.put('dump.img', plan.image), *rest, '--out', 'out.img', *plan.geometry.words(),
            *plan.places()]
        path = self.folder / 'pages'
        path.unlink(missing_ok=True)
        text, status = self.run(*words, '--pages', 'pages')
        pages = path.read_bytes() if path.exists() else None
        expect((text, status) == (plan.text, 0), f'the program plans {text!r} with status {status}')
        expect(pages == plan.pages_of(plan.count), "the program's pages differ")
        # what lies before the image is blank there
        at = plan.before * plan.geometry.peb
        wanted = b'\xFF' * at + plan.after[-1][at:]
        expect((self.folder / 'out.img').read_bytes() == wanted, 'the image of the program differs')


# The chip that a file simulates.


class Ran:
    """What a run has printed, and what it has written."""

    def __init__(self, status, out, err, log):
        self.status, self.out, self.err, self.log = status, out, err, log

    def __str__(self):
        return f'status {self.status}, {self.out!r}, {self.err!r}, {self.log}'


class Chip:
    """The folder of a chip, what the kernel says about it, and the script that works on it."""

    turns = itertools.count()

    def __init__(self, folder, script, plan):
        self.folder, self.script = folder, script
        shutil.rmtree(folder, ignore_errors=True)
        self.chip, self.root, self.scratch = folder / 'the chip', folder / 'root', folder / 'scratch'
        self.mtd = self.root / 'sys/class/mtd/mtd0'
        for made in (self.chip, self.mtd, self.scratch, self.root / 'proc', self.root / 'sys/class/ubi'):
            made.mkdir(parents=True)
        geometry = plan.geometry
        said = {
            'type': 'nand', 'flags': '0x400', 'numeraseregions': 0, 'name': 'a chip', 'size': len(plan.image),
            'erasesize': geometry.peb, 'writesize': geometry.page, 'subpagesize': plan.sub,
        }
        for name, value in said.items():
            self.say(name, value)
        mounts = 'proc /proc proc rw 0 0', '/dev/mtdblock1 /mnt ext4 rw 0 0', 'mtd1 /a jffs2 rw 0 0'
        (self.root / 'proc/mounts').write_text(''.join(f'{line}\n' for line in mounts))
        (self.root / 'sys/class/ubi/version').write_text('1\n')
        (self.chip / 'blank').write_bytes(b'\xFF' * geometry.peb)
        self.device = self.chip / 'mtd0'
        self.take(plan)
        self.fill(plan.image)

    def take(self, plan):
        """Writes the files of a plan."""
        self.plan = plan
        self.files = {
            'plan': plan.text.encode(), 'pages': plan.pages_of(plan.count), 'dump': plan.image, 'file': plan.file(),
        }
        for name, data in self.files.items():
            self.put(name, data)

    def say(self, name, value):
        (self.mtd / name).write_text(f'{value}\n')

    def put(self, name, data):
        path = self.folder / name
        path.write_bytes(data)
        return path

    def fill(self, image):
        """Puts an image on the chip, with no faults set. Bad eraseblocks hold something else."""
        self.held = self.plan.with_bad(image)
        self.device.write_bytes(self.held)
        self.set('bad', *self.plan.bad)
        self.set('fault', '0 -')
        self.set('mtdinfo', '-')
        for name in ('locked', 'unread', 'flipped', 'log'):
            self.set(name)

    def set(self, name, *lines):
        (self.chip / name).write_text(''.join(f'{line}\n' for line in lines))

    def data(self):
        return self.device.read_bytes()

    def words(self, *options, **others):
        """The words of the script. With neither a dump nor a plan file they have -n."""
        named = {
            'device': self.device, 'plan': self.folder / 'plan', 'pages': self.folder / 'pages',
            'peb': self.plan.geometry.peb, 'page': self.plan.geometry.page,
        } | others
        alone = () if '-d' in options else ('-n',)
        return [*alone, *map(str, options), *map(str, named.values())]

    def file_words(self, *options):
        """The words with a plan file."""
        return [*map(str, options), str(self.device), str(self.folder / 'file')]

    def environment(self):
        """The variables of the script and of the fakes."""
        path = f'{self.folder / "stubs"}:{FAKES}:{os.environ["PATH"]}'
        return {
            **os.environ, 'PATH': path, 'FAKES': str(FAKES), 'FAKE_CHIP': str(self.chip), 'FAKE_DD': REAL_DD,
            'FAKE_PYTHON': sys.executable, 'CARRY_OUT_ROOT': str(self.root), 'TMPDIR': str(self.scratch),
        }

    def start(self, words, shell=None, environment=(), **how):
        shell = shell or SHELLS_THERE[next(self.turns) % len(SHELLS_THERE)]
        variables = {**self.environment(), **dict(environment)}
        how = {'stdout': subprocess.PIPE, 'stderr': subprocess.PIPE, 'stdin': subprocess.DEVNULL} | how
        command = [*SHELLS[shell], self.script, *words]
        return subprocess.Popen(command, cwd=self.folder, env=variables, start_new_session=True, **how)

    def interrupt(self, child, sign, kill):
        """Sends a signal while a slow tool works, which then goes on."""
        wait_for(self.chip / 'reached')
        kill(child.pid, sign)
        (self.chip / 'sent').touch()

    def end(self, child):
        try:
            out, err = child.communicate(timeout=30)
        except subprocess.TimeoutExpired:
            os.killpg(child.pid, signal.SIGKILL)
            raise Failure('it has not ended after 30 seconds') from None
        left = os.listdir(self.scratch)
        expect(not left, f'it leaves {left}')
        log = (self.chip / 'log').read_text().splitlines()
        return Ran(child.returncode, (out or b'').decode(), (err or b'').decode(), log)

    def run(self, *options, **others):
        return self.end(self.start(self.words(*options, **others)))

    def run_file(self, *options):
        return self.end(self.start(self.file_words(*options)))

    def expect(self, ran, status, image, log, err=''):
        """Compares a run with what it has to do: its status, the chip after it, its writes, and its line to standard
        error."""
        expect(ran.status == status, f'not status {status} but {ran}')
        expect(self.data() == self.plan.with_bad(image), f'the chip holds something else: {ran}')
        expect(ran.log == log, f'it writes {ran.log} and not {log}')
        expect(ran.err == '' if err == '' else err in ran.err and ran.err.count('\n') == 1, f'not {err!r} but {ran}')

    def expect_refused(self, line, *options, words=None, start=()):
        """Runs the script, which has to refuse with a line, and to write nothing."""
        before = self.data()
        ran = self.end(self.start(self.words(*options) if words is None else words, **dict(start)))
        expect(ran.status == 2, f'not status 2 but {ran}')
        expect(self.data() == before and not ran.log, f'something was written: {ran}')
        wanted = f'carry_out: .*{re.escape(line)}.*; nothing was written\n'
        expect(re.fullmatch(wanted, ran.err) and not ran.out, f'not {line!r} but {ran}')


SHELLS_THERE = [name for name, words in SHELLS.items() if shutil.which(words[0])]
REAL_DD = shutil.which('dd')


class Cases:
    """The cases: each is a name, and a call that raises Failure if something is wrong."""

    def __init__(self, folder, script, tool):
        self.folder, self.script = folder, script
        self.plans, self.turns = {plan.name: plan for plan in plans()}, itertools.count()
        self.program = Program(tool, folder) if tool else None

    def chip(self, name='peb 8192 used mapped'):
        return Chip(self.folder / 'a chip', self.script, self.plans[name])

    def meaning(self, plan, data):
        return self.program.meaning(plan, data) if self.program else by_rules(plan, data)

    def look(self, plan, data, what):
        """Checks that an image means the old or the new. Returns whether it means the new."""
        old, new, now = (self.meaning(plan, of) for of in (plan.image, plan.after[-1], data))
        expect(old != new and now in (old, new), f'{what}: the chip means neither the old nor the new')
        return now == new

    def all(self):
        for plan in self.plans.values():
            if self.program:
                yield f'plan: {plan.name}', lambda plan=plan: self.program.compare(plan)
        for k, plan in enumerate(self.plans.values()):
            yield f'whole: {plan.name}', lambda plan=plan, k=k: self.whole(plan, by_file=k % 2)
        for plan in map(self.plans.get, STEPPED):
            yield f'steps: {plan.name}', lambda plan=plan: self.one_by_one(plan, by_file=plan.name == STEPPED[1])
            for n in range(1, plan.count + 1):
                for number, line in enumerate(plan.writes(n), 1):
                    ways = list(ERASES if line.startswith('erase') else PROGRAMS)
                    for how in ways if plan.name == STEPPED[0] else ways[n % len(ways) :][: n % 2]:
                        yield (f'fault: {plan.name}, write {number} of step {n}, {how}',
                            lambda plan=plan, n=n, number=number, how=how: self.fault(plan, n, number, how))
        plan = self.plans[STEPPED[0]]
        yield f'steps, by a plan file: {plan.name}', lambda: self.one_by_one(plan, by_file=True)
        for k, (n, line) in enumerate(plan.all_writes()):
            word, number = line.split()[0], 1 + [m for m, _ in plan.all_writes()[:k]].count(n)
            for how in MARKED[word] if k < 2 else ('fail',):
                yield (f'marked: write {number} of step {n}, {how}',
                    lambda n=n, number=number, how=how, k=k: self.marked(plan, n, number, how, k))
        for name, test in (*self.refusals(), *self.refusals_of_files()):
            yield f'refused: {name}', test
        for name, test in vars(Cases).items():
            if name.startswith('try_'):
                yield f'other: {name[4:]}', lambda test=test: test(self)

    # Whole plans, single steps and faults.

    def whole(self, plan, by_file):
        chip = Chip(self.folder / 'a chip', self.script, plan)
        ran = chip.run('-c', '-d', 'dump') if by_file else chip.run_file('-c')
        chip.expect(ran, 0, plan.image, [])
        expect(ran.out == self.checked(chip), f'-c prints {ran.out!r}')
        options = ('-d', 'dump') if 'clean' in plan.name else ()
        self.expect_whole(chip, chip.run_file(*options) if by_file else chip.run(*options))

    def checked(self, chip):
        """The line after all that is looked at."""
        plan = chip.plan
        blocks = len(plan.image) // plan.geometry.peb
        return (f'checked: {chip.device}, {blocks} eraseblocks, {len(plan.bad)} bad; '
                f'{plan.count} steps, {len(plan.pages)} pages\n')

    def expect_whole(self, chip, ran):
        """Compares a run of the whole plan with what it has to print and to do."""
        plan = chip.plan
        chip.expect(ran, 0, plan.after[-1], [line for _, line in plan.all_writes()])
        lines = ran.out.splitlines(True)
        expect(len(lines) == plan.count + 2, f'it prints {ran.out!r}')
        expect(lines[0] == self.checked(chip) and lines[-1] == f'done: {plan.count} steps\n', f'it prints {ran.out!r}')
        for n in range(1, plan.count + 1):
            expect(lines[n].startswith(f'step {n}: {plan.line(n)}: '), f'step {n} prints {lines[n]!r}')
            expect((': has its bytes' in lines[n]) == (not plan.writes(n)), f'step {n} prints {lines[n]!r}')

    def one_by_one(self, plan, by_file):
        """Ends after each step, and goes on with the next. Now and then there are only the pages of the steps up to
        there."""
        chip = Chip(self.folder / 'a chip', self.script, plan)
        meant = []
        for k in range(1, plan.count + 1):
            options = (*(('-s', k) if k > 1 else ()), '-e', k, *(('-d', 'dump') if k % 3 else ()))
            stop = min(plan.count, (k, k + 1, plan.count)[k % 3])
            if by_file:
                chip.put('file', plan.file(stop))
                ran = chip.run_file(*options)
            else:
                chip.put('pages', plan.pages_of(stop if k % 3 != 1 else plan.count))
                ran = chip.run(*options)
            chip.expect(ran, 0, plan.after[k], [line for _, line in plan.all_writes(1, k)])
            ended = f'ended after step {k} of {plan.count}\n' if k < plan.count else f'done: {plan.count} steps\n'
            expect(ran.out.endswith(f'\n{ended}') and ran.out.count('\n') == 3, f'it prints {ran.out!r}')
            meant.append(self.look(plan, plan.after[k], f'cut {k}'))
        expect(meant == sorted(meant) and meant[-1], f'the steps mean the new: {meant}')

    def fault(self, plan, n, number, how):
        """Begins with step N, in which a write goes wrong. If nothing was torn, goes on with the plan."""
        chip = Chip(self.folder / 'a chip', self.script, plan)
        chip.fill(plan.after[n - 1])
        chip.set('fault', f'{number} {how}')
        options = ('-s', n) if n > 1 else ()
        words = chip.file_words(*options) if n % 2 else chip.words(*options, '-d', 'dump')
        ran = chip.end(chip.start(words))
        word, p, *page = plan.steps[n - 1]
        what = (ERASES if word == 'erase' else PROGRAMS)[how]
        named = (rf'carry_out: step {n} of {plan.count} \({plan.line(n)}\) failed: .*{re.escape(what)}.*'
                 rf'\. Steps done: {n - 1}; nothing after it was tried\n')
        expect(ran.status == 1, f'not status 1 but {ran}')
        # if a shell was killed, the shell that started it says so
        lines = ran.err.count('\n') - (how == 'killed'), ran.out.count('\n')
        expect(re.search(named, ran.err) and lines == (1, 1), f'not {what!r} but {ran}')
        expect(ran.log == plan.writes(n)[:number], f'it writes {ran.log} and not {plan.writes(n)[:number]}')
        data, old = bytearray(chip.data()), plan.after[n - 1]
        for bad in plan.bad:
            data[bad * plan.geometry.peb : (bad + 1) * plan.geometry.peb] = b'\xFF' * plan.geometry.peb
        at = p * plan.geometry.peb + (page[0] * plan.geometry.page if page else 0)
        end = at + (plan.geometry.page if page else plan.geometry.peb)
        expect(data[:at] == old[:at] and data[end:] == old[end:], 'another place of the chip has changed')
        self.look(plan, bytes(data), f'{how} at step {n}')
        chip.set('fault', '0 -')
        chip.set('log')
        if how in HARMLESS:
            words = words if n > 1 or data == plan.image else chip.words()
            ran = chip.end(chip.start(['-e', str(n), *words]))
            chip.expect(ran, 0, plan.after[n], plan.writes(n)[number - 1 if word == 'program' else 0 :])
        elif how in ('torn', 'broken', 'flip') and n > 1:
            chip.expect_refused(f'eraseblock {p} ', words=words)

    def marked(self, plan, n, number, how, turn):
        """Begins with step N, in which a write goes wrong, with -m. What nandtest does then goes wrong as well, or not.
        Now and then a new plan is carried out after that."""
        chip = Chip(self.folder / 'a chip', self.script, plan)
        peb, p, writes = plan.geometry.peb, plan.steps[n - 1][1], plan.writes(n)[:number]
        ways = AFTER_FAILURES[how in AT_FAULT]
        for again, (faults, tried, line) in enumerate(ways if how == 'fail' and turn < 2 else [ways[turn % len(ways)]]):
            chip.fill(plan.after[n - 1])
            chip.set('fault', f'{number} {how}', *(f'{number + k} {word}' for k, word in faults.items()))
            options = ('-m', *(('-s', n) if n > 1 else ()))
            words = chip.file_words(*options) if again % 2 else chip.words(*options, '-d', 'dump')
            ran = chip.end(chip.start(words))
            expect(ran.status == 1, f'not status 1 but {ran}')
            failed, *then = [text for text in ran.err.splitlines() if text.startswith('carry_out: ')]
            expect(failed.startswith(f'carry_out: step {n} of {plan.count} ({plan.line(n)}) failed: '), f'{ran}')
            expect(then == [f'carry_out: {text.format(p=p)}' for text in line], f'not {line!r} but {ran}')
            wanted = [*writes, *(text.format(p=p, at=p * peb, peb=peb) for text in tried)]
            expect(ran.log == wanted, f'it writes {ran.log} and not {wanted}')
            data, old = bytearray(chip.data()), plan.with_bad(plan.after[n - 1])
            at, end = p * peb, (p + 1) * peb
            expect(data[:at] == old[:at] and data[end:] == old[end:], 'another place of the chip has changed')
            marks = set((chip.chip / 'bad').read_text().split()) - set(map(str, plan.bad))
            is_marked = f'mark {p}' in ran.log and 'stuck' not in faults.values()
            expect(marks == ({str(p)} if is_marked else set()), f'{marks} are marked')
            if how not in AT_FAULT:
                continue
            is_blank = data[at:end] == b'\xFF' * peb
            expect(marks or 'stuck' in faults.values() or is_blank, 'the eraseblock is not blank')
            # what the kernel reads: nothing of a bad eraseblock
            for bad in (*plan.bad, p):
                data[bad * peb : (bad + 1) * peb] = b'\xFF' * peb
            self.look(plan, bytes(data), f'marked at step {n}')
            if marks and how == 'fail' and not again:
                made = change_of('planned again', plan.geometry, plan.sub, bytes(data), sorted({*plan.bad, p}))
                self.carry_out(Chip(chip.folder, self.script, made), '-d', 'dump')
                chip = Chip(chip.folder, self.script, plan)

    # Refusals.

    def refusals(self):
        """Each refusal: its name, and its test."""
        def of(line, *options, change=None, of_plan='peb 8192 used mapped', start=(), **others):
            def test():
                chip = self.chip(of_plan)
                if change:
                    change(chip)
                chip.expect_refused(line, words=chip.words(*options, **others), start=start)
            return test

        def plan_text(text):
            return lambda chip: chip.put('plan', text if isinstance(text, bytes) else text.encode())

        def with_pages(data):
            return lambda chip: chip.put('pages', data(chip.files['pages']))

        def said(name, value):
            return lambda chip: chip.say(name, value)

        def pipe(name):
            def change(chip):
                (chip.folder / name).unlink()
                os.mkfifo(chip.folder / name)
            return change

        def mount(source):
            mounts = f'proc /proc proc rw 0 0\n{source} /mnt jffs2 ro 0 0\n'
            return lambda chip: (chip.root / 'proc/mounts').write_text(mounts)

        def attach(number):
            def change(chip):
                (chip.root / 'sys/class/ubi/ubi3').mkdir()
                (chip.root / 'sys/class/ubi/ubi3/mtd_num').write_text(f'{number}\n')
            return change

        def byte(p, at=1000):
            """Changes a byte in an eraseblock of the chip."""
            def change(chip):
                data = bytearray(chip.data())
                data[p * chip.plan.geometry.peb + at] ^= 1
                chip.device.write_bytes(data)
            return change

        def foreign(p):
            """Puts something else into an eraseblock of the chip."""
            def change(chip):
                data, peb = bytearray(chip.data()), chip.plan.geometry.peb
                data[p * peb : (p + 1) * peb] = random.Random(p).randbytes(peb)
                chip.device.write_bytes(data)
            return change

        def done(k, *more):
            """Fills the chip with the image after K steps."""
            def change(chip):
                chip.fill(chip.plan.after[k])
                for one in more:
                    one(chip)
            return change

        name = 'peb 8192 used mapped'
        plan = self.plans[name]
        taken, given_up = plan.steps[0][1], plan.steps[-1][1]
        text, lines = plan.text, plan.text.splitlines()
        no_pages = f'not {len(plan.pages)} pages of 2048'
        other = next(p for p in range(10) if p not in (taken, given_up, *plan.bad))

        def first_step(words):
            """Puts other words in the place of the first step of the plan."""
            return plan_text(text.replace(lines[1], words))

        yield 'no plan', of('is no ordinary file', change=lambda chip: (chip.folder / 'plan').unlink())
        yield 'a plan that is a pipe', of('is no ordinary file', change=pipe('plan'))
        yield 'a plan that is a folder', of('is no ordinary file', plan=self.folder)
        yield 'no pages', of('is no ordinary file', change=lambda chip: (chip.folder / 'pages').unlink())
        yield 'pages that are a pipe', of('is no ordinary file', change=pipe('pages'))
        yield 'an empty plan', of('is empty', change=plan_text(''))
        yield 'line ends of DOS', of('line ends of DOS', change=plan_text(text.replace('\n', '\r\n')))
        yield 'a zero byte', of('bytes that no plan has', change=plan_text(text.replace('=', '=\0', 1)))
        yield 'lines after the last step', of(f'has {plan.count + 1} steps, not {plan.count}',
            change=plan_text(text + 'erase block=0\n'))
        yield 'too few lines', of(f'has {plan.count - 1} steps, not {plan.count}',
            change=plan_text('\n'.join(lines[:-1]) + '\n'))
        yield 'an empty line after the last step', of('no step: ', change=plan_text(text + '\n'))
        yield 'the last line cut short', of('was cut short', change=plan_text(text[:-1]))
        yield 'no steps', of('the plan has no steps', change=plan_text('steps 0\n'))
        yield 'no first line', of('line 1 of the plan: not `steps N`', change=plan_text('\n'.join(lines[1:]) + '\n'))
        yield 'lines of volumes alone', of('has no steps', change=plan_text(VOLUMES))
        yield 'a line of a volume behind the steps', of(f'line {plan.count + 2} of the plan: no step',
            change=plan_text(text + 'volume 6 new lebs=0 name=a\n'))
        yield 'a wrong step behind lines of volumes', of('line 4 of the plan: no step',
            change=plan_text(VOLUMES + text.replace(lines[1], 'erase block=x')))
        yield 'line ends of DOS behind lines of volumes', of('line ends of DOS',
            change=plan_text(VOLUMES + text.replace('\n', '\r\n')))
        yield 'a number of steps with a zero', of('line 1 of the plan: not `steps N`',
            change=plan_text('steps 0' + text[6:]))
        for word in ('00', '01', '', 'x', '1x', '0x1', '1 ', '1e0', '1 page=1'):
            yield f'erase block={word}', of('line 2 of the plan: no step', change=first_step(f'erase block={word}'))
        for word in ('-1', '+1', '1;', 'A'):
            yield f'erase block={word}', of('bytes that no plan has', change=first_step(f'erase block={word}'))
        for word in ('10', '2147483649', '4294967296', '4294967297', '18446744073709551617', '9' * 400):
            yield f'eraseblock {word[:30]}', of('the device has 10 eraseblocks',
                change=first_step(f'erase block={word}'))
        for word in ('4', '4294967296', '9' * 400):
            yield f'page {word[:30]}', of('an eraseblock has 4 pages',
                change=plan_text(text.replace(lines[2], f'{lines[2].rpartition("=")[0]}={word}')))
        yield 'a page more', of(no_pages, change=with_pages(lambda data: data + data[:2048]))
        yield 'a byte more', of(no_pages, change=with_pages(lambda data: data + b'x'))
        yield 'a page less', of(no_pages, change=with_pages(lambda data: data[:-2048]))
        yield 'no bytes of pages', of(no_pages, change=with_pages(lambda data: b''))
        yield 'a page less than -e wants', of(no_pages, '-e', 4, change=with_pages(lambda data: data[: 2 * 2048]))
        for word in ('', 'x', '-1', '01', ' 1', '99999999999'):
            yield f'-s {word!r}', of("-s isn't a number", '-s', word)
            yield f'-e {word!r}', of("-e isn't a number", '-e', word)
            yield f'PEB {word!r}', of("PEB isn't a number", peb=word)
            yield f'PAGE {word!r}', of("PAGE isn't a number", page=word)
        yield '-s 0', of('-s 0: steps are counted from 1', '-s', 0)
        yield '-e 0', of('-e 0: steps are counted from 1', '-e', 0)
        yield '-s too large', of(f'the plan has {plan.count} steps', '-s', plan.count + 2)
        yield '-e too large', of(f'the plan has {plan.count} steps', '-e', plan.count + 1)
        yield '-s after -e', of('-s 4 is after -e 2', '-s', 4, '-e', 2)
        yield 'PAGE 0', of('a page has no bytes', page=0)
        yield 'PEB 0', of('an eraseblock has no bytes', peb=0)
        yield 'pages that are no part of an eraseblock', of("isn't whole pages", peb=8193)
        yield 'eraseblocks of another size', of('has 8192 bytes, not 4096', peb=4096)
        yield 'pages of another size', of('has 2048 bytes, not 1024', page=1024)
        yield 'no device', of('nowhere', device='/nowhere/mtd0')
        yield 'a device of another name', of("isn't named as /dev/mtd0", device='/dev/null')
        yield 'a device for reading only', of("isn't named as /dev/mtd0",
            change=lambda chip: (chip.chip / 'mtd0ro').write_bytes(b''), device=self.folder / 'a chip/the chip/mtd0ro')
        yield 'a file', of('is no character device', start={'environment': {'CARRY_OUT_ROOT': ''}})
        yield 'a device that the kernel does not know', of("mtd1/type can't be read",
            change=lambda chip: (chip.chip / 'mtd1').write_bytes(b''), device=self.folder / 'a chip/the chip/mtd1')
        for word in ('nor', 'mlc-nand', 'ubi', ''):
            yield f'flash of type {word!r}', of(f'is of type {word}, not nand', change=said('type', word))
        yield 'a device that is read only', of('is read only', change=said('flags', '0x0'))
        yield 'a device with other flags', of('is read only', change=said('flags', '0x800'))
        yield 'flags that are none', of("/flags says 'x'", change=said('flags', 'x'))
        yield 'eraseblocks of several sizes', of('eraseblocks of several sizes', change=said('numeraseregions', 2))
        yield 'no size of a sub-page', of('subpagesize', change=lambda chip: (chip.mtd / 'subpagesize').unlink())
        yield 'sub-pages of no bytes', of('has no bytes', change=said('subpagesize', 0))
        yield 'sub-pages that are no part of a page', of("isn't whole sub-pages", change=said('subpagesize', 600))
        yield 'a size that is none', of("/size says ''", change=said('size', ''))
        yield 'attached', of('UBI has', change=attach(0))
        for source in ('/dev/mtdblock0', 'mtd0', 'mtd:a\\040chip'):
            yield f'mounted as {source}', of('is mounted', change=mount(source))
        yield 'no list of mounts', of("mounts can't be read", change=lambda chip: (chip.root / 'proc/mounts').unlink())
        faults = {
            'fail': 'mtdinfo -M', 'blind': 'could not read bad block info', 'short': "doesn't show 10 eraseblocks",
            'other': "isn't mtd0, says mtdinfo",
        }
        for word, line in faults.items():
            yield f'mtdinfo: {word}', of(line, change=lambda chip, word=word: chip.set('mtdinfo', word))
        for p in (taken, given_up):
            yield f'eraseblock {p} is bad', of(f'the plan names eraseblock {p}, which is BAD',
                change=lambda chip, p=p: chip.set('bad', p))
            yield f'eraseblock {p} is locked', of(f'the plan names eraseblock {p}, which is RO',
                change=lambda chip, p=p: chip.set('locked', p))
        yield 'no dump', of('is no ordinary file', '-d', 'nowhere')
        yield '-d without a name', of('-d has no file', '-d', '')
        yield 'a dump that is a pipe', of('is no ordinary file', '-d', 'dump', change=pipe('dump'))
        yield 'a dump without bad eraseblocks', of('take the dump with --bb=padbad', '-d', 'dump',
            change=lambda chip: chip.put('dump', plan.image[: -2 * 8192]))
        yield 'a dump with what bad eraseblocks hold', of(f'eraseblock {plan.bad[0]} is bad', '-d', 'dump',
            change=lambda chip: chip.put('dump', plan.with_bad(plan.image)))
        for p in range(10):
            if p not in plan.bad:
                yield f'another byte in eraseblock {p}', of(f"eraseblock {p} of", '-d', 'dump', change=byte(p))
        yield 'a dump that is longer than the device', of('it is the dump of another device', '-d', 'dump',
            change=lambda chip: chip.put('dump', plan.image + b'\xFF' * 8192))
        yield 'a dump that is a byte longer', of('it is the dump of another device', '-d', 'dump',
            change=lambda chip: chip.put('dump', plan.image + b'\xFF'))
        yield 'bits of the dump that ECC cannot correct', of('uncorrectable', '-d', 'dump',
            change=lambda chip: chip.set('unread', other * 4 + 1))
        for k in (1, 2, 3):
            yield f'begun up to step {k}, with the dump', of('take a new dump' if k == 1 else 'has been begun already',
                '-d', 'dump', change=done(k))
        for k in range(2, plan.count + 1):
            yield f'begun up to step {k}, without it', of('has been begun already', change=done(k))
        yield 'begun, and the first page not blank', of('has been begun already',
            change=done(1), of_plan='peb 512 clean mapped')
        unused = self.plans['peb 512 clean mapped']
        yield 'a page that is not blank', of("that it can't keep",
            change=byte(unused.steps[1][1], 128), of_plan='peb 512 clean mapped')
        yield 'a sub-page that is not blank', of("that it can't keep",
            change=byte(self.plans['peb 8192 clean mapped'].steps[0][1], 600), of_plan='peb 8192 clean mapped')
        yield 'a page that cannot be read', of("can't be read: ECC: 1 uncorrectable", of_plan='peb 512 clean mapped',
            change=lambda chip: chip.set('unread', unused.steps[1][1] * 8 + unused.steps[1][2]))
        for k in range(1, plan.count):
            if plan.writes(k + 1):
                yield f'-s {k + 2} after step {k}', of("isn't as the steps before step",
                    '-s', k + 2, *(('-d', 'dump') if k % 2 else ()), change=done(k))
        yield 'a plan that is not finished', of("isn't as the steps before step",
            '-s', plan.count + 1, change=done(plan.count - 1))
        yield 'continued, and another byte elsewhere', of(f'eraseblock {other} of',
            '-s', 3, '-d', 'dump', change=done(2, byte(other)))
        yield 'continued, and another byte where a later step is', of(f'eraseblock {given_up} of',
            '-s', 3, '-d', 'dump', change=done(2, byte(given_up)))
        yield 'continued, and another byte where a step was', of(f'eraseblock {taken} of',
            '-s', 3, change=done(2, byte(taken, 0)))
        yield 'continued, and another byte where steps have erased', of(f'eraseblock {taken} of',
            '-s', 4, '-d', 'dump', change=done(3, byte(taken, 8191)))
        yield "continued with an erase of an eraseblock that isn't the dump's", of(f'eraseblock {given_up} of',
            '-s', plan.count - 1, '-d', 'dump', change=done(plan.count - 2, byte(given_up)))
        yield 'page 0 programmed twice without sub-pages', of('which needs sub-pages', change=said('subpagesize', 2048))
        for p in (taken, given_up):
            yield f"eraseblock {p} isn't UBI's", of(f'eraseblock {p} of', change=foreign(p))
            yield f'eraseblock {p} begins with bits that ECC cannot correct', of(
                f"page 0 of eraseblock {p} of", change=lambda chip, p=p: chip.set('unread', p * 4))
        yield 'a header that is not there', of('has no header, and step 1 programs page 1',
            change=lambda chip: chip.device.write_bytes(without_header(chip.data(), SIZES[0][0], unused.steps[0][1])),
            of_plan='peb 512 clean mapped')
        yield 'continued, and an eraseblock that a later step erases is not UBI\'s', of(
            f'eraseblock {given_up} of', '-s', 3, change=done(2, foreign(given_up)))
        yield 'continued with the erase of an eraseblock that is not UBI\'s', of(f'eraseblock {given_up} of',
            '-s', plan.count - 1, change=done(plan.count - 2, foreign(given_up)))
        yield 'no folder for scratch files', of('no folder for scratch files',
            start={'environment': {'TMPDIR': '/nowhere'}})
        yield 'a nanddump that is too old', of('no --bb=dumpbad', change=lambda chip: stub(chip, 'nanddump'))
        yield 'a flash_erase that is too old', of('has no -N', change=lambda chip: stub(chip, 'flash_erase'))

    def refusals_of_files(self):
        """Each refusal of a plan file: its name, and its test."""
        name = 'peb 8192 used mapped'
        plan = self.plans[name]
        geometry, pages, count = plan.geometry, plan.pages_of(plan.count), plan.count
        lines = plan.file()[: -len(pages)].decode().splitlines()
        headers = range(1 + count, len(lines))
        peb, vid, taken, given_up = geometry.peb, geometry.vid, plan.steps[0][1], plan.steps[-1][1]
        other = next(p for p in range(10) if p not in (taken, given_up, *plan.bad))

        def of(line, data=None, *options, change=None, of_plan=name):
            def test():
                chip = self.chip(of_plan)
                if data is not None:
                    chip.put('file', data)
                if change:
                    change(chip)
                chip.expect_refused(line, words=chip.file_words(*options))
            return test

        def joined(changed, more=b''):
            return ''.join(f'{line}\n' for line in changed).encode() + pages + more

        def with_line(k, line):
            return joined([*lines[:k], line, *lines[k + 1 :]])

        def with_headers(changed):
            """Other lines of eraseblocks, and their number in the first line."""
            first = lines[0].replace('touched=2', f'touched={len(changed)}')
            return joined([first, *lines[1 : 1 + count], *changed])

        def flipped(p, at, done=0):
            """Changes a bit of an eraseblock of the chip, as some steps leave it."""
            def change(chip):
                data = bytearray(plan.after[done])
                data[p * peb + at] ^= 1
                chip.fill(bytes(data))
            return change

        def pipe(chip):
            (chip.folder / 'file').unlink()
            os.mkfifo(chip.folder / 'file')

        yield 'no plan file', of('is no ordinary file', change=lambda chip: (chip.folder / 'file').unlink())
        yield 'a plan file that is a pipe', of('is no ordinary file', change=pipe)
        for what, data in (('empty', b''), ('a plan', plan.text.encode()), ('pages', pages), ('a dump', plan.image)):
            yield f'a plan file that is {what}', of('is no plan file', data)
        for version in ('2', '0', '10', '01'):
            yield f'a plan file of version {version}', of('is of another version: take the carry_out.sh of the program '
                'that made it', plan.file(plan=version))
        first = lines[0].split()
        values = {
            '': 'line 1 of the plan: not', 'x': 'line 1 of the plan: not', '-1': 'bytes that no plan has',
            '01': "isn't a number: '01'", '9' * 11: f"isn't a number: '{'9' * 11}'",
        }
        for k in range(2, len(first)):
            before, word, behind = first[:k], first[k], first[k + 1 :]
            for changed in (before + behind, before + [word, word] + behind, [*before[:-1], word, before[-1], *behind]):
                line = 'line 1 of the plan: not' if changed[1] == '1' else 'is no plan file'
                yield f'a plan file with {" ".join(changed)}', of(line, joined([' '.join(changed), *lines[1:]]))
            for value in list(values)[k % 4 :][:2]:
                name_of = word.partition('=')[0]
                yield f'a plan file with {name_of}={value}', of(values[value], plan.file(**{name_of: value}))
        yield 'a plan file whose first line goes on', of('line 1 of the plan: not',
            joined([f'{lines[0]} more=1', *lines[1:]]))
        for wrong, line in (({'peb': 4096}, 'has 8192 bytes, not 4096'), ({'page': 1024}, 'has 2048 bytes, not 1024'),
                            ({'page': 3000}, "isn't whole pages of 3000"), ({'page': 0}, 'a page has no bytes'),
                            ({'vid': 500}, 'header at byte 500'), ({'vid': 0}, 'header at byte 0'),
                            ({'vid': 1985}, 'header at byte 1985'), ({'vid': 2048}, 'header at byte 2048'),
                            ({'data': 8192}, 'contents at 8192'), ({'data': 512}, 'contents at 512'),
                            ({'data': 3000}, 'contents at 3000')):
            yield f'a plan file with {wrong}', of(line, plan.file(**wrong))
        for n, line in ((9, 'take the dump with --bb=padbad'), (11, 'it is the dump of another device'),
                        (0, 'take the dump with --bb=padbad')):
            yield f'a plan file of {n} eraseblocks', of(f'the plan is of a dump of {n} eraseblocks, and {{}} has 10: '
                f'{line}'.format(self.folder / 'a chip/the chip/mtd0'), plan.file(blocks=n))
        yield 'a plan file of more eraseblocks than the device has', of('it is the dump of another device',
            plan.file(blocks=11), '-d', 'dump')
        others = {
            'steps': ((0, 'the plan has no steps'), (count + 1, 'bytes that no plan has'),
                (9999999999, 'it was cut short'), (count - 1, 'something follows its pages')),
            'touched': ((3, 'bytes that no plan has'), (1, 'something follows its pages'),
                (9999999999, 'it was cut short')),
            'pages': ((len(plan.pages) + 1, 'it was cut short'), (len(plan.pages) - 1, 'something follows its pages'),
                (0, 'something follows its pages'), (9999999999, 'it was cut short')),
        }
        for word, wrongs in others.items():
            for value, line in wrongs:
                yield f'a plan file with another number of {word}, {value}', of(line, plan.file(**{word: value}))
        yield 'a plan file with a step too few and a line of headers too many', of(f'line {count + 1} of the plan: not '
            '`block=P ec=HEX vid=HEX` with 128 digits each', plan.file(steps=count - 1, touched=3))
        yield 'a plan file with a step too many and a line of headers too few', of(
            f'line {count + 2} of the plan: no step', plan.file(steps=count + 1, touched=1))
        yield 'a plan file with a page too many', of(f'has {len(plan.pages) + 1} pages, and programs {len(plan.pages)}',
            plan.file(pages=len(plan.pages) + 1) + bytes(2048))
        yield 'a plan file of --stop', of('the pages of its first steps alone', plan.file(stop=count - 1))
        yield 'a plan file of --stop, and -e behind that', of('the pages of its first steps alone',
            plan.file(stop=3), '-e', 4)
        yield 'a plan file with a byte more', of('something follows its pages', joined(lines, b'x'))
        yield 'a plan file twice', of('something follows its pages', joined(lines) * 2)
        of_small = self.plans['peb 512 clean mapped']
        small, text = of_small.file(), len(of_small.file()) - len(of_small.pages_of(of_small.count))
        ends = [k + 1 for k in range(text) if small[k] == 10]
        for cut in sorted({5, 7, 40, *(end + k for end in ends for k in (-1, 0)), len(small) - 64, len(small) - 1}):
            line = {5: 'is no plan file', 7: 'line 1 of the plan: not', 40: 'line 1 of the plan: not'}
            line = line.get(cut, 'it was cut short')
            yield f'a plan file cut to {cut} bytes', of(line, small[:cut], of_plan=of_small.name)
        for k, line in ((0, lines[0]), (2, lines[2]), (len(lines) - 1, lines[-1])):
            yield f'a plan file with a line end of DOS in line {k + 1}', of('line ends of DOS',
                with_line(k, line + '\r'))
        yield 'a plan file with a zero byte', of('bytes that no plan has', with_line(2, lines[2] + '\0'))
        yield 'a plan file with a wrong step', of('line 2 of the plan: no step', with_line(1, 'erase block=x'))
        yield 'a plan file with an eraseblock too far', of('the dump has 10 eraseblocks',
            with_line(1, 'erase block=10'))
        last = max(step[1] for step in plan.steps)
        yield 'a plan file of a part, with an eraseblock behind it', of(f'the dump has {last} eraseblocks',
            plan.file(blocks=last), '-d', 'dump')
        low, high = (lines[k] for k in headers)
        named = [line.split()[0][6:] for line in (low, high)]
        missing = "a step touches eraseblock {}, and its headers are missing"
        for what, changed, k, line in (
            ('without the first headers', [high], 0, missing.format(named[0])),
            ('without the last headers', [low], 1, missing.format(named[1])),
            ('without headers', [], 0, missing.format(named[0])),
            ('with headers twice', [low, low, high], 1, f'eraseblock {named[0]} stands after {named[0]}'),
            ('with the last headers twice', [low, high, high], 2, f'eraseblock {named[1]} stands after {named[1]}'),
            ('with headers that fall', [high, low], 0, missing.format(named[0])),
            ('with headers that nothing touches', [low.replace(named[0], '0', 1), low, high], 0,
                'no step touches eraseblock 0'),
            ('with headers behind the last', [low, high, high.replace(named[1], '9' * 30, 1)], 2,
                f'no step touches eraseblock {"9" * 30}'),
            ('with headers of another eraseblock', [low, high.replace(named[1], '9', 1)], 1, missing.format(named[1])),
        ):
            yield f'a plan file {what}', of(f'line {count + 2 + k} of the plan: {line}', with_headers(changed))
        for what, changed in (('a zero before', low.replace('=', '=0', 1)), ('too few digits', low[:-1]),
                ('too many digits', low + '0'), ('a letter', low[:-1] + 'g'),
                ('no second header', low.rpartition(' ')[0]), ('two blanks', low.replace(' ', '  ', 1)),
                ('a digit too many in the first', f'{low[:-133]}0 vid={low[-127:]}'),
                ('a digit too few in the first', f'{low[:-134]} vid=0{low[-128:]}')):
            yield f'a plan file, headers with {what}', of(f'line {count + 2} of the plan: not `block=P ec=HEX',
                with_headers([changed, high]))
        yield 'a plan file, headers in capitals', of('bytes that no plan has', with_headers([low, high.upper()]))
        # what the chip holds
        line = "eraseblock {} of {} isn't that of the plan: take a new dump and plan again"
        device = self.folder / 'a chip/the chip/mtd0'
        for p, at in itertools.product((taken, given_up), (0, 63, vid, vid + 63)):
            yield f'other headers, byte {at} of eraseblock {p}', of(line.format(p, device), change=flipped(p, at))
            if p == given_up:
                yield f'continued, and other headers, byte {at}', of(line.format(p, device), None, '-s', 3,
                    change=flipped(p, at, 2))
                yield f'continued with the erase, and other headers, byte {at}', of(f'eraseblock {p} of', None, '-s',
                    count - 1, change=flipped(p, at, count - 2))
        for k in headers:
            for at in (lines[k].index('ec=') + 3, lines[k].index(' vid='), lines[k].index('vid=') + 4, len(lines[k])):
                at -= at in (lines[k].index(' vid='), len(lines[k]))
                digit = '0' if lines[k][at] != '0' else '1'
                yield f'another digit at {at} of line {k + 1}', of(line.format(named[k - count - 1], device),
                    with_line(k, lines[k][:at] + digit + lines[k][at + 1 :]))
        yield 'an erased eraseblock', of(line.format(given_up, device),
            change=lambda chip: chip.fill(rules.after(geometry, plan.image, [('erase', given_up)])))
        yield 'begun with an erase, by a plan file', of(line.format(taken, device),
            change=lambda chip: chip.fill(plan.after[1]))
        for k in range(2, count + 1):
            yield f'begun up to step {k}, by a plan file', of('has been begun already',
                change=lambda chip, k=k: chip.fill(plan.after[k]))
        for k in range(1, count):
            if plan.writes(k + 1):
                yield f'-s {k + 2} after step {k}, by a plan file', of("isn't as the steps before step", None,
                    '-s', k + 2, change=lambda chip, k=k: chip.fill(plan.after[k]))
        for p, page in itertools.product((taken, given_up), (0, 1, 3)):
            unread = (lambda chip, at=p * 4 + page: chip.set('unread', at))
            for options in ((), ('-u',), ('-u', '-d', 'dump')):
                yield f'page {page} of eraseblock {p} cannot be read, by a plan file {options}', of(
                    f"eraseblock {p} of {device} can't be read, and the plan touches it: ECC: 1 uncorrectable", None,
                    *options, change=unread)
        for p in (taken, given_up):
            yield f'eraseblock {p} is bad, by a plan file', of(f'the plan names eraseblock {p}, which is BAD: it went '
                "bad since the dump, or wasn't listed with --bad", change=lambda chip, p=p: chip.set('bad', p))
        yield 'a plan file, and another byte elsewhere', of(f"eraseblock {other} of {device} isn't that of dump", None,
            '-d', 'dump', change=flipped(other, 1000))
        image = image_of(dataclasses.replace(geometry, pebs=31), LAYOUTS['used'])
        sister = change_of('sister', geometry, plan.sub, image, plan.bad)
        yield 'the plan file of a sister chip', of(line.format(given_up, device), sister.file())
        renamed = self.plans['peb 8192 used rename']
        yield 'the plan file of an older dump', of("isn't that of the plan",
            change=lambda chip: chip.fill(renamed.after[-1]))
        unused = self.plans['peb 8192 clean mapped']
        place = unused.steps[0][1]
        image = unused.image[: place * peb] + rules.put_ec(geometry, 99, 7) + unused.image[place * peb + 64 :]
        sister = change_of('sister', geometry, plan.sub, image, unused.bad)
        yield 'a plan file with the pages of a sister chip', of(f'finds bytes in page 0 of eraseblock {place}',
            unused.file(stop=0, pages=len(unused.pages)) + sister.pages_of(sister.count), of_plan=unused.name)
        yield '-n and a plan file', of('-n compares nothing', None, '-n')
        # what the plan is compared with
        for options, line in (((), 'or -n to compare nothing'), (('-n', '-d', 'dump'), '-n compares nothing'),
                              (('-m', '-n'), 'give -d DUMP, not -n'), (('-u',), 'or -n to compare nothing'),
                              (('-s', '2'), 'or -n to compare nothing')):
            yield f'options {options}', lambda options=options, line=line: self.expect_options(line, *options)

    def expect_options(self, line, *options):
        """Refuses a plan with these options alone."""
        chip = self.chip()
        chip.expect_refused(line, words=[*options, *chip.words('-d', 'dump')[2:]])

    # The anchor of a fastmap, a boot loader, and eraseblocks with large numbers.

    def made(self, layout, of=None, which=0, before=0, bad=(), change=None):
        """A chip with an image of a layout, and a plan for it."""
        geometry, sub = SIZES[which]
        geometry = dataclasses.replace(geometry, pebs=8192)
        data = image_of(geometry, layout)
        data = change(data, geometry) if change else data
        plan = (of or change_of)(layout, geometry, sub, data, bad, before=before)
        return Chip(self.folder / 'a chip', self.script, plan)

    def carry_out(self, chip, *options, erased=False):
        """Carries the whole plan out, in turn by a plan file, after which the chip means the new. ERASED: it has erased
        the anchor of a fastmap, and says so."""
        plan = chip.plan
        ran = chip.run_file(*options) if next(self.turns) % 2 else chip.run(*options)
        chip.expect(ran, 0, plan.after[-1], [line for _, line in plan.all_writes()])
        self.expect_fastmap(chip, ran, erased)
        expect(self.look(plan, plan.after[-1], 'done'), 'the chip means the old')

    def expect_fastmap(self, chip, ran, erased):
        """The line before the last says that there is no fastmap, if its anchor was erased."""
        line = f'{chip.device} has no fastmap now, until a kernel that writes one detaches it'
        expect((line in ran.out.splitlines()[-2:-1]) == erased == ('fastmap' in ran.out), f'it prints {ran.out!r}')

    def expect_anchor(self, chip, p, *options):
        peb = chip.plan.geometry.peb
        line = (f"eraseblock {p} of {chip.device} holds the anchor of a fastmap, and the plan doesn't erase it before "
                f'all else: erase it (flash_erase -N {chip.device} {p * peb} 1), take a new dump, and plan again')
        in_turn = chip.words(*options), chip.file_words(*options)
        for words in in_turn if len(chip.plan.image) < 32 * peb else in_turn[next(self.turns) % 2 :][:1]:
            chip.expect_refused(line, words=words)

    def try_lines_of_volumes(self):
        """The lines of the volumes that `update` writes stand before the steps, and say nothing to the script."""
        for name in STEPPED:
            chip = self.chip(name)
            plan = chip.plan
            chip.put('plan', (VOLUMES + plan.text).encode())
            ran = chip.run('-d', 'dump')
            chip.expect(ran, 0, plan.after[-1], [line for _, line in plan.all_writes()])
            expect(f'{plan.count} steps' in ran.out, f'it prints {ran.out!r}')

    def try_anchors_that_stay(self):
        for which, p, options in ((0, 5, ()), (1, 6, ('-d', 'dump')), (2, 7, ()), (2, 0, ())):
            words = f'{FULL} clean clean'.split()
            words.insert(p, 'anchor')
            self.expect_anchor(self.made(' '.join(words), which=which), p, *options)

    def try_anchors_without_a_magic(self):
        """An anchor counts even if its first header is damaged, or if its bits can't be corrected."""
        for which in range(len(SIZES)):
            words = {'change': lambda data, geometry: without_magic(data, geometry, 0), 'which': which}
            self.expect_anchor(self.made(f'anchor {FULL} clean', **words), 0)
        for pages in ((0,), (1,), (0, 1)):
            chip = self.made(f'anchor {FULL} clean', which=2)
            chip.set('unread', *pages)
            self.expect_anchor(chip, 0)

    def try_anchors_that_are_erased(self):
        """The plan erases the anchor by its first step, and may be cut there."""
        for which in range(len(SIZES)):
            options = ('-d', 'dump') if which else ()
            self.carry_out(self.made(f'{FULL} anchor free', which=which), *options, erased=True)
        chip = self.made(f'{FULL} anchor free')
        plan = chip.plan
        expect(plan.steps[0] == ('erase', 5), f'the plan begins with {plan.steps[0]}')
        for by_file in (False, True):
            chip.fill(plan.image)
            for first, last in ((1, 1), (2, plan.count - 1), (plan.count, plan.count)):
                chip.set('log')
                options = ('-s', first, '-e', last, *(('-d', 'dump') if first > 2 else ()))
                ran = chip.run_file(*options) if by_file else chip.run(*options)
                chip.expect(ran, 0, plan.after[last], [line for _, line in plan.all_writes(first, last)])
                # without the dump nothing shows what an eraseblock was that is erased
                self.expect_fastmap(chip, ran, by_file or first != 2)

    def try_one_of_two_anchors(self):
        """As long as one is left there may be a fastmap."""
        made = self.made(f'{FULL} anchor anchor').plan
        steps = rules.Plan(rules.Image(made.geometry, made.image))
        steps.renew(5)
        steps.renew(6)
        plan = Plan('both', made.geometry, made.sub, made.image, steps, ())
        chip = Chip(self.folder / 'a chip', self.script, plan)
        for last, erased in ((1, False), (2, False), (3, True), (4, True)):
            chip.fill(plan.image)
            ran = chip.run_file('-e', last) if last % 2 else chip.run('-e', last)
            chip.expect(ran, 0, plan.after[last], [line for _, line in plan.all_writes(1, last)])
            self.expect_fastmap(chip, ran, erased)

    def try_anchors_that_are_erased_late(self):
        """Something is written before the last anchor is erased. A cut in between would leave it."""
        self.expect_anchor(self.made(f'{FULL} free anchor', rename_of), 6)
        self.expect_anchor(self.made(f'{FULL} anchor anchor', rename_of), 6, '-d', 'dump')
        self.expect_anchor(self.made(f'{FULL} anchor anchor free'), 6)
        chip = self.made(f'{FULL} free anchor', rename_of)
        chip.fill(chip.plan.after[2])
        self.expect_anchor(chip, 6, '-s', 3, '-d', 'dump')
        # what an earlier step has erased has got another anchor since then
        chip = self.made(f'{FULL} anchor free')
        chip.fill(chip.plan.image)
        self.expect_anchor(chip, 5, '-s', 2)

    def try_anchors_that_are_none(self):
        """The rest of a fastmap, one whose first header is blank, what a bad eraseblock holds, and what lies behind the
        first 64 eraseblocks."""
        self.carry_out(self.made(f'{FULL} fastmap clean', which=1))
        blank = {'change': lambda data, geometry: without_header(data, geometry, 5)}
        self.carry_out(self.made(f'{FULL} anchor clean', which=1, **blank))
        chip = self.made(f'{FULL} bad clean', bad=(5,))
        peb = chip.plan.geometry.peb
        anchor = image_of(chip.plan.geometry, 'anchor')
        chip.device.write_bytes(chip.plan.image[: 5 * peb] + anchor + chip.plan.image[6 * peb :])
        ran = chip.run('-d', 'dump')
        wanted = chip.plan.after[-1][: 5 * peb] + anchor + chip.plan.after[-1][6 * peb :]
        expect(ran.status == 0 and chip.data() == wanted, f'{ran}')
        self.expect_anchor(self.made(f'{FULL}{" clean" * 58} anchor'), 63)
        self.carry_out(self.made(f'{FULL}{" clean" * 59} anchor'))

    def try_anchors_behind_a_boot_loader(self):
        """The 64 eraseblocks are counted from the first header on."""
        self.expect_anchor(self.made(f'{BOOT} {FULL}{" clean" * 58} anchor', before=5), 68)
        self.carry_out(self.made(f'{BOOT} {FULL}{" clean" * 59} anchor', before=5))
        self.expect_anchor(self.made(f'{"boot " * 66} {FULL} clean anchor', before=66), 72)

    def try_the_way_out(self):
        """What a refusal of an anchor says is done, and the new plan is carried out."""
        chip = self.made(f'{FULL} clean anchor', rename_of, which=1)
        plan = chip.plan
        ran = chip.run()
        said = re.search(rf'\(flash_erase -N {re.escape(str(chip.device))} (\d+) 1\)', ran.err)
        expect(said, f'{ran}')
        words = [FAKES / 'flash_erase', '-N', chip.device, said[1], '1']
        done = subprocess.run(words, env=chip.environment(), capture_output=True)
        expect((done.returncode, done.stderr) == (0, b''), f'{done}')
        image = chip.data()
        at = 6 * plan.geometry.peb
        expect(image == plan.image[:at] + b'\xFF' * plan.geometry.peb, 'something else was erased')
        chip = Chip(chip.folder, self.script, rename_of('again', plan.geometry, plan.sub, image))
        self.carry_out(chip, '-d', 'dump')

    def try_a_part_that_was_cut_off(self):
        """The plan of a part, which counts from the beginning of the part, on the whole chip."""
        for geometry, sub in SIZES:
            whole = image_of(geometry, f'{BOOT} boot boot {LAYOUTS["used"]}')
            for of in (change_of, rename_of):
                cut = of('cut off', geometry, sub, whole[7 * geometry.peb :], (7, 9))
                chip = Chip(self.folder / 'a chip', self.script, of('whole', geometry, sub, whole, (14, 16), 7))
                chip.put('plan', cut.text.encode())
                chip.put('pages', cut.pages_of(cut.count))
                chip.put('cut off', cut.image)
                chip.expect_refused('take the dump with --bb=padbad', '-d', 'cut off')
                line = f"eraseblock {cut.steps[0][1]} of {chip.device} has no header of UBI, and isn't blank"
                for options in ((), ('-d', 'dump')):
                    chip.expect_refused(line, *options)
                chip.put('file', cut.file())
                whole_blocks, blocks = (len(image) // geometry.peb for image in (whole, cut.image))
                said = f'the plan is of a dump of {blocks} eraseblocks, and {chip.device} has {whole_blocks}'
                chip.expect_refused(f'{said}: take the dump with --bb=padbad', words=chip.file_words())
                first = min(step[1] for step in cut.steps)
                chip.expect_refused(f"eraseblock {first} of {chip.device} isn't that of the plan",
                    words=chip.file_words('-d', 'dump'))
        # a part of the whole chip's dump
        chip.put('file', chip.plan.file(blocks=whole_blocks - 1))
        self.expect_whole(chip, chip.run_file('-d', 'dump'))

    def try_a_chain(self):
        """A plan that is made from the image after another one, which is then in the place of a dump."""
        chip = self.chip()
        for of in (rename_of, change_of, None):
            plan = chip.plan
            chip.set('log')
            chip.expect(chip.run('-d', 'dump'), 0, plan.after[-1], [line for _, line in plan.all_writes()])
            if of:
                chip.take(of('in a chain', plan.geometry, plan.sub, plan.after[-1], plan.bad))

    def try_a_part_at_an_odd_place(self):
        """The program plans nothing for a part that doesn't begin with an eraseblock of the file."""
        if not self.program:
            return
        plan = self.plans['boot loader, peb 512 mapped']
        for name, data in plan.files.items():
            self.program.put(name, data)
        (self.program.folder / 'pages').unlink(missing_ok=True)
        self.program.put('dump.img', b'x' * 64 + plan.image)
        command, *rest = plan.words
        words = [command, 'dump.img', *rest, '--out', 'out.img', '--pages', 'pages', *plan.geometry.words()]
        ran = self.program.run(*words, '--bad', '12,14', '--start', str(5 * 512 + 64))
        expect(ran == ('refused F11 Start peb=512 rest=64\n', 1), f'the program answers {ran}')
        expect(not (self.program.folder / 'pages').exists(), 'pages are written')

    def try_large_numbers(self):
        """Bad eraseblocks with numbers of 4,096 and more."""
        bad = 999, 4096, 4098, 4100
        chip = self.made(f'table0 leb0 static table1 {"blank " * 4092} bad leb1 bad clean bad clean', bad=bad)
        touched = {step[1] for step in chip.plan.steps}
        expect(touched == {4097, 4099}, f'the plan names {touched}')
        for p in sorted(touched):
            chip.set('bad', *bad, p)
            chip.expect_refused(f'the plan names eraseblock {p}, which is BAD', '-d', 'dump')
        chip.set('bad', bad[0], *bad[2:])
        chip.expect_refused(f'eraseblock {bad[1]} of', '-d', 'dump')
        chip.set('bad', *bad, 4101)
        chip.expect_refused(f'eraseblock 4101 is bad, and dump has a header of UBI there', '-d', 'dump')
        chip.fill(chip.plan.image)
        ran = chip.run_file('-d', 'dump')
        chip.expect(ran, 0, chip.plan.after[-1], [line for _, line in chip.plan.all_writes()])
        expect(ran.out.startswith(f'checked: {chip.device}, 4102 eraseblocks, 4 bad; '), f'it prints {ran.out!r}')

    # Others.

    def try_wrong_words(self):
        chip = self.chip()
        right = chip.words()
        file = chip.file_words()
        for words in ((), ('-h',), ('--help',), ('-x', *right), right[:-1], (*right, 'more'), ('-d',), ('-s',), ('-m',),
                      file[:1], (*file, 'more')):
            ran = chip.end(chip.start(list(words)))
            is_usage = '\nExit status: 0 done' in ran.err and ran.err.rstrip().endswith("busybox's.")
            is_usage = is_usage and re.search(r'^(carry_out\.sh \[.*\n){2}\n', ran.err, re.M)
            expect(ran.status == 2 and is_usage and not ran.out, f'{words} give {ran}')
            expect(chip.data() == chip.held and not ran.log, f'{words} write something')

    def try_links_and_blanks(self):
        """A device by a link, and names that begin with a hyphen, have blanks or look like something else."""
        for shell in SHELLS_THERE[:1]:
            chip = self.chip()
            (chip.folder / 'a link').symlink_to(chip.device)
            for name in ('dump', 'plan', 'pages', 'file'):
                (chip.folder / name).rename(chip.folder / f'-e a=b *{name}')
            words = chip.words('-d', '-e a=b *dump', device='a link', plan='-e a=b *plan', pages='-e a=b *pages')
            # after -- they are no options
            ran = chip.end(chip.start([*words[:2], '--', *words[2:]], shell))
            chip.expect(ran, 0, chip.plan.after[-1], [line for _, line in chip.plan.all_writes()])
            chip.fill(chip.plan.image)
            ran = chip.end(chip.start(['--', 'a link', '-e a=b *file'], shell))
            chip.expect(ran, 0, chip.plan.after[-1], [line for _, line in chip.plan.all_writes()])

    def try_each_shell(self):
        for shell in SHELLS_THERE:
            chip = self.chip('spare change')
            ran = chip.end(chip.start(chip.file_words('-d', 'dump'), shell))
            chip.expect(ran, 0, chip.plan.after[-1], [line for _, line in chip.plan.all_writes()])

    def try_corrected_bits(self):
        """Bits that ECC corrects are no fault."""
        chip = self.chip()
        chip.set('flipped', *range(len(chip.plan.image) // chip.plan.geometry.page))
        ran = chip.run('-d', 'dump')
        chip.expect(ran, 0, chip.plan.after[-1], [line for _, line in chip.plan.all_writes()])

    def try_bits_of_bad_ones(self):
        """The contents of a bad eraseblock aren't read."""
        chip = self.chip()
        chip.set('unread', *(p * 4 for p in chip.plan.bad))
        ran = chip.run('-d', 'dump')
        chip.expect(ran, 0, chip.plan.after[-1], [line for _, line in chip.plan.all_writes()])

    def try_eraseblocks_that_cannot_be_read(self):
        """-u passes over them and says which, unless the plan touches them."""
        chip = self.chip()
        plan = chip.plan
        touched = {step[1] for step in plan.steps}
        others = [p for p in range(10) if p not in touched and p not in plan.bad]
        for shell, page in zip(itertools.cycle(SHELLS_THERE), (0, 1, 3)):
            chip.fill(plan.image)
            at = others[1] * 4 + page
            chip.set('unread', at)
            unread = f"eraseblock {others[1]} of {chip.device} can't be read"
            why = f'ECC: 1 uncorrectable bitflip(s) at offset 0x{at * 2048:08x}'
            line = f"{unread}: {why}. The plan doesn't touch it: -u passes over such eraseblocks"
            chip.expect_refused(line, '-d', 'dump')
            words = chip.file_words('-u', '-d', 'dump') if page == 1 else chip.words('-u', '-d', 'dump')
            ran = chip.end(chip.start(words, shell))
            said = f"carry_out: {unread}, and isn't compared: {why}\n"
            chip.expect(ran, 0, plan.after[-1], [line for _, line in plan.all_writes()], said)
        chip.fill(plan.image)
        chip.set('unread', others[1] * 4)
        chip.expect(chip.run_file(), 0, plan.after[-1], [line for _, line in plan.all_writes()])
        # several, in runs and apart, the last page of the last one among them; and another byte in one that is compared
        unread = (others[0], others[1], others[-1])
        chip.fill(plan.image)
        chip.set('unread', *(p * 4 + 3 for p in unread))
        ran = chip.run('-c', '-u', '-d', 'dump')
        said = re.findall(r"^carry_out: eraseblock (\d+) of .* can't be read, and isn't compared: ", ran.err, re.M)
        expect(ran.status == 0 and said == list(map(str, unread)) and ran.err.count('\n') == 3, f'{ran}')
        data = bytearray(chip.data())
        data[others[2] * 8192 + 1000] ^= 1
        chip.device.write_bytes(data)
        ran = chip.run('-u', '-d', 'dump')
        line = f"eraseblock {others[2]} of {chip.device} isn't that of dump: take a new dump"
        expect(ran.status == 2 and line in ran.err and chip.data() == data and not ran.log, f'{ran}')
        for p in touched:
            chip.fill(plan.image)
            chip.set('unread', p * 4 + 2)
            line = f"eraseblock {p} of {chip.device} can't be read, and the plan touches it"
            chip.expect_refused(line, '-u', '-d', 'dump')

    def try_a_nanddump_that_fails(self):
        """It isn't passed over: nothing was read."""
        chip = self.chip()
        whole = '#!/bin/sh\ncase "$*" in *" -f "* | *--help*) exec "$FAKES/nanddump" "$@" ;; esac\n'
        stub(chip, 'nanddump', f'{whole}echo "nanddump: error!: mtd_read" >&2\nexit 1\n')
        for options in ((), ('-u',)):
            chip.expect_refused("can't be read: nanddump: error!: mtd_read", *options, '-d', 'dump')

    def try_bad_ones_since_the_dump(self):
        """What the dump has where an eraseblock is bad tells whether it was UBI's."""
        for which in range(len(SIZES)):
            geometry, sub = SIZES[which]
            image = image_of(geometry, LAYOUTS['used'])
            header = 'went bad since the dump, or that was made without --bb=padbad. Take a new dump, with --bb=padbad'
            there = 'dump has bytes there: take a new dump, with --bb=padbad, and plan again'
            vid = slice(3 * geometry.peb + geometry.vid, 3 * geometry.peb + geometry.vid + 64)
            for data, line in (
                (image, header), (without_magic(image, geometry, 3), header),
                (without_magic(image[: vid.start] + bytes(64) + image[vid.stop :], geometry, 3), there),
                (image[: vid.start] + bytes(64) + image[vid.stop :], header),
            ):
                plan = change_of('since', geometry, sub, data, (7, 9))
                chip = Chip(self.folder / 'a chip', self.script, plan)
                chip.set('bad', 3, *plan.bad)
                chip.expect_refused(line, '-d', 'dump')

    def try_marks(self):
        """-m wants nandtest, which counts bytes in 32 bits."""
        chip = self.chip()
        (chip.mtd / 'size').write_text(f'{2**32}\n')
        chip.expect_refused('nandtest takes no device of 4 GiB or more', '-m', '-d', 'dump')
        chip.say('size', 2**32 - 8192)
        chip.expect_refused('the plan is of a dump of 10 eraseblocks', words=chip.file_words('-m'))
        chip = self.chip()
        stub(chip, 'nandtest')
        chip.expect_refused('there is no nandtest that has -m', '-m', '-d', 'dump')
        ran = chip.run('-d', 'dump')
        chip.expect(ran, 0, chip.plan.after[-1], [line for _, line in chip.plan.all_writes()])
        chip = self.chip()
        chip.set('fault', '1 lost')
        ran = chip.run('-m', '-d', 'dump')
        expect(ran.status == 1 and ran.log == chip.plan.writes(1), f'{ran}')
        p = chip.plan.steps[0][1]
        line = f"\ncarry_out: UBI has {chip.device} attached by now, so eraseblock {p} isn't marked as bad\n"
        expect(ran.err.endswith(line) and ran.err.count('\n') == 2, f'{ran}')

    def try_a_step_that_may_be_done(self):
        """Going on with a step that has been done."""
        chip = self.chip('peb 8192 used unmapped')
        plan = chip.plan
        for n in (2, 3, 5, plan.count - 1, plan.count):
            chip.fill(plan.after[n])
            ran = chip.run_file('-s', n, '-e', n) if n % 2 else chip.run('-s', n, '-e', n, '-d', 'dump')
            chip.expect(ran, 0, plan.after[n], plan.writes(n) if plan.steps[n - 1][0] == 'erase' else [])

    def try_the_half_of_a_page(self):
        """Going on with a step that programs page 0, after one sub-page of it has been programmed."""
        (geometry, sub), rng = SIZES[1], random.Random(1)
        image = image_of(geometry, LAYOUTS['clean'])
        made = rules.Plan(rules.Image(geometry, image))
        made.program(10, 0, rules.put_ec(geometry).ljust(sub, b'\0') + b'\xFF' * sub + rng.randbytes(sub))
        plan = Plan('two parts', geometry, sub, image, made, ())
        chip = Chip(self.folder / 'a chip', self.script, plan)
        for shell in SHELLS_THERE:
            chip.fill(plan.image)
            chip.set('fault', '2 fail')
            ran = chip.end(chip.start(chip.words(), shell))
            expect(ran.status == 1 and ran.log == plan.writes(1), f'{ran}')
            chip.set('fault', '0 -')
            chip.set('log')
            chip.expect_refused("eraseblock 10 of", words=chip.file_words())
            chip.expect(chip.end(chip.start(chip.words(), shell)), 0, plan.after[1], plan.writes(1)[1:])

    def try_an_erase_that_was_cut(self):
        """Going on with an erase whose eraseblock can't be read."""
        for name, page in itertools.product(('mapped', 'unmapped'), (0, 2)):
            chip = self.chip(f'peb 8192 used {name}')
            plan, n = chip.plan, chip.plan.count - 1
            for words in (chip.words('-s', n, '-e', n, '-d', 'dump'), chip.words('-s', n, '-e', n),
                          chip.file_words('-s', n, '-e', n)):
                chip.fill(plan.after[n])
                chip.set('unread', plan.steps[n - 1][1] * 4 + page)
                chip.expect(chip.end(chip.start(words)), 0, plan.after[n], plan.writes(n))
        others = {step[1] for step in plan.steps} - {plan.steps[n - 1][1]}
        chip.set('unread', others.pop() * 4 + 2)
        chip.set('log')
        for words in (chip.words('-s', n), chip.file_words('-s', n)):
            chip.expect_refused("can't be read: ECC: 1 uncorrectable", words=words)

    def try_a_finished_plan(self):
        chip = self.chip()
        chip.fill(chip.plan.after[-1])
        options = ('-s', chip.plan.count + 1)
        for words in (chip.words(*options, '-d', 'dump'), chip.file_words(*options)):
            ran = chip.end(chip.start(words))
            chip.expect(ran, 0, chip.plan.after[-1], [])
            expect(ran.out.endswith(f'done: {chip.plan.count} steps\n'), f'it prints {ran.out!r}')

    def try_attached_in_between(self):
        chip = self.chip()
        chip.set('fault', '1 attach')
        ran = chip.run('-d', 'dump')
        failed = f'step 2 of {chip.plan.count} ({chip.plan.line(2)}) failed: UBI has'
        chip.expect(ran, 1, chip.plan.after[1], chip.plan.writes(1), failed)

    def try_interrupts(self):
        """A signal ends the plan after the current step, whoever gets it; and no scratch file is left."""
        ways = (
            (signal.SIGINT, os.killpg), (signal.SIGTERM, os.kill), (signal.SIGHUP, os.killpg),
            (signal.SIGTERM, os.killpg),
        )
        for shell, (sign, kill) in zip((*SHELLS_THERE, 'dash'), ways):
            chip = self.chip()
            chip.set('fault', '2 slow')
            child = chip.start(chip.words('-d', 'dump'), shell)
            chip.interrupt(child, sign, kill)
            ran = chip.end(child)
            n = chip.plan.all_writes()[1][0]
            writes = [line for _, line in chip.plan.all_writes(1, n)]
            chip.expect(ran, 1, chip.plan.after[n], writes, f'interrupted before step {n + 1} of')

    def try_interrupts_of_checks(self):
        for shell, kill in zip(SHELLS_THERE, (os.kill, os.killpg, os.killpg)):
            chip = self.chip()
            chip.set('mtdinfo', 'slow')
            child = chip.start(chip.words(), shell)
            chip.interrupt(child, signal.SIGTERM, kill)
            ran = chip.end(child)
            is_said = ran.err.endswith('carry_out: interrupted; nothing was written\n')
            expect(ran.status == 2 and is_said, f'{shell}: {ran}')
            expect(chip.data() == chip.held and not ran.log, 'something was written')

    def try_outputs(self):
        """An output that is closed, full or broken doesn't end a plan or make a step fail."""
        for shell in SHELLS_THERE:
            for kind in ('full', 'closed', 'broken', 'no error', 'nothing'):
                if shell == 'bash' and kind != 'full':
                    continue
                chip = self.chip()
                words = chip.words('-d', 'dump', '-e', 2)
                if kind == 'full':
                    with open('/dev/full', 'wb') as full:
                        ran = chip.end(chip.start(words, shell, stdout=full))
                elif kind == 'broken':
                    reader, writer = os.pipe()
                    os.close(reader)
                    child = chip.start(words, shell, stdout=writer)
                    os.close(writer)
                    ran = chip.end(child)
                else:
                    closed = {'closed': (1,), 'no error': (2,), 'nothing': (0, 1, 2)}[kind]
                    child = chip.start(words, shell, preexec_fn=lambda closed=closed: [os.close(fd) for fd in closed])
                    ran = chip.end(child)
                name = f'{kind} in {shell}'
                writes = [line for _, line in chip.plan.all_writes(1, 2)]
                expect(ran.status == 0 and ran.log == writes, f'{name}: {ran}')
                expect(chip.data() == chip.plan.with_bad(chip.plan.after[2]), f'{name}: the chip holds something else')
                if kind in ('full', 'broken'):
                    expect(f'carry_out: ended after step 2 of {chip.plan.count}\n' in ran.err, f'{name}: {ran}')

    def try_outputs_of_a_fault(self):
        """A step that fails ends the plan even if no line can be printed."""
        for shell in SHELLS_THERE:
            chip = self.chip()
            chip.set('fault', '3 fail')
            with open('/dev/full', 'wb') as full:
                ran = chip.end(chip.start(chip.words(), shell, stdout=full, stderr=full))
            expect(ran.status == 1 and len(ran.log) == 3, f'{shell}: {ran}')

    def try_far_offsets(self):
        """Offsets beyond 4 GiB."""
        peb, page, blocks, p = 2**22, 2**15, 1100, 1050
        header = rules.counter_header(0, page, 2 * page)
        for shell in SHELLS_THERE:
            chip = self.chip()
            sizes = {'size': peb * blocks, 'erasesize': peb, 'writesize': page, 'subpagesize': page}
            for name, value in sizes.items():
                chip.say(name, value)
            chip.set('bad', 3)
            (chip.chip / 'blank').write_bytes(b'\xFF' * peb)
            chip.device.write_bytes(header)
            os.truncate(chip.device, peb * blocks)
            with open(chip.device, 'r+b') as file:
                file.seek(p * peb)
                file.write(header)
            data = [random.Random(k).randbytes(page) for k in range(2)]
            steps = f'erase block={p}', f'program block={p} page=1', f'program block={p} page=127'
            chip.put('plan', ''.join(f'{line}\n' for line in ('steps 3', *steps)).encode())
            chip.put('pages', b''.join(data))
            first = f'plan 1 peb={peb} page={page} vid={page} data={2 * page} blocks={blocks} steps=3 touched=1 pages=2'
            lines = first, *steps, f'block={p} ec={header.hex()} vid={bytes(64).hex()}'
            chip.put('file', ''.join(f'{line}\n' for line in lines).encode() + b''.join(data))
            by_file = shell == SHELLS_THERE[-1]
            words = chip.file_words() if by_file else chip.words(peb=peb, page=page)
            ran = chip.end(chip.start(words, shell))
            writes = [f'erase {p}', *(f'program {p * peb + k * page} {page}' for k in (1, 127))]
            expect(ran.status == 0 and ran.log == writes, f'{ran}')
            with open(chip.device, 'rb') as file:
                file.seek(p * peb)
                blank = b'\xFF' * page
                expect(file.read(peb) == blank + data[0] + 125 * blank + data[1], 'the eraseblock is wrong')
                file.seek(p * peb % 2**32)
                expect(file.read(peb) == bytes(peb), 'another eraseblock was written')
            words = chip.file_words('-s', 4) if by_file else chip.words('-s', 4, peb=peb, page=page)
            ran = chip.end(chip.start(words, shell))
            expect(ran.status == 0, f'{ran}')

    def try_the_tools(self):
        """The fakes behave like the real tools, which is why the script checks, reads back, and uses dd."""
        chip = self.chip()
        bad, page = chip.plan.bad[0], chip.plan.geometry.page
        environment = chip.environment()

        def run(*words):
            done = subprocess.run([str(FAKES / words[0]), *map(str, words[1:])], env=environment, capture_output=True)
            return done.returncode, done.stdout, done.stderr.decode()

        peb, device = chip.plan.geometry.peb, chip.device
        ran = run('flash_erase', '-q', device, bad * peb, 1)
        expect(ran == (0, b'', '') and chip.data() == chip.held, 'flash_erase erases a bad eraseblock')
        status, _, err = run('flash_erase', '-q', '-N', device, bad * peb, 1)
        is_said = status == 0 and 'MTD Erase failure' in err
        expect(is_said and chip.data() == chip.held, 'flash_erase -N prints no failure')
        whole = len(chip.held)
        sizes = {'dumpbad': whole, 'padbad': whole, 'skipbad': whole - len(chip.plan.bad) * peb}
        wanted = {'dumpbad': chip.held, 'padbad': chip.plan.image}
        for method, size in sizes.items():
            status, out, err = run('nanddump', '-q', f'--bb={method}', device)
            is_right = (status, len(out), err) == (0, size, '') and out == wanted.get(method, out)
            expect(is_right, f'nanddump --bb={method} gives other bytes')
        again = run('nandtest', '-m', '-o', bad * peb, '-l', peb, device)
        expect(again[0] == 0 and chip.data() == chip.held, 'nandtest works on a bad eraseblock')
        chip.set('unread', 5)
        status, out, err = run('nanddump', '-q', '--bb=dumpbad', '-s', 5 * page, '-l', page, device)
        line = f'ECC: 1 uncorrectable bitflip(s) at offset 0x{5 * page:08x}\n'
        expect((status, len(out), err) == (0, page, line), 'nanddump prints no uncorrectable bits')
        chip.fill(chip.plan.after[1])
        chip.put('new', b'x' * page)
        at = chip.plan.steps[0][1] * peb // page
        place = slice((at + 1) * page, (at + 2) * page)
        files = f'if={chip.folder / "new"}', f'of={device}'
        words = ('dd', *files, f'bs={page}', f'seek={at + 1}', 'count=1', 'conv=notrunc')
        chip.set('fault', '1 fail')
        before = chip.data()
        expect(run(*words)[0] == 1 and chip.data() == before, 'dd fails with another status')
        expect(run(*words)[0] == 0 and chip.data()[place] == b'x' * page, 'dd writes nothing')
        chip.put('new', b'y' * page)
        expect(run(*words)[0] == 0 and chip.data()[place] == b'x' * page, 'a program sets bits')
        status, out, err = run('nanddump', '-q', '--bb=dumpbad', '-s', (at + 1) * page, '-l', page, device)
        expect('uncorrectable' in err, 'a second program can be read')
        p = at * page // peb
        for options, marked in (((), False), (('-m',), True)):
            chip.fill(chip.plan.image)
            chip.set('fault', '1 fail')
            status, out, err = run('nandtest', *options, '-o', p * peb, '-l', peb, device)
            expect((status, err) == (0, 'MEMERASE: Input/output error\n'), 'nandtest ends with another status')
            is_bad = str(p) in (chip.chip / 'bad').read_text().split()
            expect(is_bad == marked and chip.data() == chip.held, 'nandtest marks an eraseblock without -m')
        chip.fill(chip.plan.image)
        status, out, err = run('nandtest', '-m', '-o', p * peb, '-l', peb, device)
        data = chip.data()
        is_right = data[: p * peb] == chip.held[: p * peb] and data[(p + 1) * peb :] == chip.held[(p + 1) * peb :]
        expect((status, err) == (0, '') and is_right, 'nandtest works on another eraseblock')
        now, before = (of[p * peb : (p + 1) * peb] for of in (data, chip.held))
        expect(now not in (before, b'\xFF' * peb), 'nandtest keeps what was there')


def wait_for(path):
    for _ in range(1000):
        if path.exists():
            return
        time.sleep(0.01)
    raise Failure(f'{path} never appears')


def stub(chip, name, text='#!/bin/sh\necho "usage"\n'):
    """Puts a tool before the fake one on the PATH, which has no options if no text is given."""
    (chip.folder / 'stubs').mkdir()
    (chip.folder / 'stubs' / name).write_text(text)
    (chip.folder / 'stubs' / name).chmod(0o755)


def main():
    # A shell that starts this in the background has it ignore interrupts, and what it starts would ignore them too.
    signal.signal(signal.SIGINT, signal.default_int_handler)
    words = argparse.ArgumentParser(description=__doc__, formatter_class=argparse.RawDescriptionHelpFormatter)
    words.add_argument('--tool', help='the program, whose plans are compared, and which says what a chip means')
    words.add_argument('--script', default=str(ROOT / 'carry_out.sh'), help='the script; ./carry_out.sh by default')
    words.add_argument('--only', default='', help='run the cases whose names have this word')
    words = words.parse_args()
    for name in SHELLS:
        if name not in SHELLS_THERE:
            print(f'not tried: there is no {name}')
    passed = failed = 0
    with tempfile.TemporaryDirectory() as folder:
        cases = Cases(Path(folder).resolve(), str(Path(words.script).resolve()), words.tool)
        for name, test in cases.all():
            if words.only not in name:
                continue
            try:
                test()
                passed += 1
            except Failure as failure:
                failed += 1
                print(f'failed: {name}: {failure}', flush=True)
            except Exception as error:  # such as a missing file
                failed += 1
                print(f'failed: {name}: {error!r}', flush=True)
    print(f'{passed} passed, {failed} failed')
    return 1 if failed or not passed else 0


if __name__ == '__main__':
    sys.exit(main())
