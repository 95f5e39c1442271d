#!/usr/bin/env python3
"""Checks what a shell gets from the program and from its launcher: the status, and the bytes on each output.

usage: launch.py [--tool PROGRAM]

It runs the program with words that are right, wrong, not UTF-8, or refused; with a terminal for standard error, which
has to show how far long work is, and with a pipe, which has to get nothing; and through `./ubi_tool`, called by links,
in folders and with words that have blanks, and with pipes as images. With an `rt` that builds another program, the
launcher has to run that program if a source is newer, also one that was edited during the build, and nothing if the
build fails. Ends with 'N passed, M failed', and with status 1 if some failed.
"""
import argparse
import os
import pty
import shutil
import subprocess
import sys
import tempfile
import time
from pathlib import Path

import crates

ROOT = Path(__file__).resolve().parents[2]
IMAGE = ROOT / 'crates/ubi_tool/data/root.img'
SMALL = ['--peb', '512', '--page', '64']
CHIP = ['--peb', '131072', '--page', '2048']
# How many eraseblocks of 128 KiB are long work: 256 MiB.
LONG = 2048

PROGRAM = 'crates/ubi_tool/out/launched/ubi_tool'

# The words of a change and of a rename, without their image.
CHANGE = ['--id', '0', '--lnum', '0', '--from', IMAGE, '--out', '/dev/null', *SMALL]
RENAME = ['--id', '0', '--name', 'a', '--out', '/dev/null', *SMALL]
# Words, the status, and the beginnings of standard output and of standard error.
CASES = [
    ([], 2, b'', b'error: '),
    (['nonsense'], 2, b'', b'error: '),
    (['--help'], 2, b'', b'Reads raw NAND dumps'),
    (['--version'], 2, b'', b'ubi_tool 0.1.0\n'),
    (['list', b'\xff\xfe'], 2, b'', b"error: the words aren't text\n"),
    (['list', 'a', '--peb', '500', '--page', '64'], 2, b'refused G2 PebSize\n', b''),
    (['list', '/nonexistent', *SMALL], 1, b'cannot read /nonexistent\n', b'/nonexistent: No such file'),
    (['extract', IMAGE, '--id', '7', '--out', '/dev/null', *SMALL], 1, b'refused L1 NoVolume\n', b''),
    (['list', IMAGE, *SMALL, '--bad', '3,,4'], 2, b'', b"error: '--bad <LIST>'"),
    (['change', '/dev/zero', *CHANGE], 2, b'', b"error: '--bad <LIST>' is needed"),
    (['change', '/dev/zero', *CHANGE, '--pebs', '8'], 2, b'', b"error: '--bad <LIST>' is needed"),
    (['rename', '/dev/zero', *RENAME], 2, b'', b"error: '--bad <LIST>' is needed"),
    (['list', '/dev/zero', *SMALL, '--pebs', '64'], 1, b'cannot read /dev/zero\n', b'/dev/zero: it has no end\n'),
    (['change', IMAGE, *CHANGE, '--blank', 'no'], 2, b'', b"error: '--blank' takes"),
    (['same', IMAGE, IMAGE, *SMALL], 0, b'same\n', b''),
    (['same', IMAGE, ROOT / 'crates/ubi_tool/data/spare.img', *SMALL], 0, b'same\n', b''),
    (['check', IMAGE, *SMALL], 0, b'blocks 5\n', b''),
]


def run(program, words, **more):
    """The status and both outputs of a run. Its standard input is empty, unless one is given."""
    if not {'stdin', 'input'} & more.keys():
        more['stdin'] = subprocess.DEVNULL
    done = subprocess.run([program, *words], stdout=subprocess.PIPE, stderr=subprocess.PIPE, check=False, **more)
    return done.returncode, done.stdout, done.stderr


def fits(ran, status, out, error):
    """Whether a run ended as wanted. If nothing is wanted on an output, it has to be empty."""
    def begins(text, wanted):
        return text.startswith(wanted) if wanted else not text
    return ran[0] == status and begins(ran[1], out) and begins(ran[2], error)


def statuses(tool):
    """Each case, and whether it fits."""
    for words, status, out, error in CASES:
        ran = run(tool, words)
        yield f'{words}: {ran}'[:300], fits(ran, status, out, error)


def on_terminal(words):
    """What a run shows if its standard error is a terminal."""
    ours, theirs = pty.openpty()
    with subprocess.Popen(words, stdin=subprocess.DEVNULL, stdout=subprocess.DEVNULL, stderr=theirs) as child:
        os.close(theirs)
        shown = b''
        while True:
            try:
                more = os.read(ours, 65536)
            except OSError:
                break
            if not more:
                break
            shown += more
        child.wait()
    os.close(ours)
    return shown


def watching(tool, folder):
    """Long work is shown on a terminal, and nowhere else."""
    text, image = folder / 'long.txt', folder / 'long.img'
    lebs = ''.join(f'leb 0 {lnum} 61\n' for lnum in range(LONG))
    text.write_text(f'volume 0 dynamic {LONG} 1 00 long\n{lebs}')
    ran = run(tool, ['compose', text, '--out', image, *CHIP])
    yield f'compose: {ran}', ran == (0, f'blocks {LONG + 2}\n'.encode(), b'')
    words = ['normalise', image, '--out', '/dev/null', *CHIP]
    ran = run(tool, words)
    yield f'with a pipe: {ran}', ran == (0, f'blocks {LONG + 2}\n'.encode(), b'')
    shown = on_terminal([tool, *words])
    yield f'with a terminal: {shown[-80:]}', b'%' in shown
    # A hundredth of 8 GiB is 85,899,345 bytes, and the normal image has 2050 * 131,072 = 268,697,600.
    os.truncate(image, 2**33)
    shown = on_terminal([tool, *words])
    yield f'of 8 GiB: {shown[-80:]}', b'\r3 %' in shown and b'\r4 %' not in shown


def launched(tool, folder):
    """The launcher runs the built program, also by links, passes the words on as they are, and ends with its status."""
    home = house(folder)
    shutil.copy(tool, home / PROGRAM)
    (folder / 'link').symlink_to(f'{home.name}/ubi_tool')
    (folder / 'beyond').mkdir()
    (folder / 'beyond' / 'far link').symlink_to('../link')
    shutil.copy(IMAGE, folder / 'an image')
    for name in (f'{home.name}/ubi_tool', 'link', 'beyond/far link'):
        for words, status, out, error in (
            (['list', 'an image', *SMALL], 0, b'geometry peb=512 ', b''),
            (['list', 'no image', *SMALL], 1, b'cannot read no image\n', b'no image: No such file'),
            (['list', 'a * b', *SMALL], 1, b'cannot read a * b\n', b'a * b: No such file'),
            (['nonsense word'], 2, b'', b'error: '),
        ):
            ran = run(folder / name, words, cwd=folder)
            yield f'{name} {words}: {ran}'[:300], fits(ran, status, out, error)
    with open(IMAGE, 'rb') as image:
        ran = run(folder / 'link', ['list', '/dev/stdin', *SMALL], stdin=image)
    yield f'with standard input: {ran}'[:300], fits(ran, 0, b'geometry peb=512 ', b'')
    # A pipe gives its bytes once: it is read once, to find the geometry and to answer.
    for words in (SMALL, []):
        ran = run(folder / 'link', ['list', '/dev/stdin', *words], input=IMAGE.read_bytes())
        yield f'with a pipe as input {words}: {ran}'[:300], fits(ran, 0, b'geometry peb=512 ', b'')
        for command in (['normalise'], ['extract', '--id', '0']):
            wanted, found = folder / 'of a file', folder / 'of a pipe'
            answer = run(folder / 'link', [*command, IMAGE, '--out', wanted, *words])
            ran = run(folder / 'link', [*command, '/dev/stdin', '--out', found, *words], input=IMAGE.read_bytes())
            is_same = answer[0] == 0 and ran == answer and found.read_bytes() == wanted.read_bytes() != b''
            yield f'{command} with a pipe as input {words}: {ran}'[:300], is_same
            found.unlink(missing_ok=True)


def tunables(folder):
    """The program gets the user's tunables of the C library, or that which asks for huge pages."""
    (folder / 'tuned').mkdir()
    home = house(folder / 'tuned')
    (home / PROGRAM).write_text('#!/bin/sh\necho "$GLIBC_TUNABLES"\n')
    (home / PROGRAM).chmod(0o755)
    ours, theirs = 'glibc.malloc.hugetlb=1', 'glibc.malloc.check=0'
    for given, wanted in (({}, ours), ({'GLIBC_TUNABLES': ''}, ours), ({'GLIBC_TUNABLES': theirs}, theirs)):
        ran = run(home / 'ubi_tool', [], env={'PATH': '/usr/bin:/bin', **given})
        yield f'with {given}: {ran}', ran == (0, f'{wanted}\n'.encode(), b'')


def house(folder):
    """A repository with the launcher, whose sources are old."""
    home = folder / 'a  house *'
    for crate in crates.names():
        (home / 'crates' / crate / 'src').mkdir(parents=True)
        (home / 'crates' / crate / 'src/lib.rt').write_text('')
    (home / 'crates/ubi_table/src/topic.rt').write_text('')
    (home / PROGRAM).parent.mkdir(parents=True)
    shutil.copy(ROOT / 'crates.txt', home)
    for source in sources(home):
        os.utime(source, (1, 1))
    for name in ('ubi_tool', 'prove.sh'):
        shutil.copy(ROOT / name, home / name)
    return home


def sources(home):
    return [home / 'crates.txt', *home.glob('crates/*/src/*.rt')]


def kit(folder):
    """A folder with a kit that builds a program which prints its words, unless there is a file `broken` beside it. If
    there is a link `edited`, what it leads to is edited during the build. Each library that is proved notes its name."""
    place = folder / 'a kit *'
    (place / 'bin').mkdir(parents=True)
    (place / 'program').write_text('#!/bin/sh\necho "new $1"\n[ "$1" = check ] || exit 7\n')
    (place / 'rt').write_text(f"""#!/bin/sh
case $1 in
    version) echo rattle-kit-13b ;;
    doc) echo '{place}/page.md' ;;
esac
""")
    (place / 'bin/rattle').write_text(f"""#!/bin/sh
[ ! -e '{place}/edited' ] || {{ sleep 0.02 && touch '{place}/edited'; }}
name=$(basename "$PWD")
[ ! -e '{place}/slow' ] || sleep 0.3
echo "$name" >>'{place}/calls'
while [ "$1" != -o ]; do shift; done
[ ! -e '{place}/broken' ] || exit 1
[ "$name" = ubi_tool ] && exec cp '{place}/program' "$2"
mkdir "$2"
""")
    (place / 'bin/rattle-link').write_text("""#!/bin/sh
while [ "$1" != -o ]; do shift; done
cp "$3" "$2"
""")
    for name in ('program', 'rt', 'bin/rattle', 'bin/rattle-link'):
        (place / name).chmod(0o755)
    return place


def rebuilt(tool, folder):
    """The launcher builds if a source is newer than the program, and runs what it built, or nothing if the build
    fails."""
    (folder / 'again').mkdir()
    home, tools = house(folder / 'again'), kit(folder)
    path = {'PATH': f'{tools}:/usr/bin:/bin'}
    for source in sources(home):
        shutil.copy(tool, home / PROGRAM)
        os.utime(home / PROGRAM, (2, 2))
        calls = tools / 'calls'
        ran = run(home / 'ubi_tool', ['--version'], env=path)
        is_right = fits(ran, 2, b'', b'ubi_tool 0.1.0\n') and not calls.exists()
        yield f'before {source.name} is newer: {ran}', is_right
        os.utime(source, (3, 3))
        ran = run(home / 'ubi_tool', ['a word'], env=path)
        is_right = fits(ran, 7, b'new a word\n', b'ubi_tool: building, once') and calls.exists()
        yield f'{source} is newer: {ran}', is_right
        calls.unlink(missing_ok=True)
        ran = run(home / 'ubi_tool', ['a word'], env=path)
        yield f'again: {ran}', ran == (7, b'new a word\n', b'') and not calls.exists()
        os.utime(source, (1, 1))
    yield from edited(home, tools, path)
    yield from proved(home, tools, path)
    yield from interrupted(home, tools, path)
    os.utime(home / PROGRAM, (0, 0))
    (tools / 'broken').write_text('')
    ran = run(home / 'ubi_tool', ['a word'], env=path)
    yield f'a build that fails: {ran}', fits(ran, 1, b'', b'ubi_tool: building, once')
    ran = run(home / 'ubi_tool', ['a word'], env={'PATH': '/usr/bin:/bin'})
    yield f'without rt: {ran}', fits(ran, 1, b'', b'ubi_tool: not built yet')


def edited(home, tools, path):
    """A source that is edited during the build is newer than what is built. One of the future isn't."""
    source = home / 'crates/ubi_table/src/topic.rt'
    os.utime(home / PROGRAM, (0, 0))
    (tools / 'edited').symlink_to(source)
    ran = run(home / 'ubi_tool', ['a word'], env=path)
    yield f'a source that is edited during the build: {ran}', fits(ran, 7, b'new a word\n', b'ubi_tool: building')
    (tools / 'edited').unlink()
    for what, line in (('after that', b'ubi_tool: building'), ('again', b'')):
        ran = run(home / 'ubi_tool', ['a word'], env=path)
        yield f'{what}: {ran}', fits(ran, 7, b'new a word\n', line)
    for seconds, line in ((2**32 - 1, b'ubi_tool: building'), (2**32 - 1, b'')):
        os.utime(source, (seconds, seconds))
        ran = run(home / 'ubi_tool', ['a word'], env=path)
        yield f'a source of the future: {ran}', fits(ran, 7, b'new a word\n', line)
    os.utime(source, (1, 1))


def calls_of(tools):
    """The crates that were compiled since this was asked last, in their order."""
    calls = tools / 'calls'
    names = calls.read_text().split() if calls.exists() else []
    calls.unlink(missing_ok=True)
    return names


def is_in_order(names):
    """Whether each crate stands behind those that it uses, and stands there once."""
    return all(not crates.below(name) & set(names[at:]) for at, name in enumerate(names)) and len(set(names)) == len(names)


def proved(home, tools, path):
    """A build proves each library that the program stands on, once and in their order; the next one what is newer, and
    what stands on that; and one at the same time waits."""
    whole = {'ubi_tool', *crates.below('ubi_tool')}
    shutil.rmtree(home / 'crates/ubi_tool/out/launched/libraries')
    calls_of(tools)
    for edited_crate in (None, 'ubi_media', 'ubi_table', 'ubi_compose', 'ubi_commands'):
        if edited_crate:
            os.utime(home / 'crates' / edited_crate / 'src/lib.rt')
        os.utime(home / PROGRAM, (0, 0))
        two = [subprocess.Popen([home / 'ubi_tool', 'a word'], env=path, stdout=subprocess.PIPE, stderr=subprocess.DEVNULL)
               for _ in range(2)]
        ran = [(each.communicate()[0], each.returncode) for each in two]
        names = calls_of(tools)
        wanted = whole if edited_crate is None else {name for name in whole if edited_crate in {name, *crates.below(name)}}
        # The second one compiles the program again, over what the first one proved.
        is_right = ran == [(b'new a word\n', 7)] * 2 and names[-1:] == ['ubi_tool'] and names.count('ubi_tool') <= 2
        first = [name for name in names if name != 'ubi_tool'] + ['ubi_tool']
        yield f'after {edited_crate}: {ran} {names}', is_right and set(first) == wanted and is_in_order(first)


def interrupted(home, tools, path):
    """A build that is killed leaves no program, and the next one proves what isn't proved yet."""
    os.utime(home / 'crates/ubi_media/src/lib.rt')
    (home / PROGRAM).unlink()
    calls_of(tools)
    (tools / 'slow').write_text('')
    for seconds in (0.2, 0.5, 0.9):
        ran = subprocess.Popen([home / 'ubi_tool', 'a word'], env=path, stdout=subprocess.DEVNULL, stderr=subprocess.DEVNULL)
        time.sleep(seconds)
        ran.kill()
        ran.wait()
        yield f'killed after {seconds} seconds', not (home / PROGRAM).exists()
    (tools / 'slow').unlink()
    ran = run(home / 'ubi_tool', ['a word'], env=path)
    wanted = {name for name in crates.below('ubi_tool') if 'ubi_media' in {name, *crates.below(name)}}
    names = [name for name in calls_of(tools) if name != 'ubi_tool']
    yield f'after that: {ran} {names}', fits(ran, 7, b'new a word\n', b'ubi_tool: building') and wanted == set(names)


def report(cases):
    """Prints each case that isn't so, and how many are. Returns the exit status."""
    passed = failed = 0
    for name, is_so in cases:
        passed, failed = passed + is_so, failed + (not is_so)
        if not is_so:
            print(f'failed: {name}')
    print(f'{passed} passed, {failed} failed')
    return 1 if failed else 0


def main():
    parser = argparse.ArgumentParser()
    parser.add_argument('--tool', type=Path, default=ROOT / 'crates/ubi_tool/out/ubi_tool')
    tool = parser.parse_args().tool.resolve()
    with tempfile.TemporaryDirectory(prefix='ubi-launch-') as room:
        room = Path(room)
        shutil.copy(tool, room / 'ubi_tool')
        tool = room / 'ubi_tool'
        return report((*statuses(tool), *watching(tool, room), *launched(tool, room), *tunables(room), *rebuilt(tool, room)))


if __name__ == '__main__':
    sys.exit(main())
