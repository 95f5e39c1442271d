#!/usr/bin/env python3
"""Checks that the files that install.sh puts below a prefix, and those that release.sh packs, work without the kit.

usage: install.py [--tool PROGRAM]

It installs PROGRAM below an empty prefix, again over that, below DESTDIR, and from an unpacked archive. It compares the
files and their bytes; the program has to run with an empty environment, the Python module has to load the library that
is installed with it, the checksums of the archive have to be right, and an archive that is made twice has to be the
same. A user's mask of 077 changes no mode, and VERSION says if a clone has changes. If c/build.sh has made no library,
it compares only the path that the module tries. What isn't built, is older than its sources or can't be written has to
be refused, and wrong words too. Ends with 'N passed, M failed', and with status 1 if some failed.
"""
import argparse
import os
import re
import shutil
import subprocess
import sys
import tarfile
import tempfile
from pathlib import Path

from launch import report

ROOT = Path(__file__).resolve().parents[2]
IMAGE = ROOT / 'crates/ubi_tool/data/root.img'
ANSWER = b'geometry peb=512 page=64 vid=64 data=128 leb=384 slots=2 pebs=1048576\n' \
    b'volume 0 dynamic reserved=20 alignment=1 usable=384 flags=00 lebs=3 name=root\nvolumes 1\n'
LAUNCHED = 'crates/ubi_tool/out/launched/ubi_tool'

# What is installed, by its path below the prefix: where it comes from, and its mode. The documents, VERSION and the
# library are added.
PLACES = {
    'bin/ubi_tool-carry-out': ('carry_out.sh', 0o755),
    'share/man/man1/ubi_tool.1': ('docs/ubi_tool.1', 0o644),
    'share/bash-completion/completions/ubi_tool': ('completions/ubi_tool.bash', 0o644),
    'share/zsh/site-functions/_ubi_tool': ('completions/_ubi_tool', 0o644),
    'share/doc/ubi_tool/README.md': ('README.md', 0o644),
    'share/doc/ubi_tool/CHANGELOG.md': ('CHANGELOG.md', 0o644),
}
LIBRARY = {
    'lib/libubi.a': ('libubi.a', 0o644),
    'lib/libubi.so': ('libubi.so', 0o755),
    'include/ubi.h': ('ubi.h', 0o644),
}
# What is installed with the library, from the tree.
USES = {
    'share/ubi_tool/ubi.py': ('c/ubi.py', 0o644),
    'share/doc/ubi_tool/examples/volumes.c': ('c/examples/volumes.c', 0o644),
    'share/doc/ubi_tool/examples/volumes.py': ('c/examples/volumes.py', 0o644),
}
# The version of glibc that README.md names.
GLIBC = (2, 34)
# What the program may load: the parts of the C library, its loader, and what the kernel provides.
LOADED = re.compile(r'(linux-vdso\.so\.1|lib(c|m|dl|rt|pthread)\.so\.\d|/lib64/ld-linux-x86-64\.so\.2)\b')


def run(*words, cwd=None, **environment):
    """The status and both outputs of a run, which gets no environment but the given one."""
    done = subprocess.run(words, cwd=cwd, env={'PATH': '/usr/bin:/bin', **environment}, stdin=subprocess.DEVNULL,
                          stdout=subprocess.PIPE, stderr=subprocess.PIPE, check=False)
    return done.returncode, done.stdout, done.stderr


def files(folder):
    """The bytes and the mode of each file below a folder."""
    return {str(path.relative_to(folder)): (path.read_bytes(), path.stat().st_mode & 0o777)
            for path in folder.rglob('*') if path.is_file()}


def wanted(tool, top, library):
    """What has to be below a prefix, except VERSION."""
    found = {place: (top / name, mode) for place, (name, mode) in PLACES.items()}
    pages = [page for kind in ('md', 'png') for page in (top / 'docs').glob(f'*.{kind}')]
    found |= {f'share/doc/ubi_tool/docs/{page.name}': (page, 0o644) for page in pages}
    if all((library / name).is_file() for name, _ in LIBRARY.values()):
        found |= {place: (library / name, mode) for place, (name, mode) in LIBRARY.items()}
        found |= {place: (top / name, mode) for place, (name, mode) in USES.items()}
    found['bin/ubi_tool'] = (tool, 0o755)
    return {place: (path.read_bytes(), mode) for place, (path, mode) in found.items()}


def house(folder, tool=None, library=False):
    """A tree without git, with the program if there is one, and with a stand-in for the library if it is asked for."""
    home = folder / 'a  house *'
    shutil.rmtree(home, ignore_errors=True)
    for name in ('docs', 'completions'):
        shutil.copytree(ROOT / name, home / name)
    for name in ('install.sh', 'carry_out.sh', 'README.md', 'CHANGELOG.md', 'crates.txt'):
        shutil.copy(ROOT / name, home / name)
    (home / LAUNCHED).parent.mkdir(parents=True)
    (home / 'crates/ubi_tool/src').mkdir()
    (home / 'crates/ubi_tool/src/main.rt').write_text('')
    if tool:
        shutil.copy(tool, home / LAUNCHED)
    if library:
        (home / 'c/out').mkdir(parents=True)
        for name, _ in LIBRARY.values():
            (home / 'c/out' / name).write_text(f'a stand-in for {name}\n')
        shutil.copy(ROOT / 'c/ubi.py', home / 'c/ubi.py')
        without_caches = shutil.ignore_patterns('__pycache__')
        shutil.copytree(ROOT / 'c/examples', home / 'c/examples', ignore=without_caches)
    return home


def refused(room, tool):
    """What has to be refused, with its status and a part of the line; and nothing may be written then."""
    prefix = room / 'refused'
    unbuilt = house(room)
    cases = [
        (1, b'nothing is built yet', (prefix,)),
        (2, b'there is no PREFIX', ()),
        (2, b'absolute path', ('below',)),
        (2, b'two prefixes', (prefix, prefix)),
        (2, b'no option is called --prefix', ('--prefix', prefix)),
        (2, b'names no program', ('--tool',)),
        (1, b'there is no program', ('--tool', room / 'none', prefix)),
        (1, b"doesn't say which version", ('--tool', '/bin/true', prefix)),
    ]
    for status, line, words in cases:
        ran = run(unbuilt / 'install.sh', *words, cwd=room)
        yield f'{words}: {ran}', ran[0] == status and not ran[1] and line in ran[2] and not prefix.exists()
    home = house(room, tool)
    os.utime(home / LAUNCHED, (1, 1))
    ran = run(home / 'install.sh', prefix)
    is_said = b'older than its sources' in ran[2]
    yield f'older than its sources: {ran}', ran[0] == 1 and is_said and not prefix.exists()
    (room / 'a file').write_text('')
    ran = run(home / 'install.sh', '--tool', tool, room / 'a file')
    yield f'a prefix that is a file: {ran}', ran[0] == 1 and b"can't be written" in ran[2]
    (room / 'in the way/bin/ubi_tool').mkdir(parents=True)
    ran = run(home / 'install.sh', '--tool', tool, room / 'in the way')
    yield f'a directory in the place of the program: {ran}', ran[0] == 1 and b'is a directory' in ran[2]
    ran = run(home / 'install.sh', '--help')
    is_usage = ran[1].startswith(b'install.sh [--tool PROGRAM] PREFIX\n')
    yield f'--help: {ran}', ran[0] == 0 and is_usage and not ran[2]


def runs(place, room):
    """What is installed runs without this environment, and loads nothing else."""
    ran = run(place / 'bin/ubi_tool', 'list', IMAGE, cwd=room)
    yield f'list: {ran}', ran == (0, ANSWER, b'')
    ran = run(place / 'bin/ubi_tool-carry-out', cwd=room)
    is_usage = ran[2].startswith(b'ubi_tool-carry-out [-cmnu] [-d DUMP]')
    yield f'ubi_tool-carry-out: {ran}'[:200], ran[0] == 2 and is_usage
    completion = f'{place}/share/bash-completion/completions/ubi_tool'
    ran = run('bash', '-c', f"source '{completion}' && complete -p ubi_tool")
    yield f'bash: {ran}', ran[0] == 0 and b'_ubi_tool' in ran[1]
    ran = run('ldd', place / 'bin/ubi_tool')
    lines = [line.strip() for line in ran[1].decode().split('\n') if line]
    is_static = b'not a dynamic executable' in ran[2]
    yield f'ldd: {ran}', is_static or ran[0] == 0 and all(map(LOADED.match, lines))
    program = (place / 'bin/ubi_tool').read_bytes()
    yield 'the program is an executable of its own', program[:4] == b'\x7fELF'
    versions = {tuple(map(int, version)) for version in re.findall(rb'GLIBC_(\d+)\.(\d+)', program)}
    yield f'the versions of glibc that it wants: {sorted(versions)}', all(version <= GLIBC for version in versions)
    if (place / 'lib/libubi.so').is_file():
        (room / 'volumes').mkdir(exist_ok=True)
        example = place / 'share/doc/ubi_tool/examples/volumes.py'
        ran = run(sys.executable, '-B', example, IMAGE, room / 'volumes', cwd=room,
                  PYTHONPATH=str(place / 'share/ubi_tool'))
        is_right = ran == (0, ANSWER, b'') and (room / 'volumes/volume_0.bin').stat().st_size == 7680
        yield f'volumes.py: {ran}', is_right


def looked_at(place, room):
    """The Python module tries the library that is installed with it, also by a link: a stand-in, which can't be
    loaded."""
    (room / 'a link').mkdir()
    (room / 'a link/ubi.py').symlink_to(place / 'share/ubi_tool/ubi.py')
    for folder in (place / 'share/ubi_tool', room / 'a link'):
        ran = run(sys.executable, '-B', '-c', 'import ubi; ubi.Library()', cwd=room, PYTHONPATH=str(folder))
        yield f'ubi.py in {folder}: {ran}', ran[0] == 1 and f'OSError: {place}/lib/libubi.so: '.encode() in ran[2]


def installed(room, tool):
    """What is below a prefix: after installing, after doing so again, below DESTDIR, and from a tree without git but
    with a library."""
    prefix = room / 'a prefix'
    wanted_files = wanted(tool, ROOT, ROOT / 'c/out')
    head = run('git', '-C', ROOT, 'rev-parse', 'HEAD')[1].decode().strip()
    for time in ('first', 'second'):
        ran = run(ROOT / 'install.sh', '--tool', tool, prefix, cwd=room)
        found = files(prefix)
        version, mode = found.pop('share/doc/ubi_tool/VERSION', (b'', 0))
        yield f'{time} time: {ran}', ran == (0, f'installed ubi_tool 0.1.0 below {prefix}\n'.encode(), b'')
        yield f'{time} time: {sorted(found.keys() ^ wanted_files.keys())}', found == wanted_files
        lines = f"ubi_tool 0.1.0\ncommit {head or 'unknown'}".encode()
        yield f'{time} time: {version}', mode == 0o644 and version.startswith(lines)
        for place in ('bin/ubi_tool', 'share/man/man1/ubi_tool.1'):
            (prefix / place).unlink(missing_ok=True)
            (prefix / place).symlink_to('/nonexistent')
    ran = run(ROOT / 'install.sh', '--tool', tool, prefix, cwd=room)
    all_files = {**wanted_files, 'share/doc/ubi_tool/VERSION': (version, mode)}
    yield f'over links: {ran}', ran[0] == 0 and all_files == files(prefix)
    yield from runs(prefix, room)
    home, stage, prefix = house(room, tool, library=True), room / 'a stage', room / 'nowhere'
    ran = run(home / 'install.sh', f'{prefix}/', cwd=room, DESTDIR=str(stage))
    found = files(Path(f'{stage}{prefix}'))
    version, _ = found.pop('share/doc/ubi_tool/VERSION', (b'', 0))
    is_right = not prefix.exists() and found == wanted(tool, home, home / 'c/out')
    yield f'below DESTDIR: {ran}', ran[0] == 0 and is_right
    is_right = version == b'ubi_tool 0.1.0\ncommit unknown\n' and 'lib/libubi.so' in found
    yield f'without git: {version}', is_right
    yield from looked_at(Path(f'{stage}{prefix}'), room)


def masked(room, tool):
    """Others can read what a user with a mask of 077 installs."""
    prefix = room / 'a masked prefix'
    ran = run('sh', '-c', 'umask 077 && exec "$@"', 'sh', ROOT / 'install.sh', '--tool', tool, prefix, cwd=room)
    modes = {place: mode for place, (_, mode) in files(prefix).items()}
    all_modes = {place: mode for place, (_, mode) in wanted(tool, ROOT, ROOT / 'c/out').items()}
    is_right = modes == all_modes | {'share/doc/ubi_tool/VERSION': 0o644}
    yield f'with a mask of 077: {ran}, {modes}', ran[0] == 0 and is_right
    folders = {str(path): path.stat().st_mode & 0o777 for path in (prefix, *prefix.rglob('*')) if path.is_dir()}
    yield f'the folders with a mask of 077: {folders}', set(folders.values()) == {0o755}


def cloned(room, tool):
    """VERSION says whether a clone has changes in files that git knows."""
    home = house(room, tool)
    identity = ('-c', 'user.name=a', '-c', 'user.email=a@example')
    for words in (('init', '-q'), ('add', 'README.md'), (*identity, 'commit', '-q', '-m', 'a')):
        ran = run('git', '-C', home, *words, HOME=str(room))
        if ran[0] != 0:
            yield f'git {words}: {ran}', False
            return
    head = run('git', '-C', home, 'rev-parse', 'HEAD')[1].decode().strip()
    (home / 'new').write_text('git does not know it\n')
    for changes in ('', ', with changes'):
        if changes:
            (home / 'README.md').write_text('changed\n')
        prefix = room / f'of a clone{changes}'
        ran = run(home / 'install.sh', '--tool', tool, prefix, cwd=room)
        place = prefix / 'share/doc/ubi_tool/VERSION'
        version = place.read_text() if place.is_file() else ''
        yield f'a clone{changes}: {ran}, {version}', version == f'ubi_tool 0.1.0\ncommit {head}{changes}\n'


def packed(room, tool):
    """An archive: made twice, unpacked, checked, run, and installed from."""
    name = 'ubi_tool-0.1.0-linux-x86_64'
    time = run('git', '-C', ROOT, 'log', '-1', '--format=%ct')[1]
    if not time:
        ran = run(ROOT / 'release.sh', '--tool', tool, room / 'first', cwd=room)
        yield f'an archive of no clone: {ran}', ran[0] == 1 and b'is no clone' in ran[2]
        return
    made = []
    for folder in (room / 'first', room / 'second'):
        ran = run(ROOT / 'release.sh', '--tool', tool, folder, cwd=room, TMPDIR=str(room))
        made.append((folder / f'{name}.tar.gz').read_bytes() if ran[0] == 0 else b'')
        is_named = ran[1].endswith(f'  {name}.tar.gz\n'.encode())
        yield f'release.sh: {ran}', ran[0] == 0 and is_named and not ran[2]
    yield 'the same archive twice', made[0] == made[1] != b''
    if not made[0]:
        return
    with tarfile.open(room / f'first/{name}.tar.gz') as archive:
        members = archive.getmembers()
        archive.extractall(room / 'unpacked')
    names = [member.name for member in members]
    yield 'sorted, below one folder', names == sorted(names) and all(word.split('/')[0] == name for word in names)
    marks = {(member.mtime, member.uid, member.gid, member.uname) for member in members}
    yield 'times and owners', marks == {(int(time), 0, 0, '')}
    place = room / 'unpacked' / name
    ran = run('sha256sum', '--check', '--strict', '--quiet', 'SHA256SUMS', cwd=place)
    summed = {line.split('  ', 1)[1] for line in (place / 'SHA256SUMS').read_text().splitlines()}
    yield f'the checksums: {ran}', ran == (0, b'', b'') and summed == files(place).keys() - {'SHA256SUMS'}
    needed = {
        'ubi_tool', 'carry_out.sh', 'install.sh', 'README.md', 'CHANGELOG.md', 'LICENCE.txt', 'VERSION',
        'docs/ubi_tool.1', 'docs/CHANGE.md', 'completions/ubi_tool.bash', 'completions/_ubi_tool',
    }
    if 'lib/libubi.so' in summed:
        needed |= {*LIBRARY, 'share/ubi_tool/ubi.py', 'examples/volumes.c', 'examples/volumes.py'}
    yield f'what is packed: {sorted(needed - summed)}', needed <= summed
    ran = run('./ubi_tool', 'list', IMAGE, cwd=place)
    yield f'list: {ran}', ran == (0, ANSWER, b'')
    ran = run('./install.sh', room / 'of the archive', cwd=place)
    is_same = files(room / 'of the archive') == files(room / 'a prefix')
    yield f'install.sh of the archive: {ran}', ran[0] == 0 and is_same
    yield from runs(room / 'of the archive', room)
    os.chmod(place / 'ubi_tool', 0o644)
    ran = run('./install.sh', room / 'of a broken one', cwd=place)
    yield f'an archive whose program no longer runs: {ran}', ran[0] == 1 and not (room / 'of a broken one').exists()


def main():
    words = argparse.ArgumentParser(description=__doc__, formatter_class=argparse.RawDescriptionHelpFormatter)
    words.add_argument('--tool', type=Path, default=ROOT / LAUNCHED, help='the program; that of ./ubi_tool by default')
    tool = words.parse_args().tool.resolve()
    if not tool.is_file():
        sys.exit('install.py: nothing is built yet: run ./ubi_tool --version, or give --tool')
    with tempfile.TemporaryDirectory(prefix='ubi-install-') as room:
        room = Path(room)
        return report((*refused(room, tool), *installed(room, tool), *masked(room, tool), *cloned(room, tool),
                       *packed(room, tool)))


if __name__ == '__main__':
    sys.exit(main())
