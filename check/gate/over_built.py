"""Calls of `rattle` with the libraries that `rt ci` built. No stamp says what those were built from, so `rt` would
build them again."""
import subprocess
from pathlib import Path

ROOT = Path(__file__).resolve().parents[2]


def printed(words, folder):
    """What a command that runs in a folder prints."""
    return subprocess.run(words, cwd=folder, stdin=subprocess.DEVNULL, stdout=subprocess.PIPE,
                          stderr=subprocess.STDOUT, text=True, errors='replace').stdout


def kit():
    """The folder of the kit."""
    return Path(printed(['rt', 'doc'], ROOT).strip()).parent


def below(name):
    """The libraries that crates.txt names for a crate: those of the repository, and those of the kit; and what sort of
    crate it is, if the line says so."""
    rows = (line.partition(':') for line in (ROOT / 'crates.txt').read_text().splitlines())
    head, _, libraries = next(row for row in rows if row[0].split(' ')[0] == name)
    ours = [it for it in libraries.split() if (ROOT / 'crates' / it).is_dir()]
    return ours, [it for it in libraries.split() if it not in ours], head.split(' ')[1:]


def rattle(verb, crate, *flags):
    """The words of a call in the folder of a crate, which may be a copy."""
    place = kit()
    ours, others, sort = below(crate.name)
    root = 'src/lib.rt' if (crate / 'src/lib.rt').exists() else 'src/main.rt'
    words = [place / 'bin/rattle', verb, '--crate-name', crate.name, root, '-L', f'dependency={place}/rlibs']
    for name in sort:
        words += ['--crate-type', name]
    for name in ['std', *others]:
        words += ['--extern', f'{name}={place}/rlibs/{name}.rlib']
    for name in ours:
        words += ['--extern', f'{name}={ROOT}/crates/{name}/out/rlib/{name}.rlib']
    for library in sorted((ROOT / 'crates').glob('*/out/rlib')):
        words += ['-L', f'dependency={library}']
    words += ['--antt-project', place / 'rattle/logic/antt-project.json', '--logic-built', place / 'logic_built']
    return [*words, '--jobs', '1', *flags]
